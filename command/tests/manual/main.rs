//! The manual says what `--help` says: the same commands, arguments, options, values and exit codes, both ways.

mod help;
mod page;

use help::Help;
use page::Page;
use std::collections::BTreeSet;

/// What the manual describes once, for all commands.
const GLOBAL: [&str; 3] = ["-t, --trail DIR", "--json", "-h, --help"];

#[test]
fn the_same_commands_in_the_same_order() {
    let page = Page::read();
    let described: Vec<&str> = page.commands.iter().map(|command| command.name()).collect();
    assert_eq!(described, Help::whole().commands());
}

#[test]
fn the_same_usage_and_first_sentence() {
    for command in Page::read().commands {
        let help = Help::of(command.name());
        assert_eq!(command.usage, help.usage());
        assert_eq!(
            first_sentence(&command.text),
            help.about(),
            "{}",
            command.usage
        );
    }
}

#[test]
fn the_same_arguments_and_options_of_each_command() {
    for command in Page::read().commands {
        let help = Help::of(command.name());
        let mut tags = help.tags("Arguments:");
        tags.extend(help.tags("Options:"));
        tags.retain(|tag| !GLOBAL.contains(&tag.as_str()));
        let described: BTreeSet<String> = command.entries.into_iter().map(|(tag, _)| tag).collect();
        assert_eq!(described, tags, "{}", command.usage);
    }
}

#[test]
fn the_same_options_of_all_commands() {
    let help = Help::whole();
    let page = Page::read();
    let described: BTreeSet<String> = page.options.iter().map(|(tag, _)| tag.clone()).collect();
    assert_eq!(described, help.tags("Options:"));
    let (_, folder) = &page.options[0];
    for value in help.bracketed("-t, --trail") {
        assert!(folder.contains(&value), "{value:?} is in {folder:?}");
    }
}

#[test]
fn the_same_shells() {
    let page = Page::read();
    let completions = page
        .commands
        .iter()
        .find(|command| command.name() == "completions");
    let (_, text) = &completions.unwrap().entries[0];
    let shells = text.strip_prefix("One of these: ").unwrap();
    let values = Help::of("completions").bracketed("SHELL");
    assert_eq!(first_sentence(shells), values.concat());
}

#[test]
fn the_same_exit_codes() {
    let page = Page::read();
    let described = page
        .exit_codes
        .iter()
        .map(|(code, text)| (code.clone(), first_sentence(text)));
    let described: Vec<(String, String)> = described.collect();
    assert_eq!(described, Help::whole().exit_codes());
    assert_eq!(described.len(), 8);
}

#[test]
fn options_in_running_text_and_commands_of_examples_are_real() {
    let page = Page::read();
    let mut options = Help::whole().tags("Options:");
    for command in &page.commands {
        options.extend(Help::of(command.name()).tags("Options:"));
    }
    let known: BTreeSet<&str> = options
        .iter()
        .flat_map(|tag| tag.split([' ', ',']))
        .collect();
    let words = page
        .text
        .split(|c: char| c.is_whitespace() || "(),.;:".contains(c));
    for word in words.filter(|word| word.starts_with("--")) {
        assert!(known.contains(word), "{word}");
    }
    for example in &page.examples {
        let mut words = example.split(' ').filter(|word| !word.starts_with("--"));
        if words.next() == Some("trail") {
            let command = words.next();
            let is_real = page
                .commands
                .iter()
                .any(|real| Some(real.name()) == command);
            assert!(is_real, "{example}");
        }
    }
}

fn first_sentence(text: &str) -> String {
    text.split(". ").next().unwrap_or("").to_string()
}
