//! What `--help` prints, by its parts.

use std::collections::BTreeSet;
use std::process::Command;

pub struct Help {
    text: String,
}

impl Help {
    pub fn whole() -> Help {
        Help::printed(&["--help"])
    }

    pub fn of(command: &str) -> Help {
        Help::printed(&["help", command])
    }

    fn printed(arguments: &[&str]) -> Help {
        let output = Command::new(env!("CARGO_BIN_EXE_trail"))
            .args(arguments)
            .output()
            .unwrap();
        assert!(output.status.success());
        Help {
            text: String::from_utf8(output.stdout).unwrap(),
        }
    }

    /// The indented lines after a heading.
    fn part(&self, heading: &str) -> Vec<&str> {
        let lines = self
            .text
            .lines()
            .skip_while(|line| *line != heading)
            .skip(1);
        lines
            .take_while(|line| line.starts_with(' '))
            .map(str::trim)
            .collect()
    }

    pub fn about(&self) -> &str {
        self.text.lines().next().unwrap()
    }

    pub fn usage(&self) -> String {
        let line = self
            .text
            .lines()
            .find_map(|line| line.strip_prefix("Usage: "));
        line.unwrap().replace(['<', '>'], "")
    }

    pub fn commands(&self) -> Vec<&str> {
        let lines = self.part("Commands:").into_iter();
        lines.map(|line| line.split(' ').next().unwrap()).collect()
    }

    /// What the lines of a part are about: before two spaces.
    pub fn tags(&self, heading: &str) -> BTreeSet<String> {
        self.part(heading).into_iter().map(tag).collect()
    }

    /// What stands in brackets for a tag, each after its word: environment, default, values.
    pub fn bracketed(&self, of: &str) -> Vec<String> {
        let mut lines = self.text.lines().map(str::trim);
        let line = lines.find(|line| tag(line).starts_with(of)).unwrap();
        let (_, text) = line.split_once("  ").unwrap();
        let parts = text
            .split('[')
            .skip(1)
            .map(|part| part.trim_end().trim_end_matches(']'));
        parts
            .map(|part| part.split_once(": ").unwrap().1.to_string())
            .collect()
    }

    pub fn exit_codes(&self) -> Vec<(String, String)> {
        let codes = self
            .part("Exit codes:")
            .into_iter()
            .filter_map(|line| line.split_once("  "));
        codes
            .map(|(code, text)| (code.to_string(), text.to_string()))
            .collect()
    }
}

/// `<NAME>...` and `[NAME]...` are `NAME` at the entries of the manual.
fn tag(line: &str) -> String {
    let tag = line.split("  ").next().unwrap();
    let plain = tag.replace(['<', '>', '[', ']'], "");
    plain.trim_end_matches("...").to_string()
}
