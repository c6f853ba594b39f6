//! The manual page, by its parts.

/// What an entry of a list is about, and its text.
pub type Entry = (String, String);

#[derive(Default)]
pub struct Page {
    pub text: String,
    pub options: Vec<Entry>,
    pub commands: Vec<Described>,
    pub exit_codes: Vec<Entry>,
    pub examples: Vec<String>,
    others: Vec<Entry>,
}

/// A command as the page describes it.
#[derive(Default)]
pub struct Described {
    pub usage: String,
    pub text: String,
    pub entries: Vec<Entry>,
}

impl Described {
    pub fn name(&self) -> &str {
        self.usage.split(' ').nth(1).unwrap()
    }
}

impl Page {
    pub fn read() -> Page {
        let mut page = Page::default();
        let mut section = String::new();
        let mut tag_follows = false;
        for line in include_str!("../../trail.1").lines() {
            let (request, text) = plain(line);
            page.text.push_str(&format!("{text} "));
            match request {
                "SH" => section = text,
                "SS" => page.commands.push(Described {
                    usage: text,
                    ..Described::default()
                }),
                "TP" => tag_follows = true,
                _ if tag_follows => {
                    tag_follows = false;
                    page.entries(&section).push((text, String::new()));
                }
                _ => page.add(&section, &text),
            }
        }
        page
    }

    fn add(&mut self, section: &str, text: &str) {
        if section == "EXAMPLES" {
            self.examples.push(text.to_string());
        }
        let text = format!("{text} ");
        match (self.entries(section).last_mut(), section) {
            (Some((_, entry)), _) => entry.push_str(&text),
            (None, "COMMANDS") => self.commands.last_mut().unwrap().text.push_str(&text),
            (None, _) => {}
        }
    }

    /// The entries of a section, in that of the commands those of the last one.
    fn entries(&mut self, section: &str) -> &mut Vec<Entry> {
        match section {
            "OPTIONS" => &mut self.options,
            "COMMANDS" => &mut self.commands.last_mut().unwrap().entries,
            "EXIT STATUS" => &mut self.exit_codes,
            _ => &mut self.others,
        }
    }
}

/// The request of a line, empty if it is text, and its text without marks for the type.
fn plain(line: &str) -> (&str, String) {
    let Some(rest) = line.strip_prefix('.') else {
        return ("", unescaped(line));
    };
    let (request, arguments) = rest.split_once(' ').unwrap_or((rest, ""));
    // Requests of two types, as BR, put nothing between their arguments.
    let is_of_two = request.len() == 2 && request.chars().all(|c| "BIR".contains(c));
    let between = if is_of_two { "" } else { " " };
    (request, unescaped(&words(arguments).join(between)))
}

/// The arguments of a request; one in quotes may have spaces.
fn words(text: &str) -> Vec<&str> {
    let mut words = Vec::new();
    let mut rest = text.trim_start();
    while !rest.is_empty() {
        let (word, after) = match rest.strip_prefix('"') {
            Some(quoted) => quoted.split_once('"').unwrap_or((quoted, "")),
            None => rest.split_once(' ').unwrap_or((rest, "")),
        };
        words.push(word);
        rest = after.trim_start();
    }
    words
}

fn unescaped(text: &str) -> String {
    let escapes = [
        ("\\fB", ""),
        ("\\fI", ""),
        ("\\fR", ""),
        ("\\-", "-"),
        ("\\e", "\\"),
    ];
    escapes
        .iter()
        .fold(text.to_string(), |text, (escape, meaning)| {
            text.replace(escape, meaning)
        })
}
