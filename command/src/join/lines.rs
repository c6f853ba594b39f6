//! The names of a recording: a line for each entity, which says whether it stood before the recording or was made during it.

use crate::failure::{Exit, Failure};
use crate::names::{escapes_next, lines, numbered_base};
use crate::path::shown;
use crate::show;
use std::collections::HashMap;
use std::path::Path;

/// A line of the names of a recording.
#[derive(Clone, Copy, Debug, PartialEq, Eq)]
pub enum Line<'a> {
    Unnamed,
    /// Stood before the recording under this name.
    Stood(&'a [u8]),
    /// Made during the recording, with this base, as the one of this number.
    Made(&'a [u8], &'a [u8]),
}

impl<'a> Line<'a> {
    /// Empty for an unnamed one.
    pub fn base(self) -> &'a [u8] {
        match self {
            Line::Unnamed => b"",
            Line::Stood(base) | Line::Made(base, _) => base,
        }
    }

    /// Orders the lines of one base: first those that stood before, then by number, which has no leading zeros.
    fn making(self) -> (usize, &'a [u8]) {
        match self {
            Line::Unnamed | Line::Stood(_) => (0, b""),
            Line::Made(_, number) => (number.len(), number),
        }
    }
}

/// The place of each line, if those of one base change places so that they stand in the order of their making.
pub fn in_order_of_making(lines: &[Line]) -> Vec<usize> {
    let mut places: Vec<usize> = (0..lines.len()).collect();
    let mut of_base: HashMap<&[u8], Vec<usize>> = HashMap::new();
    for (index, line) in lines.iter().enumerate() {
        of_base.entry(line.base()).or_default().push(index);
    }
    of_base.remove(&b""[..]);
    for indices in of_base.into_values() {
        let mut made = indices.clone();
        made.sort_by_key(|index| lines[*index].making());
        for (place, index) in indices.into_iter().zip(made) {
            places[index] = place;
        }
    }
    places
}

/// The lines of a recording's names, if they are right for its entities.
pub fn lines_of<'a>(text: &'a [u8], file: &Path, entities: u32) -> Result<Vec<Line<'a>>, Failure> {
    let wrong = |what: String| {
        let reason = format!("{}: {what}", shown(file));
        Failure::new(Exit::Refused, reason.clone()).with("reason", reason)
    };
    let Some(texts) = lines(text) else {
        return Err(wrong("its last line is not ended by a newline".to_string()));
    };
    if texts.len() != entities as usize {
        let (lines, entities) = (
            show::count(texts.len() as u64, "line", "lines"),
            show::count(entities.into(), "entity", "entities"),
        );
        return Err(wrong(format!(
            "it has {lines}, and the event file declares {entities}"
        )));
    }
    let mut made = HashMap::new();
    let mut parsed = Vec::with_capacity(texts.len());
    for (number, text) in (1..).zip(texts) {
        let line = line(text)
            .map_err(|what| wrong(format!("line {number}, {}, {what}", show::name(text))))?;
        if let (Line::Made(..), Some(before)) = (line, made.insert(text, number)) {
            let text = show::name(text);
            return Err(wrong(format!(
                "lines {before} and {number} are both {text}"
            )));
        }
        parsed.push(line);
    }
    Ok(parsed)
}

/// A base has to be one of which generations can be told apart.
fn line(text: &[u8]) -> Result<Line<'_>, &'static str> {
    let line = match numbered_base(text) {
        _ if text.is_empty() => Line::Unnamed,
        Some(b"") => Line::Unnamed,
        None => Line::Stood(text),
        Some(base) => Line::Made(base, &text[base.len() + 1..]),
    };
    match line {
        Line::Stood(base) if escapes_next(base) => {
            Err("ends in a backslash that escapes nothing; a \\ of the name itself is written \\\\")
        }
        Line::Made(base, _) if numbered_base(base).is_some() => {
            Err("ends in two numbers; a ; of the name itself is written \\;")
        }
        line => Ok(line),
    }
}

#[cfg(test)]
mod tests {
    use super::*;

    #[test]
    fn a_line_says_whether_its_entity_was_made() {
        let text = b"/a\n/a;1\n\n;1\n/a\\;1\n/a;2\n";
        let lines = lines_of(text, Path::new("a.names"), 6).unwrap();
        let expected = [
            Line::Stood(b"/a"),
            Line::Made(b"/a", b"1"),
            Line::Unnamed,
            Line::Unnamed,
            Line::Stood(b"/a\\;1"),
            Line::Made(b"/a", b"2"),
        ];
        assert_eq!(lines, expected);
        assert_eq!(lines_of(b"", Path::new("a.names"), 0).unwrap(), []);
    }

    #[test]
    fn lines_of_one_base_stand_as_they_were_made() {
        let text = b"/b;10\n\n/a\n/b;2\n;1\n/b\n/a;1\n/b;9\n";
        let lines = lines_of(text, Path::new("a.names"), 8).unwrap();
        assert_eq!(in_order_of_making(&lines), [7, 1, 2, 3, 4, 0, 6, 5]);
    }

    #[test]
    fn wrong_names_are_refused() {
        for (text, entities, words) in [
            (
                &b"/a\n/b"[..],
                2,
                "a.names: its last line is not ended by a newline",
            ),
            (
                b"/a\n",
                2,
                "a.names: it has 1 line, and the event file declares 2 entities",
            ),
            (
                b"/a\n/b\n",
                1,
                "a.names: it has 2 lines, and the event file declares 1 entity",
            ),
            (
                b"",
                1,
                "a.names: it has 0 lines, and the event file declares 1 entity",
            ),
            (
                b"/a;1\n/b\n/a;1\n",
                3,
                "a.names: lines 1 and 3 are both /a;1",
            ),
            (
                b"/b\n/a;2;1\n",
                2,
                "a.names: line 2, /a;2;1, ends in two numbers; a ; of the name itself is written \\;",
            ),
            (
                b"/a\\\n",
                1,
                "a.names: line 1, /a\\, ends in a backslash that escapes nothing; a \\ of the name itself is written \\\\",
            ),
        ] {
            let failure = lines_of(text, Path::new("a.names"), entities).unwrap_err();
            assert_eq!(
                (failure.exit, failure.message.as_str()),
                (Exit::Refused, words)
            );
        }
    }
}
