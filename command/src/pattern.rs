//! Patterns for names: `*` stands for any characters, `?` for one.

use crate::typed;
use std::ffi::OsStr;

pub struct Pattern {
    /// What may be meant, as with a name that is typed.
    forms: Vec<Vec<Part>>,
}

#[derive(Debug, PartialEq)]
enum Part {
    Any,
    One,
    /// A character, or a byte that belongs to none.
    Character(Vec<u8>),
}

impl Pattern {
    pub fn new(typed: &OsStr) -> Pattern {
        let parts = |form: &Vec<u8>| characters(form).map(Part::of).collect();
        Pattern {
            forms: typed::forms(typed).iter().map(parts).collect(),
        }
    }

    /// Whether the name fits, or its end after some `/`.
    pub fn fits(&self, name: &[u8]) -> bool {
        self.forms.iter().any(|parts| fits(parts, name))
    }
}

impl Part {
    fn of(character: &[u8]) -> Part {
        match character {
            b"*" => Part::Any,
            b"?" => Part::One,
            other => Part::Character(other.to_vec()),
        }
    }
}

/// Reads the name once. `at[i]` says that the parts before i fit what was read from the start, or from after a `/`.
fn fits(parts: &[Part], name: &[u8]) -> bool {
    let mut at = vec![false; parts.len() + 1];
    start(parts, &mut at, true);
    for character in characters(name) {
        let mut next = vec![false; parts.len() + 1];
        for (i, part) in parts.iter().enumerate().filter(|(i, _)| at[*i]) {
            match part {
                Part::Any => next[i] = true,
                Part::One => next[i + 1] = true,
                Part::Character(same) => next[i + 1] |= same == character,
            }
        }
        start(parts, &mut next, character == b"/");
        at = next;
    }
    at[parts.len()]
}

/// Where reading may start here, and past each `*`, which may stand for nothing.
fn start(parts: &[Part], at: &mut [bool], here: bool) {
    at[0] |= here;
    for (i, part) in parts.iter().enumerate() {
        at[i + 1] |= at[i] && *part == Part::Any;
    }
}

fn characters(bytes: &[u8]) -> impl Iterator<Item = &[u8]> {
    bytes.utf8_chunks().flat_map(|chunk| {
        let valid = chunk.valid();
        let ends = valid.char_indices().map(|(at, c)| (at, c.len_utf8()));
        ends.map(|(at, length)| &valid.as_bytes()[at..at + length])
            .chain(chunk.invalid().chunks(1))
    })
}

#[cfg(test)]
mod tests {
    use super::*;
    use proptest::prelude::*;
    use std::os::unix::ffi::OsStrExt;

    /// By the meaning of each character, one after the other.
    fn fits_whole(pattern: &[u8], name: &[u8]) -> bool {
        match (pattern.split_first(), name.split_first()) {
            (None, first) => first.is_none(),
            (Some((b'*', rest)), _) => {
                (0..=name.len()).any(|skipped| fits_whole(rest, &name[skipped..]))
            }
            (Some((b'?', rest)), Some((_, after))) => fits_whole(rest, after),
            (Some((same, rest)), Some((byte, after))) => same == byte && fits_whole(rest, after),
            (Some(_), None) => false,
        }
    }

    proptest! {
        #[test]
        fn fits_as_each_character_means(pattern in "[ab/*?]{0,6}", name in "[ab/]{0,8}") {
            let ends = name.match_indices('/').map(|(at, _)| at + 1).chain([0]);
            let (pattern, name) = (pattern.as_bytes(), name.as_bytes());
            let expected = ends.into_iter().any(|from| fits_whole(pattern, &name[from..]));
            prop_assert_eq!(fits(pattern, name), expected);
        }
    }

    fn fits(pattern: &[u8], name: &[u8]) -> bool {
        Pattern::new(OsStr::from_bytes(pattern)).fits(name)
    }

    #[test]
    fn the_whole_name_or_its_end_after_a_slash() {
        for pattern in [
            "/srv/reports/a.txt",
            "reports/a.txt",
            "a.txt",
            "*.txt",
            "reports/*",
            "s*/a.txt",
            "*",
        ] {
            assert!(fits(pattern.as_bytes(), b"/srv/reports/a.txt"), "{pattern}");
        }
        for pattern in [
            "srv",
            "ports/a.txt",
            "reports",
            "a.tx",
            "reports/?",
            "",
            "a.txt?",
            "b*",
        ] {
            assert!(
                !fits(pattern.as_bytes(), b"/srv/reports/a.txt"),
                "{pattern}"
            );
        }
    }

    #[test]
    fn a_question_mark_is_one_character_or_one_stray_byte() {
        assert!(fits(b"caf?", "café".as_bytes()));
        assert!(fits(b"caf?", b"caf\xe9"));
        assert!(!fits(b"caf??", "café".as_bytes()));
        assert!(fits(b"caf\xe9*", b"/srv/caf\xe9.txt"));
        assert!(fits(b"caf\\xe9*", b"/srv/caf\xe9.txt"));
    }

    #[test]
    fn the_recorders_escapes_are_tried() {
        assert!(fits(b"a;b*", b"/srv/a\\;b.txt"));
        assert!(fits(b"*\\*", b"/srv/a\\\\b"));
    }

    #[test]
    fn many_stars_take_no_longer() {
        let pattern = b"*a".repeat(500);
        assert!(!fits(&pattern, &b"/a".repeat(499)));
        assert!(fits(&pattern, &b"a".repeat(500)));
    }
}
