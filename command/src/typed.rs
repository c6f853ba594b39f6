//! Names as people type them: which names of a trail they may stand for.

use std::ffi::OsStr;
use std::os::unix::ffi::OsStrExt;

/// What was typed may be a name as it stands, a path that the recorder wrote with its escapes, or a name as it is printed here,
/// with `\xNN` for some of its bytes. A `./` before it is taken off.
pub fn forms(typed: &OsStr) -> Vec<Vec<u8>> {
    let mut plain = typed.as_bytes();
    while let Some(rest) = plain.strip_prefix(b"./") {
        plain = rest;
    }
    let mut forms = vec![plain.to_vec()];
    for other in [escaped(plain), printed(plain)] {
        if !forms.contains(&other) {
            forms.push(other);
        }
    }
    forms
}

/// As the recorder writes a path.
fn escaped(path: &[u8]) -> Vec<u8> {
    let mut name = Vec::with_capacity(path.len());
    for &byte in path {
        match byte {
            b'\n' => name.extend(b"\\n"),
            b'\\' | b';' => name.extend([b'\\', byte]),
            _ => name.push(byte),
        }
    }
    name
}

/// The name that is printed as `text`.
fn printed(text: &[u8]) -> Vec<u8> {
    let mut name = Vec::with_capacity(text.len());
    let mut rest = text;
    while let Some((&byte, after)) = rest.split_first() {
        match hex_byte(rest) {
            Some(value) => {
                name.push(value);
                rest = &rest[4..];
            }
            None => {
                name.push(byte);
                rest = after;
            }
        }
    }
    name
}

fn hex_byte(text: &[u8]) -> Option<u8> {
    let digits = text.strip_prefix(b"\\x")?.get(..2)?;
    let value = |digit: u8| (digit as char).to_digit(16);
    Some((value(digits[0])? * 16 + value(digits[1])?) as u8)
}

/// A program's name without the `[PID]` at its end; any other name as it is.
pub fn without_pid(name: &[u8]) -> &[u8] {
    let Some(inner) = name.strip_suffix(b"]") else {
        return name;
    };
    match inner.iter().rposition(|byte| !byte.is_ascii_digit()) {
        Some(at) if inner[at] == b'[' && at + 1 < inner.len() => &inner[..at],
        _ => name,
    }
}

#[cfg(test)]
mod tests {
    use super::*;
    use crate::show;
    use proptest::prelude::*;

    proptest! {
        #[test]
        fn what_is_printed_can_be_typed(name: Vec<u8>) {
            prop_assume!(!name.starts_with(b"./") && !name.windows(2).any(|two| two == b"\\x"));
            prop_assert!(forms_of(show::name(&name).as_bytes()).contains(&name));
        }
    }

    fn forms_of(typed: &[u8]) -> Vec<Vec<u8>> {
        forms(OsStr::from_bytes(typed))
    }

    #[test]
    fn a_plain_name_has_one_form() {
        assert_eq!(forms_of(b"././reports/a.txt"), [b"reports/a.txt"]);
        assert_eq!(forms_of(b"../a"), [b"../a"]);
    }

    #[test]
    fn the_recorders_escapes_and_the_printed_bytes_are_tried() {
        assert_eq!(forms_of(b"a;b\n"), [&b"a;b\n"[..], b"a\\;b\\n"]);
        assert_eq!(
            forms_of(b"caf\\xe9"),
            [&b"caf\\xe9"[..], b"caf\\\\xe9", b"caf\xe9"]
        );
        assert_eq!(printed(b"\\x4g\\x4\\x\\"), b"\\x4g\\x4\\x\\");
    }

    #[test]
    fn only_digits_in_brackets_are_a_pid() {
        assert_eq!(without_pid(b"/bin/sh[12]"), b"/bin/sh");
        assert_eq!(without_pid(b"pipe:[7]"), b"pipe:");
        for name in [
            &b"/bin/sh[]"[..],
            b"/bin/sh[a]",
            b"12]",
            b"]",
            b"",
            b"/bin/sh[1",
        ] {
            assert_eq!(without_pid(name), name);
        }
    }
}
