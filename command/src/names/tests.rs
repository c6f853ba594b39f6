use super::{lines, numbered_base, Names, NamesError};
use trail::EntityNo;

fn of(text: &[u8]) -> Names {
    Names::from_text(text).unwrap()
}

#[test]
fn a_number_at_the_end_is_told_from_an_escaped_one() {
    let base = |name: &'static str| numbered_base(name.as_bytes());
    assert_eq!(base("/a;1"), Some(&b"/a"[..]));
    assert_eq!(base("/a;20"), Some(&b"/a"[..]));
    assert_eq!(base("/a;99999999999999999999999"), Some(&b"/a"[..]));
    assert_eq!(base("/a;2;3"), Some(&b"/a;2"[..]));
    assert_eq!(base(";1"), Some(&b""[..]));
    assert_eq!(base(r"/a\\;1"), Some(&br"/a\\"[..]));
    assert_eq!(base(r"/a\\\\;1"), Some(&br"/a\\\\"[..]));
    for whole in [
        "", "/a", "/a;", "/a;0", "/a;01", "/a;1x", "/a; 1", "/a;-1", "/a;1;", r"/a\;1", r"/a\\\;1",
        r"\;1",
    ] {
        assert_eq!(base(whole), None, "{whole}");
    }
}

#[test]
fn lines_are_ended_each() {
    assert_eq!(lines(b""), Some(vec![]));
    assert_eq!(lines(b"\n"), Some(vec![&b""[..]]));
    assert_eq!(lines(b"a\n\nb\n"), Some(vec![&b"a"[..], b"", b"b"]));
    assert_eq!(lines(b"a"), None);
    assert_eq!(lines(b"a\nb"), None);
}

#[test]
fn generations_are_counted_for_each_base() {
    let mut names = Names::default();
    for base in ["/a", "/b", "/a", "", r"/a\;2", "/a", ""] {
        names.push_made(base.as_bytes());
    }
    assert_eq!(names.text(), b"/a\n/b\n/a;2\n\n/a\\;2\n/a;3\n\n");
    assert_eq!(names.len(), 7);
    assert_eq!(
        names.generations(b"/a"),
        [EntityNo(0), EntityNo(2), EntityNo(5)]
    );
    assert_eq!(names.generations(b"/b"), [EntityNo(1)]);
    assert_eq!(names.generations(br"/a\;2"), [EntityNo(4)]);
    assert_eq!(names.generations(b"/a;2"), []);
    assert_eq!(names.generations(b""), []);
    assert_eq!(names.base_of(EntityNo(5)), b"/a");
    assert_eq!(names.base_of(EntityNo(4)), br"/a\;2");
    assert_eq!(names.name(EntityNo(3)), b"");
    assert_eq!(of(&names.text()), names);
}

#[test]
fn names_of_any_bytes_come_back() {
    let text = b"/caf\xe9\n/caf\xe9;2\n\x00\x01\xff\n [7]\r\n";
    assert_eq!(of(text).text(), text);
}

#[test]
fn names_that_are_not_those_of_a_trail_are_refused() {
    for (text, fault) in [
        (&b"/a"[..], NamesError::NotEnded),
        (b"/a\n/b", NamesError::NotEnded),
        (b"/a\n/a\n", NamesError::NotNext(2)),
        (b"/a;1\n", NamesError::NotNext(1)),
        (b"/a;2\n", NamesError::NotNext(1)),
        (b"/a\n/a;3\n", NamesError::NotNext(2)),
        (b"/a\n/a;2\n/a;2\n", NamesError::NotNext(3)),
        (b"/a\n/a;99999999999999999999999\n", NamesError::NotNext(2)),
        (b"/a\n/a;2\n/a;2;2\n", NamesError::NotNext(3)),
        (b";2\n", NamesError::NotNext(1)),
        (b"/a\\\n", NamesError::NotNext(1)),
        (b"/a\n/a\\\\\\\n", NamesError::NotNext(2)),
    ] {
        assert_eq!(Names::from_text(text), Err(fault));
    }
}
