//! The text of the listing program.

use reference::{listing, worked_declarations, worked_file, worked_signed_file, FileBuilder};

fn text(bytes: &[u8]) -> String {
    String::from_utf8(listing(bytes)).unwrap()
}

#[test]
fn worked_trail() {
    let expected = "trail 4 5 4 7 7\n\
                    edge 0 1 1 1\n\
                    edge 1 2 2 2\n\
                    edge 3 4 1 5\n\
                    edge 4 2 2 6\n";
    assert_eq!(text(&worked_file()), expected);
}

#[test]
fn first_event_at_time_0() {
    let file = worked_declarations().read(0, 1, 0).write(1, 2, 2).bytes();
    assert_eq!(text(&file), "trail 4 4 0 0 0\nrefused 9 5\n");
}

#[test]
fn refused_before_any_record() {
    assert_eq!(text(&[]), "trail 0 0 0 0 0\nrefused 1 0\n");
    let mut file = worked_file();
    file[3] = 3;
    assert_eq!(text(&file), "trail 0 0 0 0 0\nrefused 2 0\n");
}

#[test]
fn header_alone() {
    let header = FileBuilder::new().bytes();
    assert_eq!(text(&header), "trail 0 0 0 0 0\n");
}

/// A signature prints no line of its own.
#[test]
fn signed_report() {
    let file = worked_signed_file();
    assert_eq!(text(&file.clone().bytes()), text(&worked_file()));
    let expected = text(&worked_file()) + "refused 17 13\n";
    assert_eq!(text(&file.clone().write(1, 2, 8).bytes()), expected);
    assert_eq!(text(&file.sign(2).bytes()), expected);
    let in_version_1 = worked_declarations().sign(2).bytes();
    assert_eq!(text(&in_version_1), "trail 4 4 0 0 0\nrefused 4 5\n");
}

#[test]
fn record_cut_short() {
    let file = worked_file();
    let cut = &file[..8 + 12 * 6 + 1];
    let expected = "trail 4 4 2 2 2\nedge 0 1 1 1\nedge 1 2 2 2\nrefused 3 7\n";
    assert_eq!(text(cut), expected);
}

#[test]
fn first_record_refused() {
    let file = FileBuilder::new().object(1).bytes();
    assert_eq!(text(&file), "trail 0 0 0 0 0\nrefused 6 1\n");
}

/// 2,730 records fill 32,768 bytes.
fn longest_file() -> Vec<u8> {
    let declarations = 0..2_730;
    let file = declarations.fold(FileBuilder::new(), |file, number| file.object(number));
    file.bytes()
}

#[test]
fn longest_and_too_long() {
    let mut file = longest_file();
    assert_eq!(file.len(), 32_768);
    assert_eq!(text(&file), "trail 2730 2730 0 0 0\n");
    file.push(0);
    assert_eq!(text(&file), "too long\n");
}
