//! Inputs that are neither text nor blocks are named, whatever is asked of them.

mod common;

use ciztarmo_text::commands;
use common::{blocks, read};

/// What each command says of an input; all say the same.
fn told(input: &[u8]) -> String {
    let checked = commands::check("t", input).unwrap_err();
    for other in [
        commands::blocks("t", input, false),
        commands::show("t", input, false),
        commands::show("t", input, true),
        commands::tree("t", input),
        commands::lengths("t", input),
        commands::layout("t", input),
        commands::parameters("t", input, "T"),
    ] {
        assert_eq!(other.unwrap_err(), checked);
    }
    checked
}

/// A text of two bytes a character.
fn utf16(text: &str, bytes: fn(u16) -> [u8; 2]) -> Vec<u8> {
    text.encode_utf16().flat_map(bytes).collect()
}

#[test]
fn wide_texts() {
    let wide = "t: this is UTF-16 text: save it as UTF-8";
    let trip = String::from_utf8(read("examples/trip.txt")).unwrap();
    for text in [&trip, "set\n", "\u{feff}set\n", "\u{feff}# é\n"] {
        assert_eq!(told(&utf16(text, u16::to_le_bytes)), wide, "{text}");
        assert_eq!(told(&utf16(text, u16::to_be_bytes)), wide, "{text}");
    }
    let utf32: Vec<u8> = "\u{feff}set"
        .chars()
        .flat_map(|c| u32::from(c).to_be_bytes())
        .collect();
    assert_eq!(told(&utf32), wide.replace("16", "32"));
}

#[test]
fn archives_and_documents() {
    let neither = "neither text nor blocks";
    let zip = format!(
        "t: this is a zip archive, or a document that is kept as one, {neither}: \
         unpack it, or save it as plain text"
    );
    assert_eq!(told(b"PK\x03\x04\x14\0\x08\0"), zip);
    assert_eq!(told(b"PK\x03\x04\x0a\x01\x08\0"), zip);
    let gzip = format!("t: this is a gzip archive, {neither}: unpack it, or save it as plain text");
    assert_eq!(told(b"\x1f\x8b\x08\x08abcd"), gzip);
    assert_eq!(told(b"\x1f\x8b\x08\0\0\0\0\0"), gzip);
    let pdf = format!("t: this is a PDF document, {neither}: save it as plain text");
    assert_eq!(told(b"%PDF-1.7\n"), pdf);
    let rtf = format!("t: this is an RTF document, {neither}: save it as plain text");
    assert_eq!(told(b"{\\rtf1\\ansi"), rtf);
}

/// A block may begin with any length up to the limit, also with bytes that a text begins with.
#[test]
fn blocks_are_left_to_their_readers() {
    // A length of 65,279 is FF FE, the mark of UTF-16.
    let mut set = vec![0xff, 0xfe, 0, 0, 36, 0];
    set.resize(4 + 0xfeff, 0);
    let said = commands::check("t", &set).unwrap_err();
    assert!(said.starts_with("t: byte 0: refused 2: "), "{said}");
    // Too long, and no text: the reader's number is told.
    let said = commands::check("t", &[0, 0, 1, 0, 36, 0]).unwrap_err();
    let long = "t: byte 0: refused 1: this block is longer than 65,536 bytes";
    assert_eq!(said, long);
    let said = commands::show("t", b"\x1f\x8b\0\0\x24\0", false).unwrap_err();
    assert_eq!(
        said,
        "t: byte 0: refused 2: the file ends inside this block"
    );
}

#[test]
fn blocks_where_text_is_asked_for() {
    let said = |input: &[u8]| commands::blocks("t", input, true).unwrap_err();
    for (text, first) in [
        ("set\n", "a set"),
        ("layout\n", "a layout"),
        ("values\n", "values"),
        ("run T length 1\n", "a run"),
    ] {
        let message = format!(
            "t: these are blocks ({first} first), not text: `text show` writes them as text"
        );
        assert_eq!(said(&blocks(text)), message);
    }
    assert_eq!(said(b"ab\0\0cdef"), "t: this is no text: byte 2 is 0");
    assert_eq!(said(b"a\0"), "t: this is no text: byte 1 is 0");
}

/// A name that can't stand in a set is told what names may be.
#[test]
fn asked_types() {
    let said = |name| commands::parameters("t", b"set\n  primitive T size 1\n", name).unwrap_err();
    assert_eq!(said("é"), "t: no type has the name é; there are T");
    assert_eq!(said("🚌"), "t: no type has the name \"🚌\"; there are T");
    let message = "t: no type has the name \"\u{7f}\" (a name has no byte below 0x20 and no 0x7F); there are T";
    assert_eq!(said("\u{7f}"), message);
}
