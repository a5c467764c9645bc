//! Inputs that are neither the text form nor blocks, by what they begin with.

use crate::model::*;
use ciztarmo::LIMIT;

/// What an input begins with, what it is then, and what helps.
const BEGINNINGS: [(&[u8], &str, &str); 6] = [
    (
        b"PK\x03\x04",
        "a zip archive, or a document that is kept as one",
        UNPACK,
    ),
    (b"\x1f\x8b", "a gzip archive", UNPACK),
    (b"\xd0\xcf\x11\xe0", "a document of an office program", SAVE),
    (b"%PDF", "a PDF document", SAVE),
    (b"{\\rtf", "an RTF document", SAVE),
    (b"\x89PNG", "a picture", SAVE),
];

const UNPACK: &str = "unpack it, or save it as plain text";
const SAVE: &str = "save it as plain text";

/// Why an input is neither text nor blocks, if that is so. What could be a block by its length is
/// left to the readers of blocks.
pub fn named(input: &[u8]) -> Option<String> {
    let length = input.get(..4)?;
    let length = u32::from_le_bytes([length[0], length[1], length[2], length[3]]);
    if length as usize <= LIMIT - 4 {
        return None;
    }
    if let Some((_, what, help)) = BEGINNINGS.iter().find(|b| input.starts_with(b.0)) {
        return Some(format!("this is {what}, neither text nor blocks: {help}"));
    }
    let width = wide(input)?;
    Some(format!("this is UTF-{width} text: save it as UTF-8"))
}

/// Whether the input is text of 16 or 32 bits a character: it has the mark of one, or an ASCII
/// character with zeros beside it.
fn wide(input: &[u8]) -> Option<u8> {
    match *input.first_chunk::<4>()? {
        [0, 0, 0xfe, 0xff] => Some(32),
        [0xff, 0xfe, ..] | [0xfe, 0xff, ..] => Some(16),
        // Two zeros at the end would be a block's length.
        [0, a, 0, _] | [a, 0, _, 0] if a != 0 => Some(16),
        _ => None,
    }
}

/// What is said where text is asked for and the input has zeros as blocks have.
pub fn not_text(input: &[u8]) -> String {
    let first = match input.get(4..6) {
        Some(kind) => match u16::from_le_bytes([kind[0], kind[1]]) {
            SET => "a set",
            LAYOUT => "a layout",
            VALUES => "values",
            RUN => "a run",
            _ => "",
        },
        None => "",
    };
    match first {
        "" => {
            let zero = input.iter().position(|b| *b == 0).unwrap_or(0);
            format!("this is no text: byte {zero} is 0")
        }
        _ => format!("these are blocks ({first} first), not text: `text show` writes them as text"),
    }
}

/// What is said of a character that may not stand where words are: the one that begins here.
pub fn character_told(rest: &[u8]) -> String {
    const BARE: &str = "a name without quotes has letters, digits, `_`, `.` and `:` only";
    let first = rest[0];
    if first == b'\t' {
        return "a tab: write spaces".to_string();
    }
    if first.is_ascii() {
        return format!("the byte 0x{first:02x} may stand only in a comment");
    }
    let Some(character) = character(rest) else {
        return format!(
            "the byte 0x{first:02x}, which is not UTF-8, may stand only in a comment: \
             save the text as UTF-8"
        );
    };
    let code = format!("U+{:04X}", u32::from(character));
    let shown = match "“”„‘’«»".contains(character) {
        true => format!("`{character}` ({code})"),
        false => code,
    };
    let help = match character {
        '“' | '”' | '„' | '«' | '»' => "; a name in quotes has \" around it",
        '\u{a0}' => "; between words stand spaces (0x20)",
        _ => "",
    };
    format!("{shown} may stand only in quotes or in a comment: {BARE}{help}")
}

/// The character that begins here, if it is UTF-8.
fn character(rest: &[u8]) -> Option<char> {
    let most = &rest[..rest.len().min(4)];
    let valid = match std::str::from_utf8(most) {
        Ok(valid) => valid,
        Err(e) => std::str::from_utf8(&most[..e.valid_up_to()]).ok()?,
    };
    valid.chars().next()
}
