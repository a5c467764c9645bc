//! A record's parts as SVG: lines of 16 bytes, and in each the parts that lie there.

use crate::map::{Kind, Map, Row, Title};

/// How many bytes a line has, and how many lines are drawn.
const LINE: u64 = 16;
const MOST_LINES: u64 = 1024;

/// Sizes in pixels: a byte, a line with the space below it, the margins, a letter.
const BYTE: u64 = 56;
const HIGH: u64 = 30;
const BOX: u64 = 26;
const LEFT: u64 = 72;
const TOP: u64 = 64;
const LETTER: u64 = 7;

/// The longest record that is drawn.
pub const MOST_BYTES: u64 = LINE * MOST_LINES;

/// Light fills, so that the names can be read on them; parts take them in turn.
const FILLS: [&str; 6] = [
    "#cfe3f7", "#fde2c8", "#d8efd3", "#f6d5e0", "#e3daf2", "#f4eebd",
];

/// Draws a map of at most `MOST_BYTES`. The title stands above.
pub fn draw(title: &Title, map: &Map) -> String {
    let total = map.rows.first().map_or(0, |row| row.count);
    let lines = total.div_ceil(LINE).max(1);
    let values = wrapped(&title.values);
    let top = TOP + 16 * values.len() as u64;
    let (width, height) = (LEFT + LINE * BYTE + 16, top + lines * HIGH + 16);
    let mut out = format!(
        "<svg xmlns=\"http://www.w3.org/2000/svg\" width=\"{width}\" height=\"{height}\" \
         viewBox=\"0 0 {width} {height}\" font-family=\"monospace\" font-size=\"11\">\n{UNKNOWN}\n\
         <rect width=\"{width}\" height=\"{height}\" fill=\"#ffffff\"/>\n\
         <text x=\"16\" y=\"24\" font-size=\"14\">{}</text>\n",
        escaped(&title.head)
    );
    for (y, line) in (44..).step_by(16).zip(&values) {
        out += &format!("<text x=\"16\" y=\"{y}\">{}</text>\n", escaped(line));
    }
    for i in 0..LINE {
        let (x, y) = (LEFT + i * BYTE + BYTE / 2, top - 8);
        out += &label(x, y, "middle", i);
    }
    for line in 0..lines {
        let y = top + line * HIGH + 17;
        out += &label(LEFT - 8, y, "end", line * LINE);
    }
    // What lies inside a part is drawn over it, so that the bytes of none are seen as the part's.
    let mut turn = 0;
    for (i, row) in map.rows.iter().enumerate().filter(|(_, r)| r.count > 0) {
        let fill = match row.kind {
            Kind::Padding => "#eeeeee",
            Kind::Sum => "url(#unknown)",
            Kind::Part => {
                turn += 1;
                FILLS[turn % FILLS.len()]
            }
        };
        // Only the innermost parts have their names in them.
        let inside = map
            .rows
            .get(i + 1)
            .is_some_and(|next| next.depth > row.depth);
        out += &part(row, top, fill, !inside);
    }
    out + "</svg>\n"
}

/// The fill of what lies somewhere in a sum.
const UNKNOWN: &str = "<defs><pattern id=\"unknown\" width=\"8\" height=\"8\" \
    patternUnits=\"userSpaceOnUse\" patternTransform=\"rotate(45)\">\
    <rect width=\"8\" height=\"8\" fill=\"#ffffff\"/>\
    <rect width=\"3\" height=\"8\" fill=\"#d8d8d8\"/></pattern></defs>";

/// A number beside or above the bytes.
fn label(x: u64, y: u64, anchor: &str, number: u64) -> String {
    format!("<text x=\"{x}\" y=\"{y}\" text-anchor=\"{anchor}\" fill=\"#606060\">{number}</text>\n")
}

/// The values in lines of some length.
fn wrapped(values: &[String]) -> Vec<String> {
    let most = ((LEFT + LINE * BYTE) / LETTER - 4) as usize;
    let mut lines: Vec<String> = Vec::new();
    for value in values {
        match lines.last_mut() {
            Some(line) if width(line) + width(value) + 2 <= most => *line += &format!(", {value}"),
            _ => lines.push(value.clone()),
        }
    }
    lines
}

/// A part: a box for each line that it lies in, and its name in the longest one.
fn part(row: &Row, top: u64, fill: &str, named: bool) -> String {
    let note = match row.note.is_empty() {
        true => String::new(),
        false => format!(": {}", row.note),
    };
    let last = row.at + row.count - 1;
    let told = format!("{} (bytes {} to {last}){note}", row.name, row.at);
    let mut out = format!("<g><title>{}</title>", escaped(&told));
    let mut name_at = (0, 0, 0);
    for line in row.at / LINE..=last / LINE {
        let from = row.at.max(line * LINE);
        let bytes = (last + 1).min((line + 1) * LINE) - from;
        let (x, y) = (LEFT + from % LINE * BYTE, top + line * HIGH);
        let wide = bytes * BYTE;
        out += &format!(
            "<rect x=\"{x}\" y=\"{y}\" width=\"{wide}\" height=\"{BOX}\" fill=\"{fill}\" \
             stroke=\"#404040\" stroke-width=\"0.8\"/>"
        );
        if wide > name_at.2 {
            name_at = (x, y, wide);
        }
    }
    if named {
        let (x, y, wide) = name_at;
        let name = match (fitting(&row.name, wide), row.kind) {
            (short, Kind::Padding) if short != row.name => "pad".to_string(),
            (name, _) => name,
        };
        let (x, y) = (x + wide / 2, y + 17);
        let name = escaped(&name);
        out += &format!("<text x=\"{x}\" y=\"{y}\" text-anchor=\"middle\">{name}</text>");
    }
    out + "</g>\n"
}

/// A name, or the end of it that says most, or as much of it as fits.
fn fitting(name: &str, wide: u64) -> String {
    let most = (wide / LETTER).saturating_sub(1) as usize;
    let field = name.rsplit('.').next().unwrap_or(name);
    let element = name.rfind('[').map_or(field, |at| &name[at..]);
    let ends = [name, field, element];
    match ends.iter().find(|end| width(end) <= most) {
        Some(end) => end.to_string(),
        None => format!("{}..", beginning(field, most.saturating_sub(2))),
    }
}

/// How many letters wide a text may be: characters from U+1100 on may have the width of two.
fn width(text: &str) -> usize {
    text.chars().map(letters).sum()
}

fn letters(c: char) -> usize {
    1 + usize::from(c >= '\u{1100}')
}

/// As much of a text as is so many letters wide.
fn beginning(text: &str, most: usize) -> &str {
    let mut wide = 0;
    let passes = |c: char| {
        wide += letters(c);
        wide > most
    };
    &text[..text.find(passes).unwrap_or(text.len())]
}

/// Text between tags. Two characters that a name may have and XML may not are shown as U+FFFD.
fn escaped(text: &str) -> String {
    let text = text.replace('&', "&amp;").replace('<', "&lt;");
    let text = text.replace('>', "&gt;");
    text.replace(['\u{fffe}', '\u{ffff}'], "\u{fffd}")
}
