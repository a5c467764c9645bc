//! What was measured, as aligned text or as Markdown.

use super::Head;

/// Nanoseconds of a call. `before` is the older archive's, `whole` the Rust
/// from bytes to the answer with the judge's decoder, `lean` with one that decodes straight into the Rust's
/// values, `checks` a Rust reader that keeps nothing, `alone` the Rust's own
/// call on values that it has.
pub struct Row {
    pub what: String,
    /// Bytes, values, calls or types: what the rows of a group differ in. A
    /// row of another sort, or with times for each run, has none.
    pub size: Option<usize>,
    pub ours: f64,
    pub before: Option<f64>,
    pub whole: f64,
    pub lean: Option<f64>,
    pub checks: Option<f64>,
    pub alone: Option<f64>,
}

/// Rows that show how time grows with their size.
pub struct Group {
    pub head: Head,
    pub rows: Vec<Row>,
}

/// One kind of call in parts: reading bytes to the judge's trees, from there
/// to the Rust's values, the Rust's call, back to trees, and writing.
pub struct Parts {
    pub what: String,
    pub ours: f64,
    pub decode: f64,
    pub convert: f64,
    pub call: f64,
    pub convert_back: f64,
    pub encode: f64,
}

impl Parts {
    /// The Rust's time with the conversions left out.
    pub fn bare(&self) -> f64 {
        self.decode + self.call + self.encode
    }
}

/// A ratio of the Rust's time to ours: wanted, measured, and measured without
/// the conversions.
pub struct Aim {
    pub what: String,
    pub wanted: f64,
    pub got: f64,
    pub bare: Option<f64>,
}

impl Aim {
    /// Beside the Rust from bytes to the answer.
    pub fn whole(what: &str, wanted: f64, row: &Row, parts: Option<&Parts>) -> Aim {
        Aim {
            what: what.to_string(),
            wanted,
            got: row.whole / row.ours,
            bare: parts.map(|p| p.bare() / p.ours),
        }
    }

    /// No slower than the Rust's own call on values that it has.
    pub fn alone(what: &str, row: &Row) -> Aim {
        Aim {
            what: what.to_string(),
            wanted: 1.0,
            got: row.alone.unwrap_or(0.0) / row.ours,
            bare: None,
        }
    }
}

/// A part that a call does not have took no time.
fn micro(ns: f64) -> String {
    match ns {
        0.0 => "-".to_string(),
        ns if ns < 1000.0 => format!("{:.3}", ns / 1000.0),
        ns => format!("{:.2}", ns / 1000.0),
    }
}

fn ratio(ratio: f64) -> String {
    match ratio < 0.1 {
        true => format!("{ratio:.4}"),
        false => format!("{ratio:.2}"),
    }
}

/// Nanoseconds of ours for each unit that a row has more than the one above.
fn slope(rows: &[Row], i: usize) -> String {
    let before = i.checked_sub(1).map(|before| &rows[before]);
    match (before.and_then(|b| Some((b.size?, b.ours))), rows[i].size) {
        (Some((size, ours)), Some(more)) => {
            let units = more as f64 - size as f64;
            format!("{:.2}", (rows[i].ours - ours) / units)
        }
        _ => "-".to_string(),
    }
}

/// The columns beside ours that a group has, each with its ratio.
fn beside(row: &Row) -> [(&'static str, Option<f64>); 5] {
    [
        ("before, µs", row.before),
        ("Rust from bytes, µs", Some(row.whole)),
        ("lean Rust from bytes, µs", row.lean),
        ("Rust that only checks, µs", row.checks),
        ("Rust's call alone, µs", row.alone),
    ]
}

fn group_lines(group: &Group) -> Vec<Vec<String>> {
    let mut head = vec![group.head.0.to_string(), "ours, µs".to_string()];
    // A column that no row of the group has is left out.
    let had = |i: usize| group.rows.iter().any(|row| beside(row)[i].1.is_some());
    let columns: Vec<usize> = (0..5).filter(|i| had(*i)).collect();
    for i in &columns {
        head.push(beside(&group.rows[0])[*i].0.to_string());
        head.push("ratio".to_string());
    }
    head.push(format!("ours, ns per {} more", group.head.1));
    let mut out = vec![head];
    for (i, row) in group.rows.iter().enumerate() {
        let mut line = vec![row.what.clone(), micro(row.ours)];
        for column in &columns {
            let time = beside(row)[*column].1;
            line.push(time.map_or("-".to_string(), micro));
            line.push(time.map_or("-".to_string(), |ns| ratio(ns / row.ours)));
        }
        line.push(slope(&group.rows, i));
        out.push(line);
    }
    out
}

fn parts_lines(parts: &[Parts]) -> Vec<Vec<String>> {
    let head = [
        "the Rust's side in parts, µs",
        "decode",
        "convert",
        "call",
        "convert back",
        "encode",
        "ours",
        "ratio without conversions",
    ];
    let mut out = vec![head.map(str::to_string).to_vec()];
    for p in parts {
        let mut line = vec![p.what.clone()];
        let times = [
            p.decode,
            p.convert,
            p.call,
            p.convert_back,
            p.encode,
            p.ours,
        ];
        line.extend(times.map(micro));
        line.push(ratio(p.bare() / p.ours));
        out.push(line);
    }
    out
}

fn aim_lines(aims: &[Aim]) -> Vec<Vec<String>> {
    let head = ["aim", "wanted", "ratio", "", "without conversions", ""];
    let mut out = vec![head.map(str::to_string).to_vec()];
    let met = |got: f64, aim: &Aim| match got >= aim.wanted {
        true => "met".to_string(),
        false => "not met".to_string(),
    };
    for aim in aims {
        let bare = |told: &dyn Fn(f64) -> String| aim.bare.map_or("-".to_string(), told);
        out.push(vec![
            aim.what.clone(),
            format!("{}", aim.wanted),
            ratio(aim.got),
            met(aim.got, aim),
            bare(&ratio),
            bare(&|got| met(got, aim)),
        ]);
    }
    out
}

pub fn print(groups: &[Group], parts: &[Parts], aims: &[Aim], markdown: bool) {
    let last = match aims {
        [] => Vec::new(),
        _ => vec![parts_lines(parts), aim_lines(aims)],
    };
    let tables = groups.iter().map(group_lines).chain(last);
    let texts: Vec<String> = match markdown {
        true => tables.map(|t| as_markdown(&t)).collect(),
        false => tables.map(|t| as_text(&t)).collect(),
    };
    print!("{}", texts.join("\n"));
}

fn as_text(table: &[Vec<String>]) -> String {
    let width = |column: usize| {
        let widths = table.iter().map(|line| line[column].chars().count());
        widths.max().unwrap_or(0)
    };
    let mut out = String::new();
    for line in table {
        out += &format!("{:<width$}", line[0], width = width(0));
        for (column, text) in line.iter().enumerate().skip(1) {
            out += &format!("  {text:>width$}", width = width(column));
        }
        out.push('\n');
    }
    out
}

fn as_markdown(table: &[Vec<String>]) -> String {
    let row = |line: &Vec<String>| format!("| {} |\n", line.join(" | "));
    let rule = format!("|---|{}\n", "---:|".repeat(table[0].len() - 1));
    let body: String = table[1..].iter().map(row).collect();
    format!("{}{rule}{body}", row(&table[0]))
}
