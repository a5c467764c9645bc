//! Expressions, between operands and parentheses. Where two operators meet, parentheses are
//! needed, so there is no precedence to remember.

use crate::lines::{is_plain, is_segment_character, quoted, whole, written, Cursor};
use crate::model::*;

/// The operators between two operands with their kinds, longer ones before those that they begin
/// with.
const BETWEEN: [(&str, u16); 20] = [
    ("**", 73),
    ("<<", 77),
    (">>", 78),
    ("<=", 87),
    (">=", 88),
    ("==", 83),
    ("!=", 84),
    ("&&", 89),
    ("||", 90),
    ("^^", 91),
    ("+", 68),
    ("-", 69),
    ("*", 70),
    ("/", 71),
    ("%", 72),
    ("&", 74),
    ("|", 75),
    ("^", 76),
    ("<", 85),
    (">", 86),
];

/// The operators before one operand.
const BEFORE: [(&str, u16); 3] = [("~", 79), ("-", 80), ("!", 81)];

/// The words before parentheses. They are quoted where they are segments of a path.
const WORDS: [(&str, u16); 3] = [("sizeof", 66), ("alignof", 67), ("popcount", 82)];

/// The types of literals, by code.
const LITERALS: [&str; 8] = ["u64", "u32", "u16", "u8", "i64", "i32", "i16", "i8"];

/// Is it the code of a signed type?
fn is_signed(code: u8) -> bool {
    code >= 4
}

fn symbol(table: &[(&'static str, u16)], kind: u16) -> &'static str {
    let row = table.iter().find(|row| row.1 == kind);
    row.map_or("?", |row| row.0)
}

// Writing.

/// An expression as a text writes it.
pub fn show(expr: &Expr) -> String {
    match &expr.form {
        Form::Literal(code, number) => literal(*code, *number),
        Form::Path(segments) => path(segments),
        Form::Named(kind, name) => format!("{}({})", symbol(&WORDS, *kind), written(name)),
        Form::One(82, a) => format!("popcount({})", show(a)),
        Form::One(kind, a) => {
            // -3i8 is the literal, so its negation has parentheses.
            let shown = match (kind, &a.form) {
                (80, Form::Literal(..)) => format!("({})", show(a)),
                _ => operand(a),
            };
            format!("{}{shown}", symbol(&BEFORE, *kind))
        }
        Form::Two(kind, a, b) => {
            format!("{} {} {}", operand(a), symbol(&BETWEEN, *kind), operand(b))
        }
    }
}

/// An expression beside an operator.
fn operand(expr: &Expr) -> String {
    match &expr.form {
        Form::One(79..=81, _) | Form::Two(..) => format!("({})", show(expr)),
        _ => show(expr),
    }
}

fn literal(code: u8, number: u64) -> String {
    let suffix = LITERALS[usize::from(code)];
    match is_signed(code) {
        true => format!("{}{suffix}", number as i64),
        false => format!("{number}{suffix}"),
    }
}

fn path(segments: &[String]) -> String {
    if segments.is_empty() {
        return ".".to_string();
    }
    let segment = |s: &String| match is_plain_segment(s) {
        true => s.clone(),
        false => quoted(s),
    };
    let shown: Vec<String> = segments.iter().map(segment).collect();
    shown.join(".")
}

fn is_plain_segment(segment: &str) -> bool {
    is_plain(segment) && !segment.contains('.') && WORDS.iter().all(|w| w.0 != segment)
}

// Reading.

/// Reads the expression that fills the rest of a line. It nests below the line.
pub fn read(cursor: &mut Cursor) -> Read<Expr> {
    let expr = whole_expr(cursor, cursor.depth())?;
    cursor.skip_spaces();
    match cursor.rest() {
        [] => Ok(expr),
        [b')', ..] => cursor.fail("this parenthesis was not opened"),
        _ => cursor.fail(format!("{} where an operator must stand", cursor.shown())),
    }
}

const MEET: &str = "two operators meet: put parentheses around one of them";

/// One operand, one behind an operator, or two with an operator between them.
fn whole_expr(c: &mut Cursor, depth: usize) -> Read<Expr> {
    if depth > MOST_DEEP {
        return c.fail(format!("nested more than {MOST_DEEP} deep"));
    }
    let spot = c.spot();
    let form = match operator_before(c)? {
        Some(kind) => Form::One(kind, Box::new(operand_of(c, depth)?)),
        None => {
            let left = operand_of(c, depth)?;
            let Some(kind) = operator(c, &BETWEEN) else {
                return Ok(left);
            };
            Form::Two(kind, Box::new(left), Box::new(operand_of(c, depth)?))
        }
    };
    let mut behind = *c;
    match operator(&mut behind, &BETWEEN) {
        Some(_) => c.fail(MEET),
        None => Ok(Expr { spot, form }),
    }
}

/// Takes an operator of a table, if one stands here.
fn operator(c: &mut Cursor, table: &[(&str, u16)]) -> Option<u16> {
    c.skip_spaces();
    let rest = c.rest();
    let (symbol, kind) = table
        .iter()
        .find(|row| rest.starts_with(row.0.as_bytes()))?;
    c.advance(symbol.len());
    Some(*kind)
}

/// Takes an operator before an operand. A minus before a digit belongs to the literal.
fn operator_before(c: &mut Cursor) -> Read<Option<u16>> {
    c.skip_spaces();
    if let [b'-', rest @ ..] = c.rest() {
        let spaces = rest.iter().take_while(|b| **b == b' ').count();
        if rest.get(spaces).is_some_and(u8::is_ascii_digit) {
            return match spaces {
                0 => Ok(None),
                _ => c.fail("write -3i8 for the literal and -(3i8) for its negation"),
            };
        }
    }
    Ok(operator(c, &BEFORE))
}

/// A literal, a path, a word with parentheses, or an expression in parentheses.
fn operand_of(c: &mut Cursor, depth: usize) -> Read<Expr> {
    let mut behind = *c;
    if operator_before(&mut behind)?.is_some() {
        return c.fail(MEET);
    }
    let spot = c.spot();
    c.skip_spaces();
    let form = match c.rest() {
        [b'(', ..] => return in_parentheses(c, depth),
        [b'0'..=b'9' | b'-', ..] => read_literal(c)?,
        [b'.', ..] => no_segments(c)?,
        [b'"' | b'_' | b'a'..=b'z' | b'A'..=b'Z' | 0x80.., ..] => path_or_word(c, depth)?,
        _ => return c.fail(format!("{} where an operand must stand", c.shown())),
    };
    Ok(Expr { spot, form })
}

fn in_parentheses(c: &mut Cursor, depth: usize) -> Read<Expr> {
    let opened = *c;
    c.advance(1);
    let expr = whole_expr(c, depth + 1)?;
    close(c, &opened)?;
    Ok(expr)
}

fn close(c: &mut Cursor, opened: &Cursor) -> Read<()> {
    c.skip_spaces();
    match c.rest() {
        [b')', ..] => {
            c.advance(1);
            Ok(())
        }
        [] => opened.fail("this parenthesis is not closed on its line"),
        _ => c.fail(format!("{} where ) must stand", c.shown())),
    }
}

fn read_literal(c: &mut Cursor) -> Read<Form> {
    let begun = *c;
    let negative = c.rest()[0] == b'-';
    c.advance(usize::from(negative));
    let word = c.run_of(|c| c.is_alphanumeric() || c == '_');
    let digits = word.trim_start_matches(|b: char| b.is_ascii_digit());
    let (digits, suffix) = (&word[..word.len() - digits.len()], digits);
    let Some(code) = LITERALS.iter().position(|l| *l == suffix) else {
        let may = LITERALS.join(", ");
        return begun.fail(format!(
            "a literal needs its type behind its digits ({may})"
        ));
    };
    let size = whole(digits).or_else(|message| begun.fail(message))?;
    c.advance(word.len());
    let code = code as u8;
    let number = match (is_signed(code), negative) {
        (false, true) => return begun.fail("a literal of an unsigned type has no sign"),
        (false, false) => Some(size),
        (true, true) => (size <= 1 << 63).then(|| size.wrapping_neg()),
        (true, false) => (size < 1 << 63).then_some(size),
    };
    match number {
        Some(number) => Ok(Form::Literal(code, number)),
        None => begun.fail("a literal of a signed type lies from -2^63 to 2^63 - 1"),
    }
}

/// The path of no segments.
fn no_segments(c: &mut Cursor) -> Read<Form> {
    match c.rest() {
        [b'.', b'"' | b'_' | b'.' | b'a'..=b'z' | b'A'..=b'Z' | 0x80.., ..] => {
            c.fail("a path does not begin with a dot")
        }
        _ => {
            c.advance(1);
            Ok(Form::Path(Vec::new()))
        }
    }
}

fn path_or_word(c: &mut Cursor, depth: usize) -> Read<Form> {
    let word = c.run_of(is_segment_character);
    match WORDS.iter().find(|w| w.0 == word) {
        Some((_, kind)) => word_form(c, word, *kind, depth),
        None => read_path(c),
    }
}

/// sizeof, alignof or popcount, and what is in its parentheses.
fn word_form(c: &mut Cursor, word: &str, kind: u16, depth: usize) -> Read<Form> {
    let begun = *c;
    c.advance(word.len());
    let opened = *c;
    if c.rest().first() != Some(&b'(') {
        return begun.fail(format!(
            "{word} needs parentheses behind it; as a segment it needs quotes"
        ));
    }
    c.advance(1);
    let form = match kind {
        82 => Form::One(kind, Box::new(whole_expr(c, depth + 1)?)),
        _ => Form::Named(kind, name_inside(c)?),
    };
    close(c, &opened)?;
    Ok(form)
}

/// The name in the parentheses of sizeof or alignof.
fn name_inside(c: &mut Cursor) -> Read<String> {
    c.skip_spaces();
    if c.rest().first() == Some(&b'"') {
        return c.quoted_name();
    }
    let word = c.run_of(|c| is_segment_character(c) || c == '.');
    if !is_plain(word) {
        return c.fail("a name must stand here, in quotes if it is not plain");
    }
    c.advance(word.len());
    Ok(word.to_string())
}

fn read_path(c: &mut Cursor) -> Read<Form> {
    let mut segments = vec![segment(c)?];
    while c.rest().first() == Some(&b'.') {
        c.advance(1);
        segments.push(segment(c)?);
    }
    Ok(Form::Path(segments))
}

fn segment(c: &mut Cursor) -> Read<String> {
    if c.rest().first() == Some(&b'"') {
        return c.quoted_name();
    }
    let word = c.run_of(is_segment_character);
    if WORDS.iter().any(|w| w.0 == word) {
        return c.fail(format!("the segment {word} needs quotes"));
    }
    if !is_plain_segment(word) {
        return c.fail("a segment must stand here, in quotes if it is not plain");
    }
    c.advance(word.len());
    Ok(word.to_string())
}
