//! A text as lines, each with its depth, and the words of a line.

use crate::foreign;
use crate::model::*;

/// The lines of a text that hold words. A line that can't be split keeps its problem until it is
/// met, so that the first problem of the text is the one that is told.
pub struct Lines<'t> {
    lines: Vec<Read<Line<'t>>>,
    next: usize,
}

struct Line<'t> {
    depth: usize,
    words: Cursor<'t>,
}

impl<'t> Lines<'t> {
    pub fn new(text: &'t [u8]) -> Lines<'t> {
        let text = text.strip_prefix(b"\xef\xbb\xbf").unwrap_or(text);
        let numbered = (1..).zip(text.split(|b| *b == b'\n'));
        let lines = numbered.filter_map(|(number, line)| split(number, line).transpose());
        Lines {
            lines: lines.collect(),
            next: 0,
        }
    }

    /// The words of the next line if it stands at this depth, and nothing if it stands higher or
    /// the text ends. A line that stands deeper belongs to nothing.
    pub fn peek(&self, depth: usize) -> Read<Option<Cursor<'t>>> {
        match self.lines.get(self.next) {
            None => Ok(None),
            Some(Err(problem)) => Err(problem.clone()),
            Some(Ok(line)) if line.depth < depth => Ok(None),
            Some(Ok(line)) if line.depth == depth => Ok(Some(line.words)),
            Some(Ok(line)) => {
                let most = 2 * depth;
                let message = format!("indented too deep: at most {most} spaces may stand here");
                Err(Problem::new(line.words.spot(), message))
            }
        }
    }

    /// Goes on to the line behind the one that was peeked at.
    pub fn take(&mut self) {
        self.next += 1;
    }
}

/// One line; nothing if it holds no words.
fn split(number: u32, line: &[u8]) -> Read<Option<Line<'_>>> {
    let line = line.strip_suffix(b"\r").unwrap_or(line);
    let indent = line.iter().take_while(|b| **b == b' ').count();
    let spot = |before: usize| Spot {
        line: number,
        column: before as u32 + 1,
    };
    let text = words(line).map_err(|before| {
        let message = foreign::character_told(&line[before.len()..]);
        Problem::new(spot(before.chars().count()), message)
    })?;
    if indent >= text.len() {
        return Ok(None);
    }
    if indent % 2 == 1 {
        let message =
            format!("indented by an odd number of spaces, {indent}: each level takes two");
        return Err(Problem::new(spot(indent), message));
    }
    if indent / 2 > MOST_DEEP {
        let message = format!("nested more than {MOST_DEEP} deep");
        return Err(Problem::new(spot(indent), message));
    }
    Ok(Some(Line {
        depth: indent / 2,
        words: Cursor {
            line: number,
            text,
            at: indent,
            before: indent,
        },
    }))
}

/// The words, up to a comment or the line's end. Where a character may not stand, or bytes are none,
/// the error has what stands before it.
fn words(line: &[u8]) -> Result<&str, &str> {
    let (text, whole) = beginning(line);
    let mut quoted = false;
    let mut escaped = false;
    for (at, c) in text.char_indices() {
        if c == '#' && !quoted {
            return Ok(&text[..at]);
        }
        if !may_stand(c, quoted) {
            return Err(&text[..at]);
        }
        if c == '"' && !escaped {
            quoted = !quoted;
        }
        escaped = quoted && c == '\\' && !escaped;
    }
    match whole {
        true => Ok(text),
        false => Err(text),
    }
}

/// What of a line is UTF-8, from its start on, and whether all of it is.
fn beginning(line: &[u8]) -> (&str, bool) {
    match line.utf8_chunks().next() {
        Some(chunk) => (chunk.valid(), chunk.invalid().is_empty()),
        None => ("", true),
    }
}

/// Control characters of ASCII stand in comments alone; beyond ASCII, letters and digits stand
/// anywhere and everything else in quotes.
fn may_stand(c: char, quoted: bool) -> bool {
    match c.is_ascii() {
        true => !c.is_ascii_control(),
        false => quoted || c.is_alphanumeric(),
    }
}

/// Is it a name that needs no quotes?
pub fn is_plain(name: &str) -> bool {
    let first = name.chars().next();
    first.is_some_and(|c| c.is_alphabetic() || c == '_') && name.chars().all(is_plain_character)
}

/// A letter, a digit or another character that a name without quotes may have.
fn is_plain_character(c: char) -> bool {
    is_segment_character(c) || c == '.'
}

/// The same for a segment of a path.
pub fn is_segment_character(c: char) -> bool {
    match c.is_ascii() {
        true => c.is_ascii_alphanumeric() || matches!(c, '_' | ':'),
        false => c.is_alphanumeric(),
    }
}

/// A name in quotes.
pub fn quoted(name: &str) -> String {
    format!("\"{}\"", name.replace('\\', "\\\\").replace('"', "\\\""))
}

/// A name as a text writes it.
pub fn written(name: &str) -> String {
    match is_plain(name) {
        true => name.to_string(),
        false => quoted(name),
    }
}

/// What is left of a line.
#[derive(Clone, Copy)]
pub struct Cursor<'t> {
    line: u32,
    text: &'t str,
    at: usize,
    /// How many characters stand before it: a column counts them.
    before: usize,
}

impl<'t> Cursor<'t> {
    /// How deep the line stands.
    pub fn depth(&self) -> usize {
        self.text.bytes().take_while(|b| *b == b' ').count() / 2
    }

    pub fn skip_spaces(&mut self) {
        let spaces = self.rest().iter().take_while(|b| **b == b' ').count();
        self.advance(spaces);
    }

    pub fn rest(&self) -> &'t [u8] {
        self.left().as_bytes()
    }

    /// The same as characters.
    fn left(&self) -> &'t str {
        &self.text[self.at..]
    }

    /// The characters up to the first that is none of these.
    pub fn run_of(&self, of: impl Fn(char) -> bool) -> &'t str {
        let left = self.left();
        let end = left.find(|c| !of(c)).unwrap_or(left.len());
        &left[..end]
    }

    /// Goes on by some bytes, up to where a character begins.
    pub fn advance(&mut self, count: usize) {
        self.before += self.left()[..count].chars().count();
        self.at += count;
    }

    /// Where the next word begins.
    pub fn spot(&self) -> Spot {
        let mut next = *self;
        next.skip_spaces();
        Spot {
            line: self.line,
            column: next.before as u32 + 1,
        }
    }

    /// A problem at the next word.
    pub fn fail<T>(&self, message: impl Into<String>) -> Read<T> {
        Err(Problem::new(self.spot(), message))
    }

    /// The next word, up to a space or a quote, without taking it. Empty at the line's end and
    /// before a quote.
    pub fn word(&self) -> &'t str {
        let mut next = *self;
        next.skip_spaces();
        next.run_of(|c| !matches!(c, ' ' | '"'))
    }

    /// The next word as a message names it.
    pub fn shown(&self) -> String {
        let mut next = *self;
        next.skip_spaces();
        match (next.rest().first(), self.word()) {
            (None, _) => "the end of the line".to_string(),
            (Some(b'"'), _) => "a quoted name".to_string(),
            (_, word) => format!("`{}`", shortened(word)),
        }
    }

    fn take_word(&mut self) -> &'t str {
        let word = self.word();
        self.skip_spaces();
        self.advance(word.len());
        word
    }

    /// Takes the next word if it is this one.
    pub fn is(&mut self, wanted: &str) -> bool {
        let is = self.word() == wanted;
        if is {
            self.take_word();
        }
        is
    }

    /// Takes the next word, which must be this one.
    pub fn need(&mut self, wanted: &str) -> Read<()> {
        match self.is(wanted) {
            true => Ok(()),
            false => self.fail(format!("{} where `{wanted}` must stand", self.shown())),
        }
    }

    /// Takes the next word, which must be one of these, and gives its place among them.
    pub fn one_of(&mut self, wanted: &[&str]) -> Read<usize> {
        match wanted.iter().position(|w| *w == self.word()) {
            Some(place) => {
                self.take_word();
                Ok(place)
            }
            None => {
                let (shown, may) = (self.shown(), wanted.join("`, `"));
                let one_of = if wanted.len() > 1 { "one of " } else { "" };
                self.fail(format!("{shown} where {one_of}`{may}` must stand"))
            }
        }
    }

    /// A number, decimal and below 2^64.
    pub fn number(&mut self) -> Read<u64> {
        let word = self.word();
        if word.is_empty() || !word.bytes().all(|b| b.is_ascii_digit()) {
            return self.fail(format!("{} where a number must stand", self.shown()));
        }
        let number = whole(word).or_else(|message| self.fail(message))?;
        self.take_word();
        Ok(number)
    }

    /// The number behind a word, if the word stands here.
    pub fn number_behind(&mut self, word: &str) -> Read<Option<u64>> {
        match self.is(word) {
            true => self.number().map(Some),
            false => Ok(None),
        }
    }

    /// A name or a text, plain or in quotes, with spaces around it.
    pub fn name(&mut self) -> Read<String> {
        self.apart()?;
        self.skip_spaces();
        let name = match self.rest().first() {
            Some(b'"') => self.quoted_name()?,
            _ => self.plain_name()?,
        };
        self.apart()?;
        Ok(name)
    }

    /// A space must stand here, or the line must end.
    fn apart(&self) -> Read<()> {
        match self.rest().first() {
            None | Some(b' ') => Ok(()),
            Some(_) => self.fail(format!("{} without a space before it", self.shown())),
        }
    }

    fn plain_name(&mut self) -> Read<String> {
        let word = self.word();
        if word.is_empty() {
            return self.fail(format!("{} where a name must stand", self.shown()));
        }
        if !is_plain(word) {
            return self.fail(format!("the name {} needs quotes", self.shown()));
        }
        Ok(self.take_word().to_string())
    }

    /// The name behind a word, if the word stands here.
    pub fn name_behind(&mut self, word: &str) -> Read<Option<String>> {
        match self.is(word) {
            true => self.name().map(Some),
            false => Ok(None),
        }
    }

    /// A name in quotes; the quote is the next byte behind spaces.
    pub fn quoted_name(&mut self) -> Read<String> {
        self.skip_spaces();
        let opened = *self;
        self.advance(1);
        let mut name = String::new();
        loop {
            let plain = self.run_of(|c| !matches!(c, '"' | '\\'));
            name.push_str(plain);
            self.advance(plain.len());
            match *self.rest() {
                [b'"', ..] => {
                    self.advance(1);
                    return Ok(name);
                }
                [b'\\', byte @ (b'"' | b'\\'), ..] => {
                    name.push(char::from(byte));
                    self.advance(2);
                }
                [b'\\', ..] => {
                    return self.fail("behind \\ in quotes stands \" or \\");
                }
                _ => return opened.fail("this quote is not closed on its line"),
            }
        }
    }

    /// The line must end here.
    pub fn finish(&self) -> Read<()> {
        let mut next = *self;
        next.skip_spaces();
        match next.rest().is_empty() {
            true => Ok(()),
            false => self.fail(format!("{} is more than belongs here", self.shown())),
        }
    }
}

/// A decimal number below 2^64.
pub fn whole(digits: &str) -> Result<u64, String> {
    if digits.len() > 1 && digits.starts_with('0') {
        return Err(format!("the number {} begins with 0", shortened(digits)));
    }
    let above = |_| format!("the number {} is not below 2^64", shortened(digits));
    digits.parse().map_err(above)
}

/// A word for a message, cut where it has more than 40 characters.
pub fn shortened(word: &str) -> String {
    match word.char_indices().nth(40) {
        Some((end, _)) => format!("{}..", &word[..end]),
        None => word.to_string(),
    }
}
