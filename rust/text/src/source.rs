//! An input as outermost blocks, from text or from blocks, and where things stand in it.

use crate::decode;
use crate::encode::{encode, Written};
use crate::foreign;
use crate::model::*;
use crate::parse;
use crate::stumble::{self, Stumble};
use crate::words;
use ciztarmo::{Refusal, Work, LIMIT};

/// A file and its outermost blocks.
#[derive(Debug)]
pub struct Source {
    pub file: String,
    pub pieces: Vec<Piece>,
}

/// One outermost block.
#[derive(Debug)]
pub struct Piece {
    pub kind: u16,
    pub bytes: Vec<u8>,
    origin: Origin,
}

#[derive(Debug)]
enum Origin {
    Text(Block, Written),
    /// Where the block begins in the file.
    Blocks(usize),
}

/// Blocks have a zero among their first six bytes, since a kind's second byte is 0; a text has no
/// zero byte at all.
pub fn is_blocks(input: &[u8]) -> bool {
    input.iter().take(6).any(|b| *b == 0)
}

impl Source {
    /// Reads text or blocks, whichever the input is. An error is a message that says where.
    pub fn read(file: &str, input: &[u8]) -> Result<Source, String> {
        match is_blocks(input) {
            true => Source::read_blocks(file, input),
            false => Source::read_text(file, input),
        }
    }

    pub fn read_text(file: &str, input: &[u8]) -> Result<Source, String> {
        not_foreign(file, input)?;
        if is_blocks(input) {
            return Err(format!("{file}: {}", foreign::not_text(input)));
        }
        let told = |p: Problem| {
            let Problem { spot, message } = p;
            format!("{file}:{}:{}: {message}", spot.line, spot.column)
        };
        let mut pieces = Vec::new();
        for block in parse::parse(input).map_err(told)? {
            let mut written = encode(&block).map_err(told)?;
            pieces.push(Piece {
                kind: block.kind(),
                bytes: std::mem::take(&mut written.bytes),
                origin: Origin::Text(block, written),
            });
        }
        Ok(Source {
            file: file.to_string(),
            pieces,
        })
    }

    /// Cuts the input into blocks, each as long as its length field says.
    pub fn read_blocks(file: &str, input: &[u8]) -> Result<Source, String> {
        if input.is_empty() {
            return Err(format!("{file}: byte 0: refused 2: no block begins here"));
        }
        not_foreign(file, input)?;
        if !is_blocks(input) {
            let help = "`text blocks` writes it as blocks";
            return Err(format!("{file}: this is text, not blocks: {help}"));
        }
        let mut pieces = Vec::new();
        let mut at = 0;
        while at < input.len() {
            let (kind, bytes) = cut(&input[at..])
                .map_err(|(number, why)| format!("{file}: byte {at}: refused {number}: {why}"))?;
            let length = bytes.len();
            pieces.push(Piece {
                kind,
                bytes,
                origin: Origin::Blocks(at),
            });
            at += length;
        }
        Ok(Source {
            file: file.to_string(),
            pieces,
        })
    }

    /// Where a piece begins, for a message.
    pub fn place(&self, piece: &Piece) -> String {
        self.place_at(piece, 0)
    }

    /// Where the block at an offset of a piece stands, for a message.
    fn place_at(&self, piece: &Piece, offset: usize) -> String {
        match &piece.origin {
            Origin::Text(_, written) => {
                format!("{}:{}", self.file, written.mark_at(offset).spot.line)
            }
            Origin::Blocks(start) => format!("{}: byte {}", self.file, start + offset),
        }
    }

    /// Asks the proved reader of its kind whether a piece is accepted.
    pub fn accepted(&self, work: &mut Work, piece: &Piece) -> Result<(), String> {
        ask(work, piece.kind, &piece.bytes).map_err(|refusal| self.refused(piece, &refusal))
    }

    fn refused(&self, piece: &Piece, refusal: &Refusal) -> String {
        let number = refusal.number().code();
        let offset = refusal.offset() as usize;
        let kind = piece.kind_at(offset);
        let sentence = words::reading(number, kind, piece.kind);
        let place = match piece.entry_at_fault(number, kind) {
            Some(spot) => format!("{}:{}", self.file, spot.line),
            None => self.place_at(piece, offset),
        };
        match piece.column(offset) {
            Some(column) => format!("{place}: refused {number}: {sentence} (column {column})"),
            None => format!("{place}: refused {number}: {sentence}"),
        }
    }

    /// Builds the layout of a piece that is a set.
    pub fn built(&self, work: &mut Work, piece: &Piece) -> Result<Vec<u8>, String> {
        work.build_set(&piece.bytes).map_err(|refusal| {
            let number = refusal.number().code();
            let sentence = words::building(number);
            let Some(place) = refusal.place() else {
                return format!("{}: refused {number}: {sentence}", self.place(piece));
            };
            let place = usize::from(place);
            match self.stumbled(piece, place).filter(|s| s.number == number) {
                Some(stumble) => self.culprit(piece, &stumble),
                // The walk does not arrive where the call did: only what the call says is told.
                None => {
                    let at = self.place_at(piece, piece.type_at(place));
                    format!("{at}: refused {number}: {sentence}")
                }
            }
        })
    }

    fn stumbled(&self, piece: &Piece, place: usize) -> Option<Stumble> {
        match piece.block() {
            Ok(Block::Set(set)) => stumble::walk(&set.types, set.types.get(place)?),
            _ => None,
        }
    }

    /// A refusal of a build with what it stumbled on.
    fn culprit(&self, piece: &Piece, stumble: &Stumble) -> String {
        let Stumble { number, words, .. } = stumble;
        let at = self.place_of(piece, stumble.spot);
        let sentence = words::building(*number);
        let mut message = format!("{at}: refused {number}: {sentence}: {words}");
        if stumble.in_line && stumble.spot.line > 0 {
            message += &format!(" (column {})", stumble.spot.column);
        }
        if let Some(help) = &stumble.help {
            message += &format!("; what would help: {}", help.words);
            if let Some((place, spot)) = &help.place {
                message += &format!(" {place} ({})", self.near(piece, *spot));
            }
        }
        message
    }

    /// Where a part of a set stands, for a message.
    pub fn place_of(&self, piece: &Piece, spot: Spot) -> String {
        match spot.line {
            0 => self.place_at(piece, spot.column as usize),
            line => format!("{}:{line}", self.file),
        }
    }

    /// The same within a message about the file.
    pub fn near(&self, piece: &Piece, spot: Spot) -> String {
        match spot.line {
            0 => format!("byte {}", piece.file_offset() + spot.column as usize),
            line => format!("line {line}"),
        }
    }
}

fn not_foreign(file: &str, input: &[u8]) -> Result<(), String> {
    match foreign::named(input) {
        Some(message) => Err(format!("{file}: {message}")),
        None => Ok(()),
    }
}

fn ask(work: &mut Work, kind: u16, bytes: &[u8]) -> Result<(), Refusal> {
    match kind {
        LAYOUT => work.read_layout(bytes),
        VALUES => work.read_values(bytes),
        RUN => work.read_run(bytes),
        // A block of any other kind is no set, and is refused as one.
        _ => work.read_set(bytes),
    }
}

/// The first block of the input and its kind, or a number and why it can't be cut off.
fn cut(input: &[u8]) -> Result<(u16, Vec<u8>), (u8, &'static str)> {
    const CUT: (u8, &str) = (2, "the file ends inside this block");
    let length: [u8; 4] = input.get(..4).ok_or(CUT)?.try_into().map_err(|_| CUT)?;
    let length = u32::from_le_bytes(length) as usize;
    if length > LIMIT - 4 {
        return Err((1, "this block is longer than 65,536 bytes"));
    }
    let block = input.get(..length + 4).ok_or(CUT)?;
    let kind = match block.get(4..6) {
        Some(kind) => u16::from_le_bytes([kind[0], kind[1]]),
        None => return Err((2, "this block has no room for its kind")),
    };
    match kind {
        SET | LAYOUT | VALUES | RUN => Ok((kind, block.to_vec())),
        _ => Err((2, "a block of this kind can't stand outermost")),
    }
}

impl Piece {
    /// The block as values, if its parts can be taken out.
    pub fn block(&self) -> Result<Block, decode::Fault> {
        match &self.origin {
            Origin::Text(block, _) => Ok(block.clone()),
            Origin::Blocks(_) => decode::decode(&self.bytes),
        }
    }

    /// Where the piece begins in a file of blocks.
    pub fn file_offset(&self) -> usize {
        match self.origin {
            Origin::Text(..) => 0,
            Origin::Blocks(start) => start,
        }
    }

    fn kind_at(&self, offset: usize) -> u16 {
        match self.bytes.get(offset + 4..offset + 6) {
            Some(kind) => u16::from_le_bytes([kind[0], kind[1]]),
            None => self.kind,
        }
    }

    /// Where the type at a place of a set or layout begins.
    fn type_at(&self, place: usize) -> usize {
        let length = |at: usize| match self.bytes.get(at..at + 4) {
            Some(b) => u32::from_le_bytes([b[0], b[1], b[2], b[3]]) as usize,
            None => 0,
        };
        (0..place).fold(8, |at, _| at + 4 + length(at))
    }

    /// The column of an expression in a text: many stand on one line.
    fn column(&self, offset: usize) -> Option<u32> {
        let Origin::Text(_, written) = &self.origin else {
            return None;
        };
        let mark = written.mark_at(offset);
        matches!(mark.kind, 64..=91).then_some(mark.spot.column)
    }

    /// A block of values has a line for each entry; this is the entry that was refused.
    fn entry_at_fault(&self, number: u8, kind: u16) -> Option<Spot> {
        let values = match &self.origin {
            Origin::Text(Block::Values(values), _) => values,
            Origin::Text(Block::Run(run), _) if kind == VALUES => &run.values,
            _ => return None,
        };
        let entries = &values.entries;
        let at = match number {
            3 => entries.iter().position(|e| e.name.len() > 255)?,
            4 => 512,
            6 => 1 + entries.windows(2).position(|e| e[0].name >= e[1].name)?,
            _ => return None,
        };
        entries.get(at).map(|entry| entry.spot)
    }
}
