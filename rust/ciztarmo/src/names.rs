//! What stands in blocks that the proved reader accepted. Of other bytes each function gives what
//! is there, and nothing of what is not.

#[cfg(feature = "alloc")]
use alloc::vec::Vec;

/// The names of the types of a set (a block 36) or of a layout (a block 160), in order: a
/// refusal's place counts them from 0.
///
/// Of bytes that no reader accepts it gives the names before the first type that is not there.
#[cfg(feature = "alloc")]
pub fn type_names(block: &[u8]) -> Vec<&str> {
    entries(block).map_while(first_text).collect()
}

#[cfg(feature = "alloc")]
fn first_text(mut parts: Parts<'_>) -> Option<&str> {
    parts.text()
}

/// The blocks of a set's or layout's list.
pub(crate) fn entries(block: &[u8]) -> Entries<'_> {
    let mut parts = Parts::of(block, 6);
    let left = parts.number(2).unwrap_or(0);
    Entries { parts, left }
}

/// The parts of a block, one behind the other.
#[derive(Clone, Copy, Debug)]
pub(crate) struct Parts<'a> {
    rest: &'a [u8],
}

impl<'a> Parts<'a> {
    /// What stands from an offset on.
    pub fn of(bytes: &'a [u8], at: usize) -> Self {
        Parts {
            rest: bytes.get(at..).unwrap_or(&[]),
        }
    }

    fn take(&mut self, count: usize) -> Option<&'a [u8]> {
        let taken = self.rest.get(..count)?;
        self.rest = &self.rest[count..];
        Some(taken)
    }

    /// A little-endian number of so many bytes.
    pub fn number(&mut self, size: usize) -> Option<u64> {
        let bytes = self.take(size)?;
        let fold = |n, byte: &u8| n << 8 | u64::from(*byte);
        Some(bytes.iter().rev().fold(0, fold))
    }

    /// A flag: whether it is set.
    pub fn flag(&mut self) -> Option<bool> {
        self.number(1).map(|flag| flag != 0)
    }

    /// A name or text.
    pub fn text(&mut self) -> Option<&'a str> {
        let length = self.number(2)?;
        let bytes = self.take(usize::try_from(length).ok()?)?;
        core::str::from_utf8(bytes).ok()
    }

    /// An optional text.
    pub fn optional_text(&mut self) -> Option<Option<&'a str>> {
        match self.flag()? {
            true => self.text().map(Some),
            false => Some(None),
        }
    }

    /// A block: its kind and its parts.
    pub fn block(&mut self) -> Option<(u64, Parts<'a>)> {
        let length = self.number(4)?;
        let rest = self.take(usize::try_from(length).ok()?)?;
        let mut parts = Parts { rest };
        let kind = parts.number(2)?;
        Some((kind, parts))
    }
}

/// The blocks of a list, each as its parts.
#[derive(Clone, Debug)]
pub(crate) struct Entries<'a> {
    parts: Parts<'a>,
    left: u64,
}

impl<'a> Entries<'a> {
    /// The list behind its count.
    pub fn listed(mut parts: Parts<'a>) -> Option<Self> {
        let left = parts.number(2)?;
        Some(Entries { parts, left })
    }
}

impl<'a> Iterator for Entries<'a> {
    type Item = Parts<'a>;

    fn next(&mut self) -> Option<Parts<'a>> {
        self.left = self.left.checked_sub(1)?;
        self.parts.block().map(|(_, parts)| parts)
    }
}
