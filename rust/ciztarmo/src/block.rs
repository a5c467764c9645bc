//! The byte forms of document 01: everything little-endian, a block being a 4-byte length that
//! counts what follows it, a 2-byte kind and a body.

use crate::error::Error;
use crate::names::Parts;
use alloc::vec::Vec;

/// The bytes of a block, or why it can't be written.
pub(crate) type Block = Result<Vec<u8>, Error>;

/// The body of a block, part by part.
#[derive(Default)]
pub(crate) struct Body(Vec<u8>);

impl Body {
    pub fn new() -> Self {
        Body::default()
    }

    pub fn byte(&mut self, byte: u8) {
        self.0.push(byte);
    }

    pub fn number(&mut self, number: u64) {
        self.0.extend(number.to_le_bytes());
    }

    pub fn name(&mut self, name: &str) -> Result<(), Error> {
        self.0.extend(name_length(name)?.to_le_bytes());
        self.0.extend(name.as_bytes());
        Ok(())
    }

    /// A list of blocks behind its count.
    pub fn blocks(&mut self, what: &'static str, blocks: &[Block]) -> Result<(), Error> {
        self.count(what, blocks.len())?;
        for block in blocks {
            self.block(block)?;
        }
        Ok(())
    }

    pub fn count(&mut self, what: &'static str, count: usize) -> Result<(), Error> {
        let short = u16::try_from(count).map_err(|_| Error::TooMany { what, count })?;
        self.0.extend(short.to_le_bytes());
        Ok(())
    }

    pub fn block(&mut self, block: &Block) -> Result<(), Error> {
        self.0.extend(block.as_ref().map_err(Clone::clone)?);
        Ok(())
    }

    pub fn bytes(&mut self, bytes: &[u8]) {
        self.0.extend(bytes);
    }

    /// What was written, as it stands.
    pub fn into_bytes(self) -> Vec<u8> {
        self.0
    }

    /// The block of a kind with this body.
    pub fn close(self, kind: u16) -> Block {
        let length = block_length(self.0.len() as u64)?;
        let mut out = Vec::with_capacity(6 + self.0.len());
        out.extend(length.to_le_bytes());
        out.extend(kind.to_le_bytes());
        out.extend(self.0);
        Ok(out)
    }
}

/// The length of a name.
pub(crate) fn name_length(name: &str) -> Result<u16, Error> {
    u16::try_from(name.len()).map_err(|_| Error::NameTooLong {
        start: name.chars().take(20).collect(),
        length: name.len(),
    })
}

/// The length field of a block whose body has so many bytes.
pub(crate) fn block_length(body: u64) -> Result<u32, Error> {
    u32::try_from(body.saturating_add(2)).map_err(|_| Error::BlockTooLong)
}

/// How many blocks stand one behind the other, of which the last may be cut off.
pub(crate) fn count_blocks(mut bytes: &[u8]) -> usize {
    let mut count = 0;
    while !bytes.is_empty() {
        count += 1;
        bytes = behind_block(bytes).unwrap_or(&[]);
    }
    count
}

/// What stands behind the first block, if that is whole.
fn behind_block(bytes: &[u8]) -> Option<&[u8]> {
    let length = Parts::of(bytes, 0).number(4)?;
    bytes.get(4..)?.get(usize::try_from(length).ok()?..)
}

#[cfg(test)]
mod tests {
    use super::*;

    /// A block of 4 GiB is too large for a test, its length is not.
    #[test]
    fn the_longest_block() {
        let most = u64::from(u32::MAX);
        assert_eq!(block_length(0), Ok(2));
        assert_eq!(block_length(most - 2), Ok(u32::MAX));
        for more in [most - 1, most, u64::MAX] {
            assert_eq!(block_length(more), Err(Error::BlockTooLong));
        }
    }

    /// Two blocks, cut off anywhere; the shortest blocks; a length field without an end.
    #[test]
    fn blocks_are_counted() {
        let two = [2, 0, 0, 0, 193, 0, 1, 0, 0, 0, 7];
        for cut in 0..=two.len() {
            let count = usize::from(cut > 0) + usize::from(cut > 6);
            assert_eq!(count_blocks(&two[..cut]), count, "{cut} bytes");
        }
        assert_eq!(count_blocks(&[0; 65_537]), 16_385);
        for at in 0..4 {
            let mut bytes = [0; 60];
            bytes[at] = 255;
            assert_eq!(count_blocks(&bytes), 1);
        }
    }
}
