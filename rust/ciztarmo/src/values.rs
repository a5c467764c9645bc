//! Values of parameters, and runs.

use crate::block::{block_length, name_length, Body};
use crate::error::Error;
use crate::write::{in_order, WriteError, HEAD};
use alloc::collections::BTreeMap;
use alloc::string::String;
use alloc::vec::Vec;

const VALUES: u16 = 192;
const RUN: u16 = 193;

/// The values of a record's parameters, each a name and a number.
///
/// They may be given in any order; a name given twice is an error.
///
/// ```
/// use ciztarmo::Values;
///
/// let mut values = Values::of([("legs.n", 3)])?;
/// values.insert("class", 2)?;
/// assert!(values.insert("class", 1).is_err());
/// # Ok::<(), ciztarmo::Error>(())
/// ```
#[derive(Clone, Debug, Default, PartialEq, Eq)]
pub struct Values {
    numbers: BTreeMap<String, u64>,
    /// The length of the list behind its count.
    length: u64,
}

impl Values {
    /// No values.
    pub fn new() -> Self {
        Values::default()
    }

    /// The values with these names and numbers.
    pub fn of<N: Into<String>>(pairs: impl IntoIterator<Item = (N, u64)>) -> Result<Self, Error> {
        let mut values = Values::new();
        for (name, number) in pairs {
            values.insert(name, number)?;
        }
        Ok(values)
    }

    /// Adds a value. Where that is an error, the values stay as they were.
    pub fn insert(&mut self, name: impl Into<String>, number: u64) -> Result<(), Error> {
        let name = name.into();
        if self.numbers.contains_key(&name) {
            return Err(Error::ValueTwice { name });
        }
        let count = self.numbers.len() + 1;
        if count > usize::from(u16::MAX) {
            return Err(Error::TooMany {
                what: "values",
                count,
            });
        }
        let length = self.length + u64::from(name_length(&name)?) + 10;
        // The count stands before the list.
        block_length(length + 2)?;
        self.length = length;
        self.numbers.insert(name, number);
        Ok(())
    }

    /// The block 192.
    pub fn to_bytes(&self) -> Vec<u8> {
        self.written().expect("what was taken can be written")
    }

    /// The block 192 in the caller's bytes; those behind it stay as they were.
    ///
    /// [`write_values`](crate::write_values) does it without a `Values`.
    pub fn write_into<'o>(&self, out: &'o mut [u8]) -> Result<&'o [u8], WriteError> {
        let needed = HEAD + self.length as usize;
        in_order(needed, self.numbers.iter().map(|(n, v)| (&n[..], *v)), out)
    }

    /// The map's order is the byte order of the names.
    fn written(&self) -> Result<Vec<u8>, Error> {
        let mut body = Body::new();
        body.count("values", self.numbers.len())?;
        for (name, number) in &self.numbers {
            body.name(name)?;
            body.number(*number);
        }
        body.close(VALUES)
    }
}

/// A question to a layout: how many bytes a record of a type has.
#[derive(Clone, Debug, PartialEq, Eq)]
pub struct Run {
    bytes: Vec<u8>,
}

impl Run {
    /// A record of the type `name` with these values, in a buffer of so many bytes.
    pub fn new(name: impl AsRef<str>, values: &Values, buffer_length: u64) -> Result<Self, Error> {
        let mut body = Body::new();
        body.name(name.as_ref())?;
        body.number(buffer_length);
        body.bytes(&values.to_bytes());
        let bytes = body.close(RUN)?;
        Ok(Run { bytes })
    }

    /// The block 193.
    pub fn as_bytes(&self) -> &[u8] {
        &self.bytes
    }
}

#[cfg(test)]
mod tests {
    use super::*;

    /// Values of 4 GiB are too many for a test, so their length is set by hand.
    #[test]
    fn the_longest_values() {
        let mut values = Values::of([("a", 1), ("legs.n", 2)]).expect("two values");
        // Length field, kind and count stand before the list.
        assert_eq!(values.length, values.to_bytes().len() as u64 - 8);
        let most = u64::from(u32::MAX) - 4;
        values.length = most - 10;
        assert_eq!(values.insert("b", 3), Err(Error::BlockTooLong));
        assert_eq!(values.insert("", 3), Ok(()));
        assert_eq!(values.length, most);
        assert_eq!(values.insert("c", 3), Err(Error::BlockTooLong));
        assert_eq!(values.numbers.len(), 3);
    }
}
