//! Values in the caller's bytes.

use core::fmt;
use core::iter::successors;

/// Length field, kind and count.
pub(crate) const HEAD: usize = 8;
/// What a value has beside its name: the name's length and the number.
const BESIDE: usize = 10;
const KIND: u16 = 192;

/// Why values were not written.
#[derive(Clone, Copy, Debug, PartialEq, Eq)]
#[non_exhaustive]
pub enum WriteError {
    /// There are more values than a two-byte count can say.
    TooMany {
        /// How many there are.
        count: usize,
    },
    /// A name is longer than its two-byte length can say.
    NameTooLong {
        /// Which value it is, from 0.
        place: usize,
    },
    /// The block is longer than its four-byte length can say.
    BlockTooLong {
        /// How many bytes it has.
        needed: usize,
    },
    /// A name is given twice.
    Twice {
        /// Which value has a name of one before, from 0.
        place: usize,
    },
    /// There is too little room.
    NoRoom {
        /// How many bytes the block has.
        needed: usize,
    },
}

impl fmt::Display for WriteError {
    fn fmt(&self, f: &mut fmt::Formatter<'_>) -> fmt::Result {
        match self {
            WriteError::TooMany { count } => write!(
                f,
                "there are {count} values, and a block can't hold more than 65,535"
            ),
            WriteError::NameTooLong { place } => write!(
                f,
                "the name of value {place} is longer than 65,535 bytes, which a block can't hold"
            ),
            WriteError::BlockTooLong { needed } => write!(
                f,
                "the values need {needed} bytes, and a block can't have more than 4,294,967,299"
            ),
            WriteError::Twice { place } => write!(
                f,
                "value {place} has a name that was given to one before it"
            ),
            WriteError::NoRoom { needed } => {
                write!(f, "the values need {needed} bytes, and there is less room")
            }
        }
    }
}

#[cfg(feature = "std")]
impl std::error::Error for WriteError {}

/// Writes values, each a name and a number, as a block 192 into the caller's bytes, and gives the
/// block.
///
/// They may be given in any order. Bytes behind the block stay as they were; where it is an error,
/// all of them do. Limits, such as that of 512 values, are left to whoever reads the block. For
/// names that ascend already the time grows with the count of values, else with its square.
///
/// ```
/// let mut room = [0; 64];
/// let values = ciztarmo::write_values(&[("legs.n", 3), ("class", 2)], &mut room).unwrap();
/// assert_eq!(ciztarmo::read_values(values), Ok(()));
/// ```
pub fn write_values<'o, N: AsRef<str>>(
    values: &[(N, u64)],
    out: &'o mut [u8],
) -> Result<&'o [u8], WriteError> {
    let needed = length_of(values)?;
    if values.windows(2).all(|w| name(&w[0]) < name(&w[1])) {
        return in_order(needed, values.iter().map(pair), out);
    }
    all_differ(values)?;
    let sorted = successors(behind(values, None), |last| behind(values, Some(last.0)));
    in_order(needed, sorted, out)
}

/// The block of values whose names ascend, of which it is known how many bytes they need.
pub(crate) fn in_order<'o, 'n>(
    needed: usize,
    values: impl Iterator<Item = (&'n str, u64)>,
    out: &'o mut [u8],
) -> Result<&'o [u8], WriteError> {
    let block = out.get_mut(..needed).ok_or(WriteError::NoRoom { needed })?;
    let (head, mut rest) = block.split_at_mut(HEAD);
    let mut count: u16 = 0;
    for (name, number) in values {
        rest = put(rest, name.as_bytes(), number);
        count += 1;
    }
    head[..4].copy_from_slice(&(needed as u32 - 4).to_le_bytes());
    head[4..6].copy_from_slice(&KIND.to_le_bytes());
    head[6..].copy_from_slice(&count.to_le_bytes());
    Ok(block)
}

fn pair<N: AsRef<str>>(value: &(N, u64)) -> (&str, u64) {
    (value.0.as_ref(), value.1)
}

fn name<N: AsRef<str>>(value: &(N, u64)) -> &str {
    value.0.as_ref()
}

/// The length of the block, if its fields can say it.
fn length_of<N: AsRef<str>>(values: &[(N, u64)]) -> Result<usize, WriteError> {
    let count = values.len();
    if count > usize::from(u16::MAX) {
        return Err(WriteError::TooMany { count });
    }
    let long = |value| name(value).len() > usize::from(u16::MAX);
    if let Some(place) = values.iter().position(long) {
        return Err(WriteError::NameTooLong { place });
    }
    let lengths = values.iter().map(|value| BESIDE + name(value).len());
    let needed = HEAD + lengths.sum::<usize>();
    match u32::try_from(needed - 4) {
        Ok(_) => Ok(needed),
        Err(_) => Err(WriteError::BlockTooLong { needed }),
    }
}

fn all_differ<N: AsRef<str>>(values: &[(N, u64)]) -> Result<(), WriteError> {
    for (place, value) in values.iter().enumerate() {
        if values[..place].iter().any(|b| name(b) == name(value)) {
            return Err(WriteError::Twice { place });
        }
    }
    Ok(())
}

/// The value that stands behind a name in byte order, which is the order of texts; the first of
/// all where no name is given.
fn behind<'v, N: AsRef<str>>(values: &'v [(N, u64)], last: Option<&str>) -> Option<(&'v str, u64)> {
    let later = values.iter().map(pair).filter(|v| Some(v.0) > last);
    later.min_by_key(|v| v.0)
}

/// Writes a value and gives what is behind it.
fn put<'o>(out: &'o mut [u8], name: &[u8], number: u64) -> &'o mut [u8] {
    let (length, rest) = out.split_at_mut(2);
    length.copy_from_slice(&(name.len() as u16).to_le_bytes());
    let (text, rest) = rest.split_at_mut(name.len());
    text.copy_from_slice(name);
    let (bytes, rest) = rest.split_at_mut(8);
    bytes.copy_from_slice(&number.to_le_bytes());
    rest
}
