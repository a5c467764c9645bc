//! The plain calls: bytes in, an answer or a refusal out.

#[cfg(feature = "alloc")]
use crate::block::count_blocks;
use crate::ffi;
use crate::refusal::{accepted, Number, Refusal};
#[cfg(feature = "alloc")]
use alloc::{vec, vec::Vec};
use core::fmt;

/// How many working words each call needs. With fewer it is refused with 19.
pub const WORDS: usize = 8192;

/// How many bytes an input and a built layout have at most.
pub const LIMIT: usize = 65_536;

/// The calls over working words that the caller lends.
///
/// Whatever they held, the words are all zero after each call.
///
/// ```
/// let mut words = [0; ciztarmo::WORDS];
/// let refusal = ciztarmo::Lent::new(&mut words).read_set(&[]).unwrap_err();
/// assert_eq!(refusal.number(), ciztarmo::Number::BlockDoesNotFit);
/// ```
pub struct Lent<'w> {
    words: &'w mut [u64],
}

impl fmt::Debug for Lent<'_> {
    fn fmt(&self, f: &mut fmt::Formatter<'_>) -> fmt::Result {
        write!(f, "Lent({} words)", self.words.len())
    }
}

impl<'w> Lent<'w> {
    /// Takes the words. With fewer than [`WORDS`] each call is refused with 19.
    pub fn new(words: &'w mut [u64]) -> Self {
        Lent { words }
    }

    /// Reads a type set (a block 36): whether it is accepted.
    pub fn read_set(&mut self, set: &[u8]) -> Result<(), Refusal> {
        accepted(ffi::read_set(self.words, set)).map(|_| ())
    }

    /// Reads a layout (a block 160): whether it is accepted.
    pub fn read_layout(&mut self, layout: &[u8]) -> Result<(), Refusal> {
        accepted(ffi::read_layout(self.words, layout)).map(|_| ())
    }

    /// Reads values (a block 192): whether they are accepted.
    pub fn read_values(&mut self, values: &[u8]) -> Result<(), Refusal> {
        accepted(ffi::read_values(self.words, values)).map(|_| ())
    }

    /// Reads a run (a block 193): whether it is accepted.
    pub fn read_run(&mut self, run: &[u8]) -> Result<(), Refusal> {
        accepted(ffi::read_run(self.words, run)).map(|_| ())
    }

    /// Builds every type of a set into the caller's bytes and gives the layout's length.
    ///
    /// Bytes behind the layout stay as they were. Where the build is refused, all of `out` is zero.
    pub fn build_set_into(&mut self, set: &[u8], out: &mut [u8]) -> Result<usize, Refusal> {
        built(ffi::build_set(self.words, set, out))
    }

    /// Counts the bytes of a record of the type `name`.
    ///
    /// `values` is a block 192 and `length` the length of the buffer that holds the record.
    pub fn validate(
        &mut self,
        layout: &[u8],
        name: impl AsRef<[u8]>,
        values: &[u8],
        length: u64,
    ) -> Result<u64, Refusal> {
        let name = name.as_ref();
        accepted(ffi::validate(self.words, layout, name, values, length))
    }

    /// Counts the bytes of the record that a run (a block 193) asks for.
    pub fn validate_run(&mut self, layout: &[u8], run: &[u8]) -> Result<u64, Refusal> {
        accepted(ffi::validate_run(self.words, layout, run))
    }

    /// Counts the bytes of the records that many runs (blocks 193) ask for, over one layout, which
    /// is read once, and gives the answers: from the first run on, as many as there are runs and
    /// as `answers` has room for.
    ///
    /// The runs stand one behind the other: each is as long as its length field says, or as much
    /// of it as is there. Each has the answer that [`validate_run`](Lent::validate_run) gives it
    /// alone. Each may have [`LIMIT`] bytes; together they may have more.
    pub fn validate_runs_into<'o>(
        &mut self,
        layout: &[u8],
        runs: &[u8],
        answers: &'o mut [Answer],
    ) -> &'o [Answer] {
        let given = ffi::validate_runs(self.words, layout, runs, answers);
        &answers[..given]
    }
}

/// The answer to one of many runs; see [`Lent::validate_runs_into`].
#[derive(Clone, Copy, Debug, PartialEq, Eq)]
#[repr(transparent)]
pub struct Answer(ffi::Answer);

impl Default for Answer {
    fn default() -> Self {
        Answer(ffi::UNANSWERED)
    }
}

impl Answer {
    /// The count, or the refusal.
    ///
    /// # Panics
    ///
    /// If it is an [`Answer::default`] that no call has answered.
    pub fn count(&self) -> Result<u64, Refusal> {
        accepted(self.0)
    }
}

fn built(answer: ffi::Answer) -> Result<usize, Refusal> {
    let length = accepted(answer)?;
    Ok(usize::try_from(length).expect("a built layout lies in the output"))
}

/// The working words that each call needs, kept from call to call: [`Lent`] with words of its own.
///
/// They are all zero after each call, so nothing of one call is left for the next.
#[cfg(feature = "alloc")]
#[derive(Clone)]
pub struct Work {
    words: Vec<u64>,
}

#[cfg(feature = "alloc")]
impl fmt::Debug for Work {
    fn fmt(&self, f: &mut fmt::Formatter<'_>) -> fmt::Result {
        write!(f, "Work({} words)", self.words.len())
    }
}

#[cfg(feature = "alloc")]
impl Default for Work {
    fn default() -> Self {
        Work::new()
    }
}

#[cfg(feature = "alloc")]
impl Work {
    /// Makes [`WORDS`] working words.
    pub fn new() -> Self {
        Work::with_words(WORDS)
    }

    /// Makes `count` working words. With fewer than [`WORDS`] each call is refused with 19.
    pub fn with_words(count: usize) -> Self {
        Work {
            words: vec![0; count],
        }
    }

    fn lent(&mut self) -> Lent<'_> {
        Lent::new(&mut self.words)
    }

    /// Reads a type set (a block 36): whether it is accepted.
    pub fn read_set(&mut self, set: &[u8]) -> Result<(), Refusal> {
        self.lent().read_set(set)
    }

    /// Reads a layout (a block 160): whether it is accepted.
    pub fn read_layout(&mut self, layout: &[u8]) -> Result<(), Refusal> {
        self.lent().read_layout(layout)
    }

    /// Reads values (a block 192): whether they are accepted.
    pub fn read_values(&mut self, values: &[u8]) -> Result<(), Refusal> {
        self.lent().read_values(values)
    }

    /// Reads a run (a block 193): whether it is accepted.
    pub fn read_run(&mut self, run: &[u8]) -> Result<(), Refusal> {
        self.lent().read_run(run)
    }

    /// Builds every type of a set, in set order, and gives the layout's bytes.
    pub fn build_set(&mut self, set: &[u8]) -> Result<Vec<u8>, Refusal> {
        let mut out = vec![0; LIMIT];
        let length = self.build_set_into(set, &mut out)?;
        out.truncate(length);
        out.shrink_to_fit();
        Ok(out)
    }

    /// Builds every type of a set into the caller's bytes and gives the layout's length.
    ///
    /// Bytes behind the layout stay as they were. Where the build is refused, all of `out` is zero.
    pub fn build_set_into(&mut self, set: &[u8], out: &mut [u8]) -> Result<usize, Refusal> {
        self.lent().build_set_into(set, out)
    }

    /// Counts the bytes of a record of the type `name`.
    ///
    /// `values` is a block 192 and `length` the length of the buffer that holds the record.
    pub fn validate(
        &mut self,
        layout: &[u8],
        name: impl AsRef<[u8]>,
        values: &[u8],
        length: u64,
    ) -> Result<u64, Refusal> {
        self.lent().validate(layout, name, values, length)
    }

    /// Counts the bytes of the record that a run (a block 193) asks for.
    pub fn validate_run(&mut self, layout: &[u8], run: &[u8]) -> Result<u64, Refusal> {
        self.lent().validate_run(layout, run)
    }

    /// Counts the bytes of the records that many runs (blocks 193) ask for, over one layout, which
    /// is read once: [`Lent::validate_runs_into`] with room for every answer.
    pub fn validate_runs(&mut self, layout: &[u8], runs: &[u8]) -> Vec<Result<u64, Refusal>> {
        let mut room = vec![Answer::default(); count_blocks(runs)];
        let answers = self.lent().validate_runs_into(layout, runs, &mut room);
        answers.iter().map(Answer::count).collect()
    }
}

/// A layout without types, values without a value, and a name that no layout can hold: with them a
/// call that validates does nothing but read its other input, and then answers 20. So reading
/// needs no words that are lent.
const NO_TYPES: [u8; 8] = [4, 0, 0, 0, 160, 0, 0, 0];
const NO_VALUES: [u8; 8] = [4, 0, 0, 0, 192, 0, 0, 0];
const NO_NAME: &[u8] = &[0];

/// What a call says that only read: an unknown type is all that there is to be refused behind it.
fn only_read(answer: Result<u64, Refusal>) -> Result<(), Refusal> {
    match answer {
        Err(refusal) if refusal.number() == Number::UnknownType => Ok(()),
        Err(refusal) => Err(refusal),
        Ok(_) => unreachable!("no type has this name"),
    }
}

/// [`Work::read_set`] with working words for this call alone.
#[cfg(feature = "alloc")]
pub fn read_set(set: &[u8]) -> Result<(), Refusal> {
    Work::new().read_set(set)
}

/// [`Lent::read_layout`] by a call that has its own working words.
pub fn read_layout(layout: &[u8]) -> Result<(), Refusal> {
    only_read(validate(layout, NO_NAME, &NO_VALUES, 0))
}

/// [`Lent::read_values`] by a call that has its own working words.
pub fn read_values(values: &[u8]) -> Result<(), Refusal> {
    only_read(validate(&NO_TYPES, NO_NAME, values, 0))
}

/// [`Lent::read_run`] by a call that has its own working words.
pub fn read_run(run: &[u8]) -> Result<(), Refusal> {
    only_read(validate_run(&NO_TYPES, run))
}

/// [`Work::build_set`] by a call that has its own working words.
#[cfg(feature = "alloc")]
pub fn build_set(set: &[u8]) -> Result<Vec<u8>, Refusal> {
    let mut out = vec![0; LIMIT];
    let length = build_set_into(set, &mut out)?;
    out.truncate(length);
    out.shrink_to_fit();
    Ok(out)
}

/// [`Lent::build_set_into`] by a call that has its own working words.
pub fn build_set_into(set: &[u8], out: &mut [u8]) -> Result<usize, Refusal> {
    built(ffi::layout_of(set, out))
}

/// [`Lent::validate`] by a call that has its own working words: for one record the fastest.
pub fn validate(
    layout: &[u8],
    name: impl AsRef<[u8]>,
    values: &[u8],
    length: u64,
) -> Result<u64, Refusal> {
    accepted(ffi::length_of(layout, name.as_ref(), values, length))
}

/// [`Lent::validate_run`] by a call that has its own working words: for one run the fastest.
pub fn validate_run(layout: &[u8], run: &[u8]) -> Result<u64, Refusal> {
    accepted(ffi::length_of_run(layout, run))
}

/// [`Work::validate_runs`] with working words for this call alone.
#[cfg(feature = "alloc")]
pub fn validate_runs(layout: &[u8], runs: &[u8]) -> Vec<Result<u64, Refusal>> {
    Work::new().validate_runs(layout, runs)
}

#[cfg(test)]
mod tests {
    use super::*;

    /// Whatever the words held, they are zero after a call, one that is refused included.
    #[test]
    fn words_are_zero_after_a_call() {
        let empty_set = [4, 0, 0, 0, 36, 0, 0, 0];
        let calls: [fn(&mut Work, &[u8]) -> bool; 8] = [
            |work, bytes| work.read_set(bytes).is_ok(),
            |work, bytes| work.read_layout(bytes).is_ok(),
            |work, bytes| work.read_values(bytes).is_ok(),
            |work, bytes| work.read_run(bytes).is_ok(),
            |work, bytes| work.build_set(bytes).is_ok(),
            |work, bytes| work.validate(bytes, "", bytes, 0).is_ok(),
            |work, bytes| work.validate_run(bytes, bytes).is_ok(),
            |work, bytes| work.validate_runs(bytes, bytes)[0].is_ok(),
        ];
        let mut accepted = Vec::new();
        for call in calls {
            for count in [0, WORDS - 1, WORDS, WORDS + 1] {
                let mut work = Work::with_words(count);
                work.words.fill(u64::MAX);
                let taken = call(&mut work, &empty_set);
                assert!(work.words.iter().all(|word| *word == 0));
                accepted.push(taken);
            }
        }
        // Reading and building the set, with enough words.
        assert_eq!(accepted.iter().filter(|a| **a).count(), 4);
    }
}
