//! The calls of crates/ciztarmo, from the archive and, under the feature
//! `before`, from an older one, whose calls judge/run has put `before_` in
//! front of. There a slice is an address and a length, an answer four words:
//! number (0 if accepted), place, offset, and value, count or length.

use std::cell::Cell;

pub type Answer = [u64; 4];

/// Working words that several calls are lent in turn.
pub type Lent<'a> = &'a [Cell<u64>];

/// Which of two calls is measured: the one that is lent working words, or the
/// one that has its own.
#[derive(Clone, Copy)]
pub enum Words<'a> {
    Lent(Lent<'a>),
    Own,
}

type Read = unsafe extern "C" fn(*mut u64, usize, *const u8, usize, *mut Answer);

/// The calls of one archive.
pub struct Archive {
    read_set: Read,
    read_layout: Read,
    build_set: unsafe extern "C" fn(*mut u64, usize, *const u8, usize, *mut u8, usize, *mut Answer),
    layout_of: unsafe extern "C" fn(*const u8, usize, *mut u8, usize, *mut Answer),
    validate: unsafe extern "C" fn(
        *mut u64,
        usize,
        *const u8,
        usize,
        *const u8,
        usize,
        *const u8,
        usize,
        u64,
        *mut Answer,
    ),
    length_of: unsafe extern "C" fn(
        *const u8,
        usize,
        *const u8,
        usize,
        *const u8,
        usize,
        u64,
        *mut Answer,
    ),
    validate_runs: unsafe extern "C" fn(
        *mut u64,
        usize,
        *const u8,
        usize,
        *const u8,
        usize,
        *mut u64,
        usize,
    ) -> usize,
}

/// The archive whose calls have this in front of their names.
macro_rules! archive {
    ($front:literal) => {{
        extern "C" {
            #[link_name = concat!($front, "ciztarmo_read_set")]
            fn read_set(
                words: *mut u64,
                words_len: usize,
                set: *const u8,
                set_len: usize,
                answer: *mut Answer,
            );
            #[link_name = concat!($front, "ciztarmo_read_layout")]
            fn read_layout(
                words: *mut u64,
                words_len: usize,
                layout: *const u8,
                layout_len: usize,
                answer: *mut Answer,
            );
            #[link_name = concat!($front, "ciztarmo_build_set")]
            fn build_set(
                words: *mut u64,
                words_len: usize,
                set: *const u8,
                set_len: usize,
                out: *mut u8,
                out_len: usize,
                answer: *mut Answer,
            );
            #[link_name = concat!($front, "ciztarmo_layout_of")]
            fn layout_of(
                set: *const u8,
                set_len: usize,
                out: *mut u8,
                out_len: usize,
                answer: *mut Answer,
            );
            #[link_name = concat!($front, "ciztarmo_validate")]
            fn validate(
                words: *mut u64,
                words_len: usize,
                layout: *const u8,
                layout_len: usize,
                name: *const u8,
                name_len: usize,
                values: *const u8,
                values_len: usize,
                len: u64,
                answer: *mut Answer,
            );
            #[link_name = concat!($front, "ciztarmo_length_of")]
            fn length_of(
                layout: *const u8,
                layout_len: usize,
                name: *const u8,
                name_len: usize,
                values: *const u8,
                values_len: usize,
                len: u64,
                answer: *mut Answer,
            );
            #[link_name = concat!($front, "ciztarmo_validate_runs")]
            fn validate_runs(
                words: *mut u64,
                words_len: usize,
                layout: *const u8,
                layout_len: usize,
                runs: *const u8,
                runs_len: usize,
                answers: *mut u64,
                answers_len: usize,
            ) -> usize;
        }
        Archive {
            read_set,
            read_layout,
            build_set,
            layout_of,
            validate,
            length_of,
            validate_runs,
        }
    }};
}

pub static NOW: Archive = archive!("");

/// The older archive, where `judge/run bench --before` names one.
#[cfg(feature = "before")]
pub static BEFORE: Option<Archive> = Some(archive!("before_"));
#[cfg(not(feature = "before"))]
pub static BEFORE: Option<Archive> = None;

/// Each archive that is measured, with the name that it has in messages.
pub fn archives() -> impl Iterator<Item = (&'static str, &'static Archive)> {
    let older = BEFORE.iter().map(|older| ("the older archive", older));
    [("ours", &NOW)].into_iter().chain(older)
}

impl Archive {
    pub fn read_set(&self, words: Lent, set: &[u8]) -> Answer {
        read(self.read_set, words, set)
    }

    pub fn read_layout(&self, words: Lent, layout: &[u8]) -> Answer {
        read(self.read_layout, words, layout)
    }

    pub fn build(&self, words: Words, set: &[u8], out: &mut [u8]) -> Answer {
        match words {
            Words::Lent(words) => self.build_set(words, set, out),
            Words::Own => self.layout_of(set, out),
        }
    }

    pub fn count(
        &self,
        words: Words,
        layout: &[u8],
        name: &[u8],
        values: &[u8],
        len: u64,
    ) -> Answer {
        match words {
            Words::Lent(words) => self.validate(words, layout, name, values, len),
            Words::Own => self.length_of(layout, name, values, len),
        }
    }

    fn build_set(&self, words: Lent, set: &[u8], out: &mut [u8]) -> Answer {
        let mut answer = [0; 4];
        // SAFETY: as in `read`.
        unsafe {
            (self.build_set)(
                address(words),
                words.len(),
                set.as_ptr(),
                set.len(),
                out.as_mut_ptr(),
                out.len(),
                &mut answer,
            );
        }
        answer
    }

    fn layout_of(&self, set: &[u8], out: &mut [u8]) -> Answer {
        let mut answer = [0; 4];
        // SAFETY: as in `read`.
        unsafe {
            (self.layout_of)(
                set.as_ptr(),
                set.len(),
                out.as_mut_ptr(),
                out.len(),
                &mut answer,
            );
        }
        answer
    }

    fn validate(&self, words: Lent, layout: &[u8], name: &[u8], values: &[u8], len: u64) -> Answer {
        let mut answer = [0; 4];
        // SAFETY: as in `read`.
        unsafe {
            (self.validate)(
                address(words),
                words.len(),
                layout.as_ptr(),
                layout.len(),
                name.as_ptr(),
                name.len(),
                values.as_ptr(),
                values.len(),
                len,
                &mut answer,
            );
        }
        answer
    }

    fn length_of(&self, layout: &[u8], name: &[u8], values: &[u8], len: u64) -> Answer {
        let mut answer = [0; 4];
        // SAFETY: as in `read`.
        unsafe {
            (self.length_of)(
                layout.as_ptr(),
                layout.len(),
                name.as_ptr(),
                name.len(),
                values.as_ptr(),
                values.len(),
                len,
                &mut answer,
            );
        }
        answer
    }

    /// How many runs have their answers.
    pub fn validate_runs(
        &self,
        words: Lent,
        layout: &[u8],
        runs: &[u8],
        answers: &mut [Answer],
    ) -> usize {
        // SAFETY: as in `read`; an answer is four words.
        unsafe {
            (self.validate_runs)(
                address(words),
                words.len(),
                layout.as_ptr(),
                layout.len(),
                runs.as_ptr(),
                runs.len(),
                answers.as_mut_ptr().cast(),
                4 * answers.len(),
            )
        }
    }
}

fn read(call: Read, words: Lent, bytes: &[u8]) -> Answer {
    let mut answer = [0; 4];
    // SAFETY: each address and length is a slice's, and none that is written
    // overlaps another; the words are cells, so that they may be written.
    unsafe {
        call(
            address(words),
            words.len(),
            bytes.as_ptr(),
            bytes.len(),
            &mut answer,
        );
    }
    answer
}

fn address(words: Lent) -> *mut u64 {
    words.as_ptr() as *mut u64
}
