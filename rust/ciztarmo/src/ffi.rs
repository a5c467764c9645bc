//! The calls of libciztarmo.a: the only unsafe code of this crate.
//!
//! Each call takes a slice as its address and its length and puts its answer into four words:
//! number (0 if accepted), type place, offset, and value or count; `validate_runs` has an answer
//! for each run. No call asks anything of the contents of a slice, keeps an address, or writes
//! outside the slices that are lent to write.

pub type Answer = [u64; 4];

extern "C" {
    fn ciztarmo_read_set(w: *mut u64, wn: usize, s: *const u8, sn: usize, a: *mut Answer);
    fn ciztarmo_read_layout(w: *mut u64, wn: usize, l: *const u8, ln: usize, a: *mut Answer);
    fn ciztarmo_read_values(w: *mut u64, wn: usize, v: *const u8, vn: usize, a: *mut Answer);
    fn ciztarmo_read_run(w: *mut u64, wn: usize, r: *const u8, rn: usize, a: *mut Answer);
    fn ciztarmo_build_set(
        words: *mut u64,
        words_len: usize,
        set: *const u8,
        set_len: usize,
        out: *mut u8,
        out_len: usize,
        answer: *mut Answer,
    );
    fn ciztarmo_layout_of(
        set: *const u8,
        set_len: usize,
        out: *mut u8,
        out_len: usize,
        answer: *mut Answer,
    );
    fn ciztarmo_validate(
        words: *mut u64,
        words_len: usize,
        layout: *const u8,
        layout_len: usize,
        name: *const u8,
        name_len: usize,
        values: *const u8,
        values_len: usize,
        len: u64,
        answer: *mut Answer,
    );
    fn ciztarmo_validate_run(
        words: *mut u64,
        words_len: usize,
        layout: *const u8,
        layout_len: usize,
        run: *const u8,
        run_len: usize,
        answer: *mut Answer,
    );
    fn ciztarmo_length_of(
        layout: *const u8,
        layout_len: usize,
        name: *const u8,
        name_len: usize,
        values: *const u8,
        values_len: usize,
        len: u64,
        answer: *mut Answer,
    );
    fn ciztarmo_length_of_run(
        layout: *const u8,
        layout_len: usize,
        run: *const u8,
        run_len: usize,
        answer: *mut Answer,
    );
    fn ciztarmo_validate_runs(
        words: *mut u64,
        words_len: usize,
        layout: *const u8,
        layout_len: usize,
        runs: *const u8,
        runs_len: usize,
        answers: *mut u64,
        answers_len: usize,
    ) -> usize;
}

/// What stands in the four words before a call; no call answers it.
pub const UNANSWERED: Answer = [u64::MAX; 4];

pub fn read_set(words: &mut [u64], set: &[u8]) -> Answer {
    let mut a = UNANSWERED;
    let (w, wn) = (words.as_mut_ptr(), words.len());
    // SAFETY: each address and length is a live slice's; what is written is borrowed mutably, so
    // nothing overlaps.
    unsafe { ciztarmo_read_set(w, wn, set.as_ptr(), set.len(), &mut a) };
    a
}

pub fn read_layout(words: &mut [u64], layout: &[u8]) -> Answer {
    let mut a = UNANSWERED;
    let (w, wn) = (words.as_mut_ptr(), words.len());
    // SAFETY: as in `read_set`.
    unsafe { ciztarmo_read_layout(w, wn, layout.as_ptr(), layout.len(), &mut a) };
    a
}

pub fn read_values(words: &mut [u64], values: &[u8]) -> Answer {
    let mut a = UNANSWERED;
    let (w, wn) = (words.as_mut_ptr(), words.len());
    // SAFETY: as in `read_set`.
    unsafe { ciztarmo_read_values(w, wn, values.as_ptr(), values.len(), &mut a) };
    a
}

pub fn read_run(words: &mut [u64], run: &[u8]) -> Answer {
    let mut a = UNANSWERED;
    let (w, wn) = (words.as_mut_ptr(), words.len());
    // SAFETY: as in `read_set`.
    unsafe { ciztarmo_read_run(w, wn, run.as_ptr(), run.len(), &mut a) };
    a
}

pub fn build_set(words: &mut [u64], set: &[u8], out: &mut [u8]) -> Answer {
    let mut a = UNANSWERED;
    let (w, wn) = (words.as_mut_ptr(), words.len());
    let (o, on) = (out.as_mut_ptr(), out.len());
    // SAFETY: as in `read_set`; `out` too is borrowed mutably.
    unsafe { ciztarmo_build_set(w, wn, set.as_ptr(), set.len(), o, on, &mut a) };
    a
}

pub fn layout_of(set: &[u8], out: &mut [u8]) -> Answer {
    let mut a = UNANSWERED;
    let (o, on) = (out.as_mut_ptr(), out.len());
    // SAFETY: as in `build_set`.
    unsafe { ciztarmo_layout_of(set.as_ptr(), set.len(), o, on, &mut a) };
    a
}

pub fn validate(words: &mut [u64], layout: &[u8], name: &[u8], values: &[u8], len: u64) -> Answer {
    let mut a = UNANSWERED;
    let (w, wn) = (words.as_mut_ptr(), words.len());
    let (l, ln) = (layout.as_ptr(), layout.len());
    let (n, nn) = (name.as_ptr(), name.len());
    let (v, vn) = (values.as_ptr(), values.len());
    // SAFETY: as in `read_set`; the slices that are only read may be the same.
    unsafe { ciztarmo_validate(w, wn, l, ln, n, nn, v, vn, len, &mut a) };
    a
}

pub fn validate_run(words: &mut [u64], layout: &[u8], run: &[u8]) -> Answer {
    let mut a = UNANSWERED;
    let (w, wn) = (words.as_mut_ptr(), words.len());
    let (l, ln) = (layout.as_ptr(), layout.len());
    // SAFETY: as in `validate`.
    unsafe { ciztarmo_validate_run(w, wn, l, ln, run.as_ptr(), run.len(), &mut a) };
    a
}

pub fn length_of(layout: &[u8], name: &[u8], values: &[u8], len: u64) -> Answer {
    let mut a = UNANSWERED;
    let (l, ln) = (layout.as_ptr(), layout.len());
    let (n, nn) = (name.as_ptr(), name.len());
    let (v, vn) = (values.as_ptr(), values.len());
    // SAFETY: as in `validate`.
    unsafe { ciztarmo_length_of(l, ln, n, nn, v, vn, len, &mut a) };
    a
}

pub fn length_of_run(layout: &[u8], run: &[u8]) -> Answer {
    let mut a = UNANSWERED;
    let (l, ln) = (layout.as_ptr(), layout.len());
    // SAFETY: as in `validate`.
    unsafe { ciztarmo_length_of_run(l, ln, run.as_ptr(), run.len(), &mut a) };
    a
}

/// Puts the answers to the runs that stand one behind the other into `all`, from the first on, and
/// gives how many there are.
pub fn validate_runs(
    words: &mut [u64],
    layout: &[u8],
    runs: &[u8],
    all: &mut [crate::work::Answer],
) -> usize {
    let (w, wn) = (words.as_mut_ptr(), words.len());
    let (l, ln) = (layout.as_ptr(), layout.len());
    let (r, rn) = (runs.as_ptr(), runs.len());
    let (a, an) = (all.as_mut_ptr().cast::<u64>(), 4 * all.len());
    // SAFETY: as in `validate`; an answer is four words and nothing else (`repr(transparent)`), so
    // that so many answers are four times as many words without gaps.
    unsafe { ciztarmo_validate_runs(w, wn, l, ln, r, rn, a, an) }
}
