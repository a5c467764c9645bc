//! The least that a call which owes zeros in its working words has to do: to
//! look at all of them.

/// The fastest way that this machine has to see whether a word is not zero.
pub fn widest() -> (&'static str, fn(&[u64]) -> bool) {
    #[cfg(target_arch = "x86_64")]
    {
        if is_x86_feature_detected!("avx512f") {
            // SAFETY: the processor has what the function is compiled for.
            return ("64 bytes at once", |words| unsafe { wide::any_64(words) });
        }
        if is_x86_feature_detected!("avx2") {
            // SAFETY: as above.
            return ("32 bytes at once", |words| unsafe { wide::any_32(words) });
        }
    }
    ("as the compiler has it", any)
}

fn any(words: &[u64]) -> bool {
    words.iter().fold(0, |bits, word| bits | word) != 0
}

#[cfg(target_arch = "x86_64")]
mod wide {
    use std::arch::x86_64::*;

    /// Four sums side by side, so that no load waits for another.
    #[target_feature(enable = "avx512f")]
    pub unsafe fn any_64(words: &[u64]) -> bool {
        let mut sums = [_mm512_setzero_si512(); 4];
        let chunks = words.chunks_exact(32);
        let rest = super::any(chunks.remainder());
        for chunk in chunks {
            for (i, sum) in sums.iter_mut().enumerate() {
                // SAFETY: a chunk has 32 words, and four times eight are read.
                let eight = unsafe { _mm512_loadu_si512(chunk.as_ptr().add(8 * i).cast()) };
                *sum = _mm512_or_si512(*sum, eight);
            }
        }
        let [a, b, c, d] = sums;
        let all = _mm512_or_si512(_mm512_or_si512(a, b), _mm512_or_si512(c, d));
        rest || _mm512_test_epi64_mask(all, all) != 0
    }

    /// The same with four words at once.
    #[target_feature(enable = "avx2")]
    pub unsafe fn any_32(words: &[u64]) -> bool {
        let mut sums = [_mm256_setzero_si256(); 4];
        let chunks = words.chunks_exact(16);
        let rest = super::any(chunks.remainder());
        for chunk in chunks {
            for (i, sum) in sums.iter_mut().enumerate() {
                // SAFETY: a chunk has 16 words, and four times four are read.
                let four = unsafe { _mm256_loadu_si256(chunk.as_ptr().add(4 * i).cast()) };
                *sum = _mm256_or_si256(*sum, four);
            }
        }
        let [a, b, c, d] = sums;
        let all = _mm256_or_si256(_mm256_or_si256(a, b), _mm256_or_si256(c, d));
        rest || _mm256_testz_si256(all, all) == 0
    }
}
