//! Question 3: what bytes a name or a text may have. Written from the grammar
//! of RFC 3629, section 4, and not from the library's own decoder.

/// The forms of a character: for each of its bytes the least and the greatest.
const FORMS: [&[(u8, u8)]; 9] = [
    &[(0x00, 0x7F)],
    &[(0xC2, 0xDF), TAIL],
    &[(0xE0, 0xE0), (0xA0, 0xBF), TAIL],
    &[(0xE1, 0xEC), TAIL, TAIL],
    &[(0xED, 0xED), (0x80, 0x9F), TAIL],
    &[(0xEE, 0xEF), TAIL, TAIL],
    &[(0xF0, 0xF0), (0x90, 0xBF), TAIL, TAIL],
    &[(0xF1, 0xF3), TAIL, TAIL, TAIL],
    &[(0xF4, 0xF4), (0x80, 0x8F), TAIL, TAIL],
];
const TAIL: (u8, u8) = (0x80, 0xBF);

/// How many bytes the character at the start has, if one stands there.
fn character(bytes: &[u8]) -> Option<usize> {
    let within = |form: &&[(u8, u8)]| {
        let mut pairs = form.iter().zip(bytes);
        form.len() <= bytes.len() && pairs.all(|((low, high), b)| (low..=high).contains(&b))
    };
    FORMS.into_iter().find(within).map(<[_]>::len)
}

/// Whole characters one behind the other, and no byte below 0x20 or 0x7F.
pub fn well_formed(bytes: &[u8]) -> bool {
    let mut rest = bytes;
    while let Some(n) = character(rest) {
        rest = &rest[n..];
    }
    rest.is_empty() && !bytes.iter().any(|b| *b < 0x20 || *b == 0x7F)
}

#[cfg(test)]
mod tests {
    use super::well_formed;
    use crate::gen::texts::{BAD, GOOD};

    /// The library's decoder, and the bytes that the wish leaves out.
    fn expected(bytes: &[u8]) -> bool {
        let control = |b: &u8| *b < 0x20 || *b == 0x7F;
        std::str::from_utf8(bytes).is_ok() && !bytes.iter().any(control)
    }

    fn hold(bytes: &[u8]) {
        assert_eq!(well_formed(bytes), expected(bytes), "{bytes:02x?}");
    }

    #[test]
    fn up_to_three_bytes() {
        hold(&[]);
        for n in 0..1u32 << 24 {
            let [_, a, b, c] = n.to_be_bytes();
            hold(&[a, b, c]);
            if a == 0 {
                hold(&[b, c]);
            }
            if n < 256 {
                hold(&[c]);
            }
        }
    }

    #[test]
    fn four_bytes_from_f0_on() {
        for n in 0xF000_0000..0xF800_0000u32 {
            hold(&n.to_be_bytes());
        }
    }

    #[test]
    fn texts_of_the_list() {
        assert!(GOOD.iter().all(|t| well_formed(t.as_bytes())));
        assert!(BAD.iter().all(|t| !well_formed(t)));
    }
}
