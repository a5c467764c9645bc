//! What bytes a name may have, asked of the compiled code: UTF-8 without bytes below 0x20 and
//! without 0x7F, at most 255 bytes; and names beyond ASCII from a set to a count.

#[allow(dead_code)]
#[path = "../../../judge/driver/src/gen/texts.rs"]
mod texts;

use ciztarmo::{Answer, Expr, Field, Lent, Number, Set, Type, Values, Work, WORDS};
use texts::{BAD, GOOD};

/// A block: length, kind, body.
fn block(kind: u16, body: &[&[u8]]) -> Vec<u8> {
    let body = body.concat();
    let length = body.len() as u32 + 2;
    [&length.to_le_bytes()[..], &kind.to_le_bytes(), &body].concat()
}

/// A name: length, bytes.
fn name(bytes: &[u8]) -> Vec<u8> {
    [&(bytes.len() as u16).to_le_bytes()[..], bytes].concat()
}

const ONE: [u8; 2] = [1, 0];
const NONE: [u8; 2] = [0, 0];
const ZERO: [u8; 8] = [0; 8];

fn run(asked: &[u8]) -> Vec<u8> {
    block(193, &[&name(asked), &ZERO, &block(192, &[&NONE])])
}

/// A set, a layout, values and a run with this name in them, each with what reading answers.
fn read_everywhere(text: &[u8]) -> [Result<(), Number>; 5] {
    let n = name(text);
    let owner = block(37, &[&n, &ONE, &n]);
    let references = block(32, &[&ONE, &owner]);
    let set = block(36, &[&ONE, &block(1, &[&n, &[1], &ZERO, &references])]);
    let node = block(128, &[&ZERO, &[1], &n]);
    let layout = block(160, &[&ONE, &block(161, &[&n, &ZERO, &node, &NONE])]);
    let values = block(192, &[&ONE, &n, &ZERO]);
    let mut work = Work::new();
    let answers = [
        work.read_set(&set),
        work.read_layout(&layout),
        work.read_values(&values),
        work.read_run(&run(text)),
        ciztarmo::read_layout(&layout),
    ];
    answers.map(|answer| answer.map_err(|no| no.number()))
}

fn is_good(text: &[u8]) {
    assert_eq!(read_everywhere(text), [Ok(()); 5], "{text:02x?}");
}

fn is_bad(text: &[u8]) {
    assert_eq!(
        read_everywhere(text),
        [Err(Number::InvalidName); 5],
        "{text:02x?}"
    );
}

/// The edges of UTF-8 and what lies behind them, alone, behind, before and between other letters.
#[test]
fn edges() {
    for text in GOOD.map(str::as_bytes) {
        is_good(text);
        is_good(&[b"a", text].concat());
        is_good(&[text, b"a".as_slice(), text].concat());
        is_good(&text.repeat(255 / text.len()));
    }
    for text in BAD {
        is_bad(text);
        is_bad(&[b"a", text].concat());
        is_bad(&[text, b"a"].concat());
        is_bad(&["\u{e9}".as_bytes(), text].concat());
        is_bad(&[&b"n".repeat(255 - text.len()), text].concat());
    }
}

/// The limit counts bytes.
#[test]
fn lengths() {
    for text in [
        "é".repeat(127),
        "é".repeat(127) + "n",
        "€".repeat(85),
        "🚌".repeat(63) + "nnn",
    ] {
        is_good(text.as_bytes());
    }
    for text in [
        "é".repeat(128),
        "€".repeat(85) + "n",
        "🚌".repeat(64),
        "n".repeat(254) + "é",
    ] {
        is_bad(text.as_bytes());
    }
}

/// A character that is cut by the end of its name, with the rest of it in the name behind it.
#[test]
fn a_character_in_two_names() {
    let read = |paths: [&[u8]; 2]| {
        let [one, two] = paths.map(name);
        let two_paths = [&name(b"o")[..], &[2, 0], &one, &two].concat();
        let references = block(32, &[&ONE, &block(37, &[&two_paths])]);
        let ty = block(1, &[&name(b"T"), &[1], &ZERO, &references]);
        let read = Work::new().read_set(&block(36, &[&ONE, &ty]));
        read.map_err(|no| no.number().code())
    };
    assert_eq!(read([b"a\xc3\xa9", b"b"]), Ok(()));
    assert_eq!(read([b"a\xc3", b"\xa9b"]), Err(3));
    assert_eq!(read([b"a", b"\xa9b"]), Err(3));
    // A name that runs past its block's end is asked for that first.
    let mut short = run(b"\xc3");
    short[6] = 200;
    let number = Work::new().read_run(&short).map_err(|no| no.number());
    assert_eq!(number, Err(Number::BlockDoesNotFit));
}

/// Bytes decide what ascends, as numbers without a sign, and no spelling is changed.
#[test]
fn order() {
    let read = |names: [&str; 2]| {
        let [one, two] = names.map(|n| name(n.as_bytes()));
        let values = block(192, &[&[2, 0], &one, &ZERO, &two, &ZERO]);
        ciztarmo::read_values(&values).map_err(|no| no.number().code())
    };
    for [low, high] in [
        ["e\u{301}", "é"],
        ["é", "ê"],
        ["z", "\u{80}"],
        ["\u{7ff}", "\u{800}"],
        ["\u{ffff}", "\u{10000}"],
    ] {
        assert_eq!(read([low, high]), Ok(()), "{low} {high}");
        assert_eq!(read([high, low]), Err(6), "{low} {high}");
        assert_eq!(read([low, low]), Err(6), "{low}");
    }
}

/// The stops of a line: built, counted and refused under names with accents.
#[test]
fn from_a_set_to_a_count() {
    let stops = Type::array(
        "Línea::paradas",
        Type::primitive("parada", 4),
        Expr::field("número"),
    );
    let fields = [
        Field::new("número", Type::primitive("u8", 1)).at(0),
        Field::new("paradas", stops),
    ];
    let line = Type::structure("Línea", fields).references("paradas", ["número"]);
    let layout = Set::new().with(line).build().expect("a layout");
    assert_eq!(layout.type_names(), ["Línea"]);
    let parameter = layout
        .type_named("Línea")
        .expect("the type")
        .parameters()
        .next();
    assert_eq!(parameter.map(|p| p.name), Some("paradas.número"));
    let values = Values::of([("paradas.número", 3)]).expect("values");
    assert_eq!(layout.length_of("Línea", &values, 13), Ok(13));
    let refusal = layout
        .length_of("Línea", &Values::new(), 13)
        .expect_err("21");
    let said = layout.explain(&refusal).to_string();
    assert!(
        said.contains("Línea") && said.contains("paradas.número"),
        "{said}"
    );
    let missing = Type::structure("Línea", [Field::new("é", Type::reference("", "Métro"))]);
    let error = Set::new()
        .with(missing)
        .build()
        .expect_err("15")
        .to_string();
    assert!(
        error.starts_with("15: ") && error.contains("Línea"),
        "{error}"
    );
}

/// Runs for every name of so many bytes that ends with any two.
struct Names {
    runs: Vec<u8>,
    each: usize,
    answers: Vec<Answer>,
}

const MANY: usize = 1 << 16;

impl Names {
    fn of_length(length: usize) -> Names {
        let each = run(&vec![0; length]).len();
        let mut runs = Vec::with_capacity(MANY * each);
        for end in 0..MANY {
            let mut bytes = vec![0; length];
            bytes[length - 2..].copy_from_slice(&(end as u16).to_be_bytes());
            runs.extend(run(&bytes));
        }
        Names {
            runs,
            each,
            answers: vec![Answer::default(); MANY],
        }
    }

    /// Asks for all that begin with these bytes, and gives how many are names.
    fn ask(&mut self, begin: &[u8], words: &mut [u64]) -> usize {
        for run in self.runs.chunks_exact_mut(self.each) {
            run[8..8 + begin.len()].copy_from_slice(begin);
        }
        let (good, bad) = (answer_to(b"a"), answer_to(b"\x80"));
        let layout = block(160, &[&NONE]);
        let answers = Lent::new(words).validate_runs_into(&layout, &self.runs, &mut self.answers);
        assert_eq!(answers.len(), MANY);
        let mut names = 0;
        let length = begin.len() + 2;
        for (run, answer) in self.runs.chunks_exact(self.each).zip(answers) {
            let text = &run[8..8 + length];
            let expected = if is_name(text) { good } else { bad };
            assert!(*answer == expected, "{text:02x?}");
            names += usize::from(expected == good);
        }
        names
    }
}

/// The library's decoder, and the bytes that a name may not have.
fn is_name(text: &[u8]) -> bool {
    std::str::from_utf8(text).is_ok() && !text.iter().any(u8::is_ascii_control)
}

/// The answer to a run that asks an empty layout: 20 for a name, 3 for what is none.
fn answer_to(text: &[u8]) -> Answer {
    let layout = block(160, &[&NONE]);
    let mut answers = [Answer::default()];
    let mut words = vec![0; WORDS];
    Lent::new(&mut words).validate_runs_into(&layout, &run(text), &mut answers);
    let number = answers[0].count().map_err(|no| no.number());
    let expected = match is_name(text) {
        true => Number::UnknownType,
        false => Number::InvalidName,
    };
    assert_eq!(number, Err(expected), "{text:02x?}");
    answers[0]
}

/// Letters of one byte and of more, which long names are written with.
const LETTERS: [&str; 7] = [
    "Gare de Lyon",
    "ΑθήναΜοναστηράκι",
    "Évry, Besançon",
    "東京駅",
    "🚌🚏",
    "aé€🚌",
    "ñandú 駅 x 🚌🚌é",
];

/// What each byte of a long name is changed to: the edges of what may stand where.
const BYTES: [u8; 30] = [
    0x00, 0x1f, 0x20, 0x41, 0x7e, 0x7f, 0x80, 0x8f, 0x90, 0x9f, 0xa0, 0xa9, 0xbf, 0xc0, 0xc1, 0xc2,
    0xc3, 0xdf, 0xe0, 0xe1, 0xec, 0xed, 0xee, 0xef, 0xf0, 0xf1, 0xf3, 0xf4, 0xf5, 0xff,
];

/// Whether each of these is a name, asked in one call.
fn asked_together(texts: &[Vec<u8>]) -> usize {
    let runs: Vec<u8> = texts.iter().flat_map(|text| run(text)).collect();
    let mut answers = vec![Answer::default(); texts.len()];
    let (mut words, layout) = (vec![0; WORDS], block(160, &[&NONE]));
    Lent::new(&mut words).validate_runs_into(&layout, &runs, &mut answers);
    let (good, bad) = (answer_to(b"a"), answer_to(b"\x80"));
    for (text, answer) in texts.iter().zip(&answers) {
        let expected = if is_name(text) { good } else { bad };
        assert!(*answer == expected, "{text:02x?}");
    }
    answers.iter().filter(|answer| **answer == good).count()
}

/// Long names with one byte changed, at every place: wherever a reader takes many bytes at once.
#[test]
fn one_byte_of_a_long_name() {
    let (mut names, mut all) = (0, 0);
    for letters in LETTERS {
        for length in (1..=40).chain(60..70).chain(120..=132).chain(250..=255) {
            let text: Vec<u8> = letters.bytes().cycle().take(length).collect();
            let mut texts = vec![text.clone()];
            for at in 0..length {
                texts.extend(BYTES.map(|byte| {
                    let mut changed = text.clone();
                    changed[at] = byte;
                    changed
                }));
            }
            names += asked_together(&texts);
            all += texts.len();
        }
    }
    assert!(names > 20_000 && all - names > 500_000, "{names} of {all}");
}

/// How many of the strings that begin with one of these bytes, and have two or `more` behind it,
/// are names.
fn names_from(firsts: std::ops::Range<u16>, more: bool) -> usize {
    let mut words = vec![0; WORDS];
    let mut names = Names::of_length(if more { 4 } else { 3 });
    let mut count = 0;
    for first in firsts.map(|b| b as u8) {
        match more {
            true => {
                count += (0..=255)
                    .map(|b| names.ask(&[first, b], &mut words))
                    .sum::<usize>()
            }
            false => count += names.ask(&[first], &mut words),
        }
    }
    count
}

/// All byte strings of up to three bytes, and all of four that begin with 0xF0 to 0xF7.
#[test]
fn every_short_string() {
    answer_to(b"");
    for byte in 0..=255 {
        answer_to(&[byte]);
    }
    let two = Names::of_length(2).ask(&[], &mut vec![0; WORDS]);
    let (three, four) = std::thread::scope(|s| {
        let low = s.spawn(|| names_from(0xf0..0xf4, true));
        let three = names_from(0..256, false);
        let four = names_from(0xf4..0xf8, true);
        (three, four + low.join().expect("the other half"))
    });
    // 95 characters of one byte, 1,920 of two, 61,440 of three, 1,048,576 of four.
    assert_eq!(two, 95 * 95 + 1920);
    assert_eq!(three, 95 * 95 * 95 + 2 * 95 * 1920 + 61_440);
    assert_eq!(four, 1_048_576);
}
