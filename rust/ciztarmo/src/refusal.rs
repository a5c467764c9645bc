//! What a refused call tells.

use crate::ffi::Answer;
use core::fmt;

/// Which question of document 01 was answered "no".
///
/// The names of 10 to 15 and 20 to 25 are those of the errors in the Rust that document 01 was
/// written from; the others are document 01's additions. Later rules may add numbers.
#[derive(Clone, Copy, Debug, PartialEq, Eq, PartialOrd, Ord, Hash)]
#[non_exhaustive]
#[repr(u8)]
pub enum Number {
    /// An input is longer than 65,536 bytes.
    InputTooLong = 1,
    /// A block does not lie inside its parent, may not stand here, or its body is not used up
    /// exactly; or bytes stand behind the outermost block.
    BlockDoesNotFit = 2,
    /// A name or text is longer than 255 bytes, is not UTF-8 (RFC 3629), or has a byte below 0x20 or
    /// the byte 0x7F.
    InvalidName = 3,
    /// A count, or the number of blocks open together, is above its limit.
    AboveLimit = 4,
    /// A flag is neither 0 nor 1, or a literal is outside its type.
    InvalidFlagOrLiteral = 5,
    /// Names do not ascend where they must, or two types have one name.
    NamesOutOfOrder = 6,
    /// A type of this shape has no variable size.
    UnsupportedSize = 10,
    /// References that the layout needs are missing.
    MissingDynamicRefs = 11,
    /// A path names no parameter.
    MissingParameter = 12,
    /// An array has elements of an unsupported shape.
    UnsupportedArrayElement = 13,
    /// An expression can't be turned into a node.
    UnsupportedExpression = 14,
    /// A type that is referred to is not in the set.
    MissingType = 15,
    /// A field's offset and size together reach 2^64.
    OffsetTooLarge = 16,
    /// A name or text to be written is longer than 255 bytes, or there are more than 512 registry
    /// entries or arguments.
    TooMuchToWrite = 17,
    /// The output, or 65,536 bytes, do not hold the layout, or it could not be read back.
    LayoutDoesNotFit = 18,
    /// Fewer than 8,192 working words.
    TooFewWords = 19,
    /// The asked type, or a called one, is not in the layout.
    UnknownType = 20,
    /// A value that the layout needs is missing.
    MissingIrParameter = 21,
    /// A switch has no case for its tag.
    InvalidTagValue = 22,
    /// A result below zero, a zero divisor, or a shift by 128 or more.
    ArithmeticOverflow = 23,
    /// A sum over an array.
    UnsupportedOperation = 24,
    /// The count is above the buffer length.
    BufferTooSmall = 25,
    /// An exact result reaches 2^64.
    ResultTooLarge = 26,
    /// A 17th call would be open.
    TooManyCalls = 27,
}

/// What an offset or place of a refusal means.
enum At {
    /// Nothing.
    None,
    /// The offset of a block in the input that was refused.
    Input,
    /// The place of a type.
    Type,
    /// The place of a type, and the offset of a node or argument in the layout.
    Node,
}

/// Every number with its sentence, ascending. `{value}` stands for the refusal's value.
const SENTENCES: [(Number, At, &str); 24] = [
    (
        Number::InputTooLong,
        At::None,
        "an input is longer than 65,536 bytes",
    ),
    (
        Number::BlockDoesNotFit,
        At::Input,
        "a block does not fit its place",
    ),
    (
        Number::InvalidName,
        At::Input,
        "a name or text is longer than 255 bytes, is not UTF-8, or has a byte below 0x20 or the byte 0x7F",
    ),
    (
        Number::AboveLimit,
        At::Input,
        "there are more entries, or deeper blocks, than the limits allow",
    ),
    (
        Number::InvalidFlagOrLiteral,
        At::Input,
        "a flag is neither 0 nor 1, or a literal is outside its type",
    ),
    (
        Number::NamesOutOfOrder,
        At::Input,
        "names do not ascend, or two types have one name",
    ),
    (
        Number::UnsupportedSize,
        At::Type,
        "a type of this shape can't have a variable size",
    ),
    (
        Number::MissingDynamicRefs,
        At::Type,
        "references that the layout needs are missing",
    ),
    (
        Number::MissingParameter,
        At::Type,
        "a path names no parameter",
    ),
    (
        Number::UnsupportedArrayElement,
        At::Type,
        "an array can't have elements of this shape",
    ),
    (
        Number::UnsupportedExpression,
        At::Type,
        "an expression of this kind can't stand in a layout",
    ),
    (
        Number::MissingType,
        At::Type,
        "a type that is referred to is not in the set",
    ),
    (
        Number::OffsetTooLarge,
        At::Type,
        "a field's offset and size together reach 2^64",
    ),
    (
        Number::TooMuchToWrite,
        At::Type,
        "the layout would need a name or text of more than 255 bytes, or more than 512 parameters",
    ),
    (
        Number::LayoutDoesNotFit,
        At::None,
        "the layout does not fit the output or 65,536 bytes, or could not be read back",
    ),
    (
        Number::TooFewWords,
        At::None,
        "there are fewer than 8,192 working words",
    ),
    (
        Number::UnknownType,
        At::None,
        "the asked type, or one that it calls, is not in the layout",
    ),
    (
        Number::MissingIrParameter,
        At::Node,
        "a parameter that the layout needs has no value",
    ),
    (
        Number::InvalidTagValue,
        At::Node,
        "no variant has the tag {value}",
    ),
    (
        Number::ArithmeticOverflow,
        At::Node,
        "a result is below zero, a divisor is zero, or a shift is by 128 bits or more",
    ),
    (
        Number::UnsupportedOperation,
        At::Node,
        "the bytes of a jagged array can't be summed",
    ),
    (
        Number::BufferTooSmall,
        At::None,
        "the record needs {value} bytes, and the buffer is shorter",
    ),
    (Number::ResultTooLarge, At::Node, "a result reaches 2^64"),
    (
        Number::TooManyCalls,
        At::Node,
        "more than 16 calls of types would be open together",
    ),
];

impl Number {
    /// Every number, ascending.
    pub fn all() -> impl Iterator<Item = Number> {
        SENTENCES.iter().map(|(number, ..)| *number)
    }

    /// The number as document 01 writes it.
    pub fn code(self) -> u8 {
        self as u8
    }

    /// The number that document 01 writes so, if there is one.
    pub fn from_code(code: u8) -> Option<Number> {
        Number::all().find(|n| n.code() == code)
    }

    fn row(self) -> &'static (Number, At, &'static str) {
        let row = SENTENCES.iter().find(|(number, ..)| *number == self);
        row.expect("every number has a sentence")
    }
}

impl fmt::Display for Number {
    fn fmt(&self, f: &mut fmt::Formatter<'_>) -> fmt::Result {
        write!(f, "{}", self.code())
    }
}

/// One numbered refusal of a call. The first question that is answered "no" decides.
///
/// It prints as a sentence behind its number:
///
/// ```
/// let refusal = ciztarmo::read_run(b"no block").unwrap_err();
/// assert_eq!(refusal.number(), ciztarmo::Number::BlockDoesNotFit);
/// assert_eq!(
///     refusal.to_string(),
///     "2: a block does not fit its place, at byte 0 of the input"
/// );
/// ```
#[derive(Clone, Copy, Debug, PartialEq, Eq, Hash)]
pub struct Refusal {
    number: Number,
    place: Option<u16>,
    offset: u64,
    value: u64,
}

impl Refusal {
    /// Which question decided.
    pub fn number(&self) -> Number {
        self.number
    }

    /// The place, from 0, of a type in the set or layout.
    ///
    /// For 10 to 17 it is the type whose build was refused; for 21 to 24, 26 and 27 the type whose
    /// tree holds the node; for 25 the asked type. Other refusals have none.
    pub fn place(&self) -> Option<u16> {
        self.place
    }

    /// An offset in bytes from the start of an input.
    ///
    /// For 2 to 6 it is that of the block in the input that was refused; for 21 to 24, 26 and 27
    /// that of the node, or of the missing argument, in the layout. For other refusals it is 0.
    pub fn offset(&self) -> u64 {
        self.offset
    }

    /// The tag for 22, the required count for 25, else 0.
    pub fn value(&self) -> u64 {
        self.value
    }

    /// The refusal with the name of its type, for printing.
    ///
    /// `names` are the names of the set's or layout's types in their order, as
    /// [`type_names`](crate::type_names) gives them.
    ///
    /// ```
    /// use ciztarmo::{Set, Type};
    ///
    /// let set = Set::new().with(Type::reference("Trip", "Leg"));
    /// let bytes = set.to_bytes()?;
    /// let refusal = ciztarmo::build_set(&bytes).unwrap_err();
    /// assert_eq!(
    ///     refusal.with_names(&ciztarmo::type_names(&bytes)).to_string(),
    ///     "15: a type that is referred to is not in the set (type 0 \"Trip\")"
    /// );
    /// # Ok::<(), ciztarmo::Error>(())
    /// ```
    pub fn with_names<'a, N: AsRef<str>>(&'a self, names: &'a [N]) -> impl fmt::Display + 'a {
        let name = self.place.and_then(|p| names.get(usize::from(p)));
        Named {
            refusal: self,
            name: name.map(|n| n.as_ref()),
        }
    }

    /// The sentence, with the name of the type and of the value that is missing, where they are
    /// known.
    pub(crate) fn write(
        &self,
        f: &mut fmt::Formatter<'_>,
        type_name: Option<&str>,
        missing: Option<&str>,
    ) -> fmt::Result {
        let Refusal { number, offset, .. } = *self;
        let (_, at, sentence) = number.row();
        let place = Place {
            place: self.place,
            name: type_name,
        };
        write!(f, "{number}: ")?;
        match (missing, sentence.split_once("{value}")) {
            (Some(name), _) => {
                write!(
                    f,
                    "the value \"{name}\", which the layout needs, is missing"
                )
            }
            (None, Some((before, behind))) => write!(f, "{before}{}{behind}", self.value),
            (None, None) => f.write_str(sentence),
        }?;
        match at {
            At::None => Ok(()),
            At::Input => write!(f, ", at byte {offset} of the input"),
            At::Type => write!(f, " ({place})"),
            At::Node => write!(f, " ({place}, node at byte {offset} of the layout)"),
        }
    }
}

impl fmt::Display for Refusal {
    fn fmt(&self, f: &mut fmt::Formatter<'_>) -> fmt::Result {
        self.write(f, None, None)
    }
}

#[cfg(feature = "std")]
impl std::error::Error for Refusal {}

/// The place of a type, with its name if that is known.
struct Place<'a> {
    place: Option<u16>,
    name: Option<&'a str>,
}

impl fmt::Display for Place<'_> {
    fn fmt(&self, f: &mut fmt::Formatter<'_>) -> fmt::Result {
        match (self.place, self.name) {
            (Some(place), Some(name)) => write!(f, "type {place} \"{name}\""),
            (Some(place), None) => write!(f, "type {place}"),
            (None, _) => f.write_str("no type"),
        }
    }
}

/// A refusal with the name of its type, if it has one.
struct Named<'a> {
    refusal: &'a Refusal,
    name: Option<&'a str>,
}

impl fmt::Display for Named<'_> {
    fn fmt(&self, f: &mut fmt::Formatter<'_>) -> fmt::Result {
        self.refusal.write(f, self.name, None)
    }
}

/// The place that means none.
const NOWHERE: u64 = 65_535;

/// The four words of an answer: what was accepted, or the refusal.
///
/// The archive's answers are proved to be document 01's, so another number means that something
/// else was linked.
pub(crate) fn accepted(answer: Answer) -> Result<u64, Refusal> {
    let [number, place, offset, value] = answer;
    if number == 0 {
        return Ok(value);
    }
    let known = u8::try_from(number).ok().and_then(Number::from_code);
    let Some(number) = known else {
        panic!("libciztarmo.a answered number {number}, which document 01 does not have");
    };
    Err(Refusal {
        number,
        place: u16::try_from(place)
            .ok()
            .filter(|p| u64::from(*p) != NOWHERE),
        offset,
        value,
    })
}
