//! Byte counts of record layouts for ticket validators, over the proved code of Ciztarmo.
//!
//! A fare office draws a [`Set`] of record types. Building it gives a [`Layout`]. A layout, the
//! values of a record's parameters and the length of the buffer give the record's byte count, or
//! one numbered [`Refusal`]. Reading, building and counting are done by libciztarmo.a, whose
//! answers are proved to be those of the rules ("document 01") on every input. This crate writes
//! the bytes for it and hands its answers on.
//!
//! # The trip of document 01
//!
//! A trip is one byte `n` and then `n` legs of four bytes each:
//!
//! ```
//! use ciztarmo::{Expr, Field, Number, Run, Set, Type, Values};
//!
//! let legs = Type::array("Trip::legs", Type::primitive("leg", 4), Expr::field("n"));
//! let trip = Type::structure(
//!     "Trip",
//!     [
//!         Field::new("n", Type::primitive("u8", 1)).at(0),
//!         Field::new("legs", legs),
//!     ],
//! )
//! .references("legs", ["n"]);
//! let layout = Set::new().with(trip).build()?;
//!
//! let three = Values::of([("legs.n", 3)])?;
//! let none = Values::of([("legs.n", 0)])?;
//! assert_eq!(layout.length_of("Trip", &three, 13)?, 13);
//! assert_eq!(layout.length_of("Trip", &none, 8)?, 1);
//!
//! // Many records in one call, which reads the layout once.
//! let runs = [Run::new("Trip", &three, 13)?, Run::new("Trip", &none, 8)?];
//! assert_eq!(layout.lengths_of(&runs), [Ok(13), Ok(1)]);
//!
//! // A buffer of 12 bytes is too short for three legs.
//! let refusal = layout.length_of("Trip", &three, 12).unwrap_err();
//! assert_eq!(refusal.number(), Number::BufferTooSmall);
//! assert_eq!(refusal.value(), 13);
//! assert_eq!(
//!     refusal.to_string(),
//!     "25: the record needs 13 bytes, and the buffer is shorter"
//! );
//!
//! // The layout needs to know how many legs there are.
//! let refusal = layout.length_of("Trip", &Values::new(), 13).unwrap_err();
//! assert_eq!(refusal.number(), Number::MissingIrParameter);
//! assert_eq!(refusal.place(), Some(0));
//! assert_eq!(
//!     layout.explain(&refusal).to_string(),
//!     "21: the value \"legs.n\", which the layout needs, is missing \
//!      (type 0 \"Trip\", node at byte 150 of the layout)"
//! );
//! # Ok::<(), ciztarmo::Error>(())
//! ```
//!
//! # Names
//!
//! Names of types, fields, variants, owners, paths and values are UTF-8, so a `str` in any script,
//! of at most 255 bytes and without bytes below 0x20 or 0x7F. They are written as they are and
//! compared byte by byte, as `str` is: nothing is normalized, and two spellings that look alike are
//! two names. This crate writes any `str`; what the limits forbid is refused when it is read (3).
//!
//! # Bytes
//!
//! Who has the bytes of a set, a layout, values or a run already calls the functions
//! [`build_set`], [`validate`] and so on. [`Layout::read`] takes the bytes of a stored layout.
//! [`validate_runs`] takes many runs that stand one behind the other.
//!
//! All functions but [`read_set`] and [`validate_runs`] have the working words that they need.
//! These two make them for each call; where there are many calls, a [`Work`] keeps them. A
//! [`Work`] has every call, with words that are counted and zero afterwards, as the rules have it.
//!
//! # Without an allocator
//!
//! The features `std` and `alloc`, of which the first is on and brings the second, can be off. The
//! crate then needs neither and has what takes no memory of its own: the functions
//! [`build_set_into`], [`validate`], [`validate_run`], [`read_layout`], [`read_values`] and
//! [`read_run`]; every call over words that the caller lends ([`Lent`]); a layout in the caller's
//! bytes ([`LayoutRef`]), with its types and their parameters; values written into the caller's
//! bytes ([`write_values`]); and all of [`Refusal`] with its sentences. Sets are then drawn
//! elsewhere. libciztarmo.a needs `memset` from somewhere, and the panics of this crate a handler.
//!
//! # Linking
//!
//! The build script takes the folder that holds libciztarmo.a from the variable CIZTARMO_LIB. If
//! it is not set, it runs the repository's script `archive`, which makes the archive where it is
//! missing or old; that needs the Rattle toolchain. It is for x86-64 or 64-bit Arm.
//!
//! # What to know
//!
//! Counting always ends, but its time is bounded by calls, not by bytes: a layout of 65,536 bytes
//! in which each type calls the next k times can take k^16 steps. Do not count over a layout from
//! somebody that you do not trust.
//!
//! Building ends in a time that grows with what is built, also where it is refused in the end
//! because that is too long: a set of 65,536 bytes can ask for some 65 MB. Of the sets that were made to
//! take long (judge/README.md) the slowest took a quarter of a second of processor time.

#![no_std]
#![deny(missing_docs)]
#![deny(unsafe_code)]

#[cfg(feature = "alloc")]
extern crate alloc;
#[cfg(feature = "std")]
extern crate std;

#[cfg(feature = "alloc")]
mod block;
#[cfg(feature = "alloc")]
mod error;
#[cfg(feature = "alloc")]
mod expr;
#[allow(unsafe_code)]
mod ffi;
mod layout;
mod names;
mod refusal;
#[cfg(feature = "alloc")]
mod set;
#[cfg(feature = "alloc")]
mod types;
#[cfg(feature = "alloc")]
mod values;
mod work;
mod write;

pub use layout::{Explained, LayoutRef, Parameter, Parameters, TypeTree, Types};
pub use refusal::{Number, Refusal};
pub use work::{
    build_set_into, read_layout, read_run, read_values, validate, validate_run, Answer, Lent,
    LIMIT, WORDS,
};
pub use write::{write_values, WriteError};

#[cfg(feature = "alloc")]
pub use {
    error::Error,
    expr::{Expr, Literal},
    names::type_names,
    set::{Layout, Set},
    types::{Field, SizedVariant, Type, Variant},
    values::{Run, Values},
    work::{build_set, read_set, validate_runs, Work},
};
