//! What a validator without an operating system does: it has a stored set, lends its own memory and
//! asks for a record's length. There is no allocator here, so that nothing that needs one links; of
//! the C library only the start of the program and `memset`, `memcpy` and their like are used.
//!
//! Its status is 0 if every answer is right, else the number of the first that is not.

#![no_std]
#![no_main]

use ciztarmo::{build_set_into, write_values, Answer, LayoutRef, Lent, Number, LIMIT, WORDS};
use core::fmt::Write;

#[panic_handler]
fn panic(_: &core::panic::PanicInfo) -> ! {
    extern "C" {
        fn _exit(status: i32) -> !;
    }
    // SAFETY: it ends the program and asks for nothing.
    unsafe { _exit(99) }
}

/// The core library that is shipped was compiled to unwind and refers to this; a panic ends the
/// program here, so that nothing calls it.
#[no_mangle]
extern "C" fn rust_eh_personality() {}

/// The set of the example, then its four runs.
static TRIP: &[u8] = include_bytes!("../../../../examples/trip");
const SET: usize = 205;

/// A text in bytes of its own.
struct Text {
    bytes: [u8; 200],
    length: usize,
}

impl Write for Text {
    fn write_str(&mut self, text: &str) -> core::fmt::Result {
        let room = self.bytes.get_mut(self.length..).ok_or(core::fmt::Error)?;
        let room = room.get_mut(..text.len()).ok_or(core::fmt::Error)?;
        room.copy_from_slice(text.as_bytes());
        self.length += text.len();
        Ok(())
    }
}

/// Whether a thing prints so.
fn prints(printed: impl core::fmt::Display, expected: &str) -> bool {
    let mut text = Text {
        bytes: [0; 200],
        length: 0,
    };
    write!(text, "{printed}").is_ok() && &text.bytes[..text.length] == expected.as_bytes()
}

/// The number of the first check that fails.
fn failing() -> i32 {
    let (set, runs) = TRIP.split_at(SET);
    let mut room = [0; LIMIT];
    let Ok(length) = build_set_into(set, &mut room) else {
        return 1;
    };
    let Ok(layout) = LayoutRef::read(&room[..length]) else {
        return 2;
    };
    let mut bytes = [0; 64];
    let Ok(values) = write_values(&[("legs.n", 3), ("class", 2)], &mut bytes) else {
        return 3;
    };
    if layout.length_of("Trip", values, 40) != Ok(13) {
        return 4;
    }
    let parameters = |name| Some(layout.type_named(name)?.parameters());
    if parameters("Trip")
        .and_then(|mut all| all.next())
        .map(|p| p.name)
        != Some("legs.n")
    {
        return 5;
    }
    let mut words = [1; WORDS];
    let mut room = [Answer::default(); 5];
    let answers = Lent::new(&mut words).validate_runs_into(layout.as_bytes(), runs, &mut room);
    let [three, none, short, missing] = answers else {
        return 6;
    };
    if (three.count(), none.count()) != (Ok(13), Ok(1)) {
        return 7;
    }
    if short.count().map_err(|no| no.number()) != Err(Number::BufferTooSmall) {
        return 8;
    }
    let expected = "21: the value \"legs.n\", which the layout needs, is missing \
                    (type 0 \"Trip\", node at byte 150 of the layout)";
    match missing.count() {
        Err(no) if prints(layout.explain(&no), expected) => 0,
        _ => 9,
    }
}

#[no_mangle]
extern "C" fn main() -> i32 {
    failing()
}
