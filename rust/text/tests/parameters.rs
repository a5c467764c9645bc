//! What a record of a type wants to be told.

mod common;

use ciztarmo_text::commands;
use common::read;

fn told(input: impl AsRef<[u8]>, name: &str) -> String {
    let done = commands::parameters("t", input.as_ref(), name);
    String::from_utf8(done.unwrap_or_else(|e| panic!("{e}")).output).unwrap()
}

#[test]
fn fields_variants_and_elements() {
    let zones = read("examples/zones.txt");
    let fare_block = "\
FareBlock, 5 parameters
  numbers.zones: count of field numbers
  prices.zones: count of field prices
  Tariff.kind: tag of field tariff: 0 flat, 1 single, 2 strip, 3 pass
  pass.conditions: size of variant pass (tag 3) of field tariff
  pass.holder: size of variant pass (tag 3) of field tariff
";
    assert_eq!(told(&zones, "FareBlock"), fare_block);
    let list = "ZoneList, 1 parameter\n  ZoneList.zones: count of ZoneList\n";
    assert_eq!(told(&zones, "ZoneList"), list);
    let transfer = "\
Transfer, 6 parameters
  changes.stops: count of field changes
  minutes.stops: count of field minutes
  windows.days: count of field windows
  windows.element.per_day: count of the element of field windows
  Serial.payload_size: tag of field serial: 4 short, 7 middle, 10 long \
(Runtime payload size (bytes) selecting size-discriminated variant)
  by_kind.kinds: handed on to Passengers by field passengers
";
    let transfers = read("examples/transfers.txt");
    assert_eq!(told(&transfers, "Transfer"), transfer);
    assert_eq!(told(&transfers, "Window"), "Window, no parameters\n");
}

/// A layout alone has no names of fields and variants.
#[test]
fn of_a_layout() {
    let zones = commands::layout("t", &read("examples/zones.txt"));
    let fare_block = "\
FareBlock, 5 parameters
  numbers.zones: in the count of FareBlock
  prices.zones: in the count of FareBlock
  Tariff.kind: tag of FareBlock: 0, 1, 2, 3
  pass.conditions: size of case 3 of FareBlock
  pass.holder: size of case 3 of FareBlock
";
    assert_eq!(told(zones.unwrap().output, "FareBlock"), fare_block);
    let layout = "\
layout
  type T
    switch k
      default
        field-ref n
    parameter k description \"the kind\" derived
    parameter m
";
    let listed = "\
T, 2 parameters
  k, derived: tag of T: any other (the kind)
  m: not used in the count
  n, not listed, but asked for: size of any other case of T
";
    assert_eq!(told(layout, "T"), listed);
}

/// A computed tag is derived, and so is what it is computed from.
#[test]
fn derived() {
    let set = "\
set
  enum Kind variable tag n & 3u8
    owner Kind paths n
    variant one tag 1 primitive u8 size 1
";
    let listed = "\
Kind, 2 parameters
  Kind.n, derived: not used in the count
  Kind.computed_tag, derived: tag of Kind, computed as n & 3u8: 1 one (Computed enum tag expression)
";
    assert_eq!(told(set, "Kind"), listed);
}

/// What a record needs and the layout does not list: the counts below a jagged array, and the
/// buffer length.
#[test]
fn not_listed() {
    let set = "\
set
  struct T variable
    owner l paths element.n
    field l array l variable jagged count element.n
      element primitive u8 size 1
    field rest array r variable count __buffer_size
      element primitive u8 size 1
";
    let listed = "\
T, no parameters
  l.element.n, not listed, but asked for: count of field l
  __buffer_size, the buffer length, where no value says otherwise: count of field rest
";
    assert_eq!(told(set, "T"), listed);
}

/// A made tag of a called type is no argument of the call, and the caller does not list it; its record
/// needs it all the same.
#[test]
fn of_called_types() {
    let set = "\
set
  struct T variable
    field kind reference kind variable to Kind
  union Kind variable
    owner v paths n
    field u primitive p size 1
    field v primitive p variable
run T length 9
  value Kind.variant 1
  value v.n 3
";
    let listed = "\
T, 1 parameter
  v.n: handed on to Kind by field kind
  Kind.variant, not listed, but asked for: handed on to Kind by field kind
";
    assert_eq!(told(set, "T"), listed);
    let lengths = commands::lengths("t", set.as_bytes()).unwrap().output;
    assert_eq!(
        String::from_utf8(lengths).unwrap(),
        "t:8: T: 3 bytes of 9\n"
    );
}

#[test]
fn sums_and_names_in_quotes() {
    let set = "\
set
  struct T variable
    owner \"a b\" paths n
    field \"a b\" primitive text variable
    field \"a b\" primitive text variable
";
    let listed = "T, 1 parameter\n  \"a b.n\": size of field \"a b\"\n";
    assert_eq!(told(set, "T"), listed);
}

#[test]
fn types_that_are_not_there() {
    let wrong = |input: &[u8], name: &str| commands::parameters("t", input, name).unwrap_err();
    assert_eq!(
        wrong(&read("examples/zones.txt"), "Fareblock"),
        "t: no type has the name Fareblock; there are FareBlock, ZoneList"
    );
    assert_eq!(
        wrong(b"set\n", ""),
        "t: no type has the name \"\"; there are no types"
    );
    assert_eq!(
        wrong(b"run T length 1\n", "T"),
        "t: neither a set nor a layout stands in it"
    );
}
