//! The worked example of document 01, written by the builder and counted.

use ciztarmo::{Expr, Field, Layout, Number, Run, Set, Type, Values, Work, LIMIT};

const EXAMPLE: &str = concat!(env!("CARGO_MANIFEST_DIR"), "/../../examples/trip");

fn trip() -> Set {
    let legs = Type::array("Trip::legs", Type::primitive("leg", 4), Expr::field("n"));
    let fields = [
        Field::new("n", Type::primitive("u8", 1)).at(0),
        Field::new("legs", legs),
    ];
    Set::new().with(Type::structure("Trip", fields).references("legs", ["n"]))
}

/// The four runs: the legs, if they are given, and the buffer length.
const RUNS: [(Option<u64>, u64); 4] = [(Some(3), 13), (Some(0), 8), (Some(3), 12), (None, 13)];

fn values(legs: Option<u64>) -> Values {
    Values::of(legs.map(|n| ("legs.n", n))).expect("one value")
}

fn runs() -> Vec<Run> {
    let run = |(legs, length)| Run::new("Trip", &values(legs), length).expect("a short name");
    RUNS.into_iter().map(run).collect()
}

/// The blocks of the example, cut by their length fields.
fn blocks() -> Vec<Vec<u8>> {
    let bytes = std::fs::read(EXAMPLE).unwrap_or_else(|e| panic!("{EXAMPLE}: {e}"));
    let mut rest = &bytes[..];
    let mut out = Vec::new();
    while !rest.is_empty() {
        let length = u32::from_le_bytes(rest[..4].try_into().expect("four bytes"));
        let (block, behind) = rest.split_at(4 + length as usize);
        out.push(block.to_vec());
        rest = behind;
    }
    out
}

#[test]
fn the_builder_writes_the_example() {
    let mut written = vec![trip().to_bytes().expect("the set")];
    written.extend(runs().iter().map(|r| r.as_bytes().to_vec()));
    assert_eq!(written.len(), 5);
    assert_eq!(written, blocks());
}

#[test]
fn every_block_is_read() {
    let blocks = blocks();
    let mut work = Work::new();
    assert_eq!(work.read_set(&blocks[0]), Ok(()));
    for run in &blocks[1..] {
        assert_eq!(work.read_run(run), Ok(()));
        // The values stand behind the name and the buffer length.
        assert_eq!(work.read_values(&run[20..]), Ok(()));
    }
}

/// Number, count or value, place: the lines of document 01 with the type's place.
fn told(answer: Result<u64, ciztarmo::Refusal>) -> (u8, u64, Option<u16>) {
    match answer {
        Ok(count) => (0, count, None),
        Err(no) => (no.number().code(), no.value(), no.place()),
    }
}

const ANSWERS: [(u8, u64, Option<u16>); 4] = [
    (0, 13, None),
    (0, 1, None),
    (25, 13, Some(0)),
    (21, 0, Some(0)),
];

#[test]
fn the_four_answers() {
    let layout = trip().build().expect("the layout");
    let mut work = Work::new();
    for ((asked, run), answer) in RUNS.into_iter().zip(runs()).zip(ANSWERS) {
        let (legs, length) = asked;
        let values = values(legs);
        let name = "Trip";
        assert_eq!(told(layout.length_of(name, &values, length)), answer);
        let kept = layout.length_of_with(&mut work, name, &values, length);
        assert_eq!(told(kept), answer);
        assert_eq!(told(layout.length_of_run(&run)), answer);
        let kept = layout.length_of_run_with(&mut work, &run);
        assert_eq!(told(kept), answer);
    }
}

/// The same in one call, with the layout read once.
#[test]
fn the_four_answers_together() {
    let layout = trip().build().expect("the layout");
    let all = |answers: Vec<_>| answers.into_iter().map(told).collect::<Vec<_>>();
    assert_eq!(all(layout.lengths_of(&runs())), ANSWERS);
    let mut work = Work::new();
    assert_eq!(all(layout.lengths_of_with(&mut work, &runs())), ANSWERS);
    assert_eq!(all(layout.lengths_of(&[])), []);
    let bytes = blocks()[1..].concat();
    assert_eq!(all(work.validate_runs(layout.as_bytes(), &bytes)), ANSWERS);
    // Three bytes more are a run that is cut off.
    let more = [&bytes[..], &bytes[..3]].concat();
    let answers = all(work.validate_runs(layout.as_bytes(), &more));
    assert_eq!(answers[..4], ANSWERS);
    assert_eq!(answers[4..], [(2, 0, None)]);
}

/// Together the runs are longer than an input may be.
#[test]
fn the_four_answers_again_and_again() {
    let layout = trip().build().expect("the layout");
    let runs = vec![runs(); 500].concat();
    let bytes: usize = runs.iter().map(|run| run.as_bytes().len()).sum();
    assert!(bytes > LIMIT);
    let answers: Vec<_> = layout.lengths_of(&runs).into_iter().map(told).collect();
    assert_eq!(answers, vec![ANSWERS; 500].concat());
}

#[test]
fn the_free_functions() {
    let blocks = blocks();
    assert_eq!(ciztarmo::read_set(&blocks[0]), Ok(()));
    let layout = ciztarmo::build_set(&blocks[0]).expect("the layout");
    assert_eq!(ciztarmo::read_layout(&layout), Ok(()));
    let mut out = [0; 300];
    let length = ciztarmo::build_set_into(&blocks[0], &mut out).expect("the layout");
    assert_eq!(&out[..length], &layout[..]);
    let mut told_by = Vec::new();
    for (run, (legs, length)) in blocks[1..].iter().zip(RUNS) {
        assert_eq!(ciztarmo::read_run(run), Ok(()));
        let values = values(legs).to_bytes();
        assert_eq!(ciztarmo::read_values(&values), Ok(()));
        let by_run = ciztarmo::validate_run(&layout, run);
        let by_name = ciztarmo::validate(&layout, "Trip", &values, length);
        assert_eq!(by_run, by_name);
        told_by.push(told(by_run));
    }
    assert_eq!(told_by, ANSWERS);
    let together = ciztarmo::validate_runs(&layout, &blocks[1..].concat());
    assert_eq!(together.into_iter().map(told).collect::<Vec<_>>(), ANSWERS);
}

#[test]
fn a_layout_is_read_back() {
    let layout = trip().build().expect("the layout");
    assert_eq!(layout.type_names(), ["Trip"]);
    assert_eq!(Layout::read(layout.as_bytes()), Ok(layout.clone()));
    let cut = &layout.as_bytes()[..layout.as_bytes().len() - 1];
    let refusal = Layout::read(cut).expect_err("a layout that is cut off");
    assert_eq!(refusal.number(), Number::BlockDoesNotFit);
}
