//! No input takes long. The inputs are those of judge/driver/src/slow.rs: sets, layouts and runs of
//! 65,000 bytes from somebody who knows where names are compared. Before entries and names were
//! found by marks, one of them took 5 seconds.

#[path = "../../../judge/driver/src/bench/clock.rs"]
mod clock;
#[allow(dead_code)]
#[path = "../../../judge/driver/src/data.rs"]
mod data;
#[allow(dead_code)]
#[path = "../../../judge/driver/src/slow.rs"]
mod slow;
#[allow(dead_code)]
#[path = "../../../judge/driver/src/write.rs"]
mod write;

use ciztarmo::{Refusal, Work, LIMIT};
use slow::{Call, Slow};

/// Milliseconds of processor time that a call may take on each input: ten times what it took on a
/// virtual machine with an Intel Xeon; for readings, which took 0.01 to 0.4, more. Of the values,
/// ten times what two runs of them took in one call, before lists had an index: 0.84, 1.3, 1.1,
/// 1.1, 48 and 50.
const MOST: [(&str, f64); 27] = [
    ("calls", 80.0),
    ("references", 6.0),
    ("parameters-64", 0.25),
    ("parameters-512", 1.4),
    ("parameters-collide", 2.8),
    ("parameters-collide-calls", 130.0),
    ("paths-alike", 100.0),
    ("paths-of-one-place", 2200.0),
    ("one-name-split", 300.0),
    ("cases", 6.0),
    ("targets", 3.0),
    ("jagged", 24.0),
    ("types-differ-at-start", 1.0),
    ("types-differ-in-middle", 1.0),
    ("types-differ-at-end", 1.0),
    ("types-of-one-place", 1.0),
    ("trees-collide", 1.0),
    ("trees-collide-refused", 1.0),
    ("trees-of-one-place-refused", 1.0),
    ("trees-of-one-mark", 5.0),
    ("trees-of-one-mark-refused", 5.0),
    ("values-alike", 8.4),
    ("values-of-one-place", 13.0),
    ("values-of-one-mark", 11.0),
    ("values-of-one-mark-absent", 11.0),
    ("values-handed-of-one-place", 480.0),
    ("values-handed-of-one-mark", 500.0),
];

/// What a run of the type `L` has before its values: length, kind, name and buffer length.
const RUN_HEAD: usize = 4 + 2 + (2 + 1) + 8;

/// Milliseconds of the first of three tries that is quick enough, else of the quickest. The
/// thread's own time stands still while another program has the processor.
fn quickest(most: f64, mut call: impl FnMut()) -> f64 {
    let mut best = f64::INFINITY;
    for _ in 0..3 {
        let start = clock::now();
        call();
        best = best.min((clock::now() - start) / 1e6);
        if best <= most {
            break;
        }
    }
    best
}

fn number<T>(answer: Result<T, Refusal>) -> u8 {
    answer.map_or_else(|refusal| refusal.number().code(), |_| 0)
}

/// Every call that takes such an input, as its answer's number.
fn calls(slow: &Slow) -> Vec<Box<dyn FnMut() -> u8 + '_>> {
    let mut work = Work::new();
    let mut out = vec![0; LIMIT];
    let mut room = out.clone();
    let bytes = &slow.bytes;
    match slow.call {
        Call::ReadSet => vec![Box::new(move || number(work.read_set(bytes)))],
        Call::ReadLayout => vec![
            Box::new(move || number(work.read_layout(bytes))),
            Box::new(move || number(ciztarmo::read_layout(bytes))),
        ],
        Call::Build => vec![
            Box::new(move || number(ciztarmo::build_set_into(bytes, &mut out))),
            Box::new(move || number(work.build_set_into(bytes, &mut room))),
        ],
        Call::Run => run_calls(slow),
    }
}

/// A validation: by a call that has its own words and by one that is lent some, as values, as a
/// run, and as one of two runs.
fn run_calls(slow: &Slow) -> Vec<Box<dyn FnMut() -> u8 + '_>> {
    let (layout, run) = slow.layout_and_run();
    let values = &run[RUN_HEAD..];
    let runs = [run, run].concat();
    let (mut one, mut two, mut three) = (Work::new(), Work::new(), Work::new());
    vec![
        Box::new(move || number(ciztarmo::validate(layout, "L", values, u64::MAX))),
        Box::new(move || number(one.validate(layout, "L", values, u64::MAX))),
        Box::new(move || number(ciztarmo::validate_run(layout, run))),
        Box::new(move || number(two.validate_run(layout, run))),
        Box::new(move || number(three.validate_runs(layout, &runs)[1])),
    ]
}

#[test]
fn no_input_takes_long() {
    let inputs = slow::all(slow::FULL);
    assert_eq!(inputs.len(), MOST.len());
    let mut long = Vec::new();
    for (slow, (name, most)) in inputs.iter().zip(MOST) {
        assert_eq!(slow.name, name);
        for (i, mut call) in calls(slow).into_iter().enumerate() {
            let ms = quickest(most, || assert_eq!(call(), slow.number, "{name}"));
            println!("{name}, call {i}: {ms:.3} ms of {most}");
            if ms > most {
                long.push(format!(
                    "{name}, call {i}: {ms:.1} ms, at most {most} expected"
                ));
            }
        }
    }
    assert!(long.is_empty(), "{}", long.join("\n"));
}
