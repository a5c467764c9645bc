//! Time: rounds of several things in turn, in one process.

use super::clock::now;
use super::ours::{archives, Archive};
use std::hint::black_box;

const ROUNDS: usize = 15;
/// Rounds where a call takes longer than `LONG` nanoseconds.
const FEW_ROUNDS: usize = 3;
const LONG: f64 = 200e6;
/// Nanoseconds that a round has at least.
const ROUND: f64 = 20e6;

/// Does its call as often as it is told.
pub type Work<'a> = Box<dyn FnMut(u32) + 'a>;

pub fn work<'a, A>(mut call: impl FnMut() -> A + 'a) -> Work<'a> {
    Box::new(move |many| (0..many).for_each(|_| drop(black_box(call()))))
}

/// Nanoseconds of one call: ours, the older archive's where there is one, and
/// each of the things beside them.
pub fn medians_beside<'a, const N: usize>(
    ours: impl Fn(&'static Archive) -> Work<'a>,
    beside: [Work<'a>; N],
) -> (f64, Option<f64>, [f64; N]) {
    let mut works: Vec<Work> = archives().map(|(_, archive)| ours(archive)).collect();
    let many = works.len();
    works.extend(beside);
    let times = all_medians(&mut works);
    let before = times[1..many].first().copied();
    (times[0], before, std::array::from_fn(|i| times[many + i]))
}

/// Nanoseconds of one call of each.
pub fn medians<const N: usize>(mut works: [Work; N]) -> [f64; N] {
    let times = all_medians(&mut works);
    std::array::from_fn(|i| times[i])
}

/// The medians of rounds taken in turn.
fn all_medians(works: &mut [Work]) -> Vec<f64> {
    let filled: Vec<(u32, f64)> = works.iter_mut().map(filling).collect();
    let rounds = match filled.iter().any(|(_, ns)| *ns > LONG) {
        true => FEW_ROUNDS,
        false => ROUNDS,
    };
    let mut times = vec![Vec::new(); works.len()];
    for _ in 0..rounds {
        for (i, work) in works.iter_mut().enumerate() {
            times[i].push(round(work, filled[i].0));
        }
    }
    times.into_iter().map(median).collect()
}

/// How many calls fill a round, and the nanoseconds of one.
fn filling(work: &mut Work) -> (u32, f64) {
    let mut many = 1;
    loop {
        let ns = round(work, many);
        if ns * f64::from(many) >= ROUND {
            return (many, ns);
        }
        many *= 2;
    }
}

fn round(work: &mut Work, many: u32) -> f64 {
    let start = now();
    work(many);
    (now() - start) / f64::from(many)
}

fn median(mut times: Vec<f64>) -> f64 {
    times.sort_by(f64::total_cmp);
    times[times.len() / 2]
}
