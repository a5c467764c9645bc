//! Validation: 19, 1, then reading, then 20 to 27; exact results in 128 bits,
//! so that 26 is asked of the number itself.

use super::read;
use crate::data::*;

/// Beyond document 01: the judge's own end for layouts whose evaluation takes
/// k^16 steps. Such a case is not compared.
pub const STOPPED: u8 = 255;
const MOST_STEPS: u64 = 200_000;
const MOST_CALLS: usize = 16;

pub struct Ask<'a> {
    pub words: u64,
    pub layout: &'a [u8],
    pub name: &'a [u8],
    pub length: u64,
    pub values: &'a [u8],
}

pub fn validate(ask: &Ask) -> Result<u64, No> {
    if ask.words < WORDS {
        return Err(No::plain(19));
    }
    read::sizes(&[ask.layout, ask.values])?;
    let layout = read::layout(ask.layout)?;
    let values = read::values(ask.values)?;
    required(&layout, ask.name, ask.length, &values)
}

/// The same with a run block.
pub fn validate_run(words: u64, layout: &[u8], run: &[u8]) -> Result<u64, No> {
    if words < WORDS {
        return Err(No::plain(19));
    }
    read::sizes(&[layout, run])?;
    let layout = read::layout(layout)?;
    let run = read::run(run)?;
    required(&layout, run.name.as_bytes(), run.length, &run.values)
}

/// After reading: 20 for the asked name, the evaluation, 25.
pub fn required(layout: &Layout, name: &[u8], length: u64, values: &Values) -> Result<u64, No> {
    counting(&mut 0, layout, name, length, values)
}

/// How many names are looked for at the root: values of the list, or absent.
pub fn asked_at_root(layout: &Layout, name: &[u8], length: u64, values: &Values) -> usize {
    let mut asked = 0;
    let _ = counting(&mut asked, layout, name, length, values);
    asked
}

fn counting(
    asked: &mut usize,
    layout: &Layout,
    name: &[u8],
    length: u64,
    values: &Values,
) -> Result<u64, No> {
    let named = |t: &Tree| t.name.as_bytes() == name;
    let place = layout.iter().position(named).ok_or(No::plain(20))?;
    let mut held = values.clone();
    if get(&held, "__buffer_size").is_none() {
        held.push(("__buffer_size".to_string(), length));
    }
    let mut m = Machine {
        layout,
        steps: 0,
        asked,
    };
    let frame = Frame {
        place,
        open: 0,
        held: &held,
    };
    let count = m.node(&layout[place].root, &frame)?;
    match count <= length {
        true => Ok(count),
        false => Err(No {
            value: count,
            ..No::in_type(25, place)
        }),
    }
}

struct Machine<'a, 'c> {
    layout: &'a Layout,
    steps: u64,
    /// Names looked for at the root.
    asked: &'c mut usize,
}

/// The type whose tree is evaluated, the calls open, the values held there.
struct Frame<'a> {
    place: usize,
    open: usize,
    held: &'a Values,
}

impl Frame<'_> {
    fn no(&self, number: u8, at: usize) -> No {
        No {
            offset: at as u32,
            ..No::in_type(number, self.place)
        }
    }
}

fn get(held: &Values, name: &str) -> Option<u64> {
    let (_, n) = held.iter().find(|(k, _)| k == name)?;
    Some(*n)
}

impl<'a> Machine<'a, '_> {
    /// The value of a name that a frame holds.
    fn held(&mut self, f: &Frame, name: &str) -> Option<u64> {
        *self.asked += usize::from(f.open == 0);
        get(f.held, name)
    }

    fn value(&mut self, f: &Frame, name: &str, at: usize) -> Result<u64, No> {
        self.held(f, name).ok_or(f.no(21, at))
    }

    fn node(&mut self, n: &'a Node, f: &Frame) -> Result<u64, No> {
        self.steps += 1;
        if self.steps > MOST_STEPS {
            return Err(No::plain(STOPPED));
        }
        match &n.body {
            Body::Zero => Ok(0),
            Body::Const(value) => Ok(*value),
            Body::Ref(path, parameter) => self.value(f, parameter.as_ref().unwrap_or(path), n.at),
            Body::Align(to, inner) => {
                let value = self.node(inner, f)?;
                align_up(value, *to).map_err(|number| f.no(number, n.at))
            }
            Body::Switch(tag, cases, default) => self.switch(n.at, tag, cases, default, f),
            Body::Call(name, arguments) => self.call(n.at, name, arguments, f),
            Body::Two(kind, left, right) => {
                let left = self.node(left, f)?;
                let right = self.node(right, f)?;
                arithmetic(*kind, left, right).map_err(|number| f.no(number, n.at))
            }
            Body::Sum(..) => Err(f.no(24, n.at)),
        }
    }

    fn switch(
        &mut self,
        at: usize,
        tag: &str,
        cases: &'a [Case],
        default: &'a Option<Box<Node>>,
        f: &Frame,
    ) -> Result<u64, No> {
        let value = self.value(f, tag, at)?;
        if let Some(case) = cases.iter().find(|c| c.tag == value) {
            return self.node(&case.node, f);
        }
        match default {
            Some(node) => self.node(node, f),
            None => Err(No {
                value,
                ..f.no(22, at)
            }),
        }
    }

    fn call(
        &mut self,
        at: usize,
        name: &str,
        arguments: &[Argument],
        f: &Frame,
    ) -> Result<u64, No> {
        let mut held = Values::new();
        for a in arguments {
            let value = self.value(f, &a.value, a.at)?;
            held.retain(|(k, _)| *k != a.name);
            held.push((a.name.clone(), value));
        }
        let layout = self.layout;
        let called = |t: &Tree| t.name == name;
        let place = layout.iter().position(called).ok_or(No::plain(20))?;
        if f.open == MOST_CALLS {
            return Err(f.no(27, at));
        }
        for p in &layout[place].params {
            if get(&held, &p.name).is_none() {
                if let Some(value) = self.held(f, &p.name) {
                    held.push((p.name.clone(), value));
                }
            }
        }
        let inner = Frame {
            place,
            open: f.open + 1,
            held: &held,
        };
        self.node(&layout[place].root, &inner)
    }
}

fn exact(value: u128) -> Result<u64, u8> {
    u64::try_from(value).map_err(|_| 26)
}

pub fn align_up(value: u64, to: u64) -> Result<u64, u8> {
    if to <= 1 || value % to == 0 {
        return Ok(value);
    }
    exact(value as u128 + (to - value % to) as u128)
}

pub fn arithmetic(kind: u16, left: u64, right: u64) -> Result<u64, u8> {
    match kind {
        134 => exact(left as u128 + right as u128),
        135 => left.checked_sub(right).ok_or(23),
        136 => exact(left as u128 * right as u128),
        137 => left.checked_div(right).ok_or(23),
        138 => left.checked_rem(right).ok_or(23),
        139 => Ok(left & right),
        140 => Ok(left | right),
        141 => Ok(left ^ right),
        142 => left_shift(left, right),
        _ => right_shift(left, right),
    }
}

fn left_shift(left: u64, right: u64) -> Result<u64, u8> {
    match right {
        128.. => Err(23),
        _ if left == 0 => Ok(0),
        64.. => Err(26),
        _ => exact((left as u128) << right),
    }
}

fn right_shift(left: u64, right: u64) -> Result<u64, u8> {
    match right {
        128.. => Err(23),
        64.. => Ok(0),
        _ => Ok(left >> right),
    }
}
