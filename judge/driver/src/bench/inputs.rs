//! What is asked where validating is measured.

use crate::data::*;
use crate::gen::grown::layout_of;
use crate::slow::{constant, field, variable};
use crate::trip;

/// A layout, a type's name, values and a buffer length.
pub struct Asked {
    pub layout: Vec<u8>,
    pub name: String,
    pub values: Values,
    pub length: u64,
}

/// The first run of document 01's worked example.
pub fn trip() -> Asked {
    let run = trip::runs().swap_remove(0);
    Asked {
        layout: layout_of(&trip::set()).expect("the trip set builds"),
        name: run.name,
        values: run.values,
        length: run.length,
    }
}

/// The same with so many values, of which the last is the one used.
pub fn with_values(many: usize) -> Asked {
    let mut asked = trip();
    let other = |i| (format!("a{i:03}"), 1);
    let mut values: Values = (1..many).map(other).collect();
    values.append(&mut asked.values);
    Asked { values, ..asked }
}

/// What the long names are written with: the stops of a town in several
/// spellings.
pub const SPELLINGS: [(&str, &str); 5] = [
    ("ASCII", "Gare de Lyon, Saint-Michel, Place d'Italie, "),
    (
        "one letter in six of two bytes",
        "Évry, Besançon Hôtel, Crépy, Cité, Châtelet, ",
    ),
    ("Greek, two bytes a letter", "ΑθήναΜοναστηράκιΣύνταγμα"),
    ("Japanese, three bytes a letter", "東京駅新宿上野"),
    ("four bytes a letter", "🚌🚏🚇"),
];

/// Bytes of a long name: so many that 512 values fill a block of 65,536.
const LONG_NAME: usize = 117;

/// The same with 511 values more, whose names are numbered and then written
/// with the letters of a text, all of one length in bytes.
pub fn with_long_names(text: &str) -> Asked {
    let mut asked = trip();
    let other = |i: usize| {
        let mut name = format!("{i:03}");
        let mut letters = text.chars().cycle();
        while name.len() + 4 <= LONG_NAME {
            name.extend(letters.next());
        }
        name += &"n".repeat(LONG_NAME - name.len());
        (name, 1)
    };
    let mut values: Values = (1..512).map(other).collect();
    values.append(&mut asked.values);
    Asked { values, ..asked }
}

/// The same in a layout of so many types like it, of which the last is asked.
pub fn among(many: usize) -> Asked {
    let like = |i: usize| Type {
        name: format!("T{i:03}"),
        ..trip::set().swap_remove(0)
    };
    let set: Set = (1..=many).map(like).collect();
    Asked {
        layout: layout_of(&set).expect("types like the trip build"),
        name: format!("T{many:03}"),
        ..trip()
    }
}

/// Types of which each but the last is a struct of a constant field and a
/// reference to the next: so many calls are open together at the last.
pub fn nested(calls: usize) -> Asked {
    let name = |i: usize| format!("C{i:02}");
    let link = |i| {
        let next = variable("next", Kind::Reference(name(i + 1)));
        let fields = vec![
            field("head", Some(0), constant("head", 4)),
            field("next", None, next),
        ];
        variable(&name(i), Kind::Struct(fields))
    };
    let mut set: Set = (0..calls).map(link).collect();
    set.push(constant(&name(calls), 8));
    Asked {
        layout: layout_of(&set).expect("the nested set builds"),
        name: name(0),
        values: Values::new(),
        length: 4 * calls as u64 + 8,
    }
}
