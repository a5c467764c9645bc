//! What lies where in a record: the parts of a type with their bytes, for given values.

use crate::eval::{self, Held};
use crate::lines::written;
use crate::model::*;
use crate::parts::{self, Part, Role};

/// A part of a record. What stands deeper lies inside the last part before it that stands less deep.
#[derive(Debug, PartialEq)]
pub struct Row {
    pub depth: usize,
    pub at: u64,
    pub count: u64,
    pub name: String,
    /// What is known besides: how many elements, which variant, what is summed.
    pub note: String,
    pub kind: Kind,
}

#[derive(Clone, Copy, Debug, PartialEq)]
pub enum Kind {
    Part,
    /// Bytes between parts, or behind them up to an alignment.
    Padding,
    /// A sum of values: how many bytes there are is known, and what lies where in them is not.
    Sum,
}

/// How many elements of an array are drawn, and how many of more than these.
const MOST_ELEMENTS: u64 = 16;
const FIRST_ELEMENTS: u64 = 8;

/// How many parts are drawn, and how deep. Parts inside of parts are left out behind these.
const MOST_ROWS: usize = 2000;
const MOST_DEEP: usize = 64;

const PADDING: &str = "(padding)";

/// A record's parts, and whether some were left out.
pub struct Map {
    pub rows: Vec<Row>,
    pub cut: bool,
}

/// Draws a type of a set over values. Nothing if a node can't be counted.
pub fn draw(set: &[Type], layout: &[TypeTree], name: &str, held: &Held) -> Option<Map> {
    let mut pen = Pen {
        set,
        layout,
        map: Map {
            rows: Vec::new(),
            cut: false,
        },
    };
    let tree = layout.iter().find(|t| t.name == name)?;
    let ty = set.iter().find(|t| t.name == name)?;
    let part = parts::of_tree(&tree.root, Some(ty));
    pen.part(Place { depth: 0, at: 0 }, &written(name), &part, ty, held)?;
    Some(pen.map)
}

struct Pen<'a> {
    set: &'a [Type],
    layout: &'a [TypeTree],
    map: Map,
}

/// Where something is drawn.
#[derive(Clone, Copy)]
struct Place {
    depth: usize,
    at: u64,
}

impl Place {
    fn inside(self) -> Place {
        Place {
            depth: self.depth + 1,
            ..self
        }
    }
}

impl<'a> Pen<'a> {
    fn row(&mut self, place: Place, count: u64, name: &str, note: String, kind: Kind) {
        self.map.rows.push(Row {
            depth: place.depth,
            at: place.at,
            count,
            name: name.to_string(),
            note,
            kind,
        });
    }

    /// Whether there is room for what lies inside a part.
    fn room(&mut self, inside: Place) -> bool {
        let room = self.map.rows.len() < MOST_ROWS && inside.depth <= MOST_DEEP;
        self.map.cut |= !room;
        room
    }

    fn count(&self, node: &Node, held: &Held) -> Option<u64> {
        eval::count(self.layout, node, held)
    }

    /// A part of a type that the layout has a node for, and what lies inside it.
    fn part(
        &mut self,
        place: Place,
        name: &str,
        part: &Part<'a>,
        ty: &'a Type,
        held: &Held,
    ) -> Option<u64> {
        let count = self.count(part.node, held)?;
        let row = self.map.rows.len();
        self.row(place, count, name, String::new(), Kind::Part);
        let inside = place.inside();
        if self.room(inside) {
            let used = self.inside(inside, name, part, ty, held, row)?;
            self.filled(inside, name, used, count)?;
        }
        Some(count)
    }

    /// What lies inside a part whose row is drawn: how many bytes it takes, without alignment.
    fn inside(
        &mut self,
        inside: Place,
        name: &str,
        part: &Part<'a>,
        ty: &'a Type,
        held: &Held,
        row: usize,
    ) -> Option<u64> {
        // A reference by itself is a call, whatever its size; as a constant field it is a constant.
        let calls = matches!(bare(part.node).op, Op::CallNested { .. });
        if calls && matches!(ty.shape, Shape::Reference(_)) {
            return self.called(inside, name, part, held, row);
        }
        if let Some(size) = ty.size {
            self.constant(inside, name, ty, size, row);
            return Some(size);
        }
        match &ty.shape {
            // As a field a struct is a sum, and has a role.
            Shape::Struct(_) if part.role.is_none() => self.fields(inside, name, part, held),
            Shape::Array(array) => self.elements(inside, name, part, array, held, row),
            Shape::Union(_) | Shape::Enum(..) | Shape::SizedUnion(_) => {
                self.switch(inside, name, part, held, row)
            }
            _ => self.sum(part.node, held, row),
        }
    }

    /// What an alignment adds behind a part.
    fn filled(&mut self, inside: Place, name: &str, used: u64, count: u64) -> Option<()> {
        let more = count.checked_sub(used)?;
        if more > 0 {
            let place = Place {
                at: inside.at.checked_add(used)?,
                ..inside
            };
            let note = format!("up to the alignment of {name}");
            self.row(place, more, PADDING, note, Kind::Padding);
        }
        Some(())
    }

    fn note(&mut self, row: usize, note: String) {
        let row = &mut self.map.rows[row];
        row.note = match row.note.is_empty() {
            true => note,
            false => format!("{}, {note}", row.note),
        };
    }

    // Structs.

    fn fields(&mut self, inside: Place, name: &str, part: &Part<'a>, held: &Held) -> Option<u64> {
        let mut at = inside.at;
        let mut leaves = Vec::new();
        leaves_of(part, &mut leaves);
        for leaf in leaves {
            let place = Place { at, ..inside };
            let count = match leaf.role {
                Some(Role::Field { field, .. }) => {
                    let shown = below(name, &field.name, inside);
                    self.part(place, &shown, leaf, &field.ty, held)?
                }
                _ => {
                    let count = self.count(leaf.node, held)?;
                    self.row(place, count, PADDING, String::new(), Kind::Padding);
                    count
                }
            };
            at = at.checked_add(count)?;
        }
        Some(at - inside.at)
    }

    // Arrays.

    fn elements(
        &mut self,
        inside: Place,
        name: &str,
        part: &Part<'a>,
        array: &'a Array,
        held: &Held,
        row: usize,
    ) -> Option<u64> {
        let [count, element] = &part.below.first()?.below[..] else {
            return self.count(part.node, held);
        };
        let number = self.count(count.node, held)?;
        let size = self.count(element.node, held)?;
        self.note(row, elements_note(number, size));
        for i in 0..drawn_elements(number, size) {
            if !self.room(inside) {
                break;
            }
            let at = inside.at + i * size;
            let place = Place { at, ..inside };
            let shown = format!("{name}[{i}]");
            self.part(place, &shown, element, &array.element, held)?;
        }
        self.other_elements(inside, name, number, size);
        number.checked_mul(size)
    }

    /// One row for the elements that are not drawn one by one.
    fn other_elements(&mut self, inside: Place, name: &str, number: u64, size: u64) {
        let drawn = drawn_elements(number, size);
        if size > 0 && drawn < number {
            let place = Place {
                at: inside.at + drawn * size,
                ..inside
            };
            let shown = format!("{name}[{drawn}] to [{}]", number - 1);
            let note = format!("{size} each");
            self.row(place, (number - drawn) * size, &shown, note, Kind::Part);
        }
    }

    // Switches.

    fn switch(
        &mut self,
        inside: Place,
        name: &str,
        part: &Part<'a>,
        held: &Held,
        row: usize,
    ) -> Option<u64> {
        let switch = through_align(part);
        let Op::Switch { tag, .. } = &switch.node.op else {
            return self.sum(part.node, held, row);
        };
        let (case, node) = eval::chosen(switch.node, held)?;
        let chosen = case.and_then(|i| switch.below.get(i))?;
        let count = self.count(node, held)?;
        let Some(Role::Variant {
            name: variant, ty, ..
        }) = chosen.role
        else {
            return Some(count);
        };
        let value = held.get(tag)?;
        let note = format!("variant {} ({} = {value})", written(variant), written(tag));
        self.note(row, note);
        match ty.size {
            // A sized variant counts as its expected size, whatever its type's is.
            Some(size) if size <= count => self.constant(inside, name, ty, size, row),
            None if summed(node).is_empty() => {}
            None => return self.sum(node, held, row),
            Some(_) => {}
        }
        self.count(bare(node), held)
    }

    /// A sum of values, of which no more is known.
    fn sum(&mut self, node: &Node, held: &Held, row: usize) -> Option<u64> {
        let names = summed(node);
        let one = |name: &&str| Some(format!("{} {}", written(name), held.get(*name)?));
        let values: Option<Vec<String>> = names.iter().map(one).collect();
        let note = format!(
            "the sum {}; what lies where in it is not said",
            values?.join(" + ")
        );
        self.note(row, note);
        self.map.rows[row].kind = Kind::Sum;
        self.count(bare(node), held)
    }

    // Calls.

    fn called(
        &mut self,
        inside: Place,
        name: &str,
        part: &Part<'a>,
        held: &Held,
        row: usize,
    ) -> Option<u64> {
        let node = bare(part.node);
        let (called, handed) = eval::call(self.layout, node, held)?;
        self.note(row, format!("a record of {}", written(&called.name)));
        let count = self.count(&called.root, &handed)?;
        let ty = self.set.iter().find(|t| t.name == called.name)?;
        let part = parts::of_tree(&called.root, Some(ty));
        let used = self.inside(inside, name, &part, ty, &handed, row)?;
        self.filled(inside, name, used, count)?;
        Some(count)
    }

    // Types of constant size, whose parts are where they are drawn.

    fn constant(&mut self, inside: Place, name: &str, ty: &'a Type, size: u64, row: usize) {
        if !self.room(inside) {
            return;
        }
        match &ty.shape {
            Shape::Primitive => {}
            Shape::Struct(fields) => self.constant_fields(inside, name, fields, size),
            Shape::Array(array) => {
                let element = &array.element;
                let (Form::Literal(_, number), Some(length)) = (&array.count.form, element.size)
                else {
                    return;
                };
                if number.checked_mul(length).is_none_or(|whole| whole > size) {
                    return;
                }
                self.note(row, elements_note(*number, length));
                for i in 0..drawn_elements(*number, length) {
                    let at = inside.at + i * length;
                    let place = Place { at, ..inside };
                    self.constant_part(place, &format!("{name}[{i}]"), element, length);
                }
                self.other_elements(inside, name, *number, length);
            }
            Shape::Union(_) | Shape::Enum(..) | Shape::SizedUnion(_) => {
                let names = parts::variants(ty);
                let names: Vec<String> = names.iter().map(|v| written(v.0)).collect();
                if !names.is_empty() {
                    self.note(row, format!("one of {}", names.join(", ")));
                }
            }
            Shape::Reference(target) => {
                self.note(row, format!("a {}", written(target)));
                let drawn = self.set.iter().find(|t| t.name == *target);
                if let Some(drawn) = drawn.filter(|t| {
                    // A reference to a reference could go on for ever.
                    t.size == Some(size) && !matches!(t.shape, Shape::Reference(_))
                }) {
                    self.constant(inside, name, drawn, size, row);
                }
            }
        }
    }

    fn constant_fields(&mut self, inside: Place, name: &str, fields: &'a [Field], size: u64) {
        let mut end = 0u64;
        for field in fields {
            let offset = field.offset.unwrap_or(end);
            let Some(length) = field.ty.size else {
                continue;
            };
            end = offset.saturating_add(length);
            let shown = below(name, &field.name, inside);
            let place = Place {
                at: inside.at.saturating_add(offset.min(size)),
                ..inside
            };
            match end <= size {
                true => self.constant_part(place, &shown, &field.ty, length),
                false => {
                    let note = format!("drawn at {offset} with size {length}, behind the end");
                    let count = size.saturating_sub(offset).min(length);
                    self.row(place, count, &shown, note, Kind::Part);
                }
            }
        }
    }

    fn constant_part(&mut self, place: Place, name: &str, ty: &'a Type, size: u64) {
        let row = self.map.rows.len();
        self.row(place, size, name, String::new(), Kind::Part);
        self.constant(place.inside(), name, ty, size, row);
    }
}

/// A field's name, behind the name of what holds it if that is no whole record.
fn below(name: &str, field: &str, inside: Place) -> String {
    match inside.depth {
        1 => written(field),
        _ => format!("{name}.{}", written(field)),
    }
}

/// The parts of a sum that stand for fields and padding.
fn leaves_of<'p, 'a>(part: &'p Part<'a>, leaves: &mut Vec<&'p Part<'a>>) {
    for below in &part.below {
        match below.role {
            Some(_) => leaves.push(below),
            None => leaves_of(below, leaves),
        }
    }
}

/// The node inside alignments.
fn bare(node: &Node) -> &Node {
    match &node.op {
        Op::AlignUp(_, node) => bare(node),
        _ => node,
    }
}

fn through_align<'p, 'a>(part: &'p Part<'a>) -> &'p Part<'a> {
    match (&part.node.op, part.below.first()) {
        (Op::AlignUp(..), Some(inside)) => through_align(inside),
        _ => part,
    }
}

/// The values that are added in a node.
fn summed(node: &Node) -> Vec<&str> {
    match &node.op {
        Op::FieldRef { path, parameter } => vec![parameter.as_ref().unwrap_or(path)],
        op => parts::children(op).into_iter().flat_map(summed).collect(),
    }
}

fn elements_note(number: u64, size: u64) -> String {
    match number {
        0 => "no elements".to_string(),
        1 => format!("1 element of {size}"),
        _ => format!("{number} elements of {size}"),
    }
}

/// How many elements are drawn one by one: none of no bytes.
fn drawn_elements(number: u64, size: u64) -> u64 {
    match (size, number) {
        (0, _) => 0,
        (_, ..=MOST_ELEMENTS) => number,
        _ => FIRST_ELEMENTS,
    }
}

/// What stands above a drawing.
pub struct Title {
    pub head: String,
    pub values: Vec<String>,
}

/// The parts as lines: first byte, last byte, how many, and what.
pub fn text(title: &Title, map: &Map) -> String {
    let last = |row: &Row| row.at.saturating_add(row.count).saturating_sub(1);
    let widest = map.rows.iter().map(last).max().unwrap_or(0);
    let counts = map.rows.iter().map(|r| r.count).max().unwrap_or(0);
    let width = widest.max(counts).to_string().len().max(5);
    let mut out = format!("{}\n", title.head);
    if !title.values.is_empty() {
        out += &format!("{}\n", title.values.join(", "));
    }
    out += &format!(
        "\n{:>width$} {:>width$} {:>width$}\n",
        "first", "last", "bytes"
    );
    for row in &map.rows {
        let end = match row.count {
            0 => "-".to_string(),
            _ => last(row).to_string(),
        };
        let indent = "  ".repeat(row.depth + 1);
        let note = match row.note.is_empty() {
            true => String::new(),
            false => format!(": {}", row.note),
        };
        let (at, count, name) = (row.at, row.count, &row.name);
        out += &format!("{at:>width$} {end:>width$} {count:>width$}{indent}{name}{note}\n");
    }
    if map.cut {
        out += "(what lies inside further parts is left out)\n";
    }
    out
}
