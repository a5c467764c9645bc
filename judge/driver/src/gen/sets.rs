//! Random type sets that reach every rule of "Building".

use super::{names, spelling};
use crate::data::*;
use crate::prng::{some_number, Rng, EDGES};
use std::collections::BTreeMap;

/// What a case leans towards.
#[derive(Clone, Copy, PartialEq, Debug)]
enum Style {
    Plain,
    LongNames,
    /// Registries near 512 entries.
    Full,
    /// Calls 14 to 18 deep.
    Chain,
    /// Layouts near and above 65,536 bytes.
    Big,
    /// Blocks open near 32.
    Deep,
}

struct Gen<'r> {
    r: &'r mut Rng,
    names: Vec<String>,
    long: bool,
}

/// What the type around must own: owner and path.
type Needs = Vec<(String, String)>;

pub fn set(r: &mut Rng) -> Set {
    let style = match r.weighted(&[8000, 1000, 60, 240, 30, 200]) {
        0 => Style::Plain,
        1 => Style::LongNames,
        2 => Style::Full,
        3 => Style::Chain,
        4 => Style::Big,
        _ => Style::Deep,
    };
    of_style(r, style)
}

/// A set small enough for a computed test.
pub fn small(r: &mut Rng) -> Set {
    let style = if r.chance(97) {
        Style::Plain
    } else {
        Style::LongNames
    };
    of_style(r, style)
}

/// One more type beside those of a set, which it may refer to.
pub fn another(r: &mut Rng, set: &Set, name: &str, long: bool) -> Type {
    let mut names: Vec<String> = set.iter().map(|t| t.name.clone()).collect();
    names.push(name.to_string());
    let at = names.len() - 1;
    Gen { r, names, long }.top(at)
}

fn of_style(r: &mut Rng, style: Style) -> Set {
    let set = match style {
        Style::Plain | Style::LongNames => plain(r, style == Style::LongNames),
        Style::Full => full(r),
        Style::Chain => chain(r),
        Style::Big => big(r),
        Style::Deep => deep(r),
    };
    spelling::set(r, set)
}

fn plain(r: &mut Rng, long: bool) -> Set {
    let n = match r.weighted(&[55, 35, 6, 3, 1]) {
        0 => r.between(1, 2),
        1 => r.between(2, 5),
        2 => r.between(5, 12),
        3 => 0,
        _ => r.between(12, 40),
    };
    let mut names = Vec::new();
    for i in 0..n {
        let name = names::type_name(r, i);
        let name = names::stretch(r, name, long);
        // A second type of one name is refused; seldom enough.
        if names.contains(&name) && r.chance(90) {
            names.push(format!("T{i}"));
        } else {
            names.push(name);
        }
    }
    let mut g = Gen { r, names, long };
    (0..n).map(|i| g.top(i)).collect()
}

impl Gen<'_> {
    fn word(&mut self) -> String {
        let w = names::word(self.r);
        let long = self.long && self.r.chance(30);
        names::stretch(self.r, w, long)
    }

    fn path(&mut self) -> String {
        let p = names::path(self.r);
        let long = self.long && self.r.chance(30);
        names::stretch(self.r, p, long)
    }

    fn align(&mut self) -> u64 {
        match self.r.weighted(&[60, 30, 5, 5]) {
            0 => 1,
            1 => *self.r.pick(&[2, 4, 8]),
            2 => *self.r.pick(&[0, 3, 16, 1000]),
            _ => *self.r.pick(&EDGES),
        }
    }

    fn size(&mut self) -> u64 {
        match self.r.weighted(&[70, 15, 10, 5]) {
            0 => *self.r.pick(&[0, 1, 1, 2, 4, 4, 8]),
            1 => self.r.below(40) as u64,
            2 => self.r.below(5000) as u64,
            _ => *self.r.pick(&EDGES),
        }
    }

    fn top(&mut self, i: usize) -> Type {
        let name = self.names[i].clone();
        if self.r.chance(12) {
            return self.constant(&name, 2);
        }
        match self.r.weighted(&[42, 13, 12, 13, 8, 8, 4]) {
            0 => self.structure(&name, 2),
            1 => self.enumeration(&name, 2).0,
            2 => self.union(&name, 2),
            3 => self.root_array(&name),
            4 => self.sized(&name, 2),
            5 => self.reference(&name, None),
            _ => self.variable_primitive(&name),
        }
    }

    /// A type of any kind with a constant size.
    fn constant(&mut self, name: &str, depth: usize) -> Type {
        let kind = match (depth, self.r.weighted(&[60, 8, 8, 8, 8, 4, 4])) {
            (0, _) | (_, 0) => Kind::Primitive,
            (_, 1) => self.structure(name, depth - 1).kind,
            (_, 2) => self.union(name, depth - 1).kind,
            (_, 3) => self.enumeration(name, depth - 1).0.kind,
            (_, 4) => self.array(name, depth - 1).0.kind,
            (_, 5) => self.sized(name, depth - 1).kind,
            _ => self.reference(name, None).kind,
        };
        Type {
            name: name.to_string(),
            size: Some(self.size()),
            align: self.align(),
            refs: self.some_refs(10),
            kind,
        }
    }

    fn variable_primitive(&mut self, name: &str) -> Type {
        Type {
            name: name.to_string(),
            size: None,
            align: self.align(),
            refs: self.some_refs(20),
            kind: Kind::Primitive,
        }
    }

    /// The references: what is needed, mostly, and some that are not.
    fn refs(&mut self, needs: Needs) -> Vec<Owner> {
        let mut map: BTreeMap<String, Vec<String>> = BTreeMap::new();
        for (owner, path) in needs {
            if self.r.chance(97) {
                map.entry(owner).or_default().push(path);
            }
        }
        if self.r.chance(15) {
            for _ in 0..self.r.between(1, 3) {
                let owner = match self.r.chance(20) {
                    true => self.r.pick(&self.names).clone(),
                    false => self.word(),
                };
                let path = self.path();
                map.entry(owner).or_default().push(path);
            }
        }
        if self.r.chance(3) {
            let owner = self.word();
            map.entry(owner).or_default();
        }
        if self.r.chance(8) {
            self.one_key_twice(&mut map);
        }
        listed(map)
    }

    /// Two paths of one owner that share a key under different names.
    fn one_key_twice(&mut self, map: &mut BTreeMap<String, Vec<String>>) {
        let owner = match map.keys().next().cloned() {
            Some(owner) if self.r.chance(60) => owner,
            _ => self.word(),
        };
        let paths = map.entry(owner.clone()).or_default();
        match self.r.below(3) {
            0 => paths.extend([String::new(), format!("{owner}.")]),
            1 => paths.extend(["p::n".to_string(), "n".to_string()]),
            _ => paths.extend([owner.clone(), format!("{owner}.")]),
        }
    }

    fn some_refs(&mut self, percent: usize) -> Vec<Owner> {
        if !self.r.chance(percent) {
            return Vec::new();
        }
        let owner = self.word();
        let path = self.path();
        self.refs(vec![(owner, path)])
    }

    fn structure(&mut self, name: &str, depth: usize) -> Type {
        let n = match self.r.chance(4) {
            true => 0,
            false => self.r.between(1, 5),
        };
        let mut needs = Needs::new();
        let mut fields = Vec::new();
        let mut end = 0u64;
        for _ in 0..n {
            let field = self.field(name, depth, &mut end, &mut needs);
            fields.push(field);
        }
        Type {
            name: name.to_string(),
            size: None,
            align: self.align(),
            refs: self.refs(needs),
            kind: Kind::Struct(fields),
        }
    }

    fn field(&mut self, parent: &str, depth: usize, end: &mut u64, needs: &mut Needs) -> Field {
        let name = self.word();
        let inner = match self.r.chance(70) && !self.long {
            true => format!("{parent}::{name}"),
            false => self.word(),
        };
        let ty = match self.r.chance(45) {
            true => self.constant(&inner, depth.min(1)),
            false => self.variable_field(&name, &inner, depth, needs),
        };
        let offset = self.offset(*end);
        if let (Some(o), Some(s)) = (offset, ty.size) {
            *end = o.wrapping_add(s);
        }
        Field { name, offset, ty }
    }

    fn offset(&mut self, end: u64) -> Option<u64> {
        match self.r.weighted(&[36, 32, 15, 13, 4]) {
            0 => None,
            1 => Some(end),
            2 => Some(end.wrapping_add(self.r.below(9) as u64)),
            3 => Some(self.r.below(20) as u64),
            _ => Some(*self.r.pick(&EDGES)),
        }
    }

    /// A field of variable size; `needs` gets what its struct must own.
    fn variable_field(
        &mut self,
        field: &str,
        inner: &str,
        depth: usize,
        needs: &mut Needs,
    ) -> Type {
        match self.r.weighted(&[36, 20, 12, 16, 6, 6, 4]) {
            0 => {
                let (ty, paths) = self.array(inner, depth);
                self.need_stored(field, paths, needs);
                ty
            }
            1 => self.enum_field(field, inner, depth, needs),
            2 => self.sized(inner, depth.min(1)),
            3 => self.reference(inner, Some(needs)),
            4 => {
                self.need_any(field, needs);
                match depth {
                    0 => self.variable_primitive(inner),
                    _ => self.structure(inner, depth - 1),
                }
            }
            5 => {
                self.need_any(field, needs);
                self.union(inner, depth.min(1))
            }
            _ => {
                self.need_any(field, needs);
                self.variable_primitive(inner)
            }
        }
    }

    fn need_stored(&mut self, owner: &str, paths: Vec<String>, needs: &mut Needs) {
        for p in paths {
            let p = names::stored(self.r, owner, &p);
            needs.push((owner.to_string(), p));
        }
    }

    fn need_any(&mut self, owner: &str, needs: &mut Needs) {
        for _ in 0..self.r.between(1, 3) {
            let p = self.path();
            let p = match self.r.chance(30) {
                true => format!("{owner}.{p}"),
                false => p,
            };
            needs.push((owner.to_string(), p));
        }
    }

    fn enum_field(&mut self, field: &str, inner: &str, depth: usize, needs: &mut Needs) -> Type {
        let (mut ty, tag) = self.enumeration(inner, depth.min(1));
        if self.r.chance(30) {
            needs.push((field.to_string(), format!("{field}.payload_size")));
            if self.r.chance(30) {
                needs.push((field.to_string(), "x.payload_size".to_string()));
            }
            if self.r.chance(30) {
                self.need_any(field, needs);
            }
        }
        // The struct may own the tag's path in place of the enum.
        if let (Some(path), true) = (tag, self.r.chance(25)) {
            ty.refs.retain(|o| o.name != ty.name);
            let path = names::stored(self.r, inner, &path);
            needs.push((inner.to_string(), path));
        }
        ty
    }

    fn reference(&mut self, name: &str, caller: Option<&mut Needs>) -> Type {
        let target = match self.r.chance(96) {
            true => self.r.pick(&self.names).clone(),
            false => self.word(),
        };
        if let Some(needs) = caller {
            if self.r.chance(20) {
                needs.push((target.clone(), self.path()));
            }
        }
        let constant = self.r.chance(20);
        let size = self.size();
        Type {
            name: name.to_string(),
            size: constant.then_some(size),
            align: self.align(),
            refs: self.some_refs(20),
            kind: Kind::Reference(target),
        }
    }

    fn root_array(&mut self, name: &str) -> Type {
        let (mut ty, paths) = self.array(name, 2);
        let last = name.rsplit("::").next().unwrap().to_string();
        let owner = match self.r.weighted(&[40, 25, 15, 20]) {
            0 => "array".to_string(),
            1 => name.to_string(),
            2 => last,
            _ => self.word(),
        };
        let mut needs = Needs::new();
        self.need_stored(&owner, paths, &mut needs);
        if needs.is_empty() && self.r.chance(80) {
            needs.push((owner, self.path()));
        }
        ty.refs = self.refs(needs);
        ty
    }

    /// A variable array and the paths that its owner must have.
    fn array(&mut self, name: &str, depth: usize) -> (Type, Vec<String>) {
        let mut paths = Vec::new();
        let size = self.size_expr(3, &mut paths);
        let jagged = self.r.chance(18);
        let element = self.element(name, depth, jagged, &mut paths);
        let ty = Type {
            name: name.to_string(),
            size: None,
            align: self.align(),
            refs: self.some_refs(15),
            kind: Kind::Array(jagged, Box::new(element), size),
        };
        (ty, paths)
    }

    fn element(&mut self, name: &str, depth: usize, jagged: bool, paths: &mut Vec<String>) -> Type {
        let name = format!("{name}::element");
        let name = if name.len() > 255 { self.word() } else { name };
        let weights = match (jagged, depth) {
            (true, _) => [25, 8, 60, 7],
            (false, 0) => [97, 0, 2, 1],
            (false, _) => [62, 34, 2, 2],
        };
        match self.r.weighted(&weights) {
            0 => self.constant(&name, 1),
            1 => {
                let (ty, inner) = self.array(&name, depth.saturating_sub(1));
                let prefixed = |p: String| match p.is_empty() {
                    true => "element".to_string(),
                    false => format!("element.{p}"),
                };
                paths.extend(inner.into_iter().map(prefixed));
                ty
            }
            2 => self.reference(&name, None),
            _ => match self.r.below(4) {
                0 => self.structure(&name, 0),
                1 => self.union(&name, 0),
                2 => self.sized(&name, 0),
                _ => self.variable_primitive(&name),
            },
        }
    }

    fn enumeration(&mut self, name: &str, depth: usize) -> (Type, Option<String>) {
        let mut needs = Needs::new();
        let mut paths = Vec::new();
        let (tag, asked) = match self.r.chance(60) {
            true => {
                let p = self.path();
                (Expr::Path(names::segments(self.r, &p)), Some(p))
            }
            false => (self.computed_tag(&mut paths), None),
        };
        match &asked {
            Some(p) => {
                let stored = match name.rsplit_once("::") {
                    Some((parent, _)) if self.r.chance(30) => format!("{parent}::{p}"),
                    _ => names::stored(self.r, name, p),
                };
                needs.push((name.to_string(), stored));
            }
            None => self.need_stored(name, paths, &mut needs),
        }
        let mut variants = Vec::new();
        for i in 0..self.r.between(0, 4) {
            let (name, ty) = self.variant(name, depth, &mut needs);
            let tag = match self.r.weighted(&[70, 20, 10]) {
                0 => i as u64,
                1 => self.r.below(5) as u64,
                _ => some_number(self.r),
            };
            variants.push(Variant { name, tag, ty });
        }
        let ty = Type {
            name: name.to_string(),
            size: None,
            align: self.align(),
            refs: self.refs(needs),
            kind: Kind::Enum(tag, variants),
        };
        (ty, asked)
    }

    /// Any expression that is no path; now and then with an empty one in it.
    fn computed_tag(&mut self, paths: &mut Vec<String>) -> Expr {
        let tag = self.any_expr(3, paths);
        if !self.r.chance(12) {
            return tag;
        }
        paths.push(String::new());
        let empty = match self.r.chance(50) {
            true => Expr::Path(Vec::new()),
            false => Expr::Path(vec![String::new()]),
        };
        Expr::Two(68, Box::new(tag), Box::new(empty))
    }

    /// A variant's name and type; a variable one needs references.
    fn variant(&mut self, parent: &str, depth: usize, needs: &mut Needs) -> (String, Type) {
        let name = self.word();
        let inner = match self.long {
            true => self.word(),
            false => format!("{parent}::{name}"),
        };
        if self.r.chance(70) {
            if self.r.chance(10) {
                self.need_any(&name, needs);
            }
            return (name, self.constant(&inner, depth.min(1)));
        }
        self.need_any(&name, needs);
        let ty = match (depth, self.r.below(5)) {
            (0, _) | (_, 0) => self.variable_primitive(&inner),
            (_, 1) => self.structure(&inner, depth - 1),
            (_, 2) => self.enumeration(&inner, depth - 1).0,
            (_, 3) => self.union(&inner, depth - 1),
            _ => self.array(&inner, depth - 1).0,
        };
        (name, ty)
    }

    fn union(&mut self, name: &str, depth: usize) -> Type {
        let mut needs = Needs::new();
        let mut variants = Vec::new();
        for _ in 0..self.r.between(0, 4) {
            let (name, ty) = self.variant(name, depth, &mut needs);
            let offset = self.offset(0);
            variants.push(Field { name, offset, ty });
        }
        if self.r.chance(5) {
            needs.push((name.to_string(), "__variant".to_string()));
        }
        if self.r.chance(4) {
            needs.push((name.to_string(), "variant".to_string()));
        }
        Type {
            name: name.to_string(),
            size: None,
            align: self.align(),
            refs: self.refs(needs),
            kind: Kind::Union(variants),
        }
    }

    fn sized(&mut self, name: &str, depth: usize) -> Type {
        let mut needs = Needs::new();
        let mut variants = Vec::new();
        let n = if self.r.chance(5) {
            0
        } else {
            self.r.between(1, 4)
        };
        for _ in 0..n {
            let (name, ty) = self.variant(name, depth, &mut needs);
            let size = self.size();
            variants.push(SizedVariant { name, size, ty });
        }
        if self.r.chance(50) {
            needs.clear();
        }
        if self.r.chance(5) {
            needs.push((name.to_string(), "__payload_size".to_string()));
        }
        Type {
            name: name.to_string(),
            size: None,
            align: self.align(),
            refs: self.refs(needs),
            kind: Kind::Sized(variants),
        }
    }

    fn literal(&mut self) -> Expr {
        let code = self.r.below(8) as u8;
        let bits = [64, 32, 16, 8][code as usize % 4];
        let n = match self.r.weighted(&[80, 10, 5, 5]) {
            0 => self.r.below(9) as u64,
            1 => u64::MAX >> (64 - bits),
            2 => 1u64 << (bits - 1),
            _ => self.r.next() >> (64 - bits),
        };
        if code < 4 {
            return Expr::Literal(code, n);
        }
        // A signed value: inside its type, seldom negative.
        let half = n & (u64::MAX >> (65 - bits));
        match self.r.chance(8) {
            true => Expr::Literal(code, half.wrapping_sub(1 << (bits - 1))),
            false => Expr::Literal(code, half),
        }
    }

    /// A size expression; the paths that it asks for are gathered.
    fn size_expr(&mut self, depth: usize, paths: &mut Vec<String>) -> Expr {
        match self
            .r
            .weighted(&[20, 50, if depth > 0 { 28 } else { 0 }, 2])
        {
            0 => self.literal(),
            1 => self.asked_path(paths),
            2 => {
                let kind = *self.r.pick(&[68, 68, 69, 70, 71, 72, 74, 75, 76, 77, 78]);
                let left = self.size_expr(depth - 1, paths);
                let right = self.size_expr(depth - 1, paths);
                Expr::Two(kind, Box::new(left), Box::new(right))
            }
            _ => self.any_expr(depth, paths),
        }
    }

    fn asked_path(&mut self, paths: &mut Vec<String>) -> Expr {
        if self.r.chance(7) {
            return Expr::Path(vec!["__buffer_size".to_string()]);
        }
        let p = self.path();
        let segments = names::segments(self.r, &p);
        paths.push(p);
        Expr::Path(segments)
    }

    /// An expression of any kind.
    fn any_expr(&mut self, depth: usize, paths: &mut Vec<String>) -> Expr {
        let kind = match depth {
            0 => self.r.between(64, 67),
            _ => self.r.between(64, 91),
        } as u16;
        match kind {
            64 => self.literal(),
            65 => self.asked_path(paths),
            66 | 67 => {
                let name = match self.r.chance(70) {
                    true => self.r.pick(&self.names).clone(),
                    false => self.word(),
                };
                Expr::Named(kind, name)
            }
            79..=82 => Expr::One(kind, Box::new(self.any_expr(depth - 1, paths))),
            _ => {
                let left = self.any_expr(depth - 1, paths);
                let right = self.any_expr(depth - 1, paths);
                Expr::Two(kind, Box::new(left), Box::new(right))
            }
        }
    }
}

/// Owners and paths ascending, no more than a references block may hold.
fn listed(map: BTreeMap<String, Vec<String>>) -> Vec<Owner> {
    let mut left = 64;
    let mut out = Vec::new();
    for (name, mut paths) in map {
        paths.sort();
        paths.dedup();
        paths.truncate(left);
        left -= paths.len();
        out.push(Owner { name, paths });
    }
    out.truncate(64);
    out
}

fn one_owner(owner: &str, paths: Vec<String>) -> Vec<Owner> {
    listed(BTreeMap::from([(owner.to_string(), paths)]))
}

fn constant(name: &str, size: u64) -> Type {
    Type {
        name: name.to_string(),
        size: Some(size),
        align: 1,
        refs: Vec::new(),
        kind: Kind::Primitive,
    }
}

fn reference(name: &str, target: &str, size: Option<u64>) -> Type {
    Type {
        size,
        kind: Kind::Reference(target.to_string()),
        ..constant(name, 0)
    }
}

fn variable(name: &str, refs: Vec<Owner>, kind: Kind) -> Type {
    Type {
        size: None,
        refs,
        kind,
        ..constant(name, 0)
    }
}

fn plain_field(name: &str, ty: Type) -> Field {
    Field {
        name: name.to_string(),
        offset: None,
        ty,
    }
}

/// Types of many references, and one that calls them all: 510 to 514 entries.
fn full(r: &mut Rng) -> Set {
    let total = r.between(508, 515);
    let mut set = Vec::new();
    let mut fields = Vec::new();
    let mut made = 0;
    while made < total {
        let n = (total - made).min(64);
        let name = format!("R{}", set.len());
        let paths = (made..made + n).map(|i| format!("v{i:03}")).collect();
        let refs = one_owner(&name, paths);
        set.push(variable(&name, refs, Kind::Union(Vec::new())));
        fields.push(plain_field("f", reference("f", &name, None)));
        made += n;
    }
    let all = variable("All", Vec::new(), Kind::Struct(fields));
    match r.chance(50) {
        true => set.push(all),
        false => set.insert(0, all),
    }
    // Each union's tag is an entry of its own type, not of the caller's.
    set
}

/// Each type calls the next; the last is a constant, or calls back.
fn chain(r: &mut Rng) -> Set {
    let n = r.between(14, 19);
    let shared = r.chance(50);
    let mut set = Vec::new();
    for i in 0..n {
        let name = format!("C{i}");
        let next = format!("C{}", i + 1);
        let call = reference("next", &next, None);
        let refs = match shared {
            true => one_owner("o", vec!["n".to_string()]),
            false => Vec::new(),
        };
        let ty = match r.weighted(&[50, 50]) {
            0 => Type {
                refs,
                ..reference(&name, &next, Some(3))
            },
            _ => variable(&name, refs, Kind::Struct(vec![plain_field("next", call)])),
        };
        set.push(ty);
    }
    let last = format!("C{n}");
    set.push(match r.chance(85) {
        true => constant(&last, 5),
        false => reference(&last, "C0", None),
    });
    set
}

/// Long paths called from several fields: a layout of about 65,536 bytes.
fn big(r: &mut Rng) -> Set {
    let length = r.between(150, 240);
    let n = r.between(40, 64);
    let path = |i: usize| format!("{i:02}{}", "x".repeat(length));
    let refs = one_owner("o", (0..n).map(path).collect());
    let many = variable("Many", refs, Kind::Union(Vec::new()));
    let calls = r.between(1, 4);
    let field = |_| plain_field("f", reference("f", "Many", None));
    let fields = (0..calls).map(field).collect();
    vec![many, variable("All", Vec::new(), Kind::Struct(fields))]
}

/// Nested types or expressions near 32 blocks open.
fn deep(r: &mut Rng) -> Set {
    match r.chance(50) {
        true => deep_expression(r),
        false => deep_array(r),
    }
}

fn deep_expression(r: &mut Rng) -> Set {
    // Set, type and this many expressions are open together.
    let mut e = Expr::Literal(3, 1);
    for _ in 0..r.between(26, 31) {
        let other = Box::new(Expr::Literal(3, 2));
        e = match r.chance(50) {
            true => Expr::Two(68, Box::new(e), other),
            false => Expr::Two(70, other, Box::new(e)),
        };
    }
    let refs = one_owner("array", vec!["n".to_string()]);
    let element = Box::new(constant("e", 2));
    vec![variable("T0", refs, Kind::Array(false, element, e))]
}

fn deep_array(r: &mut Rng) -> Set {
    let levels = r.between(24, 31);
    let mut ty = constant("e", 2);
    for i in 0..levels {
        let size = match r.chance(60) {
            true => Expr::Literal(3, 1),
            false => Expr::Path(vec!["n".to_string()]),
        };
        let mut refs = Vec::new();
        if i + 1 == levels {
            let path = |k: usize| format!("{}n", "element.".repeat(k));
            refs = one_owner("array", (0..levels).map(path).collect());
        }
        ty = variable("T0", refs, Kind::Array(false, Box::new(ty), size));
    }
    vec![ty]
}
