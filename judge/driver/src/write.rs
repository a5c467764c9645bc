//! Values to blocks. Nothing is checked here: a refused input must be
//! writable too.

use crate::data::*;

struct Out(Vec<u8>);

impl Out {
    fn block(&mut self, kind: u16, body: impl FnOnce(&mut Out)) {
        let start = self.0.len();
        self.0.extend([0; 4]);
        self.0.extend(kind.to_le_bytes());
        body(self);
        let length = (self.0.len() - start - 4) as u32;
        self.0[start..start + 4].copy_from_slice(&length.to_le_bytes());
    }

    fn number(&mut self, n: u64) {
        self.0.extend(n.to_le_bytes());
    }

    fn count(&mut self, n: usize) {
        self.0.extend((n as u16).to_le_bytes());
    }

    fn flag(&mut self, f: bool) {
        self.0.push(f as u8);
    }

    fn name(&mut self, s: &str) {
        self.count(s.len());
        self.0.extend(s.as_bytes());
    }

    fn optional_name(&mut self, s: &Option<String>) {
        self.flag(s.is_some());
        if let Some(s) = s {
            self.name(s);
        }
    }

    fn list<T>(&mut self, items: &[T], each: impl Fn(&mut Out, &T)) {
        self.count(items.len());
        for item in items {
            each(self, item);
        }
    }
}

fn finish(kind: u16, body: impl FnOnce(&mut Out)) -> Vec<u8> {
    let mut out = Out(Vec::new());
    out.block(kind, body);
    out.0
}

pub fn set(types: &[Type]) -> Vec<u8> {
    finish(36, |o| o.list(types, ty))
}

pub fn layout(trees: &[Tree]) -> Vec<u8> {
    finish(160, |o| o.list(trees, tree))
}

pub fn values(list: &[(String, u64)]) -> Vec<u8> {
    finish(192, |o| values_body(o, list))
}

pub fn run(run: &Run) -> Vec<u8> {
    run_around(run.name.as_bytes(), run.length, &values(&run.values))
}

/// A run block around any bytes that stand for the name and the values.
pub fn run_around(name: &[u8], length: u64, values: &[u8]) -> Vec<u8> {
    finish(193, |o| {
        o.count(name.len());
        o.0.extend(name);
        o.number(length);
        o.0.extend(values);
    })
}

/// One parameter block, byte for byte.
pub fn param_alone(p: &Param) -> Vec<u8> {
    let mut out = Out(Vec::new());
    param(&mut out, p);
    out.0
}

fn values_body(o: &mut Out, list: &[(String, u64)]) {
    o.list(list, |o, (name, n)| {
        o.name(name);
        o.number(*n);
    });
}

fn ty(o: &mut Out, t: &Type) {
    o.block(t.kind.number(), |o| {
        o.name(&t.name);
        o.flag(t.size.is_none());
        if let Some(size) = t.size {
            o.number(size);
        }
        o.number(t.align);
        o.block(32, |o| o.list(&t.refs, owner));
        kind(o, &t.kind);
    });
}

fn owner(o: &mut Out, owner: &Owner) {
    o.block(37, |o| {
        o.name(&owner.name);
        o.list(&owner.paths, |o, p| o.name(p));
    });
}

fn kind(o: &mut Out, kind: &Kind) {
    match kind {
        Kind::Primitive => {}
        Kind::Struct(fields) | Kind::Union(fields) => o.list(fields, field),
        Kind::Enum(tag, variants) => {
            expr(o, tag);
            o.list(variants, variant);
        }
        Kind::Array(jagged, element, size) => {
            o.flag(*jagged);
            ty(o, element);
            expr(o, size);
        }
        Kind::Sized(variants) => o.list(variants, sized_variant),
        Kind::Reference(target) => o.name(target),
    }
}

fn field(o: &mut Out, f: &Field) {
    o.block(33, |o| {
        o.name(&f.name);
        o.flag(f.offset.is_some());
        if let Some(offset) = f.offset {
            o.number(offset);
        }
        ty(o, &f.ty);
    });
}

fn variant(o: &mut Out, v: &Variant) {
    o.block(34, |o| {
        o.name(&v.name);
        o.number(v.tag);
        ty(o, &v.ty);
    });
}

fn sized_variant(o: &mut Out, v: &SizedVariant) {
    o.block(35, |o| {
        o.name(&v.name);
        o.number(v.size);
        ty(o, &v.ty);
    });
}

fn expr(o: &mut Out, e: &Expr) {
    o.block(e.number(), |o| match e {
        Expr::Literal(code, n) => {
            o.0.push(*code);
            o.number(*n);
        }
        Expr::Path(segments) => o.list(segments, |o, s| o.name(s)),
        Expr::Named(_, name) => o.name(name),
        Expr::One(_, a) => expr(o, a),
        Expr::Two(_, a, b) => {
            expr(o, a);
            expr(o, b);
        }
    });
}

fn tree(o: &mut Out, t: &Tree) {
    o.block(161, |o| {
        o.name(&t.name);
        o.number(t.align);
        node(o, &t.root);
        o.list(&t.params, param);
    });
}

fn param(o: &mut Out, p: &Param) {
    o.block(162, |o| {
        o.name(&p.name);
        o.optional_name(&p.text);
        o.flag(p.derived);
    });
}

fn node(o: &mut Out, n: &Node) {
    o.block(n.body.number(), |o| {
        o.number(n.align);
        o.optional_name(&n.text);
        body(o, &n.body);
    });
}

fn body(o: &mut Out, b: &Body) {
    match b {
        Body::Zero => {}
        Body::Const(n) => o.number(*n),
        Body::Ref(path, parameter) => {
            o.name(path);
            o.optional_name(parameter);
        }
        Body::Align(alignment, inner) => {
            o.number(*alignment);
            node(o, inner);
        }
        Body::Switch(tag, cases, default) => switch(o, tag, cases, default),
        Body::Call(name, arguments) => {
            o.name(name);
            o.list(arguments, argument);
        }
        Body::Two(_, left, right) => {
            node(o, left);
            node(o, right);
        }
        Body::Sum(count, element, field) => {
            node(o, count);
            o.name(element);
            o.name(field);
        }
    }
}

fn switch(o: &mut Out, tag: &str, cases: &[Case], default: &Option<Box<Node>>) {
    o.name(tag);
    o.list(cases, |o, c| {
        o.block(163, |o| {
            o.number(c.tag);
            node(o, &c.node);
            o.list(&c.params, param);
        })
    });
    o.flag(default.is_some());
    if let Some(n) = default {
        node(o, n);
    }
}

fn argument(o: &mut Out, a: &Argument) {
    o.block(164, |o| {
        o.name(&a.name);
        o.name(&a.value);
    });
}
