//! The build: 10 to 15 where the Rust raises them, 16 and 17 where the sum,
//! name, text, entry or argument is formed, 18 after all types have built.

use super::read;
use crate::data::*;
use crate::write;

/// A refusal inside a type: only its number is known there.
type B<T> = Result<T, u8>;

/// The call: words and output length as the caller gives them.
pub fn build(set: &[u8], words: u64, room: u64) -> Result<Vec<u8>, No> {
    written(&types(set, words)?, room)
}

/// Its first part: 19, 1, and the reading of the set.
pub fn types(set: &[u8], words: u64) -> Result<Set, No> {
    if words < WORDS {
        return Err(No::plain(19));
    }
    read::sizes(&[set])?;
    read::set(set)
}

/// The rest: the layout of the types, in an output of `room` bytes.
pub fn written(types: &[Type], room: u64) -> Result<Vec<u8>, No> {
    let trees = build_set(types)?;
    let bytes = write::layout(&trees);
    let fits = bytes.len() <= LIMIT && bytes.len() as u64 <= room;
    match fits && read::layout(&bytes).is_ok() {
        true => Ok(bytes),
        false => Err(No::plain(18)),
    }
}

/// Every type in set order, without 18.
pub fn build_set(types: &[Type]) -> Result<Layout, No> {
    let mut out = Vec::new();
    for (place, ty) in types.iter().enumerate() {
        let mut b = Builder {
            types,
            entries: Vec::new(),
        };
        out.push(b.tree(ty).map_err(|number| No::in_type(number, place))?);
    }
    Ok(out)
}

/// One registry entry. A key belongs to the first entry whose owner is the
/// same and whose normal path or alias is the path.
struct Entry {
    owner: String,
    normal: String,
    alias: Option<String>,
    param: Param,
}

struct Builder<'a> {
    types: &'a [Type],
    entries: Vec<Entry>,
}

fn measured(text: String) -> B<String> {
    match text.len() <= 255 {
        true => Ok(text),
        false => Err(17),
    }
}

/// The path without its owner; the caller's own rest.
pub fn normal<'p>(owner: &str, path: &'p str) -> &'p str {
    if path == owner {
        return "";
    }
    match path.strip_prefix(owner).and_then(|r| r.strip_prefix('.')) {
        Some(rest) => rest,
        None => path,
    }
}

pub fn canonical(owner: &str, path: &str) -> String {
    if path.is_empty() || path == owner {
        return owner.to_string();
    }
    format!("{owner}.{}", normal(owner, path))
}

/// What stands behind the last `::`, if that is neither empty nor the normal
/// path itself.
pub fn alias(path: &str, normal: &str) -> Option<String> {
    let at = path.rfind("::")?;
    let rest = &path[at + 2..];
    (!rest.is_empty() && rest != normal).then(|| rest.to_string())
}

impl<'a> Builder<'a> {
    fn tree(&mut self, ty: &Type) -> B<Tree> {
        self.enter_all(&ty.refs)?;
        let root = self.root(ty)?;
        Ok(Tree {
            name: ty.name.clone(),
            align: ty.align,
            root,
            params: self.listed(ty),
        })
    }

    /// The first entry of each name, less those of jagged elements.
    fn listed(&self, ty: &Type) -> Vec<Param> {
        let mut out: Vec<Param> = Vec::new();
        for e in &self.entries {
            if out.iter().all(|p| p.name != e.param.name) {
                out.push(e.param.clone());
            }
        }
        out.retain(|p| !inside_jagged_field(ty, &p.name));
        out
    }

    // The registry.

    fn find(&self, owner: &str, path: &str) -> Option<usize> {
        let key = normal(owner, path);
        let same =
            |e: &Entry| e.owner == owner && (e.normal == key || e.alias.as_deref() == Some(key));
        self.entries.iter().position(same)
    }

    fn found_name(&self, owner: &str, path: &str) -> Option<String> {
        let at = self.find(owner, path)?;
        Some(self.entries[at].param.name.clone())
    }

    fn push(&mut self, entry: Entry) -> B<()> {
        if self.entries.len() == 512 {
            return Err(17);
        }
        self.entries.push(entry);
        Ok(())
    }

    fn enter(&mut self, owner: &str, path: &str) -> B<()> {
        if self.find(owner, path).is_some() {
            return Ok(());
        }
        let name = measured(canonical(owner, path))?;
        let normal = normal(owner, path).to_string();
        self.push(Entry {
            owner: owner.to_string(),
            alias: alias(path, &normal),
            normal,
            param: Param {
                name,
                text: None,
                derived: false,
            },
        })
    }

    fn enter_all(&mut self, refs: &[Owner]) -> B<()> {
        for owner in refs {
            for path in &owner.paths {
                self.enter(&owner.name, path)?;
            }
        }
        Ok(())
    }

    /// A made name: owner, stored path, name, description, derived.
    fn make(
        &mut self,
        owner: &str,
        path: &str,
        last: &str,
        text: &str,
        derived: bool,
    ) -> B<String> {
        if let Some(name) = self.found_name(owner, path) {
            return Ok(name);
        }
        let name = measured(format!("{owner}.{last}"))?;
        self.push(Entry {
            owner: owner.to_string(),
            normal: normal(owner, path).to_string(),
            alias: None,
            param: Param {
                name: name.clone(),
                text: Some(text.to_string()),
                derived,
            },
        })?;
        Ok(name)
    }

    fn owned_by(&self, owner: &str) -> Vec<Param> {
        let own = self.entries.iter().filter(|e| e.owner == owner);
        own.map(|e| e.param.clone()).collect()
    }

    // The nodes.

    fn root(&mut self, ty: &Type) -> B<Node> {
        if let Kind::Reference(target) = &ty.kind {
            return self.call(target, ty.align);
        }
        if let Some(size) = ty.size {
            return Ok(Node::new(ty.align, Body::Const(size)));
        }
        match &ty.kind {
            Kind::Struct(fields) => self.variable_struct(ty, fields),
            Kind::Union(variants) => self.union(ty, variants),
            Kind::Enum(tag, variants) => self.enumeration(ty, tag, variants),
            Kind::Array(..) => {
                let owner = array_owner(ty).ok_or(11)?;
                self.array(ty, &owner, "")
            }
            Kind::Sized(variants) => self.sized(ty, variants),
            Kind::Primitive | Kind::Reference(_) => Err(10),
        }
    }

    fn call(&mut self, target: &str, align: u64) -> B<Node> {
        let types = self.types;
        let callee = types.iter().find(|t| t.name == target).ok_or(15)?;
        let mut arguments = Vec::new();
        for owner in &callee.refs {
            for path in &owner.paths {
                let name = measured(canonical(&owner.name, path))?;
                self.enter(&owner.name, path)?;
                if arguments.len() == 512 {
                    return Err(17);
                }
                arguments.push(Argument {
                    at: 0,
                    name: name.clone(),
                    value: name,
                });
            }
        }
        Ok(Node::new(align, Body::Call(target.to_string(), arguments)))
    }

    fn variable_struct(&mut self, ty: &Type, fields: &[Field]) -> B<Node> {
        let mut nodes = Vec::new();
        let mut prefix_end = 0;
        for field in fields {
            if let Some(offset) = field.offset {
                if offset > prefix_end {
                    nodes.push(constant_or_zero(offset - prefix_end, 1));
                }
                if let Some(size) = field.ty.size {
                    prefix_end = offset.checked_add(size).ok_or(16)?;
                }
            }
            nodes.push(self.field(ty, field)?);
        }
        Ok(aligned(added(nodes)?, ty.align))
    }

    /// The field's node, and its own references behind it where they enter.
    fn field(&mut self, ty: &Type, field: &Field) -> B<Node> {
        let own = &field.ty;
        if let Some(size) = own.size {
            self.enter_all(&own.refs)?;
            return Ok(constant_or_zero(size, own.align));
        }
        let node = match &own.kind {
            Kind::Reference(target) => {
                let call = self.call(target, own.align)?;
                return Ok(aligned(call, own.align));
            }
            Kind::Enum(tag, variants) => {
                let payload = payload_sizes(ty, &field.name);
                if !payload.is_empty() {
                    let sum = added(self.summed(&field.name, &payload)?)?;
                    return Ok(aligned(sum, own.align));
                }
                aligned(self.enumeration(own, tag, variants)?, own.align)
            }
            Kind::Array(..) => self.array(own, &field.name, "")?,
            Kind::Sized(variants) => aligned(self.sized(own, variants)?, own.align),
            Kind::Primitive | Kind::Struct(_) | Kind::Union(_) => {
                self.owned_sum(ty, &field.name)?
            }
        };
        self.enter_all(&own.refs)?;
        Ok(node)
    }

    /// The sum of the type's own references for one owner.
    fn owned_sum(&self, ty: &Type, owner: &str) -> B<Node> {
        let paths = paths_of(ty, owner).ok_or(11)?;
        added(self.summed(owner, paths)?)
    }

    fn summed(&self, owner: &str, paths: &[String]) -> B<Vec<Node>> {
        let mut out = Vec::new();
        for path in paths {
            let name = self.found_name(owner, path).ok_or(12)?;
            let mut node = Node::new(1, Body::Ref(path.clone(), Some(name)));
            node.text = Some(measured(format!("{owner}:{path}"))?);
            out.push(node);
        }
        Ok(out)
    }

    fn array(&mut self, ty: &Type, owner: &str, prefix: &str) -> B<Node> {
        let Kind::Array(jagged, element, size) = &ty.kind else {
            return Err(10);
        };
        let count = self.expression(size, owner, prefix)?;
        if *jagged && element.size.is_none() {
            let Kind::Reference(target) = &element.kind else {
                return Err(13);
            };
            let sum = Body::Sum(Box::new(count), target.clone(), owner.to_string());
            return Ok(aligned(Node::new(ty.align, sum), ty.align));
        }
        self.enter_all(&element.refs)?;
        let each = match (element.size, &element.kind) {
            (Some(size), _) => Node::new(element.align, Body::Const(size)),
            (None, Kind::Array(..)) => self.array(element, owner, &format!("{prefix}element."))?,
            (None, _) => return Err(13),
        };
        let product = Body::Two(136, Box::new(count), Box::new(each));
        Ok(aligned(Node::new(ty.align, product), ty.align))
    }

    fn enumeration(&mut self, ty: &Type, tag: &Expr, variants: &[Variant]) -> B<Node> {
        self.enter_all(&ty.refs)?;
        let tag = self.tag(&ty.name, tag)?;
        let mut cases = Vec::new();
        for v in variants {
            cases.push(self.case(ty, &v.name, v.tag, &v.ty)?);
        }
        Ok(Node::new(ty.align, Body::Switch(tag, cases, None)))
    }

    fn union(&mut self, ty: &Type, variants: &[Field]) -> B<Node> {
        self.enter_all(&ty.refs)?;
        let text = "Active union variant selector";
        let tag = self.make(&ty.name, "__variant", "variant", text, false)?;
        let mut cases = Vec::new();
        for (i, v) in variants.iter().enumerate() {
            cases.push(self.case(ty, &v.name, i as u64, &v.ty)?);
        }
        Ok(Node::new(ty.align, Body::Switch(tag, cases, None)))
    }

    fn sized(&mut self, ty: &Type, variants: &[SizedVariant]) -> B<Node> {
        self.enter_all(&ty.refs)?;
        if variants.is_empty() {
            return Err(10);
        }
        let text = "Runtime payload size (bytes) selecting size-discriminated variant";
        let tag = self.make(&ty.name, "__payload_size", "payload_size", text, false)?;
        let each = |v: &SizedVariant| Case {
            tag: v.size,
            node: constant_or_zero(v.size, v.ty.align),
            params: self.owned_by(&v.name),
        };
        let cases = variants.iter().map(each).collect();
        Ok(Node::new(ty.align, Body::Switch(tag, cases, None)))
    }

    /// A case of an enum or a union: a constant, or the sum of the type's own
    /// references for the variant.
    fn case(&self, ty: &Type, name: &str, tag: u64, own: &Type) -> B<Case> {
        let node = match own.size {
            Some(size) => constant_or_zero(size, own.align),
            None => aligned(self.owned_sum(ty, name)?, own.align),
        };
        Ok(Case {
            tag,
            node,
            params: self.owned_by(name),
        })
    }

    /// The name of the tag's parameter; one is made where it is computed.
    fn tag(&mut self, owner: &str, tag: &Expr) -> B<String> {
        let Expr::Path(segments) = tag else {
            self.mark_derived(owner, tag);
            let text = "Computed enum tag expression";
            return self.make(owner, "__computed_tag", "computed_tag", text, true);
        };
        let path = segments.join(".");
        if let Some(name) = self.found_name(owner, &path) {
            return Ok(name);
        }
        let (parent, _) = owner.rsplit_once("::").ok_or(12)?;
        self.found_name(owner, &format!("{parent}::{path}"))
            .ok_or(12)
    }

    fn mark_derived(&mut self, owner: &str, e: &Expr) {
        match e {
            Expr::Path(segments) if !segments.is_empty() => {
                if let Some(at) = self.find(owner, &segments.join(".")) {
                    self.entries[at].param.derived = true;
                }
            }
            Expr::Two(68..=78, a, b) => {
                self.mark_derived(owner, a);
                self.mark_derived(owner, b);
            }
            Expr::One(_, a) => self.mark_derived(owner, a),
            _ => {}
        }
    }

    /// A size expression.
    fn expression(&self, e: &Expr, owner: &str, prefix: &str) -> B<Node> {
        let body = match e {
            Expr::Literal(code, n) => match *code >= 4 && (*n as i64) < 0 {
                true => return Err(14),
                false => Body::Const(*n),
            },
            Expr::Path(segments) => self.reference(&segments.join("."), owner, prefix)?,
            Expr::Two(kind @ (68..=72 | 74..=78), a, b) => {
                let left = self.expression(a, owner, prefix)?;
                let right = self.expression(b, owner, prefix)?;
                Body::Two(node_kind(*kind), Box::new(left), Box::new(right))
            }
            _ => return Err(14),
        };
        Ok(Node::new(1, body))
    }

    fn reference(&self, raw: &str, owner: &str, prefix: &str) -> B<Body> {
        if raw == "__buffer_size" {
            return Ok(Body::Ref(raw.to_string(), None));
        }
        let path = match raw.is_empty() {
            true => prefix.trim_end_matches('.').to_string(),
            false => format!("{prefix}{raw}"),
        };
        let name = self.found_name(owner, &path).ok_or(12)?;
        Ok(Body::Ref(measured(path)?, Some(name)))
    }
}

/// 68 to 72 become 134 to 138, 74 to 78 become 139 to 143.
fn node_kind(kind: u16) -> u16 {
    match kind {
        68..=72 => kind + 66,
        _ => kind + 65,
    }
}

fn aligned(node: Node, align: u64) -> Node {
    Node::new(align, Body::Align(align, Box::new(node)))
}

fn constant_or_zero(size: u64, align: u64) -> Node {
    match size {
        0 => Node::new(align, Body::Zero),
        _ => aligned(Node::new(align, Body::Const(size)), align),
    }
}

/// The sum from the left; 11 if there is nothing to sum.
fn added(nodes: Vec<Node>) -> B<Node> {
    let sum = |a, b| Node::new(1, Body::Two(134, Box::new(a), Box::new(b)));
    nodes.into_iter().reduce(sum).ok_or(11)
}

fn paths_of<'t>(ty: &'t Type, owner: &str) -> Option<&'t Vec<String>> {
    let own = ty.refs.iter().find(|o| o.name == owner)?;
    Some(&own.paths)
}

fn payload_sizes(ty: &Type, owner: &str) -> Vec<String> {
    let paths = paths_of(ty, owner).map_or(&[][..], |p| p);
    let payload = |p: &&String| p.ends_with(".payload_size");
    paths.iter().filter(payload).cloned().collect()
}

/// The owner for a root array.
fn array_owner(ty: &Type) -> Option<String> {
    let last = match ty.name.rfind("::") {
        Some(at) => &ty.name[at + 2..],
        None => "array",
    };
    let named = |n: &str| ty.refs.iter().find(|o| o.name == n);
    let owner = named(last).or(named(&ty.name)).or(ty.refs.first())?;
    Some(owner.name.clone())
}

/// Is the name one below a jagged field of the struct? (In no rule of
/// document 01; the Rust drops such a parameter from the list.)
fn inside_jagged_field(ty: &Type, name: &str) -> bool {
    let Kind::Struct(fields) = &ty.kind else {
        return false;
    };
    let dotted = name.replace("::", ".");
    let segments: Vec<&str> = dotted.split('.').collect();
    let Some(at) = segments.iter().position(|s| *s == "element") else {
        return false;
    };
    let jagged = |f: &Field| matches!(f.ty.kind, Kind::Array(true, ..));
    at > 0
        && fields
            .iter()
            .any(|f| f.name == segments[at - 1] && jagged(f))
}
