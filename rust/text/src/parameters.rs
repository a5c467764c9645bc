//! What a record of a type wants to be told: its parameters, and what each is used for.

use crate::expr;
use crate::lines::written;
use crate::model::*;
use crate::parts::{self, Part, Role};

/// The type that is described, among those of its layout.
struct Of<'a> {
    types: &'a [TypeTree],
    tree: &'a TypeTree,
}

/// One use of a value: its name, and what for.
struct Use {
    name: String,
    purpose: String,
}

/// The parameters of a type of a layout in the layout's order, a line each, and behind them the
/// values that its tree asks for without listing them. The type of the set says which fields and
/// variants use them.
pub fn describe(types: &[TypeTree], tree: &TypeTree, ty: Option<&Type>) -> String {
    let mut uses = Vec::new();
    let part = parts::of_tree(&tree.root, ty);
    let of = Of { types, tree };
    collect(&part, &mut Vec::new(), ty, &of, &mut uses);
    let listed = tree.parameters.len();
    let title = match listed {
        0 => "no parameters".to_string(),
        1 => "1 parameter".to_string(),
        _ => format!("{listed} parameters"),
    };
    let mut out = format!("{}, {title}\n", written(&tree.name));
    for parameter in &tree.parameters {
        out += &line(parameter, &uses);
    }
    for name in unlisted(tree, &uses) {
        let why = match name {
            "__buffer_size" => "the buffer length, where no value says otherwise",
            _ => "not listed, but asked for",
        };
        let used = purposes(name, &uses);
        out += &format!("  {}, {why}: {used}\n", written(name));
    }
    out
}

fn line(parameter: &Parameter, uses: &[Use]) -> String {
    let derived = if parameter.derived { ", derived" } else { "" };
    let used = purposes(&parameter.name, uses);
    let description = parameter.description.as_ref();
    let description = description.map_or(String::new(), |d| format!(" ({d})"));
    format!(
        "  {}{derived}: {used}{description}\n",
        written(&parameter.name)
    )
}

/// The purposes of a name, each once.
fn purposes(name: &str, uses: &[Use]) -> String {
    let mut all: Vec<&str> = Vec::new();
    for used in uses.iter().filter(|u| u.name == name) {
        if !all.contains(&used.purpose.as_str()) {
            all.push(&used.purpose);
        }
    }
    match all.is_empty() {
        true => "not used in the count".to_string(),
        false => all.join("; "),
    }
}

/// The names that are asked for and not listed, each once.
fn unlisted<'u>(tree: &TypeTree, uses: &'u [Use]) -> Vec<&'u str> {
    let mut names: Vec<&str> = Vec::new();
    for used in uses {
        let listed = tree.parameters.iter().any(|p| p.name == used.name);
        if !listed && !names.contains(&used.name.as_str()) {
            names.push(&used.name);
        }
    }
    names
}

/// Notes what a part and those below it use. `inside` names what they stand in, the outermost
/// first; `ty` is the type whose switch this may be.
fn collect(part: &Part, inside: &mut Vec<String>, ty: Option<&Type>, of: &Of, uses: &mut Vec<Use>) {
    let named = part.role.and_then(role_words);
    let below = named.is_some();
    inside.extend(named);
    let ty = match part.role {
        Some(Role::Field { field, .. }) => Some(&field.ty),
        Some(Role::Variant { ty, .. } | Role::Element(ty)) => Some(ty),
        _ => ty,
    };
    let place = place(inside, of.tree);
    let mut note = |name: &str, purpose: String| {
        uses.push(Use {
            name: name.to_string(),
            purpose,
        })
    };
    match &part.node.op {
        Op::FieldRef { path, parameter } => {
            let name = parameter.as_ref().unwrap_or(path);
            let word = match (inside.last(), ty) {
                (Some(last), _) if last == COUNT => "",
                (None, None) => "in the count of ",
                _ => "size of ",
            };
            note(name, format!("{word}{place}"));
        }
        Op::Switch { tag, .. } => {
            let computed = ty.map_or(String::new(), computed);
            note(tag, format!("tag of {place}{computed}{}", choices(part)));
        }
        Op::CallNested { name, arguments } => {
            let to = format!("handed on to {} by {place}", written(name));
            for argument in arguments {
                note(&argument.value, to.clone());
            }
            // A called type is also handed what it lists and no argument names.
            let called = of.types.iter().find(|t| t.name == *name);
            for parameter in called.iter().flat_map(|t| &t.parameters) {
                if arguments.iter().all(|a| a.name != parameter.name) {
                    note(&parameter.name, to.clone());
                }
            }
        }
        _ => {}
    }
    for (i, below) in part.below.iter().enumerate() {
        let case = case_words(part, i);
        let cased = case.is_some();
        inside.extend(case);
        collect(below, inside, ty, of, uses);
        if cased {
            inside.pop();
        }
    }
    if below {
        inside.pop();
    }
}

const COUNT: &str = "count";

fn role_words(role: Role) -> Option<String> {
    match role {
        Role::Padding { .. } => None,
        Role::Field { field, .. } => Some(format!("{FIELD}{}", written(&field.name))),
        Role::Variant { name, tag, .. } => Some(format!("variant {} (tag {tag})", written(name))),
        Role::Count => Some(COUNT.to_string()),
        Role::Element(_) => Some("the element".to_string()),
    }
}

/// A case that no variant of a set names.
fn case_words(part: &Part, i: usize) -> Option<String> {
    let Op::Switch { cases, .. } = &part.node.op else {
        return None;
    };
    match (cases.get(i), part.below[i].role) {
        (_, Some(_)) => None,
        (Some(case), None) => Some(format!("case {}", case.tag)),
        (None, None) => Some("any other case".to_string()),
    }
}

/// Where something stands, from the inside out, up to a field of the type or the type itself.
fn place(inside: &[String], tree: &TypeTree) -> String {
    let mut words: Vec<&str> = inside.iter().rev().map(String::as_str).collect();
    let name = written(&tree.name);
    if !words.last().is_some_and(|w| w.starts_with(FIELD)) {
        words.push(&name);
    }
    words.join(" of ")
}

const FIELD: &str = "field ";

/// The expression of a tag that is no path.
fn computed(ty: &Type) -> String {
    match &ty.shape {
        Shape::Enum(tag, _) if !matches!(tag.form, Form::Path(_)) => {
            format!(", computed as {}", expr::show(tag))
        }
        _ => String::new(),
    }
}

/// The tags that a switch has cases for.
fn choices(part: &Part) -> String {
    let Op::Switch { cases, default, .. } = &part.node.op else {
        return String::new();
    };
    let one = |(case, below): (&Case, &Part)| match below.role {
        Some(Role::Variant { name, .. }) => format!("{} {}", case.tag, written(name)),
        _ => case.tag.to_string(),
    };
    let mut all: Vec<String> = cases.iter().zip(&part.below).map(one).collect();
    if default.is_some() {
        all.push("any other".to_string());
    }
    match all.is_empty() {
        true => ", which has no cases".to_string(),
        false => format!(": {}", all.join(", ")),
    }
}
