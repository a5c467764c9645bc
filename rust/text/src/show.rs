//! From values to text, in the one form that reading gives back: two spaces a level, one space
//! between words, an empty line between outermost blocks, an alignment of 1 left out.

use crate::expr;
use crate::lines::written;
use crate::model::*;
use crate::parse::TYPES;
use crate::parse_layout::NODES;

/// The text of outermost blocks.
pub fn show(blocks: &[Block]) -> String {
    let mut s = Shower { out: String::new() };
    for block in blocks {
        if !s.out.is_empty() {
            s.out.push('\n');
        }
        match block {
            Block::Set(set) => {
                s.line(0, "set");
                set.types.iter().for_each(|ty| s.ty(1, "", ty));
            }
            Block::Layout(layout) => {
                s.line(0, "layout");
                layout.types.iter().for_each(|tree| s.tree(tree));
            }
            Block::Values(values) => {
                s.line(0, "values");
                s.values(values);
            }
            Block::Run(run) => {
                let name = written(&run.name);
                s.line(0, &format!("run {name} length {}", run.length));
                s.values(&run.values);
            }
        }
    }
    s.out
}

struct Shower {
    out: String,
}

impl Shower {
    fn line(&mut self, depth: usize, words: &str) {
        self.out += &"  ".repeat(depth);
        self.out.push_str(words);
        self.out.push('\n');
    }

    // Sets.

    /// A type, behind the words of what holds it.
    fn ty(&mut self, depth: usize, before: &str, ty: &Type) {
        let word = TYPES[usize::from(ty.shape.kind()) - 1];
        let size = match ty.size {
            Some(size) => format!("size {size}"),
            None => "variable".to_string(),
        };
        let align = align(ty.align);
        let behind = small_parts(&ty.shape);
        let name = written(&ty.name);
        self.line(
            depth,
            &format!("{before}{word} {name} {size}{align}{behind}"),
        );
        ty.owners.iter().for_each(|o| self.owner(depth + 1, o));
        self.shape(depth + 1, &ty.shape);
    }

    fn shape(&mut self, depth: usize, shape: &Shape) {
        match shape {
            Shape::Primitive | Shape::Reference(_) => {}
            Shape::Struct(fields) | Shape::Union(fields) => {
                fields.iter().for_each(|f| self.field(depth, f));
            }
            Shape::Enum(_, variants) => {
                variants.iter().for_each(|v| self.variant(depth, "tag", v));
            }
            Shape::Array(array) => self.ty(depth, "element ", &array.element),
            Shape::SizedUnion(variants) => {
                variants.iter().for_each(|v| self.variant(depth, "size", v));
            }
        }
    }

    fn owner(&mut self, depth: usize, owner: &Owner) {
        let mut words = format!("owner {}", written(&owner.name));
        if !owner.paths.is_empty() {
            words += " paths";
        }
        for path in &owner.paths {
            words += " ";
            words += &written(path);
        }
        self.line(depth, &words);
    }

    fn field(&mut self, depth: usize, field: &Field) {
        let at = field.offset.map_or(String::new(), |o| format!("at {o} "));
        let before = format!("field {} {at}", written(&field.name));
        self.ty(depth, &before, &field.ty);
    }

    fn variant(&mut self, depth: usize, word: &str, variant: &Variant) {
        let name = written(&variant.name);
        let before = format!("variant {name} {word} {} ", variant.number);
        self.ty(depth, &before, &variant.ty);
    }

    // Layouts.

    fn tree(&mut self, tree: &TypeTree) {
        let words = format!("type {}{}", written(&tree.name), align(tree.align));
        self.line(1, &words);
        self.node(2, &tree.root);
        tree.parameters.iter().for_each(|p| self.parameter(2, p));
    }

    fn parameter(&mut self, depth: usize, parameter: &Parameter) {
        let name = written(&parameter.name);
        let description = behind("description", &parameter.description);
        let derived = if parameter.derived { " derived" } else { "" };
        self.line(depth, &format!("parameter {name}{description}{derived}"));
    }

    fn node(&mut self, depth: usize, node: &Node) {
        let word = NODES[usize::from(node.op.kind()) - 128];
        let parts = node_parts(&node.op);
        let align = align(node.align);
        let text = behind("text", &node.text);
        self.line(depth, &format!("{word}{parts}{align}{text}"));
        self.below(depth + 1, &node.op);
    }

    fn below(&mut self, depth: usize, op: &Op) {
        match op {
            Op::ZeroSize | Op::Const(_) | Op::FieldRef { .. } => {}
            Op::AlignUp(_, node) => self.node(depth, node),
            Op::Switch { cases, default, .. } => {
                cases.iter().for_each(|case| self.case(depth, case));
                if let Some(node) = default {
                    self.line(depth, "default");
                    self.node(depth + 1, node);
                }
            }
            Op::CallNested { arguments, .. } => {
                for argument in arguments {
                    let (name, value) = (written(&argument.name), written(&argument.value));
                    self.line(depth, &format!("argument {name} from {value}"));
                }
            }
            Op::Two(_, left, right) => {
                self.node(depth, left);
                self.node(depth, right);
            }
            Op::SumOverArray { count, .. } => self.node(depth, count),
        }
    }

    fn case(&mut self, depth: usize, case: &Case) {
        self.line(depth, &format!("case {}", case.tag));
        self.node(depth + 1, &case.node);
        let below = depth + 1;
        case.parameters
            .iter()
            .for_each(|p| self.parameter(below, p));
    }

    // Values and runs.

    fn values(&mut self, values: &Values) {
        for value in &values.entries {
            let name = written(&value.name);
            self.line(1, &format!("value {name} {}", value.number));
        }
    }
}

fn align(align: u64) -> String {
    match align {
        1 => String::new(),
        _ => format!(" align {align}"),
    }
}

fn behind(word: &str, name: &Option<String>) -> String {
    let shown = |name: &String| format!(" {word} {}", written(name));
    name.as_ref().map_or(String::new(), shown)
}

/// What stands on a type's line behind its head.
fn small_parts(shape: &Shape) -> String {
    match shape {
        Shape::Enum(tag, _) => format!(" tag {}", expr::show(tag)),
        Shape::Array(array) => {
            let jagged = if array.jagged { " jagged" } else { "" };
            format!("{jagged} count {}", expr::show(&array.count))
        }
        Shape::Reference(target) => format!(" to {}", written(target)),
        Shape::Primitive | Shape::Struct(_) | Shape::Union(_) | Shape::SizedUnion(_) => {
            String::new()
        }
    }
}

/// What stands on a node's line before the metadata.
fn node_parts(op: &Op) -> String {
    match op {
        Op::ZeroSize | Op::Two(..) => String::new(),
        Op::Const(number) | Op::AlignUp(number, _) => format!(" {number}"),
        Op::FieldRef { path, parameter } => {
            format!(" {}{}", written(path), behind("parameter", parameter))
        }
        Op::Switch { tag: name, .. } | Op::CallNested { name, .. } => {
            format!(" {}", written(name))
        }
        Op::SumOverArray { element, field, .. } => {
            format!(" element {} field {}", written(element), written(field))
        }
    }
}
