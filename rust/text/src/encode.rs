//! From values to blocks, with a mark at each block's start that says where in the text it stood.

use crate::model::*;

/// Where a block begins in the bytes, and where it stood in the text.
#[derive(Clone, Copy, Debug)]
pub struct Mark {
    pub offset: usize,
    pub kind: u16,
    pub spot: Spot,
}

/// The bytes of one outermost block. The marks ascend by offset.
#[derive(Clone, Debug, Default)]
pub struct Written {
    pub bytes: Vec<u8>,
    pub marks: Vec<Mark>,
}

impl Written {
    /// The mark of the block that begins at an offset, or else of the last one before it.
    pub fn mark_at(&self, offset: usize) -> Mark {
        let behind = self.marks.partition_point(|m| m.offset <= offset);
        self.marks[behind.saturating_sub(1)]
    }
}

/// Writes one outermost block.
pub fn encode(block: &Block) -> Read<Written> {
    let mut w = Writer {
        out: Written::default(),
        open: block.spot(),
    };
    match block {
        Block::Set(set) => w.block(SET, set.spot, |w| w.list(&set.types, Writer::ty))?,
        Block::Layout(layout) => {
            w.block(LAYOUT, layout.spot, |w| w.list(&layout.types, Writer::tree))?
        }
        Block::Values(values) => w.values(values)?,
        Block::Run(run) => w.run(run)?,
    }
    Ok(w.out)
}

struct Writer {
    out: Written,
    /// Where the open block stood, for messages about its parts.
    open: Spot,
}

impl Writer {
    fn block(
        &mut self,
        kind: u16,
        spot: Spot,
        body: impl FnOnce(&mut Writer) -> Read<()>,
    ) -> Read<()> {
        let offset = self.out.bytes.len();
        self.out.marks.push(Mark { offset, kind, spot });
        self.out.bytes.extend([0; 4]);
        self.out.bytes.extend(kind.to_le_bytes());
        let outer = std::mem::replace(&mut self.open, spot);
        body(self)?;
        self.open = outer;
        let length = u32::try_from(self.out.bytes.len() - offset - 4)
            .map_err(|_| Problem::new(spot, "this block is longer than its length can say"))?;
        self.out.bytes[offset..offset + 4].copy_from_slice(&length.to_le_bytes());
        Ok(())
    }

    fn count(&mut self, count: usize) -> Read<()> {
        let Ok(count) = u16::try_from(count) else {
            let message = format!("{count} entries, more than the 65535 that a count can say");
            return Err(Problem::new(self.open, message));
        };
        self.out.bytes.extend(count.to_le_bytes());
        Ok(())
    }

    fn list<T>(&mut self, list: &[T], one: fn(&mut Writer, &T) -> Read<()>) -> Read<()> {
        self.count(list.len())?;
        list.iter().try_for_each(|entry| one(self, entry))
    }

    fn name(&mut self, name: &str) -> Read<()> {
        let Ok(length) = u16::try_from(name.len()) else {
            let message = format!("a name of {} bytes, more than 65535", name.len());
            return Err(Problem::new(self.open, message));
        };
        self.out.bytes.extend(length.to_le_bytes());
        self.out.bytes.extend(name.bytes());
        Ok(())
    }

    fn number(&mut self, number: u64) {
        self.out.bytes.extend(number.to_le_bytes());
    }

    fn flag(&mut self, flag: bool) {
        self.out.bytes.push(u8::from(flag));
    }

    fn optional_name(&mut self, name: &Option<String>) -> Read<()> {
        self.flag(name.is_some());
        name.iter().try_for_each(|name| self.name(name))
    }

    // Sets.

    fn ty(&mut self, ty: &Type) -> Read<()> {
        self.block(ty.shape.kind(), ty.spot, |w| {
            w.name(&ty.name)?;
            w.flag(ty.size.is_none());
            ty.size.iter().for_each(|size| w.number(*size));
            w.number(ty.align);
            w.block(32, ty.spot, |w| w.list(&ty.owners, Writer::owner))?;
            w.shape(&ty.shape)
        })
    }

    fn shape(&mut self, shape: &Shape) -> Read<()> {
        match shape {
            Shape::Primitive => Ok(()),
            Shape::Struct(fields) | Shape::Union(fields) => self.list(fields, Writer::field),
            Shape::Enum(tag, variants) => {
                self.expr(tag)?;
                self.list(variants, |w, v| w.variant(34, v))
            }
            Shape::Array(array) => {
                self.flag(array.jagged);
                self.ty(&array.element)?;
                self.expr(&array.count)
            }
            Shape::SizedUnion(variants) => self.list(variants, |w, v| w.variant(35, v)),
            Shape::Reference(target) => self.name(target),
        }
    }

    fn owner(&mut self, owner: &Owner) -> Read<()> {
        self.block(37, owner.spot, |w| {
            w.name(&owner.name)?;
            w.list(&owner.paths, |w, path| w.name(path))
        })
    }

    fn field(&mut self, field: &Field) -> Read<()> {
        self.block(33, field.spot, |w| {
            w.name(&field.name)?;
            w.flag(field.offset.is_some());
            field.offset.iter().for_each(|offset| w.number(*offset));
            w.ty(&field.ty)
        })
    }

    fn variant(&mut self, kind: u16, variant: &Variant) -> Read<()> {
        self.block(kind, variant.spot, |w| {
            w.name(&variant.name)?;
            w.number(variant.number);
            w.ty(&variant.ty)
        })
    }

    fn expr(&mut self, expr: &Expr) -> Read<()> {
        self.block(expr.form.kind(), expr.spot, |w| match &expr.form {
            Form::Literal(code, number) => {
                w.out.bytes.push(*code);
                w.number(*number);
                Ok(())
            }
            Form::Path(segments) => w.list(segments, |w, segment| w.name(segment)),
            Form::Named(_, name) => w.name(name),
            Form::One(_, a) => w.expr(a),
            Form::Two(_, a, b) => {
                w.expr(a)?;
                w.expr(b)
            }
        })
    }

    // Layouts.

    fn tree(&mut self, tree: &TypeTree) -> Read<()> {
        self.block(161, tree.spot, |w| {
            w.name(&tree.name)?;
            w.number(tree.align);
            w.node(&tree.root)?;
            w.list(&tree.parameters, Writer::parameter)
        })
    }

    fn parameter(&mut self, parameter: &Parameter) -> Read<()> {
        self.block(162, parameter.spot, |w| {
            w.name(&parameter.name)?;
            w.optional_name(&parameter.description)?;
            w.flag(parameter.derived);
            Ok(())
        })
    }

    fn node(&mut self, node: &Node) -> Read<()> {
        self.block(node.op.kind(), node.spot, |w| {
            w.number(node.align);
            w.optional_name(&node.text)?;
            w.op(&node.op)
        })
    }

    fn op(&mut self, op: &Op) -> Read<()> {
        match op {
            Op::ZeroSize => {}
            Op::Const(value) => self.number(*value),
            Op::FieldRef { path, parameter } => {
                self.name(path)?;
                self.optional_name(parameter)?;
            }
            Op::AlignUp(to, node) => {
                self.number(*to);
                self.node(node)?;
            }
            Op::Switch {
                tag,
                cases,
                default,
            } => {
                self.name(tag)?;
                self.list(cases, Writer::case)?;
                self.flag(default.is_some());
                default.iter().try_for_each(|node| self.node(node))?;
            }
            Op::CallNested { name, arguments } => {
                self.name(name)?;
                self.list(arguments, Writer::argument)?;
            }
            Op::Two(_, left, right) => {
                self.node(left)?;
                self.node(right)?;
            }
            Op::SumOverArray {
                count,
                element,
                field,
            } => self.sum(count, element, field)?,
        }
        Ok(())
    }

    fn sum(&mut self, count: &Node, element: &str, field: &str) -> Read<()> {
        self.node(count)?;
        self.name(element)?;
        self.name(field)
    }

    fn case(&mut self, case: &Case) -> Read<()> {
        self.block(163, case.spot, |w| {
            w.number(case.tag);
            w.node(&case.node)?;
            w.list(&case.parameters, Writer::parameter)
        })
    }

    fn argument(&mut self, argument: &Argument) -> Read<()> {
        self.block(164, argument.spot, |w| {
            w.name(&argument.name)?;
            w.name(&argument.value)
        })
    }

    // Values and runs.

    fn values(&mut self, values: &Values) -> Read<()> {
        self.block(VALUES, values.spot, |w| {
            w.list(&values.entries, |w, value| {
                w.name(&value.name)?;
                w.number(value.number);
                Ok(())
            })
        })
    }

    fn run(&mut self, run: &Run) -> Read<()> {
        self.block(RUN, run.spot, |w| {
            w.name(&run.name)?;
            w.number(run.length);
            w.values(&run.values)
        })
    }
}
