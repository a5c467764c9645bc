//! The unchanged Rust: blocks to its values, its answers to blocks.

use crate::data::*;
use abi_gen::abi::expr::*;
use abi_gen::abi::resolved::*;
use abi_gen::abi::types::{IntegralType, PrimitiveType};
use abi_gen::codegen::shared::builder::{IrBuildError, IrBuilder};
use abi_gen::codegen::shared::ir::*;
use abi_reflect::errors::ReflectError;
use abi_reflect::ir::interpreter::{IrInterpreter, ParamMap};
use std::collections::{BTreeMap, HashMap};

/// `build_type` for each type in order, up to `stop`: the trees, or number
/// and place.
pub fn build(set: &Set, stop: usize) -> Result<Layout, (u8, u16)> {
    Ok(trees(&Types::new(set).build(stop)?))
}

/// The types of a set in the Rust's own values.
pub struct Types {
    resolver: TypeResolver,
    order: Vec<String>,
}

impl Types {
    pub fn new(set: &Set) -> Types {
        let mut resolver = TypeResolver::new();
        for t in set {
            resolver.types.insert(t.name.clone(), resolved(t));
        }
        let order = set.iter().map(|t| t.name.clone()).collect();
        Types { resolver, order }
    }

    /// Types that were decoded already.
    #[cfg(feature = "bench")]
    pub fn decoded(types: Vec<ResolvedType>) -> Types {
        let mut resolver = TypeResolver::new();
        let order = types.iter().map(|t| t.name.clone()).collect();
        let named = types.into_iter().map(|t| (t.name.clone(), t));
        resolver.types.extend(named);
        Types { resolver, order }
    }

    pub fn build(&self, stop: usize) -> Result<Vec<TypeIr>, (u8, u16)> {
        let builder = IrBuilder::new(&self.resolver);
        let mut out = Vec::new();
        for (place, name) in self.order.iter().enumerate().take(stop) {
            let ty = self.resolver.get_type_info(name).unwrap();
            let built = builder.build_type(ty);
            out.push(built.map_err(|e| (build_number(&e), place as u16))?);
        }
        Ok(out)
    }
}

fn build_number(e: &IrBuildError) -> u8 {
    match e {
        IrBuildError::UnsupportedSize { .. } => 10,
        IrBuildError::MissingDynamicRefs { .. } => 11,
        IrBuildError::MissingParameter { .. } => 12,
        IrBuildError::UnsupportedArrayElement { .. } => 13,
        IrBuildError::UnsupportedExpression { .. } => 14,
        IrBuildError::MissingType { .. } => 15,
        IrBuildError::UnsupportedTagExpression { .. } | IrBuildError::DependencyCycle { .. } => 254,
    }
}

/// The Rust's refusal of a run; no place for 24, which has none, and 20,
/// whose text is not compared.
#[derive(Debug, PartialEq)]
pub struct RunNo {
    pub number: u8,
    pub place: Option<u16>,
    pub value: u128,
}

/// A layout in the Rust's own values, for many runs.
pub struct Judge {
    ir: LayoutIr,
    index: BTreeMap<String, usize>,
}

impl Judge {
    pub fn new(layout: &Layout) -> Judge {
        let ir = LayoutIr::new(layout.iter().map(type_ir).collect());
        let named = ir.types.iter().enumerate();
        let index = named.map(|(i, t)| (t.type_name.clone(), i)).collect();
        Judge { ir, index }
    }

    /// Values that were decoded already.
    #[cfg(feature = "bench")]
    pub fn decoded((ir, index): (LayoutIr, BTreeMap<String, usize>)) -> Judge {
        Judge { ir, index }
    }

    /// `None` if the asked name is not there: the Rust is given a type.
    pub fn validate(
        &self,
        name: &[u8],
        length: u64,
        values: &Values,
    ) -> Option<Result<u128, RunNo>> {
        let wide = values.iter().map(|(k, n)| (k.clone(), *n as u128));
        self.validate_wide(name, length, &wide.collect())
    }

    pub fn validate_wide(
        &self,
        name: &[u8],
        length: u64,
        values: &ParamMap,
    ) -> Option<Result<u128, RunNo>> {
        let asked = |t: &&TypeIr| t.type_name.as_bytes() == name;
        let ty = self.ir.types.iter().find(asked)?;
        let interpreter = IrInterpreter::new(&self.ir, &self.index);
        let answer = interpreter.validate(ty, length as usize, values);
        Some(answer.map(|r| r.bytes_consumed).map_err(|e| self.no(&e)))
    }

    /// `validate` and nothing else: the type's place and the values in the
    /// Rust's form are at hand.
    #[cfg(feature = "bench")]
    pub fn count(&self, place: usize, length: u64, values: &ParamMap) -> Option<u128> {
        let interpreter = IrInterpreter::new(&self.ir, &self.index);
        let answer = interpreter.validate(&self.ir.types[place], length as usize, values);
        answer.ok().map(|r| r.bytes_consumed)
    }

    fn no(&self, e: &ReflectError) -> RunNo {
        let (number, name, value) = match e {
            ReflectError::UnknownType { .. } => (20, None, 0),
            ReflectError::MissingIrParameter { type_name, .. } => (21, Some(type_name), 0),
            ReflectError::InvalidTagValue {
                type_name, value, ..
            } => (22, Some(type_name), *value),
            ReflectError::ArithmeticOverflow { type_name, .. } => (23, Some(type_name), 0),
            ReflectError::UnsupportedOperation { .. } => (24, None, 0),
            ReflectError::BufferTooSmall {
                type_name,
                required,
                ..
            } => (25, Some(type_name), *required),
            _ => (254, None, 0),
        };
        RunNo {
            number,
            place: name.map(|n| self.index[n] as u16),
            value,
        }
    }
}

// Blocks to the Rust's values.

fn resolved(t: &Type) -> ResolvedType {
    ResolvedType {
        name: t.name.clone(),
        size: t.size.map_or(Size::Variable(HashMap::new()), Size::Const),
        alignment: t.align,
        comment: None,
        dynamic_params: t.refs.iter().map(owner).collect(),
        kind: resolved_kind(&t.kind),
    }
}

fn owner(o: &Owner) -> (String, BTreeMap<String, PrimitiveType>) {
    let path = |p: &String| (p.clone(), any_primitive());
    (o.name.clone(), o.paths.iter().map(path).collect())
}

/// `build_type` asks for no primitive type.
pub fn any_primitive() -> PrimitiveType {
    PrimitiveType::Integral(IntegralType::U64)
}

fn resolved_kind(k: &Kind) -> ResolvedTypeKind {
    match k {
        Kind::Primitive => ResolvedTypeKind::Primitive {
            prim_type: any_primitive(),
        },
        Kind::Struct(fields) => ResolvedTypeKind::Struct {
            fields: fields.iter().map(field).collect(),
            packed: false,
            custom_alignment: None,
        },
        Kind::Union(fields) => ResolvedTypeKind::Union {
            variants: fields.iter().map(field).collect(),
        },
        Kind::Enum(tag, variants) => ResolvedTypeKind::Enum {
            tag_expression: expr(tag),
            tag_constant_status: ConstantStatus::Constant,
            variants: variants.iter().map(variant).collect(),
        },
        Kind::Array(jagged, element, size) => ResolvedTypeKind::Array {
            element_type: Box::new(resolved(element)),
            size_expression: expr(size),
            size_constant_status: ConstantStatus::Constant,
            jagged: *jagged,
        },
        Kind::Sized(variants) => ResolvedTypeKind::SizeDiscriminatedUnion {
            variants: variants.iter().map(sized_variant).collect(),
        },
        Kind::Reference(target) => ResolvedTypeKind::TypeRef {
            target_name: target.clone(),
            resolved: true,
        },
    }
}

fn field(f: &Field) -> ResolvedField {
    ResolvedField {
        name: f.name.clone(),
        field_type: resolved(&f.ty),
        offset: f.offset,
    }
}

fn variant(v: &Variant) -> ResolvedEnumVariant {
    ResolvedEnumVariant {
        name: v.name.clone(),
        tag_value: v.tag,
        variant_type: resolved(&v.ty),
        requires_payload_size: false,
    }
}

fn sized_variant(v: &SizedVariant) -> ResolvedSizeDiscriminatedVariant {
    ResolvedSizeDiscriminatedVariant {
        name: v.name.clone(),
        expected_size: v.size,
        variant_type: resolved(&v.ty),
    }
}

pub fn literal(code: u8, n: u64) -> LiteralExpr {
    match code {
        0 => LiteralExpr::U64(n),
        1 => LiteralExpr::U32(n as u32),
        2 => LiteralExpr::U16(n as u16),
        3 => LiteralExpr::U8(n as u8),
        4 => LiteralExpr::I64(n as i64),
        5 => LiteralExpr::I32(n as i32),
        6 => LiteralExpr::I16(n as i16),
        _ => LiteralExpr::I8(n as i8),
    }
}

fn expr(e: &Expr) -> ExprKind {
    match e {
        Expr::Literal(code, n) => ExprKind::Literal(literal(*code, *n)),
        Expr::Path(path) => ExprKind::FieldRef(FieldRefExpr { path: path.clone() }),
        Expr::Named(66, name) => ExprKind::Sizeof(SizeofExpr {
            type_name: name.clone(),
        }),
        Expr::Named(_, name) => ExprKind::Alignof(AlignofExpr {
            type_name: name.clone(),
        }),
        Expr::One(kind, a) => one(*kind, Box::new(expr(a))),
        Expr::Two(kind, a, b) => two(*kind, Box::new(expr(a)), Box::new(expr(b))),
    }
}

pub fn one(kind: u16, operand: Box<ExprKind>) -> ExprKind {
    match kind {
        79 => ExprKind::BitNot(BitNotExpr { operand }),
        80 => ExprKind::Neg(NegExpr { operand }),
        81 => ExprKind::Not(NotExpr { operand }),
        _ => ExprKind::Popcount(PopcountExpr { operand }),
    }
}

pub fn two(kind: u16, left: Box<ExprKind>, right: Box<ExprKind>) -> ExprKind {
    match kind {
        68 => ExprKind::Add(AddExpr { left, right }),
        69 => ExprKind::Sub(SubExpr { left, right }),
        70 => ExprKind::Mul(MulExpr { left, right }),
        71 => ExprKind::Div(DivExpr { left, right }),
        72 => ExprKind::Mod(ModExpr { left, right }),
        73 => ExprKind::Pow(PowExpr { left, right }),
        74 => ExprKind::BitAnd(BitAndExpr { left, right }),
        75 => ExprKind::BitOr(BitOrExpr { left, right }),
        76 => ExprKind::BitXor(BitXorExpr { left, right }),
        77 => ExprKind::LeftShift(LeftShiftExpr { left, right }),
        78 => ExprKind::RightShift(RightShiftExpr { left, right }),
        83 => ExprKind::Eq(EqExpr { left, right }),
        84 => ExprKind::Ne(NeExpr { left, right }),
        85 => ExprKind::Lt(LtExpr { left, right }),
        86 => ExprKind::Gt(GtExpr { left, right }),
        87 => ExprKind::Le(LeExpr { left, right }),
        88 => ExprKind::Ge(GeExpr { left, right }),
        89 => ExprKind::And(AndExpr { left, right }),
        90 => ExprKind::Or(OrExpr { left, right }),
        _ => ExprKind::Xor(XorExpr { left, right }),
    }
}

fn type_ir(t: &Tree) -> TypeIr {
    TypeIr {
        type_name: t.name.clone(),
        alignment: t.align,
        root: ir_node(&t.root),
        parameters: t.params.iter().map(ir_param).collect(),
    }
}

fn ir_param(p: &Param) -> IrParameter {
    IrParameter {
        name: p.name.clone(),
        description: p.text.clone(),
        derived: p.derived,
    }
}

fn ir_node(n: &Node) -> IrNode {
    let meta = NodeMetadata {
        size_expr: n.text.clone(),
        ..NodeMetadata::aligned(n.align)
    };
    match &n.body {
        Body::Zero => IrNode::ZeroSize { meta },
        Body::Const(value) => IrNode::Const(ConstNode {
            value: *value,
            meta,
        }),
        Body::Ref(path, parameter) => IrNode::FieldRef(FieldRefNode {
            path: path.clone(),
            parameter: parameter.clone(),
            meta,
        }),
        Body::Align(alignment, node) => IrNode::AlignUp(AlignNode {
            alignment: *alignment,
            node: Box::new(ir_node(node)),
            meta,
        }),
        Body::Switch(tag, cases, default) => IrNode::Switch(SwitchNode {
            tag: tag.clone(),
            cases: cases.iter().map(ir_case).collect(),
            default: default.as_ref().map(|n| Box::new(ir_node(n))),
            meta,
        }),
        Body::Call(name, arguments) => IrNode::CallNested(CallNestedNode {
            type_name: name.clone(),
            arguments: arguments.iter().map(ir_argument).collect(),
            meta,
        }),
        Body::Two(kind, left, right) => ir_two(*kind, ir_node(left), ir_node(right), meta),
        Body::Sum(count, element, field) => IrNode::SumOverArray(SumOverArrayNode {
            count: Box::new(ir_node(count)),
            element_type_name: element.clone(),
            field_name: field.clone(),
            meta,
        }),
    }
}

fn ir_case(c: &Case) -> SwitchCase {
    SwitchCase {
        tag_value: c.tag,
        node: Box::new(ir_node(&c.node)),
        parameters: c.params.iter().map(ir_param).collect(),
    }
}

fn ir_argument(a: &Argument) -> IrArgument {
    IrArgument {
        name: a.name.clone(),
        value: a.value.clone(),
    }
}

pub fn ir_two(kind: u16, left: IrNode, right: IrNode, meta: NodeMetadata) -> IrNode {
    let node = BinaryOpNode {
        left: Box::new(left),
        right: Box::new(right),
        meta,
    };
    match kind {
        134 => IrNode::AddChecked(node),
        135 => IrNode::SubChecked(node),
        136 => IrNode::MulChecked(node),
        137 => IrNode::DivChecked(node),
        138 => IrNode::ModChecked(node),
        139 => IrNode::BitAnd(node),
        140 => IrNode::BitOr(node),
        141 => IrNode::BitXor(node),
        142 => IrNode::LeftShift(node),
        _ => IrNode::RightShift(node),
    }
}

// The Rust's values to blocks.

pub fn trees(built: &[TypeIr]) -> Layout {
    built.iter().map(tree).collect()
}

fn tree(t: &TypeIr) -> Tree {
    Tree {
        name: t.type_name.clone(),
        align: t.alignment,
        root: node(&t.root),
        params: t.parameters.iter().map(param).collect(),
    }
}

fn param(p: &IrParameter) -> Param {
    Param {
        name: p.name.clone(),
        text: p.description.clone(),
        derived: p.derived,
    }
}

fn node(n: &IrNode) -> Node {
    let (meta, body) = match n {
        IrNode::ZeroSize { meta } => (meta, Body::Zero),
        IrNode::Const(n) => (&n.meta, Body::Const(n.value)),
        IrNode::FieldRef(n) => (&n.meta, Body::Ref(n.path.clone(), n.parameter.clone())),
        IrNode::AlignUp(n) => (&n.meta, Body::Align(n.alignment, Box::new(node(&n.node)))),
        IrNode::Switch(n) => (&n.meta, switch(n)),
        IrNode::CallNested(n) => (&n.meta, call(n)),
        IrNode::AddChecked(n) => (&n.meta, both(134, n)),
        IrNode::SubChecked(n) => (&n.meta, both(135, n)),
        IrNode::MulChecked(n) => (&n.meta, both(136, n)),
        IrNode::DivChecked(n) => (&n.meta, both(137, n)),
        IrNode::ModChecked(n) => (&n.meta, both(138, n)),
        IrNode::BitAnd(n) => (&n.meta, both(139, n)),
        IrNode::BitOr(n) => (&n.meta, both(140, n)),
        IrNode::BitXor(n) => (&n.meta, both(141, n)),
        IrNode::LeftShift(n) => (&n.meta, both(142, n)),
        IrNode::RightShift(n) => (&n.meta, both(143, n)),
        IrNode::SumOverArray(n) => (&n.meta, sum(n)),
    };
    // Not stored, because it is always Little.
    assert_eq!(meta.endianness, Endianness::Little);
    Node {
        at: 0,
        align: meta.alignment,
        text: meta.size_expr.clone(),
        body,
    }
}

fn both(kind: u16, n: &BinaryOpNode) -> Body {
    Body::Two(kind, Box::new(node(&n.left)), Box::new(node(&n.right)))
}

fn sum(n: &SumOverArrayNode) -> Body {
    let count = Box::new(node(&n.count));
    Body::Sum(count, n.element_type_name.clone(), n.field_name.clone())
}

fn switch(n: &SwitchNode) -> Body {
    let case = |c: &SwitchCase| Case {
        tag: c.tag_value,
        node: node(&c.node),
        params: c.parameters.iter().map(param).collect(),
    };
    let cases = n.cases.iter().map(case).collect();
    let default = n.default.as_ref().map(|n| Box::new(node(n)));
    Body::Switch(n.tag.clone(), cases, default)
}

fn call(n: &CallNestedNode) -> Body {
    let argument = |a: &IrArgument| Argument {
        at: 0,
        name: a.name.clone(),
        value: a.value.clone(),
    };
    Body::Call(
        n.type_name.clone(),
        n.arguments.iter().map(argument).collect(),
    )
}
