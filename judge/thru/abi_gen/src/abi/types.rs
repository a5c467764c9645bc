//! Stand-in: the names of the absent file that resolved.rs needs to compile.
//! A set is put into `TypeResolver::types` as it is, so none of them acts.

use super::expr::ExprKind;

#[derive(Debug, Clone, PartialEq)]
pub enum IntegralType {
    U8,
    U16,
    U32,
    U64,
    I8,
    I16,
    I32,
    I64,
    Char,
}

#[derive(Debug, Clone, PartialEq)]
pub enum FloatingPointType {
    F16,
    F32,
    F64,
}

#[derive(Debug, Clone, PartialEq)]
pub enum PrimitiveType {
    Integral(IntegralType),
    FloatingPoint(FloatingPointType),
}

#[derive(Debug, Clone, PartialEq)]
pub struct ValueFormat;

#[derive(Debug, Clone, PartialEq)]
pub struct ContainerAttributes {
    pub packed: bool,
    pub aligned: u64,
    pub comment: Option<String>,
}

#[derive(Debug, Clone, PartialEq)]
pub struct TypeDef {
    pub name: String,
    pub kind: TypeKind,
    pub format: Option<ValueFormat>,
}

#[derive(Debug, Clone, PartialEq)]
pub enum TypeKind {
    Primitive(PrimitiveType),
    Struct(StructType),
    Union(UnionType),
    Enum(EnumType),
    Array(ArrayType),
    SizeDiscriminatedUnion(SizeDiscriminatedUnionType),
    TypeRef(TypeRefType),
}

#[derive(Debug, Clone, PartialEq)]
pub struct StructField {
    pub name: String,
    pub field_type: TypeKind,
    pub format: Option<ValueFormat>,
}

#[derive(Debug, Clone, PartialEq)]
pub struct StructType {
    pub container_attributes: ContainerAttributes,
    pub fields: Vec<StructField>,
}

#[derive(Debug, Clone, PartialEq)]
pub struct UnionVariant {
    pub name: String,
    pub variant_type: TypeKind,
}

#[derive(Debug, Clone, PartialEq)]
pub struct UnionType {
    pub container_attributes: ContainerAttributes,
    pub variants: Vec<UnionVariant>,
}

#[derive(Debug, Clone, PartialEq)]
pub struct EnumVariant {
    pub name: String,
    pub tag_value: u64,
    pub variant_type: TypeKind,
}

#[derive(Debug, Clone, PartialEq)]
pub struct EnumType {
    pub container_attributes: ContainerAttributes,
    pub tag_ref: ExprKind,
    pub variants: Vec<EnumVariant>,
}

#[derive(Debug, Clone, PartialEq)]
pub struct ArrayType {
    pub container_attributes: ContainerAttributes,
    pub element_type: Box<TypeKind>,
    pub size: ExprKind,
    pub jagged: bool,
}

#[derive(Debug, Clone, PartialEq)]
pub struct SizeDiscriminatedVariant {
    pub name: String,
    pub expected_size: u64,
    pub variant_type: TypeKind,
}

#[derive(Debug, Clone, PartialEq)]
pub struct SizeDiscriminatedUnionType {
    pub container_attributes: ContainerAttributes,
    pub variants: Vec<SizeDiscriminatedVariant>,
}

#[derive(Debug, Clone, PartialEq)]
pub struct TypeRefType {
    pub name: String,
    pub comment: Option<String>,
}
