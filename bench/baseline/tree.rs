//! The tree of a type.

/// A spelling: a place in the text.
#[derive(Clone, Copy, Debug)]
pub struct Name {
    pub start: u32,
    pub len: u32,
}

#[derive(Clone, Copy, Debug, Default)]
pub struct Span {
    pub first: u32,
    pub end: u32,
}

#[derive(Debug)]
pub struct Node {
    pub span: Span,
    pub form: Form,
}

#[derive(Debug)]
pub enum Form {
    Reference(Vec<Name>, Option<Vec<Node>>),
    Keyword(u8),
    Literal(u8, Option<Name>),
    Parens(Box<Node>),
    Union(Vec<Node>),
    Intersection(Vec<Node>),
    Array(Box<Node>),
    Indexed(Box<[Node; 2]>),
    Conditional(Box<[Node; 4]>),
    Infer(Name, Option<Box<Node>>),
    Operator(u8, Box<Node>),
    Function(Box<Function>),
    Constructor(Box<Constructor>),
    Mapped(Box<Mapped>),
    Template(Vec<Name>, Vec<Node>),
    Predicate(Box<Predicate>),
    Typeof(Vec<Name>, Option<Vec<Node>>),
    Import(Box<Import>),
    Tuple(Vec<Node>),
    Optional(Box<Node>),
    Rest(Box<Node>),
    Named(Name, bool, Box<Node>),
    NonNull(Box<Node>),
    Question(Box<Node>),
    Object(Vec<Member>),
}

#[derive(Debug)]
pub struct Function {
    pub type_parameters: Option<Vec<TypeParameter>>,
    /// The `this` parameter, if there is one, and its type, if it has one.
    pub this: Option<Option<Node>>,
    pub parameters: Vec<Parameter>,
    pub returns: Node,
}

#[derive(Debug)]
pub struct Constructor {
    pub is_abstract: bool,
    pub type_parameters: Option<Vec<TypeParameter>>,
    pub parameters: Vec<Parameter>,
    pub returns: Node,
}

#[derive(Debug)]
pub struct TypeParameter {
    pub span: Span,
    pub name: Name,
    pub constraint: Option<Node>,
    pub default: Option<Node>,
}

#[derive(Debug)]
pub struct Parameter {
    pub span: Span,
    pub rest: bool,
    pub name: Name,
    pub optional: bool,
    pub ty: Option<Node>,
}

#[derive(Debug)]
pub struct Mapped {
    pub readonly: u8,
    pub key: Name,
    pub constraint: Node,
    pub name_type: Option<Node>,
    pub question: u8,
    pub ty: Option<Node>,
}

#[derive(Debug)]
pub struct Predicate {
    pub asserts: bool,
    /// None is `this`.
    pub name: Option<Name>,
    pub ty: Option<Node>,
}

#[derive(Debug)]
pub struct Import {
    pub is_typeof: bool,
    pub source: Name,
    pub names: Vec<Name>,
    pub arguments: Option<Vec<Node>>,
}

#[derive(Debug)]
pub struct Member {
    pub span: Span,
    pub form: MemberForm,
}

#[derive(Debug)]
pub enum MemberForm {
    /// Whether it is readonly, its key, whether it is optional.
    Property(bool, Key, bool, Option<Node>),
    Method(Key, bool, Box<Signature>),
    Call(Box<Signature>),
    Construct(Box<Signature>),
    /// Whether it is readonly, its parameter, its type.
    Index(bool, Option<Box<(Name, Node)>>, Node),
}

/// 0 for a name, 1 for a string, 2 for a number.
#[derive(Clone, Copy, Debug)]
pub struct Key {
    pub sort: u8,
    pub name: Name,
}

#[derive(Debug)]
pub struct Signature {
    pub type_parameters: Option<Vec<TypeParameter>>,
    pub this: Option<Option<Node>>,
    pub parameters: Vec<Parameter>,
    pub returns: Option<Node>,
}

pub const TALLEST: u16 = 256;
pub const LONGEST: usize = 4_095;
