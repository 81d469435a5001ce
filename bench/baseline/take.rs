//! A key that comes in is read into a tree again.
use crate::tree::{
    Constructor, Form, Function, Import, Key, Mapped, Member, MemberForm, Name, Node, Parameter, Predicate, Signature, Span,
    TALLEST, TypeParameter,
};

const MOST_BYTES: usize = 262_144;

/// A tree and the text that its names are in.
pub struct Taken {
    pub root: Node,
    pub text: Vec<u8>,
}

#[derive(Clone, Copy, PartialEq, Debug)]
pub struct BadKey {
    pub number: u64,
    pub bit: usize,
}

type Take<T> = Result<T, BadKey>;

pub fn take_back(key: &[u8]) -> Take<Taken> {
    if key.len() > MOST_BYTES {
        return Err(BadKey { number: 10, bit: 0 });
    }
    let mut r = Reader { key, bit: 0, text: Vec::with_capacity(key.len()) };
    r.field(4, |edition| edition == 1)?;
    let root = r.node(Place::Type, 0)?;
    while r.bit % 8 != 0 {
        r.field(1, |bit| bit == 0)?;
    }
    if r.bit < 8 * key.len() {
        return r.bad(r.bit);
    }
    Ok(Taken { root, text: r.text })
}

/// Where a node stands, which says what tags it may have.
#[derive(Clone, Copy)]
enum Place {
    Type,
    Element,
    UnderRest,
    UnderName,
}

impl Place {
    fn allows(self, tag: u32) -> bool {
        match tag {
            1..=19 | 23..=25 => true,
            20 => matches!(self, Place::Element | Place::UnderName),
            21 => matches!(self, Place::Element | Place::UnderName),
            22 => matches!(self, Place::Element | Place::UnderRest),
            _ => false,
        }
    }
}

struct Reader<'a> {
    key: &'a [u8],
    bit: usize,
    text: Vec<u8>,
}

impl Reader<'_> {
    fn bad<T>(&self, bit: usize) -> Take<T> {
        Err(BadKey { number: 10, bit })
    }

    /// The next bits, 16 at most.
    fn field(&mut self, width: usize, good: impl Fn(u32) -> bool) -> Take<u32> {
        if self.bit + width > 8 * self.key.len() {
            return self.bad(self.bit);
        }
        let from = self.bit / 8;
        let mut window = 0;
        for i in 0..3 {
            window = window << 8 | self.key.get(from + i).copied().unwrap_or(0) as u32;
        }
        let value = window >> (24 - self.bit % 8 - width) & ((1 << width) - 1);
        if !good(value) {
            return self.bad(self.bit);
        }
        self.bit += width;
        Ok(value)
    }

    fn any(&mut self, width: usize) -> Take<u32> {
        self.field(width, |_| true)
    }

    fn flag(&mut self) -> Take<bool> {
        Ok(self.any(1)? == 1)
    }

    fn name(&mut self) -> Take<Name> {
        let bit = self.bit;
        let len = self.field(16, |n| n > 0)? as usize;
        if self.bit + 8 * len > 8 * self.key.len() {
            return self.bad(bit);
        }
        let start = self.text.len();
        let (from, skip) = (self.bit / 8, self.bit % 8);
        if skip == 0 {
            self.text.extend_from_slice(&self.key[from..from + len]);
        } else {
            self.text.extend(self.key[from..=from + len].windows(2).map(|two| two[0] << skip | two[1] >> (8 - skip)));
        }
        self.bit += 8 * len;
        Ok(Name { start: start as u32, len: len as u32 })
    }

    fn many<T>(&mut self, least: u32, mut one: impl FnMut(&mut Self) -> Take<T>) -> Take<Vec<T>> {
        let count = self.field(12, |n| n >= least)?;
        (0..count).map(|_| one(self)).collect()
    }

    fn opt<T>(&mut self, one: impl FnOnce(&mut Self) -> Take<T>) -> Take<Option<T>> {
        Ok(if self.flag()? { Some(one(self)?) } else { None })
    }

    fn deep(&self, bit: usize, above: u16) -> Take<()> {
        if above >= TALLEST { Err(BadKey { number: 6, bit }) } else { Ok(()) }
    }

    fn ty(&mut self, above: u16) -> Take<Node> {
        self.node(Place::Type, above + 1)
    }

    fn boxed(&mut self, place: Place, above: u16) -> Take<Box<Node>> {
        Ok(Box::new(self.node(place, above + 1)?))
    }

    fn arguments(&mut self, above: u16) -> Take<Option<Vec<Node>>> {
        self.opt(|r| r.many(0, |r| r.ty(above)))
    }

    fn type_parameter(&mut self, above: u16) -> Take<TypeParameter> {
        self.deep(self.bit, above)?;
        let name = self.name()?;
        let constraint = self.opt(|r| r.ty(above))?;
        let default = self.opt(|r| r.ty(above))?;
        Ok(TypeParameter { span: Span::default(), name, constraint, default })
    }

    fn parameter(&mut self, above: u16) -> Take<Parameter> {
        self.deep(self.bit, above)?;
        let rest = self.flag()?;
        let name = self.name()?;
        let optional = self.flag()?;
        let ty = self.opt(|r| r.ty(above))?;
        Ok(Parameter { span: Span::default(), rest, name, optional, ty })
    }

    fn type_parameters(&mut self, above: u16) -> Take<Option<Vec<TypeParameter>>> {
        self.opt(|r| r.many(0, |r| r.type_parameter(above + 1)))
    }

    fn parameters(&mut self, above: u16) -> Take<Vec<Parameter>> {
        self.many(0, |r| r.parameter(above + 1))
    }

    fn key(&mut self) -> Take<Key> {
        Ok(Key { sort: self.field(2, |n| n <= 2)? as u8, name: self.name()? })
    }

    fn signature(&mut self, above: u16, has_this: bool) -> Take<Box<Signature>> {
        let type_parameters = self.type_parameters(above)?;
        let this = if has_this { self.opt(|r| r.opt(|r| r.ty(above)))? } else { None };
        let parameters = self.parameters(above)?;
        let returns = self.opt(|r| r.ty(above))?;
        Ok(Box::new(Signature { type_parameters, this, parameters, returns }))
    }

    fn member(&mut self, above: u16) -> Take<Member> {
        let bit = self.bit;
        let sort = self.field(3, |n| n <= 4)?;
        self.deep(bit, above)?;
        let form = match sort {
            0 => MemberForm::Property(self.flag()?, self.key()?, self.flag()?, self.opt(|r| r.ty(above))?),
            1 => MemberForm::Method(self.key()?, self.flag()?, self.signature(above, true)?),
            2 => MemberForm::Call(self.signature(above, true)?),
            3 => MemberForm::Construct(self.signature(above, false)?),
            _ => {
                let readonly = self.flag()?;
                let parameter = self.opt(|r| Ok(Box::new((r.name()?, r.ty(above)?))))?;
                MemberForm::Index(readonly, parameter, self.ty(above)?)
            }
        };
        Ok(Member { span: Span::default(), form })
    }

    fn node(&mut self, place: Place, above: u16) -> Take<Node> {
        let bit = self.bit;
        let tag = self.field(6, |tag| place.allows(tag))?;
        self.deep(bit, above)?;
        let form = match tag {
            1 => Form::Reference(self.many(1, Self::name)?, self.arguments(above)?),
            2 => Form::Keyword(self.field(4, |n| n <= 12)? as u8),
            3 => {
                let which = self.field(3, |n| n <= 6)? as u8;
                Form::Literal(which, if which == 3 || which == 4 { None } else { Some(self.name()?) })
            }
            4 => Form::Parens(self.boxed(Place::Type, above)?),
            5 => Form::Union(self.many(1, |r| r.ty(above))?),
            6 => Form::Intersection(self.many(1, |r| r.ty(above))?),
            7 => Form::Array(self.boxed(Place::Type, above)?),
            8 => Form::Indexed(Box::new([self.ty(above)?, self.ty(above)?])),
            9 => Form::Conditional(Box::new([self.ty(above)?, self.ty(above)?, self.ty(above)?, self.ty(above)?])),
            10 => Form::Infer(self.name()?, self.opt(|r| r.boxed(Place::Type, above))?),
            11 => Form::Operator(self.field(2, |n| n <= 2)? as u8, self.boxed(Place::Type, above)?),
            12 => {
                let type_parameters = self.type_parameters(above)?;
                let this = self.opt(|r| r.opt(|r| r.ty(above)))?;
                let parameters = self.parameters(above)?;
                let returns = self.ty(above)?;
                Form::Function(Box::new(Function { type_parameters, this, parameters, returns }))
            }
            13 => {
                let is_abstract = self.flag()?;
                let type_parameters = self.type_parameters(above)?;
                let parameters = self.parameters(above)?;
                let returns = self.ty(above)?;
                Form::Constructor(Box::new(Constructor { is_abstract, type_parameters, parameters, returns }))
            }
            14 => {
                let readonly = self.any(2)? as u8;
                let key = self.name()?;
                let constraint = self.ty(above)?;
                let name_type = self.opt(|r| r.ty(above))?;
                let question = self.any(2)? as u8;
                let ty = self.opt(|r| r.ty(above))?;
                Form::Mapped(Box::new(Mapped { readonly, key, constraint, name_type, question, ty }))
            }
            15 => {
                let count = self.any(12)?;
                let (mut names, mut types) = (vec![self.name()?], Vec::new());
                for _ in 0..count {
                    types.push(self.ty(above)?);
                    names.push(self.name()?);
                }
                Form::Template(names, types)
            }
            16 => {
                let asserts = self.flag()?;
                let name = if self.flag()? { None } else { Some(self.name()?) };
                let typed = self.field(1, |n| n == 1 || asserts)? == 1;
                let ty = if typed { Some(self.ty(above)?) } else { None };
                Form::Predicate(Box::new(Predicate { asserts, name, ty }))
            }
            17 => Form::Typeof(self.many(1, Self::name)?, self.arguments(above)?),
            18 => {
                let is_typeof = self.flag()?;
                let source = self.name()?;
                let names = self.many(0, Self::name)?;
                let arguments = self.arguments(above)?;
                Form::Import(Box::new(Import { is_typeof, source, names, arguments }))
            }
            19 => Form::Tuple(self.many(0, |r| r.node(Place::Element, above + 1))?),
            20 => Form::Optional(self.boxed(Place::Type, above)?),
            21 => Form::Rest(self.boxed(Place::UnderRest, above)?),
            22 => Form::Named(self.name()?, self.flag()?, self.boxed(Place::UnderName, above)?),
            23 => Form::NonNull(self.boxed(Place::Type, above)?),
            24 => Form::Question(self.boxed(Place::Type, above)?),
            _ => Form::Object(self.many(0, |r| r.member(above + 1))?),
        };
        Ok(Node { span: Span::default(), form })
    }
}
