//! The key of a tree.
use crate::tree::{Form, Key, Member, MemberForm, Name, Node, Parameter, Signature, TypeParameter};

pub fn key(root: &Node, text: &[u8]) -> Vec<u8> {
    let mut w = Writer { text, key: Vec::with_capacity(text.len()), pending: 0, count: 0 };
    w.bits(1, 4);
    w.node(root);
    w.finish()
}

struct Writer<'a> {
    text: &'a [u8],
    key: Vec<u8>,
    /// The bits that do not fill a byte yet, lowest last.
    pending: u32,
    count: u32,
}

impl Writer<'_> {
    fn bits(&mut self, value: u32, width: u32) {
        self.pending = self.pending << width | value;
        self.count += width;
        while self.count >= 8 {
            self.count -= 8;
            self.key.push((self.pending >> self.count) as u8);
        }
    }

    fn finish(mut self) -> Vec<u8> {
        if self.count > 0 {
            self.bits(0, 8 - self.count);
        }
        self.key
    }

    fn flag(&mut self, is: bool) {
        self.bits(is as u32, 1);
    }

    fn count(&mut self, n: usize) {
        self.bits(n as u32, 12);
    }

    fn name(&mut self, name: Name) {
        self.bits(name.len, 16);
        let bytes = &self.text[name.start as usize..][..name.len as usize];
        if self.count == 0 {
            self.key.extend_from_slice(bytes);
        } else {
            let (begun, over) = (self.pending as u8, self.count);
            self.key.push(begun << (8 - over) | bytes[0] >> over);
            self.key.extend(bytes.windows(2).map(|two| two[0] << (8 - over) | two[1] >> over));
            self.pending = bytes[bytes.len() - 1] as u32;
        }
    }

    fn names(&mut self, names: &[Name]) {
        self.count(names.len());
        for &name in names {
            self.name(name);
        }
    }

    fn nodes(&mut self, nodes: &[Node]) {
        self.count(nodes.len());
        for node in nodes {
            self.node(node);
        }
    }

    fn opt(&mut self, node: Option<&Node>) {
        self.flag(node.is_some());
        if let Some(node) = node {
            self.node(node);
        }
    }

    fn arguments(&mut self, arguments: Option<&Vec<Node>>) {
        self.flag(arguments.is_some());
        if let Some(nodes) = arguments {
            self.nodes(nodes);
        }
    }

    fn type_parameters(&mut self, all: Option<&Vec<TypeParameter>>) {
        self.flag(all.is_some());
        let Some(all) = all else { return };
        self.count(all.len());
        for p in all {
            self.name(p.name);
            self.opt(p.constraint.as_ref());
            self.opt(p.default.as_ref());
        }
    }

    fn parameters(&mut self, all: &[Parameter]) {
        self.count(all.len());
        for p in all {
            self.flag(p.rest);
            self.name(p.name);
            self.flag(p.optional);
            self.opt(p.ty.as_ref());
        }
    }

    fn member_key(&mut self, key: Key, optional: bool) {
        self.bits(key.sort as u32, 2);
        self.name(key.name);
        self.flag(optional);
    }

    fn signature(&mut self, s: &Signature, has_this: bool) {
        self.type_parameters(s.type_parameters.as_ref());
        if has_this {
            self.flag(s.this.is_some());
            if let Some(ty) = &s.this {
                self.opt(ty.as_ref());
            }
        }
        self.parameters(&s.parameters);
        self.opt(s.returns.as_ref());
    }

    fn member(&mut self, member: &Member) {
        match &member.form {
            MemberForm::Property(readonly, key, optional, ty) => {
                self.bits(0, 3);
                self.flag(*readonly);
                self.member_key(*key, *optional);
                self.opt(ty.as_ref());
            }
            MemberForm::Method(key, optional, s) => {
                self.bits(1, 3);
                self.member_key(*key, *optional);
                self.signature(s, true);
            }
            MemberForm::Call(s) => {
                self.bits(2, 3);
                self.signature(s, true);
            }
            MemberForm::Construct(s) => {
                self.bits(3, 3);
                self.signature(s, false);
            }
            MemberForm::Index(readonly, parameter, ty) => {
                self.bits(4, 3);
                self.flag(*readonly);
                self.flag(parameter.is_some());
                if let Some(p) = parameter {
                    self.name(p.0);
                    self.node(&p.1);
                }
                self.node(ty);
            }
        }
    }

    fn node(&mut self, node: &Node) {
        match &node.form {
            Form::Reference(names, arguments) => {
                self.bits(1, 6);
                self.names(names);
                self.arguments(arguments.as_ref());
            }
            Form::Keyword(which) => {
                self.bits(2, 6);
                self.bits(*which as u32, 4);
            }
            Form::Literal(which, spelling) => {
                self.bits(3, 6);
                self.bits(*which as u32, 3);
                if let Some(name) = spelling {
                    self.name(*name);
                }
            }
            Form::Parens(of) => self.over(4, of),
            Form::Union(parts) => self.list(5, parts),
            Form::Intersection(parts) => self.list(6, parts),
            Form::Array(of) => self.over(7, of),
            Form::Indexed(two) => {
                self.bits(8, 6);
                two.iter().for_each(|n| self.node(n));
            }
            Form::Conditional(four) => {
                self.bits(9, 6);
                four.iter().for_each(|n| self.node(n));
            }
            Form::Infer(name, constraint) => {
                self.bits(10, 6);
                self.name(*name);
                self.opt(constraint.as_deref());
            }
            Form::Operator(which, of) => {
                self.bits(11, 6);
                self.bits(*which as u32, 2);
                self.node(of);
            }
            Form::Function(f) => {
                self.bits(12, 6);
                self.type_parameters(f.type_parameters.as_ref());
                self.flag(f.this.is_some());
                if let Some(ty) = &f.this {
                    self.opt(ty.as_ref());
                }
                self.parameters(&f.parameters);
                self.node(&f.returns);
            }
            Form::Constructor(f) => {
                self.bits(13, 6);
                self.flag(f.is_abstract);
                self.type_parameters(f.type_parameters.as_ref());
                self.parameters(&f.parameters);
                self.node(&f.returns);
            }
            Form::Mapped(m) => {
                self.bits(14, 6);
                self.bits(m.readonly as u32, 2);
                self.name(m.key);
                self.node(&m.constraint);
                self.opt(m.name_type.as_ref());
                self.bits(m.question as u32, 2);
                self.opt(m.ty.as_ref());
            }
            Form::Template(names, types) => {
                self.bits(15, 6);
                self.count(types.len());
                self.name(names[0]);
                for (node, &name) in types.iter().zip(&names[1..]) {
                    self.node(node);
                    self.name(name);
                }
            }
            Form::Predicate(p) => {
                self.bits(16, 6);
                self.flag(p.asserts);
                self.flag(p.name.is_none());
                if let Some(name) = p.name {
                    self.name(name);
                }
                self.opt(p.ty.as_ref());
            }
            Form::Typeof(names, arguments) => {
                self.bits(17, 6);
                self.names(names);
                self.arguments(arguments.as_ref());
            }
            Form::Import(i) => {
                self.bits(18, 6);
                self.flag(i.is_typeof);
                self.name(i.source);
                self.names(&i.names);
                self.arguments(i.arguments.as_ref());
            }
            Form::Tuple(elements) => self.list(19, elements),
            Form::Optional(of) => self.over(20, of),
            Form::Rest(of) => self.over(21, of),
            Form::Named(name, optional, of) => {
                self.bits(22, 6);
                self.name(*name);
                self.flag(*optional);
                self.node(of);
            }
            Form::NonNull(of) => self.over(23, of),
            Form::Question(of) => self.over(24, of),
            Form::Object(members) => {
                self.bits(25, 6);
                self.count(members.len());
                members.iter().for_each(|m| self.member(m));
            }
        }
    }

    fn over(&mut self, tag: u32, of: &Node) {
        self.bits(tag, 6);
        self.node(of);
    }

    fn list(&mut self, tag: u32, nodes: &[Node]) {
        self.bits(tag, 6);
        self.nodes(nodes);
    }
}
