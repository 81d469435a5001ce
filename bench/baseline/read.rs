//! The readers, one for each rule.
use crate::token::*;
use crate::tree::{
    Constructor, Form, Function, Import, Key, LONGEST, Mapped, Member, MemberForm, Name, Node, Parameter, Predicate, Signature,
    Span, TALLEST, TypeParameter,
};

const MOST_OPEN: u32 = 64;
const MOST_NOTES: usize = 32;
const MOST_TRIALS: u32 = 4;

#[derive(Clone, Copy, PartialEq, Debug)]
pub struct Refusal {
    pub number: u64,
    pub token: usize,
    pub half: bool,
    pub byte: usize,
}

#[derive(Clone, Copy, PartialEq, Debug)]
pub struct Note {
    pub number: u64,
    pub span: (u32, u32),
    /// The latest optional element before the required one, of 4.
    pub other: Option<(u32, u32)>,
}

type Read<T> = Result<T, Refusal>;
/// A node and how high it is.
type Tall = (Node, u16);

pub fn read(text: &[u8], words: &[u64], start: usize, preserve_parens: bool) -> Read<(Node, Vec<Note>, usize)> {
    let mut r = Reader { text, words, at: start, half: false, preserve_parens, open: 0, trials: 0, notes: Vec::new() };
    let (root, _) = r.ty(true)?;
    Ok((root, r.notes, r.at))
}

struct Reader<'a> {
    text: &'a [u8],
    words: &'a [u64],
    at: usize,
    /// Whether the first `<` of the token at the cursor is used up.
    half: bool,
    preserve_parens: bool,
    open: u32,
    /// Constraints of infer that are tried now.
    trials: u32,
    notes: Vec<Note>,
}

impl Reader<'_> {
    // ---- the cursor ----

    fn token(&self) -> Token {
        Token(self.words[self.at])
    }

    fn token_at(&self, at: usize) -> Token {
        Token(self.words.get(at).copied().unwrap_or(0))
    }

    fn kind_at(&self, at: usize) -> u8 {
        self.token_at(at).kind()
    }

    fn kind(&self) -> u8 {
        match self.token().kind() {
            LESS_LESS if self.half => LESS,
            LESS_EQUAL if self.half => EQUAL,
            LESS_LESS_EQUAL if self.half => LESS_EQUAL,
            kind => kind,
        }
    }

    fn next_kind(&self) -> u8 {
        self.kind_at(self.at + 1)
    }

    fn next_is_on_line(&self, at: usize) -> bool {
        !self.token_at(at + 1).newline()
    }

    fn is_at(&self, kind: u8) -> bool {
        self.kind() == kind
    }

    fn on_line(&self) -> bool {
        self.half || !self.token().newline()
    }

    fn first(&self) -> u32 {
        self.token().start() as u32 + self.half as u32
    }

    /// The end byte of what was taken last.
    fn last(&self) -> u32 {
        if self.half { self.first() } else { Token(self.words[self.at - 1]).end() as u32 }
    }

    fn span_from(&self, first: u32) -> Span {
        Span { first, end: self.last() }
    }

    fn step(&mut self) {
        self.at += 1;
        self.half = false;
    }

    fn eat(&mut self, kind: u8) -> bool {
        let is = self.is_at(kind);
        if is {
            self.step();
        }
        is
    }

    fn expect(&mut self, kind: u8) -> Read<()> {
        if self.eat(kind) { Ok(()) } else { self.refuse(3) }
    }

    fn refuse<T>(&self, number: u64) -> Read<T> {
        Err(Refusal { number, token: self.at, half: self.half, byte: self.first() as usize })
    }

    fn note(&mut self, number: u64, first: u32, end: u32) -> Read<()> {
        self.note_both(number, (first, end), None)
    }

    fn note_both(&mut self, number: u64, span: (u32, u32), other: Option<(u32, u32)>) -> Read<()> {
        if self.notes.len() == MOST_NOTES {
            return self.refuse(9);
        }
        self.notes.push(Note { number, span, other });
        Ok(())
    }

    fn spelling(&mut self) -> Name {
        let token = self.token();
        self.step();
        Name { start: token.start() as u32, len: token.len() as u32 }
    }

    fn name(&mut self) -> Read<Name> {
        if is_name(self.kind()) { Ok(self.spelling()) } else { self.refuse(3) }
    }

    fn binding(&mut self) -> Read<Name> {
        if is_binding(self.kind()) { Ok(self.spelling()) } else { self.refuse(3) }
    }

    /// A binding word that becomes a type's name; 13 if a built-in type has it.
    fn bound(&mut self) -> Read<Name> {
        let (first, kind) = (self.first(), self.kind());
        let name = self.binding()?;
        if (ANY..=UNKNOWN).contains(&kind) {
            self.note(13, first, self.last())?;
        }
        Ok(name)
    }

    /// A node is checked once read: the length of its longest list, then its height.
    fn checked(&self, longest: usize, below: u16) -> Read<u16> {
        if longest > LONGEST {
            return self.refuse(7);
        }
        if below >= TALLEST {
            return self.refuse(6);
        }
        Ok(below + 1)
    }

    fn node(&self, first: u32, longest: usize, below: u16, form: Form) -> Read<Tall> {
        let height = self.checked(longest, below)?;
        Ok((Node { span: self.span_from(first), form }, height))
    }

    fn leaf(&self, first: u32, form: Form) -> Read<Tall> {
        self.node(first, 0, 0, form)
    }

    fn over(&self, first: u32, (of, height): Tall, form: fn(Box<Node>) -> Form) -> Read<Tall> {
        self.node(first, 0, height, form(Box::new(of)))
    }

    /// Entries up to a closing mark, which is taken, and the height of the highest.
    fn list<T>(&mut self, close: u8, mut entry: impl FnMut(&mut Self) -> Read<(T, u16)>) -> Read<(Vec<T>, u16)> {
        let (mut all, mut height) = (Vec::new(), 0);
        while !self.is_at(close) {
            let (one, h) = entry(self)?;
            all.push(one);
            height = height.max(h);
            if !self.is_at(close) {
                self.expect(COMMA)?;
            }
        }
        self.step();
        Ok((all, height))
    }

    // ---- looking ahead ----

    fn is_starter(&self, mut at: usize) -> bool {
        while self.kind_at(at) == LEFT_PAREN {
            at += 1;
            if self.kind_at(at) == RIGHT_PAREN {
                return true;
            }
        }
        match self.kind_at(at) {
            MINUS => matches!(self.kind_at(at + 1), NUMBER | BIGINT),
            kind => is_starter(kind),
        }
    }

    fn is_parameter_name(&self, at: usize) -> bool {
        let kind = self.kind_at(at);
        is_binding(kind) || kind == THIS
    }

    fn is_modified(&self, at: usize) -> bool {
        is_modifier(self.kind_at(at)) && self.is_parameter_name(at + 1) && self.next_is_on_line(at)
    }

    fn is_function_start(&self) -> bool {
        match self.kind() {
            LESS | NEW => true,
            ABSTRACT => self.next_kind() == NEW,
            LEFT_PAREN => {
                let mut at = self.at + 1;
                if matches!(self.kind_at(at), RIGHT_PAREN | DOTS) {
                    return true;
                }
                while self.is_modified(at) {
                    at += 1;
                }
                self.is_parameter_name(at)
                    && match self.kind_at(at + 1) {
                        COLON | COMMA | QUESTION | EQUAL => true,
                        RIGHT_PAREN => self.kind_at(at + 2) == ARROW,
                        _ => false,
                    }
            }
            _ => false,
        }
    }

    fn is_mapped_start(&self) -> bool {
        let past = |at| if self.kind_at(at) == EOF { at } else { at + 1 };
        let mut at = past(self.at);
        if matches!(self.kind_at(at), PLUS | MINUS) {
            return self.kind_at(past(at)) == READONLY;
        }
        if self.kind_at(at) == READONLY {
            at = past(at);
        }
        if self.kind_at(at) == LEFT_BRACKET {
            at = past(at);
        } else if is_name(self.kind_at(at)) {
            return false;
        }
        self.kind_at(past(at)) == IN
    }

    // ---- types ----

    fn ty(&mut self, conditionals: bool) -> Read<Tall> {
        if self.open == MOST_OPEN {
            return self.refuse(5);
        }
        self.open += 1;
        let t = if self.is_function_start() { self.function(conditionals)? } else { self.conditional(conditionals)? };
        self.open -= 1;
        Ok(t)
    }

    fn optional_type(&mut self, mark: u8, conditionals: bool) -> Read<(Option<Node>, u16)> {
        if !self.eat(mark) {
            return Ok((None, 0));
        }
        let (node, height) = self.ty(conditionals)?;
        Ok((Some(node), height))
    }

    fn conditional(&mut self, conditionals: bool) -> Read<Tall> {
        let first = self.first();
        let (ty, a) = self.union(conditionals)?;
        if !(conditionals && self.is_at(EXTENDS) && self.on_line()) {
            return Ok((ty, a));
        }
        self.step();
        let (extends, b) = self.ty(false)?;
        self.expect(QUESTION)?;
        let (yes, c) = self.ty(true)?;
        self.expect(COLON)?;
        let (no, d) = self.ty(true)?;
        self.node(first, 0, a.max(b).max(c).max(d), Form::Conditional(Box::new([ty, extends, yes, no])))
    }

    fn union(&mut self, conditionals: bool) -> Read<Tall> {
        self.joined(PIPE, Form::Union, |r| r.intersection(conditionals))
    }

    fn intersection(&mut self, conditionals: bool) -> Read<Tall> {
        self.joined(AND, Form::Intersection, |r| r.operator(conditionals))
    }

    fn joined(&mut self, mark: u8, form: fn(Vec<Node>) -> Form, part: impl Fn(&mut Self) -> Read<Tall>) -> Read<Tall> {
        let first = self.first();
        let led = self.eat(mark);
        let (node, mut height) = part(self)?;
        if !led && !self.is_at(mark) {
            return Ok((node, height));
        }
        let mut parts = vec![node];
        while self.eat(mark) {
            let (node, h) = part(self)?;
            parts.push(node);
            height = height.max(h);
        }
        self.node(first, parts.len(), height, form(parts))
    }

    fn operator(&mut self, conditionals: bool) -> Read<Tall> {
        let mut words = Vec::new();
        loop {
            let which = match self.kind() {
                KEYOF => 0,
                UNIQUE => 1,
                READONLY => 2,
                _ => break,
            };
            words.push((self.first(), which));
            self.step();
        }
        let mut t = if self.is_at(INFER) { self.infer(conditionals)? } else { self.postfix()? };
        for (first, which) in words.into_iter().rev() {
            t = self.node(first, 0, t.1, Form::Operator(which, Box::new(t.0)))?;
        }
        Ok(t)
    }

    fn infer(&mut self, conditionals: bool) -> Read<Tall> {
        let first = self.first();
        self.step();
        let name = self.bound()?;
        let (before, noted) = (self.at, self.notes.len());
        if conditionals && self.trials == MOST_TRIALS && self.is_at(EXTENDS) {
            return self.refuse(28);
        }
        self.trials += conditionals as u32;
        let (mut constraint, mut height) = self.optional_type(EXTENDS, false)?;
        self.trials -= conditionals as u32;
        if constraint.is_some() && conditionals && self.is_at(QUESTION) {
            (self.at, self.half) = (before, false);
            self.notes.truncate(noted);
            (constraint, height) = (None, 0);
        }
        self.node(first, 0, height, Form::Infer(name, constraint.map(Box::new)))
    }

    fn postfix(&mut self) -> Read<Tall> {
        let first = self.first();
        let mut t = self.primary()?;
        while self.on_line() {
            match self.kind() {
                NOT => {
                    self.step();
                    t = self.over(first, t, Form::NonNull)?;
                }
                QUESTION if !self.is_starter(self.at + 1) => {
                    self.step();
                    t = self.over(first, t, Form::Question)?;
                }
                LEFT_BRACKET => {
                    self.step();
                    if self.is_starter(self.at) {
                        let (index, height) = self.ty(true)?;
                        self.expect(RIGHT_BRACKET)?;
                        t = self.node(first, 0, t.1.max(height), Form::Indexed(Box::new([t.0, index])))?;
                    } else {
                        self.expect(RIGHT_BRACKET)?;
                        t = self.over(first, t, Form::Array)?;
                    }
                }
                _ => break,
            }
        }
        Ok(t)
    }

    fn primary(&mut self) -> Read<Tall> {
        let first = self.first();
        match self.kind() {
            kind @ ANY..=UNKNOWN if self.next_kind() != DOT => self.keyword(keyword(kind)),
            NULL => self.keyword(4),
            VOID => self.keyword(12),
            THIS => {
                if !(self.next_kind() == IS && self.next_is_on_line(self.at)) {
                    return self.keyword(9);
                }
                self.step();
                self.step();
                let (ty, height) = self.ty(true)?;
                self.predicate(first, false, None, Some(ty), height)
            }
            STRING => self.literal(0),
            NUMBER => self.literal(1),
            BIGINT => self.literal(2),
            TRUE => self.boolean(3),
            FALSE => self.boolean(4),
            MINUS if matches!(self.next_kind(), NUMBER | BIGINT) => {
                self.step();
                let which = if self.is_at(NUMBER) { 5 } else { 6 };
                let name = self.spelling();
                self.leaf(first, Form::Literal(which, Some(name)))
            }
            ASSERTS if is_name(self.next_kind()) && self.next_is_on_line(self.at) => {
                self.step();
                let this = self.is_at(THIS);
                let name = self.spelling();
                let (ty, height) = self.optional_type(IS, true)?;
                self.predicate(first, true, if this { None } else { Some(name) }, ty, height)
            }
            TYPEOF => {
                self.step();
                if self.is_at(IMPORT) { self.import(first, true) } else { self.dotted(first, Form::Typeof) }
            }
            IMPORT => self.import(first, false),
            LEFT_BRACE if self.is_mapped_start() => self.mapped(),
            LEFT_BRACE => self.object(),
            LEFT_BRACKET => self.tuple(),
            LEFT_PAREN => {
                self.step();
                let t = self.ty(true)?;
                self.expect(RIGHT_PAREN)?;
                if self.preserve_parens { self.over(first, t, Form::Parens) } else { Ok(t) }
            }
            TEMPLATE | TEMPLATE_HEAD => self.template(),
            QUESTION | NOT | STAR => self.refuse(20),
            kind if is_binding(kind) => self.dotted(first, Form::Reference),
            _ => self.refuse(3),
        }
    }

    fn keyword(&mut self, which: u8) -> Read<Tall> {
        let first = self.first();
        self.step();
        self.leaf(first, Form::Keyword(which))
    }

    fn literal(&mut self, which: u8) -> Read<Tall> {
        let first = self.first();
        let name = self.spelling();
        self.leaf(first, Form::Literal(which, Some(name)))
    }

    fn boolean(&mut self, which: u8) -> Read<Tall> {
        let first = self.first();
        self.step();
        self.leaf(first, Form::Literal(which, None))
    }

    fn predicate(&mut self, first: u32, asserts: bool, name: Option<Name>, ty: Option<Node>, height: u16) -> Read<Tall> {
        self.node(first, 0, height, Form::Predicate(Box::new(Predicate { asserts, name, ty })))
    }

    fn dotted(&mut self, first: u32, form: fn(Vec<Name>, Option<Vec<Node>>) -> Form) -> Read<Tall> {
        let mut names = vec![self.name()?];
        while self.eat(DOT) {
            names.push(self.name()?);
        }
        let (arguments, height) = self.arguments()?;
        let longest = names.len().max(arguments.as_ref().map_or(0, Vec::len));
        self.node(first, longest, height, form(names, arguments))
    }

    fn import(&mut self, first: u32, is_typeof: bool) -> Read<Tall> {
        self.step();
        self.expect(LEFT_PAREN)?;
        if !self.is_at(STRING) {
            return self.refuse(26);
        }
        let source = self.spelling();
        if self.is_at(COMMA) {
            return self.refuse(27);
        }
        self.expect(RIGHT_PAREN)?;
        let mut names = Vec::new();
        while self.eat(DOT) {
            names.push(self.name()?);
        }
        let (arguments, height) = self.arguments()?;
        let longest = names.len().max(arguments.as_ref().map_or(0, Vec::len));
        self.node(first, longest, height, Form::Import(Box::new(Import { is_typeof, source, names, arguments })))
    }

    fn arguments(&mut self) -> Read<(Option<Vec<Node>>, u16)> {
        let kind = self.token().kind();
        if !matches!(kind, LESS | LESS_LESS | LESS_EQUAL | LESS_LESS_EQUAL) || self.half || !self.on_line() {
            return Ok((None, 0));
        }
        let first = self.first();
        if kind == LESS {
            self.step();
        } else {
            self.half = true;
        }
        let (all, height) = self.list(GREATER, |r| r.ty(true))?;
        if all.is_empty() {
            self.note(2, first, self.last())?;
        }
        Ok((Some(all), height))
    }

    fn template(&mut self) -> Read<Tall> {
        let first = self.first();
        let whole = self.is_at(TEMPLATE);
        let (mut names, mut types, mut height) = (vec![self.spelling()], Vec::new(), 0);
        let mut done = whole;
        while !done {
            let (ty, h) = self.ty(true)?;
            types.push(ty);
            height = height.max(h);
            done = match self.kind() {
                TEMPLATE_MIDDLE => false,
                TEMPLATE_TAIL => true,
                _ => return self.refuse(3),
            };
            names.push(self.spelling());
        }
        self.node(first, types.len(), height, Form::Template(names, types))
    }

    /// 0 for none, 1 for the mark alone, 2 with `+`, 3 with `-`.
    fn signed(&mut self, mark: u8) -> Read<u8> {
        let sign = match self.kind() {
            PLUS => 2,
            MINUS => 3,
            kind => return Ok((kind == mark && self.eat(mark)) as u8),
        };
        self.step();
        self.expect(mark)?;
        Ok(sign)
    }

    fn mapped(&mut self) -> Read<Tall> {
        let first = self.first();
        self.step();
        let readonly = self.signed(READONLY)?;
        self.expect(LEFT_BRACKET)?;
        let key = self.binding()?;
        self.expect(IN)?;
        let (constraint, a) = self.ty(true)?;
        let (name_type, b) = self.optional_type(AS, true)?;
        self.expect(RIGHT_BRACKET)?;
        let question = self.signed(QUESTION)?;
        let (ty, c) = self.optional_type(COLON, true)?;
        self.eat(SEMICOLON);
        self.expect(RIGHT_BRACE)?;
        let mapped = Mapped { readonly, key, constraint, name_type, question, ty };
        self.node(first, 0, a.max(b).max(c), Form::Mapped(Box::new(mapped)))
    }

    // ---- objects ----

    fn object(&mut self) -> Read<Tall> {
        let first = self.first();
        self.step();
        let (mut all, mut height) = (Vec::new(), 0);
        while !self.is_at(RIGHT_BRACE) {
            let (member, h) = self.member()?;
            all.push(member);
            height = height.max(h);
        }
        self.step();
        self.node(first, all.len(), height, Form::Object(all))
    }

    /// Whether a key or a `[` follows the token here.
    fn is_before_key(&self) -> bool {
        let kind = self.next_kind();
        is_name(kind) || matches!(kind, STRING | NUMBER | LEFT_BRACKET)
    }

    fn is_accessor(&self) -> bool {
        let token = self.token();
        token.kind() == WORD && matches!(&self.text[token.start()..token.end()], b"get" | b"set") && self.is_before_key()
    }

    fn is_index_start(&self) -> bool {
        let (kind, after) = (self.next_kind(), self.kind_at(self.at + 2));
        if matches!(kind, DOTS | RIGHT_BRACKET) {
            return true;
        }
        if is_modifier(kind) || matches!(kind, IN | CONST) {
            if is_binding(after) {
                return true;
            }
        } else if !is_binding(kind) {
            return false;
        }
        match after {
            COLON | COMMA => true,
            QUESTION => matches!(self.kind_at(self.at + 3), COLON | COMMA | RIGHT_BRACKET),
            _ => false,
        }
    }

    fn member(&mut self) -> Read<(Member, u16)> {
        let first = self.first();
        if matches!(self.kind(), LEFT_PAREN | LESS) {
            return self.signature(first, false, MemberForm::Call);
        }
        if self.is_at(NEW) && matches!(self.next_kind(), LEFT_PAREN | LESS) {
            self.step();
            return self.signature(first, true, MemberForm::Construct);
        }
        let readonly = self.is_at(READONLY) && self.is_before_key() && self.next_is_on_line(self.at);
        if readonly {
            self.step();
        }
        let modified = is_modifier(self.kind()) && !self.is_at(READONLY) && self.is_before_key();
        if modified || self.is_accessor() || self.is_at(LEFT_BRACKET) && !self.is_index_start() {
            return self.refuse(31);
        }
        if self.is_at(LEFT_BRACKET) {
            return self.index(first, readonly);
        }
        let sort = match self.kind() {
            STRING => 1,
            NUMBER => 2,
            kind if is_name(kind) => 0,
            _ => return self.refuse(3),
        };
        let key = Key { sort, name: self.spelling() };
        let optional = self.eat(QUESTION);
        if matches!(self.kind(), LEFT_PAREN | LESS) {
            return self.signature(first, false, |s| MemberForm::Method(key, optional, s));
        }
        let (ty, height) = self.optional_type(COLON, true)?;
        self.made(first, 0, height, MemberForm::Property(readonly, key, optional, ty))
    }

    /// A member behind its end.
    fn made(&mut self, first: u32, longest: usize, below: u16, form: MemberForm) -> Read<(Member, u16)> {
        if !(self.eat(COMMA) || self.eat(SEMICOLON) || self.is_at(RIGHT_BRACE) || !self.on_line()) {
            return self.refuse(3);
        }
        let height = self.checked(longest, below)?;
        Ok((Member { span: self.span_from(first), form }, height))
    }

    fn signature(
        &mut self,
        first: u32,
        construct: bool,
        form: impl FnOnce(Box<Signature>) -> MemberForm,
    ) -> Read<(Member, u16)> {
        let (type_parameters, a) = if self.is_at(LESS) { self.type_parameters(true)? } else { (None, 0) };
        let (mut this, parameters, b) = self.parameters()?;
        if construct && let Some(this) = this.take() {
            self.note(3, this.span.first, this.span.end)?;
        }
        let (returns, c) = if self.eat(COLON) {
            let (node, height) = self.return_type()?;
            (Some(node), height)
        } else {
            (None, 0)
        };
        let longest = parameters.len().max(type_parameters.as_ref().map_or(0, Vec::len));
        let below = a.max(b).max(c).max(this.as_ref().map_or(0, |this| this.height));
        let signature = Signature { type_parameters, this: this.map(|this| this.ty), parameters, returns };
        self.made(first, longest, below, form(Box::new(signature)))
    }

    fn index(&mut self, first: u32, readonly: bool) -> Read<(Member, u16)> {
        self.step();
        let (mut kept, mut count, mut comma) = (None, 0, None);
        while !self.is_at(RIGHT_BRACKET) {
            let begin = self.first();
            let name = self.binding()?;
            if self.is_at(QUESTION) {
                self.note(8, self.first(), self.first() + 1)?;
                self.step();
            }
            self.expect(COLON)?;
            let (ty, height) = self.ty(true)?;
            count += 1;
            if count == 1 {
                kept = Some((name, ty, height, (begin, self.last())));
            }
            if !self.is_at(RIGHT_BRACKET) {
                let mark = self.first();
                self.expect(COMMA)?;
                comma = Some((mark, self.last()));
            } else {
                comma = None;
            }
        }
        if let Some((from, to)) = comma {
            self.note(9, from, to)?;
        }
        self.step();
        match &kept {
            Some((_, ty, _, (begin, end))) if count == 1 => match &ty.form {
                Form::Literal(..) => self.note(10, ty.span.first, ty.span.end)?,
                Form::Template(_, types) if types.is_empty() => self.note(10, ty.span.first, ty.span.end)?,
                Form::Keyword(which) if !matches!(which, 0 | 5 | 7 | 8 | 9) => self.note(11, *begin, *end)?,
                _ => {}
            },
            _ => self.note(12, first, self.last())?,
        }
        self.expect(COLON)?;
        let (ty, height) = self.ty(true)?;
        let below = height.max(kept.as_ref().map_or(0, |k| k.2));
        let parameter = kept.map(|(name, ty, ..)| Box::new((name, ty)));
        self.made(first, 0, below, MemberForm::Index(readonly, parameter, ty))
    }

    fn tuple(&mut self) -> Read<Tall> {
        let first = self.first();
        self.step();
        let mut latest = None;
        let (all, height) = self.list(RIGHT_BRACKET, |r| {
            let t = r.element()?;
            let optional = matches!(t.0.form, Form::Optional(_) | Form::Named(_, true, _));
            let span = (t.0.span.first, t.0.span.end);
            if latest.is_some() && !optional && !matches!(t.0.form, Form::Rest(_)) {
                r.note_both(4, span, latest)?;
            }
            if optional {
                latest = Some(span);
            }
            Ok(t)
        })?;
        self.node(first, all.len(), height, Form::Tuple(all))
    }

    fn element(&mut self) -> Read<Tall> {
        let first = self.first();
        let rest = self.eat(DOTS);
        let labelled = is_name(self.kind())
            && match self.next_kind() {
                COLON => true,
                QUESTION => self.kind_at(self.at + 2) == COLON,
                _ => false,
            };
        if labelled {
            return self.labelled(first, rest);
        }
        let (node, height) = self.ty(true)?;
        if rest { self.over(first, (node, height), Form::Rest) } else { Ok((optional(node).0, height)) }
    }

    fn labelled(&mut self, first: u32, rest: bool) -> Read<Tall> {
        let label = self.first();
        let name = self.spelling();
        let question = self.eat(QUESTION);
        self.expect(COLON)?;
        let behind = self.first();
        let dots = self.eat(DOTS);
        let (node, height) = self.ty(true)?;
        let end = self.last();
        let (node, asked) = optional(node);
        let named = self.node(label, 0, height, Form::Named(name, question, Box::new(node)))?;
        if dots {
            self.note(5, behind, end)?;
        }
        if asked {
            self.note(6, behind, end)?;
        }
        if !rest {
            return Ok(named);
        }
        if question {
            self.note(7, first, self.last())?;
        }
        self.over(first, named, Form::Rest)
    }

    // ---- functions ----

    fn function(&mut self, conditionals: bool) -> Read<Tall> {
        let first = self.first();
        let is_abstract = self.eat(ABSTRACT);
        let new = self.eat(NEW);
        let (type_parameters, a) = if self.is_at(LESS) { self.type_parameters(conditionals)? } else { (None, 0) };
        let (this, parameters, b) = self.parameters()?;
        self.expect(ARROW)?;
        let (returns, c) = self.return_type()?;
        let longest = parameters.len().max(type_parameters.as_ref().map_or(0, Vec::len));
        let below = a.max(b).max(c);
        if new {
            if let Some(this) = this {
                self.note(3, this.span.first, this.span.end)?;
            }
            let constructor = Constructor { is_abstract, type_parameters, parameters, returns };
            return self.node(first, longest, below, Form::Constructor(Box::new(constructor)));
        }
        let below = below.max(this.as_ref().map_or(0, |this| this.height));
        let function = Function { type_parameters, this: this.map(|this| this.ty), parameters, returns };
        self.node(first, longest, below, Form::Function(Box::new(function)))
    }

    fn type_parameters(&mut self, conditionals: bool) -> Read<(Option<Vec<TypeParameter>>, u16)> {
        let first = self.first();
        self.step();
        let (all, height) = self.list(GREATER, |r| r.type_parameter(conditionals))?;
        if all.is_empty() {
            self.note(1, first, self.last())?;
        }
        Ok((Some(all), height))
    }

    fn type_parameter(&mut self, conditionals: bool) -> Read<(TypeParameter, u16)> {
        match self.kind() {
            CONST | IN => return self.refuse(25),
            OUT if is_binding(self.next_kind()) => return self.refuse(25),
            _ => {}
        }
        let first = self.first();
        let name = self.bound()?;
        let (constraint, a) = self.optional_type(EXTENDS, conditionals)?;
        let (default, b) = self.optional_type(EQUAL, conditionals)?;
        let height = self.checked(0, a.max(b))?;
        Ok((TypeParameter { span: self.span_from(first), name, constraint, default }, height))
    }

    fn parameters(&mut self) -> Read<(Option<This>, Vec<Parameter>, u16)> {
        self.expect(LEFT_PAREN)?;
        let (mut this, mut all, mut height) = (None, Vec::new(), 0);
        while !self.is_at(RIGHT_PAREN) {
            if self.is_modified(self.at) {
                return self.refuse(21);
            }
            let mut rest = false;
            if self.is_at(THIS) {
                if this.is_some() || !all.is_empty() {
                    return self.refuse(23);
                }
                let first = self.first();
                self.step();
                let (ty, height) = self.optional_type(COLON, true)?;
                this = Some(This { span: self.span_from(first), ty, height });
            } else {
                let (parameter, h) = self.parameter()?;
                rest = parameter.rest;
                all.push(parameter);
                height = height.max(h);
            }
            match self.kind() {
                EQUAL => return self.refuse(22),
                RIGHT_PAREN => {}
                COMMA if rest => return self.refuse(24),
                _ => self.expect(COMMA)?,
            }
        }
        self.step();
        Ok((this, all, height))
    }

    fn parameter(&mut self) -> Read<(Parameter, u16)> {
        let first = self.first();
        let rest = self.eat(DOTS);
        if rest && self.is_at(THIS) {
            return self.refuse(23);
        }
        let name = self.binding()?;
        let optional = self.eat(QUESTION);
        let (ty, height) = self.optional_type(COLON, true)?;
        let height = self.checked(0, height)?;
        Ok((Parameter { span: self.span_from(first), rest, name, optional, ty }, height))
    }

    fn return_type(&mut self) -> Read<Tall> {
        if !(is_name(self.kind()) && self.next_kind() == IS && self.next_is_on_line(self.at)) {
            return self.ty(true);
        }
        let first = self.first();
        let this = self.is_at(THIS);
        let name = self.spelling();
        self.step();
        let (ty, height) = self.ty(true)?;
        self.predicate(first, false, if this { None } else { Some(name) }, Some(ty), height)
    }
}

/// A `this` parameter.
struct This {
    span: Span,
    ty: Option<Node>,
    height: u16,
}

/// The number of a keyword in its key: null, this and void stand among the others.
fn keyword(kind: u8) -> u8 {
    match kind - ANY {
        n @ 0..=3 => n,
        n @ 4..=7 => n + 1,
        n => n + 2,
    }
}

/// A `?` node becomes an optional element; and whether it was one.
fn optional(mut node: Node) -> (Node, bool) {
    match node.form {
        Form::Question(of) => {
            node.form = Form::Optional(of);
            (node, true)
        }
        _ => (node, false),
    }
}
