//! The tree as it stands in the lent words, and ways through it in the key's order.
use core::fmt;
use core::ops::Range;

/// What a node is. The first 25 have their number in the key as discriminant. A type parameter and a parameter have none
/// there; the last five, members of object types, have a sort instead.
#[derive(Clone, Copy, Debug, PartialEq, Eq, Hash)]
#[repr(u8)]
#[allow(missing_docs)]
pub enum Tag {
    Reference = 1,
    Keyword,
    Literal,
    Parens,
    Union,
    Intersection,
    Array,
    Indexed,
    Conditional,
    Infer,
    Operator,
    Function,
    Constructor,
    Mapped,
    Template,
    Predicate,
    Typeof,
    Import,
    Tuple,
    Optional,
    Rest,
    Named,
    /// `A!`
    NonNull,
    /// `A?`
    Nullable,
    /// `{ a: A }`; its children are members.
    Object,
    TypeParameter,
    Parameter,
    /// `a: A`
    Property,
    /// `a(): A`
    Method,
    /// `(): A`
    CallSignature,
    /// `new (): A`
    ConstructSignature,
    /// `[k: string]: A`
    IndexSignature,
}

use Tag::*;

const TAGS: [(Tag, &str); 32] = [
    (Reference, "reference"),
    (Keyword, "keyword"),
    (Literal, "literal"),
    (Parens, "parens"),
    (Union, "union"),
    (Intersection, "intersection"),
    (Array, "array"),
    (Indexed, "indexed"),
    (Conditional, "conditional"),
    (Infer, "infer"),
    (Operator, "operator"),
    (Function, "function"),
    (Constructor, "constructor"),
    (Mapped, "mapped"),
    (Template, "template"),
    (Predicate, "predicate"),
    (Typeof, "typeof"),
    (Import, "import"),
    (Tuple, "tuple"),
    (Optional, "optional"),
    (Rest, "rest"),
    (Named, "named"),
    (NonNull, "non-null"),
    (Nullable, "nullable"),
    (Object, "object"),
    (TypeParameter, "type parameter"),
    (Parameter, "parameter"),
    (Property, "property"),
    (Method, "method"),
    (CallSignature, "call signature"),
    (ConstructSignature, "construct signature"),
    (IndexSignature, "index signature"),
];

// Members, by their sorts.
const MEMBERS: [Tag; 5] = [Property, Method, CallSignature, ConstructSignature, IndexSignature];

impl Tag {
    /// The tag's number in the key; a parameter, a type parameter and a member have none.
    pub const fn number(self) -> Option<u8> {
        if (self as u8) < TypeParameter as u8 { Some(self as u8) } else { None }
    }

    /// A member's sort, which it has in the key instead of a tag.
    pub const fn sort(self) -> Option<u8> {
        if self as u8 >= Property as u8 { Some(self as u8 - Property as u8) } else { None }
    }

    /// Its name in the node table.
    pub const fn name(self) -> &'static str {
        TAGS[self as usize - 1].1
    }
}

impl fmt::Display for Tag {
    fn fmt(&self, f: &mut fmt::Formatter) -> fmt::Result {
        f.pad(self.name())
    }
}

// ---- the node table: what a node holds behind its tag, in the key's order

#[derive(Clone, Copy)]
enum What {
    Bits(u8),
    Spelling,
    Type,
    OfTypeParameter,
    OfParameter,
    OfMember,
    // A type and a spelling.
    Both,
}

// How often, by the number before it.
#[derive(Clone, Copy)]
enum Times {
    Once,
    Said,
    IfZero,
    UnlessTrueOrFalse,
}

use Times::*;
use What::*;

type Part = (&'static str, What, Times);

fn times(part: Part, said: u16) -> u16 {
    match (part.2, part.1) {
        (Once, _) => 1,
        (Said, Both) => 2 * said,
        (Said, _) => said,
        (IfZero, _) => 1 - said,
        (UnlessTrueOrFalse, _) => (said != 3 && said != 4) as u16,
    }
}

fn row(tag: Tag) -> &'static [Part] {
    match tag {
        Reference | Typeof => &[
            ("names", Bits(12), Once),
            ("name", Spelling, Said),
            ("has arguments", Bits(1), Once),
            ("arguments", Bits(12), Said),
            ("argument", Type, Said),
        ],
        Keyword => &[("which", Bits(4), Once)],
        Literal => &[("which", Bits(3), Once), ("spelling", Spelling, UnlessTrueOrFalse)],
        Parens | Array | Optional | Rest | NonNull | Nullable => &[("type", Type, Once)],
        Union | Intersection => &[("types", Bits(12), Once), ("type", Type, Said)],
        Indexed => &[("type", Type, Once), ("index", Type, Once)],
        Conditional => &[("type", Type, Once), ("extends", Type, Once), ("first", Type, Once), ("second", Type, Once)],
        Infer => &[("name", Spelling, Once), ("has constraint", Bits(1), Once), ("constraint", Type, Said)],
        Operator => &[("which", Bits(2), Once), ("type", Type, Once)],
        Function => &[
            ("has type parameters", Bits(1), Once),
            ("type parameters", Bits(12), Said),
            ("type parameter", OfTypeParameter, Said),
            ("has this", Bits(1), Once),
            ("has this type", Bits(1), Said),
            ("this type", Type, Said),
            ("parameters", Bits(12), Once),
            ("parameter", OfParameter, Said),
            ("returns", Type, Once),
        ],
        Constructor => &[
            ("abstract", Bits(1), Once),
            ("has type parameters", Bits(1), Once),
            ("type parameters", Bits(12), Said),
            ("type parameter", OfTypeParameter, Said),
            ("parameters", Bits(12), Once),
            ("parameter", OfParameter, Said),
            ("returns", Type, Once),
        ],
        Mapped => &[
            ("readonly", Bits(2), Once),
            ("key", Spelling, Once),
            ("constraint", Type, Once),
            ("has name type", Bits(1), Once),
            ("name type", Type, Said),
            ("optional", Bits(2), Once),
            ("has type", Bits(1), Once),
            ("type", Type, Said),
        ],
        Template => &[("types", Bits(12), Once), ("piece", Spelling, Once), ("piece", Both, Said)],
        Predicate => &[
            ("asserts", Bits(1), Once),
            ("this", Bits(1), Once),
            ("name", Spelling, IfZero),
            ("has type", Bits(1), Once),
            ("type", Type, Said),
        ],
        Import => &[
            ("typeof", Bits(1), Once),
            ("source", Spelling, Once),
            ("names", Bits(12), Once),
            ("name", Spelling, Said),
            ("has arguments", Bits(1), Once),
            ("arguments", Bits(12), Said),
            ("argument", Type, Said),
        ],
        Tuple => &[("elements", Bits(12), Once), ("element", Type, Said)],
        Object => &[("members", Bits(12), Once), ("member", OfMember, Said)],
        Named => &[("label", Spelling, Once), ("optional", Bits(1), Once), ("type", Type, Once)],
        TypeParameter => &[
            ("name", Spelling, Once),
            ("has constraint", Bits(1), Once),
            ("constraint", Type, Said),
            ("has default", Bits(1), Once),
            ("default", Type, Said),
        ],
        Parameter => &[
            ("rest", Bits(1), Once),
            ("name", Spelling, Once),
            ("optional", Bits(1), Once),
            ("has type", Bits(1), Once),
            ("type", Type, Said),
        ],
        Property => &[
            ("readonly", Bits(1), Once),
            ("key sort", Bits(2), Once),
            ("key", Spelling, Once),
            ("optional", Bits(1), Once),
            ("has type", Bits(1), Once),
            ("type", Type, Said),
        ],
        Method => &[
            ("key sort", Bits(2), Once),
            ("key", Spelling, Once),
            ("optional", Bits(1), Once),
            ("has type parameters", Bits(1), Once),
            ("type parameters", Bits(12), Said),
            ("type parameter", OfTypeParameter, Said),
            ("has this", Bits(1), Once),
            ("has this type", Bits(1), Said),
            ("this type", Type, Said),
            ("parameters", Bits(12), Once),
            ("parameter", OfParameter, Said),
            ("has return type", Bits(1), Once),
            ("returns", Type, Said),
        ],
        CallSignature => &[
            ("has type parameters", Bits(1), Once),
            ("type parameters", Bits(12), Said),
            ("type parameter", OfTypeParameter, Said),
            ("has this", Bits(1), Once),
            ("has this type", Bits(1), Said),
            ("this type", Type, Said),
            ("parameters", Bits(12), Once),
            ("parameter", OfParameter, Said),
            ("has return type", Bits(1), Once),
            ("returns", Type, Said),
        ],
        ConstructSignature => &[
            ("has type parameters", Bits(1), Once),
            ("type parameters", Bits(12), Said),
            ("type parameter", OfTypeParameter, Said),
            ("parameters", Bits(12), Once),
            ("parameter", OfParameter, Said),
            ("has return type", Bits(1), Once),
            ("returns", Type, Said),
        ],
        IndexSignature => &[
            ("readonly", Bits(1), Once),
            ("has parameter", Bits(1), Once),
            ("name", Spelling, Said),
            ("index", Type, Said),
            ("type", Type, Once),
        ],
    }
}

// ---- trees and nodes

/// A tree that was read or taken back.
#[derive(Clone, Copy, Debug)]
pub struct Tree<'a> {
    text: &'a [u8],
    nodes: &'a [u64],
    names: &'a [u64],
}

impl<'a> Tree<'a> {
    pub(crate) fn new(text: &'a [u8], nodes: &'a [u64], names: &'a [u64]) -> Tree<'a> {
        Tree { text, nodes, names }
    }

    /// The text that the names are in. Of a key that was taken back: its spellings, one after the other.
    pub fn text(&self) -> &'a [u8] {
        self.text
    }

    /// How many nodes there are.
    pub fn size(&self) -> usize {
        self.nodes.len() / 4
    }

    /// How many names there are.
    pub fn names(&self) -> usize {
        self.names.len()
    }

    /// The type itself.
    pub fn root(&self) -> Node<'a> {
        self.node(self.size() as u32 - 1)
    }

    /// All nodes in the key's order, each before its children, with the number of nodes that it stands under.
    pub fn walk(&self) -> Walk<'a> {
        Walk { tree: *self, open: [Step::default(); 256], depth: 0, root: Some(self.root()) }
    }

    // A node that has a tag.
    fn node(&self, at: u32) -> Node<'a> {
        let tag = TAGS[(self.word(at, 0) & 63) as usize - 1].0;
        Node { tree: *self, at, tag }
    }

    // A member, which has a sort.
    fn member(&self, at: u32) -> Node<'a> {
        Node { tree: *self, at, tag: MEMBERS[(self.word(at, 0) & 7) as usize] }
    }

    fn word(&self, at: u32, which: usize) -> u64 {
        self.nodes[4 * at as usize + which]
    }

    fn name(&self, at: u32) -> &'a [u8] {
        let name = self.names[at as usize];
        &self.text[(name >> 32) as usize..][..name as u32 as usize]
    }

    // Whether a node has children: the node before it is then the last of them, and has no sibling after it.
    fn has_children(&self, at: u32) -> bool {
        at > 0 && self.word(at - 1, 3) == 0
    }

    // The number of the first name behind a type and all that it holds. Only a template has a name behind its last child.
    fn names_end(&self, at: u32) -> u32 {
        let (mut node, mut behind) = (self.node(at), 0);
        while self.has_children(node.at) {
            behind += (node.tag == Template) as u32;
            node = self.last_child(&node);
        }
        (self.word(node.at, 2) >> 32) as u32 + node.names().count() as u32 + behind
    }

    // The last child of a node that has one. Where it can be one without a tag, the fields say what it is.
    fn last_child(&self, node: &Node<'a>) -> Node<'a> {
        match node.tag {
            Object => self.member(node.at - 1),
            Method | CallSignature | ConstructSignature => node.children().last().unwrap(),
            _ => self.node(node.at - 1),
        }
    }
}

/// A node of a tree. It displays as its tag and span.
#[derive(Clone, Copy)]
pub struct Node<'a> {
    tree: Tree<'a>,
    at: u32,
    /// What it is.
    pub tag: Tag,
}

impl<'a> Node<'a> {
    /// Its bytes in the text; `0..0` where the tree was taken back.
    pub fn span(&self) -> Range<usize> {
        let span = self.tree.word(self.at, 1);
        span as u32 as usize..(span >> 32) as usize
    }

    /// All that it holds, in the key's order.
    pub fn fields(&self) -> impl Iterator<Item = Field<'a>> + use<'a> {
        let (tree, mut step) = (self.tree, Step::of(self));
        core::iter::from_fn(move || step.next(&tree))
    }

    /// The first field of a name.
    pub fn get(&self, name: &str) -> Option<Value<'a>> {
        self.fields().find(|f| f.name == name).map(|f| f.value)
    }

    /// Its names: the parts of a dotted name, a literal's spelling, a template's pieces, a member's key.
    pub fn names(&self) -> impl Iterator<Item = &'a [u8]> + use<'a> {
        self.fields().filter_map(|f| if let Value::Name(n) = f.value { Some(n) } else { None })
    }

    /// Its children.
    pub fn children(&self) -> impl Iterator<Item = Node<'a>> + use<'a> {
        self.fields().filter_map(|f| if let Value::Node(n) = f.value { Some(n) } else { None })
    }
}

impl fmt::Display for Node<'_> {
    fn fmt(&self, f: &mut fmt::Formatter) -> fmt::Result {
        write!(f, "{} {:?}", self.tag, self.span())
    }
}

impl fmt::Debug for Node<'_> {
    fn fmt(&self, f: &mut fmt::Formatter) -> fmt::Result {
        fmt::Display::fmt(self, f)
    }
}

/// One thing that a node holds.
#[derive(Clone, Copy, Debug)]
pub struct Field<'a> {
    /// What it is to the node, such as `returns` or `has type`.
    pub name: &'static str,
    /// What it holds.
    pub value: Value<'a>,
}

/// What a field holds.
#[derive(Clone, Copy, Debug)]
pub enum Value<'a> {
    /// A number of so many bits: a choice, a yes or no, or how many of the next field there are.
    Number {
        /// The bits that it has in the key.
        bits: u8,
        /// The number.
        is: u16,
    },
    /// A name or spelling.
    Name(&'a [u8]),
    /// A child.
    Node(Node<'a>),
}

// How far the fields of a node have been given.
#[derive(Clone, Copy)]
struct Step {
    at: u32,
    tag: Tag,
    part: u8,
    left: u16,
    said: u16,
    shift: u8,
    child: u32,
    name: u32,
}

impl Default for Step {
    fn default() -> Step {
        Step { at: 0, tag: Keyword, part: 0, left: 0, said: 0, shift: 0, child: 0, name: 0 }
    }
}

impl Step {
    fn of(node: &Node) -> Step {
        let links = node.tree.word(node.at, 2);
        let shift = match (node.tag.number(), node.tag.sort()) {
            (Some(_), _) => 6,
            (_, Some(_)) => 3,
            _ => 0,
        };
        Step { at: node.at, tag: node.tag, shift, child: links as u32, name: (links >> 32) as u32, ..Step::default() }
    }

    fn bits(&mut self, tree: &Tree, width: u8) -> u16 {
        let value = tree.word(self.at, 0) >> self.shift & ((1 << width) - 1);
        self.shift += width;
        value as u16
    }

    fn spelling<'a>(&mut self, tree: &Tree<'a>) -> Value<'a> {
        self.name += 1;
        Value::Name(tree.name(self.name - 1))
    }

    fn node<'a>(&mut self, tree: &Tree<'a>, untagged: Option<Tag>) -> Value<'a> {
        let at = self.child;
        self.child = tree.word(at, 3) as u32;
        Value::Node(match untagged {
            Some(tag) => Node { tree: *tree, at, tag },
            None => tree.node(at),
        })
    }

    fn next<'a>(&mut self, tree: &Tree<'a>) -> Option<Field<'a>> {
        let row = row(self.tag);
        while self.left == 0 {
            self.left = times(*row.get(self.part as usize)?, self.said);
            self.part += 1;
        }
        let (name, what, _) = row[self.part as usize - 1];
        self.left -= 1;
        let value = match what {
            Bits(bits) => {
                self.said = self.bits(tree, bits);
                Value::Number { bits, is: self.said }
            }
            Spelling => self.spelling(tree),
            Type => self.node(tree, None),
            OfTypeParameter => self.node(tree, Some(TypeParameter)),
            OfParameter => self.node(tree, Some(Parameter)),
            OfMember => self.node(tree, Some(tree.member(self.child).tag)),
            Both if self.left % 2 == 1 => {
                self.name = tree.names_end(self.child);
                return Some(Field { name: "type", value: self.node(tree, None) });
            }
            Both => self.spelling(tree),
        };
        Some(Field { name, value })
    }
}

/// The nodes of a tree in the key's order, each with the number of nodes that it stands under. See [`Tree::walk`].
#[derive(Clone)]
pub struct Walk<'a> {
    tree: Tree<'a>,
    open: [Step; 256],
    depth: usize,
    root: Option<Node<'a>>,
}

impl<'a> Iterator for Walk<'a> {
    type Item = (usize, Node<'a>);

    fn next(&mut self) -> Option<(usize, Node<'a>)> {
        let mut found = self.root.take();
        while found.is_none() {
            match self.open[..self.depth].last_mut()?.next(&self.tree) {
                Some(Field { value: Value::Node(node), .. }) => found = Some(node),
                Some(_) => (),
                None => self.depth -= 1,
            }
        }
        let node = found?;
        self.open[self.depth] = Step::of(&node);
        self.depth += 1;
        Some((self.depth - 1, node))
    }
}
