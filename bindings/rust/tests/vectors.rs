//! Every stored vector of crates/rows/data/vectors through this crate (tools/rules_model.py says how a record is laid out).
//! An answer is twelve numbers, with a sum over all that was lent, used or not. Beside that each tree that comes out is
//! walked and its key written from what the walk meets: it must be the key. And buffers by need are always enough.
use typekey::*;

const PRIME: u64 = 4_294_967_291;

fn more(sum: u64, x: u64) -> u64 {
    (sum * 1_000_003 + x) % PRIME
}

fn of_words(words: &[u64]) -> u64 {
    words.iter().fold(1, |sum, w| more(more(sum, w & 0xFFFF_FFFF), w >> 32))
}

fn of_bytes(bytes: &[u8]) -> u64 {
    bytes.iter().fold(1, |sum, b| more(sum, *b as u64))
}

/// Bits, the highest first, and at the end filled up with zeros.
#[derive(Default)]
struct Bits(Vec<u8>, usize);

impl Bits {
    fn put(&mut self, width: u8, value: u64) {
        for i in (0..width).rev() {
            if self.1.is_multiple_of(8) {
                self.0.push(0);
            }
            *self.0.last_mut().unwrap() |= ((value >> i & 1) as u8) << (7 - self.1 % 8);
            self.1 += 1;
        }
    }

    fn node(&mut self, node: Node) {
        if let Some(tag) = node.tag.number() {
            self.put(6, tag as u64);
        }
        if let Some(sort) = node.tag.sort() {
            self.put(3, sort as u64);
        }
        for field in node.fields() {
            match field.value {
                Value::Number { bits, is } => self.put(bits, is as u64),
                Value::Name(name) => {
                    self.put(16, name.len() as u64);
                    name.iter().for_each(|b| self.put(8, *b as u64));
                }
                Value::Node(child) => self.node(child),
            }
        }
    }
}

fn written(tree: Tree) -> Vec<u8> {
    let mut bits = Bits::default();
    bits.put(4, 1);
    bits.node(tree.root());
    bits.0
}

/// The walk by `walk` meets the nodes that `children` gives, at their depths.
fn walks(tree: Tree) -> bool {
    fn listed(node: Node, depth: usize, all: &mut Vec<(usize, Tag)>) {
        all.push((depth, node.tag));
        node.children().for_each(|c| listed(c, depth + 1, all));
    }
    let mut all = Vec::new();
    listed(tree.root(), 0, &mut all);
    all.len() == tree.size() && tree.walk().map(|(depth, n)| (depth, n.tag)).eq(all)
}

fn told(refusal: Refusal) -> [u64; 8] {
    let number = refusal.why.number() as u64;
    match refusal.place {
        Place::Token { token, half, byte } => [number, token as u64, half as u64, byte as u64, 0, 0, 0, 0],
        Place::Bit(bit) => [number, bit as u64, 0, 0, 0, 0, 0, 0],
        Place::Key { side, bit } => [number, side as u64, bit as u64, 0, 0, 0, 0, 0],
    }
}

/// A record's numbers and the bytes after them.
struct Record<'a> {
    op: u8,
    n: [usize; 20],
    rest: &'a [u8],
}

/// Dirty memory for all records.
struct Room {
    words: [Vec<u64>; 3],
    bytes: Vec<u8>,
    others: Buffers,
}

impl Room {
    fn lent(&mut self, lengths: [usize; 3], bytes: usize) -> Lent<'_> {
        let [nodes, names, notes] = &mut self.words;
        let lent = Lent {
            nodes: &mut nodes[..lengths[0]],
            names: &mut names[..lengths[1]],
            notes: &mut notes[..lengths[2]],
            bytes: &mut self.bytes[..bytes],
        };
        lent.nodes.fill(u64::MAX);
        lent.names.fill(u64::MAX);
        lent.notes.fill(u64::MAX);
        lent.bytes.fill(u8::MAX);
        lent
    }

    fn sums(&self, lengths: [usize; 3], bytes: usize) -> [u64; 4] {
        let of = |i: usize| of_words(&self.words[i][..lengths[i]]);
        [of(0), of(1), of(2), of_bytes(&self.bytes[..bytes])]
    }

    /// The twelve numbers of a record that reads, and whether the tree has the key, as read and as taken back, by need too.
    fn reads(&mut self, r: &Record) -> ([u64; 12], bool) {
        let [start, text, count, nodes, names, notes, key, ..] = r.n;
        let (text, tokens) = r.rest.split_at(text);
        let tokens: Vec<u64> = tokens.chunks_exact(8).map(|b| u64::from_le_bytes(b.try_into().unwrap())).collect();
        assert_eq!(tokens.len(), count);
        let options = Options { start, preserve_parens: r.op & 1 == 1 };
        let by_need = read(text, &tokens, options, &mut self.others).map_err(|e| e.why);
        let enough = !matches!(by_need, Err(Why::NoRoom | Why::NoSpace));
        let (answer, good) = match read_into(text, &tokens, options, self.lent([nodes, names, notes], key)) {
            Err(refusal) => (told(refusal), enough),
            Ok(r) => {
                let (end, key) = (r.end, r.key.to_vec());
                let (nodes, names, notes) = (r.tree.size(), r.tree.names(), r.notes().len());
                let counts = [0, nodes, names, notes, key.len(), end.token, end.half as usize, r.entered];
                let good = written(r.tree) == key && walks(r.tree) && r.tree.root().span().end <= text.len();
                let good = good && r.entered <= 16 * count;
                let back = take_back(&key, &mut self.others).unwrap();
                (counts.map(|n| n as u64), enough && good && written(back) == key)
            }
        };
        let [a, b, c, d, e, f, g, h] = answer;
        let [i, j, k, l] = self.sums([nodes, names, notes], key);
        ([a, b, c, d, e, f, g, h, i, j, k, l], good)
    }

    /// The same of a record that takes a key back.
    fn takes(&mut self, r: &Record) -> ([u64; 12], bool) {
        let [_, _, _, nodes, names, _, _, letters, ..] = r.n;
        let (answer, good) = match take_back_into(r.rest, self.lent([nodes, names, 0], letters)) {
            Err(refusal) => (told(refusal), true),
            Ok(tree) => {
                let counts = [0, tree.size(), tree.names(), tree.text().len(), 0, 0, 0, 0].map(|n| n as u64);
                (counts, written(tree) == r.rest && walks(tree))
            }
        };
        let [a, b, c, d, e, f, g, h] = answer;
        let [i, j, _, k] = self.sums([nodes, names, 0], letters);
        ([a, b, c, d, e, f, g, h, i, j, k, 0], good)
    }
}

#[test]
fn stored_vectors() {
    let path = concat!(env!("CARGO_MANIFEST_DIR"), "/../../crates/rows/data/vectors");
    let file = std::fs::read(path).unwrap_or_else(|e| panic!("{path}: {e}"));
    let (mut rest, mut run, mut different) = (&file[..], 0, 0);
    let mut room = Room {
        words: [vec![0; 838_860], vec![0; 16_385], vec![0; 212]],
        bytes: vec![0; 262_146],
        others: Buffers::default(),
    };
    while !rest.is_empty() {
        let (op, n): (u8, Vec<usize>) = (
            rest[0],
            rest[1..81].chunks_exact(4).map(|b| u32::from_le_bytes(b.try_into().unwrap()) as usize).collect(),
        );
        let n: [usize; 20] = n.try_into().unwrap();
        let length = if op < 4 { n[1] + 8 * n[2] } else { n[6] };
        let record = Record { op, n, rest: &rest[81..81 + length] };
        let (got, good) = if op < 4 { room.reads(&record) } else { room.takes(&record) };
        if got[..] != n[8..].iter().map(|n| *n as u64).collect::<Vec<_>>() || !good {
            println!("record {run}: {got:?}, wanted {:?}, trees and room: {good}", &n[8..]);
            different += 1;
        }
        run += 1;
        rest = &rest[81 + length..];
    }
    println!("{run} vectors, {different} different");
    assert!(run > 0 && different == 0);
}
