//! Measures two calls of the library, and the parts of one, beside the plain Rust of baseline/, in processor time.
//!
//!     measure agree VECTORS       both beside the stored answers of the program rows
//!     measure parts FILE..        ns a token: check; check and read; the whole call that reads. ns a byte of key: key out; take back
//!     measure read FILE..         ns a token: the whole call that reads
//!     measure take FILE..         ns a byte of key: take back
//!     measure lend FILE..         ns a call, by how much is lent
//!     measure once PART SIDE FILE runs a part once, within the function `counted`, for a counter of instructions; SIDE is 0 for
//!                                 the library, 1 for Rust
//!
//! A file is token lists one after the other: the text's length and the number of words (4 bytes each, lowest first), the
//! text, the words (8 bytes each, lowest first). In memory the texts of a file stand side by side in one array and the words
//! in another; one set of buffers is lent to all calls, of which each call gets as much as the header says.
//! Tokens are counted without the Eof. All files and all sides are run in turn, round after round: printed are times, and
//! ratios of ours to the other. ROUNDS=n sets how many rounds.
//! The baseline runs twice: with the system's allocator, and with an arena that is empty again after each call.
mod arena;

use std::cell::RefCell;
use std::hint::black_box;

#[global_allocator]
static ALLOCATOR: arena::Allocator = arena::Allocator;

// ---- the library ----

// The parts of the call that reads: parts.sh makes them.
#[link(name = "parts", kind = "static")]
unsafe extern "C" {
    fn part_check(text: *const u8, text_len: u64, tokens: *const u64, token_count: u64, answer: *mut [u64; 8]);
    fn part_read(
        text: *const u8,
        text_len: u64,
        tokens: *const u64,
        token_count: u64,
        nodes: *mut u64,
        node_words: u64,
        names: *mut u64,
        name_words: u64,
        notes: *mut u64,
        note_words: u64,
        answer: *mut [u64; 8],
    );
    fn part_key(
        nodes: *const u64,
        node_words: u64,
        names: *const u64,
        name_words: u64,
        text: *const u8,
        text_len: u64,
        root: u64,
        key: *mut u8,
        key_bytes: u64,
        answer: *mut [u64; 8],
    );
}

#[link(name = "typekey", kind = "static")]
unsafe extern "C" {
    fn typekey_read(
        text: *const u8,
        text_len: u64,
        tokens: *const u64,
        token_count: u64,
        start: u64,
        options: u64,
        nodes: *mut u64,
        node_words: u64,
        names: *mut u64,
        name_words: u64,
        notes: *mut u64,
        note_words: u64,
        key: *mut u8,
        key_bytes: u64,
        answer: *mut [u64; 8],
    );
    fn typekey_take_back(
        key: *const u8,
        key_len: u64,
        nodes: *mut u64,
        node_words: u64,
        names: *mut u64,
        name_words: u64,
        text: *mut u8,
        text_bytes: u64,
        answer: *mut [u64; 8],
    );
}

/// What a call is lent: words for nodes, names and diagnostics, bytes for a key or a text.
#[derive(Clone, Copy)]
struct Rooms {
    nodes: usize,
    names: usize,
    notes: usize,
    bytes: usize,
}

impl Rooms {
    /// The header's bounds.
    fn to_read(text: usize, words: usize) -> Rooms {
        Rooms { nodes: 4 * words, names: words, notes: 160, bytes: text + 12 * words + 16 }
    }

    fn to_take(key: usize) -> Rooms {
        Rooms { nodes: 4 * (key + key / 3 + 1), names: key / 3 + 1, notes: 0, bytes: key }
    }

    fn in_all(self) -> usize {
        8 * (self.nodes + self.names + self.notes) + self.bytes
    }
}

const MOST_TO_READ: Rooms = Rooms { nodes: 65_536, names: 16_384, notes: 160, bytes: 262_144 };
const MOST_TO_TAKE: Rooms = Rooms { nodes: 1_398_108, names: 87_382, notes: 0, bytes: 262_144 };

struct Lent {
    nodes: Vec<u64>,
    names: Vec<u64>,
    notes: Vec<u64>,
    bytes: Vec<u8>,
}

impl Lent {
    fn new() -> Lent {
        let most = MOST_TO_TAKE;
        Lent { nodes: vec![!0; most.nodes], names: vec![!0; most.names], notes: vec![!0; 212], bytes: vec![255; most.bytes + 16] }
    }

    fn read(&mut self, text: &[u8], words: &[u64], start: usize, parens: bool, r: Rooms) -> [u64; 8] {
        let mut answer = [0; 8];
        let (nodes, names) = (&mut self.nodes[..r.nodes], &mut self.names[..r.names]);
        let (notes, key) = (&mut self.notes[..r.notes], &mut self.bytes[..r.bytes]);
        unsafe {
            typekey_read(
                text.as_ptr(),
                text.len() as u64,
                words.as_ptr(),
                words.len() as u64,
                start as u64,
                parens as u64,
                nodes.as_mut_ptr(),
                r.nodes as u64,
                names.as_mut_ptr(),
                r.names as u64,
                notes.as_mut_ptr(),
                r.notes as u64,
                key.as_mut_ptr(),
                r.bytes as u64,
                &mut answer,
            );
        }
        answer
    }

    fn take(&mut self, key: &[u8], r: Rooms) -> [u64; 8] {
        let mut answer = [0; 8];
        let (nodes, names, text) = (&mut self.nodes[..r.nodes], &mut self.names[..r.names], &mut self.bytes[..r.bytes]);
        unsafe {
            typekey_take_back(
                key.as_ptr(),
                key.len() as u64,
                nodes.as_mut_ptr(),
                r.nodes as u64,
                names.as_mut_ptr(),
                r.names as u64,
                text.as_mut_ptr(),
                r.bytes as u64,
                &mut answer,
            );
        }
        answer
    }

    /// Check and read, to the tree.
    fn tree(&mut self, text: &[u8], words: &[u64], r: Rooms) -> [u64; 8] {
        let mut answer = [0; 8];
        let (nodes, names, notes) = (&mut self.nodes[..r.nodes], &mut self.names[..r.names], &mut self.notes[..r.notes]);
        unsafe {
            part_read(
                text.as_ptr(),
                text.len() as u64,
                words.as_ptr(),
                words.len() as u64,
                nodes.as_mut_ptr(),
                r.nodes as u64,
                names.as_mut_ptr(),
                r.names as u64,
                notes.as_mut_ptr(),
                r.notes as u64,
                &mut answer,
            );
        }
        answer
    }

    /// Key out: how long the key is that was written.
    fn key(&mut self, nodes: &[u64], names: &[u64], text: &[u8], bytes: usize) -> usize {
        let (mut answer, key) = ([0; 8], &mut self.bytes[..bytes]);
        unsafe {
            part_key(
                nodes.as_ptr(),
                nodes.len() as u64,
                names.as_ptr(),
                names.len() as u64,
                text.as_ptr(),
                text.len() as u64,
                nodes.len() as u64 / 4 - 1,
                key.as_mut_ptr(),
                bytes as u64,
                &mut answer,
            );
        }
        answer[0] as usize
    }
}

/// The check alone.
fn check(text: &[u8], words: &[u64]) -> [u64; 8] {
    let mut answer = [0; 8];
    unsafe { part_check(text.as_ptr(), text.len() as u64, words.as_ptr(), words.len() as u64, &mut answer) };
    answer
}

// ---- files ----

/// The lists of a file: their texts side by side, their words side by side, and where each begins in both.
struct Lists {
    texts: Vec<u8>,
    words: Vec<u64>,
    begins: Vec<(usize, usize)>,
}

fn number(data: &[u8], at: usize) -> usize {
    u32::from_le_bytes(data[at..at + 4].try_into().unwrap()) as usize
}

fn words_of(data: &[u8]) -> impl Iterator<Item = u64> {
    data.chunks_exact(8).map(|w| u64::from_le_bytes(w.try_into().unwrap()))
}

impl Lists {
    fn load(name: &str) -> Lists {
        let data = std::fs::read(name).unwrap_or_else(|e| panic!("{name}: {e}"));
        let mut all = Lists { texts: Vec::new(), words: Vec::new(), begins: vec![(0, 0)] };
        let mut at = 0;
        while at < data.len() {
            let (text, words) = (number(&data, at), number(&data, at + 4));
            all.texts.extend(&data[at + 8..][..text]);
            all.words.extend(words_of(&data[at + 8 + text..][..8 * words]));
            all.begins.push((all.texts.len(), all.words.len()));
            at += 8 + text + 8 * words;
        }
        all
    }

    fn each(&self) -> impl Iterator<Item = (&[u8], &[u64])> {
        self.begins.windows(2).map(|b| (&self.texts[b[0].0..b[1].0], &self.words[b[0].1..b[1].1]))
    }

    fn count(&self) -> usize {
        self.begins.len() - 1
    }

    fn tokens(&self) -> usize {
        self.words.len() - self.count()
    }
}

/// The keys of the lists, side by side, with what each takes.
struct Keys {
    keys: Vec<u8>,
    ends: Vec<(usize, Rooms)>,
}

impl Keys {
    fn of(lists: &Lists, lent: &mut Lent) -> Keys {
        let mut all = Keys { keys: Vec::new(), ends: Vec::new() };
        for (text, words) in lists.each() {
            let a = lent.read(text, words, 0, false, Rooms::to_read(text.len(), words.len()));
            assert!(
                a[0] == 0 && a[5] as usize == words.len() - 1,
                "not read to its end: {:?} {a:?}",
                String::from_utf8_lossy(text)
            );
            let key = lent.bytes[..a[4] as usize].to_vec();
            let t = lent.take(&key, Rooms::to_take(key.len()));
            assert!(t[0] == 0, "not taken back");
            all.keys.extend(&key);
            all.ends
                .push((all.keys.len(), Rooms { nodes: 4 * t[1] as usize, names: t[2] as usize, notes: 0, bytes: t[3] as usize }));
        }
        all
    }

    fn each(&self) -> impl Iterator<Item = (&[u8], Rooms)> {
        let begins = std::iter::once(0).chain(self.ends.iter().map(|e| e.0));
        begins.zip(&self.ends).map(|(begin, &(end, rooms))| (&self.keys[begin..end], rooms))
    }
}

/// The trees of the lists, in the library's words, side by side, and in the baseline's form.
struct Trees {
    nodes: Vec<u64>,
    names: Vec<u64>,
    begins: Vec<(usize, usize)>,
    plain: Vec<baseline::tree::Node>,
}

impl Trees {
    fn of(lists: &Lists, keys: &Keys, lent: &mut Lent) -> Trees {
        let mut all = Trees { nodes: Vec::new(), names: Vec::new(), begins: vec![(0, 0)], plain: Vec::new() };
        for ((text, words), (key, _)) in lists.each().zip(keys.each()) {
            let r = Rooms::to_read(text.len(), words.len());
            let a = lent.tree(text, words, r);
            assert!(check(text, words)[0] == 0 && a[0] == 0, "not read");
            let (nodes, names) = (lent.nodes[..4 * a[1] as usize].to_vec(), lent.names[..a[2] as usize].to_vec());
            let n = lent.key(&nodes, &names, text, r.bytes);
            let Ok((root, _, _)) = baseline::tree(text, words, 0, false) else { panic!("not read") };
            assert!(&lent.bytes[..n] == key && baseline::key(&root, text) == key, "another key");
            all.nodes.extend(nodes);
            all.names.extend(names);
            all.begins.push((all.nodes.len(), all.names.len()));
            all.plain.push(root);
        }
        all
    }

    fn each(&self) -> impl Iterator<Item = (&[u64], &[u64])> {
        self.begins.windows(2).map(|b| (&self.nodes[b[0].0..b[1].0], &self.names[b[0].1..b[1].1]))
    }
}

// ---- time ----

#[repr(C)]
struct Timespec {
    seconds: i64,
    nanoseconds: i64,
}

unsafe extern "C" {
    fn clock_gettime(clock: i32, time: *mut Timespec) -> i32;
}

/// The processor time of this process so far, in ns.
fn now() -> f64 {
    let mut t = Timespec { seconds: 0, nanoseconds: 0 };
    unsafe { clock_gettime(2, &mut t) };
    t.seconds as f64 * 1e9 + t.nanoseconds as f64
}

fn time(turns: usize, all: &mut dyn FnMut()) -> f64 {
    let began = now();
    for _ in 0..turns {
        all();
    }
    now() - began
}

/// The one that so many quarters of them are below.
fn quartile(mut all: Vec<f64>, quarters: usize) -> f64 {
    all.sort_by(f64::total_cmp);
    all[all.len() * quarters / 4]
}

/// Jobs to be compared with one another, and how many turns of each a round has.
struct Group<'a> {
    turns: usize,
    jobs: Vec<Box<dyn FnMut() + 'a>>,
}

/// The time that a turn takes of each job, and the ratio of its group's first one to it. A round goes through all groups, and
/// begins in each with another job than the round before. Two rounds are not counted. Of the times it is the lower quartile,
/// since other work on the machine can only add to them; of the ratios it is the median.
fn compare(groups: &mut [Group]) -> Vec<Vec<(f64, f64)>> {
    compare_in(rounds(), groups)
}

fn rounds() -> usize {
    std::env::var("ROUNDS").ok().and_then(|n| n.parse().ok()).unwrap_or(41)
}

fn compare_in(rounds: usize, groups: &mut [Group]) -> Vec<Vec<(f64, f64)>> {
    let mut times: Vec<Vec<Vec<f64>>> = groups.iter().map(|g| vec![Vec::new(); g.jobs.len()]).collect();
    for round in 0..rounds + 2 {
        for (group, times) in groups.iter_mut().zip(&mut times) {
            let count = group.jobs.len();
            for i in (0..count).map(|i| (i + round) % count) {
                let t = time(group.turns, &mut group.jobs[i]) / group.turns as f64;
                if round >= 2 {
                    times[i].push(t);
                }
            }
        }
    }
    let ratio = |x: &[f64], y: &[f64]| quartile(x.iter().zip(y).map(|(x, y)| x / y).collect(), 2);
    times.iter().map(|g| g.iter().map(|t| (quartile(t.clone(), 1), ratio(&g[0], t))).collect()).collect()
}

/// So many turns that a round has about this many units.
fn turns(most: usize, units: usize) -> usize {
    (most / units).max(1)
}

fn short(name: &str) -> &str {
    name.rsplit('/').next().unwrap()
}

/// The three in one line, by so many units.
fn figures(units: usize, all: &[(f64, f64)]) -> String {
    let per = |i: usize| all[i].0 / units as f64;
    format!("ours {:.2} rust {:.2} ratio {:.2} arena {:.2} ratio {:.2}", per(0), per(1), all[1].1, per(2), all[2].1)
}

struct Set {
    name: String,
    lists: Lists,
    keys: Keys,
}

fn plain_read(text: &[u8], words: &[u64]) {
    drop(black_box(baseline::read(black_box(text), black_box(words), 0, false)));
}

fn reads<'a>(lists: &'a Lists, lent: &'a RefCell<Lent>) -> Group<'a> {
    let ours = || {
        let mut lent = lent.borrow_mut();
        for (text, words) in lists.each() {
            black_box(lent.read(black_box(text), black_box(words), 0, false, Rooms::to_read(text.len(), words.len())));
        }
    };
    let rust = || lists.each().for_each(|(text, words)| plain_read(text, words));
    let arena = || lists.each().for_each(|(text, words)| arena::within(|| plain_read(text, words)));
    Group { turns: turns(200_000, lists.tokens()), jobs: vec![Box::new(ours), Box::new(rust), Box::new(arena)] }
}

fn read(sets: &[Set], lent: &RefCell<Lent>) {
    let times = compare(&mut sets.iter().map(|set| reads(&set.lists, lent)).collect::<Vec<_>>());
    for (Set { name, lists, keys }, times) in sets.iter().zip(times) {
        let nodes: usize = keys.ends.iter().map(|e| e.1.nodes / 4).sum();
        let (count, tokens) = (lists.count(), lists.tokens());
        println!(
            "read {name} {} lists {count} tokens {tokens} text {} nodes {nodes}",
            figures(tokens, &times),
            lists.texts.len()
        );
    }
}

fn plain_take(key: &[u8]) {
    drop(black_box(baseline::take_back(black_box(key))));
}

fn takes<'a>(keys: &'a Keys, lent: &'a RefCell<Lent>) -> Group<'a> {
    let ours = || {
        let mut lent = lent.borrow_mut();
        for (key, _) in keys.each() {
            black_box(lent.take(black_box(key), Rooms::to_take(key.len())));
        }
    };
    let rust = || keys.each().for_each(|(key, _)| plain_take(key));
    let arena = || keys.each().for_each(|(key, _)| arena::within(|| plain_take(key)));
    Group { turns: turns(2_000_000, keys.keys.len()), jobs: vec![Box::new(ours), Box::new(rust), Box::new(arena)] }
}

fn take(sets: &[Set], lent: &RefCell<Lent>) {
    let times = compare(&mut sets.iter().map(|set| takes(&set.keys, lent)).collect::<Vec<_>>());
    for (Set { name, lists, keys }, times) in sets.iter().zip(times) {
        let bytes = keys.keys.len();
        println!("take {name} {} keys {} bytes {bytes}", figures(bytes, &times), lists.count());
    }
}

/// The parts in the order of PARTS, each on all lists: ours, Rust, Rust with an arena.
const PARTS: [&str; 5] = ["check", "tree", "key", "take", "read"];

fn part<'a>(name: &str, set: &'a Set, trees: &'a Trees, lent: &'a RefCell<Lent>) -> Group<'a> {
    let lists = &set.lists;
    let plain_tree = |text: &[u8], words: &[u64]| drop(black_box(baseline::tree(black_box(text), black_box(words), 0, false)));
    let plain_check = |text: &[u8], words: &[u64]| {
        let _ = black_box(baseline::check(black_box(text), black_box(words), 0));
    };
    let plain_key = |root: &baseline::tree::Node, text: &[u8]| drop(black_box(baseline::key(black_box(root), black_box(text))));
    let jobs: Vec<Box<dyn FnMut() + 'a>> = match name {
        "check" => vec![
            Box::new(|| {
                for (text, words) in lists.each() {
                    black_box(check(black_box(text), black_box(words)));
                }
            }),
            Box::new(move || lists.each().for_each(|(text, words)| plain_check(text, words))),
            Box::new(move || lists.each().for_each(|(text, words)| arena::within(|| plain_check(text, words)))),
        ],
        "tree" => vec![
            Box::new(|| {
                let mut lent = lent.borrow_mut();
                for (text, words) in lists.each() {
                    black_box(lent.tree(black_box(text), black_box(words), Rooms::to_read(text.len(), words.len())));
                }
            }),
            Box::new(move || lists.each().for_each(|(text, words)| plain_tree(text, words))),
            Box::new(move || lists.each().for_each(|(text, words)| arena::within(|| plain_tree(text, words)))),
        ],
        "key" => vec![
            Box::new(|| {
                let mut lent = lent.borrow_mut();
                for ((text, words), (nodes, names)) in lists.each().zip(trees.each()) {
                    let bytes = Rooms::to_read(text.len(), words.len()).bytes;
                    black_box(lent.key(black_box(nodes), black_box(names), black_box(text), bytes));
                }
            }),
            Box::new(move || lists.each().zip(&trees.plain).for_each(|((text, _), root)| plain_key(root, text))),
            Box::new(move || {
                lists.each().zip(&trees.plain).for_each(|((text, _), root)| arena::within(|| plain_key(root, text)))
            }),
        ],
        "take" => takes(&set.keys, lent).jobs,
        "read" => reads(lists, lent).jobs,
        _ => panic!("no part {name}"),
    };
    Group { turns: turns(40_000, lists.tokens()), jobs }
}

/// Rounds are short here, and five times as many.
fn parts(sets: &[Set], trees: &[Trees], lent: &RefCell<Lent>) {
    let each = || PARTS.iter().flat_map(|p| sets.iter().zip(trees).map(move |(set, trees)| (*p, set, trees)));
    let times = compare_in(5 * rounds(), &mut each().map(|(p, set, trees)| part(p, set, trees, lent)).collect::<Vec<_>>());
    for ((p, set, _), times) in each().zip(times) {
        let (tokens, bytes) = (set.lists.tokens(), set.keys.keys.len());
        let units = if matches!(p, "key" | "take") { bytes } else { tokens };
        let count = set.lists.count();
        println!("{p} {} {} lists {count} tokens {tokens} bytes {bytes}", set.name, figures(units, &times));
    }
}

/// The job, under a name that a counter of instructions can be told.
#[unsafe(no_mangle)]
#[inline(never)]
extern "C" fn counted(job: &mut Box<dyn FnMut() + '_>) {
    job();
}

/// What a call takes if it is lent just what it uses, what the header says, and all that any call can use, over the first
/// 300 lists; and what writing zeros to all that is lent takes alone.
fn lend(set: &Set, lent: &RefCell<Lent>) {
    let texts: Vec<_> = set.lists.each().take(300).collect();
    let taken: Vec<_> = set.keys.each().take(300).collect();
    for job in ["read", "take"] {
        let rooms: [Vec<Rooms>; 3] = match job {
            "read" => [
                taken.iter().map(|(key, r)| Rooms { notes: 160, bytes: key.len(), ..*r }).collect(),
                texts.iter().map(|(text, words)| Rooms::to_read(text.len(), words.len())).collect(),
                vec![MOST_TO_READ; texts.len()],
            ],
            _ => [
                taken.iter().map(|t| t.1).collect(),
                taken.iter().map(|t| Rooms::to_take(t.0.len())).collect(),
                vec![MOST_TO_TAKE; texts.len()],
            ],
        };
        let call = |way: usize| {
            let mut lent = lent.borrow_mut();
            for (i, &r) in rooms[way].iter().enumerate() {
                if job == "read" {
                    black_box(lent.read(black_box(texts[i].0), black_box(texts[i].1), 0, false, r));
                } else {
                    black_box(lent.take(black_box(taken[i].0), r));
                }
            }
        };
        let clear = |way: usize| {
            let mut lent = lent.borrow_mut();
            for r in &rooms[way] {
                black_box(&mut lent.nodes[..r.nodes]).fill(0);
                black_box(&mut lent.names[..r.names]).fill(0);
                black_box(&mut lent.notes[..r.notes]).fill(0);
                black_box(&mut lent.bytes[..r.bytes]).fill(0);
            }
        };
        let group =
            |way: usize| Group { turns: [20, 20, 1][way], jobs: vec![Box::new(move || call(way)), Box::new(move || clear(way))] };
        let times = compare(&mut [group(0), group(1), group(2)]);
        for (way, how) in ["exact", "header", "full"].iter().enumerate() {
            let per = |i: usize| times[way][i].0 / texts.len() as f64;
            let bytes = rooms[way].iter().map(|r| r.in_all()).sum::<usize>() / texts.len();
            println!("lend {job} {} {how} call {:.0} clear {:.0} bytes {bytes}", set.name, per(0), per(1));
        }
    }
}

// ---- agreement ----

const FACTOR: u64 = 1_000_003;
const PRIME: u64 = 4_294_967_291;

/// The sum that a record has of a lent key.
fn sum(key: &[u8], room: usize) -> u64 {
    let zeros = std::iter::repeat_n(&0, room - key.len());
    key.iter().chain(zeros).fold(1, |h, &b| (h * FACTOR + b as u64) % PRIME)
}

/// What the baseline answers, as the C interface has it, but for the counts of nodes and names; and its key.
fn plain(text: &[u8], words: &[u64], start: usize, parens: bool) -> ([u64; 5], Vec<u8>) {
    match baseline::read(text, words, start, parens) {
        Ok(r) => ([0, r.notes.len() as u64, r.key.len() as u64, r.end as u64, 0], r.key),
        Err(e) => ([e.number, e.token as u64, e.half as u64, e.byte as u64, 0], Vec::new()),
    }
}

fn alike(a: &[u64]) -> [u64; 5] {
    if a[0] == 0 { [0, a[3], a[4], a[5], a[6]] } else { [a[0], a[1], a[2], a[3], 0] }
}

/// Whether a number is a question of what was lent, which the baseline does not have.
fn asks_room(number: u64) -> bool {
    matches!(number, 8 | 9 | 11)
}

fn agree(name: &str, lent: &mut Lent) {
    let data = std::fs::read(name).unwrap_or_else(|e| panic!("{name}: {e}"));
    let mut at = 0;
    // texts and keys: all, ours as stored, the baseline as stored or as ours with more room, and how many of those are read or taken
    let mut figures = [[0usize; 5]; 2];
    while at < data.len() {
        let head: Vec<usize> = (0..20).map(|i| number(&data, at + 1 + 4 * i)).collect();
        let (op, stored) = (data[at], head[8..].iter().map(|&n| n as u64).collect::<Vec<u64>>());
        at += 81;
        if op & 4 != 0 {
            let key = &data[at..at + head[6]];
            at += key.len();
            let rooms = Rooms { nodes: head[3], names: head[4], notes: 0, bytes: head[7] };
            let ours = lent.take(key, rooms);
            let wide = lent.take(key, MOST_TO_TAKE);
            let plain = match baseline::take_back(key) {
                Ok(t) => (0, 0, baseline::write::key(&t.root, &t.text) == key),
                Err(e) => (e.number, e.bit as u64, true),
            };
            let want = if asks_room(stored[0]) { &wide[..] } else { &stored[..] };
            let good = plain == (want[0], if want[0] == 0 { 0 } else { want[1] }, true);
            let f = &mut figures[1];
            f[0] += 1;
            f[1] += (ours == stored[..8]) as usize;
            f[2] += asks_room(stored[0]) as usize;
            f[3] += good as usize;
            f[4] += (good && want[0] == 0) as usize;
            if !good {
                println!("key {key:x?}: baseline {plain:?}, else {want:?}");
            }
            continue;
        }
        let text = &data[at..at + head[1]];
        at += text.len();
        let words: Vec<u64> = words_of(&data[at..at + 8 * head[2]]).collect();
        at += 8 * words.len();
        let (start, parens) = (head[0], op & 1 == 1);
        let rooms = Rooms { nodes: head[3], names: head[4], notes: head[5], bytes: head[6] };
        let ours = lent.read(text, &words, start, parens, rooms);
        let wide = lent.read(text, &words, start, parens, MOST_TO_READ);
        let key = lent.bytes[..if wide[0] == 0 { wide[4] as usize } else { 0 }].to_vec();
        let (answer, written) = plain(text, &words, start, parens);
        let good = if asks_room(stored[0]) {
            answer == alike(&wide) && written == key
        } else {
            answer == alike(&stored) && sum(&written, head[6]) == stored[11]
        };
        let f = &mut figures[0];
        f[0] += 1;
        f[1] += (ours == stored[..8]) as usize;
        f[2] += asks_room(stored[0]) as usize;
        f[3] += good as usize;
        f[4] += (good && answer[0] == 0) as usize;
        if !good {
            println!(
                "{:?}: baseline {answer:?}, stored {stored:?}, ours {wide:?}",
                String::from_utf8_lossy(&text[..text.len().min(100)])
            );
        }
    }
    for (what, [all, ours, room, good, read]) in ["texts", "keys"].iter().zip(figures) {
        println!("agree {what} {all} ours {ours} room {room} baseline {good} read {read}");
    }
}

fn main() {
    let mut lent = Lent::new();
    let mut args = std::env::args().skip(1);
    let job = args.next().unwrap_or_default();
    if job == "agree" {
        return args.for_each(|name| agree(&name, &mut lent));
    }
    let mut set = |name: String| {
        let lists = Lists::load(&name);
        let keys = Keys::of(&lists, &mut lent);
        Set { name: short(&name).to_string(), lists, keys }
    };
    if job == "once" {
        let (name, side) = (args.next().unwrap(), args.next().unwrap().parse::<usize>().unwrap());
        let set = set(args.next().unwrap());
        let trees = Trees::of(&set.lists, &set.keys, &mut lent);
        let lent = RefCell::new(lent);
        counted(&mut part(&name, &set, &trees, &lent).jobs[side]);
        return println!("once {name} {} tokens {} bytes {}", set.name, set.lists.tokens(), set.keys.keys.len());
    }
    let sets: Vec<Set> = args.map(&mut set).collect();
    let trees: Vec<Trees> = sets.iter().filter(|_| job == "parts").map(|s| Trees::of(&s.lists, &s.keys, &mut lent)).collect();
    let lent = RefCell::new(lent);
    match job.as_str() {
        "parts" => parts(&sets, &trees, &lent),
        "read" => read(&sets, &lent),
        "take" => take(&sets, &lent),
        "lend" => sets.iter().for_each(|set| lend(set, &lent)),
        _ => panic!("agree, parts, read, take, lend or once"),
    }
}
