//! Prints the key of a type, walks its tree and compares it with another: `cargo run -- 'A | B & C'`.
use typekey::{Buffers, EOF, Options, differ, kind_of, read, take_back, token};

/// Cuts at spaces, for words and marks. It stands in for the lexer that you have.
fn cut(text: &str) -> Vec<u64> {
    let (mut tokens, mut at) = (Vec::new(), 0);
    for part in text.split(' ') {
        if !part.is_empty() {
            let kind = kind_of(part.as_bytes());
            tokens.push(token(kind, false, at, part.len() as u32));
        }
        at += part.len() as u32 + 1;
    }
    tokens.push(token(EOF, false, text.len() as u32, 0));
    tokens
}

fn main() {
    let text = std::env::args().nth(1).unwrap_or("A | B & C".to_string());
    let (tokens, mut buffers) = (cut(&text), Buffers::default());
    let reading = match read(text.as_bytes(), &tokens, Options::default(), &mut buffers) {
        Ok(reading) => reading,
        Err(refusal) => {
            eprintln!("{refusal}");
            std::process::exit(1);
        }
    };

    println!("{text}");
    let key: String = reading.key.iter().map(|b| format!(" {b:02x}")).collect();
    println!("key{key}");
    for (depth, node) in reading.tree.walk() {
        print!("{}{node}", "  ".repeat(depth));
        for name in node.names() {
            print!(" {}", String::from_utf8_lossy(name));
        }
        println!();
    }
    for note in reading.notes() {
        println!("{note}");
    }

    // From the key alone the same tree comes back, without places in the text.
    let mut others = Buffers::default();
    let tree = take_back(reading.key, &mut others).expect("a key that was read");
    println!("taken back: a {} of {} nodes", tree.root().tag, tree.size());

    // Two keys are the same bytes, or there are places where their trees differ: bits of the one and of the other.
    let (other, mut beside) = ("A | B & D", Buffers::default());
    let theirs = read(
        other.as_bytes(),
        &cut(other),
        Options::default(),
        &mut beside,
    )
    .expect("a type");
    for d in differ(reading.key, theirs.key, &mut others).expect("keys that were read") {
        println!("beside {other}: bit {}, bit {}", d.left, d.right);
    }
}
