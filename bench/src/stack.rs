//! Looks for the document that makes resolve take most of the stack: small documents of values inside one another, changed at random, and kept where
//! they take no less. It prints the greatest found, and judges nothing; tests/c/stack.c holds the known worst to the header.

use native::{jobs, random::Random};
use std::time::{Duration, Instant};

/// A value as it is written: its pieces.
#[derive(Clone)]
struct Value(Vec<Piece>);

#[derive(Clone)]
enum Piece {
    Number,
    Object(Value),
    Array(Value),
    /// `${vI}`
    Reference(usize),
    /// `${?x}`, which nothing sets
    Undefined,
}

/// The fields v0, v1, .., behind a field of the root that is as deep as one can be.
type Fields = Vec<Value>;

fn write_value(value: &Value, text: &mut String) {
    for piece in &value.0 {
        match piece {
            Piece::Number => text.push('1'),
            Piece::Undefined => text.push_str("${?x}"),
            Piece::Reference(i) => text.push_str(&format!("${{v{i}}}")),
            Piece::Object(inside) => {
                text.push_str("{a=");
                write_value(inside, text);
                text.push('}');
            }
            Piece::Array(inside) => {
                text.push('[');
                write_value(inside, text);
                text.push(']');
            }
        }
    }
}

fn document(levels: usize, fields: &Fields) -> String {
    let mut text = format!("{}a=${{v0}}{}\n", "a{".repeat(levels), "}".repeat(levels));
    for (i, value) in fields.iter().enumerate() {
        text.push_str(&format!("v{i}="));
        write_value(value, &mut text);
        text.push('\n');
    }
    text
}

/// A piece with nothing inside; a reference is to one of the fields that are left, those behind its own.
fn leaf(random: &mut Random, left: std::ops::Range<usize>) -> Piece {
    match random.below(4) {
        0 => Piece::Number,
        1 => Piece::Undefined,
        _ if left.is_empty() => Piece::Number,
        _ => Piece::Reference(left.start + random.below(left.len())),
    }
}

/// Objects inside one another, as a piece behind one that is undefined, with a reference at the bottom.
fn beginning(random: &mut Random, left: std::ops::Range<usize>) -> Value {
    let mut value = Value(vec![Piece::Undefined, leaf(random, left)]);
    for _ in 0..random.below(32) {
        value = Value(vec![Piece::Object(value)]);
    }
    value.0.insert(0, Piece::Undefined);
    value
}

/// Changes one place of a value: goes down with luck, then wraps, unwraps, adds, takes away or exchanges a piece.
fn change(random: &mut Random, value: &mut Value, left: std::ops::Range<usize>) {
    if value.0.is_empty() {
        value.0.push(leaf(random, left.clone()));
    }
    let i = random.below(value.0.len());
    if !random.once_in(24) {
        if let Piece::Object(inside) | Piece::Array(inside) = &mut value.0[i] {
            return change(random, inside, left);
        }
    }
    match random.below(6) {
        0 | 1 => {
            let piece = value.0[i].clone();
            let mut inside = Value(vec![piece]);
            for _ in 0..random.below(8) {
                inside = Value(vec![Piece::Object(inside)]);
            }
            value.0[i] = if random.once_in(3) { Piece::Array(inside) } else { Piece::Object(inside) };
        }
        2 => {
            if let Piece::Object(inside) | Piece::Array(inside) = value.0[i].clone() {
                value.0[i] = inside.0.first().cloned().unwrap_or(Piece::Number);
            }
        }
        3 => {
            let piece = if random.once_in(2) { leaf(random, left) } else { value.0[i].clone() };
            value.0.insert(i, piece);
        }
        4 => drop(value.0.remove(i)),
        _ => value.0[i] = leaf(random, left),
    }
}

/// The thread's stack is painted from so far below this frame to so far, the job runs there, and what it left is counted: its arrays alone
/// take more than the lesser.
const LEAST: usize = 384 << 10;
const MOST: usize = 896 << 10;
const PAINT: u64 = 0xa5a5_a5a5_a5a5_a5a5;
const STEP: usize = 8;

#[inline(never)]
fn below() -> *mut u64 {
    let here = 0u64;
    // Only the address is used.
    std::hint::black_box(std::ptr::addr_of!(here) as *mut u64)
}

#[inline(never)]
fn taken(text: &[u8], buffers: &mut [Vec<u8>; 3]) -> usize {
    let top = below();
    for depth in (LEAST..MOST).step_by(STEP) {
        // SAFETY: the thread's stack is 8 MiB, mapped whole, and nothing stands so far below this frame.
        unsafe { top.wrapping_byte_sub(depth).write_volatile(PAINT) };
    }
    let [trail, table, out] = buffers;
    let _ = std::hint::black_box(jobs::resolve(text, b"", 256, trail, table, out));
    let mut depth = MOST - STEP;
    // SAFETY: as above.
    while depth > LEAST && unsafe { top.wrapping_byte_sub(depth).read_volatile() } == PAINT {
        depth -= STEP;
    }
    depth
}

fn climb(seconds: u64, seed: u64) {
    let mut random = Random::new(seed);
    let mut buffers = [(); 3].map(|()| vec![0u8; 32_768]);
    let least = taken(b"", &mut buffers);
    let (mut most, mut text) = (0, String::new());
    let start = Instant::now();
    while start.elapsed() < Duration::from_secs(seconds) {
        let count = 1 + random.below(5);
        let mut fields: Fields = (0..count).map(|i| beginning(&mut random, i + 1..count)).collect();
        let mut levels = if random.once_in(4) { random.below(32) } else { 31 };
        let (mut here, mut idle_turns) = (0, 0);
        while idle_turns < 6_000 && start.elapsed() < Duration::from_secs(seconds) {
            let (mut next, mut deeper) = (fields.clone(), levels);
            for _ in 0..1 + random.below(3) {
                let i = random.below(count);
                change(&mut random, &mut next[i], i + 1..count);
            }
            if random.once_in(8) {
                deeper = random.below(32);
            }
            let written = document(deeper, &next);
            idle_turns += 1;
            if written.len() > 4_096 {
                continue;
            }
            let size = taken(written.as_bytes(), &mut buffers);
            if size >= here {
                if size > here {
                    idle_turns = 0;
                }
                (here, fields, levels) = (size, next, deeper);
            }
            if size > most {
                (most, text) = (size, written);
            }
        }
    }
    println!("{most} bytes of the stack at the most; {least} for an empty document");
    print!("{text}");
}

/// The search, or with a file what that takes.
pub fn print(seconds: u64, seed: u64, file: Option<String>) {
    let work = move || match file {
        None => climb(seconds, seed),
        Some(name) => {
            let text = std::fs::read(&name).unwrap_or_else(|error| panic!("{name}: {error}"));
            println!("{name}: {} bytes of the stack", taken(&text, &mut [(); 3].map(|()| vec![0u8; 32_768])));
        }
    };
    std::thread::Builder::new().stack_size(8 << 20).spawn(work).unwrap().join().unwrap();
}
