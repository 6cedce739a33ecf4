//! Look-up in a table of 16,384 bytes.

use native::{look_up, plain, Answer};
use std::{hint::black_box, time::Instant};

const ROUNDS: usize = 200;
const CALLS: u32 = 50;

/// A table as resolving would write it, with its text: each text in its place, nothing shared.
#[derive(Default)]
struct Sheet {
    table: Vec<u8>,
    text: Vec<u8>,
}

impl Sheet {
    fn pair(&mut self, number: usize) {
        self.table.extend((number as u16).to_be_bytes());
    }

    fn count(&mut self, kind: u8, members: usize) {
        self.table.push(kind);
        self.pair(members);
    }

    fn text(&mut self, kind: u8, text: &str) {
        self.table.push(kind);
        self.pair(self.text.len());
        self.pair(text.len());
        self.text.extend(text.bytes());
    }

    fn object(&mut self, name: &str, members: usize) {
        self.text(8, name);
        self.count(7, members);
    }

    fn number(&mut self, name: &str, number: usize) {
        self.text(8, name);
        self.text(4, &number.to_string());
    }
}

/// Twenty objects of eighty numbers each; a number before, between and after them; one five names deep, and an array
/// of nulls that fills the table up to its size.
fn sheet() -> Sheet {
    let mut sheet = Sheet::default();
    sheet.count(7, 25);
    sheet.number("first", 1);
    for i in 0..20 {
        if i == 10 {
            sheet.number("middle", 2);
        }
        sheet.object(&format!("part{i}"), 80);
        for j in 0..80 {
            sheet.number(&format!("key{j}"), 1_000 + j);
        }
    }
    for name in ["deep", "a", "b", "c"] {
        sheet.object(name, 1);
    }
    sheet.number("d", 3);
    sheet.text(8, "fill");
    let nulls = 16_384 - 3 - 10 - sheet.table.len();
    sheet.count(6, nulls);
    sheet.table.extend(vec![1; nulls]);
    sheet.number("last", 4);
    sheet
}

/// Nanoseconds for one call, over many.
fn time(look_up: fn(&[u8], &[u8], &[u8]) -> Answer, sheet: &Sheet, path: &[u8]) -> f64 {
    let start = Instant::now();
    for _ in 0..CALLS {
        let _ = black_box(look_up(black_box(&sheet.table), black_box(&sheet.text), black_box(path)));
    }
    start.elapsed().as_nanos() as f64 / f64::from(CALLS)
}

pub fn print() {
    let sheet = sheet();
    assert_eq!(sheet.table.len(), 16_384);
    println!("Table of {} bytes, text of {} bytes.\n", sheet.table.len(), sheet.text.len());
    println!("| What is looked up | Path | Library, ns | Plain Rust, ns | Ratio |");
    println!("|---|---|---|---|---|");
    for (what, path, there) in [
        ("first member", "first", true),
        ("middle member", "middle", true),
        ("last member", "last", true),
        ("member of a member", "part10.key40", true),
        ("five names deep", "deep.a.b.c.d", true),
        ("five names deep, quoted", r#""deep"."a"."""b"""."\u0063"."d""#, true),
        ("missing in the root", "nothing", false),
        ("missing further down", "part19.nothing", false),
    ] {
        let bytes = path.as_bytes();
        let answer = look_up(&sheet.table, &sheet.text, bytes);
        assert_eq!(answer, plain::look_up(&sheet.table, &sheet.text, bytes));
        assert_eq!(answer.is_ok(), there);

        // The two in turn, so that whatever else the machine does meets both; the least time is the least disturbed.
        let (mut library, mut plainly) = (f64::INFINITY, f64::INFINITY);
        for _ in 0..ROUNDS {
            library = library.min(time(look_up, &sheet, bytes));
            plainly = plainly.min(time(plain::look_up, &sheet, bytes));
        }
        println!("| {what} | `{path}` | {library:.0} | {plainly:.0} | {:.2} |", library / plainly);
    }
}
