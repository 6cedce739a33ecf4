//! Resolve and check of whole documents.

use crate::clock;
use native::{jobs, plain_resolve, plain_resolve::Rooms};
use std::{
    hint::black_box,
    time::{Duration, Instant},
};

/// A document is timed for this long, but in at least so many rounds and at most so many.
const TIME: Duration = Duration::from_millis(800);
const LEAST: usize = 3;
const MOST: usize = 200;

const BUDGET: u64 = 256;

pub struct Document {
    pub what: String,
    pub text: String,
}

/// The three buffers of a caller.
struct Buffers {
    trail: Vec<u8>,
    table: Vec<u8>,
    text: Vec<u8>,
}

impl Buffers {
    fn new() -> Buffers {
        let buffer = || vec![0xa5; 32_768];
        Buffers { trail: buffer(), table: buffer(), text: buffer() }
    }

    fn resolve(&mut self, document: &[u8]) -> Result<jobs::Done, native::Refusal> {
        jobs::resolve(document, b"", BUDGET, &mut self.trail, &mut self.table, &mut self.text)
    }
}

/// Microseconds of processor time for one call, and for dropping what it gave.
fn time<T>(work: impl FnOnce() -> T) -> f64 {
    let start = clock::now();
    drop(black_box(work()));
    clock::now() - start
}

fn median(mut times: Vec<f64>) -> f64 {
    times.sort_by(f64::total_cmp);
    times[times.len() / 2]
}

/// The medians in microseconds: the library's resolve, the plain one, the library's check, the plain one.
fn medians(document: &[u8], sheet: &plain_resolve::Sheet, buffers: &mut Buffers) -> [f64; 4] {
    let (trail, table, text) = (&sheet.trail[..], &sheet.table[..], &sheet.text[..]);
    let mut times: [Vec<f64>; 4] = Default::default();
    let start = Instant::now();
    while times[0].len() < LEAST || times[0].len() < MOST && start.elapsed() < TIME {
        // In turn, so that whatever else the machine does meets all of them.
        let document = black_box(document);
        times[0].push(time(|| buffers.resolve(document)));
        times[1].push(time(|| plain_resolve::resolve(document, b"", BUDGET, Rooms::FULL)));
        times[2].push(time(|| jobs::check(document, b"", trail, table, text)));
        times[3].push(time(|| plain_resolve::check(document, b"", trail, table, text)));
    }
    times.map(median)
}

/// One call of each in microseconds; check's are 0 where the document is refused.
pub struct Times {
    pub resolve: f64,
    pub plain_resolve: f64,
    pub check: f64,
    pub plain_check: f64,
}

/// The times of a document, refused or not, after its answers were compared.
pub fn once(document: &[u8]) -> Times {
    let mut buffers = Buffers::new();
    let (mut answer, mut expected) = (None, None);
    let resolve = time(|| answer = Some(buffers.resolve(document)));
    let plain_resolve = time(|| expected = Some(plain_resolve::resolve(document, b"", BUDGET, Rooms::FULL)));
    let (answer, expected) = (answer.unwrap(), expected.unwrap());
    let said = expected.as_ref().map(jobs::Done::from).map_err(|refusal| *refusal);
    assert_eq!(answer, said, "{}", String::from_utf8_lossy(document));
    let Ok(sheet) = expected else { return Times { resolve, plain_resolve, check: 0.0, plain_check: 0.0 } };
    compare(&buffers, &sheet, "a document of the search");
    let (trail, table, text) = (&sheet.trail[..], &sheet.table[..], &sheet.text[..]);
    let check = time(|| assert_eq!(jobs::check(document, b"", trail, table, text), Ok(())));
    let plain_check = time(|| plain_resolve::check(document, b"", trail, table, text));
    Times { resolve, plain_resolve, check, plain_check }
}

fn compare(buffers: &Buffers, sheet: &plain_resolve::Sheet, what: &str) {
    let Buffers { trail, table, text } = buffers;
    for (buffer, used) in [(trail, &sheet.trail), (table, &sheet.table), (text, &sheet.text)] {
        assert!(buffer.starts_with(used), "{what}");
    }
}

pub fn print(title: &str, documents: &[Document]) {
    println!("\n{title}, microseconds of processor time (medians).\n");
    println!("| Document | Bytes | Unresolved | Resolve | Plain Rust | Ratio | Check | Plain Rust | Ratio |");
    println!("|---|---|---|---|---|---|---|---|---|");
    let mut sums = [0.0; 4];
    for Document { what, text } in documents {
        let document = text.as_bytes();
        let sheet = match plain_resolve::resolve(document, b"", BUDGET, Rooms::FULL) {
            Ok(sheet) => sheet,
            Err(refusal) => panic!("{what}, {} bytes, does not resolve: {refusal:?}", document.len()),
        };
        let mut buffers = Buffers::new();
        assert_eq!(buffers.resolve(document), Ok(jobs::Done::from(&sheet)), "{what}");
        compare(&buffers, &sheet, what);
        assert_eq!(jobs::check(document, b"", &sheet.trail, &sheet.table, &sheet.text), Ok(()), "{what}");

        let times = medians(document, &sheet, &mut buffers);
        row(what, &document.len().to_string(), &sheet.count.to_string(), times);
        sums.iter_mut().zip(times).for_each(|(sum, time)| *sum += time);
    }
    row("**all**", "", "", sums);
}

fn row(what: &str, bytes: &str, count: &str, times: [f64; 4]) {
    let [resolve, plainly, check, plain_check] = times;
    println!(
        "| {what} | {bytes} | {count} | {resolve:.0} | {plainly:.0} | {:.2} | {check:.0} | {plain_check:.0} | {:.2} |",
        resolve / plainly,
        check / plain_check
    );
}
