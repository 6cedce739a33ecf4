//! Times the library against plain Rust, in one run, on the same bytes. It prints tables for docs/BENCHMARKS.md and judges
//! nothing.

mod clock;
mod families;
mod files;
mod hostile;
mod look_up;
mod resolve;
mod search;
mod stack;

use std::env;

fn number(argument: Option<String>, default: u64) -> u64 {
    argument.map_or(default, |text| text.parse().unwrap_or_else(|_| panic!("{text:?} is no number")))
}

fn main() {
    let mut arguments = env::args().skip(1);
    // The plain resolver recurses as deep as values need one another.
    match arguments.next().as_deref() {
        None => {
            look_up::print();
            native::plain_resolve::with_stack(|| {
                resolve::print("Ten files", &files::ten());
                resolve::print("Hostile documents", &hostile::all());
            });
        }
        Some("search") => {
            let (seconds, seed) = (number(arguments.next(), 360), number(arguments.next(), 1));
            native::plain_resolve::with_stack(move || search::print(seconds, seed));
        }
        Some("stack") => match (number(arguments.next(), 60), number(arguments.next(), 1)) {
            (seconds, seed) => stack::print(seconds, seed, arguments.next()),
        },
        Some(other) => panic!("{other:?} is not known: nothing for the tables, or search or stack [SECONDS [SEED]]"),
    }
}
