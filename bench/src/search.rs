//! Turns the parameters of the hostile families against the build: where one of them makes the library dearer beside plain Rust, it is kept. What is
//! printed is the dearest document found of each family, and it judges nothing. A document that takes over `GIVEN_UP` ends its family.

use crate::families::{Family, ALL};
use crate::resolve::{once, Times};
use native::random::Random;
use std::time::{Duration, Instant};

/// Plain Rust's time, in microseconds, counts as no less: below it a ratio says nothing of how long a job is held.
const LEAST_PLAIN: f64 = 2_000.0;

const GIVEN_UP: f64 = 5_000_000.0;

/// What a document is held for: the greater of both jobs' ratios, and the times.
struct Found {
    parameters: Vec<usize>,
    bytes: usize,
    times: Times,
}

impl Found {
    fn new(family: &Family, parameters: Vec<usize>) -> Option<Found> {
        let text = (family.text)(&parameters);
        if text.len() > 32_768 {
            return None;
        }
        Some(Found { bytes: text.len(), times: once(text.as_bytes()), parameters })
    }

    fn ratios(&self) -> [f64; 2] {
        let Times { resolve, plain_resolve, check, plain_check } = self.times;
        [resolve / plain_resolve.max(LEAST_PLAIN), check / plain_check.max(LEAST_PLAIN)]
    }

    /// Ratios first; where they are small, the time itself is climbed.
    fn height(&self, job: usize) -> f64 {
        self.ratios()[job]
    }
}

/// Parameters near to these.
fn near(random: &mut Random, family: &Family, parameters: &[usize]) -> Vec<usize> {
    let mut next = parameters.to_vec();
    for _ in 0..1 + random.below(2) {
        let i = random.below(next.len());
        let (_, least, most) = family.parameters[i];
        let far = if random.once_in(2) { (most - least) / 8 } else { next[i] / 10 } + 1;
        let moved = next[i] + random.below(2 * far + 1);
        next[i] = moved.saturating_sub(far).clamp(least, most);
    }
    next
}

/// A beginning low in the ranges, so that a build without a bound shows it early.
fn beginning(random: &mut Random, family: &Family) -> Vec<usize> {
    family.parameters.iter().map(|&(_, least, most)| least + random.below((most - least) / 4 + 1)).collect()
}

/// Climbs until the time is spent; the dearest document for one job.
fn climb(random: &mut Random, family: &Family, job: usize, time: Duration) -> Option<Found> {
    let start = Instant::now();
    let (mut best, mut here): (Option<Found>, Option<Found>) = (None, None);
    let mut idle = 0;
    while start.elapsed() < time {
        let parameters = match &here {
            Some(found) if idle < 60 => near(random, family, &found.parameters),
            _ => {
                (here, idle) = (None, 0);
                beginning(random, family)
            }
        };
        idle += 1;
        let Some(found) = Found::new(family, parameters) else { continue };
        let (height, spent) = (found.height(job), found.times.resolve.max(found.times.check));
        if here.as_ref().map_or(true, |known| known.height(job) < height) {
            if best.as_ref().map_or(true, |known| known.height(job) < height) {
                best = Found::new(family, found.parameters.clone());
            }
            (here, idle) = (Some(found), 0);
        }
        if spent > GIVEN_UP {
            break;
        }
    }
    best
}

pub fn print(seconds: u64, seed: u64) {
    let mut random = Random::new(seed);
    let time = Duration::from_millis(seconds * 1_000 / (2 * ALL.len() as u64));
    println!("\nThe dearest found of each family in {seconds} s (seed {seed}), times in microseconds, one call each.");
    println!("Ratios by plain Rust's time, taken as {LEAST_PLAIN} at the least.\n");
    println!("| Family | Of | Parameters | Bytes | Resolve | Plain Rust | Ratio | Check | Plain Rust | Ratio |");
    println!("|---|---|---|---|---|---|---|---|---|---|");
    for family in ALL {
        for (job, name) in ["resolve", "check"].into_iter().enumerate() {
            if let Some(found) = climb(&mut random, family, job, time) {
                row(family, name, &found);
            }
        }
    }
}

fn row(family: &Family, job: &str, found: &Found) {
    let parameters: Vec<String> =
        family.parameters.iter().zip(&found.parameters).map(|((name, ..), value)| format!("{value} {name}")).collect();
    let [resolving, checking] = found.ratios();
    let Times { resolve, plain_resolve, check, plain_check } = found.times;
    println!(
        "| {} | {job} | {} | {} | {resolve:.0} | {plain_resolve:.0} | {resolving:.2} | {check:.0} | {plain_check:.0} | {checking:.2} |",
        family.what,
        parameters.join(", "),
        found.bytes
    );
}
