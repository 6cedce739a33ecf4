//! Ten files as people write them, made from a seed: five shapes in two sizes, each with about 100 unresolved values.

use crate::resolve::Document;
use native::random::Random;

const COMMENTS: &[&str] = &[
    "set by the workshop, do not change without a word to the bench",
    "see the sheet of the maker, second page",
    "in steps",
    "the old value was too low for the new head",
    "only used while the door is open",
];
const WORDS: &[&str] = &["north", "idle", "probe", "axis", "clamp", "spindle", "coolant", "slow", "left", "guard"];

pub fn ten() -> Vec<Document> {
    let shapes: [(&str, fn(&mut Random, usize) -> String); 5] =
        [("flat", flat), ("nested", nested), ("merges", merges), ("long strings", strings), ("look-backs", look_backs)];
    let mut random = Random::new(1);
    let mut documents = Vec::new();
    for (shape, make) in shapes {
        for (size, bytes) in [("small", 12_500), ("large", 32_000)] {
            let mut text = make(&mut random, bytes);
            pad(&mut random, &mut text, bytes);
            documents.push(Document { what: format!("{shape}, {size}"), text });
        }
    }
    documents
}

/// Comment lines between the lines of a file until it has about so many bytes.
fn pad(random: &mut Random, text: &mut String, bytes: usize) {
    let lines: Vec<&str> = text.lines().collect();
    let missing = bytes.saturating_sub(text.len());
    let mut padded = String::new();
    for (i, line) in lines.iter().enumerate() {
        padded.push_str(line);
        padded.push('\n');
        // Spread evenly.
        while padded.len() < (i + 1) * missing / lines.len() + text.len() * i / lines.len() {
            padded.push_str(&format!("    # {}\n", random.pick(COMMENTS)));
        }
    }
    *text = padded;
}

fn value(random: &mut Random) -> String {
    match random.below(6) {
        0 => "true".to_string(),
        1 => format!("\"{} {}\"", random.pick(WORDS), random.pick(WORDS)),
        2 => format!("[{}, {}]", random.below(100), random.below(100)),
        3 => random.pick(WORDS).to_string(),
        4 => format!("{}.{}", random.below(100), random.below(100)),
        _ => random.below(10_000).to_string(),
    }
}

fn word(random: &mut Random) -> &'static str {
    random.pick(WORDS)
}

/// One object; every few fields one that refers to another.
fn flat(random: &mut Random, bytes: usize) -> String {
    let count = bytes / 60;
    let mut text = String::new();
    for i in 0..count {
        let plain = format!("{}_{i} = {}\n", word(random), value(random));
        text.push_str(&plain);
        if i % (count / 100) == 0 && i < count / 100 * 100 {
            let name = &plain[..plain.find(' ').unwrap_or(0)];
            match random.below(3) {
                0 => text.push_str(&format!("ref_{i} = ${{{name}}}\n")),
                1 => text.push_str(&format!("ref_{i} = ${{?missing_{i}}} ${{?HOME}} {}\n", word(random))),
                _ => text.push_str(&format!("ref_{i} = [1, ${{{name}}}, 3]\n")),
            }
        }
    }
    text
}

/// Sections of sections, whose fields refer to one another.
fn nested(random: &mut Random, bytes: usize) -> String {
    let fields = bytes / 4_000;
    let mut text = String::new();
    for i in 0..10 {
        text.push_str(&format!("section{i} {{\n"));
        for j in 0..5 {
            text.push_str(&format!("  part{j} {{\n"));
            for k in 0..fields {
                text.push_str(&format!("    {}{k} = {}\n", word(random), value(random)));
            }
            let (section, part) = (random.below(10), random.below(5));
            text.push_str(&format!(
                "    size = {}\n    inner {{ low.high = {} }}\n",
                random.below(100),
                random.below(9)
            ));
            text.push_str(&format!("    other = ${{section{section}.part{part}.size}}\n"));
            text.push_str(&format!("    name = \"at \"${{section{section}.part{part}.inner.low.high}}\" of {i}\"\n"));
            text.push_str("  }\n");
        }
        text.push_str("}\n");
    }
    text
}

/// A base, and devices that take it over and change it, some of them in several places.
fn merges(random: &mut Random, bytes: usize) -> String {
    let fields = bytes / 8_000;
    let mut text = String::from("base {\n  speed = 10\n  limits { low = 1, high = 2 }\n  tags = [a, b]\n}\n");
    for i in 0..50 {
        text.push_str(&format!("device{i} = ${{base}} {{\n  speed = {}\n", random.below(100)));
        for k in 0..fields {
            text.push_str(&format!("  {}{k} = {}\n", word(random), value(random)));
        }
        text.push_str(&format!("  limits {{ high = {} }}\n}}\n", random.below(100)));
    }
    for i in 0..50 {
        text.push_str(&format!("device{i}.limits.low = ${{base.speed}}\n"));
        text.push_str(&format!("device{i} {{ door = {}, limits.top = {} }}\n", word(random), random.below(9)));
    }
    text
}

/// Texts of some lines, put together from others.
fn strings(random: &mut Random, bytes: usize) -> String {
    let long = bytes / 280;
    let mut text = String::new();
    for i in 0..100 {
        let mut sentence = String::new();
        while sentence.len() < long {
            sentence.push_str(word(random));
            sentence.push(' ');
        }
        let quotes = random.pick(&["\"", "\"\"\""]);
        text.push_str(&format!("short{i} = {}\n", word(random)));
        text.push_str(&format!("text{i} = {quotes}{sentence}{quotes} ${{short{}}}\n", random.below(100)));
    }
    text
}

/// Values that grow by what they were.
fn look_backs(random: &mut Random, bytes: usize) -> String {
    let fields = bytes / 600;
    let mut text = String::new();
    for round in 0..5 {
        for i in 0..20 {
            let line = match i % 4 {
                0 => format!("list{i} = ${{?list{i}}} [{}, {}]\n", random.below(100), random.below(100)),
                1 => format!("path{i} = ${{?path{i}}}\":/{}/{round}\"\n", word(random)),
                2 => format!("options{i} = ${{?options{i}}} {{ {}{round} = {} }}\n", word(random), random.below(100)),
                _ => format!("group{i} {{ inner = ${{?group{i}.inner}} [{round}], at{round} = {round} }}\n"),
            };
            text.push_str(&line);
        }
        for i in 0..fields {
            text.push_str(&format!("{}_{round}_{i} = {}\n", word(random), value(random)));
        }
    }
    text
}
