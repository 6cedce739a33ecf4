//! Seeded random chains of long values: many pieces, needs late among them, refusals before and behind those. What is needed is worked out before
//! the pieces are joined, so a refusal may be met that the order of the rules does not come to.

use crate::documents::Case;
use crate::plain_resolve::Rooms;
use crate::random::Random;

/// What the pieces of a document's values mostly are.
#[derive(Clone, Copy)]
enum Kind {
    Text,
    Array,
    Object,
}

pub fn case(random: &mut Random) -> Case {
    let kind = random.pick(&[Kind::Text, Kind::Array, Kind::Object, Kind::Object]);
    let values = 2 + random.below(8);
    let mut document = String::new();
    for i in 0..values {
        document.push_str(&format!("v{i}="));
        value(random, kind, i, values, &mut document);
        document.push('\n');
        // A layer over an earlier value, which may look back.
        if random.once_in(12) {
            let earlier = random.below(i + 1);
            document.push_str(&format!("v{earlier}="));
            value(random, kind, earlier, values, &mut document);
            document.push('\n');
        }
    }
    if random.once_in(3) {
        // Hidden, so that a sheet is handed back.
        let hidden = random.below(values);
        document.push_str(&format!("v{hidden}=1\n"));
    }
    let budget = if random.once_in(6) { random.below(values + 1) as u64 } else { 256 };
    let mut rooms = Rooms::FULL;
    if random.once_in(6) {
        rooms.trail = random.below(200);
        rooms.text = random.pick(&[4, 40, 32_768]);
    }
    Case { document: document.into_bytes(), environment: environment(random), budget, rooms }
}

fn environment(random: &mut Random) -> Vec<u8> {
    if random.once_in(3) {
        b"x=e\0v1=f\0".to_vec()
    } else {
        Vec::new()
    }
}

/// The pieces of value i: a few at most that need others, of which the most stand late.
fn value(random: &mut Random, kind: Kind, i: usize, values: usize, out: &mut String) {
    let pieces = match random.below(6) {
        0 => 1 + random.below(2),
        1 => 20 + random.below(60),
        _ => 3 + random.below(9),
    };
    let late = random.below(pieces);
    // Nearly every value is sound; in the others one piece refuses.
    let wrong = if random.once_in(5) { random.below(pieces) } else { pieces };
    for piece in 0..pieces {
        if piece > 0 && random.once_in(2) {
            out.push(' ');
        }
        if piece == wrong {
            refusing(random, kind, i, out);
        } else if piece >= late && random.once_in(3) {
            needing(random, kind, i, values, out);
        } else {
            plain(random, kind, out);
        }
    }
}

/// A piece that refuses: of another kind, a required value that is missing, itself, or one that is large.
fn refusing(random: &mut Random, kind: Kind, i: usize, out: &mut String) {
    match random.below(5) {
        0 | 1 => out.push_str(match kind {
            Kind::Text => random.pick(&["[1]", "{k=1}"]),
            Kind::Array => random.pick(&["{k=1}", "word"]),
            Kind::Object => random.pick(&["[1]", "word"]),
        }),
        2 => out.push_str(random.pick(&["${missing}", "${v0.missing.k}", "{k=${missing}}"])),
        3 => out.push_str(&format!("${{v{i}}}")),
        _ => {
            let nulls = vec!["null"; 400].join(",");
            match kind {
                Kind::Text => out.push_str(&"x".repeat(9_000)),
                Kind::Array => out.push_str(&format!("[{nulls}]")),
                Kind::Object => out.push_str(&format!("{{n=[{nulls}]}}")),
            }
        }
    }
}

/// A piece that needs other values: mostly later ones, so that chains form; now and then any, so that circles do.
fn needing(random: &mut Random, kind: Kind, i: usize, values: usize, out: &mut String) {
    let other =
        if random.once_in(8) || i + 1 == values { random.below(values) } else { i + 1 + random.below(values - i - 1) };
    let optional = random.pick(&["", "?"]);
    match (kind, random.below(6)) {
        (Kind::Object, 0) => out.push_str(&format!("{{k=${{{optional}v{other}}},l=${{?v{i}.k}}}}")),
        (Kind::Object, 1) => out.push_str(&format!("${{?v{other}.k}}")),
        (Kind::Array, 0) => out.push_str(&format!("[${{{optional}v{other}}},1]")),
        (_, 2) => out.push_str("${?missing}"),
        (Kind::Text, 3) => out.push_str("${?x}"),
        _ => out.push_str(&format!("${{{optional}v{other}}}")),
    }
}

fn plain(random: &mut Random, kind: Kind, out: &mut String) {
    let number = random.below(6);
    match kind {
        Kind::Text => out.push_str(random.pick(&["a", "b c", "\"q\"", "1", "true"])),
        Kind::Array => out.push_str(random.pick(&["[]", "[1]", "[null,{k=1}]", "[[2],x]"])),
        Kind::Object => match random.below(4) {
            0 => out.push_str("{}"),
            1 => out.push_str(&format!("{{k={number}}}")),
            2 => out.push_str(&format!("{{k={{m{number}={number}}},l=[{number}]}}")),
            _ => out.push_str(&format!("{{k{number}={number},k.m=1}}")),
        },
    }
}
