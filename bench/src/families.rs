//! Families of documents within all limits that cost a resolver much, each by a few parameters: some for the table of hostile documents, all
//! for the search, which turns the parameters against the build.

use crate::hostile::{members, numbered};

/// A family: what its documents are, a parameter's name and range each, and the document of parameters.
pub struct Family {
    pub what: &'static str,
    pub parameters: &'static [(&'static str, usize, usize)],
    pub text: fn(&[usize]) -> String,
}

/// `n` is an array of 25 nulls, and `m` of 500.
fn nulls() -> String {
    format!("n=[{}]\nm={}\n", vec!["null"; 25].join(","), "${n}".repeat(20))
}

/// `value` so many objects deep, in few items.
fn deep(levels: usize, value: String) -> String {
    let mut text = value;
    let mut left = levels;
    while left > 0 {
        let here = left.min(16);
        text = format!("{{{}={text}}}", vec!["a"; here].join("."));
        left -= here;
    }
    text
}

/// A deep literal `w` with some multiple of 500 nulls at its bottom.
fn deep_nulls(name: &str, levels: usize, nulls: usize) -> String {
    format!("{name}={}\n", deep(levels, "${m}".repeat(nulls / 500)))
}

/// The value `v`, and `count` fields that need it.
fn needs(count: usize, value: &str) -> String {
    format!("v={value}\n") + &(0..count).map(|i| format!("u{i}=${{v}}\n")).collect::<String>()
}

/// `q`: so many pieces, then one for each of the fields that need `v`.
fn question(piece: &str, pieces: usize, needs: usize) -> String {
    format!("q={}{}\n", piece.repeat(pieces), (0..needs).map(|i| format!("${{u{i}}}")).collect::<String>())
}

/// As `question`, but one object has all the needs, and `q` is hidden, so that a sheet is handed back whatever its size.
pub fn hidden(pieces: usize, count: usize, nulls_deep: usize, levels: usize) -> String {
    let unresolved: String = (0..count).map(|i| format!(",x{i}=${{v}}")).collect();
    format!("q={}${{r}}\nq=${{q.z}}\n", "${w}".repeat(pieces))
        + &deep_nulls("w", levels, nulls_deep)
        + &nulls()
        + &format!("v=1\nr={{z=1{unresolved}}}\n")
}

/// `e` is an array of some multiple of 500 small values: empty arrays, empty objects, arrays of one null, or empty strings.
fn small_values(count: usize, kind: usize) -> String {
    let value = ["[]", "{}", "[null]", "\"\""][kind];
    format!("n=[{}]\nm={}\ne={}\n", vec![value; 25].join(","), "${n}".repeat(20), "${m}".repeat(count / 500))
}

/// Keys that are alike but for a few bytes behind the middle.
fn alike(length: usize, i: usize) -> String {
    let half = "a".repeat((length / 2).max(2) - 1);
    format!("k{half}m{}{i:03x}z", "a".repeat(length.saturating_sub(length / 2 + 5)))
}

pub const ALL: &[Family] = &[
    Family {
        what: "pieces that name a deep literal, then an object that needs others; hidden",
        parameters: &[("pieces", 1, 1_900), ("needs", 0, 250), ("nulls", 500, 14_000), ("levels", 1, 29)],
        text: |p| hidden(p[0], p[1], p[2], p[3]),
    },
    Family {
        what: "pieces that name a deep literal, then ones that need others",
        parameters: &[("pieces", 1, 1_900), ("needs", 0, 250), ("nulls", 500, 14_000), ("levels", 1, 29)],
        text: |p| question("${w}", p[0], p[1]) + &deep_nulls("w", p[3], p[2]) + &nulls() + &needs(p[1], "{z=1}"),
    },
    Family {
        what: "pieces that name a deep answer",
        parameters: &[("pieces", 1, 1_900), ("needs", 0, 250), ("nulls", 500, 9_500), ("levels", 1, 29)],
        text: |p| {
            question("${w}", p[0], p[1]) + "w=${o}\n" + &deep_nulls("o", p[3], p[2]) + &nulls() + &needs(p[1], "{z=1}")
        },
    },
    Family {
        what: "pieces that name what is deep inside an answer",
        parameters: &[("pieces", 1, 1_900), ("needs", 0, 250), ("nulls", 500, 9_500), ("elements", 1, 15)],
        text: |p| {
            question(&format!("${{w{}}}", ".a".repeat(p[3])), p[0], p[1])
                + "w=${o}\n"
                + &deep_nulls("o", 29, p[2])
                + &nulls()
                + &needs(p[1], "{z=1}")
        },
    },
    Family {
        what: "optional paths that come to nothing deep inside an answer",
        parameters: &[("pieces", 1, 1_900), ("needs", 0, 250), ("nulls", 500, 9_500), ("elements", 1, 14)],
        text: |p| {
            question(&format!("${{?w{}.z}}", ".a".repeat(p[3])), p[0], p[1])
                + "w=${o}\n"
                + &deep_nulls("o", 29, p[2])
                + &nulls()
                + &needs(p[1], "y")
        },
    },
    Family {
        what: "pieces that name an object of objects",
        parameters: &[("pieces", 1, 1_900), ("objects", 1, 200), ("members", 1, 200), ("needs", 0, 250)],
        text: |p| {
            let inner = format!("x={{{}}}\n", members(p[2], numbered("k", "null")));
            inner
                + &question("${w}", p[0], p[3])
                + &format!("w={{{}}}\n", members(p[1], numbered("y", "${x}")))
                + &needs(p[3], "{z=1}")
        },
    },
    Family {
        what: "pieces that name an object of layers",
        parameters: &[("pieces", 1, 1_900), ("layers", 1, 200), ("members", 1, 60), ("needs", 0, 250)],
        text: |p| {
            let layer = format!("w={{{}}}\n", members(p[2], numbered("k", "{l=1}")));
            question("${w}", p[0], p[3]) + &layer.repeat(p[1]) + &needs(p[3], "{z=1}")
        },
    },
    Family {
        what: "pieces that name arrays of empty arrays",
        parameters: &[("pieces", 1, 1_900), ("elements", 1, 60), ("copies", 1, 90), ("needs", 0, 250)],
        text: |p| {
            question("${s}", p[0], p[3])
                + &format!("s={}\ne=[{}]\n", "${e}".repeat(p[2]), vec!["[]"; p[1]].join(","))
                + &needs(p[3], "[]")
        },
    },
    Family {
        what: "pieces that name an object around an array of small values; hidden",
        parameters: &[("pieces", 1, 1_850), ("elements", 500, 5_000), ("kind", 0, 3)],
        text: |p| {
            format!("q={}${{r}}\nq=${{q.z}}\nw={{a=${{e}}}}\nr={{z=1}}\n", "${w}".repeat(p[0]))
                + &small_values(p[1], p[2])
        },
    },
    Family {
        what: "pieces that name an array around an array of small values, then ones that need others",
        parameters: &[("pieces", 1, 1_850), ("elements", 500, 5_000), ("kind", 0, 3), ("needs", 0, 100)],
        text: |p| question("${w}", p[0], p[3]) + "w=[${e}]\n" + &small_values(p[1], p[2]) + &needs(p[3], "[]"),
    },
    Family {
        what: "an object of pieces with members of one null",
        parameters: &[("pieces", 1, 1_900), ("elements", 1, 900), ("needs", 0, 250)],
        text: |p| {
            question("${s}", p[0], p[2]) + &format!("s=[{}]\n", vec!["[null]"; p[1]].join(",")) + &needs(p[2], "[]")
        },
    },
    Family {
        what: "pieces of text",
        parameters: &[("pieces", 1, 1_900), ("bytes", 1, 16_000), ("needs", 0, 250)],
        text: |p| question("${s}", p[0], p[2]) + &format!("s={}\n", "x".repeat(p[1])) + &needs(p[2], "y"),
    },
    Family {
        what: "questions of many pieces in a chain, the last of which is refused",
        parameters: &[("questions", 1, 250), ("pieces", 1, 400), ("members", 1, 300)],
        text: |p| {
            let chain: String = (0..p[0]).map(|i| format!("c{i}={}${{c{}}}\n", "${w}".repeat(p[1]), i + 1)).collect();
            format!("{chain}c{}=${{missing}}\nw={{{}}}\n", p[0], members(p[2], numbered("k", "1")))
        },
    },
    Family {
        what: "an object of fields, named before it, with unresolved ones behind",
        parameters: &[("fields", 1, 1_700), ("needs", 0, 254)],
        text: |p| {
            format!(
                "v=1,x=${{o}},o={{{},{}}}",
                members(p[0], numbered("f", "1")),
                members(p[1].max(1), numbered("g", "${v}"))
            )
        },
    },
    Family {
        what: "look-backs inside one object behind other fields",
        parameters: &[("look-backs", 1, 250), ("fields", 1, 1_700), ("pieces", 1, 30)],
        text: |p| {
            let pieces = "${?o.l}".repeat(p[2]);
            format!("o={{{},{}}}", members(p[1], numbered("f", "1")), members(p[0], |_| format!("l={pieces}1")))
        },
    },
    Family {
        what: "paths into an answer of many members",
        parameters: &[("paths", 1, 250), ("pieces", 1, 100), ("members", 1, 1_500)],
        text: |p| {
            let pieces = format!("${{o.c{}}}", p[2]).repeat(p[1]);
            format!("w={{{}}}\no=${{w}}\n", members(p[2], numbered("c", "1")))
                + &members(p[0], |i| format!("r{i}={pieces}"))
        },
    },
    Family {
        what: "paths into a literal of many members",
        parameters: &[("paths", 1, 250), ("pieces", 1, 100), ("members", 1, 1_500)],
        text: |p| {
            let pieces = format!("${{o.c{}}}", p[2]).repeat(p[1]);
            format!("o={{{}}}\n", members(p[2], numbered("c", "1"))) + &members(p[0], |i| format!("r{i}={pieces}"))
        },
    },
    Family {
        what: "layers that each name those before them",
        parameters: &[("layers", 1, 250), ("members", 1, 40)],
        text: |p| format!("a=${{?a}}{{{}}}\n", members(p[1], numbered("k", "1"))).repeat(p[0]),
    },
    Family {
        what: "keys alike but for few bytes, and paths of the oldest",
        parameters: &[("keys", 1, 1_500), ("length", 8, 60), ("references", 1, 250), ("elements", 1, 15)],
        text: |p| {
            let path = vec![alike(p[1], 0); p[3]].join(".");
            (0..p[0]).map(|i| alike(p[1], i) + "=1\n").collect::<String>()
                + &(0..p[2]).map(|i| format!("r{i}=${{?{path}}}\n")).collect::<String>()
        },
    },
    Family {
        what: "keys of two letters in two forms each, whose sums by 31 are equal",
        parameters: &[("keys", 1, 1_900), ("pairs", 4, 11)],
        text: |p| {
            let key = |i: usize| (0..p[1]).map(|bit| if i >> bit & 1 == 0 { "Aa" } else { "BB" }).collect::<String>();
            (0..p[0].min(1 << p[1])).map(|i| key(i) + "=1\n").collect()
        },
    },
];
