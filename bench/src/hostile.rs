//! Documents within all limits that cost a resolver most.

use crate::families::hidden;
use crate::resolve::Document;

/// `count` members made of a number each, in one line.
pub fn members(count: usize, member: impl Fn(usize) -> String) -> String {
    (1..=count).map(member).collect::<Vec<_>>().join(",")
}

pub fn numbered(prefix: &'static str, value: &'static str) -> impl Fn(usize) -> String {
    move |i| format!("{prefix}{i}={value}")
}

/// Fields `a` and `b` and a literal of `count` copies of `b`, of about 1,530 bytes of records each.
fn large(count: usize) -> (String, String) {
    let before = format!("a={{{}}}\nb={{{}}}\n", members(18, numbered("k", "1")), members(8, numbered("x", "${a}")));
    (before, format!("{{{}}}", members(count, numbered("y", "${b}"))))
}

pub fn all() -> Vec<Document> {
    let (small, whole) = large(10);
    let (_, most) = large(8);
    let (_, half) = large(4);
    [
        ("1,000 keys in one object", members(1_000, numbered("k", "1"))),
        ("1,000 keys alike but for the middle bytes", members(1_000, |i| format!("abcd{i:03}efgh=1"))),
        (
            "700 keys and 213 references to the last",
            members(700, numbered("k", "1")) + "," + &members(213, numbered("r", "${k700}")),
        ),
        (
            "`x=${o}` before o of 510 fields and 254 unresolved ones",
            format!("v=1,x=${{o}},o={{{},{}}}", members(510, numbered("f", "1")), members(254, numbered("g", "${v}"))),
        ),
        (
            "the same over an answer of 600 members",
            format!(
                "v=1,x=${{o}},o={{{}}},o=${{o}},o={{{}}}",
                members(600, numbered("f", "1")),
                members(190, numbered("g", "${v}"))
            ),
        ),
        ("150 times `a=${?a}{k=1}`", "a=${?a}{k=1}\n".repeat(150)),
        (
            "240 look-backs in one object of 600 other fields",
            format!("o={{{},{}}}", members(600, numbered("f", "1")), members(240, |_| "l=${?o.l}1".to_string())),
        ),
        (
            "200 paths of 16 elements into an answer",
            format!("p={}1{},o=${{p}},", "{a=".repeat(15), "}".repeat(15))
                + &members(200, |i| format!("r{i}=${{o{}}}", ".a".repeat(15))),
        ),
        (
            "200 references into an answer of 600 members",
            format!("w={{{}}},o=${{w}},", members(600, numbered("c", "1"))) + &members(200, numbered("r", "${o.c600}")),
        ),
        ("a chain of 255 references", members(255, |i| format!("x{i}=${{x{}}}", i + 1)) + ",x256=1"),
        (
            "1,000 pieces of 500 members each",
            format!("p={{{}}},q={}", members(500, numbered("k", "1")), "${p}".repeat(1_000)),
        ),
        ("1,700 pieces of 15 KB each", format!("{small}q={whole}\nq={}\nq=${{q.y1.x1.k1}}", "${q}".repeat(1_700))),
        (
            "a piece of 12 KB and 200 unresolved members",
            format!("{small}v=1\nq={most}\nq=${{q}}{{{}}}\nq=${{q.y1.x1.k1}}", members(200, numbered("m", "${v}"))),
        ),
        (
            "450 object pieces, then 180 that need others",
            format!("v={{z=1}}\n{}\nq=", members(180, numbered("u", "${v}")))
                + &(1..=450).map(|i| format!("{{k{i}=1}}")).collect::<String>()
                + &(1..=180).map(|i| format!("${{u{i}}}")).collect::<String>(),
        ),
        (
            "800 object pieces of 6 KB, then 100 that need others",
            format!("{small}v={{z=1}}\n{}\nq={half}\nq=", members(100, numbered("u", "${v}")))
                + &"${q}".repeat(800)
                + &(1..=100).map(|i| format!("${{u{i}}}")).collect::<String>(),
        ),
        ("100 deep pieces of 13,000 nulls, then one that needs 20 others", hidden(100, 20, 13_000, 29)),
        ("1,400 such pieces, then one that needs 249 others", hidden(1_400, 249, 13_000, 29)),
        ("1,800 such pieces, and nothing is needed", hidden(1_800, 0, 13_000, 29)),
    ]
    .into_iter()
    .map(|(what, text)| Document { what: what.to_string(), text })
    .collect()
}
