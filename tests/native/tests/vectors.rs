//! The vectors of crates/test_look_up and crates/test_resolve, whose answers were written by hand, through the library and
//! through its plain counterparts.

use native::{jobs, look_up, plain, plain_resolve, Answer, Refusal};
use std::{fs, io::Write, path::Path};

/// A file of a program that runs vectors.
fn read(program: &str, name: &str) -> Vec<u8> {
    let file = Path::new(env!("CARGO_MANIFEST_DIR")).join("../../crates").join(program).join(name);
    fs::read(&file).unwrap_or_else(|error| panic!("{}: {error}", file.display()))
}

/// The next number: 4 bytes, high byte first.
fn number(rest: &mut &[u8]) -> usize {
    let (number, after) = rest.split_first_chunk().expect("a vector ends in a number");
    *rest = after;
    u32::from_be_bytes(*number) as usize
}

/// The next part: its length, a number, and so many bytes.
fn part<'a>(rest: &mut &'a [u8]) -> &'a [u8] {
    let length = number(rest);
    let (part, after) = rest.split_at(length);
    *rest = after;
    part
}

/// The answer that a line 'number place start size kind length' states, where kind and length are the first byte of the value in the
/// table and how long it is.
fn stated(line: &str, table: &[u8]) -> Answer {
    let numbers: Vec<usize> = line.split(' ').map(|number| number.parse().unwrap()).collect();
    match numbers[..] {
        [0, 0, start, size, kind, length] if usize::from(table[start]) == kind && length == size => {
            Ok(start..start + size)
        }
        [number, place, 0, 0, 0, 0] => Err(Refusal { number: number as u8, place }),
        _ => panic!("not an answer: {line:?}"),
    }
}

#[test]
fn look_ups() {
    let (vectors, answers) = (read("test_look_up", "stdin"), read("test_look_up", "stdout"));
    let answers = String::from_utf8(answers).unwrap();
    let mut rest = &vectors[..];
    let mut count = 0;
    for line in answers.lines() {
        count += 1;
        let (table, text, path) = (part(&mut rest), part(&mut rest), part(&mut rest));
        let stated = stated(line, table);
        let path_text = path.escape_ascii();
        assert_eq!(look_up(table, text, path), stated, "the library, vector {count}, path {path_text}");
        assert_eq!(plain::look_up(table, text, path), stated, "the plain look-up, vector {count}, path {path_text}");
    }
    assert!(rest.is_empty(), "vectors without an answer");
    assert!(count > 0, "no vectors");
    // Straight to the stream, since cargo hides what a passing test prints.
    writeln!(std::io::stdout(), "{count} look-ups answered as stated").unwrap();
}

/// The lines for a refusal or a sheet, as crates/test_resolve writes them.
fn resolved_lines(answer: Result<plain_resolve::Sheet, Refusal>) -> Vec<String> {
    let hex = |part: &[u8]| match part {
        [] => "-".to_owned(),
        _ => part.iter().map(|byte| format!("{byte:02x}")).collect(),
    };
    match answer {
        Err(Refusal { number, place }) => vec![format!("{number} {place}")],
        Ok(sheet) => {
            let parts = [&sheet.trail, &sheet.table, &sheet.text];
            let lengths = parts.map(|part| part.len().to_string()).join(" ");
            let mut lines = vec![format!("0 {} {lengths}", sheet.count)];
            if sheet.table.len() <= 256 {
                lines.push(parts.map(|part| hex(part)).join(" "));
            }
            lines
        }
    }
}

fn checked_line(answer: Result<(), Refusal>) -> String {
    answer.map_or_else(|Refusal { number, place }| format!("{number} {place}"), |()| "0 0".to_owned())
}

/// The library's sheet, or its refusal.
fn resolve(
    document: &[u8],
    environment: &[u8],
    budget: u64,
    rooms: plain_resolve::Rooms,
) -> Result<plain_resolve::Sheet, Refusal> {
    let [mut trail, mut table, mut text] = [rooms.trail, rooms.table, rooms.text].map(|length| vec![0xa5; length]);
    let done = jobs::resolve(document, environment, budget, &mut trail, &mut table, &mut text)?;
    trail.truncate(done.trail);
    table.truncate(done.table);
    text.truncate(done.text);
    Ok(plain_resolve::Sheet { count: done.count, trail, table, text })
}

fn resolve_vectors() {
    let (vectors, answers) = (read("test_resolve", "stdin"), read("test_resolve", "stdout"));
    let answers = String::from_utf8(answers).unwrap();
    let mut lines = answers.lines();
    let mut rest = &vectors[..];
    let mut count = 0;
    while !rest.is_empty() {
        count += 1;
        let (job, document, environment) = (number(&mut rest), part(&mut rest), part(&mut rest));
        if job == 2 {
            let [trail, table, text] = [part(&mut rest), part(&mut rest), part(&mut rest)];
            let stated = lines.next();
            let answer = checked_line(jobs::check(document, environment, trail, table, text));
            let plain = checked_line(plain_resolve::check(document, environment, trail, table, text));
            assert_eq!(Some(&answer[..]), stated, "the library's check, vector {count}, {}", document.escape_ascii());
            assert_eq!(Some(&plain[..]), stated, "the plain check, vector {count}, {}", document.escape_ascii());
            continue;
        }
        let budget = number(&mut rest) as u64;
        let rooms =
            plain_resolve::Rooms { trail: number(&mut rest), table: number(&mut rest), text: number(&mut rest) };
        let sheet = resolve(document, environment, budget, rooms);
        let plain = plain_resolve::resolve(document, environment, budget, rooms);
        assert_eq!(sheet, plain, "vector {count}, {}", document.escape_ascii());
        for line in resolved_lines(sheet.clone()) {
            assert_eq!(Some(&line[..]), lines.next(), "vector {count}, {}", document.escape_ascii());
        }
        if let Ok(sheet) = sheet {
            let answer = jobs::check(document, environment, &sheet.trail, &sheet.table, &sheet.text);
            assert_eq!(lines.next(), Some(&format!("check {}", checked_line(answer))[..]), "vector {count}");
        }
    }
    assert_eq!(lines.next(), None, "answers without a vector");
    assert!(count > 0, "no vectors");
    writeln!(std::io::stdout(), "{count} resolutions and checks answered as stated").unwrap();
}

#[test]
fn resolutions() {
    plain_resolve::with_stack(resolve_vectors);
}
