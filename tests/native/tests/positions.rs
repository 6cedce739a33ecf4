//! Lines and columns written by hand, through the library and by counting; the other tests hold every refusal of the library to the latter.

use native::{jobs, plain_resolve, plain_resolve::Rooms, positions, positions::Position, Refusal};
use std::{fs, io::Write, path::Path};

/// A document as a vector writes it: \n, \r, \t, \\ and \xNN are bytes, all else is as it stands.
fn bytes_of(written: &str) -> Vec<u8> {
    let (mut bytes, mut rest) = (Vec::new(), written);
    while let Some((before, after)) = rest.split_once('\\') {
        bytes.extend(before.bytes());
        let (byte, length) = match after.as_bytes()[0] {
            b'n' => (b'\n', 1),
            b'r' => (b'\r', 1),
            b't' => (b'\t', 1),
            b'x' => (u8::from_str_radix(&after[1..3], 16).expect("two hexadecimal digits"), 3),
            other => (other, 1),
        };
        bytes.push(byte);
        rest = &after[length..];
    }
    bytes.extend(rest.bytes());
    bytes
}

#[test]
fn vectors() {
    let file = Path::new(env!("CARGO_MANIFEST_DIR")).join("../vectors/positions.txt");
    let text = fs::read_to_string(&file).unwrap_or_else(|error| panic!("{}: {error}", file.display()));
    let mut count = 0;
    for line in text.lines().filter(|line| !line.is_empty() && !line.starts_with('#')) {
        let (answer, written) = line.split_once("  ").expect("an answer and a document");
        let numbers: Vec<usize> = answer.split_whitespace().map(|number| number.parse().unwrap()).collect();
        let [number, place, line, column, budget] = numbers[..] else { panic!("not an answer: {answer}") };
        let document = bytes_of(written.trim_start());
        let stated = Refusal { number: number as u8, place };
        assert_eq!(positions::counted(&document, &stated), Position { document: 0, line, column }, "counted, {written}");
        // That the library tells what is counted is asserted in jobs.
        let [mut trail, mut table, mut text] = [vec![0; 32_768], vec![0; 32_768], vec![0; 32_768]];
        let answer = jobs::resolve(&document, b"", budget as u64, &mut trail, &mut table, &mut text);
        assert_eq!(answer.err(), Some(stated), "the library, {written}");
        let plain = plain_resolve::resolve(&document, b"", budget as u64, Rooms { trail: 32_768, table: 32_768, text: 32_768 });
        assert_eq!(plain.err(), Some(stated), "the plain resolver, {written}");
        if !(9..=10).contains(&number) && number != 12 && budget <= 256 {
            assert_eq!(jobs::check(&document, b"", b"", b"", b""), Err(stated), "check, {written}");
        }
        count += 1;
    }
    assert!(count > 0, "no vectors");
    writeln!(std::io::stdout(), "{count} refusals have the stated line and column").unwrap();
}

/// Documents as long as one may be: one line, and empty lines.
#[test]
fn longest() {
    for (filling, line, column) in [(b' ', 1, 32_769), (b'\n', 32_768, 1)] {
        let document = [b"[", &vec![filling; 32_767][..]].concat();
        let refusal = jobs::check(&document, b"", b"", b"", b"").unwrap_err();
        assert_eq!(refusal, Refusal { number: 4, place: 32_768 });
        assert_eq!(positions::counted(&document, &refusal), Position { document: 0, line, column });
    }
    // one byte more is 1, which has no line
    assert_eq!(jobs::check(&[b' '; 32_769], b"", b"", b"", b""), Err(Refusal { number: 1, place: 0 }));
}
