//! Each limit of look-up, met and passed by one, through the library and through the plain look-up. What is over a
//! limit would be found otherwise.

use native::{look_up, plain, Answer, Refusal};

const NULL: &[u8] = &[1];

fn array(count: u16) -> Vec<u8> {
    [&[6], &count.to_be_bytes()[..]].concat()
}

/// The head of an object with one member, whose key is at this offset of the text and has this length.
fn object(offset: u16, length: u16) -> Vec<u8> {
    [&[7, 0, 1, 8], &offset.to_be_bytes()[..], &length.to_be_bytes()].concat()
}

fn found(start: usize, size: usize) -> Answer {
    Ok(start..start + size)
}

fn refused(number: u8, place: usize) -> Answer {
    Err(Refusal { number, place })
}

#[track_caller]
fn answers(table: &[u8], text: &[u8], path: &[u8], stated: Answer) {
    assert_eq!(look_up(table, text, path), stated, "the library");
    assert_eq!(plain::look_up(table, text, path), stated, "the plain look-up");
}

#[test]
fn path_text() {
    let table = |length| [&object(0, length), NULL].concat();
    answers(&table(1024), &[b'a'; 1024], &[b'a'; 1024], found(8, 1));
    answers(&table(1025), &[b'a'; 1025], &[b'a'; 1025], refused(1, 0));
    // A length that is small again if only 16 bits of it are looked at.
    answers(&table(1), b"a", &vec![b'a'; 65_537], refused(1, 0));
    // The last places that a refusal of a path can have.
    answers(&table(1), b"a", &[b"\"", &[b'a'; 1023][..]].concat(), refused(4, 1024));
    answers(&table(1), b"a", &[&[b'a'; 1023][..], b"+"].concat(), refused(3, 1023));
}

#[test]
fn path_elements() {
    let table = [object(0, 1).repeat(17), NULL.to_vec()].concat();
    let path = |count| vec!["a"; count].join(".").into_bytes();
    answers(&table, b"a", &path(16), found(128, 9));
    answers(&table, b"a", &path(17), refused(8, 32));
    // As many as a path text has room for.
    answers(&table, b"a", &path(512), refused(8, 32));
}

#[test]
fn nesting() {
    let arrays = |count| [object(0, 1), array(1).repeat(count), NULL.to_vec()].concat();
    answers(&arrays(31), b"a", b"a", found(8, 94));
    answers(&arrays(32), b"a", b"a", refused(15, 0));
    let objects = |count| [object(0, 1).repeat(count), NULL.to_vec()].concat();
    answers(&objects(32), b"a", b"a", found(8, 249));
    answers(&objects(33), b"a", b"a", refused(15, 0));
    // As deep as a lent table has room for.
    answers(&array(1).repeat(10_922), b"", b"a", refused(15, 0));
}

#[test]
fn lent_table() {
    let table = |nulls: u16| [object(0, 1), array(nulls), NULL.repeat(nulls.into())].concat();
    assert_eq!(table(32_757).len(), 32_768);
    answers(&table(32_757), b"a", b"a", found(8, 32_760));
    answers(&table(32_758), b"a", b"a", refused(1, 0));
    answers(&[&[7, 0, 1, 8, 0, 0, 0, 1, 1], &vec![0; 65_536][..]].concat(), b"a", b"a", refused(1, 0));
}

#[test]
fn lent_text() {
    let table = |offset| [&object(offset, 1), NULL].concat();
    let text = |before| [&vec![b'b'; before][..], b"a"].concat();
    answers(&table(32_767), &text(32_767), b"a", found(8, 1));
    answers(&table(32_768), &text(32_768), b"a", refused(1, 0));
    answers(&table(0), &vec![b'a'; 65_537], b"a", refused(1, 0));
}
