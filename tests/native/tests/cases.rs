//! Document 01's cases, on the plain resolver that the library's resolve and check will be held against.

use native::{plain_resolve, plain_resolve::Rooms, Refusal};

#[track_caller]
fn resolves(document: &str, trail: &[u8], table: &[u8], text: &str) {
    let sheet = plain_resolve::resolve(document.as_bytes(), b"", 256, Rooms::FULL).expect("resolved");
    assert_eq!((&sheet.trail[..], &sheet.table[..], &sheet.text[..]), (trail, table, text.as_bytes()), "{document}");
    let checked = plain_resolve::check(document.as_bytes(), b"", trail, table, text.as_bytes());
    assert_eq!(checked, Ok(()), "{document}");
    let other = [text.as_bytes(), b"x"].concat();
    let checked = plain_resolve::check(document.as_bytes(), b"", trail, table, &other);
    assert_eq!(checked, Err(Refusal { number: 17, place: 0 }), "{document}, a byte more");
}

#[track_caller]
fn refused(document: &str, budget: u64, number: u8, place: usize) {
    let refusal = plain_resolve::resolve(document.as_bytes(), b"", budget, Rooms::FULL).unwrap_err();
    assert_eq!(refusal, Refusal { number, place }, "{document}");
}

/// "Cases proved together as one table"
#[test]
fn cases_of_document_01() {
    resolves("", &[], &[7, 0, 0], "");
    resolves("a=1", &[], &[7, 0, 1, 8, 0, 0, 0, 1, 4, 0, 1, 0, 1], "a1");
    resolves(
        "a=1,b=${a}",
        &[9, 0, 0, 4, 0, 0, 0, 1],
        &[7, 0, 2, 8, 0, 1, 0, 1, 4, 0, 2, 0, 1, 8, 0, 3, 0, 1, 4, 0, 4, 0, 1],
        "1a1b1",
    );
    refused("a=1,b=${a}", 0, 12, 6);
    refused("[1,,2]", 256, 3, 3);
    resolves(
        "foo:{a:{c:1}},foo:${foo.a},foo:{a:2}",
        &[9, 0, 0, 7, 0, 1, 8, 0, 0, 0, 1, 4, 0, 1, 0, 1],
        &[7, 0, 1, 8, 0, 2, 0, 3, 7, 0, 2, 8, 0, 5, 0, 1, 4, 0, 6, 0, 1, 8, 0, 7, 0, 1, 4, 0, 8, 0, 1],
        "c1fooa2c1",
    );
    refused("a=[${a}]", 256, 10, 3);
    refused("a=${a}", 256, 9, 2);
    resolves("a=${?a}foo", &[9, 0, 0, 5, 0, 0, 0, 3], &[7, 0, 1, 8, 0, 3, 0, 1, 5, 0, 4, 0, 3], "fooafoo");
    refused("bar=${foo},foo=${bar}", 256, 10, 4);
    refused("a=${x}", 256, 9, 2);
    resolves("a=${x},a=1", &[], &[7, 0, 1, 8, 0, 0, 0, 1, 4, 0, 1, 0, 1], "a1");
    refused("a=[1] 5", 256, 11, 6);
}
