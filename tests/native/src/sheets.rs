//! Sheets for check: sound ones, and ones whose entries were moved, dropped or repeated, or that were damaged.

use crate::plain_resolve::Sheet;
use crate::random::Random;

pub fn lent(random: &mut Random, sheet: &Sheet) -> Sheet {
    match random.below(8) {
        0 | 1 => sheet.clone(),
        2..=5 => reordered(random, sheet),
        _ => damaged(random, sheet.clone()),
    }
}

fn damaged(random: &mut Random, mut sheet: Sheet) -> Sheet {
    if random.once_in(25) {
        // About as long as a part may be.
        let length = 32_767 + random.below(3);
        sheet.trail.resize(length, 1);
        return sheet;
    }
    let part = match random.below(3) {
        0 => &mut sheet.trail,
        1 => &mut sheet.table,
        _ => &mut sheet.text,
    };
    let at = random.below(part.len() + 1);
    match random.below(4) {
        0 => part.insert(at, random.byte()),
        1 if at < part.len() => drop(part.remove(at)),
        2 => part.truncate(at),
        _ if at < part.len() => part[at] = part[at].wrapping_add(random.pick(&[1, 255, 7])),
        _ => {}
    }
    sheet
}

/// With whole entries moved, now and then one dropped or repeated; "texts and text offsets follow by the text rule".
fn reordered(random: &mut Random, sheet: &Sheet) -> Sheet {
    let mut entries = entries(&sheet.trail);
    for _ in 0..random.below(4) {
        // Neighbours seldom need one another, so that many of these sheets are sound.
        if entries.len() > 1 {
            let at = random.below(entries.len() - 1);
            entries.swap(at, at + 1);
        }
    }
    if random.once_in(6) {
        (1..entries.len()).rev().for_each(|i| entries.swap(i, random.below(i + 1)));
    }
    if !entries.is_empty() {
        let at = random.below(entries.len());
        match random.below(8) {
            0 => drop(entries.remove(at)),
            1 => entries.push(entries[at]),
            _ => {}
        }
    }
    let mut lent = Sheet { count: entries.len(), ..Sheet::default() };
    for entry in entries {
        lent.trail.extend(&entry[..3]);
        relay(&entry[3..], &sheet.text, &mut lent.trail, &mut lent.text);
    }
    relay(&sheet.table, &sheet.text, &mut lent.table, &mut lent.text);
    lent
}

/// The entries of a sound trail.
fn entries(trail: &[u8]) -> Vec<&[u8]> {
    let mut entries = Vec::new();
    let mut start = 0;
    while start < trail.len() {
        let end = if trail[start] == 10 { start + 3 } else { end(trail, start + 3) };
        entries.push(&trail[start..end]);
        start = end;
    }
    entries
}

fn pair(bytes: &[u8]) -> usize {
    usize::from(bytes[0]) << 8 | usize::from(bytes[1])
}

/// The end of the record at `at` with its members.
fn end(records: &[u8], at: usize) -> usize {
    match records[at] {
        1..=3 => at + 1,
        4 | 5 | 8 => at + 5,
        kind => {
            let members = pair(&records[at + 1..]) * usize::from(kind - 5);
            (0..members).fold(at + 3, |at, _| end(records, at))
        }
    }
}

/// Copies records and their texts, the texts behind those that are there.
fn relay(mut records: &[u8], text: &[u8], to: &mut Vec<u8>, words: &mut Vec<u8>) {
    while let [kind, rest @ ..] = records {
        to.push(*kind);
        let body = match kind {
            4 | 5 | 8 => {
                let (offset, length) = (pair(rest), pair(&rest[2..]));
                to.extend((words.len() as u16).to_be_bytes());
                to.extend(&rest[2..4]);
                words.extend(&text[offset..offset + length]);
                4
            }
            6 | 7 => {
                to.extend(&rest[..2]);
                2
            }
            _ => 0,
        };
        records = &rest[body..];
    }
}
