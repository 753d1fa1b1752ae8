//! The same search by Debian's aho-corasick, its default automaton and overlapping matches: building it and noting each.
use aho_corasick::AhoCorasick;
use std::slice::{from_raw_parts, from_raw_parts_mut};

/// The words of the tokens, each behind its token's number: its bytes and, for a card number, its bytes reversed, if they then differ.
fn words(book: &[u8]) -> Vec<(u32, Vec<u8>)> {
    let mut found = Vec::new();
    let (mut at, mut number) = (0, 0);
    while book[at] != 0 {
        let kind = book[at] as usize;
        let size = if kind <= 64 { kind } else { 128 << (kind - 65) };
        let body = &book[at + 1..at + 1 + size];
        number += 1;
        found.push((number, body.to_vec()));
        if matches!(size, 4 | 7 | 10) && !body.iter().eq(body.iter().rev()) {
            found.push((number, body.iter().rev().copied().collect()));
        }
        at += 1 + size;
    }
    found
}

/// # Safety
/// The book is accepted, and each pointer has as many entries as is said.
#[no_mangle]
pub unsafe extern "C" fn corasick_sweep(
    book: *const u8, book_len: usize, image: *const u8, n: usize, ends: *mut u32, tokens: *mut u32, room: usize,
) -> u64 {
    let (ends, tokens) = (from_raw_parts_mut(ends, room), from_raw_parts_mut(tokens, room));
    let words = words(from_raw_parts(book, book_len));
    let automaton = AhoCorasick::new(words.iter().map(|(_, word)| word));
    let mut hits = 0;
    for hit in automaton.find_overlapping_iter(from_raw_parts(image, n)) {
        if hits < room {
            ends[hits] = hit.end() as u32;
            tokens[hits] = words[hit.pattern()].0;
        }
        hits += 1;
    }
    hits as u64
}
