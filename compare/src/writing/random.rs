//! Lists of records to write: what a reader might make, and words and texts changed so that none does.

use super::records::{laid, Said};
use super::{text_places, used};
use crate::cases::Random;
use crate::readers::ACTION_WORDS;
use crate::spans::{halves, span};

/// Records and a text buffer.
pub type List = (Vec<u64>, Vec<u8>);

const MOST: u64 = u64::MAX;

/// What plain texts are made of, and awkward ones.
const PLAIN: &[&str] = &["a", "tx", "ip", "score", "none", "END", "x y", "owasp/3", "%{TX.0}", "7", "0"];
const AWKWARD: &[&str] = &[
    "",
    "'",
    "\"",
    "'x'",
    "\"x\"",
    "a'b",
    "a\"b",
    "(",
    ")",
    "(a,b)",
    ",",
    "=",
    "=b",
    ".",
    "a.b",
    "!",
    "!tx",
    "A",
    "Tx",
    ":",
    "\\",
    "\\\n",
    "\\\r",
    "\n",
    "\r",
    "\t",
    " ",
    " x",
    "x ",
    "\x0b",
    "\0",
    "\x7f",
    "1",
    "5",
    "01",
    "-5",
    "+",
    "+5",
    "-",
    "%{",
    "+%{x}",
    "9223372036854775807",
    "9223372036854775808",
    "-9223372036854775808",
    "deny",
    "t:none",
];

/// Numbers at the edges of the widths that actions have, and of their digits.
const NUMBERS: &[u64] = &[
    0,
    1,
    9,
    10,
    99,
    100,
    255,
    256,
    999,
    65_535,
    65_536,
    (1 << 31) - 1,
    1 << 31,
    (1 << 32) - 1,
    1 << 32,
    (1 << 63) - 1,
    1 << 63,
    (1 << 63) + 1,
    9_999_999_999_999_999_999,
    10_000_000_000_000_000_000,
    MOST,
];

/// Codes and value kinds that are none, and what is one in a narrower field.
const NO_CODES: &[u64] = &[0, 33, 34, 255, 256, (1 << 32) + 1, (1 << 32) + 22, 1 << 63, MOST];
const NO_KINDS: &[u64] = &[0, 7, 8, 256, (1 << 32) + 1, (1 << 63) + 5, MOST];

/// Bytes that decide what is read, and some past ASCII.
const BYTES: &[u8] = b"'\"=.!(),\\\n\r \tA1+-%{:a\x00\x7f\x80\xc3\xff";

fn text(random: &mut Random) -> String {
    match random.below(8) {
        0..=3 => random.one(PLAIN).to_string(),
        4 | 5 => (0..1 + random.below(3)).map(|_| *random.one(AWKWARD)).collect(),
        6 => (0..1 + random.below(2)).flat_map(|_| [*random.one(PLAIN), *random.one(AWKWARD)]).collect(),
        _ => String::new(),
    }
}

fn number(random: &mut Random) -> u64 {
    match random.below(8) {
        0..=4 => random.below(256) as u64,
        5 | 6 => *random.one(NUMBERS),
        _ => random.number(),
    }
}

/// A setvar's collection is mostly one that stands in rules.
fn text_at(random: &mut Random, code: u64, place: usize) -> Vec<u8> {
    if code == 22 && place == 2 && random.below(4) != 0 {
        return random.one(&["tx", "ip", "session", ""]).as_bytes().to_vec();
    }
    text(random).into_bytes()
}

/// A record with the words that its action has.
fn said(random: &mut Random) -> Said {
    let code = match random.below(60) {
        0 => *random.one(NO_CODES),
        1..=14 => 22,
        _ => 1 + random.below(32) as u64,
    };
    let kind = match random.below(60) {
        _ if code != 22 => 0,
        0 => *random.one(NO_KINDS),
        _ => 1 + random.below(6) as u64,
    };
    let has_number = used(code, kind).is_some_and(|has| has.contains(&1));
    let texts = text_places(code, kind).into_iter().map(|place| (place, text_at(random, code, place))).collect();
    Said { code, number: if has_number { number(random) } else { 0 }, kind, texts }
}

/// A few records, their texts from an offset on, with sources and a buffer that may be longer.
pub fn list(random: &mut Random) -> List {
    let records: Vec<Said> = (0..1 + random.below(4)).map(|_| said(random)).collect();
    let (mut words, mut text) = laid(random.below(8) / 3 * random.below(5), &records);
    let any = random.number();
    words.iter_mut().skip(ACTION_WORDS - 1).step_by(ACTION_WORDS).for_each(|source| *source = any);
    text.extend(&b"more"[..random.below(8) / 5 * random.below(5)]);
    (words, text)
}

/// A span with its offset or its length moved, or any.
fn moved(random: &mut Random, word: u64, len: usize) -> u64 {
    let (first, many) = halves(word);
    let (first, many, by) = (first as u64, many as u64, 1 + random.below(3) as u64);
    match random.below(9) {
        0 => span(first + by, many),
        1 => span(first.saturating_sub(by), many),
        2 => span(first, many + by),
        3 => span(first, many.saturating_sub(by)),
        4 => span(first + by, many.saturating_sub(by)),
        5 => span(len as u64 + random.below(2) as u64, many),
        6 => span(first, len as u64 - first.min(len as u64) + random.below(3) as u64),
        7 => span(*random.one(&[0, (1 << 31) - 1, 1 << 31, (1 << 32) - 1]), *random.one(&[0, 1, 1 << 31, (1 << 32) - 1])),
        _ => *random.one(NUMBERS),
    }
}

/// One change to a word of a record.
fn change_word(random: &mut Random, words: &mut [u64], len: usize) {
    let at = random.below(words.len() / ACTION_WORDS) * ACTION_WORDS;
    let (place, other) = (at + 1 + random.below(6), at + 1 + random.below(6));
    match random.below(12) {
        0 => words[at] = 1 + random.below(32) as u64,
        1 => words[at] = *random.one(NO_CODES),
        2 => words[at + 1] = *random.one(NUMBERS),
        3 => words[at + 4] = 1 + random.below(6) as u64,
        4 => words[at + 4] = *random.one(NO_KINDS),
        5..=7 => {
            let word = at + *random.one(&[2, 3, 5]);
            words[word] = moved(random, words[word], len);
        }
        8 => words.swap(place, other),
        9 => words[place] = words[other],
        10 => words[place] = 1 + random.below(2) as u64,
        _ => words[place] ^= 1 << random.below(64),
    }
}

/// The spans of texts from one on, each moved by so many bytes, as if these were put in there.
fn shift(words: &mut [u64], from: usize, by: u64) {
    for record in words.chunks_exact_mut(ACTION_WORDS) {
        for place in text_places(record[0], record[4]) {
            if from <= halves(record[place]).0 {
                record[place] = record[place].wrapping_add(span(by, 0));
            }
        }
    }
}

/// One change to the text buffer.
fn change_text(random: &mut Random, words: &mut [u64], text: &mut Vec<u8>) {
    let (at, byte) = (random.below(text.len()), *random.one(BYTES));
    match random.below(6) {
        0..=2 if !text.is_empty() => text[at] = byte,
        3 => drop(text.pop()),
        4 => {
            // a byte between two texts, which is none where it stands before the first
            let at = at.min(text.len());
            text.insert(at, byte);
            shift(words, at, 1);
        }
        _ => text.push(byte),
    }
}

/// One change to which records stand.
fn change_records(random: &mut Random, words: &mut Vec<u64>) {
    let count = words.len() / ACTION_WORDS;
    let part = |at: usize| at * ACTION_WORDS..(at + 1) * ACTION_WORDS;
    let (one, other) = (random.below(count), random.below(count));
    match random.below(5) {
        0 => drop(words.drain(part(one))),
        1 => {
            let copy = words[part(one)].to_vec();
            words.splice(part(other).start..part(other).start, copy);
        }
        2 => {
            let copy = words[part(one)].to_vec();
            words.copy_within(part(other), part(one).start);
            words[part(other)].copy_from_slice(&copy);
        }
        3 => words.truncate(words.len() - random.below(ACTION_WORDS)),
        _ => words.extend((0..1 + random.below(ACTION_WORDS - 1)).map(|_| random.number())),
    }
}

/// A change or two, of which some are none to what is written.
pub fn changed(random: &mut Random, (mut words, mut text): List) -> List {
    for _ in 0..1 + random.below(5) / 4 {
        match random.below(9) {
            _ if words.len() < ACTION_WORDS => words.extend([1, 0, 0, 0, 0, 0, 0]),
            0..=4 => change_word(random, &mut words, text.len()),
            5..=7 => change_text(random, &mut words, &mut text),
            _ => change_records(random, &mut words),
        }
    }
    (words, text)
}
