//! Action records written back: edges, every record of small words, every short text of each action, the limit, records out of packages,
//! and random ones with words and texts changed.

use super::long::Extent;
use super::Run;
use crate::cases::{Random, Set};
use crate::check::{Checker, LENDS};
use crate::directives::{self, Package, Version};
use crate::ours;
use crate::packages::Pools;
use crate::readers::{ACTION_WORDS, DIRECTIVE_WORDS};
use crate::real::Real;
use crate::spans::{span, BASE};
use crate::underlined;
use crate::writing::{changed, edges, laid, limits, list, text_places, written, List, Said};
use std::time::{Duration, Instant};

/// So long a list that differs is made shorter, at most.
const PATIENCE: Duration = Duration::from_secs(20);

/// Words that are shown of it, and bytes.
const SHOWN: usize = 70;

/// What the texts of actions are made of: all that decides how they are read, and a byte past ASCII.
const TEXTS: &[&str] =
    &["'", "\"", "=", ".", "!", "(", ")", ",", "\\", "\n", "\r", " ", "\t", "\x0b", "\0", "a", "A", "1", "+", "-", "%{", "\u{80}"];

/// The same for what a setvar has: its names, and its value.
const NAMED: &[&str] = &["", "tx", "a", "A", ".", "=", "!", "'", "\"", " ", ",", "(", "\\\n", "1"];
const VALUES: &[&str] = &["", "1", "0", "+", "-", "%", "{", "a", "=", "'", "\"", " ", ",", ")", "\\\r", "9223372036854775807"];

/// Amounts of steps, and numbers.
const AMOUNTS: [i64; 9] = [0, 1, -1, 9, 10, -10, i64::MAX, i64::MIN + 1, i64::MIN];

/// The words of every small record: a number, three texts in a buffer of three bytes, and a value kind; words that are none too.
const NUMBERS: [u64; 4] = [0, 1, 255, 256];
const FIRST: [u64; 4] = [0, span(0, 1), span(1, 1), span(4, 0)];
const SECOND: [u64; 5] = [0, span(1, 0), span(1, 1), span(0, 1), span(2, 2)];
const LAST: [u64; 4] = [0, span(2, 1), span(1, 1), span(2, 0)];

/// Actions with one text.
const ONE_TEXT: [u64; 9] = [6, 9, 14, 15, 16, 17, 20, 25, 32];

/// What differs in a list, with any room.
fn differs((words, text): &List) -> Option<String> {
    let mut checker = Checker::new(false);
    (0..LENDS).find_map(|_| checker.writes(words, text).err())
}

/// Fewer records, and a shorter buffer, that differ still.
fn minimal(mut of: List) -> List {
    let until = Instant::now() + PATIENCE;
    let mut width = of.0.len() / ACTION_WORDS;
    while 0 < width {
        let mut at = 0;
        while (at + width) * ACTION_WORDS <= of.0.len() && Instant::now() < until {
            let words = [&of.0[..at * ACTION_WORDS], &of.0[(at + width) * ACTION_WORDS..]].concat();
            let less = (words, of.1.clone());
            if differs(&less).is_some() {
                of = less;
            } else {
                at += width;
            }
        }
        width /= 2;
    }
    while let Some((_, less)) = of.1.split_last() {
        let less = (of.0.clone(), less.to_vec());
        if differs(&less).is_none() || until < Instant::now() {
            break;
        }
        of = less;
    }
    of
}

/// A list for people: the fronts of long ones.
fn shown((words, text): &List) -> String {
    let (front, bytes) = (&words[..words.len().min(SHOWN)], &text[..text.len().min(SHOWN)]);
    format!("{front:?}, of {} words, with \"{}\", of {} bytes", words.len(), bytes.escape_ascii(), text.len())
}

/// The action records of each rule of a package, and those of all together, whose texts have others between them.
fn rules(package: &Package) -> impl Iterator<Item = List> + '_ {
    let acting = package.directives.chunks_exact(DIRECTIVE_WORDS).filter(|record| record[10] != 0);
    let each = acting.map(|record| package.actions_of(record));
    each.chain([&package.actions[..]]).map(|words| (words.to_vec(), package.texts.clone()))
}

/// Text as bytes in which the one character past ASCII is a byte past it.
fn bytes(text: &[u8]) -> Vec<u8> {
    text.iter().filter(|byte| **byte != 0xC2).copied().collect()
}

impl Run {
    /// Whether to go on: a list of records and its text buffer, by what it must come to.
    fn write_case(&mut self, words: &[u64], text: &[u8]) -> bool {
        self.progress("written back");
        let Err(difference) = self.checker.writes(words, text) else { return true };
        self.fine = false;
        println!("records written back differ: {difference}");
        let small = minimal((words.to_vec(), text.to_vec()));
        println!("a minimal list: {}", shown(&small));
        println!("there: {}", differs(&small).unwrap_or_default());
        false
    }

    /// A record alone, and with another behind it.
    fn record_case(&mut self, said: Said) -> bool {
        [vec![said.clone()], vec![said, Said::plain(26, 0)]].iter().all(|list| {
            let (words, text) = laid(0, list);
            self.write_case(&words, &text)
        })
    }

    /// Each edge with each room that may be lent.
    fn write_edges(&mut self) -> bool {
        edges().into_iter().all(|(words, text, _)| (0..LENDS).all(|_| self.write_case(&words, &text)))
    }

    /// Every record of small words, with a text buffer of three bytes.
    fn small_records(&mut self) -> bool {
        let texts = FIRST.iter().flat_map(|a| SECOND.iter().flat_map(move |b| LAST.iter().map(move |c| [*a, *b, *c])));
        for [a, b, c] in texts {
            for (code, kind) in (0..=34).flat_map(|code| (0..=7).map(move |kind| (code, kind))) {
                if !NUMBERS.iter().all(|number| self.write_case(&[code, *number, a, b, kind, c, 9], b"txa")) {
                    return false;
                }
            }
        }
        true
    }

    /// Every byte alone, at each end and in the midst of each text of each action, whose other texts are plain.
    fn every_byte(&mut self) -> bool {
        let actions = (1..=32).flat_map(|code| (0..=6).map(move |kind| (code, kind)));
        for (code, kind) in actions.filter(|(code, kind)| (*code == 22) == (*kind != 0)) {
            let places = text_places(code, kind);
            for (at, byte) in places.iter().flat_map(|at| (0..=255).map(move |byte| (*at, byte))) {
                for text in [vec![byte], vec![byte, b'x'], vec![b'x', byte], vec![b'x', byte, b'x']] {
                    let other = |place: usize| if (place, kind) == (5, 6) { b"%{".to_vec() } else { b"y".to_vec() };
                    let texts = places.iter().map(|place| (*place, if *place == at { text.clone() } else { other(*place) })).collect();
                    if !self.record_case(Said { code, number: 0, kind, texts }) {
                        return false;
                    }
                }
            }
        }
        true
    }

    /// Every text of so many pieces in each action that has one, and on both sides of an action that has two.
    fn short_texts(&mut self, longest: usize) -> bool {
        Set { readers: &[], alphabet: TEXTS, quick: 0, full: 0 }.each(longest, &mut |text| {
            let text = bytes(text);
            let one = |code| Said { code, number: 0, kind: 0, texts: vec![(2, text.clone())] };
            let cut = text.len() / 2;
            let two = |code| Said { code, number: 0, kind: 0, texts: vec![(2, text[..cut].to_vec()), (3, text[cut..].to_vec())] };
            ONE_TEXT.iter().all(|code| self.record_case(one(*code))) && [24, 31].iter().all(|code| self.record_case(two(*code)))
        })
    }

    /// Every setvar of short names, with each kind of value.
    fn short_settings(&mut self, longest: usize) -> bool {
        let names = NAMED.iter().flat_map(|collection| NAMED.iter().map(move |key| (*collection, *key)));
        for (collection, key) in names {
            let steps = AMOUNTS.iter().flat_map(|amount| [2, 3, 4].map(|kind| (kind, *amount)));
            if !steps.chain([(5, 0), (5, 1)]).all(|(kind, amount)| self.record_case(Said::step(collection, key, kind, amount))) {
                return false;
            }
            let texts = Set { readers: &[], alphabet: VALUES, quick: 0, full: 0 }.each(longest, &mut |value| {
                let value = std::str::from_utf8(value).expect("ASCII");
                [1, 6].iter().all(|kind| self.record_case(Said::set(collection, key, *kind, value)))
            });
            if !texts {
                return false;
            }
        }
        true
    }

    fn long_lists(&mut self) -> bool {
        limits().into_iter().all(|(words, text, _)| self.write_case(&words, &text)) && self.far_texts()
    }

    /// Texts about the last place that a span word can tell, in a buffer that is longer, of which hardly a byte is touched.
    fn far_texts(&mut self) -> bool {
        let len = BASE as usize + 16;
        if Vec::<u8>::new().try_reserve_exact(len).is_err() {
            println!("left out: there is no memory for a text buffer of {len} bytes");
            return true;
        }
        let buffer = vec![0; len];
        for (first, len) in [(BASE - 3, 2), (BASE - 2, 2), (BASE - 1, 0), (BASE - 1, 1), (BASE - 9, 8), (BASE - 9, 9), (0, 2)] {
            for code in [14, 32] {
                let words = [code, 0, span(first, len), 0, 0, 0, 0];
                let (mut out, mut values) = ([7; 20], [7]);
                let got = (ours::write_actions(&words, &buffer, &mut out, &mut values), values[0]);
                let (expected, spelling) = match written(&words, &buffer) {
                    Ok(spelling) => ((0, spelling.len() as u64), spelling),
                    Err(record) => ((19, record as u64), String::new()),
                };
                let zeros = out[spelling.len()..].iter().all(|byte| *byte == 0);
                if got != expected || !out.starts_with(spelling.as_bytes()) || !zeros {
                    println!("a text of {len} bytes at {first} written back: {got:?} and not {expected:?}, {out:?}");
                    self.fine = false;
                }
            }
        }
        self.fine
    }

    /// The records of real rules out of their packages, where their texts stand behind others.
    fn real_lists(&mut self, real: &Real) -> bool {
        let (before, unwritten) = (self.checker.written, self.checker.unwritten);
        let ascii = real.arguments.iter().filter_map(|list| std::str::from_utf8(list).ok());
        let lists = ascii.filter(|list| list.is_ascii()).map(underlined::actions).filter(|read| read.number == 0 && !read.words.is_empty());
        let fine = lists.into_iter().all(|read| self.write_case(&read.words, &read.texts));
        if fine && !real.arguments.is_empty() {
            let [of, not] = [self.checker.written - before, self.checker.unwritten - unwritten];
            println!("of the real arguments that are read as action lists {of} are written back, and {not} not");
        }
        let texts = real.files.iter().chain(&real.copies).filter_map(|file| std::str::from_utf8(file).ok().filter(|text| text.is_ascii()));
        let packages = texts.map(|text| directives::read(text, Version::V2_6)).filter(|package| package.number == 0);
        fine && packages.into_iter().all(|package| rules(&package).all(|(words, text)| self.write_case(&words, &text)))
    }

    /// What is named rather than drawn.
    fn chosen_lists(&mut self, extent: Extent, real: &Real) -> bool {
        let before = self.checker.written + self.checker.unwritten;
        let (texts, values) = match extent {
            Extent::Full => (4, 3),
            Extent::Quick => (2, 2),
            Extent::Alone => (2, 1),
        };
        let fine = self.write_edges() && self.small_records() && self.every_byte();
        let fine = fine && self.short_texts(texts) && self.short_settings(values);
        // a memory checker takes too long on long ones
        if !fine || !(extent == Extent::Alone || self.long_lists()) || !self.real_lists(real) {
            return false;
        }
        let lists = self.checker.written + self.checker.unwritten - before;
        println!(
            "edges written back, every small record, every byte and every text of up to {texts} of {} pieces in each action, and long ones: {lists} lists",
            TEXTS.len()
        );
        true
    }

    /// One random list: drawn, or of a random package or an action list, mostly changed.
    fn drawn(random: &mut Random, pools: &Pools) -> List {
        let of = match random.below(8) {
            0 => {
                let read = underlined::actions(&pools.actions(random));
                (read.words, read.texts)
            }
            1 => {
                let package = String::from_utf8(pools.package(random, 600)).expect("ASCII");
                let all: Vec<List> = rules(&directives::read(&package, Version::V2_6)).collect();
                random.one(&all).clone()
            }
            _ => list(random),
        };
        match random.below(4) {
            0 => of,
            _ => changed(random, of),
        }
    }

    pub(super) fn writing(&mut self, random: &mut Random, turns: u64, extent: Extent, real: &Real) {
        if !self.chosen_lists(extent, real) {
            return;
        }
        let (written, unwritten, pools) = (self.checker.written, self.checker.unwritten, Pools::new());
        for _ in 0..turns {
            let (words, text) = Run::drawn(random, &pools);
            if !self.write_case(&words, &text) {
                return;
            }
        }
        let [of, not] = [self.checker.written - written, self.checker.unwritten - unwritten];
        println!("{turns} random lists of records, most of them changed: {of} are written back, and {not} not");
    }
}
