//! The stored questions and answers for whole directives: every edge, and random packages, each with the model's answer. Behind them stand
//! those on action records written back (`written`).
//!
//! A question is `D` for 2.6 and `E` for 2.7, a blank and the package in hexadecimal. Its answer is the number; for 0 the counts of
//! directive, variable and action records, the length of the texts, the words of all three lists of records and the texts in hexadecimal
//! (`-` where empty); for a refusal its values, and the name in hexadecimal behind 5, 7 and 10 to 12, else `-`.
//! A package past 16,384 bytes is asked for as `D*` or `E*`: how often its part stands, the lengths of its front and of the part, 8 bytes each,
//! the largest first, and front, part and tail. A span word is told as document 01 had it where neither half is past 65,535, and
//! else as it is behind a `+`, a text past 16,387 bytes by a sum.

use crate::cases::{Random, SHORT};
use crate::directives::{self, Package, Version, WIDTHS};
use crate::edges::{self, Edge, EDGES, FLAWED, REFUSED, UNDERLINED, VERSIONED};
use crate::original::LIMIT;
use crate::packages::Pools;
use crate::spans::halves;
use std::path::Path;
use std::{fs, io};

mod written;

/// Random packages beside the edges.
const RANDOM: usize = 60;

/// The records that the program lends which answers the questions: crates/replay/src/sizes.rt.
const ROOM: [usize; 3] = [4096, 5462, 5462];

const SAMPLES: [&str; 2] = [include_str!("../../samples/desk.conf"), include_str!("../../tests/rules.conf")];

/// Packages of so many bytes as were once the limit, by what they repeat: many records of each kind, one long text, nothing, and a fault
/// at the end; and one byte more.
fn long() -> Vec<Vec<u8>> {
    let filled = |first: &str, again: &str, last: &str| {
        let middle = again.bytes().cycle().take(SHORT - first.len() - last.len());
        [first.as_bytes(), &middle.collect::<Vec<u8>>(), last.as_bytes()].concat()
    };
    let mut texts = vec![
        filled("", "sec\n", ""),
        filled("SecRule TX", "|TX", " a"),
        filled("SecAction t:", ",t:", ""),
        filled("SecMarker ", "m", ""),
        filled("SecAction \"log,", "\\\n", "deny\""),
        filled("", " \n", "\x0c"),
        filled("", "#\n", "\nx"),
        filled("SecMarker a", "\n", "SecRule"),
        vec![b' '; SHORT + 1],
    ];
    texts.push([&b"SecMarker "[..], &[0x80], &b" x"[..]].concat());
    texts
}

/// A package by its front, a part that stands so often, and its tail; and what it is for.
struct Asked {
    version: Version,
    front: Vec<u8>,
    part: Vec<u8>,
    times: usize,
    tail: Vec<u8>,
}

impl Asked {
    fn of(version: Version, front: &[u8], part: &[u8], times: usize, tail: &[u8]) -> Self {
        Asked { version, front: front.into(), part: part.into(), times, tail: tail.into() }
    }

    fn whole(version: Version, package: &[u8]) -> Self {
        Asked::of(version, package, b"", 0, b"")
    }

    fn package(&self) -> Vec<u8> {
        [&self.front[..], &self.part.repeat(self.times), &self.tail].concat()
    }

    fn question(&self) -> String {
        let (package, letter) = (self.package(), if self.version == Version::V2_6 { 'D' } else { 'E' });
        if package.len() <= SHORT {
            return format!("{letter} {}\n", hex(&package));
        }
        format!("{letter}*{}\n", spread(&self.front, &self.part, self.times, &self.tail))
    }
}

/// A long question's body: how often a part stands, the lengths of its front and of the part, and all three.
fn spread(front: &[u8], part: &[u8], times: usize, tail: &[u8]) -> String {
    let lengths = [times, front.len(), part.len()].map(|n| format!("{n:016x}")).concat();
    format!("{lengths}{}{}{}", hex(front), hex(part), hex(tail))
}

/// Packages at the limit and past it, and with spans past 65,535.
fn longest() -> Vec<Asked> {
    let of = |front: &[u8], part: &[u8], times, tail: &[u8]| Asked::of(Version::V2_6, front, part, times, tail);
    vec![
        of(b"", b" ", LIMIT, b""),
        of(b"", b" ", LIMIT + 1, b""),
        of(b"SecMarker ", b"m", LIMIT - 10, b""),
        of(b"SecMarker a\n", b"#", LIMIT - 13, b"\x80"),
        of(b"", b"\n", LIMIT - 7, b"SecRule"),
        of(b"", b" \n", LIMIT / 2 - 1, b" \x0c"),
        of(b"", b" ", 70_000, b"SecRule TX:a|!b|&ip \"!@rx c\" \"id:1,msg:'d',setvar:tx.e=f\"\nSecMarker g\n"),
        of(b"#", b"x", 70_000, b"\nSecRule TX|nope:a b\n"),
        of(b"#", b"x", 65_535, b"\nSecRule TX \"@nope a\"\n"),
        of(b"SecAction \"t:", b"a", 70_000, b",log,id:x\"\n"),
        of(b"SecAction \"log,", b"\\\n", 40_000, b"deny ,pass\"\n"),
        of(b"SecAction \"log,", b"\\\n", 500_000, b"bogus\"\n"),
        of(b"SecRule TX:", b"k", 70_000, b" a \"deny,msg:b\"\nSecMarker c\n"),
        of(b"SecRule TX \"@rx ", b"a", LIMIT - 17, b"\""),
    ]
}

/// The same for 2.7: chains and ids far apart, and 18 before and behind the other numbers, 4 too.
fn longest_for_2_7() -> Vec<Asked> {
    let of = |front: &[u8], part: &[u8], times, tail: &[u8]| Asked::of(Version::V2_7, front, part, times, tail);
    vec![
        of(b"SecAction deny\n", b" ", LIMIT, b""),
        of(b"SecAction deny\n", b"#", LIMIT - 16, b"\x80"),
        of(b"", b"\n", LIMIT - 14, b"SecAction deny"),
        of(b"SecAction id:1,chain\n", b"#\n", 500_000, b"SecRule TX a"),
        of(b"SecAction id:1\n", b"#\n", 500_000, b"SecRule TX a"),
        of(b"SecAction \"id:1,msg:", b"a", 70_000, b",chain\"\nSecAction deny\nSecAction log"),
        of(b"SecAction \"msg:", b"a", 70_000, b",chain,id:1\"\nSecAction deny"),
        of(b"", b"SecAction id:1,chain\n", 5_000, b"SecAction deny\nSecAction log\nx"),
        of(b"", b"SecMarker m\n", 5_000, b"SecAction id:1"),
        of(b"", b"SecMarker m\n", 5_000, b"SecAction deny"),
        of(b"SecAction id:1\n", b"SecMarker m\n", 5_000, b"\x0c"),
        of(b"SecAction id:1", b",t:", 6_000, b""),
        of(b"SecAction t:", b",t:", 6_000, b""),
        of(b"SecRule TX", b"|!", 9_000, b" a id:1"),
        of(b"SecRule TX", b"|!", 9_000, b" a"),
    ]
}

/// Every edge for 2.7, those of versions first, and random packages with chains.
fn asked_for_2_7() -> Vec<Asked> {
    let (pools, mut random) = (Pools::of_stored(), Random(108));
    let versioned = VERSIONED.iter().map(|edge| edge.0);
    let texts = versioned.chain(edges::of_both()).chain(SAMPLES).map(|text| text.as_bytes().to_vec());
    let all: Vec<Vec<u8>> = texts.chain((0..RANDOM).map(|_| pools.chained(&mut random, 2000))).collect();
    all.iter().map(|package| Asked::whole(Version::V2_7, package)).chain(longest_for_2_7()).collect()
}

/// What was asked first stays in its place: a new question stands behind all others.
fn asked() -> Vec<Asked> {
    let (pools, mut random) = (Pools::of_stored(), Random(100));
    let edges = |list: &[Edge]| list.iter().map(|edge| edge.0.as_bytes().to_vec()).collect::<Vec<_>>();
    let mut all = edges(EDGES);
    all.extend(SAMPLES.iter().map(|sample| sample.as_bytes().to_vec()));
    all.extend(long());
    all.extend((0..RANDOM).map(|_| pools.package(&mut random, 2000)));
    all.extend(edges(FLAWED));
    all.extend(edges(REFUSED));
    all.extend(UNDERLINED.iter().map(|edge| edge.0.as_bytes().to_vec()));
    let for_2_6 = all.iter().map(|package| Asked::whole(Version::V2_6, package));
    for_2_6.chain(longest()).chain(asked_for_2_7()).collect()
}

fn hex(bytes: &[u8]) -> String {
    bytes.iter().map(|byte| format!("{byte:02x}")).collect()
}

/// 1 and 2, or what the model gives, with the room that there is.
fn answered(package: &[u8], version: Version) -> Package {
    let gate = |number, value| Package { number, values: vec![value as u64], ..Package::default() };
    if LIMIT < package.len() {
        return gate(1, LIMIT);
    }
    match package.iter().position(|byte| 127 < *byte) {
        Some(place) => gate(2, place),
        None => {
            let read = directives::read(std::str::from_utf8(package).expect("ASCII"), version);
            read.without_room([0, 1, 2].map(|kind| ROOM[kind] * WIDTHS[kind])).unwrap_or(read)
        }
    }
}

/// A span word as it was before its base rose; where it had no such form, as it is behind a `+`.
fn stored(word: u64) -> String {
    let (offset, len) = halves(word);
    if offset.max(len) < 65_536 {
        format!("{}", offset * 65_536 + len)
    } else {
        format!("+{word}")
    }
}

/// Words of records of this width, spans at these places.
fn shown(words: &[u64], width: usize, spans: &[usize]) -> String {
    let told = |(at, word): (usize, &u64)| if spans.contains(&(at % width)) { stored(*word) } else { word.to_string() };
    words.iter().enumerate().map(|word| format!(" {}", told(word))).collect()
}

/// The values: of 5, 7, 8 and 10 to 12 the last is a span.
fn shown_values(told: &Package) -> String {
    let spans: &[usize] = if matches!(told.number, 5 | 7 | 8 | 10..=12) { &[3] } else { &[] };
    shown(&told.values, told.values.len().max(1), spans)
}

fn shown_text(text: &[u8]) -> String {
    match text.len() {
        0 => "-".to_string(),
        len if len <= SHORT + 3 => hex(text),
        _ => format!("#{}", text.iter().fold(0, |sum: u64, byte| (sum % (1 << 32)) * 31 + u64::from(*byte))),
    }
}

fn answer(package: &[u8], version: Version) -> String {
    let told = answered(package, version);
    let records = [shown(&told.directives, 11, &[2, 3, 6]), shown(&told.variables, 6, &[4, 5]), shown(&told.actions, 7, &[2, 3, 5, 6])];
    format!("{}{}{} {}", told.number, shown_values(&told), records.concat(), shown_text(&told.texts))
}

/// Writes the files `stdin` and `stdout` of a folder, a line for each question.
pub fn write(folder: &Path) -> io::Result<usize> {
    let asked = asked();
    let mut questions: String = asked.iter().map(Asked::question).collect();
    let mut answers: String = asked.iter().map(|asked| format!("{}\n", answer(&asked.package(), asked.version))).collect();
    let lists = written::lines();
    for (question, answer) in &lists {
        questions += &format!("{question}\n");
        answers += &format!("{answer}\n");
    }
    fs::create_dir_all(folder)?;
    fs::write(folder.join("stdin"), questions)?;
    fs::write(folder.join("stdout"), answers)?;
    Ok(asked.len() + lists.len())
}
