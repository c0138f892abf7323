//! The stored questions on action records written back: every edge, random records, those of the samples, and long texts, each with the
//! model's answer.
//!
//! A question is `w`, a blank and in hexadecimal how many bytes there are to write into, the records' length in bytes, the words of the
//! records, 8 bytes each, the largest first, and the text. Where the whole, or what there is to write into, is past 16,384 bytes, it is
//! asked for as `w*`, its text by a front, a part so often and a tail. The answer is the number, its value, and what is written.

use super::{hex, shown_text, spread, SAMPLES};
use crate::cases::{Random, SHORT};
use crate::directives::{self, Version};
use crate::original::LIMIT;
use crate::readers::{ACTION_WORDS, DIRECTIVE_WORDS};
use crate::spans::span;
use crate::writing::{changed, edges, laid, list, written, List, Said};

/// Random lists beside the edges.
const RANDOM: usize = 60;

/// The words that the program takes which answers the questions: crates/replay/src/sizes.rt.
const ROOM: usize = 64 * ACTION_WORDS;

/// How much there is to write into, records, and the text buffer by its front, a part that stands so often, and its tail.
struct Asked {
    out: usize,
    words: Vec<u64>,
    front: Vec<u8>,
    part: Vec<u8>,
    times: usize,
    tail: Vec<u8>,
}

impl Asked {
    fn whole(out: usize, (words, text): List) -> Self {
        Asked { out, words, front: text, part: Vec::new(), times: 0, tail: Vec::new() }
    }

    fn text(&self) -> Vec<u8> {
        [&self.front[..], &self.part.repeat(self.times), &self.tail].concat()
    }

    /// All that stands before the text.
    fn head(&self) -> Vec<u8> {
        let lengths = [self.out as u64, 8 * self.words.len() as u64];
        lengths.iter().chain(&self.words).flat_map(|word| word.to_be_bytes()).collect()
    }

    fn question(&self) -> String {
        let (head, text) = (self.head(), self.text());
        if head.len() + text.len() <= SHORT && self.out <= SHORT {
            return format!("w {}{}", hex(&head), hex(&text));
        }
        format!("w*{}", spread(&[&head[..], &self.front].concat(), &self.part, self.times, &self.tail))
    }

    fn answer(&self) -> String {
        match written(&self.words, &self.text()) {
            Err(record) => format!("19 {record} -"),
            Ok(spelling) if self.out < spelling.len() => format!("4 {} -", spelling.len()),
            Ok(spelling) => format!("0 {} {}", spelling.len(), shown_text(spelling.as_bytes())),
        }
    }
}

/// So many bytes as a list needs, where it is written, and else a few.
fn needed((words, text): &List) -> usize {
    written(words, text).map_or(9, |spelling| spelling.len())
}

/// Every edge with exact room; some with a byte less, with none, and with bytes to spare, which are none to a record that fails.
fn of_edges() -> Vec<Asked> {
    let lists: Vec<List> = edges().into_iter().map(|(words, text, _)| (words, text)).collect();
    let exact = lists.iter().map(|of| Asked::whole(needed(of), of.clone()));
    let turns: [fn(usize) -> usize; 3] = [|n| n.saturating_sub(1), |_| 0, |n| n + 20];
    let others = lists.iter().step_by(7).enumerate().map(|(turn, of)| Asked::whole(turns[turn % 3](needed(of)), of.clone()));
    let another = |asked: &Asked| asked.out != needed(&(asked.words.clone(), asked.front.clone()));
    exact.chain(others.filter(another)).collect()
}

fn of_random() -> Vec<Asked> {
    let mut random = Random(109);
    let lists = (0..RANDOM).map(|turn| {
        let of = list(&mut random);
        let of = if turn % 3 == 0 { of } else { changed(&mut random, of) };
        Asked::whole(needed(&of), of)
    });
    lists.collect()
}

/// The actions of each rule of the samples, out of the package.
fn of_samples() -> Vec<Asked> {
    let packages = SAMPLES.map(|sample| directives::read(sample, Version::V2_6));
    let lists = packages.iter().flat_map(|package| {
        let acting = package.directives.chunks_exact(DIRECTIVE_WORDS).filter(|record| record[10] != 0);
        acting.map(|record| (package.actions_of(record).to_vec(), package.texts.clone()))
    });
    lists.map(|of| Asked::whole(needed(&of), of)).collect()
}

/// A record behind others, whose last text is a front, so many times the same byte and a tail.
fn long(before: &[Said], mut said: Said, front: &str, times: usize, tail: &str, out: usize) -> Asked {
    said.texts.last_mut().expect("a text").1 = [front.as_bytes(), &b"y".repeat(times), tail.as_bytes()].concat();
    let (words, text) = laid(0, &[before, &[said]].concat());
    let first = text.len() - tail.len() - times;
    Asked { out, words, front: text[..first].to_vec(), part: b"y".to_vec(), times, tail: tail.as_bytes().to_vec() }
}

/// Texts that come to the limit and past it, spans past 65,535, and faults behind them.
fn longest() -> Vec<Asked> {
    let deny = [Said::plain(1, 0)];
    let (msg, t, ctl) = (|| Said::one(14, ""), || Said::one(32, ""), || Said::two(31, "a", ""));
    let (set, macros, key) = (|| Said::set("tx", "a", 1, ""), || Said::set("tx", "a", 6, ""), || Said::step("x", "", 5, 0));
    let two = |second: u64| {
        let (words, text) = laid(0, &[msg(), Said::one(14, "end")]);
        let words = [&[14, 0, 70_000], &words[3..9], &[second], &words[10..]].concat();
        Asked { out: 80_000, words, front: Vec::new(), part: b"y".to_vec(), times: 70_000, tail: text }
    };
    vec![
        long(&[], msg(), "", LIMIT - 6, "", LIMIT),
        long(&[], msg(), "", LIMIT - 6, "", LIMIT + 100),
        long(&[], msg(), "", LIMIT - 6, "", LIMIT - 1),
        long(&[], msg(), "", LIMIT - 5, "", LIMIT),
        long(&[], msg(), "", LIMIT - 7, "'", LIMIT),
        long(&[], msg(), "it's ", LIMIT - 11, "", LIMIT),
        long(&deny, t(), "", LIMIT - 7, "", LIMIT),
        long(&deny, t(), "", LIMIT - 6, "", LIMIT),
        long(&[Said::plain(33, 0)], t(), "", LIMIT - 6, "", LIMIT),
        long(&[], t(), "", 100_000, " ", LIMIT),
        long(&[], t(), "", 100_000, ",z", LIMIT),
        long(&[], t(), "(", 100_000, ",z", 100_010),
        long(&[], t(), "'", 100_000, "\\\n", LIMIT),
        long(&[], ctl(), "=", LIMIT - 7, "", LIMIT),
        long(&[], ctl(), "", LIMIT - 6, "\t", LIMIT),
        long(&[], set(), "", LIMIT - 14, "", LIMIT),
        long(&[], set(), "", 70_000, "%{", LIMIT),
        long(&[], macros(), "+", 70_000, "%{", 0),
        long(&[], key(), "=", LIMIT - 13, "", LIMIT),
        long(&deny, Said::expiry("", 7), "", 20_000, "", 20_020),
        long(&deny, Said::expiry("", 7), "", 20_000, "=", 20_020),
        two(span(70_000, 3)),
        two(span(70_000 - 65_536, 3)),
        two(span(70_000, 65_539)),
    ]
}

/// Each question and its answer.
pub fn lines() -> Vec<(String, String)> {
    let all: Vec<Asked> = [of_edges(), of_random(), of_samples(), longest()].into_iter().flatten().collect();
    assert!(all.iter().all(|asked| asked.words.len() <= ROOM), "more records than are lent");
    all.iter().map(|asked| (asked.question(), asked.answer())).collect()
}
