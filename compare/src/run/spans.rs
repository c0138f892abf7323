//! Conversions of span words: every edge, and random words.

use super::Run;
use crate::cases::Random;
use crate::spans;

/// A word of any kind, or one whose halves are near what both bases hold.
fn word(random: &mut Random) -> u64 {
    let half = |random: &mut Random| match random.below(3) {
        0 => random.below(70_000) as u64,
        1 => spans::SHARED - 2 + random.below(5) as u64,
        _ => random.next() >> (32 + random.below(32)),
    };
    let (offset, len) = (half(random), half(random));
    match random.below(4) {
        0 => random.next(),
        1 => random.number(),
        2 => spans::span(offset, len),
        _ => offset << 16 | len & spans::SHARED,
    }
}

impl Run {
    pub(super) fn conversions(&mut self, random: &mut Random, turns: u64) {
        let (before, edges) = (self.done(), spans::edges());
        let count = edges.len();
        for word in edges.into_iter().chain((0..turns).map(|_| word(random))) {
            self.progress("conversions");
            if let Err(difference) = self.checker.conversions(word) {
                println!("a conversion differs: {difference}");
                self.fine = false;
                return;
            }
        }
        println!("{count} edges and {turns} random words converted both ways: {} cases", self.done() - before);
    }
}
