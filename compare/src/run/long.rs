//! Long texts to each reader, and the limit itself.

use super::{turns, Run};
use crate::cases::{Random, SHORT, TEXT_READERS};
use crate::long::{self, filled, Good, LENGTHS, LONG_READERS};
use crate::original::LIMIT;
use crate::packages::Pools;
use crate::readers::{Reader, SHAPES};

/// What is repeated up to a limit.
const REPEATED: [&str; 10] = ["a", "\\", "\n", "deny,", "TX|", "a'", " ", "#", "sec\n", "\nSecAction t:,msg"];

/// How many of the lengths do not take long: texts of these come at each, and of the others at one in three.
const SOON: usize = 11;

/// From one text's length to the next one's where each has but few, so that each reader comes to all.
const STRIDE: usize = 8;

/// How many long texts there are: at every length some, each at two lengths, or at one that a memory checker takes in its time.
#[derive(Clone, Copy, PartialEq)]
pub enum Extent {
    Full,
    Quick,
    Alone,
}

impl Extent {
    /// The lengths of a text, by how many came before.
    fn lengths(self, turn: usize) -> Vec<usize> {
        match self {
            Extent::Full => (0..LENGTHS.len()).filter(|at| *at < SOON || (at + turn) % 3 == 0).map(|at| LENGTHS[at]).collect(),
            Extent::Quick => vec![LENGTHS[turn * STRIDE % LENGTHS.len()], LENGTHS[SOON + turn % 3]],
            Extent::Alone => vec![LENGTHS[turn * STRIDE % SOON]],
        }
    }
}

impl Run {
    /// Each reader at the length that was once the limit and beside it, with each shape of what is lent; and at the limit with a few.
    pub(super) fn limits(&mut self, extent: Extent) {
        if extent == Extent::Alone {
            return;
        }
        let before = self.done();
        for (turn, (reader, piece)) in TEXT_READERS.iter().flat_map(|reader| REPEATED.map(|piece| (*reader, piece))).enumerate() {
            let text = |len: usize| piece.bytes().cycle().take(len).collect::<Vec<u8>>();
            let mut short = (SHORT - 1..=SHORT + 2).flat_map(|len| (0..turns(reader, SHAPES.len())).map(move |_| len));
            let every = if extent == Extent::Full { 2 } else { 4 };
            // each reader with each piece beside it, and each at another of the four
            let mut limit = (LIMIT - 1..=LIMIT + 2).filter(|len| (len + turn + turn / REPEATED.len()) % every == 0);
            if !short.all(|len| self.case(reader, &text(len))) || !limit.all(|len| self.long_case(reader, &text(len))) {
                return;
            }
        }
        println!("each reader beside {SHORT} and {LIMIT} bytes: {} cases", self.done() - before);
    }

    /// Whether to go on: a long text, lent the few shapes.
    pub(super) fn long_case(&mut self, reader: Reader, input: &[u8]) -> bool {
        self.checker.long = true;
        self.progress("long texts");
        let fine = self.case(reader, input);
        self.checker.long = false;
        fine
    }

    /// Frames filled to each length, and a byte past ASCII near the end of one.
    fn frames(&mut self, random: &mut Random, reader: Reader, extent: Extent) -> usize {
        let mut texts = 0;
        for (turn, frame) in long::frames(reader).into_iter().enumerate() {
            for len in extent.lengths(turn + reader as usize) {
                let text = filled(frame, len);
                let past = (turn == 0).then(|| long::past_ascii(random, text.clone()));
                for text in [Some(text), past].into_iter().flatten() {
                    texts += 1;
                    if !self.long_case(reader, &text) {
                        return texts;
                    }
                }
            }
        }
        texts
    }

    /// Good pieces joined to each length, whole, with a fault at the end, and damaged; packages for 2.7 too.
    fn joined(&mut self, random: &mut Random, reader: Reader, extent: Extent, good: &Good) -> usize {
        let mut texts = 0;
        let mut makes = vec![Good::joined, Good::refused, Good::refused, Good::damaged, Good::damaged, Good::damaged];
        if reader == Reader::Directives {
            makes.extend([Good::joined_with_ids, Good::missed]);
        }
        for (turn, make) in makes.into_iter().enumerate() {
            for len in extent.lengths(turn + 2 * reader as usize) {
                texts += 1;
                // one byte past the limit is told from the rest by the frames
                if !self.long_case(reader, &make(good, random, reader, len.min(LIMIT))) {
                    return texts;
                }
            }
        }
        texts
    }

    pub(super) fn long(&mut self, random: &mut Random, extent: Extent) {
        let good = Good::new(random, &Pools::new());
        let (held, far) = (self.checker.held, self.checker.far);
        for reader in LONG_READERS {
            let before = self.done();
            let texts = self.frames(random, reader, extent) + if self.fine { self.joined(random, reader, extent, &good) } else { 0 };
            if !self.fine {
                return;
            }
            println!("{texts} long texts, {reader:?}: {} cases", self.done() - before);
        }
        let (held, far) = (self.checker.held - held, self.checker.far - far);
        println!("in their records {far} span words that no old word holds, and {held} with one, there and back the same");
    }
}
