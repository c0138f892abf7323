//! Action lists written back: what ours writes beside the model's spelling, and read again by ours.

use super::{Checked, Checker};
use crate::directives::Package;
use crate::lent::After;
use crate::original::Outcome;
use crate::ours;
use crate::readers::{sized, Reader, ACTION_WORDS, DIRECTIVE_WORDS};
use crate::writing::{read_again, written, Written};

/// More or fewer bytes to write into than are needed, or none, and words for the value.
type Lends = (Option<isize>, usize);

/// How many turns a list takes until each has come.
pub const LENDS: usize = 12;

const EXACT: Lends = (Some(0), 1);

/// What is lent besides, by turns.
const OTHERS: [Lends; LENDS] = [
    (Some(-1), 1),
    (Some(9), 0),
    (None, 1),
    (Some(1), 3),
    (Some(-1), 0),
    (Some(0), 0),
    (Some(64), 2),
    (Some(-2), 2),
    (None, 0),
    (Some(0), 2),
    (Some(-7), 1),
    (Some(7), 1),
];

/// What counts for needed where nothing is written.
const UNWRITTEN: usize = 12;

impl Checker {
    /// One call: number, value and every byte that is written into; records and text are as they were.
    fn writes_as(&mut self, (more, v): Lends, words: &[u64], text: &[u8], model: &Written) -> Checked {
        self.counts[Reader::WriteActions as usize] += 1;
        let k = sized(model.as_ref().map_or(UNWRITTEN, String::len), more);
        self.records.lend(words.len()).copy_from_slice(words);
        self.text.lend(text.len()).copy_from_slice(text);
        let (records, texts) = (self.records.front(words.len()), self.text.front(text.len()));
        let got = ours::write_actions(records, texts, self.out.lend(k), self.values.lend(v));
        let (number, value, bytes) = match model {
            Err(record) => (19, *record, &b""[..]),
            Ok(spelling) if k < spelling.len() => (4, spelling.len(), &b""[..]),
            Ok(spelling) => (0, spelling.len(), spelling.as_bytes()),
        };
        let lent = |e| format!("{e}; lent {k} bytes and {v} words");
        self.told(got, number, &[value as u64], v).map_err(lent)?;
        if !self.out.is(After::Padded(bytes)) {
            return Err(lent(format!("number {got}, written {}", self.out.shown(After::Padded(bytes)))));
        }
        if !self.records.is(After::Front(words)) || !self.text.is(After::Front(text)) {
            return Err(lent("records or text are written to".to_string()));
        }
        Ok(())
    }

    /// Our reader on what was written: the records that the original reads there, sources aside.
    fn reads_again(&mut self, spelling: &[u8], again: &Outcome) -> Checked {
        let (n, count) = (spelling.len(), again.words.len() / (ACTION_WORDS - 1));
        let (text, scratch, records) = (self.text.lend(n), self.scratch.lend(n), self.records.lend(count * ACTION_WORDS));
        let got = ours::parse_actions(spelling, text, scratch, records, self.values.lend(2));
        self.told(got, 0, &[count as u64, again.texts.len() as u64], 2).map_err(|e| format!("read again: {e}"))?;
        let read = self.records.front(count * ACTION_WORDS).chunks_exact(ACTION_WORDS);
        let same = read.zip(again.words.chunks_exact(ACTION_WORDS - 1)).all(|(ours, theirs)| ours[..ACTION_WORDS - 1] == *theirs);
        if same && self.text.is(After::Padded(&again.texts)) {
            return Ok(());
        }
        Err(format!("read again: records {:?} and not {:?}, sources aside", self.records.front(count * ACTION_WORDS), again.words))
    }

    /// The records of one directive of a package, by turns, written out of it: their texts stand behind others.
    pub(super) fn writes_one_of(&mut self, package: &Package) -> Checked {
        let acting: Vec<&[u64]> = package.directives.chunks_exact(DIRECTIVE_WORDS).filter(|record| record[10] != 0).collect();
        let Some(of) = acting.get((self.written + self.unwritten) as usize % acting.len().max(1)) else { return Ok(()) };
        self.writes(package.actions_of(of), &package.texts).map_err(|e| format!("the directive in line {} written back: {e}", of[1]))
    }

    /// A list of records as they are: written with room that is exact and with another, by turns, and read again.
    pub fn writes(&mut self, words: &[u64], text: &[u8]) -> Checked {
        let model = written(words, text);
        let turn = (self.written + self.unwritten) as usize % OTHERS.len();
        match &model {
            Ok(spelling) => {
                self.written += 1;
                self.writes_as(EXACT, words, text, &model)?;
                self.reads_again(spelling.as_bytes(), &read_again(spelling))?;
            }
            Err(_) => self.unwritten += 1,
        }
        self.writes_as(OTHERS[turn], words, text, &model)
    }
}
