//! The id index: one call on a slice, beside what the model says; and the id that a rule goes by, beside the original's.

use super::{Checked, Checker};
use crate::index::{answer, Call, Told};
use crate::lent::After;
use crate::ours;
use crate::readers::Reader;

impl Checker {
    fn call(&mut self, words: &[u64], call: &Call, lent: usize) -> u64 {
        let index = self.index.lend(words.len());
        index.copy_from_slice(words);
        let values = self.values.lend(lent);
        match call {
            Call::Add(actions, line) if self.alone => {
                let own: Box<[u64]> = actions[..].into();
                ours::index_add(index, &own, *line, values)
            }
            Call::Add(actions, line) => ours::index_add(index, actions, *line, values),
            Call::Remove(ranged, start, end) => ours::index_remove(index, *ranged, *start, *end, values),
        }
    }

    /// A call on a slice: number, values, and every word of the slice behind it. Values have room for none to three words, by turns.
    pub fn indexed(&mut self, words: &[u64], call: &Call, (number, values): &Told, after: &[u64]) -> Checked {
        let (adds, removals) = (Reader::IndexAdd as usize, Reader::IndexRemove as usize);
        let lent = ((self.counts[adds] + self.counts[removals]) % 4) as usize;
        self.counts[if matches!(call, Call::Add(..)) { adds } else { removals }] += 1;
        let got = self.call(words, call, lent);
        let checked = self.told(got, *number, values, lent).and_then(|()| match self.index.is(After::Front(after)) {
            true => Ok(()),
            false => Err(format!("number {got}, index {}", self.index.shown(After::Front(after)))),
        });
        checked.map_err(|e| format!("{e}; lent {lent} words for values"))
    }

    /// The same on any slice, by what the model reads out of it.
    pub fn indexed_anew(&mut self, words: &[u64], call: &Call) -> Checked {
        let (told, after) = answer(words, call);
        self.indexed(words, call, &told, &after)
    }

    /// A rule's records enter an index of one place under the id that the original gives the rule, or not at all.
    pub(super) fn entered(&mut self, actions: &[u64], id: Option<u64>) -> Checked {
        let line = self.shape as u64;
        let (told, after) = match id {
            Some(id) => ((0, vec![1, 1]), [1, id, line]),
            None => ((0, vec![0, 0]), [0; 3]),
        };
        let checked = self.indexed(&[0; 3], &Call::Add(actions.to_vec(), line), &told, &after);
        checked.map_err(|e| format!("as a rule with the id {id:?} in an index: {e}"))
    }
}
