//! The id index by document 02 (M-106), a second model: the rules that stand, by id, and the slice that they come to. It knows nothing of
//! what a call does to a slice. Which ids a removal takes is the original's own `RuleIdSelector::matches`.

use crate::original;
use crate::readers::ACTION_WORDS;
use std::collections::BTreeMap;

mod edges;

pub use edges::{edges, records};

/// The code of an action record whose number is an id.
pub const ID: u64 = 11;

#[derive(Clone, Debug)]
pub enum Call {
    /// One rule: its action records, and its directive's line.
    Add(Vec<u64>, u64),
    /// A selector: whether it is a range, its start and its end.
    Remove(bool, u64, u64),
}

/// A number and its values.
pub type Told = (u64, Vec<u64>);

/// The rules that stand, each one's line by its id, in a slice of so many words.
#[derive(Clone, Debug, PartialEq)]
pub struct Index {
    standing: BTreeMap<u64, u64>,
    len: usize,
}

/// The id of the first whole record that has one.
fn first_id(actions: &[u64]) -> Option<u64> {
    actions.chunks_exact(ACTION_WORDS).find(|record| record[0] == ID).map(|record| record[1])
}

/// Whether a slice is no index, which is 20.
fn is_damaged(words: &[u64]) -> bool {
    let Some((count, behind)) = words.split_first() else { return true };
    let places = (behind.len() / 2) as u64;
    if places < *count {
        return true;
    }
    let (pairs, beyond) = behind.split_at(2 * *count as usize);
    let ids: Vec<u64> = pairs.iter().step_by(2).copied().collect();
    ids.windows(2).any(|both| both[1] <= both[0]) || beyond.iter().any(|word| *word != 0)
}

impl Index {
    pub fn empty(len: usize) -> Self {
        Index { standing: BTreeMap::new(), len }
    }

    /// What a slice holds, where it is an index.
    fn of(words: &[u64]) -> Option<Self> {
        let held = || words[1..].chunks_exact(2).take(words[0] as usize).map(|pair| (pair[0], pair[1]));
        (!is_damaged(words)).then(|| Index { standing: held().collect(), len: words.len() })
    }

    /// Whole pairs behind the first word.
    fn places(&self) -> usize {
        (self.len - 1) / 2
    }

    fn count(&self) -> u64 {
        self.standing.len() as u64
    }

    /// The slice laid out afresh: the count, id and line by turns, and zeros beyond.
    pub fn words(&self) -> Vec<u64> {
        let mut words = Vec::with_capacity(self.len);
        words.push(self.count());
        words.extend(self.standing.iter().flat_map(|(id, line)| [*id, *line]));
        words.resize(self.len, 0);
        words
    }

    fn add(&mut self, actions: &[u64], line: u64) -> Told {
        let Some(id) = first_id(actions) else { return (0, vec![0, self.count()]) };
        if let Some(before) = self.standing.get(&id) {
            return (16, vec![*before]);
        }
        if self.standing.len() == self.places() {
            return (17, vec![self.places() as u64]);
        }
        self.standing.insert(id, line);
        (0, vec![1, self.count()])
    }

    fn remove(&mut self, ranged: bool, start: u64, end: u64) -> Told {
        let before = self.count();
        self.standing.retain(|id, _| !original::matches(ranged, start, end, *id));
        (0, vec![before - self.count(), self.count()])
    }

    pub fn call(&mut self, call: &Call) -> Told {
        match call {
            _ if self.len == 0 => (20, vec![0]),
            Call::Add(actions, line) => self.add(actions, *line),
            Call::Remove(ranged, start, end) => self.remove(*ranged, *start, *end),
        }
    }
}

/// What a call comes to on any slice, and the slice behind it.
pub fn answer(words: &[u64], call: &Call) -> (Told, Vec<u64>) {
    match Index::of(words) {
        None => ((20, vec![0]), words.to_vec()),
        Some(mut index) => {
            let told = index.call(call);
            (told, index.words())
        }
    }
}
