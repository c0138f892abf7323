//! An index beside the rules: which of them stand, by id.

use crate::lent::{another, size};
use crate::rules::records;
use crate::{raw, Action, RuleIdSelector};
use std::fmt;

/// Why an index did not take a rule, or words are no index. Whatever is refused, the index is as it was.
#[derive(Clone, Copy, Debug, PartialEq, Eq, Hash)]
pub enum IndexRefusal {
    /// 16: a rule with this id stands already.
    IdTaken {
        /// The line of that rule.
        line: usize,
    },
    /// 17: the id is new, and as many rules with ids stand as there are places.
    Full {
        /// How many that are.
        places: usize,
    },
    /// 20: the words are no index: none at all, a count above the places, ids that do not ascend strictly, or a word beyond that is not
    /// 0. An [`Index`] has words that are one; a host that keeps words by itself ([`raw::index_add`]) may meet this.
    NoIndex,
}

impl IndexRefusal {
    /// What [`raw::index_add`] or [`raw::index_remove`] refused, by its number and the values that it left. None for 0 and for numbers
    /// that they do not give. A value that is not there counts as 0.
    ///
    /// ```
    /// use seclang::{raw, IndexRefusal};
    ///
    /// // no rule yet, and a place for one
    /// let (mut words, mut values) = ([0; 3], [0; 2]);
    /// assert_eq!(raw::index_add(&mut words, &[11, 7, 0, 0, 0, 0, 0], 4, &mut values), 0);
    /// assert_eq!((words, values), ([1, 7, 4], [1, 1]));
    ///
    /// let number = raw::index_add(&mut words, &[11, 7, 0, 0, 0, 0, 0], 9, &mut values);
    /// assert_eq!(IndexRefusal::from_raw(number, &values), Some(IndexRefusal::IdTaken { line: 4 }));
    /// ```
    pub fn from_raw(number: u64, values: &[u64]) -> Option<Self> {
        let value = size(values.first().copied().unwrap_or_default());
        match number {
            16 => Some(IndexRefusal::IdTaken { line: value }),
            17 => Some(IndexRefusal::Full { places: value }),
            20 => Some(IndexRefusal::NoIndex),
            _ => None,
        }
    }

    /// The library's number for it.
    pub fn number(&self) -> u64 {
        match self {
            IndexRefusal::IdTaken { .. } => 16,
            IndexRefusal::Full { .. } => 17,
            IndexRefusal::NoIndex => 20,
        }
    }
}

impl fmt::Display for IndexRefusal {
    fn fmt(&self, out: &mut fmt::Formatter<'_>) -> fmt::Result {
        match self {
            IndexRefusal::IdTaken { line } => write!(out, "the rule in line {line} has this id"),
            IndexRefusal::Full { places } => write!(out, "the index has places for {places} rules, and all are taken"),
            IndexRefusal::NoIndex => write!(out, "the words are no index"),
        }
    }
}

impl std::error::Error for IndexRefusal {}

/// Which rules stand, by id, each with its directive's line. Rules are added and removed one call at a time, so that a duplicate is found
/// without reading the package again.
///
/// It has a number of places that does not change; one that is freed is used again. Whatever was added and removed, it equals the index
/// that is built afresh from the rules that stand, in any order. A rule goes by its first id, and ids are told apart at all their 64 bits.
/// Each call looks at all places, so that a rule more takes time that grows with them.
///
/// ```
/// use seclang::{directives, DirectiveKind, Index, IndexRefusal, RuleIdSelector, Version};
///
/// let package = "SecAction id:7,log\nSecRule ARGS a id:4294967303,deny\nSecRule ARGS b id:7,deny\n";
/// let list = directives(package, Version::V2_7)?;
/// let rules = list.iter().filter(|one| matches!(one.kind, DirectiveKind::Rule { .. } | DirectiveKind::Action(_)));
///
/// let mut index = Index::with_places(list.len());
/// let added: Vec<_> = rules.map(|rule| index.add(rule.actions(), rule.line)).collect();
/// assert_eq!(added, [Ok(true), Ok(true), Err(IndexRefusal::IdTaken { line: 1 })]);
/// assert_eq!(index.iter().collect::<Vec<_>>(), [(7, 1), (4_294_967_303, 2)]);
///
/// assert_eq!(index.remove(RuleIdSelector::Single(7)), 1);
/// assert_eq!(index.add(list[2].actions(), list[2].line), Ok(true));
/// assert_eq!(index.line_of(7), Some(3));
/// # Ok::<(), seclang::Refusal>(())
/// ```
#[derive(Clone, Debug, PartialEq, Eq, Hash)]
pub struct Index {
    /// A count, then id and line of each rule by turns, ids strictly ascending, and zeros beyond.
    words: Vec<u64>,
}

impl Index {
    /// An empty index with places for so many rules.
    ///
    /// # Panics
    ///
    /// Where there is no memory for them, as `Vec` does.
    pub fn with_places(places: usize) -> Self {
        Index { words: vec![0; places.saturating_mul(2).saturating_add(1)] }
    }

    /// The index that words are, as [`words`](Index::words) had them; else [`IndexRefusal::NoIndex`]. More zeros behind them are more
    /// places.
    ///
    /// ```
    /// use seclang::{Index, IndexRefusal};
    ///
    /// let index = Index::from_words(vec![1, 7, 4, 0, 0])?;
    /// assert_eq!((index.len(), index.places(), index.line_of(7)), (1, 2, Some(4)));
    /// assert_eq!(Index::from_words(vec![2, 7, 4, 7, 9]), Err(IndexRefusal::NoIndex));
    /// # Ok::<(), IndexRefusal>(())
    /// ```
    pub fn from_words(mut words: Vec<u64>) -> Result<Self, IndexRefusal> {
        // a range that takes nothing: the library looks at the words and leaves them
        taken_out(&mut words, RuleIdSelector::Range(1, 0))?;
        Ok(Index { words })
    }

    /// A count, then id and line of each rule by turns, ids strictly ascending, and zeros beyond.
    pub fn words(&self) -> &[u64] {
        &self.words
    }

    /// Adds a rule by its actions and its directive's line. True where it was entered; false where it has no id, and there is nothing to
    /// enter. It is refused where a rule with its id stands, and else where no place is left.
    ///
    /// ```
    /// use seclang::{parse_actions, Action, Index, IndexRefusal};
    ///
    /// let mut index = Index::with_places(1);
    /// assert_eq!(index.add(&parse_actions("deny,id:9,id:7")?, 4), Ok(true));
    /// assert_eq!(index.add(&[Action::Deny], 5), Ok(false));
    /// assert_eq!(index.add(&[Action::Id(9)], 6), Err(IndexRefusal::IdTaken { line: 4 }));
    /// assert_eq!(index.add(&[Action::Id(7)], 6), Err(IndexRefusal::Full { places: 1 }));
    /// # Ok::<(), seclang::Refusal>(())
    /// ```
    pub fn add(&mut self, actions: &[impl AsRef<Action>], line: usize) -> Result<bool, IndexRefusal> {
        let mut values = [0; 2];
        let number = raw::index_add(&mut self.words, &records(actions), line as u64, &mut values);
        done(number, &values).map(|()| values[0] == 1)
    }

    /// Removes the rules whose ids the selector takes, and tells how many they were.
    ///
    /// ```
    /// use seclang::{Action, Index, RuleIdSelector};
    ///
    /// let mut index = Index::with_places(3);
    /// for id in [5, 9, u64::MAX] {
    ///     index.add(&[Action::Id(id)], 1)?;
    /// }
    /// assert_eq!(index.remove(RuleIdSelector::Range(5, 9)), 2);
    /// assert_eq!(index.remove(RuleIdSelector::Single(9)), 0);
    /// assert_eq!(index.len(), 1);
    /// # Ok::<(), seclang::IndexRefusal>(())
    /// ```
    pub fn remove(&mut self, selector: RuleIdSelector) -> usize {
        taken_out(&mut self.words, selector).unwrap_or_else(|refusal| another("the number", refusal.number()))
    }

    /// How many rules it has.
    pub fn len(&self) -> usize {
        size(self.words[0])
    }

    /// Whether it has none.
    pub fn is_empty(&self) -> bool {
        self.len() == 0
    }

    /// How many rules it has places for.
    pub fn places(&self) -> usize {
        (self.words.len() - 1) / 2
    }

    /// Id and line of each rule, ids ascending.
    pub fn iter(&self) -> impl ExactSizeIterator<Item = (u64, usize)> + '_ {
        self.words[1..].chunks_exact(2).take(self.len()).map(|pair| (pair[0], size(pair[1])))
    }

    /// The line of the rule that has an id.
    pub fn line_of(&self, id: u64) -> Option<usize> {
        let (mut low, mut high) = (0, self.len());
        while low < high {
            let middle = low + (high - low) / 2;
            let at = 1 + 2 * middle;
            match self.words[at].cmp(&id) {
                std::cmp::Ordering::Less => low = middle + 1,
                std::cmp::Ordering::Equal => return Some(size(self.words[at + 1])),
                std::cmp::Ordering::Greater => high = middle,
            }
        }
        None
    }
}

/// Nothing where the number is 0, else what it refuses.
fn done(number: u64, values: &[u64]) -> Result<(), IndexRefusal> {
    match number {
        0 => Ok(()),
        _ => Err(IndexRefusal::from_raw(number, values).unwrap_or_else(|| another("the number", number))),
    }
}

/// How many rules a selector took out of an index.
fn taken_out(words: &mut [u64], selector: RuleIdSelector) -> Result<usize, IndexRefusal> {
    let (mut values, (ranged, start, end)) = ([0; 2], selector.told());
    let number = raw::index_remove(words, ranged, start, end, &mut values);
    done(number, &values).map(|()| size(values[0]))
}
