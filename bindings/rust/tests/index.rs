//! The index of ids: what each call gives and leaves at the edges, ids at their full width, and any run of calls beside a map.

use seclang::{directives, parse_actions, raw, Action, Index, IndexRefusal, RuleIdSelector, Version};
use std::collections::BTreeMap;

const HALF: u64 = 1 << 31;
const HIGH: u64 = 1 << 32;

/// What a call gave and left: its number, three values that had 9 in them, and the words.
type Told = (u64, [u64; 3], Vec<u64>);

fn told(number: u64, values: [u64; 3], words: &[u64]) -> Told {
    (number, values, words.to_vec())
}

fn of_id(id: u64) -> [u64; 7] {
    [11, id, 0, 0, 0, 0, 0]
}

fn added(words: &[u64], actions: &[u64], line: u64) -> Told {
    let (mut words, mut values) = (words.to_vec(), [9; 3]);
    (raw::index_add(&mut words, actions, line, &mut values), values, words)
}

fn removed(words: &[u64], selector: RuleIdSelector) -> Told {
    let (mut words, mut values) = (words.to_vec(), [9; 3]);
    let (ranged, start, end) = match selector {
        RuleIdSelector::Single(id) => (false, id, 0),
        RuleIdSelector::Range(start, end) => (true, start, end),
    };
    (raw::index_remove(&mut words, ranged, start, end, &mut values), values, words)
}

/// An index of these rules, added in their order to one with so many places.
fn built(places: usize, rules: &[(u64, usize)]) -> Index {
    let mut index = Index::with_places(places);
    for (id, line) in rules {
        assert_eq!(index.add(&[Action::Id(*id)], *line), Ok(true), "{id} {line}");
    }
    index
}

#[test]
fn without_places_no_id_is_entered() {
    for words in [&[0][..], &[0, 0]] {
        assert_eq!(added(words, &of_id(7), 4), told(17, [0, 9, 9], words));
        assert_eq!(added(words, &[], 4), told(0, [0, 0, 9], words));
        assert_eq!(added(words, &[1, 0, 0, 0, 0, 0, 0], 4), told(0, [0, 0, 9], words));
        assert_eq!(removed(words, RuleIdSelector::Range(0, u64::MAX)), told(0, [0, 0, 9], words));
    }
    assert_eq!((Index::with_places(0).places(), Index::from_words(vec![0, 0]).map(|index| index.places())), (0, Ok(0)));
}

#[test]
fn words_that_are_no_index_are_refused() {
    let beyond: [&[u64]; 6] = [&[0, 1], &[0, 0, 1], &[0, 0, 0, 5, 0], &[1, 7, 4, 0, 1], &[1, 7, 4, 0, 0, 9], &[1, 7, 4, HIGH, 0]];
    let not_ascending: [&[u64]; 4] = [&[2, 5, 1, 5, 2], &[2, 9, 1, 5, 2], &[2, 5 + HIGH, 1, 9, 2], &[3, 1, 1, 9, 2, 5, 3]];
    let past_the_places: [&[u64]; 6] = [&[1], &[1, 7], &[2, 5, 1], &[HIGH, 0, 0], &[1 << 63, 0, 0], &[u64::MAX, 5, 1]];
    for words in [&[][..]].into_iter().chain(beyond).chain(not_ascending).chain(past_the_places) {
        let refused = told(20, [0, 9, 9], words);
        for actions in [&of_id(5)[..], &of_id(8), &[]] {
            assert_eq!(added(words, actions, 1), refused);
        }
        for selector in [RuleIdSelector::Single(5), RuleIdSelector::Range(0, u64::MAX), RuleIdSelector::Range(1, 0)] {
            assert_eq!(removed(words, selector), refused);
        }
        assert_eq!(Index::from_words(words.to_vec()), Err(IndexRefusal::NoIndex), "{words:?}");
    }
}

#[test]
fn an_id_that_stands_comes_before_a_place_that_lacks() {
    assert_eq!(added(&[1, 7, 4], &of_id(7), 9), told(16, [4, 9, 9], &[1, 7, 4]));
    assert_eq!(added(&[1, 7, 4], &of_id(9), 9), told(17, [1, 9, 9], &[1, 7, 4]));
    assert_eq!(added(&[1, 7, 4, 0], &of_id(9), 9), told(17, [1, 9, 9], &[1, 7, 4, 0]));
    assert_eq!(added(&[1, 7, 4, 0, 0], &of_id(7), 9), told(16, [4, 9, 9], &[1, 7, 4, 0, 0]));
    assert_eq!(added(&[1, 7, 4], &[], 9), told(0, [0, 1, 9], &[1, 7, 4]));
    assert_eq!(added(&[2, 5, 1, 9, 2], &of_id(7), 9), told(17, [2, 9, 9], &[2, 5, 1, 9, 2]));
}

#[test]
fn a_rule_is_entered_in_its_place() {
    assert_eq!(added(&[0, 0, 0], &of_id(0), 3), told(0, [1, 1, 9], &[1, 0, 3]));
    assert_eq!(added(&[1, 0, 3], &of_id(0), 8), told(16, [3, 9, 9], &[1, 0, 3]));
    assert_eq!(added(&[1, 7, 4, 0, 0, 0], &of_id(5), 6), told(0, [1, 2, 9], &[2, 5, 6, 7, 4, 0]));
    assert_eq!(added(&[2, 5, 1, 9, 2, 0, 0], &of_id(7), 3), told(0, [1, 3, 9], &[3, 5, 1, 7, 3, 9, 2]));
    assert_eq!(added(&[1, 7, 4, 0, 0], &of_id(u64::MAX), 3), told(0, [1, 2, 9], &[2, 7, 4, u64::MAX, 3]));
}

#[test]
fn lines_are_any_words() {
    for line in [0, 1, HIGH, u64::MAX] {
        assert_eq!(added(&[0, 0, 0], &of_id(7), line), told(0, [1, 1, 9], &[1, 7, line]));
        assert_eq!(added(&[1, 7, line], &of_id(7), 5), told(16, [line, 9, 9], &[1, 7, line]));
    }
    let index = built(2, &[(7, 0), (5, usize::MAX)]);
    assert_eq!((index.line_of(7), index.line_of(5), index.line_of(6)), (Some(0), Some(usize::MAX), None));
}

#[test]
fn a_rule_goes_by_its_first_id() {
    let (nine_first, part) = ([of_id(9), of_id(7)].concat(), &of_id(9)[..6]);
    let strange = [[0, 3, 0, 0, 0, 0, 0], [33, 4, 0, 0, 0, 0, 0], of_id(7), of_id(9)].concat();
    assert_eq!(added(&[0, 0, 0], &nine_first, 1), told(0, [1, 1, 9], &[1, 9, 1]));
    assert_eq!(added(&[1, 7, 4, 0, 0], &nine_first, 1), told(0, [1, 2, 9], &[2, 7, 4, 9, 1]));
    assert_eq!(added(&[1, 5, 1, 0, 0], part, 1), told(0, [0, 1, 9], &[1, 5, 1, 0, 0]));
    assert_eq!(added(&[0, 0, 0], &nine_first[..13], 1), told(0, [1, 1, 9], &[1, 9, 1]));
    assert_eq!(added(&[0, 0, 0], &strange, 1), told(0, [1, 1, 9], &[1, 7, 1]));
    // an id that stands in another word of a record, or behind one of its words, is none
    assert_eq!(added(&[0, 0, 0], &[12, 11, 7, 0, 0, 0, 0, 11, 8, 0, 0, 0, 0, 0], 1), told(0, [1, 1, 9], &[1, 8, 1]));
    let mut index = Index::with_places(1);
    assert_eq!(index.add(&parse_actions("deny,phase:7").expect("a list"), 1), Ok(false));
    assert_eq!(index.add(&parse_actions("deny,id:9,id:7").expect("a list"), 2), Ok(true));
    assert_eq!(index.words(), [1, 9, 2]);
}

/// Every order in which some things can stand.
fn orders<T: Copy>(things: &[T]) -> Vec<Vec<T>> {
    let Some((first, rest)) = things.split_first() else { return vec![Vec::new()] };
    let with_first = |order: Vec<T>| (0..=order.len()).map(move |at| [&order[..at], &[*first], &order[at..]].concat());
    orders(rest).into_iter().flat_map(with_first).collect()
}

#[test]
fn ids_are_told_apart_at_their_full_width() {
    let rules = [(7, 1), (7 + HALF, 2), (7 + HIGH, 3), (u64::MAX, 4)];
    let whole = [4, 7, 1, 7 + HALF, 2, 7 + HIGH, 3, u64::MAX, 4];
    for order in orders(&rules) {
        let index = built(4, &order);
        assert_eq!((index.words(), index.iter().collect::<Vec<_>>()), (&whole[..], rules.to_vec()));
        for (id, line) in rules {
            let (mut other, actions) = (index.clone(), parse_actions(&format!("id:{id}")).expect("an id"));
            assert_eq!((other.add(&actions, 9), other.line_of(id)), (Err(IndexRefusal::IdTaken { line }), Some(line)));
            assert_eq!((other.remove(RuleIdSelector::Single(id)), other.line_of(id)), (1, None));
            assert_eq!(other.iter().collect::<Vec<_>>(), rules.iter().copied().filter(|rule| rule.0 != id).collect::<Vec<_>>());
        }
    }
    // the same lower bits, and another id
    for id in [7 + 2 * HIGH, HIGH - 1, HALF, 7 + (1 << 63)] {
        let mut index = built(4, &rules);
        assert_eq!((index.line_of(id), index.remove(RuleIdSelector::Single(id))), (None, 0));
        assert_eq!(index.add(&[Action::Id(id)], 9), Err(IndexRefusal::Full { places: 4 }));
        assert_eq!(index.words(), whole);
    }
}

#[test]
fn a_selector_takes_what_it_matches() {
    let words = [2, 5, 1, 9, 2];
    assert_eq!(removed(&words, RuleIdSelector::Single(5)), told(0, [1, 1, 9], &[1, 9, 2, 0, 0]));
    assert_eq!(removed(&words, RuleIdSelector::Single(7)), told(0, [0, 2, 9], &words));
    assert_eq!(removed(&words, RuleIdSelector::Range(9, 5)), told(0, [0, 2, 9], &words));
    assert_eq!(removed(&words, RuleIdSelector::Range(6, 8)), told(0, [0, 2, 9], &words));
    assert_eq!(removed(&words, RuleIdSelector::Range(5, 9)), told(0, [2, 0, 9], &[0; 5]));
    assert_eq!(removed(&words, RuleIdSelector::Range(9, 9)), told(0, [1, 1, 9], &[1, 5, 1, 0, 0]));
    assert_eq!(removed(&[3, 5, 1, 7, 3, 9, 2, 0], RuleIdSelector::Single(7)), told(0, [1, 2, 9], &[2, 5, 1, 9, 2, 0, 0, 0]));
    let far = [3, 0, 1, 7 + HIGH, 2, u64::MAX, 3];
    assert_eq!(removed(&far, RuleIdSelector::Range(0, u64::MAX)), told(0, [3, 0, 9], &[0; 7]));
    assert_eq!(removed(&far, RuleIdSelector::Range(1, HIGH)), told(0, [0, 3, 9], &far));
    assert_eq!(removed(&far, RuleIdSelector::Single(7)), told(0, [0, 3, 9], &far));
    // the end of a selector that is no range is not looked at
    let (mut one, mut values) = (words, [9; 3]);
    assert_eq!((raw::index_remove(&mut one, false, 5, u64::MAX, &mut values), values, one), (0, [1, 1, 9], [1, 9, 2, 0, 0]));
}

#[test]
fn a_freed_place_is_used_again() {
    let mut index = built(2, &[(9, 2), (5, 1)]);
    assert_eq!(index.add(&[Action::Id(3)], 8), Err(IndexRefusal::Full { places: 2 }));
    assert_eq!((index.remove(RuleIdSelector::Single(9)), index.words()), (1, &[1, 5, 1, 0, 0][..]));
    assert_eq!((index.add(&[Action::Id(3)], 8), &index), (Ok(true), &built(2, &[(5, 1), (3, 8)])));
    assert_eq!(index.words(), [2, 3, 8, 5, 1]);
    assert_eq!(index.add(&[Action::Id(9)], 2), Err(IndexRefusal::Full { places: 2 }));
    assert_eq!((index.remove(RuleIdSelector::Range(0, u64::MAX)), &index), (2, &Index::with_places(2)));
}

#[test]
fn values_that_do_not_fit_are_not_stored() {
    let (mut words, mut one) = ([0; 3], [9]);
    assert_eq!((raw::index_add(&mut words, &of_id(7), 4, &mut one), words, one), (0, [1, 7, 4], [9]));
    assert_eq!((raw::index_add(&mut words, &of_id(7), 5, &mut one), words, one), (16, [1, 7, 4], [4]));
    assert_eq!((raw::index_add(&mut words, &of_id(7), 5, &mut []), raw::index_add(&mut words, &of_id(9), 5, &mut [])), (16, 17));
    assert_eq!((raw::index_add(&mut [], &of_id(7), 5, &mut []), raw::index_remove(&mut [], false, 7, 0, &mut [])), (20, 20));
    assert_eq!(words, [1, 7, 4]);
    one = [9];
    assert_eq!((raw::index_remove(&mut words, false, 7, 0, &mut one), words, one), (0, [0; 3], [9]));
}

#[test]
fn refusals_say_what_they_are() {
    let all = [IndexRefusal::IdTaken { line: 4 }, IndexRefusal::Full { places: 2 }, IndexRefusal::NoIndex];
    for (refusal, number, value) in [(all[0], 16, 4), (all[1], 17, 2), (all[2], 20, 0)] {
        assert_eq!((refusal.number(), IndexRefusal::from_raw(number, &[value, 9])), (number, Some(refusal)));
    }
    assert_eq!(IndexRefusal::from_raw(17, &[]), Some(IndexRefusal::Full { places: 0 }));
    assert!((0..100).filter(|number| IndexRefusal::from_raw(*number, &[1]).is_some()).eq([16, 17, 20]));
    let said = ["the rule in line 4 has this id", "the index has places for 2 rules, and all are taken", "the words are no index"];
    assert_eq!(all.map(|refusal| refusal.to_string()), said);
}

/// The rules that stand, and what a call on an index of them must give.
struct Standing {
    places: usize,
    lines: BTreeMap<u64, usize>,
}

impl Standing {
    /// The words of an index that is built afresh: a count, ids ascending with their lines, zeros beyond.
    fn words(&self) -> Vec<u64> {
        let pairs = self.lines.iter().flat_map(|(id, line)| [*id, *line as u64]);
        let mut words: Vec<u64> = std::iter::once(self.lines.len() as u64).chain(pairs).collect();
        words.resize(1 + 2 * self.places, 0);
        words
    }

    fn add(&mut self, id: u64, line: usize) -> Result<bool, IndexRefusal> {
        match self.lines.get(&id) {
            Some(line) => Err(IndexRefusal::IdTaken { line: *line }),
            None if self.lines.len() == self.places => Err(IndexRefusal::Full { places: self.places }),
            None => Ok(self.lines.insert(id, line).is_none()),
        }
    }

    fn remove(&mut self, selector: RuleIdSelector) -> usize {
        let before = self.lines.len();
        self.lines.retain(|id, _| match selector {
            RuleIdSelector::Single(one) => *id != one,
            RuleIdSelector::Range(start, end) => *id < start || end < *id,
        });
        before - self.lines.len()
    }
}

/// Numbers that look random, the same in each run.
struct Dice(u64);

impl Dice {
    fn below(&mut self, bound: u64) -> u64 {
        self.0 = self.0.wrapping_mul(6_364_136_223_846_793_005).wrapping_add(1_442_695_040_888_963_407);
        (self.0 >> 33) % bound
    }

    /// Few ids, most of which share their lower bits with others.
    fn id(&mut self) -> u64 {
        let high = [0, HALF, HIGH, 1 << 63, u64::MAX - 3][self.below(5) as usize];
        high + self.below(4)
    }
}

/// After any run of calls the index is the one built afresh, and each call gives what the rules that stand say.
#[test]
fn any_run_of_calls_leaves_what_stands() {
    let mut dice = Dice(1);
    for places in (0..8).chain([20]).cycle().take(900) {
        let (mut index, mut standing) = (Index::with_places(places), Standing { places, lines: BTreeMap::new() });
        for line in 0..40 {
            let (first, second) = (dice.id(), dice.id());
            match dice.below(10) {
                0 => assert_eq!(index.remove(RuleIdSelector::Single(first)), standing.remove(RuleIdSelector::Single(first))),
                1 => assert_eq!(index.remove(RuleIdSelector::Range(first, second)), standing.remove(RuleIdSelector::Range(first, second))),
                2 => assert_eq!(index.add(&[Action::Phase(first)], line), Ok(false)),
                _ => assert_eq!(index.add(&[Action::Deny, Action::Id(first), Action::Id(second)], line), standing.add(first, line)),
            }
            assert_eq!((index.words(), index.len()), (&standing.words()[..], standing.lines.len()));
            assert_eq!((index.line_of(second), index.is_empty()), (standing.lines.get(&second).copied(), standing.lines.is_empty()));
            assert_eq!(Index::from_words(index.words().to_vec()).as_ref(), Ok(&index));
        }
    }
}

/// A package of 2,000 rules whose ids differ by 2^32 or more: each is entered once, and a second package has them all twice.
#[test]
fn a_package_is_entered_once() {
    let ids: Vec<u64> = (0..2_000).map(|k| (k * 617 % 2_000) * HIGH + 7).collect();
    let package: String = ids.iter().map(|id| format!("SecRule ARGS a \"phase:1,\\\n  id:{id}\"\nSecMarker m\n")).collect();
    let list = directives(&package, Version::V2_7).expect("a package");
    let rules = || list.iter().filter(|one| !one.actions().is_empty());
    let mut index = Index::with_places(ids.len());
    assert!(rules().all(|rule| index.add(rule.actions(), rule.line) == Ok(true)));
    assert_eq!((index.len(), index.places()), (2_000, 2_000));
    let lines: BTreeMap<u64, usize> = ids.iter().enumerate().map(|(k, id)| (*id, 1 + 3 * k)).collect();
    assert!(index.iter().eq(lines.iter().map(|(id, line)| (*id, *line))));
    assert!(rules().all(|rule| index.add(rule.actions(), 9) == Err(IndexRefusal::IdTaken { line: rule.line })));
    assert!(lines.iter().all(|(id, line)| index.line_of(*id) == Some(*line) && index.line_of(id + 1).is_none()));
}
