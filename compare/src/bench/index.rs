//! What a call on the id index costs, beside two others: the same work on the same slice in plain Rust, and a map, which checks nothing.

use super::timing::{middle, ran, ROUNDS};
use crate::cases::Random;
use crate::index::ID;
use crate::ours;
use crate::readers::ACTION_WORDS;
use std::collections::BTreeMap;
use std::hint::black_box;

/// How many rules stand before a call.
const RULES: [u64; 3] = [100, 1_000, 10_000];

/// How long a round of calls is, in nanoseconds.
const ROUND: f64 = 2e7;

/// So many words are called on between two looks at the clock, so that short calls are many and long ones stay near the processor.
const BATCH: usize = 1 << 16;

/// The place of the first id that is not below this one.
fn place(pairs: &[u64], id: u64) -> usize {
    let (mut low, mut high) = (0, pairs.len() / 2);
    while low < high {
        let half = (low + high) / 2;
        (low, high) = if pairs[2 * half] < id { (half + 1, high) } else { (low, half) };
    }
    low
}

/// The count of a slice that is an index, every word of which is looked at.
fn count_of(index: &[u64]) -> Option<usize> {
    let (count, behind) = index.split_first()?;
    let count = usize::try_from(*count).ok().filter(|count| *count <= behind.len() / 2)?;
    let (pairs, beyond) = behind.split_at(2 * count);
    let rises = pairs.chunks_exact(2).zip(pairs.chunks_exact(2).skip(1)).all(|(one, next)| one[0] < next[0]);
    (rises && beyond.iter().all(|word| *word == 0)).then_some(count)
}

/// One value, or two, where they fit.
fn tell(number: u64, told: &[u64], values: &mut [u64]) -> u64 {
    if let Some(front) = values.get_mut(..told.len()) {
        front.copy_from_slice(told);
    }
    number
}

/// What `seclang_index_add` does, in plain Rust.
fn plain_add(index: &mut [u64], actions: &[u64], line: u64, values: &mut [u64]) -> u64 {
    let Some(count) = count_of(index) else { return tell(20, &[0], values) };
    let Some(record) = actions.chunks_exact(ACTION_WORDS).find(|record| record[0] == ID) else {
        return tell(0, &[0, count as u64], values);
    };
    let (id, places) = (record[1], (index.len() - 1) / 2);
    let at = 1 + 2 * place(&index[1..1 + 2 * count], id);
    if at < 1 + 2 * count && index[at] == id {
        return tell(16, &[index[at + 1]], values);
    }
    if count == places {
        return tell(17, &[places as u64], values);
    }
    index.copy_within(at..1 + 2 * count, at + 2);
    (index[at], index[at + 1], index[0]) = (id, line, count as u64 + 1);
    tell(0, &[1, count as u64 + 1], values)
}

/// What `seclang_index_remove` does, in plain Rust.
fn plain_remove(index: &mut [u64], ranged: bool, start: u64, end: u64, values: &mut [u64]) -> u64 {
    let Some(count) = count_of(index) else { return tell(20, &[0], values) };
    let (last, past) = (if ranged { end } else { start }, 1 + 2 * count);
    let from = 1 + 2 * place(&index[1..past], start);
    let to = last.checked_add(1).map_or(past, |above| 1 + 2 * place(&index[1..past], above)).max(from);
    let (gone, left) = ((to - from) / 2, count - (to - from) / 2);
    index.copy_within(to..past, from);
    index[past - (to - from)..past].fill(0);
    index[0] = left as u64;
    tell(0, &[gone as u64, left as u64], values)
}

/// What rules are added to and removed from.
trait Side {
    /// With room for so many rules.
    fn empty(places: usize) -> Self;
    fn add(&mut self, id: u64, line: u64);
    fn remove(&mut self, id: u64);
    /// How many rules stand.
    fn count(&self) -> u64;
}

struct Ours(Vec<u64>);
struct Plain(Vec<u64>);
struct Map(BTreeMap<u64, u64>);

/// A rule's records: the one with its id alone, for what others cost is the reading of them.
fn rule(id: u64) -> [u64; ACTION_WORDS] {
    [ID, id, 0, 0, 0, 0, 0]
}

impl Side for Ours {
    fn empty(places: usize) -> Self {
        Ours(vec![0; 1 + 2 * places])
    }

    fn add(&mut self, id: u64, line: u64) {
        black_box(ours::index_add(&mut self.0, black_box(&rule(id)), line, &mut [0; 2]));
    }

    fn remove(&mut self, id: u64) {
        black_box(ours::index_remove(&mut self.0, false, black_box(id), 0, &mut [0; 2]));
    }

    fn count(&self) -> u64 {
        self.0[0]
    }
}

impl Side for Plain {
    fn empty(places: usize) -> Self {
        Plain(vec![0; 1 + 2 * places])
    }

    fn add(&mut self, id: u64, line: u64) {
        black_box(plain_add(&mut self.0, black_box(&rule(id)), line, &mut [0; 2]));
    }

    fn remove(&mut self, id: u64) {
        black_box(plain_remove(&mut self.0, false, black_box(id), 0, &mut [0; 2]));
    }

    fn count(&self) -> u64 {
        self.0[0]
    }
}

impl Side for Map {
    fn empty(_: usize) -> Self {
        Map(BTreeMap::new())
    }

    fn add(&mut self, id: u64, line: u64) {
        black_box(self.0.insert(black_box(id), line));
    }

    fn remove(&mut self, id: u64) {
        black_box(self.0.remove(&black_box(id)));
    }

    fn count(&self) -> u64 {
        self.0.len() as u64
    }
}

/// Ids that stand: every other one from one on as real rules have it.
fn standing(rule: u64) -> u64 {
    900_000 + 2 * rule
}

/// An index of so many rules in each of so many slices.
fn sides<S: Side>(rules: u64, places: usize) -> Vec<S> {
    let one = || {
        let mut side = S::empty(places);
        (0..rules).for_each(|rule| side.add(standing(rule), rule));
        side
    };
    (0..1 + BATCH / (1 + 2 * places)).map(|_| one()).collect()
}

/// Nanoseconds of a call over a round: what it does is undone behind the clock's back.
fn round<S: Side>(sides: &mut [S], random: &mut Random, rules: u64, adds: bool) -> f64 {
    let (mut took, mut calls) = (0.0, 0);
    while took < ROUND {
        let id = standing(random.below(rules as usize) as u64) + u64::from(adds);
        let began = ran();
        sides.iter_mut().for_each(|side| if adds { side.add(id, 7) } else { side.remove(id) });
        took += ran() - began;
        assert_eq!(sides[0].count(), if adds { rules + 1 } else { rules - 1 }, "a call that was refused");
        sides.iter_mut().for_each(|side| if adds { side.remove(id) } else { side.add(id, 7) });
        calls += sides.len();
    }
    took / calls as f64
}

/// Nanoseconds for each rule of an index built in random order.
fn build<S: Side>(ids: &[u64]) -> f64 {
    let mut side = S::empty(ids.len());
    let began = ran();
    ids.iter().for_each(|id| side.add(*id, 7));
    let took = ran() - began;
    assert_eq!(side.count(), ids.len() as u64, "a rule that was refused");
    took / ids.len() as f64
}

fn shown(what: &str, rules: u64, places: usize, mut rounds: [Vec<f64>; 3]) {
    let [ours, plain, map] = [0, 1, 2].map(|side| middle(&mut rounds[side]));
    println!("| {what} | {rules} | {places} | {ours:.0} | {plain:.0} | {:.2} | {map:.0} |", plain / ours);
}

/// An add or a removal at a number of rules, each side in turn.
fn call_row(adds: bool, rules: u64, places: usize) {
    let (mut one, mut two, mut three) = (sides::<Ours>(rules, places), sides::<Plain>(rules, places), sides::<Map>(rules, places));
    let mut randoms = [1, 1, 1].map(Random);
    let mut rounds = [(); 3].map(|()| Vec::new());
    for _ in 0..ROUNDS {
        rounds[0].push(round(&mut one, &mut randoms[0], rules, adds));
        rounds[1].push(round(&mut two, &mut randoms[1], rules, adds));
        rounds[2].push(round(&mut three, &mut randoms[2], rules, adds));
    }
    shown(if adds { "add" } else { "remove" }, rules, places, rounds);
}

fn build_row(rules: u64) {
    let (mut ids, mut random) = ((0..rules).map(standing).collect::<Vec<u64>>(), Random(1));
    (1..ids.len()).for_each(|at| ids.swap(at, random.below(at + 1)));
    let mut rounds = [(); 3].map(|()| Vec::new());
    for _ in 0..ROUNDS {
        let times = [build::<Ours>(&ids), build::<Plain>(&ids), build::<Map>(&ids)];
        rounds.iter_mut().zip(times).for_each(|(of, time)| of.push(time));
    }
    shown("build, in random order", rules, ids.len(), rounds);
}

pub fn table() -> bool {
    println!("| Row | Rules | Places | Ours, ns a call | Rust on the slice, ns a call | Times | BTreeMap, ns a call |");
    println!("|---|---|---|---|---|---|---|");
    for adds in [true, false] {
        for rules in RULES {
            let just = rules as usize + usize::from(adds);
            [just, 2 * just].into_iter().for_each(|places| call_row(adds, rules, places));
        }
    }
    RULES[1..].iter().for_each(|rules| build_row(*rules));
    true
}

/// A pass adds a rule at a hundred places of an index and removes it again; prints the bytes of the slice over all these calls.
fn passes<S: Side>(rules: u64, times: u64) -> bool {
    let (parts, places) = (100, rules as usize + 1);
    let mut side = S::empty(places);
    (0..rules).for_each(|rule| side.add(standing(rule), 7));
    for id in (0..times * parts).map(|part| standing(part % parts * rules / parts) + 1) {
        side.add(id, 7);
        side.remove(id);
    }
    println!("{}", 2 * parts as usize * 8 * (1 + 2 * places));
    true
}

/// The same of one side, for callgrind.
pub fn again(side: &str, rules: &str, times: u64) -> bool {
    let rules = rules.parse().expect("a number of rules");
    match side {
        "ours" => passes::<Ours>(rules, times),
        _ => passes::<Plain>(rules, times),
    }
}

#[cfg(test)]
mod tests {
    use super::{plain_add, plain_remove};
    use crate::index::{answer, edges, Call};

    /// What is timed beside ours does the same work.
    #[test]
    fn the_plain_calls_are_the_models() {
        for (words, call, ..) in edges() {
            let (mut index, mut values) = (words.clone(), [0; 2]);
            let number = match &call {
                Call::Add(actions, line) => plain_add(&mut index, actions, *line, &mut values),
                Call::Remove(ranged, start, end) => plain_remove(&mut index, *ranged, *start, *end, &mut values),
            };
            let ((told, mut expected), after) = answer(&words, &call);
            expected.resize(2, 0);
            assert_eq!((number, &values[..], index), (told, &expected[..], after), "{words:?} {call:?}");
        }
    }
}
