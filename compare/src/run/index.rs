//! Calls on the id index: edges, every small slice, random runs from an empty one, damaged slices among them, and real rules.

use super::long::Extent;
use super::Run;
use crate::cases::Random;
use crate::check::Checker;
use crate::directives::{self, Version};
use crate::index::{answer, edges, records, Call, Index, ID};
use crate::readers::{ACTION_WORDS, DIRECTIVE_WORDS};
use crate::real::Real;
use std::collections::BTreeMap;
use std::time::{Duration, Instant};

/// Words of every small slice, and the ids that are added and removed there.
const SMALL: u64 = 4;

/// What ids differ by that a narrower field would take for one another.
const FAR: [u64; 8] = [0, 0, 1 << 31, 1 << 32, 1 << 33, 1 << 62, 1 << 63, (1 << 63) + (1 << 32)];

/// Where they begin: the ends of a field, and ids as real rules have them.
const NEAR: [u64; 10] = [0, 1, 2, 7, 941_999, 942_100, (1 << 31) - 1, 1 << 31, (1 << 32) - 1, u64::MAX];

/// Codes of records that have no id: no code of document 01, those beside the id's, and what is an id's code in a narrower field.
const OTHERS: [u64; 12] = [0, 1, 10, 12, 12, 13, 22, 32, 33, 1 << 63, ID + (1 << 32), u64::MAX];

/// How large the indexes of runs are, by turns: without a place, with few, some ten and some hundred.
const PLACES: [usize; 12] = [1, 2, 4, 8, 30, 1, 2, 4, 8, 30, 90, 300];

/// How many rules stand in a large one, which is called on a few times.
const LARGE: [u64; 7] = [255, 256, 257, 32_768, 65_535, 65_536, 70_000];

/// So long a slice that differs is made shorter, at most.
const PATIENCE: Duration = Duration::from_secs(20);

/// Words that are shown of it.
const SHOWN: usize = 64;

/// One run from an empty index: the ids that its calls draw from, and how many of its calls in ten are adds.
struct Habits {
    ids: Vec<u64>,
    adds: usize,
}

fn id(random: &mut Random, few: usize) -> u64 {
    match random.below(6) {
        0 => random.number(),
        1 | 2 => random.below(few) as u64,
        _ => random.one(&NEAR).wrapping_add(*random.one(&FAR)).wrapping_add(random.below(3 + few / 8) as u64),
    }
}

impl Habits {
    fn new(random: &mut Random, places: usize) -> Self {
        let few = 2 * places + 2;
        Habits { ids: (0..few).map(|_| id(random, few)).collect(), adds: 5 + random.below(5) }
    }

    /// Mostly one that other calls draw too.
    fn id(&self, random: &mut Random) -> u64 {
        if random.below(12) == 0 {
            id(random, self.ids.len())
        } else {
            *random.one(&self.ids)
        }
    }

    /// Records before an id, the id, mostly, and what may follow: other ids, other records, and part of one.
    fn rule(&self, random: &mut Random) -> Vec<u64> {
        let mut said = Vec::new();
        let others = |random: &mut Random, most: usize| -> Vec<(u64, u64)> {
            (0..random.below(most)).map(|_| (*random.one(&OTHERS), random.number())).collect()
        };
        said.extend(others(random, 3));
        if random.below(9) != 0 {
            said.push((ID, self.id(random)));
            said.extend((0..random.below(6) / 4).map(|_| (ID, self.id(random))));
            said.extend(others(random, 3));
        }
        let mut words = records(&said);
        // the words of a record that have no say are any
        if random.below(3) == 0 {
            (0..words.len()).filter(|at| 1 < at % ACTION_WORDS).for_each(|at| words[at] = random.below(20) as u64);
        }
        let part = [ID, self.id(random), 0, 0, ID, 1];
        words.extend(&part[..if random.below(3) == 0 { 1 + random.below(6) } else { 0 }]);
        words
    }

    /// One id; or a range, from an id to another, in either order, or to one close by, or to both ends.
    fn selector(&self, random: &mut Random) -> Call {
        let (start, other) = (self.id(random), self.id(random));
        match random.below(40) {
            0 => Call::Remove(true, 0, u64::MAX),
            1 => Call::Remove(true, start, u64::MAX),
            2 => Call::Remove(true, 0, start),
            3..=6 => Call::Remove(true, start, other),
            7..=16 => Call::Remove(true, start, start.wrapping_add(random.below(6) as u64)),
            17 | 18 => Call::Remove(true, start, start.wrapping_sub(1)),
            _ => Call::Remove(false, start, other),
        }
    }

    fn call(&self, random: &mut Random) -> Call {
        if random.below(10) < self.adds {
            let line = if random.below(8) == 0 { *random.one(&[0, u64::MAX]) } else { random.number() };
            Call::Add(self.rule(random), line)
        } else {
            self.selector(random)
        }
    }
}

/// A copy of a slice with one fault, or two: a few of them are none.
fn damaged(random: &mut Random, words: &[u64]) -> Vec<u64> {
    let mut out = words.to_vec();
    for _ in 0..1 + random.below(5) / 4 {
        // places of ids that stand, and of any word; what stands may be no index any more
        let count = out.first().map_or(0, |count| (*count).min(out.len() as u64 / 2) as usize);
        let (one, other, any) = (1 + 2 * random.below(count), 1 + 2 * random.below(count), random.below(out.len()));
        if out.len() <= one.max(other) {
            out.extend((0..random.below(4)).map(|_| random.number()));
            continue;
        }
        let last = out.len() - 1;
        match random.below(9) {
            0 => out[any] ^= 1 << random.below(64),
            1 => out[0] = out[0].wrapping_add(1 + random.below(2) as u64),
            2 => out[0] = *random.one(&[1 << 63, (1 << 63) + count as u64, (1 << 32) + count as u64, u64::MAX]),
            3 => out[0] = out[0].wrapping_sub(1),
            4 => out.swap(one, other),
            5 => out[one] = out[other],
            6 => out[(1 + 2 * count).min(last)] = random.number(),
            7 => out[last] = 1 + random.below(9) as u64,
            _ => out.truncate(any),
        }
    }
    out
}

/// Calls at the front, the middle and the end of an index that has every third id from one on.
fn calls_on(first: u64, rules: u64) -> Vec<Call> {
    let (middle, last) = (first + rules / 2 * 3, first + (rules - 1) * 3);
    let places = [first, middle, last];
    let adds = places.into_iter().flat_map(|id| [id - 1, id, id + 1]).map(|id| Call::Add(records(&[(ID, id)]), id / 2));
    let singles = places.into_iter().flat_map(|id| [id, id + 1]).map(|id| Call::Remove(false, id, 0));
    let ranges = [(first, last), (first + 1, last), (first, last - 1), (first - 1, middle), (middle, last + 1), (middle + 1, middle + 2)];
    adds.chain(singles).chain(ranges.map(|(start, end)| Call::Remove(true, start, end))).collect()
}

/// The rules of a package, each to be added with its line.
fn rules(package: &directives::Package) -> impl Iterator<Item = Call> + '_ {
    let is_rule = |record: &&[u64]| matches!(record[0], 1 | 2);
    let rules = package.directives.chunks_exact(DIRECTIVE_WORDS).filter(is_rule);
    rules.map(|record| Call::Add(package.actions_of(record).to_vec(), record[1]))
}

/// What differs in a call on a slice, with any room for values.
fn differs(words: &[u64], call: &Call) -> Option<String> {
    let mut checker = Checker::new(false);
    (0..4).find_map(|_| checker.indexed_anew(words, call).err())
}

/// A slice without so many pairs from a place on; those that stood are counted no more.
fn without(words: &[u64], place: usize, pairs: usize) -> Vec<u64> {
    let (from, past) = (1 + 2 * place, 1 + 2 * (place + pairs));
    let mut left = [&words[..from], &words[past..]].concat();
    left[0] -= words[0].saturating_sub(place as u64).min(pairs as u64);
    left
}

/// Fewer pairs, fewer words and fewer records that differ still, each part half as wide as those before, until the time is over.
fn minimal(mut words: Vec<u64>, mut call: Call) -> (Vec<u64>, Call) {
    let (until, mut width) = (Instant::now() + PATIENCE, words.len() / 2);
    while 0 < width {
        let mut place = 0;
        while 2 * (place + width) < words.len() && Instant::now() < until {
            let less = without(&words, place, width);
            if differs(&less, &call).is_some() {
                words = less;
            } else {
                place += width;
            }
        }
        width /= 2;
    }
    while !words.is_empty() && differs(&words[..words.len() - 1], &call).is_some() {
        words.pop();
    }
    while let Call::Add(actions, line) = &call {
        let less = |at: usize| [&actions[..at], &actions[actions.len().min(at + ACTION_WORDS)..]].concat();
        let mut fewer = (0..actions.len()).step_by(ACTION_WORDS).map(|at| Call::Add(less(at), *line));
        let Some(next) = fewer.find(|call| differs(&words, call).is_some()) else { break };
        call = next;
    }
    (words, call)
}

/// A slice for people: the front of a long one.
fn shown(words: &[u64]) -> String {
    let front = &words[..words.len().min(SHOWN)];
    format!("{front:?}, of {} words", words.len())
}

impl Run {
    /// Whether to go on: one call on a slice, by what it must tell and leave.
    fn index_case(&mut self, words: &[u64], call: &Call) -> bool {
        let checked = self.checker.indexed_anew(words, call);
        self.index_fine(words, call, checked)
    }

    fn index_fine(&mut self, words: &[u64], call: &Call, checked: Result<(), String>) -> bool {
        if let Err(difference) = checked {
            self.fine = false;
            println!("a call on an index differs: {difference}");
            let (words, call) = minimal(words.to_vec(), call.clone());
            println!("a minimal one: {call:?} on {}", shown(&words));
            println!("there: {}", differs(&words, &call).unwrap_or_default());
        }
        self.fine
    }

    /// Every slice of up to so many words below four, with every add of an id or none and every removal.
    fn every_index(&mut self, longest: usize) -> bool {
        let ids = || 0..SMALL;
        let rules = ids().map(|id| records(&[(ID, id)])).chain([Vec::new()]).map(|rule| Call::Add(rule, 2));
        let singles = ids().map(|id| Call::Remove(false, id, 0));
        let ranges = ids().flat_map(|start| ids().map(move |end| Call::Remove(true, start, end)));
        let calls: Vec<Call> = rules.chain(singles).chain(ranges).collect();
        for len in 0..=longest {
            for number in 0..SMALL.pow(len as u32) {
                let words: Vec<u64> = (0..len as u32).map(|at| number / SMALL.pow(at) % SMALL).collect();
                if !calls.iter().all(|call| self.index_case(&words, call)) {
                    return false;
                }
            }
            self.progress("every index");
        }
        true
    }

    /// Large indexes, full and with room, whose ids lie on both sides of 2^32.
    fn large_indexes(&mut self) -> bool {
        let fulls = LARGE.into_iter().flat_map(|rules| [0, 1, 4].map(|more| (rules, more)));
        fulls.into_iter().all(|(rules, more)| {
            let first = (1 << 32) - rules;
            let pairs = (0..rules).flat_map(|rule| [first + 3 * rule, rule]);
            let words: Vec<u64> = [rules].into_iter().chain(pairs).chain(vec![0; more]).collect();
            self.progress("large indexes");
            calls_on(first, rules).iter().all(|call| self.index_case(&words, call))
        })
    }

    /// A run of calls from an empty index, in which the slice is what the call before left; how often which number was told.
    fn index_run(&mut self, random: &mut Random, len: usize, told: &mut BTreeMap<u64, u64>) -> bool {
        let (mut index, habits) = (Index::empty(len), Habits::new(random, len / 2));
        let mut words = index.words();
        for _ in 0..8 + 2 * len {
            let call = habits.call(random);
            if random.below(4) == 0 {
                let other = damaged(random, &words);
                *told.entry(answer(&other, &call).0 .0).or_default() += 1;
                if !self.index_case(&other, &call) {
                    return false;
                }
            }
            let expected = index.call(&call);
            let after = index.words();
            *told.entry(expected.0).or_default() += 1;
            let checked = self.checker.indexed(&words, &call, &expected, &after);
            if !self.index_fine(&words, &call, checked) {
                return false;
            }
            words = after;
        }
        true
    }

    /// All rules of files that are read as packages, in one index: how many stand, and how many have an id that another has.
    fn index_of_files(&mut self, real: &Real) -> bool {
        let texts = real.files.iter().filter_map(|file| std::str::from_utf8(file).ok().filter(|text| text.is_ascii()));
        let packages: Vec<directives::Package> =
            texts.map(|text| directives::read(text, Version::V2_6)).filter(|package| package.number == 0).collect();
        let rules: Vec<Call> = packages.iter().flat_map(rules).collect();
        let mut words = vec![0; 1 + 2 * rules.len()];
        let mut told = BTreeMap::<u64, usize>::new();
        for call in &rules {
            let ((number, _), after) = answer(&words, call);
            *told.entry(number).or_default() += 1;
            if !self.index_case(&words, call) {
                return false;
            }
            words = after;
        }
        if !rules.is_empty() {
            let twice = told.get(&16).unwrap_or(&0);
            println!("{} rules of real files in one index: {} stand by an id, {twice} have one that stands", rules.len(), words[0]);
        }
        true
    }

    /// Each edge, and each slice that is named rather than drawn.
    fn chosen_indexes(&mut self, extent: Extent, real: &Real) -> bool {
        let (before, edges) = (self.done(), edges());
        let (count, longest) = (edges.len(), if extent == Extent::Full { 8 } else { 5 });
        let fine = edges.into_iter().all(|(words, call, told, after)| {
            let checked = self.checker.indexed(&words, &call, &told, &after);
            self.index_fine(&words, &call, checked)
        });
        // a memory checker takes too long on large ones
        let fine = fine && self.every_index(longest) && (extent == Extent::Alone || self.large_indexes());
        if !fine || !self.index_of_files(real) {
            return false;
        }
        println!(
            "{count} edges of the index, every slice of up to {longest} words below {SMALL}, and large ones: {} cases",
            self.done() - before
        );
        true
    }

    pub(super) fn index(&mut self, random: &mut Random, turns: u64, extent: Extent, real: &Real) {
        if !self.chosen_indexes(extent, real) {
            return;
        }
        let (before, mut runs, mut told) = (self.done(), 0, BTreeMap::new());
        while self.done() - before < turns {
            self.progress("the index");
            let len = random.below(2 * PLACES[runs % PLACES.len()] + 2);
            if !self.index_run(random, len, &mut told) {
                return;
            }
            runs += 1;
        }
        println!("{runs} runs of calls from an empty index: {} cases, by number {told:?}", self.done() - before);
    }
}
