//! Random texts: out of a reader's own pieces, and rules damaged.

use super::Run;
use crate::cases::{pieces_of, Random, RULES, SHORT, TEXT_READERS};
use crate::original;
use crate::packages::Pools;
use crate::readers::Reader;
use crate::real::Real;

impl Run {
    pub(super) fn random(&mut self, random: &mut Random, turns: u64, real: &Real) {
        let names = original::names();
        let pieces = TEXT_READERS.map(|reader| pieces_of(reader, &names));
        let pools = Pools::new();
        for turn in 0..turns {
            let reader = TEXT_READERS[turn as usize % TEXT_READERS.len()];
            let own = &pieces[turn as usize % TEXT_READERS.len()];
            let input = match reader {
                Reader::Directives => random_package(random, real, &pools, own),
                _ => random_input(random, reader, real, &names, own),
            };
            self.progress("random");
            if !self.case(reader, &input) {
                return;
            }
        }
    }
}

/// A damaged name or rule, or a text of the reader's own pieces.
fn random_input(random: &mut Random, reader: Reader, real: &Real, names: &[&str], pieces: &[&str]) -> Vec<u8> {
    let own: Vec<&str> = RULES.iter().filter(|(of, _)| *of == reader).map(|(_, rule)| *rule).collect();
    match random.below(4) {
        0..=2 if reader == Reader::Lookup => {
            let name = *random.one(names);
            random.damaged(name.as_bytes(), pieces)
        }
        0 if !real.arguments.is_empty() => {
            let argument = random.one(&real.arguments);
            random.damaged(argument, pieces)
        }
        0 | 1 => {
            let rule = if own.is_empty() { random.one(RULES).1 } else { random.one(&own) };
            random.damaged(rule.as_bytes(), pieces)
        }
        // one in some thousands is as long as a short text gets: those take long
        _ => {
            let longest = if random.below(3000) == 0 { SHORT } else { 512 };
            random.text(pieces, longest)
        }
    }
}

/// A random package or a real one, whole or damaged; one in some thousands is as long as a short text gets: those take long.
fn random_package(random: &mut Random, real: &Real, pools: &Pools, pieces: &[&str]) -> Vec<u8> {
    let longest = if random.below(3000) == 0 { SHORT } else { 2000 };
    match random.below(10) {
        0 if !real.rules.is_empty() => {
            let rule = random.one(&real.rules);
            random.damaged(rule, pieces)
        }
        0 | 1 => {
            let package = pools.package(random, longest);
            random.damaged(&package, pieces)
        }
        2 => random.text(pieces, longest),
        3 => {
            let mut package = pools.package(random, longest);
            random.flipped(&mut package);
            package
        }
        4 => {
            let package = pools.chained(random, longest);
            random.damaged(&package, pieces)
        }
        5..=7 => pools.chained(random, longest),
        _ => pools.package(random, longest),
    }
}
