//! All cases in order, with a count for each reader, a progress line, and the first difference made small.

use crate::cases::{Random, Set, SETS, TEXT_READERS};
use crate::check::Checker;
use crate::directives::VERSIONS;
use crate::long::LONG_READERS;
use crate::original;
use crate::packages::{AROUND, SPANNED};
use crate::readers::{Reader, READERS, SHAPES};
use crate::real::{self, Real};
use crate::{edges, flaws};
use long::Extent;
use small::{differs, minimal, shown};
use std::collections::BTreeMap;
use std::path::PathBuf;
use std::time::Instant;

mod index;
mod long;
mod random;
mod small;
mod spans;
mod writing;

pub struct Wanted {
    pub quick: bool,
    pub seed: u64,
    pub random: Option<u64>,
    pub real: Vec<PathBuf>,
    pub alone: bool,
}

struct Run {
    checker: Checker,
    began: Instant,
    said: Instant,
    fine: bool,
}

impl Run {
    fn done(&self) -> u64 {
        self.checker.counts.iter().sum()
    }

    fn progress(&mut self, part: &str) {
        if self.said.elapsed().as_secs() < 5 {
            return;
        }
        self.said = Instant::now();
        eprintln!("{part}: {} cases, {} s", self.done(), self.began.elapsed().as_secs());
    }

    /// Whether to go on: no difference yet.
    fn case(&mut self, reader: Reader, input: &[u8]) -> bool {
        if let Err(difference) = self.checker.check(reader, input) {
            self.fine = false;
            println!("{reader:?} differs: {difference}");
            let long = self.checker.long;
            let small = minimal(input.to_vec(), |input| differs(reader, input, long).is_some());
            println!("a minimal input, of {} bytes: {}", small.len(), shown(&small));
            println!("there: {}", differs(reader, &small, long).unwrap_or_default());
        }
        self.fine
    }

    fn exhaustive(&mut self, quick: bool) {
        (self.checker.every, self.checker.converted) = (true, false);
        for set in SETS {
            let longest = if quick { set.quick } else { set.full };
            for reader in set.readers {
                let before = self.done();
                let went_on = set.each(longest, &mut |text| {
                    self.progress("every text");
                    self.case(*reader, text)
                });
                if !went_on {
                    return;
                }
                println!("every text of up to {longest} of {} pieces, {reader:?}: {} cases", set.alphabet.len(), self.done() - before);
            }
        }
    }

    /// Arguments of which much is taken out, so that their pieces are awkward to underline.
    fn spanned(&mut self, quick: bool) {
        let (before, longest) = (self.done(), if quick { 4 } else { 5 });
        for (front, back) in AROUND {
            let went_on = Set { readers: &[], alphabet: SPANNED, quick: 0, full: 0 }.each(longest, &mut |text| {
                self.progress("every argument");
                self.case(Reader::Directives, &[front.as_bytes(), text, back.as_bytes()].concat())
            });
            if !went_on {
                return;
            }
        }
        println!(
            "every argument of up to {longest} of {} pieces in {} packages: {} cases",
            SPANNED.len(),
            AROUND.len(),
            self.done() - before
        );
    }

    fn numbers(&mut self, random: &mut Random, turns: u64) {
        for turn in 0..turns {
            let (a, b, c) = (random.number(), random.number(), random.number());
            let (a, b) = if turn < 300 { (turn, random.number()) } else { (a, b) };
            let words: Vec<u64> =
                (0..random.below(40)).map(|_| if random.below(2) == 0 { 10 + random.below(10) as u64 } else { random.number() }).collect();
            let checked = self.checker.numbers(a, b, if turn % 5 == 0 { a } else { c }).and_then(|()| self.checker.words(&words));
            if let Err(difference) = checked {
                println!("numbers {a} {b} {c} or words {words:?} differ: {difference}");
                self.fine = false;
                return;
            }
        }
    }

    /// Phase and grade of one record: every code and some that are none, with every number of a byte and some past it.
    fn records(&mut self) {
        let before = self.done();
        for (code, number) in (0..40).flat_map(|code| (0..=260).map(move |number| (code, number))) {
            if let Err(difference) = self.checker.words(&[code, number, 0, 0, 0, 0, 0]) {
                println!("a record with code {code} and number {number} differs: {difference}");
                self.fine = false;
                return;
            }
        }
        println!("every code with every number up to 260, alone: {} cases", self.done() - before);
    }

    /// Each name in three letter cases, one byte shorter and longer, and with every other byte at each of its places.
    fn names(&mut self) {
        let before = self.done();
        for name in original::names() {
            let longer = [name.as_bytes(), b"\0"].concat();
            let spellings = [name.to_lowercase().into_bytes(), name.to_uppercase().into_bytes(), name.as_bytes()[1..].to_vec(), longer];
            let changed = (0..name.len()).flat_map(|place| (0..=255).map(move |byte| (place, byte)));
            let near = changed.map(|(place, byte)| {
                let mut text = name.as_bytes().to_vec();
                text[place] = byte;
                text
            });
            if !spellings.into_iter().chain(near).all(|text| self.case(Reader::Lookup, &text)) {
                return;
            }
        }
        println!("every name, and every other byte at each of its places: {} cases", self.done() - before);
    }

    /// The edges of whole directives and of arguments, which tell a difference soonest.
    fn edges(&mut self) {
        let before = self.done();
        let packages = edges::packages().map(|package| (Reader::Directives, package));
        let mut texts = packages.chain(flaws::EDGES.iter().map(|edge| (Reader::Actions, edge.0)));
        if texts.all(|(reader, text)| (0..turns(reader, SHAPES.len())).all(|_| self.case(reader, text.as_bytes()))) {
            let [packages, arguments] = [edges::packages().count(), flaws::EDGES.len()];
            println!("{packages} edges of whole directives and {arguments} of arguments: {} cases", self.done() - before);
        }
    }

    /// Texts to some readers, so often that what is lent takes turns.
    fn texts(&mut self, texts: &[Vec<u8>], readers: &[Reader]) -> bool {
        texts.iter().all(|text| {
            readers.iter().all(|reader| {
                self.progress("real rules");
                (0..turns(*reader, 3)).all(|_| self.case(*reader, text))
            })
        })
    }

    fn real(&mut self, real: &Real) {
        if real.files.is_empty() {
            return;
        }
        let (before, alone) = (self.done(), self.checker.counts[Reader::Underlined as usize]);
        let whole = self.texts(&real.files, &LONG_READERS) && self.texts(&real.copies, &LONG_READERS);
        let fine = whole && self.texts(&real.arguments, &TEXT_READERS) && self.texts(&real.rules, &[Reader::Directives]);
        if !fine || !real.joined.iter().all(|text| LONG_READERS.iter().all(|reader| self.long_case(*reader, text))) {
            return;
        }
        let [files, copies, arguments, rules] = [&real.files, &real.copies, &real.arguments, &real.rules].map(Vec::len);
        let cases = self.done() - before;
        println!("{files} rule files whole, {copies} copies in ASCII, {arguments} arguments and {rules} directives alone: {cases} cases");
        for version in VERSIONS {
            println!("of the files for {version:?} {}", told(&real.numbers(version)));
        }
        let lengths: Vec<String> = real.joined.iter().map(|text| text.len().to_string()).collect();
        println!("with them files joined to texts of {} bytes", lengths.join(", "));
        println!("of these {} parts that are underlined, each read alone", self.checker.counts[Reader::Underlined as usize] - alone);
    }
}

/// How many files are read whole as packages, and how many are refused with which number.
fn told(numbers: &BTreeMap<u64, usize>) -> String {
    let refused = numbers.iter().filter(|(number, _)| **number != 0).map(|(number, count)| format!(", {count} refused with {number}"));
    format!("{} are read whole as packages{}", numbers.get(&0).unwrap_or(&0), refused.collect::<String>())
}

/// How often a text is read, so that what is lent takes turns; whole directives are lent every shape at once.
fn turns(reader: Reader, shapes: usize) -> usize {
    if reader == Reader::Directives {
        1
    } else {
        shapes
    }
}

/// Each part in order, until one finds a difference; long texts, the index and what is written back have random numbers of their own, so
/// that they move no others.
fn parts(run: &mut Run, wanted: &Wanted, real: &Real) {
    let [mut random, mut long] = [0, 1].map(|more| Random(wanted.seed.wrapping_add(more)));
    let turns = wanted.random.unwrap_or(if wanted.quick { 600_000 } else { 10_000_000 });
    let extent = match (wanted.alone, wanted.quick) {
        (true, _) => Extent::Alone,
        (false, true) => Extent::Quick,
        (false, false) => Extent::Full,
    };
    type Part<'a> = &'a dyn Fn(&mut Run, &mut Random, &mut Random);
    let parts: [Part; 13] = [
        &|run, random, _| run.numbers(random, turns / 10),
        &|run, _, _| run.records(),
        &|run, _, long| run.conversions(long, turns / 5),
        &|run, _, _| run.index(&mut Random(wanted.seed.wrapping_add(2)), turns / 2, extent, real),
        &|run, _, _| run.writing(&mut Random(wanted.seed.wrapping_add(3)), turns / 3, extent, real),
        &|run, _, _| run.edges(),
        &|run, _, _| run.real(real),
        &|run, _, _| run.names(),
        &|run, _, _| run.limits(extent),
        &|run, _, long| run.long(long, extent),
        &|run, random, _| run.random(random, turns, real),
        &|run, _, _| run.exhaustive(wanted.quick),
        &|run, _, _| run.spanned(wanted.quick),
    ];
    for part in parts {
        if run.fine {
            part(run, &mut random, &mut long);
        }
    }
}

pub fn all(wanted: &Wanted) -> bool {
    println!("seed {}", wanted.seed);
    assert!(original::codes_are_places(), "a code is its place in the original's enum");
    let mut run = Run { checker: Checker::new(wanted.alone), began: Instant::now(), said: Instant::now(), fine: true };
    run.checker.converted = true;
    let mut real = real::read(&wanted.real);
    if wanted.alone {
        // a memory checker takes too long on these
        real.joined.clear();
    }
    parts(&mut run, wanted, &real);
    for (reader, count) in READERS.iter().zip(run.checker.counts) {
        println!("{count:>12} {reader:?}");
    }
    println!("{:>12} span words of records have an old word, there and back the same", run.checker.held);
    println!(
        "{:>12} packages miss an id under 2.7, and {} have a rule without one that a chain leads to",
        run.checker.missed, run.checker.continued
    );
    println!(
        "{:>12} lists of action records are written back and read again, and {} are not written",
        run.checker.written, run.checker.unwritten
    );
    let verdict = if run.fine { "no difference" } else { "A DIFFERENCE" };
    println!("{verdict} in {} cases, {} s", run.done(), run.began.elapsed().as_secs());
    run.fine
}
