//! One row of a benchmark: its inputs, what is lent for each, and the time that each side takes.

use crate::directives::{self, Version};
use crate::original::Outcome;
use crate::ours;
use std::hint::black_box;

/// Rounds of each side in turn; the median of each is shown.
pub const ROUNDS: usize = 11;

/// How long a round is, in nanoseconds.
const ROUND: f64 = 1e8;

/// Words of records, of the one buffer or of directives, variables and actions; and bytes of a listing.
pub type Needs = [usize; 4];

/// What ours is lent: text as long as the input, and records that fit; or as much as a row says. What ours writes is read before.
pub struct Room {
    /// What each input of the row needs.
    needs: Vec<Needs>,
    pub text: Vec<u8>,
    pub scratch: Vec<u8>,
    pub out: Vec<u8>,
    pub records: Vec<u64>,
    pub variables: Vec<u64>,
    pub actions: Vec<u64>,
    pub values: [u64; 16],
    /// Which input is at hand, and what each was read to, where a row writes that.
    pub at: usize,
    pub read: Vec<Outcome>,
}

impl Room {
    /// Enough for each input of a row; a setvar takes three bytes of text more. One pass touches it all before any is timed.
    pub fn of(row: &Row) -> Self {
        let longest = row.inputs.iter().map(String::len).max().unwrap_or(0);
        let needs: Vec<Needs> = row.inputs.iter().map(|input| (row.needs)(input)).collect();
        let most = |place: usize| needs.iter().map(|needs| needs[place]).max().unwrap_or(0);
        let (bytes, words) = (|n| vec![1; n], |place| vec![1; most(place)]);
        let mut room = Room {
            text: bytes(longest + 3),
            scratch: bytes(longest),
            out: bytes(most(3)),
            records: words(0),
            variables: words(1),
            actions: words(2),
            values: [0; 16],
            at: 0,
            read: Vec::new(),
            needs,
        };
        row.pass(true, &mut room);
        room
    }
}

extern "C" {
    fn clock_gettime(clock: i32, time: *mut [i64; 2]) -> i32;
}

/// CLOCK_THREAD_CPUTIME_ID of Linux.
const OF_THIS_THREAD: i32 = 3;

/// Nanoseconds that this thread ran, which other programs on the machine do not add to.
pub fn ran() -> f64 {
    let mut time = [0; 2];
    let done = unsafe { clock_gettime(OF_THIS_THREAD, &mut time) };
    assert_eq!(done, 0, "no clock of this thread");
    time[0] as f64 * 1e9 + time[1] as f64
}

/// The median of some times.
pub fn middle(times: &mut [f64]) -> f64 {
    times.sort_by(f64::total_cmp);
    times[times.len() / 2]
}

pub struct Row<'a> {
    pub name: &'a str,
    pub inputs: &'a [String],
    /// What is lent for an input.
    pub needs: fn(&str) -> Needs,
    pub ours: fn(&[u8], Needs, &mut Room) -> u64,
    /// Nothing where the original has no such reader, or takes more memory for these inputs than there is.
    pub original: Option<fn(&str)>,
}

/// Records that fit exactly.
pub fn exact(read: Outcome) -> Needs {
    [read.words.len(), 0, 0, 0]
}

/// The same for a package, which must be one that is read.
pub fn exact_package(package: &str) -> Needs {
    let read = directives::read(package, Version::V2_6);
    assert_eq!(read.number, 0, "a package that is refused");
    [read.directives.len(), read.variables.len(), read.actions.len(), 0]
}

pub fn fills(call: ours::Filler, input: &[u8], [words, ..]: Needs, room: &mut Room) -> u64 {
    call(input, &mut room.text[..input.len()], &mut room.records[..words], &mut room.values)
}

impl Row<'_> {
    pub fn bytes(&self) -> usize {
        self.inputs.iter().map(String::len).sum()
    }

    pub fn pass(&self, ours: bool, room: &mut Room) {
        match (ours, self.original) {
            (false, None) => {}
            (false, Some(original)) => self.inputs.iter().for_each(|input| original(black_box(input))),
            (true, _) => {
                for (at, input) in self.inputs.iter().enumerate() {
                    room.at = at;
                    black_box((self.ours)(black_box(input.as_bytes()), room.needs[at], room));
                }
            }
        }
    }

    /// Nanoseconds for a pass of one side, over so many.
    fn timed(&self, ours: bool, passes: usize, room: &mut Room) -> f64 {
        let began = ran();
        (0..passes).for_each(|_| self.pass(ours, room));
        (ran() - began) / passes as f64
    }

    /// Nanoseconds for a pass of ours, and of the original's where it has one: the median over rounds of so many passes that a round
    /// takes some ROUND.
    pub fn medians(&self, room: &mut Room) -> (f64, Option<f64>) {
        let sides = if self.original.is_some() { &[true, false][..] } else { &[true] };
        let few = 1 + 1_000_000 / (self.bytes() + 1);
        let passes: Vec<usize> = sides.iter().map(|ours| 1 + (ROUND / self.timed(*ours, few, room)) as usize).collect();
        let mut times = vec![Vec::new(); sides.len()];
        for _ in 0..ROUNDS {
            for (side, of) in times.iter_mut().enumerate() {
                of.push(self.timed(sides[side], passes[side], room));
            }
        }
        let mut middles = times.iter_mut().map(|of| middle(of));
        (middles.next().expect("ours"), middles.next())
    }
}
