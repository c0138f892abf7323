//! The edges of the id index, each with what comes out; the model is held to them, and the comparison begins with them.

use super::{Call, Told, ID};
use crate::readers::ACTION_WORDS;

const MOST: u64 = u64::MAX;

/// A slice, a call on it, what it tells, and the slice behind it.
pub type Edge = (Vec<u64>, Call, Told, Vec<u64>);

/// Records with these codes and numbers, and no other word.
pub fn records(said: &[(u64, u64)]) -> Vec<u64> {
    said.iter().flat_map(|(code, number)| [*code, *number].into_iter().chain([0; ACTION_WORDS - 2])).collect()
}

/// A rule with one id.
fn rule(id: u64, line: u64) -> Call {
    Call::Add(records(&[(ID, id)]), line)
}

fn single(id: u64) -> Call {
    // the end of a single id is not looked at
    Call::Remove(false, id, id / 2)
}

fn range(start: u64, end: u64) -> Call {
    Call::Remove(true, start, end)
}

fn edge(words: &[u64], call: Call, number: u64, values: &[u64], after: &[u64]) -> Edge {
    (words.to_vec(), call, (number, values.to_vec()), after.to_vec())
}

fn refused(words: &[u64], call: Call, number: u64, value: u64) -> Edge {
    edge(words, call, number, &[value], words)
}

/// Slices that are none, 20 for both calls and for a rule without an id too; the last three have counts that are 0 when doubled.
const DAMAGED: &[&[u64]] = &[
    &[],
    &[1],
    &[0, 1],
    &[1, 0],
    &[0, 0, 1],
    &[0, 5, 1],
    &[1, 7, 4, 0, 0, 9],
    &[2, 5, 1, 5, 2],
    &[2, 9, 1, 5, 2],
    &[2, 5, 1],
    &[2, 5, 1, 6],
    &[3, 5, 1, 9, 2],
    &[1, 5, 1, 9, 2],
    &[2, 1 << 32, 1, 1, 2],
    &[2, MOST, 1, 0, 2, 0, 0],
    &[MOST, 0, 0],
    &[1 << 63, 0, 0],
    &[1 << 63],
    &[(1 << 63) + 1, 5, 1],
];

fn adds() -> Vec<Edge> {
    let (full, roomy) = ([1, 7, 4], [1, 7, 4, 0, 0, 0]);
    let none = || Call::Add(records(&[(1, 0), (12, 7)]), 3);
    vec![
        refused(&[0], rule(7, 1), 17, 0),
        refused(&[0, 0], rule(7, 1), 17, 0),
        edge(&[0], none(), 0, &[0, 0], &[0]),
        edge(&[0, 0], none(), 0, &[0, 0], &[0, 0]),
        edge(&full, none(), 0, &[0, 1], &full),
        refused(&full, rule(7, 9), 16, 4),
        refused(&full, rule(9, 9), 17, 1),
        refused(&roomy, rule(7, 9), 16, 4),
        edge(&roomy, rule(9, 2), 0, &[1, 2], &[2, 7, 4, 9, 2, 0]),
        edge(&roomy, rule(0, 0), 0, &[1, 2], &[2, 0, 0, 7, 4, 0]),
        edge(&roomy, rule(MOST, MOST), 0, &[1, 2], &[2, 7, 4, MOST, MOST, 0]),
        edge(&roomy, rule((1 << 31) + 7, 2), 0, &[1, 2], &[2, 7, 4, (1 << 31) + 7, 2, 0]),
        edge(&roomy, rule((1 << 32) + 7, 2), 0, &[1, 2], &[2, 7, 4, (1 << 32) + 7, 2, 0]),
        edge(&[0, 0, 0], Call::Add(records(&[(ID, 9), (ID, 7)]), 5), 0, &[1, 1], &[1, 9, 5]),
        edge(&[0, 0, 0], Call::Add(records(&[(0, 8), (33, 6), (MOST, 3), (ID, 7)]), 5), 0, &[1, 1], &[1, 7, 5]),
        edge(&[0, 0, 0], Call::Add(records(&[((1 << 32) + ID, 8), (ID, 7)]), 5), 0, &[1, 1], &[1, 7, 5]),
        edge(&[0, 0, 0], Call::Add(records(&[(ID, 7)])[..6].to_vec(), 5), 0, &[0, 0], &[0, 0, 0]),
        edge(&[0, 0, 0], Call::Add([records(&[(1, 0)]), vec![ID, 7]].concat(), 5), 0, &[0, 0], &[0, 0, 0]),
        edge(&[0, 0, 0], Call::Add([records(&[(ID, 7)]), vec![ID]].concat(), 5), 0, &[1, 1], &[1, 7, 5]),
        edge(&[0, 0, 0], Call::Add(Vec::new(), 5), 0, &[0, 0], &[0, 0, 0]),
    ]
}

fn removals() -> Vec<Edge> {
    let two = [2, 5, 1, 9, 2];
    vec![
        edge(&two, range(9, 5), 0, &[0, 2], &two),
        edge(&two, range(5, 9), 0, &[2, 0], &[0; 5]),
        edge(&two, range(6, 9), 0, &[1, 1], &[1, 5, 1, 0, 0]),
        edge(&two, range(5, 8), 0, &[1, 1], &[1, 9, 2, 0, 0]),
        edge(&two, range(6, 8), 0, &[0, 2], &two),
        edge(&two, range(0, MOST), 0, &[2, 0], &[0; 5]),
        edge(&two, range(5, 5), 0, &[1, 1], &[1, 9, 2, 0, 0]),
        edge(&two, single(5), 0, &[1, 1], &[1, 9, 2, 0, 0]),
        edge(&two, single(9), 0, &[1, 1], &[1, 5, 1, 0, 0]),
        edge(&two, single(7), 0, &[0, 2], &two),
        edge(&two, single((1 << 32) + 5), 0, &[0, 2], &two),
        edge(&two, range((1 << 32) + 5, MOST), 0, &[0, 2], &two),
        edge(&[2, 0, 3, MOST, 4, 0], range(MOST, MOST), 0, &[1, 1], &[1, 0, 3, 0, 0, 0]),
        edge(&[2, 0, 3, MOST, 4, 0], single(0), 0, &[1, 1], &[1, MOST, 4, 0, 0, 0]),
        edge(&[3, 5, 1, 6, 2, 7, 3], single(6), 0, &[1, 2], &[2, 5, 1, 7, 3, 0, 0]),
        edge(&[2, 7, 1, (1 << 32) + 7, 2], single(7), 0, &[1, 1], &[1, (1 << 32) + 7, 2, 0, 0]),
        edge(&[0], range(0, MOST), 0, &[0, 0], &[0]),
        edge(&[0, 0, 0], single(0), 0, &[0, 0], &[0, 0, 0]),
    ]
}

pub fn edges() -> Vec<Edge> {
    let calls = || [rule(7, 1), rule(5, 1), Call::Add(Vec::new(), 1), single(5), range(0, MOST), range(9, 5)];
    let damaged = DAMAGED.iter().flat_map(|words| calls().map(|call| refused(words, call, 20, 0)));
    adds().into_iter().chain(removals()).chain(damaged).collect()
}

#[cfg(test)]
mod tests {
    use super::{edges, range, rule, single};
    use crate::index::{answer, Index};

    #[test]
    fn edges_come_out_as_they_are_said_to() {
        for (words, call, told, after) in edges() {
            assert_eq!(answer(&words, &call), (told, after), "{words:?} {call:?}");
        }
    }

    /// A freed place is used again, and what stands is as if it had been built afresh.
    #[test]
    fn a_freed_place_is_used_again() {
        let (mut long, mut short) = (Index::empty(5), Index::empty(5));
        let tell = |index: &mut Index, calls: &[_]| calls.iter().map(|call| index.call(call).0).collect::<Vec<u64>>();
        assert_eq!(tell(&mut long, &[rule(5, 1), rule(9, 2), rule(7, 3), single(5), rule(7, 3)]), [0, 0, 17, 0, 0]);
        assert_eq!(tell(&mut short, &[rule(7, 3), rule(9, 2)]), [0, 0]);
        assert_eq!((long.words(), long.words()), (short.words(), vec![2, 7, 3, 9, 2]));
        assert_eq!((long.call(&range(0, u64::MAX)), long.words()), ((0, vec![2, 0]), vec![0; 5]));
    }
}
