//! Steps: one token from a cursor, at many places of a text.

use super::{gate, readable, Checked, Checker};
use crate::lent::After;
use crate::original::{self, Cursor, LIMIT};
use crate::ours;
use crate::readers::{sized, Reader};
use crate::spans::SHARED;

impl Checker {
    pub fn step(&mut self, input: &[u8], from: Cursor) -> Checked {
        let shape = self.turn(Reader::NextToken);
        let o = readable(input).map(|text| original::step(text, from)).unwrap_or_default();
        let (n, v) = (sized(input.len(), shape.text), sized(o.values.len(), shape.values));
        let got = ours::next_token(input, from, self.text.lend(n), self.values.lend(v));
        let (checked, text) = match gate(input, n, input.len()) {
            Some((number, value)) => (self.told(got, number, &[value], v), After::Untouched),
            None => (self.told(got, o.number, &o.values, v), After::Front(&o.texts[..])),
        };
        let lent = |e| format!("{e}; at {from:?}, lent {n} bytes, {v} words");
        checked.map_err(lent)?;
        if self.text.is(text) {
            Ok(())
        } else {
            Err(lent(format!("text {}", self.text.shown(text))))
        }
    }

    /// Each place up to the end and one past, or of a long text the first and last, and of a very long one those beside an old span's end.
    fn places(&self, last: usize) -> Vec<usize> {
        if self.long {
            let edge = SHARED as usize;
            let some = [0, 1, last / 2, edge - 1, edge, edge + 1, edge + 2, last.saturating_sub(2), last.saturating_sub(1)];
            return some.into_iter().filter(|place| *place < last).chain([last, last + 1]).collect();
        }
        (0..=last + 1).filter(|place| self.every || *place < 12 || last < place + 4).collect()
    }

    /// A step at each place, with both marks, and with lines and columns that do not fit the place.
    pub(super) fn steps(&mut self, input: &[u8]) -> Checked {
        for place in self.places(input.len().min(LIMIT)) {
            self.step(input, Cursor { place, line: 1, column: place + 1, mark: place == 0 })?;
            let edges = [0, 1, 2, LIMIT, LIMIT + 1, LIMIT + 2, usize::MAX];
            let (line, column) = (edges[(place + self.shape) % 7], edges[self.shape % 7]);
            self.step(input, Cursor { place, line: line.clamp(1, LIMIT + 1), column: 9, mark: place != 0 })?;
            self.step(input, Cursor { place, line, column, mark: self.shape % 2 == 0 })?;
        }
        if self.long {
            self.edge_steps(input)
        } else {
            Ok(())
        }
    }

    /// A step at the start, before the end and at it, with the largest line and column that are read, and with one more.
    fn edge_steps(&mut self, input: &[u8]) -> Checked {
        let last = input.len().min(LIMIT);
        for place in [0, last.saturating_sub(1), last] {
            for (line, column) in [(LIMIT + 1, 1), (1, LIMIT + 1), (LIMIT + 1, LIMIT + 1), (LIMIT + 2, 1), (1, LIMIT + 2)] {
                self.step(input, Cursor { place, line, column, mark: line == 1 })?;
            }
        }
        Ok(())
    }
}
