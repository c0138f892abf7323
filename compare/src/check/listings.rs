//! Listings: a text's whole line, and the same out of its records.

use super::{gate, readable, Checked, Checker};
use crate::lent::After;
use crate::original::{self, Outcome, LIMIT};
use crate::ours;
use crate::readers::{sized, Reader, Shape, TOKEN_WORDS};

/// The line and column of an early stop.
type Early = Option<(usize, usize)>;

impl Checker {
    pub(super) fn written(&self, got: u64, line: &[u8], lent: usize, values: usize) -> Checked {
        let (number, after) = if line.len() <= lent { (0, After::Padded(line)) } else { (4, After::Padded(&[][..])) };
        self.told(got, number, &[line.len() as u64], values)?;
        if self.out.is(after) {
            Ok(())
        } else {
            Err(format!("line {}", self.out.shown(after)))
        }
    }

    /// A text's line, by the listing of its tokens.
    fn line(&mut self, shape: Shape, input: &[u8], o: &Outcome, rows: &str) -> Checked {
        let (n, m, v) = (sized(input.len(), shape.text), sized(o.words.len(), shape.records), sized(1, shape.values));
        let count = o.words.len() / TOKEN_WORDS;
        let refused = gate(input, n, input.len()).or((m / TOKEN_WORDS < count).then_some((4, count as u64)));
        let line = refused.map_or_else(|| format!("{rows}\n"), |(number, place)| format!("[{number},{place}]\n"));
        let k = sized(line.len(), shape.scratch);
        let got = ours::list_text(input, self.text.lend(n), self.records.lend(m), self.out.lend(k), self.values.lend(v));
        self.written(got, line.as_bytes(), k, v)?;
        if refused.is_none() && !(self.text.is(After::Padded(&o.texts)) && self.records.is(After::Padded(&o.words))) {
            return Err("the reader's buffers are not as it leaves them".to_string());
        }
        Ok(())
    }

    fn listed(&mut self, shape: Shape, o: &Outcome, rows: &str, early: Early) -> Checked {
        let (k, v) = (sized(rows.len(), shape.scratch), sized(1, shape.values));
        let got = ours::write_listing(&o.words, &o.texts, early, self.out.lend(k), self.values.lend(v));
        self.written(got, rows.as_bytes(), k, v)
    }

    pub(super) fn listing(&mut self, input: &[u8]) -> Checked {
        let o = readable(input).map(original::tokens).unwrap_or_default();
        let (rows, early) = readable(input).map(original::listing).unwrap_or_default();
        for shape in self.shapes(Reader::ListText) {
            self.line(*shape, input, &o, &rows)?;
        }
        if readable(input).is_none() {
            return Ok(());
        }
        for shape in self.shapes(Reader::WriteListing) {
            self.listed(*shape, &o, &rows, early)?;
        }
        self.damaged_listing(&o)
    }

    /// A record of a kind that no reader makes: one of the first, or of the last in a long listing; and one more than any reader makes.
    fn damaged_listing(&mut self, o: &Outcome) -> Checked {
        let count = o.words.len() / TOKEN_WORDS;
        if count == 0 {
            return Ok(());
        }
        let (mut words, near) = (o.words.clone(), self.shape % count);
        if count == LIMIT {
            words.extend([5, 1, 1, 0, 0]);
            self.unlisted(&words, &o.texts, LIMIT)?;
        }
        let bad = if self.long { count - 1 - near } else { near };
        words[bad * TOKEN_WORDS] = [0, 6, u64::MAX][self.shape % 3];
        self.unlisted(&words, &o.texts, bad)
    }

    /// Records that are refused with 19 and the number of one, and the buffer cleared.
    fn unlisted(&mut self, words: &[u64], texts: &[u8], bad: usize) -> Checked {
        let shape = self.turn(Reader::WriteListing);
        let (k, v) = (sized(20, shape.scratch), sized(1, shape.values));
        let got = ours::write_listing(words, texts, None, self.out.lend(k), self.values.lend(v));
        self.told(got, 19, &[bad as u64], v)?;
        if self.out.is(After::Padded(&[])) {
            Ok(())
        } else {
            Err("a refused listing is not cleared".to_string())
        }
    }
}
