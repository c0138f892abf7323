//! Conversions of span words, and the words that readers give: those of a text within the old limit all have an old word.

use super::{readable, Checked, Checker};
use crate::cases::SHORT;
use crate::original::Outcome;
use crate::ours;
use crate::readers::{Reader, DIRECTIVE_WORDS, TOKEN_WORDS, VARIABLE_WORDS};
use crate::spans::{from_old, to_old};

/// The places of the span words in a record; an action's texts are told by its code, and a setvar's last by the kind of its value.
fn places(record: &[u64]) -> &'static [usize] {
    match record.len() {
        TOKEN_WORDS => &[3, 4],
        VARIABLE_WORDS => &[4, 5],
        DIRECTIVE_WORDS => &[2, 3, 6],
        _ => match record[0] {
            6 | 9 | 14..=17 | 20 | 25 | 32 => &[2, 6],
            24 | 31 => &[2, 3, 6],
            22 if matches!(record[4], 1 | 6) => &[2, 3, 5, 6],
            22 => &[2, 3, 6],
            _ => &[6],
        },
    }
}

/// Whether an old word holds a word that a reader gave, by the library as by the model; there and back it is the same.
fn held(word: u64) -> Result<bool, String> {
    let (mut old, mut again) = ([0], [0]);
    let told = (ours::span_to_old(word, &mut old), old[0]);
    if told != to_old(word) {
        return Err(format!("the span {word} as an old word: {told:?} and not {:?}", to_old(word)));
    }
    if told.0 != 0 {
        return Ok(false);
    }
    let back = (ours::span_from_old(told.1, &mut again), again[0]);
    (back == (0, word)).then_some(true).ok_or_else(|| format!("the span {word} as an old word and back: {back:?}"))
}

/// How many of our own span words have an old word and how many have none: within the old limit each has one.
pub(super) fn all_held(input: &[u8], words: impl Iterator<Item = u64>) -> Result<[u64; 2], String> {
    let mut counts = [0, 0];
    for word in words {
        let is_held = held(word)?;
        counts[usize::from(!is_held)] += 1;
        if !is_held && input.len() <= SHORT {
            return Err(format!("the span {word} of a text of {} bytes has no old word", input.len()));
        }
    }
    Ok(counts)
}

impl Checker {
    /// The span words of what our own call left, where it was read or refused whole and its values had room; of a long text once.
    pub(super) fn kept(&mut self, input: &[u8], o: &Outcome, width: usize, got: u64, lent: usize) -> Checked {
        let has_room = if self.long { lent == o.values.len() } else { o.values.len() <= lent };
        if !self.converted || !has_room || got != o.number || readable(input).is_none() {
            return Ok(());
        }
        let counts = match of_refusal(got, self.values.front(o.values.len())) {
            Some(word) => all_held(input, [word].into_iter())?,
            None => all_held(input, of_records(self.records.front(o.words.len()), width))?,
        };
        self.tally(counts);
        Ok(())
    }

    pub(super) fn tally(&mut self, [held, far]: [u64; 2]) {
        self.held += held;
        self.far += far;
    }

    /// A word by both conversions, with no room, room and more than enough for the value; and there and back.
    pub fn conversions(&mut self, word: u64) -> Checked {
        type By = (Reader, fn(u64) -> (u64, u64), fn(u64, &mut [u64]) -> u64, fn(u64, &mut [u64]) -> u64);
        let both: [By; 2] = [
            (Reader::SpanFromOld, from_old, ours::span_from_old, ours::span_to_old),
            (Reader::SpanToOld, to_old, ours::span_to_old, ours::span_from_old),
        ];
        for (reader, model, call, back) in both {
            let (number, value) = model(word);
            for lent in 0..3 {
                self.counts[reader as usize] += 1;
                let got = call(word, self.values.lend(lent));
                self.told(got, number, &[value], lent).map_err(|e| format!("{reader:?} of {word}: {e}; lent {lent} words"))?;
            }
            if number == 0 {
                let got = back(value, self.values.lend(1));
                self.told(got, 0, &[word], 1).map_err(|e| format!("{reader:?} of {word}, and back: {e}"))?;
            }
        }
        Ok(())
    }
}

/// The span words of records of one width.
pub(super) fn of_records(words: &[u64], width: usize) -> impl Iterator<Item = u64> + '_ {
    words.chunks_exact(width).flat_map(|record| places(record).iter().map(|place| record[*place]))
}

/// The span of what a refusal refuses, its last value.
pub(super) fn of_refusal(number: u64, values: &[u64]) -> Option<u64> {
    matches!(number, 5 | 7 | 8 | 10..=12).then(|| *values.last().expect("a span"))
}

#[cfg(test)]
mod tests {
    use super::{of_records, of_refusal};
    use crate::directives::{self, Version};
    use crate::original;
    use crate::spans::span;
    use crate::underlined;

    /// Each record's span words, by what the model gives.
    #[test]
    fn span_words_are_found() {
        let actions = underlined::actions("deny,msg:a,ctl:b=c,setvar:d=e,setvar:f=+1").words;
        let spans = |words: &[u64], width| of_records(words, width).collect::<Vec<u64>>();
        let texts = [(0, 1), (1, 1), (2, 1), (3, 2), (5, 1), (6, 1), (7, 2), (9, 1)].map(|(offset, len)| span(offset, len));
        let [a, b, c, tx, d, e, again, f] = texts;
        let sources = [(0, 4), (5, 5), (11, 7), (19, 10), (30, 11)].map(|(offset, len)| span(offset, len));
        let expected = [sources[0], a, sources[1], b, c, sources[2], tx, d, e, sources[3], again, f, sources[4]];
        assert_eq!(spans(&actions, 7), expected);
        assert_eq!(spans(&original::tokens("a 'b'").words, 5), [span(0, 1), span(0, 1), span(2, 3), span(1, 1)]);
        let read = directives::read("SecRule TX:k a\nSecMarker m", Version::V2_6);
        assert_eq!(spans(&read.directives, 11), [span(0, 14), 0, span(1, 1), span(15, 11), span(2, 1), 0]);
        assert_eq!(spans(&read.variables, 6), [span(0, 1), span(8, 4)]);
    }

    #[test]
    fn refusals_end_with_their_span() {
        assert_eq!((of_refusal(5, &[1, 0, 9]), of_refusal(13, &[1]), of_refusal(4, &[1, 2, 3])), (Some(9), None, None));
    }
}
