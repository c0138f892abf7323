//! What a package's records and refusals underline, cut out and read alone: each gives the record or the refusal that it stands under.

use super::{readable, Checked, Checker};
use crate::directives::{Package, WIDTHS};
use crate::original;
use crate::ours;
use crate::readers::{Reader, ACTION_WORDS, TOKEN_WORDS, VARIABLE_WORDS};
use crate::sources;
use crate::spans::{between, halves};

/// The part that a span word shows.
fn shown(text: &[u8], word: u64) -> Result<&[u8], String> {
    let (first, len) = halves(word);
    text.get(first..first + len).ok_or_else(|| format!("a span of {first} and {len}, which is no part of {} bytes", text.len()))
}

/// What a reader made of a part: number, values, texts and records.
struct Read {
    number: u64,
    values: [u64; 10],
    texts: Vec<u8>,
    words: Vec<u64>,
}

impl Read {
    fn by(input: &[u8], records: usize, mut call: impl FnMut(&mut [u8], &mut [u64], &mut [u64]) -> u64) -> Self {
        let (mut texts, mut words, mut values) = (vec![0; input.len()], vec![0; records * ACTION_WORDS], [0; 10]);
        let number = call(&mut texts, &mut words, &mut values);
        Read { number, values, texts, words }
    }

    fn actions(list: &[u8]) -> Self {
        let mut scratch = vec![0; list.len()];
        Read::by(list, 2, |text, records, values| ours::parse_actions(list, text, &mut scratch, records, values))
    }

    fn variables(list: &[u8]) -> Self {
        Read::by(list, 3, |text, records, values| ours::parse_variables(list, text, records, values))
    }

    /// The record at a place, the last one that was read.
    fn last(&self, at: usize, width: usize) -> Result<&[u64], String> {
        if self.number != 0 || self.values[0] != at as u64 + 1 {
            return Err(format!("number {} with {} records, not {}", self.number, self.values[0], at + 1));
        }
        Ok(&self.words[at * width..(at + 1) * width])
    }
}

/// Whether two records say the same: their words, those at `spans` by the texts that they show.
fn same(one: (&[u64], &[u8]), other: (&[u64], &[u8]), spans: &[usize]) -> Checked {
    let alike = |at: usize| {
        let words = [one.0[at], other.0[at]];
        Ok(words[0] == words[1] || (spans.contains(&at) && shown(one.1, words[0])? == shown(other.1, words[1])?))
    };
    match (0..one.0.len() - 1).map(alike).collect::<Result<Vec<bool>, String>>()?.iter().position(|same| !same) {
        None => Ok(()),
        Some(at) => Err(format!("word {at} of {:?}, and alone of {:?}", one.0, other.0)),
    }
}

/// The words and strings of a package, in order, with where they stand.
struct Arguments(Vec<(usize, usize, bool)>);

impl Arguments {
    fn of(text: &str) -> Self {
        let token = |record: &[u64]| {
            let (first, len) = halves(record[3]);
            (first, first + len, record[0] == 3)
        };
        Arguments(original::tokens(text).words.chunks_exact(TOKEN_WORDS).map(token).collect())
    }

    /// A part of the package as the lexer reads it, by the argument that it stands in: a word, or a text in quotation marks.
    fn read(&self, package: &[u8], word: u64) -> Result<Vec<u8>, String> {
        let (first, part) = (halves(word).0, shown(package, word)?);
        let behind = self.0.partition_point(|token| token.0 <= first);
        let token = behind.checked_sub(1).map(|at| self.0[at]).filter(|token| first + part.len() <= token.1);
        let (_, _, quoted) = token.ok_or_else(|| format!("the part at {first} of {} bytes is within no argument", part.len()))?;
        Ok(sources::text_of(&if quoted { sources::of_part(part) } else { sources::of_word(part, 0, part.len()) }))
    }
}

/// What the library made of a package: each part that its records underline, and the one of a refusal.
struct Underlined<'a> {
    package: &'a [u8],
    arguments: Arguments,
    read: Package,
}

impl Underlined<'_> {
    fn action(&self, record: &[u64]) -> Checked {
        let part = self.arguments.read(self.package, record[ACTION_WORDS - 1])?;
        let alone = Read::actions(&part);
        let again = alone.last(0, ACTION_WORDS)?;
        same((record, &self.read.texts), (again, &alone.texts), &[2, 3, 5])?;
        whole(again[ACTION_WORDS - 1], 0, part.len())
    }

    /// An exclusion holds for a variable, so that one stands before it.
    fn target(&self, record: &[u64]) -> Checked {
        let part = self.arguments.read(self.package, record[VARIABLE_WORDS - 1])?;
        let before: &[u8] = if record[0] == 2 { b"TX|" } else { b"" };
        let alone = Read::variables(&[before, &part].concat());
        let again = alone.last(before.len() / 3, VARIABLE_WORDS)?;
        same((record, &self.read.texts), (again, &alone.texts), &[4])?;
        whole(again[VARIABLE_WORDS - 1], before.len(), part.len())
    }

    /// The piece that a refusal underlines is refused alone, with the same number and name; an operator's name is unknown behind a `@`.
    fn refusal(&self) -> Checked {
        let Package { number, values, texts, .. } = &self.read;
        let (len, word) = (values[2], values[3]);
        let part = self.arguments.read(self.package, word)?;
        let alone = match number {
            8 => {
                // a blank and an argument end it, so that a vertical tab at its end stays
                let said = [b"@", &part[..], b" x"].concat();
                Read::by(&said, 0, |_, _, values| ours::parse_operator(&said, values))
            }
            7 => Read::variables(&part),
            _ => Read::actions(&part),
        };
        let (place, first) = if *number == 8 { (1, 1) } else { (0, 0) };
        if (alone.number, alone.values[0], alone.values[1]) != (*number, place, len) {
            return Err(format!("number {} with {:?}, alone {} with {:?}", number, values, alone.number, &alone.values[..3]));
        }
        if *number != 8 && alone.texts.get(..len as usize) != texts.get(..len as usize) {
            return Err(format!("number {number}, and another name alone"));
        }
        whole(alone.values[2], first, part.len())
    }
}

/// A part read alone is underlined whole.
fn whole(word: u64, first: usize, len: usize) -> Checked {
    let expected = between(first, first + len);
    (word == expected).then_some(()).ok_or_else(|| format!("alone the span {word} and not {expected}"))
}

impl Checker {
    /// The library's own answer on a package, with room for what the model needs.
    fn answered(&mut self, input: &[u8], model: &Package) -> Package {
        let n = input.len();
        let [d, v, a] = [&model.directives, &model.variables, &model.actions].map(|words| vec![0; words.len()]);
        let (mut texts, mut scratch, mut values) = (vec![0; n], vec![0; n], vec![0; 10]);
        let (mut directives, mut variables, mut actions) = (d, v, a);
        let number = ours::directives(input, false, &mut texts, &mut scratch, &mut directives, &mut variables, &mut actions, &mut values);
        Package { number, values, texts, directives, variables, actions }
    }

    /// Every part that the library underlines in a package, read alone.
    pub(super) fn underlined(&mut self, input: &[u8], model: &Package) -> Checked {
        let Some(text) = readable(input) else { return Ok(()) };
        let refused = matches!(model.number, 5 | 7 | 8 | 10..=12);
        if !refused && model.variables.is_empty() && model.actions.is_empty() {
            return Ok(());
        }
        let all = Underlined { package: input, arguments: Arguments::of(text), read: self.answered(input, model) };
        let [_, v, a] = WIDTHS;
        let (targets, actions) = (all.read.variables.chunks_exact(v), all.read.actions.chunks_exact(a));
        self.counts[Reader::Underlined as usize] += if refused { 1 } else { (targets.len() + actions.len()) as u64 };
        let checked = if refused {
            all.refusal()
        } else {
            targets
                .into_iter()
                .try_for_each(|record| all.target(record))
                .and_then(|()| actions.into_iter().try_for_each(|record| all.action(record)))
        };
        checked.map_err(|e| format!("a part that is underlined, read alone: {e}"))
    }
}

#[cfg(test)]
mod tests {
    use super::{same, Arguments};
    use crate::spans::span;

    fn read(package: &str, first: u64, len: u64) -> Result<Vec<u8>, String> {
        Arguments::of(package).read(package.as_bytes(), span(first, len))
    }

    #[test]
    fn parts_are_read_as_they_stand() {
        assert_eq!(read("SecAction \"msg:a\\,de\\\n ny\"", 11, 6), Ok(b"msg:a\\".to_vec()));
        assert_eq!(read("SecAction \"msg:a\\,de\\\n ny\"", 18, 7), Ok(b"deny".to_vec()));
        assert_eq!(read("SecAction de\\\nny\\n", 10, 8), Ok(b"deny\\n".to_vec()));
        assert!(read("SecAction deny log", 10, 6).is_err() && read("SecAction deny", 12, 3).is_err());
    }

    #[test]
    fn records_are_told_apart_by_what_they_show() {
        let (one, other) = ([14, 0, span(0, 2), 9], [14, 0, span(1, 2), 7]);
        assert_eq!(same((&one, b"abab"), (&other, b"xab"), &[2]), Ok(()));
        assert!(same((&one, b"abab"), (&other, b"xba"), &[2]).is_err());
        assert!(same((&one, b"abab"), (&other, b"xab"), &[]).is_err());
        assert!(same((&one, b"abab"), (&[14, 1, span(0, 2), 9], b"ab"), &[2]).is_err());
    }
}
