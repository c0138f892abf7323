//! Records by what they say, laid out as a reader lays them out, whether one makes them or not.

use crate::readers::ACTION_WORDS;
use crate::spans::between;

/// A record's code, number and value kind, and its texts, each with the word that shows it.
#[derive(Clone, Debug)]
pub struct Said {
    pub code: u64,
    pub number: u64,
    pub kind: u64,
    pub texts: Vec<(usize, Vec<u8>)>,
}

/// The words that show a record's texts.
const A: usize = 2;
const B: usize = 3;
const C: usize = 5;

impl Said {
    fn new(code: u64, number: u64, kind: u64, texts: &[(usize, &str)]) -> Self {
        let texts = texts.iter().map(|(place, text)| (*place, text.as_bytes().to_vec())).collect();
        Said { code, number, kind, texts }
    }

    /// An action without a text.
    pub fn plain(code: u64, number: u64) -> Self {
        Said::new(code, number, 0, &[])
    }

    pub fn one(code: u64, a: &str) -> Self {
        Said::new(code, 0, 0, &[(A, a)])
    }

    pub fn two(code: u64, a: &str, b: &str) -> Self {
        Said::new(code, 0, 0, &[(A, a), (B, b)])
    }

    pub fn expiry(variable: &str, seconds: u64) -> Self {
        Said::new(25, seconds, 0, &[(A, variable)])
    }

    /// A setvar whose value is a number, or none.
    pub fn step(collection: &str, key: &str, kind: u64, number: i64) -> Self {
        Said::new(22, number as u64, kind, &[(A, collection), (B, key)])
    }

    /// A setvar whose value is a text.
    pub fn set(collection: &str, key: &str, kind: u64, value: &str) -> Self {
        Said::new(22, 0, kind, &[(A, collection), (B, key), (C, value)])
    }
}

/// Records, and the text buffer, with their texts one behind the other from an offset on. No record has a source.
pub fn laid(offset: usize, list: &[Said]) -> (Vec<u64>, Vec<u8>) {
    let (mut words, mut text) = (Vec::new(), vec![b'#'; offset]);
    for said in list {
        let mut record = [0; ACTION_WORDS];
        (record[0], record[1], record[4]) = (said.code, said.number, said.kind);
        for (place, bytes) in &said.texts {
            record[*place] = between(text.len(), text.len() + bytes.len());
            text.extend(bytes);
        }
        words.extend(record);
    }
    (words, text)
}
