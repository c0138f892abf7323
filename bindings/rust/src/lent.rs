//! What the crate lends to the library, and what it reads out of it afterwards.

use crate::{raw, Refusal, LIMIT};

/// Words of values that are enough for every reader.
pub(crate) type Values = [u64; 10];

/// The number for more records than fit, whose value is how many are needed.
pub(crate) const NO_ROOM: u64 = 4;

/// The texts of records.
pub(crate) struct Texts(pub Vec<u8>);

impl Texts {
    /// The text of a span word.
    pub fn said(&self, word: u64) -> String {
        said(&self.0[span(word)])
    }
}

/// What a reader left that refused nothing.
pub(crate) struct Filled {
    pub values: Values,
    pub texts: Texts,
    records: Vec<u64>,
    width: usize,
}

impl Filled {
    /// The records that were read.
    pub fn records(&self) -> impl Iterator<Item = &[u64]> {
        self.records.chunks_exact(self.width).take(size(self.values[0]))
    }
}

/// What a reader is lent at first. All of it is cleared at each call, and the most that a long text can need is forty times its length,
/// so that less is lent than that.
pub(crate) struct Room {
    text: usize,
    records: usize,
    width: usize,
}

impl Room {
    /// A text as long as the input, and a record in six bytes, which real rules hardly ever pass.
    pub fn of(input: &[u8], width: usize) -> Self {
        // an input past the limit is refused before anything lent is looked at
        let len = input.len().min(LIMIT);
        Room { text: len, records: len / 6 + 2, width }
    }

    /// The same for one record, whose text may be so many bytes longer than the input.
    pub fn of_one(input: &[u8], width: usize, more: usize) -> Self {
        Room { text: input.len().min(LIMIT) + more, records: 1, width }
    }

    /// The text and the records.
    pub fn lent(&self) -> (Vec<u8>, Vec<u64>) {
        (vec![0; self.text], vec![0; self.records * self.width])
    }
}

/// Reads with that room. Where a text has more records, the library says how many, and reads it once more.
pub(crate) fn filled(input: &[u8], room: Room, mut read: impl FnMut(&mut [u8], &mut [u64], &mut [u64]) -> u64) -> Result<Filled, Refusal> {
    let width = room.width;
    let ((mut text, mut records), mut values) = (room.lent(), Values::default());
    let mut number = read(&mut text, &mut records, &mut values);
    if number == NO_ROOM {
        records = vec![0; size(values[0]) * width];
        number = read(&mut text, &mut records, &mut values);
    }
    match number {
        0 => Ok(Filled { values, texts: Texts(text), records, width }),
        _ => Err(Refusal::of(number, &values, input, &text)),
    }
}

/// A word as a length or a place, which the limit keeps small.
pub(crate) fn size(word: u64) -> usize {
    word as usize
}

/// The part that a span word shows.
pub(crate) fn span(word: u64) -> std::ops::Range<usize> {
    let first = size(word / raw::SPAN_BASE);
    first..first + size(word % raw::SPAN_BASE)
}

/// Bytes of a text that was read, which are ASCII.
pub(crate) fn said(bytes: &[u8]) -> String {
    String::from_utf8_lossy(bytes).into_owned()
}

/// No proved answer leaves anything else, so that this is another library's.
#[cold]
pub(crate) fn another(what: &str, number: u64) -> ! {
    panic!("libseclang gave {what} {number}, which this crate does not know")
}
