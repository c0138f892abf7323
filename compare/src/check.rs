//! One call of ours beside the original's answer: number, values, every byte and word lent.

use crate::lent::{After, Lent};
use crate::original::{self, Outcome, LIMIT};
use crate::ours;
use crate::readers::{sized, Reader, Shape, ACTION_WORDS, LONG_SHAPES, READERS, SHAPES, TOKEN_WORDS, VARIABLE_WORDS};
use crate::underlined;
pub use writing::LENDS;

mod alone;
mod index;
mod listings;
mod packages;
mod spans;
mod steps;
mod writing;

pub struct Checker {
    text: Lent<u8>,
    scratch: Lent<u8>,
    out: Lent<u8>,
    records: Lent<u64>,
    variables: Lent<u64>,
    actions: Lent<u64>,
    index: Lent<u64>,
    values: Lent<u64>,
    alone: bool,
    pub shape: usize,
    /// Whether steps are tried at every place of a long text too.
    pub every: bool,
    /// Whether texts are long: what is lent has fewer shapes then, all for one answer of the original's.
    pub long: bool,
    /// Whether the span words of our records are converted too.
    pub converted: bool,
    /// Span words of our records that have an old word, and that have none.
    pub held: u64,
    pub far: u64,
    /// Packages in which 2.7 misses an id, and those that it reads though a rule has none, by a chain.
    pub missed: u64,
    pub continued: u64,
    /// Lists of action records that are written, and that are not.
    pub written: u64,
    pub unwritten: u64,
    pub counts: [u64; READERS.len()],
}

type Checked = Result<(), String>;

/// The most bytes that an action's spelling has beside its texts, with the comma before it: a setvar's with an amount.
const SPELLING_MOST: usize = 33;

/// Numbers 1, 2 and 3.
fn gate(input: &[u8], shortest: usize, asked: usize) -> Option<(u64, u64)> {
    if LIMIT < input.len() {
        return Some((1, LIMIT as u64));
    }
    if !input.is_ascii() {
        let place = input.iter().position(|b| 127 < *b).expect("a byte past ASCII");
        return Some((2, place as u64));
    }
    (shortest < asked).then_some((3, 0))
}

/// The input as the original takes it, where it may be asked at all.
fn readable(input: &[u8]) -> Option<&str> {
    if input.len() <= LIMIT && input.is_ascii() {
        std::str::from_utf8(input).ok()
    } else {
        None
    }
}

/// What the house asks of an action's number (document 01, module 6; document 02, M-101: phases 1 to 5), which the original has not.
fn grade(words: &[u64]) -> bool {
    let fine = |record: &[u64]| match record[0] {
        11 => 1 <= record[1],
        12 => (1..=5).contains(&record[1]),
        13 => record[1] <= 7,
        18 | 19 => (1..=9).contains(&record[1]),
        _ => true,
    };
    words.chunks_exact(ACTION_WORDS).all(fine) && words.chunks_exact(ACTION_WORDS).filter(|record| record[0] == 11).count() <= 1
}

impl Checker {
    pub fn new(alone: bool) -> Self {
        let (bytes, words) = (|| Lent::new(0xA5, alone), || Lent::new(0xA5A5_5A5A_A5A5_5A5A, alone));
        Checker {
            text: bytes(),
            scratch: bytes(),
            out: bytes(),
            records: words(),
            variables: words(),
            actions: words(),
            index: words(),
            values: words(),
            alone,
            shape: 0,
            every: false,
            long: false,
            converted: false,
            held: 0,
            far: 0,
            missed: 0,
            continued: 0,
            written: 0,
            unwritten: 0,
            counts: [0; READERS.len()],
        }
    }

    /// What is lent in a case, in turn.
    fn turn(&mut self, reader: Reader) -> Shape {
        self.counts[reader as usize] += 1;
        self.shape = (self.shape + 1) % SHAPES.len();
        if self.long {
            LONG_SHAPES[self.shape % LONG_SHAPES.len()]
        } else {
            SHAPES[self.shape]
        }
    }

    /// What is lent for one answer of the original's: one in turn, or all of the few for a long text.
    fn shapes(&mut self, reader: Reader) -> &'static [Shape] {
        self.turn(reader);
        if !self.long {
            return &SHAPES[self.shape..=self.shape];
        }
        self.counts[reader as usize] += LONG_SHAPES.len() as u64 - 1;
        &LONG_SHAPES
    }

    /// The number given, and the values where they were lent room.
    fn told(&self, got: u64, number: u64, values: &[u64], lent: usize) -> Checked {
        if got != number {
            return Err(format!("number {got}, the original's {number} {values:?}"));
        }
        let after = if values.len() <= lent { After::Front(values) } else { After::Untouched };
        if self.values.is(after) {
            Ok(())
        } else {
            Err(format!("number {got}, values {}", self.values.shown(after)))
        }
    }

    fn filled(&self, refused: Option<(u64, u64)>, o: &Outcome, width: usize, got: u64, lent: usize, room: usize) -> Checked {
        let needed = o.words.len() / width;
        let (number, values, text, words) = match refused {
            Some((number, value)) => (number, vec![value], After::Untouched, After::Untouched),
            None if o.number != 0 => (o.number, o.values.clone(), After::Padded(&o.texts[..]), After::Padded(&[][..])),
            None if room / width < needed => (4, vec![needed as u64], After::Padded(&[][..]), After::Padded(&[][..])),
            None => (0, o.values.clone(), After::Padded(&o.texts[..]), After::Padded(&o.words[..])),
        };
        self.told(got, number, &values, lent)?;
        if !self.text.is(text) {
            return Err(format!("number {got}, text {}", self.text.shown(text)));
        }
        if !self.records.is(words) {
            return Err(format!("number {got}, records {}", self.records.shown(words)));
        }
        Ok(())
    }

    fn fills(&mut self, reader: Reader, input: &[u8], of: fn(&str) -> Outcome, width: usize, more: usize, call: ours::Filler) -> Checked {
        let o = readable(input).map(of).unwrap_or_default();
        self.shapes(reader).iter().try_for_each(|shape| self.fills_as(*shape, input, &o, width, more, call))
    }

    /// Both lexers on one text, each lent the same.
    fn lexers(&mut self, input: &[u8]) -> Checked {
        let o = readable(input).map(original::tokens).unwrap_or_default();
        for shape in self.shapes(Reader::Tokens) {
            self.counts[Reader::PlainTokens as usize] += 1;
            self.fills_as(*shape, input, &o, TOKEN_WORDS, 0, ours::tokens)?;
            let plain = self.fills_as(*shape, input, &o, TOKEN_WORDS, 0, ours::plain_tokens);
            plain.map_err(|e| format!("the plain lexer: {e}"))?;
        }
        Ok(())
    }

    fn fills_as(&mut self, shape: Shape, input: &[u8], o: &Outcome, width: usize, more: usize, call: ours::Filler) -> Checked {
        let asked = input.len() + more;
        let (n, m, v) = (sized(asked, shape.text), sized(o.words.len(), shape.records), sized(o.values.len(), shape.values));
        let got = call(input, self.text.lend(n), self.records.lend(m), self.values.lend(v));
        let checked = self.filled(gate(input, n, asked), o, width, got, v, m).and_then(|()| self.kept(input, o, width, got, v));
        checked.map_err(|e| format!("{e}; lent {n} bytes, {m} and {v} words"))
    }

    fn actions(&mut self, input: &[u8]) -> Checked {
        let o = readable(input).map(underlined::actions).unwrap_or_default();
        let text = readable(input).map(original::normalised).unwrap_or_default();
        self.shapes(Reader::Actions).iter().try_for_each(|shape| self.actions_as(*shape, input, &o, &text))?;
        if readable(input).is_some() && o.number == 0 {
            self.records_of(input, &o.words)?;
            self.written_back(&o)
        } else {
            Ok(())
        }
    }

    /// The records of a list that is read, written back: always, where its texts are plain and its spelling is short enough.
    fn written_back(&mut self, o: &Outcome) -> Checked {
        let before = self.unwritten;
        self.writes(&o.words, &o.texts).map_err(|e| format!("written back: {e}"))?;
        let is_plain = !o.texts.iter().any(|byte| b"'\"\\,()".contains(byte));
        let most = o.texts.len() + SPELLING_MOST * (o.words.len() / ACTION_WORDS);
        if before < self.unwritten && is_plain && most <= LIMIT {
            return Err("a list that is read, with plain texts, is not written back".to_string());
        }
        Ok(())
    }

    fn setvar(&mut self, input: &[u8]) -> Checked {
        self.fills(Reader::Setvar, input, underlined::setvar, ACTION_WORDS, 3, ours::parse_setvar)?;
        match readable(input) {
            Some(text) => self.written_back(&underlined::setvar(text)),
            None => Ok(()),
        }
    }

    /// An action list's records, and its text normalised.
    fn actions_as(&mut self, shape: Shape, input: &[u8], o: &Outcome, text: &str) -> Checked {
        let (n, k) = (sized(input.len(), shape.text), sized(input.len(), shape.scratch));
        let (m, v) = (sized(o.words.len(), shape.records), sized(o.values.len(), shape.values));
        let got = ours::parse_actions(input, self.text.lend(n), self.scratch.lend(k), self.records.lend(m), self.values.lend(v));
        let refused = gate(input, n.min(k), input.len());
        let lent = |e| format!("{e}; lent {n} and {k} bytes, {m} and {v} words");
        self.filled(refused, o, ACTION_WORDS, got, v, m).and_then(|()| self.kept(input, o, ACTION_WORDS, got, v)).map_err(lent)?;
        let scratch = if refused.is_some() { After::Untouched } else { After::Padded(text.as_bytes()) };
        if self.scratch.is(scratch) {
            Ok(())
        } else {
            Err(lent(format!("number {got}, scratch {}", self.scratch.shown(scratch))))
        }
    }

    /// A rule's phase and grade, and the id that it goes by, out of its records and words left over.
    fn records_of(&mut self, input: &[u8], words: &[u64]) -> Checked {
        self.counts[Reader::Phase as usize] += 1;
        self.counts[Reader::Grade as usize] += 1;
        let lent = [words, &[12, 1, 0][..self.shape % 4]].concat();
        let rule = readable(input).and_then(original::rule).expect("a list that is read");
        let (phase, id) = (u64::from(rule.phase()), rule.id());
        if ours::phase(&lent) != phase {
            return Err(format!("phase {}, the original's {phase}", ours::phase(&lent)));
        }
        if ours::grade(&lent) != grade(words) {
            return Err(format!("grade {}", ours::grade(&lent)));
        }
        self.entered(&lent, id)
    }

    fn operator(&mut self, input: &[u8]) -> Checked {
        let o = readable(input).map(underlined::operator).unwrap_or_default();
        self.shapes(Reader::Operator).iter().try_for_each(|shape| self.operator_as(*shape, input, &o))
    }

    fn operator_as(&mut self, shape: Shape, input: &[u8], o: &Outcome) -> Checked {
        let v = sized(o.values.len(), shape.values);
        let got = ours::parse_operator(input, self.values.lend(v));
        match gate(input, 0, 0) {
            Some((number, value)) => self.told(got, number, &[value], v),
            None => self.told(got, o.number, &o.values, v).and_then(|()| self.kept(input, o, ACTION_WORDS, got, v)),
        }
    }

    fn lookups(&mut self, name: &[u8]) -> Checked {
        for table in 0..4 {
            // the original takes no other bytes, and folds severity words past ASCII
            let Ok(text) = std::str::from_utf8(name) else { continue };
            if table == 2 && !text.is_ascii() {
                continue;
            }
            self.turn(Reader::Lookup);
            let (got, code) = (ours::lookup(table, name), original::lookup(table, text).unwrap_or(ours::UNKNOWN));
            if got != code {
                return Err(format!("table {table}, code {got}, the original's {code}"));
            }
        }
        Ok(())
    }

    fn xml(&mut self, text: &[u8]) -> Checked {
        for selection in 0..4 {
            let Some(said) = readable(text) else { continue };
            self.turn(Reader::XmlTarget);
            let (got, target) = (ours::xml_target(selection, text), original::xml_target(selection, said));
            if got != target {
                return Err(format!("selection {selection}, target {got}, the original's {target}"));
            }
        }
        Ok(())
    }

    /// Calls that take numbers alone.
    pub fn numbers(&mut self, a: u64, b: u64, c: u64) -> Checked {
        let shape = self.turn(Reader::WriteRefusal);
        let line = format!("[{a},{b}]");
        let (k, v) = (sized(line.len(), shape.scratch), sized(1, shape.values));
        let got = ours::write_refusal(a, b, self.out.lend(k), self.values.lend(v));
        self.written(got, line.as_bytes(), k, v)?;
        for ranged in [false, true] {
            self.counts[Reader::Matches as usize] += 1;
            if ours::matches(ranged, a, b, c) != original::matches(ranged, a, b, c) {
                return Err(format!("a selector {ranged} {a} {b} on {c}"));
            }
        }
        for test in 0..4 {
            self.counts[Reader::Test as usize] += 1;
            if ours::test(test, a) != original::test(test, a) {
                return Err(format!("test {test} on code {a}"));
            }
        }
        Ok(())
    }

    /// Phase and grade on any words, which the original's types cannot hold: only whole records count.
    pub fn words(&mut self, words: &[u64]) -> Checked {
        self.counts[Reader::Phase as usize] += 1;
        self.counts[Reader::Grade as usize] += 1;
        let phase = words.chunks_exact(ACTION_WORDS).find(|record| record[0] == 12).map_or(2, |record| record[1]);
        if ours::phase(words) != phase || ours::grade(words) != grade(words) {
            return Err(format!("phase {} and grade {}, not {phase} and {}", ours::phase(words), ours::grade(words), grade(words)));
        }
        Ok(())
    }

    fn plain(&mut self, reader: Reader, input: &[u8]) -> Checked {
        match reader {
            Reader::NextToken => self.steps(input),
            Reader::Tokens | Reader::PlainTokens => self.lexers(input),
            Reader::Actions | Reader::Phase | Reader::Grade => self.actions(input),
            Reader::Setvar => self.setvar(input),
            Reader::Variables => self.fills(reader, input, underlined::variables, VARIABLE_WORDS, 0, ours::parse_variables),
            Reader::Updates => self.fills(reader, input, underlined::updates, VARIABLE_WORDS, 0, ours::parse_update_targets),
            Reader::Operator => self.operator(input),
            Reader::Lookup => self.lookups(input),
            Reader::XmlTarget => self.xml(input),
            Reader::ListText | Reader::WriteListing => self.listing(input),
            Reader::Directives => self.packages(input),
            Reader::Test | Reader::Matches | Reader::WriteRefusal => unreachable!("these take no text"),
            Reader::SpanFromOld | Reader::SpanToOld | Reader::IndexAdd | Reader::IndexRemove => unreachable!("these take no text"),
            Reader::WriteActions => unreachable!("it takes records"),
            Reader::Directives27 | Reader::Underlined => unreachable!("these are no readers"),
        }
    }

    /// One input to one reader, compared; the error says what differed.
    pub fn check(&mut self, reader: Reader, input: &[u8]) -> Checked {
        if self.alone {
            let own: Box<[u8]> = input.into();
            return self.plain(reader, &own);
        }
        self.plain(reader, input)
    }
}
