//! What is refused, by the library's numbers.

use crate::lent::{another, said, size, span, Values};
use crate::{tokens, TokenKind};
use std::fmt;
use std::ops::Range;

/// What is wrong with an action's argument, which stands behind a colon: `id` has none, and `id:` has the empty one.
#[derive(Clone, Copy, Debug, PartialEq, Eq, Hash)]
pub enum Flaw {
    /// 10: there is none, and the action must have one.
    Absent,
    /// 11: it says no number: empty, a sign alone, with a minus or any other byte that is no digit, however large the digits are.
    /// A severity may be a word of its table too, and loses the quotation marks around it first.
    Unreadable,
    /// 12: it is a number past the action's width: above 2^64 - 1 for id, 2^32 - 1 for skip, 65,535 for status, 255 for the others.
    TooLarge,
}

/// Why an input was not read. The crate sizes what it lends, so that its own readers never give the numbers for short buffers, 3 and 4;
/// a host that lends by itself ([`raw`](crate::raw)) has them by [`Refusal::from_raw`].
#[derive(Clone, Debug, PartialEq, Eq, Hash)]
#[non_exhaustive]
pub enum Refusal {
    /// 1: the input is over [`LIMIT`](crate::LIMIT) bytes.
    TooLong,
    /// 2: a byte is 128 or more.
    NotAscii {
        /// Where the first such byte stands, from 0.
        place: usize,
    },
    /// 3: a text or scratch buffer is shorter than the input asks for.
    ShortBuffer,
    /// 4: more records are there than the record buffers take.
    NoRoom {
        /// How many are needed; of a package, directive, variable and action records.
        needed: Vec<usize>,
    },
    /// 5: there is no such action.
    UnknownAction {
        /// Which non-empty piece of the list it is, from 0.
        piece: usize,
        /// Its name in small letters.
        name: String,
        /// The bytes of the piece in the input.
        span: Range<usize>,
    },
    /// 10, 11 or 12: an action's argument is absent, unreadable or too large.
    BadArgument {
        /// Which of the three.
        flaw: Flaw,
        /// Which non-empty piece of the list it is, from 0.
        piece: usize,
        /// The action's name.
        action: String,
        /// The bytes of the piece in the input.
        span: Range<usize>,
    },
    /// 7: there is no such variable.
    UnknownVariable {
        /// Which non-empty piece of the list it is, from 0.
        piece: usize,
        /// Its name as written.
        name: String,
        /// The bytes of the piece in the input, its `!` or `&` too.
        span: Range<usize>,
    },
    /// 8: there is no such operator.
    UnknownOperator {
        /// Where its name stands in the input, from 0.
        place: usize,
        /// Its name as written.
        name: String,
        /// The bytes of the name in the input; none, right behind its `@`, where the name is empty.
        span: Range<usize>,
    },
    /// 9: a cursor past the end, or one whose line or column is 0 or above [`LIMIT`](crate::LIMIT) + 1.
    BadCursor,
    /// 13: a directive has another count of arguments than it takes.
    WrongCount {
        /// The directive's line, from 1.
        line: usize,
    },
    /// 14: a word or a text in quotation marks that no directive takes.
    Untaken {
        /// Its line, from 1.
        line: usize,
    },
    /// 15: a vertical tab or a form feed where a token would start; all before it is good.
    Stopped {
        /// Its line, from 1.
        line: usize,
    },
    /// 18: a rule has no id and continues no chain, in a package for [`Version::V2_7`](crate::Version::V2_7).
    IdMissing {
        /// The rule's line, from 1.
        line: usize,
    },
    /// 5, 7, 8 or 10 to 12 in a package: what an argument of a directive is refused for.
    InDirective {
        /// The directive's line, from 1.
        line: usize,
        /// As its own reader refuses the argument; an operator's place is in the argument as it was read, and every span is in the
        /// package.
        why: Box<Refusal>,
    },
}

/// The operator of the rule in a line of a package, as it was read. With the number 8 all that was lent is zero.
fn operator_in(package: &[u8], line: usize) -> String {
    let all = tokens(package).map(|all| all.list).unwrap_or_default();
    let rule = all.iter().position(|token| token.line == line && matches!(token.kind, TokenKind::Directive(_)));
    rule.and_then(|at| all.get(at + 2)).map(|token| token.text().to_string()).unwrap_or_default()
}

/// The first bytes of a text, as many as are there.
fn front(text: &[u8], len: usize) -> String {
    said(&text[..len.min(text.len())])
}

impl Refusal {
    /// A refusal by its number, the values that come with it, the input and the text buffer; none where it is not one of a single
    /// reader's.
    fn single(number: u64, values: &Values, input: &[u8], text: &[u8]) -> Option<Self> {
        let (at, len, span) = (size(values[0]), size(values[1]), span(values[2]));
        let name = || front(text, len);
        let bad_argument = |flaw| Refusal::BadArgument { flaw, piece: at, action: name(), span: span.clone() };
        Some(match number {
            1 => Refusal::TooLong,
            2 => Refusal::NotAscii { place: at },
            3 => Refusal::ShortBuffer,
            4 => Refusal::NoRoom { needed: vec![at] },
            5 => Refusal::UnknownAction { piece: at, name: name(), span },
            7 => Refusal::UnknownVariable { piece: at, name: name(), span },
            // nothing is lent: the name stands in the input
            8 => Refusal::UnknownOperator { place: at, name: front(input.get(at..).unwrap_or_default(), len), span },
            9 => Refusal::BadCursor,
            10 => bad_argument(Flaw::Absent),
            11 => bad_argument(Flaw::Unreadable),
            12 => bad_argument(Flaw::TooLarge),
            _ => return None,
        })
    }

    /// The same for a package: past the gate the line comes first.
    fn packaged(number: u64, values: &Values, input: &[u8], text: &[u8]) -> Option<Self> {
        let (line, mut rest) = (size(values[0]), *values);
        rest.rotate_left(1);
        let inside = |why| Refusal::InDirective { line, why: Box::new(why) };
        match number {
            1..=3 => Refusal::single(number, values, input, text),
            4 => Some(Refusal::NoRoom { needed: values[..3].iter().map(|count| size(*count)).collect() }),
            8 => Refusal::single(number, &rest, operator_in(input, line).as_bytes(), text).map(inside),
            5 | 7 | 10..=12 => Refusal::single(number, &rest, input, text).map(inside),
            13 => Some(Refusal::WrongCount { line }),
            14 => Some(Refusal::Untaken { line }),
            15 => Some(Refusal::Stopped { line }),
            18 => Some(Refusal::IdMissing { line }),
            _ => None,
        }
    }

    pub(crate) fn of(number: u64, values: &Values, input: &[u8], text: &[u8]) -> Self {
        Refusal::single(number, values, input, text).unwrap_or_else(|| another("the number", number))
    }

    pub(crate) fn of_package(number: u64, values: &Values, input: &[u8], text: &[u8]) -> Self {
        Refusal::packaged(number, values, input, text).unwrap_or_else(|| another("the number", number))
    }

    /// What a single reader of [`raw`](crate::raw) refused, by the number that it gave, the values and the text that it left, and its
    /// input. None for 0 and for numbers that such a reader does not give. Values that are not there count as 0.
    ///
    /// ```
    /// use seclang::{raw, Refusal};
    ///
    /// let (mut text, mut scratch, mut records, mut values) = ([0; 10], [0; 10], [0; 7], [0; 10]);
    /// let number = raw::parse_actions(b"deny,bogus", &mut text, &mut scratch, &mut records, &mut values);
    /// let refusal = Refusal::from_raw(number, &values, b"deny,bogus", &text);
    /// assert_eq!(refusal, Some(Refusal::UnknownAction { piece: 1, name: "bogus".to_string(), span: 5..10 }));
    ///
    /// let number = raw::parse_actions(b"deny,log", &mut text, &mut scratch, &mut records, &mut values);
    /// assert_eq!(Refusal::from_raw(number, &values, b"deny,log", &text), Some(Refusal::NoRoom { needed: vec![2] }));
    /// ```
    pub fn from_raw(number: u64, values: &[u64], input: &[u8], text: &[u8]) -> Option<Self> {
        Refusal::single(number, &all_values(values), input, text)
    }

    /// The same for [`raw::directives`](crate::raw::directives).
    ///
    /// ```
    /// use seclang::Refusal;
    ///
    /// let package = b"SecMarker m\nSecMarker";
    /// assert_eq!(Refusal::from_raw_package(13, &[2], package, &[]), Some(Refusal::WrongCount { line: 2 }));
    /// assert_eq!(Refusal::from_raw_package(4, &[2, 0, 0], package, &[]), Some(Refusal::NoRoom { needed: vec![2, 0, 0] }));
    /// ```
    pub fn from_raw_package(number: u64, values: &[u64], input: &[u8], text: &[u8]) -> Option<Self> {
        Refusal::packaged(number, &all_values(values), input, text)
    }

    /// The bytes of the input that it is about, where the library tells them: of an unknown operator its name, of 5, 7 and 10 to 12 the
    /// piece, and the byte that is not ASCII. In a package they are the package's.
    ///
    /// ```
    /// let package = "SecAction \"msg:a,\\\n  bo\\\n  gus\"";
    /// let span = seclang::directives(package, seclang::Version::V2_7).unwrap_err().span().unwrap();
    /// assert_eq!(&package[span], "bo\\\n  gus");
    /// ```
    pub fn span(&self) -> Option<Range<usize>> {
        match self {
            Refusal::NotAscii { place } => Some(*place..place.saturating_add(1)),
            Refusal::UnknownAction { span, .. } | Refusal::BadArgument { span, .. } => Some(span.clone()),
            Refusal::UnknownVariable { span, .. } | Refusal::UnknownOperator { span, .. } => Some(span.clone()),
            Refusal::InDirective { why, .. } => why.span(),
            _ => None,
        }
    }

    /// The line of a package that it is about.
    ///
    /// ```
    /// assert_eq!(seclang::directives("\nSecAction bogus", seclang::Version::V2_7).unwrap_err().line(), Some(2));
    /// assert_eq!(seclang::parse_actions("bogus").unwrap_err().line(), None);
    /// ```
    pub fn line(&self) -> Option<usize> {
        match self {
            Refusal::WrongCount { line } | Refusal::Untaken { line } | Refusal::Stopped { line } => Some(*line),
            Refusal::IdMissing { line } | Refusal::InDirective { line, .. } => Some(*line),
            _ => None,
        }
    }

    /// The library's number for it.
    ///
    /// ```
    /// assert_eq!(seclang::parse_actions("deny,bogus").unwrap_err().number(), 5);
    /// ```
    pub fn number(&self) -> u64 {
        match self {
            Refusal::TooLong => 1,
            Refusal::NotAscii { .. } => 2,
            Refusal::ShortBuffer => 3,
            Refusal::NoRoom { .. } => 4,
            Refusal::UnknownAction { .. } => 5,
            Refusal::UnknownVariable { .. } => 7,
            Refusal::UnknownOperator { .. } => 8,
            Refusal::BadCursor => 9,
            Refusal::BadArgument { flaw: Flaw::Absent, .. } => 10,
            Refusal::BadArgument { flaw: Flaw::Unreadable, .. } => 11,
            Refusal::BadArgument { flaw: Flaw::TooLarge, .. } => 12,
            Refusal::WrongCount { .. } => 13,
            Refusal::Untaken { .. } => 14,
            Refusal::Stopped { .. } => 15,
            Refusal::IdMissing { .. } => 18,
            Refusal::InDirective { why, .. } => why.number(),
        }
    }
}

/// Values as many as every reader may give, the ones that are not there 0.
fn all_values(values: &[u64]) -> Values {
    let mut all = Values::default();
    all.iter_mut().zip(values).for_each(|(one, value)| *one = *value);
    all
}

impl fmt::Display for Refusal {
    fn fmt(&self, out: &mut fmt::Formatter<'_>) -> fmt::Result {
        match self {
            Refusal::TooLong => write!(out, "the input is over {} bytes", crate::LIMIT),
            Refusal::NotAscii { place } => write!(out, "the byte at place {place} is not ASCII"),
            Refusal::ShortBuffer => write!(out, "a buffer is shorter than the input asks for"),
            Refusal::NoRoom { needed } => match needed[..] {
                [of_directives, of_variables, of_actions] => {
                    write!(out, "room for {of_directives} directive, {of_variables} variable and {of_actions} action records is needed")
                }
                _ => write!(out, "room for {} records is needed", needed.first().copied().unwrap_or_default()),
            },
            Refusal::UnknownAction { piece, name, .. } => write!(out, "unknown action '{name}' in piece {piece}"),
            Refusal::BadArgument { flaw: Flaw::Absent, piece, action, .. } => write!(out, "no argument for '{action}' in piece {piece}"),
            Refusal::BadArgument { flaw: Flaw::Unreadable, piece, action, .. } => {
                write!(out, "the argument of '{action}' in piece {piece} says no number")
            }
            Refusal::BadArgument { flaw: Flaw::TooLarge, piece, action, .. } => {
                write!(out, "the argument of '{action}' in piece {piece} is too large a number")
            }
            Refusal::UnknownVariable { piece, name, .. } => write!(out, "unknown variable '{name}' in piece {piece}"),
            Refusal::UnknownOperator { place, name, .. } => write!(out, "unknown operator '{name}' at place {place}"),
            Refusal::BadCursor => write!(out, "the cursor is no place of the input"),
            Refusal::WrongCount { line } => write!(out, "line {line}: a directive with another count of arguments than it takes"),
            Refusal::Untaken { line } => write!(out, "line {line}: a text that no directive takes"),
            Refusal::Stopped { line } => write!(out, "line {line}: a vertical tab or a form feed where no text is"),
            Refusal::IdMissing { line } => write!(out, "line {line}: a rule without an id, which it must have from 2.7 on"),
            Refusal::InDirective { line, why } => write!(out, "line {line}: {why}"),
        }
    }
}

impl std::error::Error for Refusal {}
