//! The tokens of a text, its listing, and one step from a cursor.

use crate::lent::{another, filled, said, size, span, Room, Values, NO_ROOM};
use crate::{raw, Refusal, LIMIT};
use std::ops::Range;

/// Words of a token record: kind, line, column, span in the input, text.
const WIDTH: usize = 5;

/// What a token is, with its text: quotation marks and escapes are gone.
#[derive(Clone, Debug, PartialEq, Eq, Hash)]
pub enum TokenKind {
    /// A word at the start of a line that begins with `sec`, or is `include`, in any letter case.
    Directive(String),
    /// Any other word.
    Word(String),
    /// A text in quotation marks.
    QuotedString(String),
    /// A comment, with the line feed at its end.
    Comment,
    /// A line feed.
    Newline,
}

/// A token and where it stands.
#[derive(Clone, Debug, PartialEq, Eq, Hash)]
pub struct Token {
    /// What it is, with its text.
    pub kind: TokenKind,
    /// The line of its first byte, from 1.
    pub line: usize,
    /// The column of its first byte, from 1, in bytes.
    pub column: usize,
    /// The bytes of the input that were read for it.
    pub bytes: Range<usize>,
}

impl Token {
    fn of(kind: u64, line: u64, column: u64, bytes: Range<usize>, text: String) -> Self {
        let kind = match kind {
            1 => TokenKind::Directive(text),
            2 => TokenKind::Word(text),
            3 => TokenKind::QuotedString(text),
            4 => TokenKind::Comment,
            5 => TokenKind::Newline,
            _ => another("a token of the kind", kind),
        };
        Token { kind, line: size(line), column: size(column), bytes }
    }

    /// Its text, which a comment and a line feed have not.
    pub fn text(&self) -> &str {
        match &self.kind {
            TokenKind::Directive(text) | TokenKind::Word(text) | TokenKind::QuotedString(text) => text,
            TokenKind::Comment | TokenKind::Newline => "",
        }
    }
}

/// Where the reading of a text came to its end.
#[derive(Clone, Copy, Debug, PartialEq, Eq, Hash)]
pub struct Stop {
    /// The place in the input: its length, where all was read.
    pub place: usize,
    /// The line, from 1.
    pub line: usize,
    /// The column, from 1.
    pub column: usize,
}

/// The tokens of a text.
#[derive(Clone, Debug, PartialEq, Eq, Hash)]
pub struct Tokens {
    /// In the order of the text.
    pub list: Vec<Token>,
    /// Before the end of the text where a vertical tab or a form feed stands for a token's first byte.
    pub stop: Stop,
}

/// The tokens of a text by one of the two lexers.
fn tokens_by(lexer: raw::Filler, input: &[u8]) -> Result<Tokens, Refusal> {
    let read = filled(input, Room::of(input, WIDTH), |text, records, values| lexer(input, text, records, values))?;
    let list = read.records().map(|word| Token::of(word[0], word[1], word[2], span(word[3]), read.texts.said(word[4]))).collect();
    let [_, _, place, line, column, ..] = read.values.map(size);
    Ok(Tokens { list, stop: Stop { place, line, column } })
}

/// All tokens of a text.
///
/// ```
/// use seclang::TokenKind;
///
/// let tokens = seclang::tokens("SecRuleEngine On\n")?;
/// assert_eq!(tokens.list[0].kind, TokenKind::Directive("SecRuleEngine".to_string()));
/// assert_eq!((tokens.list[1].line, tokens.list[1].column, tokens.list[1].text()), (1, 15, "On"));
/// assert_eq!(tokens.list[2].bytes, 16..17);
/// assert_eq!(tokens.stop.place, 17);
/// # Ok::<(), seclang::Refusal>(())
/// ```
pub fn tokens(input: &(impl AsRef<[u8]> + ?Sized)) -> Result<Tokens, Refusal> {
    tokens_by(raw::tokens, input.as_ref())
}

/// All tokens of a text by the second lexer, a table of byte classes and states that takes one byte at a step: what [`tokens`]
/// gives, more slowly.
///
/// ```
/// let package = "SecRule ARGS \\\n  \"@rx a\\\"b\"\n";
/// assert_eq!(seclang::plain_tokens(package)?.list[2].text(), "@rx a\"b");
/// assert_eq!(seclang::plain_tokens(package), seclang::tokens(package));
/// # Ok::<(), seclang::Refusal>(())
/// ```
pub fn plain_tokens(input: &(impl AsRef<[u8]> + ?Sized)) -> Result<Tokens, Refusal> {
    tokens_by(raw::plain_tokens, input.as_ref())
}

/// Where a step starts, and whether a word there is at the start of a line.
#[derive(Clone, Copy, Debug, PartialEq, Eq, Hash)]
pub struct Cursor {
    /// The place in the input, from 0.
    pub place: usize,
    /// The line, from 1, that is counted on from.
    pub line: usize,
    /// The column, from 1, that is counted on from.
    pub column: usize,
    /// Whether only blanks stand between the line's start and here.
    pub mark: bool,
}

impl Cursor {
    /// The start of a text.
    pub const START: Cursor = Cursor { place: 0, line: 1, column: 1, mark: true };

    fn of(words: &[u64]) -> Self {
        Cursor { place: size(words[0]), line: size(words[1]), column: size(words[2]), mark: words[3] != 0 }
    }
}

/// What a step gives.
#[derive(Clone, Debug, PartialEq, Eq, Hash)]
pub struct Step {
    /// The token, or none at the end and where reading stops.
    pub token: Option<Token>,
    /// Where the next step starts.
    pub next: Cursor,
}

/// The token at a cursor. Every step looks at the whole input first, so that stepping through a text takes time that grows with the
/// square of its length: where all are wanted, [`tokens`] reads the text once.
///
/// ```
/// use seclang::{next_token, Cursor};
///
/// let text = "a b";
/// let first = next_token(text, Cursor::START)?;
/// let second = next_token(text, first.next)?;
/// assert_eq!(second.token.map(|token| token.column), Some(3));
/// assert_eq!(next_token(text, second.next)?.token, None);
/// # Ok::<(), seclang::Refusal>(())
/// ```
pub fn next_token(input: &(impl AsRef<[u8]> + ?Sized), from: Cursor) -> Result<Step, Refusal> {
    let input = input.as_ref();
    let (mut text, mut values) = (vec![0; input.len().min(LIMIT)], Values::default());
    let number = raw::next_token(input, from, &mut text, &mut values);
    match (number, values) {
        (0, [1, kind, line, column, first, len, next @ ..]) => {
            let next = Cursor::of(&next);
            let token = Token::of(kind, line, column, size(first)..next.place, said(&text[..size(len)]));
            Ok(Step { token: Some(token), next })
        }
        (0, [_, next @ ..]) => Ok(Step { token: None, next: Cursor::of(&next) }),
        _ => Err(Refusal::of(number, &values, input, &text)),
    }
}

/// How many records a text needs, where its line says that it was refused for these: `[4,how many]`.
fn records_needed(line: &[u8]) -> Option<usize> {
    let digits = line.strip_prefix(b"[4,")?.strip_suffix(b"]\n")?;
    said(digits).parse().ok()
}

/// A text's tokens as a JSON array and a line feed; for a text that is refused, `[number,place]` and a line feed.
///
/// ```
/// assert_eq!(seclang::list_text("SecRule ARGS\n"), "[[\"directive\",1,1,\"SecRule\"],[\"word\",1,9,\"ARGS\"],[\"newline\",1,13]]\n");
/// assert_eq!(seclang::list_text("SecRule é"), "[2,8]\n");
/// ```
pub fn list_text(input: &(impl AsRef<[u8]> + ?Sized)) -> String {
    let input = input.as_ref();
    let (mut text, mut records) = Room::of(input, WIDTH).lent();
    // real rules list in fewer bytes than this, and a refusal always does
    let (mut out, mut values) = (vec![0; 2 * text.len() + 64], Values::default());
    // a second call where there are more records, and a third where the line is longer
    for _ in 0..3 {
        match raw::list_text(input, &mut text, &mut records, &mut out, &mut values) {
            0 => match records_needed(&out[..size(values[0])]) {
                Some(needed) => records = vec![0; needed * WIDTH],
                None => return said(&out[..size(values[0])]),
            },
            NO_ROOM => out = vec![0; size(values[0])],
            number => another("a listing with the number", number),
        }
    }
    another("a listing that takes more room than it asked for, of the size", values[0])
}
