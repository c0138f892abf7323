//! The original's tokens: all of a text, one step, and document 01's listing of them.

use super::{Cursor, Outcome, LIMIT, START};
use crate::parser::lexer::{probe as lexing, Token, TokenKind};
use crate::readers::TOKEN_WORDS;
use crate::spans::between;

/// The place of a token's first byte: `from` moved on to its line and column.
fn first_byte(text: &[u8], from: Cursor, token: &Token) -> usize {
    let (mut place, mut line, mut column) = (from.place, from.line, from.column);
    while (line, column) != (token.line, token.column) {
        (line, column) = if text[place] == b'\n' { (line + 1, 1) } else { (line, column + 1) };
        place += 1;
    }
    place
}

fn kind_and_text(token: &Token) -> (u64, &str) {
    match &token.kind {
        TokenKind::Directive(text) => (1, text),
        TokenKind::Word(text) => (2, text),
        TokenKind::QuotedString(text) => (3, text),
        TokenKind::Comment => (4, ""),
        TokenKind::Newline => (5, ""),
        TokenKind::Eof => unreachable!("the original never makes it"),
    }
}

pub fn tokens(text: &str) -> Outcome {
    let mut out = Outcome::default();
    let (mut lexer, mut at) = (lexing::at(text, START), START);
    while let Some(token) = lexer.next_token() {
        let first = first_byte(text.as_bytes(), at, &token);
        at = lexing::standing(&lexer, text.len());
        let (kind, said) = kind_and_text(&token);
        let word = out.push(said);
        out.words.extend([kind, token.line as u64, token.column as u64, between(first, at.place), word]);
    }
    let stop = lexing::standing(&lexer, text.len());
    let count = out.words.len() / TOKEN_WORDS;
    out.values = [count, out.texts.len(), stop.place, stop.line, stop.column].map(|n| n as u64).to_vec();
    out
}

fn cursor_words(c: Cursor) -> [u64; 4] {
    [c.place as u64, c.line as u64, c.column as u64, c.mark as u64]
}

pub fn step(text: &str, from: Cursor) -> Outcome {
    let counted = |n: usize| (1..=LIMIT + 1).contains(&n);
    if text.len() < from.place || !counted(from.line) || !counted(from.column) {
        return Outcome { number: 9, values: vec![0], ..Outcome::default() };
    }
    let mut out = Outcome::default();
    let mut lexer = lexing::at(text, from);
    match lexer.next_token() {
        None => out.values.push(0),
        Some(token) => {
            let (kind, said) = kind_and_text(&token);
            let first = first_byte(text.as_bytes(), from, &token);
            out.push(said);
            out.values.extend([1, kind, token.line as u64, token.column as u64, first as u64, said.len() as u64]);
        }
    }
    out.values.extend(cursor_words(lexing::standing(&lexer, text.len())));
    out
}

fn quoted(text: &str) -> String {
    let mut out = String::from("\"");
    for c in text.chars() {
        match c {
            '"' | '\\' => out.extend(['\\', c]),
            '\0'..='\x1f' => out.push_str(&format!("\\u00{:02x}", c as u32)),
            _ => out.push(c),
        }
    }
    out.push('"');
    out
}

/// Document 01's listing of the original's tokens, and where reading stopped before the end.
pub fn listing(text: &str) -> (String, Option<(usize, usize)>) {
    let names = ["", "directive", "word", "string", "comment", "newline"];
    let (mut lexer, mut rows) = (lexing::at(text, START), Vec::new());
    while let Some(token) = lexer.next_token() {
        let (kind, said) = kind_and_text(&token);
        let shown = if kind < 4 { format!(",{}", quoted(said)) } else { String::new() };
        rows.push(format!("[\"{}\",{},{}{shown}]", names[kind as usize], token.line, token.column));
    }
    let stop = lexing::standing(&lexer, text.len());
    let early = (stop.place < text.len()).then_some((stop.line, stop.column));
    rows.extend(early.map(|(line, column)| format!("[\"stopped\",{line},{column}]")));
    (format!("[{}]", rows.join(",")), early)
}
