//! A child of the original's `lexer`, which sees what is private there.

use super::Lexer;

/// Where a lexer stands.
#[derive(Clone, Copy, Debug, PartialEq)]
pub struct Cursor {
    pub place: usize,
    pub line: usize,
    pub column: usize,
    pub mark: bool,
}

pub const START: Cursor = Cursor { place: 0, line: 1, column: 1, mark: true };

/// A lexer that goes on from a cursor.
pub fn at(text: &str, from: Cursor) -> Lexer<'_> {
    Lexer { input: text[from.place..].chars().peekable(), line: from.line, column: from.column, at_line_start: from.mark }
}

/// Where a lexer over an ASCII text of `len` bytes stands: what `chars` has left is at most its bytes, and there all of them.
pub fn standing(lexer: &Lexer, len: usize) -> Cursor {
    let left = lexer.input.size_hint().1.expect("chars are bounded");
    Cursor { place: len - left, line: lexer.line, column: lexer.column, mark: lexer.at_line_start }
}
