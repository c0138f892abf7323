//! A refusal as a person reads it: where it is in the file, what is wrong, and the source with the piece underlined.

use crate::{tokens, Flaw, Refusal, Token, TokenKind, LIMIT};
use std::ops::Range;

/// A text on one line: tabs stay, and any other control byte shows as its picture, so that each takes one place.
fn pictured(text: &str) -> String {
    let picture = |c: char| match c {
        '\t' => c,
        '\0'..='\x1f' => char::from_u32(0x2400 + c as u32).unwrap_or(c),
        '\x7f' => '\u{2421}',
        _ => c,
    };
    text.chars().map(picture).collect()
}

/// The text that was refused, as lines.
struct Source<'a>(&'a [u8]);

impl Source<'_> {
    /// A place's line and column, both from 1, in bytes.
    fn position(&self, place: usize) -> (usize, usize) {
        let before = &self.0[..place.min(self.0.len())];
        let line = 1 + before.iter().filter(|byte| **byte == b'\n').count();
        (line, 1 + before.iter().rev().take_while(|byte| **byte != b'\n').count())
    }

    /// The line that a place stands in, without what ends it.
    fn line_at(&self, place: usize) -> Range<usize> {
        let place = place.min(self.0.len());
        let first = place + 1 - self.position(place).1;
        let past = self.0[place..].iter().position(|byte| *byte == b'\n').map_or(self.0.len(), |len| place + len);
        first..if self.0[first..past].ends_with(b"\r") { past - 1 } else { past }
    }

    /// A line by its number, where it is there.
    fn line(&self, number: usize) -> Option<Range<usize>> {
        let starts = std::iter::once(0).chain(self.0.iter().enumerate().filter(|(_, byte)| **byte == b'\n').map(|(at, _)| at + 1));
        starts.take(number).nth(number.checked_sub(1)?).map(|start| self.line_at(start))
    }

    /// A part without blanks at both ends; all of it where nothing else is there.
    fn trimmed(&self, part: Range<usize>) -> Range<usize> {
        let is_black = |place: &usize| !self.0[*place].is_ascii_whitespace();
        match (part.clone().find(is_black), part.clone().rfind(is_black)) {
            (Some(first), Some(last)) => first..last + 1,
            _ => part,
        }
    }

    /// What stands under a part of a line, with `first` and `last` under its ends: blanks up to it, tabs where the line has tabs.
    fn marks(&self, line: &Range<usize>, part: Range<usize>, first: char, last: char) -> String {
        let mark = |place: usize, mark: char| match self.0.get(place) {
            Some(b'\t') if mark != '^' => Some('\t'),
            // a character past ASCII takes one mark for all its bytes
            Some(0x80..=0xbf) if place != part.start => None,
            _ => Some(mark),
        };
        let before = (line.start..part.start).filter_map(|place| mark(place, ' '));
        let under = part.clone().map(|place| match place {
            _ if place == part.start => first,
            _ if place + 1 == part.end => last,
            _ => '~',
        });
        before.chain(part.clone().zip(under).filter_map(|(place, under)| mark(place, under))).collect()
    }

    /// `file:line:column: sentence`, the line, and its part underlined.
    fn pointed(&self, file: &str, sentence: &str, line: Range<usize>, part: Range<usize>, ends: (char, char), at: usize) -> String {
        let (number, column) = self.position(at);
        let marks = self.marks(&line, part, ends.0, ends.1);
        format!("{file}:{number}:{column}: {sentence}\n{}\n{marks}", pictured(&String::from_utf8_lossy(&self.0[line])))
    }

    /// A part of the text underlined: in its first line, and where it runs on, in its last line too.
    fn underlined(&self, file: &str, sentence: &str, part: Range<usize>) -> String {
        let first = part.start.min(self.0.len());
        let past = part.end.clamp(first, self.0.len());
        let line = self.line_at(first);
        // of a part with no byte, or with none that is shown, its place alone
        let near = first..past.min(line.end).max(first + 1);
        let said = self.pointed(file, sentence, line.clone(), near, ('^', '~'), first);
        let last = self.line_at(past.max(first + 1) - 1);
        if last.start == line.start {
            return said;
        }
        let behind = self.trimmed(last.start..past.min(last.end));
        let behind = behind.start..behind.end.max(behind.start + 1);
        let (ends, end) = (if behind.len() == 1 { ('^', '^') } else { ('~', '^') }, behind.end - 1);
        format!("{said}\n{}", self.pointed(file, "up to here", last, behind, ends, end))
    }
}

/// Whether a token is an argument of a directive, or would be.
fn is_argument(token: &Token) -> bool {
    matches!(token.kind, TokenKind::Word(_) | TokenKind::QuotedString(_))
}

/// The arguments right behind the token at a place of a list.
fn arguments(list: &[Token], at: usize) -> usize {
    list[at + 1..].iter().take_while(|token| is_argument(token)).count()
}

/// The directive in a line, and how many arguments it has.
fn directive_in(list: &[Token], line: usize) -> Option<(&Token, usize)> {
    let at = list.iter().position(|token| token.line == line && matches!(token.kind, TokenKind::Directive(_)))?;
    Some((&list[at], arguments(list, at)))
}

/// The first text in a line that no directive takes.
fn untaken_in(list: &[Token], line: usize) -> Option<&Token> {
    let mut at = 0;
    while let Some(token) = list.get(at) {
        match token.kind {
            TokenKind::Directive(_) => at += arguments(list, at),
            _ if is_argument(token) && token.line == line => return Some(token),
            _ => {}
        }
        at += 1;
    }
    None
}

/// The largest number that an action takes.
fn largest(action: &str) -> u64 {
    match action {
        "id" => u64::MAX,
        "skip" => u64::from(u32::MAX),
        "status" => u64::from(u16::MAX),
        _ => u64::from(u8::MAX),
    }
}

/// What a directive takes, and what it has.
fn wrong_count(name: &str, count: usize) -> String {
    let takes = if name.eq_ignore_ascii_case("secrule") { "2 or 3 arguments" } else { "1 argument" };
    format!("{name} takes {takes}, and has {count}")
}

/// What is wrong with an argument.
fn flawed(flaw: Flaw, action: &str) -> String {
    match flaw {
        Flaw::Absent => format!("the action '{action}' must have an argument"),
        Flaw::Unreadable if action == "severity" => "the argument of 'severity' is neither a number nor a severity's name".to_string(),
        Flaw::Unreadable => format!("the argument of '{action}' is no number"),
        Flaw::TooLarge => format!("the argument of '{action}' is too large a number: {} is the largest", largest(action)),
    }
}

impl Refusal {
    /// What is wrong, in words, and the part of the input where it is, where there is one.
    fn said(&self, input: &[u8]) -> (String, Option<Range<usize>>) {
        let sentence = match self {
            Refusal::TooLong => return (format!("the input is longer than {LIMIT} bytes"), Some(LIMIT..LIMIT + 1)),
            Refusal::NotAscii { place } => match input.get(*place) {
                Some(byte) => format!("the byte {byte:#04x} is not ASCII"),
                None => "a byte that is not ASCII".to_string(),
            },
            Refusal::UnknownAction { name, .. } => format!("unknown action '{name}'"),
            Refusal::BadArgument { flaw, action, .. } => flawed(*flaw, action),
            Refusal::UnknownVariable { name, .. } => format!("unknown variable '{name}'"),
            Refusal::UnknownOperator { name, .. } if name.is_empty() => "no name of an operator behind the @".to_string(),
            Refusal::UnknownOperator { name, .. } => format!("unknown operator '@{name}'"),
            Refusal::WrongCount { line } | Refusal::Untaken { line } | Refusal::Stopped { line } | Refusal::IdMissing { line } => {
                return self.in_line(input, *line)
            }
            Refusal::InDirective { why, .. } => return why.said(input),
            Refusal::ShortBuffer | Refusal::NoRoom { .. } | Refusal::BadCursor => self.to_string(),
        };
        (sentence, self.span())
    }

    /// The same for a refusal that has its line alone: the tokens of the package tell the part.
    fn in_line(&self, input: &[u8], line: usize) -> (String, Option<Range<usize>>) {
        // a line that is no more there has no part
        let whole = || Source(input).line(line).map(|part| Source(input).trimmed(part));
        let all = tokens(input).ok();
        let list = all.as_ref().map_or(&[][..], |all| &all.list);
        match self {
            Refusal::WrongCount { .. } => match directive_in(list, line) {
                Some((token, count)) => (wrong_count(token.text(), count), Some(token.bytes.clone())),
                None => ("a directive has another count of arguments than it takes".to_string(), whole()),
            },
            Refusal::IdMissing { .. } => {
                let rule = directive_in(list, line).map(|(token, _)| token);
                let sentence = format!("{} must have an id from 2.7 on", rule.map_or("a rule", Token::text));
                (sentence, rule.map(|token| token.bytes.clone()).or_else(whole))
            }
            Refusal::Untaken { .. } => {
                let part = untaken_in(list, line).map(|token| token.bytes.clone());
                ("no directive takes this text".to_string(), part.or_else(whole))
            }
            _ => {
                let place = all.as_ref().map(|all| all.stop).filter(|stop| stop.line == line && stop.place < input.len());
                let byte = match place.map(|stop| input[stop.place]) {
                    Some(b'\x0b') => "a vertical tab",
                    Some(b'\x0c') => "a form feed",
                    _ => "a vertical tab or a form feed",
                };
                (format!("reading stops at {byte}"), place.map(|stop| stop.place..stop.place + 1).or_else(whole))
            }
        }
    }

    /// What a person reads of it, as a compiler has it: `file:line:column: sentence`, the line of the input, and the part that is
    /// refused underlined there. `input` is the text that the reader was given: the package, or the list, operator or setvar alone.
    ///
    /// Lines and columns are counted from 1, columns in bytes. Tabs stay tabs, so that the marks stand under what they mark; any other
    /// control byte shows as its picture. A part that runs over more lines is underlined in the first, and its end is shown too. Where
    /// nothing is to be underlined, as behind a lone `@`, one mark shows the place. Short buffers and cursors have no place: `file:
    /// sentence` alone. No line feed ends it.
    ///
    /// ```
    /// let package = "SecMarker m\nSecRule ARGS \"@rx a\" \\\n\t\"id:7,phase:9x,deny\"\n";
    /// let refusal = seclang::directives(package, seclang::Version::V2_7).unwrap_err();
    /// assert_eq!(refusal.message("desk.conf", package), "\
    /// desk.conf:3:8: the argument of 'phase' is no number
    /// \t\"id:7,phase:9x,deny\"
    /// \t      ^~~~~~~~");
    ///
    /// let refusal = seclang::parse_variables("ARGS|&NOPE:k").unwrap_err();
    /// assert_eq!(refusal.message("form", "ARGS|&NOPE:k"), "\
    /// form:1:6: unknown variable 'NOPE'
    /// ARGS|&NOPE:k
    ///      ^~~~~~~");
    /// ```
    pub fn message(&self, file: &str, input: &(impl AsRef<[u8]> + ?Sized)) -> String {
        let input = input.as_ref();
        let (sentence, part) = self.said(input);
        let sentence = pictured(&sentence);
        match (part, self.line()) {
            (Some(part), _) => Source(input).underlined(file, &sentence, part),
            (None, Some(line)) => format!("{file}:{line}: {sentence}"),
            (None, None) => format!("{file}: {sentence}"),
        }
    }
}
