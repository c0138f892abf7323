//! Where pieces stand in the input, by document 02 (M-104), a second model: each byte that is read has with it the bytes that it came
//! from, through words, quotation marks and continuations, and a piece's span runs from those of its first byte to those of its last.

use crate::spans::between;

/// A byte as it is read, and the bytes of the input that it came from: from `first` on, and before `past`.
#[derive(Clone, Copy, Debug, PartialEq)]
pub struct Came {
    pub byte: u8,
    first: usize,
    past: usize,
}

impl Came {
    /// From so many bytes at a place: two for an escape that is read, else one.
    fn from(byte: u8, first: usize, len: usize) -> Self {
        Came { byte, first, past: first + len }
    }

    fn is_white(&self) -> bool {
        matches!(self.byte, 9..=13 | b' ')
    }
}

// ---- what is read of the input

/// A text that stands for itself.
pub fn as_written(input: &[u8]) -> Vec<Came> {
    input.iter().enumerate().map(|(place, byte)| Came::from(*byte, place, 1)).collect()
}

/// How long the end of a line is that starts a text: LF or CR LF, and with `bare` a CR alone too; 0 where there is none.
fn line_end(text: &[u8], bare: bool) -> usize {
    match text {
        [b'\n', ..] => 1,
        [b'\r', b'\n', ..] => 2,
        [b'\r', ..] if bare => 1,
        _ => 0,
    }
}

/// A word that stands from `first` and before `past`: a backslash goes with the end of a line behind it, and stays before anything else.
pub fn of_word(input: &[u8], first: usize, past: usize) -> Vec<Came> {
    let (mut out, mut place) = (Vec::new(), first);
    while place < past {
        let ends = if input[place] == b'\\' { line_end(&input[place + 1..past], false) } else { 0 };
        if ends == 0 {
            out.push(Came::from(input[place], place, 1));
        }
        place += 1 + ends;
    }
    out
}

/// What stands in quotation marks, without them. A backslash behind which nothing stands is kept where `kept` says so, and else lost.
fn inside(input: &[u8], first: usize, past: usize, kept: bool) -> Vec<Came> {
    let (mut out, mut place) = (Vec::new(), first);
    while place < past {
        let rest = &input[place + 1..past];
        let ends = if input[place] == b'\\' { line_end(rest, true) } else { 0 };
        let read = |byte| vec![Came::from(byte, place, 2)];
        let (step, mut came) = match (input[place], rest) {
            (b'\\', []) => (1, if kept { vec![Came::from(b'\\', place, 1)] } else { Vec::new() }),
            (b'\\', _) if ends != 0 => (1 + ends + rest[ends..].iter().take_while(|byte| b" \t".contains(*byte)).count(), Vec::new()),
            (b'\\', [b'n', ..]) => (2, read(b'\n')),
            (b'\\', [b't', ..]) => (2, read(b'\t')),
            (b'\\', [b'r', ..]) => (2, read(b'\r')),
            (b'\\', [byte @ (b'\\' | b'"' | b'\''), ..]) => (2, read(*byte)),
            (b'\\', [byte, ..]) => (2, vec![Came::from(b'\\', place, 1), Came::from(*byte, place + 1, 1)]),
            (byte, _) => (1, vec![Came::from(byte, place, 1)]),
        };
        out.append(&mut came);
        place += step;
    }
    out
}

/// A text in quotation marks that stands from `first`, its mark, and before `past`; the mark at its end need not be there.
pub fn of_string(input: &[u8], first: usize, past: usize) -> Vec<Came> {
    let (mark, mut end) = (input[first], first + 1);
    // a backslash protects the byte behind it
    while end < past && input[end] != mark {
        end += if input[end] == b'\\' { 2 } else { 1 };
    }
    inside(input, first + 1, end.min(past), false)
}

/// A part of a text in quotation marks, read alone: it may end in a backslash that is kept for what stood behind it.
pub fn of_part(input: &[u8]) -> Vec<Came> {
    inside(input, 0, input.len(), true)
}

/// A list without its continuations: a backslash before LF, CR or CR LF goes with these and with the blanks behind them, but no more LF.
pub fn normalised(list: &[Came]) -> Vec<Came> {
    let bytes = text_of(list);
    let (mut out, mut place) = (Vec::new(), 0);
    while place < list.len() {
        let ends = if bytes[place] == b'\\' { line_end(&bytes[place + 1..], true) } else { 0 };
        if ends == 0 {
            out.push(list[place]);
            place += 1;
        } else {
            let behind = &list[place + 1 + ends..];
            place += 1 + ends + behind.iter().take_while(|came| came.is_white() && came.byte != b'\n').count();
        }
    }
    out
}

/// The bytes alone.
pub fn text_of(list: &[Came]) -> Vec<u8> {
    list.iter().map(|came| came.byte).collect()
}

// ---- pieces

fn trimmed(mut list: &[Came]) -> &[Came] {
    while let [first, rest @ ..] = list {
        if !first.is_white() {
            break;
        }
        list = rest;
    }
    while let [rest @ .., last] = list {
        if !last.is_white() {
            break;
        }
        list = rest;
    }
    list
}

/// The span of what is left between the blanks at both ends, where anything is.
fn underline(part: &[Came]) -> Option<u64> {
    let left = trimmed(part);
    Some(between(left.first()?.first, left.last()?.past))
}

/// The spans of an action list's pieces: a comma cuts where no quotation mark and no bracket is open.
pub fn actions(list: &[Came]) -> Vec<u64> {
    let (mut open, mut depth) = (None, 0usize);
    let list = normalised(list);
    let cut = |came: &Came| {
        match (open, came.byte) {
            (None, b',') => return depth == 0,
            (None, b'"' | b'\'') => open = Some(came.byte),
            (None, b'(') => depth += 1,
            (None, b')') => depth = depth.saturating_sub(1),
            (Some(mark), byte) if byte == mark => open = None,
            _ => {}
        }
        false
    };
    list.split(cut).filter_map(underline).collect()
}

/// The spans of the parts of a list of variables, each with whether it is an exclusion.
pub fn targets(list: &[Came]) -> Vec<(u64, bool)> {
    let parts = list.split(|came| came.byte == b'|');
    parts.filter_map(|part| Some((underline(part)?, trimmed(part)[0].byte == b'!'))).collect()
}

/// The span of a setvar alone: nothing is left of blanks but their end.
pub fn setvar(input: &[u8]) -> u64 {
    underline(&as_written(input)).unwrap_or(between(input.len(), input.len()))
}

/// The span of an operator's name, which stands so in its text; an empty one stands right behind its `@`.
pub fn name(said: &[Came], place: usize, len: usize) -> u64 {
    let behind = said[place - 1].past;
    match &said[place..place + len] {
        [] => between(behind, behind),
        [first, .., last] => between(first.first, last.past),
        [one] => between(one.first, one.past),
    }
}

#[cfg(test)]
mod tests {
    use super::{actions, as_written, name, of_part, of_string, of_word, setvar, targets, text_of};
    use crate::spans::{halves, span};

    fn shown(spans: Vec<u64>) -> Vec<(usize, usize)> {
        spans.into_iter().map(halves).collect()
    }

    fn in_list(list: &str) -> Vec<(usize, usize)> {
        shown(actions(&as_written(list.as_bytes())))
    }

    fn in_string(package: &str, first: usize) -> Vec<(usize, usize)> {
        shown(actions(&of_string(package.as_bytes(), first, package.len())))
    }

    #[test]
    fn pieces_are_trimmed() {
        assert_eq!(in_list(""), []);
        assert_eq!(in_list(" , ,"), []);
        assert_eq!(in_list(" deny , log"), [(1, 4), (8, 3)]);
        assert_eq!(in_list("msg:'a, b',x:(c,d)"), [(0, 10), (11, 7)]);
        assert_eq!(in_list("\x0bdeny\x0c"), [(1, 4)]);
    }

    /// What the normaliser takes out within a piece is underlined with it, and at its ends is not.
    #[test]
    fn continuations_are_run_over() {
        assert_eq!(in_list("de\\\n  ny,\\\r\n\t log"), [(0, 8), (14, 3)]);
        assert_eq!(in_list("deny\\\n ,log"), [(0, 4), (8, 3)]);
        assert_eq!(in_list("a\\\rb\\"), [(0, 5)]);
        // an LF behind the blanks of a continuation is no part of it, and is trimmed
        assert_eq!(in_list("a\\\n \n,b"), [(0, 1), (6, 1)]);
    }

    /// Document 02's packages, and where their action lists begin.
    #[test]
    fn escapes_are_underlined_whole() {
        assert_eq!(in_string("SecAction \"msg:a\\,deny\"", 10), [(11, 6), (18, 4)]);
        assert_eq!(in_string("SecAction \"\\tdeny\\n,log \"", 10), [(13, 4), (20, 3)]);
        assert_eq!(in_string("SecAction \"de\\\\\n  ny\"", 10), [(11, 9)]);
        assert_eq!(in_string("SecAction \"deny\\\\\\n,log\"", 10), [(11, 4), (20, 3)]);
        assert_eq!(in_string("\"\\\"a\\\"\",", 0), [(1, 5)]);
        assert_eq!(in_string("'a\\", 0), [(1, 1)]);
        assert_eq!(in_string("\"a\\\r\n\t b,\\\n  c\"", 0), [(1, 7), (13, 1)]);
    }

    #[test]
    fn words_lose_their_continuations() {
        let read = |text: &str| of_word(text.as_bytes(), 0, text.len());
        assert_eq!(text_of(&read("a\\\nb\\\r\nc\\d\\")), b"abc\\d\\");
        assert_eq!(shown(actions(&read("de\\\nny,\\\r\nlog"))), [(0, 6), (10, 3)]);
    }

    #[test]
    fn marks_of_targets_are_underlined() {
        let read = |list: &str| targets(&as_written(list.as_bytes()));
        assert_eq!(read(" !a | |&TX:k|ARGS "), [(span(1, 2), true), (span(7, 5), false), (span(13, 4), false)]);
        assert_eq!(read("|"), []);
    }

    #[test]
    fn setvars_are_trimmed_inputs() {
        assert_eq!(shown(vec![setvar(b" 'a' "), setvar(b""), setvar(b" \t")]), [(1, 3), (0, 0), (2, 0)]);
    }

    #[test]
    fn names_stand_where_they_are_read() {
        let said = of_string(b"\"\\t!@x\\\"\"", 0, 9);
        assert_eq!(shown(vec![name(&said, 3, 1), name(&said, 3, 2), name(&said, 3, 0)]), [(5, 1), (5, 3), (5, 0)]);
    }

    /// A part keeps its last backslash, which the lexer drops at an end.
    #[test]
    fn a_part_alone_keeps_its_backslash() {
        assert_eq!(text_of(&of_part(b"msg:a\\")), b"msg:a\\");
        assert_eq!(text_of(&of_part(b"a\\\\\\\"\\n\\\n\t b\\c")), b"a\\\"\nb\\c");
    }
}
