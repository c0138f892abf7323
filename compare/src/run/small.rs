//! A difference made small: bytes taken out and made plain, while it stays.

use crate::check::Checker;
use crate::readers::{Reader, LONG_SHAPES, SHAPES};
use std::time::{Duration, Instant};

/// So long an input is made shorter or plainer, at most: each try on a long one takes long.
const PATIENCE: Duration = Duration::from_secs(60);

/// Above so many bytes parts are taken out one behind the other, and not at each place.
const FEW: usize = 2_000;

/// What differs for a reader on an input, under any shape of what is lent.
pub fn differs(reader: Reader, input: &[u8], long: bool) -> Option<String> {
    let mut checker = Checker::new(false);
    (checker.long, checker.converted) = (long, true);
    let turns = match (long, reader) {
        (false, _) => SHAPES.len(),
        (true, Reader::NextToken) => LONG_SHAPES.len(),
        _ => 1,
    };
    (0..turns).find_map(|_| checker.check(reader, input).err())
}

/// Parts taken out, each half as wide as those before, until the time is over.
fn shorter(mut input: Vec<u8>, fails: &impl Fn(&[u8]) -> bool, until: Instant) -> Vec<u8> {
    let mut width = input.len();
    while 0 < width {
        let mut at = 0;
        while at + width <= input.len() && Instant::now() < until {
            let without = [&input[..at], &input[at + width..]].concat();
            if fails(&without) {
                input = without
            } else {
                at += if input.len() <= FEW { 1 } else { width }
            }
        }
        width /= 2;
    }
    input
}

/// Parts made plain, each half as wide as those before, until the time is over.
fn plainer(mut input: Vec<u8>, fails: &impl Fn(&[u8]) -> bool, until: Instant) -> Vec<u8> {
    let mut width = input.len();
    while 0 < width {
        for at in (0..input.len()).step_by(width) {
            if until < Instant::now() {
                return input;
            }
            let mut other = input.clone();
            let past = input.len().min(at + width);
            other[at..past].fill(b'a');
            if fails(&other) {
                input = other;
            }
        }
        width /= 2;
    }
    input
}

/// Shorter, plainer, and shorter again: a plain text can be shorter.
pub fn minimal(input: Vec<u8>, fails: impl Fn(&[u8]) -> bool) -> Vec<u8> {
    let input = shorter(input, &fails, Instant::now() + PATIENCE);
    let input = plainer(input, &fails, Instant::now() + PATIENCE);
    shorter(input, &fails, Instant::now() + PATIENCE)
}

/// The length of the shortest part that a text begins with more than a few times, and how often.
fn repeated(text: &[u8]) -> Option<(usize, usize)> {
    let times = |len: usize| text.chunks_exact(len).take_while(|part| **part == text[..len]).count();
    (1..=8).map(|len| (len, times(len))).find(|(_, times)| 12 < *times)
}

/// A text for people: a part that comes again and again is counted.
pub fn shown(text: &[u8]) -> String {
    let (mut out, mut plain, mut rest) = (Vec::new(), String::new(), text);
    while let [first, behind @ ..] = rest {
        match repeated(rest) {
            None => {
                plain.push_str(&[*first].escape_ascii().to_string());
                rest = behind;
            }
            Some((len, times)) => {
                out.push(format!("\"{}\"", std::mem::take(&mut plain)));
                out.push(format!("{times} times \"{}\"", rest[..len].escape_ascii()));
                rest = &rest[len * times..];
            }
        }
    }
    out.push(format!("\"{plain}\""));
    out.retain(|part| part != "\"\"" || text.is_empty());
    out.join(", ")
}

#[cfg(test)]
mod tests {
    use super::{minimal, shown};

    #[test]
    fn what_matters_is_left() {
        let long = [&b"x".repeat(300)[..], b"bug", &b"y\n".repeat(5_000)].concat();
        let small = minimal(long, |text| 200 < text.len() && text.windows(3).any(|part| part == b"bug"));
        assert_eq!((small.len(), small.iter().filter(|byte| **byte == b'a').count()), (201, 198));
    }

    #[test]
    fn runs_are_counted() {
        assert_eq!(shown(&[&b"a\n"[..], &[b'x'; 70_000], b"\""].concat()), "\"a\\n\", 70000 times \"x\", \"\\\"\"");
        assert_eq!((shown(b""), shown(b"ab")), ("\"\"".to_string(), "\"ab\"".to_string()));
        assert_eq!(shown(&[&b"TX"[..], &b"|TX".repeat(40_000)].concat()), "40000 times \"TX|\", \"TX\"");
    }
}
