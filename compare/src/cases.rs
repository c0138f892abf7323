//! The inputs: every text over an alphabet of awkward pieces, random texts around each boundary, damaged and real rules.

use crate::packages::{ARGUMENTS, CHAINED, JOINTS, LINES};
use crate::readers::Reader;

/// The longest of the short texts, of which there are millions: `long` has the others.
pub const SHORT: usize = 16_384;

/// Every text of up to `longest` pieces over an alphabet, for some readers.
pub struct Set {
    pub readers: &'static [Reader],
    pub alphabet: &'static [&'static str],
    pub quick: usize,
    pub full: usize,
}

const LEXING: &[&str] = &["\\", "\n", "\r", " ", "\t", "\"", "'", "#", "\x0b", "\x0c", "a", "n", "sec", "\0", "include"];
const ACTING: &[&str] = &[",", ":", "'", "\"", "(", ")", "\\", "\n", "\r", " ", "a", "t", "=", "\x0b", "log"];
/// Digits past every width.
const PAST: &str = "99999999999999999999";
const ACTIONS: &[&str] = &[
    "deny",
    "id",
    "msg",
    "t:",
    "setvar:",
    "phase:",
    "severity:",
    "ctl:",
    "expirevar:",
    "initcol",
    "skipAfter",
    ",",
    ":",
    "'",
    "\"",
    "(",
    ")",
    "\\\n",
    "\\\r",
    " ",
    "=",
    "+",
    "-",
    "1",
    PAST,
    "!",
    "critical",
];
/// Every action by name, and what may stand around one.
const ACTION_NAMES: &[&str] = &[
    "deny",
    "block",
    "pass",
    "allow",
    "drop",
    "redirect",
    "chain",
    "skip",
    "skipafter",
    "id",
    "phase",
    "severity",
    "msg",
    "tag",
    "rev",
    "ver",
    "maturity",
    "accuracy",
    "logdata",
    "status",
    "setvar",
    "capture",
    "log",
    "nolog",
    "auditlog",
    "noauditlog",
    "sanitisematched",
    "sanitizematched",
    "ctl",
    "initcol",
    "setsid",
    "setuid",
    "deprecatevar",
    "expirevar",
    "multimatch",
    "exec",
    "append",
    "prepend",
    "proxy",
    "pause",
    "xmlns",
    "T",
    ":",
    ",",
    "'",
    "=",
    " ",
    "7",
    PAST,
];
const SETTINGS: &[&str] = &["!", "=", "+", "-", ".", "'", "\"", " ", "%", "{", "a", "TX", "1", "9223372036854775807"];
const TARGETS: &[&str] = &["!", "&", ":", "|", "/", " ", "a", "TX", "args", "\x0b"];
const OPERATORS: &[&str] = &["!", "@", " ", "\t", "\x0b", "\x0c", "rx", "R", "pm", "a"];
const SELECTIONS: &[&str] = &["/", "*", "@", " ", "\t", "a", "\0"];
const NAMES: &[&str] = &["a", "e", "g", "i", "l", "m", "n", "p", "q", "r", "s", "t", "x", "_", "ARGS", "TX", "REQUEST", "NAMES", "\0", "F"];

pub const SETS: &[Set] = &[
    Set { readers: &[Reader::Tokens], alphabet: LEXING, quick: 4, full: 6 },
    Set { readers: &[Reader::NextToken], alphabet: LEXING, quick: 3, full: 5 },
    Set { readers: &[Reader::ListText], alphabet: LEXING, quick: 3, full: 5 },
    Set { readers: &[Reader::Actions], alphabet: ACTING, quick: 4, full: 6 },
    Set { readers: &[Reader::Actions], alphabet: ACTIONS, quick: 3, full: 5 },
    Set { readers: &[Reader::Actions], alphabet: ACTION_NAMES, quick: 3, full: 4 },
    Set { readers: &[Reader::Setvar], alphabet: SETTINGS, quick: 4, full: 6 },
    Set { readers: &[Reader::Variables, Reader::Updates], alphabet: TARGETS, quick: 5, full: 7 },
    Set { readers: &[Reader::Operator], alphabet: OPERATORS, quick: 5, full: 7 },
    Set { readers: &[Reader::Lookup], alphabet: NAMES, quick: 3, full: 5 },
    Set { readers: &[Reader::XmlTarget], alphabet: SELECTIONS, quick: 4, full: 6 },
    Set { readers: &[Reader::Directives], alphabet: JOINTS, quick: 3, full: 4 },
    Set { readers: &[Reader::Directives], alphabet: LINES, quick: 3, full: 5 },
    Set { readers: &[Reader::Directives], alphabet: ARGUMENTS, quick: 4, full: 5 },
    Set { readers: &[Reader::Directives], alphabet: CHAINED, quick: 4, full: 5 },
];

/// Readers that take a text.
pub const TEXT_READERS: [Reader; 11] = [
    Reader::Tokens,
    Reader::NextToken,
    Reader::Actions,
    Reader::Setvar,
    Reader::Variables,
    Reader::Updates,
    Reader::Operator,
    Reader::ListText,
    Reader::Lookup,
    Reader::XmlTarget,
    Reader::Directives,
];

/// The pieces of a reader's random texts: those of its sets, and every name that it looks up.
pub fn pieces_of(reader: Reader, names: &[&'static str]) -> Vec<&'static str> {
    let of = if reader == Reader::ListText { Reader::Tokens } else { reader };
    let mut pieces = SETS.iter().filter(|set| set.readers.contains(&of)).map(|set| set.alphabet).collect::<Vec<_>>().concat();
    if [Reader::Variables, Reader::Updates, Reader::Operator].contains(&reader) {
        // the reader's own pieces come as often as all names together
        pieces = pieces.repeat(names.len() / pieces.len() + 1);
        pieces.extend(names);
    }
    pieces
}

impl Set {
    /// Calls `visit` with every text, the shorter ones first on each branch; it says whether to go on.
    pub fn each(&self, longest: usize, visit: &mut dyn FnMut(&[u8]) -> bool) -> bool {
        fn grow(alphabet: &[&str], left: usize, text: &mut Vec<u8>, visit: &mut dyn FnMut(&[u8]) -> bool) -> bool {
            if !visit(text) {
                return false;
            }
            for piece in alphabet.iter().take(if left == 0 { 0 } else { alphabet.len() }) {
                let len = text.len();
                text.extend_from_slice(piece.as_bytes());
                if !grow(alphabet, left - 1, text, visit) {
                    return false;
                }
                text.truncate(len);
            }
            true
        }
        grow(self.alphabet, longest, &mut Vec::new(), visit)
    }
}

/// Splitmix64: the same cases for the same seed on every machine.
pub struct Random(pub u64);

impl Random {
    pub fn next(&mut self) -> u64 {
        self.0 = self.0.wrapping_add(0x9E37_79B9_7F4A_7C15);
        let z = (self.0 ^ (self.0 >> 30)).wrapping_mul(0xBF58_476D_1CE4_E5B9);
        let z = (z ^ (z >> 27)).wrapping_mul(0x94D0_49BB_1331_11EB);
        z ^ (z >> 31)
    }

    pub fn below(&mut self, n: usize) -> usize {
        (self.next() % n.max(1) as u64) as usize
    }

    pub fn one<'a, T>(&mut self, list: &'a [T]) -> &'a T {
        &list[self.below(list.len())]
    }

    /// A number near an edge of some width, or any.
    pub fn number(&mut self) -> u64 {
        match self.below(4) {
            0 => self.below(110) as u64,
            1 => (1u64 << self.below(64)).wrapping_add(self.below(3) as u64).wrapping_sub(1),
            2 => u64::MAX - self.below(3) as u64,
            _ => self.next() >> self.below(64),
        }
    }

    /// A length at or beside a power of two up to `longest`, or a short one.
    fn length(&mut self, longest: usize) -> usize {
        if self.below(4) != 0 {
            return self.below(40);
        }
        let edge = 1usize << self.below(longest.ilog2() as usize + 1);
        (edge + self.below(5)).saturating_sub(2)
    }

    /// A text of pieces out of an alphabet, at lengths around each boundary up to `longest`, seldom with a byte past ASCII.
    pub fn text(&mut self, alphabet: &[&str], longest: usize) -> Vec<u8> {
        let len = self.length(longest);
        let few: Vec<&str> = (0..1 + self.below(6)).map(|_| *self.one(alphabet)).collect();
        let mut text = Vec::with_capacity(len + 20);
        while text.len() < len {
            let piece = if self.below(3) == 0 { *self.one(alphabet) } else { *self.one(&few) };
            text.extend_from_slice(piece.as_bytes());
        }
        text.truncate(len);
        if self.below(60) == 0 && 0 < len {
            let place = self.below(len);
            text[place] = 128 + self.below(128) as u8;
        }
        text
    }

    /// A bit or two of a text turned over, past ASCII now and then.
    pub fn flipped(&mut self, text: &mut [u8]) {
        for _ in 0..(1 + self.below(2)).min(text.len()) {
            let (place, bit) = (self.below(text.len()), if self.below(9) == 0 { 7 } else { self.below(7) });
            text[place] ^= 1 << bit;
        }
    }

    /// A copy with a few bytes or parts taken out, put in, changed, doubled or exchanged.
    pub fn damaged(&mut self, text: &[u8], alphabet: &[&str]) -> Vec<u8> {
        let mut out = text.to_vec();
        for _ in 0..1 + self.below(4) {
            let (at, past) = (self.below(out.len() + 1), self.below(out.len() + 1));
            let (at, past) = (at.min(past), at.max(past).min(at.min(past) + 12));
            match self.below(5) {
                0 => drop(out.drain(at..past)),
                1 => drop(out.splice(at..at, self.one(alphabet).bytes())),
                2 => drop(out.splice(at..past, self.one(alphabet).bytes())),
                3 => {
                    let part = out[at..past].to_vec();
                    drop(out.splice(at..at, part));
                }
                _ => out[at..past].reverse(),
            }
        }
        out
    }
}

/// Rules to damage where no folder of real ones is named.
pub const RULES: &[(Reader, &str)] = &[
    (Reader::Tokens, "SecRule ARGS|!ARGS:token \"@rx (?i)union\\s+select\" \\\n    \"id:100001,phase:2,deny,msg:'SQL words'\"\n# x\nInclude a.conf\n"),
    (Reader::Tokens, "SecAction \\\r\n  'id:9,\\\r\n  t:none,pass'\r\nSecMarker \"END\\\"\"\n"),
    (Reader::Actions, "id:942100,phase:2,block,capture,t:none,t:urlDecodeUni,msg:'a, b',logdata:'%{TX.0}: %{MATCHED_VAR}',tag:'x/y',severity:'CRITICAL',setvar:'tx.score=+%{tx.critical}'"),
    (Reader::Actions, "id:1,\\\n  phase:1,\\\r\n  nolog,skipAfter:END,ctl:ruleRemoveById=941100,initcol:ip=%{REMOTE_ADDR},expirevar:ip.a=60,status:403,skip:2,maturity:9,accuracy:+8"),
    (Reader::Setvar, "'tx.sql_injection_score=+%{tx.critical_anomaly_score}'"),
    (Reader::Setvar, "TX.Allowed=-9223372036854775808"),
    (Reader::Variables, "REQUEST_COOKIES|!REQUEST_COOKIES:/__utm/|REQUEST_COOKIES_NAMES|ARGS_NAMES|ARGS|XML:/*|&TX:a"),
    (Reader::Updates, "!ARGS:password|ARGS:/^x/|!REQUEST_HEADERS:User-Agent|TX:k"),
    (Reader::Operator, "!@rx (?i:(?:select|union).{1,100}?from)"),
    (Reader::Operator, " ! @pmFromFile crawlers-user-agents.data "),
    (Reader::XmlTarget, "//@*"),
];

#[cfg(test)]
mod tests {
    use super::{Set, ACTIONS, ACTION_NAMES};
    use crate::underlined;

    /// Actions by name come to every flaw of an argument within as many pieces as a quick run has.
    #[test]
    fn actions_come_to_every_number() {
        for alphabet in [ACTIONS, ACTION_NAMES] {
            let mut counts = [0; 13];
            Set { readers: &[], alphabet, quick: 0, full: 0 }.each(3, &mut |text| {
                let number = underlined::actions(std::str::from_utf8(text).expect("ASCII")).number;
                counts[number as usize] += 1;
                true
            });
            println!("{counts:?}");
            assert!([0, 5, 10, 11, 12].iter().all(|number| 5 < counts[*number]), "{counts:?}");
        }
    }
}
