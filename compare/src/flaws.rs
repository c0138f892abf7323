//! Why an action's argument is refused, by document 02 (M-102), a second model: the original has one error for all three.

const ABSENT: u64 = 10;
const UNREADABLE: u64 = 11;
const TOO_LARGE: u64 = 12;

/// What must stand behind an action's colon.
enum Wanted {
    /// Any text, the empty one too.
    Text,
    /// A number up to this one, which is kept in digits so that no width of ours bounds what it is compared with.
    Number(&'static str),
    /// A word of the table or a number of a byte, quotation marks at both ends taken away.
    Severity,
}

const BYTE: &str = "255";

/// The actions that must have an argument.
const WANTING: &[(&str, Wanted)] = &[
    ("id", Wanted::Number("18446744073709551615")),
    ("skip", Wanted::Number("4294967295")),
    ("status", Wanted::Number("65535")),
    ("phase", Wanted::Number(BYTE)),
    ("maturity", Wanted::Number(BYTE)),
    ("accuracy", Wanted::Number(BYTE)),
    ("severity", Wanted::Severity),
    ("redirect", Wanted::Text),
    ("skipafter", Wanted::Text),
    ("setvar", Wanted::Text),
    ("ctl", Wanted::Text),
    ("initcol", Wanted::Text),
];

pub const SEVERITIES: [&str; 8] = ["emergency", "alert", "critical", "error", "warning", "notice", "info", "debug"];

/// The flaw of digits behind at most one plus, up to the largest number, if they have one.
fn of_number(said: &str, largest: &str) -> Option<u64> {
    let digits = said.strip_prefix('+').unwrap_or(said);
    if digits.is_empty() || digits.contains(|c: char| !c.is_ascii_digit()) {
        return Some(UNREADABLE);
    }
    let plain = digits.trim_start_matches('0');
    // of two numbers without zeros before them the longer one is larger, and of one length the one that is sorted behind
    ((plain.len(), plain) > (largest.len(), largest)).then_some(TOO_LARGE)
}

/// The number for a piece of an action list, cut out and trimmed, where its argument is refused.
pub fn flaw(piece: &str) -> Option<u64> {
    let (name, argument) = piece.split_once(':').map_or((piece, None), |(name, argument)| (name, Some(argument)));
    let (_, wanted) = WANTING.iter().find(|(action, _)| action.eq_ignore_ascii_case(name))?;
    let Some(argument) = argument else { return Some(ABSENT) };
    match wanted {
        Wanted::Text => None,
        Wanted::Number(largest) => of_number(argument, largest),
        Wanted::Severity => {
            let bare = argument.trim_matches(['\'', '"']);
            let is_word = SEVERITIES.iter().any(|word| word.eq_ignore_ascii_case(bare));
            of_number(bare, BYTE).filter(|_| !is_word)
        }
    }
}

/// Pieces at the edges of the paper, each with its number, or 0 where it is read; the library is asked about them first of all.
pub const EDGES: &[(&str, u64)] = &[
    // no colon, where an action must have an argument, and where it need not
    ("id", 10),
    ("SEVERITY", 10),
    ("phase", 10),
    ("skip", 10),
    ("status", 10),
    ("maturity", 10),
    ("accuracy", 10),
    ("redirect", 10),
    ("SkipAfter", 10),
    ("setvar", 10),
    ("ctl", 10),
    ("initcol", 10),
    ("msg", 0),
    ("expirevar", 0),
    ("deny", 0),
    // an empty argument is one, and a text may be empty
    ("id:", 11),
    ("severity:", 11),
    ("severity:''", 11),
    ("severity:\"'\"", 11),
    ("redirect:", 0),
    ("skipAfter:", 0),
    ("setvar:", 0),
    ("ctl:", 0),
    ("initcol:", 0),
    // signs: one plus is read, and no minus
    ("skip:+", 11),
    ("skip:-", 11),
    ("skip:-0", 11),
    ("skip:++1", 11),
    ("skip:1+", 11),
    ("skip:+1", 0),
    ("id:-99999999999999999999", 11),
    ("id:+99999999999999999999", 12),
    // one byte that is no digit, however large the digits are
    ("id:99999999999999999999x", 11),
    ("id:x99999999999999999999", 11),
    ("id: 1", 11),
    ("id:1:1", 11),
    ("id:'1'", 11),
    ("phase:\"2\"", 11),
    ("phase:logging", 11),
    ("status:0x10", 11),
    // at each width and past it, with zeros before
    ("id:18446744073709551615", 0),
    ("id:18446744073709551616", 12),
    ("id:99999999999999999999", 12),
    ("id:0000000000000000000000000000", 0),
    ("skip:4294967295", 0),
    ("skip:4294967296", 12),
    ("status:65535", 0),
    ("status:+065536", 12),
    ("phase:255", 0),
    ("phase:256", 12),
    ("maturity:0255", 0),
    ("maturity:0256", 12),
    ("accuracy:255", 0),
    ("accuracy:1000", 12),
    // a severity is a word or a number, behind quotation marks of either kind
    ("severity:255", 0),
    ("severity:256", 12),
    ("severity:300", 12),
    ("severity:'300'", 12),
    ("severity:\"'+300\"'", 12),
    ("severity:'300x'", 11),
    ("severity:'-300'", 11),
    ("severity:'3'0'", 11),
    ("severity:'x'", 11),
    ("severity:fatal", 11),
    ("severity: critical", 11),
    ("severity:2critical", 11),
    ("severity:'Critical'", 0),
    ("severity:CRITICAL", 0),
    // amounts and seconds never refuse
    ("expirevar:a=99999999999999999999", 0),
    ("setvar:b=+99999999999999999999", 0),
];

#[cfg(test)]
mod tests {
    use super::{flaw, EDGES};

    #[test]
    fn each_edge_has_its_flaw() {
        for (piece, number) in EDGES {
            assert_eq!(flaw(piece).unwrap_or(0), *number, "{piece:?}");
        }
    }
}
