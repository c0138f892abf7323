//! The edges of whole directives, each with what comes out; the model is held to them, and the stored answers begin with them.

use crate::spans::span;

/// A package, its number and values, and what stands in text: texts, or the name after 5, 7 and 10 to 12.
pub type Edge = (&'static str, u64, &'static [u64], &'static str);

pub const EDGES: &[Edge] = &[
    // what a directive takes: a continuation sets the line-start mark, so `second` is a Directive
    ("SecRule ARGS \\\nsecond", 13, &[1], ""),
    ("SecAction deny SecAction log", 13, &[1], ""),
    ("SecRule ARGS\"@rx a\"\"deny\"", 0, &[1, 1, 1, 1], "a"),
    ("SecRule ARGS \"@rx a\" \\\n# why\n\"deny\"", 14, &[3], ""),
    ("SecAction \"id:1\nSecAction log", 11, &[1, 0, 2, span(11, 18)], "id"),
    ("\\SecMarker x", 14, &[1], ""),
    ("sec", 0, &[1, 0, 0, 3], "sec"),
    ("IncludeOptional x", 14, &[1], ""),
    ("SecMarker \" a \"", 0, &[1, 0, 0, 3], " a "),
    // the order of faults
    ("SecRule ARGS\x0c", 13, &[1], ""),
    ("SecAction deny\x0c", 15, &[1], ""),
    ("SecRule x\nSecAction bogus", 13, &[1], ""),
    ("SecAction bogus\nSecRule x", 5, &[1, 0, 5, span(10, 5)], "bogus"),
    ("SecRule ARGS \"@x\" x", 8, &[1, 1, 1, span(15, 1)], ""),
    ("SecRule ARGS \"\\t!@x\"", 8, &[1, 3, 1, span(18, 1)], ""),
    ("\n\nSecAction \\\n\"deny,\\\n bogus\"", 5, &[3, 1, 5, span(23, 5)], "bogus"),
    // records and texts
    ("SecRule ARGS a\nSecMarker m\nSecAction deny", 0, &[3, 1, 1, 2], "am"),
    ("SecRule \"\" \"\"", 0, &[1, 0, 0, 0], ""),
    ("SecRule !a|TX:k|ARGS \"!@pm x \" setvar:y", 0, &[1, 3, 1, 7], "kaxtxy1"),
    // a phase is a number: 5 is the manual's last, any byte is read, and the word for 5 is none
    ("SecAction phase:5", 0, &[1, 0, 1, 0], ""),
    ("SecAction phase:100", 0, &[1, 0, 1, 0], ""),
    ("SecAction phase:logging", 11, &[1, 0, 5, span(10, 13)], "phase"),
    // real rules: a quotation mark outside of a string ends a word, and an id in marks is no number
    ("SecRule &TX:'/a/' \"@gt 0\" deny", 13, &[1], ""),
    ("SecAction \"phase:1,id:'1'\"", 11, &[1, 1, 2, span(19, 6)], "id"),
    // our own: nothing, letter cases, other names, both ends of a line, what a stop and a comment end
    ("", 0, &[0, 0, 0, 0], ""),
    (" \t\r\n# x\n", 0, &[0, 0, 0, 0], ""),
    ("sEcRuLe args 1\nSECMARKER M\nsecdefaultaction LOG\nSecAction T", 5, &[4, 0, 1, span(58, 1)], "t"),
    ("SecRuleEngine On\nInclude \"a b\" c", 0, &[2, 0, 0, 20], "SecRuleEngineInclude"),
    ("SecRules a b c d", 0, &[1, 0, 0, 8], "SecRules"),
    ("SecMarker", 13, &[1], ""),
    ("SecMarker a b", 13, &[1], ""),
    ("SecMarker ''", 0, &[1, 0, 0, 0], ""),
    ("SecDefaultAction", 13, &[1], ""),
    ("SecDefaultAction \"phase:1,log\"", 0, &[1, 0, 2, 0], ""),
    ("SecAction ''", 0, &[1, 0, 0, 0], ""),
    ("SecRule ARGS a ''", 0, &[1, 1, 0, 1], "a"),
    ("SecRule ARGS a b c", 13, &[1], ""),
    ("SecRule", 13, &[1], ""),
    ("x", 14, &[1], ""),
    ("\n'x'\nSecRule", 14, &[2], ""),
    ("Include\n\"x\"", 14, &[2], ""),
    ("SecMarker a # b\nc", 14, &[2], ""),
    ("\x0c", 15, &[1], ""),
    ("SecMarker a\n\n \x0bx", 15, &[3], ""),
    ("SecMarker a\nx\x0c", 14, &[2], ""),
    ("SecAction bogus\x0c", 5, &[1, 0, 5, span(10, 5)], "bogus"),
    ("SecRule nope @x bogus", 7, &[1, 0, 4, span(8, 4)], "nope"),
    ("SecRule TX|!z|TX:|Nope:q a", 7, &[1, 3, 4, span(18, 6)], "Nope"),
    ("SecRule !x a", 0, &[1, 0, 0, 1], "a"),
    ("SecRule TX a SkipAfter", 10, &[1, 0, 9, span(13, 9)], "skipAfter"),
    ("SecRule ARGS @", 8, &[1, 1, 0, span(14, 0)], ""),
    ("SecRule ARGS \" ! @rx\x0ba\"", 8, &[1, 4, 4, span(18, 4)], ""),
    ("Sec\\\nRule ARGS a", 0, &[1, 1, 0, 1], "a"),
    ("Sec\\\n Action log", 0, &[1, 0, 0, 3], "Sec"),
    ("Sec\\\n SecAction log", 0, &[2, 0, 1, 3], "Sec"),
    ("SecMarker \"a\nSecMarker b\"", 0, &[1, 0, 0, 13], "a\nSecMarker b"),
    ("SecMarker a\\\nSecMarker b", 13, &[1], ""),
    ("SecAction \"msg:a\\,deny\"", 0, &[1, 0, 2, 2], "a\\"),
    ("SecAction 'msg,tag:,t:'\nSecMarker x", 0, &[2, 0, 3, 1], "x"),
    ("SecAction \"de\\\\\n  ny\"", 0, &[1, 0, 1, 0], ""),
    ("SecAction \"deny\\\\\\n,log\"", 0, &[1, 0, 2, 0], ""),
    ("SecRule TX:a|TX:b|!c '@pm d' \"msg:e,setvar:f=g\"\nsecx\nSecMarker h", 0, &[3, 3, 2, 14], "abcdetxfgsecxh"),
];

/// Arguments of actions that are refused, and beside them what is not; the stored questions have these behind all others.
pub const FLAWED: &[Edge] = &[
    ("SecAction id", 10, &[1, 0, 2, span(10, 2)], "id"),
    ("SecAction id:", 11, &[1, 0, 2, span(10, 3)], "id"),
    ("SecAction id:-99999999999999999999", 11, &[1, 0, 2, span(10, 24)], "id"),
    ("SecAction id:99999999999999999999x", 11, &[1, 0, 2, span(10, 24)], "id"),
    ("SecAction log,SkipAfter", 10, &[1, 1, 9, span(14, 9)], "skipAfter"),
    ("SecAction expirevar:a=99999999999999999999,setvar:b=+99999999999999999999", 0, &[1, 0, 2, 4], "atxb"),
    ("SecAction id:+99999999999999999999", 12, &[1, 0, 2, span(10, 24)], "id"),
    ("SecAction skip:+", 11, &[1, 0, 4, span(10, 6)], "skip"),
    ("SecAction phase:256", 12, &[1, 0, 5, span(10, 9)], "phase"),
    ("SecAction severity:300", 12, &[1, 0, 8, span(10, 12)], "severity"),
    ("SecAction \"severity:'300'\"", 12, &[1, 0, 8, span(11, 14)], "severity"),
    ("SecAction \"severity:''\"", 11, &[1, 0, 8, span(11, 11)], "severity"),
    ("SecAction severity:fatal", 11, &[1, 0, 8, span(10, 14)], "severity"),
    ("SecDefaultAction \"phase:1,redirect\"", 10, &[1, 1, 8, span(26, 8)], "redirect"),
    ("\nSecRule TX a \"deny,,\\\n log, status:065536\"", 12, &[2, 2, 6, span(29, 13)], "status"),
    // the first of two, and what comes before and behind it in one directive
    ("SecAction id:1x\nSecAction id", 11, &[1, 0, 2, span(10, 5)], "id"),
    ("SecRule ARGS @x id", 8, &[1, 1, 1, span(14, 1)], ""),
    ("SecAction id log", 13, &[1], ""),
    ("SecAction phase:300\x0c", 12, &[1, 0, 5, span(10, 9)], "phase"),
];

/// Pieces that are refused where the lexer or the normaliser took something out, or where no byte is to be underlined; in the stored
/// questions behind those.
pub const REFUSED: &[Edge] = &[
    ("SecAction \"\\\"a\\\",deny\"", 5, &[1, 0, 3, span(11, 5)], "\"a\""),
    ("SecAction \"log,\\x\"", 5, &[1, 1, 2, span(15, 2)], "\\x"),
    ("SecAction \"log,\\tid\\\\\n :x \"", 11, &[1, 1, 2, span(17, 8)], "id"),
    ("SecAction log,\\\r\nI\\\nD", 10, &[1, 1, 2, span(17, 4)], "id"),
    ("SecRule TX|!x|&\\\nnope a", 7, &[1, 2, 4, span(14, 7)], "nope"),
    ("SecRule \" &nope:k \" a", 7, &[1, 0, 4, span(10, 7)], "nope"),
    ("SecRule ARGS \"@\\\"\"", 8, &[1, 1, 1, span(15, 2)], ""),
    ("SecRule ARGS \"@a\\\n  b c\"", 8, &[1, 1, 2, span(15, 6)], ""),
    ("SecRule ARGS \"\\t@ x\"", 8, &[1, 2, 0, span(17, 0)], ""),
    ("SecRule ARGS '@\\\n'", 8, &[1, 1, 0, span(15, 0)], ""),
    ("SecRule ARGS \"@\\\n \\n x\"", 8, &[1, 1, 0, span(15, 0)], ""),
];

/// A package that is read, and the offset and length of what each variable and each action record was read from.
pub type Underlined = (&'static str, &'static [(u64, u64)], &'static [(u64, u64)]);

/// Pieces that are awkward to underline; the stored questions end with these.
pub const UNDERLINED: &[Underlined] = &[
    // a kept backslash has its own place, an escape that is read is two bytes
    ("SecAction \"msg:a\\,deny\"", &[], &[(11, 6), (18, 4)]),
    ("SecAction \"\\tdeny\\n,log \"", &[], &[(13, 4), (20, 3)]),
    ("SecAction \"msg:\\\"a\\\"\"", &[], &[(11, 9)]),
    ("SecAction \"msg:it\\'s,deny\"", &[], &[(11, 14)]),
    ("SecAction \"\\\\\n\\\\\n deny\"", &[], &[(18, 4)]),
    // what the normaliser takes out, written and by escapes
    ("SecAction \"de\\\\\n  ny\"", &[], &[(11, 9)]),
    ("SecAction \"deny\\\\\\n,log\"", &[], &[(11, 4), (20, 3)]),
    ("SecAction \"de\\\\\\r\\tny,log\"", &[], &[(11, 10), (22, 3)]),
    // what the lexer takes out, in marks and in a word
    ("SecAction \"de\\\n  ny\"", &[], &[(11, 8)]),
    ("SecAction \"deny\\\r\n\t ,log\"", &[], &[(11, 4), (21, 3)]),
    ("SecAction \\\n  \"deny,\\\n    log\"", &[], &[(15, 4), (26, 3)]),
    ("SecAction de\\\nny,\\\r\nlog", &[], &[(10, 6), (20, 3)]),
    ("SecAction deny\\\n", &[], &[(10, 4)]),
    // blanks at both ends, marks of targets, exclusions behind all variables
    ("SecAction \" deny , log \"", &[], &[(12, 4), (19, 3)]),
    ("SecRule \"!a| &TX:k |ARGS\" a", &[(13, 5), (20, 4), (9, 2)], &[]),
    ("SecRule \"\\t!\\\"|\\nTX:\\\"\" a", &[(17, 5), (11, 3)], &[]),
    ("SecRule A\\\nRGS|!T\\\nX a", &[(8, 6), (15, 5)], &[]),
    ("SecRule !a a", &[], &[]),
    // other lines, no mark at the end, and nothing at all
    ("SecMarker m\nSecAction log\n\nSecRule TX|IP a \"t:a,t:b\"", &[(35, 2), (38, 2)], &[(22, 3), (44, 3), (48, 3)]),
    ("SecAction \"deny,log\\", &[], &[(11, 4), (16, 3)]),
    ("SecAction \" \\t,\\\n \"", &[], &[]),
];

/// A package, its number and values for 2.6, and the line of the rule that misses its id in it for 2.7: nothing where both are the same.
pub type Versioned = (&'static str, u64, &'static [u64], Option<u64>);

/// Where 2.7 and 2.6 part: document 02's own lines first.
pub const VERSIONED: &[Versioned] = &[
    ("SecAction deny", 0, &[1, 0, 1, 0], Some(1)),
    ("SecAction deny\nx", 14, &[2], Some(1)),
    ("SecAction id:0", 0, &[1, 0, 1, 0], None),
    ("SecAction chain,id:1\nSecMarker a\nSecAction deny", 0, &[3, 0, 3, 1], None),
    ("SecAction chain,id:1\nSecAction chain\nSecAction deny", 0, &[3, 0, 4, 0], None),
    ("SecDefaultAction chain\nSecAction deny", 0, &[2, 0, 2, 0], Some(2)),
    ("SecAction id:1,chain", 0, &[1, 0, 2, 0], None),
    // what a rule is: in any letter case, and nothing else
    ("", 0, &[0, 0, 0, 0], None),
    ("SecMarker a\nSecDefaultAction log\nSecRuleEngine On\n# x", 0, &[3, 0, 1, 14], None),
    ("SecRule ARGS a", 0, &[1, 1, 0, 1], Some(1)),
    ("SecRule ARGS a ''", 0, &[1, 1, 0, 1], Some(1)),
    ("SecRule ARGS a id:7", 0, &[1, 1, 1, 1], None),
    ("sEcRuLe args 1 LOG,ID:7", 0, &[1, 1, 2, 1], None),
    ("SECACTION ''", 0, &[1, 0, 0, 0], Some(1)),
    ("SecActions deny\nSecRul x\nsec", 0, &[3, 0, 0, 19], None),
    ("SecMarker id:1\nSecAction deny", 0, &[2, 0, 1, 4], Some(2)),
    ("SecDefaultAction id:1\nSecAction deny", 0, &[2, 0, 2, 0], Some(2)),
    ("Sec\\\nRule ARGS a", 0, &[1, 1, 0, 1], Some(1)),
    ("\n\n  SecAction \\\n \"deny,\\\n log\"", 0, &[1, 0, 2, 0], Some(3)),
    ("SecMarker \"a\nSecAction deny\"", 0, &[1, 0, 0, 16], None),
    ("# SecAction deny", 0, &[0, 0, 0, 0], None),
    // what an id is: any number, any place in the list, and nothing that looks like one
    ("secaction id:18446744073709551615", 0, &[1, 0, 1, 0], None),
    ("SecAction \"log,\\\n  i\\\nd:7\"", 0, &[1, 0, 2, 0], None),
    ("SecAction id:1,id:2", 0, &[1, 0, 2, 0], None),
    ("SecAction \"msg:'id:1',logdata:id:2\"", 0, &[1, 0, 2, 8], Some(1)),
    ("SecAction ctl:ruleRemoveById=1,setvar:id=1,t:id", 0, &[1, 0, 3, 21], Some(1)),
    ("SecRule ARGS id:1", 0, &[1, 1, 0, 4], Some(1)),
    ("SecRule ARGS:id a tag:id", 0, &[1, 1, 1, 5], Some(1)),
    // a chain: over whatever is no rule, and to the next rule alone
    ("SecRule ARGS a 'id:1,chain'\n\n# chain\n \nSecRule ARGS b", 0, &[2, 2, 2, 2], None),
    ("SecAction CHAIN,id:1\nSecDefaultAction log\nSecRule ARGS a", 0, &[3, 1, 3, 1], None),
    ("SecAction id:1,chain\nInclude x\nsec # c\nSecAction deny", 0, &[4, 0, 3, 10], None),
    ("SecAction id:1,chain\nSecAction log\nSecAction deny", 0, &[3, 0, 4, 0], Some(3)),
    ("SecAction id:1,chain\nSecAction id:2\nSecAction deny", 0, &[3, 0, 4, 0], Some(3)),
    ("SecAction id:1,chain\nSecRule ARGS a\nSecRule ARGS b", 0, &[3, 2, 2, 2], Some(3)),
    ("SecAction id:1,chain\nSecRule ARGS a chain\nSecRule ARGS b chain", 0, &[3, 2, 4, 2], None),
    ("SecAction id:1,chain\nSecAction id:2,chain\nSecAction deny", 0, &[3, 0, 5, 0], None),
    ("SecAction id:1,chain,chain\nSecAction log\nSecAction deny", 0, &[3, 0, 5, 0], Some(3)),
    ("SecAction id:1,chain:x\nSecAction deny", 0, &[2, 0, 3, 0], None),
    ("SecAction \"id:1,ch\\\n  ain\"\nSecAction deny", 0, &[2, 0, 3, 0], None),
    ("SecAction chain", 0, &[1, 0, 1, 0], Some(1)),
    ("SecAction chain\nSecAction id:1", 0, &[2, 0, 2, 0], Some(1)),
    ("SecRule ARGS chain\nSecAction id:1", 0, &[2, 1, 1, 5], Some(1)),
    ("SecAction id:1\nSecRule ARGS a chain\nSecAction deny", 0, &[3, 1, 3, 1], Some(2)),
    ("SecAction id:1,t:chain,msg:chain\nSecAction deny", 0, &[2, 0, 4, 10], Some(2)),
    ("SecAction id:1,skipAfter:chain\nSecAction deny", 0, &[2, 0, 3, 5], Some(2)),
    ("SecMarker chain\nSecAction deny", 0, &[2, 0, 1, 5], Some(2)),
    ("Include chain\nSecAction deny", 0, &[2, 0, 1, 7], Some(2)),
    ("SecAction id:1,chain\nSecDefaultAction id:2\nSecAction log\nSecAction deny", 0, &[4, 0, 5, 0], Some(4)),
    ("SecAction id:1,chain\nSecDefaultAction chain\nSecAction log\nSecAction deny", 0, &[4, 0, 5, 0], Some(4)),
    // of one directive the id is judged last
    ("SecAction", 13, &[1], None),
    ("SecAction deny log", 13, &[1], None),
    ("SecAction deny SecAction id:1", 13, &[1], None),
    ("SecRule nope a", 7, &[1, 0, 4, span(8, 4)], None),
    ("SecRule ARGS @x", 8, &[1, 1, 1, span(14, 1)], None),
    ("SecRule ARGS a log,bogus", 5, &[1, 1, 5, span(19, 5)], None),
    ("SecAction id", 10, &[1, 0, 2, span(10, 2)], None),
    ("SecAction id:x", 11, &[1, 0, 2, span(10, 4)], None),
    ("SecAction phase:256", 12, &[1, 0, 5, span(10, 9)], None),
    ("SecAction id:1,chain\nSecAction bogus", 5, &[2, 0, 5, span(31, 5)], None),
    // what stands before comes before
    ("SecAction bogus\nSecAction deny", 5, &[1, 0, 5, span(10, 5)], None),
    ("SecRule x\nSecAction deny", 13, &[1], None),
    ("x\nSecAction deny", 14, &[1], None),
    ("\x0cSecAction deny", 15, &[1], None),
    ("SecAction id:1\nSecRule\nSecAction deny", 13, &[2], None),
    ("SecAction id:1,chain\n\x0cSecAction deny", 15, &[2], None),
    ("SecAction id:1\x0c", 15, &[1], None),
    // and what stands behind, behind
    ("SecAction deny\nSecAction bogus", 5, &[2, 0, 5, span(25, 5)], Some(1)),
    ("SecAction deny\nSecRule nope a", 7, &[2, 0, 4, span(23, 4)], Some(1)),
    ("SecAction deny\nSecRule TX @x", 8, &[2, 1, 1, span(27, 1)], Some(1)),
    ("SecAction deny\nSecAction id", 10, &[2, 0, 2, span(25, 2)], Some(1)),
    ("SecAction deny\nSecAction id:", 11, &[2, 0, 2, span(25, 3)], Some(1)),
    ("SecAction deny\nSecAction status:65536", 12, &[2, 0, 6, span(25, 12)], Some(1)),
    ("SecAction deny\nSecRule x", 13, &[2], Some(1)),
    ("SecAction deny\n\\SecMarker x", 14, &[2], Some(1)),
    ("SecAction deny\x0c", 15, &[1], Some(1)),
    ("SecAction deny\n\n\x0c", 15, &[3], Some(1)),
    ("SecAction deny\nSecAction log", 0, &[2, 0, 2, 0], Some(1)),
    ("SecAction id:1\nSecAction log\nSecAction deny", 0, &[3, 0, 3, 0], Some(2)),
];

pub fn all() -> impl Iterator<Item = &'static Edge> {
    EDGES.iter().chain(FLAWED).chain(REFUSED)
}

/// Every package here, those in which the versions part last.
pub fn packages() -> impl Iterator<Item = &'static str> {
    of_both().chain(VERSIONED.iter().map(|edge| edge.0))
}

/// Those that are about something else.
pub fn of_both() -> impl Iterator<Item = &'static str> {
    all().map(|edge| edge.0).chain(UNDERLINED.iter().map(|edge| edge.0))
}

#[cfg(test)]
mod tests {
    use super::{all, packages, UNDERLINED, VERSIONED};
    use crate::directives::{self, Package, Version};
    use crate::readers::{ACTION_WORDS, VARIABLE_WORDS};
    use crate::spans::span;

    fn for_2_6(package: &str) -> Package {
        directives::read(package, Version::V2_6)
    }

    fn for_2_7(package: &str) -> Package {
        directives::read(package, Version::V2_7)
    }

    fn words(list: &[u64], record: usize, width: usize) -> &[u64] {
        &list[record * width..(record + 1) * width]
    }

    #[test]
    fn each_edge_comes_out() {
        for (input, number, values, text) in all() {
            let read = for_2_6(input);
            assert_eq!((read.number, &read.values[..]), (*number, *values), "{input:?}");
            assert_eq!(read.texts, text.as_bytes(), "{input:?}");
            let empty = read.directives.is_empty() && read.variables.is_empty() && read.actions.is_empty();
            assert!(read.number == 0 || empty, "{input:?}");
        }
    }

    #[test]
    fn each_edge_of_versions_comes_out() {
        for (input, number, values, missed) in VERSIONED {
            let (older, newer) = (for_2_6(input), for_2_7(input));
            assert_eq!((older.number, &older.values[..]), (*number, *values), "{input:?}");
            let expected = missed.map_or(older, |line| Package { number: 18, values: vec![line], ..Package::default() });
            assert_eq!(newer, expected, "{input:?}");
        }
    }

    /// All else that 2.7 gives is what 2.6 gives.
    #[test]
    fn versions_differ_in_18_alone() {
        let differ = packages().filter(|package| for_2_7(package) != for_2_6(package)).collect::<Vec<_>>();
        assert!(differ.iter().all(|package| for_2_7(package).number == 18), "{differ:?}");
        assert!(70 < differ.len(), "{}", differ.len());
    }

    #[test]
    fn each_piece_is_underlined() {
        for (input, variables, actions) in UNDERLINED {
            let read = for_2_6(input);
            assert_eq!(read.number, 0, "{input:?}");
            let sources = |words: &[u64], width: usize| words.chunks_exact(width).map(|record| record[width - 1]).collect::<Vec<_>>();
            let by_hand = |list: &[(u64, u64)]| list.iter().map(|(offset, len)| span(*offset, *len)).collect::<Vec<_>>();
            assert_eq!(sources(&read.variables, VARIABLE_WORDS), by_hand(variables), "{input:?}");
            assert_eq!(sources(&read.actions, ACTION_WORDS), by_hand(actions), "{input:?}");
        }
    }

    #[test]
    fn an_unknown_ends_with_its_token() {
        assert_eq!(for_2_6("sec").directives, [5, 1, span(0, 3), span(0, 3), 0, 0, 0, 0, 0, 0, 0]);
        let read = for_2_6("#\n Include \"a\" b # c");
        assert_eq!(read.directives, [5, 2, span(3, 13), span(0, 7), 0, 0, 0, 0, 0, 0, 0]);
    }

    #[test]
    fn every_kind_has_the_numbers_reached() {
        let read = for_2_6("SecRule ARGS a\nSecMarker m\nSecAction deny");
        assert_eq!(words(&read.directives, 0, 11), [1, 1, span(0, 14), 0, 0, 0, span(0, 1), 0, 1, 0, 0]);
        assert_eq!(words(&read.directives, 1, 11), [3, 2, span(15, 11), span(1, 1), 0, 0, 0, 1, 0, 0, 0]);
        assert_eq!(words(&read.directives, 2, 11), [2, 3, span(27, 14), 0, 0, 0, 0, 1, 0, 0, 1]);
    }

    #[test]
    fn texts_stand_in_order() {
        let read = for_2_6("SecRule !a|TX:k|ARGS \"!@pm x \" setvar:y");
        assert_eq!(read.directives, [1, 1, span(0, 39), 0, 1, 1, span(2, 1), 0, 3, 0, 1]);
        assert_eq!(words(&read.variables, 0, VARIABLE_WORDS)[4..], [span(0, 1), span(11, 4)]);
        assert_eq!(words(&read.variables, 2, VARIABLE_WORDS), [2, 0, 0, 0, span(1, 1), span(8, 2)]);
        assert_eq!(read.actions, [22, 0, span(3, 2), span(5, 1), 1, span(6, 1), span(31, 8)]);
        let empty = for_2_6("SecRule \"\" \"\"");
        assert_eq!(empty.directives, [1, 1, span(0, 13), 0, 0, 0, 0, 0, 0, 0, 0]);
        // an empty text that is there has the offset reached, one that is not is 0
        let behind = for_2_6("SecMarker ab\nSecAction msg,deny\nSecMarker ''");
        assert_eq!((behind.actions[2], behind.actions[9], behind.directives[25]), (span(2, 0), 0, span(2, 0)));
    }

    #[test]
    fn room_is_judged_last_with_all_counts() {
        let read = || for_2_6("SecRule ARGS a deny");
        let none = Package { number: 4, values: vec![1, 1, 1], ..Package::default() };
        for words in [[11, 5, 7], [10, 6, 7], [11, 6, 6], [0, 0, 0]] {
            assert_eq!(read().without_room(words).as_ref(), Some(&none), "{words:?}");
        }
        assert_eq!(read().without_room([11, 6, 7]), None);
        assert_eq!(for_2_6("SecRule x").without_room([0, 0, 0]), None);
        assert_eq!(for_2_6("").without_room([0, 0, 0]), None);
        assert_eq!(for_2_7("SecAction deny").without_room([0, 0, 0]), None);
    }

    /// The join in the original's own types agrees on which packages are read, and on how many directives they have.
    #[test]
    fn both_joins_agree() {
        for (input, number, values, _) in all().filter(|edge| edge.1 != 15) {
            assert_eq!(directives::owned(input).map(|list| list.len() as u64).ok(), (*number == 0).then(|| values[0]), "{input:?}");
        }
        for input in packages().filter(|package| for_2_7(package).number != 15) {
            assert_eq!(directives::owned_with_ids(input).is_ok(), for_2_7(input).number == 0, "{input:?}");
        }
    }
}
