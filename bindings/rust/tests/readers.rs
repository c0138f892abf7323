//! Each reader's answers and refusals as Rust types, and what the crate lends at the edges.

use seclang::{
    list_text, next_token, parse_actions, parse_operator, parse_setvar, parse_update_targets, parse_variables, plain_tokens, raw, tokens,
    Action, Cursor, Flaw, Refusal, RuleIdSelector, SetVar, SetVarValue, Token, XmlTarget, LIMIT,
};
use std::ops::Range;

fn set(collection: &str, key: &str, value: SetVarValue) -> SetVar {
    SetVar { collection: collection.to_string(), key: key.to_string(), value }
}

fn bad_argument(flaw: Flaw, piece: usize, action: &str, span: Range<usize>) -> Refusal {
    Refusal::BadArgument { flaw, piece, action: action.to_string(), span }
}

/// All tokens by single steps, and where the last one stands.
fn stepped(text: &str) -> (Vec<Token>, Cursor) {
    let (mut list, mut at) = (Vec::new(), Cursor::START);
    loop {
        let step = next_token(text, at).expect("a cursor that was reached");
        at = step.next;
        match step.token {
            Some(token) => list.push(token),
            None => return (list, at),
        }
    }
}

#[test]
fn steps_give_what_the_whole_gives() {
    let sample = include_str!("../../../samples/desk.conf");
    for text in ["", "a b", "x \\\nsecy", "'a\\\n  b' # c\nSecRule", "a \x0cb", "\\Sec", sample] {
        let (all, (list, end)) = (tokens(text).expect("ASCII"), stepped(text));
        assert_eq!(all.list, list, "{text:?}");
        assert_eq!((all.stop.place, all.stop.line, all.stop.column), (end.place, end.line, end.column), "{text:?}");
    }
    assert_eq!(tokens("a \x0cb").expect("ASCII").stop.place, 2);
}

#[test]
fn both_lexers_give_the_same() {
    let rules = [include_str!("../../../samples/desk.conf"), include_str!("../../../tests/rules.conf")];
    let edges = ["", "a\\\rb", "\\\r\r\nsec", "a\\\\\nb", "\"\\\r\n\t x\"", "a \x0bb", "\\Sec", "'a\\", "x \\\nsecy", "#a\\\nsec"];
    for text in rules.into_iter().chain(edges) {
        let (plain, list) = (plain_tokens(text).expect("ASCII"), stepped(text).0);
        assert_eq!((&plain.list, Ok(&plain)), (&list, tokens(text).as_ref()), "{text:?}");
    }
    // each rule cut short at every byte
    for text in rules.iter().flat_map(|rule| (0..rule.len()).map(move |len| &rule[..len])) {
        assert_eq!(plain_tokens(text), tokens(text), "{text:?}");
    }
    assert_eq!(plain_tokens("ab\u{e9}"), Err(Refusal::NotAscii { place: 2 }));
}

#[test]
fn a_cursor_is_judged() {
    let from = |place, line, column| next_token("ab", Cursor { place, line, column, mark: false }).map(|step| step.token.is_some());
    assert_eq!(from(1, 1, 1), Ok(true));
    assert_eq!(from(0, LIMIT + 1, LIMIT + 1), Ok(true));
    assert_eq!(from(2, LIMIT + 1, LIMIT + 1), Ok(false));
    for bad in [from(3, 1, 1), from(0, 0, 1), from(0, 1, 0), from(0, LIMIT + 2, 1), from(0, 1, LIMIT + 2), from(usize::MAX, 1, 1)] {
        assert_eq!(bad, Err(Refusal::BadCursor));
    }
}

#[test]
fn setvars_are_read() {
    let read = |text| parse_setvar(text).expect("a setvar");
    assert_eq!(read("a=--5"), set("tx", "a", SetVarValue::Decrement(-5)));
    assert_eq!(read("IP.A=9223372036854775807"), set("ip", "A", SetVarValue::Int(i64::MAX)));
    assert_eq!(read("a=9223372036854775808"), set("tx", "a", SetVarValue::String("9223372036854775808".to_string())));
    assert_eq!(read("'!tx.a'"), set("tx", "a", SetVarValue::Delete));
    assert_eq!(read(""), set("tx", "", SetVarValue::String("1".to_string())));
    let inside = set("tx", "a", SetVarValue::Macro("+%{b}".to_string()));
    assert_eq!(parse_actions("setvar:'tx.a=+%{b}'").expect("a list"), [Action::SetVar(inside)]);
    assert_eq!([read(" a "), read(" \t"), read(""), read("'a'")].map(|set| set.source), [1..2, 2..2, 0..0, 0..3]);
}

#[test]
fn ids_are_whole_words() {
    assert_eq!(parse_actions("id:18446744073709551615").expect("an id"), [Action::Id(u64::MAX)]);
    assert_eq!(parse_actions("id:18446744073709551616"), Err(bad_argument(Flaw::TooLarge, 0, "id", 0..23)));
    assert!(RuleIdSelector::Range(1, u64::MAX).matches(u64::MAX) && RuleIdSelector::Single(u64::MAX).matches(u64::MAX));
    assert!(!RuleIdSelector::Range(2, 1).matches(1) && !RuleIdSelector::Single(1).matches(2));
}

/// The grade looks at each number that it is about.
#[test]
fn grades_are_given() {
    let graded = |list| seclang::grade(&parse_actions(list).expect(list));
    assert!(graded("") && graded("id:1,phase:1,severity:7,maturity:9,accuracy:1,status:999,skip:0") && graded("phase:5"));
    for list in ["id:0", "id:1,id:2", "phase:0", "phase:6", "phase:5,phase:6", "severity:8", "maturity:0", "accuracy:10"] {
        assert!(!graded(list), "{list}");
    }
}

#[test]
fn xml_selections_are_told_apart() {
    let asked = |list| XmlTarget::of(parse_variables(list).expect(list).variables[0].selection.as_ref());
    assert_eq!([asked("XML"), asked("XML:/*"), asked("XML://@*")], [XmlTarget::All, XmlTarget::Elements, XmlTarget::Attributes].map(Some));
    assert_eq!([asked("XML:/a/"), asked("XML:/a")], [None, None]);
}

#[test]
fn refusals_have_their_values() {
    let name = |name: &str| name.to_string();
    assert_eq!(parse_actions("deny,,Bogus:1,phase:x"), Err(Refusal::UnknownAction { piece: 1, name: name("bogus"), span: 6..13 }));
    assert_eq!(parse_actions("log,phase:'2'"), Err(bad_argument(Flaw::Unreadable, 1, "phase", 4..13)));
    assert_eq!(parse_variables("ARGS:/a|b/"), Err(Refusal::UnknownVariable { piece: 1, name: name("b/"), span: 8..10 }));
    assert_eq!(parse_update_targets(" !x "), Err(Refusal::UnknownVariable { piece: 0, name: name("x"), span: 1..3 }));
    assert_eq!(parse_operator(" !@rx\x0ba"), Err(Refusal::UnknownOperator { place: 3, name: name("rx\x0ba"), span: 3..7 }));
    assert_eq!(parse_operator("@"), Err(Refusal::UnknownOperator { place: 1, name: name(""), span: 1..1 }));
    let shown = parse_actions("bogus").map_err(|refusal| refusal.to_string());
    assert_eq!(shown, Err(name("unknown action 'bogus' in piece 0")));
}

/// What is underlined: pieces without blanks at their ends, with their marks, over what is taken out.
#[test]
fn sources_are_told() {
    let list = " deny ,de\\\n  ny,\\\r\n\tt:a";
    let told: Vec<&str> = parse_actions(list).expect("a list").iter().map(|action| &list[action.source.clone()]).collect();
    assert_eq!(told, ["deny", "de\\\n  ny", "t:a"]);
    let list = " !a |&TX:k| args\t";
    for targets in [parse_variables(list), parse_update_targets(&list.replace("!a", "!ip"))] {
        let targets = targets.expect("a list");
        let more = targets.exclusions[0].len() - 1;
        assert_eq!(targets.exclusions[0].source, 1..3 + more);
        let told: Vec<Range<usize>> = targets.variables.iter().map(|variable| variable.source.clone()).collect();
        assert_eq!(told, [5 + more..10 + more, 12 + more..16 + more]);
    }
}

/// What a host has that lends by itself.
#[test]
fn refusals_are_told_by_what_was_left() {
    assert_eq!(Refusal::from_raw(0, &[], b"", b""), None);
    assert_eq!((Refusal::from_raw(18, &[1], b"", b""), Refusal::from_raw_package(9, &[0], b"", b"")), (None, None));
    assert_eq!(Refusal::from_raw(8, &[1, 2, raw::SPAN_BASE + 2], b"@no x", b"").map(|refusal| refusal.span()), Some(Some(1..3)));
    // values that did not fit were not stored
    assert!(Refusal::from_raw(5, &[], b"bogus", b"bogus").is_some());
    let numbers: Vec<u64> = (0..99).filter_map(|n| Refusal::from_raw(n, &[0; 10], b"x", b"x")).map(|refusal| refusal.number()).collect();
    assert_eq!(numbers, [1, 2, 3, 4, 5, 7, 8, 9, 10, 11, 12]);
    let numbers = (0..99).filter_map(|n| Refusal::from_raw_package(n, &[0; 10], b"x", b"x")).map(|refusal| refusal.number());
    assert_eq!(numbers.collect::<Vec<_>>(), [1, 2, 3, 4, 5, 7, 8, 10, 11, 12, 13, 14, 15, 18]);
}

/// Why an argument is refused, by number and in words.
#[test]
fn arguments_have_three_flaws() {
    for list in ["id", "ID", "skipAfter", "setvar", "ctl", "severity"] {
        let action = if list == "ID" { "id" } else { list };
        assert_eq!(parse_actions(list), Err(bad_argument(Flaw::Absent, 0, action, 0..list.len())));
    }
    for argument in ["", "+", "-1", "-99999999999999999999", "99999999999999999999x", "''", "fatal", "1 2"] {
        let list = format!("log,,severity:{argument},bogus");
        assert_eq!(parse_actions(&list), Err(bad_argument(Flaw::Unreadable, 1, "severity", 5..14 + argument.len())), "{list}");
    }
    for list in ["id:+99999999999999999999", "skip:4294967296", "status:65536", "phase:256", "severity:'300'", "accuracy:00256"] {
        let action = list.split(':').next().unwrap_or_default();
        assert_eq!(parse_actions(list), Err(bad_argument(Flaw::TooLarge, 0, action, 0..list.len())), "{list}");
    }
    assert!(parse_actions("expirevar:a=99999999999999999999,setvar:b=+99999999999999999999,severity:\"+0255'").is_ok());
    let told = ["id", "id:", "id:99999999999999999999"].map(|list| parse_actions(list).expect_err(list));
    assert_eq!(told.iter().map(Refusal::number).collect::<Vec<_>>(), [10, 11, 12]);
    assert_eq!(told[0].to_string(), "no argument for 'id' in piece 0");
    assert_eq!(told[1].to_string(), "the argument of 'id' in piece 0 says no number");
    assert_eq!(told[2].to_string(), "the argument of 'id' in piece 0 is too large a number");
}

/// The numbers of every reader on one input.
fn numbers(input: &[u8]) -> Vec<u64> {
    let number = |refusal: Option<Refusal>| refusal.map_or(0, |refusal| refusal.number());
    vec![
        number(tokens(input).err()),
        number(plain_tokens(input).err()),
        number(next_token(input, Cursor::START).err()),
        number(parse_actions(input).err()),
        number(parse_setvar(input).err()),
        number(parse_variables(input).err()),
        number(parse_update_targets(input).err()),
        number(parse_operator(input).err()),
    ]
}

#[test]
fn lengths_and_bytes_are_judged_first() {
    assert_eq!(numbers(b""), [0; 8]);
    assert_eq!(numbers(&vec![b' '; LIMIT]), [0; 8]);
    for len in [LIMIT + 1, 4 << 20] {
        assert_eq!(numbers(&vec![0xff; len]), [1; 8]);
        assert_eq!(list_text(&vec![b' '; len]), "[1,1048576]\n");
    }
    let mut bytes = vec![b' '; LIMIT];
    bytes[LIMIT - 1] = 0x80;
    assert_eq!(numbers(&bytes), [2; 8]);
    assert_eq!(tokens(&bytes), Err(Refusal::NotAscii { place: LIMIT - 1 }));
}

/// Texts with as many records as their length allows, up to the limit, are read with the room that the library asks for.
#[test]
fn rooms_are_as_large_as_is_asked() {
    for len in [1, 2, 3, 7, 8, 100, LIMIT] {
        assert_eq!(tokens(&"\n".repeat(len)).map(|all| all.list.len()), Ok(len));
        assert_eq!(plain_tokens(&"\n".repeat(len)).map(|all| all.list.len()), Ok(len));
        assert_eq!(parse_update_targets(&"TX|".repeat(len / 3)).map(|all| all.variables.len()), Ok(len / 3));
        assert_eq!(parse_variables(&format!("TX{}", "|!".repeat((len - 1) / 2))).map(|all| all.exclusions.len()), Ok((len - 1) / 2));
        assert_eq!(parse_actions(&"t:,".repeat(len / 3)).map(|all| all.len()), Ok(len / 3));
    }
}

/// Texts with many tokens, with long lines, with both and with neither, short and at the limit.
#[test]
fn listings_always_fit() {
    let dense = ["\n", "a\n", "\x01\n", "\"\x01\"", "a'\\", "\x01", "\"\\", "#\n", "word ", "\"\" "];
    for (len, piece) in [0, 8, 40, 500, LIMIT].into_iter().flat_map(|len| dense.map(|piece| (len, piece))) {
        let text = piece.repeat(len / piece.len());
        let (listed, count) = (list_text(&text), tokens(&text).expect("ASCII").list.len());
        assert!(listed.starts_with(if count == 0 { "[]" } else { "[[" }) && listed.ends_with("]\n"), "{piece:?} {len}");
        assert_eq!(listed.matches("],[").count() + 1, count.max(1), "{piece:?} {len}");
        assert!(listed.len() <= 39 * len + 31, "{piece:?} {len}");
    }
    assert_eq!(list_text("\x0c"), "[[\"stopped\",1,1]]\n");
}
