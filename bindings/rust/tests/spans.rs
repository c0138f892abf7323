//! Span words of before version 4, and packages up to the limit, whose spans are past those words.

use seclang::raw::{self, SPAN_BASE};
use seclang::{directives, plain_tokens, span_from_old, span_to_old, tokens, Action, DirectiveKind, Refusal, Version, LIMIT};

const OLD_BASE: u64 = 65_536;

/// A conversion with room for three values that had 7 in them.
fn told(convert: fn(u64, &mut [u64]) -> u64, word: u64) -> (u64, [u64; 3]) {
    let mut values = [7; 3];
    (convert(word, &mut values), values)
}

#[test]
fn a_word_too_far_is_refused() {
    for word in [OLD_BASE * OLD_BASE, OLD_BASE * OLD_BASE + 65_535, 1 << 48, 1 << 63, u64::MAX] {
        assert_eq!((span_from_old(word), told(raw::span_from_old, word)), (None, (21, [0, 7, 7])), "{word}");
    }
    let far = [65_536, SPAN_BASE - 1, 65_536 * SPAN_BASE, 65_535 * SPAN_BASE + 65_536, 65_536 * SPAN_BASE + 65_535, u64::MAX];
    for word in far {
        assert_eq!((span_to_old(word), told(raw::span_to_old, word)), (None, (21, [0, 7, 7])), "{word}");
    }
}

#[test]
fn a_word_is_converted() {
    assert_eq!([told(raw::span_from_old, 0), told(raw::span_to_old, 0)], [(0, [0, 7, 7]); 2]);
    assert_eq!(told(raw::span_from_old, 3 * OLD_BASE + 5), (0, [3 * SPAN_BASE + 5, 7, 7]));
    assert_eq!(told(raw::span_to_old, 3 * SPAN_BASE + 5), (0, [3 * OLD_BASE + 5, 7, 7]));
    assert_eq!(span_from_old(u64::from(u32::MAX)), Some(65_535 * SPAN_BASE + 65_535));
    assert_eq!(span_to_old(65_535 * SPAN_BASE + 65_535), Some(u64::from(u32::MAX)));
    // a value that does not fit is not stored
    assert_eq!([raw::span_from_old(9, &mut []), raw::span_to_old(9, &mut []), raw::span_from_old(u64::MAX, &mut [])], [0, 0, 21]);
}

/// Both ways and back, for halves at their edges and some between.
#[test]
fn a_word_comes_back() {
    let halves = || (0..16).flat_map(|bit| [1 << bit, (1 << bit) + 1]).chain((0..65_536).step_by(997)).chain([0, 65_534, 65_535]);
    for (offset, len) in halves().flat_map(|offset| halves().map(move |len| (offset, len))) {
        let (old, new) = (offset * OLD_BASE + len, offset * SPAN_BASE + len);
        assert_eq!((span_from_old(old), span_to_old(new)), (Some(new), Some(old)), "{offset} {len}");
    }
}

/// The records of a list as an old host stored them: every word but codes and numbers is a span or 0, and all of these come back.
#[test]
fn stored_records_are_converted() {
    let list = b"id:7,msg:'a, b',setvar:'tx.a=%{b}',deny,t:none";
    let (mut text, mut scratch, mut records, mut values) = ([0; 64], [0; 64], [0; 35], [0; 10]);
    assert_eq!((raw::parse_actions(list, &mut text, &mut scratch, &mut records, &mut values), values[0]), (0, 5));
    let spans = |record: &[u64]| [record[2], record[3], record[5], record[6]];
    let old: Vec<u64> = records.chunks_exact(7).flat_map(spans).map(|word| span_to_old(word).expect("a short list")).collect();
    assert_eq!(old[old.len() - 1], 40 * OLD_BASE + 6);
    let new: Vec<u64> = old.into_iter().map(|word| span_from_old(word).expect("a stored word")).collect();
    assert_eq!(new, records.chunks_exact(7).flat_map(spans).collect::<Vec<_>>());
}

/// Rules with their numbers as ids, as many as fit, and a comment up to the limit.
fn merged() -> String {
    let rule = |id| format!("SecRule ARGS|!ARGS:p{id} \"@rx a{id}\" \\\n    \"id:{id},phase:1,\\\n    msg:'no. {id}'\"\n");
    let mut package: String = (1..).map(rule).take(12_000).collect();
    assert!(package.len() < LIMIT && 900_000 < package.len());
    package.push('#');
    package.push_str(&"x".repeat(LIMIT - package.len()));
    package
}

#[test]
fn a_package_of_a_mebibyte_is_read_whole() {
    let mut package = merged();
    let read = directives(&package, Version::V2_7).expect("a package at the limit");
    assert_eq!((package.len(), read.len()), (LIMIT, 12_000));
    for (id, directive) in (1..).zip(&read) {
        let DirectiveKind::Rule { targets, operator, actions } = &directive.kind else { panic!("a rule") };
        assert_eq!(directive.line as u64, 3 * id - 2);
        assert!(package[directive.bytes.clone()].starts_with("SecRule") && package[directive.bytes.clone()].ends_with("'\""));
        assert_eq!(actions[..], [Action::Id(id), Action::Phase(1), Action::Msg(format!("no. {id}"))]);
        assert_eq!((operator.argument.as_str(), targets.exclusions[0].as_str()), (&*format!("a{id}"), &*format!("ARGS:p{id}")));
        let sources = [&targets.exclusions[0].source, &targets.variables[0].source, &actions[0].source, &actions[2].source];
        let written = [format!("!ARGS:p{id}"), "ARGS".to_string(), format!("id:{id}"), format!("msg:'no. {id}'")];
        assert_eq!(sources.map(|part| &package[part.clone()]), written);
    }
    package.push('x');
    assert_eq!(directives(&package, Version::V2_7), Err(Refusal::TooLong));
}

#[test]
fn a_word_of_a_mebibyte_is_one() {
    let (word, longer) = ("x".repeat(LIMIT), "x".repeat(LIMIT + 1));
    for read in [tokens(&word), plain_tokens(&word)] {
        let read = read.expect("a text at the limit");
        assert_eq!((read.list.len(), read.list[0].bytes.clone(), read.list[0].text() == word), (1, 0..LIMIT, true));
        assert_eq!((read.stop.place, read.stop.line, read.stop.column), (LIMIT, 1, LIMIT + 1));
    }
    assert_eq!([tokens(&longer), plain_tokens(&longer)], [Err(Refusal::TooLong), Err(Refusal::TooLong)]);
}
