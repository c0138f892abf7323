//! What a person reads of each refusal: place, sentence and underlined source, to the byte.

use seclang::{
    directives, next_token, parse_actions, parse_operator, parse_update_targets, parse_variables, raw, Cursor, Refusal, Version, LIMIT,
};

fn in_package(package: &str) -> String {
    directives(package, Version::V2_6).expect_err(package).message("desk.conf", package)
}

fn in_list(list: &str) -> String {
    parse_actions(list).expect_err(list).message("form", list)
}

fn lines(expected: &[&str]) -> String {
    expected.join("\n")
}

/// The first byte past the limit, in its line.
#[test]
fn number_1_is_shown() {
    let package = format!("{}SecMarker m", "#\n".repeat(LIMIT / 2 - 4));
    let said = directives(&package, Version::V2_7).expect_err("too long").message("desk.conf", &package);
    assert_eq!(said, lines(&["desk.conf:524285:9: the input is longer than 1048576 bytes", "SecMarker m", "        ^"]));
}

#[test]
fn number_2_is_shown() {
    let said = in_package("SecMarker m\nSecMarker caf\u{e9} x\n");
    assert_eq!(said, lines(&["desk.conf:2:14: the byte 0xc3 is not ASCII", "SecMarker caf\u{e9} x", "             ^"]));
}

/// A host that lends by itself: short buffers have no place in the text.
#[test]
fn numbers_3_and_4_are_shown() {
    let (input, mut values) = (b"deny,log", [0; 10]);
    let mut told = |texts: usize, words: usize| {
        let (mut text, mut scratch, mut records) = (vec![0; texts], vec![0; texts], vec![0; words]);
        let number = raw::parse_actions(input, &mut text, &mut scratch, &mut records, &mut values);
        let refusal = Refusal::from_raw(number, &values, input, &text).expect("a refusal");
        (refusal.number(), refusal.message("form", input))
    };
    assert_eq!(told(7, 14), (3, "form: a buffer is shorter than the input asks for".to_string()));
    assert_eq!(told(8, 13), (4, "form: room for 2 records is needed".to_string()));
    let package = b"SecRule ARGS a deny";
    let (mut text, mut scratch, mut none, mut variables, mut actions) = ([0; 19], [0; 19], [0; 0], [0; 6], [0; 7]);
    let number = raw::directives(package, false, &mut text, &mut scratch, &mut none, &mut variables, &mut actions, &mut values);
    let refusal = Refusal::from_raw_package(number, &values, package, &text).expect("a refusal");
    let said = "desk.conf: room for 1 directive, 1 variable and 1 action records is needed";
    assert_eq!((refusal.number(), refusal.message("desk.conf", package)), (4, said.to_string()));
}

#[test]
fn number_5_is_shown() {
    let said = in_package("SecMarker m\nSecAction \"id:7, Bogus:1 ,deny\"\n");
    assert_eq!(said, lines(&["desk.conf:2:18: unknown action 'bogus'", "SecAction \"id:7, Bogus:1 ,deny\"", "                 ^~~~~~~"]));
    assert_eq!(in_list("deny,x"), lines(&["form:1:6: unknown action 'x'", "deny,x", "     ^"]));
}

#[test]
fn number_7_is_shown() {
    let said = in_package("SecRule ARGS|&NOPE:k a\n");
    assert_eq!(said, lines(&["desk.conf:1:14: unknown variable 'NOPE'", "SecRule ARGS|&NOPE:k a", "             ^~~~~~~"]));
    let list = "TX|!x";
    let said = parse_update_targets(list).expect_err(list).message("form", list);
    assert_eq!(said, lines(&["form:1:4: unknown variable 'x'", "TX|!x", "   ^~"]));
    let said = parse_variables("&").expect_err("no name").message("form", "&");
    assert_eq!(said, lines(&["form:1:1: unknown variable ''", "&", "^"]));
}

#[test]
fn number_8_is_shown() {
    let said = in_package("SecRule ARGS \"!@rxx a\"");
    assert_eq!(said, lines(&["desk.conf:1:17: unknown operator '@rxx'", "SecRule ARGS \"!@rxx a\"", "                ^~~"]));
    let said = parse_operator(" @nope").expect_err("no operator").message("form", " @nope");
    assert_eq!(said, lines(&["form:1:3: unknown operator '@nope'", " @nope", "  ^~~~"]));
}

/// One mark where a name would stand: within a line, at the end of the text, and at the end of a line.
#[test]
fn no_byte_has_one_mark() {
    let sentence = "no name of an operator behind the @";
    let said = in_package("SecRule ARGS \"@ x\"");
    assert_eq!(said, lines(&[&format!("desk.conf:1:16: {sentence}"), "SecRule ARGS \"@ x\"", "               ^"]));
    assert_eq!(in_package("SecRule ARGS @"), lines(&[&format!("desk.conf:1:15: {sentence}"), "SecRule ARGS @", "              ^"]));
    let said = in_package("SecRule ARGS @\r\nSecMarker m");
    assert_eq!(said, lines(&[&format!("desk.conf:1:15: {sentence}"), "SecRule ARGS @", "              ^"]));
}

#[test]
fn number_9_is_shown() {
    let refusal = next_token("ab", Cursor { place: 3, ..Cursor::START }).expect_err("no cursor");
    assert_eq!(refusal.message("desk.conf", "ab"), "desk.conf: the cursor is no place of the input");
}

#[test]
fn number_10_is_shown() {
    let said = in_package("SecAction log,SKIPAFTER,deny");
    assert_eq!(
        said,
        lines(&["desk.conf:1:15: the action 'skipAfter' must have an argument", "SecAction log,SKIPAFTER,deny", "              ^~~~~~~~~"])
    );
}

#[test]
fn number_11_is_shown() {
    let said = in_package("SecAction \"phase:1,id:'1'\"");
    assert_eq!(
        said,
        lines(&["desk.conf:1:20: the argument of 'id' is no number", "SecAction \"phase:1,id:'1'\"", "                   ^~~~~~"])
    );
    let said = in_list("log,severity:fatal");
    let sentence = "form:1:5: the argument of 'severity' is neither a number nor a severity's name";
    assert_eq!(said, lines(&[sentence, "log,severity:fatal", "    ^~~~~~~~~~~~~~"]));
}

#[test]
fn number_12_is_shown() {
    let largest = [("phase", "255"), ("status", "65535"), ("skip", "4294967295"), ("id", "18446744073709551615"), ("severity", "255")];
    for (action, most) in largest {
        let list = format!("log,{action}:99999999999999999999,deny");
        let sentence = format!("form:1:5: the argument of '{action}' is too large a number: {most} is the largest");
        let marks = format!("    ^{}", "~".repeat(action.len() + 20));
        assert_eq!(in_list(&list), lines(&[&sentence, &list, &marks]));
    }
}

/// The directive's name is underlined, and the sentence tells what it takes and has.
#[test]
fn number_13_is_shown() {
    let said = in_package("SecMarker m\n  secrule ARGS # \"@rx a\"\n");
    assert_eq!(said, lines(&["desk.conf:2:3: secrule takes 2 or 3 arguments, and has 1", "  secrule ARGS # \"@rx a\"", "  ^~~~~~~"]));
    let said = in_package("SecAction deny \\\n  log");
    assert_eq!(said, lines(&["desk.conf:1:1: SecAction takes 1 argument, and has 2", "SecAction deny \\", "^~~~~~~~~"]));
}

#[test]
fn number_14_is_shown() {
    let said = in_package("SecMarker m\nSecMarker a # b\n IncludeOptional x\n");
    assert_eq!(said, lines(&["desk.conf:3:2: no directive takes this text", " IncludeOptional x", " ^~~~~~~~~~~~~~~"]));
    // what a directive takes in the same line is passed over
    let said = in_package("SecMarker \"a\nb\" # c\n'd e'");
    assert_eq!(said, lines(&["desk.conf:3:1: no directive takes this text", "'d e'", "^~~~~"]));
}

#[test]
fn number_15_is_shown() {
    let said = in_package("SecMarker m\n\t\x0c");
    assert_eq!(said, lines(&["desk.conf:2:2: reading stops at a form feed", "\t\u{240c}", "\t^"]));
    let said = in_package("SecMarker m \x0bx");
    assert_eq!(said, lines(&["desk.conf:1:13: reading stops at a vertical tab", "SecMarker m \u{240b}x", "            ^"]));
}

/// The rule's name is underlined.
#[test]
fn number_18_is_shown() {
    let in_newer = |package: &str| directives(package, Version::V2_7).expect_err(package).message("desk.conf", package);
    let said = in_newer("SecAction id:7\n\tsecrule ARGS \"@rx a\" \\\n\t  \"deny\"\n");
    let sentence = "desk.conf:2:2: secrule must have an id from 2.7 on";
    assert_eq!(said, lines(&[sentence, "\tsecrule ARGS \"@rx a\" \\", "\t^~~~~~~"]));
    let said = in_newer("SecAction id:7,chain\nSecAction log\nSecAction deny # x");
    let sentence = "desk.conf:3:1: SecAction must have an id from 2.7 on";
    assert_eq!(said, lines(&[sentence, "SecAction deny # x", "^~~~~~~~~"]));
}

/// Lines, columns and spans past 65,535: a piece in a late line, a long one, and one that runs on from there.
#[test]
fn far_pieces_are_underlined() {
    let before = "SecMarker m\n".repeat(80_000);
    let said = in_package(&format!("{before}SecAction \"id:7,bogus,deny\"\n{}", "# x\n".repeat(9)));
    assert_eq!(said, lines(&["desk.conf:80001:17: unknown action 'bogus'", "SecAction \"id:7,bogus,deny\"", "                ^~~~~"]));
    let said = in_package(&format!("{before}SecAction \"log,\\\n  id:1\\\n    2x\""));
    let shown = ["  id:1\\", "  ^~~~~", "desk.conf:80003:6: up to here", "    2x\"", "    ~^"];
    assert_eq!(said, lines(&[&["desk.conf:80002:3: the argument of 'id' is no number"], &shown[..]].concat()));
    let list = format!("{}msg:a,phase:{}x,deny", "deny,".repeat(20_000), "1".repeat(70_000));
    let (refusal, marks) = (parse_actions(&list).expect_err("no phase"), format!("{}^{}", " ".repeat(100_006), "~".repeat(70_006)));
    assert_eq!((refusal.span(), refusal.number()), (Some(100_006..170_013), 11));
    assert_eq!(refusal.message("form", &list), lines(&["form:1:100007: the argument of 'phase' is no number", &list, &marks]));
}

/// Tabs before and within what is underlined stay tabs under it.
#[test]
fn marks_stand_under_what_they_mark() {
    let said = in_package("\tSecRule\tARGS\t\"@rx a\"\t\"id:a\tb,deny\"");
    assert_eq!(
        said,
        lines(&[
            "desk.conf:1:24: the argument of 'id' is no number",
            "\tSecRule\tARGS\t\"@rx a\"\t\"id:a\tb,deny\"",
            "\t       \t    \t       \t ^~~~\t~"
        ])
    );
}

/// A part over more lines: its front in the first, and where it ends in the last.
#[test]
fn lines_that_go_on_are_shown() {
    let said = in_package("SecAction \"log,\\\n  id:1\\\n    2x,\\\n  deny\"");
    assert_eq!(
        said,
        lines(&[
            "desk.conf:2:3: the argument of 'id' is no number",
            "  id:1\\",
            "  ^~~~~",
            "desk.conf:3:6: up to here",
            "    2x,\\",
            "    ~^"
        ])
    );
    // a mark that is left open: the list runs on to the end
    let said = in_package("SecAction \"id:1\r\nSecMarker m\r\nSecAction log");
    assert_eq!(
        said,
        lines(&[
            "desk.conf:1:12: the argument of 'id' is no number",
            "SecAction \"id:1",
            "           ^~~~",
            "desk.conf:3:13: up to here",
            "SecAction log",
            "~~~~~~~~~~~~^"
        ])
    );
    let said = in_package("SecMarker m\n\"a\n\"");
    assert_eq!(said, lines(&["desk.conf:2:1: no directive takes this text", "\"a", "^~", "desk.conf:3:1: up to here", "\"", "^"]));
}

/// A name with control bytes stays on its line.
#[test]
fn control_bytes_are_pictured() {
    let said = parse_operator("@rx\x0ba").expect_err("no operator").message("form", "@rx\x0ba");
    assert_eq!(said, lines(&["form:1:2: unknown operator '@rx\u{240b}a'", "@rx\u{240b}a", " ^~~~"]));
    assert_eq!(in_list("a\0"), lines(&["form:1:1: unknown action 'a\u{2400}'", "a\u{2400}", "^~"]));
    let said = in_list("a\nb");
    assert_eq!(said, lines(&["form:1:1: unknown action 'a\u{240a}b'", "a", "^", "form:2:1: up to here", "b", "^"]));
}

/// With another text than the one that was refused there is still something to read.
#[test]
fn another_text_is_no_trouble() {
    let refused =
        ["SecAction log,bogus", "\n\n\nSecRule x", "\n\nstray", "\n\n\n\x0c", "SecRule ARGS '@x'", "SecMarker \u{e9}", "\nSecAction log"];
    for package in refused {
        let refusal = directives(package, Version::V2_7).expect_err(package);
        for other in ["", "\n", "x", "a\r\n", "SecMarker m", "\u{e9}\u{e9}\u{e9}", "\t\t\t\t\t\t\t\t\t\t\t\t\t\t\t\t\t\t\t\t"] {
            assert!(refusal.message("desk.conf", other).starts_with("desk.conf:"), "{package:?} {other:?}");
        }
    }
    assert_eq!(Refusal::WrongCount { line: 4 }.message("a", "x"), "a:4: a directive has another count of arguments than it takes");
    assert_eq!(Refusal::IdMissing { line: 4 }.message("a", "x"), "a:4: a rule must have an id from 2.7 on");
    assert_eq!(
        Refusal::Untaken { line: 1 }.message("a", "  SecMarker m "),
        lines(&["a:1:3: no directive takes this text", "  SecMarker m ", "  ^~~~~~~~~~~"])
    );
    assert_eq!(Refusal::Stopped { line: 1 }.message("a", "x"), lines(&["a:1:1: reading stops at a vertical tab or a form feed", "x", "^"]));
}
