//! Whole directives as Rust types: what each takes, the order of faults, and what the crate lends at the edges.

use seclang::{
    directives, Action, DirectiveKind, Flaw, OperatorName, Refusal, RuleOperator, Selection, SetVar, SetVarValue, Sourced, Targets,
    Variable, VariableName, Version, LIMIT,
};
use std::ops::Range;

const VERSIONS: [Version; 2] = [Version::V2_6, Version::V2_7];

fn kinds(package: &str) -> Vec<DirectiveKind> {
    let read = directives(package, Version::V2_6).unwrap_or_else(|refusal| panic!("{package:?}: {refusal}"));
    read.into_iter().map(|directive| directive.kind).collect()
}

fn refusal(package: &str) -> Refusal {
    directives(package, Version::V2_6).expect_err(package)
}

fn inside(line: usize, why: Refusal) -> Refusal {
    Refusal::InDirective { line, why: Box::new(why) }
}

fn name(text: &str) -> String {
    text.to_string()
}

fn at<T>(source: Range<usize>, thing: T) -> Sourced<T> {
    Sourced { thing, source }
}

fn variable(source: Range<usize>, name: VariableName, selection: Option<Selection>) -> Sourced<Variable> {
    at(source, Variable { name, counted: false, selection })
}

#[test]
fn a_directive_takes_what_stands_behind_it() {
    let rx = |argument: &str| RuleOperator { negated: false, name: OperatorName::Rx, argument: name(argument) };
    let args = || Targets { variables: vec![variable(8..12, VariableName::Args, None)], exclusions: Vec::new() };
    let rule = |operator, actions| DirectiveKind::Rule { targets: args(), operator, actions };
    assert_eq!(kinds("SecRule ARGS\"@rx a\"\"deny\""), [rule(rx("a"), vec![at(20..24, Action::Deny)])]);
    assert_eq!(kinds("sec"), [DirectiveKind::Unknown(name("sec"))]);
    assert_eq!(kinds("SecMarker \" a \""), [DirectiveKind::Marker(name(" a "))]);
    assert_eq!(kinds("Include \"a\" b # c\n"), [DirectiveKind::Unknown(name("Include"))]);
    assert_eq!(
        kinds("secrule ARGS a\nSECMARKER m\nSecAction deny\nSecDefaultAction 'phase:1,log'"),
        [
            rule(rx("a"), Vec::new()),
            DirectiveKind::Marker(name("m")),
            DirectiveKind::Action(vec![at(37..41, Action::Deny)]),
            DirectiveKind::Defaults(vec![at(60..67, Action::Phase(1)), at(68..71, Action::Log)]),
        ]
    );
    let empty = DirectiveKind::Rule { targets: Targets::default(), operator: rx(""), actions: Vec::new() };
    assert_eq!(kinds("SecRule \"\" \"\""), [empty]);
    assert_eq!(kinds(" \n# x\n"), []);
}

#[test]
fn a_rule_has_all_its_parts() {
    let set = SetVar { collection: name("tx"), key: name("y"), value: SetVarValue::String(name("1")) };
    let variables = vec![variable(11..15, VariableName::Tx, Some(Selection::Key(name("k")))), variable(16..20, VariableName::Args, None)];
    let rule = DirectiveKind::Rule {
        targets: Targets { variables, exclusions: vec![at(8..10, name("a"))] },
        operator: RuleOperator { negated: true, name: OperatorName::Pm, argument: name("x") },
        actions: vec![at(31..39, Action::SetVar(set))],
    };
    assert_eq!(kinds("SecRule !a|TX:k|ARGS \"!@pm x \" setvar:y"), [rule]);
}

/// Pieces are underlined in the package, over what lexer and normaliser take out of them.
#[test]
fn sources_are_in_the_package() {
    let told = |package: &'static str| {
        let read = directives(package, Version::V2_6).expect(package);
        read.iter().flat_map(|directive| directive.actions()).map(|action| &package[action.source.clone()]).collect::<Vec<_>>()
    };
    assert_eq!(told("SecAction \"msg:a\\,deny\""), ["msg:a\\", "deny"]);
    assert_eq!(told("SecAction \"\\tdeny\\n,log \""), ["deny", "log"]);
    assert_eq!(told("SecAction \"de\\\\\n  ny\""), ["de\\\\\n  ny"]);
    assert_eq!(told("SecAction \"deny\\\\\\n,log\""), ["deny", "log"]);
    assert_eq!(told("SecMarker m\nSecAction \"msg:\\\"a\\\",\\\n  t:b\" # c"), ["msg:\\\"a\\\"", "t:b"]);
    assert_eq!(told("SecAction de\\\nny,\\\r\nlog"), ["de\\\nny", "log"]);
}

#[test]
fn lines_and_bytes_are_told() {
    let package = "#\n\n  SecAction \\\n  'log'  # x\nsec";
    let read = directives(package, Version::V2_6).expect("a package");
    let told: Vec<(usize, &str)> = read.iter().map(|d| (d.line, &package[d.bytes.clone()])).collect();
    assert_eq!(told, [(3, "SecAction \\\n  'log'"), (5, "sec")]);
}

#[test]
fn counts_strays_and_stops_are_refused() {
    for package in
        ["SecRule ARGS \\\nsecond", "SecAction deny SecAction log", "SecRule ARGS\x0c", "SecRule x\nSecAction bogus", "SecMarker"]
    {
        assert_eq!(refusal(package), Refusal::WrongCount { line: 1 }, "{package:?}");
    }
    for (package, line) in [("SecRule ARGS \"@rx a\" \\\n# why\n\"deny\"", 3), ("\\SecMarker x", 1), ("IncludeOptional x", 1)] {
        assert_eq!(refusal(package), Refusal::Untaken { line }, "{package:?}");
    }
    assert_eq!(refusal("SecAction deny\n\x0c"), Refusal::Stopped { line: 2 });
    assert_eq!(refusal("SecRule &TX:'/a/' \"@gt 0\" deny"), Refusal::WrongCount { line: 1 });
    assert_eq!(refusal("\nx").to_string(), "line 2: a text that no directive takes");
}

#[test]
fn an_argument_is_refused_with_its_line() {
    let unknown = |piece, said: &str, span| Refusal::UnknownAction { piece, name: name(said), span };
    assert_eq!(refusal("SecAction bogus\nSecRule x"), inside(1, unknown(0, "bogus", 10..15)));
    assert_eq!(refusal("\n\nSecAction \\\n\"deny,\\\n bogus\""), inside(3, unknown(1, "bogus", 23..28)));
    assert_eq!(refusal("SecRule ARGS|Nope @x x"), inside(1, Refusal::UnknownVariable { piece: 1, name: name("Nope"), span: 13..17 }));
    assert_eq!(refusal("SecAction bogus").number(), 5);
    assert_eq!(refusal("\nSecAction bogus").to_string(), "line 2: unknown action 'bogus' in piece 0");
}

#[test]
fn an_argument_of_an_action_has_its_flaw() {
    let bad = |line, flaw, piece, action, span| inside(line, Refusal::BadArgument { flaw, piece, action: name(action), span });
    assert_eq!(refusal("SecAction id"), bad(1, Flaw::Absent, 0, "id", 10..12));
    assert_eq!(refusal("\nSecRule TX a log,SKIPAFTER"), bad(2, Flaw::Absent, 1, "skipAfter", 18..27));
    for list in ["id:", "id:-99999999999999999999", "id:99999999999999999999x", "id:\\\n1x"] {
        let span = 10..10 + list.len();
        assert_eq!(refusal(&format!("SecAction {list}")), bad(1, Flaw::Unreadable, 0, "id", span), "{list}");
    }
    assert_eq!(refusal("SecAction \"id:'1'\""), bad(1, Flaw::Unreadable, 0, "id", 11..17));
    // the mark that is left open takes the line feed into the argument
    assert_eq!(refusal("SecAction \"id:1\nSecAction log"), bad(1, Flaw::Unreadable, 0, "id", 11..29));
    assert_eq!(refusal("SecAction id:+99999999999999999999"), bad(1, Flaw::TooLarge, 0, "id", 10..34));
    assert_eq!(refusal("#\nSecDefaultAction \"log,severity:'300'\""), bad(2, Flaw::TooLarge, 1, "severity", 24..38));
    assert!(directives("SecAction expirevar:a=99999999999999999999,setvar:b=+99999999999999999999", Version::V2_6).is_ok());
    let told = ["SecAction id", "SecAction id:", "SecAction phase:256"].map(refusal);
    assert_eq!(told.iter().map(Refusal::number).collect::<Vec<_>>(), [10, 11, 12]);
    assert_eq!(told[2].to_string(), "line 1: the argument of 'phase' in piece 0 is too large a number");
}

/// The name of an operator is read again, since nothing is left of it in what was lent.
#[test]
fn an_operator_is_refused_by_name() {
    let unknown = |place, said: &str, span| Refusal::UnknownOperator { place, name: name(said), span };
    assert_eq!(refusal("SecRule ARGS \"@x\" x"), inside(1, unknown(1, "x", 15..16)));
    assert_eq!(refusal("SecMarker m\n\nSecRule ARGS \"\\t!@Nope y\""), inside(3, unknown(3, "Nope", 31..35)));
    assert_eq!(refusal("SecRule ARGS '@'"), inside(1, unknown(1, "", 15..15)));
    assert_eq!(refusal("SecRule \\\n ARGS \\\n \"@within1 a\""), inside(1, unknown(1, "within1", 21..28)));
    // as it is read, and as it is written
    assert_eq!(refusal("SecRule ARGS \"@no\\\n  p\\\"e y\""), inside(1, unknown(1, "nop\"e", 15..25)));
}

#[test]
fn lengths_and_bytes_are_judged_first() {
    for version in VERSIONS {
        assert_eq!(directives(&vec![b'x'; LIMIT + 1], version), Err(Refusal::TooLong));
        assert_eq!(directives("SecAction deny\nSecRule é", version), Err(Refusal::NotAscii { place: 23 }));
        assert_eq!(directives(&vec![b'\n'; LIMIT], version), Ok(Vec::new()));
        assert_eq!(directives("", version), Ok(Vec::new()));
    }
}

/// Packages with as many records as their length allows are read with the room that the library asks for.
#[test]
fn rooms_are_as_large_as_is_asked() {
    let read = |package: String| directives(&package, Version::V2_6).expect("a package");
    for len in [11, 12, 13, 40, 500, LIMIT] {
        assert_eq!(read("sec\n".repeat(len / 4)).len(), len / 4);
        let [rule] = &read(format!("SecRule TX{}\"", "|!".repeat((len - 11) / 2)))[..] else { panic!("one rule") };
        let DirectiveKind::Rule { targets, .. } = &rule.kind else { panic!("a rule") };
        assert_eq!(targets.exclusions.len(), (len - 11) / 2);
        let acting = read(format!("SecAction t:{}", ",t:".repeat((len.max(12) - 12) / 3)));
        assert_eq!(acting[0].actions().len(), 1 + (len.max(12) - 12) / 3);
    }
}

/// A directive's parts are those that tokens and the single readers give.
#[test]
fn the_parts_are_the_single_readers() {
    let list = "id:7,phase:1,msg:'a, b',setvar:'tx.a=+5',t:none";
    let package = format!("SecRule ARGS|!ARGS:p \"!@rx a b\" \"{list}\"\nSecAction \"{list}\"\n");
    let read = directives(&package, Version::V2_7).expect("a package");
    let actions = seclang::parse_actions(list).expect("a list");
    for (directive, first) in read.iter().zip([package.find(list), package.rfind(list)]) {
        let first = first.expect("the list");
        let moved = |action: &Sourced<Action>| at(action.source.start + first..action.source.end + first, action.thing.clone());
        assert_eq!(directive.actions(), actions.iter().map(moved).collect::<Vec<_>>());
    }
    let DirectiveKind::Rule { targets, operator, .. } = &read[0].kind else { panic!("a rule") };
    let single = seclang::parse_variables("ARGS|!ARGS:p").expect("a list");
    assert_eq!((targets.variables[0].thing.clone(), targets.variables[0].source.clone()), (single.variables[0].thing.clone(), 8..12));
    assert_eq!((targets.exclusions[0].as_str(), targets.exclusions[0].source.clone()), ("ARGS:p", 13..20));
    assert_eq!((targets.variables.len(), targets.exclusions.len()), (single.variables.len(), single.exclusions.len()));
    let single = seclang::parse_operator("!@rx a b").expect("an operator");
    assert_eq!((operator.negated, operator.name, operator.argument.as_str()), (single.negated, single.name, single.argument));
}

/// What 2.7 refuses for a rule without an id, 2.6 reads or refuses for something else.
fn missed(package: &str) -> usize {
    match directives(package, Version::V2_7) {
        Err(Refusal::IdMissing { line }) => line,
        other => panic!("{package:?}: {other:?}"),
    }
}

/// Whether both read a package, to the same directives: how many these are.
fn read_by_both(package: &str) -> usize {
    let [older, newer] = VERSIONS.map(|version| directives(package, version).expect(package));
    assert_eq!(older, newer, "{package:?}");
    newer.len()
}

#[test]
fn a_rule_must_have_an_id_from_2_7_on() {
    let packages =
        ["SecAction deny", "SecRule ARGS a", "SecRule ARGS a 'chain'", "SecAction ''", "SecAction \"msg:'id:1'\"", "SecRule ARGS id:1"];
    for package in packages {
        assert_eq!((missed(package), kinds(package).len()), (1, 1), "{package:?}");
    }
    assert_eq!((missed("#\n\nSecAction id:1\n\nsecrule ARGS a deny"), missed("SecAction id:1\nSecAction \\\n log")), (5, 2));
    assert_eq!(
        (read_by_both("SecAction id:0"), read_by_both("SECRULE ARGS a ID:7,log"), read_by_both("SecAction log,id:1,id:2")),
        (1, 1, 1)
    );
    assert_eq!(read_by_both("SecMarker a\nSecDefaultAction log\nSecRuleEngine On\nSecAction id:1"), 4);
}

#[test]
fn a_chain_goes_on_without_ids() {
    assert_eq!(read_by_both("SecAction chain,id:1\nSecMarker a\nSecAction deny"), 3);
    assert_eq!(read_by_both("SecAction chain,id:1\nSecAction chain\nSecAction deny"), 3);
    assert_eq!(read_by_both("SecAction id:1,chain"), 1);
    let between = "# c\nSecMarker a\nSecDefaultAction chain,log\nInclude x\n\n";
    assert_eq!(read_by_both(&format!("SecRule ARGS a 'id:1,Chain'\n{between}SecRule ARGS b")), 5);
    assert_eq!(missed(&format!("SecRule ARGS a 'id:1,chain'\n{between}SecRule ARGS b\nSecRule ARGS c")), 8);
    assert_eq!(missed("SecDefaultAction chain\nSecAction deny"), 2);
    assert_eq!(missed("SecAction id:1,chain\nSecAction log\nSecAction deny"), 3);
    assert_eq!(missed("SecAction id:1,chain\nSecAction id:2\nSecAction deny"), 3);
}

/// With its directive's own faults before it, and before all that comes later.
#[test]
fn a_missing_id_comes_in_its_place() {
    let faults =
        ["SecRule x", "SecAction bogus", "SecRule nope a", "SecRule TX @x", "SecAction id", "SecAction id:x", "SecAction phase:256"];
    for (fault, number) in faults.into_iter().zip([13, 5, 7, 8, 10, 11, 12]).chain([("x", 14), ("\x0c", 15)]) {
        for package in [fault.to_string(), format!("SecAction id:1\n{fault}\nSecAction deny")] {
            let [older, newer] = VERSIONS.map(|version| directives(&package, version).expect_err(fault));
            assert_eq!((older.number(), older), (number, newer), "{package:?}");
        }
        let package = format!("SecAction deny\n{fault}");
        assert_eq!((missed(&package), refusal(&package).number()), (1, number), "{package:?}");
    }
    let refusal = directives("\nSecAction deny", Version::V2_7).expect_err("no id");
    assert_eq!((refusal.number(), refusal.line(), refusal.span()), (18, Some(2), None));
    assert_eq!(refusal.to_string(), "line 2: a rule without an id, which it must have from 2.7 on");
}

/// A package that takes more room than was lent first is read again for the same version.
#[test]
fn room_is_asked_for_in_either() {
    let rules = "SecAction t:,t:,t:,t:,t:,t:,t:\n".repeat(50);
    assert_eq!((missed(&rules), kinds(&rules).len()), (1, 50));
    let chained = rules.replace("t:\n", "chain\n");
    assert_eq!(read_by_both(&format!("SecAction id:1,chain\n{chained}")), 51);
    assert_eq!(missed(&format!("SecAction id:1,chain\n{chained}SecAction log\nSecAction log\n")), 53);
}
