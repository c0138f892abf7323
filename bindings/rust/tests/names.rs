//! Each name and code of the enums against the library's own tables.

use seclang::raw::{lookup, test, UNKNOWN};
use seclang::{
    directives, parse_actions, severity, ActionCode, DirectiveCode, OperatorName, SetVarValue, ValueKind, VariableName, Version,
};

#[test]
fn each_variable_is_found_by_its_name() {
    for (place, variable) in VariableName::ALL.iter().enumerate() {
        assert_eq!(variable.code(), place as u64);
        assert_eq!(VariableName::from_code(variable.code()), Some(*variable));
        if let Some(name) = variable.name() {
            assert_eq!(lookup(0, name.as_bytes()), variable.code(), "{name}");
            assert_eq!(VariableName::find(&name.to_ascii_lowercase()), Some(*variable), "{name}");
            // the one name that is not its variant's
            let plain = if name == "MULTIPART_STRICT_ERROR" { "MULTIPART_STRICT_CHECK" } else { name };
            assert_eq!(plain.replace('_', ""), format!("{variable:?}").to_ascii_uppercase());
        }
    }
    assert_eq!((VariableName::ALL.len(), VariableName::ALL.iter().filter(|v| v.name().is_some()).count()), (92, 76));
}

#[test]
fn each_operator_is_found_by_its_name() {
    for (place, operator) in OperatorName::ALL.iter().enumerate() {
        assert_eq!(operator.code(), place as u64);
        assert_eq!(lookup(1, operator.name().as_bytes()), operator.code(), "{operator:?}");
        assert_eq!(OperatorName::find(&format!("{operator:?}")), Some(*operator));
    }
    assert_eq!(OperatorName::ALL.len(), 39);
}

/// Where the enums end, the library's tables do.
#[test]
fn no_code_is_left_out() {
    let past = |test_number, len: usize| (len as u64..2000).all(|code| !test(test_number, code));
    assert!(past(0, VariableName::ALL.len()) && past(1, VariableName::ALL.len()) && past(2, OperatorName::ALL.len()));
    assert_eq!(VariableName::from_code(92), None);
    assert_eq!(OperatorName::from_code(39), None);
    assert_eq!((ActionCode::from_code(0), ActionCode::from_code(33)), (None, None));
    assert_eq!(ActionCode::from_code(u64::MAX), None);
}

#[test]
fn names_are_told_apart() {
    assert_eq!(lookup(0, b"MULTIPART_STRICT_ERROR"), VariableName::MultipartStrictCheck.code());
    assert_eq!(VariableName::MultipartStrictError.name(), None);
    assert_eq!(lookup(0, b""), UNKNOWN);
    assert!(VariableName::Args.is_collection() && !VariableName::RequestUri.is_collection());
    assert!(VariableName::Args.is_implemented() && !VariableName::Geo.is_implemented());
    assert!(OperatorName::Rx.requires_argument() && !OperatorName::DetectSqli.requires_argument());
    let words = ["emergency", "alert", "critical", "error", "warning", "notice", "info", "debug"];
    assert!(words.iter().enumerate().all(|(number, word)| severity(word) == Some(number as u64)));
    assert_eq!(severity("2"), None);
}

/// One list with an action of every code, in their order.
#[test]
fn each_action_has_its_code() {
    let list = "deny,block,pass,allow,drop,redirect:u,chain,skip:1,skipAfter:m,multiMatch,id:1,phase:1,severity:1,msg:m,tag:t,rev:r,\
                ver:v,maturity:1,accuracy:1,logdata:l,status:1,setvar:a=1,capture,initcol:c=k,expirevar:v=1,log,nolog,auditlog,\
                noauditlog,sanitiseMatched,ctl:d=v,t:none";
    let codes: Vec<ActionCode> = parse_actions(list).expect("a list").iter().map(|action| action.code()).collect();
    assert_eq!(codes, ActionCode::ALL);
}

#[test]
fn each_value_has_its_kind() {
    let kinds: Vec<ValueKind> = ["a=x", "a=1", "a=+1", "a=-1", "!a", "a=%{b}"]
        .map(|text| seclang::parse_setvar(text).expect("a setvar").thing.value)
        .iter()
        .map(SetVarValue::kind)
        .collect();
    assert_eq!(kinds, ValueKind::ALL);
}

/// One package with a directive of every kind, in their order.
#[test]
fn each_directive_has_its_kind() {
    let package = "SecRule ARGS a\nSecAction log\nSecMarker m\nSecDefaultAction log\nSecRuleEngine On\n";
    let read = directives(package, Version::V2_6).expect("a package");
    let codes: Vec<DirectiveCode> = read.iter().map(|directive| directive.code()).collect();
    assert_eq!(codes, DirectiveCode::ALL);
    assert_eq!((DirectiveCode::from_code(0), DirectiveCode::from_code(6)), (None, None));
    assert_eq!(DirectiveCode::Unknown.code(), 5);
}

/// The crate, the library and the header are of one version.
#[test]
fn versions_agree() {
    let header = include_str!("../../../include/seclang.h");
    let said = header.lines().find_map(|line| line.strip_prefix("#define SECLANG_VERSION ")).and_then(|number| number.trim().parse().ok());
    assert_eq!((seclang::version(), said), (seclang::VERSION, Some(seclang::VERSION)));
}
