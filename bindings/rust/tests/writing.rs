//! Actions written back: the edges of one fixed spelling, what is not written, and that whatever is written is read as it was.

use seclang::{
    directives, parse_actions, raw, write_actions, Action, ActionCode, NotWritten, SetVar, SetVarValue, Sourced, Version, LIMIT,
};

fn read(list: &str) -> Vec<Sourced<Action>> {
    parse_actions(list).unwrap_or_else(|refusal| panic!("{list:?}: {refusal}"))
}

/// A list written back, which must be read as the same actions.
fn rewritten(list: &str) -> Result<String, NotWritten> {
    let actions = read(list);
    let written = write_actions(&actions);
    if let Ok(text) = &written {
        let things = |list: &[Sourced<Action>]| list.iter().map(|one| one.thing.clone()).collect::<Vec<_>>();
        assert_eq!(things(&read(text)), things(&actions), "{list:?} and {text:?}");
        assert_eq!(write_actions(&read(text)).as_ref(), Ok(text), "written twice");
    }
    written
}

fn set(collection: &str, key: &str, value: SetVarValue) -> Action {
    Action::SetVar(SetVar { collection: collection.to_string(), key: key.to_string(), value })
}

fn string(text: &str) -> SetVarValue {
    SetVarValue::String(text.to_string())
}

/// Lists, and what is written of them.
const WRITTEN: &[(&str, &str)] = &[
    ("", ""),
    ("msg", "msg:''"),
    ("expirevar", "expirevar:=0"),
    ("redirect:", "redirect:"),
    ("ctl:", "ctl:="),
    ("t:", "t:"),
    ("exec:(a,b)", "noauditlog"),
    ("pause", "noauditlog"),
    ("setsid:x", "noauditlog"),
    ("SanitizeMatched", "sanitisematched"),
    ("skipAfter:x", "skipafter:x"),
    ("setvar:A", "setvar:'tx.A'"),
    ("setvar:a=1", "setvar:'tx.a=1'"),
    ("setvar:a=", "setvar:'tx.a='"),
    ("setvar:", "setvar:'tx.'"),
    ("setvar:a=--5", "setvar:'tx.a=--5'"),
    ("setvar:a=+x", "setvar:'tx.a=+1'"),
    ("setvar:a=+-9223372036854775808", "setvar:'tx.a=+-9223372036854775808'"),
    ("setvar:'!a=B.c=d'", "setvar:'!a=b.c=d'"),
    ("setvar:.", "setvar:'.'"),
    ("setvar:' a = '", "setvar:'tx. a = '"),
    ("setvar:a='x'", "setvar:\"tx.a='x'\""),
    ("msg:\"it's\",log", "msg:\"it's\",log"),
    ("msg:'\n\r '", "msg:'\n\r '"),
    ("ctl:(a,b),log", "ctl:(a,b)=,log"),
    ("redirect:'a,b',log", "redirect:'a,b',log"),
    ("setvar:\"a\"'b',log", "setvar:\"tx.\"a\"'b'\",log"),
    ("msg:'a\\',log", "msg:'a\\',log"),
    ("log,expirevar:'a=5'", "log,expirevar:'a=0"),
];

#[test]
fn lists_are_written_in_one_spelling() {
    for (list, written) in WRITTEN {
        assert_eq!(rewritten(list).as_deref(), Ok(*written), "{list:?}");
    }
}

/// What is read and cannot be written: a mark or a bracket that would stay open, and a continuation that would be made.
#[test]
fn some_lists_that_are_read_are_not_written() {
    for list in ["msg:a'\"'b,log", "expirevar:'a=5',log", "expirevar:(a=5),log", "t:\\\\\n\na"] {
        assert_eq!(rewritten(list), Err(NotWritten { action: 0 }), "{list:?}");
        assert_eq!(rewritten(&format!("log,{list}")), Err(NotWritten { action: 1 }), "{list:?}");
    }
}

#[test]
fn what_no_reader_gives_is_not_written() {
    let text = str::to_string;
    let unwritten = [
        Action::Redirect(text("x ")),
        Action::Msg(text("x'")),
        Action::Tag(text("\"x")),
        Action::Msg(text("\u{e9}")),
        Action::Control { directive: text("a="), value: text("b") },
        Action::InitCol { collection: text("a"), key: text("b ") },
        Action::ExpireVar { variable: text("a=b"), seconds: 5 },
        Action::Transformation(text("a,b")),
        Action::Phase(256),
        Action::Severity(256),
        Action::Status(65_536),
        Action::Skip(1 << 32),
        set("tx", "a", SetVarValue::Int(-5)),
        set("tx", "a", string("5")),
        set("tx", "a", string("01")),
        set("tx", "a", string("+")),
        set("tx", "a", string("%{")),
        set("tx", "a", SetVarValue::Macro(text("x"))),
        set("Tx", "a", string("x")),
        set("t.x", "a", string("x")),
        set("!tx", "a", string("x")),
        set("tx", "a=b", string("x")),
    ];
    for action in unwritten {
        assert_eq!(write_actions(&[action.clone()]), Err(NotWritten { action: 0 }), "{action:?}");
        assert_eq!(write_actions(&[Action::Deny, action.clone(), Action::Log]), Err(NotWritten { action: 1 }), "{action:?}");
    }
}

#[test]
fn what_a_person_makes_is_written() {
    let written = |action| write_actions(&[action]);
    assert_eq!(written(set("tx", "a", string("1"))).as_deref(), Ok("setvar:'tx.a'"));
    assert_eq!(written(set("tx", "a", SetVarValue::Int(1))).as_deref(), Ok("setvar:'tx.a=1'"));
    assert_eq!(written(set("tx", "a", string(""))).as_deref(), Ok("setvar:'tx.a='"));
    assert_eq!(written(set("!tx", "a=b", SetVarValue::Delete)).as_deref(), Ok("setvar:'!!tx.a=b'"));
    assert_eq!(written(set("tx", "a", SetVarValue::Decrement(i64::MIN))).as_deref(), Ok("setvar:'tx.a=--9223372036854775808'"));
    assert_eq!(written(Action::Id(u64::MAX)).as_deref(), Ok("id:18446744073709551615"));
    assert_eq!(write_actions(&[] as &[Action]).as_deref(), Ok(""));
    assert_eq!(NotWritten { action: 3 }.to_string(), "action 3 would not be read back as it is");
    assert_eq!(NotWritten { action: 3 }.number(), 19);
}

/// One list with an action of every code, in their order.
#[test]
fn each_action_is_written_under_its_name() {
    let list = "deny,block,pass,allow,drop,redirect:u,chain,skip:1,skipafter:m,multimatch,id:1,phase:1,severity:1,msg:'m',tag:'t',\
                rev:'r',ver:'v',maturity:1,accuracy:1,logdata:'l',status:1,setvar:'tx.a=1',capture,initcol:c=k,expirevar:v=1,log,nolog,\
                auditlog,noauditlog,sanitisematched,ctl:d=v,t:none";
    assert_eq!(read(list).len(), ActionCode::ALL.len());
    assert_eq!(rewritten(list).as_deref(), Ok(list));
}

/// The texts of a rule in a package stand behind others; one is changed, and the rest stays.
#[test]
fn a_rule_of_a_package_is_written() {
    let package = "SecRule ARGS:k \"@rx a\" \"id:7,msg:'b, c',setvar:d=e\"\nSecAction \"tag:'f',t:g\"";
    let mut list = directives(package, Version::V2_6).expect("a package");
    assert_eq!(write_actions(list[0].actions()).as_deref(), Ok("id:7,msg:'b, c',setvar:'tx.d=e'"));
    assert_eq!(write_actions(list[1].actions()).as_deref(), Ok("tag:'f',t:g"));
    let mut actions: Vec<Action> = list.remove(0).actions().iter().map(|action| action.thing.clone()).collect();
    actions[0] = Action::Id(8);
    actions.insert(1, Action::Log);
    assert_eq!(write_actions(&actions).as_deref(), Ok("id:8,log,msg:'b, c',setvar:'tx.d=e'"));
}

#[test]
fn the_limit_is_kept() {
    let execs = |times: usize| vec![Action::NoAuditLog; times];
    assert_eq!(write_actions(&execs(95_325)).map(|text| text.len()), Ok(1_048_574));
    assert_eq!(write_actions(&execs(95_326)), Err(NotWritten { action: 95_325 }));
    let long = |len: usize| [Action::Deny, Action::Msg("y".repeat(len))];
    assert_eq!(write_actions(&long(LIMIT - 11)).map(|text| text.len()), Ok(LIMIT));
    for len in [LIMIT - 10, LIMIT, LIMIT + 1, LIMIT + 2, 3 * LIMIT] {
        assert_eq!(write_actions(&long(len)), Err(NotWritten { action: 1 }), "{len}");
        assert_eq!(write_actions(&[&long(len)[..], &[Action::Phase(256)]].concat()), Err(NotWritten { action: 1 }), "{len}");
    }
    // more room than is lent at first
    let ids = vec![Action::Id(u64::MAX); 1_000];
    assert_eq!(write_actions(&ids).map(|text| text.len()), Ok(24 * 1_000 - 1));
    let steps = vec![set("tx", "a", SetVarValue::Decrement(i64::MIN)); 1_000];
    assert_eq!(write_actions(&steps).map(|text| text.len()), Ok(36 * 1_000 - 1));
}

/// The library's own function: any room, and values that do not fit.
#[test]
fn lent_memory_is_judged() {
    let (records, text) = ([14, 0, (2 << 32) + 1, 0, 0, 0, 99, 1, 0, 0, 0, 0, 0, 99, 33], b"##a#");
    let write = |room: usize, words: usize| {
        let (mut out, mut values) = (vec![7; room], vec![7; words]);
        (raw::write_actions(&records, text, &mut out, &mut values), out, values)
    };
    assert_eq!(write(14, 2), (0, b"msg:'a',deny\0\0".to_vec(), vec![12, 7]));
    assert_eq!(write(12, 0), (0, b"msg:'a',deny".to_vec(), vec![]));
    assert_eq!(write(11, 1), (4, vec![0; 11], vec![12]));
    assert_eq!(write(0, 1), (4, vec![], vec![12]));
    let mut values = [7];
    assert_eq!((raw::write_actions(&records, b"##", &mut [], &mut values), values), (19, [0]));
    assert_eq!((raw::write_actions(&[], b"", &mut [], &mut values), values), (0, [0]));
}
