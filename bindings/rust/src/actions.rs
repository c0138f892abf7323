//! Action lists, and a setvar alone.

use crate::lent::{another, filled, Room, Texts};
use crate::{raw, ActionCode, Refusal, Sourced, ValueKind};

/// Words of an action record: code, number, a, b, value kind, c, source.
pub(crate) const WIDTH: usize = 7;

/// An action of a rule. Texts are as the list has them; msg, tag, rev, ver and logdata lose the quotation marks at both ends.
#[allow(missing_docs)]
#[derive(Clone, Debug, PartialEq, Eq, Hash)]
pub enum Action {
    Deny,
    Block,
    Pass,
    Allow,
    Drop,
    Redirect(String),
    Chain,
    Skip(u64),
    SkipAfter(String),
    MultiMatch,
    Id(u64),
    Phase(u64),
    Severity(u64),
    Msg(String),
    Tag(String),
    Rev(String),
    Ver(String),
    Maturity(u64),
    Accuracy(u64),
    LogData(String),
    Status(u64),
    SetVar(SetVar),
    Capture,
    InitCol {
        collection: String,
        key: String,
    },
    ExpireVar {
        variable: String,
        seconds: u64,
    },
    Log,
    NoLog,
    AuditLog,
    /// Nine actions that have no code of their own come to this too: append, deprecatevar, exec, pause, prepend, proxy, setsid,
    /// setuid and xmlns.
    NoAuditLog,
    SanitiseMatched,
    Control {
        directive: String,
        value: String,
    },
    Transformation(String),
}

/// A variable to set, and what to do with it.
#[derive(Clone, Debug, PartialEq, Eq, Hash)]
pub struct SetVar {
    /// In small letters; `tx` where none is written.
    pub collection: String,
    /// As written.
    pub key: String,
    /// What to do.
    pub value: SetVarValue,
}

/// What a setvar does with its variable.
#[derive(Clone, Debug, PartialEq, Eq, Hash)]
pub enum SetVarValue {
    /// Sets it to a text.
    String(String),
    /// Sets it to a number.
    Int(i64),
    /// Adds to it.
    Increment(i64),
    /// Takes from it.
    Decrement(i64),
    /// Removes it.
    Delete,
    /// Sets it to a text with `%{` in it, which is to be filled in.
    Macro(String),
}

impl SetVarValue {
    fn of(kind: u64, number: u64, text: impl Fn() -> String) -> Self {
        // a negative amount is in two's complement
        let amount = number as i64;
        match ValueKind::from_code(kind) {
            Some(ValueKind::String) => SetVarValue::String(text()),
            Some(ValueKind::Int) => SetVarValue::Int(amount),
            Some(ValueKind::Increment) => SetVarValue::Increment(amount),
            Some(ValueKind::Decrement) => SetVarValue::Decrement(amount),
            Some(ValueKind::Delete) => SetVarValue::Delete,
            Some(ValueKind::Macro) => SetVarValue::Macro(text()),
            None => another("a setvar of the kind", kind),
        }
    }

    /// The kind in its record.
    pub fn kind(&self) -> ValueKind {
        match self {
            SetVarValue::String(_) => ValueKind::String,
            SetVarValue::Int(_) => ValueKind::Int,
            SetVarValue::Increment(_) => ValueKind::Increment,
            SetVarValue::Decrement(_) => ValueKind::Decrement,
            SetVarValue::Delete => ValueKind::Delete,
            SetVarValue::Macro(_) => ValueKind::Macro,
        }
    }
}

impl Action {
    pub(crate) fn of(record: &[u64], texts: &Texts) -> Sourced<Self> {
        Sourced::of(Action::said(record, texts), record[WIDTH - 1])
    }

    fn said(record: &[u64], texts: &Texts) -> Self {
        let number = record[1];
        let (a, b, c) = (|| texts.said(record[2]), || texts.said(record[3]), || texts.said(record[5]));
        let Some(code) = ActionCode::from_code(record[0]) else { another("an action of the code", record[0]) };
        match code {
            ActionCode::Deny => Action::Deny,
            ActionCode::Block => Action::Block,
            ActionCode::Pass => Action::Pass,
            ActionCode::Allow => Action::Allow,
            ActionCode::Drop => Action::Drop,
            ActionCode::Redirect => Action::Redirect(a()),
            ActionCode::Chain => Action::Chain,
            ActionCode::Skip => Action::Skip(number),
            ActionCode::SkipAfter => Action::SkipAfter(a()),
            ActionCode::MultiMatch => Action::MultiMatch,
            ActionCode::Id => Action::Id(number),
            ActionCode::Phase => Action::Phase(number),
            ActionCode::Severity => Action::Severity(number),
            ActionCode::Msg => Action::Msg(a()),
            ActionCode::Tag => Action::Tag(a()),
            ActionCode::Rev => Action::Rev(a()),
            ActionCode::Ver => Action::Ver(a()),
            ActionCode::Maturity => Action::Maturity(number),
            ActionCode::Accuracy => Action::Accuracy(number),
            ActionCode::LogData => Action::LogData(a()),
            ActionCode::Status => Action::Status(number),
            ActionCode::SetVar => Action::SetVar(SetVar { collection: a(), key: b(), value: SetVarValue::of(record[4], number, c) }),
            ActionCode::Capture => Action::Capture,
            ActionCode::InitCol => Action::InitCol { collection: a(), key: b() },
            ActionCode::ExpireVar => Action::ExpireVar { variable: a(), seconds: number },
            ActionCode::Log => Action::Log,
            ActionCode::NoLog => Action::NoLog,
            ActionCode::AuditLog => Action::AuditLog,
            ActionCode::NoAuditLog => Action::NoAuditLog,
            ActionCode::SanitiseMatched => Action::SanitiseMatched,
            ActionCode::Control => Action::Control { directive: a(), value: b() },
            ActionCode::Transformation => Action::Transformation(a()),
        }
    }

    /// The code in its record.
    pub fn code(&self) -> ActionCode {
        match self {
            Action::Deny => ActionCode::Deny,
            Action::Block => ActionCode::Block,
            Action::Pass => ActionCode::Pass,
            Action::Allow => ActionCode::Allow,
            Action::Drop => ActionCode::Drop,
            Action::Redirect(_) => ActionCode::Redirect,
            Action::Chain => ActionCode::Chain,
            Action::Skip(_) => ActionCode::Skip,
            Action::SkipAfter(_) => ActionCode::SkipAfter,
            Action::MultiMatch => ActionCode::MultiMatch,
            Action::Id(_) => ActionCode::Id,
            Action::Phase(_) => ActionCode::Phase,
            Action::Severity(_) => ActionCode::Severity,
            Action::Msg(_) => ActionCode::Msg,
            Action::Tag(_) => ActionCode::Tag,
            Action::Rev(_) => ActionCode::Rev,
            Action::Ver(_) => ActionCode::Ver,
            Action::Maturity(_) => ActionCode::Maturity,
            Action::Accuracy(_) => ActionCode::Accuracy,
            Action::LogData(_) => ActionCode::LogData,
            Action::Status(_) => ActionCode::Status,
            Action::SetVar(_) => ActionCode::SetVar,
            Action::Capture => ActionCode::Capture,
            Action::InitCol { .. } => ActionCode::InitCol,
            Action::ExpireVar { .. } => ActionCode::ExpireVar,
            Action::Log => ActionCode::Log,
            Action::NoLog => ActionCode::NoLog,
            Action::AuditLog => ActionCode::AuditLog,
            Action::NoAuditLog => ActionCode::NoAuditLog,
            Action::SanitiseMatched => ActionCode::SanitiseMatched,
            Action::Control { .. } => ActionCode::Control,
            Action::Transformation(_) => ActionCode::Transformation,
        }
    }

    /// The number in its record: 0 where it has none.
    pub fn number(&self) -> u64 {
        match self {
            Action::Skip(n) | Action::Id(n) | Action::Phase(n) | Action::Severity(n) => *n,
            Action::Maturity(n) | Action::Accuracy(n) | Action::Status(n) => *n,
            Action::ExpireVar { seconds, .. } => *seconds,
            Action::SetVar(set) => match set.value {
                SetVarValue::Int(n) | SetVarValue::Increment(n) | SetVarValue::Decrement(n) => n as u64,
                _ => 0,
            },
            _ => 0,
        }
    }
}

impl AsRef<Action> for Action {
    fn as_ref(&self) -> &Action {
        self
    }
}

/// The actions of a list, as it stands in a rule, each with where it stands in the list.
///
/// ```
/// use seclang::{parse_actions, Action, Flaw, Refusal};
///
/// let actions = parse_actions("id:7, t:none, deny")?;
/// assert_eq!(actions, [Action::Id(7), Action::Transformation("none".to_string()), Action::Deny]);
/// assert_eq!(actions[1].source, 6..12);
/// assert_eq!(parse_actions("deny,bogus"), Err(Refusal::UnknownAction { piece: 1, name: "bogus".to_string(), span: 5..10 }));
/// let bad = |flaw, len| Err(Refusal::BadArgument { flaw, piece: 0, action: "id".to_string(), span: 0..len });
/// assert_eq!(parse_actions("id"), bad(Flaw::Absent, 2));
/// assert_eq!(parse_actions("id:'7'"), bad(Flaw::Unreadable, 6));
/// assert_eq!(parse_actions("id:18446744073709551616"), bad(Flaw::TooLarge, 23));
/// # Ok::<(), Refusal>(())
/// ```
pub fn parse_actions(input: &(impl AsRef<[u8]> + ?Sized)) -> Result<Vec<Sourced<Action>>, Refusal> {
    let input = input.as_ref();
    let mut scratch = vec![0; input.len().min(crate::LIMIT)];
    let room = Room::of(input, WIDTH);
    let read = filled(input, room, |text, records, values| raw::parse_actions(input, text, &mut scratch, records, values))?;
    Ok(read.records().map(|record| Action::of(record, &read.texts)).collect())
}

/// What stands behind `setvar:`. Its source is the input without blanks at both ends, and its end where nothing else is there.
///
/// ```
/// use seclang::{parse_setvar, SetVarValue};
///
/// let set = parse_setvar(" TX.score=+5")?;
/// assert_eq!((set.collection.as_str(), set.key.as_str(), &set.value), ("tx", "score", &SetVarValue::Increment(5)));
/// assert_eq!(set.source, 1..12);
/// # Ok::<(), seclang::Refusal>(())
/// ```
pub fn parse_setvar(input: &(impl AsRef<[u8]> + ?Sized)) -> Result<Sourced<SetVar>, Refusal> {
    let input = input.as_ref();
    let room = Room::of_one(input, WIDTH, 3);
    let read = filled(input, room, |text, records, values| raw::parse_setvar(input, text, records, values))?;
    let set = read.records().map(|record| Action::of(record, &read.texts)).next();
    match set {
        Some(Sourced { thing: Action::SetVar(set), source }) => Ok(Sourced { thing: set, source }),
        _ => another("a setvar with records", read.values[0]),
    }
}
