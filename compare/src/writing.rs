//! Writing action lists by document 02 (M-109), a second model: one fixed spelling of the original's own actions, and what does not read
//! back told by the original's own reader. Which words no reader makes is told by a walk over them here.

use crate::original::{self, LIMIT};
use crate::parser::action::{
    parse_actions, Action, ControlAction, DataAction, DisruptiveAction, FlowAction, LoggingAction, MetadataAction, SetVarSpec, SetVarValue,
};
use crate::readers::ACTION_WORDS;
use crate::spans::{halves, BASE};

mod edges;
mod random;
mod records;

pub use edges::{edges, limits};
pub use random::{changed, list, List};
pub use records::{laid, Said};

/// What records come to with any room: their spelling, or the first record that fails.
pub type Written = Result<String, usize>;

// ---- spelling

/// In single marks, or in double ones where a single one is in the text.
fn marked(text: &str) -> String {
    let mark = if text.contains('\'') { '"' } else { '\'' };
    format!("{mark}{text}{mark}")
}

/// A setvar's whole specification, in marks.
fn set(spec: &SetVarSpec) -> String {
    let variable = format!("{}.{}", spec.collection, spec.key);
    marked(&match &spec.value {
        SetVarValue::Delete => format!("!{variable}"),
        SetVarValue::String(text) if text == "1" => variable,
        SetVarValue::String(text) | SetVarValue::Macro(text) => format!("{variable}={text}"),
        SetVarValue::Int(n) => format!("{variable}={n}"),
        SetVarValue::Increment(n) => format!("{variable}=+{n}"),
        SetVarValue::Decrement(n) => format!("{variable}=-{n}"),
    })
}

/// An action's name, the first that the original matches, and its argument where it has one.
fn parts(action: &Action) -> (&'static str, Option<String>) {
    use {DataAction as D, DisruptiveAction as X, FlowAction as F, LoggingAction as L, MetadataAction as M};
    let text = |text: &String| Some(text.clone());
    match action {
        Action::Disruptive(X::Deny) => ("deny", None),
        Action::Disruptive(X::Block) => ("block", None),
        Action::Disruptive(X::Pass) => ("pass", None),
        Action::Disruptive(X::Allow) => ("allow", None),
        Action::Disruptive(X::Drop) => ("drop", None),
        Action::Disruptive(X::Redirect(a)) => ("redirect", text(a)),
        Action::Flow(F::Chain) => ("chain", None),
        Action::Flow(F::Skip(n)) => ("skip", Some(n.to_string())),
        Action::Flow(F::SkipAfter(a)) => ("skipafter", text(a)),
        Action::Flow(F::MultiMatch) => ("multimatch", None),
        Action::Metadata(M::Id(n)) => ("id", Some(n.to_string())),
        Action::Metadata(M::Phase(n)) => ("phase", Some(n.to_string())),
        Action::Metadata(M::Severity(n)) => ("severity", Some(n.to_string())),
        Action::Metadata(M::Msg(a)) => ("msg", Some(marked(a))),
        Action::Metadata(M::Tag(a)) => ("tag", Some(marked(a))),
        Action::Metadata(M::Rev(a)) => ("rev", Some(marked(a))),
        Action::Metadata(M::Ver(a)) => ("ver", Some(marked(a))),
        Action::Metadata(M::Maturity(n)) => ("maturity", Some(n.to_string())),
        Action::Metadata(M::Accuracy(n)) => ("accuracy", Some(n.to_string())),
        Action::Metadata(M::LogData(a)) => ("logdata", Some(marked(a))),
        Action::Metadata(M::Status(n)) => ("status", Some(n.to_string())),
        Action::Data(D::SetVar(spec)) => ("setvar", Some(set(spec))),
        Action::Data(D::Capture) => ("capture", None),
        Action::Data(D::InitCol { collection, key }) => ("initcol", Some(format!("{collection}={key}"))),
        Action::Data(D::ExpireVar { var, seconds }) => ("expirevar", Some(format!("{var}={seconds}"))),
        Action::Logging(L::Log) => ("log", None),
        Action::Logging(L::NoLog) => ("nolog", None),
        Action::Logging(L::AuditLog) => ("auditlog", None),
        Action::Logging(L::NoAuditLog) => ("noauditlog", None),
        Action::Logging(L::SanitiseMatched) => ("sanitisematched", None),
        Action::Control(c) => ("ctl", Some(format!("{}={}", c.directive, c.value))),
        Action::Transformation(a) => ("t", text(a)),
        other => unreachable!("no record is {other:?}"),
    }
}

fn spelled(action: &Action) -> String {
    match parts(action) {
        (name, None) => name.to_string(),
        (name, Some(argument)) => format!("{name}:{argument}"),
    }
}

// ---- words

/// The text buffer, and where the texts so far end; the first may begin anywhere.
struct Texts<'a> {
    buffer: &'a [u8],
    reached: Option<usize>,
}

impl Texts<'_> {
    /// A text that stands right behind the one before, within the buffer and within what a span word can tell, in ASCII.
    fn next(&mut self, word: u64) -> Option<String> {
        let (first, len) = halves(word);
        let past = first + len;
        if self.reached.is_some_and(|reached| reached != first) || BASE as usize <= past {
            return None;
        }
        self.reached = Some(past);
        let text = self.buffer.get(first..past)?;
        std::str::from_utf8(text).ok().filter(|text| text.is_ascii()).map(str::to_string)
    }
}

/// The places of the words that an action has behind its code; none where there is no such action.
fn used(code: u64, kind: u64) -> Option<&'static [usize]> {
    match (code, kind) {
        (1..=5 | 7 | 10 | 23 | 26..=30, _) => Some(&[]),
        (8 | 11..=13 | 18 | 19 | 21, _) => Some(&[1]),
        (6 | 9 | 14..=17 | 20 | 32, _) => Some(&[2]),
        (24 | 31, _) => Some(&[2, 3]),
        (25, _) => Some(&[1, 2]),
        (22, 1 | 6) => Some(&[2, 3, 4, 5]),
        (22, 2..=4) => Some(&[1, 2, 3, 4]),
        (22, 5) => Some(&[2, 3, 4]),
        _ => None,
    }
}

/// Those of them that show a text.
pub fn text_places(code: u64, kind: u64) -> Vec<usize> {
    used(code, kind).unwrap_or(&[]).iter().copied().filter(|place| [2, 3, 5].contains(place)).collect()
}

fn setting(record: &[u64], texts: &mut Texts) -> Option<SetVarSpec> {
    let (collection, key, amount) = (texts.next(record[2])?, texts.next(record[3])?, record[1] as i64);
    let value = match record[4] {
        1 => SetVarValue::String(texts.next(record[5])?),
        2 => SetVarValue::Int(amount),
        3 => SetVarValue::Increment(amount),
        4 => SetVarValue::Decrement(amount),
        5 => SetVarValue::Delete,
        _ => SetVarValue::Macro(texts.next(record[5])?),
    };
    Some(SetVarSpec { collection, key, value })
}

/// The action that a record stands for: each number within its width, each text in its place, and each word that is not used 0.
fn action(record: &[u64], texts: &mut Texts) -> Option<Action> {
    use {DataAction as D, DisruptiveAction as X, FlowAction as F, LoggingAction as L, MetadataAction as M};
    let (code, number, has) = (record[0], record[1], used(record[0], record[4])?);
    // the last word, the source, is not looked at
    if (1..ACTION_WORDS - 1).any(|place| record[place] != 0 && !has.contains(&place)) {
        return None;
    }
    let byte = || u8::try_from(number).ok();
    let mut a = || texts.next(record[2]);
    Some(match code {
        1 => Action::Disruptive(X::Deny),
        2 => Action::Disruptive(X::Block),
        3 => Action::Disruptive(X::Pass),
        4 => Action::Disruptive(X::Allow),
        5 => Action::Disruptive(X::Drop),
        6 => Action::Disruptive(X::Redirect(a()?)),
        7 => Action::Flow(F::Chain),
        8 => Action::Flow(F::Skip(u32::try_from(number).ok()?)),
        9 => Action::Flow(F::SkipAfter(a()?)),
        10 => Action::Flow(F::MultiMatch),
        11 => Action::Metadata(M::Id(number)),
        12 => Action::Metadata(M::Phase(byte()?)),
        13 => Action::Metadata(M::Severity(byte()?)),
        14 => Action::Metadata(M::Msg(a()?)),
        15 => Action::Metadata(M::Tag(a()?)),
        16 => Action::Metadata(M::Rev(a()?)),
        17 => Action::Metadata(M::Ver(a()?)),
        18 => Action::Metadata(M::Maturity(byte()?)),
        19 => Action::Metadata(M::Accuracy(byte()?)),
        20 => Action::Metadata(M::LogData(a()?)),
        21 => Action::Metadata(M::Status(u16::try_from(number).ok()?)),
        22 => Action::Data(D::SetVar(setting(record, texts)?)),
        23 => Action::Data(D::Capture),
        24 => Action::Data(D::InitCol { collection: a()?, key: texts.next(record[3])? }),
        25 => Action::Data(D::ExpireVar { var: a()?, seconds: number }),
        26 => Action::Logging(L::Log),
        27 => Action::Logging(L::NoLog),
        28 => Action::Logging(L::AuditLog),
        29 => Action::Logging(L::NoAuditLog),
        30 => Action::Logging(L::SanitiseMatched),
        31 => Action::Control(ControlAction { directive: a()?, value: texts.next(record[3])? }),
        32 => Action::Transformation(a()?),
        _ => return None,
    })
}

/// The actions of all whole records up to the first that is none.
fn actions(words: &[u64], text: &[u8]) -> Vec<Action> {
    let mut texts = Texts { buffer: text, reached: None };
    words.chunks_exact(ACTION_WORDS).map_while(|record| action(record, &mut texts)).collect()
}

// ---- what reads back

/// Whether the original reads these actions out of a text.
fn reads(text: &str, actions: &[Action]) -> bool {
    parse_actions(text).is_ok_and(|read| original::same(&read, actions))
}

/// Whether an action's spelling reads back alone, and before another where one follows: a mark or a bracket that is open takes that in.
fn stands(alone: &str, action: &Action, followed: bool) -> bool {
    let deny = Action::Disruptive(DisruptiveAction::Deny);
    reads(alone, &[action.clone()]) && (!followed || reads(&format!("{alone},deny"), &[action.clone(), deny]))
}

/// The first record that fails by itself, or at which the limit is passed.
fn first_failing(count: usize, actions: &[Action], spelled: &[String]) -> Option<usize> {
    let mut len = 0;
    for at in 0..count {
        let Some(alone) = spelled.get(at) else { return Some(at) };
        len += alone.len() + usize::from(0 < at);
        if LIMIT < len || !stands(alone, &actions[at], at + 1 < count) {
            return Some(at);
        }
    }
    None
}

/// What whole records come to. The paper's sentence is about the list: all its records are made by a reader, and its spelling, within
/// the limit, reads back to it. That must be so exactly where no record fails.
pub fn written(words: &[u64], text: &[u8]) -> Written {
    let (count, actions) = (words.len() / ACTION_WORDS, actions(words, text));
    let spelled: Vec<String> = actions.iter().map(spelled).collect();
    let (whole, failing) = (spelled.join(","), first_failing(count, &actions, &spelled));
    let is_written = actions.len() == count && whole.len() <= LIMIT && reads(&whole, &actions);
    assert_eq!(is_written, failing.is_none(), "the list {whole:?} and its records, of which {failing:?} fails, say another thing");
    failing.map_or(Ok(whole), Err)
}

/// The records and texts of a spelling, as the original reads it; a source stands behind no record.
pub fn read_again(spelling: &str) -> original::Outcome {
    original::records(&parse_actions(spelling).expect("a spelling that reads back"))
}
