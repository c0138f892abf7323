//! What the original gives, as document 01's numbers, values, texts and records; the original knows no spans of actions and variables.

use crate::error::{Error, SourceLocation};
use crate::flaws::{self, SEVERITIES};
use crate::parser::action::{
    parse_actions, probe as acting, Action, DataAction, DisruptiveAction, FlowAction, LoggingAction, MetadataAction, SetVarSpec,
    SetVarValue,
};
use crate::parser::directive::{RuleIdSelector, SecRule};
pub use crate::parser::lexer::probe::{Cursor, START};
use crate::parser::operator::{all as operators, parse_operator, probe as operating, OperatorName, OperatorSpec};
use crate::parser::variable::{all as variables, probe as targeting, VariableName};
use crate::spans::between;

mod targets;
mod tokens;

pub use targets::{copies, updates_behind, variables_behind, xml_target, COPIES};
pub use tokens::{listing, step, tokens};

/// The longest input.
pub const LIMIT: usize = 1_048_576;

/// What a text comes to past the checks on it: number 0 with values, texts and records, or one from 5 on with its values and the name.
#[derive(Clone, Debug, Default, PartialEq)]
pub struct Outcome {
    pub number: u64,
    pub values: Vec<u64>,
    pub texts: Vec<u8>,
    pub words: Vec<u64>,
}

impl Outcome {
    /// One more text behind the others, as a span word.
    pub fn push(&mut self, text: &str) -> u64 {
        let word = between(self.texts.len(), self.texts.len() + text.len());
        self.texts.extend_from_slice(text.as_bytes());
        word
    }

    fn refused(number: u64, piece: usize, name: String) -> Self {
        Outcome { number, values: vec![piece as u64, name.len() as u64], texts: name.into_bytes(), words: Vec::new() }
    }
}

// ---- actions

fn setvar_words(spec: &SetVarSpec, out: &mut Outcome) -> [u64; 6] {
    let (a, b) = (out.push(&spec.collection), out.push(&spec.key));
    let (kind, number, c) = match &spec.value {
        SetVarValue::String(text) => (1, 0, out.push(text)),
        SetVarValue::Int(n) => (2, *n as u64, 0),
        SetVarValue::Increment(n) => (3, *n as u64, 0),
        SetVarValue::Decrement(n) => (4, *n as u64, 0),
        SetVarValue::Delete => (5, 0, 0),
        SetVarValue::Macro(text) => (6, 0, out.push(text)),
    };
    [22, number, a, b, kind, c]
}

fn action_words(action: &Action, out: &mut Outcome) -> [u64; 6] {
    use {DataAction as D, DisruptiveAction as X, FlowAction as F, LoggingAction as L, MetadataAction as M};
    let plain = |code, number| [code, number, 0, 0, 0, 0];
    match action {
        Action::Disruptive(X::Deny) => plain(1, 0),
        Action::Disruptive(X::Block) => plain(2, 0),
        Action::Disruptive(X::Pass) => plain(3, 0),
        Action::Disruptive(X::Allow) => plain(4, 0),
        Action::Disruptive(X::Drop) => plain(5, 0),
        Action::Disruptive(X::Redirect(a)) => [6, 0, out.push(a), 0, 0, 0],
        Action::Flow(F::Chain) => plain(7, 0),
        Action::Flow(F::Skip(n)) => plain(8, u64::from(*n)),
        Action::Flow(F::SkipAfter(a)) => [9, 0, out.push(a), 0, 0, 0],
        Action::Flow(F::MultiMatch) => plain(10, 0),
        Action::Metadata(M::Id(n)) => plain(11, *n),
        Action::Metadata(M::Phase(n)) => plain(12, u64::from(*n)),
        Action::Metadata(M::Severity(n)) => plain(13, u64::from(*n)),
        Action::Metadata(M::Msg(a)) => [14, 0, out.push(a), 0, 0, 0],
        Action::Metadata(M::Tag(a)) => [15, 0, out.push(a), 0, 0, 0],
        Action::Metadata(M::Rev(a)) => [16, 0, out.push(a), 0, 0, 0],
        Action::Metadata(M::Ver(a)) => [17, 0, out.push(a), 0, 0, 0],
        Action::Metadata(M::Maturity(n)) => plain(18, u64::from(*n)),
        Action::Metadata(M::Accuracy(n)) => plain(19, u64::from(*n)),
        Action::Metadata(M::LogData(a)) => [20, 0, out.push(a), 0, 0, 0],
        Action::Metadata(M::Status(n)) => plain(21, u64::from(*n)),
        Action::Data(D::SetVar(spec)) => setvar_words(spec, out),
        Action::Data(D::Capture) => plain(23, 0),
        Action::Data(D::InitCol { collection, key }) => [24, 0, out.push(collection), out.push(key), 0, 0],
        Action::Data(D::ExpireVar { var, seconds }) => [25, *seconds, out.push(var), 0, 0, 0],
        Action::Logging(L::Log) => plain(26, 0),
        Action::Logging(L::NoLog) => plain(27, 0),
        Action::Logging(L::AuditLog) => plain(28, 0),
        Action::Logging(L::NoAuditLog) => plain(29, 0),
        Action::Logging(L::SanitiseMatched) => plain(30, 0),
        Action::Control(c) => [31, 0, out.push(&c.directive), out.push(&c.value), 0, 0],
        Action::Transformation(a) => [32, 0, out.push(a), 0, 0, 0],
        other => unreachable!("the original never makes {other:?}"),
    }
}

/// The pieces of a normalised list, cut once more here: the original's errors do not say which piece was bad.
fn pieces(list: &str) -> impl Iterator<Item = &str> {
    let (mut mark, mut depth) = (None, 0usize);
    let cut = move |c: char| {
        match (mark, c) {
            (None, '"' | '\'') => mark = Some(c),
            (None, '(') => depth += 1,
            (None, ')') => depth = depth.saturating_sub(1),
            (None, ',') => return depth == 0,
            (Some(m), _) if m == c => mark = None,
            _ => {}
        }
        false
    };
    list.split(cut).map(str::trim).filter(|piece| !piece.is_empty())
}

/// The number and the name for a piece: the original has one error for an argument, and the model says which of the three it is.
fn action_refusal(error: Error, piece: &str) -> (u64, String) {
    match error {
        Error::UnknownAction { name } => (5, name),
        Error::InvalidActionArgument { action, .. } => (flaws::flaw(piece).expect("the paper refuses it too"), action),
        other => unreachable!("{other:?}"),
    }
}

pub fn normalised(text: &str) -> String {
    acting::normalised(text)
}

/// The records and texts of actions, each without its source.
pub fn records(actions: &[Action]) -> Outcome {
    let mut out = Outcome::default();
    for action in actions {
        let words = action_words(action, &mut out);
        out.words.extend(words);
    }
    out
}

/// Whether two lists are the same actions, which the original does not compare: by their records and texts.
pub fn same(one: &[Action], other: &[Action]) -> bool {
    one.len() == other.len() && records(one) == records(other)
}

/// The records of an action list behind what `out` has, or its refusal.
pub fn actions_behind(out: &mut Outcome, text: &str) -> Result<usize, Outcome> {
    match parse_actions(text) {
        Ok(list) => {
            for action in &list {
                let words = action_words(action, out);
                out.words.extend(words);
            }
            Ok(list.len())
        }
        Err(error) => {
            let list = normalised(text);
            let bad = pieces(&list).enumerate().find_map(|(i, piece)| acting::single(piece).err().map(|again| (i, piece, again)));
            let (place, piece, again) = bad.expect("a piece is bad");
            let told = action_refusal(error, piece);
            assert_eq!(told, action_refusal(again, piece), "the pieces are cut another way than the original's");
            Err(Outcome::refused(told.0, place, told.1))
        }
    }
}

pub fn setvar(text: &str) -> Outcome {
    let mut out = Outcome::default();
    let words = setvar_words(&acting::setvar(text).expect("it refuses nothing"), &mut out);
    out.words.extend(words);
    out.values = vec![1, out.texts.len() as u64];
    out
}

/// A rule, where its actions are read.
pub fn rule(text: &str) -> Option<SecRule> {
    let operator = OperatorSpec { negated: false, name: OperatorName::Rx, argument: String::new() };
    let actions = parse_actions(text).ok()?;
    Some(SecRule { variables: Vec::new(), operator, actions, location: SourceLocation::default() })
}

pub fn matches(ranged: bool, start: u64, end: u64, id: u64) -> bool {
    if ranged { RuleIdSelector::Range(start, end) } else { RuleIdSelector::Single(start) }.matches(id)
}

// ---- operators

/// With 0, where the argument stands: it ends where the trimmed text does.
pub fn operator(text: &str) -> Outcome {
    let first = text.len() - text.trim_start().len();
    let past = first + text.trim().len();
    match parse_operator(text) {
        Ok(spec) => {
            let (place, len) = (past - spec.argument.len(), spec.argument.len());
            assert_eq!(text[place..past], spec.argument, "the argument is no part of the text");
            Outcome { values: vec![u64::from(spec.negated), spec.name as u64, place as u64, len as u64], ..Outcome::default() }
        }
        Err(Error::UnknownOperator { name }) => {
            let place = text.find('@').expect("a name is written") + 1;
            assert_eq!(text[place..place + name.len()], name, "the name is no part of the text");
            Outcome { number: 8, values: vec![place as u64, name.len() as u64], ..Outcome::default() }
        }
        Err(other) => unreachable!("{other:?}"),
    }
}

// ---- names and codes

/// 0 variables, 1 operators, 2 severity words.
pub fn lookup(table: u64, name: &str) -> Option<u64> {
    match table {
        0 => VariableName::from_str(name).map(|v| v as u64),
        1 => OperatorName::from_str(name).map(|o| o as u64),
        // the original reads a number first, which is no word
        2 if name.bytes().any(|b| b.is_ascii_digit()) => None,
        2 => acting::severity(name).map(u64::from),
        _ => None,
    }
}

pub fn names() -> Vec<&'static str> {
    [targeting::names(), operating::names(), SEVERITIES.to_vec()].concat()
}

/// 0 is_collection, 1 is_implemented, 2 requires_argument.
pub fn test(test: u64, code: u64) -> bool {
    let code = usize::try_from(code).unwrap_or(usize::MAX);
    match test {
        0 => variables::ALL.get(code).is_some_and(|v| v.is_collection()),
        1 => variables::ALL.get(code).is_some_and(|v| v.is_implemented()),
        2 => operators::ALL.get(code).is_some_and(|o| o.requires_argument()),
        _ => false,
    }
}

/// Each code is its variant's place.
pub fn codes_are_places() -> bool {
    variables::ALL.iter().enumerate().all(|(i, v)| *v as usize == i) && operators::ALL.iter().enumerate().all(|(i, o)| *o as usize == i)
}

#[cfg(test)]
mod tests {
    use super::{acting, normalised, pieces};
    use crate::cases::SETS;
    use crate::error::Error;
    use crate::flaws::{flaw, EDGES};
    use crate::readers::Reader;

    fn both_agree(piece: &str) {
        let refused = matches!(acting::single(piece), Err(Error::InvalidActionArgument { .. }));
        assert_eq!(flaw(piece).is_some(), refused, "{piece:?}");
    }

    /// The model refuses an argument exactly where the original does, at each edge and at each piece of each list.
    #[test]
    fn both_refuse_the_same_arguments() {
        EDGES.iter().for_each(|(piece, _)| both_agree(piece));
        for set in SETS.iter().filter(|set| set.readers.contains(&Reader::Actions)) {
            set.each(set.quick, &mut |text| {
                pieces(&normalised(std::str::from_utf8(text).expect("ASCII"))).for_each(both_agree);
                true
            });
        }
    }
}
