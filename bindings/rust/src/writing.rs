//! Actions back to the text of a list.

use crate::actions::WIDTH;
use crate::lent::{another, said, size, NO_ROOM};
use crate::{raw, Action, SetVarValue, LIMIT};
use std::fmt;

/// Why a list of actions was not written.
#[derive(Clone, Copy, Debug, PartialEq, Eq, Hash)]
pub struct NotWritten {
    /// The first action that fails, counted from 0: no reader gives such a one, it would be read back as another, or the list passes
    /// [`LIMIT`] bytes with it.
    pub action: usize,
}

impl NotWritten {
    /// What [`raw::write_actions`] refused, by its number and the values that it left: the first record that fails. None for any other
    /// number than 19. A value that is not there counts as 0.
    ///
    /// ```
    /// use seclang::{raw, NotWritten};
    ///
    /// // a deny, and a code that is none
    /// let (mut out, mut values) = ([1; 8], [0]);
    /// let number = raw::write_actions(&[1, 0, 0, 0, 0, 0, 0, 33, 0, 0, 0, 0, 0, 0], &[], &mut out, &mut values);
    /// assert_eq!(NotWritten::from_raw(number, &values), Some(NotWritten { action: 1 }));
    /// assert_eq!(out, [0; 8]);
    /// ```
    pub fn from_raw(number: u64, values: &[u64]) -> Option<Self> {
        (number == 19).then(|| NotWritten { action: size(values.first().copied().unwrap_or_default()) })
    }

    /// The library's number for it.
    pub fn number(&self) -> u64 {
        19
    }
}

impl fmt::Display for NotWritten {
    fn fmt(&self, out: &mut fmt::Formatter<'_>) -> fmt::Result {
        write!(out, "action {} would not be read back as it is", self.action)
    }
}

impl std::error::Error for NotWritten {}

impl Action {
    /// Its texts, each with the word of its record that shows it, in their order.
    fn texts(&self) -> Vec<(usize, &str)> {
        match self {
            Action::Redirect(a) | Action::SkipAfter(a) | Action::Msg(a) | Action::Tag(a) | Action::Rev(a) => vec![(2, a)],
            Action::Ver(a) | Action::LogData(a) | Action::Transformation(a) => vec![(2, a)],
            Action::ExpireVar { variable, .. } => vec![(2, variable)],
            Action::InitCol { collection, key } => vec![(2, collection), (3, key)],
            Action::Control { directive, value } => vec![(2, directive), (3, value)],
            Action::SetVar(set) => match &set.value {
                SetVarValue::String(text) | SetVarValue::Macro(text) => vec![(2, &set.collection), (3, &set.key), (5, text)],
                _ => vec![(2, &set.collection), (3, &set.key)],
            },
            _ => Vec::new(),
        }
    }

    /// Its record without a source, its texts behind those that are there.
    fn record(&self, texts: &mut Vec<u8>) -> [u64; WIDTH] {
        let kind = if let Action::SetVar(set) = self { set.value.kind().code() } else { 0 };
        let mut record = [self.code().code(), self.number(), 0, 0, kind, 0, 0];
        for (place, text) in self.texts() {
            // a longer one is past the limit by itself, and its span need not tell by how much
            let text = &text.as_bytes()[..text.len().min(LIMIT + 1)];
            record[place] = texts.len() as u64 * raw::SPAN_BASE + text.len() as u64;
            texts.extend_from_slice(text);
        }
        record
    }
}

/// Records and texts, up to those that pass the limit by their texts alone.
fn laid(actions: &[impl AsRef<Action>]) -> (Vec<u64>, Vec<u8>) {
    let (mut records, mut texts) = (Vec::new(), Vec::new());
    for action in actions {
        records.extend(action.as_ref().record(&mut texts));
        if LIMIT < texts.len() {
            break;
        }
    }
    (records, texts)
}

/// Actions as the text of a list, in one fixed spelling, which is read back as these actions.
///
/// Names are in small letters and numbers in decimal. Texts stand as they are; those of msg, tag, rev, ver and logdata, and a setvar as
/// a whole, stand in single marks, or in double ones where there is a single one in them. What stands in a rule goes in quotation marks
/// of the rule's own, whose escapes are the rule's.
///
/// It is refused where the text would not be read back as these actions: where a reader gives no such action, as a phase of 256, or a
/// text in it would be taken for something else, as a comma in a transformation. Actions of a list that was read are always written
/// where no text has a quotation mark, a backslash, a comma or a round bracket, and what is written is within [`LIMIT`] bytes.
///
/// ```
/// use seclang::{parse_actions, write_actions, Action, NotWritten};
///
/// let mut actions = parse_actions("id:7,\\\n  phase:2, deny,msg:\"it's here\",severity:'CRITICAL',setvar:TX.a=+5")?;
/// assert_eq!(write_actions(&actions)?, "id:7,phase:2,deny,msg:\"it's here\",severity:2,setvar:'tx.a=+5'");
///
/// actions[2].thing = Action::Redirect("https://example.org/no".to_string());
/// actions[3].thing = Action::Msg("gone".to_string());
/// assert_eq!(write_actions(&actions[1..4])?, "phase:2,redirect:https://example.org/no,msg:'gone'");
///
/// assert_eq!(write_actions(&[Action::Deny, Action::Phase(256)]), Err(NotWritten { action: 1 }));
/// assert_eq!(write_actions(&[Action::Transformation("none,deny".to_string())]), Err(NotWritten { action: 0 }));
/// # Ok::<(), Box<dyn std::error::Error>>(())
/// ```
pub fn write_actions(actions: &[impl AsRef<Action>]) -> Result<String, NotWritten> {
    let ((records, texts), mut values) = (laid(actions), [0]);
    // some bytes for what stands around a text, which are enough but for many numbers
    let mut out = vec![0; (texts.len() + 24 * (records.len() / WIDTH)).min(LIMIT)];
    let mut number = raw::write_actions(&records, &texts, &mut out, &mut values);
    if number == NO_ROOM {
        out = vec![0; size(values[0])];
        number = raw::write_actions(&records, &texts, &mut out, &mut values);
    }
    match number {
        0 => Ok(said(&out[..size(values[0])])),
        _ => Err(NotWritten::from_raw(number, &values).unwrap_or_else(|| another("the number", number))),
    }
}
