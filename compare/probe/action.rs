//! A child of the original's `action`, which sees what is private there.

use super::{Action, SetVarSpec};
use crate::error::Result;

pub fn setvar(text: &str) -> Result<SetVarSpec> {
    super::parse_setvar(text)
}

pub fn single(text: &str) -> Result<Action> {
    super::parse_single_action(text)
}

pub fn normalised(text: &str) -> String {
    super::normalize_line_continuations(text)
}

pub fn severity(word: &str) -> Option<u8> {
    super::parse_severity(word)
}
