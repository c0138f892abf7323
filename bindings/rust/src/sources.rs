//! What was read, with the part of the input that it was read from.

use crate::lent::span;
use std::ops::{Deref, Range};

/// A thing that was read, and the bytes of the input that it was read from: of a package, where the thing stands in one. An editor
/// underlines these.
///
/// They run from the first byte of its piece to the last, blanks at both ends left out, and over whatever is taken out of it on the
/// way to its text, such as a line's continuation. The thing itself is at hand without naming it: fields and methods, `==`, `as_ref`.
///
/// ```
/// use seclang::{parse_actions, Action};
///
/// let list = "id:7, de\\\n  ny";
/// let actions = parse_actions(list)?;
/// assert_eq!(actions, [Action::Id(7), Action::Deny]);
/// assert_eq!(actions[1].thing, Action::Deny);
/// assert_eq!(&list[actions[1].source.clone()], "de\\\n  ny");
/// # Ok::<(), seclang::Refusal>(())
/// ```
#[derive(Clone, Debug, PartialEq, Eq, Hash)]
pub struct Sourced<T> {
    /// What was read.
    pub thing: T,
    /// The bytes that it was read from.
    pub source: Range<usize>,
}

impl<T> Sourced<T> {
    /// By the last word of a record.
    pub(crate) fn of(thing: T, word: u64) -> Self {
        Sourced { thing, source: span(word) }
    }
}

impl<T> Deref for Sourced<T> {
    type Target = T;

    fn deref(&self) -> &T {
        &self.thing
    }
}

impl<T> AsRef<T> for Sourced<T> {
    fn as_ref(&self) -> &T {
        &self.thing
    }
}

/// The source is not looked at.
impl<T: PartialEq> PartialEq<T> for Sourced<T> {
    fn eq(&self, thing: &T) -> bool {
        self.thing == *thing
    }
}

/// The source is not looked at.
impl PartialEq<&str> for Sourced<String> {
    fn eq(&self, text: &&str) -> bool {
        self.thing == *text
    }
}
