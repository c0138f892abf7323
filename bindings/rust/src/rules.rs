//! What a rule's actions come to, and selectors of rules by id.

use crate::actions::WIDTH;
use crate::{raw, Action};

/// Records with what grade, phase and index look at: codes and numbers.
pub(crate) fn records(actions: &[impl AsRef<Action>]) -> Vec<u64> {
    let words = |action: &Action| -> [u64; WIDTH] { [action.code().code(), action.number(), 0, 0, 0, 0, 0] };
    actions.iter().flat_map(|action| words(action.as_ref())).collect()
}

/// A rule's phase: the first that its actions name, else 2.
///
/// ```
/// assert_eq!(seclang::phase(&seclang::parse_actions("id:7,phase:4")?), 4);
/// assert_eq!(seclang::phase(&[seclang::Action::Deny]), 2);
/// # Ok::<(), seclang::Refusal>(())
/// ```
pub fn phase(actions: &[impl AsRef<Action>]) -> u64 {
    raw::phase(&records(actions))
}

/// The house grade: at most one id, which is not 0, phases 1 to 5, severities up to 7, maturities and accuracies 1 to 9.
///
/// ```
/// assert!(seclang::grade(&seclang::parse_actions("id:7,phase:5")?));
/// assert!(!seclang::grade(&seclang::parse_actions("id:7,phase:6")?));
/// # Ok::<(), seclang::Refusal>(())
/// ```
pub fn grade(actions: &[impl AsRef<Action>]) -> bool {
    raw::grade(&records(actions))
}

/// Which rules are meant, by their ids.
#[derive(Clone, Copy, Debug, PartialEq, Eq, Hash)]
pub enum RuleIdSelector {
    /// This one.
    Single(u64),
    /// From the first to the second, both included.
    Range(u64, u64),
}

impl RuleIdSelector {
    /// Whether it takes an id.
    ///
    /// ```
    /// use seclang::RuleIdSelector;
    /// assert!(RuleIdSelector::Range(10, 20).matches(20));
    /// ```
    pub fn matches(self, id: u64) -> bool {
        let (ranged, start, end) = self.told();
        raw::matches(ranged, start, end, id)
    }

    /// As the library is told it: whether it is a range, its start and its end.
    pub(crate) fn told(self) -> (bool, u64, u64) {
        match self {
            RuleIdSelector::Single(start) => (false, start, 0),
            RuleIdSelector::Range(start, end) => (true, start, end),
        }
    }
}
