//! Span words that a host stored before version 4, when their base was 65,536.

use crate::lent::another;
use crate::raw;

/// The word that a conversion gives; none for 21.
fn converted(convert: fn(u64, &mut [u64]) -> u64, word: u64) -> Option<u64> {
    let mut values = [0];
    match convert(word, &mut values) {
        0 => Some(values[0]),
        21 => None,
        number => another("the number", number),
    }
}

/// A span word of version 3 or before, offset * 65,536 + length, as one of this version, offset * [`SPAN_BASE`](raw::SPAN_BASE) +
/// length. None where the offset is above 65,535. 0 stays 0, so that words of a record that are not used may be converted with the rest.
///
/// ```
/// use seclang::raw::SPAN_BASE;
/// use seclang::span_from_old;
///
/// assert_eq!(span_from_old(7 * 65_536 + 4), Some(7 * SPAN_BASE + 4));
/// assert_eq!(span_from_old(0), Some(0));
/// assert_eq!(span_from_old(65_536 * 65_536), None);
/// ```
pub fn span_from_old(word: u64) -> Option<u64> {
    converted(raw::span_from_old, word)
}

/// A span word of this version as one of version 3 or before, for a host that has not moved on. None where the offset or the length is
/// above 65,535.
///
/// ```
/// use seclang::raw::SPAN_BASE;
/// use seclang::{span_from_old, span_to_old};
///
/// assert_eq!(span_to_old(7 * SPAN_BASE + 4), Some(7 * 65_536 + 4));
/// assert_eq!(span_to_old(7 * SPAN_BASE + 65_536), None);
/// assert_eq!(span_from_old(196_613).and_then(span_to_old), Some(196_613));
/// ```
pub fn span_to_old(word: u64) -> Option<u64> {
    converted(raw::span_to_old, word)
}
