//! A rule's operator.

use crate::lent::{another, size, Values};
use crate::{raw, OperatorName, Refusal};

/// An operator with its argument, which is a part of the input.
#[derive(Clone, Copy, Debug, PartialEq, Eq, Hash)]
pub struct Operator<'a> {
    /// `!@rx`
    pub negated: bool,
    /// Which one; `@rx` where none is written.
    pub name: OperatorName,
    /// What stands behind its name, without blanks at both ends.
    pub argument: &'a str,
    /// Where the argument starts in the input.
    pub place: usize,
}

/// The operator of a rule.
///
/// ```
/// use seclang::{parse_operator, OperatorName, Refusal};
///
/// let operator = parse_operator("!@rx a b")?;
/// assert!(operator.negated);
/// assert_eq!((operator.name, operator.argument, operator.place), (OperatorName::Rx, "a b", 5));
/// assert_eq!(parse_operator("@rxx a"), Err(Refusal::UnknownOperator { place: 1, name: "rxx".to_string(), span: 1..4 }));
/// # Ok::<(), Refusal>(())
/// ```
pub fn parse_operator<'a>(input: &'a (impl AsRef<[u8]> + ?Sized)) -> Result<Operator<'a>, Refusal> {
    let input: &'a [u8] = input.as_ref();
    let mut values = Values::default();
    let number = raw::parse_operator(input, &mut values);
    if number != 0 {
        return Err(Refusal::of(number, &values, input, &[]));
    }
    let [negated, code, place, len, ..] = values;
    let Some(name) = OperatorName::from_code(code) else { another("an operator of the code", code) };
    let place = size(place);
    // what was read is ASCII
    let argument = std::str::from_utf8(&input[place..place + size(len)]).unwrap_or_default();
    Ok(Operator { negated: negated != 0, name, argument, place })
}
