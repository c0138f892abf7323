//! Lists of variables and of update targets.

use crate::lent::{another, filled, Room, Texts};
use crate::raw::{self, Filler};
use crate::{Refusal, Sourced, VariableName};

/// What a variable is narrowed to.
#[derive(Clone, Debug, PartialEq, Eq, Hash)]
pub enum Selection {
    /// `ARGS:name`
    Key(String),
    /// `ARGS:/^a/`, without the bars.
    Regex(String),
}

/// A variable of a list.
#[derive(Clone, Debug, PartialEq, Eq, Hash)]
pub struct Variable {
    /// Which one.
    pub name: VariableName,
    /// `&ARGS`: how many there are, and not what they hold.
    pub counted: bool,
    /// What it is narrowed to.
    pub selection: Option<Selection>,
}

/// What a list of variables says.
#[derive(Clone, Debug, Default, PartialEq, Eq, Hash)]
pub struct Targets {
    /// In the order of the list, each read from its whole part, an `&` too.
    pub variables: Vec<Sourced<Variable>>,
    /// What stands behind each `!`, in the order of the list; the `!` is part of the source. In a rule they hold for every variable
    /// of it.
    pub exclusions: Vec<Sourced<String>>,
}

/// Words of a variable's or an exclusion's record, the source the last.
pub(crate) const WIDTH: usize = 6;

impl Targets {
    pub(crate) fn of<'a>(records: impl Iterator<Item = &'a [u64]>, texts: &Texts) -> Self {
        let mut targets = Targets::default();
        for record in records {
            let (text, source) = (|| texts.said(record[4]), record[WIDTH - 1]);
            if record[0] == 2 {
                targets.exclusions.push(Sourced::of(text(), source));
                continue;
            }
            let Some(name) = VariableName::from_code(record[1]) else { another("a variable of the code", record[1]) };
            let selection = match record[3] {
                0 => None,
                1 => Some(Selection::Key(text())),
                2 => Some(Selection::Regex(text())),
                other => another("a selection of the kind", other),
            };
            targets.variables.push(Sourced::of(Variable { name, counted: record[2] != 0, selection }, source));
        }
        targets
    }
}

fn read_targets(input: &[u8], reader: Filler) -> Result<Targets, Refusal> {
    let read = filled(input, Room::of(input, WIDTH), |text, records, values| reader(input, text, records, values))?;
    Ok(Targets::of(read.records(), &read.texts))
}

/// A rule's list of variables. Exclusions are not looked up, and a list of these alone gives nothing.
///
/// ```
/// use seclang::{parse_variables, Refusal, Selection, VariableName};
///
/// let targets = parse_variables("!ARGS:p|args|&TX:/^a/")?;
/// assert_eq!(targets.exclusions, ["ARGS:p"]);
/// assert_eq!(targets.variables[0].name, VariableName::Args);
/// assert!(targets.variables[1].counted);
/// assert_eq!(targets.variables[1].selection, Some(Selection::Regex("^a".to_string())));
/// assert_eq!((targets.exclusions[0].source.clone(), targets.variables[1].source.clone()), (0..7, 13..21));
/// assert_eq!(parse_variables("ARGS|x"), Err(Refusal::UnknownVariable { piece: 1, name: "x".to_string(), span: 5..6 }));
/// # Ok::<(), Refusal>(())
/// ```
pub fn parse_variables(input: &(impl AsRef<[u8]> + ?Sized)) -> Result<Targets, Refusal> {
    read_targets(input.as_ref(), raw::parse_variables)
}

/// The targets of an update, whose exclusions are looked up too.
///
/// ```
/// assert_eq!(seclang::parse_update_targets("!ARGS:p")?.exclusions, ["ARGS:p"]);
/// assert!(seclang::parse_update_targets("!x").is_err());
/// # Ok::<(), seclang::Refusal>(())
/// ```
pub fn parse_update_targets(input: &(impl AsRef<[u8]> + ?Sized)) -> Result<Targets, Refusal> {
    read_targets(input.as_ref(), raw::parse_update_targets)
}

/// What a selection asks for in an XML body.
#[derive(Clone, Copy, Debug, PartialEq, Eq, Hash)]
pub enum XmlTarget {
    /// `XML:/*`: the texts of elements.
    Elements,
    /// `XML://@*`: the values of attributes.
    Attributes,
    /// `XML` alone.
    All,
}

impl XmlTarget {
    /// By a variable's selection; none where it is another.
    ///
    /// ```
    /// use seclang::{parse_variables, XmlTarget};
    ///
    /// let targets = parse_variables("XML:/*")?;
    /// assert_eq!(XmlTarget::of(targets.variables[0].selection.as_ref()), Some(XmlTarget::Elements));
    /// # Ok::<(), seclang::Refusal>(())
    /// ```
    pub fn of(selection: Option<&Selection>) -> Option<Self> {
        let (kind, text) = match selection {
            None => (0, ""),
            Some(Selection::Key(text)) => (1, text.as_str()),
            Some(Selection::Regex(text)) => (2, text.as_str()),
        };
        match raw::xml_target(kind, text.as_bytes()) {
            0 => Some(XmlTarget::Elements),
            1 => Some(XmlTarget::Attributes),
            2 => Some(XmlTarget::All),
            _ => None,
        }
    }
}
