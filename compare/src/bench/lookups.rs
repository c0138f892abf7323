//! The rows of lookups: names as the original's maps spell them, in other letter cases, and names of nothing.

use super::{Needs, Room};
use crate::original;
use crate::ours;
use crate::parser::action::probe::severity;
use crate::parser::operator::OperatorName;
use crate::parser::variable::VariableName;
use std::hint::black_box;

/// A row: the names that are asked for, and the two lookups.
pub struct Lookup {
    pub row: &'static str,
    pub names: Vec<String>,
    pub ours: fn(&[u8], Needs, &mut Room) -> u64,
    pub original: fn(&str),
}

/// A table by its number: its rows' names, and its two lookups.
struct Table {
    number: u64,
    rows: [&'static str; 3],
    ours: fn(&[u8], Needs, &mut Room) -> u64,
    original: fn(&str),
}

const TABLES: [Table; 3] = [
    Table {
        number: 0,
        rows: ["lookup-variables", "lookup-variables-cased", "lookup-variables-unknown"],
        ours: |name, _, _| ours::lookup(0, name),
        original: |name| look(VariableName::from_str(name)),
    },
    Table {
        number: 1,
        rows: ["lookup-operators", "lookup-operators-cased", "lookup-operators-unknown"],
        ours: |name, _, _| ours::lookup(1, name),
        original: |name| look(OperatorName::from_str(name)),
    },
    Table {
        number: 2,
        rows: ["lookup-severities", "lookup-severities-cased", "lookup-severities-unknown"],
        ours: |name, _, _| ours::lookup(2, name),
        original: |name| look(severity(name)),
    },
];

fn look<T>(found: Option<T>) {
    black_box(found);
}

fn turned(letter: char) -> char {
    if letter.is_ascii_lowercase() {
        letter.to_ascii_uppercase()
    } else {
        letter.to_ascii_lowercase()
    }
}

/// All letters in the other case, and every second one.
fn cased(name: &str) -> [String; 2] {
    let second = name.chars().enumerate().map(|(i, letter)| if i % 2 == 0 { letter } else { turned(letter) });
    [name.chars().map(turned).collect(), second.collect()]
}

/// The middle letter another one, the last one another, the last one missing, and one more; in the name's own case.
fn off(name: &str) -> [String; 4] {
    let like = |letter: char| if name.starts_with(|first: char| first.is_ascii_lowercase()) { letter } else { turned(letter) };
    let other = |letter| if letter == like('x') { like('y') } else { like('x') };
    let with_other = |at| name.chars().enumerate().map(|(i, letter)| if i == at { other(letter) } else { letter }).collect();
    let shorter = name[..name.len() - 1].to_string();
    [with_other(name.len() / 2), with_other(name.len() - 1), shorter, format!("{name}{}", like('s'))]
}

impl Table {
    fn has(&self, name: &str) -> bool {
        original::lookup(self.number, name).is_some()
    }

    /// Its names, these in other letter cases, and those with a letter off that are none.
    fn asked(&self) -> [Vec<String>; 3] {
        let known: Vec<&str> = original::names().into_iter().filter(|name| self.has(name)).collect();
        let unknown = known.iter().flat_map(|name| off(name)).filter(|name| !self.has(name));
        [known.iter().map(|name| name.to_string()).collect(), known.iter().flat_map(|name| cased(name)).collect(), unknown.collect()]
    }
}

pub fn lookups() -> Vec<Lookup> {
    let rows = |table: &Table| {
        let (ours, original) = (table.ours, table.original);
        table.rows.into_iter().zip(table.asked()).map(move |(row, names)| Lookup { row, names, ours, original })
    };
    TABLES.iter().flat_map(rows).collect()
}
