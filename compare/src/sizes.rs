//! What a byte costs in inputs of each size, ours and the original's: the same mebibyte of rules and of lists, cut to each size.

use crate::bench::{rows, Inputs, Needs, Room, Row};
use crate::original::{self, LIMIT, START};
use crate::parser::action::probe as acting;
use crate::parser::lexer::Lexer;
use crate::readers::ACTION_WORDS;
use crate::real::{self, closed, repeated};
use crate::{ours, underlined};
use std::hint::black_box;
use std::path::PathBuf;

const SIZES: [usize; 4] = [16_384, 65_536, 262_144, LIMIT];
const NAMES: [&str; 4] = ["16 KB", "64 KB", "256 KB", "1 MiB"];

/// How much more a byte may cost at one size than at another.
const FLAT: f64 = 1.2;

/// The rows that must be flat, in the order of the table.
const FLAT_ROWS: [&str; 11] = [
    "tokens",
    "plain_tokens",
    "directives",
    "parse_actions",
    "write_actions",
    "parse_setvar",
    "parse_variables",
    "parse_variables-excluding",
    "parse_update_targets",
    "parse_operator",
    "list_text",
];

/// What inputs are joined of: whole directives, and lists that are read and closed.
pub struct Parts {
    packages: Vec<String>,
    actions: Vec<String>,
    written: Vec<String>,
    plain: Vec<String>,
    excluding: Vec<String>,
}

impl Parts {
    pub fn of(folders: &[PathBuf]) -> Self {
        let (lists, readable) = (Inputs::of(folders), real::read(folders).readable());
        let text = if readable.is_empty() { lists.packages.concat() } else { readable };
        let read = |list: &String, of: fn(&str) -> original::Outcome| of(list).number == 0;
        let one_more = |list: &String| underlined::actions(&format!("{list},log")).words.len() - underlined::actions(list).words.len();
        Parts {
            packages: closed(&repeated(&text, LIMIT)).into_iter().map(str::to_string).collect(),
            actions: lists.actions.into_iter().filter(|list| read(list, underlined::actions) && one_more(list) == ACTION_WORDS).collect(),
            written: lists.written.into_iter().filter(|list| one_more(list) == ACTION_WORDS).collect(),
            plain: lists.plain.into_iter().filter(|list| read(list, underlined::variables)).collect(),
            excluding: lists.excluding.into_iter().filter(|list| read(list, underlined::updates)).collect(),
        }
    }
}

/// Parts joined again and again to a mebibyte at most, which is cut behind parts to texts of a size.
fn cut(parts: &[String], joint: &str, size: usize) -> Vec<String> {
    let (mut texts, mut all) = (vec![String::new()], 0);
    for part in parts.iter().cycle().take(if parts.is_empty() { 0 } else { LIMIT }) {
        all += part.len() + joint.len();
        if LIMIT < all {
            break;
        }
        let text = texts.last_mut().expect("one is there");
        if text.is_empty() {
            text.push_str(part);
        } else if text.len() + joint.len() + part.len() <= size {
            text.push_str(joint);
            text.push_str(part);
        } else {
            texts.push(part.clone());
        }
    }
    texts
}

/// One text as often as makes a mebibyte.
fn alike(first: &str, again: &str, size: usize) -> Vec<String> {
    let text: String = first.chars().chain(again.chars().cycle()).take(size).collect();
    vec![text; LIMIT / size]
}

/// All inputs of one size.
pub struct OfSize {
    inputs: Inputs,
    settings: Vec<String>,
    first: Vec<String>,
}

impl OfSize {
    pub fn of(parts: &Parts, size: usize) -> Self {
        let packages = cut(&parts.packages, "", size);
        let inputs = Inputs {
            texts: packages.clone(),
            actions: cut(&parts.actions, ",", size),
            written: cut(&parts.written, ",", size),
            plain: cut(&parts.plain, "|", size),
            excluding: cut(&parts.excluding, "|", size),
            operators: alike("@rx ", "(?i)union|select ", size),
            ..Inputs::default()
        };
        let inputs = inputs.read(packages);
        let first = inputs.texts.iter().take(1).cloned().collect();
        OfSize { inputs, settings: alike("tx.key=", "a value ", size), first }
    }

    /// The benchmark's rows on these inputs, and those that it has not.
    pub fn rows(&self) -> Vec<Row<'_>> {
        let mut all = rows(&self.inputs, &[]);
        all.push(Row {
            name: "parse_setvar",
            inputs: &self.settings,
            needs: |_| [ACTION_WORDS, 0, 0, 0],
            ours: set,
            original: Some(|text| drop(black_box(acting::setvar(text)))),
        });
        all.push(Row {
            name: "list_text",
            inputs: &self.inputs.texts,
            needs: |text| [original::tokens(text).words.len(), 0, 0, original::listing(text).0.len() + 1],
            ours: line,
            original: None,
        });
        all.push(Row {
            name: "next_token",
            inputs: &self.first,
            needs: |_| [0; 4],
            ours: |input, _, room| ours::next_token(input, START, &mut room.text[..input.len()], &mut room.values),
            original: Some(|text| drop(black_box(Lexer::new(text).next_token()))),
        });
        all
    }
}

fn set(input: &[u8], [words, ..]: Needs, room: &mut Room) -> u64 {
    ours::parse_setvar(input, &mut room.text[..input.len() + 3], &mut room.records[..words], &mut room.values)
}

fn line(input: &[u8], [words, _, _, bytes]: Needs, room: &mut Room) -> u64 {
    let (text, records) = (&mut room.text[..input.len()], &mut room.records[..words]);
    ours::list_text(input, text, records, &mut room.out[..bytes], &mut room.values)
}

/// Nanoseconds of each side at each size: for each byte, or for a call.
fn costs(sized: &[OfSize], name: &str, of: fn(&Row) -> usize) -> Vec<(f64, Option<f64>)> {
    let cost = |sized: &OfSize| {
        let all = sized.rows();
        let row = all.iter().find(|row| row.name == name).expect("a row");
        let (ours, rust) = row.medians(&mut Room::of(row));
        let over = of(row) as f64;
        (ours / over, rust.map(|rust| rust / over))
    };
    sized.iter().map(cost).collect()
}

/// The most that ours costs over the least.
fn spread(costs: &[(f64, Option<f64>)]) -> f64 {
    let ours = || costs.iter().map(|cost| cost.0);
    ours().fold(0.0, f64::max) / ours().fold(f64::INFINITY, f64::min)
}

fn shown(costs: &[(f64, Option<f64>)], digits: usize) -> String {
    let ours = costs.iter().map(|(ours, _)| format!(" {ours:.digits$} |"));
    let rust = costs.iter().map(|(_, rust)| rust.map_or(" none |".to_string(), |rust| format!(" {rust:.digits$} |")));
    ours.chain(rust).collect()
}

fn head(what: &str, last: &str) {
    let sizes = |side: &str| NAMES.map(|name| format!(" {side}, {name} |")).concat();
    println!(
        "| {what} |{}{}{last}\n|---|{}{}",
        sizes("Ours"),
        sizes("Rust"),
        "---|".repeat(2 * SIZES.len()),
        last.replace(|c| c != '|', "-")
    );
}

/// Whether every row is flat, but for a step, which reads its whole input each time.
pub fn table(folders: &[PathBuf]) -> bool {
    let parts = Parts::of(folders);
    let sized = SIZES.map(|size| OfSize::of(&parts, size));
    let mut steep = Vec::new();
    head("Row, ns a byte", " Most over least |");
    for name in FLAT_ROWS {
        let costs = costs(&sized, name, |row| row.bytes());
        println!("| {name} |{} {:.2} |", shown(&costs, 3), spread(&costs));
        if FLAT < spread(&costs) {
            steep.push(name);
        }
    }
    println!();
    head("Row, ns a step", "");
    println!("| next_token |{}", shown(&costs(&sized, "next_token", |_| 1), 0));
    println!("\nbeyond {FLAT} times: {}", if steep.is_empty() { "none".to_string() } else { steep.join(", ") });
    steep.is_empty()
}

#[cfg(test)]
mod tests {
    use super::{alike, cut, OfSize, Parts, LIMIT, SIZES};

    #[test]
    fn texts_are_of_a_size() {
        let parts = ["deny".to_string(), "log".to_string()];
        for size in SIZES {
            let texts = cut(&parts, ",", size);
            let bytes: usize = texts.iter().map(String::len).sum();
            assert!(texts.iter().all(|text| text.len() <= size) && LIMIT - 16 * texts.len() < bytes && bytes <= LIMIT, "{bytes}");
            // what is left over is a text of its own
            assert!((LIMIT / size..=LIMIT / size + 1).contains(&texts.len()) && (size < LIMIT || texts.len() == 1), "{size}");
            assert_eq!((alike("@rx ", "ab", size).len(), alike("@rx ", "ab", size)[0].len()), (LIMIT / size, size));
        }
        assert_eq!(cut(&[], ",", 100), [""]);
    }

    /// Every input of every row is read.
    #[test]
    fn inputs_are_read() {
        let sized = OfSize::of(&Parts::of(&[]), SIZES[1]);
        let rows = sized.rows();
        assert!(rows.iter().filter(|row| !row.name.starts_with("lookup")).all(|row| 10_000 < row.bytes()), "a row without inputs");
    }
}
