//! Speeds on the same inputs in one process: bytes a second, ours and the original's.

use crate::cases::{RULES, SHORT};
use crate::directives::{self, Version};
use crate::original::{self, copies, COPIES};
use crate::parser::action::parse_actions;
use crate::parser::lexer::{Lexer, TokenKind};
use crate::parser::operator::parse_operator;
use crate::parser::variable::{parse_update_targets, parse_variables};
use crate::readers::Reader;
use crate::writing::written;
use crate::{ours, real, sizes, underlined};
use lookups::{lookups, Lookup};
use std::hint::black_box;
use std::path::PathBuf;
use timing::{exact, exact_package, fills};
pub use timing::{Needs, Room, Row};

pub mod index;
mod lookups;
mod timing;

/// The inputs of each row.
#[derive(Default)]
pub struct Inputs {
    pub texts: Vec<String>,
    pub packages: Vec<String>,
    /// Those of the packages that 2.7 reads too.
    pub with_ids: Vec<String>,
    pub actions: Vec<String>,
    /// What is written of those that are read and written back: one that is not ends our work at its fault.
    pub written: Vec<String>,
    pub plain: Vec<String>,
    pub excluding: Vec<String>,
    pub operators: Vec<String>,
}

impl Inputs {
    fn variables(&mut self, list: String) {
        if list.contains('!') {
            self.excluding.push(list)
        } else {
            self.plain.push(list)
        }
    }

    /// The arguments of each rule, by where they stand behind its directive.
    fn rules(&mut self, text: &str) {
        let (mut lexer, mut directive, mut place) = (Lexer::new(text), String::new(), 0);
        while let Some(token) = lexer.next_token() {
            match token.kind {
                TokenKind::Directive(name) => (directive, place) = (name.to_lowercase(), 0),
                TokenKind::Word(said) | TokenKind::QuotedString(said) => {
                    match (directive.as_str(), place) {
                        ("secrule", 0) => self.variables(said),
                        ("secrule", 1) => self.operators.push(said),
                        ("secrule", 2) | ("secaction", 0) => self.actions.push(said),
                        _ => {}
                    }
                    place += 1;
                }
                _ => {}
            }
        }
    }

    /// Packages for both versions: a package that is refused ends both sides' work at its fault, so that only those that are read are
    /// timed.
    pub fn read(self, packages: Vec<String>) -> Self {
        let good = |version| packages.iter().filter(move |text| directives::read(text, version).number == 0).cloned().collect();
        Inputs { with_ids: good(Version::V2_7), packages: good(Version::V2_6), ..self }
    }

    /// With what is written of the action lists.
    fn writing(self) -> Self {
        let read = self.actions.iter().map(|list| underlined::actions(list)).filter(|read| read.number == 0);
        Inputs { written: read.filter_map(|read| written(&read.words, &read.texts).ok()).collect(), ..self }
    }

    /// A few rules, where no folder is named.
    fn small() -> Self {
        let mut inputs = Inputs::default();
        for (reader, rule) in RULES {
            match reader {
                Reader::Tokens => inputs.texts.push(rule.repeat(80)),
                Reader::Actions => inputs.actions.push(rule.to_string()),
                Reader::Variables | Reader::Updates => inputs.variables(rule.to_string()),
                Reader::Operator => inputs.operators.push(rule.to_string()),
                _ => {}
            }
        }
        inputs.plain.push("REQUEST_COOKIES|REQUEST_COOKIES_NAMES|ARGS_NAMES|ARGS|XML:/*".to_string());
        let packages = inputs.texts.clone();
        inputs.writing().read(packages)
    }

    pub fn of(folders: &[PathBuf]) -> Self {
        if folders.is_empty() {
            return Inputs::small();
        }
        let (mut inputs, real) = (Inputs::default(), real::read(folders));
        for text in real.short_texts().into_iter().filter(|text| text.is_ascii()) {
            let text = String::from_utf8(text).expect("ASCII");
            inputs.rules(&text);
            inputs.texts.push(text);
        }
        inputs.writing().read(real.short_packages().into_iter().filter(|text| text.len() <= SHORT).collect())
    }
}

/// One side of a row: a call with what it is lent.
type Ours = fn(&[u8], Needs, &mut Room) -> u64;

fn listed(input: &[u8], [words, ..]: Needs, room: &mut Room) -> u64 {
    let (text, scratch) = (&mut room.text[..input.len()], &mut room.scratch[..input.len()]);
    ours::parse_actions(input, text, scratch, &mut room.records[..words], &mut room.values)
}

/// What a list was read to in the first pass is written.
fn rewritten(input: &[u8], [_, _, _, bytes]: Needs, room: &mut Room) -> u64 {
    if room.read.len() <= room.at {
        room.read.push(underlined::actions(std::str::from_utf8(input).expect("ASCII")));
    }
    let read = &room.read[room.at];
    ours::write_actions(&read.words, &read.texts, &mut room.out[..bytes], &mut room.values)
}

fn whole(input: &[u8], from_2_7: bool, [d, v, a, _]: Needs, room: &mut Room) -> u64 {
    let (text, scratch) = (&mut room.text[..input.len()], &mut room.scratch[..input.len()]);
    let (variables, actions) = (&mut room.variables[..v], &mut room.actions[..a]);
    ours::directives(input, from_2_7, text, scratch, &mut room.records[..d], variables, actions, &mut room.values)
}

fn all_tokens(text: &str) {
    let mut lexer = Lexer::new(text);
    let mut list = Vec::new();
    while let Some(token) = lexer.next_token() {
        list.push(token);
    }
    black_box(list);
}

/// Whole texts: tokens, and whole directives.
fn text_rows(inputs: &Inputs) -> Vec<Row<'_>> {
    let fits: fn(&str) -> Needs = |text| exact(original::tokens(text));
    let tokens: Ours = |input, needs, room| fills(ours::tokens, input, needs, room);
    let plain_tokens: Ours = |input, needs, room| fills(ours::plain_tokens, input, needs, room);
    let (inputs, packages, with_ids) = (&inputs.texts[..], &inputs.packages[..], &inputs.with_ids[..]);
    vec![
        Row { name: "tokens", inputs, needs: fits, ours: tokens, original: Some(all_tokens) },
        Row { name: "tokens-roomy", inputs, needs: |_| [20_480, 0, 0, 0], ours: tokens, original: Some(all_tokens) },
        Row { name: "plain_tokens", inputs, needs: fits, ours: plain_tokens, original: Some(all_tokens) },
        Row {
            name: "directives",
            inputs: packages,
            needs: exact_package,
            ours: |input, needs, room| whole(input, false, needs, room),
            original: Some(|text| drop(black_box(directives::owned(text)))),
        },
        Row {
            name: "directives-2.7",
            inputs: with_ids,
            needs: exact_package,
            ours: |input, needs, room| whole(input, true, needs, room),
            original: Some(|text| drop(black_box(directives::owned_with_ids(text)))),
        },
    ]
}

fn target_rows(inputs: &Inputs) -> Vec<Row<'_>> {
    let variables: Ours = |input, needs, room| fills(ours::parse_variables, input, needs, room);
    let updates: Ours = |input, needs, room| fills(ours::parse_update_targets, input, needs, room);
    let by_variables: Option<fn(&str)> = Some(|text| drop(black_box(parse_variables(text))));
    let by_updates: Option<fn(&str)> = Some(|text| drop(black_box(parse_update_targets(text))));
    let of_variables: fn(&str) -> Needs = |list| exact(underlined::variables(list));
    let few_copies = inputs.excluding.iter().all(|list| copies(list) <= COPIES);
    let excluding = &inputs.excluding[..];
    vec![
        Row { name: "parse_variables", inputs: &inputs.plain, needs: of_variables, ours: variables, original: by_variables },
        Row {
            name: "parse_variables-excluding",
            inputs: excluding,
            needs: of_variables,
            ours: variables,
            original: by_variables.filter(|_| few_copies),
        },
        Row {
            name: "parse_update_targets",
            inputs: excluding,
            needs: |list| exact(underlined::updates(list)),
            ours: updates,
            original: by_updates,
        },
    ]
}

pub fn rows<'a>(inputs: &'a Inputs, names: &'a [Lookup]) -> Vec<Row<'a>> {
    let none: fn(&str) -> Needs = |_| [0; 4];
    let mut all = text_rows(inputs);
    all.push(Row {
        name: "parse_actions",
        inputs: &inputs.actions,
        needs: |list| exact(underlined::actions(list)),
        ours: listed,
        original: Some(|text| drop(black_box(parse_actions(text)))),
    });
    // the original writes nothing: beside it stands the reading of the same lists, which are spelled as they are written
    all.push(Row {
        name: "write_actions",
        inputs: &inputs.written,
        needs: |list| [0, 0, 0, list.len()],
        ours: rewritten,
        original: Some(|text| drop(black_box(parse_actions(text)))),
    });
    all.extend(target_rows(inputs));
    all.push(Row {
        name: "parse_operator",
        inputs: &inputs.operators,
        needs: none,
        ours: |input, _, room| ours::parse_operator(input, &mut room.values),
        original: Some(|text| drop(black_box(parse_operator(text)))),
    });
    all.extend(names.iter().map(|asked| Row {
        name: asked.row,
        inputs: &asked.names,
        needs: none,
        ours: asked.ours,
        original: Some(asked.original),
    }));
    all
}

pub fn table(folders: &[PathBuf]) -> bool {
    let (inputs, names) = (Inputs::of(folders), lookups());
    println!(
        "| Row | Inputs | Bytes | Ours, MB/s | Rust, MB/s | Times | Ours, ns a call | Rust, ns a call |\n|---|---|---|---|---|---|---|---|"
    );
    for row in rows(&inputs, &names).iter().filter(|row| !row.inputs.is_empty()) {
        let (ours, rust) = row.medians(&mut Room::of(row));
        let rust = rust.expect("every row here has an original's");
        let (bytes, calls) = (row.bytes() as f64, row.inputs.len() as f64);
        println!(
            "| {} | {calls} | {bytes} | {:.0} | {:.0} | {:.1} | {:.0} | {:.0} |",
            row.name,
            bytes * 1e3 / ours,
            bytes * 1e3 / rust,
            rust / ours,
            ours / calls,
            rust / calls
        );
    }
    true
}

/// So many passes of one side of one row; prints the bytes of a pass.
fn passes(all: &[Row], side: &str, name: &str, times: u64) -> bool {
    let Some(row) = all.iter().find(|row| row.name == name).filter(|_| side == "ours" || side == "rust") else {
        eprintln!("cases: ours/ROW and rust/ROW, with ROW one of {}", all.iter().map(|row| row.name).collect::<Vec<_>>().join(" "));
        return false;
    };
    let mut room = Room::of(row);
    (0..times).for_each(|_| row.pass(side == "ours", &mut room));
    println!("{}", row.bytes());
    true
}

/// The same of a case: `ours/tokens` or `rust/tokens`, with inputs of one size `ours/tokens@1048576`, or on an index of so many rules
/// `ours/index@1000`.
pub fn again(case: &str, times: u64, folders: &[PathBuf]) -> bool {
    let (side, name) = case.split_once('/').unwrap_or(("", case));
    match name.split_once('@') {
        None => passes(&rows(&Inputs::of(folders), &lookups()), side, name, times),
        Some(("index", rules)) => index::again(side, rules, times),
        Some((name, size)) => {
            let sized = sizes::OfSize::of(&sizes::Parts::of(folders), size.parse().expect("a size in bytes"));
            passes(&sized.rows(), side, name, times)
        }
    }
}
