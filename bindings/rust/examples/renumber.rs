//! Gives the rules of a package other ids, and prints their action lists as they are written then: `cargo run --example renumber -- FILE
//! FIRST`. Each rule with an id gets the next one from FIRST on. Exit status 1 where a list cannot be written back.

use seclang::{Action, Version};
use std::error::Error;

/// The actions of a rule, its id another.
fn renumbered(actions: &[impl AsRef<Action>], id: u64) -> Vec<Action> {
    let other = |action: &Action| if matches!(action, Action::Id(_)) { Action::Id(id) } else { action.clone() };
    actions.iter().map(|action| other(action.as_ref())).collect()
}

fn main() -> Result<(), Box<dyn Error>> {
    let [file, first] = &std::env::args().skip(1).collect::<Vec<_>>()[..] else { return Err("renumber FILE FIRST".into()) };
    let (package, mut id, mut fine) = (std::fs::read(file)?, first.parse()?, true);
    let list = seclang::directives(&package, Version::V2_6).map_err(|refusal| refusal.message(file, &package))?;
    for rule in list.iter().filter(|rule| rule.actions().iter().any(|action| matches!(action.thing, Action::Id(_)))) {
        match seclang::write_actions(&renumbered(rule.actions(), id)) {
            Ok(actions) => println!("{}: {actions}", rule.line),
            Err(refusal) => {
                println!("{}: {refusal}", rule.line);
                fine = false;
            }
        }
        id += 1;
    }
    std::process::exit(if fine { 0 } else { 1 });
}
