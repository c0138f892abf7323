//! Prints line, id and phase of each rule of a package, what is refused, and where an id stands already:
//! `cargo run --example ids -- FILE`.

use seclang::{Action, Index, Token, TokenKind};
use std::error::Error;

/// The action list of a rule, by its directive and the texts behind it.
fn actions_of(rule: &[Token]) -> Option<&Token> {
    match rule.first()?.text().to_ascii_lowercase().as_str() {
        "secrule" => rule.get(3),
        "secaction" => rule.get(1),
        _ => None,
    }
}

fn main() -> Result<(), Box<dyn Error>> {
    let file = std::env::args().nth(1).ok_or("ids FILE")?;
    let mut tokens = seclang::tokens(&std::fs::read(file)?)?.list;
    tokens.retain(|token| !matches!(token.kind, TokenKind::Comment | TokenKind::Newline));
    let is_directive = |token: &Token| matches!(token.kind, TokenKind::Directive(_));
    let starts: Vec<usize> = (0..tokens.len()).filter(|at| is_directive(&tokens[*at])).collect();
    let mut index = Index::with_places(starts.len());
    for (start, end) in starts.iter().zip(starts.iter().skip(1).chain([&tokens.len()])) {
        let Some(list) = actions_of(&tokens[*start..*end]) else { continue };
        let line = tokens[*start].line;
        match seclang::parse_actions(list.text()) {
            Err(refusal) => println!("{line}: {refusal}"),
            Ok(actions) => {
                let id = actions.iter().find_map(|action| if let Action::Id(id) = action.thing { Some(id) } else { None });
                println!("{line}: id {}, phase {}", id.map_or("none".to_string(), |id| id.to_string()), seclang::phase(&actions));
                if let Err(refusal) = index.add(&actions, line) {
                    println!("{line}: {refusal}");
                }
            }
        }
    }
    Ok(())
}
