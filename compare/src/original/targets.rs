//! The original's variables, update targets and XML targets.

use super::Outcome;
use crate::error::Error;
use crate::parser::variable::{parse_single_variable, parse_update_targets, parse_variables};
use crate::parser::variable::{Selection, VariableName, VariableSpec, XmlTarget};

fn laid_out(out: &mut Outcome, list: &[VariableSpec], exclusions: &[String]) -> usize {
    for v in list {
        let (kind, word) = match &v.selection {
            None => (0, 0),
            Some(Selection::Key(text)) => (1, out.push(text)),
            Some(Selection::Regex(text)) => (2, out.push(text)),
        };
        out.words.extend([1, v.name as u64, u64::from(v.count_mode), kind, word]);
    }
    for text in exclusions {
        let word = out.push(text);
        out.words.extend([2, 0, 0, 0, word]);
    }
    list.len() + exclusions.len()
}

/// The first part whose name is unknown; an exclusion's name is looked up in update targets only.
fn unknown_part(error: Error, text: &str, updates: bool) -> Outcome {
    let named = |error| match error {
        Error::UnknownVariable { name } => name,
        other => unreachable!("{other:?}"),
    };
    let bad = |part: &str| match part.strip_prefix('!') {
        None => parse_single_variable(part).err().map(named),
        Some(_) if !updates => None,
        Some(rest) => {
            let name = rest.split(':').next().unwrap_or("");
            VariableName::from_str(name).is_none().then(|| name.to_string())
        }
    };
    let parts = text.split('|').map(str::trim).filter(|part| !part.is_empty());
    let (piece, name) = parts.enumerate().find_map(|(i, part)| bad(part).map(|name| (i, name))).expect("a part is bad");
    assert_eq!(named(error), name, "the parts are cut another way than the original's");
    Outcome::refused(7, piece, name)
}

/// So many copies of exclusions the original is let make, and so long a list never makes more.
pub const COPIES: usize = 1_000_000;
const FEW_COPIES: usize = 4_000;

/// How many exclusions the original copies for a list: all of them to each variable.
pub fn copies(list: &str) -> usize {
    let (mut variables, mut exclusions) = (0, 0);
    for part in list.split('|').map(str::trim).filter(|part| !part.is_empty()) {
        *(if part.starts_with('!') { &mut exclusions } else { &mut variables }) += 1;
    }
    variables * exclusions
}

/// A list of variables, and the exclusions that hold for each.
fn at_once(list: &str) -> Result<(Vec<VariableSpec>, Vec<String>), Error> {
    let mut variables = parse_variables(list)?;
    let exclusions = variables.first_mut().map_or(Vec::new(), |first| std::mem::take(&mut first.exclusions));
    Ok((variables, exclusions))
}

/// The same of a list with variables by two questions: its variables, and its exclusions behind the first of them.
fn apart(list: &str) -> Result<(Vec<VariableSpec>, Vec<String>), Error> {
    let (marked, plain): (Vec<&str>, Vec<&str>) = list.split('|').partition(|part| part.trim().starts_with('!'));
    let (variables, _) = at_once(&plain.join("|"))?;
    let first = plain.iter().find(|part| !part.trim().is_empty()).expect("a variable");
    let (_, exclusions) = at_once(&format!("{first}|{}", marked.join("|")))?;
    Ok((variables, exclusions))
}

/// A long list is asked in two where the copies would take more than a machine has.
fn excluding(list: &str) -> Result<(Vec<VariableSpec>, Vec<String>), Error> {
    if list.len() <= FEW_COPIES || copies(list) <= COPIES {
        at_once(list)
    } else {
        apart(list)
    }
}

/// The records of a list of variables behind what `out` has, or its refusal.
pub fn variables_behind(out: &mut Outcome, text: &str) -> Result<usize, Outcome> {
    match excluding(text) {
        Ok((list, exclusions)) => Ok(laid_out(out, &list, &exclusions)),
        Err(error) => Err(unknown_part(error, text, false)),
    }
}

/// The same of update targets.
pub fn updates_behind(out: &mut Outcome, text: &str) -> Result<usize, Outcome> {
    match parse_update_targets(text) {
        Ok((list, exclusions)) => Ok(laid_out(out, &list, &exclusions)),
        Err(error) => Err(unknown_part(error, text, true)),
    }
}

pub fn xml_target(selection: u64, text: &str) -> u64 {
    let target = match selection {
        0 => XmlTarget::from_selection(None),
        1 => XmlTarget::from_selection(Some(&Selection::Key(text.to_string()))),
        2 => XmlTarget::from_selection(Some(&Selection::Regex(text.to_string()))),
        _ => None,
    };
    target.map_or(3, |t| t as u64)
}

#[cfg(test)]
mod tests {
    use super::{apart, at_once, copies, excluding, laid_out, COPIES, FEW_COPIES};
    use crate::cases::{Random, SETS};
    use crate::original::Outcome;
    use crate::readers::Reader;

    /// Both ways to ask give the same, where a list has variables.
    #[test]
    fn lists_are_asked_apart_as_at_once() {
        let alphabet = SETS.iter().find(|set| set.readers.contains(&Reader::Variables)).expect("a set").alphabet;
        let (mut random, mut read) = (Random(1), 0);
        for _ in 0..200_000 {
            let list = String::from_utf8_lossy(&random.text(alphabet, 64)).into_owned();
            if !list.is_ascii() || list.split('|').all(|part| part.trim().is_empty() || part.trim().starts_with('!')) {
                continue;
            }
            let [one, other] = [at_once(&list), apart(&list)].map(|asked| {
                asked.ok().map(|(variables, exclusions)| {
                    let mut out = Outcome::default();
                    laid_out(&mut out, &variables, &exclusions);
                    out
                })
            });
            assert_eq!(one, other, "{list:?}");
            read += usize::from(one.is_some_and(|out| !out.words.is_empty() && list.contains('!')));
        }
        assert!(1_000 < read, "{read}");
    }

    #[test]
    fn many_copies_are_left_out() {
        let both = |parts: usize| format!("{}| |!a:b{}", "TX|&IP:k| |".repeat(parts), "| !c |!ARGS".repeat(parts));
        assert!(copies(&both(300)) <= COPIES && COPIES < copies(&both(1_200)) && copies(&"TX|!|".repeat(FEW_COPIES / 5)) <= COPIES);
        let (variables, exclusions) = excluding(&both(1_200)).expect("all names are known");
        assert_eq!((variables.len(), exclusions.len(), exclusions[0].as_str()), (2_400, 2_401, "a:b"));
    }
}
