//! The original's answers as ours must be: the original's words, and behind each record and each refusal the span that `sources` says.

use crate::original::{self, Outcome};
use crate::readers::{ACTION_WORDS, VARIABLE_WORDS};
use crate::sources::{self, Came};

/// What the walk read is what the original read.
fn agreed(text: &str, came: &[Came]) {
    assert_eq!(text.as_bytes(), sources::text_of(came), "the walk reads another text than the original");
}

/// One more value for the piece that is refused, out of the spans of all.
fn told(mut refused: Outcome, pieces: &[u64]) -> Outcome {
    refused.values.push(pieces[refused.values[0] as usize]);
    refused
}

/// The records from a word of `out` on, each a word wider by its span.
fn widened(out: &mut Outcome, from: usize, width: usize, spans: &[u64]) {
    let words = out.words.split_off(from);
    assert_eq!(words.len(), spans.len() * (width - 1), "the walk finds other pieces than the original");
    for (record, span) in words.chunks_exact(width - 1).zip(spans) {
        out.words.extend(record);
        out.words.push(*span);
    }
}

/// The records of an action list behind what `out` has, or its refusal.
pub fn actions_behind(out: &mut Outcome, text: &str, came: &[Came]) -> Result<(), Outcome> {
    agreed(text, came);
    let (from, pieces) = (out.words.len(), sources::actions(came));
    original::actions_behind(out, text).map_err(|refused| told(refused, &pieces))?;
    widened(out, from, ACTION_WORDS, &pieces);
    Ok(())
}

/// The same of a list of variables by one of the original's two readers; exclusions stand behind all variables.
fn targets_by(of: fn(&mut Outcome, &str) -> Result<usize, Outcome>, out: &mut Outcome, text: &str, came: &[Came]) -> Result<(), Outcome> {
    agreed(text, came);
    let (from, parts) = (out.words.len(), sources::targets(came));
    let pieces: Vec<u64> = parts.iter().map(|part| part.0).collect();
    let count = of(out, text).map_err(|refused| told(refused, &pieces))?;
    let of_kind = |excluded| parts.iter().filter(move |part| part.1 == excluded).map(|part| part.0);
    // exclusions alone give nothing where they hold for variables
    let spans: Vec<u64> = if count == 0 { Vec::new() } else { of_kind(false).chain(of_kind(true)).collect() };
    widened(out, from, VARIABLE_WORDS, &spans);
    Ok(())
}

/// The records of a list of variables behind what `out` has, or its refusal.
pub fn variables_behind(out: &mut Outcome, text: &str, came: &[Came]) -> Result<(), Outcome> {
    targets_by(original::variables_behind, out, text, came)
}

/// An operator; what is unknown has the name's span.
pub fn operator_in(text: &str, came: &[Came]) -> Outcome {
    agreed(text, came);
    let mut told = original::operator(text);
    if told.number != 0 {
        let [place, len] = [0, 1].map(|value| told.values[value] as usize);
        told.values.push(sources::name(came, place, len));
    }
    told
}

// ---- each reader alone: its text stands for itself

fn alone(text: &str, width: usize, behind: impl Fn(&mut Outcome, &[Came]) -> Result<(), Outcome>) -> Outcome {
    let mut out = Outcome::default();
    match behind(&mut out, &sources::as_written(text.as_bytes())) {
        Ok(()) => Outcome { values: [out.words.len() / width, out.texts.len()].map(|n| n as u64).to_vec(), ..out },
        Err(refused) => refused,
    }
}

pub fn actions(text: &str) -> Outcome {
    alone(text, ACTION_WORDS, |out, came| actions_behind(out, text, came))
}

pub fn setvar(text: &str) -> Outcome {
    let mut out = original::setvar(text);
    widened(&mut out, 0, ACTION_WORDS, &[sources::setvar(text.as_bytes())]);
    out
}

pub fn variables(text: &str) -> Outcome {
    alone(text, VARIABLE_WORDS, |out, came| variables_behind(out, text, came))
}

pub fn updates(text: &str) -> Outcome {
    alone(text, VARIABLE_WORDS, |out, came| targets_by(original::updates_behind, out, text, came))
}

pub fn operator(text: &str) -> Outcome {
    operator_in(text, &sources::as_written(text.as_bytes()))
}

#[cfg(test)]
mod tests {
    use super::{actions, operator, setvar, updates, variables};
    use crate::spans::span;

    #[test]
    fn records_have_their_spans() {
        let read = actions(" deny,\\\n  setvar:y");
        assert_eq!(read.words, [1, 0, 0, 0, 0, 0, span(1, 4), 22, 0, span(0, 2), span(2, 1), 1, span(3, 1), span(10, 8)]);
        let read = variables("!a|&TX:k| ip ");
        assert_eq!(read.words[..6], [1, 35, 1, 1, span(0, 1), span(3, 5)]);
        assert_eq!((read.words[11], &read.words[12..]), (span(10, 2), &[2, 0, 0, 0, span(1, 1), span(0, 2)][..]));
        assert_eq!(variables("!a|!b").words, []);
        assert_eq!(updates("!TX|ip").words[5..], [span(4, 2), 2, 0, 0, 0, span(0, 2), span(0, 3)]);
        assert_eq!((setvar(" a").words[6], setvar(" ").words[6]), (span(1, 1), span(1, 0)));
    }

    #[test]
    fn refusals_have_their_spans() {
        assert_eq!((actions("deny, ,Bogus:1 ,x").number, actions("deny, ,Bogus:1 ,x").values), (5, vec![1, 5, span(7, 7)]));
        assert_eq!(actions("log,i\\\nd:x").values, [1, 2, span(4, 6)]);
        assert_eq!(variables("TX| &nope:k").values, [1, 4, span(4, 7)]);
        assert_eq!(updates("TX|!x:y|z").values, [1, 1, span(3, 4)]);
        assert_eq!((operator(" !@rxx a").values, operator("@").values), (vec![3, 3, span(3, 3)], vec![1, 0, span(1, 0)]));
        assert_eq!(operator("@rx a").values, [0, 0, 4, 1]);
    }
}
