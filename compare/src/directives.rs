//! Whole directives by document 02 (M-100, M-108), a second model: the original's tokens joined here, its parsers on the arguments, and
//! its own word on which rules have an id and a chain.

use crate::error::{Error, SourceLocation};
use crate::original::{self, Outcome};
use crate::parser::action::{parse_actions, Action, FlowAction, MetadataAction};
use crate::parser::directive::{Directive, SecAction, SecMarker, SecRule};
use crate::parser::lexer::{Lexer, Token, TokenKind};
use crate::parser::operator::parse_operator;
use crate::parser::variable::parse_variables;
use crate::readers::{ACTION_WORDS, DIRECTIVE_WORDS, TOKEN_WORDS, VARIABLE_WORDS};
use crate::sources::{self, Came};
use crate::spans::{between, halves};
use crate::underlined;
pub use seclang::Version;

/// Both of those that a package may be for.
pub const VERSIONS: [Version; 2] = [Version::V2_6, Version::V2_7];

/// Words of a directive, a variable and an action record.
pub const WIDTHS: [usize; 3] = [DIRECTIVE_WORDS, VARIABLE_WORDS, ACTION_WORDS];

/// What a package comes to past the checks on it, with room for all: number, values, texts or the name, and three lists of records.
#[derive(Clone, Debug, Default, PartialEq)]
pub struct Package {
    pub number: u64,
    pub values: Vec<u64>,
    pub texts: Vec<u8>,
    pub directives: Vec<u64>,
    pub variables: Vec<u64>,
    pub actions: Vec<u64>,
}

impl Package {
    /// 13 to 15 and 18, which have the line alone.
    fn refused(number: u64, line: u64) -> Self {
        Package { number, values: vec![line], ..Package::default() }
    }

    /// 5, 7, 8 and 10 to 12: the line, and what the argument's own parser tells; of 8 no name is left.
    fn of_argument(line: u64, told: Outcome) -> Self {
        Package { number: told.number, values: [vec![line], told.values].concat(), texts: told.texts, ..Package::default() }
    }

    /// Directive, variable and action records.
    pub fn counts(&self) -> [u64; 3] {
        let [d, v, a] = WIDTHS;
        [self.directives.len() / d, self.variables.len() / v, self.actions.len() / a].map(|n| n as u64)
    }

    /// The action records of a directive, by its own.
    pub fn actions_of(&self, directive: &[u64]) -> &[u64] {
        let [first, count] = [directive[9], directive[10]].map(|records| records as usize * ACTION_WORDS);
        &self.actions[first..first + count]
    }

    /// Whether it is read though a rule has no id.
    pub fn rests_on_chain(&self) -> bool {
        let has_id = |directive: &[u64]| self.actions_of(directive).chunks_exact(ACTION_WORDS).any(|act| act[0] == 11);
        self.directives.chunks_exact(DIRECTIVE_WORDS).any(|directive| directive[0] <= 2 && !has_id(directive))
    }

    /// 4, where it is read and so many words of records do not take it all.
    pub fn without_room(&self, words: [usize; 3]) -> Option<Self> {
        let needed = self.counts();
        let fits = needed.iter().zip(words).zip(WIDTHS).all(|((needed, words), width)| *needed <= (words / width) as u64);
        (self.number == 0 && !fits).then(|| Package { number: 4, values: needed.to_vec(), ..Package::default() })
    }
}

/// A token of the original's, its text, and where it stands in the package.
struct Piece<'a> {
    kind: u64,
    line: u64,
    first: usize,
    past: usize,
    text: &'a str,
    package: &'a [u8],
}

impl<'a> Piece<'a> {
    fn of(record: &[u64], texts: &'a str, package: &'a [u8]) -> Self {
        let ((first, len), (offset, size)) = (halves(record[3]), halves(record[4]));
        Piece { kind: record[0], line: record[1], first, past: first + len, text: &texts[offset..offset + size], package }
    }

    fn is_directive(&self) -> bool {
        self.kind == 1
    }

    /// A Word or a QuotedString.
    fn is_argument(&self) -> bool {
        self.kind == 2 || self.kind == 3
    }

    /// Where each byte of an argument's text came from.
    fn came(&self) -> Vec<Came> {
        let walk = if self.kind == 2 { sources::of_word } else { sources::of_string };
        walk(self.package, self.first, self.past)
    }
}

/// Directives read so far; `out` has the texts of all records, and no words but those of the list that is read just now.
#[derive(Default)]
struct Joined {
    out: Outcome,
    package: Package,
    /// Whether the last rule has a chain.
    chained: bool,
}

impl Joined {
    fn variables(&mut self, line: u64, list: &Piece) -> Result<(), Package> {
        underlined::variables_behind(&mut self.out, list.text, &list.came()).map_err(|told| Package::of_argument(line, told))?;
        self.package.variables.append(&mut self.out.words);
        Ok(())
    }

    fn actions(&mut self, line: u64, list: &Piece) -> Result<(), Package> {
        underlined::actions_behind(&mut self.out, list.text, &list.came()).map_err(|told| Package::of_argument(line, told))?;
        self.package.actions.append(&mut self.out.words);
        Ok(())
    }

    /// Negated, code, and its argument as a text.
    fn operator(&mut self, line: u64, said: &Piece) -> Result<[u64; 3], Package> {
        let told = underlined::operator_in(said.text, &said.came());
        let [negated, code, place, len] = told.values[..] else { return Err(Package::of_argument(line, told)) };
        Ok([negated, code, self.out.push(&said.text[place as usize..(place + len) as usize])])
    }

    /// A Directive token with what it takes: the count first, then variables, operator and actions.
    fn take(&mut self, token: &Piece, arguments: &[Piece]) -> Result<(), Package> {
        let (line, [_, variable, action]) = (token.line, self.package.counts());
        let (mut name, mut operator) = (0, [0; 3]);
        let kind = match (token.text.to_ascii_lowercase().as_str(), arguments) {
            ("secrule", [list, said]) => {
                self.variables(line, list)?;
                operator = self.operator(line, said)?;
                1
            }
            ("secrule", [list, said, acts]) => {
                self.variables(line, list)?;
                operator = self.operator(line, said)?;
                self.actions(line, acts)?;
                1
            }
            ("secaction", [acts]) => self.actions(line, acts).map(|()| 2)?,
            ("secmarker", [said]) => {
                name = self.out.push(said.text);
                3
            }
            ("secdefaultaction", [acts]) => self.actions(line, acts).map(|()| 4)?,
            ("secrule" | "secaction" | "secmarker" | "secdefaultaction", _) => return Err(Package::refused(13, line)),
            _ => {
                name = self.out.push(token.text);
                5
            }
        };
        let past = arguments.last().unwrap_or(token).past;
        let [_, variables, actions] = self.package.counts();
        self.package.directives.extend([kind, line, between(token.first, past), name]);
        self.package.directives.extend(operator);
        self.package.directives.extend([variable, variables - variable, action, actions - action]);
        Ok(())
    }

    /// A directive that is good by itself, by its name and arguments: the next rule behind one with `chain` continues it, and from 2.7 on
    /// any other must have an id. What is no rule changes nothing.
    fn judge_id(&mut self, token: &Piece, arguments: &[Piece]) -> Result<(), Package> {
        let list = match (token.text.to_ascii_lowercase().as_str(), arguments) {
            ("secrule", [_, _]) => "",
            ("secrule", [_, _, acts]) | ("secaction", [acts]) => acts.text,
            _ => return Ok(()),
        };
        let rule = original::rule(list).expect("a list that is read");
        let continues = std::mem::replace(&mut self.chained, rule.is_chained());
        if rule.id().is_none() && !continues {
            return Err(Package::refused(18, token.line));
        }
        Ok(())
    }

    fn read(self) -> Package {
        let [directives, variables, actions] = self.package.counts();
        let values = vec![directives, variables, actions, self.out.texts.len() as u64];
        Package { values, texts: self.out.texts, ..self.package }
    }
}

/// The directives of a package within the limit and in ASCII. Faults come in the order of the text, so that the first ends it.
pub fn read(text: &str, version: Version) -> Package {
    let lexed = original::tokens(text);
    let texts = std::str::from_utf8(&lexed.texts).expect("ASCII");
    let pieces: Vec<Piece> = lexed.words.chunks_exact(TOKEN_WORDS).map(|record| Piece::of(record, texts, text.as_bytes())).collect();
    let (mut joined, mut rest) = (Joined::default(), &pieces[..]);
    while let [piece, behind @ ..] = rest {
        rest = behind;
        if piece.is_argument() {
            return Package::refused(14, piece.line);
        }
        if piece.is_directive() {
            let (arguments, left) = behind.split_at(behind.iter().take_while(|p| p.is_argument()).count());
            rest = left;
            let taken = joined.take(piece, arguments);
            let judged = taken.and_then(|()| if version == Version::V2_7 { joined.judge_id(piece, arguments) } else { Ok(()) });
            if let Err(refused) = judged {
                return refused;
            }
        }
    }
    // a stop is judged last: all before it is good
    if lexed.values[2] < text.len() as u64 {
        return Package::refused(15, lexed.values[3]);
    }
    joined.read()
}

// ---- the same join as a host of the original would write it, for timings: the original's own types, no spans

fn directive(token: &Token, name: &str, arguments: &[String]) -> Result<Directive, Option<Error>> {
    let location = SourceLocation { file: None, line: token.line, column: token.column };
    let rule = |list: &str, said: &str, acts: Option<&String>| {
        let (variables, operator) = (parse_variables(list)?, parse_operator(said)?);
        let actions = acts.map_or(Ok(Vec::new()), |acts| parse_actions(acts))?;
        Ok(Directive::SecRule(SecRule { variables, operator, actions, location: location.clone() }))
    };
    match (name.to_ascii_lowercase().as_str(), arguments) {
        ("secrule", [list, said]) => rule(list, said, None).map_err(Some),
        ("secrule", [list, said, acts]) => rule(list, said, Some(acts)).map_err(Some),
        ("secaction", [acts]) => Ok(Directive::SecAction(SecAction { actions: parse_actions(acts).map_err(Some)?, location })),
        ("secmarker", [said]) => Ok(Directive::SecMarker(SecMarker { name: said.clone() })),
        ("secdefaultaction", [acts]) => parse_actions(acts).map(Directive::SecDefaultAction).map_err(Some),
        ("secrule" | "secaction" | "secmarker" | "secdefaultaction", _) => Err(None),
        _ => Ok(Directive::Unknown(name.to_string())),
    }
}

/// All directives of a package in the original's types; an error where one is bad, or where a text stands that none takes.
pub fn owned(text: &str) -> Result<Vec<Directive>, Option<Error>> {
    let (mut lexer, mut list) = (Lexer::new(text), Vec::new());
    let mut next = lexer.next_token();
    while let Some(token) = next {
        next = lexer.next_token();
        let name = match &token.kind {
            TokenKind::Directive(name) => name,
            TokenKind::Word(_) | TokenKind::QuotedString(_) => return Err(None),
            _ => continue,
        };
        let mut arguments = Vec::new();
        while let Some(Token { kind: TokenKind::Word(said) | TokenKind::QuotedString(said), .. }) = next {
            arguments.push(said);
            next = lexer.next_token();
        }
        list.push(directive(&token, name, &arguments)?);
    }
    Ok(list)
}

/// Whether a rule has no id and continues none.
fn misses_id(list: &[Directive]) -> bool {
    let rules = list.iter().filter_map(|directive| match directive {
        Directive::SecRule(rule) => Some(&rule.actions),
        Directive::SecAction(rule) => Some(&rule.actions),
        _ => None,
    });
    let mut chained = false;
    rules.into_iter().any(|actions| {
        let continues = std::mem::replace(&mut chained, actions.iter().any(|action| matches!(action, Action::Flow(FlowAction::Chain))));
        !continues && !actions.iter().any(|action| matches!(action, Action::Metadata(MetadataAction::Id(_))))
    })
}

/// The same for a package from 2.7 on: an error too where a rule misses its id.
pub fn owned_with_ids(text: &str) -> Result<Vec<Directive>, Option<Error>> {
    owned(text).and_then(|list| if misses_id(&list) { Err(None) } else { Ok(list) })
}
