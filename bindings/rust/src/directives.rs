//! Whole directives of a package.

use crate::lent::{another, size, span, Texts, Values, NO_ROOM};
use crate::{actions, raw, variables, Action, DirectiveCode, OperatorName, Refusal, Sourced, Targets, LIMIT};
use std::ops::Range;

/// Words of a directive record: kind, line, span in the input, name, negated, operator, its argument, and first and count of its
/// variable records and of its action records.
const WIDTH: usize = 11;

/// Which ModSecurity a package is for, of those before and from 2.7 on: the desk chooses for each package.
///
/// A rule is a `SecRule` or a `SecAction`. The next rule behind one with `chain` continues it and needs no id in either, whatever other
/// directives stand between the two; it is continued in turn only where it has a `chain` itself.
///
/// ```
/// use seclang::{directives, Refusal, Version};
///
/// let package = "SecAction id:7,chain\nSecMarker m\nSecAction log\nSecAction deny\n";
/// assert_eq!(directives(package, Version::V2_6).map(|list| list.len()), Ok(4));
/// assert_eq!(directives(package, Version::V2_7), Err(Refusal::IdMissing { line: 4 }));
/// ```
#[derive(Clone, Copy, Debug, PartialEq, Eq, Hash)]
pub enum Version {
    /// 2.6 and before: a rule may do without an id.
    V2_6,
    /// 2.7 and later: a rule must have an id, and 0 is one.
    V2_7,
}

/// The operator of a rule, with its argument.
#[derive(Clone, Debug, PartialEq, Eq, Hash)]
pub struct RuleOperator {
    /// `!@rx`
    pub negated: bool,
    /// Which one; `@rx` where none is written.
    pub name: OperatorName,
    /// What stands behind its name, without blanks at both ends.
    pub argument: String,
}

/// What a directive is, with what its arguments say.
#[derive(Clone, Debug, PartialEq, Eq, Hash)]
pub enum DirectiveKind {
    /// `SecRule`
    Rule {
        /// Its variables, and the exclusions that hold for all of them.
        targets: Targets,
        /// What they are asked.
        operator: RuleOperator,
        /// None where the rule has no third argument.
        actions: Vec<Sourced<Action>>,
    },
    /// `SecAction`
    Action(Vec<Sourced<Action>>),
    /// `SecMarker`, with its argument as it stands, blanks too.
    Marker(String),
    /// `SecDefaultAction`
    Defaults(Vec<Sourced<Action>>),
    /// Any other, by its name as written. Its arguments are not looked at.
    Unknown(String),
}

/// A directive and where it stands.
#[derive(Clone, Debug, PartialEq, Eq, Hash)]
pub struct Directive {
    /// What it is, with what its arguments say.
    pub kind: DirectiveKind,
    /// The line of its name, from 1.
    pub line: usize,
    /// The bytes of the input from its name to the end of its last argument.
    pub bytes: Range<usize>,
}

/// What the reader of whole directives is lent, and what it leaves there.
struct Package {
    values: Values,
    texts: Texts,
    directives: Vec<u64>,
    variables: Vec<u64>,
    actions: Vec<u64>,
}

/// The records that two words tell, the first and how many.
fn part<'a>(words: &'a [u64], width: usize, told: &[u64]) -> impl Iterator<Item = &'a [u64]> {
    words.chunks_exact(width).skip(size(told[0])).take(size(told[1]))
}

impl Package {
    /// A record in so many bytes, which real packages hardly ever pass.
    fn new(len: usize) -> Self {
        let room = |bytes: usize, width: usize| vec![0; (len / bytes + 2) * width];
        Package {
            values: Values::default(),
            texts: Texts(vec![0; len]),
            directives: room(24, WIDTH),
            variables: room(16, variables::WIDTH),
            actions: room(12, actions::WIDTH),
        }
    }

    fn read(&mut self, input: &[u8], version: Version, scratch: &mut [u8]) -> u64 {
        let Package { values, texts, directives, variables, actions } = self;
        raw::directives(input, version == Version::V2_7, &mut texts.0, scratch, directives, variables, actions, values)
    }

    fn directive(&self, record: &[u64]) -> Directive {
        let targets = || Targets::of(part(&self.variables, variables::WIDTH, &record[7..]), &self.texts);
        let actions = || part(&self.actions, actions::WIDTH, &record[9..]).map(|record| Action::of(record, &self.texts)).collect();
        let name = || self.texts.said(record[3]);
        let kind = match DirectiveCode::from_code(record[0]) {
            Some(DirectiveCode::Rule) => DirectiveKind::Rule { targets: targets(), operator: self.operator(record), actions: actions() },
            Some(DirectiveCode::Action) => DirectiveKind::Action(actions()),
            Some(DirectiveCode::Marker) => DirectiveKind::Marker(name()),
            Some(DirectiveCode::Defaults) => DirectiveKind::Defaults(actions()),
            Some(DirectiveCode::Unknown) => DirectiveKind::Unknown(name()),
            None => another("a directive of the kind", record[0]),
        };
        Directive { kind, line: size(record[1]), bytes: span(record[2]) }
    }

    fn operator(&self, record: &[u64]) -> RuleOperator {
        let Some(name) = OperatorName::from_code(record[5]) else { another("an operator of the code", record[5]) };
        RuleOperator { negated: record[4] != 0, name, argument: self.texts.said(record[6]) }
    }
}

impl Directive {
    /// The actions that it names: none for a marker and one that is unknown.
    pub fn actions(&self) -> &[Sourced<Action>] {
        match &self.kind {
            DirectiveKind::Rule { actions, .. } | DirectiveKind::Action(actions) | DirectiveKind::Defaults(actions) => actions,
            DirectiveKind::Marker(_) | DirectiveKind::Unknown(_) => &[],
        }
    }

    /// The kind in its record.
    pub fn code(&self) -> DirectiveCode {
        match &self.kind {
            DirectiveKind::Rule { .. } => DirectiveCode::Rule,
            DirectiveKind::Action(_) => DirectiveCode::Action,
            DirectiveKind::Marker(_) => DirectiveCode::Marker,
            DirectiveKind::Defaults(_) => DirectiveCode::Defaults,
            DirectiveKind::Unknown(_) => DirectiveCode::Unknown,
        }
    }
}

/// The directives of a package, each with its arguments read. Sources and the spans of refusals are in the package.
///
/// A directive takes the words and strings up to the next line feed, comment or directive: `SecRule` two or three, `SecAction`,
/// `SecMarker` and `SecDefaultAction` one, in any letter case; any other name as many as there are. What [`Version::V2_7`] reads,
/// [`Version::V2_6`] reads too, and gives the same.
///
/// ```
/// use seclang::{directives, Action, DirectiveKind, OperatorName, Refusal, VariableName, Version};
///
/// let package = "SecRuleEngine On\nSecRule ARGS \"@contains x\" \\\n    \"id:7,deny\"\n";
/// let list = directives(package, Version::V2_7)?;
/// assert_eq!(list[0].kind, DirectiveKind::Unknown("SecRuleEngine".to_string()));
/// assert_eq!((list[1].line, list[1].bytes.clone()), (2, 17..61));
/// let DirectiveKind::Rule { targets, operator, actions } = &list[1].kind else { panic!("a rule") };
/// assert_eq!(targets.variables[0].name, VariableName::Args);
/// assert_eq!((operator.name, operator.argument.as_str()), (OperatorName::Contains, "x"));
/// assert_eq!(actions[..], [Action::Id(7), Action::Deny]);
/// assert_eq!(&package[actions[1].source.clone()], "deny");
///
/// let why = Box::new(Refusal::UnknownAction { piece: 1, name: "bogus".to_string(), span: 27..32 });
/// assert_eq!(directives("SecMarker m\nSecAction deny,bogus", Version::V2_7), Err(Refusal::InDirective { line: 2, why }));
/// assert_eq!(directives("SecMarker a b", Version::V2_7), Err(Refusal::WrongCount { line: 1 }));
/// # Ok::<(), Refusal>(())
/// ```
pub fn directives(input: &(impl AsRef<[u8]> + ?Sized), version: Version) -> Result<Vec<Directive>, Refusal> {
    let input = input.as_ref();
    // an input past the limit is refused before anything lent is looked at
    let len = input.len().min(LIMIT);
    let (mut package, mut scratch) = (Package::new(len), vec![0; len]);
    let mut number = package.read(input, version, &mut scratch);
    if number == NO_ROOM {
        let [needed, of_variables, of_actions, ..] = package.values.map(size);
        package.directives = vec![0; needed * WIDTH];
        package.variables = vec![0; of_variables * variables::WIDTH];
        package.actions = vec![0; of_actions * actions::WIDTH];
        number = package.read(input, version, &mut scratch);
    }
    if number != 0 {
        return Err(Refusal::of_package(number, &package.values, input, &package.texts.0));
    }
    let records = package.directives.chunks_exact(WIDTH).take(size(package.values[0]));
    Ok(records.map(|record| package.directive(record)).collect())
}
