//! Real rules through the typed readers: samples/desk.conf, and the Core Rule Set where it is installed (Debian: modsecurity-crs).
//! What was read is held against the source, cut here a second time by plain text searches.

use seclang::{
    Action, ActionCode, Directive, DirectiveKind, Index, Refusal, Selection, SetVarValue, Sourced, Targets, Token, TokenKind, Version,
    LIMIT,
};
use std::path::{Path, PathBuf};

const FOLDER: &str = "/usr/share/modsecurity-crs";

fn files(folder: &Path, found: &mut Vec<PathBuf>) {
    let mut entries: Vec<PathBuf> = std::fs::read_dir(folder).into_iter().flatten().flatten().map(|entry| entry.path()).collect();
    entries.sort();
    for path in entries {
        match path.extension() {
            _ if path.is_dir() => files(&path, found),
            Some(ending) if ending == "conf" => found.push(path),
            _ => {}
        }
    }
}

/// Whole logical lines, as many as stay within the limit.
fn texts(file: &[u8]) -> Vec<Vec<u8>> {
    let (mut texts, mut logical) = (vec![Vec::new()], Vec::new());
    for line in file.split_inclusive(|b| *b == b'\n') {
        logical.extend_from_slice(line);
        if line.ends_with(b"\\\n") {
            continue;
        }
        if LIMIT < texts.last().map_or(0, Vec::len) + logical.len() {
            texts.push(Vec::new());
        }
        texts.last_mut().expect("one is there").append(&mut logical);
    }
    texts
}

/// A text that the readers take: bytes past ASCII become question marks, once the refusal has been seen to name the first.
fn plain(text: &[u8]) -> String {
    if let Some(place) = text.iter().position(|b| !b.is_ascii()) {
        assert_eq!(seclang::tokens(text), Err(Refusal::NotAscii { place }));
        assert_eq!(seclang::plain_tokens(text), Err(Refusal::NotAscii { place }));
    }
    text.iter().map(|b| if b.is_ascii() { char::from(*b) } else { '?' }).collect()
}

/// How far a text has been gone through: the last token's end, and the number and first byte of the line there.
#[derive(Clone, Copy)]
struct Reached {
    past: usize,
    line: usize,
    start: usize,
}

impl Reached {
    const START: Reached = Reached { past: 0, line: 1, start: 0 };

    fn to(self, text: &str, past: usize) -> Self {
        let gone = &text[self.past..past];
        Reached { past, line: self.line + gone.matches('\n').count(), start: gone.rfind('\n').map_or(self.start, |at| self.past + at + 1) }
    }
}

/// A token says what stands at its place, and between two tokens stand blanks and continuations alone.
fn check_token(text: &str, reached: Reached, token: &Token) {
    let (at, source) = (reached.to(text, token.bytes.start), &text[token.bytes.clone()]);
    assert!(text[reached.past..at.past].bytes().all(|b| b" \t\r\\\n".contains(&b)), "{token:?}");
    assert_eq!((token.line, token.column), (at.line, 1 + at.past - at.start), "{token:?}");
    let written = match &token.kind {
        TokenKind::Directive(_) | TokenKind::Word(_) => source,
        TokenKind::QuotedString(_) => source[1..].strip_suffix(&source[..1]).expect("a closing mark"),
        TokenKind::Comment => return assert!(source.starts_with('#') && source.ends_with('\n'), "{token:?}"),
        TokenKind::Newline => return assert_eq!(source, "\n"),
    };
    assert!(written.contains('\\') || written == token.text(), "{token:?}");
}

/// Variables and exclusions as a list has them.
fn rendered(targets: &Targets) -> (Vec<String>, Vec<String>) {
    let variables = targets.variables.iter().map(|variable| {
        let selected = match &variable.selection {
            None => String::new(),
            Some(Selection::Key(text)) => format!(":{text}"),
            Some(Selection::Regex(text)) => format!(":/{text}/"),
        };
        format!("{}{}{selected}", if variable.counted { "&" } else { "" }, variable.name.name().expect("a name"))
    });
    (variables.collect(), targets.exclusions.iter().map(|text| format!("!{}", text.thing)).collect())
}

fn check_variables(source: &str) {
    let cut: (Vec<String>, Vec<String>) = source.split('|').map(|part| part.to_string()).partition(|part| !part.starts_with('!'));
    let targets = seclang::parse_variables(source).expect(source);
    assert_eq!(rendered(&targets), cut, "{source}");
    let sources = targets.variables.iter().map(|one| &one.source).chain(targets.exclusions.iter().map(|one| &one.source));
    let underlined: Vec<&str> = sources.map(|part| &source[part.clone()]).collect();
    assert_eq!(underlined, [cut.0, cut.1].concat(), "{source}");
}

fn check_operator(source: &str) {
    let operator = seclang::parse_operator(source).expect(source);
    let bare = source.strip_prefix('!').unwrap_or(source);
    let (name, argument) = match bare.strip_prefix('@') {
        Some(named) => named.split_once(' ').unwrap_or((named, "")),
        None => ("rx", bare),
    };
    assert_eq!((operator.negated, operator.name.name()), (source.starts_with('!'), name.to_ascii_lowercase().as_str()), "{source}");
    assert_eq!(operator.argument, argument.trim(), "{source}");
    assert!(source[operator.place..].starts_with(operator.argument), "{source}");
}

/// The parts of an action list between commas outside of single quotation marks.
fn parts(list: &str) -> Vec<&str> {
    let mut inside = false;
    let cut = list.split(|c| {
        inside ^= c == '\'';
        c == ',' && !inside
    });
    cut.map(str::trim).filter(|part| !part.is_empty()).collect()
}

/// What stands behind an action's colon.
fn argument_of(action: &Action) -> String {
    match action {
        Action::Skip(n) | Action::Id(n) | Action::Phase(n) | Action::Severity(n) => n.to_string(),
        Action::Maturity(n) | Action::Accuracy(n) | Action::Status(n) => n.to_string(),
        Action::Redirect(text) | Action::SkipAfter(text) | Action::Msg(text) | Action::Tag(text) | Action::Rev(text) => text.clone(),
        Action::Ver(text) | Action::LogData(text) | Action::Transformation(text) => text.clone(),
        Action::InitCol { collection, key } => format!("{collection}={key}"),
        Action::ExpireVar { variable, seconds } => format!("{variable}={seconds}"),
        Action::Control { directive, value } => format!("{directive}={value}"),
        Action::SetVar(set) => {
            let name = format!("{}.{}", set.collection, set.key);
            match &set.value {
                SetVarValue::String(text) | SetVarValue::Macro(text) => format!("{name}={text}"),
                SetVarValue::Int(n) => format!("{name}={n}"),
                SetVarValue::Increment(n) => format!("{name}=+{n}"),
                SetVarValue::Decrement(n) => format!("{name}=-{n}"),
                SetVarValue::Delete => format!("!{name}"),
            }
        }
        _ => String::new(),
    }
}

/// An action's argument in a list, as it should be read: some lose their quotation marks, a severity is a word or a number, and
/// seconds that are no number are 0.
fn argument_in(code: ActionCode, written: &str) -> String {
    let bare = written.trim_matches('\'');
    match code {
        ActionCode::Severity => seclang::severity(bare).map_or(bare.to_string(), |number| number.to_string()),
        ActionCode::Msg | ActionCode::Tag | ActionCode::Rev | ActionCode::Ver | ActionCode::LogData | ActionCode::SetVar => {
            bare.to_string()
        }
        ActionCode::ExpireVar => {
            let (variable, seconds) = written.split_once('=').expect("seconds");
            format!("{variable}={}", seconds.parse::<u64>().unwrap_or(0))
        }
        _ => written.to_string(),
    }
}

fn check_action(part: &str, action: &Action) {
    let (name, argument) = part.split_once(':').unwrap_or((part, ""));
    let called = match action.code() {
        ActionCode::Transformation => "t".to_string(),
        ActionCode::Control => "ctl".to_string(),
        other => format!("{other:?}").to_ascii_lowercase(),
    };
    assert_eq!(name.to_ascii_lowercase(), called, "{part}");
    assert!(argument_of(action).eq_ignore_ascii_case(&argument_in(action.code(), argument)), "{part}: {action:?}");
}

/// The actions of a rule and of its list alone: the same, and underlined the same but where the lexer took something out.
fn check_sources(rule: &str, in_rule: &[Sourced<Action>], list: &str, in_list: &[Sourced<Action>]) {
    assert_eq!(in_rule.len(), in_list.len(), "{rule}");
    for (there, here) in in_rule.iter().zip(in_list) {
        assert_eq!(there.thing, here.thing, "{rule}");
        let (written, read) = (&rule[there.source.clone()], &list[here.source.clone()]);
        assert!(written.contains('\\') || written == read, "{rule}: {written} and {read}");
    }
}

fn is_rule(directive: &Directive) -> bool {
    matches!(directive.kind, DirectiveKind::Rule { .. } | DirectiveKind::Action(_))
}

/// The line of the first rule that has no id and is not chained to the one before.
fn first_without_id(list: &[Directive]) -> Option<usize> {
    let has = |rule: &Directive, code| rule.actions().iter().any(|action| action.code() == code);
    let rules: Vec<&Directive> = list.iter().filter(|one| is_rule(one)).collect();
    let chained = |at: usize| 0 < at && has(rules[at - 1], ActionCode::Chain);
    (0..rules.len()).find(|at| !has(rules[*at], ActionCode::Id) && !chained(*at)).map(|at| rules[at].line)
}

/// For 2.7 a package is what it is for 2.6, or is refused for its first rule without an id; whether it is the same.
fn check_versions(package: &str) -> bool {
    let [older, newer] = [Version::V2_6, Version::V2_7].map(|version| seclang::directives(package, version));
    match (&older, &newer) {
        (Ok(list), Err(Refusal::IdMissing { line })) => assert_eq!(first_without_id(list), Some(*line), "{package}"),
        (Ok(list), _) => assert!(older == newer && first_without_id(list).is_none(), "{package}"),
        (Err(fault), Err(Refusal::IdMissing { line })) => assert!(Some(*line) < fault.line(), "{package}"),
        (Err(_), _) => assert_eq!(older, newer, "{package}"),
    }
    older == newer
}

/// The same rule by the reader of whole directives: its actions are those of its list, and what is refused is known.
fn check_directive(source: &str, list: &str, actions: Result<Vec<Sourced<Action>>, Refusal>) {
    check_versions(source);
    match (seclang::directives(source, Version::V2_6), actions) {
        (Ok(read), Ok(actions)) => {
            assert_eq!((read.len(), read[0].line, read[0].bytes.clone()), (1, 1, 0..source.len()), "{source}");
            check_sources(source, read[0].actions(), list, &actions);
        }
        (Err(Refusal::InDirective { line, why }), Err(refusal)) => {
            assert_eq!((line, why.to_string()), (1, refusal.to_string()), "{source}");
            let [there, here] = [(source, &*why), (list, &refusal)].map(|(text, refusal)| &text[refusal.span().expect("a span")]);
            assert!(there.contains('\\') || there == here, "{source}: {there} and {here}");
        }
        (read, _) => assert!(known(source) && read == Err(Refusal::WrongCount { line: 1 }), "{source}: {read:?}"),
    }
}

/// Whether a list is written back: then it is read as the same actions, and else an expirevar in marks took the closing one with it.
fn check_written(list: &str, actions: &[Sourced<Action>]) -> bool {
    let things = |list: &[Sourced<Action>]| list.iter().map(|one| one.thing.clone()).collect::<Vec<_>>();
    match seclang::write_actions(actions) {
        Ok(written) => assert_eq!(things(&seclang::parse_actions(&written).expect(&written)), things(actions), "{list}"),
        Err(refusal) => {
            assert!(matches!(&actions[refusal.action].thing, Action::ExpireVar { variable, .. } if variable.starts_with('\'')), "{list}");
            return false;
        }
    }
    true
}

#[derive(Default)]
struct Seen {
    rules: usize,
    tokens: usize,
    actions: usize,
    unwritten: usize,
    ids: Vec<u64>,
    refused: Vec<String>,
}

impl Seen {
    /// A rule by its directive and arguments; a list that is refused is told by its source.
    fn rule(&mut self, directive: &str, arguments: &[&str], source: &str) {
        let list = match (directive, arguments) {
            ("secrule", [variables, operator, list @ ..]) => {
                check_variables(variables);
                check_operator(operator);
                list.first().copied().unwrap_or_default()
            }
            ("secaction", [list]) => list,
            _ => return,
        };
        self.rules += 1;
        check_directive(source, list, seclang::parse_actions(list));
        let Ok(actions) = seclang::parse_actions(list) else { return self.refused.push(source.to_string()) };
        let parts = parts(list);
        assert_eq!(parts.len(), actions.len(), "{list}");
        parts.iter().zip(&actions).for_each(|(part, action)| check_action(part, action));
        assert!(parts.iter().zip(&actions).all(|(part, action)| list[action.source.clone()] == **part), "{list}");
        let phase = actions.iter().find_map(|action| if let Action::Phase(n) = action.thing { Some(n) } else { None });
        assert_eq!(seclang::phase(&actions), phase.unwrap_or(2));
        self.actions += actions.len();
        self.unwritten += usize::from(!check_written(list, &actions));
        self.ids.extend(actions.iter().filter_map(|action| if let Action::Id(id) = action.thing { Some(id) } else { None }));
    }

    fn text(&mut self, text: &str) {
        let all = seclang::tokens(text).expect("ASCII within the limit");
        assert_eq!(all.stop.place, text.len());
        assert_eq!(seclang::plain_tokens(text).as_ref(), Ok(&all));
        all.list.iter().fold(Reached::START, |reached, token| {
            check_token(text, reached, token);
            reached.to(text, token.bytes.end)
        });
        self.tokens += all.list.len();
        let is_directive = |token: &Token| matches!(token.kind, TokenKind::Directive(_));
        let starts: Vec<usize> = (0..all.list.len()).filter(|at| is_directive(&all.list[*at])).collect();
        for (nth, start) in starts.iter().enumerate() {
            let line = &all.list[*start..*starts.get(nth + 1).unwrap_or(&all.list.len())];
            let is_end = |token: &&Token| matches!(token.kind, TokenKind::Newline | TokenKind::Comment);
            let line: Vec<&Token> = line.iter().take_while(|token| !is_end(token)).collect();
            let arguments: Vec<&str> = line[1..].iter().map(|token| token.text()).collect();
            let source = &text[line[0].bytes.start..line[line.len() - 1].bytes.end];
            self.rule(&line[0].text().to_ascii_lowercase(), &arguments, source);
        }
    }
}

/// The lines of a file that are no comments.
fn lines(file: &str) -> impl Iterator<Item = &str> {
    file.lines().filter(|line| !line.trim_start().starts_with('#'))
}

/// Ids as a search for `id:` and digits finds them.
fn searched_ids(file: &str) -> Vec<u64> {
    let behind = lines(file).flat_map(|line| line.split("id:").zip(line.split("id:").skip(1)));
    let starts = behind.filter(|(before, _)| before.is_empty() || before.ends_with(['"', ',', ' ']));
    starts.filter_map(|(_, after)| after.split(|c: char| !c.is_ascii_digit()).next()?.parse().ok()).collect()
}

/// What is known to be refused: a number in quotation marks, and a quotation mark inside a word, which ends that word.
fn known(source: &str) -> bool {
    source.contains("id:'") || source.contains("TX:'")
}

fn check_file(path: &Path) -> Seen {
    let bytes = std::fs::read(path).expect("a file that can be read");
    let (mut seen, mut whole) = (Seen::default(), String::new());
    for text in texts(&bytes).iter().map(|text| plain(text)) {
        seen.text(&text);
        whole.push_str(&text);
    }
    assert!(seen.refused.iter().all(|source| known(source)), "{}: {:?}", path.display(), seen.refused);
    assert_eq!(seen.refused.len(), lines(&whole).filter(|line| known(line)).count(), "{}", path.display());
    let dropped = |id: &u64| seen.refused.iter().any(|source| source.contains(&format!("id:{id}")));
    let ids: Vec<u64> = searched_ids(&whole).into_iter().filter(|id| !dropped(id)).collect();
    assert_eq!(seen.ids, ids, "{}", path.display());
    seen
}

#[test]
fn the_sample_is_read() {
    let seen = check_file(&Path::new(env!("CARGO_MANIFEST_DIR")).join("../../samples/desk.conf"));
    assert_eq!((seen.rules, seen.tokens, seen.actions, seen.ids, seen.unwritten), (1, 9, 4, vec![100001], 0));
}

/// A directive so many bytes and lines further on.
fn moved(directive: &Directive, bytes: usize, lines: usize) -> Directive {
    fn shift<T>(things: &mut [Sourced<T>], bytes: usize) {
        things.iter_mut().for_each(|one| one.source = one.source.start + bytes..one.source.end + bytes);
    }
    let mut there = directive.clone();
    there.line += lines;
    there.bytes = there.bytes.start + bytes..there.bytes.end + bytes;
    match &mut there.kind {
        DirectiveKind::Rule { targets, actions, .. } => {
            shift(&mut targets.variables, bytes);
            shift(&mut targets.exclusions, bytes);
            shift(actions, bytes);
        }
        DirectiveKind::Action(actions) | DirectiveKind::Defaults(actions) => shift(actions, bytes),
        DirectiveKind::Marker(_) | DirectiveKind::Unknown(_) => {}
    }
    there
}

/// The files that are read, joined again and again up to the limit, are read as one package: each where it stands there.
fn check_merged(version: Version) {
    let mut found = Vec::new();
    files(Path::new(FOLDER), &mut found);
    let texts = found.iter().map(|path| plain(&std::fs::read(path).expect("a file that can be read")) + "\n");
    let read: Vec<(String, Vec<Directive>)> =
        texts.filter_map(|text| seclang::directives(&text, version).ok().map(|list| (text, list))).collect();
    if read.is_empty() {
        return println!("left out: there is no Core Rule Set in {FOLDER}");
    }
    let (mut package, mut expected, mut lines) = (String::new(), Vec::new(), 0);
    for (text, list) in read.iter().cycle() {
        if LIMIT < package.len() + text.len() {
            break;
        }
        expected.extend(list.iter().map(|directive| moved(directive, package.len(), lines)));
        lines += text.matches('\n').count();
        package.push_str(text);
    }
    assert!(LIMIT / 2 < package.len());
    assert_eq!(seclang::directives(&package, version), Ok(expected));
}

#[test]
fn a_merged_package_is_read() {
    check_merged(Version::V2_6);
    check_merged(Version::V2_7);
}

/// File by file into one index: no rule has another's id, and the ids are those that a search finds.
#[test]
fn each_id_of_the_core_rule_set_stands_once() {
    let (mut found, mut index, mut searched) = (Vec::new(), Index::with_places(5_000), Vec::new());
    files(Path::new(FOLDER), &mut found);
    for path in &found {
        let text = plain(&std::fs::read(path).expect("a file that can be read"));
        let Ok(list) = seclang::directives(&text, Version::V2_6) else { continue };
        searched.extend(searched_ids(&text));
        for rule in list.iter().filter(|one| is_rule(one)) {
            let added = index.add(rule.actions(), rule.line);
            assert!(added.is_ok(), "{}:{}: {added:?}", path.display(), rule.line);
        }
    }
    searched.sort_unstable();
    assert_eq!(index.iter().map(|(id, _)| id).collect::<Vec<_>>(), searched);
}

#[test]
fn the_core_rule_set_is_read() {
    let mut found = Vec::new();
    files(Path::new(FOLDER), &mut found);
    if found.is_empty() {
        return println!("left out: there is no Core Rule Set in {FOLDER}");
    }
    let seen: Vec<Seen> = found.iter().map(|path| check_file(path)).collect();
    let sum = |of: fn(&Seen) -> usize| seen.iter().map(of).sum::<usize>();
    let [rules, tokens, actions] = [sum(|s| s.rules), sum(|s| s.tokens), sum(|s| s.actions)];
    let [ids, refused, unwritten] = [sum(|s| s.ids.len()), sum(|s| s.refused.len()), sum(|s| s.unwritten)];
    println!("{} files, {tokens} tokens, {rules} rules, {actions} actions, {ids} ids, {refused} lists refused as known", found.len());
    println!("{} files, {unwritten} lists that are not written back, all others read again", found.len());
    assert!(0 < rules && rules / 2 < ids, "rules without ids");
    let same = found.iter().filter(|path| check_versions(&plain(&std::fs::read(path).expect("a file that can be read")))).count();
    println!("{same} of {} files, the same for 2.6 and 2.7", found.len());
}
