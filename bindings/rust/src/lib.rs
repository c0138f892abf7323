//! Readers of SecRule packages (web application firewall rules) for Rust hosts, over `libseclang`, in which each function is proved
//! to meet its contract.
//!
//! The functions here take any bytes, size what the library is lent, and give Rust types back: [`Directive`], [`Token`], [`Action`],
//! [`Variable`], [`Operator`], or a [`Refusal`]. Actions, variables and exclusions know which bytes they were read from ([`Sourced`]),
//! and a refusal shows its own as a compiler does ([`Refusal::message`]). A package is read for ModSecurity before or from 2.7 on
//! ([`Version`]). An [`Index`] tells which rules stand, by id. Actions that were read and changed go back to text by [`write_actions`].
//! [`raw`] has the library's own functions over lent buffers.
//!
//! ```
//! use seclang::{Action, OperatorName, TokenKind, VariableName, Version};
//!
//! let package = "SecRule ARGS|!ARGS:token \"@rx (?i)union\" \"id:7,phase:1,deny,msg:'a, b'\"\n";
//! let arguments: Vec<String> = seclang::tokens(package)?.list.into_iter().filter_map(|token| match token.kind {
//!     TokenKind::Word(text) | TokenKind::QuotedString(text) => Some(text),
//!     _ => None,
//! }).collect();
//! let [variables, operator, actions] = &arguments[..] else { panic!("three arguments") };
//!
//! let targets = seclang::parse_variables(variables)?;
//! assert_eq!(targets.variables[0].name, VariableName::Args);
//! assert_eq!(targets.exclusions, ["ARGS:token"]);
//!
//! let operator = seclang::parse_operator(operator)?;
//! assert_eq!((operator.name, operator.argument), (OperatorName::Rx, "(?i)union"));
//!
//! let actions = seclang::parse_actions(actions)?;
//! assert_eq!(actions[0], Action::Id(7));
//! assert_eq!(actions[3], Action::Msg("a, b".to_string()));
//! assert_eq!(seclang::phase(&actions), 1);
//!
//! let refusal = seclang::directives("SecAction \"id:7,dney\"", Version::V2_7).unwrap_err();
//! assert_eq!(refusal.message("desk.conf", "SecAction \"id:7,dney\""), "\
//! desk.conf:1:17: unknown action 'dney'
//! SecAction \"id:7,dney\"
//!                 ^~~~");
//! # Ok::<(), seclang::Refusal>(())
//! ```
//!
//! # Panics
//!
//! Nothing here panics with the library that this crate was made for, whose [`version`] is [`VERSION`]. A number or a code that it
//! does not know is another library's, and the call that met it panics.
#![deny(missing_docs, unsafe_code)]

mod actions;
mod codes;
mod directives;
mod index;
mod lent;
mod messages;
mod operators;
#[allow(unsafe_code)]
pub mod raw;
mod refusals;
mod rules;
mod sources;
mod spans;
mod tokens;
mod variables;
mod writing;

pub use actions::{parse_actions, parse_setvar, Action, SetVar, SetVarValue};
pub use codes::{severity, ActionCode, DirectiveCode, OperatorName, ValueKind, VariableName};
pub use directives::{directives, Directive, DirectiveKind, RuleOperator, Version};
pub use index::{Index, IndexRefusal};
pub use operators::{parse_operator, Operator};
pub use refusals::{Flaw, Refusal};
pub use rules::{grade, phase, RuleIdSelector};
pub use sources::Sourced;
pub use spans::{span_from_old, span_to_old};
pub use tokens::{list_text, next_token, plain_tokens, tokens, Cursor, Step, Stop, Token, TokenKind, Tokens};
pub use variables::{parse_update_targets, parse_variables, Selection, Targets, Variable, XmlTarget};
pub use writing::{write_actions, NotWritten};

/// The longest input that is read, in bytes.
pub const LIMIT: usize = 1_048_576;

/// The version of the library that this crate was made for.
pub const VERSION: u64 = 5;

/// The version of the library that is linked.
///
/// ```
/// assert_eq!(seclang::version(), seclang::VERSION);
/// ```
#[inline]
pub fn version() -> u64 {
    raw::version()
}
