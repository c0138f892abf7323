//! The library's codes as enums, their names, and the tests on them.

use crate::raw;

/// An enum whose variants are the library's codes in their order, from the first on.
macro_rules! coded {
    ($(#[$about:meta])* $kind:ident from $first:literal: $($(#[$said:meta])* $variant:ident,)*) => {
        $(#[$about])*
        #[derive(Clone, Copy, Debug, PartialEq, Eq, PartialOrd, Ord, Hash)]
        pub enum $kind {
            $($(#[$said])* $variant,)*
        }

        impl $kind {
            /// All of them, by code.
            pub const ALL: &'static [Self] = &[$(Self::$variant),*];

            /// The library's code for it.
            pub fn code(self) -> u64 {
                $first + self as u64
            }

            /// What has this code.
            pub fn from_code(code: u64) -> Option<Self> {
                let place = code.checked_sub($first)?;
                Self::ALL.get(usize::try_from(place).ok()?).copied()
            }
        }
    };
}

#[path = "tables.rs"]
mod tables;

pub use tables::{ActionCode, DirectiveCode, OperatorName, ValueKind, VariableName};

fn found(table: u64, name: &(impl AsRef<[u8]> + ?Sized)) -> Option<u64> {
    Some(raw::lookup(table, name.as_ref())).filter(|code| *code != raw::UNKNOWN)
}

impl VariableName {
    /// By its name, in any letter case.
    ///
    /// ```
    /// use seclang::VariableName;
    /// assert_eq!(VariableName::find("args_get"), Some(VariableName::ArgsGet));
    /// assert_eq!(VariableName::find("ARGS_PUT"), None);
    /// ```
    pub fn find(name: &(impl AsRef<[u8]> + ?Sized)) -> Option<Self> {
        found(0, name).and_then(Self::from_code)
    }

    /// Its name in rules; none where no rule can name it.
    pub fn name(self) -> Option<&'static str> {
        tables::VARIABLE_NAMES[self as usize]
    }

    /// Whether it holds several values.
    pub fn is_collection(self) -> bool {
        raw::test(0, self.code())
    }

    /// Whether zentinel-modsec, whose readers these are, finds a value for it.
    pub fn is_implemented(self) -> bool {
        raw::test(1, self.code())
    }
}

impl OperatorName {
    /// By its name without the `@`, in any letter case.
    ///
    /// ```
    /// use seclang::OperatorName;
    /// assert_eq!(OperatorName::find("pmFromFile"), Some(OperatorName::PmFromFile));
    /// ```
    pub fn find(name: &(impl AsRef<[u8]> + ?Sized)) -> Option<Self> {
        found(1, name).and_then(Self::from_code)
    }

    /// Its name in rules, without the `@` and in small letters.
    pub fn name(self) -> &'static str {
        tables::OPERATOR_NAMES[self as usize]
    }

    /// Whether it needs an argument.
    pub fn requires_argument(self) -> bool {
        raw::test(2, self.code())
    }
}

/// The number of a severity word, 0 to 7, in any letter case.
///
/// ```
/// assert_eq!(seclang::severity("Critical"), Some(2));
/// ```
pub fn severity(word: &(impl AsRef<[u8]> + ?Sized)) -> Option<u64> {
    found(2, word)
}
