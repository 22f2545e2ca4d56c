//! Stands in for the diagnostics of the move-compiler crate. What is kept of a
//! diagnostic is its code, its places and what is said of them. The port has no
//! messages; here they tell apart the refusals that share a code.

use super::location::Loc;

/// The codes that lexer.rs and syntax.rs name.
pub mod codes {
    #[derive(Debug, Clone, Copy, PartialEq, Eq)]
    pub enum Syntax {
        InvalidCharacter,
        UnexpectedToken,
        InvalidModifier,
        InvalidDocComment,
        InvalidAddress,
        InvalidHexString,
        InvalidByteString,
        InvalidSpecBlockMember,
    }

    #[derive(Debug, Clone, Copy, PartialEq, Eq)]
    pub enum Declarations {
        DuplicateItem,
    }

    #[derive(Debug, Clone, Copy, PartialEq, Eq)]
    pub enum Uncategorized {
        DeprecatedWillBeRemoved,
    }

    /// Any of these.
    #[derive(Debug, Clone, Copy, PartialEq, Eq)]
    pub enum Code {
        Syntax(Syntax),
        Declarations(Declarations),
        Uncategorized(Uncategorized),
    }

    impl From<Syntax> for Code {
        fn from(code: Syntax) -> Code {
            Code::Syntax(code)
        }
    }

    impl From<Declarations> for Code {
        fn from(code: Declarations) -> Code {
            Code::Declarations(code)
        }
    }

    impl From<Uncategorized> for Code {
        fn from(code: Uncategorized) -> Code {
            Code::Uncategorized(code)
        }
    }
}

#[derive(Debug, Clone, PartialEq, Eq)]
pub struct Diagnostic {
    pub code: codes::Code,
    pub place: Loc,
    pub message: String,
    pub second_places: Vec<(Loc, String)>,
}

impl Diagnostic {
    pub fn new<Note>(
        code: impl Into<codes::Code>,
        (place, message): (Loc, impl Into<String>),
        second_places: impl IntoIterator<Item = (Loc, impl Into<String>)>,
        _notes: impl IntoIterator<Item = Note>,
    ) -> Diagnostic {
        Diagnostic {
            code: code.into(),
            place,
            message: message.into(),
            second_places: second_places
                .into_iter()
                .map(|(place, message)| (place, message.into()))
                .collect(),
        }
    }

    pub fn add_secondary_label(&mut self, (place, message): (Loc, impl Into<String>)) {
        self.second_places.push((place, message.into()))
    }
}

#[derive(Debug, Clone, PartialEq, Eq, Default)]
pub struct Diagnostics(pub Vec<Diagnostic>);

impl From<Vec<Diagnostic>> for Diagnostics {
    fn from(diagnostics: Vec<Diagnostic>) -> Diagnostics {
        Diagnostics(diagnostics)
    }
}

impl FromIterator<Diagnostic> for Diagnostics {
    fn from_iter<I: IntoIterator<Item = Diagnostic>>(diagnostics: I) -> Diagnostics {
        Diagnostics(diagnostics.into_iter().collect())
    }
}

/// As in diagnostics/mod.rs.
#[macro_export]
macro_rules! diag {
    ($code: expr, $primary: expr $(,)?) => {{
        #[allow(unused)]
        use $crate::diagnostics::codes::*;
        $crate::diagnostics::Diagnostic::new(
            $code,
            $primary,
            std::iter::empty::<(move_ir_types::location::Loc, String)>(),
            std::iter::empty::<String>(),
        )
    }};
    ($code: expr, $primary: expr, $($secondary: expr),+ $(,)?) => {{
        #[allow(unused)]
        use $crate::diagnostics::codes::*;
        $crate::diagnostics::Diagnostic::new(
            $code,
            $primary,
            vec![$($secondary, )*],
            std::iter::empty::<String>(),
        )
    }};
}
