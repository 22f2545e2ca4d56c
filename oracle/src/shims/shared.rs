//! Stands in for `shared` of the move-compiler crate.

use super::{
    diagnostics::{Diagnostic, Diagnostics},
    location::{sp, Loc, Spanned},
    symbol::Symbol,
};
use std::{collections::BTreeMap, fmt};

pub type Name = Spanned<Symbol>;

pub trait TName: Eq + Ord + Clone {
    type Key: Ord + Clone;
    type Loc: Copy;
    fn drop_loc(self) -> (Self::Loc, Self::Key);
    fn add_loc(loc: Self::Loc, key: Self::Key) -> Self;
    fn borrow(&self) -> (&Self::Loc, &Self::Key);
}

pub trait Identifier {
    fn value(&self) -> Symbol;
    fn loc(&self) -> Loc;
}

impl TName for Name {
    type Key = Symbol;
    type Loc = Loc;

    fn drop_loc(self) -> (Loc, Symbol) {
        (self.loc, self.value)
    }

    fn add_loc(loc: Loc, key: Symbol) -> Self {
        sp(loc, key)
    }

    fn borrow(&self) -> (&Loc, &Symbol) {
        (&self.loc, &self.value)
    }
}

/// An address. Whether its number fits is no part of the port, so none is kept.
#[derive(Debug, Clone, Copy, PartialEq, Eq, PartialOrd, Ord, Hash)]
pub struct NumericalAddress;

impl NumericalAddress {
    pub const DEFAULT_ERROR_ADDRESS: NumericalAddress = NumericalAddress;

    pub fn parse_str(_spelling: &str) -> Result<NumericalAddress, String> {
        Ok(NumericalAddress)
    }
}

impl fmt::Display for NumericalAddress {
    fn fmt(&self, formatter: &mut fmt::Formatter<'_>) -> fmt::Result {
        formatter.write_str("address")
    }
}

pub type NamedAddressMap = BTreeMap<Symbol, NumericalAddress>;

#[derive(Clone, Copy, Debug, PartialEq, Eq)]
pub struct NamedAddressMapIndex(usize);

#[derive(Clone, Debug, PartialEq, Eq)]
pub struct NamedAddressMaps(Vec<NamedAddressMap>);

impl NamedAddressMaps {
    pub fn get(&self, index: NamedAddressMapIndex) -> &NamedAddressMap {
        &self.0[index.0]
    }
}

/// Takes the diagnostics that do not end a reading, and drops them.
pub struct CompilationEnv;

impl CompilationEnv {
    pub fn add_diag(&mut self, _diag: Diagnostic) {}

    pub fn add_diags(&mut self, _diags: Diagnostics) {}
}

/// The debug printer, of which nothing is used: it prints nothing.
pub mod ast_debug {
    use super::Spanned;

    pub struct AstWriter;

    impl AstWriter {
        pub fn new_line(&mut self) {}

        pub fn write<T>(&mut self, _words: T) {}

        pub fn writeln<T>(&mut self, _words: T) {}

        pub fn block<F: FnOnce(&mut AstWriter)>(&mut self, _inner: F) {}

        pub fn list<T, I, F>(&mut self, _items: I, _between: &str, _one: F)
        where
            I: IntoIterator<Item = T>,
            F: FnMut(&mut AstWriter, T) -> bool,
        {
        }

        pub fn comma<T, I, F>(&mut self, _items: I, _one: F)
        where
            I: IntoIterator<Item = T>,
            F: FnMut(&mut AstWriter, T),
        {
        }

        pub fn semicolon<T, I, F>(&mut self, _items: I, _one: F)
        where
            I: IntoIterator<Item = T>,
            F: FnMut(&mut AstWriter, T),
        {
        }
    }

    pub trait AstDebug {
        fn ast_debug(&self, writer: &mut AstWriter);
    }

    impl<T: AstDebug> AstDebug for Box<T> {
        fn ast_debug(&self, _writer: &mut AstWriter) {}
    }

    impl<T: AstDebug> AstDebug for Spanned<T> {
        fn ast_debug(&self, _writer: &mut AstWriter) {}
    }
}
