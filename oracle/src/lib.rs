//! The Rust lexer and parser of Move, byte for byte, as the judge of the port.

// The included files name these crates; the stand-ins below take their places.
extern crate self as move_command_line_common;
extern crate self as move_ir_types;
extern crate self as move_symbol_pool;

#[macro_use]
mod shims;
pub use shims::{
    diagnostics, files, location, shared, symbol::Symbol, FileCommentMap, MatchedFileCommentMap,
};

pub mod answer;
pub mod brackets;
pub mod builds;
pub mod carrying;
pub mod displays;
pub mod editions;
pub mod expected;
pub mod items;
pub mod lent;
pub mod levels;
pub mod line;
pub mod long_items;
mod memo;
pub mod numbers;
pub mod opening;
#[cfg(test)]
mod opening_flaws;
pub mod opening_sets;
pub mod outline_sets;
pub mod outlining;
pub mod parsing;
pub mod points;
pub mod properties;
pub mod random;
pub mod reading;
pub mod reads;
#[cfg(test)]
mod sha256;
pub mod starts;
pub mod texts;
pub mod tree;
pub mod type_sizes;
pub mod variants;

/// The sha256 of each included file, to which the build held it.
pub const SOURCES: &str = include_str!("../SHA256SUMS");

/// The Rust files themselves.
#[allow(dead_code, clippy::all)]
pub mod parser {
    pub mod ast {
        include!(concat!(env!("MOVE_PARSER"), "/ast.rs"));
    }

    pub mod lexer {
        include!(concat!(env!("MOVE_PARSER"), "/lexer.rs"));

        // Two private things of the lexer that a comparison needs to see.
        impl Lexer<'_> {
            /// Where the current token ends.
            pub fn end_loc(&self) -> usize {
                self.cur_end
            }

            /// The doc comments that are not matched to anything yet.
            pub fn doc_comments(&self) -> &FileCommentMap {
                &self.doc_comments
            }
        }
    }

    pub mod syntax {
        include!(concat!(env!("MOVE_PARSER"), "/syntax.rs"));

        // The five private functions that read an item. The first token is read.

        pub fn read_name(tokens: &mut Lexer) -> Result<NameAccessChain, Diagnostic> {
            parse_name_access_chain(&mut Context::new(&mut CompilationEnv, tokens), || "a name")
        }

        pub fn read_value(tokens: &mut Lexer) -> Result<Option<Value>, Diagnostic> {
            maybe_parse_value(&mut Context::new(&mut CompilationEnv, tokens))
        }

        pub fn read_type(tokens: &mut Lexer) -> Result<Type, Diagnostic> {
            parse_type(&mut Context::new(&mut CompilationEnv, tokens))
        }

        pub fn read_bind_list(tokens: &mut Lexer) -> Result<BindList, Diagnostic> {
            parse_bind_list(&mut Context::new(&mut CompilationEnv, tokens))
        }

        pub fn read_lambda_bind_list(tokens: &mut Lexer) -> Result<BindList, Diagnostic> {
            parse_lambda_bind_list(&mut Context::new(&mut CompilationEnv, tokens))
        }
    }
}
