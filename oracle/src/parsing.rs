//! Asks the Rust to read an item: one of five functions of syntax.rs, after
//! `Lexer::new` and one `advance`, panics caught.

use crate::{
    answer::Answer,
    brackets::Brackets,
    diagnostics::{
        codes::{Code, Syntax},
        Diagnostic,
    },
    files::THE_FILE,
    levels::brackets,
    location::Loc,
    parser::{
        ast::{BindList, NameAccessChain, Type, Value},
        lexer::Lexer,
        syntax,
    },
    reading::{caught, refusal_number},
    tree::Tree,
};
use std::thread;

/// What is read, by the specification's numbers.
#[derive(Clone, Copy, PartialEq, Eq, Debug)]
pub enum ItemKind {
    Name = 1,
    Value,
    Type,
    BindList,
    LambdaBindList,
}

impl ItemKind {
    pub const ALL: [ItemKind; 5] = [
        ItemKind::Name,
        ItemKind::Value,
        ItemKind::Type,
        ItemKind::BindList,
        ItemKind::LambdaBindList,
    ];

    pub fn numbered(number: u64) -> Option<ItemKind> {
        ItemKind::ALL
            .into_iter()
            .find(|kind| *kind as u64 == number)
    }
}

/// An item: the Rust's own tree, and the brackets round one type, which it has not.
#[derive(Clone, PartialEq, Debug)]
pub struct Item {
    pub parsed: Parsed,
    pub brackets: Brackets,
}

#[derive(Clone, PartialEq, Debug)]
pub enum Parsed {
    Name(NameAccessChain),
    Value(Value),
    Type(Type),
    BindList(BindList),
    LambdaBindList(BindList),
}

/// What the Rust gave for one item.
pub struct Parse {
    /// None where the Rust panicked. The room for the tree is not looked at.
    pub answer: Option<Answer>,
    /// None where the item is refused.
    pub item: Option<Item>,
    /// The stored tree; empty where the item is refused.
    pub tree: Vec<u8>,
    /// Where the last token that was read starts.
    pub reached: usize,
}

/// Reads an item of the text from `base` on, all places raised by `base`.
pub fn parse(kind: ItemKind, text_from_base: &str, base: usize) -> Parse {
    let mut lexer = Lexer::new(text_from_base, THE_FILE);
    let mut parsed = None;
    let outcome = caught(|| {
        lexer.advance()?;
        parsed = item_of(kind, &mut lexer)?;
        Ok(parsed.is_some())
    });
    let item = parsed.map(|parsed| Item {
        parsed,
        brackets: brackets(kind, text_from_base),
    });
    let tree = item.as_ref().map_or(vec![], |item| {
        Tree::of(item, base, base + text_from_base.len())
    });
    let (start, end) = (base + lexer.start_loc(), base + lexer.end_loc());
    let answer = outcome.map(|given| match given {
        Ok(true) => Answer::read(tree.len(), lexer.peek() as u64, start, end),
        Ok(false) => Answer::refused(13, start, end),
        Err(diagnostic) => refusal(&diagnostic, base),
    });
    Parse {
        answer,
        item,
        tree,
        reached: start,
    }
}

/// The item that the lexer stands before; None where the Rust finds no value.
fn item_of(kind: ItemKind, lexer: &mut Lexer) -> Result<Option<Parsed>, Diagnostic> {
    Ok(match kind {
        ItemKind::Name => Some(Parsed::Name(syntax::read_name(lexer)?)),
        ItemKind::Value => syntax::read_value(lexer)?.map(Parsed::Value),
        ItemKind::Type => Some(Parsed::Type(syntax::read_type(lexer)?)),
        ItemKind::BindList => Some(Parsed::BindList(syntax::read_bind_list(lexer)?)),
        ItemKind::LambdaBindList => {
            let list = syntax::read_lambda_bind_list(lexer)?;
            Some(Parsed::LambdaBindList(list))
        }
    })
}

/// A diagnostic in the numbers of the specification. The refusals of the parser share one
/// code: 11 has one place, 12 speaks of what opened the list, 10 is the others.
fn refusal(diagnostic: &Diagnostic, base: usize) -> Answer {
    let span = |loc: Loc| (base + loc.start() as usize, base + loc.end() as usize);
    let place = span(diagnostic.place);
    if diagnostic.code != Code::Syntax(Syntax::UnexpectedToken) {
        return Answer::refused(refusal_number(diagnostic), place.0, place.1);
    }
    let number = match (&diagnostic.message, diagnostic.second_places.first()) {
        (message, None) if message.starts_with("Expected ") => 11,
        (message, Some((_, second)))
            if message.starts_with("Expected ") && second.starts_with("To match this ") =>
        {
            12
        }
        (message, Some((_, second)))
            if message.starts_with("Unexpected ") && second.starts_with("Expected ") =>
        {
            10
        }
        _ => panic!("the parser gave {diagnostic:?}"),
    };
    let second = match diagnostic.second_places[..] {
        [] => place,
        [(second, _)] => span(second),
        _ => panic!("the parser gave {diagnostic:?}"),
    };
    Answer::refused_at_two(number, place, second)
}

/// Enough for the deepest item that a text can hold: the Rust calls itself without
/// limit. Only what is used of it takes memory.
const DEEP: usize = 1 << 30;

/// Runs on a thread with a large stack.
pub fn on_a_deep_stack<T: Send>(run: impl FnOnce() -> T + Send) -> T {
    thread::scope(|scope| {
        thread::Builder::new()
            .stack_size(DEEP)
            .spawn_scoped(scope, run)
            .expect("a thread can be started")
            .join()
            .unwrap_or_else(|panic| std::panic::resume_unwind(panic))
    })
}
