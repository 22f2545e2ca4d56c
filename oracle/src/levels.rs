//! Where the specification's limit of 64 levels strikes. The Rust has no such limit, so
//! the levels are counted here, by a walk of its own over the Rust's tokens.
//!
//! The outermost type or binding is level 1, one inside it is one more. A field
//! counts as the item of its list, and its binding adds none. A level is tested when
//! its item is due: when the list has ruled out a close and a comma, or at once
//! behind `&`, `&mut` and a function's closing `|`.
//!
//! The same walk finds the brackets round one type, which the Rust's tree has not.

use crate::{
    brackets::{Brackets, Span},
    files::THE_FILE,
    parser::lexer::{Lexer, Tok},
    parsing::ItemKind,
};

pub const LEVELS: usize = 64;

/// How a walk can end before the item does.
#[derive(Clone, Copy, PartialEq, Eq, Debug)]
enum Stop {
    /// At a token that is not due or not accepted: what the Rust says of it holds.
    Fault,
    /// At the first token of an item on level 65, which has this span.
    TooDeep(usize, usize),
}

type Walked<T = ()> = Result<T, Stop>;

/// The first token of the first item at level 65, if one is met before the Rust
/// refuses. The lexer must not panic on the text.
pub fn strike(kind: ItemKind, text_from_base: &str, base: usize) -> Option<(usize, usize)> {
    // Only these open a level.
    let opens = |byte: &u8| matches!(byte, b'(' | b'&' | b'|' | b'<' | b'{');
    let text = text_from_base.as_bytes();
    if text.len() < LEVELS || text.iter().filter(|byte| opens(byte)).count() < LEVELS {
        return None;
    }
    match Walker::new(text_from_base).walk(kind) {
        Err(Stop::TooDeep(start, end)) => Some((base + start, base + end)),
        Ok(()) | Err(Stop::Fault) => None,
    }
}

/// The brackets round one type in an item that the Rust reads from the text. Those
/// that stand deeper than 64 levels are left out.
pub fn brackets(kind: ItemKind, text_from_base: &str) -> Brackets {
    let mut walker = Walker::new(text_from_base);
    if text_from_base.contains('(') {
        // Where the levels end, so does the walk.
        let _ = walker.walk(kind);
    }
    walker.brackets
}

struct Walker<'t> {
    lexer: Lexer<'t>,
    /// Where the last token that was taken ends.
    end: usize,
    brackets: Brackets,
}

impl<'t> Walker<'t> {
    fn new(text: &'t str) -> Walker<'t> {
        Walker {
            lexer: Lexer::new(text, THE_FILE),
            end: 0,
            brackets: Brackets::default(),
        }
    }

    fn walk(&mut self, kind: ItemKind) -> Walked {
        self.advance()?;
        match kind {
            // They have no levels.
            ItemKind::Name | ItemKind::Value => Ok(()),
            ItemKind::Type => self.item_type(1),
            ItemKind::BindList if self.is(Tok::LParen) => {
                self.list(Tok::RParen, 1, Walker::item_bind).map(|_| ())
            }
            ItemKind::BindList => self.item_bind(1),
            ItemKind::LambdaBindList if self.is(Tok::Pipe) => {
                self.list(Tok::Pipe, 1, Walker::item_bind).map(|_| ())
            }
            ItemKind::LambdaBindList => Err(Stop::Fault),
        }
    }

    fn is(&self, token: Tok) -> bool {
        self.lexer.peek() == token
    }

    fn advance(&mut self) -> Walked {
        self.end = self.lexer.end_loc();
        self.lexer.advance().map_err(|_| Stop::Fault)
    }

    fn take(&mut self, token: Tok) -> Walked {
        if self.is(token) {
            self.advance()
        } else {
            Err(Stop::Fault)
        }
    }

    /// The test of a level.
    fn due(&self, level: usize) -> Walked {
        if level > LEVELS {
            return Err(Stop::TooDeep(self.lexer.start_loc(), self.lexer.end_loc()));
        }
        Ok(())
    }

    /// A list from its opening token to its closing one; gives the spans of its items.
    fn list(
        &mut self,
        close: Tok,
        level: usize,
        item: fn(&mut Self, usize) -> Walked,
    ) -> Walked<Vec<Span>> {
        let mut items = vec![];
        self.advance()?;
        loop {
            self.split(close);
            if self.is(close) {
                return self.advance().map(|()| items);
            }
            if self.is(Tok::Comma) {
                return Err(Stop::Fault);
            }
            let start = self.lexer.start_loc();
            item(self, level)?;
            items.push((start, self.end));
            self.split(close);
            if !self.is(close) {
                self.take(Tok::Comma)?;
            }
        }
    }

    fn split(&mut self, close: Tok) {
        if close == Tok::Greater && self.is(Tok::GreaterGreater) {
            self.lexer.replace_token(Tok::Greater, 1);
        }
    }

    fn item_type(&mut self, level: usize) -> Walked {
        self.due(level)?;
        match self.lexer.peek() {
            Tok::LParen => {
                let start = self.lexer.start_loc();
                let items = self.list(Tok::RParen, level + 1, Walker::item_type)?;
                if let [inner] = items[..] {
                    self.brackets.put((start, self.end), inner);
                }
                Ok(())
            }
            Tok::Amp | Tok::AmpMut => {
                self.advance()?;
                self.item_type(level + 1)
            }
            Tok::Pipe => {
                self.list(Tok::Pipe, level + 1, Walker::item_type)?;
                self.item_type(level + 1)
            }
            _ => {
                self.chain()?;
                self.type_arguments(level)
            }
        }
    }

    fn type_arguments(&mut self, level: usize) -> Walked {
        if self.is(Tok::Less) {
            self.list(Tok::Greater, level + 1, Walker::item_type)?;
        }
        Ok(())
    }

    /// A name; gives how many parts it has.
    fn chain(&mut self) -> Walked<usize> {
        if self.is(Tok::NumValue) {
            self.advance()?;
            if !self.is(Tok::ColonColon) {
                return Err(Stop::Fault);
            }
        } else {
            self.take(Tok::Identifier)?;
        }
        let mut parts = 1;
        while parts < 3 && self.is(Tok::ColonColon) {
            self.advance()?;
            self.take(Tok::Identifier)?;
            parts += 1;
        }
        Ok(parts)
    }

    fn item_bind(&mut self, level: usize) -> Walked {
        self.due(level)?;
        self.bind(level)
    }

    /// A binding whose level needs no test.
    fn bind(&mut self, level: usize) -> Walked {
        let parts = self.chain()?;
        if parts == 1 && !self.is(Tok::LBrace) && !self.is(Tok::Less) {
            return Ok(());
        }
        self.type_arguments(level)?;
        if !self.is(Tok::LBrace) {
            return Err(Stop::Fault);
        }
        self.list(Tok::RBrace, level + 1, Walker::item_field)
            .map(|_| ())
    }

    fn item_field(&mut self, level: usize) -> Walked {
        self.due(level)?;
        self.take(Tok::Identifier)?;
        if self.is(Tok::Colon) {
            self.advance()?;
            self.bind(level)?;
        }
        Ok(())
    }
}

#[cfg(test)]
mod tests {
    use super::*;
    use crate::parsing::parse;

    /// Every text up to `longest` bytes of the alphabet.
    fn every_text(alphabet: &str, longest: usize, visit: &mut impl FnMut(&str)) {
        fn longer(text: &mut String, alphabet: &str, left: usize, visit: &mut impl FnMut(&str)) {
            visit(text);
            if left > 0 {
                for letter in alphabet.chars() {
                    text.push(letter);
                    longer(text, alphabet, left - 1, visit);
                    text.pop();
                }
            }
        }
        longer(&mut String::new(), alphabet, longest, visit);
    }

    /// The walk must go the Rust's way: to the end of what the Rust accepts, and not
    /// past a refusal.
    #[test]
    fn the_walk_accepts_what_the_rust_accepts() {
        every_text("a0<>(|,&:{}) ", 5, &mut |text| {
            for kind in [ItemKind::Type, ItemKind::BindList, ItemKind::LambdaBindList] {
                let accepted = parse(kind, text, 0).answer.unwrap().result == 0;
                let walked = Walker::new(text).walk(kind);
                let expected = if accepted { Ok(()) } else { Err(Stop::Fault) };
                assert_eq!(walked, expected, "{kind:?} '{text}'");
            }
        });
    }
}
