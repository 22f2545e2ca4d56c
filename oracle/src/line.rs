//! The display line of the specification, written from the Rust's trees. Brackets are shown
//! where they were written and nowhere else (docs/DIFFERENCES.md).

use crate::{
    brackets::{Brackets, Span},
    location::Loc,
    parser::ast::{
        Bind, Bind_, Field, LeadingNameAccess, NameAccessChain, NameAccessChain_, Type, Type_,
        Value, Value_,
    },
    parsing::{Item, Parsed},
    shared::{Identifier, Name},
};

/// The line of an item that the Rust read in this text.
pub fn line_of(item: &Item, text: &[u8]) -> Vec<u8> {
    let mut line = Line {
        text,
        brackets: &item.brackets,
        bytes: vec![],
    };
    match &item.parsed {
        Parsed::Name(chain) => line.chain(chain),
        Parsed::Value(value) => line.value(value),
        Parsed::Type(given) => line.type_(given),
        Parsed::BindList(list) => {
            line.push("(");
            line.list(&list.value, Line::bind);
            line.push(")")
        }
        Parsed::LambdaBindList(list) => line.bars(&list.value, Line::bind),
    }
    line.bytes
}

struct Line<'t> {
    text: &'t [u8],
    brackets: &'t Brackets,
    bytes: Vec<u8>,
}

impl Line<'_> {
    fn push(&mut self, words: &str) {
        self.bytes.extend_from_slice(words.as_bytes())
    }

    /// A leaf, as the text spells it.
    fn leaf(&mut self, loc: Loc) {
        let spelling = &self.text[loc.start() as usize..loc.end() as usize];
        self.bytes.extend_from_slice(spelling)
    }

    /// `a, b`
    fn list<T>(&mut self, items: &[T], show: fn(&mut Self, &T)) {
        for (at, item) in items.iter().enumerate() {
            if at > 0 {
                self.push(", ");
            }
            show(self, item)
        }
    }

    /// `|a, b|`, and `| |` round nothing.
    fn bars<T>(&mut self, items: &[T], show: fn(&mut Self, &T)) {
        if items.is_empty() {
            return self.push("| |");
        }
        self.push("|");
        self.list(items, show);
        self.push("|")
    }

    fn name(&mut self, name: &Name) {
        self.leaf(name.loc)
    }

    fn first_part(&mut self, first: &LeadingNameAccess) {
        self.leaf(first.loc)
    }

    fn chain(&mut self, chain: &NameAccessChain) {
        match &chain.value {
            NameAccessChain_::One(name) => self.name(name),
            NameAccessChain_::Two(first, name) => {
                self.first_part(first);
                self.push("::");
                self.name(name)
            }
            NameAccessChain_::Three(pair, name) => {
                let (first, second) = &pair.value;
                self.first_part(first);
                self.push("::");
                self.name(second);
                self.push("::");
                self.name(name)
            }
        }
    }

    fn value(&mut self, value: &Value) {
        match &value.value {
            Value_::Address(first) => {
                self.push("@");
                self.first_part(first)
            }
            Value_::Num(_) | Value_::Bool(_) | Value_::HexString(_) | Value_::ByteString(_) => {
                self.leaf(value.loc)
            }
        }
    }

    fn type_(&mut self, given: &Type) {
        let span = (given.loc.start() as usize, given.loc.end() as usize);
        self.type_at(given, span)
    }

    /// A type that has this span, its brackets counted.
    fn type_at(&mut self, given: &Type, span: Span) {
        if let Some(inner) = self.brackets.inside(span) {
            self.push("(");
            self.type_at(given, inner);
            return self.push(")");
        }
        match &given.value {
            Type_::Apply(chain, arguments) => {
                self.chain(chain);
                if !arguments.is_empty() {
                    self.angles(arguments)
                }
            }
            Type_::Ref(mutable, inner) => {
                self.push(if *mutable { "&mut " } else { "& " });
                self.type_(inner)
            }
            Type_::Fun(arguments, result) => {
                self.bars(arguments, Line::type_);
                self.push(" ");
                self.type_(result)
            }
            Type_::Unit => self.push("()"),
            Type_::Multiple(types) => {
                self.push("(");
                self.list(types, Line::type_);
                self.push(")")
            }
        }
    }

    fn angles(&mut self, types: &[Type]) {
        self.push("<");
        self.list(types, Line::type_);
        self.push(">")
    }

    fn bind(&mut self, bind: &Bind) {
        match &bind.value {
            Bind_::Var(variable) => self.leaf(variable.loc()),
            Bind_::Unpack(chain, types, fields) => {
                self.chain(chain);
                if let Some(types) = types {
                    self.angles(types)
                }
                self.push(" {");
                self.list(fields, Line::field);
                self.push("}")
            }
        }
    }

    fn field(&mut self, (field, bind): &(Field, Bind)) {
        self.name(&field.0);
        self.push(": ");
        self.bind(bind)
    }
}

#[cfg(test)]
mod tests {
    use super::*;
    use crate::parsing::{parse, ItemKind};

    fn shown(kind: ItemKind, text: &str, line: &str) {
        let item = parse(kind, text, 0).item.expect("an item");
        let found = line_of(&item, text.as_bytes());
        assert_eq!(String::from_utf8_lossy(&found), line, "'{text}'");
    }

    #[test]
    fn the_examples_of_document_01() {
        shown(ItemKind::Type, "|(|u8|u8)|u8", "|(|u8| u8)| u8");
        shown(ItemKind::BindList, "S{f}", "(S {f: f})");
    }

    #[test]
    fn each_construct() {
        shown(ItemKind::Name, "0x1 :: a/* c */::b <", "0x1::a::b");
        shown(ItemKind::Value, "@ 0x1", "@0x1");
        shown(ItemKind::Value, " b\"a  b\" ", "b\"a  b\"");
        shown(ItemKind::Value, "true", "true");
        for (text, line) in [
            ("( ( ) )", "(())"),
            ("((a,))", "((a))"),
            ("((a,b),)", "((a, b))"),
            ("((a,b),c)", "((a, b), c)"),
            ("a<>", "a"),
            ("a<b<c>>", "a<b<c>>"),
            ("a<(|b|c)>", "a<(|b| c)>"),
            ("&a", "& a"),
            ("&mut", "& mut"),
            ("&mut &mut a", "&mut &mut a"),
            ("| | a", "| | a"),
            ("|a,|(|b|c)", "|a| (|b| c)"),
            ("|((| |(a)),),()|b", "|((| | (a))), ()| b"),
            ("|&(|a|b)|c", "|& (|a| b)| c"),
            ("|(a,(|b|c))|d", "|(a, (|b| c))| d"),
        ] {
            shown(ItemKind::Type, text, line);
        }
        for (text, line) in [
            ("x", "(x)"),
            ("()", "()"),
            ("(x,y,)", "(x, y)"),
            ("S{}", "(S {})"),
            ("S<>{}", "(S<> {})"),
            ("a::S<u8,b<>>{f:x,g,}", "(a::S<u8, b> {f: x, g: g})"),
        ] {
            shown(ItemKind::BindList, text, line);
        }
        shown(ItemKind::LambdaBindList, "| |", "| |");
        shown(ItemKind::LambdaBindList, "|x,S{f}|", "|x, S {f: f}|");
    }
}
