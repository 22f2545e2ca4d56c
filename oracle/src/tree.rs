//! The stored tree of the specification, narrow or wide, built from the Rust's trees, with a record of
//! kind 16 for brackets round one type (docs/DIFFERENCES.md).

use crate::{
    brackets::{unbracketed, Brackets, Span},
    location::Loc,
    parser::ast::{
        Bind, BindList, Bind_, Field, LeadingNameAccess, LeadingNameAccess_, NameAccessChain,
        NameAccessChain_, Type, Type_, Value, Value_,
    },
    parsing::{Item, Parsed},
    shared::{Identifier, Name},
};

/// The most bytes of a text, and of a narrow tree, for which a tree is narrow.
pub const NARROW: usize = 65_535;

/// What stands in front of a wide tree.
pub const FRONT: [u8; 4] = [4, 0, 99, 0];

/// Records, one behind the other. All their places are raised by `base`; each length, start and end
/// has `width` bytes.
pub struct Tree<'i> {
    base: usize,
    width: usize,
    brackets: &'i Brackets,
    bytes: Vec<u8>,
}

fn span(loc: Loc) -> Span {
    (loc.start() as usize, loc.end() as usize)
}

impl Tree<'_> {
    /// The stored tree of an item in a text of `whole` bytes. Without its records of kind 16 it must be
    /// the Rust's.
    pub fn of(item: &Item, base: usize, whole: usize) -> Vec<u8> {
        let tree = Tree::with(&item.brackets, &item.parsed, base, 2);
        if item.brackets.count() > 0 {
            let rust = Tree::with(&Brackets::default(), &item.parsed, base, 2);
            let brackets = 8 * item.brackets.count();
            assert_eq!(tree.len(), rust.len() + brackets, "{item:?}");
            if tree.len() <= NARROW {
                assert_eq!(unbracketed(&tree), rust, "{item:?}");
            }
        }
        if whole <= NARROW && tree.len() <= NARROW {
            return tree;
        }
        let wide = Tree::with(&item.brackets, &item.parsed, base, 4);
        [&FRONT[..], &wide].concat()
    }

    fn with(brackets: &Brackets, parsed: &Parsed, base: usize, width: usize) -> Vec<u8> {
        let mut tree = Tree {
            base,
            width,
            brackets,
            bytes: vec![],
        };
        match parsed {
            Parsed::Name(chain) => tree.chain(chain),
            Parsed::Value(value) => tree.value(value),
            Parsed::Type(given) => tree.type_(given),
            Parsed::BindList(list) => tree.list(25, list),
            Parsed::LambdaBindList(list) => tree.list(26, list),
        }
        tree.bytes
    }

    /// One record. Its numbers are only right where they fit their bytes; where they do not, the tree
    /// is not the one that is written, and its length alone is looked at.
    fn record(&mut self, kind: u16, (start, end): Span, children: impl FnOnce(&mut Self)) {
        let at = self.bytes.len();
        self.number(0);
        self.bytes.extend(kind.to_le_bytes());
        self.number(self.base + start);
        self.number(self.base + end);
        children(self);
        let length = self.bytes.len() - at;
        let width = self.width;
        self.bytes[at..at + width].copy_from_slice(&length.to_le_bytes()[..width]);
    }

    fn number(&mut self, number: usize) {
        self.bytes.extend(&number.to_le_bytes()[..self.width]);
    }

    fn leaf(&mut self, kind: u16, loc: Loc) {
        self.record(kind, span(loc), |_| ())
    }

    fn name(&mut self, name: &Name) {
        self.leaf(1, name.loc)
    }

    fn first_part(&mut self, first: &LeadingNameAccess) {
        match &first.value {
            LeadingNameAccess_::Name(_) => self.leaf(1, first.loc),
            LeadingNameAccess_::AnonymousAddress(_) => self.leaf(2, first.loc),
        }
    }

    fn chain(&mut self, chain: &NameAccessChain) {
        match &chain.value {
            NameAccessChain_::One(_) => self.leaf(3, chain.loc),
            NameAccessChain_::Two(first, name) => self.record(4, span(chain.loc), |tree| {
                tree.first_part(first);
                tree.name(name);
            }),
            NameAccessChain_::Three(pair, name) => self.record(5, span(chain.loc), |tree| {
                tree.record(6, span(pair.loc), |tree| {
                    tree.first_part(&pair.value.0);
                    tree.name(&pair.value.1);
                });
                tree.name(name);
            }),
        }
    }

    fn value(&mut self, value: &Value) {
        match &value.value {
            Value_::Address(first) => {
                self.record(30, span(value.loc), |tree| tree.first_part(first))
            }
            Value_::Num(_) => self.leaf(31, value.loc),
            Value_::Bool(true) => self.leaf(32, value.loc),
            Value_::Bool(false) => self.leaf(33, value.loc),
            Value_::HexString(_) => self.leaf(34, value.loc),
            Value_::ByteString(_) => self.leaf(35, value.loc),
        }
    }

    fn type_(&mut self, given: &Type) {
        self.type_at(given, span(given.loc))
    }

    /// A type that has this span, its brackets counted.
    fn type_at(&mut self, given: &Type, span: Span) {
        if let Some(inner) = self.brackets.inside(span) {
            return self.record(16, span, |tree| tree.type_at(given, inner));
        }
        match &given.value {
            Type_::Apply(chain, arguments) => self.record(10, span, |tree| {
                tree.chain(chain);
                tree.types(arguments);
            }),
            Type_::Ref(false, inner) => self.record(11, span, |tree| tree.type_(inner)),
            Type_::Ref(true, inner) => self.record(12, span, |tree| tree.type_(inner)),
            Type_::Fun(arguments, result) => self.record(13, span, |tree| {
                tree.types(arguments);
                tree.type_(result);
            }),
            Type_::Unit => self.record(14, span, |_| ()),
            Type_::Multiple(types) => self.record(15, span, |tree| tree.types(types)),
        }
    }

    fn types(&mut self, types: &[Type]) {
        for given in types {
            self.type_(given);
        }
    }

    fn bind(&mut self, bind: &Bind) {
        match &bind.value {
            Bind_::Var(_) => self.leaf(20, bind.loc),
            Bind_::Unpack(chain, types, fields) => {
                let kind = if types.is_some() { 22 } else { 21 };
                self.record(kind, span(bind.loc), |tree| {
                    tree.chain(chain);
                    tree.types(types.as_deref().unwrap_or_default());
                    for (field, bind) in fields {
                        tree.field(field, bind);
                    }
                });
            }
        }
    }

    /// A field has no span in the Rust: it runs from its name to its binding's end.
    fn field(&mut self, field: &Field, bind: &Bind) {
        let (start, _) = span(field.loc());
        let (_, end) = span(bind.loc);
        self.record(24, (start, end), |tree| {
            tree.name(&field.0);
            tree.bind(bind);
        });
    }

    fn list(&mut self, kind: u16, list: &BindList) {
        self.record(kind, span(list.loc), |tree| {
            for bind in &list.value {
                tree.bind(bind);
            }
        });
    }
}
