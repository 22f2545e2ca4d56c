//! Stands in for `move_symbol_pool`.

use std::{cell::RefCell, collections::BTreeSet, fmt, ops::Deref};

thread_local! {
    static SPELLINGS: RefCell<BTreeSet<&'static str>> = const { RefCell::new(BTreeSet::new()) };
}

/// A spelling that can be copied. Each different one is kept once, for good.
#[derive(Debug, Clone, Copy, PartialEq, Eq, PartialOrd, Ord, Hash)]
pub struct Symbol(&'static str);

impl Symbol {
    pub fn as_str(&self) -> &str {
        self.0
    }
}

impl Deref for Symbol {
    type Target = str;

    fn deref(&self) -> &str {
        self.0
    }
}

impl From<&str> for Symbol {
    fn from(spelling: &str) -> Self {
        SPELLINGS.with_borrow_mut(|known| {
            if let Some(kept) = known.get(spelling) {
                return Symbol(kept);
            }
            let kept: &'static str = Box::leak(spelling.to_string().into_boxed_str());
            known.insert(kept);
            Symbol(kept)
        })
    }
}

impl fmt::Display for Symbol {
    fn fmt(&self, formatter: &mut fmt::Formatter<'_>) -> fmt::Result {
        formatter.write_str(self.0)
    }
}
