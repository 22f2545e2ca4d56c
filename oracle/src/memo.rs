//! What was made of the last long text, so that it is made once where many calls are asked on one text.

use std::{cell::RefCell, rc::Rc, thread::LocalKey};

/// Shorter texts are looked at again each time.
const LONG: usize = 1_000;

/// The last text, and what was made of it.
pub type Memo<T> = RefCell<Option<(Vec<u8>, Rc<T>)>>;

/// What is made of the text, by `make` or as it was made last time.
pub fn made<T>(memo: &'static LocalKey<Memo<T>>, text: &[u8], make: impl FnOnce() -> T) -> Rc<T> {
    if text.len() < LONG {
        return Rc::new(make());
    }
    let last = memo.with_borrow(|last| match last {
        Some((of, made)) if of == text => Some(made.clone()),
        _ => None,
    });
    last.unwrap_or_else(|| {
        let made = Rc::new(make());
        memo.set(Some((text.to_vec(), made.clone())));
        made
    })
}
