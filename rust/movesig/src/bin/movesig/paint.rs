//! Colours, for terminals alone.

use std::env;

/// Whether colours are written.
#[derive(Clone, Copy)]
pub struct Paint(bool);

impl Paint {
    /// Colours on a terminal, unless `NO_COLOR` is set to something or the terminal has none.
    pub fn on(terminal: bool) -> Paint {
        let off = env::var_os("NO_COLOR").is_some_and(|value| !value.is_empty());
        let dumb = env::var_os("TERM").is_none_or(|value| value == "dumb");
        Paint(terminal && !off && !dumb)
    }

    fn with(self, code: &str, words: &str) -> String {
        if self.0 && !words.is_empty() {
            format!("\x1b[{code}m{words}\x1b[0m")
        } else {
            words.to_string()
        }
    }

    pub fn bold(self, words: &str) -> String {
        self.with("1", words)
    }

    pub fn red(self, words: &str) -> String {
        self.with("1;31", words)
    }

    pub fn blue(self, words: &str) -> String {
        self.with("34", words)
    }
}
