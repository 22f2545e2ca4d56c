//! A station's inner loop: opens a file, lists its tokens, then reads and displays the type
//! behind each colon. What is refused is shown with its number and place. The file is read as one
//! of edition 1.
//!
//! A read walks over the tokens from 0 to its offset, to see that one starts or ends there. Here the
//! colon's end is known from such a walk, so the text is lent from there on, which is read from 0
//! without one, and the colon's end is added to the places.
//!
//!     cargo run --example station -- ../../examples/coin.move

use movesig::{display, read, tokens, tree_room, Edition, Kind, Refusal, Span, TokenKind, LONGEST};
use std::{env, fs::File, io::Read, process::ExitCode};

/// The edition of Move that the file is written in.
const EDITION: Edition = Edition::One;

fn main() -> ExitCode {
    let Some(name) = env::args_os().nth(1) else {
        eprintln!("usage: station FILE");
        return ExitCode::from(2);
    };
    // One byte more than a text may have, so that a longer file is refused and not cut.
    let mut text = vec![];
    let file = File::open(&name).map(|file| file.take(LONGEST as u64 + 1));
    if let Err(error) = file.and_then(|mut file| file.read_to_end(&mut text)) {
        eprintln!("{}: {error}", name.to_string_lossy());
        return ExitCode::from(2);
    }
    match show(&text) {
        Ok(()) => ExitCode::SUCCESS,
        Err(refusal) => {
            show_refusal(refusal, 0);
            ExitCode::FAILURE
        }
    }
}

fn show(text: &[u8]) -> Result<(), Refusal> {
    // Lent to every call; no call needs more, for a tree or for a line.
    let mut buffer = vec![0; tree_room(text.len())];
    for token in tokens(EDITION, text, 0) {
        let token = token?;
        println!("token {} at {}", token.kind.number(), token.span);
        if token.kind == TokenKind::COLON {
            // One type that is refused does not end the walk.
            let base = token.span.end;
            show_type(&text[base..], base, &mut buffer)
                .unwrap_or_else(|refusal| show_refusal(refusal, base));
        }
    }
    Ok(())
}

/// The type at the start of the text, which begins at `base` of the file.
fn show_type(text: &[u8], base: usize, buffer: &mut [u8]) -> Result<(), Refusal> {
    let line = display(Kind::Type, EDITION, text, 0, buffer)?
        .escape_ascii()
        .to_string();
    let item = read(Kind::Type, EDITION, text, 0, buffer)?;
    println!("type {line}");
    for (_, record) in item.tree.records() {
        let span = raised(record.span(), base);
        println!("  record {} at {span}", record.kind().number());
    }
    Ok(())
}

fn raised(span: Span, base: usize) -> Span {
    Span {
        start: base + span.start,
        end: base + span.end,
    }
}

/// A refusal of what was read from `base` on.
fn show_refusal(refusal: Refusal, base: usize) {
    let place = raised(refusal.place(), base);
    let second = raised(refusal.second(), base);
    print!("refused {} at {place}", refusal.number());
    if second != place {
        print!(", second place {second}");
    }
    println!();
}
