//! The command-line program: tokens, doc comments, outlines, trees and lines for people and machines.

#![forbid(unsafe_code)]

mod carry;
mod due;
mod help;
mod job;
mod json;
mod listing;
mod notes;
mod open;
mod outline;
mod paint;
mod places;
mod report;
mod starts;
mod text;
mod visible;
mod words;

use job::Job;
use std::{
    env,
    io::{self, ErrorKind, Write},
    process::ExitCode,
};
use words::{asked, Asked};

fn main() -> ExitCode {
    let version = concat!("movesig ", env!("CARGO_PKG_VERSION"), "\n");
    let status = match asked(env::args_os().skip(1)) {
        Ok(Asked::Help) => print(help::help()),
        Ok(Asked::Man) => print(help::man()),
        Ok(Asked::Completions) => print(help::completions()),
        Ok(Asked::Version) => print(version.to_string()),
        Ok(Asked::Jobs(jobs)) => run(&jobs),
        Ok(Asked::Carry(notes)) => notes.done().put().unwrap_or_else(|status| status),
        Ok(Asked::Open(saved)) => saved.done().put().unwrap_or_else(|status| status),
        Err(message) => {
            let message = format!("movesig: {message} (see movesig --help)\n");
            let _ = io::stderr().write_all(message.as_bytes());
            2
        }
    };
    ExitCode::from(status)
}

fn print(output: String) -> u8 {
    let said = Said {
        output,
        ..Said::default()
    };
    said.put().unwrap_or_else(|status| status)
}

/// Each file in turn; the greatest status.
fn run(jobs: &[Job]) -> u8 {
    let mut status = 0;
    for job in jobs {
        match job.done().put() {
            Ok(more) => status = status.max(more),
            Err(last) => return status.max(last),
        }
    }
    status
}

/// What is to be written, and the exit status.
#[derive(Default)]
struct Said {
    output: String,
    errors: String,
    status: u8,
}

impl Said {
    /// Writes both; the status. A reader that has gone away, as `head` does, is no failure, but
    /// nothing more is to be written to it; any other failure is told.
    fn put(&self) -> Result<u8, u8> {
        let mut to = io::stdout().lock();
        let written = to.write_all(self.output.as_bytes());
        let written = written.and_then(|()| to.flush());
        let _ = io::stderr().write_all(self.errors.as_bytes());
        match written {
            Ok(()) => Ok(self.status),
            Err(error) if error.kind() == ErrorKind::BrokenPipe => Err(self.status),
            Err(error) => {
                let message = format!("movesig: standard output: {error}\n");
                let _ = io::stderr().write_all(message.as_bytes());
                Err(2)
            }
        }
    }
}
