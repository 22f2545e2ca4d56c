//! Finds the Rust sources, holds them to SHA256SUMS and tells the compiler where
//! they and the port's static library are.

#[path = "src/sha256.rs"]
mod sha256;

use std::{
    env, fs,
    path::{Path, PathBuf},
    process::exit,
};

/// Where the Rust files stand below the folder of sources.
const PARSER: &str = "language/move-compiler/src/parser";

fn main() {
    let sources = folder("MOVE_SRC", "../../shared/docs/src");
    println!("cargo:rerun-if-changed=SHA256SUMS");
    let sums = fs::read_to_string("SHA256SUMS").expect("oracle/SHA256SUMS can be read");
    for line in sums.lines() {
        match line.split_once("  ") {
            Some((sum, name)) => verify(&sources.join(name), sum),
            None => fail(&format!("oracle/SHA256SUMS: cannot read the line '{line}'")),
        }
    }
    println!(
        "cargo:rustc-env=MOVE_PARSER={}",
        sources.join(PARSER).display()
    );

    let station = folder("STATION_LIB", "../target/staticlib");
    println!(
        "cargo:rerun-if-changed={}",
        station.join("libstation.a").display()
    );
    println!("cargo:rustc-link-search=native={}", station.display());
}

/// A folder from the environment, or the default relative to this package.
fn folder(variable: &str, default: &str) -> PathBuf {
    println!("cargo:rerun-if-env-changed={variable}");
    let package = env::var("CARGO_MANIFEST_DIR").expect("cargo names the package's folder");
    Path::new(&package).join(env::var(variable).unwrap_or_else(|_| default.to_string()))
}

fn verify(file: &Path, expected: &str) {
    println!("cargo:rerun-if-changed={}", file.display());
    let found = match fs::read(file) {
        Ok(bytes) => sha256::hex_digest(&bytes),
        Err(error) => fail(&format!(
            "{}: {error}. Set MOVE_SRC to the folder that holds {PARSER}.",
            file.display()
        )),
    };
    if found != expected {
        fail(&format!(
            "{} is not the file that the port was compared with: its sha256 is {found}, \
             oracle/SHA256SUMS says {expected}.",
            file.display()
        ));
    }
}

fn fail(message: &str) -> ! {
    eprintln!("oracle: {message}");
    exit(1)
}
