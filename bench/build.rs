//! Compiles the lexer in C, the anchor of the tables of tokens.

use std::{env, path::PathBuf, process::Command};

fn main() {
    println!("cargo:rerun-if-changed=lexer.c");
    println!("cargo:rerun-if-env-changed=CC");
    let out = PathBuf::from(env::var("OUT_DIR").expect("cargo names a folder for what is built"));
    let object = out.join("lexer.o");
    let compiler = env::var("CC").unwrap_or_else(|_| "cc".to_string());
    run(Command::new(compiler)
        .args(["-O3", "-c", "lexer.c", "-o"])
        .arg(&object));
    run(Command::new("ar")
        .arg("rcs")
        .arg(out.join("liblexer.a"))
        .arg(&object));
    println!("cargo:rustc-link-search=native={}", out.display());
}

fn run(command: &mut Command) {
    let status = command.status();
    assert!(
        status.as_ref().is_ok_and(|status| status.success()),
        "{command:?}: {status:?}"
    );
}
