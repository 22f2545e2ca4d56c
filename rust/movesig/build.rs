//! Tells the compiler where the static library is: in the folder that `MOVESIG_LIB_DIR`
//! names, or where the repository's `build` leaves it; and refuses one of another version.

use std::{env, fs, path::Path, process::exit};

const BUILT: &str = "../../target/movesig/lib";

fn main() {
    println!("cargo:rerun-if-env-changed=MOVESIG_LIB_DIR");
    let package = env::var_os("CARGO_MANIFEST_DIR").expect("cargo names the package's folder");
    let named = env::var_os("MOVESIG_LIB_DIR").filter(|folder| !folder.is_empty());
    let folder = Path::new(&package).join(named.unwrap_or_else(|| BUILT.into()));
    let library = folder.join("libmovesig.a");
    println!("cargo:rerun-if-changed={}", library.display());
    if !library.is_file() {
        fail(&format!(
            "{} is not there. Run ./build at the top of the repository, which proves \
             the library and leaves it there, or set MOVESIG_LIB_DIR to the folder that holds \
             libmovesig.a (an absolute path).",
            library.display()
        ));
    }
    let symbol = version_symbol();
    if !names(&library, &symbol) {
        fail(&format!(
            "{} is a library of another version: it does not have the symbol {symbol}. Run ./build \
             at the top of the repository anew, or have MOVESIG_LIB_DIR name a folder with this version's \
             library.",
            library.display()
        ));
    }
    println!("cargo:rustc-env=MOVESIG_LIBRARY={}", library.display());
    println!("cargo:rustc-link-search=native={}", folder.display());
    println!("cargo:rustc-link-lib=static=movesig");
}

/// The symbol that a library of this crate's version has, and no other; the crate refers to it too.
fn version_symbol() -> String {
    let number = |name| env::var(name).expect("cargo tells the version");
    let major = number("CARGO_PKG_VERSION_MAJOR");
    let minor = number("CARGO_PKG_VERSION_MINOR");
    format!("movesig_version_{major}_{minor}")
}

/// Whether the library has the symbol: its name, with a NUL behind it, as archives list names.
fn names(library: &Path, symbol: &str) -> bool {
    let bytes = fs::read(library).unwrap_or_default();
    let name = format!("{symbol}\0");
    bytes
        .windows(name.len())
        .any(|part| part == name.as_bytes())
}

fn fail(why: &str) -> ! {
    eprintln!("movesig: {why}");
    exit(1)
}
