//! Points the linker to the proved library, which `tools/build` makes.

use std::path::{Path, PathBuf};
use std::process::Command;

/// A directory with the library, each function at the start of a line of the processor's cache:
/// where in a line a walk's loop falls changes its speed by up to 1.9 times, and the linker alone
/// would leave that to chance. Nothing where objcopy is missing.
fn aligned(library: &Path) -> Option<PathBuf> {
    let out = PathBuf::from(std::env::var_os("OUT_DIR")?);
    let copy = out.join("librigtomato.a");
    let objcopy = Command::new("objcopy")
        .args(["--set-section-alignment", ".text.*=64"])
        .args([library, &copy])
        .status();
    objcopy.is_ok_and(|status| status.success()).then_some(out)
}

fn main() {
    println!("cargo:rerun-if-env-changed=RIGTOMATO_STATICLIB_DIR");
    let directory = std::env::var("RIGTOMATO_STATICLIB_DIR").unwrap_or_else(|_| {
        let here = std::env::var("CARGO_MANIFEST_DIR").expect("cargo sets it");
        format!("{here}/../../target/staticlib")
    });
    let library = Path::new(&directory).join("librigtomato.a");
    println!("cargo:rerun-if-changed={}", library.display());
    if !library.exists() {
        eprintln!("target/staticlib/librigtomato.a is missing.");
        eprintln!("Run `tools/build` at the repository's root first, or set");
        eprintln!("RIGTOMATO_STATICLIB_DIR to the directory that has the library.");
        std::process::exit(1);
    }
    let directory = aligned(&library).unwrap_or(PathBuf::from(directory));
    println!("cargo:rustc-link-search=native={}", directory.display());
    println!("cargo:rustc-link-lib=static=rigtomato");
}
