//! Compiles the hand-written C with gcc -O3, its functions aligned as the binding aligns the
//! engine's.

use std::process::Command;

fn run(command: &mut Command) {
    let status = command.status();
    assert!(
        status.is_ok_and(|status| status.success()),
        "failed: {command:?}"
    );
}

fn main() {
    let here = std::env::var("CARGO_MANIFEST_DIR").expect("cargo sets it");
    let out = std::env::var("OUT_DIR").expect("cargo sets it");
    let source = format!("{here}/c/walks.c");
    println!("cargo:rerun-if-changed={source}");
    let object = format!("{out}/walks.o");
    run(Command::new("gcc")
        .args(["-std=c11", "-O3", "-falign-functions=64"])
        .args(["-Wall", "-Wextra", "-Werror", "-fPIC", "-c"])
        .args([&source, "-o", &object]));
    run(Command::new("ar").args(["rcs", &format!("{out}/libwalks.a"), &object]));
    println!("cargo:rustc-link-search=native={out}");
    println!("cargo:rustc-link-lib=static=walks");
}
