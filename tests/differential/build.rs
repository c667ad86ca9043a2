//! Compiles the engine written by hand and names the archives to link.
//!
//! CC is the C compiler (default `cc`), TAMPERMAUVE_LIB the folder with
//! libtampermauve.a (default `target/staticlib` of the repository).

use std::env;
use std::path::{Path, PathBuf};
use std::process::Command;

fn main() {
    let here = PathBuf::from(env::var("CARGO_MANIFEST_DIR").expect("cargo names the folder"));
    let out = PathBuf::from(env::var("OUT_DIR").expect("cargo names the folder"));
    let root = here.join("../..");
    compile_twin(&root.join("bench"), &out);
    if env::var_os("CARGO_FEATURE_CHECK").is_some() {
        link_library(&root);
    }
}

fn compile_twin(bench: &Path, out: &Path) {
    let source = bench.join("twin.c");
    for file in ["twin.c", "twin.h"] {
        println!("cargo:rerun-if-changed={}", bench.join(file).display());
    }
    println!("cargo:rerun-if-env-changed=CC");
    let compiler = env::var("CC").unwrap_or_else(|_| "cc".to_string());
    let object = out.join("twin.o");
    let mut compile = Command::new(compiler);
    compile.args([
        "-std=c99", "-O3", "-Wall", "-Wextra", "-Werror", "-fPIC", "-c",
    ]);
    run(compile.arg(&source).arg("-o").arg(&object));
    let mut pack = Command::new("ar");
    run(pack.arg("rcs").arg(out.join("libtwin.a")).arg(&object));
    println!("cargo:rustc-link-search=native={}", out.display());
    println!("cargo:rustc-link-lib=static=twin");
}

fn link_library(root: &Path) {
    println!("cargo:rerun-if-env-changed=TAMPERMAUVE_LIB");
    let folder = match env::var_os("TAMPERMAUVE_LIB") {
        Some(folder) => PathBuf::from(folder),
        None => root.join("target/staticlib"),
    };
    let archive = folder.join("libtampermauve.a");
    println!("cargo:rerun-if-changed={}", archive.display());
    println!("cargo:rustc-link-search=native={}", folder.display());
    println!("cargo:rustc-link-lib=static=tampermauve");
}

fn run(command: &mut Command) {
    let status = command.status().expect("the command starts");
    assert!(status.success(), "{command:?} failed");
}
