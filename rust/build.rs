//! Links the heap for C: as `../build` proves and compiles it, or in an archive made by `../dist` as it lies there.

use std::path::{Path, PathBuf};
use std::process::{exit, Command};
use std::{env, fs};

fn main() {
    let manifest = PathBuf::from(variable("CARGO_MANIFEST_DIR"));
    let root = manifest.parent().unwrap_or(&manifest);
    let library = if root.join("crates").is_dir() { built(root) } else { root.join("lib/libheap_c.a") };
    println!("cargo:rerun-if-changed={}", library.display());

    // a copy, since whoever else runs ./build writes the archive anew
    let out = PathBuf::from(variable("OUT_DIR"));
    if let Err(problem) = fs::copy(&library, out.join("libheap_c.a")) {
        fail(&format!("no library {}: {problem}", library.display()));
    }
    println!("cargo:rustc-link-search=native={}", out.display());
    println!("cargo:rustc-link-lib=static=heap_c");
}

/// The library, built anew where `crates/` is newer.
fn built(root: &Path) -> PathBuf {
    println!("cargo:rerun-if-changed={}", root.join("crates.txt").display());
    // without each crate's `out`, where rt writes whenever it proves
    let parts = inside(&root.join("crates")).into_iter().flat_map(|it| inside(&it));
    for part in parts.filter(|it| !it.ends_with("out")) {
        println!("cargo:rerun-if-changed={}", part.display());
    }
    match Command::new(root.join("build")).arg("heap_c").output() {
        Ok(ran) if ran.status.success() => root.join("target/staticlib/libheap_c.a"),
        Ok(ran) => fail(&format!("the heap was not built:\n{}", String::from_utf8_lossy(&ran.stderr))),
        Err(problem) => fail(&format!("{} cannot be run: {problem}", root.join("build").display())),
    }
}

fn inside(folder: &Path) -> Vec<PathBuf> {
    match fs::read_dir(folder) {
        Ok(found) => found.flatten().map(|it| it.path()).collect(),
        Err(problem) => fail(&format!("{}: {problem}", folder.display())),
    }
}

fn variable(name: &str) -> String {
    env::var(name).unwrap_or_else(|problem| fail(&format!("{name}: {problem}")))
}

fn fail(problem: &str) -> ! {
    eprintln!("gc: {problem}");
    exit(1)
}
