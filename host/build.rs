//! Builds the proved library by `rt lib`, an archive for each crate of exports, and links them.

use std::env;
use std::fs;
use std::path::{Path, PathBuf};
use std::process::Command;

fn main() {
    let host = env::var("CARGO_MANIFEST_DIR").expect("cargo names the crate's folder");
    let root = Path::new(&host).parent().expect("host/ stands in the repository");
    for source in sources(root) {
        println!("cargo:rerun-if-changed={}", source.display());
    }
    // `cargo clippy` keeps what this script writes apart from what a build keeps, and links nothing: it needs no archives.
    if env::var_os("CLIPPY_ARGS").is_some() {
        return;
    }
    let out = PathBuf::from(env::var("OUT_DIR").expect("cargo names the folder to write to"));
    println!("cargo:rustc-link-search=native={}", out.display());
    for name in archives(root) {
        build(&root.join("crates").join(&name), &out, &name);
        println!("cargo:rustc-link-lib=static={name}");
    }
}

/// What the archives are made from: the list of crates, and each crate's folders but out/, which `rt` writes to.
fn sources(root: &Path) -> Vec<PathBuf> {
    let crates = fs::read_dir(root.join("crates")).expect("crates/ stands in the repository");
    let crates = crates.map(|entry| entry.expect("an entry of crates/").path());
    let folders = crates.flat_map(|path| ["src", "specs", "proofs"].map(|folder| path.join(folder)));
    [root.join("crates.txt")].into_iter().chain(folders.filter(|path| path.exists())).collect()
}

/// The crates of exports, by crates.txt: each archive has the functions of its crate alone, all other symbols are local to it.
fn archives(root: &Path) -> Vec<String> {
    let crates = fs::read_to_string(root.join("crates.txt")).expect("crates.txt stands in the repository");
    let heads = crates.lines().filter_map(|line| line.split_once(':')).map(|(head, _)| head.split_whitespace());
    heads
        .filter_map(|mut words| Some((words.next()?, words.next()?)))
        .filter(|(_, kind)| *kind == "staticlib")
        .map(|(name, _)| name.to_owned())
        .collect()
}

/// Proves a crate and what it rests on, compiles its archive, and puts a copy of it into `out`.
fn build(folder: &Path, out: &Path, name: &str) {
    // What rt says is told as this script's own words: cargo shows it where the script fails, and with -vv as it comes.
    let done = Command::new("rt").arg("lib").current_dir(folder).status().expect("rt is on the path");
    assert!(done.success(), "rt lib makes the archive of {name}");

    // A copy, since `rt ci` sets aside what stands in out/, with each function on a boundary of 64 bytes: some processors
    // are slow at jumps that lie across one of 32, and the linker would put a loop there by chance.
    let archive = format!("lib{name}.a");
    let aligned = Command::new("objcopy")
        .args(["--set-section-alignment", ".text.*=64"])
        .args([folder.join("out").join(&archive), out.join(&archive)])
        .status()
        .expect("objcopy is on the path");
    assert!(aligned.success(), "objcopy aligns the functions of {archive}");
}
