//! Files of run lists, sound and damaged, and what the second program says of them.

use crate::definition::{self, File, Outcome};
use crate::process::repository;
use crate::random::List;
use std::path::{Path, PathBuf};

/// What stands in a file: its list and its degree.
pub struct Given {
    pub list: List,
    pub d: u32,
}

/// What stands in a file that is accepted.
pub fn checked(bytes: &[u8]) -> Outcome<Given> {
    let File { n, d, list: [starts, images], .. } = definition::file(bytes, 16384)?;
    Ok(Given { list: List { n, starts, images }, d })
}

/// Test 7.
pub fn degree(d: u32) -> Outcome<()> {
    match d {
        2..=64 => Ok(()),
        _ => Err((7, d)),
    }
}

/// The examples, by path.
pub fn examples() -> Vec<PathBuf> {
    let folder = std::fs::read_dir(repository().join("examples")).expect("examples/ is there");
    let mut files: Vec<PathBuf> = folder.map(|entry| entry.expect("an entry").path()).collect();
    files.retain(|path| path.extension().is_some_and(|end| end == "bin"));
    files.sort();
    assert!(files.len() >= 12);
    files
}

/// The file of document 01's list.
pub fn document() -> Vec<u8> {
    contents(&repository().join("examples/document.bin"))
}

pub fn contents(path: &Path) -> Vec<u8> {
    std::fs::read(path).expect("a file that is there")
}

/// Writes a file of the test's own, and answers its name.
pub fn written(folder: &Path, name: &str, bytes: &[u8]) -> String {
    let path = folder.join(name);
    std::fs::write(&path, bytes).expect("the test's own file");
    path.into_os_string().into_string().expect("a name that is text")
}

/// The begin of a refusal in words, by the second program's number and place; the sentence is the library's.
pub fn begin<P: std::fmt::Display>((number, place): (u32, P)) -> String {
    format!("refused {number} {place}: ")
}
