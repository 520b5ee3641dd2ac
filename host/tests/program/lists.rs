//! `list` and `check`, on the examples and on random files, sound and damaged.

use crate::definition;
use crate::files::{begin, checked, contents, document, examples, written};
use crate::process::{call, call_with, folder, Ended};
use crate::random::{random_file, Random};
use std::collections::BTreeMap;

/// The line that `check` prints, or its begin where the file is refused.
fn check_line(name: &str, bytes: &[u8]) -> String {
    match checked(bytes) {
        Ok(given) => {
            format!("{name}: accepted: n {}, k {}, d {}\n", given.list.n, given.list.starts.len(), given.d)
        }
        Err(refused) => format!("{name}: {}", begin(refused)),
    }
}

/// Whether a line is the one that was wanted, or begins as it and ends with the library's own sentence.
fn assert_checked(line: &str, name: &str, bytes: &[u8]) {
    let wanted = check_line(name, bytes);
    match zibewoka::RunList::from_file(bytes) {
        Ok(_) => assert_eq!(line, wanted),
        Err(refusal) => assert_eq!(line, format!("{wanted}{refusal}\n")),
    }
}

#[test]
fn checks_of_the_examples() {
    for path in examples() {
        let (name, bytes) = (path.to_str().expect("text"), contents(&path));
        let ended = call(&["check", name]);
        assert_checked(&ended.out, name, &bytes);
        assert_eq!((ended.status, &ended.err[..]), (i32::from(checked(&bytes).is_err()), ""));
    }
}

/// All of them in one call: a line each, in the order of the call.
#[test]
fn checks_in_one_call() {
    let names: Vec<String> = examples().into_iter().rev().map(|path| path.to_str().expect("text").to_owned()).collect();
    let ended = call(&[&["check".to_owned()], &names[..]].concat());
    assert_eq!((ended.status, ended.out.lines().count(), &ended.err[..]), (1, names.len(), ""));
    for (line, name) in ended.out.lines().zip(&names) {
        assert_checked(&format!("{line}\n"), name, &contents(name.as_ref()));
    }
}

#[test]
fn sentences() {
    let ended = call(&["check", "examples/refused-4.bin", "examples/document.bin", "examples/refused-15.bin"]);
    let wanted = "examples/refused-4.bin: refused 4 2: run 2 starts at 2, not above run 1, which starts at 2\n\
                  examples/document.bin: accepted: n 16, k 5, d 2\n\
                  examples/refused-15.bin: refused 15 20: the file has 61 bytes, and by its header 60\n";
    assert_eq!(ended, Ended { status: 1, out: wanted.into(), err: String::new() });
}

/// Random files, by name and on standard input.
#[test]
fn checks_of_random_files() {
    let (folder, r) = (folder("checks"), &mut Random::new(11));
    let mut numbers = BTreeMap::new();
    for round in 0..600 {
        let k = if round % 60 == 0 { r.from(900, 2000) } else { r.from(1, 30) } as usize;
        let bytes = random_file(r, k, 1);
        let name = written(&folder, "list", &bytes);
        let by_name = call(&["check", &name]);
        assert_checked(&by_name.out, &name, &bytes);
        let on_input = call_with(&["check", "-"], &bytes);
        assert_checked(&on_input.out, "-", &bytes);
        assert_eq!((by_name.status, &by_name.err), (on_input.status, &on_input.err));
        let number = checked(&bytes).err().map_or(0, |(number, _)| number);
        assert_eq!((by_name.status, &by_name.err[..]), (i32::from(number != 0), ""));
        *numbers.entry(number).or_insert(0) += 1;
    }
    assert!(numbers.keys().eq(&[0, 1, 2, 3, 4, 5, 6, 7, 15]), "each number that a file can give: {numbers:?}");
}

/// Files that are longer than any list's, of which no more is read than it takes.
#[test]
fn files_that_are_too_long() {
    let (folder, document) = (folder("long"), document());
    for (length, words) in [
        (131_092, "the file has 131092 bytes, and by its header 60"),
        (131_093, "the file has more than 131092 bytes, and by its header 60"),
        (5_000_000, "the file has more than 131092 bytes, and by its header 60"),
    ] {
        let mut bytes = document.clone();
        bytes.resize(length, 7);
        let name = written(&folder, "long", &bytes);
        assert_eq!(call(&["check", &name]).out, format!("{name}: refused 15 20: {words}\n"));
        assert_eq!(call_with(&["check", "-"], &bytes).out, format!("-: refused 15 20: {words}\n"));
        assert_eq!(checked(&bytes).err(), Some((15, 20)));
    }
    let endless = call(&["check", "/dev/zero"]);
    assert_eq!(endless.out, "/dev/zero: refused 1 0: n is 0, and a list has at least one place\n");
}

#[test]
fn listings() {
    let (folder, r) = (folder("listings"), &mut Random::new(12));
    let mut files: Vec<Vec<u8>> = examples().iter().map(|path| contents(path)).collect();
    let sizes: Vec<usize> =
        (0..400).map(|round| if round % 50 == 0 { 1020 + round / 50 } else { 1 + round % 40 }).collect();
    files.extend(sizes.into_iter().map(|k| random_file(r, k, 2)));
    for bytes in files {
        let wanted = definition::listing(&bytes);
        let status = i32::from(wanted.starts_with("refused"));
        let ended = Ended { status, out: wanted, err: String::new() };
        assert_eq!(call(&["list", &written(&folder, "list", &bytes)]), ended);
        assert_eq!(call_with(&["list", "-"], &bytes), ended);
    }
}
