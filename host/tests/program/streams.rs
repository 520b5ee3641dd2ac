//! Files that can't be read, and outputs that can't be written.

use crate::files::{contents, document, examples, written};
use crate::process::{call, call_with, folder, program, Ended};
use crate::random::{file, legal, Random};
use std::ffi::OsStr;
use std::fs::OpenOptions;
use std::io::Read;
use std::os::unix::ffi::OsStrExt;
use std::process::Stdio;

/// The calls of a command on one file, but for the one that reads a folder.
fn calls(file: &str) -> [Vec<&str>; 7] {
    [
        vec!["list", file],
        vec!["check", file],
        vec!["key", file, "0", "1"],
        vec!["questions", file],
        vec!["balance", file],
        vec!["degree", file, "9"],
        vec!["draw", file, "-o", "-"],
    ]
}

#[test]
fn files_that_are_not_there() {
    for words in calls("no/such.bin") {
        let said = "zibewoka: no/such.bin: can't be read: No such file or directory (os error 2)\n";
        assert_eq!(call(&words), Ended::stopped(2, said), "{words:?}");
    }
    let said = "zibewoka: no/such: can't be read: No such file or directory (os error 2)\n";
    assert_eq!(call(&["audit", "no/such"]), Ended::stopped(2, said));
}

#[test]
fn a_folder_is_no_file_and_a_file_no_folder() {
    for words in calls("examples") {
        let said = "zibewoka: examples: can't be read: Is a directory (os error 21)\n";
        assert_eq!(call(&words), Ended::stopped(2, said), "{words:?}");
    }
    let said = "zibewoka: examples/psi.bin: can't be read: Not a directory (os error 20)\n";
    assert_eq!(call(&["audit", "examples/psi.bin"]), Ended::stopped(2, said));
}

/// A file that can't be read does not keep the others from being checked, and stands over a refusal.
#[test]
fn checks_go_on() {
    let words = ["check", "examples/refused-3.bin", "no/such.bin", "examples", "examples/document.bin"];
    let ended = call(&words);
    assert_eq!(ended.status, 2);
    assert_eq!(
        ended.out,
        "examples/refused-3.bin: refused 3 0: run 0 starts at 1, not at 0\n\
         examples/document.bin: accepted: n 16, k 5, d 2\n"
    );
    assert_eq!(ended.err.lines().count(), 2);
}

/// Standard input stands for a file in each command but `questions`, which has its places there.
#[test]
fn standard_input() {
    for path in examples() {
        let (name, bytes) = (path.to_str().expect("text"), contents(&path));
        for (by_name, on_input) in calls(name).into_iter().zip(calls("-")).filter(|(words, _)| words[0] != "questions")
        {
            let mut wanted = call(&by_name);
            let renamed = |text: &str| text.replace(&format!("{name}: "), "-: ");
            (wanted.out, wanted.err) = (renamed(&wanted.out), renamed(&wanted.err));
            if by_name[0] != "draw" || wanted.status != 0 {
                assert_eq!(call_with(&on_input, &bytes), wanted);
            }
        }
    }
}

/// Names of any bytes are read, and shown on one line.
#[test]
fn names_of_any_bytes() {
    let folder = folder("names");
    let path = folder.join(OsStr::from_bytes(b"a\xff\n\x1b[31m.bin"));
    std::fs::write(&path, document()).expect("the test's own file");
    let shown = format!("{}/a\\xff\\n\\u{{1b}}[31m.bin: accepted: n 16, k 5, d 2", folder.display());
    assert_eq!(call(&[OsStr::new("check"), path.as_os_str()]), Ended::done(format!("{shown}\n")));
    let audit = call(&[OsStr::new("audit"), folder.as_os_str()]);
    assert_eq!(audit.out, format!("{shown}, K 6, cuts 1\n1 list: 1 accepted, 0 refused, 0 not read\n"));
}

/// Calls that print much more than a pipe holds.
fn long_outputs() -> Vec<Vec<String>> {
    let folder = folder("long-outputs");
    let (list, document) = (legal(&mut Random::new(16), 16_384), document());
    let name = written(&folder, "large.bin", &file(&list, 2));
    for x in 0..1500 {
        written(&folder, &format!("{x}.bin"), &document);
    }
    let all = folder.to_str().expect("text").to_owned();
    let checks = [vec!["check".to_owned()], vec![name.clone(); 2000]].concat();
    vec![vec!["balance".into(), name], vec!["audit".into(), all], checks]
}

/// Whoever reads the output may go away, after a line or before: the call ends soon, and says nothing.
#[test]
fn closed_pipes() {
    for words in long_outputs() {
        for bytes in [0, 10] {
            let mut command = program();
            let piped = command.args(&words).stdin(Stdio::null()).stdout(Stdio::piped()).stderr(Stdio::piped());
            let mut child = piped.spawn().expect("the program starts");
            let mut out = child.stdout.take().expect("its standard output");
            out.read_exact(&mut vec![0; bytes]).expect("the first bytes");
            drop(out);
            let ended = Ended::of(child.wait_with_output().expect("the program ends"));
            assert_eq!(ended, Ended::stopped(141, ""), "{:?}", &words[..2]);
        }
    }
}

/// A disk that is full is an error, and no panic, for each output.
#[test]
fn full_disks() {
    let full = || OpenOptions::new().write(true).open("/dev/full").expect("/dev/full is there");
    let said = "zibewoka: standard output: can't be written: No space left on device (os error 28)\n";
    let audit = vec!["audit", "examples"];
    for words in calls("examples/document.bin").into_iter().chain([audit, vec!["--help"], vec!["key", "-h"]]) {
        let mut child = program();
        child.args(&words).stdin(Stdio::piped()).stdout(full()).stderr(Stdio::piped());
        let mut child = child.spawn().expect("the program starts");
        if words[0] == "questions" {
            let mut places = child.stdin.take().expect("its standard input");
            std::io::Write::write_all(&mut places, b"3").expect("places are read");
        }
        let ended = Ended::of(child.wait_with_output().expect("the program ends"));
        assert_eq!(ended, Ended::stopped(2, said), "{words:?}");
    }
    let said = "zibewoka: /dev/full: can't be written: No space left on device (os error 28)\n";
    assert_eq!(call(&["draw", "examples/document.bin", "-o", "/dev/full"]), Ended::stopped(2, said));
    let status = program().args(["key", "x"]).stderr(full()).status().expect("the program ends");
    assert_eq!(status.code(), Some(2));
}
