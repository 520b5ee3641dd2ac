//! The words of a call: help, the version, and calls that are wrong.

use crate::process::{call, call_with, repository, Ended};
use std::ffi::{OsStr, OsString};
use std::os::unix::ffi::OsStrExt;
use std::process::Command;

const COMMANDS: [&str; 8] = ["list", "check", "key", "questions", "balance", "degree", "audit", "draw"];

#[test]
fn help_of_the_program() {
    let help = call(&["--help"]);
    assert_eq!(help, call(&["-h"]));
    assert_eq!((help.status, &help.err[..]), (0, ""));
    for command in COMMANDS {
        assert!(help.out.contains(&format!("\n  {command} ")), "{command} is in the help");
    }
    assert_eq!(call(&[""; 0]), Ended::stopped(2, help.out));
    assert_eq!(call(&["--version"]), Ended::done(format!("zibewoka {}\n", env!("CARGO_PKG_VERSION"))));
}

/// Help says the usage, the exit status and an example, wherever it is asked for.
#[test]
fn help_of_each_command() {
    for command in COMMANDS {
        let help = call(&[command, "--help"]);
        assert_eq!((help.status, &help.err[..]), (0, ""));
        assert!(help.out.starts_with(&format!("Usage: zibewoka {command} ")));
        for part in ["\nExit status: 0 ", "\nExample:\n  $ "] {
            assert!(help.out.contains(part), "{command} has {part:?}");
        }
        assert!(help.out.lines().all(|line| line.len() <= 128));
        assert_eq!(call(&[command, "-h"]), help);
        assert_eq!(call(&[command, "no such file", "-h", "more"]), help);
    }
}

/// The example of a command's help: what is typed, and what it prints.
fn example(command: &str) -> (String, String) {
    let help = call(&[command, "--help"]).out;
    let (_, example) = help.split_once("Example:\n").expect("an example");
    let mut lines = example.lines().map(|line| line.strip_prefix("  ").expect("an indented line"));
    let typed = lines.next().and_then(|line| line.strip_prefix("$ ")).expect("what is typed");
    (typed.to_owned(), lines.map(|line| format!("{line}\n")).collect())
}

/// What a shell prints for a line that calls the program.
fn shell(line: &str) -> String {
    let line = line.replace("zibewoka ", &format!("{} ", env!("CARGO_BIN_EXE_zibewoka")));
    let output = Command::new("sh").args(["-c", &line]).current_dir(repository()).output().expect("a shell");
    Ended::of(output).out
}

#[test]
fn examples_of_the_help() {
    // draw's example leaves a file.
    for command in COMMANDS.into_iter().filter(|command| *command != "draw") {
        let (typed, printed) = example(command);
        assert_eq!(shell(&typed), printed, "{typed}");
        assert!(!printed.is_empty());
    }
}

/// A wrong call of a command says what is wrong with it.
fn assert_wrong(words: &[&str], said: &str) {
    let command = words[0];
    let wanted = format!("zibewoka {command}: {said}; see zibewoka {command} --help\n");
    assert_eq!(call(words), Ended::stopped(2, wanted), "{words:?}");
}

const FILE: &str = "examples/document.bin";

#[test]
fn wrong_calls() {
    for (words, said) in [
        (&["list"][..], "FILE is missing"),
        (&["list", FILE, "x"], r#""x" is one operand too many"#),
        (&["list", "-d", "2", FILE], r#"there is no option "-d""#),
        (&["check"], "FILE is missing"),
        (&["check", "--all", FILE], r#"there is no option "--all""#),
        (&["check", "-", FILE, "-"], "standard input can be read only once"),
        (&["key", FILE], "PLACE is missing"),
        (&["key", FILE, "1"], "MOVES is missing"),
        (&["key", FILE, "1", "2", "3"], r#""3" is one operand too many"#),
        (&["key", FILE, "-1", "1"], r#"there is no option "-1""#),
        (&["key", FILE, "1", "1", "-d"], "option --degree needs a value"),
        (&["key", FILE, "1", "1", "-d2", "--degree", "2"], "option --degree is given twice"),
        (&["key", "--help=me"], r#""--help=me": this option takes no value"#),
        (&["questions"], "FILE is missing"),
        (&["questions", "-"], "standard input can be read only once"),
        (&["questions", FILE, "3"], r#""3" is one operand too many"#),
        (&["balance", "--degree="], "FILE is missing"),
        (&["degree", FILE], "ENTRIES is missing"),
        (&["degree", FILE, "5", "-d2"], r#"there is no option "-d2""#),
        (&["audit"], "DIR is missing"),
        (&["audit", "examples", "crates"], r#""crates" is one operand too many"#),
        (&["draw", FILE], "-o OUT.svg is missing"),
        (&["draw", "-o", "out.svg"], "FILE is missing"),
        (&["draw", FILE, "-o"], "option --output needs a value"),
    ] {
        assert_wrong(words, said);
    }
}

#[test]
fn words_that_are_no_numbers() {
    for (words, name, word) in [
        (&["key", FILE, "+1", "2"][..], "PLACE", "+1"),
        (&["key", FILE, "1", "0x10"], "MOVES", "0x10"),
        (&["key", FILE, "1", "4294967296"], "MOVES", "4294967296"),
        (&["key", FILE, "", "1"], "PLACE", ""),
        (&["key", FILE, " 1", "1"], "PLACE", " 1"),
        (&["key", FILE, "--", "-1", "1"], "PLACE", "-1"),
        (&["degree", FILE, "many"], "ENTRIES", "many"),
    ] {
        assert_wrong(words, &format!("{name} is {word:?}, not a decimal number from 0 to 4294967295"));
    }
}

#[test]
fn words_that_are_no_degrees() {
    for (words, word) in [
        (&["key", FILE, "1", "1", "-d", "x"][..], "x"),
        (&["questions", FILE, "-d", "65"], "65"),
        (&["balance", "--degree=", FILE], ""),
        (&["audit", "examples", "-d1"], "1"),
        (&["draw", FILE, "-o-", "-d-2"], "-2"),
    ] {
        assert_wrong(words, &format!("option --degree is {word:?}, not a number from 2 to 64"));
    }
}

#[test]
fn no_such_command() {
    for (word, said) in [
        ("lists", r#"there is no command "lists""#),
        ("", r#"there is no command """#),
        ("-", r#"there is no command "-""#),
        ("LIST", r#"there is no command "LIST""#),
        ("-d", r#"there is no option "-d""#),
        ("--", r#"there is no option "--""#),
        ("--verbose", r#"there is no option "--verbose""#),
    ] {
        assert_eq!(call(&[word]), Ended::stopped(2, format!("zibewoka: {said}; see zibewoka --help\n")));
    }
}

/// Words of any bytes are taken or named, and never end in a panic.
#[test]
fn words_of_any_bytes() {
    let odd: Vec<OsString> =
        [&b"\xff"[..], b"-\xff", b"--\xff=\xfe", b"-d\xff", b"\xf0\x9f", b"a\nb", b"\x1b[31m", b"-"]
            .map(|bytes| OsStr::from_bytes(bytes).to_owned())
            .into();
    for command in COMMANDS.map(OsString::from).iter().chain(&odd) {
        for first in &odd {
            for second in &odd {
                let ended = call_with(&[command, first, second], b"");
                // Standard input is empty, which is no file.
                assert!([1, 2].contains(&ended.status), "{command:?} {first:?} {second:?}: {ended:?}");
                assert!(!ended.err.contains('\x1b') && !ended.out.contains('\x1b'));
            }
        }
    }
    let unknown = call(&[OsStr::from_bytes(b"\xff")]);
    assert_eq!(unknown.err, "zibewoka: there is no command \"\\xFF\"; see zibewoka --help\n");
}
