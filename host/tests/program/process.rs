//! The program as a process.

use std::ffi::OsStr;
use std::io::Write;
use std::path::{Path, PathBuf};
use std::process::{Command, Output, Stdio};

/// The repository, in whose folder every call is made.
pub fn repository() -> &'static Path {
    Path::new(env!("CARGO_MANIFEST_DIR")).parent().expect("host/ stands in the repository")
}

/// The program, to be called.
pub fn program() -> Command {
    let mut command = Command::new(env!("CARGO_BIN_EXE_zibewoka"));
    command.current_dir(repository());
    command
}

/// How a call ended.
#[derive(Debug, PartialEq, Eq)]
pub struct Ended {
    pub status: i32,
    pub out: String,
    pub err: String,
}

impl Ended {
    /// A call that ended by itself: no signal, and nothing that looks like a panic.
    pub fn of(output: Output) -> Ended {
        let [out, err] = [output.stdout, output.stderr].map(|text| String::from_utf8(text).expect("text"));
        let status = output.status.code().expect("no signal ends the program");
        assert!(status != 101 && !err.contains("panicked"), "a panic: {err}");
        Ended { status, out, err }
    }

    /// A call that was done, and printed this.
    pub fn done(out: impl Into<String>) -> Ended {
        Ended { status: 0, out: out.into(), err: String::new() }
    }

    /// A call that stopped, and said this.
    pub fn stopped(status: i32, err: impl Into<String>) -> Ended {
        Ended { status, out: String::new(), err: err.into() }
    }
}

/// Calls the program with these words and this standard input.
pub fn call_with<W: AsRef<OsStr>>(words: &[W], input: &[u8]) -> Ended {
    let mut command = program();
    command.args(words).stdin(Stdio::piped()).stdout(Stdio::piped()).stderr(Stdio::piped());
    let mut child = command.spawn().expect("the program starts");
    // It may end without having read all of it.
    let _ = child.stdin.take().expect("its standard input").write_all(input);
    Ended::of(child.wait_with_output().expect("the program ends"))
}

/// Calls the program with these words.
pub fn call<W: AsRef<OsStr>>(words: &[W]) -> Ended {
    call_with(words, &[])
}

/// A folder of a test's own, empty at its begin.
pub fn folder(name: &str) -> PathBuf {
    let folder = Path::new(env!("CARGO_TARGET_TMPDIR")).join(name);
    if folder.exists() {
        std::fs::remove_dir_all(&folder).expect("the folder of the last run goes");
    }
    std::fs::create_dir_all(&folder).expect("a folder for the test");
    folder
}
