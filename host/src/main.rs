//! The program `zibewoka`: checks, lists, balances, walks and draws the files of run lists, and audits collections of them.

#![forbid(unsafe_code)]

mod program;

fn main() -> std::process::ExitCode {
    program::run(std::env::args_os().skip(1))
}
