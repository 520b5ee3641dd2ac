//! The commands of the program, and how a call of it goes.

mod arguments;
mod audit;
mod collection;
mod draw;
mod failure;
mod help;
mod in_order;
mod input;
mod lists;
mod names;
mod picture;
mod progress;
mod tables;

use arguments::{Arguments, Named, Rules, Wrong};
use failure::{Failure, DONE, TROUBLE};
use std::ffi::OsString;
use std::io::{self, BufWriter, Write};
use std::os::unix::ffi::OsStrExt;
use std::process::ExitCode;

/// How a command ends: its exit status, or why it stopped.
type Ended = Result<u8, Failure>;

/// A command: its name, the options with a value that it takes, and what it does.
struct Command {
    name: &'static str,
    help: &'static str,
    valued: &'static [Named],
    run: fn(&Arguments, &mut dyn Write) -> Ended,
}

const HELP: &[Named] = &[Named { short: b'h', long: "help" }];
const NONE: &[Named] = &[];
const DEGREE: &[Named] = &[Named { short: b'd', long: "degree" }];
const DEGREE_AND_OUTPUT: &[Named] = &[Named { short: b'd', long: "degree" }, Named { short: b'o', long: "output" }];

const COMMANDS: [Command; 8] = [
    Command { name: "list", help: help::LIST, valued: NONE, run: lists::list },
    Command { name: "check", help: help::CHECK, valued: NONE, run: lists::check },
    Command { name: "key", help: help::KEY, valued: DEGREE, run: tables::key },
    Command { name: "questions", help: help::QUESTIONS, valued: DEGREE, run: tables::questions },
    Command { name: "balance", help: help::BALANCE, valued: DEGREE, run: tables::balance },
    Command { name: "degree", help: help::DEGREE, valued: NONE, run: tables::degree },
    Command { name: "audit", help: help::AUDIT, valued: DEGREE, run: audit::audit },
    Command { name: "draw", help: help::DRAW, valued: DEGREE_AND_OUTPUT, run: picture::draw },
];

/// Runs the program on the words behind its name.
pub fn run(mut words: impl Iterator<Item = OsString>) -> ExitCode {
    let mut out = BufWriter::new(io::stdout().lock());
    let Some(first) = words.next() else {
        complain(help::PROGRAM.trim_end());
        return TROUBLE.into();
    };
    let command = COMMANDS.iter().find(|command| first == command.name);
    let ended = match command {
        Some(command) => run_command(command, words, &mut out),
        None => run_option(first, &mut out),
    };
    // What was written before a failure stands before the complaint.
    let status = match (out.flush(), ended) {
        (Ok(()), Ok(status)) => Ok(status),
        (Err(error), Ok(_)) => Err(Failure::from(error)),
        (_, Err(failure)) => Err(failure),
    };
    status.unwrap_or_else(|failure| report(command, &failure)).into()
}

fn run_command(command: &Command, words: impl Iterator<Item = OsString>, out: &mut dyn Write) -> Ended {
    let arguments = Arguments::read(words, &Rules { flags: HELP, valued: command.valued })?;
    if arguments.has("help") {
        out.write_all(command.help.as_bytes())?;
        return Ok(DONE);
    }
    (command.run)(&arguments, out)
}

/// What the program does where its first word is no command.
fn run_option(word: OsString, out: &mut dyn Write) -> Ended {
    match word.as_bytes() {
        b"-h" | b"--help" => out.write_all(help::PROGRAM.as_bytes())?,
        b"--version" => writeln!(out, "zibewoka {}", env!("CARGO_PKG_VERSION"))?,
        [b'-', _, ..] => return Err(Wrong::Option(word).into()),
        _ => return Err(Wrong::Command(word).into()),
    }
    Ok(DONE)
}

/// Says why a call stopped, and answers its exit status.
fn report(command: Option<&Command>, failure: &Failure) -> u8 {
    match (failure, command) {
        (Failure::Wrong(wrong), Some(Command { name, .. })) => {
            complain(format_args!("zibewoka {name}: {wrong}; see zibewoka {name} --help"));
        }
        (Failure::Wrong(wrong), None) => complain(format_args!("zibewoka: {wrong}; see zibewoka --help")),
        (Failure::Refused(what) | Failure::Trouble(what), _) => complain(format_args!("zibewoka: {what}")),
        (Failure::Closed, _) => {}
    }
    failure.status()
}

/// Writes a line to standard error; where that can't be written there is nobody left to tell.
fn complain(what: impl std::fmt::Display) {
    let _ = writeln!(io::stderr().lock(), "{what}");
}
