//! How a call ends.

use super::arguments::Wrong;
use super::names::Shown;
use std::ffi::OsStr;
use std::fmt;
use std::io;

/// The exit status of a call that did what it was asked.
pub const DONE: u8 = 0;
/// The exit status where the library refused a list, or a call on one.
pub const REFUSED: u8 = 1;
/// The exit status after wrong words, or where something can't be read or written.
pub const TROUBLE: u8 = 2;
/// The exit status where whoever reads standard output went away: what a shell gives for a program that the pipe ends.
const CLOSED: u8 = 128 + 13;

/// Why a command stopped.
pub enum Failure {
    /// The words of the call are wrong.
    Wrong(Wrong),
    /// The library refused, in words.
    Refused(String),
    /// Something can't be read or written, in words.
    Trouble(String),
    /// Nobody reads standard output any more.
    Closed,
}

impl Failure {
    /// What a file was refused for.
    pub fn refused(file: &OsStr, refused: impl fmt::Display) -> Failure {
        Failure::Refused(format!("{}: {refused}", Shown(file)))
    }

    /// A file that can't be read.
    pub fn unread(file: &OsStr, error: &io::Error) -> Failure {
        Failure::Trouble(format!("{}: can't be read: {error}", Shown(file)))
    }

    /// A file that can't be written.
    pub fn unwritten(file: &OsStr, error: &io::Error) -> Failure {
        Failure::Trouble(format!("{}: can't be written: {error}", Shown(file)))
    }

    /// The exit status.
    pub fn status(&self) -> u8 {
        match self {
            Failure::Refused(_) => REFUSED,
            Failure::Wrong(_) | Failure::Trouble(_) => TROUBLE,
            Failure::Closed => CLOSED,
        }
    }
}

impl From<Wrong> for Failure {
    fn from(wrong: Wrong) -> Failure {
        Failure::Wrong(wrong)
    }
}

/// What writing to standard output comes to: all other errors are named where they come up.
impl From<io::Error> for Failure {
    fn from(error: io::Error) -> Failure {
        match error.kind() {
            io::ErrorKind::BrokenPipe => Failure::Closed,
            _ => Failure::Trouble(format!("standard output: can't be written: {error}")),
        }
    }
}
