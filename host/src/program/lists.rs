//! The commands on files as they are: `list` and `check`.

use super::arguments::{Arguments, Wrong};
use super::failure::{Failure, DONE, REFUSED, TROUBLE};
use super::input::Input;
use super::names::Shown;
use super::{complain, Ended};
use std::ffi::OsStr;
use std::io::Write;

/// `list FILE`: the listing of a file, or the line of its refusal.
pub fn list(arguments: &Arguments, out: &mut dyn Write) -> Ended {
    let [file] = arguments.operands(["FILE"])?;
    let input = Input::read(file).map_err(|error| Failure::unread(file, &error))?;
    let listing = zibewoka::listing(input.bytes());
    out.write_all(listing.as_bytes())?;
    Ok(if listing.starts_with("refused") { REFUSED } else { DONE })
}

/// `check FILE..`: a line for each file. One that can't be read does not keep the others from being checked.
pub fn check(arguments: &Arguments, out: &mut dyn Write) -> Ended {
    let files = arguments.some_operands("FILE")?;
    if files.iter().filter(|file| *file == "-").count() > 1 {
        return Err(Wrong::StandardInput.into());
    }
    files.iter().try_fold(DONE, |status, file| Ok(status.max(check_file(file, out)?)))
}

fn check_file(file: &OsStr, out: &mut dyn Write) -> Ended {
    let input = match Input::read(file) {
        Ok(input) => input,
        Err(error) => {
            out.flush()?;
            complain(format_args!("zibewoka: {}: can't be read: {error}", Shown(file)));
            return Ok(TROUBLE);
        }
    };
    match input.run_list() {
        Ok((list, degree)) => {
            writeln!(out, "{}: accepted: n {}, k {}, d {degree}", Shown(file), list.n(), list.runs())?;
            Ok(DONE)
        }
        Err(refused) => {
            writeln!(out, "{}: {refused}", Shown(file))?;
            Ok(REFUSED)
        }
    }
}
