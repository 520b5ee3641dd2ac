//! The commands on balanced move tables: `key`, `questions`, `balance` and `degree`.

use super::arguments::{number, parsed, Arguments, Wrong};
use super::failure::{Failure, DONE};
use super::input::{Input, Refused};
use super::Ended;
use std::error::Error;
use std::ffi::OsStr;
use std::io::{self, Read, Write};
use std::os::unix::ffi::OsStrExt;
use zibewoka::{MoveTable, Question, Refusal, RunList};

/// `key FILE PLACE MOVES`: where so many moves from a place lead.
pub fn key(arguments: &Arguments, out: &mut dyn Write) -> Ended {
    let [file, place, moves] = arguments.operands(["FILE", "PLACE", "MOVES"])?;
    let (place, moves) = (number("PLACE", place)?, number("MOVES", moves)?);
    let (table, ..) = balanced(arguments, file)?;
    let reached = table.find(place).and_then(|from| table.steps(from, moves));
    let step = reached.map_err(|refusal| refused(file, refusal))?;
    writeln!(out, "{} {} {} {}", step.place, step.interval, step.distance, step.count)?;
    Ok(DONE)
}

/// `questions FILE`: a move from each place that stands on standard input.
pub fn questions(arguments: &Arguments, out: &mut dyn Write) -> Ended {
    let [file] = arguments.operands(["FILE"])?;
    if file == "-" {
        return Err(Wrong::StandardInput.into());
    }
    let (table, ..) = balanced(arguments, file)?;
    let mut records = asked()?;
    table.questions(&mut records).map_err(|refusal| refused(file, refusal))?;
    for Question { place, interval, to_place, to_interval, distance, count } in records {
        writeln!(out, "{place} {interval} {to_place} {to_interval} {distance} {count}")?;
    }
    Ok(DONE)
}

/// The places on standard input, each as a question: up to the first word that is none.
fn asked() -> Result<Vec<Question>, Failure> {
    let mut bytes = io::stdin().lock().bytes();
    let mut questions: Vec<Question> = Vec::new();
    while let Some(word) = next_word(&mut bytes).map_err(|error| unread(&error))? {
        let question = question(questions.len(), &word)?;
        questions.try_reserve(1).map_err(|error| unread(&error))?;
        questions.push(question);
    }
    Ok(questions)
}

fn unread(error: &dyn Error) -> Failure {
    Failure::Trouble(format!("standard input: can't be read: {error}"))
}

/// No number has so many digits, but for zeros, and of a longer word a message shows so many.
const LONGEST_WORD: usize = 40;

/// The next word between blanks and line ends, if there is one; of a longer one the first bytes.
fn next_word(bytes: &mut impl Iterator<Item = io::Result<u8>>) -> io::Result<Option<Vec<u8>>> {
    let mut word = Vec::new();
    for byte in bytes {
        match byte? {
            byte if !byte.is_ascii_whitespace() => word.push(byte),
            _ if word.is_empty() => {}
            _ => break,
        }
        if word.len() > LONGEST_WORD {
            break;
        }
    }
    Ok((!word.is_empty()).then_some(word))
}

fn question(index: usize, word: &[u8]) -> Result<Question, Failure> {
    let no_place = || {
        let wrong = OsStr::from_bytes(&word[..word.len().min(LONGEST_WORD)]);
        let needed = format_args!("not a decimal number from 0 to {}", u32::MAX);
        Failure::Trouble(format!("standard input: the place of question {index} is {wrong:?}, {needed}"))
    };
    let is_short = word.len() <= LONGEST_WORD;
    parsed(word).filter(|_| is_short).map(Question::new).ok_or_else(no_place)
}

/// `balance FILE`: the move table of the balanced list.
pub fn balance(arguments: &Arguments, out: &mut dyn Write) -> Ended {
    let [file] = arguments.operands(["FILE"])?;
    let (table, list, degree) = balanced(arguments, file)?;
    writeln!(out, "{} {} {degree} {}", list.n(), list.runs(), table.intervals())?;
    let images_and_holders = table.images().iter().zip(table.holders());
    let rows = table.starts().iter().zip(images_and_holders).zip(table.lengths()).enumerate();
    for (interval, ((start, (image, holder)), length)) in rows {
        writeln!(out, "{interval} {start} {image} {holder} {length}")?;
    }
    Ok(DONE)
}

/// `degree FILE ENTRIES`: the least degree for tables of so many entries.
pub fn degree(arguments: &Arguments, out: &mut dyn Write) -> Ended {
    let [file, entries] = arguments.operands(["FILE", "ENTRIES"])?;
    let entries = number("ENTRIES", entries)?;
    let (list, _) = run_list(file)?;
    let least = list.least_degree(entries).map_err(|refusal| refused(file, refusal))?;
    writeln!(out, "{} {}", least.degree, least.intervals)?;
    Ok(DONE)
}

/// The table of a file's list, balanced at the degree that the call asks for, or else the file; the list; and that degree.
pub fn balanced(arguments: &Arguments, file: &OsStr) -> Result<(MoveTable, RunList<'static>, u32), Failure> {
    let asked = arguments.degree()?;
    let (list, degree) = run_list(file)?;
    let degree = asked.unwrap_or(degree);
    let table = list.balance(degree).map_err(|refusal| refused(file, refusal))?;
    Ok((table, list, degree))
}

fn run_list(file: &OsStr) -> Result<(RunList<'static>, u32), Failure> {
    let input = Input::read(file).map_err(|error| Failure::unread(file, &error))?;
    input.run_list().map_err(|refusal| Failure::refused(file, refusal))
}

fn refused(file: &OsStr, refusal: Refusal) -> Failure {
    Failure::refused(file, Refused::from(refusal))
}
