//! Files of run lists, read.

use std::ffi::OsStr;
use std::fmt;
use std::fs::File;
use std::io::{self, Read};
use std::path::Path;
use zibewoka::{Refusal, RunList, MAX_RUNS};

/// The bytes of the longest file that a list has.
const LONGEST: usize = 20 + 8 * MAX_RUNS;

/// What was read of a file: all of it, or one byte more than a list's file can have. So a file of any length takes little
/// room and time, and is refused as the whole of it would be: the header decides, and that there are bytes beyond its list.
pub struct Input {
    bytes: Vec<u8>,
}

impl Input {
    /// Reads a file, or standard input where the operand is `-`.
    pub fn read(operand: &OsStr) -> io::Result<Input> {
        match operand == "-" {
            true => Input::from_reader(io::stdin().lock()),
            false => Input::from_reader(File::open(operand)?),
        }
    }

    /// Reads a file that must be a regular one: a pipe in a collection would be waited for.
    pub fn read_regular(path: &Path) -> io::Result<Input> {
        match path.metadata()?.is_file() {
            true => Input::from_reader(File::open(path)?),
            false => Err(io::Error::other("it is no regular file")),
        }
    }

    fn from_reader(reader: impl Read) -> io::Result<Input> {
        let mut bytes = Vec::new();
        reader.take(LONGEST as u64 + 1).read_to_end(&mut bytes)?;
        Ok(Input { bytes })
    }

    /// The bytes.
    pub fn bytes(&self) -> &[u8] {
        &self.bytes
    }

    /// The list and the degree that stand in the file.
    pub fn run_list(&self) -> Result<(RunList<'static>, u32), Refused> {
        RunList::from_file(&self.bytes).map_err(|refusal| Refused { refusal, cut: self.bytes.len() > LONGEST })
    }
}

/// A refusal in words: the paper's number and place, and the sentence.
pub struct Refused {
    refusal: Refusal,
    /// Whether there may be more bytes in the file than were read.
    cut: bool,
}

impl From<Refusal> for Refused {
    fn from(refusal: Refusal) -> Refused {
        Refused { refusal, cut: false }
    }
}

impl fmt::Display for Refused {
    fn fmt(&self, f: &mut fmt::Formatter) -> fmt::Result {
        let refusal = self.refusal;
        write!(f, "refused {} {}: ", refusal.number(), refusal.place())?;
        match refusal {
            // The sentence of the library would give the bytes that were read as those of the file.
            Refusal::FileHeader { byte: 20, wanted, .. } if self.cut => {
                write!(f, "the file has more than {LONGEST} bytes, and by its header {wanted}")
            }
            _ => write!(f, "{refusal}"),
        }
    }
}
