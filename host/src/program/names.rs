//! Names of files as they are shown.

use std::ffi::OsStr;
use std::fmt::{self, Write};
use std::os::unix::ffi::OsStrExt;

/// A name on one line: a line end, another control character, a mark that turns the direction of writing or a byte that is no text
/// would tear the line, or tell a terminal to do something, and is shown as its escape.
pub struct Shown<'a>(pub &'a OsStr);

impl fmt::Display for Shown<'_> {
    fn fmt(&self, f: &mut fmt::Formatter) -> fmt::Result {
        self.0.as_bytes().utf8_chunks().try_for_each(|chunk| {
            write_text(f, chunk.valid())?;
            chunk.invalid().iter().try_for_each(|byte| write!(f, "\\x{byte:02x}"))
        })
    }
}

fn write_text(f: &mut fmt::Formatter, text: &str) -> fmt::Result {
    text.chars().try_for_each(|letter| match letter.is_control() || turns(letter) {
        true => write!(f, "{}", letter.escape_default()),
        false => f.write_char(letter),
    })
}

/// Whether a letter turns the direction of writing: Unicode's marks, embeddings, overrides and isolates.
fn turns(letter: char) -> bool {
    matches!(letter, '\u{61c}' | '\u{200e}' | '\u{200f}' | '\u{202a}'..='\u{202e}' | '\u{2066}'..='\u{2069}')
}

#[cfg(test)]
mod tests {
    use super::*;

    #[test]
    fn names_stay_on_one_line() {
        let shown = |bytes: &[u8]| Shown(OsStr::from_bytes(bytes)).to_string();
        assert_eq!(shown("a b/Ü\".bin".as_bytes()), "a b/Ü\".bin");
        assert_eq!(shown(b"a\nb\x1b[31m\xff\xc3.bin"), r"a\nb\u{1b}[31m\xff\xc3.bin");
        assert_eq!(shown("a\u{202e}b".as_bytes()), r"a\u{202e}b");
        assert_eq!(shown(b""), "");
    }
}
