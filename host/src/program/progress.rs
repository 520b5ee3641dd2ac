//! Lines on standard output, and a progress bar beside them while they come.

use super::in_order::TICK;
use std::fs::File;
use std::io::{self, IsTerminal, Write};
use std::os::fd::AsFd;
use std::os::unix::fs::FileTypeExt;
use std::time::Instant;

/// Lines that wait to be written, and the bar. Both are written by turns, by one thread: where both go to one terminal, the
/// bar is taken away before lines are written, and drawn again below them.
pub struct Screen<'a> {
    out: &'a mut dyn Write,
    lines: Vec<u8>,
    bar: Bar,
    /// When lines and bar were written last.
    written: Option<Instant>,
}

/// Lines are written when there are so many bytes of them, however short the time.
const FULL: usize = 1 << 16;

impl<'a> Screen<'a> {
    /// A screen whose bar is shown if standard error is a terminal.
    pub fn new(out: &'a mut dyn Write) -> Screen<'a> {
        let bar = Bar { wanted: io::stderr().is_terminal() && !is_pipe(), width: 0 };
        Screen { out, lines: Vec::new(), bar, written: None }
    }

    /// The lines that wait, to write another.
    pub fn lines(&mut self) -> &mut Vec<u8> {
        &mut self.lines
    }

    /// Writes what waits and the bar, if it is a while since the last time.
    pub fn show(&mut self, done: usize, all: usize) -> io::Result<()> {
        if self.written.is_some_and(|at| at.elapsed() < TICK) && self.lines.len() < FULL {
            return Ok(());
        }
        self.write_lines()?;
        self.bar.draw(done, all);
        self.written = Some(Instant::now());
        Ok(())
    }

    /// Takes the bar away and writes what waits.
    pub fn write_lines(&mut self) -> io::Result<()> {
        self.bar.erase();
        self.out.write_all(&self.lines)?;
        self.lines.clear();
        self.out.flush()
    }
}

/// Whether standard output is a pipe: who reads it may write to the terminal that the bar is on, and the bar would tear the
/// lines.
fn is_pipe() -> bool {
    let kind = io::stdout().as_fd().try_clone_to_owned().and_then(|out| Ok(File::from(out).metadata()?.file_type()));
    kind.is_ok_and(|kind| kind.is_fifo() || kind.is_socket())
}

/// A progress bar on the last line of a terminal.
struct Bar {
    wanted: bool,
    /// How many columns of the line it has now.
    width: usize,
}

impl Bar {
    fn draw(&mut self, done: usize, all: usize) {
        if self.wanted {
            let text = drawn(done, all);
            self.width = text.len();
            self.put(&text);
        }
    }

    /// Writes blanks over it, which every terminal understands.
    fn erase(&mut self) {
        if self.width > 0 {
            let width = std::mem::take(&mut self.width);
            self.put(&format!("\r{:width$}\r", ""));
        }
    }

    /// A bar that can't be written is none: the call goes on.
    fn put(&self, text: &str) {
        let mut terminal = io::stderr().lock();
        let _ = terminal.write_all(text.as_bytes()).and_then(|()| terminal.flush());
    }
}

/// However a call ends, the bar is gone.
impl Drop for Bar {
    fn drop(&mut self) {
        self.erase();
    }
}

/// The bar: short, since how wide the terminal is is not known.
fn drawn(done: usize, all: usize) -> String {
    const CELLS: usize = 20;
    let full = (done * CELLS).checked_div(all).unwrap_or(CELLS);
    format!("[{:.<CELLS$}] {done} of {all}", "#".repeat(full))
}

#[cfg(test)]
mod tests {
    use super::*;

    #[test]
    fn the_bar_fills() {
        assert_eq!(drawn(0, 400), "[....................] 0 of 400");
        assert_eq!(drawn(200, 400), "[##########..........] 200 of 400");
        assert_eq!(drawn(399, 400), "[###################.] 399 of 400");
        assert_eq!(drawn(400, 400), "[####################] 400 of 400");
        assert_eq!(drawn(0, 0), "[####################] 0 of 0");
    }
}
