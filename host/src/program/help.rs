//! What `--help` prints. The tests run each example.

/// Of the program.
pub const PROGRAM: &str = "\
Checks, lists, balances, walks and draws files of run lists, and audits collections of them.

Usage: zibewoka COMMAND ..

Commands:
  list FILE               the listing of a file, as the examiners read it
  check FILE..            whether each file is accepted, or why not
  key FILE PLACE MOVES    where so many moves from a place lead
  questions FILE          a move from each of the places on standard input
  balance FILE            the move table of the balanced list
  degree FILE ENTRIES     the least degree for tables of so many entries
  audit DIR               every list of a collection, a line each, and a total
  draw FILE -o OUT.svg    a picture of the list and of how balancing cuts it

A FILE is a run list with its degree: words of 32 bits, least byte first, which are n, k, the degree, 20 and 20 + 4k (the
bytes where starts and images stand), then the k starts and the k images. - is standard input. `zibewoka COMMAND --help`
says more of each, and `zibewoka --version` which version this is.

Exit status: 0 done, 1 refused by the library, 2 a wrong call, or something that can't be read or written; and 141, as for
other programs, where whoever reads the output goes away.
";

/// Of `list`.
pub const LIST: &str = "\
Usage: zibewoka list FILE

Prints the listing of a file: n, k, d and K, then a line for each interval of the balanced list with its index, start,
image, shift, holder and weight; or `refused`, the number and the place. A listing has at most 1,024 runs, and a list of
more is refused with 2. FILE - is standard input.

Exit status: 0 listed, 1 refused, 2 a wrong call, or a file that can't be read.

Example:
  $ zibewoka list examples/document.bin
  16 5 2 6
  0 0 14 14 5 0
  1 2 12 10 5 1
  2 4 10 6 4 0
  3 6 8 2 4 1
  4 8 0 -8 0 2
  5 12 4 -8 2 2
";

/// Of `check`.
pub const CHECK: &str = "\
Usage: zibewoka check FILE..

Prints a line for each file: `accepted` with n, k and d, or `refused` with the number, the place and why. FILE - is
standard input.

Exit status: 0 all accepted, 1 one refused, 2 a wrong call, or a file that can't be read; the others are checked even so.

Example:
  $ zibewoka check examples/document.bin examples/refused-4.bin
  examples/document.bin: accepted: n 16, k 5, d 2
  examples/refused-4.bin: refused 4 2: run 2 starts at 2, not above run 1, which starts at 2
";

/// Of `key`.
pub const KEY: &str = "\
Usage: zibewoka key FILE PLACE MOVES [-d D]

Prints where so many moves from a place lead, through the table balanced at the file's degree: the place reached, the
interval that has it, the distance from the interval's start, and how many starts all moves read. PLACE is below n, and
MOVES is at most 4294967295, at some ns each. FILE - is standard input.

Options:
  -d, --degree D    balance at D, 2 to 64, and not at the file's degree

Exit status: 0 done, 1 refused, 2 a wrong call, or a file that can't be read.

Example:
  $ zibewoka key examples/document.bin 11 1
  3 1 1 2
";

/// Of `questions`.
pub const QUESTIONS: &str = "\
Usage: zibewoka questions FILE [-d D]

Reads places from standard input, in rising order, with blanks or line ends between them, and makes a move from each,
through the table balanced at the file's degree. Prints a line for each: the place, its interval, the place reached, its
interval, the distance from that interval's start, and how many starts the move read. FILE can't be - here.

Options:
  -d, --degree D    balance at D, 2 to 64, and not at the file's degree

Exit status: 0 done, 1 refused (then there is no answer at all), 2 a wrong call, or something that can't be read.

Example:
  $ echo 3 11 | zibewoka questions examples/document.bin
  3 1 13 5 1 0
  11 4 3 1 1 2
";

/// Of `balance`.
pub const BALANCE: &str = "\
Usage: zibewoka balance FILE [-d D]

Prints the move table of the list balanced at the file's degree: n, k, d and K, then a line for each interval with its
index, start, image, holder and length. FILE - is standard input.

Options:
  -d, --degree D    balance at D, 2 to 64, and not at the file's degree

Exit status: 0 done, 1 refused, 2 a wrong call, or a file that can't be read.

Example:
  $ zibewoka balance examples/document.bin
  16 5 2 6
  0 0 14 5 2
  1 2 12 5 2
  2 4 10 4 2
  3 6 8 4 2
  4 8 0 0 4
  5 12 4 2 4
";

/// Of `degree`.
pub const DEGREE: &str = "\
Usage: zibewoka degree FILE ENTRIES

Prints the least degree from 2 to 64 at which the balanced list has at most so many intervals, and how many it has there.
The file's own degree does not matter. FILE - is standard input.

Exit status: 0 done, 1 refused (with 19 where no degree is enough), 2 a wrong call, or a file that can't be read.

Example:
  $ zibewoka degree examples/document.bin 5
  3 5
";

/// Of `audit`.
pub const AUDIT: &str = "\
Usage: zibewoka audit DIR [-d D]

Checks every list of a collection, which are the files ending in .bin in a folder and in those below it; links to folders
are not followed. Prints a line for each, in order of path: `accepted` with n, k, d, K and how many cuts balancing makes,
or `refused` with the number, the place and why, or why it can't be read; and a total. All cores are used, and a terminal
shows how far it is.

Options:
  -d, --degree D    balance at D, 2 to 64, and not at each file's degree

Exit status: 0 all accepted, 1 one refused, 2 a wrong call, or a file or folder that can't be read.

Example:
  $ zibewoka audit examples | head -n 2
  examples/archive.bin: accepted: n 770, k 312, d 2, K 337, cuts 25
  examples/cuts.bin: accepted: n 40, k 11, d 2, K 15, cuts 4
";

/// Of `draw`.
pub const DRAW: &str = "\
Usage: zibewoka draw FILE -o OUT.svg [-d D]

Draws the list and how balancing cuts it, as a picture in SVG. FILE - is standard input.

Options:
  -o, --output OUT.svg    where to write the picture; - is standard output
  -d, --degree D          balance at D, 2 to 64, and not at the file's degree

Exit status: 0 done, 1 refused, 2 a wrong call, or something that can't be read or written.

Example:
  $ zibewoka draw examples/document.bin -o document.svg
";
