//! Why a call was refused: the paper's number and place, and a sentence.

#![forbid(unsafe_code)]

use crate::limits::{MAX_INTERVALS, MAX_RUNS, MAX_SUCCESSOR_PLACES};
use std::error::Error;
use std::fmt;

/// Why a call was refused: the first condition that applied, in the order of that call's tests.
///
/// Each case is one of the paper's numbers ([`number`](Refusal::number)), with the place that the paper gives with it
/// ([`place`](Refusal::place)) and what else the sentence speaks of, which [`Display`](fmt::Display) writes.
/// `docs/NUMBERS.md` has the numbers in a table, and the order of each call's tests.
///
/// k is the number of runs, K the number of intervals of a table or of the balanced list, and B, for degree d, the whole
/// part of d·k/(d−1); K is at most B.
///
/// ```
/// use zibewoka::{Refusal, RunList};
///
/// let refusal = RunList::new(16, vec![0, 2, 2], vec![14, 12, 0]).unwrap_err();
/// assert_eq!(refusal, Refusal::StartOrder { run: 2, start: 2, before: 2, n: 16 });
/// assert_eq!((refusal.number(), refusal.place()), (4, 2));
/// assert_eq!(refusal.to_string(), "run 2 starts at 2, not above run 1, which starts at 2");
/// ```
#[derive(Clone, Copy, Debug, PartialEq, Eq, Hash)]
#[non_exhaustive]
pub enum Refusal {
    /// 1: `n` is 0, there are no runs, or starts and images differ in count. Place 0.
    ListShape {
        /// The length.
        n: u32,
        /// How many starts there are.
        starts: usize,
        /// How many images there are.
        images: usize,
    },
    /// 2: more than 16,384 runs. Place 0.
    TooManyRuns {
        /// How many there are.
        runs: usize,
    },
    /// 3: the first start is not 0. Place 0.
    FirstStart {
        /// The first start.
        start: u32,
    },
    /// 4: a start is not above the one before, or not below `n`. The place is the run, the lowest such.
    StartOrder {
        /// The run.
        run: u32,
        /// Its start.
        start: u32,
        /// The start of the run before.
        before: u32,
        /// The length.
        n: u32,
    },
    /// 5: an image ends beyond `n`. The place is the run, the lowest such.
    ImageRange {
        /// The run.
        run: u32,
        /// Its image.
        image: u32,
        /// Where the image ends: the first place behind it.
        end: u64,
        /// The length.
        n: u32,
    },
    /// 6: an image shares a place with another run's. The place is the run, the lowest such.
    ImageOverlap {
        /// The run.
        run: u32,
        /// Another run that shares a place with it.
        other: u32,
        /// The lowest place that they share.
        shared: u32,
    },
    /// 7: the degree is not 2 to 64. The place is the degree.
    Degree {
        /// The degree.
        degree: u32,
    },
    /// 8: a lent table has too few entries. The place is how many it needs: B for the working table (in the search for a
    /// degree, B at degree 2); K for the tables that balancing fills, k for those of the inverse list and the fold, `n` for
    /// those of the next list.
    ShortTable {
        /// Which of the lent tables.
        table: LentTable,
        /// How many entries it has.
        entries: usize,
        /// How many it needs.
        needed: u32,
    },
    /// 9: `n` is 0, or the columns are empty, of unequal count, or above 32,768 entries. Place 0.
    TableShape {
        /// The length.
        n: u32,
        /// How many entries the columns have: starts, images, holders, lengths.
        entries: [usize; 4],
    },
    /// 10: there is no interval of that index. The place is the index.
    IntervalIndex {
        /// The index.
        interval: u32,
        /// How many intervals there are.
        intervals: usize,
    },
    /// 11: the place is not below `n`, or not where it should be. The place is that place.
    PlaceRange {
        /// The place.
        place: u32,
        /// What it lies outside of.
        outside: Outside,
    },
    /// 12: the entries of an interval don't fit. The place is the interval.
    BrokenInterval {
        /// The interval.
        interval: u32,
        /// What doesn't fit.
        flaw: Flaw,
    },
    /// 13: a counter of a bookmark would pass its width. Place 0.
    CounterLimit {
        /// The moves that the bookmark has made.
        moves: u32,
        /// The starts that they read.
        count: u64,
    },
    /// 14: no interval sends a place there. The place is that place.
    NoPreimage {
        /// The place.
        place: u32,
    },
    /// 15: the header of a file doesn't fit. The place is the byte of the header that says so (12: where the starts stand, 16:
    /// where the images do), or 0 for a file too short to have one, or 20 for one that ends elsewhere than it should.
    FileHeader {
        /// The place.
        byte: u32,
        /// What the header says there, or how many bytes the file has.
        found: u64,
        /// What it should be: at least, where the place is 0.
        wanted: u64,
    },
    /// 16: a question's place is below that of the one before. The place is the question's index.
    PlaceOrder {
        /// The question's index: there is no limit to how many are handed in, so that it may pass 32 bits.
        question: u64,
        /// Its place.
        place: u32,
        /// The place of the question before.
        before: u32,
    },
    /// 17: the next list is asked for of more than 7 places. The place is `n`.
    TooManyPlaces {
        /// The length.
        n: u32,
    },
    /// 18: the next list is asked for of the last, the decreasing permutation. Place 0.
    LastPermutation,
    /// 19: at each degree from 2 to 64 the balanced list has more intervals than the stated entries. The place is these
    /// entries.
    NoDegreeFits {
        /// The stated entries.
        entries: u32,
    },
}

/// A table that is lent to a call.
///
/// ```
/// use zibewoka::{LentTable, Refusal};
///
/// let short = zibewoka::inverse_list(2, &[0, 1], &[1, 0], &mut [0; 2], &mut [0; 1]);
/// assert_eq!(short, Err(Refusal::ShortTable { table: LentTable::Images, entries: 1, needed: 2 }));
/// ```
#[derive(Clone, Copy, Debug, PartialEq, Eq, Hash)]
#[non_exhaustive]
pub enum LentTable {
    /// The working table.
    Working,
    /// The table for starts.
    Starts,
    /// The table for images.
    Images,
    /// The table for holders.
    Holders,
    /// The table for lengths.
    Lengths,
}

/// What a place lies outside of.
///
/// ```
/// use zibewoka::{Outside, Refusal, RunList};
///
/// let table = RunList::new(2, vec![0, 1], vec![1, 0])?.balance(2)?;
/// assert_eq!(table.find(2), Err(Refusal::PlaceRange { place: 2, outside: Outside::Places { n: 2 } }));
/// # Ok::<(), Refusal>(())
/// ```
#[derive(Clone, Copy, Debug, PartialEq, Eq, Hash)]
#[non_exhaustive]
pub enum Outside {
    /// The places below `n`.
    Places {
        /// The length.
        n: u32,
    },
    /// The interval that was handed in with the place.
    Interval {
        /// The interval.
        interval: u32,
        /// Its start.
        start: u32,
        /// Its end: the first place behind it.
        end: u64,
    },
    /// All intervals: it lies below the first start, which is not 0 in tables from elsewhere.
    Starts {
        /// The first start.
        first: u32,
    },
}

/// What doesn't fit in an interval's entries.
///
/// ```
/// use zibewoka::{Flaw, MoveTable, Refusal};
///
/// let table = MoveTable::from_columns(2, vec![0, 1], vec![1, 0], vec![1, 9], vec![1, 1]);
/// assert_eq!(table.weight(1), Err(Refusal::BrokenInterval { interval: 1, flaw: Flaw::NoHolder { holder: 9 } }));
/// ```
#[derive(Clone, Copy, Debug, PartialEq, Eq, Hash)]
#[non_exhaustive]
pub enum Flaw {
    /// The length is 0, or is not the next start (or `n`) minus the interval's own.
    Length {
        /// The length in the table.
        length: u32,
        /// The interval's start.
        start: u32,
        /// The next start, or `n`.
        next: u32,
    },
    /// There is no interval of the holder's index.
    NoHolder {
        /// The holder.
        holder: u32,
    },
    /// The holder starts above the image.
    HolderAbove {
        /// The holder.
        holder: u32,
        /// Its start.
        start: u32,
        /// The interval's image.
        image: u32,
    },
    /// The image ends beyond `n`, and so a move would lead to `n` or beyond.
    ImageRange {
        /// The interval's image.
        image: u32,
        /// Where the image ends: the first place behind it.
        end: u64,
        /// The length.
        n: u32,
    },
}

impl Refusal {
    /// The paper's number.
    pub fn number(&self) -> u32 {
        match self {
            Refusal::ListShape { .. } => 1,
            Refusal::TooManyRuns { .. } => 2,
            Refusal::FirstStart { .. } => 3,
            Refusal::StartOrder { .. } => 4,
            Refusal::ImageRange { .. } => 5,
            Refusal::ImageOverlap { .. } => 6,
            Refusal::Degree { .. } => 7,
            Refusal::ShortTable { .. } => 8,
            Refusal::TableShape { .. } => 9,
            Refusal::IntervalIndex { .. } => 10,
            Refusal::PlaceRange { .. } => 11,
            Refusal::BrokenInterval { .. } => 12,
            Refusal::CounterLimit { .. } => 13,
            Refusal::NoPreimage { .. } => 14,
            Refusal::FileHeader { .. } => 15,
            Refusal::PlaceOrder { .. } => 16,
            Refusal::TooManyPlaces { .. } => 17,
            Refusal::LastPermutation => 18,
            Refusal::NoDegreeFits { .. } => 19,
        }
    }

    /// The place that the paper gives with the number: a run, an interval, a place, a size or an index. It has 64 bits for
    /// the sake of 16 alone.
    pub fn place(&self) -> u64 {
        match *self {
            Refusal::StartOrder { run, .. } | Refusal::ImageRange { run, .. } | Refusal::ImageOverlap { run, .. } => {
                run.into()
            }
            Refusal::Degree { degree } => degree.into(),
            Refusal::ShortTable { needed, .. } => needed.into(),
            Refusal::IntervalIndex { interval, .. } | Refusal::BrokenInterval { interval, .. } => interval.into(),
            Refusal::PlaceRange { place, .. } | Refusal::NoPreimage { place } => place.into(),
            Refusal::FileHeader { byte, .. } => byte.into(),
            Refusal::PlaceOrder { question, .. } => question,
            Refusal::TooManyPlaces { n } => n.into(),
            Refusal::NoDegreeFits { entries } => entries.into(),
            Refusal::ListShape { .. }
            | Refusal::TooManyRuns { .. }
            | Refusal::FirstStart { .. }
            | Refusal::TableShape { .. }
            | Refusal::CounterLimit { .. }
            | Refusal::LastPermutation => 0,
        }
    }
}

impl Error for Refusal {}

impl fmt::Display for Refusal {
    fn fmt(&self, f: &mut fmt::Formatter) -> fmt::Result {
        match *self {
            Refusal::ListShape { n: 0, .. } => write!(f, "n is 0, and a list has at least one place"),
            Refusal::ListShape { starts: 0, images: 0, .. } => write!(f, "there are no runs"),
            Refusal::ListShape { starts, images, .. } => write!(f, "the list has {starts} starts and {images} images"),
            Refusal::TooManyRuns { runs } => write!(f, "{runs} runs are more than the {MAX_RUNS} that are taken"),
            Refusal::FirstStart { start } => write!(f, "run 0 starts at {start}, not at 0"),
            Refusal::StartOrder { run, start, before, .. } if start <= before => {
                let last = run.saturating_sub(1);
                write!(f, "run {run} starts at {start}, not above run {last}, which starts at {before}")
            }
            Refusal::StartOrder { run, start, n, .. } => write!(f, "run {run} starts at {start}, not below n, {n}"),
            Refusal::ImageRange { run, image, end, n } => {
                write!(f, "run {run} goes to the places {image} to {}, and n is {n}", end.saturating_sub(1))
            }
            Refusal::ImageOverlap { run, other, shared } => {
                write!(f, "runs {run} and {other} both have a place that goes to {shared}")
            }
            Refusal::Degree { degree } => write!(f, "the degree is {degree}, not 2 to 64"),
            Refusal::ShortTable { table, entries, needed } => {
                write!(f, "the {table} has {entries} entries, and {needed} are needed")
            }
            Refusal::FileHeader { byte, found, wanted } => file_sentence(f, byte, found, wanted),
            Refusal::TooManyPlaces { n } => {
                write!(f, "the list has {n} places, and the next one is given of at most {MAX_SUCCESSOR_PLACES}")
            }
            Refusal::LastPermutation => write!(f, "the list is the last one: its permutation falls everywhere"),
            Refusal::NoDegreeFits { entries } => {
                write!(f, "at no degree from 2 to 64 does the balanced list have at most {entries} intervals")
            }
            _ => self.walk_sentence(f),
        }
    }
}

impl Refusal {
    /// The sentences of calls on tables.
    fn walk_sentence(&self, f: &mut fmt::Formatter) -> fmt::Result {
        match *self {
            Refusal::TableShape { n: 0, .. } => write!(f, "n is 0, and a table has at least one place"),
            Refusal::TableShape { entries: [0, 0, 0, 0], .. } => write!(f, "the table has no intervals"),
            Refusal::TableShape { entries: [starts, images, holders, lengths], .. }
                if [images, holders, lengths] == [starts; 3] =>
            {
                write!(f, "the table has {starts} intervals, and at most {MAX_INTERVALS} are taken")
            }
            Refusal::TableShape { entries: [starts, images, holders, lengths], .. } => {
                write!(f, "the table has {starts} starts, {images} images, {holders} holders and {lengths} lengths")
            }
            Refusal::IntervalIndex { interval, intervals } => {
                write!(f, "there is no interval {interval}: the table has {intervals} of them")
            }
            Refusal::PlaceRange { place, outside } => write!(f, "place {place} {outside}"),
            Refusal::BrokenInterval { interval, flaw } => write!(f, "interval {interval} {flaw}"),
            Refusal::CounterLimit { moves: u32::MAX, .. } => {
                write!(f, "the bookmark has made {} moves, and can't count another", u32::MAX)
            }
            Refusal::CounterLimit { count, .. } => {
                write!(f, "the bookmark's moves have read {count} starts, and it can't count those of another")
            }
            Refusal::NoPreimage { place } => write!(f, "no interval has a place that goes to {place}"),
            Refusal::PlaceOrder { question, place, before } => {
                write!(f, "question {question} asks about place {place}, below {before} of the one before")
            }
            _ => write!(f, "refused with number {} and place {}", self.number(), self.place()),
        }
    }
}

fn file_sentence(f: &mut fmt::Formatter, byte: u32, found: u64, wanted: u64) -> fmt::Result {
    match byte {
        0 => write!(f, "the file has {found} bytes, and its header needs {wanted}"),
        12 => write!(f, "the header says that the starts stand at byte {found}, not at {wanted}"),
        16 => write!(f, "the header says that the images stand at byte {found}, not at {wanted}"),
        _ => write!(f, "the file has {found} bytes, and by its header {wanted}"),
    }
}

impl fmt::Display for LentTable {
    fn fmt(&self, f: &mut fmt::Formatter) -> fmt::Result {
        f.write_str(match self {
            LentTable::Working => "working table",
            LentTable::Starts => "table for starts",
            LentTable::Images => "table for images",
            LentTable::Holders => "table for holders",
            LentTable::Lengths => "table for lengths",
        })
    }
}

impl fmt::Display for Outside {
    fn fmt(&self, f: &mut fmt::Formatter) -> fmt::Result {
        match *self {
            Outside::Places { n } => write!(f, "is not below n, {n}"),
            Outside::Interval { interval, start, end } => {
                write!(f, "is not in interval {interval}, which has {start} to {}", end.saturating_sub(1))
            }
            Outside::Starts { first } => write!(f, "is below the first start, {first}"),
        }
    }
}

impl fmt::Display for Flaw {
    fn fmt(&self, f: &mut fmt::Formatter) -> fmt::Result {
        match *self {
            Flaw::Length { length, start, next } => {
                write!(f, "has length {length}, but starts at {start} and ends before {next}")
            }
            Flaw::NoHolder { holder } => write!(f, "has holder {holder}, and there is no such interval"),
            Flaw::HolderAbove { holder, start, image } => {
                write!(f, "goes to {image}, and its holder, {holder}, starts above that, at {start}")
            }
            Flaw::ImageRange { image, end, n } => {
                write!(f, "goes to the places {image} to {}, and n is {n}", end.saturating_sub(1))
            }
        }
    }
}
