//! What a refusal speaks of, found again in what the call handed in. The number and the place are the library's; nothing here
//! decides whether a call is refused, and nothing here panics, whatever was handed in.

#![forbid(unsafe_code)]

use crate::exports::Question;
use crate::refusal::{Flaw, LentTable, Outside, Refusal};

/// A run list as it was handed in.
#[derive(Clone, Copy)]
pub(crate) struct List<'a> {
    pub n: u32,
    pub starts: &'a [u32],
    pub images: &'a [u32],
}

impl List<'_> {
    /// Numbers 1 to 6.
    #[cold]
    pub(crate) fn refusal(&self, number: u32, place: u32) -> Refusal {
        let (n, run) = (self.n, place);
        match number {
            1 => Refusal::ListShape { n, starts: self.starts.len(), images: self.images.len() },
            2 => Refusal::TooManyRuns { runs: self.starts.len() },
            3 => Refusal::FirstStart { start: entry(self.starts, 0) },
            4 => {
                let [before, start] = [run.wrapping_sub(1), run].map(|x| entry(self.starts, x));
                Refusal::StartOrder { run, start, before, n }
            }
            5 => {
                let (image, end) = self.image(run);
                Refusal::ImageRange { run, image: image as u32, end, n }
            }
            _ => self.overlap(run),
        }
    }

    /// The numbers of a call with tables lent to it: 1 to 6, 7, 8, 17, 18 and 19.
    #[cold]
    pub(crate) fn lent_refusal(&self, number: u32, place: u32, lent: &[(LentTable, usize)]) -> Refusal {
        match number {
            7 => Refusal::Degree { degree: place },
            8 => {
                // The first that is too short: balancing tests the working table before the others, and for no more than B, which is
                // at least what the others need.
                let short = lent.iter().find(|(_, entries)| (*entries as u64) < u64::from(place));
                let (table, entries) = short.copied().unwrap_or((LentTable::Working, 0));
                Refusal::ShortTable { table, entries, needed: place }
            }
            17 => Refusal::TooManyPlaces { n: place },
            18 => Refusal::LastPermutation,
            19 => Refusal::NoDegreeFits { entries: place },
            _ => self.refusal(number, place),
        }
    }

    /// Where a run's image begins and ends.
    fn image(&self, run: u32) -> (u64, u64) {
        let image = u64::from(entry(self.images, run));
        let end = next_start(self.n, self.starts, run);
        (image, image + u64::from(end.saturating_sub(entry(self.starts, run))))
    }

    /// Number 6: a run that shares a place with this one.
    fn overlap(&self, run: u32) -> Refusal {
        let (image, end) = self.image(run);
        let shares = |other: &u32| {
            let (image_there, end_there) = self.image(*other);
            *other != run && image.max(image_there) < end.min(end_there)
        };
        let other = (0..self.starts.len() as u32).find(shares).unwrap_or(run);
        Refusal::ImageOverlap { run, other, shared: image.max(self.image(other).0) as u32 }
    }
}

/// A move table as it was handed in: starts, images, holders, lengths.
#[derive(Clone, Copy)]
pub(crate) struct Table<'a> {
    pub n: u32,
    pub columns: [&'a [u32]; 4],
}

impl Table<'_> {
    /// The numbers of a call on tables, 9 to 12 and 14, with the interval that was handed in with the place, if one was.
    #[cold]
    pub(crate) fn refusal(&self, number: u32, place: u32, interval: Option<u32>) -> Refusal {
        let [starts, ..] = self.columns;
        match number {
            9 => Refusal::TableShape { n: self.n, entries: self.columns.map(<[u32]>::len) },
            10 => Refusal::IntervalIndex { interval: place, intervals: starts.len() },
            11 => Refusal::PlaceRange { place, outside: self.outside(place, interval) },
            14 => Refusal::NoPreimage { place },
            _ => Refusal::BrokenInterval { interval: place, flaw: self.flaw(place) },
        }
    }

    /// The numbers of questions together: 16, which is given with an index, and those of find and of a move.
    #[cold]
    pub(crate) fn questions_refusal(&self, number: u32, place: u64, questions: &[Question]) -> Refusal {
        if number != 16 {
            return self.refusal(number, place as u32, None);
        }
        let place_of = |index: u64| questions.get(index as usize).map_or(0, |question| question.place);
        Refusal::PlaceOrder { question: place, place: place_of(place), before: place_of(place.wrapping_sub(1)) }
    }

    fn outside(&self, place: u32, interval: Option<u32>) -> Outside {
        let [starts, _, _, lengths] = self.columns;
        match interval {
            _ if self.n <= place => Outside::Places { n: self.n },
            None => Outside::Starts { first: entry(starts, 0) },
            Some(interval) => {
                let start = entry(starts, interval);
                Outside::Interval { interval, start, end: u64::from(start) + u64::from(entry(lengths, interval)) }
            }
        }
    }

    /// What doesn't fit in an interval's entries, in the order of document 02's tests: its length, then its holder, then where its
    /// image ends.
    fn flaw(&self, interval: u32) -> Flaw {
        let [starts, ..] = self.columns;
        let [start, image, holder, length] = self.columns.map(|column| entry(column, interval));
        let next = next_start(self.n, starts, interval);
        let end = u64::from(start) + u64::from(length);
        if length == 0 || end != u64::from(next) {
            return Flaw::Length { length, start, next };
        }
        match starts.get(holder as usize) {
            None => Flaw::NoHolder { holder },
            Some(&start) if image < start => Flaw::HolderAbove { holder, start, image },
            Some(_) => Flaw::ImageRange { image, end: u64::from(image) + u64::from(length), n: self.n },
        }
    }
}

/// The numbers of a file: 15, 1 and 2, then those of its list, then 7.
#[cold]
pub(crate) fn file_refusal(file: &[u8], number: u32, place: u32) -> Refusal {
    let word = |at: usize| words(file).nth(at).unwrap_or(0);
    let (n, k) = (word(0), word(1));
    match number {
        1 => Refusal::ListShape { n, starts: k as usize, images: k as usize },
        2 => Refusal::TooManyRuns { runs: k as usize },
        7 => Refusal::Degree { degree: place },
        15 => {
            let (k, bytes) = (u64::from(k), file.len() as u64);
            let [found, wanted] = match place {
                12 => [word(3).into(), 20],
                16 => [word(4).into(), 20 + 4 * k],
                0 => [bytes, 20],
                _ => [bytes, 20 + 8 * k],
            };
            Refusal::FileHeader { byte: place, found, wanted }
        }
        _ => {
            let columns: Vec<u32> = words(file).skip(5).collect();
            let (starts, images) = columns.split_at(columns.len().min(k as usize));
            List { n, starts, images }.refusal(number, place)
        }
    }
}

/// The words of a file, least byte first.
pub(crate) fn words(file: &[u8]) -> impl Iterator<Item = u32> + '_ {
    file.chunks_exact(4).map(|bytes| bytes.iter().rev().fold(0, |word, &byte| word << 8 | u32::from(byte)))
}

fn entry(column: &[u32], x: u32) -> u32 {
    column.get(x as usize).copied().unwrap_or(0)
}

/// The next start, or `n`: where an interval ends.
fn next_start(n: u32, starts: &[u32], x: u32) -> u32 {
    starts.get((x as usize).saturating_add(1)).copied().unwrap_or(n)
}
