//! The calls of document 01 and of the requests after it, on numbers and slices.

#![forbid(unsafe_code)]

use crate::explain::{file_refusal, List, Table};
use crate::exports::{self, Bookmark, Question};
use crate::limits::MAX_LISTING;
use crate::refusal::{LentTable, Refusal};

/// How large a list becomes when it is balanced.
///
/// ```
/// let list = zibewoka::RunList::new(16, vec![0, 2, 4, 6, 8], vec![14, 12, 10, 8, 0])?;
/// assert_eq!(list.forecast(2)?, zibewoka::Forecast { intervals: 6, cuts: 1 });
/// # Ok::<(), zibewoka::Refusal>(())
/// ```
#[derive(Clone, Copy, Debug, PartialEq, Eq, Hash)]
pub struct Forecast {
    /// K, how many intervals the balanced list has: as many entries as [`balance`] needs in each table that it fills.
    pub intervals: u32,
    /// How many cuts make it, which is how many intervals it has more than the list has runs.
    pub cuts: u32,
}

/// The least degree at which a balanced list has no more intervals than stated.
///
/// ```
/// let list = zibewoka::RunList::new(16, vec![0, 2, 4, 6, 8], vec![14, 12, 10, 8, 0])?;
/// assert_eq!(list.least_degree(5)?, zibewoka::LeastDegree { degree: 3, intervals: 5 });
/// # Ok::<(), zibewoka::Refusal>(())
/// ```
#[derive(Clone, Copy, Debug, PartialEq, Eq, Hash)]
pub struct LeastDegree {
    /// The degree, 2 to 64.
    pub degree: u32,
    /// K, how many intervals the balanced list has at that degree.
    pub intervals: u32,
}

impl Question {
    /// A question about a place.
    pub fn new(place: u32) -> Question {
        Question { place, ..Question::default() }
    }
}

/// A place and the interval that has it: where a walk stands. A [`Step`] or a [`Bookmark`] can be handed in where one is asked for.
///
/// ```
/// use zibewoka::Position;
///
/// let table = zibewoka::RunList::new(16, vec![0, 2, 4, 6, 8], vec![14, 12, 10, 8, 0])?.balance(2)?;
/// let from = Position { place: 11, interval: 4 };
/// assert_eq!(table.find(11)?, from);
/// assert_eq!(Position::from(table.step(from)?), Position { place: 3, interval: 1 });
/// # Ok::<(), zibewoka::Refusal>(())
/// ```
#[derive(Clone, Copy, Debug, Default, PartialEq, Eq, Hash)]
pub struct Position {
    /// The place.
    pub place: u32,
    /// The interval's index.
    pub interval: u32,
}

impl From<Step> for Position {
    fn from(Step { place, interval, .. }: Step) -> Position {
        Position { place, interval }
    }
}

impl From<Bookmark> for Position {
    fn from(Bookmark { place, interval, .. }: Bookmark) -> Position {
        Position { place, interval }
    }
}

/// What the header of a file says.
///
/// ```
/// use zibewoka::{Header, RunList};
///
/// let file = RunList::new(2, vec![0, 1], vec![1, 0])?.to_file(3)?;
/// assert_eq!(zibewoka::check_file(&file), Ok(Header { n: 2, runs: 2, degree: 3 }));
/// # Ok::<(), zibewoka::Refusal>(())
/// ```
#[derive(Clone, Copy, Debug, PartialEq, Eq, Hash)]
pub struct Header {
    /// How many places the list has.
    pub n: u32,
    /// How many runs it has.
    pub runs: u32,
    /// The degree, 2 to 64, at which it is to be balanced.
    pub degree: u32,
}

/// Where a move or a repeated move ends.
///
/// ```
/// use zibewoka::Step;
///
/// let table = zibewoka::RunList::new(16, vec![0, 2, 4, 6, 8], vec![14, 12, 10, 8, 0])?.balance(2)?;
/// let step = table.step(table.find(11)?)?;
/// assert_eq!(step, Step { place: 3, interval: 1, distance: 1, count: 2 });
/// assert_eq!(step.place - step.distance, table.starts()[1]);
/// # Ok::<(), zibewoka::Refusal>(())
/// ```
#[derive(Clone, Copy, Debug, PartialEq, Eq, Hash)]
pub struct Step {
    /// The place reached.
    pub place: u32,
    /// The interval that has it.
    pub interval: u32,
    /// How far the place lies from the interval's start; that start is `place - distance`.
    pub distance: u32,
    /// How many interval starts were read on the way, which is how many were compared with the place reached: those that
    /// the walk passed, and the one that ended it, if there is one behind the interval reached. Of several moves, the sum.
    pub count: u64,
}

/// Done, where the number is 0; else the refusal that `refusal` makes of it.
#[inline]
fn done(number: u32, refusal: impl FnOnce(u32) -> Refusal) -> Result<(), Refusal> {
    match number {
        0 => Ok(()),
        _ => Err(refusal(number)),
    }
}

/// Whether the list is legal and has at most 16,384 runs.
///
/// # Errors
/// Numbers 1 to 6.
#[inline]
pub fn check(n: u32, starts: &[u32], images: &[u32]) -> Result<(), Refusal> {
    let answer = exports::check(n, starts, images);
    done(answer.number, |number| List { n, starts, images }.refusal(number, answer.place))
}

/// Balances the list at degree `d`, 2 to 64, and answers K, how many intervals the balanced list has.
///
/// Its tables come to stand in the first K entries of the four lent ones, which need no more than these ([`forecast`]
/// gives K), and the first B entries of `working` are 0 then; B is the whole part of d·k/(d−1), for k runs. All other
/// entries stay.
///
/// # Errors
/// Numbers 1 to 7; then 8 with B where `working` has fewer than B entries; then 8 with K where another table has fewer than
/// K. The last one leaves the first B entries of `working` 0, and the other tables as they were; B and K may be equal, and
/// then the table that the refusal names tells the two apart.
#[allow(clippy::too_many_arguments)] // the paper's own
#[inline]
pub fn balance(
    n: u32,
    starts: &[u32],
    images: &[u32],
    d: u32,
    to_starts: &mut [u32],
    to_images: &mut [u32],
    to_holders: &mut [u32],
    to_lengths: &mut [u32],
    working: &mut [u32],
) -> Result<u32, Refusal> {
    let answer = exports::balance(n, starts, images, d, to_starts, to_images, to_holders, to_lengths, working);
    let lent = [
        (LentTable::Working, working.len()),
        (LentTable::Starts, to_starts.len()),
        (LentTable::Images, to_images.len()),
        (LentTable::Holders, to_holders.len()),
        (LentTable::Lengths, to_lengths.len()),
    ];
    done(answer.number, |number| List { n, starts, images }.lent_refusal(number, answer.place, &lent))?;
    Ok(answer.intervals)
}

/// How large the list becomes when it is balanced at degree `d`, 2 to 64: what [`balance`] does, with only its working table
/// lent.
///
/// The first B entries of `working` are 0 then, B being the whole part of d·k/(d−1), for k runs; all others stay.
///
/// ```
/// let (n, starts, images) = (16, [0, 2, 4, 6, 8], [14, 12, 10, 8, 0]);
/// let mut working = [0; 10]; // B entries: 2·5/(2 − 1) at degree 2
/// let size = zibewoka::forecast(n, &starts, &images, 2, &mut working)?;
/// assert_eq!(size, zibewoka::Forecast { intervals: 6, cuts: 1 });
/// let [mut s, mut i, mut h, mut l] = [0; 4].map(|_| vec![0; size.intervals as usize]);
/// assert_eq!(zibewoka::balance(n, &starts, &images, 2, &mut s, &mut i, &mut h, &mut l, &mut working), Ok(6));
/// # Ok::<(), zibewoka::Refusal>(())
/// ```
///
/// # Errors
/// Numbers 1 to 8; 8 where `working` has fewer than B entries.
#[inline]
pub fn forecast(n: u32, starts: &[u32], images: &[u32], d: u32, working: &mut [u32]) -> Result<Forecast, Refusal> {
    let answer = exports::forecast(n, starts, images, d, working);
    let lent = [(LentTable::Working, working.len())];
    done(answer.number, |number| List { n, starts, images }.lent_refusal(number, answer.place, &lent))?;
    Ok(Forecast { intervals: answer.intervals, cuts: answer.cuts })
}

/// The least degree from 2 to 64 at which the balanced list has at most `entries` intervals, and how many it has there. A
/// higher degree may give a few more again, so not every degree above the least one fits.
///
/// The first 2·k entries of `working`, for k runs, are 0 then, whichever degree is the least: B at degree 2. All others
/// stay.
///
/// ```
/// let (n, starts, images) = (16, [0, 2, 4, 6, 8], [14, 12, 10, 8, 0]);
/// let mut working = [0; 10]; // 2·5 entries
/// let least = zibewoka::least_degree(n, &starts, &images, 5, &mut working)?;
/// assert_eq!(least, zibewoka::LeastDegree { degree: 3, intervals: 5 }); // at degree 2 there are 6
/// let none = zibewoka::least_degree(n, &starts, &images, 4, &mut working);
/// assert_eq!(none, Err(zibewoka::Refusal::NoDegreeFits { entries: 4 }));
/// # Ok::<(), zibewoka::Refusal>(())
/// ```
///
/// # Errors
/// Numbers 1 to 6; then 8 where `working` has fewer than 2·k entries; then 19 where no degree fits, which leaves these
/// entries 0 too.
#[inline]
pub fn least_degree(
    n: u32,
    starts: &[u32],
    images: &[u32],
    entries: u32,
    working: &mut [u32],
) -> Result<LeastDegree, Refusal> {
    let answer = exports::least_degree(n, starts, images, entries, working);
    let lent = [(LentTable::Working, working.len())];
    done(answer.number, |number| List { n, starts, images }.lent_refusal(number, answer.place, &lent))?;
    Ok(LeastDegree { degree: answer.degree, intervals: answer.intervals })
}

/// Writes the inverse list to the first k entries of the lent tables.
///
/// # Errors
/// Numbers 1 to 6, and 8 where a lent table has fewer than k entries.
#[inline]
pub fn inverse_list(
    n: u32,
    starts: &[u32],
    images: &[u32],
    to_starts: &mut [u32],
    to_images: &mut [u32],
) -> Result<(), Refusal> {
    let answer = exports::inverse_list(n, starts, images, to_starts, to_images);
    let lent = [(LentTable::Starts, to_starts.len()), (LentTable::Images, to_images.len())];
    done(answer.number, |number| List { n, starts, images }.lent_refusal(number, answer.place, &lent))
}

/// Writes the list of the same permutation that has the fewest runs, and answers how many it has: neighbours whose images follow on
/// become one run.
///
/// The list comes to stand in the first entries of the lent tables, which have at least k, as many as the list that is handed in
/// has runs; the others stay.
///
/// ```
/// let [mut starts, mut images] = [[9; 4]; 2];
/// assert_eq!(zibewoka::fold(4, &[0, 1, 2, 3], &[2, 3, 0, 1], &mut starts, &mut images), Ok(2));
/// assert_eq!((starts, images), ([0, 2, 9, 9], [2, 0, 9, 9]));
/// ```
///
/// # Errors
/// Numbers 1 to 6, and 8 where a lent table has fewer than k entries.
#[inline]
pub fn fold(
    n: u32,
    starts: &[u32],
    images: &[u32],
    to_starts: &mut [u32],
    to_images: &mut [u32],
) -> Result<u32, Refusal> {
    let answer = exports::fold(n, starts, images, to_starts, to_images);
    let lent = [(LentTable::Starts, to_starts.len()), (LentTable::Images, to_images.len())];
    done(answer.number, |number| List { n, starts, images }.lent_refusal(number, answer.place, &lent))?;
    Ok(answer.runs)
}

/// Writes the list after the given one, and answers how many runs it has: of the permutations of `n` places, 1 to 7, in
/// lexicographic order (by the image of place 0, then of place 1, and so on), each as a list of fewest runs. From the
/// identity each comes once, n! lists in all.
///
/// The list comes to stand in the first entries of the lent tables, which have at least `n`; the others stay. The one that is
/// handed in may be any legal list of its permutation.
///
/// ```
/// let (mut starts, mut images) = (vec![0], vec![0]);
/// let [mut to_starts, mut to_images] = [[0; 3]; 2];
/// let mut lists = 1;
/// while let Ok(k) = zibewoka::next_list(3, &starts, &images, &mut to_starts, &mut to_images) {
///     (starts, images) = (to_starts[..k as usize].to_vec(), to_images[..k as usize].to_vec());
///     lists += 1;
/// }
/// assert_eq!((lists, images), (6, vec![2, 1, 0]));
/// ```
///
/// # Errors
/// Numbers 1 to 6; then 17 where `n` is above 7; then 8 where a lent table has fewer than `n` entries; then 18 where the list
/// is the last.
#[inline]
pub fn next_list(
    n: u32,
    starts: &[u32],
    images: &[u32],
    to_starts: &mut [u32],
    to_images: &mut [u32],
) -> Result<u32, Refusal> {
    let answer = exports::next_list(n, starts, images, to_starts, to_images);
    let lent = [(LentTable::Starts, to_starts.len()), (LentTable::Images, to_images.len())];
    done(answer.number, |number| List { n, starts, images }.lent_refusal(number, answer.place, &lent))?;
    Ok(answer.runs)
}

/// The interval that has `place`.
///
/// # Errors
/// Number 9; then 12, with the lowest interval whose length is wrong; then 11.
#[inline]
pub fn find(
    n: u32,
    starts: &[u32],
    images: &[u32],
    holders: &[u32],
    lengths: &[u32],
    place: u32,
) -> Result<u32, Refusal> {
    let answer = exports::find(n, starts, images, holders, lengths, place);
    done(answer.number, |number| {
        Table { n, columns: [starts, images, holders, lengths] }.refusal(number, answer.place, None)
    })?;
    Ok(answer.interval)
}

/// One move from `place`, which `interval` has.
///
/// # Errors
/// Numbers 9 and 10; then 12 where the interval's length is wrong; then 11; then 12 where it can't be left.
#[inline]
pub fn move_once(
    n: u32,
    starts: &[u32],
    images: &[u32],
    holders: &[u32],
    lengths: &[u32],
    interval: u32,
    place: u32,
) -> Result<Step, Refusal> {
    let answer = exports::move_once(n, starts, images, holders, lengths, interval, place);
    done(answer.number, |number| {
        Table { n, columns: [starts, images, holders, lengths] }.refusal(number, answer.place, Some(interval))
    })?;
    let exports::MoveAnswer { place, interval, distance, count, .. } = answer;
    Ok(Step { place, interval, distance, count: u64::from(count) })
}

/// `m` moves from `place`, which `interval` has.
///
/// # Errors
/// Numbers 9 and 10; then 12 where the interval's length is wrong; then 11; then 12 at each move, with the interval whose
/// length is wrong or that can't be left, and then there is no part result.
#[allow(clippy::too_many_arguments)] // the paper's own
#[inline]
pub fn moves(
    n: u32,
    starts: &[u32],
    images: &[u32],
    holders: &[u32],
    lengths: &[u32],
    interval: u32,
    place: u32,
    m: u32,
) -> Result<Step, Refusal> {
    let answer = exports::moves(n, starts, images, holders, lengths, interval, place, m);
    done(answer.number, |number| {
        Table { n, columns: [starts, images, holders, lengths] }.refusal(number, answer.place, Some(interval))
    })?;
    let exports::MovesAnswer { place, interval, distance, count, .. } = answer;
    Ok(Step { place, interval, distance, count })
}

/// The place that `place` is reached from, and its interval.
///
/// # Errors
/// Number 9; then 12, with the lowest interval whose length is wrong; then 11; then 14.
#[inline]
pub fn inverse(
    n: u32,
    starts: &[u32],
    images: &[u32],
    holders: &[u32],
    lengths: &[u32],
    place: u32,
) -> Result<Position, Refusal> {
    let answer = exports::inverse(n, starts, images, holders, lengths, place);
    done(answer.number, |number| {
        Table { n, columns: [starts, images, holders, lengths] }.refusal(number, answer.place, None)
    })?;
    Ok(Position { place: answer.place, interval: answer.interval })
}

/// How many starts lie under the image of `interval`.
///
/// # Errors
/// Numbers 9, 10 and 12.
#[inline]
pub fn weight(
    n: u32,
    starts: &[u32],
    images: &[u32],
    holders: &[u32],
    lengths: &[u32],
    interval: u32,
) -> Result<u32, Refusal> {
    let answer = exports::weight(n, starts, images, holders, lengths, interval);
    done(answer.number, |number| {
        Table { n, columns: [starts, images, holders, lengths] }.refusal(number, answer.place, None)
    })?;
    Ok(answer.weight)
}

/// The starts under the image of `interval`, as the part of `starts` that they are.
///
/// ```
/// let (starts, images) = ([0, 2, 4, 6, 8, 12], [14, 12, 10, 8, 0, 4]);
/// let (holders, lengths) = ([5, 5, 4, 4, 0, 2], [2, 2, 2, 2, 4, 4]);
/// assert_eq!(zibewoka::starts_under(16, &starts, &images, &holders, &lengths, 5), Ok(&starts[2..4]));
/// ```
///
/// # Errors
/// Numbers 9, 10 and 12.
#[inline]
pub fn starts_under<'a>(
    n: u32,
    starts: &'a [u32],
    images: &[u32],
    holders: &[u32],
    lengths: &[u32],
    interval: u32,
) -> Result<&'a [u32], Refusal> {
    exports::part_under(n, starts, images, holders, lengths, interval).map_err(|answer| {
        Table { n, columns: [starts, images, holders, lengths] }.refusal(answer.number, answer.place, None)
    })
}

/// Answers questions that stand in rising order of place, equal ones too: each record gets the interval that has its
/// place, as [`find`] gives it, and the place reached, the interval reached, the count and the distance of a move from
/// there, as [`move_once`] gives them. What these fields held before is not read.
///
/// One pass over the starts finds all intervals; the answer is how many it passed, which is the last record's interval,
/// or 0 where there are no records.
///
/// ```
/// use zibewoka::Question;
///
/// let (starts, images) = ([0, 2, 4, 6, 8, 12], [14, 12, 10, 8, 0, 4]);
/// let (holders, lengths) = ([5, 5, 4, 4, 0, 2], [2, 2, 2, 2, 4, 4]);
/// let mut records = [3, 11].map(Question::new);
/// assert_eq!(zibewoka::questions(16, &starts, &images, &holders, &lengths, &mut records), Ok(4));
/// assert_eq!(records[1], Question { place: 11, interval: 4, to_place: 3, to_interval: 1, count: 2, distance: 1 });
/// ```
///
/// # Errors
/// Number 9; then 12, with the lowest interval whose length is wrong; then 16, with the record's index; then 11; then 12: each
/// of these three of the lowest record that it applies to.
#[inline]
pub fn questions(
    n: u32,
    starts: &[u32],
    images: &[u32],
    holders: &[u32],
    lengths: &[u32],
    questions: &mut [Question],
) -> Result<u32, Refusal> {
    let answer = exports::questions(n, starts, images, holders, lengths, questions);
    done(answer.number, |number| {
        Table { n, columns: [starts, images, holders, lengths] }.questions_refusal(number, answer.place, questions)
    })?;
    Ok(answer.count)
}

/// Whether the bytes are a file of a legal list of at most 16,384 runs with a degree from 2 to 64, and what its header says.
///
/// # Errors
/// Numbers 15 (fewer than 20 bytes), 1, 2, 15 (its layout), 3, 4, 5, 6, 7.
#[inline]
pub fn check_file(file: &[u8]) -> Result<Header, Refusal> {
    let answer = exports::check_file(file);
    done(answer.number, |number| file_refusal(file, number, answer.place))?;
    Ok(Header { n: answer.n, runs: answer.k, degree: answer.d })
}

/// Writes the listing of a file, or the line of its refusal, at the start of `text`, and answers how many bytes that are; 0, and
/// nothing is written, where `text` is too short. No listing has more than [`MAX_LISTING`] bytes.
///
/// A listing is of at most 1,024 runs: of more, the line says `refused 2 0`.
#[inline]
pub fn list_file(file: &[u8], text: &mut [u8]) -> usize {
    exports::list_file(file, text)
}

/// The listing of a file, or the line of its refusal, as [`list_file`] writes it.
///
/// ```
/// let list = zibewoka::RunList::new(2, vec![0, 1], vec![1, 0])?;
/// assert_eq!(zibewoka::listing(&list.to_file(2)?), "2 2 2 2\n0 0 1 1 1 1\n1 1 0 -1 0 1\n");
/// assert_eq!(zibewoka::listing(&[]), "refused 15 0\n");
/// # Ok::<(), zibewoka::Refusal>(())
/// ```
pub fn listing(file: &[u8]) -> String {
    let mut text = vec![0; MAX_LISTING];
    let count = list_file(file, &mut text);
    text.truncate(count);
    String::from_utf8_lossy(&text).into_owned()
}
