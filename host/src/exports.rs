//! The exports as they are: numbers and slices in, a struct or a number out. All of the crate's `unsafe` code is here.
//!
//! In every answer `number` 0 means done; else it is the paper's number, `place` is the place that is given with it, and
//! the other fields are 0. [`list_file`] alone answers a number: a refusal is its text.

/// The answer of [`check`] and [`inverse_list`].
///
/// ```
/// let answer = zibewoka::exports::check(4, &[0, 2], &[0, 3]);
/// assert_eq!((answer.number, answer.place), (5, 1));
/// ```
#[repr(C)]
#[derive(Clone, Copy, Debug, PartialEq, Eq)]
pub struct ListAnswer {
    /// 0, or the paper's number.
    pub number: u32,
    /// The place given with the number; 0 where the call is done.
    pub place: u32,
}

/// The answer of [`balance`].
///
/// ```
/// let [mut s, mut i, mut h, mut l, mut w] = [[0; 2]; 5];
/// let answer = zibewoka::exports::balance(1, &[0], &[0], 2, &mut s, &mut i, &mut h, &mut l, &mut w);
/// assert_eq!((answer.number, answer.intervals), (0, 1));
/// ```
#[repr(C)]
#[derive(Clone, Copy, Debug, PartialEq, Eq)]
pub struct BalanceAnswer {
    /// 0, or the paper's number.
    pub number: u32,
    /// The place given with the number; 0 where the call is done.
    pub place: u32,
    /// How many intervals the balanced list has.
    pub intervals: u32,
}

/// The answer of [`forecast`].
///
/// ```
/// let answer = zibewoka::exports::forecast(1, &[0], &[0], 2, &mut [0; 2]);
/// assert_eq!((answer.number, answer.intervals, answer.cuts), (0, 1, 0));
/// ```
#[repr(C)]
#[derive(Clone, Copy, Debug, PartialEq, Eq)]
pub struct ForecastAnswer {
    /// 0, or the paper's number.
    pub number: u32,
    /// The place given with the number; 0 where the call is done.
    pub place: u32,
    /// How many intervals the balanced list has.
    pub intervals: u32,
    /// How many cuts make it.
    pub cuts: u32,
}

/// The answer of [`least_degree`].
///
/// ```
/// let answer = zibewoka::exports::least_degree(1, &[0], &[0], 1, &mut [0; 2]);
/// assert_eq!((answer.number, answer.degree, answer.intervals), (0, 2, 1));
/// ```
#[repr(C)]
#[derive(Clone, Copy, Debug, PartialEq, Eq)]
pub struct DegreeAnswer {
    /// 0, or the paper's number.
    pub number: u32,
    /// The place given with the number; 0 where the call is done.
    pub place: u32,
    /// The least degree at which the balanced list has no more intervals than stated.
    pub degree: u32,
    /// How many it has at that degree.
    pub intervals: u32,
}

/// The answer of [`next_list`] and [`fold`].
///
/// ```
/// let answer = zibewoka::exports::next_list(2, &[0], &[0], &mut [0; 2], &mut [0; 2]);
/// assert_eq!((answer.number, answer.runs), (0, 2));
/// let answer = zibewoka::exports::fold(2, &[0, 1], &[0, 1], &mut [0; 2], &mut [0; 2]);
/// assert_eq!((answer.number, answer.runs), (0, 1));
/// ```
#[repr(C)]
#[derive(Clone, Copy, Debug, PartialEq, Eq)]
pub struct RunsAnswer {
    /// 0, or the paper's number.
    pub number: u32,
    /// The place given with the number; 0 where the call is done.
    pub place: u32,
    /// How many runs the list has that was written.
    pub runs: u32,
}

/// The same, for programs that name the answer of [`next_list`].
pub type NextAnswer = RunsAnswer;

/// The answer of [`find`] and [`inverse`].
///
/// ```
/// let answer = zibewoka::exports::find(2, &[0, 1], &[1, 0], &[1, 0], &[1, 1], 1);
/// assert_eq!((answer.number, answer.place, answer.interval), (0, 1, 1));
/// ```
#[repr(C)]
#[derive(Clone, Copy, Debug, PartialEq, Eq)]
pub struct IntervalAnswer {
    /// 0, or the paper's number.
    pub number: u32,
    /// The place given with the number. Where the call is done, find's is the place asked about, and inverse's the place
    /// that it is reached from.
    pub place: u32,
    /// The interval that has the place.
    pub interval: u32,
}

/// The answer of [`weight`].
///
/// ```
/// let answer = zibewoka::exports::weight(2, &[0, 1], &[1, 0], &[1, 0], &[1, 1], 0);
/// assert_eq!((answer.number, answer.weight), (0, 1));
/// ```
#[repr(C)]
#[derive(Clone, Copy, Debug, PartialEq, Eq)]
pub struct WeightAnswer {
    /// 0, or the paper's number.
    pub number: u32,
    /// The place given with the number; 0 where the call is done.
    pub place: u32,
    /// How many starts lie under the interval's image.
    pub weight: u32,
}

/// The answer of [`starts_under`].
///
/// ```
/// let answer = zibewoka::exports::starts_under(2, &[0, 1], &[1, 0], &[1, 0], &[1, 1], 0);
/// assert_eq!((answer.number, answer.first, answer.count), (0, 1, 1));
/// ```
#[repr(C)]
#[derive(Clone, Copy, Debug, PartialEq, Eq)]
pub struct UnderAnswer {
    /// 0, or the paper's number.
    pub number: u32,
    /// The place given with the number; 0 where the call is done.
    pub place: u32,
    /// The index, in the table of starts, of the first start under the interval's image; where there is none it may be the
    /// table's end.
    pub first: u32,
    /// How many starts lie under the image: they stand together.
    pub count: u32,
}

/// The answer of [`move_once`].
///
/// ```
/// let answer = zibewoka::exports::move_once(2, &[0, 1], &[1, 0], &[1, 0], &[1, 1], 0, 0);
/// assert_eq!((answer.number, answer.place, answer.interval), (0, 1, 1));
/// ```
#[repr(C)]
#[derive(Clone, Copy, Debug, PartialEq, Eq)]
pub struct MoveAnswer {
    /// 0, or the paper's number.
    pub number: u32,
    /// The place reached, or the place given with the number.
    pub place: u32,
    /// The interval that has it.
    pub interval: u32,
    /// How far the place lies from the interval's start.
    pub distance: u32,
    /// How many starts the walk read: those that it compared with the place reached.
    pub count: u32,
}

/// The answer of [`moves`].
///
/// ```
/// let answer = zibewoka::exports::moves(2, &[0, 1], &[1, 0], &[1, 0], &[1, 1], 0, 0, 1_000_000);
/// assert_eq!((answer.number, answer.place, answer.interval), (0, 0, 0));
/// ```
#[repr(C)]
#[derive(Clone, Copy, Debug, PartialEq, Eq)]
pub struct MovesAnswer {
    /// 0, or the paper's number.
    pub number: u32,
    /// The place reached, or the place given with the number.
    pub place: u32,
    /// The interval that has it.
    pub interval: u32,
    /// How far the place lies from the interval's start.
    pub distance: u32,
    /// How many starts all moves together read.
    pub count: u64,
}

/// A bookmark: a walk that its owner keeps.
///
/// A fresh one has a place, the interval that has it, and 0 in both counters. A move writes the distance and never reads it, so
/// that a fresh one may have any number there.
///
/// ```
/// use zibewoka::{Bookmark, RunList};
///
/// let table = RunList::new(16, vec![0, 2, 4, 6, 8], vec![14, 12, 10, 8, 0])?.balance(2)?;
/// let mut bookmark = Bookmark::new(table.find(11)?);
/// let step = bookmark.advance(&table)?;
/// assert_eq!((step.place, bookmark.place, bookmark.moves, bookmark.count), (3, 3, 1, 2));
/// # Ok::<(), zibewoka::Refusal>(())
/// ```
#[repr(C)]
#[derive(Clone, Copy, Debug, Default, PartialEq, Eq, Hash)]
pub struct Bookmark {
    /// Where it stands.
    pub place: u32,
    /// The interval that has the place.
    pub interval: u32,
    /// How far the place lies from the interval's start, once a move has been made.
    pub distance: u32,
    /// How many moves it has made.
    pub moves: u32,
    /// How many starts all of them together read.
    pub count: u64,
}

/// The answer of [`advance`].
///
/// ```
/// let mut bookmark = zibewoka::Bookmark { place: 0, interval: 0, ..Default::default() };
/// let answer = zibewoka::exports::advance(2, &[0, 1], &[1, 0], &[1, 0], &[1, 1], &mut bookmark);
/// assert_eq!((answer.number, bookmark.place, bookmark.moves), (0, 1, 1));
/// ```
#[repr(C)]
#[derive(Clone, Copy, Debug, PartialEq, Eq)]
pub struct AdvanceAnswer {
    /// 0, or the paper's number.
    pub number: u32,
    /// The place given with the number; 0 where the call is done.
    pub place: u32,
    /// How many starts this move read.
    pub count: u64,
}

/// A question, the record of [`questions`]: the place asked about, and what the call fills in.
///
/// ```
/// use zibewoka::{Question, RunList};
///
/// let table = RunList::new(16, vec![0, 2, 4, 6, 8], vec![14, 12, 10, 8, 0])?.balance(2)?;
/// let mut asked = [Question::new(11)];
/// table.questions(&mut asked)?;
/// assert_eq!((asked[0].interval, asked[0].to_place), (4, 3));
/// # Ok::<(), zibewoka::Refusal>(())
/// ```
#[repr(C)]
#[derive(Clone, Copy, Debug, Default, PartialEq, Eq, Hash)]
pub struct Question {
    /// The place asked about: it stays.
    pub place: u32,
    /// The interval that has it.
    pub interval: u32,
    /// The place that a move from there reaches.
    pub to_place: u32,
    /// The interval that has that one.
    pub to_interval: u32,
    /// How many starts the move's walk read.
    pub count: u32,
    /// How far the place reached lies from the start of the interval reached.
    pub distance: u32,
}

/// The answer of [`questions`].
///
/// ```
/// let mut asked = [zibewoka::Question::new(1)];
/// let answer = zibewoka::exports::questions(2, &[0, 1], &[1, 0], &[1, 0], &[1, 1], &mut asked);
/// assert_eq!((answer.number, answer.count, asked[0].to_place), (0, 1, 0));
/// ```
#[repr(C)]
#[derive(Clone, Copy, Debug, PartialEq, Eq)]
pub struct QuestionsAnswer {
    /// 0, or the paper's number.
    pub number: u32,
    /// How many starts were passed in finding all intervals.
    pub count: u32,
    /// The place given with the number, of 64 bits since it may be a record's index; 0 where the call is done.
    pub place: u64,
}

/// The answer of [`check_file`].
///
/// ```
/// let answer = zibewoka::exports::check_file(&[]);
/// assert_eq!((answer.number, answer.place), (15, 0));
/// ```
#[repr(C)]
#[derive(Clone, Copy, Debug, PartialEq, Eq)]
pub struct FileAnswer {
    /// 0, or the paper's number.
    pub number: u32,
    /// The place given with the number; 0 where the call is done.
    pub place: u32,
    /// The length that the file's header says.
    pub n: u32,
    /// How many runs its list has.
    pub k: u32,
    /// Its degree.
    pub d: u32,
}

// A slice crosses as pointer and length.
type Ptr = *const u32;
type MutPtr = *mut u32;

// SAFETY: each declaration has the parameters of the export of this name, in its order, and each struct the fields of the export's
// own `#[repr(C)]` struct (crates/export_*/src/lib.rt). No compiler sees both sides: the tests compare every field of every answer.
#[rustfmt::skip]
unsafe extern "C" {
    fn zibewoka_check(n: u32, starts: Ptr, k: usize, images: Ptr, ki: usize) -> ListAnswer;
    fn zibewoka_balance(
        n: u32, starts: Ptr, k: usize, images: Ptr, ki: usize, d: u32,
        to_starts: MutPtr, ls: usize, to_images: MutPtr, li: usize, to_holders: MutPtr, lh: usize,
        to_lengths: MutPtr, ll: usize, working: MutPtr, lw: usize,
    ) -> BalanceAnswer;
    fn zibewoka_forecast(
        n: u32, starts: Ptr, k: usize, images: Ptr, ki: usize, d: u32, working: MutPtr, lw: usize,
    ) -> ForecastAnswer;
    fn zibewoka_least_degree(
        n: u32, starts: Ptr, k: usize, images: Ptr, ki: usize, entries: u32, working: MutPtr, lw: usize,
    ) -> DegreeAnswer;
    fn zibewoka_inverse_list(
        n: u32, starts: Ptr, k: usize, images: Ptr, ki: usize, to_starts: MutPtr, ls: usize, to_images: MutPtr, li: usize,
    ) -> ListAnswer;
    fn zibewoka_next_list(
        n: u32, starts: Ptr, k: usize, images: Ptr, ki: usize, to_starts: MutPtr, ls: usize, to_images: MutPtr, li: usize,
    ) -> RunsAnswer;
    fn zibewoka_fold(
        n: u32, starts: Ptr, k: usize, images: Ptr, ki: usize, to_starts: MutPtr, ls: usize, to_images: MutPtr, li: usize,
    ) -> RunsAnswer;
    fn zibewoka_find(
        n: u32, starts: Ptr, k: usize, images: Ptr, ki: usize, holders: Ptr, kh: usize, lengths: Ptr, kl: usize,
        place: u32,
    ) -> IntervalAnswer;
    fn zibewoka_move(
        n: u32, starts: Ptr, k: usize, images: Ptr, ki: usize, holders: Ptr, kh: usize, lengths: Ptr, kl: usize,
        interval: u32, place: u32,
    ) -> MoveAnswer;
    fn zibewoka_moves(
        n: u32, starts: Ptr, k: usize, images: Ptr, ki: usize, holders: Ptr, kh: usize, lengths: Ptr, kl: usize,
        interval: u32, place: u32, m: u32,
    ) -> MovesAnswer;
    fn zibewoka_inverse(
        n: u32, starts: Ptr, k: usize, images: Ptr, ki: usize, holders: Ptr, kh: usize, lengths: Ptr, kl: usize,
        place: u32,
    ) -> IntervalAnswer;
    fn zibewoka_weight(
        n: u32, starts: Ptr, k: usize, images: Ptr, ki: usize, holders: Ptr, kh: usize, lengths: Ptr, kl: usize,
        interval: u32,
    ) -> WeightAnswer;
    fn zibewoka_starts_under(
        n: u32, starts: Ptr, k: usize, images: Ptr, ki: usize, holders: Ptr, kh: usize, lengths: Ptr, kl: usize,
        interval: u32,
    ) -> UnderAnswer;
    fn zibewoka_advance(
        n: u32, starts: Ptr, k: usize, images: Ptr, ki: usize, holders: Ptr, kh: usize, lengths: Ptr, kl: usize,
        bookmark: *mut Bookmark,
    ) -> AdvanceAnswer;
    fn zibewoka_questions(
        n: u32, starts: Ptr, k: usize, images: Ptr, ki: usize, holders: Ptr, kh: usize, lengths: Ptr, kl: usize,
        questions: *mut Question, lq: usize,
    ) -> QuestionsAnswer;
    fn zibewoka_check_file(file: *const u8, bytes: usize) -> FileAnswer;
    fn zibewoka_list_file(file: *const u8, bytes: usize, text: *mut u8, room: usize) -> usize;
}

// Each function from here on, and the safe one over it, is inlined into the host's own crate: a call of an export is then
// one call, whose answer need not pass through memory.

// Calls an export: n if it takes one, slices that are read, values or a bookmark, and slices that are lent.
macro_rules! call {
    ($export:ident, $($n:ident,)? [$($read:ident),+], [$($value:ident),*], [$($lent:ident),*]) => {
        // SAFETY: each pointer and length is that of a Rust slice, which lives for the call and which no other `&mut` shares; it is
        // not null where the slice is empty. So is the pointer to a bookmark, a `&mut` of its own. The functions are proved to keep
        // within them, whatever numbers they hold.
        unsafe {
            $export($($n,)? $($read.as_ptr(), $read.len(),)+ $($value,)* $($lent.as_mut_ptr(), $lent.len(),)*)
        }
    };
}

/// `zibewoka_check`: [`zibewoka::check`](crate::check) with its answer as it crosses the boundary.
#[inline]
pub fn check(n: u32, starts: &[u32], images: &[u32]) -> ListAnswer {
    call!(zibewoka_check, n, [starts, images], [], [])
}

/// `zibewoka_balance`: [`zibewoka::balance`](crate::balance) with its answer as it crosses the boundary.
#[allow(clippy::too_many_arguments)] // the export's own
#[inline]
pub fn balance(
    n: u32,
    starts: &[u32],
    images: &[u32],
    d: u32,
    to_starts: &mut [u32],
    to_images: &mut [u32],
    to_holders: &mut [u32],
    to_lengths: &mut [u32],
    working: &mut [u32],
) -> BalanceAnswer {
    call!(zibewoka_balance, n, [starts, images], [d], [to_starts, to_images, to_holders, to_lengths, working])
}

/// `zibewoka_forecast`: [`zibewoka::forecast`](crate::forecast) with its answer as it crosses the boundary.
#[inline]
pub fn forecast(n: u32, starts: &[u32], images: &[u32], d: u32, working: &mut [u32]) -> ForecastAnswer {
    call!(zibewoka_forecast, n, [starts, images], [d], [working])
}

/// `zibewoka_least_degree`: [`zibewoka::least_degree`](crate::least_degree) with its answer as it crosses the boundary.
#[inline]
pub fn least_degree(n: u32, starts: &[u32], images: &[u32], entries: u32, working: &mut [u32]) -> DegreeAnswer {
    call!(zibewoka_least_degree, n, [starts, images], [entries], [working])
}

/// `zibewoka_inverse_list`: [`zibewoka::inverse_list`](crate::inverse_list) with its answer as it crosses the boundary.
#[inline]
pub fn inverse_list(
    n: u32,
    starts: &[u32],
    images: &[u32],
    to_starts: &mut [u32],
    to_images: &mut [u32],
) -> ListAnswer {
    call!(zibewoka_inverse_list, n, [starts, images], [], [to_starts, to_images])
}

/// `zibewoka_next_list`: [`zibewoka::next_list`](crate::next_list) with its answer as it crosses the boundary.
#[inline]
pub fn next_list(n: u32, starts: &[u32], images: &[u32], to_starts: &mut [u32], to_images: &mut [u32]) -> RunsAnswer {
    call!(zibewoka_next_list, n, [starts, images], [], [to_starts, to_images])
}

/// `zibewoka_fold`: [`zibewoka::fold`](crate::fold) with its answer as it crosses the boundary.
#[inline]
pub fn fold(n: u32, starts: &[u32], images: &[u32], to_starts: &mut [u32], to_images: &mut [u32]) -> RunsAnswer {
    call!(zibewoka_fold, n, [starts, images], [], [to_starts, to_images])
}

/// `zibewoka_find`: [`zibewoka::find`](crate::find) with its answer as it crosses the boundary.
#[inline]
pub fn find(n: u32, starts: &[u32], images: &[u32], holders: &[u32], lengths: &[u32], place: u32) -> IntervalAnswer {
    call!(zibewoka_find, n, [starts, images, holders, lengths], [place], [])
}

/// `zibewoka_move`: [`zibewoka::move_once`](crate::move_once) with its answer as it crosses the boundary.
#[inline]
pub fn move_once(
    n: u32,
    starts: &[u32],
    images: &[u32],
    holders: &[u32],
    lengths: &[u32],
    interval: u32,
    place: u32,
) -> MoveAnswer {
    call!(zibewoka_move, n, [starts, images, holders, lengths], [interval, place], [])
}

/// `zibewoka_moves`: [`zibewoka::moves`](crate::moves) with its answer as it crosses the boundary.
#[allow(clippy::too_many_arguments)] // the export's own
#[inline]
pub fn moves(
    n: u32,
    starts: &[u32],
    images: &[u32],
    holders: &[u32],
    lengths: &[u32],
    interval: u32,
    place: u32,
    m: u32,
) -> MovesAnswer {
    call!(zibewoka_moves, n, [starts, images, holders, lengths], [interval, place, m], [])
}

/// `zibewoka_inverse`: [`zibewoka::inverse`](crate::inverse) with its answer as it crosses the boundary.
#[inline]
pub fn inverse(n: u32, starts: &[u32], images: &[u32], holders: &[u32], lengths: &[u32], place: u32) -> IntervalAnswer {
    call!(zibewoka_inverse, n, [starts, images, holders, lengths], [place], [])
}

/// `zibewoka_weight`: [`zibewoka::weight`](crate::weight) with its answer as it crosses the boundary.
#[inline]
pub fn weight(n: u32, starts: &[u32], images: &[u32], holders: &[u32], lengths: &[u32], interval: u32) -> WeightAnswer {
    call!(zibewoka_weight, n, [starts, images, holders, lengths], [interval], [])
}

/// `zibewoka_starts_under`: [`zibewoka::starts_under`](crate::starts_under) with its answer as it crosses the boundary.
#[inline]
pub fn starts_under(
    n: u32,
    starts: &[u32],
    images: &[u32],
    holders: &[u32],
    lengths: &[u32],
    interval: u32,
) -> UnderAnswer {
    call!(zibewoka_starts_under, n, [starts, images, holders, lengths], [interval], [])
}

/// The part of the starts that [`starts_under`] answers by an index and a count; or the answer, where it is a refusal.
#[inline]
pub(crate) fn part_under<'a>(
    n: u32,
    starts: &'a [u32],
    images: &[u32],
    holders: &[u32],
    lengths: &[u32],
    interval: u32,
) -> Result<&'a [u32], UnderAnswer> {
    let answer = starts_under(n, starts, images, holders, lengths, interval);
    if answer.number != 0 {
        return Err(answer);
    }
    let first = answer.first as usize;
    // SAFETY: the starts that are told lie within the table, whatever it holds, as is proved (`under-within`).
    Ok(unsafe { starts.get_unchecked(first..first + answer.count as usize) })
}

/// `zibewoka_advance`: [`Bookmark::advance`] with its answer as it crosses the boundary. A refusal leaves the bookmark as it was.
#[inline]
pub fn advance(
    n: u32,
    starts: &[u32],
    images: &[u32],
    holders: &[u32],
    lengths: &[u32],
    bookmark: &mut Bookmark,
) -> AdvanceAnswer {
    call!(zibewoka_advance, n, [starts, images, holders, lengths], [bookmark], [])
}

/// `zibewoka_questions`: [`zibewoka::questions`](crate::questions) with its answer as it crosses the boundary.
#[inline]
pub fn questions(
    n: u32,
    starts: &[u32],
    images: &[u32],
    holders: &[u32],
    lengths: &[u32],
    questions: &mut [Question],
) -> QuestionsAnswer {
    call!(zibewoka_questions, n, [starts, images, holders, lengths], [], [questions])
}

/// `zibewoka_check_file`: [`zibewoka::check_file`](crate::check_file) with its answer as it crosses the boundary.
#[inline]
pub fn check_file(file: &[u8]) -> FileAnswer {
    call!(zibewoka_check_file, [file], [], [])
}

/// `zibewoka_list_file`. Answers how many bytes the listing has, which then stands at the text's start; 0, and nothing is
/// written, where the text is too short for it.
#[inline]
pub fn list_file(file: &[u8], text: &mut [u8]) -> usize {
    call!(zibewoka_list_file, [file], [], [text])
}
