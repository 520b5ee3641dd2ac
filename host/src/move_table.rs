//! A move table that owns its columns.

#![forbid(unsafe_code)]

use crate::exports::Question;
use crate::plain::{self, Position, Step};
use crate::refusal::Refusal;
use crate::run_list::RunList;
use std::iter::FusedIterator;

/// A move table: for each interval its start, its image, its holder (the interval that has the image) and its length.
///
/// One that [`balanced`](MoveTable::balanced) makes walks the list's permutation, with at most 2·d starts read in a move at
/// degree d, and refuses no place below n. Columns from elsewhere are taken as they are; then each call refuses what document
/// 01 refuses. A table is never changed: many threads may walk through one.
///
/// ```
/// use zibewoka::{MoveTable, Question, RunList};
///
/// let list = RunList::new(16, vec![0, 2, 4, 6, 8], vec![14, 12, 10, 8, 0])?;
/// let table = MoveTable::balanced(&list, 2)?;
/// let from = table.find(11)?;
/// assert_eq!(from.interval, 4);
/// let step = table.step(from)?; // place 3 is 1 into interval 1; two starts read
/// assert_eq!((step.place, step.interval, step.distance, step.count), (3, 1, 1, 2));
/// assert_eq!(table.preimage(3)?, from);
/// let places: Result<Vec<u32>, _> = table.walk(from).take(4).map(|step| Ok(step?.place)).collect();
/// assert_eq!(places?, [3, 13, 5, 11]); // round the cycle in four moves
/// assert_eq!(table.steps(from, 1_000_000)?.place, 11);
/// assert_eq!(table.starts_under(4)?, [0, 2]); // interval 4 goes to 0 up to 4
/// let mut class = [3, 11].map(Question::new);
/// table.questions(&mut class)?;
/// assert_eq!((class[1].interval, class[1].to_place), (4, 3));
/// # Ok::<(), zibewoka::Refusal>(())
/// ```
#[derive(Clone, Debug, PartialEq, Eq, Hash)]
pub struct MoveTable {
    n: u32,
    starts: Vec<u32>,
    images: Vec<u32>,
    holders: Vec<u32>,
    lengths: Vec<u32>,
}

impl MoveTable {
    /// The table of a list balanced at a degree from 2 to 64, in as many entries as the forecast says.
    ///
    /// # Errors
    /// Number 7.
    pub fn balanced(list: &RunList, degree: u32) -> Result<MoveTable, Refusal> {
        let (n, from_starts, from_images) = (list.n(), list.starts(), list.images());
        let mut working = list.working();
        let size = plain::forecast(n, from_starts, from_images, degree, &mut working)?.intervals as usize;
        let [mut starts, mut images, mut holders, mut lengths] = [(); 4].map(|()| vec![0; size]);
        let lent = (&mut starts, &mut images, &mut holders, &mut lengths);
        plain::balance(n, from_starts, from_images, degree, lent.0, lent.1, lent.2, lent.3, &mut working)?;
        Ok(MoveTable { n, starts, images, holders, lengths })
    }

    /// A table of any columns, which nothing is asked of here.
    pub fn from_columns(n: u32, starts: Vec<u32>, images: Vec<u32>, holders: Vec<u32>, lengths: Vec<u32>) -> MoveTable {
        MoveTable { n, starts, images, holders, lengths }
    }

    /// The columns: starts, images, holders, lengths.
    pub fn columns(&self) -> [&[u32]; 4] {
        [&self.starts, &self.images, &self.holders, &self.lengths]
    }

    /// The same, handed over.
    pub fn into_columns(self) -> [Vec<u32>; 4] {
        [self.starts, self.images, self.holders, self.lengths]
    }

    /// How many places there are.
    pub fn n(&self) -> u32 {
        self.n
    }

    /// How many intervals there are, by the starts.
    pub fn intervals(&self) -> usize {
        self.starts.len()
    }

    /// Where each interval starts.
    pub fn starts(&self) -> &[u32] {
        &self.starts
    }

    /// Where each interval's first place goes.
    pub fn images(&self) -> &[u32] {
        &self.images
    }

    /// Which interval has each image.
    pub fn holders(&self) -> &[u32] {
        &self.holders
    }

    /// How many places each interval has.
    pub fn lengths(&self) -> &[u32] {
        &self.lengths
    }

    /// The interval that has a place. It tests the lengths of all intervals, so that its time grows with them.
    ///
    /// # Errors
    /// Number 9; then 12, with the lowest interval whose length is wrong; then 11.
    #[inline]
    pub fn find(&self, place: u32) -> Result<Position, Refusal> {
        let interval = plain::find(self.n, &self.starts, &self.images, &self.holders, &self.lengths, place)?;
        Ok(Position { place, interval })
    }

    /// One move.
    ///
    /// # Errors
    /// Numbers 9 and 10; then 12 where the interval's length is wrong; then 11; then 12 where it can't be left.
    #[inline]
    pub fn step(&self, from: impl Into<Position>) -> Result<Step, Refusal> {
        let Position { place, interval } = from.into();
        plain::move_once(self.n, &self.starts, &self.images, &self.holders, &self.lengths, interval, place)
    }

    /// `m` moves in one call, with the sum of their counts; none are a step of count 0 to where it stands.
    ///
    /// # Errors
    /// Numbers 9 and 10; then 12 where the interval's length is wrong; then 11; then 12 at each move, and then there is no part
    /// result.
    #[inline]
    pub fn steps(&self, from: impl Into<Position>, m: u32) -> Result<Step, Refusal> {
        let Position { place, interval } = from.into();
        plain::moves(self.n, &self.starts, &self.images, &self.holders, &self.lengths, interval, place, m)
    }

    /// The moves from a place on, one after the other: a walk has no end, but for a refusal, which is its last item.
    #[inline]
    pub fn walk(&self, from: impl Into<Position>) -> Walk<'_> {
        Walk { table: self, at: Some(from.into()) }
    }

    /// The place that a place is reached from. It tests the lengths of all intervals, so that its time grows with them.
    ///
    /// # Errors
    /// Number 9; then 12, with the lowest interval whose length is wrong; then 11; then 14.
    #[inline]
    pub fn preimage(&self, place: u32) -> Result<Position, Refusal> {
        plain::inverse(self.n, &self.starts, &self.images, &self.holders, &self.lengths, place)
    }

    /// How many starts lie under an interval's image.
    ///
    /// # Errors
    /// Numbers 9, 10 and 12.
    #[inline]
    pub fn weight(&self, interval: u32) -> Result<u32, Refusal> {
        plain::weight(self.n, &self.starts, &self.images, &self.holders, &self.lengths, interval)
    }

    /// The starts under an interval's image, as the part of [`starts`](MoveTable::starts) that they are.
    ///
    /// # Errors
    /// Numbers 9, 10 and 12.
    #[inline]
    pub fn starts_under(&self, interval: u32) -> Result<&[u32], Refusal> {
        plain::starts_under(self.n, &self.starts, &self.images, &self.holders, &self.lengths, interval)
    }

    /// Answers questions that stand in rising order of place; the answer is how many starts were passed in finding all.
    ///
    /// # Errors
    /// Number 9; then 12, with the lowest interval whose length is wrong; then 16, with the question's index; then 11; then 12:
    /// each of these three of the lowest question that it applies to. All records stay as they were.
    #[inline]
    pub fn questions(&self, questions: &mut [Question]) -> Result<u32, Refusal> {
        plain::questions(self.n, &self.starts, &self.images, &self.holders, &self.lengths, questions)
    }
}

/// The moves from a place on: what [`MoveTable::walk`] gives.
///
/// ```
/// let list = zibewoka::RunList::new(3, vec![0, 2], vec![1, 0])?;
/// let table = list.balance(2)?;
/// let mut read = 0;
/// for step in table.walk(table.find(0)?).take(3) {
///     read += step?.count;
/// }
/// assert_eq!(read, table.steps(table.find(0)?, 3)?.count);
/// # Ok::<(), zibewoka::Refusal>(())
/// ```
#[derive(Clone, Debug)]
pub struct Walk<'a> {
    table: &'a MoveTable,
    at: Option<Position>,
}

impl Iterator for Walk<'_> {
    type Item = Result<Step, Refusal>;

    #[inline]
    fn next(&mut self) -> Option<Self::Item> {
        let step = self.table.step(self.at?);
        self.at = step.ok().map(Position::from);
        Some(step)
    }
}

impl FusedIterator for Walk<'_> {}
