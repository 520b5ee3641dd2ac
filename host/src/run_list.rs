//! A legal run list.

#![forbid(unsafe_code)]

use crate::explain::words;
use crate::limits::{DEGREES, MAX_SUCCESSOR_PLACES};
use crate::move_table::MoveTable;
use crate::plain::{self, Forecast, LeastDegree};
use crate::refusal::Refusal;
use std::borrow::Cow;

/// A legal run list, owned or borrowed: a permutation of the places below n as stretches that move together, a disjoint
/// interval sequence of at most 16,384 runs.
///
/// Run i sends the places from `starts()[i]` up to the next start (or n) to as many places from `images()[i]` on. One is made by the
/// check, or of another by what the library is proved to make of it ([`inverse`](RunList::inverse), [`folded`](RunList::folded),
/// [`successor`](RunList::successor)), so that each one is legal.
///
/// ```
/// use zibewoka::RunList;
///
/// let list = RunList::new(16, vec![0, 2, 4, 6, 8], vec![14, 12, 10, 8, 0])?; // owns its columns
/// let table = list.balance(2)?;
/// assert_eq!((list.runs(), table.intervals()), (5, 6));
///
/// let (starts, images) = ([0, 1], [1, 0]);
/// let borrowed = RunList::new(2, &starts[..], &images[..])?; // looks at columns that stay where they are
/// assert_eq!(borrowed.inverse().images(), [1, 0]);
///
/// let refusal = RunList::new(16, vec![0, 2], vec![8, 3]).unwrap_err();
/// assert_eq!(refusal.to_string(), "run 1 goes to the places 3 to 16, and n is 16");
/// # Ok::<(), zibewoka::Refusal>(())
/// ```
#[derive(Clone, Debug, PartialEq, Eq, Hash)]
pub struct RunList<'a> {
    n: u32,
    starts: Cow<'a, [u32]>,
    images: Cow<'a, [u32]>,
}

impl<'a> RunList<'a> {
    /// Checks a list, and keeps it: vectors are taken, slices are borrowed.
    ///
    /// # Errors
    /// Numbers 1 to 6, in this order.
    pub fn new(n: u32, starts: impl Into<Cow<'a, [u32]>>, images: impl Into<Cow<'a, [u32]>>) -> Result<Self, Refusal> {
        let (starts, images) = (starts.into(), images.into());
        plain::check(n, &starts, &images)?;
        Ok(RunList { n, starts, images })
    }

    /// The list that owns its columns.
    pub fn into_owned(self) -> RunList<'static> {
        RunList { n: self.n, starts: self.starts.into_owned().into(), images: self.images.into_owned().into() }
    }

    /// How many places the list has.
    pub fn n(&self) -> u32 {
        self.n
    }

    /// How many runs the list has.
    pub fn runs(&self) -> usize {
        self.starts.len()
    }

    /// Where each run starts, in rising order from 0.
    pub fn starts(&self) -> &[u32] {
        &self.starts
    }

    /// Where each run's first place goes.
    pub fn images(&self) -> &[u32] {
        &self.images
    }

    /// How large the list becomes when it is balanced at a degree from 2 to 64.
    ///
    /// # Errors
    /// Number 7.
    pub fn forecast(&self, degree: u32) -> Result<Forecast, Refusal> {
        plain::forecast(self.n, &self.starts, &self.images, degree, &mut self.working())
    }

    /// The least degree from 2 to 64 at which the balanced list has at most so many intervals, and how many it has there.
    ///
    /// # Errors
    /// Number 19.
    pub fn least_degree(&self, entries: u32) -> Result<LeastDegree, Refusal> {
        plain::least_degree(self.n, &self.starts, &self.images, entries, &mut self.working())
    }

    /// The move table of the list balanced at a degree from 2 to 64: no move through it reads more than 2·degree starts.
    ///
    /// # Errors
    /// Number 7.
    pub fn balance(&self, degree: u32) -> Result<MoveTable, Refusal> {
        MoveTable::balanced(self, degree)
    }

    /// The list of the inverse permutation.
    pub fn inverse(&self) -> RunList<'static> {
        let [mut starts, mut images] = [(); 2].map(|()| vec![0; self.runs()]);
        // Of a legal list with room for k runs it is always done.
        let done = plain::inverse_list(self.n, &self.starts, &self.images, &mut starts, &mut images);
        debug_assert_eq!(done, Ok(()));
        RunList { n: self.n, starts: starts.into(), images: images.into() }
    }

    /// The list of the same permutation that has the fewest runs: neighbours whose images follow on become one run. If it has r runs,
    /// its balanced list at a degree d has at most ⌊d·r / (d − 1)⌋ intervals, however many runs this list has.
    ///
    /// ```
    /// use zibewoka::RunList;
    ///
    /// let cut = RunList::new(16, vec![0, 2, 4, 6, 8, 12], vec![14, 12, 10, 8, 0, 4])?;
    /// let list = RunList::new(16, vec![0, 2, 4, 6, 8], vec![14, 12, 10, 8, 0])?;
    /// assert_eq!(cut.folded(), list);
    /// assert!(cut.same_permutation(&list) && cut != list);
    /// # Ok::<(), zibewoka::Refusal>(())
    /// ```
    pub fn folded(&self) -> RunList<'static> {
        let [mut starts, mut images] = [(); 2].map(|()| vec![0; self.runs()]);
        let done = plain::fold(self.n, &self.starts, &self.images, &mut starts, &mut images);
        // Of a legal list with room for k runs it is always done.
        debug_assert!(done.is_ok());
        let runs = done.unwrap_or_default() as usize;
        starts.truncate(runs);
        images.truncate(runs);
        RunList { n: self.n, starts: starts.into(), images: images.into() }
    }

    /// Whether two lists have one permutation: they have as many places, and their folds are equal. Both lists are folded for it.
    pub fn same_permutation(&self, other: &RunList) -> bool {
        self.n == other.n && self.folded() == other.folded()
    }

    /// The list after this one, of the permutations of n places, 1 to 7, in lexicographic order, each in fewest runs.
    ///
    /// # Errors
    /// Numbers 17 and 18.
    pub fn successor(&self) -> Result<RunList<'static>, Refusal> {
        let [mut starts, mut images] = [[0; MAX_SUCCESSOR_PLACES]; 2];
        let runs = plain::next_list(self.n, &self.starts, &self.images, &mut starts, &mut images)? as usize;
        Ok(RunList { n: self.n, starts: starts[..runs].to_vec().into(), images: images[..runs].to_vec().into() })
    }

    /// The list in the bytes of a file, and the degree that the file asks for.
    ///
    /// A file is a row of words of 32 bits, least byte first: n, k, the degree, 20 and 20 + 4·k, which are the bytes where starts
    /// and images stand; then the k starts, then the k images, and nothing more.
    ///
    /// # Errors
    /// Numbers 15 (fewer than 20 bytes), 1, 2, 15 (its layout), 3, 4, 5, 6, 7.
    pub fn from_file(file: &[u8]) -> Result<(RunList<'static>, u32), Refusal> {
        let header = plain::check_file(file)?;
        let k = header.runs as usize;
        let mut starts: Vec<u32> = words(file).skip(5).collect();
        let images = starts.split_off(k);
        Ok((RunList { n: header.n, starts: starts.into(), images: images.into() }, header.degree))
    }

    /// The file of the list and a degree from 2 to 64, as [`from_file`](RunList::from_file) reads it.
    ///
    /// # Errors
    /// Number 7.
    pub fn to_file(&self, degree: u32) -> Result<Vec<u8>, Refusal> {
        if !DEGREES.contains(&degree) {
            return Err(Refusal::Degree { degree });
        }
        let k = self.runs() as u32;
        let header = [self.n, k, degree, 20, 20 + 4 * k];
        let words = header.iter().chain(&*self.starts).chain(&*self.images);
        Ok(words.flat_map(|word| word.to_le_bytes()).collect())
    }

    /// A working table for any degree: B is greatest at degree 2, where it is 2·k.
    pub(crate) fn working(&self) -> Vec<u32> {
        vec![0; 2 * self.runs()]
    }
}
