//! Run lists, balanced move tables and the walks through them: a safe crate over the proved library.
//!
//! A [`RunList`] is a permutation as stretches of places that move together, made by a check. A [`MoveTable`] is what a balanced
//! list is walked by: [`find`](MoveTable::find) a place, [`step`](MoveTable::step) from it, [`walk`](MoveTable::walk) on, ask
//! many [`questions`](MoveTable::questions) in one call. A [`Bookmark`] is a walk that its owner keeps. [`RunList::from_file`]
//! and [`RunList::to_file`] are the collection's files, and [`listing`] is what the examiners read of one.
//!
//! ```
//! use zibewoka::{Bookmark, RunList};
//!
//! let list = RunList::new(16, vec![0, 2, 4, 6, 8], vec![14, 12, 10, 8, 0])?;
//! let table = list.balance(2)?;
//! let mut bookmark = Bookmark::new(table.find(11)?);
//! for _ in 0..3 {
//!     bookmark.advance(&table)?;
//! }
//! assert_eq!((bookmark.place, bookmark.moves), (5, 3));
//! # Ok::<(), zibewoka::Refusal>(())
//! ```
//!
//! The functions of this page take numbers and slices, and allocate nothing but [`listing`]'s text and what the refusal of a file is
//! explained by: they are the calls of document 01, the scope that the library is proved against. [`exports`] has the same calls
//! with the answers as they cross the boundary.
//!
//! Every call takes any numbers: where it cannot answer, it says why by a [`Refusal`] and has changed nothing that was lent, but
//! for two refusals that leave the first entries of the working table 0, as a call that is done does: that no degree is enough
//! (19), and that a table is too short for the balanced list (8 with K). No call panics.
//!
//! # Stack and time
//!
//! The library has no heap: a call on a list keeps its tables on the stack of the thread that calls it, and a thread with 128 KiB
//! is too small for some of them, whatever list is handed in. A stack that is too small ends the process, at once and safely, but
//! it can't be caught: give a thread enough by `std::thread::Builder::stack_size`. Walks fit anywhere. The times are of lists like
//! those of `make bench` on the machine of the tables in docs/SPEED.md, with an older kit, and of n they depend little.
//!
//! | calls | stack, at most | time |
//! |---|---|---|
//! | [`RunList::from_file`], [`check_file`] | 264 KiB | that of a check, and some ns a run for reading |
//! | [`listing`], [`list_file`] | 200 KiB | that of balancing, and some 100 ns an interval for its line |
//! | [`RunList::new`], [`inverse`](RunList::inverse), [`folded`](RunList::folded), [`same_permutation`](RunList::same_permutation), [`successor`](RunList::successor); [`check`], [`inverse_list`], [`fold`], [`next_list`] | 180 KiB | it grows with the runs, about 3 to 12 ns each; it sorts by digits, and in one pass where the images rise or fall; `same_permutation` folds both lists |
//! | [`RunList::forecast`], [`least_degree`](RunList::least_degree), [`balance`](RunList::balance), and the same on slices | 180 KiB | it grows with the intervals and a little faster, about 5 to 20 ns each; [`RunList::balance`] makes a forecast first, and takes both |
//! | [`MoveTable::step`], [`Bookmark::advance`], [`weight`](MoveTable::weight), [`starts_under`](MoveTable::starts_under) | 1 KiB | 5 to 20 ns at any size: at most 2·d starts are read |
//! | [`MoveTable::steps`], [`walk`](MoveTable::walk) | 1 KiB | 2 to 14 ns a move, and 5 to 17 |
//! | [`MoveTable::find`], [`preimage`](MoveTable::preimage) | 1 KiB | they look at all intervals, at about 0.2 ns each, preimage up to 0.9 |
//! | [`MoveTable::questions`] | 1 KiB | one look at all intervals for all questions, and 7 to 17 ns a question |

#![deny(unsafe_code)] // and each module but `exports` forbids it

mod bookmark;
mod explain;
#[allow(unsafe_code)]
pub mod exports;
mod limits;
mod move_table;
mod plain;
mod refusal;
mod run_list;

pub use exports::{Bookmark, Question};
pub use limits::{DEGREES, MAX_INTERVALS, MAX_LISTING, MAX_RUNS, MAX_SUCCESSOR_PLACES};
pub use move_table::{MoveTable, Walk};
pub use plain::{
    balance, check, check_file, find, fold, forecast, inverse, inverse_list, least_degree, list_file, listing,
    move_once, moves, next_list, questions, starts_under, weight, Forecast, Header, LeastDegree, Position, Step,
};
pub use refusal::{Flaw, LentTable, Outside, Refusal};
pub use run_list::RunList;

// The README's example is compiled and run as a test.
#[cfg(doctest)]
#[doc = include_str!("../../README.md")]
struct Readme;
