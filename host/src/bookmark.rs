//! A walk that its owner keeps.

#![forbid(unsafe_code)]

use crate::explain::Table;
use crate::exports::{self, AdvanceAnswer, Bookmark};
use crate::move_table::MoveTable;
use crate::plain::{Position, Step};
use crate::refusal::Refusal;

impl Bookmark {
    /// A bookmark that has made no move yet.
    pub fn new(at: impl Into<Position>) -> Bookmark {
        let Position { place, interval } = at.into();
        Bookmark { place, interval, ..Bookmark::default() }
    }

    /// Makes one move: the bookmark stands where it leads then, and has counted it. A refused move leaves the bookmark as it was.
    ///
    /// # Errors
    /// Numbers 9 and 10; then 12 where the interval's length is wrong; then 11; then 12 where it can't be left; then 13.
    #[inline]
    pub fn advance(&mut self, table: &MoveTable) -> Result<Step, Refusal> {
        let [starts, images, holders, lengths] = table.columns();
        let AdvanceAnswer { number, place, count } =
            exports::advance(table.n(), starts, images, holders, lengths, self);
        if number != 0 {
            return Err(refusal(table, self, number, place));
        }
        Ok(Step { place: self.place, interval: self.interval, distance: self.distance, count })
    }
}

#[cold]
fn refusal(table: &MoveTable, bookmark: &Bookmark, number: u32, place: u32) -> Refusal {
    match number {
        13 => Refusal::CounterLimit { moves: bookmark.moves, count: bookmark.count },
        _ => Table { n: table.n(), columns: table.columns() }.refusal(number, place, Some(bookmark.interval)),
    }
}
