//! The limits of the library, as its sources have them.

#![forbid(unsafe_code)]

use std::ops::RangeInclusive;

/// The most runs that a list has.
pub const MAX_RUNS: usize = 16_384;

/// The most intervals that a table has.
pub const MAX_INTERVALS: usize = 32_768;

/// The degrees that a list can be balanced at.
pub const DEGREES: RangeInclusive<u32> = 2..=64;

/// The most places of a list whose [`successor`](crate::RunList::successor) can be asked for.
pub const MAX_SUCCESSOR_PLACES: usize = 7;

/// The most bytes that a listing has.
pub const MAX_LISTING: usize = 137_260;
