//! The exports and the listing program against a second program, made from the papers' text alone.

mod bookmarks;
mod definition;
mod exports;
mod files;
mod folds;
mod forecasts;
mod listing;
mod random;
mod refusals;
mod types;
