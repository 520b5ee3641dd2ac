//! Bookmarks, starts under and files through the types, beside the peer.

use crate::random::{damage_file, Random};
use crate::{cell, library_step, list, outcome, peer, seconds, shuffled, MOVES, ORDERS};
use zibewoka::{Bookmark, Header, MoveTable, Position, RunList};

fn mark(Bookmark { place, interval, distance, moves, count }: Bookmark) -> peer::Mark {
    peer::Mark { place, interval, distance, moves, count }
}

/// The peer's mark goes where the bookmark goes, also from a place that its interval has not, and from full counters.
fn assert_advanced_alike(table: &MoveTable, from: Bookmark) {
    let [s, i, h, l] = table.columns();
    let counters = [(0, 0), (u32::MAX, 0), (0, u64::MAX)];
    let outside = Bookmark { place: table.n(), ..from };
    let filled = counters.map(|(moves, count)| Bookmark { moves, count, ..from });
    for mut bookmark in filled.into_iter().chain([outside]) {
        let mut other = mark(bookmark);
        for _ in 0..100 {
            let step = peer::advance(table.n(), s, i, h, l, &mut other).map(library_step);
            assert_eq!(outcome(bookmark.advance(table)), step);
            assert_eq!(mark(bookmark), other);
        }
    }
}

fn bookmark_seconds(table: &MoveTable, from: Position) -> [f64; 2] {
    let [s, i, h, l] = table.columns();
    let fresh = Bookmark::new(from);
    assert_advanced_alike(table, fresh);
    seconds(
        || {
            let mut bookmark = fresh;
            (0..MOVES).map(|_| bookmark.advance(table).expect("a move").count).sum::<u64>()
        },
        || {
            let mut mark = mark(fresh);
            (0..MOVES).map(|_| peer::advance(table.n(), s, i, h, l, &mut mark).expect("a move").count).sum::<u32>()
        },
    )
}

/// Of all intervals, in orders at random in turn.
fn under_seconds(r: &mut Random, table: &MoveTable) -> [f64; 2] {
    let [s, i, h, l] = table.columns();
    let n = table.n();
    for x in 0..=s.len() as u32 {
        assert_eq!(outcome(table.starts_under(x)), peer::starts_under(n, s, i, h, l, x));
    }
    let orders: Vec<Vec<u32>> = (0..ORDERS).map(|_| shuffled(r, s.len())).collect();
    let mut turns = orders.iter().cycle();
    let mut peer_turns = turns.clone();
    let total = |order: &[u32], under: &dyn Fn(u32) -> usize| order.iter().map(|&x| under(x)).sum::<usize>();
    seconds(
        || total(turns.next().expect("they go round"), &|x| table.starts_under(x).expect("whole").len()),
        || {
            let under = |x| peer::starts_under(n, s, i, h, l, x).expect("whole").len();
            total(peer_turns.next().expect("they go round"), &under)
        },
    )
}

fn file_seconds(r: &mut Random, list: &RunList, d: u32) -> [f64; 2] {
    let file = list.to_file(d).expect("a degree");
    let header = |Header { n, runs, degree }: Header| [n, runs, degree];
    for _ in 0..20 {
        let mut damaged = file.clone();
        damage_file(r, &mut damaged);
        for file in [&file, &damaged] {
            assert_eq!(outcome(zibewoka::check_file(file).map(header)), peer::check_file(file));
        }
    }
    seconds(|| zibewoka::check_file(&file).is_ok(), || peer::check_file(&file).is_ok())
}

/// One line: for each call the library's time and its ratio to the peer's.
pub fn line(r: &mut Random, shape: &str, k: usize, d: u32) -> String {
    let made = list(r, shape, k);
    let list = RunList::new(made.n, made.starts, made.images).expect("a legal list");
    let table = list.balance(d).expect("a degree");
    let size = table.intervals();
    let from = table.find(r.below(u64::from(table.n())) as u32).expect("a place");
    let bookmark = cell(1e9 / f64::from(MOVES), bookmark_seconds(&table, from));
    let under = cell(1e9 / size as f64, under_seconds(r, &table));
    let file = cell(1e6, file_seconds(r, &list, d));
    format!("| {shape} | {k} | {d} | {size} | {bookmark} | {under} | {file} |")
}
