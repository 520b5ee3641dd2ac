//! Bookmarks moved through sound, damaged and senseless tables: each answer whole, and all fields of the bookmark after it, which is
//! lent to the next call.

use crate::definition::{self as second, Mark, Tables};
use crate::exports::{damage_tables, noted, senseless, somewhere, Numbers, WRONG_LENGTH};
use crate::random::{damaged, legal, Random};
use zibewoka::exports::{self, AdvanceAnswer, Bookmark};

fn bookmark(Mark { place, interval, distance, moves, count }: Mark) -> Bookmark {
    Bookmark { place, interval, distance, moves, count }
}

/// What the bookmarks gave.
#[derive(Default)]
struct Given {
    numbers: Numbers,
    /// How often 13 was given for the moves alone, and for the starts read alone.
    too_many_moves: u32,
    too_many_reads: u32,
}

impl Given {
    /// One move of a bookmark by the export and by the second program; answers whether it was made. A refusal leaves the bookmark.
    fn advance(&mut self, n: u32, t: &Tables, mark: &mut Mark) -> bool {
        let before = *mark;
        let wanted = second::advance(n, t, mark);
        let [starts, images, holders, lengths] = t.columns();
        let mut lent = bookmark(before);
        let answer = exports::advance(n, starts, images, holders, lengths, &mut lent);
        let (number, place) = wanted.err().unwrap_or((0, 0));
        let count = wanted.map_or(0, |reached| reached.count);
        assert_eq!(answer, AdvanceAnswer { number, place, count });
        assert_eq!(lent, bookmark(if number == 0 { *mark } else { before }));
        self.too_many_moves += u32::from(number == 13 && before.count == 0);
        self.too_many_reads += u32::from(number == 13 && before.moves != u32::MAX);
        self.numbers.add(noted(n, t, &wanted));
        number == 0
    }

    /// Some moves of a bookmark from somewhere in the tables or, at times, from nowhere, up to the first that is refused.
    fn walk(&mut self, r: &mut Random, n: u32, t: &Tables) {
        let (mut interval, mut place) = somewhere(r, n, t);
        if r.one_in(10) {
            place = damaged(r, place, n);
        }
        if r.one_in(20) {
            interval = r.word();
        }
        let (moves, count) = counters(r);
        let mut mark = Mark { place, interval, distance: r.word(), moves, count };
        for _ in 0..8 {
            if !self.advance(n, t, &mut mark) {
                break;
            }
        }
    }
}

/// The counters of a bookmark: fresh, near their ends, or any.
fn counters(r: &mut Random) -> (u32, u64) {
    match r.below(4) {
        0 => (0, 0),
        1 => (u32::MAX - r.below(4) as u32, 0),
        2 => (0, u64::MAX - r.below(12)),
        _ => (r.word(), r.number()),
    }
}

#[test]
fn random_bookmarks() {
    let r = &mut Random::new(6);
    let mut given = Given::default();
    for round in 0..40_000 {
        let k = if round % 100 == 0 { r.from(500, 2000) } else { r.from(1, 40) } as usize;
        let list = legal(r, k);
        let (mut n, mut t) = (list.n, second::tables(list.n, &list.starts, &list.images));
        (0..5).for_each(|_| given.walk(r, n, &t));
        damage_tables(r, &mut n, &mut t);
        (0..5).for_each(|_| given.walk(r, n, &t));
        let (n, t) = senseless(r);
        (0..5).for_each(|_| given.walk(r, n, &t));
    }
    let numbers = &given.numbers.0;
    assert!(numbers.keys().eq(&[0, 9, 10, 11, 12, 13, WRONG_LENGTH]), "bookmarks gave {numbers:?}");
    assert!(numbers.values().all(|&times| times >= 2000), "bookmarks gave {numbers:?}");
    assert!(given.too_many_moves >= 1000 && given.too_many_reads >= 1000, "13 for each counter");
}

/// Document 01's list, balanced at degree 2.
fn example() -> Tables {
    Tables {
        starts: vec![0, 2, 4, 6, 8, 12],
        images: vec![14, 12, 10, 8, 0, 4],
        holders: vec![5, 5, 4, 4, 0, 2],
        lengths: vec![2, 2, 2, 2, 4, 4],
    }
}

/// From place 11 of interval 4: at the last move, at the last start, and one short of each.
#[test]
fn known_bookmarks() {
    let t = example();
    let [s, i, h, l] = t.columns();
    let at = |moves, count| Bookmark { place: 11, interval: 4, distance: 99, moves, count };
    let to = |moves, count| Bookmark { place: 3, interval: 1, distance: 1, moves, count };
    let made = |moves, count| (AdvanceAnswer { number: 0, place: 0, count: 2 }, to(moves, count));
    let refused = |number, place, bookmark| (AdvanceAnswer { number, place, count: 0 }, bookmark);
    let advance_by = |l, mut lent| (exports::advance(16, s, i, h, l, &mut lent), lent);
    let advance = |bookmark| advance_by(l, bookmark);
    assert_eq!(advance(at(0, 0)), made(1, 2));
    assert_eq!(advance(at(u32::MAX - 1, u64::MAX - 2)), made(u32::MAX, u64::MAX));
    for full in [at(u32::MAX, 0), at(0, u64::MAX - 1), at(u32::MAX, u64::MAX)] {
        assert_eq!(advance(full), refused(13, 0, full));
    }
    let outside = Bookmark { place: 12, ..at(u32::MAX, u64::MAX) };
    assert_eq!(advance(outside), refused(11, 12, outside));
    let unknown = Bookmark { interval: 6, ..outside };
    assert_eq!(advance(unknown), refused(10, 6, unknown));
    assert_eq!(advance_by(&l[1..], unknown), refused(9, 0, unknown));
}

/// Four moves of one bookmark from place 0, four from place 11, and a third one that is refused with 12, so that the fourth is too.
#[test]
fn known_trails() {
    let trail = |t: &Tables, place, interval| {
        let [s, i, h, l] = t.columns();
        let mut lent = Bookmark { place, interval, distance: 999, ..Bookmark::default() };
        let moves = [(); 4].map(|()| (exports::advance(16, s, i, h, l, &mut lent).number, lent.place));
        (moves, lent)
    };
    let left = |place, interval, distance, moves, count| Bookmark { place, interval, distance, moves, count };
    let mut t = example();
    assert_eq!(trail(&t, 0, 0), ([(0, 14), (0, 6), (0, 8), (0, 0)], left(0, 0, 0, 4, 4)));
    assert_eq!(trail(&t, 11, 4), ([(0, 3), (0, 13), (0, 5), (0, 11)], left(11, 4, 3, 4, 4)));
    t.holders[3] = 6;
    assert_eq!(trail(&t, 0, 0), ([(0, 14), (0, 6), (12, 6), (12, 6)], left(6, 3, 0, 2, 2)));
}

/// A fresh bookmark's moves, one by one, come to what as many moves in one call do.
#[test]
fn a_bookmark_of_a_million_moves() {
    let r = &mut Random::new(7);
    let list = legal(r, 2000);
    let t = second::tables(list.n, &list.starts, &list.images);
    let [s, i, h, l] = t.columns();
    let place = r.below(u64::from(list.n)) as u32;
    let interval = exports::find(list.n, s, i, h, l, place).interval;
    let mut walked = Bookmark { place, interval, ..Bookmark::default() };
    let mut read = 0;
    for _ in 0..1_000_000 {
        let answer = exports::advance(list.n, s, i, h, l, &mut walked);
        assert_eq!(answer.number, 0);
        read += answer.count;
    }
    let whole = exports::moves(list.n, s, i, h, l, interval, place, 1_000_000);
    assert_eq!((walked.place, walked.interval, walked.distance), (whole.place, whole.interval, whole.distance));
    assert_eq!((walked.moves, walked.count, read), (1_000_000, whole.count, whole.count));
}
