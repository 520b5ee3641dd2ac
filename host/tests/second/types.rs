//! The types beside the plain functions, which the other modules hold against the second program.

use crate::exports::{damage_tables, senseless, somewhere};
use crate::random::{damage, legal, List, Random};
use crate::refusals::numbers;
use std::borrow::Cow;
use zibewoka::{Bookmark, MoveTable, Position, Question, Refusal, RunList, Step};

/// A list made by the check, owned and borrowed: it is the one that was handed in, or refused as check does.
fn checked(list: &List) -> Result<RunList<'_>, Refusal> {
    let List { n, starts, images } = list;
    let owned = RunList::new(*n, starts.clone(), images.clone());
    let borrowed = RunList::new(*n, starts, images);
    assert_eq!(owned, borrowed);
    assert_eq!(owned.as_ref().err(), zibewoka::check(*n, starts, images).as_ref().err());
    let owned = owned?;
    assert_eq!((owned.n(), owned.runs(), owned.starts(), owned.images()), (*n, starts.len(), &starts[..], &images[..]));
    assert_eq!(owned.into_owned(), borrowed.clone()?);
    borrowed
}

/// What a list can be asked, beside the plain functions with long tables lent.
fn on_list(list: &RunList, d: u32, entries: u32) {
    let (n, starts, images) = (list.n(), list.starts(), list.images());
    let b = 2 * starts.len();
    let [mut s, mut i, mut h, mut l, mut w] = [(); 5].map(|()| vec![0; b]);
    assert_eq!(list.forecast(d), zibewoka::forecast(n, starts, images, d, &mut w));
    assert_eq!(list.least_degree(entries), zibewoka::least_degree(n, starts, images, entries, &mut w));
    let size = zibewoka::balance(n, starts, images, d, &mut s, &mut i, &mut h, &mut l, &mut w);
    let columns = list.balance(d).map(MoveTable::into_columns);
    assert_eq!(columns, size.map(|size| [&s, &i, &h, &l].map(|column| column[..size as usize].to_vec())));
    let [mut s, mut i] = [(); 2].map(|()| vec![0; starts.len()]);
    assert_eq!(zibewoka::inverse_list(n, starts, images, &mut s, &mut i), Ok(()));
    assert_eq!(RunList::new(n, s, i), Ok(list.inverse()));
    assert_eq!(list.inverse().inverse(), *list);
    let [mut s, mut i] = [(); 2].map(|()| vec![0; starts.len()]);
    let runs = zibewoka::fold(n, starts, images, &mut s, &mut i).expect("legal") as usize;
    assert_eq!(RunList::new(n, &s[..runs], &i[..runs]), Ok(list.folded()));
    assert!(list.same_permutation(&list.folded()));
    let [mut s, mut i] = [[0; 7]; 2];
    let runs = zibewoka::next_list(n, starts, images, &mut s, &mut i);
    let wanted = runs.map(|runs| RunList::new(n, Cow::from(&s[..runs as usize]), &i[..runs as usize]).expect("legal"));
    assert_eq!(list.successor(), wanted);
}

/// A file is read as it was written, and refused at a degree that is none.
fn on_file(list: &RunList, d: u32) {
    let file = list.to_file(d);
    if !(2..=64).contains(&d) {
        assert_eq!(file, Err(Refusal::Degree { degree: d }));
        return;
    }
    let file = file.expect("a degree");
    assert_eq!(RunList::from_file(&file), Ok((list.clone(), d)));
}

/// Up to m items of a walk: each is the move from where the last one ended, and nothing comes after a refusal.
fn on_walk(table: &MoveTable, from: Position, m: usize) {
    let steps: Vec<Result<Step, Refusal>> = table.walk(from).take(m).collect();
    let mut at = Ok(from);
    for &step in &steps {
        assert_eq!(step, table.step(at.expect("nothing comes after a refusal")));
        at = step.map(Position::from);
    }
    assert!(at.is_err() || steps.len() == m);
    let moves = table.steps(from, m as u32);
    if let (Ok(at), Ok(moves)) = (at, moves) {
        let counts: u64 = steps.iter().map(|step| step.expect("a move").count).sum();
        assert_eq!((Position::from(moves), moves.count), (at, counts));
    } else {
        assert_eq!(at.err().is_some(), m > 0 && moves.is_err());
    }
}

/// A bookmark follows the walk, counts its moves, and stays where it is when one is refused.
fn on_bookmark(table: &MoveTable, from: Position, m: usize) {
    let mut bookmark = Bookmark::new(from);
    for step in table.walk(from).take(m) {
        let before = bookmark;
        assert_eq!(bookmark.advance(table), step);
        let wanted = step.map_or(before, |step| Bookmark {
            place: step.place,
            interval: step.interval,
            distance: step.distance,
            moves: before.moves + 1,
            count: before.count + step.count,
        });
        assert_eq!(bookmark, wanted);
    }
}

/// Every call of a table beside the plain functions.
fn on_table(n: u32, columns: [&[u32]; 4], Position { place, interval }: Position, m: u32) {
    let [s, i, h, l] = columns;
    let table = MoveTable::from_columns(n, s.to_vec(), i.to_vec(), h.to_vec(), l.to_vec());
    assert_eq!((table.n(), table.intervals()), (n, s.len()));
    assert_eq!([table.starts(), table.images(), table.holders(), table.lengths()], columns);
    assert_eq!(table.columns(), columns);
    let found = zibewoka::find(n, s, i, h, l, place).map(|interval| Position { place, interval });
    assert_eq!(table.find(place), found);
    let from = Position { place, interval };
    assert_eq!(table.step(from), zibewoka::move_once(n, s, i, h, l, interval, place));
    assert_eq!(table.steps(from, m), zibewoka::moves(n, s, i, h, l, interval, place, m));
    assert_eq!(table.preimage(place), zibewoka::inverse(n, s, i, h, l, place));
    assert_eq!(table.weight(interval), zibewoka::weight(n, s, i, h, l, interval));
    assert_eq!(table.starts_under(interval), zibewoka::starts_under(n, s, i, h, l, interval));
    let asked = [place / 2, place].map(|place| Question { place, ..Question::default() });
    let [mut records, mut plain_records] = [asked; 2];
    let answer = table.questions(&mut records);
    assert_eq!(answer, zibewoka::questions(n, s, i, h, l, &mut plain_records));
    assert_eq!(records, plain_records);
    on_walk(&table, from, m as usize);
    on_bookmark(&table, from, m as usize);
    assert_eq!(table.into_columns(), columns.map(<[u32]>::to_vec));
}

#[test]
fn types_of_random_lists() {
    let r = &mut Random::new(30);
    let mut accepted = 0;
    for _ in 0..20_000 {
        let k = r.from(1, 40) as usize;
        let mut list = legal(r, k);
        if r.one_in(3) {
            damage(r, &mut list);
        }
        let d = if r.one_in(8) { r.word() } else { r.from(2, 5) as u32 };
        let entries = r.from(k as u64 - 1, 2 * k as u64) as u32;
        if let Ok(list) = checked(&list) {
            on_list(&list, d, entries);
            on_file(&list, d);
            accepted += 1;
        }
    }
    assert!((13_000..20_000).contains(&accepted));
}

#[test]
fn types_of_random_tables() {
    let r = &mut Random::new(31);
    for round in 0..40_000 {
        let (mut n, mut t) = senseless(r);
        if round % 2 == 0 {
            let k = r.from(1, 40) as usize;
            let List { n: places, starts, images } = legal(r, k);
            (n, t) = (places, crate::definition::tables(places, &starts, &images));
            if r.one_in(2) {
                damage_tables(r, &mut n, &mut t);
            }
        }
        let (interval, place) = somewhere(r, n, &t);
        on_table(n, t.columns(), Position { place, interval }, r.below(20) as u32);
    }
}

/// A bookmark whose counters are full is refused with 13, and one move before it is not.
#[test]
fn full_bookmarks() {
    let table = RunList::new(16, &[0, 2, 4, 6, 8][..], &[14, 12, 10, 8, 0][..]).and_then(|list| list.balance(2));
    let table = table.expect("a legal list");
    let at = table.find(11).expect("a place"); // a move from there reads two starts
    for (moves, count, fits) in [
        (u32::MAX - 1, 0, true),
        (u32::MAX, 0, false),
        (0, u64::MAX - 2, true),
        (0, u64::MAX - 1, false),
        (u32::MAX, u64::MAX, false),
    ] {
        let before = Bookmark { moves, count, ..Bookmark::new(at) };
        let mut bookmark = before;
        let answer = bookmark.advance(&table);
        if fits {
            assert_eq!(answer, table.step(at));
            assert_eq!((bookmark.moves, bookmark.count), (moves + 1, count + 2));
        } else {
            assert_eq!(answer, Err(Refusal::CounterLimit { moves, count }));
            assert_eq!((numbers(answer), bookmark), (Err((13, 0)), before));
        }
    }
}

/// The limits stand in the library's own sources as the host has them.
#[test]
fn limits_are_the_librarys() {
    let root = std::path::Path::new(env!("CARGO_MANIFEST_DIR")).parent().expect("host/ stands in the repository");
    for (source, line) in [
        ("runs/src/lib.rt", format!("pub const MOST_RUNS: u32 = {};", zibewoka::MAX_RUNS)),
        ("tables/src/lib.rt", format!("pub const MAX_INTERVALS: usize = {};", zibewoka::MAX_INTERVALS)),
        ("outcomes/src/lib.rt", format!("pub const MOST_DEGREE: u32 = {};", zibewoka::DEGREES.end())),
        ("permutations/src/lib.rt", format!("const MOST_PLACES: u32 = {};", zibewoka::MAX_SUCCESSOR_PLACES)),
        ("listings/src/lib.rt", format!("pub const MAX_TEXT: usize = {};", zibewoka::MAX_LISTING)),
    ] {
        let text = std::fs::read_to_string(root.join("crates").join(source)).expect("a source of the library");
        assert!(text.contains(&line), "{source} has no line {line}");
    }
}
