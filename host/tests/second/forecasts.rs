//! How large a list will be: forecasts and the least degree beside balance itself, with every count of lent entries, and on
//! the lists whose sizes are known.

use crate::definition::{self as second, Outcome};
use crate::exports::Given;
use crate::random::{damage, legal, list_of, List, Random};
use crate::refusals::numbers;
use std::collections::BTreeSet;
use zibewoka::{Forecast, LeastDegree, LentTable, Refusal};

/// Degrees from 0 to 70 and large ones; half of them are low, so that there are cuts.
fn degree(r: &mut Random) -> u32 {
    match r.below(4) {
        0 => r.word(),
        1 => r.below(71) as u32,
        _ => r.from(2, 4) as u32,
    }
}

/// Working tables of one entry fewer than B, of B and of more, and with each of them the four others of one entry fewer than
/// K, of K and of B, in every combination; and the least degree for every count of entries that an answer may turn on. Answers
/// K, or k where the list or the degree is refused.
fn every_count(given: &mut Given, r: &mut Random, list: &List, d: u32) -> usize {
    let k = list.starts.len();
    let b = second::bound(d.max(2), k);
    let size = given.forecast(r, list, d, b + 3).map_or(k, |intervals| intervals as usize);
    for working in [b - 1, b, b + 3] {
        given.forecast(r, list, d, working);
        let counts = [size - 1, size, b];
        for s in counts {
            for i in counts {
                for h in counts {
                    for l in counts {
                        given.balance(r, list, d, [s, i, h, l, working]);
                    }
                }
            }
        }
    }
    let lowest_b = second::bound(2, k);
    for working in [lowest_b - 1, lowest_b, lowest_b + 3] {
        for entries in [0, k - 1, k, size - 1, size, size + 1, b, lowest_b, u32::MAX as usize] {
            given.least_degree(r, list, entries as u32, working);
        }
    }
    size
}

#[test]
fn every_count_of_lent_entries() {
    let mut given = Given::default();
    let r = &mut Random::new(6);
    let mut with_cuts = 0;
    for _ in 0..2000 {
        let k = r.from(1, 40) as usize;
        let mut list = legal(r, k);
        if r.one_in(3) {
            damage(r, &mut list);
        }
        let d = degree(r);
        let size = every_count(&mut given, r, &list, d);
        with_cuts += u32::from(size > list.starts.len());
    }
    assert!(with_cuts >= 200, "{with_cuts} lists are cut");
    // A list of more runs than there may be is too long for this, and comes up elsewhere.
    for (export, numbers, possible) in [
        ("balance", &given.balance, [0, 1, 3, 4, 5, 6, 7, 8]),
        ("forecast", &given.forecast, [0, 1, 3, 4, 5, 6, 7, 8]),
        ("least_degree", &given.least_degree, [0, 1, 3, 4, 5, 6, 8, 19]),
    ] {
        assert!(numbers.0.keys().eq(&possible), "{export} gave {numbers:?}");
        assert!(numbers.0.values().all(|&times| times >= 50), "{export} gave {numbers:?}");
    }
    assert!(given.fewer_than_intervals >= 1000 && given.balance.0[&8] >= given.fewer_than_intervals + 1000);
}

/// Every degree from 0 to 70, and large ones, on each list.
#[test]
fn every_degree() {
    let mut given = Given::default();
    let r = &mut Random::new(7);
    for _ in 0..100 {
        let k = r.from(1, 200) as usize;
        let list = legal(r, k);
        for d in (0..=70).chain([100, 1 << 16, 1 << 31, u32::MAX]) {
            let b = second::bound(d.max(2), k);
            let size = given.forecast(r, &list, d, b).map_or(k, |intervals| intervals as usize);
            given.balance(r, &list, d, [size, size, size, size, b]);
        }
    }
    assert!(given.forecast.0 == given.balance.0 && given.forecast.0.keys().eq(&[0, 7]));
}

/// What a forecast says, after balance did so in tables of K entries, and did not in tables of one entry fewer.
fn forecast_and_balanced(r: &mut Random, list: &List, d: u32) -> Forecast {
    let List { n, starts, images } = list;
    let mut w = r.words(second::bound(d, starts.len()));
    let size = zibewoka::forecast(*n, starts, images, d, &mut w).expect("a legal list");
    let k = size.intervals as usize;
    let [mut s, mut i, mut h, mut l] = [0; 4].map(|_| vec![0; k]);
    let fewer = zibewoka::balance(*n, starts, images, d, &mut s, &mut i, &mut h, &mut l[1..], &mut w);
    assert_eq!(fewer, Err(Refusal::ShortTable { table: LentTable::Lengths, entries: k - 1, needed: size.intervals }));
    assert_eq!(zibewoka::balance(*n, starts, images, d, &mut s, &mut i, &mut h, &mut l, &mut w), Ok(size.intervals));
    let added = s.iter().filter(|start| starts.binary_search(start).is_err()).count();
    assert_eq!((added, starts.len() + added), (size.cuts as usize, k));
    size
}

/// K at each degree from 2 to 64, as forecast.
fn sizes(list: &List) -> Vec<u32> {
    let working = 2 * list.starts.len();
    (2..=64).map(|d| forecast(list, d, working).0.expect("a legal list").intervals).collect()
}

/// The least degree whose K, one of these from degree 2 on, is at most `entries`.
fn least_of(sizes: &[u32], entries: u32) -> Result<LeastDegree, Refusal> {
    let fitting = (2..).zip(sizes).find(|&(_, &intervals)| intervals <= entries);
    fitting.map(|(degree, &intervals)| LeastDegree { degree, intervals }).ok_or(Refusal::NoDegreeFits { entries })
}

/// Forecasts at every degree beside balance, and the least degree beside these forecasts, also on lists that are too long to
/// be balanced by the second program in every round.
#[test]
fn forecasts_are_what_balance_does() {
    let r = &mut Random::new(8);
    let mut degrees = BTreeSet::new();
    let mut refused = 0;
    for round in 0..2000 {
        let k = match round {
            0 => 16384,
            1..=19 => r.from(1000, 3000),
            _ => r.from(1, 100),
        } as usize;
        let list = legal(r, k);
        let List { n, starts, images } = &list;
        let sizes: Vec<u32> = (2..=64).map(|d| forecast_and_balanced(r, &list, d).intervals).collect();
        let mut w = r.words(2 * k);
        for _ in 0..8 {
            let entries = sizes[r.below(63) as usize] - r.below(2) as u32;
            let least = zibewoka::least_degree(*n, starts, images, entries, &mut w);
            assert_eq!(least, least_of(&sizes, entries));
            degrees.extend(least.map(|least| least.degree));
            refused += u32::from(least.is_err());
        }
    }
    assert!(degrees.len() >= 40 && refused >= 1000, "{degrees:?}, refused {refused}");
}

/// 19 after a sweep, which writes cuts to the working table: the weights tell of the 2d − 2 cuts that the four longer runs get at
/// degree 64, where d is 63, and not of the two more that the last one gets then. Too few entries for the runs need no sweep.
#[test]
fn no_degree_fits_though_the_weights_leave_one() {
    let list = &larger_after(63);
    let k = list.starts.len();
    let sizes = sizes(list);
    assert_eq!(sizes[61..], [k as u32 + 125, k as u32 + 126]);
    for entries in [k as u32 + 124, k as u32, k as u32 - 1] {
        let wanted = (refused(19, entries.into()), zeros_and_nines(2 * k, 3));
        assert_eq!(least_degree(list, entries, 2 * k + 3), wanted);
    }
}

/// The list of document 01.
fn document() -> List {
    List { n: 16, starts: vec![0, 2, 4, 6, 8], images: vec![14, 12, 10, 8, 0] }
}

/// A table of so many zeros and then so many nines.
fn zeros_and_nines(zeros: usize, nines: usize) -> Vec<u32> {
    [vec![0; zeros], vec![9; nines]].concat()
}

fn refused<T>(number: u32, place: u64) -> Outcome<T, u64> {
    Err((number, place))
}

/// What a forecast comes to, with a working table of nines, and that table.
fn forecast(list: &List, d: u32, working: usize) -> (Outcome<Forecast, u64>, Vec<u32>) {
    let mut w = vec![9; working];
    (numbers(zibewoka::forecast(list.n, &list.starts, &list.images, d, &mut w)), w)
}

/// The same of the least degree.
fn least_degree(list: &List, entries: u32, working: usize) -> (Outcome<LeastDegree, u64>, Vec<u32>) {
    let mut w = vec![9; working];
    (numbers(zibewoka::least_degree(list.n, &list.starts, &list.images, entries, &mut w)), w)
}

/// What balance comes to, with all tables of nines, and these tables.
fn balance(list: &List, d: u32, counts: [usize; 5]) -> (Outcome<u32, u64>, [Vec<u32>; 5]) {
    let mut lent = counts.map(|count| vec![9; count]);
    let [s, i, h, l, w] = &mut lent;
    (numbers(zibewoka::balance(list.n, &list.starts, &list.images, d, s, i, h, l, w)), lent)
}

#[test]
fn known_forecasts() {
    let e = &document();
    assert_eq!(forecast(e, 2, 12), (Ok(Forecast { intervals: 6, cuts: 1 }), zeros_and_nines(10, 2)));
    assert_eq!(forecast(e, 3, 12), (Ok(Forecast { intervals: 5, cuts: 0 }), zeros_and_nines(7, 5)));
    assert_eq!(forecast(e, 2, 9), (refused(8, 10), zeros_and_nines(0, 9)));
    assert_eq!(forecast(e, 1, 0), (refused(7, 1), vec![]));
    assert_eq!(forecast(e, 65, 0), (refused(7, 65), vec![]));

    let least = |degree, intervals| Ok(LeastDegree { degree, intervals });
    assert_eq!(least_degree(e, 6, 12), (least(2, 6), zeros_and_nines(10, 2)));
    assert_eq!(least_degree(e, u32::MAX, 12), (least(2, 6), zeros_and_nines(10, 2)));
    assert_eq!(least_degree(e, 5, 12), (least(3, 5), zeros_and_nines(10, 2)));
    assert_eq!(least_degree(e, 4, 12), (refused(19, 4), zeros_and_nines(10, 2)));
    assert_eq!(least_degree(e, 0, 10), (refused(19, 0), zeros_and_nines(10, 0)));
    assert_eq!(least_degree(e, 0, 9), (refused(8, 10), zeros_and_nines(0, 9)));
    assert_eq!(least_degree(e, 5, 9), (refused(8, 10), zeros_and_nines(0, 9)));
}

#[test]
fn known_tables_of_k_entries() {
    let e = &document();
    let nines = |counts: [usize; 4], working: Vec<u32>| {
        let [s, i, h, l] = counts.map(|count| vec![9; count]);
        [s, i, h, l, working]
    };
    let filled = |nines: usize, working: Vec<u32>| {
        let columns = [[0, 2, 4, 6, 8, 12], [14, 12, 10, 8, 0, 4], [5, 5, 4, 4, 0, 2], [2, 2, 2, 2, 4, 4]];
        let [s, i, h, l] = columns.map(|column| [&column[..], &vec![9; nines]].concat());
        [s, i, h, l, working]
    };
    assert_eq!(balance(e, 2, [9, 9, 9, 9, 10]), (Ok(6), filled(3, zeros_and_nines(10, 0))));
    assert_eq!(balance(e, 2, [6, 6, 6, 6, 12]), (Ok(6), filled(0, zeros_and_nines(10, 2))));
    assert_eq!(balance(e, 2, [6, 6, 5, 6, 12]), (refused(8, 6), nines([6, 6, 5, 6], zeros_and_nines(10, 2))));
    assert_eq!(balance(e, 2, [6, 6, 6, 5, 12]), (refused(8, 6), nines([6, 6, 6, 5], zeros_and_nines(10, 2))));
    assert_eq!(balance(e, 2, [5, 5, 5, 5, 9]), (refused(8, 10), nines([5, 5, 5, 5], zeros_and_nines(0, 9))));
    assert_eq!(balance(e, 2, [9, 9, 9, 9, 9]), (refused(8, 10), nines([9, 9, 9, 9], zeros_and_nines(0, 9))));

    // At degree 64 both B and K are 5: one answer, whichever table is too short.
    assert_eq!(balance(e, 64, [5, 4, 5, 5, 6]), (refused(8, 5), nines([5, 4, 5, 5], zeros_and_nines(5, 1))));
    assert_eq!(balance(e, 64, [5, 5, 5, 4, 6]), (refused(8, 5), nines([5, 5, 5, 4], zeros_and_nines(5, 1))));
    assert_eq!(balance(e, 64, [5, 5, 5, 5, 4]), (refused(8, 5), nines([5, 5, 5, 5], zeros_and_nines(0, 4))));
    assert_eq!(balance(e, 64, [4, 4, 4, 4, 4]), (refused(8, 5), nines([4, 4, 4, 4], zeros_and_nines(0, 4))));
}

/// A list that has more intervals at degree d + 1 than at degree d, for d from 5 to 63.
///
/// The last run's image lies over 2d starts, of which four are those of longer runs. Their images lie over short runs, as many
/// as make them cut equally often at either degree. At degree d the last run is cut first, in halves of d starts, and the other
/// cuts add d − 1 to each, too few for another cut. At degree d + 1 it is cut only after some of the others, and then twice.
fn larger_after(d: u64) -> List {
    let long = |cuts: u64| (cuts + 1) * (d + 1);
    let half = (d - 1) / 2;
    let [a, b, c, e] = [half, d - 1 - half, d - 2, 1].map(long);
    let between = d as usize - 2;
    let short = between + (a + b + c + e) as usize;
    let lengths = [&[a][..], &vec![1; between], &[b, c, e], &vec![1; short], &[(between + short) as u64]].concat();
    let last = lengths.len() - 1;
    let long = [0, between + 1, between + 2, between + 3];
    let order = [&[last][..], &long, &Vec::from_iter(1..=between), &Vec::from_iter(between + 4..last)].concat();
    list_of(&lengths, &order)
}

#[test]
fn a_higher_degree_can_give_more_intervals() {
    let lengths = [&[18, 1, 1, 1, 18, 24, 12][..], &[1; 75], &[78]].concat();
    let order = [&[82, 0, 4, 5, 6, 1, 2, 3][..], &Vec::from_iter(7..82)].concat();
    let list = &list_of(&lengths, &order);
    assert_eq!((list.n, list.starts.len()), (228, 83));
    assert!(*list == larger_after(5));
    for (d, intervals) in [(5, 92), (6, 93)] {
        let literally = second::balanced_literally(list.n, &list.starts, &list.images, d as usize);
        assert_eq!(literally.0.len(), intervals as usize);
        assert_eq!(forecast(list, d, 166).0, Ok(Forecast { intervals, cuts: intervals - 83 }));
    }
    let [for_91, for_92] = [91, 92].map(|entries| least_degree(list, entries, 166).0);
    assert!(for_91.is_ok_and(|least| least.degree == 7));
    assert_eq!(for_92, Ok(LeastDegree { degree: 5, intervals: 92 }));

    // Every stated count from none to more than enough, and every degree, beside the second program.
    let mut given = Given::default();
    let r = &mut Random::new(9);
    for entries in 0..=170 {
        let working = 166 + r.below(3) as usize;
        given.least_degree(r, list, entries, working);
    }
    for d in 2..=64 {
        every_count(&mut given, r, list, d);
    }
}

/// A search that halves the degrees would go wrong on one of these lists, whichever degree from 6 on it looks at first.
#[test]
fn the_least_degree_where_a_higher_one_gives_more_intervals() {
    let mut given = Given::default();
    let r = &mut Random::new(20);
    for d in 5..=63 {
        let list = &larger_after(d);
        let working = 2 * list.starts.len();
        let sizes = sizes(list);
        let [size, next] = [d, d + 1].map(|d| sizes[d as usize - 2]);
        assert!(size < next);
        for entries in [size - 1, size, next - 1, next] {
            let least = least_of(&sizes, entries);
            assert_eq!(least_degree(list, entries, working).0, numbers(least));
            if entries == size {
                assert_eq!(least, Ok(LeastDegree { degree: d as u32, intervals: size }));
            }
            if d <= 12 {
                given.least_degree(r, list, entries, working);
            }
        }
    }
}
