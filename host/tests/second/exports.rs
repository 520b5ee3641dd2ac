//! Every export on every kind of list and tables: each answer whole, and every entry of every lent table before and after.
//!
//! Bookmarks, with their number 13, and files, with theirs, 15, have modules of their own.

use crate::definition::{self as second, Outcome, Reached, Tables, Worked};
use crate::random::{damage, damaged, legal, list_of, List, Random};
use crate::refusals::{numbers, on_list, on_questions, on_tables, wide};
use std::collections::BTreeMap;
use zibewoka::exports::{
    self, BalanceAnswer, DegreeAnswer, ForecastAnswer, IntervalAnswer, ListAnswer, MoveAnswer, MovesAnswer, NextAnswer,
    QuestionsAnswer, RunsAnswer, UnderAnswer, WeightAnswer,
};
use zibewoka::LentTable::{Holders, Images, Lengths, Starts, Working};
use zibewoka::{Forecast, LeastDegree, Question, Refusal, Step};

/// How often each number was given.
#[derive(Debug, Default)]
pub struct Numbers(pub BTreeMap<u32, u32>);

impl Numbers {
    pub fn add(&mut self, number: u32) {
        *self.0.entry(number).or_default() += 1;
    }

    fn add_all(&mut self, other: Numbers) {
        for (number, times) in other.0 {
            *self.0.entry(number).or_default() += times;
        }
    }
}

/// What 12 is noted as where it was given for a wrong length, apart from the other reasons for it.
pub const WRONG_LENGTH: u32 = 1200;

/// The number that a call on tables gave, as it is noted.
pub fn noted<T, P: Copy + Into<u64>>(n: u32, t: &Tables, outcome: &Outcome<T, P>) -> u32 {
    match *outcome {
        Ok(_) => 0,
        Err((12, interval)) if second::is_wrong_length(n, t, interval.into() as usize) => WRONG_LENGTH,
        Err((number, _)) => number,
    }
}

/// The numbers that each export gave.
#[derive(Default)]
pub struct Given {
    check: Numbers,
    pub balance: Numbers,
    /// How often balance gave 8 with K, which comes after 8 with B.
    pub fewer_than_intervals: u32,
    pub forecast: Numbers,
    pub least_degree: Numbers,
    inverse_list: Numbers,
    pub fold: Numbers,
    next_list: Numbers,
    find: Numbers,
    step: Numbers,
    /// How often find, inverse or a move was refused for a length though the place was not below n, so that 11 comes after.
    length_before_place: u32,
    /// How often questions were refused for a length though their places fell, so that 16 comes after.
    length_before_fall: u32,
    /// How often a move reached an interval of a wrong length, which is not tested by that move.
    into_wrong_length: u32,
    steps: Numbers,
    /// How often repeated moves were refused for the length of another interval than the one that they began in.
    length_on_the_way: u32,
    inverse: Numbers,
    weight: Numbers,
    starts_under: Numbers,
    /// How often there was no start under an image because the stretch begins at the table's end.
    under_the_end: u32,
    questions: Numbers,
}

/// Two lent tables of these counts with any numbers in them, and as a call that comes to this list leaves them.
fn lent_pair(
    r: &mut Random,
    counts: [usize; 2],
    wanted: &Outcome<(Vec<u32>, Vec<u32>)>,
) -> ([Vec<u32>; 2], [Vec<u32>; 2]) {
    let before = counts.map(|count| r.words(count));
    let mut after = before.clone();
    if let Ok((starts, images)) = wanted {
        after[0][..starts.len()].copy_from_slice(starts);
        after[1][..images.len()].copy_from_slice(images);
    }
    (before, after)
}

/// A working table of this count with any numbers in it, and as a call that clears so many of its entries leaves it.
fn lent_working(r: &mut Random, count: usize, cleared: usize) -> (Vec<u32>, Vec<u32>) {
    let before = r.words(count);
    let mut after = before.clone();
    after[..cleared].fill(0);
    (before, after)
}

fn question([place, interval, to_place, to_interval, count, distance]: second::Record) -> Question {
    Question { place, interval, to_place, to_interval, count, distance }
}

fn safe_step(Reached { place, interval, distance, count }: Reached) -> Step {
    Step { place, interval, distance, count }
}

/// What a move's answer has in each field: a refusal has its number and place, and 0 in the others.
fn fields(wanted: Outcome<Reached>) -> (u32, Reached) {
    match wanted {
        Ok(reached) => (0, reached),
        Err((number, place)) => (number, Reached { place, interval: 0, distance: 0, count: 0 }),
    }
}

fn number_of<T>(wanted: &Outcome<T>) -> u32 {
    wanted.as_ref().err().map_or(0, |&(number, _)| number)
}

/// A call on a list that writes another to two lent tables.
type Writes<A> = fn(u32, &[u32], &[u32], &mut [u32], &mut [u32]) -> A;

/// An export that writes a list to two lent tables and answers its run count, and its wrapper: both as is wanted, and every entry of
/// the tables. Gives the list that they leave there.
fn written(
    r: &mut Random,
    list: &List,
    counts: [usize; 2],
    wanted: Outcome<(Vec<u32>, Vec<u32>)>,
    export: Writes<RunsAnswer>,
    wrapper: Writes<Result<u32, Refusal>>,
) -> Option<List> {
    let List { n, starts, images } = list;
    let (before, after) = lent_pair(r, counts, &wanted);
    let [mut s, mut i] = before.clone();
    let answer = export(*n, starts, images, &mut s, &mut i);
    let wanted = wanted.map(|(to_starts, _)| to_starts.len() as u32);
    let (number, place) = wanted.err().unwrap_or((0, 0));
    assert_eq!(answer, RunsAnswer { number, place, runs: wanted.unwrap_or(0) });
    assert!([s, i] == after, "the lent tables after the call");
    let mut lent = before;
    let [s, i] = &mut lent;
    let safe = wrapper(*n, starts, images, s, i);
    assert_eq!(on_list(safe, list, &[(Starts, counts[0]), (Images, counts[1])]), wide(wanted));
    assert!(lent == after, "the same through the wrapper");
    let [starts, images] = lent.map(|table| table[..answer.runs as usize].to_vec());
    safe.ok().map(|_| List { n: *n, starts, images })
}

impl Given {
    fn check(&mut self, list: &List) {
        let List { n, starts, images } = list;
        let wanted = second::check(*n, starts, images);
        let answer = exports::check(*n, starts, images);
        let (number, place) = wanted.err().unwrap_or((0, 0));
        assert_eq!(answer, ListAnswer { number, place });
        assert_eq!(on_list(zibewoka::check(*n, starts, images), list, &[]), wide(wanted));
        self.check.add(number);
    }

    /// Balances into tables of these counts, that of the working table last, with any numbers in them.
    pub fn balance(&mut self, r: &mut Random, list: &List, d: u32, counts: [usize; 5]) -> Option<Tables> {
        let List { n, starts, images } = list;
        let Worked { outcome: wanted, cleared } = second::balance(*n, starts, images, d, counts);
        let before = counts.map(|count| r.words(count));
        let mut after = before.clone();
        after[4][..cleared].fill(0);
        let (number, place) = wanted.as_ref().err().copied().unwrap_or((0, 0));
        let mut intervals = 0;
        if let Ok(tables) = &wanted {
            let k = tables.starts.len();
            intervals = k as u32;
            for (table, column) in after.iter_mut().zip(tables.columns()) {
                table[..k].copy_from_slice(column);
            }
        }
        let [mut s, mut i, mut h, mut l, mut w] = before.clone();
        let answer = exports::balance(*n, starts, images, d, &mut s, &mut i, &mut h, &mut l, &mut w);
        assert_eq!(answer, BalanceAnswer { number, place, intervals });
        assert!([s, i, h, l, w] == after, "the lent tables after balancing");
        let [mut s, mut i, mut h, mut l, mut w] = before;
        let safe = zibewoka::balance(*n, starts, images, d, &mut s, &mut i, &mut h, &mut l, &mut w);
        let lent = [Starts, Images, Holders, Lengths, Working].into_iter().zip(counts).collect::<Vec<_>>();
        assert_eq!(on_list(safe, list, &lent), wide(wanted.as_ref().map(|_| intervals).map_err(|&e| e)));
        assert!([s, i, h, l, w] == after, "the same through the wrapper");
        self.balance.add(number);
        self.fewer_than_intervals += u32::from(number == 8 && cleared > 0);
        wanted.ok()
    }

    /// Forecasts with a working table of this count: K, where it is given.
    pub fn forecast(&mut self, r: &mut Random, list: &List, d: u32, working: usize) -> Option<u32> {
        let List { n, starts, images } = list;
        let Worked { outcome: wanted, cleared } = second::forecast(*n, starts, images, d, working);
        let (before, after) = lent_working(r, working, cleared);
        let mut w = before.clone();
        let answer = exports::forecast(*n, starts, images, d, &mut w);
        let (number, place) = wanted.err().unwrap_or((0, 0));
        let (intervals, cuts) = wanted.unwrap_or((0, 0));
        assert_eq!(answer, ForecastAnswer { number, place, intervals, cuts });
        assert!(w == after, "the working table after a forecast");
        let mut w = before;
        let safe = zibewoka::forecast(*n, starts, images, d, &mut w);
        let wanted_size = wanted.map(|(intervals, cuts)| Forecast { intervals, cuts });
        assert_eq!(on_list(safe, list, &[(Working, working)]), wide(wanted_size));
        assert!(w == after, "the same through the wrapper");
        self.forecast.add(number);
        wanted.ok().map(|(intervals, _)| intervals)
    }

    /// Asks for the least degree with a working table of this count.
    pub fn least_degree(&mut self, r: &mut Random, list: &List, entries: u32, working: usize) {
        let List { n, starts, images } = list;
        let Worked { outcome: wanted, cleared } = second::least_degree(*n, starts, images, entries, working);
        let (before, after) = lent_working(r, working, cleared);
        let mut w = before.clone();
        let answer = exports::least_degree(*n, starts, images, entries, &mut w);
        let (number, place) = wanted.err().unwrap_or((0, 0));
        let (degree, intervals) = wanted.unwrap_or((0, 0));
        assert_eq!(answer, DegreeAnswer { number, place, degree, intervals });
        assert!(w == after, "the working table after the least degree");
        let mut w = before;
        let safe = zibewoka::least_degree(*n, starts, images, entries, &mut w);
        let wanted_degree = wanted.map(|(degree, intervals)| LeastDegree { degree, intervals });
        assert_eq!(on_list(safe, list, &[(Working, working)]), wide(wanted_degree));
        assert!(w == after, "the same through the wrapper");
        self.least_degree.add(number);
    }

    fn inverse_list(&mut self, r: &mut Random, list: &List, counts: [usize; 2]) {
        let List { n, starts, images } = list;
        let wanted = second::inverse_list(*n, starts, images, counts);
        let (before, after) = lent_pair(r, counts, &wanted);
        let [mut s, mut i] = before.clone();
        let answer = exports::inverse_list(*n, starts, images, &mut s, &mut i);
        let (number, place) = wanted.as_ref().err().copied().unwrap_or((0, 0));
        assert_eq!(answer, ListAnswer { number, place });
        assert!([s, i] == after, "the lent tables after the inverse list");
        let [mut s, mut i] = before;
        let safe = zibewoka::inverse_list(*n, starts, images, &mut s, &mut i);
        assert_eq!(on_list(safe, list, &[(Starts, counts[0]), (Images, counts[1])]), wide(wanted.map(|_| ())));
        assert!([s, i] == after, "the same through the wrapper");
        self.inverse_list.add(number);
    }

    /// The fold, as the library leaves it in the lent tables.
    pub fn fold(&mut self, r: &mut Random, list: &List, counts: [usize; 2]) -> Option<List> {
        let wanted = second::fold(list.n, &list.starts, &list.images, counts);
        self.fold.add(number_of(&wanted));
        written(r, list, counts, wanted, exports::fold, zibewoka::fold)
    }

    /// The next list, as the library leaves it in the lent tables.
    fn next_list(&mut self, r: &mut Random, list: &List, counts: [usize; 2]) -> Option<List> {
        let List { n, starts, images } = list;
        let wanted = second::next_list(*n, starts, images, counts);
        let (before, after) = lent_pair(r, counts, &wanted);
        let [mut s, mut i] = before.clone();
        let answer = exports::next_list(*n, starts, images, &mut s, &mut i);
        let wanted = wanted.map(|(to_starts, _)| to_starts.len() as u32);
        let (number, place) = wanted.err().unwrap_or((0, 0));
        assert_eq!(answer, NextAnswer { number, place, runs: wanted.unwrap_or(0) });
        assert!([s, i] == after, "the lent tables after the next list");
        let mut lent = before;
        let [s, i] = &mut lent;
        let safe = zibewoka::next_list(*n, starts, images, s, i);
        assert_eq!(on_list(safe, list, &[(Starts, counts[0]), (Images, counts[1])]), wide(wanted));
        assert!(lent == after, "the same through the wrapper");
        self.next_list.add(number);
        let [starts, images] = lent.map(|table| table[..answer.runs as usize].to_vec());
        safe.ok().map(|_| List { n: *n, starts, images })
    }

    fn find(&mut self, n: u32, t: &Tables, i: u32) {
        let wanted = second::find(n, t, i);
        let [starts, images, holders, lengths] = t.columns();
        let answer = exports::find(n, starts, images, holders, lengths, i);
        let (number, place, interval) = match wanted {
            Ok(x) => (0, i, x),
            Err((number, place)) => (number, place, 0),
        };
        assert_eq!(answer, IntervalAnswer { number, place, interval });
        let safe = zibewoka::find(n, starts, images, holders, lengths, i);
        assert_eq!(on_tables(safe, n, t, None), wide(wanted));
        let noted = noted(n, t, &wanted);
        self.length_before_place += u32::from(noted == WRONG_LENGTH && n <= i);
        self.find.add(noted);
    }

    fn step(&mut self, n: u32, t: &Tables, x: u32, i: u32) {
        let wanted = second::step(n, t, x, i);
        let [starts, images, holders, lengths] = t.columns();
        let answer = exports::move_once(n, starts, images, holders, lengths, x, i);
        let (number, Reached { place, interval, distance, count }) = fields(wanted);
        assert_eq!(answer, MoveAnswer { number, place, interval, distance, count: count as u32 });
        let safe = zibewoka::move_once(n, starts, images, holders, lengths, x, i);
        assert_eq!(on_tables(safe, n, t, Some(x)), wide(wanted.map(safe_step)));
        let noted = noted(n, t, &wanted);
        self.length_before_place += u32::from(noted == WRONG_LENGTH && n <= i);
        self.into_wrong_length += u32::from(noted == 0 && second::is_wrong_length(n, t, interval as usize));
        self.step.add(noted);
    }

    fn steps(&mut self, n: u32, t: &Tables, x: u32, i: u32, m: u32) {
        let wanted = second::steps(n, t, x, i, m);
        let [starts, images, holders, lengths] = t.columns();
        let answer = exports::moves(n, starts, images, holders, lengths, x, i, m);
        let (number, Reached { place, interval, distance, count }) = fields(wanted);
        assert_eq!(answer, MovesAnswer { number, place, interval, distance, count });
        let safe = zibewoka::moves(n, starts, images, holders, lengths, x, i, m);
        assert_eq!(on_tables(safe, n, t, Some(x)), wide(wanted.map(safe_step)));
        let noted = noted(n, t, &wanted);
        self.length_on_the_way += u32::from(noted == WRONG_LENGTH && place != x);
        self.steps.add(noted);
    }

    fn inverse(&mut self, n: u32, t: &Tables, j: u32) {
        let wanted = second::inverse(n, t, j);
        let [starts, images, holders, lengths] = t.columns();
        let answer = exports::inverse(n, starts, images, holders, lengths, j);
        let (number, place, interval) = match wanted {
            Ok((place, interval)) => (0, place, interval),
            Err((number, place)) => (number, place, 0),
        };
        assert_eq!(answer, IntervalAnswer { number, place, interval });
        let safe = zibewoka::inverse(n, starts, images, holders, lengths, j);
        assert_eq!(on_tables(safe.map(|s| (s.place, s.interval)), n, t, None), wide(wanted));
        let noted = noted(n, t, &wanted);
        self.length_before_place += u32::from(noted == WRONG_LENGTH && n <= j);
        self.inverse.add(noted);
    }

    fn weight(&mut self, n: u32, t: &Tables, x: u32) {
        let wanted = second::weight(n, t, x);
        let [starts, images, holders, lengths] = t.columns();
        let answer = exports::weight(n, starts, images, holders, lengths, x);
        let (number, place, weight) = match wanted {
            Ok(weight) => (0, 0, weight),
            Err((number, place)) => (number, place, 0),
        };
        assert_eq!(answer, WeightAnswer { number, place, weight });
        let safe = zibewoka::weight(n, starts, images, holders, lengths, x);
        assert_eq!(on_tables(safe, n, t, Some(x)), wide(wanted));
        self.weight.add(noted(n, t, &wanted));
    }

    fn starts_under(&mut self, n: u32, t: &Tables, x: u32) {
        let wanted = second::starts_under(n, t, x);
        let [starts, images, holders, lengths] = t.columns();
        let answer = exports::starts_under(n, starts, images, holders, lengths, x);
        let (number, place, first, count) = match wanted {
            Ok((first, count)) => (0, 0, first, count),
            Err((number, place)) => (number, place, 0, 0),
        };
        assert_eq!(answer, UnderAnswer { number, place, first, count });
        assert!((first + count) as usize <= starts.len(), "the stretch lies in the table");
        let safe = zibewoka::starts_under(n, starts, images, holders, lengths, x);
        let part = wanted.map(|(first, count)| &starts[first as usize..][..count as usize]);
        assert_eq!(on_tables(safe, n, t, Some(x)), wide(part));
        self.under_the_end += u32::from(number == 0 && first as usize == starts.len());
        self.starts_under.add(noted(n, t, &wanted));
    }

    /// Questions at these places, with any numbers in the other fields. They are lent out of a longer slice, whose records
    /// before and after them stay.
    fn questions(&mut self, r: &mut Random, n: u32, t: &Tables, places: &[u32]) {
        let wanted = second::questions(n, t, places);
        let all = [&r.words(1)[..], places, &r.words(1)].concat();
        let before: Vec<Question> =
            all.into_iter().map(|place| question([place, r.word(), r.word(), r.word(), r.word(), r.word()])).collect();
        let lent = 1..1 + places.len();
        let mut after = before.clone();
        let (number, count, place) = match &wanted {
            Ok((count, records)) => {
                after.splice(lent.clone(), records.iter().copied().map(question));
                (0, *count, 0)
            }
            Err((number, place)) => (*number, 0, *place),
        };
        let [starts, images, holders, lengths] = t.columns();
        let mut records = before.clone();
        let answer = exports::questions(n, starts, images, holders, lengths, &mut records[lent.clone()]);
        assert_eq!(answer, QuestionsAnswer { number, count, place });
        assert!(records == after, "the records after the questions");
        let mut records = before;
        let safe = zibewoka::questions(n, starts, images, holders, lengths, &mut records[lent.clone()]);
        let noted = noted(n, t, &wanted);
        let falls = places.windows(2).any(|pair| pair[1] < pair[0]);
        self.length_before_fall += u32::from(noted == WRONG_LENGTH && falls);
        self.questions.add(noted);
        assert_eq!(on_questions(safe, n, t, &records[lent.clone()]), wide(wanted.map(|(count, _)| count)));
        assert!(records == after, "the same through the wrapper");
        if number == 0 {
            records[lent].iter().for_each(|record| agrees_alone(n, t, record));
        }
    }

    /// A forecast and a least degree. Working tables are long enough, or not. Answers K, or k where it is not given.
    fn sizes(&mut self, r: &mut Random, list: &List, d: u32) -> usize {
        let k = list.starts.len();
        let bounds = [d.max(2), 2].map(|d| second::bound(d, k));
        let mut workings = bounds.map(|b| b + r.below(3) as usize);
        if r.one_in(6) {
            workings = bounds.map(|b| r.below(b as u64 + 1) as usize);
        }
        let size = self.forecast(r, list, d, workings[0]).map_or(k, |intervals| intervals as usize);
        let entries = entries(r, k, size);
        self.least_degree(r, list, entries, workings[1]);
        size
    }

    /// Every export on a list; where it is not sized, without the forecast and the least degree. Lent tables are long enough,
    /// or one of them is not.
    fn on_list(&mut self, r: &mut Random, list: &List, d: u32, sized: bool) -> Option<Tables> {
        let before = list.clone();
        self.check(list);
        let k = list.starts.len();
        let b = second::bound(d.max(2), k);
        let size = if sized { self.sizes(r, list, d) } else { b };
        let mut counts = [size, size, size, size, b].map(|count| count + r.below(3) as usize);
        let mut pair = [0; 2].map(|_| k + r.below(3) as usize);
        let places = list.n.min(8) as usize;
        let mut places_pair = [0; 2].map(|_| places + r.below(3) as usize);
        if r.one_in(6) {
            places_pair[r.below(2) as usize] = r.below(places as u64 + 1) as usize;
            counts[r.below(5) as usize] = r.below(b as u64 + 1) as usize;
            pair[r.below(2) as usize] = r.below(k as u64 + 1) as usize;
        }
        self.inverse_list(r, list, pair);
        // Numbers of its own, so that the other calls are handed those that they were handed before there were folds.
        self.fold(&mut Random::new(k as u64), list, pair);
        self.next_list(r, list, places_pair);
        let tables = self.balance(r, list, d, counts);
        assert!(*list == before, "the list stays");
        tables
    }

    /// Every export on tables but questions, at one interval and place.
    fn on_tables(&mut self, n: u32, t: &Tables, x: u32, i: u32, m: u32) {
        self.find(n, t, i);
        self.step(n, t, x, i);
        self.steps(n, t, x, i, m);
        self.inverse(n, t, i);
        self.weight(n, t, x);
        self.starts_under(n, t, x);
    }

    /// Every export on tables, at places in their intervals and at any numbers.
    fn on_tables_somewhere(&mut self, r: &mut Random, n: u32, t: &Tables, count: usize) {
        let before = t.clone();
        for _ in 0..count {
            let (mut x, mut i) = somewhere(r, n, t);
            if r.one_in(10) {
                i = damaged(r, i, n);
            }
            if r.one_in(20) {
                x = r.word();
            }
            let m = r.below(40) as u32;
            self.on_tables(n, t, x, i, m);
        }
        let places = places(r, n, t, 2 * count);
        self.questions(r, n, t, &places);
        assert!(*t == before, "the tables stay");
    }

    fn with(mut self, other: Given) -> Given {
        self.check.add_all(other.check);
        self.balance.add_all(other.balance);
        self.fewer_than_intervals += other.fewer_than_intervals;
        self.forecast.add_all(other.forecast);
        self.least_degree.add_all(other.least_degree);
        self.inverse_list.add_all(other.inverse_list);
        self.fold.add_all(other.fold);
        self.next_list.add_all(other.next_list);
        self.find.add_all(other.find);
        self.step.add_all(other.step);
        self.length_before_place += other.length_before_place;
        self.length_before_fall += other.length_before_fall;
        self.into_wrong_length += other.into_wrong_length;
        self.steps.add_all(other.steps);
        self.length_on_the_way += other.length_on_the_way;
        self.inverse.add_all(other.inverse);
        self.weight.add_all(other.weight);
        self.starts_under.add_all(other.starts_under);
        self.under_the_end += other.under_the_end;
        self.questions.add_all(other.questions);
        self
    }

    /// Each export with the numbers that it can give, and how often each of them is given at least. A list of too many
    /// runs is long, and comes once.
    fn all(&self) -> [(&'static str, &Numbers, &'static [u32], u32); 14] {
        [
            ("check", &self.check, &[0, 1, 2, 3, 4, 5, 6], 1),
            ("balance", &self.balance, &[0, 1, 2, 3, 4, 5, 6, 7, 8], 1),
            ("forecast", &self.forecast, &[0, 1, 2, 3, 4, 5, 6, 7, 8], 1),
            ("least_degree", &self.least_degree, &[0, 1, 2, 3, 4, 5, 6, 8, 19], 1),
            ("inverse_list", &self.inverse_list, &[0, 1, 2, 3, 4, 5, 6, 8], 1),
            ("fold", &self.fold, &[0, 1, 2, 3, 4, 5, 6, 8], 1),
            ("next_list", &self.next_list, &[0, 1, 2, 3, 4, 5, 6, 8, 17, 18], 1),
            ("find", &self.find, &[0, 9, 11, WRONG_LENGTH], 10_000),
            ("move", &self.step, &[0, 9, 10, 11, 12, WRONG_LENGTH], 10_000),
            ("moves", &self.steps, &[0, 9, 10, 11, 12, WRONG_LENGTH], 10_000),
            ("inverse", &self.inverse, &[0, 9, 11, 14, WRONG_LENGTH], 10_000),
            ("weight", &self.weight, &[0, 9, 10, 12, WRONG_LENGTH], 10_000),
            ("starts_under", &self.starts_under, &[0, 9, 10, 12, WRONG_LENGTH], 10_000),
            ("questions", &self.questions, &[0, 9, 11, 12, 16, WRONG_LENGTH], 10_000),
        ]
    }
}

/// Find and a move, done alone, give what the record was filled with.
fn agrees_alone(n: u32, t: &Tables, record: &Question) {
    let Question { place, interval, to_place, to_interval, count, distance } = *record;
    let [s, i, h, l] = t.columns();
    assert_eq!(zibewoka::find(n, s, i, h, l, place), Ok(interval));
    let step = Step { place: to_place, interval: to_interval, distance, count: u64::from(count) };
    assert_eq!(zibewoka::move_once(n, s, i, h, l, interval, place), Ok(step));
}

/// Entries for a least degree: near the count of runs, near that of intervals, between both ends of what cuts may add, or any.
fn entries(r: &mut Random, k: usize, size: usize) -> u32 {
    match r.below(4) {
        0 => r.word(),
        1 => (k - r.below(2) as usize) as u32,
        2 => (size - r.below(2) as usize) as u32,
        _ => r.from(k as u64, 2 * k as u64) as u32,
    }
}

/// An interval, or the index after the last, and a place from its start to its end.
pub fn somewhere(r: &mut Random, n: u32, t: &Tables) -> (u32, u32) {
    let x = r.below(t.starts.len() as u64 + 1) as u32;
    let start = t.starts.get(x as usize).copied().unwrap_or(0);
    let end = t.starts.get(x as usize + 1).copied().unwrap_or(n);
    (x, start.wrapping_add(r.below(u64::from(end.wrapping_sub(start)) + 1) as u32))
}

/// Places for questions, up to so many and some of them twice: mostly all within the tables, mostly in rising order.
fn places(r: &mut Random, n: u32, t: &Tables, most: usize) -> Vec<u32> {
    let count = r.below(most as u64 + 1);
    let mut places: Vec<u32> = (0..count).map(|_| somewhere(r, n, t).1).collect();
    let first = t.starts.first().copied().unwrap_or(0);
    if first < n && !r.one_in(4) {
        places.retain(|place| (first..n).contains(place));
    }
    let twice = r.below(places.len() as u64 + 1) as usize;
    places.extend_from_within(..twice);
    if r.one_in(8) {
        places.push(damaged(r, n, n));
    }
    places.sort();
    if r.one_in(8) {
        r.shuffle(&mut places);
    }
    let at = r.below(places.len() as u64 + 1) as usize;
    if let Some(place) = places.get_mut(at).filter(|_| r.one_in(8)) {
        *place = damaged(r, *place, n);
    }
    places
}

/// Ends minus starts in 32 bits: the right lengths where starts rise and stay below n, and wrapped ones, which are wrong,
/// elsewhere.
fn wrapped_lengths(n: u32, starts: &[u32]) -> Vec<u32> {
    let ends = starts.iter().skip(1).chain([&n]);
    starts.iter().zip(ends).map(|(start, end)| end.wrapping_sub(*start)).collect()
}

fn damage_length(r: &mut Random, n: u32, length: &mut u32) {
    *length = if r.one_in(4) { 0 } else { damaged(r, *length, n) };
}

/// A table entry, a count or n becomes something else. Where it is n or a start, the lengths stay or follow it.
pub fn damage_tables(r: &mut Random, n: &mut u32, t: &mut Tables) {
    let x = r.below(t.starts.len() as u64) as usize;
    match r.below(16) {
        0 => drop(t.holders.pop()),
        1 => t.images.push(0),
        2 => drop(t.lengths.pop()),
        3..=6 => {
            match r.below(4) {
                0 => *n = damaged(r, *n, *n),
                _ => t.starts[x] = damaged(r, t.starts[x], *n),
            }
            if r.one_in(2) {
                t.lengths = wrapped_lengths(*n, &t.starts);
            }
        }
        7..=9 => t.images[x] = damaged(r, t.images[x], *n),
        10..=12 => t.holders[x] = damaged(r, t.holders[x], t.starts.len() as u32),
        _ => damage_length(r, *n, &mut t.lengths[x]),
    }
}

/// Numbers that mean nothing, small enough at times that some calls come through: any numbers, or all below the limit.
fn senseless_column(r: &mut Random, k: usize, limit: u64) -> Vec<u32> {
    let any = r.one_in(3);
    (0..k).map(|_| if any { r.word() } else { r.below(limit) as u32 }).collect()
}

/// Tables of such numbers. In half of them the starts rise, and in most the lengths go with the starts; where they do not, nothing
/// that tests all lengths comes through.
pub fn senseless(r: &mut Random) -> (u32, Tables) {
    let n = if r.one_in(2) { r.word() } else { r.below(100) as u32 };
    let limit = u64::from(n) + 1;
    let most = r.below(40) as usize;
    let mut starts = senseless_column(r, most, limit);
    if r.one_in(2) {
        starts.sort();
        starts.dedup();
    }
    let k = starts.len();
    let images = senseless_column(r, k, limit);
    let holders = senseless_column(r, k, k as u64 + 1);
    let lengths = if r.one_in(4) { senseless_column(r, k, limit) } else { wrapped_lengths(n, &starts) };
    (n, Tables { starts, images, holders, lengths })
}

/// A move, and up to two of them, that reach an interval of a wrong length from one whose length is right, or from that one itself.
fn try_into_wrong_length(given: &mut Given, r: &mut Random, n: u32, sound: &Tables) {
    let (x, i) = somewhere(r, n, sound);
    if let Ok(reached) = second::step(n, sound, x, i) {
        let mut t = sound.clone();
        damage_length(r, n, &mut t.lengths[reached.interval as usize]);
        for m in 0..3 {
            given.on_tables(n, &t, x, i, m);
        }
    }
}

/// The degrees, and some that are none.
fn degree(r: &mut Random) -> u32 {
    match r.below(12) {
        0 => r.word(),
        1 => 65,
        2..=5 => 2,
        6..=8 => 3,
        _ => r.from(2, 64) as u32,
    }
}

/// Every export on a list, sound and damaged, and on its tables, sound and damaged.
fn try_list(given: &mut Given, r: &mut Random, k: usize, questions: usize) {
    let list = legal(r, k);
    let d = degree(r);
    // For a least degree the second program balances at each in turn, which takes long on a long list.
    let sized = k <= 40 || r.one_in(4);
    let plain = second::tables(list.n, &list.starts, &list.images);
    given.on_tables_somewhere(r, list.n, &plain, questions);
    if let Some(balanced) = given.on_list(r, &list, d, sized) {
        given.on_tables_somewhere(r, list.n, &balanced, questions);
        try_into_wrong_length(given, r, list.n, &balanced);
        let (mut n, mut tables) = (list.n, balanced);
        damage_tables(r, &mut n, &mut tables);
        given.on_tables_somewhere(r, n, &tables, questions);
    }
    let mut worse = list;
    damage(r, &mut worse);
    let d = degree(r);
    given.on_list(r, &worse, d, sized);
}

fn short_lists(given: &mut Given, r: &mut Random) {
    for _ in 0..100_000 {
        let k = r.from(1, 40) as usize;
        try_list(given, r, k, 5);
    }
}

fn longer_lists(given: &mut Given, r: &mut Random) {
    for _ in 0..1500 {
        let k = r.from(500, 2000) as usize;
        try_list(given, r, k, 50);
    }
}

fn senseless_tables(given: &mut Given, r: &mut Random) {
    for _ in 0..400_000 {
        let (n, tables) = senseless(r);
        given.on_tables_somewhere(r, n, &tables, 5);
    }
}

/// Each part on a thread of its own, with its own random numbers; what they gave, all together.
fn side_by_side(parts: [fn(&mut Given, &mut Random); 4]) -> Given {
    std::thread::scope(|scope| {
        let begin = |(part, seed): (fn(&mut Given, &mut Random), u64)| {
            scope.spawn(move || {
                let mut given = Given::default();
                part(&mut given, &mut Random::new(seed));
                given
            })
        };
        let running: Vec<_> = parts.into_iter().zip(10..).map(begin).collect();
        running.into_iter().map(|part| part.join().expect("the part passes")).fold(Given::default(), Given::with)
    })
}

#[test]
fn random_lists_and_tables() {
    let given = side_by_side([short_lists, longer_lists, senseless_tables, longest_lists]);
    for (export, numbers, possible, often) in given.all() {
        assert!(numbers.0.keys().eq(possible), "{export} gave {numbers:?}");
        assert!(numbers.0.values().all(|&times| times >= often), "{export} gave {numbers:?}");
    }
    assert!(given.fewer_than_intervals >= 1000, "balance gave 8 with K");
    assert!(given.under_the_end >= 1000, "no start under an image at the table's end");
    let telling =
        [given.length_before_place, given.length_before_fall, given.into_wrong_length, given.length_on_the_way];
    for times in telling {
        assert!(times >= 10_000, "wrong lengths where they matter most");
    }
}

/// Lists of 16,384 runs and one more, and tables of 32,768 intervals and one more.
fn longest_lists(given: &mut Given, r: &mut Random) {
    for k in [16384, 16385] {
        let order: Vec<usize> = (0..k).rev().collect();
        let list = list_of(&vec![3; k], &order);
        given.on_list(r, &list, 2, true);
    }
    for k in [32768, 32769] {
        let entries: Vec<u32> = (0..k).collect();
        let lengths = wrapped_lengths(k, &entries);
        let tables = Tables { starts: entries.clone(), images: entries.clone(), holders: entries, lengths };
        given.on_tables(k, &tables, k - 1, k - 1, 3);
        given.questions(r, k, &tables, &tables.starts);
    }
}

/// A list's balanced tables: starts, images, holders, lengths. They are lent with as many entries as forecast.
fn tables_at(list: &List, d: u32) -> Result<[Vec<u32>; 4], Refusal> {
    let List { n, starts, images } = list;
    let mut w = vec![0; second::bound(d, starts.len())];
    let size = zibewoka::forecast(*n, starts, images, d, &mut w)?;
    let [mut s, mut i, mut h, mut l] = [0; 4].map(|_| vec![0; size.intervals as usize]);
    zibewoka::balance(*n, starts, images, d, &mut s, &mut i, &mut h, &mut l, &mut w)?;
    Ok([s, i, h, l])
}

/// The keys of document 01 that an export can answer.
#[test]
fn known_keys() {
    let list = |n: u32, starts: &[u32], images: &[u32]| List { n, starts: starts.to_vec(), images: images.to_vec() };
    let listing = list(16, &[0, 2, 4, 6, 8], &[14, 12, 10, 8, 0]);
    let [s, i, h, l] = tables_at(&listing, 2).expect("legal");
    assert_eq!((&s[..], &i[..]), (&[0, 2, 4, 6, 8, 12][..], &[14, 12, 10, 8, 0, 4][..]));
    assert_eq!((&h[..], &l[..]), (&[5, 5, 4, 4, 0, 2][..], &[2, 2, 2, 2, 4, 4][..]));
    assert_eq!(
        (0..6).map(|x| zibewoka::weight(16, &s, &i, &h, &l, x).expect("whole")).collect::<Vec<_>>(),
        [0, 1, 0, 1, 2, 2]
    );
    let under = |x| {
        let UnderAnswer { number, place, first, count } = exports::starts_under(16, &s, &i, &h, &l, x);
        (number, place, &s[first as usize..(first + count) as usize])
    };
    let stretches: [&[u32]; 6] = [&[], &[12], &[], &[8], &[0, 2], &[4, 6]];
    assert_eq!([0, 1, 2, 3, 4, 5].map(under), stretches.map(|stretch| (0, 0, stretch)));
    assert_eq!(under(6), (10, 6, &[][..]));
    let step = |place, interval, distance, count| Ok(Step { place, interval, distance, count });
    assert_eq!(zibewoka::move_once(16, &s, &i, &h, &l, 4, 11), step(3, 1, 1, 2));
    assert_eq!(zibewoka::moves(16, &s, &i, &h, &l, 4, 11, 0), step(11, 4, 3, 0));
    let from_zero = [step(14, 5, 2, 0), step(6, 3, 0, 2), step(8, 4, 0, 3), step(0, 0, 0, 4)];
    assert_eq!([1, 2, 3, 4].map(|m| zibewoka::moves(16, &s, &i, &h, &l, 0, 0, m)), from_zero);
    assert_eq!(zibewoka::moves(16, &s, &i, &h, &l, 4, 11, 4), step(11, 4, 3, 4));
    assert_eq!(zibewoka::inverse(16, &s, &i, &h, &l, 9), Ok(zibewoka::Position { place: 7, interval: 3 }));
    let [mut s, mut i, mut h, mut l, mut w] = [0; 5].map(|_| vec![0; 9]);
    let short = zibewoka::balance(16, &listing.starts, &listing.images, 2, &mut s, &mut i, &mut h, &mut l, &mut w);
    assert_eq!(short, Err(Refusal::ShortTable { table: Working, entries: 9, needed: 10 }));

    let light = list(12, &[0, 2, 4, 6], &[10, 8, 6, 0]);
    assert_eq!(tables_at(&light, 2).expect("legal")[0], light.starts);
    let most = list(15, &[0, 3, 5, 7, 8], &[8, 11, 13, 0, 1]);
    let [s, i, h, l] = tables_at(&most, 2).expect("legal");
    assert_eq!(s, most.starts);
    assert_eq!(zibewoka::move_once(15, &s, &i, &h, &l, 4, 14), step(7, 3, 0, 4));
    assert_eq!(tables_at(&list(1, &[0], &[0]), 2).expect("legal")[0].len(), 1);
    assert_eq!(zibewoka::check(4, &[0, 2], &[2, 0]), Ok(()));
    assert_eq!(zibewoka::check(4, &[0, 2], &[0, 1]), Err(Refusal::ImageOverlap { run: 0, other: 1, shared: 1 }));
    assert_eq!(zibewoka::check(4, &[0, 2], &[0, 3]), Err(Refusal::ImageRange { run: 1, image: 3, end: 5, n: 4 }));
    assert_eq!(zibewoka::check(u32::MAX, &[0, u32::MAX - 1], &[1, 0]), Ok(()));
    let psi =
        list(45, &[0, 1, 5, 6, 12, 17, 19, 22, 25, 32, 34, 42, 43], &[11, 28, 2, 22, 32, 38, 42, 12, 15, 0, 3, 37, 40]);
    let [s, i, h, l] = tables_at(&psi, 2).expect("legal");
    assert_eq!(s, psi.starts);
    assert_eq!(zibewoka::moves(45, &s, &i, &h, &l, 4, 15, 0), step(15, 4, 3, 0));
    assert_eq!(zibewoka::move_once(45, &s, &i, &h, &l, 4, 15), step(35, 10, 1, 2));
    assert_eq!(zibewoka::move_once(45, &s, &i, &h, &l, 6, 20), step(43, 12, 0, 1));
}

/// The balanced tables, at degree 2, of document 01's list; n is 16.
fn listing() -> Tables {
    Tables {
        starts: vec![0, 2, 4, 6, 8, 12],
        images: vec![14, 12, 10, 8, 0, 4],
        holders: vec![5, 5, 4, 4, 0, 2],
        lengths: vec![2, 2, 2, 2, 4, 4],
    }
}

/// Tables with n 16 whose starts fall once; the length there is what 32 bits make of the difference.
fn falling() -> Tables {
    let starts = vec![0, 9, 4, 12];
    Tables { images: starts.clone(), starts, holders: vec![0, 1, 0, 3], lengths: vec![9, 4_294_967_291, 8, 4] }
}

#[test]
fn known_lengths() {
    let refused = |number, place| (number, place);
    let step = |place, interval, distance, count| Ok(Step { place, interval, distance, count });

    let mut longer = listing();
    longer.lengths[4] = 5;
    let [s, i, h, l] = longer.columns();
    assert_eq!([11, 99].map(|place| numbers(zibewoka::find(16, s, i, h, l, place))), [Err(refused(12, 4)); 2]);
    assert_eq!([9, 99].map(|place| numbers(zibewoka::inverse(16, s, i, h, l, place))), [Err(refused(12, 4)); 2]);
    assert_eq!([11, 99].map(|place| numbers(zibewoka::move_once(16, s, i, h, l, 4, place))), [Err(refused(12, 4)); 2]);
    assert_eq!([0, 1].map(|m| numbers(zibewoka::moves(16, s, i, h, l, 4, 11, m))), [Err(refused(12, 4)); 2]);
    assert_eq!([3, 4].map(|x| numbers(zibewoka::weight(16, s, i, h, l, x))), [Ok(1), Err(refused(12, 4))]);
    let under =
        [(0, 0, 4, 1), (12, 4, 0, 0)].map(|(number, place, first, count)| UnderAnswer { number, place, first, count });
    assert_eq!([3, 4].map(|x| exports::starts_under(16, s, i, h, l, x)), under);
    assert_eq!(numbers(zibewoka::move_once(16, s, i, h, l, 3, 7)), step(9, 4, 1, 1));
    assert_eq!(numbers(zibewoka::move_once(16, s, i, h, l, 3, 8)), Err(refused(11, 8)));
    assert_eq!(numbers(zibewoka::move_once(16, s, i, h, l, 6, 8)), Err(refused(10, 6)));
    assert_eq!(numbers(zibewoka::moves(16, s, i, h, l, 5, 14, 2)), step(8, 4, 0, 3));
    assert_eq!(numbers(zibewoka::moves(16, s, i, h, l, 5, 14, 3)), Err(refused(12, 4)));

    let mut twice = longer.clone();
    twice.lengths[1] = 0;
    assert_eq!(numbers(zibewoka::find(16, s, i, h, &twice.lengths, 11)), Err(refused(12, 1)));
    assert_eq!(numbers(zibewoka::moves(16, s, i, h, &twice.lengths, 5, 14, 2)), step(8, 4, 0, 3));

    let short = &l[..5];
    assert_eq!(numbers(zibewoka::find(16, s, i, h, short, 11)), Err(refused(9, 0)));
    assert_eq!(numbers(zibewoka::inverse(16, s, i, h, short, 9)), Err(refused(9, 0)));
    assert_eq!(numbers(zibewoka::move_once(16, s, i, h, short, 3, 7)), Err(refused(9, 0)));
    assert_eq!(numbers(zibewoka::moves(16, s, i, h, short, 3, 7, 0)), Err(refused(9, 0)));
    assert_eq!(numbers(zibewoka::weight(16, s, i, h, short, 3)), Err(refused(9, 0)));
    assert_eq!(numbers(zibewoka::questions(16, s, i, h, short, &mut [])), Err(refused(9, 0)));

    let falling = falling();
    let [s, i, h, l] = falling.columns();
    assert_eq!(numbers(zibewoka::move_once(16, s, i, h, l, 1, 9)), Err(refused(12, 1)));
    assert_eq!(numbers(zibewoka::move_once(16, s, i, h, l, 2, 9)), step(9, 2, 5, 3));
    assert_eq!(numbers(zibewoka::find(16, s, i, h, l, 9)), Err(refused(12, 1)));
}

/// What questions at these places, on tables with n 16, come to. A refusal leaves the records as they were.
fn answered(t: &Tables, places: &[u32]) -> Outcome<(u32, Vec<Question>), u64> {
    let before: Vec<Question> = places.iter().map(|&place| question([place, 9, 9, 9, 9, 9])).collect();
    let mut records = before.clone();
    let [s, i, h, l] = t.columns();
    match numbers(zibewoka::questions(16, s, i, h, l, &mut records)) {
        Ok(count) => Ok((count, records)),
        Err(refusal) => {
            assert_eq!(records, before);
            Err(refusal)
        }
    }
}

#[test]
fn known_questions() {
    let refused = |number, place| Err((number, place));
    let done = |count, records: &[second::Record]| Ok((count, records.iter().copied().map(question).collect()));
    let records =
        [[0, 0, 14, 5, 0, 2], [3, 1, 13, 5, 0, 1], [3, 1, 13, 5, 0, 1], [11, 4, 3, 1, 2, 1], [15, 5, 7, 3, 2, 1]];
    assert_eq!(answered(&listing(), &[0, 3, 3, 11, 15]), done(5, &records));
    assert_eq!(answered(&listing(), &[]), done(0, &[]));
    assert_eq!(answered(&listing(), &[3, 2, 99]), refused(16, 1));
    assert_eq!(answered(&listing(), &[3, 16, 20]), refused(11, 16));

    let mut broken = listing();
    broken.holders[1] = 9;
    assert_eq!(answered(&broken, &[2, 3, 99]), refused(11, 99));
    assert_eq!(answered(&broken, &[0, 3, 4]), refused(12, 1));
    assert_eq!(
        answered(&broken, &[0, 1, 4]),
        done(2, &[[0, 0, 14, 5, 0, 2], [1, 0, 15, 5, 0, 3], [4, 2, 10, 4, 1, 2]])
    );

    let mut longer = listing();
    longer.lengths[4] = 5;
    for places in [&[0, 1][..], &[], &[3, 2, 99], &[3, 16, 20]] {
        assert_eq!(answered(&longer, places), refused(12, 4));
    }
    assert_eq!(answered(&falling(), &[0, 5, 9, 13]), refused(12, 1));
}

#[test]
fn weights_kept_from_cut_to_cut_are_those_of_the_list() {
    let r = &mut Random::new(2);
    for round in 0..20_000 {
        let k = if round % 100 == 0 { r.from(100, 200) } else { r.from(1, 40) } as usize;
        let List { n, starts, images } = legal(r, k);
        let d = if r.one_in(2) { 2 } else { r.from(2, 8) } as usize;
        let wanted = second::balanced_literally(n, &starts, &images, d);
        assert_eq!(second::balanced(n, &starts, &images, d), wanted);
    }
}

/// The lists of a permutation: a run must begin at each place whose image is not the next one, and may begin at others.
pub fn lists(permutation: &[u32]) -> Vec<List> {
    let n = permutation.len();
    let mut all = Vec::new();
    for chosen in 0..1 << (n - 1) {
        let begins = |p: usize| p == 0 || chosen >> (p - 1) & 1 == 1;
        if (1..n).any(|p| !begins(p) && permutation[p] != permutation[p - 1] + 1) {
            continue;
        }
        let starts: Vec<u32> = (0..n).filter(|&p| begins(p)).map(|p| p as u32).collect();
        let images = starts.iter().map(|&p| permutation[p as usize]).collect();
        all.push(List { n: n as u32, starts, images });
    }
    all
}

/// Of all lists of a permutation one has the fewest runs, and that is the second program's.
fn assert_fewest(all: &[List], permutation: &[u32]) {
    let fewest = all.iter().map(|list| list.starts.len()).min().expect("there is a run for each place");
    let mut short = all.iter().filter(|list| list.starts.len() == fewest);
    let list = short.next().expect("one has the fewest");
    assert!(short.next().is_none());
    assert_eq!((list.starts.clone(), list.images.clone()), second::fewest_runs(permutation));
}

#[test]
fn all_permutations_of_up_to_six_places() {
    let mut given = Given::default();
    let r = &mut Random::new(3);
    for permutation in (1..=6).flat_map(second::permutations) {
        let n = permutation.len() as u32;
        let all = lists(&permutation);
        assert_fewest(&all, &permutation);
        for (list, d) in all.into_iter().flat_map(|list| [(list.clone(), 2), (list, 3)]) {
            let k = list.starts.len();
            given.check(&list);
            given.inverse_list(r, &list, [k, k + 1]);
            let fold =
                given.fold(&mut Random::new(k as u64), &list, [k, k + 1]).expect("a permutation's list is legal");
            assert_eq!((fold.starts, fold.images), second::fewest_runs(&permutation));
            given.next_list(r, &list, [n as usize, n as usize + 1]);
            let b = second::bound(d, k);
            let literally = second::balanced_literally(n, &list.starts, &list.images, d as usize);
            let size = literally.0.len();
            assert_eq!(given.forecast(r, &list, d, b), Some(size as u32));
            given.least_degree(r, &list, size as u32 - 1, 2 * k);
            assert!(given.balance(r, &list, d, [size, size - 1, size, size, b]).is_none());
            assert!(given.balance(r, &list, d, [size, size, size, size - 1, b]).is_none());
            let lent = [size, size + 1, size, size, b];
            let tables = given.balance(r, &list, d, lent).expect("a permutation's list is legal");
            assert_eq!((&tables.starts, &tables.images), (&literally.0, &literally.1));
            every_place(&mut given, r, &permutation, &tables, d);
        }
    }
}

/// From the identity all lists of n places, one call after the other: each permutation once, in order, as its list of fewest
/// runs, up to the last, after which the call is refused.
#[test]
fn every_small_list() {
    let mut given = Given::default();
    let r = &mut Random::new(5);
    for n in 1..=7 {
        let mut all = second::permutations(n);
        all.sort();
        let mut list = Some(List { n, starts: vec![0], images: vec![0] });
        for permutation in all {
            let current = list.expect("one list for each permutation");
            assert_eq!((current.starts.clone(), current.images.clone()), second::fewest_runs(&permutation));
            list = given.next_list(r, &current, [n as usize; 2]);
        }
        assert!(list.is_none(), "none after the last");
    }
    assert_eq!(given.next_list.0, BTreeMap::from([(0, 5913 - 7), (18, 7)]));
}

/// What the next list comes to, with both tables of nines, of these counts.
fn next(n: u32, starts: &[u32], images: &[u32], counts: [usize; 2]) -> (Outcome<u32, u64>, Vec<u32>, Vec<u32>) {
    let [mut s, mut i] = counts.map(|count| vec![9; count]);
    (numbers(zibewoka::next_list(n, starts, images, &mut s, &mut i)), s, i)
}

#[test]
fn known_next_lists() {
    let refused = |number, place, counts: [usize; 2]| {
        let [s, i] = counts.map(|count| vec![9; count]);
        (Err((number, place)), s, i)
    };
    assert_eq!(next(3, &[0], &[0], [3, 3]), (Ok(3), vec![0, 1, 2], vec![0, 2, 1]));
    assert_eq!(next(3, &[0, 1, 2], &[0, 2, 1], [3, 3]), (Ok(3), vec![0, 1, 2], vec![1, 0, 2]));
    assert_eq!(next(3, &[0, 1, 2], &[1, 0, 2], [3, 3]), (Ok(2), vec![0, 2, 9], vec![1, 0, 9]));
    assert_eq!(next(3, &[0, 2], &[1, 0], [3, 3]), (Ok(2), vec![0, 1, 9], vec![2, 0, 9]));
    assert_eq!(next(3, &[0, 1], &[2, 0], [3, 3]), (Ok(3), vec![0, 1, 2], vec![2, 1, 0]));
    assert_eq!(next(3, &[0, 1, 2], &[2, 1, 0], [3, 3]), refused(18, 0, [3, 3]));
    assert_eq!(next(4, &[0, 1, 2, 3], &[0, 1, 2, 3], [4, 4]), (Ok(3), vec![0, 2, 3, 9], vec![0, 3, 2, 9]));
    assert_eq!(next(1, &[0], &[0], [1, 1]), refused(18, 0, [1, 1]));
    assert_eq!(next(8, &[0], &[0], [0, 0]), refused(17, 8, [0, 0]));
    assert_eq!(next(8, &[0, 2], &[0, 1], [0, 0]), refused(6, 0, [0, 0]));
    assert_eq!(next(2, &[0, 1], &[1, 0], [1, 2]), refused(8, 2, [1, 2]));
    assert_eq!(next(3, &[0, 1, 2, 3, 4, 5, 6, 7], &[0; 8], [3, 3]), refused(4, 3, [3, 3]));
}

/// Every export at every place and interval of a permutation's balanced tables, and the permutation itself.
fn every_place(given: &mut Given, r: &mut Random, permutation: &[u32], t: &Tables, d: u32) {
    let n = permutation.len() as u32;
    given.questions(r, n, t, &Vec::from_iter(0..n));
    for p in 0..=n {
        for x in 0..=t.starts.len() as u32 {
            given.on_tables(n, t, x, p, p);
        }
    }
    let [s, i, h, l] = t.columns();
    for p in 0..n {
        let x = zibewoka::find(n, s, i, h, l, p).expect("p is a place");
        let step = zibewoka::move_once(n, s, i, h, l, x, p).expect("x has p");
        assert_eq!(step.place, permutation[p as usize]);
        assert_eq!(step.place - step.distance, s[step.interval as usize]);
        assert!(step.distance < l[step.interval as usize]);
        assert_eq!(step.count, second::plain_count(t, x, step.place));
        assert!(step.count <= u64::from(2 * d));
        let back = zibewoka::inverse(n, s, i, h, l, step.place).expect("each place is an image");
        assert_eq!((back.place, back.interval), (p, x));
    }
}

/// Millions of moves one by one through balanced tables, each beside the list's function, then the same in one call.
#[test]
fn a_walk_of_millions_of_moves() {
    let r = &mut Random::new(4);
    for d in [2, 8, 64] {
        let m = 4_000_000;
        let list = legal(r, 2000);
        let List { n, starts, images } = &list;
        let [s, i, h, l] = &tables_at(&list, d).expect("a legal list");
        let first = r.below(u64::from(*n)) as u32;
        let first_interval = zibewoka::find(*n, s, i, h, l, first).expect("a place");
        let (mut place, mut interval, mut distance, mut count) = (first, first_interval, 0, 0);
        for _ in 0..m {
            let step = zibewoka::move_once(*n, s, i, h, l, interval, place).expect("the interval has the place");
            let run = starts.partition_point(|&start| start <= place) - 1;
            assert_eq!(step.place, images[run] + (place - starts[run]));
            assert!(step.count <= u64::from(2 * d));
            (place, interval, distance, count) = (step.place, step.interval, step.distance, count + step.count);
        }
        let whole = zibewoka::moves(*n, s, i, h, l, first_interval, first, m).expect("the same walk");
        assert_eq!(whole, Step { place, interval, distance, count });
        assert!(count <= u64::from(m) * u64::from(2 * d));
    }
}
