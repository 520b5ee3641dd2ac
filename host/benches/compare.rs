//! Exports beside a peer in safe Rust: the same lists, in one run. Prints tables of times and ratios.

mod folds;
mod peer;
#[path = "../tests/second/random.rs"]
#[allow(dead_code)] // the tests use more of it
mod random;
mod types;

use random::{list_of, List, Random};
use std::hint::black_box;
use std::time::{Duration, Instant};
use zibewoka::{Question, Refusal, Step};

/// Seconds of a call of the library and of its peer, each by the fastest of many rounds, turn by turn.
fn seconds<A, B>(mut library: impl FnMut() -> A, mut peer: impl FnMut() -> B) -> [f64; 2] {
    let calls = calls_in_a_round(&mut library);
    let mut fastest = [Duration::MAX; 2];
    for _ in 0..100 {
        fastest[0] = fastest[0].min(time(calls, &mut library));
        fastest[1] = fastest[1].min(time(calls, &mut peer));
    }
    fastest.map(|whole| whole.as_secs_f64() / f64::from(calls))
}

/// Seconds of each of several calls, by the fastest of so many rounds, turn by turn. Each makes as many calls in a round as it
/// needs itself, so that one may be far slower than another.
fn seconds_of<const N: usize>(rounds: u32, mut calls: [&mut dyn FnMut() -> bool; N]) -> [f64; N] {
    let counts = calls.each_mut().map(calls_in_a_round);
    let mut fastest = [Duration::MAX; N];
    for _ in 0..rounds {
        for ((fastest, call), &count) in fastest.iter_mut().zip(&mut calls).zip(&counts) {
            *fastest = time(count, call).min(*fastest);
        }
    }
    std::array::from_fn(|x| fastest[x].as_secs_f64() / f64::from(counts[x]))
}

/// How many calls take a millisecond, doubled until they do.
fn calls_in_a_round<T>(call: &mut impl FnMut() -> T) -> u32 {
    let mut calls = 1;
    while time(calls, call) < Duration::from_millis(1) {
        calls *= 2;
    }
    calls
}

fn time<T>(calls: u32, call: &mut impl FnMut() -> T) -> Duration {
    let begun = Instant::now();
    for _ in 0..calls {
        black_box(call());
    }
    begun.elapsed()
}

const SHAPES: [&str; 3] = ["shuffled", "reversed", "cuts"];

/// A list of k runs, by the order of their images; they have about 1,000 places each, in "tiny" 1 to 3, so that half of the
/// places are starts. "cuts" has three runs as long as all the others together: the image of the first lies over the others'
/// starts, and that of each next over the one before it, which is cut.
fn list(r: &mut Random, shape: &str, k: usize) -> List {
    let (least, most) = if shape == "tiny" { (1, 3) } else { (500, 1500) };
    let mut lengths: Vec<u64> = (0..k).map(|_| r.from(least, most)).collect();
    let mut order: Vec<usize> = (0..k).collect();
    match shape {
        "shuffled" | "tiny" => r.shuffle(&mut order),
        "reversed" => order.reverse(),
        _ => {
            let whole = lengths[..k - 3].iter().sum();
            lengths[k - 3..].fill(whole);
            r.shuffle(&mut order[..k - 3]);
            order.rotate_right(3);
        }
    }
    list_of(&lengths, &order)
}

fn library_step<C: Into<u64>>(peer::Step { place, interval, distance, count }: peer::Step<C>) -> Step {
    Step { place, interval, distance, count: count.into() }
}

/// These lengths, but that of x: it is too long by one, or 0.
fn wrong_lengths(lengths: &[u32], x: usize) -> [Vec<u32>; 2] {
    [lengths[x] + 1, 0].map(|length| [&lengths[..x], &[length], &lengths[x + 1..]].concat())
}

/// The peer finds as the library does: these places, the first one and one that there is not; also with no places at all, with too
/// few lengths and with a wrong one.
fn assert_found_alike(n: u32, [s, i, h, l]: [&[u32]; 4], places: &[u32]) {
    let [longer, none] = &wrong_lengths(l, l.len() / 2);
    for (n, l) in [(n, l), (0, l), (n, &l[1..]), (n, longer), (n, none)] {
        for &place in places.iter().chain([&0, &n]) {
            assert_eq!(outcome(zibewoka::find(n, s, i, h, l, place)), peer::find(n, s, i, h, l, place));
        }
    }
}

/// The peer moves as the library does, once and up to m times, also from or into an interval of a wrong length.
fn assert_moved_alike(n: u32, [s, i, h, l]: [&[u32]; 4], x: u32, place: u32, m: u32) {
    let y = zibewoka::move_once(n, s, i, h, l, x, place).expect("a move").interval;
    let wrong = [x, y].map(|interval| wrong_lengths(l, interval as usize)).concat();
    let lengths = wrong.iter().map(|wrong| &wrong[..]).chain([l]);
    for (l, place) in lengths.flat_map(|l| [(l, place), (l, n)]) {
        let once = peer::move_once(n, s, i, h, l, x, place).map(library_step);
        assert_eq!(outcome(zibewoka::move_once(n, s, i, h, l, x, place)), once);
        for m in [0, 1, 2, m] {
            let often = peer::moves(n, s, i, h, l, x, place, m).map(library_step);
            assert_eq!(outcome(zibewoka::moves(n, s, i, h, l, x, place, m)), often);
        }
    }
}

/// B, how many entries the working table has.
fn bound(d: u32, k: usize) -> usize {
    d as usize * k / (d as usize - 1)
}

/// K, how many entries the tables have.
fn intervals(List { n, starts, images }: &List, d: u32) -> usize {
    let mut working = vec![0; bound(d, starts.len())];
    zibewoka::forecast(*n, starts, images, d, &mut working).expect("legal").intervals as usize
}

/// Starts, images, holders and lengths of the list as it is balanced.
fn tables(list: &List, d: u32) -> [Vec<u32>; 4] {
    let size = intervals(list, d);
    let List { n, starts, images } = list;
    let [mut s, mut i, mut h, mut l] = [0; 4].map(|_| vec![0; size]);
    let mut w = vec![0; bound(d, starts.len())];
    zibewoka::balance(*n, starts, images, d, &mut s, &mut i, &mut h, &mut l, &mut w).expect("tables of K entries");
    [s, i, h, l]
}

/// What a call comes to, as the peer says it.
fn outcome<T>(result: Result<T, Refusal>) -> peer::Outcome<T> {
    result.map_err(|refusal| (refusal.number(), refusal.place() as u32))
}

/// How many lists of a line are checked in turn: one alone would teach the processor where the jumps of a short sort go.
const LISTS: usize = 16;

/// A call's time in a unit, and its ratio to the peer's.
fn cell(unit: f64, [library, peer]: [f64; 2]) -> String {
    format!("{:.1} | {:.2}", library * unit, library / peer)
}

/// The places that are found in a call.
fn places_below(r: &mut Random, n: u32) -> Vec<u32> {
    (0..64).map(|_| r.below(u64::from(n)) as u32).collect()
}

/// How many moves a walk makes in a call.
const MOVES: u32 = 10_000;

/// The cells of find, a move and repeated moves. The closures own the slices, as a caller's loop does: behind a reference they would be
/// read again for each call, on both sides.
fn walk_cells(r: &mut Random, n: u32, columns: [&[u32]; 4]) -> [String; 3] {
    let [s, i, h, l] = columns;
    let places = &places_below(r, n);
    assert_found_alike(n, columns, places);
    let find = seconds(
        move || places.iter().map(|&p| zibewoka::find(n, s, i, h, l, p).expect("a place")).sum::<u32>(),
        move || places.iter().map(|&p| peer::find(n, s, i, h, l, p).expect("a place")).sum::<u32>(),
    );

    let first = places[0];
    let interval = zibewoka::find(n, s, i, h, l, first).expect("a place");
    assert_moved_alike(n, columns, interval, first, MOVES);
    let once = seconds(
        move || {
            (0..MOVES).fold((first, interval), |(place, interval), _| {
                let step = zibewoka::move_once(n, s, i, h, l, interval, place).expect("a move");
                (step.place, step.interval)
            })
        },
        move || {
            (0..MOVES).fold((first, interval), |(place, interval), _| {
                let step = peer::move_once(n, s, i, h, l, interval, place).expect("a move");
                (step.place, step.interval)
            })
        },
    );
    let repeated = seconds(
        move || zibewoka::moves(n, s, i, h, l, interval, first, MOVES),
        move || peer::moves(n, s, i, h, l, interval, first, MOVES),
    );
    let per_move = 1e9 / f64::from(MOVES);
    [cell(1e9 / places.len() as f64, find), cell(per_move, once), cell(per_move, repeated)]
}

/// One line of the table: for each call the library's time and its ratio to the peer's.
fn line(r: &mut Random, shape: &str, k: usize, d: u32) -> String {
    let lists: Vec<List> = (0..LISTS).map(|_| list(r, shape, k)).collect();
    let List { n, starts, images } = &lists[0];
    let n = *n;

    let check = seconds(
        || lists.iter().filter(|l| zibewoka::check(l.n, &l.starts, &l.images).is_ok()).count(),
        || lists.iter().filter(|l| peer::check(l.n, &l.starts, &l.images).is_ok()).count(),
    );

    let size = intervals(&lists[0], d);
    let mut lent = [0; 4].map(|_| vec![0; size]);
    let mut peer_lent = lent.clone();
    let [mut w, mut peer_w] = [0; 2].map(|_| vec![0; bound(d, k)]);
    let [s, i, h, l] = &mut lent;
    let [peer_s, peer_i, peer_h, peer_l] = &mut peer_lent;
    let balance = seconds(
        || zibewoka::balance(n, starts, images, d, s, i, h, l, &mut w),
        || peer::balance(n, starts, images, d, peer_s, peer_i, peer_h, peer_l, &mut peer_w),
    );
    assert!(lent == peer_lent && w == peer_w, "the peer balances alike");

    let [find, once, repeated] = walk_cells(r, n, lent.each_ref().map(|column| &column[..]));
    let [check, balance] = [cell(1e6 / LISTS as f64, check), cell(1e6, balance)];
    format!("| {shape} | {k} | {d} | {size} | {check} | {balance} | {find} | {once} | {repeated} |")
}

/// The most intervals that tables may have, twice as many as a list may have runs.
const MOST_INTERVALS: usize = 32768;

/// Which lists are walked through in such tables.
const LONGEST_SHAPES: [&str; 3] = ["tiny", "shuffled", "reversed"];

/// n and tables of that many intervals: those of a list of so many runs, whose images lie over few starts as they are.
fn longest_tables(r: &mut Random, shape: &str) -> (u32, [Vec<u32>; 4]) {
    let List { n, starts, images } = list(r, shape, MOST_INTERVALS);
    let holders: Vec<u32> =
        images.iter().map(|&image| starts.partition_point(|&start| start <= image) as u32 - 1).collect();
    let lengths: Vec<u32> = starts.iter().zip(starts[1..].iter().chain([&n])).map(|(start, end)| end - start).collect();
    (n, [starts, images, holders, lengths])
}

/// One line of the table of the longest tables.
fn longest_line(r: &mut Random, shape: &str) -> String {
    let (n, tables) = longest_tables(r, shape);
    let [find, once, repeated] = walk_cells(r, n, tables.each_ref().map(Vec::as_slice));
    format!("| {shape} | {MOST_INTERVALS} | {find} | {once} | {repeated} |")
}

/// A search by the starts alone finds the interval that find finds, and a walk of searches ends where repeated moves end.
fn assert_searched_alike(n: u32, [s, i, h, l]: [&[u32]; 4], places: &[u32]) {
    for &place in places {
        let interval = peer::search(s, place);
        assert_eq!(zibewoka::find(n, s, i, h, l, place), Ok(interval));
        for m in [0, 1, 2, MOVES] {
            let step = zibewoka::moves(n, s, i, h, l, interval, place, m).expect("moves");
            assert_eq!(step.place, peer::searched_moves(s, i, place, m));
        }
    }
}

/// One line of the table of walks without a move table, for the tables of a list of k runs: for find and for repeated moves the
/// library's time, that of the searches, and the ratio. Each makes as many calls as it needs, since find may be hundreds of times
/// as slow as a search.
fn searched_line(r: &mut Random, shape: &str, k: usize, n: u32, tables: [Vec<u32>; 4]) -> String {
    let [s, i, h, l] = tables.each_ref().map(Vec::as_slice);
    let places = &places_below(r, n);
    assert_searched_alike(n, [s, i, h, l], places);
    let first = places[0];
    let interval = peer::search(s, first);
    let [find, search, moves, searches] = seconds_of(
        100,
        [
            &mut move || places.iter().map(|&p| zibewoka::find(n, s, i, h, l, p).expect("a place")).sum::<u32>() > 0,
            &mut move || places.iter().map(|&p| peer::search(s, p)).sum::<u32>() > 0,
            &mut move || zibewoka::moves(n, s, i, h, l, interval, first, MOVES).expect("moves").place > 0,
            &mut move || peer::searched_moves(s, i, first, MOVES) > 0,
        ],
    );
    let [find, search] = [find, search].map(|whole| whole * 1e9 / places.len() as f64);
    let [moves, searches] = [moves, searches].map(|whole| whole * 1e9 / f64::from(MOVES));
    format!(
        "| {shape} | {k} | {} | {find:.1} | {search:.1} | {:.2} | {moves:.1} | {searches:.1} | {:.2} |",
        s.len(),
        find / search,
        moves / searches
    )
}

/// How many questions a line asks, k in a call: one call alone would teach the processor its jumps, as one list would.
const QUESTIONS: usize = 16384;

/// One of so many questions is also answered by find and move alone, since all of them would take long. The number is odd,
/// so that they stand everywhere in their calls.
const APART: usize = 61;

/// Questions at random places, each k of them in rising order.
fn questions(r: &mut Random, n: u32, k: usize) -> Vec<Question> {
    let mut places: Vec<u32> = (0..QUESTIONS).map(|_| r.below(u64::from(n)) as u32).collect();
    places.chunks_mut(k).for_each(|call| call.sort_unstable());
    places.into_iter().map(|place| Question { place, ..Question::default() }).collect()
}

/// The peer refuses as the library does: no places at all, a wrong length, places that fall, a place beyond n, intervals without a
/// holder.
fn assert_refused_alike(n: u32, [s, i, h, l]: [&[u32]; 4], asked: &[Question]) {
    let falling: Vec<Question> = asked.iter().rev().copied().collect();
    let beyond: Vec<Question> = asked.iter().map(|q| Question { place: q.place + n, ..*q }).collect();
    let broken = vec![u32::MAX; h.len()];
    let [longer, none] = &wrong_lengths(l, l.len() / 2);
    for (number, n, h, l, asked) in [
        (9, 0, h, l, asked),
        (12, n, h, longer, &falling),
        (12, n, h, none, asked),
        (16, n, h, l, &falling),
        (11, n, h, l, &beyond),
        (12, n, &broken, l, asked),
    ] {
        let [mut records, mut peer_records] = [asked.to_vec(), asked.to_vec()];
        let refused = zibewoka::questions(n, s, i, h, l, &mut records).expect_err("damaged");
        assert_eq!(refused.number(), number);
        assert_eq!(peer::questions(n, s, i, h, l, &mut peer_records), Err((number, refused.place())));
        assert!(records == asked && peer_records == asked, "a refusal fills no record");
    }
}

/// One line of the table of questions: the library's time, its ratio to the peer's, and that to find and move one by one.
fn questions_line(r: &mut Random, shape: &str, k: usize, d: u32) -> String {
    let list = list(r, shape, k);
    let n = list.n;
    let [s, i, h, l] = &tables(&list, d);
    let size = s.len();

    let mut asked = questions(r, n, k);
    let mut peer_asked = asked.clone();
    assert_refused_alike(n, [s, i, h, l], &asked[..k]);
    let ask = |asked: &mut [Question]| {
        asked.chunks_mut(k).map(|call| zibewoka::questions(n, s, i, h, l, call).expect("in order")).sum::<u32>()
    };
    let ask_peer = |asked: &mut [Question]| {
        asked.chunks_mut(k).map(|call| peer::questions(n, s, i, h, l, call).expect("in order")).sum::<u32>()
    };
    let [library, peer] = seconds(|| ask(&mut asked), || ask_peer(&mut peer_asked));
    assert_eq!(ask(&mut asked), ask_peer(&mut peer_asked));
    assert!(asked == peer_asked, "the peer answers alike");

    let places: Vec<u32> = asked.iter().step_by(APART).map(|question| question.place).collect();
    let answer_alone = |&place: &u32| {
        let interval = zibewoka::find(n, s, i, h, l, place).expect("a place");
        zibewoka::move_once(n, s, i, h, l, interval, place).expect("a move").interval
    };
    let [again, alone] = seconds(|| ask(&mut asked), || places.iter().map(answer_alone).sum::<u32>());
    let each = |whole: f64| whole * 1e9 / QUESTIONS as f64;
    let alone = alone * 1e9 / places.len() as f64;
    format!(
        "| {shape} | {k} | {d} | {size} | {:.1} | {:.2} | {:.3} |",
        each(library),
        library / peer,
        each(again) / alone
    )
}

/// How many orders a table's intervals are weighed in, in turn, so that a million calls and more are made before the first comes
/// again. One order alone has some tens of thousands of jumps, which some processors might learn.
const ORDERS: usize = 64;

/// All intervals, in an order at random.
fn shuffled(r: &mut Random, size: usize) -> Vec<u32> {
    let mut order: Vec<u32> = (0..size as u32).collect();
    r.shuffle(&mut order);
    order
}

/// The weights of all intervals in the next such order, added up.
fn total<'a>(orders: &mut impl Iterator<Item = &'a Vec<u32>>, weight: impl Fn(u32) -> u32) -> u32 {
    orders.next().expect("they go round").iter().map(|&x| weight(x)).sum()
}

/// The peer weighs as the library does: every interval and one that there is not; no places at all; too few, so that images end
/// beyond them; intervals without a holder, and with the last one for a holder, whose start is above most images; lengths that are
/// none.
fn assert_weighed_alike(n: u32, [s, i, h, l]: [&[u32]; 4]) {
    let [none, last] = [u32::MAX, h.len() as u32 - 1].map(|holder| vec![holder; h.len()]);
    for (n, h, l) in [(n, h, l), (0, h, l), (n / 2, h, l), (n, &none, l), (n, &last, l), (n, h, &vec![0; l.len()])] {
        for x in 0..=h.len() as u32 {
            assert_eq!(outcome(zibewoka::weight(n, s, i, h, l, x)), peer::weight(n, s, i, h, l, x));
        }
    }
}

/// One line of the table of weights: the share of the images that are starts, the library's time, and its ratio to the peer's.
fn weights_line(r: &mut Random, shape: &str, k: usize, d: u32) -> String {
    let list = list(r, shape, k);
    let n = list.n;
    let tables = tables(&list, d);
    let [s, i, h, l] = tables.each_ref().map(Vec::as_slice);
    let size = s.len();
    assert_weighed_alike(n, [s, i, h, l]);
    let at_a_start = i.iter().zip(h).filter(|&(&image, &holder)| s[holder as usize] == image).count();

    let orders: Vec<Vec<u32>> = (0..ORDERS).map(|_| shuffled(r, size)).collect();
    let mut turns = orders.iter().cycle();
    let mut peer_turns = turns.clone();
    let [library, peer] = seconds(
        move || total(&mut turns, |x| zibewoka::weight(n, s, i, h, l, x).expect("whole")),
        move || total(&mut peer_turns, |x| peer::weight(n, s, i, h, l, x).expect("whole")),
    );
    format!(
        "| {shape} | {k} | {d} | {size} | {:.2} | {:.1} | {:.2} |",
        at_a_start as f64 / size as f64,
        library * 1e9 / size as f64,
        library / peer
    )
}

fn print_calls(r: &mut Random) {
    println!("Times of the library, and each as a ratio to the peer in safe Rust (below 1: the library is faster).");
    println!(
        "Release builds, the fastest of a hundred rounds. No lent buffer is cleared between calls; the library clears"
    );
    println!("its own arrays in each check and balance, where the peer takes vectors from the heap.");
    println!();
    println!(
        "| list | k | d | K | check µs | × | balance µs | × | find ns | × | move ns | × | repeated, ns a move | × |"
    );
    println!("|---|---|---|---|---|---|---|---|---|---|---|---|---|---|");
    for shape in SHAPES {
        for k in [16, 64, 128, 256, 1024, 16384] {
            for d in [2, 8, 64] {
                println!("{}", line(r, shape, k, d));
            }
        }
    }
}

fn print_longest(r: &mut Random) {
    println!(
        "Walks through tables of as many intervals as there may be. Find tests every length on either side; then the"
    );
    println!("library searches, and the peer walks from the first start: the goal is 0.7. For moves it is 1.0.");
    println!();
    println!("| list | K | find ns | × | move ns | × | repeated, ns a move | × |");
    println!("|---|---|---|---|---|---|---|---|");
    for shape in LONGEST_SHAPES {
        println!("{}", longest_line(r, shape));
    }
}

fn print_searched(r: &mut Random) {
    println!("Walks without a move table: a search by the starts alone beside find, and a walk with such a search in each move");
    println!("beside repeated moves. Both get the same starts and images: those of tables at d 2, and of the longest tables.");
    println!();
    println!("| list | k | K | find ns | search ns | × | repeated, ns a move | searched, ns a move | × |");
    println!("|---|---|---|---|---|---|---|---|---|");
    for shape in SHAPES {
        for k in [16, 128, 1024, 16384] {
            let list = list(r, shape, k);
            println!("{}", searched_line(r, shape, k, list.n, tables(&list, 2)));
        }
    }
    for shape in LONGEST_SHAPES {
        let (n, tables) = longest_tables(r, shape);
        println!("{}", searched_line(r, shape, MOST_INTERVALS, n, tables));
    }
}

fn print_questions(r: &mut Random) {
    println!(
        "Questions at random places in rising order, as many in a call as the list has runs: the library's time, as a"
    );
    println!("ratio to the peer's, and as a ratio to that of find and move one by one through the library.");
    println!();
    println!("| list | k | d | K | ns a question | × peer | × one by one |");
    println!("|---|---|---|---|---|---|---|");
    for shape in SHAPES {
        for k in [64, 1024, 16384] {
            for d in [2, 8] {
                println!("{}", questions_line(r, shape, k, d));
            }
        }
    }
}

fn print_weights(r: &mut Random) {
    println!("Weights of all intervals, in {ORDERS} orders at random in turn: the share of the images that are starts, the library's");
    println!("time, and its ratio to the peer's.");
    println!();
    println!("| list | k | d | K | images at a start | ns a weight | × peer |");
    println!("|---|---|---|---|---|---|---|");
    for (shape, d) in [("tiny", 2), ("shuffled", 2), ("reversed", 2), ("cuts", 2), ("cuts", 8), ("cuts", 64)] {
        println!("{}", weights_line(r, shape, 16384, d));
    }
}

fn print_folds(r: &mut Random) {
    println!("Folds: how many runs are left, the library's time for a list, and its ratio to the peer's.");
    println!();
    println!("| list | k | runs | µs | × peer |");
    println!("|---|---|---|---|---|");
    for shape in ["shuffled", "reversed", "cut"] {
        for k in [16, 1024, 16384] {
            println!("{}", folds::line(r, shape, k));
        }
    }
}

/// All lists of n places but the last: each is handed in once.
fn small_lists(n: u32) -> Vec<List> {
    let mut lists = vec![List { n, starts: vec![0], images: vec![0] }];
    let [mut s, mut i] = [[0; 7]; 2];
    while let Ok(k) = next_list(&lists[lists.len() - 1], &mut s, &mut i) {
        lists.push(List { n, starts: s[..k as usize].to_vec(), images: i[..k as usize].to_vec() });
    }
    lists.pop();
    lists
}

fn next_list(list: &List, s: &mut [u32], i: &mut [u32]) -> Result<u32, Refusal> {
    zibewoka::next_list(list.n, &list.starts, &list.images, s, i)
}

fn peer_next_list(list: &List, s: &mut [u32], i: &mut [u32]) -> peer::Outcome<u32> {
    peer::next_list(list.n, &list.starts, &list.images, s, i)
}

/// One line of the table of next lists: the library's time for a list and its ratio to the peer's, over all lists of n places but
/// the last.
fn next_line(n: u32) -> String {
    let lists = small_lists(n);
    let [mut s, mut i, mut peer_s, mut peer_i] = [[9; 7]; 4];
    for list in &lists {
        for count in [7, n as usize - 1] {
            let answer = next_list(list, &mut s[..count], &mut i);
            assert_eq!(outcome(answer), peer_next_list(list, &mut peer_s[..count], &mut peer_i));
            assert!(s == peer_s && i == peer_i, "the peer writes alike");
        }
    }
    let [library, peer] = seconds(
        || lists.iter().map(|list| next_list(list, &mut s, &mut i).expect("not the last")).sum::<u32>(),
        || lists.iter().map(|list| peer_next_list(list, &mut peer_s, &mut peer_i).expect("not the last")).sum::<u32>(),
    );
    format!("| {n} | {} | {:.1} | {:.2} |", lists.len(), library * 1e9 / lists.len() as f64, library / peer)
}

fn print_next_lists() {
    println!(
        "The next list, over all lists of n places but the last: the library's time, and as a ratio to the peer's."
    );
    println!();
    println!("| n | lists | ns a list | × peer |");
    println!("|---|---|---|---|");
    for n in 2..=7 {
        println!("{}", next_line(n));
    }
}

/// The peer forecasts as the library does, and balances so into tables of K entries and of one fewer; working tables of one
/// entry fewer than B, of B and of more, degrees that are none, and no places at all.
fn assert_forecast_alike(list: &List, d: u32) {
    let List { n, starts, images } = list;
    let k = starts.len();
    for (n, d) in [(*n, d), (*n, 1), (*n, 65), (0, d)] {
        let b = bound(d.max(2), k);
        for working in [b - 1, b, b + 3] {
            let [mut w, mut peer_w] = [9; 2].map(|nine| vec![nine; working]);
            let size = zibewoka::forecast(n, starts, images, d, &mut w);
            assert_eq!(outcome(size), peer::forecast(n, starts, images, d, &mut peer_w));
            assert!(w == peer_w, "the peer forecasts alike");
            let tables = size.map_or(k, |size| size.intervals as usize);
            for count in [tables - 1, tables] {
                let mut lent = [count, count, count, count, working].map(|count| vec![9; count]);
                let mut peer_lent = lent.clone();
                let [s, i, h, l, w] = &mut lent;
                let answer = zibewoka::balance(n, starts, images, d, s, i, h, l, w);
                let [s, i, h, l, w] = &mut peer_lent;
                assert_eq!(outcome(answer), peer::balance(n, starts, images, d, s, i, h, l, w));
                assert!(lent == peer_lent, "the peer balances alike");
            }
        }
    }
}

/// One line of the table of forecasts: the library's time, its ratio to that of its own balance, and to the peer's.
fn forecast_line(r: &mut Random, shape: &str, k: usize, d: u32) -> String {
    let list = list(r, shape, k);
    assert_forecast_alike(&list, d);
    let size = intervals(&list, d);
    let List { n, starts, images } = &list;
    let [mut s, mut i, mut h, mut l] = [0; 4].map(|_| vec![0; size]);
    let [mut w, mut balance_w, mut peer_w] = [0; 3].map(|_| vec![0; bound(d, k)]);
    let [library, balance, peer] = seconds_of(
        100,
        [
            &mut || zibewoka::forecast(*n, starts, images, d, &mut w).is_ok(),
            &mut || zibewoka::balance(*n, starts, images, d, &mut s, &mut i, &mut h, &mut l, &mut balance_w).is_ok(),
            &mut || peer::forecast(*n, starts, images, d, &mut peer_w).is_ok(),
        ],
    );
    format!(
        "| {shape} | {k} | {d} | {size} | {:.1} | {:.2} | {:.2} |",
        library * 1e6,
        library / balance,
        library / peer
    )
}

/// Entries to find the least degree for: as many as the list has intervals at degree 2 and at degree 8, one fewer than at degree
/// 64, and as many as it has runs. Of the lists here those with cuts are cut at every degree, and ever less, so that none fits the
/// last two; those without have one and the same count of intervals throughout.
fn stated_entries(list: &List) -> Vec<u32> {
    let k = list.starts.len();
    let mut entries = [intervals(list, 2), intervals(list, 8), intervals(list, 64) - 1, k].to_vec();
    entries.retain(|&entries| entries >= k);
    entries.dedup();
    entries.into_iter().map(|entries| entries as u32).collect()
}

/// The peer finds the degree that the library finds.
fn assert_least_alike(List { n, starts, images }: &List, entries: u32) {
    let k = starts.len();
    for working in [2 * k - 1, 2 * k, 2 * k + 3] {
        let [mut w, mut peer_w] = [9; 2].map(|nine| vec![nine; working]);
        let least = zibewoka::least_degree(*n, starts, images, entries, &mut w);
        assert_eq!(outcome(least), peer::least_degree(*n, starts, images, entries, &mut peer_w));
        assert!(w == peer_w, "the peer searches alike");
    }
}

/// The degrees up to `highest` that the library sweeps: those that are not ruled out by the cuts that are certain and at which one
/// is; and all of them where the entries leave room for k/2 cuts, since the weights are not asked then.
fn swept(List { n, starts, images }: &List, entries: u32, highest: u32) -> Vec<u32> {
    let (k, entries) = (starts.len(), entries as usize);
    let below = |place: u32| starts.partition_point(|&start| start < place);
    let weight = |x: usize| {
        let length = starts.get(x + 1).unwrap_or(n) - starts[x];
        below(images[x] + length) - below(images[x])
    };
    let certain = |d: u32| (0..k).map(|x| (weight(x) / d as usize).saturating_sub(1)).sum::<usize>();
    let is_asked = entries < k + k / 2;
    (2..=highest).filter(|&d| !is_asked || certain(d) > 0 && k + certain(d) <= entries).collect()
}

/// One line of the table of least degrees: the library's time, its ratio to that of one check and the sweeps that it makes, to that
/// of one check and the sweeps of all degrees up to the one answered, and to the peer's. A sweep's time is that of the library's
/// forecast, less that of its check.
fn least_line(shape: &str, list: &List, entries: u32) -> String {
    assert_least_alike(list, entries);
    let List { n, starts, images } = list;
    let k = starts.len();
    let [mut w, mut made_w, mut sweeps_w, mut peer_w] = [0; 4].map(|_| vec![0; 2 * k]);
    let least = zibewoka::least_degree(*n, starts, images, entries, &mut w).ok();
    let highest = least.map_or(64, |least| least.degree);
    let made = swept(list, entries, highest);
    let [library, forecasts_made, forecasts, check, peer] = seconds_of(
        20,
        [
            &mut || zibewoka::least_degree(*n, starts, images, entries, &mut w).is_ok(),
            &mut || made.iter().all(|&d| zibewoka::forecast(*n, starts, images, d, &mut made_w).is_ok()),
            &mut || (2..=highest).all(|d| zibewoka::forecast(*n, starts, images, d, &mut sweeps_w).is_ok()),
            &mut || zibewoka::check(*n, starts, images).is_ok(),
            &mut || peer::least_degree(*n, starts, images, entries, &mut peer_w).is_ok(),
        ],
    );
    let sweeps_made = forecasts_made - made.len() as f64 * check;
    let sweeps = forecasts - f64::from(highest - 1) * check;
    let [degree, size] = match least {
        Some(least) => [least.degree.to_string(), least.intervals.to_string()],
        None => ["none", "–"].map(String::from),
    };
    format!(
        "| {shape} | {k} | {entries} | {degree} | {size} | {:.1} | {} | {:.2} | {:.3} | {:.3} |",
        library * 1e6,
        made.len(),
        library / (check + sweeps_made),
        library / (check + sweeps),
        library / peer
    )
}

fn print_forecasts(r: &mut Random) {
    println!(
        "Forecasts: the library's time, as a ratio to that of its own balance, and as a ratio to the peer's forecast."
    );
    println!();
    println!("| list | k | d | K | forecast µs | × balance | × peer |");
    println!("|---|---|---|---|---|---|---|");
    for shape in ["shuffled", "cuts"] {
        for k in [1024, 16384] {
            for d in [2, 8, 64] {
                println!("{}", forecast_line(r, shape, k, d));
            }
        }
    }
}

fn print_least_degrees(r: &mut Random) {
    println!("The least degree for stated entries, the fastest of twenty rounds: the library's time, how many sweeps it makes,");
    println!("and the time as a ratio to that of one check and these, to that of one check and the sweeps from degree 2 up to");
    println!("the one answered (to 64 where none fits), and to the peer's search, which makes all of these. A sweep is timed as");
    println!("a forecast less a check.");
    println!();
    println!(
        "| list | k | entries | least d | K | search µs | sweeps made | × check and these | × check and all | × peer |"
    );
    println!("|---|---|---|---|---|---|---|---|---|---|");
    for shape in ["shuffled", "cuts"] {
        for k in [1024, 16384] {
            let list = list(r, shape, k);
            for entries in stated_entries(&list) {
                println!("{}", least_line(shape, &list, entries));
            }
        }
    }
}

fn print_types(r: &mut Random) {
    println!("A bookmark's move, starts under and the check of a file: for each the library's time and its ratio to the peer's.");
    println!();
    println!("| list | k | d | K | bookmark, ns a move | × | starts under ns | × | file µs | × |");
    println!("|---|---|---|---|---|---|---|---|---|---|");
    for shape in ["shuffled", "cuts"] {
        for k in [64, 1024, 16384] {
            for d in [2, 8] {
                println!("{}", types::line(r, shape, k, d));
            }
        }
    }
}

fn main() {
    let r = &mut Random::new(7);
    print_calls(r);
    println!();
    print_longest(&mut Random::new(8)); // of its own, so that the tables behind it keep their lists
    println!();
    print_searched(&mut Random::new(9)); // of its own too
    println!();
    print_questions(r);
    println!();
    print_folds(&mut Random::new(10)); // of its own too
    println!();
    print_next_lists();
    println!();
    print_forecasts(r);
    println!();
    print_least_degrees(r);
    println!();
    print_weights(r);
    println!();
    print_types(r);
}
