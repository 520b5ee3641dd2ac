//! What a refusal says besides its number and place is true of what was handed in.

use crate::definition::{Outcome, Tables};
use crate::random::List;
use zibewoka::LentTable::{self, Working};
use zibewoka::{Bookmark, Flaw, MoveTable, Outside, Question, Refusal, RunList};

/// An outcome of the second program with a place of 64 bits, as refusals have it.
pub fn wide<T, P: Into<u64>>(outcome: Outcome<T, P>) -> Outcome<T, u64> {
    outcome.map_err(|(number, place)| (number, place.into()))
}

/// The number and the place of a refusal.
pub fn numbers<T>(result: Result<T, Refusal>) -> Outcome<T, u64> {
    result.map_err(|refusal| (refusal.number(), refusal.place()))
}

/// The same of a call on a list, with these tables lent, where what the refusal says is true of them.
pub fn on_list<T>(result: Result<T, Refusal>, list: &List, lent: &[(LentTable, usize)]) -> Outcome<T, u64> {
    if let Err(refusal) = &result {
        assert!(is_true_of_list(refusal, list, lent), "{refusal:?}: {refusal}");
    }
    numbers(result)
}

/// The same of a call on tables, with this interval handed in.
pub fn on_tables<T>(result: Result<T, Refusal>, n: u32, t: &Tables, interval: Option<u32>) -> Outcome<T, u64> {
    if let Err(refusal) = &result {
        assert!(is_true_of_tables(refusal, n, t, interval), "{refusal:?}: {refusal}");
    }
    numbers(result)
}

/// The same of questions.
pub fn on_questions<T>(result: Result<T, Refusal>, n: u32, t: &Tables, asked: &[Question]) -> Outcome<T, u64> {
    if let Err(Refusal::PlaceOrder { question, place, before }) = result {
        let places = [asked[question as usize - 1].place, asked[question as usize].place];
        assert!(places == [before, place] && place < before, "{result:?}", result = (question, place, before));
        return numbers(result);
    }
    on_tables(result, n, t, None)
}

/// The same of a call on a file, whose words from the sixth on are those of its list.
pub fn on_file<T>(result: Result<T, Refusal>, file: &[u8]) -> Outcome<T, u64> {
    if let Err(refusal) = &result {
        let words: Vec<u32> =
            file.chunks_exact(4).map(|word| u32::from_le_bytes(word.try_into().expect("four bytes"))).collect();
        assert!(is_true_of_file(refusal, file, &words), "{refusal:?}: {refusal}");
    }
    numbers(result)
}

fn is_true_of_file(refusal: &Refusal, file: &[u8], words: &[u32]) -> bool {
    let (n, k, bytes) = (words.first(), words.get(1), file.len() as u64);
    match *refusal {
        Refusal::FileHeader { byte: 0, found, wanted } => (found, wanted) == (bytes, 20) && found < wanted,
        Refusal::FileHeader { byte: 20, found, wanted } => {
            (found, Some(wanted)) == (bytes, k.map(|&k| 20 + 8 * u64::from(k))) && found != wanted
        }
        Refusal::FileHeader { byte, found, wanted } => {
            let right = [20, 20 + 4 * u64::from(words[1])][byte as usize / 4 - 3];
            (found, wanted) == (words[byte as usize / 4].into(), right) && found != wanted
        }
        Refusal::ListShape { n: m, starts, images } => {
            n == Some(&m) && starts == images && k.map(|&k| k as usize) == Some(starts) && (m == 0 || starts == 0)
        }
        Refusal::TooManyRuns { runs } => k.map(|&k| k as usize) == Some(runs) && runs > 16384,
        _ => {
            let (starts, images) = words[5..].split_at(words[1] as usize);
            let list = List { n: words[0], starts: starts.to_vec(), images: images.to_vec() };
            is_true_of_list(refusal, &list, &[])
        }
    }
}

/// Where run or interval x ends: the next start, or n.
fn end(n: u32, starts: &[u32], x: u32) -> u32 {
    starts.get(x as usize + 1).copied().unwrap_or(n)
}

fn image(list: &List, run: u32) -> std::ops::Range<u64> {
    let image = u64::from(list.images[run as usize]);
    image..image + u64::from(end(list.n, &list.starts, run) - list.starts[run as usize])
}

fn is_true_of_list(refusal: &Refusal, list: &List, lent: &[(LentTable, usize)]) -> bool {
    let (starts, images) = (&list.starts, &list.images);
    match *refusal {
        Refusal::ListShape { n, starts: s, images: i } => {
            (n, s, i) == (list.n, starts.len(), images.len()) && (n == 0 || s == 0 || s != i)
        }
        Refusal::TooManyRuns { runs } => runs == starts.len() && runs > 16384,
        Refusal::FirstStart { start } => start == starts[0] && start != 0,
        Refusal::StartOrder { run, start, before, n } => {
            [before, start, n] == [starts[run as usize - 1], starts[run as usize], list.n]
                && (start <= before || n <= start)
        }
        Refusal::ImageRange { run, image: from, end, n } => {
            (u64::from(from)..end) == image(list, run) && n == list.n && u64::from(n) < end
        }
        Refusal::ImageOverlap { run, other, shared } => {
            run != other && [run, other].iter().all(|&run| image(list, run).contains(&shared.into()))
        }
        Refusal::Degree { degree } => !(2..=64).contains(&degree),
        // The working table comes first, and needs no less than the others.
        Refusal::ShortTable { table, entries, needed } => {
            let is_short =
                |of: LentTable| lent.iter().any(|&(other, entries)| other == of && entries < needed as usize);
            lent.contains(&(table, entries)) && is_short(table) && (table == Working) == is_short(Working)
        }
        Refusal::TooManyPlaces { n } => n == list.n && n > 7,
        // What these two say is their number and place.
        Refusal::LastPermutation | Refusal::NoDegreeFits { .. } => true,
        _ => false,
    }
}

fn is_true_of_tables(refusal: &Refusal, n: u32, t: &Tables, handed_in: Option<u32>) -> bool {
    let columns = t.columns();
    match *refusal {
        Refusal::TableShape { n: m, entries } => {
            let first = entries[0];
            let shaped = m != 0 && entries == [first; 4] && (1..=32768).contains(&first);
            m == n && entries == columns.map(<[u32]>::len) && !shaped
        }
        Refusal::IntervalIndex { interval, intervals } => {
            intervals == t.starts.len() && intervals <= interval as usize && handed_in == Some(interval)
        }
        Refusal::PlaceRange { place, outside: Outside::Places { n: m } } => m == n && n <= place,
        Refusal::PlaceRange { place, outside: Outside::Starts { first } } => {
            handed_in.is_none() && first == t.starts[0] && place < first
        }
        Refusal::PlaceRange { place, outside: Outside::Interval { interval, start, end } } => {
            let [from, length] = [&t.starts, &t.lengths].map(|column| column[interval as usize]);
            let places = u64::from(start)..end;
            handed_in == Some(interval)
                && (start, end) == (from, u64::from(from) + u64::from(length))
                && !places.contains(&place.into())
        }
        Refusal::BrokenInterval { interval, flaw } => is_flaw(flaw, n, t, interval),
        Refusal::NoPreimage { .. } => true, // which is its number and place
        _ => false,
    }
}

fn is_flaw(flaw: Flaw, n: u32, t: &Tables, x: u32) -> bool {
    let [its_start, its_image, its_holder, its_length] = t.columns().map(|column| column[x as usize]);
    match flaw {
        Flaw::Length { length, start, next } => {
            [length, start, next] == [its_length, its_start, end(n, &t.starts, x)]
                && (length == 0 || u64::from(start) + u64::from(length) != u64::from(next))
        }
        Flaw::NoHolder { holder } => holder == its_holder && t.starts.len() <= holder as usize,
        Flaw::HolderAbove { holder, start, image } => {
            [holder, start, image] == [its_holder, t.starts[holder as usize], its_image] && image < start
        }
        Flaw::ImageRange { image, end, n: m } => {
            [image, m] == [its_image, n] && end == u64::from(image) + u64::from(its_length) && u64::from(n) < end
        }
        _ => false,
    }
}

/// Each refusal has this number, this place and this sentence.
fn assert_said(said: &[(Refusal, u32, u64, &str)]) {
    for (refusal, number, place, sentence) in said {
        assert_eq!((refusal.number(), refusal.place(), &*refusal.to_string()), (*number, *place, *sentence));
    }
}

/// Calls on lists, and moves.
#[test]
fn known_sentences() {
    let list = |n, starts: &[u32], images: &[u32]| zibewoka::check(n, starts, images).unwrap_err();
    let [s, i, h, l] = [[0, 2, 4, 6, 8, 12], [14, 12, 10, 8, 0, 4], [5, 5, 4, 4, 0, 2], [2, 2, 2, 2, 4, 4]];
    let step = |s: &[u32], i: &[u32], h: &[u32], l: &[u32], interval, place| {
        zibewoka::move_once(16, s, i, h, l, interval, place).unwrap_err()
    };
    let said = [
        (list(0, &[0], &[0]), 1, 0, "n is 0, and a list has at least one place"),
        (list(4, &[], &[]), 1, 0, "there are no runs"),
        (list(4, &[0, 2], &[0]), 1, 0, "the list has 2 starts and 1 images"),
        (list(9, &[0; 16385], &[0; 16385]), 2, 0, "16385 runs are more than the 16384 that are taken"),
        (list(4, &[1], &[0]), 3, 0, "run 0 starts at 1, not at 0"),
        (list(9, &[0, 5, 4], &[0; 3]), 4, 2, "run 2 starts at 4, not above run 1, which starts at 5"),
        (list(9, &[0, 5, 9], &[0; 3]), 4, 2, "run 2 starts at 9, not below n, 9"),
        (list(9, &[0, 5], &[5, 0]), 5, 0, "run 0 goes to the places 5 to 9, and n is 9"),
        (list(9, &[0, 5], &[2, 5]), 6, 0, "runs 0 and 1 both have a place that goes to 5"),
        (step(&s, &i, &h, &l[..5], 0, 0), 9, 0, "the table has 6 starts, 6 images, 6 holders and 5 lengths"),
        (step(&s, &i, &h, &l, 6, 0), 10, 6, "there is no interval 6: the table has 6 of them"),
        (step(&s, &i, &h, &l, 5, 16), 11, 16, "place 16 is not below n, 16"),
        (step(&s, &i, &h, &l, 4, 3), 11, 3, "place 3 is not in interval 4, which has 8 to 11"),
        (step(&s, &i, &h, &[1; 6], 4, 8), 12, 4, "interval 4 has length 1, but starts at 8 and ends before 12"),
        (step(&s, &i, &[9; 6], &l, 4, 8), 12, 4, "interval 4 has holder 9, and there is no such interval"),
        (step(&s, &i, &[1; 6], &l, 4, 8), 12, 4, "interval 4 goes to 0, and its holder, 1, starts above that, at 2"),
        (step(&s, &[15; 6], &h, &l, 4, 9), 12, 4, "interval 4 goes to the places 15 to 18, and n is 16"),
    ];
    assert_said(&said);
}

/// All other calls but those on files.
#[test]
fn known_sentences_of_longer_calls() {
    let list = RunList::new(16, &[0, 2, 4, 6, 8][..], &[14, 12, 10, 8, 0][..]).expect("legal");
    let (n, s, i) = (list.n(), list.starts(), list.images());
    let shifted = MoveTable::from_columns(9, vec![2], vec![2], vec![0], vec![7]);
    let asked = |places: [u32; 2]| {
        let mut records = places.map(|place| Question { place, ..Question::default() });
        list.balance(2).and_then(|table| table.questions(&mut records)).unwrap_err()
    };
    let full = |moves, count| {
        let table = list.balance(2).expect("legal");
        let mut bookmark = Bookmark { moves, count, ..Bookmark::new(table.find(11).expect("a place")) };
        bookmark.advance(&table).unwrap_err()
    };
    let lent = zibewoka::inverse_list(n, s, i, &mut [0; 9], &mut [0; 4]).unwrap_err();
    let found = |n, k| MoveTable::from_columns(n, vec![0; k], vec![0; k], vec![0; k], vec![0; k]).find(0).unwrap_err();
    let next =
        |n, starts: &[u32], images: &[u32]| RunList::new(n, starts, images).expect("legal").successor().unwrap_err();
    let said = [
        (list.balance(65).unwrap_err(), 7, 65, "the degree is 65, not 2 to 64"),
        (lent, 8, 5, "the table for images has 4 entries, and 5 are needed"),
        (found(0, 1), 9, 0, "n is 0, and a table has at least one place"),
        (found(9, 0), 9, 0, "the table has no intervals"),
        (found(9, 32769), 9, 0, "the table has 32769 intervals, and at most 32768 are taken"),
        (shifted.find(1).unwrap_err(), 11, 1, "place 1 is below the first start, 2"),
        (full(u32::MAX, 0), 13, 0, "the bookmark has made 4294967295 moves, and can't count another"),
        (
            full(0, u64::MAX),
            13,
            0,
            "the bookmark's moves have read 18446744073709551615 starts, and it can't count those of another",
        ),
        (shifted.preimage(1).unwrap_err(), 14, 1, "no interval has a place that goes to 1"),
        (asked([9, 3]), 16, 1, "question 1 asks about place 3, below 9 of the one before"),
        (next(9, &[0], &[0]), 17, 9, "the list has 9 places, and the next one is given of at most 7"),
        (next(2, &[0, 1], &[1, 0]), 18, 0, "the list is the last one: its permutation falls everywhere"),
        (
            list.least_degree(4).unwrap_err(),
            19,
            4,
            "at no degree from 2 to 64 does the balanced list have at most 4 intervals",
        ),
    ];
    assert_said(&said);
}

/// Files are refused in the words of what their bytes say.
#[test]
fn known_sentences_of_files() {
    let list = RunList::new(16, &[0, 2, 4, 6, 8][..], &[14, 12, 10, 8, 0][..]).expect("legal");
    let file = list.to_file(2).expect("a degree");
    let with = |at: usize, byte: u8| {
        let mut file = file.clone();
        file[at] = byte;
        RunList::from_file(&file).unwrap_err()
    };
    let said = [
        (RunList::from_file(&file[..19]).unwrap_err(), 15, 0, "the file has 19 bytes, and its header needs 20"),
        (with(0, 0), 1, 0, "n is 0, and a list has at least one place"),
        (with(4, 0), 1, 0, "there are no runs"),
        (with(6, 1), 2, 0, "65541 runs are more than the 16384 that are taken"),
        (with(12, 24), 15, 12, "the header says that the starts stand at byte 24, not at 20"),
        (with(16, 44), 15, 16, "the header says that the images stand at byte 44, not at 40"),
        (RunList::from_file(&file[..59]).unwrap_err(), 15, 20, "the file has 59 bytes, and by its header 60"),
        (with(20, 1), 3, 0, "run 0 starts at 1, not at 0"),
        (with(28, 1), 4, 2, "run 2 starts at 1, not above run 1, which starts at 2"),
        (with(40, 15), 5, 0, "run 0 goes to the places 15 to 16, and n is 16"),
        (with(40, 13), 6, 0, "runs 0 and 1 both have a place that goes to 13"),
        (with(8, 0), 7, 0, "the degree is 0, not 2 to 64"),
    ];
    assert_said(&said);
}
