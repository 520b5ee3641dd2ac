//! Real texts through all of it, as the servers' search does.
//!
//! The rows of the Burrows-Wheeler transform are a text's rotations in order; the LF mapping sends a row to that of the rotation
//! which begins one letter earlier. Rows that end in equal letters and lie side by side stay side by side, so the mapping is a
//! run list with a run for each run of equal letters, and a walk from the row of the whole text spells it backwards.

use std::fs;
use std::path::{Path, PathBuf};
use zibewoka::{Bookmark, MoveTable, RunList};

/// So many bytes of our own files give up to some 15,000 runs; 16,384 are taken.
const PIECE: usize = 32_000;

/// The degrees that each text is balanced at.
const DEGREES: [u32; 5] = [2, 3, 5, 16, 64];

/// A text, the last letters of its rotations in their order, and the row of the text itself.
struct Transform {
    text: Vec<u8>,
    letters: Vec<u8>,
    whole: u32,
}

/// The transform of a text with a letter at its end that stands nowhere else, so that no two rotations are equal.
fn transform(words: &[u8]) -> Transform {
    let text = [words, &[0]].concat();
    let n = text.len();
    let twice = text.repeat(2);
    let mut rotations: Vec<usize> = (0..n).collect();
    rotations.sort_unstable_by(|&a, &b| twice[a..a + n].cmp(&twice[b..b + n]));
    let whole = rotations.iter().position(|&at| at == 0).expect("the text is among its rotations") as u32;
    let letters = rotations.iter().map(|&at| twice[at + n - 1]).collect();
    Transform { text, letters, whole }
}

/// For each letter the first row that begins with it: as many rows as there are lower letters begin before.
fn first_rows(letters: &[u8]) -> [u32; 256] {
    let mut counts = [0; 256];
    letters.iter().for_each(|&letter| counts[usize::from(letter)] += 1);
    let mut end = 0;
    counts.map(|count| {
        end += count;
        end - count
    })
}

/// The LF mapping as a run list: of the rows that end in a letter, the first goes to the first that begins with it, and so on.
fn mapping(letters: &[u8]) -> RunList<'static> {
    let mut next = first_rows(letters);
    let (mut starts, mut images) = (vec![], vec![]);
    let mut row = 0;
    for run in letters.chunk_by(u8::eq) {
        let image = &mut next[usize::from(run[0])];
        starts.push(row);
        images.push(*image);
        row += run.len() as u32;
        *image += run.len() as u32;
    }
    RunList::new(row, starts, images).expect("a legal list of at most 16,384 runs")
}

/// Walks through the whole text: it is spelled backwards, no move reads more than 2d starts, and the walk comes back to where it
/// began. A bookmark and one call of repeated moves come to the same. Answers how many starts a move read at most.
fn assert_spelled_backwards(t: &Transform, table: &MoveTable, d: u32) -> u64 {
    let from = table.find(t.whole).expect("a row");
    let mut bookmark = Bookmark::new(from);
    let (mut spelled, mut most) = (vec![], 0);
    for step in table.walk(from).take(t.text.len()) {
        spelled.push(t.letters[bookmark.place as usize]);
        let step = step.expect("a move");
        assert_eq!(bookmark.advance(table), Ok(step));
        assert!(step.count <= 2 * u64::from(d), "{step:?} at degree {d}");
        most = most.max(step.count);
    }
    spelled.reverse();
    assert!(spelled == t.text, "the text is spelled backwards at degree {d}");
    let n = t.text.len() as u32;
    let round = table.steps(from, n).expect("moves");
    assert_eq!((round.place, round.interval, round.count), (from.place, from.interval, bookmark.count));
    assert_eq!((bookmark.place, bookmark.moves), (from.place, n));
    most
}

/// The text at each degree. Answers how many starts a move read at most at each.
fn assert_walked(t: &Transform, list: &RunList) -> [u64; 5] {
    DEGREES.map(|d| assert_spelled_backwards(t, &list.balance(d).expect("a degree"), d))
}

fn root() -> &'static Path {
    Path::new(env!("CARGO_MANIFEST_DIR")).parent().expect("host/ stands in the repository")
}

/// The files of a folder with this ending, in order.
fn files(folder: &str, ending: &str) -> Vec<PathBuf> {
    let entries = fs::read_dir(root().join(folder)).expect("a folder of the repository");
    let mut paths: Vec<PathBuf> = entries.map(|entry| entry.expect("an entry").path()).collect();
    paths.retain(|path| path.extension().is_some_and(|found| found == ending));
    paths.sort();
    paths
}

/// The repository's own documents and code, in pieces. At low degrees some move reads as many starts as the bound allows.
#[test]
fn our_own_files_are_spelled_backwards() {
    let paths = [files(".", "md"), files("docs", "md"), files("host/src", "rs")].concat();
    let all: Vec<u8> = paths.iter().flat_map(|path| fs::read(path).expect("a file of the repository")).collect();
    let (mut most_runs, mut most_read) = (0, [0; 5]);
    for words in all.chunks(PIECE) {
        let t = transform(words);
        let list = mapping(&t.letters);
        let read = assert_walked(&t, &list);
        most_read = std::array::from_fn(|i| most_read[i].max(read[i]));
        most_runs = most_runs.max(list.runs());
    }
    assert!(most_runs >= 8000, "the longest list has {most_runs} runs");
    assert_eq!(most_read[..2], [4, 6], "of moves at degrees 2 and 3");
}

/// The list that examples/ has is that of the text beside it.
#[test]
fn the_example_is_the_mapping_of_its_text() {
    let [words, file] = ["archive.txt", "archive.bin"].map(|name| fs::read(root().join("examples").join(name)));
    let t = transform(&words.expect("the text"));
    let list = mapping(&t.letters);
    assert_eq!(list.to_file(2), Ok(file.expect("the list")));
    assert_walked(&t, &list);
}

/// A text of one letter again and again is one run, and one in which each letter stands once has a run for each.
#[test]
fn the_plainest_texts() {
    for (words, runs) in [(vec![], 1), (vec![b'a'; 1000], 2), ((1..=255).rev().collect(), 256)] {
        let t = transform(&words);
        let list = mapping(&t.letters);
        assert_eq!(list.runs(), runs);
        assert_walked(&t, &list);
    }
}
