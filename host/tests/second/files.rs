//! The check of a file and its listing on random files, sound and damaged: each answer whole, and every byte of the lent text
//! before and after.

use crate::definition as second;
use crate::exports::Numbers;
use crate::random::{file, list_of, random_file, Random};
use crate::refusals::{on_file, wide};
use std::collections::BTreeSet;
use zibewoka::exports::{self, FileAnswer};
use zibewoka::{Header, RunList};

fn header(file: &second::File) -> Header {
    Header { n: file.n, runs: file.k, degree: file.d }
}

/// Checks a file, and reads its list; answers the number and, for 15, the place.
fn check(file: &[u8]) -> (u32, u32) {
    let wanted = second::file(file, 16384);
    let (number, place) = wanted.as_ref().err().copied().unwrap_or((0, 0));
    let [n, k, d] = wanted.as_ref().map_or([0; 3], |file| [file.n, file.k, file.d]);
    assert_eq!(exports::check_file(file), FileAnswer { number, place, n, k, d });
    assert_eq!(on_file(zibewoka::check_file(file), file), wide(wanted.as_ref().map(header).map_err(|&e| e)));
    let read =
        RunList::from_file(file).map(|(list, d)| (list.n(), d, [list.starts(), list.images()].map(<[u32]>::to_vec)));
    assert_eq!(on_file(read, file), wide(wanted.map(|file| (file.n, file.d, file.list))));
    (number, place)
}

/// Lists a file into a text of so many bytes, lent out of a longer one, whose other bytes stay.
fn list_into(r: &mut Random, file: &[u8], wanted: &[u8], room: usize) {
    let before: Vec<u8> = (0..room + 2).map(|_| r.number() as u8).collect();
    let mut after = before.clone();
    let count = if wanted.len() <= room { wanted.len() } else { 0 };
    after[1..1 + count].copy_from_slice(&wanted[..count]);
    let mut text = before;
    assert_eq!(exports::list_file(file, &mut text[1..1 + room]), count);
    assert!(text == after, "the text after the listing");
}

/// Lists a file into texts that are too short, just long enough, and longer.
fn list(r: &mut Random, file: &[u8]) {
    let wanted = second::listing(file);
    assert_eq!(zibewoka::listing(file), wanted);
    let wanted = wanted.into_bytes();
    let long = wanted.len() + 1 + r.below(50) as usize;
    let short = r.below(wanted.len() as u64) as usize;
    for room in [wanted.len(), wanted.len() - 1, short, long] {
        list_into(r, file, &wanted, room);
    }
}

#[test]
fn random_files() {
    let r = &mut Random::new(8);
    let mut numbers = Numbers::default();
    let mut places = BTreeSet::new();
    for round in 0..40_000 {
        let k = if round % 500 == 0 { r.from(900, 1030) } else { r.from(1, 40) } as usize;
        let file = random_file(r, k, 2);
        let before = file.clone();
        let (number, place) = check(&file);
        list(r, &file);
        assert!(file == before, "the file stays");
        numbers.add(number);
        if number == 15 {
            places.insert(place);
        }
    }
    assert!(numbers.0.keys().eq(&[0, 1, 2, 3, 4, 5, 6, 7, 15]), "a file gave {numbers:?}");
    assert!(numbers.0.values().all(|&times| times >= 100), "a file gave {numbers:?}");
    assert_eq!(Vec::from_iter(places), [0, 12, 16, 20], "each place of 15");
}

/// Files of as many runs as are checked, and as are listed, and of one more.
#[test]
fn longest_files() {
    let r = &mut Random::new(9);
    for k in [1024, 1025, 16384, 16385] {
        let order: Vec<usize> = (0..k).rev().collect();
        let file = file(&list_of(&vec![3; k], &order), 2);
        assert_eq!(check(&file).0, if k <= 16384 { 0 } else { 2 });
        list(r, &file);
    }
}

/// The paper's file and its listing.
#[test]
fn known_file() {
    let words: [u32; 15] = [16, 5, 2, 20, 40, 0, 2, 4, 6, 8, 14, 12, 10, 8, 0];
    let mut file: Vec<u8> = words.iter().flat_map(|word| word.to_le_bytes()).collect();
    let listing = b"16 5 2 6\n0 0 14 14 5 0\n1 2 12 10 5 1\n2 4 10 6 4 0\n3 6 8 2 4 1\n4 8 0 -8 0 2\n5 12 4 -8 2 2\n";
    let read = |number, place, n, k, d| FileAnswer { number, place, n, k, d };
    assert_eq!(exports::check_file(&file), read(0, 0, 16, 5, 2));
    list_into(&mut Random::new(1), &file, listing, listing.len());
    file.push(0);
    assert_eq!(exports::check_file(&file), read(15, 20, 0, 0, 0));
    list_into(&mut Random::new(1), &file, b"refused 15 20\n", 14);
    assert_eq!(exports::check_file(&[]), read(15, 0, 0, 0, 0));
    list_into(&mut Random::new(1), &[], b"refused 15 0\n", 13);
    list_into(&mut Random::new(1), &[], b"refused 15 0\n", 12);
}
