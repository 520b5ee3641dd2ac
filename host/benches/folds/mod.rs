//! Folds, beside a peer that checks a list and folds it.

use crate::random::{cut, damage, List, Random};
use crate::{list, outcome, peer, seconds, LISTS};

/// A list of k runs: as the other tables have it, or cut at any places, so that half of its runs follow on.
fn folding(r: &mut Random, shape: &str, k: usize) -> List {
    if shape == "cut" {
        let whole = list(r, "shuffled", k / 2);
        return cut(r, &whole, k - k / 2);
    }
    list(r, shape, k)
}

/// The peer folds as the library does: into tables of k entries, of more, and with one too short; also a damaged list.
fn assert_folded_alike(r: &mut Random, list: &List) {
    let mut damaged = list.clone();
    damage(r, &mut damaged);
    for List { n, starts, images } in [list, &damaged] {
        let k = starts.len();
        for counts in [[k, k], [k + 2, k + 1], [k - 1, k], [k, k - 1]] {
            let mut lent = counts.map(|count| vec![9; count]);
            let mut peer_lent = lent.clone();
            let [s, i] = &mut lent;
            let answer = zibewoka::fold(*n, starts, images, s, i);
            let [s, i] = &mut peer_lent;
            assert_eq!(outcome(answer), peer::fold(*n, starts, images, s, i));
            assert!(lent == peer_lent, "the peer folds alike");
        }
    }
}

/// One line: how many runs the first list's fold has, the library's time for a list and its ratio to the peer's.
pub fn line(r: &mut Random, shape: &str, k: usize) -> String {
    let lists: Vec<List> = (0..LISTS).map(|_| folding(r, shape, k)).collect();
    lists.iter().for_each(|list| assert_folded_alike(r, list));
    let [mut s, mut i, mut peer_s, mut peer_i] = [(); 4].map(|()| vec![0; k]);
    let runs = zibewoka::fold(lists[0].n, &lists[0].starts, &lists[0].images, &mut s, &mut i).expect("legal");
    let [library, peer] = seconds(
        || lists.iter().map(|l| zibewoka::fold(l.n, &l.starts, &l.images, &mut s, &mut i).expect("legal")).sum::<u32>(),
        || {
            lists
                .iter()
                .map(|l| peer::fold(l.n, &l.starts, &l.images, &mut peer_s, &mut peer_i).expect("legal"))
                .sum::<u32>()
        },
    );
    format!("| {shape} | {k} | {runs} | {:.2} | {:.2} |", library * 1e6 / LISTS as f64, library / peer)
}
