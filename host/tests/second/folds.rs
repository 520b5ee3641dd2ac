//! Folds: known ones, those of lists that were cut anyhow, and that two lists have one permutation exactly when their folds are equal.

use crate::definition::{self as second, permutations, Outcome};
use crate::exports::{lists, Given};
use crate::random::{cut, legal, List, Random};
use crate::refusals::numbers;
use zibewoka::RunList;

fn run_list(List { n, starts, images }: &List) -> RunList<'_> {
    RunList::new(*n, starts, images).expect("a legal list")
}

#[test]
fn folds_of_lists_that_were_cut() {
    let mut given = Given::default();
    let r = &mut Random::new(40);
    for _ in 0..3_000 {
        let k = r.from(1, 60) as usize;
        let list = legal(r, k);
        let lists = [cut(r, &list, 40), cut(r, &list, 4), list];
        let folds = lists.each_ref().map(|list| {
            let k = list.starts.len();
            given.fold(r, list, [k + 1, k]).expect("a legal list")
        });
        assert!(folds[1..].iter().all(|fold| *fold == folds[0]), "one fold of all");
        let fewest = folds[0].starts.len();
        assert!(given.fold(r, &folds[0], [fewest; 2]).as_ref() == Some(&folds[0]), "folding twice changes nothing");
        let k = lists[0].starts.len();
        if fewest < k {
            // room for the fold, and not for the list
            let short = r.from(fewest as u64, k as u64 - 1) as usize;
            let counts = if r.one_in(2) { [short, k] } else { [k, short] };
            assert!(given.fold(r, &lists[0], counts).is_none());
        }
        let [a, b, c] = lists.each_ref().map(run_list);
        assert!([&a, &b, &c].iter().all(|list| list.folded() == run_list(&folds[0])));
        assert!(a.same_permutation(&b) && b.same_permutation(&c) && c.same_permutation(&a));
        let d = r.from(2, 64) as u32;
        let size = a.folded().forecast(d).expect("a degree").intervals;
        assert!(size as usize <= second::bound(d, fewest), "the bound by the fewest runs");
    }
    assert_eq!(given.fold.0.remove(&0), Some(12_000));
    let short = given.fold.0.remove(&8).expect("lists with runs that follow on");
    assert!(short > 2_000 && given.fold.0.is_empty(), "{short} tables with room for the fold alone");
}

/// All lists of up to 5 places, beside one another: those of one permutation, and no others, have one permutation.
#[test]
fn same_permutation_of_all_small_lists() {
    let all: Vec<(Vec<u32>, List)> = (1..=5)
        .flat_map(permutations)
        .flat_map(|permutation| lists(&permutation).into_iter().map(move |list| (permutation.clone(), list)))
        .collect();
    for (permutation, list) in &all {
        let list = run_list(list);
        for (other, other_list) in &all {
            assert_eq!(list.same_permutation(&run_list(other_list)), permutation == other);
        }
    }
}

/// What the fold comes to, with both tables of nines, of these counts.
fn fold(n: u32, starts: &[u32], images: &[u32], counts: [usize; 2]) -> (Outcome<u32, u64>, Vec<u32>, Vec<u32>) {
    let [mut s, mut i] = counts.map(|count| vec![9; count]);
    (numbers(zibewoka::fold(n, starts, images, &mut s, &mut i)), s, i)
}

#[test]
fn known_folds() {
    let refused = |number, place, counts: [usize; 2]| {
        let [s, i] = counts.map(|count| vec![9; count]);
        (Err((number, place)), s, i)
    };
    let (starts, images) = ([0, 2, 4, 6, 8, 12], [14, 12, 10, 8, 0, 4]);
    let (own_starts, own_images) = (vec![0, 2, 4, 6, 8], vec![14, 12, 10, 8, 0]);
    assert_eq!(fold(16, &starts[..5], &images[..5], [5, 5]), (Ok(5), own_starts.clone(), own_images.clone()));
    assert_eq!(
        fold(16, &starts, &images, [6, 6]),
        (Ok(5), [own_starts, vec![9]].concat(), [own_images, vec![9]].concat())
    );
    let each = [0, 1, 2, 3];
    assert_eq!(fold(4, &each, &each, [4, 4]), (Ok(1), vec![0, 9, 9, 9], vec![0, 9, 9, 9]));
    assert_eq!(fold(4, &each, &each, [4, 3]), refused(8, 4, [4, 3]));
    assert_eq!(fold(4, &each, &each, [3, 4]), refused(8, 4, [3, 4]));
    assert_eq!(fold(4, &[0, 2], &[0, 1], [0, 0]), refused(6, 0, [0, 0]));
    assert_eq!(fold(0, &[0], &[0], [1, 1]), refused(1, 0, [1, 1]));
    let psi = [0, 1, 5, 6, 12, 17, 19, 22, 25, 32, 34, 42, 43];
    let psi_images = [11, 28, 2, 22, 32, 38, 42, 12, 15, 0, 3, 37, 40];
    let without_run_8 = |column: &[u32]| [&column[..8], &column[9..], &[9]].concat();
    assert_eq!(fold(45, &psi, &psi_images, [13, 13]), (Ok(12), without_run_8(&psi), without_run_8(&psi_images)));
}
