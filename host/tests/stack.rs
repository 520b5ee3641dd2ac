//! Each call on a thread whose stack has as much as the documents say that it needs, and the least that a thread may have: a call
//! that takes more ends this program.

use std::thread;
use zibewoka::{Bookmark, MoveTable, Question, RunList};

/// What a thread has at least, for itself and for the functions of these tests.
const OWN: usize = 16 * 1024;

/// Runs the call on a thread with room for so many KiB.
fn within(kib: usize, call: impl FnOnce() + Send) {
    thread::scope(|scope| {
        let thread = thread::Builder::new().stack_size(kib * 1024 + OWN).spawn_scoped(scope, call);
        thread.expect("a thread").join().expect("a call that passes");
    });
}

/// Lists of so many runs, with their images in falling order, and in one that the sort takes all its room for; and one with cuts, whose
/// last run is as long as the others together, and goes to their starts.
fn lists(k: u32) -> [RunList<'static>; 3] {
    let starts: Vec<u32> = (0..k).map(|x| 3 * x).collect();
    let falling: Vec<u32> = starts.iter().rev().copied().collect();
    // 5 has no factor in common with a power of two, so each rank comes once.
    let shuffled: Vec<u32> = (0..k).map(|x| 3 * (x.wrapping_mul(5) % k)).collect();
    let others = 3 * (k - 1);
    let cut: Vec<u32> = (0..k - 1).map(|x| others + 3 * x).chain([0]).collect();
    [(3 * k, falling), (3 * k, shuffled), (2 * others, cut)]
        .map(|(n, images)| RunList::new(n, starts.clone(), images).expect("a legal list"))
}

/// How many runs go on where the run before them ends, in the images too.
fn follow_on(list: &RunList) -> usize {
    let (starts, images) = (list.starts(), list.images());
    (1..list.runs()).filter(|&x| images[x].checked_sub(images[x - 1]) == Some(starts[x] - starts[x - 1])).count()
}

/// The calls that take least come first, each on all lists: a later thread may get the stack of an earlier one, if that is larger. So
/// it shows where a number is too low for all calls that share it, and not where one of them alone is given less.
#[test]
fn calls_on_lists() {
    let lists: Vec<RunList> = [32, 256, 1024, 16384].into_iter().flat_map(lists).collect();
    for list in &lists {
        let (n, starts, images) = (list.n(), list.starts(), list.images());
        within(180, || assert!(RunList::new(n, starts, images).is_ok()));
        within(180, || assert!(RunList::new(n, starts, vec![0; starts.len()]).is_err()));
        within(180, || assert_eq!(list.inverse().runs(), list.runs()));
        within(180, || assert_eq!(list.folded().runs(), list.runs() - follow_on(list)));
        within(180, || assert!(list.successor().is_err()));
        within(180, || assert!(list.forecast(2).is_ok()));
        within(180, || assert!(list.least_degree(u32::MAX).is_ok()));
        within(180, || assert!(list.balance(2).is_ok()));
    }
    let files: Vec<Vec<u8>> = lists.iter().map(|list| list.to_file(2).expect("a degree")).collect();
    for file in &files {
        within(200, || assert!(zibewoka::listing(file).ends_with('\n')));
    }
    for file in &files {
        within(264, || assert!(RunList::from_file(file).is_ok()));
    }
}

/// Every call on tables, and on those whose lengths are wrong.
#[test]
fn calls_on_tables() {
    for list in [2, 1024, 16384].into_iter().flat_map(lists) {
        let table = list.balance(2).expect("a degree");
        let wrong = MoveTable::from_columns(table.n(), vec![0], vec![0], vec![0], vec![0]);
        within(1, || {
            for table in [&table, &wrong] {
                let at = table.find(table.n() / 2).unwrap_or_default();
                let _ = (table.step(at), table.steps(at, 1000), table.preimage(0), table.weight(0));
                let _ = (table.starts_under(0), table.walk(at).take(9).count(), Bookmark::new(at).advance(table));
                let _ = table.questions(&mut [Question::new(0), Question::new(1)]);
            }
        });
    }
}
