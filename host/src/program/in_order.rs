//! Work on all cores, with the results in order.

use std::collections::BTreeMap;
use std::num::NonZero;
use std::sync::mpsc::{self, Receiver, RecvTimeoutError, Sender};
use std::sync::{Mutex, PoisonError};
use std::thread;
use std::time::Duration;

/// How many items are worked on ahead of the one whose result is waited for, so that results take bounded room.
const AHEAD: usize = 256;

/// The stack of a thread: a check keeps its tables there, some hundred KiB.
const STACK: usize = 4 << 20;

/// How long a result is waited for before `take` is told that there is none yet.
pub const TICK: Duration = Duration::from_millis(50);

/// Does `work` on each item, on all cores, and hands the items with their results to `take`, in order, each as soon as those
/// before it are there; nothing, where that takes longer than a [`TICK`]. It ends early where `take` fails.
pub fn in_order<'a, T: Sync, R: Send, E>(
    items: &'a [T],
    work: impl Fn(&T) -> R + Sync,
    mut take: impl FnMut(Option<(&'a T, R)>) -> Result<(), E>,
) -> Result<(), E> {
    let (ask, asked) = mpsc::channel();
    let asked = Mutex::new(asked);
    let taken = thread::scope(|scope| {
        let (hand_over, results) = mpsc::channel();
        let threads = thread::available_parallelism().map_or(1, NonZero::get).min(items.len());
        for _ in 0..threads {
            let (hand_over, asked, work) = (hand_over.clone(), &asked, &work);
            // Where a thread can't be started, the others do its part.
            let _ = thread::Builder::new()
                .stack_size(STACK)
                .spawn_scoped(scope, move || work_on(items, asked, work, &hand_over));
        }
        drop(hand_over);
        hand_on(items, ask, &results, &mut take)
    })?;
    // All that is left where no thread could be started.
    items[taken..].iter().try_for_each(|item| take(Some((item, work(item)))))
}

/// What a thread does: it works on the items that are asked for, until nobody asks.
fn work_on<T, R>(items: &[T], asked: &Mutex<Receiver<usize>>, work: impl Fn(&T) -> R, hand_over: &Sender<(usize, R)>) {
    let next = || asked.lock().unwrap_or_else(PoisonError::into_inner).recv();
    while let Ok(x) = next() {
        if hand_over.send((x, work(&items[x]))).is_err() {
            break;
        }
    }
}

/// Asks for items, a bounded number ahead, and hands their results on in order; answers how many.
fn hand_on<'a, T, R, E>(
    items: &'a [T],
    ask: Sender<usize>,
    results: &Receiver<(usize, R)>,
    mut take: impl FnMut(Option<(&'a T, R)>) -> Result<(), E>,
) -> Result<usize, E> {
    // Where no thread is left to be asked, the results end too.
    let ask_for = |x: usize| {
        let _ = (x < items.len()).then(|| ask.send(x));
    };
    (0..AHEAD).for_each(ask_for);
    let mut early = BTreeMap::new();
    let mut taken = 0;
    while taken < items.len() {
        if let Some(result) = early.remove(&taken) {
            take(Some((&items[taken], result)))?;
            ask_for(taken + AHEAD);
            taken += 1;
            continue;
        }
        match results.recv_timeout(TICK) {
            Ok((x, result)) => drop(early.insert(x, result)),
            Err(RecvTimeoutError::Timeout) => take(None)?,
            Err(RecvTimeoutError::Disconnected) => break,
        }
    }
    Ok(taken)
}

#[cfg(test)]
mod tests {
    use super::*;

    #[test]
    fn results_come_in_order() {
        for count in [0, 1, 2, AHEAD - 1, AHEAD, AHEAD + 1, 5000] {
            let items: Vec<usize> = (0..count).collect();
            let work = |&x: &usize| {
                // Some take longer than those behind them.
                if x.is_multiple_of(97) {
                    thread::sleep(Duration::from_millis(2));
                }
                3 * x
            };
            let mut results = Vec::new();
            let ended = in_order(&items, work, |result| {
                results.extend(result.map(|(&x, tripled)| (x, tripled)));
                Ok::<(), ()>(())
            });
            assert_eq!((ended, results), (Ok(()), items.iter().map(|&x| (x, 3 * x)).collect()));
        }
    }

    #[test]
    fn slow_work_is_told() {
        let mut waits = 0;
        let ended = in_order(
            &[()],
            |()| thread::sleep(4 * TICK),
            |result| {
                waits += u32::from(result.is_none());
                Ok::<(), ()>(())
            },
        );
        assert!(ended.is_ok() && waits >= 1);
    }

    #[test]
    fn work_ends_where_taking_fails() {
        let items = [0; 10_000];
        let mut taken = 0;
        let ended = in_order(
            &items,
            |_| (),
            |result| {
                taken += usize::from(result.is_some());
                if taken < 10 {
                    Ok(())
                } else {
                    Err("full")
                }
            },
        );
        assert_eq!((ended, taken), (Err("full"), 10));
    }
}
