//! Work side by side, with results in the order of the work.

use std::collections::BTreeMap;
use std::sync::atomic::{AtomicUsize, Ordering};
use std::sync::mpsc::{self, Receiver, Sender};
use std::sync::Mutex;
use std::thread;

/// Does the work of each place below `count`, a thread for each tool, and hands the results on in order. Stops early where that fails.
pub fn side_by_side<T: Send, R: Send, E>(
    tools: Vec<T>,
    count: usize,
    work: impl Fn(&mut T, usize) -> R + Sync,
    hand_on: impl FnMut(usize, R) -> Result<(), E>,
) -> Result<(), E> {
    let wanted = tools.len();
    let tools = Mutex::new(tools);
    let next = AtomicUsize::new(0);
    let run = |sender: Sender<(usize, R)>| {
        let Some(mut tool) = tools.lock().ok().and_then(|mut tools| tools.pop()) else { return };
        let places = || Some(next.fetch_add(1, Ordering::Relaxed)).filter(|&place| place < count);
        while let Some(place) = places() {
            // Nobody hears once the output has failed.
            if sender.send((place, work(&mut tool, place))).is_err() {
                return;
            }
        }
    };
    thread::scope(|scope| {
        let (sender, receiver) = mpsc::channel();
        let start = |sender| thread::Builder::new().spawn_scoped(scope, || run(sender)).is_ok();
        if (0..wanted).filter(|_| start(sender.clone())).count() == 0 {
            run(sender.clone());
        }
        drop(sender);
        in_order(receiver, hand_on)
    })
}

/// Hands each result on once all before it were handed on.
fn in_order<R, E>(receiver: Receiver<(usize, R)>, mut hand_on: impl FnMut(usize, R) -> Result<(), E>) -> Result<(), E> {
    let mut waiting = BTreeMap::new();
    let mut due = 0;
    for (place, result) in receiver {
        waiting.insert(place, result);
        while let Some(result) = waiting.remove(&due) {
            hand_on(due, result)?;
            due += 1;
        }
    }
    Ok(())
}

#[cfg(test)]
mod tests {
    use super::*;
    use std::time::Duration;

    /// What is handed on before it fails at a place, and what comes of it.
    fn run(threads: usize, count: usize, fail_at: Option<usize>) -> (Vec<(usize, usize)>, Result<(), usize>) {
        let mut heard = Vec::new();
        let work = |used: &mut usize, place: usize| {
            *used += 1;
            thread::sleep(Duration::from_millis((count - place) as u64 % 3));
            place * place
        };
        let answer = side_by_side(vec![0; threads], count, work, |place, result| {
            if fail_at == Some(place) {
                return Err(place);
            }
            heard.push((place, result));
            Ok(())
        });
        (heard, answer)
    }

    #[test]
    fn results_come_in_order_for_any_number_of_threads() {
        for threads in [1, 2, 7, 40] {
            let (heard, answer) = run(threads, 30, None);
            assert_eq!(answer, Ok(()));
            assert_eq!(heard, (0..30).map(|place| (place, place * place)).collect::<Vec<_>>());
        }
        assert_eq!(run(3, 0, None).0, []);
    }

    #[test]
    fn a_failure_ends_the_work() {
        let (heard, answer) = run(2, 1000, Some(3));
        assert_eq!(answer, Err(3));
        assert_eq!(heard.len(), 3);
    }
}
