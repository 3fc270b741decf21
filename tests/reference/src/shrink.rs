//! Makes a counterexample small enough to read.

use std::time::{Duration, Instant};

/// Drops ever smaller pieces as long as what is left still differs, and as long as there is time.
pub fn shrunk<T: Clone>(mut items: Vec<T>, time: Duration, mut differs: impl FnMut(&[T]) -> bool) -> Vec<T> {
    let start = Instant::now();
    let mut piece = items.len() / 2;
    while piece > 0 {
        let mut place = 0;
        while place < items.len() && start.elapsed() < time {
            let end = (place + piece).min(items.len());
            let rest: Vec<T> = items[..place].iter().chain(&items[end..]).cloned().collect();
            if differs(&rest) {
                items = rest;
            } else {
                place = end;
            }
        }
        piece /= 2;
    }
    items
}
