//! Works on many files, on all processors. The results are in the files' order, whichever processor made them.

use std::{
    io::{self, IsTerminal, Write},
    sync::{
        Mutex,
        atomic::{AtomicUsize, Ordering},
    },
    thread,
    time::{Duration, Instant},
};

use crate::plot::grouped;

/// The width of a full bar in letters, and how often it is drawn.
const BAR: usize = 30;
const EVERY: Duration = Duration::from_millis(100);

/// Works on each item, on all processors. `done` says what happened to an item, such as `read`.
pub fn each<I: Sync, T: Send>(items: &[I], done: &str, work: impl Fn(&I) -> T + Sync) -> Vec<T> {
    let processors = thread::available_parallelism().map_or(1, usize::from);
    on(processors, items, done, work)
}

/// The same, on this many processors.
fn on<I: Sync, T: Send>(
    processors: usize,
    items: &[I],
    done: &str,
    work: impl Fn(&I) -> T + Sync,
) -> Vec<T> {
    let (next, progress) = (AtomicUsize::new(0), Progress::new(items.len(), done));
    let worker = || {
        let mut worked = Vec::new();
        loop {
            let index = next.fetch_add(1, Ordering::Relaxed);
            let Some(item) = items.get(index) else {
                return worked;
            };
            worked.push((index, work(item)));
            progress.one_more();
        }
    };
    let mut worked: Vec<(usize, T)> = match processors.min(items.len()) {
        0 | 1 => worker(),
        workers => thread::scope(|scope| {
            let workers: Vec<_> = (0..workers).map(|_| scope.spawn(worker)).collect();
            let joined = workers.into_iter().map(thread::ScopedJoinHandle::join);
            joined
                .flat_map(|worked| worked.unwrap_or_else(|panic| std::panic::resume_unwind(panic)))
                .collect()
        }),
    };
    worked.sort_by_key(|(index, _)| *index);
    worked.into_iter().map(|(_, work)| work).collect()
}

/// A bar on a terminal, if there is more than one item.
struct Progress<'a> {
    all: usize,
    done: &'a str,
    so_far: AtomicUsize,
    drawn: Option<Mutex<Instant>>,
}

impl<'a> Progress<'a> {
    fn new(all: usize, done: &'a str) -> Self {
        let shown = all > 1 && io::stderr().is_terminal();
        Self {
            all,
            done,
            so_far: AtomicUsize::new(0),
            drawn: shown.then(|| Mutex::new(Instant::now())),
        }
    }

    fn one_more(&self) {
        let so_far = self.so_far.fetch_add(1, Ordering::Relaxed) + 1;
        // If another thread is drawing it, this one need not.
        let Some(Ok(mut drawn)) = self.drawn.as_ref().map(Mutex::try_lock) else {
            return;
        };
        if drawn.elapsed() >= EVERY {
            *drawn = Instant::now();
            let _ = write!(io::stderr(), "\r\x1b[K{}", bar(so_far, self.all, self.done));
        }
    }
}

impl Drop for Progress<'_> {
    fn drop(&mut self) {
        if self.drawn.is_some() {
            let _ = write!(io::stderr(), "\r\x1b[K");
        }
    }
}

fn bar(so_far: usize, all: usize, done: &str) -> String {
    let full = BAR * so_far / all.max(1);
    let [so_far, all] = [so_far, all].map(|number| grouped(number as u64));
    format!("[{:<BAR$}] {so_far} of {all} {done}", "#".repeat(full))
}

#[cfg(test)]
mod tests {
    use super::*;

    #[test]
    fn the_order_is_the_items_for_any_number_of_processors() {
        let items: Vec<u64> = (0..500).collect();
        let squares: Vec<u64> = items.iter().map(|item| item * item).collect();
        for processors in [1, 2, 3, 16, 1_000] {
            let work = |item: &u64| {
                // The first ones take longest.
                thread::sleep(Duration::from_micros(500 - item));
                item * item
            };
            assert_eq!(
                on(processors, &items, "done", work),
                squares,
                "{processors}"
            );
        }
        assert_eq!(on(4, &[], "done", |item: &u64| *item), []);
    }

    #[test]
    fn the_bar_grows() {
        assert_eq!(
            bar(37, 300, "audited"),
            "[###                           ] 37 of 300 audited"
        );
        assert_eq!(
            bar(2, 2, "read"),
            format!("[{}] 2 of 2 read", "#".repeat(30))
        );
    }
}
