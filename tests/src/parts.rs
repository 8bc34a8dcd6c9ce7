//! Work divided among the cores of the computer.

use std::num::NonZero;
use std::ops::Range;
use std::thread;

/// What the work gives for each part of so many items, one part for each core.
pub fn in_parts<T: Send>(items: u64, work: impl Fn(Range<u64>) -> T + Sync) -> Vec<T> {
    let work = &work;
    thread::scope(|scope| {
        let start = |part| scope.spawn(move || work(part));
        let running: Vec<_> = parts(items).into_iter().map(start).collect();
        let end = |thread: thread::ScopedJoinHandle<T>| thread.join().expect("work that ends");
        running.into_iter().map(end).collect()
    })
}

fn parts(items: u64) -> Vec<Range<u64>> {
    let threads = thread::available_parallelism().map_or(1, NonZero::get);
    let threads = u64::try_from(threads).expect("a count of 64 bits");
    let edge = |part: u64| items * part / threads;
    (0..threads)
        .map(|part| edge(part)..edge(part + 1))
        .collect()
}
