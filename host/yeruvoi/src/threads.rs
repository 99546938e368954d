//! Work on the items of a list, by several threads.

use std::num::NonZero;
use std::thread::{self, Builder};

/// More threads than this take longer to start than they save.
const MOST: usize = 8;

/// The results of the work, in the list's order. A share whose thread cannot be started is done here.
pub fn map<Item: Sync, Made: Send>(
    items: &[Item],
    work: impl Fn(&Item) -> Made + Sync,
) -> Vec<Made> {
    let threads = thread::available_parallelism().map_or(1, NonZero::get);
    let share = items.len().div_ceil(threads.min(MOST)).max(1);
    let on_share = &|items: &[Item]| items.iter().map(&work).collect::<Vec<Made>>();
    thread::scope(|scope| {
        let start = |items| {
            let started = Builder::new().spawn_scoped(scope, move || on_share(items));
            started.map_err(|_| items)
        };
        let started: Vec<_> = items.chunks(share).map(start).collect();
        let ended = started.into_iter().map(|thread| match thread {
            Ok(thread) => thread.join().expect("a thread that ended"),
            Err(items) => on_share(items),
        });
        ended.flatten().collect()
    })
}
