//! Work in numbered parts on all processors.
use std::sync::Mutex;
use std::sync::atomic::{AtomicU64, Ordering};

/// What a function gives for each part, in the order of the parts, so that the number of processors makes no difference. Each processor
/// has tools of its own.
pub fn in_parts<T: Send, S>(parts: u64, tools: impl Fn() -> S + Sync, part: impl Fn(&mut S, u64) -> T + Sync) -> Vec<T> {
    let next = AtomicU64::new(0);
    let done = Mutex::new(Vec::new());
    let processors = std::thread::available_parallelism().map_or(1, |n| n.get());
    std::thread::scope(|scope| {
        for _ in 0..processors {
            scope.spawn(|| {
                let mut tools = tools();
                loop {
                    let number = next.fetch_add(1, Ordering::Relaxed);
                    if number >= parts {
                        break;
                    }
                    let result = part(&mut tools, number);
                    done.lock().unwrap().push((number, result));
                }
            });
        }
    });
    let mut done = done.into_inner().unwrap();
    done.sort_by_key(|(number, _)| *number);
    done.into_iter().map(|(_, result)| result).collect()
}
