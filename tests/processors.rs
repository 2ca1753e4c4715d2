//! Cases on all processors.

use crate::progress::Progress;
use std::ops::Range;
use std::thread;

/// What `run` gives for each case; the processors share the cases.
pub fn on_all_processors<T: Send>(
    what: &'static str,
    cases: Range<u64>,
    run: impl Fn(u64) -> T + Sync,
) -> Vec<T> {
    let processors = thread::available_parallelism().map_or(1, |n| n.get());
    let count = cases.end - cases.start;
    let progress = Progress::new(what, count);
    let run = &|case| {
        let result = run(cases.start + case);
        progress.step();
        result
    };
    let mut shares: Vec<_> = thread::scope(|scope| {
        let workers: Vec<_> = (0..processors)
            .map(|first| {
                let cases = (first as u64..count).step_by(processors);
                scope.spawn(move || cases.map(run).collect::<Vec<T>>())
            })
            .collect();
        let shares = workers.into_iter().map(|worker| worker.join());
        shares
            .map(|share| share.expect("a case panics").into_iter())
            .collect()
    });
    (0..count as usize)
        .map(|case| shares[case % processors].next().expect("a share is whole"))
        .collect()
}
