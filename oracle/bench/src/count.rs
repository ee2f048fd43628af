//! One side of one row, `n` times and nothing else, for callgrind: the counts of two `n` differ by the row alone.
use crate::files::{Desk, FileRow};
use crate::ours::{bytes, Ours};
use crate::rows::{Row, Work};
use crate::theirs::{build, field, Call, Lists, Ready, Theirs};
use reference::flursys::workbench::results::ResultDataset;
use reference::flursys::Vec3;
use std::hint::black_box;

/// No more than this many times: inputs that a run uses up are laid out before, for every `n` alike.
pub const MOST: usize = 2;

/// Builds run in `n` jobs; a list of requests stands `n` times in one job, so that its mesh build falls out.
pub fn count_ours(row: &Row, n: usize) {
    let mut ours = Ours::new(row.case());
    let Work::Requests { list, counted, .. } = row.work else {
        (0..n).for_each(|_| ours.job(&[]));
        return;
    };
    let list = list(counted);
    ours.fit(&list);
    let (requests, room) = (bytes(&list.repeat(MOST)), ours.answers.len());
    ours.answers = vec![0; MOST * room];
    ours.answers.truncate(n * room);
    ours.job(&requests[..n * requests.len() / MOST]);
}

pub fn count_theirs(row: &Row, n: usize) {
    let case = row.shape.case();
    match row.work {
        Work::Build => count_builds(&case, n, |lists, _| std::mem::forget(black_box(build(lists)))),
        Work::BuildField => count_builds(&case, n, |lists, velocities| {
            let data = ResultDataset::stub(build(lists), velocities);
            std::mem::forget(black_box((field(&data), data)));
        }),
        Work::Requests { list, counted, .. } => {
            let theirs = Theirs::new(&case);
            let calls: Vec<Call> = list(counted).iter().map(Call::of).collect();
            for call in (0..n).flat_map(|_| &calls) {
                std::mem::forget(black_box(theirs.serve(call)));
            }
        }
    }
}

fn count_builds(case: &[u8], n: usize, run: impl Fn(Lists, Vec<Vec3>)) {
    let ready = Ready::new(case);
    let mut inputs = [0; MOST].map(|_| Some((ready.lists(), ready.velocities())));
    for input in &mut inputs[..n] {
        let (lists, velocities) = input.take().expect("not used before");
        run(lists, velocities);
    }
    std::mem::forget(inputs);
}

/// The file made, or copied.
pub fn count_file(row: &FileRow, n: usize, copied: bool) -> Result<(), String> {
    let mut desk = Desk::new(row)?;
    (0..n).for_each(|_| if copied { desk.copy() } else { desk.make() });
    Ok(())
}
