//! Many files side by side, one thread a core, each with one work area for all its files; what they come to is taken in the
//! order given.

use crate::output::complain;
use indicatif::{ProgressBar, ProgressDrawTarget};
use reckonbough::WorkArea;
use std::collections::BTreeMap;
use std::path::{Path, PathBuf};
use std::sync::atomic::{AtomicUsize, Ordering};
use std::sync::mpsc;
use std::thread;

/// Zielonka's recursion needs 2 MiB at most; the rest is for what is around it. A multiple of 2 MiB would be given as large pages
/// where the system has them for everything, and cleared whole.
const STACK: usize = 3 << 20;

/// Does the work on each file and takes the results in order. Gives back whether that could be done.
pub fn in_order<T: Send>(
    files: &[PathBuf],
    quiet: bool,
    work: impl Fn(&Path, &mut WorkArea) -> T + Sync,
    mut take: impl FnMut(T),
) -> bool {
    let (bar, next) = (progress(files.len(), quiet), AtomicUsize::new(0));
    let (sender, receiver) = mpsc::channel();
    thread::scope(|scope| {
        let mut started = 0;
        for _ in 0..threads(files.len()) {
            let (sender, next, work) = (sender.clone(), &next, &work);
            let worker = move || {
                let mut area = WorkArea::new();
                while let Some((index, file)) = following(files, next) {
                    // the receiver goes away only with the command
                    let _ = sender.send((index, work(file, &mut area)));
                }
            };
            started += usize::from(thread::Builder::new().stack_size(STACK).spawn_scoped(scope, worker).is_ok());
        }
        drop(sender);
        let mut waiting = BTreeMap::new();
        let mut turn = 0;
        for (index, result) in receiver {
            waiting.insert(index, result);
            while let Some(result) = waiting.remove(&turn) {
                bar.suspend(|| take(result));
                turn += 1;
            }
            bar.inc(1);
        }
        bar.finish_and_clear();
        if started == 0 && !files.is_empty() {
            complain("reckonbough: no thread can be started");
        }
        turn == files.len()
    })
}

fn following<'a>(files: &'a [PathBuf], next: &AtomicUsize) -> Option<(usize, &'a PathBuf)> {
    let index = next.fetch_add(1, Ordering::Relaxed);
    files.get(index).map(|file| (index, file))
}

/// One a core, and no more than there are files; for one file nobody has to ask how many cores there are.
fn threads(files: usize) -> usize {
    match files {
        0 | 1 => files,
        _ => thread::available_parallelism().map_or(1, |cores| cores.get()).min(files),
    }
}

/// A bar on standard error where that is a terminal and there is more than one file.
fn progress(files: usize, quiet: bool) -> ProgressBar {
    if quiet || files < 2 {
        return ProgressBar::hidden();
    }
    let bar = ProgressBar::with_draw_target(Some(files as u64), ProgressDrawTarget::stderr());
    bar.tick();
    bar
}
