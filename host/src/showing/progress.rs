//! A sign that work goes on: a spinner with the elapsed time, where a person looks at standard error and waits for longer than a moment.

use std::io::{self, IsTerminal};
use std::panic::resume_unwind;
use std::sync::mpsc::{self, RecvTimeoutError};
use std::thread;
use std::time::Duration;

use indicatif::{ProgressBar, ProgressStyle};

/// Work that is done by then needs no sign.
const MOMENT: Duration = Duration::from_millis(500);
const TURN: Duration = Duration::from_millis(100);

/// Does the work, and shows the spinner while it lasts; nothing of it is left on the screen.
pub fn shown<T: Send>(work: impl FnOnce() -> T + Send) -> T {
    if !io::stderr().is_terminal() {
        return work();
    }
    thread::scope(|scope| {
        let (done, waits) = mpsc::channel::<()>();
        let worker = scope.spawn(move || {
            let answer = work();
            drop(done);
            answer
        });
        if waits.recv_timeout(MOMENT) == Err(RecvTimeoutError::Timeout) {
            let bar = spinner();
            // The end of the channel, by the work's end or by its panic.
            let _ = waits.recv();
            bar.finish_and_clear();
        }
        worker.join().unwrap_or_else(|panic| resume_unwind(panic))
    })
}

fn spinner() -> ProgressBar {
    let bar = ProgressBar::new_spinner();
    if let Ok(style) = ProgressStyle::with_template("{spinner} families: working, {elapsed}") {
        bar.set_style(style);
    }
    bar.enable_steady_tick(TURN);
    bar.with_elapsed(MOMENT)
}

#[cfg(test)]
mod tests {
    use super::*;

    #[test]
    fn the_work_is_done_once_and_its_answer_comes_back() {
        let mut times = 0;
        let answer = shown(|| {
            times += 1;
            7
        });
        assert_eq!((answer, times), (7, 1));
    }
}
