//! Shows how far a long run has come, on standard error: on a terminal a line that is rewritten, else a new line now and then.

use std::io::{stderr, IsTerminal, Write};
use std::sync::atomic::{AtomicU64, Ordering};
use std::sync::mpsc::{channel, Receiver, RecvTimeoutError};
use std::thread;
use std::time::Duration;

/// How long it is from one showing to the next.
const ON_TERMINAL: Duration = Duration::from_millis(200);
const ELSEWHERE: Duration = Duration::from_secs(10);

/// Clears the line that a terminal's cursor is on.
const CLEAR: &str = "\r\x1b[K";

/// Does the work and meanwhile shows how many of so many cases are done; the work counts them.
pub fn shown<T>(cases: u64, work: impl FnOnce(&AtomicU64) -> T) -> T {
    let done = AtomicU64::new(0);
    thread::scope(|scope| {
        // The channel carries nothing: that its sender is gone says that the work is over.
        let (working, over) = channel();
        scope.spawn(|| show(cases, &done, over));
        let result = work(&done);
        drop(working);
        result
    })
}

/// Shows the count until the work is over. Where standard error cannot be written to, nothing is shown.
fn show(cases: u64, done: &AtomicU64, over: Receiver<()>) {
    let terminal = stderr().is_terminal();
    let pause = if terminal { ON_TERMINAL } else { ELSEWHERE };
    while over.recv_timeout(pause) == Err(RecvTimeoutError::Timeout) {
        let done = done.load(Ordering::Relaxed);
        let text = format!("{done} of {cases} cases");
        let _ = match terminal {
            // The cursor goes back, so that what is printed next stands in the place of this line.
            true => write!(stderr(), "{text}\r"),
            false => writeln!(stderr(), "{text}"),
        };
    }
    if terminal {
        let _ = write!(stderr(), "{CLEAR}");
    }
}
