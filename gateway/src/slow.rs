//! Requests that took long, as lines on the standard error: at most one a second.

use std::time::{Duration, Instant};

use crate::counts::operation;
use crate::failure::tell;

const PAUSE: Duration = Duration::from_secs(1);

/// The time from which on a request is told, 0 for none, how many weren't since the last line, and when the next may be.
pub struct Slow {
    from: Duration,
    left_out: u64,
    due: Instant,
}

impl Slow {
    pub fn new(from: Duration, now: Instant) -> Slow {
        Slow { from, left_out: 0, due: now }
    }

    pub fn is_slow(&self, time: Duration) -> bool {
        !self.from.is_zero() && time >= self.from
    }

    /// Tells of a request of a client that was answered now, after so long, or counts it.
    pub fn note(&mut self, code: u8, client: u64, process: Option<i32>, time: Duration, now: Instant) {
        if now < self.due {
            self.left_out += 1;
            return;
        }
        let process = process.map_or(String::new(), |process| format!(", process {process},"));
        let left_out = std::mem::take(&mut self.left_out);
        let more = if left_out > 0 { format!(", and {left_out} more were slow") } else { String::new() };
        let (name, seconds) = (operation(code).unwrap_or("other"), time.as_secs_f64());
        tell(format_args!("{name} of client {client}{process} took {seconds:.3} s{more}"));
        self.due = now + PAUSE;
    }
}
