//! A clock for measurements: the time that the processor spent on this
//! program, where the system tells it, so that other programs on the machine
//! disturb a measurement less.

use std::fs;
use std::thread;
use std::time::{Duration, Instant};

pub struct Clock {
    wall: Instant,
    processor: Option<Duration>,
}

impl Clock {
    pub fn start() -> Clock {
        Clock {
            processor: processor_time(),
            wall: Instant::now(),
        }
    }

    pub fn elapsed(&self) -> Duration {
        let wall = self.wall.elapsed();
        match (self.processor, processor_time()) {
            (Some(start), Some(now)) => now.saturating_sub(start),
            _ => wall,
        }
    }
}

/// What the system has counted for this thread so far.
fn processor_time() -> Option<Duration> {
    // The count is brought up to date when the scheduler looks at the thread.
    thread::yield_now();
    let counts = fs::read_to_string("/proc/self/schedstat").ok()?;
    let nanoseconds = counts.split_whitespace().next()?.parse().ok()?;
    Some(Duration::from_nanos(nanoseconds))
}
