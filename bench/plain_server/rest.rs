//! Gateway workers that rest while the others are enough, as those of `lorawan_ns serve`, with `--rest`.

use std::sync::{Condvar, Mutex};
use std::time::Duration;

const THERE: Duration = Duration::from_micros(10); // sooner than this after its receive began a datagram was there before
const WAITED: Duration = Duration::from_micros(25); // from this on it was waited for
const SELDOM: Duration = Duration::from_millis(1); // where one is waited for so long nobody rests
const MANY: u64 = 64; // after so many in a row that were there before another worker is woken
const MOST: Duration = Duration::from_millis(5); // how long a worker rests

/// How many rest, and a bell for them.
#[derive(Default)]
pub struct Resting {
    count: Mutex<u64>,
    bell: Condvar,
}

/// How the last datagrams of a worker came.
#[derive(Default)]
pub struct Pace {
    there: u64,
    pub waited: bool,
}

impl Pace {
    /// A datagram came so long after its receive began: whether another worker is to be woken.
    pub fn comes(&mut self, after: Duration) -> bool {
        self.waited = after >= WAITED && after < SELDOM;
        self.there = if after < THERE { self.there + 1 } else { 0 };
        let is_many = self.there == MANY;
        if is_many {
            self.there = 0;
        }
        is_many
    }
}

impl Resting {
    /// Rests until it is woken, unless all other workers rest.
    pub fn rest(&self, workers: u64) {
        let mut count = self.count.lock().unwrap();
        if *count + 1 < workers {
            *count += 1;
            *self.bell.wait_timeout(count, MOST).unwrap().0 -= 1;
        }
    }

    pub fn wake(&self) {
        if *self.count.lock().unwrap() > 0 {
            self.bell.notify_one();
        }
    }
}
