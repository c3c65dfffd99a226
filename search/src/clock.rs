// When a search ends: at a time, where one is given, or where somebody wants it. Without a time work alone decides,
// counted by what it costs, so that the same order always gets the same plan and none takes too long.
use std::sync::atomic::{AtomicBool, Ordering};
use std::time::{Duration, Instant};

/// Somebody wants the best plan so far.
static STOPPED: AtomicBool = AtomicBool::new(false);

/// Ends every search of this process.
pub fn stop() {
    STOPPED.store(true, Ordering::Relaxed);
}

#[derive(Clone, Copy, Debug)]
pub struct Clock {
    start: Instant,
    limit: Option<Duration>,
}

impl Clock {
    pub fn new(limit: Option<Duration>) -> Clock {
        Clock { start: Instant::now(), limit }
    }

    pub fn is_timed(&self) -> bool {
        self.limit.is_some()
    }

    /// The clock of this share of the time.
    pub fn share(&self, share: f64) -> Clock {
        Clock { limit: self.limit.map(|limit| limit.mul_f64(share)), ..*self }
    }

    pub fn is_over(&self) -> bool {
        let late = |limit: Duration| self.start.elapsed() >= limit;
        STOPPED.load(Ordering::Relaxed) || self.limit.is_some_and(late)
    }

    /// Whether there is so much time.
    fn has(&self, time: Duration) -> bool {
        self.limit.is_none_or(|limit| self.start.elapsed() + time <= limit)
    }

    pub fn elapsed(&self) -> Duration {
        self.start.elapsed()
    }
}

/// The work of about a second.
pub const SECOND: i64 = 1_000_000_000;

/// The longest call: what it gave is computed anew for the verdict.
const LONGEST_CALL: u64 = 2 * SECOND as u64;

/// Work that is left, in what takes about a nanosecond, and the clock, which may end it too.
#[derive(Clone, Copy, Debug)]
pub struct Work {
    left: i64,
    clock: Clock,
}

impl Work {
    pub fn new(left: i64, clock: Clock) -> Work {
        Work { left, clock }
    }

    pub fn left(&self) -> i64 {
        self.left
    }

    pub fn spend(&mut self, work: usize) {
        self.left -= work as i64;
    }

    /// Does something with so much of it at most.
    pub fn with_part<A>(&mut self, most: i64, what: impl FnOnce(&mut Work) -> A) -> A {
        let mut part = Work { left: most.min(self.left), clock: self.clock };
        let before = part.left;
        let done = what(&mut part);
        self.left -= before - part.left;
        done
    }

    /// Whether there is the work and the time for a call of so much, and it is not too long.
    pub fn has_call(&self, work: u64) -> bool {
        let most = LONGEST_CALL.min(self.left.max(0) as u64);
        work <= most && self.clock.has(Duration::from_nanos(work))
    }

    pub fn is_over(&self) -> bool {
        self.left < 0 || self.clock.is_over()
    }
}
