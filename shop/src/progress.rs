// One line on a terminal that shows how a search goes on.
use crate::search::{Progress, Seen};
use std::io::{stderr, IsTerminal};
use std::time::Duration;

/// What takes a line of a terminal away.
const CLEAR: &str = "\r\x1b[K";

pub struct Line {
    shown: bool,
}

impl Line {
    /// A line that is shown where there is a terminal.
    pub fn new() -> Line {
        Line { shown: stderr().is_terminal() }
    }

    /// What a search tells.
    pub fn progress(&self) -> Progress {
        if self.shown {
            Progress::new(show)
        } else {
            Progress::none()
        }
    }

    /// Takes the line away.
    pub fn clear(&self) {
        if self.shown {
            eprint!("{CLEAR}");
        }
    }
}

fn show(seen: Seen, elapsed: Duration) {
    let seconds = elapsed.as_secs();
    match seen {
        Seen::Worth { worth, most } => {
            let gap = 100.0 * (most - worth) as f64 / worth.max(1) as f64;
            eprint!("{CLEAR}{seconds} s: at most {gap:.2} % more is possible");
        }
        Seen::Cost { boards, cost, least } if cost > least => {
            let gap = 100.0 * (cost - least) as f64 / least.max(1) as f64;
            eprint!("{CLEAR}{seconds} s: {boards} boards, at most {gap:.1} % too many");
        }
        Seen::Cost { boards, .. } => eprint!("{CLEAR}{seconds} s: {boards} boards, the fewest"),
    }
}
