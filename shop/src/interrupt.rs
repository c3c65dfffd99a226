// Ctrl-C ends the search, and the best plan so far is written. A second one ends the program.
use crate::search::stop;

const SIGINT: i32 = 2;
const DEFAULT: usize = 0;

extern "C" {
    fn signal(number: i32, handler: usize) -> usize;
}

extern "C" fn on_interrupt(_: i32) {
    stop();
    // SAFETY: `signal` may be called in a handler, and the default handler is a valid one.
    unsafe { signal(SIGINT, DEFAULT) };
}

pub fn catch() {
    // SAFETY: the handler stores an atomic and sets a handler, both of which a handler may do.
    unsafe { signal(SIGINT, on_interrupt as *const () as usize) };
}
