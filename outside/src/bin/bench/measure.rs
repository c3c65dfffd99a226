// The least processor time of a call: the contenders take turns, so that all meet the same machine.
// Short calls are repeated within one sample; long ones have fewer samples, the longest one.
use crate::calls::Run;
use crate::jobs::Job;
use crate::memory::Memory;

const SHORTEST_SECONDS: f64 = 1e-8;
const SAMPLE_SECONDS: f64 = 0.005;
pub const LINE_SECONDS: f64 = 2.5;
pub const FEWEST: usize = 5;
pub const MOST: usize = 25;

/// The least seconds of one call, for each contender; the first run of each tells how many samples are made.
pub fn least(contenders: &[Run], first: &[f64], job: &Job, memory: &mut Memory) -> Vec<f64> {
    let once: Vec<f64> = first.iter().map(|&seconds| seconds.max(SHORTEST_SECONDS)).collect();
    let repeats: Vec<usize> = once.iter().map(|one| (SAMPLE_SECONDS / one).ceil() as usize).collect();
    let round: f64 = once.iter().zip(&repeats).map(|(one, &repeats)| one * repeats as f64).sum();
    if round > LINE_SECONDS {
        return once;
    }
    let rounds = ((LINE_SECONDS / round) as usize).clamp(FEWEST, MOST);
    let mut least = vec![f64::INFINITY; contenders.len()];
    for _ in 0..rounds {
        for ((run, &repeats), least) in contenders.iter().zip(&repeats).zip(&mut least) {
            let all = seconds(|| (0..repeats).for_each(|_| _ = run(job, memory)));
            *least = least.min(all / repeats as f64);
        }
    }
    least
}

pub fn seconds(work: impl FnOnce()) -> f64 {
    let start = thread_seconds();
    work();
    thread_seconds() - start
}

#[repr(C)]
struct TimeSpec {
    seconds: i64,
    nanoseconds: i64,
}

extern "C" {
    fn clock_gettime(clock: i32, time: *mut TimeSpec) -> i32;
}

/// The processor time of this thread.
fn thread_seconds() -> f64 {
    const CLOCK_THREAD_CPUTIME_ID: i32 = 3;
    let mut time = TimeSpec { seconds: 0, nanoseconds: 0 };
    // SAFETY: the time is written as the C library lays it out.
    let failed = unsafe { clock_gettime(CLOCK_THREAD_CPUTIME_ID, &mut time) };
    assert_eq!(failed, 0, "the thread's clock is read");
    time.seconds as f64 + time.nanoseconds as f64 * 1e-9
}
