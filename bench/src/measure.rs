//! Timing: passes of both sides in turn, and the median over some rounds. The clock is the thread's own processor
//! time, so that a busy machine disturbs less.

use std::time::{Duration, Instant};

#[repr(C)]
struct Timespec {
    seconds: i64,
    nanoseconds: i64,
}

extern "C" {
    fn clock_gettime(clock: i32, time: *mut Timespec) -> i32;
}

/// The processor time that this thread has taken.
fn taken() -> Duration {
    const THREAD: i32 = 3;
    let mut time = Timespec { seconds: 0, nanoseconds: 0 };
    // SAFETY: the pointer is to a timespec of 64-bit Linux.
    let failed = unsafe { clock_gettime(THREAD, &mut time) };
    assert!(failed == 0, "there is no clock of the thread's time");
    Duration::new(time.seconds as u64, time.nanoseconds as u32)
}

/// One side of a row.
pub trait Side {
    /// How many calls a pass makes.
    fn calls(&self) -> usize;
    /// Makes ready for a pass; not timed.
    fn prepare(&mut self) {}
    /// Makes call i of a pass.
    fn call(&mut self, i: usize);
}

/// Calls a pass where all are the same.
pub const AGAIN: usize = 32;

const ROUNDS: usize = 15;

/// The calls of a pass, which valgrind counts by this name.
#[no_mangle]
#[inline(never)]
pub fn measured_pass(side: &mut dyn Side) {
    for i in 0..side.calls() {
        side.call(i);
    }
}

/// Calls and the time they took.
#[derive(Default)]
struct Taken {
    calls: usize,
    time: Duration,
}

impl Taken {
    fn add_pass(&mut self, side: &mut dyn Side) {
        side.prepare();
        let start = taken();
        measured_pass(side);
        self.time += taken() - start;
        self.calls += side.calls();
    }

    fn rate(&self) -> f64 {
        self.calls as f64 / self.time.as_secs_f64()
    }
}

/// Calls a second of each side, the median of some rounds, which together take about so long.
pub fn rates(sides: &mut [Box<dyn Side>], seconds: f64) -> Vec<f64> {
    let slice = Duration::from_secs_f64(seconds / ROUNDS as f64);
    let mut rounds: Vec<Vec<f64>> = sides.iter().map(|_| vec![]).collect();
    // a round before the first warms up
    for round in 0..=ROUNDS {
        let start = Instant::now();
        let mut taken: Vec<Taken> = sides.iter().map(|_| Taken::default()).collect();
        loop {
            for (side, taken) in sides.iter_mut().zip(&mut taken) {
                // a slow side makes one pass while the others catch up
                let mut passes = 0;
                while passes == 0 || (taken.time < slice / 40 && passes < 20) {
                    taken.add_pass(side.as_mut());
                    passes += 1;
                }
            }
            if start.elapsed() >= slice {
                break;
            }
        }
        if round > 0 {
            for (rates, taken) in rounds.iter_mut().zip(&taken) {
                rates.push(taken.rate());
            }
        }
    }
    rounds.into_iter().map(median).collect()
}

fn median(mut values: Vec<f64>) -> f64 {
    values.sort_by(f64::total_cmp);
    values[values.len() / 2]
}
