//! How time is measured.

use std::time::Instant;

/// The processor time of this thread so far, in seconds: it does not advance while another program runs.
fn given() -> f64 {
    #[repr(C)]
    struct Time {
        seconds: i64,
        nanoseconds: i64,
    }
    extern "C" {
        fn clock_gettime(clock: i32, time: *mut Time) -> i32;
    }
    const OF_THREAD: i32 = 3;
    let mut time = Time { seconds: 0, nanoseconds: 0 };
    // Sound: it is the struct of x86-64 Linux, and borrowed until the call has ended.
    assert_eq!(unsafe { clock_gettime(OF_THREAD, &mut time) }, 0);
    time.seconds as f64 + time.nanoseconds as f64 / 1e9
}

/// Seconds from which on a task is long. A short one has a run now and then in which no other program gets in; a long one may have none.
/// But the processor time was seen to be ten microseconds short, so short tasks go by the clock alone.
const LONG: f64 = 0.005;

/// The least time that a task has taken, in seconds. Tasks that are compared run in alternation, so that whatever else the machine does
/// affects them alike.
#[derive(Clone, Copy)]
pub struct Least(f64);

impl Least {
    /// Nothing was timed yet.
    pub const NONE: Least = Least(f64::MAX);

    /// By the clock, and for a long task by processor time if another program got in.
    pub fn time(&mut self, work: impl FnOnce()) {
        let (before, start) = (given(), Instant::now());
        work();
        let elapsed = start.elapsed().as_secs_f64();
        let worked = given() - before;
        self.0 = self.0.min(if worked < LONG { elapsed } else { elapsed.min(worked) });
    }

    pub fn seconds(self) -> f64 {
        self.0
    }

    /// Millions a second, for `count` in a task.
    pub fn rate(self, count: usize) -> f64 {
        count as f64 / self.0 / 1e6
    }
}

/// The plain version runs only once in this many: otherwise it would take most of the time.
const SELDOM: usize = 20;

/// The same task by each of the three versions.
pub struct Three {
    pub library: Least,
    pub fast: Least,
    pub plain: Least,
}

impl Three {
    /// The versions in alternation.
    pub fn time(turns: usize, mut library: impl FnMut(), mut fast: impl FnMut(), mut plain: impl FnMut()) -> Three {
        let mut three = Three { library: Least::NONE, fast: Least::NONE, plain: Least::NONE };
        for turn in 0..turns {
            three.library.time(&mut library);
            three.fast.time(&mut fast);
            if turn % SELDOM == 0 {
                three.plain.time(&mut plain);
            }
        }
        three
    }
}
