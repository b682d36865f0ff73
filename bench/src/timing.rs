//! Times of several sides that take turns. They are processor time, so that other programs of a
//! busy machine count for nothing.

/// One side of a comparison: work to be timed as a whole.
pub type Side<'a> = Box<dyn FnMut() + 'a>;

/// Nanoseconds of so many rounds, a list for each side. In a round every side runs once, so that
/// whatever slows the machine down slows all of them; before the first each has run once.
pub fn times(rounds: usize, sides: &mut [Side]) -> Vec<Vec<f64>> {
    let mut times = vec![Vec::with_capacity(rounds); sides.len()];
    for side in sides.iter_mut() {
        side();
    }
    for _ in 0..rounds {
        for (side, times) in sides.iter_mut().zip(&mut times) {
            let begun = processor_time();
            side();
            times.push(processor_time() - begun);
        }
    }
    times
}

pub fn median(mut numbers: Vec<f64>) -> f64 {
    numbers.sort_by(f64::total_cmp);
    numbers[numbers.len() / 2]
}

mod libc {
    /// Seconds, and the rest in nanoseconds or microseconds.
    #[repr(C)]
    #[derive(Clone, Copy, Default)]
    pub struct Time {
        pub seconds: i64,
        pub rest: i64,
    }

    #[repr(C)]
    #[derive(Default)]
    pub struct Usage {
        pub user: Time,
        pub system: Time,
        pub others: [i64; 14],
    }

    pub const PROCESS: i32 = 2;
    pub const CHILDREN: i32 = -1;

    unsafe extern "C" {
        pub safe fn clock_gettime(clock: i32, time: &mut Time) -> i32;
        pub safe fn getrusage(who: i32, usage: &mut Usage) -> i32;
    }
}

/// Nanoseconds that this process and the programs that it has run have had of a processor, on
/// 64-bit Linux.
fn processor_time() -> f64 {
    let mut own = libc::Time::default();
    let mut children = libc::Usage::default();
    assert_eq!(libc::clock_gettime(libc::PROCESS, &mut own), 0);
    assert_eq!(libc::getrusage(libc::CHILDREN, &mut children), 0);
    let nanoseconds =
        |time: libc::Time, unit: f64| time.seconds as f64 * 1e9 + time.rest as f64 * unit;
    nanoseconds(own, 1.0) + nanoseconds(children.user, 1e3) + nanoseconds(children.system, 1e3)
}
