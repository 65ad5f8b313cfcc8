//! Times of the library's call and the Rust program's, in turn.

use std::hint::black_box;
use std::time::Duration;

/// Samples of each.
pub const SAMPLES: usize = 51;

/// A sample takes this long at least.
pub const SHORTEST: Duration = Duration::from_millis(2);

/// The answer that both gave, and the microseconds that a call takes.
pub struct Timed {
    pub answer: u64,
    pub library: f64,
    pub reference: f64,
}

/// Times both in turn. They must give the same answer.
pub fn in_turn(mut library: impl FnMut() -> u64, mut reference: impl FnMut() -> u64) -> Timed {
    let answer = library();
    assert!(answer == reference(), "they disagree");
    let (library_calls, reference_calls) = (enough(&mut library), enough(&mut reference));
    let (mut of_library, mut of_reference) = (Vec::new(), Vec::new());
    for _ in 0..SAMPLES {
        of_library.push(sample(&mut library, library_calls));
        of_reference.push(sample(&mut reference, reference_calls));
    }
    Timed {
        answer,
        library: median(of_library),
        reference: median(of_reference),
    }
}

/// How many calls a sample has.
fn enough(call: &mut impl FnMut() -> u64) -> u32 {
    let mut calls = 1;
    while sample(call, calls) * (calls as f64) < SHORTEST.as_secs_f64() * 1e6 {
        calls *= 2;
    }
    calls
}

/// Microseconds for one of so many calls.
fn sample(call: &mut impl FnMut() -> u64, calls: u32) -> f64 {
    let start = processor_time();
    for _ in 0..calls {
        black_box(call());
    }
    (processor_time() - start).as_secs_f64() * 1e6 / calls as f64
}

/// The processor time that this thread has had, on Linux: other programs that run count little.
pub fn processor_time() -> Duration {
    #[repr(C)]
    struct Time {
        seconds: i64,
        nanoseconds: i64,
    }
    extern "C" {
        fn clock_gettime(clock: i32, time: *mut Time) -> i32;
    }
    const THREAD_CLOCK: i32 = 3;
    let mut time = Time {
        seconds: 0,
        nanoseconds: 0,
    };
    // SAFETY: on 64-bit Linux the time is two 64-bit words, which the call writes.
    let failed = unsafe { clock_gettime(THREAD_CLOCK, &mut time) };
    assert!(failed == 0, "no clock");
    Duration::new(time.seconds as u64, time.nanoseconds as u32)
}

fn median(mut times: Vec<f64>) -> f64 {
    times.sort_by(f64::total_cmp);
    times[times.len() / 2]
}

/// Three significant digits.
pub fn digits(value: f64) -> String {
    let whole = value.log10().floor() as i32 + 1;
    let unit = 10f64.powi(whole - 3);
    let decimals = (3 - whole).max(0) as usize;
    format!("{:.decimals$}", (value / unit).round() * unit)
}
