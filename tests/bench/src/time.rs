//! Times of two calls, taken in turns.

use std::time::Duration;

/// Rounds of which the median counts.
const ROUNDS: usize = 15;

/// How long one round of one call lasts at least.
const ROUND: Duration = Duration::from_micros(1_500);

/// Nanoseconds per call.
#[derive(Clone, Copy)]
pub struct Times {
    pub engine: f64,
    pub reference: f64,
}

impl Times {
    pub fn ratio(&self) -> f64 {
        self.engine / self.reference
    }
}

/// The engine's call and the reference's, on the same input.
pub struct Pair<'a> {
    pub engine: Box<dyn FnMut() + 'a>,
    pub reference: Box<dyn FnMut() + 'a>,
}

impl Pair<'_> {
    pub fn times(self) -> Times {
        together(vec![self])[0]
    }
}

/// The median times of each pair. One round of every call follows the other,
/// so that a change in the machine's pace meets them all alike.
pub fn together(mut pairs: Vec<Pair>) -> Vec<Times> {
    let counts: Vec<(u32, u32)> = pairs
        .iter_mut()
        .map(|pair| {
            (
                enough_calls(&mut pair.engine),
                enough_calls(&mut pair.reference),
            )
        })
        .collect();
    let mut times = vec![(Vec::new(), Vec::new()); pairs.len()];
    for _ in 0..ROUNDS {
        for (index, pair) in pairs.iter_mut().enumerate() {
            let (engine_calls, reference_calls) = counts[index];
            times[index]
                .0
                .push(per_call(&mut pair.engine, engine_calls));
            times[index]
                .1
                .push(per_call(&mut pair.reference, reference_calls));
        }
    }
    let medians = |(engine, reference)| Times {
        engine: median(engine),
        reference: median(reference),
    };
    times.into_iter().map(medians).collect()
}

/// As many calls as one round needs.
fn enough_calls(call: &mut impl FnMut()) -> u32 {
    let mut calls = 1;
    loop {
        let begin = now();
        (0..calls).for_each(|_| call());
        if now() - begin >= ROUND || calls >= 1 << 24 {
            return calls;
        }
        calls *= 2;
    }
}

fn per_call(call: &mut impl FnMut(), calls: u32) -> f64 {
    let begin = now();
    (0..calls).for_each(|_| call());
    (now() - begin).as_nanos() as f64 / f64::from(calls)
}

fn median(mut times: Vec<f64>) -> f64 {
    times.sort_by(f64::total_cmp);
    times[times.len() / 2]
}

/// The processor time of this thread: other work on the machine, which may
/// interrupt it, is not counted.
#[cfg(target_os = "linux")]
fn now() -> Duration {
    #[repr(C)]
    struct Timespec {
        seconds: i64,
        nanoseconds: i64,
    }
    unsafe extern "C" {
        fn clock_gettime(clock: i32, time: *mut Timespec) -> i32;
    }
    const THREAD_TIME: i32 = 3;
    let mut time = Timespec {
        seconds: 0,
        nanoseconds: 0,
    };
    // SAFETY: the call writes one Timespec, as 64-bit Linux lays it out.
    let outcome = unsafe { clock_gettime(THREAD_TIME, &mut time) };
    assert_eq!(outcome, 0, "no processor time to be had");
    Duration::new(time.seconds as u64, time.nanoseconds as u32)
}

/// Elsewhere the time on the clock.
#[cfg(not(target_os = "linux"))]
fn now() -> Duration {
    use std::sync::OnceLock;
    use std::time::Instant;
    static BEGIN: OnceLock<Instant> = OnceLock::new();
    BEGIN.get_or_init(Instant::now).elapsed()
}
