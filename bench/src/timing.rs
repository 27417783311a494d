//! Times several ways of doing one work. Their rounds take turns, and the time
//! is the processor's time for this thread, so that other programs on the
//! machine disturb little.

use std::ffi::{c_int, c_long};
use std::hint::black_box;
use std::time::Instant;

#[repr(C)]
struct Timespec {
    seconds: i64,
    nanos: c_long,
}

extern "C" {
    fn clock_gettime(clock: c_int, time: *mut Timespec) -> c_int;
}

const CLOCK_THREAD_CPUTIME_ID: c_int = 3;

/// Seconds of the processor for this thread.
fn spent() -> f64 {
    let mut time = Timespec { seconds: 0, nanos: 0 };
    // SAFETY: the struct has the layout of C's `struct timespec` on 64-bit Linux.
    let number = unsafe { clock_gettime(CLOCK_THREAD_CPUTIME_ID, &mut time) };
    assert_eq!(number, 0, "the clock is read");
    time.seconds as f64 + time.nanos as f64 * 1e-9
}

pub const ROUNDS: usize = 15;

/// A way of doing the work, under its name.
pub struct Way<'a> {
    name: &'a str,
    once: Box<dyn FnMut() + 'a>,
}

pub fn way<'a, T>(name: &'a str, mut once: impl FnMut() -> T + 'a) -> Way<'a> {
    Way { name, once: Box::new(move || drop(black_box(once()))) }
}

/// How often to run something so that a round takes some 40 ms.
fn repeats(once: &mut dyn FnMut()) -> u32 {
    let start = Instant::now();
    once();
    (0.040 / start.elapsed().as_secs_f64()).clamp(1.0, 100_000.0) as u32
}

fn round(n: u32, before: &mut dyn FnMut(), once: &mut dyn FnMut()) -> f64 {
    let mut total = 0.0;
    for _ in 0..n {
        before();
        let start = spent();
        once();
        total += spent() - start;
    }
    total / n as f64
}

/// The least time by the clock on the wall, for work in other processes too.
pub fn least(once: &mut dyn FnMut()) -> f64 {
    let mut best = f64::INFINITY;
    for _ in 0..20 * ROUNDS {
        let start = Instant::now();
        once();
        best = best.min(start.elapsed().as_secs_f64());
    }
    best
}

/// The least time of each way; short rounds, in which the ways take turns.
fn least_of_each(ways: &mut [Way]) -> Vec<f64> {
    let mut best = vec![f64::INFINITY; ways.len()];
    for _ in 0..20 * ROUNDS {
        for (best, way) in best.iter_mut().zip(&mut *ways) {
            *best = best.min(round(1, &mut nothing, &mut way.once));
        }
    }
    best
}

pub fn nothing() {}

/// How much a way does in one go, and what a million of that in a second is
/// called.
#[derive(Clone, Copy)]
pub struct Amount {
    count: usize,
    unit: &'static str,
}

impl Amount {
    pub fn bytes(count: usize) -> Amount {
        Amount { count, unit: "MB/s" }
    }

    pub fn look_ups(count: usize) -> Amount {
        Amount { count, unit: "million look-ups/s" }
    }

    fn speed(self, seconds: f64) -> String {
        format!(" ({:6.1} {})", self.count as f64 / seconds / 1e6, self.unit)
    }
}

/// The times of each way, sorted. `before` runs before each call of the first
/// way, outside the time taken.
fn measured(before: &mut dyn FnMut(), ways: &mut [Way]) -> Vec<Vec<f64>> {
    before();
    let counts: Vec<u32> = ways.iter_mut().map(|w| repeats(&mut w.once)).collect();
    let mut times = vec![Vec::new(); ways.len()];
    for _ in 0..ROUNDS {
        for (i, w) in ways.iter_mut().enumerate() {
            let time = match i {
                0 => round(counts[i], before, &mut w.once),
                _ => round(counts[i], &mut nothing, &mut w.once),
            };
            times[i].push(time);
        }
    }
    for t in &mut times {
        t.sort_by(f64::total_cmp);
    }
    times
}

/// The median time of each way, and the least.
pub fn medians_and_leasts(mut ways: Vec<Way>) -> (Vec<f64>, Vec<f64>) {
    let times = measured(&mut nothing, &mut ways);
    times.iter().map(|t| (t[ROUNDS / 2], t[0])).unzip()
}

/// Prints a group of lines: the library, which comes first, and each other way
/// with its ratios.
pub fn figure(name: &str, buffers: &str, amount: Option<Amount>, before: &mut dyn FnMut(), mut ways: Vec<Way>) {
    let times = measured(before, &mut ways);
    println!("{name} [buffers {buffers}]");
    let (median, least) = (|t: &[f64]| t[ROUNDS / 2], |t: &[f64]| t[0]);
    let own = &times[0];
    for (i, (w, t)) in ways.iter().zip(&times).enumerate() {
        let speed = amount.map_or(String::new(), |a| a.speed(median(t)));
        print!("    {:<22}{:10.1} us{speed}", w.name, median(t) * 1e6);
        match i {
            0 => println!("   least {:.1} us", least(t) * 1e6),
            _ => println!("   ratio {}, of least times {}", ratio(median(own), median(t)), ratio(least(own), least(t))),
        }
    }
}

/// Prints the least time of each way for one of so many look-ups: the library,
/// which comes first, and each other way with its ratio.
pub fn nanoseconds(name: &str, look_ups: usize, mut ways: Vec<Way>) {
    let times = least_of_each(&mut ways);
    println!("{name}");
    for (i, (w, time)) in ways.iter().zip(&times).enumerate() {
        print!("    {:<34}{:8.1} ns", w.name, time / look_ups as f64 * 1e9);
        match i {
            0 => println!(),
            _ => println!("   ratio {}", ratio(times[0], *time)),
        }
    }
}

fn ratio(own: f64, other: f64) -> String {
    let ratio = own / other;
    match ratio < 0.1 {
        true => format!("{ratio:.4}"),
        false => format!("{ratio:.2}"),
    }
}
