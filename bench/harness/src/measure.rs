//! Interleaved rounds, and their lower quartiles: other work on the machine makes a batch longer, never shorter.
use std::hint::black_box;
use std::time::{Duration, Instant};

/// The shortest batch that is timed, in nanoseconds, where the calls may be repeated at will.
const BATCH: u128 = 30_000;

/// A batch of so many calls; `run` answers how long they took.
pub struct Body<'a> {
    pub calls: usize,
    pub run: Box<dyn FnMut() -> Duration + 'a>,
}

impl<'a> Body<'a> {
    /// A call that changes nothing and gets its number; repeated until a batch is long enough.
    pub fn repeated<A: 'a>(call: impl FnMut(usize) -> A + 'a) -> Self {
        let mut batch = batch_of(call);
        let calls = long_enough(&mut batch, 1);
        Body { calls, run: Box::new(move || batch(calls)) }
    }

    /// The same in whole turns of so many calls. Each batch follows an unmeasured turn, so that it finds in
    /// the caches what it left there and not what the other bodies did.
    pub fn warmed<A: 'a>(turn: usize, call: impl FnMut(usize) -> A + 'a) -> Self {
        let mut batch = batch_of(call);
        let calls = long_enough(&mut batch, turn);
        let run = move || {
            batch(turn);
            batch(calls)
        };
        Body { calls, run: Box::new(run) }
    }

    /// A batch that `prepare` makes ready each time, outside the measured part.
    pub fn prepared<S: 'a>(
        calls: usize,
        mut state: S,
        mut prepare: impl FnMut(&mut S) + 'a,
        mut batch: impl FnMut(&mut S) + 'a,
    ) -> Self {
        let run = move || {
            prepare(&mut state);
            let start = Instant::now();
            batch(black_box(&mut state));
            start.elapsed()
        };
        Body { calls, run: Box::new(run) }
    }
}

fn batch_of<A>(mut call: impl FnMut(usize) -> A) -> impl FnMut(usize) -> Duration {
    move |calls| {
        let start = Instant::now();
        for i in 0..calls {
            black_box(call(black_box(i)));
        }
        start.elapsed()
    }
}

/// Doubles a count of calls until they take long enough.
fn long_enough(batch: &mut impl FnMut(usize) -> Duration, first: usize) -> usize {
    batch(first);
    let mut calls = first;
    while batch(calls).as_nanos() < BATCH {
        calls *= 2;
    }
    calls
}

/// What reading the clock twice costs.
fn clock() -> f64 {
    let mut spans: Vec<f64> = (0..1001).map(|_| Instant::now().elapsed().as_nanos() as f64).collect();
    quartile(&mut spans)
}

fn quartile(values: &mut [f64]) -> f64 {
    values.sort_by(f64::total_cmp);
    values[values.len() / 4]
}

/// Nanoseconds a call of each body: the lower quartile of so many rounds, in each of which every body runs once.
pub fn interleaved<const N: usize>(rounds: usize, mut bodies: [Body<'_>; N]) -> [f64; N] {
    let clock = clock();
    let mut times: [Vec<f64>; N] = std::array::from_fn(|_| Vec::with_capacity(rounds));
    for round in 0..rounds + 1 {
        for (body, times) in bodies.iter_mut().zip(&mut times) {
            let spent = (body.run)().as_nanos() as f64 - clock;
            if round > 0 {
                times.push(spent.max(0.0) / body.calls as f64);
            }
        }
    }
    times.map(|mut times| quartile(&mut times))
}
