//! The operations without a store. Both sides are C calls with poses by value: the Rust's functions are
//! not inlined, and answer a pose with a number before it, as ours do. They are otherwise the Rust as it is, which
//! hands out a product or an interpolated pose that is not finite: the test for 3 is ours alone, and within our time.
use crate::measure::{Body, interleaved};
use crate::ours;
use crate::same::{same_answer, same_floats};
use crate::scene::{Pose, Random};
use crate::table::Row;
use transforms::bench::{self, Floats};

const INPUTS: usize = 256;

/// 0 with a pose, else 1.
#[repr(C)]
struct Reply {
    number: u32,
    pose: Pose,
}

fn reply(pose: Option<Floats>) -> Reply {
    pose.map_or(Reply { number: 1, pose: Pose([0.0; 7]) }, |pose| Reply { number: 0, pose: Pose(pose) })
}

#[inline(never)]
extern "C" fn mul(a: Pose, b: Pose) -> Reply {
    reply(Some(bench::mul(a.0, b.0)))
}

#[inline(never)]
extern "C" fn inverse(pose: Pose) -> Reply {
    reply(bench::inverse(pose.0))
}

#[inline(never)]
extern "C" fn interpolate(a: Pose, b: Pose, start: u64, end: u64, query: u64) -> Reply {
    reply(bench::interpolate(a.0, b.0, [start, end, query]))
}

#[inline(never)]
extern "C" fn sqrt(x: f64) -> f64 {
    bench::sqrt(x)
}

#[inline(never)]
extern "C" fn acos(x: f64) -> f64 {
    bench::acos(x)
}

#[inline(never)]
extern "C" fn sin(x: f64) -> f64 {
    bench::sin(x)
}

type Float = extern "C" fn(f64) -> f64;

fn float(name: &str, rounds: usize, inputs: &[f64], ours: Float, rust: Float) -> Row {
    for &x in inputs {
        assert!(same_floats(&[ours(x)], &[rust(x)]), "{name} of {x}");
    }
    row(
        name,
        rounds,
        Body::warmed(INPUTS, |k| ours(inputs[k % INPUTS])),
        Body::warmed(INPUTS, |k| rust(inputs[k % INPUTS])),
    )
}

fn row(name: &str, rounds: usize, ours: Body<'_>, rust: Body<'_>) -> Row {
    let [ours, rust] = interleaved(rounds, [ours, rust]);
    Row { name: name.into(), whole: None, inner: ours, rust }
}

pub fn rows(rounds: usize) -> Vec<Row> {
    let mut random = Random(5);
    let p: Vec<Pose> = (0..=INPUTS).map(|_| random.pose()).collect();
    let x: Vec<f64> = (0..INPUTS).map(|_| random.float().abs()).collect();
    let near: Vec<f64> = (0..INPUTS).map(|_| 1.0 + 1e-6 * random.float()).collect();
    let [start, end, query] = [1_000_000_000, 1_010_000_000, 1_003_000_000];
    let pair = |k: usize| (p[k % INPUTS], p[k % INPUTS + 1]);
    for (a, b) in (0..INPUTS).map(pair) {
        let (product, back, between) = (mul(a, b), inverse(a), interpolate(a, b, start, end, query));
        let ours_between = ours::transforms_interpolate(a, b, start, end, query);
        assert!(product.number == 0 && same_answer(&ours::transforms_mul(a, b), product.pose.0), "mul");
        assert!(back.number == 0 && same_answer(&ours::transforms_inverse(a), back.pose.0), "inverse");
        assert!(between.number == 0 && same_answer(&ours_between, between.pose.0), "interpolate");
    }
    vec![
        float("sqrt, near 1", rounds, &near, ours::SQRT, sqrt),
        float("sqrt, 0 to 1", rounds, &x, ours::SQRT, sqrt),
        float("acos, 0 to 1", rounds, &x, ours::ACOS, acos),
        float("sin, 0 to 1", rounds, &x, ours::SIN, sin),
        row(
            "mul",
            rounds,
            Body::warmed(INPUTS, |k| ours::transforms_mul(pair(k).0, pair(k).1)),
            Body::warmed(INPUTS, |k| mul(pair(k).0, pair(k).1)),
        ),
        row(
            "inverse",
            rounds,
            Body::warmed(INPUTS, |k| ours::transforms_inverse(pair(k).0)),
            Body::warmed(INPUTS, |k| inverse(pair(k).0)),
        ),
        row(
            "interpolate",
            rounds,
            Body::warmed(INPUTS, |k| ours::transforms_interpolate(pair(k).0, pair(k).1, start, end, query)),
            Body::warmed(INPUTS, |k| interpolate(pair(k).0, pair(k).1, start, end, query)),
        ),
    ]
}
