// How far document 01's steps for arc cosine and sine, which crates/libm computes, lie from the Rust's
// crate `libm` and from the C library, in units in the last place. The steps are written here again.
// Built and run by bench/libm_distance.

extern "C" {
    fn acos(d: f64) -> f64;
    fn sin(a: f64) -> f64;
}

fn acos_steps(d: f64) -> f64 {
    let z = ((1.0 - d) / 2.0).sqrt();
    let mut h = 1.0;
    for k in (1..=48).rev() {
        let numerator = ((2 * k - 1) * (2 * k - 1)) as f64;
        let denominator = (2 * k * (2 * k + 1)) as f64;
        h = 1.0 + z * z * (numerator / denominator) * h;
    }
    2.0 * (z * h)
}

fn sin_steps(a: f64) -> f64 {
    let mut s = 1.0;
    for k in (1..=10).rev() {
        s = 1.0 - a * a / (2 * k * (2 * k + 1)) as f64 * s;
    }
    a * s
}

// The greatest distance, and how often the two are equal.
struct Distance {
    most: u64,
    equal: u64,
    points: u64,
}

impl Distance {
    const NONE: Distance = Distance { most: 0, equal: 0, points: 0 };

    fn seen(&mut self, ours: f64, theirs: f64) {
        let ulps = ours.to_bits().abs_diff(theirs.to_bits());
        self.most = self.most.max(ulps);
        self.equal += (ulps == 0) as u64;
        self.points += 1;
    }
}

fn row(name: &str, inputs: &dyn Fn(u64) -> f64, count: u64, ours: fn(f64) -> f64, rust: fn(f64) -> f64, c: fn(f64) -> f64) {
    let (mut to_rust, mut to_c) = (Distance::NONE, Distance::NONE);
    for i in 0..count {
        let x = inputs(i);
        let y = ours(x);
        to_rust.seen(y, rust(x));
        to_c.seen(y, c(x));
    }
    println!(
        "| {name} | {} | {} | {} | {} | {} |",
        to_rust.points, to_rust.most, to_rust.equal, to_c.most, to_c.equal
    );
}

fn main() {
    const EVEN: u64 = 20_000_000;
    let even = |i: u64| i as f64 / EVEN as f64;
    // The floats next below 1, one after the other.
    let near_one = |i: u64| f64::from_bits(1.0f64.to_bits() - i);
    let half_turn = std::f64::consts::FRAC_PI_2;
    let c_acos: fn(f64) -> f64 = |x| unsafe { acos(x) };
    let c_sin: fn(f64) -> f64 = |x| unsafe { sin(x) };
    println!("| function and inputs | points | libm crate: ulp at most | equal | C library: ulp at most | equal |");
    println!("|---|---:|---:|---:|---:|---:|");
    row("acos, evenly from 0 to 1", &even, EVEN + 1, acos_steps, libm::acos, c_acos);
    row("acos, every float next below 1", &near_one, EVEN, acos_steps, libm::acos, c_acos);
    row("sin, evenly from 0 to pi/2", &|i| even(i) * half_turn, EVEN + 1, sin_steps, libm::sin, c_sin);
    row("sin, of the angles whose cosines are the floats next below 1", &|i| acos_steps(near_one(i)), EVEN, sin_steps, libm::sin, c_sin);
}
