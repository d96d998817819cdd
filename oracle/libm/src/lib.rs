//! The three functions that the Rust takes from `libm`. The root is that of Debian's `libm`; arc cosine
//! and sine are document 01's steps.
pub use debian::sqrt;

/// z = root of (1-d)/2; h = 1; for k from 48 down to 1, h = 1 + ((z×z) × c)×h with
/// c = (2k-1)^2 / 2k(2k+1); the answer is 2×(z×h).
pub fn acos(d: f64) -> f64 {
    let z = sqrt((1.0 - d) / 2.0);
    let h = (1..=48u32).rev().fold(1.0, |h, k| {
        let c = f64::from((2 * k - 1) * (2 * k - 1)) / f64::from(2 * k * (2 * k + 1));
        1.0 + ((z * z) * c) * h
    });
    2.0 * (z * h)
}

/// s = 1; for k from 10 down to 1, s = 1 - ((a×a)/(2k(2k+1)))×s; the answer is a×s.
pub fn sin(a: f64) -> f64 {
    let s = (1..=10u32).rev().fold(1.0, |s, k| {
        1.0 - ((a * a) / f64::from(2 * k * (2 * k + 1))) * s
    });
    a * s
}
