//! The soundness pass beside a plain read of the same memory.
use crate::measure::{Body, interleaved};
use crate::ours::{Store, WHOLE};
use crate::scene::{Roots, Scene};
use crate::table::Pass;
use std::arch::x86_64::{_mm_clflush, _mm_mfence};
use std::hint::black_box;

/// The sum of all words of the three slices.
#[inline(never)]
fn plain_read(store: &Store) -> u64 {
    let words = |s: &[u64]| s.iter().fold(0u64, |sum, w| sum.wrapping_add(*w));
    let floats = store.poses.iter().fold(0u64, |sum, x| sum.wrapping_add(x.to_bits()));
    words(&store.head).wrapping_add(words(&store.instants)).wrapping_add(floats)
}

/// Puts every line of the three slices out of the caches.
fn flush(store: &Store) {
    let lines = |start: *const u8, bytes: usize| {
        for at in (0..bytes).step_by(64) {
            unsafe { _mm_clflush(start.add(at)) };
        }
    };
    lines(store.head.as_ptr().cast(), 8 * store.head.len());
    lines(store.instants.as_ptr().cast(), 8 * store.instants.len());
    lines(store.poses.as_ptr().cast(), 8 * store.poses.len());
    unsafe { _mm_mfence() };
}

fn passed(name: &str, rounds: usize, store: &Store) -> Pass {
    // One frame twice: the pass, whether the frame is known, and then identity, or 9 where no row is used.
    let call = || store.get(&WHOLE, 1, 1, 0);
    let warm =
        [Body::warmed(1, |_| call()), Body::warmed(1, |_| store.check()), Body::warmed(1, |_| plain_read(store))];
    let [call_warm, pass_warm, read_warm] = interleaved(rounds, warm);
    let out = |_: &mut ()| flush(store);
    let cold = [
        Body::prepared(1, (), out, |()| {
            black_box(store.check());
        }),
        Body::prepared(1, (), out, |()| {
            black_box(plain_read(store));
        }),
    ];
    let [pass_cold, read_cold] = interleaved(rounds, cold);
    Pass { name: name.into(), call_warm, pass_warm, read_warm, pass_cold, read_cold }
}

/// An empty store of these sizes, a half full one, a full one.
pub fn rows(rounds: usize, rows: usize, samples: usize) -> Vec<Pass> {
    let filled = |held| Scene::filled(rows, samples, held, None, Roots::One).store;
    let size = format!("{rows}x{samples}");
    vec![
        passed(&format!("{size}, no row used"), rounds, &Store::open(rows, samples, None)),
        passed(&format!("{size}, rows half full"), rounds, &filled(samples / 2)),
        passed(&format!("{size}, full"), rounds, &filled(samples)),
    ]
}
