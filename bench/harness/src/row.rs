//! A query on one full row: the search in it and, between two samples, their interpolation.
use crate::measure::{Body, interleaved};
use crate::same::same_served;
use crate::scene::{Random, Roots, STEP, Scene};
use crate::table::Row;
use transforms::bench;

/// Different instants of one kind, asked in turn: too many for the processor to learn each search's branches.
const INSTANTS: usize = 8192;

fn get(name: &str, rounds: usize, scene: &Scene, mut instant: impl FnMut(&mut Random) -> u64) -> Row {
    let mut random = Random(3);
    let instants: Vec<u64> = (0..INSTANTS).map(|_| instant(&mut random)).collect();
    let rust = bench::held(&scene.registry, "1").expect("frame 1 has the first row");
    for &t in &instants {
        assert!(same_served(&scene.store.get_in_row(0, t), rust.get(t)), "{name} at {t}");
    }
    let bodies = [
        Body::warmed(INSTANTS, |k| scene.store.get_in_row(0, instants[k % INSTANTS])),
        Body::warmed(INSTANTS, |k| rust.get(instants[k % INSTANTS])),
    ];
    let [inner, rust] = interleaved(rounds, bodies);
    Row { name: name.into(), whole: None, inner, rust }
}

/// Rows of the table for a row of so many samples.
pub fn rows(rounds: usize, samples: usize) -> Vec<Row> {
    let full = Scene::filled(1, samples, samples, None, Roots::One);
    let last = samples as u64;
    vec![
        get("get, exact sample", rounds, &full, |r| (1 + r.below(last)) * STEP),
        get("get, between samples", rounds, &full, |r| (1 + r.below(last - 1)) * STEP + 1 + r.below(STEP - 1)),
        get("get, past the last sample", rounds, &full, |r| last * STEP + 1 + r.below(STEP)),
    ]
}
