//! An arm of three joints, of which one encoder is a sample behind.
#[allow(dead_code)] // the arm does not use all of it
mod transforms;

use transforms::{Isometry, Quaternion, Refusal, Stamp, Store, Vector3};

/// Frames; `BASE` is the root.
const BASE: u32 = 0;
const SHOULDER: u32 = 1;
const ELBOW: u32 = 2;
const WRIST: u32 = 3;

/// A row for each frame that has a parent, and 16 samples a row.
const ROWS: usize = 3;
const SAMPLES: usize = 16;

const MS: u64 = 1_000_000;

const NO_TURN: Quaternion = Quaternion { w: 1.0, x: 0.0, y: 0.0, z: 0.0 };
const QUARTER_TURN: Quaternion = Quaternion { w: 0.7071067811865476, x: 0.0, y: 0.0, z: 0.7071067811865476 };
const HALF_TURN: Quaternion = Quaternion { w: 0.0, x: 0.0, y: 0.0, z: 1.0 };

/// What the encoders gave: the shoulder turns, the elbow slides out, and the wrist has no sample at 20 ms.
const ENCODERS: [(u32, u64, [f64; 3], Quaternion); 7] = [
    (SHOULDER, 0, [0.0, 0.0, 400.0], NO_TURN),
    (SHOULDER, 10 * MS, [0.0, 0.0, 400.0], QUARTER_TURN),
    (SHOULDER, 20 * MS, [0.0, 0.0, 400.0], HALF_TURN),
    (ELBOW, 0, [300.0, 20.0, 0.0], NO_TURN),
    (ELBOW, 20 * MS, [340.0, 20.0, 0.0], NO_TURN),
    (WRIST, 0, [100.0, 10.0, -40.0], NO_TURN),
    (WRIST, 10 * MS, [120.0, 10.0, -50.0], NO_TURN),
];

/// Prints the wrist's pose seen from the base, or why there is none.
fn look_up(store: &Store, instant: u64) {
    print!("at {} ms: ", instant / MS);
    match store.get_transform(BASE, WRIST, instant) {
        Ok(Isometry { translation: t, rotation: r }) => println!(
            "translation {:.3} {:.3} {:.3}, rotation {:.3} {:.3} {:.3} {:.3}",
            t.x, t.y, t.z, r.w, r.x, r.y, r.z
        ),
        Err(refusal) => println!("{refusal}"),
    }
}

fn main() -> Result<(), Refusal> {
    let mut store = Store {
        head: &mut [0; 5 + 4 * ROWS],
        instants: &mut [0; ROWS * SAMPLES],
        poses: &mut [0.0; 7 * ROWS * SAMPLES],
    };
    store.open(ROWS as u64, SAMPLES as u64, None)?;
    for (child, instant, [x, y, z], rotation) in ENCODERS {
        let pose = Isometry { translation: Vector3 { x, y, z }, rotation };
        store.add_transform(child, child - 1, Stamp::At(instant), pose)?;
    }
    look_up(&store, 20 * MS);
    if let Stamp::At(common) = store.latest_common_time(BASE, WRIST)? {
        println!("latest common time: {} ms", common / MS);
        look_up(&store, common);
    }
    Ok(())
}
