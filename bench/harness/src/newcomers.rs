//! Addition of a new child, after the last row or before the first. Both sides have just walked the chain
//! that the test for a circle climbs, so that neither finds it out of the caches.
use crate::measure::{Body, interleaved};
use crate::ours::{Calls, INNER, Store, WHOLE};
use crate::same::same_lookup;
use crate::scene::{Addition, Random, STEP, Scene};
use crate::table::Row;
use std::hint::black_box;
use transforms::time::Timestamp;

const ROOT: u32 = 9;

/// A chain of all rows but one, from frame 10 on, each full.
fn chain(rows: usize, samples: usize) -> Scene {
    let mut scene = Scene::empty(rows, samples, None);
    let mut random = Random(3);
    for child in ROOT + 1..ROOT + rows as u32 {
        for i in 1..=samples as u64 {
            scene.add(&Addition { child, parent: child - 1, instant: Some(i * STEP), pose: random.pose() });
        }
    }
    scene
}

/// Both sides take the frame, and answer the same for it.
fn assert_same(name: &str, scene: &Scene, addition: &Addition) {
    let (mut whole, mut inner, mut registry) = (scene.store.clone(), scene.store.clone(), scene.registry.copy());
    assert!(whole.add(&WHOLE, addition).number == 0 && inner.add(&INNER, addition).number == 0, "{name}");
    assert!(registry.add_transform(addition.transform()).is_ok(), "{name}");
    assert!(whole == inner && inner.check() == 0, "{name}");
    let (root, child) = (ROOT.to_string(), addition.child.to_string());
    let rust = registry.get_transform(&root, &child, Timestamp::from_nanos(STEP));
    assert!(same_lookup(&inner.get(&INNER, ROOT, addition.child, STEP), rust), "{name}");
}

fn newcomer(name: &str, rounds: usize, scene: &Scene, addition: &Addition) -> Row {
    assert_same(name, scene, addition);
    let ours = |calls: &'static Calls| {
        let again = |s: &mut Store| {
            s.refresh_all(&scene.store);
            assert!(s.common(&INNER, ROOT, addition.parent).number == 0);
        };
        Body::prepared(1, scene.store.clone(), again, move |s| {
            assert!(s.add(calls, black_box(addition)).number == 0);
        })
    };
    let (child, parent, root) = (addition.child.to_string(), addition.parent.to_string(), ROOT.to_string());
    let state = (scene.registry.copy(), None);
    let rust = Body::prepared(
        1,
        state,
        move |s| {
            s.0.remove_frame(&child);
            assert!(s.0.latest_common_time(&root, &parent).is_ok());
            s.1 = Some(addition.transform());
        },
        |s| assert!(s.0.add_transform(black_box(s.1.take().unwrap())).is_ok()),
    );
    Row::of(name, interleaved(rounds, [ours(&WHOLE), ours(&INNER), rust]))
}

/// Rows for stores of these sizes.
pub fn rows(rounds: usize, rows: usize, samples: usize) -> Vec<Row> {
    let scene = chain(rows, samples);
    let mut random = Random(4);
    let mut under = |child, parent| Addition { child, parent, instant: Some(STEP), pose: random.pose() };
    let lowest = ROOT + rows as u32 - 1;
    let last = under(100_000, lowest);
    let first = under(5, lowest);
    vec![
        newcomer("addition of a new frame, after the last row", rounds, &scene, &last),
        newcomer("addition of a new frame, before the first row", rounds, &scene, &first),
    ]
}
