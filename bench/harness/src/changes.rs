//! Addition and wipe. Each batch starts from a prepared store, copied outside the measured part.
use crate::measure::{Body, interleaved};
use crate::ours::{Calls, INNER, Store, WHOLE};
use crate::same::same_lookup;
use crate::scene::{Addition, Random, Roots, STEP, Scene, parent_of};
use crate::table::Row;
use std::hint::black_box;
use transforms::{Registry, Transform, bench, time::Timestamp};

/// Each batch goes round so many children, so many times.
const CHILDREN: usize = 8;
const TURNS: usize = 8;

/// Children spread over the rows.
fn children(rows: usize) -> Vec<u32> {
    (0..CHILDREN).map(|k| (k * rows / CHILDREN + 1) as u32).collect()
}

/// Both hold the same poses for these children, at the instants of samples, between them and beyond.
fn assert_same(name: &str, store: &Store, registry: &Registry<Timestamp>, children: &[u32], last: u64) {
    for &child in children {
        let parent = parent_of(child, Roots::One);
        for half in 0..2 * last + 4 {
            let t = half * STEP / 2;
            let rust = registry.get_transform(&parent.to_string(), &child.to_string(), Timestamp::from_nanos(t));
            assert!(same_lookup(&store.get(&INNER, parent, child, t), rust), "{name}: frame {child} at {t}");
        }
    }
}

struct Batch<'a> {
    name: &'a str,
    rounds: usize,
    scene: &'a Scene,
    children: &'a [u32],
    /// The last instant in steps, for the comparison.
    last: u64,
}

impl Batch<'_> {
    fn refreshed(&self, store: &mut Store) {
        for &child in self.children {
            store.refresh(&self.scene.store, child as usize - 1);
        }
    }

    fn refreshed_rust(&self, registry: &mut Registry<Timestamp>) {
        for child in self.children {
            registry.refresh(&self.scene.registry, &child.to_string());
        }
    }

    /// Runs the calls once on each side, compares what is held, and measures.
    fn measured(
        &self,
        count: usize,
        ours: impl Fn(&mut Store, &Calls) + Copy,
        list: impl Fn() -> Vec<Transform<Timestamp>>,
        rust: impl Fn(&mut Registry<Timestamp>, &mut Vec<Transform<Timestamp>>) + Copy,
    ) -> Row {
        let mut whole = self.scene.store.clone();
        let mut inner = self.scene.store.clone();
        let mut registry = self.scene.registry.copy();
        ours(&mut whole, &WHOLE);
        ours(&mut inner, &INNER);
        rust(&mut registry, &mut list());
        assert!(whole == inner && inner.check() == 0, "{}", self.name);
        assert_same(self.name, &inner, &registry, self.children, self.last);

        let side = |store: Store, calls: &'static Calls| {
            Body::prepared(count, store, |s| self.refreshed(s), move |s| ours(s, calls))
        };
        let again = |s: &mut (Registry<Timestamp>, Vec<Transform<Timestamp>>)| {
            self.refreshed_rust(&mut s.0);
            s.1 = list();
        };
        let bodies = [
            side(whole, const { &WHOLE }),
            side(inner, const { &INNER }),
            Body::prepared(count, (registry, Vec::new()), again, move |s| rust(&mut s.0, &mut s.1)),
        ];
        Row::of(self.name, interleaved(self.rounds, bodies))
    }

    fn additions(&self, additions: &[Addition]) -> Row {
        self.measured(
            additions.len(),
            |store, calls| {
                for a in additions {
                    assert!(store.add(calls, black_box(a)).number == 0);
                }
            },
            || additions.iter().rev().map(Addition::transform).collect(),
            |registry, list| {
                while let Some(t) = list.pop() {
                    assert!(registry.add_transform(black_box(t)).is_ok());
                }
            },
        )
    }

    fn wipes(&self, wipes: &[(u32, u64)]) -> Row {
        let texts: Vec<(String, u64)> = wipes.iter().map(|(child, at)| (child.to_string(), *at)).collect();
        self.measured(
            wipes.len(),
            |store, calls| {
                for &(child, at) in wipes {
                    assert!(store.wipe(calls, black_box(child), black_box(at)).number == 0);
                }
            },
            Vec::new,
            |registry, _| {
                for (child, at) in &texts {
                    assert!(bench::wipe(registry, black_box(child), black_box(*at)));
                }
            },
        )
    }
}

/// Rows for stores of these sizes.
pub fn rows(rounds: usize, rows: usize, samples: usize) -> Vec<Row> {
    let children = children(rows);
    let mut random = Random(7);
    let held = samples as u64 / 2;
    // At the instants that `at` gives for each turn, to each child in turn.
    let mut each = |at: &mut dyn FnMut(&mut Random, u64) -> u64| -> Vec<Addition> {
        let mut out = Vec::new();
        for turn in 0..TURNS as u64 {
            for &child in &children {
                let instant = Some(at(&mut random, turn));
                out.push(Addition { child, parent: parent_of(child, Roots::One), instant, pose: random.pose() });
            }
        }
        out
    };

    let half = Scene::filled(rows, samples, held as usize, None, Roots::One);
    let batch = |name, scene, last| Batch { name, rounds, scene, children: &children, last };
    let mut out = Vec::new();
    let order = each(&mut |_, turn| (held + 1 + turn) * STEP);
    out.push(batch("addition in order", &half, held + 8).additions(&order));
    let late = each(&mut |r, turn| (1 + r.below(held - 1)) * STEP + STEP / 2 + turn);
    out.push(batch("addition late, anywhere in the row", &half, held).additions(&late));
    let replacing = each(&mut |r, _| (1 + r.below(held)) * STEP);
    out.push(batch("addition replacing", &half, held).additions(&replacing));

    let age = (samples as u64 - 1) * STEP;
    let full = Scene::filled(rows, samples, samples, Some(age), Roots::One);
    let expiring = each(&mut |_, turn| (samples as u64 + 1 + turn) * STEP);
    out.push(batch("addition with expiry of one", &full, samples as u64 + 8).additions(&expiring));
    let wipes: Vec<(u32, u64)> = [1, 2, 3]
        .iter()
        .flat_map(|k| children.iter().map(move |c| (*c, (k * samples as u64 / 4 + 1) * STEP)))
        .collect();
    out.push(batch("wipe of a quarter", &full, samples as u64).wipes(&wipes));
    out
}
