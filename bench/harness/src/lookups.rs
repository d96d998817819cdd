//! Lookup and latest common time, answered and refused.
use crate::measure::{Body, interleaved};
use crate::ours::{INNER, WHOLE};
use crate::same::{same_common, same_lookup};
use crate::scene::{Random, Roots, STEP, Scene, frame_at, scattered};
use crate::table::Row;
use transforms::time::Timestamp;

/// Different questions of one kind, asked in turn.
const QUESTIONS: usize = 64;

pub struct Question {
    target: u32,
    source: u32,
    instant: u64,
    target_text: String,
    source_text: String,
}

impl Question {
    fn new(target: u32, source: u32, instant: u64) -> Self {
        let (target_text, source_text) = (target.to_string(), source.to_string());
        Question { target, source, instant, target_text, source_text }
    }

    fn scattered(&self) -> Self {
        Question::new(scattered(self.target), scattered(self.source), self.instant)
    }
}

/// Paths of so many hops over the root, as even on both sides as can be, in either direction.
fn across(hops: usize, mut instant: impl FnMut(&mut Random) -> u64) -> Vec<Question> {
    let mut random = Random(1);
    let ask = |k: usize| {
        let (side, other) = ((k % 2) as u32, 1 - (k % 2) as u32);
        let (near, far) = if k / 2 % 2 == 0 { (hops / 2, hops - hops / 2) } else { (hops - hops / 2, hops / 2) };
        Question::new(frame_at(near, side), frame_at(far, other), instant(&mut random))
    };
    (0..QUESTIONS).map(ask).collect()
}

fn lookup(name: &str, rounds: usize, scene: &Scene, questions: &[Question]) -> Row {
    let ask = |k: usize| &questions[k % questions.len()];
    let rust =
        |q: &Question| scene.registry.get_transform(&q.target_text, &q.source_text, Timestamp::from_nanos(q.instant));
    for q in questions {
        for calls in [&WHOLE, &INNER] {
            assert!(same_lookup(&scene.store.get(calls, q.target, q.source, q.instant), rust(q)), "{name}");
        }
    }
    let ours = |calls, k| {
        let q = ask(k);
        scene.store.get(calls, q.target, q.source, q.instant)
    };
    let bodies = [
        Body::repeated(|k| ours(&WHOLE, k)),
        Body::warmed(QUESTIONS, |k| ours(&INNER, k)),
        Body::warmed(QUESTIONS, |k| rust(ask(k))),
    ];
    Row::of(name, interleaved(rounds, bodies))
}

fn common(name: &str, rounds: usize, scene: &Scene, questions: &[Question]) -> Row {
    let ask = |k: usize| &questions[k % questions.len()];
    let rust = |q: &Question| scene.registry.latest_common_time(&q.target_text, &q.source_text);
    for q in questions {
        for calls in [&WHOLE, &INNER] {
            assert!(same_common(&scene.store.common(calls, q.target, q.source), rust(q)), "{name}");
        }
    }
    let ours = |calls, k| {
        let q = ask(k);
        scene.store.common(calls, q.target, q.source)
    };
    let bodies = [
        Body::repeated(|k| ours(&WHOLE, k)),
        Body::warmed(QUESTIONS, |k| ours(&INNER, k)),
        Body::warmed(QUESTIONS, |k| rust(ask(k))),
    ];
    Row::of(name, interleaved(rounds, bodies))
}

/// Rows for stores of these sizes.
pub fn rows(rounds: usize, rows: usize, samples: usize) -> Vec<Row> {
    let mut out = Vec::new();
    let fixed = Scene::filled(rows, samples, 0, None, Roots::One);
    let moving = Scene::filled(rows, samples, samples, None, Roots::One);
    let apart = Scene::filled(rows, samples, samples, None, Roots::Two);
    let last = samples as u64;
    let exact = |r: &mut Random| (1 + r.below(last)) * STEP;
    let between = |r: &mut Random| (1 + r.below(last - 1)) * STEP + 1 + r.below(STEP - 1);
    let hops: Vec<usize> = [1, 8, 64, 255].into_iter().filter(|&h| h <= rows).collect();

    for &h in &hops {
        out.push(lookup(&format!("lookup, static, hops {h}"), rounds, &fixed, &across(h, exact)));
    }
    let spread = Scene::numbered(rows, samples, 0, None, Roots::One, scattered);
    for &h in &hops {
        let questions: Vec<Question> = across(h, exact).iter().map(Question::scattered).collect();
        out.push(lookup(&format!("lookup, static, scattered numbers, hops {h}"), rounds, &spread, &questions));
    }
    for &h in &hops {
        out.push(lookup(&format!("lookup, exact sample, hops {h}"), rounds, &moving, &across(h, exact)));
    }
    for &h in &hops {
        out.push(lookup(&format!("lookup, between samples, hops {h}"), rounds, &moving, &across(h, between)));
    }
    // The lowest frame of a chain and its parent, in each direction.
    let lowest = |k: usize| (frame_at(rows / 2, k as u32 % 2), frame_at(rows / 2 - 1, k as u32 % 2));
    let up: Vec<Question> = (0..QUESTIONS).map(lowest).map(|(f, p)| Question::new(p, f, STEP)).collect();
    let down: Vec<Question> = (0..QUESTIONS).map(lowest).map(|(f, p)| Question::new(f, p, STEP)).collect();
    out.push(lookup(&format!("lookup, frame at depth {} from its parent", rows / 2), rounds, &moving, &up));
    out.push(lookup(&format!("lookup, parent from frame at depth {}", rows / 2), rounds, &moving, &down));

    let unknown: Vec<Question> =
        (0..QUESTIONS as u32).map(|k| Question::new(1 + k % rows as u32, 500_000 + k, STEP)).collect();
    out.push(lookup("lookup refused with 9", rounds, &moving, &unknown));
    out.push(lookup("lookup refused with 10, hops 8", rounds, &apart, &across(8, exact)));
    out.push(lookup("lookup refused with 11, hops 8", rounds, &moving, &across(8, |_| (last + 5) * STEP)));

    for &h in &hops {
        out.push(common(&format!("common time, hops {h}"), rounds, &moving, &across(h, exact)));
    }
    out.push(common("common time refused with 9", rounds, &moving, &unknown));
    out.push(common("common time refused with 10", rounds, &apart, &across(8, exact)));
    out
}
