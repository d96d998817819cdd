//! A map loaded into a store, and the book of its names.
use crate::measure::{Body, interleaved};
use crate::ours::{Store, WHOLE, frame_of, name_of};
use crate::scene::{Addition, Pose, Random};
use std::hint::black_box;
use std::time::Instant;
use transforms::{Registry, time::Timestamp};

const RECORDS: usize = 256;

/// The most records that a file can have.
const MOST_RECORDS: usize = 65_535;

/// The name of a frame, of nine bytes.
fn name(frame: u32) -> Vec<u8> {
    format!("frame{frame:04x}").into_bytes()
}

/// The bytes of a file with these records.
fn file(additions: &[Addition]) -> Vec<u8> {
    let mut bytes = b"FRM\x01\x00".to_vec();
    bytes.extend((additions.len() as u16).to_le_bytes());
    for a in additions {
        for frame in [a.child, a.parent] {
            bytes.push(name(frame).len() as u8);
            bytes.extend(name(frame));
        }
        bytes.extend(a.pose.0.iter().flat_map(|x| x.to_le_bytes()));
    }
    bytes
}

/// A chain in the order in which its frames are numbered: frame 1 is the root, 0 is under it, and each further one
/// under the one before.
fn chain() -> Vec<Addition> {
    let mut random = Random(7);
    let mut under = |child, parent| Addition { child, parent, instant: None, pose: random.pose() };
    let first = under(0, 1);
    std::iter::once(first).chain((2..=RECORDS as u32).map(|child| under(child, if child == 2 { 0 } else { child - 1 }))).collect()
}

/// Two new names in each record.
fn pairs(records: usize) -> Vec<Addition> {
    let still = Pose([0.0, 0.0, 0.0, 1.0, 0.0, 0.0, 0.0]);
    (0..records as u32).map(|k| Addition { child: 2 * k, parent: 2 * k + 1, instant: None, pose: still }).collect()
}

/// Nanoseconds of: a load, the same additions by single calls, and by the Rust to a new registry.
pub fn load(rounds: usize) -> [f64; 3] {
    let additions = chain();
    let map = file(&additions);
    let empty = Store::open(RECORDS, 1, None);
    let mut loaded = empty.clone();
    assert_eq!(loaded.load(&map).number, 0);
    let mut added = empty.clone();
    assert!(additions.iter().all(|a| added.add(&WHOLE, a).number == 0));
    assert!(loaded == added, "a load leaves what the additions leave");

    let once = Body::prepared(1, empty.clone(), |s| s.refresh_all(&empty), |s| assert!(s.load(black_box(&map)).number == 0));
    let singly = Body::prepared(
        1,
        empty.clone(),
        |s| s.refresh_all(&empty),
        |s| assert!(black_box(&additions).iter().all(|a| s.add(&WHOLE, a).number == 0)),
    );
    let rust = Body::prepared(
        1,
        (Registry::<Timestamp>::new(), Vec::new()),
        |s| *s = (Registry::new(), additions.iter().map(Addition::transform).collect()),
        |s| assert!(s.1.drain(..).all(|transform| s.0.add_transform(transform).is_ok())),
    );
    interleaved(rounds, [once, singly, rust])
}

fn assert_last(map: &[u8], last: u32) {
    assert_eq!(frame_of(map, &name(last)).frame, last);
    let found = name_of(map, last);
    assert_eq!(&map[found.start..found.start + found.count], name(last));
}

/// Nanoseconds of the last name's number and of the last number's name, and the count of names, in a file that a full
/// store comes from.
pub fn book(rounds: usize) -> ([f64; 2], usize) {
    let map = file(&pairs(RECORDS));
    let last = 2 * RECORDS as u32 - 1;
    assert_last(&map, last);
    let asked = name(last);
    let number = Body::repeated(|_| frame_of(black_box(&map), black_box(&asked)).frame);
    let named = Body::repeated(|_| name_of(black_box(&map), black_box(last)).start);
    (interleaved(rounds, [number, named]), last as usize + 1)
}

/// Seconds of the same, once each, in the largest file: two new names in each record.
pub fn largest() -> ([f64; 2], usize) {
    let map = file(&pairs(MOST_RECORDS));
    let last = 2 * MOST_RECORDS as u32 - 1;
    let start = Instant::now();
    assert_eq!(frame_of(black_box(&map), &name(last)).frame, last);
    let number = start.elapsed().as_secs_f64();
    let start = Instant::now();
    let found = name_of(black_box(&map), last);
    let named = start.elapsed().as_secs_f64();
    assert_eq!(&map[found.start..found.start + found.count], name(last));
    ([number, named], last as usize + 1)
}
