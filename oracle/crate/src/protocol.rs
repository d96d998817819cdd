//! One line of the protocol, answered by the Rust. Inside the crate, since `Isometry` and
//! `Transform::unvalidated` are private to it.
use crate::{
    Registry, Transform,
    errors::{QuaternionError, RegistryError, TimeError, TransformError},
    geometry::transform::Isometry,
    maps::{MapFile, book, place},
    text::{components, float, frame, number, pose, show, show_pose},
    time::{Stamp, Timestamp},
};
use std::time::Duration;

/// The longest line, in bytes.
const LONGEST: usize = 512;

/// No registry before the first opening.
#[derive(Default)]
pub struct Oracle {
    registry: Option<Registry<Timestamp>>,
    file: MapFile,
}

impl Oracle {
    /// The answer to a line; none for an empty line or a comment.
    pub fn answer(&mut self, line: &[u8]) -> Option<String> {
        if line.is_empty() || line[0] == b'#' {
            return None;
        }
        let text = std::str::from_utf8(line).ok().filter(|t| t.len() <= LONGEST);
        let words: Vec<&str> = text.unwrap_or("").split(' ').collect();
        let answered = self.operation(words[0], &words[1..]);
        Some(answered.unwrap_or_else(|| "malformed".into()))
    }

    /// None for a line of another form.
    fn operation(&mut self, name: &str, words: &[&str]) -> Option<String> {
        match (name, words) {
            ("open", [age]) => self.open(age),
            ("open", [rows, samples, age]) => {
                number(rows).and(number(samples))?;
                self.open(age)
            }
            ("add", [child, parent, kind, instant, p @ ..]) => {
                let (child, parent, at) = (frame(child)?, frame(parent)?, instant_of(instant)?);
                let stamp = match number(kind)? {
                    0 => Stamp::Static,
                    1 => Stamp::At(at),
                    _ => return None,
                };
                let p = pose(p)?;
                self.with(|held| reply(add(held, child, parent, stamp, p), |()| "done".into()))
            }
            ("wipe", [child, instant]) => {
                let (child, before) = (frame(child)?, instant_of(instant)?);
                self.with(|held| match held.wipe(&child, before) {
                    true => "done".into(),
                    false => format!("no 9 {child}"),
                })
            }
            ("lookup", [target, source, instant]) => {
                let (target, source, at) = (frame(target)?, frame(source)?, instant_of(instant)?);
                self.of_two(&target, &source, |held| {
                    finite_pose(held.get_transform(&target, &source, at).map(|t| t.isometry()))
                })
            }
            ("common", [target, source]) => {
                let (target, source) = (frame(target)?, frame(source)?);
                self.of_two(&target, &source, |held| {
                    reply(held.latest_common_time(&target, &source), stamp_of)
                })
            }
            ("load", []) => Some(self.load()),
            ("map" | "frame" | "name", _) => self.file.operation(name, words),
            _ => leaf(name, words),
        }
    }

    fn open(&mut self, age: &str) -> Option<String> {
        self.registry = Some(match age {
            "none" => Registry::new(),
            _ => Registry::with_max_age(Duration::from_nanos(number(age)?)),
        });
        Some("done".into())
    }

    fn with(&mut self, call: impl FnOnce(&mut Registry<Timestamp>) -> String) -> Option<String> {
        Some(self.registry.as_mut().map_or("no 1".into(), call))
    }

    /// A question about two frames, screened for M-102: an unknown frame and itself, which the Rust
    /// answers with identity or Static, are 9.
    fn of_two(
        &mut self,
        target: &str,
        source: &str,
        call: impl FnOnce(&mut Registry<Timestamp>) -> String,
    ) -> Option<String> {
        self.with(|held| match target == source && !held.knows(target) {
            true => format!("no 9 {target}"),
            false => call(held),
        })
    }

    /// The map's records as additions of static frames, up to the first that is refused.
    fn load(&mut self) -> String {
        let Some(held) = &mut self.registry else {
            return "no 1".into();
        };
        if !held.is_empty() {
            return "no 19".into();
        }
        let Some(records) = self.file.records() else {
            return "no 18".into();
        };
        let names = book(&records);
        let frame = |name| place(&names, name).map_or(String::new(), |number| number.to_string());
        for (number, record) in records.iter().enumerate() {
            let (child, parent) = (frame(record.child), frame(record.parent));
            if let Err(error) = add(held, child, parent, Stamp::Static, record.pose) {
                *held = held.anew();
                return format!("record {number} no {}", refusal(error));
            }
        }
        "done".into()
    }
}

fn add(
    held: &mut Registry<Timestamp>,
    child: String,
    parent: String,
    stamp: Stamp<Timestamp>,
    p: Isometry,
) -> Result<(), RegistryError<Timestamp>> {
    held.add_transform(Transform::unvalidated(parent, child, p.translation, p.rotation, stamp))
}

/// The operations without a store.
fn leaf(name: &str, words: &[&str]) -> Option<String> {
    match (name, words.len()) {
        ("mul", 14) => Some(finite_pose(Ok(pose(&words[..7])? * pose(&words[7..])?))),
        ("inv", 7) => Some(reply(pose(words)?.inverse().map_err(wrapped), show_pose)),
        ("interp", 17) => {
            let (from, to) = (pose(&words[..7])?, pose(&words[7..14])?);
            let [start, end, query] = [14, 15, 16].map(|k| instant_of(words[k]));
            let between = from.interpolate(to, start?, end?, query?);
            Some(finite_pose(between.map_err(|e| wrapped(e.into()))))
        }
        ("sqrt", 1) => Some(format!("float {}", show(libm::sqrt(float(words[0])?)))),
        ("acos", 1) => Some(format!("float {}", show(libm::acos(float(words[0])?)))),
        ("sin", 1) => Some(format!("float {}", show(libm::sin(float(words[0])?)))),
        _ => None,
    }
}

fn instant_of(word: &str) -> Option<Timestamp> {
    number(word).map(Timestamp::from_nanos)
}

fn stamp_of(stamp: Stamp<Timestamp>) -> String {
    match stamp {
        Stamp::Static => "static".into(),
        Stamp::At(at) => format!("at {}", at.as_nanos()),
    }
}

fn wrapped(error: TransformError) -> RegistryError<Timestamp> {
    error.into()
}

fn reply<A>(result: Result<A, RegistryError<Timestamp>>, say: impl FnOnce(A) -> String) -> String {
    match result {
        Ok(answer) => say(answer),
        Err(error) => format!("no {}", refusal(error)),
    }
}

/// The pose of a product, an interpolation or a lookup, screened for M-103: one with a component that is
/// not finite, which the Rust hands out, is 3.
fn finite_pose(result: Result<Isometry, RegistryError<Timestamp>>) -> String {
    let finite = |p| match components(p).into_iter().all(f64::is_finite) {
        true => Ok(p),
        false => Err(RegistryError::NonFiniteValues),
    };
    reply(result.and_then(finite), show_pose)
}

/// Document 01's number of an error, and the data it carries.
fn refusal(error: RegistryError<Timestamp>) -> String {
    use RegistryError as R;
    use TransformError as T;
    match error {
        R::NonFiniteValues => "3".into(),
        R::NonUnitRotation(norm) => format!("4 {}", show(norm)),
        R::SelfReferentialFrame => "5".into(),
        R::ReparentingNotSupported { current_parent } => format!("6 {current_parent}"),
        R::CycleDetected => "7".into(),
        R::StaticDynamicConflict => "8".into(),
        R::UnknownFrame(frame) => format!("9 {frame}"),
        R::Disconnected { .. } => "10".into(),
        R::NotFoundAt { frame, covered, .. } => format!("11 {frame} {}", range(covered)),
        R::NoCommonTime { frame, covered, .. } => format!("12 {frame} {}", range(covered)),
        R::TransformError(T::QuaternionError(QuaternionError::NonFinite)) => "13".into(),
        R::TransformError(T::QuaternionError(QuaternionError::ZeroLengthNormalization)) => {
            "14".into()
        }
        R::TransformError(T::TimestampError(TimeError::DurationUnderflow)) => "15".into(),
        other => format!("without a number: {other:?}"),
    }
}

fn range(covered: Option<(Timestamp, Timestamp)>) -> String {
    match covered {
        Some((start, end)) => format!("{} {}", start.as_nanos(), end.as_nanos()),
        None => "none".into(),
    }
}
