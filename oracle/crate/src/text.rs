//! The protocol's words: numbers, floats, poses and bytes, read and written.
use crate::geometry::{Quaternion, Vector3, transform::Isometry};

/// One or more decimal digits.
fn some_digits(word: &str) -> Option<&str> {
    Some(word).filter(|w| !w.is_empty() && w.bytes().all(|b| b.is_ascii_digit()))
}

/// Decimal digits of a number that fits 64 bits.
pub(crate) fn number(word: &str) -> Option<u64> {
    some_digits(word)?.parse().ok()
}

pub(crate) fn frame_number(word: &str) -> Option<u32> {
    u32::try_from(number(word)?).ok()
}

/// A frame is handed to the Rust as its digits, without leading zeros.
pub(crate) fn frame(word: &str) -> Option<String> {
    Some(frame_number(word)?.to_string())
}

/// Lower-case hexadecimal digits.
fn digits(word: &str) -> bool {
    word.bytes().all(|b| matches!(b, b'0'..=b'9' | b'a'..=b'f'))
}

/// 16 lower-case hexadecimal digits are a float's bits; any other word is a decimal.
pub(crate) fn float(word: &str) -> Option<f64> {
    if word.len() == 16 && digits(word) {
        return u64::from_str_radix(word, 16).ok().map(f64::from_bits);
    }
    decimal(word)
}

/// At most 15 digits times ten to a power from -22 to 22, rounded by Rust's own reading of floats.
fn decimal(word: &str) -> Option<f64> {
    let unsigned = word.strip_prefix('-').unwrap_or(word);
    let (mantissa, exponent) = match unsigned.split_once('e') {
        Some((mantissa, exponent)) => (mantissa, whole(exponent)?),
        None => (unsigned, 0),
    };
    let (before, behind) = match mantissa.split_once('.') {
        Some((before, behind)) => (some_digits(before)?, some_digits(behind)?),
        None => (some_digits(mantissa)?, ""),
    };
    let all = format!("{before}{behind}");
    let power = exponent - behind.len() as i128;
    if all.trim_start_matches('0').len() > 15 || !(-22..=22).contains(&power) {
        return None;
    }
    word.parse().ok()
}

/// A number, with `-` or without a sign.
fn whole(word: &str) -> Option<i128> {
    match word.strip_prefix('-') {
        Some(unsigned) => Some(-i128::from(number(unsigned)?)),
        None => Some(number(word)?.into()),
    }
}

/// 1 to 240 bytes, two lower-case hexadecimal digits each.
pub(crate) fn bytes(word: &str) -> Option<Vec<u8>> {
    let count = word.len() / 2;
    if word.len() != 2 * count || !(1..=240).contains(&count) || !digits(word) {
        return None;
    }
    (0..count).map(|k| u8::from_str_radix(&word[2 * k..2 * k + 2], 16).ok()).collect()
}

pub(crate) fn pose(words: &[&str]) -> Option<Isometry> {
    let floats: Option<Vec<f64>> = words.iter().map(|word| float(word)).collect();
    isometry(&floats?)
}

/// Seven floats: translation x, y, z, then rotation w, x, y, z.
pub(crate) fn isometry(floats: &[f64]) -> Option<Isometry> {
    let [x, y, z, w, i, j, k] = *floats else {
        return None;
    };
    Some(Isometry {
        translation: Vector3::new(x, y, z),
        rotation: Quaternion::from_wxyz(w, i, j, k),
    })
}

/// The seven floats of a pose, in the same order.
pub(crate) fn components(p: Isometry) -> [f64; 7] {
    let (t, r) = (p.translation, p.rotation);
    [t.x, t.y, t.z, r.w, r.x, r.y, r.z]
}

pub(crate) fn show(v: f64) -> String {
    if v.is_nan() {
        "nan".into()
    } else {
        format!("{:016x}", v.to_bits())
    }
}

pub(crate) fn show_bytes(bytes: &[u8]) -> String {
    bytes.iter().map(|byte| format!("{byte:02x}")).collect()
}

pub(crate) fn show_pose(p: Isometry) -> String {
    format!("pose {}", components(p).map(show).join(" "))
}
