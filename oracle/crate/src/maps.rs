//! Map files (document 02, M-100). The Rust has no reader: the form and the names' numbers are glue.
use crate::{
    geometry::transform::Isometry,
    text::{bytes, frame_number, isometry, show_bytes},
};

/// The greatest file that the protocol lends, in bytes.
const LONGEST: usize = 65_536;

pub(crate) struct Record<'a> {
    pub(crate) child: &'a [u8],
    pub(crate) parent: &'a [u8],
    pub(crate) pose: Isometry,
}

/// The lent file, empty at the start.
#[derive(Default)]
pub(crate) struct MapFile {
    contents: Vec<u8>,
}

impl MapFile {
    /// The operations on the file alone; none for a line of another form.
    pub(crate) fn operation(&mut self, name: &str, words: &[&str]) -> Option<String> {
        match (name, words) {
            ("map", ["none"]) => {
                self.contents.clear();
                Some("done".into())
            }
            ("map", [part]) => self.append(&bytes(part)?),
            ("frame", []) => Some(self.frame_of(&[])),
            ("frame", [name]) => Some(self.frame_of(&bytes(name)?)),
            ("name", [frame]) => Some(self.name_of(frame_number(frame)?)),
            _ => None,
        }
    }

    fn append(&mut self, part: &[u8]) -> Option<String> {
        if self.contents.len() + part.len() > LONGEST {
            return None;
        }
        self.contents.extend(part);
        Some("done".into())
    }

    /// None for a file of wrong form.
    pub(crate) fn records(&self) -> Option<Vec<Record<'_>>> {
        let mut rest = &self.contents[..];
        if take(&mut rest, 5)? != b"FRM\x01\x00" {
            return None;
        }
        let count = u16::from_le_bytes(take(&mut rest, 2)?.try_into().ok()?);
        let found: Option<Vec<Record>> = (0..count).map(|_| record(&mut rest)).collect();
        found.filter(|_| rest.is_empty())
    }

    fn frame_of(&self, name: &[u8]) -> String {
        self.asked(|names| Some(format!("frame {}", place(names, name)?)))
    }

    fn name_of(&self, frame: u32) -> String {
        self.asked(|names| Some(format!("name {}", show_bytes(names.get(frame as usize)?))))
    }

    /// An answer from the names.
    fn asked(&self, answer: impl FnOnce(&[&[u8]]) -> Option<String>) -> String {
        match self.records() {
            Some(records) => answer(&book(&records)).unwrap_or("none".into()),
            None => "no 18".into(),
        }
    }
}

/// The names by number.
pub(crate) fn book<'a>(records: &[Record<'a>]) -> Vec<&'a [u8]> {
    let mut names = Vec::new();
    for name in records.iter().flat_map(|record| [record.child, record.parent]) {
        if !names.contains(&name) {
            names.push(name);
        }
    }
    names
}

/// The number of a name.
pub(crate) fn place(names: &[&[u8]], name: &[u8]) -> Option<usize> {
    names.iter().position(|held| *held == name)
}

/// The first bytes of the rest; none where it is shorter.
fn take<'a>(rest: &mut &'a [u8], size: usize) -> Option<&'a [u8]> {
    let (part, behind) = rest.split_at_checked(size)?;
    *rest = behind;
    Some(part)
}

fn name<'a>(rest: &mut &'a [u8]) -> Option<&'a [u8]> {
    match take(rest, 1)?[0] {
        length @ 1..=32 => take(rest, length.into()),
        _ => None,
    }
}

fn record<'a>(rest: &mut &'a [u8]) -> Option<Record<'a>> {
    let (child, parent) = (name(rest)?, name(rest)?);
    let floats = take(rest, 56)?.chunks(8).map(|w| w.try_into().ok().map(f64::from_le_bytes));
    let pose = isometry(&floats.collect::<Option<Vec<f64>>>()?)?;
    Some(Record { child, parent, pose })
}
