//! map FILE TARGET SOURCE: loads a map and prints the source's pose seen from the target, both by name.
#[allow(dead_code)] // the program does not use all of it
mod transforms;

use std::error::Error;
use transforms::{Isometry, Map, Store};

/// As many rows as there can be, and one sample a row, since a map's frames do not move.
const ROWS: usize = 256;

/// The number of a name.
fn frame_of(map: Map, name: &str) -> Result<u32, Box<dyn Error>> {
    map.frame_of(name.as_bytes())?.ok_or_else(|| format!("the map has no frame {name}").into())
}

/// The name of a number.
fn name_of(map: Map, frame: u32) -> Result<String, Box<dyn Error>> {
    Ok(String::from_utf8_lossy(map.name_of(frame)?.unwrap_or_default()).into_owned())
}

fn run(file: &str, target: &str, source: &str) -> Result<(), Box<dyn Error>> {
    let bytes = std::fs::read(file)?;
    let map = Map(&bytes);
    let mut store = Store { head: &mut [0; 5 + 4 * ROWS], instants: &mut [0; ROWS], poses: &mut [0.0; 7 * ROWS] };
    store.open(ROWS as u64, 1, None)?;
    store.load_map(map)?;
    let (target, source) = (frame_of(map, target)?, frame_of(map, source)?);
    let Isometry { translation: t, rotation: r } = store.get_transform(target, source, 0)?;
    println!(
        "{} ({source}) seen from {} ({target}): translation {:.3} {:.3} {:.3}, rotation {:.3} {:.3} {:.3} {:.3}",
        name_of(map, source)?,
        name_of(map, target)?,
        t.x, t.y, t.z, r.w, r.x, r.y, r.z
    );
    Ok(())
}

fn main() {
    let arguments: Vec<String> = std::env::args().skip(1).collect();
    let [file, target, source] = arguments.as_slice() else {
        println!("usage: map FILE TARGET SOURCE");
        std::process::exit(1);
    };
    if let Err(error) = run(file, target, source) {
        println!("{error}");
        std::process::exit(1);
    }
}
