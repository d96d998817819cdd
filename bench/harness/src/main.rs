//! Measures the product and the Rust in one run on the same inputs, and prints tables in Markdown.
mod changes;
mod lookups;
mod maps;
mod measure;
mod newcomers;
#[rustfmt::skip] // a store is six arguments, which stand on one line
mod ours;
mod pass;
mod poses;
mod row;
mod same;
mod scene;
mod table;
mod targets;

const SIZES: [(usize, usize); 3] = [(8, 16), (64, 64), (256, 1024)];

fn store(rounds: usize, rows: usize, samples: usize) -> (String, Vec<table::Row>) {
    let mut measured = row::rows(rounds, samples);
    measured.extend(lookups::rows(rounds, rows, samples));
    measured.extend(changes::rows(rounds, rows, samples));
    measured.extend(newcomers::rows(rounds, rows, samples));
    (format!("{rows}x{samples}"), measured)
}

fn main() {
    let rounds: usize = std::env::args().nth(1).map_or(101, |n| n.parse().expect("rounds"));
    let leaves = poses::rows(rounds);
    let passes: Vec<_> = SIZES.iter().flat_map(|&(rows, samples)| pass::rows(rounds, rows, samples)).collect();
    let stores: Vec<_> = SIZES.iter().map(|&(rows, samples)| store(rounds, rows, samples)).collect();
    let (load, book, largest) = (maps::load(rounds), maps::book(rounds), maps::largest());
    println!("{}", table::legend(rounds));
    print!("{}{}{}", targets::table(&leaves, &passes, &stores), table::leaves(&leaves), table::passes(&passes));
    for (size, rows) in &stores {
        print!("{}", table::calls(&format!("Store {size}"), rows));
    }
    print!("{}", table::maps(load, book, largest));
}
