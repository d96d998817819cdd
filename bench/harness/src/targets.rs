//! What was asked, and whether it is met.
use crate::table::{Pass, Row, ns};
use std::fmt::Write;

fn verdict(met: bool, by: String) -> String {
    if met { "met".into() } else { format!("missed by {by}") }
}

/// Times a hop over 8, 64 and 255 hops.
fn per_hop(rows: &[Row], kind: &str, time: impl Fn(&Row) -> f64) -> [f64; 3] {
    [8, 64, 255].map(|hops| {
        let name = format!("lookup, {kind}, hops {hops}");
        time(rows.iter().find(|r| r.name == name).expect("a row")) / hops as f64
    })
}

fn pass_lines(out: &mut String, passes: &[Pass]) {
    for p in passes.iter().filter(|p| p.name.starts_with("256x1024")) {
        for (how, ratio) in [("warm", p.pass_warm / p.read_warm), ("cold", p.pass_cold / p.read_cold)] {
            let verdict = verdict(ratio <= 3.0, format!("{:.2} times", ratio / 3.0));
            writeln!(out, "| pass at most 3 times a plain read, {}, {how} | {ratio:.2} times | {verdict} |", p.name)
                .unwrap();
        }
    }
}

fn leaf_lines(out: &mut String, leaves: &[Row]) {
    for r in leaves.iter().filter(|r| r.name.starts_with("sqrt")) {
        let verdict = verdict(r.inner <= 40.0, format!("{:.1} ns", r.inner - 40.0));
        writeln!(out, "| {} at most 40 ns | {} ns | {verdict} |", r.name, ns(r.inner)).unwrap();
    }
    for r in leaves.iter().filter(|r| r.name.starts_with("acos")) {
        let verdict = verdict(r.ratio() <= 1.0, format!("{:.2} times", r.ratio()));
        writeln!(out, "| acos not slower than the Rust's | {:.2} times | {verdict} |", r.ratio()).unwrap();
    }
}

fn linear_lines(out: &mut String, rows: &[Row]) {
    for kind in ["static", "exact sample", "between samples"] {
        let [short, middle, long] = per_hop(rows, kind, |r| r.inner);
        let [_, rust_middle, rust_long] = per_hop(rows, kind, |r| r.rust);
        let growth = long / middle;
        let verdict = verdict(growth <= 1.5, format!("{growth:.2} times from 64 to 255 hops"));
        writeln!(
            out,
            "| lookup linear in the path, {kind}, 256x1024 | {short:.1}, {middle:.1}, {long:.1} ns a hop over 8, 64, 255 (the Rust: {rust_middle:.1}, {rust_long:.1} over 64, 255) | {verdict} |",
        )
        .unwrap();
    }
}

/// The table of the targets; `stores` has the rows of each size by name, the largest last.
pub fn table(leaves: &[Row], passes: &[Pass], stores: &[(String, Vec<Row>)]) -> String {
    let mut out = String::from("### Targets\n\n| target | measured | |\n|---|---|---|\n");
    pass_lines(&mut out, passes);
    leaf_lines(&mut out, leaves);
    let all: usize = stores.iter().map(|(_, rows)| rows.len()).sum();
    let slower: Vec<(&String, &Row)> = stores
        .iter()
        .flat_map(|(size, rows)| rows.iter().map(move |r| (size, r)))
        .filter(|(_, r)| r.above_one())
        .collect();
    let met = all - slower.len();
    writeln!(
        out,
        "| beyond the pass not slower than the Rust | {met} of {all} rows | {} |",
        if slower.is_empty() { "met" } else { "missed by those below" }
    )
    .unwrap();
    for (size, r) in slower {
        writeln!(out, "| {size}, {} | {:.2} times | missed by {:.2} |", r.name, r.ratio(), r.ratio() - 1.0).unwrap();
    }
    linear_lines(&mut out, &stores.last().expect("a store").1);
    out + "\n"
}
