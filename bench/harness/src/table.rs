//! The tables, in Markdown.
use std::fmt::Write;

/// Nanoseconds a call.
pub struct Row {
    pub name: String,
    /// The call with its soundness pass.
    pub whole: Option<f64>,
    /// The call without it.
    pub inner: f64,
    pub rust: f64,
}

impl Row {
    pub fn of(name: &str, [whole, inner, rust]: [f64; 3]) -> Self {
        Row { name: name.into(), whole: Some(whole), inner, rust }
    }

    pub fn ratio(&self) -> f64 {
        self.inner / self.rust
    }

    /// To the two digits that are printed.
    pub fn above_one(&self) -> bool {
        (100.0 * self.ratio()).round() > 100.0
    }
}

/// Nanoseconds a pass and a plain read.
pub struct Pass {
    pub name: String,
    pub call_warm: f64,
    pub pass_warm: f64,
    pub read_warm: f64,
    pub pass_cold: f64,
    pub read_cold: f64,
}

pub fn ns(time: f64) -> String {
    match time {
        t if t < 100.0 => format!("{t:.1}"),
        t if t < 100_000.0 => format!("{t:.0}"),
        t => format!("{:.1} µs", t / 1000.0),
    }
}

/// What the figures are.
pub fn legend(rounds: usize) -> String {
    format!(
        "Lower quartiles of {rounds} rounds, in each of which ours and the Rust's run in turn on the same inputs; nanoseconds a call
where no unit stands. Before measuring, both sides' answers are compared in every bit.

- *whole*: the call through libtransforms_c.a, measured directly.
- *beyond the pass*: the function that runs after the soundness pass, exported by bench/inner and measured directly;
  nothing is subtracted.
- *the Rust*: the oracle's crate, opt-level 3, fat LTO, one codegen unit; frames are handed over as strings made before.
- *pass*: the soundness pass alone, by bench/inner. *same frame twice*: a whole lookup of a frame from itself, which
  looks for the frame and does nothing else. *plain read*: the sum of all words of the three slices, by the harness.
  *cold*: every line flushed before.
"
    )
}

pub fn calls(title: &str, rows: &[Row]) -> String {
    let mut out = format!(
        "### {title}\n\n| call | whole | beyond the pass | the Rust | beyond the pass / Rust | whole / Rust |\n|---|---:|---:|---:|---:|---:|\n"
    );
    for r in rows {
        let whole = r.whole.map_or("".into(), ns);
        let against = r.whole.map_or("".into(), |w| format!("{:.2}", w / r.rust));
        writeln!(out, "| {} | {whole} | {} | {} | {:.2} | {against} |", r.name, ns(r.inner), ns(r.rust), r.ratio())
            .unwrap();
    }
    out + "\n"
}

pub fn passes(rows: &[Pass]) -> String {
    let mut out = String::from(
        "### The soundness pass\n\n| store | same frame twice | pass | plain read | pass / read | pass, cold | plain read, cold | pass / read, cold |\n|---|---:|---:|---:|---:|---:|---:|---:|\n",
    );
    for r in rows {
        let (warm, cold) = (r.pass_warm / r.read_warm, r.pass_cold / r.read_cold);
        let times = [r.call_warm, r.pass_warm, r.read_warm].map(ns).join(" | ");
        writeln!(out, "| {} | {times} | {warm:.2} | {} | {} | {cold:.2} |", r.name, ns(r.pass_cold), ns(r.read_cold))
            .unwrap();
    }
    out + "\n"
}

pub fn leaves(rows: &[Row]) -> String {
    let mut out = String::from("### Without a store\n\n| call | ours | the Rust | ratio |\n|---|---:|---:|---:|\n");
    for r in rows {
        writeln!(out, "| {} | {} | {} | {:.2} |", r.name, ns(r.inner), ns(r.rust), r.ratio()).unwrap();
    }
    out + "\n"
}

/// A load of 256 records; the last name and the last number of a file of 256 records, and of the largest one.
pub fn maps([load, singly, rust]: [f64; 3], (book, names): ([f64; 2], usize), (largest, most): ([f64; 2], usize)) -> String {
    let [number, named] = book.map(ns);
    let [number_most, named_most] = largest.map(|seconds| format!("{seconds:.1} s"));
    format!(
        "### Maps

| what | ours | ours, by 256 single additions | the Rust, by 256 additions | ours / Rust |
|---|---:|---:|---:|---:|
| load of 256 records into a store of 256x1 | {} | {} | {} | {:.2} |

| the book of names | file of {names} names, the last | largest file, {most} names, the last |
|---|---:|---:|
| number of a name | {number} | {number_most} |
| name of a number | {named} | {named_most} |

",
        ns(load),
        ns(singly),
        ns(rust),
        load / rust
    )
}
