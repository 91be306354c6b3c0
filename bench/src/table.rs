//! `bench table`: both on the same inputs, for five n.

use crate::pairs::{by_n, Jobs, Roots, BY_N};
use crate::race::{race, Pair, Times};

const NS: [usize; 5] = [2, 4, 8, 16, 32];
/// The published Rust has no reader.
const READER: &str = "read_job, 65,000 bytes (the generator's reader)";

/// A call's times at one n; the root has none.
pub struct Row {
    pub call: String,
    pub n: Option<usize>,
    pub times: Times,
}

/// The calls whose name has `only` in it, and of these the rows of one n if it is given.
pub fn measure(rounds: usize, only: &str, one: Option<usize>) -> Result<Vec<Row>, String> {
    let mut rows = Vec::new();
    let mut add = |call: &str, n: Option<usize>, made: &dyn Fn() -> Box<dyn Pair>| {
        if !call.contains(only) || one.is_some_and(|one| n != Some(one)) {
            return Ok(());
        }
        let of = n.map_or(String::new(), |n| format!(", n {n}"));
        let times = race(made().as_mut(), rounds).map_err(|what| format!("{call}{of}: {what}"))?;
        let call = call.to_string();
        rows.push(Row { call, n, times });
        Ok::<(), String>(())
    };
    add("sqrt, each waits for the last", None, &|| {
        Box::new(Roots::new(true))
    })?;
    add("sqrt, each by itself", None, &|| {
        Box::new(Roots::new(false))
    })?;
    for call in BY_N {
        for n in NS {
            add(call, Some(n), &|| by_n(call, n))?;
        }
    }
    add(READER, Some(32), &|| Box::new(Jobs::new()))?;
    Ok(rows)
}

/// The line above, and the table.
pub fn text(rows: &[Row], head: &str) -> String {
    let mut text = format!("{head}\n\n");
    text += "| call | n | port, ns | Rust, ns | port / Rust |\n|---|---:|---:|---:|---:|";
    for row in rows {
        let n = row.n.map_or("any".into(), |n| n.to_string());
        let Times { port, rust, ratio } = row.times;
        let (port, rust) = (nanos(port), nanos(rust));
        text += &format!("\n| {} | {n} | {port} | {rust} | {ratio:.2} |", row.call);
    }
    text
}

/// Three figures or more; what takes longer than any call is in milliseconds.
pub fn nanos(t: f64) -> String {
    match t {
        t if t < 10.0 => format!("{t:.2}"),
        t if t < 100.0 => format!("{t:.1}"),
        t if t < 1e5 => format!("{t:.0}"),
        t => format!("{:.3} ms", t / 1e6),
    }
}
