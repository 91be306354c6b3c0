//! `bench growth`: what each call costs as n grows, and a scan as its rows do.

use crate::pairs::{by_n, Scans, BY_N};
use crate::race::{race, Pair, Times};
use crate::table::nanos;

const NS: [usize; 9] = [2, 3, 4, 6, 8, 12, 16, 24, 32];
const ROWS: [usize; 8] = [1, 2, 4, 8, 16, 64, 256, 1024];

pub fn print(rounds: usize, head: &str) -> Result<(), String> {
    println!("{head}");
    for call in BY_N {
        let mut table = Table::begin(call, "n");
        for n in NS {
            table.add(n, by_n(call, n).as_mut(), rounds)?;
        }
    }
    for n in [8, 32] {
        let mut table = Table::begin(&format!("scan_band, whole, n {n}"), "rows");
        for rows in ROWS {
            let mut scan = Whole(Scans::whole(n, rows));
            table.add(rows, &mut scan, rounds)?;
        }
    }
    Ok(())
}

/// A scan whose unit is the call and not the row.
struct Whole(Scans);

impl Pair for Whole {
    fn prepare(&mut self, copies: usize) {
        self.0.prepare(copies);
    }
    fn port(&mut self) {
        self.0.port();
    }
    fn rust(&mut self) {
        self.0.rust();
    }
    fn units(&self) -> f64 {
        1.0
    }
    fn difference(&self) -> Option<String> {
        self.0.difference()
    }
}

/// A table printed as it is measured; the last two columns say by how much a line is more than
/// the one before it.
struct Table {
    call: String,
    last: Option<Times>,
}

impl Table {
    fn begin(call: &str, by: &str) -> Self {
        println!("\n{call}:\n");
        println!("| {by} | port, ns | Rust, ns | port / Rust | port grows | Rust grows |");
        println!("|---:|---:|---:|---:|---:|---:|");
        Table {
            call: call.into(),
            last: None,
        }
    }

    fn add(&mut self, size: usize, pair: &mut dyn Pair, rounds: usize) -> Result<(), String> {
        let call = &self.call;
        let now = race(pair, rounds).map_err(|what| format!("{call}, {size}: {what}"))?;
        let more = |of: fn(&Times) -> f64| match &self.last {
            None => "-".into(),
            Some(last) => format!("× {:.2}", of(&now) / of(last)),
        };
        println!(
            "| {size} | {} | {} | {:.2} | {} | {} |",
            nanos(now.port),
            nanos(now.rust),
            now.ratio,
            more(|t| t.port),
            more(|t| t.rust)
        );
        self.last = Some(now);
        Ok(())
    }
}
