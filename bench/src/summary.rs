//! `bench summary`: many runs of several builds as one table, as what it says of the goal, and build by build.

use crate::levels::{levels, GAP};
use crate::noted::Run;
use crate::race::{median, Times};
use crate::table::nanos;
use std::fmt::Write;

/// Rows whose builds are further apart are shown build by build.
const APART: f64 = 1.05;

/// A call at one n in all runs.
pub struct Sum {
    pub call: String,
    pub n: Option<usize>,
    pub runs: usize,
    /// Of these, the ones in which both sides were slower at once.
    pub disturbed: usize,
    /// Nanoseconds, a number for each level.
    pub port: Vec<f64>,
    pub rust: Vec<f64>,
    /// Of the runs' ratios.
    pub middle: f64,
    pub least: f64,
    pub most: f64,
    /// The median ratio of each build's runs.
    pub builds: Vec<(String, f64)>,
}

impl Sum {
    pub fn size(&self) -> String {
        self.n.map_or("any".into(), |n| n.to_string())
    }

    /// How many times the lowest build's ratio the highest one's is.
    fn apart(&self) -> f64 {
        let ratios = || self.builds.iter().map(|(_, ratio)| *ratio);
        ratios().fold(0.0, f64::max) / ratios().fold(f64::INFINITY, f64::min)
    }
}

/// The rows in the order in which the files have them.
pub fn sums(runs: &[Run]) -> Vec<Sum> {
    let mut names: Vec<(&str, Option<usize>)> = Vec::new();
    for row in runs.iter().flat_map(|run| &run.rows) {
        let name = (row.call.as_str(), row.n);
        if !names.contains(&name) {
            names.push(name);
        }
    }
    names.iter().map(|(call, n)| sum(runs, call, *n)).collect()
}

fn sum(runs: &[Run], call: &str, n: Option<usize>) -> Sum {
    let mut all: Vec<(&str, Times)> = Vec::new();
    for run in runs {
        let rows = run.rows.iter().filter(|row| row.call == call && row.n == n);
        all.extend(rows.map(|row| (run.build.as_str(), row.times)));
    }
    let mut builds: Vec<(String, Vec<f64>)> = Vec::new();
    for (build, times) in &all {
        add(&mut builds, build, times.ratio);
    }
    let own: Vec<Times> = undisturbed(&all);
    let ratio = || all.iter().map(|(_, times)| times.ratio);
    let of = |(build, ratios): (String, Vec<f64>)| (build, median(ratios));
    Sum {
        call: call.into(),
        n,
        runs: all.len(),
        disturbed: all.len() - own.len(),
        port: levels(own.iter().map(|times| times.port).collect()),
        rust: levels(own.iter().map(|times| times.rust).collect()),
        least: ratio().fold(f64::INFINITY, f64::min),
        most: ratio().fold(0.0, f64::max),
        middle: median(ratio().collect()),
        builds: builds.into_iter().map(of).collect(),
    }
}

/// Without the runs in which both sides are slower at once than in another run of the same build, which is no level of one side.
fn undisturbed(all: &[(&str, Times)]) -> Vec<Times> {
    let slower = |build: &str, of: fn(&Times) -> f64, time: f64| {
        let mut same = all.iter().filter(|(other, _)| *other == build);
        same.any(|(_, other)| time > GAP * of(other))
    };
    let own = all.iter().filter(|(build, times)| {
        !slower(build, |t| t.port, times.port) || !slower(build, |t| t.rust, times.rust)
    });
    own.map(|(_, times)| *times).collect()
}

fn add(builds: &mut Vec<(String, Vec<f64>)>, build: &str, ratio: f64) {
    match builds.iter_mut().find(|(known, _)| known == build) {
        Some((_, ratios)) => ratios.push(ratio),
        None => builds.push((build.into(), vec![ratio])),
    }
}

/// Where and with what, how many runs, and the three tables.
pub fn text(sums: &[Sum], runs: &[Run]) -> String {
    let mut heads: Vec<&str> = runs.iter().map(|run| run.head.as_str()).collect();
    heads.dedup();
    let mut builds: Vec<&str> = runs.iter().map(|run| run.build.as_str()).collect();
    builds.sort();
    builds.dedup();
    let (heads, builds) = (heads.join("\n"), builds.len());
    let runs = sums.iter().map(|sum| sum.runs).max().unwrap_or(0);
    let tables = [table(sums), judged(sums), by_build(sums)].join("\n");
    let tables = tables.trim_end();
    let times: usize = sums.iter().map(|sum| sum.runs).sum();
    let disturbed: usize = sums.iter().map(|sum| sum.disturbed).sum();
    format!("{heads}\n\n{runs} runs of {builds} builds; both sides slower at once in {disturbed} of {times} times\n\n{tables}")
}

fn table(sums: &[Sum]) -> String {
    let mut text =
        String::from("| call | n | port, ns | Rust, ns | port / Rust | least to most |\n");
    text += "|---|---:|---:|---:|---:|---:|\n";
    for sum in sums {
        let shown = |levels: &[f64]| {
            let levels: Vec<String> = levels.iter().map(|&t| nanos(t)).collect();
            levels.join(" / ")
        };
        let (call, n, port, rust) = (&sum.call, sum.size(), shown(&sum.port), shown(&sum.rust));
        let (middle, least, most) = (sum.middle, sum.least, sum.most);
        let _ = writeln!(
            text,
            "| {call} | {n} | {port} | {rust} | {middle:.2} | {least:.2} to {most:.2} |"
        );
    }
    text
}

/// What a call's ratio shall be at most, where that was asked for.
fn goal(call: &str) -> Option<f64> {
    match call {
        "sqrt, each waits for the last" => Some(4.0),
        "dot" | "scan_band, whole, a row" => Some(1.0),
        "sqrt, each by itself" | "dot_mv_into" | "scan_band, stops at its first row" => None,
        call if call.starts_with("filterrun") => None,
        _ => Some(0.8),
    }
}

/// Each call's n by the most, that is by the run that is worst for the port.
fn judged(sums: &[Sum]) -> String {
    let mut text = String::from("| call | goal | at most the goal | at most 1.0 | above 1.0 |\n");
    text += "|---|---:|---|---|---|\n";
    for group in sums.chunk_by(|a, b| a.call == b.call) {
        let call = &group[0].call;
        let mut columns: [Vec<String>; 3] = Default::default();
        for sum in group {
            let shown = format!("{} ({:.2})", sum.size(), sum.most);
            columns[column(rounded(sum.most), goal(call))].push(shown);
        }
        let goal = goal(call).map_or("-".into(), |goal| format!("{goal:.1}"));
        let [met, below, above] = columns.map(|column| column.join(", "));
        let _ = writeln!(text, "| {call} | {goal} | {met} | {below} | {above} |");
    }
    text
}

/// As it is printed, so that no number stands in a column that it seems not to belong to.
fn rounded(ratio: f64) -> f64 {
    (ratio * 100.0).round() / 100.0
}

fn column(most: f64, goal: Option<f64>) -> usize {
    match goal {
        Some(goal) if most <= goal => 0,
        _ if most <= 1.0 => 1,
        _ => 2,
    }
}

/// The median ratio of each build, where the builds part.
fn by_build(sums: &[Sum]) -> String {
    let parted = || sums.iter().filter(|sum| sum.apart() > APART);
    let Some(first) = parted().next() else {
        return "No row's builds are apart.\n".into();
    };
    let names: Vec<&str> = first.builds.iter().map(|(name, _)| name.as_str()).collect();
    let mut text = format!("| call | n | {} |\n", names.join(" | "));
    text += &format!("|---|---:|{}\n", "---:|".repeat(names.len()));
    for sum in parted() {
        let of = |name: &&str| sum.builds.iter().find(|(known, _)| known == name);
        let shown = |name| of(name).map_or("-".into(), |(_, ratio)| format!("{ratio:.2}"));
        let shown: Vec<String> = names.iter().map(shown).collect();
        let _ = writeln!(
            text,
            "| {} | {} | {} |",
            sum.call,
            sum.size(),
            shown.join(" | ")
        );
    }
    text
}

#[cfg(test)]
mod tests {
    use super::*;
    use crate::noted::read;

    fn run(build: &str, rust: f64) -> Run {
        let ratio = 20.0 / rust;
        let file = format!("head\n{build}\nsqrt, each waits for the last\tany\t15\t5\t3\ndot_mv_into\t8\t20\t{rust}\t{ratio}\n");
        read(&file).unwrap()
    }

    fn four() -> Vec<Sum> {
        let runs = [("as it comes", 40.0), ("order 1", 25.0)];
        let runs = runs.map(|(build, rust)| [run(build, rust), run(build, rust)]);
        sums(&runs.into_iter().flatten().collect::<Vec<_>>())
    }

    #[test]
    fn levels_and_the_worst() {
        let [root, product] = &four()[..] else {
            panic!("two rows")
        };
        assert_eq!((root.middle, root.least, root.most), (3.0, 3.0, 3.0));
        assert_eq!(
            (&product.port[..], &product.rust[..]),
            (&[20.0][..], &[25.0, 40.0][..])
        );
        assert_eq!(
            (product.middle, product.least, product.most),
            (0.65, 0.5, 0.8)
        );
    }

    #[test]
    fn both_slower_at_once_is_no_level() {
        let quiet = Times {
            port: 20.0,
            rust: 40.0,
            ratio: 0.5,
        };
        let other = Times {
            rust: 25.0,
            ..quiet
        };
        let slow = Times {
            port: 30.0,
            rust: 60.0,
            ratio: 0.5,
        };
        let own = undisturbed(&[("a", quiet), ("a", slow), ("a", other), ("b", slow)]);
        let rust: Vec<f64> = own.iter().map(|times| times.rust).collect();
        assert_eq!(rust, [40.0, 25.0, 60.0]);
    }

    #[test]
    fn printed() {
        let sums = four();
        let last = "| dot_mv_into | 8 | 20.0 | 25.0 / 40.0 | 0.65 | 0.50 to 0.80 |\n";
        assert!(table(&sums).ends_with(last));
        let goals = "| sqrt, each waits for the last | 4.0 | any (3.00) |  |  |\n| dot_mv_into | - |  | 8 (0.80) |  |\n";
        assert!(judged(&sums).ends_with(goals));
        let builds = "| call | n | as it comes | order 1 |\n|---|---:|---:|---:|\n| dot_mv_into | 8 | 0.50 | 0.80 |\n";
        assert_eq!(by_build(&sums), builds);
    }

    #[test]
    fn columns() {
        assert_eq!(column(0.8, Some(0.8)), 0);
        assert_eq!(column(0.81, Some(0.8)), 1);
        assert_eq!(column(1.01, Some(0.8)), 2);
        assert_eq!(column(0.5, None), 1);
        assert_eq!(column(rounded(1.004), Some(1.0)), 0);
    }
}
