//! The layers of the project: their operations, and the lists made of them.

use crate::lists::Case;
use crate::words::Source;
use crate::{drivers, numbers, oracles};
use std::io::{self, ErrorKind, Write};

/// A layer: its operations, and what fills a case of one.
pub struct Layer {
    pub name: &'static str,
    pub ops: &'static [(u64, &'static str, usize)],
    pub fill: fn(u64, &mut Source, &mut Case),
    /// Cases that every list begins with.
    pub fixed: fn() -> Vec<Case>,
    /// Seed and count of the list that the gate replays.
    pub gate: (u64, u64),
}

pub const LAYERS: &[Layer] = &[
    Layer {
        name: "numbers",
        ops: numbers::OPS,
        fill: numbers::fill,
        fixed: Vec::new,
        gate: (20261115, 24_000),
    },
    Layer {
        name: "oracles",
        ops: oracles::OPS,
        fill: oracles::fill,
        fixed: oracles::fixed,
        gate: (20261115, 24_001),
    },
    Layer {
        name: "drivers",
        ops: drivers::OPS,
        fill: drivers::fill,
        fixed: drivers::fixed,
        gate: (20261116, 5_601),
    },
];

impl Layer {
    /// The operations in the order in which a list takes them, again and again. Each stands as
    /// often as its weight, the first round has all of them, and `only` narrows the choice.
    pub fn wheel(&self, only: &[u64]) -> io::Result<Vec<u64>> {
        for op in only {
            if !self.ops.iter().any(|known| known.0 == *op) {
                let what = "no such operation in this layer";
                return Err(io::Error::new(ErrorKind::InvalidInput, what));
            }
        }
        if !only.is_empty() {
            return Ok(only.to_vec());
        }
        let most = self.ops.iter().map(|op| op.2).max().unwrap_or(0);
        let rounds = (0..most).flat_map(|round| self.ops.iter().filter(move |op| op.2 > round));
        Ok(rounds.map(|op| op.0).collect())
    }

    /// Writes the fixed cases, then drawn ones, of the operations in `only` or, if it is empty, of all.
    pub fn write_list(
        &self,
        only: &[u64],
        seed: u64,
        count: u64,
        to: &mut impl Write,
    ) -> io::Result<()> {
        let wheel = self.wheel(only)?;
        let mut fixed = (self.fixed)();
        fixed.retain(|case| only.is_empty() || only.contains(&case.op));
        fixed.truncate(count as usize);
        for case in &fixed {
            case.write(to)?;
        }
        self.write_drawn(&wheel, seed, count - fixed.len() as u64, to)
    }

    /// Writes so many drawn cases.
    pub fn write_drawn(
        &self,
        wheel: &[u64],
        seed: u64,
        count: u64,
        to: &mut impl Write,
    ) -> io::Result<()> {
        let mut src = Source::new(seed);
        let mut case = Case::default();
        for at in 0..count {
            let op = wheel[(at % wheel.len() as u64) as usize];
            (self.fill)(op, &mut src, &mut case);
            case.write(to)?;
        }
        to.flush()
    }

    /// Writes the list that the gate replays. At its end stands a case of each operation whose last
    /// word is wrong on purpose, so that a replay that compares nothing is noticed.
    pub fn write_gate(&self, to: &mut impl Write) -> io::Result<()> {
        let (seed, count) = self.gate;
        self.write_list(&[], seed, count, to)?;
        let mut src = Source::new(!seed);
        let mut case = Case::default();
        for (op, ..) in self.ops {
            (self.fill)(*op, &mut src, &mut case);
            *case.output.last_mut().unwrap() ^= 1;
            case.write(to)?;
        }
        to.flush()
    }
}

#[cfg(test)]
mod tests {
    use super::*;

    /// The lists that the gate replays are what their seeds give.
    #[test]
    fn committed_lists_are_made_anew() {
        for layer in LAYERS {
            let mut made = Vec::new();
            layer.write_gate(&mut made).unwrap();
            let path = format!("../crates/{}_vectors/stdin", layer.name);
            assert!(std::fs::read(&path).unwrap() == made, "{path}");
        }
    }
}
