//! `filterrun` over the published Rust, as its user would write it, for `bench jobs`. The reader is the generator's, since the Rust has none.
//! Each line goes out by a write of its own, as the port's does; with the word `buffered` all go out together.

use ellalgo_rs::arr::Arr;
use ellalgo_rs::cutting_plane::{CutStatus, OracleFeas, ParallelCut, SearchSpace};
use ellalgo_rs::ell::Ell;
use ellalgo_rs::oracles::lowpass_oracle::LowpassOracle;
use ellalgo_rs::round_robin::RoundRobin;
use generator::drivers::filterrun::{accepted, LONGEST};
use generator::drivers::job::Job;
use generator::words::word;
use std::env;
use std::fmt::{self, Display, Formatter};
use std::io::{self, BufWriter, Read, Write};

/// In a mirror that no assessment has written.
const UNSEEN: i32 = i32::MIN;

fn main() -> io::Result<()> {
    let mut bytes = Vec::with_capacity(LONGEST + 1);
    let longest = LONGEST as u64 + 1;
    io::stdin().take(longest).read_to_end(&mut bytes)?;
    // Standard output hands on whatever ends a line.
    let mut out = io::stdout().lock();
    if env::args().nth(1).is_some_and(|word| word == "buffered") {
        let mut out = BufWriter::with_capacity(1 << 16, out);
        run(&bytes, &mut out)?;
        return out.flush();
    }
    run(&bytes, &mut out)
}

fn run(bytes: &[u8], to: &mut impl Write) -> io::Result<()> {
    let job = match accepted(bytes) {
        Ok(job) => job,
        Err(no) => return writeln!(to, "refused {} {}", no.number, no.place),
    };
    let mut oracle = oracle(&job);
    let mq = Arr::from_shape_vec(job.n, job.n, job.mq);
    let mut ell = Ell::new_with_matrix(job.kappa, mq, Arr::from(job.x));
    for step in 0..job.limit {
        // The oracle does not tell the group that broke; which mirrors it writes does.
        (oracle.idx2, oracle.idx3) = (UNSEEN, UNSEEN);
        let Some(cut) = oracle.assess_feas(&ell.xc) else {
            return writeln!(to, "found {step}");
        };
        let status = ell.update_bias_cut(&cut);
        write_line(to, step, &oracle, &cut, &status)?;
        if status != CutStatus::Success || ell.tsq < job.tolerance {
            return writeln!(to, "none {step}");
        }
    }
    writeln!(to, "none {}", job.limit)
}

fn oracle(job: &Job) -> LowpassOracle {
    let rows = job.table.chunks(job.n);
    let spectrum = rows.map(|row| Arr::from(row.to_vec())).collect();
    let (nwpass, nwstop) = (job.nwpass as i32, job.nwstop as i32);
    let ends = [0, nwpass, nwstop, job.rows() as i32];
    let cursors = [0, 1, 2].map(|k| {
        let mut cursor = RoundRobin::new_range(ends[k], ends[k + 1]);
        while cursor.current() != job.cur[k] as i32 {
            cursor.advance();
        }
        cursor
    });
    let [lp_sq, up_sq, sp_sq] = job.limits;
    let idx = [-1, nwpass - 1, nwstop - 1];
    LowpassOracle::with_table(
        spectrum,
        (nwpass, nwstop),
        (lp_sq, up_sq, sp_sq),
        cursors,
        idx,
        (f64::NEG_INFINITY, -1),
        true,
    )
}

fn write_line(
    to: &mut impl Write,
    step: u16,
    oracle: &LowpassOracle,
    cut: &(Arr, ParallelCut),
    status: &CutStatus,
) -> io::Result<()> {
    let (group, row) = match oracle {
        LowpassOracle { more_alt, .. } if !more_alt => ("sign", None),
        LowpassOracle { idx2, .. } if *idx2 != UNSEEN => ("middle", Some(*idx2)),
        LowpassOracle { idx3, .. } if *idx3 != UNSEEN => ("stop", Some(*idx3)),
        LowpassOracle { idx1, .. } => ("pass", Some(*idx1)),
    };
    // A value over its limit has the row itself as its gradient, one under it the negated row.
    let first = |row: i32| oracle.spectrum[row as usize][0].to_bits();
    let over = row.is_some_and(|row| first(row) == cut.0[0].to_bits());
    let side = if over { "over" } else { "under" };
    let ParallelCut(b0, b1) = cut.1;
    let (b0, b1, row) = (Hex(b0), Dash(b1.map(Hex)), Dash(row));
    writeln!(to, "{step} {group} {row} {side} {b0} {b1} {status:?}")
}

/// The bits, all NaN being one.
struct Hex(f64);

impl Display for Hex {
    fn fmt(&self, f: &mut Formatter) -> fmt::Result {
        write!(f, "{:016X}", word(self.0))
    }
}

/// A dash where there is nothing.
struct Dash<T>(Option<T>);

impl<T: Display> Display for Dash<T> {
    fn fmt(&self, f: &mut Formatter) -> fmt::Result {
        match &self.0 {
            Some(known) => known.fmt(f),
            None => f.write_str("-"),
        }
    }
}

#[cfg(test)]
mod tests {
    use super::*;
    use generator::drivers::compare::Questions;
    use generator::drivers::filterrun::text;

    #[test]
    fn the_generators_texts() {
        let mut questions = Questions::new(7);
        for _ in 0..2000 {
            let asked = questions.next();
            let mut got = Vec::new();
            run(&asked.bytes, &mut got).unwrap();
            let got = String::from_utf8(got).unwrap();
            assert_eq!(got, text(&asked.bytes), "{}", asked.kind);
        }
    }
}
