//! The exported calls on the generator's cases: inputs taken from a case's words, the answer given back as words.

use super::drivers::{self, give_bands};
use super::taken::Taken;
use super::Tally;
use crate::port::{self, Band, Read, Scanned};
use generator::lists::{Case, ABSENT};
use generator::oracles::spaces::{Cut, Space};
use generator::words::Source;
use generator::{drivers as records, numbers, oracles};
use std::time::Instant;

/// Gives the port's answer to a case's inputs.
type Replay = fn(&mut Taken, &mut Case);
type Fill = fn(u64, &mut Source, &mut Case);

/// Each call, its operation, what draws cases of it and what replays one.
const CALLS: [(&str, u64, Fill, Replay); 10] = [
    ("ponduvizh_sqrt", 1, numbers::fill, sqrt),
    ("ponduvizh_dot", 100, numbers::fill, dot),
    ("ponduvizh_dot_mv_into", 101, numbers::fill, dot_mv_into),
    ("ponduvizh_scan_band", 112, oracles::fill, scan_band),
    ("ponduvizh_factor", 115, oracles::fill, factor),
    ("ponduvizh_ell_update", 119, oracles::fill, |t, c| {
        update(t, c, false)
    }),
    ("ponduvizh_ell_stable_update", 120, oracles::fill, |t, c| {
        update(t, c, true)
    }),
    ("ponduvizh_read_job", 150, records::fill, read_job),
    (
        "ponduvizh_cutting_plane_feas",
        140,
        drivers::fill,
        drivers::feas,
    ),
    (
        "ponduvizh_cutting_plane_optim",
        141,
        drivers::fill,
        drivers::optim,
    ),
];
/// Cases of one call in a row; roots are cheap and come more often.
const EACH: u64 = 20;
const ROOTS: u64 = 2000;

pub fn compare(seed: u64, until: Instant, tally: &mut Tally) {
    let mut src = Source::new(seed);
    let mut case = Case::default();
    while Instant::now() < until {
        for (name, op, fill, replay) in CALLS {
            for _ in 0..if op == 1 { ROOTS } else { EACH } {
                fill(op, &mut src, &mut case);
                tally.add(name, 1, difference(&case, replay));
            }
        }
    }
}

/// Where the port's words and the Rust's part.
fn difference(case: &Case, replay: Replay) -> Option<String> {
    let mut taken = Taken::new(&case.input);
    let mut got = Case::default();
    replay(&mut taken, &mut got);
    taken.end();
    if case.output == got.output {
        return None;
    }
    let both = case.output.iter().zip(&got.output);
    let at = both.take_while(|(a, b)| a == b).count();
    let shown = |words: &[u64]| words.get(at).map_or("none".into(), |w| format!("{w:016X}"));
    Some(format!(
        "word {}, expected {}, got {}; inputs {:X?}",
        at + 1,
        shown(&case.output),
        shown(&got.output),
        &case.input[..case.input.len().min(200)]
    ))
}

/// One word too many, so that a refused call that has written something differs.
pub fn keep(kept: bool, got: &mut Case) {
    if !kept {
        got.give(ABSENT);
    }
}

fn sqrt(taken: &mut Taken, got: &mut Case) {
    got.give_floats(&[port::sqrt(taken.float())]);
}

fn dot(taken: &mut Taken, got: &mut Case) {
    let [n, la, lb] = taken.sizes();
    let (a, b) = (taken.floats(la), taken.floats(lb));
    let mut out = 7.0;
    let no = port::dot(n, &a, &b, &mut out);
    got.give(no);
    if no == 0 {
        got.give_floats(&[out]);
    } else {
        got.give_floats(&[0.0]); // the list's word for a refused one
        keep(out == 7.0, got);
    }
}

fn dot_mv_into(taken: &mut Taken, got: &mut Case) {
    let [n, lm, lx, lo] = taken.sizes();
    let (mat, x, mut out) = (taken.floats(lm), taken.floats(lx), taken.floats(lo));
    got.give(port::dot_mv_into(n, &mat, &x, &mut out));
    got.give_floats(&out);
}

fn scan_band(taken: &mut Taken, got: &mut Case) {
    let [n, rows, lt, lx] = taken.sizes();
    let mut scanned = Scanned::from(taken.signed());
    let band = Band {
        lo: taken.signed(),
        hi: taken.signed(),
        lower: taken.float(),
        upper: taken.optional(),
    };
    let (table, x) = (taken.floats(lt), taken.floats(lx));
    let before = format!("{scanned:?}");
    let no = port::scan_band(n, rows, &table, &x, &band, &mut scanned);
    got.give(no);
    if no == 0 {
        give_scanned(&scanned, got);
    }
    got.give_signed(scanned.cur);
    keep(no == 0 || before == format!("{scanned:?}"), got);
}

fn give_scanned(scanned: &Scanned, got: &mut Case) {
    let [side, row] = scanned.found;
    let [value, fmax] = scanned.values;
    if side == 0 {
        got.output.extend([ABSENT; 3]);
        keep(row == 0 && value.to_bits() == 0, got);
    } else {
        got.give(row as u64);
        got.give_floats(&[value]);
        got.give(side as u64 - 1);
    }
    got.give_floats(&[fmax]);
    got.give_signed(scanned.kmax);
    got.give_signed(scanned.cur);
}

fn factor(taken: &mut Taken, got: &mut Case) {
    let [m, lm, ls] = taken.sizes();
    let (mat, mut storage) = (taken.floats(lm), taken.floats(ls));
    let mut end = usize::MAX;
    let no = port::factor(m, &mat, &mut storage, &mut end);
    got.give(no);
    if no == 0 {
        got.give((end != 0) as u64);
        got.give(0); // the start
        got.give(end as u64);
    }
    got.give_floats(&storage);
    keep(no == 0 || end == usize::MAX, got);
}

fn update(taken: &mut Taken, got: &mut Case, stable: bool) {
    let (how, n) = (taken.word(), taken.size());
    let (kappa, tsq) = (taken.float(), taken.float());
    let [lxc, lmq] = taken.sizes();
    let count = if stable { 4 } else { 1 };
    let lengths: Vec<usize> = (0..count).map(|_| taken.size()).collect();
    let lg = taken.size();
    let (b0, b1) = (taken.float(), taken.optional());
    let mut space = Space {
        stable,
        kappa,
        tsq,
        xc: taken.floats(lxc),
        mq: taken.floats(lmq),
        scratch: lengths.iter().map(|&len| taken.floats(len)).collect(),
    };
    let grad = taken.floats(lg);
    let mut status = u64::MAX;
    let no = port::update(n, &Cut { how, grad, b0, b1 }, &mut space, &mut status);
    got.give(no);
    if no == 0 {
        got.give(status);
    }
    got.give_floats(&[space.kappa, space.tsq]);
    got.give_floats(&space.xc);
    got.give_floats(&space.mq);
    space.scratch.iter().for_each(|v| got.give_floats(v));
    keep(no == 0 || status == u64::MAX, got);
}

fn read_job(taken: &mut Taken, got: &mut Case) {
    let [lb, lt, lx, lm] = taken.sizes();
    let bytes = taken.bytes(lb);
    let mut read = Read {
        place: 7,
        sizes: [7; 3],
        bands: [7; 2],
        marks: [7; 7],
        numbers: [7.0; 5],
        table: taken.floats(lt),
        xc: taken.floats(lx),
        mq: taken.floats(lm),
    };
    let no = port::read_job(&bytes, &mut read);
    got.give(no);
    if no == 0 {
        got.give(0); // the list's word where there is no place
        give_numbers(&read, got);
        keep(read.place == 7, got);
    } else {
        got.give(read.place as u64);
        let told = (read.sizes, read.bands, read.marks, read.numbers);
        keep(told == ([7; 3], [7; 2], [7; 7], [7.0; 5]), got);
    }
    let slices = [&read.table, &read.xc, &read.mq];
    slices.iter().for_each(|part| got.give_floats(part));
}

/// The marks are the cursors, each idx before its band, and no kmax. The exported reader tells neither fmax nor more_alt nor the cursors' bands; they are written as a job's oracle starts.
fn give_numbers(read: &Read, got: &mut Case) {
    let [n, rows, max_iters] = read.sizes;
    let [lp_sq, up_sq, sp_sq, kappa, tolerance] = read.numbers;
    let [cur_and_idx @ .., kmax] = read.marks;
    got.give(n as u64);
    got.give(rows as u64);
    read.bands.iter().for_each(|&band| got.give_signed(band));
    got.give_floats(&[lp_sq, up_sq]);
    cur_and_idx.iter().for_each(|&mark| got.give_signed(mark));
    got.give_floats(&[f64::NEG_INFINITY]);
    got.give_signed(kmax);
    got.give(1);
    got.give_floats(&[sp_sq]);
    let [nwpass, nwstop] = read.bands;
    give_bands(nwpass, nwstop, rows as i32, got);
    got.give_floats(&[kappa]);
    got.give(max_iters as u64);
    got.give_floats(&[tolerance]);
}

#[cfg(test)]
mod tests {
    use super::*;
    use std::time::Duration;

    #[test]
    fn every_call_agrees() {
        let mut tally = Tally::default();
        compare(1, Instant::now() + Duration::from_secs(2), &mut tally);
        assert!(tally.print());
        assert_eq!(tally.counts.len(), CALLS.len());
    }
}
