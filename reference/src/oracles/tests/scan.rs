//! Operations 41 and 130.

use super::lowpass::dot;
use super::{must_be_common, Reader, Relation};
use crate::lists::Case;

/// A case of 41.
struct Scan {
    cur: i32,
    lo: i32,
    hi: i32,
    lower: f64,
    upper: Option<f64>,
    values: Vec<f64>,
    found: Option<(usize, f64, bool)>,
    fmax: f64,
    kmax: i32,
}

impl Scan {
    fn over(&self) -> bool {
        self.found.is_some_and(|found| found.2)
    }

    fn under(&self) -> bool {
        self.found.is_some_and(|found| !found.2)
    }
}

fn read_scan(case: &Case) -> Scan {
    let mut from = Reader(&case.input);
    let [n, rows] = [(); 2].map(|_| from.count());
    let table = from.floats(rows * n);
    let x = from.floats(n);
    let [cur, lo, hi] = [(); 3].map(|_| from.signed());
    let lower = from.float();
    let upper = from.optional().map(f64::from_bits);
    from.end();
    let mut to = Reader(&case.output);
    let [row, value, side] = [(); 3].map(|_| to.optional());
    let (fmax, kmax, last) = (to.float(), to.signed(), to.signed());
    assert_eq!(last, to.signed());
    to.end();
    let values = table.chunks(n).map(|row| dot(row, &x));
    let found = row.map(|row| {
        (
            row as usize,
            f64::from_bits(value.unwrap()),
            side == Some(1),
        )
    });
    Scan {
        cur,
        lo,
        hi,
        lower,
        upper,
        values: values.collect::<Vec<_>>()[lo as usize..hi as usize].to_vec(),
        found,
        fmax,
        kmax,
    }
}

#[test]
fn scan_borders_are_common() {
    let relations: &[Relation<Scan>] = &[
        ("over", 8, |s| s.over()),
        ("under", 8, |s| s.under()),
        ("none", 3, |s| s.found.is_none()),
        ("under, no upper limit", 20, |s| {
            s.under() && s.upper.is_none()
        }),
        ("none, no upper limit", 20, |s| {
            s.found.is_none() && s.upper.is_none()
        }),
        ("empty band", 20, |s| s.lo == s.hi),
        ("empty band not at 0", 20, |s| s.lo == s.hi && s.lo > 0),
        ("found before the cursor", 20, |s| {
            s.found.is_some_and(|f| f.0 as i32 <= s.cur)
        }),
        ("found after a turn, and a peak", 300, |s| {
            s.found.is_some_and(|f| f.0 as i32 <= s.cur) && s.kmax > s.cur
        }),
        ("over and under at once", 150, |s| {
            s.found.is_some_and(|f| f.2 && f.1 < s.lower)
        }),
        ("minus infinity passes", 100, |s| {
            s.found.is_none() && s.values.contains(&f64::NEG_INFINITY)
        }),
        ("minus infinity alone passes, no peak", 200, |s| {
            let compared = s.values.iter().filter(|v| !v.is_nan()).count();
            s.found.is_none() && compared > 0 && s.fmax == f64::NEG_INFINITY && s.kmax == -1
        }),
        ("NaN passes", 20, |s| {
            s.found.is_none() && s.values.iter().any(|v| v.is_nan())
        }),
        ("NaN limits", 500, |s| {
            s.lower.is_nan() || s.upper.is_some_and(f64::is_nan)
        }),
        ("on the upper limit", 10, |s| {
            s.found.is_none() && s.upper.is_some_and(|u| s.values.contains(&u))
        }),
        ("on the lower limit", 10, |s| {
            s.found.is_none() && s.values.contains(&s.lower)
        }),
        ("a peak that is not the lowest of its value", 250, |s| {
            s.kmax > s.lo && s.values[..(s.kmax - s.lo) as usize].contains(&s.fmax)
        }),
    ];
    must_be_common(41, 100_000, read_scan, relations);
}

/// positions, verdict, agree, verdict_optim, agree_optim, and whether the stop band is empty.
fn read_positions(case: &Case) -> ([u64; 5], bool) {
    let mut from = Reader(&case.input);
    let [n, rows, nwpass, nwstop] = [(); 4].map(|_| from.count());
    from.words(4 + rows * n + n);
    from.end();
    let answer: [u64; 5] = case.output[..].try_into().unwrap();
    let positions = (nwpass + 1) * (nwstop - nwpass + 1) * (rows - nwstop + 1);
    assert_eq!(answer[0], positions as u64);
    assert_eq!((answer[2], answer[4]), (answer[0], answer[0]));
    (answer, rows == nwstop)
}

#[test]
fn verdicts_are_common() {
    let relations: &[Relation<([u64; 5], bool)>] = &[
        ("pass", 10, |s| s.0[1] == 0),
        ("stop", 10, |s| s.0[1] == 1),
        ("middle", 30, |s| s.0[1] == 2),
        ("sign", 30, |s| s.0[1] == 3),
        ("feasible", 4, |s| s.0[1] == 4),
        ("feasible by assess_optim", 4, |s| s.0[3] == 4),
        ("two verdicts", 20, |s| s.0[1] != s.0[3]),
        ("empty stop band, feasible", 50, |s| s.0[3] == 4 && s.1),
        ("many positions", 10, |s| s.0[0] >= 18),
    ];
    must_be_common(130, 20_000, read_positions, relations);
}
