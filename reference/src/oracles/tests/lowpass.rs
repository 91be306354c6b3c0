//! Operations 42 and 43.

use super::{is_minus_zero, is_plus_zero, must_be_common, Reader, Relation};
use crate::lists::Case;

/// A state as it is written.
struct State {
    cur: [i32; 3],
    idx: [i32; 3],
    fmax: f64,
    kmax: i32,
    more_alt: bool,
    sp_sq: f64,
}

fn state(from: &mut Reader) -> State {
    State {
        cur: [(); 3].map(|_| from.signed()),
        idx: [(); 3].map(|_| from.signed()),
        fmax: from.float(),
        kmax: from.signed(),
        more_alt: from.word() == 1,
        sp_sq: from.float(),
    }
}

/// A case of 42 or 43, with the values that its rows have.
struct Seen {
    n: usize,
    rows: usize,
    bands: (usize, usize),
    lp_sq: f64,
    up_sq: f64,
    /// The limit of the stop band in force.
    sp_sq: f64,
    before: State,
    x: Vec<f64>,
    gamma: f64,
    values: Vec<f64>,
    /// 0 feasible, 1 cut, 2 best, 3 refused.
    kind: u64,
    group: u64,
    row: usize,
    over: bool,
    b0: f64,
    b1: Option<f64>,
    after: Option<State>,
}

impl Seen {
    fn pass(&self) -> &[f64] {
        &self.values[..self.bands.0]
    }

    fn middle(&self) -> &[f64] {
        &self.values[self.bands.0..self.bands.1]
    }

    fn stop(&self) -> &[f64] {
        &self.values[self.bands.1..]
    }

    fn feasible(&self) -> bool {
        self.kind != 1
    }

    fn broke(&self, group: u64, over: bool) -> bool {
        self.kind == 1 && self.group == group && self.over == over
    }

    fn value(&self) -> f64 {
        self.values[self.row]
    }

    fn breaks(&self, i: usize) -> Option<u64> {
        let v = self.values[i];
        if i < self.bands.0 {
            (v > self.up_sq || v < self.lp_sq).then_some(0)
        } else if i < self.bands.1 {
            (v < 0.0).then_some(2)
        } else {
            (v > self.sp_sq || v < 0.0).then_some(1)
        }
    }

    /// How many rows of the broken group break it.
    fn broken_rows(&self) -> usize {
        (0..self.rows)
            .filter(|&i| self.breaks(i) == Some(self.group))
            .count()
    }

    /// Demand 3 from the words alone.
    fn check(&self) {
        let first = (0..self.rows).filter_map(|i| self.breaks(i)).min();
        let first = first.or((self.x[0] < 0.0).then_some(3));
        let Some(group) = first else {
            let known = self.stop().iter().copied().filter(|v| !v.is_nan());
            let peak = known.fold(f64::NEG_INFINITY, f64::max);
            assert_eq!(self.kind == 3, self.kind != 0 && peak == f64::NEG_INFINITY);
            if let Some(after) = &self.after {
                assert!(self.kind == 0 || self.kind == 2);
                assert_eq!(after.fmax, peak);
                let at = after.kmax;
                assert!(at == -1 && peak == f64::NEG_INFINITY || self.values[at as usize] == peak);
            }
            return;
        };
        assert_eq!((self.kind, self.group), (1, group));
        let after = self.after.as_ref().unwrap();
        if group < 3 {
            assert_eq!(self.breaks(self.row), Some(group));
            assert_eq!(after.cur[[0, 2, 1][group as usize]], self.row as i32);
        }
    }
}

pub fn dot(row: &[f64], x: &[f64]) -> f64 {
    let mut products = row.iter().zip(x).map(|(a, b)| a * b);
    let first = products.next().unwrap();
    products.fold(first, |sum, p| sum + p)
}

fn read(case: &Case) -> Seen {
    let mut from = Reader(&case.input);
    let [n, rows, nwpass, nwstop] = [(); 4].map(|_| from.count());
    let [lp_sq, up_sq, stored] = [(); 3].map(|_| from.float());
    let table = from.floats(rows * n);
    let before = state(&mut from);
    assert_eq!(before.sp_sq.to_bits(), stored.to_bits());
    let x = from.floats(n);
    let optim = case.op == 43;
    let gamma = if optim { from.float() } else { stored };
    from.end();
    let values = table.chunks(n).map(|row| dot(row, &x)).collect();

    let mut to = Reader(&case.output);
    let kind = to.word();
    let mut seen = Seen {
        n,
        rows,
        bands: (nwpass, nwstop),
        lp_sq,
        up_sq,
        sp_sq: gamma,
        before,
        x,
        gamma,
        values,
        kind,
        group: 4,
        row: 0,
        over: false,
        b0: 0.0,
        b1: None,
        after: None,
    };
    if kind == 1 {
        seen.group = to.word();
        seen.row = to.optional().unwrap_or(0) as usize;
        seen.over = to.word() == 1;
    }
    if kind == 1 || kind == 2 {
        seen.b0 = to.float();
        seen.b1 = to.optional().map(f64::from_bits);
        to.words(n);
    }
    if kind != 3 {
        if optim {
            seen.gamma = to.float();
        }
        seen.after = Some(state(&mut to));
    }
    to.end();
    seen.check();
    seen
}

const VERDICTS: &[Relation<Seen>] = &[
    ("feasible", 4, |s| s.feasible()),
    ("pass over", 16, |s| s.broke(0, true)),
    ("pass under", 20, |s| s.broke(0, false)),
    ("stop over", 16, |s| s.broke(1, true)),
    ("stop under", 40, |s| s.broke(1, false)),
    ("middle under", 30, |s| s.broke(2, false)),
    ("sign", 30, |s| s.broke(3, false)),
    ("pass empty", 10, |s| s.pass().is_empty()),
    ("middle empty", 10, |s| s.middle().is_empty()),
    ("stop empty", 20, |s| s.stop().is_empty()),
    ("one band only", 20, |s| {
        s.pass().len() == s.rows || s.middle().len() == s.rows || s.stop().len() == s.rows
    }),
    ("n = 32", 1000, |s| s.n == 32),
    ("1,024 rows", 500, |s| s.rows == 1024),
    ("1,024 rows of 32", 5000, |s| s.rows == 1024 && s.n == 32),
    ("on up_sq, passed", 10, |s| {
        s.feasible() && s.pass().contains(&s.up_sq)
    }),
    ("on lp_sq, passed", 10, |s| {
        s.feasible() && s.pass().contains(&s.lp_sq)
    }),
    ("on sp_sq, passed", 10, |s| {
        s.feasible() && s.stop().contains(&s.sp_sq)
    }),
    ("one float above up_sq", 100, |s| {
        s.broke(0, true) && s.value() == s.up_sq.next_up()
    }),
    ("one float below lp_sq", 100, |s| {
        s.broke(0, false) && s.value() == s.lp_sq.next_down()
    }),
    ("one float above sp_sq", 100, |s| {
        s.broke(1, true) && s.value() == s.sp_sq.next_up()
    }),
    ("a stop value of minus zero, passed", 100, |s| {
        s.feasible() && s.stop().iter().any(|&v| is_minus_zero(v))
    }),
    ("a middle value of minus zero, passed", 100, |s| {
        s.feasible() && s.middle().iter().any(|&v| is_minus_zero(v))
    }),
    ("a pass value NaN, feasible", 100, |s| {
        s.feasible() && s.pass().iter().any(|v| v.is_nan())
    }),
    ("a middle value NaN, feasible", 100, |s| {
        s.feasible() && s.middle().iter().any(|v| v.is_nan())
    }),
    ("one stop value NaN, another not, feasible", 200, |s| {
        s.feasible() && s.stop().iter().any(|v| v.is_nan()) && !s.stop().iter().all(|v| v.is_nan())
    }),
    ("all stop values NaN, feasible", 100, |s| {
        s.feasible() && !s.stop().is_empty() && s.stop().iter().all(|v| v.is_nan())
    }),
    ("lp_sq > up_sq, a row over and under", 200, |s| {
        s.broke(0, true) && s.value() < s.lp_sq
    }),
    ("lp_sq NaN", 200, |s| s.lp_sq.is_nan()),
    ("up_sq NaN", 200, |s| s.up_sq.is_nan()),
    ("sp_sq NaN", 200, |s| s.sp_sq.is_nan()),
    ("x[0] minus zero, feasible", 200, |s| {
        s.feasible() && is_minus_zero(s.x[0])
    }),
    ("x[0] NaN", 500, |s| s.x[0].is_nan()),
    ("x[0] subnormal and below zero, sign", 500, |s| {
        s.broke(3, false) && s.x[0].is_subnormal()
    }),
    ("equal peaks, the lowest is not first", 200, |s| {
        let Some(after) = s.after.as_ref().filter(|_| s.feasible()) else {
            return false;
        };
        let lowest = s.stop().iter().position(|&v| v == after.fmax);
        lowest.is_some_and(|i| s.bands.1 + i < after.kmax as usize)
    }),
    ("the peak is plus zero, minus zero stands too", 500, |s| {
        let peak = s.after.as_ref().map(|after| after.fmax);
        s.feasible() && peak.is_some_and(is_plus_zero) && s.stop().iter().any(|&v| is_minus_zero(v))
    }),
    ("the peak is minus zero, plus zero stands too", 500, |s| {
        let peak = s.after.as_ref().map(|after| after.fmax);
        s.feasible() && peak.is_some_and(is_minus_zero) && s.stop().iter().any(|&v| is_plus_zero(v))
    }),
    ("an infinite peak", 500, |s| {
        let peak = s.after.as_ref().map(|after| after.fmax);
        s.feasible() && peak == Some(f64::INFINITY)
    }),
    ("several rows break, not the lowest found", 50, |s| {
        s.kind == 1
            && s.group < 3
            && s.broken_rows() > 1
            && (0..s.row).any(|i| s.breaks(i) == Some(s.group))
    }),
    ("beta1 below beta0", 500, |s| {
        s.kind == 1 && s.b1.is_some_and(|b1| b1 < s.b0)
    }),
    ("an infinite beta", 200, |s| {
        s.kind == 1 && s.b0.is_infinite()
    }),
    ("a pass break keeps the old peak", 20, |s| {
        s.kind == 1 && s.group == 0 && s.before.kmax != -1
    }),
    ("an idx that is not the cursor's place", 4, |s| {
        s.before.idx != s.before.cur
    }),
    ("more_alt turns true", 10, |s| {
        !s.before.more_alt && s.after.as_ref().is_some_and(|after| after.more_alt)
    }),
];

#[test]
fn feas_borders_are_common() {
    must_be_common(42, 100_000, read, VERDICTS);
}

#[test]
fn optim_borders_are_common() {
    must_be_common(43, 100_000, read, VERDICTS);
    let relations: &[Relation<Seen>] = &[
        ("best", 5, |s| s.kind == 2),
        ("cut", 3, |s| s.kind == 1),
        ("refused, empty stop band", 50, |s| {
            s.kind == 3 && s.stop().is_empty()
        }),
        ("refused, NaN", 50, |s| s.kind == 3 && !s.stop().is_empty()),
        ("only the stored limit breaks", 50, |s| {
            s.feasible() && s.stop().iter().any(|&v| v > s.before.sp_sq)
        }),
        ("only the offered limit breaks", 50, |s| {
            s.broke(1, true) && !s.stop().iter().any(|&v| v > s.before.sp_sq)
        }),
        ("the number given is the one offered", 20, |s| {
            s.kind == 2 && s.gamma == s.sp_sq
        }),
        ("the number given is below the one offered", 20, |s| {
            s.kind == 2 && s.gamma < s.sp_sq
        }),
        ("n = 32, best", 2000, |s| s.kind == 2 && s.n == 32),
    ];
    must_be_common(43, 100_000, read, relations);
}
