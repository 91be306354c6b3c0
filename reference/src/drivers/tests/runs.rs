//! How the drawn runs end, and where their limits and tolerances stand.

use crate::drivers::run::Run;
use crate::drivers::walk::{feas, optim, End, Line};
use crate::words::Source;

struct Seen {
    run: Run,
    end: End,
    lines: Vec<Line>,
}

impl Seen {
    fn status(&self) -> u64 {
        self.lines.last().map_or(0, |line| line.status)
    }

    /// Steps made; the last one may have ended the run.
    fn made(&self) -> u16 {
        self.lines.len() as u16
    }

    fn by_limit(&self) -> bool {
        self.end.steps == self.run.limit && !self.end.halted
    }

    /// The last update succeeded, and the run ended at its step.
    fn by_tolerance(&self) -> bool {
        self.status() == 0 && !self.end.halted && self.made() == self.end.steps + 1
    }

    fn improved(&self) -> usize {
        self.lines.iter().filter(|line| line.cut.is_none()).count()
    }

    /// A tsq of the run stands to the tolerance as asked.
    fn tsq(&self, holds: fn(f64, f64) -> bool) -> bool {
        let tolerance = self.run.tolerance;
        self.lines.iter().any(|line| holds(line.tsq, tolerance))
    }

    fn has_nan(&self) -> bool {
        self.end.space.xc.iter().any(|x| x.is_nan())
    }
}

type Relation = (&'static str, usize, fn(&Seen) -> bool);

fn must_be_common(improve: bool, relations: &[Relation]) {
    const COUNT: usize = 10_000;
    let mut src = Source::new(improve as u64);
    let mut found = vec![0; relations.len()];
    for _ in 0..COUNT {
        let run = Run::draw(&mut src, improve);
        let (end, lines) = if improve { optim(&run) } else { feas(&run) };
        let seen = Seen { run, end, lines };
        for (times, (_, _, holds)) in found.iter_mut().zip(relations) {
            *times += holds(&seen) as usize;
        }
    }
    for (times, (name, ..)) in found.iter().zip(relations) {
        println!("{improve} {name}: one in {}", COUNT / (*times).max(1));
    }
    for (times, (name, rarest, _)) in found.iter().zip(relations) {
        assert!(times * rarest >= COUNT, "{name}: {times}");
    }
}

const BOTH: &[Relation] = &[
    ("limit 0", 100, |s| s.run.limit == 0),
    ("limit 65,535", 200, |s| s.run.limit == 65_535),
    ("NoSoln at once", 20, |s| s.status() == 1 && s.made() == 1),
    ("NoSoln later", 70, |s| s.status() == 1 && s.made() > 3),
    ("NoEffect", 30, |s| s.status() == 2),
    ("NoEffect later", 100, |s| s.status() == 2 && s.made() > 2),
    ("ended by the tolerance", 20, Seen::by_tolerance),
    ("by the tolerance later", 80, |s| {
        s.by_tolerance() && s.made() > 3
    }),
    ("by a limit above 3", 40, |s| {
        s.by_limit() && s.run.limit > 3
    }),
    ("more than 60 steps", 1000, |s| s.made() > 60),
    ("tsq equal to the tolerance, which goes on", 50, |s| {
        s.tsq(|tsq, tolerance| tsq == tolerance && tsq > 0.0)
    }),
    ("tsq just below", 50, |s| {
        s.tsq(|tsq, tolerance| tsq.next_up() == tolerance)
    }),
    ("tsq just above", 50, |s| {
        s.tsq(|tsq, tolerance| tsq.next_down() == tolerance)
    }),
    ("tolerance NaN", 100, |s| s.run.tolerance.is_nan()),
    ("tolerance below zero", 100, |s| s.run.tolerance < 0.0),
    ("tolerance infinite", 200, |s| {
        s.run.tolerance == f64::INFINITY
    }),
    ("NaN in the point at the end", 50, Seen::has_nan),
    ("subnormal tsq", 500, |s| {
        s.tsq(|tsq, _| tsq > 0.0 && tsq < f64::MIN_POSITIVE)
    }),
];

#[test]
fn feas_ends_are_common() {
    must_be_common(false, BOTH);
    must_be_common(
        false,
        &[
            ("found at once", 20, |s| {
                s.end.best.is_some() && s.end.steps == 0
            }),
            ("found later", 10, |s| {
                s.end.best.is_some() && s.end.steps > 0
            }),
            ("found after many", 100, |s| {
                s.end.best.is_some() && s.end.steps > 8
            }),
            ("found in the last step", 100, |s| {
                s.end.best.is_some() && s.end.steps + 1 == s.run.limit
            }),
        ],
    );
}

#[test]
fn optim_ends_are_common() {
    must_be_common(true, BOTH);
    must_be_common(
        true,
        &[
            ("halted at once", 50, |s| s.end.halted && s.end.steps == 0),
            ("halted later", 50, |s| s.end.halted && s.end.steps > 0),
            ("halted with a best point", 300, |s| {
                s.end.halted && s.end.best.is_some()
            }),
            ("halted after several improvements", 1000, |s| {
                s.end.halted && s.improved() > 2
            }),
            ("improved several times", 20, |s| s.improved() > 2),
            ("improved often", 50, |s| s.improved() > 8),
            ("no point", 10, |s| s.end.best.is_none()),
            ("NoSoln after improvements", 1000, |s| {
                s.improved() > 2 && s.status() == 1
            }),
            ("a gamma of minus infinity or NaN offered", 1000, |s| {
                s.run.filter.gamma.is_nan() || s.run.filter.gamma == f64::NEG_INFINITY
            }),
        ],
    );
}
