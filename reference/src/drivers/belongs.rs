//! Whether an answer belongs to a job: operation 153.

use super::answer::Answer;
use super::job::Job;
use super::run::Run;
use crate::draw::vector;
use crate::lengths::{resize, wrong};
use crate::lists::Case;
use crate::oracles::lowpass::Bench;
use crate::oracles::lowpass_any::Call;
use crate::words::Source;

/// `call` holds the table, the job's point and the gradient.
pub struct Asked {
    pub call: Call,
    pub point: Vec<f64>,
    pub found: bool,
}

/// Document 01's: the answer's point is feasible for the job or, there being none, the job's own is not.
pub fn is_of(job: &Job, answer: &Answer) -> bool {
    let mut filter = job.run().filter;
    if let Some(point) = &answer.point {
        filter.x.clone_from(point);
    }
    let (cut, _) = Bench::new(&filter).assess_feas(&filter.state);
    cut.is_none() == answer.point.is_some()
}

pub fn belongs(src: &mut Source, case: &mut Case) {
    let run = Run::draw(src, false);
    let n = run.filter.n;
    let (end, _) = super::walk::feas(&run);
    let found = end.best.is_some() != src.rng.once_in(8);
    let mut point = end.best.unwrap_or_else(|| vector(src, n));
    if src.rng.once_in(6) {
        let at = src.rng.below(n as u64) as usize;
        point[at] = src.any();
    }
    let mut asked = Asked {
        call: Call::new(run.filter, run.grad),
        point,
        found,
    };
    while src.rng.once_in(3) {
        asked.spoil(src);
    }
    asked_of(asked, case);
}

impl Asked {
    fn spoil(&mut self, src: &mut Source) {
        if src.rng.once_in(6) {
            let n = self.call.filter.n;
            let len = wrong(src, n, self.point.len());
            return resize(src, &mut self.point, len);
        }
        let n = self.call.held.n;
        self.call.spoil(src);
        if self.call.held.n != n {
            let len = self.call.held.slices[1].len();
            resize(src, &mut self.point, len);
        }
    }

    fn refusal(&self) -> u64 {
        match self.call.refusal() {
            1 => 1,
            _ if self.point.len() as u64 != self.call.held.n => 2,
            no => no,
        }
    }
}

pub fn asked_of(mut asked: Asked, case: &mut Case) {
    let no = asked.refusal();
    let held = &asked.call.held;
    let [table, x, grad] = &held.slices[..] else {
        panic!("three slices")
    };
    let parts = [table, x, &asked.point, grad];
    case.take(held.n);
    case.take(held.rows);
    parts.iter().for_each(|part| case.take(part.len() as u64));
    asked.call.take_settings(case);
    case.take(asked.found as u64);
    parts.iter().for_each(|part| case.take_floats(part));

    case.give(no);
    if no != 0 {
        case.give(0);
        return case.give_floats(grad);
    }
    asked.call.accept();
    let call = &mut asked.call;
    if asked.found {
        call.filter.x = asked.point;
    }
    let (cut, _) = Bench::new(&call.filter).assess_feas(&call.filter.state);
    case.give((cut.is_none() == asked.found) as u64);
    case.give_floats(cut.as_ref().map_or(&call.held.slices[2], |cut| &cut.grad));
}
