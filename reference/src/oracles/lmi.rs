//! The LMI oracle: operations 53 and 118.

use super::matrices::{dominant, exact, matrix, order, stop};
use crate::draw::{dimension, halves, many, part, vector};
use crate::lengths::spoil_call;
use crate::lists::Case;
use crate::words::Source;
use ellalgo_rs::arr::Arr;
use ellalgo_rs::cutting_plane::OracleFeas;
use ellalgo_rs::oracles::lmi_oracle::LMIOracle;

pub struct Lmi {
    pub m: usize,
    pub n: usize,
    pub mat_b: Vec<f64>,
    pub mat_f: Vec<f64>,
    pub x: Vec<f64>,
    pub storage: Vec<f64>,
    pub wit: Vec<f64>,
}

/// The gradient and the value of a cut, and what the manager has after the call.
struct Answer {
    cut: Option<(Vec<f64>, f64)>,
    pos: (usize, usize),
    storage: Vec<f64>,
    wit: Vec<f64>,
}

impl Lmi {
    fn draw(src: &mut Source) -> Self {
        let (m, n) = sizes(src);
        let size = m * m;
        let (mat_b, mat_f, x) = match src.rng.below(16) {
            0..=5 => aimed(src, m, n),
            6 => minus_zero(src, m, n),
            7..=10 => {
                // Definite at zero, and the point is not far from it.
                let mat_f = many(src, n * size, Source::ordinary);
                let x = (0..n).map(|_| part(src) * src.positive()).collect();
                (dominant(src, m), mat_f, x)
            }
            11 | 12 => {
                let mat_f = many(src, n * size, halves);
                (matrix(src, m), mat_f, many(src, n, halves))
            }
            13 => (matrix(src, m), vector(src, n * size), vector(src, n)),
            _ => disturbed(src, m, n),
        };
        Lmi {
            m,
            n,
            mat_b,
            mat_f,
            x,
            storage: vector(src, size),
            wit: vector(src, m),
        }
    }

    fn answer(&self) -> Answer {
        let (m, size) = (self.m, self.m * self.m);
        let square = |part: &[f64]| Arr::from_shape_vec(m, m, part.to_vec());
        let mat_f = self.mat_f.chunks(size).map(square).collect();
        let mut oracle = LMIOracle::new(mat_f, square(&self.mat_b));
        let mgr = oracle.ldlt_mgr_mut();
        mgr.storage_mut().copy_from_slice(&self.storage);
        mgr.wit.data_mut().copy_from_slice(&self.wit);
        let cut = oracle.assess_feas(&Arr::from(self.x.clone()));
        let mgr = oracle.ldlt_mgr();
        Answer {
            cut: cut.map(|(grad, value)| (grad.data().to_vec(), value.0)),
            pos: mgr.pos,
            storage: mgr.storage().to_vec(),
            wit: mgr.wit.data().to_vec(),
        }
    }
}

/// m and n, small more often so that a list stays short; each reaches 32, both at once rarely.
fn sizes(src: &mut Source) -> (usize, usize) {
    let small = src.rng.range(2, 4) as usize;
    match src.rng.below(64) {
        0 if src.rng.once_in(16) => (32, 32),
        0 => (src.rng.range(1, 32) as usize, small),
        1..=4 => (src.rng.range(1, 4) as usize, dimension(src)),
        5..=9 => (order(src), small),
        _ => (src.rng.range(1, 4) as usize, small),
    }
}

/// The matrix at the point is one of whole numbers that factors, or stops at a chosen pivot.
fn aimed(src: &mut Source, m: usize, n: usize) -> (Vec<f64>, Vec<f64>, Vec<f64>) {
    let mat_f = many(src, n * m * m, halves);
    let x = many(src, n, halves);
    let mut mat_b = exact(src, m);
    for (part, x) in mat_f.chunks(m * m).zip(&x) {
        mat_b.iter_mut().zip(part).for_each(|(b, f)| *b += f * x);
    }
    (mat_b, mat_f, x)
}

/// A row of zeros whose pivot is minus zero, since each product that is taken off is plus zero.
fn minus_zero(src: &mut Source, m: usize, n: usize) -> (Vec<f64>, Vec<f64>, Vec<f64>) {
    let (mut mat_b, mut mat_f, x) = aimed(src, m, n);
    let row = stop(src, m);
    let row = row * m..(row + 1) * m;
    mat_b[row.clone()].fill(-0.0);
    for (part, x) in mat_f.chunks_mut(m * m).zip(&x) {
        part[row.clone()].fill(0.0f64.copysign(*x));
    }
    (mat_b, mat_f, x)
}

/// The same as the first with an entry of any kind in one of the three.
fn disturbed(src: &mut Source, m: usize, n: usize) -> (Vec<f64>, Vec<f64>, Vec<f64>) {
    let (mut mat_b, mut mat_f, mut x) = aimed(src, m, n);
    let part = match src.rng.below(3) {
        0 => &mut mat_b,
        1 => &mut mat_f,
        _ => &mut x,
    };
    let at = src.rng.below(part.len() as u64) as usize;
    part[at] = src.any();
    (mat_b, mat_f, x)
}

fn give_pos(pos: (usize, usize), case: &mut Case) {
    case.give(pos.0 as u64);
    case.give(pos.1 as u64);
}

pub fn assess_feas(src: &mut Source, case: &mut Case) {
    lmi_of(&Lmi::draw(src), case);
}

pub fn lmi_of(lmi: &Lmi, case: &mut Case) {
    case.take(lmi.m as u64);
    case.take(lmi.n as u64);
    let slices = [&lmi.mat_b, &lmi.mat_f, &lmi.x, &lmi.storage, &lmi.wit];
    slices.iter().for_each(|part| case.take_floats(part));
    let answer = lmi.answer();
    match &answer.cut {
        None => case.give(0),
        Some((grad, value)) => {
            case.give(1);
            case.give_floats(&[*value]);
            case.give_floats(grad);
        }
    }
    give_pos(answer.pos, case);
    case.give_floats(&answer.storage);
    case.give_floats(&answer.wit);
}

/// The lengths of mat_b, mat_f, x, storage, wit and the gradient.
fn right(m: usize, n: usize) -> Vec<usize> {
    vec![m * m, n * m * m, n, m * m, m, n]
}

pub fn assess_feas_any(src: &mut Source, case: &mut Case) {
    let lmi = Lmi::draw(src);
    let Lmi { m, n, .. } = lmi;
    let grad = vector(src, n);
    let mut held = [lmi.mat_b, lmi.mat_f, lmi.x, lmi.storage, lmi.wit, grad];
    let (mut any_m, mut any_n) = (m as u64, n as u64);
    let no = if src.rng.coin() {
        spoil_call(src, &mut any_m, 1, |m| right(m, n), &mut held)
    } else {
        spoil_call(src, &mut any_n, 2, |n| right(m, n), &mut held)
    };
    case.take(any_m);
    case.take(any_n);
    held.iter().for_each(|part| case.take(part.len() as u64));
    held.iter().for_each(|part| case.take_floats(part));
    case.give(no);
    let [mat_b, mat_f, x, mut storage, mut wit, mut grad] = held;
    if no == 0 {
        let lmi = Lmi {
            m,
            n,
            mat_b,
            mat_f,
            x,
            storage,
            wit,
        };
        let answer = lmi.answer();
        match answer.cut {
            None => case.give(0),
            Some((cut_grad, value)) => {
                case.give(1);
                case.give_floats(&[value]);
                grad = cut_grad;
            }
        }
        give_pos(answer.pos, case);
        (storage, wit) = (answer.storage, answer.wit);
    }
    for part in [&grad, &storage, &wit] {
        case.give_floats(part);
    }
}
