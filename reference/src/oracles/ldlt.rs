//! Factor, witness and quadratic form: operations 50 to 52 and 115 to 117.

use super::matrices::{factor_free, matrix, order};
use crate::draw::vector;
use crate::lengths::{of_shapes, spoil_call, Lengths};
use crate::lists::Case;
use crate::words::Source;
use ellalgo_rs::arr::Arr;
use ellalgo_rs::oracles::ldlt_mgr::LDLTMgr;

pub type Pos = (usize, usize);

/// The Rust's manager with the storage and the vector that it finds.
fn manager(m: usize, pos: Pos, storage: &[f64], wit: &[f64]) -> LDLTMgr {
    let mut mgr = LDLTMgr::new(m);
    mgr.pos = pos;
    mgr.storage_mut().copy_from_slice(storage);
    mgr.wit.data_mut().copy_from_slice(wit);
    mgr
}

/// Whether the matrix is definite, where the factor stopped, and the storage.
pub fn factored(m: usize, mat: &[f64], storage: &[f64]) -> (bool, Pos, Vec<f64>) {
    let mut mgr = manager(m, (0, 0), storage, &vec![0.0; m]);
    let definite = mgr.factorize(&Arr::from_shape_vec(m, m, mat.to_vec()));
    (definite, mgr.pos, mgr.storage().to_vec())
}

fn witnessed(m: usize, pos: Pos, storage: &[f64], wit: &[f64]) -> (f64, Vec<f64>) {
    let mut mgr = manager(m, pos, storage, wit);
    let value = mgr.witness();
    (value, mgr.wit.data().to_vec())
}

fn quad(m: usize, pos: Pos, wit: &[f64], mat: &[f64]) -> f64 {
    let mgr = manager(m, pos, &vec![0.0; m * m], wit);
    mgr.sym_quad(&Arr::from_shape_vec(m, m, mat.to_vec()))
}

fn give_factored(definite: bool, pos: Pos, case: &mut Case) {
    case.give(!definite as u64);
    case.give(pos.0 as u64);
    case.give(pos.1 as u64);
}

pub fn factor(src: &mut Source, case: &mut Case) {
    let m = order(src);
    let (storage, mat) = (vector(src, m * m), matrix(src, m));
    factor_of(m, &storage, &mat, case);
}

pub fn factor_of(m: usize, storage: &[f64], mat: &[f64], case: &mut Case) {
    case.take(m as u64);
    case.take_floats(storage);
    case.take_floats(mat);
    let (definite, pos, storage) = factored(m, mat, storage);
    give_factored(definite, pos, case);
    case.give_floats(&storage);
}

/// A storage that some factor left, if it stopped, or any; with legal positions.
fn stopped(src: &mut Source, m: usize) -> (Pos, Vec<f64>) {
    let storage = vector(src, m * m);
    if !src.rng.once_in(3) {
        let mat = matrix(src, m);
        let (definite, pos, storage) = factored(m, &mat, &storage);
        if !definite {
            return (pos, storage);
        }
    }
    let end = 1 + src.rng.below(m as u64) as usize;
    let start = src.rng.below(end as u64) as usize;
    ((start, end), storage)
}

pub fn witness(src: &mut Source, case: &mut Case) {
    let m = order(src);
    let ((pos, storage), wit) = (stopped(src, m), vector(src, m));
    witness_of(m, pos, &storage, &wit, case);
}

pub fn witness_of(m: usize, pos: Pos, storage: &[f64], wit: &[f64], case: &mut Case) {
    for w in [m, pos.0, pos.1] {
        case.take(w as u64);
    }
    case.take_floats(storage);
    case.take_floats(wit);
    let (value, wit) = witnessed(m, pos, storage, wit);
    case.give_floats(&[value]);
    case.give_floats(&wit);
}

/// A vector, often one that `witness` left, and positions that may be empty.
fn direction(src: &mut Source, m: usize) -> (Pos, Vec<f64>) {
    let wit = vector(src, m);
    match src.rng.below(4) {
        0 | 1 => {
            let (pos, storage) = stopped(src, m);
            (pos, witnessed(m, pos, &storage, &wit).1)
        }
        2 => ((0, m), wit),
        _ => {
            let end = src.rng.below(m as u64 + 1) as usize;
            let start = src.rng.below(end as u64 + 1) as usize;
            ((start, end), wit)
        }
    }
}

pub fn sym_quad(src: &mut Source, case: &mut Case) {
    let m = order(src);
    let ((pos, wit), mat) = (direction(src, m), factor_free(src, m));
    sym_quad_of(m, pos, &wit, &mat, case);
}

pub fn sym_quad_of(m: usize, pos: Pos, wit: &[f64], mat: &[f64], case: &mut Case) {
    for w in [m, pos.0, pos.1] {
        case.take(w as u64);
    }
    case.take_floats(wit);
    case.take_floats(mat);
    case.give_floats(&[quad(m, pos, wit, mat)]);
}

// Calls of any lengths

/// A call with positions. `squares` says which of its slices should hold a matrix.
pub struct Call {
    pub m: u64,
    pub start: u64,
    pub end: u64,
    pub held: [Vec<f64>; 2],
    pub squares: [bool; 2],
}

impl Call {
    fn draw(src: &mut Source, m: usize, pos: Pos, held: [Vec<f64>; 2], squares: [bool; 2]) -> Self {
        let (start, end) = spoil_pos(src, m, pos);
        let mut call = Call {
            m: m as u64,
            start,
            end,
            held,
            squares,
        };
        let right = |m| of_shapes(m, &squares);
        spoil_call(src, &mut call.m, 1, right, &mut call.held);
        call
    }

    /// Refusals 1, 2 and 5; `least` is the smallest distance from start to end.
    fn refusal(&self, least: u64) -> u64 {
        let lengths = Lengths {
            n: self.m,
            of: self.held.iter().map(Vec::len).collect(),
        };
        let distance = self.end.checked_sub(self.start);
        let fit = self.end <= self.m && distance.is_some_and(|d| d >= least);
        match lengths.refusal(1, |m| of_shapes(m, &self.squares)) {
            0 if !fit => 5,
            no => no,
        }
    }

    fn pos(&self) -> Pos {
        (self.start as usize, self.end as usize)
    }

    fn take(&self, case: &mut Case) {
        for w in [self.m, self.start, self.end] {
            case.take(w);
        }
        take_held(case, &self.held);
    }
}

/// The lengths, then the slices.
fn take_held(case: &mut Case, held: &[Vec<f64>]) {
    held.iter().for_each(|part| case.take(part.len() as u64));
    held.iter().for_each(|part| case.take_floats(part));
}

pub fn factor_any(src: &mut Source, case: &mut Case) {
    let m = order(src);
    let mut held = [matrix(src, m), vector(src, m * m)];
    let mut any_m = m as u64;
    let right = |m| of_shapes(m, &[true, true]);
    let no = spoil_call(src, &mut any_m, 1, right, &mut held);
    case.take(any_m);
    take_held(case, &held);
    case.give(no);
    let [mat, mut storage] = held;
    if no == 0 {
        let (definite, pos, after) = factored(m, &mat, &storage);
        give_factored(definite, pos, case);
        storage = after;
    }
    case.give_floats(&storage);
}

/// Any positions, mostly beside the legal ones.
fn spoil_pos(src: &mut Source, m: usize, pos: Pos) -> (u64, u64) {
    let (start, end) = (pos.0 as u64, pos.1 as u64);
    if !src.rng.once_in(3) {
        return (start, end);
    }
    match src.rng.below(9) {
        0 => (0, 0),
        1 => (end, end),
        2 => (end + 1, end),
        3 => (start, m as u64 + 1),
        4 => (m as u64, m as u64),
        5 => (start, (1 << 32) + end), // right if its high half is lost
        6 => ((1 << 32) + start, end),
        7 => (u64::MAX, src.rng.pick(&[0, end, u64::MAX])),
        _ => (src.rng.next(), src.rng.next()),
    }
}

pub fn witness_any(src: &mut Source, case: &mut Case) {
    let m = order(src);
    let (pos, storage) = stopped(src, m);
    let wit = vector(src, m);
    let call = Call::draw(src, m, pos, [storage, wit], [true, false]);
    any_witness_of(call, case);
}

pub fn any_witness_of(call: Call, case: &mut Case) {
    call.take(case);
    let no = call.refusal(1);
    let pos = call.pos();
    let [storage, mut wit] = call.held;
    let mut value = 0.0;
    if no == 0 {
        (value, wit) = witnessed(call.m as usize, pos, &storage, &wit);
    }
    case.give(no);
    case.give_floats(&[value]);
    case.give_floats(&wit);
}

pub fn sym_quad_any(src: &mut Source, case: &mut Case) {
    let m = order(src);
    let (pos, wit) = direction(src, m);
    let mat = factor_free(src, m);
    let call = Call::draw(src, m, pos, [wit, mat], [false, true]);
    call.take(case);
    let no = call.refusal(0);
    let [wit, mat] = &call.held;
    let value = if no == 0 {
        quad(call.m as usize, call.pos(), wit, mat)
    } else {
        0.0
    };
    case.give(no);
    case.give_floats(&[value]);
}
