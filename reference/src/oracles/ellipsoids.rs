//! The ellipsoids' updates and constructors: operations 60, 61 and 119 to 122.

use super::spaces::{draw, Cut, Space};
use crate::draw::dimension;
use crate::lengths::{contents, of_shapes, outside, spoil_call};
use crate::lists::{status_word, Case};
use crate::words::Source;
use ellalgo_rs::arr::Arr;
use ellalgo_rs::cutting_plane::SearchSpace;
use ellalgo_rs::ell::Ell;
use ellalgo_rs::ell_stable::EllStable;

pub fn update(src: &mut Source, case: &mut Case, stable: bool) {
    let (space, cut) = draw(src, stable);
    update_of(&space, &cut, case);
}

pub fn update_of(space: &Space, cut: &Cut, case: &mut Case) {
    case.take(cut.how);
    case.take(space.xc.len() as u64);
    if !space.stable {
        case.take(0); // no_defer_trick
    }
    case.take_floats(&[space.kappa, space.tsq]);
    for part in [&space.xc, &space.mq, &cut.grad] {
        case.take_floats(part);
    }
    case.take_floats(&[cut.b0]);
    case.take_optional(cut.b1);
    let (status, after) = space.updated(cut);
    case.give(status_word(&status));
    give_space(&after, case);
}

fn give_space(space: &Space, case: &mut Case) {
    case.give_floats(&[space.kappa, space.tsq]);
    case.give_floats(&space.xc);
    case.give_floats(&space.mq);
    space.scratch.iter().for_each(|v| case.give_floats(v));
}

pub fn update_any(src: &mut Source, case: &mut Case, stable: bool) {
    let (mut space, mut cut) = draw(src, stable);
    let n = space.xc.len();
    for v in &mut space.scratch {
        *v = contents(src, n);
    }
    let mut held = vec![space.xc, space.mq];
    held.append(&mut space.scratch);
    held.push(cut.grad);
    let squares: Vec<bool> = (0..held.len()).map(|k| k == 1).collect();
    let mut any_n = n as u64;
    let right = |n| of_shapes(n, &squares);
    let no = spoil_call(src, &mut any_n, 2, right, &mut held);
    case.take(cut.how);
    case.take(any_n);
    case.take_floats(&[space.kappa, space.tsq]);
    held.iter().for_each(|part| case.take(part.len() as u64));
    case.take_floats(&[cut.b0]);
    case.take_optional(cut.b1);
    held.iter().for_each(|part| case.take_floats(part));

    cut.grad = held.pop().unwrap();
    space.scratch = held.split_off(2);
    let [xc, mq] = held.try_into().unwrap();
    (space.xc, space.mq) = (xc, mq);
    case.give(no);
    if no == 0 {
        let status;
        (status, space) = space.updated(&cut);
        case.give(status_word(&status));
    }
    give_space(&space, case);
}

pub fn new_any(src: &mut Source, case: &mut Case, stable: bool) {
    let any_n = if src.rng.once_in(3) {
        outside(src, 2)
    } else {
        dimension(src) as u64
    };
    let kappa = src.any();
    case.take(any_n);
    case.take_floats(&[kappa]);
    if !(2..=32).contains(&any_n) {
        case.output.extend([1, 0, 0]);
        return;
    }
    let n = any_n as usize;
    let (kappa, tsq) = if stable {
        let ell = EllStable::new_with_matrix(kappa, Arr::eye(n), Arr::new(n));
        (ell.kappa(), ell.tsq())
    } else {
        let ell = Ell::new_with_matrix(kappa, Arr::eye(n), Arr::new(n));
        (ell.kappa, ell.tsq)
    };
    case.give(0);
    case.give_floats(&[kappa, tsq]);
}
