//! The drivers on cases of 140 and 141 whose oracle has assessed nothing yet, as the exported calls make it.

use super::calls::keep;
use super::taken::Taken;
use crate::port::{self, Left, Task};
use generator::drivers::cutting_any::{any_of, AnyRun};
use generator::lists::Case;
use generator::words::Source;

/// Draws a run of any lengths and gives it a state that the exported call can start from.
pub fn fill(op: u64, src: &mut Source, case: &mut Case) {
    case.start(op);
    let improve = op == 141;
    let mut any = AnyRun::draw(src, improve);
    any.run.space.tsq = 0.0;
    let f = &mut any.call.filter;
    let mdim = f.state.cursors[2].hi;
    let bands = [(0, f.nwpass), (f.nwpass, f.nwstop), (f.nwstop, mdim)];
    for (cursor, band) in f.state.cursors.iter_mut().zip(bands) {
        (cursor.lo, cursor.hi) = band;
    }
    f.state.idx = before(f.nwpass, f.nwstop);
    (f.state.fmax, f.state.kmax) = (f64::NEG_INFINITY, -1);
    f.state.more_alt = true;
    any_of(any, improve, case);
}

/// Each idx of an oracle that starts: its band's lo less one. What is no band is refused.
fn before(nwpass: i32, nwstop: i32) -> [i32; 3] {
    [0, nwpass, nwstop].map(|lo: i32| lo.wrapping_sub(1))
}

pub fn feas(taken: &mut Taken, got: &mut Case) {
    let (task, mut left) = take(taken, false);
    let no = port::cutting_plane_feas(&task, &mut left);
    got.give(no);
    if no == 0 {
        got.give(left.answer[0]);
        got.give(left.answer[1]);
    }
    give(no, &task, &left, got);
}

pub fn optim(taken: &mut Taken, got: &mut Case) {
    let (task, mut left) = take(taken, true);
    let no = port::cutting_plane_optim(&task, &mut left);
    got.give(no);
    if no == 0 || no == 6 {
        got.give(left.answer[0]);
        got.give(left.answer[1]);
    }
    got.give_floats(&[left.gamma]);
    give(no, &task, &left, got);
}

fn take(taken: &mut Taken, improve: bool) -> (Task, Left) {
    let [n, rows, lt, lxc, lmq, lg, lgt, lb] = taken.sizes();
    let (nwpass, nwstop) = (taken.signed(), taken.signed());
    let [lp_sq, up_sq, sp_sq] = [0; 3].map(|_| taken.float());
    let cursors = [0; 3].map(|_| [0; 3].map(|_| taken.signed()));
    taken.sizes::<6>(); // idx1 to idx3, fmax, kmax and more_alt of an oracle that starts
    let (kappa, _tsq) = (taken.float(), taken.float());
    let (max_iters, tolerance) = (taken.word() as u16, taken.float());
    let gamma = if improve { taken.float() } else { 7.0 };
    let table = taken.floats(lt);
    let left = Left {
        answer: [7; 3],
        marks: [7; 7],
        values: [7.0; 4],
        gamma,
        xc: taken.floats(lxc),
        mq: taken.floats(lmq),
        grad: taken.floats(lg),
        grad_t: taken.floats(lgt),
        best: taken.floats(lb),
    };
    let task = Task {
        n,
        rows,
        nwpass,
        nwstop,
        mdim: cursors[2][2],
        cur: cursors.map(|cursor| cursor[0]),
        lp_sq,
        up_sq,
        sp_sq,
        kappa,
        max_iters,
        tolerance,
        table,
    };
    (task, left)
}

/// Lo and hi of each cursor. No exported call tells them: they are the bands that it was given.
pub fn give_bands(nwpass: i32, nwstop: i32, mdim: i32, got: &mut Case) {
    for mark in [0, nwpass, nwpass, nwstop, nwstop, mdim] {
        got.give_signed(mark);
    }
}

/// Slices and state. Where a run is refused nothing is told, and the state is the start's.
fn give(no: u64, task: &Task, left: &Left, got: &mut Case) {
    let slices = [&left.best, &left.xc, &left.mq, &left.grad, &left.grad_t];
    slices.iter().for_each(|part| got.give_floats(part));
    let (mut more_alt, mut marks, mut values) = (left.answer[2], left.marks, left.values);
    let refused = no != 0 && no != 6;
    if refused {
        let [a, b, c] = task.cur;
        let [i, j, k] = before(task.nwpass, task.nwstop);
        (more_alt, marks) = (1, [a, b, c, i, j, k, -1]);
        let kappa = if no == 1 { 0.0 } else { task.kappa };
        values = [task.sp_sq, f64::NEG_INFINITY, kappa, 0.0];
    }
    let [sp_sq, fmax, kappa, tsq] = values;
    let [cur_and_idx @ .., kmax] = marks;
    cur_and_idx.iter().for_each(|&mark| got.give_signed(mark));
    got.give_floats(&[fmax]);
    got.give_signed(kmax);
    got.give(more_alt);
    got.give_floats(&[sp_sq]);
    give_bands(task.nwpass, task.nwstop, task.mdim, got);
    got.give_floats(&[kappa, tsq]);
    let told = (left.answer, left.marks, left.values);
    keep(!refused || told == ([7; 3], [7; 7], [7.0; 4]), got);
}
