//! The port's drivers and its reader of jobs.

use super::ffi;

/// What a driver is asked; sizes, bands and cursors may be illegal.
#[derive(Clone)]
pub struct Task {
    pub n: usize,
    pub rows: usize,
    pub nwpass: i32,
    pub nwstop: i32,
    /// Where the stop band ends.
    pub mdim: i32,
    /// Pass, middle, stop.
    pub cur: [i32; 3],
    pub lp_sq: f64,
    pub up_sq: f64,
    pub sp_sq: f64,
    pub kappa: f64,
    pub max_iters: u16,
    pub tolerance: f64,
    pub table: Vec<f64>,
}

/// What a driver reads and writes.
#[derive(Clone, Default)]
pub struct Left {
    /// Found, steps, more_alt.
    pub answer: [u64; 3],
    /// The three cursors, idx1 to idx3, kmax.
    pub marks: [i32; 7],
    /// sp_sq, fmax, kappa, tsq.
    pub values: [f64; 4],
    pub gamma: f64,
    pub mq: Vec<f64>,
    pub xc: Vec<f64>,
    pub grad: Vec<f64>,
    pub grad_t: Vec<f64>,
    pub best: Vec<f64>,
}

pub fn cutting_plane_feas(task: &Task, left: &mut Left) -> u64 {
    unsafe {
        ffi::ponduvizh_cutting_plane_feas(
            task.n,
            task.rows,
            task.nwpass,
            task.nwstop,
            task.mdim,
            task.cur[0],
            task.cur[1],
            task.cur[2],
            task.lp_sq,
            task.up_sq,
            task.sp_sq,
            task.kappa,
            task.max_iters,
            task.tolerance,
            left.answer.as_mut_ptr(),
            left.marks.as_mut_ptr(),
            left.values.as_mut_ptr(),
            task.table.as_ptr(),
            task.table.len(),
            left.mq.as_mut_ptr(),
            left.mq.len(),
            left.xc.as_mut_ptr(),
            left.xc.len(),
            left.grad.as_mut_ptr(),
            left.grad.len(),
            left.grad_t.as_mut_ptr(),
            left.grad_t.len(),
            left.best.as_mut_ptr(),
            left.best.len(),
        )
    }
}

pub fn cutting_plane_optim(task: &Task, left: &mut Left) -> u64 {
    unsafe {
        ffi::ponduvizh_cutting_plane_optim(
            task.n,
            task.rows,
            task.nwpass,
            task.nwstop,
            task.mdim,
            task.cur[0],
            task.cur[1],
            task.cur[2],
            task.lp_sq,
            task.up_sq,
            task.sp_sq,
            task.kappa,
            task.max_iters,
            task.tolerance,
            &mut left.gamma,
            left.answer.as_mut_ptr(),
            left.marks.as_mut_ptr(),
            left.values.as_mut_ptr(),
            task.table.as_ptr(),
            task.table.len(),
            left.mq.as_mut_ptr(),
            left.mq.len(),
            left.xc.as_mut_ptr(),
            left.xc.len(),
            left.grad.as_mut_ptr(),
            left.grad.len(),
            left.grad_t.as_mut_ptr(),
            left.grad_t.len(),
            left.best.as_mut_ptr(),
            left.best.len(),
        )
    }
}

/// What the reader writes.
#[derive(Clone, Default, Debug, PartialEq)]
pub struct Read {
    /// n, rows, max_iters.
    pub sizes: [usize; 3],
    pub place: usize,
    /// nwpass, nwstop.
    pub bands: [i32; 2],
    pub marks: [i32; 7],
    /// lp_sq, up_sq, sp_sq, kappa, tolerance.
    pub numbers: [f64; 5],
    pub table: Vec<f64>,
    pub xc: Vec<f64>,
    pub mq: Vec<f64>,
}

pub fn read_job(bytes: &[u8], read: &mut Read) -> u64 {
    unsafe {
        ffi::ponduvizh_read_job(
            bytes.as_ptr(),
            bytes.len(),
            read.sizes.as_mut_ptr(),
            &mut read.place,
            read.bands.as_mut_ptr(),
            read.marks.as_mut_ptr(),
            read.numbers.as_mut_ptr(),
            read.table.as_mut_ptr(),
            read.table.len(),
            read.xc.as_mut_ptr(),
            read.xc.len(),
            read.mq.as_mut_ptr(),
            read.mq.len(),
        )
    }
}
