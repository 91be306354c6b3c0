//! The port's calls, safe: each takes slices of any length, and gives 0 or the number of a refusal.
//!
//! Every unsafe block hands over slices that live through the call, each by its own pointer and length, and the
//! library keeps no pointer.

mod ffi;
mod runs;

use generator::oracles::spaces::{Cut, Space};

pub use runs::{cutting_plane_feas, cutting_plane_optim, read_job, Left, Read, Task};

pub fn sqrt(x: f64) -> f64 {
    unsafe { ffi::ponduvizh_sqrt(x) }
}

pub fn dot(n: usize, a: &[f64], b: &[f64], out: &mut f64) -> u64 {
    unsafe { ffi::ponduvizh_dot(n, a.as_ptr(), a.len(), b.as_ptr(), b.len(), out) }
}

pub fn dot_mv_into(n: usize, mat: &[f64], x: &[f64], out: &mut [f64]) -> u64 {
    let (ptr, len) = (out.as_mut_ptr(), out.len());
    unsafe { ffi::ponduvizh_dot_mv_into(n, mat.as_ptr(), mat.len(), x.as_ptr(), x.len(), ptr, len) }
}

/// `end` becomes 0 for a positive definite matrix.
pub fn factor(m: usize, mat: &[f64], storage: &mut [f64], end: &mut usize) -> u64 {
    let (ptr, len) = (storage.as_mut_ptr(), storage.len());
    unsafe { ffi::ponduvizh_factor(m, mat.as_ptr(), mat.len(), ptr, len, end) }
}

/// A band's ends and its limits.
#[derive(Clone, Copy)]
pub struct Band {
    pub lo: i32,
    pub hi: i32,
    pub lower: f64,
    pub upper: Option<f64>,
}

/// What a scan tells: 0 nothing, 1 below or 2 above, and the row; the row's value and fmax; kmax. `cur` goes in and out.
#[derive(Clone, Copy, Debug)]
pub struct Scanned {
    pub cur: i32,
    pub found: [usize; 2],
    pub values: [f64; 2],
    pub kmax: i32,
}

impl Scanned {
    pub fn from(cur: i32) -> Self {
        Scanned {
            cur,
            found: [usize::MAX; 2],
            values: [7.0; 2],
            kmax: 7,
        }
    }
}

pub fn scan_band(
    n: usize,
    rows: usize,
    table: &[f64],
    x: &[f64],
    band: &Band,
    scanned: &mut Scanned,
) -> u64 {
    unsafe {
        ffi::ponduvizh_scan_band(
            n,
            rows,
            table.as_ptr(),
            table.len(),
            x.as_ptr(),
            x.len(),
            &mut scanned.cur,
            band.lo,
            band.hi,
            band.lower,
            band.upper.is_some(),
            band.upper.unwrap_or(0.0),
            scanned.found.as_mut_ptr(),
            scanned.values.as_mut_ptr(),
            &mut scanned.kmax,
        )
    }
}

/// An update of `Ell`, or of `EllStable` where the space is stable.
pub fn update(n: usize, cut: &Cut, space: &mut Space, status: &mut u64) -> u64 {
    if space.stable {
        ell_stable_update(n, cut, space, status)
    } else {
        ell_update(n, cut, space, status)
    }
}

fn ell_update(n: usize, cut: &Cut, space: &mut Space, status: &mut u64) -> u64 {
    let grad_t = &mut space.scratch[0];
    unsafe {
        ffi::ponduvizh_ell_update(
            n,
            cut.how,
            cut.b1.is_some(),
            cut.b0,
            cut.b1.unwrap_or(0.0),
            status,
            &mut space.kappa,
            &mut space.tsq,
            cut.grad.as_ptr(),
            cut.grad.len(),
            space.mq.as_mut_ptr(),
            space.mq.len(),
            space.xc.as_mut_ptr(),
            space.xc.len(),
            grad_t.as_mut_ptr(),
            grad_t.len(),
        )
    }
}

fn ell_stable_update(n: usize, cut: &Cut, space: &mut Space, status: &mut u64) -> u64 {
    let [a, b, c, d] = &mut space.scratch[..] else {
        panic!("a stable space has four scratch vectors")
    };
    unsafe {
        ffi::ponduvizh_ell_stable_update(
            n,
            cut.how,
            cut.b1.is_some(),
            cut.b0,
            cut.b1.unwrap_or(0.0),
            status,
            &mut space.kappa,
            &mut space.tsq,
            cut.grad.as_ptr(),
            cut.grad.len(),
            space.mq.as_mut_ptr(),
            space.mq.len(),
            space.xc.as_mut_ptr(),
            space.xc.len(),
            a.as_mut_ptr(),
            a.len(),
            b.as_mut_ptr(),
            b.len(),
            c.as_mut_ptr(),
            c.len(),
            d.as_mut_ptr(),
            d.len(),
        )
    }
}

#[cfg(test)]
mod tests {
    use super::*;

    #[test]
    fn refusals_write_nothing() {
        let mut out = 7.0;
        assert_eq!(dot(1, &[1.0], &[1.0], &mut out), 1);
        assert_eq!(dot(2, &[1.0, 2.0], &[1.0], &mut out), 2);
        assert_eq!(out, 7.0);
        let mut end = 7;
        assert_eq!(factor(33, &[], &mut [], &mut end), 1);
        assert_eq!(end, 7);
    }

    #[test]
    fn a_cursor_outside_its_band() {
        let band = Band {
            lo: 0,
            hi: 1,
            lower: 0.0,
            upper: None,
        };
        let mut scanned = Scanned::from(1);
        let (table, x) = ([1.0, 0.0], [1.0, 1.0]);
        assert_eq!(scan_band(2, 1, &table, &x, &band, &mut scanned), 4);
        scanned.cur = -1;
        assert_eq!(scan_band(2, 1, &table, &x, &band, &mut scanned), 0);
        assert_eq!((scanned.found, scanned.cur), ([0, 0], 0));
        assert_eq!((scanned.values, scanned.kmax), ([0.0, 1.0], 0));
    }

    #[test]
    fn an_empty_record_lacks_its_first_tag() {
        let mut read = Read {
            place: 7,
            ..Read::default()
        };
        assert_eq!((read_job(&[], &mut read), read.place), (10, 0));
    }
}
