//! The writer of jobs, from document 02, and what it writes of a job that was read: operations 155
//! and 162.

use super::damage::{damaged, shuffle};
use super::job::{draw, give_refusal, read_job, Job, AMPLE};
use super::record::JOB;
use crate::lengths::{resize, wrong};
use crate::lists::Case;
use crate::oracles::cursor::{any_i32, Cursor};
use crate::oracles::tables::Held;
use crate::words::Source;

/// A job as a caller may hand it to the writer, right or wrong.
pub struct Given {
    /// n, the count of rows, the table and the point.
    pub held: Held,
    pub mq: Vec<f64>,
    /// nwpass and nwstop.
    pub borders: [i32; 2],
    pub limits: [f64; 3],
    /// Pass, middle, stop.
    pub cur: [i32; 3],
    pub kappa: f64,
    pub limit: u16,
    pub tolerance: f64,
}

impl Given {
    pub fn of(job: &Job) -> Self {
        Given {
            held: Held::new(job.n, vec![job.table.clone(), job.x.clone()]),
            mq: job.mq.clone(),
            borders: [job.nwpass as i32, job.nwstop as i32],
            limits: job.limits,
            cur: job.cur.map(|cur| cur as i32),
            kappa: job.kappa,
            limit: job.limit,
            tolerance: job.tolerance,
        }
    }

    /// Pass, middle and stop.
    fn bands(&self) -> [(i32, i32); 3] {
        let [nwpass, nwstop] = self.borders;
        let rows = self.held.rows as i32;
        [(0, nwpass), (nwpass, nwstop), (nwstop, rows)]
    }

    /// Refusals 1, 2, 3 and 4, in this order.
    fn refusal(&self) -> u64 {
        let n = self.held.n as u128;
        let mut bands = self.bands().into_iter();
        let mut cursors = self.bands().into_iter().zip(self.cur);
        match self.held.refusal() {
            1 => 1,
            2 => 2,
            _ if self.mq.len() as u128 != n * n => 2,
            _ if !self.held.rows_are_legal() || bands.any(|(lo, hi)| lo > hi) => 3,
            _ if !cursors.all(|((lo, hi), cur)| Cursor { cur, lo, hi }.place_is_legal()) => 4,
            _ => 0,
        }
    }

    /// The job that is not refused.
    fn job(&self) -> Job {
        Job {
            n: self.held.n as usize,
            nwpass: self.borders[0] as u16,
            nwstop: self.borders[1] as u16,
            limits: self.limits,
            table: self.held.slices[0].clone(),
            x: self.held.slices[1].clone(),
            cur: self.cur.map(|cur| cur as i16),
            kappa: self.kappa,
            mq: self.mq.clone(),
            limit: self.limit,
            tolerance: self.tolerance,
        }
    }

    /// How many bytes a record of these sizes has, whether or not there is one.
    pub fn needed(&self) -> u128 {
        let (n, rows) = (self.held.n as u128, self.held.rows as u128);
        let matrix = (n * n).saturating_mul(8);
        let of_rows = rows.saturating_mul(3 + 8 * n);
        matrix.saturating_add(of_rows).saturating_add(78 + 8 * n)
    }
}

/// The record, or the number of the refusal; `room` is how many bytes the output holds.
pub fn write_job(given: &Given, room: usize) -> Result<Vec<u8>, u64> {
    let number = given.refusal();
    if number != 0 {
        return Err(number);
    }
    let bytes = given.job().filed().bytes();
    if room < bytes.len() {
        return Err(11);
    }
    Ok(bytes)
}

// ---- wrong ones

impl Given {
    fn spoil(&mut self, src: &mut Source) {
        match src.rng.below(11) {
            0 | 1 => self.spoil_size(src),
            2 | 3 => self.held.spoil_length(src),
            4 => {
                let len = wrong(src, self.held.slices[1].len(), self.mq.len());
                resize(src, &mut self.mq, len);
            }
            5 | 6 => self.held.spoil_rows(src),
            7 | 8 => self.spoil_borders(src),
            _ => self.spoil_cursor(src),
        }
    }

    /// The matrix mostly goes with n.
    fn spoil_size(&mut self, src: &mut Source) {
        self.held.spoil_size(src);
        if !src.rng.once_in(4) {
            let n = self.held.slices[1].len();
            resize(src, &mut self.mq, n * n);
        }
    }

    fn spoil_borders(&mut self, src: &mut Source) {
        let [nwpass, nwstop] = self.borders;
        self.borders = match src.rng.below(7) {
            0 => [-1, nwstop],
            1 => [nwstop.saturating_add(1), nwstop],
            2 => [nwpass, (self.held.rows as i32).saturating_add(1)],
            3 => [nwpass, nwpass.saturating_sub(1)],
            4 => [any_i32(src), nwstop],
            5 => [nwpass, any_i32(src)],
            // Right if its high half is lost.
            _ => [nwpass, nwstop.wrapping_add(1 << 16)],
        };
        // The cursors go with the bands, as far as these have rows.
        if src.rng.coin() {
            self.cur = self.bands().map(|(lo, _)| lo.saturating_sub(1));
        }
    }

    /// Just outside its band, anywhere, or right if its high half is lost.
    fn spoil_cursor(&mut self, src: &mut Source) {
        let which = src.rng.below(3) as usize;
        let (lo, hi) = self.bands()[which];
        let cur = self.cur[which];
        self.cur[which] = match src.rng.below(6) {
            0 | 1 => lo.saturating_sub(2),
            2 | 3 => hi,
            4 => cur.wrapping_add(1 << 16),
            _ => any_i32(src),
        };
    }
}

/// The longest record that is drawn, so that a list stays short.
const MOST: usize = 3_000;

/// What an output holds before the call; most have room for just so many bytes. For sizes that no
/// drawn record has it is a short one.
fn output(src: &mut Source, needed: u128) -> Vec<u8> {
    let needed = if needed > MOST as u128 {
        78
    } else {
        needed as usize
    };
    let len = match src.rng.below(12) {
        0 | 1 => needed.saturating_sub(1),
        2 => src.rng.below(needed as u64 + 1) as usize,
        3 => src.rng.pick(&[0, 1, 8, 78]),
        4..=6 => needed + 1 + src.rng.below(20) as usize,
        _ => needed,
    };
    (0..len).map(|_| src.rng.next() as u8).collect()
}

/// A job's numbers are often of the rare kinds, its NaNs of any bits.
pub fn draw_rare(src: &mut Source, most: usize) -> Job {
    let mut job = draw(src, most);
    for _ in 0..src.rng.below(6) {
        let mut numbers = job.numbers_mut();
        let at = src.rng.below(numbers.len() as u64) as usize;
        *numbers[at] = rare(src);
    }
    job
}

/// NaNs quiet and signalling, zeros, subnormals and infinities, all of both signs, or any float.
pub fn rare(src: &mut Source) -> f64 {
    let sign = src.rng.next() & 1 << 63;
    let bits = match src.rng.below(8) {
        0 | 1 => 0x7FF8_0000_0000_0000 | src.rng.next() >> 13,
        2 | 3 => 0x7FF0_0000_0000_0001 | src.rng.next() >> 13,
        4 => 0,
        5 => src.subnormal().to_bits(),
        6 => f64::INFINITY.to_bits(),
        _ => return src.any(),
    };
    f64::from_bits(bits | sign)
}

// ---- the cases

pub fn write_any(src: &mut Source, case: &mut Case) {
    let mut given = Given::of(&draw_rare(src, MOST));
    if src.rng.coin() {
        given.spoil(src);
        while src.rng.once_in(2) {
            given.spoil(src);
        }
    }
    let out = output(src, given.needed());
    write_of(&given, out, case);
}

/// The bits of NaNs stand as they are.
pub fn write_of(given: &Given, mut out: Vec<u8>, case: &mut Case) {
    let held = &given.held;
    case.take(held.n);
    case.take(held.rows);
    given.borders.iter().for_each(|&i| case.take_signed(i));
    case.take_bits(&given.limits);
    given.cur.iter().for_each(|&i| case.take_signed(i));
    case.take_bits(&[given.kappa]);
    case.take(given.limit as u64);
    case.take_bits(&[given.tolerance]);
    held.take_lengths(case);
    case.take(given.mq.len() as u64);
    case.take(out.len() as u64);
    for part in [&held.slices[0], &held.slices[1], &given.mq] {
        case.take_bits(part);
    }
    case.take_bytes(&out);
    give_written(write_job(given, out.len()), &mut out, case);
}

fn give_written(written: Result<Vec<u8>, u64>, out: &mut [u8], case: &mut Case) {
    case.give(written.as_ref().err().copied().unwrap_or(0));
    let bytes = written.unwrap_or_default();
    case.give(bytes.len() as u64);
    out[..bytes.len()].copy_from_slice(&bytes);
    case.give_bytes(out);
}

/// A record in any order of its fields; about one in seven is damaged.
pub fn rewrite_any(src: &mut Source, case: &mut Case) {
    let mut record = draw_rare(src, MOST).record();
    if !src.rng.once_in(8) {
        shuffle(src, &mut record);
    }
    let bytes = if src.rng.once_in(4) {
        damaged(src, record, JOB).bytes
    } else {
        record.bytes()
    };
    let out = output(src, bytes.len() as u128);
    rewrite_of(&bytes, out, case);
}

pub fn rewrite_of(bytes: &[u8], mut out: Vec<u8>, case: &mut Case) {
    case.take(bytes.len() as u64);
    case.take(out.len() as u64);
    case.take_bytes(bytes);
    case.take_bytes(&out);
    match read_job(bytes, AMPLE) {
        Err(refused) => {
            give_refusal(refused, case);
            case.output.extend([0, 0]);
            case.give_bytes(&out);
        }
        Ok(job) => {
            case.output.extend([0, 0]);
            give_written(write_job(&Given::of(&job), out.len()), &mut out, case);
        }
    }
}
