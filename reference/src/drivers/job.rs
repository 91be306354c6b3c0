//! A job: written, read back and run. Operation 150.

use super::damage::{damaged, Damage};
use super::record::{floats, no, short, No, Record, Walked, JOB, ROW};
use super::run::Run;
use crate::lengths::{contents, LARGEST};
use crate::lists::Case;
use crate::oracles::cursor::{Cursor, MOST_ROWS};
use crate::oracles::filter::{Filter, State};
use crate::oracles::lowpass::{give_bands, give_state};
use crate::oracles::spaces::Space;
use crate::words::{word, Source};

#[derive(Clone)]
pub struct Job {
    pub n: usize,
    pub nwpass: u16,
    pub nwstop: u16,
    /// lp_sq, up_sq and sp_sq.
    pub limits: [f64; 3],
    pub table: Vec<f64>,
    pub x: Vec<f64>,
    /// Pass, middle, stop.
    pub cur: [i16; 3],
    pub kappa: f64,
    pub mq: Vec<f64>,
    pub limit: u16,
    pub tolerance: f64,
}

/// How many rows a job of so many bytes has room for.
pub fn rows_in(bytes: usize, n: usize) -> usize {
    let others = 78 + 8 * n + 8 * n * n;
    (bytes - others) / (3 + 8 * n)
}

/// How many floats the reader's outputs hold: table, point and matrix.
pub type Room = [usize; 3];

/// Enough for every job.
pub const AMPLE: Room = [32 * MOST_ROWS as usize, 32, 32 * 32];

impl Job {
    pub fn of(run: &Run) -> Self {
        let f = &run.filter;
        Job {
            n: f.n,
            nwpass: f.nwpass as u16,
            nwstop: f.nwstop as u16,
            limits: [f.lp_sq, f.up_sq, f.state.sp_sq],
            table: f.table.clone(),
            x: f.x.clone(),
            cur: f.state.cursors.map(|c| c.cur as i16),
            kappa: run.space.kappa,
            mq: run.space.mq.clone(),
            limit: run.limit,
            tolerance: run.tolerance,
        }
    }

    pub fn rows(&self) -> usize {
        self.table.len() / self.n
    }

    /// Pass, middle and stop.
    fn bands(&self) -> [(i32, i32); 3] {
        let (nwpass, nwstop) = (self.nwpass as i32, self.nwstop as i32);
        [(0, nwpass), (nwpass, nwstop), (nwstop, self.rows() as i32)]
    }

    /// The run of a legal job, with the oracle as it starts.
    pub fn run(&self) -> Run {
        let [lp_sq, up_sq, sp_sq] = self.limits;
        let mut state = State::fresh(self.bands(), sp_sq);
        for (cursor, cur) in state.cursors.iter_mut().zip(self.cur) {
            cursor.cur = cur as i32;
        }
        let filter = Filter {
            n: self.n,
            table: self.table.clone(),
            x: self.x.clone(),
            nwpass: self.nwpass as i32,
            nwstop: self.nwstop as i32,
            lp_sq,
            up_sq,
            gamma: sp_sq,
            state,
        };
        let space = Space::new(false, self.kappa, self.x.clone(), self.mq.clone());
        let mut run = Run::new(filter, space);
        (run.limit, run.tolerance) = (self.limit, self.tolerance);
        run
    }

    /// Rising tags, and the bits of NaNs as they are.
    pub fn record(&self) -> Record {
        self.record_with(f64::to_bits)
    }

    /// As the writer of jobs has it, which writes every NaN as one.
    pub fn filed(&self) -> Record {
        self.record_with(word)
    }

    fn record_with(&self, bits: fn(f64) -> u64) -> Record {
        let content = |xs: &[f64]| xs.iter().flat_map(|&x| bits(x).to_le_bytes()).collect();
        let mut record = Record::default();
        record.push(0x01, shorts(&[self.n as u16]));
        record.push(0x02, shorts(&[self.nwpass, self.nwstop]));
        record.push(0x03, content(&self.limits));
        for row in self.table.chunks(self.n) {
            record.push(ROW, content(row));
        }
        record.push(0x05, content(&self.x));
        record.push(0x06, shorts(&self.cur.map(|cur| cur as u16)));
        record.push(0x07, content(&[self.kappa]));
        record.push(0x08, content(&self.mq));
        let mut end = shorts(&[self.limit]);
        end.extend(bits(self.tolerance).to_le_bytes());
        record.push(0x09, end);
        record
    }

    /// All its floats.
    pub fn numbers_mut(&mut self) -> Vec<&mut f64> {
        let others = [&mut self.kappa, &mut self.tolerance];
        let slices = [
            &mut self.limits[..],
            &mut self.table,
            &mut self.x,
            &mut self.mq,
        ];
        let of_slices = slices.into_iter().flatten();
        of_slices.chain(others).collect()
    }

    /// Everything that it says, all NaNs as one.
    pub fn words(&self) -> Vec<u64> {
        let counts = [self.n, self.rows(), self.limit as usize];
        let borders = [self.nwpass, self.nwstop].map(u64::from);
        let cur = self.cur.map(|cur| cur as u64);
        let others = [self.kappa, self.tolerance];
        let floats = [&self.limits[..], &self.table, &self.x, &self.mq, &others];
        let floats = floats.into_iter().flatten().map(|&x| word(x));
        let counts = counts.map(|count| count as u64).into_iter();
        counts.chain(borders).chain(cur).chain(floats).collect()
    }
}

fn shorts(numbers: &[u16]) -> Vec<u8> {
    numbers.iter().flat_map(|i| i.to_le_bytes()).collect()
}

pub fn read_job(bytes: &[u8], room: Room) -> Result<Job, No> {
    let walked = Walked::walk(bytes, JOB)?;
    let first = walked.the(0x01);
    if first.content.len() != 2 {
        return no(2, first.at);
    }
    let n = short(first.content, 0) as usize;
    if !(2..=LARGEST as usize).contains(&n) {
        return no(1, first.at);
    }
    walked.lengths(n)?;
    let job = contents_of(&walked, n);
    if job.rows() > MOST_ROWS as usize
        || job.nwpass > job.nwstop
        || job.nwstop as usize > job.rows()
    {
        return no(3, walked.the(0x02).at);
    }
    let on_band = |((lo, hi), cur): ((i32, i32), i16)| {
        let cur = cur as i32;
        Cursor { cur, lo, hi }.place_is_legal()
    };
    if !job.bands().into_iter().zip(job.cur).all(on_band) {
        return no(4, walked.the(0x06).at);
    }
    let needed = [job.table.len(), n, n * n];
    if needed.iter().zip(room).any(|(needed, room)| room < *needed) {
        return no(11, 0);
    }
    Ok(job)
}

/// The numbers of a record whose lengths are right.
fn contents_of(walked: &Walked, n: usize) -> Job {
    let content = |tag| walked.the(tag).content;
    let rows = walked.fields.iter().filter(|met| met.tag == ROW);
    let bands = content(0x02);
    let end = content(0x09);
    Job {
        n,
        nwpass: short(bands, 0),
        nwstop: short(bands, 2),
        limits: floats(content(0x03)).try_into().unwrap(),
        table: rows.flat_map(|met| floats(met.content)).collect(),
        x: floats(content(0x05)),
        cur: [0, 2, 4].map(|at| short(content(0x06), at) as i16),
        kappa: floats(content(0x07))[0],
        mq: floats(content(0x08)),
        limit: short(end, 0),
        tolerance: floats(&end[2..])[0],
    }
}

/// A job whose record is at most this long.
pub fn draw(src: &mut Source, most: usize) -> Job {
    loop {
        let job = Job::of(&Run::draw(src, false));
        if job.record().bytes().len() <= most {
            return job;
        }
    }
}

pub fn read_any(src: &mut Source, case: &mut Case) {
    let job = draw(src, 20_000);
    let Damage { bytes, .. } = damaged(src, job.record(), JOB);
    let mut room = [job.table.len(), job.n, job.n * job.n];
    match src.rng.below(6) {
        0 => room = room.map(|len| len + src.rng.below(3) as usize),
        1 => {
            let at = src.rng.below(3) as usize;
            room[at] = src.rng.pick(&[0, room[at] - 1]);
        }
        _ => {}
    }
    let held = room.map(|len| contents(src, len));
    read_of(&bytes, held, case);
}

pub fn read_of(bytes: &[u8], mut held: [Vec<f64>; 3], case: &mut Case) {
    case.take(bytes.len() as u64);
    held.iter().for_each(|part| case.take(part.len() as u64));
    case.take_bytes(bytes);
    held.iter().for_each(|part| case.take_floats(part));
    match read_job(bytes, [0, 1, 2].map(|k| held[k].len())) {
        Err(refused) => give_refusal(refused, case),
        Ok(job) => {
            case.output.extend([0, 0]);
            give_numbers(&job, case);
            for (part, read) in held.iter_mut().zip([&job.table, &job.x, &job.mq]) {
                part[..read.len()].copy_from_slice(read);
            }
        }
    }
    held.iter().for_each(|part| case.give_floats(part));
}

pub fn give_refusal(refused: No, case: &mut Case) {
    case.give(refused.number);
    case.give(refused.place as u64);
}

/// Everything but table, point and matrix, with all that the job's oracle starts with.
fn give_numbers(job: &Job, case: &mut Case) {
    case.give(job.n as u64);
    case.give(job.rows() as u64);
    case.give(job.nwpass as u64);
    case.give(job.nwstop as u64);
    case.give_floats(&job.limits[..2]);
    let state = job.run().filter.state;
    give_state(&state, case);
    give_bands(&state, case);
    case.give_floats(&[job.kappa]);
    case.give(job.limit as u64);
    case.give_floats(&[job.tolerance]);
}
