//! The fixed cases of the job writer: the job that the scope works out, both ends of every size,
//! every refusal alone and beside each other one, and numbers of the rare kinds at every place.

use super::damage::{faults, put as put_fault};
use super::fixed::{pair_job, plain, push, worked_job};
use super::job::Job;
use super::record::JOB;
use super::write_job::{rewrite_of, write_of, Given};
use crate::lists::Case;
use crate::words::Source;

pub fn fixed_writes(cases: &mut Vec<Case>) {
    worked(cases);
    sizes(cases);
    lengths(cases);
    borders(cases);
    cursors(cases);
    pairs(cases);
    rare_numbers(cases);
    refused_records(cases);
    orders(cases);
}

/// `more` is how many bytes the output has above what the record needs.
fn push_write(cases: &mut Vec<Case>, given: &Given, more: i64) {
    let len = given.needed() as i64 + more;
    let out = vec![7; len as usize];
    push(cases, 155, |case| write_of(given, out, case));
}

fn push_rewrite(cases: &mut Vec<Case>, bytes: &[u8], len: usize) {
    push(cases, 162, |case| rewrite_of(bytes, vec![7; len], case));
}

fn worked(cases: &mut Vec<Case>) {
    let given = Given::of(&worked_job());
    for more in [-145, -1, 0, 1] {
        push_write(cases, &given, more);
    }
    let mut record = worked_job().record();
    for len in [0, 144, 145, 146] {
        push_rewrite(cases, &record.bytes(), len);
        record.fields.reverse();
    }
}

/// Both ends of n and of the rows, and of the step limit.
fn sizes(cases: &mut Vec<Case>) {
    for (n, rows) in [(1, 3), (2, 3), (32, 3), (33, 3), (2, 1024), (2, 1025)] {
        let given = Given::of(&Job::of(&plain(n, rows, (1, 2))));
        push_write(cases, &given, 0);
    }
    let mut given = Given::of(&Job::of(&plain(2, 1, (0, 0))));
    for limit in [0, 65_535] {
        given.limit = limit;
        push_write(cases, &given, 0);
    }
    given.cur[2] = -1;
    given.held.rows = 0;
    given.held.slices[0].clear();
    push_write(cases, &given, 0);
    given.held.n = 0;
    given.held.slices[1].clear();
    given.mq.clear();
    push_write(cases, &given, 0);
}

fn four_rows() -> Given {
    Given::of(&pair_job())
}

/// One number more, or one less, in each slice.
fn lengths(cases: &mut Vec<Case>) {
    for more in [false, true] {
        for at in 0..3 {
            let mut given = four_rows();
            let slice = match at {
                2 => &mut given.mq,
                _ => &mut given.held.slices[at],
            };
            slice.resize(
                if more {
                    slice.len() + 1
                } else {
                    slice.len() - 1
                },
                7.0,
            );
            push_write(cases, &given, 0);
        }
    }
}

fn borders(cases: &mut Vec<Case>) {
    let wrong = [[-1, 3], [4, 3], [3, 2], [1, 5], [1, 65_539], [65_537, 3]];
    let right = [[0, 0], [0, 4], [4, 4], [2, 2]];
    for borders in wrong.into_iter().chain(right) {
        let [nwpass, nwstop] = borders;
        let mut given = four_rows();
        given.borders = borders;
        given.cur = [-1, nwpass - 1, nwstop - 1];
        push_write(cases, &given, 0);
    }
}

/// Each cursor at both ends of its band, just outside them, and 65,536 further on.
fn cursors(cases: &mut Vec<Case>) {
    for (which, (lo, hi)) in [(0, 1), (1, 3), (3, 4)].into_iter().enumerate() {
        for cur in [lo - 2, lo - 1, hi - 1, hi, lo + 65_535] {
            let mut given = four_rows();
            given.cur[which] = cur;
            push_write(cases, &given, 0);
        }
    }
}

/// Makes the smallest change that the number refuses; 11 is a matter of the output.
fn put(number: u64, given: &mut Given) {
    match number {
        1 => {
            given.held.n = 1;
            let slices = given.held.slices.iter_mut().chain([&mut given.mq]);
            slices.zip([4, 1, 1]).for_each(|(s, len)| s.truncate(len));
        }
        2 => given.held.slices[0].truncate(3),
        3 => given.borders[1] = 5,
        4 => given.cur[0] = 1,
        _ => {}
    }
}

/// Every set of refusals in one case.
fn pairs(cases: &mut Vec<Case>) {
    const NUMBERS: [u64; 5] = [1, 2, 3, 4, 11];
    for set in 1u32..32 {
        let has = |at: usize| set >> at & 1 == 1;
        let mut given = four_rows();
        let numbers = NUMBERS.iter().enumerate().filter(|(at, _)| has(*at));
        numbers.for_each(|(_, &number)| put(number, &mut given));
        push_write(cases, &given, -(has(4) as i64));
    }
}

/// NaNs quiet and signalling, zeros, subnormals and infinities, all of both signs.
const RARE: [u64; 12] = [
    0x7FF8_0000_0000_0000,
    0xFFF8_0000_0000_0000,
    0x7FF0_0000_0000_0001,
    0xFFF0_0000_0000_0001,
    0x7FFF_FFFF_FFFF_FFFF,
    0xFFFF_FFFF_FFFF_FFFF,
    0,
    1 << 63,
    1,
    1 << 63 | 1,
    0x7FF0_0000_0000_0000,
    0xFFF0_0000_0000_0000,
];

/// Each of them at each place of a job.
fn rare_numbers(cases: &mut Vec<Case>) {
    for first in 0..RARE.len() {
        let mut job = pair_job();
        for (at, number) in job.numbers_mut().into_iter().enumerate() {
            *number = f64::from_bits(RARE[(first + at) % RARE.len()]);
        }
        push_write(cases, &Given::of(&job), 0);
        let mut record = job.record();
        record.fields.reverse();
        let bytes = record.bytes();
        push_rewrite(cases, &bytes, bytes.len());
    }
}

/// Each fault of a record alone, into an output that is long enough and into none.
fn refused_records(cases: &mut Vec<Case>) {
    let mut src = Source::new(0);
    for &fault in faults(JOB) {
        let mut record = pair_job().record();
        put_fault(fault, &mut src, &mut record, JOB, false);
        let bytes = record.bytes();
        push_rewrite(cases, &bytes, bytes.len());
        push_rewrite(cases, &bytes, 0);
    }
}

/// Each order in which the fields follow each other in a circle, and large records.
fn orders(cases: &mut Vec<Case>) {
    let mut record = pair_job().record();
    for _ in 0..record.fields.len() {
        let bytes = record.bytes();
        push_rewrite(cases, &bytes, bytes.len());
        record.fields.rotate_left(1);
    }
    for (n, rows) in [(2, 1024), (32, 3)] {
        let mut record = Job::of(&plain(n, rows, (1, 2))).record();
        record.fields.reverse();
        let bytes = record.bytes();
        push_rewrite(cases, &bytes, bytes.len());
        push_rewrite(cases, &bytes, bytes.len() - 1);
    }
}
