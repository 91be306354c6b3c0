//! The fixed cases that a list of this layer begins with: the scope's example of every refusal,
//! both ends of every limit, every pair of faults in a record, the job that the scope works out, and
//! three real filters.

use super::answer::{read_of as read_answer_of, write_of, Answer};
use super::belongs::{asked_of, Asked};
use super::cutting::{default_options, feas_of, optim_of};
use super::cutting_any::{any_of, AnyRun};
use super::damage::{faults, put, Fault};
use super::filterrun::{text_case, LONGEST};
use super::fixed_writes::fixed_writes;
use super::job::{read_of as read_job_of, rows_in, Job};
use super::lively::lowpass;
use super::record::{Record, Rule, ANSWER, JOB};
use super::run::Run;
use crate::lists::Case;
use crate::oracles::filter::{Filter, State};
use crate::oracles::lowpass_any::Call;
use crate::oracles::spaces::{diagonal, Space};
use crate::words::Source;

pub fn fixed() -> Vec<Case> {
    let mut cases = Vec::new();
    worked(&mut cases);
    filters(&mut cases);
    runs(&mut cases);
    jobs(&mut cases);
    answers(&mut cases);
    long_files(&mut cases);
    pairs_of_job(&mut cases);
    pairs_of_answer(&mut cases);
    fixed_writes(&mut cases);
    push(&mut cases, 142, default_options);
    cases
}

pub fn push(cases: &mut Vec<Case>, op: u64, fill: impl FnOnce(&mut Case)) {
    let mut case = Case::default();
    case.start(op);
    fill(&mut case);
    cases.push(case);
}

/// The job of 145 bytes.
pub fn worked_job() -> Job {
    Job {
        n: 2,
        nwpass: 1,
        nwstop: 1,
        limits: [1.0, 2.0, 1.0],
        table: vec![1.0, 0.0],
        x: vec![0.0, 0.0],
        cur: [-1, 0, 0],
        kappa: 0.25,
        mq: diagonal(2, |_| 1.0),
        limit: 10,
        tolerance: 0.0,
    }
}

fn worked(cases: &mut Vec<Case>) {
    let job = worked_job();
    push_job(cases, &job.record().bytes(), &job);
    push(cases, 70, |case| feas_of(&job.run(), case));
    push(cases, 71, |case| optim_of(&job.run(), case));
}

/// Long runs: two that find a filter and one that ends without, and all of them improved.
fn filters(cases: &mut Vec<Case>) {
    for (wstop, sp_sq) in [(0.28, 0.002), (0.24, 0.01), (0.22, 0.005)] {
        let run = lowpass(16, 240, wstop, sp_sq);
        let bytes = Job::of(&run).record().bytes();
        push(cases, 70, |case| feas_of(&run, case));
        push(cases, 160, |case| text_case(&bytes, case));
        let limit = 400;
        push(cases, 71, |case| optim_of(&Run { limit, ..run }, case));
    }
}

/// A small run; rows have a one each, and limits and bands are those of the scope's known values.
/// n need not be legal.
pub fn plain(n: usize, rows: usize, bands: (i32, i32)) -> Run {
    let table = (0..rows * n).map(|k| (k % n == k / n % n) as u64 as f64);
    let mut filter = Filter {
        n,
        table: table.collect(),
        x: (0..n).map(|k| if k == 0 { 3.0 } else { 1.0 }).collect(),
        nwpass: bands.0,
        nwstop: bands.1,
        lp_sq: 1.0,
        up_sq: 2.0,
        gamma: 4.0,
        state: State::fresh([(0, 0); 3], 4.0),
    };
    filter.state = State::fresh(filter.bands(), 4.0);
    let space = Space::new(false, 4.0, filter.x.clone(), diagonal(n, |_| 1.0));
    let mut run = Run::new(filter, space);
    run.limit = 20;
    run
}

/// Both ends of every size, and the examples of 3 and 4.
fn examples() -> Vec<Run> {
    let mut runs: Vec<Run> = [1, 2, 32, 33].map(|n| plain(n, 3, (1, 2))).into();
    runs.push(plain(2, 1024, (300, 700)));
    runs.push(plain(2, 1025, (300, 700)));
    runs.push(plain(2, 4, (3, 2)));
    let mut outside = plain(2, 4, (3, 3));
    outside.filter.state.cursors[0].cur = 3;
    runs.push(outside);
    runs
}

fn runs(cases: &mut Vec<Case>) {
    for run in examples() {
        let room = run.filter.n;
        push_run(cases, &run, room);
        push(cases, 153, |case| asked_of(asked(&run, true), case));
        push(cases, 153, |case| asked_of(asked(&run, false), case));
    }
    let mut short = plain(3, 3, (1, 2));
    push_run(cases, &short, 2);
    push_run(cases, &short, 4);
    short.grad.pop();
    push_run(cases, &short, 3);
    push(cases, 153, |case| asked_of(asked(&short, true), case));
    // The stop band is empty: halted at once, and after a step.
    let mut halted = plain(2, 2, (1, 2));
    push(cases, 71, |case| optim_of(&halted, case));
    push_run(cases, &halted, 2);
    halted.filter.x[0] = 1.5;
    halted.space.xc[0] = 1.5;
    push(cases, 71, |case| optim_of(&halted, case));
    push_run(cases, &halted, 2);
}

fn push_run(cases: &mut Vec<Case>, run: &Run, room: usize) {
    for (op, improve) in [(140, false), (141, true)] {
        let any = AnyRun::new(run.clone(), vec![7.0; room]);
        push(cases, op, |case| any_of(any, improve, case));
    }
}

fn asked(run: &Run, found: bool) -> Asked {
    Asked {
        call: Call::new(run.filter.clone(), run.grad.clone()),
        point: run.filter.x.clone(),
        found,
    }
}

/// Outputs of the job's sizes, and the text.
fn push_job(cases: &mut Vec<Case>, bytes: &[u8], job: &Job) {
    push_read(cases, bytes, job, 0);
    push(cases, 160, |case| text_case(bytes, case));
}

/// `less` is what the table's output lacks.
fn push_read(cases: &mut Vec<Case>, bytes: &[u8], job: &Job, less: usize) {
    let lens = [job.table.len() - less, job.n, job.n * job.n];
    let held = lens.map(|len| vec![7.0; len]);
    push(cases, 150, |case| read_job_of(bytes, held, case));
}

fn jobs(cases: &mut Vec<Case>) {
    for run in examples() {
        let job = Job::of(&run);
        push_job(cases, &job.record().bytes(), &job);
    }
    let job = Job::of(&plain(2, 2, (1, 1)));
    for bytes in [&[][..], &[0x01, 0x02], &[0x7F, 0, 0]] {
        push_job(cases, bytes, &job);
    }
    let mut twice = job.record();
    twice.fields.insert(1, twice.fields[0].clone());
    push_job(cases, &twice.bytes(), &job);
    let mut short = Job::of(&plain(3, 2, (1, 1))).record();
    let point = short.find(0x05).unwrap();
    short.fields[point].resize(16);
    push_job(cases, &short.bytes(), &job);
    push_read(cases, &job.record().bytes(), &job, 1);
}

fn answers(cases: &mut Vec<Case>) {
    let answer = |n, found: bool| Answer {
        point: found.then(|| vec![1.5; n]),
        steps: 258,
    };
    for n in [1, 2, 32, 33] {
        for found in [false, true] {
            let bytes = answer(n, found).record().bytes();
            let len = bytes.len();
            for room in [n - 1, n, n + 1] {
                let held = vec![7.0; room];
                push(cases, 151, |case| {
                    read_answer_of(n as u64, &bytes, held, case)
                });
            }
            for (lp, lo) in [(n, len), (n, len - 1), (n, len + 1), (n - 1, len)] {
                push(cases, 152, |case| {
                    write_of(n as u64, found, 258, vec![1.5; lp], vec![7; lo], case)
                });
            }
        }
    }
    let twice = [0x20, 1, 0, 0, 0x20, 1, 0, 0];
    let outcome = [0x20, 1, 0, 2, 0x21, 2, 0, 0, 0];
    for bytes in [&[][..], &[0x20], &[0x7F, 0, 0], &twice, &outcome] {
        push(cases, 151, |case| {
            read_answer_of(2, bytes, vec![7.0; 2], case)
        });
    }
}

/// A record of exactly this many bytes, which no legal job has: the last field's length is wrong.
pub fn record_of_length(n: usize, len: usize) -> Vec<u8> {
    let mut record = Job::of(&plain(n, rows_in(len, n), (1, 2))).record();
    let more = len - record.bytes().len();
    let last = record.fields.last_mut().unwrap();
    last.resize(last.content.len() + more);
    record.bytes()
}

fn long_files(cases: &mut Vec<Case>) {
    for n in [9, 32] {
        let legal = Job::of(&plain(n, rows_in(LONGEST, n), (1, 2)));
        push(cases, 160, |case| text_case(&legal.record().bytes(), case));
    }
    for len in LONGEST - 1..=LONGEST + 1 {
        for n in [2, 32] {
            let bytes = record_of_length(n, len);
            push(cases, 160, |case| text_case(&bytes, case));
        }
    }
    push(cases, 160, |case| text_case(&[0x7F; LONGEST + 1], case));
}

/// Two faults in one record, the first of them in front or the second.
pub struct Pair {
    pub front: Option<Fault>,
    pub back: Option<Fault>,
    pub record: Record,
}

/// Each pair of faults, in both orders; none stands for the fault that is not in the record.
pub fn pairs(whole: &Record, rules: &'static [Rule]) -> Vec<Pair> {
    let mut src = Source::new(0);
    let all = faults(rules);
    let with_none: Vec<Option<Fault>> = all.iter().map(|&f| Some(f)).chain([None]).collect();
    let mut pairs = Vec::new();
    for &front in &with_none {
        for &back in with_none.iter().filter(|&&back| back != front) {
            let mut record = whole.clone();
            // The repeated field is a copy of what the other fault has left.
            let mut puts = [(front, false), (back, true)];
            puts.sort_by_key(|(fault, _)| *fault == Some(Fault::Repeated));
            for (fault, back) in puts {
                if let Some(fault) = fault {
                    put(fault, &mut src, &mut record, rules, back);
                }
            }
            pairs.push(Pair {
                front,
                back,
                record,
            });
        }
    }
    pairs
}

pub fn pair_job() -> Job {
    Job::of(&plain(2, 4, (1, 3)))
}

fn pairs_of_job(cases: &mut Vec<Case>) {
    let job = pair_job();
    for pair in pairs(&job.record(), JOB) {
        let bytes = pair.record.bytes();
        let lone = pair.front.is_none() || pair.back.is_none();
        push_read(cases, &bytes, &job, lone as usize);
        push(cases, 160, |case| text_case(&bytes, case));
    }
}

/// A fault that stands alone comes with a caller's n that is wrong, and with a short output.
fn pairs_of_answer(cases: &mut Vec<Case>) {
    let answer = Answer {
        point: Some(vec![1.5, 2.5]),
        steps: 258,
    };
    for pair in pairs(&answer.record(), ANSWER) {
        let bytes = pair.record.bytes();
        let mut read = |n, room| {
            push(cases, 151, |case| {
                read_answer_of(n, &bytes, vec![7.0; room], case)
            })
        };
        if pair.front.is_none() || pair.back.is_none() {
            read(1, 2);
            read(2, 1);
        } else {
            read(2, 2);
        }
    }
}
