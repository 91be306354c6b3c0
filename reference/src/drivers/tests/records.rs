//! Operations 150 to 152 and 160: readers against the order of the scope, and what they meet.

use crate::drivers::answer::{read_answer, Answer};
use crate::drivers::damage::{shuffle, Fault};
use crate::drivers::filterrun::text;
use crate::drivers::fixed::{pair_job, pairs, record_of_length, Pair};
use crate::drivers::job::{draw, read_job, AMPLE};
use crate::drivers::record::{Record, ANSWER, JOB};
use crate::drivers::walk::feas;
use crate::lists::{unpacked, Case};
use crate::testing::{must_be_common, Reader, Relation};
use crate::words::{word, Source};

impl Fault {
    fn number(self) -> u64 {
        match self {
            Fault::Header | Fault::Content => 7,
            Fault::Foreign => 8,
            Fault::Repeated => 9,
            Fault::Missing => 10,
            Fault::LengthOfN | Fault::Length => 2,
            Fault::Range => 1,
            Fault::Bands => 3,
            Fault::Cursor => 4,
            Fault::Outcome => 12,
        }
    }

    fn in_walk(self) -> bool {
        self <= Fault::Content
    }
}

/// The fault that a reader must find first.
fn first(pair: &Pair) -> Option<Fault> {
    match (pair.front, pair.back) {
        // A header can be cut short at the end only.
        (Some(Fault::Header), Some(back)) if back.in_walk() => Some(back),
        (Some(front), Some(back)) if front.in_walk() && back.in_walk() => Some(front),
        (Some(a), Some(b)) => Some(if a < b { a } else { b }),
        (a, b) => a.or(b),
    }
}

fn place(fault: Fault, record: &Record) -> Option<usize> {
    let at = |index: usize| {
        let fields = record.fields[..index].to_vec();
        let tail = Vec::new();
        Record { fields, tail }.bytes().len()
    };
    let of = |tag| record.find(tag).map(at);
    match fault {
        Fault::LengthOfN | Fault::Range => of(0x01),
        Fault::Bands => of(0x02),
        Fault::Cursor => of(0x06),
        Fault::Outcome => of(0x20),
        Fault::Missing => Some(record.bytes().len()),
        Fault::Header => Some(at(record.fields.len())),
        _ => None, // the number says enough
    }
}

#[test]
fn pairs_of_faults_are_found_in_order() {
    let job = pair_job();
    for pair in pairs(&job.record(), JOB) {
        let fault = first(&pair).unwrap();
        let refused = read_job(&pair.record.bytes(), AMPLE).err().unwrap();
        assert_eq!(refused.number, fault.number(), "{fault:?}");
        let place = place(fault, &pair.record).unwrap_or(refused.place);
        assert_eq!(refused.place, place, "{fault:?}");
    }
    let (point, steps) = (Some(vec![1.5, 2.5]), 258);
    for pair in pairs(&Answer { point, steps }.record(), ANSWER) {
        let fault = first(&pair).unwrap();
        let refused = read_answer(2, &pair.record.bytes(), 2).unwrap_err();
        assert_eq!(refused.number, fault.number(), "{fault:?}");
        let place = place(fault, &pair.record).unwrap_or(refused.place);
        assert_eq!(refused.place, place, "{fault:?}");
        let refused = read_answer(33, &pair.record.bytes(), 2).unwrap_err();
        assert_eq!((refused.number, refused.place), (1, 0));
    }
}

#[test]
fn jobs_read_back_in_any_order() {
    let mut src = Source::new(1);
    for _ in 0..2000 {
        let job = draw(&mut src, 5000);
        let mut record = job.record();
        let read = read_job(&record.bytes(), AMPLE).unwrap();
        assert_eq!(read.record().bytes(), record.bytes());
        // Rows in another order are another table, so only the rest is compared.
        shuffle(&mut src, &mut record);
        let read = read_job(&record.bytes(), AMPLE).unwrap();
        assert_eq!((read.n, read.limit, read.cur), (job.n, job.limit, job.cur));
        assert_eq!(read.mq.len(), job.mq.len());
    }
}

#[test]
fn answers_read_back() {
    let mut src = Source::new(2);
    for _ in 0..2000 {
        let run = draw(&mut src, 5000).run();
        let (end, _) = feas(&run);
        let (point, steps) = (end.best, end.steps);
        let n = run.filter.n;
        let bytes = Answer {
            point: point.clone(),
            steps,
        }
        .record()
        .bytes();
        let read = read_answer(n as u64, &bytes, n).unwrap();
        let words = |p: Option<Vec<f64>>| p.map(|p| p.iter().map(|&x| word(x)).collect::<Vec<_>>());
        assert_eq!((words(read.point), read.steps), (words(point), steps));
    }
}

#[test]
fn long_files_are_refused_by_their_length_alone() {
    for len in [65_535, 65_536] {
        let bytes = record_of_length(2, len);
        assert_eq!(bytes.len(), len);
        assert!(text(&bytes).starts_with("refused 3 ") || text(&bytes).starts_with("refused 2 "));
    }
    assert_eq!(text(&record_of_length(2, 65_537)), "refused 11 65536\n");
}

struct Seen {
    number: u64,
    place: u64,
    len: u64,
}

fn read(case: &Case) -> Seen {
    let at = (case.op == 151) as usize;
    let mut to = Reader(&case.output);
    Seen {
        number: to.word(),
        place: to.word(),
        len: case.input[at],
    }
}

const BOTH: &[Relation<Seen>] = &[
    ("accepted", 5, |s| s.number == 0),
    ("1", 100, |s| s.number == 1),
    ("2", 20, |s| s.number == 2),
    ("7 at the front", 100, |s| s.number == 7 && s.place == 0),
    ("7 later", 20, |s| s.number == 7 && s.place > 0),
    ("8 at the front", 100, |s| s.number == 8 && s.place == 0),
    ("8 later", 40, |s| s.number == 8 && s.place > 0),
    ("9", 30, |s| s.number == 9),
    ("10", 40, |s| s.number == 10 && s.place == s.len),
    ("11", 50, |s| s.number == 11),
];

#[test]
fn record_refusals_are_common() {
    must_be_common(150, 20_000, read, BOTH);
    must_be_common(
        150,
        20_000,
        read,
        &[
            ("3", 150, |s| s.number == 3),
            ("4", 150, |s| s.number == 4),
            ("4 at the front", 400, |s| s.number == 4 && s.place == 0),
            ("2 at the front", 400, |s| s.number == 2 && s.place == 0),
        ],
    );
    must_be_common(151, 20_000, read, BOTH);
    must_be_common(151, 20_000, read, &[("12", 60, |s| s.number == 12)]);
    must_be_common(
        152,
        20_000,
        read,
        &[
            ("accepted", 4, |s| s.number == 0),
            ("1", 20, |s| s.number == 1),
            ("2", 20, |s| s.number == 2),
            ("11", 20, |s| s.number == 11),
        ],
    );
}

fn read_text(case: &Case) -> String {
    String::from_utf8(unpacked(&case.output[1..], case.output[0])).unwrap()
}

#[test]
fn texts_are_common() {
    must_be_common(
        160,
        10_000,
        read_text,
        &[
            ("found at once", 20, |t| t.starts_with("found 0")),
            ("found later", 20, |t| t.contains("\nfound")),
            ("none at once", 100, |t| t.starts_with("none 0")),
            ("none", 20, |t| t.contains("\nnone")),
            ("refused", 4, |t| t.starts_with("refused")),
            ("NoSoln", 20, |t| t.contains(" NoSoln\n")),
            ("NoEffect", 50, |t| t.contains(" NoEffect\n")),
            ("a NaN beta", 800, |t| t.contains(" 7FF8000000000000 ")),
            ("stop over", 20, |t| {
                t.contains(" stop ") && t.contains(" over ")
            }),
            ("stop under", 20, |t| {
                t.contains(" stop ") && t.contains(" under ")
            }),
            ("middle", 60, |t| t.contains(" middle ")),
            ("sign", 80, |t| t.contains(" sign - under ")),
            ("more than 20 lines", 200, |t| t.lines().count() > 20),
            ("more than 100 lines", 3000, |t| t.lines().count() > 100),
        ],
    );
}
