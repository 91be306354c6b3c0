//! Runs a program beside the Rust, job by job, and compares what it prints.

use super::damage::{damaged, shuffle};
use super::every_byte::EveryByte;
use super::example::Lowpass;
use super::filterrun::{text, LONGEST};
use super::fixed::{fixed, record_of_length};
use super::job::draw;
use super::record::JOB;
use crate::lists::unpacked;
use crate::words::Source;
use std::collections::BTreeMap;
use std::fs;
use std::io::{self, Write};
use std::process::{Command, Output, Stdio};
use std::thread;
use std::time::Duration;

/// A job as it is handed to the program.
pub struct Question {
    pub bytes: Vec<u8>,
    pub kind: &'static str,
}

/// The jobs in the order in which they are made.
pub struct Questions {
    src: Source,
    fixed: Vec<Vec<u8>>,
    small: EveryByte,
    made: usize,
}

impl Questions {
    pub fn new(seed: u64) -> Self {
        let texts = fixed().into_iter().filter(|case| case.op == 160);
        Questions {
            src: Source::new(seed),
            fixed: texts.map(|c| unpacked(&c.input[1..], c.input[0])).collect(),
            small: EveryByte::default(),
            made: 0,
        }
    }

    pub fn next(&mut self) -> Question {
        let at = self.made;
        self.made += 1;
        if let Some(bytes) = self.fixed.get(at) {
            let (bytes, kind) = (bytes.clone(), "fixed");
            return Question { bytes, kind };
        }
        match at % 16 {
            0 => self.long_file(),
            1 | 2 => self.real_filter(),
            3..=8 => self.damaged_at_next_byte(),
            _ => {
                let record = draw(&mut self.src, LONGEST).record();
                let damage = damaged(&mut self.src, record, JOB);
                let (bytes, kind) = (damage.bytes, damage.kind);
                Question { bytes, kind }
            }
        }
    }

    fn long_file(&mut self) -> Question {
        let n = self.src.rng.range(2, 32) as usize;
        let len = LONGEST - 1 + self.src.rng.below(3) as usize;
        let (bytes, kind) = (record_of_length(n, len), "65,535 to 65,537 bytes");
        Question { bytes, kind }
    }

    pub fn real_filter(&mut self) -> Question {
        let rng = &mut self.src.rng;
        let n = rng.range(4, 14) as usize;
        let mut filter = Lowpass::of(n);
        if rng.coin() {
            filter.rows = rng.range(10, 15 * n as i64 - 1) as usize;
        }
        filter.wpass += rng.range(-50, 100) as f64 / 1000.0;
        filter.wstop = filter.wpass + rng.range(20, 400) as f64 / 1000.0;
        filter.kappa = rng.pick(&[1.0, 4.0, 40.0, 400.0]);
        filter.steps = rng.range(20, 2000) as u16;
        let mut record = filter.job().record();
        if rng.coin() {
            shuffle(&mut self.src, &mut record);
        }
        let (bytes, kind) = (record.bytes(), "a real filter");
        Question { bytes, kind }
    }

    fn damaged_at_next_byte(&mut self) -> Question {
        if self.small.is_over() {
            let mut record = draw(&mut self.src, 300).record();
            shuffle(&mut self.src, &mut record);
            self.small = EveryByte::of(record.bytes());
        }
        let bytes = self.small.next(&mut self.src);
        let kind = "damaged at every byte";
        Question { bytes, kind }
    }
}

/// What the program prints for a job.
fn asked(program: &str, bytes: &[u8]) -> io::Result<Vec<u8>> {
    let mut command = Command::new(program);
    Ok(piped(command.stdout(Stdio::piped()), bytes, Duration::ZERO)?.stdout)
}

/// Runs a command whose standard input comes in pieces, as a pipe may bring it.
pub fn piped(command: &mut Command, bytes: &[u8], pause: Duration) -> io::Result<Output> {
    let mut child = command.stdin(Stdio::piped()).spawn()?;
    let mut to = child.stdin.take().unwrap();
    thread::scope(|scope| {
        scope.spawn(move || {
            let piece = 1 + bytes.len() / 3;
            bytes.chunks(piece).all(|part| {
                thread::sleep(pause);
                to.write_all(part).is_ok() // the program may have read enough
            })
        });
        child.wait_with_output()
    })
}

/// Where two texts part, for a person.
pub fn difference(expected: &[u8], got: &[u8]) -> String {
    let same = expected.iter().zip(got).take_while(|(a, b)| a == b).count();
    let line = expected[..same].iter().filter(|b| **b == b'\n').count();
    let shown = |text: &[u8]| {
        let text = String::from_utf8_lossy(text).into_owned();
        text.lines().nth(line).unwrap_or("nothing").to_string()
    };
    format!(
        "byte {}, line {}\n  expected {}\n  got      {}",
        same + 1,
        line + 1,
        shown(expected),
        shown(got)
    )
}

/// How many of what, and the first difference.
#[derive(Default)]
struct Report {
    tally: BTreeMap<String, u64>,
    differ: u64,
}

impl Report {
    fn add(&mut self, what: String, count: usize) {
        *self.tally.entry(what).or_default() += count as u64;
    }

    fn count(&mut self, kind: &str, expected: &str) {
        self.add(format!("kind, {kind}"), 1);
        let last = expected.lines().last().unwrap();
        let words: Vec<&str> = last.split(' ').collect();
        match words[0] {
            "refused" => self.add(format!("refused by {:>2}", words[1]), 1),
            outcome => self.add(format!("outcome {outcome}"), 1),
        }
        self.add("lines".into(), expected.lines().count());
    }

    /// Counts a difference; the first one's job is kept in a file of this name.
    fn differs(
        &mut self,
        question: &Question,
        name: String,
        what: String,
        to: &mut impl Write,
    ) -> io::Result<()> {
        self.differ += 1;
        if self.differ > 1 {
            return Ok(());
        }
        fs::write(&name, &question.bytes)?;
        let kind = question.kind;
        writeln!(to, "first difference, {kind}, job in {name}: {what}")?;
        to.flush()
    }
}

pub type Answer = io::Result<(String, Vec<u8>)>;

/// The Rust's text and the program's, for two questions at a time at most.
pub fn answers(program: &str, questions: &[Question]) -> Vec<Answer> {
    thread::scope(|scope| {
        let ask = |q: &Question| Ok((text(&q.bytes), asked(program, &q.bytes)?));
        let asking = questions.iter().map(|q| scope.spawn(move || ask(q)));
        let asking: Vec<_> = asking.collect();
        asking.into_iter().map(|a| a.join().unwrap()).collect()
    })
}

pub fn compare(program: &str, seed: u64, jobs: u64, to: &mut impl Write) -> io::Result<bool> {
    let mut questions = Questions::new(seed);
    let mut report = Report::default();
    for first in (1..=jobs).step_by(2) {
        let asked: Vec<Question> = (first..=jobs).take(2).map(|_| questions.next()).collect();
        let answers = answers(program, &asked);
        for (at, (question, answer)) in (first..).zip(asked.iter().zip(answers)) {
            let (expected, got) = answer?;
            report.count(question.kind, &expected);
            if expected.as_bytes() != got {
                let name = format!("differs-{seed}-{at}.job");
                let what = difference(expected.as_bytes(), &got);
                report.differs(question, name, what, to)?;
            }
        }
    }
    for (what, count) in report.tally {
        writeln!(to, "{what}: {count}")?;
    }
    let agree = jobs - report.differ;
    writeln!(to, "{agree} agree, {} differ", report.differ)?;
    to.flush()?;
    Ok(report.differ == 0)
}
