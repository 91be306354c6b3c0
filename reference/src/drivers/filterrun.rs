//! What `filterrun` prints for a job: operation 160.

use super::answer::Answer;
use super::damage::{damaged, Damage};
use super::job::{draw, read_job, Job, AMPLE};
use super::record::{No, JOB};
use super::walk::{feas, Line};
use crate::lists::Case;
use crate::words::{word, Source};
use std::fmt::Write as _;
use std::io::{self, Read, Write};

/// The longest file that is read.
pub const LONGEST: usize = 65_536;
/// The longest text that stands in a list.
const MOST_TEXT: usize = 400_000;

const GROUPS: [&str; 4] = ["pass", "stop", "middle", "sign"];
const STATUSES: [&str; 3] = ["Success", "NoSoln", "NoEffect"];

pub fn text(bytes: &[u8]) -> String {
    match accepted(bytes) {
        Err(No { number, place }) => format!("refused {number} {place}\n"),
        Ok(job) => text_of(&job),
    }
}

/// The program itself: reads no more than shows that a file is too long.
pub fn run(from: &mut impl Read, to: &mut impl Write) -> io::Result<bool> {
    let bytes = read(from)?;
    to.write_all(text(&bytes).as_bytes())?;
    to.flush()?;
    Ok(true)
}

/// The answer record of a job.
pub fn answer(from: &mut impl Read, to: &mut impl Write) -> io::Result<bool> {
    match accepted(&read(from)?) {
        Err(No { number, place }) => {
            eprintln!("refused {number} {place}");
            Ok(false)
        }
        Ok(job) => {
            to.write_all(&answer_of(&job).record().bytes())?;
            to.flush()?;
            Ok(true)
        }
    }
}

pub fn answer_of(job: &Job) -> Answer {
    let (end, _) = feas(&job.run());
    let (point, steps) = (end.best, end.steps);
    Answer { point, steps }
}

fn read(from: &mut impl Read) -> io::Result<Vec<u8>> {
    let mut bytes = Vec::new();
    from.take(LONGEST as u64 + 1).read_to_end(&mut bytes)?;
    Ok(bytes)
}

/// A long file is refused before all else.
pub fn accepted(bytes: &[u8]) -> Result<Job, No> {
    if bytes.len() > LONGEST {
        let (number, place) = (11, LONGEST);
        return Err(No { number, place });
    }
    read_job(bytes, AMPLE)
}

fn text_of(job: &Job) -> String {
    let (end, lines) = feas(&job.run());
    let mut text = String::new();
    for (step, line) in lines.iter().enumerate() {
        write_line(&mut text, step, line);
    }
    let outcome = if end.best.is_some() { "found" } else { "none" };
    text + &format!("{outcome} {}\n", end.steps)
}

fn write_line(text: &mut String, step: usize, line: &Line) {
    let cut = line.cut.as_ref().unwrap();
    let row = cut.row.map_or("-".into(), |row| row.to_string());
    let side = if cut.over { "over" } else { "under" };
    let b0 = hex(cut.beta.0);
    let b1 = cut.beta.1.map_or("-".into(), hex);
    let group = GROUPS[cut.group as usize];
    let status = STATUSES[line.status as usize];
    writeln!(text, "{step} {group} {row} {side} {b0} {b1} {status}").unwrap();
}

fn hex(x: f64) -> String {
    format!("{:016X}", word(x))
}

pub fn text_any(src: &mut Source, case: &mut Case) {
    loop {
        let record = draw(src, LONGEST).record();
        let Damage { bytes, .. } = damaged(src, record, JOB);
        let text = text(&bytes);
        if text.len() <= MOST_TEXT {
            return give(&bytes, &text, case);
        }
    }
}

pub fn text_case(bytes: &[u8], case: &mut Case) {
    give(bytes, &text(bytes), case);
}

fn give(bytes: &[u8], text: &str, case: &mut Case) {
    case.take(bytes.len() as u64);
    case.take_bytes(bytes);
    case.give(text.len() as u64);
    case.give_bytes(text.as_bytes());
}
