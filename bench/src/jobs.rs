//! `bench jobs`: whole jobs, from the start of the process until its last line has come through a pipe.

use crate::race::{median, Times};
use crate::table::Row;
use generator::drivers::compare::difference;
use generator::drivers::example::Lowpass;
use generator::drivers::filterrun::text;
use std::fs::{self, File};
use std::io::{self, Read};
use std::path::PathBuf;
use std::process::{Command, Stdio};
use std::time::Instant;
use std::{env, process};

const LINES: &str = "filterrun, a whole job";
const BUFFERED: &str = "filterrun, a whole job, the Rust buffered";
const EMPTY: &str = "filterrun, an empty file, refused";

/// A job in a file, and its text.
struct Job {
    n: Option<usize>,
    file: PathBuf,
    text: Vec<u8>,
}

impl Job {
    fn new(n: Option<usize>, bytes: &[u8]) -> io::Result<Self> {
        let name = format!("bench-{}-{}.job", process::id(), n.unwrap_or(0));
        let file = env::temp_dir().join(name);
        fs::write(&file, bytes)?;
        let text = text(bytes).into_bytes();
        Ok(Job { n, file, text })
    }
}

impl Drop for Job {
    fn drop(&mut self) {
        let _ = fs::remove_file(&self.file);
    }
}

/// Filters of three n, of which that of 8 is of the kind of the examples, and an empty file.
fn jobs() -> io::Result<[Job; 4]> {
    let mut eight = Lowpass::of(8);
    (eight.wstop, eight.limits[2]) = (0.44, 0.003);
    let sixteen = include_bytes!("../../examples/n16.job");
    let most = include_bytes!("../../examples/n32.job");
    Ok([
        Job::new(Some(8), &eight.job().record().bytes())?,
        Job::new(Some(16), sixteen)?,
        Job::new(Some(32), most)?,
        Job::new(None, &[])?,
    ])
}

/// Nanoseconds until the last line is there. What comes must be the job's text, and nothing may follow.
fn timed(program: &str, word: Option<&str>, job: &Job) -> Result<f64, String> {
    let failed = |e: io::Error| format!("{program}: {e}");
    let mut command = Command::new(program);
    command
        .args(word)
        .stdin(File::open(&job.file).map_err(failed)?)
        .stdout(Stdio::piped());
    let mut got = vec![0; job.text.len()];
    let start = Instant::now();
    let mut child = command.spawn().map_err(failed)?;
    let mut from = child.stdout.take().unwrap();
    let whole = from.read_exact(&mut got);
    let passed = start.elapsed();
    let mut rest = Vec::new();
    from.read_to_end(&mut rest).map_err(failed)?;
    child.wait().map_err(failed)?;
    whole.map_err(|_| format!("{program}: ends before its last line"))?;
    got.extend(rest);
    if got != job.text {
        return Err(format!("{program}: {}", difference(&job.text, &got)));
    }
    Ok(passed.as_nanos() as f64)
}

/// Times of three that take turns: the port's program, the Rust's, and the Rust's, buffered.
#[derive(Default)]
struct Turns {
    port: Vec<f64>,
    lines: Vec<f64>,
    buffered: Vec<f64>,
}

impl Turns {
    fn round(&mut self, port: &str, rust: &str, job: &Job, first: usize) -> Result<(), String> {
        for turn in first..first + 3 {
            match turn % 3 {
                0 => self.port.push(timed(port, None, job)?),
                1 => self.lines.push(timed(rust, None, job)?),
                _ => self.buffered.push(timed(rust, Some("buffered"), job)?),
            }
        }
        Ok(())
    }

    fn against(&self, rust: &[f64]) -> Times {
        let ratios = self.port.iter().zip(rust).map(|(p, r)| p / r);
        Times {
            port: median(self.port.clone()),
            rust: median(rust.to_vec()),
            ratio: median(ratios.collect()),
        }
    }
}

/// The rows of both kinds of the Rust's writing; an empty file has one line, so that there is one kind.
pub fn measure(port: &str, rust: &str, rounds: usize) -> Result<Vec<Row>, String> {
    let (mut rows, mut buffered) = (Vec::new(), Vec::new());
    for job in jobs().map_err(|e| e.to_string())? {
        let mut turns = Turns::default();
        turns.round(port, rust, &job, 0)?;
        turns = Turns::default(); // the first one warms up
        for round in 0..rounds {
            turns.round(port, rust, &job, round)?;
        }
        let row = |call: &str, times| Row {
            call: call.into(),
            n: job.n,
            times,
        };
        let call = if job.n.is_some() { LINES } else { EMPTY };
        rows.push(row(call, turns.against(&turns.lines)));
        if job.n.is_some() {
            buffered.push(row(BUFFERED, turns.against(&turns.buffered)));
        }
    }
    rows.splice(3..3, buffered); // before the empty file's
    Ok(rows)
}

#[cfg(test)]
mod tests {
    use super::*;

    fn ends(job: &Job) -> &str {
        let text = std::str::from_utf8(&job.text).unwrap();
        text.lines().last().unwrap()
    }

    #[test]
    fn jobs_end_as_said() {
        let jobs = jobs().unwrap();
        let ends: Vec<&str> = jobs.iter().map(ends).collect();
        assert_eq!(ends, ["found 37", "found 106", "found 180", "refused 10 0"]);
    }

    #[test]
    fn another_text_is_an_error() {
        let job = Job::new(Some(2), b"a\nb\n").unwrap();
        assert!(timed("cat", None, &job).is_err());
        let same = Job {
            n: None,
            file: job.file.clone(),
            text: b"a\nb\n".to_vec(),
        };
        assert!(timed("cat", None, &same).is_ok());
        assert!(timed("no such program", None, &same).is_err());
    }
}
