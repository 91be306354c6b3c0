//! What the program `jobfile` says to a call: from documents 01 and 02, apart from the port.

pub mod ask;
pub mod calls;
pub mod compare;
mod limit_words;
mod pairs;
mod records;

use super::answer::{read_answer, Answer};
use super::belongs::is_of;
use super::filterrun::{accepted, answer_of, LONGEST};
use super::job::Job;
use super::record::{no, No};
use super::write_job::{write_job, Given};

const USAGE: &str = "usage: jobfile answer < JOB > ANSWER
       jobfile belongs JOB ANSWER
       jobfile file < JOB > NEWJOB
       jobfile limits LP UP SP < JOB > NEWJOB
LP, UP, SP: the 16 hexadecimal digits of a float, or - for the job's own
";

/// What stands behind a name, or is standard input.
#[derive(Clone)]
pub enum Held {
    Bytes(Vec<u8>),
    Directory,
    Missing,
    /// A name that goes on behind a file's.
    Behind,
    LongName,
}

impl Held {
    /// What was read, or the C library's text of why nothing was.
    fn read(&self) -> Result<&[u8], &'static str> {
        match self {
            Held::Bytes(bytes) => Ok(bytes),
            Held::Directory => Err("Is a directory"),
            Held::Missing => Err("No such file or directory"),
            Held::Behind => Err("Not a directory"),
            Held::LongName => Err("File name too long"),
        }
    }
}

/// How standard input is brought.
#[derive(Clone, Copy, PartialEq)]
pub enum By {
    Pipe,
    /// A pipe whose writer waits between pieces.
    SlowPipe,
    File,
}

/// A call of the program: its words, its standard input, and the files that the words may name.
pub struct Call {
    pub kind: String,
    pub words: Vec<Vec<u8>>,
    pub input: Held,
    pub by: By,
    pub files: Vec<(Vec<u8>, Held)>,
    /// Standard output has no space left.
    pub full: bool,
}

/// Standard output, standard error and the status.
#[derive(Debug, PartialEq)]
pub struct Said {
    pub out: Vec<u8>,
    pub err: Vec<u8>,
    pub status: Option<i32>,
}

pub fn expected(call: &Call) -> Said {
    let words: Vec<&[u8]> = call.words.iter().map(Vec::as_slice).collect();
    let made = match (&words[..], limits_of(&words)) {
        ([b"answer"], _) => answer(&call.input),
        ([b"belongs", job, answer], _) => belongs(call.file(job), call.file(answer)),
        (_, Some(limits)) => filed(&call.input, limits),
        _ => Err(USAGE.into()),
    };
    let (out, err) = match made {
        Err(why) => (Vec::new(), why),
        Ok(_) if call.full => (
            Vec::new(),
            reason(b"standard output", "No space left on device"),
        ),
        Ok(out) => (out, Vec::new()),
    };
    let status = Some(0);
    Said { out, err, status }
}

type File<'a> = (&'a [u8], &'a Held);

impl Call {
    /// The file of a name; a name that no file has is missing.
    fn file<'a>(&'a self, name: &'a [u8]) -> File<'a> {
        let known = self.files.iter().find(|file| file.0 == name);
        (name, known.map_or(&Held::Missing, |file| &file.1))
    }

    /// The job that it files, if it does.
    fn job(&self) -> Option<Job> {
        let words: Vec<&[u8]> = self.words.iter().map(Vec::as_slice).collect();
        job_of(&self.input, limits_of(&words)?).ok()
    }
}

/// What goes to standard output or, if nothing does, to standard error.
type Made = Result<Vec<u8>, Vec<u8>>;

/// lp_sq, up_sq and sp_sq, or none for the job's own.
type Limits = [Option<f64>; 3];

/// The limits with which a job is filed, if it is.
fn limits_of(words: &[&[u8]]) -> Option<Limits> {
    match words {
        [b"file"] => Some([None; 3]),
        [b"limits", lp, up, sp] => Some([limit_of(lp)?, limit_of(up)?, limit_of(sp)?]),
        _ => None,
    }
}

/// `-`, or 16 hexadecimal digits of either case.
fn limit_of(word: &[u8]) -> Option<Option<f64>> {
    if word == b"-" {
        return Some(None);
    }
    if word.len() != 16 {
        return None;
    }
    let mut digits = word.iter().map(|&b| char::from(b).to_digit(16));
    let bits = digits.try_fold(0, |bits, digit| Some(bits << 4 | digit? as u64));
    bits.map(|bits| Some(f64::from_bits(bits)))
}

/// The job of the input, with these limits.
fn job_of(input: &Held, limits: Limits) -> Result<Job, Vec<u8>> {
    let bytes = read((b"standard input", input))?;
    let mut job = accepted(bytes).map_err(|no| refused(no, ""))?;
    for (limit, new) in job.limits.iter_mut().zip(limits) {
        *limit = new.unwrap_or(*limit);
    }
    Ok(job)
}

fn filed(input: &Held, limits: Limits) -> Made {
    let job = job_of(input, limits)?;
    Ok(write_job(&Given::of(&job), usize::MAX).expect("what was read is a job"))
}

fn answer(input: &Held) -> Made {
    let bytes = read((b"standard input", input))?;
    let job = accepted(bytes).map_err(|no| refused(no, ""))?;
    Ok(answer_of(&job).record().bytes())
}

/// The job is read and tested whole before the answer's file is looked at.
fn belongs(job: File, answer: File) -> Made {
    let job = accepted(read(job)?).map_err(|no| refused(no, " job"))?;
    let answer = accepted_answer(job.n, read(answer)?).map_err(|no| refused(no, " answer"))?;
    let yes = is_of(&job, &answer);
    Ok(if yes { "yes\n" } else { "no\n" }.into())
}

fn accepted_answer(n: usize, bytes: &[u8]) -> Result<Answer, No> {
    if bytes.len() > LONGEST {
        return no(11, LONGEST);
    }
    read_answer(n as u64, bytes, n)
}

/// A name that is longer than any path is not handed to the program whole, and not said again.
const LONGEST_NAME: usize = 4096;

/// A file is opened by a name that is text, and by no other (docs/ARCHIVE.md).
fn read<'a>((name, held): File<'a>) -> Result<&'a [u8], Vec<u8>> {
    let said = if name.len() > LONGEST_NAME {
        b"argument"
    } else {
        name
    };
    if std::str::from_utf8(said).is_err() {
        return Err(reason(said, "the name is not UTF-8"));
    }
    held.read().map_err(|why| reason(said, why))
}

fn reason(name: &[u8], why: &str) -> Vec<u8> {
    [name, b": ", why.as_bytes(), b"\n"].concat()
}

fn refused(No { number, place }: No, which: &str) -> Vec<u8> {
    format!("refused {number} {place}{which}\n").into_bytes()
}
