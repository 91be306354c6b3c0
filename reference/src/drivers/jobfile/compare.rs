//! Calls the program `jobfile` and compares what it says, on both outputs, byte for byte.

use super::ask::{asked, Folder};
use super::calls::{draw_of, Calls};
use super::{expected, By, Call, Held, Said};
use crate::drivers::job::{read_job, Job, AMPLE};
use std::collections::BTreeMap;
use std::fs;
use std::io::{self, Write};
use std::path::Path;
use std::thread;

/// How many calls of each kind agree and differ, and how many times each thing was to be said.
#[derive(Default)]
struct Tally {
    kinds: BTreeMap<String, [u64; 2]>,
    said: BTreeMap<String, u64>,
}

impl Tally {
    /// Whether this call is the first of its kind that differs.
    fn add(&mut self, call: &Call, right: &Said, agrees: bool) -> bool {
        *self.said.entry(in_short(right)).or_default() += 1;
        let counts = self.kinds.entry(call.kind.clone()).or_default();
        counts[!agrees as usize] += 1;
        !agrees && counts[1] == 1
    }

    /// True where nothing differs.
    fn print(&self, to: &mut impl Write) -> io::Result<bool> {
        for (said, count) in &self.said {
            writeln!(to, "to be said, {said}: {count}")?;
        }
        let mut sums = [0; 2];
        for (kind, [agree, differ]) in &self.kinds {
            writeln!(to, "{kind}: {agree} agree, {differ} differ")?;
            sums = [sums[0] + agree, sums[1] + differ];
        }
        writeln!(to, "{} agree, {} differ", sums[0], sums[1])?;
        to.flush()?;
        Ok(sums[1] == 0)
    }
}

/// What is said, without names and places.
pub fn in_short(said: &Said) -> String {
    match &said.out[..] {
        b"" => {}
        [0x20, 1, 0, found, ..] => return format!("an answer record, outcome {found}"),
        [0x01, ..] => return "a job record".into(),
        text => return String::from_utf8_lossy(text).trim().into(),
    }
    let text = String::from_utf8_lossy(&said.err);
    let words: Vec<&str> = text.split_whitespace().collect();
    match words[..] {
        ["refused", number, _] => format!("refused {number:>2}"),
        ["refused", number, _, which] => format!("refused {number:>2}, {which}"),
        ["usage:", ..] => "usage".into(),
        _ => text.rsplit(": ").next().unwrap_or("").trim().into(),
    }
}

/// Text as it is, other bytes in hexadecimal, both no longer than helps.
fn shown(bytes: &[u8]) -> String {
    let text = bytes
        .iter()
        .all(|b| b.is_ascii_graphic() || b" \n".contains(b));
    let shown = if text {
        format!("{:?}", String::from_utf8_lossy(bytes))
    } else {
        bytes.iter().map(|b| format!("{b:02X} ")).collect()
    };
    let short: String = shown.chars().take(300).collect();
    format!("{short} ({} bytes)", bytes.len())
}

/// Keeps what the call was given in files of this name, and says what was expected.
fn describe(call: &Call, name: &Path, heard: &Heard) -> io::Result<String> {
    let Heard { right, got, .. } = heard;
    let words: Vec<String> = call.words.iter().map(|word| shown(word)).collect();
    let mut text = format!("first difference of {}: {}\n", call.kind, words.join(", "));
    let given = [("input", &call.input)].into_iter();
    let files = ["first", "second"]
        .into_iter()
        .zip(call.files.iter().map(|f| &f.1));
    for (what, held) in given.chain(files) {
        if let Held::Bytes(bytes) = held {
            let file = name.with_extension(what);
            fs::write(&file, bytes)?;
            text += &format!("  {what} in {}\n", file.display());
        }
    }
    for (what, right, got) in [
        ("standard output", &right.out, &got.out),
        ("standard error", &right.err, &got.err),
    ] {
        if right != got {
            text += &format!(
                "  {what}, expected {}\n  got {}\n",
                shown(right),
                shown(got)
            );
        }
    }
    if right.status != got.status {
        text += &format!("  status, expected 0, got {:?}\n", got.status);
    }
    if let Some(besides) = heard.besides {
        text += &format!("  {besides}\n");
    }
    Ok(text)
}

/// What a call was to say, what it said, and what else is wrong.
struct Heard {
    right: Said,
    got: Said,
    besides: Option<&'static str>,
}

fn heard(ask: &Ask, at: usize, call: &Call) -> io::Result<Heard> {
    let (right, got) = (expected(call), ask(at, call)?);
    let besides = match call.job() {
        Some(job) if !got.out.is_empty() => there_and_back(ask, at, &job, &got.out)?,
        _ => None,
    };
    Ok(Heard {
        right,
        got,
        besides,
    })
}

/// The generator's reader takes what was written as the job, and `file` gives the same bytes again.
fn there_and_back(ask: &Ask, at: usize, job: &Job, out: &[u8]) -> io::Result<Option<&'static str>> {
    if !read_job(out, AMPLE).is_ok_and(|read| read.words() == job.words()) {
        return Ok(Some("what was written is not the job"));
    }
    let again = Call {
        kind: "there and back".into(),
        words: vec![b"file".to_vec()],
        input: Held::Bytes(out.to_vec()),
        by: By::Pipe,
        files: Vec::new(),
        full: false,
    };
    let said = ask(at, &again)?;
    let same = said.out == out && said.err.is_empty() && said.status == Some(0);
    Ok((!same).then_some("what was written does not come back from `file`"))
}

/// Two calls at a time at most.
fn both(ask: &Ask, calls: &[Call]) -> Vec<io::Result<Heard>> {
    thread::scope(|scope| {
        let asking = calls.iter().enumerate();
        let asking = asking.map(|(at, call)| scope.spawn(move || heard(ask, at, call)));
        let asking: Vec<_> = asking.collect();
        asking.into_iter().map(|a| a.join().unwrap()).collect()
    })
}

/// Calls whoever is compared, in one of two places.
pub type Ask<'a> = dyn Fn(usize, &Call) -> io::Result<Said> + Sync + 'a;

/// What the first call of a kind that differs was given is kept in a folder.
pub fn compare_with(
    ask: &Ask,
    mut calls: Calls,
    (seed, count): (u64, u64),
    kept: &Path,
    to: &mut impl Write,
) -> io::Result<bool> {
    let mut tally = Tally::default();
    for first in (1..=count).step_by(2) {
        let asked: Vec<Call> = (first..=count).take(2).map(|_| calls.next()).collect();
        let heard = both(ask, &asked);
        for (at, (call, heard)) in (first..).zip(asked.iter().zip(heard)) {
            let heard = heard?;
            let agrees = heard.right == heard.got && heard.besides.is_none();
            if tally.add(call, &heard.right, agrees) {
                let name = kept.join(format!("differs-{seed}-{at}"));
                to.write_all(describe(call, &name, &heard)?.as_bytes())?;
                to.flush()?;
            }
        }
    }
    tally.print(to)
}

/// Compares calls of all commands, or of one.
pub fn compare(
    program: &str,
    (seed, count): (u64, u64),
    only: Option<&str>,
    to: &mut impl Write,
) -> io::Result<bool> {
    let absent = |e: io::Error| io::Error::new(e.kind(), format!("{program}: {e}"));
    let program = fs::canonicalize(program).map_err(absent)?;
    let folder = Folder::new("compared")?;
    let ask = |at, call: &Call| asked(&program, &folder.place(at), call);
    let calls = Calls::new(seed, only.map(draw_of).transpose()?);
    compare_with(&ask, calls, (seed, count), Path::new(""), to)
}
