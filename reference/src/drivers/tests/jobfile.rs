//! What `jobfile` is to say, and whether a comparison meets it and finds what differs.

use crate::drivers::jobfile::ask::{asked, Folder};
use crate::drivers::jobfile::calls::Calls;
use crate::drivers::jobfile::compare::{compare_with, in_short};
use crate::drivers::jobfile::{expected, By, Call, Held, Said};
use std::collections::BTreeMap;
use std::fs;
use std::path::Path;

pub const WORKED: &[u8] = include_bytes!("../../../../examples/worked.job");
pub const N16: &[u8] = include_bytes!("../../../../examples/n16.job");
pub const N32: &[u8] = include_bytes!("../../../../examples/n32.job");
const ANSWER: &[u8] = include_bytes!("../../../../examples/n32.answer");
const NONE: &[u8] = &[0x20, 1, 0, 0, 0x21, 2, 0, 0, 0];
pub const USAGE: &str = "usage: jobfile answer < JOB > ANSWER
       jobfile belongs JOB ANSWER
       jobfile file < JOB > NEWJOB
       jobfile limits LP UP SP < JOB > NEWJOB
LP, UP, SP: the 16 hexadecimal digits of a float, or - for the job's own
";
/// What a command that reads a job says to these inputs.
const NOT_READ: [(&[u8], &str); 4] = [
    (&[], "refused 10 0\n"),
    (WORKED.split_at(144).0, "refused 7 132\n"),
    (&[0x7F; 65_536], "refused 8 0\n"),
    (&[0x7F; 65_537], "refused 11 65536\n"),
];

pub fn call(words: &[&str], input: Held, files: &[(&str, Held)]) -> Call {
    let file = |(name, held): &(&str, Held)| (name.as_bytes().to_vec(), held.clone());
    Call {
        kind: "fixed".into(),
        words: words.iter().map(|word| word.as_bytes().to_vec()).collect(),
        input,
        by: By::Pipe,
        files: files.iter().map(file).collect(),
        full: false,
    }
}

pub fn bytes(bytes: &[u8]) -> Held {
    Held::Bytes(bytes.to_vec())
}

pub fn said(out: &[u8], err: &str) -> Said {
    Said {
        out: out.to_vec(),
        err: err.as_bytes().to_vec(),
        status: Some(0),
    }
}

#[test]
fn answers() {
    let answer = |input| expected(&call(&["answer"], input, &[]));
    assert_eq!(answer(bytes(WORKED)), said(NONE, ""));
    assert_eq!(answer(bytes(N32)), said(ANSWER, ""));
    are_refused(answer);
}

pub fn are_refused(say: impl Fn(Held) -> Said) {
    for (input, err) in NOT_READ {
        assert_eq!(say(bytes(input)), said(b"", err));
    }
    let directory = said(b"", "standard input: Is a directory\n");
    assert_eq!(say(Held::Directory), directory);
}

fn belongs(job: Held, answer: Held) -> Said {
    let files = [("a job", job), ("b", answer)];
    expected(&call(&["belongs", "a job", "b"], bytes(WORKED), &files))
}

#[test]
fn answers_belong() {
    let mut changed = ANSWER.to_vec();
    changed[19] ^= 0x40; // the point's first number
    for (job, answer, right) in [
        (WORKED, NONE, "yes\n"),
        (N32, ANSWER, "yes\n"),
        (N32, NONE, "yes\n"), // its own point is not feasible
        (N32, &changed, "no\n"),
    ] {
        assert_eq!(
            belongs(bytes(job), bytes(answer)),
            said(right.as_bytes(), "")
        );
    }
}

/// The job's refusals come first, and each file's length before its contents.
#[test]
fn files_are_refused() {
    let long = [0x7F; 65_537];
    for (job, answer, err) in [
        (bytes(N16), bytes(ANSWER), "refused 2 9 answer\n"),
        (bytes(N32), bytes(&[]), "refused 10 0 answer\n"),
        (
            bytes(N32),
            bytes(&[0x20, 1, 0, 2, 0x21, 2, 0, 0, 0]),
            "refused 12 0 answer\n",
        ),
        (bytes(N32), bytes(&long[1..]), "refused 8 0 answer\n"),
        (bytes(N32), bytes(&long), "refused 11 65536 answer\n"),
        (bytes(&long), bytes(&long), "refused 11 65536 job\n"),
        (bytes(ANSWER), bytes(N32), "refused 8 0 job\n"),
        (bytes(&WORKED[..2]), Held::Missing, "refused 7 0 job\n"),
        (
            bytes(WORKED),
            Held::Missing,
            "b: No such file or directory\n",
        ),
        (bytes(WORKED), Held::Directory, "b: Is a directory\n"),
        (
            Held::Missing,
            Held::Directory,
            "a job: No such file or directory\n",
        ),
        (Held::Directory, bytes(&[]), "a job: Is a directory\n"),
    ] {
        assert_eq!(belongs(job, answer), said(b"", err));
    }
}

#[test]
fn wrong_words_have_the_usage() {
    for words in [
        &[][..],
        &[""],
        &["Answer"],
        &["answer", "x"],
        &["belongs"],
        &["belongs", "a"],
        &["belongs", "a", "b", "c"],
        &["file", ""],
        &["file", "-"],
        &["file", "-", "-", "-"],
        &["File"],
        &["limits"],
        &["limits", "-"],
        &["limits", "-", "-"],
        &["limits", "-", "-", "-", "-"],
        &["Limits", "-", "-", "-"],
    ] {
        assert_eq!(expected(&call(words, bytes(WORKED), &[])), said(b"", USAGE));
    }
}

/// Only what would be written fails.
#[test]
fn no_space_is_left() {
    let full = |words: &[&str], input| {
        let full = true;
        expected(&Call {
            full,
            ..call(words, input, &[("job", bytes(WORKED)), ("b", bytes(NONE))])
        })
    };
    let failed = said(b"", "standard output: No space left on device\n");
    assert_eq!(full(&["answer"], bytes(WORKED)), failed);
    assert_eq!(full(&["file"], bytes(WORKED)), failed);
    assert_eq!(full(&["limits", "-", "-", "-"], bytes(WORKED)), failed);
    assert_eq!(full(&["file"], bytes(&[])), said(b"", "refused 10 0\n"));
    assert_eq!(full(&["belongs", "job", "b"], bytes(&[])), failed);
    assert_eq!(full(&["answer"], bytes(&[])), said(b"", "refused 10 0\n"));
    assert_eq!(full(&["b"], bytes(&[])), said(b"", USAGE));
}

/// Each refusal that a file can meet, each reason and each answer is to be said in a comparison.
#[test]
fn calls_meet_everything() {
    let mut calls = Calls::new(7, None);
    let mut met: BTreeMap<String, u64> = BTreeMap::new();
    for _ in 0..20_000 {
        *met.entry(in_short(&expected(&calls.next()))).or_default() += 1;
    }
    let of_job = [1, 2, 3, 4, 7, 8, 9, 10, 11];
    let of_answer = [2, 7, 8, 9, 10, 11, 12];
    let mut right: Vec<String> = of_job.iter().map(|no| format!("refused {no:>2}")).collect();
    right.extend(of_job.iter().map(|no| format!("refused {no:>2}, job")));
    right.extend(
        of_answer
            .iter()
            .map(|no| format!("refused {no:>2}, answer")),
    );
    right.extend((0..2).map(|found| format!("an answer record, outcome {found}")));
    for text in [
        "a job record",
        "yes",
        "no",
        "usage",
        "No space left on device",
        "Is a directory",
    ] {
        right.push(text.into());
    }
    for text in [
        "No such file or directory",
        "Not a directory",
        "File name too long",
        "the name is not UTF-8",
    ] {
        right.push(text.into());
    }
    right.sort();
    assert_eq!(
        met.keys().collect::<Vec<_>>(),
        right.iter().collect::<Vec<_>>()
    );
    assert!(met.values().all(|&times| times >= 5), "{met:?}");
}

/// One byte, one line feed or the status is enough to differ; the differing calls are kept.
#[test]
fn differences_are_found() {
    let folder = Folder::new("differences").unwrap();
    let kept = folder.place(0);
    let differs = |spoil: fn(&mut Said)| {
        let ask = |_: usize, call: &Call| {
            let mut said = expected(call);
            spoil(&mut said);
            Ok(said)
        };
        let mut text = Vec::new();
        let calls = Calls::new(3, None);
        let same = compare_with(&ask, calls, (3, 60), &kept, &mut text).unwrap();
        (same, String::from_utf8(text).unwrap())
    };
    let (same, text) = differs(|_| {});
    assert!(same && text.ends_with("\n60 agree, 0 differ\n"), "{text}");
    assert_eq!(fs::read_dir(&kept).unwrap().count(), 1); // its own folder
    for spoil in [
        |said: &mut Said| said.status = Some(1),
        |said: &mut Said| said.err.push(b'\n'),
        |said: &mut Said| said.out.push(0),
    ] {
        let (same, text) = differs(spoil);
        assert!(!same && text.ends_with("\n0 agree, 60 differ\n"), "{text}");
        assert!(text.contains("first difference of belongs, "), "{text}");
    }
    assert!(fs::read_dir(&kept).unwrap().count() > 10);
}

/// `cat` shows that standard input, files and their failures are what a call says.
#[test]
fn calls_reach_a_program() {
    let folder = Folder::new("reached").unwrap();
    let cat = |call: &Call| asked(Path::new("/bin/cat"), &folder.place(1), call).unwrap();
    for by in [By::Pipe, By::SlowPipe, By::File] {
        let said = cat(&Call {
            by,
            ..call(&[], bytes(N32), &[])
        });
        assert!(said.out == N32 && said.status == Some(0));
    }
    let files = [("job", bytes(N32)), ("folder/b", bytes(ANSWER))];
    let said = cat(&call(&["job", "folder/b"], bytes(&[]), &files));
    assert!(said.out == [N32, ANSWER].concat());
    for (name, held) in [
        ("job", Held::Missing),
        ("folder", Held::Directory),
        ("file/job", Held::Behind),
        (&*"n".repeat(256), Held::LongName),
    ] {
        let said = cat(&call(&[name], bytes(&[]), &[(name, held.clone())]));
        let right = belongs(held, bytes(&[])).err;
        assert!(
            said.out.is_empty() && said.err.ends_with(&right[5..]),
            "{said:?}"
        );
    }
    let full = true;
    let said = cat(&Call {
        full,
        ..call(&[], bytes(N32), &[])
    });
    assert!(
        said.err.ends_with(b": No space left on device\n"),
        "{said:?}"
    );
    let said = cat(&call(&[], Held::Directory, &[]));
    assert!(said.err.ends_with(b": Is a directory\n"), "{said:?}");
}
