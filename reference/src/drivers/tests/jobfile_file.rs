//! What `jobfile file` and `jobfile limits` are to write, and whether a comparison sees what differs.

use super::jobfile::{are_refused, bytes, call, said, N16, N32, USAGE, WORKED};
use crate::drivers::job::{read_job, AMPLE};
use crate::drivers::jobfile::ask::Folder;
use crate::drivers::jobfile::calls::{draw_of, Calls};
use crate::drivers::jobfile::compare::compare_with;
use crate::drivers::jobfile::{expected, Call, Held, Said};
use std::collections::BTreeMap;

/// The fields of the worked job, the last one first.
fn backwards() -> Vec<u8> {
    let lengths = [5, 7, 27, 19, 19, 9, 11, 35, 13];
    let mut end = WORKED.len();
    let fields = lengths.iter().rev().map(|len| {
        end -= len;
        WORKED[end..end + len].to_vec()
    });
    fields.collect::<Vec<_>>().concat()
}

#[test]
fn jobs_are_filed() {
    let file = |input| expected(&call(&["file"], input, &[]));
    for job in [WORKED, N16, N32] {
        assert!(file(bytes(job)) == said(job, ""));
    }
    assert_eq!(file(bytes(&backwards())), said(WORKED, ""));
    are_refused(file);
    let mut job = WORKED.to_vec();
    job[15..23].copy_from_slice(&0xFFF0_0000_0000_0001u64.to_le_bytes()); // lp_sq
    let said = file(bytes(&job)).out;
    assert_eq!(said[15..23], 0x7FF8_0000_0000_0000u64.to_le_bytes());
    assert_eq!((&said[..15], &said[23..]), (&job[..15], &job[23..]));
}

/// What the gate's programs are given, and what they are to write.
#[test]
fn the_gates_records_are_filed() {
    macro_rules! file {
        ($of:literal, $name:literal) => {
            include_bytes!(concat!("../../../../crates/", $of, "/", $name))
        };
    }
    let are_filed = |args: &[u8], given: &[u8], written: &[u8]| {
        let args = std::str::from_utf8(args).unwrap();
        let words: Vec<&str> = args.lines().collect();
        assert_eq!(expected(&call(&words, bytes(given), &[])), said(written, ""));
        let again = expected(&call(&["file"], bytes(written), &[]));
        assert_eq!(again, said(written, ""));
    };
    are_filed(
        file!("jobfile_file", "args"),
        file!("jobfile_file", "stdin"),
        file!("jobfile_file", "stdout"),
    );
    are_filed(
        file!("jobfile_limits", "args"),
        file!("jobfile_limits", "stdin"),
        file!("jobfile_limits", "stdout"),
    );
}

#[test]
fn limits_are_put_in() {
    let limits = |words: [&str; 3], input: &[u8]| {
        let [lp, up, sp] = words;
        expected(&call(&["limits", lp, up, sp], bytes(input), &[]))
    };
    assert_eq!(limits(["-"; 3], &backwards()), said(WORKED, ""));
    are_refused(|input| expected(&call(&["limits", "-", "-", "-"], input, &[])));
    let of = |words| read_job(&limits(words, WORKED).out, AMPLE).unwrap().limits;
    assert_eq!(of(["3FE0000000000000", "-", "-"]), [0.5, 2.0, 1.0]);
    assert_eq!(of(["-", "4008000000000000", "-"]), [1.0, 3.0, 1.0]);
    assert_eq!(of(["-", "-", "8000000000000000"]), [1.0, 2.0, -0.0]);
    assert!(of(["-", "-", "8000000000000000"])[2].is_sign_negative());
    let word = "3fEdCbA987654321";
    let right = f64::from_bits(0x3FED_CBA9_8765_4321);
    assert_eq!(
        of([word, "7ff0000000000000", word]),
        [right, f64::INFINITY, right]
    );
    for nan in ["7ff8000000000000", "fff0000000000001", "7FFFFFFFFFFFFFFF"] {
        let [lp, up, sp] = of(["-", nan, "-"]);
        assert_eq!((lp, up.to_bits(), sp), (1.0, 0x7FF8_0000_0000_0000, 1.0));
    }
}

/// A word is `-` or 16 digits; nothing is read before that is seen.
#[test]
fn wrong_limits_have_the_usage() {
    for word in [
        "",
        "3FE000000000000",
        "3FE00000000000000",
        "3FE000000000000g",
        "G000000000000000",
        "+FE0000000000000",
        "-FE0000000000000",
        " FE0000000000000",
        "3FE000000000000 ",
        "0x3FE00000000000",
        "3FE0000000/00000",
        "3FE0000000:00000",
        "3FE0000000@00000",
        "3FE0000000`00000",
        "--",
        "-0",
        "- ",
        " -",
        "0.5",
    ] {
        for at in 1..4 {
            let mut words = ["limits", "-", "3FE0000000000000", "-"];
            words[at] = word;
            let said_of = expected(&call(&words, Held::Directory, &[]));
            assert_eq!(said_of, said(b"", USAGE), "{words:?}");
        }
    }
}

/// What is written has to be the job, and to come back.
#[test]
fn filed_jobs_come_back() {
    let folder = Folder::new("back").unwrap();
    let counts = |spoil: fn(&Call, &mut Said)| {
        let ask = |_: usize, call: &Call| {
            let mut said = expected(call);
            spoil(call, &mut said);
            Ok(said)
        };
        let calls = Calls::new(3, Some(draw_of("file").unwrap()));
        let mut text = Vec::new();
        let same = compare_with(&ask, calls, (3, 60), &folder.place(0), &mut text).unwrap();
        (same, String::from_utf8(text).unwrap())
    };
    let (same, text) = counts(|_, _| {});
    assert!(same && text.ends_with("\n60 agree, 0 differ\n"), "{text}");
    let (same, text) = counts(|call, said| {
        if call.kind == "there and back" {
            said.err.push(b'\n');
        }
    });
    assert!(!same && text.contains("does not come back"), "{text}");
    let (same, text) = counts(|_, said| {
        if let Some(last) = said.out.last_mut() {
            *last ^= 0x80; // the tolerance's sign
        }
    });
    assert!(!same && text.contains("is not the job"), "{text}");
    assert!(draw_of("files").is_err());
}

/// Each kind of word, right and wrong, is common.
#[test]
fn words_of_limits_are_common() {
    let mut calls = Calls::new(5, Some(draw_of("limits").unwrap()));
    let mut met: BTreeMap<String, u64> = BTreeMap::new();
    for _ in 0..4000 {
        let call = calls.next();
        assert!(call.words[0] == b"limits");
        let wrong = expected(&call).err == USAGE.as_bytes();
        assert_eq!(wrong, call.kind == "limits, wrong words");
        let count = call.words.len();
        *met.entry(format!("{count} words")).or_default() += 1;
        for word in &call.words[1..] {
            *met.entry(kind_of(word).into()).or_default() += 1;
        }
    }
    for kind in ["-", "a dash and more", "upper", "lower", "mixed", "a NaN"] {
        assert!(met[kind] > 20, "{met:?}");
    }
    for kind in ["none", "15 digits", "17 digits", "16, and one is no digit"] {
        assert!(met[kind] > 20, "{met:?}");
    }
    assert!(
        (1..=5).all(|count| met[&format!("{count} words")] > 20),
        "{met:?}"
    );
}

fn kind_of(word: &[u8]) -> &'static str {
    let digits = word.iter().all(u8::is_ascii_hexdigit);
    let (lower, upper) = (
        word.iter().any(u8::is_ascii_lowercase),
        word.iter().any(u8::is_ascii_uppercase),
    );
    match (word, word.len()) {
        (b"", _) => "none",
        (b"-", _) => "-",
        ([b'-', ..], 2 | 17) => "a dash and more",
        (_, 15) if digits => "15 digits",
        (_, 17) if digits => "17 digits",
        (_, 16) if !digits => "16, and one is no digit",
        ([b'7' | b'F' | b'f', b'F' | b'f', b'F' | b'f', _, ..], 16) => "a NaN",
        (_, 16) if lower && upper => "mixed",
        (_, 16) if lower => "lower",
        (_, 16) => "upper",
        _ => "another",
    }
}
