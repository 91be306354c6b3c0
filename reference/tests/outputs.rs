//! What the program does when its output has no space left, or when the reader has had enough.

use std::fs::File;
use std::process::{Command, Output, Stdio};

const JOB: &str = "../examples/n32.job";
const LIST: &str = "../crates/numbers_vectors/stdin";

fn program(words: &str, input: &str) -> Command {
    let mut command = Command::new(env!("CARGO_BIN_EXE_reference"));
    command.args(words.split_whitespace());
    command.stdin(File::open(input).unwrap());
    command
}

fn with_full_output(words: &str, input: &str) -> Output {
    let full = File::options().write(true).open("/dev/full").unwrap();
    program(words, input).stdout(full).output().unwrap()
}

#[test]
fn a_full_output_is_a_failure() {
    for (words, input) in [
        ("filterrun", JOB),
        ("filterrun", "/dev/null"),
        ("answer", JOB),
        ("answer", "../examples/worked.job"),
        ("job-to-text", JOB),
        ("job-from-text", "../examples/worked.txt"),
        ("example lowpass --n 4", "/dev/null"),
        ("gen numbers --seed 1 --count 1", "/dev/null"),
        ("gate drivers", "/dev/null"),
        ("count", LIST),
        ("show", LIST),
        ("check-sqrt", LIST),
        (
            "compare-jobfile --program /bin/true --seed 1 --count 0",
            "/dev/null",
        ),
        (
            "compare-runs --program /bin/true --seed 1 --count 0",
            "/dev/null",
        ),
    ] {
        let output = with_full_output(words, input);
        let said = String::from_utf8(output.stderr).unwrap();
        let right = "standard output: No space left on device";
        assert!(
            said.starts_with(right) && !output.status.success(),
            "{words}: {said}"
        );
    }
}

/// A refused job has nothing to write, and is a failure of its own.
#[test]
fn a_refusal_needs_no_output() {
    let output = with_full_output("answer", "/dev/null");
    assert_eq!(output.stderr, b"refused 10 0\n");
    assert!(!output.status.success());
}

#[test]
fn a_reader_that_has_had_enough_is_none() {
    for words in ["gate drivers", "gen oracles --seed 1 --count 2000"] {
        let mut command = program(words, "/dev/null");
        command.stdout(Stdio::piped()).stderr(Stdio::piped());
        let mut child = command.spawn().unwrap();
        drop(child.stdout.take());
        let output = child.wait_with_output().unwrap();
        assert!(
            output.status.success() && output.stderr.is_empty(),
            "{words}"
        );
    }
}
