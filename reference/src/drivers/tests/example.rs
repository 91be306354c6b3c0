//! The jobs of real filters, and the options that ask for them.

use crate::drivers::example::{filter, write, Lowpass};
use crate::drivers::filterrun::{text, LONGEST};
use crate::drivers::job::rows_in;
use std::fs;

fn written(args: &str) -> Result<Vec<u8>, String> {
    let args: Vec<&str> = args.split_whitespace().collect();
    let mut bytes = Vec::new();
    let done = write(&args, &mut bytes);
    done.map(|_| bytes).map_err(|refused| refused.to_string())
}

#[test]
fn every_default_is_found() {
    for n in 2..=32 {
        let bytes = written(&format!("--n {n}")).unwrap();
        assert!(bytes.len() <= LONGEST, "n {n}: {} bytes", bytes.len());
        let text = text(&bytes);
        let last = text.lines().last().unwrap();
        assert!(last.starts_with("found "), "n {n}: {last}");
    }
}

#[test]
fn rows_are_as_many_as_fit() {
    for n in 2..=32 {
        let most = rows_in(LONGEST, n);
        let of_rows = |rows| {
            Lowpass {
                rows,
                ..Lowpass::of(n)
            }
            .job()
            .record()
            .bytes()
            .len()
        };
        assert!(
            of_rows(most) <= LONGEST && LONGEST < of_rows(most + 1),
            "n {n}"
        );
        let asked = format!("--n {n} --rows {}", most + 1);
        if most < 1024 {
            let refused = written(&asked).unwrap_err();
            assert!(refused.ends_with(&format!(" {most} rows")), "{refused}");
        }
        assert_eq!(
            filter(&["--n", &n.to_string()]).unwrap().rows,
            most.min(15 * n)
        );
    }
}

/// Each is refused with these words in front.
fn refused(cases: &[(&str, &str)]) {
    for (args, right) in cases {
        let refused = written(args).unwrap_err();
        assert!(refused.starts_with(right), "{args}: {refused}");
    }
}

#[test]
fn whole_numbers_are_whole_and_in_range() {
    refused(&[
        ("--n 1", "--n 1: a whole number from 2 to 32"),
        ("--n 33", "--n 33: a whole number from 2 to 32"),
        ("--n 4.0", "--n 4.0: a whole number from 2 to 32"),
        (
            "--n 4 --rows 30.9",
            "--rows 30.9: a whole number from 2 to 1024",
        ),
        ("--n 4 --rows 1", "--rows 1: a whole number from 2 to 1024"),
        (
            "--n 4 --rows 1025",
            "--rows 1025: a whole number from 2 to 1024",
        ),
        (
            "--n 4 --rows -5",
            "--rows -5: a whole number from 2 to 1024",
        ),
        (
            "--n 4 --steps 65536",
            "--steps 65536: a whole number from 0 to 65535",
        ),
        (
            "--n 4 --steps 1e3",
            "--steps 1e3: a whole number from 0 to 65535",
        ),
    ]);
}

/// In any order of the options, and against the default where one is not given.
#[test]
fn bands_follow_each_other() {
    let between = |wpass, wstop| {
        format!("--wpass {wpass} and --wstop {wstop}: 0 <= wpass < wstop < 1 is needed")
    };
    for (args, wpass, wstop) in [
        ("--wpass 0.3 --n 4 --wstop 0.2", "0.3", "0.2"),
        ("--wstop 0.2 --wpass 0.2 --n 4", "0.2", "0.2"),
        ("--n 4 --wpass 0.9", "0.9", "0.76"),
        ("--n 4 --wstop 0.1", "0.12", "0.1"),
        ("--n 4 --wstop 1", "0.12", "1"),
        ("--n 4 --wpass -0.1", "-0.1", "0.76"),
        ("--n 4 --wpass -inf", "-inf", "0.76"),
        ("--n 4 --wstop inf", "0.12", "inf"),
    ] {
        assert_eq!(written(args).unwrap_err(), between(wpass, wstop));
    }
}

#[test]
fn numbers_are_numbers() {
    refused(&[
        ("--n 4 --wpass NaN", "--wpass NaN: a number"),
        ("--n 4 --wstop nan", "--wstop nan: a number"),
        ("--n 4 --lp x", "--lp x: a number"),
        ("--n 4 --up 1,05", "--up 1,05: a number"),
        ("--n 4 --sp nan", "--sp nan: a number"),
        ("--n 4 --kappa 0x4", "--kappa 0x4: a number"),
        ("--n 4 --tolerance -", "--tolerance -: a number"),
    ]);
}

#[test]
fn options_stand_once_with_a_value() {
    refused(&[
        ("", "--n is missing"),
        ("--rows 30", "--n is missing"),
        ("--n 4 --sp 0.1 --sp 0.1", "--sp 0.1: given twice"),
        ("--n 4 --n 4", "--n 4: given twice"),
        ("--n 4 --rows", "--rows: its value is missing"),
        ("--n 4 --row 30", "--row: no such option"),
        ("4 --rows", "4: no such option"),
    ]);
}

/// The ends of every range are taken, and the borders stay on the table.
#[test]
fn ends_of_the_ranges_are_taken() {
    for args in [
        "--n 2 --rows 2 --sp 1",
        "--n 2 --rows 1024 --steps 0",
        "--n 32 --steps 65535 --sp inf",
        "--wpass 0 --wstop 5e-324 --n 3",
        "--wstop 0.9999999999999999 --wpass 0.9999999999999998 --n 3 --rows 1024",
        "--wstop 0.9999999999999999 --n 5",
    ] {
        let text = text(&written(args).unwrap());
        assert!(!text.starts_with("refused"), "{args}: {text}");
    }
}

/// The cosines are those of the library at hand, which this test would show.
#[test]
fn kept_examples_are_what_their_commands_give() {
    let page = fs::read_to_string("../examples/README.md").unwrap();
    let mut met = 0;
    for line in page.lines() {
        let Some(command) = line.strip_prefix("target/release/reference example lowpass ") else {
            continue;
        };
        let (args, file) = command.split_once(" > ").unwrap();
        assert!(written(args).unwrap() == fs::read(file).unwrap(), "{line}");
        met += 1;
    }
    assert_eq!(met, 2);
}
