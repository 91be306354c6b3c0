//! The scope's known values of this layer.

use crate::drivers::filterrun::text;
use crate::drivers::fixed::{fixed, worked_job};
use crate::lists::Case;

#[test]
fn worked_job_has_its_text() {
    let bytes = worked_job().record().bytes();
    assert_eq!(bytes.len(), 145);
    let right = "0 pass 0 under 3FF0000000000000 4000000000000000 NoSoln\nnone 0\n";
    assert_eq!(text(&bytes), right);
}

/// The fixed cases whose first output word is the number, or all where there is none.
fn numbers(op: u64) -> Vec<u64> {
    let of_op = |case: &Case| case.op == op;
    let mut numbers: Vec<u64> = (fixed().iter().filter(|case| of_op(case)))
        .map(|case| case.output[0])
        .collect();
    numbers.sort();
    numbers.dedup();
    numbers
}

#[test]
fn fixed_cases_have_every_refusal() {
    assert_eq!(fixed().len(), 586); // as docs/LISTS.md says
    assert_eq!(numbers(71), [0, 6]);
    assert_eq!(numbers(140), [0, 1, 2, 3, 4, 11]);
    assert_eq!(numbers(141), [0, 1, 2, 3, 4, 6, 11]);
    assert_eq!(numbers(150), [0, 1, 2, 3, 4, 7, 8, 9, 10, 11]);
    assert_eq!(numbers(151), [0, 1, 2, 7, 8, 9, 10, 11, 12]);
    assert_eq!(numbers(152), [0, 1, 2, 11]);
    assert_eq!(numbers(153), [0, 1, 2, 3, 4]);
    assert_eq!(numbers(155), [0, 1, 2, 3, 4, 11]);
    assert_eq!(numbers(162), [0, 1, 2, 3, 4, 7, 8, 9, 10]);
}

#[test]
fn refusals_have_their_text() {
    for (bytes, right) in [
        (&[][..], "refused 10 0\n"),
        (&[0x01, 0x02], "refused 7 0\n"),
        (&[0x7F, 0x00, 0x00], "refused 8 0\n"),
        (&[0x01, 1, 0, 2, 0x01], "refused 7 4\n"),
        (&[0x01, 1, 0, 2, 0x01, 9, 9], "refused 9 4\n"),
        (&[0x01, 1, 0, 2, 0x02, 9, 9], "refused 7 4\n"),
        (&[0x7F; 65_536], "refused 8 0\n"),
        (&[0x7F; 65_537], "refused 11 65536\n"),
    ] {
        assert_eq!(text(bytes), right);
    }
}

#[test]
fn examples_have_their_texts() {
    macro_rules! example {
        ($name:literal) => {
            (
                &include_bytes!(concat!("../../../../examples/", $name, ".job"))[..],
                include_str!(concat!("../../../../examples/", $name, ".out")),
            )
        };
    }
    for (job, right) in [example!("worked"), example!("n16"), example!("n32")] {
        assert_eq!(text(job), right);
    }
}

/// The gate's program of many steps runs on the example.
#[test]
fn program_has_the_example() {
    let job = include_bytes!("../../../../examples/n32.job");
    assert!(include_bytes!("../../../../crates/filterrun_n32/stdin")[..] == job[..]);
    let text = include_str!("../../../../examples/n32.out");
    assert_eq!(
        include_str!("../../../../crates/filterrun_n32/stdout"),
        text
    );
}
