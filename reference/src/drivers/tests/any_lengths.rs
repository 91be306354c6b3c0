//! Operations 140, 141 and 153: every reason to refuse is met alone, and beside a later one. The
//! reasons are taken from the words, apart from the generator's own tests.

use crate::lists::Case;
use crate::testing::{must_be_common, Any, Reader, Relation};

/// The sizes, with the lengths of the slices by name; `room` is an output's.
fn sizes(seen: &mut Any, from: &mut Reader, names: &[&'static str], room: bool) -> Vec<u64> {
    let [n, rows] = [(); 2].map(|_| from.word());
    let mut lens = from.words(names.len()).to_vec();
    seen.test(1, "n", !(2..=32).contains(&n));
    let (n, all) = (n as u128, rows as u128);
    for (&len, &name) in lens.iter().zip(names) {
        let right = match name {
            "table" => n * all,
            "mq" => n * n,
            _ => n,
        };
        seen.test(2, name, len as u128 != right);
    }
    if room {
        lens.push(from.word());
        seen.test(11, "best", (*lens.last().unwrap() as u128) < n);
    }
    bands(seen, from, rows);
    lens
}

/// Bands, limits and cursors, to the end of the oracle's state.
fn bands(seen: &mut Any, from: &mut Reader, rows: u64) {
    let [nwpass, nwstop] = [(); 2].map(|_| from.signed() as i64);
    from.words(3);
    seen.test(3, "rows", !(1..=1024).contains(&rows));
    let sorted = 0 <= nwpass && nwpass <= nwstop && nwstop as i128 <= rows as i128;
    seen.test(3, "borders", !sorted);
    for own in [(0, nwpass), (nwpass, nwstop), (nwstop, rows as i64)] {
        let [cur, lo, hi] = [(); 3].map(|_| from.signed() as i64);
        seen.test(3, "a cursor's band", own != (lo, hi));
        seen.test(4, "a cursor's place", cur < lo - 1 || cur > hi - 1);
    }
    from.words(6);
}

fn read_run(case: &Case) -> Any {
    let mut seen = Any::new();
    let mut from = Reader(&case.input);
    let names = ["table", "xc", "mq", "grad", "grad_t"];
    let lens = sizes(&mut seen, &mut from, &names, true);
    from.words(4 + (case.op == 141) as usize);
    let slices: Vec<&[u64]> = lens.iter().map(|&len| from.words(len as usize)).collect();
    from.end();
    let number = case.output[0];
    if seen.accepted() && number == 6 {
        seen.test(6, "halted", true);
        return seen;
    }
    assert_eq!(number, seen.number());
    if !seen.accepted() {
        // A refused call leaves everything as it came.
        let mut to = Reader(&case.output[1 + (case.op == 141) as usize..]);
        for part in [slices[5], slices[1], slices[2], slices[3], slices[4]] {
            assert_eq!(to.words(part.len()), part);
        }
        to.words(10);
        // The cursors' lo and hi; the cursors stand from word 13 on.
        let bands = [14, 15, 17, 18, 20, 21].map(|k| case.input[k]);
        assert_eq!(to.words(6), bands);
        assert!(number != 1 || to.words(2) == [0, 0]);
    }
    seen
}

fn read_belongs(case: &Case) -> Any {
    let mut seen = Any::new();
    let mut from = Reader(&case.input);
    let names = ["table", "x", "point", "grad"];
    let lens = sizes(&mut seen, &mut from, &names, false);
    let found = from.word();
    let slices: Vec<&[u64]> = lens.iter().map(|&len| from.words(len as usize)).collect();
    from.end();
    assert_eq!(case.output[0], seen.number());
    let belongs = case.output[1];
    assert!(seen.accepted() || (belongs == 0 && case.output[2..] == *slices[3]));
    let kind = ["not none", "none", "not found", "found"][(2 * found + belongs) as usize];
    if seen.accepted() {
        seen.answer = Some(kind);
    }
    seen
}

const BOTH: &[Relation<Any>] = &[
    ("accepted", 3, Any::accepted),
    ("only n", 400, |s| s.only("n")),
    ("only the table's length", 150, |s| s.only("table")),
    ("only grad's length", 150, |s| s.only("grad")),
    ("only the rows", 2000, |s| s.has("rows") && s.number() == 3),
    ("only the borders", 200, |s| {
        s.has("borders") && s.number() == 3
    }),
    ("only a cursor's band", 150, |s| s.only("a cursor's band")),
    ("only a cursor's place", 50, |s| s.only("a cursor's place")),
    ("1 before 2", 100, |s| s.order(1, 2)),
    ("2 before 3", 200, |s| s.order(2, 3)),
    ("2 before 4", 200, |s| s.order(2, 4)),
    ("3 before 4", 200, |s| s.order(3, 4)),
];

#[test]
fn run_refusals_are_common() {
    let relations: &[Relation<Any>] = &[
        ("only xc's length", 150, |s| s.only("xc")),
        ("only mq's length", 100, |s| s.only("mq")),
        ("only grad_t's length", 100, |s| s.only("grad_t")),
        ("only best's length", 30, |s| s.only("best")),
        ("2 before 11", 200, |s| s.order(2, 11)),
        ("3 before 11", 200, |s| s.order(3, 11)),
        ("4 before 11", 200, |s| s.order(4, 11)),
    ];
    for op in [140, 141] {
        must_be_common(op, 20_000, read_run, BOTH);
        must_be_common(op, 20_000, read_run, relations);
    }
    let halted: &[Relation<Any>] = &[("halted", 20, |s| s.only("halted"))];
    must_be_common(141, 20_000, read_run, halted);
}

#[test]
fn belongs_refusals_are_common() {
    must_be_common(153, 20_000, read_belongs, BOTH);
    let relations: &[Relation<Any>] = &[
        ("only the point's length", 150, |s| s.only("point")),
        ("found", 5, |s| s.answer == Some("found")),
        ("not found", 40, |s| s.answer == Some("not found")),
        ("none", 5, |s| s.answer == Some("none")),
        ("not none", 40, |s| s.answer == Some("not none")),
    ];
    must_be_common(153, 20_000, read_belongs, relations);
}
