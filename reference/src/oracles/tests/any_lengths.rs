//! Operations 110 to 114: every reason to refuse is met alone, and together with a later one.
//! The reasons are taken from the words, apart from the generator's own tests.

use crate::lists::{Case, ABSENT};
use crate::testing::{must_be_common, Any, Reader, Relation};

fn signed3(from: &mut Reader) -> [i64; 3] {
    [(); 3].map(|_| from.signed() as i64)
}

fn band(seen: &mut Any, lo: i64, hi: i64) {
    seen.test(3, "lo below 0", lo < 0);
    seen.test(3, "hi above 1,024", hi > 1024);
    seen.test(3, "lo above hi", lo > hi);
}

fn place(seen: &mut Any, cur: i64, lo: i64, hi: i64) {
    seen.test(4, "cur below", cur < lo - 1);
    seen.test(4, "cur above", cur > hi - 1);
}

fn read_advance(case: &Case) -> Any {
    let mut seen = Any::new();
    let [cur, lo, hi] = signed3(&mut Reader(&case.input));
    band(&mut seen, lo, hi);
    seen.test(3, "empty", lo == hi);
    place(&mut seen, cur, lo, hi);
    let mut to = Reader(&case.output);
    assert_eq!((case.input.len(), to.word()), (3, seen.number()));
    seen.keep(&case.input[..1]);
    seen.end(to);
    seen
}

fn read_new_range(case: &Case) -> Any {
    let mut seen = Any::new();
    let mut from = Reader(&case.input);
    let (lo, hi) = (from.signed() as i64, from.signed() as i64);
    from.end();
    band(&mut seen, lo, hi);
    let right = match seen.number() {
        0 => vec![0, (lo - 1) as u64, lo as u64, hi as u64],
        no => vec![no, 0, 0, 0],
    };
    assert_eq!(case.output, right);
    seen
}

#[test]
fn cursor_refusals_are_common() {
    let relations: &[Relation<Any>] = &[
        ("accepted", 4, Any::accepted),
        ("only lo below 0", 100, |s| s.only("lo below 0")),
        ("only hi above 1,024", 100, |s| s.only("hi above 1,024")),
        ("only empty", 20, |s| s.only("empty")),
        ("lo above hi", 50, |s| s.has("lo above hi")),
        ("only cur below", 20, |s| s.only("cur below")),
        ("only cur above", 20, |s| s.only("cur above")),
        ("3 before 4", 20, |s| s.order(3, 4)),
    ];
    must_be_common(110, 20_000, read_advance, relations);
    let relations: &[Relation<Any>] = &[
        ("accepted", 4, Any::accepted),
        ("only lo below 0", 20, |s| s.only("lo below 0")),
        ("only hi above 1,024", 20, |s| s.only("hi above 1,024")),
        ("only lo above hi", 20, |s| s.only("lo above hi")),
    ];
    must_be_common(111, 20_000, read_new_range, relations);
}

fn table_sizes(seen: &mut Any, n: u64, rows: u64, lens: &[u64]) {
    let product = rows as u128 * n as u128;
    seen.test(1, "n", !(2..=32).contains(&n));
    let right = [("table", product), ("x", n as u128), ("grad", n as u128)];
    seen.lengths(lens, &right);
    let wraps = lens[0] as u128 != product && lens[0] == rows.wrapping_mul(n);
    seen.test(2, "the product wraps", wraps);
    let halved = lens[0] == (rows as u32 as u64).wrapping_mul(n);
    seen.test(2, "rows lose a half", rows >> 32 != 0 && halved);
    seen.test(3, "no rows", rows == 0);
    seen.test(3, "too many rows", rows > 1024);
}

fn read_scan(case: &Case) -> Any {
    let mut seen = Any::new();
    let mut from = Reader(&case.input);
    let [n, rows, lt, lx] = [(); 4].map(|_| from.word());
    let [cur, lo, hi] = signed3(&mut from);
    from.words(2 + lt as usize + lx as usize);
    from.end();
    table_sizes(&mut seen, n, rows, &[lt, lx]);
    band(&mut seen, lo, hi);
    seen.test(3, "hi above the rows", hi as i128 > rows as i128);
    place(&mut seen, cur, lo, hi);
    let mut to = Reader(&case.output);
    assert_eq!(to.word(), seen.number());
    if seen.accepted() {
        let found: Vec<bool> = to.words(3).iter().map(|&w| w != ABSENT).collect();
        assert!(found == [true; 3] || found == [false; 3]);
        to.words(3);
    }
    seen.keep(&[cur as u64]);
    seen.end(to);
    seen
}

const TABLES: &[Relation<Any>] = &[
    ("accepted", 4, Any::accepted),
    ("n", 30, |s| s.number() == 1),
    ("only n", 150, |s| s.only("n")),
    ("only the table's length", 50, |s| s.only("table")),
    ("only x's length", 50, |s| s.only("x")),
    ("the product wraps", 500, |s| {
        s.number() == 2 && s.has("the product wraps")
    }),
    ("rows lose a half", 500, |s| {
        s.number() == 2 && s.has("rows lose a half")
    }),
    ("no rows, the table fits", 500, |s| {
        s.number() == 3 && s.has("no rows")
    }),
    ("too many rows, the table fits", 500, |s| {
        s.number() == 3 && s.has("too many rows")
    }),
    ("only cur below", 100, |s| s.only("cur below")),
    ("only cur above", 100, |s| s.only("cur above")),
    ("1 before 2", 30, |s| s.order(1, 2)),
    ("1 before 3", 300, |s| s.order(1, 3)),
    ("2 before 3", 100, |s| s.order(2, 3)),
    ("2 before 4", 100, |s| s.order(2, 4)),
    ("3 before 4", 100, |s| s.order(3, 4)),
];

#[test]
fn scan_refusals_are_common() {
    must_be_common(112, 50_000, read_scan, TABLES);
    let relations: &[Relation<Any>] = &[
        ("only lo below 0", 400, |s| s.only("lo below 0")),
        ("only hi above the rows", 100, |s| {
            s.only("hi above the rows")
        }),
        ("lo above hi", 200, |s| {
            s.number() == 3 && s.has("lo above hi")
        }),
    ];
    must_be_common(112, 50_000, read_scan, relations);
}

fn read_lowpass(case: &Case) -> Any {
    let optim = case.op == 114;
    let mut seen = Any::new();
    let mut from = Reader(&case.input);
    let [n, rows, lt, lx, lg] = [(); 5].map(|_| from.word());
    let [nwpass, nwstop] = [(); 2].map(|_| from.signed() as i64);
    let limits = from.words(3);
    let cursors = [(); 3].map(|_| signed3(&mut from));
    let rest = from.words(6);
    let gamma = from.words(optim as usize);
    from.words((lt + lx) as usize);
    let grad = from.words(lg as usize);
    from.end();
    table_sizes(&mut seen, n, rows, &[lt, lx, lg]);
    seen.test(3, "nwpass below 0", nwpass < 0);
    seen.test(3, "nwpass above nwstop", nwpass > nwstop);
    let past = nwstop as i128 > rows as i128;
    seen.test(3, "nwstop above the rows", past);
    let own = [(0, nwpass), (nwpass, nwstop), (nwstop, rows as i64)];
    let names = ["pass cursor", "middle cursor", "stop cursor"];
    for ((name, own), [cur, lo, hi]) in names.into_iter().zip(own).zip(cursors) {
        seen.test(3, name, own != (lo, hi));
        place(&mut seen, cur, lo, hi);
    }
    seen.keep(gamma);
    seen.keep(grad);
    seen.keep(&cursors.map(|c| c[0] as u64));
    seen.keep(rest);
    seen.keep(&limits[2..]);
    cursors
        .iter()
        .for_each(|c| seen.keep(&[c[1] as u64, c[2] as u64]));
    let mut to = Reader(&case.output);
    let no = to.word();
    if seen.accepted() && no == 6 {
        seen.test(6, "no peak", true);
    } else if seen.accepted() {
        let words = [0, 5, 2][to.count()];
        to.words(words);
    }
    assert_eq!(no, seen.number());
    seen.end(to);
    seen
}

const LOWPASS: &[Relation<Any>] = &[
    ("only grad's length", 100, |s| s.only("grad")),
    ("only nwpass below 0", 1000, |s| {
        s.has("nwpass below 0") && !s.has("pass cursor") && s.number() == 3
    }),
    ("only nwpass above nwstop", 500, |s| {
        s.has("nwpass above nwstop") && !s.has("middle cursor") && s.number() == 3
    }),
    ("only nwstop above the rows", 500, |s| {
        s.has("nwstop above the rows") && !s.has("stop cursor") && s.number() == 3
    }),
    ("only the pass cursor", 300, |s| s.only("pass cursor")),
    ("only the middle cursor", 300, |s| s.only("middle cursor")),
    ("only the stop cursor", 300, |s| s.only("stop cursor")),
];

#[test]
fn lowpass_refusals_are_common() {
    for op in [113, 114] {
        must_be_common(op, 50_000, read_lowpass, TABLES);
        must_be_common(op, 50_000, read_lowpass, LOWPASS);
    }
    let relations: &[Relation<Any>] = &[("6", 20, |s| s.only("no peak"))];
    must_be_common(114, 50_000, read_lowpass, relations);
}
