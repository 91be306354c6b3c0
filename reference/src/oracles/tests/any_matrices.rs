//! Operations 115 to 122, as `any_lengths` does it.

use crate::lists::Case;
use crate::testing::{must_be_common, Any, Reader, Relation};

fn read_factor(case: &Case) -> Any {
    let mut seen = Any::new();
    let mut from = Reader(&case.input);
    let [m, lm, ls] = [(); 3].map(|_| from.word());
    from.words(lm as usize);
    let storage = from.words(ls as usize);
    from.end();
    seen.test(1, "m", !(1..=32).contains(&m));
    let square = m as u128 * m as u128;
    seen.lengths(&[lm, ls], &[("mat", square), ("storage", square)]);
    let mut to = Reader(&case.output);
    assert_eq!(to.word(), seen.number());
    if seen.accepted() {
        to.words(3);
    }
    seen.keep(storage);
    seen.end(to);
    seen
}

fn read_positions(case: &Case) -> Any {
    let witness = case.op == 116;
    let mut seen = Any::new();
    let mut from = Reader(&case.input);
    let [m, start, end, first, second] = [(); 5].map(|_| from.word());
    from.words(first as usize);
    let last = from.words(second as usize);
    from.end();
    let square = m as u128 * m as u128;
    seen.test(1, "m", !(1..=32).contains(&m));
    let right = if witness {
        [("storage", square), ("wit", m as u128)]
    } else {
        [("wit", m as u128), ("mat", square)]
    };
    seen.lengths(&[first, second], &right);
    seen.test(5, "empty", witness && start == end);
    seen.test(5, "start above end", start > end);
    seen.test(5, "end above m", end > m);
    let mut to = Reader(&case.output);
    assert_eq!(to.word(), seen.number());
    seen.keep(&[0]);
    if witness {
        seen.keep(last);
    }
    seen.end(to);
    seen
}

#[test]
fn factor_refusals_are_common() {
    let relations: &[Relation<Any>] = &[
        ("accepted", 4, Any::accepted),
        ("m", 20, |s| s.number() == 1),
        ("only m", 300, |s| s.only("m")),
        ("only mat's length", 10, |s| s.only("mat")),
        ("only storage's length", 10, |s| s.only("storage")),
        ("1 before 2", 20, |s| s.order(1, 2)),
    ];
    must_be_common(115, 20_000, read_factor, relations);
    let relations: &[Relation<Any>] = &[
        ("accepted", 5, Any::accepted),
        ("m", 20, |s| s.number() == 1),
        ("only m", 300, |s| s.only("m")),
        ("only wit's length", 15, |s| s.only("wit")),
        ("only start above end", 100, |s| s.only("start above end")),
        ("only end above m", 100, |s| s.only("end above m")),
        ("1 before 5", 50, |s| s.order(1, 5)),
        ("2 before 5", 20, |s| s.order(2, 5)),
    ];
    for op in [116, 117] {
        must_be_common(op, 20_000, read_positions, relations);
    }
    let relations: &[Relation<Any>] = &[
        ("only empty", 30, |s| s.only("empty")),
        ("only storage's length", 15, |s| s.only("storage")),
    ];
    must_be_common(116, 20_000, read_positions, relations);
    let relations: &[Relation<Any>] = &[("only mat's length", 15, |s| s.only("mat"))];
    must_be_common(117, 20_000, read_positions, relations);
}

fn read_lmi(case: &Case) -> Any {
    let mut seen = Any::new();
    let mut from = Reader(&case.input);
    let [m, n] = [(); 2].map(|_| from.word());
    let lens = [(); 6].map(|_| from.word());
    let held = lens.map(|len| from.words(len as usize));
    from.end();
    seen.test(1, "m", !(1..=32).contains(&m));
    seen.test(1, "n", !(2..=32).contains(&n));
    let (m, n) = (m as u128, n as u128);
    let right = [
        ("mat_b", m * m),
        ("mat_f", n.saturating_mul(m * m)),
        ("x", n),
        ("storage", m * m),
        ("wit", m),
        ("grad", n),
    ];
    seen.lengths(&lens, &right);
    let mut to = Reader(&case.output);
    assert_eq!(to.word(), seen.number());
    if seen.accepted() {
        let words = 2 + to.count();
        to.words(words);
    }
    for part in [held[5], held[3], held[4]] {
        seen.keep(part);
    }
    seen.end(to);
    seen
}

#[test]
fn lmi_refusals_are_common() {
    let relations: &[Relation<Any>] = &[
        ("accepted", 4, Any::accepted),
        ("m", 40, |s| s.number() == 1 && s.has("m")),
        ("n", 40, |s| s.number() == 1 && s.has("n")),
        ("only m", 200, |s| s.only("m")),
        ("only n", 200, |s| s.only("n")),
        ("only mat_b's length", 30, |s| s.only("mat_b")),
        ("only mat_f's length", 30, |s| s.only("mat_f")),
        ("only x's length", 30, |s| s.only("x")),
        ("only storage's length", 30, |s| s.only("storage")),
        ("only wit's length", 30, |s| s.only("wit")),
        ("only grad's length", 30, |s| s.only("grad")),
        ("1 before 2", 40, |s| s.order(1, 2)),
    ];
    must_be_common(118, 20_000, read_lmi, relations);
}

fn read_update(case: &Case) -> Any {
    let vectors = if case.op == 120 { 4 } else { 1 };
    let mut seen = Any::new();
    let mut from = Reader(&case.input);
    assert!(from.word() <= 2);
    let n = from.word();
    seen.keep(from.words(2));
    let lens: Vec<u64> = from.words(vectors + 3).to_vec();
    from.words(2);
    let held: Vec<&[u64]> = lens.iter().map(|&len| from.words(len as usize)).collect();
    from.end();
    seen.test(1, "n", !(2..=32).contains(&n));
    let n = n as u128;
    let scratch = [("first", n), ("second", n), ("third", n), ("last", n)];
    let mut right = vec![("xc", n), ("mq", n * n)];
    right.extend(&scratch[4 - vectors..]);
    right.push(("grad", n));
    seen.lengths(&lens, &right);
    let mut to = Reader(&case.output);
    assert_eq!(to.word(), seen.number());
    let mut status = 0;
    if seen.accepted() {
        status = to.word();
        assert!(status <= 2);
    }
    if status != 0 && vectors == 4 {
        // A failed update has not come to g_t.
        assert_eq!(&case.output[case.output.len() - n as usize..], held[5]);
    }
    held[..vectors + 2].iter().for_each(|part| seen.keep(part));
    seen.end(to);
    seen
}

fn read_new(case: &Case) -> Any {
    let mut seen = Any::new();
    seen.test(1, "n", !(2..=32).contains(&case.input[0]));
    let kappa = case.input[1];
    let right = if seen.accepted() {
        [0, kappa, 0]
    } else {
        [1, 0, 0]
    };
    assert_eq!((case.input.len(), &case.output[..]), (2, &right[..]));
    seen
}

#[test]
fn update_refusals_are_common() {
    let relations: &[Relation<Any>] = &[
        ("accepted", 4, Any::accepted),
        ("n", 20, |s| s.number() == 1),
        ("only n", 100, |s| s.only("n")),
        ("only xc's length", 50, |s| s.only("xc")),
        ("only mq's length", 50, |s| s.only("mq")),
        ("only the scratch's length", 50, |s| s.only("last")),
        ("only grad's length", 50, |s| s.only("grad")),
        ("1 before 2", 20, |s| s.order(1, 2)),
    ];
    must_be_common(119, 20_000, read_update, relations);
    must_be_common(120, 20_000, read_update, relations);
    let relations: &[Relation<Any>] = &[
        ("only the first scratch", 50, |s| s.only("first")),
        ("only the second scratch", 50, |s| s.only("second")),
        ("only the third scratch", 50, |s| s.only("third")),
    ];
    must_be_common(120, 20_000, read_update, relations);
    let relations: &[Relation<Any>] = &[("accepted", 3, Any::accepted), ("n", 6, |s| s.has("n"))];
    must_be_common(121, 20_000, read_new, relations);
    must_be_common(122, 20_000, read_new, relations);
}
