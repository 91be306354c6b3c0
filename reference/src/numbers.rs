//! The cases of the first layer: root, vectors and matrices, calculators, and their refusals.

use crate::draw::{choice, dimension, parallel, row_against, single, vector};
use crate::lengths::{contents, of_shapes, Lengths};
use crate::lists::{status_word, Case};
use crate::words::Source;
use ellalgo_rs::arr::Arr;
use ellalgo_rs::cutting_plane::ParallelCut;
use ellalgo_rs::ell_calc::{EllCalc, EllCalcCore};

/// Each operation, its name, and how often it stands in a round of a mixed list.
pub const OPS: &[(u64, &str, usize)] = &[
    (1, "sqrt", 8),
    (2, "dot", 4),
    (3, "dot_mv_into", 2),
    (4, "eye", 1),
    (5, "from_diag", 1),
    (10, "EllCalcCore::new", 1),
    (11, "helper.calc_parallel_bias_cut_fast", 3),
    (12, "helper.calc_parallel_bias_cut", 3),
    (13, "helper.calc_parallel_central_cut", 3),
    (14, "helper.calc_bias_cut_fast", 3),
    (15, "helper.calc_bias_cut", 3),
    (16, "helper.calc_central_cut", 2),
    (20, "calc_single_or_parallel_bias_cut", 4),
    (21, "calc_single_or_parallel_central_cut", 4),
    (22, "calc_single_or_parallel_q", 4),
    (23, "calc_parallel_bias_cut", 4),
    (24, "calc_parallel_q", 5),
    (25, "calc_parallel_central_cut", 4),
    (26, "calc_bias_cut", 4),
    (27, "calc_bias_cut_q", 5),
    (28, "calc_central_cut", 2),
    (100, "dot, any lengths", 2),
    (101, "dot_mv_into, any lengths", 2),
    (102, "copy_from, any lengths", 2),
    (103, "eye, any length", 1),
    (104, "from_diag, any lengths", 1),
    (105, "EllCalc::new", 1),
];

/// Fills one case of the operation.
pub fn fill(op: u64, src: &mut Source, case: &mut Case) {
    case.start(op);
    match op {
        1 => sqrt(src, case),
        2 => dot(src, case),
        3 => dot_mv_into(src, case),
        4 => eye(src, case),
        5 => from_diag(src, case),
        10..=16 => helper(op, src, case),
        20..=28 => calculator(op, src, case),
        100 => dot_any(src, case),
        101 => dot_mv_into_any(src, case),
        102 => copy_from_any(src, case),
        103 => eye_any(src, case),
        104 => from_diag_any(src, case),
        105 => ell_calc_new(src, case),
        _ => panic!("no such operation: {op}"),
    }
}

// Root, vectors, matrices

fn sqrt(src: &mut Source, case: &mut Case) {
    let x = src.square();
    case.take_floats(&[x]);
    case.give_floats(&[x.sqrt()]);
}

fn dot(src: &mut Source, case: &mut Case) {
    let n = dimension(src);
    let (a, b) = vector_pair(src, n);
    case.take(n as u64);
    case.take_floats(&a);
    case.take_floats(&b);
    case.give_floats(&[Arr::from(a).dot(&Arr::from(b))]);
}

fn dot_mv_into(src: &mut Source, case: &mut Case) {
    let n = dimension(src);
    let x = vector(src, n);
    let mat = rows_against(src, &x);
    case.take(n as u64);
    case.take_floats(&mat);
    case.take_floats(&x);
    case.give_floats(&product(n, mat, x));
}

fn eye(src: &mut Source, case: &mut Case) {
    let n = dimension(src);
    case.take(n as u64);
    case.give_floats(Arr::eye(n).data());
}

fn from_diag(src: &mut Source, case: &mut Case) {
    let n = dimension(src);
    let v = vector(src, n);
    case.take(n as u64);
    case.take_floats(&v);
    case.give_floats(Arr::from_diag(&Arr::from(v)).data());
}

fn product(n: usize, mat: Vec<f64>, x: Vec<f64>) -> Vec<f64> {
    let mut out = Arr::new(n);
    Arr::from_shape_vec(n, n, mat).dot_mv_into(&Arr::from(x), &mut out);
    out.data().to_vec()
}

/// Two vectors whose products are of a kind that matters for a sum; either may come first.
fn vector_pair(src: &mut Source, n: usize) -> (Vec<f64>, Vec<f64>) {
    let x = vector(src, n);
    let row = row_against(src, &x);
    if src.rng.coin() {
        (row, x)
    } else {
        (x, row)
    }
}

fn rows_against(src: &mut Source, x: &[f64]) -> Vec<f64> {
    let rows: Vec<Vec<f64>> = x.iter().map(|_| row_against(src, x)).collect();
    rows.concat()
}

// Calculators

fn helper(op: u64, src: &mut Source, case: &mut Case) {
    let n = dimension(src);
    let core = EllCalcCore::new(n as f64);
    case.take(n as u64);
    if op == 10 {
        return case.give_floats(&core.six());
    }
    let (args, (rho, sigma, delta)) = match op {
        11 => {
            let (b0, b1, tsq) = parallel(src, n);
            let (b0b1, eta) = products(src, n, b0, b1, tsq);
            let answer = core.calc_parallel_bias_cut_fast(b0, b1, tsq, b0b1, eta);
            (vec![b0, b1, tsq, b0b1, eta], answer)
        }
        12 => {
            let (b0, b1, tsq) = parallel(src, n);
            (vec![b0, b1, tsq], core.calc_parallel_bias_cut(b0, b1, tsq))
        }
        13 => {
            let (b1, tsq) = single(src, n);
            (vec![b1, tsq], core.calc_parallel_central_cut(b1, tsq))
        }
        14 => {
            let (beta, tau) = beta_tau(src, n);
            let eta = if src.rng.once_in(4) {
                src.any()
            } else {
                tau + n as f64 * beta
            };
            (
                vec![beta, tau, eta],
                core.calc_bias_cut_fast(beta, tau, eta),
            )
        }
        15 => {
            let (beta, tau) = beta_tau(src, n);
            (vec![beta, tau], core.calc_bias_cut(beta, tau))
        }
        _ => {
            let tsq = src.square();
            (vec![tsq], core.calc_central_cut(tsq))
        }
    };
    case.take_floats(&args);
    case.give_floats(&[rho, sigma, delta]);
}

fn calculator(op: u64, src: &mut Source, case: &mut Case) {
    let n = dimension(src);
    let mut calc = EllCalc::new(n);
    calc.use_parallel_cut = !src.rng.once_in(4);
    case.take(n as u64);
    case.take(calc.use_parallel_cut as u64);
    let (status, (rho, sigma, delta)) = match op {
        20..=22 => {
            let (b0, b1, tsq) = choice(src, n);
            case.take_floats(&[b0]);
            case.take_optional(b1);
            case.take_floats(&[tsq]);
            let beta = ParallelCut(b0, b1);
            match op {
                20 => calc.calc_single_or_parallel_bias_cut(&beta, tsq),
                21 => calc.calc_single_or_parallel_central_cut(&beta, tsq),
                _ => calc.calc_single_or_parallel_q(&beta, tsq),
            }
        }
        23 | 24 => {
            let (b0, b1, tsq) = parallel(src, n);
            case.take_floats(&[b0, b1, tsq]);
            match op {
                23 => calc.calc_parallel_bias_cut(b0, b1, tsq),
                _ => calc.calc_parallel_q(b0, b1, tsq),
            }
        }
        25..=27 => {
            let (beta, tsq) = single(src, n);
            case.take_floats(&[beta, tsq]);
            match op {
                25 => calc.calc_parallel_central_cut(beta, tsq),
                26 => calc.calc_bias_cut(beta, tsq),
                _ => calc.calc_bias_cut_q(beta, tsq),
            }
        }
        _ => {
            let tsq = src.square();
            case.take_floats(&[tsq]);
            calc.calc_central_cut(tsq)
        }
    };
    case.give(status_word(&status));
    case.give_floats(&[rho, sigma, delta]);
}

/// A beta and a tau for the helper, which tests nothing.
fn beta_tau(src: &mut Source, n: usize) -> (f64, f64) {
    match src.rng.below(4) {
        0 => {
            // tau + beta is zero or beside it.
            let tau = src.any();
            (src.neighbour(-tau), tau)
        }
        1 => (src.any(), src.any()),
        _ => {
            let (beta, tsq) = single(src, n);
            (beta, tsq.sqrt())
        }
    }
}

/// The two products a caller hands on; sometimes others, since the helper tests nothing.
fn products(src: &mut Source, n: usize, b0: f64, b1: f64, tsq: f64) -> (f64, f64) {
    let b0b1 = b0 * b1;
    let eta = tsq + n as f64 * b0b1;
    match src.rng.below(8) {
        0 => (src.any(), eta),
        1 => (b0b1, src.any()),
        2 => (b0b1, src.zero()),
        _ => (b0b1, eta),
    }
}

// Calls of any lengths

/// Draws a call with slices of any length, `squares[k]` where slice k should hold a matrix: the
/// dimension, the refusal expected and the slices.
fn drawn<const K: usize>(
    src: &mut Source,
    case: &mut Case,
    squares: [bool; K],
) -> (usize, u64, [Vec<f64>; K]) {
    let lengths = any_lengths(src, &squares);
    let held = slices(src, case, &lengths);
    let no = lengths.refusal(2, |n| of_shapes(n, &squares));
    (lengths.n as usize, no, held.try_into().unwrap())
}

fn any_lengths(src: &mut Source, squares: &[bool]) -> Lengths {
    let n = dimension(src);
    let mut lengths = Lengths {
        n: n as u64,
        of: of_shapes(n, squares),
    };
    lengths.spoil(src, 2, |n| of_shapes(n, squares));
    lengths
}

/// Takes the dimension and the lengths, then hands out what the slices hold.
fn slices(src: &mut Source, case: &mut Case, lengths: &Lengths) -> Vec<Vec<f64>> {
    case.take(lengths.n);
    for &len in &lengths.of {
        case.take(len as u64);
    }
    let held: Vec<Vec<f64>> = lengths.of.iter().map(|&len| contents(src, len)).collect();
    for part in &held {
        case.take_floats(part);
    }
    held
}

fn dot_any(src: &mut Source, case: &mut Case) {
    let (_, no, [a, b]) = drawn(src, case, [false, false]);
    let sum = if no == 0 {
        Arr::from(a).dot(&Arr::from(b))
    } else {
        0.0
    };
    case.give(no);
    case.give_floats(&[sum]);
}

fn dot_mv_into_any(src: &mut Source, case: &mut Case) {
    let (n, no, [mat, x, mut out]) = drawn(src, case, [true, false, false]);
    if no == 0 {
        out = product(n, mat, x);
    }
    case.give(no);
    case.give_floats(&out);
}

fn copy_from_any(src: &mut Source, case: &mut Case) {
    let (_, no, [dst, from]) = drawn(src, case, [false, false]);
    let mut dst = Arr::from(dst);
    if no == 0 {
        dst.copy_from(&Arr::from(from));
    }
    case.give(no);
    case.give_floats(dst.data());
}

fn eye_any(src: &mut Source, case: &mut Case) {
    let (n, no, [mut out]) = drawn(src, case, [true]);
    if no == 0 {
        out = Arr::eye(n).data().to_vec();
    }
    case.give(no);
    case.give_floats(&out);
}

fn from_diag_any(src: &mut Source, case: &mut Case) {
    let (_, no, [v, mut out]) = drawn(src, case, [false, true]);
    if no == 0 {
        out = Arr::from_diag(&Arr::from(v)).data().to_vec();
    }
    case.give(no);
    case.give_floats(&out);
}

fn ell_calc_new(src: &mut Source, case: &mut Case) {
    let n = any_lengths(src, &[false]).n;
    case.take(n);
    if !(2..=32).contains(&n) {
        case.give(1);
        case.output.extend([0; 8]);
        return;
    }
    let calc = EllCalc::new(n as usize);
    case.give(0);
    case.give_floats(&[calc.own_n_f()]);
    case.give_floats(&calc.helper.six());
    case.give(calc.use_parallel_cut as u64);
}

#[cfg(test)]
mod tests {
    use super::*;
    use ellalgo_rs::cutting_plane::CutStatus;

    /// A calculator's case, taken apart again.
    struct Seen {
        n: f64,
        parallel: bool,
        b0: f64,
        b1: f64,
        tsq: f64,
    }

    /// A relation between the numbers of a case, and its name.
    type Relation = (&'static str, fn(&Seen) -> bool);

    /// The cases of one calculator; an operation of one beta has it in both places.
    fn seen(op: u64, count: usize) -> Vec<Seen> {
        let mut src = Source::new(op);
        let mut case = Case::default();
        let mut all = Vec::new();
        for _ in 0..count {
            fill(op, &mut src, &mut case);
            let floats: Vec<f64> = case.input[2..].iter().map(|&w| f64::from_bits(w)).collect();
            all.push(Seen {
                n: case.input[0] as f64,
                parallel: case.input[1] == 1,
                b0: floats[0],
                b1: floats[floats.len() - 2],
                tsq: floats[floats.len() - 1],
            });
        }
        all
    }

    /// Each of these must stand in at least one of 500 cases.
    fn must_be_common(op: u64, tests: &[Relation]) {
        let all = seen(op, 100_000);
        for (name, test) in tests {
            let found = all.iter().filter(|s| test(s)).count();
            println!("{op} {name}: {found}");
            assert!(found >= 200, "{op} {name}: {found}");
        }
    }

    #[test]
    fn single_relations_are_common() {
        let tests: &[Relation] = &[
            ("tsq < beta²", |s| s.tsq < s.b0 * s.b0),
            ("tsq = beta²", |s| s.tsq == s.b0 * s.b0),
            ("tau < beta", |s| s.tsq.sqrt() < s.b0),
            ("tau = beta", |s| s.tsq.sqrt() == s.b0),
            ("tau < beta, not tsq < beta²", |s| {
                s.tsq.sqrt() < s.b0 && s.tsq >= s.b0 * s.b0
            }),
            ("tsq < beta², not tau < |beta|", |s| {
                s.tsq < s.b0 * s.b0 && s.tsq.sqrt() >= s.b0.abs()
            }),
            ("eta = 0", |s| {
                s.tsq.sqrt() + s.n * s.b0 == 0.0 && s.b0 != 0.0
            }),
            ("eta = 0 = beta", |s| s.tsq == 0.0 && s.b0 == 0.0),
            ("eta < 0", |s| s.tsq.sqrt() + s.n * s.b0 < 0.0),
            ("beta NaN", |s| s.b0.is_nan() && !s.tsq.is_nan()),
            ("tsq NaN", |s| s.tsq.is_nan() && !s.b0.is_nan()),
            ("tsq below zero", |s| s.tsq < 0.0),
            ("tsq infinite", |s| s.tsq == f64::INFINITY),
            ("beta² overflows", |s| {
                s.b0.is_finite() && (s.b0 * s.b0).is_infinite()
            }),
            ("beta² underflows", |s| s.b0 != 0.0 && s.b0 * s.b0 == 0.0),
            ("beta minus zero", |s| {
                s.b0 == 0.0 && s.b0.is_sign_negative()
            }),
        ];
        for op in 25..=27 {
            must_be_common(op, tests);
        }
    }

    #[test]
    fn parallel_relations_are_common() {
        let tests: &[Relation] = &[
            ("beta1 < beta0", |s| s.b1 < s.b0),
            ("beta1 = beta0", |s| s.b1 == s.b0),
            ("back to one beta", |s| {
                s.b0 <= s.b1 && s.b1 > 0.0 && s.tsq <= s.b1 * s.b1
            }),
            ("tsq = beta1²", |s| {
                s.b0 <= s.b1 && s.b1 > 0.0 && s.tsq == s.b1 * s.b1
            }),
            ("beta1 below zero, tsq <= beta1²", |s| {
                s.b0 <= s.b1 && s.b1 <= 0.0 && s.tsq <= s.b1 * s.b1
            }),
            ("no parallel cuts, though one is due", |s| {
                !s.parallel && s.b0 <= s.b1 && s.tsq > s.b1 * s.b1
            }),
            ("parallel form", |s| {
                s.parallel && s.b0 < s.b1 && s.tsq > s.b1 * s.b1
            }),
            ("eta < 0", |s| {
                s.parallel && s.b0 <= s.b1 && s.tsq > s.b1 * s.b1 && eta(s) < 0.0
            }),
            ("eta = 0", |s| {
                s.parallel && s.b0 <= s.b1 && s.tsq > s.b1 * s.b1 && eta(s) == 0.0
            }),
            ("beta0 NaN", |s| {
                s.b0.is_nan() && !s.b1.is_nan() && !s.tsq.is_nan()
            }),
            ("beta1 NaN", |s| {
                s.b1.is_nan() && !s.b0.is_nan() && !s.tsq.is_nan()
            }),
            ("tsq NaN", |s| {
                s.tsq.is_nan() && !s.b0.is_nan() && !s.b1.is_nan()
            }),
            ("beta1 zero", |s| s.b1 == 0.0 && s.b0 < 0.0),
            ("beta1² overflows", |s| {
                s.b1.is_finite() && (s.b1 * s.b1).is_infinite()
            }),
            ("beta1² underflows", |s| s.b1 != 0.0 && s.b1 * s.b1 == 0.0),
        ];
        for op in [23, 24] {
            must_be_common(op, tests);
        }
    }

    fn eta(s: &Seen) -> f64 {
        s.tsq + s.n * (s.b0 * s.b1)
    }

    #[test]
    fn known_values() {
        let calc = EllCalc::new(2);
        let none = (CutStatus::NoSoln, (0.0, 0.0, 0.0));
        assert_eq!(calc.calc_bias_cut(1.0, 0.25), none);
        let cut = (CutStatus::Success, (2.0, 1.0, 0.0));
        assert_eq!(calc.calc_bias_cut(2.0, 4.0), cut);
        let idle = (CutStatus::NoEffect, (0.0, 0.0, 1.0));
        assert_eq!(calc.calc_bias_cut_q(-1.0, 4.0), idle);
        assert_eq!(calc.calc_parallel_bias_cut(1.0, 0.5, 4.0), none);
        let cut = (CutStatus::Success, (1.0, 1.0, 1.5));
        assert_eq!(calc.calc_parallel_bias_cut(1.0, 1.0, 4.0), cut);
    }
}
