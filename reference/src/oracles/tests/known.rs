//! The scope's known values and examples of refusals, by operation.

use crate::lists::{Case, ABSENT};
use crate::oracles::cursor::{any_advance_of, Cursor};
use crate::oracles::ellipsoids::update_of;
use crate::oracles::filter::{Filter, State};
use crate::oracles::ldlt::{any_witness_of, factor_of, sym_quad_of, witness_of, Call};
use crate::oracles::lmi::{lmi_of, Lmi};
use crate::oracles::lowpass::{feas_of, optim_of};
use crate::oracles::lowpass_any::{any_feas_of, any_optim_of, Call as LowpassCall};
use crate::oracles::positions::verdicts_of;
use crate::oracles::scan::{scan_of, Scan};
use crate::oracles::spaces::{Cut, Space, BIAS, Q};
use crate::words::{word, Source};

const MINUS_ONE: u64 = u64::MAX;

fn output(fill: impl FnOnce(&mut Case)) -> Vec<u64> {
    let mut case = Case::default();
    fill(&mut case);
    case.output
}

fn floats(xs: &[f64]) -> Vec<u64> {
    xs.iter().map(|&x| word(x)).collect()
}

/// Rows (1,0), (1,1), (0,1), nwpass 1, nwstop 2, limits 1, 2, 4, as a job's oracle starts.
fn three_rows(x: [f64; 2]) -> Filter {
    let mut f = Filter {
        n: 2,
        table: vec![1.0, 0.0, 1.0, 1.0, 0.0, 1.0],
        x: x.to_vec(),
        nwpass: 1,
        nwstop: 2,
        lp_sq: 1.0,
        up_sq: 2.0,
        gamma: 4.0,
        state: State::fresh([(0, 0); 3], 4.0),
    };
    f.state = State::fresh(f.bands(), 4.0);
    f
}

/// A state's words: the cursors, which idx follows, and the rest.
fn state(cur: [u64; 3], fmax: f64, kmax: u64, more_alt: u64) -> Vec<u64> {
    let mut words = [cur, cur].concat();
    words.extend([word(fmax), kmax, more_alt, word(4.0)]);
    words
}

#[test]
fn feasible_point() {
    let mut right = vec![0];
    right.extend(state([0, 1, 2], 1.0, 2, 0));
    let f = three_rows([1.5, 1.0]);
    assert_eq!(output(|case| feas_of(&f, case)), right);

    let mut right = vec![2];
    right.extend(floats(&[0.0, 1.0, 0.0, 1.0, 1.0]));
    let mut after = state([0, 1, 2], 1.0, 2, 0);
    right.append(&mut after);
    assert_eq!(output(|case| optim_of(&f, case)), right);
}

#[test]
fn pass_row_over() {
    let f = three_rows([3.0, 1.0]);
    let mut right = vec![1, 0, 0, 1];
    right.extend(floats(&[1.0, 2.0, 1.0, 0.0]));
    right.extend(state([0, 0, 1], f64::NEG_INFINITY, MINUS_ONE, 1));
    assert_eq!(output(|case| feas_of(&f, case)), right);
}

#[test]
fn stop_row_under() {
    let f = three_rows([1.5, -1.0]);
    let mut right = vec![1, 1, 2, 0];
    right.extend(floats(&[1.0, 5.0, -0.0, -1.0]));
    right.extend(state([0, 0, 2], f64::NEG_INFINITY, MINUS_ONE, 1));
    assert_eq!(output(|case| feas_of(&f, case)), right);
}

#[test]
fn sign_has_no_row() {
    let mut f = three_rows([-1.0, 1.0]);
    (f.lp_sq, f.up_sq) = (-1.0, 2.0);
    let mut right = vec![1, 3, ABSENT, 0];
    right.extend(floats(&[1.0]));
    right.push(ABSENT);
    right.extend(floats(&[-1.0, 0.0]));
    right.extend(state([0, 1, 2], 1.0, 2, 0));
    assert_eq!(output(|case| feas_of(&f, case)), right);
}

#[test]
fn no_stop_band() {
    let mut f = three_rows([1.5, 1.0]);
    f.nwstop = 3;
    f.state = State::fresh(f.bands(), 4.0);
    assert_eq!(output(|case| optim_of(&f, case)), [3]);
    let mut right = vec![6];
    right.extend(floats(&[4.0, 7.0, 8.0]));
    right.extend(state([MINUS_ONE, 0, 2], f64::NEG_INFINITY, MINUS_ONE, 1));
    right.extend([0, 1, 1, 3, 3, 3]);
    let call = LowpassCall::new(f, vec![7.0, 8.0]);
    assert_eq!(output(|case| any_optim_of(call, case)), right);
}

#[test]
fn every_place_agrees() {
    let f = three_rows([1.5, 1.0]);
    let mut src = Source::new(0);
    let words = output(|case| verdicts_of(&mut src, &f, case));
    assert_eq!(words, [8, 4, 8, 4, 8]);
    let f = three_rows([1.5, -1.0]);
    let words = output(|case| verdicts_of(&mut src, &f, case));
    assert_eq!(words, [8, 1, 8, 1, 8]);
}

/// Two rows have the value 1; the one after the cursor is visited first.
#[test]
fn first_visited_wins() {
    let mut f = three_rows([0.0, 1.0]);
    (f.nwpass, f.nwstop) = (0, 0);
    f.state = State::fresh(f.bands(), 4.0);
    let mut scan = Scan {
        filter: f,
        cursor: Cursor::fresh(0, 3),
        lower: 0.0,
        upper: Some(1.0),
    };
    let fresh = output(|case| scan_of(&scan, case));
    assert_eq!(fresh, [ABSENT, ABSENT, ABSENT, word(1.0), 1, 2, 2]);
    scan.cursor.cur = 1;
    let moved = output(|case| scan_of(&scan, case));
    assert_eq!(moved, [ABSENT, ABSENT, ABSENT, word(1.0), 2, 1, 1]);
    scan.upper = Some(0.5);
    let broken = output(|case| scan_of(&scan, case));
    let lowest = word(f64::NEG_INFINITY);
    assert_eq!(broken, [2, word(1.0), 1, lowest, MINUS_ONE, 2, 2]);
}

const MATRIX: [f64; 4] = [1.0, 2.0, 2.0, 1.0];
const FACTORED: [f64; 4] = [1.0, 2.0, 2.0, -3.0];
const IDENTITY: [f64; 4] = [1.0, 0.0, 0.0, 1.0];

#[test]
fn matrix_with_a_witness() {
    let mut right = vec![1, 0, 2];
    right.extend(floats(&FACTORED));
    assert_eq!(output(|case| factor_of(2, &[0.0; 4], &MATRIX, case)), right);
    let words = output(|case| witness_of(2, (0, 2), &FACTORED, &[9.0, 9.0], case));
    assert_eq!(words, floats(&[3.0, -2.0, 1.0]));
    let wit = [-2.0, 1.0];
    let words = output(|case| sym_quad_of(2, (0, 2), &wit, &MATRIX, case));
    assert_eq!(words, floats(&[-3.0]));
    let words = output(|case| sym_quad_of(2, (0, 2), &wit, &IDENTITY, case));
    assert_eq!(words, floats(&[5.0]));
}

#[test]
fn matrix_of_one_zero() {
    let words = output(|case| factor_of(1, &[9.0], &[0.0], case));
    assert_eq!(words, [1, 0, 1, 0]);
    let words = output(|case| witness_of(1, (0, 1), &[0.0], &[9.0], case));
    assert_eq!(words, floats(&[-0.0, 1.0]));
}

/// The same matrix at the point zero; the two coefficients are it and the identity.
#[test]
fn lmi_cut() {
    let lmi = Lmi {
        m: 2,
        n: 2,
        mat_b: MATRIX.to_vec(),
        mat_f: [MATRIX, IDENTITY].concat(),
        x: vec![0.0, 0.0],
        storage: vec![9.0; 4],
        wit: vec![9.0; 2],
    };
    let mut right = vec![1];
    right.extend(floats(&[3.0, -3.0, 5.0]));
    right.extend([0, 2]);
    right.extend(floats(&FACTORED));
    right.extend(floats(&[-2.0, 1.0]));
    assert_eq!(output(|case| lmi_of(&lmi, case)), right);
}

fn unit(stable: bool, kappa: f64) -> Space {
    Space::new(stable, kappa, vec![0.0; 2], IDENTITY.to_vec())
}

fn cut(how: u64, first: f64, b0: f64, b1: Option<f64>) -> Cut {
    let grad = vec![first, 0.0];
    Cut { how, grad, b0, b1 }
}

/// `calc_bias_cut`(2, 4) gives (2, 1, 0): sigma is 1, and the stable update goes on.
#[test]
fn update_of_whole_sigma() {
    let by = cut(BIAS, 1.0, 2.0, None);
    let mut right = vec![0];
    let after = [0.0, 4.0, -2.0, 0.0, 0.0, 0.0, 0.0, 1.0];
    right.extend(floats(&after));
    let mut stable = right.clone();
    right.extend(floats(&[1.0, 0.0]));
    let words = output(|case| update_of(&unit(false, 4.0), &by, case));
    assert_eq!(words, right);
    stable.extend(floats(&[1.0, 0.0].repeat(4)));
    let words = output(|case| update_of(&unit(true, 4.0), &by, case));
    assert_eq!(words, stable);
}

#[test]
fn update_without_solution() {
    let by = cut(BIAS, -1.0, 1.0, Some(2.0));
    let mut right = vec![1];
    right.extend(floats(&[0.25, 0.25, 0.0, 0.0]));
    right.extend(floats(&IDENTITY));
    let mut stable = right.clone();
    right.extend(floats(&[-1.0, 0.0]));
    let words = output(|case| update_of(&unit(false, 0.25), &by, case));
    assert_eq!(words, right);
    // The lower triangle is written, and g_t is not.
    stable[7] = word(-0.0);
    stable.extend(floats(&[-1.0, 0.0, -1.0, 0.0, 1.0, 0.0, 0.0, 0.0]));
    let words = output(|case| update_of(&unit(true, 0.25), &by, case));
    assert_eq!(words, stable);
}

#[test]
fn update_without_effect() {
    for stable in [false, true] {
        let by_eta = cut(Q, 1.0, -1.0, None);
        let words = output(|case| update_of(&unit(stable, 4.0), &by_eta, case));
        assert_eq!(words[..3], [2, word(4.0), word(4.0)]);
        let by_omega = cut(BIAS, 0.0, 1.0, None);
        let words = output(|case| update_of(&unit(stable, 4.0), &by_omega, case));
        assert_eq!(words[..3], [2, word(4.0), word(0.0)]);
    }
}

#[test]
fn examples_of_refusals() {
    let cursor = Cursor {
        cur: 3,
        lo: 0,
        hi: 3,
    };
    assert_eq!(output(|case| any_advance_of(cursor, case)), [4, 3]);
    let call = Call {
        m: 2,
        start: 0,
        end: 0,
        held: [FACTORED.to_vec(), vec![9.0; 2]],
        squares: [true, false],
    };
    let words = output(|case| any_witness_of(call, case));
    assert_eq!(words, [vec![5, 0], floats(&[9.0, 9.0])].concat());
}

/// The number with which a filter's call is refused.
fn refusal(f: Filter, change: impl FnOnce(&mut LowpassCall)) -> u64 {
    let grad = vec![0.0; f.n];
    let mut call = LowpassCall::new(f, grad);
    change(&mut call);
    output(|case| any_feas_of(call, case))[0]
}

#[test]
fn refusals_of_a_filter() {
    let f = || three_rows([1.5, 1.0]);
    assert_eq!(refusal(f(), |_| {}), 0);
    assert_eq!(refusal(f(), |call| call.held.n = 1), 1);
    assert_eq!(refusal(f(), |call| call.held.slices[2].truncate(1)), 2);
    let bands = |call: &mut LowpassCall| (call.filter.nwpass, call.filter.nwstop) = (3, 2);
    assert_eq!(refusal(f(), bands), 3);
    assert_eq!(refusal(f(), |call| call.filter.state.cursors[0].cur = 1), 4);
}

/// A filter of zeros.
fn sized(n: usize, rows: usize) -> Filter {
    let mut f = three_rows([0.0, 0.0]);
    (f.n, f.table, f.x) = (n, vec![0.0; rows * n], vec![0.0; n]);
    f.state = State::fresh(f.bands(), 4.0);
    f
}

#[test]
fn largest_sizes() {
    assert_eq!(refusal(sized(2, 1024), |_| {}), 0);
    assert_eq!(refusal(sized(2, 1025), |_| {}), 3);
    assert_eq!(refusal(sized(32, 1024), |_| {}), 0);
    assert_eq!(refusal(sized(33, 3), |_| {}), 1);
}
