//! The cases of the second layer: cursor, lowpass oracle, factor and witness, LMI oracle,
//! ellipsoids, and their refusals.

pub mod cursor;
mod ellipsoids;
pub mod filter;
mod ldlt;
pub mod limits;
mod lmi;
pub mod lowpass;
pub mod lowpass_any;
mod matrices;
mod positions;
mod scan;
pub mod spaces;
pub mod tables;
#[cfg(test)]
mod tests;

use crate::lists::Case;
use crate::words::Source;

/// Each operation, its name, and how often it stands in a round of a mixed list.
pub const OPS: &[(u64, &str, usize)] = &[
    (40, "advance", 2),
    (41, "scan_band", 5),
    (42, "assess_feas", 6),
    (43, "assess_optim", 6),
    (50, "factor", 4),
    (51, "witness", 3),
    (52, "sym_quad", 3),
    (53, "LMI assess_feas", 4),
    (60, "Ell update", 6),
    (61, "EllStable update", 6),
    (110, "advance, any cursor", 2),
    (111, "RoundRobin::new_range, any band", 1),
    (112, "scan_band, any lengths", 4),
    (113, "assess_feas, any lengths", 5),
    (114, "assess_optim, any lengths", 5),
    (115, "factor, any lengths", 2),
    (116, "witness, any lengths", 3),
    (117, "sym_quad, any lengths", 3),
    (118, "LMI assess_feas, any lengths", 3),
    (119, "Ell update, any lengths", 4),
    (120, "EllStable update, any lengths", 4),
    (121, "Ell::new_with_matrix, any n", 1),
    (122, "EllStable::new_with_matrix, any n", 1),
    (130, "verdicts from every cursor position", 3),
];

/// The scope's example of refusal 5: a witness at (0, 0).
pub fn fixed() -> Vec<Case> {
    let mut case = Case::default();
    case.start(116);
    let call = ldlt::Call {
        m: 2,
        start: 0,
        end: 0,
        held: [vec![1.0, 2.0, 2.0, 1.0], vec![3.0, 4.0]],
        squares: [true, false],
    };
    ldlt::any_witness_of(call, &mut case);
    vec![case]
}

/// Fills one case of the operation.
pub fn fill(op: u64, src: &mut Source, case: &mut Case) {
    case.start(op);
    match op {
        40 => cursor::advance(src, case),
        41 => scan::scan_band(src, case),
        42 => lowpass::assess_feas(src, case),
        43 => lowpass::assess_optim(src, case),
        50 => ldlt::factor(src, case),
        51 => ldlt::witness(src, case),
        52 => ldlt::sym_quad(src, case),
        53 => lmi::assess_feas(src, case),
        60 => ellipsoids::update(src, case, false),
        61 => ellipsoids::update(src, case, true),
        110 => cursor::advance_any(src, case),
        111 => cursor::new_range_any(src, case),
        112 => scan::scan_band_any(src, case),
        113 => lowpass_any::assess_feas(src, case),
        114 => lowpass_any::assess_optim(src, case),
        115 => ldlt::factor_any(src, case),
        116 => ldlt::witness_any(src, case),
        117 => ldlt::sym_quad_any(src, case),
        118 => lmi::assess_feas_any(src, case),
        119 => ellipsoids::update_any(src, case, false),
        120 => ellipsoids::update_any(src, case, true),
        121 => ellipsoids::new_any(src, case, false),
        122 => ellipsoids::new_any(src, case, true),
        130 => positions::verdicts(src, case),
        _ => panic!("no such operation: {op}"),
    }
}
