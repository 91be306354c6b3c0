//! Checks the roots of a list with whole numbers, apart from the machine's root instruction.

use crate::lists::Case;
use crate::words::NAN;
use std::io::{self, Read, Write};

const INFINITY: u64 = 0x7FF0_0000_0000_0000;
const SIGN: u64 = 1 << 63;

/// Checks the cases of operation 1 and passes over the others.
pub fn check(from: &mut impl Read, to: &mut impl Write) -> io::Result<bool> {
    let mut case = Case::default();
    let (mut agree, mut differ) = (0u64, 0u64);
    while case.read(from)? {
        if case.op != 1 {
            continue;
        }
        match (&case.input[..], &case.output[..]) {
            (&[x], &[root]) if is_root(x, root) => agree += 1,
            _ => {
                differ += 1;
                if differ <= 10 {
                    writeln!(to, "differs: {:016X?} {:016X?}", case.input, case.output)?;
                }
            }
        }
    }
    writeln!(to, "{agree} agree, {differ} differ")?;
    to.flush()?;
    Ok(differ == 0)
}

/// Whether the second word is the root of the first.
fn is_root(x: u64, root: u64) -> bool {
    if x & !SIGN == 0 || x == INFINITY {
        root == x
    } else if x > INFINITY {
        root == NAN // NaN, or below zero
    } else {
        is_nearest(x, root)
    }
}

/// For x = m × 2^e and root = s × 2^f: whether x lies strictly between the squares of the
/// midpoints on either side of the root. Everything is counted in 2^f / 4, so that the lower
/// midpoint of a power of two, which is nearer than the others, is a whole number too.
fn is_nearest(x: u64, root: u64) -> bool {
    if !(1 << 52..INFINITY).contains(&root) {
        return false; // every root is a normal number
    }
    let (m, e) = parts(x);
    let (s, f) = parts(root);
    let shift = e - 2 * f;
    if !(51..=54).contains(&shift) {
        return false; // m and s have 53 bits each, so s² is not near m × 2^shift
    }
    let square = (m as u128) << (shift + 4);
    let lower = 4 * s as u128 - if s == 1 << 52 { 1 } else { 2 };
    let upper = 4 * s as u128 + 2;
    lower * lower < square && square < upper * upper
}

/// A positive finite number as m × 2^e with an m of 53 bits.
fn parts(x: u64) -> (u64, i32) {
    let (m, e) = match (x >> 52) as i32 {
        0 => (x, -1074),
        e => ((x & ((1 << 52) - 1)) | 1 << 52, e - 1075),
    };
    let up = m.leading_zeros() as i32 - 11;
    (m << up, e - up)
}

#[cfg(test)]
mod tests {
    use super::*;

    /// The known values of the root.
    const KNOWN: [(u64, u64); 5] = [
        (0x4010_0000_0000_0000, 0x4000_0000_0000_0000),
        (0x4000_0000_0000_0000, 0x3FF6_A09E_667F_3BCD),
        (1, 0x1E60_0000_0000_0000),
        (0x7FEF_FFFF_FFFF_FFFF, 0x5FEF_FFFF_FFFF_FFFF),
        (SIGN, SIGN),
    ];

    #[test]
    fn known_roots() {
        for (x, root) in KNOWN {
            assert_eq!(f64::from_bits(x).sqrt().to_bits(), root);
            assert!(is_root(x, root));
        }
    }

    #[test]
    fn neighbours_are_no_roots() {
        for (x, root) in KNOWN {
            assert!(!is_root(x, root + 1));
            assert!(!is_root(x, root - 1));
        }
    }
}
