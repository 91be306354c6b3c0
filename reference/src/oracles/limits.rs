//! Limits on values, beside them and away from them.

use crate::words::Source;

/// The least and the largest value, or others where nothing compares. The library's `min` and
/// `max` may give either of two zeros, so they would not give the same list everywhere.
pub fn edges(values: &[f64], none: (f64, f64)) -> (f64, f64) {
    let mut known = values.iter().copied().filter(|v| !v.is_nan());
    let Some(first) = known.next() else {
        return none;
    };
    known.fold((first, first), |(lo, hi), v| {
        (if v < lo { v } else { lo }, if v > hi { v } else { hi })
    })
}

/// A limit for values that begin at `least`: mostly on it, beside it or below.
pub fn lower_limit(src: &mut Source, least: f64) -> f64 {
    match src.rng.below(24) {
        0..=11 => least,
        12..=14 => src.neighbour(least),
        15..=21 => least - src.positive(),
        22 => src.special(),
        _ => src.any(),
    }
}

pub fn upper_limit(src: &mut Source, largest: f64) -> f64 {
    -lower_limit(src, -largest)
}

/// Just below the value, or lower.
pub fn lowered(src: &mut Source, value: f64) -> f64 {
    match src.rng.below(6) {
        0..=2 => value.next_down(),
        3 | 4 => value - value.abs() / 4.0,
        _ => value - src.positive(),
    }
}

/// Just above the value, or higher.
pub fn raised(src: &mut Source, value: f64) -> f64 {
    -lowered(src, -value)
}
