//! The levels of a time that is not the same from build to build or from run to run.

use crate::race::median;

/// Two neighbours that are further apart are on two levels.
pub const GAP: f64 = 1.1;
/// What fewer show is a disturbance and no level: one of so many runs, or one run.
const RUNS: usize = 10;

/// The median of each level, the fastest first; of all times where there is none.
pub fn levels(mut times: Vec<f64>) -> Vec<f64> {
    times.sort_by(f64::total_cmp);
    let apart = times.chunk_by(|a, b| *b <= GAP * *a);
    let enough = times.len().div_ceil(RUNS).max(2);
    let met = apart.filter(|level| level.len() >= enough);
    let found: Vec<f64> = met.map(|level| median(level.to_vec())).collect();
    if found.is_empty() {
        return vec![median(times)];
    }
    found
}

#[cfg(test)]
mod tests {
    use super::*;

    #[test]
    fn one_level() {
        assert_eq!(levels(vec![10.0, 11.0, 12.0]), [11.0]);
        assert_eq!(levels(vec![7.0]), [7.0]);
    }

    #[test]
    fn two_levels() {
        assert_eq!(levels(vec![37.0, 26.0, 36.0, 25.0, 38.0]), [25.5, 37.0]);
    }

    #[test]
    fn steps_below_the_gap_are_one_level() {
        let rising = (0..9).map(|k| 1.09f64.powi(k)).collect();
        assert_eq!(levels(rising).len(), 1);
    }

    #[test]
    fn few_runs_are_no_level() {
        assert_eq!(levels(vec![10.0, 10.0, 10.0, 99.0]), [10.0]);
        assert_eq!(levels([vec![10.0; 28], vec![15.0; 2]].concat()), [10.0]);
        assert_eq!(
            levels([vec![10.0; 27], vec![15.0; 3]].concat()),
            [10.0, 15.0]
        );
        assert_eq!(levels(vec![1.0, 2.0, 4.0]), [2.0]);
    }
}
