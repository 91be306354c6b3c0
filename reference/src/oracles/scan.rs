//! The scan of one band: operations 41 and 112.

use super::cursor::{Cursor, MOST_ROWS};
use super::filter::Filter;
use super::limits::{edges, lower_limit, lowered, raised, upper_limit};
use super::tables::Held;
use crate::lists::{Case, ABSENT};
use crate::words::Source;
use ellalgo_rs::arr::Arr;
use ellalgo_rs::oracles::lowpass_oracle::scan_band_of;

/// A scan of a filter's table; its cursor need not be one of the filter's.
pub struct Scan {
    pub filter: Filter,
    pub cursor: Cursor,
    pub lower: f64,
    pub upper: Option<f64>,
}

impl Scan {
    fn draw(src: &mut Source) -> Self {
        let filter = Filter::of_any_size(src);
        let cursor = src.rng.pick(&filter.state.cursors);
        let mut scan = Scan {
            filter,
            cursor,
            lower: 0.0,
            upper: None,
        };
        if src.rng.once_in(12) {
            scan.sink(src);
        }
        scan.set_limits(src);
        scan
    }

    fn band(&self) -> std::ops::Range<usize> {
        self.cursor.lo as usize..self.cursor.hi as usize
    }

    /// Gives some rows of the band the value minus infinity, which is no peak even if it passes.
    fn sink(&mut self, src: &mut Source) {
        let f = &mut self.filter;
        let Some(at) = f.x.iter().position(|v| v.is_finite() && *v != 0.0) else {
            return;
        };
        for i in self.cursor.lo as usize..self.cursor.hi as usize {
            if src.rng.coin() {
                let row = &mut f.table[i * f.n..(i + 1) * f.n];
                row.fill(0.0);
                row[at] = f64::NEG_INFINITY.copysign(-f.x[at]);
            }
        }
    }

    fn set_limits(&mut self, src: &mut Source) {
        let values = &self.filter.values()[self.band()];
        let (least, largest) = edges(values, (0.0, 1.0));
        self.lower = lower_limit(src, least);
        if !src.rng.once_in(4) {
            self.upper = Some(upper_limit(src, largest));
        }
        if values.is_empty() {
            return;
        }
        let value = src.rng.pick(values);
        match src.rng.below(8) {
            0 | 1 => self.lower = raised(src, value),
            2 | 3 => self.upper = Some(lowered(src, value)),
            4 if self.upper.is_none() => self.lower = raised(src, largest),
            _ => {}
        }
    }

    fn take_limits(&self, case: &mut Case) {
        self.cursor.take(case);
        case.take_floats(&[self.lower]);
        case.take_optional(self.upper);
    }

    /// Gives everything but the cursor, which is what is left.
    fn answer(&self, case: &mut Case) -> i32 {
        let mut rr = self.cursor.made();
        let (found, fmax, kmax, last) = scan_band_of(
            &self.filter.spectrum(),
            &Arr::from(self.filter.x.clone()),
            &mut rr,
            (self.cursor.lo, self.cursor.hi),
            self.lower,
            self.upper,
        );
        match found {
            Some((row, value, over)) => {
                case.give(row as u64);
                case.give_floats(&[value]);
                case.give(over as u64);
            }
            None => case.output.extend([ABSENT; 3]),
        }
        case.give_floats(&[fmax]);
        case.give_signed(kmax);
        case.give_signed(last);
        rr.current()
    }
}

pub fn scan_band(src: &mut Source, case: &mut Case) {
    scan_of(&Scan::draw(src), case);
}

pub fn scan_of(scan: &Scan, case: &mut Case) {
    let f = &scan.filter;
    case.take(f.n as u64);
    case.take(f.rows() as u64);
    case.take_floats(&f.table);
    case.take_floats(&f.x);
    scan.take_limits(case);
    let cur = scan.answer(case);
    case.give_signed(cur);
}

pub fn scan_band_any(src: &mut Source, case: &mut Case) {
    let mut scan = Scan::draw(src);
    let f = &scan.filter;
    let mut held = Held::new(f.n, vec![f.table.clone(), f.x.clone()]);
    if src.rng.coin() {
        spoil(src, &mut held, &mut scan.cursor);
        while src.rng.once_in(3) {
            spoil(src, &mut held, &mut scan.cursor);
        }
    }
    case.take(held.n);
    case.take(held.rows);
    held.take_lengths(case);
    scan.take_limits(case);
    held.take_slices(case);
    let no = refusal(&held, scan.cursor);
    case.give(no);
    let mut cur = scan.cursor.cur;
    if no == 0 {
        scan.filter.n = held.n as usize;
        let [table, x] = held.slices.try_into().unwrap();
        (scan.filter.table, scan.filter.x) = (table, x);
        cur = scan.answer(case);
    }
    case.give_signed(cur);
}

fn spoil(src: &mut Source, held: &mut Held, cursor: &mut Cursor) {
    match src.rng.below(9) {
        0 => held.spoil_size(src),
        1 | 2 => held.spoil_length(src),
        3 | 4 => held.spoil_rows(src),
        5 => cursor.spoil_band(src),
        6 => {
            // The band goes just past the rows at hand.
            cursor.hi = (held.rows as i32).saturating_add(1).min(MOST_ROWS);
        }
        _ => cursor.spoil_place(src),
    }
}

fn refusal(held: &Held, cursor: Cursor) -> u64 {
    match (held.refusal(), cursor.refusal()) {
        (0, 0 | 4) if !held.rows_are_legal() || cursor.hi as u64 > held.rows => 3,
        (0, no) => no,
        (no, _) => no,
    }
}
