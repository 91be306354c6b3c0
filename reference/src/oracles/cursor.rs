//! Cursors: operations 40, 110 and 111.

use crate::lists::Case;
use crate::words::Source;
use ellalgo_rs::round_robin::RoundRobin;

/// No table has more rows and no band reaches further.
pub const MOST_ROWS: i32 = 1024;

/// The three numbers of a cursor, legal or not.
#[derive(Clone, Copy, Debug, PartialEq)]
pub struct Cursor {
    pub cur: i32,
    pub lo: i32,
    pub hi: i32,
}

impl Cursor {
    pub fn fresh(lo: i32, hi: i32) -> Self {
        let cur = lo - 1;
        Cursor { cur, lo, hi }
    }

    /// A legal cursor of a legal band, at one of its ends more often than elsewhere.
    pub fn on(src: &mut Source, lo: i32, hi: i32) -> Self {
        let cur = match src.rng.below(4) {
            0 => lo - 1,
            1 => hi - 1,
            _ => src.rng.range(lo as i64 - 1, hi as i64 - 1) as i32,
        };
        Cursor { cur, lo, hi }
    }

    /// The Rust's cursor. Only `advance` moves one, and it reaches every legal place.
    pub fn made(self) -> RoundRobin {
        let mut rr = RoundRobin::new_range(self.lo, self.hi);
        while rr.current() != self.cur {
            rr.advance();
        }
        rr
    }

    pub fn moved(self, rr: &RoundRobin) -> Self {
        let cur = rr.current();
        Cursor { cur, ..self }
    }

    /// Refusal 3 for a band, which may be empty, and 4 for a place.
    pub fn refusal(self) -> u64 {
        if !band_is_legal(self.lo, self.hi) {
            3
        } else if !self.place_is_legal() {
            4
        } else {
            0
        }
    }

    pub fn place_is_legal(self) -> bool {
        (self.lo as i64 - 1..self.hi as i64).contains(&(self.cur as i64))
    }

    /// Makes the band wrong and keeps the place within it where that is possible.
    pub fn spoil_band(&mut self, src: &mut Source) {
        match src.rng.below(6) {
            0 => self.lo = -1,
            1 => self.hi = MOST_ROWS + 1,
            2 => (self.cur, self.lo, self.hi) = (-2, -1, -1),
            3 => self.lo = self.hi.saturating_add(1),
            4 => self.lo = any_i32(src),
            _ => self.hi = any_i32(src),
        }
    }

    /// Puts the cursor just outside its band, or anywhere.
    pub fn spoil_place(&mut self, src: &mut Source) {
        self.cur = match src.rng.below(5) {
            0 | 1 => self.lo.saturating_sub(2),
            2 | 3 => self.hi,
            _ => any_i32(src),
        };
    }

    pub fn take(self, case: &mut Case) {
        case.take_signed(self.cur);
        case.take_signed(self.lo);
        case.take_signed(self.hi);
    }
}

fn band_is_legal(lo: i32, hi: i32) -> bool {
    0 <= lo && lo <= hi && hi <= MOST_ROWS
}

/// Any number of 32 bits, mostly one beside a border.
pub fn any_i32(src: &mut Source) -> i32 {
    let ends = [i32::MIN, i32::MIN + 1, i32::MAX - 1, i32::MAX];
    let near = [-2, -1, 0, 1, 1023, 1024, 1025];
    match src.rng.below(4) {
        0 => src.rng.next() as i32,
        1 => src.rng.pick(&ends),
        _ => src.rng.pick(&near),
    }
}

/// A legal band, empty at times.
fn band(src: &mut Source) -> (i32, i32) {
    let top = MOST_ROWS as i64;
    let (lo, hi) = match src.rng.below(4) {
        0 => (0, src.rng.range(0, 6)),
        1 => {
            let lo = src.rng.range(0, top);
            (lo, src.rng.range(lo, top.min(lo + 4)))
        }
        2 => (src.rng.range(top - 6, top), top),
        _ => {
            let (a, b) = (src.rng.range(0, top), src.rng.range(0, top));
            (a.min(b), a.max(b))
        }
    };
    (lo as i32, hi as i32)
}

/// A legal cursor of a band that has a row.
fn movable(src: &mut Source) -> Cursor {
    let (lo, hi) = band(src);
    let lo = if lo == hi { (lo - 1).max(0) } else { lo };
    Cursor::on(src, lo, hi.max(lo + 1))
}

pub fn advance(src: &mut Source, case: &mut Case) {
    let cursor = movable(src);
    cursor.take(case);
    case.give_signed(cursor.made().advance());
}

pub fn advance_any(src: &mut Source, case: &mut Case) {
    let mut cursor = movable(src);
    match src.rng.below(8) {
        0 => cursor.spoil_band(src),
        1 => cursor = Cursor::fresh(cursor.lo, cursor.lo),
        2 | 3 => cursor.spoil_place(src),
        4 => {
            // Both are wrong, so that the order of the tests shows.
            cursor.spoil_band(src);
            cursor.spoil_place(src);
        }
        _ => {}
    }
    any_advance_of(cursor, case);
}

pub fn any_advance_of(cursor: Cursor, case: &mut Case) {
    cursor.take(case);
    let no = if cursor.lo == cursor.hi {
        3
    } else {
        cursor.refusal()
    };
    let cur = if no == 0 {
        cursor.made().advance()
    } else {
        cursor.cur
    };
    case.give(no);
    case.give_signed(cur);
}

pub fn new_range_any(src: &mut Source, case: &mut Case) {
    let (lo, hi) = band(src);
    let mut cursor = Cursor::fresh(lo, hi);
    if src.rng.coin() {
        cursor.spoil_band(src);
    }
    let Cursor { lo, hi, .. } = cursor;
    case.take_signed(lo);
    case.take_signed(hi);
    if !band_is_legal(lo, hi) {
        case.give(3);
        case.output.extend([0; 3]);
        return;
    }
    let rr = RoundRobin::new_range(lo, hi);
    let cur = rr.current();
    // lo and hi are private, but they show.
    let shown = format!("RoundRobin {{ cur: {cur}, lo: {lo}, hi: {hi} }}");
    assert_eq!(format!("{rr:?}"), shown);
    case.give(0);
    for i in [cur, lo, hi] {
        case.give_signed(i);
    }
}
