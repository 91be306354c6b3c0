//! Operations 155 and 162: the writer of jobs. The reasons to refuse are taken from the words,
//! apart from the generator's own tests.

use crate::drivers::damage::shuffle;
use crate::drivers::fixed::worked_job;
use crate::drivers::job::{read_job, Job, AMPLE};
use crate::drivers::record::{Record, JOB};
use crate::drivers::write_job::{draw_rare, write_job, Given};
use crate::lists::{unpacked, Case};
use crate::testing::{must_be_common, Any, Reader, Relation};
use crate::words::{Source, NAN};

const WORKED: &[u8] = include_bytes!("../../../../examples/worked.job");
const N16: &[u8] = include_bytes!("../../../../examples/n16.job");
const N32: &[u8] = include_bytes!("../../../../examples/n32.job");

fn written(job: &Job) -> Vec<u8> {
    write_job(&Given::of(job), usize::MAX).unwrap()
}

/// Document 01's job of 145 bytes, and real filters, whose files rise.
#[test]
fn examples_are_written_as_they_are() {
    assert_eq!(written(&worked_job()), WORKED);
    for bytes in [WORKED, N16, N32] {
        assert!(written(&read_job(bytes, AMPLE).unwrap()) == bytes);
    }
    let given = Given::of(&worked_job());
    assert_eq!(write_job(&given, 144), Err(11));
    assert_eq!(write_job(&given, 145).unwrap().len(), 145);
}

/// The record in rising order of its tags, rows in their order, with every NaN as one; said of
/// bytes, apart from the writer.
fn rising(mut record: Record) -> Vec<u8> {
    record.fields.sort_by_key(|field| field.tag); // equal tags keep their order
    for field in &mut record.fields {
        let from = match field.tag {
            0x03..=0x05 | 0x07 | 0x08 => 0,
            0x09 => 2,
            _ => field.content.len(),
        };
        for word in field.content[from..].chunks_exact_mut(8) {
            let bits = u64::from_le_bytes((&*word).try_into().unwrap());
            if bits << 1 > 0x7FF0_0000_0000_0000 << 1 {
                word.copy_from_slice(&NAN.to_le_bytes());
            }
        }
    }
    record.bytes()
}

/// What is written is read as the same job, whose record has the length that the sizes say;
/// writing it again gives the same bytes.
#[test]
fn written_jobs_are_read_back() {
    let mut src = Source::new(3);
    for _ in 0..2000 {
        let job = draw_rare(&mut src, 5000);
        let bytes = written(&job);
        let (n, rows) = (job.n, job.rows());
        assert_eq!(bytes.len(), 78 + 8 * n + 8 * n * n + rows * (3 + 8 * n));
        let read = read_job(&bytes, AMPLE).unwrap();
        assert_eq!(read.words(), job.words());
        assert_eq!(written(&read), bytes);
    }
}

/// The order of a record's fields does not matter, but for that of the rows.
#[test]
fn records_in_any_order_are_written_rising() {
    let mut src = Source::new(4);
    for _ in 0..2000 {
        let mut record = draw_rare(&mut src, 5000).record();
        shuffle(&mut src, &mut record);
        let read = read_job(&record.bytes(), AMPLE).unwrap();
        assert_eq!(written(&read), rising(record));
    }
}

/// Jobs that differ in a bit of a number, but for NaNs, have other records.
#[test]
fn other_jobs_have_other_records() {
    let mut src = Source::new(5);
    for _ in 0..2000 {
        let job = draw_rare(&mut src, 1000);
        let mut other = job.clone();
        let mut numbers = other.numbers_mut();
        let at = src.rng.below(numbers.len() as u64) as usize;
        let bits = numbers[at].to_bits() ^ 1 << src.rng.below(64);
        *numbers[at] = f64::from_bits(bits);
        let same = job.words() == other.words();
        assert_eq!(written(&job) == written(&other), same);
    }
}

// ---- operation 155

struct Seen {
    any: Any,
    /// How many bytes the output has above what the record needs.
    more: i128,
    cur: [i64; 3],
    /// The bits of every float, and those of the tolerance.
    floats: Vec<u64>,
    tolerance: u64,
}

impl Seen {
    /// A float of an accepted job is so.
    fn holds(&self, so: fn(u64) -> bool) -> bool {
        self.any.accepted() && self.floats.iter().any(|&bits| so(bits))
    }
}

fn is_nan(bits: u64) -> bool {
    bits << 1 > 0x7FF0_0000_0000_0000 << 1
}

fn is_quiet(bits: u64) -> bool {
    bits >> 51 & 1 == 1
}

fn bands(any: &mut Any, rows: u64, borders: [i64; 2], cur: [i64; 3]) {
    let [nwpass, nwstop] = borders;
    any.test(3, "rows", !(1..=1024).contains(&rows));
    let sorted = 0 <= nwpass && nwpass <= nwstop && nwstop as i128 <= rows as i128;
    any.test(3, "borders", !sorted);
    let bands = [(0, nwpass), (nwpass, nwstop), (nwstop, rows as i64)];
    for ((lo, hi), cur) in bands.into_iter().zip(cur) {
        any.test(4, "a cursor", !(lo - 1..hi).contains(&cur));
    }
}

fn read_write(case: &Case) -> Seen {
    let mut any = Any::new();
    let mut from = Reader(&case.input);
    let [n, rows] = [(); 2].map(|_| from.word());
    let borders = [(); 2].map(|_| from.signed() as i64);
    let mut floats = from.words(3).to_vec();
    let cur = [(); 3].map(|_| from.signed() as i64);
    floats.push(from.word());
    assert!(from.word() <= 65_535);
    let tolerance = from.word();
    let [lt, lx, lm, lo] = [(); 4].map(|_| from.count());
    for len in [lt, lx, lm] {
        floats.extend(from.words(len));
    }
    let out = from.words(lo.div_ceil(8));
    from.end();
    floats.push(tolerance);
    any.test(1, "n", !(2..=32).contains(&n));
    let (wide, all) = (n as u128, rows as u128);
    let right = [("table", wide * all), ("x", wide), ("matrix", wide * wide)];
    any.lengths(&[lt, lx, lm].map(|len| len as u64), &right);
    bands(&mut any, rows, borders, cur);
    let n = n.min(1 << 40) as i128; // no product leaves 128 bits
    let needed = 78 + 8 * n + 8 * n * n + all as i128 * (3 + 8 * n);
    let more = lo as i128 - needed;
    any.test(11, "out", more < 0);
    check_written(case, &any, needed, (lo, out));
    Seen {
        any,
        more,
        cur,
        floats,
        tolerance,
    }
}

/// A refused call leaves the output as it came, and an accepted one what follows the record.
fn check_written(case: &Case, any: &Any, needed: i128, (lo, out): (usize, &[u64])) {
    let mut to = Reader(&case.output);
    let [number, count] = [(); 2].map(|_| to.word());
    let after = to.words(out.len());
    to.end();
    assert_eq!(number, any.number());
    if number != 0 {
        return assert!(count == 0 && after == out);
    }
    assert_eq!(count as i128, needed);
    let bytes = |words| unpacked(words, lo as u64)[count as usize..].to_vec();
    assert_eq!(bytes(after), bytes(out));
    assert!(read_job(&unpacked(after, count), AMPLE).is_ok());
}

#[test]
fn write_refusals_are_common() {
    let relations: &[Relation<Seen>] = &[
        ("accepted", 4, |s| s.any.accepted()),
        ("only n", 300, |s| s.any.only("n")),
        ("only the table's length", 150, |s| s.any.only("table")),
        ("only x's length", 150, |s| s.any.only("x")),
        ("only the matrix's length", 100, |s| s.any.only("matrix")),
        ("only the rows", 400, |s| {
            s.any.has("rows") && s.any.number() == 3
        }),
        ("only the borders", 60, |s| {
            s.any.has("borders") && s.any.number() == 3
        }),
        ("only a cursor", 60, |s| s.any.only("a cursor")),
        ("only the output", 15, |s| s.any.only("out")),
        ("1 before 2", 50, |s| s.any.order(1, 2)),
        ("1 before 3", 100, |s| s.any.order(1, 3)),
        ("1 before 4", 100, |s| s.any.order(1, 4)),
        ("1 before 11", 30, |s| s.any.order(1, 11)),
        ("2 before 3", 50, |s| s.any.order(2, 3)),
        ("2 before 4", 50, |s| s.any.order(2, 4)),
        ("2 before 11", 20, |s| s.any.order(2, 11)),
        ("3 before 4", 30, |s| s.any.order(3, 4)),
        ("3 before 11", 60, |s| s.any.order(3, 11)),
        ("4 before 11", 100, |s| s.any.order(4, 11)),
    ];
    must_be_common(155, 20_000, read_write, relations);
}

#[test]
fn written_numbers_are_common() {
    let relations: &[Relation<Seen>] = &[
        ("exact", 6, |s| s.any.accepted() && s.more == 0),
        ("long", 12, |s| s.any.accepted() && s.more > 0),
        ("one short", 30, |s| s.any.only("out") && s.more == -1),
        ("shorter", 40, |s| s.any.only("out") && s.more < -1),
        ("a cursor before row 0", 15, |s| {
            s.any.accepted() && s.cur.contains(&-1)
        }),
        ("no cursor before row 0", 15, |s| {
            s.any.accepted() && !s.cur.contains(&-1)
        }),
        ("a quiet NaN", 10, |s| s.holds(|b| is_nan(b) && is_quiet(b))),
        ("a signalling NaN", 10, |s| {
            s.holds(|b| is_nan(b) && !is_quiet(b))
        }),
        ("a negative NaN", 10, |s| {
            s.holds(|b| is_nan(b) && b >> 63 == 1)
        }),
        ("a positive NaN", 10, |s| {
            s.holds(|b| is_nan(b) && b >> 63 == 0)
        }),
        ("minus zero", 10, |s| s.holds(|b| b == 1 << 63)),
        ("zero", 4, |s| s.holds(|b| b == 0)),
        ("a subnormal", 10, |s| {
            s.holds(|b| b << 1 != 0 && b << 1 >> 53 == 0)
        }),
        ("an infinity", 10, |s| s.holds(|b| b << 1 == 0x7FF << 53)),
        ("a tolerance that is NaN", 50, |s| {
            s.any.accepted() && is_nan(s.tolerance)
        }),
    ];
    must_be_common(155, 20_000, read_write, relations);
}

// ---- operation 162

struct Rewritten {
    read: u64,
    written: u64,
    rises: bool,
    short: i64,
}

fn read_rewritten(case: &Case) -> Rewritten {
    let mut from = Reader(&case.input);
    let [lb, lo] = [(); 2].map(|_| from.count());
    let bytes = unpacked(from.words(lb.div_ceil(8)), lb as u64);
    let out = from.words(lo.div_ceil(8));
    from.end();
    let mut to = Reader(&case.output);
    let [read, place, written, count] = [(); 4].map(|_| to.word());
    let after = to.words(out.len());
    to.end();
    assert!(read != 0 || place == 0);
    if read != 0 || written != 0 {
        assert!(count == 0 && after == out);
    } else {
        assert_eq!(count as usize, lb); // the same fields
        let again = read_job(&unpacked(after, count), AMPLE).unwrap();
        assert_eq!(again.words(), read_job(&bytes, AMPLE).unwrap().words());
    }
    let walked = crate::drivers::record::Walked::walk(&bytes, JOB);
    let rises = walked.is_ok_and(|w| w.fields.is_sorted_by_key(|met| met.tag));
    let short = lb as i64 - lo as i64;
    Rewritten {
        read,
        written,
        rises,
        short,
    }
}

#[test]
fn rewritten_records_are_common() {
    let relations: &[Relation<Rewritten>] = &[
        ("rewritten", 2, |s| s.read == 0 && s.written == 0),
        ("in another order", 3, |s| {
            s.read == 0 && s.written == 0 && !s.rises
        }),
        ("rising", 20, |s| s.read == 0 && s.written == 0 && s.rises),
        ("one byte short", 10, |s| s.written == 11 && s.short == 1),
        ("shorter", 10, |s| s.written == 11 && s.short > 1),
        ("longer", 6, |s| {
            s.written == 0 && s.read == 0 && s.short < 0
        }),
        ("not read", 12, |s| s.read != 0),
        ("not read, and short", 50, |s| s.read != 0 && s.short > 0),
        ("not read by 1", 800, |s| s.read == 1),
        ("not read by 2", 200, |s| s.read == 2),
        ("not read by 3", 800, |s| s.read == 3),
        ("not read by 4", 1000, |s| s.read == 4),
        ("not read by 7", 40, |s| s.read == 7),
        ("not read by 8", 60, |s| s.read == 8),
        ("not read by 9", 80, |s| s.read == 9),
        ("not read by 10", 200, |s| s.read == 10),
    ];
    must_be_common(162, 20_000, read_rewritten, relations);
}
