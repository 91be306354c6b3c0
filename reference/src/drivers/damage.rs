//! Records with fields in any order, and damaged ones.

use super::record::{short, Field, Record, Rule, ROW};
use crate::words::Source;

/// What can be wrong with a record, in the order in which a reader finds it. The first four are
/// found in the walk, where the field in front comes first.
#[derive(Clone, Copy, Debug, PartialEq, PartialOrd)]
pub enum Fault {
    Header,
    Foreign,
    Repeated,
    Content,
    Missing,
    LengthOfN,
    Range,
    Length,
    Bands,
    Cursor,
    Outcome,
}

use Fault::*;

const OF_JOB: [Fault; 10] = [
    Header, Foreign, Repeated, Content, Missing, LengthOfN, Range, Length, Bands, Cursor,
];
const OF_ANSWER: [Fault; 7] = [Header, Foreign, Repeated, Content, Missing, Length, Outcome];

pub fn faults(rules: &[Rule]) -> &'static [Fault] {
    if rules[0].tag == 0x01 {
        &OF_JOB
    } else {
        &OF_ANSWER
    }
}

/// Puts a fault into a record, in the front or at the end; a record that lacks the field stays.
/// Faults that are put in one after the other use different fields where they can.
pub fn put(fault: Fault, src: &mut Source, record: &mut Record, rules: &[Rule], back: bool) {
    let job = rules[0].tag == 0x01;
    let of = |of_job, of_answer| if job { of_job } else { of_answer };
    match fault {
        Header => {
            record.tail = src
                .rng
                .pick(&[&[0x07][..], &[0x01, 0x02], &[0x7F]])
                .to_vec()
        }
        Foreign => {
            let other = of(0x20, 0x01);
            let tag = src.rng.pick(&[0x7F, 0x00, 0x0A, 0x1F, 0x23, 0xFF, other]);
            let content = vec![0; src.rng.below(3) as usize];
            insert(record, Field::new(tag, content), back);
        }
        Repeated => repeat(record, of(0x09, 0x20), back),
        Content => edit(record, of(0x08, 0x22), back, |f| f.len = 0xFFFF),
        Missing => drop(taken(record, of(0x07, 0x21))),
        Length => {
            let tag = src.rng.pick(&[0x03, 0x05, ROW]);
            edit(record, of(tag, 0x20), back, |f| wrong_length(src, f));
        }
        LengthOfN => edit(record, 0x01, back, |f| wrong_length(src, f)),
        Range => {
            let n = src.rng.pick(&[0, 1, 33, 0x0200, 0x2000, 0xFFFF]);
            edit(record, 0x01, back, |f| set_short(f, 0, n));
        }
        Bands => spoil_bands(src, record, back),
        Cursor => spoil_cursor(src, record, back),
        Outcome => {
            let outcome = src.rng.pick(&[0, 2, 2, 0x80]);
            let set = |f: &mut Field| f.content.first_mut().into_iter().for_each(|b| *b = outcome);
            edit(record, 0x20, back, set);
        }
    }
}

/// One byte less or more, eight more, or none.
fn wrong_length(src: &mut Source, field: &mut Field) {
    let len = field.content.len();
    let none = if len == 0 { 2 } else { 0 };
    field.resize(src.rng.pick(&[none, len.max(1) - 1, len + 1, len + 8]));
}

fn insert(record: &mut Record, field: Field, back: bool) {
    let at = if back { record.fields.len() } else { 0 };
    record.fields.insert(at, field);
}

fn taken(record: &mut Record, tag: u8) -> Option<Field> {
    let at = record.find(tag)?;
    Some(record.fields.remove(at))
}

/// Changes the tag's first field and moves it.
fn edit(record: &mut Record, tag: u8, back: bool, change: impl FnOnce(&mut Field)) {
    if let Some(mut field) = taken(record, tag) {
        change(&mut field);
        insert(record, field, back);
    }
}

fn repeat(record: &mut Record, tag: u8, back: bool) {
    if let Some(field) = taken(record, tag) {
        insert(record, field.clone(), back);
        insert(record, field, back);
    }
}

fn set_short(field: &mut Field, at: usize, value: u16) {
    if let Some(place) = field.content.get_mut(at..at + 2) {
        place.copy_from_slice(&value.to_le_bytes());
    }
}

fn rows(record: &Record) -> u16 {
    let rows = record.fields.iter().filter(|f| f.tag == ROW);
    rows.count() as u16
}

fn spoil_bands(src: &mut Source, record: &mut Record, back: bool) {
    let rows = rows(record);
    edit(record, 0x02, back, |f| match src.rng.below(4) {
        0 => set_short(f, 2, rows + 1),
        1 => set_short(f, 0, rows + 1),
        2 => set_short(f, 0, 0xFFFF),
        _ => {
            set_short(f, 0, 3);
            set_short(f, 2, 2);
        }
    });
}

/// A cursor just outside its band, or far.
fn spoil_cursor(src: &mut Source, record: &mut Record, back: bool) {
    let rows = rows(record);
    let Some(at) = record.find(0x02) else { return };
    let bands = &record.fields[at].content;
    if bands.len() != 4 {
        return;
    }
    let (nwpass, nwstop) = (short(bands, 0), short(bands, 2));
    let ends = [(0, nwpass), (nwpass, nwstop), (nwstop, rows)];
    let which = src.rng.below(3) as usize;
    let (lo, hi) = ends[which];
    let far = src.rng.pick(&[0x8000, 0x7FFF, 1024]);
    let cur = src
        .rng
        .pick(&[lo.wrapping_sub(2), hi, lo.wrapping_sub(2), hi, far]);
    edit(record, 0x06, back, |f| set_short(f, 2 * which, cur));
}

/// A record's bytes, and how they came about.
pub struct Damage {
    pub bytes: Vec<u8>,
    pub kind: &'static str,
}

/// The record in any order of its fields, often damaged.
pub fn damaged(src: &mut Source, mut record: Record, rules: &[Rule]) -> Damage {
    if src.rng.coin() {
        shuffle(src, &mut record);
    }
    if src.rng.once_in(3) {
        change_nans(src, &mut record);
    }
    match src.rng.below(12) {
        0..=4 => Damage {
            bytes: record.bytes(),
            kind: "whole",
        },
        5..=8 => {
            for _ in 0..1 + src.rng.below(3) {
                if src.rng.once_in(3) {
                    spoil_field(src, &mut record, rules);
                    continue;
                }
                let fault = src.rng.pick(faults(rules));
                let back = src.rng.coin();
                put(fault, src, &mut record, rules, back);
            }
            let bytes = record.bytes();
            Damage {
                bytes,
                kind: "faulty fields",
            }
        }
        _ => damaged_bytes(src, record.bytes()),
    }
}

/// Removes, repeats, lengthens, shortens or renames any field.
fn spoil_field(src: &mut Source, record: &mut Record, rules: &[Rule]) {
    let count = record.fields.len() as u64;
    if count == 0 {
        return;
    }
    let at = src.rng.below(count) as usize;
    let field = &mut record.fields[at];
    match src.rng.below(6) {
        0 => drop(record.fields.remove(at)),
        1 => {
            let copy = field.clone();
            let to = src.rng.below(count + 1) as usize;
            record.fields.insert(to, copy);
        }
        2 | 3 => wrong_length(src, field),
        4 => field.len = src.rng.pick(&[0, field.len ^ 1, field.len ^ 0x100, 0xFFFF]),
        _ => field.tag = src.rng.pick(rules).tag,
    }
}

pub fn shuffle(src: &mut Source, record: &mut Record) {
    for at in (1..record.fields.len()).rev() {
        let other = src.rng.below(at as u64 + 1) as usize;
        record.fields.swap(at, other);
    }
}

/// Other NaNs for the one that is written, which must count as the same.
fn change_nans(src: &mut Source, record: &mut Record) {
    for field in &mut record.fields {
        let from = if field.tag == 0x09 { 2 } else { 0 };
        for word in field.content[from..].chunks_exact_mut(8) {
            if f64::from_le_bytes((&*word).try_into().unwrap()).is_nan() {
                let bits = src.rng.next() | 0x7FF0_0000_0000_0001;
                word.copy_from_slice(&bits.to_le_bytes());
            }
        }
    }
}

/// A place of the record, more often near its beginning, where the short fields are.
fn place(src: &mut Source, len: usize) -> usize {
    let end = if src.rng.coin() { len.min(64) } else { len };
    src.rng.below(end as u64) as usize
}

fn damaged_bytes(src: &mut Source, mut bytes: Vec<u8>) -> Damage {
    let at = place(src, bytes.len());
    let byte = src.rng.next() as u8;
    let kind = match src.rng.below(6) {
        0 | 1 => {
            bytes.truncate(at);
            "cut short"
        }
        2 | 3 => {
            bytes[at] = src
                .rng
                .pick(&[byte, bytes[at] ^ 1, bytes[at] ^ 0x80, 0, 0xFF]);
            "a byte changed"
        }
        4 => {
            let more = 1 + src.rng.below(4);
            bytes.extend((0..more).map(|k| byte.wrapping_add(k as u8)));
            "bytes appended"
        }
        _ if src.rng.coin() => {
            bytes.remove(at);
            "a byte removed"
        }
        _ => {
            bytes.insert(at, byte);
            "a byte inserted"
        }
    };
    Damage { bytes, kind }
}
