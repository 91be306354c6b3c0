//! An answer record, read and written: operations 151 and 152.

use super::damage::{damaged, Damage};
use super::job::give_refusal;
use super::record::{floats, no, short, No, Record, Walked, ANSWER};
use crate::draw::{dimension, vector};
use crate::lengths::{contents, outside, resize, wrong, LARGEST};
use crate::lists::Case;
use crate::words::{word, Source};

#[derive(Clone, Debug)]
pub struct Answer {
    pub point: Option<Vec<f64>>,
    pub steps: u16,
}

impl Answer {
    /// Rising tags; every NaN is written as one.
    pub fn record(&self) -> Record {
        let mut record = Record::default();
        record.push(0x20, vec![self.point.is_some() as u8]);
        record.push(0x21, self.steps.to_le_bytes().to_vec());
        if let Some(point) = &self.point {
            let content = point.iter().flat_map(|&x| word(x).to_le_bytes());
            record.push(0x22, content.collect());
        }
        record
    }
}

fn legal(n: u64) -> bool {
    (2..=LARGEST).contains(&n)
}

/// `room` is how many floats the output for the point holds.
pub fn read_answer(n: u64, bytes: &[u8], room: usize) -> Result<Answer, No> {
    if !legal(n) {
        return no(1, 0);
    }
    let walked = Walked::walk(bytes, ANSWER)?;
    walked.lengths(n as usize)?;
    let outcome = walked.the(0x20);
    let point = walked.get(0x22).map(|met| floats(met.content));
    let found = outcome.content[0];
    if found > 1 || (found == 1) != point.is_some() {
        return no(12, outcome.at);
    }
    if found == 1 && (room as u64) < n {
        return no(11, 0);
    }
    let steps = short(walked.the(0x21).content, 0);
    Ok(Answer { point, steps })
}

fn draw(src: &mut Source) -> (u64, Answer) {
    let n = dimension(src);
    let point = (!src.rng.once_in(3)).then(|| vector(src, n));
    let any = src.rng.next() as u16;
    let steps = src.rng.pick(&[0, 1, 255, 256, 2000, 65_535, any]);
    (n as u64, Answer { point, steps })
}

pub fn read_any(src: &mut Source, case: &mut Case) {
    let (mut n, answer) = draw(src);
    let Damage { mut bytes, .. } = damaged(src, answer.record(), ANSWER);
    let mut room = n as usize;
    match src.rng.below(10) {
        0 => n = outside(src, 2),
        1 => n = dimension(src) as u64,
        2 => room += 1 + src.rng.below(3) as usize,
        3 | 4 => room = src.rng.pick(&[0, room - 1]),
        _ => {}
    }
    if src.rng.once_in(20) {
        outcome_of(src, &mut bytes);
    }
    read_of(n, &bytes, contents(src, room), case);
}

/// Changes the outcome where the record still begins with it.
fn outcome_of(src: &mut Source, bytes: &mut [u8]) {
    if let [0x20, _, _, outcome, ..] = bytes {
        *outcome = src.rng.pick(&[0, 1, 2, 255]);
    }
}

pub fn read_of(n: u64, bytes: &[u8], mut held: Vec<f64>, case: &mut Case) {
    case.take(n);
    case.take(bytes.len() as u64);
    case.take(held.len() as u64);
    case.take_bytes(bytes);
    case.take_floats(&held);
    match read_answer(n, bytes, held.len()) {
        Err(refused) => give_refusal(refused, case),
        Ok(answer) => {
            case.output.extend([0, 0]);
            case.give(answer.point.is_some() as u64);
            case.give(answer.steps as u64);
            if let Some(point) = &answer.point {
                held[..point.len()].copy_from_slice(point);
            }
        }
    }
    case.give_floats(&held);
}

pub fn write_any(src: &mut Source, case: &mut Case) {
    let (mut n, answer) = draw(src);
    let found = answer.point.is_some();
    let mut point = answer.point.unwrap_or_else(|| vector(src, n as usize));
    let needed = needed(n, found);
    let mut out: Vec<u8> = (0..needed).map(|_| src.rng.next() as u8).collect();
    match src.rng.below(10) {
        0 => n = outside(src, 2),
        1 | 2 => {
            let len = wrong(src, n as usize, point.len());
            resize(src, &mut point, len);
        }
        3 | 4 => out.truncate(src.rng.pick(&[0, 8, needed - 1, needed - 8])),
        5 | 6 => out.extend((0..1 + src.rng.below(20)).map(|k| k as u8)),
        _ => {}
    }
    if src.rng.once_in(10) {
        out.truncate(src.rng.below(needed as u64) as usize);
    }
    write_of(n, found, answer.steps, point, out, case);
}

fn needed(n: u64, found: bool) -> usize {
    if found {
        12 + 8 * n as usize
    } else {
        9
    }
}

pub fn write_of(
    n: u64,
    found: bool,
    steps: u16,
    point: Vec<f64>,
    mut out: Vec<u8>,
    case: &mut Case,
) {
    for count in [n, found as u64, steps as u64] {
        case.take(count);
    }
    case.take(point.len() as u64);
    case.take(out.len() as u64);
    case.take_floats(&point);
    case.take_bytes(&out);
    let number = if !legal(n) {
        1
    } else if point.len() as u64 != n {
        2
    } else if out.len() < needed(n, found) {
        11
    } else {
        0
    };
    case.give(number);
    let mut count = 0;
    if number == 0 {
        let point = found.then_some(point);
        let bytes = Answer { point, steps }.record().bytes();
        count = bytes.len();
        out[..count].copy_from_slice(&bytes);
    }
    case.give(count as u64);
    case.give_bytes(&out);
}
