//! The words of `jobfile limits`, right and wrong ones.

use crate::drivers::write_job::rare;
use crate::words::Source;

/// `-`, or 16 hexadecimal digits.
pub fn right(src: &mut Source) -> Vec<u8> {
    if src.rng.once_in(4) {
        return b"-".to_vec();
    }
    let bits = rare(src).to_bits();
    in_any_case(src, format!("{bits:016X}").into_bytes())
}

/// Upper, lower or mixed case.
fn in_any_case(src: &mut Source, mut digits: Vec<u8>) -> Vec<u8> {
    let case = src.rng.below(3);
    for digit in &mut digits {
        if case == 0 || case == 1 && src.rng.coin() {
            digit.make_ascii_lowercase();
        }
    }
    digits
}

fn digits(src: &mut Source, count: usize) -> Vec<u8> {
    let digits = (0..count).map(|_| src.rng.pick(b"0123456789ABCDEF"));
    let digits = digits.collect();
    in_any_case(src, digits)
}

/// Words that are near a right one, or far from it.
const OTHERS: [&[u8]; 12] = [
    b"",
    b"--",
    b"-0",
    b"- ",
    b" -",
    b"\xE2\x80\x93", // another dash
    b"1.0",
    b"nan",
    b"inf",
    b"0",
    b"\xFF",
    b"-3FF0000000000000",
];

pub fn wrong(src: &mut Source) -> Vec<u8> {
    let count = match src.rng.below(8) {
        0 | 1 => return src.rng.pick(&OTHERS).to_vec(),
        2 => src.rng.pick(&[1, 2, 8, 14, 18, 32, 4096, 100_000]),
        3 => 15,
        4 => 17,
        _ => return spoiled(src),
    };
    digits(src, count)
}

/// 16 bytes of which one is no digit: mostly one beside the digits, a sign or a space.
fn spoiled(src: &mut Source) -> Vec<u8> {
    let mut word = digits(src, 16);
    let any = src.rng.next() as u8;
    let other = src.rng.pick(b"gG/:@`+- .xX\n\x7F");
    let other = match src.rng.coin() {
        true if any != 0 && !any.is_ascii_hexdigit() => any,
        _ => other,
    };
    let at = src.rng.pick(&[0, 0, 1, 8, 14, 15, 15]);
    word[at] = other;
    word
}
