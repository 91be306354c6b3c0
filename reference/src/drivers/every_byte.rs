//! A record damaged at every byte, one damage after the other.

use crate::words::Source;

#[derive(Default)]
pub struct EveryByte {
    record: Vec<u8>,
    next: usize,
}

impl EveryByte {
    pub fn of(record: Vec<u8>) -> Self {
        EveryByte { record, next: 0 }
    }

    pub fn is_over(&self) -> bool {
        self.next == 5 * self.record.len()
    }

    /// Each byte is changed twice, removed and doubled, and ends the record.
    pub fn next(&mut self, src: &mut Source) -> Vec<u8> {
        let mut bytes = self.record.clone();
        let at = self.next / 5;
        match self.next % 5 {
            0 => bytes[at] ^= 1 << src.rng.below(8),
            1 => bytes[at] = bytes[at].wrapping_add(src.rng.next() as u8 | 1),
            2 => drop(bytes.remove(at)),
            3 => bytes.insert(at, bytes[at]),
            _ => bytes.truncate(at),
        }
        self.next += 1;
        bytes
    }
}
