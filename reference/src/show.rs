//! Lists for people: as text, and counted.

use crate::lists::Case;
use crate::LAYERS;
use std::collections::BTreeMap;
use std::io::{self, Read, Write};

/// One case a line: its name, its input words and its output words.
pub fn show(from: &mut impl Read, to: &mut impl Write) -> io::Result<bool> {
    let mut case = Case::default();
    while case.read(from)? {
        writeln!(
            to,
            "{} {}:{} ->{}",
            case.op,
            name(case.op),
            hex(&case.input),
            hex(&case.output)
        )?;
    }
    to.flush()?;
    Ok(true)
}

/// For each operation: its cases and bytes, and how often its first output word is 0, 1, 2 and
/// so on where that word is a status, a refusal or a kind of answer.
pub fn count(from: &mut impl Read, to: &mut impl Write) -> io::Result<bool> {
    let mut case = Case::default();
    let mut tally: BTreeMap<u64, [u64; 15]> = BTreeMap::new();
    while case.read(from)? {
        let row = tally.entry(case.op).or_default();
        row[0] += 1;
        row[1] += 8 * (3 + case.input.len() + case.output.len()) as u64;
        if let Some(&first @ 0..=12) = case.output.first() {
            row[2 + first as usize] += 1;
        }
    }
    for (op, [cases, bytes, answers @ ..]) in tally {
        let last = answers.iter().rposition(|&count| count > 0);
        let shown = &answers[..=last.unwrap_or(0).max(2)];
        let answers = if tells(op) {
            format!(", first word {shown:?}")
        } else {
            String::new()
        };
        writeln!(
            to,
            "{op} {}: {cases} cases, {bytes} bytes{answers}",
            name(op)
        )?;
    }
    to.flush()?;
    Ok(true)
}

/// Whether the first output word is a status, a refusal or a kind of answer.
fn tells(op: u64) -> bool {
    matches!(op, 20..=28 | 42 | 43 | 50 | 53 | 60 | 61 | 70 | 71 | 100..=129 | 140..=155 | 162)
}

fn name(op: u64) -> &'static str {
    let ops = LAYERS.iter().flat_map(|layer| layer.ops);
    ops.filter(|known| known.0 == op)
        .map(|known| known.1)
        .next()
        .unwrap_or("unknown")
}

fn hex(words: &[u64]) -> String {
    words.iter().map(|w| format!(" {w:016X}")).collect()
}
