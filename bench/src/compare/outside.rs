//! The port's programs: whole jobs through `filterrun`, and fresh lists through the replays.

use super::Tally;
use generator::drivers::compare::{answers, difference, Question, Questions};
use generator::layers::{Layer, LAYERS};
use std::fs;
use std::io::{self, BufWriter};
use std::path::{Path, PathBuf};
use std::process::{Command, Stdio};
use std::thread;
use std::time::Instant;

/// Cases in one list; a third of a round has several.
const LIST: u64 = 1500;

/// The program, the replays beside it, and which of them is next.
pub struct Programs {
    filterrun: String,
    replays: Vec<(&'static Layer, PathBuf)>,
    next: usize,
}

impl Programs {
    pub fn new(filterrun: &str) -> Result<Self, String> {
        let folder = Path::new(filterrun).parent().unwrap_or(Path::new("."));
        let replay = |layer: &Layer| folder.join(format!("{}_vectors", layer.name));
        let replays: Vec<_> = LAYERS.iter().map(|layer| (layer, replay(layer))).collect();
        let filterrun = filterrun.to_string();
        for file in replays
            .iter()
            .map(|(_, file)| file.as_path())
            .chain([filterrun.as_ref()])
        {
            if !file.is_file() {
                return Err(format!("there is no program {}", file.display()));
            }
        }
        Ok(Programs {
            filterrun,
            replays,
            next: 0,
        })
    }

    /// Replays lists of the three layers in turn.
    pub fn replay(&mut self, seed: u64, until: Instant, tally: &mut Tally) -> Result<(), String> {
        let mut seed = seed;
        while Instant::now() < until {
            let (layer, program) = &self.replays[self.next % self.replays.len()];
            let printed = replayed(layer, program, seed);
            let printed = printed.map_err(|e| format!("{}: {e}", program.display()))?;
            let name = format!("list of {}", layer.name);
            let (agree, differ) = counted(&printed);
            tally.add(&name, agree, None);
            if differ > 0 {
                tally.add(&name, differ, Some(format!("seed {seed}\n{printed}")));
            }
            self.next += 1;
            seed = seed.wrapping_add(1);
        }
        Ok(())
    }
}

/// How many cases agree and differ by the last line; all differ if it does not count them all.
fn counted(printed: &str) -> (u64, u64) {
    let last = printed.lines().last().unwrap_or("");
    let counts = last.strip_suffix(" differ");
    let counts = counts.and_then(|counts| counts.split_once(" agree, "));
    let counts = counts.and_then(|(a, d)| Some((a.parse().ok()?, d.parse().ok()?)));
    counts
        .filter(|(a, d): &(u64, u64)| a.checked_add(*d) == Some(LIST))
        .unwrap_or((0, LIST))
}

/// What the program prints for a fresh list.
fn replayed(layer: &Layer, program: &Path, seed: u64) -> io::Result<String> {
    let wheel = layer.wheel(&[])?;
    let mut command = Command::new(program);
    let mut child = command
        .stdin(Stdio::piped())
        .stdout(Stdio::piped())
        .spawn()?;
    let mut to = BufWriter::with_capacity(1 << 16, child.stdin.take().unwrap());
    thread::scope(|scope| {
        // A program that stops reading prints fewer cases, which shows.
        scope.spawn(move || layer.write_drawn(&wheel, seed, LIST, &mut to));
        let printed = child.wait_with_output()?.stdout;
        Ok(String::from_utf8_lossy(&printed).into_owned())
    })
}

/// Jobs in the order of the generator's own comparison.
pub struct Jobs {
    questions: Questions,
    /// The first job that differs is kept in this file.
    file: Option<String>,
}

impl Jobs {
    pub fn new(seed: u64) -> Self {
        Jobs {
            questions: Questions::new(seed),
            file: Some(format!("differs-{seed}.job")),
        }
    }

    pub fn compare(
        &mut self,
        programs: &Programs,
        until: Instant,
        tally: &mut Tally,
    ) -> Result<(), String> {
        while Instant::now() < until {
            let asked = [self.questions.next(), self.questions.next()];
            let answers = answers(&programs.filterrun, &asked);
            for (question, answer) in asked.iter().zip(answers) {
                let (expected, got) = answer.map_err(|e| format!("{}: {e}", programs.filterrun))?;
                let differ = expected.as_bytes() != got;
                let what = differ.then(|| self.parting(question, expected.as_bytes(), &got));
                tally.add("job", 1, what);
            }
        }
        Ok(())
    }

    fn parting(&mut self, question: &Question, expected: &[u8], got: &[u8]) -> String {
        let what = format!("{}, {}", question.kind, difference(expected, got));
        match self.file.take() {
            Some(file) if fs::write(&file, &question.bytes).is_ok() => {
                format!("job in {file}, {what}")
            }
            _ => what,
        }
    }
}

#[cfg(test)]
mod tests {
    use super::*;

    #[test]
    fn last_lines() {
        assert_eq!(
            counted("1: 7 agree, 0 differ\n1500 agree, 0 differ\n"),
            (1500, 0)
        );
        assert_eq!(counted("1499 agree, 1 differ"), (1499, 1));
        assert_eq!(counted("1499 agree, 0 differ"), (0, 1500));
        assert_eq!(counted(""), (0, 1500));
    }
}
