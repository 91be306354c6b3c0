//! Records of jobs for `jobfile file` and `jobfile limits`.

use crate::drivers::compare::Questions;
use crate::drivers::damage::shuffle;
use crate::drivers::filterrun::LONGEST;
use crate::drivers::write_job::draw_rare;
use crate::words::Source;

pub struct Records {
    src: Source,
    questions: Questions,
}

impl Records {
    pub fn new(seed: u64) -> Self {
        let seed = seed.rotate_left(16);
        Records {
            src: Source::new(!seed),
            questions: Questions::new(seed),
        }
    }

    /// What the record is, and its bytes. The jobs of `compare-runs` are among them.
    pub fn next(&mut self) -> (&'static str, Vec<u8>) {
        let kind = self.src.rng.below(10);
        if kind > 5 {
            let question = self.questions.next();
            return (question.kind, question.bytes);
        }
        let job = draw_rare(&mut self.src, LONGEST);
        let mut record = job.record();
        match kind {
            0..=2 => shuffle(&mut self.src, &mut record),
            3 => record.fields.reverse(),
            4 => {}
            _ => return ("a record that the writer made", job.filed().bytes()),
        }
        let kind = ["in any order", "rising"][(kind == 4) as usize];
        (kind, record.bytes())
    }
}
