//! Jobs with answers, right and wrong ones, as files for `jobfile belongs`.

use super::Held;
use crate::draw::vector;
use crate::drivers::answer::Answer;
use crate::drivers::compare::Questions;
use crate::drivers::damage::{damaged, shuffle};
use crate::drivers::every_byte::EveryByte;
use crate::drivers::filterrun::{accepted, answer_of, LONGEST};
use crate::drivers::job::{draw, Job};
use crate::drivers::record::{Record, ANSWER};
use crate::words::Source;

/// What the pair is, and the two files.
type Pair = (&'static str, [Held; 2]);

pub struct Pairs {
    src: Source,
    questions: Questions,
    /// A small job, and its answer that is damaged.
    swept: (Vec<u8>, EveryByte),
}

impl Pairs {
    pub fn new(seed: u64) -> Self {
        let seed = seed.rotate_left(32);
        Pairs {
            src: Source::new(!seed),
            questions: Questions::new(seed),
            swept: Default::default(),
        }
    }

    pub fn next(&mut self) -> Pair {
        let src = &mut self.src;
        let kind = src.rng.below(20);
        match kind {
            0..=4 => return self.swept(),
            5 | 6 => return self.any_question(),
            7 => return self.unreadable(),
            8 => return self.real_filter(),
            _ => {}
        }
        let job = draw(src, LONGEST);
        let answer = answer_of(&job);
        let (kind, answer) = match kind {
            9..=11 => ("the right answer", self.in_any_order(&answer)),
            12 | 13 => ("another job's answer", self.another(job.n)),
            14 | 15 => ("a changed point", self.changed(answer)),
            16 => ("the other outcome", self.other_outcome(&job, answer)),
            17 => ("a long answer", self.long_answer()),
            _ => (
                "a damaged answer",
                damaged(src, answer.record(), ANSWER).bytes,
            ),
        };
        let mut record = job.record();
        if self.src.rng.coin() {
            shuffle(&mut self.src, &mut record);
        }
        (kind, [record.bytes(), answer].map(Held::Bytes))
    }

    fn swept(&mut self) -> Pair {
        if self.swept.1.is_over() {
            let job = draw(&mut self.src, 300);
            let answer = self.in_any_order(&answer_of(&job));
            self.swept = (job.record().bytes(), EveryByte::of(answer));
        }
        let answer = self.swept.1.next(&mut self.src);
        let held = [self.swept.0.clone(), answer].map(Held::Bytes);
        ("an answer damaged at every byte", held)
    }

    /// A job of any kind, with its own answer if it has one, or with none.
    fn any_question(&mut self) -> Pair {
        let job = self.questions.next().bytes;
        let answer = match accepted(&job) {
            Ok(job) => Held::Bytes(answer_of(&job).record().bytes()),
            Err(_) if self.src.rng.coin() => Held::Bytes(self.long_answer()),
            Err(_) => Held::Missing,
        };
        ("any job", [Held::Bytes(job), answer])
    }

    fn real_filter(&mut self) -> Pair {
        let job = self.questions.real_filter().bytes;
        let answer = accepted(&job).map(|job| answer_of(&job).record().bytes());
        let answer = answer.unwrap_or_default();
        ("a real filter", [job, answer].map(Held::Bytes))
    }

    fn unreadable(&mut self) -> Pair {
        let job = draw(&mut self.src, 1000);
        let answer = answer_of(&job).record().bytes();
        let mut held = [job.record().bytes(), answer].map(Held::Bytes);
        let (both, which) = (self.src.rng.once_in(4), self.src.rng.below(2) as usize);
        for (at, held) in held.iter_mut().enumerate() {
            if both || at == which {
                *held = match self.src.rng.below(6) {
                    0 | 1 => Held::Missing,
                    2 | 3 => Held::Directory,
                    4 => Held::Behind,
                    _ => Held::LongName,
                };
            }
        }
        ("a file that cannot be read", held)
    }

    fn in_any_order(&mut self, answer: &Answer) -> Vec<u8> {
        let mut record = answer.record();
        if self.src.rng.once_in(3) {
            shuffle(&mut self.src, &mut record);
        }
        record.bytes()
    }

    /// Mostly of the same n.
    fn another(&mut self, n: usize) -> Vec<u8> {
        let mut other = draw(&mut self.src, 2000);
        for _ in 0..12 {
            if other.n != n {
                other = draw(&mut self.src, 2000);
            }
        }
        self.in_any_order(&answer_of(&other))
    }

    fn changed(&mut self, mut answer: Answer) -> Vec<u8> {
        if let Some(point) = &mut answer.point {
            let at = self.src.rng.below(point.len() as u64) as usize;
            point[at] = match self.src.rng.below(3) {
                0 => self.src.any(),
                1 => self.src.neighbour(point[at]),
                _ => point[at] * 1.5,
            };
        }
        self.in_any_order(&answer)
    }

    /// None where one was found, else the job's own point or any.
    fn other_outcome(&mut self, job: &Job, answer: Answer) -> Vec<u8> {
        let point = match answer.point {
            Some(_) => None,
            None if self.src.rng.coin() => Some(job.x.clone()),
            None => Some(vector(&mut self.src, job.n)),
        };
        let steps = answer.steps;
        self.in_any_order(&Answer { point, steps })
    }

    /// 65,535 to 65,537 bytes, the point's field filling them.
    fn long_answer(&mut self) -> Vec<u8> {
        let len = LONGEST - 1 + self.src.rng.below(3) as usize;
        let mut record = Record::default();
        record.push(0x20, vec![1]);
        record.push(0x21, vec![7, 0]);
        record.push(0x22, vec![0; len - 12]);
        record.bytes()
    }
}
