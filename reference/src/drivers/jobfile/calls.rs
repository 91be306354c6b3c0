//! The calls of a comparison, in the order in which they are made.

use super::limit_words::{right, wrong};
use super::pairs::Pairs;
use super::records::Records;
use super::{By, Call, Held};
use crate::drivers::compare::Questions;
use crate::words::Source;
use std::io::{self, ErrorKind};

/// Names for a job and its answer.
const NAMES: [[&[u8]; 2]; 7] = [
    [b"job", b"answer"],
    [b"a job", b"its answer"],
    [b"-", b"--help"],
    [b"\xC3\xA4.job", "\u{2203}".as_bytes()],
    [b"\xFF.job", b"\x01\n"], // no text
    [b"./job", b"folder/answer"],
    [&[b'j'; 255], &[b'a'; 255]],
];

type Draw = fn(&mut Calls) -> Call;

/// The commands, how many of a hundred calls each has, and what draws one.
const COMMANDS: [(&str, u64, Draw); 5] = [
    ("usage", 3, Calls::usage),
    ("answer", 30, Calls::answer),
    ("belongs", 32, Calls::belongs),
    ("file", 20, Calls::file),
    ("limits", 15, Calls::limits),
];

/// What draws a command's calls.
pub fn draw_of(name: &str) -> io::Result<Draw> {
    let known = COMMANDS.iter().find(|command| command.0 == name);
    known.map(|command| command.2).ok_or_else(|| {
        let names = COMMANDS.map(|command| command.0).join(" ");
        let what = format!("--only {name}: no such command, there are {names}");
        io::Error::new(ErrorKind::InvalidInput, what)
    })
}

const LONG: &[u8] = &[b'a'; 100_000];

/// Words that no command has.
const WRONG: [&[&[u8]]; 28] = [
    &[],
    &[b""],
    &[b"", b"answer"],
    &[b"Answer"],
    &[b"answer "],
    &[b"answers"],
    &[b"answe"],
    &[b"answer", b"x"],
    &[b"answer", b""],
    &[b"belongs"],
    &[b"belongs", b"a"],
    &[b"belongs", b"a", b"b", b"c"],
    &[b"Belongs", b"a", b"b"],
    &[b"file", b"x"],
    &[b"file", b""],
    &[b"file", b"-", b"-", b"-"],
    &[b"File"],
    &[b"files"],
    &[b"limits"],
    &[b"Limits", b"-", b"-", b"-"],
    &[b"limit", b"-", b"-", b"-"],
    &[b"limits ", b"-", b"-", b"-"],
    &[b"answer", b"-", b"-", b"-"],
    &[b"-", b"-", b"-"],
    &[b"--help"],
    &[b"\xFF"],
    &[LONG],
    &[LONG, b"a", b"b"],
];

pub struct Calls {
    src: Source,
    questions: Questions,
    pairs: Pairs,
    records: Records,
    /// Draws all calls, if they are of one command.
    only: Option<Draw>,
}

impl Calls {
    pub fn new(seed: u64, only: Option<Draw>) -> Self {
        Calls {
            src: Source::new(!seed),
            questions: Questions::new(seed),
            pairs: Pairs::new(seed),
            records: Records::new(seed),
            only,
        }
    }

    pub fn next(&mut self) -> Call {
        let draw = self.only.unwrap_or_else(|| self.any_command());
        draw(self)
    }

    fn any_command(&mut self) -> Draw {
        let mut left = self.src.rng.below(100);
        for (_, share, draw) in COMMANDS {
            if left < share {
                return draw;
            }
            left -= share;
        }
        unreachable!("the shares add up to a hundred")
    }

    fn usage(&mut self) -> Call {
        let words = self.src.rng.pick(&WRONG);
        Call {
            kind: "usage".into(),
            words: words.iter().map(|word| word.to_vec()).collect(),
            full: self.src.rng.once_in(8),
            ..self.quiet()
        }
    }

    /// A call that brings nothing yet; what standard input is should not matter.
    fn quiet(&mut self) -> Call {
        let input = match self.src.rng.below(3) {
            0 => Held::Directory,
            1 => Held::Bytes(b"a word".to_vec()),
            _ => Held::Bytes(Vec::new()),
        };
        Call {
            kind: String::new(),
            words: Vec::new(),
            input,
            by: By::File,
            files: Vec::new(),
            full: false,
        }
    }

    fn answer(&mut self) -> Call {
        let question = self.questions.next();
        self.fed("answer", question.kind, question.bytes)
    }

    /// A command that reads a job from standard input.
    fn fed(&mut self, command: &str, mut kind: &str, bytes: Vec<u8>) -> Call {
        let mut input = Held::Bytes(bytes);
        let full = self.src.rng.once_in(40);
        if full {
            kind = "no space left";
        } else if self.src.rng.once_in(60) {
            (input, kind) = (Held::Directory, "standard input is a directory");
        }
        Call {
            kind: format!("{command}, {kind}"),
            words: vec![command.into()],
            input,
            by: match self.src.rng.below(40) {
                0 => By::SlowPipe,
                1..=25 => By::Pipe,
                _ => By::File,
            },
            full,
            ..self.quiet()
        }
    }

    fn file(&mut self) -> Call {
        let (kind, bytes) = self.records.next();
        self.fed("file", kind, bytes)
    }

    /// Where the words are wrong, what standard input is should not matter.
    fn limits(&mut self) -> Call {
        let (kind, bytes) = self.records.next();
        let mut call = self.fed("limits", kind, bytes);
        let src = &mut self.src;
        call.words.extend((0..3).map(|_| right(src)));
        if src.rng.once_in(5) {
            call.kind = "limits, wrong words".into();
            spoil_words(src, &mut call.words);
        }
        call
    }

    fn belongs(&mut self) -> Call {
        let (kind, held) = self.pairs.next();
        let mut names = self.src.rng.pick(&NAMES).map(<[u8]>::to_vec);
        for (name, held) in names.iter_mut().zip(&held) {
            self.rename(name, held);
        }
        let full = self.src.rng.once_in(40);
        let [job, answer] = names;
        let mut words = vec![b"belongs".to_vec(), job.clone(), answer.clone()];
        if self.src.rng.once_in(60) {
            words.swap(1, 2);
        } else if self.src.rng.once_in(60) {
            words[2] = job.clone();
        }
        let [of_job, of_answer] = held;
        Call {
            kind: format!("belongs, {}", if full { "no space left" } else { kind }),
            words,
            files: vec![(job, of_job), (answer, of_answer)],
            full,
            ..self.quiet()
        }
    }

    /// What cannot be read has a name of its own.
    fn rename(&mut self, name: &mut Vec<u8>, held: &Held) {
        let names: &[&[u8]] = match held {
            Held::Bytes(_) => return,
            Held::Directory => &[b".", b"folder", b"folder/", b"/"],
            Held::Missing => &[b"missing", b"", b"folder/missing", b"no/folder"],
            Held::Behind => &[b"file/job", b"/dev/null/job"],
            Held::LongName => &[&[b'n'; 256], &[b'/'; 4096], &[b'/'; 4097]],
        };
        *name = self.src.rng.pick(names).to_vec();
    }
}

/// One of the three is wrong, or there are fewer or more.
fn spoil_words(src: &mut Source, words: &mut Vec<Vec<u8>>) {
    match src.rng.below(6) {
        0 => words.truncate(src.rng.range(1, 3) as usize),
        1 => words.push(right(src)),
        2 => words.push(Vec::new()),
        _ => words[src.rng.range(1, 3) as usize] = wrong(src),
    }
}
