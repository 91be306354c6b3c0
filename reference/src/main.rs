//! Writes, checks and shows lists of the published Rust's answers, and runs jobs with it.

mod draw;
mod drivers;
mod layers;
mod lengths;
mod lists;
mod numbers;
mod oracles;
mod rng;
mod show;
mod sqrt_check;
#[cfg(test)]
mod testing;
mod words;

use ellalgo_rs::arr::Arr;
use layers::{Layer, LAYERS};
use std::env;
use std::io::{self, BufReader, BufWriter, ErrorKind, Write};
use std::process::ExitCode;

const USAGE: &str = "usage:
  reference gen LAYER --seed S --count N [--only OP[,OP..]]   write a list to standard output
  reference gate LAYER                                        write the list that the gate replays
  reference check-sqrt                                        check the roots of a list
  reference count                                             count a list's cases and answers
  reference show                                              print a list as text
  reference filterrun                                         run a job as the program does
  reference compare-runs --program PATH --seed S --count N    compare a program's texts with the Rust's
  reference compare-jobfile --program PATH --seed S --count N [--only COMMAND]
                                                              compare what the program jobfile says
  reference job-to-text                                       a job or answer record as plain text
  reference job-from-text                                     and back
  reference example lowpass --n N [--rows R] ..               a real filter's job, see examples/README.md
  reference answer                                            run a job and write its answer record
layers: numbers, oracles, drivers";

fn main() -> ExitCode {
    let args: Vec<String> = env::args().skip(1).collect();
    let args: Vec<&str> = args.iter().map(String::as_str).collect();
    let done = match args[..] {
        ["gen", layer, ref rest @ ..] => gen(layer, rest),
        ["gate", layer] => gate(layer),
        ["check-sqrt"] => sqrt_check::check(&mut input(), &mut output()),
        ["count"] => show::count(&mut input(), &mut output()),
        ["show"] => show::show(&mut input(), &mut output()),
        ["filterrun"] => drivers::filterrun::run(&mut input(), &mut output()),
        ["answer"] => drivers::filterrun::answer(&mut input(), &mut output()),
        ["job-to-text"] => drivers::plain::to_text(&mut input(), &mut output()),
        ["job-from-text"] => drivers::plain::from_text(&mut input(), &mut output()),
        ["example", "lowpass", ref rest @ ..] => drivers::example::write(rest, &mut output()),
        ["compare-runs", "--program", program, "--seed", seed, "--count", count] => {
            compare_runs(program, seed, count)
        }
        ["compare-jobfile", "--program", program, ref calls @ ..] => {
            compare_jobfile(program, calls)
        }
        _ => Err(wrong(USAGE)),
    };
    match done {
        Ok(true) => ExitCode::SUCCESS,
        Ok(false) => ExitCode::FAILURE,
        Err(e) if e.kind() == ErrorKind::BrokenPipe => ExitCode::SUCCESS, // the reader had enough
        Err(e) => {
            eprintln!("{e}");
            ExitCode::FAILURE
        }
    }
}

fn input() -> BufReader<io::Stdin> {
    BufReader::with_capacity(1 << 16, io::stdin())
}

type Output = BufWriter<Named>;

fn output() -> Output {
    BufWriter::with_capacity(1 << 16, Named(io::stdout()))
}

/// Standard output whose errors say where they come from.
struct Named(io::Stdout);

fn named(e: io::Error) -> io::Error {
    io::Error::new(e.kind(), format!("standard output: {e}"))
}

impl Write for Named {
    fn write(&mut self, bytes: &[u8]) -> io::Result<usize> {
        self.0.write(bytes).map_err(named)
    }

    fn flush(&mut self) -> io::Result<()> {
        self.0.flush().map_err(named)
    }
}

fn wrong(text: &str) -> io::Error {
    io::Error::new(ErrorKind::InvalidInput, text)
}

fn layer_of(name: &str) -> io::Result<&'static Layer> {
    let layer = LAYERS.iter().find(|l| l.name == name);
    layer.ok_or_else(|| wrong("no such layer"))
}

fn gate(name: &str) -> io::Result<bool> {
    begins_right()?;
    layer_of(name)?.write_gate(&mut output())?;
    Ok(true)
}

fn gen(name: &str, args: &[&str]) -> io::Result<bool> {
    let layer = layer_of(name)?;
    let (mut seed, mut count, mut only) = (None, None, Vec::new());
    for pair in args.chunks(2) {
        match *pair {
            ["--seed", v] => seed = Some(whole(v)?),
            ["--count", v] => count = Some(whole(v)?),
            ["--only", v] => only = v.split(',').map(whole).collect::<io::Result<_>>()?,
            _ => return Err(wrong(USAGE)),
        }
    }
    let (Some(seed), Some(count)) = (seed, count) else {
        return Err(wrong(USAGE));
    };
    begins_right()?;
    layer.write_list(&only, seed, count, &mut output())?;
    Ok(true)
}

fn compare_runs(program: &str, seed: &str, count: &str) -> io::Result<bool> {
    drivers::compare::compare(program, whole(seed)?, whole(count)?, &mut output())
}

fn compare_jobfile(program: &str, calls: &[&str]) -> io::Result<bool> {
    let (seed, count, only) = match *calls {
        ["--seed", seed, "--count", count] => (seed, count, None),
        ["--seed", seed, "--count", count, "--only", name] => (seed, count, Some(name)),
        _ => return Err(wrong(USAGE)),
    };
    let drawn = (whole(seed)?, whole(count)?);
    drivers::jobfile::compare::compare(program, drawn, only, &mut output())
}

fn whole(text: &str) -> io::Result<u64> {
    text.parse().map_err(|_| wrong("not a whole number"))
}

/// The one place where the answer depends on the Rust library's age.
fn begins_right() -> io::Result<()> {
    let zeros = Arr::from(vec![-0.0, -0.0]);
    if zeros.dot(&Arr::ones(2)).is_sign_negative() {
        return Ok(());
    }
    Err(wrong("this Rust library begins a sum at plus zero"))
}
