//! The port beside the published Rust: times, growth, and comparisons at scale.

/// Stands for the library's in every module: that one panics when the reader has had enough.
macro_rules! println {
    ($($part:tt)*) => {
        $crate::say(format_args!($($part)*))
    };
}

mod compare;
mod growth;
mod jobs;
mod levels;
mod noted;
mod pairs;
mod plot;
mod port;
mod race;
mod summary;
mod table;

use std::collections::BTreeMap;
use std::io::{self, ErrorKind, Write};
use std::process::{self, ExitCode};
use std::{env, fmt, fs};

const USAGE: &str = "usage:
  bench table [--date DATE] [--rounds N] [--tsv FILE] [--only TEXT] [--n N]    times of both, as Markdown
  bench jobs [--date DATE] [--rounds N] [--tsv FILE] [--port PATH] [--rust PATH]
                                                                               times of whole jobs
  bench summary FILE.. [--svg FILE]                                            many runs' files as one table
  bench growth [--date DATE] [--rounds N]                                      costs as n and the rows grow
  bench compare --seconds S [--seed N] [--program PATH]                        answers of both, for S seconds
TEXT is a part of the name of the calls that are timed; all of them, and for every n, unless these are given
PATH is filterrun, target/bin/filterrun unless it is given; the replay programs stand beside it, and the Rust's filterrun beside bench";

/// The words after the subcommand: each name with its value.
type Options = BTreeMap<String, String>;

fn main() -> ExitCode {
    let args: Vec<String> = env::args().skip(1).collect();
    match run(&args) {
        Ok(true) => ExitCode::SUCCESS,
        Ok(false) => ExitCode::FAILURE,
        Err(what) => {
            eprintln!("{what}");
            ExitCode::FAILURE
        }
    }
}

/// Prints a line. A reader that has had enough ends the program with success, any other failure with that.
fn say(line: fmt::Arguments) {
    let Err(e) = writeln!(io::stdout(), "{line}") else {
        return;
    };
    if e.kind() == ErrorKind::BrokenPipe {
        process::exit(0);
    }
    eprintln!("standard output: {e}");
    process::exit(1);
}

fn run(args: &[String]) -> Result<bool, String> {
    let (command, rest) = args.split_first().ok_or(USAGE)?;
    match command.as_str() {
        "table" => {
            let options = options(rest, &["--date", "--rounds", "--tsv", "--only", "--n"])?;
            table(&options).map(|()| true)
        }
        "jobs" => {
            let options = options(rest, &["--date", "--rounds", "--tsv", "--port", "--rust"])?;
            jobs(&options).map(|()| true)
        }
        "summary" => {
            let files = rest.iter().position(|word| word.starts_with("--"));
            let (files, rest) = rest.split_at(files.unwrap_or(rest.len()));
            summary(files, &options(rest, &["--svg"])?).map(|()| true)
        }
        "growth" => {
            let options = options(rest, &["--date", "--rounds"])?;
            growth::print(rounds(&options)?, &head(&options)).map(|()| true)
        }
        "compare" => {
            let options = options(rest, &["--seconds", "--seed", "--program"])?;
            compare(&options)
        }
        _ => Err(USAGE.into()),
    }
}

fn options(args: &[String], known: &[&str]) -> Result<Options, String> {
    let mut options = Options::new();
    for pair in args.chunks(2) {
        match pair {
            [name, value] if known.contains(&name.as_str()) => {
                options.insert(name.clone(), value.clone());
            }
            _ => return Err(USAGE.into()),
        }
    }
    Ok(options)
}

fn whole(options: &Options, name: &str) -> Result<Option<u64>, String> {
    let Some(value) = options.get(name) else {
        return Ok(None);
    };
    let number = value.parse();
    number
        .map(Some)
        .map_err(|_| format!("{name}: not a whole number"))
}

fn rounds(options: &Options) -> Result<usize, String> {
    match whole(options, "--rounds")? {
        Some(0) => Err("--rounds: at least 1".into()),
        given => Ok(given.unwrap_or(300) as usize),
    }
}

fn table(options: &Options) -> Result<(), String> {
    let only = options.get("--only").map_or("", String::as_str);
    let n = whole(options, "--n")?.map(|n| n as usize);
    let rows = table::measure(rounds(options)?, only, n)?;
    show(rows, options)
}

fn jobs(options: &Options) -> Result<(), String> {
    let beside = || Some(env::current_exe().ok()?.with_file_name("filterrun_rust"));
    let beside = beside().unwrap_or_default().display().to_string();
    let rust = options.get("--rust").unwrap_or(&beside);
    let port = options.get("--port").map(String::as_str);
    let port = port.unwrap_or("target/bin/filterrun");
    show(jobs::measure(port, rust, rounds(options)?)?, options)
}

/// Prints rows, and notes them in a file if one is given.
fn show(rows: Vec<table::Row>, options: &Options) -> Result<(), String> {
    let (head, build) = (head(options), env!("BENCH_BUILD").into());
    println!("{}", table::text(&rows, &head));
    let run = noted::Run { head, build, rows };
    options
        .get("--tsv")
        .map_or(Ok(()), |file| write(file, &noted::written(&run)))
}

fn summary(files: &[String], options: &Options) -> Result<(), String> {
    let read = |file: &String| {
        let text = fs::read_to_string(file).map_err(|e| format!("{file}: {e}"))?;
        noted::read(&text).ok_or(format!("{file}: not a file of times"))
    };
    let runs: Vec<noted::Run> = files.iter().map(read).collect::<Result<_, _>>()?;
    let head = runs.first().map(|run| run.head.as_str()).ok_or(USAGE)?;
    let sums = summary::sums(&runs);
    println!("{}", summary::text(&sums, &runs));
    options
        .get("--svg")
        .map_or(Ok(()), |file| write(file, &plot::svg(&sums, head)))
}

fn write(file: &str, text: &str) -> Result<(), String> {
    fs::write(file, text).map_err(|e| format!("{file}: {e}"))
}

fn compare(options: &Options) -> Result<bool, String> {
    let seconds = whole(options, "--seconds")?.ok_or(USAGE)?;
    let seed = whole(options, "--seed")?;
    let program = options.get("--program").map(String::as_str);
    compare::compare(seconds, seed, program.unwrap_or("target/bin/filterrun"))
}

/// Where, with what and when.
fn head(options: &Options) -> String {
    let known = fs::read_to_string("/proc/cpuinfo").unwrap_or_default();
    let name = known.lines().find(|line| line.starts_with("model name"));
    let name = name.and_then(|line| line.split(": ").nth(1));
    let mut head = format!(
        "{}; {}; {}",
        name.unwrap_or("unknown processor"),
        env!("BENCH_RATTLE"),
        env!("BENCH_RUSTC")
    );
    if let Some(date) = options.get("--date") {
        head += &format!("; {date}");
    }
    head
}
