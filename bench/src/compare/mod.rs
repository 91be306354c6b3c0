//! `bench compare`: fresh cases, jobs and lists, until the time is over.

mod calls;
mod drivers;
mod outside;
mod taken;

use generator::rng::Rng;
use outside::Programs;
use std::collections::BTreeMap;
use std::time::{Duration, Instant, SystemTime, UNIX_EPOCH};

/// How many of each name agree and differ. The first difference of a name is printed.
#[derive(Default)]
pub struct Tally {
    counts: BTreeMap<String, [u64; 2]>,
}

impl Tally {
    pub fn add(&mut self, name: &str, count: u64, difference: Option<String>) {
        let counts = self.counts.entry(name.to_string()).or_default();
        match difference {
            None => counts[0] += count,
            Some(what) => {
                counts[1] += count;
                if counts[1] == count {
                    println!("{name} differs: {what}");
                }
            }
        }
    }

    /// True where nothing differs.
    fn print(&self) -> bool {
        let mut sums = [0; 2];
        for (name, [agree, differ]) in &self.counts {
            println!("{name}: {agree} agree, {differ} differ");
            sums = [sums[0] + agree, sums[1] + differ];
        }
        println!("{} agree, {} differ", sums[0], sums[1]);
        sums[1] == 0
    }
}

pub fn compare(seconds: u64, seed: Option<u64>, program: &str) -> Result<bool, String> {
    let mut programs = Programs::new(program)?;
    let seed = seed.unwrap_or_else(from_the_clock);
    println!("seed {seed}");
    let mut seeds = Rng::new(seed);
    let mut tally = Tally::default();
    let mut jobs = outside::Jobs::new(seeds.next());
    let end = Instant::now() + Duration::from_secs(seconds);
    while Instant::now() < end {
        let left = end.saturating_duration_since(Instant::now());
        let third = left.min(Duration::from_secs(9)) / 3;
        let until = || Instant::now() + third;
        calls::compare(seeds.next(), until(), &mut tally);
        jobs.compare(&programs, until(), &mut tally)?;
        programs.replay(seeds.next(), until(), &mut tally)?;
    }
    Ok(tally.print())
}

fn from_the_clock() -> u64 {
    let now = SystemTime::now().duration_since(UNIX_EPOCH);
    now.map_or(0, |passed| passed.as_nanos() as u64)
}
