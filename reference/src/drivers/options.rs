//! The words after a command: each option once, with its value.

use std::collections::BTreeMap;
use std::io::{self, ErrorKind};
use std::ops::RangeInclusive;

pub struct Options<'a>(BTreeMap<&'a str, &'a str>);

pub fn wrong(what: &str) -> io::Error {
    io::Error::new(ErrorKind::InvalidInput, what)
}

impl<'a> Options<'a> {
    /// Refuses a name that is not known, that has no value, or that stands twice.
    pub fn of(args: &[&'a str], known: &[&str]) -> io::Result<Self> {
        let mut options = BTreeMap::new();
        for pair in args.chunks(2) {
            let name = pair[0];
            if !known.contains(&name) {
                let what = format!("{name}: no such option, there are {}", known.join(" "));
                return Err(wrong(&what));
            }
            let Some(value) = pair.get(1) else {
                return Err(wrong(&format!("{name}: its value is missing")));
            };
            if options.insert(name, *value).is_some() {
                return Err(wrong(&format!("{name} {value}: given twice, allowed once")));
            }
        }
        Ok(Options(options))
    }

    pub fn whole(&self, name: &str, range: RangeInclusive<usize>) -> io::Result<Option<usize>> {
        let Some(value) = self.0.get(name) else {
            return Ok(None);
        };
        let number = value.parse().ok().filter(|number| range.contains(number));
        let (least, most) = range.into_inner();
        let allowed = format!("a whole number from {least} to {most} is needed");
        let number = number.ok_or_else(|| wrong(&format!("{name} {value}: {allowed}")));
        number.map(Some)
    }

    /// A float, infinities too: a job may have them as limits.
    pub fn number(&self, name: &str) -> io::Result<Option<f64>> {
        let Some(value) = self.0.get(name) else {
            return Ok(None);
        };
        let number = value.parse().ok().filter(|number: &f64| !number.is_nan());
        let number = number.ok_or_else(|| wrong(&format!("{name} {value}: a number is needed")));
        number.map(Some)
    }
}
