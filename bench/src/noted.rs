//! A run's times in a file, so that many runs can be summed up: a line of where and when, a line with the build, then a line for each row, its parts between tabs.

use crate::race::Times;
use crate::table::Row;

/// One run of one build.
pub struct Run {
    pub head: String,
    pub build: String,
    pub rows: Vec<Row>,
}

pub fn written(run: &Run) -> String {
    let mut text = format!("{}\n{}\n", run.head, run.build);
    for Row { call, n, times } in &run.rows {
        let n = n.map_or("any".into(), |n| n.to_string());
        let Times { port, rust, ratio } = times;
        text += &format!("{call}\t{n}\t{port}\t{rust}\t{ratio}\n");
    }
    text
}

pub fn read(text: &str) -> Option<Run> {
    let mut lines = text.lines();
    let (head, build) = (lines.next()?.into(), lines.next()?.into());
    let rows = lines.map(row).collect::<Option<_>>()?;
    Some(Run { head, build, rows })
}

fn row(line: &str) -> Option<Row> {
    let parts: Vec<&str> = line.split('\t').collect();
    let [call, n, port, rust, ratio] = parts[..] else {
        return None;
    };
    let n = match n {
        "any" => None,
        n => Some(n.parse().ok()?),
    };
    let times = Times {
        port: port.parse().ok()?,
        rust: rust.parse().ok()?,
        ratio: ratio.parse().ok()?,
    };
    let call = call.into();
    Some(Row { call, n, times })
}

#[cfg(test)]
mod tests {
    use super::*;

    #[test]
    fn there_and_back() {
        let text = "a machine\norder 3\nsqrt\tany\t14.25\t5.5\t2.5\ndot\t8\t3\t4\t0.75\n";
        let run = read(text).unwrap();
        assert_eq!((run.build.as_str(), run.rows[1].n), ("order 3", Some(8)));
        assert_eq!(written(&run), text);
    }

    #[test]
    fn other_files() {
        assert!(read("").is_none());
        assert!(read("a\nb\ndot\t8\t3\t4\n").is_none());
        assert!(read("a\nb\ndot\teight\t3\t4\t0.75\n").is_none());
    }
}
