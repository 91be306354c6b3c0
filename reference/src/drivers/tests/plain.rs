//! The text form of records.

use crate::drivers::damage::damaged;
use crate::drivers::fixed::worked_job;
use crate::drivers::job::draw;
use crate::drivers::plain::{bytes_of, text_of};
use crate::drivers::record::JOB;
use crate::words::Source;

#[test]
fn worked_job_as_text() {
    let text = "n 2\nbands 1 1\nlimits 1 2 1\nrow 1 0\npoint 0 0\ncursors -1 0 0\nkappa 0.25\n\
                matrix 1 0 0 1\nuntil 10 0\n";
    let bytes = worked_job().record().bytes();
    assert_eq!(text_of(&bytes), text);
    assert_eq!(bytes_of(text).unwrap(), bytes);
    let commented = "# a job\n\n  n 2 # of two\n";
    assert_eq!(bytes_of(commented).unwrap(), [1, 2, 0, 2, 0]);
    assert!(bytes_of("row 1 x\n").is_err());
    assert!(bytes_of("rows 1\n").is_err());
}

#[test]
fn every_record_reads_back_from_its_text() {
    let mut src = Source::new(3);
    for _ in 0..5000 {
        let record = draw(&mut src, 2000).record();
        let bytes = damaged(&mut src, record, JOB).bytes;
        assert_eq!(bytes_of(&text_of(&bytes)).unwrap(), bytes);
    }
}
