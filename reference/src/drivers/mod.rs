//! The cases of the third layer: drivers, records and the program's text.

mod answer;
mod belongs;
pub mod compare;
mod cutting;
pub mod cutting_any;
mod damage;
mod every_byte;
pub mod example;
pub mod filterrun;
mod fixed;
mod fixed_writes;
pub mod job;
pub mod jobfile;
mod lively;
mod options;
pub mod plain;
mod record;
mod run;
#[cfg(test)]
mod tests;
mod walk;
mod write_job;

use crate::lists::Case;
use crate::words::Source;

pub use fixed::fixed;

/// Each operation, its name, and how often it stands in a round of a mixed list. One that has no
/// inputs stands in the fixed part alone.
pub const OPS: &[(u64, &str, usize)] = &[
    (70, "cutting_plane_feas", 6),
    (71, "cutting_plane_optim", 6),
    (140, "cutting_plane_feas, any lengths", 5),
    (141, "cutting_plane_optim, any lengths", 5),
    (142, "Options::default", 0),
    (150, "read_job", 6),
    (151, "read_answer", 4),
    (152, "write_answer", 3),
    (153, "belongs", 4),
    (155, "write_job", 3),
    (160, "text of a run", 5),
    (162, "read_job, then write_job", 2),
];

/// Fills one case of the operation.
pub fn fill(op: u64, src: &mut Source, case: &mut Case) {
    case.start(op);
    match op {
        70 => cutting::cutting_plane_feas(src, case),
        71 => cutting::cutting_plane_optim(src, case),
        140 => cutting_any::cutting_plane_feas(src, case),
        141 => cutting_any::cutting_plane_optim(src, case),
        142 => cutting::default_options(case),
        150 => job::read_any(src, case),
        151 => answer::read_any(src, case),
        152 => answer::write_any(src, case),
        153 => belongs::belongs(src, case),
        155 => write_job::write_any(src, case),
        160 => filterrun::text_any(src, case),
        162 => write_job::rewrite_any(src, case),
        _ => panic!("no such operation: {op}"),
    }
}
