//! Whether the lists of this layer meet the borders that matter, and whether the Rust and the
//! readers give the known values.

mod any_lengths;
mod example;
mod jobfile;
mod jobfile_file;
mod known;
mod plain;
mod records;
mod runs;
mod write_job;
