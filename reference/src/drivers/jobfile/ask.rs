//! Calls a program with what a call gives it, in a temporary folder.

use super::{By, Call, Held, Said};
use crate::drivers::compare::piped;
use std::env;
use std::ffi::OsStr;
use std::fs::{self, File};
use std::io;
use std::os::unix::ffi::OsStrExt;
use std::path::{Path, PathBuf};
use std::process::{self, Command, Stdio};
use std::time::Duration;

/// A folder for the calls' files, with a place for each of two, which goes with its owner.
pub struct Folder(PathBuf);

impl Folder {
    pub fn new(name: &str) -> io::Result<Self> {
        let name = format!("ponduvizh-jobfile-{}-{name}", process::id());
        let folder = Folder(env::temp_dir().join(name));
        for at in 0..2 {
            fs::create_dir_all(folder.place(at).join("folder"))?;
        }
        Ok(folder)
    }

    pub fn place(&self, at: usize) -> PathBuf {
        self.0.join(at.to_string())
    }
}

impl Drop for Folder {
    fn drop(&mut self) {
        let _ = fs::remove_dir_all(&self.0);
    }
}

fn path(place: &Path, name: &[u8]) -> PathBuf {
    place.join(OsStr::from_bytes(name))
}

/// Makes the call's files in a place of its own, calls the program there, and removes them.
pub fn asked(program: &Path, place: &Path, call: &Call) -> io::Result<Said> {
    fs::write(place.join("file"), b"")?; // a name that goes on behind it
    for (name, held) in &call.files {
        if let Held::Bytes(bytes) = held {
            fs::write(path(place, name), bytes)?;
        }
    }
    let said = called(program, place, call)?;
    for (name, held) in &call.files {
        if let Held::Bytes(_) = held {
            fs::remove_file(path(place, name))?;
        }
    }
    Ok(said)
}

fn called(program: &Path, place: &Path, call: &Call) -> io::Result<Said> {
    let mut command = Command::new(program);
    command.current_dir(place);
    command.args(call.words.iter().map(|word| OsStr::from_bytes(word)));
    command.stderr(Stdio::piped()).stdout(if call.full {
        File::options().write(true).open("/dev/full")?.into()
    } else {
        Stdio::piped()
    });
    let output = match (&call.input, call.by) {
        (Held::Bytes(bytes), By::Pipe) => piped(&mut command, bytes, Duration::ZERO)?,
        (Held::Bytes(bytes), By::SlowPipe) => piped(&mut command, bytes, Duration::from_millis(4))?,
        (Held::Bytes(bytes), By::File) => {
            let input = place.join("standard input");
            fs::write(&input, bytes)?;
            command.stdin(File::open(input)?).output()?
        }
        _ => command.stdin(File::open(place)?).output()?,
    };
    Ok(Said {
        out: output.stdout,
        err: output.stderr,
        status: output.status.code(),
    })
}
