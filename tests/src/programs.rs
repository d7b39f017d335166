//! Rehearsal programs: executables that read a schedule on standard input and write to standard output.

use std::io::{self, Read, Write};
use std::path::{Path, PathBuf};
use std::process::{Command, Stdio};
use std::thread;

pub struct Program {
    path: PathBuf,
}

/// What a pipe takes without a reader.
const PIPE: usize = 60_000;

impl Program {
    pub fn new(path: &Path) -> io::Result<Program> {
        Ok(Program { path: path.canonicalize()? })
    }

    /// What the program writes for this input, and how it ended.
    pub fn run(&self, input: &[u8]) -> io::Result<Outcome> {
        let mut child = Command::new(&self.path).stdin(Stdio::piped()).stdout(Stdio::piped()).stderr(Stdio::null()).spawn()?;
        let mut stdin = child.stdin.take().expect("standard input is a pipe");
        let mut stdout = child.stdout.take().expect("standard output is a pipe");
        let mut text = Vec::new();
        // A program may stop reading when it has read enough; that is no error of ours.
        if input.len() <= PIPE {
            let _ = stdin.write_all(input);
            drop(stdin);
            stdout.read_to_end(&mut text)?;
        } else {
            thread::scope(|scope| {
                scope.spawn(move || drop(stdin.write_all(input)));
                stdout.read_to_end(&mut text)
            })?;
        }
        Ok(Outcome { text, ended_well: child.wait()?.success() })
    }
}

#[derive(Clone, Debug, PartialEq, Eq)]
pub struct Outcome {
    pub text: Vec<u8>,
    pub ended_well: bool,
}
