//! Runs the driver on the bytes of a batch of calls.

use crate::verdict::Verdict;
use std::fs::{self, File};
use std::io;
use std::path::PathBuf;
use std::process::{Command, Stdio};

pub struct Driver {
    /// The program and its arguments: an emulator may stand first.
    pub command: Vec<String>,
    /// Where a batch is written.
    pub file: PathBuf,
}

/// What the driver wrote, as far as it came, and whether it ended well.
pub struct Ran {
    pub output: Vec<u8>,
    pub end: Verdict,
}

impl Driver {
    /// `under` stands before the command, and `mode` says where the driver puts its buffers. What it says on standard error goes to ours.
    pub fn run(&self, under: &[&str], mode: &str, input: &[u8]) -> io::Result<Ran> {
        fs::write(&self.file, input)?;
        let words: Vec<&str> = under.iter().copied().chain(self.command.iter().map(String::as_str)).chain([mode]).collect();
        let mut command = Command::new(words[0]);
        command.args(&words[1..]).stdin(File::open(&self.file)?).stderr(Stdio::inherit());
        let ran = command.output()?;
        let end = if ran.status.success() { Ok(()) } else { Err(format!("the driver ended with {}", ran.status)) };
        Ok(Ran { output: ran.stdout, end })
    }
}
