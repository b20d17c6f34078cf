//! Runs one of the library's programs on an input.

use crate::verdict::{same, Verdict};
use std::io::{self, ErrorKind, Write};
use std::process::{Command, Output, Stdio};

pub struct Program {
    /// The program and its arguments: an emulator may stand first.
    pub command: Vec<String>,
}

impl Program {
    /// What it writes on standard output, if it ends well and says nothing else. The input comes in pieces of so many bytes.
    pub fn text(&self, input: &[u8], piece: usize) -> Result<Vec<u8>, String> {
        let ran = self.run(input, piece).map_err(|error| format!("{}: {error}", self.command[0]))?;
        same("standard error", String::from_utf8_lossy(&ran.stderr).as_ref(), "")?;
        ended_well(&ran)?;
        Ok(ran.stdout)
    }

    fn run(&self, input: &[u8], piece: usize) -> io::Result<Output> {
        let mut command = Command::new(&self.command[0]);
        command.args(&self.command[1..]).stdin(Stdio::piped()).stdout(Stdio::piped()).stderr(Stdio::piped());
        let mut program = command.spawn()?;
        // no deadlock: a program has read all that it wants before it writes, and what it does not want a pipe holds, or it has ended
        let mut pipe = program.stdin.take().expect("its input");
        for piece in input.chunks(piece) {
            match pipe.write_all(piece) {
                // a program that refuses a long input need not read it all
                Err(error) if error.kind() != ErrorKind::BrokenPipe => return Err(error),
                _ => (),
            }
        }
        drop(pipe);
        program.wait_with_output()
    }
}

fn ended_well(ran: &Output) -> Verdict {
    if ran.status.success() {
        Ok(())
    } else {
        Err(format!("the program ended with {}", ran.status))
    }
}
