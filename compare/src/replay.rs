//! Our own program, which plays a script.
use std::io::{self, Read, Write};
use std::path::PathBuf;
use std::process::{Command, Stdio};
use std::thread;

pub struct Replay(pub PathBuf);

impl Replay {
    /// What the program writes for the script.
    pub fn play(&self, script: Vec<u8>) -> io::Result<Vec<u8>> {
        let mut program = Command::new(&self.0)
            .stdin(Stdio::piped())
            .stdout(Stdio::piped())
            .spawn()
            .map_err(|e| io::Error::other(format!("{}: {e}", self.0.display())))?;
        let mut input = program.stdin.take().expect("asked for above");
        // Written beside the reading; a program that ends early is seen by what it did not answer.
        let writer = thread::spawn(move || drop(input.write_all(&script)));
        let mut answers = Vec::new();
        program.stdout.take().expect("asked for above").read_to_end(&mut answers)?;
        writer.join().expect("the writer does not panic");
        program.wait()?;
        Ok(answers)
    }
}
