//! Runs a program on bytes that are a file or come through a pipe.

use crate::logs::Rng;
use std::fs::File;
use std::io::Write;
use std::process::{Child, Command, Stdio};

/// The command that runs the program, and a file that it may read from; others are named after that one.
pub struct Runner {
    pub command: Vec<String>,
    pub room: String,
}

impl Runner {
    pub fn command(&self) -> Command {
        let mut c = Command::new(&self.command[0]);
        c.args(&self.command[1..]);
        c
    }

    /// What the program prints for a file.
    pub fn file(&self, text: &[u8]) -> Vec<u8> {
        std::fs::write(&self.room, text).expect("writing what is read");
        let input = File::open(&self.room).expect("opening what is read");
        let done = self.command().stdin(input).output().expect("running the program");
        printed(done.stdout, &done.stderr, done.status.success())
    }

    /// The same for what comes through a pipe, in pieces of the sizes that the seed draws.
    pub fn pipe(&self, text: &[u8], seed: u64) -> Vec<u8> {
        let mut command = self.command();
        let mut child = command.stdin(Stdio::piped()).stdout(Stdio::piped()).stderr(Stdio::piped()).spawn().expect("running the program");
        let mut input = child.stdin.take().expect("a pipe");
        let rng = &mut Rng(seed);
        let most = rng.pick(&[1, 3, 19, 100, 5000]);
        let done = std::thread::scope(|s| {
            s.spawn(move || {
                let mut rest = text;
                while !rest.is_empty() {
                    let n = rest.len().min(1 + rng.below(most));
                    if input.write_all(&rest[..n]).is_err() {
                        return;
                    }
                    rest = &rest[n..];
                    if most < 5000 {
                        std::thread::yield_now();
                    }
                }
            });
            child.wait_with_output().expect("running the program")
        });
        printed(done.stdout, &done.stderr, done.status.success())
    }

    /// Starts the program on a file, printing to another; `ended` has what it printed.
    pub fn start(&self, text: &[u8]) -> Child {
        std::fs::write(&self.room, text).expect("writing what is read");
        let input = File::open(&self.room).expect("opening what is read");
        let output = File::create(self.room.clone() + ".out").expect("making what is printed");
        let errors = File::create(self.room.clone() + ".err").expect("making what is said");
        self.command().stdin(input).stdout(output).stderr(errors).spawn().expect("running the program")
    }

    pub fn ended(&self, mut child: Child) -> Vec<u8> {
        let well = child.wait().expect("running the program").success();
        let read = |end: &str| std::fs::read(self.room.clone() + end).expect("reading what was printed");
        printed(read(".out"), &read(".err"), well)
    }
}

/// What was printed, and a line more where something went wrong that nothing it reads may bring about.
fn printed(mut out: Vec<u8>, errors: &[u8], well: bool) -> Vec<u8> {
    if !well || !errors.is_empty() {
        out.extend(format!("the program ended badly or wrote to standard error: {}\n", String::from_utf8_lossy(errors)).bytes());
    }
    out
}
