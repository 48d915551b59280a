//! Runs a program on a log, and says what it took.

use std::fs::File;
use std::io::Write;
use std::process::{Command, Stdio};

pub struct Program {
    pub name: &'static str,
    pub words: Vec<String>,
}

impl Program {
    fn command(&self) -> Command {
        let mut c = Command::new(&self.words[0]);
        // the length of the environment moves the stack
        c.args(&self.words[1..]).env_clear();
        c
    }

    fn on(&self, log: &str) -> Command {
        let mut c = self.command();
        c.stdin(File::open(log).expect("opening a workload"));
        c
    }
}

/// What a program prints for a log.
pub fn text(p: &Program, log: &str) -> Vec<u8> {
    let done = p.on(log).output().expect("running a program");
    assert!(done.status.success(), "{} ended badly", p.name);
    done.stdout
}

/// C's struct rusage on 64-bit Linux: user time and system time (seconds, microseconds), and 14 numbers more.
#[repr(C)]
struct Usage {
    numbers: [i64; 18],
}

extern "C" {
    fn wait4(process: i32, status: *mut i32, options: i32, usage: *mut Usage) -> i32;
    fn personality(kind: u64) -> i32;
}

/// Has the programs lie at the same addresses in each run: where a stack begins by chance can make a tenth of a time.
/// Some containers refuse it; the times are then those of chance places.
pub fn same_addresses() {
    const ADDR_NO_RANDOMIZE: u64 = 0x0040000;
    unsafe { personality(ADDR_NO_RANDOMIZE) };
}

/// The processor time, of user and system together, that a program takes for a log.
pub fn seconds(p: &Program, log: &str) -> f64 {
    let child = p.on(log).stdout(Stdio::null()).spawn().expect("running a program");
    let mut usage = Usage { numbers: [0; 18] };
    let mut status = 0;
    // the child is waited for here and nowhere else
    let waited = unsafe { wait4(child.id() as i32, &mut status, 0, &mut usage) };
    assert!(waited == child.id() as i32 && status == 0, "{} ended badly", p.name);
    let n = usage.numbers;
    (n[0] + n[2]) as f64 + (n[1] + n[3]) as f64 / 1e6
}

/// The instructions that a program takes for a log, counted by valgrind; nothing where that fails or takes longer than a minute.
pub fn instructions(p: &Program, log: &str) -> Option<u64> {
    let mut c = Command::new("timeout");
    c.args(["60", "valgrind", "--tool=callgrind", "--callgrind-out-file=/dev/null"]).args(&p.words);
    c.stdin(File::open(log).expect("opening a workload")).stdout(Stdio::null());
    let done = c.output().ok().filter(|d| d.status.success())?;
    let said = String::from_utf8_lossy(&done.stderr).into_owned();
    let line = said.lines().find(|l| l.contains("Collected"))?;
    line.rsplit(' ').next()?.parse().ok()
}

/// The most memory that a program has used when it has read a log, in kB.
pub fn memory(p: &Program, log: &[u8]) -> u64 {
    let mut child = p.command().stdin(Stdio::piped()).stdout(Stdio::null()).spawn().expect("running a program");
    let mut input = child.stdin.take().expect("a pipe");
    input.write_all(log).expect("writing a log");
    let status = std::fs::read_to_string(format!("/proc/{}/status", child.id())).expect("the state of a program");
    drop(input);
    child.wait().expect("running a program");
    let line = status.lines().find(|l| l.starts_with("VmHWM:")).unwrap_or("VmHWM: 0 kB");
    line.split_whitespace().nth(1).and_then(|n| n.parse().ok()).unwrap_or(0)
}
