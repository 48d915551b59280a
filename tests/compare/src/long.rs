//! A log of 1,000,000 reports and one more: the last is refused 11, the text is the same, and the memory `cart` uses stays flat. A third
//! of the reports have times, and the last one too: its last packet is kept, so that a frame before it is refused 26.

use crate::cart::Cart;
use crate::logs::{at, heated, report, set, set_heat, set_rule, show, window, Item};
use crate::rules::MOST_REPORTS;
use crate::wrong::Wrong;
use std::io::{Read, Write};
use std::process::{Command, Stdio};
use std::time::Instant;

/// What `cart` may grow by after the first hundredth of the log, in kB.
const GROWTH: u64 = 64;

/// The most memory a process has used so far, in kB.
fn peak(process: u32) -> u64 {
    let status = std::fs::read_to_string(format!("/proc/{}/status", process)).unwrap_or_default();
    let line = status.lines().find(|l| l.starts_with("VmHWM:")).unwrap_or("VmHWM: 0 kB");
    line.split_whitespace().nth(1).and_then(|n| n.parse().ok()).unwrap_or(0)
}

/// The items around report n: values rise slowly, so that each is listed; one in 5,000 stands out, and is searched for when it leaves. A
/// quarter has a heat. Of 256 of the same score slot 29 lists the first ones.
fn around(n: u32) -> Vec<Item> {
    let (sender, slowly) = ((n % 254) as u8, n / 256);
    let mut out = match n {
        _ if n % 5000 == 0 => report(7, 4095, 4095),
        _ if n % 4 == 1 && n <= MOST_REPORTS => heated(sender, slowly, 4000 - slowly, slowly),
        _ => report(sender, slowly, 4000 - slowly),
    };
    if n % 3 == 0 || n > MOST_REPORTS {
        out = out.iter().map(|f| at(n, f)).collect();
    }
    if n > MOST_REPORTS {
        out[3] = at(n + 1, &report(sender, slowly, 4000 - slowly)[3]);
        out.push(at(n, &report(sender, 0, 0)[0]));
    }
    if n % 100_000 == 0 || n > MOST_REPORTS {
        out.extend([show(0), show(5), show(29), show(30), show(31)]);
    }
    out
}

fn opening() -> Vec<Item> {
    let first_come = set_rule(29, 3, [2, 1, 0], 1);
    vec![window(1024), set(0, 1, 2, 1), set(5, 16, 0, -3), first_come, set_heat(30, 3, 0, 0, 1), set(31, 4, 0, 0)]
}

pub fn run(mut command: Command) -> bool {
    let began = Instant::now();
    let mut child = command.stdin(Stdio::piped()).stdout(Stdio::piped()).spawn().expect("running cart");
    let process = child.id();
    let mut input = child.stdin.take().expect("a pipe");
    let mut output = child.stdout.take().expect("a pipe");
    let reader = std::thread::spawn(move || {
        let mut out = Vec::new();
        output.read_to_end(&mut out).expect("reading what cart prints");
        out
    });
    let mut other = Cart::new(Wrong::No);
    let mut peaks = Vec::new();
    let mut bytes = opening().concat();
    let mut length = 0;
    for n in 1..=MOST_REPORTS + 1 {
        bytes.extend(around(n).concat());
        if bytes.len() > 60_000 || n > MOST_REPORTS {
            other.log(&bytes);
            input.write_all(&bytes).expect("writing the log");
            length += bytes.len();
            bytes.clear();
        }
        if n % 10_000 == 0 {
            peaks.push(peak(process));
        }
    }
    drop(input);
    let found = reader.join().expect("what cart prints");
    let ended = child.wait().expect("running cart").success();
    let (first, last) = (peaks[0], peaks[peaks.len() - 1]);
    let same = found == other.text;
    let refused = String::from_utf8_lossy(&found).lines().filter(|l| l.starts_with('R')).map(String::from).collect::<Vec<_>>();
    let searches = found.split(|&b| b == 10).filter(|l| l.starts_with(b"S")).count();
    println!("1,000,001 reports, {} bytes, {} searches: {:.1} s", length, searches, began.elapsed().as_secs_f64());
    println!("the text is {}, {} bytes; what it refuses: {:?}", if same { "the same" } else { "NOT the same" }, found.len(), refused);
    println!("most memory used after a hundredth of the log: {} kB, at its end: {} kB", first, last);
    let last_two = refused.len() == 2 && refused[0].ends_with(" 11") && refused[1].ends_with(" 26");
    same && ended && last_two && first > 0 && last <= first + GROWTH
}
