//! Compares what `cart` and the desk print with what an independent implementation of the rules (docs/RULES.md) prints. See tests/compare/run.

mod board;
mod bus;
mod cart;
mod cases;
mod clocks;
mod desk;
mod heating;
mod joining;
mod logs;
mod long;
mod made_up;
mod orders;
mod ranging;
mod rules;
mod runner;
mod scripts;
mod shrink;
mod sittings;
mod spoilt;
mod tied;
mod tying;
mod wrong;

use cart::text;
use runner::Runner;
use std::time::{Duration, Instant};
use wrong::{Wrong, IN_LOGS};

/// Shrinks a log that shows a difference, and prints what is left of it.
fn tell(log: &[u8], tries: usize, name: &str, ours: &mut dyn FnMut(&[u8]) -> Vec<u8>, other: &mut dyn FnMut(&[u8]) -> Vec<u8>) {
    println!("{}: a difference in a log of {} bytes; the shortest found that shows one:", name, log.len());
    let short = shrink::shortest(log, tries, &mut |l| ours(l) != other(l));
    println!("{}", logs::hex(&short));
    for (i, item) in logs::split(&short).iter().enumerate() {
        println!("  item {}: {}", i + 1, logs::words(item));
    }
    println!("cart prints:\n{}", String::from_utf8_lossy(&ours(&short)));
    println!("the independent implementation prints:\n{}", String::from_utf8_lossy(&other(&short)));
}

/// Runs the named cases: both programs against the text written down.
fn run_cases(runner: &Runner) -> bool {
    let all = cases::all();
    let mut wrong = 0;
    for c in &all {
        let pairs = [("cart", runner.file(&c.log)), ("the independent implementation", text(&c.log, Wrong::No))];
        for (who, out) in pairs.iter() {
            if out != c.text.as_bytes() {
                wrong += 1;
                println!("case '{}': {} prints\n{}and not\n{}", c.name, who, String::from_utf8_lossy(out), c.text);
            }
        }
    }
    println!("{} named cases, {} wrong", all.len(), wrong);
    wrong == 0
}

/// Compares the logs of the seeds from `seed` on: so many, or as many as there is time for.
fn run_seeds(runner: &Runner, most: u64, time: Duration, seed: u64) -> bool {
    let began = Instant::now();
    let (mut n, mut bytes, mut items, mut timed, mut lines) = (0, 0, 0, 0, 0);
    let mut kinds: Vec<(&str, u32)> = Vec::new();
    while n < most && began.elapsed() < time {
        let (kind, log) = clocks::log(seed + n);
        let wanted = text(&log, Wrong::No);
        let piped = n % 4 == 0;
        let found = if piped { runner.pipe(&log, seed + n) } else { runner.file(&log) };
        if found != wanted {
            let name = format!("seed {} ({}, {})", seed + n, kind, if piped { "through a pipe" } else { "from a file" });
            let mut ours = |l: &[u8]| if piped { runner.pipe(l, seed + n) } else { runner.file(l) };
            tell(&log, 4000, &name, &mut ours, &mut |l| text(l, Wrong::No));
            return false;
        }
        n += 1;
        bytes += log.len();
        let split = logs::split(&log);
        items += split.len();
        timed += split.iter().filter(|i| i[0] == 21 && i.len() == 19).count();
        lines += wanted.iter().filter(|&&b| b == 10).count();
        match kinds.iter_mut().find(|k| k.0 == kind) {
            Some(k) => k.1 += 1,
            None => kinds.push((kind, 1)),
        }
    }
    let kinds: Vec<String> = kinds.iter().map(|k| format!("{} {}", k.1, k.0)).collect();
    println!(
        "{} logs from seed {} ({}): {} items, {} of them frames with times, {} bytes, {} lines, no difference; {:.1} s",
        n,
        seed,
        kinds.join(", "),
        items,
        timed,
        bytes,
        lines,
        began.elapsed().as_secs_f64()
    );
    true
}

/// Gets each rule wrong in turn and shows the first log that tells; false where one goes unnoticed.
fn run_wrong(runner: &Runner, most: u64, seed: u64) -> bool {
    let mut unnoticed = 0;
    for &wrong in IN_LOGS.iter() {
        let telling = (0..most).find(|n| {
            let (_, log) = clocks::log(seed + n);
            text(&log, wrong) != text(&log, Wrong::No)
        });
        match telling {
            Some(n) => {
                let (_, log) = clocks::log(seed + n);
                // between the two texts first, which is quick; then with cart
                let short = shrink::shortest(&log, 20_000, &mut |l| text(l, wrong) != text(l, Wrong::No));
                if runner.file(&short) == text(&short, wrong) {
                    println!("{:?}: cart has it WRONG too", wrong);
                    unnoticed += 1;
                } else {
                    println!("{:?}: noticed at log {}; {} items tell", wrong, n + 1, logs::split(&short).len());
                }
            }
            None => {
                println!("{:?}: NOT NOTICED in {} logs", wrong, most);
                unnoticed += 1;
            }
        }
    }
    println!("{} rules got wrong, {} unnoticed", IN_LOGS.len(), unnoticed);
    unnoticed == 0
}

/// compare ROOM MODE WORDS... -- COMMAND...: ROOM is a file it may write, COMMAND runs cart, or the desk where MODE is about it.
fn main() {
    let words: Vec<String> = std::env::args().skip(1).collect();
    let at = words.iter().position(|w| w == "--").expect("a command behind --");
    let runner = Runner { command: words[at + 1..].to_vec(), room: words[0].clone() };
    let number = |i: usize| words[i].parse::<u64>().expect("a number");
    let well = match words[1].as_str() {
        "cases" => run_cases(&runner),
        "long" => long::run(runner.command()),
        "wrong" => run_wrong(&runner, 20_000, number(2)),
        "desk" => sittings::compare(&runner, number(3), Duration::from_secs(number(4)), number(2)),
        "desk-cases" => sittings::cases(&runner, &words[2..at]),
        "answer" => sittings::answer(),
        "desk-wrong" => sittings::notice(&runner, 20_000, number(2)),
        _ => run_seeds(&runner, number(3), Duration::from_secs(number(4)), number(2)),
    };
    std::process::exit(if well { 0 } else { 1 });
}
