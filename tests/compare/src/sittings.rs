//! Compares what the desk answers with what the rules say, script by script. Many scripts go through one run of the desk: each stands
//! for itself, so that one that shows a difference shows it alone.

use crate::desk::Desk;
use crate::runner::Runner;
use crate::scripts::{draw, Script};
use crate::shrink;
use crate::wrong::{Wrong, AT_THE_DESK};
use std::collections::BTreeMap;
use std::io::{Read, Write};
use std::time::{Duration, Instant};

type Lines = Vec<Vec<u8>>;

/// About so many lines go through one run; one run in eight is short, and its lines come through a pipe, in pieces.
const LINES: usize = 20_000;
const PIPED: usize = 1_000;

/// A rule got wrong has to be told by a script of at most so many lines.
const SHORT: usize = 150;

fn text(lines: &[Vec<u8>]) -> Vec<u8> {
    lines.iter().flat_map(|l| l.iter().copied().chain([10])).collect()
}

/// What a desk answers by the rules that has just been opened.
fn answers(lines: &[Vec<u8>], wrong: Wrong) -> Vec<String> {
    let mut desk = Desk::new(wrong);
    lines.iter().map(|l| desk.answer(l)).collect()
}

fn by_rules(lines: &[Vec<u8>], wrong: Wrong) -> Vec<u8> {
    answers(lines, wrong).concat().into_bytes()
}

/// The lines of a text; the last may have no end.
fn split(text: &[u8]) -> Lines {
    let mut lines: Lines = text.split(|&b| b == 10).map(|l| l.to_vec()).collect();
    if lines.last().map_or(false, |l| l.is_empty()) {
        lines.pop();
    }
    lines
}

/// Answers the lines of standard input by the rules.
pub fn answer() -> bool {
    let mut all = Vec::new();
    std::io::stdin().read_to_end(&mut all).expect("reading the lines");
    std::io::stdout().write_all(&by_rules(&split(&all), Wrong::No)).is_ok()
}

/// Runs scripts that are files, each with a file of its answers behind it: the desk and the rules against what is written down.
pub fn cases(runner: &Runner, files: &[String]) -> bool {
    let mut wrong = 0;
    for pair in files.chunks(2) {
        let read = |name: &String| std::fs::read(name).unwrap_or_else(|e| panic!("{}: {}", name, e));
        let (script, wanted) = (read(&pair[0]), read(&pair[1]));
        for (who, found) in [("the desk", runner.file(&script)), ("the independent implementation", by_rules(&split(&script), Wrong::No))] {
            if found != wanted {
                wrong += 1;
                let (found, wanted) = (split(&found), split(&wanted));
                let at = (0..).find(|&i| found.get(i) != wanted.get(i)).unwrap_or(0);
                let line = |all: &Lines| String::from_utf8_lossy(all.get(at).unwrap_or(&Vec::new())).to_string();
                println!("{}, answer {}: {} gives\n{}\nand not\n{}", pair[0], at + 1, who, line(&found), line(&wanted));
            }
        }
    }
    println!("{} scripts written down for the desk, {} wrong", files.len() / 2, wrong);
    wrong == 0
}

/// Scripts for one run, and what it has to answer.
struct Sitting {
    piped: bool,
    scripts: Vec<Script>,
    wanted: Vec<u8>,
}

/// The scripts from a seed on that go through one run: one that needs a fresh desk ends those before it.
fn sitting(seed: u64, most: u64, piped: bool) -> Sitting {
    let mut out = Sitting { piped, scripts: Vec::new(), wanted: Vec::new() };
    let mut lines = 0;
    let enough = if piped { PIPED } else { LINES };
    while lines < enough && (out.scripts.len() as u64) < most {
        let script = draw(seed + out.scripts.len() as u64);
        if script.first && lines > 0 {
            break;
        }
        lines += script.lines.len();
        out.wanted.extend(script.answers.concat().bytes());
        out.scripts.push(script);
    }
    out
}

impl Sitting {
    fn text(&self) -> Vec<u8> {
        self.scripts.iter().flat_map(|s| text(&s.lines)).collect()
    }

    /// The script in which the answers first differ.
    fn differing(&self, found: &[u8]) -> usize {
        let mut at = 0;
        self.scripts
            .iter()
            .position(|s| {
                let wanted = s.answers.concat().into_bytes();
                let same = found.get(at..at + wanted.len()) == Some(&wanted[..]);
                at += wanted.len();
                !same
            })
            .unwrap_or(self.scripts.len() - 1)
    }
}

/// Shrinks lines that show a difference, and prints what is left of them, with both answers.
fn tell(runner: &Runner, lines: Lines) {
    let mut shows = |l: &[Vec<u8>]| runner.file(&text(l)) != by_rules(l, Wrong::No);
    let short = shrink::shortest_script(lines, 4000, &mut shows);
    println!("the shortest script found that shows it:");
    print!("{}", String::from_utf8_lossy(&text(&short)));
    println!("the desk answers:\n{}", String::from_utf8_lossy(&runner.file(&text(&short))));
    println!("the independent implementation answers:\n{}", String::from_utf8_lossy(&by_rules(&short, Wrong::No)));
}

/// What was compared, in numbers.
#[derive(Default)]
struct Tally {
    scripts: u64,
    runs: u64,
    lines: usize,
    kinds: BTreeMap<&'static str, u64>,
    answered: BTreeMap<String, u64>,
    refused: BTreeMap<u32, u64>,
    early: u64,
    wrong: u64,
}

impl Tally {
    fn add(&mut self, sitting: &Sitting) {
        self.runs += 1;
        for s in &sitting.scripts {
            self.scripts += 1;
            self.lines += s.lines.len();
            *self.kinds.entry(s.kind).or_insert(0) += 1;
            for (line, answer) in s.lines.iter().zip(&s.answers) {
                let words: Vec<&str> = answer.split_whitespace().collect();
                match words[..] {
                    ["refused", code] => *self.refused.entry(code.parse().unwrap_or(0)).or_insert(0) += 1,
                    ["no", "window"] => self.early += 1,
                    ["wrong:", ..] => self.wrong += 1,
                    [] => {}
                    _ => *self.answered.entry(first_word(line)).or_insert(0) += 1,
                }
            }
        }
    }

    /// The kinds of scripts, the lines that were answered and the refusals, each with how often.
    fn told(&self) -> [String; 3] {
        let refused: Vec<String> = self.refused.iter().map(|r| format!("{} of {}", r.1, r.0)).collect();
        [counted(&self.kinds), counted(&self.answered), refused.join(", ")]
    }
}

fn counted<T: std::fmt::Display>(all: &BTreeMap<T, u64>) -> String {
    let all: Vec<String> = all.iter().map(|one| format!("{} {}", one.1, one.0)).collect();
    all.join(", ")
}

fn first_word(line: &[u8]) -> String {
    String::from_utf8_lossy(line).split_whitespace().next().unwrap_or("").to_string()
}

/// Compares the scripts of the seeds from `seed` on: so many, or as many as there is time for. While the desk answers one run, the next
/// is drawn.
pub fn compare(runner: &Runner, most: u64, time: Duration, seed: u64) -> bool {
    let began = Instant::now();
    let mut tally = Tally::default();
    let mut now = sitting(seed, most, false);
    while !now.scripts.is_empty() {
        let from = seed + tally.scripts;
        let next = from + now.scripts.len() as u64;
        let left = if began.elapsed() < time { most.saturating_sub(next - seed) } else { 0 };
        let child = if now.piped { None } else { Some(runner.start(&now.text())) };
        let after = sitting(next, left, tally.runs % 8 == 0);
        let found = child.map_or_else(|| runner.pipe(&now.text(), from), |c| runner.ended(c));
        if found != now.wanted {
            let at = now.differing(&found);
            println!(
                "seed {} ({}): a difference{}",
                from + at as u64,
                now.scripts[at].kind,
                if now.piped { ", through a pipe" } else { "" }
            );
            let alone = now.scripts[at].lines.clone();
            let all: Lines = now.scripts[..=at].iter().flat_map(|s| s.lines.clone()).collect();
            tell(runner, if runner.file(&text(&alone)) != by_rules(&alone, Wrong::No) { alone } else { all });
            return false;
        }
        tally.add(&now);
        now = after;
    }
    let [kinds, answered, refused] = tally.told();
    let seconds = began.elapsed().as_secs_f64();
    println!(
        "{} scripts for the desk from seed {} ({}): {} lines in {} runs, no difference; {:.1} s",
        tally.scripts, seed, kinds, tally.lines, tally.runs, seconds
    );
    println!("answered: {}", answered);
    println!("refused: {}; {} wrong lines, {} before there was a window", refused, tally.wrong, tally.early);
    true
}

/// Gets each rule wrong in turn and shows the first script that tells; false where one goes unnoticed.
pub fn notice(runner: &Runner, most: u64, seed: u64) -> bool {
    let mut left: Vec<Wrong> = AT_THE_DESK.to_vec();
    let mut known = true;
    for n in 0..most {
        if left.is_empty() {
            break;
        }
        let script = draw(seed + n);
        if script.lines.len() > SHORT {
            continue;
        }
        left.retain(|&wrong| {
            if answers(&script.lines, wrong) == script.answers {
                return true;
            }
            let mut tells = |l: &[Vec<u8>]| by_rules(l, wrong) != by_rules(l, Wrong::No);
            let short = shrink::shortest_script(script.lines.clone(), 20_000, &mut tells);
            let same = runner.file(&text(&short)) == by_rules(&short, wrong);
            known &= !same;
            let said = if same {
                "the desk has it WRONG too".to_string()
            } else {
                format!("noticed at script {}; {} lines tell", n + 1, short.len())
            };
            println!("{:?}: {}", wrong, said);
            false
        });
    }
    for wrong in &left {
        println!("{:?}: NOT NOTICED in {} scripts", wrong, most);
    }
    println!("{} rules got wrong at the desk, {} unnoticed", AT_THE_DESK.len(), left.len());
    known && left.is_empty()
}
