//! Measures `cart` beside other programs that print the same. See bench/run.

#[allow(dead_code)]
#[path = "../../tests/compare/src/heating.rs"]
mod heating;
#[allow(dead_code)]
#[path = "../../tests/compare/src/logs.rs"]
mod logs;
#[allow(dead_code)]
#[path = "../../tests/compare/src/rules.rs"]
mod rules;
mod timing;
#[allow(dead_code)]
#[path = "../../tests/compare/src/tying.rs"]
mod tying;
mod workloads;
#[allow(dead_code)]
#[path = "../../tests/compare/src/wrong.rs"]
mod wrong;

use timing::{instructions, memory, same_addresses, seconds, text, Program};
use workloads::Workload;

/// The programs measured, ours first.
const OURS: usize = 0;
const FAST: usize = 1;
const NAIVE: usize = 2;
const C: usize = 3;

/// A workload is made so long that ours takes one to two times `ENOUGH` seconds, and shorter for a program that would take longer than `LONG`.
const ENOUGH: f64 = 0.1;
const LONG: f64 = 0.2;
/// The fewest and the most units. A run tells what a unit takes from so many seconds on, and so many times what its beginning takes.
const FEWEST: usize = 64;
const MOST: usize = 1 << 20;
const TELLS: f64 = 0.004;
const TIMES: f64 = 0.25;
/// Rounds of which the median counts, and those where two builds of `cart` are compared.
const ROUNDS: usize = 5;
const BESIDE: usize = 15;

fn median(mut times: Vec<f64>) -> f64 {
    times.sort_by(|x, y| x.partial_cmp(y).expect("a time"));
    times[times.len() / 2]
}

struct Bench {
    programs: Vec<Program>,
    room: String,
}

/// A workload in files, its beginning and the whole.
struct Files {
    base: String,
    log: String,
    units: usize,
}

/// A measured workload: what one unit takes, in nanoseconds, for each program that ran.
struct Row {
    name: String,
    units: String,
    nanoseconds: Vec<Option<f64>>,
}

impl Row {
    fn ratio(&self, other: usize) -> Option<f64> {
        match (self.nanoseconds[OURS], self.nanoseconds[other]) {
            (Some(ours), Some(theirs)) if theirs > 0.0 => Some(ours / theirs),
            _ => None,
        }
    }

    fn print(&self) {
        let time = |t: Option<f64>| t.map_or(String::from("-"), |t| format!("{:.0}", t));
        let ratio = |r: Option<f64>| r.map_or(String::from("-"), |r| format!("{:.3}", r));
        let n = &self.nanoseconds;
        println!(
            "| {} | {} | {} | {} | {} | {} | {} | {} | {} |",
            self.name,
            self.units,
            time(n[OURS]),
            time(n[FAST]),
            time(n[NAIVE]),
            time(n[C]),
            ratio(self.ratio(FAST)),
            ratio(self.ratio(NAIVE)),
            ratio(self.ratio(C))
        );
    }
}

impl Bench {
    fn files(&self, name: &str, w: &Workload) -> Files {
        let write = |part: &str, log: &[u8]| {
            let path = format!("{}/{}-{}.log", self.room, name, part);
            std::fs::write(&path, log).expect("writing a workload");
            path
        };
        Files { base: write("base", &w.base), log: write("whole", &w.log), units: w.units }
    }

    /// The others print the same as ours for a workload.
    fn agree<'a>(&self, name: &str, others: impl Iterator<Item = &'a Program>, files: &Files) {
        let ours = text(&self.programs[OURS], &files.log);
        for p in others {
            if text(p, &files.log) != ours {
                println!("{}: {} prints something else than ours for {}", name, p.name, files.log);
                std::process::exit(1);
            }
        }
    }

    /// The processor time of a workload's beginning, and of the rest.
    fn once(&self, program: usize, files: &Files) -> (f64, f64) {
        let base = seconds(&self.programs[program], &files.base);
        (base, seconds(&self.programs[program], &files.log) - base)
    }

    /// How many units each program is measured on, told from short workloads.
    fn sizes(&self, make: &dyn Fn(usize) -> Workload) -> Vec<usize> {
        let mut sizes = vec![MOST; self.programs.len()];
        let mut units = FEWEST;
        while units < sizes[OURS] {
            let w = make(units);
            let files = self.files("short", &w);
            for &i in &w.who {
                if sizes[i] < MOST {
                    continue;
                }
                let (base, rest) = self.once(i, &files);
                if rest > TELLS.max(base * TIMES) {
                    let wanted = if i == OURS { ENOUGH } else { LONG } / rest * units as f64;
                    sizes[i] = (wanted as usize).next_power_of_two().max(FEWEST).min(MOST);
                }
            }
            units *= 16;
        }
        sizes.iter().map(|&size| size.min(sizes[OURS])).collect()
    }

    /// Measures a workload in rounds that take the programs in turn.
    fn measure(&self, make: &dyn Fn(usize) -> Workload, fixed: Option<usize>) -> Row {
        let Workload { name, who, .. } = make(FEWEST);
        let sizes = fixed.map_or_else(|| self.sizes(make), |units| vec![units; self.programs.len()]);
        let mut lengths: Vec<usize> = who.iter().map(|&i| sizes[i]).collect();
        lengths.sort();
        lengths.dedup();
        let mut logs = Vec::new();
        for &units in &lengths {
            let files = self.files(&format!("length{}", logs.len()), &make(units));
            self.agree(&name, who[1..].iter().filter(|&&i| sizes[i] >= units).map(|&i| &self.programs[i]), &files);
            logs.push(files);
        }
        let log = |i: usize| &logs[lengths.binary_search(&sizes[i]).expect("a length")];
        let mut times = vec![Vec::new(); who.len()];
        for _ in 0..ROUNDS {
            for (t, &i) in times.iter_mut().zip(&who) {
                t.push(self.once(i, log(i)).1);
            }
        }
        let mut units = log(OURS).units.to_string();
        let mut nanoseconds = vec![None; self.programs.len()];
        for (t, &i) in times.into_iter().zip(&who) {
            nanoseconds[i] = Some(median(t) * 1e9 / log(i).units as f64);
            if sizes[i] != sizes[OURS] {
                units += &format!(" ({} {})", self.programs[i].name, log(i).units);
            }
        }
        Row { name, units, nanoseconds }
    }

    /// Measures ours and the program after it, another build of `cart`, on one workload in turn: what a unit takes each, and the median of the
    /// rounds' ratios. A workload with items that the other doesn't know isn't measured.
    fn beside(&self, make: &dyn Fn(usize) -> Workload, fixed: Option<usize>) {
        let units = fixed.unwrap_or_else(|| self.sizes(&|units| Workload { who: vec![OURS], ..make(units) })[OURS]);
        let w = make(units);
        let files = self.files("beside", &w);
        if unknown(&text(&self.programs[1], &files.log)) {
            return println!("| {} | {} | - | - | items that it doesn't know |", w.name, files.units);
        }
        self.agree(&w.name, self.programs[1..2].iter(), &files);
        let rounds: Vec<(f64, f64)> = (0..BESIDE).map(|_| (self.once(1, &files).1, self.once(OURS, &files).1)).collect();
        let unit = |seconds: Vec<f64>| median(seconds) * 1e9 / files.units as f64;
        let (other, ours) = (unit(rounds.iter().map(|r| r.0).collect()), unit(rounds.iter().map(|r| r.1).collect()));
        let ratio = median(rounds.iter().map(|r| r.1 / r.0).collect());
        println!("| {} | {} | {:.1} | {:.1} | {:.3} |", w.name, files.units, other, ours, ratio);
    }

    /// Instructions for each unit of a fixed workload, which repeat.
    fn count(&self, w: &Workload) {
        let files = self.files("short", w);
        self.agree(&w.name, w.who[1..].iter().map(|&i| &self.programs[i]), &files);
        let mut line = format!("| {} | {} |", w.name, w.units);
        let mut counts = vec![None; self.programs.len()];
        for &i in &w.who {
            let p = &self.programs[i];
            counts[i] = match (instructions(p, &files.log), instructions(p, &files.base)) {
                (Some(all), Some(start)) => Some((all - start) as f64 / w.units as f64),
                _ => return println!("| {} | valgrind failed |", w.name),
            };
        }
        for c in &counts {
            line += &c.map_or(String::from(" - |"), |c| format!(" {:.0} |", c));
        }
        for &i in &[FAST, NAIVE, C] {
            line += &match (counts[OURS], counts[i]) {
                (Some(ours), Some(theirs)) => format!(" {:.3} |", ours / theirs),
                _ => String::from(" - |"),
            };
        }
        println!("{}", line);
    }
}

/// A text that refuses an item 22, as one that no log knows: no workload has one that this `cart` doesn't know.
fn unknown(text: &[u8]) -> bool {
    text.split(|&b| b == b'\n').any(|line| line.starts_with(b"R ") && line.ends_with(b" 22"))
}

fn worst(rows: &[Row], part: &str, other: usize) -> f64 {
    rows.iter().filter(|r| r.name.contains(part)).filter_map(|r| r.ratio(other)).fold(0.0, f64::max)
}

/// What one unit takes a program, of the first workload with such a name.
fn of(rows: &[Row], name: &str, program: usize) -> f64 {
    rows.iter().find(|r| r.name.starts_with(name)).and_then(|r| r.nanoseconds[program]).unwrap_or(0.0)
}

/// The lines that the limits are about.
fn summary(rows: &[Row]) {
    println!("\n| what | limit | today |\n|---|---|---|");
    println!("| ours / fast, whole log (d) | 1.5 | {:.2} |", worst(rows, "(d)", FAST));
    println!("| ours / naive, (b) N 1024, 32 questions, the worst row | 0.1 | {:.3} |", worst(rows, "32 questions, N 1024", NAIVE));
    println!("| ours / C session machine, (a), the worst row | 3 | {:.2} |", worst(rows, "(a)", C));
    let mixed = |program: usize| of(rows, "(a) 254 senders", program) / of(rows, "(a) 1 sender", program);
    println!("| a frame with 254 senders / with 1, ours (and the C machine's) | 1 | {:.2} ({:.2}) |", mixed(OURS), mixed(C));
    let rising = |n: usize| of(rows, &format!("(b) rising, 8 questions, N {}, k 16", n), OURS);
    println!("| an entry with no search, N 1024 / N 16, ours | 1 | {:.2} |", rising(1024) / rising(16));
}

/// Two builds of `cart` beside each other: the times of each workload, and the memory.
fn two_builds(bench: &Bench) {
    println!("\nCPU time for one unit, in nanoseconds; {} rounds that take the two in turn, the median of each and of their ratios\n", BESIDE);
    println!("| workload | units | the other cart | this one | ratio |\n|---|---|---|---|---|");
    for (make, fixed) in workloads::all() {
        bench.beside(&*make, fixed);
    }
    let idle = Program { name: "idle", words: vec![format!("{}/idle", bench.room)] };
    let log = workloads::memory_log();
    let most = |p: &Program| median((0..BESIDE).map(|_| memory(p, &log) as f64).collect());
    let [least, other, ours] = [&idle, &bench.programs[1], &bench.programs[OURS]].map(most);
    let (other, ours) = (other - least, ours - least);
    println!("| memory above an idle program's, kB | | {} | {} | {:.3} |", other, ours, ours / other);
}

/// bench ROOM MODE CART-COMMAND... [-- COMMAND...]
/// In the mode `beside` the second command is another build of `cart`, and the two are compared.
fn main() {
    let words: Vec<String> = std::env::args().skip(1).collect();
    let room = words[0].clone();
    let mut commands = words[2..].split(|w| w == "--").map(|c| c.to_vec());
    let command = commands.next().expect("the command of cart");
    let program = |name: &'static str, words: &[&str]| Program { name, words: words.iter().map(|w| w.to_string()).collect() };
    let contender = format!("{}/contender", room);
    let session = format!("{}/session", room);
    let programs = vec![
        Program { name: "ours", words: command },
        program("fast", &[&contender, "fast"]),
        program("naive", &[&contender, "naive"]),
        program("C", &[&session]),
    ];
    let mut bench = Bench { programs, room };
    same_addresses();
    if words[1] == "beside" {
        bench.programs[1] = Program { name: "the other cart", words: commands.next().expect("the command of the other cart") };
        return two_builds(&bench);
    }
    if words[1] != "counts" {
        println!(
            "\nCPU time for one unit, in nanoseconds, start-up and filling taken off; medians of {} rounds that take the programs in turn\n",
            ROUNDS
        );
        println!("| workload | units | ours | fast | naive | C | ours/fast | ours/naive | ours/C |\n|---|---|---|---|---|---|---|---|---|");
        let mut rows = Vec::new();
        for (make, fixed) in workloads::all() {
            let row = bench.measure(&*make, fixed);
            row.print();
            rows.push(row);
        }
        summary(&rows);
        let idle = Program { name: "idle", words: vec![format!("{}/idle", bench.room)] };
        let log = workloads::memory_log();
        let (least, most) = (memory(&idle, &log), memory(&bench.programs[OURS], &log));
        println!("| memory of cart above that of an idle program, kB | 1000 | {} ({} and {}) |", most as i64 - least as i64, most, least);
    }
    if words[1] != "times" {
        println!("\nInstructions for one unit, start-up and filling taken off\n");
        println!("| workload | units | ours | fast | naive | C | ours/fast | ours/naive | ours/C |\n|---|---|---|---|---|---|---|---|---|");
        for w in workloads::counted() {
            bench.count(&w);
        }
    }
}
