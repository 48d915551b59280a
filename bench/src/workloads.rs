//! The workloads, each from a seed: what is read first and not counted (`base`), and the whole log, which begins with it.

use crate::logs::{bytes, carry, item, payload, remove, report, set, set_rule, show, window, Item, Rng};
use crate::{C, FAST, NAIVE, OURS};

pub struct Workload {
    pub name: String,
    pub base: Vec<u8>,
    pub log: Vec<u8>,
    pub units: usize,
    pub who: Vec<usize>,
}

pub type Make = Box<dyn Fn(usize) -> Workload>;

/// How values are drawn, as source 000 section 8 does; rising ones besides.
#[derive(Clone, Copy, PartialEq)]
pub enum Values {
    Uniform,
    Correlated,
    Anticorrelated,
    Rising,
}

impl Values {
    fn name(self) -> &'static str {
        match self {
            Values::Uniform => "uniform",
            Values::Correlated => "correlated",
            Values::Anticorrelated => "anti-correlated",
            Values::Rising => "rising",
        }
    }

    /// The values of report i of n.
    fn draw(self, rng: &mut Rng, i: usize, n: usize) -> (u32, u32) {
        let any = rng.below(4096) as i32;
        let near = |to: i32, rng: &mut Rng| (to + rng.among(-200, 200)).max(0).min(4095) as u32;
        match self {
            Values::Uniform => (any as u32, rng.below(4096) as u32),
            Values::Correlated => (any as u32, near(any, rng)),
            Values::Anticorrelated => (any as u32, near(4095 - any, rng)),
            Values::Rising => ((i * 4095 / n) as u32, (i * 4095 / n) as u32),
        }
    }
}

/// Frames of so many senders, each in its order, in mixed order; some with notes, and a session in a hundred broken.
fn frames(rng: &mut Rng, senders: usize, count: usize) -> Vec<Item> {
    let mut queues: Vec<Vec<Item>> = vec![Vec::new(); senders];
    let mut out = Vec::new();
    while out.len() < count {
        let i = rng.below(senders);
        if queues[i].is_empty() {
            let note = vec![b'x'; rng.below(65)];
            let note = if rng.chance(20) { Some(&note[..]) } else { None };
            let p = payload(rng.below(4096) as u32, rng.below(4096) as u32, rng.next() as u32, None, note);
            queues[i] = carry(i as u8, &p);
            if rng.chance(1) {
                let lost = rng.below(queues[i].len());
                queues[i].remove(lost);
            }
            queues[i].reverse();
        }
        out.extend(queues[i].pop());
    }
    out
}

/// The same frames, a sender's 10 to 60 ms apart; one in a thousand comes over 750 ms after its sender's last, and one before it.
fn timed(rng: &mut Rng, frames: &[Item]) -> Vec<Item> {
    let mut clocks = [0u32; 256];
    let mut out = Vec::new();
    for frame in frames {
        let clock = &mut clocks[frame[3] as usize];
        let step = if rng.below(1000) == 0 { 751 } else { 10 + rng.below(51) as u32 };
        let time = if rng.below(1000) == 0 { clock.saturating_sub(1) } else { clock.wrapping_add(step) };
        *clock = time.max(*clock);
        let mut value = time.to_le_bytes().to_vec();
        value.extend(&frame[3..]);
        out.push(item(21, &value));
    }
    out
}

fn joining(senders: usize, times: bool, units: usize) -> Workload {
    let mut log = window(1);
    let plain = frames(&mut Rng(7), senders, units);
    log.extend(bytes(&if times { timed(&mut Rng(19), &plain) } else { plain }));
    let name = format!("(a) {} sender{}, a frame{}", senders, if senders == 1 { "" } else { "s" }, if times { " with a time" } else { "" });
    Workload { name, base: window(1), log, units, who: vec![OURS, FAST, NAIVE, C] }
}

/// A window that is full and has its questions; then reports enter. Rising values are asked for with positive weights: no search.
fn entries(values: Values, questions: usize, n: usize, k: u8, units: usize) -> Workload {
    let rng = &mut Rng(11);
    let mut log = window(n);
    for slot in 0..questions {
        let low = if values == Values::Rising { 1 } else { -1000 };
        log.extend(set(slot as u8, k, rng.among(low, 1000), rng.among(low, 1000)));
    }
    let mut base = Vec::new();
    for i in 0..n + units {
        if i == n {
            base = log.clone();
        }
        let (loss, shake) = values.draw(rng, i, n + units);
        log.extend(bytes(&report((i % 254) as u8, loss, shake)));
    }
    for slot in 0..questions {
        log.extend(show(slot as u8));
    }
    let name =
        format!("(b) {}, {} question{}, N {}, k {}, an entry", values.name(), questions, if questions == 1 { "" } else { "s" }, n, k);
    Workload { name, base, log, units, who: vec![OURS, FAST, NAIVE] }
}

/// A full window of uniform values, and a question that is set and removed again and again.
fn searches(a: i32, b: i32, first: bool, n: usize, k: u8, units: usize) -> Workload {
    let rng = &mut Rng(13);
    let mut log = window(n);
    for i in 0..n {
        let (loss, shake) = Values::Uniform.draw(rng, i, n);
        log.extend(bytes(&report(5, loss, shake)));
    }
    let base = log.clone();
    for _ in 0..units {
        log.extend(if first { set_rule(0, k, [a, b, 0], 1) } else { set(0, k, a, b) });
        log.extend(remove(0));
    }
    let rule = if first { ", first-come" } else { "" };
    let name = format!("(c) weights {}, {}{}, N {}, k {}, a search", a, b, rule, n, k);
    Workload { name, base, log, units, who: vec![OURS, FAST, NAIVE] }
}

/// Scores that fall with every report, so that the report that leaves is always listed.
fn leaving(n: usize, k: u8, units: usize) -> Workload {
    let mut log = window(n);
    log.extend(set(0, k, 64, 1));
    let mut base = Vec::new();
    for i in 0..n + units {
        if i == n {
            base = log.clone();
        }
        let score = 64 * 4096 - 1 - (i % (64 * 4096)) as u32;
        log.extend(bytes(&report(5, score / 64, score % 64)));
    }
    log.extend(show(0));
    Workload { name: format!("(c) listed report leaves, N {}, k {}, an entry", n, k), base, log, units, who: vec![OURS, FAST, NAIVE] }
}

/// A day's log: the largest window, 8 questions that change now and then, all senders mixed, notes, lost packets, looks at the lists.
fn whole(units: usize) -> Workload {
    let rng = &mut Rng(17);
    let mut log = window(1024);
    let mut items = 1;
    let question =
        |rng: &mut Rng, slot: u8| set(slot, rng.pick(&[1, 2, 3, 4, 4, 5, 8, 16]), rng.among(-1000, 1000), rng.among(-1000, 1000));
    for slot in 0..8 {
        log.extend(question(rng, slot));
        items += 1;
    }
    for (i, frame) in frames(rng, 254, units).iter().enumerate() {
        if items >= units {
            break;
        }
        log.extend(frame);
        items += 1;
        if i % 1000 == 999 {
            log.extend(show(rng.below(9) as u8));
            items += 1;
        }
        if i % 10_000 == 9999 {
            let slot = rng.below(8) as u8;
            log.extend(remove(slot));
            log.extend(question(rng, slot));
            items += 2;
        }
    }
    Workload { name: String::from("(d) whole log, an item"), base: Vec::new(), log, units: items, who: vec![OURS, FAST] }
}

/// Every workload, as a function of its units; the number of units where it is fixed.
pub fn all() -> Vec<(Make, Option<usize>)> {
    let mut out: Vec<(Make, Option<usize>)> = Vec::new();
    for times in [false, true] {
        for senders in [1, 2, 254] {
            out.push((Box::new(move |u| joining(senders, times, u)), None));
        }
    }
    for questions in [1, 8, 32] {
        for n in [16, 128, 1024] {
            for k in [1, 16] {
                out.push((Box::new(move |u| entries(Values::Uniform, questions, n, k, u)), None));
            }
        }
    }
    for values in [Values::Correlated, Values::Anticorrelated] {
        for (questions, n) in [(8, 128), (32, 1024)] {
            out.push((Box::new(move |u| entries(values, questions, n, 16, u)), None));
        }
    }
    for n in [16, 128, 1024] {
        out.push((Box::new(move |u| entries(Values::Rising, 8, n, 16, u)), None));
    }
    for (a, b, first) in [(1, 2, false), (0, 0, false), (-1, 0, false), (1, 2, true), (0, 0, true)] {
        out.push((Box::new(move |u| searches(a, b, first, 1024, 16, u)), None));
    }
    for n in [16, 1024] {
        for k in [1, 16] {
            out.push((Box::new(move |u| leaving(n, k, u)), None));
        }
    }
    out.push((Box::new(whole), Some(1_000_000)));
    out
}

/// The workloads whose instructions are counted.
pub fn counted() -> Vec<Workload> {
    vec![
        joining(1, false, 2000),
        joining(254, false, 2000),
        joining(1, true, 2000),
        joining(254, true, 2000),
        entries(Values::Rising, 8, 16, 16, 500),
        entries(Values::Rising, 8, 1024, 16, 500),
        entries(Values::Uniform, 32, 1024, 16, 20),
        searches(1, 2, false, 1024, 16, 10),
        searches(0, 0, false, 1024, 16, 10),
        searches(-1, 0, false, 1024, 16, 10),
        searches(1, 2, true, 1024, 16, 10),
        searches(0, 0, true, 1024, 16, 10),
        leaving(1024, 1, 10),
        whole(4000),
    ]
}

/// A log of some length for the memory.
pub fn memory_log() -> Vec<u8> {
    whole(20_000).log
}
