//! Scripts for the desk from seeds: lines, and what each is answered by the rules. A script is independent of those before it: it starts
//! with a window and leaves fresh sessions and no last times, or it needs a desk of its own.

use crate::board::Board;
use crate::bus::Last;
use crate::clocks::Clocks;
use crate::desk::Desk;
use crate::heating::Heating;
use crate::joining::Session;
use crate::logs::{carry, payload, Item, Rng};
use crate::ranging::Ranging;
use crate::rules::{le, Ranges};
use crate::tied;
use crate::tying::{self, Tying};
use crate::wrong::Wrong;
use crate::{made_up, spoilt};

pub struct Script {
    pub kind: &'static str,
    /// It needs a desk with no window yet.
    pub first: bool,
    pub lines: Vec<Vec<u8>>,
    pub answers: Vec<String>,
    pub desk: Desk,
    pub clocks: Clocks,
    pub ranging: Ranging,
    pub heating: Heating,
    pub tying: Tying,
    /// So many of a hundred lines are spoilt on their way, and the seed for that.
    spoils: usize,
    spoiling: Rng,
}

impl Script {
    fn new(kind: &'static str, seed: u64, rng: &mut Rng) -> Script {
        let (clocks, ranging, heating) = (Clocks::new(seed, 50), Ranging::new(seed, 40), Heating::new(seed, 45));
        let tying = Tying::new(seed, 45);
        let (spoils, spoiling) = (if rng.chance(12) { rng.pick(&[3, 10, 40]) } else { 0 }, Rng(rng.next()));
        let desk = Desk::new(Wrong::No);
        Script { kind, first: false, lines: Vec::new(), answers: Vec::new(), desk, clocks, ranging, heating, tying, spoils, spoiling }
    }

    pub fn say(&mut self, line: String) {
        let spoilt = !self.lines.is_empty() && self.spoils > 0 && self.spoiling.chance(self.spoils);
        let line = if spoilt { spoilt::line(&mut self.spoiling, &line) } else { line.into_bytes() };
        self.say_so(line);
    }

    /// A line as it is.
    fn say_so(&mut self, line: Vec<u8>) {
        self.answers.push(self.desk.answer(&line));
        self.lines.push(line);
    }

    /// The board, where there is one.
    pub fn board(&self) -> Board {
        self.desk.board.clone().unwrap_or_else(|| Board::fresh(1, Wrong::No))
    }

    /// The ranges of a question that is asked now.
    pub fn ranges(&mut self) -> Ranges {
        let held = self.desk.board.as_ref().map_or_else(Default::default, |b| b.window.reports());
        self.ranging.draw(&held)
    }

    /// Sets a question, with ranges, a weight for heat and a tie rule or without.
    pub fn set(&mut self, slot: usize, k: i32, a: i32, b: i32) {
        let ranges = self.ranges();
        let mut words = self.ranging.words(ranges);
        if let Some(c) = self.heating.any_weight() {
            let place = self.heating.below(words.len() + 1);
            words.insert(place, format!(" heat {}", c));
        }
        if let Some(rule) = self.tying.any_rule() {
            let place = self.tying.below(words.len() + 1);
            words.insert(place, format!(" rule {}", rule));
        }
        self.say(format!("set {} {} {} {}{}", slot, k, a, b, words.concat()));
    }

    /// Enters a report with these values, or with ones near the ends of what some question counts.
    pub fn enter(&mut self, loss: u32, shake: u32) {
        let used = self.desk.board.iter().flat_map(|b| &b.slots).filter(|s| s.k != 0 && s.ranges != Ranges::ALL);
        let asked: Vec<Ranges> = used.map(|s| s.ranges).collect();
        let [loss, shake] = self.ranging.values(&asked, [loss, shake]);
        let heat = Heating::words(self.heating.any_heat());
        self.say(format!("enter {} {}{}", loss, shake, heat));
    }

    /// Looks at all that a call may have changed of a slot, also where the board doesn't read its list: a search under way is given
    /// out for ended, and put back.
    pub fn look(&mut self, slot: usize) {
        self.say(format!("steps {}", slot));
        self.say(format!("marks {}", slot));
        let s = self.board().slots[slot].clone();
        let poked = |next: u16| format!("poke slot {} {} {} {} {} {}", slot, s.k, s.weights[0], s.weights[1], s.len, next);
        let under_way = s.k != 0 && s.next < 256;
        if under_way {
            self.say(poked(256));
        }
        self.say(format!("read {}", slot));
        if under_way {
            self.say(poked(s.next));
        }
    }

    /// What gives a sender's next frame a time: the words for it, or none.
    pub fn at(&mut self, sender: usize) -> String {
        let last = self.desk.bus.lasts[sender];
        self.clocks.time(sender, last).map_or(String::new(), |ms| format!(" at {}", ms))
    }

    /// Makes every session that was touched a fresh one again, and its sender one without a last time.
    fn leave(&mut self) {
        self.spoils = 0;
        for sender in 0..254 {
            if self.desk.bus.lasts[sender] != Last::NONE {
                self.say(format!("poke untimed {} 0", sender));
            }
            if self.desk.bus.sessions[sender] != Session::fresh() {
                self.say(format!("poke session {} 0 0 0", sender));
                self.say(format!("frame 0CECFF{:02X} 20110003FF14FF00", sender));
                self.say(format!("poke session {} 0 0 0", sender));
            }
        }
    }
}

pub fn hex(bytes: &[u8]) -> String {
    bytes.iter().map(|b| format!("{:02X}", b)).collect()
}

/// A log's frame item as a line, in digits of either case.
pub fn frame_line(rng: &mut Rng, item: &Item) -> String {
    let (id, data) = (le(&item[3..7]), hex(&item[7..]));
    match rng.below(4) {
        0 => format!("frame {:x} {}", id, data.to_lowercase()),
        _ => format!("frame {:08X} {}", id, data),
    }
}

fn weight(rng: &mut Rng) -> i32 {
    match rng.below(6) {
        0 => 0,
        1 => rng.pick(&[-1000, -999, 999, 1000]),
        2 => rng.among(-1000, 1000),
        _ => rng.among(-3, 3),
    }
}

/// Loss or shake: any, few ones, or near a cell's edge.
fn value(rng: &mut Rng, sort: usize) -> u32 {
    match sort {
        0 => rng.below(4096) as u32,
        1 => rng.pick(&[0, 1, 255, 256, 3840, 4095]),
        2 => (256 * rng.below(17) as i32 + rng.among(-1, 1)).max(0).min(4095) as u32,
        _ => rng.pick(&[3840, 3900, 4000, 4095]),
    }
}

// ---- a working day

/// A window, questions, entries, searches by hand, frames of several senders.
fn day(s: &mut Script, rng: &mut Rng) {
    let n = rng.pick(&[1, 2, 3, 4, 8, 20, 64]);
    let (slots, sort) = (rng.pick(&[1, 2, 3, 8, 32]), rng.below(4));
    s.say(format!("window {}", n));
    for _ in 0..rng.among(4, 20) {
        let slot = rng.below(slots);
        match rng.below(14) {
            0 | 1 => {
                let k = if rng.chance(60) { rng.among(1, 3) } else { rng.among(1, 16) };
                s.set(slot, k, weight(rng), weight(rng));
            }
            2 if rng.chance(40) => s.say(format!("remove {}", slot)),
            3 => s.say(format!("read {}", slot)),
            4 => s.say(rng.pick(&["held", "steps 0", "marks 0", "session 0"]).to_string()),
            5 => by_hand(s, rng, slot),
            6 | 7 => mixed(s, rng, sort),
            8 if rng.chance(10) => s.say(format!("window {}", rng.pick(&[0, 1, 3, 1025]))),
            _ => s.enter(value(rng, sort), value(rng, sort)),
        }
    }
    s.look(0);
}

/// Listed reports leave again and again: a small window, some questions, more reports than fit, a look at every list.
fn leaving(s: &mut Script, rng: &mut Rng) {
    let n = rng.among(1, 8);
    let (slots, sort, falling) = (rng.pick(&[1, 2, 4, 12]), rng.below(4), rng.chance(50));
    s.say(format!("window {}", n));
    let reports = (n + rng.among(3, 20)) as u32;
    let asked = rng.below(n as usize + 1) as u32;
    for i in 0..reports {
        if i == asked {
            for slot in 0..slots {
                s.set(31 - slot, rng.among(1, 5), weight(rng), weight(rng));
            }
        }
        let low = if falling { i * 4095 / reports } else { 0 };
        s.enter(value(rng, sort).saturating_sub(low), value(rng, sort).saturating_sub(low));
    }
    for slot in 0..slots {
        s.look(31 - slot);
    }
    s.say(String::from("held"));
}

/// A search begun and stepped, mostly to its end.
fn by_hand(s: &mut Script, rng: &mut Rng, slot: usize) {
    s.say(format!("begin {}", slot));
    let most = rng.pick(&[0, 3, 20, 300, 300]);
    let looks = rng.pick(&[1, 7, 50]);
    for i in 0..most {
        s.say(format!("step {}", slot));
        let answer = s.answers[s.answers.len() - 1].clone();
        if i % looks == 0 {
            s.say(format!("{} {}", rng.pick(&["marks", "steps"]), slot));
        }
        if answer != "ok\n" {
            break;
        }
    }
    s.look(slot);
}

/// The frames of some senders, each in its order, mixed; a report that is complete is entered.
fn mixed(s: &mut Script, rng: &mut Rng, sort: usize) {
    let first = rng.below(250);
    let mut queues: Vec<Vec<Item>> = Vec::new();
    for i in 0..rng.among(1, 4) as usize {
        let note: Vec<u8> = (0..rng.pick(&[0, 1, 9, 64])).map(|_| rng.next() as u8).collect();
        let note = if rng.chance(40) { Some(&note[..]) } else { None };
        let p = payload(value(rng, sort), value(rng, sort), rng.next() as u32, s.heating.heat(), note);
        queues.push(carry((first + i) as u8, &p));
    }
    while !queues.is_empty() {
        let i = rng.below(queues.len());
        let item = queues[i].remove(0);
        if !rng.chance(3) {
            let line = frame_line(rng, &item) + &s.at(item[3].into());
            s.say(line);
        }
        let words: Vec<String> = s.answers[s.answers.len() - 1].split_whitespace().map(String::from).collect();
        if words.first().map_or(false, |w| w == "report") && words.len() > 3 && rng.chance(80) {
            let heat = if words.len() > 5 && words[4] == "heat" { format!(" heat {}", words[5]) } else { String::new() };
            s.say(format!("enter {} {}{}", words[2], words[3], heat));
        }
        if queues[i].is_empty() {
            queues.remove(i);
        }
    }
}

// ---- payloads and the bench sender

pub fn some_payload(s: &mut Script, rng: &mut Rng) -> Vec<u8> {
    let value = |rng: &mut Rng| rng.pick(&[0, 1, 255, 4095, 4095, 4096, 65535]);
    let note: Vec<u8> = (0..rng.pick(&[0, 1, 5, 63, 64, 65])).map(|_| rng.next() as u8).collect();
    let note = if rng.chance(50) { Some(&note[..]) } else { None };
    let mut p = payload(value(rng), value(rng), rng.next() as u32, s.heating.any_heat(), note);
    if s.heating.chance(30) {
        s.heating.broken(&mut p);
        return p;
    }
    if rng.chance(40) {
        let at = rng.below(p.len());
        p[at] = p[at].wrapping_add(rng.pick(&[1, 255, 16]));
    }
    if rng.chance(20) {
        let length = rng.below(100);
        p.resize(length, 4);
    }
    p
}

fn texts(s: &mut Script, rng: &mut Rng) {
    s.say(String::from("window 1"));
    for _ in 0..4 {
        let p = some_payload(s, rng);
        s.say(format!("payload {}", hex(&p)).trim_end().to_string());
        let line = write_line(s, rng);
        s.say(line);
    }
}

/// A line for the bench sender, at and past each edge.
fn write_line(s: &mut Script, rng: &mut Rng) -> String {
    let value = |rng: &mut Rng| rng.pick(&[0, 1, 255, 256, 4095, 4095, 4095, 4096, 65535]);
    let sender = rng.pick(&[0, 5, 77, 252, 253, 253, 254, 255]);
    let own = rng.pick(&[0, 7, 65536, 4294967295, rng.0 as u32]);
    let mut line = format!("write {} {} {} {}", sender, value(rng), value(rng), own);
    let length = rng.pick(&[0, 1, 4, 5, 63, 64, 64, 65, 200]);
    let note: Vec<u8> = (0..length).map(|_| rng.next() as u8).collect();
    let noted = rng.chance(60);
    let heat = s.heating.any_heat();
    let mut words = Vec::new();
    if noted {
        words.push(format!(" note {}", hex(&note)).trim_end().to_string());
    }
    if rng.chance(60) {
        let size = if noted { 20 + length } else { 17 } + if heat.is_some() { 5 } else { 0 };
        let needed = 12 * (1 + (size + 6) / 7) as i64;
        let room = rng.pick(&[0, 12, needed - 1, needed, needed + 1, needed, 157, 169, 4294967295]);
        words.push(format!(" room {}", room));
    }
    if rng.chance(50) {
        words.reverse();
    }
    if heat.is_some() {
        words.insert(s.heating.below(words.len() + 1), Heating::words(heat));
    }
    line += &words.concat();
    line
}

// ---- before the window

/// Lines on a desk that has no window yet.
fn early(s: &mut Script, rng: &mut Rng) {
    s.first = true;
    for _ in 0..rng.among(1, 12) {
        let line = spoilt::any_line(rng);
        s.say(line);
        if rng.chance(20) {
            s.say(format!("window {}", rng.pick(&[0, 1, 2, 1024, 1025, 65535])));
        }
    }
}

/// Lines of every form, some with a number or a word that isn't right.
fn forms(s: &mut Script, rng: &mut Rng) {
    s.say(String::from("window 3"));
    s.spoils = 50;
    for _ in 0..12 {
        let line = spoilt::any_line(rng);
        s.say(line);
    }
}

/// The script of a seed.
pub fn draw(seed: u64) -> Script {
    let rng = &mut Rng(seed);
    let (kind, fill): (_, fn(&mut Script, &mut Rng)) = match rng.below(100) {
        _ if tying::whole(seed) => ("ties", tied::script),
        0 => ("early", early),
        1 => ("large", made_up::large),
        n if n < 5 => ("day", day),
        n if n < 8 => ("leaving", leaving),
        n if n < 10 => ("forms", forms),
        n if n < 20 => ("texts", texts),
        n if n < 59 => ("session", made_up::session),
        _ => ("made up", made_up::question),
    };
    let mut script = Script::new(kind, seed, rng);
    fill(&mut script, rng);
    script.leave();
    script
}
