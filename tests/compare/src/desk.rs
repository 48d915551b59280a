//! The desk (docs/DESK.md) by the rules: its state, and its answer to a line.

use crate::board::{Board, Row, Slot, Window};
use crate::bus::{Bus, Last};
use crate::joining::{payload, Brought, Heard, Session, BYTES};
use crate::orders::{read, Order, Said, FORMS};
use crate::rules::{Entry, Ranges, Report, FIRST_COME, NEWEST};
use crate::wrong::Wrong;

#[derive(Clone)]
pub struct Desk {
    wrong: Wrong,
    pub board: Option<Board>,
    pub bus: Bus,
}

fn hex(bytes: &[u8]) -> String {
    bytes.iter().map(|b| format!("{:02X}", b)).collect()
}

fn report(r: &Brought) -> String {
    let mut out = format!("report {} {} {}", r.own, r.loss, r.shake);
    if let Some(heat) = r.heat {
        out += &format!(" heat {}", heat);
    }
    if let Some(note) = &r.note {
        out += " note";
        if !note.is_empty() {
            out += &format!(" {}", hex(note));
        }
    }
    out
}

/// What stands behind a report's numbers where it has a heat.
fn behind(heat: Option<u16>) -> String {
    heat.map_or(String::new(), |h| format!(":{}", h))
}

fn refused(code: u32) -> String {
    format!("refused {}", code)
}

/// `ok`, or the refusal.
fn ok(answer: Result<(), u32>) -> String {
    answer.map_or_else(refused, |()| String::from("ok"))
}

/// A word, how many there are, and each of them.
fn listed(word: &str, all: &[String]) -> String {
    let mut out = format!("{} {}", word, all.len());
    for one in all {
        out += &format!(" {}", one);
    }
    out
}

impl Desk {
    pub fn new(wrong: Wrong) -> Desk {
        Desk { wrong, board: None, bus: Bus::fresh() }
    }

    /// The answer to a line, with its line end; nothing where it has none.
    pub fn answer(&mut self, line: &[u8]) -> String {
        let text = match read(line) {
            Order::Nothing => return String::new(),
            Order::Wrong(text) => text,
            Order::Numbers(name, n) => self.numbers(name, &n),
            Order::Ranged(name, n, said) => match &mut self.board {
                None => String::from("no window"),
                Some(board) if name == "set" => set(board, &n, said, self.wrong),
                Some(board) => poke_slot(board, &n, said, self.wrong),
            },
            Order::Heated(name, n, heat) => match &mut self.board {
                None => String::from("no window"),
                Some(board) if name == "enter" => enter(board, &n, heat),
                Some(board) => poke_heated(board, name, &n, heat, self.wrong),
            },
            Order::Frame(id, data, time) => match self.bus.hear(time, id, &data, self.wrong) {
                Heard::Refused(code) => refused(code),
                Heard::Kept => String::from("kept"),
                Heard::Report(r) => report(&r),
            },
            Order::Payload(p) => payload(&p, self.wrong).map_or(refused(10), |r| report(&r)),
            Order::Write(sending) => match sending.frames(self.wrong) {
                Ok(frames) => listed("frames", &frames.iter().map(|f| format!("{:08X} {}", f.0, hex(&f.1))).collect::<Vec<_>>()),
                Err(code) => refused(code),
            },
        };
        text + "\n"
    }

    fn numbers(&mut self, name: &str, n: &[i64]) -> String {
        let at = |i: usize| n[i] as usize;
        match name {
            "window" => self.window(n[0]),
            "help" => FORMS.iter().map(|f| format!("{}{}", f.name, f.rest)).collect::<Vec<_>>().join("\n"),
            "session" => self.session(at(0)),
            "poke session" => {
                let bytes = self.bus.sessions[at(0)].bytes;
                self.bus.sessions[at(0)] = Session { size: at(1), count: at(2), next: at(3), bytes };
                match n.get(4) {
                    Some(&ms) => self.bus.lasts[at(0)] = Last { known: true, at: ms as u32 },
                    None if self.wrong == Wrong::PokeForgetsTheTime => self.bus.lasts[at(0)] = Last::NONE,
                    None => {}
                }
                ok(Ok(()))
            }
            "poke byte" => {
                self.bus.sessions[at(0)].bytes[at(1)] = n[2] as u8;
                ok(Ok(()))
            }
            "poke untimed" => {
                self.bus.lasts[at(0)] = Last { known: false, at: n[1] as u32 };
                ok(Ok(()))
            }
            _ => match &mut self.board {
                None => String::from("no window"),
                Some(board) if name == "poke window" => poke_window(&mut board.window, n),
                Some(board) => call(board, name, n, self.wrong),
            },
        }
    }

    fn session(&self, sender: usize) -> String {
        let (s, last) = (&self.bus.sessions[sender], self.bus.lasts[sender]);
        let time = if last.known { format!(" at {}", last.at) } else { String::new() };
        format!("session {} {} {} {}{}", s.size, s.count, s.next, hex(&s.bytes[..BYTES]), time)
    }

    fn window(&mut self, n: i64) -> String {
        match self.wrong {
            Wrong::SessionsGoWithTheWindow => self.bus.sessions = Bus::fresh().sessions,
            Wrong::TimesGoWithTheWindow => self.bus.lasts = Bus::fresh().lasts,
            _ => {}
        }
        if n < 1 || n > 1024 {
            if self.wrong == Wrong::RefusedWindowClears {
                self.board = None;
            }
            return refused(18);
        }
        let mut board = Board::fresh(n as u16, self.wrong);
        if let (Some(old), Wrong::SlotsStayWithTheWindow) = (&self.board, self.wrong) {
            board.slots = old.slots.clone();
        }
        self.board = Some(board);
        ok(Ok(()))
    }
}

/// The ranges of loss and shake that are said, and in place of the others those that hold where none is.
fn ranges(said: Said, unsaid: Ranges, wrong: Wrong) -> Ranges {
    let (loss, shake) = if wrong == Wrong::RangesSwapped { (said.shake, said.loss) } else { (said.loss, said.shake) };
    Ranges { loss: loss.unwrap_or(unsaid.loss), shake: shake.unwrap_or(unsaid.shake) }
}

fn set(board: &mut Board, n: &[i64], said: Said, wrong: Wrong) -> String {
    let weights = [n[2] as i16, n[3] as i16, said.heat.unwrap_or(0)];
    let rule = match wrong {
        Wrong::UnsaidIsFirstCome => said.rule.unwrap_or(FIRST_COME),
        Wrong::SaidTieRuleLost => NEWEST,
        _ => said.rule.unwrap_or(NEWEST),
    };
    let steps = board.set(n[0] as usize, n[1] as u8, weights, ranges(said, Ranges::ALL, wrong), rule);
    steps.map_or_else(refused, |steps| format!("steps {}", steps))
}

/// A slot's numbers; its lines stay, and so does what isn't said.
fn poke_slot(board: &mut Board, n: &[i64], said: Said, wrong: Wrong) -> String {
    let slot = &mut board.slots[n[0] as usize];
    let before = if wrong == Wrong::PokeForgetsTheRanges { Ranges::ALL } else { slot.ranges };
    let weight = if wrong == Wrong::PokeForgetsTheHeatWeight { 0 } else { slot.weights[2] };
    let rule = if wrong == Wrong::PokeForgetsTheTieRule { NEWEST } else { slot.rule };
    *slot = Slot {
        k: n[1] as u8,
        weights: [n[2] as i16, n[3] as i16, said.heat.unwrap_or(weight)],
        ranges: ranges(said, before, wrong),
        rule: said.rule.unwrap_or(rule),
        len: n[4] as u8,
        next: n[5] as u16,
        lines: slot.lines,
    };
    ok(Ok(()))
}

fn enter(board: &mut Board, n: &[i64], heat: Option<u16>) -> String {
    board.enter(n[0] as u16, n[1] as u16, heat).map_or_else(refused, |(number, searches)| {
        let each: Vec<String> = searches.iter().map(|s| format!(" {}:{}", s.0, s.1)).collect();
        format!("report {}{}", number, each.concat())
    })
}

/// A row or a line; a heat that isn't said stays, and so does none.
fn poke_heated(board: &mut Board, name: &str, n: &[i64], heat: Option<u16>, wrong: Wrong) -> String {
    let (window, at) = (&mut board.window, n[0] as usize);
    let kept = |before: Option<u16>| heat.or(before).filter(|_| heat.is_some() || wrong != Wrong::PokeForgetsTheHeat);
    if name == "poke row" {
        let heat = kept(window.rows[at].heat);
        window.rows[at] = Row { number: n[1] as u32, loss: n[2] as u16, shake: n[3] as u16, heat };
    } else {
        let line = &mut board.slots[at].lines[n[1] as usize];
        *line = Entry { number: n[2] as u32, score: n[3] as i32, heat: kept(line.heat) };
    }
    ok(Ok(()))
}

/// The lines that make a call on the board, or look at it.
fn call(board: &mut Board, name: &str, n: &[i64], wrong: Wrong) -> String {
    let slot = n.first().map_or(0, |&s| s as usize);
    match name {
        "remove" => ok(board.remove(slot)),
        "read" => board.read(slot).map_or_else(refused, |list| {
            let lines: Vec<String> = list.iter().map(|e| format!("{}:{}{}", e.number, e.score, behind(e.heat))).collect();
            listed("list", &lines)
        }),
        "begin" => ok(board.begin(slot)),
        "step" => ok(board.step(slot)),
        "steps" => format!("steps {}", board.slots[slot].steps(wrong)),
        "marks" => {
            let marks = board.slots[slot].question(wrong).marks;
            let cells: Vec<String> = (0..256).filter(|&c| marks[c]).map(|c| c.to_string()).collect();
            listed("marks", &cells)
        }
        _ if !board.window.fit(wrong) => refused(24),
        _ => {
            let shown = |r: &Report| format!("{}:{}:{}{}", r.number, r.loss, r.shake, behind(r.heat));
            listed("held", &board.window.reports().iter().map(shown).collect::<Vec<_>>())
        }
    }
}

fn poke_window(window: &mut Window, n: &[i64]) -> String {
    window.size = n[0] as u16;
    window.entered = n[1] as u32;
    window.held = n[2] as u16;
    ok(Ok(()))
}
