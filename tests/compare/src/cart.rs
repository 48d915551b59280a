//! The log program by the rules (docs/RULES.md, sections 11, 17 and 18): a log in, its text out.

use crate::bus::Bus;
use crate::joining::Heard;
use crate::rules::{le, Question, Range, Ranges, Report, FIRST_COME, MOST_REPORTS, NEWEST};
use crate::wrong::Wrong;
use std::collections::VecDeque;

/// The log program: what has come of a log so far, and the text it prints.
pub struct Cart {
    wrong: Wrong,
    item: u64,
    size: Option<usize>,
    entered: u32,
    held: VecDeque<Report>,
    slots: Vec<Option<Question>>,
    bus: Bus,
    /// The tie rules that slots had last: for rules got wrong.
    had: [u8; 32],
    pub text: Vec<u8>,
}

impl Cart {
    pub fn new(wrong: Wrong) -> Cart {
        let (held, slots) = (VecDeque::new(), vec![None; 32]);
        Cart { wrong, item: 0, size: None, entered: 0, held, slots, bus: Bus::fresh(), had: [0; 32], text: Vec::new() }
    }

    fn line(&mut self, line: String) {
        self.text.extend_from_slice(line.as_bytes());
        self.text.push(10);
    }

    fn refuse(&mut self, code: u32) {
        let item = self.item;
        self.line(format!("R {} {}", item, code));
    }

    /// A whole log.
    pub fn log(&mut self, log: &[u8]) {
        let mut rest = log;
        while !rest.is_empty() {
            let length = if rest.len() < 3 { 0 } else { le(&rest[1..3]) as usize };
            if rest.len() < 3 + length {
                self.item += 1;
                let early = self.wrong == Wrong::LengthBeforeEnd && rest.len() >= 3 && !known(rest[0], length, self.wrong);
                self.refuse(if early { 22 } else { 21 });
                return;
            }
            self.item(rest[0], &rest[3..3 + length]);
            rest = &rest[3 + length..];
        }
    }

    /// One item that is whole.
    pub fn item(&mut self, tag: u8, value: &[u8]) {
        if !known(tag, value.len(), self.wrong) {
            if self.wrong != Wrong::SkippedNotCounted {
                self.item += 1;
            }
            return self.refuse(22);
        }
        self.item += 1;
        let second = tag == 16 && self.size.is_some() && self.wrong != Wrong::SecondWindow;
        let early = tag != 16 && self.size.is_none() && !([18, 21].contains(&tag) && self.wrong == Wrong::FramesBeforeTheWindow);
        if second || early {
            return self.refuse(23);
        }
        match tag {
            16 => self.window(le(value) as usize),
            17 | 22 | 23 => {
                let (slot, rule) = (value[0] as usize, self.tie_rule(tag, value));
                let k = if tag == 23 && self.wrong == Wrong::TieRuleReadAsK { value[8] } else { value[1] };
                self.set(slot, k as usize, self.weights(&value[2..]), rule)
            }
            18 => self.frame(None, value),
            19 => self.remove(value[0] as usize),
            20 => self.show(value[0] as usize),
            _ => self.frame(Some(self.time(&value[..4])), &value[4..]),
        }
    }

    /// A question's weights; that for heat is 0 where none is given.
    fn weights(&self, value: &[u8]) -> [i32; 3] {
        let at = |i: usize| value.get(2 * i..2 * i + 2).map_or(0, signed);
        match self.wrong {
            Wrong::HeatWeightFirst if value.len() > 4 => [at(1), at(2), at(0)],
            Wrong::HeatWeightWithoutSign if value.len() > 4 => [at(0), at(1), le(&value[4..6]) as i32],
            Wrong::HeatWeightPassedOver => [at(0), at(1), 0],
            Wrong::TieRuleBeforeTheHeatWeight if value.len() == 7 => [at(0), at(1), signed(&value[5..7])],
            Wrong::TieRuleWithoutHeat if value.len() == 7 => [at(0), at(1), 0],
            Wrong::PlainQuestionsWeighHeat if value.len() == 4 => [at(0), at(1), 1],
            _ => [at(0), at(1), at(2)],
        }
    }

    /// A question's tie rule; newest where none is given.
    fn tie_rule(&self, tag: u8, value: &[u8]) -> u8 {
        let given = value.get(8).copied();
        match self.wrong {
            Wrong::TieRuleReadAsK if tag == 23 => value[1] % 2,
            Wrong::TieRuleNotRead => NEWEST,
            Wrong::TieRuleBeforeTheHeatWeight => given.map_or(NEWEST, |_| value[6]),
            Wrong::FirstComeWhereNoneIsGiven => given.unwrap_or(FIRST_COME),
            Wrong::HeatedQuestionsFirstCome if tag == 22 => FIRST_COME,
            Wrong::RemovedTieRuleStays => given.unwrap_or(*self.had.get(value[0] as usize).unwrap_or(&NEWEST)),
            _ => given.unwrap_or(NEWEST),
        }
    }

    fn window(&mut self, n: usize) {
        if n < 1 || n > 1024 {
            if self.wrong == Wrong::RefusedWindowStands && n > 0 {
                self.size = Some(1024);
            }
            return self.refuse(18);
        }
        self.size = Some(n);
    }

    fn set(&mut self, slot: usize, k: usize, [a, b, c]: [i32; 3], rule: u8) {
        let wrong = self.wrong;
        let most_k = if wrong == Wrong::K17 { 17 } else { 16 };
        let most = if wrong == Wrong::WeightOf1001 { 1001 } else { 1000 };
        let (a, b) = if wrong == Wrong::WeightsSwapped { (b, a) } else { (a, b) };
        let out = |w: i32| w < -1000 || w > most;
        let thirty_three = match wrong {
            Wrong::TakesTieRule2 => rule > 2,
            Wrong::TakesAnyTieRule | Wrong::TieRuleByItsLowestBit => false,
            _ => rule > 1,
        };
        let rule = if wrong == Wrong::TieRuleByItsLowestBit { rule % 2 } else { rule };
        if thirty_three && wrong == Wrong::ThirtyThreeBeforeThirteen {
            return self.refuse(33);
        }
        if slot > 31 {
            return self.refuse(13);
        }
        if k < 1 || k > most_k {
            return self.refuse(14);
        }
        let used = self.slots[slot].is_some();
        if used && wrong == Wrong::SixteenBeforeFifteen {
            return self.refuse(16);
        }
        let out_for_heat = match wrong {
            Wrong::HeatWeightNotTested => false,
            Wrong::HeatWeightOf1001 => c < -1000 || c > 1001,
            _ => out(c),
        };
        if thirty_three && wrong == Wrong::ThirtyThreeBeforeFifteen {
            return self.refuse(33);
        }
        if out(a) || out(b) || out_for_heat {
            return self.refuse(15);
        }
        if used && wrong == Wrong::SixteenBeforeThirtyThree {
            return self.refuse(16);
        }
        if thirty_three {
            return self.refuse(if wrong == Wrong::TieRuleRefused15 { 15 } else { 33 });
        }
        if used {
            return self.refuse(16);
        }
        let ranges = match wrong {
            Wrong::LogCountsTo4094 => Ranges { loss: Range { low: 0, high: 4094 }, ..Ranges::ALL },
            _ => Ranges::ALL,
        };
        let mut q = Question::new(k, [a, b, c], ranges, rule);
        if wrong == Wrong::TieRuleForgottenOnSetting {
            q.rule = NEWEST;
        }
        let steps = q.search(&self.held, wrong);
        self.slots[slot] = Some(Question { rule, ..q });
        self.had[slot] = rule;
        if wrong == Wrong::OneTieRuleForAll {
            self.slots.iter_mut().flatten().for_each(|q| q.rule = rule);
        }
        let item = self.item;
        self.line(format!("S {} {} {}", item, slot, steps));
    }

    fn remove(&mut self, slot: usize) {
        if slot > 31 {
            return self.refuse(13);
        }
        if self.slots[slot].is_none() {
            return self.refuse(17);
        }
        if self.wrong != Wrong::RemovedSlotKept {
            self.slots[slot] = None;
        }
    }

    fn show(&mut self, slot: usize) {
        if slot > 31 {
            return self.refuse(13);
        }
        let list = match &self.slots[slot] {
            None => return self.refuse(17),
            Some(q) => q.list.clone(),
        };
        let mut line = format!("Q {} {}", slot, list.len());
        for e in list {
            line += &format!(" {}:{}", e.number, e.score);
        }
        self.line(line);
    }

    fn time(&self, four: &[u8]) -> u32 {
        if self.wrong == Wrong::TimeHighByteFirst {
            le(four).swap_bytes()
        } else {
            le(four)
        }
    }

    fn frame(&mut self, time: Option<u32>, frame: &[u8]) {
        match self.bus.hear(time, le(&frame[..4]), &frame[4..], self.wrong) {
            Heard::Refused(code) => self.refuse(code),
            Heard::Kept => {}
            Heard::Report(r) => self.enter(r.loss, r.shake, r.heat),
        }
    }

    fn enter(&mut self, loss: i32, shake: i32, heat: Option<u16>) {
        let wrong = self.wrong;
        if self.entered == MOST_REPORTS {
            return self.refuse(11);
        }
        let most = self.size.unwrap_or(1);
        self.entered += 1;
        let new = Report { number: self.entered, loss, shake, heat };
        let mut gone = None;
        if wrong == Wrong::DropBeforeAdd && self.held.len() == most {
            gone = self.held.pop_front();
        }
        let kept = if wrong == Wrong::HeldWithoutHeat { None } else { heat };
        self.held.push_back(Report { heat: kept, ..new });
        if wrong != Wrong::DropBeforeAdd {
            self.offer(&new);
            if self.held.len() > most {
                gone = self.held.pop_front();
            }
        }
        if let Some(old) = gone {
            self.leave(old.number);
        }
        if wrong == Wrong::DropBeforeAdd {
            self.offer(&new);
        }
    }

    fn offer(&mut self, new: &Report) {
        let wrong = self.wrong;
        for q in self.slots.iter_mut().flatten() {
            q.offer(new, wrong);
        }
    }

    /// Questions that list the report that leaves are searched from the beginning (rule 8.2).
    fn leave(&mut self, number: u32) {
        let wrong = self.wrong;
        let mut slots: Vec<usize> = (0..32).collect();
        if wrong == Wrong::SlotsFalling {
            slots.reverse();
        }
        for slot in slots {
            if let Some(q) = &mut self.slots[slot] {
                if q.list.iter().any(|e| e.number == number) {
                    let rule = q.rule;
                    if wrong == Wrong::TieRuleForgottenOnASearch {
                        q.rule = NEWEST;
                    }
                    let steps = q.search(&self.held, wrong);
                    q.rule = rule;
                    let item = self.item;
                    self.line(format!("S {} {} {}", item, slot, steps));
                }
            }
        }
    }
}

fn known(tag: u8, length: usize, wrong: Wrong) -> bool {
    let lengths = [(16, 2), (17, 6), (18, 12), (19, 1), (20, 1), (21, 16), (22, 8), (23, 9)];
    let either = match wrong {
        Wrong::EitherTagOfAQuestion => [(17, 8), (22, 6)].contains(&(tag, length)),
        Wrong::EitherTagOfATieRule => [(22, 9), (23, 8)].contains(&(tag, length)),
        _ => false,
    };
    lengths.contains(&(tag, length)) && !(tag == 23 && wrong == Wrong::Tag23Unknown) || either
}

fn signed(two: &[u8]) -> i32 {
    let n = le(two) as i32;
    if n < 32768 {
        n
    } else {
        n - 65536
    }
}

/// The text of a whole log.
pub fn text(log: &[u8], wrong: Wrong) -> Vec<u8> {
    let mut cart = Cart::new(wrong);
    cart.log(log);
    cart.text
}
