//! The window and its 32 slots as they are stored, fit or not, and the calls on them (docs/RULES.md, sections 5 to 9 and 16 to 18).
//!
//! Report m stands in row (m - 1) mod N; rows that hold nothing are 0. The cells before `next` in the visiting order are the marked ones,
//! all of them where it is 256 or another that isn't in the order. Places past the list's end are 0, and so is everything of an empty slot.

use crate::rules::{above, Entry, Question, Range, Ranges, Report, FIRST_COME, MOST_REPORTS, NEWEST};
use crate::wrong::Wrong;
use std::cmp::Ordering;
use std::collections::VecDeque;

pub const ROWS: usize = 1024;
pub const SLOTS: usize = 32;
pub const LINES: usize = 16;

#[derive(Clone, Copy, PartialEq, Default)]
pub struct Row {
    pub number: u32,
    pub loss: u16,
    pub shake: u16,
    pub heat: Option<u16>,
}

#[derive(Clone)]
pub struct Window {
    pub size: u16,
    pub entered: u32,
    pub held: u16,
    pub rows: Vec<Row>,
}

impl Window {
    fn fresh(size: u16) -> Window {
        Window { size, entered: 0, held: 0, rows: vec![Row::default(); ROWS] }
    }

    /// The row of a report; a size of 0 has none but the first.
    pub fn row(&self, number: u32) -> usize {
        number.wrapping_sub(1).checked_rem(u32::from(self.size)).unwrap_or(0) as usize
    }

    fn report(&self, number: u32) -> Report {
        let row = self.rows.get(self.row(number)).copied().unwrap_or_default();
        Report { number, loss: i32::from(row.loss), shake: i32::from(row.shake), heat: row.heat }
    }

    pub fn holds(&self, number: u32) -> bool {
        number >= 1 && number <= self.entered && u64::from(number) + u64::from(self.held) > u64::from(self.entered)
    }

    /// The held numbers, oldest first; none below 1.
    fn numbers(&self) -> impl Iterator<Item = u32> {
        let (entered, held) = (i64::from(self.entered), i64::from(self.held));
        ((entered - held + 1).max(1)..=entered).map(|m| m as u32)
    }

    /// The held reports, oldest first.
    pub fn reports(&self) -> VecDeque<Report> {
        self.numbers().map(|m| self.report(m)).collect()
    }

    /// Rules 9.5 and 9.6, clause by clause.
    pub fn fit(&self, wrong: Wrong) -> bool {
        let counts = [
            ((1..=1024).contains(&self.size), Wrong::SizeNotChecked),
            (self.entered <= MOST_REPORTS, Wrong::EnteredNotChecked),
            (self.held <= self.size, Wrong::HeldOverSize),
            (u32::from(self.held) <= self.entered, Wrong::HeldOverEntered),
        ];
        if !counts.iter().all(|c| c.0 || wrong == c.1) {
            return false;
        }
        let mut due = vec![0; ROWS];
        for m in self.numbers() {
            if let Some(d) = due.get_mut(self.row(m)) {
                *d = m;
            }
        }
        self.rows.iter().zip(due).all(|(row, due)| if due == 0 { row.empty(wrong) } else { row.holds(due, wrong) })
    }

    fn add(&mut self, loss: u16, shake: u16, heat: Option<u16>, wrong: Wrong) {
        self.entered += 1;
        let row = self.row(self.entered);
        if let Some(r) = self.rows.get_mut(row) {
            let heat = match wrong {
                Wrong::EditionLostInTheRow => None,
                Wrong::RowKeepsTheHeatBefore => heat.or(r.heat),
                _ => heat,
            };
            *r = Row { number: self.entered, loss, shake, heat };
        }
        self.held = self.size.min(self.held + 1);
    }
}

impl Row {
    fn empty(&self, wrong: Wrong) -> bool {
        (self.number == 0 || wrong == Wrong::EmptyRowNumberNotChecked)
            && (self.loss == 0 && self.shake == 0 || wrong == Wrong::EmptyRowValuesNotChecked)
            && (self.heat.is_none() || wrong == Wrong::EmptyRowHeatNotChecked)
    }

    fn holds(&self, due: u32, wrong: Wrong) -> bool {
        (self.number == due || wrong == Wrong::GapNotChecked)
            && (self.loss <= 4095 || wrong == Wrong::LossNotChecked)
            && (self.shake <= 4095 || wrong == Wrong::ShakeNotChecked)
    }
}

#[derive(Clone, PartialEq)]
pub struct Slot {
    pub k: u8,
    pub weights: [i16; 3],
    pub ranges: Ranges,
    /// Its tie rule, fit or not.
    pub rule: u8,
    pub len: u8,
    pub next: u16,
    pub lines: [Entry; LINES],
}

const NO_LINE: Entry = Entry { number: 0, score: 0, heat: None };

impl Slot {
    pub fn fresh() -> Slot {
        Slot { k: 0, weights: [0; 3], ranges: Ranges::default(), rule: 0, len: 0, next: 0, lines: [NO_LINE; LINES] }
    }

    pub fn listed(&self) -> &[Entry] {
        &self.lines[..LINES.min(self.len as usize)]
    }

    /// The question with nothing listed and nothing marked.
    pub fn asked(&self) -> Question {
        Question::new(self.k as usize, self.weights.map(i32::from), self.ranges, self.rule)
    }

    /// The steps that its search has taken: the place of the next cell in the order, or all.
    pub fn steps(&self, wrong: Wrong) -> usize {
        let order = self.asked().order(wrong);
        order.iter().position(|&c| c == self.next as usize).unwrap_or(order.len())
    }

    /// Whether the next cell is one of the order.
    fn goes_on(&self, wrong: Wrong) -> bool {
        self.ranges.meet(self.next as usize, wrong)
    }

    /// The question with its marks spelled out (rule 7.5).
    pub fn question(&self, wrong: Wrong) -> Question {
        let mut q = self.asked();
        q.list = self.listed().to_vec();
        for &cell in &q.order(wrong)[..self.steps(wrong)] {
            q.marks[cell] = true;
        }
        q
    }

    /// Stores a list, with zeros behind it.
    pub fn list(&mut self, entries: &[Entry]) {
        self.lines = [NO_LINE; LINES];
        self.len = entries.len().min(LINES) as u8;
        for (line, e) in self.lines.iter_mut().zip(entries) {
            *line = *e;
        }
    }

    fn go_on(&mut self, steps: usize, wrong: Wrong) {
        self.next = self.asked().order(wrong).get(steps).map_or(256, |&c| c as u16);
    }

    fn zeros(&self) -> bool {
        *self == Slot::fresh()
    }

    /// Whether no line and the one behind it stand in this order by rank.
    fn ranked(&self, order: Ordering, wrong: Wrong) -> bool {
        let rule = match wrong {
            Wrong::RankCheckedByNewest => NEWEST,
            Wrong::RankCheckedByFirstCome => FIRST_COME,
            _ => self.rule,
        };
        let passed_over = |p: &[Entry]| match wrong {
            Wrong::RankOfFirstComeNotChecked => self.rule == FIRST_COME,
            Wrong::RankOfEqualsNotChecked => p[0].score == p[1].score && p[0].number != p[1].number,
            _ => false,
        };
        !self.listed().windows(2).any(|p| above(&p[0], &p[1], rule, Wrong::No) == order && !passed_over(p))
    }

    /// A question that is fit (rules 9.5 and 9.6, sections 16 to 18), clause by clause.
    fn fit(&self, window: &Window, wrong: Wrong) -> bool {
        let weight = |i: usize| (-1000..=1000).contains(&self.weights[i]);
        let ordered = |r: Range| r.low <= r.high;
        let ends = |r: Range| r.low.max(r.high) <= 4095;
        let (q, rest) = (self.asked(), &self.lines[self.listed().len()..]);
        let held = |e: &Entry| window.holds(e.number);
        let scored = |e: &Entry| !held(e) || e.score == q.score(&window.report(e.number), Wrong::No);
        let counted = |e: &Entry| !held(e) || q.entry(&window.report(e.number), wrong).is_some();
        let edition = |e: &Entry| !held(e) || e.heat == Question::edition(&window.report(e.number), wrong);
        let has_one = |e: &Entry| e.heat.is_some() == window.report(e.number).heat.is_some();
        let clauses = [
            (self.k <= 16, Wrong::KNotChecked),
            (weight(0), Wrong::FirstWeightNotChecked),
            (weight(1), Wrong::SecondWeightNotChecked),
            (weight(2), Wrong::ThirdWeightNotChecked),
            (ordered(self.ranges.loss), Wrong::LossOrderNotChecked),
            (ordered(self.ranges.shake), Wrong::ShakeOrderNotChecked),
            (ends(self.ranges.loss), Wrong::LossEndsNotChecked),
            (ends(self.ranges.shake), Wrong::ShakeEndsNotChecked),
            (self.rule <= 1 || self.rule == 2 && wrong == Wrong::TieRule2IsFit, Wrong::TieRuleNotChecked),
            (self.next <= 256, Wrong::NextNotChecked),
            (self.next >= 256 || self.goes_on(wrong), Wrong::NextOutsideTheOrder),
            (self.len <= self.k, Wrong::ListLongerThanK),
            (self.listed().iter().all(held), Wrong::NotHeldListed),
            (self.listed().iter().all(scored), Wrong::ScoresNotChecked),
            (self.listed().iter().all(counted), Wrong::UncountedLineNotChecked),
            (self.listed().iter().all(|e| edition(e) || wrong == Wrong::LineHeatNotChecked && has_one(e)), Wrong::LineEditionNotChecked),
            (self.ranked(Ordering::Greater, wrong), Wrong::RankNotChecked),
            (self.ranked(Ordering::Equal, wrong), Wrong::TwiceListed),
            (rest.iter().all(|e| e.number == 0), Wrong::RestNumberNotChecked),
            (rest.iter().all(|e| e.score == 0), Wrong::RestScoreNotChecked),
            (rest.iter().all(|e| e.heat.is_none()), Wrong::RestHeatNotChecked),
        ];
        self.k > 0 && clauses.iter().all(|c| c.0 || wrong == c.1)
    }

    fn ended(&self, wrong: Wrong) -> bool {
        let mut q = self.asked();
        q.list = self.listed().to_vec();
        !self.goes_on(wrong) || q.ended(self.next as usize, wrong)
    }

    /// A slot of a board is empty, or its question is fit and not under way.
    fn stands(&self, window: &Window, wrong: Wrong) -> bool {
        let empty = match wrong {
            Wrong::EmptySlotNotChecked => self.k == 0,
            Wrong::EmptySlotRangesNotChecked => Slot { ranges: Ranges::default(), ..self.clone() }.zeros(),
            Wrong::EmptySlotThirdWeightNotChecked => Slot { weights: [self.weights[0], self.weights[1], 0], ..self.clone() }.zeros(),
            Wrong::EmptySlotTieRuleNotChecked => Slot { rule: 0, ..self.clone() }.zeros(),
            Wrong::EmptySlotHeatNotChecked => Slot { lines: self.lines.map(|e| Entry { heat: None, ..e }), ..self.clone() }.zeros(),
            _ => self.zeros(),
        };
        empty || self.fit(window, wrong) && (self.ended(wrong) || wrong == Wrong::UnfinishedOnTheBoard)
    }
}

#[derive(Clone)]
pub struct Board {
    pub window: Window,
    pub slots: Vec<Slot>,
    wrong: Wrong,
}

/// The first refusal that is given, in the order in which they stand.
fn first(refusals: &[(bool, u32)]) -> Result<(), u32> {
    refusals.iter().find(|r| r.0).map_or(Ok(()), |r| Err(r.1))
}

/// Whether refusal 30 applies.
fn thirty(ranges: Ranges, wrong: Wrong) -> bool {
    let most = if wrong == Wrong::SetTakes4096 { 4096 } else { 4095 };
    let falls = |r: &Range| r.low > r.high && wrong != Wrong::SetTakesLowOverHigh;
    [ranges.loss, ranges.shake].iter().any(|r| falls(r) || r.low > most || r.high > most)
}

impl Board {
    pub fn fresh(size: u16, wrong: Wrong) -> Board {
        Board { window: Window::fresh(size), slots: vec![Slot::fresh(); SLOTS], wrong }
    }

    fn fit(&self) -> bool {
        self.window.fit(self.wrong) && self.slots.iter().all(|s| s.stands(&self.window, self.wrong))
    }

    /// The steps of the question's search.
    pub fn set(&mut self, slot: usize, k: u8, weights: [i16; 3], ranges: Ranges, rule: u8) -> Result<usize, u32> {
        let wrong = self.wrong;
        let out = |i: usize| !(-1000..=1000).contains(&weights[i]);
        let used = self.slots.get(slot).map_or(false, |s| s.k != 0);
        let fifteen = out(0) || out(1) || out(2) && wrong != Wrong::SetTakesAnyHeatWeight;
        let thirty = thirty(ranges, wrong);
        let thirty_three = match wrong {
            Wrong::SetTakesTieRule2 => rule > 2,
            Wrong::SetTakesAnyTieRule => false,
            _ => rule > 1,
        };
        first(&[
            (wrong == Wrong::ThirteenFirst && slot > 31, 13),
            (wrong == Wrong::ThirtyFirst && thirty, 30),
            (wrong == Wrong::ThirtyThreeFirst && thirty_three, 33),
            (!self.fit(), 24),
            (slot > 31, 13),
            (wrong == Wrong::SixteenFirst && used, 16),
            (!(1..=16).contains(&k), 14),
            (wrong == Wrong::ThirtyBeforeFifteen && thirty, 30),
            (fifteen, 15),
            (wrong == Wrong::ThirtyAfterSixteen && used, 16),
            (wrong == Wrong::ThirtyThreeBeforeThirty && thirty_three, 33),
            (thirty, 30),
            (wrong == Wrong::ThirtyThreeAfterSixteen && used, 16),
            (thirty_three, 33),
            (used, 16),
        ])?;
        let held = self.window.reports();
        let new = &mut self.slots[slot];
        *new = Slot { k, weights, ranges, rule, ..Slot::fresh() };
        let mut q = new.asked();
        let steps = q.search(&held, wrong);
        new.list(&q.list);
        new.go_on(steps, wrong);
        Ok(steps)
    }

    fn used(&self, slot: usize) -> Result<(), u32> {
        let early = self.wrong == Wrong::ThirteenFirst && slot > 31;
        first(&[(early, 13), (!self.fit(), 24), (slot > 31, 13)])?;
        first(&[(self.slots[slot].k == 0, 17)])
    }

    pub fn remove(&mut self, slot: usize) -> Result<(), u32> {
        self.used(slot)?;
        let old = self.slots[slot].clone();
        self.slots[slot] = match self.wrong {
            Wrong::RemovingLeavesTheLines => Slot { lines: old.lines, ..Slot::fresh() },
            Wrong::RemovingLeavesTheRanges => Slot { ranges: old.ranges, ..Slot::fresh() },
            Wrong::RemovingLeavesTheHeatWeight => Slot { weights: [0, 0, old.weights[2]], ..Slot::fresh() },
            Wrong::RemovingLeavesTheTieRule => Slot { rule: old.rule, ..Slot::fresh() },
            _ => Slot::fresh(),
        };
        Ok(())
    }

    pub fn read(&self, slot: usize) -> Result<&[Entry], u32> {
        self.used(slot)?;
        Ok(self.slots[slot].listed())
    }

    /// The report's number, and of each question that was searched its slot and the steps.
    pub fn enter(&mut self, loss: u16, shake: u16, heat: Option<u16>) -> Result<(u32, Vec<(usize, usize)>), u32> {
        let wrong = self.wrong;
        let most = match wrong {
            Wrong::EntersAnyHeat => u16::MAX,
            Wrong::EntersHeat4096 => 4096,
            _ => 4095,
        };
        let over = loss > 4095 || shake > 4095 || heat.map_or(false, |h| h > most);
        let heat = heat.map(|h| h % 4096);
        let full = self.window.entered >= MOST_REPORTS && wrong != Wrong::EnteredNotChecked;
        first(&[
            (wrong == Wrong::TwelveFirst && over, 12),
            (!self.fit(), 24),
            (wrong == Wrong::ElevenBeforeTwelve && full, 11),
            (over, 12),
            (full, 11),
        ])?;
        let mut held = self.window.reports();
        self.window.add(loss, shake, heat, wrong);
        let new = Report { number: self.window.entered, loss: i32::from(loss), shake: i32::from(shake), heat };
        held.push_back(new);
        let left = if held.len() > self.window.size as usize { held.pop_front() } else { None };
        let mut searches = Vec::new();
        for (i, slot) in self.slots.iter_mut().enumerate().filter(|s| s.1.k != 0) {
            let mut q = slot.question(wrong);
            q.offer(&new, wrong);
            if left.map_or(false, |r| q.list.iter().any(|e| e.number == r.number)) {
                match wrong {
                    Wrong::RangesForgottenOnASearch => q.ranges = Ranges::ALL,
                    Wrong::HeatWeightForgottenOnASearch => q.weights[2] = 0,
                    Wrong::SearchLeavesNewest => slot.rule = NEWEST,
                    _ => {}
                }
                let steps = q.search(&held, wrong);
                slot.go_on(steps, wrong);
                searches.push((i, steps));
            }
            slot.list(&q.list);
        }
        if wrong == Wrong::SearchesFalling {
            searches.reverse();
        }
        Ok((new.number, searches))
    }

    /// The window and a slot that a step or a beginning can work on, whatever stands in other slots (rule 6.7).
    fn workable(&self, slot: &Slot, empty: Wrong, all: Wrong) -> bool {
        let others = |s: &Slot| s == slot || s.stands(&self.window, self.wrong);
        self.window.fit(self.wrong)
            && (slot.fit(&self.window, self.wrong) || self.wrong == empty && slot.zeros())
            && (self.wrong != all || self.slots.iter().all(others))
    }

    pub fn begin(&mut self, slot: usize) -> Result<(), u32> {
        let wrong = self.wrong;
        let s = &self.slots[slot];
        let under_way = !s.ended(wrong) && wrong != Wrong::UnfinishedBegins && !s.zeros();
        first(&[(!self.workable(s, Wrong::EmptySlotBegins, Wrong::BeginLooksAtAllSlots) || under_way, 24)])?;
        let s = &mut self.slots[slot];
        if wrong != Wrong::BeginKeepsTheList {
            s.list(&[]);
        }
        match wrong {
            Wrong::BeginForgetsTheRanges => s.ranges = Ranges::ALL,
            Wrong::BeginForgetsTheHeatWeight => s.weights[2] = 0,
            Wrong::BeginForgetsTheTieRule => s.rule = NEWEST,
            _ => {}
        }
        if wrong != Wrong::BeginKeepsTheMarks {
            s.go_on(0, wrong);
        }
        Ok(())
    }

    pub fn step(&mut self, slot: usize) -> Result<(), u32> {
        let wrong = self.wrong;
        let s = &self.slots[slot];
        let ended = s.ended(wrong) && wrong != Wrong::FinishedSteps;
        let early = wrong == Wrong::TwentyFiveFirst && ended;
        first(&[(early, 25), (!self.workable(s, Wrong::EmptySlotSteps, Wrong::StepLooksAtAllSlots), 24), (ended, 25)])?;
        let (mut q, steps) = (s.question(wrong), s.steps(wrong));
        match wrong {
            Wrong::StepListNotCut => q.k = LINES,
            Wrong::StepByNewest => q.rule = NEWEST,
            _ => {}
        }
        let held = self.window.reports();
        let taken = if wrong == Wrong::WholeSearchAtOnce { 256 } else { 1 };
        let cells: Vec<usize> = q.order(wrong).into_iter().skip(steps).take(taken).collect();
        for &cell in &cells {
            q.take(cell, &held, wrong);
        }
        let s = &mut self.slots[slot];
        s.list(&q.list);
        s.go_on(steps + cells.len(), wrong);
        Ok(())
    }
}
