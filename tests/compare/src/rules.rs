//! Ranking and searching by the rules (docs/RULES.md, sections 5 to 8 and 16 to 18), written from them and from nothing else. Plain, not fast: a
//! search sorts its cells and takes them one by one, and every step looks at the whole window.

use crate::wrong::Wrong;
use std::cmp::Ordering;
use std::collections::VecDeque;

pub const MOST_REPORTS: u32 = 1_000_000;

/// The tie rules (section 18): of equal scores the later report is above, or the earlier.
pub const NEWEST: u8 = 0;
pub const FIRST_COME: u8 = 1;

pub fn le(bytes: &[u8]) -> u32 {
    bytes.iter().rev().fold(0, |n, &b| n * 256 + u32::from(b))
}

/// Without a heat it is of the first edition, with one of the second (section 17).
#[derive(Clone, Copy)]
pub struct Report {
    pub number: u32,
    pub loss: i32,
    pub shake: i32,
    pub heat: Option<u16>,
}

impl Report {
    pub fn cell(&self) -> usize {
        (16 * (self.shake / 256) + self.loss / 256) as usize
    }
}

/// The values that a question counts of loss, or of shake, both ends with them; none where low is above high (section 16).
#[derive(Clone, Copy, PartialEq, Default)]
pub struct Range {
    pub low: u16,
    pub high: u16,
}

impl Range {
    /// Where none is given.
    pub const ALL: Range = Range { low: 0, high: 4095 };

    /// The lowest and the highest value. A rule got wrong leaves out a high end that is given; one of 4095 may be where none is.
    fn ends(self, wrong: Wrong) -> (i32, i32) {
        let without = wrong == Wrong::RangeEndExclusive && self.high < 4095;
        (i32::from(self.low), i32::from(self.high) - i32::from(without))
    }

    fn holds(self, value: i32, wrong: Wrong) -> bool {
        let (low, high) = self.ends(wrong);
        (low..=high).contains(&value)
    }

    /// The lowest and the highest of its values in a column or row; where it has none there, the first is above the second.
    fn part(self, index: i32, wrong: Wrong) -> (i32, i32) {
        let (low, high) = self.ends(wrong);
        (low.max(256 * index), high.min(256 * index + 255))
    }

    /// Whether it has a value in a column or row.
    fn meets(self, index: i32, wrong: Wrong) -> bool {
        let (low, high) = self.part(index, wrong);
        low <= high && (wrong != Wrong::CellByItsFirstValue || low == 256 * index)
    }
}

/// A question's two ranges.
#[derive(Clone, Copy, PartialEq, Default)]
pub struct Ranges {
    pub loss: Range,
    pub shake: Range,
}

impl Ranges {
    pub const ALL: Ranges = Ranges { loss: Range::ALL, shake: Range::ALL };

    /// Whether a report lies inside both.
    pub fn hold(self, r: &Report, wrong: Wrong) -> bool {
        let (loss, shake) = (self.loss.holds(r.loss, wrong), self.shake.holds(r.shake, wrong));
        match wrong {
            Wrong::EitherRangeIsEnough => loss || shake,
            Wrong::CountedByTheCell => self.meet(r.cell(), wrong),
            _ => loss && shake,
        }
    }

    /// Whether a cell is one of the grid that has a value inside both.
    pub fn meet(self, cell: usize, wrong: Wrong) -> bool {
        let (column, row) = (cell as i32 % 16, cell as i32 / 16);
        let met = self.loss.meets(column, wrong) && self.shake.meets(row, wrong);
        cell < 256 && (met || wrong == Wrong::CellWithNoValueTaken)
    }
}

#[derive(Clone, Copy, PartialEq, Debug)]
pub struct Entry {
    pub number: u32,
    pub score: i32,
    pub heat: Option<u16>,
}

#[derive(Clone)]
pub struct Question {
    pub k: usize,
    /// For loss, shake and heat.
    pub weights: [i32; 3],
    pub ranges: Ranges,
    /// Its tie rule.
    pub rule: u8,
    pub list: Vec<Entry>,
    pub marks: Vec<bool>,
}

impl Question {
    pub fn new(k: usize, weights: [i32; 3], ranges: Ranges, rule: u8) -> Question {
        Question { k, weights, ranges, rule, list: Vec::new(), marks: vec![false; 256] }
    }

    pub fn score(&self, r: &Report, wrong: Wrong) -> i32 {
        let heat = match wrong {
            Wrong::HeatNotScored => 0,
            Wrong::HeatScoredOneHigher => r.heat.map_or(0, |h| i32::from(h) + 1),
            _ => i32::from(r.heat.unwrap_or(0)),
        };
        // only values that a rule got wrong lets in make it wrap
        let parts = self.weights.iter().zip([r.loss, r.shake, heat]).map(|(w, v)| w.wrapping_mul(v));
        let score = parts.fold(0, i32::wrapping_add);
        if wrong == Wrong::ScoreWithoutSign {
            score.wrapping_abs()
        } else {
            score
        }
    }

    /// Whether a report has a heat, or needs none (section 17).
    fn heated(&self, r: &Report, wrong: Wrong) -> bool {
        match wrong {
            Wrong::NoHeatScoredAs0 => true,
            Wrong::NoHeatNeverCounts => r.heat.is_some(),
            Wrong::HeatNeedsAWeight => r.heat.is_none() || self.weights[2] != 0,
            _ => r.heat.is_some() || self.weights[2] == 0,
        }
    }

    /// What a line keeps of a report's edition.
    pub fn edition(r: &Report, wrong: Wrong) -> Option<u16> {
        match wrong {
            Wrong::EditionLostInTheLine => None,
            Wrong::LineWithoutHeatHas0 => Some(r.heat.unwrap_or(0)),
            _ => r.heat,
        }
    }

    /// What the list can name of a report: nothing where it doesn't count (sections 16 and 17).
    pub fn entry(&self, r: &Report, wrong: Wrong) -> Option<Entry> {
        let short = wrong == Wrong::UncountedOnAShortList && self.list.len() < self.k;
        let counts = short || self.ranges.hold(r, wrong) && self.heated(r, wrong);
        Some(Entry { number: r.number, score: self.score(r, wrong), heat: Question::edition(r, wrong) }).filter(|_| counts)
    }

    /// A cell's best possible score, that of the best corner of what the ranges leave of it, with the better heat (rule 7.3, sections 16 and 17).
    pub fn best(&self, cell: usize, wrong: Wrong) -> i32 {
        let corner = |weight: i32, range: Range, index: i32| {
            let range = if wrong == Wrong::BestOfTheWholeCell { Range::ALL } else { range };
            let (low, high) = range.part(index, wrong);
            weight * if weight > 0 { high + i32::from(wrong == Wrong::CellEdge) } else { low }
        };
        let [a, b, c] = self.weights;
        let heat = match wrong {
            Wrong::HeatAtTheWrongEnd => 4095 * c.min(0),
            Wrong::BestWithoutHeat => 0,
            Wrong::BestOfAnyHeat => 4095 * c.abs(),
            Wrong::BestOfHeat4096 => 4096 * c.max(0),
            Wrong::BestHeatByItsCell => (256 * (cell as i32 % 16) + 255) * c.max(0),
            _ => 4095 * c.max(0),
        };
        corner(a, self.ranges.loss, cell as i32 % 16) + corner(b, self.ranges.shake, cell as i32 / 16) + heat
    }

    /// The cells in the order in which a search takes them (rule 7.4); none that the ranges leave nothing of (section 16).
    pub fn order(&self, wrong: Wrong) -> Vec<usize> {
        let cells = (0..256).filter(|&c| self.ranges.meet(c, wrong));
        let mut cells: Vec<(i32, usize)> = cells.map(|c| (self.best(c, wrong), c)).collect();
        match wrong {
            Wrong::EqualCellsFalling => cells.sort_by(|c, d| d.cmp(c)),
            Wrong::FirstComeCellsFalling if self.rule == FIRST_COME => cells.sort_by(|c, d| d.cmp(c)),
            Wrong::LeastCellFirst => cells.sort(),
            Wrong::CellsByNumber => {}
            _ => cells.sort_by(|c, d| d.0.cmp(&c.0).then(c.1.cmp(&d.1))),
        }
        cells.iter().map(|c| c.1).collect()
    }

    /// The best k of the entries.
    pub fn rank(&mut self, mut entries: Vec<Entry>, wrong: Wrong) {
        entries.sort_by(|x, y| above(x, y, self.rule, wrong));
        let room = if wrong == Wrong::ListNotCut { 16 } else { self.k };
        entries.truncate(room);
        self.list = entries;
    }

    /// Whether the search has ended, where this cell would come next (rule 7.6).
    pub fn ended(&self, cell: usize, wrong: Wrong) -> bool {
        match self.list.last() {
            Some(last) if self.list.len() >= self.k => {
                let best = self.best(cell, wrong);
                let early = wrong == Wrong::StopAtEqual || wrong == Wrong::FirstComeStopsAtEqual && self.rule == FIRST_COME;
                best < last.score || early && best == last.score
            }
            _ => false,
        }
    }

    /// Marks a cell, and makes the list the best k of what it had and of the cell's reports, each once (rule 7.7).
    pub fn take(&mut self, cell: usize, held: &VecDeque<Report>, wrong: Wrong) {
        self.marks[cell] = true;
        let mut entries = self.list.clone();
        for r in held.iter().filter(|r| r.cell() == cell) {
            if wrong == Wrong::ListedByAStepAgain || !self.list.iter().any(|e| e.number == r.number) {
                entries.extend(self.entry(r, wrong).filter(|e| wrong != Wrong::FirstFoundStays || !self.full_at(e.score)));
            }
        }
        self.rank(entries, wrong);
    }

    /// Whether the list is full, first-come, and its last score is this one: a report that enters has no place then (rule 18.2).
    fn full_at(&self, score: i32) -> bool {
        self.rule == FIRST_COME && self.list.len() >= self.k && self.list.last().map_or(false, |e| e.score == score)
    }

    /// Searches from the beginning to the end, and answers the steps.
    pub fn search(&mut self, held: &VecDeque<Report>, wrong: Wrong) -> usize {
        let before = self.clone();
        self.list.clear();
        self.marks = vec![false; 256];
        let mut steps = 0;
        for cell in self.order(wrong) {
            if self.ended(cell, wrong) {
                break;
            }
            self.take(cell, held, wrong);
            steps += 1;
        }
        match wrong {
            Wrong::SearchChangesNothing if !before.list.is_empty() => *self = before,
            Wrong::MarksNotReplaced if !before.list.is_empty() => self.marks = before.marks,
            _ => {}
        }
        steps
    }

    /// Puts a report that enters on the list, where it has a place there (rules 8.1 and 18.2).
    pub fn offer(&mut self, r: &Report, wrong: Wrong) {
        let new = match self.entry(r, wrong) {
            Some(new) => new,
            None => return,
        };
        let room = self.list.len() < self.k && (wrong != Wrong::FirstComeShortListToo || self.rule != FIRST_COME || self.list.is_empty());
        let last = self.list.last().map_or(i32::MIN, |e| e.score);
        let marked = self.marks.get(r.cell()) == Some(&true);
        let equal = new.score == last && self.takes_equals(wrong);
        if marked && (room || new.score > last || equal) {
            let mut entries = self.list.clone();
            if wrong == Wrong::FirstComeTakesAnEqual && self.full_at(new.score) {
                entries.pop();
            }
            entries.push(new);
            let rule = self.rule;
            if wrong == Wrong::EntryRankedByNewest {
                self.rule = NEWEST;
            }
            self.rank(entries, wrong);
            self.rule = rule;
        }
    }

    /// Whether a report that enters has a place on a full list whose last score is its own.
    fn takes_equals(&self, wrong: Wrong) -> bool {
        match wrong {
            Wrong::EntryMustBeAbove => false,
            Wrong::FirstComeTakesAnEqual | Wrong::TieRulePassedOver => true,
            Wrong::TieRulesSwapped => self.rule == FIRST_COME,
            _ => self.rule != FIRST_COME,
        }
    }
}

/// The order of two reports in rank (rule 6.3).
pub fn above(x: &Entry, y: &Entry, rule: u8, wrong: Wrong) -> Ordering {
    let (later, earlier) = (y.number.cmp(&x.number), x.number.cmp(&y.number));
    let tie = match wrong {
        Wrong::TieToOlder => earlier,
        Wrong::TieRulePassedOver => later,
        Wrong::TieToTheHotter => y.heat.cmp(&x.heat).then(later),
        _ if (rule == FIRST_COME) != (wrong == Wrong::TieRulesSwapped) => earlier,
        _ => later,
    };
    y.score.cmp(&x.score).then(tie)
}
