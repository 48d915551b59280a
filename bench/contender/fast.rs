//! The board for speed. The reports stand in a ring of N rows; a row knows which questions list it, so that leaving costs one test. A search
//! is one pass over the rows for the best k, and then a count of the cells whose best possible score is at least the last entry's. Marks
//! need no keeping: a report in a cell that isn't marked scores below the last entry of a full list.

use crate::log::{Board, Out, Report};

#[derive(Clone, Copy)]
struct Question {
    k: usize,
    first: bool,
    len: usize,
    scores: [i32; 16],
    numbers: [u32; 16],
}

const EMPTY: Question = Question { k: 0, first: false, len: 0, scores: [0; 16], numbers: [0; 16] };

pub struct Fast {
    n: usize,
    entered: u32,
    row: usize,
    losses: [u16; 1024],
    shakes: [u16; 1024],
    heats: [u16; 1024],
    listing: [u32; 1024],
    used: u32,
    a: [i32; 32],
    b: [i32; 32],
    c: [i32; 32],
    /// The score that a report has to have to be listed; any will do where there is room.
    least: [i32; 32],
    questions: [Question; 32],
}

impl Question {
    /// Puts a report newer than all in its rank, and answers the number that fell off the end, or 0. MORE is 1 under first-come, where the
    /// report ranks below those of its score, and 0 under newest.
    #[inline]
    fn put<const MORE: i32>(&mut self, number: u32, score: i32) -> u32 {
        let mut off = 0;
        let mut at = self.len;
        if at == self.k {
            at -= 1;
            off = self.numbers[at];
        } else {
            self.len += 1;
        }
        while at > 0 && self.scores[at - 1] + MORE <= score {
            self.scores[at] = self.scores[at - 1];
            self.numbers[at] = self.numbers[at - 1];
            at -= 1;
        }
        self.scores[at] = score;
        self.numbers[at] = number;
        off
    }

    fn least<const MORE: i32>(&self) -> i32 {
        if self.len < self.k {
            i32::MIN
        } else {
            self.scores[self.k - 1] + MORE
        }
    }
}

/// A heat's part of the score, and none where there is no heat and it is asked for.
#[inline]
fn heat_part(c: i32, heat: u16) -> Option<i32> {
    if c == 0 {
        return Some(0);
    }
    if heat == 0 {
        return None;
    }
    Some(c * (i32::from(heat) - 1))
}

/// How many cells have a best possible score of at least `least`.
fn cells(a: i32, b: i32, c: i32, least: i32) -> u32 {
    let least = least - if c > 0 { 4095 * c } else { 0 };
    let corner = |w: i32, i: i32| w * (256 * i + if w > 0 { 255 } else { 0 });
    let mut columns = [0; 16];
    for (i, c) in columns.iter_mut().enumerate() {
        *c = corner(a, i as i32);
    }
    let mut count = 0;
    for row in 0..16 {
        let due = i64::from(least) - i64::from(corner(b, row));
        count += columns.iter().map(|&c| u32::from(i64::from(c) >= due)).sum::<u32>();
    }
    count
}

impl Fast {
    pub fn new() -> Fast {
        Fast {
            n: 0,
            entered: 0,
            row: 0,
            losses: [0; 1024],
            shakes: [0; 1024],
            heats: [0; 1024],
            listing: [0; 1024],
            used: 0,
            a: [0; 32],
            b: [0; 32],
            c: [0; 32],
            least: [0; 32],
            questions: [EMPTY; 32],
        }
    }

    fn row_of(&self, number: u32) -> usize {
        // the newest number stands in the row before `row`, the others before it in turn
        let back = (self.entered - number) as usize + 1;
        if back <= self.row {
            self.row - back
        } else {
            self.row + self.n - back
        }
    }

    /// The rows of a question's entries no longer name it. A report that has left has no row any more.
    fn unlist(&mut self, slot: usize) {
        let q = self.questions[slot];
        for &number in &q.numbers[..q.len] {
            if ((self.entered - number) as usize) < self.n {
                let row = self.row_of(number);
                self.listing[row] &= !(1 << slot);
            }
        }
    }

    /// Searches a question over the rows, oldest first, and answers the steps.
    fn search(&mut self, slot: usize) -> u32 {
        if self.questions[slot].first {
            self.search_by::<1>(slot)
        } else {
            self.search_by::<0>(slot)
        }
    }

    fn search_by<const MORE: i32>(&mut self, slot: usize) -> u32 {
        self.unlist(slot);
        let (a, b, c) = (self.a[slot], self.b[slot], self.c[slot]);
        let q = &mut self.questions[slot];
        q.len = 0;
        let held = (self.entered as usize).min(self.n);
        let mut number = self.entered - held as u32;
        let mut least = i32::MIN;
        let older = if held == self.n { self.row..self.n } else { 0..0 };
        for row in older.chain(0..self.row) {
            number += 1;
            let part = match heat_part(c, self.heats[row]) {
                Some(part) => part,
                None => continue,
            };
            let score = a * i32::from(self.losses[row]) + b * i32::from(self.shakes[row]) + part;
            if score >= least {
                q.put::<MORE>(number, score);
                least = q.least::<MORE>();
            }
        }
        self.least[slot] = least;
        let q = self.questions[slot];
        for &number in &q.numbers[..q.len] {
            let row = self.row_of(number);
            self.listing[row] |= 1 << slot;
        }
        if least == i32::MIN {
            256
        } else {
            cells(a, b, c, least - MORE)
        }
    }
}

impl Board for Fast {
    fn has_window(&self) -> bool {
        self.n > 0
    }

    fn window(&mut self, n: usize) {
        self.n = n;
    }

    fn used(&self, slot: usize) -> bool {
        self.used >> slot & 1 == 1
    }

    fn set(&mut self, item: u64, slot: usize, k: usize, weights: [i32; 3], first: bool, out: &mut Out) {
        self.used |= 1 << slot;
        self.a[slot] = weights[0];
        self.b[slot] = weights[1];
        self.c[slot] = weights[2];
        self.questions[slot] = Question { k, first, ..EMPTY };
        let steps = self.search(slot);
        out.searched(item, slot, steps);
    }

    fn remove(&mut self, slot: usize) {
        self.used &= !(1 << slot);
        self.unlist(slot);
    }

    fn show(&mut self, slot: usize, out: &mut Out) {
        let q = &self.questions[slot];
        out.list(slot, &q.numbers[..q.len], &q.scores[..q.len]);
    }

    fn enter(&mut self, item: u64, report: Report, out: &mut Out) {
        let Report { loss, shake, heat } = report;
        // the row of the report that leaves, where one does; its questions are known before it is overwritten
        let row = if self.row == self.n { 0 } else { self.row };
        let full = self.entered as usize >= self.n;
        let oldest = self.entered.wrapping_sub(self.n as u32).wrapping_add(1);
        let mut leaving = self.listing[row];
        self.entered += 1;
        self.row = row + 1;
        self.losses[row] = loss;
        self.shakes[row] = shake;
        self.heats[row] = heat;
        self.listing[row] = 0;
        let number = self.entered;
        let mut left = self.used;
        while left != 0 {
            let slot = left.trailing_zeros() as usize;
            left &= left - 1;
            let part = match heat_part(self.c[slot], heat) {
                Some(part) => part,
                None => continue,
            };
            let score = self.a[slot] * i32::from(loss) + self.b[slot] * i32::from(shake) + part;
            if score < self.least[slot] {
                continue;
            }
            let q = &mut self.questions[slot];
            let (off, least) =
                if q.first { (q.put::<1>(number, score), q.least::<1>()) } else { (q.put::<0>(number, score), q.least::<0>()) };
            self.least[slot] = least;
            self.listing[row] |= 1 << slot;
            if off != 0 {
                if full && off == oldest {
                    leaving &= !(1 << slot);
                } else {
                    let other = self.row_of(off);
                    self.listing[other] &= !(1 << slot);
                }
            }
        }
        while full && leaving != 0 {
            let slot = leaving.trailing_zeros() as usize;
            leaving &= leaving - 1;
            let steps = self.search(slot);
            out.searched(item, slot, steps);
        }
    }
}
