//! The board as a user would write it: after each report the whole window is sorted for each question.

use crate::log::{Board, Out, Report};

struct Question {
    k: usize,
    weights: [i32; 3],
    first: bool,
    list: Vec<(i32, u32)>,
}

impl Question {
    fn sort(&mut self, held: &[(u32, Report)]) {
        let [a, b, c] = self.weights;
        let mut all: Vec<(i32, u32)> = Vec::with_capacity(held.len());
        for (n, r) in held {
            if c == 0 || r.heat > 0 {
                all.push((a * i32::from(r.loss) + b * i32::from(r.shake) + c * (i32::from(r.heat) - 1), *n));
            }
        }
        if self.first {
            all.sort_unstable_by(|x, y| (y.0, x.1).cmp(&(x.0, y.1)));
        } else {
            all.sort_unstable_by(|x, y| y.cmp(x));
        }
        all.truncate(self.k);
        self.list = all;
    }

    /// The cells whose best possible score is at least the last entry's; all of them where there is room on the list.
    fn steps(&self) -> u32 {
        if self.list.len() < self.k {
            return 256;
        }
        let last = self.list[self.k - 1].0;
        let corner = |w: i32, i: i32| w * (256 * i + if w > 0 { 255 } else { 0 });
        let [a, b, c] = self.weights;
        (0..256).filter(|cell| corner(a, cell % 16) + corner(b, cell / 16) + 4095 * c.max(0) >= last).count() as u32
    }
}

pub struct Naive {
    n: usize,
    entered: u32,
    held: Vec<(u32, Report)>,
    slots: Vec<Option<Question>>,
}

impl Naive {
    pub fn new() -> Naive {
        Naive { n: 0, entered: 0, held: Vec::new(), slots: (0..32).map(|_| None).collect() }
    }
}

impl Board for Naive {
    fn has_window(&self) -> bool {
        self.n > 0
    }

    fn window(&mut self, n: usize) {
        self.n = n;
    }

    fn used(&self, slot: usize) -> bool {
        self.slots[slot].is_some()
    }

    fn set(&mut self, item: u64, slot: usize, k: usize, weights: [i32; 3], first: bool, out: &mut Out) {
        let mut q = Question { k, weights, first, list: Vec::new() };
        q.sort(&self.held);
        out.searched(item, slot, q.steps());
        self.slots[slot] = Some(q);
    }

    fn remove(&mut self, slot: usize) {
        self.slots[slot] = None;
    }

    fn show(&mut self, slot: usize, out: &mut Out) {
        if let Some(q) = &self.slots[slot] {
            let numbers: Vec<u32> = q.list.iter().map(|e| e.1).collect();
            let scores: Vec<i32> = q.list.iter().map(|e| e.0).collect();
            out.list(slot, &numbers, &scores);
        }
    }

    fn enter(&mut self, item: u64, report: Report, out: &mut Out) {
        self.entered += 1;
        self.held.push((self.entered, report));
        for q in self.slots.iter_mut().flatten() {
            q.sort(&self.held);
        }
        if self.held.len() > self.n {
            let old = self.held.remove(0).0;
            for (slot, q) in self.slots.iter_mut().enumerate() {
                if let Some(q) = q {
                    if q.list.iter().any(|e| e.1 == old) {
                        q.sort(&self.held);
                        out.searched(item, slot, q.steps());
                    }
                }
            }
        }
    }
}
