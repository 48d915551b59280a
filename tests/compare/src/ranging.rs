//! Ranges for questions, from seeds, and values near their ends: at the edges of cells, at the values of held reports and beside them
//! (docs/RULES.md, section 16).

use crate::logs::Rng;
use crate::rules::{Range, Ranges, Report};
use std::collections::VecDeque;

/// It draws from a seed of its own, so that a script is else drawn the same with ranges and without.
pub struct Ranging {
    rng: Rng,
    /// So many of a hundred questions have ranges.
    given: usize,
}

const EDGES: [u16; 14] = [0, 1, 254, 255, 256, 257, 511, 512, 513, 3839, 3840, 3841, 4094, 4095];

impl Ranging {
    /// In so many of a hundred cases some questions have ranges; in the others none has.
    pub fn new(seed: u64, percent: usize) -> Ranging {
        let mut rng = Rng(seed ^ 1 << 63);
        let given = if rng.chance(percent) { rng.pick(&[30, 70, 100]) } else { 0 };
        Ranging { rng, given }
    }

    pub fn chance(&mut self, percent: usize) -> bool {
        self.given > 0 && self.rng.chance(percent)
    }

    pub fn pick<T: Copy>(&mut self, from: &[T]) -> T {
        self.rng.pick(from)
    }

    /// The ranges of a question, where these reports are held.
    pub fn draw(&mut self, held: &VecDeque<Report>) -> Ranges {
        let mut out = Ranges::ALL;
        if self.chance(self.given) {
            let which = self.rng.below(3);
            if which != 0 {
                out.loss = self.range(&held.iter().map(|r| r.loss).collect::<Vec<_>>());
            }
            if which != 1 {
                out.shake = self.range(&held.iter().map(|r| r.shake).collect::<Vec<_>>());
            }
        }
        out
    }

    /// A range, with ends near some values: one in ten is refused.
    fn range(&mut self, near: &[i32]) -> Range {
        let (one, other) = (self.end(near), self.end(near));
        let (low, high) = (one.min(other), one.max(other));
        let first = one / 256 * 256;
        match self.rng.below(20) {
            0 => Range { low: high + u16::from(low == high), high: low },
            1 => self.over(low, high),
            2 | 3 => Range { low: one, high: one },
            // inside one cell, and whole cells
            4 | 5 => Range { low: one, high: one + self.rng.below(usize::from(first + 256 - one)) as u16 },
            6 | 7 => Range { low: low / 256 * 256, high: high / 256 * 256 + 255 },
            8 | 9 => Range { low: 0, high },
            10 | 11 => Range { low, high: 4095 },
            _ => Range { low, high },
        }
    }

    /// A range with an end over 4095.
    pub fn over(&mut self, low: u16, high: u16) -> Range {
        let end = self.pick(&[4096, 4096, 4097, 65535]);
        match self.rng.below(4) {
            0 => Range { low: end, high: end },
            1 => Range { low: end, high },
            _ => Range { low, high: end },
        }
    }

    fn end(&mut self, near: &[i32]) -> u16 {
        match self.rng.below(10) {
            n if n < 4 && !near.is_empty() => (self.pick(near) + self.rng.among(-1, 1)).max(0).min(4095) as u16,
            n if n < 8 => self.pick(&EDGES),
            _ => self.rng.below(4096) as u16,
        }
    }

    /// The words that say a question's ranges in either order, mostly those alone that aren't 0 to 4095.
    pub fn words(&mut self, ranges: Ranges) -> Vec<String> {
        let mut words = Vec::new();
        for (name, range) in [("loss", ranges.loss), ("shake", ranges.shake)] {
            if range != Range::ALL || self.chance(10) {
                words.push(said(name, range));
            }
        }
        if self.chance(50) {
            words.reverse();
        }
        words
    }

    /// A report's loss and shake: those drawn, or ones near the ends of some question's ranges.
    pub fn values(&mut self, asked: &[Ranges], drawn: [u32; 2]) -> [u32; 2] {
        if asked.is_empty() || self.rng.chance(30) {
            return drawn;
        }
        let ranges = self.pick(asked);
        [self.value(ranges.loss, drawn[0]), self.value(ranges.shake, drawn[1])]
    }

    fn value(&mut self, range: Range, drawn: u32) -> u32 {
        if range == Range::ALL {
            return drawn;
        }
        let (low, high) = (u32::from(range.low), u32::from(range.high));
        self.pick(&[low.saturating_sub(1), low, low, (low + high) / 2, high, high, high + 1, drawn])
    }
}

/// The words that say one range.
fn said(name: &str, range: Range) -> String {
    format!(" {} {} {}", name, range.low, range.high)
}

/// The words that say both ranges.
pub fn both(ranges: Ranges) -> String {
    said("loss", ranges.loss) + &said("shake", ranges.shake)
}
