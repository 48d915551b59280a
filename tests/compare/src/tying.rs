//! Tie rules for questions, from seeds, and logs full of ties: few values, weights under which many reports score the same, and the same
//! question under both rules side by side (docs/RULES.md, section 18).

use crate::logs::{carry, item, payload, remove, set, set_heat, set_rule, show, window, Item, Rng};
use crate::rules::{Range, Ranges};

/// It draws from a seed of its own, so that a log or a script is else drawn the same with tie rules and without.
pub struct Tying {
    rng: Rng,
    /// So many of a hundred questions have a tie rule.
    given: usize,
}

impl Tying {
    /// In so many of a hundred cases some questions have a tie rule; in the others none has.
    pub fn new(seed: u64, percent: usize) -> Tying {
        let mut rng = Rng(seed ^ 1 << 61);
        let given = if rng.chance(percent) { rng.pick(&[30, 60, 100]) } else { 0 };
        Tying { rng, given }
    }

    pub fn chance(&mut self, percent: usize) -> bool {
        self.given > 0 && self.rng.chance(percent)
    }

    pub fn pick<T: Copy>(&mut self, from: &[T]) -> T {
        self.rng.pick(from)
    }

    pub fn below(&mut self, n: usize) -> usize {
        self.rng.below(n)
    }

    /// A question's tie rule, where one is said.
    pub fn rule(&mut self) -> Option<u8> {
        let rule = self.pick(&[0, 1, 1, 1]);
        Some(rule).filter(|_| self.chance(self.given))
    }

    /// The same where it may be refused.
    pub fn any_rule(&mut self) -> Option<u8> {
        let over = self.chance(6);
        self.rule().map(|r| if over { self.pick(&OVER) } else { r })
    }
}

/// Tie rules that there aren't.
pub const OVER: [u8; 6] = [2, 2, 3, 128, 255, 255];

/// Whether the log or the script of a seed is one of ties.
pub fn whole(seed: u64) -> bool {
    Rng(seed ^ 1 << 60).chance(12)
}

/// Values of reports, and weights under which most of them score the same.
pub struct Ties {
    values: Vec<(u32, u32)>,
    heats: &'static [Option<u32>],
    pub weights: Vec<[i32; 3]>,
}

impl Ties {
    pub fn draw(rng: &mut Rng) -> Ties {
        let (values, weights): (Vec<(u32, u32)>, &[[i32; 2]]) = match rng.below(8) {
            // no weight at all
            0 => ((0..6).map(|_| (rng.below(4096) as u32, rng.below(4096) as u32)).collect(), &[[0, 0]]),
            1 => (vec![(300, 500)], &[[0, 0], [1, 1], [-2, 3], [0, -1000]]),
            // two cells and their best corners: the best possible score of one is the score in the other
            2 => (vec![(4095, 3839), (3839, 4095)], &[[1, 1], [1, 1], [7, 7], [1000, 1000]]),
            3 => (vec![(512, 256), (256, 512), (511, 513)], &[[-1, -1], [1, 1], [0, 0]]),
            // along a falling or a rising diagonal
            4 => ((0..4).map(|i| (256 * i + 255, 1023 - 256 * i)).collect(), &[[1, 1], [-1, -1], [3, 3]]),
            5 => ((0..4).map(|i| (256 * i, 256 * i + 255)).collect(), &[[-1, 1], [1, -1], [-5, 5]]),
            // one value has a weight, and one has none
            6 => (vec![(767, 0), (767, 255), (767, 256), (512, 300)], &[[1, 0], [-1, 0], [0, 0]]),
            _ => (vec![(0, 0), (255, 0), (0, 255), (255, 255), (256, 255), (255, 256)], &[[1, 1], [-1, -1], [1, 0], [0, 0]]),
        };
        let heats: &[Option<u32>] = rng.pick(&[&[None][..], &[None], &[None, Some(7)], &[Some(7)], &[None, Some(0), Some(4095)]]);
        let weights = weights.iter().map(|&[a, b]| [a, b, if heats.len() > 1 || rng.chance(20) { rng.pick(&[0, 0, 1, -1]) } else { 0 }]);
        Ties { weights: weights.collect(), values, heats }
    }

    pub fn report(&self, rng: &mut Rng) -> (u32, u32, Option<u32>) {
        let (loss, shake) = rng.pick(&self.values);
        (loss, shake, rng.pick(self.heats))
    }

    /// Ranges that hold the values, and no more cells than these need.
    pub fn ranges(&self) -> Ranges {
        let range = |of: fn(&(u32, u32)) -> u32| {
            let (low, high) = (self.values.iter().map(of).min().unwrap_or(0), self.values.iter().map(of).max().unwrap_or(0));
            Range { low: (low / 256 * 256) as u16, high: (high / 256 * 256 + 255) as u16 }
        };
        Ranges { loss: range(|v| v.0), shake: range(|v| v.1) }
    }
}

pub fn some_k(rng: &mut Rng) -> u8 {
    if rng.chance(80) {
        rng.among(1, 4) as u8
    } else {
        rng.among(1, 16) as u8
    }
}

// ---- logs

/// The item that sets a question, by any of the tags that can.
fn asked(rng: &mut Rng, slot: u8, k: u8, [a, b, c]: [i32; 3], rule: u8) -> Item {
    match rng.below(3) {
        0 if rule == 0 && c == 0 => set(slot, k, a, b),
        1 if rule == 0 => set_heat(slot, k, a, b, c),
        _ => set_rule(slot, k, [a, b, c], rule),
    }
}

/// The same question in two slots, one under each rule.
fn pair(rng: &mut Rng, ties: &Ties, slot: u8) -> [Item; 2] {
    let (k, weights, first) = (some_k(rng), rng.pick(&ties.weights), rng.below(2) as u8);
    [asked(rng, slot, k, weights, first), asked(rng, slot + 1, k, weights, 1 - first)]
}

/// A question with a tie rule that is refused, or with something that is refused before it.
fn refused(rng: &mut Rng, slot: u8) -> Item {
    let (slot, k) = (rng.pick(&[slot, slot, 16, 17, 32]), rng.pick(&[1, 1, 1, 0, 17]));
    let weights = [rng.pick(&[1, 1, 1001]), rng.pick(&[0, 0, -1001]), rng.pick(&[0, 0, 0, 1001])];
    set_rule(slot, k, weights, rng.pick(&OVER))
}

/// Tag 23, or one of those before it, with a length that isn't its own.
fn other_length(rng: &mut Rng, slot: u8) -> Item {
    let mut value = set_rule(slot, 1, [1, 1, 0], 1)[3..].to_vec();
    value.resize(rng.pick(&[0, 1, 6, 7, 8, 8, 10, 10, 12, 16]), 0);
    if rng.chance(80) {
        item(23, &value)
    } else {
        item(rng.pick(&[17, 22]), &set_rule(slot, 1, [1, 1, 0], 1)[3..])
    }
}

/// A log of ties: pairs of questions, and more reports than the window holds.
pub fn log(rng: &mut Rng) -> Vec<Item> {
    let (ties, n) = (Ties::draw(rng), rng.pick(&[1, 2, 3, 3, 4, 5, 8, 16, 17, 24]));
    let mut out = Vec::new();
    if rng.chance(20) {
        out.extend([set_rule(rng.pick(&[0, 40]), 1, [1, 1, 0], rng.pick(&[0, 1, 2])), other_length(rng, 0)]);
    }
    out.push(window(n));
    let pairs = rng.pick(&[1, 1, 2, 3]);
    let (reports, before) = (n + rng.among(2, 20) as usize, rng.below(n.min(5) + 1));
    for i in 0..reports {
        if i == before {
            for p in 0..pairs {
                out.extend(pair(rng, &ties, 2 * p));
            }
        }
        let (loss, shake, heat) = ties.report(rng);
        let (sender, own) = (rng.below(4) as u8, rng.next() as u32);
        out.extend(carry(sender, &payload(loss, shake, own, heat, None)));
        let slot = rng.below(2 * pairs as usize) as u8;
        match rng.below(14) {
            0 | 1 => out.extend([show(slot), show(slot ^ 1)]),
            // again, mostly under the other rule
            2 => {
                let (k, weights, rule) = (some_k(rng), rng.pick(&ties.weights), rng.below(2) as u8);
                out.extend([remove(slot), asked(rng, slot, k, weights, rule)]);
            }
            3 => out.push(refused(rng, slot)),
            4 => out.push(other_length(rng, slot)),
            _ => {}
        }
    }
    out.extend((0..2 * pairs).map(show));
    out
}
