//! Heats for reports and weights for them, from seeds, mostly near an edge, and payloads broken around the heat (docs/RULES.md, section 17).

use crate::logs::{payload, Rng};

/// It draws from a seed of its own, so that a log or a script is else drawn the same with heats and without.
pub struct Heating {
    rng: Rng,
    /// So many of a hundred reports have a heat, and so many of a hundred questions a weight for it.
    heated: usize,
    weighed: usize,
    /// How heats are drawn.
    sort: usize,
}

impl Heating {
    /// In so many of a hundred cases some reports have a heat; in the others none has, and no question a weight for it.
    pub fn new(seed: u64, percent: usize) -> Heating {
        let mut rng = Rng(seed ^ 1 << 62);
        let given = rng.chance(percent);
        let heated = if given { rng.pick(&[30, 60, 90, 100]) } else { 0 };
        let (weighed, sort) = (rng.pick(&[20, 60, 100]), rng.below(4));
        Heating { rng, heated, weighed, sort }
    }

    pub fn chance(&mut self, percent: usize) -> bool {
        self.heated > 0 && self.rng.chance(percent)
    }

    pub fn pick<T: Copy>(&mut self, from: &[T]) -> T {
        self.rng.pick(from)
    }

    pub fn below(&mut self, n: usize) -> usize {
        self.rng.below(n)
    }

    /// The heat of a report that is sent or held, or none.
    pub fn heat(&mut self) -> Option<u32> {
        if !self.chance(self.heated) {
            return None;
        }
        Some(match self.sort {
            0 => self.rng.below(4096) as u32,
            1 => self.pick(&[0, 0, 1, 2]),
            2 => self.pick(&[4094, 4095, 4095, 3000]),
            _ => self.pick(&[0, 1, 255, 256, 2047, 4094, 4095]),
        })
    }

    /// The same where it may be refused.
    pub fn any_heat(&mut self) -> Option<u32> {
        let over = self.chance(6);
        self.heat().map(|h| if over { self.pick(&[4096, 4096, 4097, 8191, 65535]) } else { h })
    }

    /// A question's weight for heat, where one is said.
    pub fn weight(&mut self) -> Option<i32> {
        if !self.chance(self.weighed) {
            return None;
        }
        Some(match self.rng.below(8) {
            0 => 0,
            1 => self.pick(&[-1000, -999, 999, 1000]),
            2 => self.rng.among(-1000, 1000),
            3 => self.pick(&[-1, 1]),
            _ => self.rng.among(-3, 3),
        })
    }

    /// The same where it may be refused.
    pub fn any_weight(&mut self) -> Option<i32> {
        let out = self.chance(6);
        self.weight().map(|w| if out { self.pick(&[-32768, -1001, -1001, 1001, 1001, 32767]) } else { w })
    }

    /// The words that say a report's heat.
    pub fn words(heat: Option<u32>) -> String {
        heat.map_or(String::new(), |h| format!(" heat {}", h))
    }

    /// A payload that has something else where the heat stands or would stand, or just what should be there.
    pub fn broken(&mut self, p: &mut Vec<u8>) {
        let note = vec![9; self.pick(&[0, 1, 2, 5, 63, 64, 65])];
        let heat = self.pick(&[0, 1, 255, 256, 4094, 4095, 4095, 4096, 65535]);
        let field = [5, 2, 0, heat as u8, (heat >> 8) as u8];
        match self.rng.below(12) {
            0 => *p = payload(1, 2, 3, Some(heat), None),
            1 => *p = payload(1, 2, 3, Some(heat), Some(&note)),
            // the heat behind the note, or twice
            2 => {
                *p = payload(1, 2, 3, None, Some(&note));
                p.extend(field);
            }
            3 => {
                *p = payload(1, 2, 3, Some(heat), None);
                p.extend(field);
            }
            // a note that looks like a heat, and one of its size
            4 => *p = payload(1, 2, 3, None, Some(&field)),
            5 => *p = payload(1, 2, 3, Some(7), Some(&field)),
            6 => *p = payload(1, 2, 3, None, Some(&field[3..])),
            // other tags and lengths
            7 | 8 => {
                *p = payload(1, 2, 3, Some(heat), Some(&note));
                let at = self.pick(&[17, 17, 18, 19, 22, 22, 23, 24]);
                p[at] = self.pick(&[0, 1, 2, 3, 4, 5, 6, 255]);
            }
            9 => {
                *p = payload(1, 2, 3, None, Some(&note));
                p[17] = 5;
            }
            // cut, or with something behind
            _ => {
                *p = payload(1, 2, 3, Some(heat), None);
                let length = self.pick(&[18, 20, 21, 22, 23, 23, 24, 24, 25, 84, 85, 88, 89, 90]);
                p.resize(length, self.pick(&[0, 4, 5, 255]));
            }
        }
    }
}
