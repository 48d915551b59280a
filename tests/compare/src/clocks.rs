//! Times for frames, from seeds: mostly close together, some near an edge of the rules for late packets (docs/RULES.md, section 15).

use crate::bus::{Bus, Last};
use crate::joining::Heard;
use crate::logs::{at, draw, Item, Rng};
use crate::rules::le;
use crate::wrong::Wrong;

/// Each sender's own clock, or one for all. It draws from a seed of its own, so that the frames are the same with times and without.
pub struct Clocks {
    rng: Rng,
    /// So many of a hundred frames have a time, and so many of those times are near an edge.
    timed: usize,
    edges: usize,
    shared: bool,
    drawn: Vec<u32>,
}

const STARTS: [u32; 9] = [0, 0, 1, 600, 751, 5000, 1 << 31, u32::MAX - 900, u32::MAX];

impl Clocks {
    /// In so many of a hundred cases some frames have a time; in the others none has.
    pub fn new(seed: u64, percent: usize) -> Clocks {
        let mut rng = Rng(!seed);
        let timed = if rng.chance(percent) { rng.pick(&[30, 60, 90, 100]) } else { 0 };
        let (edges, shared) = (rng.pick(&[2, 10, 40]), rng.chance(25));
        let drawn = (0..256).map(|_| rng.pick(&STARTS)).collect();
        Clocks { rng, timed, edges, shared, drawn }
    }

    pub fn chance(&mut self, percent: usize) -> bool {
        self.timed > 0 && self.rng.chance(percent)
    }

    pub fn pick<T: Copy>(&mut self, from: &[T]) -> T {
        self.rng.pick(from)
    }

    /// A time for the next frame of a sender with this last kept time, or none.
    pub fn time(&mut self, sender: usize, last: Last) -> Option<u32> {
        if !self.chance(self.timed) {
            return None;
        }
        let clock = if self.shared { 0 } else { sender };
        let drawn = self.drawn[clock];
        if self.rng.chance(self.edges) {
            return Some(self.edge(if last.known { last.at } else { drawn }));
        }
        // after a refused frame the last kept time and the one drawn last are two
        let from = match last.known {
            true if self.shared => drawn.max(last.at),
            true if self.rng.chance(70) => last.at,
            _ => drawn,
        };
        self.drawn[clock] = from.saturating_add(self.rng.pick(&[0, 0, 1, 5, 30]));
        Some(self.drawn[clock])
    }

    fn edge(&mut self, from: u32) -> u32 {
        match self.rng.below(40) {
            0 => 0,
            1 => u32::MAX,
            n if n < 12 => from.saturating_sub(self.rng.pick(&[1, 1, 2, 750, 751])),
            _ => from.saturating_add(self.rng.pick(&[0, 749, 750, 750, 751, 751, 752, 1500])),
        }
    }
}

/// The log of a seed, in four of ten cases with times, and the name of its kind.
pub fn log(seed: u64) -> (&'static str, Vec<u8>) {
    draw(seed, |items| timed(&mut Clocks::new(seed, 40), items))
}

/// Gives frames times; what the rules make of those before says what is near an edge.
fn timed(clocks: &mut Clocks, items: &mut [Item]) {
    let mut bus = Bus::fresh();
    for item in items.iter_mut().filter(|i| i[0] == 18) {
        let (id, data) = (le(&item[3..7]), item[7..].to_vec());
        let sender = id as usize & 255;
        let last = bus.lasts[sender];
        let time = clocks.time(sender, last);
        let foreign = matches!(bus.hear(time, id, &data, Wrong::No), Heard::Refused(1..=3));
        if let Some(drawn) = time {
            // refusals 1 to 3 stand before 26: such a frame often comes before the last one
            *item = at(if foreign && clocks.chance(50) { last.at.saturating_sub(1) } else { drawn }, item);
        }
    }
}
