//! Logs from seeds: good ones, crafted ones and damaged ones. An item is its bytes; a log is its items one after the other.

use crate::heating::Heating;
use crate::rules::le;
use crate::tying::{self, Tying};

pub type Item = Vec<u8>;

/// Numbers from a seed (splitmix64).
pub struct Rng(pub u64);

impl Rng {
    pub fn next(&mut self) -> u64 {
        self.0 = self.0.wrapping_add(0x9E37_79B9_7F4A_7C15);
        let mut z = self.0;
        z = (z ^ (z >> 30)).wrapping_mul(0xBF58_476D_1CE4_E5B9);
        z = (z ^ (z >> 27)).wrapping_mul(0x94D0_49BB_1331_11EB);
        z ^ (z >> 31)
    }

    /// 0 to n - 1.
    pub fn below(&mut self, n: usize) -> usize {
        (self.next() % n as u64) as usize
    }

    /// low to high, both included.
    pub fn among(&mut self, low: i32, high: i32) -> i32 {
        low + self.below((high - low + 1) as usize) as i32
    }

    pub fn pick<T: Copy>(&mut self, from: &[T]) -> T {
        from[self.below(from.len())]
    }

    /// True in so many of a hundred cases.
    pub fn chance(&mut self, percent: usize) -> bool {
        self.below(100) < percent
    }

    fn byte(&mut self) -> u8 {
        self.next() as u8
    }
}

// ---- items

pub fn item(tag: u8, value: &[u8]) -> Item {
    let mut out = vec![tag, value.len() as u8, (value.len() / 256) as u8];
    out.extend_from_slice(value);
    out
}

pub fn window(n: usize) -> Item {
    item(16, &(n as u16).to_le_bytes())
}

pub fn set(slot: u8, k: u8, a: i32, b: i32) -> Item {
    let (a, b) = ((a as i16).to_le_bytes(), (b as i16).to_le_bytes());
    item(17, &[slot, k, a[0], a[1], b[0], b[1]])
}

/// The same with a weight for heat.
pub fn set_heat(slot: u8, k: u8, a: i32, b: i32, c: i32) -> Item {
    let mut value = set(slot, k, a, b)[3..].to_vec();
    value.extend((c as i16).to_le_bytes());
    item(22, &value)
}

/// The same with a tie rule.
pub fn set_rule(slot: u8, k: u8, [a, b, c]: [i32; 3], rule: u8) -> Item {
    let mut value = set_heat(slot, k, a, b, c)[3..].to_vec();
    value.push(rule);
    item(23, &value)
}

pub fn frame(identifier: u32, data: &[u8]) -> Item {
    let mut value = identifier.to_le_bytes().to_vec();
    value.extend_from_slice(data);
    item(18, &value)
}

/// A frame's item with a time.
pub fn at(time: u32, frame: &Item) -> Item {
    let mut value = time.to_le_bytes().to_vec();
    value.extend_from_slice(&frame[3..]);
    item(21, &value)
}

pub fn remove(slot: u8) -> Item {
    item(19, &[slot])
}

pub fn show(slot: u8) -> Item {
    item(20, &[slot])
}

pub fn identifier(priority: u32, format: u32, sender: u8) -> u32 {
    priority << 26 | format << 16 | 255 << 8 | u32::from(sender)
}

pub fn announcement(sender: u8, size: usize, count: usize, group: u32) -> Item {
    let (s, g) = ((size as u16).to_le_bytes(), group.to_le_bytes());
    frame(identifier(7, 236, sender), &[32, s[0], s[1], count as u8, 255, g[0], g[1], g[2]])
}

pub fn packet(sender: u8, sequence: u8, bytes: &[u8]) -> Item {
    let mut data = vec![255; 8];
    data[0] = sequence;
    data[1..1 + bytes.len()].copy_from_slice(bytes);
    frame(identifier(7, 235, sender), &data)
}

/// The frames that carry a payload of any bytes: the bench sender's frames where the payload is a good one.
pub fn carry(sender: u8, payload: &[u8]) -> Vec<Item> {
    let count = (payload.len() + 6) / 7;
    let mut out = vec![announcement(sender, payload.len(), count, 65300)];
    for (i, part) in payload.chunks(7).enumerate() {
        out.push(packet(sender, i as u8 + 1, part));
    }
    out
}

pub fn payload(loss: u32, shake: u32, own: u32, heat: Option<u32>, note: Option<&[u8]>) -> Vec<u8> {
    let mut out = item(1, &(loss as u16).to_le_bytes());
    out.extend(item(2, &(shake as u16).to_le_bytes()));
    out.extend(item(3, &own.to_le_bytes()));
    if let Some(heat) = heat {
        out.extend(item(5, &(heat as u16).to_le_bytes()));
    }
    if let Some(text) = note {
        out.extend(item(4, text));
    }
    out
}

pub fn report(sender: u8, loss: u32, shake: u32) -> Vec<Item> {
    carry(sender, &payload(loss, shake, 7, None, None))
}

pub fn heated(sender: u8, loss: u32, shake: u32, heat: u32) -> Vec<Item> {
    carry(sender, &payload(loss, shake, 7, Some(heat), None))
}

pub fn bytes(items: &[Item]) -> Vec<u8> {
    items.concat()
}

// ---- logs

/// How the values of reports are drawn.
#[derive(Clone, Copy)]
enum Values {
    Any,
    Few,
    Edges,
    Rising,
    Falling,
    Together,
    Opposed,
    Same,
}

const VALUES: [Values; 8] =
    [Values::Any, Values::Few, Values::Edges, Values::Rising, Values::Falling, Values::Together, Values::Opposed, Values::Same];

/// A log while it is drawn.
struct Draw<'a> {
    rng: &'a mut Rng,
    heating: Heating,
    tying: Tying,
    values: Values,
    drawn: u32,
    slots: u8,
    out: Vec<Item>,
}

impl<'a> Draw<'a> {
    fn new(rng: &'a mut Rng) -> Draw<'a> {
        let (heating, tying) = (Heating::new(rng.0, 60), Tying::new(rng.0, 50));
        let values = rng.pick(&VALUES);
        let slots = rng.pick(&[1, 2, 3, 8, 32]);
        Draw { rng, heating, tying, values, drawn: 0, slots, out: Vec::new() }
    }

    fn edge(&mut self) -> u32 {
        let at = 256 * self.rng.below(17) as i32 + self.rng.among(-1, 1);
        at.max(0).min(4095) as u32
    }

    fn value(&mut self) -> (u32, u32) {
        self.drawn += 1;
        let n = self.drawn;
        let any = |rng: &mut Rng| rng.below(4096) as u32;
        match self.values {
            Values::Any => (any(self.rng), any(self.rng)),
            Values::Few => (self.rng.pick(&[0, 1, 255, 256, 4095]), self.rng.pick(&[0, 100, 256, 3840])),
            Values::Edges => (self.edge(), self.edge()),
            Values::Rising => ((n * 9).min(4095), (n * 5).min(4095)),
            Values::Falling => (4095 - (n * 9).min(4095), 4095 - (n * 5).min(4095)),
            Values::Together => {
                let (m, d) = (any(self.rng), self.rng.below(200) as u32);
                (m, (m + d).min(4095))
            }
            Values::Opposed => {
                let (m, d) = (any(self.rng), self.rng.below(200) as u32);
                (m, (4095 - m + d).min(4095))
            }
            Values::Same => (300, 500),
        }
    }

    fn weight(&mut self) -> i32 {
        match self.rng.below(6) {
            0 => 0,
            1 => self.rng.pick(&[-1000, -999, 999, 1000]),
            2 => self.rng.among(-1000, 1000),
            _ => self.rng.among(-3, 3),
        }
    }

    fn slot(&mut self) -> u8 {
        self.rng.below(self.slots as usize) as u8
    }

    fn question(&mut self) {
        let k = if self.rng.chance(50) { self.rng.among(1, 3) } else { self.rng.among(1, 16) };
        let (slot, a, b) = (self.slot(), self.weight(), self.weight());
        let c = self.heating.weight();
        self.asks(slot, k as u8, a, b, c);
    }

    /// A question with a weight for heat and a tie rule, or without one.
    fn asks(&mut self, slot: u8, k: u8, a: i32, b: i32, c: Option<i32>) {
        self.out.push(match (self.tying.any_rule(), c) {
            (Some(rule), c) => set_rule(slot, k, [a, b, c.unwrap_or(0)], rule),
            (None, Some(c)) => set_heat(slot, k, a, b, c),
            (None, None) => set(slot, k, a, b),
        });
    }

    fn some_payload(&mut self) -> Vec<u8> {
        let (loss, shake) = self.value();
        let (own, heat) = (self.rng.next() as u32, self.heating.heat());
        if self.rng.chance(60) {
            return payload(loss, shake, own, heat, None);
        }
        let length = if self.rng.chance(30) { self.rng.pick(&[0, 1, 63, 64]) } else { self.rng.below(65) };
        let note: Vec<u8> = (0..length).map(|_| self.rng.byte()).collect();
        payload(loss, shake, own, heat, Some(&note))
    }

    /// Frames of several senders, each in its order, in mixed order.
    fn mixed(&mut self, mut queues: Vec<Vec<Item>>) {
        for q in queues.iter_mut() {
            q.reverse();
        }
        while !queues.is_empty() {
            let i = self.rng.below(queues.len());
            for _ in 0..self.rng.among(1, 3) {
                if let Some(f) = queues[i].pop() {
                    self.out.push(f);
                }
            }
            if queues[i].is_empty() {
                queues.swap_remove(i);
            }
        }
    }

    fn reports(&mut self, senders: usize) {
        let first = self.rng.below(254);
        let queues = (0..senders)
            .map(|i| {
                let p = self.some_payload();
                carry(((first + i) % 254) as u8, &p)
            })
            .collect();
        self.mixed(queues);
    }

    fn shows(&mut self) {
        for slot in 0..self.slots {
            self.out.push(show(slot));
        }
    }
}

fn small_window(rng: &mut Rng) -> usize {
    match rng.below(4) {
        0 => 1,
        1 => rng.among(2, 4) as usize,
        2 => rng.among(5, 20) as usize,
        _ => rng.among(21, 64) as usize,
    }
}

/// A log of a working day: a window, questions, reports, looks at the lists.
fn good(rng: &mut Rng) -> Vec<Item> {
    let n = small_window(rng);
    let rounds = rng.among(2, 25);
    let mut d = Draw::new(rng);
    d.out.push(window(n));
    for _ in 0..rounds {
        match d.rng.below(8) {
            0 | 1 => d.question(),
            2 => {
                let slot = d.slot();
                d.out.push(show(slot));
            }
            3 if d.rng.chance(30) => {
                let slot = d.slot();
                d.out.push(remove(slot));
            }
            _ => {
                let senders = d.rng.among(1, 6) as usize;
                d.reports(senders);
            }
        }
    }
    d.shows();
    d.out
}

/// A listed report leaves again and again: a small window, questions set first, more reports than fit.
fn leaving(rng: &mut Rng) -> Vec<Item> {
    let n = rng.among(1, 12) as usize;
    let questions = rng.among(1, 6);
    let reports = n + rng.among(3, 30) as usize;
    let mut d = Draw::new(rng);
    d.values = d.rng.pick(&[Values::Falling, Values::Few, Values::Edges, Values::Any, Values::Same]);
    d.out.push(window(n));
    let before = d.rng.among(0, questions);
    for i in 0..reports {
        if i as i32 == before {
            for _ in 0..questions {
                d.question();
            }
        }
        d.reports(1);
        if d.rng.chance(20) {
            let slot = d.slot();
            d.out.push(show(slot));
        }
    }
    d.shows();
    d.out
}

/// A window near its largest size, filled and more.
fn large(rng: &mut Rng) -> Vec<Item> {
    let n = rng.pick(&[200, 512, 1023, 1024]);
    let mut d = Draw::new(rng);
    d.slots = 4;
    d.values = d.rng.pick(&[Values::Any, Values::Few, Values::Together, Values::Opposed, Values::Rising]);
    d.out.push(window(n));
    for i in 0..(n + 40) / 4 {
        if i % (n / 16) == 5 {
            d.question();
        }
        d.reports(4);
    }
    d.shows();
    d.out
}

/// Numbers at and past every edge of windows, questions and slots.
fn doors(rng: &mut Rng) -> Vec<Item> {
    let mut d = Draw::new(rng);
    if d.rng.chance(30) {
        d.reports(1);
        d.out.push(show(0));
    }
    for _ in 0..d.rng.among(1, 3) {
        let n = d.rng.pick(&[0, 1, 2, 1024, 1025, 4096, 65535]);
        d.out.push(window(n));
    }
    for _ in 0..d.rng.among(5, 40) {
        let slot = d.rng.pick(&[0, 1, 30, 31, 32, 33, 128, 255]);
        match d.rng.below(6) {
            0 => d.out.push(remove(slot)),
            1 => d.out.push(show(slot)),
            2 => d.reports(2),
            _ => {
                let k = d.rng.pick(&[0, 1, 2, 15, 16, 17, 255]);
                let edges = [-32768, -1001, -1000, -1, 0, 1, 2, 1000, 1001, 32767];
                let (a, b) = (d.rng.pick(&edges), d.rng.pick(&edges));
                let c = Some(d.heating.pick(&edges)).filter(|_| d.heating.chance(60));
                d.asks(slot, k, a, b, c);
            }
        }
    }
    d.out
}

/// Faults of the bus: frames lost, doubled, of other kinds; announcements again, of other sizes, counts and groups.
fn bus(rng: &mut Rng) -> Vec<Item> {
    let mut d = Draw::new(rng);
    let n = small_window(d.rng);
    d.out.push(window(n));
    d.question();
    let first = d.rng.pick(&[0, 7, 250]);
    for _ in 0..d.rng.among(3, 20) {
        let mut queues = Vec::new();
        for i in 0..d.rng.among(1, 4) as u8 {
            let p = d.some_payload();
            let mut frames = carry(first + i, &p);
            if d.rng.chance(60) {
                let at = d.rng.below(frames.len());
                bus_fault(&mut *d.rng, &mut frames, at, first + i);
            }
            queues.push(frames);
        }
        d.mixed(queues);
    }
    d.shows();
    d.out
}

/// An announcement where every number is at or past an edge, or mostly so.
pub fn odd_announcement(rng: &mut Rng, sender: u8) -> Item {
    let size = rng.pick(&[0, 8, 9, 16, 17, 18, 19, 20, 21, 22, 24, 77, 78, 84, 85, 89, 90, 91, 1785, 1786, 65535]);
    let right = (size + 6) / 7;
    let count = if rng.chance(70) { right } else { rng.pick(&[0, 1, 2, 3, right + 1, 12, 13, 255]) };
    let group = if rng.chance(70) { 65300 } else { rng.pick(&[0, 65299, 65301, 65300 - 256, 65300 + 65536, 1 << 23]) };
    let mut out = announcement(sender, size, count % 256, group);
    if rng.chance(10) {
        out[7] = rng.pick(&[0, 16, 31, 33, 255]);
    }
    out[11] = rng.byte();
    out
}

fn bus_fault(rng: &mut Rng, frames: &mut Vec<Item>, at: usize, sender: u8) {
    match rng.below(9) {
        0 => {
            frames.remove(at);
        }
        1 => {
            let again = frames[at].clone();
            frames.insert(at, again);
        }
        2 => {
            let other = rng.below(frames.len());
            frames.swap(at, other);
        }
        3 => {
            let again = frames[0].clone();
            frames.insert(at, again);
        }
        4 => {
            let odd = odd_announcement(rng, sender);
            frames.insert(at, odd);
        }
        5 => frames[at][7] = rng.pick(&[0, 1, 2, 3, 4, 32, 255]),
        6 => {
            let last = frames.len() - 1;
            let padding = rng.byte();
            for b in frames[last][12..].iter_mut().filter(|b| **b == 255) {
                *b = padding;
            }
        }
        7 => frames[at] = odd_announcement(rng, sender),
        _ => {
            // another identifier: a wrong bit, format or destination, or a sender that may not speak; priority may be any
            let byte = 3 + rng.below(4);
            let old = frames[at][byte];
            frames[at][byte] = match byte {
                3 => rng.pick(&[253, 254, 255, sender]),
                4 => rng.pick(&[0, 254, 255]),
                5 => rng.pick(&[234, 235, 236, 237]),
                _ => rng.pick(&[0, 4 * (old / 4 % 8), 28, 29, 30, 31, 32, 255]),
            };
        }
    }
}

/// Sessions that are whole and payloads that aren't as they should be, or just are.
fn payloads(rng: &mut Rng) -> Vec<Item> {
    let mut d = Draw::new(rng);
    let n = small_window(d.rng);
    d.out.push(window(n));
    d.question();
    for _ in 0..d.rng.among(3, 20) {
        let mut p = d.some_payload();
        match d.rng.below(7) {
            _ if d.heating.chance(40) => d.heating.broken(&mut p),
            0 => {}
            1 => {
                let at = d.rng.below(p.len());
                p[at] = p[at].wrapping_add(d.rng.pick(&[1, 255, 4, 16]));
            }
            2 => p[d.rng.pick(&[0, 1, 2, 5, 6, 7, 10, 11, 12])] ^= 1 << d.rng.below(8),
            3 => {
                let (loss, shake) = (d.rng.pick(&[4095, 4096, 0, 65535]), d.rng.pick(&[4095, 4096, 0, 8191]));
                p = payload(loss, shake, 0, None, None);
            }
            4 => {
                let length = d.rng.pick(&[0, 1, 62, 63, 64, 65, 66]);
                let note = vec![9; length];
                p = payload(1, 2, 3, None, Some(&note));
            }
            5 if p.len() > 19 => p[18] = d.rng.pick(&[0, 1, 64, 65, 255]),
            _ => {
                let length = d.rng.among(0, 92) as usize;
                p.resize(length.max(1), 4);
            }
        }
        let sender = d.rng.pick(&[0, 3, 253]);
        d.out.extend(carry(sender, &p));
        if d.rng.chance(20) {
            d.out.push(packet(sender, 1, &[1, 2, 0, 0, 0, 2, 2]));
        }
    }
    d.shows();
    d.out
}

/// Changes a log's items or bytes somewhere.
fn damaged(rng: &mut Rng, mut items: Vec<Item>) -> Vec<Item> {
    for _ in 0..rng.among(1, 6) {
        let at = rng.below(items.len());
        match rng.below(9) {
            0 | 1 => {
                let bit = rng.below(8 * items[at].len());
                items[at][bit / 8] ^= 1 << (bit % 8);
            }
            2 => {
                let again = items[at].clone();
                let to = rng.below(items.len() + 1);
                items.insert(to, again);
            }
            3 => {
                let other = rng.below(items.len());
                items.swap(at, other);
            }
            4 => {
                // another length, with or without as many bytes
                let length = rng.pick(&[0, 1, 2, 5, 6, 7, 8, 9, 11, 12, 13, 15, 16, 17, 300]);
                if rng.chance(70) {
                    items[at].resize(3 + length, 1);
                }
                if items[at].len() > 2 {
                    items[at][1] = length as u8;
                    items[at][2] = (length / 256) as u8;
                }
            }
            5 => items[at][0] = rng.pick(&[0, 1, 4, 15, 16, 17, 18, 19, 20, 21, 22, 23, 24, 255]),
            6 => {
                let value: Vec<u8> = (0..rng.below(20)).map(|_| rng.byte()).collect();
                let tag = rng.byte();
                items.insert(at, item(tag, &value));
            }
            7 if items.len() > 1 => {
                items.remove(at);
            }
            _ => {
                if rng.chance(40) {
                    let mut last = items.len() - 1;
                    if rng.chance(50) {
                        last = at;
                    }
                    items.truncate(last + 1);
                    let keep = rng.below(items[last].len());
                    items[last].truncate(keep.max(1));
                }
            }
        }
    }
    items
}

/// The log of a seed, its frames as `timed` leaves them, and the name of its kind.
pub fn draw(seed: u64, timed: impl FnOnce(&mut [Item])) -> (&'static str, Vec<u8>) {
    let rng = &mut Rng(seed);
    let (kind, mut items) = match rng.below(40) {
        _ if tying::whole(seed) => ("ties", tying::log(rng)),
        0 => ("large", large(rng)),
        n if n < 10 => ("good", good(rng)),
        n if n < 20 => ("leaving", leaving(rng)),
        n if n < 25 => ("doors", doors(rng)),
        n if n < 34 => ("bus", bus(rng)),
        _ => ("payloads", payloads(rng)),
    };
    timed(&mut items);
    if kind != "large" && rng.chance(35) {
        return ("damaged", bytes(&damaged(rng, items)));
    }
    (kind, bytes(&items))
}

// ---- items again, and in words

/// A log's items; the last may be cut short.
pub fn split(log: &[u8]) -> Vec<Item> {
    let mut out = Vec::new();
    let mut rest = log;
    while !rest.is_empty() {
        let length = if rest.len() < 3 { 0 } else { le(&rest[1..3]) as usize };
        let end = rest.len().min(3 + length);
        out.push(rest[..end].to_vec());
        rest = &rest[end..];
    }
    out
}

pub fn hex(bytes: &[u8]) -> String {
    let words: Vec<String> = bytes.iter().map(|b| format!("{:02X}", b)).collect();
    words.join(" ")
}

fn signed(two: &[u8]) -> i16 {
    le(two) as u16 as i16
}

pub fn words(item: &[u8]) -> String {
    if item.len() < 3 || item.len() < 3 + le(&item[1..3]) as usize {
        return format!("cut: {}", hex(item));
    }
    let v = &item[3..];
    match (item[0], v.len()) {
        (16, 2) => format!("window, N {}", le(v)),
        (17, 6) => format!("question, slot {}, k {}, weights {}, {}", v[0], v[1], signed(&v[2..4]), signed(&v[4..6])),
        (18, 12) => frame_words(le(&v[..4]), &v[4..]),
        (19, 1) => format!("remove slot {}", v[0]),
        (20, 1) => format!("show slot {}", v[0]),
        (22, 8) => {
            let [a, b, c] = [signed(&v[2..4]), signed(&v[4..6]), signed(&v[6..8])];
            format!("question, slot {}, k {}, weights {}, {}, {}", v[0], v[1], a, b, c)
        }
        (23, 9) => {
            let [a, b, c] = [signed(&v[2..4]), signed(&v[4..6]), signed(&v[6..8])];
            format!("question, slot {}, k {}, weights {}, {}, {}, tie rule {}", v[0], v[1], a, b, c, v[8])
        }
        (21, 16) => format!("at {}, {}", le(&v[..4]), frame_words(le(&v[4..8]), &v[8..])),
        (tag, length) => format!("tag {}, length {}: {}", tag, length, hex(v)),
    }
}

fn frame_words(id: u32, d: &[u8]) -> String {
    let plain = id >> 24 & 3 == 0 && id >> 8 & 255 == 255 && id < 1 << 29;
    match id >> 16 & 255 {
        236 if plain && d[0] == 32 => {
            format!("announcement of sender {}: size {}, count {}, group {}", id & 255, le(&d[1..3]), d[3], le(&d[5..8]))
        }
        235 if plain => format!("packet {} of sender {}: {}", d[0], id & 255, hex(&d[1..])),
        _ => format!("frame {:08X}: {}", id, hex(d)),
    }
}
