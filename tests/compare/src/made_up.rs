//! Scripts that poke states, fit and unfit, near each edge of each clause, and then make calls on them.

use crate::board::{Row, Slot, Window, LINES, ROWS};
use crate::heating::Heating;
use crate::logs::{carry, identifier, odd_announcement, Rng};
use crate::ranging::both;
use crate::rules::{above, le, Entry, Range, Ranges, Report};
use crate::scripts::{frame_line, hex, some_payload, Script};
use crate::wrong::Wrong;

// ---- the window

/// A window with these counts, its rows as they have to be.
fn window(s: &mut Script, rng: &mut Rng, size: u16, entered: u32, held: u16) {
    s.say(String::from("window 1"));
    s.say(format!("poke window {} {} {}", size, entered, held));
    let counts = Window { size, entered, held, rows: Vec::new() };
    let narrow = rng.chance(40);
    // now and then the latest report has a value that is one too large
    let high = if rng.chance(4) { rng.below(2) } else { 2 };
    for m in entered + 1 - u32::from(held)..=entered {
        let value = |rng: &mut Rng| if narrow { rng.pick(&[0, 255, 256, 4095]) } else { rng.below(4096) };
        let mut values = [value(rng), value(rng), 0];
        if m == entered {
            values[high] = 4096;
        }
        let heat = Heating::words(s.heating.heat());
        s.say(format!("poke row {} {} {} {}{}", counts.row(m).min(ROWS - 1), m, values[0], values[1], heat));
    }
}

/// How many are held, of as many as may be.
fn some_held(rng: &mut Rng, size: u16, entered: u32) -> u16 {
    let most = u32::from(size).min(entered) as usize;
    if rng.chance(70) {
        most as u16
    } else {
        rng.below(most + 1) as u16
    }
}

fn small_window(s: &mut Script, rng: &mut Rng) {
    let size = rng.pick(&[1, 2, 3, 3, 5, 8, 16, 17, 40]);
    let entered = rng.pick(&[0, 1, 2, 3, 5, 10, 16, 40, 1024, 1025, 5000, 999_999, 1_000_000, 1_000_001]);
    let held = some_held(rng, size, entered);
    match rng.below(25) {
        // a large window that holds little
        0 => {
            let entered = rng.pick(&[0, 1, 3, 9]);
            window(s, rng, 1024, entered, entered as u16);
        }
        _ => window(s, rng, size, entered, held),
    }
}

// ---- a question

/// A question for a slot: one that its search has brought so far, or one with a list made up from the held reports.
fn some_slot(s: &mut Script, rng: &mut Rng) -> Slot {
    let most = rng.pick(&[3, 16]);
    let weight = |rng: &mut Rng| match rng.below(20) {
        0 => rng.pick(&[-1001, 1001]),
        n if n < 6 => rng.pick(&[-1000, -999, 1000, 17]),
        _ => rng.among(-3, 3) as i16,
    };
    let weights = [weight(rng), weight(rng), s.heating.any_weight().unwrap_or(0) as i16];
    let rule = s.tying.any_rule().unwrap_or(0);
    let mut slot = Slot { k: rng.among(1, most) as u8, weights, ranges: s.ranges(), rule, ..Slot::fresh() };
    let mut q = slot.asked();
    let order = q.order(Wrong::No);
    let mut steps = if rng.chance(20) { order.len() } else { rng.below(order.len() + 1) };
    let held = s.board().window.reports();
    let weighed = slot.weights[2] != 0 && s.heating.chance(60);
    if s.ranging.chance(40) || weighed {
        // the next cell has reports, and where heat is weighed some that count
        let some = |cell: usize| held.iter().any(|r| r.cell() == cell && (!weighed || q.entry(r, Wrong::No).is_some()));
        let cells: Vec<usize> = (0..order.len()).filter(|&i| some(order[i])).collect();
        steps = if cells.is_empty() { steps } else { s.ranging.pick(&cells) };
    }
    let made_up = rng.chance(40);
    let upto = &order[..steps];
    let listed = held.iter().filter(|r| if made_up { rng.chance(50) } else { upto.contains(&r.cell()) });
    let listed = listed.filter_map(|r| q.entry(r, Wrong::No)).collect();
    q.rank(listed, Wrong::No);
    if made_up {
        q.list.truncate(rng.below(17));
    } else if rng.chance(70) && !weighed {
        steps = q.search(&held, Wrong::No);
    }
    slot.list(&q.list);
    slot.next = order.get(steps).map_or(256, |&c| c as u16);
    slot
}

fn slot_line(at: usize, s: &Slot) -> String {
    let [a, b, c] = s.weights;
    format!("poke slot {} {} {} {} {} {} heat {}{} rule {}", at, s.k, a, b, s.len, s.next, c, both(s.ranges), s.rule)
}

/// The greatest number that a row or a line has room for.
const MOST_NUMBER: u32 = 1_048_319;

/// Where it has no heat, one that the line had stays.
fn line_line(at: usize, place: usize, e: &Entry) -> String {
    let heat = Heating::words(e.heat.map(u32::from));
    format!("poke line {} {} {} {}{}", at, place, e.number.min(MOST_NUMBER), e.score, heat)
}

fn row_line(at: usize, r: &Row) -> String {
    let heat = Heating::words(r.heat.map(u32::from));
    format!("poke row {} {} {} {}{}", at, r.number.min(MOST_NUMBER), r.loss, r.shake, heat)
}

/// Makes one slot of another: its numbers, and of its lines those that are others than before.
fn made_of(at: usize, before: &Slot, slot: &Slot) -> Vec<String> {
    let changed = (0..LINES).filter(|&p| before.lines[p] != slot.lines[p]);
    let lines = changed.map(|p| line_line(at, p, &slot.lines[p]));
    std::iter::once(slot_line(at, slot)).chain(lines).collect()
}

fn store(s: &mut Script, at: usize, slot: &Slot) {
    for line in made_of(at, &s.board().slots[at], slot) {
        s.say(line);
    }
}

// ---- damage

/// Something of the state is another: the lines that make it so, and those that put it back.
fn damage(s: &mut Script, rng: &mut Rng, at: usize) -> Vec<String> {
    let (said, back) = match rng.below(14) {
        _ if s.ranging.chance(40) => ranges_damaged(s, at),
        _ if s.heating.chance(45) => heat_damaged(s, at),
        _ if s.tying.chance(30) => ties_damaged(s, at),
        0 | 1 | 2 => counts_damaged(s, rng),
        3 | 4 | 5 => row_damaged(s, rng),
        6 | 7 | 8 | 9 => slot_damaged(s, rng, at),
        _ => lines_damaged(s, rng, at),
    };
    for line in said {
        s.say(line);
    }
    back
}

fn counts_damaged(s: &Script, rng: &mut Rng) -> (Vec<String>, Vec<String>) {
    let w = s.board().window;
    let (mut size, mut entered, mut held) = (w.size, w.entered, w.held);
    match rng.below(4) {
        0 => size = rng.pick(&[0, 1, 2, size.wrapping_add(1), size.wrapping_sub(1), 1024, 1025, 1025, 65535]),
        1 => entered = rng.pick(&[0, 1, 1_000_001, u32::MAX]),
        2 => entered = entered.wrapping_add(rng.pick(&[1, u32::MAX])),
        _ => held = held.wrapping_add(rng.pick(&[1, 1, 65535])),
    }
    let line = |size: u16, entered: u32, held: u16| vec![format!("poke window {} {} {}", size, entered, held)];
    (line(size, entered, held), line(w.size, w.entered, w.held))
}

fn row_damaged(s: &Script, rng: &mut Rng) -> (Vec<String>, Vec<String>) {
    let w = s.board().window;
    let rows = usize::from(w.size).max(1).min(ROWS);
    let at = if rng.chance(70) { rng.below(rows) } else { rng.pick(&[rows.min(ROWS - 1), ROWS - 1, rng.0 as usize % ROWS]) };
    let old = w.rows[at];
    let mut new = old;
    match rng.below(4) {
        0 => new.loss = rng.pick(&[0, 1, 4095, 4096, 65535]),
        1 => new.shake = rng.pick(&[0, 1, 4095, 4096, 65535]),
        2 => new.number = new.number.wrapping_add(rng.pick(&[1, u32::MAX, 1024])),
        _ => {
            // two rows change places
            let other = rng.below(rows);
            let o = w.rows[other];
            return (vec![row_line(at, &o), row_line(other, &old)], vec![row_line(at, &old), row_line(other, &o)]);
        }
    }
    (vec![row_line(at, &new)], vec![row_line(at, &old)])
}

/// A heat or a weight for it that is unfit, or another than before. What has had none can't be put back.
fn heat_damaged(s: &mut Script, at: usize) -> (Vec<String>, Vec<String>) {
    let (w, old) = (s.board().window, s.board().slots[at].clone());
    let (rows, len) = (usize::from(w.size).max(1).min(ROWS), old.listed().len());
    let heat = Some(s.heating.pick(&[0, 0, 1, 4094, 4095]));
    let with = |c: i16| Slot { weights: [old.weights[0], old.weights[1], c], ..old.clone() };
    let lined = |place: usize| {
        let line = old.lines[place];
        (vec![line_line(at, place, &Entry { heat, ..line })], vec![line_line(at, place, &line)])
    };
    let slots = |new: &Slot| (made_of(at, &old, new), made_of(at, new, &old));
    match s.heating.below(12) {
        0 => slots(&with(s.heating.pick(&[-32768, -1001, -1001, 1001, 1001, 32767]))),
        1 => slots(&with(s.heating.pick(&[-1000, -1, 0, 1, 1000]))),
        2 => slots(&Slot { weights: [0, 0, s.heating.pick(&[-1, 1, 1000])], ..Slot::fresh() }),
        // an empty slot whose line has a heat
        3 => {
            let (said, back) = slots(&Slot::fresh());
            let line = format!("poke line {} {} 0 0 heat {}", at, s.heating.pick(&[0, 15]), s.heating.pick(&[0, 1, 4095]));
            (said.into_iter().chain([line]).collect(), back)
        }
        4 => slots(&uncounted_listed(s, &old)),
        5 | 6 if len > 0 => lined(s.heating.below(len)),
        5 | 6 | 7 => lined(s.heating.pick(&[len.min(LINES - 1), LINES - 1])),
        // the heat of a listed report is another in its row
        8 | 9 if len > 0 => {
            let row = w.row(old.lines[s.heating.below(len)].number).min(ROWS - 1);
            (vec![row_line(row, &Row { heat, ..w.rows[row] })], vec![row_line(row, &w.rows[row])])
        }
        _ => {
            let row = s.heating.pick(&[0, rows - 1, rows.min(ROWS - 1), ROWS - 1]);
            (vec![row_line(row, &Row { heat, ..w.rows[row] })], vec![row_line(row, &w.rows[row])])
        }
    }
}

/// A tie rule that is unfit or another than before; its lines may be turned round, so that ties are in order under the other rule.
fn ties_damaged(s: &mut Script, at: usize) -> (Vec<String>, Vec<String>) {
    let old = s.board().slots[at].clone();
    let other = 1 - old.rule.min(1);
    let (mut new, mut turned) = (old.clone(), old.listed().to_vec());
    turned.sort_by(|x, y| above(x, y, other, Wrong::No));
    match s.tying.below(8) {
        0 | 1 => new.rule = s.tying.pick(&[2, 2, 3, 254, 255]),
        2 => new = Slot { rule: s.tying.pick(&[1, 2, 255]), ..Slot::fresh() },
        3 | 4 => new.rule = other,
        5 | 6 => new.list(&turned),
        _ => {
            new.rule = other;
            new.list(&turned);
        }
    }
    (made_of(at, &old, &new), made_of(at, &new, &old))
}

fn slot_damaged(s: &Script, rng: &mut Rng, at: usize) -> (Vec<String>, Vec<String>) {
    let old = s.board().slots[at].clone();
    let mut new = old.clone();
    match rng.below(7) {
        0 | 1 => new.k = rng.pick(&[0, 0, 1, 2, 16, 17, 17, 255, old.len.wrapping_sub(1)]),
        2 => new.weights[0] = rng.pick(&[-32768, -1001, -1000, 0, 1, 1000, 1001]),
        3 => new.weights[1] = rng.pick(&[-1001, -1000, 0, 1, 1000, 1001, 32767]),
        4 => new.len = rng.pick(&[0, 1, old.len.wrapping_add(1), old.len.wrapping_sub(1), 16, 17, 255]),
        5 => new.next = rng.pick(&[0, 1, 255, 256, 257, 257, 65535]),
        _ => {
            new = Slot {
                k: 0,
                weights: [rng.pick(&[0, 0, 1]), rng.pick(&[0, 0, -1]), 0],
                len: rng.pick(&[0, 0, 1]),
                next: rng.pick(&[0, 0, 1]),
                ranges: Ranges::default(),
                rule: 0,
                ..old.clone()
            }
        }
    }
    (vec![slot_line(at, &new)], vec![slot_line(at, &old)])
}

/// Ranges that are unfit or leave out what stands in the slot; the slot is otherwise fit, where it was.
fn ranges_damaged(s: &mut Script, at: usize) -> (Vec<String>, Vec<String>) {
    let old = s.board().slots[at].clone();
    let (drawn, Ranges { loss, shake }) = (s.ranges(), old.ranges);
    // a question that nothing counts for, and one with another range
    let none = |ranges: Ranges| Slot { ranges, next: 256, len: 0, lines: Slot::fresh().lines, ..old.clone() };
    let with = |ranges: Ranges| Slot { ranges, ..old.clone() };
    let falls = |r: Range| Range { low: r.high.min(4094) + 1, high: r.low.min(4094) };
    let new = match s.ranging.pick(&[0, 1, 2, 3, 4, 5, 5, 6, 6, 7, 7, 7]) {
        0 => none(Ranges { loss: falls(loss), shake }),
        1 => none(Ranges { loss, shake: falls(shake) }),
        2 => with(Ranges { loss: s.ranging.over(loss.low, loss.high), shake }),
        3 => with(Ranges { loss, shake: s.ranging.over(shake.low, shake.high) }),
        4 => with(drawn),
        5 => Slot { ranges: drawn, ..Slot::fresh() },
        6 => {
            let outside: Vec<u16> = (0..256).filter(|&c| !old.ranges.meet(c.into(), Wrong::No)).collect();
            Slot { next: if outside.is_empty() { 257 } else { s.ranging.pick(&outside) }, ..old.clone() }
        }
        _ => uncounted_listed(s, &old),
    };
    (made_of(at, &old, &new), made_of(at, &new, &old))
}

/// A held report that doesn't count stands on the list, in its place by score.
fn uncounted_listed(s: &mut Script, old: &Slot) -> Slot {
    let (mut q, mut new) = (old.asked(), old.clone());
    let held = s.board().window.reports();
    let listed_all_the_same = |r: &Report| Entry { number: r.number, score: q.score(r, Wrong::No), heat: r.heat };
    let uncounted: Vec<Entry> = held.iter().filter(|r| q.entry(r, Wrong::No).is_none()).map(listed_all_the_same).collect();
    let mut listed = old.listed().to_vec();
    if !uncounted.is_empty() {
        listed.push(s.ranging.pick(&uncounted));
    }
    q.rank(listed, Wrong::No);
    new.list(&q.list);
    new
}

fn lines_damaged(s: &Script, rng: &mut Rng, at: usize) -> (Vec<String>, Vec<String>) {
    let (slot, entered) = (s.board().slots[at].clone(), s.board().window.entered);
    let lines = slot.lines;
    let len = slot.listed().len();
    let place = if len > 0 && rng.chance(70) { rng.below(len) } else { rng.pick(&[len.min(LINES - 1), LINES - 1, rng.0 as usize % LINES]) };
    let old = lines[place];
    let mut said = Vec::new();
    let mut back = vec![line_line(at, place, &old)];
    match rng.below(5) {
        0 => {
            let number = rng.pick(&[0, 1, entered, entered.wrapping_add(1), old.number.wrapping_add(1), u32::MAX]);
            said.push(line_line(at, place, &Entry { number, ..old }));
        }
        1 => {
            let score = rng.pick(&[0, 1, old.score.wrapping_add(1), old.score.wrapping_sub(1), i32::MIN, i32::MAX]);
            said.push(line_line(at, place, &Entry { score, ..old }));
        }
        2 => {
            let other = if len > 1 { rng.below(len) } else { rng.below(LINES) };
            said.push(line_line(at, place, &lines[other]));
            said.push(line_line(at, other, &old));
            back.push(line_line(at, other, &lines[other]));
        }
        3 => {
            // twice on the list, which is one longer
            let end = len.min(LINES - 1);
            let from = end.max(1) - 1;
            said.push(line_line(at, end, &lines[from]));
            said.push(slot_line(at, &Slot { len: end as u8 + 1, ..slot.clone() }));
            back = vec![line_line(at, end, &lines[end]), slot_line(at, &slot)];
        }
        _ => {
            // one that left the window, or is in no row yet
            let end = len.min(LINES - 1);
            let number = rng.pick(&[entered.wrapping_add(1), entered.wrapping_sub(u32::from(s.board().window.held)), 0]);
            said.push(line_line(at, end, &Entry { number, ..lines[end.max(1) - 1] }));
            said.push(slot_line(at, &Slot { len: end as u8 + 1, ..slot.clone() }));
            back = vec![line_line(at, end, &lines[end]), slot_line(at, &slot)];
        }
    }
    (said, back)
}

// ---- calls

/// A question whose ranges are refused mostly, and something else perhaps: what stands in the slot, its k or a weight.
fn refused_ranges(s: &mut Script, at: usize) {
    let (k, a, b) = (s.ranging.pick(&[1, 1, 1, 17]), s.ranging.pick(&[1, 1, -1001]), s.ranging.pick(&[0, 0, 1001]));
    let (slot, ends) = (s.ranging.pick(&[at, at, 16, 32]), [0, 0, 255, 256, 4095, 4096, 65535]);
    let [low, high] = [s.ranging.pick(&ends), s.ranging.pick(&ends)];
    let name = s.ranging.pick(&["loss", "shake"]);
    s.say(format!("set {} {} {} {} {} {} {}", slot, k, a, b, name, low, high));
}

fn call(s: &mut Script, rng: &mut Rng, at: usize) {
    if s.ranging.chance(7) {
        refused_ranges(s, at);
    }
    let slot = rng.pick(&[at, at, at, 0, 31, 32, 255]);
    let weight = |rng: &mut Rng| rng.pick(&[-1001, -1000, -1, 0, 1, 2, 1000, 1001]);
    let value = |rng: &mut Rng| if rng.chance(80) { rng.below(4096) as u32 } else { rng.pick(&[0, 4095, 4096, 65535]) };
    let line = match rng.below(10) {
        0 | 1 | 2 => format!("step {}", at),
        3 => format!("begin {}", at),
        4 => return s.set(slot, rng.pick(&[0, 1, 2, 16, 17]), weight(rng), weight(rng)),
        5 => format!("remove {}", slot),
        6 => format!("read {}", slot),
        _ => return s.enter(value(rng), value(rng)),
    };
    s.say(line);
}

/// Four calls on a slot, each followed by a look, and at last what was damaged is put back.
fn calls(s: &mut Script, rng: &mut Rng, at: usize, back: Vec<String>) {
    for _ in 0..4 {
        call(s, rng, at);
        if rng.chance(60) {
            s.look(at);
        }
    }
    for line in back {
        s.say(line);
    }
    s.look(at);
    s.say(String::from("held"));
}

/// Other questions that stand on the board.
fn others(s: &mut Script, rng: &mut Rng) {
    let many = rng.pick(&[1, 2, 5, 32]);
    for _ in 0..many {
        let slot = rng.below(32);
        if s.board().slots[slot].k == 0 {
            s.set(slot, rng.among(1, 16), rng.among(-3, 3), rng.among(-3, 3));
        }
    }
}

/// A window, a question in one slot, others perhaps, something damaged perhaps, and calls.
pub fn question(s: &mut Script, rng: &mut Rng) {
    small_window(s, rng);
    if rng.chance(15) {
        others(s, rng);
    }
    let at = rng.pick(&[0, 0, 1, 7, 30, 31]);
    if !rng.chance(8) {
        let slot = some_slot(s, rng);
        store(s, at, &slot);
    }
    let back = if rng.chance(65) { damage(s, rng, at) } else { Vec::new() };
    let used = used(s);
    let shown = if used.is_empty() || rng.chance(85) { at } else { rng.pick(&used) };
    calls(s, rng, shown, back);
    for slot in used.into_iter().filter(|&u| u != shown) {
        s.say(format!("steps {}", slot));
        s.say(format!("read {}", slot));
    }
}

/// The slots in use.
fn used(s: &Script) -> Vec<usize> {
    s.board().slots.iter().enumerate().filter(|slot| slot.1.k != 0).map(|slot| slot.0).collect()
}

/// A window near its largest size, and one state after the other on it.
pub fn large(s: &mut Script, rng: &mut Rng) {
    let size = rng.pick(&[512, 1023, 1024, 1024]);
    let entered = rng.pick(&[1000, 1024, 1025, 5000, 999_990, 1_000_000]);
    let held = some_held(rng, size, entered);
    window(s, rng, size, entered, held);
    for _ in 0..8 {
        if rng.chance(20) {
            others(s, rng);
        }
        let at = rng.below(32);
        let before = s.board().slots[at].clone();
        let slot = some_slot(s, rng);
        store(s, at, &slot);
        let back = if rng.chance(65) { damage(s, rng, at) } else { Vec::new() };
        calls(s, rng, at, back);
        cleared(s, at);
        store(s, at, &before);
    }
}

/// Takes the heats off a slot's lines, which no poke does: it lists as many of the held reports that have one, and is begun anew.
fn cleared(s: &mut Script, at: usize) {
    let board = s.board();
    let count = (0..LINES).rev().find(|&p| board.slots[at].lines[p].heat.is_some()).map_or(0, |p| p + 1);
    let mut held: Vec<Report> = board.window.reports().into_iter().filter(|r| r.heat.is_some()).collect();
    if count == 0 || held.len() < count {
        return;
    }
    held.reverse();
    let mut slot = Slot { k: LINES as u8, ranges: Ranges::ALL, next: 256, ..Slot::fresh() };
    let list: Vec<Entry> = held[..count].iter().map(|r| Entry { number: r.number, score: 0, heat: r.heat }).collect();
    slot.list(&list);
    store(s, at, &slot);
    s.say(format!("begin {}", at));
}

// ---- sessions

/// A session, fit or not, and frames for it: most are what it waits for.
pub fn session(s: &mut Script, rng: &mut Rng) {
    s.say(String::from("window 1"));
    let sender = rng.pick(&[0, 1, 5, 100, 252, 253]);
    let mut p = some_payload(s, rng);
    if p.is_empty() {
        p.push(1);
    }
    let size = p.len();
    let count = (size + 6) / 7;
    let next = if rng.chance(60) { 1 } else { rng.below(count + 2) };
    let mut numbers = [size, count, next];
    if rng.chance(30) {
        numbers = [0, 0, 0];
    }
    if rng.chance(45) {
        let at = rng.below(3);
        numbers[at] = rng.pick(&[0, 0, 1, 2, 3, 12, 13, 17, 18, 19, 20, 84, 85, 89, 90, 255, (numbers[at] + 1) % 256]);
    }
    let time = poked_time(s, sender);
    s.say(format!("poke session {} {} {} {}{}", sender, numbers[0] % 256, numbers[1], numbers[2], time));
    poke_bytes(s, rng, sender, &p, 7 * next.max(1) - 7);
    let skip = if numbers[2] != 0 && rng.chance(85) { next.max(1) } else { 0 };
    for item in carry(sender, &p).iter().skip(skip) {
        let line = session_frame(rng, item) + &s.at(sender.into());
        s.say(line);
        if rng.chance(3) {
            let odd = odd_announcement(rng, sender);
            let line = frame_line(rng, &odd) + &s.at(sender.into());
            s.say(line);
        }
        if rng.chance(30) {
            s.say(format!("session {}", sender));
        }
    }
    s.say(format!("session {}", sender));
    if rng.chance(10) {
        s.say(format!("window {}", rng.pick(&[2, 0])));
        s.say(format!("session {}", sender));
    }
}

/// A last time for a session that is poked, or one where there is none.
fn poked_time(s: &mut Script, sender: u8) -> String {
    let edges = [0, 1, 749, 750, 751, u32::MAX - 750, u32::MAX];
    if s.clocks.chance(10) {
        let line = format!("poke untimed {} {}", sender, s.clocks.pick(&edges));
        s.say(line);
    } else if s.clocks.chance(60) {
        return format!(" at {}", s.clocks.pick(&edges));
    }
    String::new()
}

/// The part of the payload that has come already, and bytes that nobody sent.
fn poke_bytes(s: &mut Script, rng: &mut Rng, sender: u8, p: &[u8], come: usize) {
    for (place, value) in p.iter().take(come.min(89)).enumerate() {
        s.say(format!("poke byte {} {} {}", sender, place, value));
    }
    if rng.chance(30) {
        // what looks like a note behind a payload without one
        for (place, value) in [(17, 4), (18, rng.below(70)), (19, 0)].iter().filter(|b| b.0 >= come) {
            s.say(format!("poke byte {} {} {}", sender, place, value));
        }
    }
    if s.heating.chance(if p.len() == 17 { 70 } else { 10 }) {
        // what looks like a heat behind one without it
        for (place, value) in [(17, 5), (18, 2), (19, 0), (20, s.heating.below(256)), (21, 0)].iter().filter(|b| b.0 >= come) {
            s.say(format!("poke byte {} {} {}", sender, place, value));
        }
    }
    for _ in 0..rng.below(4) {
        let place = rng.pick(&[16, 17, 20, 83, 84, 87, 88, rng.0 as usize % 89]);
        if place >= come {
            s.say(format!("poke byte {} {} {}", sender, place, rng.below(256)));
        }
    }
}

/// A frame of a report, one in eight with something else in it.
fn session_frame(rng: &mut Rng, item: &[u8]) -> String {
    let mut id = le(&item[3..7]);
    let mut data = item[7..].to_vec();
    match rng.below(32) {
        0 => data.resize(rng.below(12), 255),
        1 | 2 => {
            let at = rng.below(data.len());
            data[at] = data[at].wrapping_add(1);
        }
        3 => {
            let odd = [1 << 29, u32::MAX, identifier(7, 235, 254), identifier(7, 236, 255), identifier(3, 237, 1), id | 1 << 24, id - 256];
            id = rng.pick(&odd);
        }
        _ => {}
    }
    format!("frame {:08X} {}", id, hex(&data)).trim_end().to_string()
}
