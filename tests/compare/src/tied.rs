//! Scripts for the desk full of ties (docs/RULES.md, section 18).

use crate::board::Slot;
use crate::heating::Heating;
use crate::logs::Rng;
use crate::rules::{Entry, Ranges};
use crate::scripts::Script;
use crate::tying::{some_k, Ties, OVER};

/// A script of ties: pairs of questions over few cells, searches by hand, rules and lines poked.
pub fn script(s: &mut Script, rng: &mut Rng) {
    let (ties, n) = (Ties::draw(rng), rng.pick(&[1, 2, 3, 3, 4, 5, 8, 17]));
    s.say(format!("window {}", n));
    for _ in 0..rng.below(n + 2) {
        entered(s, rng, &ties);
    }
    set_pair(s, rng, &ties, 0);
    for _ in 0..rng.among(4, 12) {
        let slot = rng.pick(&[0, 0, 1, 1, 2, 3]);
        match rng.below(12) {
            0 => by_hand(s, rng, slot),
            1 | 2 => rule_poked(s, rng, slot),
            3 | 4 => lines_swapped(s, rng, slot),
            5 => {
                s.say(format!("remove {}", slot));
                let rule = rng.pick(&["", " rule 0", " rule 1", " rule 1"]);
                let [a, b, c] = rng.pick(&ties.weights);
                s.say(format!("set {} {} {} {} heat {}{}", slot, some_k(rng), a, b, c, rule));
            }
            6 => refused_rule(s, rng, slot),
            7 => set_pair(s, rng, &ties, 2),
            _ => {
                entered(s, rng, &ties);
                s.say(format!("read {}", slot));
            }
        }
    }
    for slot in 0..2 {
        s.look(slot);
    }
}

fn entered(s: &mut Script, rng: &mut Rng, ties: &Ties) {
    let (loss, shake, heat) = ties.report(rng);
    s.say(format!("enter {} {}{}", loss, shake, Heating::words(heat)));
}

/// The same question in two slots, one under each rule, mostly with ranges that leave few cells.
fn set_pair(s: &mut Script, rng: &mut Rng, ties: &Ties, slot: usize) {
    let (k, [a, b, c], first) = (some_k(rng), rng.pick(&ties.weights), rng.below(2));
    let Ranges { loss, shake } = ties.ranges();
    let mut words = vec![format!(" loss {} {}", loss.low, loss.high), format!(" shake {} {}", shake.low, shake.high)];
    words.truncate(rng.pick(&[0, 2, 2, 2]));
    if c != 0 {
        words.insert(rng.below(words.len() + 1), format!(" heat {}", c));
    }
    for (at, rule) in [(slot, first), (slot + 1, 1 - first)] {
        let mut words = words.clone();
        if rule == 1 || rng.chance(50) {
            words.insert(rng.below(words.len() + 1), format!(" rule {}", rule));
        }
        s.say(format!("set {} {} {} {}{}", at, k, a, b, words.concat()));
    }
}

/// A search begun and stepped, and a look at every list on its way.
fn by_hand(s: &mut Script, rng: &mut Rng, slot: usize) {
    s.say(format!("begin {}", slot));
    for _ in 0..rng.pick(&[1, 4, 9, 17]) {
        s.say(format!("step {}", slot));
        if s.answers[s.answers.len() - 1] != "ok\n" {
            break;
        }
        s.look(slot);
    }
}

/// A slot's numbers as they are, but for its tie rule.
fn with_rule(at: usize, slot: &Slot, rule: u8) -> String {
    let [a, b, _] = slot.weights;
    format!("poke slot {} {} {} {} {} {} rule {}", at, slot.k, a, b, slot.len, slot.next, rule)
}

/// Another tie rule in a slot, perhaps an empty one, some calls, and the one that it had.
fn rule_poked(s: &mut Script, rng: &mut Rng, at: usize) {
    let at = rng.pick(&[at, at, at, at, 30]);
    let old = s.board().slots[at].clone();
    let rule = rng.pick(&[0, 1, 1 - old.rule.min(1), 2, 2, 255]);
    s.say(with_rule(at, &old, rule));
    calls(s, rng, at);
    let now = s.board().slots[at].clone();
    if now.k == old.k && now.rule == rule {
        s.say(with_rule(at, &now, old.rule));
    }
}

/// Two lines of a list change places, mostly ones of equal scores, which are in order under the other rule alone; that rule too, perhaps.
fn lines_swapped(s: &mut Script, rng: &mut Rng, at: usize) {
    let old = s.board().slots[at].clone();
    let lines = old.listed();
    let equal: Vec<usize> = (1..lines.len()).filter(|&i| lines[i - 1].score == lines[i].score).collect();
    let second = if equal.is_empty() { lines.len().max(2) - 1 } else { rng.pick(&equal) };
    let [x, y] = [old.lines[second - 1], old.lines[second]];
    // a heat stays where none is said
    if x.heat.is_some() != y.heat.is_some() {
        return;
    }
    let placed = |place: usize, e: &Entry| {
        let heat = Heating::words(e.heat.map(u32::from));
        format!("poke line {} {} {} {}{}", at, place, e.number, e.score, heat)
    };
    s.say(placed(second - 1, &y));
    s.say(placed(second, &x));
    if rng.chance(40) {
        s.say(with_rule(at, &old, 1 - old.rule.min(1)));
    }
    calls(s, rng, at);
    let now = s.board().slots[at].clone();
    if now.lines[second - 1] == y && now.lines[second] == x {
        s.say(placed(second - 1, &x));
        s.say(placed(second, &y));
        s.say(with_rule(at, &now, old.rule));
    }
}

/// Calls that look at a slot's rule and its lines; a step finds what is unfit even where the search has ended.
fn calls(s: &mut Script, rng: &mut Rng, at: usize) {
    for _ in 0..rng.among(1, 2) {
        let line = match rng.below(6) {
            0 | 1 => format!("read {}", at),
            2 | 3 => format!("step {}", at),
            4 => format!("begin {}", at),
            _ => format!("read {}", at ^ 1),
        };
        s.say(line);
    }
}

/// A tie rule that is refused mostly, with something perhaps that is refused before or behind it.
fn refused_rule(s: &mut Script, rng: &mut Rng, at: usize) {
    let (slot, k) = (rng.pick(&[at, at, 16, 17, 32]), rng.pick(&[1, 1, 1, 17]));
    let (a, range) = (rng.pick(&[1, 1, -1001]), rng.pick(&["", "", " loss 7 6", " shake 0 4096"]));
    let rule = if rng.chance(85) { rng.pick(&OVER) } else { rng.below(2) as u8 };
    let line = if rng.chance(50) { format!("{} rule {}", range, rule) } else { format!(" rule {}{}", rule, range) };
    s.say(format!("set {} {} {} 0{}", slot, k, a, line));
    s.say(format!("read {}", slot));
}
