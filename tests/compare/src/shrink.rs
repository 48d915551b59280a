//! The shortest log or script that still shows a difference: items or lines dropped, then bytes, then numbers made smaller.

use crate::logs::{bytes, split};
use crate::rules::le;

/// A log for which `shows` holds, as short as dropping and lessening make it, with at most `tries` tries.
pub fn shortest(log: &[u8], tries: usize, shows: &mut dyn FnMut(&[u8]) -> bool) -> Vec<u8> {
    let mut left = tries;
    let mut try_it = |candidate: &[u8]| {
        left = left.saturating_sub(1);
        left > 0 && shows(candidate)
    };
    let mut best = log.to_vec();
    loop {
        let before = best.clone();
        best = bytes(&fewer(split(&best), &mut |items| try_it(&bytes(items))));
        if best.len() <= 600 {
            best = fewer(best, &mut |b| try_it(b));
            best = less(best, &mut try_it);
        }
        if best == before {
            return best;
        }
    }
}

/// Drops halves, quarters and so on down to single elements, as long as it still shows.
fn fewer<T: Clone>(mut all: Vec<T>, shows: &mut dyn FnMut(&[T]) -> bool) -> Vec<T> {
    let mut run = (all.len() + 1) / 2;
    while run > 0 {
        let mut at = 0;
        while at < all.len() {
            let end = all.len().min(at + run);
            let without: Vec<T> = all[..at].iter().chain(&all[end..]).cloned().collect();
            if shows(&without) {
                all = without;
            } else {
                at = end;
            }
        }
        run /= 2;
    }
    all
}

/// Makes each byte, and each number of two bytes, 0, half or one less, as long as it still shows.
fn less(mut log: Vec<u8>, shows: &mut dyn FnMut(&[u8]) -> bool) -> Vec<u8> {
    for width in 1..3 {
        for at in 0..(log.len() + 1).saturating_sub(width) {
            let mut old = le(&log[at..at + width]);
            while let Some(n) = [0, old / 2, old.saturating_sub(1)].iter().copied().find(|&n| n < old && shows(&with(&log, at, width, n))) {
                log = with(&log, at, width, n);
                old = n;
            }
        }
    }
    log
}

/// A script for which `shows` holds: lines dropped, then words, then numbers made smaller.
pub fn shortest_script(script: Vec<Vec<u8>>, tries: usize, shows: &mut dyn FnMut(&[Vec<u8>]) -> bool) -> Vec<Vec<u8>> {
    let mut left = tries;
    let mut try_it = |candidate: &[Vec<u8>]| {
        left = left.saturating_sub(1);
        left > 0 && shows(candidate)
    };
    let mut best = script;
    loop {
        let before = best.clone();
        best = fewer(best, &mut try_it);
        if best.len() <= 100 {
            for at in 0..best.len() {
                best = smaller_line(best, at, &mut try_it);
            }
        }
        if best == before {
            return best;
        }
    }
}

/// Words of one line dropped, and its numbers made less: by all, by half, and so on down to by one.
fn smaller_line(mut script: Vec<Vec<u8>>, at: usize, shows: &mut dyn FnMut(&[Vec<u8>]) -> bool) -> Vec<Vec<u8>> {
    let with = |script: &[Vec<u8>], words: &[Vec<u8>]| {
        let mut out = script.to_vec();
        out[at] = words.join(&32);
        out
    };
    let mut words: Vec<Vec<u8>> = script[at].split(|&b| b == 32).map(|w| w.to_vec()).collect();
    words = fewer(words, &mut |w| shows(&with(&script, w)));
    for i in 0..words.len() {
        let mut old = match String::from_utf8_lossy(&words[i]).parse::<i64>() {
            Ok(n) if n > 0 => n,
            _ => continue,
        };
        let try_number = |n: i64| {
            let mut w = words.clone();
            w[i] = n.to_string().into_bytes();
            w
        };
        let mut by = old;
        while by > 0 {
            if by <= old && shows(&with(&script, &try_number(old - by))) {
                old -= by;
            } else {
                by /= 2;
            }
        }
        words[i] = old.to_string().into_bytes();
        if !shows(&with(&script, &words)) {
            return script;
        }
    }
    script[at] = words.join(&32);
    script
}

/// The log with a number of so many bytes stored in a place.
fn with(log: &[u8], at: usize, width: usize, n: u32) -> Vec<u8> {
    let mut out = log.to_vec();
    out[at..at + width].copy_from_slice(&n.to_le_bytes()[..width]);
    out
}
