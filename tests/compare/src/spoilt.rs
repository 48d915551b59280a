//! Lines of every form with numbers drawn from their ranges, and lines spoilt on purpose.

use crate::logs::Rng;
use crate::orders::FORMS;
use crate::scripts::hex;

/// A line of some form: numbers small, or at an edge of their range.
pub fn any_line(rng: &mut Rng) -> String {
    let form = &FORMS[rng.below(FORMS.len())];
    let mut words = vec![form.name.to_string()];
    for &(least, most) in form.ranges {
        let n = if rng.chance(70) { rng.among(0, 3).into() } else { rng.pick(&[least, least + 1, most - 1, most]) };
        words.push(n.to_string());
    }
    let bytes: Vec<u8> = (0..rng.pick(&[0, 1, 7, 8, 8, 17, 64, 65])).map(|_| rng.next() as u8).collect();
    match form.name {
        "frame" => {
            words.push(format!("{:X} {}", rng.next() as u32 >> rng.below(32), hex(&bytes)).trim_end().to_string());
            words.extend(some_time(rng));
        }
        "poke session" => words.extend(some_time(rng)),
        "enter" | "poke row" | "poke line" => words.extend(some_heat(rng)),
        "set" | "poke slot" => words.extend(some_ranges(rng)),
        "payload" => words.push(hex(&bytes)),
        "write" => {
            let mut more = vec![format!("note {}", hex(&bytes)), format!("room {}", rng.below(200))];
            if rng.chance(50) {
                more.reverse();
            }
            more.truncate(rng.below(3));
            let place = rng.below(more.len() + 1);
            more.splice(place..place, some_heat(rng));
            words.extend(more);
        }
        _ => {}
    }
    words.join(" ").trim_end().to_string()
}

/// A time, where one is said.
fn some_time(rng: &mut Rng) -> Option<String> {
    let ms = rng.pick(&[0, 1, 750, 751, 1501, u32::MAX]);
    Some(format!("at {}", ms)).filter(|_| rng.chance(40))
}

/// A heat, where one is said.
fn some_heat(rng: &mut Rng) -> Option<String> {
    let heat = rng.pick(&[0, 1, 4094, 4095, 4095, 4096, 65535]);
    Some(format!("heat {}", heat)).filter(|_| rng.chance(40))
}

/// Ranges, a weight for heat and a tie rule, where any are said.
fn some_ranges(rng: &mut Rng) -> Vec<String> {
    let mut out = Vec::new();
    for name in if rng.chance(50) { ["loss", "shake"] } else { ["shake", "loss"] } {
        let (low, high) = (rng.pick(&[0, 0, 1, 255, 256, 4095, 4096]), rng.pick(&[0, 255, 256, 4095, 4095, 4096, 65535]));
        if rng.chance(30) {
            out.push(format!("{} {} {}", name, low, high));
        }
    }
    if rng.chance(30) {
        let place = rng.below(out.len() + 1);
        out.insert(place, format!("heat {}", rng.pick(&[-32768, -1001, -1000, -1, 0, 1, 1000, 1001, 32767])));
    }
    if rng.chance(30) {
        let place = rng.below(out.len() + 1);
        out.insert(place, format!("rule {}", rng.pick(&[0, 1, 1, 2, 254, 255])));
    }
    out
}

const NUMBERS: [&str; 49] = [
    "-1",
    "-0",
    "0",
    "1",
    "15",
    "16",
    "17",
    "31",
    "32",
    "84",
    "88",
    "89",
    "90",
    "253",
    "254",
    "255",
    "256",
    "257",
    "1000",
    "1001",
    "-1000",
    "-1001",
    "1023",
    "1024",
    "1025",
    "4095",
    "4096",
    "32767",
    "32768",
    "-32768",
    "-32769",
    "65535",
    "65536",
    "1000001",
    "1048319",
    "1048320",
    "2147483647",
    "2147483648",
    "-2147483648",
    "-2147483649",
    "4294967295",
    "4294967296",
    "18446744073709551616",
    "99999999999999999999999",
    "00000000000000000000000000000001",
    "1.0",
    "+1",
    "--1",
    "-",
];

const ODD: [&str; 100] = [
    "",
    " ",
    "\t",
    "\r",
    "#",
    " # window 3",
    "#\u{ff}",
    "\u{1}#",
    "\u{1}",
    "help",
    "help 1",
    "held 1",
    "poke",
    "poke help",
    "poke poke",
    "pok",
    "Window 3",
    "window",
    "window 3 3",
    "window  003\r",
    "\twindow\t4 ",
    "write 1 2 3 4 note",
    "write 1 2 3 4 note note",
    "write 1 2 3 4 note room 60",
    "write 1 2 3 4 room",
    "write 1 2 3 4 room 60 note",
    "write 1 2 3 4 room 48 room 48",
    "write 1 2 3 4 note AB CD",
    "write 1 2 3 4 note ABC",
    "write 1 2 3 4 note ab room 60 room",
    "frame",
    "frame 123456789 00",
    "frame 1CECFF05",
    "frame 1CECFF05 at 5",
    "frame 1CECFF05 at",
    "frame 1CECFF05 20110003FF14FF00 at 5 at 5",
    "frame 1CECFF05 at 5 20110003FF14FF00",
    "frame at 5",
    "poke session 3 0 0 0 at",
    "poke session 3 0 0 0 at 5 at 5",
    "poke session 3 at 5 0 0 0",
    "poke untimed 3",
    "poke untimed 3 at 5",
    "session 3 at 5",
    "payload 01 02",
    "set 0 1 1 1 loss",
    "set 0 1 1 1 loss 5",
    "set 0 1 1 1 loss 5 shake 7",
    "set 0 1 1 1 loss 5 7 9",
    "set 0 1 1 1 loss 5 7 loss 5 7",
    "set 0 1 1 1 shake 5 7 loss 5 7",
    "set 0 1 1 1 loss 5 7 shake 5 7 loss 5 7",
    "set 0 1 1 1 Loss 5 7",
    "set 0 1 1 loss 5 7",
    "set loss 5 7 0 1 1 1",
    "enter 1 2 heat",
    "enter 1 2 heat -1",
    "enter 1 2 heat 65536",
    "enter 1 2 heat 3 heat 3",
    "enter 1 2 heat 3 4",
    "enter 1 heat 3",
    "enter heat 3 1 2",
    "enter 1 2 Heat 3",
    "enter 1 2 note AB",
    "set 0 1 1 1 heat",
    "set 0 1 1 1 heat 1 heat 1",
    "set 0 1 1 1 heat loss 5 7",
    "set 0 1 1 1 shake 5 7 heat -2 loss 5 7",
    "set 0 1 1 1 heat 32768",
    "write 1 2 3 4 note heat 5",
    "write 1 2 3 4 note heat",
    "write 1 2 3 4 heat 5 note room 72",
    "write 1 2 3 4 heat 5 heat 5",
    "poke row 0 1048320 0 0",
    "poke row 0 1 0 0 heat 4096",
    "poke line 0 0 1 0 heat 4096",
    "poke slot 0 0 0 0 0 loss 0 0",
    "poke slot 0 0 0 0 0 0 shake 00 00 loss 0 0",
    "set 0 1 1 1 rule",
    "set 0 1 1 1 rule -1",
    "set 0 1 1 1 rule -0",
    "set 0 1 1 1 rule 001",
    "set 0 1 1 1 rule 255",
    "set 0 1 1 1 rule 256",
    "set 0 1 1 1 rule first",
    "set 0 1 1 1 rule 1 1",
    "set 0 1 1 1 rule 1 rule 1",
    "set 0 1 1 1 rule heat 1",
    "set 0 1 1 1 rule 1 shake 5 7 heat -2 loss 5 7",
    "set 0 1 1 1 heat 0 rule 1",
    "set 0 1 1 1 Rule 1",
    "set 0 1 1 1 1",
    "set 0 1 1 rule 1",
    "set rule 1 0 1 1 1",
    "enter 1 2 rule 1",
    "poke row 0 1 0 0 rule 1",
    "poke line 0 0 1 0 rule 1",
    "poke slot 0 0 0 0 0 0 rule 0",
    "poke slot 0 0 0 0 0 0 rule 256",
    "poke slot 0 0 0 0 0 rule 0",
];

/// A line with something changed in it.
pub fn line(rng: &mut Rng, line: &str) -> Vec<u8> {
    let mut words: Vec<String> = line.split(' ').map(String::from).collect();
    let at = rng.below(words.len());
    match rng.below(12) {
        0 | 1 => words[at] = rng.pick(&NUMBERS).to_string(),
        2 => {
            words.remove(at);
        }
        3 => {
            let more = if rng.chance(50) {
                rng.pick(&NUMBERS)
            } else {
                rng.pick(&["note", "room", "at", "heat", "rule", "loss", "shake", "AB", "x", "#"])
            };
            words.insert(at + rng.below(2), more.to_string());
        }
        4 => words[at] = format!("{}{}", rng.pick(&["0", "00", "-", "+", "-0", "x", "#"]), words[at]),
        5 => words[at] = if rng.chance(50) { words[at].to_uppercase() } else { words[at].to_lowercase() },
        6 => {
            let other = rng.below(words.len());
            words.swap(at, other);
        }
        7 => return rng.pick(&ODD).chars().map(|c| c as u32 as u8).collect(),
        8 => return blanks(rng, &words),
        9 => return long(rng, line),
        _ => return changed(rng, line),
    }
    words.join(" ").into_bytes()
}

/// Other blanks between the words, and some around them.
fn blanks(rng: &mut Rng, words: &[String]) -> Vec<u8> {
    let mut out = Vec::new();
    for word in words {
        out.extend(rng.pick(&["", " ", "\t", "\r", "  "]).bytes());
        out.extend(word.bytes());
        out.extend(rng.pick(&[" ", " ", "\t", "\r"]).bytes());
    }
    out
}

/// Near the longest line: blanks before or behind, or zeros before the last number.
fn long(rng: &mut Rng, line: &str) -> Vec<u8> {
    let length = rng.pick(&[511, 512, 512, 513, 514, 600, 1025, 5000]);
    let more = length - line.len().min(length);
    let last = line.rfind(' ').map_or(0, |i| i + 1);
    let out = match rng.below(4) {
        0 => " ".repeat(more) + line,
        1 => line.to_string() + &" ".repeat(more),
        2 => format!("{}{}", "#".repeat(more), line),
        _ => line[..last].to_string() + &"0".repeat(more) + &line[last..],
    };
    out.into_bytes()
}

/// One byte is another, or gone, or more; never the end of a line.
fn changed(rng: &mut Rng, line: &str) -> Vec<u8> {
    let mut out = line.as_bytes().to_vec();
    if out.is_empty() {
        return out;
    }
    let at = rng.below(out.len());
    let byte = rng.pick(&[0, 1, 8, 9, 11, 13, 27, 31, 32, 33, b'#', b'-', b'0', b'9', b'a', b'F', b'g', 126, 127, 128, 255]);
    match rng.below(4) {
        0 => out.truncate(at),
        1 => {
            out.remove(at);
        }
        2 => out.insert(at, byte),
        _ => out[at] = byte,
    }
    out
}
