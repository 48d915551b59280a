//! A line for the desk, read (docs/DESK.md): what it asks for, or what is wrong with it.

use crate::joining::Sending;
use crate::rules::Range;

pub enum Order {
    Nothing,
    Wrong(String),
    /// A line of numbers, by its first word, or its first two where that is `poke`; a time that may be said comes last.
    Numbers(&'static str, Vec<i64>),
    /// The same where a weight for heat, ranges and a tie rule may be said.
    Ranged(&'static str, Vec<i64>, Said),
    /// The same where a report's heat may be said.
    Heated(&'static str, Vec<i64>, Option<u16>),
    /// Identifier, data, and the time where one is said.
    Frame(u32, Vec<u8>, Option<u32>),
    Payload(Vec<u8>),
    Write(Sending),
}

/// What is said of a question behind its numbers.
#[derive(Clone, Copy, Default)]
pub struct Said {
    pub heat: Option<i16>,
    pub loss: Option<Range>,
    pub shake: Option<Range>,
    pub rule: Option<u8>,
}

pub struct Form {
    pub name: &'static str,
    pub ranges: &'static [(i64, i64)],
    /// What stands in the page's table behind the name.
    pub rest: &'static str,
}

const fn form(name: &'static str, ranges: &'static [(i64, i64)], rest: &'static str) -> Form {
    Form { name, ranges, rest }
}

const BYTE: (i64, i64) = (0, 255);
const SHORT: (i64, i64) = (0, 65535);
const SIGNED: (i64, i64) = (-32768, 32767);
const LONG: (i64, i64) = (0, 4294967295);
const SLOT: (i64, i64) = (0, 31);
const SENDER: (i64, i64) = (0, 253);
const HEAT: (i64, i64) = (0, 4095);

/// The numbers that a row or a line has room for, each with any heat or none in 32 bits.
const NUMBER: (i64, i64) = (0, 1048319);

/// All lines, in the order of the page.
pub const FORMS: [Form; 22] = [
    form("window", &[SHORT], " N; N is 0 to 65535"),
    form(
        "set",
        &[BYTE, BYTE, SIGNED, SIGNED],
        " SLOT K A B [heat C] [loss LOW HIGH] [shake LOW HIGH] [rule R]; SLOT, K and R are 0 to 255, A, B and C -32768 to 32767, LOW and HIGH 0 to 65535",
    ),
    form("remove", &[BYTE], " SLOT; SLOT is 0 to 255"),
    form("read", &[BYTE], " SLOT; SLOT is 0 to 255"),
    form("enter", &[SHORT, SHORT], " LOSS SHAKE [heat H]; each is 0 to 65535"),
    form("begin", &[SLOT], " SLOT; SLOT is 0 to 31"),
    form("step", &[SLOT], " SLOT; SLOT is 0 to 31"),
    form("marks", &[SLOT], " SLOT; SLOT is 0 to 31"),
    form("steps", &[SLOT], " SLOT; SLOT is 0 to 31"),
    form("held", &[], ""),
    form("frame", &[], " ID DATA [at MS]; ID is 1 to 8 hexadecimal digits, DATA an even number of them, MS 0 to 4294967295"),
    form("session", &[SENDER], " SENDER; SENDER is 0 to 253"),
    form("payload", &[], " BYTES; BYTES is an even number of hexadecimal digits"),
    form(
        "write",
        &[BYTE, SHORT, SHORT, LONG],
        " SENDER LOSS SHAKE OWN [heat H] [note BYTES] [room N]; SENDER is 0 to 255, LOSS, SHAKE and H 0 to 65535, OWN and N 0 to 4294967295, BYTES an even number of hexadecimal digits",
    ),
    form("poke window", &[SHORT, LONG, SHORT], " SIZE ENTERED HELD; SIZE and HELD are 0 to 65535, ENTERED 0 to 4294967295"),
    form(
        "poke row",
        &[(0, 1023), NUMBER, SHORT, SHORT],
        " ROW NUMBER LOSS SHAKE [heat H]; ROW is 0 to 1023, NUMBER 0 to 1048319, LOSS and SHAKE 0 to 65535, H 0 to 4095",
    ),
    form(
        "poke slot",
        &[SLOT, BYTE, SIGNED, SIGNED, BYTE, SHORT],
        " SLOT K A B LEN NEXT [heat C] [loss LOW HIGH] [shake LOW HIGH] [rule R]; SLOT is 0 to 31, K, LEN and R 0 to 255, A, B and C -32768 to 32767, NEXT, LOW and HIGH 0 to 65535",
    ),
    form(
        "poke line",
        &[SLOT, (0, 15), NUMBER, (-2147483648, 2147483647)],
        " SLOT PLACE NUMBER SCORE [heat H]; SLOT is 0 to 31, PLACE 0 to 15, NUMBER 0 to 1048319, SCORE -2147483648 to 2147483647, H 0 to 4095",
    ),
    form(
        "poke session",
        &[SENDER, BYTE, BYTE, BYTE],
        " SENDER SIZE COUNT NEXT [at MS]; SENDER is 0 to 253, MS 0 to 4294967295, the others 0 to 255",
    ),
    form("poke byte", &[SENDER, (0, 88), BYTE], " SENDER PLACE VALUE; SENDER is 0 to 253, PLACE 0 to 88, VALUE 0 to 255"),
    form("poke untimed", &[SENDER, LONG], " SENDER MS; SENDER is 0 to 253, MS 0 to 4294967295"),
    form("help", &[], ""),
];

fn wrong(what: &str) -> Order {
    Order::Wrong(format!("wrong: {}", what))
}

/// The first words that there are, for someone who wrote another.
fn first_words() -> Order {
    let mut names: Vec<&str> = FORMS.iter().map(|f| f.name).filter(|n| !n.starts_with("poke ")).collect();
    names.insert(names.len() - 1, "poke");
    let (last, others) = (names[names.len() - 1], &names[..names.len() - 1]);
    wrong(&format!("expected {} or {}", others.join(", "), last))
}

/// What a line asks for.
pub fn read(line: &[u8]) -> Order {
    if line.len() > 512 {
        return wrong("the line is longer than 512 bytes");
    }
    let blank = |b: &u8| [32, 9, 13].contains(b);
    let words: Vec<&[u8]> = line.split(blank).filter(|w| !w.is_empty()).collect();
    if words.is_empty() || words[0][0] == b'#' {
        return Order::Nothing;
    }
    if !line.iter().all(|b| blank(b) || (33..=126).contains(b)) {
        return wrong("the line is no text");
    }
    let words: Vec<&str> = words.iter().map(|w| std::str::from_utf8(w).unwrap_or("")).collect();
    let named = if words[0] == "poke" { 2 } else { 1 };
    let name = words[..named.min(words.len())].join(" ");
    match FORMS.iter().find(|f| f.name == name) {
        Some(f) => read_as(f, &words[named..]).unwrap_or_else(|| wrong(&format!("expected {}{}", f.name, f.rest))),
        None if words[0] == "poke" => wrong("expected poke window, row, slot, line, session, byte or untimed"),
        None => first_words(),
    }
}

/// The words behind the name; none where they aren't as they should be.
fn read_as(form: &Form, words: &[&str]) -> Option<Order> {
    if form.name == "frame" {
        let id = words.first().filter(|w| w.len() <= 8 && digits(w, 16))?;
        let (data, rest) = match words.get(1) {
            Some(&w) if w != "at" => (bytes(w)?, &words[2..]),
            _ => (Vec::new(), &words[1..]),
        };
        return Some(Order::Frame(u32::from_str_radix(id, 16).ok()?, data, at(rest)?.map(|ms| ms as u32)));
    }
    if form.name == "payload" {
        let p = words.first().map_or(Some(Vec::new()), |w| bytes(w))?;
        return if words.len() > 1 { None } else { Some(Order::Payload(p)) };
    }
    let count = form.ranges.len();
    if words.len() < count {
        return None;
    }
    let numbers: Vec<i64> = words.iter().zip(form.ranges).map(|(w, r)| number(w, *r)).collect::<Option<_>>()?;
    if form.name == "write" {
        return write(&numbers, &words[count..]);
    }
    if form.name == "poke session" {
        let time = at(&words[count..])?;
        return Some(Order::Numbers(form.name, numbers.into_iter().chain(time).collect()));
    }
    if ["set", "poke slot"].contains(&form.name) {
        return Some(Order::Ranged(form.name, numbers, said(&words[count..])?));
    }
    if ["enter", "poke row", "poke line"].contains(&form.name) {
        let heat = heat(&words[count..], if form.name == "enter" { SHORT } else { HEAT })?;
        return Some(Order::Heated(form.name, numbers, heat));
    }
    if words.len() > count {
        return None;
    }
    Some(Order::Numbers(form.name, numbers))
}

/// `at MS`, or no word at all.
fn at(words: &[&str]) -> Option<Option<i64>> {
    match words {
        [] => Some(None),
        ["at", ms] => Some(Some(number(ms, LONG)?)),
        _ => None,
    }
}

/// `heat H`, or no word at all.
fn heat(words: &[&str], range: (i64, i64)) -> Option<Option<u16>> {
    match words {
        [] => Some(None),
        ["heat", h] => Some(Some(number(h, range)? as u16)),
        _ => None,
    }
}

/// `heat C`, `loss LOW HIGH`, `shake LOW HIGH` and `rule R` in any order, each once.
fn said(mut words: &[&str]) -> Option<Said> {
    let mut out = Said::default();
    while let Some(&name) = words.first() {
        let end = |i: usize| number(words.get(i)?, SHORT).map(|n| n as u16);
        let twice = match name {
            "heat" => out.heat.replace(number(words.get(1)?, SIGNED)? as i16).is_some(),
            "loss" => out.loss.replace(Range { low: end(1)?, high: end(2)? }).is_some(),
            "shake" => out.shake.replace(Range { low: end(1)?, high: end(2)? }).is_some(),
            "rule" => out.rule.replace(number(words.get(1)?, BYTE)? as u8).is_some(),
            _ => return None,
        };
        if twice {
            return None;
        }
        words = &words[if ["heat", "rule"].contains(&name) { 2 } else { 3 }..];
    }
    Some(out)
}

/// `heat H`, `note BYTES` and `room N` in any order, each once.
fn write(numbers: &[i64], mut words: &[&str]) -> Option<Order> {
    let n = |i: usize| numbers[i] as u32;
    let mut out = Sending { sender: n(0), loss: n(1), shake: n(2), own: n(3), heat: None, note: None, room: None };
    while let Some(&word) = words.first() {
        words = &words[1..];
        match word {
            "note" if out.note.is_none() => {
                let none = words.is_empty() || ["heat", "room"].contains(&words[0]);
                out.note = Some(if none { Vec::new() } else { bytes(words[0])? });
                words = if none { words } else { &words[1..] };
            }
            "heat" if out.heat.is_none() => {
                out.heat = Some(number(words.first()?, SHORT)? as u32);
                words = &words[1..];
            }
            "room" if out.room.is_none() => {
                out.room = Some(number(words.first()?, LONG)? as u64);
                words = &words[1..];
            }
            _ => return None,
        }
    }
    Some(Order::Write(out))
}

fn digits(word: &str, base: u32) -> bool {
    !word.is_empty() && word.chars().all(|c| c.is_digit(base))
}

/// A decimal number in its range; a minus only where the range has one.
fn number(word: &str, (least, most): (i64, i64)) -> Option<i64> {
    let below = word.starts_with('-') && least < 0;
    let word = if below { &word[1..] } else { word };
    if !digits(word, 10) {
        return None;
    }
    let short = word.trim_start_matches('0');
    let n = if short.is_empty() { 0 } else { short.parse::<i64>().ok()? };
    Some(if below { -n } else { n }).filter(|n| (least..=most).contains(n))
}

fn bytes(word: &str) -> Option<Vec<u8>> {
    if word.len() % 2 != 0 || !digits(word, 16) {
        return None;
    }
    (0..word.len() / 2).map(|i| u8::from_str_radix(&word[2 * i..2 * i + 2], 16).ok()).collect()
}
