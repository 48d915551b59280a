//! Logs with the text that the rules (docs/RULES.md) ask for: their examples, and every refusal number that a log can reach.
//! 11 takes 1,000,000 reports (see `long`). A log can't reach 12 (such a payload is refused 10), 19, 20 (the writer's), 24, 25.

use crate::logs::*;

pub struct Case {
    pub name: String,
    pub log: Vec<u8>,
    pub text: String,
}

fn case(all: &mut Vec<Case>, name: &str, items: &[Item], text: &str) {
    all.push(Case { name: name.to_string(), log: bytes(items), text: text.to_string() });
}

/// A window of size 3, and then these items.
fn after_window(items: &[Item]) -> Vec<Item> {
    let mut out = vec![window(3)];
    out.extend_from_slice(items);
    out
}

fn reports(values: &[(u32, u32)]) -> Vec<Item> {
    values.iter().flat_map(|&(loss, shake)| report(5, loss, shake)).collect()
}

/// A window of size n, one question in slot 0, these reports, and the list.
fn asked_first(n: usize, k: u8, weights: (i32, i32), values: &[(u32, u32)]) -> Vec<Item> {
    let mut out = vec![window(n), set(0, k, weights.0, weights.1)];
    out.extend(reports(values));
    out.push(show(0));
    out
}

/// A window of size 3, these reports, then the question.
fn asked_last(k: u8, weights: (i32, i32), values: &[(u32, u32)]) -> Vec<Item> {
    let mut out = after_window(&reports(values));
    out.push(set(0, k, weights.0, weights.1));
    out
}

pub fn all() -> Vec<Case> {
    let mut out = Vec::new();
    examples(&mut out);
    frame_refusals(&mut out);
    payload_refusals(&mut out);
    call_refusals(&mut out);
    item_refusals(&mut out);
    times(&mut out);
    other_frames_with_times(&mut out);
    heats(&mut out);
    heat_in_payloads(&mut out);
    heat_weights(&mut out);
    ties(&mut out);
    full_lists(&mut out);
    tie_rules(&mut out);
    out
}

fn examples(all: &mut Vec<Case>) {
    let (x, y) = (report(5, 100, 200), report(9, 300, 100));
    let mixed = [&x[0], &y[0], &x[1], &y[1], &x[2], &y[2], &y[3], &x[3]];
    let mut session = vec![window(3), set(0, 2, 1, 2)];
    session.extend(mixed.iter().map(|f| (*f).clone()));
    session.extend([show(0), show(3)]);
    case(all, "whole session", &session, "S 2 0 256\nQ 0 2 2:500 1:500\nR 12 17\n");
    case(all, "empty log", &[], "");
    case(all, "P1, the frames as they are printed", &printed_frames(), "S 2 0 256\nQ 0 1 1:500\n");
    case(all, "P5", &asked_last(1, (1, 2), &[(3840, 3840)]), "S 6 0 4\n");
    case(all, "P6", &asked_last(1, (-1, 0), &[(255, 7)]), "S 6 0 16\n");
    case(all, "P7", &asked_last(1, (-1, 0), &[(256, 7)]), "S 6 0 32\n");
    case(all, "P8", &asked_last(1, (0, 0), &[(256, 7), (4095, 4095)]), "S 10 0 256\n");
    let p9 = asked_first(2, 1, (1, 1), &[(10, 10), (5, 5), (1, 1)]);
    case(all, "P9", &p9, "S 2 0 256\nS 14 0 256\nQ 0 1 2:10\n");
    let p10 = asked_first(2, 1, (1, 1), &[(1, 1), (5, 5), (1, 2)]);
    case(all, "P10", &p10, "S 2 0 256\nQ 0 1 2:10\n");
    let p11 = asked_first(2, 1, (1, 1), &[(9, 9), (1, 1), (9, 9)]);
    case(all, "P11", &p11, "S 2 0 256\nQ 0 1 3:18\n");
    let negative = asked_first(4, 16, (-1000, 1000), &[(4095, 0), (0, 4095), (7, 7)]);
    case(all, "scores at the edges", &negative, "S 2 0 256\nQ 0 3 2:4095000 3:0 1:-4095000\n");
}

/// P1's frames from their hexadecimal digits, and the list they make.
fn printed_frames() -> Vec<Item> {
    let (announced, data) = (0x1CEC_FF05, 0x1CEB_FF05);
    vec![
        window(1),
        set(0, 1, 1, 2),
        frame(announced, &[0x20, 0x11, 0x00, 0x03, 0xFF, 0x14, 0xFF, 0x00]),
        frame(data, &[0x01, 0x01, 0x02, 0x00, 0x64, 0x00, 0x02, 0x02]),
        frame(data, &[0x02, 0x00, 0xC8, 0x00, 0x03, 0x04, 0x00, 0x07]),
        frame(data, &[0x03, 0x00, 0x00, 0x00, 0xFF, 0xFF, 0xFF, 0xFF]),
        show(0),
    ]
}

/// A report of sender 5 of which one frame is another.
fn with_frame(at: usize, other: Item) -> Vec<Item> {
    let mut frames = report(5, 1, 2);
    frames[at] = other;
    after_window(&frames)
}

fn frame_refusals(all: &mut Vec<Case>) {
    let good = report(5, 1, 2);
    let data = good[1][7..].to_vec();
    case(all, "1: identifier 2^29", &with_frame(1, frame(1 << 29 | identifier(7, 235, 5), &data)), "R 3 1\nR 4 9\nR 5 8\n");
    for bit in [24, 25].iter() {
        let other = frame(1 << bit | identifier(7, 235, 5), &data);
        case(all, &format!("2: bit {} set", bit), &with_frame(1, other), "R 3 2\nR 4 9\nR 5 8\n");
    }
    for format in [234, 237, 0, 255].iter() {
        let other = frame(identifier(7, *format, 5), &data);
        case(all, &format!("2: format {}", format), &with_frame(1, other), "R 3 2\nR 4 9\nR 5 8\n");
    }
    let other = frame(identifier(7, 235, 5) - 256, &data);
    case(all, "2: destination 254", &with_frame(1, other), "R 3 2\nR 4 9\nR 5 8\n");
    case(
        all,
        "3: senders 253, 254, 255",
        &after_window(&[packet(253, 1, &[]), packet(254, 1, &[]), packet(255, 1, &[])]),
        "R 2 8\nR 3 3\nR 4 3\n",
    );
    case(all, "1 before 2 before 3", &after_window(&[frame(1 << 29 | 254, &data), frame(255, &data)]), "R 2 1\nR 3 2\n");
    let mut four = good.clone();
    four.insert(2, frame(identifier(0, 236, 5), &[33, 0, 0, 0, 0, 0, 0, 0]));
    four.push(packet(5, 1, &[]));
    case(all, "4 keeps the session", &after_window(&four), "R 4 4\nR 7 8\n");
    announcement_refusals(all);
    case(all, "8: packet with no announcement", &after_window(&good[1..]), "R 2 8\nR 3 8\nR 4 8\n");
    let twice = [good[0].clone(), good[1].clone(), good[1].clone(), good[2].clone()];
    case(all, "9: P4, sequence 1 twice", &after_window(&twice), "R 4 9\nR 5 8\n");
    let again: Vec<Item> = good[..3].iter().chain(&good).cloned().collect();
    case(all, "announced again, the report starts anew", &after_window(&again), "");
}

/// Refusals 5 to 7, each in an open session, which it closes.
fn announcement_refusals(all: &mut Vec<Case>) {
    let good = report(5, 1, 2);
    let mut refused = |name: &str, other: Item, code: u32| {
        let items = [good[0].clone(), other, good[1].clone()];
        case(all, name, &after_window(&items), &format!("R 3 {}\nR 4 8\n", code));
    };
    refused("5: P2, size 17, count 2", announcement(5, 17, 2, 65300), 5);
    refused("5: size 8", announcement(5, 8, 2, 65300), 5);
    refused("5: size 1786", announcement(5, 1786, 0, 65300), 5);
    refused("7: size 1785", announcement(5, 1785, 255, 65300), 7);
    refused("6: group 65301", announcement(5, 17, 3, 65301), 6);
    refused("6: group with a bit in its third byte", announcement(5, 17, 3, 65300 + 65536), 6);
    refused("5 before 6", announcement(5, 17, 2, 65301), 5);
    refused("6 before 7", announcement(5, 18, 3, 65301), 6);
    refused("7: P3, size 18, count 3", announcement(5, 18, 3, 65300), 7);
    refused("7: size 9", announcement(5, 9, 2, 65300), 7);
    refused("7: size 16", announcement(5, 16, 3, 65300), 7);
    refused("7: size 19", announcement(5, 19, 3, 65300), 7);
    refused("7: size 90, count 13", announcement(5, 90, 13, 65300), 7);
    refused("7: size 91, count 13", announcement(5, 91, 13, 65300), 7);
    for (size, count) in [(17, 3), (20, 3), (22, 4), (24, 4), (84, 12), (85, 13), (89, 13)] {
        let opens = [announcement(5, size, count, 65300), packet(5, 2, &[])];
        case(all, &format!("size {}, count {} opens", size, count), &after_window(&opens), "R 3 9\n");
    }
}

fn payload_refusals(all: &mut Vec<Case>) {
    let mut sent = |name: &str, p: Vec<u8>, code: Option<u32>| {
        let mut items = vec![window(3), set(0, 1, 1, 0)];
        items.extend(carry(5, &p));
        let last = items.len();
        items.push(show(0));
        items.push(packet(5, 1, &[]));
        let text = match code {
            Some(c) => format!("R {} {}\nQ 0 0\nR {} 8\n", last, c, last + 2),
            None => format!("Q 0 1 1:{}\nR {} 8\n", u32::from(p[3]) + 256 * u32::from(p[4]), last + 2),
        };
        case(all, name, &items, &format!("S 2 0 256\n{}", text));
    };
    sent("loss and shake 4095", payload(4095, 4095, 0, None, None), None);
    sent("10: loss 4096", payload(4096, 0, 0, None, None), Some(10));
    sent("10: shake 4096", payload(0, 4096, 0, None, None), Some(10));
    for length in 0..65 {
        sent(&format!("note of {} bytes", length), payload(9, 8, u32::MAX, None, Some(&vec![255; length])), None);
    }
    for at in [0, 1, 2, 5, 6, 7, 10, 11, 12, 17, 18, 19].iter() {
        let mut p = payload(9, 8, 7, None, Some(&[1, 2, 3]));
        p[*at] ^= 1;
        sent(&format!("10: byte {} of the payload changed", at), p, Some(10));
    }
    let mut long = payload(9, 8, 7, None, Some(&[1, 2, 3]));
    long.push(0);
    sent("10: a byte behind the note", long, Some(10));
}

fn call_refusals(all: &mut Vec<Case>) {
    let one = |i: Item| after_window(&[i]);
    case(all, "13: set slot 32", &one(set(32, 0, 1001, 0)), "R 2 13\n");
    case(all, "13: remove slot 32", &one(remove(32)), "R 2 13\n");
    case(all, "13: show slot 255", &one(show(255)), "R 2 13\n");
    case(all, "14: k 0", &one(set(31, 0, 1001, 0)), "R 2 14\n");
    case(all, "14: k 17", &one(set(31, 17, 0, -1001)), "R 2 14\n");
    case(all, "15: a -1001", &one(set(31, 16, -1001, 0)), "R 2 15\n");
    case(all, "15: b 1001", &one(set(31, 16, 0, 1001)), "R 2 15\n");
    case(all, "15: a -32768", &one(set(31, 16, -32768, 0)), "R 2 15\n");
    case(all, "weights 1000 and -1000", &one(set(31, 16, 1000, -1000)), "S 2 31 256\n");
    let twice = after_window(&[set(4, 1, 1, 1), set(4, 1, 1, 1001), set(4, 2, 1, 1)]);
    case(all, "15 before 16", &twice, "S 2 4 256\nR 3 15\nR 4 16\n");
    case(all, "17: remove an empty slot", &one(remove(0)), "R 2 17\n");
    case(all, "17: show an empty slot", &one(show(31)), "R 2 17\n");
    let removed = after_window(&[set(4, 1, 1, 1), remove(4), show(4), set(4, 1, 1, 1)]);
    case(all, "a removed slot is free", &removed, "S 2 4 256\nR 4 17\nS 5 4 256\n");
    for n in [0, 1025, 65535].iter() {
        case(all, &format!("18: N {}", n), &[window(*n), show(0), window(1)], "R 1 18\nR 2 23\n");
    }
    for n in [1, 1024].iter() {
        case(all, &format!("N {}", n), &[window(*n), show(0)], "R 2 17\n");
    }
}

fn item_refusals(all: &mut Vec<Case>) {
    let kinds = [
        set(0, 1, 1, 1),
        set_heat(0, 1, 1, 1, 1),
        set_rule(0, 1, [1, 1, 1], 1),
        report(5, 1, 2)[0].clone(),
        at(7, &report(5, 1, 2)[0]),
        remove(0),
        show(0),
        item(99, &[1, 2, 3]),
        item(17, &[0; 7]),
        item(99, &[0; 400]),
    ];
    for whole in kinds.iter() {
        for n in 1..whole.len().min(20) {
            let name = format!("21: tag {}, {} of {} bytes", whole[0], n, whole.len());
            case(all, &name, &after_window(&[whole[..n].to_vec()]), "R 2 21\n");
            case(all, &(name + ", no window"), &[whole[..n].to_vec()], "R 1 21\n");
        }
    }
    for n in 1..5 {
        case(all, &format!("21: window, {} of 5 bytes", n), &[window(3)[..n].to_vec()], "R 1 21\n");
    }
    for tag in [0, 1, 4, 5, 15, 24, 255].iter() {
        case(all, &format!("22: tag {}", tag), &[item(*tag, &[3, 0]), window(3)], "R 1 22\n");
    }
    for (tag, right) in [(16, 2), (17, 6), (18, 12), (19, 1), (20, 1), (21, 16), (22, 8), (23, 9)].iter() {
        for length in [0, 1, 2, 5, 6, 7, 8, 9, 10, 11, 12, 13, 15, 16, 17, 255, 256, 258, 4096, 65535].iter().filter(|l| *l != right) {
            let name = format!("22: tag {}, length {}", tag, length);
            case(all, &name, &[item(*tag, &vec![0; *length]), window(3), window(3)], "R 1 22\nR 3 23\n");
        }
    }
    let frame = report(5, 1, 2)[0].clone();
    let sets = [set(40, 1, 1, 1), set_heat(40, 1, 1, 1, 1), set_rule(40, 1, [1, 1, 1], 2)];
    for early in sets.iter().chain(&[frame.clone(), at(7, &frame), remove(40), show(40)]) {
        case(all, &format!("23: tag {} with no window", early[0]), &[early.clone(), window(1)], "R 1 23\n");
    }
    case(all, "23: a second window, of any N", &[window(1), window(1), window(0), window(1025)], "R 2 23\nR 3 23\nR 4 23\n");
    let mut early = report(5, 1, 2);
    early.insert(1, window(2));
    case(all, "23: an announcement with no window opens nothing", &early, "R 1 23\nR 3 8\nR 4 8\nR 5 8\n");
}

/// The frames of a report of sender 5, each with a time or without one.
fn sent(loss: u32, times: [Option<u32>; 4]) -> Vec<Item> {
    report(5, loss, 0).iter().zip(times).map(|(frame, time)| time.map_or(frame.clone(), |t| at(t, frame))).collect()
}

/// These items between a question, which is item 2, and its list.
fn listed(all: &mut Vec<Case>, name: &str, items: &[Item], text: &str) {
    let mut log = vec![window(3), set(0, 2, 1, 0)];
    log.extend_from_slice(items);
    log.push(show(0));
    case(all, name, &log, &format!("S 2 0 256\n{}", text));
}

const MOST: u32 = u32::MAX;

/// Times of one sender's frames (docs/RULES.md, section 15).
fn times(all: &mut Vec<Case>) {
    let mut run = |name: &str, times: [u32; 4], text: &str| listed(all, name, &sent(9, times.map(Some)), text);
    for (name, first) in [("0", 0), ("7", 7), ("2^32 - 1", MOST)] {
        run(&format!("times that stand still at {}", name), [first; 4], "Q 0 1 1:9\n");
    }
    run("749 ms apart", [1, 750, 1499, 2248], "Q 0 1 1:9\n");
    run("750 ms apart", [1, 751, 1501, 2251], "Q 0 1 1:9\n");
    run("750 ms apart up to 2^32 - 1", [MOST - 2250, MOST - 1500, MOST - 750, MOST], "Q 0 1 1:9\n");
    run("8: packet 1 after 751 ms, and the others then", [0, 751, 751, 0], "R 4 8\nR 5 8\nR 6 8\nQ 0 0\n");
    run("8: the last packet after 751 ms", [0, 0, 700, 1451], "R 6 8\nQ 0 0\n");
    run("8: from 0 to 2^32 - 1", [0, MOST, 0, 0], "R 4 8\nR 5 8\nR 6 8\nQ 0 0\n");
    run("26: 1 ms before, then packet 2 is out of order", [5, 4, 5, 5], "R 4 26\nR 5 9\nR 6 8\nQ 0 0\n");
    run("26: 0 after 2^32 - 1", [MOST, 0, 0, MOST], "R 4 26\nR 5 26\nR 6 9\nQ 0 0\n");
    let mut some = |name: &str, times: [Option<u32>; 4], text: &str| listed(all, name, &sent(9, times), text);
    some("no time yet: nothing is late", [None, Some(MOST), Some(MOST), None], "Q 0 1 1:9\n");
    some("no time yet: nothing is before it", [None, None, Some(0), Some(0)], "Q 0 1 1:9\n");
    some("tag 18 tests no time and sets none", [Some(0), None, Some(750), Some(1500)], "Q 0 1 1:9\n");
    some("8: tag 18 doesn't make the next one timely", [Some(0), None, Some(751), None], "R 5 8\nR 6 8\nQ 0 0\n");
}

/// Frames with times behind and between others.
fn other_frames_with_times(all: &mut Vec<Case>) {
    let good = report(5, 9, 0);
    let odd = frame(identifier(7, 236, 5), &[33, 0, 0, 0, 0, 0, 0, 0]);
    let whole = |time: u32| sent(9, [Some(time); 4]);
    let mut run = |name: &str, parts: &[&[Item]], text: &str| listed(all, name, &parts.concat(), text);
    run("26 changes nothing", &[&[at(5, &good[0]), at(4, &good[1])], &whole(5)[1..]], "R 4 26\nQ 0 1 1:9\n");
    run("a late announcement opens", &[&whole(0)[..2], &whole(751)], "Q 0 1 1:9\n");
    run("8 and not 9: a late packet out of order", &[&[at(0, &good[0]), at(751, &good[2])]], "R 4 8\nQ 0 0\n");
    run("9 sets no time", &[&[at(0, &good[0]), at(700, &good[2])], &whole(600)], "R 4 9\nQ 0 1 1:9\n");
    run("8 sets no time", &[&[at(0, &good[0]), at(751, &good[1])], &whole(0)], "R 4 8\nQ 0 1 1:9\n");
    let ten = [sent(4096, [Some(0), Some(0), Some(0), Some(700)]), whole(0)].concat();
    run("10 sets no time", &[&ten], "R 6 10\nQ 0 1 1:9\n");
    run("4 in time keeps the session", &[&[at(0, &good[0]), at(750, &odd)], &whole(750)[1..]], "R 4 4\nQ 0 1 1:9\n");
    run(
        "4 behind a closing leaves it closed",
        &[&[at(0, &good[0]), at(751, &odd), at(0, &good[1])], &good[1..2]],
        "R 4 4\nR 5 8\nR 6 8\nQ 0 0\n",
    );
    run("26 before 4 and 8", &[&[at(1, &good[0]), at(0, &odd), at(1, &good[2]), at(0, &good[1])]], "R 4 26\nR 5 9\nR 6 26\nQ 0 0\n");
    let foreign = [at(1, &good[0]), at(0, &frame(1 << 29 | 5, &[0; 8])), at(0, &frame(5, &[0; 8])), at(0, &packet(254, 1, &[]))];
    run("1, 2 and 3 before 26", &[&foreign], "R 4 1\nR 5 2\nR 6 3\nQ 0 0\n");
    let reports = [sent(9, [Some(0), Some(0), Some(0), Some(700)]), vec![at(699, &good[0])], whole(700)].concat();
    run("the last packet sets the time", &[&reports], "R 7 26\nQ 0 2 2:9 1:9\n");
    run("an announcement of tag 18 sets no time", &[&[at(0, &good[0])], &good[..1], &whole(751)[1..2]], "R 5 8\nQ 0 0\n");
    let other = report(9, 8, 0);
    let two = [at(MOST, &good[0]), at(0, &other[0]), at(MOST, &good[1]), at(750, &other[1]), at(750, &other[2]), at(1500, &other[3])];
    run("each sender has its own time", &[&two, &whole(MOST)[2..]], "Q 0 2 2:9 1:8\n");
}

/// Reports with a heat and without, and the questions for which they count (docs/RULES.md, section 17).
fn heats(all: &mut Vec<Case>) {
    let four = [heated(5, 100, 0, 3000), report(5, 4095, 0), heated(9, 200, 7, 2900), heated(9, 300, 0, 0)].concat();
    let mut asked = |name: &str, question: Item, text: &str| {
        let items = [vec![window(4)], four.clone(), vec![question, show(0)]].concat();
        case(all, name, &items, text);
    };
    // frames of 5, 4, 5 and 5 items behind the window: the question is item 21
    asked("c 0, tag 17: heat makes no difference", set(0, 4, 1, 0), "S 21 0 256\nQ 0 4 2:4095 4:300 3:200 1:100\n");
    asked("c 0, tag 22: the same", set_heat(0, 4, 1, 0, 0), "S 21 0 256\nQ 0 4 2:4095 4:300 3:200 1:100\n");
    asked("1, 0, 1: the one without heat doesn't count", set_heat(0, 4, 1, 0, 1), "S 21 0 256\nQ 0 3 3:3100 1:3100 4:300\n");
    // column x can reach 256 x + 255 + 4095: all 256 cells lie above 3100
    asked("1, 0, 1, the best alone: heat's better end is 4095", set_heat(0, 1, 1, 0, 1), "S 21 0 256\nQ 0 1 3:3100\n");
    // the best is 300 of report 4, and column x can reach 256 x + 255: columns 15 to 1 are taken
    asked("1, 0, -1: heat's better end is 0", set_heat(0, 1, 1, 0, -1), "S 21 0 240\nQ 0 1 4:300\n");
    asked("0, 0, -1", set_heat(0, 2, 0, 0, -1), "S 21 0 256\nQ 0 2 4:0 3:-2900\n");
    asked("0, 0, 1", set_heat(0, 2, 0, 0, 1), "S 21 0 256\nQ 0 2 1:3000 3:2900\n");
    let edges = [heated(5, 4095, 4095, 4095), heated(5, 0, 0, 4095), heated(5, 4095, 4095, 0)].concat();
    let far = |a: i32, b: i32, c: i32| [vec![window(3)], edges.clone(), vec![set_heat(0, 3, a, b, c), show(0)]].concat();
    case(all, "the greatest scores", &far(1000, 1000, 1000), "S 17 0 256\nQ 0 3 1:12285000 3:8190000 2:4095000\n");
    case(all, "the least scores", &far(-1000, -1000, -1000), "S 17 0 256\nQ 0 3 2:-4095000 3:-8190000 1:-12285000\n");
    // any other cell stays below the score in cell 255
    let best = [vec![window(3)], edges.clone(), vec![set_heat(0, 1, 1, 2, 3), set_heat(1, 1, 1, 2, -3)]].concat();
    case(all, "one cell alone reaches the best score", &best, "S 17 0 1\nS 18 1 1\n");
    leaving_heats(all);
}

/// Listed reports leave, and what is searched then has its heat still.
fn leaving_heats(all: &mut Vec<Case>) {
    let ask = |c: i32, values: &[Vec<Item>]| [vec![window(2), set_heat(0, 1, 1, 1, c)], values.concat(), vec![show(0)]].concat();
    // 5 frames each with a heat, 4 without: the third report's last frame is item 17
    let p9 = ask(1, &[heated(5, 10, 10, 5), heated(5, 5, 5, 3), heated(5, 1, 1, 1)]);
    case(all, "P9 with heats: the row kept them", &p9, "S 2 0 256\nS 17 0 256\nQ 0 1 2:13\n");
    let mixed = ask(1, &[heated(5, 10, 10, 5), report(5, 5, 5), heated(5, 1, 1, 1)]);
    case(all, "P9 with one that doesn't count", &mixed, "S 2 0 256\nS 16 0 256\nQ 0 1 3:3\n");
    let none = ask(-1, &[heated(5, 10, 10, 5), report(5, 5, 5), report(5, 1, 1)]);
    case(all, "the last one that counts leaves", &none, "S 2 0 256\nS 15 0 256\nQ 0 0\n");
    let plain = ask(0, &[heated(5, 10, 10, 5), report(5, 5, 5), heated(5, 1, 1, 4095)]);
    case(all, "P9 with c 0, whatever heats are held", &plain, "S 2 0 256\nS 16 0 256\nQ 0 1 2:10\n");
}

/// Payloads of the second edition, and of neither.
fn heat_in_payloads(all: &mut Vec<Case>) {
    let mut sent = |name: &str, p: Vec<u8>, text: &str| {
        let mut items = vec![window(3), set_heat(0, 1, 0, 0, 1), set(1, 1, 1, 0)];
        items.extend(carry(5, &p));
        let last = items.len();
        items.extend([show(0), show(1), packet(5, 1, &[])]);
        let text = if text.is_empty() { format!("R {} 10\nQ 0 0\nQ 1 0\n", last) } else { text.to_string() };
        case(all, name, &items, &format!("S 2 0 256\nS 3 1 256\n{}R {} 8\n", text, last + 3));
    };
    for heat in [0, 1, 255, 256, 4094, 4095] {
        sent(&format!("heat {}", heat), payload(9, 8, 7, Some(heat), None), &format!("Q 0 1 1:{}\nQ 1 1 1:9\n", heat));
    }
    for heat in [4096, 4097, 8191, 65535] {
        sent(&format!("10: heat {}", heat), payload(9, 8, 7, Some(heat), None), "");
    }
    for length in 0..65 {
        let p = payload(9, 8, 7, Some(11), Some(&vec![5; length]));
        sent(&format!("heat and a note of {} bytes, {} in all", length, p.len()), p, "Q 0 1 1:11\nQ 1 1 1:9\n");
    }
    sent("10: 65 bytes of note, without a heat: 85 in all", payload(9, 8, 7, None, Some(&[1; 65])), "");
    sent("size 22, a note of 2 bytes", payload(9, 8, 7, None, Some(&[1, 2])), "Q 0 0\nQ 1 1 1:9\n");
    sent("size 22, a heat", payload(9, 8, 7, Some(513), None), "Q 0 1 1:513\nQ 1 1 1:9\n");
    sent("a note that looks like a heat", payload(9, 8, 7, None, Some(&[5, 2, 0, 1, 0])), "Q 0 0\nQ 1 1 1:9\n");
    for (size, behind) in [(23, 4), (24, 4), (24, 0), (26, 0), (89, 0)] {
        let mut p = payload(9, 8, 7, Some(11), None);
        p.resize(size, behind);
        sent(&format!("10: size {} with tag 5, {}s behind the heat", size, behind), p, "");
    }
    for length in [1, 2, 3, 4] {
        let p = [payload(9, 8, 7, None, None), item(5, &vec![0; length])].concat();
        if length != 2 {
            sent(&format!("10: a heat of {} bytes", length), p, "");
        }
    }
    let note = item(4, &[1, 2, 3]);
    sent("10: the heat behind the note", [payload(9, 8, 7, None, Some(&[1, 2, 3])), item(5, &[1, 0])].concat(), "");
    sent("10: the heat twice", [payload(9, 8, 7, Some(1), None), item(5, &[1, 0])].concat(), "");
    sent("10: the note twice", [payload(9, 8, 7, Some(1), Some(&[])), note.clone()].concat(), "");
    let before = [item(1, &[9, 0]), item(2, &[8, 0]), item(5, &[1, 0]), item(3, &[7, 0, 0, 0])].concat();
    sent("10: the heat before the own number", before, "");
    for at in [17, 18, 19, 22, 23, 24] {
        let mut p = payload(9, 8, 7, Some(11), Some(&[1, 2, 3]));
        p[at] ^= 1;
        sent(&format!("10: byte {} of a payload with a heat changed", at), p, "");
    }
}

/// The weight for heat, and tag 22 in a log.
fn heat_weights(all: &mut Vec<Case>) {
    let one = |i: Item| after_window(&[i]);
    for c in [-32768, -1001, 1001, 32767] {
        case(all, &format!("15: c {}", c), &one(set_heat(31, 16, 0, 0, c)), "R 2 15\n");
    }
    for c in [-1000, -1, 0, 1, 1000] {
        case(all, &format!("c {}", c), &one(set_heat(31, 16, 0, 0, c)), "S 2 31 256\n");
    }
    case(
        all,
        "13 and 14 before 15, tag 22",
        &after_window(&[set_heat(32, 0, 0, 0, 1001), set_heat(31, 17, 0, 0, 1001)]),
        "R 2 13\nR 3 14\n",
    );
    let twice = after_window(&[set(4, 1, 1, 1), set_heat(4, 1, 1, 1, 1001), set_heat(4, 2, 1, 1, 1), set_heat(5, 2, 1001, 0, 0)]);
    case(all, "15 before 16, tag 22", &twice, "S 2 4 256\nR 3 15\nR 4 16\nR 5 15\n");
    let removed = after_window(&[set_heat(4, 1, 0, 0, 1), remove(4), set(4, 1, 0, 0), report(5, 1, 2)[0].clone()]);
    let removed = [removed, report(5, 1, 2)[1..].to_vec(), vec![show(4)]].concat();
    case(all, "a slot keeps no weight for heat", &removed, "S 2 4 256\nS 4 4 256\nQ 4 1 1:0\n");
}

/// Equal scores under either rule (docs/RULES.md, section 18).
fn ties(all: &mut Vec<Case>) {
    // the rows of the table under first-come; the last frame of the third report is item 14
    let mut row = |name: &str, rule: u8, values: &[(u32, u32)], text: &str| {
        let items = [vec![window(2), set_rule(0, 1, [1, 1, 0], rule)], reports(values), vec![show(0)]].concat();
        case(all, name, &items, &format!("S 2 0 256\n{}", text));
    };
    let [p9, p10, p11] = [[(10, 10), (5, 5), (1, 1)], [(1, 1), (5, 5), (1, 2)], [(9, 9), (1, 1), (9, 9)]];
    // no scores are equal: all as it was. Report 2 is in cell 0, the last of the order
    row("P23: P9, first-come", 1, &p9, "S 14 0 256\nQ 0 1 2:10\n");
    row("P24: P10, first-come", 1, &p10, "Q 0 1 2:10\n");
    // the third has 18 like the first, and no place; then the first leaves
    row("P25: P11, first-come: the newest isn't taken, and is searched for", 1, &p11, "S 14 0 256\nQ 0 1 3:18\n");
    row("P11, newest by tag 23", 0, &p11, "Q 0 1 3:18\n");
    row("P28: three equals, the second takes the first one's place", 1, &[(5, 5); 3], "S 14 0 256\nQ 0 1 2:10\n");
    row("P28, newest", 0, &[(5, 5); 3], "Q 0 1 3:10\n");

    // Cell 255 can reach 8190, 239 (column 15, row 14) and 254 (column 14, row 15) 7934 both, no other more than 7678: 3 steps, for 254 comes
    // where the list has 7934 already
    let (in_239, in_254) = ((4095, 3839), (3839, 4095));
    let mut two = |name: &str, k: u8, rule: u8, values: &[(u32, u32)], text: &str| {
        let items = [vec![window(5)], reports(values), vec![set_rule(0, k, [1, 1, 0], rule), show(0)]].concat();
        case(all, name, &items, &format!("S {} 0 3\n{}\n", 4 * values.len() + 2, text));
    };
    two("two cells, the older in the first", 1, 1, &[in_239, in_254], "Q 0 1 1:7934");
    two("two cells, the older in the second", 1, 1, &[in_254, in_239], "Q 0 1 1:7934");
    two("two cells, the older in the second, newest", 1, 0, &[in_254, in_239], "Q 0 1 2:7934");
    two("P26", 1, 1, &[in_254, (3900, 4034)], "Q 0 1 1:7934");
    two("P26, newest", 1, 0, &[in_254, (3900, 4034)], "Q 0 1 2:7934");
    two("two cells, the newer in the second, newest", 1, 0, &[in_239, in_254], "Q 0 1 2:7934");
    let mixed = [in_254, in_239, in_239, in_254, in_239];
    two("two cells mixed, k 1", 1, 1, &mixed, "Q 0 1 1:7934");
    two("two cells mixed, k 2", 2, 1, &mixed, "Q 0 2 1:7934 2:7934");
    two("two cells mixed, k 4", 4, 1, &mixed, "Q 0 4 1:7934 2:7934 3:7934 4:7934");
    two("two cells mixed, k 4, newest", 4, 0, &mixed, "Q 0 4 5:7934 4:7934 3:7934 2:7934");
    let behind = [in_254, in_239, (4095, 4095), in_239];
    two("two cells and a greater score, k 2", 2, 1, &behind, "Q 0 2 3:8190 1:7934");
    two("two cells and a greater score, k 3", 3, 1, &behind, "Q 0 3 3:8190 1:7934 2:7934");
}

/// Full lists of equal scores, and one more of the same.
fn full_lists(all: &mut Vec<Case>) {
    // slot 0 is first-come, slot 1 newest; the last frame of report m is item 4m + 3
    let mut run = |name: &str, n: usize, k: u8, weights: [i32; 3], values: &[(u32, u32)], text: &str| {
        let asked = vec![window(n), set_rule(0, k, weights, 1), set_rule(1, k, weights, 0)];
        let items = [asked, reports(values), vec![show(0), show(1)]].concat();
        case(all, name, &items, &format!("S 2 0 256\nS 3 1 256\n{}", text));
    };
    let (none, same) = ([0, 0, 0], [(300, 500); 17]);
    run("a short list takes equals", 3, 3, none, &same[..2], "Q 0 2 1:0 2:0\nQ 1 2 2:0 1:0\n");
    run("P27: full, and one more of the same", 3, 2, [1, 1, 0], &[(2, 2), (1, 3), (3, 1)], "Q 0 2 1:4 2:4\nQ 1 2 3:4 2:4\n");
    run("full, and one more of the same, without weights", 3, 2, none, &same[..3], "Q 0 2 1:0 2:0\nQ 1 2 3:0 2:0\n");
    // report 1 leaves from slot 0's list alone
    run("and the oldest leaves", 3, 2, none, &same[..4], "S 19 0 256\nQ 0 2 2:0 3:0\nQ 1 2 4:0 3:0\n");
    run("and the next", 3, 2, none, &same[..5], "S 19 0 256\nS 23 0 256\nQ 0 2 3:0 4:0\nQ 1 2 5:0 4:0\n");
    // where all that are held are listed: under newest the entry pushes the one off that leaves, so that nothing is searched
    run("k as large as the window", 2, 2, none, &same[..3], "S 15 0 256\nQ 0 2 2:0 3:0\nQ 1 2 3:0 2:0\n");
    run("a window of one", 1, 1, none, &same[..2], "S 11 0 256\nQ 0 1 2:0\nQ 1 1 2:0\n");
    let sixteen = |first: i32, by: i32| (0..16).map(|i| format!(" {}:800", first + by * i)).collect::<String>();
    let text = format!("Q 0 16{}\nQ 1 16{}\n", sixteen(1, 1), sixteen(17, -1));
    run("sixteen and one more", 17, 16, [1, 1, 0], &same, &text);
    // cells of columns and rows that sum up to 3 or more come first, 250 of them, then 2, 17 and 32, which can reach 1022; 1 and 16 only 766
    let text = format!("S 71 0 253\nQ 0 16{}\nQ 1 16{}\n", sixteen(2, 1), sixteen(17, -1));
    run("sixteen, one more, and the oldest leaves", 16, 16, [1, 1, 0], &same, &text);
    // one that is greater has its place under both, and pushes another one off
    let above = [(1, 1), (1, 1), (1, 2), (1, 1)];
    run("a greater one among equals", 4, 2, [1, 1, 0], &above, "Q 0 2 3:3 1:2\nQ 1 2 3:3 4:2\n");
}

/// Tie rules that are taken and refused, and tag 23 in a log.
fn tie_rules(all: &mut Vec<Case>) {
    let one = |i: Item| after_window(&[i]);
    for rule in [2, 3, 128, 254, 255] {
        case(all, &format!("33: rule {}", rule), &one(set_rule(31, 16, [0; 3], rule)), "R 2 33\n");
    }
    for rule in [0, 1] {
        case(all, &format!("rule {}", rule), &one(set_rule(31, 16, [1000, -1000, 1], rule)), "S 2 31 256\n");
    }
    let over = |slot: u8, k: u8, weights: [i32; 3]| set_rule(slot, k, weights, 2);
    let early = [over(32, 0, [0; 3]), over(31, 17, [1001, 0, 0]), over(31, 16, [1001, 0, 0]), over(31, 16, [0, 0, -1001])];
    case(all, "13, 14 and 15 before 33", &after_window(&early), "R 2 13\nR 3 14\nR 4 15\nR 5 15\n");
    let used = after_window(&[set(4, 1, 1, 1), set_rule(4, 1, [1, 1, 0], 2), set_rule(4, 1, [1, 1, 0], 1)]);
    case(all, "33 before 16", &used, "S 2 4 256\nR 3 33\nR 4 16\n");
    let refused = after_window(&[set_rule(4, 1, [1, 1, 0], 2), show(4), set_rule(4, 1, [1, 1, 0], 1), show(4)]);
    case(all, "a slot refused 33 is free", &refused, "R 2 33\nR 3 17\nS 4 4 256\nQ 4 0\n");
    // two reports of 3 behind the window, each of 4 frames: the next item is 10
    let two = after_window(&reports(&[(1, 2), (2, 1)]));
    let again = [two.clone(), vec![set_rule(4, 2, [1, 1, 0], 1), show(4), remove(4), set(4, 2, 1, 1), show(4)]].concat();
    case(all, "a slot keeps no tie rule", &again, "S 10 4 256\nQ 4 2 1:3 2:3\nS 13 4 256\nQ 4 2 2:3 1:3\n");
    let tags = [set(0, 2, 1, 1), set_heat(1, 2, 1, 1, 0), set_rule(2, 2, [1, 1, 0], 0), set_rule(3, 2, [1, 1, 0], 1)];
    let shows: Vec<Item> = (0..4).map(show).collect();
    let tags = [two, tags.to_vec(), shows].concat();
    let lists = "Q 0 2 2:3 1:3\nQ 1 2 2:3 1:3\nQ 2 2 2:3 1:3\nQ 3 2 1:3 2:3\n";
    case(all, "tags 17, 22 and 23", &tags, &format!("S 10 0 256\nS 11 1 256\nS 12 2 256\nS 13 3 256\n{}", lists));
    // heats 7, none, 7, of 5, 4 and 5 frames: with c 1 the second doesn't count
    let three = [heated(5, 1, 1, 7), report(5, 8, 8), heated(5, 1, 1, 7)].concat();
    let heats = [after_window(&three), vec![set_rule(0, 2, [0, 0, 1], 1), set_rule(1, 2, [0, 0, 1], 0), show(0), show(1)]].concat();
    case(all, "a tie rule and a weight for heat", &heats, "S 16 0 256\nS 17 1 256\nQ 0 2 1:7 3:7\nQ 1 2 3:7 1:7\n");
}
