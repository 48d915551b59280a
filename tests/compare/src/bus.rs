//! A frame on the bus, with a time or without one (docs/RULES.md, sections 2 and 15): its sender's session takes it, or it is refused before.

use crate::joining::{Heard, Session};
use crate::wrong::Wrong;

/// A sender's last kept time as it is stored; where there is none, a number that isn't 0 is unfit.
#[derive(Clone, Copy, PartialEq)]
pub struct Last {
    pub known: bool,
    pub at: u32,
}

/// All senders, each with its session and its last kept time.
#[derive(Clone)]
pub struct Bus {
    pub sessions: Vec<Session>,
    pub lasts: Vec<Last>,
    /// The time that was told last, whoever sent the frame: for rules got wrong.
    told: Option<u32>,
}

/// So many milliseconds after the last kept frame a frame is still in time.
const IN_TIME: u32 = 750;

impl Last {
    pub const NONE: Last = Last { known: false, at: 0 };

    fn fit(&self, wrong: Wrong) -> bool {
        self.known || self.at == 0 || wrong == Wrong::UnfitTimeNotChecked
    }

    /// The milliseconds from the last kept time to this one, below 0 where it is before; none where there is no last time.
    fn passed(&self, time: u32, wrong: Wrong) -> Option<i64> {
        let passed = i64::from(time) - i64::from(self.at);
        match wrong {
            Wrong::NoTimeIsZero => Some(passed),
            Wrong::TimesWrapAround => Some(i64::from(time.wrapping_sub(self.at) as i32)).filter(|_| self.known),
            _ => Some(passed).filter(|_| self.known),
        }
    }

    fn before(&self, time: u32, wrong: Wrong) -> bool {
        self.passed(time, wrong).map_or(false, |ms| ms < 0)
    }

    fn late(&self, time: u32, wrong: Wrong) -> bool {
        let most = match wrong {
            Wrong::Late750 => IN_TIME - 1,
            Wrong::InTime751 => IN_TIME + 1,
            _ => IN_TIME,
        };
        self.passed(time, wrong).map_or(false, |ms| ms > most.into())
    }
}

impl Bus {
    pub fn fresh() -> Bus {
        Bus { sessions: vec![Session::fresh(); 256], lasts: vec![Last::NONE; 256], told: None }
    }

    /// A frame without a time or with one, in milliseconds.
    pub fn hear(&mut self, time: Option<u32>, identifier: u32, data: &[u8], wrong: Wrong) -> Heard {
        let (format, destination, sender) = (identifier >> 16 & 255, identifier >> 8 & 255, identifier as usize & 255);
        if wrong == Wrong::TwentySixFirst && time.map_or(false, |t| self.lasts[sender].before(t, wrong)) {
            return Heard::Refused(26);
        }
        if identifier >= 1 << 29 || data.len() != 8 {
            return Heard::Refused(1);
        }
        if wrong == Wrong::TwentyFourFirst && sender < 254 && !self.sessions[sender].fit(wrong) {
            return Heard::Refused(24);
        }
        if identifier >> 24 & 3 != 0 || format != 235 && format != 236 || destination != 255 {
            return Heard::Refused(2);
        }
        if sender > 253 {
            return Heard::Refused(3);
        }
        let heard = match time {
            Some(t) => self.timed(t, sender, format == 236, data, wrong),
            None => self.untimed(sender, format == 236, data, wrong),
        };
        self.told = time.or(self.told);
        heard
    }

    /// The session takes the frame; times are neither tested nor set.
    fn untimed(&mut self, sender: usize, announces: bool, data: &[u8], wrong: Wrong) -> Heard {
        if wrong == Wrong::UnfitTimeStopsUntimed && !self.lasts[sender].fit(wrong) {
            return Heard::Refused(24);
        }
        if wrong == Wrong::UntimedTestsTheTime && self.told.map_or(false, |t| self.lasts[sender].late(t, wrong)) {
            self.sessions[sender].close();
        }
        let heard = self.take(sender, announces, data, wrong);
        match (wrong, self.told) {
            _ if matches!(heard, Heard::Refused(_)) => {}
            (Wrong::UntimedSetsTheTime, Some(at)) => self.lasts[sender] = Last { known: true, at },
            (Wrong::UntimedForgetsTheTime, _) => self.lasts[sender] = Last::NONE,
            _ => {}
        }
        heard
    }

    /// 24, 26, the closing of a session that waited too long, and then as without a time; a kept frame sets the time.
    fn timed(&mut self, time: u32, sender: usize, announces: bool, data: &[u8], wrong: Wrong) -> Heard {
        let clock = if wrong == Wrong::OneTimeForAll { 0 } else { sender };
        let (last, session) = (self.lasts[clock], self.sessions[sender]);
        let (before, late) = (last.before(time, wrong), last.late(time, wrong));
        let skips = wrong == Wrong::TwentySixBeforeTwentyFour && before || wrong == Wrong::ClosingBeforeTwentyFour && late;
        if !(session.fit(wrong) && last.fit(wrong) || skips) {
            return Heard::Refused(24);
        }
        if before {
            return self.back(time, sender, announces, data, wrong);
        }
        if late {
            self.sessions[sender].close();
            if wrong == Wrong::LateClearsTheBytes {
                self.sessions[sender] = Session::fresh();
            }
        }
        let heard = self.take(sender, announces, data, wrong);
        let sets = match heard {
            Heard::Refused(_) => wrong == Wrong::RefusedSetsTheTime,
            Heard::Kept => !(wrong == Wrong::AnnouncementLeavesTheTime && announces),
            Heard::Report(_) => wrong != Wrong::ReportLeavesTheTime,
        };
        if sets {
            self.lasts[clock] = Last { known: true, at: time };
        }
        if late && wrong == Wrong::RefusalUndoesTheClosing && matches!(heard, Heard::Refused(_)) {
            self.sessions[sender] = session;
        }
        heard
    }

    /// A frame before its sender's last kept one: 26, and nothing changed.
    fn back(&mut self, time: u32, sender: usize, announces: bool, data: &[u8], wrong: Wrong) -> Heard {
        match wrong {
            Wrong::TwentySixCloses => self.sessions[sender].close(),
            Wrong::TwentySixSetsTheTime => self.lasts[sender].at = time,
            Wrong::TwentySixLast => {
                let mut tried = self.sessions[sender];
                if let Heard::Refused(code) = tried.take(announces, data, wrong) {
                    self.sessions[sender] = tried;
                    return Heard::Refused(code);
                }
            }
            _ => {}
        }
        Heard::Refused(26)
    }

    fn take(&mut self, sender: usize, announces: bool, data: &[u8], wrong: Wrong) -> Heard {
        let whose = if wrong == Wrong::OneBuffer { 0 } else { sender };
        self.sessions[whose].take(announces, data, wrong)
    }
}
