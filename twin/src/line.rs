//! A line with a clock (document 02, item 2): a session that is told the time at
//! each call, so that silence on the line is seen. What a call does to the session
//! is what the session's own call does; `tick` alone acts by the time.
//!
//! Times are milliseconds, 64 bits wide. When something is due is worked out in
//! 128 bits, so that no sum runs over.

use crate::reader;
use crate::session::{self, Answer, Done, Logon, Phase, Send, Session, EXHAUSTED, LAST};
use crate::wire::{refuse, Refusal, BAD_LENGTH, BAD_START, BAD_SUM, SHORT};
use std::ops::RangeInclusive;

pub const BAD_INTERVAL: u32 = 24;

/// The intervals that there are, in seconds.
pub const INTERVALS: RangeInclusive<u32> = 1..=60;

/// A second in milliseconds.
pub const SECOND: u64 = 1_000;

/// After how many intervals each is due: a Heartbeat without sending, the other
/// two without hearing.
pub const TO_HEARTBEAT: u64 = 1;
pub const TO_TEST_REQUEST: u64 = 2;
pub const TO_DOWN: u64 = 3;

/// What a tick does. The numbers are the C interface's.
#[derive(Clone, Copy, Debug, PartialEq, Eq)]
pub enum Act {
    None = 0,
    Down = 1,
    TestRequest = 2,
    Heartbeat = 3,
}

/// What a tick answers.
#[derive(Clone, Copy, Debug, PartialEq, Eq)]
pub struct Ticked {
    /// 0, or 22.
    pub refusal: u32,
    pub act: Act,
    pub send: Send,
}

/// The tick did nothing.
pub const NO_ACT: Ticked = Ticked {
    refusal: 0,
    act: Act::None,
    send: Send::None,
};

#[derive(Clone, Debug, PartialEq, Eq)]
pub struct Line {
    pub session: Session,
    /// In seconds.
    pub interval: u32,
    /// 1 once this silence has had its Test Request, else 0.
    pub tested: u32,
    /// The latest time given; 0 before the first.
    pub now: u64,
    /// When a message was last to be sent, or Live began.
    pub sent: u64,
    /// When a message was last heard, or Live began.
    pub heard: u64,
}

/// What a call did that the clock must know of.
#[derive(Clone, Copy, Debug, PartialEq, Eq)]
struct Noted {
    heard: bool,
    sent: bool,
}

/// The call was refused, or it was not one on bytes.
const NOT_NOTED: Noted = Noted {
    heard: false,
    sent: false,
};

/// Whether a step with this answer has heard: the checksum held, whatever the
/// message was. The answers that say otherwise are the reader's 1 to 4, and 20,
/// for which no bytes are looked at.
fn is_heard(code: u32) -> bool {
    !matches!(
        code,
        SHORT | BAD_START | BAD_LENGTH | BAD_SUM | session::DOWN
    )
}

/// Whether the checksum of any of the messages holds. They stand back to back and
/// have been stepped on, so each is whole.
fn any_sum_holds(mut messages: &[u8]) -> bool {
    while !messages.is_empty() {
        match reader::read(messages) {
            Err(refusal) if refusal.number == BAD_SUM => {
                messages = &messages[refusal.besides as usize..];
            }
            _ => return true,
        }
    }
    false
}

impl Line {
    /// A fresh day and an interval: 6 as for the session, then 24.
    pub fn fresh(comp_id: &[u8], interval: u32) -> Result<Line, Refusal> {
        Line::of_day(Session::fresh(comp_id)?, interval)
    }

    /// A saved day and an interval: 23 and 6 as for the session, then 24.
    pub fn saved(comp_id: &[u8], e: u32, o: u32, interval: u32) -> Result<Line, Refusal> {
        Line::of_day(Session::saved(comp_id, e, o)?, interval)
    }

    fn of_day(session: Session, interval: u32) -> Result<Line, Refusal> {
        if !INTERVALS.contains(&interval) {
            return Err(refuse(BAD_INTERVAL, 0));
        }
        Ok(Line {
            session,
            interval,
            tested: 0,
            now: 0,
            sent: 0,
            heard: 0,
        })
    }

    /// Whether a line from outside passes the check, given that its session does. One
    /// that does not is refused with 90 and comes back as it was.
    pub fn passes(&self) -> bool {
        let is_clear = self.tested == 0 && self.sent == 0 && self.heard == 0;
        INTERVALS.contains(&self.interval)
            && self.tested <= 1
            && self.sent <= self.now
            && self.heard <= self.now
            && (self.is_live() || is_clear)
    }

    /// Only Live is timed.
    pub fn is_live(&self) -> bool {
        self.session.phase == Phase::Live
    }

    /// Connect at a time. Its Logon is not timed: the session is Waiting then.
    pub fn connect(&mut self, now: u64, password: &[u8]) -> Result<Logon, Refusal> {
        self.at_time(now, |session| (session.connect(password), NOT_NOTED))
    }

    /// Drop at a time.
    #[allow(clippy::should_implement_trait)] // the paper's word
    pub fn drop(&mut self, now: u64) {
        self.at_time(now, |session| (session.drop(), NOT_NOTED))
    }

    /// One step at a time.
    pub fn step(&mut self, now: u64, bytes: &[u8]) -> Answer {
        self.at_time(now, |session| {
            let answer = session.step(bytes);
            let noted = Noted {
                heard: is_heard(answer.code),
                sent: answer.sends != [Send::None; 2],
            };
            (answer, noted)
        })
    }

    /// Many messages in one call, all of them at one time. A message that found no
    /// slot was not stepped on and is not heard; a refused call has done nothing.
    pub fn steps(&mut self, now: u64, bytes: &[u8], rows: &mut [u32], sends: &mut [u32]) -> Done {
        self.at_time(now, |session| {
            let done = session.steps(bytes, rows, sends);
            let noted = match done.refusal {
                0 => Noted {
                    heard: any_sum_holds(&bytes[..done.used]),
                    sent: done.sends > 0,
                },
                _ => NOT_NOTED,
            };
            (done, noted)
        })
    }

    /// A call of the session at a time, and what it leaves of the clock.
    fn at_time<T>(&mut self, now: u64, call: impl FnOnce(&mut Session) -> (T, Noted)) -> T {
        self.tell(now);
        let was_live = self.is_live();
        let (answer, noted) = call(&mut self.session);
        if !self.is_live() {
            self.clear();
        } else if !was_live {
            self.begin();
        } else {
            self.note(noted);
        }
        answer
    }

    /// A time earlier than the latest given counts as that latest.
    fn tell(&mut self, now: u64) {
        self.now = self.now.max(now);
    }

    /// What is not Live has no times.
    fn clear(&mut self) {
        self.tested = 0;
        self.sent = 0;
        self.heard = 0;
    }

    /// Both waits start when Live begins.
    fn begin(&mut self) {
        self.note(Noted {
            heard: true,
            sent: true,
        });
    }

    /// A line that was Live and is: hearing ends the silence, and any message to
    /// send ends the other wait.
    fn note(&mut self, noted: Noted) {
        if noted.heard {
            self.heard = self.now;
            self.tested = 0;
        }
        if noted.sent {
            self.sent = self.now;
        }
    }

    /// When so many intervals have passed since a time.
    fn after(&self, since: u64, intervals: u64) -> u128 {
        let wait = intervals * u64::from(self.interval) * SECOND;
        u128::from(since) + u128::from(wait)
    }

    /// Whether so many intervals have passed since a time: due once it is reached.
    fn has_passed(&self, since: u64, intervals: u64) -> bool {
        u128::from(self.now) >= self.after(since, intervals)
    }

    /// What is due: at most one of the three, in this order.
    fn due(&self) -> Act {
        if !self.is_live() {
            Act::None
        } else if self.has_passed(self.heard, TO_DOWN) {
            Act::Down
        } else if self.has_passed(self.heard, TO_TEST_REQUEST) && self.tested == 0 {
            Act::TestRequest
        } else if self.has_passed(self.sent, TO_HEARTBEAT) {
            Act::Heartbeat
        } else {
            Act::None
        }
    }

    /// The call that acts, by the time alone.
    pub fn tick(&mut self, now: u64) -> Ticked {
        self.tell(now);
        let act = self.due();
        match act {
            Act::None => NO_ACT,
            // As a dropped line: nothing is sent, E and O are kept.
            Act::Down => {
                self.fall();
                Ticked { act, ..NO_ACT }
            }
            Act::TestRequest | Act::Heartbeat if self.session.o == LAST => {
                self.fall();
                Ticked {
                    refusal: EXHAUSTED,
                    ..NO_ACT
                }
            }
            Act::TestRequest => {
                let number = self.numbered();
                self.tested = 1;
                let id = session::test_request_id(number);
                let send = Send::TestRequest { number, id };
                Ticked {
                    act,
                    send,
                    ..NO_ACT
                }
            }
            Act::Heartbeat => {
                let number = self.numbered();
                let send = Send::BareHeartbeat { number };
                Ticked {
                    act,
                    send,
                    ..NO_ACT
                }
            }
        }
    }

    fn fall(&mut self) {
        self.session.drop();
        self.clear();
    }

    /// Our next number, for a message that is sent now.
    fn numbered(&mut self) -> u32 {
        self.sent = self.now;
        self.session.take_number()
    }

    /// The earliest time, not before the latest given, at which a tick would act;
    /// None where the line is not Live, or that time is past 64 bits. 22 is an act
    /// too.
    pub fn next_tick(&self) -> Option<u64> {
        if !self.is_live() {
            return None;
        }
        let mut earliest = self.after(self.heard, TO_DOWN);
        if self.tested == 0 {
            earliest = earliest.min(self.after(self.heard, TO_TEST_REQUEST));
        }
        earliest = earliest.min(self.after(self.sent, TO_HEARTBEAT));
        u64::try_from(earliest.max(u128::from(self.now))).ok()
    }
}
