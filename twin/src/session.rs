//! The client session (document 01, "The session"). The numbers in the
//! comments are the rules' numbers there.

use crate::reader::{self, Head, Value};
use crate::tables::{self, types};
use crate::wire::{
    is_comp_id, number, refuse, Allowed, Refusal, BAD_HEADER, BAD_LENGTH, BAD_START, BAD_SUM,
    NO_ROOM, SHORT,
};
use crate::writer;
use std::ops::RangeInclusive;

/// The last number there is; nothing is sent or taken under it.
pub const LAST: u32 = 4_294_967_295;

pub const DOWN: u32 = 20;
pub const NOT_DOWN: u32 = 21;
pub const EXHAUSTED: u32 = 22;
pub const SAVED_ZERO: u32 = 23;
pub const LOWER_NUMBER: u32 = 30;
pub const OTHER_COMP_ID: u32 = 31;
pub const WRONG_TYPE: u32 = 32;
pub const BAD_NEW: u32 = 33;
pub const BAD_RESEND: u32 = 34;
pub const BAD_NEXT_EXPECTED: u32 = 35;
pub const LAST_TAKEN: u32 = 36;
pub const REPEATS_SPENT: u32 = 37;
/// The C interface's own: a message to send that no call gives.
pub const NOT_A_SEND: u32 = 91;

/// How often we ask again from the same E while M stands (document 02, item 3).
/// The next message that would make us ask once more stops the session.
pub const MOST_REPEATS: u32 = 2;

/// The least O of a session that has asked for what is missing: its Logon and its
/// request took 1 and 2.
pub const ASKED_ONCE: u32 = 3;

#[derive(Clone, Copy, Debug, PartialEq, Eq)]
pub enum Phase {
    Down,
    Waiting,
    Live,
}

/// A message to send, as a value.
#[derive(Clone, Copy, Debug, PartialEq, Eq)]
pub enum Send {
    None,
    Heartbeat {
        number: u32,
        id: u16,
    },
    Logout {
        number: u32,
    },
    GapFill {
        first: u32,
        new: u32,
    },
    ResendRequest {
        number: u32,
        start: u32,
        end: u32,
    },
    /// A tick of a line gives these two, and no step (document 02, item 2).
    TestRequest {
        number: u32,
        id: u16,
    },
    BareHeartbeat {
        number: u32,
    },
}

impl Send {
    /// The message as bytes; none for no message.
    pub fn bytes(&self, comp_id: &[u8]) -> Result<Vec<u8>, Refusal> {
        match *self {
            Send::None => Ok(Vec::new()),
            Send::Heartbeat { number, id } => writer::heartbeat_for(number, comp_id, id),
            Send::Logout { number } => writer::logout(number, comp_id),
            Send::GapFill { first, new } => writer::gap_fill(first, comp_id, new),
            Send::ResendRequest { number, start, end } => {
                writer::resend_request(number, comp_id, start, end)
            }
            Send::TestRequest { number, id } => writer::test_request(number, comp_id, id),
            Send::BareHeartbeat { number } => writer::heartbeat(number, comp_id),
        }
    }
}

/// How many numbers a row takes in a list of rows, and a message to send in a
/// list of those.
pub const A_ROW: usize = 5;
pub const A_SEND: usize = 4;

/// Where in a row's numbers its sort, its last number and its message's place
/// stand.
pub const ROW_SORT: usize = 0;
pub const ROW_LAST: usize = 2;
pub const ROW_PLACE: usize = 3;

/// No step gives more rows, nor more messages to send. Lists with fewer slots
/// are refused, since a step might never find place in them.
pub const ROWS_A_STEP: usize = 1;
pub const SENDS_A_STEP: usize = 2;

/// What lists and the C interface call the messages to send.
const NO_MESSAGE: u32 = 0;
const HEARTBEAT: u32 = 1;
const LOGOUT: u32 = 2;
const GAP_FILL: u32 = 3;
const RESEND_REQUEST: u32 = 4;
const TEST_REQUEST: u32 = 5;
const BARE_HEARTBEAT: u32 = 6;
/// The greatest of them.
pub const LAST_KIND: u32 = BARE_HEARTBEAT;

/// The numbers that our own messages take. A session that is up has sent a
/// Logon, and that took the first at least; the last is never used.
const OWN_NUMBERS: RangeInclusive<u32> = 2..=LAST - 1;

/// The E that a Resend Request asks from. A message lies ahead of it, so it is
/// not the last number.
const STARTS: RangeInclusive<u32> = 1..=LAST - 1;

/// The ID of our Test Request: the number that it bears, modulo 65,536.
pub fn test_request_id(number: u32) -> u16 {
    (number % 65_536) as u16
}

impl Send {
    /// The numbers of a list for the message: its kind, its own number and two
    /// values; None where there is no message, which takes no slot.
    pub fn numbers(&self) -> Option<[u32; A_SEND]> {
        match *self {
            Send::None => None,
            Send::Heartbeat { number, id } => Some([HEARTBEAT, number, u32::from(id), 0]),
            Send::Logout { number } => Some([LOGOUT, number, 0, 0]),
            Send::GapFill { first, new } => Some([GAP_FILL, first, new, 0]),
            Send::ResendRequest { number, start, end } => {
                Some([RESEND_REQUEST, number, start, end])
            }
            Send::TestRequest { number, id } => Some([TEST_REQUEST, number, u32::from(id), 0]),
            Send::BareHeartbeat { number } => Some([BARE_HEARTBEAT, number, 0, 0]),
        }
    }

    /// The message of these numbers; None where neither a step of any session nor a
    /// tick of any line gives them.
    pub fn of_numbers([kind, number, first, second]: [u32; A_SEND]) -> Option<Send> {
        // Only a Resend Request has a second value, and it always asks for all.
        if second != 0 {
            return None;
        }
        let is_own = OWN_NUMBERS.contains(&number);
        match kind {
            NO_MESSAGE if number == 0 && first == 0 => Some(Send::None),
            HEARTBEAT if is_own => {
                let id = u16::try_from(first).ok()?;
                Some(Send::Heartbeat { number, id })
            }
            LOGOUT if is_own && first == 0 => Some(Send::Logout { number }),
            // Every range that begins at 1 or later: O may be any number above it.
            GAP_FILL if number >= 1 && first > number => Some(Send::GapFill {
                first: number,
                new: first,
            }),
            RESEND_REQUEST if is_own && STARTS.contains(&first) => Some(Send::ResendRequest {
                number,
                start: first,
                end: 0,
            }),
            TEST_REQUEST if is_own => {
                let id = test_request_id(number);
                (first == u32::from(id)).then_some(Send::TestRequest { number, id })
            }
            BARE_HEARTBEAT if is_own && first == 0 => Some(Send::BareHeartbeat { number }),
            _ => None,
        }
    }
}

/// Connect's Logon, as a value.
#[derive(Clone, Debug, PartialEq, Eq)]
pub struct Logon {
    pub number: u32,
    pub password: Vec<u8>,
    pub next_expected: u32,
}

impl Logon {
    pub fn bytes(&self, comp_id: &[u8]) -> Result<Vec<u8>, Refusal> {
        writer::logon(self.number, comp_id, &self.password, self.next_expected)
    }
}

/// The numbers are what lists call the sorts.
#[derive(Clone, Copy, Debug, PartialEq, Eq)]
pub enum RowSort {
    None = 0,
    Business = 1,
    Session = 2,
    Filled = 3,
    Reset = 4,
}

/// An account row; the numbers are 0 where there is none.
#[derive(Clone, Copy, Debug, PartialEq, Eq)]
pub struct Row {
    pub sort: RowSort,
    pub first: u32,
    pub last: u32,
}

pub const NO_ROW: Row = Row {
    sort: RowSort::None,
    first: 0,
    last: 0,
};

impl Row {
    /// The numbers of a list for the row, whose message begins at a place of the
    /// caller's bytes and has so many; None where there is no row, which takes no
    /// slot.
    pub fn numbers(&self, place: u32, length: u32) -> Option<[u32; A_ROW]> {
        match self.sort {
            RowSort::None => None,
            sort => Some([sort as u32, self.first, self.last, place, length]),
        }
    }
}

/// What one step answers.
#[derive(Clone, Copy, Debug, PartialEq, Eq)]
pub struct Answer {
    /// 0, or the number of the refusal or of the Stop.
    pub code: u32,
    /// What the reader returned besides, where the code is the reader's: for 1 the
    /// bytes needed in all, for 4 the Length, for 7, 8 and 9 the position, for 10
    /// how many bytes are left over. Else 0.
    pub besides: u32,
    /// The messages to send, in order; a single one stands in the first slot.
    pub sends: [Send; 2],
    pub row: Row,
}

/// Nothing happened that anyone must hear of.
pub const NOTHING: Answer = Answer {
    code: 0,
    besides: 0,
    sends: [Send::None; 2],
    row: NO_ROW,
};

/// How many bytes a step used that answered this code: the Length of its
/// message. A Length that the step did not get to, or did not trust, is not told.
pub fn used(code: u32, bytes: &[u8]) -> usize {
    match code {
        SHORT | BAD_START | BAD_LENGTH | DOWN => 0,
        _ => number(&bytes[1..3]) as usize,
    }
}

/// Why a call with many messages ended. The numbers are the C interface's.
#[derive(Clone, Copy, Debug, PartialEq, Eq)]
pub enum Ended {
    /// No whole message was left.
    Short = 1,
    /// The last step left the session Down, or it was so before.
    Down = 2,
    /// The next step would find no free slot, so it was not done.
    NoSlot = 3,
}

/// What a call with many messages answers; the lists hold the rest.
#[derive(Clone, Copy, Debug, PartialEq, Eq)]
pub struct Done {
    /// 0, or 20 or 11: then nothing was done.
    pub refusal: u32,
    /// The bytes that the steps used.
    pub used: usize,
    /// The slots filled at the front of each list; for 11 those needed.
    pub rows: usize,
    pub sends: usize,
    pub ended: Ended,
    /// Ended Down: the last step's code, or 20. Else 0.
    pub code: u32,
    /// What the step that ended the call returned besides. Ended Short: the bytes
    /// that the message needs, from its first one on. Ended Down: what the reader
    /// returned besides the code. Else 0.
    pub besides: usize,
}

/// No step is done yet.
const NOT_BEGUN: Done = Done {
    refusal: 0,
    used: 0,
    rows: 0,
    sends: 0,
    ended: Ended::Short,
    code: 0,
    besides: 0,
};

/// Lays numbers into a list from a place on.
fn lay(list: &mut [u32], at: usize, numbers: &[u32]) {
    list[at..at + numbers.len()].copy_from_slice(numbers);
}

#[derive(Clone, Debug, PartialEq, Eq)]
pub struct Session {
    pub phase: Phase,
    /// Our Comp ID as its characters.
    pub comp_id: Vec<u8>,
    /// E, the number expected next.
    pub e: u32,
    /// O, our next number.
    pub o: u32,
    /// M, the number ahead that made us ask; 0 for none.
    pub m: u32,
    /// How often we have asked again from this E while M stands.
    pub repeats: u32,
}

/// The number at a position of a message that the reader took; None where the
/// position is clear.
fn asked(bytes: &[u8], position: u32) -> Option<u32> {
    match reader::ask_number(bytes, position) {
        Ok(Value::Number(value)) => Some(value as u32),
        _ => None,
    }
}

/// The number at a required position.
fn required(bytes: &[u8], position: u32) -> u32 {
    asked(bytes, position).expect("the reader took a message with this field")
}

impl Session {
    /// A fresh day: Down, E = O = 1, M = 0, nothing asked again. A bad Comp ID is
    /// 6.
    pub fn fresh(comp_id: &[u8]) -> Result<Session, Refusal> {
        Session::saved(comp_id, 1, 1)
    }

    /// Down, from saved E and O: 0 in either is 23, then a bad Comp ID is 6.
    pub fn saved(comp_id: &[u8], e: u32, o: u32) -> Result<Session, Refusal> {
        if e == 0 || o == 0 {
            return Err(refuse(SAVED_ZERO, 0));
        }
        if !is_comp_id(comp_id) {
            return Err(refuse(BAD_HEADER, 0));
        }
        Ok(Session {
            phase: Phase::Down,
            comp_id: comp_id.to_vec(),
            e,
            o,
            m: 0,
            repeats: 0,
        })
    }

    /// Connect: 21, 22, 9 (position 0) in this order, each changing nothing;
    /// else the Logon to send, and Waiting.
    pub fn connect(&mut self, password: &[u8]) -> Result<Logon, Refusal> {
        if self.phase != Phase::Down {
            return Err(refuse(NOT_DOWN, 0));
        }
        if self.o == LAST {
            return Err(refuse(EXHAUSTED, 0));
        }
        writer::check_text(password, tables::PASSWORD.width, Allowed::Ascii)?;
        let number = self.take_number();
        self.phase = Phase::Waiting;
        self.repeats = 0;
        Ok(Logon {
            number,
            password: password.to_vec(),
            next_expected: self.e,
        })
    }

    /// Connect's Logon as bytes, for the session that Connect left: it bears the
    /// number that Connect took and E, and neither moves while we wait. 91 if the
    /// session is not Waiting, 9 (position 0) for a password that the text writer
    /// does not take, 11; a refusal leaves `out` as it was.
    pub fn put_logon(&self, password: &[u8], out: &mut [u8]) -> Result<usize, Refusal> {
        if self.phase != Phase::Waiting {
            return Err(refuse(NOT_A_SEND, 0));
        }
        let bytes = writer::logon(self.o - 1, &self.comp_id, password, self.e)?;
        writer::put(&bytes, out)
    }

    /// A message to send as bytes under our Comp ID; none for no message. 91 for
    /// numbers that neither a step nor a tick gives, 11; a refusal leaves `out` as
    /// it was.
    pub fn put(&self, send: [u32; A_SEND], out: &mut [u8]) -> Result<usize, Refusal> {
        let send = Send::of_numbers(send).ok_or_else(|| refuse(NOT_A_SEND, 0))?;
        writer::put(&send.bytes(&self.comp_id)?, out)
    }

    /// Drop: Down, E and O kept. M is 0 whenever the state is Down.
    #[allow(clippy::should_implement_trait)] // the paper's word
    pub fn drop(&mut self) {
        self.phase = Phase::Down;
        self.forget_ahead();
    }

    /// One step over lent bytes.
    pub fn step(&mut self, bytes: &[u8]) -> Answer {
        // Down answers 20 before the bytes are looked at.
        if self.phase == Phase::Down {
            return Answer {
                code: DOWN,
                ..NOTHING
            };
        }
        let head = match reader::read(bytes) {
            Ok(head) => head,
            // 1 changes nothing; 4 drops the message and changes nothing.
            Err(refusal) if refusal.number == SHORT || refusal.number == BAD_SUM => {
                return Answer {
                    code: refusal.number,
                    besides: refusal.besides,
                    ..NOTHING
                };
            }
            Err(refusal) => {
                return Answer {
                    besides: refusal.besides,
                    ..self.stop(refusal.number)
                };
            }
        };
        // 1.
        if reader::comp_id(bytes) != self.comp_id {
            return self.stop(OTHER_COMP_ID);
        }
        if self.phase == Phase::Waiting {
            self.waiting(&head, bytes)
        } else {
            self.live(&head, bytes)
        }
    }

    /// One step on each of the messages that stand back to back, in turn. It ends
    /// at the first Short, at the step that leaves the session Down, or before a
    /// step that finds no free slot for what it gives. Each row is laid into
    /// `rows` with the place of its message, each message to send into `sends`;
    /// only what was laid changes there. Down is 20, then lists without room for
    /// what one step may give are 11, each changing nothing.
    pub fn steps(&mut self, bytes: &[u8], rows: &mut [u32], sends: &mut [u32]) -> Done {
        if let Some(refused) = self.refuses(rows.len(), sends.len()) {
            return refused;
        }
        let mut done = NOT_BEGUN;
        loop {
            let rest = &bytes[done.used..];
            // The step is tried on a copy, which is kept if all finds place.
            let mut next = self.clone();
            let answer = next.step(rest);
            if answer.code == SHORT {
                return Done {
                    ended: Ended::Short,
                    besides: answer.besides as usize,
                    ..done
                };
            }
            let no_slot = Done {
                ended: Ended::NoSlot,
                ..done
            };
            // A list's numbers have 32 bits: a place beyond them finds no slot.
            let place = match u32::try_from(done.used) {
                Ok(place) => place,
                Err(_) => return no_slot,
            };
            let length = used(answer.code, rest);
            let new_row = answer.row.numbers(place, length as u32);
            let new_rows: Vec<_> = new_row.into_iter().collect();
            let new_sends: Vec<_> = answer.sends.iter().filter_map(Send::numbers).collect();
            if A_ROW * (done.rows + new_rows.len()) > rows.len()
                || A_SEND * (done.sends + new_sends.len()) > sends.len()
            {
                return no_slot;
            }
            lay(rows, A_ROW * done.rows, &new_rows.concat());
            lay(sends, A_SEND * done.sends, &new_sends.concat());
            *self = next;
            done.used += length;
            done.rows += new_rows.len();
            done.sends += new_sends.len();
            if self.phase == Phase::Down {
                return Done {
                    ended: Ended::Down,
                    code: answer.code,
                    besides: answer.besides as usize,
                    ..done
                };
            }
        }
    }

    /// Why many steps into lists of so many numbers cannot begin: 20, then 11.
    fn refuses(&self, row_room: usize, send_room: usize) -> Option<Done> {
        if self.phase == Phase::Down {
            return Some(Done {
                refusal: DOWN,
                ended: Ended::Down,
                code: DOWN,
                ..NOT_BEGUN
            });
        }
        if row_room < ROWS_A_STEP * A_ROW || send_room < SENDS_A_STEP * A_SEND {
            return Some(Done {
                refusal: NO_ROOM,
                rows: ROWS_A_STEP,
                sends: SENDS_A_STEP,
                ended: Ended::NoSlot,
                ..NOT_BEGUN
            });
        }
        None
    }

    /// Rule 2, waiting for the gateway's Logon.
    fn waiting(&mut self, head: &Head, bytes: &[u8]) -> Answer {
        let n = head.number;
        match head.message_type {
            // Down, nothing sent.
            types::LOGOUT | types::REJECT => {
                let row = if n == self.e && n != LAST {
                    self.take(RowSort::Session)
                } else {
                    NO_ROW
                };
                self.drop();
                Answer { row, ..NOTHING }
            }
            types::LOGON => {
                let next_expected = required(bytes, 2);
                if n < self.e {
                    return self.stop(LOWER_NUMBER);
                }
                if next_expected == 0 || next_expected > self.o {
                    return self.stop(BAD_NEXT_EXPECTED);
                }
                if n == self.e && n == LAST {
                    return self.stop(LAST_TAKEN);
                }
                self.phase = Phase::Live;
                let first_send = if next_expected < self.o {
                    Send::GapFill {
                        first: next_expected,
                        new: self.o,
                    }
                } else {
                    Send::None
                };
                // n > E takes nothing and asks nothing: the gateway fills the
                // gap by itself (004 section 5.3).
                let row = if n == self.e {
                    self.take(RowSort::Session)
                } else {
                    NO_ROW
                };
                Answer {
                    sends: [first_send, Send::None],
                    row,
                    ..NOTHING
                }
            }
            _ => self.stop(WRONG_TYPE),
        }
    }

    fn live(&mut self, head: &Head, bytes: &[u8]) -> Answer {
        let n = head.number;
        // 3.
        if let types::LOGON | types::LOOKUP_REQUEST | types::LOOKUP_RESPONSE = head.message_type {
            return self.stop(WRONG_TYPE);
        }
        let is_reset = head.message_type == types::SEQUENCE_RESET;
        let is_gap_fill = is_reset && asked(bytes, 0) == Some(u32::from(b'Y'));
        // 4. n is ignored.
        if is_reset && !is_gap_fill {
            let new = required(bytes, 1);
            if new < self.e {
                return self.stop(BAD_NEW);
            }
            if new == self.e {
                return NOTHING;
            }
            let row = self.skip_to(RowSort::Reset, new);
            return Answer { row, ..NOTHING };
        }
        // 5.
        if head.message_type == types::LOGOUT {
            let row = if n == self.e && n != LAST {
                self.take(RowSort::Session)
            } else {
                NO_ROW
            };
            return Answer {
                row,
                ..self.stop(0)
            };
        }
        // 6.
        if n < self.e {
            if head.poss_dup == 1 {
                return NOTHING;
            }
            return self.stop(LOWER_NUMBER);
        }
        // 7.
        if n > self.e {
            return self.ahead(head, bytes);
        }
        // 8.
        if n == LAST {
            return self.stop(LAST_TAKEN);
        }
        // 9.
        if is_gap_fill {
            let new = required(bytes, 1);
            if new <= n {
                return self.stop(BAD_NEW);
            }
            let row = self.skip_to(RowSort::Filled, new);
            return Answer { row, ..NOTHING };
        }
        let mut first_send = Send::None;
        if head.message_type == types::TEST_REQUEST {
            if self.o == LAST {
                return self.exhausted();
            }
            first_send = Send::Heartbeat {
                number: self.take_number(),
                id: required(bytes, 0) as u16,
            };
        }
        if head.message_type == types::RESEND_REQUEST {
            first_send = match self.answer_resend(bytes) {
                Some(gap_fill) => gap_fill,
                None => return self.stop(BAD_RESEND),
            };
        }
        let sort = match head.message_type {
            types::BUSINESS_MESSAGE_REJECT | types::EXECUTION_REPORT => RowSort::Business,
            _ => RowSort::Session,
        };
        let row = self.take(sort);
        Answer {
            sends: [first_send, Send::None],
            row,
            ..NOTHING
        }
    }

    /// Rule 7, a number ahead: a Resend Request is answered all the same, then we
    /// ask for what is missing. While M stands we ask again where PossDup says that
    /// the answer goes on behind a hole (document 02, item 3). 34 comes before 37,
    /// and 37 before 22. A Stop sends its Logout alone, and 22 nothing: the gap
    /// fill is not sent then.
    fn ahead(&mut self, head: &Head, bytes: &[u8]) -> Answer {
        let mut sends = [Send::None; 2];
        let mut used = 0;
        if head.message_type == types::RESEND_REQUEST {
            match self.answer_resend(bytes) {
                Some(gap_fill) => sends[used] = gap_fill,
                None => return self.stop(BAD_RESEND),
            }
            used += 1;
        }
        let is_first = self.m == 0;
        let is_repeat = !is_first && head.poss_dup == 1;
        if is_repeat && self.repeats == MOST_REPEATS {
            return self.stop(REPEATS_SPENT);
        }
        if is_first || is_repeat {
            if self.o == LAST {
                return self.exhausted();
            }
            sends[used] = Send::ResendRequest {
                number: self.take_number(),
                start: self.e,
                end: 0,
            };
        }
        if is_first {
            self.m = head.number;
        }
        if is_repeat {
            self.repeats += 1;
        }
        Answer { sends, ..NOTHING }
    }

    /// The gap fill that answers a Resend Request, None for a bad one (9).
    /// It leaves O.
    fn answer_resend(&self, bytes: &[u8]) -> Option<Send> {
        let start = required(bytes, 0);
        let end = required(bytes, 1);
        if start == 0 || start >= self.o || (end != 0 && end < start) {
            return None;
        }
        // end < O first: there end + 1 cannot run over.
        let new = if end != 0 && end < self.o && end + 1 < self.o {
            end + 1
        } else {
            self.o
        };
        Some(Send::GapFill { first: start, new })
    }

    /// Our next number. The caller has seen that O is below the last one.
    pub(crate) fn take_number(&mut self) -> u32 {
        let number = self.o;
        self.o += 1;
        number
    }

    /// A business or session row for E, which makes E one more.
    fn take(&mut self, sort: RowSort) -> Row {
        let n = self.e;
        self.move_to(n + 1);
        Row {
            sort,
            first: n,
            last: n,
        }
    }

    /// A filled or reset row from E to New - 1, which makes E New.
    fn skip_to(&mut self, sort: RowSort, new: u32) -> Row {
        let first = self.e;
        self.move_to(new);
        Row {
            sort,
            first,
            last: new - 1,
        }
    }

    /// Another E: M becomes 0 whenever E exceeds it. What was asked again was asked
    /// from the old E, so the count is 0 even where M stays.
    fn move_to(&mut self, e: u32) {
        self.e = e;
        self.repeats = 0;
        if self.e > self.m {
            self.forget_ahead();
        }
    }

    /// Nothing ahead makes us ask any more: M is 0, and then nothing is repeated.
    fn forget_ahead(&mut self) {
        self.m = 0;
        self.repeats = 0;
    }

    /// Stop(k): a Logout if there is a number for it, Down, no row.
    fn stop(&mut self, code: u32) -> Answer {
        let logout = if self.o < LAST {
            Send::Logout {
                number: self.take_number(),
            }
        } else {
            Send::None
        };
        self.drop();
        Answer {
            code,
            sends: [logout, Send::None],
            ..NOTHING
        }
    }

    /// 22 in place of a step whose numbered message has no number left: Down,
    /// nothing sent, no row.
    fn exhausted(&mut self) -> Answer {
        self.drop();
        Answer {
            code: EXHAUSTED,
            ..NOTHING
        }
    }
}
