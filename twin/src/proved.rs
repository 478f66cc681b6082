//! The proved library's C interface (include/featherloom.h) as Rust sees it:
//! the header's structs, and a wrapper over slices for each call. The unsafe
//! code that the calls need stands here.

use std::mem::size_of;
use std::ptr;
use twin::session;
use twin::writer::HeadValues;

#[repr(C)]
#[derive(Clone, Copy, Debug, Default, PartialEq, Eq)]
pub struct Reading {
    pub refusal: u32,
    pub number: u32,
    pub besides: usize,
    pub length: usize,
    pub message_type: u8,
    pub possdup: u8,
    pub possresend: u8,
}

#[repr(C)]
#[derive(Clone, Copy, Debug, Default, PartialEq, Eq)]
pub struct Part {
    pub refusal: u32,
    pub besides: usize,
    pub offset: usize,
    pub length: usize,
}

pub const NUMBER: u32 = 1;
pub const DECIMAL: u32 = 2;

#[repr(C)]
#[derive(Clone, Copy, Debug, Default, PartialEq, Eq)]
pub struct Value {
    pub refusal: u32,
    pub sort: u32,
    pub besides: usize,
    pub number: u64,
    pub decimal: i64,
}

#[repr(C)]
#[derive(Clone, Copy, Debug, Default, PartialEq, Eq)]
pub struct Listed {
    pub reading: Reading,
    pub fields: usize,
}

#[repr(C)]
#[derive(Clone, Copy, Debug, Default, PartialEq, Eq)]
pub struct Header {
    pub message_type: u8,
    pub possdup: u8,
    pub possresend: u8,
    pub number: u32,
}

impl From<HeadValues> for Header {
    fn from(head: HeadValues) -> Header {
        Header {
            message_type: head.message_type,
            possdup: head.poss_dup,
            possresend: head.poss_resend,
            number: head.number,
        }
    }
}

#[repr(C)]
#[derive(Clone, Copy, Debug, Default, PartialEq, Eq)]
pub struct Written {
    pub refusal: u32,
    pub besides: usize,
    pub length: usize,
}

/// Room for every message that can be written.
pub const LONGEST_WRITTEN: usize = 1016;

pub const DOWN: u32 = 0;
pub const WAITING: u32 = 1;
pub const LIVE: u32 = 2;

#[repr(C)]
#[derive(Clone, Copy, Debug, Default, PartialEq, Eq)]
pub struct Session {
    pub state: u32,
    pub comp_id: [u8; 12],
    pub expected: u32,
    pub own: u32,
    pub ahead: u32,
    pub repeats: u32,
}

#[repr(C)]
#[derive(Clone, Copy, Debug, Default, PartialEq, Eq)]
pub struct Made {
    pub refusal: u32,
    pub session: Session,
}

#[repr(C)]
#[derive(Clone, Copy, Debug, Default, PartialEq, Eq)]
pub struct Connected {
    pub refusal: u32,
    pub session: Session,
    pub number: u32,
    pub next: u32,
    pub besides: usize,
}

#[repr(C)]
#[derive(Clone, Copy, Debug, Default, PartialEq, Eq)]
pub struct Send {
    pub kind: u32,
    pub number: u32,
    pub first: u32,
    pub second: u32,
}

#[repr(C)]
#[derive(Clone, Copy, Debug, Default, PartialEq, Eq)]
pub struct Row {
    pub kind: u32,
    pub first: u32,
    pub last: u32,
}

#[repr(C)]
#[derive(Clone, Copy, Debug, Default, PartialEq, Eq)]
pub struct Stepped {
    pub refusal: u32,
    pub session: Session,
    pub first: Send,
    pub second: Send,
    pub row: Row,
    pub used: usize,
    pub besides: usize,
}

#[repr(C)]
#[derive(Clone, Copy, Debug, Default, PartialEq, Eq)]
pub struct Done {
    pub refusal: u32,
    pub session: Session,
    pub used: usize,
    pub rows: usize,
    pub sends: usize,
    pub ended: u32,
    pub code: u32,
    pub besides: usize,
}

impl Done {
    /// What another side did, beside the session that it left.
    pub fn of(session: Session, done: session::Done) -> Done {
        Done {
            refusal: done.refusal,
            session,
            used: done.used,
            rows: done.rows,
            sends: done.sends,
            ended: done.ended as u32,
            code: done.code,
            besides: done.besides,
        }
    }
}

#[repr(C)]
#[derive(Clone, Copy, Debug, Default, PartialEq, Eq)]
pub struct Line {
    pub session: Session,
    pub interval: u32,
    pub tested: u32,
    pub now: u64,
    pub sent: u64,
    pub heard: u64,
}

#[repr(C)]
#[derive(Clone, Copy, Debug, Default, PartialEq, Eq)]
pub struct LineMade {
    pub refusal: u32,
    pub line: Line,
}

#[repr(C)]
#[derive(Clone, Copy, Debug, Default, PartialEq, Eq)]
pub struct LineConnected {
    pub refusal: u32,
    pub line: Line,
    pub number: u32,
    pub next: u32,
    pub besides: usize,
}

#[repr(C)]
#[derive(Clone, Copy, Debug, Default, PartialEq, Eq)]
pub struct LineStepped {
    pub refusal: u32,
    pub line: Line,
    pub first: Send,
    pub second: Send,
    pub row: Row,
    pub used: usize,
    pub besides: usize,
}

#[repr(C)]
#[derive(Clone, Copy, Debug, Default, PartialEq, Eq)]
pub struct LineDone {
    pub refusal: u32,
    pub line: Line,
    pub used: usize,
    pub rows: usize,
    pub sends: usize,
    pub ended: u32,
    pub code: u32,
    pub besides: usize,
}

impl LineDone {
    /// What a session did, beside the line that is left.
    pub fn of(line: Line, done: Done) -> LineDone {
        LineDone {
            refusal: done.refusal,
            line,
            used: done.used,
            rows: done.rows,
            sends: done.sends,
            ended: done.ended,
            code: done.code,
            besides: done.besides,
        }
    }
}

#[repr(C)]
#[derive(Clone, Copy, Debug, Default, PartialEq, Eq)]
pub struct LineTicked {
    pub refusal: u32,
    pub act: u32,
    pub line: Line,
    pub send: Send,
}

#[repr(C)]
#[derive(Clone, Copy, Debug, Default, PartialEq, Eq)]
pub struct LineNext {
    pub refusal: u32,
    pub due: u32,
    pub time: u64,
}

#[repr(C)]
#[derive(Clone, Copy, Debug, Default, PartialEq, Eq)]
pub struct Planned {
    pub refusal: u32,
    pub pairs: usize,
}

// The sizes that the header asserts.
const _: () = assert!(
    size_of::<Reading>() == 32
        && size_of::<Part>() == 32
        && size_of::<Value>() == 32
        && size_of::<Listed>() == 40
        && size_of::<Header>() == 8
        && size_of::<Written>() == 24
        && size_of::<Session>() == 32
        && size_of::<Made>() == 36
        && size_of::<Connected>() == 56
        && size_of::<Send>() == 16
        && size_of::<Row>() == 12
        && size_of::<Stepped>() == 96
        && size_of::<Done>() == 80
        && size_of::<Line>() == 64
        && size_of::<LineMade>() == 72
        && size_of::<LineConnected>() == 88
        && size_of::<LineStepped>() == 136
        && size_of::<LineDone>() == 112
        && size_of::<LineTicked>() == 88
        && size_of::<LineNext>() == 16
        && size_of::<Planned>() == 16
);

extern "C" {
    fn featherloom_version() -> u32;
    fn featherloom_read(bytes: *const u8, count: usize) -> Reading;
    fn featherloom_comp_id(bytes: *const u8, count: usize) -> Part;
    fn featherloom_map(bytes: *const u8, count: usize) -> Part;
    fn featherloom_body(bytes: *const u8, count: usize) -> Part;
    fn featherloom_ask(bytes: *const u8, count: usize, position: usize) -> Value;
    fn featherloom_text(bytes: *const u8, count: usize, position: usize) -> Part;
    fn featherloom_fields(bytes: *const u8, count: usize, numbers: *mut u64, room: usize)
        -> Listed;
    fn featherloom_crc32c(bytes: *const u8, count: usize) -> u32;
    fn featherloom_write(
        buffer: *mut u8,
        room: usize,
        header: Header,
        comp_id: *const u8,
        comp_id_count: usize,
        map: *const u8,
        body: *const u8,
        body_count: usize,
    ) -> Written;
    fn featherloom_decimal_text(buffer: *mut u8, room: usize, decimal: i64) -> Written;
    fn featherloom_fresh(comp_id: *const u8, count: usize) -> Made;
    fn featherloom_saved(comp_id: *const u8, count: usize, expected: u32, own: u32) -> Made;
    fn featherloom_connect(session: Session, password: *const u8, count: usize) -> Connected;
    fn featherloom_drop(session: Session) -> Made;
    fn featherloom_step(session: Session, bytes: *const u8, count: usize) -> Stepped;
    fn featherloom_steps_flat(
        session: Session,
        bytes: *const u8,
        count: usize,
        rows: *mut u32,
        row_room: usize,
        sends: *mut u32,
        send_room: usize,
    ) -> Done;
    fn featherloom_put(buffer: *mut u8, room: usize, session: Session, send: Send) -> Written;
    fn featherloom_put_logon(
        buffer: *mut u8,
        room: usize,
        session: Session,
        password: *const u8,
        count: usize,
    ) -> Written;
    fn featherloom_line_fresh(comp_id: *const u8, count: usize, interval: u32) -> LineMade;
    fn featherloom_line_saved(
        comp_id: *const u8,
        count: usize,
        expected: u32,
        own: u32,
        interval: u32,
    ) -> LineMade;
    fn featherloom_line_connect(
        line: Line,
        time: u64,
        password: *const u8,
        count: usize,
    ) -> LineConnected;
    fn featherloom_line_drop(line: Line, time: u64) -> LineMade;
    fn featherloom_line_step(line: Line, time: u64, bytes: *const u8, count: usize) -> LineStepped;
    fn featherloom_line_steps_flat(
        line: Line,
        time: u64,
        bytes: *const u8,
        count: usize,
        rows: *mut u32,
        row_room: usize,
        sends: *mut u32,
        send_room: usize,
    ) -> LineDone;
    fn featherloom_line_tick(line: Line, time: u64) -> LineTicked;
    fn featherloom_line_next_tick(line: Line) -> LineNext;
    fn featherloom_plan(
        list: *const u8,
        count: usize,
        start: u32,
        end: u32,
        numbers: *mut u32,
        room: usize,
    ) -> Planned;
    fn featherloom_join(
        one: *const u32,
        one_count: usize,
        other: *const u32,
        other_count: usize,
        numbers: *mut u32,
        room: usize,
    ) -> Planned;
}

/// Where lent bytes or numbers begin. None may come with NULL, and here they do.
fn at<T>(lent: &[T]) -> *const T {
    if lent.is_empty() {
        ptr::null()
    } else {
        lent.as_ptr()
    }
}

/// Where a buffer or a list to be written begins; NULL where it has no room.
fn at_mut<T>(lent: &mut [T]) -> *mut T {
    if lent.is_empty() {
        ptr::null_mut()
    } else {
        lent.as_mut_ptr()
    }
}

// Safe, each of them: the pointer and the length are those of one slice, the
// structs are values, and the library keeps no pointer.

pub fn version() -> u32 {
    unsafe { featherloom_version() }
}

pub fn read(bytes: &[u8]) -> Reading {
    unsafe { featherloom_read(at(bytes), bytes.len()) }
}

pub fn comp_id(bytes: &[u8]) -> Part {
    unsafe { featherloom_comp_id(at(bytes), bytes.len()) }
}

pub fn map(bytes: &[u8]) -> Part {
    unsafe { featherloom_map(at(bytes), bytes.len()) }
}

pub fn body(bytes: &[u8]) -> Part {
    unsafe { featherloom_body(at(bytes), bytes.len()) }
}

pub fn ask(bytes: &[u8], position: usize) -> Value {
    unsafe { featherloom_ask(at(bytes), bytes.len(), position) }
}

pub fn text(bytes: &[u8], position: usize) -> Part {
    unsafe { featherloom_text(at(bytes), bytes.len(), position) }
}

pub fn fields(bytes: &[u8], numbers: &mut [u64]) -> Listed {
    unsafe { featherloom_fields(at(bytes), bytes.len(), at_mut(numbers), numbers.len()) }
}

pub fn crc32c(bytes: &[u8]) -> u32 {
    unsafe { featherloom_crc32c(at(bytes), bytes.len()) }
}

pub fn write(
    buffer: &mut [u8],
    header: Header,
    comp_id: &[u8],
    map: &[u8; 32],
    body: &[u8],
) -> Written {
    unsafe {
        featherloom_write(
            at_mut(buffer),
            buffer.len(),
            header,
            at(comp_id),
            comp_id.len(),
            map.as_ptr(),
            at(body),
            body.len(),
        )
    }
}

pub fn decimal_text(buffer: &mut [u8], decimal: i64) -> Written {
    unsafe { featherloom_decimal_text(at_mut(buffer), buffer.len(), decimal) }
}

pub fn fresh(comp_id: &[u8]) -> Made {
    unsafe { featherloom_fresh(at(comp_id), comp_id.len()) }
}

pub fn saved(comp_id: &[u8], expected: u32, own: u32) -> Made {
    unsafe { featherloom_saved(at(comp_id), comp_id.len(), expected, own) }
}

pub fn connect(session: Session, password: &[u8]) -> Connected {
    unsafe { featherloom_connect(session, at(password), password.len()) }
}

pub fn drop(session: Session) -> Made {
    unsafe { featherloom_drop(session) }
}

pub fn step(session: Session, bytes: &[u8]) -> Stepped {
    unsafe { featherloom_step(session, at(bytes), bytes.len()) }
}

pub fn steps(session: Session, bytes: &[u8], rows: &mut [u32], sends: &mut [u32]) -> Done {
    unsafe {
        featherloom_steps_flat(
            session,
            at(bytes),
            bytes.len(),
            at_mut(rows),
            rows.len(),
            at_mut(sends),
            sends.len(),
        )
    }
}

pub fn put(buffer: &mut [u8], session: Session, send: Send) -> Written {
    unsafe { featherloom_put(at_mut(buffer), buffer.len(), session, send) }
}

pub fn put_logon(buffer: &mut [u8], session: Session, password: &[u8]) -> Written {
    unsafe {
        featherloom_put_logon(
            at_mut(buffer),
            buffer.len(),
            session,
            at(password),
            password.len(),
        )
    }
}

pub fn line_fresh(comp_id: &[u8], interval: u32) -> LineMade {
    unsafe { featherloom_line_fresh(at(comp_id), comp_id.len(), interval) }
}

pub fn line_saved(comp_id: &[u8], expected: u32, own: u32, interval: u32) -> LineMade {
    unsafe { featherloom_line_saved(at(comp_id), comp_id.len(), expected, own, interval) }
}

pub fn line_connect(line: Line, now: u64, password: &[u8]) -> LineConnected {
    unsafe { featherloom_line_connect(line, now, at(password), password.len()) }
}

pub fn line_drop(line: Line, now: u64) -> LineMade {
    unsafe { featherloom_line_drop(line, now) }
}

pub fn line_step(line: Line, now: u64, bytes: &[u8]) -> LineStepped {
    unsafe { featherloom_line_step(line, now, at(bytes), bytes.len()) }
}

pub fn line_steps(
    line: Line,
    now: u64,
    bytes: &[u8],
    rows: &mut [u32],
    sends: &mut [u32],
) -> LineDone {
    unsafe {
        featherloom_line_steps_flat(
            line,
            now,
            at(bytes),
            bytes.len(),
            at_mut(rows),
            rows.len(),
            at_mut(sends),
            sends.len(),
        )
    }
}

pub fn line_tick(line: Line, now: u64) -> LineTicked {
    unsafe { featherloom_line_tick(line, now) }
}

pub fn line_next_tick(line: Line) -> LineNext {
    unsafe { featherloom_line_next_tick(line) }
}

pub fn plan(list: &[u8], start: u32, end: u32, numbers: &mut [u32]) -> Planned {
    unsafe {
        featherloom_plan(
            at(list),
            list.len(),
            start,
            end,
            at_mut(numbers),
            numbers.len(),
        )
    }
}

pub fn join(one: &[u32], other: &[u32], numbers: &mut [u32]) -> Planned {
    unsafe {
        featherloom_join(
            at(one),
            one.len(),
            at(other),
            other.len(),
            at_mut(numbers),
            numbers.len(),
        )
    }
}
