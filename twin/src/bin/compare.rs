//! Holds the proved library against the twin: every call of the C interface on
//! made input, its whole answer compared with what the twin says. The input
//! comes from the seed alone.

#[allow(dead_code)] // shared with bench, which needs less
#[path = "../proved.rs"]
mod proved;
#[path = "../silence.rs"]
mod silence;

use proved::{
    Connected, Done, Header, Listed, Made, Part, Planned, Reading, Row, Send, Stepped, Value,
    Written,
};
use std::fmt::{Debug, Formatter};
use std::fs;
use std::io::Write;
use std::ops::RangeInclusive;
use std::process::{exit, Command, Output, Stdio};
use std::time::{Duration, Instant};
use twin::daysheet::{self, LIST_FULL, MOST_KEPT};
use twin::gateway::{self, is_business, Wrong};
use twin::make::{self, Cut, Event, Given, Rng, Sent, Text};
use twin::plan::{A_PAIR, LONGEST_PLAN};
use twin::reader::{self, Head, A_FIELD};
use twin::reports::{LIST, US};
use twin::session::{self, Ended, Phase, RowSort, A_ROW, A_SEND, LAST, NOT_A_SEND};
use twin::session::{ASKED_ONCE, LAST_KIND, MOST_REPEATS};
use twin::session::{ROWS_A_STEP, ROW_PLACE, ROW_SORT, SENDS_A_STEP};
use twin::tables::{self, types};
use twin::wire::{self, Allowed, Refusal, BODY_AT, MAP_WIDTH, TRAILER};
use twin::writer::{self, HeadValues, ToWrite};
use twin::{crc, plain, plan};

const NOT_A_SESSION: u32 = 90;

/// A few differences tell enough; then the run ends.
const ENOUGH: u32 = 10;

// ---- Counting ----

/// The categories, with their parts of a hundred of the random comparisons.
const CATEGORIES: [(&str, u64); 19] = [
    ("short inputs", 6),
    ("valid messages", 19),
    ("writes, good and bad", 6),
    ("damage", 8),
    ("histories", 16),
    ("sessions that no day has", 9),
    ("plan", 4),
    ("crc32c", 1),
    ("decimals as text", 1),
    ("many messages in one call", 11),
    ("holes in the answer", 10),
    ("plans that join", 2),
    ("both ends meet", 2),
    ("silence on the line", 5),
    ("texts, every character", 0),
    ("version", 0),
    ("daysheet", 0),
    ("plain sheets", 0),
    ("both ends meet, bench", 0),
];

struct Tally {
    category: usize,
    counts: [u64; CATEGORIES.len()],
    /// How often the twin gave each refusal, to see that none is missed.
    met: [u64; NOT_A_SEND as usize + 1],
    /// How often a call with many messages ended in each way, likewise.
    ended: [u64; Ended::NoSlot as usize + 1],
    /// How often days with holes met each situation: in single steps, and in calls
    /// with many messages.
    holes: [Situations; 2],
    /// How often joins, cuts and two gap fills met each of theirs.
    joins: [u64; JOINS.len()],
    cuts: [u64; CUTS.len()],
    fills: [u64; FILLS.len()],
    /// How often sessions that take an answer met each of theirs.
    answers: [u64; ANSWERS.len()],
    /// How often lines with a clock met each of theirs.
    silence: silence::Met,
    /// How often runs of the bench met each of theirs; None where it is not run.
    sendings: Option<[u64; SENDINGS.len()]>,
    differences: u32,
    began: Instant,
    told: Instant,
}

impl Tally {
    fn new() -> Tally {
        Tally {
            category: 0,
            counts: [0; CATEGORIES.len()],
            met: [0; NOT_A_SEND as usize + 1],
            ended: [0; Ended::NoSlot as usize + 1],
            holes: [[0; SITUATIONS.len()]; 2],
            joins: [0; JOINS.len()],
            cuts: [0; CUTS.len()],
            fills: [0; FILLS.len()],
            answers: [0; ANSWERS.len()],
            silence: silence::Met::NONE,
            sendings: None,
            differences: 0,
            began: Instant::now(),
            told: Instant::now(),
        }
    }

    fn count(&self) -> u64 {
        self.counts[self.category]
    }

    fn total(&self) -> u64 {
        self.counts.iter().sum()
    }

    /// One comparison: the twin's whole answer, with its refusal, and the
    /// library's.
    fn hold<A: PartialEq + Debug>(
        &mut self,
        refusal: u32,
        twin: A,
        proved: A,
        input: impl FnOnce() -> String,
    ) {
        self.counts[self.category] += 1;
        self.met[refusal as usize] += 1;
        if self.count() % 512 == 0 && self.told.elapsed() > Duration::from_secs(1) {
            self.told = Instant::now();
            let name = CATEGORIES[self.category].0;
            let seconds = self.began.elapsed().as_secs();
            eprint!("\r{:4} s  {:9}  {:26}", seconds, self.total(), name);
        }
        if twin == proved {
            return;
        }
        self.differences += 1;
        eprintln!();
        println!(
            "difference {} in {}",
            self.differences, CATEGORIES[self.category].0
        );
        println!("  input:  {}", input());
        println!("  twin:   {:?}", twin);
        println!("  proved: {:?}", proved);
        if self.differences == ENOUGH {
            self.end();
        }
    }

    fn end(&self) -> ! {
        eprintln!();
        for ((name, _), count) in CATEGORIES.iter().zip(self.counts) {
            println!("{:26} {:9}", name, count);
        }
        let met: Vec<String> = (0..)
            .zip(self.met)
            .filter(|&(_, times)| times > 0)
            .map(|(refusal, times): (u32, u64)| format!("{} ({})", refusal, times))
            .collect();
        println!("refusals met, and how often: {}", met.join(", "));
        let [_, short, down, no_slot] = self.ended;
        println!(
            "many messages ended: Short ({}), Down ({}), no slot ({})",
            short, down, no_slot
        );
        let [singles, many] = &self.holes;
        let [singles_met, many_met] = [singles, many].map(|holes| met_of(&SITUATIONS, holes));
        println!("holes in the answer, single steps: {}", singles_met);
        println!("holes in the answer, many messages: {}", many_met);
        println!("plans that join: {}", met_of(&JOINS, &self.joins));
        println!("plans cut in two: {}", met_of(&CUTS, &self.cuts));
        println!("two gap fills: {}", met_of(&FILLS, &self.fills));
        println!("both ends meet: {}", met_of(&ANSWERS, &self.answers));
        self.silence.print();
        let mut counts: Vec<&[u64]> = vec![
            singles,
            many,
            &self.joins,
            &self.cuts,
            &self.fills,
            &self.answers,
        ];
        if let Some(sendings) = &self.sendings {
            println!("both ends meet, bench: {}", met_of(&SENDINGS, sendings));
            counts.push(sendings);
        }
        // A run that differences have ended did not come so far.
        let is_whole = self.differences < ENOUGH;
        let is_missed = self.silence.is_missed() || counts.iter().any(|counts| missed(counts));
        let missed = is_whole && is_missed;
        if missed {
            println!("compare: a situation was never met, so nothing is said of it");
        }
        println!("seconds {}", self.began.elapsed().as_secs());
        println!(
            "compare: {} comparisons, {} differences",
            self.total(),
            self.differences
        );
        exit((self.differences > 0 || missed) as i32);
    }
}

/// Bytes that print as hex.
#[derive(PartialEq)]
struct Hex(Vec<u8>);

impl Debug for Hex {
    fn fmt(&self, f: &mut Formatter) -> std::fmt::Result {
        f.write_str(&hex(&self.0))
    }
}

fn hex(bytes: &[u8]) -> String {
    if bytes.is_empty() {
        return String::from("(none)");
    }
    bytes.iter().map(|byte| format!("{:02X}", byte)).collect()
}

/// A session as an argument, its Comp ID in hex.
fn shown(s: &proved::Session) -> String {
    format!(
        "session state {} comp_id {} E {} O {} M {} repeats {}",
        s.state,
        hex(&s.comp_id),
        s.expected,
        s.own,
        s.ahead,
        s.repeats
    )
}

// ---- The twin's answers, laid out as the header's structs ----

fn reading(answer: Result<Head, Refusal>) -> Reading {
    match answer {
        Ok(head) => Reading {
            number: head.number,
            length: head.length,
            message_type: head.message_type,
            possdup: head.poss_dup,
            possresend: head.poss_resend,
            ..Reading::default()
        },
        Err(refusal) => Reading {
            refusal: refusal.number,
            besides: refusal.besides as usize,
            ..Reading::default()
        },
    }
}

/// A part of `bytes`, and the bytes themselves.
fn part(bytes: &[u8], answer: Result<&[u8], (u32, usize)>) -> (Part, Hex) {
    match answer {
        Ok(part) => (
            Part {
                offset: part.as_ptr() as usize - bytes.as_ptr() as usize,
                length: part.len(),
                ..Part::default()
            },
            Hex(part.to_vec()),
        ),
        Err((refusal, besides)) => (
            Part {
                refusal,
                besides,
                ..Part::default()
            },
            Hex(Vec::new()),
        ),
    }
}

/// The bytes that the library's part names; none where it reaches outside.
fn named(bytes: &[u8], part: Part) -> (Part, Hex) {
    let end = part.offset.saturating_add(part.length);
    (
        part,
        Hex(bytes.get(part.offset..end).unwrap_or(&[]).to_vec()),
    )
}

/// The twin takes 32-bit positions. All from 256 on are unknown, and 7 gives
/// back the position asked.
fn asked<T>(
    position: usize,
    ask: impl FnOnce(u32) -> Result<T, Refusal>,
) -> Result<T, (u32, usize)> {
    let near = u32::try_from(position).unwrap_or(u32::MAX);
    ask(near).map_err(|refusal| {
        if refusal.number == wire::UNKNOWN_POSITION && refusal.besides == near {
            (refusal.number, position)
        } else {
            (refusal.number, refusal.besides as usize)
        }
    })
}

fn value(bytes: &[u8], position: usize) -> Value {
    match asked(position, |position| reader::ask_number(bytes, position)) {
        Ok(reader::Value::Number(number)) => Value {
            sort: proved::NUMBER,
            number,
            ..Value::default()
        },
        Ok(reader::Value::Decimal(decimal)) => Value {
            sort: proved::DECIMAL,
            decimal,
            ..Value::default()
        },
        Err((refusal, besides)) => Value {
            refusal,
            besides,
            ..Value::default()
        },
    }
}

/// The twin's list, laid at the front of the numbers.
fn listed(bytes: &[u8], numbers: &mut [u64]) -> Listed {
    let (head, fields) = match reader::list(bytes, numbers.len()) {
        Ok((head, fields)) => (Ok(head), fields),
        Err(refusal) => (Err(refusal), Vec::new()),
    };
    let laid = fields.concat();
    numbers[..laid.len()].copy_from_slice(&laid);
    Listed {
        reading: reading(head),
        fields: fields.len(),
    }
}

fn refused(refusal: u32) -> Written {
    Written {
        refusal,
        ..Written::default()
    }
}

fn written(answer: Result<usize, Refusal>) -> Written {
    match answer {
        Ok(length) => Written {
            length,
            ..Written::default()
        },
        Err(refusal) => Written {
            besides: refusal.besides as usize,
            ..refused(refusal.number)
        },
    }
}

fn struct_of(session: &session::Session) -> proved::Session {
    let mut comp_id = [0; 12];
    comp_id[..session.comp_id.len()].copy_from_slice(&session.comp_id);
    proved::Session {
        state: match session.phase {
            Phase::Down => proved::DOWN,
            Phase::Waiting => proved::WAITING,
            Phase::Live => proved::LIVE,
        },
        comp_id,
        expected: session.e,
        own: session.o,
        ahead: session.m,
        repeats: session.repeats,
    }
}

/// What a session of some day can be.
fn is_session(s: &proved::Session) -> bool {
    let count = s.comp_id.iter().position(|&byte| byte == 0).unwrap_or(12);
    let (characters, zeros) = s.comp_id.split_at(count);
    let good_comp_id = (1..=11).contains(&count)
        && Allowed::Ascii.allows_all(characters)
        && zeros.iter().all(|&byte| byte == 0);
    // Down is before the first Connect, or after it; up is after a Logon.
    let least_own = if s.state == proved::DOWN { 1 } else { 2 };
    // Asking for what is missing took a number of ours, each repeat one more, and
    // what made us ask lay ahead of E and is not reached yet.
    let good_ahead = if s.ahead == 0 {
        s.repeats == 0
    } else {
        s.state == proved::LIVE
            && s.ahead >= 2
            && s.ahead >= s.expected
            && s.repeats <= MOST_REPEATS
            && s.own >= ASKED_ONCE + s.repeats
    };
    s.state <= proved::LIVE && good_comp_id && s.expected >= 1 && s.own >= least_own && good_ahead
}

/// The twin's session for a struct; None where no day has such a one.
fn session_of(s: &proved::Session) -> Option<session::Session> {
    if !is_session(s) {
        return None;
    }
    let count = s.comp_id.iter().position(|&byte| byte == 0)?;
    Some(session::Session {
        phase: [Phase::Down, Phase::Waiting, Phase::Live][s.state as usize],
        comp_id: s.comp_id[..count].to_vec(),
        e: s.expected,
        o: s.own,
        m: s.ahead,
        repeats: s.repeats,
    })
}

/// What stands beside a refusal of fresh or saved.
const NO_DAY: proved::Session = proved::Session {
    state: proved::DOWN,
    comp_id: [0; 12],
    expected: 1,
    own: 1,
    ahead: 0,
    repeats: 0,
};

fn made(answer: Result<session::Session, Refusal>) -> Made {
    match answer {
        Ok(session) => Made {
            refusal: 0,
            session: struct_of(&session),
        },
        Err(refusal) => Made {
            refusal: refusal.number,
            session: NO_DAY,
        },
    }
}

fn dropped(s: proved::Session) -> Made {
    match session_of(&s) {
        None => Made {
            refusal: NOT_A_SESSION,
            session: s,
        },
        Some(mut session) => {
            session.drop();
            made(Ok(session))
        }
    }
}

fn connected(s: proved::Session, password: &[u8]) -> Connected {
    let unchanged = |refusal, besides| Connected {
        refusal,
        session: s,
        besides,
        ..Connected::default()
    };
    let mut session = match session_of(&s) {
        None => return unchanged(NOT_A_SESSION, 0),
        Some(session) => session,
    };
    match session.connect(password) {
        Ok(logon) => Connected {
            refusal: 0,
            session: struct_of(&session),
            number: logon.number,
            next: logon.next_expected,
            besides: 0,
        },
        Err(refusal) => unchanged(refusal.number, refusal.besides as usize),
    }
}

/// A message to send by the numbers of a list, which are the struct's members in
/// their order.
fn send_struct([kind, number, first, second]: [u32; A_SEND]) -> Send {
    Send {
        kind,
        number,
        first,
        second,
    }
}

fn numbers_of(send: Send) -> [u32; A_SEND] {
    [send.kind, send.number, send.first, send.second]
}

/// The struct of the twin's message; all its members are 0 where there is none.
fn shown_send(send: session::Send) -> Send {
    send_struct(send.numbers().unwrap_or_default())
}

fn row_struct(row: session::Row) -> Row {
    Row {
        kind: match row.sort {
            RowSort::None => 0,
            RowSort::Business => 1,
            RowSort::Session => 2,
            RowSort::Filled => 3,
            RowSort::Reset => 4,
        },
        first: row.first,
        last: row.last,
    }
}

fn stepped(s: proved::Session, bytes: &[u8]) -> Stepped {
    let mut session = match session_of(&s) {
        None => {
            return Stepped {
                refusal: NOT_A_SESSION,
                session: s,
                ..Stepped::default()
            }
        }
        Some(session) => session,
    };
    let answer = session.step(bytes);
    Stepped {
        refusal: answer.code,
        session: struct_of(&session),
        first: shown_send(answer.sends[0]),
        second: shown_send(answer.sends[1]),
        row: row_struct(answer.row),
        used: session::used(answer.code, bytes),
        besides: answer.besides as usize,
    }
}

fn planned(answer: Result<usize, Refusal>) -> Planned {
    match answer {
        Ok(pairs) => Planned { refusal: 0, pairs },
        Err(refusal) => Planned {
            refusal: refusal.number,
            pairs: refusal.besides as usize,
        },
    }
}

// ---- The calls, one comparison each ----

fn hold_read(tally: &mut Tally, bytes: &[u8]) {
    let answer = reading(reader::read(bytes));
    tally.hold(answer.refusal, answer, proved::read(bytes), || {
        format!("read {}", hex(bytes))
    });
}

fn hold_parts(tally: &mut Tally, bytes: &[u8]) {
    type Twin = fn(&[u8]) -> &[u8];
    type Proved = fn(&[u8]) -> Part;
    let calls: [(&str, Twin, Proved); 3] = [
        ("comp_id", reader::comp_id, proved::comp_id),
        ("map", reader::map, proved::map),
        ("body", reader::body, proved::body),
    ];
    let refusal = reader::read(bytes)
        .err()
        .map(|refusal| (refusal.number, refusal.besides as usize));
    for (name, twin, proved) in calls {
        let answer = part(bytes, refusal.map_or_else(|| Ok(twin(bytes)), Err));
        tally.hold(
            answer.0.refusal,
            answer,
            named(bytes, proved(bytes)),
            || format!("{} {}", name, hex(bytes)),
        );
    }
}

fn hold_questions(tally: &mut Tally, bytes: &[u8], position: usize) {
    let number = value(bytes, position);
    tally.hold(number.refusal, number, proved::ask(bytes, position), || {
        format!("ask position {} {}", position, hex(bytes))
    });
    let text = asked(position, |position| reader::ask_text(bytes, position));
    let text = part(bytes, text);
    tally.hold(
        text.0.refusal,
        text,
        named(bytes, proved::text(bytes, position)),
        || format!("text position {} {}", position, hex(bytes)),
    );
}

/// Bytes before and after a lent buffer, to see what is written outside.
const GUARD: usize = 16;

/// A call that fills a buffer: the answer, and the buffer afterwards.
fn hold_written(
    tally: &mut Tally,
    room: usize,
    twin: impl FnOnce(&mut [u8]) -> Written,
    proved: impl FnOnce(&mut [u8]) -> Written,
    input: impl FnOnce() -> String,
) {
    let mut ours: Vec<u8> = (0..GUARD + room + GUARD)
        .map(|at| (at as u8).wrapping_mul(73).wrapping_add(41))
        .collect();
    let mut its = ours.clone();
    let answer = twin(&mut ours[GUARD..GUARD + room]);
    let its_answer = proved(&mut its[GUARD..GUARD + room]);
    let (twin, proved) = ((answer, Hex(ours)), (its_answer, Hex(its)));
    tally.hold(answer.refusal, twin, proved, || {
        format!("{} room {}", input(), room)
    });
}

/// Room of exactly `length`, one less, and more.
fn rooms(rng: &mut Rng, length: usize) -> [usize; 3] {
    [length, length.saturating_sub(1), length + 1 + rng.index(80)]
}

/// A list of so many numbers with guards on both sides. No two places of it hold
/// the same number.
fn guarded(room: usize) -> Vec<u32> {
    (0..(GUARD + room + GUARD) as u32)
        .map(|at| at.wrapping_mul(0x9E37_79B9) ^ 0x5555_5555)
        .collect()
}

/// All fields into a list of so many numbers: the answer, and every number of
/// the list afterwards.
fn hold_fields(tally: &mut Tally, bytes: &[u8], room: usize) {
    let mut ours: Vec<u64> = (0..(GUARD + room + GUARD) as u64)
        .map(|at| at.wrapping_mul(0x9E37_79B9_7F4A_7C15) ^ 0x5555_5555_5555_5555)
        .collect();
    let mut its = ours.clone();
    let answer = listed(bytes, &mut ours[GUARD..GUARD + room]);
    let its_answer = proved::fields(bytes, &mut its[GUARD..GUARD + room]);
    let (twin, proved) = ((answer, ours), (its_answer, its));
    tally.hold(answer.reading.refusal, twin, proved, || {
        format!("fields room {} {}", room, hex(bytes))
    });
}

/// Rooms for a message's list: exactly as many numbers as it needs, one less,
/// more, none, and what is enough for every message. A refused message needs
/// none.
fn list_rooms(rng: &mut Rng, bytes: &[u8]) -> [usize; 5] {
    let needed = reader::list(bytes, LIST).map_or(0, |(_, fields)| A_FIELD * fields.len());
    let [exact, less, more] = rooms(rng, needed);
    [exact, less, more, 0, LIST]
}

/// One of the rooms for a message's list.
fn list_room(rng: &mut Rng, bytes: &[u8]) -> usize {
    let rooms = list_rooms(rng, bytes);
    rooms[rng.index(rooms.len())]
}

fn hold_write(tally: &mut Tally, given: &ToWrite, room: usize) {
    let ToWrite {
        head,
        comp_id,
        map,
        body,
    } = given;
    let header = Header::from(*head);
    hold_written(
        tally,
        room,
        |out| written(given.write(out)),
        |out| proved::write(out, header, comp_id, map, body),
        || {
            format!(
                "write {:?} comp_id {} map {} body {}",
                header,
                hex(comp_id),
                hex(map),
                hex(body)
            )
        },
    );
}

fn hold_step(tally: &mut Tally, s: proved::Session, bytes: &[u8]) -> Stepped {
    let answer = stepped(s, bytes);
    tally.hold(answer.refusal, answer, proved::step(s, bytes), || {
        format!("step {} {}", shown(&s), hex(bytes))
    });
    answer
}

fn hold_connect(tally: &mut Tally, s: proved::Session, password: &[u8]) -> Connected {
    let answer = connected(s, password);
    tally.hold(answer.refusal, answer, proved::connect(s, password), || {
        format!("connect {} password {}", shown(&s), hex(password))
    });
    answer
}

fn hold_drop(tally: &mut Tally, s: proved::Session) -> proved::Session {
    let answer = dropped(s);
    tally.hold(answer.refusal, answer, proved::drop(s), || {
        format!("drop {}", shown(&s))
    });
    answer.session
}

fn hold_fresh(tally: &mut Tally, comp_id: &[u8]) {
    let answer = made(session::Session::fresh(comp_id));
    tally.hold(answer.refusal, answer, proved::fresh(comp_id), || {
        format!("fresh {}", hex(comp_id))
    });
}

fn hold_saved(tally: &mut Tally, comp_id: &[u8], e: u32, o: u32) -> proved::Session {
    let answer = made(session::Session::saved(comp_id, e, o));
    tally.hold(answer.refusal, answer, proved::saved(comp_id, e, o), || {
        format!("saved {} E {} O {}", hex(comp_id), e, o)
    });
    answer.session
}

fn hold_put(tally: &mut Tally, s: proved::Session, send: Send, room: usize) {
    let twin = |out: &mut [u8]| match session_of(&s) {
        None => refused(NOT_A_SESSION),
        Some(session) => written(session.put(numbers_of(send), out)),
    };
    hold_written(
        tally,
        room,
        twin,
        |out| proved::put(out, s, send),
        || format!("put {} {:?}", shown(&s), send),
    );
}

fn hold_put_logon(tally: &mut Tally, s: proved::Session, password: &[u8], room: usize) {
    let twin = |out: &mut [u8]| match session_of(&s) {
        None => refused(NOT_A_SESSION),
        Some(session) => written(session.put_logon(password, out)),
    };
    hold_written(
        tally,
        room,
        twin,
        |out| proved::put_logon(out, s, password),
        || format!("put_logon {} password {}", shown(&s), hex(password)),
    );
}

/// How many bytes every Logon has that a session sends.
const LOGON_LENGTH: usize =
    BODY_AT + tables::PASSWORD.width + tables::NEXT_EXPECTED.width + TRAILER;

// ---- Short inputs ----

/// One of each state, up since the day's first Logon.
fn small_sessions() -> [proved::Session; 3] {
    let mut session = session::Session::fresh(b"RECORDER01").expect("a good Comp ID");
    let down = struct_of(&session);
    session.connect(b"").expect("a fresh day connects");
    let waiting = struct_of(&session);
    session.phase = Phase::Live;
    [down, waiting, struct_of(&session)]
}

fn short_inputs(tally: &mut Tally, rng: &mut Rng, until: u64) {
    let sessions = small_sessions();
    let hold = |tally: &mut Tally, bytes: &[u8], turn: usize| {
        hold_read(tally, bytes);
        hold_fields(tally, bytes, [0, LIST][turn % 2]);
        hold_step(tally, sessions[1 + turn % 2], bytes);
    };
    for session in sessions {
        hold_step(tally, session, &[]);
    }
    hold(tally, &[], 0);
    for a in 0..=255 {
        for session in sessions {
            hold_step(tally, session, &[a]);
        }
        hold(tally, &[a], 0);
        for b in 0..=255 {
            hold(tally, &[a, b], usize::from(b));
        }
    }
    for length in 0..=u16::MAX {
        let [low, high] = length.to_le_bytes();
        hold(tally, &[wire::START, low, high], usize::from(length));
    }
    let until = tally.count() + until;
    while tally.count() < until {
        let count = rng.index(80);
        let mut bytes = rng.bytes(count);
        if count >= 3 && !rng.chance(10) {
            bytes[0] = wire::START;
            if !rng.chance(20) {
                let length = 50 + rng.below(40) as u16;
                bytes[1..3].copy_from_slice(&length.to_le_bytes());
            }
        }
        hold_read(tally, &bytes);
        hold_step(tally, sessions[rng.index(3)], &bytes);
        if rng.chance(10) {
            hold_parts(tally, &bytes);
            hold_questions(tally, &bytes, rng.index(300));
            hold_fields(tally, &bytes, list_room(rng, &bytes));
        }
    }
}

// ---- Valid messages ----

/// A number that a message can have.
fn message_number(rng: &mut Rng) -> u32 {
    rng.any_u32().max(1)
}

/// What the twin writes; nothing where it refuses.
fn written_bytes(given: &ToWrite) -> Vec<u8> {
    given.bytes().unwrap_or_default()
}

/// The length of what the twin writes; 0 where it refuses.
fn written_length(given: &ToWrite) -> usize {
    written_bytes(given).len()
}

fn valid_messages(tally: &mut Tally, rng: &mut Rng, until: u64) {
    let mut message_type = 0;
    while tally.count() < until {
        let comp_id = make::comp_id(rng);
        let number = message_number(rng);
        let mut bytes = make::message(rng, message_type, number, &comp_id);
        message_type = (message_type + 1) % types::COUNT as u8;
        let given = ToWrite::of(&bytes).expect("the maker makes good messages");
        if rng.chance(20) {
            let more = rng.index(70);
            bytes.extend(rng.bytes(more));
        }
        hold_read(tally, &bytes);
        hold_parts(tally, &bytes);
        let huge = match rng.below(4) {
            0 => usize::MAX,
            1 => 1 << 32,
            2 => 257 + rng.index(1 << 33),
            _ => rng.draw() as usize | 1 << 63,
        };
        for position in (0..=44).chain([255, 256, huge]) {
            hold_questions(tally, &bytes, position);
        }
        for room in list_rooms(rng, &bytes) {
            hold_fields(tally, &bytes, room);
        }
        for room in rooms(rng, written_length(&given)) {
            hold_write(tally, &given, room);
        }
    }
}

// ---- Writes, good and bad ----

/// The longest message of every type, and it with each text in turn a character
/// shorter and a character too long, into rooms on both sides of the longest
/// length. What is written is read again.
fn every_longest(tally: &mut Tally) {
    assert_eq!(
        proved::LONGEST_WRITTEN,
        tables::longest_of_all(),
        "the header's longest length is that of the tables"
    );
    for message_type in 0..=types::LAST {
        let mut all = vec![make::longest(message_type)];
        for text in make::texts(message_type) {
            all.push(make::one_shorter(message_type, text));
            all.push(make::one_too_long(message_type, text));
        }
        let length = tables::longest(message_type);
        for given in &all {
            for room in [length - 1, length, proved::LONGEST_WRITTEN] {
                hold_write(tally, given, room);
            }
            let bytes = written_bytes(given);
            if !bytes.is_empty() {
                hold_read(tally, &bytes);
                hold_parts(tally, &bytes);
                hold_fields(tally, &bytes, LIST);
            }
        }
    }
}

fn writes(tally: &mut Tally, rng: &mut Rng, until: u64) {
    every_longest(tally);
    let until = tally.count() + until;
    while tally.count() < until {
        let comp_id = make::comp_id(rng);
        let number = message_number(rng);
        let message_type = make::message_type(rng);
        let (map, body) = make::map_and_body(rng, message_type, &[]);
        let mut given = ToWrite {
            head: HeadValues {
                message_type,
                number,
                poss_dup: rng.below(2) as u8,
                poss_resend: rng.below(2) as u8,
            },
            comp_id,
            map,
            body,
        };
        // Two faults now and then, to see the order of the refusals.
        for _ in 0..[0, 1, 1, 1, 2, 2][rng.index(6)] {
            fault(rng, &mut given);
        }
        let length = written_length(&given);
        if length > 0 {
            for room in rooms(rng, length) {
                hold_write(tally, &given, room);
            }
            hold_write(tally, &given, rng.index(length));
        } else {
            hold_write(tally, &given, [0, 57, 200, wire::MOST][rng.index(4)]);
        }
    }
}

fn fault(rng: &mut Rng, given: &mut ToWrite) {
    match rng.below(11) {
        0 => given.head.message_type = 8 + rng.below(6) as u8,
        1 => given.head.message_type = rng.byte(),
        2 => given.head.number = 0,
        3 => given.head.poss_dup = rng.byte(),
        4 => given.head.poss_resend = rng.byte() % 4,
        5 => given.comp_id = odd_comp_id(rng),
        6 => {
            let width = if rng.chance(80) { 48 } else { 256 };
            let position = rng.index(width);
            given.map[position / 8] ^= 0x80 >> (position % 8);
        }
        7 if !given.body.is_empty() => {
            let at = rng.index(given.body.len());
            given.body[at] = [0, 1, 31, 127, 255, rng.byte()][rng.index(6)];
        }
        8 => make::spoil_text(rng, given.head.message_type, &given.map, &mut given.body),
        9 => given.body.truncate(rng.index(given.body.len() + 1)),
        _ => {
            let most = if rng.chance(90) { 9 } else { 5000 };
            let more = rng.index(most);
            given.body.extend(rng.bytes(more));
        }
    }
}

/// A Comp ID that is mostly a bad one: empty, too long, a bad character.
fn odd_comp_id(rng: &mut Rng) -> Vec<u8> {
    let mut text = match rng.below(4) {
        0 => Vec::new(),
        1 => vec![b'A'; 11 + rng.index(4)],
        _ => make::comp_id(rng),
    };
    if !text.is_empty() && rng.chance(50) {
        let at = rng.index(text.len());
        text[at] = [0, 31, 32, 126, 127, 128, 255][rng.index(7)];
    }
    text
}

// ---- Damage ----

/// The shortest of a few random messages of a type, and the longest.
fn short_and_long(rng: &mut Rng, message_type: u8) -> (Vec<u8>, Vec<u8>) {
    let mut all: Vec<Vec<u8>> = (0..40)
        .map(|_| make::message(rng, message_type, 7, b"RECORDER01"))
        .collect();
    all.sort_by_key(Vec::len);
    (all[0].clone(), all[39].clone())
}

/// Every other value of every byte: every single bit is among them.
fn every_damage(
    tally: &mut Tally,
    message: &[u8],
    right_sum: bool,
    mut hold: impl FnMut(&mut Tally, &[u8]),
) {
    for at in 0..message.len() {
        for other in 1..=255 {
            let mut bytes = message.to_vec();
            bytes[at] ^= other;
            if right_sum {
                make::reseal(&mut bytes);
            }
            hold(tally, &bytes);
        }
    }
}

fn damage(tally: &mut Tally, rng: &mut Rng, until: u64) {
    let both: Vec<_> = (0..=types::LAST)
        .map(|message_type| short_and_long(rng, message_type))
        .collect();
    for (short, _) in &both {
        every_damage(tally, short, false, hold_read);
        let of_lists = list_rooms(rng, short);
        every_damage(tally, short, true, |tally, bytes| {
            hold_read(tally, bytes);
            hold_fields(tally, bytes, of_lists[rng.index(of_lists.len())]);
            if rng.chance(5) {
                hold_questions(tally, bytes, rng.index(45));
            }
        });
    }
    let (_, long_report) = &both[usize::from(types::EXECUTION_REPORT)];
    every_damage(tally, long_report, false, hold_read);
    let of_lists = list_rooms(rng, long_report);
    every_damage(tally, long_report, true, |tally, bytes| {
        hold_read(tally, bytes);
        hold_fields(tally, bytes, of_lists[rng.index(of_lists.len())]);
    });

    let until = tally.count() + until;
    while tally.count() < until {
        let comp_id = make::comp_id(rng);
        let message_type = make::message_type(rng);
        let number = message_number(rng);
        let whole = make::message(rng, message_type, number, &comp_id);
        let bytes = make::spoil(rng, &whole);
        hold_read(tally, &bytes);
        hold_parts(tally, &bytes);
        hold_questions(tally, &bytes, rng.index(45));
        hold_questions(tally, &bytes, rng.index(300));
        hold_fields(tally, &bytes, LIST);
        hold_fields(tally, &bytes, list_room(rng, &bytes));
        let session = session::Session {
            phase: [Phase::Waiting, Phase::Live][rng.index(2)],
            comp_id,
            e: [number, rng.any_u32().max(1)][rng.index(2)],
            o: rng.any_u32().max(2),
            m: 0,
            repeats: 0,
        };
        hold_step(tally, struct_of(&session), &bytes);
        // The damaged map and body for the writer, where there are any.
        if bytes.len() >= BODY_AT + TRAILER {
            let mut map = [0; MAP_WIDTH];
            map.copy_from_slice(&bytes[wire::MAP_AT..BODY_AT]);
            let given = ToWrite {
                head: HeadValues {
                    message_type: bytes[3],
                    number: number.max(1),
                    poss_dup: 0,
                    poss_resend: 1,
                },
                comp_id: session.comp_id,
                map,
                body: bytes[BODY_AT..bytes.len() - TRAILER].to_vec(),
            };
            let length = written_length(&given);
            hold_write(tally, &given, rooms(rng, length)[rng.index(3)]);
        }
    }
}

// ---- Histories ----

/// A password that Connect should refuse: too long, or with a bad character.
fn odd_password(rng: &mut Rng) -> Vec<u8> {
    let mut password = rng.text(449, Allowed::Ascii);
    if rng.chance(30) {
        password.resize(449 + rng.index(4), b'p');
    }
    if !password.is_empty() && rng.chance(60) {
        let at = rng.index(password.len());
        password[at] = [0, 31, 127, 128, 255][rng.index(5)];
    }
    password
}

fn histories(tally: &mut Tally, rng: &mut Rng, until: u64) {
    while tally.count() < until {
        let start = make::start(rng);
        hold_fresh(tally, &start.comp_id);
        let mut s = hold_saved(tally, &start.comp_id, start.e, start.o);
        for event in make::events(rng, &start, 40) {
            if rng.chance(5) {
                // Calls beside the history: what they give is not kept.
                hold_connect(tally, s, &odd_password(rng));
                hold_drop(tally, s);
                hold_put_logon(tally, s, &odd_password(rng), logon_room(rng));
            }
            s = hold_event(tally, rng, s, &event);
        }
    }
}

/// One event of a history, with what is sent then as bytes; the session after it.
fn hold_event(
    tally: &mut Tally,
    rng: &mut Rng,
    s: proved::Session,
    event: &Event,
) -> proved::Session {
    match event {
        Event::Drop => hold_drop(tally, s),
        Event::Connect(password) => {
            let answer = hold_connect(tally, s, password);
            if answer.refusal == 0 {
                for room in rooms(rng, LOGON_LENGTH) {
                    hold_put_logon(tally, answer.session, password, room);
                }
            }
            answer.session
        }
        Event::Lend(bytes) => {
            let answer = hold_step(tally, s, bytes);
            for send in [answer.first, answer.second] {
                if send.kind == 0 {
                    continue;
                }
                let length = length_of(&answer.session, send);
                for room in rooms(rng, length) {
                    hold_put(tally, answer.session, send, room);
                }
            }
            answer.session
        }
    }
}

/// How many bytes a message to send has; 0 where there are none.
fn length_of(s: &proved::Session, send: Send) -> usize {
    let put = |session: session::Session| session.put(numbers_of(send), &mut [0; wire::MOST]);
    session_of(s).map_or(0, |session| put(session).unwrap_or(0))
}

/// Room for a Logon, or one byte less, or some more.
fn logon_room(rng: &mut Rng) -> usize {
    rooms(rng, LOGON_LENGTH)[rng.index(3)]
}

// ---- Sessions that no day has ----

fn small_or_any(rng: &mut Rng) -> u32 {
    match rng.below(3) {
        0 => rng.below(4) as u32,
        _ => rng.any_u32(),
    }
}

/// A session that some day may have, reached or not.
fn some_session(rng: &mut Rng) -> session::Session {
    let mut session = session::Session {
        phase: [Phase::Down, Phase::Waiting, Phase::Live][rng.index(3)],
        comp_id: make::comp_id(rng),
        e: rng.any_u32().max(1),
        o: rng.any_u32().max(3),
        m: 0,
        repeats: 0,
    };
    if session.phase == Phase::Live && rng.chance(50) {
        open_hole(rng, &mut session);
    }
    session
}

/// Lets M stand in a Live session, and a count with it that O has numbers for.
fn open_hole(rng: &mut Rng, session: &mut session::Session) {
    let ahead = session.e.saturating_add(rng.below(5) as u32);
    session.m = ahead.max(2);
    session.repeats = rng.below(u64::from(MOST_REPEATS) + 1) as u32;
    session.o = session.o.max(ASKED_ONCE + session.repeats);
}

/// One field made another, so that the struct may no longer be a session.
fn bend(rng: &mut Rng, s: &mut proved::Session) {
    match rng.below(7) {
        0 => s.state = small_or_any(rng),
        1 => {
            let at = rng.index(12);
            s.comp_id[at] = [0, 1, 31, 32, 126, 127, 128, 255][rng.index(8)];
        }
        2 => {
            // Characters to the end, or a hole among them.
            s.comp_id = [b'Z'; 12];
            if rng.chance(70) {
                s.comp_id[rng.index(12)] = 0;
            }
        }
        3 => s.expected = small_or_any(rng),
        4 => s.own = rng.below(7) as u32,
        5 => s.repeats = COUNTS[rng.index(COUNTS.len())],
        _ => {
            s.ahead = match rng.below(5) {
                0 => s.expected.wrapping_sub(1),
                1 => s.expected,
                2 => s.expected.wrapping_add(1),
                _ => small_or_any(rng),
            }
        }
    }
}

fn any_struct(rng: &mut Rng) -> proved::Session {
    let mut s = proved::Session {
        state: rng.draw() as u32,
        expected: rng.any_u32(),
        own: rng.any_u32(),
        ahead: rng.any_u32(),
        repeats: rng.any_u32(),
        ..proved::Session::default()
    };
    for byte in &mut s.comp_id {
        *byte = rng.byte();
    }
    s
}

/// Both sides of every bound of what a message to send may hold, the highest ID's
/// among them.
const EDGES: [u32; 10] = [
    0,
    1,
    2,
    3,
    u16::MAX as u32 - 1,
    u16::MAX as u32,
    u16::MAX as u32 + 1,
    LAST - 2,
    LAST - 1,
    LAST,
];

/// A message to send that a step or a tick gives.
fn some_send(rng: &mut Rng) -> session::Send {
    let number = rng.any_u32().clamp(2, LAST - 1);
    let start = rng.any_u32().clamp(1, LAST - 1);
    match rng.below(7) {
        0 => session::Send::None,
        1 => session::Send::Heartbeat {
            number,
            id: rng.value(2) as u16,
        },
        2 => session::Send::Logout { number },
        3 => session::Send::GapFill {
            first: start,
            new: rng.any_u32().max(start + 1),
        },
        4 => session::Send::ResendRequest {
            number,
            start,
            end: 0,
        },
        5 => session::Send::TestRequest {
            number,
            id: session::test_request_id(number),
        },
        _ => session::Send::BareHeartbeat { number },
    }
}

/// A message to send, in half of the cases with one member made another, so that
/// no call may give it.
fn any_send(rng: &mut Rng) -> Send {
    let mut send = shown_send(some_send(rng));
    if rng.chance(50) {
        let other = match rng.below(5) {
            0 => send
                .number
                .wrapping_add(rng.below(3) as u32)
                .wrapping_sub(1),
            1 => rng.any_u32(),
            2 => send.first ^ 1 << rng.below(32),
            _ => EDGES[rng.index(EDGES.len())],
        };
        match rng.below(5) {
            0 => send.kind = rng.below(u64::from(LAST_KIND) + 2) as u32,
            1 => send.kind = rng.any_u32(),
            2 => send.number = other,
            3 => send.first = other,
            _ => send.second = other,
        }
    }
    send
}

/// Every kind and one more, with every member at every edge.
fn every_edge(tally: &mut Tally) {
    for kind in 0..=LAST_KIND + 1 {
        for number in EDGES {
            for first in EDGES {
                for second in [0, 1, LAST] {
                    hold_everywhere(tally, send_struct([kind, number, first, second]));
                }
            }
        }
    }
}

/// Test Requests with every number at an edge, and at one where the ID begins anew,
/// with their ID, those beside it, and numbers with the ID in their low half.
fn every_test_request(tally: &mut Tally) {
    let begins_anew = [131_071, 131_072, 131_073, 1 << 31];
    for number in EDGES.into_iter().chain(begins_anew) {
        let id = u32::from(session::test_request_id(number));
        let others = [number, id + 65_536, id | 1 << 31];
        for first in others.into_iter().chain([id.wrapping_sub(1), id, id + 1]) {
            for kind in [HEARTBEAT_WITH_ID, TEST_REQUEST, BARE_HEARTBEAT] {
                hold_everywhere(tally, send_struct([kind, number, first, 0]));
            }
        }
    }
}

/// What the C interface calls the messages to send that a tick gives, and the one
/// that is most like them.
const HEARTBEAT_WITH_ID: u32 = 1;
const TEST_REQUEST: u32 = 5;
const BARE_HEARTBEAT: u32 = 6;

/// A message to send under a session of each state and under what is none, with
/// just enough room and with one byte less.
fn hold_everywhere(tally: &mut Tally, send: Send) {
    let [down, waiting, live] = small_sessions();
    for s in [down, waiting, live, NO_DAY] {
        let length = length_of(&s, send);
        hold_put(tally, s, send, length);
        hold_put(tally, s, send, length.saturating_sub(1));
    }
}

/// Connect's Logon from a session of each state, with numbers at every edge, and
/// from what is no session.
fn every_logon(tally: &mut Tally) {
    let longest = vec![b'p'; tables::PASSWORD.width - 1];
    let too_long = vec![b'p'; tables::PASSWORD.width];
    let passwords = [&b""[..], b"ready encrypted", &longest, &too_long, b"\x7F"];
    for state in proved::DOWN..=proved::LIVE + 1 {
        for expected in EDGES {
            for own in EDGES {
                let s = proved::Session {
                    state,
                    expected,
                    own,
                    ..small_sessions()[0]
                };
                for password in passwords {
                    for room in [0, LOGON_LENGTH - 1, LOGON_LENGTH, LOGON_LENGTH + 1] {
                        hold_put_logon(tally, s, password, room);
                    }
                }
            }
        }
    }
}

/// Counts of repeats that a session may have, those just above them, and some
/// whose low bits look good or whose sum with the least O runs over.
const COUNTS: [u32; 11] = [
    0,
    1,
    2,
    3,
    4,
    1 << 8,
    1 << 16,
    1 << 31,
    LAST - 2,
    LAST - 1,
    LAST,
];

/// Both sides of every bound of a session's numbers: each of the least O with its
/// count is among them.
const SESSION_EDGES: [u32; 10] = [0, 1, 2, 3, 4, 5, 6, LAST - 2, LAST - 1, LAST];

/// A session of every state and one more, with each of the counts of repeats and E,
/// O and M at every edge, to Drop and a step, and to one of the other calls that
/// take a session.
fn every_count(tally: &mut Tally, rng: &mut Rng) {
    let us = small_sessions()[0];
    let session = session_of(&us).expect("a session of some day");
    let heartbeat = Sent::Of(types::HEARTBEAT);
    let ahead = make::sent(rng, &session.comp_id, LAST, 1, heartbeat);
    let logout = shown_send(session::Send::Logout { number: 2 });
    for state in proved::DOWN..=proved::LIVE + 1 {
        for repeats in COUNTS {
            for expected in SESSION_EDGES {
                for own in SESSION_EDGES {
                    for ahead_of in SESSION_EDGES {
                        let s = proved::Session {
                            state,
                            expected,
                            own,
                            ahead: ahead_of,
                            repeats,
                            ..us
                        };
                        hold_drop(tally, s);
                        hold_step(tally, s, &ahead);
                        match rng.below(4) {
                            0 => {
                                hold_connect(tally, s, b"");
                            }
                            1 => {
                                hold_many(tally, s, &ahead, Rooms::steps(1));
                            }
                            2 => hold_put(tally, s, logout, proved::LONGEST_WRITTEN),
                            _ => hold_put_logon(tally, s, b"", proved::LONGEST_WRITTEN),
                        }
                    }
                }
            }
        }
    }
}

fn odd_sessions(tally: &mut Tally, rng: &mut Rng, until: u64) {
    every_edge(tally);
    every_test_request(tally);
    every_logon(tally);
    every_count(tally, rng);
    let until = tally.count() + until;
    while tally.count() < until {
        let some = some_session(rng);
        let mut s = struct_of(&some);
        match rng.below(10) {
            0 => s = any_struct(rng),
            1 => {
                bend(rng, &mut s);
                bend(rng, &mut s);
            }
            2 | 3 => {}
            _ => bend(rng, &mut s),
        }
        let bytes = make::arrival(rng, &some);
        hold_step(tally, s, &bytes);
        hold_drop(tally, s);
        let password = if rng.chance(50) {
            rng.text(449, Allowed::Ascii)
        } else {
            odd_password(rng)
        };
        hold_connect(tally, s, &password);
        let send = any_send(rng);
        for room in rooms(rng, length_of(&s, send)) {
            hold_put(tally, s, send, room);
        }
        hold_put_logon(tally, s, &password, logon_room(rng));

        let comp_id = odd_comp_id(rng);
        hold_fresh(tally, &comp_id);
        // What stands beside a refusal is refused in its turn.
        let made = hold_saved(tally, &comp_id, rng.any_u32(), rng.any_u32());
        hold_drop(tally, made);
    }
}

// ---- Plan ----

fn plans(tally: &mut Tally, rng: &mut Rng, until: u64) {
    while tally.count() < until {
        let mut list = match rng.below(200) {
            0 => make::list(rng, plan::LONGEST_LIST),
            1 => vec![rng.below(2) as u8; plan::LONGEST_LIST - 1 + rng.index(3)],
            2..=40 => make::list(rng, 1000),
            _ => make::list(rng, 30),
        };
        if list.len() > 40_000 && rng.chance(20) {
            let at = rng.index(list.len());
            list[at] = 2;
        }
        let near = |rng: &mut Rng| match rng.below(5) {
            0 => rng.any_u32(),
            1 => (list.len() as u32 + 1).saturating_sub(rng.below(3) as u32),
            _ => rng.below(list.len() as u64 + 2) as u32,
        };
        let (start, end) = (near(rng), near(rng));
        let mut all = vec![[0; 2]; list.len()];
        let needed = plan::plan(&list, start, end, &mut all).unwrap_or(0);
        let room = match rng.below(5) {
            0 => 2 * needed,
            1 => (2 * needed).saturating_sub(1 + rng.index(3)),
            2 => 2 * needed + rng.index(9),
            3 => 0,
            _ => rng.index(2 * needed + 3),
        };
        hold_plan(tally, &list, start, end, room);
    }
}

/// Room is counted in numbers: an odd one at the end holds no pair.
fn hold_plan(tally: &mut Tally, list: &[u8], start: u32, end: u32, room: usize) {
    let mut its = guarded(room);
    let mut ours = its.clone();
    let lent = &mut ours[GUARD..GUARD + room];
    let mut pairs: Vec<[u32; 2]> = lent
        .chunks_exact(A_PAIR)
        .map(|pair| [pair[0], pair[1]])
        .collect();
    let answer = planned(plan::plan(list, start, end, &mut pairs));
    for (at, number) in pairs.concat().into_iter().enumerate() {
        lent[at] = number;
    }
    let its_answer = proved::plan(list, start, end, &mut its[GUARD..GUARD + room]);
    tally.hold(answer.refusal, (answer, ours), (its_answer, its), || {
        format!(
            "plan start {} end {} room {} list {}",
            start,
            end,
            room,
            hex(list)
        )
    });
}

// ---- CRC32C ----

fn sums(tally: &mut Tally, rng: &mut Rng, until: u64) {
    while tally.count() < until {
        let most = if rng.chance(95) { 100 } else { 5000 };
        let count = rng.index(most);
        let bytes = rng.bytes(count);
        tally.hold(0, crc::crc32c(&bytes), proved::crc32c(&bytes), || {
            format!("crc32c {}", hex(&bytes))
        });
    }
}

// ---- Decimals as text ----

/// Rooms below the shortest text and above the longest, which has 21 bytes.
const TEXT_ROOMS: usize = 26;

fn decimals(tally: &mut Tally, rng: &mut Rng, until: u64) {
    // Where a digit is added, before the point or after it, on both sides of 0.
    let mut edges = vec![0, i64::MIN, i64::MIN + 1, i64::MAX - 1, i64::MAX];
    for places in 0..=18 {
        let ten = 10_i64.pow(places);
        for edge in [ten - 1, ten, ten + 1, 5 * (ten / 10)] {
            edges.extend([edge, -edge]);
        }
    }
    for decimal in edges {
        for room in 0..TEXT_ROOMS {
            hold_decimal(tally, decimal, room);
        }
    }
    while tally.count() < until {
        // Texts of every length: high bits cleared, and zeros at the end.
        let ten = 10_i64.pow(rng.below(18) as u32);
        let decimal = match rng.below(3) {
            0 => rng.draw() as i64,
            1 => rng.draw() as i64 >> rng.below(64),
            _ => (rng.draw() as i64 >> rng.below(64)) / ten * ten,
        };
        let length = wire::decimal_text(decimal).len();
        let room = match rng.below(4) {
            0 => length,
            1 => length - 1,
            _ => rng.index(TEXT_ROOMS),
        };
        hold_decimal(tally, decimal, room);
    }
}

fn hold_decimal(tally: &mut Tally, decimal: i64, room: usize) {
    hold_written(
        tally,
        room,
        |out| written(writer::put(wire::decimal_text(decimal).as_bytes(), out)),
        |out| proved::decimal_text(out, decimal),
        || format!("decimal_text {}", decimal),
    );
}

// ---- Many messages in one call ----

/// How many numbers the two lists of a call with many messages hold.
#[derive(Clone, Copy, Debug)]
struct Rooms {
    rows: usize,
    sends: usize,
}

impl Rooms {
    /// Room for all that so many steps may give.
    fn steps(count: usize) -> Rooms {
        Rooms {
            rows: A_ROW * ROWS_A_STEP * count,
            sends: A_SEND * SENDS_A_STEP * count,
        }
    }

    /// Room for all that so many bytes may give: each step but the last uses a
    /// message.
    fn enough(count: usize) -> Rooms {
        Rooms::steps(count / wire::LEAST + 1)
    }
}

/// The two lists of a call with many messages, each with guards on both sides.
#[derive(Clone, Debug, PartialEq)]
struct Lists {
    rows: Vec<u32>,
    sends: Vec<u32>,
}

impl Lists {
    fn new(rooms: Rooms) -> Lists {
        Lists {
            rows: guarded(rooms.rows),
            sends: guarded(rooms.sends),
        }
    }

    /// What is lent to the call, the guards left out.
    fn lent(&mut self) -> (&mut [u32], &mut [u32]) {
        let (rows, sends) = (self.rows.len() - GUARD, self.sends.len() - GUARD);
        (&mut self.rows[GUARD..rows], &mut self.sends[GUARD..sends])
    }
}

fn not_a_session(s: proved::Session) -> Done {
    Done {
        refusal: NOT_A_SESSION,
        session: s,
        ..Done::default()
    }
}

/// The library's call.
fn library_many(s: proved::Session, bytes: &[u8], mut lists: Lists) -> (Done, Lists) {
    let (rows, sends) = lists.lent();
    let done = proved::steps(s, bytes, rows, sends);
    (done, lists)
}

/// The twin's.
fn twin_many(s: proved::Session, bytes: &[u8], mut lists: Lists) -> (Done, Lists) {
    let mut session = match session_of(&s) {
        None => return (not_a_session(s), lists),
        Some(session) => session,
    };
    let (rows, sends) = lists.lent();
    let done = session.steps(bytes, rows, sends);
    (Done::of(struct_of(&session), done), lists)
}

/// The plain decoder's.
fn plain_many(s: proved::Session, bytes: &[u8], mut lists: Lists) -> (Done, Lists) {
    let mut session = match session_of(&s) {
        None => return (not_a_session(s), lists),
        Some(session) => session,
    };
    let mut fast = plain::Session::of(&session);
    let (rows, sends) = lists.lent();
    let done = fast.steps(bytes, rows, sends);
    session.phase = fast.phase;
    (session.e, session.o) = (fast.e, fast.o);
    (session.m, session.repeats) = (fast.m, fast.repeats);
    (Done::of(struct_of(&session), done), lists)
}

/// Lays numbers into a list's slot of this index.
fn lay_slot(list: &mut [u32], index: usize, numbers: &[u32]) {
    list[index * numbers.len()..][..numbers.len()].copy_from_slice(numbers);
}

/// What a call must give, by the library's own single steps in turn: `step` gives
/// what is kept after a step, a session or a line, and the session's answer. The
/// first is on no bytes: it tells whether the session is up, and a line the time.
fn singles_by<S: Copy>(
    given: S,
    bytes: &[u8],
    mut lists: Lists,
    step: impl Fn(S, &[u8]) -> (S, Stepped),
) -> (S, Done, Lists) {
    let (rows, sends) = lists.lent();
    let (mut kept, told) = step(given, &[]);
    let mut done = Done {
        session: told.session,
        ..Done::default()
    };
    let least = Rooms::steps(1);
    done.refusal = match told.refusal {
        wire::SHORT if rows.len() < least.rows || sends.len() < least.sends => wire::NO_ROOM,
        wire::SHORT => 0,
        refusal => refusal,
    };
    match done.refusal {
        0 => {}
        session::DOWN => {
            done.ended = Ended::Down as u32;
            done.code = session::DOWN;
            return (kept, done, lists);
        }
        wire::NO_ROOM => {
            done.ended = Ended::NoSlot as u32;
            (done.rows, done.sends) = (ROWS_A_STEP, SENDS_A_STEP);
            return (kept, done, lists);
        }
        _ => return (kept, done, lists),
    }
    loop {
        let rest = &bytes[done.used..];
        let (after, answer) = step(kept, rest);
        if answer.refusal == wire::SHORT {
            done.ended = Ended::Short as u32;
            done.besides = answer.besides;
            return (kept, done, lists);
        }
        // What its own step gave and refuses now: the turn would be endless, and what
        // it ends with is a difference.
        if answer.refusal == NOT_A_SESSION {
            done.refusal = NOT_A_SESSION;
            return (kept, done, lists);
        }
        let Row { kind, first, last } = answer.row;
        let to_send = [answer.first, answer.second];
        let to_send = to_send.iter().filter(|send| send.kind != 0);
        let row_end = done.rows + usize::from(kind != 0);
        let send_end = done.sends + to_send.clone().count();
        if A_ROW * row_end > rows.len() || A_SEND * send_end > sends.len() {
            done.ended = Ended::NoSlot as u32;
            return (kept, done, lists);
        }
        if kind != 0 {
            let numbers = [kind, first, last, done.used as u32, answer.used as u32];
            lay_slot(rows, done.rows, &numbers);
        }
        for (index, send) in (done.sends..).zip(to_send) {
            lay_slot(sends, index, &numbers_of(*send));
        }
        kept = after;
        done.session = answer.session;
        done.used += answer.used;
        (done.rows, done.sends) = (row_end, send_end);
        if done.session.state == proved::DOWN {
            done.ended = Ended::Down as u32;
            (done.code, done.besides) = (answer.refusal, answer.besides);
            return (kept, done, lists);
        }
    }
}

/// The same of a session.
fn singles(s: proved::Session, bytes: &[u8], lists: Lists) -> (Done, Lists) {
    let (_, done, lists) = singles_by(s, bytes, lists, |s, rest| {
        let answer = proved::step(s, rest);
        (answer.session, answer)
    });
    (done, lists)
}

/// What a call over all the bytes must give, by the library's calls over their
/// front and then over what that left unused and the rest. The lists have enough
/// room, so that no slot is missing.
fn in_two(s: proved::Session, bytes: &[u8], cut: usize) -> (Done, Lists) {
    let (first, mut lists) = library_many(s, &bytes[..cut], Lists::new(Rooms::enough(bytes.len())));
    if first.refusal != 0 || first.ended != Ended::Short as u32 {
        return (first, lists);
    }
    let left = &bytes[first.used..];
    let (mut then, mut more) =
        library_many(first.session, left, Lists::new(Rooms::enough(left.len())));
    let (rows, sends) = lists.lent();
    let (more_rows, more_sends) = more.lent();
    for (index, row) in (first.rows..).zip(more_rows.chunks_exact_mut(A_ROW).take(then.rows)) {
        // Its place was counted from what was left.
        row[ROW_PLACE] += first.used as u32;
        lay_slot(rows, index, row);
    }
    for (index, send) in (first.sends..).zip(more_sends.chunks_exact(A_SEND).take(then.sends)) {
        lay_slot(sends, index, send);
    }
    then.used += first.used;
    then.rows += first.rows;
    then.sends += first.sends;
    (then, lists)
}

/// The refusal that a call met: its own, or that of the step which left the
/// session Down.
fn met(done: &Done) -> u32 {
    if done.refusal != 0 {
        done.refusal
    } else {
        done.code
    }
}

/// The whole answer, and every number of both lists afterwards, of the library,
/// of the twin and of the plain decoder; then of the library's single steps.
fn hold_many(tally: &mut Tally, s: proved::Session, bytes: &[u8], rooms: Rooms) -> Done {
    let lists = Lists::new(rooms);
    let input = |how: &str| {
        let (session, bytes) = (shown(&s), hex(bytes));
        format!("steps, {}, {} {:?} {}", how, session, rooms, bytes)
    };
    let twin = twin_many(s, bytes, lists.clone());
    let plain = plain_many(s, bytes, lists.clone());
    let proved = library_many(s, bytes, lists.clone());
    let done = twin.0;
    let refusal = met(&done);
    tally.ended[done.ended as usize] += 1;
    let both = [proved.clone(), proved.clone()];
    tally.hold(refusal, [twin, plain], both, || input("twin and plain"));
    let singles = singles(s, bytes, lists);
    tally.hold(refusal, singles, proved, || input("single steps"));
    done
}

/// One call over all the bytes, against two. The twin has met this refusal over
/// them.
fn hold_in_two(tally: &mut Tally, refusal: u32, s: proved::Session, bytes: &[u8], cut: usize) {
    let proved = library_many(s, bytes, Lists::new(Rooms::enough(bytes.len())));
    tally.hold(refusal, in_two(s, bytes, cut), proved, || {
        let (session, bytes) = (shown(&s), hex(bytes));
        format!("steps, two calls cut at {}, {} {}", cut, session, bytes)
    });
}

/// Below these many numbers every room is tried, those too that make no whole
/// slot.
const ROW_ROOMS: usize = 8 * A_ROW + 1;
const SEND_ROOMS: usize = 6 * A_SEND + 1;

/// Rooms of which one at least is small.
fn small_rooms(rng: &mut Rng, count: usize) -> Rooms {
    let mut rooms = Rooms::enough(count);
    let which = rng.below(4);
    if which != 0 {
        rooms.rows = rng.index(ROW_ROOMS);
    }
    // Messages to send are rare, so the least room is tried more often.
    if which != 1 {
        rooms.sends = if rng.chance(50) {
            Rooms::steps(1).sends + rng.index(A_SEND)
        } else {
            rng.index(SEND_ROOMS)
        };
    }
    rooms
}

/// How many numbers a slice may take, and more.
const SPARE: u32 = 1_000;

/// A session to step on slices: mostly one that is up, with numbers to spare.
fn session_for_many(rng: &mut Rng) -> session::Session {
    let mut session = some_session(rng);
    if session.phase == Phase::Down && rng.chance(80) {
        session.phase = Phase::Live;
    }
    if rng.chance(80) {
        session.o = session.o.min(LAST - SPARE);
        if session.e > LAST - SPARE {
            session.e = LAST - SPARE;
            (session.m, session.repeats) = (0, 0);
        }
    }
    session
}

/// A slice that gives more rows and more messages to send than the small rooms
/// hold.
fn full_slice(rng: &mut Rng, session: &session::Session) -> Vec<u8> {
    loop {
        let bytes = make::slice(rng, session, 40);
        let lists = Lists::new(Rooms::enough(bytes.len()));
        let (done, _) = twin_many(struct_of(session), &bytes, lists);
        if A_ROW * done.rows > ROW_ROOMS && A_SEND * done.sends > SEND_ROOMS {
            return bytes;
        }
    }
}

fn many_messages(tally: &mut Tally, rng: &mut Rng, until: u64) {
    let [down, waiting, live] = small_sessions();
    for up in [waiting, live] {
        let session = session_of(&up).expect("a session of some day");
        let bytes = full_slice(rng, &session);
        for rows in 0..ROW_ROOMS {
            for sends in 0..SEND_ROOMS {
                for s in [down, up] {
                    hold_many(tally, s, &bytes, Rooms { rows, sends });
                }
            }
        }
    }
    while tally.count() < until {
        let mut session = session_for_many(rng);
        // The session goes on from slice to slice.
        for _ in 0..3 {
            let count = 1 + rng.index(12);
            let mut bytes = make::slice(rng, &session, count);
            if rng.chance(3) {
                let more = rng.index(200);
                let at = rng.index(bytes.len() + 1);
                bytes.splice(at..at, rng.bytes(more));
            }
            let mut s = struct_of(&session);
            match rng.below(30) {
                0 => s = any_struct(rng),
                1 | 2 => bend(rng, &mut s),
                _ => {}
            }
            let done = hold_slice(tally, rng, s, &bytes, 6);
            match session_of(&done.session) {
                Some(next) if next.phase != Phase::Down => session = next,
                _ => break,
            }
        }
    }
}

/// A slice into lists with enough room and with little, and cut in two so often.
fn hold_slice(
    tally: &mut Tally,
    rng: &mut Rng,
    s: proved::Session,
    bytes: &[u8],
    cuts: usize,
) -> Done {
    let done = hold_many(tally, s, bytes, Rooms::enough(bytes.len()));
    hold_many(tally, s, bytes, small_rooms(rng, bytes.len()));
    for _ in 0..cuts {
        let cut = rng.index(bytes.len() + 1);
        hold_in_two(tally, met(&done), s, bytes, cut);
    }
    done
}

// ---- Holes in the answer ----

/// A step of a day with holes, as the twin does it.
struct Seen {
    before: session::Session,
    /// None where the reader refuses the message.
    head: Option<Head>,
    answer: session::Answer,
    after: session::Session,
    /// Whether the count was cleared by another E while the same M stands.
    afresh: bool,
}

impl Seen {
    /// Whether the step asked again from an E from which it had asked again so
    /// often.
    fn asks_again(&self, before: u32) -> bool {
        self.before.repeats == before && self.after.repeats == before + 1
    }

    /// Whether a gap fill stands before what is asked.
    fn fills_first(&self) -> bool {
        let [first, second] = self.answer.sends;
        matches!(first, session::Send::GapFill { .. })
            && matches!(second, session::Send::ResendRequest { .. })
    }

    /// Whether the step answered this number to a message ahead of E with this
    /// PossDup, while M stood.
    fn ahead(&self, poss_dup: u8, code: u32) -> bool {
        let is_ahead = |head: Head| head.number > self.before.e && head.poss_dup == poss_dup;
        self.before.m != 0 && self.answer.code == code && self.head.map_or(false, is_ahead)
    }

    fn is_of(&self, message_type: u8) -> bool {
        self.head
            .map_or(false, |head| head.message_type == message_type)
    }

    fn is_spent(&self) -> bool {
        self.ahead(1, session::REPEATS_SPENT)
    }

    /// Whether PossDup 0 left all as it was, with so many repeats asked before.
    fn is_quiet(&self, repeats: u32) -> bool {
        self.ahead(0, 0)
            && self.before.repeats == repeats
            && !self.is_of(types::SEQUENCE_RESET)
            && self.after == self.before
    }

    /// Whether the step kept a count that is not 0, and sent nothing.
    fn keeps(&self) -> bool {
        self.before.repeats > 0
            && self.after == self.before
            && self.answer.sends == [session::Send::None; 2]
    }

    /// Whether the step cleared a count that was not 0 and left the session Live.
    fn clears(&self) -> bool {
        self.before.repeats > 0 && self.after.repeats == 0 && self.after.phase == Phase::Live
    }

    fn is_last(&self) -> bool {
        self.before.o == LAST
    }
}

/// What a part of the comparison must meet: its name, and how to see it. One that
/// is never met fails the run, so that none is lost without a word when the makers
/// change.
type Situation<S> = (&'static str, fn(&S) -> bool);

/// What days with holes must meet.
const SITUATIONS: [Situation<Seen>; 25] = [
    ("first repeat alone", |seen| {
        seen.asks_again(0) && !seen.fills_first()
    }),
    ("second repeat alone", |seen| {
        seen.asks_again(1) && !seen.fills_first()
    }),
    ("gap fill, first repeat", |seen| {
        seen.asks_again(0) && seen.fills_first()
    }),
    ("gap fill, second repeat", |seen| {
        seen.asks_again(1) && seen.fills_first()
    }),
    ("37 and a Logout", |seen| seen.is_spent() && !seen.is_last()),
    ("37 before 22, no Logout", |seen| {
        seen.is_spent() && seen.is_last()
    }),
    ("37 and no gap fill", |seen| {
        seen.is_spent() && seen.is_of(types::RESEND_REQUEST)
    }),
    ("34 before 37", |seen| {
        seen.ahead(1, session::BAD_RESEND) && seen.before.repeats == MOST_REPEATS
    }),
    ("34 before 37 and 22", |seen| {
        seen.ahead(1, session::BAD_RESEND) && seen.before.repeats == MOST_REPEATS && seen.is_last()
    }),
    ("34 before 22", |seen| {
        seen.ahead(1, session::BAD_RESEND) && seen.before.repeats < MOST_REPEATS && seen.is_last()
    }),
    ("22 for the first repeat", |seen| {
        seen.ahead(1, session::EXHAUSTED) && seen.before.repeats == 0
    }),
    ("22 for the second repeat", |seen| {
        seen.ahead(1, session::EXHAUSTED) && seen.before.repeats == 1
    }),
    ("22 and no gap fill", |seen| {
        seen.ahead(1, session::EXHAUSTED) && seen.is_of(types::RESEND_REQUEST)
    }),
    ("PossDup 0, count 0", |seen| seen.is_quiet(0)),
    ("PossDup 0, count 1", |seen| seen.is_quiet(1)),
    ("PossDup 0, count 2", |seen| seen.is_quiet(2)),
    ("PossDup 0, no number left", |seen| {
        seen.is_quiet(MOST_REPEATS) && seen.is_last()
    }),
    ("count kept over a spoiled copy", |seen| {
        seen.keeps() && seen.answer.code == wire::BAD_SUM
    }),
    ("count kept over a lower number", |seen| {
        let is_lower = |head: Head| head.number < seen.before.e;
        seen.keeps() && seen.head.map_or(false, is_lower)
    }),
    ("count kept over a reset to E", |seen| {
        // A gap fill ahead of E with PossDup 1 would ask again or stop.
        seen.keeps() && seen.ahead(1, 0) && seen.is_of(types::SEQUENCE_RESET)
    }),
    ("count cleared, M stands", |seen| {
        seen.clears() && seen.after.m != 0
    }),
    ("count cleared with M", |seen| {
        seen.clears() && seen.after.m == 0
    }),
    ("first repeat afresh", |seen| {
        seen.asks_again(0) && seen.afresh
    }),
    ("second repeat afresh", |seen| {
        seen.asks_again(1) && seen.afresh
    }),
    ("37 afresh", |seen| seen.is_spent() && seen.afresh),
];

/// How often each situation was met.
type Situations = [u64; SITUATIONS.len()];

fn met_of<S>(situations: &[Situation<S>], met: &[u64]) -> String {
    let all = situations.iter().zip(met);
    let all: Vec<String> = all
        .map(|((name, _), times)| format!("{} ({})", name, times))
        .collect();
    all.join(", ")
}

fn missed(met: &[u64]) -> bool {
    met.contains(&0)
}

/// Counts the situations that were met here.
fn note<S>(situations: &[Situation<S>], met: &mut [u64], seen: &S) {
    for (times, (_, is_met)) in met.iter_mut().zip(situations) {
        *times += u64::from(is_met(seen));
    }
}

/// Where the counts of single steps stand, and those of many messages.
const SINGLES: usize = 0;
const MANY: usize = 1;

/// The twin's session, led over a day to see what the day meets.
struct Watch {
    session: session::Session,
    afresh: bool,
}

impl Watch {
    fn new(session: session::Session) -> Watch {
        Watch {
            session,
            afresh: false,
        }
    }

    fn event(&mut self, event: &Event, met: &mut Situations) {
        if let Event::Lend(bytes) = event {
            self.step(bytes, met);
        } else {
            make::lead(&mut self.session, event);
        }
    }

    /// One step; the answer's code.
    fn step(&mut self, bytes: &[u8], met: &mut Situations) -> u32 {
        let before = self.session.clone();
        let answer = self.session.step(bytes);
        let seen = Seen {
            head: reader::read(bytes).ok(),
            answer,
            after: self.session.clone(),
            afresh: self.afresh,
            before,
        };
        note(&SITUATIONS, met, &seen);
        // A step that moves E may let M stand: the count begins anew under it.
        self.afresh = self.session.m != 0 && (self.afresh || seen.clears());
        answer.code
    }

    /// What a call over these bytes does, with enough room.
    fn slice(&mut self, bytes: &[u8], met: &mut Situations) {
        let mut used = 0;
        while self.session.phase != Phase::Down {
            let rest = &bytes[used..];
            let code = self.step(rest, met);
            if code == wire::SHORT {
                return;
            }
            used += session::used(code, rest);
        }
    }
}

/// E of the sessions that are tried with every message, and how far M lies from it.
const HOLES_AT: [u32; 6] = [1, 2, 7, LAST - 2, LAST - 1, LAST];
const TO_AHEAD: [u32; 3] = [0, 1, 3];

/// Each message that the rules tell apart, for a session with this E and O: with
/// every number on both sides of E and M and each PossDup.
fn every_message(rng: &mut Rng, session: &session::Session) -> Vec<Vec<u8>> {
    let session::Session { e, o, m, .. } = *session;
    let mut numbers = vec![
        1,
        e.saturating_sub(1).max(1),
        e,
        e.saturating_add(1),
        m - 1,
        m,
        m.saturating_add(1),
        LAST,
    ];
    numbers.sort_unstable();
    numbers.dedup();
    let mut all = Vec::new();
    for number in numbers {
        let mut sorts = vec![
            Sent::ResendRequest { start: 1, end: 0 },
            Sent::ResendRequest { start: 1, end: 1 },
            Sent::ResendRequest {
                start: o - 1,
                end: o,
            },
            Sent::ResendRequest { start: 0, end: 0 },
            Sent::ResendRequest { start: o, end: 0 },
            Sent::ResendRequest { start: 2, end: 1 },
            Sent::GapFill { new: 0 },
            Sent::GapFill { new: number },
            Sent::GapFill {
                new: number.saturating_add(1),
            },
            Sent::GapFill { new: LAST },
            Sent::Reset { new: e - 1 },
            Sent::Reset { new: e },
            Sent::Reset {
                new: e.saturating_add(1),
            },
            Sent::Reset {
                new: m.saturating_add(1),
            },
        ];
        let free = (0..=types::LAST).filter(|&message_type| {
            message_type != types::RESEND_REQUEST && message_type != types::SEQUENCE_RESET
        });
        sorts.extend(free.map(Sent::Of));
        for what in sorts {
            for poss_dup in [0, 1] {
                all.push(make::sent(rng, &session.comp_id, number, poss_dup, what));
            }
        }
    }
    all
}

/// Every message to sessions with every count, E and M on all sides of each other
/// and O at its least, in between and at the end of our numbers. Spoiled copies of
/// some of them, a drop and a Connect, which is refused, come beside.
fn every_hole(tally: &mut Tally, rng: &mut Rng) {
    for e in HOLES_AT {
        for to_ahead in TO_AHEAD {
            for repeats in 0..=MOST_REPEATS {
                for o in [ASKED_ONCE + repeats, 9, LAST - 2, LAST - 1, LAST] {
                    let session = session::Session {
                        phase: Phase::Live,
                        comp_id: b"RECORDER01".to_vec(),
                        e,
                        o,
                        m: e.saturating_add(to_ahead).max(2),
                        repeats,
                    };
                    hold_hole(tally, rng, &session);
                }
            }
        }
    }
}

fn hold_hole(tally: &mut Tally, rng: &mut Rng, session: &session::Session) {
    let s = struct_of(session);
    hold_drop(tally, s);
    hold_connect(tally, s, b"");
    for bytes in every_message(rng, session) {
        hold_step(tally, s, &bytes);
        if rng.chance(10) {
            hold_step(tally, s, &make::spoil_sum(rng, bytes));
        }
    }
}

/// A slice that asks, asks again behind a gap fill, takes a message so that the
/// count begins anew, asks again twice and stops with 37: into every room, so that
/// each of its messages to send is the one that finds no slot.
fn every_hole_room(tally: &mut Tally, rng: &mut Rng) {
    let [_, _, live] = small_sessions();
    let session = session_of(&live).expect("a session of some day");
    let e = session.e;
    let business = Sent::Of(types::EXECUTION_REPORT);
    let asked = Sent::ResendRequest { start: 1, end: 0 };
    let bytes: Vec<u8> = [
        (e + 2, 0, business),
        (e + 3, 1, asked),
        (e, 1, business),
        (e + 3, 1, asked),
        (e + 4, 1, business),
        (e + 5, 1, business),
    ]
    .iter()
    .flat_map(|&(number, poss_dup, what)| make::sent(rng, &session.comp_id, number, poss_dup, what))
    .collect();
    for rows in 0..3 * A_ROW {
        for sends in 0..9 * A_SEND {
            hold_many(tally, live, &bytes, Rooms { rows, sends });
        }
    }
}

/// A Live session in whose answer there is a hole. Our numbers are often nearly
/// used up.
fn session_with_hole(rng: &mut Rng) -> session::Session {
    let mut session = session::Session {
        phase: Phase::Live,
        comp_id: make::comp_id(rng),
        e: rng.any_u32().clamp(1, LAST - 1),
        o: rng.any_u32().max(ASKED_ONCE),
        m: 0,
        repeats: 0,
    };
    if rng.chance(60) {
        session.o = LAST - rng.below(6) as u32;
    }
    open_hole(rng, &mut session);
    session
}

/// A day with holes, event by event.
fn hole_day(tally: &mut Tally, rng: &mut Rng) {
    let start = make::hole_start(rng);
    let mut s = hold_saved(tally, &start.comp_id, start.e, start.o);
    let mut watch = Watch::new(session_of(&s).expect("a start is a good state"));
    for event in make::hole_events(rng, &start, 60) {
        watch.event(&event, &mut tally.holes[SINGLES]);
        s = hold_event(tally, rng, s, &event);
        if rng.chance(5) {
            // Calls beside the day: what they give is not kept.
            hold_connect(tally, s, &odd_password(rng));
            hold_drop(tally, s);
        }
    }
}

/// What a bad line brings, many messages in one call. The session goes on from
/// slice to slice.
fn hole_slices(tally: &mut Tally, rng: &mut Rng) {
    let mut watch = Watch::new(session_with_hole(rng));
    for _ in 0..3 {
        let count = 1 + rng.index(8);
        let bytes = make::hole_slice(rng, &watch.session, count);
        let s = struct_of(&watch.session);
        hold_slice(tally, rng, s, &bytes, 2);
        watch.slice(&bytes, &mut tally.holes[MANY]);
        if watch.session.phase == Phase::Down {
            return;
        }
    }
}

/// So many days are always held, be `--count` never so small: they are enough to
/// meet every situation.
const LEAST_DAYS: u64 = 1_500;
/// Slices have few comparisons beside a day.
const SLICES_A_DAY: usize = 5;

fn holes(tally: &mut Tally, rng: &mut Rng, until: u64) {
    every_hole(tally, rng);
    every_hole_room(tally, rng);
    let until = tally.count() + until;
    let mut days = 0;
    while days < LEAST_DAYS || tally.count() < until {
        hole_day(tally, rng);
        for _ in 0..SLICES_A_DAY {
            hole_slices(tally, rng);
        }
        days += 1;
    }
}

// ---- Plans that join ----

/// Two plans to join, and what the twin answers.
struct Joining {
    /// How many numbers each has.
    one: usize,
    other: usize,
    /// The last pair of the one and the first of the other.
    meeting: Option<[[u32; A_PAIR]; 2]>,
    /// Whether two pairs of the same plan look as if they touched.
    touches_within: bool,
    room: usize,
    answer: Planned,
}

/// Whether two pairs are gap fills of which the second begins at the New of the
/// first.
fn touch([a, b]: [u32; A_PAIR], [next, c]: [u32; A_PAIR]) -> bool {
    a < b && b == next && b < c
}

/// The pairs of a plan's numbers; an odd number at the end is in none.
fn pairs_of(numbers: &[u32]) -> impl DoubleEndedIterator<Item = [u32; A_PAIR]> + Clone + '_ {
    let pairs = numbers.chunks_exact(A_PAIR);
    pairs.map(|pair| [pair[0], pair[1]])
}

fn touches_within(numbers: &[u32]) -> bool {
    let pairs = pairs_of(numbers);
    let behind = pairs.clone().skip(1);
    pairs.zip(behind).any(|(pair, next)| touch(pair, next))
}

impl Joining {
    fn new(one: &[u32], other: &[u32], room: usize, answer: Planned) -> Joining {
        let meeting = pairs_of(one).next_back().zip(pairs_of(other).next());
        Joining {
            one: one.len(),
            other: other.len(),
            meeting: meeting.map(|(last, next)| [last, next]),
            touches_within: touches_within(one) || touches_within(other),
            room,
            answer,
        }
    }

    fn is_written(&self) -> bool {
        self.answer.refusal == 0
    }

    /// Whether the plans were written with one gap fill in the place of two.
    fn is_joined(&self) -> bool {
        self.is_written() && self.written() + A_PAIR == self.one + self.other
    }

    /// Whether both have pairs, and all were written as they stood.
    fn is_appended(&self) -> bool {
        self.is_written() && self.meeting.is_some() && self.written() == self.one + self.other
    }

    /// Whether all were written as they stood though the pairs where the plans meet
    /// are like this.
    fn misses(&self, is_like: fn([u32; A_PAIR], [u32; A_PAIR]) -> bool) -> bool {
        self.is_appended()
            && self
                .meeting
                .map_or(false, |[last, next]| is_like(last, next))
    }

    /// How many numbers were written, or are needed.
    fn written(&self) -> usize {
        A_PAIR * self.answer.pairs
    }

    fn is_bad(&self) -> bool {
        self.answer.refusal == plan::BAD_PLAN
    }

    fn lacks_room(&self) -> bool {
        self.answer.refusal == wire::NO_ROOM
    }
}

fn is_odd(count: usize) -> bool {
    count % A_PAIR != 0
}

/// What joins must meet.
const JOINS: [Situation<Joining>; 26] = [
    ("touching, joined", |join| join.is_joined()),
    ("joined, room exact", |join| {
        join.is_joined() && join.room == join.written()
    }),
    ("joined up to the last number", |join| {
        let is_last = |[_, [_, new]]: [[u32; A_PAIR]; 2]| new == LAST;
        join.is_joined() && join.meeting.map_or(false, is_last)
    }),
    ("not touching, appended", |join| join.is_appended()),
    ("appended, room exact", |join| {
        join.is_appended() && join.room == join.written()
    }),
    ("New one below the next", |join| {
        join.misses(|[a, b], [next, c]| a < b && next < c && next.checked_sub(b) == Some(1))
    }),
    ("New one above the next", |join| {
        join.misses(|[a, b], [next, c]| a < b && next < c && b.checked_sub(next) == Some(1))
    }),
    ("New at its own first", |join| {
        join.misses(|[a, b], [next, c]| a == b && b == next && next < c)
    }),
    ("New below its own first", |join| {
        join.misses(|[a, b], [next, c]| a > b && b > 0 && b == next && next < c)
    }),
    ("the next's New at its first", |join| {
        join.misses(|[a, b], [next, c]| a < b && b == next && next == c)
    }),
    ("a business number at New", |join| {
        join.misses(|[a, b], [next, c]| a < b && b == next && c == 0)
    }),
    ("New of 0 and a first of 0", |join| {
        join.misses(|[a, b], [next, c]| a > 0 && b == 0 && next == 0 && c > 0)
    }),
    ("touching within a plan", |join| {
        join.is_written() && join.touches_within
    }),
    ("the one empty", |join| {
        join.is_written() && join.one == 0 && join.other > 0
    }),
    ("the other empty", |join| {
        join.is_written() && join.one > 0 && join.other == 0
    }),
    ("both empty", |join| {
        join.is_written() && join.one + join.other == 0
    }),
    ("both the longest", |join| {
        join.is_written() && join.one == LONGEST_PLAN && join.other == LONGEST_PLAN
    }),
    ("the one longer than a plan", |join| {
        join.is_written() && join.one > LONGEST_PLAN
    }),
    ("the other longer than a plan", |join| {
        join.is_written() && join.other > LONGEST_PLAN
    }),
    ("40, the one odd", |join| {
        join.is_bad() && is_odd(join.one) && !is_odd(join.other)
    }),
    ("40, the other odd", |join| {
        join.is_bad() && !is_odd(join.one) && is_odd(join.other)
    }),
    ("40 before 11", |join| join.is_bad() && join.room == 0),
    ("11, joined", |join| {
        join.lacks_room() && join.written() + A_PAIR == join.one + join.other
    }),
    ("11, appended", |join| {
        join.lacks_room() && join.written() == join.one + join.other
    }),
    ("11, one number short", |join| {
        join.lacks_room() && join.room + 1 == join.written()
    }),
    ("11, no room at all", |join| {
        join.lacks_room() && join.room == 0
    }),
];

/// A plan that is cut in two.
struct Cutting {
    /// Whether the numbers before and behind the cut are business.
    before: bool,
    behind: bool,
    end: u32,
    count: u32,
}

impl Cutting {
    /// A plan over a good list.
    fn new(list: &[u8], cut: Cut) -> Cutting {
        let is_business = |n: u32| list[n as usize - 1] == 1;
        Cutting {
            before: is_business(cut.middle),
            behind: is_business(cut.middle + 1),
            end: cut.end,
            count: list.len() as u32,
        }
    }

    fn both_session(&self) -> bool {
        !self.before && !self.behind
    }

    fn is_to_0(&self) -> bool {
        self.end == 0
    }

    fn is_past_list(&self) -> bool {
        self.end > self.count
    }
}

/// What cuts must meet.
const CUTS: [Situation<Cutting>; 9] = [
    ("both session", |cut| cut.both_session()),
    ("not both session", |cut| !cut.both_session()),
    ("session, business", |cut| !cut.before && cut.behind),
    ("business, session", |cut| cut.before && !cut.behind),
    ("both business", |cut| cut.before && cut.behind),
    ("both session, End of 0", |cut| {
        cut.both_session() && cut.is_to_0()
    }),
    ("not both session, End of 0", |cut| {
        !cut.both_session() && cut.is_to_0()
    }),
    ("both session, End past the list", |cut| {
        cut.both_session() && cut.is_past_list()
    }),
    ("not both session, End past the list", |cut| {
        !cut.both_session() && cut.is_past_list()
    }),
];

/// A Live session that takes a gap fill from E to a New, and one from there to
/// another New.
struct Fills {
    session: session::Session,
    new: u32,
    last_new: u32,
}

/// What two gap fills must meet.
const FILLS: [Situation<Fills>; 8] = [
    ("M of 0", |fills| fills.session.m == 0),
    ("M in the first", |fills| {
        fills.session.m != 0 && fills.session.m < fills.new
    }),
    ("M at the New of the first", |fills| {
        fills.session.m == fills.new
    }),
    ("M in the second", |fills| {
        fills.new < fills.session.m && fills.session.m < fills.last_new
    }),
    ("M at the New of the second", |fills| {
        fills.session.m == fills.last_new
    }),
    ("M past both", |fills| fills.session.m > fills.last_new),
    ("a count standing", |fills| fills.session.repeats > 0),
    ("up to the last number", |fills| fills.last_new == LAST),
];

fn hold_join(tally: &mut Tally, one: &[u32], other: &[u32], room: usize) {
    let mut ours = guarded(room);
    let mut its = ours.clone();
    let answer = planned(plan::join(one, other, &mut ours[GUARD..GUARD + room]));
    let its_answer = proved::join(one, other, &mut its[GUARD..GUARD + room]);
    let joining = Joining::new(one, other, room, answer);
    note(&JOINS, &mut tally.joins, &joining);
    tally.hold(answer.refusal, (answer, ours), (its_answer, its), || {
        format!("join room {} one {:?} other {:?}", room, one, other)
    });
}

/// The join into just enough room, one number less, more, and none.
fn hold_join_everywhere(tally: &mut Tally, rng: &mut Rng, one: &[u32], other: &[u32]) {
    let mut all = vec![0; one.len() + other.len()];
    let needed = A_PAIR * plan::join(one, other, &mut all).unwrap_or(0);
    let [exact, less, more] = rooms(rng, needed);
    for room in [exact, less, more, 0] {
        hold_join(tally, one, other, room);
    }
}

/// The numbers that a call of the library writes into so much room; none where it
/// refuses.
fn library_numbers(room: usize, call: impl FnOnce(&mut [u32]) -> Planned) -> Vec<u32> {
    let mut numbers = vec![0; room];
    match call(&mut numbers) {
        Planned { refusal: 0, pairs } => numbers.truncate(A_PAIR * pairs),
        _ => numbers.clear(),
    }
    numbers
}

fn library_plan(list: &[u8], start: u32, end: u32) -> Vec<u32> {
    let enough = A_PAIR * list.len();
    library_numbers(enough, |numbers| proved::plan(list, start, end, numbers))
}

fn library_join(one: &[u32], other: &[u32]) -> Vec<u32> {
    let enough = one.len() + other.len();
    library_numbers(enough, |numbers| proved::join(one, other, numbers))
}

/// The numbers of the twin's plan, which is a good one.
fn twin_plan(list: &[u8], start: u32, end: u32) -> Vec<u32> {
    let mut pairs = vec![[0; A_PAIR]; list.len()];
    let count = plan::plan(list, start, end, &mut pairs).expect("a good plan");
    pairs[..count].concat()
}

/// The library's plans for the two sides of a cut. Joined by the library they are
/// the whole plan, the twin's and its own; one behind the other they are so exactly
/// when the numbers at the cut are not both session.
fn hold_cut(tally: &mut Tally, rng: &mut Rng, list: &[u8], cut: Cut) {
    let Cut { start, middle, end } = cut;
    let one = library_plan(list, start, middle);
    let other = library_plan(list, middle + 1, end);
    hold_join_everywhere(tally, rng, &one, &other);
    let cutting = Cutting::new(list, cut);
    note(&CUTS, &mut tally.cuts, &cutting);
    let input = |how: &str| format!("plans, {}, {:?} list {}", how, cut, hex(list));
    let whole = library_plan(list, start, end);
    let joined = library_join(&one, &other);
    let wholes = [twin_plan(list, start, end), whole.clone()];
    tally.hold(0, wholes, [joined.clone(), joined], || input("joined"));
    let is_whole = [one, other].concat() == whole;
    tally.hold(0, !cutting.both_session(), is_whole, || input("appended"));
}

/// The session takes a gap fill from E to a New and one from there to the last New:
/// it is then as if it had taken one from E to the last New.
fn hold_two_fills(tally: &mut Tally, rng: &mut Rng, fills: &Fills) {
    note(&FILLS, &mut tally.fills, fills);
    let Fills {
        session,
        new,
        last_new,
    } = fills;
    let s = struct_of(session);
    let [first, second, both] =
        [(session.e, *new), (*new, *last_new), (session.e, *last_new)].map(|(number, new)| {
            let poss_dup = rng.below(2) as u8;
            let what = Sent::GapFill { new };
            make::sent(rng, &session.comp_id, number, poss_dup, what)
        });
    let between = hold_step(tally, s, &first).session;
    hold_step(tally, between, &second);
    hold_step(tally, s, &both);
    let in_turn = proved::step(proved::step(s, &first).session, &second);
    let at_once = proved::step(s, &both);
    tally.hold(0, at_once.session, in_turn.session, || {
        let bytes = [first, second, both].map(|bytes| hex(&bytes)).join(" ");
        format!("two gap fills against one {} {}", shown(&s), bytes)
    });
}

/// Counts of numbers, odd and even, at none and on both sides of a plan's most.
const PLAN_COUNTS: [usize; 9] = [
    0,
    1,
    2,
    3,
    LONGEST_PLAN - 2,
    LONGEST_PLAN - 1,
    LONGEST_PLAN,
    LONGEST_PLAN + 1,
    LONGEST_PLAN + 2,
];

/// Plans of each of the counts, which touch, and which do not.
fn every_length(tally: &mut Tally, rng: &mut Rng) {
    // A plan of gap fills that begins at this number: every pair touches the next.
    let fills = |first: u32, count: usize| -> Vec<u32> {
        let numbers = (first..).flat_map(|n| [n, n + 1]);
        numbers.take(count).collect()
    };
    for one in PLAN_COUNTS {
        let next = 1 + (one / A_PAIR) as u32;
        for other in PLAN_COUNTS {
            for first in [next, next + 1] {
                hold_join_everywhere(tally, rng, &fills(1, one), &fills(first, other));
            }
        }
    }
}

/// The numbers of the pairs where two plans meet.
const MEETING: [u32; 6] = [0, 1, 2, 3, LAST - 1, LAST];

/// Every meeting of two pairs, and of such a pair and nothing.
fn every_meeting(tally: &mut Tally, rng: &mut Rng) {
    let mut pairs = Vec::new();
    for first in MEETING {
        pairs.extend(MEETING.map(|new| [first, new]));
    }
    hold_join_everywhere(tally, rng, &[], &[]);
    for last in &pairs {
        hold_join_everywhere(tally, rng, last, &[]);
        hold_join_everywhere(tally, rng, &[], last);
        for next in &pairs {
            hold_join_everywhere(tally, rng, last, next);
        }
    }
}

/// Lists up to this length are cut in every way.
const CUT_LISTS: u32 = 5;

/// Every plan over every short list, cut everywhere, with every End within the list,
/// of 0 and past it.
fn every_cut(tally: &mut Tally, rng: &mut Rng) {
    for count in 0..=CUT_LISTS {
        for list in make::every_list(count) {
            for start in 1..=count {
                for middle in start..count {
                    let ends = (middle + 1..=count).chain([0, count + 1, LAST]);
                    for end in ends {
                        hold_cut(tally, rng, &list, Cut { start, middle, end });
                    }
                }
            }
        }
    }
}

/// The farthest that M lies from E: past every New that is near it.
const FARTHEST_AHEAD: u32 = 5;

/// Two gap fills to sessions with no M, and with M on all sides of both News and
/// every count of repeats.
fn every_two_fills(tally: &mut Tally, rng: &mut Rng) {
    for e in [1, 2, 7, LAST - 4, LAST - 3] {
        for (new, last_new) in [
            (e + 1, e + 2),
            (e + 1, e + 3),
            (e + 2, e + 3),
            (e + 1, LAST),
        ] {
            let session = session::Session {
                e,
                ..some_live(rng)
            };
            let mut sessions = vec![session.clone()];
            for from_e in 0..=FARTHEST_AHEAD {
                sessions.extend((0..=MOST_REPEATS).map(|repeats| session::Session {
                    m: e.saturating_add(from_e).max(2),
                    repeats,
                    ..session.clone()
                }));
            }
            for session in sessions {
                let fills = Fills {
                    session,
                    new,
                    last_new,
                };
                hold_two_fills(tally, rng, &fills);
            }
        }
    }
}

/// A Live session that has asked for nothing, with an O that leaves it free to have
/// asked and asked again.
fn some_live(rng: &mut Rng) -> session::Session {
    session::Session {
        phase: Phase::Live,
        comp_id: make::comp_id(rng),
        e: rng.any_u32().clamp(1, LAST - 2),
        o: rng.any_u32().max(ASKED_ONCE + MOST_REPEATS),
        m: 0,
        repeats: 0,
    }
}

/// Two gap fills from E, with some M or none.
fn some_fills(rng: &mut Rng) -> Fills {
    let mut session = some_live(rng);
    if rng.chance(80) {
        open_hole(rng, &mut session);
    }
    let above = |rng: &mut Rng, n: u32, most: u32| match rng.below(4) {
        0 => rng.any_u32().clamp(n + 1, most),
        _ => n.saturating_add(1 + rng.below(3) as u32).min(most),
    };
    let new = above(rng, session.e, LAST - 1);
    let last_new = above(rng, new, LAST);
    Fills {
        session,
        new,
        last_new,
    }
}

/// A list to be cut, mostly a short one; none where it has too few numbers.
fn list_to_cut(rng: &mut Rng) -> Option<Vec<u8>> {
    let most = match rng.below(200) {
        0 => plan::LONGEST_LIST,
        1..=10 => 1000,
        _ => 30,
    };
    let list = make::good_list(rng, most);
    (list.len() >= make::LEAST_CUT).then_some(list)
}

fn joins(tally: &mut Tally, rng: &mut Rng, until: u64) {
    every_meeting(tally, rng);
    every_cut(tally, rng);
    every_length(tally, rng);
    every_two_fills(tally, rng);
    let until = tally.count() + until;
    while tally.count() < until {
        let [one, other] = make::two_plans(rng);
        hold_join_everywhere(tally, rng, &one, &other);
        if let Some(list) = list_to_cut(rng) {
            let cut = make::cut(rng, list.len() as u32);
            hold_cut(tally, rng, &list, cut);
        }
        let fills = some_fills(rng);
        hold_two_fills(tally, rng, &fills);
    }
}

// ---- Both ends meet ----

/// A listed message, as far as it matters to what is met.
struct Published {
    head: Head,
    is_plain: bool,
    /// How long it is in plain form.
    plain_length: usize,
}

/// A Live session that takes a gateway's answer, from E to the end of a list.
struct Answered {
    session: session::Session,
    list: Vec<Published>,
}

impl Answered {
    fn new(session: &session::Session, list: &[&[u8]]) -> Answered {
        let published = |message: &&[u8]| {
            let plain = written_bytes(&ToWrite::of(message).expect("a good list"));
            Published {
                head: reader::read(message).expect("a good list"),
                is_plain: plain == *message,
                plain_length: plain.len(),
            }
        };
        Answered {
            session: session.clone(),
            list: list.iter().map(published).collect(),
        }
    }

    /// The list's last number.
    fn last(&self) -> u32 {
        self.list.len() as u32
    }

    fn is_business(&self, n: u32) -> bool {
        is_business(self.list[n as usize - 1].head.message_type)
    }

    /// Whether a number is the first of a run of session numbers in the answer.
    fn begins_run(&self, n: u32) -> bool {
        !self.is_business(n) && (n == self.session.e || self.is_business(n - 1))
    }

    /// The numbers of the answer.
    fn numbers(&self) -> RangeInclusive<u32> {
        self.session.e..=self.last()
    }

    /// Whether one of the messages that are handed up is like this.
    fn hands_up(&self, is_like: fn(&Published) -> bool) -> bool {
        self.numbers()
            .any(|n| self.is_business(n) && is_like(&self.list[n as usize - 1]))
    }
}

/// What sessions that take an answer must meet.
const ANSWERS: [Situation<Answered>; 21] = [
    ("M of 0", |seen| seen.session.m == 0),
    ("M within the list", |seen| {
        seen.session.m != 0 && seen.session.m < seen.last()
    }),
    ("M at its last number", |seen| seen.session.m == seen.last()),
    ("M one past it", |seen| seen.session.m == seen.last() + 1),
    ("M far past it", |seen| seen.session.m > seen.last() + 1),
    ("M at E", |seen| seen.session.m == seen.session.e),
    ("a count standing", |seen| seen.session.repeats > 0),
    ("no number of ours left", |seen| seen.session.o == LAST),
    ("E of 1", |seen| seen.session.e == 1),
    ("E at the last number", |seen| seen.session.e == seen.last()),
    ("the last number business", |seen| {
        seen.is_business(seen.last())
    }),
    ("the last number session", |seen| {
        !seen.is_business(seen.last())
    }),
    ("no business from E on", |seen| !seen.hands_up(|_| true)),
    ("nothing but business from E on", |seen| {
        seen.numbers().all(|n| seen.is_business(n))
    }),
    ("E inside a run", |seen| {
        let e = seen.session.e;
        e > 1 && !seen.is_business(e - 1) && !seen.is_business(e)
    }),
    ("two or more gap fills", |seen| {
        seen.numbers().filter(|&n| seen.begins_run(n)).count() >= 2
    }),
    ("listed with PossDup 0", |seen| {
        seen.hands_up(|message| message.head.poss_dup == 0)
    }),
    ("listed with PossDup 1", |seen| {
        seen.hands_up(|message| message.head.poss_dup == 1)
    }),
    ("listed with PossResend 1", |seen| {
        seen.hands_up(|message| message.head.poss_resend == 1)
    }),
    ("not in plain form", |seen| {
        seen.hands_up(|message| !message.is_plain)
    }),
    ("shorter in plain form", |seen| {
        seen.hands_up(|message| message.plain_length < message.head.length)
    }),
];

/// The messages that the library reads one behind the other, up to one that it
/// refuses.
fn split(mut list: &[u8]) -> Vec<&[u8]> {
    let mut all = Vec::new();
    loop {
        let length = proved::read(list).length;
        if length == 0 {
            return all;
        }
        let (message, behind) = list.split_at(length);
        all.push(message);
        list = behind;
    }
}

/// A pair of a plan as the library's reader and writer make it a message, from the
/// listed message of its first number.
fn library_part(message: &[u8], [first, new]: [u32; A_PAIR]) -> Vec<u8> {
    let part = |call: fn(&[u8]) -> Part| named(message, call(message)).1 .0;
    let reading = proved::read(message);
    let mut header = Header {
        message_type: reading.message_type,
        possdup: 1,
        possresend: reading.possresend,
        number: first,
    };
    let (map, body) = if new == 0 {
        (part(proved::map), part(proved::body))
    } else {
        (header.message_type, header.possresend) = (types::SEQUENCE_RESET, 0);
        let mut map = [0; MAP_WIDTH];
        wire::set(&mut map, 0);
        wire::set(&mut map, 1);
        (map.to_vec(), [&b"Y"[..], &new.to_le_bytes()].concat())
    };
    let map = map.try_into().expect("a map has 32 bytes");
    let mut out = vec![0; proved::LONGEST_WRITTEN];
    let written = proved::write(&mut out, header, &part(proved::comp_id), &map, &body);
    out.truncate(written.length);
    out
}

/// What a gateway sends that is played by the library's calls.
fn library_gateway(list: &[&[u8]], start: u32, end: u32) -> Vec<u8> {
    let marks: Vec<u8> = list
        .iter()
        .map(|message| u8::from(is_business(proved::read(message).message_type)))
        .collect();
    let plan = library_plan(&marks, start, end);
    let parts = pairs_of(&plan).map(|pair| library_part(list[pair[0] as usize - 1], pair));
    parts.flatten().collect()
}

/// What the library says of a message, wherever its parts stand and however long
/// it is.
#[derive(Debug, PartialEq)]
struct Content {
    reading: Reading,
    comp_id: Hex,
    map: Hex,
    /// The position, the sort and the value of each field, and its characters or
    /// bytes.
    fields: Vec<([u64; 3], Hex)>,
}

fn content(message: &[u8]) -> Content {
    let mut numbers = [0; LIST];
    let listed = proved::fields(message, &mut numbers);
    let field = |field: &[u64]| {
        let place = Part {
            offset: field[2] as usize,
            length: field[3] as usize,
            ..Part::default()
        };
        ([field[0], field[1], field[4]], named(message, place).1)
    };
    let fields = numbers.chunks_exact(A_FIELD).take(listed.fields);
    Content {
        reading: Reading {
            length: 0,
            ..listed.reading
        },
        comp_id: named(message, proved::comp_id(message)).1,
        map: named(message, proved::map(message)).1,
        fields: fields.map(field).collect(),
    }
}

/// What a session did with an answer.
#[derive(Debug, PartialEq)]
struct Taken {
    session: proved::Session,
    /// The refusal or the Stop that was met; 0 for none.
    code: u32,
    /// How many messages are to be sent.
    sends: usize,
    /// How many bytes were left.
    left: usize,
    handed_up: Vec<Content>,
}

/// What document 02, item 14, says that the session does with the answer from its E
/// to the end of the list.
fn said(s: proved::Session, list: &[&[u8]]) -> Taken {
    let last = list.len() as u32;
    let mut handed_up: Vec<Content> = list[s.expected as usize - 1..]
        .iter()
        .map(|message| content(message))
        .filter(|content| is_business(content.reading.message_type))
        .collect();
    for content in &mut handed_up {
        content.reading.possdup = 1;
    }
    Taken {
        session: proved::Session {
            expected: last + 1,
            ahead: if s.ahead > last { s.ahead } else { 0 },
            repeats: 0,
            ..s
        },
        code: 0,
        sends: 0,
        left: 0,
        handed_up,
    }
}

/// What the library's session does in one call.
fn taken_at_once(s: proved::Session, bytes: &[u8]) -> Taken {
    let (done, mut lists) = library_many(s, bytes, Lists::new(Rooms::enough(bytes.len())));
    let (rows, _) = lists.lent();
    let handed_up = rows
        .chunks_exact(A_ROW)
        .take(done.rows)
        .filter(|row| row[ROW_SORT] == RowSort::Business as u32)
        .map(|row| {
            let (begin, length) = (row[ROW_PLACE], row[ROW_PLACE + 1]);
            content(&bytes[begin as usize..][..length as usize])
        });
    Taken {
        session: done.session,
        code: met(&done),
        sends: done.sends,
        left: bytes.len() - done.used,
        handed_up: handed_up.collect(),
    }
}

/// What it does by single steps. It ends at the first code that is not 0.
fn taken_in_turn(s: proved::Session, bytes: &[u8]) -> Taken {
    let mut taken = Taken {
        session: s,
        code: 0,
        sends: 0,
        left: bytes.len(),
        handed_up: Vec::new(),
    };
    while taken.left > 0 && taken.code == 0 {
        let rest = &bytes[bytes.len() - taken.left..];
        let answer = proved::step(taken.session, rest);
        let sends = [answer.first, answer.second];
        taken.session = answer.session;
        taken.code = answer.refusal;
        taken.sends += sends.iter().filter(|send| send.kind != 0).count();
        taken.left -= answer.used;
        if answer.row.kind == RowSort::Business as u32 {
            taken.handed_up.push(content(&rest[..answer.used]));
        }
    }
    taken
}

/// A Live session takes what a gateway sends from its E to the end of a good list:
/// it does what the twin's does, and what was asked for.
fn hold_answer(tally: &mut Tally, session: &session::Session, list: &[&[u8]], bytes: &[u8]) {
    note(&ANSWERS, &mut tally.answers, &Answered::new(session, list));
    let s = struct_of(session);
    hold_many(tally, s, bytes, Rooms::enough(bytes.len()));
    for taken in [taken_at_once(s, bytes), taken_in_turn(s, bytes)] {
        tally.hold(0, said(s, list), taken, || {
            let (list, bytes) = (hex(&list.concat()), hex(bytes));
            format!("answer {} list {} sent {}", shown(&s), list, bytes)
        });
    }
}

/// The same where the library's calls play the gateway: it sends what the twin's
/// does.
fn hold_both_ends(tally: &mut Tally, session: &session::Session, list: &[u8]) {
    let messages = split(list);
    let twin = gateway::send(list, session.e, 0).expect("a good list");
    let proved = library_gateway(&messages, session.e, 0);
    tally.hold(0, Hex(twin), Hex(proved.clone()), || {
        format!("gateway start {} list {}", session.e, hex(list))
    });
    hold_answer(tally, session, &messages, &proved);
}

/// A Live session at a number of a list that has so many, which has asked for what
/// is missing or not.
fn some_asking(rng: &mut Rng, comp_id: &[u8], e: u32, last: u32) -> session::Session {
    let m = match rng.below(6) {
        0 => 0,
        1 => last,
        2 => last + 1,
        3 => rng.any_u32().max(last + 2),
        _ => e + rng.below(u64::from(last - e) + 3) as u32,
    };
    asking(rng, comp_id, e, m)
}

/// The same with this M, or the nearest that it may have. The count of repeats and O
/// are any that go with it.
fn asking(rng: &mut Rng, comp_id: &[u8], e: u32, m: u32) -> session::Session {
    let (repeats, least_own) = match m {
        0 => (0, 2),
        _ => {
            let repeats = rng.below(u64::from(MOST_REPEATS) + 1) as u32;
            (repeats, ASKED_ONCE + repeats)
        }
    };
    session::Session {
        phase: Phase::Live,
        comp_id: comp_id.to_vec(),
        e,
        o: rng.any_u32().max(least_own),
        m: if m == 0 { 0 } else { m.max(e).max(2) },
        repeats,
    }
}

/// Lists up to this length are answered from every number.
const ANSWERED_LISTS: u32 = 5;

/// Every short list to a session at each of its numbers, with M at 0 and everywhere
/// up to past the list.
fn every_answer(tally: &mut Tally, rng: &mut Rng) {
    for last in 1..=ANSWERED_LISTS {
        for marks in make::every_list(last) {
            let comp_id = make::comp_id(rng);
            let list = make::published(rng, &comp_id, &marks).concat();
            for e in 1..=last {
                for m in (e..=last + 2).chain([0, LAST]) {
                    let session = asking(rng, &comp_id, e, m);
                    hold_both_ends(tally, &session, &list);
                }
            }
        }
    }
}

/// The most messages of a random list.
const MOST_PUBLISHED: usize = 40;

fn ends_meet(tally: &mut Tally, rng: &mut Rng, until: u64) {
    every_answer(tally, rng);
    let until = tally.count() + until;
    while tally.count() < until {
        let marks = make::good_list(rng, MOST_PUBLISHED);
        if marks.is_empty() {
            continue;
        }
        let comp_id = make::comp_id(rng);
        let list = make::published(rng, &comp_id, &marks).concat();
        let last = marks.len() as u32;
        // The same list to a few sessions.
        for e in [1, last, 1 + rng.index(marks.len()) as u32] {
            let session = some_asking(rng, &comp_id, e, last);
            hold_both_ends(tally, &session, &list);
        }
    }
}

// ---- Texts, every character ----

/// A message that is read, listed and stepped on, and written from its parts.
fn hold_whole(tally: &mut Tally, given: &ToWrite) {
    let bytes = make::framed(given);
    hold_read(tally, &bytes);
    hold_fields(tally, &bytes, LIST);
    hold_step(tally, live_session(&given.comp_id), &bytes);
    hold_write(tally, given, proved::LONGEST_WRITTEN);
}

/// A session that is up since the day's first Logon. With a bad Comp ID it is
/// none.
fn live_session(comp_id: &[u8]) -> proved::Session {
    let [_, _, mut s] = small_sessions();
    s.comp_id = [0; wire::COMP_ID_WIDTH];
    s.comp_id[..comp_id.len()].copy_from_slice(comp_id);
    s
}

/// Every text of every type, with all that there is to be tried in it.
fn every_text(tally: &mut Tally) {
    for message_type in 0..=types::LAST {
        for text in make::texts(message_type) {
            let position = match text {
                Text::CompId => continue,
                Text::At(position, _) => position,
            };
            for bytes in make::tried(text) {
                let given = make::with_text(message_type, text, &bytes);
                hold_whole(tally, &given);
                hold_questions(tally, &make::framed(&given), position);
            }
        }
    }
}

/// The same for the Comp ID, which all types share, in a Heartbeat and in what
/// makes a session.
fn every_comp_id(tally: &mut Tally) {
    for bytes in make::tried(Text::CompId) {
        let given = make::with_text(types::HEARTBEAT, Text::CompId, &bytes);
        hold_whole(tally, &given);
        let message = make::framed(&given);
        hold_parts(tally, &message);
        hold_step(tally, live_session(b"RECORDER01"), &message);
        hold_fresh(tally, &bytes);
        hold_saved(tally, &bytes, 1, 1);
        hold_drop(tally, live_session(&bytes));
    }
}

/// The same for the password, which Connect takes and its Logon bears.
fn every_password(tally: &mut Tally) {
    let [down, waiting, _] = small_sessions();
    for bytes in make::tried(Text::At(0, tables::PASSWORD)) {
        hold_connect(tally, down, &bytes);
        hold_put_logon(tally, waiting, &bytes, LOGON_LENGTH);
    }
}

/// All accented characters in every text that may hold them, with all questions
/// about the message.
fn every_accent(tally: &mut Tally, rng: &mut Rng) {
    let accents: Vec<u8> = (128..=u8::MAX).collect();
    for message_type in 0..=types::LAST {
        let mut texts = make::texts(message_type);
        texts.retain(|text| text.allowed() == Allowed::Accented);
        for text in texts {
            for bytes in accents.chunks(text.full()) {
                let given = make::with_text(message_type, text, bytes);
                let bytes = make::framed(&given);
                hold_whole(tally, &given);
                hold_parts(tally, &bytes);
                for position in 0..=44 {
                    hold_questions(tally, &bytes, position);
                }
                for room in list_rooms(rng, &bytes) {
                    hold_fields(tally, &bytes, room);
                }
                for room in rooms(rng, written_length(&given)) {
                    hold_write(tally, &given, room);
                }
            }
        }
    }
}

fn texts(tally: &mut Tally, rng: &mut Rng, _: u64) {
    every_accent(tally, rng);
    every_text(tally);
    every_comp_id(tally);
    every_password(tally);
}

// ---- Version ----

/// The twin's version, which is the library's too, in one number as the library
/// tells it.
fn twin_version() -> u32 {
    let [major, minor, patch] = [
        env!("CARGO_PKG_VERSION_MAJOR"),
        env!("CARGO_PKG_VERSION_MINOR"),
        env!("CARGO_PKG_VERSION_PATCH"),
    ]
    .map(|part| part.parse::<u32>().expect("cargo gives numbers"));
    10_000 * major + 100 * minor + patch
}

fn versions(tally: &mut Tally, _: &mut Rng, _: u64) {
    tally.hold(0, twin_version(), proved::version(), || {
        String::from("version")
    });
}

// ---- Daysheet ----

/// Runs a program on an input; what it printed. What it says on standard error is
/// a part of that where a pipe is given for it.
fn printed(command: &[&str], input: &[u8], errors: Stdio) -> Output {
    let mut child = Command::new(command[0])
        .args(&command[1..])
        .stdin(Stdio::piped())
        .stdout(Stdio::piped())
        .stderr(errors)
        .spawn()
        .expect("the program starts");
    let mut pipe = child.stdin.take().expect("a pipe was asked for");
    let input = input.to_vec();
    // From another thread: it may print before it has read all. It ends at
    // something bad, so a pipe that is closed early is no fault.
    let feeder = std::thread::spawn(move || {
        let _ = pipe.write_all(&input);
    });
    let output = child.wait_with_output().expect("the program ends");
    feeder.join().expect("the feeder does not panic");
    output
}

/// Sheets of all sorts; every line is below 65,536 bytes.
fn sheet(rng: &mut Rng) -> Vec<u8> {
    let count = match rng.below(10) {
        0 => rng.index(3),
        1 => 300 + rng.index(300),
        _ => rng.index(40),
    };
    let mut text = if rng.chance(30) {
        make::hole_sheet(rng, count)
    } else {
        make::sheet(rng, count)
    };
    match rng.below(12) {
        0 if !text.is_empty() => {
            let at = rng.index(text.len());
            text[at] = [b' ', b'\n', b'\r', b'0', b'9', b'=', 0, rng.byte()][rng.index(8)];
        }
        1 if !text.is_empty() => {
            let at = rng.index(text.len());
            text.remove(at);
        }
        2 => {
            let zeros = "0".repeat(1 + rng.index(30));
            let line = format!("kind=logon n={}1 dup={}0 new={}\n", zeros, zeros, zeros);
            text.splice(0..0, line.into_bytes());
        }
        3 => {
            let long = [200, 4096, 65_000, 65_535][rng.index(4)];
            text.extend(vec![b'k'; long]);
        }
        4 => {
            // The ends of the numbers.
            for (kind, n, new) in [("logon", 1, 0), ("reset", 9, LAST), ("gapfill", LAST, LAST)] {
                let line = format!("kind={} n={} dup=0 new={}\n", kind, n, new);
                text.extend(line.into_bytes());
            }
        }
        _ => {}
    }
    text
}

/// Sheets for the program without a word and, as the next category, the same ones
/// with `--plain`.
fn daysheets(tally: &mut Tally, rng: &mut Rng, command: &str, count: u64) {
    let command: Vec<&str> = command.split_whitespace().collect();
    let example = b"kind=logon n=1 dup=0 new=0
kind=business n=2 dup=0 new=0
kind=business n=5 dup=0 new=0
kind=gapfill n=3 dup=1 new=5
kind=business n=5 dup=1 new=0
kind=business n=2 dup=1 new=0
";
    let full = make::long_sheet(MOST_KEPT);
    let mut sheets = vec![
        example.to_vec(),
        make::SHEET_WITH_HOLES.to_vec(),
        // Several times what the program's buffer holds, and more lines than the
        // plain recorder keeps.
        make::long_sheet(10_000),
        // As many as it keeps, alone and before a bad line.
        full.clone(),
        [&full[..], b"no\n"].concat(),
    ];
    sheets.resize_with(count as usize, || sheet(rng));
    type Print = fn(&[u8]) -> Vec<u8>;
    let ways: [(&[&str], Print); 2] = [(&[], daysheet::daysheet), (&["--plain"], daysheet::plain)];
    for (category, (words, print)) in (tally.category..).zip(ways) {
        tally.category = category;
        let command = [&command[..], words].concat();
        for text in &sheets {
            let twin = String::from_utf8_lossy(&print(text)).into_owned();
            let is_full = twin.contains("refused=");
            let refusal = if is_full { LIST_FULL } else { 0 };
            let output = printed(&command, text, Stdio::inherit());
            let proved = String::from_utf8_lossy(&output.stdout).into_owned();
            tally.hold(refusal, twin, proved, || format!("daysheet {}", hex(text)));
        }
    }
}

// ---- Both ends meet, bench ----

/// A run of the bench that sends.
#[derive(Default)]
struct Sending {
    start: u32,
    end: u32,
    /// How many bytes the list has, and how many messages up to what is refused.
    length: usize,
    count: u32,
    /// How many bytes the twin writes; None for a first line of another form.
    answer: Option<Result<usize, Wrong>>,
}

impl Sending {
    /// Whether bytes are written in a run like this.
    fn writes(&self, is_like: fn(&Sending) -> bool) -> bool {
        matches!(self.answer, Some(Ok(_))) && is_like(self)
    }

    /// Whether the answer goes to the end of the list, so that a session takes it.
    fn is_taken(&self) -> bool {
        self.writes(|run| run.end == 0 || run.end >= run.count)
    }

    /// Whether something is wrong that is like this.
    fn is_wrong(&self, is_like: fn(Wrong) -> bool) -> bool {
        matches!(self.answer, Some(Err(wrong)) if is_like(wrong))
    }

    /// Whether the plan is refused in a run like this.
    fn is_40(&self, is_like: fn(&Sending) -> bool) -> bool {
        self.is_wrong(|wrong| matches!(wrong, Wrong::Plan { .. })) && is_like(self)
    }
}

/// What runs of the bench must meet.
const SENDINGS: [Situation<Sending>; 18] = [
    ("another first line", |run| run.answer.is_none()),
    ("too long", |run| {
        run.is_wrong(|wrong| wrong == Wrong::TooLong)
    }),
    ("cut at the end", |run| {
        run.is_wrong(|wrong| matches!(wrong, Wrong::Refused { refusal: 1, .. }))
    }),
    ("refused but not cut", |run| {
        run.is_wrong(|wrong| {
            matches!(
                wrong,
                Wrong::Refused {
                    refusal: 2..=10,
                    ..
                }
            )
        })
    }),
    ("another number", |run| {
        run.is_wrong(|wrong| matches!(wrong, Wrong::Number { .. }))
    }),
    ("another Comp ID", |run| {
        run.is_wrong(|wrong| matches!(wrong, Wrong::CompId { .. }))
    }),
    ("40, empty list", |run| run.is_40(|run| run.count == 0)),
    ("40, Start of 0", |run| {
        run.is_40(|run| run.count > 0 && run.start == 0)
    }),
    ("40, Start past the list", |run| {
        run.is_40(|run| run.count > 0 && run.start > run.count)
    }),
    ("40, End below Start", |run| {
        run.is_40(|run| run.end != 0 && run.end < run.start && run.start <= run.count)
    }),
    ("End of 0", |run| run.writes(|run| run.end == 0)),
    ("End within the list", |run| {
        run.writes(|run| run.end != 0 && run.end < run.count)
    }),
    ("End at its last number", |run| {
        run.writes(|run| run.end == run.count)
    }),
    ("End past it", |run| run.writes(|run| run.end > run.count)),
    ("taken by a session", Sending::is_taken),
    ("not taken by one", |run| run.writes(|run| !run.is_taken())),
    ("the longest list", |run| {
        run.writes(|run| run.length == gateway::LONGEST)
    }),
    (
        "longer than the longest list",
        |run| matches!(run.answer, Some(Ok(length)) if length > gateway::LONGEST),
    ),
];

/// The inputs send_*.in of a folder, by their names. Where there is none the run
/// ends, so that it does not pass as if they had been held.
fn stored_lists(folder: &str) -> Vec<Vec<u8>> {
    let stored = read_stored(folder).unwrap_or_else(|error| {
        eprintln!("compare: the lists in {}: {}", folder, error);
        exit(2);
    });
    if stored.is_empty() {
        eprintln!("compare: there is no send_*.in in {}", folder);
        exit(2);
    }
    stored
}

fn read_stored(folder: &str) -> std::io::Result<Vec<Vec<u8>>> {
    let mut names = Vec::new();
    for entry in fs::read_dir(folder)? {
        let file = entry?.path();
        let name = file.file_name().unwrap_or_default().to_string_lossy();
        if name.starts_with("send_") && name.ends_with(".in") {
            names.push(file);
        }
    }
    names.sort();
    names.iter().map(fs::read).collect()
}

fn sending(start: u32, end: u32, list: &[u8]) -> Vec<u8> {
    let mut input = format!("send start={} end={}\n", start, end).into_bytes();
    input.extend_from_slice(list);
    input
}

/// An input for the bench: a list of few messages or more, with one thing wrong or
/// two or none, and a Start and an End that are mostly good.
fn some_sending(rng: &mut Rng) -> Vec<u8> {
    let comp_id = make::comp_id(rng);
    let most = [3, MOST_PUBLISHED][rng.index(2)];
    let marks = make::good_list(rng, most);
    let mut list = make::published(rng, &comp_id, &marks);
    for _ in 0..[0, 0, 0, 0, 1, 2][rng.index(6)] {
        make::spoil_published(rng, &comp_id, &mut list);
    }
    let count = list.len() as u32;
    let start = match rng.below(12) {
        0 => rng.any_u32(),
        1 => count + 1,
        2 => 0,
        _ => 1 + rng.below(u64::from(count.max(1))) as u32,
    };
    let end = match rng.below(12) {
        0 => rng.any_u32(),
        1 => rng.below(u64::from(count) + 2) as u32,
        2..=4 => start.max(1 + rng.below(u64::from(count.max(1))) as u32),
        _ => 0,
    };
    sending(start, end, &list.concat())
}

/// A list of so many bytes, with as few in each message as it may have: Heartbeats
/// and Business Message Rejects in turn, so that gap fills make the answer longer
/// than the list. The last one's Reason takes what is left.
fn list_of(rng: &mut Rng, length: usize) -> Vec<u8> {
    // The two required fields have three bytes, and a Reason's length two.
    const LEAST_REASON: usize = wire::LEAST + 3 + tables::TEXT_LENGTH;
    let mut list = Vec::new();
    for number in 1.. {
        let left = length - list.len();
        if left == 0 {
            break;
        }
        let reason = (left <= LEAST_REASON + tables::REASON.width).then(|| {
            let mut text = vec![b'A'; left - LEAST_REASON];
            let length = (text.len() as u16).to_le_bytes();
            *text.last_mut().expect("there is room for its null") = 0;
            [&length[..], &text].concat()
        });
        let (message_type, fixed) = if reason.is_some() || number % 2 == 0 {
            let fixed = vec![(1, reason), (3, None), (4, None), (5, None)];
            (types::BUSINESS_MESSAGE_REJECT, fixed)
        } else {
            (types::HEARTBEAT, vec![(0, None)])
        };
        let given = Given {
            message_type,
            number,
            poss_dup: 0,
            poss_resend: 0,
            comp_id: US,
        };
        list.extend(make::message_with(rng, &given, &fixed));
    }
    list
}

/// Inputs that meet every situation: lists as long as they may be and longer, every
/// sort of Start and End, and lists in which more than one thing is wrong.
fn every_sending(rng: &mut Rng) -> Vec<Vec<u8>> {
    const OTHER: &[u8] = b"RECORDER012";
    let zeros = "0".repeat(gateway::LONGEST_LINE - b"send start= end=0".len() - 1);
    let mut all = vec![
        sending(1, 0, &list_of(rng, gateway::LONGEST)),
        sending(1, 0, &list_of(rng, gateway::LONGEST + 1)),
        sending(0, 0, &vec![0; gateway::LONGEST + 1]),
        // First lines that are as long as they may be, and one byte longer.
        format!("send start={}1 end=0\n", zeros).into_bytes(),
        format!("send start=0{}1 end=0\n", zeros).into_bytes(),
    ];
    let good = make::published(rng, US, &[0, 1, 1, 0, 0]).concat();
    for start in [0, 1, 3, 5, 6, LAST] {
        all.push(sending(start, start, &[]));
        for end in [0, 1, 2, 4, 5, 6, LAST] {
            all.push(sending(start, end, &good));
        }
    }
    let mut message = |comp_id, number| make::message(rng, types::HEARTBEAT, number, comp_id);
    let first = message(US, 1);
    let second = message(US, 2);
    for wrong in [
        second[..second.len() - 1].to_vec(),
        [&second[..], &[0]].concat(),
        message(US, 7),
        message(OTHER, 2),
        message(OTHER, 7),
        message(OTHER, 0),
    ] {
        all.push(sending(0, 0, &[&first[..], &wrong].concat()));
    }
    all
}

/// The refusal that is told in the line.
fn told(wrong: Wrong) -> u32 {
    match wrong {
        Wrong::Refused { refusal, .. } | Wrong::Plan { refusal } => refusal,
        Wrong::TooLong | Wrong::Number { .. } | Wrong::CompId { .. } => 0,
    }
}

fn note_sending(tally: &mut Tally, run: &Sending) {
    if let Some(sendings) = &mut tally.sendings {
        note(&SENDINGS, sendings, run);
    }
}

/// A run of the bench: its bytes, or its line. Where it wrote the answer to the end
/// of the list, a session takes it.
fn hold_sending(tally: &mut Tally, rng: &mut Rng, command: &[&str], input: &[u8]) {
    let output = printed(command, input, Stdio::piped());
    let line = String::from_utf8_lossy(&output.stderr).into_owned();
    let shown = || format!("bench {}", hex(input));
    let asked = match gateway::asked(input) {
        Some(asked) => asked,
        None => {
            // Another first line. The bench says so in words of its own.
            let is_one_line =
                line.starts_with("bench: ") && line.find('\n') == Some(line.len() - 1);
            let proved = (Hex(output.stdout), is_one_line);
            tally.hold(0, (Hex(Vec::new()), true), proved, shown);
            note_sending(tally, &Sending::default());
            return;
        }
    };
    let answer = gateway::send(asked.list, asked.start, asked.end);
    let twin = match &answer {
        Ok(bytes) => (Hex(bytes.clone()), String::new()),
        Err(wrong) => (Hex(Vec::new()), format!("{}\n", wrong)),
    };
    let refusal = answer.as_ref().err().map_or(0, |&wrong| told(wrong));
    tally.hold(refusal, twin, (Hex(output.stdout.clone()), line), shown);
    let list = split(asked.list);
    let run = Sending {
        start: asked.start,
        end: asked.end,
        length: asked.list.len(),
        count: list.len() as u32,
        answer: Some(answer.map(|bytes| bytes.len())),
    };
    note_sending(tally, &run);
    if run.is_taken() {
        let comp_id = reader::comp_id(asked.list);
        let session = some_asking(rng, comp_id, run.start, run.count);
        hold_answer(tally, &session, &list, &output.stdout);
    }
}

fn sendings(tally: &mut Tally, rng: &mut Rng, command: &str, stored: &[Vec<u8>], count: u64) {
    let command: Vec<&str> = command.split_whitespace().collect();
    tally.sendings = Some([0; SENDINGS.len()]);
    for input in stored.iter().chain(&every_sending(rng)) {
        hold_sending(tally, rng, &command, input);
    }
    for _ in 0..count {
        let input = some_sending(rng);
        hold_sending(tally, rng, &command, &input);
    }
}

// ---- The run ----

struct Options {
    seed: u64,
    count: u64,
    sheets: u64,
    daysheet: Option<String>,
    /// Random inputs for the bench.
    sendings: u64,
    bench: Option<String>,
    /// The stored inputs for it.
    stored: Vec<Vec<u8>>,
}

fn options() -> Options {
    let mut options = Options {
        seed: 1,
        count: 2_800_000,
        sheets: 240,
        daysheet: None,
        sendings: 200,
        bench: None,
        stored: Vec::new(),
    };
    let mut times = 1;
    let mut words = std::env::args().skip(1);
    while let Some(word) = words.next() {
        let mut next = || words.next().unwrap_or_else(|| usage());
        match word.as_str() {
            "--seed" => options.seed = next().parse().unwrap_or_else(|_| usage()),
            "--count" => options.count = next().parse().unwrap_or_else(|_| usage()),
            "--long" => times = 10,
            "--daysheet" => options.daysheet = Some(next()),
            "--bench" => options.bench = Some(next()),
            "--lists" => options.stored = stored_lists(&next()),
            _ => usage(),
        }
    }
    options.count *= times;
    options.sheets *= times;
    options.sendings *= times;
    if options.bench.is_none() && !options.stored.is_empty() {
        usage();
    }
    options
}

fn usage() -> ! {
    eprintln!(
        "compare [--seed N] [--count N] [--long] [--daysheet \"COMMAND..\"] \
         [--bench \"COMMAND..\" [--lists FOLDER]]"
    );
    exit(2);
}

fn main() {
    let options = options();
    println!("compare: seed {}", options.seed);
    let mut tally = Tally::new();
    let runs: [fn(&mut Tally, &mut Rng, u64); CATEGORIES.len() - 3] = [
        short_inputs,
        valid_messages,
        writes,
        damage,
        histories,
        odd_sessions,
        plans,
        sums,
        decimals,
        many_messages,
        holes,
        joins,
        ends_meet,
        silence::silence,
        texts,
        versions,
    ];
    // Each category has a generator of its own, so that none moves another.
    let rng = |category: usize| {
        let mut rng = Rng::new(options.seed);
        for _ in 0..category {
            rng.draw();
        }
        Rng::new(rng.draw())
    };
    for (category, run) in runs.iter().enumerate() {
        tally.category = category;
        let until = options.count / 100 * CATEGORIES[category].1;
        run(&mut tally, &mut rng(category), until);
    }
    tally.category = runs.len();
    match &options.daysheet {
        Some(command) => daysheets(&mut tally, &mut rng(runs.len()), command, options.sheets),
        None => println!("daysheet: skipped, --daysheet \"COMMAND..\" is not given"),
    }
    tally.category = CATEGORIES.len() - 1;
    match &options.bench {
        Some(command) => {
            let mut rng = rng(tally.category);
            let stored = &options.stored;
            sendings(&mut tally, &mut rng, command, stored, options.sendings);
        }
        None => println!("bench: skipped, --bench \"COMMAND..\" is not given"),
    }
    tally.end();
}
