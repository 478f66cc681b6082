//! Program daysheet (document 01): lines in, one line of account out for each; and
//! its plain recorder (document 02, item 11), which is a reading of its own.

use crate::session::{RowSort, Send, Session, LAST};
use crate::tables::types;
use crate::wire::{set, MAP_WIDTH, MOST};
use crate::writer::{self, HeadValues};

/// Any Comp ID does: the lines name none.
const COMP_ID: &[u8] = b"DAYSHEET";

#[derive(Clone, Copy, PartialEq, Eq)]
enum Kind {
    Logon,
    Business,
    GapFill,
    Reset,
}

struct Line {
    kind: Kind,
    n: u32,
    dup: u8,
    new: u32,
}

/// Decimal digits, at least one, at most 32 bits.
pub fn number(text: &[u8]) -> Option<u32> {
    if text.is_empty() {
        return None;
    }
    let mut value: u32 = 0;
    for &digit in text {
        if !digit.is_ascii_digit() {
            return None;
        }
        value = value
            .checked_mul(10)?
            .checked_add(u32::from(digit - b'0'))?;
    }
    Some(value)
}

/// A line of the form kind=K n=N dup=D new=X with single blanks; None for a bad
/// one.
fn parse(line: &[u8]) -> Option<Line> {
    let parts: Vec<&[u8]> = line.split(|&byte| byte == b' ').collect();
    if parts.len() != 4 {
        return None;
    }
    let kind = match parts[0].strip_prefix(b"kind=")? {
        b"logon" => Kind::Logon,
        b"business" => Kind::Business,
        b"gapfill" => Kind::GapFill,
        b"reset" => Kind::Reset,
        _ => return None,
    };
    let n = number(parts[1].strip_prefix(b"n=")?)?;
    let dup = number(parts[2].strip_prefix(b"dup=")?)?;
    let new = number(parts[3].strip_prefix(b"new=")?)?;
    let uses_new = kind == Kind::GapFill || kind == Kind::Reset;
    if n == 0 || dup > 1 || (new != 0 && !uses_new) {
        return None;
    }
    Some(Line {
        kind,
        n,
        dup: dup as u8,
        new,
    })
}

/// The message that a line stands for.
fn message(line: &Line) -> Vec<u8> {
    let (message_type, positions, body): (u8, &[usize], Vec<u8>) = match line.kind {
        // A logon's Next Expected is 2.
        Kind::Logon => (types::LOGON, &[2], 2u32.to_le_bytes().to_vec()),
        // The smallest business message: Business Message Reject with its
        // two required fields.
        Kind::Business => (types::BUSINESS_MESSAGE_REJECT, &[0, 2], vec![0; 3]),
        Kind::GapFill | Kind::Reset => {
            let mode = if line.kind == Kind::GapFill {
                b'Y'
            } else {
                b'N'
            };
            let mut body = vec![mode];
            body.extend_from_slice(&line.new.to_le_bytes());
            (types::SEQUENCE_RESET, &[0, 1], body)
        }
    };
    let mut map = [0; MAP_WIDTH];
    for &position in positions {
        set(&mut map, position);
    }
    let head = HeadValues {
        message_type,
        number: line.n,
        poss_dup: line.dup,
        poss_resend: 0,
    };
    let mut out = [0; MOST];
    let length = writer::write(&head, COMP_ID, &map, &body, &mut out)
        .expect("a good line makes a good message");
    out[..length].to_vec()
}

/// The lines of the input; a last line needs no line feed.
fn lines(input: &[u8]) -> Vec<&[u8]> {
    let mut lines: Vec<&[u8]> = input.split(|&byte| byte == b'\n').collect();
    if lines.last().map_or(false, |last| last.is_empty()) {
        lines.pop();
    }
    lines
}

/// What is printed of a line's answer.
struct Printed {
    row: &'static str,
    first: u32,
    last: u32,
    next: u32,
    out: &'static str,
}

/// The printed text for an input whose good lines are answered in turn. A bad line
/// ends it, and so does a line that is refused.
fn printed(input: &[u8], mut answer: impl FnMut(Line) -> Result<Printed, u32>) -> Vec<u8> {
    let mut text = String::from("sheet=1\n");
    for (index, line) in lines(input).into_iter().enumerate() {
        match parse(line).map(&mut answer) {
            Some(Ok(row)) => text.push_str(&format!(
                "row={} first={} last={} next={} out={}\n",
                row.row, row.first, row.last, row.next, row.out
            )),
            Some(Err(refusal)) => {
                text.push_str(&format!("refused={} line={}\n", refusal, index + 1));
                break;
            }
            None => {
                text.push_str(&format!("bad={}\n", index + 1));
                break;
            }
        }
    }
    text.into_bytes()
}

/// The printed text for an input.
pub fn daysheet(input: &[u8]) -> Vec<u8> {
    // Connecting a fresh day is exactly Waiting with E = 1 and O = 2.
    let mut session = Session::fresh(COMP_ID).expect("the Comp ID is good");
    session.connect(b"").expect("a fresh day connects");
    printed(input, |line| {
        let answer = session.step(&message(&line));
        let row = match answer.row.sort {
            RowSort::None => "none",
            RowSort::Business => "business",
            RowSort::Session => "session",
            RowSort::Filled => "filled",
            RowSort::Reset => "reset",
        };
        // A line can bring nothing else out: it holds no Test Request and no
        // Resend Request, and Next Expected equals O. No step gives what a tick does.
        let out = match answer.sends[0] {
            Send::ResendRequest { .. } => "resend",
            Send::Logout { .. } => "logout",
            Send::None
            | Send::Heartbeat { .. }
            | Send::GapFill { .. }
            | Send::TestRequest { .. }
            | Send::BareHeartbeat { .. } => "none",
        };
        Ok(Printed {
            row,
            first: answer.row.first,
            last: answer.row.last,
            next: session.e,
            out,
        })
    })
}

// ---- The plain recorder ----

/// How many lines the plain recorder keeps, and how it refuses one more.
pub const MOST_KEPT: usize = 4_096;
pub const LIST_FULL: u32 = 41;

/// How often the same is asked for again at one E.
const TWICE: u32 = 2;

#[derive(Clone, Copy)]
enum Phase {
    Waiting,
    Live,
    Down,
}

/// Where the session stands. O is left out: it begins at 2, and the kept lines are
/// too few to use it up, so that every message we send finds a number.
#[derive(Clone, Copy)]
struct Day {
    phase: Phase,
    e: u32,
    m: u32,
    repeats: u32,
}

const MORNING: Day = Day {
    phase: Phase::Waiting,
    e: 1,
    m: 0,
    repeats: 0,
};

/// What a line does to the day.
enum Deed {
    Nothing,
    /// Live begins, and nothing is taken.
    Begins,
    /// A row of this sort, which makes E this number.
    Row(&'static str, u32),
    /// A Resend Request for the first time: this number becomes M.
    Asks(u32),
    AsksAgain,
    /// Stop: a Logout is sent, and the day is over.
    Stops,
}

/// The rules in their order, by the numbers that document 01 gives them. Number 1
/// is of Comp IDs and 5 of Logouts, and the lines have neither.
fn deed(day: &Day, line: &Line) -> Deed {
    let Line { kind, n, dup, new } = *line;
    let e = day.e;
    match (day.phase, kind) {
        (Phase::Down, _) => Deed::Nothing,
        // 2. E is still 1, which n cannot be below, and O is 2 as Next Expected is.
        (Phase::Waiting, Kind::Logon) if n == e => Deed::Row("session", n + 1),
        (Phase::Waiting, Kind::Logon) => Deed::Begins,
        (Phase::Waiting, _) => Deed::Stops,
        // 3.
        (Phase::Live, Kind::Logon) => Deed::Stops,
        // 4.
        (Phase::Live, Kind::Reset) if new < e => Deed::Stops,
        (Phase::Live, Kind::Reset) if new == e => Deed::Nothing,
        (Phase::Live, Kind::Reset) => Deed::Row("reset", new),
        // 6.
        (Phase::Live, _) if n < e && dup == 1 => Deed::Nothing,
        (Phase::Live, _) if n < e => Deed::Stops,
        // 7, as document 02, item 3 has it.
        (Phase::Live, _) if n > e && day.m == 0 => Deed::Asks(n),
        (Phase::Live, _) if n > e && dup == 0 => Deed::Nothing,
        (Phase::Live, _) if n > e && day.repeats < TWICE => Deed::AsksAgain,
        (Phase::Live, _) if n > e => Deed::Stops,
        // 8.
        (Phase::Live, _) if n == LAST => Deed::Stops,
        // 9.
        (Phase::Live, Kind::GapFill) if new <= n => Deed::Stops,
        (Phase::Live, Kind::GapFill) => Deed::Row("filled", new),
        (Phase::Live, Kind::Business) => Deed::Row("business", n + 1),
    }
}

/// The day after a deed.
fn after(day: Day, deed: &Deed) -> Day {
    match *deed {
        Deed::Nothing => day,
        Deed::Begins => Day {
            phase: Phase::Live,
            ..day
        },
        Deed::Row(_, e) => Day {
            phase: Phase::Live,
            e,
            m: if e > day.m { 0 } else { day.m },
            repeats: 0,
        },
        Deed::Asks(m) => Day { m, ..day },
        Deed::AsksAgain => Day {
            repeats: day.repeats + 1,
            ..day
        },
        Deed::Stops => Day {
            phase: Phase::Down,
            e: day.e,
            m: 0,
            repeats: 0,
        },
    }
}

/// The answer to the last of the lines, worked out from the first one on.
fn answer_to_the_last(kept: &[Line]) -> Printed {
    let (last, earlier) = kept.split_last().expect("a line was kept");
    let before = earlier
        .iter()
        .fold(MORNING, |day, line| after(day, &deed(&day, line)));
    let deed = deed(&before, last);
    let (row, first, last) = match deed {
        Deed::Row(sort, e) => (sort, before.e, e - 1),
        _ => ("none", 0, 0),
    };
    let out = match deed {
        Deed::Asks(_) | Deed::AsksAgain => "resend",
        Deed::Stops => "logout",
        Deed::Nothing | Deed::Begins | Deed::Row(..) => "none",
    };
    Printed {
        row,
        first,
        last,
        next: after(before, &deed).e,
        out,
    }
}

/// The printed text of the plain recorder for an input: that of `daysheet`, but for
/// a good line that finds the list full. A line is read before room is asked for.
pub fn plain(input: &[u8]) -> Vec<u8> {
    let mut kept = Vec::new();
    printed(input, |line| {
        if kept.len() == MOST_KEPT {
            return Err(LIST_FULL);
        }
        kept.push(line);
        Ok(answer_to_the_last(&kept))
    })
}
