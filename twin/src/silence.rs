//! Silence on the line (document 02, item 2): the part of `compare` that holds lines
//! with a clock. Each call is held against the twin's, and the laws of the paper
//! between calls of the library.

use crate::proved::{
    self, Connected, Done, LineConnected, LineDone, LineMade, LineNext, LineStepped, LineTicked,
    Made, Send, Stepped,
};
use crate::{
    any_struct, bend, hex, hold_put, hold_put_logon, length_of, library_many, logon_room, met,
    met_of, missed, named, note, odd_comp_id, odd_password, rooms, row_struct, session_for_many,
    session_of, shown, shown_send, singles_by, small_rooms, small_sessions, some_fills, some_live,
    some_session, struct_of, Fills, Lists, Rooms, Situation, Tally, NOT_A_SESSION, NO_DAY,
    SESSION_EDGES,
};
use std::ops::RangeInclusive;
use twin::line::{Act, Line, Ticked, INTERVALS, TO_DOWN, TO_HEARTBEAT, TO_TEST_REQUEST};
use twin::make::{self, Rng, Sent, Start};
use twin::reader::{self, A_FIELD};
use twin::reports::LIST;
use twin::session::{self, Answer, Ended, Phase, A_ROW, A_SEND, LAST};
use twin::tables::types;
use twin::wire::{self, Allowed, Refusal};

// ---- The twin's answers, laid out as the header's structs ----

/// What stands beside a refusal of fresh or saved.
const NO_LINE: proved::Line = proved::Line {
    session: NO_DAY,
    interval: 1,
    tested: 0,
    now: 0,
    sent: 0,
    heard: 0,
};

fn line_struct(line: &Line) -> proved::Line {
    proved::Line {
        session: struct_of(&line.session),
        interval: line.interval,
        tested: line.tested,
        now: line.now,
        sent: line.sent,
        heard: line.heard,
    }
}

/// The twin's line for a struct; None where it does not pass the check.
fn line_of(l: &proved::Line) -> Option<Line> {
    let line = Line {
        session: session_of(&l.session)?,
        interval: l.interval,
        tested: l.tested,
        now: l.now,
        sent: l.sent,
        heard: l.heard,
    };
    line.passes().then_some(line)
}

/// A line as an argument.
fn shown_line(l: &proved::Line) -> String {
    format!(
        "{} interval {} tested {} now {} sent {} heard {}",
        shown(&l.session),
        l.interval,
        l.tested,
        l.now,
        l.sent,
        l.heard
    )
}

fn line_made(answer: Result<Line, Refusal>) -> LineMade {
    match answer {
        Ok(line) => LineMade {
            refusal: 0,
            line: line_struct(&line),
        },
        Err(refusal) => LineMade {
            refusal: refusal.number,
            line: NO_LINE,
        },
    }
}

fn ticked(line: &Line, answer: Ticked) -> LineTicked {
    LineTicked {
        refusal: answer.refusal,
        act: answer.act as u32,
        line: line_struct(line),
        send: shown_send(answer.send),
    }
}

// ---- The situations ----

/// What was called.
enum Did {
    Connect {
        refusal: u32,
    },
    Drop,
    Step(Answer),
    Many {
        done: session::Done,
        /// Whether the checksum of a message stepped on did not hold.
        spoiled: bool,
        /// Whether the step that found no slot has a message to send.
        kept_back: bool,
    },
    Tick(Ticked),
    Next(Option<u64>),
}

/// A call on a line that passes the check, as the twin does it.
struct Seen {
    before: Line,
    /// The time as it was given.
    time: u64,
    did: Did,
    after: Line,
}

impl Seen {
    /// Whether the tick did this.
    fn acts(&self, act: Act) -> bool {
        matches!(self.did, Did::Tick(Ticked { refusal: 0, act: did, .. }) if did == act)
    }

    /// Whether the tick found no number for its message.
    fn is_exhausted(&self) -> bool {
        matches!(self.did, Did::Tick(Ticked { refusal, .. }) if refusal == session::EXHAUSTED)
    }

    /// The number of the message that the tick sends.
    fn number(&self) -> u32 {
        self.before.session.o
    }

    /// When so many intervals have passed since a time of the line before.
    fn due(&self, since: u64, intervals: u64) -> u128 {
        let wait = intervals * make::milliseconds(self.before.interval);
        u128::from(since) + u128::from(wait)
    }

    /// The time that counts.
    fn counted(&self) -> u128 {
        u128::from(self.after.now)
    }

    fn is_at(&self, since: u64, intervals: u64) -> bool {
        self.counted() == self.due(since, intervals)
    }

    fn is_early(&self, since: u64, intervals: u64) -> bool {
        self.counted() + 1 == self.due(since, intervals)
    }

    fn has_passed(&self, since: u64, intervals: u64) -> bool {
        self.counted() >= self.due(since, intervals)
    }

    /// Whether the tick did nothing on a Live line.
    fn is_quiet(&self) -> bool {
        self.acts(Act::None) && self.before.is_live()
    }

    fn is_tick(&self) -> bool {
        matches!(self.did, Did::Tick(_))
    }

    fn is_step(&self) -> bool {
        matches!(self.did, Did::Step(_))
    }

    fn is_many(&self) -> bool {
        matches!(self.did, Did::Many { .. })
    }

    /// Whether the step answered so.
    fn answers(&self, codes: RangeInclusive<u32>) -> bool {
        matches!(self.did, Did::Step(answer) if codes.contains(&answer.code))
    }

    /// Whether the call on many messages ended so, without a refusal.
    fn ends(&self, ended: Ended) -> bool {
        matches!(self.did, Did::Many { done, .. } if done.refusal == 0 && done.ended == ended)
    }

    fn used(&self) -> usize {
        match self.did {
            Did::Many { done, .. } => done.used,
            _ => 0,
        }
    }

    /// The refusal of a call whose time alone counts.
    fn refusal(&self) -> u32 {
        match self.did {
            Did::Connect { refusal } => refusal,
            Did::Step(answer) => answer.code,
            Did::Many { done, .. } => done.refusal,
            Did::Drop | Did::Tick(_) | Did::Next(_) => 0,
        }
    }

    /// Whether the line was Live and is.
    fn stays(&self) -> bool {
        self.before.is_live() && self.after.is_live()
    }

    fn begins(&self) -> bool {
        !self.before.is_live() && self.after.is_live()
    }

    fn falls(&self) -> bool {
        self.before.is_live() && !self.after.is_live()
    }

    /// Whether a line that stays Live heard, and not at the same time as before.
    fn hears(&self) -> bool {
        self.stays() && self.after.heard != self.before.heard
    }

    fn sends(&self) -> bool {
        self.stays() && self.after.sent != self.before.sent
    }

    /// Whether a line that stays Live did not hear, though the time has gone on.
    fn is_deaf(&self) -> bool {
        self.stays()
            && self.after.heard == self.before.heard
            && self.after.now > self.before.now
            && self.after.now > self.before.heard
    }

    /// Whether the time is all that changed, and it did.
    fn counts_alone(&self) -> bool {
        let told = Line {
            now: self.after.now,
            ..self.before.clone()
        };
        self.after == told && self.after.now > self.before.now
    }

    fn next(&self) -> Option<Option<u64>> {
        match self.did {
            Did::Next(next) => Some(next),
            _ => None,
        }
    }

    /// Whether the next tick is due when so many intervals have passed since a time,
    /// and not at once.
    fn is_next(&self, since: u64, intervals: u64) -> bool {
        let is_due =
            |next: u64| next > self.before.now && u128::from(next) == self.due(since, intervals);
        self.next().flatten().map_or(false, is_due)
    }
}

/// What lines with a clock must meet. A message that the reader refuses with 5 to 10
/// is heard, but always stops the session, so that no more of it is seen than that the
/// times are 0. After its Test Request a silent line is Down before a Heartbeat is due:
/// only lines from outside, which pass the check all the same, have one to send then.
const SILENCES: [Situation<Seen>; 73] = [
    ("Down", |seen| seen.acts(Act::Down)),
    ("Down at exactly three intervals", |seen| {
        seen.acts(Act::Down) && seen.is_at(seen.before.heard, TO_DOWN)
    }),
    ("Down before a Test Request", |seen| {
        seen.acts(Act::Down) && seen.before.tested == 0
    }),
    ("Down before a Heartbeat", |seen| {
        seen.acts(Act::Down) && seen.has_passed(seen.before.sent, TO_HEARTBEAT)
    }),
    ("Down before 22", |seen| {
        seen.acts(Act::Down) && seen.number() == LAST
    }),
    ("Down while M stands", |seen| {
        seen.acts(Act::Down) && seen.before.session.m != 0
    }),
    ("Test Request", |seen| seen.acts(Act::TestRequest)),
    ("Test Request at exactly two intervals", |seen| {
        seen.acts(Act::TestRequest) && seen.is_at(seen.before.heard, TO_TEST_REQUEST)
    }),
    ("Test Request before a Heartbeat", |seen| {
        seen.acts(Act::TestRequest) && seen.has_passed(seen.before.sent, TO_HEARTBEAT)
    }),
    ("Test Request alone", |seen| {
        seen.acts(Act::TestRequest) && !seen.has_passed(seen.before.sent, TO_HEARTBEAT)
    }),
    ("Test Request a millisecond before Down", |seen| {
        seen.acts(Act::TestRequest) && seen.is_early(seen.before.heard, TO_DOWN)
    }),
    ("ID other than the number", |seen| {
        seen.acts(Act::TestRequest) && seen.number() > u32::from(u16::MAX)
    }),
    ("ID of 0", |seen| {
        seen.acts(Act::TestRequest) && seen.number() % 65_536 == 0
    }),
    ("Test Request with the last of our numbers", |seen| {
        seen.acts(Act::TestRequest) && seen.number() == LAST - 1
    }),
    ("Heartbeat", |seen| seen.acts(Act::Heartbeat)),
    ("Heartbeat at exactly one interval", |seen| {
        seen.acts(Act::Heartbeat) && seen.is_at(seen.before.sent, TO_HEARTBEAT)
    }),
    ("Heartbeat a millisecond before a Test Request", |seen| {
        seen.acts(Act::Heartbeat)
            && seen.before.tested == 0
            && seen.is_early(seen.before.heard, TO_TEST_REQUEST)
    }),
    ("Heartbeat after the Test Request", |seen| {
        seen.acts(Act::Heartbeat) && seen.has_passed(seen.before.heard, TO_TEST_REQUEST)
    }),
    ("Heartbeat a millisecond before Down", |seen| {
        seen.acts(Act::Heartbeat) && seen.is_early(seen.before.heard, TO_DOWN)
    }),
    ("Heartbeat with the last of our numbers", |seen| {
        seen.acts(Act::Heartbeat) && seen.number() == LAST - 1
    }),
    ("22 for a Test Request", |seen| {
        seen.is_exhausted()
            && seen.before.tested == 0
            && seen.has_passed(seen.before.heard, TO_TEST_REQUEST)
    }),
    ("22 for a Heartbeat", |seen| {
        seen.is_exhausted() && !seen.has_passed(seen.before.heard, TO_TEST_REQUEST)
    }),
    ("22 for a Heartbeat after the Test Request", |seen| {
        seen.is_exhausted() && seen.before.tested == 1
    }),
    ("22 while M stands", |seen| {
        seen.is_exhausted() && seen.before.session.m != 0
    }),
    ("nothing a millisecond before Down", |seen| {
        seen.is_quiet() && seen.is_early(seen.before.heard, TO_DOWN)
    }),
    ("nothing a millisecond before a Test Request", |seen| {
        seen.is_quiet()
            && seen.before.tested == 0
            && seen.is_early(seen.before.heard, TO_TEST_REQUEST)
    }),
    ("nothing a millisecond before a Heartbeat", |seen| {
        seen.is_quiet() && seen.is_early(seen.before.sent, TO_HEARTBEAT)
    }),
    ("nothing, the last number, none due", |seen| {
        seen.is_quiet() && seen.number() == LAST
    }),
    ("tick while Waiting, the time alone", |seen| {
        seen.is_tick() && seen.before.session.phase == Phase::Waiting && seen.counts_alone()
    }),
    ("tick while Down, the time alone", |seen| {
        seen.is_tick() && seen.before.session.phase == Phase::Down && seen.counts_alone()
    }),
    ("clock goes back", |seen| {
        seen.before.is_live() && seen.time < seen.before.now
    }),
    ("clock goes back, a tick acts", |seen| {
        seen.time < seen.before.now && seen.is_tick() && !seen.acts(Act::None)
    }),
    ("clock goes back, heard", |seen| {
        seen.time < seen.before.now && seen.hears()
    }),
    ("clock goes back, Live begins", |seen| {
        seen.time < seen.before.now && seen.begins()
    }),
    ("clock goes back to before the last hearing", |seen| {
        seen.is_quiet() && seen.time < seen.before.heard
    }),
    ("clock stands", |seen| {
        seen.before.is_live() && seen.time == seen.before.now
    }),
    ("clock stands, a tick acts", |seen| {
        seen.time == seen.before.now && seen.is_tick() && !seen.acts(Act::None)
    }),
    ("clock jumps past all three", |seen| {
        seen.before.is_live() && seen.is_tick() && {
            let now = u128::from(seen.before.now);
            now < seen.due(seen.before.sent, TO_HEARTBEAT)
                && now < seen.due(seen.before.heard, TO_TEST_REQUEST)
                && seen.has_passed(seen.before.sent, TO_HEARTBEAT)
                && seen.has_passed(seen.before.heard, TO_DOWN)
        }
    }),
    ("clock at its last time, Live", |seen| {
        seen.before.is_live() && seen.time == u64::MAX
    }),
    ("Live begun by a step", |seen| {
        seen.begins() && seen.is_step()
    }),
    ("Live begun by many", |seen| seen.begins() && seen.is_many()),
    ("Live begun by many, and more of them", |seen| {
        let is_more = matches!(seen.did, Did::Many { done, .. } if done.rows > 1);
        seen.begins() && is_more
    }),
    ("Live begun at time 0", |seen| {
        seen.begins() && seen.after.now == 0
    }),
    ("Live ended by a drop", |seen| {
        seen.falls() && matches!(seen.did, Did::Drop)
    }),
    ("Live ended by a Stop", |seen| {
        seen.falls() && seen.answers(30..=37)
    }),
    ("Live ended by 2 or 3", |seen| {
        seen.falls() && seen.answers(2..=3)
    }),
    ("Live ended by 5 to 10", |seen| {
        seen.falls() && seen.answers(5..=10)
    }),
    ("Live ended by a Logout", |seen| {
        seen.falls() && seen.answers(0..=0)
    }),
    ("Live ended by many", |seen| {
        seen.falls() && seen.ends(Ended::Down)
    }),
    ("heard by a step", |seen| seen.hears() && seen.is_step()),
    ("heard by many", |seen| seen.hears() && seen.is_many()),
    ("heard and nothing sent", |seen| {
        seen.hears() && !seen.sends()
    }),
    ("heard and sent", |seen| seen.hears() && seen.sends()),
    ("heard and sent, many", |seen| {
        seen.hears() && seen.sends() && seen.is_many()
    }),
    ("heard and a gap fill alone sent", |seen| {
        seen.hears() && seen.sends() && seen.after.session.o == seen.before.session.o
    }),
    ("heard, the message ignored", |seen| {
        seen.hears() && seen.answers(0..=0) && seen.after.session == seen.before.session
    }),
    ("tested cleared by a step", |seen| {
        seen.stays() && seen.is_step() && seen.before.tested > seen.after.tested
    }),
    ("tested cleared by many", |seen| {
        seen.stays() && seen.is_many() && seen.before.tested > seen.after.tested
    }),
    ("bad sum not heard", |seen| {
        seen.is_deaf() && seen.answers(wire::BAD_SUM..=wire::BAD_SUM)
    }),
    ("bad sum not heard, tested stays", |seen| {
        let is_bad = seen.answers(wire::BAD_SUM..=wire::BAD_SUM);
        seen.is_deaf() && is_bad && seen.after.tested == 1
    }),
    ("bad sums not heard, many", |seen| {
        seen.is_deaf() && seen.is_many() && seen.used() > 0
    }),
    ("bad sum and another heard, many", |seen| {
        seen.hears() && matches!(seen.did, Did::Many { spoiled: true, .. })
    }),
    ("Short not heard", |seen| {
        seen.is_deaf() && seen.answers(wire::SHORT..=wire::SHORT)
    }),
    ("Short not heard, many", |seen| {
        seen.is_deaf() && seen.ends(Ended::Short) && seen.used() == 0
    }),
    ("no slot after hearing", |seen| {
        seen.hears() && seen.ends(Ended::NoSlot)
    }),
    ("no slot, so nothing sent", |seen| {
        let kept_back = matches!(
            seen.did,
            Did::Many {
                kept_back: true,
                ..
            }
        );
        kept_back && seen.hears() && !seen.sends()
    }),
    ("11, the time alone", |seen| {
        seen.stays() && seen.refusal() == wire::NO_ROOM && seen.counts_alone()
    }),
    ("20, the time alone", |seen| {
        seen.refusal() == session::DOWN && seen.counts_alone()
    }),
    ("21, the time alone", |seen| {
        seen.stays() && seen.refusal() == session::NOT_DOWN && seen.counts_alone()
    }),
    ("next tick: none, not Live", |seen| {
        seen.next() == Some(None) && !seen.before.is_live()
    }),
    ("next tick: none by 64 bits", |seen| {
        seen.next() == Some(None) && seen.before.is_live()
    }),
    ("next tick: at once", |seen| {
        seen.next() == Some(Some(seen.before.now))
    }),
    ("next tick: at the last time", |seen| {
        seen.next() == Some(Some(u64::MAX)) && seen.before.now < u64::MAX
    }),
];

/// What the next tick may be due for.
const NEXTS: [Situation<Seen>; 4] = [
    ("Down", |seen| {
        seen.is_next(seen.before.heard, TO_DOWN) && !seen.is_next(seen.before.sent, TO_HEARTBEAT)
    }),
    ("Test Request", |seen| {
        seen.is_next(seen.before.heard, TO_TEST_REQUEST)
            && seen.before.tested == 0
            && !seen.is_next(seen.before.sent, TO_HEARTBEAT)
    }),
    ("Heartbeat", |seen| {
        seen.is_next(seen.before.sent, TO_HEARTBEAT)
            && !seen.is_next(seen.before.heard, TO_TEST_REQUEST)
    }),
    ("Test Request and Heartbeat at one time", |seen| {
        seen.is_next(seen.before.heard, TO_TEST_REQUEST)
            && seen.before.tested == 0
            && seen.is_next(seen.before.sent, TO_HEARTBEAT)
    }),
];

/// Each fault of a line that does not pass. It is counted where it is the only one.
const FAULTS: [Situation<proved::Line>; 9] = [
    ("no session", |l| session_of(&l.session).is_none()),
    ("interval 0", |l| l.interval < *INTERVALS.start()),
    ("interval above 60", |l| l.interval > *INTERVALS.end()),
    ("tested above 1", |l| l.tested > 1),
    ("sent after now", |l| l.sent > l.now),
    ("heard after now", |l| l.heard > l.now),
    ("tested, not Live", |l| !is_live(l) && l.tested != 0),
    ("sent, not Live", |l| !is_live(l) && l.sent != 0),
    ("heard, not Live", |l| !is_live(l) && l.heard != 0),
];

fn is_live(l: &proved::Line) -> bool {
    l.session.state == proved::LIVE
}

/// A line that ticks often and hears nothing, or hears in time.
struct Run {
    /// An interval in milliseconds.
    wait: u64,
    /// How long after it last heard the line was Down, and the tick's refusal then;
    /// None where it stayed Live.
    fell: Option<(u64, u32)>,
    /// The longest silence that ended by hearing.
    longest: u64,
    /// How many Test Requests it sent.
    tests: u32,
}

impl Run {
    /// Whether our numbers were used up, so long after the line last heard.
    fn is_exhausted(&self, is_so_long: impl FnOnce(u64) -> bool) -> bool {
        matches!(self.fell, Some((after, session::EXHAUSTED)) if is_so_long(after))
    }
}

/// What such lines must meet.
const RUNS: [Situation<Run>; 6] = [
    ("silent, Down at three intervals", |run| {
        run.fell == Some((TO_DOWN * run.wait, 0))
    }),
    ("silent, Down a millisecond before four", |run| {
        run.fell == Some((FOUR * run.wait - 1, 0))
    }),
    ("silent, 22 for the Test Request", |run| {
        run.is_exhausted(|after| after >= TO_TEST_REQUEST * run.wait)
    }),
    ("silent, 22 for a Heartbeat", |run| {
        run.is_exhausted(|after| after < TO_TEST_REQUEST * run.wait)
    }),
    ("heard a millisecond before three", |run| {
        run.fell.is_none() && run.longest == TO_DOWN * run.wait - 1
    }),
    ("heard after Test Requests", |run| {
        run.fell.is_none() && run.tests > 1
    }),
];

/// So many intervals after it last heard, a silent line that ticks once an interval is
/// Down.
const FOUR: u64 = 4;

/// How often lines with a clock met each of their situations.
pub struct Met {
    silences: [u64; SILENCES.len()],
    nexts: [u64; NEXTS.len()],
    faults: [u64; FAULTS.len()],
    runs: [u64; RUNS.len()],
}

impl Met {
    pub const NONE: Met = Met {
        silences: [0; SILENCES.len()],
        nexts: [0; NEXTS.len()],
        faults: [0; FAULTS.len()],
        runs: [0; RUNS.len()],
    };

    /// Prints the counts.
    pub fn print(&self) {
        println!("silence: {}", met_of(&SILENCES, &self.silences));
        println!("silence, next tick for: {}", met_of(&NEXTS, &self.nexts));
        println!("silence, one fault: {}", met_of(&FAULTS, &self.faults));
        println!("silence, ticks often: {}", met_of(&RUNS, &self.runs));
    }

    /// Whether a situation was never met.
    pub fn is_missed(&self) -> bool {
        let counts: [&[u64]; 4] = [&self.silences, &self.nexts, &self.faults, &self.runs];
        counts.iter().any(|counts| missed(counts))
    }

    fn note_line(&mut self, l: &proved::Line) {
        let mut faults = FAULTS.iter().enumerate().filter(|(_, (_, is))| is(l));
        if let (Some((index, _)), None) = (faults.next(), faults.next()) {
            self.faults[index] += 1;
        }
    }

    fn note(&mut self, seen: &Seen) {
        note(&SILENCES, &mut self.silences, seen);
        note(&NEXTS, &mut self.nexts, seen);
    }
}

/// The twin's line for a struct that comes to a call; None where it does not pass.
fn given(tally: &mut Tally, l: &proved::Line) -> Option<Line> {
    tally.silence.note_line(l);
    line_of(l)
}

// ---- The calls, each against the twin's ----

fn hold_line_fresh(tally: &mut Tally, comp_id: &[u8], interval: u32) {
    let answer = line_made(Line::fresh(comp_id, interval));
    let its_answer = proved::line_fresh(comp_id, interval);
    tally.hold(answer.refusal, answer, its_answer, || {
        format!("line_fresh {} interval {}", hex(comp_id), interval)
    });
}

fn hold_line_saved(tally: &mut Tally, start: &Start, interval: u32) -> proved::Line {
    let Start { comp_id, e, o } = start;
    let answer = line_made(Line::saved(comp_id, *e, *o, interval));
    let its_answer = proved::line_saved(comp_id, *e, *o, interval);
    tally.hold(answer.refusal, answer, its_answer, || {
        let comp_id = hex(comp_id);
        format!(
            "line_saved {} E {} O {} interval {}",
            comp_id, e, o, interval
        )
    });
    answer.line
}

fn hold_line_connect(
    tally: &mut Tally,
    l: proved::Line,
    time: u64,
    password: &[u8],
) -> proved::Line {
    let input = |how: &str| {
        let (line, password) = (shown_line(&l), hex(password));
        format!(
            "line_connect, {}, time {} {} password {}",
            how, time, line, password
        )
    };
    let its_answer = proved::line_connect(l, time, password);
    let before = match given(tally, &l) {
        Some(before) => before,
        None => {
            let answer = LineConnected {
                refusal: NOT_A_SESSION,
                line: l,
                ..LineConnected::default()
            };
            tally.hold(NOT_A_SESSION, answer, its_answer, || input("no line"));
            return l;
        }
    };
    let mut line = before.clone();
    let connected = line.connect(time, password);
    let mut answer = LineConnected {
        line: line_struct(&line),
        ..LineConnected::default()
    };
    match &connected {
        Ok(logon) => (answer.number, answer.next) = (logon.number, logon.next_expected),
        Err(refusal) => {
            answer.refusal = refusal.number;
            answer.besides = refusal.besides as usize;
        }
    }
    tally.hold(answer.refusal, answer, its_answer, || input("twin"));
    // With the clock left out it is the session's call.
    let clockless = Connected {
        refusal: its_answer.refusal,
        session: its_answer.line.session,
        number: its_answer.number,
        next: its_answer.next,
        besides: its_answer.besides,
    };
    let its_own = proved::connect(l.session, password);
    tally.hold(answer.refusal, its_own, clockless, || input("no clock"));
    let refusal = answer.refusal;
    see(tally, before, time, Did::Connect { refusal }, line);
    answer.line
}

/// Counts what a call met.
fn see(tally: &mut Tally, before: Line, time: u64, did: Did, after: Line) {
    tally.silence.note(&Seen {
        before,
        time,
        did,
        after,
    });
}

fn hold_line_drop(tally: &mut Tally, l: proved::Line, time: u64) -> proved::Line {
    let input = |how: &str| format!("line_drop, {}, time {} {}", how, time, shown_line(&l));
    let its_answer = proved::line_drop(l, time);
    let before = match given(tally, &l) {
        Some(before) => before,
        None => {
            let answer = LineMade {
                refusal: NOT_A_SESSION,
                line: l,
            };
            tally.hold(NOT_A_SESSION, answer, its_answer, || input("no line"));
            return l;
        }
    };
    let mut line = before.clone();
    line.drop(time);
    let answer = line_made(Ok(line.clone()));
    tally.hold(0, answer, its_answer, || input("twin"));
    let clockless = Made {
        refusal: its_answer.refusal,
        session: its_answer.line.session,
    };
    tally.hold(0, proved::drop(l.session), clockless, || input("no clock"));
    see(tally, before, time, Did::Drop, line);
    answer.line
}

/// What a step answers, without the clock.
fn step_without_clock(answer: LineStepped) -> Stepped {
    Stepped {
        refusal: answer.refusal,
        session: answer.line.session,
        first: answer.first,
        second: answer.second,
        row: answer.row,
        used: answer.used,
        besides: answer.besides,
    }
}

fn hold_line_step(tally: &mut Tally, l: proved::Line, time: u64, bytes: &[u8]) -> LineStepped {
    let input = |how: &str| {
        let (line, bytes) = (shown_line(&l), hex(bytes));
        format!("line_step, {}, time {} {} {}", how, time, line, bytes)
    };
    let its_answer = proved::line_step(l, time, bytes);
    let before = match given(tally, &l) {
        Some(before) => before,
        None => {
            let answer = LineStepped {
                refusal: NOT_A_SESSION,
                line: l,
                ..LineStepped::default()
            };
            tally.hold(NOT_A_SESSION, answer, its_answer, || input("no line"));
            return answer;
        }
    };
    let mut line = before.clone();
    let step = line.step(time, bytes);
    let answer = LineStepped {
        refusal: step.code,
        line: line_struct(&line),
        first: shown_send(step.sends[0]),
        second: shown_send(step.sends[1]),
        row: row_struct(step.row),
        used: session::used(step.code, bytes),
        besides: step.besides as usize,
    };
    tally.hold(answer.refusal, answer, its_answer, || input("twin"));
    let clockless = step_without_clock(its_answer);
    let its_own = proved::step(l.session, bytes);
    tally.hold(answer.refusal, its_own, clockless, || input("no clock"));
    see(tally, before, time, Did::Step(step), line);
    answer
}

/// What a call on many messages leaves, without the clock.
fn without_clock(done: LineDone) -> Done {
    Done {
        refusal: done.refusal,
        session: done.line.session,
        used: done.used,
        rows: done.rows,
        sends: done.sends,
        ended: done.ended,
        code: done.code,
        besides: done.besides,
    }
}

/// The library's call.
fn library_line_many(
    l: proved::Line,
    time: u64,
    bytes: &[u8],
    mut lists: Lists,
) -> (LineDone, Lists) {
    let (rows, sends) = lists.lent();
    let done = proved::line_steps(l, time, bytes, rows, sends);
    (done, lists)
}

/// What a call must give, by the library's own single steps in turn at the one time.
fn line_singles(l: proved::Line, time: u64, bytes: &[u8], lists: Lists) -> (LineDone, Lists) {
    let (line, done, lists) = singles_by(l, bytes, lists, |line, rest| {
        let answer = proved::line_step(line, time, rest);
        (answer.line, step_without_clock(answer))
    });
    (LineDone::of(line, done), lists)
}

/// Whether the checksum of one of the messages, which stand back to back, does not
/// hold.
fn is_spoiled(mut messages: &[u8]) -> bool {
    while !messages.is_empty() {
        match reader::read(messages) {
            Err(refusal) if refusal.number == wire::BAD_SUM => return true,
            Ok(head) => messages = &messages[head.length..],
            // It ends the session, so it is the last.
            Err(_) => return false,
        }
    }
    false
}

/// Whether a step on these bytes has a message to send.
fn sends_next(line: &Line, bytes: &[u8]) -> bool {
    let answer = line.session.clone().step(bytes);
    answer.sends != [session::Send::None; 2]
}

/// The whole answer, and every number of both lists afterwards, of the library and the
/// twin; then of the library's single steps, and of its call without the clock.
fn hold_line_many(
    tally: &mut Tally,
    l: proved::Line,
    time: u64,
    bytes: &[u8],
    rooms: Rooms,
) -> proved::Line {
    let lists = Lists::new(rooms);
    let input = |how: &str| {
        let (line, bytes) = (shown_line(&l), hex(bytes));
        format!(
            "line_steps, {}, time {} {} {:?} {}",
            how, time, line, rooms, bytes
        )
    };
    let proved = library_line_many(l, time, bytes, lists.clone());
    let before = match given(tally, &l) {
        Some(before) => before,
        None => {
            let done = LineDone {
                refusal: NOT_A_SESSION,
                line: l,
                ..LineDone::default()
            };
            tally.hold(NOT_A_SESSION, (done, lists), proved, || input("no line"));
            return l;
        }
    };
    let mut line = before.clone();
    let mut ours = lists.clone();
    let (rows, sends) = ours.lent();
    let done = line.steps(time, bytes, rows, sends);
    let of_session = Done::of(struct_of(&line.session), done);
    let refusal = met(&of_session);
    tally.ended[of_session.ended as usize] += 1;
    let answer = LineDone::of(line_struct(&line), of_session);
    tally.hold(refusal, (answer, ours), proved.clone(), || input("twin"));
    let singles = line_singles(l, time, bytes, lists.clone());
    tally.hold(refusal, singles, proved.clone(), || input("single steps"));
    let clockless = (without_clock(proved.0), proved.1);
    let its_own = library_many(l.session, bytes, lists);
    tally.hold(refusal, its_own, clockless, || input("no clock"));
    let did = Did::Many {
        done,
        spoiled: is_spoiled(&bytes[..done.used]),
        kept_back: done.ended == Ended::NoSlot && sends_next(&line, &bytes[done.used..]),
    };
    see(tally, before, time, did, line);
    answer.line
}

fn hold_tick(tally: &mut Tally, l: proved::Line, time: u64) -> LineTicked {
    let input = || format!("line_tick time {} {}", time, shown_line(&l));
    let its_answer = proved::line_tick(l, time);
    let before = match given(tally, &l) {
        Some(before) => before,
        None => {
            let answer = LineTicked {
                refusal: NOT_A_SESSION,
                line: l,
                ..LineTicked::default()
            };
            tally.hold(NOT_A_SESSION, answer, its_answer, input);
            return answer;
        }
    };
    let mut line = before.clone();
    let tick = line.tick(time);
    let answer = ticked(&line, tick);
    tally.hold(answer.refusal, answer, its_answer, input);
    see(tally, before, time, Did::Tick(tick), line);
    answer
}

fn hold_next_tick(tally: &mut Tally, l: proved::Line) -> Option<u64> {
    let input = || format!("line_next_tick {}", shown_line(&l));
    let its_answer = proved::line_next_tick(l);
    let line = match given(tally, &l) {
        Some(line) => line,
        None => {
            let answer = LineNext {
                refusal: NOT_A_SESSION,
                ..LineNext::default()
            };
            tally.hold(NOT_A_SESSION, answer, its_answer, input);
            return None;
        }
    };
    let next = line.next_tick();
    let answer = LineNext {
        refusal: 0,
        due: next.is_some() as u32,
        time: next.unwrap_or(0),
    };
    tally.hold(0, answer, its_answer, input);
    see(tally, line.clone(), line.now, Did::Next(next), line);
    next
}

// ---- The laws, each held between calls of the library ----

/// What a tick that does nothing leaves of a line.
fn untouched(l: proved::Line, time: u64) -> LineTicked {
    LineTicked {
        line: proved::Line {
            now: l.now.max(time),
            ..l
        },
        ..LineTicked::default()
    }
}

/// Whether a tick acted. 22 is in the place of an act.
fn has_acted(answer: &LineTicked) -> bool {
    answer.act != Act::None as u32 || answer.refusal == session::EXHAUSTED
}

/// A second tick at the same time, or at an earlier one, does nothing.
fn hold_second_tick(tally: &mut Tally, l: proved::Line, time: u64) {
    let once = proved::line_tick(l, time);
    let twice = proved::line_tick(once.line, time);
    let back = proved::line_tick(once.line, time / 2);
    let nothing = untouched(once.line, time);
    tally.hold(0, [nothing; 2], [twice, back], || {
        format!("line_tick twice, time {} {}", time, shown_line(&l))
    });
}

/// A tick that finds too long a silence, or no number, leaves what a drop leaves; any
/// other leaves the session but for O, which is one more with a message to send.
fn hold_as_drop(tally: &mut Tally, l: proved::Line, time: u64) {
    let answer = proved::line_tick(l, time);
    let is_down = answer.act == Act::Down as u32 || answer.refusal == session::EXHAUSTED;
    let left = if is_down {
        proved::line_drop(l, time).line.session
    } else {
        proved::Session {
            own: l.session.own.wrapping_add(u32::from(answer.send.kind != 0)),
            ..l.session
        }
    };
    tally.hold(0, left, answer.line.session, || {
        format!("line_tick as a drop, time {} {}", time, shown_line(&l))
    });
}

/// A tick at the time that the library tells acts, and one a millisecond before it does
/// not, unless that is before the latest time. Where it tells none, no tick acts, the
/// one at the last time too.
fn hold_at_next(tally: &mut Tally, l: proved::Line) {
    let next = proved::line_next_tick(l);
    let input = |how: &str| format!("line_next_tick, {}, {:?} {}", how, next, shown_line(&l));
    if next.due == 0 {
        let last = proved::line_tick(l, u64::MAX);
        tally.hold(0, untouched(l, u64::MAX), last, || input("none"));
        return;
    }
    let at = proved::line_tick(l, next.time);
    let told = (next.time >= l.now, has_acted(&at));
    tally.hold(0, (true, true), told, || input("at it"));
    if next.time > l.now {
        let early = next.time - 1;
        let before = proved::line_tick(l, early);
        tally.hold(0, untouched(l, early), before, || input("before it"));
    }
}

/// What a message says, by the library's reader.
#[derive(Debug, PartialEq)]
struct ReadBack {
    refusal: u32,
    message_type: u8,
    number: u32,
    flags: [u8; 2],
    length: usize,
    comp_id: Vec<u8>,
    /// The position and the value of each field.
    fields: Vec<(u64, u64)>,
}

fn read_back(bytes: &[u8]) -> ReadBack {
    let mut numbers = [0; LIST];
    let listed = proved::fields(bytes, &mut numbers);
    let (_, comp_id) = named(bytes, proved::comp_id(bytes));
    let fields = numbers.chunks_exact(A_FIELD).take(listed.fields);
    ReadBack {
        refusal: listed.reading.refusal,
        message_type: listed.reading.message_type,
        number: listed.reading.number,
        flags: [listed.reading.possdup, listed.reading.possresend],
        length: listed.reading.length,
        comp_id: comp_id.0,
        fields: fields.map(|field| (field[0], field[A_FIELD - 1])).collect(),
    }
}

/// The message that the library's tick gives, as the library's bytes, says to its
/// reader what the paper asks for.
fn hold_read_back(tally: &mut Tally, rng: &mut Rng, l: proved::Line, time: u64) {
    let answer = proved::line_tick(l, time);
    if answer.send.kind == 0 {
        return;
    }
    let number = l.session.own;
    let is_test = answer.act == Act::TestRequest as u32;
    let comp_id = l.session.comp_id.iter().copied();
    let said = ReadBack {
        refusal: 0,
        message_type: if is_test {
            types::TEST_REQUEST
        } else {
            types::HEARTBEAT
        },
        number,
        flags: [0, 0],
        length: wire::LEAST + if is_test { 2 } else { 0 },
        comp_id: comp_id.take_while(|&byte| byte != 0).collect(),
        fields: if is_test {
            vec![(0, u64::from(number) % 65_536)]
        } else {
            Vec::new()
        },
    };
    let mut out = [0; proved::LONGEST_WRITTEN];
    let written = proved::put(&mut out, answer.line.session, answer.send);
    let its = read_back(&out[..written.length.min(out.len())]);
    tally.hold(0, said, its, || {
        format!("line_tick read back, time {} {}", time, shown_line(&l))
    });
    for room in rooms(rng, length_of(&answer.line.session, answer.send)) {
        hold_put(tally, answer.line.session, answer.send, room);
    }
}

/// All laws of one line and a time.
fn hold_laws(tally: &mut Tally, rng: &mut Rng, l: proved::Line, time: u64) {
    hold_second_tick(tally, l, time);
    hold_as_drop(tally, l, time);
    hold_at_next(tally, l);
    hold_read_back(tally, rng, l, time);
}

/// A Live line takes, at one time, a gap fill from E to a New and one from there to
/// another New, in two steps and in one call: it is then as if it had taken one from E
/// to the last New at that time.
fn hold_line_fills(tally: &mut Tally, rng: &mut Rng, fills: &Fills) {
    let Fills {
        session,
        new,
        last_new,
    } = fills;
    let line = make::line_over(rng, session.clone());
    let time = make::time(rng, &line);
    let l = line_struct(&line);
    let parts = [(session.e, *new), (*new, *last_new), (session.e, *last_new)];
    let [first, second, both] = parts.map(|(number, new)| {
        let poss_dup = rng.below(2) as u8;
        make::sent(
            rng,
            &session.comp_id,
            number,
            poss_dup,
            Sent::GapFill { new },
        )
    });
    hold_line_step(tally, l, time, &both);
    let between = hold_line_step(tally, l, time, &first).line;
    hold_line_step(tally, between, time, &second);
    let at_once = proved::line_step(l, time, &both).line;
    let between = proved::line_step(l, time, &first).line;
    let in_turn = proved::line_step(between, time, &second).line;
    let bytes = [&first[..], &second].concat();
    let lists = Lists::new(Rooms::steps(2));
    let (in_one_call, _) = library_line_many(l, time, &bytes, lists);
    let others = [in_turn, in_one_call.line];
    tally.hold(0, [at_once; 2], others, || {
        let bytes = [first, second, both].map(|bytes| hex(&bytes)).join(" ");
        let line = shown_line(&l);
        format!(
            "two gap fills against one, time {} {} {}",
            time, line, bytes
        )
    });
}

/// A Live line that has just heard, so long before the last time that a silence ends
/// before it.
fn just_heard(rng: &mut Rng, o: u32) -> (Line, u64) {
    let session = session::Session {
        o,
        ..some_live(rng)
    };
    let mut line = make::line_over(rng, session);
    let wait = make::milliseconds(line.interval);
    line.now = line.now.min(u64::MAX - FOUR * wait);
    line.heard = line.now;
    line.sent = line.sent.min(line.now);
    line.tested = 0;
    (line, wait)
}

/// What a silent line is sent that it does not hear.
fn unheard(rng: &mut Rng, line: &Line) -> Vec<u8> {
    let bytes = make::sent(
        rng,
        &line.session.comp_id,
        line.session.e,
        0,
        Sent::Of(types::HEARTBEAT),
    );
    match rng.below(2) {
        0 => make::spoil_sum(rng, bytes),
        _ => bytes[..rng.index(bytes.len())].to_vec(),
    }
}

/// The library's line hears nothing and ticks at least once an interval: no later than
/// four intervals after it last heard it is Down. A tick meets the third interval, so
/// that one Test Request was sent; and since that was sent, no Heartbeat is due before
/// the line is Down, so that where our numbers were used up none was.
fn hold_silent(tally: &mut Tally, rng: &mut Rng) {
    let o = if rng.chance(30) {
        LAST - rng.below(4) as u32
    } else {
        rng.any_u32().max(2)
    };
    let (line, wait) = just_heard(rng, o);
    let l = line_struct(&line);
    let mut its = l;
    let mut time = line.now;
    let mut run = Run {
        wait,
        fell: None,
        longest: 0,
        tests: 0,
    };
    let pace = rng.below(4);
    // Every tick is at least a millisecond after the last, and mostly much more.
    while run.fell.is_none() && time - line.now < FOUR * wait {
        time = time.saturating_add(match pace {
            0 => wait,
            1 if time == line.now => wait - 1,
            1 => wait,
            2 => 1 + rng.below(wait),
            _ => wait - rng.below(wait / 2),
        });
        if rng.chance(20) {
            let bytes = unheard(rng, &line);
            its = proved::line_step(its, time, &bytes).line;
        }
        let answer = proved::line_tick(its, time);
        its = answer.line;
        run.tests += u32::from(answer.act == Act::TestRequest as u32);
        if its.session.state != proved::LIVE {
            run.fell = Some((time - line.now, answer.refusal));
        }
    }
    note(&RUNS, &mut tally.silence.runs, &run);
    let (after, refusal) = run.fell.unwrap_or((u64::MAX, 0));
    let said = (true, u32::from(refusal == 0));
    tally.hold(0, said, (after <= FOUR * wait, run.tests), || {
        format!("a silent line, pace {} {}", pace, shown_line(&l))
    });
}

/// The library's line always hears before three intervals have passed and ticks now and
/// then: no tick puts it Down.
fn hold_hearing(tally: &mut Tally, rng: &mut Rng) {
    let o = 2 + rng.below(1_000_000) as u32;
    let (mut line, wait) = just_heard(rng, o);
    line.session.e = 1 + rng.below(1_000_000) as u32;
    line.now = line.now.min(u64::MAX / 2);
    (line.heard, line.sent) = (line.now, line.sent.min(line.now));
    let l = line_struct(&line);
    let mut its = l;
    let mut run = Run {
        wait,
        fell: None,
        longest: 0,
        tests: 0,
    };
    let mut heard = line.now;
    for _ in 0..6 {
        let silence = match rng.below(3) {
            0 => TO_DOWN * wait - 1,
            _ => rng.below(TO_DOWN * wait),
        };
        run.longest = run.longest.max(silence);
        // The last tick comes as late as the message does.
        let mut times: Vec<u64> = (0..rng.index(5)).map(|_| rng.below(silence + 1)).collect();
        times.push(silence);
        times.sort_unstable();
        for after in times {
            let answer = proved::line_tick(its, heard + after);
            its = answer.line;
            run.tests += u32::from(answer.act == Act::TestRequest as u32);
            if its.session.state != proved::LIVE {
                run.fell = Some((after, answer.refusal));
            }
        }
        heard += silence;
        let comp_id = &line.session.comp_id;
        let bytes = make::sent(
            rng,
            comp_id,
            its.session.expected,
            0,
            Sent::Of(types::HEARTBEAT),
        );
        its = proved::line_step(its, heard, &bytes).line;
    }
    note(&RUNS, &mut tally.silence.runs, &run);
    tally.hold(
        0,
        (None, proved::LIVE),
        (run.fell, its.session.state),
        || format!("a line that hears in time {}", shown_line(&l)),
    );
}

// ---- Every bound ----

/// Both sides of every bound of an interval, and some whose low bits look good.
const INTERVAL_EDGES: [u32; 10] = [0, 1, 2, 59, 60, 61, 257, 65_537, 1 << 31, LAST];
const TESTED_EDGES: [u32; 6] = [0, 1, 2, 256, 65_537, LAST];

/// A day of every sort with every interval: the day's own refusals come first.
fn every_start(tally: &mut Tally) {
    for interval in INTERVAL_EDGES
        .into_iter()
        .chain(*INTERVALS.start()..=*INTERVALS.end())
    {
        for comp_id in [&b"RECORDER01"[..], b"A", b"", b"RECORDER0123", b"A\x7F"] {
            hold_line_fresh(tally, comp_id, interval);
            for e in [0, 1, LAST] {
                for o in [0, 1, LAST] {
                    let comp_id = comp_id.to_vec();
                    let l = hold_line_saved(tally, &Start { comp_id, e, o }, interval);
                    // What stands beside a refusal is refused in its turn.
                    hold_tick(tally, l, 1);
                }
            }
        }
    }
}

/// One of the calls on a line, with bytes that a Live or a Waiting one hears.
fn hold_some_call(tally: &mut Tally, rng: &mut Rng, l: proved::Line, time: u64, bytes: &[u8]) {
    match rng.below(5) {
        0 => {
            hold_line_connect(tally, l, time, b"");
        }
        1 => {
            hold_line_drop(tally, l, time);
        }
        2 => {
            hold_line_step(tally, l, time, bytes);
        }
        3 => {
            hold_line_many(tally, l, time, bytes, Rooms::steps(2));
        }
        _ => {
            hold_next_tick(tally, l);
        }
    }
}

/// A line over a session of each state and over what is none, with the interval and
/// `tested` at every edge, and all three times on all sides of each other, to a tick
/// and to one of the other calls.
fn every_line(tally: &mut Tally, rng: &mut Rng) {
    let sessions = small_sessions();
    let comp_id = session_of(&sessions[0])
        .expect("a session of some day")
        .comp_id;
    let bytes = make::sent(rng, &comp_id, 1, 0, Sent::Of(types::HEARTBEAT));
    for session in sessions.into_iter().chain([NO_DAY]) {
        for interval in INTERVAL_EDGES {
            for tested in TESTED_EDGES {
                for now in [0, 1, 70_000, u64::MAX - 1, u64::MAX] {
                    for sent in around(now) {
                        for heard in around(now) {
                            let l = proved::Line {
                                session,
                                interval,
                                tested,
                                now,
                                sent,
                                heard,
                            };
                            // All but a few of the lines have more than one fault, and
                            // of those some are enough.
                            let faults = FAULTS.iter().filter(|(_, is)| is(&l)).count();
                            if faults < 2 || rng.chance(10) {
                                let time = [0, now, now.saturating_add(1_000), u64::MAX];
                                let time = time[rng.index(4)];
                                hold_tick(tally, l, time);
                                hold_some_call(tally, rng, l, time, &bytes);
                            }
                        }
                    }
                }
            }
        }
    }
}

/// Times on both sides of one, and the first and the last there are.
fn around(time: u64) -> Vec<u64> {
    let mut all = vec![
        0,
        time.saturating_sub(1),
        time,
        time.saturating_add(1),
        u64::MAX,
    ];
    all.sort_unstable();
    all.dedup();
    all
}

/// A line whose session has numbers on both sides of every bound, with a good clock.
fn every_session_of_a_line(tally: &mut Tally, rng: &mut Rng) {
    let us = small_sessions()[0];
    let comp_id = session_of(&us).expect("a session of some day").comp_id;
    let bytes = make::sent(rng, &comp_id, 1, 0, Sent::Of(types::HEARTBEAT));
    for state in proved::DOWN..=proved::LIVE + 1 {
        for expected in SESSION_EDGES {
            for own in SESSION_EDGES {
                for ahead in [0, 1, 2, 5, LAST] {
                    let session = proved::Session {
                        state,
                        expected,
                        own,
                        ahead,
                        repeats: rng.below(4) as u32 & rng.below(4) as u32,
                        ..us
                    };
                    let l = proved::Line {
                        session,
                        interval: make::interval(rng),
                        now: 200_000,
                        ..NO_LINE
                    };
                    hold_tick(tally, l, 130_000);
                    hold_some_call(tally, rng, l, 230_000, &bytes);
                }
            }
        }
    }
}

/// Numbers of ours at which the ID, or whether there is a number, changes.
const OWN_EDGES: [u32; 8] = [2, 65_535, 65_536, 65_537, 131_072, LAST - 2, LAST - 1, LAST];

/// Live lines of intervals at both ends, heard at the first times, at any, and so long
/// before the last that each of the waits ends at it, a millisecond before it or after
/// it; sent at the same time, or where its wait and another end beside each other. Each
/// is given every time at which an answer changes.
fn every_due(tally: &mut Tally, rng: &mut Rng) {
    for interval in [1, 2, 59, 60] {
        let wait = make::milliseconds(interval);
        let mut heards = vec![0, 1, 1_000_000_007];
        for count in 1..=TO_DOWN {
            let last = u64::MAX - count * wait;
            heards.extend([last - 1, last, last + 1]);
        }
        heards.push(u64::MAX);
        for heard in heards {
            for tested in [0, 1] {
                for since in [
                    0,
                    wait - 1,
                    wait,
                    wait + 1,
                    2 * wait - 1,
                    2 * wait,
                    2 * wait + 1,
                ] {
                    let sent = heard.saturating_add(since);
                    let line = Line {
                        session: session::Session {
                            o: OWN_EDGES[rng.index(OWN_EDGES.len())],
                            ..some_live(rng)
                        },
                        interval,
                        tested,
                        now: sent,
                        sent,
                        heard,
                    };
                    hold_due(tally, rng, &line);
                }
            }
        }
    }
}

/// A line with each of the times at which its answers change.
fn hold_due(tally: &mut Tally, rng: &mut Rng, line: &Line) {
    let l = line_struct(line);
    hold_next_tick(tally, l);
    hold_at_next(tally, l);
    let mut times = make::edge_times(line);
    times.extend([0, line.now.saturating_sub(1), line.now, u64::MAX]);
    times.sort_unstable();
    times.dedup();
    for time in times {
        hold_tick(tally, l, time);
        if rng.chance(10) {
            hold_second_tick(tally, l, time);
            hold_as_drop(tally, l, time);
            hold_read_back(tally, rng, l, time);
        }
    }
}

/// Every number of ours at an edge, and each of the three acts and none.
fn every_number(tally: &mut Tally, rng: &mut Rng) {
    for o in OWN_EDGES {
        for tested in [0, 1] {
            for passed in 0..=TO_DOWN {
                let mut session = some_live(rng);
                session.o = o;
                let line = Line {
                    session,
                    interval: 30,
                    tested,
                    now: 5,
                    sent: 5,
                    heard: 5,
                };
                let time = 5 + passed * make::milliseconds(30);
                let l = line_struct(&line);
                hold_tick(tally, l, time);
                hold_laws(tally, rng, l, time);
            }
        }
    }
}

/// Slices into every small room: a bad sum first, or a good message, or a message whose
/// answer finds no slot behind others.
fn every_line_room(tally: &mut Tally, rng: &mut Rng) {
    let [_, waiting, live] = small_sessions();
    for s in [waiting, live] {
        let session = session_of(&s).expect("a session of some day");
        let comp_id = &session.comp_id;
        let logon = [(2, Some(session.o.to_le_bytes().to_vec()))];
        let logon_head = make::Given {
            message_type: types::LOGON,
            number: session.e,
            poss_dup: 0,
            poss_resend: 0,
            comp_id,
        };
        let mut messages = vec![make::message_with(rng, &logon_head, &logon)];
        if session.phase == Phase::Live {
            messages = vec![make::sent(rng, comp_id, 1, 0, Sent::Of(types::HEARTBEAT))];
        }
        for number in 2..=4 {
            messages.push(make::sent(
                rng,
                comp_id,
                number,
                0,
                Sent::Of(types::TEST_REQUEST),
            ));
        }
        let spoiled = make::spoil_sum(rng, messages[0].clone());
        let whole = messages.concat();
        let behind = [&spoiled[..], &whole].concat();
        for bytes in [&whole[..], &behind, &spoiled, &spoiled[..9]] {
            for rows in 0..5 * A_ROW {
                for sends in (0..4 * A_SEND).filter(|sends| sends % A_SEND < 2) {
                    let mut line = make::line_over(rng, session.clone());
                    line.now = line.now.min(u64::MAX - 1);
                    line.heard = line.heard.min(line.now);
                    line.sent = line.sent.min(line.now);
                    let time = line.now + 1;
                    let l = line_struct(&line);
                    hold_line_many(tally, l, time, bytes, Rooms { rows, sends });
                }
            }
        }
    }
}

/// A message of a type and number as it is framed, right or wrong.
fn framed(
    comp_id: &[u8],
    message_type: u8,
    number: u32,
    positions: &[usize],
    body: &[u8],
) -> Vec<u8> {
    let given = make::Given {
        message_type,
        number,
        poss_dup: 0,
        poss_resend: 0,
        comp_id,
    };
    let mut padded = comp_id.to_vec();
    padded.resize(wire::COMP_ID_WIDTH, 0);
    let mut map = [0; wire::MAP_WIDTH];
    for &position in positions {
        wire::set(&mut map, position);
    }
    make::frame(&given, &padded, &map, body)
}

/// Messages of every sort for a session: such as each rule answers, and one for each
/// of the reader's refusals.
fn every_sort(rng: &mut Rng, session: &session::Session) -> Vec<Vec<u8>> {
    let session::Session { comp_id, e, o, .. } = session;
    let (e, o) = (*e, *o);
    let logon = |next: u32| framed(comp_id, types::LOGON, e, &[2], &next.to_le_bytes());
    let plain = framed(comp_id, types::HEARTBEAT, e, &[], &[]);
    let mut bad_start = plain.clone();
    bad_start[0] = wire::START + 1;
    let mut bad_length = plain.clone();
    bad_length[1] = wire::LEAST as u8 - 1;
    let mut all = vec![
        Vec::new(),
        plain[..plain.len() - 1].to_vec(),
        bad_start,
        bad_length,
        make::spoil_sum(rng, plain.clone()),
        framed(comp_id, types::LAST + 1, e, &[], &[]),
        framed(comp_id, types::HEARTBEAT, 0, &[], &[]),
        framed(comp_id, types::HEARTBEAT, e, &[9], &[]),
        framed(comp_id, types::TEST_REQUEST, e, &[], &[]),
        framed(comp_id, types::SEQUENCE_RESET, e, &[0, 1], b"X\x02\0\0\0"),
        framed(comp_id, types::HEARTBEAT, e, &[], &[0]),
        framed(b"ANOTHER", types::HEARTBEAT, e, &[], &[]),
        logon(o),
        logon(o - 1),
        logon(0),
        plain,
    ];
    let asked = Sent::ResendRequest { start: 1, end: 0 };
    let ahead = e + 2;
    for (number, poss_dup, what) in [
        (e, 0, Sent::Of(types::EXECUTION_REPORT)),
        (e, 0, Sent::Of(types::TEST_REQUEST)),
        (e, 0, Sent::Of(types::LOGOUT)),
        (e, 0, asked),
        (e, 0, Sent::GapFill { new: ahead }),
        (e, 0, Sent::Reset { new: e }),
        (e - 1, 1, Sent::Of(types::HEARTBEAT)),
        (e - 1, 0, Sent::Of(types::HEARTBEAT)),
        (ahead, 0, Sent::Of(types::HEARTBEAT)),
        (ahead, 1, asked),
    ] {
        all.push(make::sent(rng, comp_id, number, poss_dup, what));
    }
    all
}

/// Every sort of message to a line that is Waiting or Live, tested or not, with numbers
/// left and with none, by a clock that stands, goes on and goes back, from time 0 too:
/// alone, and in one call with another before or behind it.
fn every_hearing(tally: &mut Tally, rng: &mut Rng) {
    for phase in [Phase::Waiting, Phase::Live] {
        for o in [5, LAST] {
            for tested in [0, 1] {
                for (now, time) in [(0, 0), (7_000, 7_000), (7_000, 6_999), (7_000, 7_001)] {
                    let session = session::Session {
                        phase,
                        comp_id: b"RECORDER01".to_vec(),
                        e: 3,
                        o,
                        m: 0,
                        repeats: 0,
                    };
                    let mut line = make::line_over(rng, session);
                    (line.interval, line.now) = (1, now);
                    if line.is_live() {
                        line.tested = tested;
                        line.heard = now / 2;
                        line.sent = now / 3;
                    } else {
                        line.tested = 0;
                    }
                    hold_every_sort(tally, rng, &line, time);
                }
            }
        }
    }
}

fn hold_every_sort(tally: &mut Tally, rng: &mut Rng, line: &Line, time: u64) {
    let l = line_struct(line);
    let all = every_sort(rng, &line.session);
    for bytes in &all {
        hold_line_step(tally, l, time, bytes);
        let other = &all[rng.index(all.len())];
        let before = [&other[..], bytes].concat();
        let behind = [&bytes[..], other].concat();
        for bytes in [bytes, &before, &behind] {
            hold_line_many(tally, l, time, bytes, Rooms::steps(1 + rng.index(2)));
        }
    }
}

// ---- Random days ----

/// One member of a line's clock made another, so that no day may have the line.
fn bend_clock(rng: &mut Rng, l: &mut proved::Line) {
    let edges = around(l.now);
    let near = edges[rng.index(edges.len())];
    match rng.below(6) {
        0 => l.interval = INTERVAL_EDGES[rng.index(INTERVAL_EDGES.len())],
        1 => l.tested = TESTED_EDGES[rng.index(TESTED_EDGES.len())],
        2 => l.now = rng.draw() >> rng.below(64),
        3 => l.sent = near,
        4 => l.heard = near,
        _ => bend(rng, &mut l.session),
    }
}

/// A line that no day may have, to every call.
fn odd_line(tally: &mut Tally, rng: &mut Rng) {
    let some = some_session(rng);
    let line = make::line_over(rng, some.clone());
    let time = make::time(rng, &line);
    let mut l = line_struct(&line);
    match rng.below(12) {
        0 => l.session = any_struct(rng),
        1 => {
            bend_clock(rng, &mut l);
            bend_clock(rng, &mut l);
        }
        2 | 3 => {}
        _ => bend_clock(rng, &mut l),
    }
    let bytes = make::arrival(rng, &some);
    hold_line_connect(tally, l, time, &odd_password(rng));
    hold_line_drop(tally, l, time);
    hold_line_step(tally, l, time, &bytes);
    hold_line_many(tally, l, time, &bytes, Rooms::steps(1));
    hold_tick(tally, l, time);
    hold_next_tick(tally, l);
    hold_line_fresh(tally, &odd_comp_id(rng), rng.below(63) as u32);
}

/// What a line is sent: what may arrive, a message that it hears and that changes
/// little, one whose sum is spoiled, or one that is cut short.
fn line_bytes(rng: &mut Rng, session: &session::Session) -> Vec<u8> {
    let bytes = match rng.below(10) {
        0..=2 if session.phase == Phase::Live => {
            let what = Sent::Of([types::HEARTBEAT, types::TEST_REQUEST][rng.index(2)]);
            make::sent(rng, &session.comp_id, session.e, 0, what)
        }
        _ => make::arrival(rng, session),
    };
    match rng.below(10) {
        0 | 1 if bytes.len() > wire::LEAST => make::spoil_sum(rng, bytes),
        2 => bytes[..rng.index(bytes.len() + 1)].to_vec(),
        _ => bytes,
    }
}

/// What a line is sent in one read: often all good, often with a spoiled message first.
fn line_slice(rng: &mut Rng, session: &session::Session) -> Vec<u8> {
    let mut bytes = Vec::new();
    if rng.chance(30) {
        let first = make::sent(
            rng,
            &session.comp_id,
            session.e,
            0,
            Sent::Of(types::HEARTBEAT),
        );
        bytes = make::spoil_sum(rng, first);
    }
    let count = rng.index(5);
    bytes.extend(make::slice(rng, session, count));
    bytes
}

/// Rooms of which one is often small.
fn line_rooms(rng: &mut Rng, count: usize) -> Rooms {
    if rng.chance(70) {
        Rooms::enough(count)
    } else {
        small_rooms(rng, count)
    }
}

/// A step, with what is sent then as bytes.
fn line_lend(tally: &mut Tally, rng: &mut Rng, l: proved::Line, time: u64) -> proved::Line {
    let session = session_of(&l.session).expect("a line of some day");
    let bytes = line_bytes(rng, &session);
    let answer = hold_line_step(tally, l, time, &bytes);
    for send in [answer.first, answer.second] {
        put_some(tally, rng, answer.line.session, send);
    }
    answer.line
}

/// A message to send as bytes, now and then.
fn put_some(tally: &mut Tally, rng: &mut Rng, s: proved::Session, send: Send) {
    if send.kind != 0 && rng.chance(20) {
        let length = length_of(&s, send);
        hold_put(tally, s, send, rooms(rng, length)[rng.index(3)]);
    }
}

/// A call at a time on a line that is up or down; the line after it.
fn line_event(tally: &mut Tally, rng: &mut Rng, l: proved::Line, time: u64) -> proved::Line {
    let session = session_of(&l.session).expect("a line of some day");
    // Of twenty calls: below the first a tick, below the second a step, below the
    // third many messages, below the fourth Connect, and the rest drops.
    let shares = match session.phase {
        Phase::Down => [2, 3, 4, 19],
        Phase::Waiting => [3, 16, 19, 20],
        Phase::Live => [11, 16, 19, 20],
    };
    let drawn = rng.below(20);
    if rng.chance(2) || drawn >= shares[3] {
        return hold_line_drop(tally, l, time);
    }
    if drawn < shares[0] {
        let answer = hold_tick(tally, l, time);
        put_some(tally, rng, answer.line.session, answer.send);
        return answer.line;
    }
    if drawn < shares[1] {
        return line_lend(tally, rng, l, time);
    }
    if drawn < shares[2] {
        let bytes = line_slice(rng, &session);
        let rooms = line_rooms(rng, bytes.len());
        return hold_line_many(tally, l, time, &bytes, rooms);
    }
    let password = if rng.chance(90) {
        rng.text(449, Allowed::Ascii)
    } else {
        odd_password(rng)
    };
    let after = hold_line_connect(tally, l, time, &password);
    hold_put_logon(tally, after.session, &password, logon_room(rng));
    after
}

/// Where a day of a line begins. Our numbers are often nearly used up.
fn line_start(rng: &mut Rng) -> Start {
    if rng.chance(40) {
        make::hole_start(rng)
    } else {
        make::start(rng)
    }
}

/// How many calls a day has.
const EVENTS: usize = 40;

/// A day of a line, call by call, from a saved day or from a Live line of any clock.
fn line_day(tally: &mut Tally, rng: &mut Rng) {
    let interval = make::interval(rng);
    let mut l = hold_line_saved(tally, &line_start(rng), interval);
    let mut time = make::first_time(rng, interval);
    if rng.chance(20) {
        let session = session_for_many(rng);
        l = line_struct(&make::line_over(rng, session));
        time = l.now;
    }
    for _ in 0..EVENTS {
        l = line_event(tally, rng, l, time);
        let line = line_of(&l).expect("the twin gives lines of some day");
        time = make::time(rng, &line);
        if rng.chance(25) {
            hold_next_tick(tally, l);
            hold_at_next(tally, l);
        }
        if rng.chance(10) {
            hold_laws(tally, rng, l, time);
        }
    }
}

/// So many days are always held, be `--count` never so small.
const LEAST_DAYS: u64 = 300;

/// Lines with a clock: every bound, then random days.
pub(crate) fn silence(tally: &mut Tally, rng: &mut Rng, until: u64) {
    every_start(tally);
    every_line(tally, rng);
    every_session_of_a_line(tally, rng);
    every_due(tally, rng);
    every_number(tally, rng);
    every_hearing(tally, rng);
    every_line_room(tally, rng);
    let until = tally.count() + until;
    let mut days = 0;
    while days < LEAST_DAYS || tally.count() < until {
        line_day(tally, rng);
        for _ in 0..3 {
            odd_line(tally, rng);
            hold_silent(tally, rng);
            hold_hearing(tally, rng);
            let fills = some_fills(rng);
            hold_line_fills(tally, rng, &fills);
        }
        days += 1;
    }
}
