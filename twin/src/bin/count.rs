//! Instructions a call of the proved library and of the plain hand-written
//! decoder, on the same messages in one run. The answers of the two are held
//! equal, call by call.

#[allow(dead_code)] // shared with compare, which needs more
#[path = "../proved.rs"]
mod proved;
#[path = "../steps.rs"]
mod steps;

use std::process::exit;
use std::thread;
use steps::counted;
use twin::make::Rng;
use twin::plain;
use twin::reader::{Head, Value};
use twin::reports::{self, Question, LIST, QUESTIONS, SLICE, SLICE_ROWS, SLICE_SENDS, US};
use twin::session::{Done, Ended, Send};
use twin::wire::{Refusal, MOST};

const REPORTS: usize = 100;

/// A line's interval, in seconds.
const INTERVAL: u32 = 30;

/// What is summed of a Test Request, of a report, of the longest message, and
/// far more.
const SUMMED: [usize; 4] = [56, 274, 4_092, 65_536];

/// Instructions of all the calls of one kind, by side.
#[derive(Clone, Copy, Default)]
struct Counts {
    proved: u64,
    plain: u64,
}

impl Counts {
    /// Counts a call of each side and gives both answers.
    fn add<A, B>(&mut self, proved: impl FnMut() -> A, plain: impl FnMut() -> B) -> (A, B) {
        let (steps, a) = counted(proved);
        self.proved += steps;
        let (steps, b) = counted(plain);
        self.plain += steps;
        (a, b)
    }
}

/// A good reading as the plain side gives it; all of these are good.
fn head(reading: proved::Reading) -> Result<Head, Refusal> {
    assert_eq!((reading.refusal, reading.besides), (0, 0));
    Ok(Head {
        message_type: reading.message_type,
        number: reading.number,
        poss_dup: reading.possdup,
        poss_resend: reading.possresend,
        length: reading.length,
    })
}

fn read(reports: &[Vec<u8>]) -> Counts {
    let mut counts = Counts::default();
    for bytes in reports {
        let (a, b) = counts.add(|| proved::read(bytes), || plain::read(bytes));
        assert_eq!(head(a), b);
    }
    counts
}

/// A session a side that has taken the gateway's Logon and expects number 2.
fn live() -> (proved::Session, plain::Session) {
    let waiting = proved::connect(proved::fresh(US).session, b"").session;
    let live = proved::step(waiting, &reports::logon()).session;
    (live, live_plain())
}

fn live_plain() -> plain::Session {
    let mut plain = plain::Session::fresh(US).expect("a good Comp ID");
    plain.connect(b"").expect("a fresh day connects");
    plain.step(&reports::logon());
    plain
}

/// E, O, M and the repeats of a session.
fn numbers(s: proved::Session) -> (u32, u32, u32, u32) {
    (s.expected, s.own, s.ahead, s.repeats)
}

/// A Live session a side, which takes the reports in turn.
fn step(reports: &[Vec<u8>]) -> Counts {
    let (mut a, mut b) = live();
    let mut counts = Counts::default();
    for (bytes, number) in reports.iter().zip(2..) {
        let mut bytes = bytes.clone();
        reports::renumber(&mut bytes, number);
        let (said, told) = counts.add(|| proved::step(a, &bytes), || b.step(&bytes));
        a = said.session;
        let business = (0, 1, number, number);
        let row = said.row;
        assert_eq!((said.refusal, row.kind, row.first, row.last), business);
        assert_eq!((said.first.kind, said.second.kind), (0, 0));
        assert_eq!((said.used, said.besides), (bytes.len(), 0));
        let row = told.row;
        assert_eq!((told.code, row.sort as u32, row.first, row.last), business);
        assert_eq!((told.sends, told.besides), ([Send::None; 2], 0));
        assert_eq!(numbers(a), (b.e, b.o, b.m, b.repeats));
    }
    counts
}

/// A line that has taken the gateway's Logon, at time 0, and the plain side's
/// session, which has no clock.
fn live_line() -> (proved::Line, plain::Session) {
    let fresh = proved::line_fresh(US, INTERVAL).line;
    let waiting = proved::line_connect(fresh, 0, b"").line;
    let live = proved::line_step(waiting, 0, &reports::logon()).line;
    (live, live_plain())
}

/// A Live line takes the reports in turn, a millisecond apart, beside the plain
/// side's session.
fn line_step(reports: &[Vec<u8>]) -> Counts {
    let (mut a, mut b) = live_line();
    let mut counts = Counts::default();
    for (bytes, number) in reports.iter().zip(2..) {
        let mut bytes = bytes.clone();
        reports::renumber(&mut bytes, number);
        let time = u64::from(number);
        let (said, told) = counts.add(|| proved::line_step(a, time, &bytes), || b.step(&bytes));
        a = said.line;
        assert_eq!(
            (said.refusal, said.row.kind, said.row.first),
            (0, 1, number)
        );
        assert_eq!((told.code, told.row.first), (0, number));
        assert_eq!(numbers(a.session), (b.e, b.o, b.m, b.repeats));
        assert_eq!((a.now, a.heard, a.sent), (time, time, 0));
    }
    counts
}

/// A Live line takes the reports in slices, one call each, beside the plain
/// side's session.
fn line_many(reports: &[Vec<u8>]) -> Counts {
    let (mut a, mut b) = live_line();
    let mut counts = Counts::default();
    let mut next = a.session.expected;
    for (slice, time) in reports.chunks_exact(SLICE).zip(1..) {
        let mut bytes = slice.concat();
        next = reports::renumber_each(&mut bytes, next);
        let (mut rows, mut sends) = ([0; SLICE_ROWS], [0; SLICE_SENDS]);
        let (mut other_rows, mut other_sends) = (rows, sends);
        let (said, told) = counts.add(
            || proved::line_steps(a, time, &bytes, &mut rows, &mut sends),
            || b.steps(&bytes, &mut other_rows, &mut other_sends),
        );
        a = said.line;
        assert_eq!(
            said,
            proved::LineDone::of(a, proved::Done::of(a.session, told))
        );
        assert_eq!(told, taken_whole(&bytes));
        assert_eq!((rows, sends), (other_rows, other_sends));
        assert_eq!((a.session.expected, a.heard), (next, time));
    }
    counts
}

/// What both sides must say of a slice taken whole: nothing is left, so the
/// next message needs its first three bytes.
fn taken_whole(bytes: &[u8]) -> Done {
    Done {
        refusal: 0,
        used: bytes.len(),
        rows: SLICE,
        sends: 0,
        ended: Ended::Short,
        code: 0,
        besides: 3,
    }
}

/// A Live session a side, which takes the reports in slices, one call each.
fn many(reports: &[Vec<u8>]) -> Counts {
    let (mut a, mut b) = live();
    let mut counts = Counts::default();
    let mut next = a.expected;
    for slice in reports.chunks_exact(SLICE) {
        let mut bytes = slice.concat();
        next = reports::renumber_each(&mut bytes, next);
        let (mut rows, mut sends) = ([0; SLICE_ROWS], [0; SLICE_SENDS]);
        let (mut other_rows, mut other_sends) = (rows, sends);
        let (said, told) = counts.add(
            || proved::steps(a, &bytes, &mut rows, &mut sends),
            || b.steps(&bytes, &mut other_rows, &mut other_sends),
        );
        a = said.session;
        assert_eq!(said, proved::Done::of(a, told));
        assert_eq!(told, taken_whole(&bytes));
        assert_eq!((rows, sends), (other_rows, other_sends));
        assert_eq!(numbers(a), (b.e, b.o, b.m, b.repeats));
        assert_eq!(a.expected, next);
    }
    counts
}

/// Each report is read and all its fields are listed.
fn fields(reports: &[Vec<u8>]) -> Counts {
    let mut counts = Counts::default();
    for bytes in reports {
        let (mut one, mut other) = ([0; LIST], [0; LIST]);
        let (a, b) = counts.add(
            || proved::fields(bytes, &mut one),
            || plain::fields(bytes, &mut other),
        );
        assert_eq!(head(a.reading).map(|head| (head, a.fields)), b);
        assert_eq!(one, other);
    }
    counts
}

fn value(answer: proved::Value) -> Result<Value, u32> {
    match answer.sort {
        proved::NUMBER => Ok(Value::Number(answer.number)),
        proved::DECIMAL => Ok(Value::Decimal(answer.decimal)),
        _ => Err(answer.refusal),
    }
}

fn text(bytes: &[u8], part: proved::Part) -> Result<&[u8], u32> {
    match part.refusal {
        0 => Ok(&bytes[part.offset..part.offset + part.length]),
        refusal => Err(refusal),
    }
}

/// The eight questions of a report are one call here.
fn questions(reports: &[Vec<u8>]) -> Counts {
    let mut counts = Counts::default();
    for bytes in reports {
        for question in QUESTIONS {
            match question {
                Question::Number(position) => {
                    let (a, b) = counts.add(
                        || proved::ask(bytes, position as usize),
                        || plain::ask_number(bytes, position),
                    );
                    assert_eq!(value(a), b.map_err(|refusal| refusal.number));
                }
                Question::Text(position) => {
                    let (a, b) = counts.add(
                        || proved::text(bytes, position as usize),
                        || plain::ask_text(bytes, position),
                    );
                    assert_eq!(text(bytes, a), b.map_err(|refusal| refusal.number));
                }
            }
        }
    }
    counts
}

fn write(reports: &[Vec<u8>]) -> Counts {
    let mut counts = Counts::default();
    for bytes in reports {
        let given = reports::parts(bytes);
        let (map, body) = (&given.map, &given.body[..]);
        let header = proved::Header::from(given.head);
        let (mut one, mut other) = ([0; MOST], [0; MOST]);
        let (a, b) = counts.add(
            || proved::write(&mut one, header, US, map, body),
            || plain::write(&given.head, US, map, body, &mut other),
        );
        assert_eq!((a.refusal, Ok(a.length)), (0, b));
        assert_eq!(one, other);
    }
    counts
}

fn sum(count: usize) -> Counts {
    let bytes = Rng::new(2).bytes(count);
    let mut counts = Counts::default();
    let (a, b) = counts.add(|| proved::crc32c(&bytes), || plain::crc32c(&bytes));
    assert_eq!(a, b);
    counts
}

/// A line of the table: instructions a call, and the plain side's by the proved
/// side's.
fn tell(work: &str, counts: Counts, calls: usize) {
    println!(
        "{:13} {:>9.0} {:>9.0} {:>13.2}",
        work,
        counts.proved as f64 / calls as f64,
        counts.plain as f64 / calls as f64,
        counts.plain as f64 / counts.proved as f64,
    );
}

fn count() {
    let reports = reports::reports(REPORTS);
    let bytes: usize = reports.iter().map(Vec::len).sum();
    let set: u32 = reports
        .iter()
        .flat_map(|bytes| reports::parts(bytes).map)
        .map(u8::count_ones)
        .sum();
    println!(
        "count: instructions a call, {} execution reports of {} bytes and {:.1} fields on average, the plain side by {}",
        REPORTS,
        bytes / REPORTS,
        f64::from(set) / REPORTS as f64,
        env!("TWIN_RUSTC"),
    );
    println!();
    println!("work             proved     plain  plain/proved");
    let read = read(&reports);
    tell("read", read, REPORTS);
    tell("step", step(&reports), REPORTS);
    tell("steps", many(&reports), REPORTS / SLICE * SLICE);
    tell("line step", line_step(&reports), REPORTS);
    tell("line steps", line_many(&reports), REPORTS / SLICE * SLICE);
    let fields = fields(&reports);
    tell("fields", fields, REPORTS);
    tell("questions", questions(&reports), REPORTS);
    tell("write", write(&reports), REPORTS);
    for count in SUMMED {
        tell(&format!("crc32c {}", count), sum(count), 1);
    }
    // The library's read with a list of all fields, by its read alone.
    println!(
        "{:13} {:>9.2}",
        "fields/read",
        fields.proved as f64 / read.proved as f64,
    );
}

fn main() {
    if std::env::args().len() > 1 {
        eprintln!("count");
        exit(2);
    }
    if !steps::start() {
        eprintln!("count: no trap comes after each instruction here: nothing can be counted");
        exit(1);
    }
    // The path that C's library takes through a copy depends on where in a page
    // the bytes stand. The program's own stack begins elsewhere on each run, a
    // thread's at the same place of a page: so each run counts the same.
    if thread::spawn(count).join().is_err() {
        exit(1);
    }
}
