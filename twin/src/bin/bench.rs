//! Messages a second and bytes a second of the proved library, of the twin and
//! of the plain hand-written decoder, all in one run on the same messages.

#[allow(dead_code)] // shared with compare, which needs more
#[path = "../proved.rs"]
mod proved;

use std::time::Instant;
use twin::plain;
use twin::reader::{self, Value, A_FIELD};
use twin::reports::{self, Parts, Question, LIST, QUESTIONS, SLICE, SLICE_ROWS, SLICE_SENDS, US};
use twin::session::{self, RowSort, A_ROW, ROW_LAST, ROW_SORT};
use twin::wire::MOST;
use twin::{crc, writer};

const ROUNDS: usize = 7;

/// The sides in the order of the table's columns.
const PROVED: usize = 0;
const TWIN: usize = 1;
const PLAIN: usize = 2;

/// What one side took for one round: seconds, and a figure made from the
/// answers, which all sides must agree on.
type Side<'a> = &'a mut dyn FnMut() -> u64;

fn timed(side: Side) -> (f64, u64) {
    let began = Instant::now();
    let figure = side();
    (began.elapsed().as_secs_f64(), figure)
}

/// Seconds a round, by side; no entry for a side that does not do this.
type Seconds = [Vec<f64>; 3];

/// Lets the sides run in turn, each round beginning with another one.
fn in_turn(round: usize, sides: &mut [Option<Side>; 3]) -> [Option<f64>; 3] {
    let mut seconds = [None; 3];
    let mut agreed = None;
    for turn in 0..3 {
        let which = (round + turn) % 3;
        if let Some(side) = &mut sides[which] {
            let (took, figure) = timed(side);
            assert_eq!(*agreed.get_or_insert(figure), figure, "the sides differ");
            seconds[which] = Some(took);
        }
    }
    seconds
}

fn rounds(mut sides: [Option<Side>; 3]) -> Seconds {
    let mut all = Seconds::default();
    // One round to warm up is not counted.
    in_turn(0, &mut sides);
    for round in 0..ROUNDS {
        for (side, seconds) in in_turn(round, &mut sides).into_iter().enumerate() {
            all[side].extend(seconds);
        }
    }
    all
}

fn read(messages: &[Vec<u8>], times: usize) -> Seconds {
    let over = |read: fn(&[u8]) -> u64| {
        move || {
            let mut figure = 0u64;
            for _ in 0..times {
                for bytes in messages {
                    figure = figure.wrapping_mul(31).wrapping_add(read(bytes));
                }
            }
            figure
        }
    };
    let mut proved = over(|bytes| {
        let answer = proved::read(bytes);
        assert_eq!(answer.refusal, 0);
        u64::from(answer.number) + answer.length as u64
    });
    let mut twin = over(|bytes| {
        let head = reader::read(bytes).expect("a good message");
        u64::from(head.number) + head.length as u64
    });
    let mut plain = over(|bytes| {
        let head = plain::read(bytes).expect("a good message");
        u64::from(head.number) + head.length as u64
    });
    rounds([Some(&mut proved), Some(&mut twin), Some(&mut plain)])
}

fn sums(messages: &[Vec<u8>], times: usize) -> Seconds {
    let over = |sum: fn(&[u8]) -> u32| {
        move || {
            let mut figure = 0u64;
            for _ in 0..times {
                for bytes in messages {
                    figure = figure.wrapping_mul(31).wrapping_add(u64::from(sum(bytes)));
                }
            }
            figure
        }
    };
    let mut proved = over(proved::crc32c);
    let mut twin = over(crc::crc32c);
    let mut plain = over(plain::crc32c);
    rounds([Some(&mut proved), Some(&mut twin), Some(&mut plain)])
}

/// The parts of each message go in, the plain form comes out. Also the bytes
/// that one round writes.
fn write(messages: &[Vec<u8>], times: usize) -> (Seconds, u64) {
    let all: Vec<Parts> = messages.iter().map(|bytes| reports::parts(bytes)).collect();
    let all = &all;
    // The last byte is the sum's, so it speaks for all the others.
    let over = |write: fn(&Parts, &mut [u8]) -> usize| {
        move || {
            let mut figure = 0u64;
            let mut out = [0; MOST];
            for _ in 0..times {
                for given in all {
                    let length = write(given, &mut out);
                    figure = figure
                        .wrapping_mul(31)
                        .wrapping_add(length as u64 + u64::from(out[length - 1]));
                }
            }
            figure
        }
    };
    let by_library = |given: &Parts, out: &mut [u8]| {
        proved::write(out, given.head.into(), US, &given.map, &given.body).length
    };
    let mut proved = over(by_library);
    let mut twin = over(|given, out| {
        writer::write(&given.head, US, &given.map, &given.body, out).expect("a good message")
    });
    let mut plain = over(|given, out| {
        plain::write(&given.head, US, &given.map, &given.body, out).expect("a good message")
    });
    let seconds = rounds([Some(&mut proved), Some(&mut twin), Some(&mut plain)]);
    let mut out = [0; MOST];
    let bytes: usize = all.iter().map(|given| by_library(given, &mut out)).sum();
    (seconds, (bytes * times) as u64)
}

/// Each message is read and all its fields are listed, in one call.
fn fields(messages: &[Vec<u8>], times: usize) -> Seconds {
    // Where the last field begins follows from all those before it, so its
    // numbers speak for them. Every report has fields.
    let over = |fields: fn(&[u8], &mut [u64]) -> usize| {
        move || {
            let mut figure = 0u64;
            let mut list = [0; LIST];
            for _ in 0..times {
                for bytes in messages {
                    let end = A_FIELD * fields(bytes, &mut list);
                    for number in &list[end - A_FIELD..end] {
                        figure = figure.wrapping_mul(31).wrapping_add(*number);
                    }
                }
            }
            figure
        }
    };
    let mut proved = over(|bytes, list| {
        let answer = proved::fields(bytes, list);
        assert_eq!(answer.reading.refusal, 0);
        answer.fields
    });
    let mut twin = over(|bytes, list| {
        let (_, fields) = reader::list(bytes, list.len()).expect("a good message");
        for (numbers, field) in list.chunks_exact_mut(A_FIELD).zip(&fields) {
            numbers.copy_from_slice(field);
        }
        fields.len()
    });
    let mut plain = over(|bytes, list| {
        let (_, count) = plain::fields(bytes, list).expect("a good message");
        count
    });
    rounds([Some(&mut proved), Some(&mut twin), Some(&mut plain)])
}

/// Each message is asked the eight questions, one call each.
fn questions(messages: &[Vec<u8>], times: usize) -> Seconds {
    let over = |ask: fn(&[u8], Question) -> u64| {
        move || {
            let mut figure = 0u64;
            for _ in 0..times {
                for bytes in messages {
                    for question in QUESTIONS {
                        figure = figure.wrapping_mul(31).wrapping_add(ask(bytes, question));
                    }
                }
            }
            figure
        }
    };
    // What is not there counts as 0.
    let mut proved = over(|bytes, question| match question {
        Question::Number(position) => {
            let answer = proved::ask(bytes, position as usize);
            answer.number.wrapping_add(answer.decimal as u64)
        }
        Question::Text(position) => proved::text(bytes, position as usize).length as u64,
    });
    let mut plain = over(|bytes, question| match question {
        Question::Number(position) => match plain::ask_number(bytes, position) {
            Ok(Value::Number(number)) => number,
            Ok(Value::Decimal(decimal)) => decimal as u64,
            Err(_) => 0,
        },
        Question::Text(position) => {
            plain::ask_text(bytes, position).map_or(0, |text| text.len() as u64)
        }
    });
    rounds([Some(&mut proved), None, Some(&mut plain)])
}

/// One Live session a side, and a day of reports with rising numbers, so many
/// of them in each call. `chunk` holds what the calls are lent; it is numbered
/// anew for each part of the day outside the clock, so that the day need not be
/// held whole. A side gives a figure made from what it answers to one call.
fn day(
    mut chunk: Vec<Vec<u8>>,
    parts: usize,
    mut library: impl FnMut(&mut proved::Session, &[u8]) -> u64,
    mut clear: impl FnMut(&mut session::Session, &[u8]) -> u64,
    mut fast: impl FnMut(&mut plain::Session, &[u8]) -> u64,
) -> (Seconds, u64) {
    let mut all = Seconds::default();
    for round in 0..ROUNDS {
        let logon = reports::logon();
        let mut a = proved::connect(proved::fresh(US).session, b"").session;
        a = proved::step(a, &logon).session;
        let mut b = session::Session::fresh(US).expect("a good Comp ID");
        b.connect(b"").expect("a fresh day connects");
        b.step(&logon);
        let mut c = plain::Session::fresh(US).expect("a good Comp ID");
        c.connect(b"").expect("a fresh day connects");
        c.step(&logon);

        let mut seconds = [0.0; 3];
        let mut next = 2;
        for part in 0..parts {
            for bytes in &mut chunk {
                next = reports::renumber_each(bytes, next);
            }
            let mut proved = || chunk.iter().map(|bytes| library(&mut a, bytes)).sum();
            let mut twin = || chunk.iter().map(|bytes| clear(&mut b, bytes)).sum();
            let mut plain = || chunk.iter().map(|bytes| fast(&mut c, bytes)).sum();
            let took = in_turn(
                round + part,
                &mut [Some(&mut proved), Some(&mut twin), Some(&mut plain)],
            );
            for (sum, took) in seconds.iter_mut().zip(took) {
                *sum += took.expect("every side steps");
            }
        }
        assert_eq!([a.expected, b.e, c.e], [next; 3], "a day taken whole");
        for (side, took) in all.iter_mut().zip(seconds) {
            side.push(took);
        }
    }
    let bytes: usize = chunk.iter().map(Vec::len).sum();
    (all, (bytes * parts) as u64)
}

/// A figure of business rows only, each with the message's number.
fn business(sort: u32, last: u32) -> u64 {
    u64::from(sort == RowSort::Business as u32) * u64::from(last)
}

/// A report in each call.
fn step(reports: &[Vec<u8>], parts: usize) -> (Seconds, u64) {
    let figure = |answer: session::Answer| business(answer.row.sort as u32, answer.row.last);
    day(
        reports.to_vec(),
        parts,
        |a, bytes| {
            let answer = proved::step(*a, bytes);
            *a = answer.session;
            business(answer.row.kind, answer.row.last)
        },
        |b, bytes| figure(b.step(bytes)),
        |c, bytes| figure(c.step(bytes)),
    )
}

/// The lists of a side that is lent a slice of reports in each call.
struct Lists {
    rows: [u32; SLICE_ROWS],
    sends: [u32; SLICE_SENDS],
}

impl Lists {
    fn new() -> Lists {
        Lists {
            rows: [0; SLICE_ROWS],
            sends: [0; SLICE_SENDS],
        }
    }

    /// The figure of so many rows that were laid.
    fn figure(&self, rows: usize) -> u64 {
        let rows = self.rows.chunks_exact(A_ROW).take(rows);
        rows.map(|row| business(row[ROW_SORT], row[ROW_LAST])).sum()
    }
}

/// A slice of reports back to back in each call; the last of a part is shorter.
fn steps(reports: &[Vec<u8>], parts: usize) -> (Seconds, u64) {
    let (mut one, mut other, mut third) = (Lists::new(), Lists::new(), Lists::new());
    day(
        reports.chunks(SLICE).map(<[_]>::concat).collect(),
        parts,
        |a, bytes| {
            let done = proved::steps(*a, bytes, &mut one.rows, &mut one.sends);
            *a = done.session;
            one.figure(done.rows)
        },
        |b, bytes| {
            let done = b.steps(bytes, &mut other.rows, &mut other.sends);
            other.figure(done.rows)
        },
        |c, bytes| {
            let done = c.steps(bytes, &mut third.rows, &mut third.sends);
            third.figure(done.rows)
        },
    )
}

fn median(seconds: &[f64]) -> f64 {
    let mut sorted = seconds.to_vec();
    sorted.sort_by(f64::total_cmp);
    sorted[sorted.len() / 2]
}

/// The table's lines for one kind of work over so many messages and bytes.
fn tell(work: &str, messages: u64, bytes: u64, seconds: &Seconds) {
    for (side, name) in ["proved", "twin", "plain"].iter().enumerate() {
        let all = &seconds[side];
        if all.is_empty() {
            println!("{:9} {:7} {:>12}", work, name, "-");
            continue;
        }
        let middle = median(all);
        let least = all.iter().copied().fold(f64::INFINITY, f64::min);
        let most = all.iter().copied().fold(0.0, f64::max);
        println!(
            "{:9} {:7} {:12.0} {:10.1} {:7.1} .. {:.1} %",
            work,
            name,
            messages as f64 / middle,
            bytes as f64 / middle / 1e6,
            (middle / most - 1.0) * 100.0,
            (middle / least - 1.0) * 100.0,
        );
    }
}

/// How many times the library's speed is another side's.
fn ratio(seconds: &Seconds, side: usize) -> String {
    if seconds[side].is_empty() || seconds[PROVED].is_empty() {
        return String::from("-");
    }
    format!("{:.3}", median(&seconds[side]) / median(&seconds[PROVED]))
}

fn machine() -> String {
    let info = std::fs::read_to_string("/proc/cpuinfo").unwrap_or_default();
    let model = info
        .lines()
        .find(|line| line.starts_with("model name"))
        .and_then(|line| line.split(':').nth(1))
        .unwrap_or(" unknown model");
    format!("{},{}", std::env::consts::ARCH, model)
}

fn main() {
    let mut quick = false;
    for word in std::env::args().skip(1) {
        if word != "--quick" {
            eprintln!("bench [--quick]");
            std::process::exit(2);
        }
        quick = true;
    }
    if std::env::var_os("FEATHERLOOM_EMULATED").is_some() {
        println!("bench: runs under an emulator; these figures say nothing about speed");
    }
    println!("bench: {}", machine());

    let count: usize = if quick { 500 } else { 10_000 };
    let day: usize = if quick { 20_000 } else { 1_000_000 };
    let times = if quick { 10 } else { 20 };
    let reports = reports::reports(count);
    let bytes: u64 = reports.iter().map(|bytes| bytes.len() as u64).sum();
    println!(
        "bench: {} execution reports of {} bytes on average, {} rounds, a day of {}",
        count,
        bytes / count as u64,
        ROUNDS,
        day
    );

    let read = read(&reports, times);
    let parts = day / count;
    let (step, bytes_a_day) = step(&reports, parts);
    let (steps, _) = steps(&reports, parts);
    let fields = fields(&reports, times);
    // Eight calls a message, so fewer times.
    let questions_times = times / 5;
    let questions = questions(&reports, questions_times);
    let (write, bytes_written) = write(&reports, times);
    let sums = sums(&reports, times);

    println!();
    println!("work      side      messages/s       MB/s  spread of 7 rounds");
    let (messages, all_bytes) = ((count * times) as u64, bytes * times as u64);
    tell("read", messages, all_bytes, &read);
    tell("step", day as u64, bytes_a_day, &step);
    tell("steps", day as u64, bytes_a_day, &steps);
    tell("fields", messages, all_bytes, &fields);
    tell(
        "questions",
        (count * questions_times) as u64,
        bytes * questions_times as u64,
        &questions,
    );
    tell("write", messages, bytes_written, &write);
    tell("crc32c", messages, all_bytes, &sums);
    println!();
    println!("work      proved/plain  proved/twin   (speed; above 1: the library is faster)");
    for (work, seconds) in [
        ("read", &read),
        ("step", &step),
        ("steps", &steps),
        ("fields", &fields),
        ("questions", &questions),
        ("write", &write),
        ("crc32c", &sums),
    ] {
        println!(
            "{:9} {:>12} {:>12}",
            work,
            ratio(seconds, PLAIN),
            ratio(seconds, TWIN)
        );
    }
}
