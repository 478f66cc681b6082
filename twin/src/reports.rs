//! The execution reports that are measured, and what is done with them. Every
//! program that measures takes the same ones.

use crate::make::{self, Given, Rng};
use crate::plain;
use crate::reader;
use crate::session::{A_ROW, A_SEND, SENDS_A_STEP};
use crate::tables::{types, Field, Sort, EXECUTION_REPORTS};
use crate::wire::{number, set, Allowed, MAP_WIDTH};
use crate::writer::{self, HeadValues};

/// Our Comp ID.
pub const US: &[u8] = b"RECORDER01";

/// Room for the list of every message's fields, as the library's header has it.
pub const LIST: usize = 320;

/// A field that, if it is a text, has no accented characters. So the reports stay
/// what they were before there were any, and their figures can be compared.
fn ascii(field: Field) -> Field {
    let sort = match field.sort {
        Sort::Number | Sort::Byte | Sort::Decimal => field.sort,
        Sort::Fixed(_) => Sort::Fixed(Allowed::Ascii),
        Sort::Variable(_) => Sort::Variable(Allowed::Ascii),
    };
    Field { sort, ..field }
}

/// An execution report by one of the nine tables: all that it requires and
/// some of the rest, 180 to 350 bytes.
fn report(rng: &mut Rng, number: u32) -> Vec<u8> {
    loop {
        let table = EXECUTION_REPORTS[rng.index(EXECUTION_REPORTS.len())];
        let mut map = [0; MAP_WIDTH];
        let mut body = Vec::new();
        for &(position, field, required) in table {
            if required || rng.chance(30) {
                set(&mut map, position);
                body.extend(make::field(rng, ascii(field)));
            }
        }
        let given = Given {
            message_type: types::EXECUTION_REPORT,
            number,
            poss_dup: 0,
            poss_resend: 0,
            comp_id: US,
        };
        let comp_id = make::fixed_text(rng, US, 12);
        let bytes = make::frame(&given, &comp_id, &map, &body);
        if (180..=350).contains(&bytes.len()) {
            return bytes;
        }
    }
}

/// So many reports, numbered from 1. A smaller count gives the first of them.
pub fn reports(count: usize) -> Vec<Vec<u8>> {
    let mut rng = Rng::new(1);
    (0..count)
        .map(|index| report(&mut rng, index as u32 + 1))
        .collect()
}

/// Another number for a message, the sum made right again.
pub fn renumber(bytes: &mut [u8], number: u32) {
    bytes[4..8].copy_from_slice(&number.to_le_bytes());
    let at = bytes.len() - 4;
    let sum = plain::crc32c(&bytes[..at]).to_le_bytes();
    bytes[at..].copy_from_slice(&sum);
}

/// How many reports stand in a slice for a call with many messages, and the
/// room of its lists: a row each, and what one step may give to send.
pub const SLICE: usize = 30;
pub const SLICE_ROWS: usize = SLICE * A_ROW;
pub const SLICE_SENDS: usize = SENDS_A_STEP * A_SEND;

/// Numbers messages that stand back to back from `next` on, and gives the number
/// behind the last.
pub fn renumber_each(bytes: &mut [u8], mut next: u32) -> u32 {
    let mut rest = bytes;
    while !rest.is_empty() {
        let length = number(&rest[1..3]) as usize;
        let (message, behind) = rest.split_at_mut(length);
        renumber(message, next);
        next += 1;
        rest = behind;
    }
    next
}

/// The gateway's Logon, number 1, which expects our number 2.
pub fn logon() -> Vec<u8> {
    writer::logon(1, US, b"", 2).expect("a good Logon")
}

/// The parts of a good message, as a writer takes them.
pub struct Parts {
    pub head: HeadValues,
    pub map: [u8; MAP_WIDTH],
    pub body: Vec<u8>,
}

pub fn parts(bytes: &[u8]) -> Parts {
    let head = reader::read(bytes).expect("a good message");
    let mut map = [0; MAP_WIDTH];
    map.copy_from_slice(reader::map(bytes));
    Parts {
        head: HeadValues {
            message_type: head.message_type,
            number: head.number,
            poss_dup: head.poss_dup,
            poss_resend: head.poss_resend,
        },
        map,
        body: reader::body(bytes).to_vec(),
    }
}

/// What a recorder may want to know of a report, by position.
#[derive(Clone, Copy, Debug)]
pub enum Question {
    Number(u32),
    Text(u32),
}

/// Security ID Source, Side, Order ID, Price, Order Quantity, Execution ID,
/// Cumulative Quantity, Leaves Quantity. Price and Order Quantity are not in
/// every report; asking for them is a question too.
pub const QUESTIONS: [Question; 8] = [
    Question::Number(3),
    Question::Number(7),
    Question::Text(9),
    Question::Number(12),
    Question::Number(13),
    Question::Text(21),
    Question::Number(24),
    Question::Number(25),
];
