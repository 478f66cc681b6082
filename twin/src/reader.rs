//! The reader (document 01, "What is handed back"). It looks only at the
//! message at the front of the lent bytes.

use crate::crc::crc32c;
use crate::tables::{self, types, Sort};
use crate::wire::*;

/// The header values and the message length.
#[derive(Clone, Copy, Debug, PartialEq, Eq)]
pub struct Head {
    pub message_type: u8,
    pub number: u32,
    pub poss_dup: u8,
    pub poss_resend: u8,
    pub length: usize,
}

/// What a position holds when it is asked for a number.
#[derive(Clone, Copy, Debug, PartialEq, Eq)]
pub enum Value {
    Number(u64),
    /// A signed count of hundred-millionths.
    Decimal(i64),
}

/// How many numbers a field takes in a list.
pub const A_FIELD: usize = 5;

/// What a list calls the sorts. A Byte field is a number.
const NUMBER: u64 = 1;
const DECIMAL: u64 = 2;
const TEXT: u64 = 3;

/// The message at the front as one slice: refusals 2, 1, 3, 1, 4.
fn frame(bytes: &[u8]) -> Result<&[u8], Refusal> {
    if !bytes.is_empty() && bytes[0] != START {
        return Err(refuse(BAD_START, 0));
    }
    if bytes.len() < 3 {
        return Err(refuse(SHORT, 3));
    }
    let length = number(&bytes[1..3]) as usize;
    if !(LEAST..=MOST).contains(&length) {
        return Err(refuse(BAD_LENGTH, 0));
    }
    if bytes.len() < length {
        return Err(refuse(SHORT, length));
    }
    let (before, sum) = bytes[..length].split_at(length - TRAILER);
    if number(sum) != u64::from(crc32c(before)) {
        return Err(refuse(BAD_SUM, length));
    }
    Ok(&bytes[..length])
}

/// The header of a framed message: refusals 5 and 6.
fn header(message: &[u8]) -> Result<Head, Refusal> {
    let head = Head {
        message_type: message[3],
        number: number(&message[4..8]) as u32,
        poss_dup: message[8],
        poss_resend: message[9],
        length: message.len(),
    };
    if head.message_type > types::LAST {
        return Err(refuse(UNKNOWN_TYPE, 0));
    }
    let comp_id = before_null(comp_id_field(message), Allowed::Ascii);
    let bad_comp_id = comp_id.map_or(true, |text| text.is_empty());
    if head.number == 0 || head.poss_dup > 1 || head.poss_resend > 1 || bad_comp_id {
        return Err(refuse(BAD_HEADER, 0));
    }
    Ok(head)
}

fn comp_id_field(message: &[u8]) -> &[u8] {
    &message[COMP_ID_AT..COMP_ID_AT + COMP_ID_WIDTH]
}

fn map_field(message: &[u8]) -> &[u8] {
    &message[MAP_AT..MAP_AT + MAP_WIDTH]
}

fn body_field(message: &[u8]) -> &[u8] {
    &message[BODY_AT..message.len() - TRAILER]
}

/// All refusals of the reader in its order, else the header and every field.
fn whole(bytes: &[u8]) -> Result<(Head, Vec<Found<'_>>), Refusal> {
    let message = frame(bytes)?;
    let head = header(message)?;
    let fields = walk(head.message_type, map_field(message), body_field(message))?;
    Ok((head, fields))
}

/// Reads the message at the front.
pub fn read(bytes: &[u8]) -> Result<Head, Refusal> {
    whole(bytes).map(|(head, _)| head)
}

/// The message's own bytes; None on a refusal.
fn accepted(bytes: &[u8]) -> Option<&[u8]> {
    let head = read(bytes).ok()?;
    Some(&bytes[..head.length])
}

/// The Comp ID's characters; empty on a refusal.
pub fn comp_id(bytes: &[u8]) -> &[u8] {
    accepted(bytes)
        .and_then(|message| before_null(comp_id_field(message), Allowed::Ascii))
        .unwrap_or(&[])
}

/// The 32 bytes of the presence map; empty on a refusal.
pub fn map(bytes: &[u8]) -> &[u8] {
    accepted(bytes).map_or(&[], map_field)
}

/// The body, a part of the caller's bytes; empty on a refusal.
pub fn body(bytes: &[u8]) -> &[u8] {
    accepted(bytes).map_or(&[], body_field)
}

/// The field at a position: all of the reader's refusals, then 7 with the
/// position asked, then 13.
fn ask(bytes: &[u8], position: u32) -> Result<Found<'_>, Refusal> {
    let (head, fields) = whole(bytes)?;
    let known = position < 256 && tables::find(head.message_type, position as usize).is_some();
    if !known {
        return Err(Refusal {
            number: UNKNOWN_POSITION,
            besides: position,
        });
    }
    fields
        .into_iter()
        .find(|found| found.position == position as usize)
        .ok_or_else(|| refuse(ABSENT, 0))
}

/// Asks a position for its number. A Byte field is a number.
pub fn ask_number(bytes: &[u8], position: u32) -> Result<Value, Refusal> {
    let found = ask(bytes, position)?;
    match found.field.sort {
        Sort::Number | Sort::Byte => Ok(Value::Number(number(found.whole))),
        // The same 64 bits read as two's complement.
        Sort::Decimal => {
            let bits = number(found.whole).to_le_bytes();
            Ok(Value::Decimal(i64::from_le_bytes(bits)))
        }
        Sort::Fixed(_) | Sort::Variable(_) => Err(refuse(OTHER_SORT, 0)),
    }
}

/// Asks a position for its text: the caller's bytes before the null.
pub fn ask_text(bytes: &[u8], position: u32) -> Result<&[u8], Refusal> {
    let found = ask(bytes, position)?;
    match found.field.sort {
        Sort::Fixed(_) | Sort::Variable(_) => Ok(found.text),
        Sort::Number | Sort::Byte | Sort::Decimal => Err(refuse(OTHER_SORT, 0)),
    }
}

/// Lists all fields in rising position, five numbers each: the position; the
/// sort; where in `bytes` the value or a text's first character begins; how many
/// bytes the value has, or how many characters the text; the number, a Decimal's
/// 64 bits, or 0 for a text. All of the reader's refusals, then 11 with the
/// numbers needed where the list has room for fewer.
pub fn list(bytes: &[u8], room: usize) -> Result<(Head, Vec<[u64; A_FIELD]>), Refusal> {
    let (head, fields) = whole(bytes)?;
    let needed = A_FIELD * fields.len();
    if needed > room {
        return Err(refuse(NO_ROOM, needed));
    }
    let mut list = Vec::new();
    // The fields stand one behind the other from the body's first byte on.
    let mut at = BODY_AT;
    for found in fields {
        let (whole, text) = (found.whole.len(), found.text.len());
        let (sort, begin, length, value) = match found.field.sort {
            Sort::Number | Sort::Byte => (NUMBER, at, whole, number(found.whole)),
            Sort::Decimal => (DECIMAL, at, whole, number(found.whole)),
            Sort::Fixed(_) => (TEXT, at, text, 0),
            // Its two length bytes stand before the characters.
            Sort::Variable(_) => (TEXT, at + 2, text, 0),
        };
        let position = found.position as u64;
        list.push([position, sort, begin as u64, length as u64, value]);
        at += whole;
    }
    Ok((head, list))
}
