//! The writer (document 01, "What is handed back"), the small writers, and the
//! messages that a session sends.

use crate::crc::crc32c;
use crate::reader;
use crate::tables::{self, types, Sort};
use crate::wire::*;

/// The header values that the caller gives; the Comp ID comes beside them.
#[derive(Clone, Copy, Debug, PartialEq, Eq)]
pub struct HeadValues {
    pub message_type: u8,
    pub number: u32,
    pub poss_dup: u8,
    pub poss_resend: u8,
}

/// All that a message is written from.
#[derive(Clone, Debug)]
pub struct ToWrite {
    pub head: HeadValues,
    /// Characters, without a null.
    pub comp_id: Vec<u8>,
    pub map: [u8; MAP_WIDTH],
    pub body: Vec<u8>,
}

impl ToWrite {
    /// The message at the front of the bytes, as it was read.
    pub fn of(bytes: &[u8]) -> Result<ToWrite, Refusal> {
        let head = reader::read(bytes)?;
        let mut map = [0; MAP_WIDTH];
        map.copy_from_slice(reader::map(bytes));
        Ok(ToWrite {
            head: HeadValues {
                message_type: head.message_type,
                number: head.number,
                poss_dup: head.poss_dup,
                poss_resend: head.poss_resend,
            },
            comp_id: reader::comp_id(bytes).to_vec(),
            map,
            body: reader::body(bytes).to_vec(),
        })
    }

    /// The message as bytes of their own.
    pub fn bytes(&self) -> Result<Vec<u8>, Refusal> {
        let mut out = vec![0; MOST];
        let length = self.write(&mut out)?;
        out.truncate(length);
        Ok(out)
    }

    pub fn write(&self, out: &mut [u8]) -> Result<usize, Refusal> {
        write(&self.head, &self.comp_id, &self.map, &self.body, out)
    }
}

/// Refusals 5 and 6. The Comp ID comes as its characters, without a null.
fn check_head(head: &HeadValues, comp_id: &[u8]) -> Result<(), Refusal> {
    if head.message_type > types::LAST {
        return Err(refuse(UNKNOWN_TYPE, 0));
    }
    if head.number == 0 || head.poss_dup > 1 || head.poss_resend > 1 || !is_comp_id(comp_id) {
        return Err(refuse(BAD_HEADER, 0));
    }
    Ok(())
}

/// The body in plain form: zeros after a fixed text's null, nothing after a
/// variable text's null.
fn plain_body(fields: &[Found]) -> Vec<u8> {
    let mut body = Vec::new();
    for found in fields {
        match found.field.sort {
            Sort::Number | Sort::Byte | Sort::Decimal => body.extend_from_slice(found.whole),
            Sort::Fixed(_) => {
                let end = body.len() + found.field.width;
                body.extend_from_slice(found.text);
                body.resize(end, 0);
            }
            Sort::Variable(_) => {
                let length = found.text.len() as u16 + 1;
                body.extend_from_slice(&length.to_le_bytes());
                body.extend_from_slice(found.text);
                body.push(0);
            }
        }
    }
    body
}

/// Writes a message in plain form at the front of `out` and gives its length.
/// Refusals 5 to 10, then 11; a refusal leaves `out` as it was.
pub fn write(
    head: &HeadValues,
    comp_id: &[u8],
    map: &[u8; MAP_WIDTH],
    body: &[u8],
    out: &mut [u8],
) -> Result<usize, Refusal> {
    check_head(head, comp_id)?;
    let fields = walk(head.message_type, map, body)?;
    let body = plain_body(&fields);
    // Length holds it: what passed the walk is no longer than `tables::longest`.
    let length = BODY_AT + body.len() + TRAILER;

    let mut message = vec![START];
    message.extend_from_slice(&(length as u16).to_le_bytes());
    message.push(head.message_type);
    message.extend_from_slice(&head.number.to_le_bytes());
    message.push(head.poss_dup);
    message.push(head.poss_resend);
    message.extend_from_slice(comp_id);
    message.resize(MAP_AT, 0);
    message.extend_from_slice(map);
    message.extend_from_slice(&body);
    let sum = crc32c(&message);
    message.extend_from_slice(&sum.to_le_bytes());
    put(&message, out)
}

/// Lays bytes at the front of a slice; 11 with the length needed.
pub fn put(bytes: &[u8], out: &mut [u8]) -> Result<usize, Refusal> {
    if out.len() < bytes.len() {
        return Err(refuse(NO_ROOM, bytes.len()));
    }
    out[..bytes.len()].copy_from_slice(bytes);
    Ok(bytes.len())
}

pub fn put_u8(value: u8, out: &mut [u8]) -> Result<usize, Refusal> {
    put(&[value], out)
}

pub fn put_u16(value: u16, out: &mut [u8]) -> Result<usize, Refusal> {
    put(&value.to_le_bytes(), out)
}

pub fn put_u32(value: u32, out: &mut [u8]) -> Result<usize, Refusal> {
    put(&value.to_le_bytes(), out)
}

pub fn put_u64(value: u64, out: &mut [u8]) -> Result<usize, Refusal> {
    put(&value.to_le_bytes(), out)
}

/// A Decimal as its count of hundred-millionths.
pub fn put_decimal(value: i64, out: &mut [u8]) -> Result<usize, Refusal> {
    put(&value.to_le_bytes(), out)
}

/// What the text writer refuses with 9, position 0: a width of 0 or above
/// 4,096, a character that is not in the set, or a text of more than its width
/// less one.
pub fn check_text(text: &[u8], width: usize, allowed: Allowed) -> Result<(), Refusal> {
    let good_width = width != 0 && width <= MOST;
    if !good_width || text.len() > width - 1 || !allowed.allows_all(text) {
        return Err(refuse(BAD_FIELD, 0));
    }
    Ok(())
}

/// The text writer: the characters, then zeros up to the width.
pub fn put_text(
    text: &[u8],
    width: usize,
    allowed: Allowed,
    out: &mut [u8],
) -> Result<usize, Refusal> {
    check_text(text, width, allowed)?;
    let mut bytes = text.to_vec();
    bytes.resize(width, 0);
    put(&bytes, out)
}

/// A message of ours: the fields given by position, plain flags.
fn sent(
    head: HeadValues,
    comp_id: &[u8],
    positions: &[usize],
    body: &[u8],
) -> Result<Vec<u8>, Refusal> {
    let mut map = [0; MAP_WIDTH];
    for &position in positions {
        set(&mut map, position);
    }
    let mut out = [0; MOST];
    let length = write(&head, comp_id, &map, body, &mut out)?;
    Ok(out[..length].to_vec())
}

fn flags_zero(message_type: u8, number: u32) -> HeadValues {
    HeadValues {
        message_type,
        number,
        poss_dup: 0,
        poss_resend: 0,
    }
}

/// Logon (5): Password and Next Expected. The text writer lays the password
/// down before the message is written, so its 9 comes before a bad header's 6.
pub fn logon(
    number: u32,
    comp_id: &[u8],
    password: &[u8],
    next_expected: u32,
) -> Result<Vec<u8>, Refusal> {
    let width = tables::PASSWORD.width;
    check_text(password, width, Allowed::Ascii)?;
    let mut body = password.to_vec();
    body.resize(width, 0);
    body.extend_from_slice(&next_expected.to_le_bytes());
    sent(flags_zero(types::LOGON, number), comp_id, &[0, 2], &body)
}

/// Logout (6): no field.
pub fn logout(number: u32, comp_id: &[u8]) -> Result<Vec<u8>, Refusal> {
    sent(flags_zero(types::LOGOUT, number), comp_id, &[], &[])
}

/// Heartbeat (0) that echoes a Test Request ID.
pub fn heartbeat_for(number: u32, comp_id: &[u8], id: u16) -> Result<Vec<u8>, Refusal> {
    let head = flags_zero(types::HEARTBEAT, number);
    sent(head, comp_id, &[0], &id.to_le_bytes())
}

/// Heartbeat (0) of its own accord: no field.
pub fn heartbeat(number: u32, comp_id: &[u8]) -> Result<Vec<u8>, Refusal> {
    sent(flags_zero(types::HEARTBEAT, number), comp_id, &[], &[])
}

/// Test Request (1).
pub fn test_request(number: u32, comp_id: &[u8], id: u16) -> Result<Vec<u8>, Refusal> {
    let head = flags_zero(types::TEST_REQUEST, number);
    sent(head, comp_id, &[0], &id.to_le_bytes())
}

/// Resend Request (2); an end of 0 asks for all.
pub fn resend_request(
    number: u32,
    comp_id: &[u8],
    start: u32,
    end: u32,
) -> Result<Vec<u8>, Refusal> {
    let head = flags_zero(types::RESEND_REQUEST, number);
    let mut body = start.to_le_bytes().to_vec();
    body.extend_from_slice(&end.to_le_bytes());
    sent(head, comp_id, &[0, 1], &body)
}

/// Sequence Reset (4) as a gap fill: it bears the first number it covers, and
/// PossDup 1.
pub fn gap_fill(first: u32, comp_id: &[u8], new: u32) -> Result<Vec<u8>, Refusal> {
    let head = HeadValues {
        poss_dup: 1,
        ..flags_zero(types::SEQUENCE_RESET, first)
    };
    let mut body = vec![b'Y'];
    body.extend_from_slice(&new.to_le_bytes());
    sent(head, comp_id, &[0, 1], &body)
}
