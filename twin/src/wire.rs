//! What reader and writer share: the refusals, the frame's sizes, the map's
//! bits and the rules of texts (document 01, "The frame").

use crate::tables::{self, Field, Sort, TEXT_LENGTH};

/// A refusal by its number in document 01, and what the table returns besides
/// (0 where it returns nothing).
#[derive(Clone, Copy, Debug, PartialEq, Eq)]
pub struct Refusal {
    pub number: u32,
    pub besides: u32,
}

pub const SHORT: u32 = 1;
pub const BAD_START: u32 = 2;
pub const BAD_LENGTH: u32 = 3;
pub const BAD_SUM: u32 = 4;
pub const UNKNOWN_TYPE: u32 = 5;
pub const BAD_HEADER: u32 = 6;
pub const UNKNOWN_POSITION: u32 = 7;
pub const MISSING_FIELD: u32 = 8;
pub const BAD_FIELD: u32 = 9;
pub const LEFT_OVER: u32 = 10;
pub const NO_ROOM: u32 = 11;
pub const ABSENT: u32 = 13;
pub const OTHER_SORT: u32 = 14;

/// Start of Message, STX (004 section 8.1).
pub const START: u8 = 2;
/// Start 1, Length 2, Type 1, Sequence number 4, flags 1 and 1, Comp ID 12,
/// Presence map 32: the body begins at byte 54.
pub const BODY_AT: usize = 54;
pub const COMP_ID_AT: usize = 10;
pub const COMP_ID_WIDTH: usize = 12;
pub const MAP_AT: usize = 22;
pub const MAP_WIDTH: usize = 32;
pub const TRAILER: usize = 4;
/// The least and the greatest Length (refusal 3).
pub const LEAST: usize = 58;
pub const MOST: usize = 4096;

/// A refusal that returns something besides.
pub fn refuse(number: u32, besides: usize) -> Refusal {
    Refusal {
        number,
        besides: besides as u32,
    }
}

/// Numbers are little-endian. At most eight bytes are given.
pub fn number(bytes: &[u8]) -> u64 {
    let mut value = 0;
    for &byte in bytes.iter().rev() {
        value = value * 256 + u64::from(byte);
    }
    value
}

/// Map position p is bit 7 - (p mod 8) of map byte p div 8.
pub fn is_set(map: &[u8], position: usize) -> bool {
    (map[position / 8] >> (7 - position % 8)) & 1 == 1
}

/// Sets a position of a map.
pub fn set(map: &mut [u8; MAP_WIDTH], position: usize) {
    map[position / 8] |= 1 << (7 - position % 8);
}

/// The bytes that are characters of a text. Every text has one of these sets
/// (document 02, item 8).
#[derive(Clone, Copy, Debug, PartialEq, Eq)]
pub enum Allowed {
    /// 32 to 126: all texts but Text and Reason.
    Ascii,
    /// 32 to 126 and 128 to 255: Text and Reason.
    Accented,
}

impl Allowed {
    /// Whether a byte is a character of the set. The null is in neither, since
    /// it ends a text, and neither is 127.
    pub fn allows(self, byte: u8) -> bool {
        match self {
            Allowed::Ascii => matches!(byte, 32..=126),
            Allowed::Accented => matches!(byte, 32..=126 | 128..=255),
        }
    }

    /// Whether all bytes are characters of the set.
    pub fn allows_all(self, bytes: &[u8]) -> bool {
        bytes.iter().all(|&byte| self.allows(byte))
    }
}

/// The part before the first null, if there is a null and only characters of
/// the set stand before it. What follows the null is discarded (004 section
/// 6.1).
pub fn before_null(bytes: &[u8], allowed: Allowed) -> Option<&[u8]> {
    let end = bytes.iter().position(|&byte| byte == 0)?;
    let text = &bytes[..end];
    if allowed.allows_all(text) {
        Some(text)
    } else {
        None
    }
}

/// A Comp ID as its characters: not empty, and a null must still find place in
/// the width.
pub fn is_comp_id(text: &[u8]) -> bool {
    !text.is_empty() && text.len() < COMP_ID_WIDTH && Allowed::Ascii.allows_all(text)
}

/// A Decimal, a count of hundred-millionths, as the shortest exact decimal
/// text: the sign, the digits before the point without leading zeros, the point
/// and the digits after it down to the last that is not 0. Where nothing stands
/// after the point there is none.
pub fn decimal_text(decimal: i64) -> String {
    const WHOLE: u64 = 100_000_000;
    let sign = if decimal < 0 { "-" } else { "" };
    let size = decimal.unsigned_abs();
    let eight = format!("{:08}", size % WHOLE);
    let after = eight.trim_end_matches('0');
    let point = if after.is_empty() { "" } else { "." };
    format!("{}{}{}{}", sign, size / WHOLE, point, after)
}

/// One field found in a body: where it stands, and for a text its characters.
#[derive(Clone, Copy, Debug)]
pub struct Found<'a> {
    pub position: usize,
    pub field: Field,
    /// All the bytes that the field takes in the body.
    pub whole: &'a [u8],
    /// A text's characters; empty for other sorts.
    pub text: &'a [u8],
}

/// Takes one field from the front of `rest`; None if it is a bad one
/// (refusal 9).
fn take(position: usize, field: Field, rest: &[u8]) -> Option<Found<'_>> {
    let found = |width: usize, text| Found {
        position,
        field,
        whole: &rest[..width],
        text,
    };
    match field.sort {
        Sort::Number | Sort::Byte | Sort::Decimal => {
            if rest.len() < field.width {
                return None;
            }
            // Gap Fill alone does not take every value of its width.
            if field.name == tables::GAP_FILL.name && rest[0] != b'Y' && rest[0] != b'N' {
                return None;
            }
            Some(found(field.width, &rest[..0]))
        }
        Sort::Fixed(allowed) => {
            if rest.len() < field.width {
                return None;
            }
            let text = before_null(&rest[..field.width], allowed)?;
            Some(found(field.width, text))
        }
        Sort::Variable(allowed) => {
            if rest.len() < TEXT_LENGTH {
                return None;
            }
            // The length counts the null, but not its own two bytes.
            let length = number(&rest[..TEXT_LENGTH]) as usize;
            if length == 0 || length > field.width || rest.len() - TEXT_LENGTH < length {
                return None;
            }
            let text = before_null(&rest[TEXT_LENGTH..TEXT_LENGTH + length], allowed)?;
            Some(found(TEXT_LENGTH + length, text))
        }
    }
}

/// Walks a body: refusals 7 to 10 in this order, or all its fields in rising
/// position. The type is one that is held.
pub fn walk<'a>(message_type: u8, map: &[u8], body: &'a [u8]) -> Result<Vec<Found<'a>>, Refusal> {
    for position in 0..256 {
        if is_set(map, position) && tables::find(message_type, position).is_none() {
            return Err(refuse(UNKNOWN_POSITION, position));
        }
    }
    for position in 0..256 {
        if let Some(entry) = tables::find(message_type, position) {
            if entry.required && !is_set(map, position) {
                return Err(refuse(MISSING_FIELD, position));
            }
        }
    }
    let mut all = Vec::new();
    let mut rest = body;
    for position in 0..256 {
        if !is_set(map, position) {
            continue;
        }
        if let Some(entry) = tables::find(message_type, position) {
            let found =
                take(position, entry.field, rest).ok_or_else(|| refuse(BAD_FIELD, position))?;
            rest = &rest[found.whole.len()..];
            all.push(found);
        }
    }
    if !rest.is_empty() {
        return Err(refuse(LEFT_OVER, rest.len()));
    }
    Ok(all)
}
