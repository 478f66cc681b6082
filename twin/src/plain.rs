//! A second decoder, writer and session, written for speed and only to be
//! measured. Its answers are those of `reader`, `writer` and `session`; its
//! tables are typed anew.

use crate::reader::{Head, Value};
use crate::session::{
    self, Answer, Done, Ended, Logon, Phase, Row, RowSort, Send, A_ROW, A_SEND, NOTHING, NO_ROW,
};
use crate::tables::types;
use crate::wire::Refusal;
use crate::writer::HeadValues;
use std::slice::ChunksExactMut;

// ---- CRC32C, eight bytes at a time ----

const fn crc_tables() -> [[u32; 256]; 8] {
    let mut tables = [[0u32; 256]; 8];
    let mut i = 0;
    while i < 256 {
        let mut crc = i as u32;
        let mut bit = 0;
        while bit < 8 {
            crc = (crc >> 1) ^ (0x82F6_3B78 & (0u32.wrapping_sub(crc & 1)));
            bit += 1;
        }
        tables[0][i] = crc;
        i += 1;
    }
    let mut t = 1;
    while t < 8 {
        let mut i = 0;
        while i < 256 {
            let before = tables[t - 1][i];
            tables[t][i] = (before >> 8) ^ tables[0][(before & 0xFF) as usize];
            i += 1;
        }
        t += 1;
    }
    tables
}

static CRC: [[u32; 256]; 8] = crc_tables();

/// CRC32C by slicing.
pub fn crc32c(bytes: &[u8]) -> u32 {
    let mut crc = !0u32;
    let mut chunks = bytes.chunks_exact(8);
    for chunk in &mut chunks {
        let word = u64_at(chunk, 0) ^ u64::from(crc);
        crc = CRC[7][(word & 0xFF) as usize]
            ^ CRC[6][(word >> 8 & 0xFF) as usize]
            ^ CRC[5][(word >> 16 & 0xFF) as usize]
            ^ CRC[4][(word >> 24 & 0xFF) as usize]
            ^ CRC[3][(word >> 32 & 0xFF) as usize]
            ^ CRC[2][(word >> 40 & 0xFF) as usize]
            ^ CRC[1][(word >> 48 & 0xFF) as usize]
            ^ CRC[0][(word >> 56) as usize];
    }
    for &byte in chunks.remainder() {
        crc = (crc >> 8) ^ CRC[0][((crc ^ u32::from(byte)) & 0xFF) as usize];
    }
    !crc
}

// ---- Loads ----

#[inline(always)]
fn u16_at(b: &[u8], at: usize) -> u16 {
    u16::from_le_bytes([b[at], b[at + 1]])
}

#[inline(always)]
fn u32_at(b: &[u8], at: usize) -> u32 {
    let b = &b[at..at + 4];
    u32::from_le_bytes([b[0], b[1], b[2], b[3]])
}

#[inline(always)]
fn u64_at(b: &[u8], at: usize) -> u64 {
    let b = &b[at..at + 8];
    u64::from_le_bytes([b[0], b[1], b[2], b[3], b[4], b[5], b[6], b[7]])
}

/// A map word with position 0 as its top bit.
#[inline(always)]
fn map_at(b: &[u8], at: usize) -> u64 {
    u64_at(b, at).swap_bytes()
}

// ---- Tables ----

#[derive(Clone, Copy, PartialEq, Eq)]
enum Kind {
    /// Any value: only the width counts.
    Any,
    GapFill,
    /// Texts of characters 32 to 126.
    Fixed,
    Variable,
    /// A variable text of characters 32 to 126 and 128 to 255.
    Accented,
}

/// The sort of a value: what a list of fields calls a number, a Decimal and a
/// text.
const NUMBER: u8 = 1;
const DECIMAL: u8 = 2;
const TEXT: u8 = 3;

/// The walk asks for the kind alone; the sort is for those who want the value.
#[derive(Clone, Copy)]
struct Shape {
    kind: Kind,
    sort: u8,
    width: u16,
}

const fn any(width: u16) -> Shape {
    Shape {
        kind: Kind::Any,
        sort: NUMBER,
        width,
    }
}
const fn fix(width: u16) -> Shape {
    Shape {
        kind: Kind::Fixed,
        sort: TEXT,
        width,
    }
}
const fn var(width: u16) -> Shape {
    Shape {
        kind: Kind::Variable,
        sort: TEXT,
        width,
    }
}
const fn acc(width: u16) -> Shape {
    Shape {
        kind: Kind::Accented,
        sort: TEXT,
        width,
    }
}
const DEC: Shape = Shape {
    kind: Kind::Any,
    sort: DECIMAL,
    width: 8,
};
const GAP: Shape = Shape {
    kind: Kind::GapFill,
    sort: NUMBER,
    width: 1,
};

/// Position, shape, required.
type Line = (u32, Shape, bool);

const LINES: [&[Line]; 11] = [
    // 0 Heartbeat
    &[(0, any(2), false)],
    // 1 Test Request
    &[(0, any(2), true)],
    // 2 Resend Request
    &[(0, any(4), true), (1, any(4), true)],
    // 3 Reject
    &[
        (0, any(2), true),
        (1, acc(75), false), // Reason
        (2, any(1), false),
        (3, fix(50), false),
        (4, any(4), true),
        (5, fix(21), false),
    ],
    // 4 Sequence Reset
    &[(0, GAP, false), (1, any(4), true)],
    // 5 Logon
    &[
        (0, fix(450), false),
        (1, fix(450), false),
        (2, any(4), true),
        (3, any(1), false),
        (4, acc(50), false), // Text
        (5, any(1), false),
    ],
    // 6 Logout
    &[(0, var(75), false), (1, any(1), false)],
    // 7 Lookup Request
    &[(0, any(1), true), (1, any(1), true)],
    // 8 Lookup Response
    &[
        (0, any(1), true),
        (1, any(1), false),
        (2, acc(75), false), // Reason
        (3, fix(16), false),
        (4, any(2), false),
        (5, fix(16), false),
        (6, any(2), false),
    ],
    // 9 Business Message Reject
    &[
        (0, any(2), true),
        (1, acc(75), false), // Reason
        (2, any(1), true),
        (3, fix(50), false),
        (4, any(4), false),
        (5, fix(21), false),
    ],
    // 10 Execution Report: the nine tables as one
    &[
        (0, fix(21), false),  // Client Order ID
        (1, fix(12), true),   // Submitting Broker ID
        (2, fix(21), true),   // Security ID
        (3, any(1), true),    // Security ID Source
        (4, fix(5), false),   // Security Exchange
        (5, fix(11), false),  // Broker Location ID
        (6, fix(25), true),   // Transaction Time
        (7, any(1), true),    // Side
        (8, fix(21), false),  // Original Client Order ID
        (9, fix(21), true),   // Order ID
        (11, any(1), false),  // Order Type
        (12, DEC, false),     // Price
        (13, DEC, false),     // Order Quantity
        (14, any(1), false),  // Time In Force
        (15, any(1), false),  // Position Effect
        (16, fix(21), false), // Order Restrictions
        (17, any(1), false),  // Max Price Levels
        (18, any(1), false),  // Order Capacity
        (19, acc(50), false), // Text
        (20, acc(75), false), // Reason
        (21, fix(21), true),  // Execution ID
        (22, any(1), true),   // Order Status
        (23, any(1), true),   // Exec Type
        (24, DEC, true),      // Cumulative Quantity
        (25, DEC, true),      // Leaves Quantity
        (27, any(1), false),  // Lot Type
        (28, any(2), false),  // Exec Restatement Reason
        (30, any(1), false),  // Match Type
        (31, fix(12), false), // Counterparty Broker ID
        (32, DEC, false),     // Execution Quantity
        (33, DEC, false),     // Execution Price
        (34, fix(21), false), // Reference Execution ID
        (35, any(1), false),  // Order Category
        (37, any(1), true),   // Copy Message Indicator
        (38, fix(25), false), // Trade Match ID
        (39, any(1), false),  // Exchange Trade Type
        (42, any(1), false),  // Aggressor Indicator
        (43, fix(10), false), // SMP ID
    ],
];

const TOP: u64 = 1 << 63;

/// All that the walk needs to know of a type. Every position is below 64.
struct Layout {
    known: u64,
    required: u64,
    shapes: [Shape; 64],
}

const fn layout(lines: &[Line]) -> Layout {
    let mut layout = Layout {
        known: 0,
        required: 0,
        shapes: [any(0); 64],
    };
    let mut i = 0;
    while i < lines.len() {
        let (position, shape, required) = lines[i];
        layout.known |= TOP >> position;
        if required {
            layout.required |= TOP >> position;
        }
        layout.shapes[position as usize] = shape;
        i += 1;
    }
    layout
}

static LAYOUTS: [Layout; 11] = [
    layout(LINES[0]),
    layout(LINES[1]),
    layout(LINES[2]),
    layout(LINES[3]),
    layout(LINES[4]),
    layout(LINES[5]),
    layout(LINES[6]),
    layout(LINES[7]),
    layout(LINES[8]),
    layout(LINES[9]),
    layout(LINES[10]),
];

// ---- Texts ----

/// The sets of characters that `text_end` is made for, each on its own: 32 to
/// 126, and these with 128 to 255.
const ASCII: bool = false;
const ACCENTED: bool = true;

/// Where the null stands, if only characters stand before it. Eight bytes are
/// looked at together: the first byte outside the set decides.
#[inline]
fn text_end<const SET: bool>(bytes: &[u8]) -> Option<usize> {
    const ONES: u64 = 0x0101_0101_0101_0101;
    const HIGH: u64 = 0x80 * ONES;
    let mut at = 0;
    while at + 8 <= bytes.len() {
        let word = u64_at(bytes, at);
        let low7 = word & !HIGH;
        // Each sum stays inside its byte, so every flag is exact.
        let above = low7 + ONES;
        let below = !(low7 + 0x60 * ONES);
        // The flags tell of the low seven bits; a byte with its top bit set is
        // outside by that alone, or not at all.
        let outside = match SET {
            ASCII => (above | below | word) & HIGH,
            ACCENTED => (above | below) & !word & HIGH,
        };
        if outside != 0 {
            let at = at + outside.trailing_zeros() as usize / 8;
            return if bytes[at] == 0 { Some(at) } else { None };
        }
        at += 8;
    }
    while at < bytes.len() {
        let byte = bytes[at];
        let outside = match SET {
            ASCII => byte.wrapping_sub(32) > 126 - 32,
            ACCENTED => byte < 32 || byte == 127,
        };
        if outside {
            return if byte == 0 { Some(at) } else { None };
        }
        at += 1;
    }
    None
}

/// The same for a text of a kind.
#[inline]
fn text_end_of(kind: Kind, bytes: &[u8]) -> Option<usize> {
    if kind == Kind::Accented {
        text_end::<ACCENTED>(bytes)
    } else {
        text_end::<ASCII>(bytes)
    }
}

// ---- Reader ----

#[cold]
fn refused<T>(number: u32, besides: usize) -> Result<T, Refusal> {
    Err(Refusal {
        number,
        besides: besides as u32,
    })
}

/// Where the body begins: behind the header and the map's 32 bytes.
const BODY: usize = 54;
const TRAILER: usize = 4;

/// A message that is right up to its map.
struct Opened<'a> {
    head: Head,
    comp_id_end: usize,
    layout: &'static Layout,
    /// The map's first word.
    map: u64,
    body: &'a [u8],
}

/// A field as the walk meets it, by places in the body.
struct Place {
    position: usize,
    kind: Kind,
    /// Where the value begins.
    at: usize,
    /// The bytes of a number, the characters of a text.
    length: usize,
    /// Where the next field begins.
    end: usize,
}

/// Walks the fields of `map` from `from` on, shows each to `note`, and gives
/// where the walk ended. Refusal 9.
#[inline(always)]
fn walk(
    layout: &Layout,
    mut map: u64,
    body: &[u8],
    from: usize,
    mut note: impl FnMut(Place),
) -> Result<usize, Refusal> {
    let mut rest = &body[from..];
    while map != 0 {
        let position = (map.leading_zeros() & 63) as usize;
        map ^= TOP >> position;
        let shape = layout.shapes[position];
        let width = usize::from(shape.width);
        let (before, length, used) = match shape.kind {
            Kind::Any => (0, width, width),
            Kind::GapFill => {
                if rest.is_empty() || (rest[0] != b'Y' && rest[0] != b'N') {
                    return refused(9, position);
                }
                (0, 1, 1)
            }
            Kind::Fixed => {
                if rest.len() < width {
                    return refused(9, position);
                }
                match text_end::<ASCII>(&rest[..width]) {
                    Some(end) => (0, end, width),
                    None => return refused(9, position),
                }
            }
            Kind::Variable | Kind::Accented => {
                if rest.len() < 2 {
                    return refused(9, position);
                }
                let length = usize::from(u16_at(rest, 0));
                // A length of 0 holds no null and falls with the texts.
                if length > width || rest.len() < 2 + length {
                    return refused(9, position);
                }
                match text_end_of(shape.kind, &rest[2..2 + length]) {
                    Some(end) => (2, end, 2 + length),
                    None => return refused(9, position),
                }
            }
        };
        if rest.len() < used {
            return refused(9, position);
        }
        let start = body.len() - rest.len();
        note(Place {
            position,
            kind: shape.kind,
            at: start + before,
            length,
            end: start + used,
        });
        rest = &rest[used..];
    }
    Ok(body.len() - rest.len())
}

/// Refusal 10: the walk must end where the body does.
#[inline(always)]
fn check_end(body: &[u8], end: usize) -> Result<(), Refusal> {
    if end != body.len() {
        return refused(10, body.len() - end);
    }
    Ok(())
}

/// Refusals 7 and 8, else the first word of the map's four.
#[inline(always)]
fn check_map(layout: &Layout, words: &[u8]) -> Result<u64, Refusal> {
    let map = map_at(words, 0);
    let unknown = map & !layout.known;
    if unknown != 0 {
        return refused(7, unknown.leading_zeros() as usize);
    }
    for word in 1..4 {
        let map = map_at(words, 8 * word);
        if map != 0 {
            return refused(7, 64 * word + map.leading_zeros() as usize);
        }
    }
    let missing = layout.required & !map;
    if missing != 0 {
        return refused(8, missing.leading_zeros() as usize);
    }
    Ok(map)
}

/// All of the reader's refusals before the walk.
#[inline(always)]
fn open(bytes: &[u8]) -> Result<Opened<'_>, Refusal> {
    if bytes.len() < 3 {
        if !bytes.is_empty() && bytes[0] != 2 {
            return refused(2, 0);
        }
        return refused(1, 3);
    }
    if bytes[0] != 2 {
        return refused(2, 0);
    }
    let length = usize::from(u16_at(bytes, 1));
    if length.wrapping_sub(58) > 4096 - 58 {
        return refused(3, 0);
    }
    if bytes.len() < length {
        return refused(1, length);
    }
    let message = &bytes[..length];
    if crc32c(&message[..length - TRAILER]) != u32_at(message, length - TRAILER) {
        return refused(4, length);
    }
    let head = Head {
        message_type: message[3],
        number: u32_at(message, 4),
        poss_dup: message[8],
        poss_resend: message[9],
        length,
    };
    let layout = match LAYOUTS.get(usize::from(head.message_type)) {
        Some(layout) => layout,
        None => return refused(5, 0),
    };
    let comp_id_end = text_end::<ASCII>(&message[10..22]).unwrap_or(0);
    if head.number == 0 || head.poss_dup | head.poss_resend > 1 || comp_id_end == 0 {
        return refused(6, 0);
    }
    Ok(Opened {
        head,
        comp_id_end,
        layout,
        map: check_map(layout, &message[22..BODY])?,
        body: &message[BODY..length - TRAILER],
    })
}

#[inline]
fn see(bytes: &[u8]) -> Result<Opened<'_>, Refusal> {
    let opened = open(bytes)?;
    let end = walk(opened.layout, opened.map, opened.body, 0, |_| ())?;
    check_end(opened.body, end)?;
    Ok(opened)
}

/// Reads the message at the front: the answers of `reader::read`.
pub fn read(bytes: &[u8]) -> Result<Head, Refusal> {
    see(bytes).map(|opened| opened.head)
}

/// A number at the front of a field, which has 1, 2, 4 or 8 bytes.
#[inline(always)]
fn value_at(body: &[u8], at: usize, width: usize) -> u64 {
    match width {
        1 => u64::from(body[at]),
        2 => u64::from(u16_at(body, at)),
        4 => u64::from(u32_at(body, at)),
        _ => u64_at(body, at),
    }
}

/// The shape of the field at a position, and the body from it on: all of the
/// reader's refusals, then 7 with the position asked, then 13.
#[inline(always)]
fn ask(bytes: &[u8], position: u32) -> Result<(Shape, &[u8]), Refusal> {
    let Opened {
        layout, map, body, ..
    } = open(bytes)?;
    // The walk halts at the position to see where it stands, then goes on. A
    // position with no bit is before all others, and no layout knows it.
    let bit = if position < 64 { TOP >> position } else { 0 };
    let from_here = bit | bit.wrapping_sub(1);
    let here = walk(layout, map & !from_here, body, 0, |_| ())?;
    let end = walk(layout, map & from_here, body, here, |_| ())?;
    check_end(body, end)?;
    if layout.known & bit == 0 {
        return refused(7, position as usize);
    }
    if map & bit == 0 {
        return refused(13, 0);
    }
    Ok((layout.shapes[position as usize & 63], &body[here..]))
}

/// Asks a position for its number: the answers of `reader::ask_number`.
pub fn ask_number(bytes: &[u8], position: u32) -> Result<Value, Refusal> {
    let (shape, field) = ask(bytes, position)?;
    let width = usize::from(shape.width);
    match shape.sort {
        NUMBER => Ok(Value::Number(value_at(field, 0, width))),
        DECIMAL => Ok(Value::Decimal(u64_at(field, 0) as i64)),
        _ => refused(14, 0),
    }
}

/// Asks a position for its text: the answers of `reader::ask_text`.
pub fn ask_text(bytes: &[u8], position: u32) -> Result<&[u8], Refusal> {
    let (shape, field) = ask(bytes, position)?;
    let text = match shape.kind {
        Kind::Fixed => &field[..usize::from(shape.width)],
        Kind::Variable | Kind::Accented => &field[2..2 + usize::from(u16_at(field, 0))],
        _ => return refused(14, 0),
    };
    // The walk has found the null.
    Ok(&text[..text_end_of(shape.kind, text).unwrap_or(0)])
}

/// How many numbers a list has for a field: position, sort, offset, length,
/// value.
pub const A_FIELD: usize = 5;

/// Reads the message and lays five numbers for every set field into `list`, in
/// rising position: the position; the sort (1 a number, 2 a Decimal, 3 a text);
/// where the value begins in `bytes`; how many bytes the number or characters
/// the text has; the value (a Decimal's 64 bits, 0 for a text). Gives the header
/// and how many fields there are. The reader's refusals, then 11 with the
/// numbers needed; a refusal leaves `list` as it was. The answers of
/// `reader::list`.
pub fn fields(bytes: &[u8], list: &mut [u64]) -> Result<(Head, usize), Refusal> {
    let Opened {
        head,
        layout,
        map,
        body,
        ..
    } = open(bytes)?;
    // The walk may still refuse, so it notes the places beside the list.
    let mut places = [(0u16, 0u16); 64];
    let end = walk(layout, map, body, 0, |place| {
        places[place.position] = (place.at as u16, place.length as u16);
    })?;
    check_end(body, end)?;
    let count = map.count_ones() as usize;
    if list.len() < A_FIELD * count {
        return refused(11, A_FIELD * count);
    }
    let mut map = map;
    for numbers in list[..A_FIELD * count].chunks_exact_mut(A_FIELD) {
        let position = (map.leading_zeros() & 63) as usize;
        map ^= TOP >> position;
        let shape = layout.shapes[position];
        let (at, length) = places[position];
        let (at, length) = (usize::from(at), usize::from(length));
        numbers[0] = position as u64;
        numbers[1] = u64::from(shape.sort);
        numbers[2] = (BODY + at) as u64;
        numbers[3] = length as u64;
        numbers[4] = match shape.sort {
            TEXT => 0,
            _ => value_at(body, at, length),
        };
    }
    Ok((head, count))
}

// ---- Writer ----

/// A Comp ID with zeros up to its width. Refusal 6.
#[inline]
fn padded(comp_id: &[u8]) -> Result<[u8; 12], Refusal> {
    let mut padded = [0; 12];
    if comp_id.is_empty() || comp_id.len() > 11 {
        return refused(6, 0);
    }
    padded[..comp_id.len()].copy_from_slice(comp_id);
    if text_end::<ASCII>(&padded) != Some(comp_id.len()) {
        return refused(6, 0);
    }
    Ok(padded)
}

/// What stands in a body behind a text's null: a fixed text gets zeros there, a
/// variable one nothing.
#[derive(Clone, Copy)]
struct Tail {
    variable: bool,
    /// Where the text begins.
    text: u16,
    from: u16,
    to: u16,
}

const NO_TAIL: Tail = Tail {
    variable: false,
    text: 0,
    from: 0,
    to: 0,
};

/// No type has more texts: the Execution Report has sixteen.
const TEXTS: usize = 16;

/// Writes a message in plain form at the front of `out` and gives its length:
/// the answers and the bytes of `writer::write`.
pub fn write(
    head: &HeadValues,
    comp_id: &[u8],
    map: &[u8; 32],
    body: &[u8],
    out: &mut [u8],
) -> Result<usize, Refusal> {
    let layout = match LAYOUTS.get(usize::from(head.message_type)) {
        Some(layout) => layout,
        None => return refused(5, 0),
    };
    if head.number == 0 || head.poss_dup | head.poss_resend > 1 {
        return refused(6, 0);
    }
    let comp_id = padded(comp_id)?;
    let word = check_map(layout, map)?;
    let mut tails = [NO_TAIL; TEXTS];
    let mut count = 0;
    let mut left_out = 0;
    let end = walk(layout, word, body, 0, |place| {
        let from = place.at + place.length + 1;
        if from < place.end {
            let variable = place.kind != Kind::Fixed;
            tails[count] = Tail {
                variable,
                text: place.at as u16,
                from: from as u16,
                to: place.end as u16,
            };
            count += 1;
            if variable {
                left_out += place.end - from;
            }
        }
    })?;
    check_end(body, end)?;
    let length = BODY + body.len() - left_out + TRAILER;
    if length > out.len() {
        return refused(11, length);
    }

    let out = &mut out[..length];
    out[0] = 2;
    out[1..3].copy_from_slice(&(length as u16).to_le_bytes());
    out[3] = head.message_type;
    out[4..8].copy_from_slice(&head.number.to_le_bytes());
    out[8] = head.poss_dup;
    out[9] = head.poss_resend;
    out[10..22].copy_from_slice(&comp_id);
    out[22..BODY].copy_from_slice(map);
    lay_plain(body, &tails[..count], &mut out[BODY..length - TRAILER]);
    let sum = crc32c(&out[..length - TRAILER]);
    out[length - TRAILER..].copy_from_slice(&sum.to_le_bytes());
    Ok(length)
}

/// Lays a good body down in plain form. What stands between two tails is copied
/// at once.
#[inline(always)]
fn lay_plain(body: &[u8], tails: &[Tail], out: &mut [u8]) {
    let mut done = 0;
    let mut at = 0;
    for tail in tails {
        let (from, to) = (usize::from(tail.from), usize::from(tail.to));
        let run = &body[done..from];
        out[at..at + run.len()].copy_from_slice(run);
        at += run.len();
        if tail.variable {
            // The two length bytes now count no more than text and null.
            let length = tail.from - tail.text;
            let before = at - usize::from(length) - 2;
            out[before..before + 2].copy_from_slice(&length.to_le_bytes());
        } else {
            out[at..at + to - from].fill(0);
            at += to - from;
        }
        done = to;
    }
    out[at..].copy_from_slice(&body[done..]);
}

// ---- Session ----

/// The session's state without a heap.
#[derive(Clone, Copy, Debug)]
pub struct Session {
    pub phase: Phase,
    comp_id: [u8; 12],
    comp_id_end: usize,
    pub e: u32,
    pub o: u32,
    pub m: u32,
    pub repeats: u32,
}

const LAST: u32 = u32::MAX;

/// How often the same E is asked for again.
const MOST_REPEATS: u32 = 2;

/// The last place of a message that a list's number can tell.
const MOST_PLACE: usize = u32::MAX as usize;

impl Session {
    pub fn saved(comp_id: &[u8], e: u32, o: u32) -> Result<Session, Refusal> {
        if e == 0 || o == 0 {
            return refused(23, 0);
        }
        Ok(Session {
            phase: Phase::Down,
            comp_id: padded(comp_id)?,
            comp_id_end: comp_id.len(),
            e,
            o,
            m: 0,
            repeats: 0,
        })
    }

    pub fn fresh(comp_id: &[u8]) -> Result<Session, Refusal> {
        Session::saved(comp_id, 1, 1)
    }

    /// The state of a session that some day has.
    pub fn of(session: &session::Session) -> Session {
        let down = Session::saved(&session.comp_id, session.e, session.o);
        Session {
            phase: session.phase,
            m: session.m,
            repeats: session.repeats,
            ..down.expect("a session of some day")
        }
    }

    pub fn connect(&mut self, password: &[u8]) -> Result<Logon, Refusal> {
        if self.phase != Phase::Down {
            return refused(21, 0);
        }
        if self.o == LAST {
            return refused(22, 0);
        }
        if password.len() > 449 || password.iter().any(|b| b.wrapping_sub(32) > 94) {
            return refused(9, 0);
        }
        self.phase = Phase::Waiting;
        self.repeats = 0;
        self.o += 1;
        Ok(Logon {
            number: self.o - 1,
            password: password.to_vec(),
            next_expected: self.e,
        })
    }

    #[allow(clippy::should_implement_trait)] // the paper's word
    pub fn drop(&mut self) {
        self.phase = Phase::Down;
        self.m = 0;
        self.repeats = 0;
    }

    /// One step: the answers of `session::Session::step`.
    pub fn step(&mut self, bytes: &[u8]) -> Answer {
        if self.phase == Phase::Down {
            return answer(20, 0, NO_ROW);
        }
        self.after(see(bytes), bytes)
    }

    /// Many steps in one call: the answers and the lists of
    /// `session::Session::steps`. Each message is read once.
    pub fn steps(&mut self, bytes: &[u8], rows: &mut [u32], sends: &mut [u32]) -> Done {
        if self.phase == Phase::Down {
            return Done {
                refusal: 20,
                used: 0,
                rows: 0,
                sends: 0,
                ended: Ended::Down,
                code: 20,
                besides: 0,
            };
        }
        if rows.len() < A_ROW || sends.len() < 2 * A_SEND {
            return Done {
                refusal: 11,
                used: 0,
                rows: 1,
                sends: 2,
                ended: Ended::NoSlot,
                code: 0,
                besides: 0,
            };
        }
        let (row_slots, send_slots) = (rows.len() / A_ROW, sends.len() / A_SEND);
        let mut free = Slots {
            rows: rows.chunks_exact_mut(A_ROW),
            sends: sends.chunks_exact_mut(A_SEND),
        };
        let mut used = 0;
        let (ended, code, besides) = loop {
            let rest = &bytes[used..];
            let seen = see(rest);
            // The common case first: business in its turn.
            if let Ok(seen) = &seen {
                if self.is_next_business(seen, rest) {
                    let length = seen.head.length;
                    match free.row(used) {
                        Some(slot) => lay_row(slot, self.take(RowSort::Business), used, length),
                        None => break (Ended::NoSlot, 0, 0),
                    }
                    used += length;
                    continue;
                }
            }
            let before = *self;
            let answer = self.other(seen, rest);
            if answer.code == 1 {
                break (Ended::Short, 0, answer.besides);
            }
            let length = match answer.code {
                2 | 3 => 0,
                _ => usize::from(u16_at(rest, 1)),
            };
            if !free.lay(&answer, used, length) {
                *self = before;
                break (Ended::NoSlot, 0, 0);
            }
            used += length;
            if self.phase == Phase::Down {
                break (Ended::Down, answer.code, answer.besides);
            }
        };
        Done {
            refusal: 0,
            used,
            rows: row_slots - free.rows.len(),
            sends: send_slots - free.sends.len(),
            ended,
            code,
            besides: besides as usize,
        }
    }

    /// What a step does that is not business in its turn, kept out of the loop
    /// over many messages.
    #[cold]
    #[inline(never)]
    fn other(&mut self, seen: Result<Opened, Refusal>, bytes: &[u8]) -> Answer {
        self.after(seen, bytes)
    }

    /// Whether a message bears our Comp ID.
    #[inline(always)]
    fn is_ours(&self, seen: &Opened, bytes: &[u8]) -> bool {
        bytes[10..10 + seen.comp_id_end] == self.comp_id[..self.comp_id_end]
    }

    /// Whether a step hands the message up and does nothing else.
    #[inline(always)]
    fn is_next_business(&self, seen: &Opened, bytes: &[u8]) -> bool {
        let Head {
            message_type,
            number,
            ..
        } = seen.head;
        self.phase == Phase::Live
            && message_type >= types::BUSINESS_MESSAGE_REJECT
            && number == self.e
            && number != LAST
            && self.is_ours(seen, bytes)
    }

    /// What a step of a session that is up does once the bytes are read.
    #[inline(always)]
    fn after(&mut self, seen: Result<Opened, Refusal>, bytes: &[u8]) -> Answer {
        let seen = match seen {
            Ok(seen) => seen,
            Err(r) if r.number == 1 || r.number == 4 => return answer(r.number, r.besides, NO_ROW),
            Err(r) => return self.stop(r.number, r.besides),
        };
        let body = &bytes[54..];
        if !self.is_ours(&seen, bytes) {
            return self.stop(31, 0);
        }
        let Head {
            message_type,
            number: n,
            poss_dup,
            ..
        } = seen.head;
        if self.phase == Phase::Waiting {
            return self.waiting(message_type, n, seen.map, body);
        }
        // The common case first: business in its turn.
        if message_type >= types::BUSINESS_MESSAGE_REJECT && n == self.e && n != LAST {
            return answer(0, 0, self.take(RowSort::Business));
        }
        match message_type {
            types::LOGON | types::LOOKUP_REQUEST | types::LOOKUP_RESPONSE => {
                return self.stop(32, 0)
            }
            types::LOGOUT => {
                let row = if n == self.e && n != LAST {
                    self.take(RowSort::Session)
                } else {
                    NO_ROW
                };
                let mut answer = self.stop(0, 0);
                answer.row = row;
                return answer;
            }
            _ => {}
        }
        let mut fill = None;
        if message_type == types::SEQUENCE_RESET {
            let marked = seen.map & TOP != 0;
            let new = u32_at(body, usize::from(marked));
            if !(marked && body[0] == b'Y') {
                if new < self.e {
                    return self.stop(33, 0);
                }
                let row = if new > self.e {
                    self.jump(RowSort::Reset, new)
                } else {
                    NO_ROW
                };
                return answer(0, 0, row);
            }
            fill = Some(new);
        }
        if n < self.e {
            return if poss_dup == 1 {
                NOTHING
            } else {
                self.stop(30, 0)
            };
        }
        let mut resend = Send::None;
        // 36 comes before what a Resend Request asks.
        if message_type == types::RESEND_REQUEST && !(n == self.e && n == LAST) {
            let (start, end) = (u32_at(body, 0), u32_at(body, 4));
            if start == 0 || start >= self.o || (end != 0 && end < start) {
                return self.stop(34, 0);
            }
            // end 0 wraps to the greatest value: all.
            let new = end.wrapping_sub(1).saturating_add(2).min(self.o);
            resend = Send::GapFill { first: start, new };
        }
        if n > self.e {
            let mut sends = [resend, Send::None];
            // Asked already: again only behind a hole in the answer.
            let again = self.m != 0;
            if again && poss_dup == 1 && self.repeats == MOST_REPEATS {
                return self.stop(37, 0);
            }
            if !again || poss_dup == 1 {
                if self.o == LAST {
                    self.drop();
                    return answer(22, 0, NO_ROW);
                }
                sends[usize::from(message_type == types::RESEND_REQUEST)] = Send::ResendRequest {
                    number: self.o,
                    start: self.e,
                    end: 0,
                };
                self.o += 1;
                if again {
                    self.repeats += 1;
                } else {
                    self.m = n;
                }
            }
            return Answer { sends, ..NOTHING };
        }
        if n == LAST {
            return self.stop(36, 0);
        }
        if let Some(new) = fill {
            if new <= n {
                return self.stop(33, 0);
            }
            return answer(0, 0, self.jump(RowSort::Filled, new));
        }
        if message_type == types::TEST_REQUEST {
            if self.o == LAST {
                self.drop();
                return answer(22, 0, NO_ROW);
            }
            resend = Send::Heartbeat {
                number: self.o,
                id: u16_at(body, 0),
            };
            self.o += 1;
        }
        let sends = [resend, Send::None];
        let row = self.take(RowSort::Session);
        Answer {
            sends,
            row,
            ..NOTHING
        }
    }

    fn waiting(&mut self, message_type: u8, n: u32, map: u64, body: &[u8]) -> Answer {
        if message_type == types::REJECT || message_type == types::LOGOUT {
            let row = if n == self.e && n != LAST {
                self.take(RowSort::Session)
            } else {
                NO_ROW
            };
            self.drop();
            return answer(0, 0, row);
        }
        if message_type != types::LOGON {
            return self.stop(32, 0);
        }
        if n < self.e {
            return self.stop(30, 0);
        }
        // Two passwords of 450 may stand before Next Expected.
        let next_expected = u32_at(body, 450 * (map >> 62).count_ones() as usize);
        if next_expected == 0 || next_expected > self.o {
            return self.stop(35, 0);
        }
        if n == self.e && n == LAST {
            return self.stop(36, 0);
        }
        self.phase = Phase::Live;
        let mut answer = NOTHING;
        if next_expected < self.o {
            answer.sends[0] = Send::GapFill {
                first: next_expected,
                new: self.o,
            };
        }
        if n == self.e {
            answer.row = self.take(RowSort::Session);
        }
        answer
    }

    #[inline]
    fn take(&mut self, sort: RowSort) -> Row {
        self.jump(sort, self.e + 1)
    }

    #[inline]
    fn jump(&mut self, sort: RowSort, new: u32) -> Row {
        let first = self.e;
        self.e = new;
        self.repeats = 0;
        if new > self.m {
            self.m = 0;
        }
        Row {
            sort,
            first,
            last: new - 1,
        }
    }

    #[cold]
    fn stop(&mut self, code: u32, besides: u32) -> Answer {
        let mut answer = answer(code, besides, NO_ROW);
        if self.o < LAST {
            answer.sends[0] = Send::Logout { number: self.o };
            self.o += 1;
        }
        self.drop();
        answer
    }
}

#[inline]
fn answer(code: u32, besides: u32, row: Row) -> Answer {
    Answer {
        code,
        besides,
        row,
        ..NOTHING
    }
}

/// A message to send as a list has it.
#[inline]
fn numbers(send: &Send) -> [u32; A_SEND] {
    match *send {
        Send::None => [0; A_SEND],
        Send::Heartbeat { number, id } => [1, number, u32::from(id), 0],
        Send::Logout { number } => [2, number, 0, 0],
        Send::GapFill { first, new } => [3, first, new, 0],
        Send::ResendRequest { number, start, end } => [4, number, start, end],
        Send::TestRequest { number, id } => [5, number, u32::from(id), 0],
        Send::BareHeartbeat { number } => [6, number, 0, 0],
    }
}

/// A row as a list has it, with where its message begins and how long it is.
#[inline(always)]
fn lay_row(slot: &mut [u32], row: Row, place: usize, length: usize) {
    let Row { sort, first, last } = row;
    slot.copy_from_slice(&[sort as u32, first, last, place as u32, length as u32]);
}

/// The slots of the two lists that are still free.
struct Slots<'a> {
    rows: ChunksExactMut<'a, u32>,
    sends: ChunksExactMut<'a, u32>,
}

impl<'a> Slots<'a> {
    /// The slot for the row of a message at a place.
    #[inline(always)]
    fn row(&mut self, place: usize) -> Option<&'a mut [u32]> {
        if place > MOST_PLACE {
            return None;
        }
        self.rows.next()
    }

    /// Lays all that a step gave. False where it does not find place, and then
    /// nothing is laid.
    fn lay(&mut self, answer: &Answer, place: usize, length: usize) -> bool {
        // The messages to send stand in front.
        let sends = answer.sends.iter().filter(|send| **send != Send::None);
        let sends = &answer.sends[..sends.count()];
        if place > MOST_PLACE || sends.len() > self.sends.len() {
            return false;
        }
        if answer.row.sort != RowSort::None {
            match self.rows.next() {
                Some(slot) => lay_row(slot, answer.row, place, length),
                None => return false,
            }
        }
        for (send, slot) in sends.iter().zip(&mut self.sends) {
            slot.copy_from_slice(&numbers(send));
        }
        true
    }
}
