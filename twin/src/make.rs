//! Makers of test input: a small deterministic generator, messages with random
//! fields, damage, and session histories. Messages are framed here byte by
//! byte and not by the writer, so that the writer can be tested with them, and
//! so that texts may carry bytes after their null.

use crate::crc::crc32c;
use crate::gateway::is_business;
use crate::line::{self, Line};
use crate::plan::A_PAIR;
use crate::reader;
use crate::session::{self, Phase, Session, LAST};
use crate::tables::{self, types, Field, Sort};
use crate::wire::{self, set, Allowed};
use crate::wire::{
    BODY_AT, COMP_ID_AT, COMP_ID_WIDTH, LEAST, MAP_AT, MAP_WIDTH, MOST, START, TRAILER,
};
use crate::writer::{HeadValues, ToWrite};
use std::ops::Range;

/// splitmix64.
#[derive(Clone, Debug)]
pub struct Rng(u64);

impl Rng {
    pub fn new(seed: u64) -> Rng {
        Rng(seed)
    }

    pub fn draw(&mut self) -> u64 {
        self.0 = self.0.wrapping_add(0x9E37_79B9_7F4A_7C15);
        let mut z = self.0;
        z = (z ^ (z >> 30)).wrapping_mul(0xBF58_476D_1CE4_E5B9);
        z = (z ^ (z >> 27)).wrapping_mul(0x94D0_49BB_1331_11EB);
        z ^ (z >> 31)
    }

    /// A number below `bound`, which is not 0.
    pub fn below(&mut self, bound: u64) -> u64 {
        self.draw() % bound
    }

    /// An index below `bound`, which is not 0.
    pub fn index(&mut self, bound: usize) -> usize {
        self.below(bound as u64) as usize
    }

    /// True `per` times in a hundred.
    pub fn chance(&mut self, per: u64) -> bool {
        self.below(100) < per
    }

    pub fn byte(&mut self) -> u8 {
        self.draw() as u8
    }

    pub fn bytes(&mut self, count: usize) -> Vec<u8> {
        (0..count).map(|_| self.byte()).collect()
    }

    /// A number of a width in bytes, often at the ends of its range.
    pub fn value(&mut self, width: usize) -> u64 {
        let most = u64::MAX >> (64 - 8 * width);
        match self.below(6) {
            0 => 0,
            1 => most,
            2 => self.below(4) & most,
            3 => 1 << (8 * width - 1),
            _ => self.draw() & most,
        }
    }

    /// A full 32-bit number, often small or near the last one.
    pub fn any_u32(&mut self) -> u32 {
        match self.below(4) {
            0 => self.below(6) as u32,
            1 => LAST - self.below(6) as u32,
            _ => self.draw() as u32,
        }
    }

    /// Characters of a set, often none or as many as there is room for. Accented
    /// ones stand alone, among others, seldom or not at all.
    pub fn text(&mut self, most: usize, allowed: Allowed) -> Vec<u8> {
        let count = match self.below(5) {
            0 => 0,
            1 => most,
            _ => self.index(most + 1),
        };
        match allowed {
            Allowed::Ascii => (0..count).map(|_| self.ascii()).collect(),
            Allowed::Accented => {
                let per = [0, 10, 50, 100][self.index(4)];
                (0..count).map(|_| self.character(per)).collect()
            }
        }
    }

    /// A character that is an accented one `per` times in a hundred.
    fn character(&mut self, per: u64) -> u8 {
        if self.chance(per) {
            self.accented()
        } else {
            self.ascii()
        }
    }

    /// A character from 32 to 126, often the first or the last.
    fn ascii(&mut self) -> u8 {
        match self.below(8) {
            0 => 32,
            1 => 126,
            _ => 32 + self.below(95) as u8,
        }
    }

    /// A character from 128 to 255, often the first or the last.
    fn accented(&mut self) -> u8 {
        match self.below(8) {
            0 => 128,
            1 => 255,
            2 => LATIN_1[self.index(LATIN_1.len())],
            _ => 128 + self.below(128) as u8,
        }
    }
}

/// In Latin-1 the last control code, the first byte behind it, and an e with its
/// accent.
const LATIN_1: [u8; 3] = [159, 160, 233];

/// Bytes on both sides of every bound of the two sets, and of where Latin-1's
/// control codes end.
pub const EDGE_CHARACTERS: [u8; 9] = [31, 32, 126, 127, 128, 159, 160, 254, 255];

/// A fixed text's bytes: the characters, a null, then zeros or anything.
pub fn fixed_text(rng: &mut Rng, text: &[u8], width: usize) -> Vec<u8> {
    let mut bytes = text.to_vec();
    bytes.push(0);
    let zeros = rng.chance(50);
    while bytes.len() < width {
        bytes.push(if zeros { 0 } else { rng.byte() });
    }
    bytes
}

/// A variable text's bytes: the length, the characters, a null, and now and
/// then anything after it inside the length.
pub fn variable_text(rng: &mut Rng, text: &[u8], most: usize) -> Vec<u8> {
    let room = most - text.len() - 1;
    let more = if rng.chance(50) {
        0
    } else {
        rng.index(room + 1)
    };
    let length = (text.len() + 1 + more) as u16;
    let mut bytes = length.to_le_bytes().to_vec();
    bytes.extend_from_slice(text);
    bytes.push(0);
    bytes.extend(rng.bytes(more));
    bytes
}

/// Random good bytes for a field.
pub fn field(rng: &mut Rng, field: Field) -> Vec<u8> {
    match field.sort {
        Sort::Byte if field.name == tables::GAP_FILL.name => {
            vec![if rng.chance(50) { b'Y' } else { b'N' }]
        }
        Sort::Number | Sort::Byte | Sort::Decimal => {
            rng.value(field.width).to_le_bytes()[..field.width].to_vec()
        }
        Sort::Fixed(allowed) => {
            let text = rng.text(field.width - 1, allowed);
            fixed_text(rng, &text, field.width)
        }
        Sort::Variable(allowed) => {
            let text = rng.text(field.width - 1, allowed);
            variable_text(rng, &text, field.width)
        }
    }
}

/// The header values of a message to make.
#[derive(Clone, Copy, Debug)]
pub struct Given<'a> {
    pub message_type: u8,
    pub number: u32,
    pub poss_dup: u8,
    pub poss_resend: u8,
    /// Characters, without a null.
    pub comp_id: &'a [u8],
}

/// Lays a message out and gives it its checksum, whatever the values are.
pub fn frame(given: &Given, comp_id: &[u8], map: &[u8; MAP_WIDTH], body: &[u8]) -> Vec<u8> {
    let length = BODY_AT + body.len() + TRAILER;
    let mut bytes = vec![START];
    bytes.extend_from_slice(&(length as u16).to_le_bytes());
    bytes.push(given.message_type);
    bytes.extend_from_slice(&given.number.to_le_bytes());
    bytes.push(given.poss_dup);
    bytes.push(given.poss_resend);
    bytes.extend_from_slice(comp_id);
    bytes.extend_from_slice(map);
    bytes.extend_from_slice(body);
    let sum = crc32c(&bytes);
    bytes.extend_from_slice(&sum.to_le_bytes());
    bytes
}

/// A random map and body of a type. `fixed` settles positions: bytes to stand
/// there, or None for a clear position.
pub fn map_and_body(
    rng: &mut Rng,
    message_type: u8,
    fixed: &[(usize, Option<Vec<u8>>)],
) -> ([u8; MAP_WIDTH], Vec<u8>) {
    let mut map = [0; MAP_WIDTH];
    let mut body = Vec::new();
    // All, none or some of the fields that may be left out.
    let per = match rng.below(6) {
        0 => 100,
        1 => 0,
        _ => 50,
    };
    for position in 0..256 {
        let entry = match tables::find(message_type, position) {
            Some(entry) => entry,
            None => continue,
        };
        let settled = fixed.iter().find(|(p, _)| *p == position);
        let bytes = match settled {
            Some((_, bytes)) => bytes.clone(),
            None if entry.required || rng.chance(per) => Some(field(rng, entry.field)),
            None => None,
        };
        if let Some(bytes) = bytes {
            set(&mut map, position);
            body.extend_from_slice(&bytes);
        }
    }
    (map, body)
}

/// A good message with some fields settled.
pub fn message_with(rng: &mut Rng, given: &Given, fixed: &[(usize, Option<Vec<u8>>)]) -> Vec<u8> {
    let (map, body) = map_and_body(rng, given.message_type, fixed);
    let comp_id = fixed_text(rng, given.comp_id, COMP_ID_WIDTH);
    frame(given, &comp_id, &map, &body)
}

/// One of the types that are held.
pub fn message_type(rng: &mut Rng) -> u8 {
    rng.index(types::COUNT) as u8
}

/// A good message of a type with random fields that may be left out, random
/// values and random flags.
pub fn message(rng: &mut Rng, message_type: u8, number: u32, comp_id: &[u8]) -> Vec<u8> {
    let given = Given {
        message_type,
        number,
        poss_dup: rng.below(2) as u8,
        poss_resend: rng.below(2) as u8,
        comp_id,
    };
    message_with(rng, &given, &[])
}

/// A good Comp ID: 1 to 11 characters.
pub fn comp_id(rng: &mut Rng) -> Vec<u8> {
    loop {
        let text = rng.text(COMP_ID_WIDTH - 1, Allowed::Ascii);
        if !text.is_empty() {
            return text;
        }
    }
}

/// One of the texts of a message.
#[derive(Clone, Copy, Debug, PartialEq, Eq)]
pub enum Text {
    CompId,
    /// The field at a position.
    At(usize, Field),
}

impl Text {
    /// How many characters a full one has: its null takes one byte of the width.
    pub fn full(self) -> usize {
        match self {
            Text::CompId => COMP_ID_WIDTH - 1,
            Text::At(_, field) => field.width - 1,
        }
    }

    /// The set of its characters.
    pub fn allowed(self) -> Allowed {
        match self {
            Text::CompId => Allowed::Ascii,
            Text::At(_, field) => field.allowed().expect("every text has a set"),
        }
    }
}

/// The fields that a type knows, in rising position.
fn known(message_type: u8) -> impl Iterator<Item = (usize, Field)> {
    (0..8 * MAP_WIDTH).filter_map(move |position| {
        tables::find(message_type, position).map(|entry| (position, entry.field))
    })
}

/// The texts of a type's messages.
pub fn texts(message_type: u8) -> Vec<Text> {
    let fields = known(message_type).filter(|(_, field)| field.is_text());
    let fields = fields.map(|(position, field)| Text::At(position, field));
    std::iter::once(Text::CompId).chain(fields).collect()
}

/// So many characters of a set, from its last one to its first and again.
fn characters(count: usize, allowed: Allowed) -> Vec<u8> {
    let set = (0..=u8::MAX).rev().filter(|&byte| allowed.allows(byte));
    set.cycle().take(count).collect()
}

/// A text in a field, with its null, even if that is more than the field may
/// have. In a fixed one of as many characters as its width, no null is left
/// inside it.
fn laid_text(field: Field, text: &[u8]) -> Vec<u8> {
    let with_null = [text, &[0]].concat();
    match field.sort {
        Sort::Variable(_) => {
            let length = with_null.len() as u16;
            [&length.to_le_bytes()[..], &with_null].concat()
        }
        _ => {
            let mut bytes = with_null;
            bytes.resize(bytes.len().max(field.width), 0);
            bytes
        }
    }
}

/// A number, Byte or Decimal with all its bits set, unless it is a Gap Fill.
fn greatest(field: Field) -> Vec<u8> {
    if field.name == tables::GAP_FILL.name {
        return vec![b'Y'];
    }
    vec![u8::MAX; field.width]
}

/// A message with every position that its type knows, and no bytes behind the
/// null that ends each text; `content` tells the text before it.
fn every_position(message_type: u8, content: impl Fn(Text) -> Vec<u8>) -> ToWrite {
    let mut map = [0; MAP_WIDTH];
    let mut body = Vec::new();
    for (position, field) in known(message_type) {
        set(&mut map, position);
        body.extend(if field.is_text() {
            laid_text(field, &content(Text::At(position, field)))
        } else {
            greatest(field)
        });
    }
    ToWrite {
        head: HeadValues {
            message_type,
            number: LAST,
            poss_dup: 1,
            poss_resend: 1,
        },
        comp_id: content(Text::CompId),
        map,
        body,
    }
}

/// A message with every position that its type knows, in plain form; `count`
/// tells how many characters each text has.
fn every_position_of(message_type: u8, count: impl Fn(Text) -> usize) -> ToWrite {
    every_position(message_type, |text| characters(count(text), text.allowed()))
}

/// The longest message of a type: every known position, each text full.
pub fn longest(message_type: u8) -> ToWrite {
    every_position_of(message_type, Text::full)
}

/// The longest message, but one text has a character less.
pub fn one_shorter(message_type: u8, short: Text) -> ToWrite {
    every_position_of(message_type, |text| {
        text.full() - usize::from(text == short)
    })
}

/// The longest message, but one text has a character more than it may have.
pub fn one_too_long(message_type: u8, long: Text) -> ToWrite {
    every_position_of(message_type, |text| text.full() + usize::from(text == long))
}

/// How many characters the other texts have beside the one that is tried.
const BESIDE: usize = 3;

/// A message with every position that its type knows, one of its texts being
/// these bytes, whatever they are.
pub fn with_text(message_type: u8, tried: Text, bytes: &[u8]) -> ToWrite {
    every_position(message_type, |text| {
        if text == tried {
            bytes.to_vec()
        } else {
            characters(BESIDE, text.allowed())
        }
    })
}

/// A message to write as bytes that can be read, good or bad. The Comp ID leaves
/// room for its null.
pub fn framed(given: &ToWrite) -> Vec<u8> {
    let head = Given {
        message_type: given.head.message_type,
        number: given.head.number,
        poss_dup: given.head.poss_dup,
        poss_resend: given.head.poss_resend,
        comp_id: &given.comp_id,
    };
    let mut comp_id = given.comp_id.clone();
    comp_id.resize(COMP_ID_WIDTH, 0);
    frame(&head, &comp_id, &given.map, &given.body)
}

/// So many bytes of one value, one of them made another.
fn one_other(count: usize, filler: u8, at: usize, other: u8) -> Vec<u8> {
    let mut bytes = vec![filler; count];
    bytes[at] = other;
    bytes
}

/// How many characters from the first on an edge is put at: a reader that looks
/// at eight bytes together then meets it at every place of two words, and of a
/// third one's first.
const EDGE_OFFSETS: usize = 17;

/// What stands around an edge: a character, and with accented ones the least and
/// the greatest of them too, to see what one byte does to its neighbour.
fn fillers(allowed: Allowed) -> &'static [u8] {
    match allowed {
        Allowed::Ascii => b"A",
        Allowed::Accented => b"A\x80\xFF",
    }
}

/// A byte that no text may hold.
const BAD: u8 = 127;

/// So many bytes of which a null ends the text; bad ones stand behind it.
fn ended_early(count: usize, filler: u8, at: usize) -> Vec<u8> {
    let mut bytes = one_other(count, BAD, at, 0);
    bytes[..at].fill(filler);
    bytes
}

/// Bytes to be tried as a text. The first of a full one, and the middle one, has
/// every value. Then every edge stands at every offset, as the last character and
/// inside a full text, and a null inside a full one.
pub fn tried(text: Text) -> Vec<Vec<u8>> {
    let full = text.full();
    let mut all = Vec::new();
    for at in [0, full / 2] {
        all.extend((0..=u8::MAX).map(|value| one_other(full, b'A', at, value)));
    }
    for &filler in fillers(text.allowed()) {
        for at in 0..full.min(EDGE_OFFSETS) {
            for edge in EDGE_CHARACTERS {
                all.push(one_other(at + 1, filler, at, edge));
                all.push(one_other(full, filler, at, edge));
            }
            all.push(ended_early(full, filler, at));
        }
    }
    all
}

/// Makes the checksum right again for the Length that stands there; nothing if
/// that Length does not fit the bytes.
pub fn reseal(bytes: &mut [u8]) {
    if bytes.len() < LEAST {
        return;
    }
    let length = usize::from(u16::from_le_bytes([bytes[1], bytes[2]]));
    if length < LEAST || length > bytes.len() {
        return;
    }
    let at = length - TRAILER;
    let sum = crc32c(&bytes[..at]).to_le_bytes();
    bytes[at..length].copy_from_slice(&sum);
}

/// Lets the Length tell the bytes there are, and the checksum the sum.
fn refit(bytes: &mut [u8]) {
    let length = bytes.len() as u16;
    if bytes.len() >= LEAST {
        bytes[1..3].copy_from_slice(&length.to_le_bytes());
        reseal(bytes);
    }
}

/// The texts of a good body that are not empty, by where their characters stand;
/// none where the body is not good.
fn text_places(message_type: u8, map: &[u8], body: &[u8]) -> Vec<Range<usize>> {
    let place = |text: &[u8]| {
        let begin = text.as_ptr() as usize - body.as_ptr() as usize;
        begin..begin + text.len()
    };
    let fields = wire::walk(message_type, map, body).unwrap_or_default();
    let texts = fields.iter().map(|found| found.text);
    texts.filter(|text| !text.is_empty()).map(place).collect()
}

/// Puts an edge, or a null, into one of the texts of a good body; nothing where
/// there is none.
pub fn spoil_text(rng: &mut Rng, message_type: u8, map: &[u8], body: &mut [u8]) {
    let texts = text_places(message_type, map, body);
    if texts.is_empty() {
        return;
    }
    let text = &texts[rng.index(texts.len())];
    let at = text.start + rng.index(text.len());
    body[at] = if rng.chance(10) {
        0
    } else {
        EDGE_CHARACTERS[rng.index(EDGE_CHARACTERS.len())]
    };
}

/// Spoils a message in one place, in half of the cases with the checksum made
/// right again.
pub fn spoil(rng: &mut Rng, message: &[u8]) -> Vec<u8> {
    let mut bytes = message.to_vec();
    if bytes.is_empty() {
        return bytes;
    }
    let right_sum = rng.chance(50);
    match rng.below(11) {
        // A single bit.
        0 | 1 => {
            let at = rng.index(bytes.len());
            bytes[at] ^= 1 << rng.below(8);
        }
        // A single byte, anywhere.
        2 | 3 => {
            let at = rng.index(bytes.len());
            bytes[at] = rng.byte();
        }
        // A single byte of the header before the map.
        4 => {
            let at = rng.index(bytes.len().min(22));
            bytes[at] = match rng.below(3) {
                0 => 0,
                1 => 2,
                _ => rng.byte(),
            };
        }
        // A bit of the map, mostly among the positions in use.
        5 => {
            let width = if rng.chance(80) { 48 } else { 256 };
            let position = rng.index(width);
            if bytes.len() > 22 + position / 8 {
                bytes[22 + position / 8] ^= 0x80 >> (position % 8);
            }
        }
        // Cut short; with a right sum the Length is made to fit.
        6 => {
            bytes.truncate(rng.index(bytes.len() + 1));
            if right_sum {
                refit(&mut bytes);
            }
            return bytes;
        }
        // Bytes put in or taken out of the body, the Length made to fit.
        7 => {
            let at = BODY_AT.min(bytes.len()) + rng.index(bytes.len().saturating_sub(57).max(1));
            let at = at.min(bytes.len());
            if rng.chance(50) {
                let more = 1 + rng.index(9);
                let more = rng.bytes(more);
                bytes.splice(at..at, more);
            } else {
                let end = (at + 1 + rng.index(9)).min(bytes.len());
                bytes.drain(at..end);
            }
            if right_sum {
                refit(&mut bytes);
            }
            return bytes;
        }
        // Another Length: anything, the borders, a little more or less; bytes
        // may follow so that it can be reached.
        8 => {
            if bytes.len() >= 3 {
                let was = u16::from_le_bytes([bytes[1], bytes[2]]);
                let length = match rng.below(5) {
                    0 => rng.draw() as u16,
                    1 => 57 + rng.below(2) as u16,
                    2 => (MOST as u64 + rng.below(2)) as u16,
                    3 => was.wrapping_add(1 + rng.below(8) as u16),
                    _ => was.wrapping_sub(1 + rng.below(8) as u16),
                };
                bytes[1..3].copy_from_slice(&length.to_le_bytes());
                if rng.chance(50) {
                    let more = rng.index(MOST + 1);
                    bytes.extend(rng.bytes(more));
                }
            }
        }
        // A character of a text. With a wrong sum it would not be looked at.
        9 => {
            if let Ok(head) = reader::read(&bytes) {
                let (before, body) = bytes[..head.length - TRAILER].split_at_mut(BODY_AT);
                spoil_text(rng, head.message_type, &before[MAP_AT..], body);
                reseal(&mut bytes);
            }
            return bytes;
        }
        // Bytes after the message: no damage at all to the front.
        _ => {
            let more = rng.index(80);
            bytes.extend(rng.bytes(more));
            return bytes;
        }
    }
    if right_sum {
        reseal(&mut bytes);
    }
    bytes
}

/// What is done to a session.
#[derive(Clone, Debug)]
pub enum Event {
    Connect(Vec<u8>),
    Drop,
    Lend(Vec<u8>),
}

/// Where a history begins: our Comp ID and the saved E and O.
#[derive(Clone, Debug)]
pub struct Start {
    pub comp_id: Vec<u8>,
    pub e: u32,
    pub o: u32,
}

/// A saved number: fresh, anywhere, or close to the last one.
fn saved_number(rng: &mut Rng) -> u32 {
    match rng.below(4) {
        0 => 1,
        1 => 1 + rng.below(50) as u32,
        2 => LAST - rng.below(8) as u32,
        _ => (rng.draw() as u32).max(1),
    }
}

pub fn start(rng: &mut Rng) -> Start {
    Start {
        comp_id: comp_id(rng),
        e: saved_number(rng),
        o: saved_number(rng),
    }
}

fn bytes_of(value: u32) -> Option<Vec<u8>> {
    Some(value.to_le_bytes().to_vec())
}

/// A number a little above n, staying in range.
fn above(rng: &mut Rng, n: u32) -> u32 {
    n.saturating_add(1 + rng.below(4) as u32)
}

/// A number below n, at least 1; n itself if that is 1.
fn below(rng: &mut Rng, n: u32) -> u32 {
    if n <= 1 {
        return n;
    }
    n - 1 - rng.below(u64::from((n - 1).min(6))) as u32
}

/// A number that a gateway in its right mind gives, mostly E.
fn likely_number(rng: &mut Rng, e: u32) -> u32 {
    match rng.below(20) {
        0..=13 => e,
        14..=18 => above(rng, e),
        _ => below(rng, e),
    }
}

/// Start and End of a Resend Request, mostly inside what we have sent.
fn resend_range(rng: &mut Rng, o: u32) -> (u32, u32) {
    if rng.chance(5) {
        return (rng.any_u32(), rng.any_u32());
    }
    let start = below(rng, o).max(1);
    let end = match rng.below(6) {
        0 | 1 => 0,
        2 => start,
        3 => o.saturating_sub(1).max(start),
        4 => LAST - rng.below(2) as u32,
        _ => start.saturating_add(rng.below(5) as u32),
    };
    (start, end)
}

/// The gateway's next message to a session in this state, likely or not.
pub fn arrival(rng: &mut Rng, session: &Session) -> Vec<u8> {
    let (e, o) = (session.e, session.o);
    let comp_id = &session.comp_id[..];
    let mut given = Given {
        message_type: types::HEARTBEAT,
        number: likely_number(rng, e),
        poss_dup: 0,
        poss_resend: rng.chance(10) as u8,
        comp_id,
    };
    // What lies behind mostly says so.
    given.poss_dup = rng.chance(if given.number < e { 90 } else { 20 }) as u8;
    let mut fixed = Vec::new();
    if session.phase == Phase::Waiting && !rng.chance(10) {
        // The Logon, mostly a good one.
        given.message_type = types::LOGON;
        let next_expected = match rng.below(12) {
            0 => 0,
            1 => above(rng, o),
            2..=5 => below(rng, o).max(1),
            _ => o,
        };
        fixed.push((2, bytes_of(next_expected)));
    } else {
        match rng.below(100) {
            0..=39 => {
                let business = [types::BUSINESS_MESSAGE_REJECT, types::EXECUTION_REPORT];
                given.message_type = business[rng.index(2)];
            }
            40..=54 => {
                given.message_type = types::SEQUENCE_RESET;
                let new = match rng.below(20) {
                    0 => given.number,
                    1 => rng.any_u32(),
                    _ => above(rng, given.number),
                };
                fixed.push((0, Some(vec![b'Y'])));
                fixed.push((1, bytes_of(new)));
            }
            55..=61 => {
                given.message_type = types::SEQUENCE_RESET;
                let new = match rng.below(20) {
                    0..=2 => e,
                    3 => below(rng, e),
                    4 => rng.any_u32(),
                    _ => above(rng, e),
                };
                fixed.push((
                    0,
                    if rng.chance(50) {
                        Some(vec![b'N'])
                    } else {
                        None
                    },
                ));
                fixed.push((1, bytes_of(new)));
                if rng.chance(50) {
                    given.number = rng.any_u32().max(1);
                }
            }
            62..=71 => given.message_type = types::TEST_REQUEST,
            72..=81 => {
                given.message_type = types::RESEND_REQUEST;
                let (first, last) = resend_range(rng, o);
                fixed.push((0, bytes_of(first)));
                fixed.push((1, bytes_of(last)));
            }
            82..=89 => given.message_type = types::HEARTBEAT,
            90..=94 => given.message_type = types::REJECT,
            95 | 96 => given.message_type = types::LOGOUT,
            97 => {
                let stopping = [types::LOGON, types::LOOKUP_REQUEST, types::LOOKUP_RESPONSE];
                given.message_type = stopping[rng.index(3)];
            }
            _ => given.message_type = message_type(rng),
        }
    }
    let other;
    if rng.chance(2) {
        other = other_comp_id(rng, comp_id);
        given.comp_id = &other;
    }
    let mut bytes = message_with(rng, &given, &fixed);
    if rng.chance(4) {
        bytes = spoil(rng, &bytes);
    } else if rng.chance(10) {
        // The next message may already stand behind.
        let more = rng.index(70);
        bytes.extend(rng.bytes(more));
    }
    bytes
}

/// What arrives next at a session in this state, one message or more in turn.
type Arrivals = fn(&mut Rng, &Session) -> Vec<Vec<u8>>;

fn one_arrival(rng: &mut Rng, session: &Session) -> Vec<Vec<u8>> {
    vec![arrival(rng, session)]
}

/// Does to a session what the event says.
pub fn lead(session: &mut Session, event: &Event) {
    match event {
        Event::Connect(password) => {
            let _ = session.connect(password);
        }
        Event::Drop => session.drop(),
        Event::Lend(bytes) => {
            session.step(bytes);
        }
    }
}

/// A history with connects and drops, `count` events long or a little more, or
/// shorter where the numbers are spent. The twin's own session is led along, so
/// that the numbers stay close to what is expected. Of a hundred events `odd` are
/// drops, as many connects at any time, and as many arrivals.
fn day(rng: &mut Rng, start: &Start, count: usize, odd: u64, arrivals: Arrivals) -> Vec<Event> {
    let mut session =
        Session::saved(&start.comp_id, start.e, start.o).expect("a start is a good state");
    let mut all = Vec::new();
    let mut spent = 0;
    while all.len() < count && spent < 3 {
        let down = session.phase == Phase::Down;
        if down && (session.o == LAST || session.e == LAST) {
            spent += 1;
        }
        let drawn = rng.below(100);
        let events = if drawn < odd {
            vec![Event::Drop]
        } else if drawn < 2 * odd {
            vec![Event::Connect(rng.text(451, Allowed::Ascii))]
        } else if down && drawn >= 3 * odd {
            vec![Event::Connect(rng.text(449, Allowed::Ascii))]
        } else {
            let arrived = arrivals(rng, &session);
            arrived.into_iter().map(Event::Lend).collect()
        };
        for event in events {
            lead(&mut session, &event);
            all.push(event);
        }
    }
    all
}

/// A history of all sorts of arrivals.
pub fn events(rng: &mut Rng, start: &Start, count: usize) -> Vec<Event> {
    day(rng, start, count, 1, one_arrival)
}

/// A history of messages alone, for a session that was made from `start` and
/// then connected; it ends early if that session goes Down, after two messages
/// more.
pub fn history(rng: &mut Rng, start: &Start, count: usize) -> Vec<Vec<u8>> {
    let mut session =
        Session::saved(&start.comp_id, start.e, start.o).expect("a start is a good state");
    let _ = session.connect(b"");
    let mut all = Vec::new();
    let mut after = 0;
    while all.len() < count && after < 2 {
        if session.phase == Phase::Down {
            after += 1;
        }
        let bytes = arrival(rng, &session);
        session.step(&bytes);
        all.push(bytes);
    }
    all
}

/// Messages back to back for a session in this state, of at most `count`
/// arrivals, now and then cut short. The session is led along as in `day`. What
/// shifts the messages behind it, or ends the session, is mostly left out: else
/// few slices would hold more than two or three messages that are stepped on.
fn back_to_back(rng: &mut Rng, session: &Session, count: usize, arrivals: Arrivals) -> Vec<u8> {
    let mut session = session.clone();
    let mut all = Vec::new();
    for _ in 0..count {
        for mut bytes in arrivals(rng, &session) {
            let mut next = session.clone();
            let code = next.step(&bytes).code;
            let ends = session.phase != Phase::Down && next.phase == Phase::Down;
            if ends && !rng.chance(20) {
                continue;
            }
            let whole = session::used(code, &bytes);
            if whole > 0 && !rng.chance(3) {
                bytes.truncate(whole);
            }
            all.extend(bytes);
            session = next;
        }
    }
    if rng.chance(30) {
        all.truncate(rng.index(all.len() + 1));
    }
    all
}

/// A slice of all sorts of arrivals.
pub fn slice(rng: &mut Rng, session: &Session, count: usize) -> Vec<u8> {
    back_to_back(rng, session, count, one_arrival)
}

// ---- Days with holes in the answer (document 02, item 3) ----

/// A message to make, by what the session's rules look at in it.
#[derive(Clone, Copy, Debug, PartialEq, Eq)]
pub enum Sent {
    /// One of a type whose fields the rules do not look at, or only to answer.
    Of(u8),
    ResendRequest {
        start: u32,
        end: u32,
    },
    GapFill {
        new: u32,
    },
    /// A Sequence Reset that is no gap fill.
    Reset {
        new: u32,
    },
}

/// The message, with this number and PossDup.
pub fn sent(rng: &mut Rng, comp_id: &[u8], number: u32, poss_dup: u8, what: Sent) -> Vec<u8> {
    let (message_type, fixed) = match what {
        Sent::Of(message_type) => (message_type, Vec::new()),
        Sent::ResendRequest { start, end } => {
            let range = vec![(0, bytes_of(start)), (1, bytes_of(end))];
            (types::RESEND_REQUEST, range)
        }
        Sent::GapFill { new } => {
            let fields = vec![(0, Some(vec![b'Y'])), (1, bytes_of(new))];
            (types::SEQUENCE_RESET, fields)
        }
        Sent::Reset { new } => {
            let mark = rng.chance(50).then(|| vec![b'N']);
            (types::SEQUENCE_RESET, vec![(0, mark), (1, bytes_of(new))])
        }
    };
    let given = Given {
        message_type,
        number,
        poss_dup,
        poss_resend: rng.chance(10) as u8,
        comp_id,
    };
    message_with(rng, &given, &fixed)
}

/// Spoils a message so that its sum is wrong and its Length is not: it is dropped,
/// and the next one is found behind it.
pub fn spoil_sum(rng: &mut Rng, mut bytes: Vec<u8>) -> Vec<u8> {
    const BEHIND_LENGTH: usize = 3;
    let at = BEHIND_LENGTH + rng.index(bytes.len() - BEHIND_LENGTH);
    bytes[at] ^= 1 << rng.below(8);
    bytes
}

/// Start and End of a bad Resend Request: a Start of 0, one that we have not
/// reached, or an End before it.
fn bad_range(rng: &mut Rng, o: u32) -> (u32, u32) {
    match rng.below(3) {
        0 => (0, rng.any_u32()),
        1 => (o.saturating_add(rng.below(3) as u32), 0),
        _ => {
            let start = below(rng, o).max(2);
            (start, below(rng, start))
        }
    }
}

/// What may arrive under a number: everything that rule 7 meets ahead of E. A few
/// of the Resend Requests and gap fills are bad ones.
fn any_sent(rng: &mut Rng, number: u32, o: u32) -> Sent {
    const FIELDS_DO_NOT_MATTER: [u8; 5] = [
        types::BUSINESS_MESSAGE_REJECT,
        types::EXECUTION_REPORT,
        types::HEARTBEAT,
        types::TEST_REQUEST,
        types::REJECT,
    ];
    let range = |(start, end)| Sent::ResendRequest { start, end };
    match rng.below(30) {
        0..=5 => range(resend_range(rng, o)),
        6..=8 => range(bad_range(rng, o)),
        9..=12 => Sent::GapFill {
            new: above(rng, number),
        },
        13 => Sent::GapFill { new: number },
        _ => Sent::Of(FIELDS_DO_NOT_MATTER[rng.index(FIELDS_DO_NOT_MATTER.len())]),
    }
}

/// A message of any sort with this number and PossDup.
fn any_with(rng: &mut Rng, session: &Session, number: u32, poss_dup: u8) -> Vec<u8> {
    let any = any_sent(rng, number, session.o);
    sent(rng, &session.comp_id, number, poss_dup, any)
}

/// The next message on a line that loses and spoils some. It mostly lies ahead of
/// E: while nothing is asked for it opens a hole, and then it tells of one.
fn on_bad_line(rng: &mut Rng, session: &Session) -> Vec<u8> {
    let e = session.e;
    if session.phase != Phase::Live || e == LAST || rng.chance(4) {
        return arrival(rng, session);
    }
    let ahead = above(rng, e);
    let either = rng.below(2) as u8;
    if session.m == 0 && rng.chance(70) {
        return any_with(rng, session, ahead, either);
    }
    let comp_id = &session.comp_id;
    // Where our numbers are used up the order of the refusals shows. The next
    // message mostly ends such a day, so what shows it comes more often.
    if session.o == LAST && rng.chance(50) {
        if either == 0 {
            return any_with(rng, session, ahead, 0);
        }
        let (start, end) = bad_range(rng, LAST);
        return sent(rng, comp_id, ahead, 1, Sent::ResendRequest { start, end });
    }
    match rng.below(20) {
        0..=8 => any_with(rng, session, ahead, 1),
        9..=11 => any_with(rng, session, ahead, 0),
        12 | 13 => {
            let copy = any_with(rng, session, e, 1);
            spoil_sum(rng, copy)
        }
        14..=16 => any_with(rng, session, e, either),
        17 => {
            let behind = below(rng, e);
            any_with(rng, session, behind, 1)
        }
        18 => sent(rng, comp_id, ahead, either, Sent::Reset { new: e }),
        _ => {
            let new = above(rng, e);
            sent(rng, comp_id, ahead, either, Sent::Reset { new })
        }
    }
}

/// The most numbers that one answer covers.
const LONGEST_ANSWER: u32 = 8;

/// The answer to our Resend Request as a bad line brings it: copies from E on, up
/// to what made us ask or a little further. Some are lost and some spoiled.
fn answer_with_holes(rng: &mut Rng, session: &Session) -> Vec<Vec<u8>> {
    let further = session.m.saturating_add(rng.below(3) as u32);
    let last = further.min(session.e.saturating_add(LONGEST_ANSWER - 1));
    let mut all = Vec::new();
    for number in session.e..=last {
        let copy = any_with(rng, session, number, 1);
        match rng.below(4) {
            0 => {}
            1 => all.push(spoil_sum(rng, copy)),
            _ => all.push(copy),
        }
    }
    all
}

/// What a bad line brings next: a message, or while M stands a whole answer, of
/// which nothing may be left.
fn bad_line(rng: &mut Rng, session: &Session) -> Vec<Vec<u8>> {
    if session.m != 0 && rng.chance(25) {
        answer_with_holes(rng, session)
    } else {
        vec![on_bad_line(rng, session)]
    }
}

/// Where a day with holes begins. Our numbers are often so few that a Logon and
/// the requests of one hole use them up, or one less or more.
pub fn hole_start(rng: &mut Rng) -> Start {
    let o = if rng.chance(70) {
        LAST - 2 - rng.below(4) as u32
    } else {
        saved_number(rng)
    };
    Start { o, ..start(rng) }
}

/// A history over a bad line, with drops and redials at any time.
pub fn hole_events(rng: &mut Rng, start: &Start, count: usize) -> Vec<Event> {
    day(rng, start, count, 2, bad_line)
}

/// What a bad line brings in one read.
pub fn hole_slice(rng: &mut Rng, session: &Session, count: usize) -> Vec<u8> {
    back_to_back(rng, session, count, bad_line)
}

// ---- Lines with a clock (document 02, item 2) ----

/// An interval, often at the ends of the range or beside them.
pub fn interval(rng: &mut Rng) -> u32 {
    match rng.below(3) {
        0 => [1, 2, 59, 60][rng.index(4)],
        _ => 1 + rng.below(60) as u32,
    }
}

/// An interval in milliseconds.
pub fn milliseconds(interval: u32) -> u64 {
    u64::from(interval) * line::SECOND
}

/// How many intervals something is due after.
fn intervals(rng: &mut Rng) -> u64 {
    1 + rng.below(line::TO_DOWN)
}

/// A wait of so many milliseconds, one less, or one more.
fn or_beside(rng: &mut Rng, wait: u64) -> u64 {
    match rng.below(4) {
        0 => wait.saturating_sub(1),
        1 => wait.saturating_add(1),
        _ => wait,
    }
}

/// A time for a clock to begin at: 0 or soon after it, the last there is or not long
/// before it, or any. Often just so many intervals lie between it and the last.
pub fn first_time(rng: &mut Rng, interval: u32) -> u64 {
    let wait = milliseconds(interval);
    match rng.below(6) {
        0 => 0,
        1 => rng.below(4 * wait),
        2 => u64::MAX - rng.below(8 * wait),
        3 => {
            let before = intervals(rng) * wait;
            u64::MAX - or_beside(rng, before)
        }
        _ => rng.draw() >> rng.below(64),
    }
}

/// The times at which one, two and three intervals have passed since a line sent and
/// since it heard, each with a millisecond less and more. One past the last time is
/// the last.
pub fn edge_times(line: &Line) -> Vec<u64> {
    let wait = milliseconds(line.interval);
    let mut all = Vec::new();
    for since in [line.sent, line.heard] {
        for count in 1..=line::TO_DOWN {
            let at = since.saturating_add(count * wait);
            all.extend([at.saturating_sub(1), at, at.saturating_add(1)]);
        }
    }
    all
}

/// The time of the next call on a line. The clock stands, goes back, goes on or
/// jumps, and often comes to where something is due, or to a millisecond beside it.
pub fn time(rng: &mut Rng, line: &Line) -> u64 {
    let wait = milliseconds(line.interval);
    let next = line.next_tick();
    match (rng.below(20), next) {
        (0 | 1, _) => line.now,
        (2, _) => line.now.saturating_sub(1 + rng.below(4 * wait)),
        (3, _) => rng.below(line.now.max(1)),
        (4..=11, Some(next)) => or_beside(rng, next),
        (12..=14, Some(_)) => {
            let edges = edge_times(line);
            edges[rng.index(edges.len())]
        }
        (15, _) => line.now.saturating_add(rng.below(8 * wait)),
        _ => line.now.saturating_add(rng.below(wait)),
    }
}

/// A line over a session. Where that is Live, the times at which it sent and heard lie
/// so many intervals back, or anywhere.
pub fn line_over(rng: &mut Rng, session: Session) -> Line {
    let interval = interval(rng);
    let now = first_time(rng, interval);
    let mut line = Line {
        session,
        interval,
        tested: 0,
        now,
        sent: 0,
        heard: 0,
    };
    if line.is_live() {
        line.tested = rng.below(2) as u32;
        line.sent = before(rng, &line);
        line.heard = before(rng, &line);
    }
    line
}

/// A time that lies before a line's latest, or is it.
fn before(rng: &mut Rng, line: &Line) -> u64 {
    let wait = milliseconds(line.interval);
    let back = match rng.below(5) {
        0 => 0,
        1 => rng.draw() >> rng.below(64),
        2 => {
            let passed = intervals(rng) * wait;
            or_beside(rng, passed)
        }
        _ => rng.below(4 * wait),
    };
    line.now.saturating_sub(back)
}

/// A good list for the resend plan.
pub fn good_list(rng: &mut Rng, most: usize) -> Vec<u8> {
    let count = rng.index(most + 1);
    let business = [0, 10, 50, 90, 100][rng.index(5)];
    (0..count).map(|_| rng.chance(business) as u8).collect()
}

/// A list for the resend plan, now and then a bad one.
pub fn list(rng: &mut Rng, most: usize) -> Vec<u8> {
    let mut list = good_list(rng, most);
    if !list.is_empty() && rng.chance(3) {
        let at = rng.index(list.len());
        list[at] = rng.byte();
    }
    list
}

/// Where a plan over a list is cut in two.
#[derive(Clone, Copy, Debug, PartialEq, Eq)]
pub struct Cut {
    pub start: u32,
    /// The last number before the cut.
    pub middle: u32,
    /// The plan's End. 0, or one past the list, means the list's last number.
    pub end: u32,
}

/// A cut has a number on both sides.
pub const LEAST_CUT: usize = 2;

/// A cut of a plan over so many numbers, of which there are enough. Start and End
/// are often the list's ends.
pub fn cut(rng: &mut Rng, count: u32) -> Cut {
    let within = |rng: &mut Rng, from: u32, to: u32| from + rng.below(u64::from(to - from)) as u32;
    let start = if rng.chance(30) {
        1
    } else {
        within(rng, 1, count)
    };
    let middle = within(rng, start, count);
    let end = match rng.below(5) {
        0 => 0,
        1 => count + 1 + rng.below(3) as u32,
        2 => rng.any_u32().max(count + 1),
        _ => within(rng, middle, count) + 1,
    };
    Cut { start, middle, end }
}

/// Every list of so many numbers, each business or session.
pub fn every_list(count: u32) -> impl Iterator<Item = Vec<u8>> {
    (0..1_u32 << count).map(move |bits| (0..count).map(|at| (bits >> at & 1) as u8).collect())
}

// ---- Published lists (document 02, item 14) ----

/// A gateway's list: messages of all types with the numbers 1, 2, .. and one Comp
/// ID, of which the marks say whether each is business (1) or session (0).
pub fn published(rng: &mut Rng, comp_id: &[u8], marks: &[u8]) -> Vec<Vec<u8>> {
    let mut all = Vec::new();
    for (number, &mark) in (1..).zip(marks) {
        let message_type = loop {
            let any = message_type(rng);
            if is_business(any) == (mark == 1) {
                break any;
            }
        };
        all.push(message(rng, message_type, number, comp_id));
    }
    all
}

/// Another Comp ID: anything, one that this one begins, one that begins this one.
fn other_comp_id(rng: &mut Rng, comp_id: &[u8]) -> Vec<u8> {
    match rng.below(3) {
        0 => self::comp_id(rng),
        1 => comp_id[..comp_id.len().max(2) - 1].to_vec(),
        _ => [comp_id, b"X"].concat()[..(comp_id.len() + 1).min(11)].to_vec(),
    }
}

/// Makes one thing of a list wrong: a message is damaged, bears another number, has
/// another Comp ID, stands there twice or not at all, or the last is cut short.
pub fn spoil_published(rng: &mut Rng, comp_id: &[u8], list: &mut Vec<Vec<u8>>) {
    const NUMBER: Range<usize> = 4..8;
    if list.is_empty() {
        return;
    }
    let at = rng.index(list.len());
    let is_whole = list[at].len() >= LEAST;
    match rng.below(6) {
        0 if is_whole => {
            let number = [at as u32, at as u32 + 2, rng.any_u32()][rng.index(3)];
            list[at][NUMBER].copy_from_slice(&number.to_le_bytes());
            reseal(&mut list[at]);
        }
        1 if is_whole => {
            let other = other_comp_id(rng, comp_id);
            let other = fixed_text(rng, &other, COMP_ID_WIDTH);
            list[at][COMP_ID_AT..MAP_AT].copy_from_slice(&other);
            reseal(&mut list[at]);
        }
        2 => {
            let twice = list[at].clone();
            list.insert(at, twice);
        }
        3 => {
            list.remove(at);
        }
        4 => {
            let last = list.len() - 1;
            let rest = rng.index(list[last].len() + 1);
            list[last].truncate(rest);
        }
        _ => list[at] = spoil(rng, &list[at]),
    }
}

/// A number at another one or near it, mostly above it, or 0. Past the last it
/// begins at 0 again.
fn near(rng: &mut Rng, n: u32) -> u32 {
    match rng.below(8) {
        0 => 0,
        1 => n,
        2 => n.wrapping_sub(1),
        _ => n.wrapping_add(1 + rng.below(3) as u32),
    }
}

/// The last pair of a plan and the first of another, which often touch, or all but
/// touch.
fn meeting(rng: &mut Rng) -> [[u32; A_PAIR]; 2] {
    let first = rng.any_u32();
    let new = near(rng, first);
    let next = if rng.chance(60) { new } else { near(rng, new) };
    [[first, new], [next, near(rng, next)]]
}

/// Pairs with small numbers, so that neighbours touch now and then, as those of no
/// plan do.
fn small_pairs(rng: &mut Rng) -> Vec<u32> {
    let count = A_PAIR * rng.index(5);
    (0..count).map(|_| rng.below(5) as u32).collect()
}

/// The numbers of two plans to join, or of what is none: few pairs or no pair, and
/// seldom an odd number more.
pub fn two_plans(rng: &mut Rng) -> [Vec<u32>; 2] {
    let (mut one, mut other) = (small_pairs(rng), small_pairs(rng));
    let [last, next] = meeting(rng);
    if rng.chance(85) {
        one.extend(last);
    }
    if rng.chance(85) {
        other.splice(0..0, next);
    }
    for numbers in [&mut one, &mut other] {
        if rng.chance(3) {
            numbers.push(rng.any_u32());
        }
    }
    [one, other]
}

/// Lines for daysheet, of an answer whose first copy is spoiled. 4 opens the hole
/// at 2. Ahead of E and with dup=1 the same is asked again, by business and gap
/// fills alike; with dup=0 it is not. 2 fills the hole, so two repeats are left for
/// 3; a reset to 3 and a lower number leave the count. The third stops.
pub const SHEET_WITH_HOLES: &[u8] = b"kind=logon n=1 dup=0 new=0
kind=business n=4 dup=0 new=0
kind=business n=3 dup=1 new=0
kind=business n=5 dup=0 new=0
kind=gapfill n=4 dup=1 new=9
kind=business n=2 dup=1 new=0
kind=business n=4 dup=1 new=0
kind=reset n=9 dup=0 new=3
kind=business n=2 dup=1 new=0
kind=business n=5 dup=1 new=0
kind=business n=4 dup=1 new=0
kind=business n=3 dup=1 new=0
";

/// Lines for daysheet, good ones, of a day over a bad line: many lie ahead with
/// PossDup 1, so that the same number is asked for again and again.
pub fn hole_sheet(rng: &mut Rng, count: usize) -> Vec<u8> {
    let mut text = b"kind=logon n=1 dup=0 new=0\n".to_vec();
    let mut e = 2;
    for _ in 0..count {
        let (n, dup) = match rng.below(20) {
            0..=7 => (above(rng, e), 1),
            8..=10 => (above(rng, e), 0),
            11 => (below(rng, e), 1),
            _ => (e, rng.below(2)),
        };
        let (kind, new) = match rng.below(10) {
            0 | 1 => ("gapfill", above(rng, n)),
            2 => ("reset", e + rng.below(2) as u32),
            _ => ("business", 0),
        };
        let line = format!("kind={} n={} dup={} new={}\n", kind, n, dup, new);
        text.extend(line.into_bytes());
        // Where the next E is, as long as nothing has stopped the session.
        e = match kind {
            "reset" => new,
            "gapfill" if n == e => new,
            "business" if n == e => e + 1,
            _ => e,
        };
    }
    text
}

/// Lines for daysheet, now and then a bad one.
pub fn sheet(rng: &mut Rng, count: usize) -> Vec<u8> {
    let mut text = Vec::new();
    let mut n = 1u32;
    for index in 0..count {
        let kind = if index == 0 && rng.chance(95) {
            "logon"
        } else {
            match rng.below(40) {
                0 => "logon",
                1..=5 => "gapfill",
                6 | 7 => "reset",
                _ => "business",
            }
        };
        let at = likely_number(rng, n);
        let dup = (at < n && rng.chance(90)) as u8;
        let new = if kind == "gapfill" || kind == "reset" {
            above(rng, at)
        } else {
            0
        };
        let mut line = format!("kind={} n={} dup={} new={}", kind, at, dup, new).into_bytes();
        if rng.chance(1) {
            match rng.below(6) {
                0 => line.push(b' '),
                1 => line = rng.text(40, Allowed::Ascii),
                2 => line = format!("kind=business n={} dup=2 new=0", at).into_bytes(),
                3 => line = b"kind=business n=4294967296 dup=0 new=0".to_vec(),
                4 => line = b"kind=business n=0 dup=0 new=0".to_vec(),
                _ => line = format!("kind=logon n={} dup=0 new=1", at).into_bytes(),
            }
        }
        text.extend_from_slice(&line);
        if index + 1 < count || rng.chance(80) {
            text.push(b'\n');
        }
        if at == n {
            n = if new > n { new } else { n.saturating_add(1) };
        }
    }
    text
}

/// A day of so many good lines for daysheet: a logon, and business in its turn.
pub fn long_sheet(count: usize) -> Vec<u8> {
    let mut text = String::from("kind=logon n=1 dup=0 new=0\n");
    for n in 2..=count {
        text += &format!("kind=business n={} dup=0 new=0\n", n);
    }
    text.into_bytes()
}
