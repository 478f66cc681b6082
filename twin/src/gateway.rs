//! The gateway's half of a resend (document 02, item 14), as the bench plays it:
//! its published list, and what it sends again for a Start and an End.

use crate::daysheet::number;
use crate::plan::{plan, A_PAIR};
use crate::reader;
use crate::tables::types;
use crate::writer::{self, HeadValues, ToWrite};
use std::fmt;

/// The most bytes that a list has.
pub const LONGEST: usize = 1_048_576;

/// The most bytes of the first line, without its line feed.
pub const LONGEST_LINE: usize = 64;

/// Why nothing is sent. The messages of a list are counted from 1.
#[derive(Clone, Copy, Debug, PartialEq, Eq)]
pub enum Wrong {
    TooLong,
    /// The reader refuses a message.
    Refused {
        message: usize,
        refusal: u32,
    },
    /// A message bears another number than its place in the list.
    Number {
        message: usize,
        number: u32,
    },
    /// A message has another Comp ID than the first.
    CompId {
        message: usize,
    },
    /// The plan is refused.
    Plan {
        refusal: u32,
    },
}

/// The line that the bench says.
impl fmt::Display for Wrong {
    fn fmt(&self, f: &mut fmt::Formatter) -> fmt::Result {
        let of_list = |message| format!("message {} of the list", message);
        let what = match *self {
            Wrong::TooLong => format!("the list is too long: it has at most {} bytes", LONGEST),
            Wrong::Refused { message, refusal } => {
                format!("{} is refused {}", of_list(message), refusal)
            }
            Wrong::Number { message, number } => {
                format!("{} bears number {}", of_list(message), number)
            }
            Wrong::CompId { message } => {
                format!("{} has another Comp ID than the first", of_list(message))
            }
            Wrong::Plan { refusal } => format!("refused {}", refusal),
        };
        write!(f, "bench: {}", what)
    }
}

/// What the first line asks for, and the list behind it.
#[derive(Clone, Copy, Debug, PartialEq, Eq)]
pub struct Asked<'a> {
    pub start: u32,
    pub end: u32,
    pub list: &'a [u8],
}

/// What an input of the bench asks for; None where its first line is not of the
/// form send start=S end=E with single blanks, or is too long.
pub fn asked(input: &[u8]) -> Option<Asked<'_>> {
    let length = input.iter().position(|&byte| byte == b'\n')?;
    if length > LONGEST_LINE {
        return None;
    }
    let (line, list) = (&input[..length], &input[length + 1..]);
    let parts: Vec<&[u8]> = line.split(|&byte| byte == b' ').collect();
    match parts[..] {
        [b"send", start, end] => Some(Asked {
            start: number(start.strip_prefix(b"start=")?)?,
            end: number(end.strip_prefix(b"end=")?)?,
            list,
        }),
        _ => None,
    }
}

/// The messages of a list: back to back, with the numbers 1, 2, .. and one Comp
/// ID. They are looked at in order, and the first that is wrong is told.
fn messages(list: &[u8]) -> Result<Vec<ToWrite>, Wrong> {
    if list.len() > LONGEST {
        return Err(Wrong::TooLong);
    }
    let mut all: Vec<ToWrite> = Vec::new();
    let mut rest = list;
    while !rest.is_empty() {
        let message = all.len() + 1;
        let head = reader::read(rest).map_err(|refusal| Wrong::Refused {
            message,
            refusal: refusal.number,
        })?;
        let number = head.number;
        if number as usize != message {
            return Err(Wrong::Number { message, number });
        }
        let (bytes, behind) = rest.split_at(head.length);
        let given = ToWrite::of(bytes).expect("the reader took it");
        let first = all.first().unwrap_or(&given);
        if given.comp_id != first.comp_id {
            return Err(Wrong::CompId { message });
        }
        all.push(given);
        rest = behind;
    }
    Ok(all)
}

/// Types 9 and 10 are business (document 01, rule 9), and all others session.
pub fn is_business(message_type: u8) -> bool {
    matches!(
        message_type,
        types::BUSINESS_MESSAGE_REJECT | types::EXECUTION_REPORT
    )
}

/// A listed message in plain form with PossDup 1; all else is as it is listed.
fn again(listed: &ToWrite) -> Vec<u8> {
    let given = ToWrite {
        head: HeadValues {
            poss_dup: 1,
            ..listed.head
        },
        ..listed.clone()
    };
    given.bytes().expect("what was read can be written")
}

/// The messages of the plan for a Start and an End over a list, as bytes back to
/// back: a business number is its listed message again, and a run of session
/// numbers is a gap fill under the list's Comp ID.
pub fn send(list: &[u8], start: u32, end: u32) -> Result<Vec<u8>, Wrong> {
    let listed = messages(list)?;
    let marks: Vec<u8> = listed
        .iter()
        .map(|message| u8::from(is_business(message.head.message_type)))
        .collect();
    // No plan has more pairs than its list has numbers.
    let mut pairs = vec![[0; A_PAIR]; listed.len()];
    let count = plan(&marks, start, end, &mut pairs).map_err(|refusal| Wrong::Plan {
        refusal: refusal.number,
    })?;
    let mut bytes = Vec::new();
    for &[first, new] in &pairs[..count] {
        let message = &listed[first as usize - 1];
        bytes.extend(match new {
            0 => again(message),
            _ => writer::gap_fill(first, &message.comp_id, new).expect("its Comp ID was read"),
        });
    }
    Ok(bytes)
}
