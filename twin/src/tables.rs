//! The data dictionary (004 section 8.2) and the tables of the message types
//! 0 to 10 (004 sections 7.6, 7.7, 7.8, 7.11), typed by hand.

use crate::wire::{Allowed, BODY_AT, TRAILER};

/// How a field lies in the body (004 section 6.1), and for a text the set of its
/// characters.
#[derive(Clone, Copy, Debug, PartialEq, Eq)]
pub enum Sort {
    /// UInt8, UInt16 or UInt32, by its width.
    Number,
    /// One byte that holds a character.
    Byte,
    /// A signed 64-bit count of hundred-millionths.
    Decimal,
    /// Alphanumeric Fixed Length; the width counts the null.
    Fixed(Allowed),
    /// Alphanumeric Variable Length; the width is the greatest length, null
    /// counted and the two length bytes not.
    Variable(Allowed),
}

/// The UInt16 in front of a variable text that tells its length.
pub const TEXT_LENGTH: usize = 2;

/// A line of the dictionary.
#[derive(Clone, Copy, Debug, PartialEq, Eq)]
pub struct Field {
    pub name: &'static str,
    pub sort: Sort,
    pub width: usize,
}

impl Field {
    pub fn is_text(self) -> bool {
        self.allowed().is_some()
    }

    /// The set of a text's characters; None for other sorts.
    pub fn allowed(self) -> Option<Allowed> {
        match self.sort {
            Sort::Number | Sort::Byte | Sort::Decimal => None,
            Sort::Fixed(allowed) | Sort::Variable(allowed) => Some(allowed),
        }
    }

    /// The most bytes that the field takes. Only a variable text may take
    /// fewer, and only it has a length besides.
    pub fn most(self) -> usize {
        match self.sort {
            Sort::Number | Sort::Byte | Sort::Decimal | Sort::Fixed(_) => self.width,
            Sort::Variable(_) => TEXT_LENGTH + self.width,
        }
    }
}

const fn field(name: &'static str, sort: Sort, width: usize) -> Field {
    Field { name, sort, width }
}
const fn uint8(name: &'static str) -> Field {
    field(name, Sort::Number, 1)
}
const fn uint16(name: &'static str) -> Field {
    field(name, Sort::Number, 2)
}
const fn uint32(name: &'static str) -> Field {
    field(name, Sort::Number, 4)
}
const fn byte(name: &'static str) -> Field {
    field(name, Sort::Byte, 1)
}
const fn decimal(name: &'static str) -> Field {
    field(name, Sort::Decimal, 8)
}
const fn fixed(name: &'static str, width: usize, allowed: Allowed) -> Field {
    field(name, Sort::Fixed(allowed), width)
}
const fn variable(name: &'static str, width: usize, allowed: Allowed) -> Field {
    field(name, Sort::Variable(allowed), width)
}

// 004 section 8.2, in its order. The fields that only type 21 uses are left
// out, since type 21 is not held: Clearing Instruction, Owning Broker ID, Trade
// Type, Trade Report ID, Trade Report Trans Type, Trade Report Type, Trade
// Report Status, Trade ID, Trade Handling Instructions. The sets of characters
// are document 02's, item 8: 004 section 6.1 speaks of ASCII alone.
pub const AGGRESSOR_INDICATOR: Field = uint8("Aggressor Indicator");
pub const BROKER_LOCATION_ID: Field = fixed("Broker Location ID", 11, Allowed::Ascii);
pub const BUSINESS_REJECT_CODE: Field = uint16("Business Reject Code");
pub const BUSINESS_REJECT_REFERENCE_ID: Field =
    fixed("Business Reject Reference ID", 21, Allowed::Ascii);
pub const CLIENT_ORDER_ID: Field = fixed("Client Order ID", 21, Allowed::Ascii);
pub const COPY_MESSAGE_INDICATOR: Field = uint8("Copy Message Indicator");
pub const COUNTERPARTY_BROKER_ID: Field = fixed("Counterparty Broker ID", 12, Allowed::Ascii);
pub const CUMULATIVE_QUANTITY: Field = decimal("Cumulative Quantity");
/// Section 7.7.5 calls it End Sequence Number.
pub const END_SEQUENCE: Field = uint32("End Sequence");
pub const EXEC_TYPE: Field = byte("Exec Type");
pub const EXECUTION_ID: Field = fixed("Execution ID", 21, Allowed::Ascii);
pub const EXECUTION_PRICE: Field = decimal("Execution Price");
pub const EXECUTION_QUANTITY: Field = decimal("Execution Quantity");
pub const EXEC_RESTATEMENT_REASON: Field = uint16("Exec Restatement Reason");
pub const EXCHANGE_TRADE_TYPE: Field = byte("Exchange Trade Type");
/// The only Byte that does not take every value: 'Y' or 'N'.
pub const GAP_FILL: Field = byte("Gap Fill");
pub const LEAVES_QUANTITY: Field = decimal("Leaves Quantity");
pub const LOGOUT_TEXT: Field = variable("Logout Text", 75, Allowed::Ascii);
pub const LOOKUP_REJECT_CODE: Field = uint8("Lookup Reject Code");
pub const LOT_TYPE: Field = uint8("Lot Type");
pub const MATCH_TYPE: Field = uint8("Match Type");
pub const MAX_PRICE_LEVELS: Field = uint8("Max Price Levels");
pub const MESSAGE_REJECT_CODE: Field = uint16("Message Reject Code");
pub const NEW_PASSWORD: Field = fixed("New Password", 450, Allowed::Ascii);
pub const NEW_SEQUENCE_NUMBER: Field = uint32("New Sequence Number");
pub const NEXT_EXPECTED: Field = uint32("Next Expected Message Sequence");
pub const ORDER_ID: Field = fixed("Order ID", 21, Allowed::Ascii);
pub const ORDER_QUANTITY: Field = decimal("Order Quantity");
pub const ORDER_STATUS: Field = uint8("Order Status");
pub const ORDER_TYPE: Field = uint8("Order Type");
pub const ORDER_RESTRICTIONS: Field = fixed("Order Restrictions", 21, Allowed::Ascii);
pub const ORDER_CAPACITY: Field = uint8("Order Capacity");
pub const ORDER_CATEGORY: Field = uint8("Order Category");
pub const ORIGINAL_CLIENT_ORDER_ID: Field = fixed("Original Client Order ID", 21, Allowed::Ascii);
pub const PASSWORD: Field = fixed("Password", 450, Allowed::Ascii);
pub const POSITION_EFFECT: Field = uint8("Position Effect");
pub const PRICE: Field = decimal("Price");
pub const PROTOCOL_TYPE: Field = uint8("Protocol Type");
pub const PRIMARY_IP: Field = fixed("Primary IP", 16, Allowed::Ascii);
pub const PRIMARY_PORT: Field = uint16("Primary Port");
pub const REFERENCE_EXECUTION_ID: Field = fixed("Reference Execution ID", 21, Allowed::Ascii);
pub const REFERENCE_FIELD_NAME: Field = fixed("Reference Field Name", 50, Allowed::Ascii);
pub const REFERENCE_MESSAGE_TYPE: Field = uint8("Reference Message Type");
pub const REFERENCE_SEQUENCE_NUMBER: Field = uint32("Reference Sequence Number");
pub const REFERENCE_TEST_REQUEST_ID: Field = uint16("Reference Test Request ID");
pub const REASON: Field = variable("Reason", 75, Allowed::Accented);
pub const SECURITY_EXCHANGE: Field = fixed("Security Exchange", 5, Allowed::Ascii);
pub const SECURITY_ID: Field = fixed("Security ID", 21, Allowed::Ascii);
pub const SECURITY_ID_SOURCE: Field = uint8("Security ID Source");
pub const SECONDARY_IP: Field = fixed("Secondary IP", 16, Allowed::Ascii);
pub const SECONDARY_PORT: Field = uint16("Secondary Port");
pub const SESSION_STATUS: Field = uint8("Session Status");
pub const SIDE: Field = uint8("Side");
pub const SMP_ID: Field = fixed("SMP ID", 10, Allowed::Ascii);
/// Section 7.7.5 calls it Start Sequence Number.
pub const START_SEQUENCE: Field = uint32("Start Sequence");
pub const STATUS: Field = uint8("Status");
pub const SUBMITTING_BROKER_ID: Field = fixed("Submitting Broker ID", 12, Allowed::Ascii);
pub const TEXT: Field = variable("Text", 50, Allowed::Accented);
/// The tables call it Time In Force (TIF), Time In Force, or TIF.
pub const TIME_IN_FORCE: Field = uint8("Time In Force - TIF");
pub const TEST_MESSAGE_INDICATOR: Field = uint8("Test Message Indicator");
pub const TEST_REQUEST_ID: Field = uint16("Test Request ID");
pub const TRANSACTION_TIME: Field = fixed("Transaction Time", 25, Allowed::Ascii);
pub const TRADE_MATCH_ID: Field = fixed("Trade Match ID", 25, Allowed::Ascii);
pub const TYPE_OF_SERVICE: Field = uint8("Type of Service");

/// A line of a type's table.
pub type Line = (usize, Field, bool);

const Y: bool = true;
const N: bool = false;

/// 7.7.3 Heartbeat (0).
pub const HEARTBEAT: &[Line] = &[(0, REFERENCE_TEST_REQUEST_ID, N)];

/// 7.7.4 Test Request (1).
pub const TEST_REQUEST: &[Line] = &[(0, TEST_REQUEST_ID, Y)];

/// 7.7.5 Resend Request (2).
pub const RESEND_REQUEST: &[Line] = &[(0, START_SEQUENCE, Y), (1, END_SEQUENCE, Y)];

/// 7.7.6 Reject (3).
pub const REJECT: &[Line] = &[
    (0, MESSAGE_REJECT_CODE, Y),
    (1, REASON, N),
    (2, REFERENCE_MESSAGE_TYPE, N),
    (3, REFERENCE_FIELD_NAME, N),
    (4, REFERENCE_SEQUENCE_NUMBER, Y),
    (5, CLIENT_ORDER_ID, N),
];

/// 7.7.7 Sequence Reset (4).
pub const SEQUENCE_RESET: &[Line] = &[(0, GAP_FILL, N), (1, NEW_SEQUENCE_NUMBER, Y)];

/// 7.7.1 Logon (5). The Password is required of a client only, so the table
/// says N and the reader asks nothing more.
pub const LOGON: &[Line] = &[
    (0, PASSWORD, N),
    (1, NEW_PASSWORD, N),
    (2, NEXT_EXPECTED, Y),
    (3, SESSION_STATUS, N),
    (4, TEXT, N),
    (5, TEST_MESSAGE_INDICATOR, N),
];

/// 7.7.2 Logout (6).
pub const LOGOUT: &[Line] = &[(0, LOGOUT_TEXT, N), (1, SESSION_STATUS, N)];

/// 7.6.1 Lookup Request (7).
pub const LOOKUP_REQUEST: &[Line] = &[(0, TYPE_OF_SERVICE, Y), (1, PROTOCOL_TYPE, Y)];

/// 7.6.2 Lookup Response (8).
pub const LOOKUP_RESPONSE: &[Line] = &[
    (0, STATUS, Y),
    (1, LOOKUP_REJECT_CODE, N),
    (2, REASON, N),
    (3, PRIMARY_IP, N),
    (4, PRIMARY_PORT, N),
    (5, SECONDARY_IP, N),
    (6, SECONDARY_PORT, N),
];

/// 7.11.1 Business Message Reject (9).
pub const BUSINESS_MESSAGE_REJECT: &[Line] = &[
    (0, BUSINESS_REJECT_CODE, Y),
    (1, REASON, N),
    (2, REFERENCE_MESSAGE_TYPE, Y),
    (3, REFERENCE_FIELD_NAME, N),
    (4, REFERENCE_SEQUENCE_NUMBER, N),
    (5, BUSINESS_REJECT_REFERENCE_ID, N),
];

/// 7.8.1 Order Accepted.
pub const ORDER_ACCEPTED: &[Line] = &[
    (0, CLIENT_ORDER_ID, N),
    (1, SUBMITTING_BROKER_ID, Y),
    (2, SECURITY_ID, Y),
    (3, SECURITY_ID_SOURCE, Y),
    (4, SECURITY_EXCHANGE, N),
    (5, BROKER_LOCATION_ID, N),
    (6, TRANSACTION_TIME, Y),
    (7, SIDE, Y),
    (9, ORDER_ID, Y),
    (11, ORDER_TYPE, N),
    (12, PRICE, N),
    (13, ORDER_QUANTITY, N),
    (14, TIME_IN_FORCE, N),
    (15, POSITION_EFFECT, N),
    (16, ORDER_RESTRICTIONS, N),
    (17, MAX_PRICE_LEVELS, N),
    (18, ORDER_CAPACITY, N),
    (19, TEXT, N),
    (21, EXECUTION_ID, Y),
    (22, ORDER_STATUS, Y),
    (23, EXEC_TYPE, Y),
    (24, CUMULATIVE_QUANTITY, Y),
    (25, LEAVES_QUANTITY, Y),
    (27, LOT_TYPE, N),
    (37, COPY_MESSAGE_INDICATOR, Y),
    (43, SMP_ID, N),
];

/// 7.8.2 Order Cancelled.
pub const ORDER_CANCELLED: &[Line] = &[
    (0, CLIENT_ORDER_ID, N),
    (1, SUBMITTING_BROKER_ID, Y),
    (2, SECURITY_ID, Y),
    (3, SECURITY_ID_SOURCE, Y),
    (4, SECURITY_EXCHANGE, N),
    (5, BROKER_LOCATION_ID, N),
    (6, TRANSACTION_TIME, Y),
    (7, SIDE, Y),
    (8, ORIGINAL_CLIENT_ORDER_ID, N),
    (9, ORDER_ID, Y),
    (11, ORDER_TYPE, N),
    (12, PRICE, N),
    (13, ORDER_QUANTITY, N),
    (14, TIME_IN_FORCE, N),
    (15, POSITION_EFFECT, N),
    (16, ORDER_RESTRICTIONS, N),
    (17, MAX_PRICE_LEVELS, N),
    (18, ORDER_CAPACITY, N),
    (19, TEXT, N),
    (21, EXECUTION_ID, Y),
    (22, ORDER_STATUS, Y),
    (23, EXEC_TYPE, Y),
    (24, CUMULATIVE_QUANTITY, Y),
    (25, LEAVES_QUANTITY, Y),
    (27, LOT_TYPE, N),
    (37, COPY_MESSAGE_INDICATOR, Y),
];

/// 7.8.3 Order Cancelled, unsolicited.
pub const ORDER_CANCELLED_UNSOLICITED: &[Line] = &[
    (0, CLIENT_ORDER_ID, N),
    (1, SUBMITTING_BROKER_ID, Y),
    (2, SECURITY_ID, Y),
    (3, SECURITY_ID_SOURCE, Y),
    (4, SECURITY_EXCHANGE, N),
    (5, BROKER_LOCATION_ID, N),
    (6, TRANSACTION_TIME, Y),
    (7, SIDE, Y),
    (9, ORDER_ID, Y),
    (11, ORDER_TYPE, N),
    (12, PRICE, N),
    (13, ORDER_QUANTITY, N),
    (14, TIME_IN_FORCE, N),
    (15, POSITION_EFFECT, N),
    (16, ORDER_RESTRICTIONS, N),
    (17, MAX_PRICE_LEVELS, N),
    (18, ORDER_CAPACITY, N),
    (19, TEXT, N),
    (21, EXECUTION_ID, Y),
    (22, ORDER_STATUS, Y),
    (23, EXEC_TYPE, Y),
    (24, CUMULATIVE_QUANTITY, Y),
    (25, LEAVES_QUANTITY, Y),
    (27, LOT_TYPE, N),
    (28, EXEC_RESTATEMENT_REASON, N),
    (37, COPY_MESSAGE_INDICATOR, Y),
    (43, SMP_ID, N),
];

/// 7.8.4 Order Expired.
pub const ORDER_EXPIRED: &[Line] = &[
    (0, CLIENT_ORDER_ID, N),
    (1, SUBMITTING_BROKER_ID, Y),
    (2, SECURITY_ID, Y),
    (3, SECURITY_ID_SOURCE, Y),
    (4, SECURITY_EXCHANGE, N),
    (5, BROKER_LOCATION_ID, N),
    (6, TRANSACTION_TIME, Y),
    (7, SIDE, Y),
    (9, ORDER_ID, Y),
    (11, ORDER_TYPE, N),
    (12, PRICE, N),
    (13, ORDER_QUANTITY, N),
    (14, TIME_IN_FORCE, N),
    (15, POSITION_EFFECT, N),
    (16, ORDER_RESTRICTIONS, N),
    (17, MAX_PRICE_LEVELS, N),
    (18, ORDER_CAPACITY, N),
    (19, TEXT, N),
    (20, REASON, N),
    (21, EXECUTION_ID, Y),
    (22, ORDER_STATUS, Y),
    (23, EXEC_TYPE, Y),
    (24, CUMULATIVE_QUANTITY, Y),
    (25, LEAVES_QUANTITY, Y),
    (27, LOT_TYPE, N),
    (37, COPY_MESSAGE_INDICATOR, Y),
];

/// 7.8.5 Order Amended.
pub const ORDER_AMENDED: &[Line] = &[
    (0, CLIENT_ORDER_ID, N),
    (1, SUBMITTING_BROKER_ID, Y),
    (2, SECURITY_ID, Y),
    (3, SECURITY_ID_SOURCE, Y),
    (4, SECURITY_EXCHANGE, N),
    (5, BROKER_LOCATION_ID, N),
    (6, TRANSACTION_TIME, Y),
    (7, SIDE, Y),
    (8, ORIGINAL_CLIENT_ORDER_ID, N),
    (9, ORDER_ID, Y),
    (11, ORDER_TYPE, N),
    (12, PRICE, N),
    (13, ORDER_QUANTITY, N),
    (14, TIME_IN_FORCE, N),
    (15, POSITION_EFFECT, N),
    (16, ORDER_RESTRICTIONS, N),
    (17, MAX_PRICE_LEVELS, N),
    (18, ORDER_CAPACITY, N),
    (19, TEXT, N),
    (21, EXECUTION_ID, Y),
    (22, ORDER_STATUS, Y),
    (23, EXEC_TYPE, Y),
    (24, CUMULATIVE_QUANTITY, Y),
    (25, LEAVES_QUANTITY, Y),
    (27, LOT_TYPE, N),
    (37, COPY_MESSAGE_INDICATOR, Y),
    (43, SMP_ID, N),
];

/// 7.8.6 Auto-matched Trade (Board Lot Order Executed).
pub const AUTO_MATCHED_TRADE: &[Line] = &[
    (0, CLIENT_ORDER_ID, N),
    (1, SUBMITTING_BROKER_ID, Y),
    (2, SECURITY_ID, Y),
    (3, SECURITY_ID_SOURCE, Y),
    (4, SECURITY_EXCHANGE, N),
    (5, BROKER_LOCATION_ID, N),
    (6, TRANSACTION_TIME, Y),
    (7, SIDE, Y),
    (9, ORDER_ID, Y),
    (11, ORDER_TYPE, N),
    (12, PRICE, N),
    (13, ORDER_QUANTITY, N),
    (14, TIME_IN_FORCE, N),
    (15, POSITION_EFFECT, N),
    (16, ORDER_RESTRICTIONS, N),
    (17, MAX_PRICE_LEVELS, N),
    (18, ORDER_CAPACITY, N),
    (19, TEXT, N),
    (21, EXECUTION_ID, Y),
    (22, ORDER_STATUS, Y),
    (23, EXEC_TYPE, Y),
    (24, CUMULATIVE_QUANTITY, Y),
    (25, LEAVES_QUANTITY, Y),
    (27, LOT_TYPE, N),
    (30, MATCH_TYPE, N),
    (31, COUNTERPARTY_BROKER_ID, N),
    (32, EXECUTION_QUANTITY, Y),
    (33, EXECUTION_PRICE, Y),
    (35, ORDER_CATEGORY, N),
    (37, COPY_MESSAGE_INDICATOR, Y),
    (38, TRADE_MATCH_ID, N),
    (42, AGGRESSOR_INDICATOR, N),
];

/// 7.8.7 Auto-matched Trade Cancel (Executed Trade Cancelled).
pub const AUTO_MATCHED_TRADE_CANCEL: &[Line] = &[
    (0, CLIENT_ORDER_ID, N),
    (1, SUBMITTING_BROKER_ID, Y),
    (2, SECURITY_ID, Y),
    (3, SECURITY_ID_SOURCE, Y),
    (4, SECURITY_EXCHANGE, N),
    (5, BROKER_LOCATION_ID, N),
    (6, TRANSACTION_TIME, Y),
    (7, SIDE, Y),
    (9, ORDER_ID, Y),
    (11, ORDER_TYPE, N),
    (12, PRICE, N),
    (13, ORDER_QUANTITY, N),
    (14, TIME_IN_FORCE, N),
    (15, POSITION_EFFECT, N),
    (16, ORDER_RESTRICTIONS, N),
    (17, MAX_PRICE_LEVELS, N),
    (18, ORDER_CAPACITY, N),
    (19, TEXT, N),
    (21, EXECUTION_ID, Y),
    (22, ORDER_STATUS, Y),
    (23, EXEC_TYPE, Y),
    (24, CUMULATIVE_QUANTITY, Y),
    (25, LEAVES_QUANTITY, Y),
    (27, LOT_TYPE, N),
    (28, EXEC_RESTATEMENT_REASON, N),
    (32, EXECUTION_QUANTITY, N),
    (33, EXECUTION_PRICE, N),
    (34, REFERENCE_EXECUTION_ID, Y),
    (35, ORDER_CATEGORY, N),
    (37, COPY_MESSAGE_INDICATOR, Y),
];

/// 7.8.8 Trade (Odd lot/Special lot Order Executed).
pub const ODD_LOT_TRADE: &[Line] = &[
    (0, CLIENT_ORDER_ID, N),
    (1, SUBMITTING_BROKER_ID, Y),
    (2, SECURITY_ID, Y),
    (3, SECURITY_ID_SOURCE, Y),
    (4, SECURITY_EXCHANGE, N),
    (5, BROKER_LOCATION_ID, N),
    (6, TRANSACTION_TIME, Y),
    (7, SIDE, Y),
    (9, ORDER_ID, Y),
    (11, ORDER_TYPE, N),
    (12, PRICE, N),
    (13, ORDER_QUANTITY, N),
    (14, TIME_IN_FORCE, N),
    (15, POSITION_EFFECT, N),
    (18, ORDER_CAPACITY, N),
    (19, TEXT, N),
    (21, EXECUTION_ID, Y),
    (22, ORDER_STATUS, Y),
    (23, EXEC_TYPE, Y),
    (24, CUMULATIVE_QUANTITY, Y),
    (25, LEAVES_QUANTITY, Y),
    (27, LOT_TYPE, N),
    (31, COUNTERPARTY_BROKER_ID, N),
    (32, EXECUTION_QUANTITY, Y),
    (33, EXECUTION_PRICE, Y),
    (35, ORDER_CATEGORY, N),
    (37, COPY_MESSAGE_INDICATOR, Y),
    (38, TRADE_MATCH_ID, N),
    (39, EXCHANGE_TRADE_TYPE, N),
];

/// 7.8.9 Trade (Semi-auto-matched Trade Cancelled).
pub const SEMI_AUTO_TRADE_CANCELLED: &[Line] = &[
    (0, CLIENT_ORDER_ID, N),
    (1, SUBMITTING_BROKER_ID, Y),
    (2, SECURITY_ID, Y),
    (3, SECURITY_ID_SOURCE, Y),
    (4, SECURITY_EXCHANGE, N),
    (5, BROKER_LOCATION_ID, N),
    (6, TRANSACTION_TIME, Y),
    (7, SIDE, Y),
    (9, ORDER_ID, Y),
    (11, ORDER_TYPE, N),
    (12, PRICE, N),
    (13, ORDER_QUANTITY, N),
    (14, TIME_IN_FORCE, N),
    (15, POSITION_EFFECT, N),
    (18, ORDER_CAPACITY, N),
    (19, TEXT, N),
    (21, EXECUTION_ID, Y),
    (22, ORDER_STATUS, Y),
    (23, EXEC_TYPE, Y),
    (24, CUMULATIVE_QUANTITY, Y),
    (25, LEAVES_QUANTITY, Y),
    (27, LOT_TYPE, N),
    (28, EXEC_RESTATEMENT_REASON, N),
    (32, EXECUTION_QUANTITY, N),
    (33, EXECUTION_PRICE, N),
    (34, REFERENCE_EXECUTION_ID, Y),
    (35, ORDER_CATEGORY, N),
    (37, COPY_MESSAGE_INDICATOR, Y),
];

/// The nine tables of type 10.
pub const EXECUTION_REPORTS: [&[Line]; 9] = [
    ORDER_ACCEPTED,
    ORDER_CANCELLED,
    ORDER_CANCELLED_UNSOLICITED,
    ORDER_EXPIRED,
    ORDER_AMENDED,
    AUTO_MATCHED_TRADE,
    AUTO_MATCHED_TRADE_CANCEL,
    ODD_LOT_TRADE,
    SEMI_AUTO_TRADE_CANCELLED,
];

/// What a type holds at a position.
#[derive(Clone, Copy, Debug, PartialEq, Eq)]
pub struct Entry {
    pub field: Field,
    pub required: bool,
}

type Entries = [Option<Entry>; 256];

/// Tables that share positions: the known set is their union, and a position
/// is required if all of them require it.
const fn join(tables: &[&[Line]]) -> Entries {
    let mut requiring = [0; 256];
    let mut entries: Entries = [None; 256];
    let mut t = 0;
    while t < tables.len() {
        let mut i = 0;
        while i < tables[t].len() {
            let (position, field, required) = tables[t][i];
            if required {
                requiring[position] += 1;
            }
            entries[position] = Some(Entry {
                field,
                required: requiring[position] == tables.len(),
            });
            i += 1;
        }
        t += 1;
    }
    entries
}

/// The numbers of the message types (004 sections 7.6, 7.7, 7.8, 7.11).
pub mod types {
    pub const HEARTBEAT: u8 = 0;
    pub const TEST_REQUEST: u8 = 1;
    pub const RESEND_REQUEST: u8 = 2;
    pub const REJECT: u8 = 3;
    pub const SEQUENCE_RESET: u8 = 4;
    pub const LOGON: u8 = 5;
    pub const LOGOUT: u8 = 6;
    pub const LOOKUP_REQUEST: u8 = 7;
    pub const LOOKUP_RESPONSE: u8 = 8;
    pub const BUSINESS_MESSAGE_REJECT: u8 = 9;
    pub const EXECUTION_REPORT: u8 = 10;
    /// All from 0 to this one are held.
    pub const LAST: u8 = EXECUTION_REPORT;
    /// How many there are.
    pub const COUNT: usize = LAST as usize + 1;
}

/// The types' tables, by their numbers.
static ALL: [Entries; types::COUNT] = [
    join(&[HEARTBEAT]),
    join(&[TEST_REQUEST]),
    join(&[RESEND_REQUEST]),
    join(&[REJECT]),
    join(&[SEQUENCE_RESET]),
    join(&[LOGON]),
    join(&[LOGOUT]),
    join(&[LOOKUP_REQUEST]),
    join(&[LOOKUP_RESPONSE]),
    join(&[BUSINESS_MESSAGE_REJECT]),
    join(&EXECUTION_REPORTS),
];

/// The field of a type at a position; None where no table of it names one, or
/// for a type above the last.
pub fn find(message_type: u8, position: usize) -> Option<Entry> {
    *ALL.get(usize::from(message_type))?.get(position)?
}

/// The longest length of a type's messages: header and trailer, and every field
/// that a table of it names, each text full. The type is one that is held.
pub fn longest(message_type: u8) -> usize {
    let fields = ALL[usize::from(message_type)].iter().flatten();
    let body: usize = fields.map(|entry| entry.field.most()).sum();
    BODY_AT + body + TRAILER
}

/// The longest length of all messages.
pub fn longest_of_all() -> usize {
    (0..=types::LAST).map(longest).fold(0, usize::max)
}

#[cfg(test)]
mod tests {
    use super::*;
    use crate::wire::MOST;

    #[test]
    fn the_nine_tables_agree_where_they_share_a_position() {
        for table in EXECUTION_REPORTS {
            for &(position, field, _) in table {
                assert_eq!(find(10, position).map(|entry| entry.field), Some(field));
            }
        }
    }

    #[test]
    fn positions_rise_in_every_table() {
        let single = [
            HEARTBEAT,
            TEST_REQUEST,
            RESEND_REQUEST,
            REJECT,
            SEQUENCE_RESET,
            LOGON,
            LOGOUT,
            LOOKUP_REQUEST,
            LOOKUP_RESPONSE,
            BUSINESS_MESSAGE_REJECT,
        ];
        for table in single.iter().chain(EXECUTION_REPORTS.iter()) {
            assert!(table.windows(2).all(|pair| pair[0].0 < pair[1].0));
        }
    }

    #[test]
    fn type_10_as_document_01_gives_it() {
        let required: Vec<usize> = (0..256)
            .filter(|&p| find(10, p).map_or(false, |entry| entry.required))
            .collect();
        assert_eq!(required, [1, 2, 3, 6, 7, 9, 21, 22, 23, 24, 25, 37]);
        let unknown: Vec<usize> = (0..44).filter(|&p| find(10, p).is_none()).collect();
        assert_eq!(unknown, [10, 26, 29, 36, 40, 41]);
        assert_eq!(find(10, 43).map(|entry| entry.field), Some(SMP_ID));
        assert!((44..300).all(|p| find(10, p).is_none()));
        assert_eq!(find(11, 0), None);
    }

    /// Document 02, item 8: the fields Text and Reason, and no others.
    #[test]
    fn accented_texts_by_hand() {
        let accented = [
            // 7.7.6 Reject: Reason.
            (3, 1),
            // 7.7.1 Logon: Text.
            (5, 4),
            // 7.6.2 Lookup Response: Reason.
            (8, 2),
            // 7.11.1 Business Message Reject: Reason.
            (9, 1),
            // 7.8.1 to 7.8.9: Text, and only in 7.8.4 Reason.
            (10, 19),
            (10, 20),
        ];
        for message_type in 0..=types::LAST {
            for position in 0..256 {
                let allowed = find(message_type, position).and_then(|entry| entry.field.allowed());
                assert_eq!(
                    allowed == Some(Allowed::Accented),
                    accented.contains(&(message_type, position)),
                    "type {} position {}",
                    message_type,
                    position
                );
            }
        }
    }

    /// The widths are those of 004 section 8, summed here in the order of each
    /// table of section 7 and not by way of the fields above.
    #[test]
    fn the_longest_lengths_by_hand() {
        // 7.4 and 7.5: Start of Message, Length, Message Type, Sequence Number,
        // PossDup, PossResend, Comp ID, Body Fields Presence Map; Checksum.
        let frame = 1 + 2 + 1 + 4 + 1 + 1 + 12 + 32 + 4;
        assert_eq!(frame, 58);
        // Variable texts with their two bytes of length: Text (Max = 50), and
        // Reason and Logout Text (Max = 75 each).
        let text = 2 + 50;
        let reason = 2 + 75;
        let logout_text = 2 + 75;

        // 7.7.3: Reference Test Request ID.
        let heartbeat = 2;
        // 7.7.4: Test Request ID.
        let test_request = 2;
        // 7.7.5: Start Sequence Number, End Sequence Number.
        let resend_request = 4 + 4;
        // 7.7.6: Message Reject Code, Reason, Reference Message Type, Reference
        // Field Name, Reference Sequence Number, Client Order ID.
        let reject = 2 + reason + 1 + 50 + 4 + 21;
        // 7.7.7: Gap Fill, New Sequence Number.
        let sequence_reset = 1 + 4;
        // 7.7.1: Password, New Password, Next Expected Message Sequence, Session
        // Status, Text, Test Message Indicator.
        let logon = 450 + 450 + 4 + 1 + text + 1;
        // 7.7.2: Logout Text, Session Status.
        let logout = logout_text + 1;
        // 7.6.1: Type Of Service, Protocol Type.
        let lookup_request = 1 + 1;
        // 7.6.2: Status, Lookup Reject Code, Reason, Primary IP, Primary Port,
        // Secondary IP, Secondary Port.
        let lookup_response = 1 + 1 + reason + 16 + 2 + 16 + 2;
        // 7.11.1: Business Reject Code, Reason, Reference Message Type, Reference
        // Field Name, Reference Sequence Number, Business Reject Reference ID.
        let business_message_reject = 2 + reason + 1 + 50 + 4 + 21;

        // 7.8.1 to 7.8.9, each position that one of the nine names.
        // 0 to 3: Client Order ID, Submitting Broker ID, Security ID, Security
        // ID Source.
        let mut execution_report = 21 + 12 + 21 + 1;
        // 4 to 7: Security Exchange, Broker Location ID, Transaction Time, Side.
        execution_report += 5 + 11 + 25 + 1;
        // 8 (only 7.8.2 and 7.8.5) and 9: Original Client Order ID, Order ID.
        execution_report += 21 + 21;
        // 11 to 15: Order Type, Price, Order Quantity, Time In Force, Position
        // Effect.
        execution_report += 1 + 8 + 8 + 1 + 1;
        // 16 to 18: Order Restrictions, Max Price Levels, Order Capacity.
        execution_report += 21 + 1 + 1;
        // 19 and 20 (only 7.8.4): Text, Reason.
        execution_report += text + reason;
        // 21 to 25: Execution ID, Order Status, Exec Type, Cumulative Quantity,
        // Leaves Quantity.
        execution_report += 21 + 1 + 1 + 8 + 8;
        // 27 and 28: Lot Type, Exec Restatement Reason.
        execution_report += 1 + 2;
        // 30 to 33: Match Type, Counterparty Broker ID, Execution Quantity,
        // Execution Price.
        execution_report += 1 + 12 + 8 + 8;
        // 34 and 35: Reference Execution ID, Order Category.
        execution_report += 21 + 1;
        // 37 to 39: Copy Message Indicator, Trade Match ID, Exchange Trade Type.
        execution_report += 1 + 25 + 1;
        // 42 and 43: Aggressor Indicator, SMP ID.
        execution_report += 1 + 10;

        let sums = [
            (types::HEARTBEAT, heartbeat, 60),
            (types::TEST_REQUEST, test_request, 60),
            (types::RESEND_REQUEST, resend_request, 66),
            (types::REJECT, reject, 213),
            (types::SEQUENCE_RESET, sequence_reset, 63),
            (types::LOGON, logon, 1016),
            (types::LOGOUT, logout, 136),
            (types::LOOKUP_REQUEST, lookup_request, 60),
            (types::LOOKUP_RESPONSE, lookup_response, 173),
            (types::BUSINESS_MESSAGE_REJECT, business_message_reject, 213),
            (types::EXECUTION_REPORT, execution_report, 499),
        ];
        assert_eq!(sums.len(), types::COUNT);
        for (message_type, fields, length) in sums {
            assert_eq!(frame + fields, length, "type {}", message_type);
            assert_eq!(longest(message_type), length, "type {}", message_type);
        }
        assert_eq!(longest_of_all(), 1016);
        assert!(longest_of_all() <= MOST);
    }
}
