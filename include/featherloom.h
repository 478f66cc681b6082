/*
 * Featherloom: a drop copy recorder for HKEX's OCG-C binary protocol.
 *
 * Link libfeatherloom.a (`rt lib` in crates/featherloom writes it, for x86-64 Linux). Every function is proved to meet its
 * promise for every input: none traps, none reads or writes outside what it is lent, none keeps a pointer, allocates or
 * blocks, and each refuses bad input itself, with a number. A refusal writes nothing. There is no global state, so calls
 * from several threads do not disturb each other.
 *
 * What is lent is a pointer and a length. Two things no function can see, and they are left to the caller:
 * - With a length of 0 any pointer will do, NULL too. With any other length it is not NULL. The `map` of featherloom_write has no
 *   length, but 32 bytes always, and is never NULL.
 * - What is lent to one call does not overlap. A body inside the buffer that is written, for one, gives an unreadable message
 *   with refusal 0.
 *
 * "004" is HKEX's paper "Interface Specifications, HKEX Orion Central Gateway - Securities Market (OCG-C), Binary Drop Copy
 * Protocol", version 3.2 of 19 July 2023. "Document 01" is the rules that Featherloom follows; docs/RULES.md explains them, and
 * docs/PROMISES.md says what each function promises.
 */
#ifndef FEATHERLOOM_H
#define FEATHERLOOM_H

#include <stddef.h>
#include <stdint.h>

#ifdef __cplusplus
extern "C" {
#endif

/*
 * The version of this header. The library that was linked tells its own as one number, made as FEATHERLOOM_VERSION is. Compare
 * the two before any other call: where they differ, structs and functions may differ as well.
 */
#define FEATHERLOOM_VERSION_MAJOR 4
#define FEATHERLOOM_VERSION_MINOR 2
#define FEATHERLOOM_VERSION_PATCH 0
#define FEATHERLOOM_VERSION \
    (10000 * FEATHERLOOM_VERSION_MAJOR + 100 * FEATHERLOOM_VERSION_MINOR + FEATHERLOOM_VERSION_PATCH)

uint32_t featherloom_version(void);

/*
 * Refusals. `besides` holds what is returned with them. It is 0 where nothing is said here, and where there is no refusal: only
 * featherloom_done and featherloom_line_done have more to say.
 */
enum {
    FEATHERLOOM_OK = 0,
    FEATHERLOOM_SHORT = 1,            /* the bytes end too early; besides: how many are needed in all */
    FEATHERLOOM_BAD_START = 2,        /* the first byte is not 2 */
    FEATHERLOOM_BAD_LENGTH = 3,       /* Length below 58 or above 4,096 */
    FEATHERLOOM_BAD_SUM = 4,          /* the checksum differs; besides: the Length, to pass the message over */
    FEATHERLOOM_UNKNOWN_TYPE = 5,     /* a type above 10 */
    FEATHERLOOM_BAD_HEADER = 6,       /* number 0, a flag above 1, a Comp ID that is bad or empty */
    FEATHERLOOM_UNKNOWN_POSITION = 7, /* besides: the lowest such position, or the position asked */
    FEATHERLOOM_MISSING_FIELD = 8,    /* besides: the lowest required position that is clear */
    FEATHERLOOM_BAD_FIELD = 9,        /* besides: the first bad field's position */
    FEATHERLOOM_LEFT_OVER = 10,       /* bytes after the last field; besides: how many */
    FEATHERLOOM_NO_ROOM = 11,         /* besides: what is needed; of a plan it is in `pairs`, of many steps in `rows` and `sends` */
    FEATHERLOOM_ABSENT = 13,          /* the position asked is known, and clear */
    FEATHERLOOM_OTHER_SORT = 14,      /* a number asked of a text, or a text of a number */
    FEATHERLOOM_DOWN = 20,            /* a step on a Down session */
    FEATHERLOOM_NOT_DOWN = 21,        /* Connect on a session that is up */
    FEATHERLOOM_NO_NUMBER = 22,       /* our numbers are used up */
    FEATHERLOOM_BAD_SAVED = 23,       /* a saved number of 0 */
    FEATHERLOOM_BAD_INTERVAL = 24,    /* a line's interval that is not 1 to 60 seconds */
    FEATHERLOOM_STOP_NUMBER = 30,     /* stopped: a number below E */
    FEATHERLOOM_STOP_COMP_ID = 31,    /* stopped: not our Comp ID */
    FEATHERLOOM_STOP_TYPE = 32,       /* stopped: a type out of place */
    FEATHERLOOM_STOP_NEW = 33,        /* stopped: a New Sequence Number that goes back */
    FEATHERLOOM_STOP_RESEND = 34,     /* stopped: a bad Resend Request */
    FEATHERLOOM_STOP_NEXT = 35,       /* stopped: a Next Expected of 0 or above O */
    FEATHERLOOM_STOP_LAST = 36,       /* stopped: the gateway's numbers are used up */
    FEATHERLOOM_STOP_REPEATS = 37,    /* stopped: asked again twice from the same E, and the answer still has a hole at it */
    FEATHERLOOM_BAD_REQUEST = 40,     /* a plan's list, Start or End is bad; half a pair among numbers to join */
    FEATHERLOOM_NOT_A_SESSION = 90,   /* no day has such a session or such a line: it comes back as it was */
    FEATHERLOOM_NOT_A_SEND = 91       /* no call gives such a message to send; of a Logon: this session has none to send */
};

/*
 * The message types (004 sections 7.6, 7.7, 7.8 and 7.11).
 */
enum {
    FEATHERLOOM_TYPE_HEARTBEAT = 0,
    FEATHERLOOM_TYPE_TEST_REQUEST = 1,
    FEATHERLOOM_TYPE_RESEND_REQUEST = 2,
    FEATHERLOOM_TYPE_REJECT = 3,
    FEATHERLOOM_TYPE_SEQUENCE_RESET = 4,
    FEATHERLOOM_TYPE_LOGON = 5,
    FEATHERLOOM_TYPE_LOGOUT = 6,
    FEATHERLOOM_TYPE_LOOKUP_REQUEST = 7,
    FEATHERLOOM_TYPE_LOOKUP_RESPONSE = 8,
    FEATHERLOOM_TYPE_BUSINESS_MESSAGE_REJECT = 9,
    FEATHERLOOM_TYPE_EXECUTION_REPORT = 10
};

/*
 * Positions of the fields, by message type and name. BUSINESS_REJECT stands here for Business Message Reject.
 */
/* positions: begin */
#define FEATHERLOOM_HEARTBEAT_REFERENCE_TEST_REQUEST_ID 0
#define FEATHERLOOM_TEST_REQUEST_TEST_REQUEST_ID 0
#define FEATHERLOOM_RESEND_REQUEST_START_SEQUENCE 0
#define FEATHERLOOM_RESEND_REQUEST_END_SEQUENCE 1
#define FEATHERLOOM_REJECT_MESSAGE_REJECT_CODE 0
#define FEATHERLOOM_REJECT_REASON 1
#define FEATHERLOOM_REJECT_REFERENCE_MESSAGE_TYPE 2
#define FEATHERLOOM_REJECT_REFERENCE_FIELD_NAME 3
#define FEATHERLOOM_REJECT_REFERENCE_SEQUENCE_NUMBER 4
#define FEATHERLOOM_REJECT_CLIENT_ORDER_ID 5
#define FEATHERLOOM_SEQUENCE_RESET_GAP_FILL 0
#define FEATHERLOOM_SEQUENCE_RESET_NEW_SEQUENCE_NUMBER 1
#define FEATHERLOOM_LOGON_PASSWORD 0
#define FEATHERLOOM_LOGON_NEW_PASSWORD 1
#define FEATHERLOOM_LOGON_NEXT_EXPECTED_MESSAGE_SEQUENCE 2
#define FEATHERLOOM_LOGON_SESSION_STATUS 3
#define FEATHERLOOM_LOGON_TEXT 4
#define FEATHERLOOM_LOGON_TEST_MESSAGE_INDICATOR 5
#define FEATHERLOOM_LOGOUT_LOGOUT_TEXT 0
#define FEATHERLOOM_LOGOUT_SESSION_STATUS 1
#define FEATHERLOOM_LOOKUP_REQUEST_TYPE_OF_SERVICE 0
#define FEATHERLOOM_LOOKUP_REQUEST_PROTOCOL_TYPE 1
#define FEATHERLOOM_LOOKUP_RESPONSE_STATUS 0
#define FEATHERLOOM_LOOKUP_RESPONSE_LOOKUP_REJECT_CODE 1
#define FEATHERLOOM_LOOKUP_RESPONSE_REASON 2
#define FEATHERLOOM_LOOKUP_RESPONSE_PRIMARY_IP 3
#define FEATHERLOOM_LOOKUP_RESPONSE_PRIMARY_PORT 4
#define FEATHERLOOM_LOOKUP_RESPONSE_SECONDARY_IP 5
#define FEATHERLOOM_LOOKUP_RESPONSE_SECONDARY_PORT 6
#define FEATHERLOOM_BUSINESS_REJECT_BUSINESS_REJECT_CODE 0
#define FEATHERLOOM_BUSINESS_REJECT_REASON 1
#define FEATHERLOOM_BUSINESS_REJECT_REFERENCE_MESSAGE_TYPE 2
#define FEATHERLOOM_BUSINESS_REJECT_REFERENCE_FIELD_NAME 3
#define FEATHERLOOM_BUSINESS_REJECT_REFERENCE_SEQUENCE_NUMBER 4
#define FEATHERLOOM_BUSINESS_REJECT_BUSINESS_REJECT_REFERENCE_ID 5
#define FEATHERLOOM_EXECUTION_REPORT_CLIENT_ORDER_ID 0
#define FEATHERLOOM_EXECUTION_REPORT_SUBMITTING_BROKER_ID 1
#define FEATHERLOOM_EXECUTION_REPORT_SECURITY_ID 2
#define FEATHERLOOM_EXECUTION_REPORT_SECURITY_ID_SOURCE 3
#define FEATHERLOOM_EXECUTION_REPORT_SECURITY_EXCHANGE 4
#define FEATHERLOOM_EXECUTION_REPORT_BROKER_LOCATION_ID 5
#define FEATHERLOOM_EXECUTION_REPORT_TRANSACTION_TIME 6
#define FEATHERLOOM_EXECUTION_REPORT_SIDE 7
#define FEATHERLOOM_EXECUTION_REPORT_ORIGINAL_CLIENT_ORDER_ID 8
#define FEATHERLOOM_EXECUTION_REPORT_ORDER_ID 9
#define FEATHERLOOM_EXECUTION_REPORT_ORDER_TYPE 11
#define FEATHERLOOM_EXECUTION_REPORT_PRICE 12
#define FEATHERLOOM_EXECUTION_REPORT_ORDER_QUANTITY 13
#define FEATHERLOOM_EXECUTION_REPORT_TIME_IN_FORCE_TIF 14
#define FEATHERLOOM_EXECUTION_REPORT_POSITION_EFFECT 15
#define FEATHERLOOM_EXECUTION_REPORT_ORDER_RESTRICTIONS 16
#define FEATHERLOOM_EXECUTION_REPORT_MAX_PRICE_LEVELS 17
#define FEATHERLOOM_EXECUTION_REPORT_ORDER_CAPACITY 18
#define FEATHERLOOM_EXECUTION_REPORT_TEXT 19
#define FEATHERLOOM_EXECUTION_REPORT_REASON 20
#define FEATHERLOOM_EXECUTION_REPORT_EXECUTION_ID 21
#define FEATHERLOOM_EXECUTION_REPORT_ORDER_STATUS 22
#define FEATHERLOOM_EXECUTION_REPORT_EXEC_TYPE 23
#define FEATHERLOOM_EXECUTION_REPORT_CUMULATIVE_QUANTITY 24
#define FEATHERLOOM_EXECUTION_REPORT_LEAVES_QUANTITY 25
#define FEATHERLOOM_EXECUTION_REPORT_LOT_TYPE 27
#define FEATHERLOOM_EXECUTION_REPORT_EXEC_RESTATEMENT_REASON 28
#define FEATHERLOOM_EXECUTION_REPORT_MATCH_TYPE 30
#define FEATHERLOOM_EXECUTION_REPORT_COUNTERPARTY_BROKER_ID 31
#define FEATHERLOOM_EXECUTION_REPORT_EXECUTION_QUANTITY 32
#define FEATHERLOOM_EXECUTION_REPORT_EXECUTION_PRICE 33
#define FEATHERLOOM_EXECUTION_REPORT_REFERENCE_EXECUTION_ID 34
#define FEATHERLOOM_EXECUTION_REPORT_ORDER_CATEGORY 35
#define FEATHERLOOM_EXECUTION_REPORT_COPY_MESSAGE_INDICATOR 37
#define FEATHERLOOM_EXECUTION_REPORT_TRADE_MATCH_ID 38
#define FEATHERLOOM_EXECUTION_REPORT_EXCHANGE_TRADE_TYPE 39
#define FEATHERLOOM_EXECUTION_REPORT_AGGRESSOR_INDICATOR 42
#define FEATHERLOOM_EXECUTION_REPORT_SMP_ID 43
/* positions: end */

/*
 * Reading. Only the message at the front of the bytes is looked at.
 */

/*
 * A good message (refusal 0): its type, one of FEATHERLOOM_TYPE_.., its number and flags, and how many bytes it has. On a
 * refusal they are 0.
 */
typedef struct featherloom_reading {
    uint32_t refusal;
    uint32_t number;
    size_t besides;
    size_t length;
    uint8_t message_type;
    uint8_t possdup;
    uint8_t possresend;
} featherloom_reading;

/* A part of the caller's bytes: so many from `offset` on. On a refusal both are 0. */
typedef struct featherloom_part {
    uint32_t refusal;
    size_t besides;
    size_t offset;
    size_t length;
} featherloom_part;

enum { FEATHERLOOM_NUMBER = 1, FEATHERLOOM_DECIMAL = 2, FEATHERLOOM_TEXT = 3 };

/*
 * A number, or a Decimal: a count of hundred-millionths. `sort` says which, and the member of the other sort is 0. On a
 * refusal all three are 0.
 */
typedef struct featherloom_value {
    uint32_t refusal;
    uint32_t sort;
    size_t besides;
    uint64_t number;
    int64_t decimal;
} featherloom_value;

/* The message at the front; refusals 1 to 10. One pass for the checksum and one walk over the fields. */
featherloom_reading featherloom_read(const uint8_t *bytes, size_t count);

/* The Comp ID's characters, without its null; the presence map; the body. Refusals as for featherloom_read. */
featherloom_part featherloom_comp_id(const uint8_t *bytes, size_t count);
featherloom_part featherloom_map(const uint8_t *bytes, size_t count);
featherloom_part featherloom_body(const uint8_t *bytes, size_t count);

/* The number or Decimal at a position: the reader's refusals, then 7, 13, 14. */
featherloom_value featherloom_ask(const uint8_t *bytes, size_t count, size_t position);

/*
 * The characters of the text at a position, without its null: the reader's refusals, then 7, 13, 14. They are bytes from 32 to 126,
 * and in the fields Text and Reason from 128 to 255 too, handed on as they stand: a program that prints these two must know
 * what its terminal does with them.
 */
featherloom_part featherloom_text(const uint8_t *bytes, size_t count, size_t position);

/*
 * All fields in one call. Each set field takes five numbers of the list, in rising position; these are the places of the five.
 * What the list says of a position is what featherloom_ask or featherloom_text answers there.
 */
enum {
    FEATHERLOOM_FIELD_POSITION = 0,
    FEATHERLOOM_FIELD_SORT = 1,   /* FEATHERLOOM_NUMBER, FEATHERLOOM_DECIMAL or FEATHERLOOM_TEXT */
    FEATHERLOOM_FIELD_OFFSET = 2, /* where in the caller's bytes the value, or a text's first character, begins */
    FEATHERLOOM_FIELD_LENGTH = 3, /* how many bytes the value has, or how many characters the text */
    FEATHERLOOM_FIELD_VALUE = 4,  /* the number; a Decimal's 64 bits, which (int64_t) turns back into it; 0 of a text */
    FEATHERLOOM_A_FIELD = 5       /* how many numbers a field takes */
};

/* Room for every message's fields. With this much the fields need not be counted before they are laid. */
enum { FEATHERLOOM_FIELDS_ROOM = 320 };

/* The reading, and how many fields the list has; 0 on a refusal. */
typedef struct featherloom_listed {
    featherloom_reading reading;
    size_t fields;
} featherloom_listed;

/*
 * Reads the message as featherloom_read does, and lays all its fields into `numbers`, which has room for `room` numbers: the
 * reader's refusals, then 11 with the numbers needed. On a refusal the list is as it was, and what stands behind the laid
 * numbers always is.
 */
featherloom_listed featherloom_fields(const uint8_t *bytes, size_t count, uint64_t *numbers, size_t room);

/* CRC32C (RFC 3720) of the bytes, as it closes every message. */
uint32_t featherloom_crc32c(const uint8_t *bytes, size_t count);

/*
 * Writing.
 */

/* The message's type, one of FEATHERLOOM_TYPE_.., its flags and number. */
typedef struct featherloom_header {
    uint8_t message_type;
    uint8_t possdup;
    uint8_t possresend;
    uint32_t number;
} featherloom_header;

/* How many bytes were written at the front of the buffer. On a refusal it is 0, and the buffer is as it was. */
typedef struct featherloom_written {
    uint32_t refusal;
    size_t besides;
    size_t length;
} featherloom_written;

/* The longest message that can be written: a Logon with every field, each text full. docs/LAYOUT.md has those of all types. */
enum { FEATHERLOOM_LONGEST_WRITTEN = 1016 };

/*
 * Writes the message in plain form: header values, the Comp ID's characters (no null), a map of 32 bytes, and the fields
 * in wire form. Refusals 5 to 10, then 11, which a buffer of FEATHERLOOM_LONGEST_WRITTEN bytes never meets. `map` is never
 * NULL, and none of the three stands inside the buffer.
 */
featherloom_written featherloom_write(uint8_t *buffer, size_t room, featherloom_header header, const uint8_t *comp_id,
                                      size_t comp_id_count, const uint8_t map[32], const uint8_t *body,
                                      size_t body_count);

/* Room for every Decimal's text: -92233720368.54775808 has 21 characters. */
enum { FEATHERLOOM_DECIMAL_TEXT_MOST = 21 };

/*
 * Writes a Decimal, a count of hundred-millionths, as the shortest exact decimal text: 50000000 as 0.5, -100000000 as -1.
 * Nothing stands after its last character, no null either. Refusal 11.
 */
featherloom_written featherloom_decimal_text(uint8_t *buffer, size_t room, int64_t decimal);

/*
 * The session of one day. It is a value: give it to a call, keep the one that comes back. Every call checks it first, and
 * refuses with FEATHERLOOM_NOT_A_SESSION a session that no day has. One that passes: the state is 0, 1 or 2; the Comp
 * ID has 1 to 11 characters and then zeros; E is at least 1; O is at least 1 if Down, else 2; M and the repeats are 0, or the
 * session is Live, M is at least 2 and at least E, there are at most 2 repeats, and O is at least 3 more than they are.
 *
 * What a call gives back may be kept, beside a refusal too. After a Stop it is a session like any other: it is Down, and
 * Connect may be called on it. Where a call changes nothing it is the session that was given. Only featherloom_fresh and
 * featherloom_saved give, on a refusal, one that no day has.
 */

enum { FEATHERLOOM_STATE_DOWN = 0, FEATHERLOOM_STATE_WAITING = 1, FEATHERLOOM_STATE_LIVE = 2 };

typedef struct featherloom_session {
    uint32_t state;
    uint8_t comp_id[12]; /* ours, zeros after it */
    uint32_t expected;   /* E, the number expected next */
    uint32_t own;        /* O, our next number */
    uint32_t ahead;      /* M, the number ahead that made us ask; 0 for none */
    uint32_t repeats;    /* how often we have asked again from this E while M stands: 0, 1 or 2 */
} featherloom_session;

/* A session; on a refusal of fresh or saved it is one that every call refuses, and of drop the one that was given. */
typedef struct featherloom_made {
    uint32_t refusal;
    featherloom_session session;
} featherloom_made;

/*
 * The Logon to send has this number and this Next Expected: featherloom_put_logon makes its bytes from the new session. On a
 * refusal both are 0. `besides` is always 0: the one refusal that has a position, 9, has position 0.
 */
typedef struct featherloom_connected {
    uint32_t refusal;
    featherloom_session session;
    uint32_t number;
    uint32_t next;
    size_t besides;
} featherloom_connected;

enum {
    FEATHERLOOM_SEND_NONE = 0,
    FEATHERLOOM_SEND_HEARTBEAT = 1,      /* first: the ID that it answers, at most 65,535 */
    FEATHERLOOM_SEND_LOGOUT = 2,
    FEATHERLOOM_SEND_GAP_FILL = 3,       /* number: the first number it covers, at least 1; first: New Sequence Number, above it */
    FEATHERLOOM_SEND_RESEND_REQUEST = 4, /* first: Start Sequence, 1 to 4,294,967,294; second: End Sequence, always 0: all */
    FEATHERLOOM_SEND_TEST_REQUEST = 5,   /* first: its ID, which is its own number modulo 65,536; a tick gives it, no step */
    FEATHERLOOM_SEND_BARE_HEARTBEAT = 6  /* without an ID; a tick gives it, no step */
};

/*
 * A message to send: featherloom_put makes its bytes. All but a gap fill have one of our numbers, 2 to 4,294,967,294. Members of
 * which nothing is said are 0.
 */
typedef struct featherloom_send {
    uint32_t kind;
    uint32_t number;
    uint32_t first;
    uint32_t second;
} featherloom_send;

enum {
    FEATHERLOOM_ROW_NONE = 0,
    FEATHERLOOM_ROW_BUSINESS = 1, /* hand the message up */
    FEATHERLOOM_ROW_SESSION = 2,
    FEATHERLOOM_ROW_FILLED = 3,
    FEATHERLOOM_ROW_RESET = 4
};

/* An account row: the first and the last number that it takes. */
typedef struct featherloom_row {
    uint32_t kind;
    uint32_t first;
    uint32_t last;
} featherloom_row;

/*
 * A step's answer: refusal 0, or why the message changed nothing (1, 4, 20, 90) or the session stopped (the others); the
 * new session; two messages to send, in order; a row; and how many bytes the message has that the step looked at: 0 for
 * 1, 2, 3, 20 and 90. After 1, come again with more bytes. A Down session answers 20 before the bytes are looked at.
 *
 * `besides` is what the reader returns: for 1 how many bytes are needed in all, for 4 the Length, for 7, 8 and 9 the position,
 * for 10 how many bytes are left over, else 0.
 */
typedef struct featherloom_stepped {
    uint32_t refusal;
    featherloom_session session;
    featherloom_send first;
    featherloom_send second;
    featherloom_row row;
    size_t used;
    size_t besides;
} featherloom_stepped;

/* A fresh day for our Comp ID (characters, no null): Down, E = O = 1. Refusal 6. */
featherloom_made featherloom_fresh(const uint8_t *comp_id, size_t count);

/* A day that goes on from saved E and O: Down. Refusals 23, 6. */
featherloom_made featherloom_saved(const uint8_t *comp_id, size_t count, uint32_t expected, uint32_t own);

/* Connect, with the password ready encrypted: Waiting. Refusals 90, 21, 22, 9; each gives the session back as it was. */
featherloom_connected featherloom_connect(featherloom_session session, const uint8_t *password, size_t count);

/* The line is gone: Down; E and O are kept. Refusal 90. */
featherloom_made featherloom_drop(featherloom_session session);

/* One step on the message at the front of the bytes. */
featherloom_stepped featherloom_step(featherloom_session session, const uint8_t *bytes, size_t count);

/*
 * Many messages in one call, for a read that brings many: the messages stand back to back, and each is stepped on in turn, as
 * featherloom_step does. The call ends in one of three ways.
 */
enum {
    FEATHERLOOM_ENDED_SHORT = 1,  /* no whole message is left: come again with more bytes */
    FEATHERLOOM_ENDED_DOWN = 2,   /* the last step done left the session Down */
    FEATHERLOOM_ENDED_NO_SLOT = 3 /* the next step's row or messages to send find no free slot, so it is not done */
};

/* An account row, and where in the caller's bytes its message begins and how long it is. */
typedef struct featherloom_placed {
    uint32_t kind; /* FEATHERLOOM_ROW_BUSINESS, .._SESSION, .._FILLED or .._RESET */
    uint32_t first;
    uint32_t last;
    uint32_t offset;
    uint32_t length;
} featherloom_placed;

/* How many numbers a row and a message to send take in their lists. */
enum { FEATHERLOOM_A_ROW = 5, FEATHERLOOM_A_SEND = 4 };

/*
 * What was done. On a refusal (90, 20, 11) nothing is: the session is as it was, `used` and `besides` are 0 and no list is
 * written. With 20 the call has ended as Down; with 11 as having no slot, and `rows` and `sends` say how many slots are needed;
 * with 90 `ended` is 0.
 *
 * `besides` belongs to the step that ended the call. Ended as Short: how many bytes the message needs, counted from its first.
 * Ended as Down: what the reader returned besides `code`, as in featherloom_stepped. Else 0.
 */
typedef struct featherloom_done {
    uint32_t refusal;
    featherloom_session session;
    size_t used;    /* bytes of the messages stepped on, each its Length; one that meets 2 or 3 counts none */
    size_t rows;    /* rows written, at the front of their list */
    size_t sends;   /* messages to send written, at the front of theirs, in order; none is FEATHERLOOM_SEND_NONE */
    uint32_t ended;
    uint32_t code;  /* ended as Down: what that step answered, 20 if the session was Down before; else 0 */
    size_t besides;
} featherloom_done;

/*
 * The lists are numbers, with room for so many: FEATHERLOOM_A_ROW for each row and FEATHERLOOM_A_SEND for each message to send,
 * as the members of their structs stand. Refusals 90, 20; then 11 where not even one row and two messages to send fit. A step
 * needs slots for what it gives, and no more. A message whose offset is above 4,294,967,295 finds no slot. What stands in a list
 * behind what was written is as it was. Where no slot was left, empty the lists and call again with the new session and the bytes
 * from `used` on. A message that stopped the session has no row and may send nothing: `ended`, `code` and `besides` tell of it.
 */
featherloom_done featherloom_steps_flat(featherloom_session session, const uint8_t *bytes, size_t count, uint32_t *rows,
                                        size_t row_room, uint32_t *sends, size_t send_room);

/* The same over lists of structs: so many slots for rows, so many for messages to send. */
static inline featherloom_done featherloom_steps(featherloom_session session, const uint8_t *bytes, size_t count,
                                                 featherloom_placed *rows, size_t row_slots, featherloom_send *sends,
                                                 size_t send_slots) {
    return featherloom_steps_flat(session, bytes, count, (uint32_t *)rows, FEATHERLOOM_A_ROW * row_slots,
                                  (uint32_t *)sends, FEATHERLOOM_A_SEND * send_slots);
}

/*
 * A message to send, as bytes for the session's Comp ID; none for FEATHERLOOM_SEND_NONE. Refusals in this order: 90; 91 for
 * every value that neither a step of any session nor a tick of any line can give, and for no other; 11 with the length needed.
 */
featherloom_written featherloom_put(uint8_t *buffer, size_t room, featherloom_session session, featherloom_send send);

/*
 * Connect's Logon, as bytes, from the session that Connect gave: its number is O - 1 and its Next Expected is E. The password is
 * the one that Connect took. Refusals in this order: 90; 91 where the session is not Waiting, so that it has not just connected;
 * 9 for a password that the text writer does not take (more than 449 characters, or one outside 32 to 126); 11 with the length
 * needed.
 */
featherloom_written featherloom_put_logon(uint8_t *buffer, size_t room, featherloom_session session, const uint8_t *password,
                                          size_t count);

/*
 * A line with a clock: a session that is told the time at each call, so that silence is seen. It is a value, as a session is,
 * and its calls are the session's; one call more, featherloom_line_tick, acts by the time alone.
 *
 * Times are milliseconds of any clock of the caller's, 64 bits wide. A time earlier than the latest given counts as that latest,
 * and every call's time counts, whatever the call answers; of a refused call nothing else does. FEATHERLOOM_NOT_A_SESSION alone
 * gives the line back as it was, its time too. Only a Live session is timed, and both waits start when Live begins.
 *
 * Every call checks the line first. One that passes: its session does; the interval is 1 to 60; `tested` is 0 or 1; `sent` and
 * `heard` are at most `now`; and `tested`, `sent` and `heard` are 0 unless the session is Live.
 */
typedef struct featherloom_line {
    featherloom_session session;
    uint32_t interval; /* seconds, 1 to 60 */
    uint32_t tested;   /* 1 once this silence has had its Test Request */
    uint64_t now;      /* the latest time given; 0 before the first */
    uint64_t sent;     /* when a message was last to be sent, or Live began; 0 unless Live */
    uint64_t heard;    /* when a message whose checksum held was last stepped on, or Live began; 0 unless Live */
} featherloom_line;

/* A line; on a refusal of fresh or saved it is one that every call refuses, and of drop the one that was given. */
typedef struct featherloom_line_made {
    uint32_t refusal;
    featherloom_line line;
} featherloom_line_made;

/*
 * As featherloom_connected, but that a refusal other than 90 takes the time. featherloom_put_logon makes the Logon's bytes from
 * the line's session.
 */
typedef struct featherloom_line_connected {
    uint32_t refusal;
    featherloom_line line;
    uint32_t number;
    uint32_t next;
    size_t besides;
} featherloom_line_connected;

/* As featherloom_stepped, but that an answer other than 90 takes the time. */
typedef struct featherloom_line_stepped {
    uint32_t refusal;
    featherloom_line line;
    featherloom_send first;
    featherloom_send second;
    featherloom_row row;
    size_t used;
    size_t besides;
} featherloom_line_stepped;

/* As featherloom_done, but that a refusal other than 90 takes the time. */
typedef struct featherloom_line_done {
    uint32_t refusal;
    featherloom_line line;
    size_t used;
    size_t rows;
    size_t sends;
    uint32_t ended;
    uint32_t code;
    size_t besides;
} featherloom_line_done;

enum {
    FEATHERLOOM_ACT_NONE = 0,
    FEATHERLOOM_ACT_DOWN = 1, /* three intervals without hearing: Down, as by featherloom_line_drop; close the connection */
    FEATHERLOOM_ACT_TEST_REQUEST = 2,
    FEATHERLOOM_ACT_HEARTBEAT = 3
};

/*
 * What a tick did, and the message to send: a Test Request or a Heartbeat without ID, else FEATHERLOOM_SEND_NONE. Refusal 22: one
 * of them is due while our numbers are used up; the line is Down, and nothing is sent: close the connection.
 */
typedef struct featherloom_ticked {
    uint32_t refusal;
    uint32_t act;
    featherloom_line line;
    featherloom_send send;
} featherloom_ticked;

/* Whether a tick will be due (1) or not (0), and when; the time is 0 where none is due. */
typedef struct featherloom_next_tick {
    uint32_t refusal;
    uint32_t due;
    uint64_t time;
} featherloom_next_tick;

/* A fresh day with an interval in seconds. Refusals 6, 24. */
featherloom_line_made featherloom_line_fresh(const uint8_t *comp_id, size_t count, uint32_t interval);

/* A saved day with an interval in seconds. Refusals 23, 6, 24. */
featherloom_line_made featherloom_line_saved(const uint8_t *comp_id, size_t count, uint32_t expected, uint32_t own,
                                             uint32_t interval);

/*
 * The session's calls at a time: what each does to the session, and what it answers, is what the session's own call does, with the
 * same refusals in the same order.
 */
featherloom_line_connected featherloom_line_connect(featherloom_line line, uint64_t time, const uint8_t *password, size_t count);
featherloom_line_made featherloom_line_drop(featherloom_line line, uint64_t time);
featherloom_line_stepped featherloom_line_step(featherloom_line line, uint64_t time, const uint8_t *bytes, size_t count);
featherloom_line_done featherloom_line_steps_flat(featherloom_line line, uint64_t time, const uint8_t *bytes, size_t count,
                                                  uint32_t *rows, size_t row_room, uint32_t *sends, size_t send_room);

/* The same over lists of structs, as featherloom_steps. */
static inline featherloom_line_done featherloom_line_steps(featherloom_line line, uint64_t time, const uint8_t *bytes,
                                                           size_t count, featherloom_placed *rows, size_t row_slots,
                                                           featherloom_send *sends, size_t send_slots) {
    return featherloom_line_steps_flat(line, time, bytes, count, (uint32_t *)rows, FEATHERLOOM_A_ROW * row_slots,
                                       (uint32_t *)sends, FEATHERLOOM_A_SEND * send_slots);
}

/*
 * The call that acts, by the time alone: at most one of three, in this order, each due once its time is reached.
 * - Down: three intervals have passed without hearing. Nothing is sent, and E and O are kept.
 * - A Test Request: two have passed without hearing, and this silence has had none.
 * - A Heartbeat without ID: one has passed without sending.
 * A line that is not Live is told the time, and nothing else changes. A second tick at the same time does nothing. Refusals 90,
 * 22.
 */
featherloom_ticked featherloom_line_tick(featherloom_line line, uint64_t time);

/*
 * The earliest time, not before the latest given, at which a tick would act, or answer 22, if nothing else is called before. None
 * is due where the line is not Live, or where it would be past 64 bits. Refusal 90.
 */
featherloom_next_tick featherloom_line_next_tick(featherloom_line line);

/*
 * The resend plan of a gateway, for a test bench.
 */

/* How many pairs were written; with FEATHERLOOM_NO_ROOM how many are needed; with FEATHERLOOM_BAD_REQUEST 0. */
typedef struct featherloom_planned {
    uint32_t refusal;
    size_t pairs;
} featherloom_planned;

/*
 * A list of at most 65,536 bytes says for numbers 1, 2, .. whether each is business (1) or session (0). For Start and End
 * (0: the last) the plan is written as pairs of numbers, (n, 0) for a business number and (first, New) for a gap fill, into
 * `numbers`, which has room for `room` numbers. Refusals 40, 11.
 */
featherloom_planned featherloom_plan(const uint8_t *list, size_t count, uint32_t start, uint32_t end,
                                     uint32_t *numbers, size_t room);

/*
 * Two plans as pairs of numbers, for s to m and for m + 1 to e, joined to the plan for s to e. Where the last pair of the one is
 * a gap fill (a, b) and the first of the other a gap fill (b, c), with a below b and b below c, the two touch, and (a, c) stands
 * in their place. Every other pair is written as it is given, whatever numbers it has. `numbers` has room for `room` numbers.
 * Refusals in this order: 40 where either has an odd count of numbers; 11.
 */
featherloom_planned featherloom_join(const uint32_t *one, size_t one_count, const uint32_t *other, size_t other_count,
                                     uint32_t *numbers, size_t room);

#ifdef __cplusplus
}
#define FEATHERLOOM_ASSERT(true_here) static_assert(true_here, #true_here)
#else
#define FEATHERLOOM_ASSERT(true_here) _Static_assert(true_here, #true_here)
#endif

/* The library is built for these layouts. */
FEATHERLOOM_ASSERT(sizeof(size_t) == 8);
FEATHERLOOM_ASSERT(sizeof(featherloom_reading) == 32);
FEATHERLOOM_ASSERT(offsetof(featherloom_reading, message_type) == 24);
FEATHERLOOM_ASSERT(sizeof(featherloom_part) == 32);
FEATHERLOOM_ASSERT(sizeof(featherloom_value) == 32);
FEATHERLOOM_ASSERT(sizeof(featherloom_listed) == 40);
FEATHERLOOM_ASSERT(sizeof(featherloom_header) == 8);
FEATHERLOOM_ASSERT(offsetof(featherloom_header, number) == 4);
FEATHERLOOM_ASSERT(sizeof(featherloom_written) == 24);
FEATHERLOOM_ASSERT(sizeof(featherloom_session) == 32);
FEATHERLOOM_ASSERT(sizeof(featherloom_made) == 36);
FEATHERLOOM_ASSERT(sizeof(featherloom_connected) == 56);
FEATHERLOOM_ASSERT(offsetof(featherloom_connected, besides) == 48);
FEATHERLOOM_ASSERT(sizeof(featherloom_send) == 16);
FEATHERLOOM_ASSERT(sizeof(featherloom_row) == 12);
FEATHERLOOM_ASSERT(sizeof(featherloom_stepped) == 96);
FEATHERLOOM_ASSERT(offsetof(featherloom_stepped, first) == 36);
FEATHERLOOM_ASSERT(offsetof(featherloom_stepped, used) == 80);
FEATHERLOOM_ASSERT(offsetof(featherloom_stepped, besides) == 88);
FEATHERLOOM_ASSERT(sizeof(featherloom_placed) == 4 * FEATHERLOOM_A_ROW);
FEATHERLOOM_ASSERT(sizeof(featherloom_send) == 4 * FEATHERLOOM_A_SEND);
FEATHERLOOM_ASSERT(sizeof(featherloom_done) == 80);
FEATHERLOOM_ASSERT(offsetof(featherloom_done, ended) == 64);
FEATHERLOOM_ASSERT(offsetof(featherloom_done, besides) == 72);
FEATHERLOOM_ASSERT(sizeof(featherloom_line) == 64);
FEATHERLOOM_ASSERT(offsetof(featherloom_line, now) == 40);
FEATHERLOOM_ASSERT(sizeof(featherloom_line_made) == 72);
FEATHERLOOM_ASSERT(sizeof(featherloom_line_connected) == 88);
FEATHERLOOM_ASSERT(sizeof(featherloom_line_stepped) == 136);
FEATHERLOOM_ASSERT(offsetof(featherloom_line_stepped, used) == 120);
FEATHERLOOM_ASSERT(sizeof(featherloom_line_done) == 112);
FEATHERLOOM_ASSERT(offsetof(featherloom_line_done, ended) == 96);
FEATHERLOOM_ASSERT(sizeof(featherloom_ticked) == 88);
FEATHERLOOM_ASSERT(sizeof(featherloom_next_tick) == 16);
FEATHERLOOM_ASSERT(sizeof(featherloom_planned) == 16);
#undef FEATHERLOOM_ASSERT

#endif
