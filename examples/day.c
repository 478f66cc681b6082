/*
 * A recorder's day over the C interface: connect, follow the bytes of a recorded connection, send what the session asks for,
 * see by the clock when the line has gone silent, and dial again.
 *
 *     day CAPTURE..        a file for each connection, the bytes as the gateway sent them
 *
 * Prints a line an account row, of each execution report the order and its filled and open shares, what would be sent, how
 * each call ended, with what is returned besides: the bytes that the next message needs, or where a message that stopped the
 * session is wrong; and what each tick did. A real recorder reads a socket in place of the files and writes what is sent to it.
 * It asks its own clock for the time, and sleeps until bytes come or the next tick is due; here nothing sleeps, and the clock is
 * a number that is set forward.
 */
#include "featherloom.h"

#include <inttypes.h>
#include <stdio.h>
#include <stdlib.h>
#include <string.h>

static const char COMP_ID[] = "CO99999901";
static const char PASSWORD[] = "encrypted elsewhere";

/* The line's interval, in seconds: a Heartbeat after one, a Test Request after two, Down after three. */
enum { INTERVAL = 20 };

/* The time, in milliseconds. A connection's bytes come all at once, a second after it was dialled. */
static uint64_t clock_time = 0;
enum { A_SECOND = 1000 };

static const uint8_t *bytes_of(const char *text) { return (const uint8_t *)text; }

/* The numbers of the field at this position, or NULL where the message has none there. */
static const uint64_t *field_at(const uint64_t *numbers, size_t fields, uint64_t position) {
    for (size_t i = 0; i < fields; i++) {
        const uint64_t *field = numbers + FEATHERLOOM_A_FIELD * i;
        if (field[FEATHERLOOM_FIELD_POSITION] == position)
            return field;
    }
    return NULL;
}

static void print_text(const char *label, const uint8_t *bytes, const uint64_t *field) {
    if (field && field[FEATHERLOOM_FIELD_SORT] == FEATHERLOOM_TEXT)
        printf(" %s=%.*s", label, (int)field[FEATHERLOOM_FIELD_LENGTH], (const char *)bytes + field[FEATHERLOOM_FIELD_OFFSET]);
    else
        printf(" %s=none", label);
}

static void print_decimal(const char *label, const uint64_t *field) {
    if (field && field[FEATHERLOOM_FIELD_SORT] == FEATHERLOOM_DECIMAL) {
        uint8_t text[FEATHERLOOM_DECIMAL_TEXT_MOST];
        featherloom_written written = featherloom_decimal_text(text, sizeof text, (int64_t)field[FEATHERLOOM_FIELD_VALUE]);
        printf(" %s=%.*s", label, (int)written.length, (const char *)text);
    } else {
        printf(" %s=none", label);
    }
}

/* One call reads the message and gives the places of all its fields. The other business messages tell of no order. */
static void print_report(const uint8_t *bytes, size_t count) {
    uint64_t numbers[FEATHERLOOM_FIELDS_ROOM];
    featherloom_listed listed = featherloom_fields(bytes, count, numbers, FEATHERLOOM_FIELDS_ROOM);
    size_t fields = listed.fields;
    if (listed.reading.message_type != FEATHERLOOM_TYPE_EXECUTION_REPORT)
        return;
    printf(" ");
    print_text("order", bytes, field_at(numbers, fields, FEATHERLOOM_EXECUTION_REPORT_ORDER_ID));
    print_decimal("filled", field_at(numbers, fields, FEATHERLOOM_EXECUTION_REPORT_CUMULATIVE_QUANTITY));
    print_decimal("open", field_at(numbers, fields, FEATHERLOOM_EXECUTION_REPORT_LEAVES_QUANTITY));
    printf("\n");
}

/* Lays a message to send down as bytes, and reads it back: what the gateway would read. */
static void send_it(featherloom_session session, featherloom_send send) {
    uint8_t buffer[FEATHERLOOM_LONGEST_WRITTEN];
    featherloom_written written = featherloom_put(buffer, sizeof buffer, session, send);
    if (written.refusal != FEATHERLOOM_OK) {
        printf("  send refused=%u besides=%zu\n", written.refusal, written.besides);
        return;
    }
    featherloom_reading reading = featherloom_read(buffer, written.length);
    printf("  send type=%u number=%u possdup=%u length=%zu refusal=%u\n", reading.message_type, reading.number, reading.possdup,
           reading.length, reading.refusal);
}

/* The line that comes back may be kept even where Connect refuses: it has taken the time, and is else the one that was given. */
static featherloom_line connect_it(featherloom_line line) {
    uint8_t buffer[FEATHERLOOM_LONGEST_WRITTEN];
    featherloom_line_connected connected = featherloom_line_connect(line, clock_time, bytes_of(PASSWORD), strlen(PASSWORD));
    if (connected.refusal != FEATHERLOOM_OK) {
        printf("connect refused=%u\n", connected.refusal);
        return connected.line;
    }
    featherloom_written written =
        featherloom_put_logon(buffer, sizeof buffer, connected.line.session, bytes_of(PASSWORD), strlen(PASSWORD));
    if (written.refusal != FEATHERLOOM_OK)
        printf("logon refused=%u besides=%zu\n", written.refusal, written.besides);
    else
        printf("time=%" PRIu64 " connect number=%u next=%u length=%zu\n", clock_time, connected.number, connected.next,
               written.length);
    return connected.line;
}

/* Nothing comes any more: ticks, each when it is due, until the line is Down. A line that is not Live has none, and is dropped. */
static featherloom_line fall_silent(featherloom_line line) {
    static const char *const acts[] = {"none", "down", "test request", "heartbeat"};
    for (;;) {
        featherloom_next_tick next = featherloom_line_next_tick(line);
        if (next.refusal != FEATHERLOOM_OK || !next.due)
            return featherloom_line_drop(line, clock_time).line;
        clock_time = next.time;
        featherloom_ticked ticked = featherloom_line_tick(line, clock_time);
        line = ticked.line;
        printf("time=%" PRIu64 " tick=%s refusal=%u\n", clock_time, acts[ticked.act], ticked.refusal);
        if (ticked.send.kind != FEATHERLOOM_SEND_NONE)
            send_it(line.session, ticked.send);
    }
}

/* Small lists, so that this day fills them: a recorder takes as many slots as a read may bring rows. */
enum { ROWS = 4, SENDS = 2 };

/* Follows the bytes of one connection, all that are there in one call, until they end or the session is Down. */
static featherloom_line follow(featherloom_line line, const uint8_t *bytes, size_t count) {
    static const char *const sorts[] = {"none", "business", "session", "filled", "reset"};
    static const char *const ends[] = {"not begun", "short", "down", "no slot"};
    size_t at = 0;
    for (;;) {
        featherloom_placed rows[ROWS];
        featherloom_send sends[SENDS];
        featherloom_line_done done = featherloom_line_steps(line, clock_time, bytes + at, count - at, rows, ROWS, sends, SENDS);
        line = done.line;
        for (size_t i = 0; i < done.rows; i++) {
            printf("at=%zu row=%s first=%u last=%u\n", at + rows[i].offset, sorts[rows[i].kind], rows[i].first, rows[i].last);
            if (rows[i].kind == FEATHERLOOM_ROW_BUSINESS)
                print_report(bytes + at + rows[i].offset, rows[i].length);
        }
        for (size_t i = 0; i < done.sends; i++)
            send_it(line.session, sends[i]);
        at += done.used;
        printf("at=%zu refusal=%u ended=%s code=%u besides=%zu next=%u\n", at, done.refusal, ends[done.ended], done.code,
               done.besides, line.session.expected);
        if (done.ended == FEATHERLOOM_ENDED_SHORT)
            return fall_silent(line); /* no more bytes will come, but only the clock can tell */
        if (done.ended != FEATHERLOOM_ENDED_NO_SLOT || done.refusal != FEATHERLOOM_OK)
            return line;
        /* The lists were full. What is left is for the next call. */
    }
}

/* A capture, in memory of exactly its size, so that a sanitizer sees any step past its end. */
static uint8_t *load(const char *name, size_t *count) {
    FILE *file = fopen(name, "rb");
    if (!file || fseek(file, 0, SEEK_END) != 0)
        return NULL;
    long size = ftell(file);
    rewind(file);
    uint8_t *bytes = size < 0 ? NULL : malloc(size ? (size_t)size : 1);
    *count = bytes ? fread(bytes, 1, (size_t)size, file) : 0;
    fclose(file);
    return bytes;
}

int main(int count, char **names) {
    if (count < 2) {
        fprintf(stderr, "usage: day CAPTURE..\n");
        return 2;
    }
    if (featherloom_version() != FEATHERLOOM_VERSION) {
        fprintf(stderr, "day: compiled for version %d, linked with %u\n", FEATHERLOOM_VERSION, featherloom_version());
        return 1;
    }
    featherloom_line_made made = featherloom_line_fresh(bytes_of(COMP_ID), strlen(COMP_ID), INTERVAL);
    if (made.refusal != FEATHERLOOM_OK) {
        fprintf(stderr, "day: Comp ID or interval refused=%u\n", made.refusal);
        return 1;
    }
    featherloom_line line = made.line;
    for (int i = 1; i < count; i++) {
        size_t size = 0;
        uint8_t *bytes = load(names[i], &size);
        if (!bytes) {
            fprintf(stderr, "day: %s cannot be read\n", names[i]);
            return 1;
        }
        line = connect_it(line);
        clock_time += A_SECOND;
        line = follow(line, bytes, size);
        free(bytes);
    }
    printf("time=%" PRIu64 " end state=%u next=%u own=%u ahead=%u\n", clock_time, line.session.state, line.session.expected,
           line.session.own, line.session.ahead);

    /* A line that no day has is refused, and comes back as it was. */
    line.session.state = 7;
    featherloom_line_made refused = featherloom_line_drop(line, clock_time);
    printf("no line: refusal=%u state=%u\n", refused.refusal, refused.line.session.state);
    return refused.refusal == FEATHERLOOM_NOT_A_SESSION ? 0 : 1;
}
