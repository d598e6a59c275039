/* Holds c/include/savorylatch.h to the library: the record's extent, every field's place, the sizes of the buffers, some reasons.
 * Prints what differs; exit status 0: nothing does. */
#include "savorylatch.h"

#include <stdio.h>
#include <string.h>

#define DEVICE 0x1122334455667788u
#define MARGIN 1024
#define COUNT(array) (sizeof(array) / sizeof(array)[0])

static int failed;

static void expect(int fact, const char *what) {
    if (!fact) {
        printf("layout: %s\n", what);
        failed = 1;
    }
}

/* ---- the bytes of the record that are fields, and not padding */

static savorylatch_agent shape;
static uint8_t used[sizeof shape];

#define USE(field) memset(used + ((uint8_t *)&(field) - (uint8_t *)&shape), 1, sizeof(field))

static void find_used(void) {
    USE(shape.device);
    for (size_t k = 0; k < COUNT(shape.streams.streams); k++) {
        savorylatch_stream *s = &shape.streams.streams[k];
        USE(s->id), USE(s->phase), USE(s->role);
    }
    USE(shape.streams.marks);
    for (size_t k = 0; k < COUNT(shape.rows.rows); k++) {
        savorylatch_row *r = &shape.rows.rows[k];
        USE(r->table), USE(r->size), USE(r->owner), USE(r->field_count), USE(r->fields), USE(r->action_count);
        for (size_t j = 0; j < COUNT(r->actions); j++) USE(r->actions[j].id), USE(r->actions[j].count), USE(r->actions[j].widths);
    }
    USE(shape.rows.count);
    USE(shape.count);
}

static int same(const savorylatch_agent *a, const savorylatch_agent *b) {
    for (size_t i = 0; i < sizeof shape; i++)
        if (used[i] && ((const uint8_t *)a)[i] != ((const uint8_t *)b)[i]) {
            printf("layout: byte %zu of the record differs\n", i);
            return 0;
        }
    return 1;
}

/* ---- frames */

static uint8_t frame[SAVORYLATCH_FRAME + 1], store[SAVORYLATCH_STORE], answer[SAVORYLATCH_ANSWER];
static size_t length;

static void put(int bytes, uint64_t x) {
    while (bytes-- > 0) frame[length++] = bytes < 8 ? (uint8_t)(x >> 8 * bytes) : 0;
}

static void start(uint8_t command) {
    length = 0;
    put(1, command);
}

/* the election id of a role's primary, in numbers, so that the header's type does not come between */
static uint64_t high(uint8_t role) { return 0x0102030405060708u + role * 0x1010101010101010u; }
static uint64_t low(uint8_t role) { return 0x090a0b0c0d0e0f10u + role * 0x1010101010101010u; }

static void put_head(uint8_t role) {
    put(8, DEVICE), put(1, role), put(1, 1), put(8, high(role)), put(8, low(role));
}

/* a big-endian number of the record */
static void set(uint8_t *to, int bytes, uint32_t x) {
    while (bytes-- > 0) *to++ = (uint8_t)(x >> 8 * bytes);
}
#define SET(field, x) set(field, COUNT(field), x)

static uint32_t get(const uint8_t *from, size_t bytes) {
    uint32_t x = 0;
    while (bytes-- > 0) x = x << 8 | *from++;
    return x;
}
#define GET(field) get(field, COUNT(field))

static void put_row(const savorylatch_row *r) {
    put(4, GET(r->table)), put(1, r->owner), put(2, GET(r->size)), put(1, r->field_count);
    for (size_t k = 0; k < COUNT(r->fields); k++) put(1, r->fields[k].kind), put(1, r->fields[k].width);
    put(1, r->action_count);
    for (size_t k = 0; k < COUNT(r->actions); k++) {
        put(4, GET(r->actions[k].id)), put(1, r->actions[k].count);
        for (size_t j = 0; j < COUNT(r->actions[k].widths); j++) put(1, r->actions[k].widths[j]);
    }
}

/* INSERT into the first row: one exact value, the other fields omitted, priority 1; its first action, with two values of one byte. */
static void put_insert(const savorylatch_row *r, uint8_t value) {
    put(1, 1), put(4, GET(r->table)), put(4, 1);
    put(1, 1), put(1, 1), put(1, value), put(15, 0), put(17, 0), put(3 * 35, 0);
    put(4, GET(r->actions[0].id)), put(1, 1), put(1, value), put(15, 0), put(1, 1), put(1, value), put(15, 0), put(2 * 17, 0);
}

static uint8_t call(savorylatch_agent *a) {
    return savorylatch_call(a, frame, length, store, sizeof store, answer, sizeof answer);
}

/* the frame is answered with this reason, status code and number of records */
static void answered(savorylatch_agent *a, const char *what, uint8_t reason, uint8_t status, int records) {
    uint8_t returned = call(a);
    if (returned != reason || answer[0] != reason || answer[1] != status || answer[2] * 256 + answer[3] != records) {
        printf("layout: %s: returned %d, answered %d %d %d\n", what, returned, answer[0], answer[1], answer[2] * 256 + answer[3]);
        failed = 1;
    }
}

/* ---- what is looked at */

/* A fresh record fills the header's struct: every field is written, whatever was there, and no byte outside. */
static void extent(void) {
    static struct {
        _Alignas(savorylatch_agent) uint8_t before[MARGIN];
        savorylatch_agent agent;
        uint8_t after[MARGIN];
    } at[2];
    for (int k = 0; k < 2; k++) {
        memset(&at[k], k ? 0x5a : 0xa5, sizeof at[k]);
        savorylatch_new(&at[k].agent, DEVICE);
        for (int i = 0; i < MARGIN; i++)
            if (at[k].before[i] != (k ? 0x5a : 0xa5) || at[k].after[i] != (k ? 0x5a : 0xa5)) {
                expect(0, "savorylatch_new writes outside the record");
                break;
            }
    }
    expect(same(&at[0].agent, &at[1].agent), "savorylatch_new leaves a field as it was");
    expect(at[0].agent.device == DEVICE, "device after savorylatch_new");
}

/* Calls that fill the record, held to the same record filled through the header: a value of its own in each field. */
static void places(void) {
    static savorylatch_agent a, want;
    const savorylatch_election_id first = {.high = high(0), .low = low(0)}, second = {.high = high(5), .low = low(5)};
    savorylatch_new(&a, DEVICE);
    want.device = DEVICE;
    expect(same(&a, &want), "a fresh record");

    start(1), put(1, 3), answered(&a, "OPEN", SAVORYLATCH_REASON_DONE, SAVORYLATCH_STATUS_OK, 0);
    want.streams.streams[3].phase = SAVORYLATCH_PHASE_OPEN;
    expect(same(&a, &want), "an open stream");

    start(3), put(1, 3), put_head(0), answered(&a, "ARBITRATE", SAVORYLATCH_REASON_DONE, SAVORYLATCH_STATUS_OK, 1);
    want.streams.streams[3] = (savorylatch_stream){.id = first, .phase = SAVORYLATCH_PHASE_BOUND, .role = 0};
    want.streams.marks[0] = first;
    expect(same(&a, &want), "a bound stream and a mark");

    start(1), put(1, 30), answered(&a, "OPEN", SAVORYLATCH_REASON_DONE, SAVORYLATCH_STATUS_OK, 0);
    start(3), put(1, 30), put_head(5), answered(&a, "ARBITRATE", SAVORYLATCH_REASON_DONE, SAVORYLATCH_STATUS_OK, 1);
    want.streams.streams[30] = (savorylatch_stream){.id = second, .phase = SAVORYLATCH_PHASE_BOUND, .role = 5};
    want.streams.marks[5] = second;
    expect(same(&a, &want), "a stream of another role and its mark");

    savorylatch_row *r = want.rows.rows;
    SET(r[0].table, 0x02010203), SET(r[0].size, 200), r[0].owner = 5, r[0].field_count = 3, r[0].action_count = 2;
    SET(r[1].table, 0x02212223), SET(r[1].size, 7), r[1].owner = 6, r[1].field_count = 4, r[1].action_count = 4;
    for (int j = 0; j < r[0].field_count; j++) r[0].fields[j] = (savorylatch_field){.kind = 1 + 2 * j, .width = 9 + j};
    for (int k = 0; k < 2; k++)
        for (int j = 0; j < r[k].action_count; j++) {
            if (k) r[k].fields[j] = (savorylatch_field){.kind = 1 + j, .width = 100 + j};
            SET(r[k].actions[j].id, 0x01000000u + 0x10203 * (4 * k + j + 1));
            r[k].actions[j].count = 2;
            r[k].actions[j].widths[0] = 40 + 8 * k + j, r[k].actions[j].widths[1] = 60 + 8 * k + j;
        }
    want.rows.count = 2;
    start(4), put_head(0), put(1, 2), put_row(&r[0]), put_row(&r[1]);
    answered(&a, "CONFIGURE", SAVORYLATCH_REASON_DONE, SAVORYLATCH_STATUS_OK, 0);
    expect(same(&a, &want), "the rows");

    start(5), put_head(5), put(1, 0), put(1, 3);
    for (int k = 1; k <= 3; k++) put_insert(&r[0], k);
    answered(&a, "WRITE", SAVORYLATCH_REASON_DONE, SAVORYLATCH_STATUS_OK, 3);
    want.count = 3;
    expect(same(&a, &want), "the number of entries");

    /* the record filled through the header serves as well as the agent's own */
    start(6), put(8, DEVICE), put(1, 5), put(4, 0), put(1, 0), put(144, 0);
    answered(&a, "READ", SAVORYLATCH_REASON_DONE, SAVORYLATCH_STATUS_OK, 3);
    answered(&want, "READ by the filled record", SAVORYLATCH_REASON_DONE, SAVORYLATCH_STATUS_OK, 3);

    start(1), put(1, 3), answered(&a, "OPEN again", SAVORYLATCH_REASON_ALREADY_OPEN, SAVORYLATCH_STATUS_FAILED_PRECONDITION, 0);
    start(2), put(1, 9), answered(&a, "CLOSE", SAVORYLATCH_REASON_NOT_OPEN, SAVORYLATCH_STATUS_NOT_FOUND, 0);
    start(5), put_head(5), put(1, 0), put(1, 1), put_insert(&r[0], 3);
    answered(&a, "INSERT again", SAVORYLATCH_REASON_SOME_FAILED, SAVORYLATCH_STATUS_UNKNOWN, 1);
    expect(answer[4] == SAVORYLATCH_REASON_STORED && answer[5] == SAVORYLATCH_STATUS_ALREADY_EXISTS, "the pair of a second INSERT");

    /* the longest frame, and one byte more; buffers one byte too short */
    start(5), put_head(5), put(1, 0), put(1, 64), put(64 * 221, 0);
    expect(length == SAVORYLATCH_FRAME, "SAVORYLATCH_FRAME");
    answered(&a, "64 updates", SAVORYLATCH_REASON_SOME_FAILED, SAVORYLATCH_STATUS_UNKNOWN, 64);
    put(1, 0), answered(&a, "a byte more", SAVORYLATCH_REASON_BAD_FRAME, SAVORYLATCH_STATUS_INVALID_ARGUMENT, 0);
    answer[0] = 99;
    expect(savorylatch_call(&a, frame, 2, store, sizeof store - 1, answer, sizeof answer) == SAVORYLATCH_REASON_TOO_SHORT, "a short store");
    expect(savorylatch_call(&a, frame, 2, store, sizeof store, answer, sizeof answer - 1) == SAVORYLATCH_REASON_TOO_SHORT, "a short answer");
    expect(answer[0] == 99, "an answer under TOO_SHORT");
    expect(same(&a, &want), "a refused call changes the record");
}

int main(void) {
    find_used();
    extent();
    if (!failed) places();
    if (!failed) printf("layout: a record of %zu bytes, as the header has it\n", sizeof shape);
    return failed;
}
