/* A host that moves tenants by WRITEs of atomicity 1, which take effect as a whole or not at all: one is accepted, one rolled back, one
 * mended. It makes the calls of samples/atomic-move.txt, except that it deletes by key alone, and prints a line for each, as the program
 * `play` does. */
#include "savorylatch.h"

#include <stdio.h>

static savorylatch_agent agent;
static uint8_t store[SAVORYLATCH_STORE], answer[SAVORYLATCH_ANSWER], frame[SAVORYLATCH_FRAME];
static size_t length;

enum { OPEN = 0x01, ARBITRATE = 0x03, CONFIGURE = 0x04, WRITE = 0x05, READ = 0x06 };
enum { EAST = 0x02000001, WEST = 0x02000002, FORWARD = 0x01000001 };

/* ---- making a frame */

/* a number of some bytes, big-endian */
static void put(int width, uint64_t number) {
    for (int i = width - 1; i >= 0; i--) frame[length++] = i < 8 ? (uint8_t)(number >> 8 * i) : 0;
}

static void start(uint8_t command) {
    length = 0;
    put(1, command);
}

/* device 1, role 0, and the election id 5, which is set */
static void head(void) { put(8, 1), put(1, 0), put(1, 1), put(16, 5); }

/* a table of role 0 with an exact field of 32 bits and an action with a parameter of 9 bits */
static void row(uint32_t table, uint16_t size) {
    put(4, table), put(1, 0), put(2, size);
    put(1, 1), put(1, 1), put(1, 32), put(6, 0);
    put(1, 1), put(4, FORWARD), put(1, 1), put(1, 9), put(3, 0), put(27, 0);
}

static void start_write(uint8_t atomicity, uint8_t updates) {
    start(WRITE), head();
    put(1, atomicity), put(1, updates);
}

/* the first part of an update: its type, and tenant 10.0.0.N of a table as its key */
static void start_update(uint8_t type, uint32_t table, uint8_t tenant) {
    put(1, type), put(4, table), put(4, 0);
    put(1, 1), put(1, 4), put(4, 0x0a000000u + tenant), put(12, 0), put(17, 0), put(105, 0);
}

/* an update of a type: the tenant goes to a port */
static void update(uint8_t type, uint32_t table, uint8_t tenant, uint8_t port) {
    start_update(type, table, tenant);
    put(4, FORWARD), put(1, 1), put(1, port), put(15, 0), put(51, 0);
}

static void insert(uint32_t table, uint8_t tenant, uint8_t port) { update(SAVORYLATCH_UPDATE_INSERT, table, tenant, port); }

/* a DELETE needs only the key: action and parameters are zeros */
static void delete_key(uint32_t table, uint8_t tenant) { start_update(SAVORYLATCH_UPDATE_DELETE, table, tenant), put(72, 0); }

/* ---- calling, and the answer */

static void print(int ordinal, uint8_t reason) {
    int records = answer[2] * 256 + answer[3];
    int size = frame[0] == WRITE ? 2 : frame[0] == READ ? 220 : 20;
    printf("%d %d %d %d", ordinal, reason, answer[1], records);
    for (int i = 0; i < size * records; i++) printf(i % size ? "%02x" : " %02x", answer[4 + i]);
    printf("\n");
}

static uint8_t call(void) {
    static int ordinal;
    uint8_t reason = savorylatch_call(&agent, frame, length, store, sizeof store, answer, sizeof answer);
    print(++ordinal, reason);
    return reason;
}

static void read_all(void) {
    start(READ), put(8, 1), put(1, 0), put(4, 0), put(1, 0), put(144, 0);
    call();
}

/* which update of the batch just sent failed, from 1, or 0 if none did; every other one of an atomic batch has ROLLED_BACK then */
static int failed(void) {
    for (int k = 0; k < answer[3]; k++) {
        uint8_t reason = answer[4 + 2 * k];
        if (reason != SAVORYLATCH_REASON_DONE && reason != SAVORYLATCH_REASON_ROLLED_BACK) return k + 1;
    }
    return 0;
}

/* ---- the story */

/* stream 1 is primary, there are two tables, and three tenants in the east */
static void before(void) {
    start(OPEN), put(1, 1), call();
    start(ARBITRATE), put(1, 1), head(), call();
    start(CONFIGURE), head(), put(1, 2), row(EAST, 4), row(WEST, 1), call();
    start_write(SAVORYLATCH_ATOMICITY_CONTINUE_ON_ERROR, 3);
    for (uint8_t tenant = 1; tenant <= 3; tenant++) insert(EAST, tenant, 7);
    call();
}

/* tenant 1 moves west; then tenant 2 is to follow, but the west holds only one */
static int moves(void) {
    start_write(SAVORYLATCH_ATOMICITY_ROLLBACK_ON_ERROR, 2);
    delete_key(EAST, 1), insert(WEST, 1, 8);
    int moved = call() == SAVORYLATCH_REASON_DONE;
    read_all();
    start_write(SAVORYLATCH_ATOMICITY_ROLLBACK_ON_ERROR, 4);
    delete_key(EAST, 2), update(SAVORYLATCH_UPDATE_MODIFY, EAST, 3, 9), insert(WEST, 2, 8), update(9, EAST, 3, 7);
    return moved && call() == SAVORYLATCH_REASON_SOME_FAILED && failed() == 3;
}

/* nothing has changed, so the whole batch is sent again, mended: tenants 1 and 2 change places */
static void mended(void) {
    read_all();
    start_write(SAVORYLATCH_ATOMICITY_ROLLBACK_ON_ERROR, 4);
    delete_key(EAST, 2), delete_key(WEST, 1), insert(WEST, 2, 8), insert(EAST, 1, 7);
    call();
    read_all();
}

int main(void) {
    savorylatch_new(&agent, 1);
    before();
    if (!moves()) return 1;
    mended();
    start_write(SAVORYLATCH_ATOMICITY_ROLLBACK_ON_ERROR, 0);
    call();
    start_write(SAVORYLATCH_ATOMICITY_DATAPLANE_ATOMIC, 1);
    delete_key(EAST, 3);
    return call() != SAVORYLATCH_REASON_ATOMICITY;
}
