/* Counts the copies of memory in one call of each kind: memcpy and memmove are replaced by ones that count. Prints a table, with the
 * counts of the library's first version beside it (docs/SPEED.md); atomic batches, which it did not have, are shown without. Each call is
 * made on a stack of its own, of which it is seen afterwards how much was used.
 * A second table is of keys alone: that an update or a READ of one key searches for it where it lies, in the frame. A short copy is no
 * call of memcpy, so the stack is searched for the key after each call: a local array would have left it there. The copies that are
 * calls are held to those of a WRITE of no update and of a READ of all.
 * Exit status 0: no call makes more than half as many copies as the first version, nor moves more than half as many bytes, beside one
 * copy of the key for each entry that it stores; none uses more stack than the header says; none that searches for a key makes one copy
 * more than one that does not, but for the key that an INSERT stores; and none leaves more of a key on its stack than a register holds.
 * cc -std=c11 -O1 -fno-builtin -Ic/include c/tests/copies.c target/staticlib/libsavorylatch.a -o copies && ./copies */
#define _XOPEN_SOURCE 700
#include "savorylatch.h"

#include <stdio.h>
#include <ucontext.h>

static savorylatch_agent agent;
static uint8_t store[SAVORYLATCH_STORE], answer[SAVORYLATCH_ANSWER], frame[SAVORYLATCH_FRAME];

/* ---- what is counted: how often each size was copied */

static struct {
    size_t size, times;
} seen[32];
static size_t kinds;

static void count(size_t size) {
    size_t k = 0;
    while (k < kinds && seen[k].size != size) {
        k++;
    }
    if (k == sizeof seen / sizeof seen[0]) {
        return; /* more sizes than any call has */
    }
    if (k == kinds) {
        seen[kinds].size = size;
        seen[kinds++].times = 0;
    }
    seen[k].times++;
}

/* A volatile pointer keeps the compiler from making the loop a call of itself. */
static void move(void *to, const void *from, size_t size) {
    volatile uint8_t *d = to;
    const uint8_t *s = from;
    for (size_t i = 0; i < size; i++) {
        d[i] = s[i];
    }
}

void *memcpy(void *restrict to, const void *restrict from, size_t size) {
    count(size);
    move(to, from, size);
    return to;
}

void *memmove(void *to, const void *from, size_t size) {
    count(size);
    if ((uintptr_t)to <= (uintptr_t)from) {
        move(to, from, size);
        return to;
    }
    volatile uint8_t *d = to;
    const uint8_t *s = from;
    for (size_t i = size; i-- > 0;) {
        d[i] = s[i];
    }
    return to;
}

void *memset(void *to, int value, size_t size) {
    volatile uint8_t *d = to;
    for (size_t i = 0; i < size; i++) {
        d[i] = (uint8_t)value;
    }
    return to;
}

/* ---- frames */

static size_t start(uint8_t command) {
    memset(frame, 0, sizeof frame);
    frame[0] = command;
    return 1;
}

/* a device below 256, a role, and an id below 256 */
static size_t head(size_t at, uint8_t device, uint8_t role, uint8_t id) {
    frame[at + 7] = device;
    frame[at + 8] = role;
    frame[at + 9] = id != 0;
    frame[at + 25] = id;
    return at + 26;
}

static size_t event(uint8_t command, uint8_t stream) {
    size_t at = start(command);
    frame[at++] = stream;
    return at;
}

static size_t arbitrate(uint8_t stream, uint8_t device, uint8_t role, uint8_t id) {
    return head(event(3, stream), device, role, id);
}

/* one table, 0x02000001, of 256 entries and of role 0: an exact field of 32 bits, and an action without parameters */
static size_t configure(uint8_t device, uint8_t role, uint8_t id) {
    size_t at = head(start(4), device, role, id);
    static const uint8_t row[53] = {2, 0, 0, 1, 0, 1, 0, 1, 1, 32, [16] = 1, [17] = 1, [20] = 1};
    frame[at++] = 1;
    move(frame + at, row, sizeof row);
    return at + sizeof row;
}

/* n updates of a type, of the keys 1 to n */
static size_t write(uint8_t device, uint8_t role, uint8_t id, uint8_t atomicity, uint8_t type, uint8_t n) {
    size_t at = head(start(5), device, role, id);
    frame[at] = atomicity;
    frame[at + 1] = n;
    at += 2;
    for (uint8_t i = 1; i <= n; i++, at += 221) {
        static const uint8_t update[221] = {0, 2, 0, 0, 1, [9] = 1, [10] = 1, [149] = 1, [152] = 1};
        move(frame + at, update, sizeof update);
        frame[at] = type;
        frame[at + 11] = i;
    }
    return at;
}

/* of all tables, or of the key 1 of a table */
static size_t read(uint8_t device, uint8_t role, uint8_t table) {
    static const uint8_t key[149] = {2, 0, 0, 0, 1, [9] = 1, [10] = 1, [11] = 1};
    start(6);
    frame[8] = device;
    frame[9] = role;
    if (table) {
        move(frame + 10, key, sizeof key);
        frame[13] = table;
    }
    return 159;
}

/* the frame with another byte at a place */
static size_t but(size_t length, size_t at, uint8_t byte) {
    frame[at] = byte;
    return length;
}

/* ---- the stack */

enum { UNUSED = 0xA5 };
static uint8_t stack[1 << 17];
static ucontext_t here, there;
static size_t length, buffer, left, deepest;
static uint8_t returned;

static void on_stack(void) {
    returned = savorylatch_call(&agent, frame, length, store, sizeof store, answer, buffer);
}

/* Runs a function on a stack that is marked beforehand; it grows down, so that the marks that are left are at its start. */
static void run(void (*function)(void)) {
    for (size_t i = 0; i < sizeof stack; i++) {
        stack[i] = UNUSED;
    }
    getcontext(&there);
    there.uc_stack.ss_sp = stack;
    there.uc_stack.ss_size = sizeof stack;
    there.uc_link = &here;
    makecontext(&there, function, 0);
    swapcontext(&here, &there);
    for (left = 0; left < sizeof stack && stack[left] == UNUSED;) {
        left++;
    }
}

static uint8_t call_in(size_t frame_length, size_t buffer_length) {
    length = frame_length;
    buffer = buffer_length;
    run(on_stack);
    if (deepest < sizeof stack - left) {
        deepest = sizeof stack - left;
    }
    return returned;
}

/* ---- the table */

static int failed;

static uint8_t call(size_t length) {
    return call_in(length, sizeof answer);
}

/* The sizes of a key, with its table and without. */
enum { KEY = 148, SLOTS = 144 };

/* how many copies there were and of how many bytes, and those of them that have the size of a key */
struct sums {
    size_t copies, bytes, keys, key_bytes;
};

static struct sums sums(void) {
    struct sums all = {0, 0, 0, 0};
    for (size_t k = 0; k < kinds; k++) {
        size_t times = seen[k].times, bytes = times * seen[k].size;
        int key = seen[k].size == KEY || seen[k].size == SLOTS;
        all.copies += times;
        all.bytes += bytes;
        all.keys += key ? times : 0;
        all.key_bytes += key ? bytes : 0;
    }
    return all;
}

static void print_seen(void) {
    size_t found = kinds;
    for (size_t k = 0; k < found; k++) {
        printf("%s %zu of %zu", k ? "," : "", seen[k].times, seen[k].size);
    }
}

static void expect(const char *what, unsigned reason, unsigned returned) {
    if (returned != reason) {
        printf("%s: the reason is %u, and not %u\n", what, returned, reason);
        failed = 1;
    }
}

/* Each INSERT that takes effect copies its key in shortest form, 148 bytes, to the store, once: these are counted apart. The first version
 * moved the bytes of stored keys one by one. */
static void counted(const char *what, unsigned reason, unsigned returned, size_t inserted, size_t first, size_t first_bytes) {
    struct sums all = sums();
    printf("| %s | %u |", what, returned);
    print_seen();
    printf(" | %zu | %zu | %zu | %zu |\n", all.copies, all.bytes, first, first_bytes);
    expect(what, reason, returned);
    if (all.keys > inserted) {
        printf("%s: %zu copies of a key, and not %zu\n", what, all.keys, inserted);
        failed = 1;
    }
    if (2 * (all.copies - all.keys) > first || 2 * (all.bytes - all.key_bytes) > first_bytes) {
        printf("%s: not halved\n", what);
        failed = 1;
    }
}

static void inserting(const char *what, unsigned reason, size_t length, size_t inserted, size_t first, size_t first_bytes) {
    kinds = 0;
    unsigned returned = call(length);
    counted(what, reason, returned, inserted, first, first_bytes);
}

static void row(const char *what, unsigned reason, size_t length, size_t first, size_t first_bytes) {
    inserting(what, reason, length, 0, first, first_bytes);
}

/* opens a stream and binds it to role 0 */
static void bind(uint8_t stream, uint8_t id) {
    call(event(1, stream));
    call(arbitrate(stream, 1, 0, id));
}

static void events(void) {
    row("OPEN", 0, event(1, 1), 9, 10904);
    row("OPEN of an open stream", 3, event(1, 1), 9, 10904);
    row("CLOSE of an unbound stream", 0, event(2, 1), 9, 10904);
    row("CLOSE of a closed stream", 4, event(2, 1), 9, 10904);
    row("ARBITRATE of a closed stream", 4, arbitrate(1, 1, 0, 5), 10, 9992);
    call(event(1, 1));
    row("ARBITRATE, the first", 0, arbitrate(1, 1, 0, 5), 12, 11784);
    row("ARBITRATE, repeated id", 0, arbitrate(1, 1, 0, 5), 11, 10888);
    row("ARBITRATE, higher id", 0, arbitrate(1, 1, 0, 6), 12, 11784);
    row("ARBITRATE of a primary, id unset", 0, arbitrate(1, 1, 0, 0), 12, 11784);
    row("ARBITRATE with the mark again", 0, arbitrate(1, 1, 0, 6), 12, 11784);
    call(event(1, 2));
    row("ARBITRATE, a backup's first", 0, arbitrate(2, 1, 0, 4), 11, 10888);
    row("CLOSE of a backup", 0, event(2, 2), 10, 11800);
    bind(2, 4);
    row("CLOSE of a primary, one stream notified", 0, event(2, 1), 12, 13592);
    call(event(2, 2));
}

/* stream 1 is the primary of role 0 with id 7 */
static void refused_events(void) {
    bind(1, 7);
    call(event(1, 2));
    row("ARBITRATE, unbound, other device", 5, arbitrate(2, 9, 0, 4), 10, 9992);
    call(event(1, 2));
    row("ARBITRATE, unbound, role 8", 6, arbitrate(2, 1, 8, 4), 10, 9992);
    call(event(1, 2));
    row("ARBITRATE, unbound, id in use", 8, arbitrate(2, 1, 0, 7), 10, 9992);
    for (uint8_t s = 2; s <= 8; s++) {
        bind(s, 0);
    }
    call(event(1, 9));
    row("ARBITRATE, unbound, the ninth", 9, arbitrate(9, 1, 0, 4), 10, 9992);
    row("ARBITRATE of a backup, other role", 7, arbitrate(8, 1, 1, 4), 11, 10888);
    row("ARBITRATE of a backup, id in use", 8, arbitrate(7, 1, 0, 7), 11, 10888);
    for (uint8_t s = 3; s <= 6; s++) {
        call(event(2, s));
    }
    row("ARBITRATE of a primary, other device, one stream notified", 7, arbitrate(1, 9, 0, 8), 13, 12680);
    call(event(2, 2));
    bind(2, 6);
    bind(1, 8);
    row("ARBITRATE of a primary, id in use, one stream notified", 8, arbitrate(1, 1, 0, 6), 13, 12680);
    call(event(2, 2));
}

static void malformed(void) {
    kinds = 0;
    counted("answer buffer too short", 2, call_in(write(1, 0, 9, 0, 1, 1), 57343), 0, 3, 4392);
    row("no byte", 1, 0, 3, 4392);
    row("command 07", 1, start(7), 3, 4392);
    row("OPEN, malformed", 1, event(1, 32), 3, 4392);
    row("ARBITRATE, malformed", 1, but(arbitrate(1, 1, 0, 5), 11, 2), 3, 4392);
    row("CONFIGURE, malformed", 1, but(configure(1, 0, 5), 10, 2), 3, 4392);
    row("WRITE, malformed", 1, but(write(1, 0, 5, 0, 1, 1), 10, 2), 3, 4392);
    row("READ, malformed", 1, but(read(1, 0, 0), 14, 2), 3, 4392);
}

/* A call that the first version did not have: its copies are shown, and the last columns are empty. */
static void new_row(const char *what, unsigned reason, size_t length) {
    kinds = 0;
    unsigned returned = call(length);
    printf("| %s | %u |", what, returned);
    print_seen();
    printf(" | | | | |\n");
    expect(what, reason, returned);
}

/* batches of atomicity 1, while the keys 1 to 64 are stored, as they are again after these */
static void atomic(void) {
    new_row("atomic WRITE of no update", 0, write(1, 0, 9, 1, 1, 0));
    new_row("atomic WRITE of 1 MODIFY", 0, write(1, 0, 9, 1, 2, 1));
    new_row("atomic WRITE of 64, the first refused", 23, write(1, 0, 9, 1, 1, 64));
    new_row("atomic WRITE of 64 DELETEs, the last an INSERT and refused", 23, but(write(1, 0, 9, 1, 3, 64), 29 + 221 * 63, 1));
    new_row("atomic WRITE of 64 DELETEs", 0, write(1, 0, 9, 1, 3, 64));
    new_row("atomic WRITE of 64 INSERTs", 0, write(1, 0, 9, 1, 1, 64));
}

/* stream 1 becomes the primary of role 0 with id 9, and stream 3 that of role 1 with id 1 */
static void commands(void) {
    bind(1, 9);
    call(event(1, 3));
    call(arbitrate(3, 1, 1, 1));
    row("WRITE, not configured", 12, write(1, 0, 9, 0, 1, 1), 11, 10504);
    row("READ, not configured", 12, read(1, 0, 0), 6, 8712);
    row("CONFIGURE, other device", 5, configure(9, 0, 9), 11, 10516);
    row("CONFIGURE, role 8", 6, configure(1, 8, 9), 10, 9620);
    row("CONFIGURE by role 1", 11, configure(1, 1, 1), 11, 10516);
    row("CONFIGURE, not the mark", 10, configure(1, 0, 4), 10, 9620);
    row("CONFIGURE, rows not allowed", 14, but(configure(1, 0, 9), 28, 3), 10, 9620);
    row("CONFIGURE of one row", 0, configure(1, 0, 9), 12, 10708);
    row("WRITE, other device", 5, write(9, 0, 9, 0, 1, 1), 11, 10504);
    row("WRITE, role 8", 6, write(1, 8, 9, 0, 1, 1), 10, 9608);
    row("WRITE, not the mark", 10, write(1, 0, 4, 0, 1, 1), 10, 9608);
    row("WRITE, atomicity 2", 13, write(1, 0, 9, 2, 1, 1), 11, 10504);
    row("WRITE of no update", 0, write(1, 0, 9, 0, 1, 0), 10, 9608);
    inserting("WRITE of 1 INSERT", 0, write(1, 0, 9, 0, 1, 1), 1, 10, 9608);
    inserting("WRITE of 64 INSERTs, one refused", 23, write(1, 0, 9, 0, 1, 64), 63, 10, 9608);
    atomic();
    row("READ, other device", 5, read(9, 0, 0), 6, 8712);
    row("READ, role 8", 6, read(1, 8, 0), 6, 8712);
    row("READ, unknown table", 15, read(1, 0, 2), 6, 7816);
    row("READ, table of another role", 16, read(1, 2, 1), 6, 7816);
    row("READ, key not of the kind", 17, but(read(1, 0, 1), 19, 2), 6, 7816);
    row("READ, key with a priority", 19, but(read(1, 0, 1), 18, 1), 6, 7816);
    row("READ of all", 0, read(1, 0, 0), 7, 8360);
    row("READ of one key", 0, read(1, 0, 1), 7, 7960);
}

/* ---- keys that are searched for

 * A key of four slots, each digit of which is another: no part of it is on a stack by chance, but zeros. Keys of two numbers differ in
 * their last digit. */

enum { DIGITS = 12, EXACT = 8, LPM = 43, TERNARY = 78, RANGE = 113, SECOND = 18 };

/* how the values of keys are sent, and the key of the frame that was made last, as it is sent and in shortest form */
static enum form { SHORTEST, PADDED } form;
static const char *const form_names[] = {"shortest", "padded"};
static uint8_t sent[KEY], shortest[KEY];

/* a value of so many digits, the first of them this one and each one more than that before it; where its last digit is */
static uint8_t *value(uint8_t *at, uint8_t first, uint8_t digits, enum form form) {
    uint8_t zeros = form == PADDED ? 16 - digits : 0;
    at[0] = zeros + digits;
    for (uint8_t i = 0; i < digits; i++) {
        at[1 + zeros + i] = first + i;
    }
    return at + zeros + digits;
}

/* the key of a number with its table before it; the mask is the value with the highest bit of each digit set */
static void make_key(uint8_t *key, uint8_t number, enum form form) {
    memset(key, 0, KEY);
    key[0] = 2;
    key[3] = 1;
    key[7] = 1;
    for (uint8_t slot = 0; slot < 4; slot++) {
        key[EXACT + 35 * slot] = slot + 1;
        value(key + EXACT + 35 * slot + 1, 1 + 24 * slot, DIGITS, form);
    }
    value(key + LPM + SECOND, 128, 1, form);
    value(key + TERNARY + SECOND, 128 + 49, DIGITS, form);
    *value(key + RANGE + SECOND, 97, DIGITS, form) = 0xF0 + number;
}

static void make_keys(uint8_t number) {
    make_key(sent, number, form);
    make_key(shortest, number, SHORTEST);
}

/* one table, 0x02000001, of two entries: an exact, an lpm, a ternary and a range field of 128 bits, and an action without parameters */
static size_t configure_four(void) {
    static const uint8_t fields[] = {0, 2, 4, 1, 128, 2, 128, 3, 128, 4, 128};
    size_t length = configure(1, 0, 9);
    move(frame + 33, fields, sizeof fields);
    return length;
}

static size_t write_key(uint8_t atomicity, uint8_t type, uint8_t number) {
    size_t length = write(1, 0, 9, atomicity, type, 1);
    make_keys(number);
    move(frame + 30, sent, KEY);
    return length;
}

static size_t read_key(uint8_t number) {
    size_t length = read(1, 0, 1);
    make_keys(number);
    move(frame + 15, sent + 4, SLOTS);
    return length;
}

/* ---- and whether they were copied */

/* What a register leaves on the stack is no array: the widest that an archive may use has 32 bytes, as have two of 16 side by side. A slot
 * has 35, and a key four of them. */
enum { REGISTER = 32 };

static size_t searches, longest;

/* How many bytes of the key, from one place on, are on the stack from another on, up to one that is not zero: zeros are anywhere. */
static size_t run_at(const uint8_t *key, size_t from, size_t at) {
    size_t bytes = 0;
    for (size_t i = 0; from + i < KEY && at + i < sizeof stack && stack[at + i] == key[from + i]; i++) {
        if (key[from + i] != 0) {
            bytes = i + 1;
        }
    }
    return bytes;
}

/* the longest run of the key's bytes in what was used of the stack */
static size_t run_of(const uint8_t *key) {
    size_t most = 0;
    for (size_t at = left; at < sizeof stack; at++) {
        for (size_t from = 0; from < KEY; from++) {
            size_t bytes = key[from] == stack[at] && key[from] != 0 ? run_at(key, from, at) : 0;
            most = bytes > most ? bytes : most;
        }
    }
    return most;
}

static size_t key_on_stack(void) {
    size_t one = run_of(sent), other = run_of(shortest);
    return one > other ? one : other;
}

/* A call with a key: it makes the copies of one without, and at most so many more, of the key that it stores; and leaves no key behind. */
static void keyed(const char *what, unsigned reason, size_t length, struct sums without, size_t stored) {
    kinds = 0;
    unsigned returned = call(length);
    struct sums all = sums();
    size_t bytes = key_on_stack();
    printf("| %s | %s | %u |", what, form_names[form], returned);
    print_seen();
    printf(" | %zu |\n", bytes);
    expect(what, reason, returned);
    size_t copies = all.copies - without.copies, more = all.bytes - without.bytes;
    if (copies > stored || more > KEY * stored) {
        printf("%s, %s: %zu copies of %zu bytes, where without a key they are %zu of %zu\n", what, form_names[form], all.copies, all.bytes,
               without.copies, without.bytes);
        failed = 1;
    }
    if (bytes > REGISTER) {
        printf("%s, %s: %zu bytes of the key in a row are on the stack\n", what, form_names[form], bytes);
        failed = 1;
    }
    searches++;
    longest = bytes > longest ? bytes : longest;
}

/* the copies of a call without a key */
static struct sums sums_of(size_t length) {
    kinds = 0;
    expect("a call without a key", 0, call(length));
    return sums();
}

/* WRITEs of one update to a table with room for two entries; 1 is left in it. What is refused under 20 to 22 ends with its search, so
 * that nothing comes after it that could hide what it left. A DELETE that is rolled back is not among these: its entry is made anew in
 * an array, which is no search. */
static void written(void) {
    struct sums none = sums_of(write(1, 0, 9, 0, 1, 0)), atomic = sums_of(write(1, 0, 9, 1, 1, 0));
    keyed("WRITE of 1 INSERT, store empty", 0, write_key(0, 1, 1), none, 1);
    keyed("WRITE of 1 MODIFY, absent: 21", 23, write_key(0, 2, 2), none, 0);
    keyed("WRITE of 1 DELETE, absent: 21", 23, write_key(0, 3, 2), none, 0);
    keyed("WRITE of 1 INSERT", 0, write_key(0, 1, 2), none, 1);
    keyed("WRITE of 1 INSERT, stored: 20", 23, write_key(0, 1, 2), none, 0);
    keyed("WRITE of 1 INSERT, table full: 22", 23, write_key(0, 1, 3), none, 0);
    keyed("WRITE of 1 MODIFY", 0, write_key(0, 2, 2), none, 0);
    keyed("WRITE of 1 DELETE", 0, write_key(0, 3, 2), none, 0);
    keyed("atomic WRITE of 1 INSERT", 0, write_key(1, 1, 2), atomic, 1);
    keyed("atomic WRITE of 1 INSERT, stored: 20", 23, write_key(1, 1, 2), atomic, 0);
    keyed("atomic WRITE of 1 MODIFY", 0, write_key(1, 2, 2), atomic, 0);
    keyed("atomic WRITE of 1 DELETE", 0, write_key(1, 3, 2), atomic, 0);
}

static void with_array(void) {
    uint8_t key[KEY];
    move(key, frame + 30, KEY);
}

/* An array with a key, to see that it is found. */
static void array_found(void) {
    write_key(0, 1, 1);
    run(with_array);
    if (key_on_stack() < SLOTS) {
        printf("%s: an array with the key is not found\n", form_names[form]);
        failed = 1;
    }
}

/* calls with keys whose values are sent in a form */
static void searched(enum form values) {
    form = values;
    array_found();
    expect("CONFIGURE of four fields", 0, call(configure_four()));
    written();
    struct sums all = sums_of(read(1, 0, 0));
    keyed("READ of one key", 0, read_key(1), all, 0);
    keyed("READ of one key, absent", 0, read_key(2), all, 0);
}

int main(void) {
    setvbuf(stdout, NULL, _IONBF, 0);
    savorylatch_new(&agent, 1);
    printf("| call | reason | copies | in all | bytes | first version: in all | bytes |\n|---|--:|---|--:|--:|--:|--:|\n");
    malformed();
    events();
    refused_events();
    commands();
    printf("\n| call with a key | values | reason | copies | bytes of the key in a row on the stack |\n|---|---|--:|---|--:|\n");
    searched(SHORTEST);
    searched(PADDED);
    printf("stack: %zu bytes at most, where the header says %d\n", deepest, SAVORYLATCH_STACK);
    printf("keys: %zu calls with a key, of which %zu bytes in a row are on the stack at most\n", searches, longest);
    return failed || deepest > SAVORYLATCH_STACK;
}
