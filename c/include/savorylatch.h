/* The agent of a hall switch as a library: one record, one store, and a call for each frame.
 *
 * The host holds the record and the buffers and lends them to each call. Nothing here allocates, blocks, or keeps global state: all
 * state is in the record and the store, and a call needs memcpy, memmove, memset and SAVORYLATCH_STACK bytes of stack. One agent per
 * thread is safe; calls on one agent go one after the other. A record may be moved, or saved and restored, together with its store.
 *
 * What is proved of each call takes the following for granted, and the host must see to it:
 *  - no pointer is null, and each length is true: so many bytes can be read there, and written in the store and the answer;
 *  - the record, the frame, the store and the answer do not overlap;
 *  - the record was made by savorylatch_new, and since then only savorylatch_call has changed it and the first SAVORYLATCH_STORE
 *    bytes of its store. The host may look at the record. With any other record or store a call still ends and keeps within what
 *    it was lent; what it answers is then open.
 *
 * The record's layout is that of crates/memory, `Agent`, its parts written out; c/tests/layout.c holds this file to it.
 */
#ifndef SAVORYLATCH_H
#define SAVORYLATCH_H

#include <stddef.h>
#include <stdint.h>

/* The bytes that a store and an answer buffer need, and the longest frame that is not malformed: a WRITE of 64 updates. */
#define SAVORYLATCH_STORE 56320
#define SAVORYLATCH_ANSWER 57344
#define SAVORYLATCH_FRAME 14173

/* The bytes of stack that a call needs at most: an atomic WRITE of 64 updates. c/tests/copies.c measures what calls use. */
#define SAVORYLATCH_STACK 10240

/* ---- the record */

/* An election id of 128 bits; 0 is unset, or no mark. */
typedef struct {
    uint64_t high;
    uint64_t low;
} savorylatch_election_id;

/* What a stream is. */
enum savorylatch_phase {
    SAVORYLATCH_PHASE_CLOSED = 0,
    SAVORYLATCH_PHASE_OPEN = 1,
    SAVORYLATCH_PHASE_BOUND = 2 /* open, and bound to a role with an id or none */
};

typedef struct {
    savorylatch_election_id id;
    uint8_t phase;
    uint8_t role;
} savorylatch_stream;

/* The streams by number, and the mark of each role. */
typedef struct {
    savorylatch_stream streams[32];
    savorylatch_election_id marks[8];
} savorylatch_streams;

/* A match field: its kind (1 exact, 2 lpm, 3 ternary, 4 range, 5 optional) and its width in bits. */
typedef struct {
    uint8_t kind;
    uint8_t width;
} savorylatch_field;

/* An action: its id, how many parameters it has, and their widths in bits. */
typedef struct {
    uint8_t id[4];
    uint8_t count;
    uint8_t widths[4];
} savorylatch_action;

/* A row of the configuration: a table, the role that owns it, how many entries it may hold, its fields and its actions. Its 53 bytes are
 * those that CONFIGURE sent: the ids and the size are big-endian. */
typedef struct {
    uint8_t table[4];
    uint8_t owner;
    uint8_t size[2];
    uint8_t field_count;
    savorylatch_field fields[4];
    uint8_t action_count;
    savorylatch_action actions[4];
} savorylatch_row;

/* The rows in force, `count` of them. */
typedef struct {
    savorylatch_row rows[8];
    uint8_t count;
} savorylatch_rows;

/* An agent, with the number of entries in its store. */
typedef struct {
    uint64_t device;
    savorylatch_streams streams;
    savorylatch_rows rows;
    size_t count;
} savorylatch_agent;

/* The layout that the library was built for: of each type its size and alignment, of each field its offset and size. */
#ifdef __cplusplus
#define SAVORYLATCH_HOLDS(fact) static_assert(fact, #fact)
#define SAVORYLATCH_ALIGN(type) alignof(type)
#else
#define SAVORYLATCH_HOLDS(fact) _Static_assert(fact, #fact)
#define SAVORYLATCH_ALIGN(type) _Alignof(type)
#endif
#define SAVORYLATCH_TYPE(type, size, align) SAVORYLATCH_HOLDS(sizeof(type) == size && SAVORYLATCH_ALIGN(type) == align)
#define SAVORYLATCH_FIELD(type, field, at, size) SAVORYLATCH_HOLDS(offsetof(type, field) == at && sizeof(((type *)0)->field) == size)
SAVORYLATCH_TYPE(savorylatch_election_id, 16, 8);
SAVORYLATCH_FIELD(savorylatch_election_id, high, 0, 8);
SAVORYLATCH_FIELD(savorylatch_election_id, low, 8, 8);
SAVORYLATCH_TYPE(savorylatch_stream, 24, 8);
SAVORYLATCH_FIELD(savorylatch_stream, id, 0, 16);
SAVORYLATCH_FIELD(savorylatch_stream, phase, 16, 1);
SAVORYLATCH_FIELD(savorylatch_stream, role, 17, 1);
SAVORYLATCH_TYPE(savorylatch_streams, 896, 8);
SAVORYLATCH_FIELD(savorylatch_streams, streams, 0, 768);
SAVORYLATCH_FIELD(savorylatch_streams, marks, 768, 128);
SAVORYLATCH_TYPE(savorylatch_field, 2, 1);
SAVORYLATCH_FIELD(savorylatch_field, kind, 0, 1);
SAVORYLATCH_FIELD(savorylatch_field, width, 1, 1);
SAVORYLATCH_TYPE(savorylatch_action, 9, 1);
SAVORYLATCH_FIELD(savorylatch_action, id, 0, 4);
SAVORYLATCH_FIELD(savorylatch_action, count, 4, 1);
SAVORYLATCH_FIELD(savorylatch_action, widths, 5, 4);
SAVORYLATCH_TYPE(savorylatch_row, 53, 1);
SAVORYLATCH_FIELD(savorylatch_row, table, 0, 4);
SAVORYLATCH_FIELD(savorylatch_row, owner, 4, 1);
SAVORYLATCH_FIELD(savorylatch_row, size, 5, 2);
SAVORYLATCH_FIELD(savorylatch_row, field_count, 7, 1);
SAVORYLATCH_FIELD(savorylatch_row, fields, 8, 8);
SAVORYLATCH_FIELD(savorylatch_row, action_count, 16, 1);
SAVORYLATCH_FIELD(savorylatch_row, actions, 17, 36);
SAVORYLATCH_TYPE(savorylatch_rows, 425, 1);
SAVORYLATCH_FIELD(savorylatch_rows, rows, 0, 424);
SAVORYLATCH_FIELD(savorylatch_rows, count, 424, 1);
SAVORYLATCH_TYPE(savorylatch_agent, 1344, 8);
SAVORYLATCH_FIELD(savorylatch_agent, device, 0, 8);
SAVORYLATCH_FIELD(savorylatch_agent, streams, 8, 896);
SAVORYLATCH_FIELD(savorylatch_agent, rows, 904, 425);
SAVORYLATCH_FIELD(savorylatch_agent, count, 1336, 8);
#undef SAVORYLATCH_FIELD
#undef SAVORYLATCH_TYPE
#undef SAVORYLATCH_ALIGN
#undef SAVORYLATCH_HOLDS

/* ---- what is sent */

/* The type of an update, byte 0 of its 221. The others are an entry: table 4, key 144, action 4, parameters 68. */
enum savorylatch_update {
    SAVORYLATCH_UPDATE_INSERT = 1,
    SAVORYLATCH_UPDATE_MODIFY = 2,
    SAVORYLATCH_UPDATE_DELETE = 3 /* needs only table and key: action and parameters, 72 bytes, are not looked at, and may be zeros */
};

/* The atomicity of a WRITE, byte 27 of its frame: whether its updates take effect alone or together. The names are P4Runtime's. */
enum savorylatch_atomicity {
    SAVORYLATCH_ATOMICITY_CONTINUE_ON_ERROR = 0, /* each update succeeds or fails alone */
    SAVORYLATCH_ATOMICITY_ROLLBACK_ON_ERROR = 1, /* all or none: at the first that fails the entries are those before the call */
    SAVORYLATCH_ATOMICITY_DATAPLANE_ATOMIC = 2   /* not offered: refused under 13 */
};

/* ---- what comes back */

/* Why a call, or an update of a WRITE, was refused; in brackets the status code that goes with it. */
enum savorylatch_reason {
    SAVORYLATCH_REASON_DONE = 0, /* not refused (0) */
    /* the host program */
    SAVORYLATCH_REASON_BAD_FRAME = 1,    /* not a frame of the agent (3) */
    SAVORYLATCH_REASON_TOO_SHORT = 2,    /* answer buffer or store too short; nothing is written (8) */
    SAVORYLATCH_REASON_ALREADY_OPEN = 3, /* OPEN of an open stream (9) */
    SAVORYLATCH_REASON_NOT_OPEN = 4,     /* CLOSE or ARBITRATE of a stream that is not open (5) */
    /* a controller arbitrating: each closes the stream */
    SAVORYLATCH_REASON_OTHER_DEVICE = 5, /* another device; WRITE, CONFIGURE and READ too (5) */
    SAVORYLATCH_REASON_NO_SUCH_ROLE = 6, /* role over 7; WRITE, CONFIGURE and READ too (5) */
    SAVORYLATCH_REASON_REBOUND = 7,      /* the stream is bound to another device or role (9) */
    SAVORYLATCH_REASON_ID_IN_USE = 8,    /* another open stream of the role holds the id (3) */
    SAVORYLATCH_REASON_ROLE_FULL = 9,    /* eight streams are bound to the role already (8) */
    /* a caller of WRITE, CONFIGURE or READ */
    SAVORYLATCH_REASON_NOT_PRIMARY = 10,      /* id unset, or no primary, or not the mark (7) */
    SAVORYLATCH_REASON_NOT_ROLE_0 = 11,       /* CONFIGURE by role 1 to 7 (7) */
    SAVORYLATCH_REASON_NOT_CONFIGURED = 12,   /* no configuration (9) */
    SAVORYLATCH_REASON_ATOMICITY = 13,        /* atomicity 2 (12) */
    SAVORYLATCH_REASON_ROWS_NOT_ALLOWED = 14, /* a configuration that is not allowed (3) */
    /* the maker of an update, or of a READ's key */
    SAVORYLATCH_REASON_NO_SUCH_TABLE = 15, /* unknown table (5) */
    SAVORYLATCH_REASON_NOT_THE_ROLES = 16, /* a table that is not the role's (7) */
    SAVORYLATCH_REASON_BAD_FORM = 17,      /* an update, slot, value or action that is not well formed; never the action of a DELETE (3) */
    SAVORYLATCH_REASON_TOO_WIDE = 18,      /* a value, other than a prefix length, not below 2 to its width; never a parameter of a DELETE (11) */
    SAVORYLATCH_REASON_RULE_BROKEN = 19,   /* a rule of the kinds or of the priority broken (3) */
    SAVORYLATCH_REASON_STORED = 20,        /* INSERT while a stored entry has the key (6) */
    SAVORYLATCH_REASON_NOT_STORED = 21,    /* MODIFY or DELETE while no stored entry has the key (5) */
    SAVORYLATCH_REASON_TABLE_FULL = 22,    /* INSERT, and the table holds its size (8) */
    SAVORYLATCH_REASON_SOME_FAILED = 23,   /* of a WRITE that was not refused: an update failed, and the pairs say which and why; with
                                              atomicity 1 nothing of the batch took effect (2) */
    /* there is no 24: it was for a full store, where every table is full and 22 is given */
    SAVORYLATCH_REASON_ROLLED_BACK = 25    /* an update of an atomic batch in which another failed: undone, or never tried (10) */
};

/* The status codes of the gRPC list that go with the reasons. */
enum savorylatch_status {
    SAVORYLATCH_STATUS_OK = 0,
    SAVORYLATCH_STATUS_UNKNOWN = 2,
    SAVORYLATCH_STATUS_INVALID_ARGUMENT = 3,
    SAVORYLATCH_STATUS_NOT_FOUND = 5,
    SAVORYLATCH_STATUS_ALREADY_EXISTS = 6,
    SAVORYLATCH_STATUS_PERMISSION_DENIED = 7,
    SAVORYLATCH_STATUS_RESOURCE_EXHAUSTED = 8,
    SAVORYLATCH_STATUS_FAILED_PRECONDITION = 9,
    SAVORYLATCH_STATUS_ABORTED = 10,
    SAVORYLATCH_STATUS_OUT_OF_RANGE = 11,
    SAVORYLATCH_STATUS_UNIMPLEMENTED = 12
};

/* ---- the functions */

#ifdef __cplusplus
extern "C" {
#endif

/* Makes a fresh agent for a device id: all streams closed, no marks, rows or entries. What the record and the store hold before
 * does not matter. */
void savorylatch_new(savorylatch_agent *agent, uint64_t device);

/* Hands the agent a frame and returns the reason. The answer is the reason, its status code, the number of records in two bytes,
 * big-endian, and the records: of 20 bytes for OPEN, CLOSE and ARBITRATE, of 2 for WRITE, of 220 for READ. Later bytes of the
 * answer buffer, and bytes of the store from SAVORYLATCH_STORE on, stay as they were. After SAVORYLATCH_REASON_TOO_SHORT nothing
 * has changed, and there is no answer. */
uint8_t savorylatch_call(savorylatch_agent *agent, const uint8_t *frame, size_t frame_length, uint8_t *store, size_t store_length,
                         uint8_t *answer, size_t answer_length);

#ifdef __cplusplus
}
#endif

#endif
