// duqishom.h: a client of tabletd's gateway in C11 or C++, for Linux and other systems with POSIX sockets.
//
// A connection is one socket, and its functions block. It may be used by one thread at a time. There is no global state
// and no allocation: the caller gives the memory of a connection, and so its bound.
//
// The first part has requests of docs/PROTOCOL.md, one function each, with a session's start as argument. The second
// part has transactions: dq_run begins one, calls a function, commits, and tries again after a conflict.
//
// Protocol 4 is needed: an older program refuses commits and reads of several cells DQ_BAD_REQUEST.
//
//     static unsigned char memory[DQ_LEAST_MEMORY];
//     dq_connection store;
//     dq_status status = dq_connect(&store, "unix:/run/duqishom/socket", memory, sizeof memory);
//     if (status == DQ_OK) status = dq_run(&store, work, &context, NULL);
//     if (status != DQ_OK) fprintf(stderr, "%s\n", dq_status_name(status));
//     dq_close(&store);
//
// Include it before other headers, or compile with -D_POSIX_C_SOURCE=200809L.
#ifndef DUQISHOM_H
#define DUQISHOM_H

#ifndef _POSIX_C_SOURCE
#define _POSIX_C_SOURCE 200809L
#endif

#include <errno.h>
#include <netdb.h>
#include <netinet/in.h>
#include <netinet/tcp.h>
#include <stddef.h>
#include <stdint.h>
#include <string.h>
#include <sys/socket.h>
#include <sys/un.h>
#include <time.h>
#include <unistd.h>

#ifdef __cplusplus
extern "C" {
#endif

#define DQ_LONGEST_FRAME 1048580    // bytes of a reply, with its length
#define DQ_LONGEST_REQUEST 1048576  // the same of a request, to whose body a gateway adds four bytes
#define DQ_SPARE 8320             // bytes that a transaction's writes leave for other requests
#define DQ_MOST_CELLS 256         // cells that a session may write
#define DQ_LOCK_WAIT 1000         // milliseconds
#define DQ_ATTEMPTS 10
#define DQ_MOST_STAMP UINT64_C(9223372036854775807)

// The least bytes of a connection's memory: for a reply, a largest write, and DQ_SPARE.
#define DQ_LEAST_MEMORY (DQ_LONGEST_FRAME + 69632 + DQ_SPARE)

// The result of a call. 1 to 23 are the store's refusals; docs/OPERATIONS.md says what to do at each.
typedef enum dq_status {
    DQ_OK = 0,
    DQ_UNKNOWN_SESSION = 1,
    DQ_WRONG_PHASE,
    DQ_BAD_ROW,
    DQ_BAD_COLUMN,
    DQ_BAD_VALUE,
    DQ_TOO_MANY_WRITES,
    DQ_TOO_MANY_SESSIONS,
    DQ_EMPTY_COMMIT,
    DQ_UNKNOWN_CLEANER,
    DQ_UNKNOWN_COLLECTOR,
    DQ_UNKNOWN_TABLET,
    DQ_BAD_SPLIT,
    DQ_UNKNOWN_SERVER,
    DQ_BAD_COUNT,
    DQ_MEMTABLE_FULL,
    DQ_TOO_MANY_FILES,
    DQ_FILE_TOO_LARGE,
    DQ_EXHAUSTED,
    DQ_DEVICE,
    DQ_NO_MEMORY,
    DQ_DAMAGED,
    DQ_BAD_REQUEST,
    DQ_FRAME_TOO_LARGE = 23,

    DQ_CONFLICT = 300,   // another session has locked or committed one of the cells; nothing is committed
    DQ_NOT_CONNECTED,    // nobody serves at the address: errno says more, unless the host is unknown
    DQ_CONNECTION_LOST,  // the gateway has closed the connection; a request without a reply may be done
    DQ_OUTCOME_UNKNOWN,  // the same, during the commit of dq_run: dq_fate tells whether it was made
    DQ_MALFORMED_REPLY,  // bytes that are no reply; the connection is closed
    DQ_NO_ROOM,          // the request, or the transaction's writes, are too long for the memory or for one frame
    DQ_NESTED,           // dq_run in the work of dq_run, on the same connection
    DQ_USER = 1000,      // from here on to DQ_LAST_USER: statuses of the caller's, which dq_run passes on
    DQ_LAST_USER = 65535
} dq_status;

// The name of a status, as the documents have it.
static inline const char *dq_status_name(dq_status status) {
    static const char *const refusals[] = {
        "OK", "UnknownSession", "WrongPhase", "BadRow", "BadColumn", "BadValue", "TooManyWrites", "TooManySessions",
        "EmptyCommit", "UnknownCleaner", "UnknownCollector", "UnknownTablet", "BadSplit", "UnknownServer", "BadCount",
        "MemtableFull", "TooManyFiles", "FileTooLarge", "Exhausted", "Device", "NoMemory", "Damaged", "BadRequest",
        "FrameTooLarge"};
    static const char *const others[] = {"Conflict", "NotConnected", "ConnectionLost", "OutcomeUnknown",
                                         "MalformedReply", "NoRoom", "Nested"};
    unsigned number = (unsigned)status;
    if (number <= DQ_FRAME_TOO_LARGE) return refusals[number];
    if (number >= DQ_CONFLICT && number <= DQ_NESTED) return others[number - DQ_CONFLICT];
    return number >= DQ_USER ? "the caller's" : "an unknown refusal";
}

// Some bytes. `data` is NULL where nothing is meant, as a range without an end.
typedef struct dq_bytes {
    const void *data;
    size_t size;
} dq_bytes;

static inline dq_bytes dq_make(const void *data, size_t size) {
    dq_bytes made;
    made.data = data;
    made.size = size;
    return made;
}

static inline dq_bytes dq_text(const char *text) { return dq_make(text, strlen(text)); }

static inline dq_bytes dq_none(void) { return dq_make(NULL, 0); }

static inline int dq_equal(dq_bytes one, dq_bytes two) {
    return one.size == two.size && (one.size == 0 || memcmp(one.data, two.data, one.size) == 0);
}

// A connection. `lock_wait` and `attempts` may be changed after dq_connect; the rest is the functions' own.
typedef struct dq_connection {
    int socket;          // -1 when it is closed. SO_RCVTIMEO limits the wait for a reply: then the connection is lost
    unsigned lock_wait;  // milliseconds that a lock is waited for before it is cleaned: its session may still run
    unsigned attempts;   // of dq_run
    uint8_t *in;         // the last reply
    uint8_t *out;        // frames: the Commit of a transaction, and behind it the request that is being made
    size_t out_end, out_room;
    size_t frame;        // where the frame begins that is being made
    int is_full;         // whether that frame found no room
    int is_running;      // whether dq_run has it
} dq_connection;

// ---- Frames: internal ----

static inline dq_status dqi_close(dq_connection *c, dq_status status) {
    if (c->socket >= 0) close(c->socket);
    c->socket = -1;
    return status;
}

static inline void dqi_put(dq_connection *c, const void *data, size_t size) {
    if (size > c->out_room - c->out_end) c->is_full = 1;
    if (c->is_full || size == 0) return;
    memcpy(c->out + c->out_end, data, size);
    c->out_end += size;
}

static inline void dqi_encode(uint8_t *at, uint64_t value, unsigned width) {
    for (unsigned i = 0; i < width; i++) at[i] = (uint8_t)(value >> (8 * (width - 1 - i)));
}

static inline void dqi_number(dq_connection *c, uint64_t value, unsigned width) {
    uint8_t bytes[8];
    dqi_encode(bytes, value, width);
    dqi_put(c, bytes, width);
}

static inline void dqi_bytes(dq_connection *c, dq_bytes bytes) {
    if (bytes.size > DQ_LONGEST_FRAME) c->is_full = 1;
    dqi_number(c, bytes.size, 4);
    dqi_put(c, bytes.data, bytes.size);
}

static inline void dqi_option(dq_connection *c, dq_bytes bytes) {
    dqi_number(c, bytes.data != NULL, 1);
    if (bytes.data != NULL) dqi_bytes(c, bytes);
}

static inline void dqi_open(dq_connection *c, uint8_t operation) {
    c->frame = c->out_end;
    c->is_full = 0;
    dqi_number(c, 0, 4);
    dqi_number(c, operation, 1);
}

// Completes the frame. If it had no room, nothing of it stays.
static inline dq_status dqi_complete(dq_connection *c) {
    size_t size = c->out_end - c->frame;
    if (c->is_full || size > DQ_LONGEST_REQUEST) {
        c->out_end = c->frame;
        return DQ_NO_ROOM;
    }
    dqi_encode(c->out + c->frame, size - 4, 4);
    return DQ_OK;
}

static inline dq_status dqi_send(dq_connection *c) {
    for (size_t at = c->frame; c->socket >= 0 && at < c->out_end;) {
        ssize_t sent = send(c->socket, c->out + at, c->out_end - at, MSG_NOSIGNAL);
        if (sent > 0) at += (size_t)sent;
        else if (sent == 0 || errno != EINTR) return dqi_close(c, DQ_CONNECTION_LOST);
    }
    return c->socket < 0 ? DQ_CONNECTION_LOST : DQ_OK;
}

// The rest of a reply. `is_bad` is set, and 0 or nothing taken, where it ends too early.
typedef struct dqi_reader {
    const uint8_t *at;
    size_t left;
    int is_bad;
} dqi_reader;

static inline uint64_t dqi_take(dqi_reader *reader, unsigned width) {
    uint64_t value = 0;
    if (reader->left < width) reader->is_bad = 1;
    if (reader->is_bad) return 0;
    for (unsigned i = 0; i < width; i++) value = value << 8 | reader->at[i];
    reader->at += width;
    reader->left -= width;
    return value;
}

static inline dq_bytes dqi_take_bytes(dqi_reader *reader) {
    size_t size = (size_t)dqi_take(reader, 4);
    if (size > reader->left) reader->is_bad = 1;
    dq_bytes taken = dq_make(reader->at, reader->is_bad ? 0 : size);
    reader->at += taken.size;
    reader->left -= taken.size;
    return taken;
}

// The status of a reply whose fields were taken: they must have been there, and no more.
static inline dq_status dqi_end(dq_connection *c, const dqi_reader *reader) {
    return reader->is_bad || reader->left > 0 ? dqi_close(c, DQ_MALFORMED_REPLY) : DQ_OK;
}

// The body of a reply, which stays until the next one comes. Nothing may come behind it.
static inline dq_status dqi_receive(dq_connection *c, dqi_reader *body) {
    for (size_t came = 0; c->socket >= 0;) {
        dqi_reader frame = {c->in, came, 0};
        size_t size = (size_t)dqi_take(&frame, 4);
        int is_wrong = size > DQ_LONGEST_FRAME - 4 || size < frame.left;
        if (!frame.is_bad && is_wrong) return dqi_close(c, DQ_MALFORMED_REPLY);
        *body = frame;
        if (!frame.is_bad && size == frame.left) return DQ_OK;
        ssize_t got = recv(c->socket, c->in + came, DQ_LONGEST_FRAME - came, 0);
        if (got > 0) came += (size_t)got;
        else if (got == 0 || errno != EINTR) return dqi_close(c, DQ_CONNECTION_LOST);
    }
    return DQ_CONNECTION_LOST;
}

// Reads the reply to an operation up to its fields. A refusal is the status.
static inline dq_status dqi_reply(dq_connection *c, uint8_t operation, dqi_reader *fields) {
    dq_status status = dqi_receive(c, fields);
    if (status != DQ_OK) return status;
    uint8_t kind = (uint8_t)dqi_take(fields, 1);
    if (kind == 0xFF) {
        unsigned refusal = (unsigned)dqi_take(fields, 1);
        status = dqi_end(c, fields);
        return status == DQ_OK && refusal == 0 ? dqi_close(c, DQ_MALFORMED_REPLY)
               : status == DQ_OK               ? (dq_status)refusal
                                               : status;
    }
    return kind == (operation | 0x80) ? DQ_OK : dqi_close(c, DQ_MALFORMED_REPLY);
}

// Completes the frame, sends it alone, and reads the reply up to its fields.
static inline dq_status dqi_ask(dq_connection *c, dqi_reader *fields) {
    dq_status status = dqi_complete(c);
    if (status != DQ_OK) return status;
    uint8_t operation = c->out[c->frame + 4];
    status = dqi_send(c);
    c->out_end = c->frame;
    return status == DQ_OK ? dqi_reply(c, operation, fields) : status;
}

// The same for a request whose reply has no fields.
static inline dq_status dqi_tell(dq_connection *c) {
    dqi_reader fields;
    dq_status status = dqi_ask(c, &fields);
    return status == DQ_OK ? dqi_end(c, &fields) : status;
}

// ---- Connections ----

static inline int dqi_connect_unix(const char *path) {
    struct sockaddr_un place;
    memset(&place, 0, sizeof place);
    place.sun_family = AF_UNIX;
    if (strlen(path) >= sizeof place.sun_path) {
        errno = ENAMETOOLONG;
        return -1;
    }
    memcpy(place.sun_path, path, strlen(path));
    int made = socket(AF_UNIX, SOCK_STREAM | SOCK_CLOEXEC, 0);
    if (made < 0 || connect(made, (const struct sockaddr *)&place, sizeof place) == 0) return made;
    int why = errno;
    close(made);
    errno = why;
    return -1;
}

static inline int dqi_connect_host(const char *address, const char *colon) {
    char host[256];
    struct addrinfo wanted, *found = NULL;
    int made = -1, on = 1;
    if ((size_t)(colon - address) >= sizeof host) return -1;
    memcpy(host, address, (size_t)(colon - address));
    host[colon - address] = 0;
    memset(&wanted, 0, sizeof wanted);
    wanted.ai_socktype = SOCK_STREAM;
    if (getaddrinfo(host, colon + 1, &wanted, &found) != 0) return -1;
    for (struct addrinfo *each = found; each != NULL && made < 0; each = each->ai_next) {
        made = socket(each->ai_family, each->ai_socktype | SOCK_CLOEXEC, each->ai_protocol);
        if (made >= 0 && connect(made, each->ai_addr, each->ai_addrlen) != 0) {
            close(made);
            made = -1;
        }
    }
    freeaddrinfo(found);
    if (made >= 0) setsockopt(made, IPPROTO_TCP, TCP_NODELAY, &on, sizeof on);
    return made;
}

// Connects to the gateway at `unix:PATH`, at the path of a socket, or at HOST:PORT, with memory of at least
// DQ_LEAST_MEMORY bytes, which is the connection's until dq_close. The bytes above DQ_LONGEST_FRAME + DQ_SPARE are for
// the writes of a transaction, which are one frame: 17, and 13 for each, and its row, family and value.
// DQ_NO_ROOM, DQ_NOT_CONNECTED.
static inline dq_status dq_connect(dq_connection *c, const char *address, void *memory, size_t size) {
    const char *colon = strrchr(address, ':');
    memset(c, 0, sizeof *c);
    c->socket = -1;
    c->lock_wait = DQ_LOCK_WAIT;
    c->attempts = DQ_ATTEMPTS;
    if (size < DQ_LEAST_MEMORY) return DQ_NO_ROOM;
    c->in = (uint8_t *)memory;
    c->out = c->in + DQ_LONGEST_FRAME;
    c->out_room = size - DQ_LONGEST_FRAME;
    if (strncmp(address, "unix:", 5) == 0) c->socket = dqi_connect_unix(address + 5);
    else if (colon == NULL || strchr(address, '/') != NULL) c->socket = dqi_connect_unix(address);
    else c->socket = dqi_connect_host(address, colon);
    return c->socket < 0 ? DQ_NOT_CONNECTED : DQ_OK;
}

// Closes the connection, which ends its sessions. It may be called again.
static inline void dq_close(dq_connection *c) { (void)dqi_close(c, DQ_OK); }

// ---- Requests. Each is one trip, and any of them may answer DQ_CONNECTION_LOST or DQ_MALFORMED_REPLY, and then the
// connection is closed; DQ_NO_ROOM; or a refusal, and then nothing has changed. Bytes of an answer stay until the next
// call on the connection. ----

// Begins a session: its start, which names it.
static inline dq_status dq_begin(dq_connection *c, uint64_t *start) {
    dqi_reader fields;
    dqi_open(c, 0x01);
    dq_status status = dqi_ask(c, &fields);
    if (status != DQ_OK) return status;
    *start = dqi_take(&fields, 8);
    return dqi_end(c, &fields);
}

// The answer to a read of a cell. The numbers are the protocol's.
typedef enum dq_kind { DQ_NOTHING = 0, DQ_VALUE = 1, DQ_PENDING = 2, DQ_UNSENT = 3 } dq_kind;

typedef struct dq_found {
    dq_kind kind;
    dq_bytes value;  // of DQ_VALUE
    uint64_t start;  // of DQ_PENDING: the session whose lock is on the cell. Wait, or clean it if it has stopped
} dq_found;

static inline dq_found dqi_take_found(dqi_reader *fields) {
    dq_found found;
    unsigned kind = (unsigned)dqi_take(fields, 1);
    if (kind > DQ_UNSENT) fields->is_bad = 1;
    found.kind = (dq_kind)(kind & 3);
    found.value = kind == DQ_VALUE ? dqi_take_bytes(fields) : dq_none();
    found.start = kind == DQ_PENDING ? dqi_take(fields, 8) : 0;
    return found;
}

// Reads a cell as of the session's start. The session's own writes don't appear.
static inline dq_status dq_get(dq_connection *c, uint64_t start, dq_bytes row, dq_bytes family, dq_found *found) {
    dqi_reader fields;
    dqi_open(c, 0x02);
    dqi_number(c, start, 8);
    dqi_bytes(c, row);
    dqi_bytes(c, family);
    dq_status status = dqi_ask(c, &fields);
    if (status != DQ_OK) return status;
    *found = dqi_take_found(&fields);
    return dqi_end(c, &fields);
}

// Buffers a write in the session. The first cell that a session writes is its primary. If this is refused, the
// session's other writes stay: don't commit them, but stop it.
static inline dq_status dq_set(dq_connection *c, uint64_t start, dq_bytes row, dq_bytes family, dq_bytes value) {
    dqi_open(c, 0x03);
    dqi_number(c, start, 8);
    dqi_bytes(c, row);
    dqi_bytes(c, family);
    dqi_bytes(c, value);
    return dqi_tell(c);
}

// Buffers the deletion of a cell, a write like any other.
static inline dq_status dq_delete(dq_connection *c, uint64_t start, dq_bytes row, dq_bytes family) {
    dqi_open(c, 0x13);
    dqi_number(c, start, 8);
    dqi_bytes(c, row);
    dqi_bytes(c, family);
    return dqi_tell(c);
}

// The answer to a step. The numbers are the protocol's.
typedef enum dq_stage {
    DQ_HELD = 1,         // the cell `place` of `count` is locked
    DQ_CONFLICTING = 2,  // the cell `place` is another's. The session has ended; clean the cells before it
    DQ_STAMPED = 3,      // `stamp` will be the commit stamp
    DQ_COMMITTED = 4,    // the session has committed at `stamp`
    DQ_ROLLED_BACK = 5,  // by a cleaner. The session has ended; clean its other cells
    DQ_FINISHED = 6      // the cell `place` of `count` is free. After the last one the session has ended
} dq_stage;

typedef struct dq_progress {
    dq_stage stage;
    unsigned place, count;
    uint64_t stamp;
} dq_progress;

// Takes the session's next step. A session that has written n cells takes 2n + 1 of them.
static inline dq_status dq_step(dq_connection *c, uint64_t start, dq_progress *progress) {
    dqi_reader fields;
    dqi_open(c, 0x04);
    dqi_number(c, start, 8);
    dq_status status = dqi_ask(c, &fields);
    if (status != DQ_OK) return status;
    memset(progress, 0, sizeof *progress);
    unsigned stage = (unsigned)dqi_take(&fields, 1);
    if (stage < DQ_HELD || stage > DQ_FINISHED) return dqi_close(c, DQ_MALFORMED_REPLY);
    progress->stage = (dq_stage)stage;
    if (stage == DQ_STAMPED || stage == DQ_COMMITTED) progress->stamp = dqi_take(&fields, 8);
    if (stage == DQ_HELD || stage == DQ_CONFLICTING || stage == DQ_FINISHED) {
        progress->place = (unsigned)dqi_take(&fields, 2);
    }
    if (stage == DQ_HELD || stage == DQ_FINISHED) progress->count = (unsigned)dqi_take(&fields, 2);
    return dqi_end(c, &fields);
}

// Ends the session. Cells that it holds stay locked until they are cleaned.
static inline dq_status dq_stop(dq_connection *c, uint64_t start) {
    dqi_open(c, 0x05);
    dqi_number(c, start, 8);
    return dqi_tell(c);
}

// A write of a commit: a deletion, if the value is none.
typedef struct dq_cell_write {
    dq_bytes row, family, value;
} dq_cell_write;

// The answer to a commit, after which the session has ended. What isn't told is 0.
typedef struct dq_committed {
    uint64_t start;  // of the session
    uint64_t stamp;  // of the commit
    unsigned place;  // of DQ_CONFLICT: the session's first cell that is another's, counted from 1
} dq_committed;

static inline void dqi_open_commit(dq_connection *c, uint64_t start, unsigned count) {
    dqi_open(c, 0x32);
    dqi_number(c, start, 8);
    dqi_number(c, count, 4);
}

static inline void dqi_put_write(dq_connection *c, dq_bytes row, dq_bytes family, dq_bytes value) {
    dqi_bytes(c, row);
    dqi_bytes(c, family);
    dqi_option(c, value);
}

static inline dq_status dqi_ask_commit(dq_connection *c, dq_committed *answer) {
    dqi_reader fields;
    memset(answer, 0, sizeof *answer);
    dq_status status = dqi_ask(c, &fields);
    if (status != DQ_OK) return status;
    unsigned kind = (unsigned)dqi_take(&fields, 1);
    if (kind != 1 && kind != 2) fields.is_bad = 1;
    answer->start = dqi_take(&fields, 8);
    if (kind == 1) answer->stamp = dqi_take(&fields, 8);
    if (kind == 2) answer->place = (unsigned)dqi_take(&fields, 2);
    status = dqi_end(c, &fields);
    return status == DQ_OK && kind == 2 ? DQ_CONFLICT : status;
}

// Puts writes behind those that a session has, and commits it: a new session, if `start` is 0. It leaves no locks. At
// DQ_CONFLICT nothing is committed. If the connection is lost, dq_fate tells whether it was made, but not of a new one.
static inline dq_status dq_commit(dq_connection *c, uint64_t start, const dq_cell_write *writes, unsigned count,
                                  dq_committed *answer) {
    dqi_open_commit(c, start, count);
    for (unsigned i = 0; i < count; i++) dqi_put_write(c, writes[i].row, writes[i].family, writes[i].value);
    return dqi_ask_commit(c, answer);
}

// A cell, and what is found there.
typedef struct dq_item {
    dq_bytes row, family;
    dq_found found;
} dq_item;

// Reads 1 to 256 cells, which the items have, as of the start of a session: `*start`, or of a new one if that is 0, and
// then it is given there. The session stays open or ends. The items get what is found: DQ_UNSENT where a value would
// make the reply too long, so that dq_get reads it.
static inline dq_status dq_read_cells(dq_connection *c, uint64_t *start, int stays_open, dq_item *items,
                                      unsigned count) {
    dqi_reader fields;
    dqi_open(c, 0x33);
    dqi_number(c, *start, 8);
    dqi_number(c, stays_open != 0, 1);
    dqi_number(c, count, 4);
    for (unsigned i = 0; i < count; i++) {
        dqi_bytes(c, items[i].row);
        dqi_bytes(c, items[i].family);
    }
    dq_status status = dqi_ask(c, &fields);
    if (status != DQ_OK) return status;
    *start = dqi_take(&fields, 8);
    if (dqi_take(&fields, 4) != count) fields.is_bad = 1;
    for (unsigned i = 0; i < count; i++) items[i].found = dqi_take_found(&fields);
    return dqi_end(c, &fields);
}

// The cells of a scan: all, if everything is 0 or none.
typedef struct dq_range {
    dq_bytes after_row, after_family;  // begins behind this cell, which needn't exist
    dq_bytes last_row;                 // included
    dq_bytes family;                   // only this one
    int keys_only;                     // whether values aren't sent
    unsigned cells;                    // how many cells a request may look at: 1 to 1,000; 0 is 1,000
} dq_range;

// A batch of a scan. Unless `is_end`, the next one begins after the cell `upto_row`, `upto_family`.
typedef struct dq_scanned {
    int is_end;
    dq_bytes upto_row, upto_family;
    unsigned count;  // items that dq_next hasn't given yet
    dqi_reader items;
} dq_scanned;

// Gives the next item of a batch. 0 if there is none.
static inline int dq_next(dq_scanned *scanned, dq_item *item) {
    if (scanned->count == 0) return 0;
    scanned->count--;
    item->row = dqi_take_bytes(&scanned->items);
    item->family = dqi_take_bytes(&scanned->items);
    item->found = dqi_take_found(&scanned->items);
    return !scanned->items.is_bad;
}

// Reads a batch of cells as of the session's start. Cells without a value aren't among its items, and locked ones are
// DQ_PENDING. The range may have bytes of the last batch.
static inline dq_status dq_scan(dq_connection *c, uint64_t start, const dq_range *range, dq_scanned *scanned) {
    dqi_reader fields;
    dq_item item;
    dqi_open(c, 0x31);
    dqi_number(c, start, 8);
    dqi_number(c, range->keys_only != 0, 1);
    dqi_option(c, range->after_row);
    if (range->after_row.data != NULL) dqi_bytes(c, range->after_family);
    dqi_option(c, range->last_row);
    dqi_option(c, range->family);
    dqi_number(c, range->cells == 0 ? 1000 : range->cells, 4);
    dq_status status = dqi_ask(c, &fields);
    if (status != DQ_OK) return status;
    memset(scanned, 0, sizeof *scanned);
    unsigned kind = (unsigned)dqi_take(&fields, 1);
    if (kind != 1 && kind != 2) fields.is_bad = 1;
    scanned->is_end = kind == 1;
    if (kind == 2) scanned->upto_row = dqi_take_bytes(&fields);
    if (kind == 2) scanned->upto_family = dqi_take_bytes(&fields);
    scanned->count = (unsigned)dqi_take(&fields, 4);
    scanned->items = fields;
    dq_scanned whole = *scanned;
    while (dq_next(&whole, &item)) {}
    return dqi_end(c, &whole.items);
}

// The columns of a cell.
typedef enum dq_column { DQ_DATA = 1, DQ_LOCK = 2, DQ_WRITE = 3 } dq_column;

// Reads the newest version of a column between two stamps. `stamp` is 0 if there is none.
static inline dq_status dq_raw(dq_connection *c, dq_bytes row, dq_bytes family, dq_column column, uint64_t from,
                               uint64_t to, uint64_t *stamp, dq_bytes *value) {
    dqi_reader fields;
    dqi_open(c, 0x11);
    dqi_bytes(c, row);
    dqi_bytes(c, family);
    dqi_number(c, (uint64_t)column, 1);
    dqi_number(c, from, 8);
    dqi_number(c, to, 8);
    dq_status status = dqi_ask(c, &fields);
    if (status != DQ_OK) return status;
    int is_there = dqi_take(&fields, 1) != 0;
    *stamp = is_there ? dqi_take(&fields, 8) : 0;
    *value = is_there ? dqi_take_bytes(&fields) : dq_none();
    return dqi_end(c, &fields);
}

// Writes a tablet's memtable as a file, which makes room after DQ_MEMTABLE_FULL. Tablets are numbered from 1.
static inline dq_status dq_minor(dq_connection *c, uint32_t tablet) {
    dqi_open(c, 0x0A);
    dqi_number(c, tablet, 4);
    return dqi_tell(c);
}

// Clears the lock of a cell, if there is one: its session's write counts if the session has committed, and is gone
// otherwise. A session that runs is rolled back, so wait first. Three trips.
static inline dq_status dq_clean(dq_connection *c, dq_bytes row, dq_bytes family) {
    dqi_reader fields;
    dqi_open(c, 0x06);
    dqi_bytes(c, row);
    dqi_bytes(c, family);
    dq_status status = dqi_ask(c, &fields);
    if (status != DQ_OK) return status;
    if (dqi_take(&fields, 1) == 0) return dqi_end(c, &fields);
    uint64_t cleaner = dqi_take(&fields, 8);
    dqi_take(&fields, 8);
    status = dqi_end(c, &fields);
    for (unsigned answer = 1; status == DQ_OK && answer == 1;) {
        dqi_open(c, 0x07);
        dqi_number(c, cleaner, 8);
        status = dqi_ask(c, &fields);
        if (status != DQ_OK) break;
        answer = (unsigned)dqi_take(&fields, 1);
        if (answer == 2) dqi_take(&fields, 8);
        status = dqi_end(c, &fields);
    }
    return status;
}

static inline void dqi_sleep(unsigned milliseconds) {
    struct timespec time;
    time.tv_sec = (time_t)(milliseconds / 1000);
    time.tv_nsec = (long)(milliseconds % 1000) * 1000000L;
    while (nanosleep(&time, &time) != 0 && errno == EINTR) {}
}

#define DQI_PAUSE 10  // milliseconds

// Waits until the lock that is on a cell is gone, for at most `lock_wait`, and then cleans it.
static inline dq_status dq_free(dq_connection *c, dq_bytes row, dq_bytes family) {
    uint64_t first = 0, stamp = 0;
    dq_bytes lock;
    for (unsigned waited = 0;; waited += DQI_PAUSE) {
        dq_status status = dq_raw(c, row, family, DQ_LOCK, 0, DQ_MOST_STAMP, &stamp, &lock);
        if (waited == 0) first = stamp;
        if (status != DQ_OK || stamp == 0 || stamp != first) return status;
        if (waited >= c->lock_wait) return dq_clean(c, row, family);
        dqi_sleep(DQI_PAUSE);
    }
}

// The fate of a commit whose reply was lost, asked on a new connection: by the session's start, and the first cell that
// it wrote. `commit` is its stamp, or 0 if nothing is committed and nothing will be. But if this side has closed the
// old connection, as after SO_RCVTIMEO, the gateway may still have the request, and 0 may come too early.
static inline dq_status dq_fate(dq_connection *c, uint64_t start, dq_bytes row, dq_bytes family, uint64_t *commit) {
    uint64_t stamp = 0, above = DQ_MOST_STAMP;
    dq_bytes value;
    *commit = 0;
    dq_status status = dq_raw(c, row, family, DQ_LOCK, start, start, &stamp, &value);
    if (status == DQ_OK && stamp != 0) status = dq_free(c, row, family);
    while (status == DQ_OK) {
        status = dq_raw(c, row, family, DQ_WRITE, start, above, &stamp, &value);
        if (status != DQ_OK || stamp == 0) break;
        dqi_reader record = {(const uint8_t *)value.data, value.size, 0};
        if (dqi_take(&record, 8) == start) {
            *commit = stamp;
            break;
        }
        above = stamp - 1;
    }
    return status;
}

// ---- Transactions ----

// A transaction in the work of dq_run. Its writes are in the connection's memory, as a Commit that isn't sent yet.
typedef struct dq_transaction {
    dq_connection *connection;
    uint64_t start;    // its session, for dq_get, dq_read_cells and dq_scan, which don't show its writes
    unsigned writes;   // calls of dq_write and dq_erase
    unsigned cells;    // different cells among them
    dq_status failed;  // the first of these calls that didn't succeed: then nothing is committed
} dq_transaction;

#define DQI_COMMIT_HEAD 17  // bytes before the writes of a Commit

// The write at a place in the memory. Returns where the next one begins.
static inline size_t dqi_written(const dq_connection *c, size_t at, dq_cell_write *write) {
    dqi_reader rest = {c->out + at, c->out_end - at, 0};
    write->row = dqi_take_bytes(&rest);
    write->family = dqi_take_bytes(&rest);
    write->value = dqi_take(&rest, 1) == 1 ? dqi_take_bytes(&rest) : dq_none();
    return c->out_end - rest.left;
}

// Whether the transaction has written a cell before the place `end` in the memory, and its last value.
static inline int dqi_has(const dq_connection *c, size_t end, dq_bytes row, dq_bytes family, dq_bytes *value) {
    int has = 0;
    for (size_t at = DQI_COMMIT_HEAD; at < end;) {
        dq_cell_write write;
        at = dqi_written(c, at, &write);
        if (!dq_equal(write.row, row) || !dq_equal(write.family, family)) continue;
        has = 1;
        *value = write.value;
    }
    return has;
}

// Reads a cell: the transaction's own write, or else the last value committed by its start. `value->data` is NULL if it
// has none. A lock is waited for, and then cleaned. The bytes stay until the next call on the connection.
static inline dq_status dq_read(dq_transaction *t, dq_bytes row, dq_bytes family, dq_bytes *value) {
    dq_connection *c = t->connection;
    uint64_t lock = 0;
    dq_found found;
    *value = dq_none();
    if (dqi_has(c, c->out_end, row, family, value)) return DQ_OK;
    for (unsigned waited = 0;; waited += DQI_PAUSE) {
        dq_status status = dq_get(c, t->start, row, family, &found);
        if (status != DQ_OK) return status;
        if (found.kind != DQ_PENDING) break;
        if (found.start != lock) waited = 0;
        lock = found.start;
        if (waited >= c->lock_wait) status = dq_clean(c, row, family);
        else dqi_sleep(DQI_PAUSE);
        if (status != DQ_OK) return status;
    }
    if (found.kind == DQ_VALUE) *value = found.value;
    return DQ_OK;
}

static inline dq_status dqi_write(dq_transaction *t, dq_bytes row, dq_bytes family, dq_bytes value) {
    dq_connection *c = t->connection;
    size_t from = c->out_end;
    dq_bytes before;
    unsigned is_new = !dqi_has(c, from, row, family, &before);
    c->is_full = 0;
    dqi_put_write(c, row, family, value);
    int is_too_long = c->is_full || c->out_end > DQ_LONGEST_REQUEST || c->out_room - c->out_end < DQ_SPARE;
    int is_too_many = t->cells + is_new > DQ_MOST_CELLS;
    dq_status status = is_too_long ? DQ_NO_ROOM : is_too_many ? DQ_TOO_MANY_WRITES : DQ_OK;
    if (status != DQ_OK) {
        c->out_end = from;
        if (t->failed == DQ_OK) t->failed = status;
        return status;
    }
    t->cells += is_new;
    t->writes++;
    return DQ_OK;
}

// Sets a cell at the commit, which says if the store refuses it. The bytes are copied. DQ_NO_ROOM, DQ_TOO_MANY_WRITES.
static inline dq_status dq_write(dq_transaction *t, dq_bytes row, dq_bytes family, dq_bytes value) {
    return dqi_write(t, row, family, value.data == NULL ? dq_text("") : value);
}

// Deletes a cell at the commit.
static inline dq_status dq_erase(dq_transaction *t, dq_bytes row, dq_bytes family) {
    return dqi_write(t, row, family, dq_none());
}

// Frees the cell in conflict, which has this place among the transaction's cells.
static inline void dqi_free_place(dq_transaction *t, unsigned place) {
    dq_connection *c = t->connection;
    for (size_t at = DQI_COMMIT_HEAD, next; place > 0 && at < c->out_end; at = next) {
        dq_cell_write write;
        dq_bytes before;
        next = dqi_written(c, at, &write);
        if (!dqi_has(c, at, write.row, write.family, &before)) place--;
        if (place == 0) (void)dq_free(c, write.row, write.family);
    }
}

// Commits the writes, or stops the session if there are none or one is refused.
static inline dq_status dqi_commit(dq_transaction *t, uint64_t *stamp) {
    dq_connection *c = t->connection;
    size_t end = c->out_end;
    dq_committed answer;
    if (t->writes == 0 || c->socket < 0) return dq_stop(c, t->start);
    dqi_encode(c->out + DQI_COMMIT_HEAD - 4, t->writes, 4);
    c->frame = 0;
    c->is_full = 0;
    dq_status status = dqi_ask_commit(c, &answer);
    c->out_end = end;
    if (c->socket < 0) return DQ_OUTCOME_UNKNOWN;
    *stamp = answer.stamp;
    if (status == DQ_CONFLICT) dqi_free_place(t, answer.place);
    else if (status != DQ_OK) (void)dq_stop(c, t->start);
    return status;
}

// The work of a transaction. It may be called several times, so it does nothing that can't be done twice. It reads by
// dq_read, dq_get, dq_read_cells and dq_scan, writes by dq_write and dq_erase, and returns DQ_OK to commit. Anything
// else stops the transaction, and dq_run returns it, but DQ_CONFLICT begins the next attempt.
typedef dq_status dq_work(dq_transaction *t, void *context);

typedef struct dq_outcome {
    uint64_t start;     // of the last attempt's session
    uint64_t commit;    // its commit stamp, or 0 if it hasn't committed, has written nothing, or its fate is unknown
    unsigned attempts;
} dq_outcome;

// Does work in a transaction: begins a session, calls the work, and commits. After DQ_CONFLICT it waits until the lock
// of the cell in conflict is gone, or cleans it, pauses, and tries again, `attempts` times in all. The outcome may be
// NULL. At DQ_OUTCOME_UNKNOWN, connect anew and call dq_fate.
static inline dq_status dq_run(dq_connection *c, dq_work *work, void *context, dq_outcome *outcome) {
    dq_outcome unused, *made = outcome == NULL ? &unused : outcome;
    dq_status status = DQ_OK;
    memset(made, 0, sizeof *made);
    if (c->is_running) return DQ_NESTED;
    c->is_running = 1;
    for (;;) {
        dq_transaction t;
        memset(&t, 0, sizeof t);
        t.connection = c;
        c->out_end = 0;
        status = dq_begin(c, &t.start);
        if (status != DQ_OK) break;
        made->start = t.start;
        made->attempts++;
        dqi_open_commit(c, t.start, 0);
        status = work(&t, context);
        if (status == DQ_OK) status = t.failed;
        if (status == DQ_OK) status = dqi_commit(&t, &made->commit);
        else (void)dq_stop(c, t.start);
        if (status != DQ_CONFLICT || made->attempts >= c->attempts) break;
        uint64_t longest = made->attempts < 7 ? UINT64_C(10) << made->attempts : 1000;
        dqi_sleep((unsigned)((t.start * UINT64_C(0x9E3779B97F4A7C15) >> 33) % longest));  // as if by chance
    }
    c->out_end = 0;
    c->is_running = 0;
    return status;
}

#ifdef __cplusplus
}
#endif

#endif
