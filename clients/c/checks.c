// The cases of clients/python/tests/test_c_client.py that the example doesn't show: checks ADDRESS CASE.
#include "duqishom.h"

#include <stdio.h>
#include <stdlib.h>

static unsigned char memory[2 * DQ_LEAST_MEMORY];  // more than for a longest frame of writes
static const char *const family = "bal";

static void show(const char *what, dq_status status) { printf("%s: %s\n", what, dq_status_name(status)); }

static void show_found(dq_found found) {
    static const char *const kinds[] = {"Nothing", "Value", "Pending", "Unsent"};
    printf(" %s", kinds[found.kind]);
    if (found.kind == DQ_VALUE) printf(" %.*s", (int)found.value.size, (const char *)found.value.data);
    if (found.kind == DQ_PENDING) printf(" %llu", (unsigned long long)found.start);
}

static dq_item item_of(const char *row) {
    dq_item item;
    memset(&item, 0, sizeof item);
    item.row = dq_text(row);
    item.family = dq_text(family);
    return item;
}

static void show_commit(dq_connection *c, uint64_t start, const dq_cell_write *writes, unsigned count) {
    dq_committed answer;
    dq_status status = dq_commit(c, start, writes, count, &answer);
    printf("Commit %llu: %s", (unsigned long long)start, dq_status_name(status));
    if (status == DQ_OK) printf(" %llu %llu", (unsigned long long)answer.start, (unsigned long long)answer.stamp);
    if (status == DQ_CONFLICT) printf(" %llu at %u", (unsigned long long)answer.start, answer.place);
    printf("\n");
}

static void show_read(dq_connection *c, uint64_t start, int stays_open, dq_item *items, unsigned count) {
    printf("Read %llu:", (unsigned long long)start);
    dq_status status = dq_read_cells(c, &start, stays_open, items, count);
    printf(" %s %llu", dq_status_name(status), (unsigned long long)start);
    for (unsigned i = 0; status == DQ_OK && i < count; i++) show_found(items[i].found);
    printf("\n");
}

// The examples of docs/PROTOCOL.md, "Commit" and "Read".
static dq_status check_examples(dq_connection *c) {
    dq_bytes bob = dq_text("Bob"), joe = dq_text("Joe"), bal = dq_text(family);
    const dq_cell_write two[] = {{bob, bal, dq_text("11")}, {joe, bal, dq_none()}};
    const dq_cell_write again = {bob, bal, dq_text("12")}, last = {joe, bal, dq_text("5")};
    dq_item items[] = {item_of("Bob"), item_of("Joe"), item_of("Ann")};
    show_commit(c, 0, two, 2);
    show_commit(c, 1001, &again, 1);
    show_read(c, 0, 1, items, 3);
    show_commit(c, 1004, &last, 1);
    show_commit(c, 0, NULL, 0);
    show_read(c, 77, 0, NULL, 0);
    return DQ_OK;
}

static dq_status write_one(dq_transaction *t, void *context) {
    return dq_write(t, dq_text("Bob"), dq_text(family), dq_text((const char *)context));
}

// Two cells, the first of them twice.
static dq_status write_two(dq_transaction *t, void *context) {
    dq_status status = write_one(t, context);
    if (status == DQ_OK) status = write_one(t, context);
    return status == DQ_OK ? dq_erase(t, dq_text("Joe"), dq_text(family)) : status;
}

static dq_status read_one(dq_transaction *t, void *context) {
    dq_bytes value;
    dq_status status = dq_read(t, dq_text((const char *)context), dq_text(family), &value);
    if (status == DQ_OK) printf("%.*s\n", (int)value.size, value.data == NULL ? "" : (const char *)value.data);
    return status;
}

// As many cells as may be written, and a cell more; two writes of each, the second of the first cell an erasure.
static dq_status write_many(dq_transaction *t, void *context) {
    dq_status status = DQ_OK;
    char row[16];
    int count = *(const int *)context;
    for (int i = 0; status == DQ_OK && i < 2 * count; i++) {
        snprintf(row, sizeof row, "%03d", i % count);
        if (i == count) status = dq_erase(t, dq_text(row), dq_text(family));
        else status = dq_write(t, dq_text(row), dq_text(family), dq_text(row + (i > count)));
    }
    return DQ_OK;
}

static dq_status check_many(dq_connection *c) {
    dq_outcome outcome;
    int counts[] = {256, 257};
    char first[] = "000", last[] = "255";
    for (int i = 0; i < 2; i++) show("many", dq_run(c, write_many, &counts[i], &outcome));
    show("first", dq_run(c, read_one, first, NULL));
    return dq_run(c, read_one, last, NULL);
}

// A largest cell, in the least memory, and one more, for which there is no room.
static dq_status write_largest(dq_transaction *t, void *context) {
    static char bytes[65536];
    dq_status status = DQ_OK;
    for (int i = 0; status == DQ_OK && i < *(const int *)context; i++) {
        memset(bytes, 'a' + i, sizeof bytes);
        status = dq_write(t, dq_make(bytes, 4000), dq_make(bytes, 64), dq_make(bytes, sizeof bytes));
    }
    return DQ_OK;
}

static dq_status read_largest(dq_transaction *t, void *context) {
    char row[4000];
    dq_bytes value;
    (void)context;
    memset(row, 'a', sizeof row);
    dq_status status = dq_read(t, dq_make(row, sizeof row), dq_make(row, 64), &value);
    if (status == DQ_OK) printf("%zu bytes\n", value.size);
    return status;
}

// The largest cell 16 times in one reply, which has no room for the last one.
static dq_status read_longest(dq_connection *c) {
    char row[4000];
    dq_item items[16];
    uint64_t start = 0;
    unsigned values = 0;
    memset(row, 'a', sizeof row);
    memset(items, 0, sizeof items);
    for (int i = 0; i < 16; i++) {
        items[i].row = dq_make(row, sizeof row);
        items[i].family = dq_make(row, 64);
    }
    dq_status status = dq_read_cells(c, &start, 0, items, 16);
    for (int i = 0; i < 16; i++) values += items[i].found.kind == DQ_VALUE && items[i].found.value.size == 65536;
    printf("%u values, and %s\n", values, items[15].found.kind == DQ_UNSENT ? "Unsent" : "another answer");
    return status;
}

static dq_status check_room(dq_connection *c) {
    int counts[] = {1, 2};
    for (int i = 0; i < 2; i++) show("largest", dq_run(c, write_largest, &counts[i], NULL));
    show("longest", read_longest(c));
    return dq_run(c, read_largest, NULL, NULL);
}

// As many values as a frame has room for, in a connection with more memory than that.
static dq_status write_longest(dq_transaction *t, void *context) {
    static char bytes[65536];
    dq_status status = DQ_OK;
    int longest = *(const int *)context;
    char row[] = "00";
    for (int i = 0; status == DQ_OK && i < 16; i++) {
        snprintf(row, sizeof row, "%02d", i);
        status = dq_write(t, dq_text(row), dq_text(family), dq_make(bytes, i < 15 ? sizeof bytes : (size_t)longest));
    }
    show("writes", status);
    return DQ_OK;
}

// 16 writes take 18 bytes each besides their values, and the Commit 13: 1,048,572 - 13 - 16 * 18 - 15 * 65,536.
static dq_status check_frame(dq_connection *c) {
    int lengths[] = {65231, 65232};
    for (int i = 0; i < 2; i++) show("frame", dq_run(c, write_longest, &lengths[i], NULL));
    return DQ_OK;
}

// A session that holds a cell, and is then cleaned, as its lock stays: both fates.
static dq_status check_lock(dq_connection *c) {
    dq_bytes row = dq_text("Bob");
    dq_progress progress = {DQ_HELD, 0, 0, 0};
    dq_outcome outcome;
    uint64_t held = 0, start = 0, commit = 0;
    char two[] = "2", bob[] = "Bob";
    dq_item items[] = {item_of("Bob"), item_of("Joe"), item_of("Ann")};
    dq_status status = dq_begin(c, &held);
    if (status == DQ_OK) status = dq_set(c, held, row, dq_text(family), dq_text("1"));
    if (status == DQ_OK) status = dq_delete(c, held, dq_text("Joe"), dq_text(family));
    if (status == DQ_OK) status = dq_step(c, held, &progress);
    c->lock_wait = 30;
    show("over a lock", dq_run(c, write_one, two, &outcome));
    printf("attempts: %u\n", outcome.attempts);
    for (int i = 0; status == DQ_OK && i < 3; i++) status = dq_step(c, held, &progress);
    printf("stage: %d\n", (int)progress.stage);
    if (status == DQ_OK) status = dq_read_cells(c, &start, 0, items, 3);
    for (int i = 0; i < 3; i++) printf("%d%s", (int)items[i].found.kind, i < 2 ? " " : "\n");
    if (status == DQ_OK) status = dq_fate(c, held, row, dq_text(family), &commit);
    printf("committed: %d\n", commit != 0);
    if (status == DQ_OK) status = dq_fate(c, outcome.start, row, dq_text(family), &commit);
    printf("committed: %d\n", commit == outcome.commit);
    return status == DQ_OK ? dq_run(c, read_one, bob, NULL) : status;
}

static dq_status write_closed(dq_transaction *t, void *context) {
    dq_close(t->connection);
    return write_one(t, context);
}

// The reply to its commit can't come.
static dq_status write_unheard(dq_transaction *t, void *context) {
    (void)shutdown(t->connection->socket, SHUT_RD);
    return write_one(t, context);
}

static dq_status check_fate(dq_connection *c, const char *address) {
    char three[] = "3", bob[] = "Bob";
    dq_outcome outcome;
    uint64_t commit = 0;
    show("unheard", dq_run(c, write_unheard, three, &outcome));
    dq_status status = dq_connect(c, address, memory, DQ_LEAST_MEMORY);
    for (int i = 0; status == DQ_OK && commit == 0 && i < 100; i++) {
        if (i > 0) dqi_sleep(DQI_PAUSE);
        status = dq_fate(c, outcome.start, dq_text("Bob"), dq_text(family), &commit);
    }
    printf("committed: %d\n", commit > outcome.start);
    return status == DQ_OK ? dq_run(c, read_one, bob, NULL) : status;
}

// Adds 1 to a counter.
static dq_status add_one(dq_transaction *t, void *context) {
    dq_bytes row = dq_text("counter"), value;
    char text[16] = "0";
    (void)context;
    dq_status status = dq_read(t, row, dq_text(family), &value);
    if (status != DQ_OK) return status;
    if (value.size > 0 && value.size < sizeof text) memcpy(text, value.data, value.size);
    snprintf(text, sizeof text, "%d", atoi(text) + 1);
    return dq_write(t, row, dq_text(family), dq_text(text));
}

static dq_status check_counter(dq_connection *c) {
    dq_status status = DQ_OK;
    c->attempts = 1000;
    for (int i = 0; status == DQ_OK && i < 25; i++) status = dq_run(c, add_one, NULL, NULL);
    return status;
}

static dq_status run_again(dq_transaction *t, void *context) {
    return dq_run(t->connection, write_one, context, NULL);
}

static dq_status check_begin(dq_connection *c) {
    uint64_t start;
    return dq_begin(c, &start);
}

int main(int count, char **words) {
    dq_connection c;
    char value[] = "1";
    if (count != 3) return 2;
    dq_status status = dq_connect(&c, words[1], memory, DQ_LEAST_MEMORY - 1);
    if (status != DQ_NO_ROOM) return 3;
    int is_large = strcmp(words[2], "frame") == 0;
    status = dq_connect(&c, words[1], memory, is_large ? sizeof memory : DQ_LEAST_MEMORY);
    if (status == DQ_OK && is_large) status = check_frame(&c);
    else if (status == DQ_OK && strcmp(words[2], "examples") == 0) status = check_examples(&c);
    else if (status == DQ_OK && strcmp(words[2], "many") == 0) status = check_many(&c);
    else if (status == DQ_OK && strcmp(words[2], "room") == 0) status = check_room(&c);
    else if (status == DQ_OK && strcmp(words[2], "lock") == 0) status = check_lock(&c);
    else if (status == DQ_OK && strcmp(words[2], "fate") == 0) status = check_fate(&c, words[1]);
    else if (status == DQ_OK && strcmp(words[2], "counter") == 0) status = check_counter(&c);
    else if (status == DQ_OK && strcmp(words[2], "closed") == 0) status = dq_run(&c, write_closed, value, NULL);
    else if (status == DQ_OK && strcmp(words[2], "nested") == 0) status = dq_run(&c, run_again, value, NULL);
    else if (status == DQ_OK && strcmp(words[2], "write") == 0) status = dq_run(&c, write_one, value, NULL);
    else if (status == DQ_OK && strcmp(words[2], "two") == 0) status = dq_run(&c, write_two, value, NULL);
    else if (status == DQ_OK) status = check_begin(&c);
    show(words[2], status);
    dq_close(&c);
    dq_close(&c);
    return 0;
}
