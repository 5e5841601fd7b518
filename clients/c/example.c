// Transfers between accounts over a gateway: example ADDRESS. It shows a transaction that is retried after a conflict,
// one that is refused, a scan, requests one by one, and what a client sees when the gateway is gone.
//
//     cc -std=c11 -o example example.c
#include "duqishom.h"

#include <stdio.h>
#include <stdlib.h>

static unsigned char memory[2][DQ_LEAST_MEMORY];

// A transfer, and another connection that comes between in its first attempt, if there is one.
typedef struct transfer {
    const char *giver, *taker;
    int amount, has, got;
    dq_connection *rival;
} transfer;

static dq_status read_account(dq_transaction *t, const char *account, int *amount) {
    dq_bytes value;
    char text[16] = "";
    dq_status status = dq_read(t, dq_text(account), dq_text("bal"), &value);
    if (status == DQ_OK && value.size < sizeof text && value.size > 0) memcpy(text, value.data, value.size);
    *amount = atoi(text);
    return status;
}

static dq_status write_account(dq_transaction *t, const char *account, int amount) {
    char text[16];
    snprintf(text, sizeof text, "%d", amount);
    return dq_write(t, dq_text(account), dq_text("bal"), dq_text(text));
}

static dq_status move_amount(dq_transaction *t, void *context) {
    transfer *asked = (transfer *)context;
    dq_status status = read_account(t, asked->giver, &asked->has);
    if (status == DQ_OK) status = read_account(t, asked->taker, &asked->got);
    if (status != DQ_OK) return status;
    if (asked->has < asked->amount) return DQ_USER;
    if (asked->rival != NULL) {
        transfer other = {asked->giver, "Eve", 1, 0, 0, NULL};
        dq_connection *rival = asked->rival;
        asked->rival = NULL;
        status = dq_run(rival, move_amount, &other, NULL);
    }
    asked->has -= asked->amount;
    asked->got += asked->amount;
    if (status == DQ_OK) status = write_account(t, asked->giver, asked->has);
    return status == DQ_OK ? write_account(t, asked->taker, asked->got) : status;
}

static void show_transfer(dq_connection *store, transfer asked) {
    dq_outcome outcome;
    dq_status status = dq_run(store, move_amount, &asked, &outcome);
    if (status == DQ_OK) printf("%s has %d, %s has %d", asked.giver, asked.has, asked.taker, asked.got);
    else printf("%s can't give %d: %s", asked.giver, asked.amount, dq_status_name(status));
    printf("; attempts: %u\n", outcome.attempts);
}

static dq_status open_accounts(dq_transaction *t, void *context) {
    (void)context;
    dq_status status = write_account(t, "Bob", 20);
    return status == DQ_OK ? write_account(t, "Joe", 2) : status;
}

// Its second write is refused, so the first isn't made either.
static dq_status write_badly(dq_transaction *t, void *context) {
    dq_status status = write_account(t, "Ann", 5);
    (void)context;
    return status == DQ_OK ? dq_write(t, dq_text("Ann"), dq_text("no:family"), dq_text("")) : status;
}

static dq_status list_accounts(dq_transaction *t, void *context) {
    dq_range range;
    dq_scanned batch;
    dq_item item;
    (void)context;
    memset(&range, 0, sizeof range);
    range.cells = 2;
    do {
        dq_status status = dq_scan(t->connection, t->start, &range, &batch);
        if (status != DQ_OK) return status;
        range.after_row = batch.upto_row;
        range.after_family = batch.upto_family;
        while (dq_next(&batch, &item)) {
            dq_bytes value = item.found.kind == DQ_VALUE ? item.found.value : dq_text("locked");
            printf("%.*s: %.*s\n", (int)item.row.size, (const char *)item.row.data, (int)value.size,
                   (const char *)value.data);
        }
    } while (!batch.is_end);
    return DQ_OK;
}

// The deletion of a cell in two requests: a read that begins a session, and a commit in it. The conflict afterwards is
// with this deletion.
static dq_status delete_by_hand(dq_connection *store) {
    uint64_t old, start = 0;
    dq_item item;
    dq_committed answer;
    memset(&item, 0, sizeof item);
    item.row = dq_text("Eve");
    item.family = dq_text("bal");
    dq_cell_write deletion = {dq_text("Eve"), dq_text("bal"), dq_none()};
    dq_status status = dq_begin(store, &old);
    if (status == DQ_OK) status = dq_read_cells(store, &start, 1, &item, 1);
    if (status != DQ_OK) return status;
    dq_bytes value = item.found.kind == DQ_VALUE ? item.found.value : dq_text("nothing");
    printf("has %.*s; ", (int)value.size, (const char *)value.data);
    status = dq_commit(store, start, &deletion, 1, &answer);
    if (status != DQ_OK) return status;
    status = dq_commit(store, old, &deletion, 1, &answer);
    printf("deleted; %s at the cell %u\n", dq_status_name(status), answer.place);
    return status == DQ_CONFLICT ? DQ_OK : status;
}

int main(int count, char **words) {
    dq_connection store, rival;
    if (count != 2) return 2;
    dq_status status = dq_connect(&store, words[1], memory[0], sizeof memory[0]);
    if (status == DQ_OK) status = dq_connect(&rival, words[1], memory[1], sizeof memory[1]);
    if (status == DQ_OK) status = dq_run(&store, open_accounts, NULL, NULL);
    if (status != DQ_OK) {
        fprintf(stderr, "%s: %s\n", words[1], dq_status_name(status));
        return 1;
    }
    transfer small = {"Bob", "Joe", 7, 0, 0, NULL}, contested = {"Bob", "Joe", 3, 0, 0, &rival};
    transfer large = {"Bob", "Joe", 100, 0, 0, NULL};
    show_transfer(&store, small);
    show_transfer(&store, contested);
    show_transfer(&store, large);
    printf("a bad write: %s\n", dq_status_name(dq_run(&store, write_badly, NULL, NULL)));
    (void)dq_run(&store, list_accounts, NULL, NULL);
    printf("by hand: %s\n", dq_status_name(delete_by_hand(&store)));
    printf("end the gateway, then press return\n");
    fflush(stdout);
    (void)getchar();
    show_transfer(&store, small);
    printf("again: %s\n", dq_status_name(dq_connect(&store, words[1], memory[0], sizeof memory[0])));
    dq_close(&store);
    dq_close(&rival);
    return 0;
}
