/* A hall of three nodes in one process, the document's own schedule: node 0 is faulty and shows its batch to node 1 alone. Transport and clocks are loops
 * here, and no key card checks anything: a real host checks before it hands over (raudokiin.h). */
#include "raudokiin.h"

#include <stdio.h>
#include <stdlib.h>
#include <string.h>

enum { N = 3, F = 1, LIAR = 0 };

/* What one node holds and hands around. */
typedef struct {
    raudokiin_node node;
    uint8_t outbox[RAUDOKIIN_MESSAGE_MOST];
    size_t outbox_length;
    uint64_t log[RAUDOKIIN_LOG_MOST];
    size_t log_length;
    uint8_t mark[RAUDOKIIN_MARK_SIZE];
} station;

static station hall[N];

/* What node 0 shows to node 1 in round 1: primary 0, witness 0, entry 3.5.70. */
static const uint8_t lie[] = {0, 1, 1, 0, 0, 3, 0, 5, 0, 0, 0, 70};

static void done(uint8_t number, const char *call) {
    if (number != 0) {
        fprintf(stderr, "hall: %s is refused: %d\n", call, number);
        exit(1);
    }
}

static void start(size_t me, uint64_t entry) {
    raudokiin_tray tray = {0};
    done(raudokiin_put(&tray, entry), "put");
    if (raudokiin_put(&tray, entry) != 5) {
        fprintf(stderr, "hall: an entry was put twice\n");
        exit(1);
    }
    raudokiin_made made = raudokiin_new(N, F, me);
    done(made.number, "new");
    raudokiin_opened opened = raudokiin_open(made.node, tray, hall[me].outbox, sizeof hall[me].outbox);
    done(opened.number, "open");
    hall[me].node = opened.node;
    hall[me].outbox_length = opened.length;
}

/* One message into an inbox, after its length; where it ends. */
static size_t cut(uint8_t *inbox, size_t at, const uint8_t *message, size_t length) {
    inbox[at] = (uint8_t)(length % 256);
    inbox[at + 1] = (uint8_t)(length / 256);
    if (length != 0) memcpy(inbox + at + 2, message, length);
    return at + 2 + length;
}

/* The inbox of node `me` in a round: the outboxes of the others, whole; the own slot is silence. */
static size_t deliver(size_t round, size_t me, uint8_t *inbox) {
    size_t at = 0;
    for (size_t j = 0; j < N; j++) {
        if (j == me || (j == LIAR && (round != 1 || me != 1))) at = cut(inbox, at, NULL, 0);
        else if (j == LIAR) at = cut(inbox, at, lie, sizeof lie);
        else at = cut(inbox, at, hall[j].outbox, hall[j].outbox_length);
    }
    return at;
}

static void run_round(size_t round) {
    static uint8_t inbox[N][N * (2 + RAUDOKIIN_MESSAGE_MOST)];
    size_t length[N] = {0};
    for (size_t me = LIAR + 1; me < N; me++) length[me] = deliver(round, me, inbox[me]);
    for (size_t me = LIAR + 1; me < N; me++) {
        raudokiin_stepped stepped = raudokiin_step(hall[me].node, inbox[me], length[me], hall[me].outbox, sizeof hall[me].outbox);
        done(stepped.number, "step");
        hall[me].node = stepped.node;
        hall[me].outbox_length = stepped.length;
    }
}

/* A stand-in for the hash that makes a log's mark: a fold of its entries (FNV-1a), which no one should trust against a liar. */
static void make_mark(station *s) {
    uint64_t fold = 14695981039346656037u;
    for (size_t i = 0; i < s->log_length; i++) fold = (fold ^ s->log[i]) * 1099511628211u;
    memset(s->mark, 0, sizeof s->mark);
    memcpy(s->mark, &fold, sizeof fold);
}

static void finish(size_t me) {
    raudokiin_closed closed = raudokiin_close(hall[me].node, NULL, 0, hall[me].log, RAUDOKIIN_LOG_MOST);
    done(closed.number, "close");
    hall[me].log_length = closed.length;
    make_mark(&hall[me]);
}

/* The slots that every correct node hands around: those of correct nodes speak. */
static uint16_t count_signers(size_t me) {
    uint8_t slots[N * RAUDOKIIN_SLOT_SIZE] = {0};
    for (size_t j = LIAR + 1; j < N; j++) {
        slots[j * RAUDOKIIN_SLOT_SIZE] = 1;
        memcpy(slots + j * RAUDOKIIN_SLOT_SIZE + 1, hall[j].mark, RAUDOKIIN_MARK_SIZE);
    }
    raudokiin_signing_count count = raudokiin_signers(N, F, me, hall[me].mark, slots, sizeof slots);
    done(count.number, "signers");
    return count.mask;
}

static void print_log(const station *s) {
    printf("log=");
    for (size_t i = 0; i < s->log_length; i++) {
        uint64_t e = s->log[i];
        printf("%s%u.%u.%u", i == 0 ? "" : ",", (unsigned)(e >> 48), (unsigned)(e >> 32 & 0xffff), (unsigned)(e & 0xffffffff));
    }
    printf("\n");
}

static void print_signers(uint16_t mask) {
    const char *comma = "";
    printf("signers=");
    for (unsigned j = 0; j < N; j++) {
        if ((mask >> j & 1) == 0) continue;
        printf("%s%u", comma, j);
        comma = ",";
    }
    printf("\n");
}

int main(void) {
    start(1, RAUDOKIIN_ENTRY(1, 5, 40));
    start(2, RAUDOKIIN_ENTRY(2, 5, 60));
    for (size_t round = 1; round <= F + 1; round++) run_round(round);
    for (size_t me = LIAR + 1; me < N; me++) finish(me);
    printf("n=%d\nf=%d\n", N, F);
    for (size_t me = LIAR + 1; me < N; me++) {
        printf("node=%zu\n", me);
        print_log(&hall[me]);
        print_signers(count_signers(me));
    }
    raudokiin_meter_bar bar = raudokiin_bar(hall[1].log, hall[1].log_length, 2, 5, 5);
    done(bar.number, "bar");
    printf("bar of meter 2 from interval 5 to 5: %llu\n", (unsigned long long)bar.sum);
    return 0;
}
