/* The calls of a Logres log node, for hosts on x86-64 Linux: link libhost.a, which `rt lib` in crates/host writes.
 *
 * Each call is one call of the proved crates and keeps that call's promise for every value that its types allow: it ends, it reads and writes
 * nothing but what it is handed, and its answer, the state and each byte of lent memory are those that the document "The log nodes" states. The words
 * above each call are that document's. No call keeps anything between calls; calls on different memory may run at once.
 *
 * What a host owes:
 *  - A pointer points to as many elements as its length says (a tray to one tray, a mark to 32 bytes), aligned as their
 *    type asks. Where the length is 0 the pointer may be NULL. A pointer that has no length is never NULL.
 *  - Lent memory (a pointer without const) overlaps no other memory handed to the same call, and nobody else reads or writes it until the call returns.
 *  - An outbox may be 3,960 bytes long and an output of a close 4,096 entries: then no call of theirs is refused by 9.
 *  - A witness bit stands in an inbox only after the key card has checked that node's signature over primary and batch; a slot speaks only after the
 *    key card has checked the signature over its mark.
 *  - The own bit in an outbox is the order to sign: the host has the key card sign that primary and batch before the record is sent.
 *  - An inbox is cut well: exactly n messages, senders 0 to n - 1, each after its length in two bytes, low byte first; length 0 is silence. A message
 *    too long for its two length bytes comes as silence.
 *
 * A refusal returns its number and nothing else of use (counts, lengths, masks and sums 0); tray, node and lent memory are then as they were. 0 is done.
 * Where a call is done, lent memory beyond the written length is as it was.
 *
 *   1  n, f or the own number breaks the sizes        7  a log does not ascend strictly, or has more than 4,096 entries
 *   2  the node or the tray is not sound, or no       8  the new log would exceed 4,096
 *      readable record says the vote to be written    9  the lent output is shorter than what would be written
 *   3  the call is out of its phase                  10  fewer than f + 1 signers
 *   4  the inbox is ill cut, or the slots are        11  a bar whose first interval is after its last
 *      not 33 * n bytes
 *   5  the entry is in the tray already               A call checks the rows that concern it, in this order.
 *   6  the tray holds 16
 */
#ifndef RAUDOKIIN_H
#define RAUDOKIIN_H

#include <stdbool.h>
#include <stddef.h>
#include <stdint.h>

#ifdef __cplusplus
extern "C" {
#define RAUDOKIIN_ASSERT static_assert
#define RAUDOKIIN_ALIGNMENT alignof
#else
#define RAUDOKIIN_ASSERT _Static_assert
#define RAUDOKIIN_ALIGNMENT _Alignof
#endif

enum {
    RAUDOKIIN_NODES_MOST = 16,     /* nodes of a hall */
    RAUDOKIIN_BATCH_MOST = 16,     /* entries of a batch */
    RAUDOKIIN_LOG_MOST = 4096,     /* entries of a log */
    RAUDOKIIN_RECORD_MOST = 132,   /* bytes of a record */
    RAUDOKIIN_MESSAGE_MOST = 3960, /* bytes of a message */
    RAUDOKIIN_MARK_SIZE = 32,      /* bytes of a log mark */
    RAUDOKIIN_SLOT_SIZE = 33       /* bytes of a slot: 1 where it speaks, then a mark */
};

/* An entry is a 64-bit number: meter (16 high bits), interval (16), watt-hours (32 low bits). */
#define RAUDOKIIN_ENTRY(meter, interval, watt_hours) \
    ((uint64_t)(meter) << 48 | (uint64_t)(interval) << 32 | (uint64_t)(watt_hours))

/* ---- The tray */

/* Entries that ascend strictly, `count` of them; the unused places are zero. All zeros is the empty tray. */
typedef struct {
    size_t count;
    uint64_t entries[RAUDOKIIN_BATCH_MOST];
} raudokiin_tray;

/* An entry handed in goes to its place in the very tray that was lent; the other entries keep their order. Refusals: 2, 5, 6. */
uint8_t raudokiin_put(raudokiin_tray *tray, uint64_t entry);

/* ---- The node */

/* A node's state: a block to be kept and handed on, of which nothing is known here but its size and alignment. It may be copied. Any bytes may be
 * handed in; a block that no call answered is refused by 2 unless it is a sound state. */
typedef struct {
    uint64_t block[581];
} raudokiin_node;

typedef struct {
    uint8_t number;
    raudokiin_node node;
} raudokiin_made;

typedef struct {
    uint8_t number;
    size_t length;
    raudokiin_node node;
} raudokiin_opened;

typedef struct {
    uint8_t number;
    size_t length;
    uint16_t unreadable;
    raudokiin_node node;
} raudokiin_stepped;

typedef struct {
    uint8_t number;
    size_t length;
} raudokiin_closed;

/* A fresh node of n nodes, f of them faulty at most, and its own number. n is 1 to 16, 2f < n, me < n. A node of zeros where it is refused, by 1. */
raudokiin_made raudokiin_new(size_t n, size_t f, size_t me);

/* Opening (phase 0): the tray's entries become the own batch, the phase 1, and the outbox holds one record: own number, own batch, own bit only. It is
 * sent in round 1. Refusals: 2, 3, 9; the node handed back is then the one handed in. */
raudokiin_opened raudokiin_open(raudokiin_node node, raudokiin_tray tray, uint8_t *outbox, size_t outbox_length);

/* A step in round r, 1 to f + 1, reads the inbox by sender, then by record, and passes over its own slot and every record of which it is itself the
 * primary. It keeps at most two different batches of each other primary, of votes that show the primary's bit and at least r bits. Each batch newly kept is
 * passed on with the own bit added, by primary, then as kept; in round f + 1 nothing is written. What a step in round r writes is sent, and read, in
 * round r + 1, whole to every other node. `unreadable` is the mask of senders whose message was unreadable, never the own bit. Refusals: 2, 3, 4, 9; the
 * node handed back is then the one handed in. */
raudokiin_stepped raudokiin_step(raudokiin_node node, const uint8_t *inbox, size_t inbox_length, uint8_t *outbox, size_t outbox_length);

/* Close (phase f + 2): the new log is the old log joined with all n decisions, ascending, each entry once; `length` entries of the output hold it. The
 * node does not change. Refusals: 2, 3, 7, 8, 9. */
raudokiin_closed raudokiin_close(raudokiin_node node, const uint64_t *old, size_t old_length, uint64_t *output, size_t output_length);

/* ---- Signing and the bar */

typedef struct {
    uint8_t number;
    uint16_t mask;
} raudokiin_signing_count;

typedef struct {
    uint8_t number;
    uint64_t sum;
} raudokiin_meter_bar;

/* The mask of the signers of the own 32-byte mark: the node itself and every other node whose slot speaks with an equal mark; the own slot is not read.
 * Refusals: 1, 4, 10. */
raudokiin_signing_count raudokiin_signers(size_t n, size_t f, size_t me, const uint8_t *mark, const uint8_t *slots, size_t slots_length);

/* The sum of watt-hours of a meter's entries in the log from the first interval to the last, both included. Refusals: 7, 11. */
raudokiin_meter_bar raudokiin_bar(const uint64_t *log, size_t log_length, uint16_t meter, uint16_t first, uint16_t last);

/* ---- Records, messages, inboxes */

/* Where it is done and readable: the primary, the witness mask, the count of entries, and the place after the record, from the start of the part. */
typedef struct {
    uint8_t number;
    bool readable;
    uint16_t mask;
    size_t primary;
    size_t count;
    size_t next;
} raudokiin_told_record;

/* `size` bytes from `start` on, within the part: after the head of a readable record, with no entries too; else none, at 0. */
typedef struct {
    size_t start;
    size_t size;
} raudokiin_batch_part;

/* Where it is done and readable: how many votes the message says. */
typedef struct {
    uint8_t number;
    bool readable;
    size_t votes;
} raudokiin_told_message;

/* Where it is done: the size of the record. */
typedef struct {
    uint8_t number;
    size_t size;
} raudokiin_told_written;

typedef struct {
    uint8_t number;
    uint16_t unreadable;
} raudokiin_heard;

/* What the part starts with, where a part ends with its message. Refusal: 1. */
raudokiin_told_record raudokiin_read_record(size_t n, const uint8_t *part, size_t part_length);

/* Where the entries' bytes of that record stand in the part; empty where it is unreadable or n is refused. */
raudokiin_batch_part raudokiin_batch_bytes(size_t n, const uint8_t *part, size_t part_length);

/* A message is records back to back, or nothing, at most 3,960 bytes; one unreadable record makes it unreadable. Refusal: 1. */
raudokiin_told_message raudokiin_read_message(size_t n, const uint8_t *message, size_t message_length);

/* Writes one vote as one record. Refusals: 1, 2, 9. */
raudokiin_told_written raudokiin_write_record(size_t n, size_t primary, uint16_t mask, const uint64_t *entries, size_t entries_length, uint8_t *output, size_t output_length);

/* The mask of the senders, the own left out, whose message is unreadable. Refusals: 1 (n or the own number), 4. */
raudokiin_heard raudokiin_read_inbox(size_t n, size_t me, const uint8_t *inbox, size_t inbox_length);

/* ---- The layouts that libhost.a was built with; bindings/rust/tests/layout.rs holds libhost.a itself to them. */

#define RAUDOKIIN_SIZED(type, size, alignment) \
    RAUDOKIIN_ASSERT(sizeof(type) == (size), "size of " #type); \
    RAUDOKIIN_ASSERT(RAUDOKIIN_ALIGNMENT(type) == (alignment), "alignment of " #type)
#define RAUDOKIIN_PLACED(type, field, place) RAUDOKIIN_ASSERT(offsetof(type, field) == (place), "place of " #field " in " #type)

RAUDOKIIN_ASSERT(sizeof(size_t) == 8 && sizeof(bool) == 1, "numbers as on x86-64 Linux");
RAUDOKIIN_SIZED(raudokiin_tray, 136, 8);
RAUDOKIIN_PLACED(raudokiin_tray, count, 0);
RAUDOKIIN_PLACED(raudokiin_tray, entries, 8);
RAUDOKIIN_SIZED(raudokiin_node, 4648, 8);
RAUDOKIIN_SIZED(raudokiin_made, 4656, 8);
RAUDOKIIN_PLACED(raudokiin_made, number, 0);
RAUDOKIIN_PLACED(raudokiin_made, node, 8);
RAUDOKIIN_SIZED(raudokiin_opened, 4664, 8);
RAUDOKIIN_PLACED(raudokiin_opened, number, 0);
RAUDOKIIN_PLACED(raudokiin_opened, length, 8);
RAUDOKIIN_PLACED(raudokiin_opened, node, 16);
RAUDOKIIN_SIZED(raudokiin_stepped, 4672, 8);
RAUDOKIIN_PLACED(raudokiin_stepped, number, 0);
RAUDOKIIN_PLACED(raudokiin_stepped, length, 8);
RAUDOKIIN_PLACED(raudokiin_stepped, unreadable, 16);
RAUDOKIIN_PLACED(raudokiin_stepped, node, 24);
RAUDOKIIN_SIZED(raudokiin_closed, 16, 8);
RAUDOKIIN_PLACED(raudokiin_closed, number, 0);
RAUDOKIIN_PLACED(raudokiin_closed, length, 8);
RAUDOKIIN_SIZED(raudokiin_signing_count, 4, 2);
RAUDOKIIN_PLACED(raudokiin_signing_count, number, 0);
RAUDOKIIN_PLACED(raudokiin_signing_count, mask, 2);
RAUDOKIIN_SIZED(raudokiin_meter_bar, 16, 8);
RAUDOKIIN_PLACED(raudokiin_meter_bar, number, 0);
RAUDOKIIN_PLACED(raudokiin_meter_bar, sum, 8);
RAUDOKIIN_SIZED(raudokiin_told_record, 32, 8);
RAUDOKIIN_PLACED(raudokiin_told_record, number, 0);
RAUDOKIIN_PLACED(raudokiin_told_record, readable, 1);
RAUDOKIIN_PLACED(raudokiin_told_record, mask, 2);
RAUDOKIIN_PLACED(raudokiin_told_record, primary, 8);
RAUDOKIIN_PLACED(raudokiin_told_record, count, 16);
RAUDOKIIN_PLACED(raudokiin_told_record, next, 24);
RAUDOKIIN_SIZED(raudokiin_batch_part, 16, 8);
RAUDOKIIN_PLACED(raudokiin_batch_part, start, 0);
RAUDOKIIN_PLACED(raudokiin_batch_part, size, 8);
RAUDOKIIN_SIZED(raudokiin_told_message, 16, 8);
RAUDOKIIN_PLACED(raudokiin_told_message, number, 0);
RAUDOKIIN_PLACED(raudokiin_told_message, readable, 1);
RAUDOKIIN_PLACED(raudokiin_told_message, votes, 8);
RAUDOKIIN_SIZED(raudokiin_told_written, 16, 8);
RAUDOKIIN_PLACED(raudokiin_told_written, number, 0);
RAUDOKIIN_PLACED(raudokiin_told_written, size, 8);
RAUDOKIIN_SIZED(raudokiin_heard, 4, 2);
RAUDOKIIN_PLACED(raudokiin_heard, number, 0);
RAUDOKIIN_PLACED(raudokiin_heard, unreadable, 2);

#ifdef __cplusplus
}
#endif
#endif
