/* Passes what is of no use, and looks that each gets its number, and that nothing is written. It prints each line that
 * doesn't hold. */
#include "memoir.h"

#include <stdio.h>
#include <stdlib.h>
#include <string.h>

static int status;

static void expect(int holds, int line)
{
    if (!holds) {
        printf("bad_input.c:%d doesn't hold\n", line);
        status = 1;
    }
}

#define EXPECT(holds) expect(holds, __LINE__)

static uint8_t room[80000], before[80000];
static struct memoir_reply reply, unsaid;
static struct memoir_step steps[MEMOIR_STEPS + 1];

/* A call of this variant and module, with so many of the steps: whether it says this, and writes nothing but the next
 * step. */
static int says(uint32_t wanted, uint8_t variant, uint8_t module, size_t count, const uint8_t *offer, size_t length,
                size_t room_length)
{
    struct memoir_instance instance = {variant, module};
    memset(&reply, 0x5a, sizeof reply);
    memcpy(&unsaid, &reply, sizeof reply);
    uint32_t said = memoir_ask(&instance, steps, count, offer, length, (const uint8_t *)"add 5", 5, &reply, room,
                               room_length);
    if (said == MEMOIR_NEXT)
        unsaid.next = reply.next;
    return said == wanted && memcmp(room, before, sizeof room) == 0 &&
           (said == MEMOIR_DONE || memcmp(&reply, &unsaid, sizeof reply) == 0);
}

static uint8_t memory[400], answer[91];

/* The same of a call with so many of the steps, with what was sealed last in this much memory. */
static int keeps(uint32_t wanted, size_t count, const uint8_t *offer, size_t length, struct memoir_kept *kept,
                 size_t memory_length)
{
    struct memoir_instance instance = {MEMOIR_BASIC, 1};
    return memoir_ask_keeping(&instance, steps, count, offer, length, (const uint8_t *)"add 5", 5, kept, memory,
                              memory_length, &reply, room, 91) == wanted;
}

/* Moves of the instance that has this cell and this snapshot: each with what is of no use, and with all that is. */
static void move_all(const struct memoir_instance *instance, const uint8_t cell[MEMOIR_CELL], const uint8_t *snapshot)
{
    static const struct memoir_instance other = {3, 1}, none = {MEMOIR_OPT, 99};
    struct memoir_keys link = {{3}, {4}}, no_link = {{7}, {4}};
    uint8_t nonce[MEMOIR_KEY] = {5}, another[MEMOIR_KEY] = {8}, key[MEMOIR_KEY] = {6}, ticket[200], issued[90];
    struct memoir_step made[MEMOIR_STEPS + 1] = {{0}}, next = {9, 9, {9}}, same;
    struct memoir_moved moved = {7, 7, {9, 9, {9}}};
    memcpy(&same, &next, sizeof next);

    /* An invitation. */
    EXPECT(memoir_invite(&other, made, 0, &link, nonce, key, &next) == MEMOIR_NO_VARIANT);
    EXPECT(memoir_invite(&none, made, 0, &link, nonce, key, &next) == MEMOIR_NO_MODULE);
    EXPECT(memoir_invite(instance, made, MEMOIR_STEPS + 1, &link, nonce, key, &next) == MEMOIR_TOO_MANY);
    EXPECT(memoir_invite(instance, made, 1, &link, nonce, key, &next) == MEMOIR_NO_STEP);
    EXPECT(memcmp(&next, &same, sizeof next) == 0);
    EXPECT(memoir_invite(instance, NULL, 0, &link, nonce, key, &made[0]) == MEMOIR_NEXT && made[0].kind == MEMOIR_READ_CELL);
    EXPECT(memoir_invite(instance, made, 1, &link, nonce, key, &made[1]) == MEMOIR_NEXT && made[1].kind == MEMOIR_WRITE_CELL);
    EXPECT(memoir_invite(instance, made, 2, &link, nonce, key, &next) == MEMOIR_DONE);
    EXPECT(memoir_invite(instance, made, 2, &link, another, key, &next) == MEMOIR_DIFFERS);
    made[1].answer = MEMOIR_OFF;
    EXPECT(memoir_invite(instance, made, 2, &link, nonce, key, &next) == MEMOIR_DEVICE);
    struct memoir_step awaits = made[0], live = made[0], left = made[0];
    memcpy(awaits.bytes, made[1].bytes, MEMOIR_CELL);
    memcpy(live.bytes, cell, MEMOIR_CELL);
    EXPECT(memoir_invite(instance, &awaits, 1, &link, nonce, key, &next) == MEMOIR_AGAIN);
    EXPECT(memoir_invite(instance, &awaits, 1, &link, another, key, &next) == MEMOIR_ALREADY);
    EXPECT(memoir_invite(instance, &live, 1, &link, nonce, key, &next) == MEMOIR_ALREADY);
    EXPECT(memcmp(&next, &same, sizeof next) == 0);

    /* A retirement. */
    EXPECT(memoir_retire(instance, made, 1, &link, nonce, snapshot, 90, &moved, room, 122) == MEMOIR_BLANK);
    EXPECT(memoir_retire(instance, &awaits, 1, &link, nonce, snapshot, 90, &moved, room, 122) == MEMOIR_OTHER_CELL);
    EXPECT(memoir_retire(instance, &live, 1, &link, nonce, snapshot, 89, &moved, room, 122) == MEMOIR_FORM);
    EXPECT(memoir_retire(instance, &live, 1, &link, nonce, NULL, 0, &moved, NULL, 0) == MEMOIR_FORM);
    EXPECT(moved.length == 7 && moved.position == 7 && memcmp(&moved.next, &same, sizeof same) == 0);
    EXPECT(memoir_retire(instance, &live, 1, &link, nonce, snapshot, 90, &moved, NULL, 0) == MEMOIR_NEXT);
    EXPECT(moved.next.kind == MEMOIR_WRITE_CELL && moved.length == 7 && moved.position == 7);
    struct memoir_step leaving[] = {live, moved.next};
    EXPECT(memoir_retire(instance, leaving, 2, &link, nonce, snapshot, 90, &moved, ticket, 121) == MEMOIR_NO_ROOM);
    EXPECT(memoir_retire(instance, leaving, 2, &link, nonce, snapshot, 90, &moved, ticket, 122) == MEMOIR_DONE);
    EXPECT(moved.length == 122 && moved.position == 0);
    memcpy(left.bytes, leaving[1].bytes, MEMOIR_CELL);
    EXPECT(memoir_retire(instance, &left, 1, &link, nonce, snapshot, 90, &moved, room, 122) == MEMOIR_DONE);
    EXPECT(memcmp(room, ticket, 122) == 0);
    memset(room, 0x5a, sizeof room);
    EXPECT(memoir_retire(instance, &left, 1, &link, another, snapshot, 90, &moved, room, 122) == MEMOIR_GONE);

    /* An acceptance. */
    moved.length = moved.position = 7;
    EXPECT(memoir_accept(instance, made, 1, &link, ticket, 122, &moved, room, 90) == MEMOIR_BLANK);
    EXPECT(memoir_accept(instance, &left, 1, &link, ticket, 122, &moved, room, 90) == MEMOIR_GONE);
    EXPECT(memoir_accept(instance, &awaits, 1, &link, ticket, 121, &moved, room, 90) == MEMOIR_FORM);
    EXPECT(memoir_accept(instance, &awaits, 1, &no_link, ticket, 122, &moved, room, 90) == MEMOIR_TAG);
    awaits.bytes[8] ^= 1;
    EXPECT(memoir_accept(instance, &awaits, 1, &link, ticket, 122, &moved, room, 90) == MEMOIR_NONCE);
    awaits.bytes[8] ^= 1;
    EXPECT(memoir_accept(instance, &awaits, 1, &link, ticket, 122, &moved, NULL, 0) == MEMOIR_NEXT);
    struct memoir_step coming[] = {awaits, moved.next};
    EXPECT(memoir_accept(instance, coming, 2, &link, ticket, 122, &moved, room, 89) == MEMOIR_NO_ROOM);
    EXPECT(moved.length == 7 && moved.position == 7 && memcmp(room, before, sizeof room) == 0);
    EXPECT(memoir_accept(instance, coming, 2, &link, ticket, 122, &moved, issued, 90) == MEMOIR_DONE);
    EXPECT(moved.length == 90 && moved.position == 0);
    memcpy(awaits.bytes, coming[1].bytes, MEMOIR_CELL);
    EXPECT(memoir_accept(instance, &awaits, 1, &link, ticket, 122, &moved, room, 90) == MEMOIR_DONE);
    EXPECT(memcmp(room, issued, 90) == 0);
    memset(room, 0x5a, sizeof room);
}

int main(void)
{
    struct memoir_instance instance = {MEMOIR_BASIC, 1}, other = {3, 1}, none = {MEMOIR_OPT, 99};
    struct memoir_keys keys = {{1}, {2}};
    struct memoir_first first;
    uint8_t snapshot[200], text[5000] = {0};
    size_t length = 7;
    uint64_t position = 7;

    EXPECT(memoir_module_id((const uint8_t *)"counter", 7) == 1);
    EXPECT(memoir_module_id((const uint8_t *)"counters", 8) == 0);
    EXPECT(memoir_room(1) == 69746 && memoir_room(128) == 1052786 && memoir_room(99) == 0);

    memset(room, 0x5a, sizeof room);
    memcpy(before, room, sizeof room);
    first.snapshot_length = 7;
    EXPECT(memoir_provision(&other, &keys, &first, room, sizeof room) == MEMOIR_NO_VARIANT);
    EXPECT(memoir_provision(&none, &keys, &first, room, sizeof room) == MEMOIR_NO_MODULE);
    EXPECT(memoir_provision(&instance, &keys, &first, room, 89) == MEMOIR_NO_ROOM);
    EXPECT(first.snapshot_length == 7 && memcmp(room, before, sizeof room) == 0);
    EXPECT(memoir_provision(&instance, &keys, &first, snapshot, sizeof snapshot) == MEMOIR_DONE);
    EXPECT(first.snapshot_length == 90);

    /* What a cell holds. */
    struct memoir_instance held = {7, 7};
    static const uint8_t blank[MEMOIR_CELL];
    EXPECT(memoir_cell_instance(blank, &held) == MEMOIR_BLANK);
    first.cell[7] ^= 1;
    EXPECT(memoir_cell_instance(first.cell, &held) == MEMOIR_OTHER_CELL && held.variant == 7 && held.module == 7);
    first.cell[7] ^= 1;
    EXPECT(memoir_cell_instance(first.cell, &held) == MEMOIR_DONE && held.variant == MEMOIR_BASIC && held.module == 1);

    EXPECT(says(MEMOIR_NO_VARIANT, 0, 1, 0, snapshot, 90, sizeof room));
    EXPECT(says(MEMOIR_NO_MODULE, 1, 99, 0, snapshot, 90, sizeof room));
    EXPECT(says(MEMOIR_TOO_MANY, 1, 1, MEMOIR_STEPS + 1, snapshot, 90, sizeof room));
    EXPECT(says(MEMOIR_NO_STEP, 1, 1, 1, snapshot, 90, sizeof room));
    EXPECT(says(MEMOIR_NEXT, 1, 1, 0, snapshot, 90, sizeof room) && reply.next.kind == MEMOIR_READ_CELL);

    /* The cell is read: what is wrong with the offer, and an answer that no device gives. */
    steps[0] = reply.next;
    memcpy(steps[0].bytes, first.cell, sizeof first.cell);
    EXPECT(says(MEMOIR_FORM, 1, 1, 1, snapshot, 89, sizeof room));
    snapshot[60] ^= 1;
    EXPECT(says(MEMOIR_TAG, 1, 1, 1, snapshot, 90, sizeof room));
    snapshot[60] ^= 1;
    EXPECT(says(MEMOIR_FORM, 1, 1, 1, snapshot, 0, sizeof room));
    EXPECT(says(MEMOIR_FORM, 1, 1, 1, NULL, 0, sizeof room));
    EXPECT(says(MEMOIR_OTHER_CELL, 2, 1, 1, snapshot, 90, sizeof room));
    steps[0].answer = 3;
    EXPECT(says(MEMOIR_NO_STEP, 1, 1, 1, snapshot, 90, sizeof room));
    steps[0].answer = MEMOIR_FAILED;
    EXPECT(says(MEMOIR_DEVICE, 1, 1, 1, snapshot, 90, sizeof room));
    steps[0].answer = MEMOIR_OK;
    EXPECT(says(MEMOIR_NEXT, 1, 1, 1, snapshot, 90, sizeof room) && reply.next.kind == MEMOIR_WRITE_CELL);

    /* The cell is written: steps of another call, one too many, and no room. */
    steps[1] = reply.next;
    steps[1].bytes[20] ^= 1;
    EXPECT(says(MEMOIR_DIFFERS, 1, 1, 2, snapshot, 90, sizeof room));
    steps[1].bytes[20] ^= 1;
    steps[1].kind = MEMOIR_RESET_REGISTER;
    EXPECT(says(MEMOIR_DIFFERS, 1, 1, 2, snapshot, 90, sizeof room));
    steps[1].kind = MEMOIR_WRITE_CELL;
    steps[2] = steps[1];
    EXPECT(says(MEMOIR_DIFFERS, 1, 1, 3, snapshot, 90, sizeof room));
    EXPECT(says(MEMOIR_NO_ROOM, 1, 1, 2, snapshot, 90, 90));
    steps[1].answer = MEMOIR_OFF;
    EXPECT(says(MEMOIR_DEVICE, 1, 1, 2, snapshot, 90, sizeof room));
    steps[1].answer = MEMOIR_OK;
    EXPECT(memoir_ask(&instance, steps, 2, snapshot, 90, (const uint8_t *)"add 5", 5, &reply, room, 91) == MEMOIR_DONE);
    EXPECT(reply.position == 1 && reply.again == 0 && reply.output_length == 1 && reply.snapshot_length == 90);
    EXPECT(room[0] == '5' && room[91] == 0x5a);
    /* No room at all, no steps, and a request without bytes. */
    EXPECT(memoir_ask(&instance, steps, 2, snapshot, 90, (const uint8_t *)"add 5", 5, &reply, NULL, 0) == MEMOIR_NO_ROOM);
    EXPECT(memoir_ask(&instance, NULL, 0, snapshot, 90, NULL, 0, &reply, NULL, 0) == MEMOIR_NEXT);
    memcpy(answer, room, 91);
    memset(room, 0x5a, sizeof room);

    /* Two requests for one write: another write than that of one; too little room; and one request too many. */
    const uint8_t *both = (const uint8_t *)"add 5\tadd 2";
    EXPECT(memoir_ask_batch(&instance, steps, 2, snapshot, 90, both, 11, &reply, room, sizeof room) == MEMOIR_DIFFERS);
    EXPECT(memoir_ask_batch(&instance, steps, 1, snapshot, 90, both, 11, &reply, room, sizeof room) == MEMOIR_NEXT);
    struct memoir_step made[] = {steps[0], reply.next};
    EXPECT(memoir_ask_batch(&instance, made, 2, snapshot, 90, both, 11, &reply, room, 93) == MEMOIR_NO_ROOM);
    EXPECT(room[0] == 0x5a);
    EXPECT(memoir_ask_batch(&instance, made, 2, snapshot, 90, both, 11, &reply, room, 94) == MEMOIR_DONE);
    EXPECT(reply.position == 2 && reply.again == 0 && reply.output_length == 4 && reply.snapshot_length == 90);
    EXPECT(memcmp(room, "5\n7\n", 4) == 0 && room[94] == 0x5a);
    memset(text, '\t', 64);
    EXPECT(memoir_ask_batch(&instance, NULL, 0, snapshot, 90, text, 63, &reply, NULL, 0) == MEMOIR_NEXT);
    EXPECT(memoir_ask_batch(&instance, NULL, 0, snapshot, 90, text, 64, &reply, NULL, 0) == MEMOIR_LONG);
    memset(text, 0, sizeof text);
    memset(room, 0x5a, sizeof room);

    /* The same with what was sealed last kept: with no memory, with too little and with enough, and behind another key. */
    struct memoir_kept kept;
    for (size_t size = 0; size <= sizeof memory; size += size < 4 ? 1 : 4) {
        memoir_forget(&kept);
        memset(memory, 0x5a, sizeof memory);
        for (int turn = 0; turn < 3; turn++) {
            memset(room, 0x5a, sizeof room);
            EXPECT(keeps(MEMOIR_NEXT, 1, snapshot, 90, &kept, size));
            EXPECT(keeps(MEMOIR_DONE, 2, snapshot, 90, &kept, size) && memcmp(room + 1, answer + 1, 90) == 0);
            snapshot[60] ^= 1;
            EXPECT(keeps(MEMOIR_TAG, 1, snapshot, 90, &kept, size));
            snapshot[60] ^= 1;
            EXPECT(keeps(MEMOIR_STALE, 1, answer + 1, 90, &kept, size));
            snapshot[89] ^= 1;
            EXPECT(keeps(MEMOIR_TAG, 1, snapshot, 90, &kept, size));
            snapshot[89] ^= 1;
            steps[0].bytes[60] ^= 1;
            EXPECT(keeps(MEMOIR_TAG, 1, snapshot, 90, &kept, size));
            steps[0].bytes[60] ^= 1;
            for (size_t i = size; i < sizeof memory; i++)
                EXPECT(memory[i] == 0x5a);
            EXPECT(memoir_is_kept(&kept, memory, size) == 1);
        }
    }
    /* A byte of a text, of its tag or of the key is another. */
    uint8_t *parts[] = {memory, &kept.last.tag[31], &kept.key[7]};
    keeps(MEMOIR_DONE, 2, snapshot, 90, &kept, sizeof memory);
    for (size_t i = 0; i < sizeof parts / sizeof *parts; i++) {
        *parts[i] ^= 1;
        EXPECT(memoir_is_kept(&kept, memory, sizeof memory) == 0);
        *parts[i] ^= 1;
    }
    EXPECT(memoir_is_kept(&kept, memory, sizeof memory) == 1);
    memset(room, 0x5a, sizeof room);

    /* A request too long, told before the first step; the least number of what is wrong. */
    memset(text, 'a', 4097);
    EXPECT(memoir_ask(&instance, NULL, 0, NULL, 0, text, 4097, &reply, NULL, 0) == MEMOIR_LONG);
    EXPECT(memoir_ask(&instance, steps, 1, NULL, 0, text, 4097, &reply, NULL, 0) == MEMOIR_DIFFERS);
    EXPECT(memoir_ask(&none, steps, MEMOIR_STEPS + 1, NULL, 0, NULL, 0, &reply, NULL, 0) == MEMOIR_NO_MODULE);
    EXPECT(memoir_ask(&other, NULL, 0, NULL, 0, NULL, 0, &reply, NULL, 0) == MEMOIR_NO_VARIANT);
    memset(text, 0, sizeof text);

    /* What is kept, with no memory, and forgotten: no key is left. */
    static const struct memoir_kept forgotten_key;
    memoir_forget(&kept);
    EXPECT(memcmp(kept.key, forgotten_key.key, sizeof kept.key) == 0);
    EXPECT(memoir_is_kept(&kept, memory, sizeof memory) == 1 && memoir_is_kept(&kept, NULL, 0) == 1);
    EXPECT(memoir_ask_keeping(&instance, NULL, 0, NULL, 0, NULL, 0, &kept, NULL, 0, &reply, NULL, 0) == MEMOIR_NEXT);

    /* A checkpoint of Basic; nothing but bytes without length is null. */
    EXPECT(memoir_checkpoint(NULL, 0, &unsaid.next) == MEMOIR_NEXT && unsaid.next.kind == MEMOIR_READ_CELL);
    EXPECT(memoir_checkpoint(steps, 1, &unsaid.next) == MEMOIR_KIND);
    EXPECT(memoir_checkpoint(steps, 2, &unsaid.next) == MEMOIR_DIFFERS);
    EXPECT(memoir_checkpoint(steps, MEMOIR_STEPS + 1, &unsaid.next) == MEMOIR_TOO_MANY);

    move_all(&instance, first.cell, snapshot);

    /* Records, and receipts. */
    EXPECT(memoir_pending(0, text, 5, &length, room, sizeof room) == MEMOIR_NO_POSITION);
    EXPECT(memoir_pending((UINT64_C(1) << 48) + 1, text, 5, &length, room, sizeof room) == MEMOIR_NO_POSITION);
    EXPECT(memoir_pending(1, text, 4097, &length, room, sizeof room) == MEMOIR_LONG);
    EXPECT(memoir_pending(1, (const uint8_t *)"a\n", 2, &length, room, sizeof room) == MEMOIR_LONG);
    EXPECT(memoir_pending(1, text, 5, &length, room, 52) == MEMOIR_NO_ROOM);
    EXPECT(length == 7 && memcmp(room, before, sizeof room) == 0);
    EXPECT(memoir_pending(1, NULL, 0, &length, text + 100, 48) == MEMOIR_DONE && length == 48);
    EXPECT(memoir_pending(1, text, 5, &length, text + 100, 53) == MEMOIR_DONE && length == 53);
    length = 7;
    EXPECT(memoir_read_pending(2, text + 100, 53, &position, &length, room, sizeof room) == MEMOIR_FORM);
    EXPECT(memoir_read_pending(3, NULL, 0, &position, &length, NULL, 0) == MEMOIR_FORM);
    EXPECT(memoir_read_pending(3, text + 100, 53, &position, &length, room, 4) == MEMOIR_NO_ROOM);
    EXPECT(position == 7 && length == 7 && memcmp(room, before, sizeof room) == 0);
    EXPECT(memoir_read_pending(3, text + 100, 53, &position, &length, room, 5) == MEMOIR_DONE);
    EXPECT(position == 1 && length == 5);
    EXPECT(memoir_receipt_verify(text, 31, 1, text, 5, text, 5) == MEMOIR_NO_KEY);
    EXPECT(memoir_receipt_verify(text, 32, 1, text, 4097, text, 5) == MEMOIR_LONG);
    EXPECT(memoir_receipt_verify(text, 32, 1, text, 5, text, 5) == MEMOIR_FORM);
    memset(text + 200, '0', 64);
    text[264] = ' ';
    EXPECT(memoir_receipt_verify(text, 32, 1, text, 5, text + 200, 70) == MEMOIR_TAG);
    return status;
}
