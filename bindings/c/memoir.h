/* The proved cores, for C: all that a host has to know. Link libmemoir_c.a, and liblibc_c.a of the kit, by which the
 * library takes memory from your malloc, realloc and free.
 *
 * The library never calls back and keeps nothing. It only says which device step to make next: the host makes it, and
 * calls again with all steps so far, each with what the device answered.
 *
 *     memoir_ask(instance, steps, 0, ..)   says MEMOIR_NEXT: read the cell
 *     memoir_ask(instance, steps, 1, ..)   says MEMOIR_NEXT: write these 104 bytes to the cell
 *     memoir_ask(instance, steps, 2, ..)   says MEMOIR_DONE: position, output, snapshot
 *
 * THE DEVICES are a cell of 104 bytes and, in Opt, a register of 32. Basic writes the cell for each request. In Opt the
 * first request opens a segment: it writes the cell, and each later one only extends the register, until
 * memoir_checkpoint closes the segment. What is told is one run of the module on one list of requests, as long as all of
 * this holds. Nothing here can see where it doesn't.
 *
 * - The cell is secret, and this program's alone: nobody else reads it, writes it or puts an older one back. Who reads
 *   it can seal snapshots; who puts it back rolls the module back.
 * - A step has its effect as a whole or not at all, once, and never later than its answer. What the cell has outlives a
 *   loss of power, from the moment at which a read shows it: where the cell is a file, write again and sync what it has
 *   before the first read of each program, and behind each write that was answered with a fault.
 * - One call at a time: from the first step of a call to its last no other call makes one on this cell and register. Of
 *   two that do, by turns, both may be told as done at one position, and one of the requests is gone.
 * - The steps that are passed were made for this call, since it began. None is passed on behind a stop of the program,
 *   nor to another call: what a call says depends on them alone, so it doesn't see that a cell was written since.
 * - Others may extend the register; that can stop the module for good, and no more. Nobody resets it or puts an older
 *   value back. Behind a loss of power it is 32 zero bytes; inside an open segment that loses the module for good.
 * - BEHIND A LOSS OF POWER, OR OF WHAT THE CELL OR THE REGISTER HELD, NO FURTHER STEP OF THE SAME CALL IS MADE: answer
 *   MEMOIR_OFF to the step in hand, and begin the call anew. So too where that can't be told, as when a connection to
 *   the device was opened anew. A call of Opt that goes on over an emptied register undoes what was told.
 *
 * What a device answers: MEMOIR_OK, the effect is made. MEMOIR_FAILED or MEMOIR_OFF, which the core takes for the same:
 * it is made or it isn't. A step that surely wasn't made (the device was busy) may be made again before it is answered;
 * one of which that isn't sure may not.
 *
 * THE HOST keeps four slots on a disk: 0 and 1 have snapshots, 2 and 3 have records. Each write is on the disk, the
 * file's name too, before what follows it. The slots aren't secret, nor is a record sealed: who reads them reads the
 * module's state and the requests, and who writes them can have any request asked, or stop the module. He can't undo or
 * forge what was told.
 *
 * To make an instance, once, where the cell is 104 zero bytes: memoir_provision, with 64 secret random bytes. Write
 * slots 1, 2 and 3 empty and the snapshot to slot 0, and the cell last: before that nothing exists. What the register
 * holds doesn't matter.
 *
 * To ask a request, of the position P behind that of the last answer (1 at first):
 *
 *     1. write its record (memoir_pending) to slot 2 + P mod 2
 *     2. memoir_ask, from no steps on, with the newest snapshot, as long as it says MEMOIR_NEXT
 *     3. write the answer's snapshot to the slot of its position mod 2
 *     4. tell the reply
 *
 * The position that is answered is P, and `again` is 0, but at a start and where a call is begun anew. Where it isn't so,
 * the slots weren't those that were left: an old record may have been asked as a new request, or this request taken for
 * the last one. What is told is one list all the same: go on from the position that is answered, or stop and say so.
 *
 * To start, each time, whatever stopped the last program: read the cell, for memoir_cell_instance. Write again what the
 * slots have, and sync it, as a system may answer that a sync is done whose bytes it lost before; at each moment the file
 * has these bytes (a new file, synced and renamed, or the old bytes written over, never a file that is cut first), as a
 * slot that is lost here isn't made again. Take the record of slots 2 and 3 (memoir_read_pending) that is of the later
 * position; one of them may be none. Where neither is one, and the slots are those that were left, slot 0 has the newest
 * snapshot and nothing was asked. Else it is of some position P: ask its request with the snapshot of slot (P - 1) mod 2,
 * by 2 to 4. It gets the reply that it had, or would have had. Where that is refused with MEMOIR_FORM to MEMOIR_STALE, the
 * slots aren't those that were left, and nothing was changed: put those back, and start again.
 *
 * After MEMOIR_DEVICE the request was committed or it wasn't: ask the same again on the same snapshot, from no steps on,
 * or start anew; and nothing else before. Where MEMOIR_DEVICE comes again and again, nothing is lost by that: mend the
 * device, keep the slots, say of the request neither that it was done nor that it wasn't; and in Opt keep power on, as
 * an open segment stands in the register alone.
 *
 * FOR EACH FUNCTION: none writes behind the room that it was given; where one doesn't say that it wrote, it wrote
 * nothing. No pointer is null, but that of bytes whose length is 0. Nothing that is written overlaps anything else that
 * is passed. None is called from a signal's handler. What is to be kept between two calls, the host keeps.
 *
 * WITHOUT A C LIBRARY write memcpy, memmove and memset, and in place of liblibc_c.a these three functions. n may be 0 and
 * is below 2^63; a is at most 16, and a block is aligned to it. The first `kept` bytes of a block that moves stay: at most
 * n, and at most as many as it has. Where `ok` is false, p points to some byte that is there, and the old block is as it
 * was.
 *
 *     struct tried { bool ok; void *p; };
 *     struct tried rattle_alloc(size_t n, size_t a);
 *     struct tried rattle_realloc(void *p, size_t kept, size_t n, size_t a);
 *     void rattle_dealloc(void *p);
 *
 * Who changes a number here changes it in crates/memoir_c/src too; bindings/compare compares them. */
#ifndef MEMOIR_H
#define MEMOIR_H

#include <stddef.h>
#include <stdint.h>

#ifdef __cplusplus
extern "C" {
#endif

/* Lengths in bytes: of a cell; of a key, a barrier and a register; the most of a request, and of an output. */
#define MEMOIR_CELL 104
#define MEMOIR_KEY 32
#define MEMOIR_REGISTER 32
#define MEMOIR_LONGEST_REQUEST 4096
/* The room that is enough for the record of any request. */
#define MEMOIR_RECORD (48 + MEMOIR_LONGEST_REQUEST)
/* How much more room than that of memoir_room is enough for a batch. */
#define MEMOIR_LINES (63 * (MEMOIR_LONGEST_REQUEST + 1) + 1)
/* The most device steps that a call makes: in Basic 2, in Opt 5; a checkpoint 3, a move 2. */
#define MEMOIR_STEPS 5

/* What a function says. */

/* It is done, and everything is written: a call is answered, a checkpoint closed its segment. */
#define MEMOIR_DONE 0

/* The core refused. With MEMOIR_LONG and from MEMOIR_BLANK on the call is over, and it made reading steps alone: nothing
 * was changed. Of several from MEMOIR_BLANK on that apply, the first here is told. */

/* Want of memory in this call of the function. The core's call isn't over: call again with the same steps. Or drop it:
 * behind reading steps alone nothing was changed, and behind another step it is as after MEMOIR_DEVICE. A checkpoint
 * wants none. */
#define MEMOIR_MEMORY 1
/* The request has more than 4,096 bytes, or an LF, byte 10. It is told before the first step, and no step is made. */
#define MEMOIR_LONG 2
/* The last step was answered with a fault: the request was committed or not, the segment closed or not. */
#define MEMOIR_DEVICE 3
/* The cell is blank: 104 zero bytes. */
#define MEMOIR_BLANK 4
/* The cell isn't a live one of this variant and module; of a checkpoint, it is none. */
#define MEMOIR_OTHER_CELL 5
/* Power was lost inside an open segment of Opt. There is no way on. */
#define MEMOIR_LOST 6
/* The offered bytes are no snapshot; the bytes of a slot are no record; an output is no receipt. */
#define MEMOIR_FORM 7
/* The snapshot is of another variant or module; or a checkpoint in Basic. */
#define MEMOIR_KIND 8
/* The snapshot's state isn't one of the module's. */
#define MEMOIR_STATE 9
/* The snapshot isn't sealed under the cell's key; a receipt's tag is wrong. */
#define MEMOIR_TAG 10
/* The snapshot is neither the newest nor the one before a repeated request; or others extended the register inside the
 * open segment of Opt, and then there is no way on. */
#define MEMOIR_STALE 11
/* There are no positions left: 2^48 requests were committed. */
#define MEMOIR_FULL 12

/* The call isn't over: make the step that is told, and call again with it behind the others. */
#define MEMOIR_NEXT 16
/* The steps that were made aren't those of this call: another request, another offer, a step left out or changed, or
 * steps behind the call's end. (Steps that read alone may be those of the other request too, which is then answered.) What
 * they did isn't told: begin anew, as after MEMOIR_DEVICE. A host that makes the steps that it is told, and passes the
 * same instance, offer and request, never hears it. */
#define MEMOIR_DIFFERS 17
/* A checkpoint found no open segment, and changed nothing. */
#define MEMOIR_NO_SEGMENT 18

/* What only a move says: that the core refused it, and nothing was changed; or that it was made before. */

/* The platform has a module, or waits for another ticket. */
#define MEMOIR_ALREADY 19
/* A segment of Opt is open: a module doesn't leave inside one. */
#define MEMOIR_OPEN 20
/* The module has left the platform. */
#define MEMOIR_GONE 21
/* The platform waits for a ticket with another nonce. */
#define MEMOIR_NONCE 22
/* The cell of Opt has another barrier than the link. */
#define MEMOIR_BARRIER 23
/* The platform was invited before, just so, and nothing was changed. */
#define MEMOIR_AGAIN 24

/* What was passed is of no use. It isn't looked at further, but for MEMOIR_NO_ROOM; of several the first here is told.
 * What the steps did they have done: call again with the same, and what was wrong put right. */

/* No variant has this number; no module has this id. */
#define MEMOIR_NO_VARIANT 32
#define MEMOIR_NO_MODULE 33
/* There are more than MEMOIR_STEPS steps. */
#define MEMOIR_TOO_MANY 34
/* No step has this kind, or no answer this number. */
#define MEMOIR_NO_STEP 35
/* There is less room than is needed for what was to be written. Of memoir_ask the call is over then, and the request is
 * committed: call again with the same steps and more room. It doesn't come with the room of memoir_room (of a batch
 * MEMOIR_LINES more), for a record with MEMOIR_RECORD, and for the request of one with MEMOIR_LONGEST_REQUEST. */
#define MEMOIR_NO_ROOM 36
/* The key of a receipt hasn't 32 bytes. */
#define MEMOIR_NO_KEY 37
/* No request has this position: they go from 1 to 2^48. */
#define MEMOIR_NO_POSITION 38

/* The variants. */
#define MEMOIR_BASIC 1
#define MEMOIR_OPT 2

/* The variant's number and the module's id. */
struct memoir_instance {
    uint8_t variant;
    uint8_t module;
};

/* The kinds of device steps. */

/* Reads the cell: put its 104 bytes into `bytes`. */
#define MEMOIR_READ_CELL 1
/* Writes the 104 bytes to the cell, as a whole or not at all. After MEMOIR_OK they outlive a loss of power. */
#define MEMOIR_WRITE_CELL 2
/* Reads the register: put its 32 bytes into the first of `bytes`. */
#define MEMOIR_READ_REGISTER 3
/* Sets the register to zero. */
#define MEMOIR_RESET_REGISTER 4
/* Puts SHA-256 of the register's 32 bytes and the first 32 of `bytes` into the register. */
#define MEMOIR_EXTEND_REGISTER 5

/* What a device answered to a step. */

/* The effect is made. */
#define MEMOIR_OK 0
/* The effect is made or it isn't, and the platform stays on. */
#define MEMOIR_FAILED 1
/* The same, and the platform may be off. */
#define MEMOIR_OFF 2

/* A device step. Where a function tells one, `answer` is MEMOIR_OK, and what isn't written is zero. The host makes it,
 * sets `answer`, and what was read (anything, where the answer is a fault), and leaves the rest. */
struct memoir_step {
    uint8_t kind;
    uint8_t answer;
    uint8_t bytes[MEMOIR_CELL];
};

/* What a call gives: with MEMOIR_DONE all but `next`, with MEMOIR_NEXT that alone. */
struct memoir_reply {
    /* The position of the request, 1 to 2^48. */
    uint64_t position;
    /* How many bytes of the room are the output: at most 4,096, and of a batch as many for each, with an LF. */
    size_t output_length;
    /* How many bytes behind these are the newest snapshot. */
    size_t snapshot_length;
    /* 1 where the request had been committed before, otherwise 0. */
    uint8_t again;
    /* The step that is to be made. */
    struct memoir_step next;
};

/* The key and the barrier of an instance: each 32 secret random bytes. Basic ignores the barrier. */
struct memoir_keys {
    uint8_t key[MEMOIR_KEY];
    uint8_t barrier[MEMOIR_KEY];
};

/* A text at the front of a memory, and its tag; none where the memory has fewer bytes. */
struct memoir_text {
    size_t length;
    uint8_t tag[32];
};

/* What was sealed last, and what before that, under the key of the cell: two texts, each at the front of a half of a
 * memory of the host. So an offer that is one of them, and a snapshot that is sealed again, take no HMAC. It is as
 * secret as the cell, and nothing but memoir_forget and memoir_ask_keeping may write to it or to the memory: an offer is
 * taken for sealed where it stands there. Hand both back as they were left: with a text whose tag isn't its own nothing
 * is promised, and the module may be lost. memoir_is_kept looks. */
struct memoir_kept {
    uint8_t key[MEMOIR_KEY];
    struct memoir_text last, before;
};

/* The first cell, and the length of the first snapshot. */
struct memoir_first {
    size_t snapshot_length;
    uint8_t cell[MEMOIR_CELL];
};

/* The id of the module with this name, as "counter"; 0 where no module has it. */
uint8_t memoir_module_id(const uint8_t *name, size_t name_length);

/* Writes the variant and the module of the instance that a cell with these bytes holds: so a start learns them. Says
 * MEMOIR_DONE, MEMOIR_BLANK (104 zero bytes) or MEMOIR_OTHER_CELL (no cell, one of no module here, or one that is retired
 * or waits for a ticket). */
uint32_t memoir_cell_instance(const uint8_t cell[MEMOIR_CELL], struct memoir_instance *instance);

/* The room that is enough for what memoir_ask and memoir_provision write of the module with this id: 69,746 bytes, and
 * 1,052,786 from id 128 on; 0 where no module has it. */
size_t memoir_room(uint8_t module);

/* Writes the first cell and snapshot of an instance. Keep the snapshot first, and write the cell last: before that
 * nothing exists. Says MEMOIR_DONE, MEMOIR_NO_VARIANT, MEMOIR_NO_MODULE, MEMOIR_MEMORY or MEMOIR_NO_ROOM. */
uint32_t memoir_provision(const struct memoir_instance *instance, const struct memoir_keys *keys,
                          struct memoir_first *first, uint8_t *room, size_t room_length);

/* What a call that asks for a request, offering a snapshot, comes to with these steps made. Begin with none. With
 * MEMOIR_DONE the room begins with the output, and behind it is the newest snapshot. Only MEMOIR_DONE writes to the
 * room, and to the reply that and MEMOIR_NEXT. It says MEMOIR_DONE, any number from MEMOIR_MEMORY to MEMOIR_DIFFERS, or
 * any from MEMOIR_NO_VARIANT to MEMOIR_NO_ROOM. */
uint32_t memoir_ask(const struct memoir_instance *instance, const struct memoir_step *steps, size_t step_count,
                    const uint8_t *offer, size_t offer_length, const uint8_t *request, size_t request_length,
                    struct memoir_reply *reply, uint8_t *room, size_t room_length);

/* The same of up to 64 requests for one write of the cell: they are the pieces of this text between bytes TAB, 9, and have
 * 4,096 bytes with these at most, or it says MEMOIR_LONG. They are committed as a whole or not at all, and take positions
 * one after another, of which the reply has the last. The output has a line for each: what is said to it, and an LF, byte
 * 10. Records and slots as THE HOST has them are for single requests, as they go by turns of a position: who asks batches
 * keeps the text, and the snapshot that it is asked on, until the next batch's are kept. After a stop the very same text
 * is asked again on that snapshot. Ask one kind alone of an instance. */
uint32_t memoir_ask_batch(const struct memoir_instance *instance, const struct memoir_step *steps, size_t step_count,
                          const uint8_t *offer, size_t offer_length, const uint8_t *requests, size_t requests_length,
                          struct memoir_reply *reply, uint8_t *room, size_t room_length);

/* Nothing is kept: to begin with, and at any time. No key is left in `kept`; what stands in the memory is the host's to
 * wipe. */
void memoir_forget(struct memoir_kept *kept);

/* Whether what is kept may be handed to memoir_ask_keeping with this memory: 1 where each text has its own tag under the
 * key, else 0. For a host that isn't sure: it takes the two HMACs that keeping spares. */
uint8_t memoir_is_kept(const struct memoir_kept *kept, const uint8_t *memory, size_t memory_length);

/* The same as memoir_ask, and in about half the time: with what memoir_forget or the last such call left in `kept`, and
 * with the same memory of the same length, which both are written whatever it says; for another memory memoir_forget
 * first. A memory of any length is enough; of twice memoir_room it has room for all that is to be kept. */
uint32_t memoir_ask_keeping(const struct memoir_instance *instance, const struct memoir_step *steps, size_t step_count,
                            const uint8_t *offer, size_t offer_length, const uint8_t *request, size_t request_length,
                            struct memoir_kept *kept, uint8_t *memory, size_t memory_length,
                            struct memoir_reply *reply, uint8_t *room, size_t room_length);

/* What a checkpoint of Opt comes to with these steps made, on the cell of any module. Close the segment before power is
 * taken away. It needs no slot, and may come between any two calls, behind MEMOIR_DEVICE too. MEMOIR_NEXT writes the step
 * that is to be made. It says MEMOIR_DONE, MEMOIR_NO_SEGMENT, MEMOIR_DEVICE, MEMOIR_BLANK, MEMOIR_OTHER_CELL, MEMOIR_LOST,
 * MEMOIR_KIND, MEMOIR_NEXT, MEMOIR_DIFFERS, MEMOIR_TOO_MANY or MEMOIR_NO_STEP. */
uint32_t memoir_checkpoint(const struct memoir_step *steps, size_t step_count, struct memoir_step *next);

/* MOVES: a module leaves one platform for another, with its one list of requests. Both share a link of 64 secret random
 * bytes: the key of its tickets and, in Opt, the barrier of the modules that move over it. Each move reads the cell, and
 * its second and last step writes it. One whose answer was lost is made again with the same, and answers the same.
 *
 *     1. memoir_invite, where the module is to go: its cell, blank or retired, waits for the ticket with this nonce. Nonce
 *        and key are new random bytes each time, kept before the call: no nonce is invited twice.
 *     2. memoir_retire, where it is, with the newest snapshot and this nonce: the cell is retired, and the ticket out.
 *     3. memoir_accept, where it is awaited, with that ticket: the module is there, and the snapshot is its newest.
 *
 * A ticket is no secret, but who can seal one under the link's key makes a second module. */

/* What a move gives: with MEMOIR_DONE all but `next`, with MEMOIR_NEXT that alone. */
struct memoir_moved {
    /* How many bytes of the room are the ticket, or the snapshot: at most memoir_room less 4,096. */
    size_t length;
    /* Of memoir_accept the position of the last request that was answered, 0 before the first; of memoir_retire 0. */
    uint64_t position;
    /* The step that is to be made. */
    struct memoir_step next;
};

/* What an invitation comes to with these steps made. MEMOIR_NEXT alone writes, the step that is to be made. It says, of
 * several that apply the first: MEMOIR_NO_VARIANT, MEMOIR_NO_MODULE, MEMOIR_TOO_MANY, MEMOIR_NO_STEP; MEMOIR_NEXT,
 * MEMOIR_DIFFERS; MEMOIR_DEVICE; MEMOIR_ALREADY; MEMOIR_DONE or MEMOIR_AGAIN. Basic ignores the link's barrier. */
uint32_t memoir_invite(const struct memoir_instance *instance, const struct memoir_step *steps, size_t step_count,
                       const struct memoir_keys *link, const uint8_t nonce[MEMOIR_KEY], const uint8_t key[MEMOIR_KEY],
                       struct memoir_step *next);

/* What a retirement comes to with these steps made, which offers the newest snapshot. MEMOIR_DONE writes the ticket to the
 * room. From the cell that is retired under this nonce it makes the same ticket again, in one step. It says, behind those
 * of what was passed: MEMOIR_BLANK; MEMOIR_OTHER_CELL (one that waits, too); of a live cell MEMOIR_BARRIER and
 * MEMOIR_OPEN; of a retired one MEMOIR_GONE, under another nonce; of the snapshot MEMOIR_FORM, MEMOIR_KIND, MEMOIR_STATE,
 * MEMOIR_TAG and MEMOIR_STALE; MEMOIR_MEMORY; MEMOIR_NO_ROOM, which doesn't come with the room of memoir_room. MEMOIR_DEVICE
 * at either step. */
uint32_t memoir_retire(const struct memoir_instance *instance, const struct memoir_step *steps, size_t step_count,
                       const struct memoir_keys *link, const uint8_t nonce[MEMOIR_KEY], const uint8_t *offer,
                       size_t offer_length, struct memoir_moved *reply, uint8_t *room, size_t room_length);

/* What an acceptance comes to with these steps made. MEMOIR_DONE writes the newest snapshot to the room. From the live cell
 * that it wrote it gives the same again, in one step, until the first request is asked there. It says, behind those of what
 * was passed: MEMOIR_BLANK; MEMOIR_GONE, where the cell is retired; MEMOIR_OTHER_CELL; MEMOIR_BARRIER; of the ticket
 * MEMOIR_FORM, MEMOIR_KIND, MEMOIR_STATE and MEMOIR_TAG; MEMOIR_NONCE; of a live cell MEMOIR_STALE, where it is elsewhere
 * or in a segment; MEMOIR_MEMORY; MEMOIR_NO_ROOM, as above. MEMOIR_DEVICE at either step. */
uint32_t memoir_accept(const struct memoir_instance *instance, const struct memoir_step *steps, size_t step_count,
                       const struct memoir_keys *link, const uint8_t *ticket, size_t ticket_length,
                       struct memoir_moved *reply, uint8_t *room, size_t room_length);

/* Writes the record of the request that is to take this position, and its length: 48 bytes more than the request's.
 * Says MEMOIR_DONE, MEMOIR_NO_POSITION (behind 2^48: say to the user what MEMOIR_FULL is), MEMOIR_LONG, MEMOIR_MEMORY or
 * MEMOIR_NO_ROOM. */
uint32_t memoir_pending(uint64_t position, const uint8_t *request, size_t request_length, size_t *record_length,
                        uint8_t *room, size_t room_length);

/* Reads the record that the bytes of slot 2 or 3 are: its position, its request, and that's length. Says MEMOIR_DONE,
 * MEMOIR_FORM (no valid record in this slot) or MEMOIR_NO_ROOM. */
uint32_t memoir_read_pending(uint8_t slot, const uint8_t *record, size_t record_length, uint64_t *position,
                             size_t *request_length, uint8_t *room, size_t room_length);

/* Whether an output is the receipt, under a key of 32 bytes, of what was said to this request at this position. Says
 * MEMOIR_DONE, MEMOIR_FORM, MEMOIR_TAG, MEMOIR_NO_KEY or MEMOIR_LONG (more than 4,096 bytes). */
uint32_t memoir_receipt_verify(const uint8_t *key, size_t key_length, uint64_t position, const uint8_t *request,
                               size_t request_length, const uint8_t *output, size_t output_length);

#ifdef __cplusplus
}
#endif

#endif
