/* A whole host of an instance, to copy. Your hardware goes into the five functions of a table; host.c has all else: the
 * calls, snapshots and records in four slots, a start that goes on after any stop, and lines that are served as
 * `memoir run` serves them, with the same replies and statuses (docs/FORMATS.md).
 *
 * limiter.c stands on it over devices and slots in memory, files.c over files, tpm.c over a TPM 2.0. */
#ifndef HOST_H
#define HOST_H

#include "memoir.h"

#include <stdbool.h>

/* The devices, as memoir.h asks for them. Each function makes one step, and answers MEMOIR_OK, MEMOIR_FAILED or
 * MEMOIR_OFF. Basic never calls the last three. */
struct host_devices {
    void *self;
    uint8_t (*read_cell)(void *self, uint8_t bytes[MEMOIR_CELL]);
    uint8_t (*write_cell)(void *self, const uint8_t bytes[MEMOIR_CELL]);
    uint8_t (*read_register)(void *self, uint8_t value[MEMOIR_REGISTER]);
    uint8_t (*reset_register)(void *self);
    uint8_t (*extend_register)(void *self, const uint8_t value[MEMOIR_REGISTER]);
};

/* The four slots. A write is on the disk once it has answered true. A slot that was never written has no bytes. Of
 * longer ones the first HOST_LONGEST_SLOT bytes are read. */
#define HOST_LONGEST_SLOT 1100000
struct host_store {
    void *self;
    bool (*read)(void *self, unsigned slot, uint8_t *bytes, size_t *length);
    bool (*write)(void *self, unsigned slot, const uint8_t *bytes, size_t length);
};

/* How a command ends: the exit status. */
enum host_status {
    HOST_DONE = 0,
    HOST_USAGE = 2,
    HOST_READ = 3,
    HOST_WRITE = 4,
    HOST_MEMORY = 5,
    HOST_PLATFORM = 6,
    HOST_STORE = 7,
    HOST_BLANK = 8,
    HOST_ALREADY = 9,
    HOST_CELL = 10,
    HOST_LOST = 11,
    HOST_REFUSED = 12,
    HOST_LINE = 13,
    HOST_LONG = 14,
    HOST_MUCH = 15,
    HOST_SHORT = 16,
    HOST_KIND = 17,
};

/* An instance that is served. */
struct host {
    const struct host_devices *devices;
    const struct host_store *store;
    struct memoir_instance instance;
    /* The position of the last answer, 0 before the first; and the newest snapshot. */
    uint64_t position;
    uint8_t *snapshot;
    size_t snapshot_length;
    /* The position at which the module came here by host_accept, 0 where it was made here. */
    uint64_t accepted;
    /* What the last call said, where it is over; its reply, and the output in front of the room. */
    uint32_t said;
    struct memoir_reply reply;
    uint8_t *room;
    size_t room_length;
    /* What was sealed last: it makes the calls faster, and changes nothing else. */
    struct memoir_kept kept;
    uint8_t *memory;
};

/* Descriptors 0 to 2 that are closed are taken, so that no file of the instance gets one of these numbers and is
 * written as an output. First of all. */
bool host_take_descriptors(void);

/* The slots in the files slot0 to slot3 of the current folder, or behind links there. */
const struct host_store *host_slots_here(void);

/* Whether the cell is blank: HOST_DONE; HOST_ALREADY where it isn't. */
enum host_status host_is_blank(const struct host_devices *devices);

/* Makes an instance on a blank cell, from 64 secret random bytes. */
enum host_status host_provision(const struct host_devices *devices, const struct host_store *store,
                                const struct memoir_instance *instance, const uint8_t entropy[64]);

/* Opens the instance that the cell has. Close it all the same where it fails. */
enum host_status host_open(struct host *host, const struct host_devices *devices, const struct host_store *store);
void host_close(struct host *host);

/* Goes on after a stop: asks the request of the later record once more. Where there was one the reply is told, and
 * `is_answered`. */
enum host_status host_resume(struct host *host, bool *is_answered);

/* Asks the next request. */
enum host_status host_ask(struct host *host, const uint8_t *request, size_t length);

/* Asks up to 64 requests under one commit: the pieces of this text between bytes TAB. The room has a line for each. No
 * record is kept of them: after HOST_PLATFORM ask the very same text again, and nothing else before. So it is for a program
 * that keeps the text, and the snapshot it was asked on, itself, or has nothing that outlives it. */
enum host_status host_ask_batch(struct host *host, const uint8_t *requests, size_t length);

/* Closes the open segment of Opt; `is_closed` says whether one was open. */
enum host_status host_checkpoint(const struct host_devices *devices, bool *is_closed);

/* MOVES, as memoir.h has them, over the slots of two platforms. `said` is what the move said. After HOST_PLATFORM,
 * HOST_STORE or a stop make the same move again.
 *
 * host_invite, where the module is to go: from 64 secret random bytes, the nonce and the key, which are kept until the
 * ticket is accepted. */
enum host_status host_invite(const struct host_devices *devices, const struct memoir_instance *instance,
                             const struct memoir_keys *link, const uint8_t entropy[64], uint32_t *said);

/* Where the module is, with the newest snapshot of the slots: behind a host_resume, so that nothing waits, and in Opt
 * behind a checkpoint. The ticket has room for memoir_room bytes. The slots stay as they are. */
enum host_status host_retire(const struct host_devices *devices, const struct host_store *store,
                             const struct memoir_instance *instance, const struct memoir_keys *link,
                             const uint8_t nonce[MEMOIR_KEY], uint8_t *ticket, size_t *length, uint32_t *said);

/* Where it is awaited: it opens the instance, in place of host_open, and its snapshot goes into the slots. Old records are
 * emptied before the cell is written. So does a start whose slots have no record yet; where they have one this answers
 * HOST_ALREADY, and host_open and host_resume go on. Close the host, whatever it answers. */
enum host_status host_accept(struct host *host, const struct host_devices *devices, const struct host_store *store,
                             const struct memoir_instance *instance, const struct memoir_keys *link,
                             const uint8_t *ticket, size_t length);

/* Goes on after a stop, and serves the lines of the input, each answered before the next is read. */
enum host_status host_serve(struct host *host, int input, int output, unsigned long *line);

/* The commands `run` and `checkpoint`, to the stop line on standard output: what they end with. */
int host_run(const struct host_devices *devices, const struct host_store *store);
int host_close_segment(const struct host_devices *devices);

/* Writes a text to an output; writes the stop line of a status, and answers the exit status. */
bool host_write(int output, const void *bytes, size_t length);
int host_stopped(enum host_status status, unsigned long line);

/* Says on standard error why a device or a slot failed: what it was, and the system's reason. */
void host_says(const char *what);

#endif
