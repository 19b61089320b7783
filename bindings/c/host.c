/* The host of host.h: calls, slots, a start behind any stop, and lines. */
#define _GNU_SOURCE
#include "host.h"

#include <errno.h>
#include <fcntl.h>
#include <limits.h>
#include <stdio.h>
#include <stdlib.h>
#include <string.h>
#include <sys/file.h>
#include <sys/stat.h>
#include <unistd.h>

bool host_take_descriptors(void)
{
    for (;;) {
        int taken = open(".", O_RDONLY | O_DIRECTORY);
        if (taken < 0)
            return false;
        if (taken > 2)
            return close(taken) == 0;
    }
}

void host_says(const char *what) { fprintf(stderr, "%s: %s\n", what, errno ? strerror(errno) : "not as it should be"); }

bool host_write(int output, const void *bytes, size_t length)
{
    const char *at = bytes;
    while (length > 0) {
        ssize_t written = write(output, at, length);
        if (written < 0 && errno != EINTR)
            return false;
        if (written > 0) {
            at += written;
            length -= (size_t)written;
        }
    }
    return true;
}

/* The slots in files. */

static const char *const files[] = {"slot0", "slot1", "slot2", "slot3", "nv", "register", "register.new"};
enum { FILES = sizeof files / sizeof *files };

/* The files whose names this program let be on the disk. */
static struct stat listed[4];

/* The slots' files as they were opened. Each stays so, and locked, until the program ends or another stands in its place. */
static int held[4] = {-1, -1, -1, -1};

static bool is_same(const struct stat *one, const struct stat *other)
{
    return one->st_dev == other->st_dev && one->st_ino == other->st_ino;
}

static bool sync_folder(const char *path)
{
    int folder = open(path, O_RDONLY | O_DIRECTORY | O_CLOEXEC);
    bool is_done = folder >= 0 && fsync(folder) == 0;
    if (folder >= 0)
        close(folder);
    return is_done;
}

/* Where the links of a name lead to, whether a file is there or not; and its folder. */
static bool follow(const char *name, char path[PATH_MAX], char folder[PATH_MAX])
{
    char target[PATH_MAX];
    strcpy(path, name);
    for (int links = 0; links < 40; links++) {
        const char *slash = strrchr(path, '/');
        int front = slash ? (int)(slash - path) : 0;
        if (snprintf(folder, PATH_MAX, "%.*s", slash ? front + !front : 1, slash ? path : ".") >= PATH_MAX)
            return false;
        ssize_t length = readlink(path, target, sizeof target - 1);
        if (length < 0)
            return errno == EINVAL || errno == ENOENT;
        target[length] = '\0';
        char next[PATH_MAX];
        int size = *target == '/' || !slash ? snprintf(next, sizeof next, "%s", target)
                                            : snprintf(next, sizeof next, "%s/%s", folder, target);
        if (size >= PATH_MAX)
            return false;
        strcpy(path, next);
    }
    errno = ELOOP;
    return false;
}

/* Whether this file is one of the program's other files, by whatever name. */
static bool is_another(unsigned slot, const struct stat *here)
{
    struct stat there;
    for (unsigned i = 0; i < FILES; i++)
        if (i != slot && stat(files[i], &there) == 0 && is_same(here, &there))
            return true;
    return false;
}

/* Whether a file that is made there would be one of the program's other files. */
static bool is_place_of_another(unsigned slot, const char *path, const char *folder)
{
    struct stat here, there;
    const char *slash = strrchr(path, '/');
    if (stat(".", &here) != 0 || stat(folder, &there) != 0 || !is_same(&here, &there))
        return false;
    for (unsigned i = 0; i < FILES; i++)
        if (i != slot && strcmp(slash ? slash + 1 : path, files[i]) == 0)
            return true;
    return false;
}

/* Makes the file of a slot that is absent. */
static int make_file(unsigned slot)
{
    char path[PATH_MAX], folder[PATH_MAX];
    if (!follow(files[slot], path, folder))
        return -1;
    errno = 0;
    if (is_place_of_another(slot, path, folder))
        return -1;
    int file = open(path, O_RDWR | O_CREAT | O_EXCL | O_NOFOLLOW | O_NONBLOCK | O_CLOEXEC, 0600);
    if (file >= 0 && fchmod(file, 0600) != 0) {
        close(file);
        return -1;
    }
    return file;
}

/* Locks the file of a slot and keeps it. A fault where another program has locked it. */
static int hold(unsigned slot, int file, const struct stat *here)
{
    struct stat old;
    bool is_held = held[slot] >= 0 && fstat(held[slot], &old) == 0 && is_same(here, &old);
    if (is_held || flock(file, LOCK_EX | LOCK_NB) != 0) {
        close(file);
        return is_held ? held[slot] : -1;
    }
    if (held[slot] >= 0)
        close(held[slot]);
    held[slot] = file;
    return file;
}

/* Opens the file of a slot; where it is absent it is made, if that is asked for, and else *is_absent. Nothing waits: a
 * FIFO, a device, a lease is a fault at once. */
static int open_slot(unsigned slot, bool is_made, bool *is_absent, struct stat *here)
{
    int file = open(files[slot], O_RDWR | O_NONBLOCK | O_CLOEXEC);
    *is_absent = file < 0 && errno == ENOENT;
    if (*is_absent && is_made)
        file = make_file(slot);
    if (file < 0)
        return -1;
    errno = 0;
    if (fstat(file, here) != 0 || !S_ISREG(here->st_mode) || is_another(slot, here)) {
        close(file);
        return -1;
    }
    return hold(slot, file, here);
}

/* Lets the name of the slot's file be on the disk, in the folder where the file stands, and the link's too. */
static bool sync_name(unsigned slot, const struct stat *here)
{
    char path[PATH_MAX], folder[PATH_MAX];
    if (is_same(here, &listed[slot]))
        return true;
    if (!follow(files[slot], path, folder) || !sync_folder(folder) || !sync_folder("."))
        return false;
    listed[slot] = *here;
    return true;
}

static bool put(int file, const uint8_t *bytes, size_t length)
{
    for (size_t at = 0; at < length;) {
        ssize_t written = pwrite(file, bytes + at, length - at, (off_t)at);
        if (written < 0 && errno != EINTR)
            return false;
        at += written > 0 ? (size_t)written : 0;
    }
    return true;
}

static bool get(int file, uint8_t *bytes, size_t *length)
{
    *length = 0;
    while (*length < HOST_LONGEST_SLOT) {
        ssize_t got = pread(file, bytes + *length, HOST_LONGEST_SLOT - *length, (off_t)*length);
        if (got == 0)
            break;
        if (got < 0 && errno != EINTR)
            return false;
        *length += got > 0 ? (size_t)got : 0;
    }
    return true;
}

static bool write_slot(void *self, unsigned slot, const uint8_t *bytes, size_t length)
{
    (void)self;
    struct stat here;
    bool is_absent;
    int file = open_slot(slot, length > 0, &is_absent, &here);
    if (file < 0 && is_absent && length == 0)
        return true;
    bool is_done = file >= 0 && put(file, bytes, length) && ftruncate(file, (off_t)length) == 0 &&
                   fdatasync(file) == 0 && sync_name(slot, &here);
    if (!is_done)
        host_says(files[slot]);
    return is_done;
}

/* What is read is written again before it is synced: a sync that failed in an earlier program isn't tried again by the
 * system, which holds those bytes for written. */
static bool read_slot(void *self, unsigned slot, uint8_t *bytes, size_t *length)
{
    (void)self;
    struct stat here;
    bool is_absent;
    int file = open_slot(slot, false, &is_absent, &here);
    *length = 0;
    if (file < 0 && is_absent)
        return true;
    bool is_done = file >= 0 && get(file, bytes, length) && put(file, bytes, *length) && fdatasync(file) == 0 &&
                   sync_name(slot, &here);
    if (!is_done)
        host_says(files[slot]);
    return is_done;
}

const struct host_store *host_slots_here(void)
{
    static const struct host_store here = {NULL, read_slot, write_slot};
    return &here;
}

/* The calls: each makes the steps that it is told until it is over. */

static void make(const struct host_devices *devices, struct memoir_step *step)
{
    switch (step->kind) {
    case MEMOIR_READ_CELL: step->answer = devices->read_cell(devices->self, step->bytes); break;
    case MEMOIR_WRITE_CELL: step->answer = devices->write_cell(devices->self, step->bytes); break;
    case MEMOIR_READ_REGISTER: step->answer = devices->read_register(devices->self, step->bytes); break;
    case MEMOIR_RESET_REGISTER: step->answer = devices->reset_register(devices->self); break;
    default: step->answer = devices->extend_register(devices->self, step->bytes);
    }
}

static uint32_t call(struct host *host, const uint8_t *request, size_t length)
{
    struct memoir_step steps[MEMOIR_STEPS];
    for (size_t made = 0; made <= MEMOIR_STEPS; made++) {
        uint32_t said = memoir_ask_keeping(&host->instance, steps, made, host->snapshot, host->snapshot_length, request,
                                           length, &host->kept, host->memory, 2 * host->room_length, &host->reply,
                                           host->room, host->room_length);
        if (said != MEMOIR_NEXT || made == MEMOIR_STEPS)
            return said;
        steps[made] = host->reply.next;
        make(host->devices, &steps[made]);
    }
    return MEMOIR_DIFFERS;
}

/* How a command ends that a call refuses so. Behind MEMOIR_MEMORY the next start asks the request again. */
static enum host_status status_of(uint32_t said)
{
    switch (said) {
    case MEMOIR_DONE: return HOST_DONE;
    case MEMOIR_MEMORY: return HOST_MEMORY;
    case MEMOIR_BLANK: return HOST_BLANK;
    case MEMOIR_OTHER_CELL: return HOST_CELL;
    case MEMOIR_LOST: return HOST_LOST;
    case MEMOIR_LONG:
    case MEMOIR_FORM:
    case MEMOIR_KIND:
    case MEMOIR_STATE:
    case MEMOIR_TAG:
    case MEMOIR_STALE:
    case MEMOIR_FULL: return HOST_REFUSED;
    default: return HOST_PLATFORM;
    }
}

/* The same of a batch. */
static uint32_t call_batch(struct host *host, const uint8_t *requests, size_t length)
{
    struct memoir_step steps[MEMOIR_STEPS];
    for (size_t made = 0; made <= MEMOIR_STEPS; made++) {
        uint32_t said = memoir_ask_batch(&host->instance, steps, made, host->snapshot, host->snapshot_length, requests,
                                         length, &host->reply, host->room, host->room_length);
        if (said != MEMOIR_NEXT || made == MEMOIR_STEPS)
            return said;
        steps[made] = host->reply.next;
        make(host->devices, &steps[made]);
    }
    return MEMOIR_DIFFERS;
}

/* Keeps the snapshot of an answer. */
static enum host_status keep(struct host *host)
{
    if (host->said != MEMOIR_DONE)
        return status_of(host->said);
    host->position = host->reply.position;
    host->snapshot_length = host->reply.snapshot_length;
    memcpy(host->snapshot, host->room + host->reply.output_length, host->snapshot_length);
    return host->store->write(host->store->self, host->position % 2, host->snapshot, host->snapshot_length) ? HOST_DONE
                                                                                                         : HOST_STORE;
}

/* Asks a request with the newest snapshot, and keeps the answer's. */
static enum host_status ask_and_keep(struct host *host, const uint8_t *request, size_t length)
{
    host->said = call(host, request, length);
    return keep(host);
}

enum host_status host_ask_batch(struct host *host, const uint8_t *requests, size_t length)
{
    host->said = call_batch(host, requests, length);
    return keep(host);
}

enum host_status host_ask(struct host *host, const uint8_t *request, size_t length)
{
    uint8_t record[MEMOIR_RECORD];
    size_t size;
    uint64_t next = host->position + 1;
    uint32_t said = memoir_pending(next, request, length, &size, record, sizeof record);
    /* Behind the last position there is no record, and the call says MEMOIR_FULL. */
    if (said != MEMOIR_DONE && said != MEMOIR_NO_POSITION) {
        host->said = said;
        return status_of(said);
    }
    if (said == MEMOIR_DONE && !host->store->write(host->store->self, 2 + next % 2, record, size))
        return HOST_STORE;
    return ask_and_keep(host, request, length);
}

/* The position of the later record of slots 2 and 3, and its request; 0 where there is none. */
static bool later_record(const struct host_store *store, uint8_t *bytes, uint64_t *at, uint8_t *request, size_t *length)
{
    uint8_t read[MEMOIR_LONGEST_REQUEST];
    uint64_t position;
    size_t size, read_length;
    *at = 0;
    for (unsigned slot = 2; slot < 4; slot++) {
        if (!store->read(store->self, slot, bytes, &size))
            return false;
        if (memoir_read_pending((uint8_t)slot, bytes, size, &position, &read_length, read, sizeof read) == MEMOIR_DONE &&
            position > *at) {
            *at = position;
            *length = read_length;
            memcpy(request, read, read_length);
        }
    }
    return true;
}

enum host_status host_resume(struct host *host, bool *is_answered)
{
    uint8_t request[MEMOIR_LONGEST_REQUEST];
    uint64_t at;
    size_t length = 0;
    *is_answered = false;
    if (!later_record(host->store, host->snapshot, &at, request, &length))
        return HOST_STORE;
    host->position = host->accepted;
    if (!host->store->read(host->store->self, at == 0 ? 0 : (at - 1) % 2, host->snapshot, &host->snapshot_length))
        return HOST_STORE;
    if (at == 0)
        return HOST_DONE;
    enum host_status status = ask_and_keep(host, request, length);
    *is_answered = status == HOST_DONE;
    return status;
}

enum host_status host_checkpoint(const struct host_devices *devices, bool *is_closed)
{
    struct memoir_step steps[MEMOIR_STEPS], next;
    uint32_t said = MEMOIR_NEXT;
    for (size_t made = 0; said == MEMOIR_NEXT && made < MEMOIR_STEPS; made++) {
        said = memoir_checkpoint(steps, made, &next);
        if (said == MEMOIR_NEXT) {
            steps[made] = next;
            make(devices, &steps[made]);
        }
    }
    *is_closed = said == MEMOIR_DONE;
    return said == MEMOIR_KIND ? HOST_KIND : said == MEMOIR_NO_SEGMENT ? HOST_DONE : status_of(said);
}

/* Making and opening an instance. */

static bool is_zero(const uint8_t cell[MEMOIR_CELL])
{
    static const uint8_t blank[MEMOIR_CELL];
    return memcmp(cell, blank, MEMOIR_CELL) == 0;
}

enum host_status host_is_blank(const struct host_devices *devices)
{
    uint8_t cell[MEMOIR_CELL];
    if (devices->read_cell(devices->self, cell) != MEMOIR_OK)
        return HOST_PLATFORM;
    return is_zero(cell) ? HOST_DONE : HOST_ALREADY;
}

/* Overwrites what is secret, where the compiler sees no use of that. */
static void wipe(void *secret, size_t length)
{
    for (volatile uint8_t *at = secret; length > 0; length--)
        *at++ = 0;
}

/* The slots, and the cell last: before that nothing exists. */
static enum host_status put_first(const struct host_devices *devices, const struct host_store *store,
                                  const struct memoir_first *first, const uint8_t *snapshot)
{
    for (unsigned slot = 1; slot < 4; slot++)
        if (!store->write(store->self, slot, NULL, 0))
            return HOST_STORE;
    if (!store->write(store->self, 0, snapshot, first->snapshot_length))
        return HOST_STORE;
    return devices->write_cell(devices->self, first->cell) == MEMOIR_OK ? HOST_DONE : HOST_PLATFORM;
}

enum host_status host_provision(const struct host_devices *devices, const struct host_store *store,
                                const struct memoir_instance *instance, const uint8_t entropy[64])
{
    struct memoir_keys keys;
    struct memoir_first first;
    size_t room_length = memoir_room(instance->module);
    uint8_t *room = malloc(room_length);
    memcpy(keys.key, entropy, MEMOIR_KEY);
    memcpy(keys.barrier, entropy + MEMOIR_KEY, MEMOIR_KEY);
    enum host_status status = room ? status_of(memoir_provision(instance, &keys, &first, room, room_length)) : HOST_MEMORY;
    if (status == HOST_DONE)
        status = put_first(devices, store, &first, room);
    wipe(&keys, sizeof keys);
    wipe(&first, sizeof first);
    free(room);
    return status;
}

/* The host of an instance, with its rooms. */
static enum host_status prepare(struct host *host)
{
    host->room_length = memoir_room(host->instance.module) + MEMOIR_LINES;
    host->room = malloc(host->room_length);
    host->memory = malloc(2 * host->room_length);
    host->snapshot = malloc(HOST_LONGEST_SLOT);
    return host->room && host->memory && host->snapshot ? HOST_DONE : HOST_MEMORY;
}

enum host_status host_open(struct host *host, const struct host_devices *devices, const struct host_store *store)
{
    uint8_t cell[MEMOIR_CELL];
    memset(host, 0, sizeof *host);
    host->devices = devices;
    host->store = store;
    memoir_forget(&host->kept);
    if (devices->read_cell(devices->self, cell) != MEMOIR_OK)
        return HOST_PLATFORM;
    enum host_status status = status_of(memoir_cell_instance(cell, &host->instance));
    wipe(cell, sizeof cell);
    return status == HOST_DONE ? prepare(host) : status;
}

void host_close(struct host *host)
{
    wipe(&host->kept, sizeof host->kept);
    free(host->room);
    free(host->memory);
    free(host->snapshot);
}

/* Moves. */

static enum host_status status_of_move(uint32_t said)
{
    switch (said) {
    case MEMOIR_AGAIN: return HOST_DONE;
    case MEMOIR_ALREADY: return HOST_ALREADY;
    case MEMOIR_OPEN:
    case MEMOIR_GONE:
    case MEMOIR_NONCE:
    case MEMOIR_BARRIER: return HOST_REFUSED;
    default: return status_of(said);
    }
}

enum host_status host_invite(const struct host_devices *devices, const struct memoir_instance *instance,
                             const struct memoir_keys *link, const uint8_t entropy[64], uint32_t *said)
{
    struct memoir_step steps[MEMOIR_STEPS], next;
    *said = MEMOIR_NEXT;
    for (size_t made = 0; *said == MEMOIR_NEXT && made < MEMOIR_STEPS; made++) {
        *said = memoir_invite(instance, steps, made, link, entropy, entropy + MEMOIR_KEY, &next);
        if (*said == MEMOIR_NEXT) {
            steps[made] = next;
            make(devices, &steps[made]);
        }
    }
    return status_of_move(*said);
}

enum host_status host_retire(const struct host_devices *devices, const struct host_store *store,
                             const struct memoir_instance *instance, const struct memoir_keys *link,
                             const uint8_t nonce[MEMOIR_KEY], uint8_t *ticket, size_t *length, uint32_t *said)
{
    struct memoir_step steps[MEMOIR_STEPS];
    struct memoir_moved moved = {0};
    uint8_t request[MEMOIR_LONGEST_REQUEST], *offer = malloc(HOST_LONGEST_SLOT);
    uint64_t at;
    size_t size;
    *said = MEMOIR_NEXT;
    bool is_read = offer && later_record(store, offer, &at, request, &size) && store->read(store->self, at % 2, offer, &size);
    for (size_t made = 0; is_read && *said == MEMOIR_NEXT && made < MEMOIR_STEPS; made++) {
        *said = memoir_retire(instance, steps, made, link, nonce, offer, size, &moved, ticket, memoir_room(instance->module));
        if (*said == MEMOIR_NEXT) {
            steps[made] = moved.next;
            make(devices, &steps[made]);
        }
    }
    *length = moved.length;
    enum host_status status = is_read ? status_of_move(*said) : offer ? HOST_STORE : HOST_MEMORY;
    free(offer);
    return status;
}

/* The steps of an acceptance. Before the cell is written old records are emptied; where they aren't old, the module is
 * here. */
static enum host_status accept_by_steps(struct host *host, const struct memoir_keys *link, const uint8_t *ticket,
                                        size_t length, bool has_record, struct memoir_moved *moved)
{
    struct memoir_step steps[MEMOIR_STEPS];
    const struct host_store *store = host->store;
    host->said = MEMOIR_NEXT;
    for (size_t made = 0; host->said == MEMOIR_NEXT && made < MEMOIR_STEPS; made++) {
        host->said = memoir_accept(&host->instance, steps, made, link, ticket, length, moved, host->room, host->room_length);
        if (host->said != MEMOIR_NEXT)
            return has_record && (host->said == MEMOIR_DONE || host->said == MEMOIR_STALE) ? HOST_ALREADY
                                                                                       : status_of_move(host->said);
        if (moved->next.kind == MEMOIR_WRITE_CELL) {
            if (!store->write(store->self, 2, NULL, 0) || !store->write(store->self, 3, NULL, 0))
                return HOST_STORE;
            has_record = false;
        }
        steps[made] = moved->next;
        make(host->devices, &steps[made]);
    }
    return HOST_PLATFORM;
}

enum host_status host_accept(struct host *host, const struct host_devices *devices, const struct host_store *store,
                             const struct memoir_instance *instance, const struct memoir_keys *link,
                             const uint8_t *ticket, size_t length)
{
    uint8_t request[MEMOIR_LONGEST_REQUEST];
    struct memoir_moved moved = {0};
    uint64_t at;
    size_t size;
    memset(host, 0, sizeof *host);
    host->devices = devices;
    host->store = store;
    host->instance = *instance;
    memoir_forget(&host->kept);
    if (memoir_room(instance->module) == 0)
        return HOST_USAGE;
    enum host_status status = prepare(host);
    if (status == HOST_DONE && !later_record(store, host->snapshot, &at, request, &size))
        status = HOST_STORE;
    if (status == HOST_DONE)
        status = accept_by_steps(host, link, ticket, length, at != 0, &moved);
    if (status != HOST_DONE)
        return status;
    host->position = host->accepted = moved.position;
    host->snapshot_length = moved.length;
    memcpy(host->snapshot, host->room, moved.length);
    /* The next record asks on the slot of this position, and a start without one on slot 0. */
    return store->write(store->self, moved.position % 2, host->snapshot, moved.length) &&
                   (moved.position % 2 == 0 || store->write(store->self, 0, host->snapshot, moved.length))
               ? HOST_DONE
               : HOST_STORE;
}

/* Lines. */

/* The lines of an input, one after another. */
struct lines {
    int input;
    size_t start, end;
    char bytes[65536];
};

/* Gives the next line, without its LF, and its length. HOST_MUCH is the end of the input, between two lines. */
static enum host_status next_line(struct lines *it, const char **line, size_t *length)
{
    for (size_t seen = 0;;) {
        char *lf = memchr(it->bytes + it->start + seen, '\n', it->end - it->start - seen);
        seen = it->end - it->start;
        *length = lf ? (size_t)(lf - it->bytes) - it->start : seen;
        if (*length > MEMOIR_LONGEST_REQUEST)
            return HOST_LONG;
        if (lf) {
            *line = it->bytes + it->start;
            it->start += *length + 1;
            return HOST_DONE;
        }
        memmove(it->bytes, it->bytes + it->start, seen);
        it->start = 0;
        it->end = seen;
        ssize_t got;
        do
            got = read(it->input, it->bytes + seen, sizeof it->bytes - seen);
        while (got < 0 && errno == EINTR);
        if (got < 0)
            return HOST_READ;
        if (got == 0)
            return seen == 0 ? HOST_MUCH : HOST_LINE;
        it->end += (size_t)got;
    }
}

/* Tells what a request came to: its reply, or why the offer was refused. */
static enum host_status tell(const struct host *host, enum host_status status, int output)
{
    static const char *const causes[] = {"form", "kind", "state", "tag", "stale", "full"};
    char line[64 + MEMOIR_LONGEST_REQUEST];
    int length;
    if (status == HOST_DONE) {
        length = sprintf(line, "%s %llu ", host->reply.again ? "again" : "ok", (unsigned long long)host->position);
        memcpy(line + length, host->room, host->reply.output_length);
        length += (int)host->reply.output_length;
        line[length++] = '\n';
    } else if (status == HOST_REFUSED && host->said >= MEMOIR_FORM) {
        length = sprintf(line, "no %s\n", causes[host->said - MEMOIR_FORM]);
    } else {
        return status;
    }
    return host_write(output, line, (size_t)length) ? status : HOST_WRITE;
}

enum host_status host_serve(struct host *host, int input, int output, unsigned long *line)
{
    static struct lines lines;
    lines.input = input;
    bool is_answered;
    enum host_status status = host_resume(host, &is_answered);
    if (status != HOST_DONE || is_answered)
        status = tell(host, status, output);
    const char *request;
    size_t length;
    for (*line = 1; status == HOST_DONE; ++*line) {
        status = next_line(&lines, &request, &length);
        if (status == HOST_MUCH)
            return HOST_DONE;
        if (status != HOST_DONE)
            return status;
        if (*line > 1000000)
            return HOST_MUCH;
        status = tell(host, host_ask(host, (const uint8_t *)request, length), output);
    }
    return status;
}

int host_stopped(enum host_status status, unsigned long line)
{
    static const char *const words[] = {"", "", "usage", "read", "", "memory", "platform", "store", "blank", "already",
                                        "cell", "lost", "refused", "line", "long", "much", "short", "kind"};
    char text[64];
    int length = status == HOST_LINE || status == HOST_LONG ? sprintf(text, "stop %s %lu\n", words[status], line)
                                                            : sprintf(text, "stop %s\n", words[status]);
    if (status != HOST_DONE && status != HOST_WRITE)
        host_write(STDOUT_FILENO, text, (size_t)length);
    return (int)status;
}

int host_run(const struct host_devices *devices, const struct host_store *store)
{
    struct host host;
    unsigned long line = 1;
    enum host_status status = host_open(&host, devices, store);
    if (status == HOST_DONE)
        status = host_serve(&host, STDIN_FILENO, STDOUT_FILENO, &line);
    host_close(&host);
    return host_stopped(status, line);
}

int host_close_segment(const struct host_devices *devices)
{
    bool is_closed;
    enum host_status status = host_checkpoint(devices, &is_closed);
    const char *text = is_closed ? "checkpointed\n" : "no segment\n";
    if (status == HOST_DONE)
        return host_write(STDOUT_FILENO, text, strlen(text)) ? HOST_DONE : HOST_WRITE;
    return host_stopped(status, 0);
}
