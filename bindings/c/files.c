/* An instance over files, as `memoir` has it: the cell in `nv`, on memory whose writes may tear, the register in
 * `register`. They stand for devices, and whoever can write them rolls the module back (docs/DEPLOYING.md): where you have
 * hardware, it goes into the five functions.
 *
 *     files init VARIANT MODULE | run | checkpoint | power
 *     files invite VARIANT MODULE | retire VARIANT MODULE | accept VARIANT MODULE
 *
 * Two folders have the file `link`, 64 secret random bytes. In the new one `invite` makes `invitation` from `entropy`: 32
 * bytes, to be copied to the old one's `nonce`, and 32 secret ones. There `retire` makes `ticket.out`, to be copied to the
 * new one's `ticket`, which `accept` takes. Each may be said again after any stop. With a ticket there, `run` accepts it
 * again until its first record is kept.
 *
 * With -DPLAYED it stops where PLAYED says (played.h). */
#define _GNU_SOURCE
#include "extend.h"
#include "host.h"

#include <errno.h>
#include <fcntl.h>
#include <signal.h>
#include <stdio.h>
#include <stdlib.h>
#include <string.h>
#include <sys/file.h>
#include <sys/stat.h>
#include <unistd.h>

/* Two cells, and the selector of the one that counts. */
enum { WHOLE = 2 * MEMOIR_CELL + 1, SELECTOR = 2 * MEMOIR_CELL };

/* The folder, which is locked from the first step on; `nv`, once it is open and locked; and whether it may be made. */
static int folder = -1, nv = -1;
static bool may_make;

static bool put_at(int file, const uint8_t *bytes, size_t length, off_t at)
{
    return pwrite(file, bytes, length, at) == (ssize_t)length && fdatasync(file) == 0;
}

static bool is_regular(int file, off_t most)
{
    struct stat here;
    errno = 0;
    return fstat(file, &here) == 0 && S_ISREG(here.st_mode) && here.st_size <= most;
}

/* Reads `nv`; what it doesn't have is zero. */
static bool read_whole(uint8_t whole[WHOLE])
{
    memset(whole, 0, WHOLE);
    return nv < 0 || (is_regular(nv, WHOLE) && pread(nv, whole, WHOLE, 0) >= 0);
}

/* Opens `nv`, which is made by the first start alone, and locks it, by whatever name another program has it. */
static bool open_nv(void)
{
    const int way = O_RDWR | O_NONBLOCK | O_CLOEXEC;
    nv = open("nv", way);
    return nv < 0 ? errno == ENOENT : flock(nv, LOCK_EX | LOCK_NB) == 0;
}

/* Writes what is read again, before it is synced: a sync that failed in an earlier program isn't tried again by the
 * system, which holds those bytes for written. */
static bool write_again(void)
{
    uint8_t whole[WHOLE], value[MEMOIR_REGISTER];
    if (nv >= 0) {
        if (!read_whole(whole))
            return false;
        off_t at = whole[SELECTOR] % 2 * MEMOIR_CELL;
        struct stat here;
        if (fstat(nv, &here) != 0 || !put_at(nv, whole + at, MEMOIR_CELL, at) ||
            (here.st_size == WHOLE && !put_at(nv, whole + SELECTOR, 1, SELECTOR)))
            return false;
    }
    int file = open("register", O_RDWR | O_NONBLOCK | O_CLOEXEC);
    if (file < 0)
        return errno == ENOENT && fsync(folder) == 0;
    /* Another length is a fault of the step that reads it. */
    ssize_t got = is_regular(file, MEMOIR_REGISTER) ? pread(file, value, sizeof value, 0) : 0;
    bool is_done = got == 0 || (got > 0 && put_at(file, value, (size_t)got, 0));
    close(file);
    return is_done && fsync(folder) == 0;
}

/* Locks the folder and `nv`, at the first step. */
static bool enter(void)
{
    if (folder >= 0)
        return true;
    folder = open(".", O_RDONLY | O_DIRECTORY | O_CLOEXEC);
    if (folder >= 0 && flock(folder, LOCK_EX | LOCK_NB) == 0 && open_nv() && write_again())
        return true;
    host_says("nv");
    if (nv >= 0)
        close(nv);
    if (folder >= 0)
        close(folder);
    nv = folder = -1;
    return false;
}

static uint8_t told(const char *what, bool is_done)
{
    if (!is_done)
        host_says(what);
    return is_done ? MEMOIR_OK : MEMOIR_FAILED;
}

static uint8_t read_cell(void *self, uint8_t bytes[MEMOIR_CELL])
{
    (void)self;
    uint8_t whole[WHOLE];
    if (!enter())
        return MEMOIR_FAILED;
    bool is_done = read_whole(whole);
    if (is_done)
        memcpy(bytes, whole + whole[SELECTOR] % 2 * MEMOIR_CELL, MEMOIR_CELL);
    return told("nv", is_done);
}

static bool make_nv(void)
{
    if (nv < 0 && may_make) {
        nv = open("nv", O_RDWR | O_CREAT | O_EXCL | O_CLOEXEC, 0600);
        return nv >= 0 && fchmod(nv, 0600) == 0 && flock(nv, LOCK_EX | LOCK_NB) == 0 && fsync(folder) == 0;
    }
    return nv >= 0;
}

/* The cell that doesn't count is written, and then the selector: so a write that tears leaves the old one. */
static uint8_t write_cell(void *self, const uint8_t bytes[MEMOIR_CELL])
{
    (void)self;
    uint8_t whole[WHOLE];
    if (!enter())
        return MEMOIR_FAILED;
    errno = 0;
    bool is_done = make_nv() && read_whole(whole);
    uint8_t other = is_done && whole[SELECTOR] % 2 == 0;
    return told("nv", is_done && put_at(nv, bytes, MEMOIR_CELL, other * MEMOIR_CELL) && put_at(nv, &other, 1, SELECTOR));
}

static bool get_register(uint8_t value[MEMOIR_REGISTER])
{
    struct stat here;
    int file = open("register", O_RDONLY | O_NONBLOCK | O_CLOEXEC);
    memset(value, 0, MEMOIR_REGISTER);
    if (file < 0)
        return errno == ENOENT;
    bool is_done = is_regular(file, MEMOIR_REGISTER) && fstat(file, &here) == 0 && here.st_size == MEMOIR_REGISTER &&
                   pread(file, value, MEMOIR_REGISTER, 0) == MEMOIR_REGISTER;
    close(file);
    return is_done;
}

/* It is never seen in part: a new file is written and synced, and takes the name. */
static bool put_register(const uint8_t value[MEMOIR_REGISTER])
{
    if (unlink("register.new") != 0 && errno != ENOENT)
        return false;
    int file = open("register.new", O_WRONLY | O_CREAT | O_EXCL | O_CLOEXEC, 0600);
    bool is_done = file >= 0 && fchmod(file, 0600) == 0 && put_at(file, value, MEMOIR_REGISTER, 0);
    if (file >= 0)
        close(file);
    return is_done && rename("register.new", "register") == 0 && fsync(folder) == 0;
}

static uint8_t read_register(void *self, uint8_t value[MEMOIR_REGISTER])
{
    (void)self;
    return enter() ? told("register", get_register(value)) : MEMOIR_FAILED;
}

static uint8_t reset_register(void *self)
{
    (void)self;
    static const uint8_t zero[MEMOIR_REGISTER];
    return enter() ? told("register", put_register(zero)) : MEMOIR_FAILED;
}

static uint8_t extend_register(void *self, const uint8_t value[MEMOIR_REGISTER])
{
    (void)self;
    uint8_t next[MEMOIR_REGISTER];
    if (!enter())
        return MEMOIR_FAILED;
    bool is_done = get_register(next);
    extend(next, value);
    return told("register", is_done && put_register(next));
}

static struct host_devices devices = {NULL, read_cell, write_cell, read_register, reset_register, extend_register};

#ifdef PLAYED
#include "played.h"
#endif

/* Takes the first 64 bytes of the file `entropy`. */
static enum host_status take_entropy(uint8_t entropy[64])
{
    size_t length = 0;
    int file = open("entropy", O_RDONLY | O_NONBLOCK | O_CLOEXEC);
    ssize_t got = file < 0 ? -1 : 1;
    while (got > 0 && length < 64) {
        got = read(file, entropy + length, 64 - length);
        length += got > 0 ? (size_t)got : 0;
    }
    if (got < 0)
        host_says("entropy");
    if (file >= 0)
        close(file);
    return got < 0 ? HOST_READ : length < 64 ? HOST_SHORT : HOST_DONE;
}

/* The instance that two words name. */
static bool named(const char *variant, const char *module, struct memoir_instance *instance)
{
    instance->variant = strcmp(variant, "opt") == 0 ? MEMOIR_OPT : MEMOIR_BASIC;
    instance->module = memoir_module_id((const uint8_t *)module, strlen(module));
    return (instance->variant == MEMOIR_OPT || strcmp(variant, "basic") == 0) && instance->module != 0;
}

static int init(const char *variant, const char *module)
{
    uint8_t entropy[64];
    struct memoir_instance instance;
    if (!named(variant, module, &instance))
        return host_stopped(HOST_USAGE, 0);
    may_make = true;
    enum host_status status = host_is_blank(&devices);
    if (status == HOST_DONE)
        status = take_entropy(entropy);
    if (status == HOST_DONE)
        status = host_provision(&devices, host_slots_here(), &instance, entropy);
    if (status == HOST_DONE)
        return host_write(STDOUT_FILENO, "made\n", 5) ? HOST_DONE : HOST_WRITE;
    return host_stopped(status, 0);
}

/* Power is lost and comes back: to be run after each boot, as the file outlives it. */
static int power(void)
{
    if (devices.reset_register(NULL) != MEMOIR_OK)
        return host_stopped(HOST_PLATFORM, 0);
    return host_write(STDOUT_FILENO, "power\n", 6) ? HOST_DONE : HOST_WRITE;
}

/* Moves. */

/* The longest ticket, and a byte. */
static uint8_t ticket[1100000];
static size_t ticket_length;

/* Reads a file of at most so many bytes. */
static bool get_file(const char *name, uint8_t *bytes, size_t most, size_t *length)
{
    int file = open(name, O_RDONLY | O_NONBLOCK | O_CLOEXEC);
    ssize_t got = file < 0 ? -1 : 1;
    for (*length = 0; got > 0 && *length < most; *length += got > 0 ? (size_t)got : 0)
        got = read(file, bytes + *length, most - *length);
    if (file >= 0)
        close(file);
    return got >= 0;
}

/* Writes a file as a whole: it takes its name once it is on the disk. */
static bool put_file(const char *name, const char *as, const uint8_t *bytes, size_t length)
{
    int file = open(as, O_WRONLY | O_CREAT | O_TRUNC | O_CLOEXEC, 0600);
    bool is_done = file >= 0 && put_at(file, bytes, length, 0);
    if (file >= 0)
        close(file);
    int here = is_done ? open(".", O_RDONLY | O_DIRECTORY | O_CLOEXEC) : -1;
    is_done = here >= 0 && rename(as, name) == 0 && fsync(here) == 0;
    if (here >= 0)
        close(here);
    if (!is_done)
        host_says(name);
    return is_done;
}

static enum host_status get_link(struct memoir_keys *link)
{
    uint8_t bytes[64];
    size_t length;
    if (!get_file("link", bytes, sizeof bytes, &length))
        return HOST_READ;
    memcpy(link->key, bytes, MEMOIR_KEY);
    memcpy(link->barrier, bytes + MEMOIR_KEY, MEMOIR_KEY);
    return length < 64 ? HOST_SHORT : HOST_DONE;
}

/* Tells a refused move as `memoir transfer` does, and stops. */
static int moved(enum host_status status, uint32_t said, const char *told)
{
    static const char *const causes[] = {"form", "kind", "state", "tag", "stale"};
    static const char *const moves[] = {"open", "gone", "nonce", "barrier"};
    char line[32];
    int length = status == HOST_DONE ? sprintf(line, "%s\n", told)
                 : status != HOST_REFUSED ? 0
                 : said >= MEMOIR_OPEN ? sprintf(line, "no %s\n", moves[said - MEMOIR_OPEN])
                                       : sprintf(line, "no %s\n", causes[said - MEMOIR_FORM]);
    if (!host_write(STDOUT_FILENO, line, (size_t)length))
        return HOST_WRITE;
    return status == HOST_DONE ? HOST_DONE : host_stopped(status, 0);
}

/* Nonce and key are kept before they are used, and gone once the ticket came. */
static int invite(const struct memoir_instance *instance)
{
    uint8_t entropy[64];
    size_t length = 0;
    struct memoir_keys link;
    uint32_t said = MEMOIR_NEXT;
    may_make = true;
    enum host_status status = get_link(&link);
    if (status == HOST_DONE && (!get_file("invitation", entropy, sizeof entropy, &length) || length < 64)) {
        status = take_entropy(entropy);
        if (status == HOST_DONE && !put_file("invitation", "invitation.new", entropy, sizeof entropy))
            status = HOST_STORE;
    }
    if (status == HOST_DONE)
        status = host_invite(&devices, instance, &link, entropy, &said);
    return moved(status, said, "invited");
}

static int retire(const struct memoir_instance *instance)
{
    uint8_t nonce[MEMOIR_KEY];
    size_t length;
    struct memoir_keys link;
    uint32_t said = MEMOIR_NEXT;
    enum host_status status = get_link(&link);
    if (status == HOST_DONE)
        status = !get_file("nonce", nonce, sizeof nonce, &length) ? HOST_READ : length < MEMOIR_KEY ? HOST_SHORT : HOST_DONE;
    if (status == HOST_DONE)
        status = host_retire(&devices, host_slots_here(), instance, &link, nonce, ticket, &ticket_length, &said);
    if (status == HOST_DONE && !put_file("ticket.out", "ticket.new", ticket, ticket_length))
        status = HOST_STORE;
    /* The one by which the module came here is spent. */
    if (status == HOST_DONE && unlink("ticket") != 0 && errno != ENOENT)
        status = HOST_STORE;
    return moved(status, said, "retired");
}

/* The ticket of this folder, accepted. HOST_READ where there is none. */
static enum host_status arrive(struct host *host, const struct memoir_instance *instance)
{
    struct memoir_keys link;
    memset(host, 0, sizeof *host);
    enum host_status status = get_link(&link);
    if (status == HOST_DONE && !get_file("ticket", ticket, sizeof ticket, &ticket_length))
        status = HOST_READ;
    if (status == HOST_DONE)
        status = host_accept(host, &devices, host_slots_here(), instance, &link, ticket, ticket_length);
    if (status == HOST_DONE && unlink("invitation") != 0 && errno != ENOENT)
        status = HOST_STORE;
    return status;
}

static int accept_ticket(const struct memoir_instance *instance)
{
    struct host host;
    char told[32];
    enum host_status status = arrive(&host, instance);
    sprintf(told, "accepted %llu", (unsigned long long)host.position);
    uint32_t said = host.said;
    host_close(&host);
    return moved(status, said, told);
}

/* A module that came by a ticket, as long as nothing was asked here. */
static int run_accepted(void)
{
    struct host host;
    unsigned long line = 1;
    struct memoir_instance instance = {ticket[4], ticket[5]};
    enum host_status status = arrive(&host, &instance);
    if (status == HOST_ALREADY) {
        host_close(&host);
        return host_run(&devices, host_slots_here());
    }
    if (status == HOST_DONE)
        status = host_serve(&host, STDIN_FILENO, STDOUT_FILENO, &line);
    host_close(&host);
    return host_stopped(status, line);
}

static int move_by(const char *word, const char *variant, const char *module)
{
    struct memoir_instance instance;
    if (!named(variant, module, &instance))
        return host_stopped(HOST_USAGE, 0);
    return strcmp(word, "invite") == 0 ? invite(&instance) : strcmp(word, "retire") == 0 ? retire(&instance) : accept_ticket(&instance);
}

int main(int count, char **words)
{
    if (!host_take_descriptors())
        return HOST_PLATFORM;
    signal(SIGPIPE, SIG_IGN);
#ifdef PLAYED
    play(&devices);
#endif
    if (count == 4 && strcmp(words[1], "init") == 0)
        return init(words[2], words[3]);
    if (count == 4 && (strcmp(words[1], "invite") == 0 || strcmp(words[1], "retire") == 0 || strcmp(words[1], "accept") == 0))
        return move_by(words[1], words[2], words[3]);
    if (count == 2 && strcmp(words[1], "run") == 0 && get_file("ticket", ticket, sizeof ticket, &ticket_length) && ticket_length > 5)
        return run_accepted();
    if (count == 2 && strcmp(words[1], "run") == 0)
        return host_run(&devices, host_slots_here());
    if (count == 2 && strcmp(words[1], "checkpoint") == 0)
        return host_close_segment(&devices);
    if (count == 2 && strcmp(words[1], "power") == 0)
        return power();
    return host_stopped(HOST_USAGE, 0);
}
