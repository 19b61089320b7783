/* A limiter over devices and slots in plain memory: the host of host.h where nothing outlives the program.
 *
 *     limiter VARIANT [EVENT STEP] <LINES
 *
 * Each line is a request, several with TABs between them as one batch, `checkpoint` or `power`, and is answered as
 * `memoir replay` does; `writes` says how often the cell was written for them. VARIANT is basic or opt.
 * Where EVENT and STEP are given, power is cut in that event, a request counted from 1, just behind the effect of that
 * device step: the host stops there, with no word, and goes on as after any stop. */
#define _POSIX_C_SOURCE 200809L
#include "extend.h"
#include "host.h"

#include <stdio.h>
#include <stdlib.h>
#include <string.h>
#include <unistd.h>

/* The devices. */

static uint8_t cell[MEMOIR_CELL], reg[MEMOIR_REGISTER];
static bool is_on = true;
/* The step of this event behind which power is cut, 0 for none; and how many were made. */
static unsigned long cut_step, step_number, cell_writes;

/* A step was made. A platform that is off makes none, and answers so. */
static uint8_t made(void)
{
    is_on = ++step_number != cut_step;
    return is_on ? MEMOIR_OK : MEMOIR_OFF;
}

static uint8_t read_cell(void *self, uint8_t bytes[MEMOIR_CELL])
{
    (void)self;
    if (!is_on)
        return MEMOIR_OFF;
    memcpy(bytes, cell, MEMOIR_CELL);
    return made();
}

static uint8_t write_cell(void *self, const uint8_t bytes[MEMOIR_CELL])
{
    (void)self;
    if (!is_on)
        return MEMOIR_OFF;
    memcpy(cell, bytes, MEMOIR_CELL);
    cell_writes++;
    return made();
}

static uint8_t read_register(void *self, uint8_t value[MEMOIR_REGISTER])
{
    (void)self;
    if (!is_on)
        return MEMOIR_OFF;
    memcpy(value, reg, MEMOIR_REGISTER);
    return made();
}

static uint8_t reset_register(void *self)
{
    (void)self;
    if (!is_on)
        return MEMOIR_OFF;
    memset(reg, 0, MEMOIR_REGISTER);
    return made();
}

static uint8_t extend_register(void *self, const uint8_t value[MEMOIR_REGISTER])
{
    (void)self;
    if (!is_on)
        return MEMOIR_OFF;
    extend(reg, value);
    return made();
}

static const struct host_devices devices = {NULL, read_cell, write_cell, read_register, reset_register,
                                            extend_register};

/* Power is lost and comes back. */
static void power(void)
{
    memset(reg, 0, sizeof reg);
    is_on = true;
}

/* The slots. */

static struct {
    uint8_t *bytes;
    size_t length;
} slots[4];

static bool read_slot(void *self, unsigned slot, uint8_t *bytes, size_t *length)
{
    (void)self;
    *length = slots[slot].length;
    if (*length > 0)
        memcpy(bytes, slots[slot].bytes, *length);
    return true;
}

static bool write_slot(void *self, unsigned slot, const uint8_t *bytes, size_t length)
{
    (void)self;
    if (length > 0 && !slots[slot].bytes && !(slots[slot].bytes = malloc(HOST_LONGEST_SLOT)))
        return false;
    if (length > 0)
        memcpy(slots[slot].bytes, bytes, length);
    slots[slot].length = length;
    return true;
}

static const struct host_store store = {NULL, read_slot, write_slot};

/* What the core says, as a replay says it. */
static const char *cause(const struct host *host)
{
    static const char *const causes[] = {"", "memory", "long", "device", "blank", "cell", "lost",
                                         "form", "kind", "state", "tag", "stale", "full"};
    return host->said <= MEMOIR_FULL ? causes[host->said] : "use";
}

static void tell(const struct host *host, enum host_status status)
{
    if (status == HOST_DONE)
        printf("%s %llu %.*s\n", host->reply.again ? "again" : "ok", (unsigned long long)host->position,
               (int)host->reply.output_length, (const char *)host->room);
    else
        printf("no %s\n", cause(host));
}

/* A batch: a line for each of its requests. No record is kept of it, so it is asked again here, whatever stopped it. */
static void serve_batch(struct host *host, const char *line, size_t length)
{
    enum host_status status = host_ask_batch(host, (const uint8_t *)line, length);
    if (status == HOST_PLATFORM) {
        power();
        cut_step = 0;
        status = host_ask_batch(host, (const uint8_t *)line, length);
    }
    if (status != HOST_DONE) {
        tell(host, status);
        return;
    }
    const char *at = (const char *)host->room, *end = at + host->reply.output_length, *lf;
    uint64_t position = host->position;
    for (size_t i = 0; i < length; i++)
        position -= line[i] == '\t';
    for (; at < end && (lf = memchr(at, '\n', (size_t)(end - at))); at = lf + 1)
        printf("%s %llu %.*s\n", host->reply.again ? "again" : "ok", (unsigned long long)position++, (int)(lf - at), at);
}

/* One line: a request, a batch, or one of the three words. */
static void serve(struct host *host, const char *line, size_t length)
{
    bool is_it;
    if (length == 5 && memcmp(line, "power", 5) == 0) {
        power();
        puts("power");
    } else if (length == 6 && memcmp(line, "writes", 6) == 0) {
        printf("writes %lu\n", cell_writes);
    } else if (memchr(line, '\t', length)) {
        serve_batch(host, line, length);
    } else if (length == 10 && memcmp(line, "checkpoint", 10) == 0) {
        enum host_status status = host_checkpoint(&devices, &is_it);
        puts(status == HOST_LOST   ? "no lost"
             : status == HOST_KIND ? "no kind"
             : status != HOST_DONE ? "no device"
             : is_it               ? "checkpointed"
                                   : "no segment");
    } else {
        enum host_status status = host_ask(host, (const uint8_t *)line, length);
        if (status != HOST_PLATFORM) {
            tell(host, status);
            return;
        }
        power();
        cut_step = 0;
        status = host_resume(host, &is_it);
        if (status != HOST_DONE || is_it)
            tell(host, status);
    }
}

int main(int count, char **words)
{
    /* The key and the barrier of a replay; yours are secret, and random. */
    uint8_t entropy[64];
    struct memoir_instance instance = {MEMOIR_BASIC, memoir_module_id((const uint8_t *)"limiter", 7)};
    struct host host;
    bool is_answered;
    if (count != 2 && count != 4)
        return HOST_USAGE;
    for (int i = 0; i < 64; i++)
        entropy[i] = (uint8_t)i;
    if (strcmp(words[1], "opt") == 0)
        instance.variant = MEMOIR_OPT;
    if (host_provision(&devices, &store, &instance, entropy) != HOST_DONE ||
        host_open(&host, &devices, &store) != HOST_DONE || host_resume(&host, &is_answered) != HOST_DONE)
        return HOST_MEMORY;
    cell_writes = 0;
    unsigned long event = count == 4 ? strtoul(words[2], NULL, 10) : 0, number = 0;
    char *line = NULL;
    size_t size = 0;
    ssize_t length;
    while ((length = getline(&line, &size, stdin)) > 0) {
        if (line[length - 1] == '\n')
            length--;
        step_number = 0;
        cut_step = ++number == event ? strtoul(words[3], NULL, 10) : 0;
        serve(&host, line, (size_t)length);
    }
    free(line);
    host_close(&host);
    return 0;
}
