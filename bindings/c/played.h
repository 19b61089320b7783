/* For scripts that play a host: it stops at one device step. PLAYED is three words, CALL STEP HOW: at this step of this
 * call, both counted as the reads of the cell begin them (call 0 is the look at the cell with which `run` begins), HOW is
 *
 *     drop      the program ends just behind the effect, as by a kill
 *     cut       the same, and power is lost: the register is emptied
 *     done      the device answers that it failed, behind the effect
 *     undone    the same, without the effect */
#ifndef PLAYED_H
#define PLAYED_H

#include "host.h"

#include <stdio.h>
#include <stdlib.h>
#include <string.h>
#include <unistd.h>

static struct {
    struct host_devices inner;
    int call, step, at_call, at_step;
    char how[16];
} plan;

/* Whether this is the step. */
static bool comes(void) { return plan.call == plan.at_call && plan.step == plan.at_step; }

static bool has_effect(void)
{
    ++plan.step;
    return !comes() || strcmp(plan.how, "undone") != 0;
}

static uint8_t behind(uint8_t answer)
{
    if (!comes())
        return answer;
    if (strcmp(plan.how, "cut") == 0)
        plan.inner.reset_register(plan.inner.self);
    if (strcmp(plan.how, "cut") == 0 || strcmp(plan.how, "drop") == 0)
        _exit(70);
    return MEMOIR_FAILED;
}

static uint8_t played_read_cell(void *self, uint8_t bytes[MEMOIR_CELL])
{
    plan.call++;
    plan.step = 0;
    return behind(has_effect() ? plan.inner.read_cell(self, bytes) : MEMOIR_FAILED);
}

static uint8_t played_write_cell(void *self, const uint8_t bytes[MEMOIR_CELL])
{
    return behind(has_effect() ? plan.inner.write_cell(self, bytes) : MEMOIR_FAILED);
}

static uint8_t played_read_register(void *self, uint8_t value[MEMOIR_REGISTER])
{
    return behind(has_effect() ? plan.inner.read_register(self, value) : MEMOIR_FAILED);
}

static uint8_t played_reset_register(void *self)
{
    return behind(has_effect() ? plan.inner.reset_register(self) : MEMOIR_FAILED);
}

static uint8_t played_extend_register(void *self, const uint8_t value[MEMOIR_REGISTER])
{
    return behind(has_effect() ? plan.inner.extend_register(self, value) : MEMOIR_FAILED);
}

/* Has the devices stop as PLAYED says. */
static void play(struct host_devices *it)
{
    const char *words = getenv("PLAYED");
    plan.call = -1;
    if (!words || sscanf(words, "%d %d %15s", &plan.at_call, &plan.at_step, plan.how) != 3)
        return;
    plan.inner = *it;
    *it = (struct host_devices){it->self, played_read_cell, played_write_cell, played_read_register,
                                played_reset_register, played_extend_register};
}

#endif
