/*
 * The calls of `driver` by name, on areas.
 */
#include "driver.h"
#include "simhadol.h"
#include <string.h>

static struct given reply(simhadol_reply reply)
{
    return (struct given){2, {reply.answer, reply.value}};
}

static struct given call_reset(struct area *area, const uint16_t *numbers)
{
    (void)numbers;
    return reply(simhadol_reset(area->bytes, area->length));
}

static struct given call_send(struct area *area, const uint16_t *numbers)
{
    (void)numbers;
    return reply(simhadol_send(area->bytes, area->length));
}

static struct given call_take(struct area *area, const uint16_t *numbers)
{
    return reply(simhadol_take(area->bytes, area->length, numbers[0]));
}

static struct given call_reason(struct area *area, const uint16_t *numbers)
{
    simhadol_taken taken = simhadol_take_reason(area->bytes, area->length, numbers[0]);
    return (struct given){3, {taken.answer, taken.reason, taken.symbols}};
}

static struct given call_read(struct area *area, const uint16_t *numbers)
{
    return reply(simhadol_read(area->bytes, area->length, numbers[0]));
}

static struct given call_write(struct area *area, const uint16_t *numbers)
{
    return reply(simhadol_write(area->bytes, area->length, numbers[0], numbers[1]));
}

static struct given call_health(struct area *area, const uint16_t *numbers)
{
    return reply(simhadol_set_health(area->bytes, area->length, numbers[0]));
}

static struct given call_present(struct area *area, const uint16_t *numbers)
{
    (void)numbers;
    seal(area, true);
    return reply(simhadol_present(area->bytes, area->length));
}

static struct given call_counts(struct area *area, const uint16_t *numbers)
{
    (void)numbers;
    seal(area, true);
    simhadol_counted counted = simhadol_counts(area->bytes, area->length);
    return (struct given){5, {counted.answer, counted.accepted, counted.crc, counted.marked, counted.early}};
}

static const struct call calls[] = {
    {"reset", 0, call_reset},   {"send", 0, call_send},       {"take", 1, call_take},
    {"reason", 1, call_reason}, {"read", 1, call_read},       {"write", 2, call_write},
    {"health", 1, call_health}, {"present", 0, call_present}, {"counts", 0, call_counts},
};

const struct call *call_named(const char *name)
{
    for (size_t i = 0; i < sizeof calls / sizeof *calls; i++)
        if (strcmp(name, calls[i].name) == 0)
            return &calls[i];
    return NULL;
}

struct given upgrade(struct area *old, struct area *area)
{
    seal(old, true);
    return reply(simhadol_upgrade(old->bytes, old->length, area->bytes, area->length));
}
