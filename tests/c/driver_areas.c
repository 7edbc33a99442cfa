/*
 * The areas of `driver`: how each is laid, and the guard bytes beside it.
 */
#define _DEFAULT_SOURCE /* mmap and its MAP_ANONYMOUS */
#include "driver.h"
#include <stdlib.h>
#include <string.h>
#include <sys/mman.h>
#include <unistd.h>

/* odd, as malloc gives even addresses: a record needs no alignment */
#define GUARDS 33

enum how how;

/* No two neighbours are alike, so that moved bytes show too. */
static uint8_t guard(size_t place)
{
    return (uint8_t)(place * 29 + 101);
}

static bool inside(const struct area *area, size_t place)
{
    size_t start = (size_t)(area->bytes - area->block);
    return place >= start && place - start < area->length;
}

static void set_guards(struct area *area)
{
    for (size_t place = 0; place < area->block_length; place++)
        if (!inside(area, place))
            area->block[place] = guard(place);
}

void check_guards(const struct area *area)
{
    for (size_t place = 0; place < area->block_length; place++)
        if (!inside(area, place) && area->block[place] != guard(place))
            stop(1, area->block + place < area->bytes ? "a byte before the area was written"
                                                      : "a byte after the area was written");
}

static size_t page(void)
{
    return (size_t)sysconf(_SC_PAGESIZE);
}

void lift(struct area *area)
{
    if (how == WITH_GUARDS || how == ON_HEAP)
        free(area->block);
    else if (area->block != NULL)
        munmap(area->block - page(), area->block_length + 2 * page());
    *area = (struct area){NULL, 0, NULL, 0};
}

static uint8_t *on_heap(size_t length)
{
    uint8_t *block = malloc(length);
    if (block == NULL)
        stop(2, "no memory, or no pointer for no bytes");
    return block;
}

/* Pages that can be used between two that can't. */
static uint8_t *between_pages(size_t length)
{
    uint8_t *start = mmap(NULL, length + 2 * page(), PROT_NONE, MAP_PRIVATE | MAP_ANONYMOUS, -1, 0);
    if (start == MAP_FAILED || mprotect(start + page(), length, PROT_READ | PROT_WRITE) != 0)
        stop(2, "no memory");
    return start + page();
}

void seal(struct area *area, bool sealed)
{
    if (how == WITH_GUARDS || how == ON_HEAP || area->block == NULL)
        return;
    if (mprotect(area->block, area->block_length, sealed ? PROT_READ : PROT_READ | PROT_WRITE) != 0)
        stop(2, "the pages can't be protected");
}

void lay(struct area *area, const uint8_t *bytes, size_t length)
{
    lift(area);
    size_t before = 0;
    switch (how) {
    case WITH_GUARDS:
        before = GUARDS;
        area->block_length = GUARDS + length + GUARDS;
        area->block = on_heap(area->block_length);
        break;
    case ON_HEAP:
        area->block_length = length;
        area->block = on_heap(length);
        break;
    case PAGE_BEFORE:
    case PAGE_AFTER:
        area->block_length = (length / page() + 1) * page();
        area->block = between_pages(area->block_length);
        before = how == PAGE_AFTER ? area->block_length - length : 0;
        break;
    }
    area->bytes = area->block + before;
    area->length = length;
    set_guards(area);
    memcpy(area->bytes, bytes, length);
}
