/*
 * The freeze, replayed from C over two records: the tile's end and the wall controller's end.
 *
 * The tile sends its reports one at a time and repeats each until it hears that it has arrived. Here the line to the
 * tile is disturbed for two frames, so that the acknowledgement of report 5 is lost, and report 5 comes again after the
 * wall's host has read it. Taken for a new one it would be handed up twice: that was the freeze. docs/freeze.txt plays
 * the same on the bench.
 *
 * Firmware would hold one of the two records and exchange its symbols with the line. The rest is as it stands here: in
 * each slot send one symbol and take one, and let the host use the registers between slots.
 */
#include "simhadol.h"
#include <stdbool.h>
#include <stdio.h>
#include <stdlib.h>
#include <string.h>

#define SLOTS 120
#define FRAME 12 /* slots to a frame */

/* a message as the registers carry it: a number from 0 to 15 and eight bytes in four words */
struct report {
    unsigned slot; /* when the tile has it to send */
    uint16_t number;
    uint16_t words[4];
};

static const struct report reports[] = {
    {0, 5, {0x2211, 0x4433, 0x6655, 0x8877}},
    {12, 6, {0xBBAA, 0xDDCC, 0xFFEE, 0x0100}},
};
#define REPORTS (sizeof reports / sizeof *reports)

static uint8_t tile[SIMHADOL_RECORD_LENGTH];
static uint8_t wall[SIMHADOL_RECORD_LENGTH];

static size_t written; /* reports that the tile's host has written */
static size_t read_up; /* reports that the wall's host has read */

static void stop(unsigned slot, const char *why)
{
    fflush(stdout);
    fprintf(stderr, "tile: slot %u: %s\n", slot, why);
    exit(1);
}

/* Every call here is one that has to be done; the value of its reply. */
static uint16_t done(unsigned slot, simhadol_reply reply)
{
    if (reply.answer != SIMHADOL_DONE)
        stop(slot, "a call was refused");
    return reply.value;
}

static uint16_t read_tile(unsigned slot, uint16_t number)
{
    return done(slot, simhadol_read(tile, sizeof tile, number));
}

static uint16_t read_wall(unsigned slot, uint16_t number)
{
    return done(slot, simhadol_read(wall, sizeof wall, number));
}

static void write_tile(unsigned slot, uint16_t number, uint16_t value)
{
    done(slot, simhadol_write(tile, sizeof tile, number, value));
}

/* The bytes first, then number and request together: from there on the report belongs to the end until it is sent. */
static void write_report(unsigned slot, const struct report *report)
{
    for (uint16_t i = 0; i < 4; i++)
        write_tile(slot, (uint16_t)(SIMHADOL_TRANSMIT + 1 + i), report->words[i]);
    write_tile(slot, SIMHADOL_TRANSMIT, (uint16_t)(SIMHADOL_PENDING | report->number << 8));
    uint16_t control = read_tile(slot, SIMHADOL_TRANSMIT);
    printf("%3u  tile: report %u is written and waits: %04X\n", slot, report->number, control);
}

/* Reading 3.2308 clears Received, so it is read once a slot and both bits are looked at. */
static void tile_host(unsigned slot)
{
    uint16_t control = read_tile(slot, SIMHADOL_TRANSMIT);
    if (control & SIMHADOL_RECEIVED)
        printf("%3u  tile: a report was received: %04X\n", slot, control);
    if (!(control & SIMHADOL_PENDING) && written < REPORTS && reports[written].slot <= slot)
        write_report(slot, &reports[written++]);
}

/* Takes the report that stands in the wall's register. The read of 3.2317 empties it. */
static void take_report(unsigned slot, uint16_t status)
{
    struct report got = {slot, SIMHADOL_NUMBER(status), {0, 0, 0, 0}};
    for (uint16_t i = 0; i < 4; i++)
        got.words[i] = read_wall(slot, (uint16_t)(SIMHADOL_RECEIVE + 1 + i));
    printf("%3u  wall: report %u has arrived: %04X\n", slot, got.number, status);
    printf("%3u  wall: its host has read %04X %04X %04X %04X and the register is empty: %04X\n", slot, got.words[0],
           got.words[1], got.words[2], got.words[3], read_wall(slot, SIMHADOL_RECEIVE));

    if (read_up == REPORTS)
        stop(slot, "a report came up that nobody sent");
    const struct report *next = &reports[read_up++];
    if (got.number != next->number || memcmp(got.words, next->words, sizeof got.words) != 0)
        stop(slot, "a report came up twice, out of turn or harmed");
}

static void wall_host(unsigned slot)
{
    uint16_t status = read_wall(slot, SIMHADOL_RECEIVE);
    if (status & SIMHADOL_FULL)
        take_report(slot, status);
    else if (slot > 0 && slot % FRAME == 0)
        printf("%3u  wall: a frame later nothing new: %04X\n", slot, status);
}

/* Slots 12 to 35 are the two frames that carry the wall's first acknowledgement. */
static bool disturbed(unsigned slot)
{
    return slot >= 12 && slot < 12 + 2 * FRAME;
}

/* Both ends send, then both take what arrives. */
static void run_slot(unsigned slot)
{
    uint16_t to_wall = done(slot, simhadol_send(tile, sizeof tile));
    uint16_t to_tile = done(slot, simhadol_send(wall, sizeof wall));
    if (disturbed(slot))
        to_tile += SIMHADOL_MARK;
    done(slot, simhadol_take(tile, sizeof tile, to_tile));
    done(slot, simhadol_take(wall, sizeof wall, to_wall));
    if (disturbed(slot) != disturbed(slot + 1))
        printf("%3u  line to the tile: %s\n", slot + 1, disturbed(slot) ? "sound again" : "disturbed for two frames");
}

int main(void)
{
    done(0, simhadol_reset(tile, sizeof tile));
    done(0, simhadol_reset(wall, sizeof wall));
    printf("Two ends, each in a record of its own. Slot, who, what, and the register's value (hex).\n");
    for (unsigned slot = 0; slot <= SLOTS; slot++) {
        wall_host(slot);
        tile_host(slot);
        if (slot < SLOTS)
            run_slot(slot);
    }
    if (read_up != REPORTS)
        stop(SLOTS, "a report did not come up");
    printf("Every report came up once, in order and whole.\n");
    if (fflush(stdout) != 0 || ferror(stdout))
        stop(SLOTS, "standard output could not be written");
    return 0;
}
