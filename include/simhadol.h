/*
 * simhadol.h: one end of the 1000BASE-T1 OAM channel, kept by the caller. Link with libsimhadol.a.
 *
 * RECORDS
 *
 * An end lives in a record: SIMHADOL_RECORD_LENGTH bytes of the caller's own memory. The library keeps nothing between
 * calls and allocates nothing; all that it knows of an end is in its record. docs/RECORD.md describes every byte.
 *
 *     static uint8_t end[SIMHADOL_RECORD_LENGTH];
 *
 *     simhadol_reset(end, sizeof end);
 *     for (;;) {
 *         simhadol_reply slot = simhadol_send(end, sizeof end);
 *         if (slot.answer != SIMHADOL_DONE)
 *             stop("these bytes are no record any more");
 *         put_on_line(slot.value);
 *         simhadol_take(end, sizeof end, get_from_line());
 *     }
 *
 * The archive is for x86-64, needs no other library and has no data of its own.
 *
 * A record may be copied, stored and restored by plain copying. It is a string of bytes with no padding, its numbers of
 * two bytes have the high byte first, and it is the same on every machine. Each end has exactly one record. To restore
 * an older record counts as a reset: every call still keeps its promise, but that messages come up in order, each once
 * and none lost, holds only until then, as it does at any reset of one end alone. The counts go on from the older
 * record's.
 *
 * Records of versions 1 and 2, of SIMHADOL_RECORD_LENGTH_1 and SIMHADOL_RECORD_LENGTH_2 bytes, say only whether the
 * partner was present at all, and those of version 1 have no counts. They are written no more. simhadol_upgrade makes a
 * record of one, in a second area; every other call answers it with SIMHADOL_BAD_RECORD.
 *
 * POINTERS
 *
 * `record` points to `length` bytes that may be read and, but for simhadol_present and simhadol_counts, written. It needs
 * no alignment. It may be NULL if `length` is 0. No call reads or writes a byte outside of them. A record belongs to one
 * call at a time and overlaps nothing else that is in use: calls on different records may run at the same time, in any
 * threads or interrupts; whoever shares one record among them has to keep its calls apart, by a lock or otherwise. The
 * same holds of `old`, which is only read: the two areas of simhadol_upgrade must not overlap.
 *
 * ANSWERS
 *
 * Every call answers by one table. With any answer but SIMHADOL_DONE all else that is given is 0 and every byte of the
 * record stays as it was. (Bytes that stay may still be written, with the value that they have; by simhadol_present and
 * simhadol_counts and with SIMHADOL_BAD_RECORD no byte is.) Where two answers apply, the one that stands first in 11, 2,
 * 3, 10, 4, 5, 6 is given. Arguments are numbers of sixteen bits: what C cuts off a wider one, no call can see.
 *
 * SIMHADOL_BAD_RECORD, from every call but simhadol_reset and simhadol_upgrade, says that these bytes are not the record
 * of an end: `length` or the record's own length is not SIMHADOL_RECORD_LENGTH, the version is not 3, or a value is above
 * the largest of its field. It comes before any other check. Any bytes at all may be given: those that are no record get
 * this answer.
 */
#ifndef SIMHADOL_H
#define SIMHADOL_H

#include <stddef.h>
#include <stdint.h>

#ifdef __cplusplus
extern "C" {
#endif

/* The length of a record in bytes, for arrays. It equals simhadol_record_length(). */
#define SIMHADOL_RECORD_LENGTH 101

/* The lengths of records of version 1 and of version 2, for simhadol_upgrade. */
#define SIMHADOL_RECORD_LENGTH_1 92
#define SIMHADOL_RECORD_LENGTH_2 100

/* Presence lapses with this many symbols after the one that completes an accepted frame. */
#define SIMHADOL_PRESENCE 768

/* What `answer` can be. */
enum {
    SIMHADOL_DONE = 0,
    SIMHADOL_NO_SUCH_REGISTER = 2,   /* the register is not one of 3.2308 to 3.2317 */
    SIMHADOL_READ_ONLY_REGISTER = 3, /* a write to 3.2313 to 3.2317 */
    SIMHADOL_BLOCKED = 4,            /* a write while a message is pending: to 3.2308 with bit 15 set, or to
                                        3.2309 to 3.2312 */
    SIMHADOL_BAD_SYMBOL = 5,         /* a symbol above 1,023 */
    SIMHADOL_BAD_HEALTH = 6,         /* a health above 3 */
    SIMHADOL_READ_ONLY_BITS = 10,    /* a write to 3.2308 with one of bits 14:12, 7:3 or 1:0 set */
    SIMHADOL_BAD_RECORD = 11         /* the bytes are not the record of an end */
};

/*
 * The registers, by number:
 *
 *     2308         15 pending (write 1 to send), 14 register toggle, 13 Received, 12 received toggle, 11:8 message
 *                  number, 3 PingRx as got, 2 PingTx, 1:0 health as loaded at the last frame start. Bits 14:12, 7:3
 *                  and 1:0 are read-only.
 *     2309 - 2312  the message to send, two bytes each: the even byte in 7:0, the odd one in 15:8
 *     2313         15 full, 14 toggle, 11:8 message number, 1:0 the partner's health. Read-only, as are the next.
 *     2314 - 2317  the message received, two bytes each, likewise
 */
enum {
    SIMHADOL_TRANSMIT = 2308,       /* its bytes follow in 2309 to 2312 */
    SIMHADOL_RECEIVE = 2313,        /* its bytes follow in 2314 to 2317 */
    SIMHADOL_PENDING = 0x8000,      /* of 2308: a message is pending, or is to be sent */
    SIMHADOL_RECEIVED = 0x2000,     /* of 2308: a message was acknowledged since the last read of 2308 */
    SIMHADOL_PING_GOT = 0x0008,     /* of 2308: PingRx as got */
    SIMHADOL_PING_TX = 0x0004,      /* of 2308: PingTx */
    SIMHADOL_FULL = 0x8000,         /* of 2313: a message stands in the receive register */
    SIMHADOL_MARK = 512             /* added to a symbol that could not be corrected */
};
#define SIMHADOL_NUMBER(value) ((value) >> 8 & 15) /* the message number in 2308 or 2313 */

/* What a call gives, by value: its answer, and a value where the call has one, else 0. */
typedef struct simhadol_reply {
    uint16_t answer;
    uint16_t value;
} simhadol_reply;

/*
 * What `reason` can be: what a symbol made of the collection, which is the frame's symbols taken so far. With its twelfth
 * symbol a collection is accepted or not. A marked symbol breaks it, and so does an even one, which only a frame's first
 * symbol may be. An empty collection can't be broken.
 */
enum {
    SIMHADOL_REASON_NOTHING = 0,  /* the symbol was added or passed over, or the call was refused: no collection ended */
    SIMHADOL_REASON_ACCEPTED = 1, /* the twelfth symbol: the frame is accepted */
    SIMHADOL_REASON_CRC = 2,      /* the twelfth symbol: the CRC is wrong, and nothing of the frame is used */
    SIMHADOL_REASON_MARKED = 3,   /* a marked symbol broke it; it is empty now */
    SIMHADOL_REASON_EARLY = 4     /* an early even symbol broke it, and is the first of a new one */
};

/* What simhadol_take_reason gives, by value. */
typedef struct simhadol_taken {
    uint16_t answer;
    uint16_t reason;
    uint16_t symbols; /* with MARKED and EARLY how many symbols the broken collection had, 1 to 11, else 0 */
} simhadol_taken;

/*
 * What simhadol_counts gives, by value: how many collections ended with each reason, since simhadol_reset filled
 * the area or a record of version 1 was upgraded. Each count stops at 65,535, which so stands for that many or more.
 */
typedef struct simhadol_counted {
    uint16_t answer;
    uint16_t accepted; /* frames accepted */
    uint16_t crc;      /* collections that the CRC showed to be wrong */
    uint16_t marked;   /* collections broken by a marked symbol */
    uint16_t early;    /* collections broken by an early even symbol */
} simhadol_counted;

/*
 * Where a record has its counts, and how many more symbols without an accepted frame until presence lapses, 0 where the
 * partner is absent: two bytes each, the high byte first, for whoever has the bytes but not the library.
 */
enum {
    SIMHADOL_ACCEPTED_COUNT = 91,
    SIMHADOL_CRC_COUNT = 93,
    SIMHADOL_MARKED_COUNT = 95,
    SIMHADOL_EARLY_COUNT = 97,
    SIMHADOL_PRESENCE_LEFT = 99
};
#define SIMHADOL_COUNT_AT(record, at) ((uint16_t)((uint16_t)(record)[at] << 8 | (record)[(at) + 1]))

/* The length of a record in bytes, as the library was built with it. */
size_t simhadol_record_length(void);

/*
 * Fills the area with the record of an end just reset, whatever it held before; it may be uninitialised.
 * Answers DONE, or BAD_RECORD if `length` is not SIMHADOL_RECORD_LENGTH; no byte is then written.
 */
simhadol_reply simhadol_reset(uint8_t *record, size_t length);

/*
 * Sends one symbol. Call it once a slot, before simhadol_take.
 * Answers DONE, with the symbol (0 to 511) as the value, or BAD_RECORD.
 */
simhadol_reply simhadol_send(uint8_t *record, size_t length);

/*
 * Takes one symbol from the line, 0 to 1,023. One whose data frame could not be corrected is marked: give the symbol
 * plus SIMHADOL_MARK, or any number from 512 to 1,023.
 * Answers DONE, BAD_SYMBOL or BAD_RECORD.
 */
simhadol_reply simhadol_take(uint8_t *record, size_t length, uint16_t symbol);

/*
 * Takes one symbol as simhadol_take does, with the same answer and the same bytes after, and also gives the reason. Call
 * it instead of simhadol_take, not beside it: each takes the symbol.
 * Where a record was written by these calls alone since simhadol_reset, the reason of a failure is the frame's first
 * fault: with MARKED its symbol `symbols`, counted from 0, is marked; with EARLY that symbol has the wrong parity; with
 * CRC its twelve symbols are unmarked and of the right parity, and its CRC is wrong.
 * Answers DONE, BAD_SYMBOL or BAD_RECORD.
 */
simhadol_taken simhadol_take_reason(uint8_t *record, size_t length, uint16_t symbol);

/*
 * Reads register 3.`number`, 2308 to 2317. Reading 2308 clears Received after giving it; reading 2317 empties the
 * receive register, and its bytes stay readable. To take a message, read 2313 and, only if bit 15 is set, then 2314,
 * 2315, 2316 and 2317, in this order.
 * Answers DONE, with the register as the value, NO_SUCH_REGISTER or BAD_RECORD.
 */
simhadol_reply simhadol_read(uint8_t *record, size_t length, uint16_t number);

/*
 * Writes register 3.`number`. To send a message, write its eight bytes to 2309 to 2312, the even byte in bits 7:0, then
 * bit 15 with the message number in bits 11:8 to 2308.
 * Answers DONE, NO_SUCH_REGISTER, READ_ONLY_REGISTER, READ_ONLY_BITS, BLOCKED or BAD_RECORD.
 */
simhadol_reply simhadol_write(uint8_t *record, size_t length, uint16_t number, uint16_t value);

/*
 * Sets the health, 0 to 3, that is sent from the next frame on.
 * Answers DONE, BAD_HEALTH or BAD_RECORD.
 */
simhadol_reply simhadol_set_health(uint8_t *record, size_t length, uint16_t health);

/*
 * Whether the partner is present: whether a frame was accepted within the last SIMHADOL_PRESENCE symbols taken, marked
 * ones included. The symbol that completes a frame is number 0 after it: with 767 later symbols and no other frame the
 * partner is still present, with 768 no more. A refused symbol is not taken and does not count. It writes no byte.
 * Answers DONE, with 1 (present) or 0 (not) as the value, or BAD_RECORD.
 */
simhadol_reply simhadol_present(const uint8_t *record, size_t length);

/*
 * The four counts, all of the same moment. It writes no byte. Only filling the area anew sets a count back.
 * Answers DONE, or BAD_RECORD with all counts 0.
 */
simhadol_counted simhadol_counts(const uint8_t *record, size_t length);

/*
 * Fills the area `record` with the record of the end in `old`, which is a record of version 1 or 2. The counts are those
 * of a record of version 2; after version 1 they are 0. The partner is absent until the next frame is accepted, as
 * neither version says how long ago the last one was. What the area held before does not matter; it may be
 * uninitialised. `old` is only read. The areas must not overlap.
 * Answers DONE, or BAD_RECORD if `old` is anything but a good record of version 1 or 2 (a record of version 3 is none),
 * or if `length` is not SIMHADOL_RECORD_LENGTH; no byte is then written.
 */
simhadol_reply simhadol_upgrade(const uint8_t *old, size_t old_length, uint8_t *record, size_t length);

#ifdef __cplusplus
}
#endif

#endif
