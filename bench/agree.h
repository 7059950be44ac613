/*
 * agree.h: the same traffic through both gateways before anything is timed. A difference ends the program with status 1.
 */
#ifndef AGREE_H
#define AGREE_H

#include "traffic.h"

/* The timed traffic, call by call. Answers how many calls were compared. */
uint64_t agree_timed(const traffic *t);

/* The owner's check of every date from 1999 to 2256, with months 0 to 13 and days 0 to 32. Answers how many calls were compared. */
uint64_t agree_dates(void);

/*
 * What random traffic compared: calls, and of them written frames of hand-overs, hand-overs read, and refused; Updates refused with
 * 16 while the other line had places, and while it had none; frames that ended inside a packet of the other line; blocks, of them
 * those that stopped with the area full, and after THA_BLOCK bytes; and runs of blocks that were repeated byte by byte.
 */
typedef struct {
    uint64_t calls;
    uint64_t handed;
    uint64_t read;
    uint64_t not_read;
    uint64_t full_alone;
    uint64_t full_both;
    uint64_t between;
    uint64_t blocks;
    uint64_t area_full;
    uint64_t limited;
    uint64_t runs;
} agreed;

/* Mixed random traffic of both lines, with blocks and hand-overs in it; every kind of answer, each number but 22, on either line each of
 * pair.h's meetings, each ending of a block and each of its counts has to come up. */
agreed agree_random(void);

#endif
