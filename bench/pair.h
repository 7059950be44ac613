/*
 * pair.h: the proved gateway and the plain one side by side. Each call goes to both, and a difference in the answer, in a byte of
 * the lent buffer or in the state ends the program with status 1 and a line that names it.
 */
#ifndef PAIR_H
#define PAIR_H

#include "plain.h"

enum { PAIR_ROOM = 40, PAIR_AREA = 3 * THA_BLOCK, OUTCOMES = THA_READ + 1, NUMBERS = THA_WRONG_LENGTH + 1 };

/* What a line meets beside the other one. */
enum {
    FULL_ALONE, /* 16, and the other line has places */
    FULL_BOTH,  /* 16, and the other line has none either */
    BETWEEN,    /* a frame of its own ends inside a packet of the other line */
    CONFIRMED,  /* a turn's reply is for it */
    TIMED_OUT,  /* a field listed by a tick is its own */
    MEETINGS
};

/* How a block ends. */
enum {
    WHOLE,       /* all of it is used, of an empty one too */
    NO_AREA,     /* refused with 1 */
    AREA_FULL,   /* fewer than 32 bytes of the area are left, and bytes of the block */
    BLOCK_LIMIT, /* after THA_BLOCK bytes of a longer one */
    ENDINGS
};

typedef struct {
    tha_gateway proved;
    plain_gateway plain;
    uint64_t calls;
    uint64_t outcomes[OUTCOMES];         /* how often each outcome was answered */
    uint64_t numbers[NUMBERS];           /* how often each number was answered; 0: none refused */
    uint64_t handed;                     /* frames of hand-overs that were written */
    uint64_t read[NUMBERS];              /* hand-overs that were read, at 0, or refused with the number */
    uint64_t met[PLAIN_LINES][MEETINGS]; /* how often each line met each */
    uint64_t ended[ENDINGS];             /* how often a block ended so */
    uint64_t runs;                       /* of blocks, repeated byte by byte */
    uint64_t counted[THA_COUNTED + 1];   /* the sums of the blocks' counts: the numbers 3 to 16, and queued */
} pair;

void pair_fresh(pair *p, uint16_t firmware, uint16_t protocol);

/* The calls. room is the length of the lent buffer, at most PAIR_ROOM. line is any number, as the calls take it. */
tha_answer pair_add(pair *p, tha_row row);
tha_answer pair_byte(pair *p, uint8_t line, uint8_t byte, size_t room);
tha_answer pair_turn(pair *p, tha_field field, tha_heard heard, size_t room);
size_t pair_tick(pair *p);
tha_head_answer pair_head(pair *p);
void pair_set_network_error(pair *p, uint16_t error);
void pair_check_date(pair *p);

/* A block with an area of at most PAIR_AREA bytes; the bytes that were written are the first of area, which has PAIR_AREA of them. */
plain_blocked pair_block(pair *p, uint8_t line, const uint8_t *bytes, size_t n, uint8_t *area, size_t room);

/* A frame of the hand-over; with one written, its bytes are the first of frame, which has PAIR_ROOM of them. */
tha_answer pair_hand(pair *p, size_t place, size_t room, uint8_t *frame);

/* Both read a hand-over, and the gateways that they make take the place of those before. */
tha_answer pair_read(pair *p, uint16_t firmware, uint16_t protocol, size_t count, const uint8_t *bytes, size_t n);

/* No calls: put a stored date, or a row at a place of the table, into both, as another build may have left it. */
void pair_plant_date(pair *p, tha_date date);
void pair_plant_row(pair *p, size_t place, tha_row row);

/* The frame writer, with a buffer of at most THA_FRAME_ROOM bytes. */
tha_answer pair_write(pair *p, uint8_t type, const uint8_t *data, size_t n, size_t room);

/* Compares the two states; each call that changes one does so too. */
void pair_compare(const pair *p, const char *call);

#endif
