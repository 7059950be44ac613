/*
 * agree_blocks.h: blocks of both lines through both gateways, in the middle of random traffic.
 */
#ifndef AGREE_BLOCKS_H
#define AGREE_BLOCKS_H

#include "pair.h"
#include "random.h"
#include "traffic.h"

/* Puts a packet after what the stretch has, at most PACKET_ROOM bytes. */
typedef void packet_maker(const pair *p, rng *r, stretch *to);

/*
 * Packets of the maker go to both gateways in blocks of random sizes with areas of random sizes, of one line or of both by turns; what
 * a block did not use is carried on. Then the same bytes go one at a time to gateways as they were before: replies, summed counts and
 * the last gateway are compared.
 */
void agree_blocks(pair *p, rng *r, packet_maker *make);

#endif
