/*
 * agree_handover.h: hand-overs of both gateways, whole and damaged, in the middle of random traffic.
 */
#ifndef AGREE_HANDOVER_H
#define AGREE_HANDOVER_H

#include "pair.h"
#include "random.h"

/*
 * Both gateways are handed over frame by frame, and read from damaged bytes several times and at last from the bytes as they were
 * written; the traffic goes on with the gateways read. Where updates wait it mostly ends with the refusal.
 */
void agree_hand_over(pair *p, rng *r);

#endif
