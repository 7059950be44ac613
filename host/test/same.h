/* same.h: gateways compared field by field, since the bytes between fields mean nothing. */
#ifndef SAME_H
#define SAME_H

#include "../../include/wrackpulley.h"

bool same_row(const tha_row *a, const tha_row *b);
bool same_field(tha_field a, tha_field b);
bool same_line_field(tha_line_field a, tha_line_field b);
bool same_receiver(const tha_receiver *a, const tha_receiver *b);
bool same_receivers(const tha_receivers *a, const tha_receivers *b);
bool same_update(const tha_update *a, const tha_update *b);
bool same_table(const tha_table *a, const tha_table *b);
bool same_queue(const tha_queue *a, const tha_queue *b);
bool same_properties(const tha_properties *a, const tha_properties *b);

/* All of the arrays is compared, also past their counts. */
bool same_gateway(const tha_gateway *a, const tha_gateway *b);

/* All but the receivers. */
bool same_records(const tha_gateway *a, const tha_gateway *b);

#endif
