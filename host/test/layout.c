/* layout.c: the size of every struct and the offset of every field of the header, as numbers. It compiles or it does not. */
#include "wrackpulley.h"

_Static_assert(sizeof(size_t) == 8 && sizeof(bool) == 1, "the archive is for 64 bits");

#define SIZE(type, size) _Static_assert(sizeof(type) == (size), #type)
#define AT(type, field, offset) _Static_assert(offsetof(type, field) == (offset), #type "." #field)

SIZE(tha_receiver, 280);
AT(tha_receiver, inside, 0);
AT(tha_receiver, escaped, 1);
AT(tha_receiver, len, 8);
AT(tha_receiver, bytes, 16);

SIZE(tha_receivers, 560);
AT(tha_receivers, controller, 0);
AT(tha_receivers, panel, 280);

SIZE(tha_row, 36);
AT(tha_row, address, 0);
AT(tha_row, version, 4);
AT(tha_row, mask, 8);
AT(tha_row, mode, 10);
AT(tha_row, state, 11);
AT(tha_row, events, 12);
AT(tha_row, cool, 13);
AT(tha_row, slab, 20);
AT(tha_row, fan, 27);

SIZE(tha_table, 1160);
AT(tha_table, count, 0);
AT(tha_table, rows, 8);

SIZE(tha_field, 4);
AT(tha_field, address, 0);
AT(tha_field, kind, 2);
AT(tha_field, state, 3);

SIZE(tha_update, 8);
AT(tha_update, line, 0);
AT(tha_update, field, 2);
AT(tha_update, value, 6);
AT(tha_update, age, 7);

SIZE(tha_queue, 136);
AT(tha_queue, count, 0);
AT(tha_queue, slots, 8);

SIZE(tha_date, 8);
AT(tha_date, year, 0);
AT(tha_date, month, 2);
AT(tha_date, day, 3);
AT(tha_date, weekday, 4);
AT(tha_date, hour, 5);
AT(tha_date, minute, 6);

SIZE(tha_properties, 16);
AT(tha_properties, error, 0);
AT(tha_properties, reporting, 2);
AT(tha_properties, firmware, 4);
AT(tha_properties, protocol, 6);
AT(tha_properties, date, 8);

SIZE(tha_gateway, 1872);
AT(tha_gateway, receivers, 0);
AT(tha_gateway, table, 560);
AT(tha_gateway, queue, 1720);
AT(tha_gateway, properties, 1856);

SIZE(tha_answer, 16);
AT(tha_answer, outcome, 0);
AT(tha_answer, number, 1);
AT(tha_answer, line, 2);
AT(tha_answer, count, 8);

SIZE(tha_result, 1888);
AT(tha_result, gateway, 0);
AT(tha_result, answer, 1872);

SIZE(tha_head_answer, 8);
AT(tha_head_answer, number, 0);
AT(tha_head_answer, line, 1);
AT(tha_head_answer, value, 2);
AT(tha_head_answer, field, 4);

SIZE(tha_heard, 2);
AT(tha_heard, answered, 0);
AT(tha_heard, value, 1);

SIZE(tha_line_field, 6);
AT(tha_line_field, line, 0);
AT(tha_line_field, field, 2);

SIZE(tha_fields, 104);
AT(tha_fields, count, 0);
AT(tha_fields, list, 8);

SIZE(tha_ticked, 1976);
AT(tha_ticked, gateway, 0);
AT(tha_ticked, fields, 1872);

SIZE(tha_counts, 64);
AT(tha_counts, numbers, 0);
AT(tha_counts, queued, 56);
AT(tha_counts, body, 60);

SIZE(tha_blocked, 1960);
AT(tha_blocked, gateway, 0);
AT(tha_blocked, number, 1872);
AT(tha_blocked, used, 1880);
AT(tha_blocked, written, 1888);
AT(tha_blocked, counts, 1896);
