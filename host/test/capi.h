/* capi.h: the test cases of the archive's calls, and what they share. */
#ifndef CAPI_H
#define CAPI_H

#include "../../include/wrackpulley.h"

/* A row with another value in every field: the first is 1. */
tha_row busy_row(uint8_t first);

/* A gateway with such rows, firmware 0x1234 and protocol 0x5678. */
tha_gateway gateway_of_rows(size_t rows);

/* A field; here and in all tests of the archive the parts of a struct are given by name, so that a wrong order is seen. */
tha_field field_at(uint16_t address, uint8_t kind, uint8_t state);

tha_line_field line_field_at(uint8_t line, uint16_t address, uint8_t kind, uint8_t state);

/* The receiver of a line: 0 is the controller's. */
tha_receiver *receiver_of(tha_gateway *gateway, uint8_t line);

/* Feeds a frame to a line; each byte but the last does nothing. Returns what the last one did; reply has THA_REPLY_ROOM bytes. */
tha_result feed_frame(tha_gateway gateway, uint8_t line, const uint8_t *frame, size_t length, uint8_t *reply);

/* Feeds the frame of a service, a method and fields; first to a line, then to the controller's. */
tha_result feed_line_record(tha_gateway gateway, uint8_t line, uint8_t service, uint32_t method, const uint8_t *fields, size_t length,
                            uint8_t *reply);
tha_result feed_record(tha_gateway gateway, uint8_t service, uint32_t method, const uint8_t *fields, size_t length, uint8_t *reply);

/* Feeds an Update of cool, slab or fan, which must be queued; first to a line, then to the controller's. */
tha_gateway queue_line_setting(tha_gateway gateway, uint8_t line, uint32_t method, uint16_t address, uint8_t state, uint8_t value);
tha_gateway queue_setting(tha_gateway gateway, uint32_t method, uint16_t address, uint8_t state, uint8_t value);

/* A record of a service and a method with these fields is answered at once with those fields; the buffer past the reply stays. */
void check_reply(tha_gateway gateway, uint8_t service, uint32_t method, const uint8_t *fields, const uint8_t *answer, size_t length);

/* The same of a Request. */
void check_answer(tha_gateway gateway, uint32_t method, const uint8_t *fields, const uint8_t *answer, size_t length);

/* capi_round.c: every call, with another value in every field */
void fresh_gateway(void);
void rows_in_and_out(void);
void properties_in_and_out(void);
void queue_slots(void);
void ticks_and_lists(void);
void head_and_turns(void);
void longest_replies(void);
void frames_written(void);

/* capi_refusals.c: every number of refusal, and what it leaves */
void refusals_of_buffers(void);
void refusals_of_packets(void);
void packets_of_each_length(void);
void numbers_of_drops(void);
void refusals_of_records(void);
void refusals_of_the_queue(void);
void refusals_of_turns(void);
void refusals_of_no_field(void);
void refusals_of_rows(void);
void refusals_of_writing(void);

/* capi_lines.c: the two lines */
void receivers_of_lines(void);
void frames_side_by_side(void);
void numbers_of_lines(void);
void eight_of_a_line(void);
void fields_of_both_lines(void);
void lines_of_answers(void);

/* capi_block.c: a block of a line's bytes */
void blocks_refused(void);
void areas_with_little_room(void);
void blocks_of_4096(void);
void counts_of_blocks(void);
void bodies_over_blocks(void);
void lines_of_blocks(void);
void cuttings_of_lines(void);
void cuttings_at_each_place(void);
void blocks_of_other_values(void);

/* capi_values.c: values that no call hands out */
void counts_too_large(void);
void kinds_too_large(void);
void modes_with_a_state(void);
void receivers_too_long(void);
void more_than_eight_of_a_line(void);
void line_numbers_too_large(void);

/* capi_dates.c: which dates are stored, and the owner's check */
void dates_sent(void);
void dates_checked(void);
void other_dates_checked(void);

/* capi_handover.c: the hand-over, written and read */
void frames_handed(void);
void dates_handed(void);
void refusals_of_handing(void);
void hand_overs_read(void);
void refusals_of_counts(void);
void frames_not_due(void);
void fields_not_due(void);
void frames_out_of_order(void);
void values_not_due(void);
void stray_bytes(void);
void frames_dropped(void);
void rows_not_read(void);
void first_met_decides(void);
void wrong_lengths(void);
void flipped_bits(void);
void setback_state_on_the_line(void);

#endif
