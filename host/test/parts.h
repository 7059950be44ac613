/* parts.h: the test cases of the host's parts that are not in test_parts.c. */
#ifndef PARTS_H
#define PARTS_H

/* part_calls.c: a thermostat side of one's own, and blocks */
void plugged_in_thermostats(void);
void timed_out_is_forgotten(void);
void full_outbox_stops_all(void);
void answers_by_line(void);
void several_in_a_block(void);
void block_without_room(void);
void unable_line_is_passed_by(void);

/* part_drain.c: the end of a gateway that hands over */
void drained_at_once(void);
void last_packet(void);
void last_bytes(void);
void held_up(void);
void left_on_both_lines(void);

/* part_files.c: the files that outlive a gateway */
void replaced_whole(void);
void state_there_and_back(void);
void state_cut_anywhere(void);
void hand_over_there_and_back(void);
void longest_hand_over(void);
void no_hand_over_while_one_waits(void);

#endif
