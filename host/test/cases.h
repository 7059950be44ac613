/* cases.h: the test cases of tha-gateway, by subject. */
#ifndef CASES_H
#define CASES_H

/* cases_start.c: what keeps a gateway from being started */
void wrong_arguments(void);
void asked_for_help(void);
void wrong_tables(void);
void wrong_table_lines(void);
void no_table(void);
void good_tables(void);
void wrong_devices(void);
void one_process_a_line(void);
void wrong_panels(void);

/* cases_end.c: how the line is set up, and how a gateway ends */
void set_to_9600_8n1_raw(void);
void every_byte_passes(void);
void ends_on_signals(void);
void ends_under_load(void);
void no_standard_error(void);

/* cases_time.c: ticks and time-outs */
void silent_until_the_120th_tick(void);
void a_place_is_free_again(void);
void a_delay(void);
void neighbours_of_the_silent(void);
void a_second_is_a_second(void);

/* cases_load.c: garbage and floods */
void garbage(void);
void flood_of_a_megabyte(void);
void controller_that_does_not_read(void);
void log_that_nobody_reads(void);
void terminal_that_nobody_reads(void);

/* cases_blocks.c: what is read at once is one block */
void burst_of_frames(void);
void frame_over_many_reads(void);
void thousands_at_once(void);
void updates_at_once(void);

/* cases_line.c: a line that goes away */
void lost_line(void);
void ticks_without_a_line(void);
void kill_and_restart(void);

/* cases_panel.c: a second line, the panel's */
void answers_to_who_asked(void);
void packets_side_by_side(void);
void panel_that_floods(void);
void line_lost_beside_another(void);
void line_not_read_beside_another(void);
void panel_at_the_controllers_device(void);
void panel_at_the_end(void);
void panel_not_read_at_the_end(void);

/* cases_handover.c: a gateway ends with a hand-over, and the next one starts with it */
void hand_over_and_take_over(void);
void drains_what_waits(void);
void drains_the_silent(void);
void open_packet_at_the_end(void);
void packet_that_never_ends(void);
void bytes_with_the_signal(void);
void second_signal(void);
void new_one_too_early(void);
void refused_hand_overs(void);
void flipped_files(void);
void unfit_files(void);

/* cases_restart.c: gateways replaced while the controller keeps sending */
void restarts_under_traffic(void);
void restarts_of_both_lines(void);
void restart_with_a_full_line(void);

/* cases_state.c: the state file */
void confirmed_is_kept(void);
void killed_among_replies(void);
void refused_states(void);
void hand_over_before_state(void);
void state_for_the_table(void);

/* cases_breaks.c: killed, or without room on the disk, at every step */
void killed_while_handing_over(void);
void held_while_handing_over(void);
void killed_while_taking_over(void);
void killed_without_state(void);
void killed_while_keeping(void);
void full_disk(void);
void disk_that_fails(void);
void files_too_large(void);

#endif
