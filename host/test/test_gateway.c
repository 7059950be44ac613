/* test_gateway.c: tha-gateway on a pseudo-terminal, or on two. With an argument, only the cases whose names have it. */
#include "cases.h"
#include "check.h"
#include "play.h"

#include <stdlib.h>

static void exchanges(void)
{
    play("test/exchanges.txt");
}

int main(int count, char **arguments)
{
    static const struct test_case cases[] = {
        {"the papers' exchanges", exchanges},
        {"wrong arguments", wrong_arguments},
        {"asked for help", asked_for_help},
        {"wrong tables", wrong_tables},
        {"wrong lines in a table", wrong_table_lines},
        {"no table", no_table},
        {"good tables", good_tables},
        {"wrong devices", wrong_devices},
        {"one process a line", one_process_a_line},
        {"wrong panels", wrong_panels},
        {"set to 9600 8N1 raw", set_to_9600_8n1_raw},
        {"every byte passes", every_byte_passes},
        {"ends on signals", ends_on_signals},
        {"ends under load", ends_under_load},
        {"no standard error", no_standard_error},
        {"silent until the 120th tick", silent_until_the_120th_tick},
        {"a place is free again", a_place_is_free_again},
        {"a delay", a_delay},
        {"neighbours of the silent", neighbours_of_the_silent},
        {"a second is a second", a_second_is_a_second},
        {"garbage", garbage},
        {"a flood of a megabyte", flood_of_a_megabyte},
        {"a controller that does not read", controller_that_does_not_read},
        {"a log that nobody reads", log_that_nobody_reads},
        {"a log to a terminal that nobody reads", terminal_that_nobody_reads},
        {"a burst of frames", burst_of_frames},
        {"a frame over many reads", frame_over_many_reads},
        {"thousands of bytes at once", thousands_at_once},
        {"Updates at once", updates_at_once},
        {"a lost line", lost_line},
        {"ticks without a line", ticks_without_a_line},
        {"kill and restart", kill_and_restart},
        {"answers to who asked", answers_to_who_asked},
        {"packets side by side", packets_side_by_side},
        {"a panel that floods", panel_that_floods},
        {"a line lost beside another", line_lost_beside_another},
        {"a line not read beside another", line_not_read_beside_another},
        {"a panel at the controller's device", panel_at_the_controllers_device},
        {"a panel at the end", panel_at_the_end},
        {"a panel not read at the end", panel_not_read_at_the_end},
        {"hand over and take over", hand_over_and_take_over},
        {"drains what waits", drains_what_waits},
        {"drains the silent", drains_the_silent},
        {"an open packet at the end", open_packet_at_the_end},
        {"a packet that never ends", packet_that_never_ends},
        {"bytes with the signal", bytes_with_the_signal},
        {"a second signal", second_signal},
        {"a new one too early", new_one_too_early},
        {"refused hand-overs", refused_hand_overs},
        {"flipped bits in a file", flipped_files},
        {"unfit files", unfit_files},
        {"restarts under traffic", restarts_under_traffic},
        {"restarts under traffic of both lines", restarts_of_both_lines},
        {"a restart with a full line", restart_with_a_full_line},
        {"what is confirmed is kept", confirmed_is_kept},
        {"killed among replies", killed_among_replies},
        {"refused state files", refused_states},
        {"the hand-over before the state file", hand_over_before_state},
        {"the state file for the table", state_for_the_table},
        {"killed while handing over", killed_while_handing_over},
        {"held while handing over", held_while_handing_over},
        {"killed while taking over", killed_while_taking_over},
        {"killed without a state file", killed_without_state},
        {"killed while keeping", killed_while_keeping},
        {"a full disk", full_disk},
        {"a disk that fails", disk_that_fails},
        {"files too large", files_too_large},
        {NULL, NULL},
    };

    return run_cases(cases, count > 1 ? arguments[1] : NULL);
}
