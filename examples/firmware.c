/*
 * A hub and two recording computers, in scenes.  Each scene is one in which a
 * hub that looks right may go wrong; the line after it says how.  At the end
 * stands which take arrived where.
 *
 *   firmware [--nak-area FILE] [--record FILE] [--answers FILE]
 *
 *   --nak-area  dumps the area as it stands before the start-split that is
 *               refused, so that `why` can tell the reason (docs/WHY.md)
 *   --record    records all calls, so that `replay` can make them again
 *   --answers   writes all answers, as a replay does (docs/CALLS.md)
 *
 * Exit status: 0 all was as document 01 says, 1 it was not, 2 bad words, or
 * something is not written.
 *
 * calls.c is what a firmware has of its own: the area, the reply space and the
 * calls, with a recorder.  The rest is simulated: computers and front end in
 * computers.c, microphones in takes.c.  The scenes are in take_scenes.c and
 * port_scenes.c.
 */

#include "calls.h"
#include "computers.h"
#include "scenes.h"
#include "takes.h"

#include <stdio.h>
#include <string.h>

typedef struct {
    const char *title;
    void (*play)(void);
    const char *otherwise; /* what would have gone wrong, or NULL */
} scene;

static const scene scenes[] = {
    {"Set-up: both microphones are plugged in", plugged_in, NULL},
    {"A long take in each lane", long_takes,
     "Without the lane in the key, both computers would read one"
     " microphone."},
    {"More buffers than a lane may hold", lane_limit,
     "Without the limit, computer 0 could keep computer 1 waiting for a"
     " buffer."},
    {"A clear in mid transfer", clear_in_mid_transfer,
     "With the late reply kept, the new take would begin with a packet of the"
     " old one."},
    {"A clear, and the other computer gets the buffer", clear_for_the_other,
     "With the late reply kept, the studio's packet would be in a take of the"
     " concert room."},
    {"A short take after a long one", short_take,
     "With the buffer's older tail, the short take would end in bytes of the"
     " long one."},
    {"An OUT on the same endpoint number", out_beside_in,
     "Without direction in the key, the take would be handed out as the answer"
     " to the OUT."},
    {"A second PORT_RESET", second_reset,
     "With the timer restarted, computer 0 would find its microphone still in"
     " reset."},
    {"Power off with changes standing", power_off,
     "With the changes dropped, computer 1 would never learn of the unplugged"
     " microphone."},
    {"An unplug while the other's packet is on its way", unplugged,
     "With ResetTT for both lanes, computer 0 would lose its packet."}
};

static void print_legend(void)
{
    printf("Computer 0 has lane 0 and the concert room's microphone at port 1,"
           "\ncomputer 1 has lane 1 and the studio's at port 2.  Both"
           " microphones have\naddress %d.\n\n", ADDRESS);
    printf("  ms R request, P poll: lane; E line event; S start-split,"
           " L launch,\n"
           "     D deliver, C complete-split: bulk in or out, lane, address,"
           " endpoint\n"
           "  => what a mistake would have done\n\n"
           "Not shown: ticks, polls without a change, and ResetTT of both"
           " lanes\nafter each scene.\n");
}

static void play(const scene *of)
{
    print_title(of->title);
    of->play();
    poll_changes(&computers[0], 0);
    empty_buffers();
    if (of->otherwise != NULL)
        printf("  => %s\n", of->otherwise);
}

static int read_options(int argc, char **argv, file_names *names)
{
    int i;

    for (i = 1; i + 1 < argc; i += 2) {
        if (strcmp(argv[i], "--nak-area") == 0)
            names->nak_area = argv[i + 1];
        else if (strcmp(argv[i], "--record") == 0)
            names->record = argv[i + 1];
        else if (strcmp(argv[i], "--answers") == 0)
            names->answers = argv[i + 1];
        else
            return 0;
    }
    return i == argc;
}

static void play_all(void)
{
    size_t i;

    print_legend();
    check("new hub", "", answered(GRIMHOLDI_ANSWER_DONE), got(hub_new()));
    for (i = 0; i < sizeof scenes / sizeof scenes[0]; i++)
        play(&scenes[i]);
    print_title("Which take arrived where");
    print_takes();
}

int main(int argc, char **argv)
{
    file_names names = {NULL, NULL, NULL};
    int written;

    if (!read_options(argc, argv, &names)) {
        fprintf(stderr, "usage: firmware [--nak-area FILE] [--record FILE] "
                "[--answers FILE]\n"
                "A replay of the recording is given the hub's five numbers: "
                "%d %d %d %d %d\n",
                PORTS, BUFFERS, POWER_GOOD, CURRENT, REMOVABLE);
        return 2;
    }
    if (!open_files(&names))
        return 2;
    play_all();
    written = close_files();
    printf("%s\n", written && unexpected_lines() == 0 ? "passed" : "FAILED");
    if (fflush(stdout) != 0 || ferror(stdout)) {
        perror("firmware: standard output");
        written = 0;
    }
    return !written ? 2 : unexpected_lines() != 0;
}
