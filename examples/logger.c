/* A plot of two loggers: link up, elect, what decides the link's direction, save, lose the link, resume, look at one station, and what
 * is refused.
 * Build: gcc -std=c11 -Iinclude examples/logger.c target/staticlib/libabi.a
 */
#include <inttypes.h>
#include <stdio.h>

#include "election.h"

enum { N = 2, NODES = ELECTION_NODES_LEN(N), CHANNELS = ELECTION_CHANNELS_LEN(N), IMAGE = ELECTION_IMAGE_MAX(N) };

static uint32_t nodes[NODES];
static uint32_t channels[CHANNELS];
static uint8_t image[IMAGE];

static void show_stations(void) {
    for (uint32_t u = 1; u <= N; u++)
        printf("  station %" PRIu32 ": clock %" PRIu32 ", collector %" PRIu32 "%s\n", u, election_clock(N, u, nodes),
               election_leader(N, u, nodes), election_is_collector(N, u, nodes) ? " (itself)" : "");
}

/* The link leads from the larger own height to the smaller; which of the seven numbers decides that. */
static void show_link(void) {
    election_comparison c = election_compare(election_height_at(N, 1, 1, nodes), election_height_at(N, 2, 2, nodes));
    const char *way = !election_is_linked(N, 1, 2, nodes) ? "no link" : c.order < 0 ? "from 2 to 1" : "from 1 to 2";
    printf("  %s; heights part at place %" PRIu32 ", %s\n", way, c.place, election_by_name(c.place));
}

/* ---- events */

static void show(const char *event, uint32_t u, uint32_t v, election_answer a) {
    printf("%s %" PRIu32 " %" PRIu32 ": %" PRIu32 ", rule %c, sent %" PRIu32, event, u, v, a.number, (char)a.rule, a.sent);
    if (a.rule == ELECTION_RULE_ADOPT)
        printf(", adopted from %" PRIu32, a.adopted_from);
    if (a.number == ELECTION_FAULT || a.number == ELECTION_UNTIMELY)
        printf(", fault at %" PRIu32 " %" PRIu32, a.fault_at, a.fault_with);
    printf("\n");
}

static void up(uint32_t u, uint32_t v) {
    show("up", u, v, election_up(N, u, v, nodes, NODES, channels, CHANNELS));
}

static void down(uint32_t u, uint32_t v) {
    show("down", u, v, election_down(N, u, v, nodes, NODES, channels, CHANNELS));
}

static int receive(uint32_t from, uint32_t to) {
    election_answer a = election_receive(N, from, to, nodes, NODES, channels, CHANNELS);
    show("receive", from, to, a);
    return a.number == ELECTION_DONE;
}

/* Delivers until no message waits, or only messages that are refused (7, 8, 9). */
static void deliver(void) {
    int busy = 1;
    while (busy) {
        busy = 0;
        for (uint32_t u = 1; u <= N; u++)
            for (uint32_t v = 1; v <= N; v++)
                if (election_waiting(N, u, v, channels) > 0 && receive(u, v))
                    busy = 1;
    }
    show_stations();
    show_link();
}

/* ---- images */

static size_t save(void) {
    election_saved s = election_save(N, nodes, NODES, channels, CHANNELS, image, IMAGE);
    printf("save: %" PRIu32 ", %" PRIu64 " bytes\n", s.number, s.size);
    return (size_t)s.size;
}

static void resume(size_t len) {
    election_checked r = election_restore(image, len, nodes, NODES, channels, CHANNELS);
    printf("resume from %zu bytes: %" PRIu32 "\n", len, r.number);
}

static void look(size_t len, uint32_t k, uint64_t place) {
    uint32_t row[ELECTION_ROW_LEN(N)];
    election_station s = election_read_node(image, len, k, place, row, ELECTION_ROW_LEN(N));
    printf("station %" PRIu32 " at bit %" PRIu64 ": %" PRIu32, k, place, s.number);
    if (s.number == ELECTION_DONE)
        printf(", clock %" PRIu32 ", linked %" PRIu32 ", forming %" PRIu32 ", collector %" PRIu32, s.clock, s.linked, s.forming,
               row[(k - 1) * ELECTION_HEIGHT_LEN + ELECTION_AT_LEADER]);
    printf("\n");
}

/* ---- what is refused, and changes nothing */

static void refusals(size_t len) {
    up(1, 2);                               /* ELECTION_ALREADY_UP */
    receive(1, 2);                          /* ELECTION_NO_MESSAGE */
    up(1, N + 1);                           /* ELECTION_STATION */
    look(len, 2, election_place(N, 2) + 1); /* ELECTION_PLACE: one bit off */
    look(len, 1, election_place(N, 2));     /* ELECTION_PLACE: another station's record */
    look(len, N + 1, election_place(N, 2)); /* ELECTION_STATION */
    resume(len - 1);                        /* ELECTION_IMAGE_END: cut off */
    resume(3);                              /* ELECTION_IMAGE_SHORT */
    election_saved s = election_save(N, nodes, NODES, channels, CHANNELS, image, len - 1);
    printf("save in %zu bytes: %" PRIu32 "\n", len - 1, s.number); /* ELECTION_ROOM: one byte short */
    nodes[ELECTION_AT_LINKED] = 1;                                 /* station 1 linked to itself: ELECTION_FAULT, with the pair */
    election_checked c = election_check(N, nodes, NODES, channels, CHANNELS);
    printf("check: %" PRIu32 " at %" PRIu32 " %" PRIu32 "\n", c.number, c.fault_at, c.fault_with);
    down(1, 2);
}

int main(void) {
    election_checked f = election_fresh(N, nodes, NODES, channels, CHANNELS);
    printf("fresh: %" PRIu32 "\n", f.number);
    up(1, 2);
    up(2, 1);
    deliver();

    size_t len = save();
    down(1, 2);
    down(2, 1);
    deliver();

    resume(len);
    show_stations();
    show_link();
    look(len, 2, election_place(N, 2));
    refusals(len);
    return 0;
}
