/* Six loggers in a row: they elect, the link between 2 and 3 is lost, each part elects; the plot is saved, looked at and resumed.
 * Build: gcc -std=c11 -Iinclude examples/six.c target/staticlib/libabi.a
 */
#include <inttypes.h>
#include <stdio.h>
#include <stdlib.h>

#include "election.h"

enum { N = 6 };

static uint32_t nodes[ELECTION_NODES_LEN(N)];
static uint32_t channels[ELECTION_CHANNELS_LEN(N)];
static uint8_t image[ELECTION_IMAGE_MAX(N)];

#define NODES nodes, ELECTION_NODES_LEN(N)
#define CHANNELS channels, ELECTION_CHANNELS_LEN(N)

/* Ends the program when a call is refused. */
static void must(const char *what, uint32_t number) {
    if (number != ELECTION_DONE) {
        printf("%s: %s\n", what, election_strerror(number));
        exit(1);
    }
}

static void link_up(uint32_t u, uint32_t v) {
    must("up", election_up(N, u, v, NODES, CHANNELS).number);
    must("up", election_up(N, v, u, NODES, CHANNELS).number);
}

static void link_down(uint32_t u, uint32_t v) {
    must("down", election_down(N, u, v, NODES, CHANNELS).number);
    must("down", election_down(N, v, u, NODES, CHANNELS).number);
}

static int is_quiet(void) {
    election_value quiet = election_quiet(N, NODES, CHANNELS);
    must("quiet", quiet.number);
    return quiet.value == 1;
}

/* Delivers every message, and what is sent in turn, until the plot is quiet. */
static void deliver(void) {
    while (!is_quiet())
        for (uint32_t u = 1; u <= N; u++)
            for (uint32_t v = 1; v <= N; v++)
                while (election_waiting(N, u, v, channels) > 0) {
                    election_answer a = election_receive(N, u, v, NODES, CHANNELS);
                    must("receive", a.number);
                    if (a.rule == ELECTION_RULE_ELECT)
                        printf("%" PRIu32 " elects itself\n", v);
                }
}

static void show_groups(void) {
    election_value groups = election_groups(N, NODES, CHANNELS);
    must("groups", groups.number);
    for (uint32_t u = 1; u <= N; u++)
        if (election_contains(groups.value, u)) {
            election_group g = election_group_of(N, u, NODES, CHANNELS);
            must("group", g.number);
            printf("group");
            for (uint32_t v = 1; v <= N; v++)
                if (election_contains(g.members, v))
                    printf(" %" PRIu32, v);
            printf(": collector %" PRIu32 " at clock %" PRIu32 "\n", g.collector, election_clock(N, g.collector, nodes));
        }
}

/* Looks at one station of the image, in a row of its own: the plot stays as it is. */
static void look(size_t size, uint32_t k) {
    uint32_t row[ELECTION_ROW_LEN(N)];
    election_station s = election_read_node(image, size, k, election_place(N, k), row, ELECTION_ROW_LEN(N));
    must("look", s.number);
    printf("station %" PRIu32 " was saved at clock %" PRIu32 ", linked to", k, s.clock);
    for (uint32_t v = 1; v <= N; v++)
        if (election_contains(s.linked, v))
            printf(" %" PRIu32, v);
    printf("\n");
}

int main(void) {
    must("fresh", election_fresh(N, NODES, CHANNELS).number);
    for (uint32_t u = 1; u < N; u++)
        link_up(u, u + 1);
    deliver();
    show_groups();

    election_saved saved = election_save(N, NODES, CHANNELS, image, sizeof image);
    must("save", saved.number);
    size_t size = (size_t)saved.size;
    election_value stations = election_image_stations(image, size);
    must("image", stations.number);
    printf("saved: %" PRIu32 " stations in %zu bytes\n", stations.value, size);
    look(size, 3);

    link_down(2, 3);
    deliver();
    show_groups();

    must("restore", election_restore(image, size, NODES, CHANNELS).number);
    printf("resumed\n");
    show_groups();
    return 0;
}
