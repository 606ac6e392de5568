/* Writes an image to standard output, for bin/image show: eight stations in a row, whose link k to k + 1 is decided by number k of the
 * heights. Channels are up by either set or by one at each end; two are up one way only.
 * Exit status 1, and no image, if the tables do not pass. Compiles as C11 and as C++17.
 */
#include <stdio.h>

#include "election.h"

enum { N = 8, CLOCK = 9 };

static uint32_t nodes[ELECTION_NODES_LEN(N)], channels[ELECTION_CHANNELS_LEN(N)];
static uint8_t image[ELECTION_IMAGE_MAX(N)];

#define MINUS_3 0xfffffffdu
static const uint32_t own[N][ELECTION_HEIGHT_LEN] = {
    {1, 1, 0, 0, 0, 1, 1},       {2, 1, 0, 0, 0, 1, 2},       {2, 2, 0, 0, 0, 1, 3},       {2, 2, 1, 0, 0, 1, 4},
    {2, 2, 1, MINUS_3, 0, 1, 5}, {2, 2, 1, MINUS_3, 4, 1, 6}, {2, 2, 1, MINUS_3, 4, 2, 7}, {2, 2, 1, MINUS_3, 4, 2, 8},
};

static uint32_t *row(uint32_t u) { return nodes + (u - 1) * ELECTION_STATION_LEN(N); }

static void hold(uint32_t u, uint32_t k) {
    for (uint32_t i = 0; i < ELECTION_HEIGHT_LEN; i++)
        row(u)[ELECTION_AT_HEIGHTS + (k - 1) * ELECTION_HEIGHT_LEN + i] = own[k - 1][i];
}

/* Channel u to v is up: by the linked set, with a view, or by the forming one. */
static void linked(uint32_t u, uint32_t v) {
    row(u)[ELECTION_AT_LINKED] |= 1u << (v - 1);
    hold(u, v);
}
static void forming(uint32_t u, uint32_t v) { row(u)[ELECTION_AT_FORMING] |= 1u << (v - 1); }

int main(void) {
    if (election_fresh(N, nodes, ELECTION_NODES_LEN(N), channels, ELECTION_CHANNELS_LEN(N)).number != ELECTION_DONE)
        return 1;
    for (uint32_t u = 1; u <= N; u++) {
        row(u)[ELECTION_AT_CLOCK] = CLOCK;
        hold(u, u);
    }
    for (uint32_t u = 1; u < N; u++) {
        u % 2 == 1 ? linked(u, u + 1) : forming(u, u + 1);
        u % 4 < 2 ? linked(u + 1, u) : forming(u + 1, u);
    }
    linked(1, 3);  /* one way */
    forming(8, 2); /* one way */
    election_saved s = election_save(N, nodes, ELECTION_NODES_LEN(N), channels, ELECTION_CHANNELS_LEN(N), image, sizeof image);
    return s.number == ELECTION_DONE && fwrite(image, 1, s.size, stdout) == s.size ? 0 : 1;
}
