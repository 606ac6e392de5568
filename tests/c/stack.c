/* How much stack each call takes at n = 16: a thread's stack is painted below this program's frames, the call is made, and the deepest
 * word that lost its paint is looked for. Each call runs on plots that are fresh, half full, full, untimely in the last stamp, and faulty in
 * the last word. The lists of histories are the longest ones, of n = 3, which have a limit of their own.
 * Link with -Wl,-z,now: else the first memmove is looked up at run time, on this stack.
 * Prints the largest depth of each call; exit status 1 if one is above what include/election.h says, if a call was not measured, or if no list is
 * made.
 */
#include <pthread.h>
#include <stdio.h>
#include <string.h>

#include "election.h"

enum { N = ELECTION_MAX_STATIONS, PAINTED = 64 * 1024, MARGIN = 4096, CALLS = 22, LENGTH = 5 };
enum { NODES = ELECTION_NODES_LEN(N), CHANNELS = ELECTION_CHANNELS_LEN(N), ROW = ELECTION_ROW_LEN(N), IMAGE = ELECTION_IMAGE_MAX(N) };
enum { DRAWING = ELECTION_DRAWING_MAX(N), MOST = ELECTION_STACK_MAX };
static const uint64_t PAINT = 0xa5a5a5a5a5a5a5a5u;

static uint32_t nodes[NODES], channels[CHANNELS], row[ROW];
static uint32_t spare_nodes[NODES], spare_channels[CHANNELS];
static uint8_t image[IMAGE], out[IMAGE], drawing[DRAWING], sketch[DRAWING];
static uint8_t list[ELECTION_HISTORIES_MOST];
static size_t image_len, sketch_len;
static volatile uint64_t seen;

/* ---- the calls */

static void nothing(void) { seen = 0; }
static void histories_len(void) { seen = election_histories_len(3, LENGTH); }
static void histories(void) { seen = election_histories(3, LENGTH, list, sizeof list).size; }
static void lengths(void) { seen = election_nodes_len(N) + election_channels_len(N) + election_row_len(N) + election_image_len(N) + election_drawing_len(N); }
static void check(void) { seen = election_check(N, nodes, NODES, channels, CHANNELS).number; }
static void up(void) { seen = election_up(N, 1, 2, nodes, NODES, channels, CHANNELS).number; }
static void down(void) { seen = election_down(N, 1, 2, nodes, NODES, channels, CHANNELS).number; }
static void down_last(void) { seen = election_down(N, 16, 15, nodes, NODES, channels, CHANNELS).number; }
static void receive(void) { seen = election_receive(N, 2, 3, nodes, NODES, channels, CHANNELS).number; }
static void receive_last(void) { seen = election_receive(N, 16, 1, nodes, NODES, channels, CHANNELS).number; }
static void save(void) { seen = election_save(N, nodes, NODES, channels, CHANNELS, out, IMAGE).number; }
static void restore(void) { seen = election_restore(image, image_len, spare_nodes, NODES, spare_channels, CHANNELS).number; }
static void read_node(void) { seen = election_read_node(image, image_len, N, election_place(N, N), row, ROW).number; }
static void quiet(void) { seen = election_quiet(N, nodes, NODES, channels, CHANNELS).number; }
static void groups(void) { seen = election_groups(N, nodes, NODES, channels, CHANNELS).number; }
static void group_of(void) { seen = election_group_of(N, N, nodes, NODES, channels, CHANNELS).number; }
static void image_stations(void) { seen = election_image_stations(image, image_len).number; }
static void compare(void) { seen = election_compare(election_height_at(N, 1, 1, nodes), election_height_at(N, N, 1, nodes)).place; }
static void draw(void) { seen = election_draw(N, nodes, NODES, channels, CHANNELS, drawing, DRAWING).number; }
static void sketch_stations(void) { seen = election_sketch_stations(sketch, sketch_len); }
static void read_sketch(void) { seen = election_read_sketch(sketch, sketch_len, spare_nodes, NODES, spare_channels, CHANNELS).number; }
static void fresh(void) { seen = election_fresh(N, spare_nodes, NODES, spare_channels, CHANNELS).number; }

static const struct {
    const char *name;
    void (*call)(void);
    size_t most;
} calls[CALLS] = {{"lengths", lengths, MOST},
                  {"fresh", fresh, MOST},
                  {"check", check, MOST},
                  {"down", down, MOST},
                  {"up", up, MOST},
                  {"receive", receive, MOST},
                  {"receive", receive_last, MOST},
                  {"quiet", quiet, MOST},
                  {"groups", groups, MOST},
                  {"group_of", group_of, MOST},
                  {"save", save, MOST},
                  {"image_stations", image_stations, MOST},
                  {"restore", restore, MOST},
                  {"read_node", read_node, MOST},
                  {"down", down_last, MOST},
                  {"up", up, MOST},
                  {"compare", compare, MOST},
                  {"draw", draw, MOST},
                  {"sketch_stations", sketch_stations, MOST},
                  {"read_sketch", read_sketch, MOST},
                  {"histories_len", histories_len, ELECTION_HISTORIES_STACK},
                  {"histories", histories, ELECTION_HISTORIES_STACK}};

/* ---- the painted stack */

/* Makes the call below the margin that is not painted. */
static __attribute__((noinline)) void padded(void (*call)(void)) {
    volatile uint8_t pad[2 * MARGIN];
    pad[0] = 1;
    pad[2 * MARGIN - 1] = 1;
    call();
    pad[1] = pad[0];
}

static __attribute__((noinline)) size_t depth_of(void (*call)(void)) {
    volatile uint64_t here = 0;
    uintptr_t top = (uintptr_t)&here & ~(uintptr_t)7;
    for (uintptr_t at = top - PAINTED; at < top - MARGIN; at += 8)
        *(volatile uint64_t *)at = PAINT;
    padded(call);
    for (uintptr_t at = top - PAINTED; at < top; at += 8)
        if (*(volatile uint64_t *)at != PAINT)
            return top - at;
    return 0;
}

/* ---- the plots */

/* Every station linked to every other, each with its own search level, and `waiting` messages on every channel. */
static void fill(uint32_t waiting) {
    election_fresh(N, nodes, NODES, channels, CHANNELS);
    for (uint32_t u = 1; u <= N; u++) {
        uint32_t *r = nodes + (u - 1) * ELECTION_STATION_LEN(N);
        r[ELECTION_AT_CLOCK] = N;
        r[ELECTION_AT_LINKED] = 0xffffu & ~(1u << (u - 1));
        for (uint32_t v = 1; v <= N; v++) {
            const uint32_t message[ELECTION_MESSAGE_LEN] = {v, v, 0, v, 0, 1, v, N};
            uint32_t *c = channels + ((v - 1) * N + (u - 1)) * ELECTION_CELL_LEN;
            memcpy(r + ELECTION_AT_HEIGHTS + (v - 1) * ELECTION_HEIGHT_LEN, message, ELECTION_HEIGHT_LEN * sizeof message[0]);
            c[0] = u == v ? 0 : waiting;
            for (size_t i = 0; i < c[0]; i++)
                memcpy(c + 1 + i * ELECTION_MESSAGE_LEN, message, sizeof message);
        }
    }
}

/* The drawing of the plot, made a sketch of the same links: graph for digraph, and no heads on its arrows. */
static size_t sketched(void) {
    size_t len = (size_t)election_draw(N, nodes, NODES, channels, CHANNELS, drawing, DRAWING).size;
    if (len < 2)
        return 0;
    memcpy(sketch, drawing + 2, len - 2);
    for (size_t i = 0; i < len - 2; i++)
        if (sketch[i] == '>')
            sketch[i] = '-';
    return election_sketch_stations(sketch, len - 2) == N ? len - 2 : 0;
}

static size_t deepest[CALLS];

static void measure(void) {
    size_t base = depth_of(nothing);
    for (size_t i = 0; i < CALLS; i++) {
        size_t depth = depth_of(calls[i].call) - base;
        if (depth > deepest[i])
            deepest[i] = depth;
    }
}

static void *run(void *given) {
    for (uint32_t waiting = 0; waiting <= ELECTION_CAPACITY; waiting += ELECTION_CAPACITY / 2) {
        fill(waiting);
        image_len = (size_t)election_save(N, nodes, NODES, channels, CHANNELS, image, IMAGE).size;
        sketch_len = sketched();
        if (image_len == 0 || sketch_len == 0)
            return given;
        measure();
    }
    election_fresh(N, nodes, NODES, channels, CHANNELS);
    measure();
    fill(ELECTION_CAPACITY);
    channels[CHANNELS - ELECTION_CELL_LEN - 1] = N + 1; /* the last stamp, later than the clock of 16 */
    image[image_len - 1] ^= 1;                          /* the same */
    sketch[sketch_len - 1] ^= 1;
    measure();
    fill(ELECTION_CAPACITY);
    channels[CHANNELS - 1] = 1;
    measure();
    return NULL;
}

int main(void) {
    pthread_t thread;
    void *failed = &failed;
    if (pthread_create(&thread, NULL, run, &failed) != 0 || pthread_join(thread, &failed) != 0 || failed != NULL) {
        printf("a plot was refused, or there is no thread\n");
        return 1;
    }
    int wrong = 0;
    for (size_t i = 0; i < CALLS; i++) {
        printf("%s %zu\n", calls[i].name, deepest[i]);
        wrong |= deepest[i] > calls[i].most || deepest[i] == 0;
    }
    return wrong || election_histories_len(3, LENGTH) != sizeof list || list[sizeof list - 1] != '\n';
}
