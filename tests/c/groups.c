/* election_quiet, election_groups, election_group_of and election_image_stations beside the same worked out here, another way, on the plots
 * of pseudo-random histories of 1 to 16 stations and on damaged ones. On each quiet plot that is met, each group has one collector.
 * A line for the first thing that is wrong, and exit status 1. Compiles as C11 and as C++17.
 */
#include <inttypes.h>
#include <stdio.h>
#include <stdlib.h>
#include <string.h>

#include "election.h"

static uint32_t n, events, quiets, split, many, none, faults, untimely;
static uint32_t nodes[ELECTION_NODES_LEN(ELECTION_MAX_STATIONS)], channels[ELECTION_CHANNELS_LEN(ELECTION_MAX_STATIONS)];
static uint32_t nodes_before[ELECTION_NODES_LEN(ELECTION_MAX_STATIONS)], channels_before[ELECTION_CHANNELS_LEN(ELECTION_MAX_STATIONS)];
static uint8_t image[ELECTION_IMAGE_MAX(ELECTION_MAX_STATIONS)];

#define TABLES nodes, ELECTION_NODES_LEN(n), channels, ELECTION_CHANNELS_LEN(n)
#define MUST(test) ((test) ? (void)0 : wrong(#test, __LINE__))

static void wrong(const char *test, int line) {
    printf("tests/c/groups.c:%d: n %" PRIu32 ", event %" PRIu32 ": %s\n", line, n, events, test);
    exit(1);
}

static uint32_t below(uint32_t limit) {
    static uint32_t state = 88172645;
    state ^= state << 13;
    state ^= state >> 17;
    state ^= state << 5;
    return state % limit;
}

/* ---- worked out here: each station has the label of its group, the lowest number in it */

static uint32_t label[ELECTION_MAX_STATIONS + 1];

static void relabel(void) {
    for (uint32_t u = 1; u <= n; u++)
        label[u] = u;
    for (uint32_t u = 1; u <= n; u++)
        for (uint32_t v = 1; v <= n; v++)
            if (election_is_linked(n, u, v, nodes) && label[u] != label[v]) {
                uint32_t low = label[u] < label[v] ? label[u] : label[v], high = label[u] + label[v] - low;
                for (uint32_t w = 1; w <= n; w++)
                    label[w] = label[w] == high ? low : label[w];
            }
}

static uint32_t quiet_here(void) {
    for (uint32_t u = 1; u <= n; u++)
        for (uint32_t v = 1; v <= n; v++)
            if (election_waiting(n, u, v, channels) > 0 || (election_is_up(n, u, v, nodes) && !election_is_up(n, v, u, nodes)))
                return 0;
    return 1;
}

static int is_plain(uint32_t number, uint32_t at, uint32_t with) { return number == ELECTION_DONE && at == 0 && with == 0; }

static void compare_group(uint32_t u, uint32_t quiet) {
    election_group g = election_group_of(n, u, TABLES);
    uint32_t members = 0, collectors = 0, count = 0, collector = 0;
    for (uint32_t v = 1; v <= n; v++)
        if (label[v] == label[u]) {
            members |= (uint32_t)1 << (v - 1);
            if (election_is_collector(n, v, nodes)) {
                collectors |= (uint32_t)1 << (v - 1);
                collector = v;
                count++;
            }
        }
    MUST(is_plain(g.number, g.fault_at, g.fault_with) && g.members == members && g.collectors == collectors);
    MUST(g.collector == (count == 1 ? collector : 0));
    MUST(!quiet || count == 1);
    many += count > 1;
    none += count == 0;
}

static void compare(void) {
    election_value quiet = election_quiet(n, TABLES), groups = election_groups(n, TABLES);
    uint32_t lowest = 0;
    relabel();
    for (uint32_t u = 1; u <= n; u++)
        lowest |= (uint32_t)(label[u] == u) << (u - 1);
    MUST(is_plain(quiet.number, quiet.fault_at, quiet.fault_with) && quiet.value == quiet_here());
    MUST(is_plain(groups.number, groups.fault_at, groups.fault_with) && groups.value == lowest);
    for (uint32_t u = 1; u <= n; u++)
        compare_group(u, quiet.value);
    quiets += quiet.value;
    split += quiet.value == 1 && lowest != 1 && lowest != ((uint32_t)1 << n) - 1;
}

/* ---- refused: every other field 0, and the first number that applies */

static int refused_value(election_value a, uint32_t number, uint32_t at, uint32_t with) {
    return a.number == number && a.fault_at == at && a.fault_with == with && a.value == 0;
}

static int refused_group(election_group g, uint32_t number, uint32_t at, uint32_t with) {
    return g.number == number && g.fault_at == at && g.fault_with == with && g.members == 0 && g.collectors == 0 && g.collector == 0;
}

static void compare_refusals(void) {
    uint32_t word = below((uint32_t)ELECTION_NODES_LEN(n)), kept = nodes[word];
    MUST(refused_group(election_group_of(n, 0, TABLES), ELECTION_STATION, 0, 0));
    MUST(refused_group(election_group_of(n, n + 1, TABLES), ELECTION_STATION, 0, 0));
    nodes[word] ^= 0x10000; /* a set, an own height or a view is then at fault, or a time is later than the clock; a clock is later itself */
    election_checked c = election_check(n, TABLES);
    if (c.number != ELECTION_DONE) {
        MUST(c.number == ELECTION_FAULT || c.number == ELECTION_UNTIMELY);
        MUST(refused_value(election_quiet(n, TABLES), c.number, c.fault_at, c.fault_with));
        MUST(refused_value(election_groups(n, TABLES), c.number, c.fault_at, c.fault_with));
        MUST(refused_group(election_group_of(n, 0, TABLES), c.number, c.fault_at, c.fault_with));
        faults += c.number == ELECTION_FAULT;
        untimely += c.number == ELECTION_UNTIMELY;
    }
    uint32_t other = n == ELECTION_MAX_STATIONS ? 17 : n + 1;
    MUST(refused_value(election_quiet(other, TABLES), ELECTION_SIZES, 0, 0));
    MUST(refused_value(election_groups(other, TABLES), ELECTION_SIZES, 0, 0));
    MUST(refused_group(election_group_of(other, 0, TABLES), ELECTION_SIZES, 0, 0));
    nodes[word] = kept;
}

/* ---- images */

static void compare_images(void) {
    election_saved s = election_save(n, TABLES, image, sizeof image);
    election_value v = election_image_stations(image, (size_t)s.size);
    MUST(s.number == ELECTION_DONE && is_plain(v.number, v.fault_at, v.fault_with) && v.value == n);
    MUST(election_image_stations(image, 4).value == n); /* the header alone */
    for (size_t len = 0; len < 4; len++)
        MUST(refused_value(election_image_stations(image, len), ELECTION_IMAGE_SHORT, 0, 0));
    for (uint32_t bit = 0; bit < 32; bit++) {
        image[bit / 8] ^= (uint8_t)(0x80 >> bit % 8);
        uint32_t said = (uint32_t)(image[2] >> 3); /* n is five bits, from bit 16 on */
        int is_header = bit >= 16 && bit < 21 && said >= 1 && said <= ELECTION_MAX_STATIONS;
        v = election_image_stations(image, (size_t)s.size);
        MUST(is_header ? v.number == ELECTION_DONE && v.value == said : refused_value(v, ELECTION_IMAGE_HEADER, 0, 0));
        image[bit / 8] ^= (uint8_t)(0x80 >> bit % 8);
    }
}

/* ---- histories: links come and go in pairs, and messages are heard */

static void step(uint32_t links) {
    uint32_t u = 1 + below(n), v = 1 + below(n);
    if (below(100) < links) {
        int both = below(8) > 0;
        if (below(2) == 0) {
            election_up(n, u, v, TABLES);
            if (both)
                election_up(n, v, u, TABLES);
        } else {
            election_down(n, u, v, TABLES);
            if (both)
                election_down(n, v, u, TABLES);
        }
    } else
        for (uint32_t i = 0; i < n * n; i++, u = u % n + 1, v = i % n == 0 ? v % n + 1 : v)
            if (election_waiting(n, u, v, channels) > 0) {
                election_receive(n, u, v, TABLES);
                break;
            }
    events++;
}

static void history(uint32_t length) {
    MUST(election_fresh(n, TABLES).number == ELECTION_DONE);
    compare();
    for (uint32_t i = 0; i < length; i++) {
        step(i % 200 < 30 ? 60 : 4);
        memcpy(nodes_before, nodes, sizeof nodes);
        memcpy(channels_before, channels, sizeof channels);
        compare();
        if (i % 50 == 0) {
            compare_refusals();
            compare_images();
        }
        MUST(memcmp(nodes, nodes_before, sizeof nodes) == 0 && memcmp(channels, channels_before, sizeof channels) == 0);
    }
}

int main(void) {
    for (n = 1; n <= ELECTION_MAX_STATIONS; n++)
        history(600);
    for (n = 3; n <= 7; n++)
        history(3000);
    printf("quiet %" PRIu32 ", quiet and split %" PRIu32 ", groups with several collectors %" PRIu32 ", with none %" PRIu32 "\n", quiets, split, many, none);
    return quiets > 500 && split > 100 && many > 500 && none > 500 && faults > 50 && untimely > 20 ? 0 : 1;
}
