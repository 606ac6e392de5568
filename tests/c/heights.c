/* election_compare beside the same worked out here, another way: on the table of pairs that the Rattle program height_cases prints
 * (crates/height_cases/stdout, from the project's folder) and on pseudo-random pairs; and what the header has for heights and places.
 * A line for the first thing that is wrong, and exit status 1. Compiles as C11 and as C++17.
 */
#include <inttypes.h>
#include <stdio.h>
#include <stdlib.h>
#include <string.h>

#include "election.h"

static const char TABLE[] = "crates/height_cases/stdout";
static uint32_t pairs;
static uint32_t met[8][3]; /* pairs by place, and by order + 1 */

#define MUST(test) ((test) ? (void)0 : wrong(#test, __LINE__))

static void wrong(const char *test, int line) {
    printf("tests/c/heights.c:%d: pair %" PRIu32 ": %s\n", line, pairs, test);
    exit(1);
}

/* The seven numbers of the order; the election time negated. */
typedef struct {
    int64_t at[7];
} numbers;

static election_height height(numbers x) {
    election_height h = {(uint32_t)x.at[0], (uint32_t)x.at[1], (uint32_t)x.at[2], (int32_t)x.at[3],
                         (uint32_t)-x.at[4], (uint32_t)x.at[5], (uint32_t)x.at[6]};
    return h;
}

/* a with b, and b with a. */
static void both_ways(election_height a, election_height b, int32_t order, uint32_t place) {
    election_comparison c = election_compare(a, b), d = election_compare(b, a);
    pairs++;
    MUST(c.order == order && c.place == place);
    MUST(d.order == -order && d.place == place);
    met[place][order + 1]++;
}

/* Worked out here: from the last place to the first, an earlier difference overrules the later ones. */
static void beside(numbers a, numbers b) {
    int32_t order = 0;
    uint32_t place = 0;
    for (int k = 6; k >= 0; k--)
        if (a.at[k] != b.at[k]) {
            order = a.at[k] < b.at[k] ? -1 : 1;
            place = (uint32_t)k + 1;
        }
    both_ways(height(a), height(b), order, place);
}

/* ---- the table */

static int line(FILE *table, numbers *a, char *sign, numbers *b, uint32_t *place) {
    const char *form = "(%" SCNd64 ",%" SCNd64 ",%" SCNd64 ",%" SCNd64 "; %" SCNd64 ",%" SCNd64 "; %" SCNd64 ")"
                       " %c (%" SCNd64 ",%" SCNd64 ",%" SCNd64 ",%" SCNd64 "; %" SCNd64 ",%" SCNd64 "; %" SCNd64 ") %" SCNu32 "\n";
    int64_t *x = a->at, *y = b->at;
    int got = fscanf(table, form, x, x + 1, x + 2, x + 3, x + 4, x + 5, x + 6, sign, y, y + 1, y + 2, y + 3, y + 4, y + 5, y + 6, place);
    MUST(got == 16 || got == EOF);
    return got == 16;
}

static void table(void) {
    numbers a, b;
    char sign;
    uint32_t place;
    FILE *f = fopen(TABLE, "r");
    if (f == NULL) {
        printf("tests/c/heights.c: %s cannot be read\n", TABLE);
        exit(1);
    }
    while (line(f, &a, &sign, &b, &place)) {
        MUST(place <= 7 && (sign == '<' || sign == '=' || sign == '>'));
        both_ways(height(a), height(b), sign == '<' ? -1 : sign == '>', place);
        beside(a, b);
    }
    fclose(f);
    MUST(pairs >= 2 * 14);
    for (int p = 1; p <= 7; p++) /* each line counts twice: each place decides less and greater */
        MUST(met[p][0] >= 2 && met[p][1] == 0 && met[p][2] >= 2);
    MUST(met[0][0] == 0 && met[0][1] >= 2 && met[0][2] == 0);
}

/* ---- pseudo-random pairs */

static uint32_t word(void) {
    static uint32_t state = 2463534242;
    state ^= state << 13;
    state ^= state >> 17;
    state ^= state << 5;
    return state;
}

/* Small numbers, large ones, and the ends of the range. */
static int64_t number(int place) {
    uint32_t w = word() % 4 == 0 ? word() : word() % 2 == 0 ? word() % 4 : 0u - word() % 4;
    return place == 3 ? (int32_t)w : place == 4 ? -(int64_t)w : (int64_t)w;
}

static void random_pairs(void) {
    for (int i = 0; i < 200000; i++) {
        numbers a, b;
        int agree = (int)(word() % 8);
        for (int k = 0; k < 7; k++) {
            a.at[k] = number(k);
            b.at[k] = k < agree ? a.at[k] : number(k);
        }
        beside(a, b);
    }
    for (int p = 1; p <= 7; p++)
        MUST(met[p][0] > 1000 && met[p][1] == 0 && met[p][2] > 1000);
    MUST(met[0][1] > 1000);
}

/* ---- the header */

static void names(void) {
    MUST(ELECTION_BY_NONE == 0);
    MUST(ELECTION_BY_SEARCH_TIME == ELECTION_AT_SEARCH_TIME + 1 && ELECTION_BY_ORIGINATOR == ELECTION_AT_ORIGINATOR + 1);
    MUST(ELECTION_BY_BIT == ELECTION_AT_BIT + 1 && ELECTION_BY_DEPTH == ELECTION_AT_DEPTH + 1);
    MUST(ELECTION_BY_ELECTION_TIME == ELECTION_AT_ELECTION_TIME + 1 && ELECTION_BY_LEADER == ELECTION_AT_LEADER + 1);
    MUST(ELECTION_BY_STATION == ELECTION_AT_STATION + 1);
    const char *name[8] = {"equal", "search time", "originator", "bit", "depth", "election time", "leader", "station"};
    for (uint32_t p = 0; p < 8; p++)
        MUST(strcmp(election_by_name(p), name[p]) == 0 && strcmp(election_by_name(8), name[p]) != 0);
    MUST(strcmp(election_by_name(0xffffffffu), election_by_name(8)) == 0);
}

/* Heights out of the tables: each word in its own field, each height from its own place. */
static void reading(void) {
    enum { N = 3 };
    uint32_t nodes[ELECTION_NODES_LEN(N)];
    for (uint32_t i = 0; i < ELECTION_NODES_LEN(N); i++)
        nodes[i] = 0xfffffff0u + i;
    for (uint32_t u = 0; u <= N + 1; u++)
        for (uint32_t k = 0; k <= N + 1; k++) {
            election_height h = election_height_at(N, u, k, nodes);
            election_height zero = {0, 0, 0, 0, 0, 0, 0};
            int known = u >= 1 && u <= N && k >= 1 && k <= N;
            uint32_t first = 0xfffffff0u + (u - 1) * (3 + 7 * N) + 3 + (k - 1) * 7;
            election_height own = {first, first + 1, first + 2, (int32_t)(first + 3), first + 4, first + 5, first + 6};
            election_comparison c = election_compare(h, known ? own : zero);
            MUST(c.order == 0 && c.place == 0);
        }
}

/* Place by place: a field that is one more is the larger height, but for the election time. */
static void fields(void) {
    election_height h = {1, 1, 1, 1, 1, 1, 1}, other[7] = {h, h, h, h, h, h, h};
    other[0].search_time++;
    other[1].originator++;
    other[2].bit++;
    other[3].depth++;
    other[4].election_time++;
    other[5].leader++;
    other[6].station++;
    for (uint32_t p = 1; p <= 7; p++)
        both_ways(other[p - 1], h, p == ELECTION_BY_ELECTION_TIME ? -1 : 1, p);
}

int main(void) {
    table();
    random_pairs();
    names();
    reading();
    fields();
    return 0;
}
