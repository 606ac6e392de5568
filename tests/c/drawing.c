/* election_draw, election_sketch_stations, election_read_sketch and election_drawing_len: texts worked by hand, and beside the same worked out
 * here, another way, on every plot of pseudo-random histories and on pseudo-random sketches. Each number that they refuse with, in its order,
 * with the tables and the bytes lent untouched, and so the bytes behind a drawing.
 * A line for the first thing that is wrong, and exit status 1. Compiles as C11 and as C++17.
 */
#include <inttypes.h>
#include <stdio.h>
#include <stdlib.h>
#include <string.h>

#include "election.h"

enum { MOST = ELECTION_MAX_STATIONS, ROOM = 4096, BEHIND = '#' };

static uint32_t nodes[ELECTION_NODES_LEN(MOST)], nodes_before[ELECTION_NODES_LEN(MOST)];
static uint32_t channels[ELECTION_CHANNELS_LEN(MOST)], channels_before[ELECTION_CHANNELS_LEN(MOST)];
static uint8_t out[ROOM], out_before[ROOM];
static char text[ROOM]; /* the text worked out here */
static size_t len;
static uint32_t round_;

#define MUST(test) ((test) ? (void)0 : wrong(#test, __LINE__))

static void wrong(const char *test, int line) {
    printf("tests/c/drawing.c:%d: round %" PRIu32 ": %s\n", line, round_, test);
    exit(1);
}

/* ---- the calls, and what was lent to them */

static uint32_t fresh(uint32_t n) {
    return election_fresh(n, nodes, ELECTION_NODES_LEN(n), channels, ELECTION_CHANNELS_LEN(n)).number;
}
static uint32_t up(uint32_t n, uint32_t u, uint32_t v) {
    return election_up(n, u, v, nodes, ELECTION_NODES_LEN(n), channels, ELECTION_CHANNELS_LEN(n)).number;
}
static uint32_t down(uint32_t n, uint32_t u, uint32_t v) {
    return election_down(n, u, v, nodes, ELECTION_NODES_LEN(n), channels, ELECTION_CHANNELS_LEN(n)).number;
}
static uint32_t receive(uint32_t n, uint32_t from, uint32_t to) {
    return election_receive(n, from, to, nodes, ELECTION_NODES_LEN(n), channels, ELECTION_CHANNELS_LEN(n)).number;
}
static election_saved draw(uint32_t n, size_t room) {
    return election_draw(n, nodes, ELECTION_NODES_LEN(n), channels, ELECTION_CHANNELS_LEN(n), out, room);
}
static election_checked read_sketch(uint32_t n) {
    return election_read_sketch((const uint8_t *)text, len, nodes, ELECTION_NODES_LEN(n), channels, ELECTION_CHANNELS_LEN(n));
}
static uint32_t stations(void) { return election_sketch_stations((const uint8_t *)text, len); }

static void keep(void) {
    memcpy(nodes_before, nodes, sizeof nodes);
    memcpy(channels_before, channels, sizeof channels);
    memset(out, BEHIND, sizeof out);
    memcpy(out_before, out, sizeof out);
}

static int tables_kept(void) {
    return memcmp(nodes_before, nodes, sizeof nodes) == 0 && memcmp(channels_before, channels, sizeof channels) == 0;
}

/* Refused with this number and pair; nothing lent has changed. */
static int turned_away(election_saved s, uint32_t number, uint32_t at, uint32_t with) {
    return s.number == number && s.fault_at == at && s.fault_with == with && s.size == 0 && tables_kept() &&
           memcmp(out, out_before, sizeof out) == 0;
}
static int not_read(election_checked c, uint32_t number) {
    return c.number == number && c.fault_at == 0 && c.fault_with == 0 && tables_kept();
}

/* ---- texts, worked out here */

static void say(const char *words) {
    size_t more = strlen(words);
    MUST(len + more < sizeof text);
    memcpy(text + len, words, more + 1);
    len += more;
}

/* The whole text. */
static void says(const char *words) {
    len = 0;
    say(words);
}

static void say_number(uint32_t k) {
    char digits[3] = {(char)('0' + k / 10), (char)('0' + k % 10), 0};
    MUST(k < 100);
    say(k < 10 ? digits + 1 : digits);
}

static void say_link(uint32_t a, const char *between, uint32_t b) {
    say("  ");
    say_number(a);
    say(between);
    say_number(b);
    say(";\n");
}

static void say_head(const char *head, uint32_t n) {
    says(head);
    for (uint32_t k = 1; k <= n; k++) {
        say("  ");
        say_number(k);
        say(";\n");
    }
}

/* The drawing by the header's own functions: for a and b in turn, if they are linked and a's own height is the greater. */
static void work_out(uint32_t n) {
    say_head("digraph plot {\n", n);
    for (uint32_t a = 1; a <= n; a++)
        for (uint32_t b = 1; b <= n; b++)
            if (election_is_linked(n, a, b, nodes) &&
                election_compare(election_height_at(n, a, a, nodes), election_height_at(n, b, b, nodes)).order == 1)
                say_link(a, " -> ", b);
    say("}\n");
}

/* The plot's drawing is the text, and as long; what is behind it stays; with a byte less there is too little room. */
static void drawn(uint32_t n) {
    MUST(len <= ELECTION_DRAWING_MAX(n));
    keep();
    MUST(turned_away(draw(n, len - 1), ELECTION_ROOM, 0, 0) && turned_away(draw(n, 0), ELECTION_ROOM, 0, 0));
    memcpy(out_before, text, len);
    for (size_t room = len; room <= len + 1; room++) {
        memset(out, BEHIND, sizeof out);
        election_saved s = draw(n, room);
        MUST(s.number == ELECTION_DONE && s.fault_at == 0 && s.fault_with == 0 && s.size == len);
        MUST(memcmp(out, out_before, sizeof out) == 0 && tables_kept());
    }
    memset(out, BEHIND, sizeof out);
    MUST(draw(n, sizeof out).size == len && memcmp(out, out_before, sizeof out) == 0);
}

/* ---- worked by hand */

static void by_hand(void) {
    MUST(fresh(1) == ELECTION_DONE);
    says("digraph plot {\n  1;\n}\n");
    MUST(len == 22 && len == ELECTION_DRAWING_MAX(1));
    drawn(1);

    MUST(fresh(3) == ELECTION_DONE && up(3, 1, 2) == ELECTION_DONE && up(3, 2, 1) == ELECTION_DONE && up(3, 2, 3) == ELECTION_DONE);
    says("digraph plot {\n  1;\n  2;\n  3;\n  2 -> 1;\n}\n"); /* 2 to 3 is up one way */
    drawn(3);
    MUST(up(3, 3, 2) == ELECTION_DONE);
    says("digraph plot {\n  1;\n  2;\n  3;\n  2 -> 1;\n  3 -> 2;\n}\n");
    drawn(3);
    MUST(receive(3, 2, 3) == ELECTION_DONE && receive(3, 3, 2) == ELECTION_DONE); /* 3 follows 2, one deeper; F becomes N */
    drawn(3);
    MUST(down(3, 1, 2) == ELECTION_DONE);
    says("digraph plot {\n  1;\n  2;\n  3;\n  3 -> 2;\n}\n");
    drawn(3);
}

/* Every two of n linked: the longest drawing, the lines by the first number and then by the second, as numbers. */
static void all_linked(uint32_t n) {
    MUST(fresh(n) == ELECTION_DONE);
    for (uint32_t u = 1; u <= n; u++)
        for (uint32_t v = 1; v <= n; v++)
            MUST(u == v || up(n, u, v) == ELECTION_DONE);
    say_head("digraph plot {\n", n);
    for (uint32_t a = 1; a <= n; a++)
        for (uint32_t b = 1; b < a; b++)
            say_link(a, " -> ", b);
    say("}\n");
    MUST(len == ELECTION_DRAWING_MAX(n) && len == election_drawing_len(n));
    drawn(n);
}

/* ---- pseudo-random histories */

static uint32_t below(uint32_t end) {
    static uint32_t state = 2463534242;
    state ^= state << 13;
    state ^= state >> 17;
    state ^= state << 5;
    return state % end;
}

static uint32_t met_up, met_down; /* arrows from the larger number to the smaller, and the other way */

static void count_arrows(uint32_t n) {
    for (uint32_t a = 1; a <= n; a++)
        for (uint32_t b = 1; b < a; b++)
            if (election_is_linked(n, a, b, nodes)) {
                int order = election_compare(election_height_at(n, a, a, nodes), election_height_at(n, b, b, nodes)).order;
                order > 0 ? met_down++ : met_up++;
            }
}

static void history(uint32_t n) {
    MUST(fresh(n) == ELECTION_DONE);
    for (int i = 0; i < 120; i++) {
        uint32_t u = 1 + below(n), v = 1 + below(n);
        switch (below(8)) {
        case 0: down(n, u, v); break;
        case 1: case 2: case 3: up(n, u, v); up(n, v, u); break;
        default: receive(n, u, v); break;
        }
        work_out(n);
        drawn(n);
        count_arrows(n);
    }
}

/* ---- writing: 1, 2, 18, 14 */

static void order_of_drawing(void) {
    MUST(fresh(3) == ELECTION_DONE && up(3, 1, 2) == ELECTION_DONE);
    nodes[ELECTION_AT_CLOCK] = 0; /* of 1, before the stamp of its message to 2 */
    channels[(1 * 3 + 1) * ELECTION_CELL_LEN] = 1; /* a message on 2 to 2 */
    keep();
    const size_t wide = ELECTION_NODES_LEN(3), cells = ELECTION_CHANNELS_LEN(3);
    const uint32_t others[] = {0, 2, 4, 17, 0xffffffffu};
    for (size_t i = 0; i < sizeof others / sizeof others[0]; i++)
        MUST(turned_away(election_draw(others[i], nodes, wide, channels, cells, out, 0), ELECTION_SIZES, 0, 0));
    MUST(turned_away(election_draw(3, nodes, wide - 1, channels, cells, out, 0), ELECTION_SIZES, 0, 0));
    MUST(turned_away(election_draw(3, nodes, wide, channels, cells + 1, out, 0), ELECTION_SIZES, 0, 0));
    MUST(turned_away(draw(3, 0), ELECTION_FAULT, 2, 2) && turned_away(draw(3, sizeof out), ELECTION_FAULT, 2, 2));
    channels[(1 * 3 + 1) * ELECTION_CELL_LEN] = 0;
    keep();
    MUST(turned_away(draw(3, 0), ELECTION_UNTIMELY, 1, 2) && turned_away(draw(3, sizeof out), ELECTION_UNTIMELY, 1, 2));
    nodes[ELECTION_AT_CLOCK] = 1;
    keep();
    MUST(turned_away(draw(3, 31), ELECTION_ROOM, 0, 0) && draw(3, 32).number == ELECTION_DONE);
}

/* ---- reading: 16, 1, 17 */

/* What no table holds. */
static void dirty(void) {
    memset(nodes, 0xa5, sizeof nodes);
    memset(channels, 0x5a, sizeof channels);
    keep();
}

static void no_sketches(void) {
    const char *texts[] = {
        "", "\n", "graph plot {\n", "graph plot {\n}\n", "digraph plot {\n  1;\n}\n", "graph plot {\n  1;\n}", "graph plot {\n  1;\n}\n\n",
        "graph plot {\n  1;\n}\n ", " graph plot {\n  1;\n}\n", "graph Plot {\n  1;\n}\n", "graph plot{\n  1;\n}\n", "graph plot {\r\n  1;\r\n}\r\n",
        "graph plot {\n  0;\n}\n", "graph plot {\n  2;\n}\n", "graph plot {\n  1;\n  1;\n}\n", "graph plot {\n  1;\n  3;\n}\n", "graph plot {\n  01;\n}\n",
        "graph plot {\n 1;\n}\n", "graph plot {\n\t1;\n}\n", "graph plot {\n  1\n}\n", "graph plot {\n  1 ;\n}\n", "graph plot {\n  1; \n}\n",
        "graph plot {\n  1;\n  2;\n  1 -> 2;\n}\n", "graph plot {\n  1;\n  2;\n  1--2;\n}\n", "graph plot {\n  1;\n  2;\n  1 -- 2\n}\n",
        "graph plot {\n  1;\n  2;\n  1 -- 02;\n}\n", "graph plot {\n  1;\n  2;\n  1 -- 100;\n}\n", "graph plot {\n  1;\n  2;\n  -1 -- 2;\n}\n",
        "graph plot {\n  1;\n  1 -- 2;\n  2;\n}\n", "graph plot {\n  1;\n  2;\n  1 -- 2 -- 1;\n}\n", "graph plot {\n  1;\n  2;\n\n  1 -- 2;\n}\n",
        "graph plot {\n  1;\n  2;\n  0 -- 0;\n  1 -- 2;\n", "graph plot {\n  1;\n  2;\n  9 -- 9;\n  1 -- 2;\n} \n", "graph plot {\n  1;\n  // 2\n}\n",
    };
    dirty();
    for (size_t i = 0; i < sizeof texts / sizeof texts[0]; i++) {
        round_ = (uint32_t)i;
        says(texts[i]);
        MUST(stations() == 0);
        for (uint32_t n = 0; n <= 3; n++) /* before 1 and 17 */
            MUST(not_read(read_sketch(n), ELECTION_SKETCH_FORM));
    }
    say_head("graph plot {\n", 17);
    say("}\n");
    MUST(stations() == 0 && not_read(read_sketch(16), ELECTION_SKETCH_FORM));
    says("graph plot {\n  1;\n}\n");
    text[7] = 0; /* a byte 0 ends nothing */
    MUST(stations() == 0 && not_read(read_sketch(1), ELECTION_SKETCH_FORM));
}

static void bad_links(void) {
    const char *links[] = {"  0 -- 1;\n", "  1 -- 0;\n", "  4 -- 1;\n", "  1 -- 4;\n", "  99 -- 99;\n", "  0 -- 0;\n", "  2 -- 2;\n",
                           "  1 -- 2;\n  1 -- 2;\n", "  1 -- 2;\n  2 -- 1;\n", "  1 -- 2;\n  2 -- 3;\n  3 -- 1;\n  3 -- 2;\n"};
    dirty();
    for (size_t i = 0; i < sizeof links / sizeof links[0]; i++) {
        round_ = (uint32_t)i;
        say_head("graph plot {\n", 3);
        say(links[i]);
        say("}\n");
        MUST(stations() == 3 && not_read(read_sketch(3), ELECTION_SKETCH_LINK));
        const uint8_t *bytes = (const uint8_t *)text;
        const size_t wide = ELECTION_NODES_LEN(3), cells = ELECTION_CHANNELS_LEN(3);
        MUST(not_read(read_sketch(2), ELECTION_SIZES) && not_read(read_sketch(4), ELECTION_SIZES) && not_read(read_sketch(0), ELECTION_SIZES));
        MUST(not_read(election_read_sketch(bytes, len, nodes, wide + 1, channels, cells), ELECTION_SIZES));
        MUST(not_read(election_read_sketch(bytes, len, nodes, wide, channels, cells - 1), ELECTION_SIZES));
    }
}

/* Some of all links, in any order and direction. Read over dirty tables they leave what fresh and the ups leave, line by line; only the words
 * lent are written; and the drawing has those links. */
static void sketch(uint32_t n) {
    uint32_t a[120] = {0}, b[120] = {0}, links = 0, often = below(5);
    for (uint32_t u = 1; u <= n; u++)
        for (uint32_t v = 1; v < u; v++)
            if (below(4) < often) {
                uint32_t at = below(links + 1), turned = below(2);
                a[links] = a[at];
                b[links] = b[at];
                a[at] = turned ? v : u;
                b[at] = turned ? u : v;
                links++;
            }
    say_head("graph plot {\n", n);
    for (uint32_t i = 0; i < links; i++)
        say_link(a[i], " -- ", b[i]);
    say("}\n");
    dirty();
    MUST(fresh(n) == ELECTION_DONE);
    for (uint32_t i = 0; i < links; i++)
        MUST(up(n, a[i], b[i]) == ELECTION_DONE && up(n, b[i], a[i]) == ELECTION_DONE);
    memcpy(nodes_before, nodes, sizeof nodes);
    memcpy(channels_before, channels, sizeof channels);
    memset(nodes, 0xa5, sizeof nodes);
    memset(channels, 0x5a, sizeof channels);
    election_checked c = read_sketch(n);
    MUST(stations() == n && c.number == ELECTION_DONE && c.fault_at == 0 && c.fault_with == 0 && tables_kept());
    work_out(n);
    drawn(n);
    for (uint32_t u = 1; u <= n; u++)
        for (uint32_t v = 1; v <= n; v++) {
            int named = 0;
            for (uint32_t i = 0; i < links; i++)
                named |= (a[i] == u && b[i] == v) || (a[i] == v && b[i] == u);
            MUST(election_is_up(n, u, v, nodes) == named);
        }
}

int main(void) {
    by_hand();
    for (uint32_t n = 1; n <= MOST; n++)
        all_linked(n);
    order_of_drawing();
    no_sketches();
    bad_links();
    for (round_ = 0; round_ < 48; round_++)
        history(1 + round_ % MOST);
    MUST(met_up > 1000 && met_down > 1000);
    for (round_ = 0; round_ < 480; round_++)
        sketch(1 + round_ % MOST);
    return 0;
}
