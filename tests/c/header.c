/* What include/election.h says beside the proofs: sizes, names, the inline functions, the order of checks and the fields of an answer.
 * A line for each thing that is wrong, and exit status 1. Compiles as C11 and as C++17.
 */
#include <inttypes.h>
#include <stddef.h>
#include <stdio.h>
#include <string.h>

#include "election.h"
#include "election.h" /* twice does no harm */

static const uint32_t LAST_TIME = 0xffffffffu;

static int failures = 0;
#define CHECK(test) ((test) ? (void)0 : (void)(failures++, printf("%s:%d: %s\n", __FILE__, __LINE__, #test)))

/* ---- the largest plot, of which smaller ones use the front */

static uint32_t nodes[ELECTION_NODES_LEN(ELECTION_MAX_STATIONS)], nodes_before[ELECTION_NODES_LEN(ELECTION_MAX_STATIONS)];
static uint32_t channels[ELECTION_CHANNELS_LEN(ELECTION_MAX_STATIONS)], channels_before[ELECTION_CHANNELS_LEN(ELECTION_MAX_STATIONS)];
static uint8_t image[ELECTION_IMAGE_MAX(ELECTION_MAX_STATIONS)];
static uint32_t row[ELECTION_ROW_LEN(ELECTION_MAX_STATIONS)];

static uint32_t *word(uint32_t n, uint32_t u, size_t at) { return nodes + (u - 1) * ELECTION_STATION_LEN(n) + at; }
static uint32_t *cell(uint32_t n, uint32_t u, uint32_t v) { return channels + ((u - 1) * n + (v - 1)) * ELECTION_CELL_LEN; }

static uint32_t fresh(uint32_t n) {
    return election_fresh(n, nodes, ELECTION_NODES_LEN(n), channels, ELECTION_CHANNELS_LEN(n)).number;
}
static election_checked check(uint32_t n) {
    return election_check(n, nodes, ELECTION_NODES_LEN(n), channels, ELECTION_CHANNELS_LEN(n));
}
static election_answer up(uint32_t n, uint32_t u, uint32_t v) {
    return election_up(n, u, v, nodes, ELECTION_NODES_LEN(n), channels, ELECTION_CHANNELS_LEN(n));
}
static election_answer down(uint32_t n, uint32_t u, uint32_t v) {
    return election_down(n, u, v, nodes, ELECTION_NODES_LEN(n), channels, ELECTION_CHANNELS_LEN(n));
}
static election_answer receive(uint32_t n, uint32_t from, uint32_t to) {
    return election_receive(n, from, to, nodes, ELECTION_NODES_LEN(n), channels, ELECTION_CHANNELS_LEN(n));
}
static election_saved save(uint32_t n, size_t room) {
    return election_save(n, nodes, ELECTION_NODES_LEN(n), channels, ELECTION_CHANNELS_LEN(n), image, room);
}
static election_checked resumed(uint32_t n, size_t len) {
    return election_restore(image, len, nodes, ELECTION_NODES_LEN(n), channels, ELECTION_CHANNELS_LEN(n));
}
static uint32_t restore(uint32_t n, size_t len) { return resumed(n, len).number; }
static election_station looked(uint32_t n, size_t len, uint32_t k, uint64_t place) {
    return election_read_node(image, len, k, place, row, ELECTION_ROW_LEN(n));
}
static uint32_t look(uint32_t n, size_t len, uint32_t k, uint64_t place) { return looked(n, len, k, place).number; }

/* A plot with something everywhere: all channels up, and from each station its first message to every higher one heard where there is room. */
static void busy(uint32_t n) {
    CHECK(fresh(n) == ELECTION_DONE);
    for (uint32_t u = 1; u <= n; u++)
        for (uint32_t v = 1; v <= n; v++)
            if (u != v)
                CHECK(up(n, u, v).rule == ELECTION_RULE_UP);
    for (uint32_t u = 1; u <= n; u++)
        for (uint32_t v = u + 1; v <= n; v++) {
            uint32_t number = receive(n, u, v).number;
            CHECK(number == ELECTION_DONE || number == ELECTION_CHANNEL_FULL);
        }
}

static void keep(void) {
    memcpy(nodes_before, nodes, sizeof nodes);
    memcpy(channels_before, channels, sizeof channels);
}

static int is_kept(void) {
    return memcmp(nodes_before, nodes, sizeof nodes) == 0 && memcmp(channels_before, channels, sizeof channels) == 0;
}

/* Refused with this number, every other field as the header says, and nothing lent changed. */
static int refused(election_answer a, uint32_t number) {
    return a.number == number && a.rule == ELECTION_RULE_NONE && a.sent_to == 0 && a.sent == 0 && a.adopted_from == 0 &&
           a.level_tau == 0 && a.level_originator == 0 && a.level_bit == 0 &&
           (number == ELECTION_FAULT || number == ELECTION_UNTIMELY || (a.fault_at == 0 && a.fault_with == 0)) && is_kept();
}

/* Refused with this number and pair. */
static int refused_at(election_answer a, uint32_t number, uint32_t at, uint32_t with) {
    return refused(a, number) && a.fault_at == at && a.fault_with == with;
}

static int says(election_checked c, uint32_t number, uint32_t at, uint32_t with) {
    return c.number == number && c.fault_at == at && c.fault_with == with;
}

static int faulty(election_checked c, uint32_t at, uint32_t with) { return says(c, ELECTION_FAULT, at, with); }

/* ---- sizes and names */

static void sizes(void) {
    const uint32_t others[] = {0, 17, 18, 65536 + 6, 0xffffffffu};
    for (uint32_t n = 1; n <= ELECTION_MAX_STATIONS; n++) {
        CHECK(ELECTION_NODES_LEN(n) == election_nodes_len(n) && ELECTION_NODES_LEN(n) == n * (3 + 7 * n));
        CHECK(ELECTION_CHANNELS_LEN(n) == election_channels_len(n) && ELECTION_CHANNELS_LEN(n) == 65 * n * n);
        CHECK(ELECTION_ROW_LEN(n) == election_row_len(n) && ELECTION_ROW_LEN(n) == 7 * n);
        CHECK(ELECTION_IMAGE_MAX(n) == election_image_len(n) && ELECTION_IMAGE_MAX(n) > 0);
        CHECK(ELECTION_DRAWING_MAX(n) == election_drawing_len(n) && ELECTION_DRAWING_MAX(n) > 17 + 4 * n * n);
        CHECK(ELECTION_NODES_LEN(n) == n * ELECTION_STATION_LEN(n));
    }
    for (size_t i = 0; i < sizeof others / sizeof others[0]; i++) {
        CHECK(ELECTION_NODES_LEN(others[i]) == 0 && election_nodes_len(others[i]) == 0);
        CHECK(ELECTION_CHANNELS_LEN(others[i]) == 0 && election_channels_len(others[i]) == 0);
        CHECK(ELECTION_ROW_LEN(others[i]) == 0 && election_row_len(others[i]) == 0);
        CHECK(ELECTION_IMAGE_MAX(others[i]) == 0 && election_image_len(others[i]) == 0);
        CHECK(ELECTION_DRAWING_MAX(others[i]) == 0 && election_drawing_len(others[i]) == 0);
    }
    const uint32_t counts[3][6] = {{1, 0, 0, 0, 0, 0}, {1, 2, 6, 16, 46, 128}, {1, 6, 42, 312, 2418, 19254}};
    for (uint32_t n = 0; n <= 17; n++)
        for (uint32_t length = 0; length <= 7; length++)
            CHECK(election_histories_len(n, length) == (n < 1 || n > 3 || length > 5 ? 0 : counts[n - 1][length] * (4 + 6 * (size_t)length)));
    CHECK(ELECTION_HISTORIES_MOST == 654636 && election_histories_len(3, 5) == ELECTION_HISTORIES_MOST);
    CHECK(election_histories_len(LAST_TIME, 0) == 0 && election_histories_len(3, LAST_TIME) == 0);
    CHECK(offsetof(election_listed, number) == 0 && offsetof(election_listed, fault_at) == 4 && offsetof(election_listed, fault_with) == 8);
    CHECK(offsetof(election_listed, histories) == 12 && offsetof(election_listed, size) == 16 && sizeof(election_listed) == 24);
    CHECK(sizeof image == 34044 && ELECTION_CELL_LEN == 65 && ELECTION_MESSAGE_LEN == 8);
    CHECK(ELECTION_DRAWING_MAX(1) == 22 && ELECTION_DRAWING_MAX(9) == 422 && ELECTION_DRAWING_MAX(10) == 527 && ELECTION_DRAWING_MAX(16) == 1409);
    CHECK(ELECTION_VERSION == ELECTION_VERSION_MAJOR * 1000000 + ELECTION_VERSION_MINOR * 1000 + ELECTION_VERSION_PATCH);
}

static void lines(void) {
    const char *other = election_strerror(0xffffffffu);
    for (uint32_t a = ELECTION_DONE; a <= ELECTION_TOO_LARGE; a++) {
        if (a == 15) /* the bench's */
            continue;
        CHECK(strlen(election_strerror(a)) > 10 && strcmp(election_strerror(a), other) != 0);
        for (uint32_t b = ELECTION_DONE; b < a; b++)
            CHECK(strcmp(election_strerror(a), election_strerror(b)) != 0);
    }
    CHECK(strcmp(election_strerror(15), other) == 0 && strcmp(election_strerror(ELECTION_TOO_LARGE + 1), other) == 0);
    CHECK(ELECTION_ROOM == 14 && ELECTION_SKETCH_FORM == 16 && ELECTION_SKETCH_LINK == 17 && ELECTION_UNTIMELY == 18);
    CHECK(ELECTION_TOO_LARGE == 19);
}

/* ---- the inline functions */

/* Beside the words themselves, each at a place worked out here. */
static void accessors(uint32_t n) {
    busy(n);
    CHECK(n == 1 || down(n, n, 1).number == ELECTION_DONE); /* up one way only */
    for (uint32_t u = 1; u <= n; u++) {
        const uint32_t *r = nodes + (u - 1) * (3 + 7 * n);
        CHECK(election_clock(n, u, nodes) == r[0] && election_leader(n, u, nodes) == r[3 + 7 * (u - 1) + 5]);
        CHECK(election_is_collector(n, u, nodes) == (r[3 + 7 * (u - 1) + 5] == u));
        CHECK(election_place(n, u) == 32 + (u - 1) * (64 + 96 * n));
        for (uint32_t v = 1; v <= n; v++) {
            const uint32_t *s = nodes + (v - 1) * (3 + 7 * n);
            int there = u != v && ((r[1] | r[2]) & 1u << (v - 1)) != 0;
            int back = u != v && ((s[1] | s[2]) & 1u << (u - 1)) != 0;
            CHECK(election_is_up(n, u, v, nodes) == there && election_is_linked(n, u, v, nodes) == (there && back));
            CHECK(election_waiting(n, u, v, channels) == (u == v ? 0 : channels[((u - 1) * n + (v - 1)) * 65]));
        }
    }
}

static void outside(uint32_t n, uint32_t u) {
    CHECK(election_clock(n, u, nodes) == 0 && election_leader(n, u, nodes) == 0 && election_is_collector(n, u, nodes) == 0);
    CHECK(election_is_up(n, u, 1, nodes) == 0 && election_is_up(n, 1, u, nodes) == 0 && election_is_up(n, 1, 1, nodes) == 0);
    CHECK(election_is_linked(n, u, 1, nodes) == 0 && election_is_linked(n, 1, u, nodes) == 0);
    CHECK(election_waiting(n, u, 1, channels) == 0 && election_waiting(n, 1, u, channels) == 0);
    CHECK(election_place(n, u) == 0);
}

static void outsides(void) {
    memset(nodes, 0xff, sizeof nodes);
    memset(channels, 0xff, sizeof channels);
    outside(2, 0);
    outside(2, 3);
    outside(2, 0xffffffffu);
    outside(0, 1);
    outside(17, 1);
    outside(17, 17);
    CHECK(election_contains(0xffff, 16) && election_contains(5, 3) && !election_contains(5, 2));
    CHECK(!election_contains(LAST_TIME, 0) && !election_contains(LAST_TIME, 17) && !election_contains(LAST_TIME, 0xffffffffu));
}

/* ---- images: each station is found at its place, and nowhere else */

static void places(uint32_t n) {
    busy(n);
    election_saved s = save(n, sizeof image);
    CHECK(s.number == ELECTION_DONE && s.size <= ELECTION_IMAGE_MAX(n));
    for (uint32_t k = 1; k <= n; k++) {
        election_station seen = election_read_node(image, (size_t)s.size, k, election_place(n, k), row, ELECTION_ROW_LEN(n));
        CHECK(seen.number == ELECTION_DONE && seen.clock == election_clock(n, k, nodes));
        CHECK(seen.linked == *word(n, k, ELECTION_AT_LINKED) && seen.forming == *word(n, k, ELECTION_AT_FORMING));
        CHECK(memcmp(row, word(n, k, ELECTION_AT_HEIGHTS), ELECTION_ROW_LEN(n) * sizeof row[0]) == 0);
        seen = election_read_node(image, (size_t)s.size, k, election_place(n, k) + 1, row, ELECTION_ROW_LEN(n));
        CHECK(seen.number == ELECTION_PLACE && seen.clock == 0 && seen.linked == 0 && seen.forming == 0);
    }
    keep();
    CHECK(fresh(n) == ELECTION_DONE && (n == 1 || !is_kept()));
    CHECK(restore(n, (size_t)s.size) == ELECTION_DONE && is_kept());
}

/* ---- the order of checks: each call also breaks what is checked later */

static void order_of_events(void) {
    busy(3);
    uint32_t clock = election_clock(3, 2, nodes);
    *word(3, 2, ELECTION_AT_CLOCK) = 0; /* before every stamp of 2's */
    *cell(3, 2, 2) = 1;
    keep();
    CHECK(refused(election_up(17, 0, 0, nodes, ELECTION_NODES_LEN(3), channels, ELECTION_CHANNELS_LEN(3)), ELECTION_SIZES));
    CHECK(refused(election_up(3, 0, 0, nodes, ELECTION_NODES_LEN(3) - 1, channels, ELECTION_CHANNELS_LEN(3)), ELECTION_SIZES));
    CHECK(refused(election_up(3, 0, 0, nodes, ELECTION_NODES_LEN(3), channels, ELECTION_CHANNELS_LEN(3) + 1), ELECTION_SIZES));
    CHECK(refused_at(up(3, 0, 0), ELECTION_FAULT, 2, 2));
    *cell(3, 2, 2) = 0;
    keep();
    CHECK(refused_at(up(3, 0, 0), ELECTION_UNTIMELY, 2, 1) && refused_at(up(3, 2, 1), ELECTION_UNTIMELY, 2, 1));
    CHECK(refused_at(down(3, 0, 0), ELECTION_UNTIMELY, 2, 1) && refused_at(receive(3, 0, 0), ELECTION_UNTIMELY, 2, 1));
    *word(3, 2, ELECTION_AT_CLOCK) = clock;
    *word(3, 1, ELECTION_AT_CLOCK) = LAST_TIME;
    keep();
    CHECK(refused(up(3, 1, 4), ELECTION_STATION) && refused(up(3, 1, 1), ELECTION_STATION) && refused(down(3, 0, 1), ELECTION_STATION));
    CHECK(refused(up(3, 1, 2), ELECTION_ALREADY_UP));
    CHECK(refused(down(3, 1, 2), ELECTION_CLOCK_END));
    fresh(3);
    *word(3, 1, ELECTION_AT_CLOCK) = LAST_TIME;
    keep();
    CHECK(refused(down(3, 1, 2), ELECTION_ALREADY_DOWN) && refused(receive(3, 2, 1), ELECTION_NO_MESSAGE));
}

/* Station 2 has linked 1 and hears a message of 1's, with this depth and stamp, while its own channel to 1 is full. */
static void hears(uint32_t depth, uint32_t stamp) {
    const uint32_t own[ELECTION_MESSAGE_LEN] = {0, 0, 0, 0, 0, 2, 2, 1};
    const uint32_t heard[ELECTION_MESSAGE_LEN] = {0, 0, 0, depth, 0, 1, 1, stamp};
    fresh(2);
    *word(2, 1, ELECTION_AT_CLOCK) = stamp;
    *word(2, 2, ELECTION_AT_CLOCK) = 1;
    *word(2, 1, ELECTION_AT_FORMING) = 2;
    *word(2, 2, ELECTION_AT_FORMING) = 1;
    *cell(2, 1, 2) = 1;
    memcpy(cell(2, 1, 2) + 1, heard, sizeof heard);
    *cell(2, 2, 1) = ELECTION_CAPACITY;
    for (size_t i = 0; i < ELECTION_CAPACITY; i++)
        memcpy(cell(2, 2, 1) + 1 + i * ELECTION_MESSAGE_LEN, own, sizeof own);
    CHECK(check(2).number == ELECTION_DONE);
    keep();
}

/* Station 2 has nobody in its sets: it ignores what it hears. */
static void deaf(void) {
    *word(2, 2, ELECTION_AT_FORMING) = 0;
    memset(cell(2, 2, 1), 0, ELECTION_CELL_LEN * sizeof channels[0]);
    CHECK(check(2).number == ELECTION_DONE);
    keep();
}

static void order_of_ends(void) {
    hears(32767, LAST_TIME);
    CHECK(refused(receive(2, 1, 2), ELECTION_CLOCK_END) && election_waiting(2, 1, 2, channels) == 1); /* by the stamp alone */
    deaf();
    CHECK(refused(receive(2, 1, 2), ELECTION_CLOCK_END) && election_waiting(2, 1, 2, channels) == 1); /* ignored or not */
    hears(0, LAST_TIME - 1);
    deaf();
    CHECK(receive(2, 1, 2).rule == ELECTION_RULE_IGNORED && election_clock(2, 2, nodes) == LAST_TIME && election_waiting(2, 1, 2, channels) == 0);
    hears(0, 1);
    deaf();
    *word(2, 2, ELECTION_AT_CLOCK) = 5;
    CHECK(receive(2, 1, 2).rule == ELECTION_RULE_IGNORED && election_clock(2, 2, nodes) == 6); /* its own clock is the later one */
    hears(0, 1);
    deaf();
    *word(2, 2, ELECTION_AT_CLOCK) = LAST_TIME;
    keep();
    CHECK(refused(receive(2, 1, 2), ELECTION_CLOCK_END) && election_waiting(2, 1, 2, channels) == 1);
    hears(32767, LAST_TIME - 1);
    CHECK(refused(receive(2, 1, 2), ELECTION_DEPTH_END) && election_waiting(2, 1, 2, channels) == 1);
    hears(32766, LAST_TIME - 1);
    CHECK(refused(receive(2, 1, 2), ELECTION_CHANNEL_FULL) && election_waiting(2, 1, 2, channels) == 1);
    memset(cell(2, 2, 1), 0, ELECTION_CELL_LEN * sizeof channels[0]);
    election_answer a = receive(2, 1, 2);
    CHECK(a.rule == ELECTION_RULE_ADOPT && a.adopted_from == 1 && a.sent_to == 1 && a.sent == 1 && a.level_tau == 0);
    CHECK(election_clock(2, 2, nodes) == LAST_TIME && election_leader(2, 2, nodes) == 1);
}

static void order_of_faults(void) {
    busy(3);
    down(3, 1, 2);
    CHECK(check(3).number == ELECTION_DONE);
    *word(3, 1, ELECTION_AT_HEIGHTS + ELECTION_HEIGHT_LEN) = 1; /* a view of 2, which is not in N of 1 */
    CHECK(faulty(check(3), 1, 2));
    *cell(3, 1, 1) = 1;
    CHECK(faulty(check(3), 1, 1));
    *cell(3, 1, 1) = 0;
    *word(3, 1, ELECTION_AT_HEIGHTS + ELECTION_HEIGHT_LEN) = 0;
    cell(3, 1, 2)[0] = 1; /* a message on a channel that is down */
    memcpy(cell(3, 1, 2) + 1, word(3, 1, ELECTION_AT_HEIGHTS), ELECTION_HEIGHT_LEN * sizeof nodes[0]);
    CHECK(faulty(check(3), 1, 2));
    *word(3, 1, ELECTION_AT_FORMING) |= 2; /* .. which is now up; its stamp is 0, before the election of 1 */
    CHECK(election_height_at(3, 1, 1, nodes).election_time > 0 && says(check(3), ELECTION_UNTIMELY, 1, 2));
    cell(3, 1, 2)[1 + ELECTION_AT_STAMP] = election_clock(3, 1, nodes);
    CHECK(check(3).number == ELECTION_DONE);
    cell(3, 1, 2)[ELECTION_CELL_LEN - 1] = 1; /* an unused place */
    CHECK(faulty(check(3), 1, 2));
}

static void order_of_images(void) {
    busy(3);
    election_saved s = save(3, sizeof image);
    size_t len = (size_t)s.size;
    CHECK(save(3, len).number == ELECTION_DONE && save(3, len - 1).number == ELECTION_ROOM && save(3, len - 1).size == 0);
    *word(3, 2, ELECTION_AT_CLOCK) = 0; /* before every stamp of 2's */
    CHECK(save(3, 0).number == ELECTION_UNTIMELY && save(3, 0).fault_at == 2 && save(3, 0).fault_with == 1 && save(3, 0).size == 0);
    *cell(3, 2, 2) = 1;
    CHECK(save(3, 0).number == ELECTION_FAULT && save(3, 0).fault_at == 2 && save(3, 0).fault_with == 2 && save(3, 0).size == 0);
    CHECK(election_save(3, nodes, 0, channels, 0, image, 0).number == ELECTION_SIZES);
    keep();
    CHECK(restore(2, 3) == ELECTION_IMAGE_SHORT && look(2, 3, 9, 9) == ELECTION_IMAGE_SHORT);
    image[0] ^= 0x80;
    CHECK(restore(2, len - 1) == ELECTION_IMAGE_HEADER && look(2, len - 1, 9, 9) == ELECTION_IMAGE_HEADER);
    image[0] ^= 0x80;
    CHECK(restore(2, len - 1) == ELECTION_SIZES && look(2, len - 1, 9, 9) == ELECTION_SIZES);
    CHECK(restore(3, len - 1) == ELECTION_IMAGE_END && look(3, len - 1, 9, 9) == ELECTION_IMAGE_END);
    CHECK(restore(3, len + 1) == ELECTION_IMAGE_END && look(3, len + 1, 9, 9) == ELECTION_IMAGE_END);
    uint8_t *clock = image + election_place(3, 2) / 8, kept[4];
    memcpy(kept, clock, sizeof kept);
    memset(clock, 0, sizeof kept); /* station 2 at 0, before every stamp of its own; and at 2 2 a bit above n in its N */
    clock[4] ^= 0x80;
    CHECK(restore(3, len - 1) == ELECTION_IMAGE_END && look(3, len - 1, 9, 9) == ELECTION_IMAGE_END);
    CHECK(says(resumed(3, len), ELECTION_FAULT, 2, 2) && look(3, len, 9, 9) == ELECTION_FAULT);
    clock[4] ^= 0x80;
    CHECK(restore(3, len - 1) == ELECTION_IMAGE_END && says(resumed(3, len), ELECTION_UNTIMELY, 2, 1));
    election_station none = looked(3, len, 9, 9);
    CHECK(none.number == ELECTION_UNTIMELY && none.fault_at == 2 && none.fault_with == 1);
    CHECK(none.clock == 0 && none.linked == 0 && none.forming == 0);
    memcpy(clock, kept, sizeof kept);
    CHECK(look(3, len, 9, 9) == ELECTION_STATION && look(3, len, 3, 9) == ELECTION_PLACE);
    size_t first_count = (size_t)election_place(3, 3) + 64 + 96 * 3;
    image[first_count / 8] |= 0xf0; /* a count of 15, met on the walk before any end */
    CHECK(first_count % 8 == 0 && restore(3, len - 1) == ELECTION_FAULT && look(3, len - 1, 9, 9) == ELECTION_FAULT);
    CHECK(restore(3, first_count / 8) == ELECTION_IMAGE_END);
    CHECK(is_kept());
}

/* ---- times: each kind at its limit, which passes, and one beyond */

/* Station 2 of 3 has clock 9, a view of 1 and a message on its way to 3, each with a search and an election. */
static void timed(void) {
    const uint32_t head[] = {9, 1, 4};
    const uint32_t view[ELECTION_HEIGHT_LEN] = {6, 3, 1, 1, 7, 3, 1}, own[ELECTION_HEIGHT_LEN] = {4, 1, 0, 0, 5, 1, 2};
    const uint32_t message[ELECTION_MESSAGE_LEN] = {2, 2, 0, 1, 3, 2, 2, 8};
    fresh(3);
    memcpy(word(3, 2, ELECTION_AT_CLOCK), head, sizeof head);
    memcpy(word(3, 2, ELECTION_AT_HEIGHTS), view, sizeof view);
    memcpy(word(3, 2, ELECTION_AT_HEIGHTS + ELECTION_HEIGHT_LEN), own, sizeof own);
    *cell(3, 2, 3) = 1;
    memcpy(cell(3, 2, 3) + 1, message, sizeof message);
}

/* Every call on tables refuses with 18 and this pair, though it also breaks what is checked later; nothing lent changes. */
static void untimely(uint32_t at, uint32_t with) {
    const size_t wide = ELECTION_NODES_LEN(3), cells = ELECTION_CHANNELS_LEN(3);
    keep();
    election_value quiet = election_quiet(3, nodes, wide, channels, cells), groups = election_groups(3, nodes, wide, channels, cells);
    election_group group = election_group_of(3, 0, nodes, wide, channels, cells);
    election_saved drawn = election_draw(3, nodes, wide, channels, cells, image, 0), saved = save(3, 0);
    CHECK(says(check(3), ELECTION_UNTIMELY, at, with));
    CHECK(refused_at(up(3, 0, 0), ELECTION_UNTIMELY, at, with) && refused_at(down(3, 0, 0), ELECTION_UNTIMELY, at, with));
    CHECK(refused_at(receive(3, 0, 0), ELECTION_UNTIMELY, at, with));
    CHECK(quiet.number == ELECTION_UNTIMELY && quiet.fault_at == at && quiet.fault_with == with && quiet.value == 0);
    CHECK(groups.number == ELECTION_UNTIMELY && groups.fault_at == at && groups.fault_with == with && groups.value == 0);
    CHECK(group.number == ELECTION_UNTIMELY && group.fault_at == at && group.fault_with == with && group.members == 0);
    CHECK(saved.number == ELECTION_UNTIMELY && saved.fault_at == at && saved.fault_with == with && saved.size == 0);
    CHECK(drawn.number == ELECTION_UNTIMELY && drawn.fault_at == at && drawn.fault_with == with && drawn.size == 0);
    CHECK(is_kept());
}

static void a_time(uint32_t *time, uint32_t limit, uint32_t at, uint32_t with) {
    timed();
    *time = limit;
    CHECK(check(3).number == ELECTION_DONE && save(3, sizeof image).number == ELECTION_DONE);
    *time = limit + 1;
    untimely(at, with);
    *time = LAST_TIME;
    untimely(at, with);
}

static void order_of_times(void) {
    uint32_t *view = word(3, 2, ELECTION_AT_HEIGHTS), *own = view + ELECTION_HEIGHT_LEN, *message = cell(3, 2, 3) + 1;
    a_time(own + ELECTION_AT_SEARCH_TIME, 9, 2, 2);
    a_time(own + ELECTION_AT_ELECTION_TIME, 9, 2, 2);
    a_time(view + ELECTION_AT_SEARCH_TIME, 9, 2, 1);
    a_time(view + ELECTION_AT_ELECTION_TIME, 9, 2, 1);
    a_time(message + ELECTION_AT_SEARCH_TIME, 8, 2, 3);
    a_time(message + ELECTION_AT_ELECTION_TIME, 8, 2, 3);
    a_time(message + ELECTION_AT_STAMP, 9, 2, 3);
    timed();
    *word(3, 2, ELECTION_AT_CLOCK) = 0; /* all seven: the first pair is named */
    untimely(2, 1);
    *word(3, 3, ELECTION_AT_LINKED) = 4; /* 3 linked to itself: a broken rule comes first, at whatever pair */
    CHECK(faulty(check(3), 3, 3));
}

/* ---- histories: 1, 19, 14, and then the fields in their order */

static int not_listed(election_listed l, uint32_t number) {
    return l.number == number && l.fault_at == 0 && l.fault_with == 0 && l.histories == 0 && l.size == 0 && image[0] == '#';
}

static void order_of_histories(void) {
    image[0] = '#';
    CHECK(not_listed(election_histories(0, 6, image, 0), ELECTION_SIZES) && not_listed(election_histories(17, 6, image, 0), ELECTION_SIZES));
    CHECK(not_listed(election_histories(4, 0, image, 0), ELECTION_TOO_LARGE) && not_listed(election_histories(16, 6, image, 0), ELECTION_TOO_LARGE));
    CHECK(not_listed(election_histories(1, 6, image, 0), ELECTION_TOO_LARGE) && not_listed(election_histories(3, 6, image, 0), ELECTION_TOO_LARGE));
    CHECK(not_listed(election_histories(3, 1, image, 59), ELECTION_ROOM) && not_listed(election_histories(3, 0, image, 3), ELECTION_ROOM));
    election_listed l = election_histories(3, 1, image, 60);
    CHECK(l.number == ELECTION_DONE && l.fault_at == 0 && l.fault_with == 0 && l.histories == 6 && l.size == 60);
    CHECK(memcmp(image, "N 3\nU 1 2\nN 3\nU 1 3\n", 20) == 0 && memcmp(image + 50, "N 3\nU 3 2\n", 10) == 0);
}

int main(void) {
    sizes();
    lines();
    for (uint32_t n = 1; n <= ELECTION_MAX_STATIONS; n++) {
        accessors(n);
        places(n);
    }
    outsides();
    order_of_events();
    order_of_ends();
    order_of_faults();
    order_of_images();
    order_of_times();
    order_of_histories();
    return failures == 0 ? 0 : 1;
}
