/* Six loggers as separate devices: each has tables of its own, knows its own station and its radio, and hears of the others only by packets
 * of a height and a stamp. Beside them one plot's tables get the same events. After every event the answers must be the same in every
 * field, and every device's row and outgoing cells the plot's, word for word; the first difference ends the program with status 1.
 * Build: gcc -std=c11 -Iinclude examples/devices.c target/staticlib/libabi.a
 * `devices clock`, `stamp` or `kept` breaks one thing from event 1000 on, which must be noticed: a device's clock, a packet's stamp, a packet
 * kept by the sender after it was taken.
 */
#include <inttypes.h>
#include <stdio.h>
#include <stdlib.h>
#include <string.h>

#include "election.h"

enum { N = 6, NODES = ELECTION_NODES_LEN(N), CHANNELS = ELECTION_CHANNELS_LEN(N), PACKET = 4 * ELECTION_MESSAGE_LEN };
static const uint32_t LAST_TIME = 4294967295u;

typedef struct {
    uint32_t nodes[NODES];
    uint32_t channels[CHANNELS];
} tables;

static uint32_t *row_of(tables *t, uint32_t u) { return t->nodes + (u - 1) * ELECTION_STATION_LEN(N); }

static uint32_t *cell_of(tables *t, uint32_t from, uint32_t to) { return t->channels + ((from - 1) * N + (to - 1)) * ELECTION_CELL_LEN; }

/* ---- a device: what firmware does, with nothing but its own tables, its own u and packets */

/* The fresh plot, and every other station may have sent something to u, at any time. */
static uint32_t device_start(tables *t, uint32_t u) {
    election_checked c = election_fresh(N, t->nodes, NODES, t->channels, CHANNELS);
    for (uint32_t v = 1; v <= N; v++)
        if (v != u) {
            row_of(t, v)[ELECTION_AT_FORMING] = (uint32_t)1 << (u - 1);
            row_of(t, v)[ELECTION_AT_CLOCK] = LAST_TIME;
        }
    return c.number;
}

/* The radio finds, or loses, the channel to v. */
static election_answer device_up(tables *t, uint32_t u, uint32_t v) {
    return election_up(N, u, v, t->nodes, NODES, t->channels, CHANNELS);
}

static election_answer device_down(tables *t, uint32_t u, uint32_t v) {
    return election_down(N, u, v, t->nodes, NODES, t->channels, CHANNELS);
}

/* The next packet to v, most significant byte first; whether there is one. */
static int device_sends(tables *t, uint32_t u, uint32_t v, uint8_t packet[PACKET]) {
    const uint32_t *message = cell_of(t, u, v) + 1;
    if (election_waiting(N, u, v, t->channels) == 0)
        return 0;
    for (size_t i = 0; i < PACKET; i++)
        packet[i] = (uint8_t)(message[i / 4] >> (24 - 8 * (i % 4)));
    return 1;
}

/* v has taken that packet: it leaves the cell. */
static void device_sent(tables *t, uint32_t u, uint32_t v) {
    uint32_t *cell = cell_of(t, u, v);
    uint32_t *last = cell + ELECTION_CELL_LEN - ELECTION_MESSAGE_LEN;
    cell[0] -= 1;
    memmove(cell + 1, cell + 1 + ELECTION_MESSAGE_LEN, (ELECTION_CAPACITY - 1) * ELECTION_MESSAGE_LEN * sizeof cell[0]);
    memset(last, 0, ELECTION_MESSAGE_LEN * sizeof cell[0]);
}

/* A packet from v comes in. Where it is refused the device is as it was, and v keeps the packet. */
static election_answer device_hears(tables *t, uint32_t v, uint32_t u, const uint8_t packet[PACKET]) {
    uint32_t *cell = cell_of(t, v, u);
    election_answer a;
    cell[0] = 1;
    for (size_t i = 0; i < PACKET; i++)
        cell[1 + i / 4] = cell[1 + i / 4] << 8 | packet[i];
    a = election_receive(N, v, u, t->nodes, NODES, t->channels, CHANNELS);
    if (a.number != ELECTION_DONE)
        memset(cell, 0, ELECTION_CELL_LEN * sizeof cell[0]);
    return a;
}

/* ---- the devices and the plot beside them */

static tables plot, device[N + 1], at_first[N + 1];
static uint32_t events, rules[128], numbers[ELECTION_UNTIMELY + 1];
static const char *broken = "";

static int breaks(const char *what) { return events >= 1000 && strcmp(broken, what) == 0; }

static void differs(char kind, uint32_t u, uint32_t v, const char *what, uint32_t w) {
    printf("event %" PRIu32 " (%c %" PRIu32 " %" PRIu32 "): %s of device %" PRIu32 " differs from the plot\n", events, kind, u, v, what, w);
    exit(1);
}

static int same_answers(election_answer a, election_answer b) {
    return a.number == b.number && a.fault_at == b.fault_at && a.fault_with == b.fault_with && a.rule == b.rule &&
           a.sent_to == b.sent_to && a.sent == b.sent && a.adopted_from == b.adopted_from && a.level_tau == b.level_tau &&
           a.level_originator == b.level_originator && a.level_bit == b.level_bit;
}

/* Device w: its row and its outgoing cells are the plot's, and all else is as it was at first. */
static int same_tables(uint32_t w) {
    static tables expected;
    expected = at_first[w];
    memcpy(row_of(&expected, w), row_of(&plot, w), ELECTION_STATION_LEN(N) * sizeof(uint32_t));
    memcpy(cell_of(&expected, w, 1), cell_of(&plot, w, 1), N * ELECTION_CELL_LEN * sizeof(uint32_t));
    return memcmp(&expected, &device[w], sizeof expected) == 0;
}

static void compare(char kind, uint32_t u, uint32_t v, uint32_t at, election_answer said, election_answer expected) {
    if (!same_answers(said, expected))
        differs(kind, u, v, "the answer", at);
    for (uint32_t w = 1; w <= N; w++)
        if (!same_tables(w))
            differs(kind, u, v, "a word", w);
    numbers[expected.number]++;
    rules[expected.rule]++;
}

/* ---- the events, at a device and on the plot */

static int is_station(uint32_t u) { return election_is_station(N, u); }

static void up(uint32_t u, uint32_t v) {
    tables *t = &device[is_station(u) ? u : 1]; /* a station that there is not is refused by any device */
    events++;
    compare('U', u, v, u, device_up(t, u, v), election_up(N, u, v, plot.nodes, NODES, plot.channels, CHANNELS));
}

static void down(uint32_t u, uint32_t v) {
    tables *t = &device[is_station(u) ? u : 1];
    events++;
    compare('D', u, v, u, device_down(t, u, v), election_down(N, u, v, plot.nodes, NODES, plot.channels, CHANNELS));
}

/* Now and then the radio garbles a packet: it is refused with this number and pair, and comes again. */
static void garbled(uint32_t from, uint32_t to, const uint8_t packet[PACKET], uint32_t number) {
    election_answer a = device_hears(&device[to], from, to, packet);
    if (a.number != number || a.fault_at != from || a.fault_with != to || !same_tables(to))
        differs('M', from, to, "what a garbled packet did", to);
}

/* It names another sender; it has an election later than its stamp, unless that is the last time. */
static void garbles(uint32_t from, uint32_t to, const uint8_t packet[PACKET]) {
    uint8_t other[PACKET];
    memcpy(other, packet, PACKET);
    other[4 * ELECTION_AT_STATION + 3] = (uint8_t)to;
    garbled(from, to, other, ELECTION_FAULT);
    memcpy(other, packet, PACKET);
    memset(other + 4 * ELECTION_AT_ELECTION_TIME, 0xff, 4);
    if (memcmp(other + 4 * ELECTION_AT_ELECTION_TIME, other + 4 * ELECTION_AT_STAMP, 4) != 0)
        garbled(from, to, other, ELECTION_UNTIMELY);
}

/* The radio carries the next packet, if there is one; taken or refused, the sender hears of it. */
static void deliver(uint32_t from, uint32_t to) {
    uint8_t packet[PACKET];
    election_answer said, expected;
    events++;
    if (breaks("clock"))
        row_of(&device[3], 3)[ELECTION_AT_CLOCK] += 1;
    if (!is_station(from) || !is_station(to) || from == to || !device_sends(&device[from], from, to, packet)) {
        tables *t = &device[is_station(to) ? to : 1];
        said = election_receive(N, from, to, t->nodes, NODES, t->channels, CHANNELS);
    } else {
        if (events % 16 == 0)
            garbles(from, to, packet);
        if (breaks("stamp"))
            packet[PACKET - 1] ^= 1;
        said = device_hears(&device[to], from, to, packet);
        if (said.number == ELECTION_DONE && !breaks("kept"))
            device_sent(&device[from], from, to);
    }
    expected = election_receive(N, from, to, plot.nodes, NODES, plot.channels, CHANNELS);
    compare('M', from, to, to, said, expected);
}

/* Delivers until no message waits, or only messages that are refused. */
static void settle(void) {
    uint32_t before;
    do {
        before = numbers[ELECTION_DONE];
        for (uint32_t u = 1; u <= N; u++)
            for (uint32_t v = 1; v <= N; v++)
                if (election_waiting(N, u, v, plot.channels) > 0)
                    deliver(u, v);
    } while (numbers[ELECTION_DONE] > before);
}

/* ---- pseudo-random events */

static uint32_t below(uint32_t limit) {
    static uint32_t state = 2463534242u;
    state ^= state << 13;
    state ^= state >> 17;
    state ^= state << 5;
    return state % limit;
}

/* A channel at random that is up, or down; the first looked at where there is none. */
static void link_event(int goes_up) {
    uint32_t first = below(N * N);
    for (uint32_t i = 0; i < N * N; i++) {
        uint32_t pair = (first + i) % (N * N), u = pair / N + 1, v = pair % N + 1;
        if (u != v && election_is_up(N, u, v, plot.nodes) != goes_up) {
            (goes_up ? up : down)(u, v);
            return;
        }
    }
    (goes_up ? up : down)(1, 2);
}

/* A waiting message from a channel at random; where none waits, a channel goes up or down. */
static void some_message(void) {
    uint32_t first = below(N * N);
    for (uint32_t i = 0; i < N * N; i++) {
        uint32_t pair = (first + i) % (N * N);
        if (election_waiting(N, pair / N + 1, pair % N + 1, plot.channels) > 0) {
            deliver(pair / N + 1, pair % N + 1);
            return;
        }
    }
    link_event(below(2) == 0);
}

/* Of 100 events so many ups and downs; three name any numbers from 0 to N + 1; the rest are receipts. */
static void at_random(uint32_t count, uint32_t ups, uint32_t downs) {
    while (count-- > 0) {
        uint32_t kind = below(100), u = below(N + 2), v = below(N + 2);
        if (kind < ups)
            link_event(1);
        else if (kind < ups + downs)
            link_event(0);
        else if (kind < 97)
            some_message();
        else
            (kind == 97 ? up : kind == 98 ? down : deliver)(u, v);
    }
}

/* ---- the parts */

static void start(void) {
    election_fresh(N, plot.nodes, NODES, plot.channels, CHANNELS);
    for (uint32_t u = 1; u <= N; u++) {
        if (device_start(&device[u], u) != ELECTION_DONE)
            exit(1);
        at_first[u] = device[u];
    }
}

/* A word of station u's row, in the plot and at its device. */
static void plant(uint32_t u, size_t at, uint32_t word) {
    row_of(&plot, u)[at] = word;
    row_of(&device[u], u)[at] = word;
}

static void link_up(uint32_t u, uint32_t v) {
    up(u, v);
    up(v, u);
}

static void link_down(uint32_t u, uint32_t v) {
    down(u, v);
    down(v, u);
}

static void a_row(void) {
    for (uint32_t u = 1; u < N; u++)
        link_up(u, u + 1);
    settle();
    link_down(1, 2); /* the others search, and elect 2 */
    settle();
    link_up(1, N); /* 1 comes back at the far end */
    settle();
    up(1, 3);
    down(1, 3); /* lost before 3 heard of it */
    settle();
}

static void show(const char *part) {
    printf("%s: %" PRIu32 " events so far\n ", part, events);
    for (uint32_t u = 1; u <= N; u++)
        printf(" %" PRIu32 " follows %" PRIu32 " at clock %" PRIu32 "%s", u, election_leader(N, u, device[u].nodes),
               election_clock(N, u, device[u].nodes), u < N ? "," : "\n");
}

/* Every rule, and every number that an event of a plot can answer, came up. */
static int all_seen(void) {
    int all = 1;
    printf("rules:");
    for (const char *rule = "UESQIFPAR-"; *rule != '\0'; rule++) {
        printf(" %c %" PRIu32, *rule, rules[(size_t)*rule]);
        all = all && rules[(size_t)*rule] > 0;
    }
    printf("\nnumbers:");
    for (uint32_t number = 0; number <= ELECTION_CHANNEL_FULL; number++)
        if (number == ELECTION_DONE || number >= ELECTION_STATION) {
            printf(" %" PRIu32 " %" PRIu32, number, numbers[number]);
            all = all && numbers[number] > 0;
        }
    printf("\n%s\n", all ? "no difference" : "something never came up");
    return all;
}

int main(int argc, char **argv) {
    broken = argc > 1 ? argv[1] : "";
    if (argc > 2 || (argc == 2 && strcmp(broken, "clock") != 0 && strcmp(broken, "stamp") != 0 && strcmp(broken, "kept") != 0)) {
        fprintf(stderr, "devices [clock | stamp | kept]\n");
        return 2;
    }
    start();
    a_row();
    show("six in a row, a link lost, the ring closed");
    for (uint32_t round = 0; round < 10; round++) {
        at_random(600, 12, 4);  /* links come */
        at_random(600, 4, 14);  /* links go */
        at_random(300, 40, 45); /* hardly a message is heard: channels fill */
        at_random(500, 1, 1);   /* it settles */
    }
    show("links that come and go");

    start();
    for (uint32_t u = 1; u <= N; u++)
        plant(u, ELECTION_AT_CLOCK, LAST_TIME - 200);
    at_random(2000, 12, 8);
    show("clocks near their end");

    start();
    plant(1, ELECTION_AT_HEIGHTS + ELECTION_AT_DEPTH, 32765);
    a_row();
    at_random(1000, 10, 5);
    show("a depth near its end");
    return all_seen() ? 0 : 1;
}
