/* election_histories and election_histories_len: every list, n of 1 to 3 and lengths of 0 to 5, beside the same worked out here in two other
 * ways; each history carried out, and greater than the one before it; the counts; the refusals in their order; every room of one list, with the
 * bytes before and behind it.
 * A line for the first thing that is wrong, and exit status 1. Compiles as C11 and as C++17.
 */
#include <inttypes.h>
#include <stdio.h>
#include <stdlib.h>
#include <string.h>

#include "election.h"

enum { MOST_N = 3, MOST_LENGTH = 5, MARGIN = 64, BEHIND = '#' };
enum { TEXT = 700000, NODES = ELECTION_NODES_LEN(MOST_N), CHANNELS = ELECTION_CHANNELS_LEN(MOST_N) };

static const uint32_t COUNTS[MOST_N][MOST_LENGTH + 1] = {{1, 0, 0, 0, 0, 0}, {1, 2, 6, 16, 46, 128}, {1, 6, 42, 312, 2418, 19254}};

typedef struct {
    uint32_t nodes[NODES], channels[CHANNELS];
} plot;

typedef struct {
    char kind;
    uint32_t u, v;
} event;

static uint8_t memory[MARGIN + TEXT + MARGIN], untouched[sizeof memory];
static uint8_t *const out = memory + MARGIN;
static char text[TEXT], by_words[TEXT]; /* the list worked out here */
static size_t len;
static uint32_t found; /* histories in it */
static uint32_t n, length;

#define MUST(test) ((test) ? (void)0 : wrong(#test, __LINE__))

static void wrong(const char *test, int line) {
    printf("tests/c/histories.c:%d: n = %" PRIu32 ", length %" PRIu32 ": %s\n", line, n, length, test);
    exit(1);
}

/* ---- the call */

static void wipe(void) { memset(memory, BEHIND, sizeof memory); }

static int is_wiped(void) { return memcmp(memory, untouched, sizeof memory) == 0; }

/* Refused with this number, every other field 0, and no byte touched. */
static int refused(election_listed l, uint32_t number) {
    return l.number == number && l.fault_at == 0 && l.fault_with == 0 && l.histories == 0 && l.size == 0 && is_wiped();
}

/* The text, so many histories, and no other byte touched. */
static int listed(election_listed l) {
    return l.number == ELECTION_DONE && l.fault_at == 0 && l.fault_with == 0 && l.histories == found && l.size == len &&
           memcmp(out, text, len) == 0 && memcmp(memory, untouched, MARGIN) == 0 &&
           memcmp(out + len, untouched + MARGIN + len, sizeof memory - MARGIN - len) == 0;
}

/* ---- the lists, worked out here */

static uint32_t step(plot *p, event e) {
    const size_t wide = ELECTION_NODES_LEN(n), cells = ELECTION_CHANNELS_LEN(n);
    switch (e.kind) {
    case 'U': return election_up(n, e.u, e.v, p->nodes, wide, p->channels, cells).number;
    case 'D': return election_down(n, e.u, e.v, p->nodes, wide, p->channels, cells).number;
    default: return election_receive(n, e.u, e.v, p->nodes, wide, p->channels, cells).number;
    }
}

static void start(plot *p) {
    MUST(election_fresh(n, p->nodes, ELECTION_NODES_LEN(n), p->channels, ELECTION_CHANNELS_LEN(n)).number == ELECTION_DONE);
}

/* Event k of the conceivable 3 n n, of a station with itself too, in their order. */
static event conceivable(uint32_t k) {
    event e = {"UDM"[k / (n * n)], 1 + k / n % n, 1 + k % n};
    return e;
}

static void print(const event *history) {
    len += (size_t)sprintf(text + len, "N %" PRIu32 "\n", n);
    for (uint32_t i = 0; i < length; i++)
        len += (size_t)sprintf(text + len, "%c %" PRIu32 " %" PRIu32 "\n", history[i].kind, history[i].u, history[i].v);
    found++;
    MUST(len + MARGIN < sizeof text);
}

/* Every row of conceivable events, as the digits of a number count them up; those that are carried out whole are printed. */
static void all_words(void) {
    uint32_t words = 1;
    for (uint32_t i = 0; i < length; i++)
        words *= 3 * n * n;
    for (uint32_t word = 0; word < words; word++) {
        event history[MOST_LENGTH];
        plot p;
        uint32_t rest = word, done = 0;
        for (uint32_t i = length; i > 0; i--, rest /= 3 * n * n)
            history[i - 1] = conceivable(rest % (3 * n * n));
        start(&p);
        while (done < length && step(&p, history[done]) == ELECTION_DONE)
            done++;
        if (done == length)
            print(history);
    }
}

/* Goes on from the plot after `done` events with each event that is carried out; every level has tables of its own. */
static void walk(const plot *before, event *history, uint32_t done) {
    if (done == length) {
        print(history);
        return;
    }
    for (uint32_t k = 0; k < 3 * n * n; k++) {
        plot p = *before;
        history[done] = conceivable(k);
        if (step(&p, history[done]) == ELECTION_DONE)
            walk(&p, history, done + 1);
    }
}

static void work_out(void) {
    event history[MOST_LENGTH];
    plot p;
    len = found = 0;
    if (length <= 3) {
        all_words();
        memcpy(by_words, text, len);
    }
    size_t before = len;
    uint32_t by_word = found;
    len = found = 0;
    memset(&p, 0, sizeof p);
    start(&p);
    walk(&p, history, 0);
    MUST(length > 3 || (len == before && found == by_word && memcmp(text, by_words, len) == 0));
    MUST(found == COUNTS[n - 1][length] && len == found * (4 + 6 * (size_t)length));
}

/* ---- the text of a list, taken apart */

/* The history at `at`, to the byte; where the next one starts. */
static const char *take(const char *at, event *history) {
    MUST(at[0] == 'N' && at[1] == ' ' && at[2] == (char)('0' + n) && at[3] == '\n');
    at += 4;
    for (uint32_t i = 0; i < length; i++, at += 6) {
        MUST((at[0] == 'U' || at[0] == 'D' || at[0] == 'M') && at[1] == ' ' && at[3] == ' ' && at[5] == '\n');
        event e = {at[0], (uint32_t)(at[2] - '0'), (uint32_t)(at[4] - '0')};
        history[i] = e;
    }
    return at;
}

static int rank(event e) { return (e.kind == 'U' ? 0 : e.kind == 'D' ? 100 : 200) + 10 * (int)e.u + (int)e.v; }

/* Each history of the list is carried out, and stands behind the one before it. */
static void each_carried_out(const char *at, uint32_t histories) {
    event history[MOST_LENGTH], last[MOST_LENGTH];
    for (uint32_t k = 0; k < histories; k++) {
        plot p;
        uint32_t same = 0;
        at = take(at, history);
        start(&p);
        for (uint32_t i = 0; i < length; i++)
            MUST(step(&p, history[i]) == ELECTION_DONE);
        while (k > 0 && same < length && rank(history[same]) == rank(last[same]))
            same++;
        MUST(k == 0 || (same < length && rank(history[same]) > rank(last[same])));
        memcpy(last, history, sizeof last);
    }
    MUST(at == (const char *)out + len);
}

static void a_list(void) {
    work_out();
    MUST(election_histories_len(n, length) == len && len <= ELECTION_HISTORIES_MOST);
    for (size_t more = 0; more < 3; more++) {
        wipe();
        MUST(listed(election_histories(n, length, out, len + more)));
    }
    wipe();
    MUST(listed(election_histories(n, length, out, ELECTION_HISTORIES_MOST)));
    each_carried_out((const char *)out, found);
    wipe();
    MUST(len == 0 || (refused(election_histories(n, length, out, len - 1), ELECTION_ROOM) && refused(election_histories(n, length, out, 0), ELECTION_ROOM)));
}

/* ---- by hand */

static void by_hand(void) {
    const char *two = "N 2\nU 1 2\nU 2 1\nN 2\nU 1 2\nD 1 2\nN 2\nU 1 2\nM 1 2\nN 2\nU 2 1\nU 1 2\nN 2\nU 2 1\nD 2 1\nN 2\nU 2 1\nM 2 1\n";
    n = length = 2;
    work_out();
    MUST(len == 96 && found == 6 && memcmp(text, two, len) == 0);
    MUST(ELECTION_HISTORIES_MOST == 654636 && election_histories_len(3, 5) == ELECTION_HISTORIES_MOST);
}

/* ---- refusals: 1, then 19, then 14 */

static void refusals(void) {
    const uint32_t stations[] = {0, 1, 2, 3, 4, 16, 17, 0xffffffffu}, lengths[] = {0, 1, 2, 3, 4, 5, 6, 7, 0xffffffffu};
    wipe();
    for (size_t i = 0; i < sizeof stations / sizeof stations[0]; i++)
        for (size_t k = 0; k < sizeof lengths / sizeof lengths[0]; k++) {
            n = stations[i];
            length = lengths[k];
            uint32_t number = n < 1 || n > 16 ? ELECTION_SIZES : n > MOST_N || length > MOST_LENGTH ? ELECTION_TOO_LARGE : ELECTION_DONE;
            if (number == ELECTION_DONE) {
                size_t size = COUNTS[n - 1][length] * (4 + 6 * (size_t)length);
                MUST(election_histories_len(n, length) == size);
                MUST(size == 0 || (refused(election_histories(n, length, out, 0), ELECTION_ROOM) &&
                                   refused(election_histories(n, length, out, size - 1), ELECTION_ROOM)));
            } else {
                MUST(election_histories_len(n, length) == 0);
                MUST(refused(election_histories(n, length, out, 0), number) && refused(election_histories(n, length, out, TEXT), number));
            }
        }
}

/* ---- every room of one list */

static void rooms(void) {
    n = 2;
    length = 3;
    work_out();
    for (size_t room = 0; room <= len + 3; room++) {
        wipe();
        election_listed l = election_histories(n, length, out, room);
        MUST(room < len ? refused(l, ELECTION_ROOM) : listed(l));
    }
}

int main(void) {
    memset(untouched, BEHIND, sizeof untouched);
    by_hand();
    refusals();
    rooms();
    for (n = 1; n <= MOST_N; n++)
        for (length = 0; length <= MOST_LENGTH; length++)
            a_list();
    return 0;
}
