/* A radio build on the bench: reads one bench input from standard input and prints the bench's listing, by the calls of this library. It is
 * what bin/histories-against sets beside the bench; firmware with rules of its own puts its calls in the place of these.
 * Build: gcc -std=c11 -Iinclude examples/build.c target/staticlib/libabi.a
 * `build wrong` is wrong on purpose: a station that hears a larger leader pair keeps silent, rule Q for rule R.
 */
#include <inttypes.h>
#include <stdio.h>
#include <string.h>

#include "election.h"

enum { LONGEST = 65536, MALFORMED = 15, MOST = ELECTION_MAX_STATIONS };

static uint32_t n;
static uint32_t nodes[ELECTION_NODES_LEN(MOST)], channels[ELECTION_CHANNELS_LEN(MOST)];
static char input[LONGEST + 2]; /* one byte too many can be seen, and the last line gets its newline */
static int wrong;

#define NODES nodes, ELECTION_NODES_LEN(n)
#define CHANNELS channels, ELECTION_CHANNELS_LEN(n)

/* ---- lines */

/* A digit, or two of which the first is not 0, and then the byte `end`: where it goes on, or NULL. */
static const char *number(const char *at, uint32_t *k, char end) {
    if (at == NULL || *at < '0' || *at > '9')
        return NULL;
    *k = (uint32_t)(*at++ - '0');
    if (*k != 0 && *at >= '0' && *at <= '9')
        *k = 10 * *k + (uint32_t)(*at++ - '0');
    return *at == end ? at + 1 : NULL;
}

/* What stands behind a letter and a space, or NULL. */
static const char *behind(const char *line, char letter) { return line[0] == letter && line[1] == ' ' ? line + 2 : NULL; }

/* ---- events */

/* Takes back what `from` has just sent to `to`. */
static void unsend(uint32_t from, uint32_t to) {
    uint32_t *cell = channels + ((size_t)(from - 1) * n + (to - 1)) * ELECTION_CELL_LEN;
    cell[0]--;
    memset(cell + 1 + cell[0] * ELECTION_MESSAGE_LEN, 0, ELECTION_MESSAGE_LEN * sizeof cell[0]);
}

static election_answer receive(uint32_t from, uint32_t to) {
    election_answer a = election_receive(n, from, to, NODES, CHANNELS);
    if (wrong && a.rule == ELECTION_RULE_REPLY) {
        unsend(to, from);
        a.rule = ELECTION_RULE_NO_CHANGE;
        a.sent = 0;
    }
    return a;
}

static election_answer carry_out(const char *line) {
    election_answer malformed = {MALFORMED, 0, 0, ELECTION_RULE_NONE, 0, 0, 0, 0, 0, 0};
    uint32_t u = 0, v = 0;
    if (number(number(behind(line, line[0]), &u, ' '), &v, '\n') == NULL)
        return malformed;
    switch (line[0]) {
    case 'U': return election_up(n, u, v, NODES, CHANNELS);
    case 'D': return election_down(n, u, v, NODES, CHANNELS);
    case 'M': return receive(u, v);
    default: return malformed;
    }
}

int main(int argc, char **argv) {
    wrong = argc > 1 && strcmp(argv[1], "wrong") == 0;
    size_t len = fread(input, 1, LONGEST + 1, stdin);
    input[len] = '\n';
    const char *end = input + len, *line = number(behind(input, 'N'), &n, '\n');
    if (len > LONGEST || line == NULL || election_fresh(n, NODES, CHANNELS).number != ELECTION_DONE) {
        printf("bad plot\n");
        return 0;
    }
    printf("event code rule sent\n");
    for (uint32_t k = 1; line < end; k++) {
        election_answer a = carry_out(line);
        printf("%" PRIu32 " %" PRIu32 " %c %" PRIu32 "\n", k, a.number, (char)a.rule, a.sent);
        line = (const char *)memchr(line, '\n', (size_t)(end - line) + 1) + 1;
    }
    printf("station leader clock\n");
    for (uint32_t u = 1; u <= n; u++)
        printf("%" PRIu32 " %" PRIu32 " %" PRIu32 "\n", u, election_leader(n, u, nodes), election_clock(n, u, nodes));
    return 0;
}
