/* Leader election for up to 16 loggers on a plot: the calls for firmware and tools, over tables that the caller lends.
 *
 * Every call takes any numbers, words and bytes, and answers. What cannot be done is refused with one number, and then nothing lent
 * has changed. The calls of the archive are proved; the macros and the inline functions here are tested.
 *
 * MEMORY. Lengths count elements. A pointer is valid for its length and not null; words are aligned as uint32_t, bytes may lie
 * anywhere. Lent memory must not overlap: no call can see that it does, and then 0 may be answered over wrong tables.
 *
 * THE TABLES, in words of the machine's own byte order.
 * nodes: n rows of ELECTION_STATION_LEN(n) words, row u for station u: clock, linked set N, forming set F, then n heights, by station:
 *   its own, and what it last heard from those in N. Where k is outside N, height k, the view of k, is seven zero words.
 *   A height: search time, originator, bit, depth (two's complement), election time (not negated), leader, station. Heights are compared
 *   number by number in this order, the first that differs decides; the election time counts with a minus sign, so that of two elections
 *   the later is the smaller.
 * channels: n n cells of ELECTION_CELL_LEN words, 1 to 1, 1 to 2, .. n to n: how many messages wait, then eight places of a message,
 *   oldest first. A message: a height of the sender's and its stamp. Unused places, and every word of a cell u to u, are zero.
 *   Channel u to v is up when one of u's sets has v; a channel that is down holds nothing.
 * A set has station k at the bit worth 2^(k-1). A station is a collector when the leader of its own height is itself. Two stations
 * are linked when they are up both ways; the link leads from the larger own height to the smaller. A group is all that links join.
 *
 * THE IMAGE of a plot is bytes, each number with its most significant bit first: the same on every machine.
 *
 * DRAWINGS AND SKETCHES are texts in the DOT language of Graphviz; every line ends with the byte 10, the last too.
 * A drawing is written: `digraph plot {`, a line `  k;` for each station, ascending, a line `  a -> b;` for each link, as it leads, by a and
 *   then by b, `}`. What waits on channels, and channels that are up one way, do not show.
 * A sketch is read: `graph plot {`, a line `  k;` for each station from 1 to n, any number of lines `  a -- b;`, `}`, and nothing else: each
 *   blank as here, no comment, no other name. Numbers are 0 to 99 without a leading zero. It stands for the fresh plot, and then, line by
 *   line, up at a and up at b.
 *
 * HISTORIES. Plots of up to 3 stations have lists of all their histories of 0 to 5 events: each row of that many events which, one after the
 * other, are all carried out from the fresh plot of n, once each. As a text a history is one bench input: the line `N n`, then a line `U u v`,
 * `D u v` or `M u v` for each event (M: at v, from u), every line with the byte 10; the next history follows at once. In order: ups
 * stand before downs and these before receipts, those of one kind by the first number and then by the second; histories by their first event that differs.
 *
 * WHOSE TABLES. They hold a whole plot, as a bench or a gateway keeps it. A logger knows itself and its radio, and that is enough: an
 * event at u depends on row u, the cells from u and, for a receipt, the message received; of all else only that the check passes.
 * Logger u keeps tables of its own (examples/devices.c; what of this is proved, own-view, is in docs/FIRMWARE.md):
 *   at first   election_fresh, then in every other row v the forming set is {u} and the clock the last time: cell v to u may now hold a
 *              packet, with any stamp
 *   link       election_up or election_down for its own u, as its radio finds or loses v; a packet under way is lost with the link
 *   sending    the first message of a cell u to v is the packet to send to v; when v has it, it leaves the cell: the others move up,
 *              the last place becomes zero, the count falls by one
 *   hearing    a packet from v becomes the one message of cell v to u, count 1; then election_receive(n, v, u, ..). 0: the cell is
 *              empty again. Refused: zero its words; the packet was not taken, and 2 with the pair v u says that it is no message of v's,
 *              18 that it has a time after its stamp
 * Nothing else is written. election_quiet, election_groups and election_group_of say something of a whole plot's tables only.
 *
 * THREADS. No static data, no allocation, no lock. Calls on different memory may run at once; calls that share memory may if none
 * writes it (const marks what is only read).
 *
 * SIZE (x86-64, docs/FIRMWARE.md): 33 KB of code; ELECTION_STACK_MAX bytes of stack at most, for a list of histories
 * ELECTION_HISTORIES_STACK; tables, image and texts as lent. Of the C library it needs memmove and memset. The archive is for x86-64 only:
 * docs/FIRMWARE.md says what to do on another processor.
 *
 * WHAT PASSES THE CHECK (else 2). The sets of u share no station and hold neither u nor a bit above n. A height has an originator up to n
 * and a bit up to 1; its search time and its originator are 0 only together, and then the bit is 0 too; a depth of -32,768 to 32,767;
 * a leader of 1 to n; and the station that it is of: k for what a row holds of k, the sender in a message. At most eight wait, none on a
 * channel that is down. What is said above to be zero is zero.
 * And (else 18) no time is later than what bounds it: the search time and the election time of every height in row u, its own and its
 * views, are at most the clock of u; so is every stamp on a channel from u; both times of a message are at most its stamp. Tables that
 * only these calls have written since election_fresh always pass.
 *
 * THE ORDER OF CHECKS. The first number that applies is answered.
 *   compare                        none: it takes any two heights
 *   fresh                          1
 *   check, quiet, groups           1, 2, 18
 *   group_of                       1, 2, 18, 3
 *   up, down, receive              1, 2, 18, 3; 4 for up, 5 for down, 6 for receive; 7, 8, 9
 *   save, draw                     1, 2, 18, 14
 *   image_stations                 10, 11
 *   restore, read_node             10, 11, 1, then the walk over the records: a count above 8 is 2 with its pair and an early end is
 *                                  12, whichever comes first; then bytes or bits left over, 12; then contents, 2, 18;
 *                                  and for read_node at last 3, 13
 *   sketch_stations                none: it takes any text
 *   read_sketch                    16 by the whole text, 1 by its n, 17
 *   histories                      1, 19, 14
 * The pair of 2 is the first at fault, u ascending, then v. The pair u u covers both sets, the own height and the unused cell u to u;
 * the pair u v covers the view of v in row u and the channel u to v. 18 comes only where no pair is at fault, with the first pair of which
 * a time makes no sense: u u for the own height, u v for the view and the channel. By itself a clock may be any word.
 */
#ifndef ELECTION_H
#define ELECTION_H

#include <stddef.h>
#include <stdint.h>

#ifdef __cplusplus
extern "C" {
#endif

/* The version of this interface. MAJOR moves when something declared here changes its meaning or goes, MINOR when something is added (a
 * call, a number, a letter: take a number that you do not know as a refusal), PATCH with words only. A number added may refuse what was
 * carried out before: since 1.3.0 it is 18, and a logger with tables of its own sets the clocks of the other rows (WHOSE TABLES). Since
 * 2.0.0 a message ignored (I) moves the clock past its stamp, and its stamp can give 7. 2.1.0 adds the lists of histories, with 19, and
 * nothing else moves. The archive has no number of its own: take both from one bin/install. */
#define ELECTION_VERSION_MAJOR 2
#define ELECTION_VERSION_MINOR 1
#define ELECTION_VERSION_PATCH 0
#define ELECTION_VERSION (ELECTION_VERSION_MAJOR * 1000000 + ELECTION_VERSION_MINOR * 1000 + ELECTION_VERSION_PATCH)

/* ---- sizes */

#define ELECTION_MAX_STATIONS 16
#define ELECTION_CAPACITY 8     /* messages on a channel */
#define ELECTION_STACK_MAX 1400 /* bytes of stack that any other call takes at any n, on x86-64; painted and measured (tests/c/stack.c) */
#define ELECTION_HISTORIES_STACK 5000 /* the same for election_histories and election_histories_len, which ELECTION_STACK_MAX leaves out */

/* What to lend for n stations, as constant expressions: static uint32_t nodes[ELECTION_NODES_LEN(6)]. For any n they equal the calls
 * below, 0 for n outside 1 to 16. */
#define ELECTION_NODES_LEN(n) ELECTION_IF_SIZE_(n, (size_t)(n) * ELECTION_STATION_LEN(n))
#define ELECTION_CHANNELS_LEN(n) ELECTION_IF_SIZE_(n, (size_t)(n) * (size_t)(n) * ELECTION_CELL_LEN)
#define ELECTION_ROW_LEN(n) ELECTION_IF_SIZE_(n, (size_t)(n) * ELECTION_HEIGHT_LEN)
#define ELECTION_IMAGE_MAX(n) \
    ELECTION_IF_SIZE_(n, (ELECTION_HEADER_BITS_ + (size_t)(n) * ELECTION_STATION_BITS_(n) + (size_t)(n) * ((size_t)(n) - 1) * ELECTION_CHANNEL_BITS_) / 8)
#define ELECTION_DRAWING_MAX(n) \
    ELECTION_IF_SIZE_(n, 17 + (size_t)(n) * (4 * (size_t)(n) + ((size_t)(n) < 10 ? (size_t)(n) : 2 * (size_t)(n) - 9)))
#define ELECTION_HISTORIES_MOST ((size_t)654636) /* bytes of the longest list: 19,254 histories of 34, n = 3 and length 5 */
#define ELECTION_IF_SIZE_(n, len) ((size_t)(n) >= 1 && (size_t)(n) <= ELECTION_MAX_STATIONS ? (len) : (size_t)0)

/* Bits in an image, not part of the interface: how many stand before field k of a height or a message, that is, at 7 a height and at 8 a message; of the
 * header; of a clock, a set and a count; of the record of one of n stations, and of a full channel. */
#define ELECTION_FIELD_PLACE_(k)                                                               \
    ((size_t)((k) > 0 ? 32 : 0) + ((k) > 1 ? 5 : 0) + ((k) > 2 ? 1 : 0) + ((k) > 3 ? 16 : 0)   \
     + ((k) > 4 ? 32 : 0) + ((k) > 5 ? 5 : 0) + ((k) > 6 ? 5 : 0) + ((k) > 7 ? 32 : 0))
#define ELECTION_HEADER_BITS_ 32
#define ELECTION_CLOCK_BITS_ 32
#define ELECTION_SET_BITS_ 16
#define ELECTION_COUNT_BITS_ 4
#define ELECTION_STATION_BITS_(n) (ELECTION_CLOCK_BITS_ + 2 * ELECTION_SET_BITS_ + ELECTION_FIELD_PLACE_(7) * (size_t)(n))
#define ELECTION_CHANNEL_BITS_ (ELECTION_COUNT_BITS_ + ELECTION_CAPACITY * ELECTION_FIELD_PLACE_(8))

/* Words of a height, a message, a cell, and a row of nodes. */
#define ELECTION_HEIGHT_LEN ((size_t)7)
#define ELECTION_MESSAGE_LEN (ELECTION_HEIGHT_LEN + 1)
#define ELECTION_CELL_LEN (1 + ELECTION_CAPACITY * ELECTION_MESSAGE_LEN)
#define ELECTION_STATION_LEN(n) (3 + (size_t)(n) * ELECTION_HEIGHT_LEN)

/* Where a word stands: in a row of nodes, then in a height or a message. */
enum {
    ELECTION_AT_CLOCK = 0,
    ELECTION_AT_LINKED = 1,
    ELECTION_AT_FORMING = 2,
    ELECTION_AT_HEIGHTS = 3
};
enum {
    ELECTION_AT_SEARCH_TIME = 0,
    ELECTION_AT_ORIGINATOR = 1,
    ELECTION_AT_BIT = 2,
    ELECTION_AT_DEPTH = 3,
    ELECTION_AT_ELECTION_TIME = 4,
    ELECTION_AT_LEADER = 5,
    ELECTION_AT_STATION = 6,
    ELECTION_AT_STAMP = 7
};

/* ---- returned numbers */

enum {
    ELECTION_DONE = 0,           /* carried out */
    ELECTION_SIZES = 1,          /* n outside 1 to 16, or a table, or a row, not of the length for n */
    ELECTION_FAULT = 2,          /* tables or image break a rule, first at the pair (fault_at, fault_with) */
    ELECTION_STATION = 3,        /* no station of 1 to n, or an event that names one station twice */
    ELECTION_ALREADY_UP = 4,     /* up on a channel that is up */
    ELECTION_ALREADY_DOWN = 5,   /* down on a channel that is down */
    ELECTION_NO_MESSAGE = 6,     /* receipt from a channel with no message */
    ELECTION_CLOCK_END = 7,      /* the clock would pass 4,294,967,295: it is there, or the stamp of the message is, used or ignored; the message stays */
    ELECTION_DEPTH_END = 8,      /* by rule A or P the depth would leave -32,768 to 32,767; the message stays */
    ELECTION_CHANNEL_FULL = 9,   /* a channel to be sent on already holds 8 messages; the message received stays */
    ELECTION_IMAGE_SHORT = 10,   /* image under 4 bytes */
    ELECTION_IMAGE_HEADER = 11,  /* version, header length, station count or spare bits */
    ELECTION_IMAGE_END = 12,     /* image cut off, or longer than its plot, or a pad bit set */
    ELECTION_PLACE = 13,         /* the station's record does not start at the place that was saved */
    ELECTION_ROOM = 14,          /* output room too small */
                                 /* 15 is the bench's alone */
    ELECTION_SKETCH_FORM = 16,   /* the text is no sketch, or one of more than 16 stations */
    ELECTION_SKETCH_LINK = 17,   /* a sketch links to 0, above n, a station to itself, or two stations twice, in either order */
    ELECTION_UNTIMELY = 18,      /* tables or image hold a time later than its clock or stamp, first at the pair (fault_at, fault_with) */
    ELECTION_TOO_LARGE = 19      /* histories of more than 3 stations, or of more than 5 events */
};

/* A line for a returned number, and one for any other. */
static inline const char *election_strerror(uint32_t number) {
    switch (number) {
    case ELECTION_DONE: return "carried out";
    case ELECTION_SIZES: return "n is not 1 to 16, or a length is not that for n";
    case ELECTION_FAULT: return "the tables or the image break a rule at the pair that is named";
    case ELECTION_STATION: return "no such station, or one named twice";
    case ELECTION_ALREADY_UP: return "the channel is up already";
    case ELECTION_ALREADY_DOWN: return "the channel is down already";
    case ELECTION_NO_MESSAGE: return "no message waits on the channel";
    case ELECTION_CLOCK_END: return "the clock, or the stamp received, is at its end";
    case ELECTION_DEPTH_END: return "the depth is at its end";
    case ELECTION_CHANNEL_FULL: return "a channel to be sent on is full";
    case ELECTION_IMAGE_SHORT: return "the image is under 4 bytes";
    case ELECTION_IMAGE_HEADER: return "the image's header is wrong";
    case ELECTION_IMAGE_END: return "the image ends too early or too late, or its last bits are not 0";
    case ELECTION_PLACE: return "the station's record does not start at that place";
    case ELECTION_ROOM: return "the room for the image, the drawing or the list is too small";
    case ELECTION_SKETCH_FORM: return "the text is no sketch of 1 to 16 stations";
    case ELECTION_SKETCH_LINK: return "the sketch has a link to no station, to itself, or named twice";
    case ELECTION_UNTIMELY: return "the tables or the image hold a time later than its clock or stamp at the pair that is named";
    case ELECTION_TOO_LARGE: return "histories are listed up to 3 stations and 5 events";
    default: return "no number of this interface";
    }
}

/* The places of a height's seven numbers: the one that decides which of two heights is the larger. */
enum {
    ELECTION_BY_NONE = 0,          /* the heights are equal */
    ELECTION_BY_SEARCH_TIME = 1,
    ELECTION_BY_ORIGINATOR = 2,
    ELECTION_BY_BIT = 3,
    ELECTION_BY_DEPTH = 4,
    ELECTION_BY_ELECTION_TIME = 5, /* the later election is the smaller */
    ELECTION_BY_LEADER = 6,
    ELECTION_BY_STATION = 7
};

/* The name of the number at such a place, and a text for any other. */
static inline const char *election_by_name(uint32_t place) {
    switch (place) {
    case ELECTION_BY_NONE: return "equal";
    case ELECTION_BY_SEARCH_TIME: return "search time";
    case ELECTION_BY_ORIGINATOR: return "originator";
    case ELECTION_BY_BIT: return "bit";
    case ELECTION_BY_DEPTH: return "depth";
    case ELECTION_BY_ELECTION_TIME: return "election time";
    case ELECTION_BY_LEADER: return "leader";
    case ELECTION_BY_STATION: return "station";
    default: return "no place of a height";
    }
}

/* A height to be compared; election_height_at and election_height_of read one. */
typedef struct {
    uint32_t search_time, originator, bit;
    int32_t depth;
    uint32_t election_time;                            /* not negated */
    uint32_t leader, station;
} election_height;

/* ---- answers: fields that a comment does not give are 0 when refused */

/* The rule that an accepted event followed. */
enum {
    ELECTION_RULE_UP = 'U',         /* the channel is up; v is forming, and u's height went to it */
    ELECTION_RULE_ELECT = 'E',      /* u elected itself: alone, or its search came back from everywhere */
    ELECTION_RULE_START = 'S',      /* u lost its way to the collector and started a search */
    ELECTION_RULE_NO_CHANGE = 'Q',  /* nothing to do */
    ELECTION_RULE_IGNORED = 'I',    /* the sender is in neither set of u: only the clock moved, past the stamp as at any receipt */
    ELECTION_RULE_REFLECT = 'F',    /* u sent the search back */
    ELECTION_RULE_PROPAGATE = 'P',  /* u took the largest level of its views, and passed the search on */
    ELECTION_RULE_ADOPT = 'A',      /* u adopted the sender's collector, which is the more recent */
    ELECTION_RULE_REPLY = 'R',      /* the sender's collector is the older one: u sent it its own height */
    ELECTION_RULE_NONE = '-'        /* refused */
};

/* What an event answers. */
typedef struct {
    uint32_t number;
    uint32_t fault_at, fault_with;                     /* for 2 and 18 the pair, else 0 */
    uint32_t rule;                                     /* a letter; '-' when refused */
    uint32_t sent_to;                                  /* the set sent to */
    uint32_t sent;                                     /* how many messages were sent: the ones of that set */
    uint32_t adopted_from;                             /* for rule A the station adopted from, else 0 */
    uint32_t level_tau, level_originator, level_bit;   /* for rule P the level taken (search time first), else 0 */
} election_answer;

/* What a check, a fresh plot, a resume or a sketch read answers. */
typedef struct {
    uint32_t number;
    uint32_t fault_at, fault_with;                     /* for 2 and 18 the pair, else 0 */
} election_checked;

/* What a save or a drawing answers. */
typedef struct {
    uint32_t number;
    uint32_t fault_at, fault_with;                     /* for 2 and 18 the pair, else 0 */
    uint64_t size;                                     /* the image's, or the drawing's, length in bytes */
} election_saved;

/* What a list of histories answers. */
typedef struct {
    uint32_t number;
    uint32_t fault_at, fault_with;                     /* always 0 */
    uint32_t histories;                                /* how many there are */
    uint64_t size;                                     /* the list's length in bytes */
} election_listed;

/* What a look at one station answers. */
typedef struct {
    uint32_t number;
    uint32_t fault_at, fault_with;                     /* for 2 and 18 the pair, else 0 */
    uint32_t clock, linked, forming;                   /* its clock, N and F */
} election_station;

/* What a question with one number as its answer answers. */
typedef struct {
    uint32_t number;
    uint32_t fault_at, fault_with;                     /* for 2 and 18 the pair, else 0 */
    uint32_t value;
} election_value;

/* What a question for a station's group answers. */
typedef struct {
    uint32_t number;
    uint32_t fault_at, fault_with;                     /* for 2 and 18 the pair, else 0 */
    uint32_t members, collectors;                      /* the set of the group's stations, and of its collectors */
    uint32_t collector;                                /* the collector if there is exactly one, else 0 */
} election_group;

/* What a comparison of heights a and b answers. */
typedef struct {
    int32_t order;                                     /* -1: a is less, 0: they are equal, 1: a is greater */
    uint32_t place;                                    /* of the first number that differs: ELECTION_BY_..; 0 exactly when equal */
} election_comparison;

/* ---- calls: how much to lend */

/* Words and bytes for n stations; 0 for n outside 1 to 16. */
size_t election_nodes_len(uint32_t n);     /* n (3 + 7 n) words */
size_t election_channels_len(uint32_t n);  /* 65 n n words */
size_t election_row_len(uint32_t n);       /* 7 n words */
size_t election_image_len(uint32_t n);     /* bytes that hold every image of n stations; 34,044 for 16 */
size_t election_drawing_len(uint32_t n);   /* bytes that hold every drawing of n stations; 1,409 for 16 */

/* Bytes of the list of histories, to the byte; 0 for n outside 1 to 3 or a length above 5, and where there is none (n = 1, length 1 to 5).
 * It makes the list to see how long it is. ELECTION_HISTORIES_MOST holds each. */
size_t election_histories_len(uint32_t n, uint32_t length);

/* ---- calls: tables */

/* The fresh plot of n stations, whatever the tables held: clocks 0, no channel up, each station its own collector. */
election_checked election_fresh(uint32_t n, uint32_t *nodes, size_t nodes_len, uint32_t *channels, size_t channels_len);

/* Refusals 1, 2 and 18 for any tables. */
election_checked election_check(uint32_t n, const uint32_t *nodes, size_t nodes_len, const uint32_t *channels, size_t channels_len);

/* ---- calls: events. After 0 the tables pass the check; only row u, the cells from u and, for a receipt, the cell received from differ. */

/* Channel u to v goes up, or down, at u. A down loses what waited on it. */
election_answer election_up(uint32_t n, uint32_t u, uint32_t v, uint32_t *nodes, size_t nodes_len, uint32_t *channels, size_t channels_len);
election_answer election_down(uint32_t n, uint32_t u, uint32_t v, uint32_t *nodes, size_t nodes_len, uint32_t *channels, size_t channels_len);

/* The first message of channel `from` to `to` is received, at `to`. */
election_answer election_receive(uint32_t n, uint32_t from, uint32_t to, uint32_t *nodes, size_t nodes_len, uint32_t *channels, size_t channels_len);

/* ---- calls: questions about a whole plot */

/* 1 if the plot is quiet, else 0: no message waits, and each two stations are up both ways or neither. After any list of calls from a
 * fresh plot a quiet plot has exactly one collector in each group, if nobody else wrote the tables and each resume of the list got the bytes
 * of an earlier save of it, or bytes that it refused. */
election_value election_quiet(uint32_t n, const uint32_t *nodes, size_t nodes_len, const uint32_t *channels, size_t channels_len);

/* The set of the lowest stations of all groups, one bit for each group; a station without links is a group alone. */
election_value election_groups(uint32_t n, const uint32_t *nodes, size_t nodes_len, const uint32_t *channels, size_t channels_len);

/* The group of station u. */
election_group election_group_of(uint32_t n, uint32_t u, const uint32_t *nodes, size_t nodes_len, const uint32_t *channels, size_t channels_len);

/* ---- calls: images */

/* The image of the plot goes to the front of out; the bytes behind it stay. */
election_saved election_save(uint32_t n, const uint32_t *nodes, size_t nodes_len, const uint32_t *channels, size_t channels_len, uint8_t *out, size_t out_len);

/* How many stations the header of an image tells; the rest of it is not looked at. */
election_value election_image_stations(const uint8_t *image, size_t image_len);

/* Resumes the plot of an image in tables of the header's n. */
election_checked election_restore(const uint8_t *image, size_t image_len, uint32_t *nodes, size_t nodes_len, uint32_t *channels, size_t channels_len);

/* Looks at station k, whose record is said to start at the bit `place` (election_place); its n heights go into row. */
election_station election_read_node(const uint8_t *image, size_t image_len, uint32_t k, uint64_t place, uint32_t *row, size_t row_len);

/* ---- calls: drawings and sketches */

/* The drawing of the plot goes to the front of out; the bytes behind it stay. No byte 0 ends it: size is its length. */
election_saved election_draw(uint32_t n, const uint32_t *nodes, size_t nodes_len, const uint32_t *channels, size_t channels_len, uint8_t *out, size_t out_len);

/* How many stations a sketch has, whatever its links are; 0 for a text that is no sketch. */
uint32_t election_sketch_stations(const uint8_t *text, size_t text_len);

/* The plot of a sketch goes into tables of the sketch's n, whatever they held. */
election_checked election_read_sketch(const uint8_t *text, size_t text_len, uint32_t *nodes, size_t nodes_len, uint32_t *channels, size_t channels_len);

/* ---- calls: histories */

/* All histories of `length` events of n stations go to the front of out as a text; the bytes behind it stay, and no byte 0 ends it. */
election_listed election_histories(uint32_t n, uint32_t length, uint8_t *out, size_t out_len);

/* ---- calls: heights */

/* Which of two heights is the larger, and which number decides it. Any numbers may be given; b with a is the other sign, the same place. */
election_comparison election_compare(election_height a, election_height b);

/* ---- reading the tables: 0 for n outside 1 to 16, a station outside 1 to n, and a channel from u to itself; the tables must be those for n */

/* Whether station k is in a set. */
static inline int election_contains(uint32_t set, uint32_t k) {
    return k >= 1 && k <= ELECTION_MAX_STATIONS && (set >> (k - 1) & 1) == 1;
}

/* Whether u is a station of a plot of n. */
static inline int election_is_station(uint32_t n, uint32_t u) {
    return n <= ELECTION_MAX_STATIONS && u >= 1 && u <= n;
}

static inline uint32_t election_clock(uint32_t n, uint32_t u, const uint32_t *nodes) {
    return election_is_station(n, u) ? nodes[(u - 1) * ELECTION_STATION_LEN(n) + ELECTION_AT_CLOCK] : 0;
}

/* The leader of u's own height. */
static inline uint32_t election_leader(uint32_t n, uint32_t u, const uint32_t *nodes) {
    return election_is_station(n, u)
               ? nodes[(u - 1) * ELECTION_STATION_LEN(n) + ELECTION_AT_HEIGHTS + (u - 1) * ELECTION_HEIGHT_LEN + ELECTION_AT_LEADER]
               : 0;
}

static inline int election_is_collector(uint32_t n, uint32_t u, const uint32_t *nodes) {
    return election_is_station(n, u) && election_leader(n, u, nodes) == u;
}

/* Whether channel u to v is up. */
static inline int election_is_up(uint32_t n, uint32_t u, uint32_t v, const uint32_t *nodes) {
    return election_is_station(n, u) && election_is_station(n, v) && u != v &&
           election_contains(nodes[(u - 1) * ELECTION_STATION_LEN(n) + ELECTION_AT_LINKED] |
                                 nodes[(u - 1) * ELECTION_STATION_LEN(n) + ELECTION_AT_FORMING],
                             v);
}

/* Whether both channels between u and v are up. */
static inline int election_is_linked(uint32_t n, uint32_t u, uint32_t v, const uint32_t *nodes) {
    return election_is_up(n, u, v, nodes) && election_is_up(n, v, u, nodes);
}

/* How many messages wait on channel u to v. */
static inline uint32_t election_waiting(uint32_t n, uint32_t u, uint32_t v, const uint32_t *channels) {
    if (!election_is_station(n, u) || !election_is_station(n, v) || u == v)
        return 0;
    return channels[((size_t)(u - 1) * n + (v - 1)) * ELECTION_CELL_LEN];
}

/* The height whose seven words stand at `words`: in a row, a message or the row of a look. */
static inline election_height election_height_of(const uint32_t *words) {
    election_height h = {words[ELECTION_AT_SEARCH_TIME],   words[ELECTION_AT_ORIGINATOR], words[ELECTION_AT_BIT],
                         (int32_t)words[ELECTION_AT_DEPTH], words[ELECTION_AT_ELECTION_TIME],
                         words[ELECTION_AT_LEADER],         words[ELECTION_AT_STATION]};
    return h;
}

/* What station u holds of k: its own height for k = u, else its view of k, or seven zeros if k is not in its linked set. */
static inline election_height election_height_at(uint32_t n, uint32_t u, uint32_t k, const uint32_t *nodes) {
    election_height none = {0, 0, 0, 0, 0, 0, 0};
    if (!election_is_station(n, u) || !election_is_station(n, k))
        return none;
    return election_height_of(nodes + (u - 1) * ELECTION_STATION_LEN(n) + ELECTION_AT_HEIGHTS + (k - 1) * ELECTION_HEIGHT_LEN);
}

/* The bit at which station k's record starts in an image of n stations. */
static inline uint64_t election_place(uint32_t n, uint32_t k) {
    return election_is_station(n, k) ? ELECTION_HEADER_BITS_ + (uint64_t)(k - 1) * ELECTION_STATION_BITS_(n) : 0;
}

#ifdef __cplusplus
}
#endif

#endif
