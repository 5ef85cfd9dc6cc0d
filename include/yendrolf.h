/* The box for C: learning Configuration Identification Messages, judging maps by either edition of the dictionary, packing and reading payloads, what a number means, the answer
 * to a Parameter Locate, the listing of a log, the report of a hire, an image of what the box learned, long messages put together from their packets, the filter of a bridge of four
 * ports, and the bridge itself with what waits and what is counted at it. examples/hitch.c has the calls at work, examples/long.c those on long messages, examples/hire.c those on a
 * hire, examples/bridge.c those on a bridge; examples/socketcan.c is a loop on Linux' CAN sockets.
 *
 * Link with the archive that `rt lib` writes in crates/firmware (out/libfirmware.a there). Every function of it is proved against its contract
 * (crates/firmware); this header is not: tests/header and tests/compare/run compare it with the archive.
 *
 * What it needs:
 * - x86-64 Linux, no other machine, and a compiler of C99 or C++11 or later.
 * - memcpy and memset, which the archive's code calls and which C's library has. It calls nobody else, allocates nothing and keeps nothing between calls.
 * - Stack below the caller's own, in bytes: load, image_body and image_row 14,400; feed_hire 5,200; finish 3,400; locate and save 3,000; judge, pack, read, find, image_size, line_at and
 *   replayed 2,800; parameter_at, meaning and scaled 1,700; replay 700; every other call 400. It is a bound from the archive's code (tests/stack), with 120 for the header's own function
 *   where the compiler does not inline it; what memcpy and memset take is not in it.
 *
 * How to call it:
 * - Lend one yendrolf_box, which may stand anywhere that is aligned to 8. C aligns a variable by itself; a place inside other bytes is yours to align.
 *   The calls on long messages are lent a yendrolf_sessions in the same way, and no box; those on a hire a yendrolf_hire, beside the box that learns from its log; those on a bridge a
 *   yendrolf_bridge, beside the box whose filters they go by.
 * - Start with yendrolf_start, sessions with yendrolf_start_sessions, a hire with yendrolf_start_hire, and a bridge with yendrolf_start_bridge. From then on change them by these calls
 *   alone. (Any other words in them are answered too, and nothing traps.)
 * - No pointer may be null, and what a call may write must not overlap with anything else that is lent to the same call. A `data` has 8 bytes, and the `payload` of
 *   yendrolf_packet has 1,785, however long the message is.
 * - One call at a time on one box, on one yendrolf_sessions, on one yendrolf_hire and on one yendrolf_bridge. Two boxes do not know of each other.
 * - A number is what its type can hold: C makes 1 of a port 257 before the library sees it. (-Wconversion tells.)
 * - The words of a box are the machine's own, so a box is no file format. An image is (docs/IMAGE.md): keep that across power cycles, and load it into the next box.
 * - An identifier is the 29 bits and nothing else. SocketCAN has flags above them: give `can_id & CAN_EFF_MASK`, and give only frames with CAN_EFF_FLAG and
 *   without CAN_RTR_FLAG and CAN_ERR_FLAG. A frame of 11 bits would be taken for another's of 29, and a remote frame has no data.
 * - Look at an answer's number before its detail. Of yendrolf_decide too: pass is number 0 with detail 1; a refusal's detail is 0, and no decision.
 * - Look at a number's state before the number: only a valid one is a reading. 255 of one byte is 'not available', and no pressure.
 * - A key has the edition of 2010 until another is set. Where its sender follows that of 2004, set it (yendrolf_set_edition) as soon as the key is held, and again after a forget.
 * - Forget a key after answer 10: it stays in conflict, and no later message mends it; its sender has to say the whole map again. And forget every key
 *   that has an address, as source or as destination, when the address changed hands: what is held was another's map (SAE J1939-74, 5.2.3).
 *
 * Every answer's number is one of enum yendrolf_answer. A refusal, which is any number but 0 and 10, changes nothing, but for 29, which drops its own session, and 1 and 26 to a frame that
 * a bridge is offered, which are counted and change nothing else; 10 changes its key's mark alone.
 */
#ifndef YENDROLF_H
#define YENDROLF_H

#if !defined(__x86_64__) || defined(__ILP32__) || !defined(__linux__)
#error "yendrolf.h: the archive is for x86-64 Linux only"
#endif
#if !defined(__cplusplus) && (!defined(__STDC_VERSION__) || __STDC_VERSION__ < 199901L)
#error "yendrolf.h needs C99 or later: compile with -std=c99"
#endif

#include <stddef.h>
#include <stdint.h>

#ifdef __cplusplus
extern "C" {
#endif

/* The version of the calls: one more when a caller must be built again or changed. yendrolf_version() is that of the archive. */
#define YENDROLF_VERSION 5u

/* The numbers of answers (document 01, "Answer numbers"; from 21 on document 02, where a number that is not here is not given yet). */
enum yendrolf_answer {
    YENDROLF_DONE = 0,
    YENDROLF_BAD_IDENTIFIER = 1,        /* identifier above 2^29 - 1 */
    YENDROLF_OTHER_PGN = 2,             /* PGN is not the Configuration Identification PGN; of locate, not 44800; of request, not 60416; of packet, not 60160 */
    YENDROLF_BAD_LENGTH = 3,            /* length is not 8 */
    YENDROLF_BAD_SOURCE = 4,            /* source 254 or 255 */
    YENDROLF_NOT_CONFIGURABLE = 5,      /* configured PGN not one of the fifteen */
    YENDROLF_BAD_FLAG = 6,              /* a flag is neither yes nor no: never arrives, a flag is one bit */
    YENDROLF_BAD_POSITION = 7,          /* n, position or first-only out of range */
    YENDROLF_BAD_START = 8,             /* no such starting bit */
    YENDROLF_TABLE_FULL = 9,            /* key new and 16 keys held */
    YENDROLF_CONTRADICTED = 10,         /* key in conflict, or put there by this message */
    YENDROLF_NOT_HELD = 11,             /* key not held */
    YENDROLF_NOT_USABLE = 12,           /* map not usable: judgement and position say why */
    YENDROLF_BAD_BUFFER = 13,           /* a lent buffer has the wrong length */
    YENDROLF_TOO_WIDE = 14,             /* a packed number needs more than its width: the detail is the lowest such position */
    YENDROLF_BAD_PORTS = 15,            /* not two different ports, each 1 to 4 */
    YENDROLF_LIST_FULL = 16,            /* the pair's list holds 32 PGNs and this one is new */
    YENDROLF_BAD_PGN = 17,              /* PGN above 262143, or PF below 240 with a low byte other than 0 */
    YENDROLF_NOT_LISTED = 18,           /* SPN not in the map, nothing at the position, or PGN not in the list */
    YENDROLF_BAD_MODE = 19,             /* filter mode not 0 or 1 */
    YENDROLF_LIST_NOT_EMPTY = 20,       /* never given: no command changes a mode and keeps the list */
    YENDROLF_DAMAGED = 21,              /* these bytes are no image */
    YENDROLF_NOT_IN_IMAGE = 22,         /* key or row not in the image */
    YENDROLF_NOT_EMPTY = 23,            /* the table to load into holds a key */
    YENDROLF_BAD_COMMAND = 24,          /* of locate, a command byte that is not 0; of request, a control byte that is not 16 */
    YENDROLF_TOO_MANY = 25,             /* more payloads of the key were read than the limit */
    YENDROLF_TURNED_AWAY = 26,          /* the filter passes the frame, and 64 wait at the port */
    YENDROLF_BAD_EDITION = 27,          /* an edition that is not 2004 or 2010 */
    YENDROLF_NO_SESSION = 28,           /* a packet of a pair, source and destination, that has no session */
    YENDROLF_OUT_OF_SEQUENCE = 29,      /* not the packet that comes next: its session is dropped */
    YENDROLF_SESSIONS_FULL = 30,        /* all eight sessions are taken by other pairs */
    YENDROLF_BAD_SIZE = 31              /* size outside 9 to 1785, or not matching its packet count */
};

/* The judgement of a map: the first of these from 1 on, in this order, that applies, with the lowest position that it applies to (0 where it is about no position); 0 where none does. A
   width is odd where it is above 8 and no multiple of 8 (of the dictionary's widths, 19 is); the end of a parameter is start + width, of an odd width the end of its last byte. */
enum yendrolf_judgement {
    YENDROLF_USABLE = 0,
    YENDROLF_IN_CONFLICT = 1,           /* two messages of the key contradict each other */
    YENDROLF_MISSING = 2,               /* a position from 1 to n is missing */
    YENDROLF_UNKNOWN = 3,               /* its SPN is not in the dictionary of the key's edition */
    YENDROLF_REPEATED = 4,              /* its SPN stands at a lower position too */
    YENDROLF_NOT_ABOVE = 5,             /* its start is not above the start one position before */
    YENDROLF_UNEVEN = 9,                /* its width is odd, and its start is not a multiple of 8: tested after 5 and before 6 */
    YENDROLF_OVERLAPS = 6,              /* it shares a bit with an earlier one */
    YENDROLF_BEYOND = 7,                /* its end is above 14280 */
    YENDROLF_TRANSPORT = 8              /* transport flag yes with a payload of 8 bytes, or no with a longer one */
};

/* The editions of SAE J1939-74, each with a dictionary of its own: older combines follow the one of September 2004, which has twelve SPNs (3146 to 3155, 3329 and 3330), newer ones that of
   November 2010, which has these with the same widths, and 128 more. */
enum yendrolf_edition {
    YENDROLF_2004 = 2004,
    YENDROLF_2010 = 2010                /* of a key whose edition was not set */
};

/* The kind of a number, by the width of its SPN: which row of SAE J1939-71's table says its state. */
enum yendrolf_kind {
    YENDROLF_NO_KIND = 0,               /* the dictionary does not have the SPN */
    YENDROLF_TWO_BITS = 1,              /* 0 and 1 are valid, 2 is error, 3 not available */
    YENDROLF_ONE_BYTE = 2,              /* 0 to 250 are valid, 251 to 253 reserved, 254 is error, 255 not available */
    YENDROLF_TWO_BYTES = 3,             /* the same of its top byte */
    YENDROLF_FOUR_BYTES = 4,            /* the same of its top byte */
    YENDROLF_OTHER_WIDTH = 5            /* any other width has no row: always valid */
};

/* The state of a number. One that needs more than its width is as the largest of its width. */
enum yendrolf_state {
    YENDROLF_VALID = 0,
    YENDROLF_RESERVED = 1,
    YENDROLF_ERROR = 2,
    YENDROLF_NOT_AVAILABLE = 3
};

/* The mode of a pair of ports, and the detail of a decision. */
enum yendrolf_mode {
    YENDROLF_PASS_ALL_BUT = 0,          /* passes all but the listed */
    YENDROLF_BLOCK_ALL_BUT = 1          /* blocks all but the listed */
};
enum yendrolf_decision {
    YENDROLF_BLOCK = 0,
    YENDROLF_PASS = 1
};

/* Sizes. */
enum yendrolf_size {
    YENDROLF_TABLE_WORDS = 1072,        /* words of the learned table */
    YENDROLF_FILTER_WORDS = 408,        /* words of the filters */
    YENDROLF_BOX_BYTES = 10208,         /* bytes of a box */
    YENDROLF_MOST_KEYS = 16,            /* keys that a table holds */
    YENDROLF_MOST_NUMBERS = 64,         /* the largest n of a map */
    YENDROLF_MOST_BYTES = 1785,         /* the largest payload */
    YENDROLF_MOST_LISTED = 32,          /* PGNs that a pair's list holds */
    YENDROLF_PORTS = 4,                 /* ports, 1 to 4 */
    YENDROLF_FRAME_BYTES = 8,           /* data bytes of a frame */
    YENDROLF_RECORD_BYTES = 13,         /* bytes of a log's record */
    YENDROLF_LISTING_BYTES = 512,       /* enough for any listing */
    YENDROLF_LOCATE_BYTES = 208,        /* enough for any answer to a Parameter Locate: a record for each of 16 keys */
    YENDROLF_IMAGE_BYTES = 2610,        /* enough for any image: 16 keys with 31 parameters each, which is as much as messages can teach */
    YENDROLF_MOST_SESSIONS = 8,         /* long messages under way at one time */
    YENDROLF_HEAD_WORDS = 32,           /* head words of the sessions */
    YENDROLF_HELD_BYTES = 14280,        /* payload bytes of the sessions, YENDROLF_MOST_BYTES for each */
    YENDROLF_SESSIONS_BYTES = 14536,    /* bytes of a yendrolf_sessions */
    YENDROLF_PACKET_BYTES = 7,          /* payload bytes of a packet */
    YENDROLF_PAIRS = 12,                /* directed pairs of ports */
    YENDROLF_PAIR_COUNTERS = 6,         /* counters of a pair */
    YENDROLF_COUNTER_WORDS = 72,        /* words of the counters, YENDROLF_PAIR_COUNTERS for each pair */
    YENDROLF_MOST_WAITING = 64,         /* frames that wait at a port */
    YENDROLF_QUEUE_WORDS = 260,         /* words of the queues: for each port how many wait, and YENDROLF_MOST_WAITING frames */
    YENDROLF_BRIDGE_BYTES = 2656,       /* bytes of a yendrolf_bridge */
    YENDROLF_EVENT_BYTES = 14,          /* bytes of a trace's record */
    YENDROLF_REPLAY_BYTES = 2304,       /* enough for the lines of any replay */
    YENDROLF_CELL_WORDS = 8192,         /* words of what is counted of a hire */
    YENDROLF_HIRE_BYTES = 65536,        /* bytes of a yendrolf_hire */
    YENDROLF_STACK_BYTES = 14400        /* stack of any call at most */
};

/* All that a box holds. */
typedef struct {
    uint64_t table[YENDROLF_TABLE_WORDS];
    uint32_t filters[YENDROLF_FILTER_WORDS];
} yendrolf_box;

/* What is kept of long messages while their packets come. */
typedef struct {
    uint64_t heads[YENDROLF_HEAD_WORDS];
    uint8_t bytes[YENDROLF_HELD_BYTES];
} yendrolf_sessions;

/* What a bridge keeps beside the filters: the counters of each pair, and the frames that wait at each port. */
typedef struct {
    uint64_t counters[YENDROLF_COUNTER_WORDS];
    uint64_t queues[YENDROLF_QUEUE_WORDS];
} yendrolf_bridge;

/* What is counted of a hire. */
typedef struct {
    uint64_t cells[YENDROLF_CELL_WORDS];
} yendrolf_hire;

/* Document 02's limit: so many payloads of a key are counted, and above it answer 25 is given. */
#define YENDROLF_HIRE_LIMIT 2147483648u

/* An answer: `number` is of enum yendrolf_answer, `judgement` of enum yendrolf_judgement. The detail is 0 unless the call says otherwise; judgement and
   position are 0 but for 12 and for 0 of judging. */
typedef struct {
    uint32_t number;
    uint32_t detail;
    uint32_t judgement;
    uint32_t position;
} yendrolf_told;

/* What finding gives: position, start and width are 0 on a refusal. */
typedef struct {
    yendrolf_told told;
    uint32_t position;
    uint32_t start;
    uint32_t width;
} yendrolf_found;

/* The parameter at a position: SPN, start and width are 0 on a refusal, and the width is 0 where the dictionary of the key's edition does not have the SPN. */
typedef struct {
    yendrolf_told told;
    uint32_t spn;
    uint32_t start;
    uint32_t width;
} yendrolf_parameter;

/* What the numbers of an SPN mean: `kind` is of enum yendrolf_kind, resolution and offset are in thousandths of the SPN's unit (docs/UNITS.md has the units). All
   are 0 where the dictionary of 2010 does not have the SPN. */
typedef struct {
    int64_t offset;
    uint32_t resolution;
    uint32_t width;
    uint32_t kind;
} yendrolf_meant;

/* What a number is worth: `value` in thousandths of the SPN's unit, `kind` of enum yendrolf_kind, `state` of enum yendrolf_state. The value is 0 where the state is not
   YENDROLF_VALID, or the dictionary does not have the SPN. */
typedef struct {
    int64_t value;
    uint32_t kind;
    uint32_t state;
} yendrolf_value;

/* A row of an image's contents: where the body lies, `offset` from the image's first byte on and `length` bytes, the key, and its edition (of enum yendrolf_edition). All are 0 on a
   refusal. */
typedef struct {
    yendrolf_told told;
    size_t offset;
    size_t length;
    uint32_t source;
    uint32_t destination;
    uint32_t k;
    uint32_t edition;
} yendrolf_row;

/* What a packet is answered: `pgn` is that of the payload which it finished, and 0 where it finished none. */
typedef struct {
    yendrolf_told told;
    uint32_t pgn;
} yendrolf_arrived;

/* What a bridge answers to a frame at a port: `to` has what the three other ports answer, rising, where `told` is 0. Where it is 15 there was no such port, and `to` has zeros, which are
   no answers. */
typedef struct {
    yendrolf_told told;
    yendrolf_told to[3];
} yendrolf_offered;

/* What is counted of a pair of ports: frames that arrived, and of these how many were filtered, queued, turned away and refused; of the queued ones how many were sent, and how many are
   waiting now. So `arrived` is filtered, sent, waiting, turned and refused added together, and `queued` is sent and waiting. All are 0 on a refusal. */
typedef struct {
    yendrolf_told told;
    uint64_t arrived;
    uint64_t filtered;
    uint64_t queued;
    uint64_t sent;
    uint64_t turned;
    uint64_t refused;
    uint64_t waiting;
} yendrolf_pair;

/* What was read at a position of a key: how many payloads, how many of the numbers were valid, reserved, error and not available, which add up to `read`, and the least, greatest and exact
   sum of the valid ones, 0 where there is none. All are raw numbers (yendrolf_scaled says what one is worth). All are 0 on a refusal. */
typedef struct {
    yendrolf_told told;
    uint64_t read;
    uint64_t valid;
    uint64_t reserved;
    uint64_t error;
    uint64_t missing;
    uint64_t least;
    uint64_t greatest;
    uint64_t sum;
    uint32_t spn;
} yendrolf_line;

/* A held key, or that there is none: `held` is 1 or 0, and the others are 0 with it. */
typedef struct {
    uint8_t held;
    uint8_t source;
    uint8_t destination;
    uint8_t k;
} yendrolf_key;

/* What is kept of a log from chunk to chunk: its counts, and the first `left` bytes of a record that is not whole yet. */
typedef struct {
    uint64_t records;
    uint64_t refused;
    uint64_t other;
    uint64_t left;
    uint8_t carry[YENDROLF_RECORD_BYTES];
} yendrolf_log;

/* What is kept of a trace from chunk to chunk: how many events there were, and of these frames, slots, commands and others, which are none of these; how many commands were refused; and the first `left`
   bytes of a record that is not whole yet. */
typedef struct {
    uint64_t events;
    uint64_t frames;
    uint64_t slots;
    uint64_t commands;
    uint64_t refused;
    uint64_t other;
    uint64_t left;
    uint8_t carry[YENDROLF_EVENT_BYTES];
} yendrolf_trace;

/* The archive was built for these sizes of the structs, and places and sizes of their fields. Where one is another, this does not compile: an array has the
   length -1. */
#define YENDROLF_CHECK(name, test) typedef char yendrolf_check_##name[(test) ? 1 : -1]
#define YENDROLF_CHECK_STRUCT(type, size) YENDROLF_CHECK(type, sizeof(yendrolf_##type) == (size))
#define YENDROLF_CHECK_FIELD(type, field, place, size) \
    YENDROLF_CHECK(type##_##field, offsetof(yendrolf_##type, field) == (place) && sizeof(((yendrolf_##type *)0)->field) == (size))
YENDROLF_CHECK(size_t, sizeof(size_t) == 8);
YENDROLF_CHECK(pointer, sizeof(void *) == 8);
YENDROLF_CHECK_STRUCT(box, YENDROLF_BOX_BYTES);
YENDROLF_CHECK_FIELD(box, table, 0, 8576);
YENDROLF_CHECK_FIELD(box, filters, 8576, 1632);
YENDROLF_CHECK_STRUCT(sessions, YENDROLF_SESSIONS_BYTES);
YENDROLF_CHECK_FIELD(sessions, heads, 0, 256);
YENDROLF_CHECK_FIELD(sessions, bytes, 256, 14280);
YENDROLF_CHECK_STRUCT(bridge, YENDROLF_BRIDGE_BYTES);
YENDROLF_CHECK_FIELD(bridge, counters, 0, 576);
YENDROLF_CHECK_FIELD(bridge, queues, 576, 2080);
YENDROLF_CHECK_STRUCT(hire, YENDROLF_HIRE_BYTES);
YENDROLF_CHECK_FIELD(hire, cells, 0, 65536);
YENDROLF_CHECK_STRUCT(told, 16);
YENDROLF_CHECK_FIELD(told, number, 0, 4);
YENDROLF_CHECK_FIELD(told, detail, 4, 4);
YENDROLF_CHECK_FIELD(told, judgement, 8, 4);
YENDROLF_CHECK_FIELD(told, position, 12, 4);
YENDROLF_CHECK_STRUCT(found, 28);
YENDROLF_CHECK_FIELD(found, told, 0, 16);
YENDROLF_CHECK_FIELD(found, position, 16, 4);
YENDROLF_CHECK_FIELD(found, start, 20, 4);
YENDROLF_CHECK_FIELD(found, width, 24, 4);
YENDROLF_CHECK_STRUCT(parameter, 28);
YENDROLF_CHECK_FIELD(parameter, told, 0, 16);
YENDROLF_CHECK_FIELD(parameter, spn, 16, 4);
YENDROLF_CHECK_FIELD(parameter, start, 20, 4);
YENDROLF_CHECK_FIELD(parameter, width, 24, 4);
YENDROLF_CHECK_STRUCT(meant, 24);
YENDROLF_CHECK_FIELD(meant, offset, 0, 8);
YENDROLF_CHECK_FIELD(meant, resolution, 8, 4);
YENDROLF_CHECK_FIELD(meant, width, 12, 4);
YENDROLF_CHECK_FIELD(meant, kind, 16, 4);
YENDROLF_CHECK_STRUCT(value, 16);
YENDROLF_CHECK_FIELD(value, value, 0, 8);
YENDROLF_CHECK_FIELD(value, kind, 8, 4);
YENDROLF_CHECK_FIELD(value, state, 12, 4);
YENDROLF_CHECK_STRUCT(row, 48);
YENDROLF_CHECK_FIELD(row, told, 0, 16);
YENDROLF_CHECK_FIELD(row, offset, 16, 8);
YENDROLF_CHECK_FIELD(row, length, 24, 8);
YENDROLF_CHECK_FIELD(row, source, 32, 4);
YENDROLF_CHECK_FIELD(row, destination, 36, 4);
YENDROLF_CHECK_FIELD(row, k, 40, 4);
YENDROLF_CHECK_FIELD(row, edition, 44, 4);
YENDROLF_CHECK_STRUCT(arrived, 20);
YENDROLF_CHECK_FIELD(arrived, told, 0, 16);
YENDROLF_CHECK_FIELD(arrived, pgn, 16, 4);
YENDROLF_CHECK_STRUCT(offered, 64);
YENDROLF_CHECK_FIELD(offered, told, 0, 16);
YENDROLF_CHECK_FIELD(offered, to, 16, 48);
YENDROLF_CHECK_STRUCT(pair, 72);
YENDROLF_CHECK_FIELD(pair, told, 0, 16);
YENDROLF_CHECK_FIELD(pair, arrived, 16, 8);
YENDROLF_CHECK_FIELD(pair, filtered, 24, 8);
YENDROLF_CHECK_FIELD(pair, queued, 32, 8);
YENDROLF_CHECK_FIELD(pair, sent, 40, 8);
YENDROLF_CHECK_FIELD(pair, turned, 48, 8);
YENDROLF_CHECK_FIELD(pair, refused, 56, 8);
YENDROLF_CHECK_FIELD(pair, waiting, 64, 8);
YENDROLF_CHECK_STRUCT(line, 88);
YENDROLF_CHECK_FIELD(line, told, 0, 16);
YENDROLF_CHECK_FIELD(line, read, 16, 8);
YENDROLF_CHECK_FIELD(line, valid, 24, 8);
YENDROLF_CHECK_FIELD(line, reserved, 32, 8);
YENDROLF_CHECK_FIELD(line, error, 40, 8);
YENDROLF_CHECK_FIELD(line, missing, 48, 8);
YENDROLF_CHECK_FIELD(line, least, 56, 8);
YENDROLF_CHECK_FIELD(line, greatest, 64, 8);
YENDROLF_CHECK_FIELD(line, sum, 72, 8);
YENDROLF_CHECK_FIELD(line, spn, 80, 4);
YENDROLF_CHECK_STRUCT(key, 4);
YENDROLF_CHECK_FIELD(key, held, 0, 1);
YENDROLF_CHECK_FIELD(key, source, 1, 1);
YENDROLF_CHECK_FIELD(key, destination, 2, 1);
YENDROLF_CHECK_FIELD(key, k, 3, 1);
YENDROLF_CHECK_STRUCT(log, 48);
YENDROLF_CHECK_FIELD(log, records, 0, 8);
YENDROLF_CHECK_FIELD(log, refused, 8, 8);
YENDROLF_CHECK_FIELD(log, other, 16, 8);
YENDROLF_CHECK_FIELD(log, left, 24, 8);
YENDROLF_CHECK_FIELD(log, carry, 32, 13);
YENDROLF_CHECK_STRUCT(trace, 72);
YENDROLF_CHECK_FIELD(trace, events, 0, 8);
YENDROLF_CHECK_FIELD(trace, frames, 8, 8);
YENDROLF_CHECK_FIELD(trace, slots, 16, 8);
YENDROLF_CHECK_FIELD(trace, commands, 24, 8);
YENDROLF_CHECK_FIELD(trace, refused, 32, 8);
YENDROLF_CHECK_FIELD(trace, other, 40, 8);
YENDROLF_CHECK_FIELD(trace, left, 48, 8);
YENDROLF_CHECK_FIELD(trace, carry, 56, 14);
#undef YENDROLF_CHECK_FIELD
#undef YENDROLF_CHECK_STRUCT
#undef YENDROLF_CHECK

/* ---- NOT TO BE CALLED: the functions of the archive, each on one part of a box, of the sessions, of a hire or of a bridge. The calls below have their names without `table_`, `filters_`,
   `sessions_`, `hire_` and `bridge_` (but for those whose short name another has, or would not say enough: yendrolf_start_sessions, yendrolf_start_hire, yendrolf_feed_hire, yendrolf_line_at,
   yendrolf_start_bridge, yendrolf_pair_counts, yendrolf_replay and yendrolf_replayed), take the box, the sessions, the hire or the bridge, and pass the right part of it; called directly,
   nothing stops a wrong or a short one. */
void yendrolf_table_empty(uint64_t *table);
yendrolf_told yendrolf_table_learn(uint64_t *table, uint32_t identifier, uint8_t length, const uint8_t *data);
yendrolf_told yendrolf_table_forget(uint64_t *table, uint8_t source, uint8_t destination, uint8_t k);
yendrolf_told yendrolf_table_set_edition(uint64_t *table, uint8_t source, uint8_t destination, uint8_t k, uint32_t edition);
uint32_t yendrolf_table_edition(const uint64_t *table, uint8_t source, uint8_t destination, uint8_t k);
uint32_t yendrolf_table_count(const uint64_t *table, uint8_t source, uint8_t destination, uint8_t k);
yendrolf_told yendrolf_table_judge(const uint64_t *table, uint8_t source, uint8_t destination, uint8_t k);
yendrolf_told yendrolf_table_pack(const uint64_t *table, uint8_t source, uint8_t destination, uint8_t k, const uint32_t *numbers, size_t count,
    uint8_t *payload, size_t size);
yendrolf_told yendrolf_table_read(const uint64_t *table, uint8_t source, uint8_t destination, uint8_t k, const uint8_t *payload, size_t size,
    uint32_t *numbers, size_t room, uint8_t *states, size_t places);
yendrolf_found yendrolf_table_find(const uint64_t *table, uint8_t source, uint8_t destination, uint8_t k, uint32_t spn);
yendrolf_parameter yendrolf_table_parameter_at(const uint64_t *table, uint8_t source, uint8_t destination, uint8_t k, uint8_t position);
yendrolf_told yendrolf_table_locate(const uint64_t *table, uint8_t own, uint32_t identifier, uint8_t length, const uint8_t *data,
    uint8_t *log, size_t size, size_t start);
yendrolf_key yendrolf_table_first_key(const uint64_t *table);
yendrolf_key yendrolf_table_next_key(const uint64_t *table, uint8_t source, uint8_t destination, uint8_t k);
yendrolf_log yendrolf_table_feed(uint64_t *table, yendrolf_log log, const uint8_t *chunk, size_t size);
yendrolf_told yendrolf_table_finish(const uint64_t *table, yendrolf_log log, uint8_t *text, size_t room);
size_t yendrolf_table_image_size(const uint64_t *table);
yendrolf_told yendrolf_table_save(const uint64_t *table, uint8_t *image, size_t size);
yendrolf_told yendrolf_table_load(uint64_t *table, const uint8_t *image, size_t size);
void yendrolf_filters_fresh(uint32_t *filters);
yendrolf_told yendrolf_filters_add(uint32_t *filters, uint8_t from, uint8_t to, uint32_t pgn);
yendrolf_told yendrolf_filters_delete(uint32_t *filters, uint8_t from, uint8_t to, uint32_t pgn);
yendrolf_told yendrolf_filters_renew(uint32_t *filters, uint8_t from, uint8_t to, uint8_t mode);
yendrolf_told yendrolf_filters_decide(const uint32_t *filters, uint8_t from, uint8_t to, uint32_t identifier);
void yendrolf_sessions_fresh(uint64_t *heads);
yendrolf_told yendrolf_sessions_request(uint64_t *heads, uint32_t identifier, uint8_t length, const uint8_t *data);
yendrolf_arrived yendrolf_sessions_packet(uint64_t *heads, uint8_t *bytes, uint8_t *payload, uint32_t identifier, uint8_t length, const uint8_t *data);
void yendrolf_bridge_fresh(uint64_t *counters, uint64_t *queues);
yendrolf_offered yendrolf_bridge_offer(uint64_t *counters, uint64_t *queues, const uint32_t *filters, uint8_t from, uint32_t identifier);
yendrolf_told yendrolf_bridge_slot(uint64_t *counters, uint64_t *queues, uint8_t port, uint8_t *from, uint32_t *identifier);
yendrolf_pair yendrolf_bridge_pair(const uint64_t *counters, const uint64_t *queues, uint8_t from, uint8_t to);
yendrolf_trace yendrolf_bridge_feed(uint64_t *counters, uint64_t *queues, uint32_t *filters, yendrolf_trace trace, const uint8_t *chunk, size_t size);
yendrolf_told yendrolf_bridge_finish(const uint64_t *counters, const uint64_t *queues, yendrolf_trace trace, uint8_t *text, size_t room);
void yendrolf_hire_fresh(uint64_t *cells);
yendrolf_log yendrolf_hire_feed(uint64_t *table, uint64_t *cells, uint32_t limit, yendrolf_log log, const uint8_t *chunk, size_t size);
yendrolf_line yendrolf_hire_line(const uint64_t *table, const uint64_t *cells, uint32_t limit, uint8_t source, uint8_t destination, uint8_t k, uint8_t position);

/* ---- TO BE CALLED, from here on. */

/* The version of the archive: YENDROLF_VERSION, where it is the one that this header was written for. */
uint32_t yendrolf_version(void);

/* ---- the learned table. A key is (source, destination, k), k being the number of the configurable message, 1 to 15. */

/* Holds no key. */
static inline void yendrolf_empty(yendrolf_box *box)
{
    yendrolf_table_empty(box->table);
}

/* Learns from one frame, whatever it is: 0 to 10. A frame of another PGN is answered 2 from its identifier alone. */
static inline yendrolf_told yendrolf_learn(yendrolf_box *box, uint32_t identifier, uint8_t length, const uint8_t *data)
{
    return yendrolf_table_learn(box->table, identifier, length, data);
}

/* Forgets one key, and frees its room: 0 or 11. */
static inline yendrolf_told yendrolf_forget(yendrolf_box *box, uint8_t source, uint8_t destination, uint8_t k)
{
    return yendrolf_table_forget(box->table, source, destination, k);
}

/* Sets the edition of one held key, YENDROLF_2004 or YENDROLF_2010, and changes nothing else of it: 11; 27 where `edition` is neither; or 0, also of a key in conflict. From then on every
   width of the key's map is that edition's: in judge, pack, read, find, parameter_at, locate, the listing and the image. No message changes it. A forget does: the key anew has 2010. Which
   edition a sender follows no message says; it is the caller's to know. */
static inline yendrolf_told yendrolf_set_edition(yendrolf_box *box, uint8_t source, uint8_t destination, uint8_t k, uint32_t edition)
{
    return yendrolf_table_set_edition(box->table, source, destination, k, edition);
}

/* The edition of a key: 2004 or 2010; 2010 where the key is not held. */
static inline uint32_t yendrolf_edition(const yendrolf_box *box, uint8_t source, uint8_t destination, uint8_t k)
{
    return yendrolf_table_edition(box->table, source, destination, k);
}

/* The number of parameters of a key's map: how many numbers yendrolf_pack takes and yendrolf_read gives. 0 where the key is in conflict or not held. */
static inline uint32_t yendrolf_count(const yendrolf_box *box, uint8_t source, uint8_t destination, uint8_t k)
{
    return yendrolf_table_count(box->table, source, destination, k);
}

/* Judges a key's map, by the key's edition: 11, or 0 with judgement and position. */
static inline yendrolf_told yendrolf_judge(const yendrolf_box *box, uint8_t source, uint8_t destination, uint8_t k)
{
    return yendrolf_table_judge(box->table, source, destination, k);
}

/* How a payload lies, for pack and read. Payload bit p is the bit worth 2^(p mod 8) in byte p / 8, and bit i of a number stands at payload bit start + i. Of an odd width the bits of the
   last, partial byte stand at its top, as the top three bits of an SPN do in SAE J1939-74, 5.3.2: of 19 bits, bits 16, 17 and 18 stand at start + 21, 22 and 23. The low bits that it
   skips there are free, and another parameter may have them. A payload has L bytes: the larger of 8 and the largest end of a parameter, divided by 8 and rounded up. */

/* Packs `count` numbers, in position order, into the first L bytes of `payload`, which has `size`, with 1 in every bit that no parameter has; bytes past L keep what they held. 11; 12; 13 where
   `count` is not n or `size` is below L; 14; or 0 with L as its detail. */
static inline yendrolf_told yendrolf_pack(const yendrolf_box *box, uint8_t source, uint8_t destination, uint8_t k, const uint32_t *numbers,
    size_t count, uint8_t *payload, size_t size)
{
    return yendrolf_table_pack(box->table, source, destination, k, numbers, count, payload, size);
}

/* Reads a payload of `size` bytes into the first n of `room` numbers, and the state of each (enum yendrolf_state) into the first n of `places` states; further ones
   keep what they held. 11; 12; 13 where `size` is not L, or `room` or `places` is below n; or 0 with n as its detail. The numbers are as they were packed,
   whatever their state. */
static inline yendrolf_told yendrolf_read(const yendrolf_box *box, uint8_t source, uint8_t destination, uint8_t k, const uint8_t *payload, size_t size,
    uint32_t *numbers, size_t room, uint8_t *states, size_t places)
{
    return yendrolf_table_read(box->table, source, destination, k, payload, size, numbers, room, states, places);
}

/* Finds an SPN in a key's map: 11, 12, 18, or 0 with position, start and width. (Who lays or reads bits by these has to know how an odd width lies: above.) */
static inline yendrolf_found yendrolf_find(const yendrolf_box *box, uint8_t source, uint8_t destination, uint8_t k, uint32_t spn)
{
    return yendrolf_table_find(box->table, source, destination, k, spn);
}

/* The parameter at a position of a key's map, usable or not: 11; 18 where nothing stands there, as at each position of a key in conflict; or 0 with SPN, start
   and width. After a judgement it says what stands at the position that the judgement names: of 3 the SPN that the dictionary of the key's edition does not have. */
static inline yendrolf_parameter yendrolf_parameter_at(const yendrolf_box *box, uint8_t source, uint8_t destination, uint8_t k, uint8_t position)
{
    return yendrolf_table_parameter_at(box->table, source, destination, k, position);
}

/* Answers a Parameter Locate (PGN 44800, SAE J1939-74, 5.3.2), `own` being our own address. For each key of our own whose map is usable and has the SPN that is asked
   for, rising, it lays a Configuration Identification Message as a record of 13 bytes (as yendrolf_feed takes them) into `log`, which has `size` bytes, from byte `start` on;
   the bytes before and behind these keep what they held. 1; 2 where the PGN is not 44800; 3; 24 where the command (data byte 8) is not 0; 13 where `start` and 13 bytes a
   message are above `size`, whatever `start` is; or 0 with the number of messages as its detail. That is 0 where no such key has the SPN, and where the request is
   for another single address than `own`: a request is for `own` or for all (255). Each record is sent as it stands, its destination being the key's and not the
   asker's, within 200 ms of the request. A record learned by a box that has the key's map changes nothing. 208 bytes behind `start` are always enough. */
static inline yendrolf_told yendrolf_locate(const yendrolf_box *box, uint8_t own, uint32_t identifier, uint8_t length, const uint8_t *data,
    uint8_t *log, size_t size, size_t start)
{
    return yendrolf_table_locate(box->table, own, identifier, length, data, log, size, start);
}

/* The lowest held key, by source, then destination, then k, and the lowest above a given one (which need not be held). Keys in conflict are held. */
static inline yendrolf_key yendrolf_first_key(const yendrolf_box *box)
{
    return yendrolf_table_first_key(box->table);
}

static inline yendrolf_key yendrolf_next_key(const yendrolf_box *box, uint8_t source, uint8_t destination, uint8_t k)
{
    return yendrolf_table_next_key(box->table, source, destination, k);
}

/* ---- what a number means, by its SPN. No box is needed: it is the dictionary of 2010 that knows, which has every SPN of 2004 with the same width. */

/* Width, resolution, offset and kind of an SPN. */
yendrolf_meant yendrolf_meaning(uint32_t spn);

/* What a number of an SPN is worth: number * resolution + offset, exactly and with its sign, and its state. yendrolf_parameter_at says which SPN stands at a position. */
yendrolf_value yendrolf_scaled(uint32_t spn, uint32_t number);

/* ---- the listing of a log: start, then feed each chunk of records (13 bytes each: identifier least significant byte first, length, 8 data bytes), then
   finish. The box learns from the log as from frames. */

/* Nothing read yet. */
yendrolf_log yendrolf_start_log(void);

/* Takes the next `size` bytes of a log, cut anywhere. */
static inline yendrolf_log yendrolf_feed(yendrolf_box *box, yendrolf_log log, const uint8_t *chunk, size_t size)
{
    return yendrolf_table_feed(box->table, log, chunk, size);
}

/* Writes the listing of what was fed, as lines of text, over the start of `text`, which has `room` bytes: 13 where they are too few, or 0 with the
   listing's length as its detail. 512 bytes are always enough. */
static inline yendrolf_told yendrolf_finish(const yendrolf_box *box, yendrolf_log log, uint8_t *text, size_t room)
{
    return yendrolf_table_finish(box->table, log, text, room);
}

/* ---- the report of a hire: what was read of the payloads in a log. Start a box, a hire and a log together, feed each chunk by yendrolf_feed_hire in place of yendrolf_feed, and then ask for
   the lines: of each key from yendrolf_first_key on the positions 1, 2 .. as long as the answer is 0. Forget no key before that: what is counted belongs to the key's room in the box, and a later
   key that takes the room would take it over. A key's edition counts here as everywhere: payloads are read by the one that it has when they come, lines go by the one that it has when they are
   asked for, and what is counted goes on where another is set between two chunks. */

/* Nothing counted yet. */
static inline void yendrolf_start_hire(yendrolf_hire *hire)
{
    yendrolf_hire_fresh(hire->cells);
}

/* Takes the next `size` bytes of a log, cut anywhere. Box and log are afterwards what yendrolf_feed makes of them. A record that is a payload of a key (one of the fifteen configured
   PGNs, length 8) is read under the key's map as the box holds it when the record comes; where yendrolf_read would answer 0, it is counted, up to `limit` payloads of the key: give
   YENDROLF_HIRE_LIMIT, or any lower number. A map above 8 bytes is read from no single frame. Maps are opened once a chunk, so that large chunks are fast. */
static inline yendrolf_log yendrolf_feed_hire(yendrolf_box *box, yendrolf_hire *hire, uint32_t limit, yendrolf_log log, const uint8_t *chunk, size_t size)
{
    return yendrolf_hire_feed(box->table, hire->cells, limit, log, chunk, size);
}

/* What was read at a position of a key, `limit` being that of the feeds: 11; 12 with judgement and position where its map is not usable; 25 where more than `limit` payloads of the key were
   read; 18 where its map has not that position; or 0 with the rest. A key that came into conflict keeps its lines: they go by the map that it had before. */
static inline yendrolf_line yendrolf_line_at(const yendrolf_box *box, const yendrolf_hire *hire, uint32_t limit, uint8_t source, uint8_t destination, uint8_t k, uint8_t position)
{
    return yendrolf_hire_line(box->table, hire->cells, limit, source, destination, k, position);
}

/* ---- the image of a table (docs/IMAGE.md): what the box learned as bytes that any box can load. It has the keys whose maps are usable by their own editions, with these, and nothing of the
   others and of the filters. One table has one image, whatever the order that it learned in; any other bytes are damaged, and each call that is lent an image checks all of it. An image that
   was saved by version 4 or earlier (form 1) is read too, its keys as 2010; none is written. One that was saved by version 3, and has an odd width that does not start at a multiple of
   8, is damaged: its map is not usable any more. */

/* How many bytes the image has: 2,610 at the most in a box that is changed by these calls alone. */
static inline size_t yendrolf_image_size(const yendrolf_box *box)
{
    return yendrolf_table_image_size(box->table);
}

/* Writes the image over the start of `image`, which has `size` bytes; bytes past it keep what they held. 13, and nothing is written, where `size` is below
   yendrolf_image_size; or 0. */
static inline yendrolf_told yendrolf_save(const yendrolf_box *box, uint8_t *image, size_t size)
{
    return yendrolf_table_save(box->table, image, size);
}

/* Loads an image of exactly `size` bytes into a box that holds no key, as if it heard the messages that the image stands for and was told their editions; the filters stay. 21; 23 where a key
   is held, be it in conflict; or 0. */
static inline yendrolf_told yendrolf_load(yendrolf_box *box, const uint8_t *image, size_t size)
{
    return yendrolf_table_load(box->table, image, size);
}

/* Where the body of a key lies in an image: 21, 22, or 0 with offset and length, key and edition. A body is the data bytes 4 to 8 of the messages of positions 1 to n, so 5 bytes a
   parameter. No box is needed. */
yendrolf_row yendrolf_image_body(const uint8_t *image, size_t size, uint8_t source, uint8_t destination, uint8_t k);

/* A row of the image's contents by its number, from 0 on, keys rising: 21; 22 where there is no such row, which ends a walk; or 0 with the key, offset, length and edition. */
yendrolf_row yendrolf_image_row(const uint8_t *image, size_t size, size_t row);

/* ---- the filters. A pair is directed, from one port to another, ports being 1 to 4. */

/* Every pair has mode 0 and an empty list. */
static inline void yendrolf_fresh(yendrolf_box *box)
{
    yendrolf_filters_fresh(box->filters);
}

/* Adds a PGN to a pair's list: 15, 17, 16 or 0 (also where it is listed already). */
static inline yendrolf_told yendrolf_add(yendrolf_box *box, uint8_t from, uint8_t to, uint32_t pgn)
{
    return yendrolf_filters_add(box->filters, from, to, pgn);
}

/* Deletes a PGN from a pair's list: 15, 17, 18 or 0. */
static inline yendrolf_told yendrolf_delete(yendrolf_box *box, uint8_t from, uint8_t to, uint32_t pgn)
{
    return yendrolf_filters_delete(box->filters, from, to, pgn);
}

/* Sets a pair's mode, 0 (passes all but the listed) or 1 (blocks all but the listed), and empties its list, also where it has that mode: 15, 19 or 0. */
static inline yendrolf_told yendrolf_renew(yendrolf_box *box, uint8_t from, uint8_t to, uint8_t mode)
{
    return yendrolf_filters_renew(box->filters, from, to, mode);
}

/* Decides on a frame from one port to another: 15, 1, or 0 with detail 1 for pass and 0 for block. The number is looked at first: the detail of 15 and 1 is 0
   too, and no decision. */
static inline yendrolf_told yendrolf_decide(const yendrolf_box *box, uint8_t from, uint8_t to, uint32_t identifier)
{
    return yendrolf_filters_decide(box->filters, from, to, identifier);
}

/* Makes a box of any bytes: no key held, every filter fresh. */
static inline void yendrolf_start(yendrolf_box *box)
{
    yendrolf_empty(box);
    yendrolf_fresh(box);
}

/* ---- long messages (the transport protocol of SAE J1939-21): a payload of 9 to 1,785 bytes that comes as a request to send and packets of 7 bytes. A pair is a source and a
   destination; it has one session at a time, and eight pairs have one at the same time. Both calls may be given every frame of the wires: they answer 2 to what is not theirs. Nothing is sent,
   and no time is kept: what a sender is told is the caller's to say. A session whose sender fell silent keeps its room until its pair goes on or begins again; a caller that keeps time ends it by a
   packet of that pair with number 0 (answer 29), and all of them by yendrolf_start_sessions. */

/* Nobody has a session. The bytes of the sessions may hold anything. */
static inline void yendrolf_start_sessions(yendrolf_sessions *sessions)
{
    yendrolf_sessions_fresh(sessions->heads);
}

/* Takes a frame that may be a request to send (PGN 60416): data byte 1 is 16, bytes 2 and 3 are the size, byte 4 the number of packets, bytes 6 to 8 the PGN of the payload, the least
   significant first. 1; 2; 3; 24 where byte 1 is not 16, as that of a broadcast (32) or an abort (255); 31 where the size is outside 9 to 1,785 or is not carried by so many packets; 30 where
   the pair has no session and eight others have; or 0, and the pair's session begins, in place of the one that it had. A refused request leaves that one. */
static inline yendrolf_told yendrolf_request(yendrolf_sessions *sessions, uint32_t identifier, uint8_t length, const uint8_t *data)
{
    return yendrolf_sessions_request(sessions->heads, identifier, length, data);
}

/* Takes a frame that may be a packet (PGN 60160): data byte 1 is its number, from 1 on, and seven bytes of the payload follow. 1; 2; 3; 28 where the pair has no session; 29 where it is not the
   packet that comes next, as one that comes twice: the session is dropped, and its sender has to begin with a request again; or 0. With the last packet the payload is laid over the start of
   `payload`, the detail is its size and `pgn` its PGN, and the session ends; bytes past the size keep what they held. Every other answer leaves `payload`, and has detail and `pgn`
   0: a payload is there exactly where the detail is not 0. A configured message is then read by its key: source and destination are those of the identifier, and k is (pgn - 45056) / 256 where
   `pgn` is one of 45312, 45568 .. 48896. */
static inline yendrolf_arrived yendrolf_packet(yendrolf_sessions *sessions, uint32_t identifier, uint8_t length, const uint8_t *data, uint8_t *payload)
{
    return yendrolf_sessions_packet(sessions->heads, sessions->bytes, payload, identifier, length, data);
}

/* ---- a bridge of the four ports (SAE J1939-31, 4.4 and 5.1). A frame that comes at a port is offered to the three others; where the filter of the pair passes it, it waits at that port until
   a slot lets it leave: those of a higher priority (a lower number) first, of one priority in the order in which they came. 64 wait at a port, over its three pairs together. Nothing is sent: a slot says which
   frame leaves, by the port that it came at and its identifier, and length and data are the caller's to keep. */

/* No frame waits, and every counter is 0. */
static inline void yendrolf_start_bridge(yendrolf_bridge *bridge)
{
    yendrolf_bridge_fresh(bridge->counters, bridge->queues);
}

/* Offers a frame that came at port `from` to the three other ports: 15, and nothing is counted; or 0, and each of them answers 1 (identifier above 2^29 - 1: refused), 0 with detail 0 (its filter
   blocks the frame), 26 (its filter passes the frame, and 64 wait there: turned away) or 0 with detail 1 (queued). Each of these is counted at its pair, and `arrived` with it. */
static inline yendrolf_offered yendrolf_offer(yendrolf_bridge *bridge, const yendrolf_box *box, uint8_t from, uint32_t identifier)
{
    return yendrolf_bridge_offer(bridge->counters, bridge->queues, box->filters, from, identifier);
}

/* A slot, in which one frame may leave a port: 15; 0 with detail 0 where none waits; or 0 with detail 1, and `from` and `identifier` are those of the frame that leaves. Otherwise both keep what they
   held. */
static inline yendrolf_told yendrolf_slot(yendrolf_bridge *bridge, uint8_t port, uint8_t *from, uint32_t *identifier)
{
    return yendrolf_bridge_slot(bridge->counters, bridge->queues, port, from, identifier);
}

/* What is counted of a pair, and how many of its frames wait: 15 or 0. A counter goes from 2^64 - 1 to 0. */
static inline yendrolf_pair yendrolf_pair_counts(const yendrolf_bridge *bridge, uint8_t from, uint8_t to)
{
    return yendrolf_bridge_pair(bridge->counters, bridge->queues, from, to);
}

/* ---- a recorded day through a bridge: start, then replay each chunk of the trace (records of 14 bytes, docs/TRACE.md: frames at a port, slots, and what the fitter set), then have the lines
   written. A fresh bridge and fresh filters are the caller's to lend. */

/* Nothing read yet. */
yendrolf_trace yendrolf_start_trace(void);

/* Takes the next `size` bytes of a trace, cut anywhere: frames are offered and slots used as by the calls above, and the filters of the box changed as by yendrolf_add, yendrolf_delete and
   yendrolf_renew. */
static inline yendrolf_trace yendrolf_replay(yendrolf_bridge *bridge, yendrolf_box *box, yendrolf_trace trace, const uint8_t *chunk, size_t size)
{
    return yendrolf_bridge_feed(bridge->counters, bridge->queues, box->filters, trace, chunk, size);
}

/* Writes the counters of the twelve pairs and what the trace had, as lines of text, over the start of `text`, which has `room` bytes: 13 where they are too few, and nothing is written; or 0 with their
   length as its detail. 2,304 bytes are always enough. */
static inline yendrolf_told yendrolf_replayed(const yendrolf_bridge *bridge, yendrolf_trace trace, uint8_t *text, size_t room)
{
    return yendrolf_bridge_finish(bridge->counters, bridge->queues, trace, text, room);
}

#ifdef __cplusplus
}
#endif

#endif
