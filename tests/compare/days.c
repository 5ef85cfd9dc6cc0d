/* Days at a bridge (Req 09): frames, slots and settings at random, at the library's bridge and at that of bridge.c, and whole traces that are replayed in chunks. Few PGNs are drawn, so that the filters
   block and pass, and mostly more frames than slots, so that 64 wait at a port. After each call: only what its answer says may have changed. compare.h says who calls this. */
#include <inttypes.h>
#include <stdio.h>
#include <stdlib.h>
#include <string.h>

#include "bridge.h"
#include "compare.h"

#define GUARD 64
#define PGNS 8
#define MOST_EVENTS 900
#define QUEUE (1 + YENDROLF_MOST_WAITING)

/* What is lent, with bytes around it that no call may touch. Of the box the calls on a bridge look at the filters alone. */
struct lent {
    uint8_t front[GUARD];
    yendrolf_bridge bridge;
    uint8_t behind[GUARD];
    yendrolf_box box;
    uint8_t end[GUARD];
};
static struct lent lent, lent_before;
static struct plain_bridge plain_lent;
static struct plain_box plain_set;    /* for its filters */

static uint32_t pgns[PGNS];           /* of this day */

/* What came: calls and answers, for the counts at the end. */
static uint64_t offered, refused, filtered, turned, queued, no_port;
static uint64_t slots, sent, idle, overtaken, settings, counted, days, events, cut_records, strange, queues_full, checked;

/* ---- what a call may change */

static int same_bytes(const void *a, const void *b, size_t size)
{
    return memcmp(a, b, size) == 0;
}

static void nothing_around(void)
{
    if (!same_bytes(lent.front, lent_before.front, GUARD) || !same_bytes(lent.behind, lent_before.behind, GUARD) || !same_bytes(lent.end, lent_before.end, GUARD)
        || !same_bytes(lent.box.table, lent_before.box.table, sizeof lent.box.table))
        differ("a call wrote past what it was lent");
}

static void filters_stay(void)
{
    if (!same_bytes(lent.box.filters, lent_before.box.filters, sizeof lent.box.filters))
        differ("the filters changed");
}

static void queue_stays(unsigned port)
{
    if (!same_bytes(&lent.bridge.queues[QUEUE * (port - 1)], &lent_before.bridge.queues[QUEUE * (port - 1)], QUEUE * sizeof lent.bridge.queues[0]))
        differ("the queue of another port changed");
}

/* Counters that changed are of the pairs from `first` up to `last`, and are `most` at the most. */
static void counters_stay_but(unsigned first, unsigned last, unsigned most)
{
    unsigned changed = 0;
    for (unsigned i = 0; i < YENDROLF_COUNTER_WORDS; i++)
        if (lent.bridge.counters[i] != lent_before.bridge.counters[i]) {
            changed++;
            if (i < YENDROLF_PAIR_COUNTERS * first || i >= YENDROLF_PAIR_COUNTERS * last)
                differ("the counters of another pair changed");
        }
    if (changed > most)
        differ("more counters changed than the answers say");
}

static void bridge_stays(void)
{
    if (!same_bytes(&lent.bridge, &lent_before.bridge, sizeof lent.bridge))
        differ("a call that changes nothing changed the bridge");
    filters_stay();
    nothing_around();
}

/* The number of a pair, 0 to 11, rising by from, then to. */
static unsigned pair_number(unsigned from, unsigned to)
{
    return 3 * (from - 1) + (to < from ? to - 1 : to - 2);
}

static int is_port(unsigned port)
{
    return port >= 1 && port <= YENDROLF_PORTS;
}

/* ---- the calls */

/* What an offer may have changed: nothing for 15; else of each of its three pairs two counters, and the queues of those that took it. */
static void after_offer(yendrolf_offered a, unsigned from)
{
    filters_stay();
    nothing_around();
    if (a.told.number == 15) {
        bridge_stays();
        return;
    }
    counters_stay_but(3 * (from - 1), 3 * from, 6);
    queue_stays(from);
    for (unsigned to = 1, i = 0; to <= YENDROLF_PORTS; to++)
        if (to != from && a.to[i++].detail == 0)
            queue_stays(to);
}

static void count_answer(yendrolf_told a)
{
    refused += a.number == 1;
    turned += a.number == 26;
    filtered += a.number == 0 && a.detail == 0;
    queued += a.number == 0 && a.detail == 1;
}

static void offer(unsigned from, uint32_t identifier)
{
    snprintf(told_call, sizeof told_call, "a frame at port %u: %08" PRIx32, from, identifier);
    memcpy(&lent_before, &lent, sizeof lent);
    yendrolf_offered a = yendrolf_offer(&lent.bridge, &lent.box, (uint8_t)from, identifier);
    struct plain_offered b = plain_offer(&plain_lent, &plain_set, from, identifier);
    same_answer(a.told, b.answer);
    for (unsigned i = 0; i < 3; i++)
        same_answer(a.to[i], b.to[i]);
    after_offer(a, from);
    calls++;
    offered++;
    no_port += a.told.number == 15;
    for (unsigned i = 0; i < 3 && a.told.number == 0; i++)
        count_answer(a.to[i]);
}

/* One slot, on both sides: whether a frame left. Where none did, the two places keep what they held. */
static int slot(unsigned port)
{
    uint8_t from = (uint8_t)any();
    uint32_t identifier = any(), plain_identifier = identifier;
    unsigned plain_from = from;
    snprintf(told_call, sizeof told_call, "a slot of port %u", port);
    memcpy(&lent_before, &lent, sizeof lent);
    yendrolf_told a = yendrolf_slot(&lent.bridge, (uint8_t)port, &from, &identifier);
    same_answer(a, plain_slot(&plain_lent, port, &plain_from, &plain_identifier));
    if (from != plain_from || identifier != plain_identifier)
        differ("the frame that left");
    calls++;
    slots++;
    if (a.number != 0 || a.detail == 0) {
        bridge_stays();
        no_port += a.number == 15;
        idle += a.number == 0;
        return 0;
    }
    filters_stay();
    nothing_around();
    counters_stay_but(pair_number(from, port), pair_number(from, port) + 1, 1);
    for (unsigned other = 1; other <= YENDROLF_PORTS; other++)
        if (other != port)
            queue_stays(other);
    sent++;
    overtaken += lent_before.bridge.queues[QUEUE * (port - 1) + 1] % 4294967296u != identifier;   /* not the first that came */
    return 1;
}

/* What is counted of a pair: "Arrived equals filtered, sent, waiting, turned away and refused added together". */
static void count_pair(unsigned from, unsigned to)
{
    snprintf(told_call, sizeof told_call, "the counters from %u to %u", from, to);
    memcpy(&lent_before, &lent, sizeof lent);
    yendrolf_pair a = yendrolf_pair_counts(&lent.bridge, (uint8_t)from, (uint8_t)to);
    struct plain_counted b = plain_count_pair(&plain_lent, from, to);
    same_answer(a.told, b.answer);
    if (a.arrived != b.counters.arrived || a.filtered != b.counters.filtered || a.queued != b.counters.queued || a.sent != b.counters.sent || a.turned != b.counters.turned
        || a.refused != b.counters.refused || a.waiting != b.waiting)
        differ("the counters of a pair");
    if (a.arrived != a.filtered + a.sent + a.waiting + a.turned + a.refused || a.queued != a.sent + a.waiting)
        differ("the counters of a pair do not add up");
    bridge_stays();
    calls++;
    counted++;
}

/* What a fitter sets. The filters' own calls are compared in compare.c; here their answers, and that they leave the bridge. */
static void set(unsigned kind, unsigned from, unsigned to, uint32_t number)
{
    snprintf(told_call, sizeof told_call, "setting %u from %u to %u: %" PRIu32, kind, from, to, number);
    memcpy(&lent_before, &lent, sizeof lent);
    if (kind == 65)
        same_answer(yendrolf_add(&lent.box, (uint8_t)from, (uint8_t)to, number), plain_add(&plain_set, from, to, number));
    else if (kind == 66)
        same_answer(yendrolf_delete(&lent.box, (uint8_t)from, (uint8_t)to, number), plain_delete(&plain_set, from, to, number));
    else
        same_answer(yendrolf_renew(&lent.box, (uint8_t)from, (uint8_t)to, (uint8_t)number), plain_renew(&plain_set, from, to, number));
    if (!same_bytes(&lent.bridge, &lent_before.bridge, sizeof lent.bridge))
        differ("a setting changed the bridge");
    calls++;
    settings++;
}

/* ---- what is drawn */

static unsigned any_port(void)
{
    static const unsigned none[] = { 0, 5, 15, 255 };
    return one_in(40) ? (one_in(2) ? PICK(none) : below(256)) : 1 + below(YENDROLF_PORTS);
}

static uint32_t any_pgn(void)
{
    return one_in(30) ? any() & 0xffffff : pgns[below(PGNS)];
}

/* An identifier of the day's PGNs with any priority, and now and then any number, or one at the end of the 29 bits. */
static uint32_t any_identifier(void)
{
    if (one_in(25))
        return one_in(2) ? any() : 0x1ffffffe + below(4);
    uint32_t pgn = any_pgn() & 0x3ffff, ps = (pgn >> 8 & 0xff) < 240 ? below(256) : pgn & 0xff;
    return (one_in(3) ? 6 : below(8)) << 26 | (pgn & 0x3ff00) << 8 | ps << 8 | below(256);
}

static void any_setting(unsigned *kind, unsigned *from, unsigned *to, uint32_t *number)
{
    static const unsigned modes[] = { 0, 0, 0, 1, 1, 2, 255 };
    *from = any_port();
    do
        *to = any_port();
    while (*to == *from && !one_in(20));
    *kind = one_in(9) ? 67 : one_in(3) ? 66 : 65;
    *number = *kind == 67 ? PICK(modes) : any_pgn();
}

static void set_pgns(void)
{
    for (unsigned i = 0; i < PGNS; i++) {
        pgns[i] = any() & 0x3ffff;
        if ((pgns[i] >> 8 & 0xff) < 240)
            pgns[i] &= 0x3ff00;
    }
}

/* ---- a day, call by call */

/* Both are as new. */
static void start_bridge(void)
{
    snprintf(told_call, sizeof told_call, "start the bridge");
    memcpy(&lent_before, &lent, sizeof lent);
    yendrolf_start_bridge(&lent.bridge);
    plain_start_bridge(&plain_lent);
    nothing_around();
    filters_stay();
    for (unsigned i = 0; i < YENDROLF_COUNTER_WORDS; i++)
        if (lent.bridge.counters[i] != 0)
            differ("a fresh counter is not 0");
    for (unsigned i = 0; i < YENDROLF_QUEUE_WORDS; i++)
        if (lent.bridge.queues[i] != 0)
            differ("a fresh queue is not empty");
    calls++;
}

/* Every pair, and all that waits, in the order in which it would leave: on copies of both sides. */
static void check_bridge(void)
{
    static struct lent kept;
    static struct plain_bridge plain_kept;
    static const unsigned none[] = { 0, 5, 15, 16, 129, 255 };
    for (unsigned from = 1; from <= YENDROLF_PORTS; from++)
        for (unsigned to = 1; to <= YENDROLF_PORTS; to++)
            count_pair(from, to);
    count_pair(PICK(none), 1 + below(YENDROLF_PORTS));
    count_pair(1 + below(YENDROLF_PORTS), PICK(none));
    memcpy(&kept, &lent, sizeof kept);
    plain_kept = plain_lent;
    for (unsigned port = 1; port <= YENDROLF_PORTS; port++) {
        queues_full += plain_lent.count[port] == YENDROLF_MOST_WAITING;
        while (slot(port))
            ;
    }
    memcpy(&lent, &kept, sizeof lent);
    plain_lent = plain_kept;
    checked++;
}

/* Counters that are about to go from 2^64 - 1 to 0: with all of a pair so far, they still add up. */
static void near_the_end(void)
{
    for (unsigned from = 1; from <= YENDROLF_PORTS; from++)
        for (unsigned to = 1; to <= YENDROLF_PORTS; to++) {
            if (from == to || one_in(2))
                continue;
            uint64_t more = 0u - (uint64_t)below(600);   /* as if so many had been offered, and filtered or refused, before */
            uint64_t *words = &lent.bridge.counters[YENDROLF_PAIR_COUNTERS * pair_number(from, to)];
            struct plain_counters *counters = &plain_lent.counters[from][to];
            int blocked = one_in(2);
            words[0] += more;
            words[blocked ? 1 : 5] += more;
            counters->arrived += more;
            *(blocked ? &counters->filtered : &counters->refused) += more;
        }
}

/* So many calls, with one slot for so many frames: often there are more frames than can leave. */
static void live_through(unsigned length, unsigned rarely, unsigned changes)
{
    unsigned busy = 1 + below(YENDROLF_PORTS), kind, from, to;
    uint32_t number;
    for (unsigned i = 0; i < length; i++) {
        if (one_in(changes)) {
            any_setting(&kind, &from, &to, &number);
            set(kind, from, to, number);
        } else if (one_in(rarely)) {
            slot(one_in(2) ? busy : any_port());
        } else {
            offer(one_in(3) ? busy : any_port(), any_identifier());
        }
        if (one_in(300))
            check_bridge();
    }
}

/* ---- a day as a trace */

static size_t put_record(uint8_t *at, unsigned first, const uint8_t *rest, size_t size)
{
    for (unsigned i = 1; i < YENDROLF_EVENT_BYTES; i++)
        at[i] = (uint8_t)(one_in(2) ? any() : 0);   /* what nobody looks at */
    at[0] = (uint8_t)first;
    memcpy(at + 1, rest, size);
    return YENDROLF_EVENT_BYTES;
}

static size_t any_record(uint8_t *at, unsigned rarely)
{
    unsigned kind, from, to;
    uint32_t number = any_identifier();
    uint8_t rest[5] = { (uint8_t)number, (uint8_t)(number >> 8), (uint8_t)(number >> 16), (uint8_t)(number >> 24), 0 };
    if (one_in(60))
        return put_record(at, below(256), rest, 4);
    if (one_in(20)) {
        any_setting(&kind, &from, &to, &number);
        uint8_t setting[5] = { (uint8_t)from, (uint8_t)to, (uint8_t)number, (uint8_t)(number >> 8), (uint8_t)(number >> 16) };
        return put_record(at, kind, setting, kind == 67 ? 3 : 5);
    }
    if (one_in(rarely))
        return put_record(at, 128 + 1 + below(YENDROLF_PORTS), rest, 0);
    return put_record(at, 1 + below(YENDROLF_PORTS), rest, 4);
}

/* The library's side of a trace, in chunks that are cut anywhere. */
static yendrolf_trace in_chunks(const uint8_t *trace, size_t size)
{
    static const size_t sizes[] = { 0, 1, 2, 13, 14, 15, 27, 28, 29, 300, 5000 };
    yendrolf_trace had = yendrolf_start_trace();
    for (size_t at = 0; at < size;) {
        size_t chunk = one_in(2) ? PICK(sizes) : below(60);
        if (chunk > size - at)
            chunk = size - at;
        had = yendrolf_replay(&lent.bridge, &lent.box, had, trace + at, chunk);
        at += chunk;
    }
    return had;
}

static void same_trace(yendrolf_trace a, struct plain_trace b, const uint8_t *left)
{
    if (a.events != b.events || a.frames != b.frames || a.slots != b.slots || a.commands != b.commands || a.refused != b.refused || a.other != b.other || a.left != b.left)
        differ("what the trace had");
    if (memcmp(a.carry, left, b.left) != 0)
        differ("the bytes of a record that is not whole");
}

/* The lines of the replay, into rooms that are too short, exactly long enough and longer. */
static void same_lines(yendrolf_trace had, struct plain_trace plain_had)
{
    static char wanted[4096];
    static uint8_t text[YENDROLF_REPLAY_BYTES + 100], kept[sizeof text];
    size_t size = plain_replayed(&plain_lent, plain_had, wanted, sizeof wanted);
    if (size > YENDROLF_REPLAY_BYTES)
        differ("the lines are longer than the header says");
    const size_t rooms[] = { size, size - 1, size + 1 + below(90), YENDROLF_REPLAY_BYTES, below((unsigned)size) };
    for (unsigned i = 0; i < sizeof rooms / sizeof rooms[0]; i++) {
        for (size_t j = 0; j < sizeof text; j++)
            text[j] = kept[j] = (uint8_t)any();
        snprintf(told_call, sizeof told_call, "the lines of a replay into %zu bytes", rooms[i]);
        memcpy(&lent_before, &lent, sizeof lent);
        yendrolf_told a = yendrolf_replayed(&lent.bridge, had, text, rooms[i]);
        struct plain_answer b = { rooms[i] < size ? 13 : 0, rooms[i] < size ? 0 : (unsigned)size, 0, 0 };
        same_answer(a, b);
        if (memcmp(text, b.number ? (const char *)kept : wanted, b.detail) != 0 || memcmp(text + b.detail, kept + b.detail, sizeof text - b.detail) != 0)
            differ("the lines of a replay");
        bridge_stays();
        calls++;
    }
}

/* What a carry of 14 or more bytes counts as: none, and no call makes one. */
static void no_such_carry(const uint8_t *trace, size_t size)
{
    static const uint64_t lefts[] = { 14, 15, 16, 255, 1ull << 32, UINT64_MAX };
    static struct lent kept, once;
    yendrolf_trace wrong = yendrolf_start_trace();
    snprintf(told_call, sizeof told_call, "a trace on top of a carry that is none");
    memcpy(&kept, &lent, sizeof lent);
    yendrolf_trace right = yendrolf_replay(&lent.bridge, &lent.box, wrong, trace, size);
    memcpy(&once, &lent, sizeof lent);
    memcpy(&lent, &kept, sizeof lent);
    wrong.left = PICK(lefts);
    wrong = yendrolf_replay(&lent.bridge, &lent.box, wrong, trace, size);
    if (!same_bytes(&lent, &once, sizeof lent) || wrong.events != right.events || wrong.left != right.left || memcmp(wrong.carry, right.carry, right.left) != 0)
        differ("what it counts as");
    memcpy(&lent, &kept, sizeof lent);
}

/* A trace, replayed on both sides on top of what the bridge is; in two ways of cutting, which must leave the same words. */
static void replay_day(void)
{
    static uint8_t trace[(MOST_EVENTS + 1) * YENDROLF_EVENT_BYTES];
    static struct lent kept, once;
    unsigned count = below(MOST_EVENTS), rarely = 1 + below(6);
    size_t size = 0;
    for (unsigned i = 0; i < count; i++)
        size += any_record(trace + size, rarely);
    unsigned left = below(YENDROLF_EVENT_BYTES);
    any_record(trace + size, rarely);
    size += left;
    no_such_carry(trace, size);
    snprintf(told_call, sizeof told_call, "a trace of %u records and %u bytes", count, left);
    memcpy(&kept, &lent, sizeof lent);
    in_chunks(trace, size);
    memcpy(&once, &lent, sizeof lent);
    memcpy(&lent, &kept, sizeof lent);
    memcpy(&lent_before, &lent, sizeof lent);
    yendrolf_trace had = in_chunks(trace, size);
    nothing_around();
    if (!same_bytes(&lent, &once, sizeof lent))
        differ("what a trace does depends on where it is cut");
    struct plain_trace plain_had = plain_replay(&plain_lent, &plain_set, trace, size);
    same_trace(had, plain_had, trace + size - left);
    same_lines(had, plain_had);
    calls += count;
    days++;
    events += count;
    cut_records += left != 0;
}

/* ---- words that no calls make */

static void lay_strange(void)
{
    static const uint64_t counts[] = { 0, 1, 2, 63, 64, 65, 66, 255, 1ull << 32, (1ull << 32) + 1, UINT64_MAX };
    for (unsigned port = 1; port <= YENDROLF_PORTS; port++) {
        uint64_t *queue = &lent.bridge.queues[QUEUE * (port - 1)];
        queue[0] = PICK(counts);
        for (unsigned i = 1; i < QUEUE; i++)
            queue[i] = (uint64_t)(one_in(2) ? any() : any_port()) << 32 | (one_in(2) ? any() : any_identifier());
    }
    for (unsigned i = 0; i < YENDROLF_COUNTER_WORDS; i++)
        lent.bridge.counters[i] = one_in(2) ? UINT64_MAX - below(3) : any();
}

/* Whether one of the words that may wait at a port has this frame. */
static int waited_there(unsigned port, uint8_t from, uint32_t identifier)
{
    const uint64_t *queue = &lent_before.bridge.queues[QUEUE * (port - 1)];
    for (unsigned i = 1; i < QUEUE; i++)
        if ((uint8_t)(queue[i] >> 32) == from && (uint32_t)queue[i] == identifier)
            return 1;
    return 0;
}

static void strange_slot(unsigned port)
{
    uint8_t from = 200;
    uint32_t identifier = 7;
    snprintf(told_call, sizeof told_call, "a slot of port %u, on strange words", port);
    memcpy(&lent_before, &lent, sizeof lent);
    yendrolf_told a = yendrolf_slot(&lent.bridge, (uint8_t)port, &from, &identifier);
    if (a.judgement || a.position || a.number != (is_port(port) ? 0u : 15u) || a.detail > (a.number == 0))
        differ("no answer to a slot");
    if (a.detail == 0) {
        bridge_stays();
        if (from != 200 || identifier != 7)
            differ("a frame where none left");
        return;
    }
    if (!waited_there(port, from, identifier))
        differ("a frame left that did not wait");
    counters_stay_but(0, YENDROLF_PAIRS, 1);
    for (unsigned other = 1; other <= YENDROLF_PORTS; other++)
        if (other != port)
            queue_stays(other);
}

static void strange_offer(unsigned from)
{
    uint32_t identifier = any_identifier();
    snprintf(told_call, sizeof told_call, "a frame at port %u, on strange words: %08" PRIx32, from, identifier);
    memcpy(&lent_before, &lent, sizeof lent);
    yendrolf_offered a = yendrolf_offer(&lent.bridge, &lent.box, (uint8_t)from, identifier);
    if (a.told.number != (is_port(from) ? 0u : 15u))
        differ("no answer to a frame");
    for (unsigned i = 0; i < 3; i++) {
        unsigned number = a.to[i].number;
        if (a.to[i].judgement || a.to[i].position || (number != 0 && number != 1 && number != 26) || a.to[i].detail > (number == 0))
            differ("no answer of a port");
    }
    after_offer(a, from);
}

/* Of words that no calls make the documents fix this: nothing traps, an answer is of its list, a refusal changes its counters and nothing else, what leaves is one of the words, and nothing around what is lent is
   touched. The second implementation has no such words, so the library is called alone; the program `bridges` has the words themselves. */
static void strange_words(void)
{
    static uint8_t text[YENDROLF_REPLAY_BYTES];
    yendrolf_trace had = yendrolf_start_trace();
    lay_strange();
    had.events = had.frames = had.slots = had.commands = had.refused = had.other = UINT64_MAX;
    for (unsigned i = 0; i < 80; i++, strange++) {
        if (one_in(2))
            strange_slot(any_port());
        else
            strange_offer(any_port());
        filters_stay();
        nothing_around();
        if (one_in(20))
            lay_strange();
    }
    if (yendrolf_replayed(&lent.bridge, had, text, sizeof text).number != 0)
        differ("the lines are longer than the header says");
    start_bridge();
}

/* ---- the day's end */

static void start_filters(void)
{
    yendrolf_fresh(&lent.box);
    plain_fresh(&plain_set);
}

void start_days(void)
{
    memset(&lent, 0xa5, sizeof lent);   /* a bridge starts from any bytes */
    plain_start(&plain_set);
    start_filters();
    set_pgns();
    start_bridge();
}

void play_day(uint64_t until)
{
    if (!one_in(3))
        start_bridge();
    if (one_in(3))
        start_filters();
    set_pgns();
    if (one_in(8))
        near_the_end();
    for (unsigned i = 0; i < 4 && calls < until; i++) {
        live_through(300 + below(500), 1 + below(8), 5 + below(60));
        check_bridge();
        replay_day();
        check_bridge();
    }
    if (one_in(3))
        strange_words();
}

void print_days(void)
{
    printf("\nat a bridge: frames %" PRIu64 ", and of what ports answered: refused %" PRIu64 ", filtered %" PRIu64 ", turned away %" PRIu64 ", queued %" PRIu64 "; slots %" PRIu64 ", sent %" PRIu64
        " (%" PRIu64 " of these before one that came earlier), found nothing %" PRIu64 "; frames and slots at no port %" PRIu64 "\n", offered, refused, filtered, turned, queued, slots, sent, overtaken, idle,
        no_port);
    printf("settings %" PRIu64 ", pairs counted %" PRIu64 ", the whole bridge compared %" PRIu64 " times, with %" PRIu64 " full queues; traces %" PRIu64 " of %" PRIu64 " records, %" PRIu64
        " cut in the last one; calls on strange words %" PRIu64 "\n", settings, counted, checked, queues_full, days, events, cut_records, strange);
}
