/* bench HOW PART: the Rattle library beside bench/fast.c in one process, on one input: processor time a call, the median of RUNS runs that take turns. The C is
   there as each compiler made it (bench/run), and the ratio is to the fastest of these.
   bench --one TEST BUILD CALLS: makes so many calls of one test as one build has it, for who counts their instructions (bench/count); bench --names: the tests and the builds. */
#define _POSIX_C_SOURCE 199309L
#include <stdio.h>
#include <stdlib.h>
#include <string.h>
#include <time.h>

#include "../include/yendrolf.h"

/* The prototypes of each build: gcc2_, gcc3_ and clang2_. */
#define FAST(name) gcc2_##name
#include "fast.h"
#undef FAST_H
#undef FAST
#define FAST(name) gcc3_##name
#include "fast.h"
#undef FAST_H
#undef FAST
#ifdef CLANG
#define FAST(name) clang2_##name
#include "fast.h"
#endif

#define FRAMES 4096
#define RECORDS 5000
#define RUNS 41
#define MAPS 5           /* maps of a kind */
#define KEYS 16
#define ROW 67           /* words of a key's row */
#define TALKERS 8        /* pairs that send long messages: sources 0 to 7, to 39 */
#define QUEUE 65         /* words of a port's queue */
#define FIRST_8 1        /* the message k of the first map of a kind, all of them from 38 to 39; these in `box`, */
#define FIRST_30 6
#define FIRST_64 1       /* these in `wide_box` */
#define FIRST_1 6
#define FIRST_odd 11
#define FIRST_2010 1     /* these in `edition_box`: the same maps twice, of SPNs that both editions have, by the one edition and by the other */
#define FIRST_2004 6
#define FIRST_narrow 6   /* these, of 30 parameters in 8 bytes, and those of 8 in `hire_box` */

struct frame {
    uint32_t identifier;
    uint8_t data[8];
};

struct map {
    unsigned n, bytes;
    uint32_t spns[YENDROLF_MOST_NUMBERS];
    unsigned starts[YENDROLF_MOST_NUMBERS];
};

struct key {
    uint8_t source, k;
};

static yendrolf_box box, wide_box, edition_box, other_box, spare;
static struct map maps_8[MAPS], maps_30[MAPS], maps_64[MAPS], maps_1[MAPS], maps_odd[MAPS], maps_2010[MAPS], maps_2004[MAPS];
static struct key keys[KEYS];             /* of `box`, in the order of its rows */
static struct frame frames[FRAMES];
static uint32_t other_ids[FRAMES];
static uint8_t records[RECORDS * 13];
static uint32_t numbers[YENDROLF_MOST_NUMBERS];
static uint8_t payload[YENDROLF_MOST_BYTES], states[YENDROLF_MOST_NUMBERS];
static uint32_t asked_spns[FRAMES], asked_numbers[FRAMES];
static uint8_t requests[FRAMES][8];       /* the data of Parameter Locates */
static uint8_t saved_image[YENDROLF_IMAGE_BYTES], damaged_image[YENDROLF_IMAGE_BYTES], form_1_image[YENDROLF_IMAGE_BYTES];   /* of `box` */
static size_t saved_size, form_1_size;
static yendrolf_sessions talk;
static const uint8_t asking[8] = { 16, 0xf9, 0x06, 255, 255, 0x00, 0xb2, 0x00 };   /* a request to send 1,785 bytes */
static uint8_t packets[256][8];           /* by their number */
static yendrolf_bridge day;
static yendrolf_box day_box, listed_box;  /* with fresh filters, and with 32 PGNs in each pair's list */
static uint64_t frames_waiting[FRAMES];   /* words of frames that wait, of any priority and from any port */
static uint8_t trace_records[RECORDS * YENDROLF_EVENT_BYTES];
static yendrolf_box hire_box;
static yendrolf_hire hire;
static struct map maps_narrow[MAPS];
static uint8_t other_records[RECORDS * 13], paid_8[RECORDS * 13], paid_30[RECORDS * 13];   /* logs: records of other PGNs alone, and payloads of the maps of 8 and of 30 in turn */

/* What pack and read find, the same for each run; 1 fits every width. */
static void fill(void)
{
    for (unsigned i = 0; i < YENDROLF_MOST_NUMBERS; i++)
        numbers[i] = 1;
    memset(payload, 0, sizeof payload);
    memset(states, 0, sizeof states);
}

/* Eight sessions that wait for packet 1 of 255, in the order of their rows. */
static void start_talk(void)
{
    yendrolf_start_sessions(&talk);
    for (uint32_t pair = 0; pair < TALKERS; pair++)
        yendrolf_request(&talk, 0x1cec2700u | pair, 8, asking);
}

/* How many wait at each port. */
static void set_waiting(uint64_t count)
{
    for (unsigned port = 0; port < 4; port++)
        day.queues[QUEUE * port] = count;
}

/* 64 wait at each port. */
static void fill_queues(void)
{
    for (unsigned i = 0; i < 4 * QUEUE; i++)
        day.queues[i] = frames_waiting[i];
    set_waiting(YENDROLF_MOST_WAITING);
}

#define MEASURED __attribute__((unused)) static
#define CALL(name) yendrolf_##name
#define TEST(name) rattle_##name
#include "calls.h"
#define CALL(name) gcc2_##name
#define TEST(name) gcc2_##name
#include "calls.h"
#define CALL(name) gcc3_##name
#define TEST(name) gcc3_##name
#include "calls.h"
#ifdef CLANG
#define CALL(name) clang2_##name
#define TEST(name) clang2_##name
#include "calls.h"
#endif

#ifdef CLANG
#define BUILDS 4
#define BUILT(test) { rattle_##test, gcc2_##test, gcc3_##test, clang2_##test }
#else
#define BUILDS 3
#define BUILT(test) { rattle_##test, gcc2_##test, gcc3_##test }
#endif
static const char *const builds[] = { "Rattle", "gcc -O2", "gcc -O3", "clang -O2" };

static const struct test {
    const char *name;
    uint64_t calls;
    uint64_t (*builds[BUILDS])(uint64_t);
} tests[] = {
    { "learn: a frame of another PGN", 2000000, BUILT(others) },
    { "learn: a message", 400000, BUILT(learn) },
    { "forget", 400000, BUILT(forget) },
    { "set an edition", 800000, BUILT(set_edition) },
    { "count", 800000, BUILT(count) },
    { "judge 8", 20000, BUILT(judge_8) },
    { "judge 30", 5000, BUILT(judge_30) },
    { "judge 64", 2400, BUILT(judge_64) },
    { "judge 8, two of odd widths", 20000, BUILT(judge_odd) },
    { "judge 8 of both editions, by 2010", 20000, BUILT(judge_2010) },
    { "judge 8 of both editions, by 2004", 20000, BUILT(judge_2004) },
    { "pack 8", 16000, BUILT(pack_8) },
    { "pack 30", 4000, BUILT(pack_30) },
    { "pack 64", 2000, BUILT(pack_64) },
    { "pack one at the last bits", 40000, BUILT(pack_1) },
    { "pack 8, two of odd widths", 16000, BUILT(pack_odd) },
    { "read 8", 16000, BUILT(read_8) },
    { "read 30", 4000, BUILT(read_30) },
    { "read 64", 2000, BUILT(read_64) },
    { "read one at the last bits", 40000, BUILT(read_1) },
    { "read 8, two of odd widths", 16000, BUILT(read_odd) },
    { "pack 8 of both editions, by 2010", 16000, BUILT(pack_2010) },
    { "pack 8 of both editions, by 2004", 16000, BUILT(pack_2004) },
    { "read 8 of both editions, by 2010", 16000, BUILT(read_2010) },
    { "read 8 of both editions, by 2004", 16000, BUILT(read_2004) },
    { "find one of 8", 20000, BUILT(find) },
    { "parameter at a position of 8", 80000, BUILT(parameter) },
    { "locate an SPN in 16 keys", 20000, BUILT(locate) },
    { "locate, asked of another", 1600000, BUILT(locate_other) },
    { "meaning", 400000, BUILT(mean) },
    { "scaled", 400000, BUILT(scale) },
    { "decide, an empty list", 1600000, BUILT(decide0) },
    { "decide, a list of 32", 400000, BUILT(decide32) },
    { "renew", 1600000, BUILT(renew) },
    { "feed, a record", 1000000, BUILT(feed) },
    { "finish, 16 keys", 800, BUILT(finish) },
    { "feed a hire, a record of another PGN", 1000000, BUILT(hire_others) },
    { "feed, a record of another PGN", 1000000, BUILT(feed_others) },
    { "feed a hire, a record of that log", 1000000, BUILT(hire_log) },
    { "feed a hire, a payload of 8", 200000, BUILT(hire_8) },
    { "feed a hire, a payload of 30", 50000, BUILT(hire_30) },
    { "line of a hire, of 8", 20000, BUILT(line) },
    { "save, 10 usable keys of 16", 800, BUILT(save) },
    { "load, 10 keys", 800, BUILT(load) },
    { "load, 10 keys, as Req 01 saved them", 800, BUILT(load_1) },
    { "load, damaged at the end", 800, BUILT(damaged) },
    { "body of a key in an image of 10", 800, BUILT(body) },
    { "row of an image of 10", 800, BUILT(row) },
    { "request to send", 1600000, BUILT(request) },
    { "a packet", 1600000, BUILT(packet) },
    { "the last packet of 1,785 bytes", 200000, BUILT(last_packet) },
    { "a frame offered to three ports", 800000, BUILT(offer) },
    { "a frame offered, lists of 32", 200000, BUILT(offer32) },
    { "a frame offered, the queues full", 800000, BUILT(offer_full) },
    { "slot, 8 wait", 800000, BUILT(slot8) },
    { "slot, 64 wait", 400000, BUILT(slot64) },
    { "what is counted of a pair, 64 wait", 400000, BUILT(pair) },
    { "replay, a record", 400000, BUILT(replay) },
    { "the lines of a replay", 4000, BUILT(replayed) },
};

static double seconds(void)
{
    struct timespec t;
    clock_gettime(CLOCK_PROCESS_CPUTIME_ID, &t);
    return (double)t.tv_sec + (double)t.tv_nsec * 1e-9;
}

static int rising(const void *a, const void *b)
{
    double x = *(const double *)a, y = *(const double *)b;
    return (x > y) - (x < y);
}

static uint32_t any(void)
{
    static uint64_t now = 1;
    uint64_t x = now += 0x9e3779b97f4a7c15u;
    x = (x ^ (x >> 30)) * 0xbf58476d1ce4e5b9u;
    x = (x ^ (x >> 27)) * 0x94d049bb133111ebu;
    return (uint32_t)(x >> 32);
}

static const struct {
    uint32_t spn;
    unsigned width;
} dictionary[] = {
#include "spns.inc"
};

#define ENTRIES (sizeof dictionary / sizeof dictionary[0])

static uint64_t rows_drawn, rows_sum;

/* The bits from a parameter's start to its end: of an odd width (above 8, no multiple of 8) up to the end of its last byte. */
static unsigned span_of(unsigned width)
{
    return width > 8 ? (width + 7) / 8 * 8 : width;
}

/* Where a parameter of this width may stand from bit `at` on: of an odd width at a multiple of 8. */
static unsigned start_from(unsigned at, unsigned width)
{
    return span_of(width) > width ? (at + 7) / 8 * 8 : at;
}

/* A map of n different SPNs, each drawn evenly from the whole dictionary, one behind another; 0 where a start stands above `last` or its bits end above
   `end`, so that another map is drawn. */
static int draw(struct map *m, unsigned n, unsigned last, unsigned end)
{
    unsigned char taken[ENTRIES] = { 0 };
    unsigned at = 0, rows = 0;
    m->n = n;
    for (unsigned i = 0; i < n; i++) {
        unsigned row;
        do
            row = any() % ENTRIES;
        while (taken[row]);
        taken[row] = 1;
        rows += row + 1;
        m->spns[i] = dictionary[row].spn;
        at = start_from(at, dictionary[row].width);
        m->starts[i] = at;
        if (at > last)
            return 0;
        at += span_of(dictionary[row].width);
    }
    if (at > end)
        return 0;
    m->bytes = at <= 64 ? 8 : (at + 7) / 8;
    rows_drawn += n;
    rows_sum += rows;
    return 1;
}

/* A map of one SPN, drawn in the same way, at the last bits that a payload can have. */
static void draw_last(struct map *m)
{
    unsigned row = any() % ENTRIES;
    m->n = 1;
    m->spns[0] = dictionary[row].spn;
    m->starts[0] = 8 * YENDROLF_MOST_BYTES - span_of(dictionary[row].width);
    m->bytes = YENDROLF_MOST_BYTES;
    rows_drawn++;
    rows_sum += row + 1;
}

/* A row of the dictionary that is not taken yet, of a width from `least` to `most`; each is as likely. */
static unsigned free_row(unsigned char taken[ENTRIES], unsigned least, unsigned most)
{
    unsigned row;
    do
        row = any() % ENTRIES;
    while (taken[row] || dictionary[row].width < least || dictionary[row].width > most);
    taken[row] = 1;
    return row;
}

static void put_row(struct map *m, unsigned row, unsigned start)
{
    m->spns[m->n] = dictionary[row].spn;
    m->starts[m->n++] = start;
}

/* A map of 8 different SPNs in 8 bytes, with the two of the dictionary that have an odd width, 19 bits, in either order: each from a byte of its own on, with another in the 5 bits that
   it skips; then four of a byte at most, until they fit into the last 16 bits. */
static void draw_odd(struct map *m)
{
    unsigned end;
    do {
        unsigned char taken[ENTRIES] = { 0 };
        m->n = 0;
        for (unsigned i = 0; i < 2; i++) {
            put_row(m, free_row(taken, 17, 23), 24 * i);
            put_row(m, free_row(taken, 1, 5), 24 * i + 16);
        }
        end = 48;
        for (unsigned i = 0; i < 4; i++) {
            unsigned row = free_row(taken, 1, 8);
            put_row(m, row, end);
            end += dictionary[row].width;
        }
    } while (end > 64);
    m->bytes = 8;
}

/* A map of 30 different SPNs of two bits at most, in 8 bytes. */
static void draw_narrow(struct map *m)
{
    unsigned char taken[ENTRIES] = { 0 };
    unsigned at = 0;
    m->n = 0;
    while (m->n < 30) {
        unsigned row = free_row(taken, 1, 2);
        put_row(m, row, at);
        at += dictionary[row].width;
    }
    m->bytes = 8;
}

static void fail(const char *what)
{
    printf("%s\n", what);
    exit(1);
}

/* The message of a key's position. */
static struct frame message(uint8_t source, uint8_t k, unsigned n, unsigned p, uint32_t spn, unsigned start, int transport)
{
    struct frame f = { 0x18b02700u | source, { 0, (uint8_t)(176 + k), 0, (uint8_t)spn, (uint8_t)(spn >> 8), (uint8_t)((spn >> 16) << 5 | p),
        (uint8_t)(n | (transport ? 192u : 128u)), (uint8_t)(start + 1) } };
    return f;
}

static unsigned made, held;   /* frames and keys so far */

static void teach(struct frame f)
{
    if (yendrolf_learn(&box, f.identifier, 8, f.data).number != 0)
        fail("a message was refused");
    frames[made++] = f;
}

/* A key of `box` with this map, from frames. */
static void teach_map(const struct map *m, uint8_t k)
{
    keys[held++] = (struct key){ 38, k };
    for (unsigned p = 1; p <= m->n; p++)
        teach(message(38, k, m->n, p, m->spns[p - 1], m->starts[p - 1], m->bytes > 8));
}

/* A key of `wide_box` with this map, laid into the words of a row as crates/keyrow/specs/Row.antt has them: no wire can carry it. */
static void lay_map(const struct map *m, unsigned row, uint8_t k)
{
    uint64_t *words = &wide_box.table[ROW * row];
    words[0] = 1;
    words[1] = 38 * 65536 + 39 * 256 + k;
    words[2] = m->n + 256 + (m->bytes > 8 ? 512 : 0);
    for (unsigned p = 1; p <= m->n; p++)
        words[2 + p] = 1 + m->spns[p - 1] + ((uint64_t)m->starts[p - 1] << 32);
}

/* A map of 8 different SPNs of the twelve that both editions have, one behind another. */
static void draw_of_both(struct map *m)
{
    static const struct {
        uint32_t spn;
        unsigned width;
    } both[] = {
#include "spns2004.inc"
    };
    unsigned taken = 0, at = 0;
    m->n = 0;
    while (m->n < 8) {
        unsigned row = any() % (sizeof both / sizeof both[0]);
        if (taken >> row & 1)
            continue;
        taken |= 1u << row;
        at = start_from(at, both[row].width);
        m->spns[m->n] = both[row].spn;
        m->starts[m->n++] = at;
        at += span_of(both[row].width);
    }
    m->bytes = at <= 64 ? 8 : (at + 7) / 8;
}

/* A key of `edition_box` with this map, from frames, and of this edition. */
static void teach_edition(const struct map *m, uint8_t k, uint32_t edition)
{
    for (unsigned p = 1; p <= m->n; p++) {
        struct frame f = message(38, k, m->n, p, m->spns[p - 1], m->starts[p - 1], m->bytes > 8);
        yendrolf_learn(&edition_box, f.identifier, 8, f.data);
    }
    if (yendrolf_set_edition(&edition_box, 38, 39, k, edition).number != 0)
        fail("an edition was refused");
}

/* The image as it was before Req 10: rows without an edition, and offsets that are one byte less for each row. */
static void make_form_1(void)
{
    unsigned count = saved_image[1];
    form_1_image[0] = 1;
    form_1_image[1] = (uint8_t)count;
    for (unsigned i = 0; i < count; i++) {
        uint8_t *row = form_1_image + 2 + 7 * i;
        memcpy(row, saved_image + 2 + 8 * i, 7);
        unsigned offset = row[3] + 256u * row[4] - count;
        row[3] = (uint8_t)offset;
        row[4] = (uint8_t)(offset >> 8);
    }
    form_1_size = saved_size - count;
    memcpy(form_1_image + 2 + 7 * count, saved_image + 2 + 8 * count, form_1_size - 2 - 7 * count);
    yendrolf_empty(&other_box);
    if (yendrolf_load(&other_box, form_1_image, form_1_size).number != 0)
        fail("an image of form 1 is not loaded");
}

/* A frame as record i of a log. */
static void put_record(uint8_t *log, unsigned i, uint32_t id, const uint8_t *data)
{
    uint8_t *r = log + 13 * i;
    for (unsigned j = 0; j < 4; j++)
        r[j] = (uint8_t)(id >> 8 * j);
    r[4] = 8;
    memcpy(r + 5, data, 8);
}

/* All maps of one kind are usable. */
static void see_usable(const yendrolf_box *b, uint8_t first, const struct map *m)
{
    for (uint8_t i = 0; i < MAPS; i++) {
        yendrolf_told told = yendrolf_judge(b, 38, 39, (uint8_t)(first + i));
        if (told.number != 0 || told.judgement != 0 || yendrolf_count(b, 38, 39, (uint8_t)(first + i)) != m[i].n)
            fail("a map is not usable");
    }
}

/* A record of a day's trace: half are frames at any port, of the PGNs that the fitter sets among others; nearly as many slots; few settings. */
static void put_event(uint8_t *r)
{
    uint32_t what = any() % 100, pgn = 65280 + any() % 40, id = any() % 4 ? other_ids[any() % FRAMES] : (any() % 8) << 26 | pgn << 8;
    uint8_t port = (uint8_t)(1 + any() % 4), to = (uint8_t)(1 + (port + any() % 3) % 4);
    uint8_t frame[5] = { port, (uint8_t)id, (uint8_t)(id >> 8), (uint8_t)(id >> 16), (uint8_t)(id >> 24) };
    uint8_t setting[6] = { (uint8_t)(any() % 12 == 0 ? 67 : any() % 3 ? 65 : 66), port, to, (uint8_t)pgn, (uint8_t)(pgn >> 8), 0 };
    if (setting[0] == 67)
        setting[3] = 0;
    memset(r, 0, YENDROLF_EVENT_BYTES);
    if (what < 50)
        memcpy(r, frame, sizeof frame);
    else if (what < 96)
        r[0] = (uint8_t)(128 + port);
    else
        memcpy(r, setting, sizeof setting);
}

static void prepare_day(void)
{
    yendrolf_start(&day_box);
    yendrolf_start(&listed_box);
    for (uint8_t from = 1; from <= 4; from++)
        for (uint8_t to = 1; to <= 4; to++)
            for (uint32_t i = 0; i < 32; i++)
                yendrolf_add(&listed_box, from, to, 65280 + i);
    for (unsigned i = 0; i < FRAMES; i++)
        frames_waiting[i] = (uint64_t)(1 + any() % 4) << 32 | other_ids[any() % FRAMES];
    for (unsigned i = 0; i < RECORDS; i++)
        put_event(trace_records + YENDROLF_EVENT_BYTES * i);
    yendrolf_start_bridge(&day);
    if (yendrolf_offer(&day, &day_box, 1, other_ids[0]).to[0].detail != YENDROLF_PASS)
        fail("a frame was not queued");
}

/* A key of `hire_box` with this map, from frames. */
static void teach_hire(const struct map *m, uint8_t k)
{
    for (unsigned p = 1; p <= m->n; p++) {
        struct frame f = message(38, k, m->n, p, m->spns[p - 1], m->starts[p - 1], 0);
        yendrolf_learn(&hire_box, f.identifier, 8, f.data);
    }
}

/* Ten keys with maps of 8 bytes, and the logs. Of a payload's bytes one in four says that a number is no reading. */
static void prepare_hire(void)
{
    yendrolf_start(&hire_box);
    for (uint8_t i = 0; i < MAPS; i++) {
        draw_narrow(&maps_narrow[i]);
        teach_hire(&maps_8[i], (uint8_t)(FIRST_8 + i));
        teach_hire(&maps_narrow[i], (uint8_t)(FIRST_narrow + i));
    }
    see_usable(&hire_box, FIRST_8, maps_8);
    see_usable(&hire_box, FIRST_narrow, maps_narrow);
    for (unsigned i = 0; i < RECORDS; i++) {
        uint8_t data[8];
        for (unsigned j = 0; j < 8; j++)
            data[j] = (uint8_t)(any() % 4 ? any() % 251 : 251 + any() % 5);
        uint32_t id = other_ids[any() % FRAMES];
        while ((id & 0x03f00000) == 0x00b00000)
            id = other_ids[any() % FRAMES];
        put_record(other_records, i, id, data);
        put_record(paid_8, i, 0x18b02726u | (uint32_t)(FIRST_8 + i % MAPS) << 16, data);
        put_record(paid_30, i, 0x18b02726u | (uint32_t)(FIRST_narrow + i % MAPS) << 16, data);
    }
}

static void prepare(void)
{
    yendrolf_start(&box);
    yendrolf_start(&wide_box);
    yendrolf_start(&edition_box);
    yendrolf_start(&other_box);
    for (uint8_t i = 0; i < MAPS; i++) {
        while (!draw(&maps_8[i], 8, 249, 64))
            ;
        while (!draw(&maps_30[i], 30, 249, 8 * YENDROLF_MOST_BYTES) || maps_30[i].bytes <= 8)
            ;
        while (!draw(&maps_64[i], 64, 14279, 8 * YENDROLF_MOST_BYTES))
            ;
        draw_last(&maps_1[i]);
        draw_odd(&maps_odd[i]);
        lay_map(&maps_64[i], i, (uint8_t)(FIRST_64 + i));
        lay_map(&maps_1[i], MAPS + i, (uint8_t)(FIRST_1 + i));
        lay_map(&maps_odd[i], 2 * MAPS + i, (uint8_t)(FIRST_odd + i));
    }
    for (uint8_t i = 0; i < MAPS; i++)
        teach_map(&maps_8[i], (uint8_t)(FIRST_8 + i));
    for (uint8_t i = 0; i < MAPS; i++)
        teach_map(&maps_30[i], (uint8_t)(FIRST_30 + i));
    for (uint8_t i = 0; i < MAPS; i++) {
        draw_of_both(&maps_2010[i]);
        maps_2004[i] = maps_2010[i];
        teach_edition(&maps_2010[i], (uint8_t)(FIRST_2010 + i), YENDROLF_2010);
        teach_edition(&maps_2004[i], (uint8_t)(FIRST_2004 + i), YENDROLF_2004);
    }
    for (uint8_t k = 11; held < KEYS; k = k < 15 ? k + 1 : 1) {   /* and keys that are not complete, which fill the table */
        uint8_t source = held < 15 ? 38 : 40;
        keys[held++] = (struct key){ source, k };
        teach(message(source, k, 5, 1 + k % 5, dictionary[any() % ENTRIES].spn, any() % 250, 0));
    }
    see_usable(&box, FIRST_8, maps_8);
    see_usable(&box, FIRST_30, maps_30);
    see_usable(&wide_box, FIRST_64, maps_64);
    see_usable(&wide_box, FIRST_1, maps_1);
    see_usable(&wide_box, FIRST_odd, maps_odd);
    see_usable(&edition_box, FIRST_2010, maps_2010);
    see_usable(&edition_box, FIRST_2004, maps_2004);
    spare = box;
    saved_size = yendrolf_image_size(&box);
    if (yendrolf_save(&box, saved_image, sizeof saved_image).number != 0 || saved_image[1] != 2 * MAPS)
        fail("not all usable maps are saved");
    memcpy(damaged_image, saved_image, saved_size);
    damaged_image[saved_size - 1] ^= 255;
    make_form_1();
    for (unsigned i = made; i < FRAMES; i++)
        frames[i] = frames[any() % made];
    for (unsigned i = 0; i < FRAMES; i++)
        do
            other_ids[i] = any() & 0x1fffffff;
        while ((other_ids[i] & 0x03ff0000) == 0x00b00000);
    for (uint32_t i = 0; i < 32; i++)
        yendrolf_add(&box, 3, 4, 65280 + i);
    for (unsigned i = 0; i < RECORDS; i++) {   /* a log: nine of ten frames are of another PGN */
        struct frame f = frames[any() % FRAMES];
        uint32_t id = any() % 10 ? other_ids[any() % FRAMES] : f.identifier;
        put_record(records, i, id, f.data);
    }
    for (unsigned i = 0; i < FRAMES; i++) {   /* what meaning and scaled are asked: any row, and any number of its width */
        unsigned row = any() % ENTRIES;
        asked_spns[i] = i % 8 ? dictionary[row].spn : any() % 4096 + 4096;
        asked_numbers[i] = any() & (uint32_t)((1ull << dictionary[row].width) - 1);
    }
    for (unsigned i = 0; i < FRAMES; i++) {   /* what is located */
        uint32_t spn = i % 8 == 0 ? 9 : i % 2 ? maps_8[any() % MAPS].spns[any() % 8] : maps_30[any() % MAPS].spns[any() % 30];
        uint8_t data[8] = { (uint8_t)spn, (uint8_t)(spn >> 8), (uint8_t)((spn >> 16) << 5 | 31), 255, 255, 255, 255, 0 };
        memcpy(requests[i], data, sizeof data);
    }
    for (unsigned i = 0; i < 256; i++) {   /* what packets carry */
        packets[i][0] = (uint8_t)i;
        for (unsigned j = 1; j < 8; j++)
            packets[i][j] = (uint8_t)any();
    }
    prepare_day();
    prepare_hire();
    start_talk();
    if (yendrolf_packet(&talk, 0x1ceb2707u, 8, packets[1], payload).told.number != 0)
        fail("a packet was refused");
}

/* Sorts them. */
static double median(double of[RUNS])
{
    qsort(of, RUNS, sizeof of[0], rising);
    return of[RUNS / 2];
}

/* One test: each build in turn, RUNS times; then a line with the median of each and the ratio to the fastest C. A ratio is the median of the RUNS ratios, each of
   two times that were taken one soon after the other: other work on the machine slows both. */
static void measure(const struct test *t, uint64_t part)
{
    double taken[BUILDS][RUNS];
    uint64_t n = t->calls / part + 1, sum = 0;
    for (unsigned run = 0; run < RUNS; run++)
        for (unsigned i = 0; i < BUILDS; i++) {
            unsigned b = (i + run) % BUILDS;
            double start = seconds();
            uint64_t got = t->builds[b](n);
            taken[b][run] = seconds() - start;
            if (run == 0 && i == 0)
                sum = got;
            if (got != sum) {
                printf("%s: %s got another sum\n", t->name, builds[b]);
                exit(1);
            }
        }
    double ratio = 0;
    const char *fastest = "";
    for (unsigned b = 1; b < BUILDS; b++) {
        double ratios[RUNS];
        for (unsigned run = 0; run < RUNS; run++)
            ratios[run] = taken[0][run] / taken[b][run];
        double r = median(ratios);
        if (r > ratio)
            ratio = r, fastest = builds[b];
    }
    printf("| %s |", t->name);
    for (unsigned b = 0; b < BUILDS; b++) {
        double ns = median(taken[b]) / (double)n * 1e9;
        printf(ns < 100 ? " %.1f |" : " %.0f |", ns);
    }
    printf(" %.2f (%s) |\n", ratio, fastest);
    fflush(stdout);
}

/* The names of tests and builds, each by its number from 0. */
static int names(void)
{
    for (size_t t = 0; t < sizeof tests / sizeof tests[0]; t++)
        printf("test %zu %s\n", t, tests[t].name);
    for (unsigned b = 0; b < BUILDS; b++)
        printf("build %u %s\n", b, builds[b]);
    return 0;
}

/* So many calls of one test, and nothing else that depends on their number. */
static int one(size_t test, size_t build, uint64_t calls)
{
    if (test >= sizeof tests / sizeof tests[0] || build >= BUILDS)
        return 2;
    volatile uint64_t sum = tests[test].builds[build](calls);
    (void)sum;
    return 0;
}

int main(int argc, char **argv)
{
    if (argc == 2 && strcmp(argv[1], "--names") == 0)
        return names();
    if (argc == 5 && strcmp(argv[1], "--one") == 0) {
        prepare();
        return one(strtoull(argv[2], NULL, 10), strtoull(argv[3], NULL, 10), strtoull(argv[4], NULL, 10));
    }
    uint64_t part = argc > 2 ? strtoull(argv[2], NULL, 10) : 1;   /* for a short look: one in so many calls */
    prepare();
    printf("| call |");
    for (unsigned b = 0; b < BUILDS; b++)
        printf(" %s, ns |", builds[b]);
    printf(" Rattle / fastest C |\n|---|");
    for (unsigned b = 0; b <= BUILDS; b++)
        printf("---|");
    printf("\n");
    for (size_t t = 0; t < sizeof tests / sizeof tests[0]; t++)
        measure(&tests[t], part ? part : 1);
    printf("\n%s. Processor time, medians of %d runs that take turns, in one process. The %llu SPNs were drawn evenly from the dictionary's %zu rows\n"
        "(mean row %.0f), but for those of the maps with odd widths and of both editions. State: %zu bytes (table %zu, filters %zu), %zu of sessions, %zu of a hire and %zu of a bridge, the same for all.\n",
        argc > 1 ? argv[1] : "", RUNS, (unsigned long long)rows_drawn, ENTRIES, (double)rows_sum / (double)rows_drawn, sizeof(yendrolf_box), sizeof box.table,
        sizeof box.filters, sizeof talk, sizeof hire, sizeof day);
    return 0;
}
