/* compare CALLS SEED: makes CALLS calls of the Rattle library (include/yendrolf.h) and of plain.c on the same inputs, and compares every answer, every
   buffer, and what the box means afterwards. The inputs come from SEED alone: few keys, SPNs, starts and PGNs, so that conflicts, full tables, usable
   maps and every answer are frequent, twelve pairs that send long messages at once, hires (hires.c), and days at a bridge (days.c); the counts at the end show it. At the first difference it prints the seed and the call, and ends with 1. */
#include <inttypes.h>
#include <stdio.h>
#include <stdlib.h>
#include <string.h>

#include "compare.h"
#include "plain_hire.h"

/* ---- numbers from the seed */

static uint64_t seed_now;

uint32_t any(void)
{
    uint64_t x = seed_now += 0x9e3779b97f4a7c15u;
    x = (x ^ (x >> 30)) * 0xbf58476d1ce4e5b9u;
    x = (x ^ (x >> 27)) * 0x94d049bb133111ebu;
    return (uint32_t)(x >> 32);
}

unsigned below(unsigned n)
{
    return (unsigned)((uint64_t)any() * n >> 32);
}

int one_in(unsigned n)
{
    return below(n) == 0;
}

/* ---- what is compared */

static yendrolf_box box;              /* the library's */
static struct plain_box plain;        /* the second implementation's */
static yendrolf_box before;           /* the library's before the call */

static uint64_t seed, checks;
uint64_t calls;

enum call { LEARN, FORGET, COUNT, JUDGE, PACK, READ, FIND, PARAMETER, LOCATE, MEANING, SCALED, KEYS, ADD, DELETE, RENEW, DECIDE, LIST, SAVE, LOAD, BODY, ROW, REQUEST, PACKET, SET, EDITION,
    LINE, KINDS };
static const char *const call_names[KINDS] = { "learn", "forget", "count", "judge", "pack", "read", "find", "parameter", "locate", "meaning", "scaled", "next key", "add",
    "delete", "renew", "decide", "listing", "save", "load", "body", "row", "request", "packet", "set", "edition", "line" };
#define LAST_ANSWER 31
static uint64_t answers[KINDS][LAST_ANSWER + 1], kinds[KINDS];
static uint64_t judgements[2][10];    /* of judging, and of answer 12 */
static uint64_t pass_or_block[2], longest, most_numbers;
static uint64_t unknown_told;         /* parameters whose SPN the dictionary has not */
static uint64_t states_read[4];       /* of numbers that were read */
static uint64_t scaled_told[6][4];    /* of scaling, by kind and state */
static uint64_t below_zero;           /* values */
static uint64_t located[17];          /* answers to a Parameter Locate, by their messages */
static uint64_t saved[17];            /* images, by their rows */
static uint64_t turned_bits, cuts, longer_images, reworked, still_images;   /* images that were damaged, and how many were images all the same */
static uint64_t swaps, longest_image;
static uint64_t finished, cut_up, of_255, longest_message;   /* long messages that came out, and those of them that were compared with what a sender cut up */
static uint64_t replaced, carried, strange_calls;   /* sessions that a request of their own pair ended, configured messages that came as packets and were read, and calls on head words that no calls make */
static uint64_t odd_packed, in_skipped;   /* numbers packed that have an odd width, and that stand in the bits which one skips */
static uint64_t looked_back;          /* judgements 6 that the position before does not earn */
static uint64_t uneven_images;        /* images with an odd width off its multiple of 8 */
static uint64_t judged_2004[10];      /* judgements of keys whose edition is 2004 */
static uint64_t packed_2004, located_2004, saved_2004, loaded_2004;   /* of such keys: payloads packed, records of a locate, rows of saved images and of loaded ones */
static uint64_t of_form[3], undamaged_of_form[3];   /* bytes that were tried as an image, by their form (0 any other), and how many were one */

char told_call[512];

void differ(const char *what)
{
    printf("DIFFERENT: %s\n  seed %" PRIu64 ", call %" PRIu64 ": %s\n", what, seed, calls, told_call);
    exit(1);
}

void same_answer(yendrolf_told a, struct plain_answer b)
{
    if (a.number == b.number && a.detail == b.detail && a.judgement == b.judgement && a.position == b.position)
        return;
    printf("library %u %u %u %u, plain %u %u %u %u\n", a.number, a.detail, a.judgement, a.position, b.number, b.detail, b.judgement, b.position);
    differ("the answer");
}

/* One call: its answers must be the same, and its effect on the words the one that its answer has. */
static void same(enum call kind, yendrolf_told a, struct plain_answer b)
{
    same_answer(a, b);
    calls++;
    kinds[kind]++;
    if (b.number > LAST_ANSWER || b.judgement > 9)
        differ("no answer of documents 01 and 02");
    answers[kind][b.number]++;
    if (kind == JUDGE && b.number == 0)
        judgements[0][b.judgement]++;
    if (b.number == 12)
        judgements[1][b.judgement]++;
}

/* "None": every word holds what it held. */
static void unchanged(void)
{
    if (memcmp(&box, &before, sizeof box) != 0)
        differ("a call that changes nothing changed the box");
}

/* Answer 10: of all words at most one, the mark of its key, is another. */
static void one_word_at_most(void)
{
    unsigned others = 0;
    for (unsigned i = 0; i < YENDROLF_TABLE_WORDS; i++)
        others += box.table[i] != before.table[i];
    if (others > 1 || memcmp(box.filters, before.filters, sizeof box.filters) != 0)
        differ("answer 10 changed more than a mark");
}

/* ---- what the messages are made from: for each of a scene's keys a map that its messages mostly come from */

struct intended {
    uint8_t source, destination, k;
    unsigned n, proprietary, transport;
    unsigned spn[65], start[65];
    unsigned bytes;                   /* L, where the dictionary has all its SPNs */
};

#define MOST_KEYS 24
static struct intended scene[MOST_KEYS];
static unsigned scene_keys;
static int laid;                      /* the maps of this scene are laid into the words, not taught by frames */
static uint32_t scene_pgns[40];
static uint32_t scene_spn;            /* that many maps of this scene have, or 0 */
static int scene_old;                 /* most SPNs of this scene are those that 2004 has */

/* SPNs of each width that 002 has, and some that the dictionary has not. */
static const uint32_t known[] = { 1488, 1489, 1490, 1497, 1517, 1519, 3146, 3147, 3148, 3149, 3150, 3151, 3152, 3153, 3154, 3155, 3329, 3330, 3333 };
static const uint32_t unknown[] = { 0, 1, 521, 1487, 1518, 2848, 3334, 65536, 66053, 524287 };

/* Those of odd widths, and small ones that fit into the bits which these skip. */
static const uint32_t of_odd_width[] = { 3147, 3154 };
static const uint32_t small[] = { 1497, 1498, 1519, 1520, 3148, 3149, 3150, 3151, 3152 };

/* Those that 2004 has, and the small ones of these. */
static const uint32_t of_2004[] = { 3146, 3147, 3148, 3149, 3150, 3151, 3152, 3153, 3154, 3155, 3329, 3330 };
static const uint32_t small_2004[] = { 3148, 3149, 3150, 3151, 3152 };

static uint32_t any_spn(void)
{
    if (one_in(200))
        return PICK(unknown);
    if (scene_old && !one_in(40))
        return PICK(of_2004);
    if (one_in(12))
        return PICK(of_odd_width);
    if (scene_spn && one_in(3))
        return scene_spn;
    if (one_in(3))
        return PICK(known);
    uint32_t spn;
    do
        spn = 1488 + below(3334 - 1488);
    while (plain_width(spn) == 0);
    return spn;
}

static int has_spn(const struct intended *m, unsigned positions, uint32_t spn)
{
    for (unsigned p = 1; p <= positions; p++)
        if (m->spn[p] == spn)
            return 1;
    return 0;
}

static void measure(struct intended *m)
{
    unsigned end = 0;
    for (unsigned p = 1; p <= m->n; p++) {
        unsigned e = plain_end(m->start[p], plain_width(m->spn[p]));
        if (e > end)
            end = e;
    }
    m->bytes = end <= 64 ? 8 : (end + 7) / 8;
    if (m->bytes > YENDROLF_MOST_BYTES)
        m->bytes = YENDROLF_MOST_BYTES;
}

/* Where the next parameter of a map may stand: behind `end`, the end of all so far, or in the bits from `low` up to `high`, which the odd one before it skips and nothing has. */
struct spots {
    unsigned end, low, high;
};

/* The start of the next parameter: in skipped bits where it fits, mostly; else `gap` bits behind the others, of an odd width at a multiple of 8 but for some. */
static unsigned next_start(struct spots *s, unsigned width, unsigned gap)
{
    if (width && width <= s->high - s->low && !one_in(4)) {
        unsigned inside = s->low + below(s->high - s->low - width + 1);
        s->low = inside + width;
        return inside;
    }
    unsigned start = s->end + gap, odd = (unsigned)plain_odd(width);
    if (odd && !one_in(16))
        start = (start + 7) / 8 * 8;
    s->end = plain_end(start, width ? width : 1);
    s->low = odd ? start + width / 8 * 8 : 0;
    s->high = odd ? s->end - width % 8 : 0;
    return start;
}

/* The SPN behind the first ones of a map: behind an odd width mostly a small one, which fits into the bits that it skips. */
static uint32_t next_spn(const struct intended *m, unsigned positions)
{
    if (positions && plain_odd(plain_width(m->spn[positions])) && !one_in(3))
        return scene_old ? PICK(small_2004) : PICK(small);
    return any_spn();
}

/* Whether a map of many positions has no room for this SPN: for the two of odd widths it has. */
static int too_wide(uint32_t spn)
{
    return plain_width(spn) > 8 && !plain_odd(plain_width(spn));
}

/* The lowest position of an odd width, or 0. */
static unsigned odd_position(const struct intended *m)
{
    for (unsigned p = 1; p <= m->n; p++)
        if (plain_odd(plain_width(m->spn[p])))
            return p;
    return 0;
}

/* A map of at most `most` positions, no start above `last`, that is usable but for a fault that one in three has. */
static void intend(struct intended *m, unsigned most, unsigned last)
{
    unsigned want = one_in(3) ? 1 + below(most) : one_in(2) ? 1 + below(most < 9 ? most : 9) : 1 + below(3);
    if (scene_old && want > 10)   /* 2004 has twelve */
        want = 1 + below(10);
    struct spots spots = { one_in(2) ? below(9) : 0, 0, 0 };
    if (one_in(8))
        spots.end = last > 80 ? last - below(80) : 0;
    if (one_in(8) && !scene_old)
        want = most;
    m->n = 0;
    for (unsigned p = 1; p <= want; p++) {
        uint32_t spn;
        do
            spn = next_spn(m, p - 1);
        while ((has_spn(m, p - 1, spn) || (want > 8 && too_wide(spn))) && !one_in(300));
        unsigned gap = one_in(3) ? below(9) : 0;
        if (last > 250 && one_in(4))
            gap = below(2 * last / want);
        unsigned start = next_start(&spots, plain_width(spn), gap);
        if (start > last)
            break;
        m->n = p;
        m->spn[p] = spn;
        m->start[p] = start;
    }
    if (m->n == 0) {
        m->n = 1;
        m->spn[1] = PICK(known);
        m->start[1] = last;
    }
    m->proprietary = one_in(4);
    measure(m);
    m->transport = m->bytes > 8;
    unsigned p = 1 + below(m->n), q = 1 + below(m->n);
    switch (below(36)) {
    case 0:
        m->spn[p] = PICK(unknown);
        break;
    case 1:
        m->spn[p] = m->spn[q];
        break;
    case 2:
        m->start[p] = p > 1 ? m->start[p - 1] - (m->start[p - 1] > 0 && one_in(2)) : 0;
        break;
    case 3:
        m->start[p] = p > 1 ? m->start[p - 1] + 1 : 1;
        break;
    case 4:
        m->transport = !m->transport;
        break;
    case 5:
        m->start[p] = last - below(3);
        break;
    case 6:
        if (m->n < most)
            m->n++, m->spn[m->n] = PICK(known), m->start[m->n] = last;
        break;
    case 7:
        if (m->n < most)
            m->n++, m->spn[m->n] = 1519, m->start[m->n] = 62 + below(3);
        break;
    case 8:   /* an odd width off its multiple of 8 */
        if ((p = odd_position(m)))
            m->start[p] = m->start[p] / 8 * 8 + 1 + below(7);
        if (p && m->start[p] > last)
            m->start[p] = last;
        break;
    case 9:   /* the second behind an odd width, mostly onto its top bits: often, since few maps have one there */
    case 10:
    case 11:
        if ((p = odd_position(m)) && p + 2 <= m->n && m->start[p + 1] + 7 <= last)
            m->start[p + 2] = m->start[p + 1] + 1 + below(7);
        break;
    }
    measure(m);
}

static void set_scene(unsigned most, unsigned last)
{
    static const uint8_t sources[] = { 0, 1, 38, 128, 252, 253 };
    static const uint8_t destinations[] = { 0, 39, 253, 254, 255 };
    static const uint8_t ks[] = { 1, 2, 7, 14, 15 };
    unsigned few = below(3);
    uint8_t one_source = PICK(sources);
    scene_old = one_in(3);
    scene_spn = one_in(3) ? scene_old ? PICK(of_2004) : PICK(known) : 0;
    int of_one = scene_spn && one_in(2);   /* all keys of one address, and many with one SPN: what a Parameter Locate asks for */
    scene_keys = few == 0 ? 1 + below(4) : few == 1 ? 12 + below(5) : 17 + below(8);
    for (unsigned i = 0; i < scene_keys; i++) {
        struct intended *m = &scene[i];
        m->source = of_one ? one_source : PICK(sources);
        m->destination = PICK(destinations);
        m->k = PICK(ks);
        intend(m, most, last);
    }
    for (unsigned i = 0; i < 40; i++) {
        uint32_t pgn = any() & 0x3ffff;
        if ((pgn >> 8 & 0xff) < 240)
            pgn &= 0x3ff00;
        scene_pgns[i] = one_in(4) ? 45056 + 256 * below(17) : one_in(4) ? 61440 + below(4096) : pgn;
    }
}

/* ---- frames */

struct frame {
    uint32_t identifier;
    uint8_t length;
    uint8_t data[8];
};

/* The frame that says what `m` says of position p; the fields may have any value that their places carry. */
static struct frame frame_of(const struct intended *m, unsigned p, unsigned first_only)
{
    struct frame f;
    uint32_t pgn = 45056 + 256u * m->k, spn = m->spn[p];
    f.identifier = below(8) << 26 | 0xb00000 | (uint32_t)m->destination << 8 | m->source;
    f.length = 8;
    f.data[0] = (uint8_t)pgn;
    f.data[1] = (uint8_t)(pgn >> 8);
    f.data[2] = (uint8_t)(pgn >> 16);
    f.data[3] = (uint8_t)spn;
    f.data[4] = (uint8_t)(spn >> 8);
    f.data[5] = (uint8_t)((spn >> 16 & 7) << 5 | (p & 31));
    f.data[6] = (uint8_t)(m->proprietary << 7 | m->transport << 6 | first_only << 5 | (m->n & 31));
    f.data[7] = (uint8_t)(m->start[p] + 1);
    return f;
}

/* A frame that mostly teaches a key of the scene, and sometimes is wrong in one way or another. */
static struct frame any_frame(void)
{
    const struct intended *m = &scene[below(scene_keys)];
    struct frame f;
    if (one_in(30)) {
        f.identifier = any() & (one_in(4) ? 0xffffffff : 0x1fffffff);
        f.length = (uint8_t)(one_in(3) ? below(256) : 8);
        for (unsigned i = 0; i < 8; i++)
            f.data[i] = (uint8_t)any();
        return f;
    }
    unsigned p = 1 + below(m->n);
    f = frame_of(m, p, p == 1 && one_in(3));
    if (!one_in(6))
        return f;
    static const uint8_t starts[] = { 0, 0, 0, 0, 1, 250, 251, 251, 252, 253, 254, 255 };
    switch (below(22)) {
    case 0:
        f.identifier |= 1u << (29 + below(3));
        break;
    case 1:
        f.identifier ^= 1u << (16 + below(10));
        break;
    case 2:
        f.length = (uint8_t)below(11);
        break;
    case 3:
        f.identifier |= 0xfe | below(2);
        break;
    case 4:
        f.data[0] = (uint8_t)(1u << below(8));
        break;
    case 5:
        f.data[1] = (uint8_t)(one_in(2) ? 176 : 192);
        break;
    case 6:
        f.data[2] = (uint8_t)(1u << below(8));
        break;
    case 7:
        f.data[6] &= 0xe0;
        break;
    case 8:
        f.data[5] &= 0xe0;
        break;
    case 9:
        f.data[5] = (uint8_t)((f.data[5] & 0xe0) | ((m->n + 1) & 31));
        break;
    case 10:
        f.data[6] |= 0x20;
        break;
    case 11:
    case 12:
        f.data[7] = PICK(starts);
        break;
    case 13:
        if (one_in(6))
            f.data[6] ^= 0x80;
        break;
    case 14:
        if (one_in(6))
            f.data[6] ^= 0x40;
        break;
    case 15:
        if (one_in(6))
            f.data[3] ^= 1;
        break;
    case 16:
        if (one_in(6))
            f.data[5] ^= 0x20;
        break;
    case 17:
        if (one_in(6))
            f.data[6] = (uint8_t)((f.data[6] & 0xe0) | ((m->n + 1) & 31));
        break;
    default:
        f.identifier = below(8) << 26 | scene_pgns[below(40)] << 8 | below(256);
        break;
    }
    return f;
}

/* ---- the calls */

/* A key of the scene, or now and then another. */
static struct intended any_key(void)
{
    struct intended m = scene[below(scene_keys)];
    if (one_in(24)) {
        if (one_in(2))
            m.k = (uint8_t)below(256);
        else if (one_in(2))
            m.source ^= 1;
        else
            m.destination ^= 128;
    }
    return m;
}

static void say_frame(const char *what, struct frame f)
{
    snprintf(told_call, sizeof told_call, "%s %08" PRIx32 " %u  %02x %02x %02x %02x %02x %02x %02x %02x", what, f.identifier, f.length, f.data[0], f.data[1], f.data[2], f.data[3],
        f.data[4], f.data[5], f.data[6], f.data[7]);
}

static void learn(struct frame f)
{
    say_frame("learn", f);
    yendrolf_told a = yendrolf_learn(&box, f.identifier, f.length, f.data);
    same(LEARN, a, plain_learn(&plain, f.identifier, f.length, f.data));
    if (a.number == 10)
        one_word_at_most();
    else if (a.number != 0)
        unchanged();
}

static void forget(struct intended m)
{
    snprintf(told_call, sizeof told_call, "forget %u %u %u", m.source, m.destination, m.k);
    yendrolf_told a = yendrolf_forget(&box, m.source, m.destination, m.k);
    same(FORGET, a, plain_forget(&plain, m.source, m.destination, m.k));
    if (a.number != 0)
        unchanged();
}

static void count(struct intended m)
{
    snprintf(told_call, sizeof told_call, "count %u %u %u", m.source, m.destination, m.k);
    if (yendrolf_count(&box, m.source, m.destination, m.k) != plain_count(&plain, m.source, m.destination, m.k))
        differ("the number of parameters");
    calls++;
    kinds[COUNT]++;
    unchanged();
}

/* Judgement 6 at a position of a key: whether it begins behind the one before, so that it shares its bit with one further back. */
static int further_back(struct intended m, unsigned position)
{
    struct plain_parameter here = plain_parameter_at(&plain, m.source, m.destination, m.k, position);
    struct plain_parameter before_it = plain_parameter_at(&plain, m.source, m.destination, m.k, position - 1);
    return here.start >= plain_end(before_it.start, before_it.width);
}

static void judge(struct intended m)
{
    snprintf(told_call, sizeof told_call, "judge %u %u %u", m.source, m.destination, m.k);
    struct plain_answer b = plain_judge(&plain, m.source, m.destination, m.k);
    same(JUDGE, yendrolf_judge(&box, m.source, m.destination, m.k), b);
    unchanged();
    looked_back += b.judgement == 6 && further_back(m, b.position);
    if (b.number == 0 && plain_edition(&plain, m.source, m.destination, m.k) == 2004)
        judged_2004[b.judgement]++;
}

/* The edition of a key. */
static void edition(struct intended m)
{
    snprintf(told_call, sizeof told_call, "edition of %u %u %u", m.source, m.destination, m.k);
    if (yendrolf_edition(&box, m.source, m.destination, m.k) != plain_edition(&plain, m.source, m.destination, m.k))
        differ("the edition");
    calls++;
    kinds[EDITION]++;
    unchanged();
}

/* Sets a key's edition, now and then to a number that is none. "a command changes one held key's edition and nothing else of it": of all words at most one, the key's form, is another, and of
   that the one bit which says the edition (crates/keyrow/specs/Row.antt). */
static void set_edition(struct intended m)
{
    static const uint32_t none[] = { 0, 1, 2003, 2005, 2007, 2009, 2011, 2004 + 65536, 2010 + 65536, 2004u + 0x80000000u, 0xffffffff };
    uint32_t said = one_in(8) ? one_in(4) ? any() : PICK(none) : one_in(3) ? 2010 : 2004;
    snprintf(told_call, sizeof told_call, "set the edition of %u %u %u to %" PRIu32, m.source, m.destination, m.k, said);
    yendrolf_told a = yendrolf_set_edition(&box, m.source, m.destination, m.k, said);
    same(SET, a, plain_set_edition(&plain, m.source, m.destination, m.k, said));
    unsigned others = 0;
    for (unsigned i = 0; i < YENDROLF_TABLE_WORDS; i++)
        if (box.table[i] != before.table[i]) {
            others++;
            if (i % 67 != 2 || (box.table[i] ^ before.table[i]) != 1024)
                differ("an edition changed more than its bit");
        }
    if (others > (a.number == 0) || memcmp(box.filters, before.filters, sizeof box.filters) != 0)
        differ("an edition changed more than its key's form");
    memcpy(&before, &box, sizeof box);
    edition(m);
    judge(m);
}

#define BUFFER (YENDROLF_MOST_BYTES + 40)
#define PLACES 80

static void fill_bytes(uint8_t *a, uint8_t *b, size_t size)
{
    for (size_t i = 0; i < size; i++)
        a[i] = (uint8_t)any();
    memcpy(b, a, size);
}

/* A length of a room for n: below it, at it and above it. */
static unsigned any_room(unsigned n)
{
    return one_in(2) ? n : one_in(8) ? n - 1 : one_in(8) ? below(4) : n + below(PLACES - 64);
}

static void read_back(struct intended m, const uint8_t *payload, size_t size, const uint32_t *packed)
{
    static uint32_t one[PLACES], two[PLACES];
    static uint8_t one_states[PLACES], two_states[PLACES];
    for (unsigned i = 0; i < PLACES; i++)
        one[i] = two[i] = any();
    fill_bytes(one_states, two_states, PLACES);
    unsigned room = any_room(m.n), places = any_room(m.n);
    snprintf(told_call, sizeof told_call, "read %u %u %u, %zu bytes, room for %u numbers and %u states", m.source, m.destination, m.k, size, room, places);
    yendrolf_told a = yendrolf_read(&box, m.source, m.destination, m.k, payload, size, one, room, one_states, places);
    same(READ, a, plain_read(&plain, m.source, m.destination, m.k, payload, size, two, room, two_states, places));
    unchanged();
    if (memcmp(one, two, sizeof one) != 0)
        differ("the numbers");
    if (memcmp(one_states, two_states, sizeof one_states) != 0)
        differ("the states");
    if (a.number == 0)
        for (unsigned i = 0; i < a.detail; i++)
            states_read[one_states[i]]++;
    if (a.number == 0 && packed && memcmp(one, packed, a.detail * sizeof one[0]) != 0)
        differ("what was packed is not what is read");
}

/* A number beside the lines that part the states of its width. */
static uint32_t edge(unsigned width)
{
    if (width < 8 || width > 32)
        return below(5);
    unsigned low = width - 8;
    return (248 + below(8)) << low | (one_in(2) ? (1u << low) - 1 : one_in(2) ? 0 : any() & ((1u << low) - 1));
}

/* What a map that was packed has of odd widths. */
static void count_odd(const struct intended *m)
{
    unsigned end = 0;
    for (unsigned p = 1; p <= m->n; p++) {
        unsigned width = plain_width(m->spn[p]), own = plain_end(m->start[p], width);
        odd_packed += (unsigned)plain_odd(width);
        in_skipped += m->start[p] < end;   /* in a usable map nothing else begins before the end of another */
        if (own > end)
            end = own;
    }
}

/* Numbers that a map's widths hold, for each position and further places. */
static void draw_numbers(const struct intended *m, uint32_t numbers[PLACES])
{
    for (unsigned i = 0; i < PLACES; i++) {
        unsigned width = i < m->n ? plain_width(m->spn[i + 1]) : 8;
        numbers[i] = width >= 32 ? any() : any() & ((1u << width) - 1);
        if (one_in(8))
            numbers[i] = width >= 32 ? 0xffffffff : (1u << width) - 1;
        if (width >= 8 && one_in(4))
            numbers[i] = edge(width);
    }
}

static void pack(struct intended m)
{
    static uint8_t one[BUFFER], two[BUFFER];
    uint32_t numbers[PLACES];
    unsigned count = one_in(12) ? m.n + 1 : one_in(12) ? m.n - 1 : one_in(30) ? below(PLACES) : m.n;
    draw_numbers(&m, numbers);
    if (one_in(6)) {
        unsigned i = below(m.n), width = plain_width(m.spn[i + 1]);
        numbers[i] = one_in(2) ? any() : width >= 32 ? 0 : 1u << width;
    }
    size_t size = one_in(3) ? m.bytes : one_in(6) ? m.bytes - 1 : one_in(6) ? below(12) : m.bytes + below(40);
    fill_bytes(one, two, size + 16 < BUFFER ? size + 16 : BUFFER);
    snprintf(told_call, sizeof told_call, "pack %u %u %u, %u numbers from %u, %zu bytes", m.source, m.destination, m.k, count, numbers[0], size);
    yendrolf_told a = yendrolf_pack(&box, m.source, m.destination, m.k, numbers, count, one, size);
    same(PACK, a, plain_pack(&plain, m.source, m.destination, m.k, numbers, count, two, size));
    unchanged();
    if (memcmp(one, two, size + 16 < BUFFER ? size + 16 : BUFFER) != 0)
        differ("the payload");
    if (a.number == 0) {
        if (a.detail > longest)
            longest = a.detail;
        if (count > most_numbers)
            most_numbers = count;
        count_odd(&m);
        packed_2004 += plain_edition(&plain, m.source, m.destination, m.k) == 2004;
        read_back(m, one, a.detail, numbers);
    }
}

static void read_any(struct intended m)
{
    static uint8_t payload[BUFFER], spare[BUFFER];
    size_t size = one_in(8) ? m.bytes + 1 : one_in(8) ? m.bytes - 1 : one_in(8) ? below(40) : m.bytes;
    fill_bytes(payload, spare, size);
    for (size_t i = 0; i < size; i++)
        if (one_in(4))
            payload[i] = (uint8_t)edge(8);
    read_back(m, payload, size, NULL);
}

static void find(struct intended m)
{
    uint32_t spn = one_in(3) ? any_spn() : one_in(20) ? any() : m.spn[1 + below(m.n)];
    snprintf(told_call, sizeof told_call, "find %u %u %u, SPN %" PRIu32, m.source, m.destination, m.k, spn);
    yendrolf_found a = yendrolf_find(&box, m.source, m.destination, m.k, spn);
    struct plain_found b = plain_find(&plain, m.source, m.destination, m.k, spn);
    same(FIND, a.told, b.answer);
    unchanged();
    if (a.position != b.position || a.start != b.start || a.width != b.width)
        differ("what was found");
}

/* The parameter at a position from 0 to 65, at 255, or at the one that the map's judgement names. */
static void parameter_at(struct intended m)
{
    unsigned position = one_in(30) ? 255 : one_in(4) ? below(66) : below(m.n + 2);
    if (one_in(4))
        position = plain_judge(&plain, m.source, m.destination, m.k).position;
    snprintf(told_call, sizeof told_call, "parameter %u %u %u, position %u", m.source, m.destination, m.k, position);
    yendrolf_parameter a = yendrolf_parameter_at(&box, m.source, m.destination, m.k, (uint8_t)position);
    struct plain_parameter b = plain_parameter_at(&plain, m.source, m.destination, m.k, position);
    same(PARAMETER, a.told, b.answer);
    unchanged();
    if (a.spn != b.spn || a.start != b.start || a.width != b.width)
        differ("the parameter");
    unknown_told += b.answer.number == 0 && b.width == 0;
}

#define LOG 640

/* A Parameter Locate: mostly for an SPN of the key's map, asked of its source or of all, and sometimes wrong in one way or another. */
static struct frame any_request(struct intended m, uint8_t own)
{
    uint32_t spn = one_in(8) ? any_spn() : one_in(30) ? any() & 0x7ffff : scene_spn && one_in(2) ? scene_spn : m.spn[1 + below(m.n)];
    uint32_t to = one_in(3) ? 255 : one_in(8) ? below(256) : one_in(12) ? m.destination : own;
    struct frame f = { below(8) << 26 | 0xaf0000 | to << 8 | below(256), 8, { (uint8_t)spn, (uint8_t)(spn >> 8), (uint8_t)((spn >> 16 & 7) << 5 | 31), 255, 255, 255, 255, 0 } };
    if (one_in(3)) {   /* the reserved bits, which count for nothing */
        f.data[2] = (uint8_t)((f.data[2] & 0xe0) | below(32));
        for (unsigned i = 3; i < 7; i++)
            f.data[i] = (uint8_t)any();
    }
    if (one_in(20))
        f.identifier |= 1u << (29 + below(3));
    if (one_in(20))
        f.identifier ^= 1u << (16 + below(10));
    if (one_in(20))
        f.length = (uint8_t)(one_in(2) ? below(11) : below(256));
    if (one_in(20))
        f.data[7] = (uint8_t)(one_in(2) ? 1u << below(8) : below(256));
    return f;
}

#define ANY_ADDRESS 256

/* Whether a key of this address has a map that is laid, not taught: what no message can say, documents 01 and 02 do not write. */
static int beyond_the_wire(unsigned own)
{
    for (unsigned i = 0; i < plain.held; i++)
        for (size_t j = 0; j < plain.sets[i].count; j++) {
            const struct plain_message *m = &plain.sets[i].messages[j];
            if ((own == ANY_ADDRESS || m->source == own) && (m->n > 31 || m->start > 249))
                return 1;
        }
    return 0;
}

/* What was written is heard: by the box that wrote it, which it teaches nothing, and by an empty one, which then has each key with the SPN where it stood. */
static void hear(const uint8_t *records, unsigned count, uint32_t spn)
{
    static yendrolf_box other;
    yendrolf_empty(&other);
    for (const uint8_t *r = records; r < records + 13 * count; r += 13) {
        uint32_t identifier = r[0] | (uint32_t)r[1] << 8 | (uint32_t)r[2] << 16 | (uint32_t)r[3] << 24;
        if (yendrolf_learn(&box, identifier, r[4], r + 5).number != 0 || yendrolf_learn(&other, identifier, r[4], r + 5).number != 0)
            differ("a record that was written is refused");
        unchanged();
    }
    unsigned keys = 0;
    for (yendrolf_key key = yendrolf_first_key(&other); key.held; key = yendrolf_next_key(&other, key.source, key.destination, key.k)) {
        yendrolf_found there = yendrolf_find(&box, key.source, key.destination, key.k, spn);
        yendrolf_parameter heard = yendrolf_parameter_at(&other, key.source, key.destination, key.k, (uint8_t)there.position);
        located_2004 += yendrolf_edition(&box, key.source, key.destination, key.k) == 2004;
        if (yendrolf_edition(&other, key.source, key.destination, key.k) != 2010)
            differ("a message taught an edition");
        if (there.told.number != 0 || heard.told.number != 0 || heard.spn != spn || heard.start != there.start
            || yendrolf_count(&other, key.source, key.destination, key.k) != yendrolf_count(&box, key.source, key.destination, key.k))
            differ("a record that was written teaches another placement");
        keys++;
    }
    if (keys != count)
        differ("the records are not of as many keys");
}

static void locate(struct intended m)
{
    static uint8_t one[LOG], two[LOG];
    uint8_t own = (uint8_t)(one_in(12) ? below(256) : m.source);
    struct frame f = any_request(m, own);
    unsigned need = 13 * plain_locate(&plain, own, f.identifier, f.length, f.data, two, LOG, 0).detail;
    size_t start = one_in(3) ? 0 : one_in(2) ? 13 * below(17) : below(260);
    size_t size = start + need + (one_in(2) ? 0 : below(60));
    if (one_in(6))   /* one byte short of it, if there is one */
        size = start + need > 0 ? start + need - 1 : 0;
    if (one_in(12))
        size = below(300);
    if (one_in(12))
        start = one_in(2) ? SIZE_MAX - below(300) : one_in(2) ? 0 - (size_t)need : (size_t)any() << 32 | any();
    fill_bytes(one, two, LOG);
    snprintf(told_call, sizeof told_call, "locate as %u, %08" PRIx32 " %u  %02x %02x %02x %02x %02x %02x %02x %02x, %zu bytes from %zu", own, f.identifier, f.length, f.data[0],
        f.data[1], f.data[2], f.data[3], f.data[4], f.data[5], f.data[6], f.data[7], size, start);
    yendrolf_told a = yendrolf_locate(&box, own, f.identifier, f.length, f.data, one, size, start);
    same(LOCATE, a, plain_locate(&plain, own, f.identifier, f.length, f.data, two, size, start));
    unchanged();
    int wide = beyond_the_wire(own);
    if (wide && a.number == 0)   /* then all but the records is compared */
        memcpy(one + start, two + start, 13 * a.detail);
    if (memcmp(one, two, LOG) != 0)
        differ("the log");
    if (a.number == 0)
        located[a.detail]++;
    if (!wide && a.number == 0)
        hear(one + start, a.detail, f.data[0] | (uint32_t)f.data[1] << 8 | (uint32_t)(f.data[2] >> 5) << 16);
}

/* An SPN that the dictionary has, with an offset below 0 now and then; one beside it; or any. */
static uint32_t asked_spn(void)
{
    static const uint32_t with_offset[] = { 1508, 1509, 1510, 1539, 3090 };
    if (one_in(6))
        return PICK(with_offset);
    return one_in(10) ? any() : one_in(8) ? any_spn() + 1 : one_in(8) ? any_spn() - 1 : any_spn();
}

static void meaning(void)
{
    uint32_t spn = asked_spn();
    snprintf(told_call, sizeof told_call, "meaning of %" PRIu32, spn);
    yendrolf_meant a = yendrolf_meaning(spn);
    struct plain_meaning b = plain_meaning(spn);
    calls++;
    kinds[MEANING]++;
    if (a.width != b.width || a.resolution != b.resolution || a.offset != b.offset || a.kind != b.kind)
        differ("the meaning");
    unchanged();
}

static void scaled(void)
{
    uint32_t spn = asked_spn();
    unsigned width = plain_width(spn);
    uint32_t number = one_in(6) ? any() : one_in(2) ? edge(width) : any() & (uint32_t)((1ull << width) - 1);
    if (one_in(12))
        number += width < 32 ? 1u << width : 0;   /* past its width */
    snprintf(told_call, sizeof told_call, "scaled %" PRIu32 " of SPN %" PRIu32, number, spn);
    yendrolf_value a = yendrolf_scaled(spn, number);
    struct plain_scaled b = plain_scaled(spn, number);
    calls++;
    kinds[SCALED]++;
    if (a.value != b.value || a.kind != b.kind || a.state != b.state)
        differ("the value");
    scaled_told[b.kind][b.state]++;
    below_zero += b.value < 0;
    unchanged();
}

static int same_key(yendrolf_key a, int held, unsigned source, unsigned destination, unsigned k)
{
    if (!held)
        return a.held == 0 && a.source == 0 && a.destination == 0 && a.k == 0;
    return a.held == 1 && a.source == source && a.destination == destination && a.k == k;
}

/* The lowest key above one, which need not be held. */
static void next_key(struct intended m)
{
    snprintf(told_call, sizeof told_call, "next key after %u %u %u", m.source, m.destination, m.k);
    yendrolf_key a = yendrolf_next_key(&box, m.source, m.destination, m.k);
    unsigned source = m.source, destination = m.destination, k = m.k + 1u;   /* k 256 stands before the next destination's 0 */
    int held = plain_key_from(&plain, &source, &destination, &k);
    calls++;
    kinds[KEYS]++;
    unchanged();
    if (!same_key(a, held, source, destination, k))
        differ("the next key");
}

/* What the whole table means: its keys in order, and each key's judgement; and the scene's keys, held or not. */
static void check_table(void)
{
    memcpy(&before, &box, sizeof box);
    unsigned source = 0, destination = 0, k = 0;
    yendrolf_key a = yendrolf_first_key(&box);
    for (;;) {
        int held = plain_key_from(&plain, &source, &destination, &k);
        snprintf(told_call, sizeof told_call, "keys in order, at %u %u %u", source, destination, k);
        calls++;
        kinds[KEYS]++;
        if (!same_key(a, held, source, destination, k))
            differ("the keys in order");
        if (!held)
            break;
        struct intended m = { (uint8_t)source, (uint8_t)destination, (uint8_t)k, 0, 0, 0, { 0 }, { 0 }, 0 };
        count(m);
        edition(m);
        judge(m);
        a = yendrolf_next_key(&box, (uint8_t)source, (uint8_t)destination, (uint8_t)k);
        k++;
    }
    for (unsigned i = 0; i < scene_keys; i++) {
        edition(scene[i]);
        judge(scene[i]);
        find(scene[i]);
        parameter_at(scene[i]);
    }
    checks++;
}

static uint8_t any_port(void)
{
    static const uint8_t strange[] = { 0, 5, 6, 15, 16, 255 };
    return one_in(20) ? PICK(strange) : (uint8_t)(1 + below(4));
}

static uint32_t any_pgn(void)
{
    if (one_in(12))
        return one_in(2) ? any() : scene_pgns[below(40)] | 1u << below(20);
    return scene_pgns[below(40)];
}

static void command(enum call kind)
{
    uint8_t from = any_port(), to = any_port(), mode = (uint8_t)(one_in(10) ? below(256) : below(2));
    uint32_t pgn = any_pgn(), identifier = below(8) << 26 | (any_pgn() & 0x3ffff) << 8 | below(256);
    if (one_in(2))   /* few pairs, so that lists fill */
        from = 1, to = 2;
    if (one_in(20))
        identifier = any();
    yendrolf_told a;
    struct plain_answer b;
    snprintf(told_call, sizeof told_call, "%s %u %u, PGN %" PRIu32 ", mode %u, identifier %08" PRIx32, call_names[kind], from, to, pgn, mode, identifier);
    switch (kind) {
    case ADD:
        a = yendrolf_add(&box, from, to, pgn);
        b = plain_add(&plain, from, to, pgn);
        break;
    case DELETE:
        a = yendrolf_delete(&box, from, to, pgn);
        b = plain_delete(&plain, from, to, pgn);
        break;
    case RENEW:
        a = yendrolf_renew(&box, from, to, mode);
        b = plain_renew(&plain, from, to, mode);
        break;
    default:
        a = yendrolf_decide(&box, from, to, identifier);
        b = plain_decide(&plain, from, to, identifier);
        if (b.number == 0)
            pass_or_block[b.detail]++;
        break;
    }
    same(kind, a, b);
    if (kind == DECIDE || a.number != 0)
        unchanged();
    if (memcmp(box.table, before.table, sizeof box.table) != 0)
        differ("a filter's command changed the table");
}

/* What the filters mean: for each pair, which of the scene's PGNs pass. */
static void check_filters(void)
{
    memcpy(&before, &box, sizeof box);
    for (uint8_t from = 1; from <= 4; from++)
        for (uint8_t to = 1; to <= 4; to++)
            for (unsigned i = 0; i < 40; i++) {
                uint32_t identifier = scene_pgns[i] << 8 | 0x18000000;
                snprintf(told_call, sizeof told_call, "decide %u %u, identifier %08" PRIx32, from, to, identifier);
                yendrolf_told a = yendrolf_decide(&box, from, to, identifier);
                struct plain_answer b = plain_decide(&plain, from, to, identifier);
                same(DECIDE, a, b);
                if (b.number == 0)
                    pass_or_block[b.detail]++;
            }
    unchanged();
    checks++;
}

/* A frame as a record, at this byte of a log: the byte behind it. */
static size_t put_record(uint8_t *log, size_t at, struct frame f)
{
    for (unsigned i = 0; i < 4; i++)
        log[at + i] = (uint8_t)(f.identifier >> 8 * i);
    log[at + 4] = f.length;
    memcpy(log + at + 5, f.data, 8);
    return at + 13;
}

/* A log of any frames, fed in chunks of any size, and its listing, laid into a buffer that is long enough or not. */
static void listing(void)
{
    static uint8_t log[13 * 400 + 13], text[600], held[600];
    static char wanted[1024];
    static yendrolf_box own;
    size_t size = 13 * (size_t)below(one_in(3) ? 4 : 400), fed = 0;
    for (size_t at = 0; at < size;)
        at = put_record(log, at, any_frame());
    for (unsigned cut = one_in(2) ? below(13) : 0; cut > 0; cut--)
        log[size++] = (uint8_t)any();
    size_t length = plain_listing(log, size, wanted, sizeof wanted);
    unsigned longest_chunk = one_in(3) ? 5 : one_in(2) ? 40 : 6000;
    yendrolf_empty(&own);
    yendrolf_log state = yendrolf_start_log();
    while (fed < size) {
        size_t chunk = below(longest_chunk);
        if (chunk > size - fed)
            chunk = size - fed;
        state = yendrolf_feed(&own, state, log + fed, chunk);
        fed += chunk;
    }
    fill_bytes(text, held, sizeof text);
    size_t room = one_in(4) ? length : one_in(4) ? length - 1 : one_in(8) ? below(40) : sizeof text;
    snprintf(told_call, sizeof told_call, "listing of %zu bytes into %zu:\n%.*s", size, room, (int)length, wanted);
    struct plain_answer b = { room < length ? 13 : 0, room < length ? 0 : (unsigned)length, 0, 0 };
    same(LIST, yendrolf_finish(&own, state, text, room), b);
    if (b.number == 0)
        memcpy(held, wanted, length);
    if (memcmp(text, held, sizeof text) != 0)
        differ("the listing");
    unchanged();
}

/* ---- images */

#define IMAGE 5400                    /* more than any table's image has, 64 positions in each of 16 keys */

/* Saved into a buffer that is too short, exactly long enough, or longer; compared whole. */
static void save(void)
{
    static uint8_t one[IMAGE], two[IMAGE];
    size_t need = plain_image_size(&plain), size = one_in(2) ? need : one_in(3) ? need - 1 : one_in(3) ? below((unsigned)need) : need + below(60);
    fill_bytes(one, two, IMAGE);
    snprintf(told_call, sizeof told_call, "save an image of %zu bytes into %zu", need, size);
    if (yendrolf_image_size(&box) != need)
        differ("the size of the image");
    yendrolf_told a = yendrolf_save(&box, one, size);
    same(SAVE, a, plain_save(&plain, two, size));
    unchanged();
    if (a.number == 0)
        saved[two[1]]++;
    for (unsigned i = 0; a.number == 0 && i < two[1]; i++)
        saved_2004 += two[2 + 8 * i + 7] == 1;
    if (a.number == 0 && need > longest_image)
        longest_image = need;
    if (a.number == 0 && beyond_the_wire(ANY_ADDRESS))   /* then all but the image is compared */
        memcpy(one, two, need);
    if (memcmp(one, two, IMAGE) != 0)
        differ("the image");
}

static void same_row(enum call kind, yendrolf_row a, struct plain_row b)
{
    same(kind, a.told, b.answer);
    if (a.source != b.source || a.destination != b.destination || a.k != b.k || a.offset != b.offset || a.length != b.length || a.edition != b.edition)
        differ("the row");
}

/* An image asked for a key of the scene, or for a row. */
static void ask_image(const uint8_t *image, size_t size)
{
    if (one_in(2)) {
        struct intended m = any_key();
        snprintf(told_call, sizeof told_call, "%zu bytes asked for %u %u %u", size, m.source, m.destination, m.k);
        same_row(BODY, yendrolf_image_body(image, size, m.source, m.destination, m.k), plain_image_body(image, size, m.source, m.destination, m.k));
    } else {
        size_t row = one_in(8) ? (size_t)any() << 32 | any() : one_in(4) ? below(18) : below(size > 1 ? image[1] + 1u : 1);
        snprintf(told_call, sizeof told_call, "%zu bytes asked for row %zu", size, row);
        same_row(ROW, yendrolf_image_row(image, size, row), plain_image_row(image, size, row));
    }
    unchanged();
}

static yendrolf_box other, other_before;   /* another box, and the second implementation's */
static struct plain_box plain_other;

static void load_other(const uint8_t *image, size_t size)
{
    yendrolf_told a = yendrolf_load(&other, image, size);
    same(LOAD, a, plain_load(&plain_other, image, size));
    if (a.number != 0 && memcmp(&other, &other_before, sizeof other) != 0)
        differ("a load that was refused changed the box");
    unchanged();
}

/* The bytes of a row: from form 2 on it has the edition too. */
static size_t row_size(unsigned form)
{
    return form == 1 ? 7 : 8;
}

/* An image of either form as it is written now: of form 1 each offset is as many bytes further as there are rows, and each row has the edition 2010. */
static size_t in_form_2(const uint8_t *image, size_t size, uint8_t *out)
{
    unsigned count = image[1];
    if (image[0] == 2) {
        memcpy(out, image, size);
        return size;
    }
    out[0] = 2;
    out[1] = (uint8_t)count;
    for (unsigned i = 0; i < count; i++) {
        uint8_t *row = out + 2 + 8 * i;
        memcpy(row, image + 2 + 7 * i, 7);
        unsigned offset = row[3] + 256u * row[4] + count;
        row[3] = (uint8_t)offset;
        row[4] = (uint8_t)(offset >> 8);
        row[7] = 0;
    }
    memcpy(out + 2 + 8 * count, image + 2 + 7 * count, size - 2 - 7 * count);
    return size + count;
}

/* Bytes that may be an image: loaded into an empty box, saved again where that went, and asked. */
static void try_image(const uint8_t *image, size_t size, const char *how, size_t at)
{
    static uint8_t again[YENDROLF_IMAGE_BYTES], wanted[YENDROLF_IMAGE_BYTES];
    unsigned form = size > 0 && (image[0] == 1 || image[0] == 2) ? image[0] : 0;
    yendrolf_empty(&other);
    plain_empty(&plain_other);
    memcpy(&other_before, &other, sizeof other);
    snprintf(told_call, sizeof told_call, "load %zu bytes, %s at %zu", size, how, at);
    load_other(image, size);
    of_form[form]++;
    if (yendrolf_first_key(&other).held || (size == 2 && form != 0 && image[1] == 0)) {
        still_images++;
        undamaged_of_form[form]++;
        size_t need = in_form_2(image, size, wanted);
        if (yendrolf_image_size(&other) != need || yendrolf_save(&other, again, sizeof again).number != 0 || memcmp(again, wanted, need) != 0)
            differ("what was loaded is not saved as it was");
        for (unsigned i = 0; i < wanted[1]; i++)
            loaded_2004 += wanted[2 + 8 * i + 7] == 1;
    }
    ask_image(image, size);
}

/* Moves a message of an odd width off its multiple of 8, the first of a body that has one: whether it has. */
static int make_uneven(uint8_t *body, size_t length)
{
    for (uint8_t *five = body; five < body + length; five += 5)
        if (plain_odd(plain_width(five[0] + 256u * five[1] + 65536u * (five[2] >> 5)))) {
            unsigned wire = five[4] + 1 + below(7);
            five[4] = (uint8_t)(wire > 250 ? 250 : wire);
            return 1;
        }
    return 0;
}

/* Bytes that no box has as its image since Req 04: "A saved map no longer usable makes its image damaged." */
static void must_be_damaged(const uint8_t *image, size_t size)
{
    uneven_images++;
    if (plain_load(&plain_other, image, size).number != 21)
        differ("an image with an odd width that does not start at a multiple of 8 is not damaged");
}

/* The rows and bodies of an image taken apart, changed in one way, and put together again: what is then wrong is one thing alone, and often nothing is. */
static void rework(const uint8_t *image)
{
    static uint8_t out[IMAGE], bodies[18][200];
    struct { uint8_t key[3], edition; size_t length; } parts[18];
    unsigned form = image[0], count = image[1], gap_before = 99, moved = 99;
    int uneven = 0;
    size_t gap = 0, at = 2 + row_size(form) * count;
    for (unsigned i = 0; i < count; i++) {
        const uint8_t *row = image + 2 + row_size(form) * i;
        memcpy(parts[i].key, row, 3);
        parts[i].length = row[5] + 256u * row[6];
        parts[i].edition = form == 2 ? row[7] : 0;
        memcpy(bodies[i], image + at, parts[i].length);
        at += parts[i].length;
    }
    unsigned what = below(12), i = count ? below(count) : 0, j = count ? below(count) : 0;
    if (what == 0 || count == 0) {   /* a key more: a row too many, or one that does not rise, or an image */
        static const uint8_t bodies_of_one[5][5] = { { 0xed, 0x05, 0x01, 0x81, 0x01 }, { 0xed, 0x05, 0x01, 0xc1, 0xfa }, { 0xed, 0x05, 0x01, 0xc1, 0xfb },
            { 0x4b, 0x0c, 0x01, 0x81, 0x11 }, { 0x4b, 0x0c, 0x01, 0x81, 0x12 } };   /* the last two of 19 bits, from bit 16 and from 17 on */
        memcpy(bodies[count], PICK(bodies_of_one), 5);
        parts[count].length = 5;
        parts[count].edition = (uint8_t)below(2);   /* 2004 has the SPN of the last two, and not that of the others */
        parts[count].key[0] = one_in(4) ? (uint8_t)any() : 253;
        parts[count].key[1] = one_in(4) ? (uint8_t)any() : 255;
        parts[count++].key[2] = one_in(4) ? (uint8_t)any() : 15;
    } else if (what == 1 || what == 2) {   /* two rows exchanged, with their bodies or without; or one twice */
        uint8_t key[3];
        memcpy(key, parts[i].key, 3);
        memcpy(parts[i].key, parts[j].key, 3);
        memcpy(parts[j].key, key, 3);
        if (what == 2) {
            uint8_t body[200];
            size_t length = parts[i].length;
            uint8_t edition = parts[i].edition;
            memcpy(body, bodies[i], sizeof body);
            memcpy(bodies[i], bodies[j], sizeof body);
            memcpy(bodies[j], body, sizeof body);
            parts[i].length = parts[j].length;
            parts[i].edition = parts[j].edition;
            parts[j].length = length;
            parts[j].edition = edition;
        }
    } else if (what == 3) {   /* the last row left out, or laid twice */
        if (one_in(2)) {
            count--;
        } else {
            parts[count] = parts[count - 1];
            memcpy(bodies[count], bodies[count - 1], sizeof bodies[0]);
            count++;
        }
    } else if (what == 4) {   /* a body with its last message once more, without it, or with bytes behind it */
        size_t length = parts[i].length;
        memcpy(bodies[i] + length, bodies[i] + length - 5, 5);
        parts[i].length = one_in(3) ? length + 5 : one_in(2) ? length - 5 : length + 1 + below(4);
    } else if (what == 5) {
        gap_before = one_in(3) ? count : i;
        gap = 1 + below(7);
    } else if (what == 6) {
        moved = i;
    } else if (what == 9) {   /* an odd width off its multiple of 8 */
        for (i = 0; i < count && !uneven; i++)
            uneven = make_uneven(bodies[i], parts[i].length);
    } else if (what == 10) {   /* the other edition, or none */
        parts[i].edition = (uint8_t)(one_in(3) ? any() : parts[i].edition ^ 1);
    } else if (what == 11) {   /* the rows of one form under the other's number, or of the other form */
        if (one_in(2))
            form = 3 - form;
    } else {   /* a byte of all messages of a body: flags and n; or of one: start, position, SPN */
        unsigned byte = what == 7 ? 3 : below(5), turned = 1u << below(8);
        for (size_t p = 0; p < parts[i].length; p += 5)
            if (what == 7 || p == 5 * (size_t)below((unsigned)(parts[i].length / 5)))
                bodies[i][p + byte] ^= (uint8_t)turned;
    }
    out[0] = (uint8_t)(what == 11 && form == image[0] ? 3 - form : form);
    out[1] = (uint8_t)count;
    at = 2 + row_size(form) * count;
    for (i = 0; i <= count; i++) {
        if (i == gap_before)
            for (; gap > 0; gap--)
                out[at++] = (uint8_t)any();
        if (i == count)
            break;
        size_t said = i == moved ? at + (one_in(2) ? 5u : 1u << below(16)) : at;
        uint8_t *row = out + 2 + row_size(form) * i;
        memcpy(row, parts[i].key, 3);
        row[3] = (uint8_t)said;
        row[4] = (uint8_t)(said >> 8);
        row[5] = (uint8_t)parts[i].length;
        row[6] = (uint8_t)(parts[i].length >> 8);
        if (form == 2)
            row[7] = parts[i].edition;
        memcpy(out + at, bodies[i], parts[i].length);
        at += parts[i].length;
    }
    reworked++;
    try_image(out, at, "taken apart and changed, by way", what);
    if (uneven)
        must_be_damaged(out, at);
}

/* A box that holds one key, and this in conflict, loads nothing. */
static void load_on_conflict(const uint8_t *image, size_t size)
{
    yendrolf_empty(&other);
    plain_empty(&plain_other);
    struct frame f = frame_of(&scene[0], 1, 0);
    for (unsigned i = 0; i < 2; i++, f.data[6] ^= 0x80)
        if (yendrolf_learn(&other, f.identifier, f.length, f.data).number != plain_learn(&plain_other, f.identifier, f.length, f.data).number)
            differ("learning");
    memcpy(&other_before, &other, sizeof other);
    snprintf(told_call, sizeof told_call, "load %zu bytes into a box of one key, in conflict", size);
    load_other(image, size);
}

/* What a box could save before Req 04, in form 1: 1519 from bit 0 on, 1517 from 4 on, and the 19 bits of 3147 from 12 on. From 16 on it is an image. */
static void saved_before(void)
{
    uint8_t image[] = { 1, 1, 38, 40, 15, 9, 0, 15, 0, 0xef, 0x05, 0x01, 0x03, 1, 0xed, 0x05, 0x02, 0x03, 5, 0x4b, 0x0c, 0x03, 0x03, 12 + 1 };
    try_image(image, sizeof image, "with 19 bits from bit 12 on", 0);
    must_be_damaged(image, sizeof image);
    image[sizeof image - 1] = 16 + 1;
    try_image(image, sizeof image, "with 19 bits from bit 16 on", 0);
    if (plain_other.held != 1)
        differ("an image with 19 bits from bit 16 on is damaged");
}

/* The image damaged, in the form that is written or as it was written before Req 10: every bit of a small one turned, of larger ones a bit of each byte or of some; cut at every length, or
   at some; bytes added. */
static void damage(void)
{
    static uint8_t image[IMAGE + 70000];
    if (beyond_the_wire(ANY_ADDRESS))
        return;
    size_t size = plain_image_size(&plain);
    if (one_in(2))
        size = plain_save_form_1(&plain, image);
    else
        plain_save(&plain, image, size);
    size_t step = 1 + size / 300;
    try_image(image, size, "whole", 0);
    load_on_conflict(image, size);
    saved_before();
    for (unsigned i = 0; i < 60; i++)
        rework(image);
    for (size_t at = below((unsigned)step); at < size; at += step)
        for (unsigned bit = 0; bit < 8; bit++)
            if (size <= 128 || bit == at % 8) {
                image[at] ^= (uint8_t)(1u << bit);
                try_image(image, size, "a bit turned", at);
                image[at] ^= (uint8_t)(1u << bit);
                turned_bits++;
            }
    for (size_t cut = below((unsigned)step); cut < size; cut += step, cuts++)
        try_image(image, cut, "cut", cut);
    for (unsigned i = 0; i < 12; i++, longer_images++) {
        size_t more = i < 8 ? i + 1 : i == 8 ? 70000 : below(300);
        for (size_t j = 0; j < more; j++)
            image[size + j] = (uint8_t)(i % 2 ? 0 : i == 4 && size > 4 ? image[size - 5 + j] : any());
        try_image(image, size + more, "bytes added", size);
    }
}

/* An image of this scene or of an earlier one, whole or with a byte written over, loaded into the box as it is: mostly it holds a key. */
static void load_here(void)
{
    static uint8_t kept[IMAGE], image[IMAGE];
    static size_t kept_size;
    if (!beyond_the_wire(ANY_ADDRESS) && (kept_size == 0 || one_in(3))) {
        kept_size = plain_image_size(&plain);
        if (one_in(4))
            kept_size = plain_save_form_1(&plain, kept);
        else
            plain_save(&plain, kept, kept_size);
    }
    memcpy(image, kept, kept_size);
    if (kept_size && one_in(3))
        image[below((unsigned)kept_size)] = (uint8_t)any();
    snprintf(told_call, sizeof told_call, "load %zu bytes into a box of %u keys", kept_size, plain.held);
    yendrolf_told a = yendrolf_load(&box, image, kept_size);
    same(LOAD, a, plain_load(&plain, image, kept_size));
    if (a.number != 0)
        unchanged();
    memcpy(&before, &box, sizeof box);
    ask_image(image, kept_size);
}

static int same_told(yendrolf_told a, yendrolf_told b)
{
    return a.number == b.number && a.detail == b.detail && a.judgement == b.judgement && a.position == b.position;
}

/* A saved key, asked everything of the box and of the one that loaded its image; and its body, by what stands at each position. */
static void same_of_both(uint8_t source, uint8_t destination, uint8_t k, const uint8_t *body, size_t length)
{
    static uint8_t one[BUFFER], two[BUFFER], one_states[PLACES], two_states[PLACES];
    static uint32_t numbers[PLACES], one_numbers[PLACES], two_numbers[PLACES];
    unsigned n = yendrolf_count(&box, source, destination, k);
    snprintf(told_call, sizeof told_call, "%u %u %u, asked of a box and of the one that loaded its image", source, destination, k);
    if (n == 0 || n != yendrolf_count(&other, source, destination, k) || length != 5 * n)
        differ("the number of parameters");
    if (yendrolf_edition(&box, source, destination, k) != yendrolf_edition(&other, source, destination, k))
        differ("the edition");
    if (!same_told(yendrolf_judge(&box, source, destination, k), yendrolf_judge(&other, source, destination, k)))
        differ("the judgement");
    for (unsigned p = 0; p <= n + 1; p++) {
        yendrolf_parameter a = yendrolf_parameter_at(&box, source, destination, k, (uint8_t)p), b = yendrolf_parameter_at(&other, source, destination, k, (uint8_t)p);
        if (!same_told(a.told, b.told) || a.spn != b.spn || a.start != b.start || a.width != b.width)
            differ("the parameter");
        yendrolf_found found = yendrolf_find(&box, source, destination, k, a.spn), again = yendrolf_find(&other, source, destination, k, a.spn);
        if (!same_told(found.told, again.told) || found.position != again.position || found.start != again.start || found.width != again.width)
            differ("what was found");
        const uint8_t *five = body + 5 * (p >= 1 && p <= n ? p - 1 : 0);
        if (p >= 1 && p <= n && (five[0] + 256u * five[1] + 65536u * (five[2] >> 5) != a.spn || (five[2] & 31) != p || (five[3] & 63) != n || five[4] != a.start + 1))
            differ("the body");
        numbers[p] = a.width >= 32 ? any() : any() & ((1u << a.width) - 1);
    }
    fill_bytes(one, two, sizeof one);
    yendrolf_told packed = yendrolf_pack(&box, source, destination, k, numbers + 1, n, one, sizeof one);
    if (!same_told(packed, yendrolf_pack(&other, source, destination, k, numbers + 1, n, two, sizeof two)) || packed.number != 0 || memcmp(one, two, sizeof one) != 0)
        differ("what was packed");
    fill_bytes(one_states, two_states, sizeof one_states);
    memset(one_numbers, 7, sizeof one_numbers);
    memset(two_numbers, 7, sizeof two_numbers);
    if (!same_told(yendrolf_read(&box, source, destination, k, one, packed.detail, one_numbers, PLACES, one_states, PLACES),
            yendrolf_read(&other, source, destination, k, one, packed.detail, two_numbers, PLACES, two_states, PLACES))
        || memcmp(one_numbers, two_numbers, sizeof one_numbers) != 0 || memcmp(one_states, two_states, sizeof one_states) != 0)
        differ("what was read");
}

/* A swapped box: it loads what this one saved, has the saved keys and no others, and answers for each as this one does. Then the calls go on with it, or with this one. */
static void swap(void)
{
    static uint8_t image[YENDROLF_IMAGE_BYTES];
    if (beyond_the_wire(ANY_ADDRESS))
        return;
    size_t size = yendrolf_image_size(&box), rows = 0, held = 0;
    snprintf(told_call, sizeof told_call, "save an image of %zu bytes, for another box", size);
    if (size > sizeof image || yendrolf_save(&box, image, size).number != 0)
        differ("it is not saved");
    memcpy(&other, &box, sizeof other);
    memcpy(plain_other.pairs, plain.pairs, sizeof plain.pairs);
    if (one_in(2))   /* a box that is empty since its keys were forgotten has other words than one that never had any */
        for (yendrolf_key key = yendrolf_first_key(&other); key.held; key = yendrolf_first_key(&other))
            yendrolf_forget(&other, key.source, key.destination, key.k);
    else
        yendrolf_empty(&other);
    plain_empty(&plain_other);
    memcpy(&other_before, &other, sizeof other);
    load_other(image, size);
    for (yendrolf_row row; (row = yendrolf_image_row(image, size, rows)).told.number == 0; rows++)
        same_of_both((uint8_t)row.source, (uint8_t)row.destination, (uint8_t)row.k, image + row.offset, row.length);
    for (yendrolf_key key = yendrolf_first_key(&other); key.held; key = yendrolf_next_key(&other, key.source, key.destination, key.k))
        held++;
    if (rows != image[1] || held != rows)
        differ("the box that loaded an image has other keys");
    unchanged();
    swaps++;
    if (one_in(2)) {
        struct plain_box now = plain;
        box = other;
        plain = plain_other;
        plain_other = now;
        check_table();
    }
}

/* ---- long messages: twelve pairs talk at once, and there are eight sessions */

#define GUARD 64
#define TALKERS 12

/* What is lent, with bytes around it that no call may touch. */
struct lent {
    uint8_t front[GUARD];
    yendrolf_sessions sessions;
    uint8_t behind[GUARD];
    uint8_t payload[YENDROLF_MOST_BYTES];
    uint8_t end[GUARD];
};
static struct lent lent, lent_before;
static struct plain_sessions plain_lent;
static uint8_t plain_payload[YENDROLF_MOST_BYTES];

/* Who sends long messages from one address to another. */
struct talker {
    uint8_t source, destination;
    unsigned size, sent;              /* of the payload under way, and how many of its packets went out */
    uint32_t pgn;
    int whole;                        /* the request was taken, and each packet since came once and in order */
    uint8_t payload[YENDROLF_MOST_BYTES];
};
static struct talker talkers[TALKERS];
static unsigned talking;              /* how many of them there are in this talk */
static unsigned noise;                /* one frame in so many is not as it should be */
static int lengthy;                   /* payloads of any size, else of a few packets */

static unsigned packets_of(unsigned size)
{
    return (size + 6) / 7;
}

/* What a call may have changed at the most: so many words and bytes, of one session alone; and nothing around what is lent. */
static void changed_at_most(unsigned words, unsigned bytes)
{
    const yendrolf_sessions *now = &lent.sessions, *then = &lent_before.sessions;
    unsigned changed = 0, row = YENDROLF_MOST_SESSIONS;
    for (unsigned i = 0; i < YENDROLF_HEAD_WORDS; i++)
        if (now->heads[i] != then->heads[i]) {
            changed++;
            if (row != YENDROLF_MOST_SESSIONS && row != i / 4)
                differ("the words of two sessions changed");
            row = i / 4;
        }
    if (changed > words)
        differ("more words changed than the answer says");
    if (memcmp(now->bytes, then->bytes, sizeof now->bytes) != 0) {
        changed = 0;
        for (unsigned i = 0; i < YENDROLF_HELD_BYTES; i++)
            if (now->bytes[i] != then->bytes[i]) {
                changed++;
                if (row != YENDROLF_MOST_SESSIONS && row != i / YENDROLF_MOST_BYTES)
                    differ("the bytes of another session changed");
                row = i / YENDROLF_MOST_BYTES;
            }
        if (changed > bytes)
            differ("more bytes changed than the answer says");
    }
    if (memcmp(lent.front, lent_before.front, GUARD) != 0 || memcmp(lent.behind, lent_before.behind, GUARD) != 0 || memcmp(lent.end, lent_before.end, GUARD) != 0)
        differ("a call wrote past what it was lent");
}

static yendrolf_told ask_to_send(struct frame f)
{
    say_frame("request", f);
    memcpy(&lent_before, &lent, sizeof lent);
    yendrolf_told a = yendrolf_request(&lent.sessions, f.identifier, f.length, f.data);
    same(REQUEST, a, plain_request(&plain_lent, f.identifier, f.length, f.data));
    changed_at_most(a.number == 0 ? 4 : 0, 0);
    if (memcmp(lent.payload, plain_payload, sizeof lent.payload) != 0)
        differ("a request changed the payload");
    return a;
}

static yendrolf_arrived bring(struct frame f)
{
    say_frame("packet", f);
    memcpy(&lent_before, &lent, sizeof lent);
    yendrolf_arrived a = yendrolf_packet(&lent.sessions, f.identifier, f.length, f.data, lent.payload);
    struct plain_arrived b = plain_packet(&plain_lent, f.identifier, f.length, f.data, plain_payload);
    same(PACKET, a.told, b.answer);
    if (a.pgn != b.pgn)
        differ("the PGN of the payload");
    if (memcmp(lent.payload, plain_payload, sizeof lent.payload) != 0)
        differ("the payload");
    if (a.told.number == 0)
        changed_at_most(1, 7);
    else   /* every refusal leaves all words and bytes, but 29, which drops its session by a word */
        changed_at_most(a.told.number == 29, 0);
    if (a.told.number == 0 && a.told.detail > 0) {
        finished++;
        if (a.told.detail > longest_message)
            longest_message = a.told.detail;
        of_255 += f.data[0] == 255;
    }
    return a;
}

/* Nobody has a session, whatever the words were; the bytes stay. */
static void start_talk(void)
{
    snprintf(told_call, sizeof told_call, "start the sessions");
    memcpy(&lent_before, &lent, sizeof lent);
    yendrolf_start_sessions(&lent.sessions);
    plain_start_sessions(&plain_lent);
    memcpy(lent_before.sessions.heads, lent.sessions.heads, sizeof lent.sessions.heads);
    changed_at_most(0, 0);
    for (unsigned i = 0; i < TALKERS; i++)
        talkers[i].whole = 0;
}

static struct frame frame_from(const struct talker *t, uint32_t pf)
{
    struct frame f;
    f.identifier = below(8) << 26 | pf << 16 | (uint32_t)t->destination << 8 | t->source;
    f.length = 8;
    memset(f.data, 255, sizeof f.data);
    return f;
}

static struct frame request_of(const struct talker *t)
{
    struct frame f = frame_from(t, 0xec);
    f.data[0] = 16;
    f.data[1] = (uint8_t)t->size;
    f.data[2] = (uint8_t)(t->size >> 8);
    f.data[3] = (uint8_t)packets_of(t->size);
    if (one_in(3))   /* no document looks at byte 5 */
        f.data[4] = (uint8_t)any();
    f.data[5] = (uint8_t)t->pgn;
    f.data[6] = (uint8_t)(t->pgn >> 8);
    f.data[7] = (uint8_t)(t->pgn >> 16);
    return f;
}

/* Packet `number` of a payload; behind its end FFh, or now and then anything. */
static struct frame packet_of(const struct talker *t, unsigned number)
{
    struct frame f = frame_from(t, 0xeb);
    f.data[0] = (uint8_t)number;
    for (unsigned i = 0; i < 7; i++) {
        if (number > 0 && 7 * (number - 1) + i < t->size)
            f.data[1 + i] = t->payload[7 * (number - 1) + i];
        else if (one_in(4))
            f.data[1 + i] = (uint8_t)any();
    }
    return f;
}

/* A talker asks to send a payload, in place of the one that may be under way. */
static void begin(struct talker *t)
{
    static const unsigned few[] = { 9, 10, 13, 14, 15, 20, 21, 22 }, many[] = { 9, 1771, 1777, 1778, 1779, 1784, 1785, 1785 };
    if (one_in(2))
        t->size = lengthy ? PICK(many) : PICK(few);
    else
        t->size = 9 + below(lengthy ? 1777 : 60);
    for (unsigned i = 0; i < t->size; i++)
        t->payload[i] = (uint8_t)any();
    t->pgn = one_in(2) ? 45056 + 256 * (1 + below(15)) : any() & 0xffffff;
    t->sent = 0;
    replaced += t->whole;
    t->whole = ask_to_send(request_of(t)).number == 0;
}

/* A packet of a talker comes. Where all before it came in order, it is taken, and the last one brings what the talker cut up. */
static void send_packet(struct talker *t, unsigned number)
{
    yendrolf_arrived a = bring(packet_of(t, number));
    if (number != t->sent + 1) {   /* out of sequence: whatever session it had is dropped */
        t->whole = 0;
        return;
    }
    t->sent = number;
    if (!t->whole)
        return;
    int last = number == packets_of(t->size);
    if (a.told.number != 0 || a.told.detail != (last ? t->size : 0))
        differ("a packet in its order is not taken");
    if (last && (a.pgn != t->pgn || memcmp(lent.payload, t->payload, t->size) != 0))
        differ("what came out is not what was cut up");
    if (last) {
        cut_up++;
        t->whole = 0;   /* the session ended */
        fill_bytes(lent.payload, plain_payload, sizeof lent.payload);
    }
}

/* A packet is lost, comes twice, comes after the next one, or has another number. */
static void slip(struct talker *t)
{
    switch (below(5)) {
    case 0:
        t->sent++;
        t->whole = 0;
        break;
    case 1:
        send_packet(t, t->sent);
        break;
    case 2:
        send_packet(t, t->sent + 2);
        send_packet(t, t->sent + 1);
        break;
    case 3:
        send_packet(t, 0);
        break;
    default:
        send_packet(t, below(256));
        break;
    }
}

/* A frame that no talker means: the session of its pair, if it changed, is no longer as a talker thinks. Whether a talker has that pair. */
static int meant_by_nobody(struct frame f, unsigned number)
{
    int known = 0;
    for (unsigned i = 0; i < TALKERS; i++)
        if (talkers[i].source == (f.identifier & 0xff) && talkers[i].destination == (f.identifier >> 8 & 0xff)) {
            known = 1;
            if (number == 0 || number == 29)
                talkers[i].whole = 0;
        }
    return known;
}

/* A frame that is wrong in one way or in several: every control byte, sizes and packet counts beside the right ones, other PGNs, lengths and addresses, and identifiers that are none. */
static void stray(const struct talker *t)
{
    static const unsigned sizes[] = { 0, 1, 7, 8, 8, 9, 1785, 1786, 1786, 1787, 1791, 1792, 1793, 2040, 65535 };
    static uint8_t control;
    int asks = one_in(2);
    struct frame f = asks ? request_of(t) : packet_of(t, one_in(2) ? t->sent + 1 : below(256));
    do {
        unsigned size = PICK(sizes), packets = packets_of(size);
        switch (below(10)) {
        case 0:
            f.identifier |= 1u << (29 + below(3));
            break;
        case 1:
            f.identifier ^= 1u << (16 + below(10));
            break;
        case 2:
            f.length = (uint8_t)(one_in(2) ? below(11) : below(256));
            break;
        case 3:
        case 4:
            f.data[0] = asks ? control++ : (uint8_t)any();
            break;
        case 5:
            f.data[3] = (uint8_t)(f.data[3] + (one_in(2) ? 1 : one_in(2) ? 255 : below(256)));
            break;
        case 6:
            f.data[1] = (uint8_t)size;
            f.data[2] = (uint8_t)(size >> 8);
            f.data[3] = (uint8_t)(one_in(3) ? packets + 1 : packets);
            break;
        case 7:
            f.identifier ^= 1u << below(16);
            break;
        case 8:
            f.identifier = (f.identifier & 0xffff0000) | (f.identifier & 0xff) << 8 | (f.identifier >> 8 & 0xff);
            break;
        default:
            asks = !asks;
            break;
        }
    } while (one_in(3));
    if (!asks) {
        meant_by_nobody(f, bring(f).told.number);
        return;
    }
    unsigned number = ask_to_send(f).number;
    if (!meant_by_nobody(f, number) && number == 0 && !one_in(6)) {   /* a session of nobody's: most of these are dropped again, or they would take all rooms */
        f.identifier ^= 0x070000;
        f.data[0] = 0;
        if (bring(f).told.number != 29)
            differ("packet 0 does not drop a session");
    }
}

/* Who has a session: on copies of both sides each talker's pair brings packet 0, which no session takes. */
static void check_sessions(void)
{
    static struct lent kept;
    static struct plain_sessions plain_kept;
    unsigned held = 0;
    memcpy(&kept, &lent, sizeof kept);
    plain_kept = plain_lent;
    for (unsigned i = 0; i < TALKERS; i++) {
        unsigned number = bring(packet_of(&talkers[i], 0)).told.number;
        if (number != 28 && number != 29)
            differ("packet 0 is taken");
        if (talkers[i].whole && number != 29)
            differ("a session that nothing ended is gone");
        held += number == 29;
    }
    if (held > YENDROLF_MOST_SESSIONS)
        differ("more sessions than there are");
    memcpy(&lent, &kept, sizeof lent);
    plain_lent = plain_kept;
    checks++;
}

/* Head words that no calls make: few of what the layout (crates/transport/specs/Rows.antt) would have there, and any others. */
static void lay_strange_heads(void)
{
    static const uint64_t nexts[] = { 0, 1, 2, 254, 255, 256, 257, 1u << 16 }, sizes[] = { 0, 1, 7, 8, 9, 14, 1785, 1786, 14280, 1ull << 32, (1ull << 32) + 9 };
    for (unsigned i = 0; i < YENDROLF_MOST_SESSIONS; i++) {
        const struct talker *t = &talkers[below(TALKERS)];
        uint64_t *row = &lent.sessions.heads[4 * i], wild = (uint64_t)any() << 32;
        row[0] = one_in(4) ? 0 : one_in(4) ? wild | 1 : 256u * t->source + t->destination + 1;
        row[1] = one_in(6) ? wild | 1 : PICK(nexts);
        row[2] = one_in(6) ? wild | any() : PICK(sizes);
        row[3] = wild | any();
    }
}

static int is_one_of(unsigned number, const unsigned *list, size_t count)
{
    for (size_t i = 0; i < count; i++)
        if (list[i] == number)
            return 1;
    return 0;
}

static void strange_request(struct frame f)
{
    static const unsigned list[] = { 0, 1, 2, 3, 24, 30, 31 };
    yendrolf_told a = yendrolf_request(&lent.sessions, f.identifier, f.length, f.data);
    if (!is_one_of(a.number, list, sizeof list / sizeof list[0]) || a.detail || a.judgement || a.position)
        differ("no answer to a request");
    changed_at_most(a.number == 0 ? 4 : 0, 0);
    if (memcmp(lent.payload, lent_before.payload, sizeof lent.payload) != 0)
        differ("a request changed the payload");
}

static void strange_packet(struct frame f)
{
    static const unsigned list[] = { 0, 1, 2, 3, 28, 29 };
    yendrolf_arrived a = yendrolf_packet(&lent.sessions, f.identifier, f.length, f.data, lent.payload);
    if (!is_one_of(a.told.number, list, sizeof list / sizeof list[0]) || a.told.judgement || a.told.position || a.told.detail > YENDROLF_MOST_BYTES)
        differ("no answer to a packet");
    if (a.told.number != 0 && (a.told.detail || a.pgn))
        differ("a refusal with a size or a PGN");
    changed_at_most(a.told.number == 0 || a.told.number == 29, a.told.number == 0 ? 7 : 0);
    if (memcmp(lent.payload + a.told.detail, lent_before.payload + a.told.detail, sizeof lent.payload - a.told.detail) != 0)
        differ("the payload past its size");
}

/* Of words that no calls make the documents fix this: nothing traps, an answer is of its list, a size is at most 1,785, a refusal leaves everything but for 29's session, the payload is written up to the
   size that is told and no further, and nothing around what is lent is touched. The second implementation has no such words, so the library is called alone. */
static void strange_heads(void)
{
    lay_strange_heads();
    for (unsigned i = 0; i < 60; i++, strange_calls++) {
        const struct talker *t = &talkers[below(TALKERS)];
        unsigned number = one_in(2) ? (unsigned)(lent.sessions.heads[4 * below(YENDROLF_MOST_SESSIONS) + 1] & 255) : below(256);
        int asks = one_in(4);
        struct frame f = asks ? request_of(t) : packet_of(t, number);
        if (one_in(12))
            f.data[0] = (uint8_t)any();
        say_frame(asks ? "request, on strange words" : "packet, on strange words", f);
        memcpy(&lent_before, &lent, sizeof lent);
        if (asks)
            strange_request(f);
        else
            strange_packet(f);
        if (one_in(20))
            lay_strange_heads();
    }
    start_talk();
    fill_bytes(lent.payload, plain_payload, sizeof lent.payload);
}

/* Twelve pairs of four sources and three destinations, so that many share one of the two; now and then a source is another's destination. */
static void set_talkers(void)
{
    uint8_t source = (uint8_t)(one_in(3) ? 255 : any());
    uint8_t destination = one_in(2) ? source : (uint8_t)any();
    for (unsigned i = 0; i < TALKERS; i++) {
        talkers[i].source = (uint8_t)(source + 64 * (i % 4));
        talkers[i].destination = (uint8_t)(destination + 85 * (i / 4));
        talkers[i].size = talkers[i].sent = 0;
        talkers[i].whole = 0;
    }
}

/* How many of them talk, how many frames are not as they should be, and how long the payloads are. */
static void set_manner(void)
{
    talking = one_in(3) ? TALKERS : one_in(2) ? 8 + below(2) : 1 + below(TALKERS);
    noise = one_in(2) ? 3000 : 4 + below(30);
    lengthy = one_in(2);
}

/* A talker's next frame: a packet, or a request where its payload went out, was refused or was spoilt. */
static void talk_on(struct talker *t)
{
    if (t->sent >= packets_of(t->size) || (!t->whole && !one_in(4)))
        begin(t);
    else
        send_packet(t, t->sent + 1);
}

/* Every control byte but that of a request to send: 24, and nothing changes. */
static void other_controls(const struct talker *t)
{
    struct frame f = request_of(t);
    for (unsigned control = 0; control < 256; control++) {
        f.data[0] = (uint8_t)control;
        if (control != 16 && ask_to_send(f).number != 24)
            differ("another control byte is taken");
    }
}

static void talk(uint64_t until)
{
    if (!one_in(4)) {   /* else the pairs of before go on */
        set_talkers();
        if (!one_in(8))   /* else the sessions of before are other pairs' */
            start_talk();
    }
    set_manner();
    unsigned length = 200 + below(lengthy ? 8000 : 1500);
    for (unsigned i = 0; i < length && calls < until; i++) {
        struct talker *t = &talkers[below(talking)];
        if (!one_in(noise))
            talk_on(t);
        else if (one_in(2))
            slip(t);
        else if (one_in(8))
            begin(t);
        else
            stray(t);
        if (i % 512 == 300)
            check_sessions();
        if (one_in(4000))
            other_controls(t);
        if (one_in(4000))
            start_talk();
    }
    check_sessions();
    if (one_in(3))
        strange_heads();
}

/* A pair's packets in order, and frames of the talkers in between. The answer to the last one. */
static yendrolf_arrived bring_all(const struct talker *t)
{
    yendrolf_arrived a = { { 0, 0, 0, 0 }, 0 };
    for (unsigned number = 1; number <= packets_of(t->size); number++) {
        struct talker *other = &talkers[below(TALKERS)];
        if (one_in(3) && (other->source != t->source || other->destination != t->destination))
            talk_on(other);
        a = bring(packet_of(t, number));
    }
    return a;
}

/* A configured message above eight bytes is packed, comes as packets, and is read by its key: the pair's source and destination, and the PGN's k. */
static void carry(struct intended m)
{
    static struct talker t;
    uint32_t numbers[PLACES];
    draw_numbers(&m, numbers);
    yendrolf_told packed = yendrolf_pack(&box, m.source, m.destination, m.k, numbers, m.n, t.payload, sizeof t.payload);
    if (packed.number != 0 || packed.detail <= 8)
        return;
    t.source = m.source;
    t.destination = m.destination;
    t.size = packed.detail;
    t.pgn = 45056 + 256u * m.k;
    struct frame f = request_of(&t);
    unsigned number = ask_to_send(f).number;
    meant_by_nobody(f, number);
    if (number != 0) {   /* eight others have one */
        start_talk();
        return;
    }
    yendrolf_arrived a = bring_all(&t);
    if (a.told.number != 0 || a.told.detail != packed.detail || memcmp(lent.payload, t.payload, packed.detail) != 0)
        differ("a configured message does not come out");
    m.k = (uint8_t)((a.pgn - 45056) / 256);
    read_back(m, lent.payload, a.told.detail, numbers);
    carried++;
}

/* ---- hires */

#include "hires.c"

/* ---- scenes */

/* Maps that no wire can carry, of up to 64 positions with starts up to 14,279, laid into the table's words as crates/keyrow/specs/Row.antt has
   them: state, key, n and flags, then a cell of SPN and start for each position. The other side learns the same messages. */
static void lay_maps(void)
{
    for (unsigned i = 0; i < scene_keys && plain.held < 16; i++) {
        struct intended *m = &scene[i];
        for (unsigned j = 0; j < i; j++)
            if (scene[j].source == m->source && scene[j].destination == m->destination && scene[j].k == m->k)
                m = NULL, j = i;
        if (!m)
            continue;
        uint64_t *row = &box.table[67 * plain.held];
        int conflict = one_in(30), gap = one_in(12) ? (int)(1 + below(m->n)) : 0;
        if (gap && m->n == 1)
            gap = 0;
        int old = scene_old && !one_in(3);
        row[0] = conflict ? 2 : 1;
        row[1] = (uint64_t)m->source * 65536 + (uint64_t)m->destination * 256 + m->k;
        row[2] = m->n + 256 * m->proprietary + 512 * m->transport + (old ? 1024 : 0);
        for (unsigned p = 1; p <= m->n; p++) {
            if ((int)p == gap)
                continue;
            row[2 + p] = 1 + m->spn[p] + ((uint64_t)m->start[p] << 32);
            struct plain_message one = { m->source, m->destination, m->k, m->n, m->proprietary, m->transport, p, m->spn[p], m->start[p] };
            plain_learn_message(&plain, one);
            if (conflict && p == m->n) {
                one.spn ^= 1;
                plain_learn_message(&plain, one);
            }
        }
        if (conflict && gap == (int)m->n) {
            struct plain_message one = { m->source, m->destination, m->k, m->n, m->proprietary, !m->transport, 1, m->spn[1], m->start[1] };
            plain_learn_message(&plain, one);
        }
        if (old)
            plain_set_edition(&plain, m->source, m->destination, m->k, 2004);
    }
}

/* This start, or of an odd width mostly the multiple of 8 at or before it. */
static unsigned even_for(uint32_t spn, unsigned start)
{
    return plain_odd(plain_width(spn)) && !one_in(12) ? start / 8 * 8 : start;
}

/* Up to sixteen keys of one address that all have one SPN, for answers of many messages. */
static void set_many(void)
{
    static const uint8_t sources[] = { 0, 38, 253 };
    uint8_t source = PICK(sources);
    scene_spn = scene_old ? PICK(of_2004) : PICK(known);
    scene_keys = one_in(2) ? 16 : 1 + below(16);
    for (unsigned i = 0; i < scene_keys; i++) {
        struct intended *m = &scene[i];
        m->source = source;
        m->destination = (uint8_t)(i * 77);
        m->k = (uint8_t)(1 + below(15));
        m->n = 1 + below(2);
        unsigned p = 1 + below(m->n);
        do
            m->spn[3 - p] = scene_old ? PICK(of_2004) : PICK(known);
        while (m->spn[3 - p] == scene_spn);
        m->spn[p] = scene_spn;
        m->start[1] = even_for(m->spn[1], below(40));
        m->start[2] = even_for(m->spn[2], one_in(4) ? 247 + below(3) : m->start[1] + 32 + below(52));   /* no width is above 24 */
        m->proprietary = below(2);
        measure(m);
        m->transport = m->bytes > 8;
    }
}

/* Sixteen keys with maps of 31 positions, as long as messages can teach them, of SPNs of a byte at most: the longest image. */
static void set_wide(void)
{
    int all = one_in(2);
    scene_spn = 0;
    scene_keys = 16;
    for (unsigned i = 0; i < scene_keys; i++) {
        struct intended *m = &scene[i];
        unsigned at = below(3);
        m->source = (uint8_t)(i * 16);
        m->destination = (uint8_t)any();
        m->k = (uint8_t)(1 + below(15));
        m->n = all || !one_in(4) ? 31 : 30;
        for (unsigned p = 1; p <= m->n; p++) {
            do
                m->spn[p] = 1488 + below(3334 - 1488);
            while (plain_width(m->spn[p]) == 0 || plain_width(m->spn[p]) > 8 || has_spn(m, p - 1, m->spn[p]));
            m->start[p] = at;
            at += plain_width(m->spn[p]);
        }
        m->proprietary = below(2);
        measure(m);
        m->transport = m->bytes > 8;
    }
}

/* All that a key's map says, its positions in any order. */
static void teach(const struct intended *m)
{
    unsigned order[65];
    for (unsigned p = 1; p <= m->n; p++) {
        unsigned q = 1 + below(p);
        order[p] = order[q];
        order[q] = p;
    }
    for (unsigned p = 1; p <= m->n; p++) {
        memcpy(&before, &box, sizeof box);
        learn(frame_of(m, order[p], 0));
    }
}

static void one_call(void)
{
    memcpy(&before, &box, sizeof box);
    unsigned what = below(1000);
    if (what < 360)
        learn(any_frame());
    else if (what < 370 && !laid)
        teach(&scene[below(scene_keys)]);
    else if (what < 370)
        set_edition(any_key());
    else if (what < 395)
        forget(any_key());
    else if (what < 440)
        judge(any_key());
    else if (what < 480)
        count(any_key());
    else if (what < 580)
        pack(any_key());
    else if (what < 640)
        read_any(any_key());
    else if (what < 700)
        find(any_key());
    else if (what < 720)
        parameter_at(any_key());
    else if (what < 740)
        next_key(any_key());
    else if (what < 840)
        command(ADD);
    else if (what < 875)
        command(DELETE);
    else if (what < 878)   /* seldom, so that lists fill */
        command(RENEW);
    else if (what < 883)
        listing();
    else if (what < 893)
        meaning();
    else if (what < 923)
        scaled();
    else if (what < 948)
        locate(any_key());
    else if (what < 954)
        save();
    else if (what < 957)
        load_here();
    else if (what < 959)
        swap();
    else if (what < 963)
        carry(any_key());
    else if (what < (scene_old ? 979u : 967u))
        set_edition(any_key());
    else if (what < 984)
        edition(any_key());
    else if (what < 985)
        hire();
    else
        command(DECIDE);
}

static void play_scene(uint64_t until)
{
    laid = one_in(3);
    set_scene(laid ? 64 : 31, laid ? 14279 : 249);
    int many = !laid && one_in(6), wide = !laid && !many && one_in(20);
    if (many)
        set_many();
    if (wide)
        set_wide();
    if (laid || many || wide || one_in(4)) {
        yendrolf_empty(&box);
        plain_empty(&plain);
    }
    if (one_in(6)) {
        yendrolf_fresh(&box);
        plain_fresh(&plain);
    }
    if (laid)
        lay_maps();
    else
        for (unsigned i = 0; i < scene_keys; i++)
            teach(&scene[i]);
    memcpy(&before, &box, sizeof box);
    for (unsigned i = 0; scene_old && i < scene_keys; i++)
        if (one_in(2))
            set_edition(scene[i]);
    for (unsigned i = 0; many && i < 20; i++)
        locate(any_key());
    for (unsigned i = 0; (many || wide) && i < 4; i++)
        save();
    if (one_in(6))
        damage();
    if (one_in(4))
        talk(until);
    if (one_in(8))
        play_day(until);
    unsigned length = laid ? 100 + below(200) : 200 + below(2000);
    for (unsigned i = 0; i < length && calls < until; i++) {
        one_call();
        if (i % 512 == 100)
            check_table();
        if (i % 1024 == 1000)
            check_filters();
    }
    check_table();
    if (!one_in(3))   /* the next scene has other keys: most of these go, by the one way there is */
        for (unsigned i = 0; i < scene_keys; i++) {
            memcpy(&before, &box, sizeof box);
            forget(scene[i]);
        }
}

static void print_counts(void)
{
    printf("\ncalls by kind\n");
    for (unsigned i = 0; i < KINDS; i++)
        if (kinds[i])
            printf("  %-9s %10" PRIu64 "\n", call_names[i], kinds[i]);
    printf("\nanswers\n");
    for (unsigned n = 0; n <= LAST_ANSWER; n++) {
        uint64_t all = 0;
        for (unsigned i = 0; i < KINDS; i++)
            all += answers[i][n];
        printf("  %2u %10" PRIu64 " ", n, all);
        for (unsigned i = 0; i < KINDS; i++)
            if (answers[i][n])
                printf(" %s %" PRIu64, call_names[i], answers[i][n]);
        printf("\n");
    }
    printf("\njudgements: number, of judging, of answer 12\n");
    for (unsigned j = 0; j <= 9; j++)
        printf("  %u %10" PRIu64 " %10" PRIu64 "\n", j, judgements[0][j], judgements[1][j]);
    printf("\ndecisions: pass %" PRIu64 ", block %" PRIu64 "\n", pass_or_block[1], pass_or_block[0]);
    printf("answers to a Parameter Locate, by their messages:");
    for (unsigned i = 0; i <= 16; i++)
        printf(" %" PRIu64, located[i]);
    printf("\nimages saved, by their rows:");
    for (unsigned i = 0; i <= 16; i++)
        printf(" %" PRIu64, saved[i]);
    printf("\nlongest image %" PRIu64 " bytes; images damaged by a bit %" PRIu64 ", cut %" PRIu64 ", with bytes added %" PRIu64 ", changed in their parts %"
        PRIu64 ", of these and the whole ones still an image %" PRIu64 "; boxes swapped %" PRIu64, longest_image, turned_bits, cuts, longer_images, reworked, still_images, swaps);
    printf("\nimages tried: of form 1 %" PRIu64 ", undamaged %" PRIu64 "; of form 2 %" PRIu64 ", undamaged %" PRIu64 "; of no form %" PRIu64, of_form[1], undamaged_of_form[1], of_form[2],
        undamaged_of_form[2], of_form[0]);
    printf("\nkeys of the edition of 2004: judged, by judgement");
    for (unsigned j = 0; j <= 9; j++)
        printf(" %" PRIu64, judged_2004[j]);
    printf("; payloads packed %" PRIu64 ", records of a locate %" PRIu64 ", rows saved %" PRIu64 ", rows loaded %" PRIu64, packed_2004, located_2004, saved_2004, loaded_2004);
    printf("\nodd widths: numbers packed %" PRIu64 ", others packed into the bits that these skip %" PRIu64 "; judgements 6 that the position before does not earn %" PRIu64
        "; images damaged by an uneven start %" PRIu64, odd_packed, in_skipped, looked_back, uneven_images);
    printf("\nparameters that the dictionary has not %" PRIu64 "\n", unknown_told);
    printf("states of numbers read: valid %" PRIu64 ", reserved %" PRIu64 ", error %" PRIu64 ", not available %" PRIu64 "\n", states_read[0], states_read[1],
        states_read[2], states_read[3]);
    printf("\nscaled: kind, valid, reserved, error, not available\n");
    for (unsigned i = 0; i < 6; i++)
        printf("  %u %10" PRIu64 " %10" PRIu64 " %10" PRIu64 " %10" PRIu64 "\n", i, scaled_told[i][0], scaled_told[i][1], scaled_told[i][2], scaled_told[i][3]);
    printf("values below 0: %" PRIu64 "\n\n", below_zero);
    printf("longest payload %" PRIu64 " bytes, most numbers %" PRIu64 "\n", longest, most_numbers);
    printf("long messages that came out %" PRIu64 ", compared with what was cut up %" PRIu64 ", of 255 packets %" PRIu64 ", the longest %" PRIu64 " bytes; sessions replaced %" PRIu64
        "; configured messages read by their key %" PRIu64 "; calls on strange head words %" PRIu64 "\n", finished, cut_up, of_255, longest_message, replaced, carried, strange_calls);
    print_hires();
    printf("the whole box compared %" PRIu64 " times\n", checks);
    print_days();
}

int main(int argc, char **argv)
{
    uint64_t until = argc > 1 ? strtoull(argv[1], NULL, 10) : 10000000;
    seed = argc > 2 ? strtoull(argv[2], NULL, 10) : 1;
    seed_now = seed;
    memset(&box, 0xa5, sizeof box);   /* a box starts from any bytes */
    yendrolf_start(&box);
    plain_start(&plain);
    memset(&lent, 0xa5, sizeof lent);   /* so do sessions */
    set_talkers();
    start_talk();
    fill_bytes(lent.payload, plain_payload, sizeof lent.payload);
    start_days();
    memset(&lent_hire, 0xa5, sizeof lent_hire);   /* and hires */
    memset(hire_guard, 0xa5, sizeof hire_guard);
    plain_hire_first(&plain_hire);
    while (calls < until)
        play_scene(until);
    print_counts();
    printf("\nseed %" PRIu64 ", %" PRIu64 " calls: no difference\n", seed, calls);
    return 0;
}
