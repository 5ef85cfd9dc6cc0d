/* Document 01 once more, plainly: see plain.h. Words in quotes are 01's, or 02's where a request is named. */
#include "plain.h"

#include <stdio.h>
#include <stdlib.h>
#include <string.h>

/* ---- answers */

static struct plain_answer answer(unsigned number, unsigned detail)
{
    struct plain_answer a = { number, detail, 0, 0 };
    return a;
}

static struct plain_answer with_judgement(unsigned number, unsigned judgement, unsigned position)
{
    struct plain_answer a = { number, 0, judgement, position };
    return a;
}

/* ---- "A frame" */

/* The `count` bits of x of which the lowest is worth 2^lowest, one at a time. */
static unsigned bits(uint32_t x, unsigned lowest, unsigned count)
{
    unsigned value = 0;
    for (unsigned i = count; i > 0; i--)
        value = value * 2 + x / (1u << (lowest + i - 1)) % 2;
    return value;
}

/* "from the top: priority 3, reserved 1, data page 1, PF 8, PS 8, source 8" */
struct fields {
    unsigned priority, reserved, page, pf, ps, source;
};

static struct fields fields_of(uint32_t identifier)
{
    struct fields f;
    f.source = bits(identifier, 0, 8);
    f.ps = bits(identifier, 8, 8);
    f.pf = bits(identifier, 16, 8);
    f.page = bits(identifier, 24, 1);
    f.reserved = bits(identifier, 25, 1);
    f.priority = bits(identifier, 26, 3);
    return f;
}

/* "The PGN is reserved, data page, PF and PS as one number, with the PS place 0 where PF is below 240" */
static uint32_t pgn_of(struct fields f)
{
    return ((f.reserved * 2 + f.page) * 256 + f.pf) * 256 + (f.pf < 240 ? 0 : f.ps);
}

/* "A later call on a frame tests 1, 2 (by the PGN it serves) and 3 first": the first of them that applies, or 0. */
static unsigned frame_refused(uint32_t identifier, unsigned length, uint32_t pgn)
{
    if (identifier > 536870911)
        return 1;
    if (pgn_of(fields_of(identifier)) != pgn)
        return 2;
    return length != 8 ? 3 : 0;
}

/* ---- the dictionaries of Req 10: tests/spns.txt, made from 002 by tests/spns.py, and tests/spns2004.txt, made from 000 by tests/spns2004.py */

struct entry {
    uint32_t spn;
    unsigned width;
};

static const struct entry dictionary_2010[] = {
#include "spns.inc"
};

static const struct entry dictionary_2004[] = {
#include "spns2004.inc"
};

unsigned plain_width_by(unsigned edition, uint32_t spn)
{
    const struct entry *rows = edition == 2004 ? dictionary_2004 : dictionary_2010;
    size_t count = edition == 2004 ? sizeof dictionary_2004 / sizeof rows[0] : sizeof dictionary_2010 / sizeof rows[0];
    for (size_t i = 0; i < count; i++)
        if (rows[i].spn == spn)
            return rows[i].width;
    return 0;
}

unsigned plain_width(uint32_t spn)
{
    return plain_width_by(2010, spn);
}

/* ---- Req 05: what a number means. tests/units.txt is made from 002 by tests/resolutions.py */

static const struct {
    uint32_t spn;
    long long resolution, offset;
} units[] = {
#include "units.inc"
};

/* "For one byte 0 to 250 valid, 251 to 253 reserved .. 254 error, 255 not available": a top byte that a number past its width has is above these. */
static unsigned state_of_byte(uint32_t top)
{
    if (top <= 250)
        return 0;
    if (top <= 253)
        return 1;
    return top == 254 ? 2 : 3;
}

/* "for two bits 2 error and 3 not available; others from its table, valid where it has no row": of two and four bytes the top one counts. */
static unsigned state_of(unsigned width, uint32_t number)
{
    switch (width) {
    case 2:
        return number < 2 ? 0 : number == 2 ? 2 : 3;
    case 8:
        return state_of_byte(number);
    case 16:
        return state_of_byte(number / 256);
    case 32:
        return state_of_byte(number / 256 / 256 / 256);
    default:
        return 0;
    }
}

struct plain_meaning plain_meaning(uint32_t spn)
{
    struct plain_meaning meaning;
    memset(&meaning, 0, sizeof meaning);
    meaning.width = plain_width(spn);
    if (meaning.width == 0)
        return meaning;
    for (size_t i = 0; i < sizeof units / sizeof units[0]; i++) {
        if (units[i].spn == spn) {
            meaning.resolution = units[i].resolution;
            meaning.offset = units[i].offset;
        }
    }
    if (meaning.width == 2)
        meaning.kind = 1;
    else if (meaning.width == 8)
        meaning.kind = 2;
    else if (meaning.width == 16)
        meaning.kind = 3;
    else if (meaning.width == 32)
        meaning.kind = 4;
    else
        meaning.kind = 5;
    return meaning;
}

struct plain_scaled plain_scaled(uint32_t spn, uint32_t number)
{
    struct plain_meaning meaning = plain_meaning(spn);
    struct plain_scaled scaled = { 0, meaning.kind, state_of(meaning.width, number) };
    if (scaled.state == 0 && meaning.width != 0)
        scaled.value = (long long)number * meaning.resolution + meaning.offset;
    return scaled;
}

/* ---- sets */

static int same_key(const struct plain_message *m, unsigned source, unsigned destination, unsigned k)
{
    return m->source == source && m->destination == destination && m->k == k;
}

/* "two messages are the same where source, destination and all stored fields agree" */
static int same_message(const struct plain_message *a, const struct plain_message *b)
{
    return same_key(a, b->source, b->destination, b->k) && a->n == b->n && a->proprietary == b->proprietary && a->transport == b->transport
        && a->position == b->position && a->spn == b->spn && a->start == b->start;
}

/* "differ in n, the proprietary flag or the transport flag, or have one position and differ in SPN or start" */
static int contradict(const struct plain_message *a, const struct plain_message *b)
{
    if (a->n != b->n || a->proprietary != b->proprietary || a->transport != b->transport)
        return 1;
    return a->position == b->position && (a->spn != b->spn || a->start != b->start);
}

/* "A set with a contradiction is in conflict" */
static int in_conflict(const struct plain_set *set)
{
    for (size_t i = 0; i < set->count; i++)
        for (size_t j = 0; j < i; j++)
            if (contradict(&set->messages[i], &set->messages[j]))
                return 1;
    return 0;
}

/* "A key is held while its set isn't empty." The number of its set, or 16. */
static unsigned set_of(const struct plain_box *box, unsigned source, unsigned destination, unsigned k)
{
    for (unsigned i = 0; i < box->held; i++)
        if (same_key(&box->sets[i].messages[0], source, destination, k))
            return i;
    return 16;
}

static void put_into(struct plain_set *set, struct plain_message m)
{
    for (size_t i = 0; i < set->count; i++)
        if (same_message(&set->messages[i], &m))
            return;
    if (set->count == set->room) {
        set->room = set->room * 2 + 4;
        set->messages = realloc(set->messages, set->room * sizeof *set->messages);
        if (!set->messages)
            abort();
    }
    set->messages[set->count++] = m;
}

void plain_start(struct plain_box *box)
{
    memset(box, 0, sizeof *box);
}

void plain_empty(struct plain_box *box)
{
    for (unsigned i = 0; i < 16; i++)
        box->sets[i].count = 0;
    box->held = 0;
}

/* ---- "What one message says", and answers 1 to 10 in order */

struct plain_answer plain_learn_message(struct plain_box *box, struct plain_message m)
{
    unsigned i = set_of(box, m.source, m.destination, m.k);
    if (i == 16) {
        if (box->held == 16)
            return answer(9, 0);
        i = box->held++;
        box->sets[i].edition = 2010;   /* "A fresh key has 2010" */
    }
    put_into(&box->sets[i], m);
    return answer(in_conflict(&box->sets[i]) ? 10 : 0, 0);
}

struct plain_answer plain_learn(struct plain_box *box, uint32_t identifier, unsigned length, const uint8_t data[8])
{
    unsigned refused = frame_refused(identifier, length, 45056);
    if (refused)
        return answer(refused, 0);
    struct fields f = fields_of(identifier);
    if (f.source == 254 || f.source == 255)
        return answer(4, 0);
    /* docs/WIRE.md, "Bit places": bytes are counted from 1 there */
    uint32_t configured = data[0] + 256 * data[1] + 65536 * data[2];
    struct plain_message m;
    m.source = f.source;
    m.destination = f.ps;   /* "The destination is PS where PF is below 240", and 176 is */
    m.spn = data[3] + 256 * data[4] + 65536 * bits(data[5], 5, 3);
    m.position = bits(data[5], 0, 5);
    m.proprietary = bits(data[6], 7, 1);
    m.transport = bits(data[6], 6, 1);
    unsigned first_only = bits(data[6], 5, 1);
    m.n = bits(data[6], 0, 5);
    unsigned starting_bit = data[7];
    m.k = 0;
    for (unsigned k = 1; k <= 15; k++)
        if (configured == 45056 + 256 * k)
            m.k = k;
    if (m.k == 0)
        return answer(5, 0);
    /* answer 6 never arrives: each flag is one bit, and so yes or no */
    if (m.n < 1 || m.n > 64 || m.position < 1 || m.position > m.n || (first_only && m.position != 1))
        return answer(7, 0);
    if (starting_bit < 1 || starting_bit > 250)
        return answer(8, 0);
    m.start = starting_bit - 1;
    return plain_learn_message(box, m);
}

struct plain_answer plain_forget(struct plain_box *box, unsigned source, unsigned destination, unsigned k)
{
    unsigned i = set_of(box, source, destination, k);
    if (i == 16)
        return answer(11, 0);
    /* the last set takes its place: the sets are in no order */
    struct plain_set forgotten = box->sets[i];
    box->held--;
    box->sets[i] = box->sets[box->held];
    forgotten.count = 0;
    box->sets[box->held] = forgotten;
    return answer(0, 0);
}

/* ---- Req 10: "Two editions of the dictionary" */

/* "a command changes one held key's edition and nothing else of it", "11, then 27 for another edition" */
struct plain_answer plain_set_edition(struct plain_box *box, unsigned source, unsigned destination, unsigned k, uint32_t edition)
{
    unsigned i = set_of(box, source, destination, k);
    if (i == 16)
        return answer(11, 0);
    if (edition != 2004 && edition != 2010)
        return answer(27, 0);
    box->sets[i].edition = edition;
    return answer(0, 0);
}

unsigned plain_edition(const struct plain_box *box, unsigned source, unsigned destination, unsigned k)
{
    unsigned i = set_of(box, source, destination, k);
    return i == 16 ? 2010 : box->sets[i].edition;
}

/* ---- "Payload bits": where the bits of a number stand */

/* Req 04: "a width above 8 that isn't a multiple of 8" */
int plain_odd(unsigned width)
{
    return width > 8 && width % 8 != 0;
}

/* "start + width"; of an odd width "the end of that byte", the "last, partial" one. */
unsigned plain_end(unsigned start, unsigned width)
{
    unsigned end = start + width;
    if (plain_odd(width))
        while ((end - start) % 8 != 0)
            end++;
    return end;
}

/* The payload bit of bit i of a number. "Bit i of the parameter's number stands at payload bit start + i"; of an odd width the last byte "is filled from bit 8 downward", the
   number's top bit being at the top, so these bits are counted back from the end. */
static unsigned place_of_bit(unsigned start, unsigned width, unsigned i)
{
    unsigned in_whole_bytes = width - width % 8;
    if (!plain_odd(width) || i < in_whole_bytes)
        return start + i;
    return plain_end(start, width) - (width - i);
}

/* ---- "A set and its judgement" */

/* A map, by position from 1: of a set without a contradiction, its widths by the key's edition. */
struct map {
    unsigned n, transport;
    unsigned there[65];
    unsigned spn[65], start[65], width[65];
};

static struct map map_of(const struct plain_set *set)
{
    struct map map;
    memset(&map, 0, sizeof map);
    map.n = set->messages[0].n;
    map.transport = set->messages[0].transport;
    for (size_t i = 0; i < set->count; i++) {
        const struct plain_message *m = &set->messages[i];
        map.there[m->position] = 1;
        map.spn[m->position] = m->spn;
        map.start[m->position] = m->start;
        map.width[m->position] = plain_width_by(set->edition, m->spn);
    }
    return map;
}

/* The bit of a parameter's number that stands at payload bit p, or its width where none does. */
static unsigned bit_at(const struct map *map, unsigned position, unsigned p)
{
    unsigned start = map->start[position], width = map->width[position], i = 0;
    if (p < start || p >= plain_end(start, width))
        return width;
    while (i < width && place_of_bit(start, width, i) != p)
        i++;
    return i;
}

/* Whether two parameters share a bit: for each bit of the one it is asked whether a bit of the other stands there. */
static int share_a_bit(const struct map *map, unsigned one, unsigned other)
{
    for (unsigned i = 0; i < map->width[one]; i++)
        if (bit_at(map, other, place_of_bit(map->start[one], map->width[one], i)) < map->width[other])
            return 1;
    return 0;
}

/* "the larger of 8 and the largest start + width divided by 8, rounded up", with Req 04's end */
static unsigned payload_bytes(const struct map *map)
{
    unsigned bytes = 8;
    for (unsigned p = 1; p <= map->n; p++) {
        unsigned end = plain_end(map->start[p], map->width[p]);
        while (8 * bytes < end)
            bytes++;
    }
    return bytes;
}

/* "The judgement is the first of these that applies, with its lowest position": the judgement, and its position. Req 04's 9 is "tested after 5 and before 6". */
static unsigned judgement_of(const struct plain_set *set, unsigned *position)
{
    static const unsigned rules[] = { 2, 3, 4, 5, 9, 6, 7 };
    *position = 0;
    if (in_conflict(set))
        return 1;
    struct map map = map_of(set);
    for (size_t r = 0; r < sizeof rules / sizeof rules[0]; r++) {
        for (unsigned p = 1; p <= map.n; p++) {
            int applies = 0;
            switch (rules[r]) {
            case 2:
                applies = !map.there[p];
                break;
            case 3:
                applies = map.width[p] == 0;
                break;
            case 4:
                for (unsigned q = 1; q < p; q++)
                    applies |= map.spn[q] == map.spn[p];
                break;
            case 5:
                applies = p > 1 && !(map.start[p] > map.start[p - 1]);
                break;
            case 9:
                applies = plain_odd(map.width[p]) && map.start[p] % 8 != 0;
                break;
            case 6:
                for (unsigned q = 1; q < p && !applies; q++)
                    applies = share_a_bit(&map, p, q);
                break;
            case 7:
                applies = plain_end(map.start[p], map.width[p]) > 14280;
                break;
            }
            if (applies) {
                *position = p;
                return rules[r];
            }
        }
    }
    if (map.transport ? payload_bytes(&map) == 8 : payload_bytes(&map) > 8)
        return 8;
    return 0;
}

struct plain_answer plain_judge(const struct plain_box *box, unsigned source, unsigned destination, unsigned k)
{
    unsigned i = set_of(box, source, destination, k), position;
    if (i == 16)
        return answer(11, 0);
    unsigned judgement = judgement_of(&box->sets[i], &position);
    return with_judgement(0, judgement, position);
}

unsigned plain_count(const struct plain_box *box, unsigned source, unsigned destination, unsigned k)
{
    unsigned i = set_of(box, source, destination, k);
    if (i == 16 || in_conflict(&box->sets[i]))
        return 0;
    return box->sets[i].messages[0].n;
}

/* 11, then 12, for pack, read and find: whether the map may be used. */
static int usable(const struct plain_box *box, unsigned source, unsigned destination, unsigned k, struct map *map, struct plain_answer *refusal)
{
    unsigned i = set_of(box, source, destination, k), position;
    if (i == 16) {
        *refusal = answer(11, 0);
        return 0;
    }
    unsigned judgement = judgement_of(&box->sets[i], &position);
    if (judgement != 0) {
        *refusal = with_judgement(12, judgement, position);
        return 0;
    }
    *map = map_of(&box->sets[i]);
    return 1;
}

/* ---- "Payload bits" */

/* "Payload bit p is the bit worth 2^(p mod 8) in byte p / 8 rounded down." */
static unsigned get_bit(const uint8_t *payload, unsigned p)
{
    unsigned worth = 1;
    for (unsigned i = 0; i < p % 8; i++)
        worth *= 2;
    return payload[p / 8] / worth % 2;
}

static void set_bit(uint8_t *payload, unsigned p, unsigned bit)
{
    unsigned worth = 1;
    for (unsigned i = 0; i < p % 8; i++)
        worth *= 2;
    if (get_bit(payload, p) != bit)
        payload[p / 8] = (uint8_t)(bit ? payload[p / 8] + worth : payload[p / 8] - worth);
}

struct plain_answer plain_pack(const struct plain_box *box, unsigned source, unsigned destination, unsigned k, const uint32_t *numbers, size_t count,
    uint8_t *payload, size_t size)
{
    struct map map;
    struct plain_answer refusal;
    if (!usable(box, source, destination, k, &map, &refusal))
        return refusal;
    unsigned bytes = payload_bytes(&map);
    if (count != map.n || size < bytes)
        return answer(13, 0);
    for (unsigned p = 1; p <= map.n; p++) {
        uint64_t first_too_large = 1;
        for (unsigned i = 0; i < map.width[p]; i++)
            first_too_large *= 2;
        if (numbers[p - 1] >= first_too_large)
            return answer(14, p);
    }
    for (unsigned b = 0; b < 8 * bytes; b++) {
        unsigned bit = 1;   /* "All other bits of the L bytes are 1" */
        for (unsigned p = 1; p <= map.n; p++) {
            unsigned i = bit_at(&map, p, b);
            if (i < map.width[p])
                bit = bits(numbers[p - 1], i, 1);
        }
        set_bit(payload, b, bit);
    }
    return answer(0, bytes);
}

struct plain_answer plain_read(const struct plain_box *box, unsigned source, unsigned destination, unsigned k, const uint8_t *payload, size_t size,
    uint32_t *numbers, size_t room, uint8_t *states, size_t places)
{
    struct map map;
    struct plain_answer refusal;
    if (!usable(box, source, destination, k, &map, &refusal))
        return refusal;
    if (size != payload_bytes(&map) || room < map.n || places < map.n)
        return answer(13, 0);
    for (unsigned p = 1; p <= map.n; p++) {
        uint32_t value = 0, worth = 1;
        for (unsigned i = 0; i < map.width[p]; i++) {
            value += get_bit(payload, place_of_bit(map.start[p], map.width[p], i)) * worth;
            worth *= 2;
        }
        numbers[p - 1] = value;
        states[p - 1] = (uint8_t)state_of(map.width[p], value);
    }
    return answer(0, map.n);
}

struct plain_found plain_find(const struct plain_box *box, unsigned source, unsigned destination, unsigned k, uint32_t spn)
{
    struct map map;
    struct plain_found found;
    memset(&found, 0, sizeof found);
    if (!usable(box, source, destination, k, &map, &found.answer))
        return found;
    for (unsigned p = 1; p <= map.n; p++) {
        if (map.spn[p] == spn) {
            found.answer = answer(0, 0);
            found.position = p;
            found.start = map.start[p];
            found.width = map.width[p];
            return found;
        }
    }
    found.answer = answer(18, 0);
    return found;
}

struct plain_parameter plain_parameter_at(const struct plain_box *box, unsigned source, unsigned destination, unsigned k, unsigned position)
{
    struct plain_parameter parameter;
    memset(&parameter, 0, sizeof parameter);
    unsigned i = set_of(box, source, destination, k);
    if (i == 16) {
        parameter.answer = answer(11, 0);
        return parameter;
    }
    const struct plain_set *set = &box->sets[i];
    parameter.answer = answer(18, 0);
    if (in_conflict(set))   /* it has no map: nothing stands anywhere */
        return parameter;
    for (size_t j = 0; j < set->count; j++) {
        if (set->messages[j].position == position) {
            parameter.answer = answer(0, 0);
            parameter.spn = set->messages[j].spn;
            parameter.start = set->messages[j].start;
            parameter.width = plain_width_by(set->edition, parameter.spn);
        }
    }
    return parameter;
}

/* ---- the held keys in order */

/* "rising by source, destination, k" */
static int below(unsigned source1, unsigned destination1, unsigned k1, unsigned source2, unsigned destination2, unsigned k2)
{
    if (source1 != source2)
        return source1 < source2;
    if (destination1 != destination2)
        return destination1 < destination2;
    return k1 < k2;
}

int plain_key_from(const struct plain_box *box, unsigned *source, unsigned *destination, unsigned *k)
{
    const struct plain_message *lowest = NULL;
    for (unsigned i = 0; i < box->held; i++) {
        const struct plain_message *m = &box->sets[i].messages[0];
        if (below(m->source, m->destination, m->k, *source, *destination, *k))
            continue;
        if (!lowest || below(m->source, m->destination, m->k, lowest->source, lowest->destination, lowest->k))
            lowest = m;
    }
    if (!lowest)
        return 0;
    *source = lowest->source;
    *destination = lowest->destination;
    *k = lowest->k;
    return 1;
}

/* ---- Req 03: "Answer a Parameter Locate" */

/* The next key of `own`, from (own, *destination, *k) on, that is usable and holds the SPN: 1, the key, and the message that says where, or 0. */
static int next_located(const struct plain_box *box, unsigned own, unsigned *destination, unsigned *k, uint32_t spn, struct plain_message *message)
{
    unsigned source = own;
    memset(message, 0, sizeof *message);
    while (plain_key_from(box, &source, destination, k) && source == own) {
        struct plain_found found = plain_find(box, source, *destination, *k, spn);
        if (found.answer.number == 0) {
            const struct plain_set *set = &box->sets[set_of(box, source, *destination, *k)];
            for (size_t i = 0; i < set->count; i++)
                if (set->messages[i].position == found.position)
                    *message = set->messages[i];
            return 1;
        }
        ++*k;   /* the three numbers need be no key that can be held */
    }
    return 0;
}

/* A message as a record of 13 bytes: "first-only as no, priority 6, destination as the key's". docs/WIRE.md has the places. */
static void record_of(struct plain_message m, uint8_t record[13])
{
    uint32_t identifier = ((6 * 1024 + 176) * 256 + m.destination) * 256 + m.source;   /* 3 bits of priority, reserved 0, data page 0, PF of 8 bits */
    uint32_t configured = 45056 + 256 * m.k;
    for (unsigned i = 0; i < 4; i++)
        record[i] = (uint8_t)bits(identifier, 8 * i, 8);
    record[4] = 8;
    for (unsigned i = 0; i < 3; i++)
        record[5 + i] = (uint8_t)bits(configured, 8 * i, 8);
    record[8] = (uint8_t)bits(m.spn, 0, 8);
    record[9] = (uint8_t)bits(m.spn, 8, 8);
    record[10] = (uint8_t)(bits(m.spn, 16, 3) * 32 + m.position);
    record[11] = (uint8_t)(m.proprietary * 128 + m.transport * 64 + m.n);
    record[12] = (uint8_t)(m.start + 1);
}

struct plain_answer plain_locate(const struct plain_box *box, unsigned own, uint32_t identifier, unsigned length, const uint8_t data[8], uint8_t *log, size_t size,
    size_t start)
{
    unsigned refused = frame_refused(identifier, length, 44800);
    if (refused)
        return answer(refused, 0);
    struct fields f = fields_of(identifier);
    if (data[7] != 0)
        return answer(24, 0);
    uint32_t spn = data[0] + 256 * data[1] + 65536 * bits(data[2], 5, 3);
    uint8_t records[16 * 13];
    unsigned count = 0, destination = 0, k = 0;
    struct plain_message message;
    if (f.ps == own || f.ps == 255)   /* "a request to another single address, gives no message" */
        for (; next_located(box, own, &destination, &k, spn, &message); k++)
            record_of(message, records + 13 * count++);
    /* "13 where start plus 13 a message exceeds the log; none is then written" */
    if (start > size || 13 * count > size - start)
        return answer(13, 0);
    for (unsigned i = 0; i < 13 * count; i++)
        log[start + i] = records[i];
    return answer(0, count);
}

/* ---- Req 01: "Keep what the box learned" */

/* "one row per usable key in rising order": the next one from the three numbers on, and its set, or NULL. */
static const struct plain_set *next_saved(const struct plain_box *box, unsigned *source, unsigned *destination, unsigned *k)
{
    while (plain_key_from(box, source, destination, k)) {
        const struct plain_set *set = &box->sets[set_of(box, *source, *destination, *k)];
        unsigned position;
        if (judgement_of(set, &position) == 0)
            return set;
        ++*k;   /* the three numbers need be no key that can be held */
    }
    return NULL;
}

static unsigned saved_count(const struct plain_box *box)
{
    unsigned count = 0, source = 0, destination = 0, k = 0;
    for (; next_saved(box, &source, &destination, &k); k++)
        count++;
    return count;
}

/* The bytes of a row: in form 1 key, offset and length; in form 2 (Req 10) the edition behind them. */
static unsigned row_bytes(unsigned form)
{
    return form == 1 ? 7 : 8;
}

static size_t size_in_form(const struct plain_box *box, unsigned form)
{
    size_t size = 2;
    unsigned source = 0, destination = 0, k = 0;
    const struct plain_set *set;
    for (; (set = next_saved(box, &source, &destination, &k)); k++)
        size += row_bytes(form) + 5 * set->messages[0].n;
    return size;
}

size_t plain_image_size(const struct plain_box *box)
{
    return size_in_form(box, 2);
}

/* Two bytes, "least significant byte first" as all of 01's numbers. */
static void put_two(uint8_t *at, size_t number)
{
    at[0] = (uint8_t)(number % 256);
    at[1] = (uint8_t)(number / 256 % 256);
}

static unsigned get_two(const uint8_t *at)
{
    return at[0] + 256u * at[1];
}

/* Of each position the data bytes 4 to 8 of its message, as a record has them. */
static void write_body(const struct plain_set *set, uint8_t *body)
{
    for (unsigned p = 1; p <= set->messages[0].n; p++)
        for (size_t i = 0; i < set->count; i++)
            if (set->messages[i].position == p) {
                uint8_t record[13];
                record_of(set->messages[i], record);
                memcpy(body + 5 * (p - 1), record + 8, 5);
            }
}

/* "a table of contents first .. then the bodies in that order without gaps", into a buffer that is long enough. Form 2: "Saved images carry the edition in the contents row". */
static void write_image(const struct plain_box *box, unsigned form, uint8_t *image)
{
    unsigned count = saved_count(box), source = 0, destination = 0, k = 0;
    const struct plain_set *set;
    size_t row = 2, at = 2 + row_bytes(form) * count;
    image[0] = (uint8_t)form;
    image[1] = (uint8_t)count;
    for (; (set = next_saved(box, &source, &destination, &k)); k++) {
        size_t length = 5 * set->messages[0].n;
        image[row] = (uint8_t)source;
        image[row + 1] = (uint8_t)destination;
        image[row + 2] = (uint8_t)k;
        put_two(image + row + 3, at);
        put_two(image + row + 5, length);
        if (form == 2)
            image[row + 7] = set->edition == 2004;
        write_body(set, image + at);
        row += row_bytes(form);
        at += length;
    }
}

struct plain_answer plain_save(const struct plain_box *box, uint8_t *image, size_t size)
{
    if (size < plain_image_size(box))
        return answer(13, 0);
    write_image(box, 2, image);
    return answer(0, 0);
}

size_t plain_save_form_1(const struct plain_box *box, uint8_t *image)
{
    write_image(box, 1, image);
    return size_in_form(box, 1);
}

/* Learns the messages that an image stands for: of each row's key, five bytes after five, at the row's offset and for its length; then "loading sets" the row's edition, and "old
   ones .. are read as 2010". 0 where the form is none, or a row says what no row can: more than 16 of them, a body that is not inside, one of more than the 31 positions that a
   message can count, or no edition. */
static int hear_image(struct plain_box *box, const uint8_t *image, size_t size)
{
    if (size < 2 || (image[0] != 1 && image[0] != 2) || image[1] > 16)
        return 0;
    size_t step = row_bytes(image[0]), contents = step * image[1];
    if (size < 2 + contents)
        return 0;
    for (const uint8_t *row = image + 2; row < image + 2 + contents; row += step) {
        unsigned offset = get_two(row + 3), length = get_two(row + 5);
        if (image[0] == 2 && row[7] > 1)
            return 0;
        if (offset + length > size || length > 5 * 31)
            return 0;
        for (unsigned at = offset; at + 5 <= offset + length; at += 5) {
            uint32_t configured = 45056 + 256 * row[2];
            uint8_t data[8] = { (uint8_t)bits(configured, 0, 8), (uint8_t)bits(configured, 8, 8), (uint8_t)bits(configured, 16, 8) };
            memcpy(data + 3, image + at, 5);
            plain_learn(box, ((6 * 1024 + 176) * 256 + row[1]) * 256 + row[0], 8, data);
        }
        plain_set_edition(box, row[0], row[1], row[2], image[0] == 2 && row[7] == 1 ? 2004 : 2010);
    }
    return 1;
}

/* "one table has one image, and any other bytes are damaged": an empty box that learned what these stand for must have these as its image, in their form. */
static int damaged(const uint8_t *image, size_t size)
{
    static struct plain_box heard;
    static uint8_t again[2 + 16 * (8 + 5 * 64)];
    plain_empty(&heard);
    if (!hear_image(&heard, image, size) || size_in_form(&heard, image[0]) != size)
        return 1;
    write_image(&heard, image[0], again);
    return memcmp(again, image, size) != 0;
}

struct plain_answer plain_load(struct plain_box *box, const uint8_t *image, size_t size)
{
    if (damaged(image, size))
        return answer(21, 0);
    if (box->held > 0)
        return answer(23, 0);
    hear_image(box, image, size);
    return answer(0, 0);
}

/* What a row of an image says; answer 22 and nothing else where there is none. */
static struct plain_row row_at(const uint8_t *image, size_t row)
{
    struct plain_row got;
    memset(&got, 0, sizeof got);
    got.answer = answer(22, 0);
    if (row < image[1]) {
        const uint8_t *at = image + 2 + row_bytes(image[0]) * row;
        got.answer = answer(0, 0);
        got.source = at[0];
        got.destination = at[1];
        got.k = at[2];
        got.offset = get_two(at + 3);
        got.length = get_two(at + 5);
        got.edition = image[0] == 2 && at[7] == 1 ? 2004 : 2010;
    }
    return got;
}

static struct plain_row no_row(void)
{
    struct plain_row none;
    memset(&none, 0, sizeof none);
    none.answer = answer(21, 0);
    return none;
}

/* "21 damaged image, 22 key or row not in it" */
struct plain_row plain_image_row(const uint8_t *image, size_t size, size_t row)
{
    return damaged(image, size) ? no_row() : row_at(image, row);
}

struct plain_row plain_image_body(const uint8_t *image, size_t size, unsigned source, unsigned destination, unsigned k)
{
    if (damaged(image, size))
        return no_row();
    size_t row = 0;
    struct plain_row got = row_at(image, row);
    while (got.answer.number == 0 && !(got.source == source && got.destination == destination && got.k == k))
        got = row_at(image, ++row);
    return got;
}

/* ---- Req 14: "Long messages" */

void plain_start_sessions(struct plain_sessions *all)
{
    all->count = 0;
}

/* "One session per source and destination": the pair's, or NULL. The two PGNs have a PF below 240, so that "the destination is PS". */
static struct plain_session *session_of(struct plain_sessions *all, struct fields f)
{
    for (unsigned i = 0; i < all->count; i++)
        if (all->sessions[i].source == f.source && all->sessions[i].destination == f.ps)
            return &all->sessions[i];
    return NULL;
}

/* The session ends: the last one of the list takes its place, since the order says nothing. */
static void end_session(struct plain_sessions *all, struct plain_session *one)
{
    *one = all->sessions[--all->count];
}

/* "request to send is control byte 16"; size bytes 2 and 3, packets byte 4, PGN bytes 6 to 8, "least significant byte first" */
struct plain_answer plain_request(struct plain_sessions *all, uint32_t identifier, unsigned length, const uint8_t data[8])
{
    unsigned refused = frame_refused(identifier, length, 60416);
    if (refused)
        return answer(refused, 0);
    if (data[0] != 16)
        return answer(24, 0);
    /* "31 size outside 9 to 1,785 or not matching its packet count": full packets, and one more for what is left */
    unsigned size = data[1] + 256u * data[2], packets = size / 7;
    if (size % 7 > 0)
        packets++;
    if (size < 9 || size > 1785 || data[3] != packets)
        return answer(31, 0);
    struct fields f = fields_of(identifier);
    struct plain_session *one = session_of(all, f);   /* "a new request to send replaces that pair's own session" */
    if (!one) {
        if (all->count == 8)
            return answer(30, 0);
        one = &all->sessions[all->count++];
    }
    memset(one, 0, sizeof *one);
    one->source = f.source;
    one->destination = f.ps;
    one->size = size;
    one->pgn = data[5] + 256u * data[6] + 65536u * data[7];
    return answer(0, 0);
}

/* "packets carry a sequence number from 1 and 7 bytes" */
struct plain_arrived plain_packet(struct plain_sessions *all, uint32_t identifier, unsigned length, const uint8_t data[8], uint8_t *payload)
{
    struct plain_arrived arrived = { answer(frame_refused(identifier, length, 60160), 0), 0 };
    if (arrived.answer.number != 0)
        return arrived;
    struct plain_session *one = session_of(all, fields_of(identifier));
    if (!one) {
        arrived.answer = answer(28, 0);
        return arrived;
    }
    if (data[0] != one->packets + 1) {   /* "A packet out of sequence drops its session only" */
        end_session(all, one);
        arrived.answer = answer(29, 0);
        return arrived;
    }
    for (unsigned i = 0; i < 7; i++)
        one->bytes[7 * one->packets + i] = data[1 + i];
    one->packets++;
    if (7 * one->packets >= one->size) {   /* "the last one's answer 0 carries its size, and the session ends" */
        for (unsigned i = 0; i < one->size; i++)
            payload[i] = one->bytes[i];
        arrived.answer = answer(0, one->size);
        arrived.pgn = one->pgn;
        end_session(all, one);
    }
    return arrived;
}

/* ---- "Port pairs" */

void plain_fresh(struct plain_box *box)
{
    memset(box->pairs, 0, sizeof box->pairs);
}

/* "not two different ports, each 1..4" */
static int no_pair(unsigned from, unsigned to)
{
    return from < 1 || from > 4 || to < 1 || to > 4 || from == to;
}

/* "PGN above 262,143, or PF below 240 with a low byte other than 0" */
static int ill_formed(uint32_t pgn)
{
    return pgn > 262143 || (bits(pgn, 8, 8) < 240 && bits(pgn, 0, 8) != 0);
}

/* The place of a PGN in a list, or how many it holds. */
static unsigned place_of(const struct plain_pair *pair, uint32_t pgn)
{
    unsigned i = 0;
    while (i < pair->count && pair->pgns[i] != pgn)
        i++;
    return i;
}

struct plain_answer plain_add(struct plain_box *box, unsigned from, unsigned to, uint32_t pgn)
{
    if (no_pair(from, to))
        return answer(15, 0);
    if (ill_formed(pgn))
        return answer(17, 0);
    struct plain_pair *pair = &box->pairs[from][to];
    if (place_of(pair, pgn) < pair->count)
        return answer(0, 0);
    if (pair->count == 32)
        return answer(16, 0);
    pair->pgns[pair->count++] = pgn;
    return answer(0, 0);
}

struct plain_answer plain_delete(struct plain_box *box, unsigned from, unsigned to, uint32_t pgn)
{
    if (no_pair(from, to))
        return answer(15, 0);
    if (ill_formed(pgn))
        return answer(17, 0);
    struct plain_pair *pair = &box->pairs[from][to];
    unsigned i = place_of(pair, pgn);
    if (i == pair->count)
        return answer(18, 0);
    for (; i + 1 < pair->count; i++)
        pair->pgns[i] = pair->pgns[i + 1];
    pair->count--;
    return answer(0, 0);
}

/* Req 07: "named pair, new mode, empty list", "15, then 19" */
struct plain_answer plain_renew(struct plain_box *box, unsigned from, unsigned to, unsigned mode)
{
    if (no_pair(from, to))
        return answer(15, 0);
    if (mode != 0 && mode != 1)
        return answer(19, 0);
    box->pairs[from][to].mode = mode;
    box->pairs[from][to].count = 0;
    return answer(0, 0);
}

struct plain_answer plain_decide(const struct plain_box *box, unsigned from, unsigned to, uint32_t identifier)
{
    if (no_pair(from, to))
        return answer(15, 0);
    if (identifier > 536870911)
        return answer(1, 0);
    const struct plain_pair *pair = &box->pairs[from][to];
    int listed = place_of(pair, pgn_of(fields_of(identifier))) < pair->count;
    /* "Mode 0 passes all but the listed, mode 1 blocks all but the listed" */
    return answer(0, pair->mode == 0 ? !listed : listed);
}

/* ---- "The listing program" */

size_t plain_listing(const uint8_t *log, size_t size, char *text, size_t room)
{
    static struct plain_box box;
    plain_empty(&box);
    unsigned long long records = 0, refused = 0, other = 0;
    size_t at = 0;
    for (; at + 13 <= size; at += 13) {
        uint32_t identifier = log[at] + 256u * log[at + 1] + 65536u * log[at + 2] + 16777216u * log[at + 3];
        unsigned number = plain_learn(&box, identifier, log[at + 4], log + at + 5).number;
        records++;
        if (number == 2)
            other++;
        if (number == 1 || (number >= 3 && number <= 9))
            refused++;
    }
    size_t used = 0;
    used += (size_t)snprintf(text + used, room - used, "SRC DST MSG N JUDGED AT\n");
    unsigned source = 0, destination = 0, k = 0;
    while (used < room && plain_key_from(&box, &source, &destination, &k)) {
        struct plain_answer judged = plain_judge(&box, source, destination, k);
        used += (size_t)snprintf(text + used, room - used, "%u %u %u %u %u %u\n", source, destination, k, plain_count(&box, source, destination, k),
            judged.judgement, judged.position);
        k++;   /* the three numbers need be no key that can be held */
    }
    if (used < room)
        used += (size_t)snprintf(text + used, room - used, "RECORDS %llu REFUSED %llu OTHER %llu LEFT %zu\n", records, refused, other, size - at);
    return used < room ? used : 0;
}
