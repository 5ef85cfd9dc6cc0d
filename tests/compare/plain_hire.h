/* Req 06 in the second implementation (plain.h): the report on the log of a hire. All payloads that were read are kept, and a line is counted from them when it is asked for. */
#ifndef PLAIN_HIRE_H
#define PLAIN_HIRE_H

#include "plain.h"

/* A payload that was read: its numbers, and the state of each (0 valid, 1 reserved, 2 error, 3 not available). */
struct plain_reading {
    uint32_t numbers[64];
    uint8_t states[64];
};

/* A key of which payloads were read. */
struct plain_hired {
    unsigned source, destination, k;
    struct plain_reading *readings;
    size_t count, room;
};

/* A log that comes in chunks: the box that learns from it, its counts, the bytes of a record that is not whole yet, and the keys. A box holds 16, and a log forgets none. Beside the box stands one
   that hears no contradiction: what each key's map was before. */
struct plain_hire {
    struct plain_box box, agreed;
    unsigned long long records, refused, other;
    uint8_t rest[13];
    size_t left;
    struct plain_hired keys[16];
    unsigned held;
};

/* "how many payloads were read, how many numbers were valid, reserved, error and not available, and the least, greatest and exact sum of the valid raw ones": all 0 on a refusal. */
struct plain_line {
    struct plain_answer answer;
    unsigned spn;
    unsigned long long read, valid, reserved, error, missing, least, greatest, sum;
};

void plain_hire_first(struct plain_hire *hire);   /* memory of any bytes, for the first time */
void plain_hire_start(struct plain_hire *hire);   /* nothing read yet, and no key held */
void plain_hire_feed(struct plain_hire *hire, const uint8_t *chunk, size_t size);

/* What a caller may do with the box before a chunk: a frame that is in no log, and the edition of a key (Req 10). */
struct plain_answer plain_hire_learn(struct plain_hire *hire, uint32_t identifier, unsigned length, const uint8_t data[8]);
struct plain_answer plain_hire_set_edition(struct plain_hire *hire, unsigned source, unsigned destination, unsigned k, uint32_t edition);

/* 11; 12 where the key's map, of one in conflict as it was before, is not usable by the key's edition; 25 where more than `limit` payloads were read; 18 where the map has not that position; or 0. */
struct plain_line plain_hire_line(const struct plain_hire *hire, unsigned long long limit, unsigned source, unsigned destination, unsigned k, unsigned position);

#endif
