/* A report on the log of a hire in C: a log comes on standard input, is fed in chunks as they come, and each parameter of each key whose map was usable has a line, with the least, greatest and mean of its
   valid numbers in its unit. examples/run builds it, runs it on samples/hire.log, and compares what it prints with examples/hire.txt. */
#include <inttypes.h>
#include <stdio.h>

#include "../include/yendrolf.h"

static yendrolf_box box;
static yendrolf_hire hire;                        /* what is counted: 64 KB, however long the log is */

/* A number of thousandths, with three decimals. */
static void say_thousandths(const char *what, int64_t value)
{
    uint64_t thousandths = (uint64_t)(value < 0 ? -value : value);
    printf(", %s %s%" PRIu64 ".%03" PRIu64, what, value < 0 ? "-" : "", thousandths / 1000, thousandths % 1000);
}

/* The mean of the valid numbers in thousandths of the unit, rounded down: sum * resolution does not fit 64 bits where the counts are at their end, so whole steps and what is left of them are scaled apart. */
static int64_t mean_of(const yendrolf_line *line, yendrolf_meant meant)
{
    uint64_t whole = line->sum / line->valid, left = line->sum % line->valid;
    return (int64_t)(whole * meant.resolution + left * meant.resolution / line->valid) + meant.offset;
}

static void say_line(yendrolf_key key, uint32_t position, const yendrolf_line *line)
{
    printf("%u to %u, message %u, position %u: SPN %u, %" PRIu64 " read, %" PRIu64 " valid, %" PRIu64 " reserved, %" PRIu64 " error, %" PRIu64 " not available", key.source, key.destination, key.k,
        position, line->spn, line->read, line->valid, line->reserved, line->error, line->missing);
    if (line->valid > 0) {   /* least, greatest and sum are of these */
        say_thousandths("least", yendrolf_scaled(line->spn, (uint32_t)line->least).value);
        say_thousandths("greatest", yendrolf_scaled(line->spn, (uint32_t)line->greatest).value);
        say_thousandths("mean", mean_of(line, yendrolf_meaning(line->spn)));
    }
    printf("\n");
}

/* The lines of a key: positions from 1 on, as long as the answer is 0. Also a key that is in conflict now has lines, where its map was usable before. */
static void say_key(yendrolf_key key)
{
    uint8_t position = 1;
    yendrolf_line line = yendrolf_line_at(&box, &hire, YENDROLF_HIRE_LIMIT, key.source, key.destination, key.k, position);
    while (line.told.number == YENDROLF_DONE) {
        say_line(key, position, &line);
        position++;
        line = yendrolf_line_at(&box, &hire, YENDROLF_HIRE_LIMIT, key.source, key.destination, key.k, position);
    }
    if (line.told.number == YENDROLF_NOT_USABLE)
        printf("%u to %u, message %u: never usable, judgement %u at %u\n", key.source, key.destination, key.k, line.told.judgement, line.told.position);
    if (line.told.number == YENDROLF_TOO_MANY)
        printf("%u to %u, message %u: more payloads than are counted\n", key.source, key.destination, key.k);
}

int main(void)
{
    static uint8_t chunk[4096];                   /* cut anywhere: what is left of a record is kept in the log */
    size_t size;
    yendrolf_log log = yendrolf_start_log();
    yendrolf_start(&box);
    yendrolf_start_hire(&hire);
    while ((size = fread(chunk, 1, sizeof chunk, stdin)) > 0)
        log = yendrolf_feed_hire(&box, &hire, YENDROLF_HIRE_LIMIT, log, chunk, size);
    for (yendrolf_key key = yendrolf_first_key(&box); key.held; key = yendrolf_next_key(&box, key.source, key.destination, key.k))
        say_key(key);
    printf("%" PRIu64 " records, %" PRIu64 " refused, %" PRIu64 " of other PGNs, %" PRIu64 " bytes left\n", log.records, log.refused, log.other, log.left);
    return 0;
}
