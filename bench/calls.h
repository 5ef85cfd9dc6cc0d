/* What is measured, once for each library: bench.c includes it with CALL(name) and TEST(name) as that library's names. Each makes n calls and answers with
   a sum over what it got, which must be the same for all. Calls of one kind go round the maps of that kind. Buffers are not cleared between calls. */

MEASURED uint64_t TEST(others)(uint64_t n)
{
    uint64_t sum = 0;
    for (uint64_t i = 0; i < n; i++)
        sum += CALL(table_learn)(box.table, other_ids[i % FRAMES], 8, frames[i % FRAMES].data).number;
    return sum;
}

MEASURED uint64_t TEST(learn)(uint64_t n)
{
    uint64_t sum = 0;
    for (uint64_t i = 0; i < n; i++) {
        const struct frame *f = &frames[i % FRAMES];
        sum += CALL(table_learn)(box.table, f->identifier, 8, f->data).number;
    }
    return sum;
}

/* Each key's row is made held again by its state word, so that the next forget finds it. */
MEASURED uint64_t TEST(forget)(uint64_t n)
{
    uint64_t sum = 0;
    for (uint64_t i = 0; i < n; i++) {
        const struct key *key = &keys[i % KEYS];
        sum += CALL(table_forget)(spare.table, key->source, 39, key->k).number + 1;
        spare.table[i % KEYS * ROW] = 1;
    }
    return sum;
}

/* One in four is no edition. */
MEASURED uint64_t TEST(set_edition)(uint64_t n)
{
    static const uint32_t editions[4] = { 2004, 2010, 2007, 2004 };
    uint64_t sum = 0;
    for (uint64_t i = 0; i < n; i++) {
        const struct key *key = &keys[i % KEYS];
        sum += CALL(table_set_edition)(spare.table, key->source, 39, key->k, editions[i % 4]).number + spare.table[i % KEYS * ROW + 2];
    }
    for (unsigned i = 0; i < KEYS; i++)
        spare.table[i * ROW + 2] = box.table[i * ROW + 2];
    return sum;
}

MEASURED uint64_t TEST(count)(uint64_t n)
{
    uint64_t sum = 0;
    for (uint64_t i = 0; i < n; i++)
        sum += CALL(table_count)(box.table, keys[i % KEYS].source, 39, keys[i % KEYS].k);
    return sum;
}

/* judge, pack and read by the maps of one kind */
#define OVER_MAPS(kind, words) \
    MEASURED uint64_t TEST(judge_##kind)(uint64_t n) \
    { \
        uint64_t sum = 0; \
        for (uint64_t i = 0; i < n; i++) \
            sum += CALL(table_judge)(words, 38, 39, (uint8_t)(FIRST_##kind + i % MAPS)).judgement + 1; \
        return sum; \
    } \
    MEASURED uint64_t TEST(pack_##kind)(uint64_t n) \
    { \
        uint64_t sum = 0; \
        fill(); \
        for (uint64_t i = 0; i < n; i++) { \
            struct map *m = &maps_##kind[i % MAPS]; \
            numbers[0] = i & 1; \
            sum += CALL(table_pack)(words, 38, 39, (uint8_t)(FIRST_##kind + i % MAPS), numbers, m->n, payload, sizeof payload).detail \
                + payload[i % m->bytes]; \
        } \
        return sum; \
    } \
    MEASURED uint64_t TEST(read_##kind)(uint64_t n) \
    { \
        uint64_t sum = 0; \
        fill(); \
        for (uint64_t i = 0; i < n; i++) { \
            struct map *m = &maps_##kind[i % MAPS]; \
            payload[i % m->bytes] = (uint8_t)i; \
            sum += CALL(table_read)(words, 38, 39, (uint8_t)(FIRST_##kind + i % MAPS), payload, m->bytes, numbers, m->n, states, m->n).detail \
                + numbers[i % m->n] + states[i % m->n]; \
        } \
        return sum; \
    }
OVER_MAPS(8, box.table)
OVER_MAPS(30, box.table)
OVER_MAPS(64, wide_box.table)
OVER_MAPS(1, wide_box.table)
OVER_MAPS(odd, wide_box.table)
OVER_MAPS(2010, edition_box.table)
OVER_MAPS(2004, edition_box.table)
#undef OVER_MAPS

/* One in eight is not in the map. */
MEASURED uint64_t TEST(find)(uint64_t n)
{
    uint64_t sum = 0;
    for (uint64_t i = 0; i < n; i++)
        sum += CALL(table_find)(box.table, 38, 39, (uint8_t)(FIRST_8 + i % MAPS), i % 8 ? maps_8[i % MAPS].spns[i % 8] : 9).position;
    return sum;
}

/* Positions 1 to 8 in turn. */
MEASURED uint64_t TEST(parameter)(uint64_t n)
{
    uint64_t sum = 0;
    for (uint64_t i = 0; i < n; i++) {
        yendrolf_parameter got = CALL(table_parameter_at)(box.table, 38, 39, (uint8_t)(FIRST_8 + i % MAPS), (uint8_t)(1 + i % 8));
        sum += got.spn + got.start + got.width;
    }
    return sum;
}

/* SPNs of the maps of 8 and of 30 in turn, so that at least one of the sixteen keys has it; one in eight is in none. */
MEASURED uint64_t TEST(locate)(uint64_t n)
{
    static uint8_t log[YENDROLF_LOCATE_BYTES];
    uint64_t sum = 0;
    memset(log, 0, sizeof log);
    for (uint64_t i = 0; i < n; i++)
        sum += CALL(table_locate)(box.table, 38, 0x18af26f9, 8, requests[i % FRAMES], log, sizeof log, 0).detail + log[i % sizeof log];
    return sum;
}

/* The same, asked of 39. */
MEASURED uint64_t TEST(locate_other)(uint64_t n)
{
    static uint8_t log[YENDROLF_LOCATE_BYTES];
    uint64_t sum = 0;
    for (uint64_t i = 0; i < n; i++)
        sum += CALL(table_locate)(box.table, 38, 0x18af27f9, 8, requests[i % FRAMES], log, sizeof log, i % 256).number;
    return sum;
}

/* One SPN in eight is not in the dictionary. */
MEASURED uint64_t TEST(mean)(uint64_t n)
{
    uint64_t sum = 0;
    for (uint64_t i = 0; i < n; i++) {
        yendrolf_meant got = CALL(meaning)(asked_spns[i % FRAMES]);
        sum += (uint64_t)got.offset + got.resolution + got.width + got.kind;
    }
    return sum;
}

MEASURED uint64_t TEST(scale)(uint64_t n)
{
    uint64_t sum = 0;
    for (uint64_t i = 0; i < n; i++) {
        yendrolf_value got = CALL(scaled)(asked_spns[i % FRAMES], asked_numbers[i % FRAMES]);
        sum += (uint64_t)got.value + got.kind + got.state;
    }
    return sum;
}

MEASURED uint64_t TEST(decide0)(uint64_t n)
{
    uint64_t sum = 0;
    for (uint64_t i = 0; i < n; i++)
        sum += CALL(filters_decide)(box.filters, 1, 2, other_ids[i % FRAMES]).detail;
    return sum;
}

MEASURED uint64_t TEST(decide32)(uint64_t n)
{
    uint64_t sum = 0;
    for (uint64_t i = 0; i < n; i++)
        sum += CALL(filters_decide)(box.filters, 3, 4, other_ids[i % FRAMES]).detail;
    return sum;
}

/* One in four names no mode. */
MEASURED uint64_t TEST(renew)(uint64_t n)
{
    uint64_t sum = 0;
    for (uint64_t i = 0; i < n; i++)
        sum += CALL(filters_renew)(other_box.filters, (uint8_t)(1 + i % 4), (uint8_t)(1 + i / 4 % 4), (uint8_t)(i % 4 == 3 ? 2 : i % 2)).number;
    return sum;
}

MEASURED uint64_t TEST(feed)(uint64_t n)
{
    yendrolf_log log = CALL(start_log)();
    CALL(table_empty)(other_box.table);
    for (uint64_t fed = 0; fed < n; fed += RECORDS)
        log = CALL(table_feed)(other_box.table, log, records, sizeof records);
    return log.records + log.refused + log.other;
}

MEASURED uint64_t TEST(finish)(uint64_t n)
{
    static uint8_t text[512];
    yendrolf_log log = CALL(start_log)();
    uint64_t sum = 0;
    memset(text, 0, sizeof text);   /* what a shorter listing leaves is looked at too */
    for (uint64_t i = 0; i < n; i++) {
        log.records = i;
        sum += CALL(table_finish)(box.table, log, text, sizeof text).detail + text[i % 300];
    }
    return sum;
}

/* A log fed to a hire, or to the listing where `hired` is 0: so many records and more, 5,000 of them in a chunk. Other cells than the first of each position are looked at too. */
MEASURED uint64_t TEST(fed)(uint64_t n, yendrolf_box *b, const uint8_t *log_records, int hired)
{
    yendrolf_log log = CALL(start_log)();
    uint64_t sum = 0;
    CALL(hire_fresh)(hire.cells);
    for (uint64_t done = 0; done < n; done += RECORDS)
        log = hired ? CALL(hire_feed)(b->table, hire.cells, YENDROLF_HIRE_LIMIT, log, log_records, RECORDS * 13) : CALL(table_feed)(b->table, log, log_records, RECORDS * 13);
    for (unsigned i = 0; i < YENDROLF_CELL_WORDS; i++)
        sum = sum * 31 + hire.cells[i];
    return sum + log.records + log.refused + log.other;
}

MEASURED uint64_t TEST(hire_others)(uint64_t n)
{
    return TEST(fed)(n, &hire_box, other_records, 1);
}

MEASURED uint64_t TEST(feed_others)(uint64_t n)
{
    return TEST(fed)(n, &hire_box, other_records, 0);
}

/* The log of "feed": nine of ten frames are of another PGN, and the tenth is a message. */
MEASURED uint64_t TEST(hire_log)(uint64_t n)
{
    CALL(table_empty)(other_box.table);
    return TEST(fed)(n, &other_box, records, 1);
}

MEASURED uint64_t TEST(hire_8)(uint64_t n)
{
    return TEST(fed)(n, &hire_box, paid_8, 1);
}

MEASURED uint64_t TEST(hire_30)(uint64_t n)
{
    return TEST(fed)(n, &hire_box, paid_30, 1);
}

/* Positions 1 to 8 in turn, of a hire of which nothing was read. */
MEASURED uint64_t TEST(line)(uint64_t n)
{
    uint64_t sum = 0;
    CALL(hire_fresh)(hire.cells);
    for (uint64_t i = 0; i < n; i++) {
        yendrolf_line got = CALL(hire_line)(hire_box.table, hire.cells, YENDROLF_HIRE_LIMIT, 38, 39, (uint8_t)(FIRST_8 + i % MAPS), (uint8_t)(1 + i % 8));
        sum += got.told.number + got.spn + got.read + got.sum;
    }
    return sum;
}

/* The image of a table of 16 keys, 10 of them usable. */
MEASURED uint64_t TEST(save)(uint64_t n)
{
    static uint8_t image[YENDROLF_IMAGE_BYTES];
    uint64_t sum = 0;
    memset(image, 0, sizeof image);
    for (uint64_t i = 0; i < n; i++) {
        sum += CALL(table_save)(box.table, image, sizeof image).number + image[i % sizeof image];
        image[i % sizeof image] = 0;
    }
    return sum;
}

/* Each row is made free again by its state word, so that the next load finds an empty table. */
MEASURED uint64_t TEST(load)(uint64_t n)
{
    uint64_t sum = 0;
    CALL(table_empty)(other_box.table);
    for (uint64_t i = 0; i < n; i++) {
        for (unsigned row = 0; row < KEYS; row++)
            other_box.table[row * ROW] = 0;
        sum += CALL(table_load)(other_box.table, saved_image, saved_size).number + other_box.table[i % YENDROLF_TABLE_WORDS];
    }
    return sum;
}

/* The same from the image that Req 01 would have saved. */
MEASURED uint64_t TEST(load_1)(uint64_t n)
{
    uint64_t sum = 0;
    CALL(table_empty)(other_box.table);
    for (uint64_t i = 0; i < n; i++) {
        for (unsigned row = 0; row < KEYS; row++)
            other_box.table[row * ROW] = 0;
        sum += CALL(table_load)(other_box.table, form_1_image, form_1_size).number + other_box.table[i % YENDROLF_TABLE_WORDS];
    }
    return sum;
}

/* Each of the table's keys in turn; 6 of 16 are not in the image. */
MEASURED uint64_t TEST(body)(uint64_t n)
{
    uint64_t sum = 0;
    for (uint64_t i = 0; i < n; i++) {
        yendrolf_row got = CALL(image_body)(saved_image, saved_size, keys[i % KEYS].source, 39, keys[i % KEYS].k);
        sum += got.told.number + got.offset + got.length;
    }
    return sum;
}

/* One in eight is past the last. */
MEASURED uint64_t TEST(row)(uint64_t n)
{
    uint64_t sum = 0;
    for (uint64_t i = 0; i < n; i++) {
        yendrolf_row got = CALL(image_row)(saved_image, saved_size, i % 8 ? i % 8 : 16);
        sum += got.told.number + got.source + got.k + got.offset + got.length;
    }
    return sum;
}

/* The same image with its last byte turned: the reader goes nearly to its end. */
MEASURED uint64_t TEST(damaged)(uint64_t n)
{
    uint64_t sum = 0;
    for (uint64_t i = 0; i < n; i++)
        sum += CALL(table_load)(other_box.table, damaged_image, saved_size).number;
    return sum;
}

/* Requests of eight pairs in turn; from the second on each replaces its pair's session. */
MEASURED uint64_t TEST(request)(uint64_t n)
{
    uint64_t sum = 0;
    CALL(sessions_fresh)(talk.heads);
    for (uint64_t i = 0; i < n; i++)
        sum += CALL(sessions_request)(talk.heads, 0x1cec2700u | (uint32_t)(i % TALKERS), 8, asking).number + talk.heads[i % YENDROLF_HEAD_WORDS];
    return sum;
}

/* Packets 1 to 254 of eight sessions in turn. Then each session waits for packet 1 again, by its word of the next one, so that no payload is finished. */
MEASURED uint64_t TEST(packet)(uint64_t n)
{
    uint64_t sum = 0;
    uint32_t pair = 0, number = 1;
    start_talk();
    for (uint64_t i = 0; i < n; i++) {
        sum += CALL(sessions_packet)(talk.heads, talk.bytes, payload, 0x1ceb2700u | pair, 8, packets[number]).told.number + talk.bytes[number];
        if (++pair == TALKERS) {
            pair = 0;
            if (++number == 255) {
                number = 1;
                for (unsigned row = 0; row < TALKERS; row++)
                    talk.heads[4 * row + 1] = 1;
            }
        }
    }
    return sum;
}

/* Packet 255 of eight sessions in turn; each session is made as it was before by its words of holder and next packet. */
MEASURED uint64_t TEST(last_packet)(uint64_t n)
{
    uint64_t sum = 0;
    start_talk();
    for (uint64_t i = 0; i < n; i++) {
        uint64_t pair = i % TALKERS, *row = &talk.heads[4 * pair];
        row[0] = 1 + 256 * pair + 39;
        row[1] = 255;
        yendrolf_arrived got = CALL(sessions_packet)(talk.heads, talk.bytes, payload, 0x1ceb2700u | (uint32_t)pair, 8, packets[255]);
        sum += got.told.detail + got.pgn + payload[i % sizeof payload];
    }
    return sum;
}

/* Frames at the four ports in turn. Four of them bring each port three, so that after 84 each has 63; then all that wait are taken away by the words of their count. */
MEASURED uint64_t TEST(offers)(uint64_t n, const uint32_t *filters)
{
    uint64_t sum = 0, filled = 0;
    CALL(bridge_fresh)(day.counters, day.queues);
    for (uint64_t i = 0; i < n; i++) {
        yendrolf_offered got = CALL(bridge_offer)(day.counters, day.queues, filters, (uint8_t)(1 + i % 4), other_ids[i % FRAMES]);
        sum += got.to[0].detail + got.to[1].detail + got.to[2].detail;
        if (++filled == 84) {
            filled = 0;
            set_waiting(0);
        }
    }
    return sum + day.counters[0];
}

MEASURED uint64_t TEST(offer)(uint64_t n)
{
    return TEST(offers)(n, day_box.filters);
}

/* Each pair's list has 32 PGNs, and the frames are of others. */
MEASURED uint64_t TEST(offer32)(uint64_t n)
{
    return TEST(offers)(n, listed_box.filters);
}

/* 64 wait at each port. */
MEASURED uint64_t TEST(offer_full)(uint64_t n)
{
    uint64_t sum = 0;
    CALL(bridge_fresh)(day.counters, day.queues);
    set_waiting(YENDROLF_MOST_WAITING);
    for (uint64_t i = 0; i < n; i++)
        sum += CALL(bridge_offer)(day.counters, day.queues, day_box.filters, (uint8_t)(1 + i % 4), other_ids[i % FRAMES]).to[i % 3].number;
    return sum;
}

/* Slots of the four ports in turn, where so many wait: before each one another frame stands behind those that are left. */
MEASURED uint64_t TEST(slots)(uint64_t n, uint64_t waiting)
{
    uint64_t sum = 0;
    CALL(bridge_fresh)(day.counters, day.queues);
    fill_queues();
    for (uint64_t i = 0; i < n; i++) {
        uint64_t *queue = &day.queues[QUEUE * (i % 4)];
        uint8_t from = 0;
        uint32_t identifier = 0;
        queue[0] = waiting;
        queue[waiting] = frames_waiting[i % FRAMES];
        CALL(bridge_slot)(day.counters, day.queues, (uint8_t)(1 + i % 4), &from, &identifier);
        sum += from + identifier;
    }
    return sum;
}

MEASURED uint64_t TEST(slot64)(uint64_t n)
{
    return TEST(slots)(n, YENDROLF_MOST_WAITING);
}

MEASURED uint64_t TEST(slot8)(uint64_t n)
{
    return TEST(slots)(n, 8);
}

/* The twelve pairs in turn, and four that are none, 64 waiting at each port. */
MEASURED uint64_t TEST(pair)(uint64_t n)
{
    uint64_t sum = 0;
    fill_queues();
    for (uint64_t i = 0; i < n; i++) {
        yendrolf_pair got = CALL(bridge_pair)(day.counters, day.queues, (uint8_t)(1 + i % 4), (uint8_t)(1 + i / 4 % 4));
        sum += got.told.number + got.waiting;
    }
    return sum;
}

/* A trace, from a fresh bridge and fresh filters on. */
MEASURED uint64_t TEST(replay)(uint64_t n)
{
    yendrolf_trace had = CALL(start_trace)();
    CALL(bridge_fresh)(day.counters, day.queues);
    CALL(filters_fresh)(other_box.filters);
    for (uint64_t fed = 0; fed < n; fed += RECORDS)
        had = CALL(bridge_feed)(day.counters, day.queues, other_box.filters, had, trace_records, sizeof trace_records);
    return had.events + had.slots + had.refused + day.counters[3] + day.counters[4];
}

MEASURED uint64_t TEST(replayed)(uint64_t n)
{
    static uint8_t text[YENDROLF_REPLAY_BYTES];
    yendrolf_trace had = CALL(start_trace)();
    uint64_t sum = 0;
    memset(text, 0, sizeof text);
    fill_queues();
    for (uint64_t i = 0; i < n; i++) {
        had.events = i;
        sum += CALL(bridge_finish)(day.counters, day.queues, had, text, sizeof text).detail + text[i % 300];
    }
    return sum;
}

#undef CALL
#undef TEST
