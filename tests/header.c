/* Every call, enumerator and struct of include/yendrolf.h, used as its reader would: C99 and C++11, no cast. tests/header compiles it with all warnings. */
#include "../include/yendrolf.h"
#include "../include/yendrolf.h"   /* twice does no harm */

static yendrolf_box box;

static uint32_t answer_or_judgement(yendrolf_told told)
{
    switch (told.number) {
    case YENDROLF_DONE: return told.detail;
    case YENDROLF_BAD_IDENTIFIER: case YENDROLF_OTHER_PGN: case YENDROLF_BAD_LENGTH: case YENDROLF_BAD_SOURCE: case YENDROLF_NOT_CONFIGURABLE:
    case YENDROLF_BAD_FLAG: case YENDROLF_BAD_POSITION: case YENDROLF_BAD_START: case YENDROLF_TABLE_FULL: case YENDROLF_CONTRADICTED:
    case YENDROLF_NOT_HELD: case YENDROLF_BAD_BUFFER: case YENDROLF_TOO_WIDE: case YENDROLF_BAD_PORTS: case YENDROLF_LIST_FULL: case YENDROLF_BAD_PGN:
    case YENDROLF_NOT_LISTED: case YENDROLF_BAD_MODE: case YENDROLF_LIST_NOT_EMPTY: case YENDROLF_DAMAGED: case YENDROLF_NOT_IN_IMAGE: case YENDROLF_NOT_EMPTY:
    case YENDROLF_BAD_EDITION: return told.number;
    case YENDROLF_BAD_COMMAND: case YENDROLF_TOO_MANY: case YENDROLF_TURNED_AWAY: case YENDROLF_NO_SESSION: case YENDROLF_OUT_OF_SEQUENCE: case YENDROLF_SESSIONS_FULL:
    case YENDROLF_BAD_SIZE: return told.number;
    case YENDROLF_NOT_USABLE: break;
    default: return 0;
    }
    switch (told.judgement) {
    case YENDROLF_USABLE: case YENDROLF_IN_CONFLICT: case YENDROLF_MISSING: case YENDROLF_UNKNOWN: case YENDROLF_REPEATED: case YENDROLF_NOT_ABOVE:
    case YENDROLF_UNEVEN: case YENDROLF_OVERLAPS: case YENDROLF_BEYOND: case YENDROLF_TRANSPORT: return told.position;
    default: return 0;
    }
}

/* How many decimals a value needs, and whether it is one at all. */
static uint32_t decimals(yendrolf_value worth)
{
    uint32_t digits = 3;
    switch (worth.state) {
    case YENDROLF_VALID: break;
    case YENDROLF_RESERVED: case YENDROLF_ERROR: case YENDROLF_NOT_AVAILABLE: return 4;
    default: return 5;
    }
    for (int64_t value = worth.value; digits > 0 && value % 10 == 0; value /= 10)
        digits--;
    return digits;
}

static uint32_t bits_of(yendrolf_meant meant)
{
    switch (meant.kind) {
    case YENDROLF_NO_KIND: return 0;
    case YENDROLF_TWO_BITS: return 2;
    case YENDROLF_ONE_BYTE: return 8;
    case YENDROLF_TWO_BYTES: return 16;
    case YENDROLF_FOUR_BYTES: return 32;
    case YENDROLF_OTHER_WIDTH: return meant.width;
    default: return 99;
    }
}

/* Saves the box, loads another from that, and walks what was saved: how many rows it has, or 99. */
static uint32_t saved_rows(void)
{
    static yendrolf_box swapped;
    static uint8_t image[YENDROLF_IMAGE_BYTES];
    size_t size = yendrolf_image_size(&box), row = 0;
    yendrolf_row there;
    yendrolf_start(&swapped);
    if (size > sizeof image || answer_or_judgement(yendrolf_save(&box, image, size)) != 0)
        return 99;
    if (yendrolf_load(&swapped, image, size - 1).number != YENDROLF_DAMAGED || yendrolf_load(&swapped, image, size).number != YENDROLF_DONE)
        return 99;
    while ((there = yendrolf_image_row(image, size, row)).told.number == YENDROLF_DONE) {
        yendrolf_row body = yendrolf_image_body(image, size, (uint8_t)there.source, (uint8_t)there.destination, (uint8_t)there.k);   /* a row's numbers are of 32 bits */
        if (body.told.number != YENDROLF_DONE || body.offset != there.offset || body.length != there.length || body.length % 5 != 0)
            return 99;
        if (there.edition != yendrolf_edition(&box, (uint8_t)there.source, (uint8_t)there.destination, (uint8_t)there.k) || body.edition != there.edition)
            return 99;
        row++;
    }
    if (there.told.number != YENDROLF_NOT_IN_IMAGE || yendrolf_image_body(image, size, 255, 255, 255).told.number != YENDROLF_NOT_IN_IMAGE)
        return 99;
    if (row != 0 && yendrolf_load(&swapped, image, size).number != YENDROLF_NOT_EMPTY)
        return 99;
    return (uint32_t)row;
}

/* A request to send twelve bytes and their two packets, given in three orders: the size of what came out at last, or 99. */
static uint32_t long_message(void)
{
    static yendrolf_sessions sessions;
    static uint8_t payload[YENDROLF_MOST_BYTES];
    static const uint8_t asks[YENDROLF_FRAME_BYTES] = { 16, 12, 0, 2, 255, 0x00, 0xb2, 0x00 };
    static const uint8_t one[YENDROLF_FRAME_BYTES] = { 1, 10, 11, 12, 13, 14, 15, 16 };
    static const uint8_t two[YENDROLF_FRAME_BYTES] = { 2, 17, 18, 19, 20, 21, 255, 255 };
    yendrolf_start_sessions(&sessions);
    if (answer_or_judgement(yendrolf_packet(&sessions, 0x1ceb2726, YENDROLF_FRAME_BYTES, one, payload).told) != YENDROLF_NO_SESSION)
        return 99;
    if (yendrolf_request(&sessions, 0x1cec2726, YENDROLF_FRAME_BYTES, one).number != YENDROLF_BAD_COMMAND)
        return 99;
    if (yendrolf_request(&sessions, 0x1cec2726, YENDROLF_FRAME_BYTES, asks).number != YENDROLF_DONE)
        return 99;
    if (yendrolf_packet(&sessions, 0x1ceb2726, YENDROLF_FRAME_BYTES, two, payload).told.number != YENDROLF_OUT_OF_SEQUENCE)
        return 99;
    for (uint32_t source = 1; source <= YENDROLF_MOST_SESSIONS; source++)   /* eight others, and one more */
        if (yendrolf_request(&sessions, 0x1cec2700 | source, YENDROLF_FRAME_BYTES, asks).number != YENDROLF_DONE)
            return 99;
    if (yendrolf_request(&sessions, 0x1cec2726, YENDROLF_FRAME_BYTES, asks).number != YENDROLF_SESSIONS_FULL)
        return 99;
    yendrolf_start_sessions(&sessions);
    if (yendrolf_request(&sessions, 0x1cec2726, YENDROLF_FRAME_BYTES, asks).number != YENDROLF_DONE)
        return 99;
    if (yendrolf_packet(&sessions, 0x1ceb2726, YENDROLF_FRAME_BYTES, one, payload).told.detail != 0 || payload[0] != 0)
        return 99;
    yendrolf_arrived arrived = yendrolf_packet(&sessions, 0x1ceb2726, YENDROLF_FRAME_BYTES, two, payload);
    if (arrived.told.number != YENDROLF_DONE || arrived.pgn != 45568 || payload[0] != 10 || payload[YENDROLF_PACKET_BYTES] != 17 || payload[11] != 21 || payload[12] != 0)
        return 99;
    return sizeof sessions == YENDROLF_SESSIONS_BYTES ? arrived.told.detail : 99;
}

/* A box that keeps engine configuration from port 4, and a bridge with it: a frame at port 3, then an engine's of a higher priority at port 1. Whether port 2 lets the second one leave first, and all is counted. */
static int frames_cross(yendrolf_bridge *bridge, yendrolf_box *filters)
{
    uint8_t from = 0;
    uint32_t identifier = 0;
    yendrolf_start(filters);
    yendrolf_start_bridge(bridge);
    if (answer_or_judgement(yendrolf_add(filters, 1, 4, 65251)) != 0 || yendrolf_slot(bridge, 2, &from, &identifier).detail != 0)
        return 0;
    if (yendrolf_offer(bridge, filters, YENDROLF_PORTS + 1, 0x18fee803).told.number != YENDROLF_BAD_PORTS || yendrolf_offer(bridge, filters, 3, 0x18fee803).told.number != YENDROLF_DONE)
        return 0;
    yendrolf_offered offered = yendrolf_offer(bridge, filters, 1, 0x0cfee300);
    if (offered.to[0].detail != YENDROLF_PASS || offered.to[1].detail != YENDROLF_PASS || offered.to[2].number != YENDROLF_DONE || offered.to[2].detail != YENDROLF_BLOCK)
        return 0;
    if (answer_or_judgement(yendrolf_slot(bridge, 2, &from, &identifier)) != 1 || from != 1 || identifier != 0x0cfee300)
        return 0;
    yendrolf_pair header = yendrolf_pair_counts(bridge, 1, 2), tester = yendrolf_pair_counts(bridge, 1, YENDROLF_PORTS), radio = yendrolf_pair_counts(bridge, 3, 2);
    return header.arrived == 1 && header.queued == 1 && header.sent == 1 && header.waiting == 0 && tester.filtered == 1 && radio.waiting == 1 && radio.sent == 0;
}

/* 65 frames into one port: the last is turned away, and so is an engine's at another port, which is the first record of a trace; the second one is a slot, and the trace is cut behind its first byte. */
static int turned_away(yendrolf_bridge *bridge, yendrolf_box *filters)
{
    static const uint8_t day[2 * YENDROLF_EVENT_BYTES] = { 1, 0x00, 0x04, 0xf0, 0x0c, 8, 0, 0, 0, 0, 0, 0, 0, 0, 130 };
    static uint8_t text[YENDROLF_REPLAY_BYTES];
    yendrolf_start_bridge(bridge);
    for (unsigned i = 0; i < YENDROLF_MOST_WAITING; i++)
        if (yendrolf_offer(bridge, filters, 3, 0x18fee803).to[1].number != YENDROLF_DONE)
            return 0;
    if (answer_or_judgement(yendrolf_offer(bridge, filters, 3, 0x18fee803).to[1]) != YENDROLF_TURNED_AWAY || yendrolf_offer(bridge, filters, 3, 0x38fee803).to[1].number != YENDROLF_BAD_IDENTIFIER)
        return 0;
    yendrolf_trace trace = yendrolf_replay(bridge, filters, yendrolf_start_trace(), day, YENDROLF_EVENT_BYTES + 1);
    if (trace.events != 1 || trace.left != 1 || trace.carry[0] != 130)
        return 0;
    trace = yendrolf_replay(bridge, filters, trace, day + YENDROLF_EVENT_BYTES + 1, sizeof day - YENDROLF_EVENT_BYTES - 1);
    if (trace.frames != 1 || trace.slots != 1 || trace.commands + trace.refused + trace.other + trace.left != 0)
        return 0;
    yendrolf_pair tractor = yendrolf_pair_counts(bridge, 1, 2), radio = yendrolf_pair_counts(bridge, 3, 2);
    if (tractor.turned != 1 || radio.turned != 1 || radio.refused != 1 || radio.sent != 1 || radio.arrived != radio.filtered + radio.sent + radio.waiting + radio.turned + radio.refused)
        return 0;
    yendrolf_told written = yendrolf_replayed(bridge, trace, text, sizeof text);
    return written.number == YENDROLF_DONE && text[0] == 'F' && yendrolf_replayed(bridge, trace, text, written.detail - 1).number == YENDROLF_BAD_BUFFER
        && yendrolf_pair_counts(bridge, 2, 2).told.number == YENDROLF_BAD_PORTS;
}

static int at_a_bridge(void)
{
    static yendrolf_bridge bridge;
    static yendrolf_box filters;
    return frames_cross(&bridge, &filters) && turned_away(&bridge, &filters) && sizeof bridge == YENDROLF_BRIDGE_BYTES
        && YENDROLF_COUNTER_WORDS == YENDROLF_PAIRS * YENDROLF_PAIR_COUNTERS && YENDROLF_QUEUE_WORDS == YENDROLF_PORTS * (1 + YENDROLF_MOST_WAITING);
}

/* A hire of one key and three payloads, under limits that are not passed, and asked under one that is: whether its lines are what they should be. */
static int hired(void)
{
    static yendrolf_box header;
    static yendrolf_hire hire;
    static const uint8_t records[4][YENDROLF_RECORD_BYTES] = {
        { 0x26, 0x27, 0xb0, 0x18, 8, 0x00, 0xb1, 0x00, 0xed, 0x05, 0x01, 0x81, 1 },
        { 0x26, 0x27, 0xb1, 0x18, 8, 40, 255, 255, 255, 255, 255, 255, 255 },
        { 0x26, 0x27, 0xb1, 0x18, 8, 251, 255, 255, 255, 255, 255, 255, 255 },
        { 0x26, 0x27, 0xb1, 0x18, 8, 10, 255, 255, 255, 255, 255, 255, 255 },
    };
    static const uint32_t limits[] = { YENDROLF_HIRE_LIMIT, 3 };
    for (uint32_t which = 0; which < 2; which++) {
        uint32_t limit = limits[which];
        yendrolf_log log = yendrolf_start_log();
        yendrolf_start(&header);
        yendrolf_start_hire(&hire);
        for (uint32_t i = 0; i < 4; i++)
            log = yendrolf_feed_hire(&header, &hire, limit, log, records[i], sizeof records[i]);
        yendrolf_line line = yendrolf_line_at(&header, &hire, limit, 38, 39, 1, 1);
        if (log.records != 4 || log.other != 3 || line.told.number != YENDROLF_DONE || line.spn != 1517 || line.read != line.valid + line.reserved + line.error + line.missing)
            return 0;
        if (line.read != 3 || line.reserved != 1 || line.least != 10 || line.greatest != 40 || line.sum != 50)
            return 0;
        if (yendrolf_line_at(&header, &hire, limit, 38, 39, 1, 2).told.number != YENDROLF_NOT_LISTED || yendrolf_line_at(&header, &hire, limit, 38, 39, 2, 1).told.number != YENDROLF_NOT_HELD)
            return 0;
        if (answer_or_judgement(yendrolf_line_at(&header, &hire, 2, 38, 39, 1, 1).told) != YENDROLF_TOO_MANY)
            return 0;
    }
    return 1;
}

/* Whether 19 bits (SPN 3147) lie as an SPN does in SAE J1939-74, 5.3.2, and are judged YENDROLF_UNEVEN where they start at bit 1. */
static int nineteen_bits(void)
{
    static yendrolf_box other;
    uint8_t data[YENDROLF_FRAME_BYTES] = { 0x00, 0xb1, 0x00, 0x4b, 0x0c, 0x01, 0x81, 1 }, payload[YENDROLF_FRAME_BYTES] = { 0 };
    uint32_t number = 1517;
    yendrolf_start(&other);
    yendrolf_learn(&other, 0x18b02726, YENDROLF_FRAME_BYTES, data);
    yendrolf_told packed = yendrolf_pack(&other, 38, 39, 1, &number, 1, payload, sizeof payload);
    if (packed.number != YENDROLF_DONE || payload[0] != 0xed || payload[1] != 0x05 || payload[2] != 0x1f || payload[3] != 0xff)
        return 0;
    data[1] = 0xb2;
    data[7] = 2;
    yendrolf_learn(&other, 0x18b02726, YENDROLF_FRAME_BYTES, data);
    yendrolf_told judged = yendrolf_judge(&other, 38, 39, 2);
    return judged.judgement == YENDROLF_UNEVEN && judged.position == 1;
}

/* Whether a key has 2010 at first, is asked by 2004 once that is set, and is saved and loaded with it: SPN 1517 is not in 2004's dictionary, 3153 is. */
static int editions(void)
{
    static yendrolf_box other, swapped;
    static uint8_t image[YENDROLF_IMAGE_BYTES];
    uint8_t data[YENDROLF_FRAME_BYTES] = { 0x00, 0xb1, 0x00, 0xed, 0x05, 0x01, 0x81, 1 };
    size_t size;
    yendrolf_start(&other);
    yendrolf_start(&swapped);
    if (yendrolf_set_edition(&other, 38, 39, 1, YENDROLF_2004).number != YENDROLF_NOT_HELD)
        return 0;
    for (uint8_t k = 1; k <= 2; k++) {
        yendrolf_learn(&other, 0x18b02726, YENDROLF_FRAME_BYTES, data);
        if (yendrolf_edition(&other, 38, 39, k) != YENDROLF_2010 || yendrolf_judge(&other, 38, 39, k).judgement != YENDROLF_USABLE)
            return 0;
        if (yendrolf_set_edition(&other, 38, 39, k, 2007).number != YENDROLF_BAD_EDITION || yendrolf_set_edition(&other, 38, 39, k, YENDROLF_2004).number != YENDROLF_DONE)
            return 0;
        if (yendrolf_edition(&other, 38, 39, k) != YENDROLF_2004 || yendrolf_judge(&other, 38, 39, k).judgement != (k == 1 ? YENDROLF_UNKNOWN : YENDROLF_USABLE))
            return 0;
        data[1] = 0xb2;
        data[3] = 0x51;   /* SPN 3153, 0C51h */
        data[4] = 0x0c;
    }
    size = yendrolf_image_size(&other);
    if (yendrolf_save(&other, image, sizeof image).number != YENDROLF_DONE || yendrolf_load(&swapped, image, size).number != YENDROLF_DONE)
        return 0;
    if (yendrolf_image_row(image, size, 0).edition != YENDROLF_2004 || yendrolf_image_row(image, size, 1).edition != 0 || yendrolf_edition(&swapped, 38, 39, 2) != YENDROLF_2004)
        return 0;
    yendrolf_forget(&swapped, 38, 39, 2);
    return yendrolf_edition(&swapped, 38, 39, 2) == YENDROLF_2010;
}

int main(void)
{
    static const uint8_t data[YENDROLF_FRAME_BYTES] = { 0x00, 0xb1, 0x00, 0xed, 0x05, 0x01, 0x81, 1 };
    static const uint8_t asked[YENDROLF_FRAME_BYTES] = { 0xed, 0x05, 0x1f, 0xff, 0xff, 0xff, 0xff, 0 };
    static uint8_t payload[YENDROLF_MOST_BYTES], text[YENDROLF_LISTING_BYTES], record[YENDROLF_RECORD_BYTES], located[YENDROLF_LOCATE_BYTES];
    static uint32_t numbers[YENDROLF_MOST_NUMBERS];
    static uint8_t states[YENDROLF_MOST_NUMBERS];
    uint32_t sum = 0, held = 0;
    yendrolf_log log = yendrolf_start_log();
    if (yendrolf_version() != YENDROLF_VERSION)
        return 1;
    yendrolf_start(&box);
    yendrolf_empty(&box);
    yendrolf_fresh(&box);
    sum += answer_or_judgement(yendrolf_learn(&box, 0x18b02726, YENDROLF_FRAME_BYTES, data));
    if (saved_rows() != 1 || !nineteen_bits() || !editions())
        return 1;
    yendrolf_told answered = yendrolf_locate(&box, 38, 0x18af26f9, YENDROLF_FRAME_BYTES, asked, located, sizeof located, 0);
    if (answered.number != YENDROLF_DONE || answered.detail != 1 || located[0] != 38 || located[12] != 1)
        return 1;
    sum += answer_or_judgement(yendrolf_locate(&box, 38, 0x18af26f9, YENDROLF_FRAME_BYTES, data, located, sizeof located, 0));   /* 24: its last byte is 1 */
    for (yendrolf_key key = yendrolf_first_key(&box); key.held; key = yendrolf_next_key(&box, key.source, key.destination, key.k)) {
        uint32_t n = yendrolf_count(&box, key.source, key.destination, key.k);   /* what a key has goes back in as it is */
        yendrolf_told judged = yendrolf_judge(&box, key.source, key.destination, key.k);
        yendrolf_told packed = yendrolf_pack(&box, key.source, key.destination, key.k, numbers, n, payload, sizeof payload);
        yendrolf_told read = yendrolf_read(&box, key.source, key.destination, key.k, payload, packed.detail, numbers, YENDROLF_MOST_NUMBERS, states, sizeof states);
        yendrolf_found found = yendrolf_find(&box, key.source, key.destination, key.k, 1517);
        yendrolf_parameter parameter = yendrolf_parameter_at(&box, key.source, key.destination, key.k, 1);
        if (parameter.told.number != YENDROLF_DONE || parameter.spn != 1517 || parameter.start != 0 || parameter.width != 8)
            return 1;
        if (yendrolf_scaled(parameter.spn, numbers[0]).state != states[0])   /* so does what a position has */
            return 1;
        sum += judged.judgement + answer_or_judgement(read) + found.told.number + found.position + found.start + found.width;
        sum += answer_or_judgement(yendrolf_forget(&box, key.source, key.destination, key.k));
        held++;
    }
    yendrolf_meant tilt = yendrolf_meaning(1539);
    yendrolf_value level = yendrolf_scaled(1539, 120);
    if (tilt.width != 8 || tilt.resolution != 100 || tilt.offset != -12500 || bits_of(tilt) != tilt.width || bits_of(yendrolf_meaning(0)) != 0)
        return 1;
    if (level.value != -500 || level.kind != tilt.kind || level.state != YENDROLF_VALID || decimals(level) != 1 || decimals(yendrolf_scaled(1539, 255)) != 4)
        return 1;
    log = yendrolf_feed(&box, log, record, sizeof record);
    sum += (uint32_t)(log.records + log.refused + log.other + log.left) + log.carry[0];
    sum += answer_or_judgement(yendrolf_finish(&box, log, text, sizeof text));
    if (long_message() != 12 || !hired())
        return 1;
    sum += answer_or_judgement(yendrolf_add(&box, 1, YENDROLF_PORTS, 65251));
    sum += answer_or_judgement(yendrolf_delete(&box, 1, YENDROLF_PORTS, 65251));
    sum += answer_or_judgement(yendrolf_renew(&box, 1, 2, YENDROLF_BLOCK_ALL_BUT));
    sum += answer_or_judgement(yendrolf_renew(&box, 1, 2, YENDROLF_PASS_ALL_BUT));
    yendrolf_told decided = yendrolf_decide(&box, 1, 2, 0x18fee300);
    if (decided.number != YENDROLF_DONE || decided.detail == YENDROLF_BLOCK || decided.detail != YENDROLF_PASS)
        return 1;
    if (!at_a_bridge())
        return 1;
    if (YENDROLF_HELD_BYTES != YENDROLF_MOST_SESSIONS * YENDROLF_MOST_BYTES || YENDROLF_HEAD_WORDS % YENDROLF_MOST_SESSIONS != 0)
        return 1;
    return held > YENDROLF_MOST_KEYS || sum == 0 || sizeof box != YENDROLF_BOX_BYTES || YENDROLF_MOST_LISTED > YENDROLF_STACK_BYTES;
}
