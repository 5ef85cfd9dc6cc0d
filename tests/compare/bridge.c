/* Req 09 once more, plainly: see bridge.h. Words in quotes are 02's. */
#include "bridge.h"

#include <inttypes.h>
#include <stdio.h>
#include <string.h>

static struct plain_answer answer(unsigned number, unsigned detail)
{
    struct plain_answer a = { number, detail, 0, 0 };
    return a;
}

static int is_port(unsigned port)
{
    return port == 1 || port == 2 || port == 3 || port == 4;
}

void plain_start_bridge(struct plain_bridge *bridge)
{
    memset(bridge, 0, sizeof *bridge);
}

/* ---- a frame at a port */

/* One of the other ports: "15 (no counter), 1 (refused), then 26 (turned away) exactly when the filter passes the frame and 64 wait there" */
static struct plain_answer offer_to(struct plain_bridge *bridge, const struct plain_box *box, unsigned from, unsigned to, uint32_t identifier)
{
    struct plain_counters *counters = &bridge->counters[from][to];
    struct plain_answer decided = plain_decide(box, from, to, identifier);
    counters->arrived++;
    if (decided.number == 1) {
        counters->refused++;
        return answer(1, 0);
    }
    if (decided.detail == 0) {
        counters->filtered++;
        return answer(0, 0);
    }
    if (bridge->count[to] == 64) {
        counters->turned++;
        return answer(26, 0);
    }
    counters->queued++;
    bridge->waiting[to][bridge->count[to]].from = from;
    bridge->waiting[to][bridge->count[to]].identifier = identifier;
    bridge->count[to]++;
    return answer(0, 1);
}

/* "A frame is offered to the three other ports, each answering" */
struct plain_offered plain_offer(struct plain_bridge *bridge, const struct plain_box *box, unsigned from, uint32_t identifier)
{
    struct plain_offered offered;
    memset(&offered, 0, sizeof offered);
    if (!is_port(from)) {
        offered.answer = answer(15, 0);
        return offered;
    }
    unsigned others = 0;
    for (unsigned to = 1; to <= 4; to++)
        if (to != from)
            offered.to[others++] = offer_to(bridge, box, from, to, identifier);
    return offered;
}

/* ---- a slot */

/* 01: the top three of the 29 identifier bits. */
static unsigned priority_of(uint32_t identifier)
{
    return identifier / 67108864 % 8;
}

/* "Frames of higher priority leave first, equal ones in order of arrival": 004's highest priority is 0. */
struct plain_answer plain_slot(struct plain_bridge *bridge, unsigned port, unsigned *from, uint32_t *identifier)
{
    if (!is_port(port))
        return answer(15, 0);
    for (unsigned priority = 0; priority <= 7; priority++) {
        for (unsigned i = 0; i < bridge->count[port]; i++) {
            struct plain_frame frame = bridge->waiting[port][i];
            if (priority_of(frame.identifier) != priority)
                continue;
            for (unsigned j = i + 1; j < bridge->count[port]; j++)
                bridge->waiting[port][j - 1] = bridge->waiting[port][j];
            bridge->count[port]--;
            bridge->counters[frame.from][port].sent++;
            *from = frame.from;
            *identifier = frame.identifier;
            return answer(0, 1);
        }
    }
    return answer(0, 0);
}

/* ---- what is counted of a pair */

struct plain_counted plain_count_pair(const struct plain_bridge *bridge, unsigned from, unsigned to)
{
    struct plain_counted counted;
    memset(&counted, 0, sizeof counted);
    if (!is_port(from) || !is_port(to) || from == to) {
        counted.answer = answer(15, 0);
        return counted;
    }
    counted.counters = bridge->counters[from][to];
    for (unsigned i = 0; i < bridge->count[to]; i++)
        if (bridge->waiting[to][i].from == from)
            counted.waiting++;
    return counted;
}

/* ---- a trace: docs/TRACE.md */

static uint32_t three_bytes(const uint8_t *bytes)
{
    return bytes[0] + 256u * bytes[1] + 65536u * bytes[2];
}

/* The fitter's setting of a record, whose first byte says which one it is. */
static struct plain_answer set_filter(struct plain_box *box, const uint8_t *record)
{
    if (record[0] == 65)
        return plain_add(box, record[1], record[2], three_bytes(record + 3));
    if (record[0] == 66)
        return plain_delete(box, record[1], record[2], three_bytes(record + 3));
    return plain_renew(box, record[1], record[2], record[3]);
}

struct plain_trace plain_replay(struct plain_bridge *bridge, struct plain_box *box, const uint8_t *trace, size_t size)
{
    struct plain_trace had;
    memset(&had, 0, sizeof had);
    for (size_t at = 0; at + 14 <= size; at += 14) {
        const uint8_t *record = trace + at;
        unsigned first = record[0], from;
        uint32_t identifier;
        had.events++;
        if (first >= 1 && first <= 4) {
            had.frames++;
            plain_offer(bridge, box, first, three_bytes(record + 1) + 16777216u * record[4]);
        } else if (first >= 129 && first <= 132) {
            had.slots++;
            plain_slot(bridge, first - 128, &from, &identifier);
        } else if (first >= 65 && first <= 67) {
            had.commands++;
            if (set_filter(box, record).number != 0)
                had.refused++;
        } else {
            had.other++;
        }
    }
    had.left = size % 14;
    return had;
}

size_t plain_replayed(const struct plain_bridge *bridge, struct plain_trace trace, char *text, size_t room)
{
    char page[4096];
    int at = sprintf(page, "FROM TO ARRIVED FILTERED QUEUED SENT TURNED REFUSED WAITING\n");
    for (unsigned from = 1; from <= 4; from++)
        for (unsigned to = 1; to <= 4; to++) {
            struct plain_counted c = plain_count_pair(bridge, from, to);
            if (c.answer.number == 0)
                at += sprintf(page + at, "%u %u %" PRIu64 " %" PRIu64 " %" PRIu64 " %" PRIu64 " %" PRIu64 " %" PRIu64 " %" PRIu64 "\n", from, to, c.counters.arrived,
                    c.counters.filtered, c.counters.queued, c.counters.sent, c.counters.turned, c.counters.refused, c.waiting);
        }
    at += sprintf(page + at, "EVENTS %" PRIu64 " FRAMES %" PRIu64 " SLOTS %" PRIu64 " COMMANDS %" PRIu64 " REFUSED %" PRIu64 " OTHER %" PRIu64 " LEFT %" PRIu64 "\n", trace.events,
        trace.frames, trace.slots, trace.commands, trace.refused, trace.other, trace.left);
    if ((size_t)at > room)
        return 0;
    memcpy(text, page, (size_t)at);
    return (size_t)at;
}
