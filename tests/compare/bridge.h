/* Req 09 of document 02 once more, plainly: a second implementation of the bridge and of a day that is replayed, written from 01, 02, source document 004 (4.4) and docs/TRACE.md alone. A queue is a list
   of frames in order of arrival. The filters are those of plain.h. */
#ifndef BRIDGE_H
#define BRIDGE_H

#include "plain.h"

/* "arrived, filtered, queued, sent, turned away, refused" */
struct plain_counters {
    uint64_t arrived, filtered, queued, sent, turned, refused;
};

/* A frame that waits: the port where it came, and its identifier. */
struct plain_frame {
    unsigned from;
    uint32_t identifier;
};

/* The counters by the two ports of a pair; by port what waits there, in order of arrival. */
struct plain_bridge {
    struct plain_counters counters[5][5];
    struct plain_frame waiting[5][64];
    unsigned count[5];
};

/* What the three other ports answer, rising; `answer` is 0, or 15 and there are none. */
struct plain_offered {
    struct plain_answer answer;
    struct plain_answer to[3];
};

/* The counters of a pair and how many of its frames wait, all 0 where `answer` is 15. */
struct plain_counted {
    struct plain_answer answer;
    struct plain_counters counters;
    uint64_t waiting;
};

/* What a trace had. */
struct plain_trace {
    uint64_t events, frames, slots, commands, refused, other, left;
};

void plain_start_bridge(struct plain_bridge *bridge);
struct plain_offered plain_offer(struct plain_bridge *bridge, const struct plain_box *box, unsigned from, uint32_t identifier);

/* 15, or 0 with how many frames left; of a frame that left, where it came and its identifier. */
struct plain_answer plain_slot(struct plain_bridge *bridge, unsigned port, unsigned *from, uint32_t *identifier);
struct plain_counted plain_count_pair(const struct plain_bridge *bridge, unsigned from, unsigned to);

/* A whole trace, on top of what the bridge and the filters are. */
struct plain_trace plain_replay(struct plain_bridge *bridge, struct plain_box *box, const uint8_t *trace, size_t size);

/* What ./replay prints, into `text`, which has room for `room` bytes; the number of bytes, or 0 where they have no room. */
size_t plain_replayed(const struct plain_bridge *bridge, struct plain_trace trace, char *text, size_t room);

#endif
