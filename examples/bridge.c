/* A bridge of four ports in C: what the tractor, the header and a radio send crosses from port to port as the filters let it, and waits there until its turn comes: by priority, and of one priority in
   order of arrival. Then more comes than can leave, and is turned away; and what was counted. examples/run builds it, runs it, and compares what it prints with examples/bridge.txt. */
#include <inttypes.h>
#include <stdio.h>

#include "../include/yendrolf.h"

static yendrolf_box box;         /* its filters say what crosses */
static yendrolf_bridge bridge;   /* what waits, and what is counted */

/* One frame off a wire: what each of the other ports makes of it. */
static void hear(const char *what, uint8_t port, uint32_t identifier)
{
    yendrolf_offered offered = yendrolf_offer(&bridge, &box, port, identifier);
    printf("%-24s %08" PRIX32 " at port %u:", what, identifier, port);
    if (offered.told.number != YENDROLF_DONE) {
        printf(" answer %u\n", offered.told.number);
        return;
    }
    for (unsigned i = 0; i < 3; i++) {
        yendrolf_told told = offered.to[i];
        unsigned to = i + 1 < port ? i + 1 : i + 2;   /* the other ports, rising */
        printf("  %u %s", to, told.number == YENDROLF_TURNED_AWAY ? "turns it away" : told.number != YENDROLF_DONE ? "refuses it" : told.detail == YENDROLF_PASS ? "takes it" : "is not to have it");
    }
    printf("\n");
}

/* A port's wire is free for one frame. Which one it is goes by port and identifier: the frame's bytes are the caller's, who heard it. */
static void send_from(uint8_t port)
{
    uint8_t from;
    uint32_t identifier;
    if (yendrolf_slot(&bridge, port, &from, &identifier).detail == 0)
        printf("port %u has nothing to send\n", port);
    else
        printf("port %u sends %08" PRIX32 ", which came at port %u\n", port, identifier, from);
}

static void show(uint8_t from, uint8_t to)
{
    yendrolf_pair pair = yendrolf_pair_counts(&bridge, from, to);
    printf("from %u to %u: arrived %" PRIu64 ", filtered %" PRIu64 ", queued %" PRIu64 ", sent %" PRIu64 ", turned away %" PRIu64 ", refused %" PRIu64 ", waiting %" PRIu64 "\n", from, to,
        pair.arrived, pair.filtered, pair.queued, pair.sent, pair.turned, pair.refused, pair.waiting);
}

int main(void)
{
    if (yendrolf_version() != YENDROLF_VERSION) {
        printf("the archive has version %u, its header %u: take both from one place\n", yendrolf_version(), YENDROLF_VERSION);
        return 1;
    }
    yendrolf_start(&box);
    yendrolf_start_bridge(&bridge);

    printf("-- port 1 is the tractor, 2 the header, 3 a radio; to the header crosses engine speed alone\n");
    yendrolf_renew(&box, 1, 2, YENDROLF_BLOCK_ALL_BUT);
    yendrolf_add(&box, 1, 2, 61444);
    hear("a position", 3, 0x18fee803);
    hear("fuel economy", 1, 0x18fef200);
    hear("engine speed", 1, 0x0cf00400);
    hear("no identifier", 1, 0x2cf00400);
    hear("no port", 5, 0x0cf00400);

    printf("-- engine speed leaves first, though it came last\n");
    send_from(2);
    send_from(2);
    send_from(2);

    printf("-- the radio sends more than port 2 can: 64 wait there\n");
    for (unsigned i = 0; i < YENDROLF_MOST_WAITING; i++)
        yendrolf_offer(&bridge, &box, 3, 0x18fee803);
    hear("a position", 3, 0x18fee803);
    hear("engine speed", 1, 0x0cf00400);
    send_from(2);
    hear("engine speed", 1, 0x0cf00400);
    send_from(2);

    printf("-- what was counted\n");
    show(1, 2);
    show(3, 2);
    show(1, 3);
    return 0;
}
