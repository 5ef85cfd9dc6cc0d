/* Long messages in C: the box learns a map whose payload has 12 bytes, so that it comes by the transport protocol, as a request to send and two packets; it puts them together and reads the payload by its
   key. Then what can go wrong: a packet that is lost, a frame that is no request, a size that is none, and a ninth pair. examples/run builds it, runs it, and compares what it prints with
   examples/long.txt. */
#include <inttypes.h>
#include <stdio.h>

#include "../include/yendrolf.h"

static yendrolf_box box;
static yendrolf_sessions sessions;                /* what is kept of long messages while their packets come */
static uint8_t received[YENDROLF_MOST_BYTES];     /* where a finished one is laid, however long it is */

static void say(const char *what, yendrolf_told told)
{
    printf("%-34s answer %u, detail %u", what, told.number, told.detail);
    if (told.judgement)
        printf(", judgement %u at %u", told.judgement, told.position);
    printf("\n");
}

static void say_bytes(const char *what, const uint8_t *bytes, size_t size)
{
    printf("%-34s", what);
    for (size_t i = 0; i < size; i++)
        printf(" %02X", bytes[i]);
    printf("\n");
}

/* A number of an SPN in its unit, with three decimals (examples/hitch.c has it for numbers of every state). */
static void reading(const char *what, uint32_t spn, uint32_t number, const char *unit)
{
    yendrolf_value worth = yendrolf_scaled(spn, number);
    uint64_t thousandths = (uint64_t)(worth.value < 0 ? -worth.value : worth.value);
    printf("%-34s %s%" PRIu64 ".%03" PRIu64 " %s\n", what, worth.value < 0 ? "-" : "", thousandths / 1000, thousandths % 1000, unit);
}

/* A finished payload is of a configured message where its PGN is one of the fifteen, 45056 + 256 k. Its key is the identifier's source and destination, and k. */
static void read_by_key(uint32_t identifier, uint32_t pgn, const uint8_t *payload, size_t size)
{
    if (pgn < 45312 || pgn > 48896 || pgn % 256 != 0) {
        printf("%-34s %u\n", "no configured message", pgn);
        return;
    }
    uint32_t numbers[YENDROLF_MOST_NUMBERS];
    uint8_t states[YENDROLF_MOST_NUMBERS];
    uint8_t source = (uint8_t)(identifier & 0xff), destination = (uint8_t)(identifier >> 8 & 0xff), k = (uint8_t)((pgn - 45056) / 256);
    printf("%-34s %u %u %u\n", "its key", source, destination, k);
    yendrolf_told read = yendrolf_read(&box, source, destination, k, payload, size, numbers, YENDROLF_MOST_NUMBERS, states, sizeof states);
    say("read by the key's map", read);
    for (uint32_t i = 0; i < read.detail; i++)
        printf("number %-27u %u, state %u\n", i + 1, numbers[i], states[i]);
    if (read.detail == 3) {
        reading("the lift pressure", 1517, numbers[0], "kPa");
        reading("the tilt", 1539, numbers[2], "deg");
    }
}

/* One frame off the wires: every call says of itself whether it is its own. */
static void hear(const char *what, uint32_t identifier, const uint8_t *data)
{
    yendrolf_told asked = yendrolf_request(&sessions, identifier, YENDROLF_FRAME_BYTES, data);
    if (asked.number != YENDROLF_OTHER_PGN) {
        say(what, asked);
        return;
    }
    yendrolf_arrived arrived = yendrolf_packet(&sessions, identifier, YENDROLF_FRAME_BYTES, data, received);
    if (arrived.told.number == YENDROLF_OTHER_PGN) {
        say(what, yendrolf_learn(&box, identifier, YENDROLF_FRAME_BYTES, data));
        return;
    }
    say(what, arrived.told);
    if (arrived.told.detail > 0) {   /* it was the last one */
        printf("%-34s %u\n", "the PGN of the payload", arrived.pgn);
        say_bytes("the payload that came", received, arrived.told.detail);
        read_by_key(identifier, arrived.pgn, received, arrived.told.detail);
    }
}

int main(void)
{
    if (yendrolf_version() != YENDROLF_VERSION) {
        printf("the archive has version %u, its header %u: take both from one place\n", yendrolf_version(), YENDROLF_VERSION);
        return 1;
    }
    yendrolf_start(&box);
    yendrolf_start_sessions(&sessions);

    /* From 38 to 39: message 2 has three parameters, SPN 1517 from bit 1 on (SAE J1939-74 counts from 1), SPN 1519 from bit 9 on and SPN 1539 from bit 89 on, so 12 bytes. Byte 7: used
       proprietarily, transport yes, three parameters. */
    static const uint8_t first[8] = { 0x00, 0xb2, 0x00, 0xed, 0x05, 0x01, 0xc3, 1 };
    static const uint8_t second[8] = { 0x00, 0xb2, 0x00, 0xef, 0x05, 0x02, 0xc3, 9 };
    static const uint8_t third[8] = { 0x00, 0xb2, 0x00, 0x03, 0x06, 0x03, 0xc3, 89 };
    hear("learn position 1", 0x18b02726, first);
    hear("learn position 2", 0x18b02726, second);
    hear("learn position 3", 0x18b02726, third);
    say("judge", yendrolf_judge(&box, 38, 39, 2));

    /* What the sender packs, and cuts up into two packets. Behind the payload's end the second one has FFh. */
    static const uint32_t numbers[3] = { 40, 1, 120 };
    uint8_t payload[YENDROLF_MOST_BYTES];
    yendrolf_told packed = yendrolf_pack(&box, 38, 39, 2, numbers, 3, payload, sizeof payload);
    say("pack 40, 1 and 120", packed);
    say_bytes("the payload", payload, packed.detail);
    uint8_t packets[2][8] = { { 1 }, { 2 } };
    for (unsigned i = 0; i < 2; i++)
        for (unsigned j = 0; j < YENDROLF_PACKET_BYTES; j++) {
            unsigned at = YENDROLF_PACKET_BYTES * i + j;
            packets[i][1 + j] = (uint8_t)(at < packed.detail ? payload[at] : 0xff);
        }
    say_bytes("packet 1", packets[0], 8);
    say_bytes("packet 2", packets[1], 8);

    /* The request: control byte 16, 12 bytes in 2 packets, of PGN 45568. */
    static const uint8_t request[8] = { 16, 12, 0, 2, 0xff, 0x00, 0xb2, 0x00 };
    hear("packet 1 before any request", 0x1ceb2726, packets[0]);
    hear("38 asks to send to 39", 0x1cec2726, request);
    hear("packet 1", 0x1ceb2726, packets[0]);
    hear("packet 2 of 40 to 39: another pair", 0x1ceb2728, packets[1]);
    hear("packet 2", 0x1ceb2726, packets[1]);
    hear("packet 2 again: the session ended", 0x1ceb2726, packets[1]);

    /* A packet is lost. The next one is out of sequence and drops the session; the sender has to begin again. */
    hear("38 asks to send to 39", 0x1cec2726, request);
    hear("packet 2, and packet 1 was lost", 0x1ceb2726, packets[1]);
    hear("packet 1 comes late", 0x1ceb2726, packets[0]);

    /* What is no request to send: another control byte (32 announces to everybody, 255 gives up), a payload that needs no packets, a count of packets that does not match. */
    static const uint8_t broadcast[8] = { 32, 12, 0, 2, 0xff, 0x00, 0xb2, 0x00 };
    static const uint8_t eight[8] = { 16, 8, 0, 2, 0xff, 0x00, 0xb2, 0x00 };
    static const uint8_t three[8] = { 16, 12, 0, 3, 0xff, 0x00, 0xb2, 0x00 };
    hear("38 announces to everybody", 0x1cecff26, broadcast);
    hear("38 asks to send 8 bytes", 0x1cec2726, eight);
    hear("38 asks to send 12 in 3 packets", 0x1cec2726, three);

    /* Eight pairs at one time: a ninth has to wait until one of them is done. A pair of the eight may begin again. */
    for (uint32_t source = 1; source <= YENDROLF_MOST_SESSIONS; source++) {
        yendrolf_told asked = yendrolf_request(&sessions, 0x1cec2700 | source, 8, request);
        if (asked.number != YENDROLF_DONE)
            say("one of eight is refused", asked);
    }
    hear("a ninth pair asks", 0x1cec2726, request);
    hear("the first pair asks again", 0x1cec2701, request);
    hear("its packet 1", 0x1ceb2701, packets[0]);
    hear("its packet 2", 0x1ceb2701, packets[1]);
    hear("the ninth pair asks again", 0x1cec2726, request);
    return 0;
}
