/* hear() of examples/socketcan.c on two local sockets instead of CAN's: examples/run compares what this prints with tests/socketcan.txt. A line for each frame
   that is heard, then what hear() prints, then the ports that got the frame. */
#define main socketcan_main
#include "../examples/socketcan.c"
#undef main

static int far[YENDROLF_PORTS + 1];   /* the other ends */

static void give(const char *what, uint8_t from, uint32_t can_id, const uint8_t *data, uint8_t length)
{
    struct can_frame f, got;
    memset(&f, 0, sizeof f);
    f.can_id = can_id;
    f.can_dlc = length;
    memcpy(f.data, data, 8);
    printf("-- %s\n", what);
    hear(from, &f);
    for (uint8_t port = 1; port <= ports; port++)
        while (recv(far[port], &got, sizeof got, MSG_DONTWAIT) == (ssize_t)sizeof got)
            printf("to port %u, %s\n", port, memcmp(&got, &f, sizeof f) == 0 ? "unchanged" : "CHANGED");
}

static void judged(void)
{
    yendrolf_told told = yendrolf_judge(&box, 38, 39, 1);
    printf("judge: answer %u, judgement %u at %u\n", told.number, told.judgement, told.position);
}

int main(void)
{
    static const uint8_t first[8] = { 0x00, 0xb1, 0x00, 0xed, 0x05, 0x01, 0x82, 1 };
    static const uint8_t second[8] = { 0x00, 0xb1, 0x00, 0xef, 0x05, 0x02, 0x82, 9 };
    static const uint8_t other[8] = { 0x00, 0xb1, 0x00, 0xef, 0x05, 0x02, 0x82, 10 };
    static const uint8_t payload[8] = { 0x28, 0xfd, 0xff, 0xff, 0xff, 0xff, 0xff, 0xff };
    static const uint8_t no_pressure[8] = { 0xff, 0xfe, 0xff, 0xff, 0xff, 0xff, 0xff, 0xff };
    static const uint8_t one_name[8] = { 1 }, another_name[8] = { 2 };
    const uint32_t message = CAN_EFF_FLAG | 0x18b02726, claim = CAN_EFF_FLAG | 0x18eeff26;
    ports = 2;
    for (uint8_t port = 1; port <= ports; port++) {
        int ends[2];
        if (socketpair(AF_UNIX, SOCK_SEQPACKET, 0, ends) != 0) {
            perror("socketpair");
            return 1;
        }
        sockets[port] = ends[0];
        far[port] = ends[1];
    }
    yendrolf_start(&box);
    yendrolf_add(&box, 1, 2, 65251);
    give("position 1, as an error frame", 1, message | CAN_ERR_FLAG, first, 8);
    give("position 1, as a remote frame", 1, message | CAN_RTR_FLAG, first, 8);
    give("a frame of 11 bits", 1, 0x726, first, 8);
    judged();
    give("position 1", 1, message, first, 8);
    judged();
    give("position 2", 1, message, second, 8);
    judged();
    give("a payload", 2, CAN_EFF_FLAG | 0x0cb12726, payload, 8);
    give("a payload without a reading", 2, CAN_EFF_FLAG | 0x0cb12726, no_pressure, 8);
    give("a payload that is too short", 2, CAN_EFF_FLAG | 0x0cb12726, payload, 7);
    give("a payload of another key", 2, CAN_EFF_FLAG | 0x0cb22726, payload, 8);
    give("an engine's configuration", 1, CAN_EFF_FLAG | 0x18fee300, payload, 8);
    give("the same from the other side", 2, CAN_EFF_FLAG | 0x18fee300, payload, 8);
    give("another start for position 2", 1, message, other, 8);
    judged();
    give("position 1 once more", 1, message, first, 8);
    judged();
    give("38 claims its address", 1, claim, one_name, 8);
    give("and again", 1, claim, one_name, 8);
    judged();
    give("another claims 38", 1, claim, another_name, 8);
    judged();
    return 0;
}
