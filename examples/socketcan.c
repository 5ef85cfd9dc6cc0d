/* socketcan INTERFACE ..: the box as a bridge between up to four CAN interfaces of Linux, which are its ports 1 to 4: `socketcan can0 can1`. It learns from
   every frame, prints what a learned message carries, decides which frames cross, and forgets what no longer holds. It sends nothing of its own.
   examples/run builds it, and tests/socketcan.c tries hear() on two local sockets; where there is a CAN interface, run it there. */
#define _POSIX_C_SOURCE 200809L
#include <errno.h>
#include <linux/can.h>
#include <linux/can/raw.h>
#include <net/if.h>
#include <poll.h>
#include <stdio.h>
#include <string.h>
#include <sys/socket.h>
#include <unistd.h>

#include "../include/yendrolf.h"

static yendrolf_box box;
static int sockets[YENDROLF_PORTS + 1];          /* by port, from 1 on */
static uint8_t ports;
static uint8_t names[256][8], has_name[256];     /* the NAME that last claimed an address */

static void forget(yendrolf_key key, const char *why)
{
    yendrolf_told told = yendrolf_forget(&box, key.source, key.destination, key.k);
    printf("forget %u %u %u, %s: answer %u\n", key.source, key.destination, key.k, why, told.number);
}

/* Every key that has the address: what it says was another's. A key may be forgotten while the keys are walked: the next one is looked for by number. */
static void forget_address(uint8_t address)
{
    for (yendrolf_key key = yendrolf_first_key(&box); key.held; key = yendrolf_next_key(&box, key.source, key.destination, key.k))
        if (key.source == address || key.destination == address)
            forget(key, "its address changed hands");
}

/* An Address Claimed (SAE J1939-81: PGN 60928, the NAME in 8 bytes): another NAME at an address is another sender. */
static void claimed(uint32_t identifier, const struct can_frame *f)
{
    uint8_t address = (uint8_t)identifier;
    if ((identifier & 0x03ff0000) != 0x00ee0000 || f->can_dlc != 8 || address >= 254)
        return;
    if (has_name[address] && memcmp(names[address], f->data, 8) != 0)
        forget_address(address);
    memcpy(names[address], f->data, 8);
    has_name[address] = 1;
}

/* Learns from a frame of any PGN. A contradiction: the sender has another map now, or two senders use one address. The box can't tell, so it forgets the key
   and begins anew with this message; the map is usable again when the sender has said the rest of it. */
static void learn(uint32_t identifier, const struct can_frame *f)
{
    yendrolf_told told = yendrolf_learn(&box, identifier, f->can_dlc, f->data);
    if (told.number == YENDROLF_TABLE_FULL)
        printf("16 keys are held: forget one to learn another\n");
    if (told.number != YENDROLF_CONTRADICTED)
        return;
    yendrolf_key key = { 1, (uint8_t)identifier, (uint8_t)(identifier >> 8), (uint8_t)(f->data[1] - 176) };
    forget(key, "a message contradicts it");
    yendrolf_learn(&box, identifier, f->can_dlc, f->data);
}

/* A configured message (PGN 45056 + 256 k, so PF 176 + k) whose map is usable: its numbers, with the word for it where one is no reading. Maps that use transport are
   longer than a frame: answer 13. */
static void print_payload(uint32_t identifier, const struct can_frame *f)
{
    static const char *const words[] = { "", "reserved", "error", "not available" };
    uint32_t numbers[YENDROLF_MOST_NUMBERS], pf = identifier >> 16 & 0xff;
    uint8_t states[YENDROLF_MOST_NUMBERS];
    uint8_t source = (uint8_t)identifier, destination = (uint8_t)(identifier >> 8), k = (uint8_t)(pf - 176);
    if ((identifier & 0x03000000) != 0 || pf < 177 || pf > 191)
        return;
    yendrolf_told told = yendrolf_read(&box, source, destination, k, f->data, f->can_dlc, numbers, YENDROLF_MOST_NUMBERS, states, sizeof states);
    if (told.number != YENDROLF_DONE)
        return;
    printf("%u %u %u:", source, destination, k);
    for (uint32_t i = 0; i < told.detail; i++) {
        if (states[i] == YENDROLF_VALID)
            printf(" %u", numbers[i]);
        else
            printf(" (%s)", words[states[i]]);
    }
    printf("\n");
}

/* Sends a frame on to each port that the filters let it pass to. The number first: a refusal's detail is no decision. */
static void pass_on(uint8_t from, uint32_t identifier, const struct can_frame *f)
{
    for (uint8_t to = 1; to <= ports; to++) {
        if (to == from)
            continue;
        yendrolf_told told = yendrolf_decide(&box, from, to, identifier);
        if (told.number != YENDROLF_DONE)
            printf("decide from %u to %u: answer %u\n", from, to, told.number);
        else if (told.detail == YENDROLF_PASS && write(sockets[to], f, sizeof *f) != (ssize_t)sizeof *f)
            printf("port %u did not take a frame: %s\n", to, strerror(errno));
    }
}

/* One frame of a port. The box knows data frames with 29 bits: others are left out, and SocketCAN's flags are no part of the identifier. */
static void hear(uint8_t from, const struct can_frame *f)
{
    if ((f->can_id & (CAN_EFF_FLAG | CAN_RTR_FLAG | CAN_ERR_FLAG)) != CAN_EFF_FLAG)
        return;
    uint32_t identifier = f->can_id & CAN_EFF_MASK;
    claimed(identifier, f);
    learn(identifier, f);
    print_payload(identifier, f);
    pass_on(from, identifier, f);
}

/* A raw socket of an interface that hears data frames of 29 bits alone, or -1. */
static int open_port(const char *interface)
{
    struct can_filter filter = { CAN_EFF_FLAG, CAN_EFF_FLAG | CAN_RTR_FLAG };
    struct sockaddr_can address;
    int s = socket(PF_CAN, SOCK_RAW, CAN_RAW);
    if (s < 0)
        return -1;
    memset(&address, 0, sizeof address);
    address.can_family = AF_CAN;
    address.can_ifindex = (int)if_nametoindex(interface);
    if (address.can_ifindex == 0 || setsockopt(s, SOL_CAN_RAW, CAN_RAW_FILTER, &filter, sizeof filter) != 0
        || bind(s, (const struct sockaddr *)&address, sizeof address) != 0) {
        int why = errno;
        close(s);
        errno = why;
        return -1;
    }
    return s;
}

int main(int argc, char **argv)
{
    struct pollfd waiting[YENDROLF_PORTS];
    struct can_frame f;
    if (argc < 2 || argc > 1 + YENDROLF_PORTS) {
        fprintf(stderr, "usage: socketcan INTERFACE ..   (one to four, as can0 can1)\n");
        return 2;
    }
    yendrolf_start(&box);
    setvbuf(stdout, NULL, _IOLBF, 0);
    for (ports = 0; ports < argc - 1; ports++) {
        const char *interface = argv[ports + 1];
        int s = open_port(interface);
        if (s < 0) {
            fprintf(stderr, "socketcan: %s can't be opened: %s\n", interface, strerror(errno));
            return 1;
        }
        sockets[ports + 1] = s;
        waiting[ports].fd = s;
        waiting[ports].events = POLLIN;
    }
    yendrolf_add(&box, 1, 2, 65251);   /* the fitter's settings: an engine's configuration stays on port 1's side */
    for (;;) {
        if (poll(waiting, ports, -1) < 0) {
            if (errno == EINTR)
                continue;
            break;
        }
        for (uint8_t port = 1; port <= ports; port++)
            if (waiting[port - 1].revents != 0) {
                if (read(sockets[port], &f, sizeof f) != (ssize_t)sizeof f) {
                    fprintf(stderr, "socketcan: %s can't be read: %s\n", argv[port], strerror(errno));
                    return 1;
                }
                hear(port, &f);
            }
    }
    fprintf(stderr, "socketcan: waiting failed: %s\n", strerror(errno));
    return 1;
}
