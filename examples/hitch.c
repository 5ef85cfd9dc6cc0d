/* A header's box in C, from its start to a day's work: it learns document 01's case A from two frames, judges it, packs and reads a payload, tells a pressure from
   'not available', finds a parameter, answers a tester's Parameter Locate, saves what it learned for the box that takes its place, judges by the edition of 2004, meets a contradiction and
   forgets, lists a log, and keeps an engine's frames off one port. examples/run builds it, runs it, and compares what it prints with examples/hitch.txt. */
#include <inttypes.h>
#include <stdio.h>

#include "../include/yendrolf.h"

static yendrolf_box box;   /* all that the box holds; it may as well be static memory of a small controller */

static void say(const char *what, yendrolf_told told)
{
    printf("%-34s answer %u, detail %u", what, told.number, told.detail);
    if (told.judgement)
        printf(", judgement %u at %u", told.judgement, told.position);
    printf("\n");
}

/* A number of an SPN in its unit, with three decimals, or the word for it where it is no reading. docs/UNITS.md has the units. */
static void reading(const char *what, uint32_t spn, uint32_t number, const char *unit)
{
    static const char *const words[] = { "", "reserved", "error", "not available" };
    yendrolf_value worth = yendrolf_scaled(spn, number);
    if (worth.state != YENDROLF_VALID) {
        printf("%-34s %s\n", what, words[worth.state]);
        return;
    }
    const char *sign = worth.value < 0 ? "-" : "";   /* -500 is -0.500 */
    uint64_t thousandths = (uint64_t)(worth.value < 0 ? -worth.value : worth.value);
    printf("%-34s %s%" PRIu64 ".%03" PRIu64 " %s\n", what, sign, thousandths / 1000, thousandths % 1000, unit);
}

/* A frame as a record of a log: identifier least significant byte first, length, 8 data bytes. */
static void record(uint8_t *r, uint32_t identifier, const uint8_t *data)
{
    for (unsigned i = 0; i < 4; i++)
        r[i] = (uint8_t)(identifier >> 8 * i);
    r[4] = YENDROLF_FRAME_BYTES;
    for (unsigned i = 0; i < YENDROLF_FRAME_BYTES; i++)
        r[5 + i] = data[i];
}

int main(void)
{
    if (yendrolf_version() != YENDROLF_VERSION) {
        printf("the archive has version %u, its header %u: take both from one place\n", yendrolf_version(), YENDROLF_VERSION);
        return 1;
    }
    yendrolf_start(&box);

    /* From 38 to 39: message 1 has two parameters, SPN 1517 from bit 1 on (SAE J1939-74 counts from 1) and SPN 1519 from bit 9 on. Byte 7: used
       proprietarily (80h, which the standard asks for), no transport, two parameters. */
    static const uint8_t first[8] = { 0x00, 0xb1, 0x00, 0xed, 0x05, 0x01, 0x82, 1 };
    static const uint8_t second[8] = { 0x00, 0xb1, 0x00, 0xef, 0x05, 0x02, 0x82, 9 };
    static const uint8_t other[8] = { 0x00, 0xb1, 0x00, 0xef, 0x05, 0x02, 0x82, 10 };
    say("learn position 1", yendrolf_learn(&box, 0x18b02726, 8, first));
    say("judge: position 2 is missing", yendrolf_judge(&box, 38, 39, 1));
    say("learn position 2", yendrolf_learn(&box, 0x18b02726, 8, second));
    say("judge", yendrolf_judge(&box, 38, 39, 1));
    printf("%-34s %u\n", "its parameters", yendrolf_count(&box, 38, 39, 1));
    say("learn from an engine's frame", yendrolf_learn(&box, 0x18fee300, 8, first));

    uint32_t numbers[YENDROLF_MOST_NUMBERS] = { 40, 1 };
    uint8_t payload[YENDROLF_MOST_BYTES], states[YENDROLF_MOST_NUMBERS];
    yendrolf_told packed = yendrolf_pack(&box, 38, 39, 1, numbers, 2, payload, sizeof payload);
    say("pack 40 and 1", packed);
    printf("%-34s", "the payload");
    for (uint32_t i = 0; i < packed.detail; i++)
        printf(" %02X", payload[i]);
    printf("\n");
    numbers[1] = 4;
    say("pack 40 and 4: 1519 has 2 bits", yendrolf_pack(&box, 38, 39, 1, numbers, 2, payload, sizeof payload));
    numbers[0] = numbers[1] = 0;
    say("read", yendrolf_read(&box, 38, 39, 1, payload, packed.detail, numbers, YENDROLF_MOST_NUMBERS, states, sizeof states));
    printf("%-34s %u and %u\n", "the numbers", numbers[0], numbers[1]);
    printf("%-34s %u and %u\n", "their states", states[0], states[1]);
    reading("the lift pressure", 1517, numbers[0], "kPa");
    payload[0] = 0xff;   /* the sender has no pressure, and it is not 12,750 kPa */
    say("read without a pressure", yendrolf_read(&box, 38, 39, 1, payload, packed.detail, numbers, YENDROLF_MOST_NUMBERS, states, sizeof states));
    printf("%-34s %u and %u\n", "the numbers", numbers[0], numbers[1]);
    printf("%-34s %u and %u\n", "their states", states[0], states[1]);
    reading("the lift pressure", 1517, numbers[0], "kPa");
    reading("a tilt of 120 counts (SPN 1539)", 1539, 120, "deg");
    yendrolf_meant meant = yendrolf_meaning(1539);
    printf("%-34s width %u, resolution %u, offset %" PRId64 ", kind %u\n", "SPN 1539, in thousandths", meant.width, meant.resolution, meant.offset, meant.kind);
    yendrolf_found found = yendrolf_find(&box, 38, 39, 1, 1519);
    say("find 1519", found.told);
    printf("%-34s position %u, start %u, width %u\n", "it stands at", found.position, found.start, found.width);

    /* The header's own address is 38. A tester (249) asks it where SPN 1519 is: bytes 1 to 3 are the SPN, reserved bits 1, byte 8 is command 0. The answer is a log, from byte
       0 of it on; each of its records is a frame to be sent. Another box that hears it learns where 1519 is in that message, and lacks position 1. */
    static const uint8_t asked[8] = { 0xef, 0x05, 0x1f, 0xff, 0xff, 0xff, 0xff, 0x00 };
    static yendrolf_box tester;
    uint8_t answers[YENDROLF_LOCATE_BYTES];
    yendrolf_told located = yendrolf_locate(&box, 38, 0x18af26f9, 8, asked, answers, sizeof answers, 0);
    say("locate 1519, asked of 38", located);
    yendrolf_start(&tester);
    for (uint32_t i = 0; i < located.detail; i++) {
        const uint8_t *r = answers + i * YENDROLF_RECORD_BYTES;
        uint32_t identifier = r[0] | (uint32_t)r[1] << 8 | (uint32_t)r[2] << 16 | (uint32_t)r[3] << 24;
        printf("%-34s %08" PRIX32 " %u ", "the frame to send", identifier, r[4]);
        for (unsigned j = 5; j < YENDROLF_RECORD_BYTES; j++)
            printf(" %02X", r[j]);
        printf("\n");
        say("the tester learns from it", yendrolf_learn(&tester, identifier, r[4], r + 5));
    }
    yendrolf_parameter heard = yendrolf_parameter_at(&tester, 38, 39, 1, 2);
    printf("%-34s SPN %u, start %u, width %u\n", "what it has at position 2", heard.spn, heard.start, heard.width);
    say("it judges: position 1 is missing", yendrolf_judge(&tester, 38, 39, 1));
    say("locate 1519, asked of 39", yendrolf_locate(&box, 38, 0x18af27f9, 8, asked, answers, sizeof answers, 0));
    say("locate into 12 bytes", yendrolf_locate(&box, 38, 0x18af26f9, 8, asked, answers, 12, 0));

    /* What the box learned, as an image (docs/IMAGE.md): bytes to be kept across power cycles, in a file or in flash memory. Another box that has them starts where this one
       stopped. Before it loads them it looks at every byte: a file that was cut short, or with one bit turned, is damaged and loads nothing. */
    static yendrolf_box swapped;
    uint8_t image[YENDROLF_IMAGE_BYTES];
    size_t size = yendrolf_image_size(&box);
    say("save into 19 bytes", yendrolf_save(&box, image, 19));
    say("save", yendrolf_save(&box, image, sizeof image));
    printf("%-34s", "the image");
    for (size_t i = 0; i < size; i++)
        printf(" %02X", image[i]);
    printf("\n");
    yendrolf_start(&swapped);
    say("another box loads a part of it", yendrolf_load(&swapped, image, size - 1));
    say("it loads all of it", yendrolf_load(&swapped, image, size));
    say("it judges", yendrolf_judge(&swapped, 38, 39, 1));
    numbers[0] = 40, numbers[1] = 1;
    say("it packs 40 and 1", yendrolf_pack(&swapped, 38, 39, 1, numbers, 2, payload, sizeof payload));
    printf("%-34s %02X %02X ..\n", "the payload", payload[0], payload[1]);
    say("it learns position 2 again", yendrolf_learn(&swapped, 0x18b02726, 8, second));
    say("it loads once more", yendrolf_load(&swapped, image, size));
    yendrolf_row body = yendrolf_image_body(image, size, 38, 39, 1);
    say("ask the image for 38 39 1", body.told);
    printf("%-34s %zu bytes from byte %zu on\n", "its body", body.length, body.offset);
    say("ask the image for 38 39 2", yendrolf_image_body(image, size, 38, 39, 2).told);
    yendrolf_row row;
    for (size_t i = 0; (row = yendrolf_image_row(image, size, i)).told.number == YENDROLF_DONE; i++)   /* a walk ends with 22, and one over a damaged image with 21 */
        printf("row %-30zu %u %u %u, %zu bytes from byte %zu on, edition %u\n", i, row.source, row.destination, row.k, row.length, row.offset, row.edition);
    say("behind the last row", row.told);
    image[13] ^= 0x20;   /* one bit of the image: first-only yes, which no image has */
    say("load it with a bit turned", yendrolf_load(&swapped, image, size));

    /* An older combine follows SAE J1939-74 of 2004, whose dictionary has twelve SPNs, and 1517 is none of them. No message says which edition a sender follows: whoever knows it sets it, key
       by key. It is saved with the key's map, and a forget brings 2010 back. */
    printf("%-34s %u\n", "its edition", yendrolf_edition(&swapped, 38, 39, 1));
    say("set it to 2004", yendrolf_set_edition(&swapped, 38, 39, 1, YENDROLF_2004));
    say("judge: 1517 is not in 2004's", yendrolf_judge(&swapped, 38, 39, 1));
    say("pack", yendrolf_pack(&swapped, 38, 39, 1, numbers, 2, payload, sizeof payload));
    printf("%-34s %zu bytes\n", "its image: a map not usable is out", yendrolf_image_size(&swapped));
    say("set it to 2007", yendrolf_set_edition(&swapped, 38, 39, 1, 2007));
    say("set it to 2010", yendrolf_set_edition(&swapped, 38, 39, 1, YENDROLF_2010));
    say("judge", yendrolf_judge(&swapped, 38, 39, 1));
    say("set one that is not held", yendrolf_set_edition(&swapped, 38, 39, 2, YENDROLF_2004));

    say("learn another start for position 2", yendrolf_learn(&box, 0x18b02726, 8, other));
    say("judge: in conflict", yendrolf_judge(&box, 38, 39, 1));
    say("pack", yendrolf_pack(&box, 38, 39, 1, numbers, 2, payload, sizeof payload));
    for (yendrolf_key key = yendrolf_first_key(&box); key.held; key = yendrolf_next_key(&box, key.source, key.destination, key.k))
        printf("%-34s %u %u %u\n", "held", key.source, key.destination, key.k);
    say("forget", yendrolf_forget(&box, 38, 39, 1));
    say("judge: not held", yendrolf_judge(&box, 38, 39, 1));

    uint8_t records[2 * YENDROLF_RECORD_BYTES], text[YENDROLF_LISTING_BYTES];
    record(records, 0x18b02726, first);
    record(records + YENDROLF_RECORD_BYTES, 0x18b02726, second);
    yendrolf_log log = yendrolf_start_log();
    log = yendrolf_feed(&box, log, records, 20);   /* a chunk may end anywhere */
    log = yendrolf_feed(&box, log, records + 20, sizeof records - 20);
    yendrolf_told listed = yendrolf_finish(&box, log, text, sizeof text);
    say("list a log of these two frames", listed);
    printf("%.*s", (int)listed.detail, (const char *)text);

    say("keep 65251 from port 1 off port 2", yendrolf_add(&box, 1, 2, 65251));
    say("does 18FEE300h pass from 1 to 2?", yendrolf_decide(&box, 1, 2, 0x18fee300));
    say("does 18FEE300h pass from 2 to 1?", yendrolf_decide(&box, 2, 1, 0x18fee300));
    say("renew: mode 1, an empty list", yendrolf_renew(&box, 1, 2, YENDROLF_BLOCK_ALL_BUT));
    say("does 18FEE300h pass from 1 to 2?", yendrolf_decide(&box, 1, 2, 0x18fee300));
    say("add 65251", yendrolf_add(&box, 1, 2, 65251));
    say("does 18FEE300h pass from 1 to 2?", yendrolf_decide(&box, 1, 2, 0x18fee300));
    say("delete it", yendrolf_delete(&box, 1, 2, 65251));
    say("delete it again", yendrolf_delete(&box, 1, 2, 65251));
    say("renew with mode 2", yendrolf_renew(&box, 1, 2, 2));
    say("renew to port 15", yendrolf_renew(&box, 1, 15, YENDROLF_PASS_ALL_BUT));
    return 0;
}
