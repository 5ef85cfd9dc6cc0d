/* A second implementation of document 01, with 02's requests that have landed, in C, written from 01, 02, docs/WIRE.md and docs/DECISIONS.md alone and as plainly as possible: a key is the
   list of its messages, a payload is handled one bit at a time, a port pair is a mode and a list. It shares nothing with the Rattle code, is slow
   where that is plainer, and is nothing but a thing to compare with (tests/compare/run). */
#ifndef PLAIN_H
#define PLAIN_H

#include <stddef.h>
#include <stdint.h>

/* "Every answer carries a number and a detail." Where 01's detail is a judgement and its position, they stand here and the detail is 0. */
struct plain_answer {
    unsigned number;
    unsigned detail;
    unsigned judgement;
    unsigned position;
};

/* "Finding gives position, start and width": all 0 on a refusal. */
struct plain_found {
    struct plain_answer answer;
    unsigned position;
    unsigned start;
    unsigned width;
};

/* The parameter at a position: all 0 on a refusal, and the width 0 where the dictionary has not the SPN. */
struct plain_parameter {
    struct plain_answer answer;
    unsigned spn;
    unsigned start;
    unsigned width;
};

/* Req 05, "width, resolution, offset and kind": resolution and offset in thousandths, all 0 where the dictionary has not the SPN. */
struct plain_meaning {
    unsigned width;
    long long resolution;
    long long offset;
    unsigned kind;
};

/* Req 05, a "scaled whole number" and its state: 0 valid, 1 reserved, 2 error, 3 not available. */
struct plain_scaled {
    long long value;
    unsigned kind;
    unsigned state;
};

/* Req 01, a row of an image, with the edition that Req 10 gives it: all 0 on a refusal. */
struct plain_row {
    struct plain_answer answer;
    unsigned source, destination, k;
    unsigned offset;
    unsigned length;
    unsigned edition;
};

/* Req 14, a session: the pair that it is of, what its request to send said, and the bytes that came so far. */
struct plain_session {
    unsigned source, destination;
    unsigned size, pgn;
    unsigned packets;                 /* that came */
    uint8_t bytes[255 * 7];
};

/* "One session per source and destination, eight sessions": those that there are, in no order. */
struct plain_sessions {
    struct plain_session sessions[8];
    unsigned count;
};

/* Req 14, what a packet is answered; beside it the PGN of the payload that it finished, 0 where it finished none. */
struct plain_arrived {
    struct plain_answer answer;
    unsigned pgn;
};

/* What one message says and is kept (01, "What one message says"). The start counts from 0, the position from 1. */
struct plain_message {
    unsigned source, destination, k;
    unsigned n, proprietary, transport;
    unsigned position, spn, start;
};

/* "A key's set is the collection of different well-formed messages naming it since its last forget." Beside it "the edition last set since then" (Req 10). */
struct plain_set {
    struct plain_message *messages;
    size_t count;
    size_t room;
    unsigned edition;
};

/* "Each has a mode and a list of up to 32 PGNs of its own." */
struct plain_pair {
    unsigned mode;
    unsigned count;
    uint32_t pgns[32];
};

/* A box: at most 16 keys that are held, in no order, and the pairs by their two ports. */
struct plain_box {
    struct plain_set sets[16];
    unsigned held;
    struct plain_pair pairs[5][5];
};

void plain_start(struct plain_box *box);   /* a box of any bytes, for the first time */
void plain_empty(struct plain_box *box);   /* no key is held */
void plain_fresh(struct plain_box *box);   /* every pair is fresh */

struct plain_answer plain_learn(struct plain_box *box, uint32_t identifier, unsigned length, const uint8_t data[8]);
struct plain_answer plain_learn_message(struct plain_box *box, struct plain_message m);   /* a well-formed one, past answers 1 to 8 */
struct plain_answer plain_forget(struct plain_box *box, unsigned source, unsigned destination, unsigned k);
struct plain_answer plain_judge(const struct plain_box *box, unsigned source, unsigned destination, unsigned k);
struct plain_answer plain_pack(const struct plain_box *box, unsigned source, unsigned destination, unsigned k, const uint32_t *numbers, size_t count,
    uint8_t *payload, size_t size);
struct plain_answer plain_read(const struct plain_box *box, unsigned source, unsigned destination, unsigned k, const uint8_t *payload, size_t size,
    uint32_t *numbers, size_t room, uint8_t *states, size_t places);
struct plain_found plain_find(const struct plain_box *box, unsigned source, unsigned destination, unsigned k, uint32_t spn);

/* The parameter at a position of a key's map, usable or not: 11, then 18 where nothing stands there (so at each position of a key in conflict), else 0. */
struct plain_parameter plain_parameter_at(const struct plain_box *box, unsigned source, unsigned destination, unsigned k, unsigned position);

/* Req 10: sets the edition of a key (11, 27, or 0); the one that it has, 2010 where the key is not held. */
struct plain_answer plain_set_edition(struct plain_box *box, unsigned source, unsigned destination, unsigned k, uint32_t edition);
unsigned plain_edition(const struct plain_box *box, unsigned source, unsigned destination, unsigned k);

/* Req 03: answers a Parameter Locate as `own`, with records laid into `log`, which has `size` bytes, from byte `start` on. 1, 2, 3, 24, 13, or 0 with the count. */
struct plain_answer plain_locate(const struct plain_box *box, unsigned own, uint32_t identifier, unsigned length, const uint8_t data[8], uint8_t *log, size_t size,
    size_t start);

/* Req 01: how many bytes the image of a box has; the image written over the start of `image`, which has `size` bytes (13, or 0); an image of `size` bytes, of either form, loaded (21,
   23, or 0); asked for a key, and for a row from 0 on (21, 22, or 0). docs/IMAGE.md has the forms. */
size_t plain_image_size(const struct plain_box *box);
struct plain_answer plain_save(const struct plain_box *box, uint8_t *image, size_t size);
struct plain_answer plain_load(struct plain_box *box, const uint8_t *image, size_t size);
struct plain_row plain_image_body(const uint8_t *image, size_t size, unsigned source, unsigned destination, unsigned k);
struct plain_row plain_image_row(const uint8_t *image, size_t size, size_t row);

/* The image of a box in the form that was written before Req 10, which "no longer" is: how many bytes it has, all of them into `image`. */
size_t plain_save_form_1(const struct plain_box *box, uint8_t *image);

/* Req 14: no session yet; a frame that may be a request to send (1, 2, 3, 24, 31, 30, or 0); one that may be a packet (1, 2, 3, 28, 29, or 0). The last packet's answer carries the size, and its
   payload is laid over the start of `payload`. */
void plain_start_sessions(struct plain_sessions *all);
struct plain_answer plain_request(struct plain_sessions *all, uint32_t identifier, unsigned length, const uint8_t data[8]);
struct plain_arrived plain_packet(struct plain_sessions *all, uint32_t identifier, unsigned length, const uint8_t data[8], uint8_t *payload);

/* n of a key's messages; 0 where the key is in conflict or not held. */
unsigned plain_count(const struct plain_box *box, unsigned source, unsigned destination, unsigned k);

/* The lowest key that is held and not below the three numbers, by source, then destination, then k: 1 and the key, or 0. */
int plain_key_from(const struct plain_box *box, unsigned *source, unsigned *destination, unsigned *k);

struct plain_answer plain_add(struct plain_box *box, unsigned from, unsigned to, uint32_t pgn);
struct plain_answer plain_delete(struct plain_box *box, unsigned from, unsigned to, uint32_t pgn);
struct plain_answer plain_renew(struct plain_box *box, unsigned from, unsigned to, unsigned mode);
struct plain_answer plain_decide(const struct plain_box *box, unsigned from, unsigned to, uint32_t identifier);

/* The listing of a log: its text into `text`, which has room for `room` bytes; the number of bytes, or 0 where they have no room. */
size_t plain_listing(const uint8_t *log, size_t size, char *text, size_t room);

/* The width of an SPN's parameter, 0 where the dictionary of 2010 has it not; the same by an edition. */
unsigned plain_width(uint32_t spn);
unsigned plain_width_by(unsigned edition, uint32_t spn);

/* Req 04: whether a width is odd, above 8 and no multiple of 8; and the payload bit after the last one of a parameter, of an odd width the end of its last byte. */
int plain_odd(unsigned width);
unsigned plain_end(unsigned start, unsigned width);

/* What an SPN means, and what a number of it is worth: 0 where its state is not valid or the dictionary has not the SPN. */
struct plain_meaning plain_meaning(uint32_t spn);
struct plain_scaled plain_scaled(uint32_t spn, uint32_t number);

#endif
