/* What compare.c and days.c share: numbers from the seed, the count of calls, and what is said of a difference. */
#ifndef COMPARE_H
#define COMPARE_H

#include <stdint.h>

#include "../../include/yendrolf.h"
#include "plain.h"

/* A number from the seed: any, or below n, or whether it is the one in n. */
uint32_t any(void);
unsigned below(unsigned n);
int one_in(unsigned n);
#define PICK(list) ((list)[below(sizeof(list) / sizeof((list)[0]))])

extern uint64_t calls;                /* made so far */
extern char told_call[512];           /* the call under way, for a report */

/* Says that something differs, with the seed and the call, and ends the program. */
void differ(const char *what);

/* Says so where two answers differ in one of their four numbers. */
void same_answer(yendrolf_told a, struct plain_answer b);

/* Bridges, days.c: the first one is started; one is played with; what was counted is printed. */
void start_days(void);
void play_day(uint64_t until);
void print_days(void);

#endif
