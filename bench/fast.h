/* The calls of include/yendrolf.h once more, in plain C that is written to be fast: what the Rattle library is measured beside (bench/run). */
#ifndef FAST_H
#define FAST_H

#include "../include/yendrolf.h"

/* The prefix of the functions: tests/compare/run --c builds them under the library's own names, to compare them with tests/compare/plain.c too. */
#ifndef FAST
#define FAST(name) fast_##name
#endif

void FAST(table_empty)(uint64_t *table);
yendrolf_told FAST(table_learn)(uint64_t *table, uint32_t identifier, uint8_t length, const uint8_t *data);
yendrolf_told FAST(table_forget)(uint64_t *table, uint8_t source, uint8_t destination, uint8_t k);
yendrolf_told FAST(table_set_edition)(uint64_t *table, uint8_t source, uint8_t destination, uint8_t k, uint32_t edition);
uint32_t FAST(table_edition)(const uint64_t *table, uint8_t source, uint8_t destination, uint8_t k);
uint32_t FAST(table_count)(const uint64_t *table, uint8_t source, uint8_t destination, uint8_t k);
yendrolf_told FAST(table_judge)(const uint64_t *table, uint8_t source, uint8_t destination, uint8_t k);
yendrolf_told FAST(table_pack)(const uint64_t *table, uint8_t source, uint8_t destination, uint8_t k, const uint32_t *numbers, size_t count,
    uint8_t *payload, size_t size);
yendrolf_told FAST(table_read)(const uint64_t *table, uint8_t source, uint8_t destination, uint8_t k, const uint8_t *payload, size_t size,
    uint32_t *numbers, size_t room, uint8_t *states, size_t places);
yendrolf_found FAST(table_find)(const uint64_t *table, uint8_t source, uint8_t destination, uint8_t k, uint32_t spn);
yendrolf_parameter FAST(table_parameter_at)(const uint64_t *table, uint8_t source, uint8_t destination, uint8_t k, uint8_t position);
yendrolf_told FAST(table_locate)(const uint64_t *table, uint8_t own, uint32_t identifier, uint8_t length, const uint8_t *data, uint8_t *log, size_t size, size_t start);
yendrolf_meant FAST(meaning)(uint32_t spn);
yendrolf_value FAST(scaled)(uint32_t spn, uint32_t number);
yendrolf_key FAST(table_first_key)(const uint64_t *table);
yendrolf_key FAST(table_next_key)(const uint64_t *table, uint8_t source, uint8_t destination, uint8_t k);
yendrolf_log FAST(start_log)(void);
yendrolf_log FAST(table_feed)(uint64_t *table, yendrolf_log log, const uint8_t *chunk, size_t size);
yendrolf_told FAST(table_finish)(const uint64_t *table, yendrolf_log log, uint8_t *text, size_t room);
size_t FAST(table_image_size)(const uint64_t *table);
yendrolf_told FAST(table_save)(const uint64_t *table, uint8_t *image, size_t size);
yendrolf_told FAST(table_load)(uint64_t *table, const uint8_t *image, size_t size);
yendrolf_row FAST(image_body)(const uint8_t *image, size_t size, uint8_t source, uint8_t destination, uint8_t k);
yendrolf_row FAST(image_row)(const uint8_t *image, size_t size, size_t row);
void FAST(filters_fresh)(uint32_t *filters);
yendrolf_told FAST(filters_add)(uint32_t *filters, uint8_t from, uint8_t to, uint32_t pgn);
yendrolf_told FAST(filters_delete)(uint32_t *filters, uint8_t from, uint8_t to, uint32_t pgn);
yendrolf_told FAST(filters_renew)(uint32_t *filters, uint8_t from, uint8_t to, uint8_t mode);
yendrolf_told FAST(filters_decide)(const uint32_t *filters, uint8_t from, uint8_t to, uint32_t identifier);
void FAST(sessions_fresh)(uint64_t *heads);
yendrolf_told FAST(sessions_request)(uint64_t *heads, uint32_t identifier, uint8_t length, const uint8_t *data);
yendrolf_arrived FAST(sessions_packet)(uint64_t *heads, uint8_t *bytes, uint8_t *payload, uint32_t identifier, uint8_t length, const uint8_t *data);
void FAST(bridge_fresh)(uint64_t *counters, uint64_t *queues);
yendrolf_offered FAST(bridge_offer)(uint64_t *counters, uint64_t *queues, const uint32_t *filters, uint8_t from, uint32_t identifier);
yendrolf_told FAST(bridge_slot)(uint64_t *counters, uint64_t *queues, uint8_t port, uint8_t *from, uint32_t *identifier);
yendrolf_pair FAST(bridge_pair)(const uint64_t *counters, const uint64_t *queues, uint8_t from, uint8_t to);
yendrolf_trace FAST(start_trace)(void);
yendrolf_trace FAST(bridge_feed)(uint64_t *counters, uint64_t *queues, uint32_t *filters, yendrolf_trace trace, const uint8_t *chunk, size_t size);
yendrolf_told FAST(bridge_finish)(const uint64_t *counters, const uint64_t *queues, yendrolf_trace trace, uint8_t *text, size_t room);
void FAST(hire_fresh)(uint64_t *cells);
yendrolf_log FAST(hire_feed)(uint64_t *table, uint64_t *cells, uint32_t limit, yendrolf_log log, const uint8_t *chunk, size_t size);
yendrolf_line FAST(hire_line)(const uint64_t *table, const uint64_t *cells, uint32_t limit, uint8_t source, uint8_t destination, uint8_t k, uint8_t position);

#endif
