/* A plain board in C that does what the library does for the calls that are measured beside it. */
#ifndef PLAIN_H
#define PLAIN_H

#include "bujorelm.h"

void plain_handle_frame(uint16_t alias, uint8_t write_lengths, const struct bujorelm_space *spaces, size_t count, const uint8_t *flash,
                        size_t flash_len, uint8_t *memory, size_t memory_len, uint8_t *pool, struct bujorelm_place *places, uint16_t tick,
                        uint32_t header, const uint8_t *payload, size_t payload_len, uint8_t *reply, size_t reply_len,
                        struct bujorelm_frame *frames, struct bujorelm_result *result);
void plain_tick(struct bujorelm_place *places, uint16_t tick, struct bujorelm_result *result);
size_t plain_cut(const uint8_t *datagram, size_t len, uint16_t board, uint16_t tool, struct bujorelm_frame *frames);

#endif
