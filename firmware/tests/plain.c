/*
 * A plain board in C, as somebody writes it who has the paper and no prover: it looks for the caller's errors, frees
 * what is due, joins frames, reads and writes spaces, and cuts replies. It has reads, writes and rejections, and not
 * the other commands. Numbers are the processor's own: indices have 32 bits there. What it gives is held to what the
 * library gives (instructions.c).
 */
#include "plain.h"

#define NONE 8u

static void set_result(struct bujorelm_result *result, uint32_t kind)
{
    *result = (struct bujorelm_result){.kind = kind, .position = BUJORELM_NO_POSITION};
}

static void refuse(struct bujorelm_result *result, uint8_t error, uint8_t position)
{
    set_result(result, BUJORELM_REFUSED);
    result->error = error;
    result->position = position;
}

/* The first error of the spaces, or 0. */
static uint8_t spaces_error(const struct bujorelm_space *spaces, size_t count, size_t flash_len, size_t memory_len, uint8_t *position)
{
    for (size_t i = 0; i < count; i++) {
        const struct bujorelm_space *const s = &spaces[i];
        const size_t store = s->in_flash ? flash_len : memory_len;

        *position = (uint8_t)i;
        if (s->lowest > s->highest) {
            return BUJORELM_ERROR_B2_LOWEST_ABOVE_HIGHEST;
        }
        if (s->offset >= store || s->highest - s->lowest > store - 1 - s->offset) {
            return BUJORELM_ERROR_B3_WINDOW_PAST_END;
        }
        if ((s->in_flash || s->number == 0xFF) && !s->read_only) {
            return BUJORELM_ERROR_B4_MUST_BE_READ_ONLY;
        }
        for (size_t j = 0; j < i; j++) {
            if (spaces[j].number == s->number) {
                return BUJORELM_ERROR_B5_NUMBER_USED_TWICE;
            }
        }
    }
    *position = BUJORELM_NO_POSITION;
    return 0;
}

static bool places_are_sound(const struct bujorelm_place *places)
{
    for (size_t i = 0; i < BUJORELM_PLACES; i++) {
        if (!places[i].held) {
            continue;
        }
        if ((!places[i].swallowing && places[i].len > BUJORELM_DATAGRAM_MAX) || places[i].source > BUJORELM_ALIAS_MAX) {
            return false;
        }
        for (size_t j = 0; j < i; j++) {
            if (places[j].held && places[j].source == places[i].source) {
                return false;
            }
        }
    }
    return true;
}

static void free_place(struct bujorelm_place *place)
{
    *place = (struct bujorelm_place){0};
}

static void drop_due(struct bujorelm_place *places, uint16_t tick)
{
    for (size_t i = 0; i < BUJORELM_PLACES; i++) {
        if (places[i].held && (uint16_t)(tick - places[i].tick) > BUJORELM_AGE_MAX) {
            free_place(&places[i]);
        }
    }
}

void plain_tick(struct bujorelm_place *places, uint16_t tick, struct bujorelm_result *result)
{
    if (!places_are_sound(places)) {
        refuse(result, BUJORELM_ERROR_B7_BAD_RECEPTION_STATE, BUJORELM_NO_POSITION);
        return;
    }
    drop_due(places, tick);
    set_result(result, BUJORELM_JOINED);
}

static size_t place_of(const struct bujorelm_place *places, uint16_t source)
{
    size_t i = 0;

    while (i < BUJORELM_PLACES && !(places[i].held && places[i].source == source)) {
        i++;
    }
    return i;
}

static size_t free_of(const struct bujorelm_place *places)
{
    size_t i = 0;

    while (i < BUJORELM_PLACES && places[i].held) {
        i++;
    }
    return i;
}

static void put_frame(struct bujorelm_frame *frame, uint32_t header, const uint8_t *bytes, size_t len)
{
    frame->header = header;
    frame->len = (uint32_t)len;
    for (size_t i = 0; i < 8; i++) {
        frame->bytes[i] = i < len ? bytes[i] : 0;
    }
}

size_t plain_cut(const uint8_t *datagram, size_t len, uint16_t board, uint16_t tool, struct bujorelm_frame *frames)
{
    const uint32_t aliases = (uint32_t)tool << 12 | board;
    size_t at = 0;
    size_t count = 0;

    if (len > BUJORELM_DATAGRAM_MAX || board > BUJORELM_ALIAS_MAX || tool > BUJORELM_ALIAS_MAX) {
        return 0;
    }
    if (len <= 8) {
        put_frame(frames, 0x1A000000u | aliases, datagram, len);
        return 1;
    }
    while (len - at > 8) {
        put_frame(&frames[count], (at == 0 ? 0x1B000000u : 0x1C000000u) | aliases, datagram + at, 8);
        at += 8;
        count++;
    }
    put_frame(&frames[count], 0x1D000000u | aliases, datagram + at, len - at);
    return count + 1;
}

/* Received OK with its flags, or Rejected with a code. */
static void put_transport(struct bujorelm_frame *frame, uint32_t header, uint16_t alias, uint16_t tool, const uint8_t *rest, size_t len)
{
    uint8_t bytes[4] = {(uint8_t)(tool >> 8), (uint8_t)tool, 0, 0};

    for (size_t i = 0; i < len; i++) {
        bytes[2 + i] = rest[i];
    }
    put_frame(frame, header | alias, bytes, 2 + len);
}

static void reject(uint32_t kind, uint16_t code, uint16_t alias, uint16_t tool, struct bujorelm_frame *frames, struct bujorelm_result *result)
{
    const uint8_t rest[2] = {(uint8_t)(code >> 8), (uint8_t)code};

    set_result(result, kind);
    result->code = code;
    result->frame_count = 1;
    put_transport(frames, 0x19A48000u, alias, tool, rest, 2);
}

/* The head of a reply to a read or a write: its command with the reply's bits, the address, and the space where the
   command names it. */
static void put_head(uint8_t *reply, const uint8_t *d, size_t head, uint8_t bits)
{
    for (size_t i = 0; i < head; i++) {
        reply[i] = d[i];
    }
    reply[1] = (uint8_t)(d[1] | bits);
}

/* A reply that says how a read or a write failed. */
static size_t fail(uint8_t *reply, const uint8_t *d, size_t head, uint16_t code)
{
    put_head(reply, d, head, 0x18);
    reply[head] = (uint8_t)(code >> 8);
    reply[head + 1] = (uint8_t)code;
    return head + 2;
}

/* The space of a number, or NULL. */
static const struct bujorelm_space *space_of(const struct bujorelm_space *spaces, size_t count, uint8_t number)
{
    for (size_t i = 0; i < count; i++) {
        if (spaces[i].number == number) {
            return &spaces[i];
        }
    }
    return NULL;
}

/* A datagram handled: reads and writes. */
static void handle(uint16_t alias, uint16_t tool, const struct bujorelm_space *spaces, size_t count, const uint8_t *flash, uint8_t *memory,
                   const uint8_t *d, size_t len, uint8_t *reply, struct bujorelm_frame *frames, struct bujorelm_result *result)
{
    const uint8_t ok[1] = {0x00};
    const uint8_t pending[1] = {0x80};
    const struct bujorelm_space *space;
    uint32_t address;
    uint8_t number;
    size_t head;
    size_t replied;
    bool writes;

    if (len < 2) {
        reject(BUJORELM_REJECTED, BUJORELM_CODE_INVALID_ARGUMENTS, alias, tool, frames, result);
        return;
    }
    if (d[0] != 0x20) {
        reject(BUJORELM_REJECTED, BUJORELM_CODE_UNKNOWN_DATAGRAM_TYPE, alias, tool, frames, result);
        return;
    }
    writes = d[1] < 4;
    if (!writes && (d[1] < 0x40 || d[1] > 0x43)) {
        reject(BUJORELM_REJECTED, BUJORELM_CODE_UNKNOWN_COMMAND, alias, tool, frames, result);
        return;
    }
    head = (d[1] & 3) == 0 ? 7 : 6;
    if (len <= head || (writes ? len - head > 64 : len != head + 1 || (d[head] & 0x7F) == 0 || (d[head] & 0x7F) > 64)) {
        reject(BUJORELM_REJECTED, BUJORELM_CODE_INVALID_ARGUMENTS, alias, tool, frames, result);
        return;
    }
    number = head == 7 ? d[6] : (uint8_t)(0xFC + (d[1] & 3));
    address = (uint32_t)d[2] << 24 | (uint32_t)d[3] << 16 | (uint32_t)d[4] << 8 | d[5];
    space = space_of(spaces, count, number);
    if (space == NULL) {
        replied = fail(reply, d, head, number >= 0xFD ? BUJORELM_CODE_OUT_OF_BOUNDS : BUJORELM_CODE_UNKNOWN_SPACE);
    } else if (writes && space->read_only) {
        replied = fail(reply, d, head, BUJORELM_CODE_READ_ONLY);
    } else if (address < space->lowest || address > space->highest ||
               (writes && len - head - 1 > space->highest - address)) {
        replied = fail(reply, d, head, BUJORELM_CODE_OUT_OF_BOUNDS);
    } else if (writes) {
        const uint32_t at = space->offset + (address - space->lowest);

        for (size_t i = 0; i < len - head; i++) {
            memory[at + i] = d[head + i];
        }
        set_result(result, BUJORELM_WRITTEN);
        result->changed_at = at;
        result->changed_len = (uint32_t)(len - head);
        result->frame_count = 1;
        put_transport(frames, 0x19A28000u, alias, tool, ok, 1);
        return;
    } else {
        const uint8_t *const from = (space->in_flash ? flash : memory) + space->offset + (address - space->lowest);
        const size_t asked = d[head] & 0x7F;
        const size_t n = space->highest - address < asked - 1 ? space->highest - address + 1 : asked;

        put_head(reply, d, head, 0x10);
        for (size_t i = 0; i < n; i++) {
            reply[head + i] = from[i];
        }
        replied = head + n;
    }
    set_result(result, BUJORELM_REPLIED);
    result->flags = 0x80;
    result->reply_len = (uint8_t)replied;
    put_transport(frames, 0x19A28000u, alias, tool, pending, 1);
    result->frame_count = (uint8_t)(1 + plain_cut(reply, replied, alias, tool, frames + 1));
}

static void hold(struct bujorelm_place *place, uint16_t source, size_t len, uint16_t tick)
{
    *place = (struct bujorelm_place){.held = 1, .len = (uint8_t)len, .source = source, .tick = tick};
}

void plain_handle_frame(uint16_t alias, uint8_t write_lengths, const struct bujorelm_space *spaces, size_t count, const uint8_t *flash,
                        size_t flash_len, uint8_t *memory, size_t memory_len, uint8_t *pool, struct bujorelm_place *places, uint16_t tick,
                        uint32_t header, const uint8_t *payload, size_t payload_len, uint8_t *reply, size_t reply_len,
                        struct bujorelm_frame *frames, struct bujorelm_result *result)
{
    const uint16_t source = (uint16_t)(header & 0xFFFu);
    const uint32_t sort = header >> 24;
    uint8_t position = BUJORELM_NO_POSITION;
    uint8_t error = 0;
    size_t place;
    size_t len;

    (void)write_lengths;
    if (count > BUJORELM_SPACES_MAX) {
        error = BUJORELM_ERROR_B11_TOO_MANY_SPACES;
    } else if (memory_len > BUJORELM_STORE_MAX) {
        error = BUJORELM_ERROR_B12_MEMORY_TOO_LARGE;
    } else if (flash_len > BUJORELM_STORE_MAX) {
        error = BUJORELM_ERROR_B13_FLASH_TOO_LARGE;
    } else if (alias == 0 || alias > BUJORELM_ALIAS_MAX) {
        error = BUJORELM_ERROR_B14_ALIAS_OUT_OF_RANGE;
    } else {
        error = spaces_error(spaces, count, flash_len, memory_len, &position);
    }
    if (error == 0 && reply_len < BUJORELM_REPLY_MIN) {
        error = BUJORELM_ERROR_B6_REPLY_BUFFER_TOO_SHORT;
    }
    if (error == 0 && !places_are_sound(places)) {
        error = BUJORELM_ERROR_B7_BAD_RECEPTION_STATE;
    }
    if (error != 0) {
        refuse(result, error, position);
        return;
    }
    drop_due(places, tick);
    if (sort < 0x1A || sort > 0x1D || (header >> 12 & 0xFFFu) != alias || source == alias || payload_len > 8) {
        set_result(result, BUJORELM_IGNORED);
        return;
    }
    place = place_of(places, source);
    if (sort == 0x1A && place == NONE) {
        handle(alias, source, spaces, count, flash, memory, payload, payload_len, reply, frames, result);
        return;
    }
    if (sort == 0x1B && place == NONE) {
        place = free_of(places);
        if (place == NONE) {
            reject(BUJORELM_TRANSPORT_REFUSAL, BUJORELM_CODE_BUFFER_UNAVAILABLE, alias, source, frames, result);
            return;
        }
        for (size_t i = 0; i < payload_len; i++) {
            pool[72 * place + i] = payload[i];
        }
        hold(&places[place], source, payload_len, tick);
        set_result(result, BUJORELM_JOINED);
        return;
    }
    if (sort < 0x1C || place == NONE) {
        if (place < NONE) {
            free_place(&places[place]);
        }
        reject(BUJORELM_TRANSPORT_REFUSAL, BUJORELM_CODE_OUT_OF_ORDER, alias, source, frames, result);
        return;
    }
    len = places[place].len + payload_len;
    if (len > BUJORELM_DATAGRAM_MAX) {
        free_place(&places[place]);
        reject(BUJORELM_TRANSPORT_REFUSAL, BUJORELM_CODE_TEMPORARY, alias, source, frames, result);
        return;
    }
    for (size_t i = 0; i < payload_len; i++) {
        pool[72 * place + places[place].len + i] = payload[i];
    }
    if (sort == 0x1C) {
        hold(&places[place], source, len, tick);
        set_result(result, BUJORELM_JOINED);
        return;
    }
    free_place(&places[place]);
    handle(alias, source, spaces, count, flash, memory, pool + 72 * place, len, reply, frames, result);
}
