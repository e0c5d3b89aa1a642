/*
 * Tests of the library through its C interface: document 01's session and whole datagrams, every error of the caller
 * and every transport refusal, the bounds of every lent buffer, which bytes a write changes, the frames that are given
 * to be sent, every value of the bytes that say yes or no and of those that mean nothing, unfinished datagrams of every
 * age, what is swallowed behind a broken datagram, the GridConnect functions and the line splitter, the inline
 * functions of the header, and pseudo-random calls.
 *
 * Usage: library [how many pseudo-random frames]
 */
#define _DEFAULT_SOURCE

#include "demonstration.h"
#include "lent.h"

#define UNTOUCHED 0xC7

/* A description with a table of its own, to be changed. */
struct draft {
    uint16_t alias;
    uint8_t write_lengths;
    size_t count;
    struct bujorelm_space spaces[BUJORELM_SPACES_MAX];
};

static struct draft draft_demonstration(void)
{
    struct draft d;

    memset(&d, 0, sizeof d);
    d.alias = demonstration_description.alias;
    d.write_lengths = demonstration_description.write_lengths;
    d.count = demonstration_description.count;
    memcpy(d.spaces, demonstration_spaces, sizeof demonstration_spaces);
    return d;
}

/* A board whose lent buffers lie between pages that cannot be touched, and the tick that the next call for it brings. */
struct board {
    struct bujorelm_node node;
    uint16_t tick;
    struct guarded table;
    struct guarded flash;
    struct guarded memory;
    struct guarded reply;
    struct guarded frames;
};

static void board_new(struct board *b, const struct draft *draft, size_t flash_len, size_t memory_len, size_t reply_len)
{
    /* Now the one end, now the other lies at a guard. */
    static bool at_start;
    /* Every board has a tick of its own, which stays unless a test changes it. */
    static uint16_t tick;
    /* Of a table with too many spaces no byte is there to be looked at. */
    const size_t table_len = draft->count > BUJORELM_SPACES_MAX ? 0 : draft->count * sizeof draft->spaces[0];
    struct bujorelm_description description;

    at_start = !at_start;
    tick = (uint16_t)(tick + 7919u);
    b->tick = tick;
    b->table = guarded_new(table_len, at_start && table_len != 0);
    b->flash = guarded_new(flash_len, at_start);
    b->memory = guarded_new(memory_len, at_start);
    b->reply = guarded_new(reply_len, at_start);
    b->frames = guarded_new(BUJORELM_SENT_MAX * sizeof(struct bujorelm_frame), at_start);
    memcpy(b->table.bytes, draft->spaces, table_len);
    guarded_read_only(&b->table);
    memset(b->reply.bytes, UNTOUCHED, reply_len);
    description.alias = draft->alias;
    description.write_lengths = draft->write_lengths;
    description.count = draft->count;
    description.spaces = (const struct bujorelm_space *)(const void *)b->table.bytes;
    bujorelm_node_start(&b->node, &description, b->flash.bytes, flash_len, b->memory.bytes, memory_len);
}

static void board_demonstration(struct board *b)
{
    const struct draft d = draft_demonstration();

    board_new(b, &d, sizeof demonstration_flash, DEMONSTRATION_MEMORY_SIZE, BUJORELM_REPLY_MIN);
    memcpy(b->flash.bytes, demonstration_flash, sizeof demonstration_flash);
}

static void board_free(struct board *b)
{
    guarded_free(&b->table);
    guarded_free(&b->flash);
    guarded_free(&b->memory);
    guarded_free(&b->reply);
    guarded_free(&b->frames);
}

static bool is_untouched(const uint8_t *bytes, size_t from, size_t end)
{
    for (size_t i = from; i < end; i++) {
        if (bytes[i] != UNTOUCHED) {
            return false;
        }
    }
    return true;
}

static bool is_zero(const void *bytes, size_t len)
{
    static const uint8_t zeros[64];

    return len <= sizeof zeros && memcmp(bytes, zeros, len) == 0;
}

/* Whether two stretches of bytes are the same but for `len` bytes from index `at` on. */
static bool is_same_outside(const uint8_t *a, const uint8_t *b, size_t end, size_t at, size_t len)
{
    return at <= end && len <= end - at && memcmp(a, b, at) == 0 && memcmp(a + at + len, b + at + len, end - at - len) == 0;
}

/* What stands where there is no position; the header's own name for it is not used, so that a wrong one shows. */
#define NO_POSITION 255u

/* Whether the numbers are just those that the kind names, of a kind that changes no memory. The number of frames is looked at elsewhere. */
static bool is_answer(struct bujorelm_result a, enum bujorelm_kind kind, uint8_t error, uint8_t flags, uint16_t code, size_t reply_len)
{
    return a.kind == kind && a.error == error && a.flags == flags && a.code == code && a.reply_len == reply_len && a.changed_at == 0 &&
           a.changed_len == 0 && a.position == NO_POSITION;
}

static bool is_written(struct bujorelm_result a, size_t at, size_t len)
{
    return a.kind == BUJORELM_WRITTEN && a.error == 0 && a.flags == 0 && a.code == 0 && a.reply_len == 0 && a.changed_at == at &&
           a.changed_len == len && a.position == NO_POSITION;
}

static bool is_update_complete(struct bujorelm_result a)
{
    return is_answer(a, BUJORELM_UPDATE_COMPLETE, 0, 0, 0, 0);
}

/* Whether two results are the same but for the number of frames, which a whole datagram has none of. */
static bool same_result(struct bujorelm_result a, struct bujorelm_result b)
{
    return a.kind == b.kind && a.error == b.error && a.flags == b.flags && a.code == b.code && a.reply_len == b.reply_len &&
           a.changed_at == b.changed_at && a.changed_len == b.changed_len && a.position == b.position;
}

/* Whether a call was refused with an error, at a position or at none. */
static bool is_error_at(struct bujorelm_result a, uint8_t error, uint8_t position)
{
    const uint8_t given = a.position;

    a.position = NO_POSITION;
    return is_answer(a, BUJORELM_REFUSED, error, 0, 0, 0) && given == position;
}

static bool is_error(struct bujorelm_result a, uint8_t error)
{
    return is_error_at(a, error, NO_POSITION);
}

static bool is_refusal(struct bujorelm_result answer, uint16_t code)
{
    return is_answer(answer, BUJORELM_TRANSPORT_REFUSAL, 0, 0, code, 0);
}

static bool is_joined(struct bujorelm_result answer)
{
    return is_answer(answer, BUJORELM_JOINED, 0, 0, 0, 0);
}

/* Whether every byte is the same, those that mean nothing among them. */
static bool same_places(const struct bujorelm_reception *a, const struct bujorelm_reception *b)
{
    return memcmp(a, b, sizeof *a) == 0;
}

/* The same of all that a node keeps between calls. */
static bool same_node(const struct bujorelm_node *a, const struct bujorelm_node *b)
{
    return same_places(&a->reception, &b->reception) && memcmp(&a->registers, &b->registers, sizeof a->registers) == 0 &&
           memcmp(a->pool, b->pool, sizeof a->pool) == 0;
}

/* Whether the places say the same: two that are free do, whatever else is in them. Lengths are compared also where the source is being swallowed:
   they mean nothing there, but a frame that is swallowed leaves none, and then the place has changed. */
static bool says_the_same(const struct bujorelm_place *a, const struct bujorelm_place *b)
{
    if (a->held == 0 || b->held == 0) {
        return a->held == b->held;
    }
    return a->len == b->len && a->source == b->source && a->tick == b->tick && (a->swallowing != 0) == (b->swallowing != 0);
}

/* Whether the place has just the bytes that a call gives to one that it changes. */
static bool is_canonical(const struct bujorelm_place *p)
{
    static const uint8_t zeros[sizeof *p] = {0};

    if (p->held == 0) {
        return memcmp(p, zeros, sizeof *p) == 0;
    }
    return p->held == 1 && p->unused == 0 && (p->swallowing == 0 || (p->swallowing == 1 && p->len == 0));
}

/* Whether a place is held and too old at a tick. A tick that is the smaller of the two has gone round: the way leads over 65,536. */
static bool is_too_old(const struct bujorelm_place *p, uint16_t tick)
{
    const int age = tick >= p->tick ? tick - p->tick : 65536 - p->tick + tick;

    return p->held != 0 && age > 3000;
}

/* The places at a tick, before any frame is looked at: those that are too old are all zero, and the others keep every byte. */
static struct bujorelm_reception kept_at(const struct bujorelm_reception *before, uint16_t tick)
{
    struct bujorelm_reception kept = *before;

    for (size_t i = 0; i < BUJORELM_PLACES; i++) {
        if (is_too_old(&before->places[i], tick)) {
            memset(&kept.places[i], 0, sizeof kept.places[i]);
        }
    }
    return kept;
}

/* What holds of every call that is not refused: of what it keeps, at most one place changes, that one has canonical bytes, and all others keep
   theirs. */
static bool follows_on(const struct bujorelm_reception *before, const struct bujorelm_reception *after, uint16_t tick)
{
    const struct bujorelm_reception kept = kept_at(before, tick);
    size_t changed = 0;

    for (size_t i = 0; i < BUJORELM_PLACES; i++) {
        const struct bujorelm_place *const a = &kept.places[i];
        const struct bujorelm_place *const b = &after->places[i];

        if (!says_the_same(a, b)) {
            changed++;
            if (!is_canonical(b)) {
                return false;
            }
        } else if (memcmp(a, b, sizeof *a) != 0) {
            return false;
        }
    }
    return changed <= 1;
}

static size_t places_held(const struct bujorelm_node *node)
{
    size_t held = 0;

    for (size_t i = 0; i < BUJORELM_PLACES; i++) {
        held += node->reception.places[i].held != 0;
    }
    return held;
}

static bool nothing_unfinished(const struct bujorelm_node *node)
{
    return places_held(node) == 0;
}

/* A place that a call has freed; one that holds so many bytes of a datagram; and one whose source is being swallowed. */
static const struct bujorelm_place free_place = {.held = 0};

static struct bujorelm_place holding_place(uint16_t source, uint16_t tick, size_t len)
{
    return (struct bujorelm_place){.held = 1, .len = (uint8_t)len, .source = source, .tick = tick};
}

static struct bujorelm_place swallowed_place(uint16_t source, uint16_t tick)
{
    return (struct bujorelm_place){.held = 1, .source = source, .tick = tick, .swallowing = 1};
}

/* Whether a place has just these bytes. */
static bool is_place(const struct bujorelm_node *node, size_t index, struct bujorelm_place place)
{
    return memcmp(&node->reception.places[index], &place, sizeof place) == 0;
}

/* The header of a frame with these top five bits. */
static uint32_t header_of(uint32_t top, uint32_t destination, uint32_t source)
{
    return top << 24 | destination << 12 | source;
}

enum { SINGLE = 0x1A, FIRST = 0x1B, MIDDLE = 0x1C, LAST = 0x1D };

static struct bujorelm_frame *frames_in(const struct guarded *g)
{
    return (struct bujorelm_frame *)(void *)g->bytes;
}

static struct bujorelm_frame transport_frame(uint32_t sort, uint16_t board, uint32_t tool, size_t len, unsigned last)
{
    struct bujorelm_frame f;

    memset(&f, 0, sizeof f);
    f.header = sort << 12 | board;
    f.len = (uint32_t)len;
    f.bytes[0] = (uint8_t)(tool >> 8);
    f.bytes[1] = (uint8_t)tool;
    f.bytes[2] = (uint8_t)(len == 4 ? last >> 8 : last);
    f.bytes[3] = (uint8_t)(len == 4 ? last : 0);
    return f;
}

/* The frames that go with a result, made here and not by the library: the transport reply, and then the reply as document 01 has it cut. */
static size_t frames_for(struct bujorelm_result a, uint16_t board, uint32_t tool, const uint8_t *reply, struct bujorelm_frame *frames)
{
    size_t count = 1;

    switch (a.kind) {
    case BUJORELM_TRANSPORT_REFUSAL:
    case BUJORELM_REJECTED:
        frames[0] = transport_frame(0x19A48, board, tool, 4, a.code);
        return 1;
    case BUJORELM_WRITTEN:
    case BUJORELM_UPDATE_COMPLETE:
        frames[0] = transport_frame(0x19A28, board, tool, 3, 0x00);
        return 1;
    case BUJORELM_REPLIED:
        frames[0] = transport_frame(0x19A28, board, tool, 3, 0x80);
        break;
    default:
        return 0;
    }
    for (size_t at = 0; at < a.reply_len; at += 8) {
        const size_t len = a.reply_len - at < 8 ? a.reply_len - at : 8u;
        const bool last = at + 8 >= a.reply_len;
        struct bujorelm_frame *const f = &frames[count++];

        memset(f, 0, sizeof *f);
        f->header = header_of(at == 0 ? (last ? SINGLE : FIRST) : (last ? LAST : MIDDLE), tool, board);
        f->len = (uint32_t)len;
        memcpy(f->bytes, reply + at, len);
    }
    return count;
}

/* Whether the room for frames holds those that go with the result, and is untouched behind them. */
static bool gives_frames(const struct guarded *room, struct bujorelm_result a, uint16_t board, uint32_t header, const uint8_t *reply)
{
    struct bujorelm_frame expected[BUJORELM_SENT_MAX];

    memset(expected, UNTOUCHED, sizeof expected);
    return a.frame_count == frames_for(a, board, header & 0xFFF, reply, expected) && room->len == sizeof expected &&
           memcmp(room->bytes, expected, sizeof expected) == 0;
}

/* A frame to a board, whose answer goes to lent buffers between guards. */
static struct bujorelm_result call_frame(struct board *b, uint32_t header, const uint8_t *data, size_t len)
{
    struct bujorelm_node *const n = &b->node;
    struct bujorelm_result answer;

    memset(b->frames.bytes, UNTOUCHED, b->frames.len);
    bujorelm_handle_frame(n->description.alias, n->description.write_lengths, n->description.spaces,
                          bujorelm_spaces_size(n->description.count), n->flash, n->flash_len, n->memory, n->memory_len, &n->registers,
                          n->pool, &n->reception, b->tick, header, data, len, b->reply.bytes, b->reply.len, frames_in(&b->frames),
                          lent_result());
    answer = given_result();
    CHECK(gives_frames(&b->frames, answer, n->description.alias, header, b->reply.bytes));
    return answer;
}

/* A lone tick to a board. */
static struct bujorelm_result call_tick(struct board *b)
{
    const struct bujorelm_result answer = handle_tick(&b->node.reception, b->tick);

    CHECK(answer.frame_count == 0);
    return answer;
}

/* The same, its data from a buffer of its own with a guard behind it. */
static struct bujorelm_result feed(struct board *b, uint32_t header, const uint8_t *data, size_t len)
{
    struct guarded payload = guarded_new(len, false);
    struct bujorelm_result answer;

    if (len != 0) {
        memcpy(payload.bytes, data, len);
    }
    answer = call_frame(b, header, payload.bytes, len);
    guarded_free(&payload);
    return answer;
}

/* A whole datagram to a board. */
static struct bujorelm_result hand_over(struct board *b, const uint8_t *datagram, size_t len)
{
    struct bujorelm_node *const n = &b->node;
    struct bujorelm_result answer;

    bujorelm_handle_datagram(n->description.alias, n->description.write_lengths, n->description.spaces,
                             bujorelm_spaces_size(n->description.count), n->flash, n->flash_len, n->memory, n->memory_len, &n->registers,
                             datagram, len, b->reply.bytes, b->reply.len, lent_result());
    answer = given_result();
    CHECK(answer.frame_count == 0);
    return answer;
}

static struct bujorelm_result feed_hex(struct board *b, uint32_t top, uint32_t source, const char *hex)
{
    uint8_t data[80];
    const size_t len = from_hex(hex, data);

    return feed(b, header_of(top, b->node.description.alias, source), data, len);
}

/* ---- Layout ---- */

/* What is lent and has one size, each between pages that cannot be touched: at the one end of its page or at the other. */
struct lent {
    struct guarded registers;
    struct guarded pool;
    struct guarded places;
    struct guarded frames;
};

static void lent_new(struct lent *l, bool at_start)
{
    l->registers = guarded_new(sizeof(struct bujorelm_registers), at_start);
    l->pool = guarded_new(BUJORELM_POOL_SIZE, at_start);
    l->places = guarded_new(sizeof(struct bujorelm_reception), at_start);
    l->frames = guarded_new(BUJORELM_SENT_MAX * sizeof(struct bujorelm_frame), at_start);
    memset(l->registers.bytes, 0, l->registers.len);
    memset(l->pool.bytes, UNTOUCHED, l->pool.len);
    memset(l->places.bytes, 0, l->places.len);
    memset(l->frames.bytes, UNTOUCHED, l->frames.len);
}

static void lent_free(struct lent *l)
{
    guarded_free(&l->registers);
    guarded_free(&l->pool);
    guarded_free(&l->places);
    guarded_free(&l->frames);
}

static struct bujorelm_reception *places_of(const struct lent *l)
{
    return (struct bujorelm_reception *)(void *)l->places.bytes;
}

static struct bujorelm_frame *frames_of(const struct lent *l)
{
    return frames_in(&l->frames);
}

/* A frame to the demonstration board, by the function of the library itself. */
static struct bujorelm_result feed_lent(const struct board *b, const struct lent *l, uint32_t header, const uint8_t *data, size_t len)
{
    bujorelm_handle_frame(0x22B, 0xF2, b->node.description.spaces, b->table.len, b->flash.bytes, b->flash.len, b->memory.bytes,
                          b->memory.len, (struct bujorelm_registers *)(void *)l->registers.bytes, l->pool.bytes, places_of(l), b->tick,
                          header, data, len, b->reply.bytes, b->reply.len, frames_of(l), lent_result());
    return given_result();
}

/* What the header asserts of sizes is true of the library too: a field of every struct goes over and comes back in its place, and nothing
   is touched beside what is lent. */
static void test_layout(void)
{
    static const uint8_t eight[8] = {1, 2, 3, 4, 5, 6, 7, 8};
    /* As bytes, and not by the header's structs: Middle to 0x22B, of 0x123, in place 7, at tick 0xABCD, and one Middle too many; a source that is
       being swallowed and is 3,000 ticks old then in place 0; and the frame that 8 bytes are cut into. */
    static const uint8_t place_0[8] = {0xA5, 0xFF, 0xFF, 0x0F, 0x15, 0xA0, 0xAA, 0x55};
    static const uint8_t place_7[8] = {1, 64, 0x23, 0x01, 0x00, 0xAB, 0, 0x22};
    static const uint8_t place_7_after[8] = {1, 72, 0x23, 0x01, 0xCD, 0xAB, 0, 0};
    static const uint8_t place_7_swallowed[8] = {1, 0, 0x23, 0x01, 0xCD, 0xAB, 1, 0};
    static const uint8_t single[16] = {0xEF, 0xCD, 0xAB, 0x1A, 8, 0, 0, 0, 1, 2, 3, 4, 5, 6, 7, 8};
    static const uint8_t received_ok[16] = {0x2B, 0x82, 0xA2, 0x19, 3, 0, 0, 0, 0x0F, 0x23, 0x80, 0, 0, 0, 0, 0};
    static const uint8_t locked[8] = {0x20, 0x88, 1, 2, 3, 4, 5, 6};

    for (int at_start = 0; at_start < 2; at_start++) {
        struct board b;
        struct lent l;
        struct bujorelm_result answer;
        uint8_t places[64];

        /* docs/DRIVER.md says so. */
        CHECK(sizeof b.node == 936 && sizeof b.node.description == 24);
        board_demonstration(&b);
        b.tick = 0xABCD;
        lent_new(&l, at_start != 0);
        memcpy(l.places.bytes, place_0, 8);
        memcpy(l.places.bytes + 56, place_7, 8);
        memcpy(places, l.places.bytes, 64);
        memcpy(places + 56, place_7_after, 8);
        answer = feed_lent(&b, &l, header_of(MIDDLE, 0x22B, 0x123), eight, 8);
        CHECK(is_answer(answer, BUJORELM_JOINED, 0, 0, 0, 0));
        CHECK(memcmp(l.places.bytes, places, 64) == 0);
        /* The data went to the end of the pool, and nothing else was touched. */
        CHECK(is_untouched(l.pool.bytes, 0, 568) && memcmp(l.pool.bytes + 568, eight, 8) == 0);
        answer = feed_lent(&b, &l, header_of(MIDDLE, 0x22B, 0x123), eight + 1, 1);
        CHECK(is_answer(answer, BUJORELM_TRANSPORT_REFUSAL, 0, 0, 0x2000, 0));
        memcpy(places + 56, place_7_swallowed, 8);
        CHECK(memcmp(l.places.bytes, places, 64) == 0);
        CHECK(is_untouched(l.pool.bytes, 0, 568) && memcmp(l.pool.bytes + 568, eight, 8) == 0);

        /* The lock is changed where it lies. */
        answer = feed_lent(&b, &l, header_of(SINGLE, 0x22B, 0x124), locked, 8);
        CHECK(is_answer(answer, BUJORELM_REPLIED, 0, 0x80, 0, 8));
        CHECK(memcmp(l.registers.bytes, locked + 2, 6) == 0);
        CHECK(memcmp(l.places.bytes, places, 64) == 0);

        /* A lone tick is lent the places and nothing else. A tick later the one is too old, and in the end the other is. */
        CHECK(is_joined(handle_tick(places_of(&l), 0xABCD)) && memcmp(l.places.bytes, places, 64) == 0);
        memset(places, 0, 8);
        CHECK(is_joined(handle_tick(places_of(&l), 0xABCE)) && memcmp(l.places.bytes, places, 64) == 0);
        CHECK(is_joined(handle_tick(places_of(&l), 0xB785)) && memcmp(l.places.bytes, places, 64) == 0);
        memset(places + 56, 0, 8);
        CHECK(is_joined(handle_tick(places_of(&l), 0xB786)) && memcmp(l.places.bytes, places, 64) == 0);

        memset(l.frames.bytes, UNTOUCHED, l.frames.len);
        CHECK(bujorelm_cut(eight, 8, 0xDEF, 0xABC, frames_of(&l)) == 1);
        CHECK(memcmp(l.frames.bytes, single, 16) == 0 && is_untouched(l.frames.bytes, 16, l.frames.len));
        CHECK(frames_of(&l)->header == 0x1AABCDEFu && frames_of(&l)->len == 8);
        memset(l.frames.bytes, UNTOUCHED, l.frames.len);
        CHECK(bujorelm_received_ok(0x22B, 0xF23, 0x80, frames_of(&l)) == 1);
        CHECK(memcmp(l.frames.bytes, received_ok, 16) == 0 && is_untouched(l.frames.bytes, 16, l.frames.len));
        CHECK(bujorelm_rejected(0x22B, 0xF23, 0x2040, frames_of(&l)) == 1);
        CHECK(frames_of(&l)->header == 0x19A4822Bu && is_untouched(l.frames.bytes, 16, l.frames.len));
        lent_free(&l);
        board_free(&b);
    }
}

/* An empty buffer may have no address. */
static void test_empty_buffers(void)
{
    struct bujorelm_registers registers = {{0}};
    struct bujorelm_reception reception;
    struct bujorelm_frame frames[BUJORELM_SENT_MAX];
    uint8_t pool[BUJORELM_POOL_SIZE];
    uint8_t reply[BUJORELM_REPLY_MIN];

    memset(&reception, 0, sizeof reception);
    memset(frames, 0, sizeof frames);
    memset(pool, 0, sizeof pool);
    bujorelm_handle_frame(0x22B, 0, NULL, 0, NULL, 0, NULL, 0, &registers, pool, &reception, 0, header_of(SINGLE, 0x22B, 0x123), NULL, 0,
                          reply, sizeof reply, frames, lent_result());
    CHECK(is_answer(given_result(), BUJORELM_REJECTED, 0, 0, 0x1080, 0));
    bujorelm_handle_frame(0x22B, 0, NULL, 0, NULL, 0, NULL, 0, &registers, pool, &reception, 65535, header_of(SINGLE, 0x22B, 0x123),
                          (const uint8_t *)"\x20\x80", 2, reply, sizeof reply, frames, lent_result());
    CHECK(is_answer(given_result(), BUJORELM_REPLIED, 0, 0x80, 0, 7));
    bujorelm_handle_frame(0x22B, 0, NULL, 0, NULL, 0, NULL, 0, &registers, pool, &reception, 0, 0, NULL, 0, NULL, 0, frames, lent_result());
    CHECK(is_error(given_result(), BUJORELM_ERROR_B6_REPLY_BUFFER_TOO_SHORT));
    bujorelm_handle_datagram(0x22B, 0, NULL, 0, NULL, 0, NULL, 0, &registers, NULL, 0, reply, sizeof reply, lent_result());
    CHECK(is_answer(given_result(), BUJORELM_REJECTED, 0, 0, 0x1080, 0));
    CHECK(bujorelm_cut(NULL, 0, 2, 1, frames) == 1 && frames[0].header == 0x1A001002u && frames[0].len == 0);
    CHECK(!parse_line(NULL, 0).good);
    CHECK(!next_line(NULL, 0, 0, (struct bujorelm_carry){.len = 0}).line.complete);
    CHECK(print_frame(frames[0], NULL, 0, 0) == 0);
}

/* What is only read may be the same bytes: a frame's data that lie in flash, and a table of spaces that is the flash. */
static void test_const_overlap(void)
{
    static const struct bujorelm_space table[] = {{.number = 0xFF, .read_only = true, .in_flash = true, .lowest = 0, .highest = 15}};
    static const uint8_t flash[] = {0x20, 0x43, 0, 0, 0, 0, 7};
    const uint8_t *const bytes = (const uint8_t *)table;
    struct bujorelm_registers registers = {{0}};
    struct bujorelm_reception reception;
    struct bujorelm_frame frames[BUJORELM_SENT_MAX];
    uint8_t pool[BUJORELM_POOL_SIZE];
    uint8_t reply[BUJORELM_REPLY_MIN];

    memset(&reception, 0, sizeof reception);
    memset(pool, 0, sizeof pool);
    bujorelm_handle_frame(0x22B, 0, table, sizeof table, bytes, sizeof table, NULL, 0, &registers, pool, &reception, 0,
                          header_of(SINGLE, 0x22B, 0x123), flash, sizeof flash, reply, sizeof reply, frames, lent_result());
    CHECK(is_answer(given_result(), BUJORELM_REPLIED, 0, 0x80, 0, 13) && memcmp(reply + 6, bytes, 7) == 0);
    bujorelm_handle_datagram(0x22B, 0, NULL, 0, flash, sizeof flash, NULL, 0, &registers, flash, sizeof flash, reply, sizeof reply,
                             lent_result());
    CHECK(is_answer(given_result(), BUJORELM_REPLIED, 0, 0x80, 0, 8));
}

/* ---- Document 01's session ---- */

struct line_sink {
    uint8_t text[2048];
    size_t len;
};

static bool print_to_sink(void *context, const struct bujorelm_frame *frame)
{
    struct line_sink *const sink = context;
    const size_t end = print_frame(*frame, sink->text, sizeof sink->text, sink->len);

    if (end == sink->len) {
        return false;
    }
    sink->len = end;
    return true;
}

/* The session with a tick in front of each frame, so many ticks behind the one before it. */
static void play_session(uint16_t tick, uint16_t pace)
{
    static const char *const input[] = {
        ":X1A22B123N200100000002ABCD;", ":X1B22B123N200800000002FD0F;", ":X1A22B456N20410000000202;", ":X1D22B123N5A;",
        ":X1A22B456N20410000000202;",   ":X1A22B123N20030000000001;",   ":X1A300123N2080;",
    };
    static const enum bujorelm_kind kinds[] = {
        BUJORELM_WRITTEN, BUJORELM_JOINED,  BUJORELM_REPLIED, BUJORELM_WRITTEN,
        BUJORELM_REPLIED, BUJORELM_REPLIED, BUJORELM_IGNORED,
    };
    static const char output[] = ":X19A2822BN012300;\n"
                                 ":X19A2822BN045680;\n"
                                 ":X1A45622BN205100000002ABCD;\n"
                                 ":X19A2822BN012300;\n"
                                 ":X19A2822BN045680;\n"
                                 ":X1A45622BN205100000002AACD;\n"
                                 ":X19A2822BN012380;\n"
                                 ":X1A12322BN201B000000001083;\n";
    struct board b;
    struct line_sink sink = {.len = 0};

    board_demonstration(&b);
    CHECK(bujorelm_node_check(&b.node).kind == BUJORELM_IGNORED);
    for (size_t i = 0; i < sizeof input / sizeof input[0]; i++) {
        const struct bujorelm_parsed line = parse_line((const uint8_t *)input[i], strlen(input[i]));
        struct bujorelm_result answer;

        CHECK_CASE(line.good, input[i]);
        CHECK_CASE(
            bujorelm_node_receive(&b.node, tick, line.frame.header, line.frame.bytes, line.frame.len, print_to_sink, &sink, &answer),
            input[i]);
        CHECK_CASE(answer.kind == kinds[i], input[i]);
        tick = (uint16_t)(tick + pace);
    }
    CHECK(sink.len == sizeof output - 1 && memcmp(sink.text, output, sink.len) == 0);
    board_free(&b);
}

/* Every frame with tick 0, as in the demonstration program, and as slowly as may be: its one Last comes two frames behind its First. */
static void test_session(void)
{
    play_session(0, 0);
    play_session(0, 1500);
    play_session(65535, 1);
    play_session(62000, 1500);
}

/* ---- Whole datagrams ---- */

struct datagram_case {
    const char *datagram;
    uint16_t rejected;  /* the code, or 0 */
    const char *reply;  /* the reply, or NULL for Received OK 0x00 */
    const char *memory; /* bytes of memory afterwards, from its start; the others are zero. NULL for no change */
};

static const struct datagram_case datagram_cases[] = {
    /* Document 01's list. */
    {"", 0x1080, NULL, NULL},
    {"20", 0x1080, NULL, NULL},
    {"21", 0x1042, NULL, NULL},
    {"2044", 0x1041, NULL, NULL},
    {"20410000001F40", 0, "20510000001F00", NULL},
    {"20410000002001", 0, "2059000000201082", NULL},
    {"204300000000C0", 0, "205300000000 3C6364692F3E 00000000000000000000", NULL},
    {"20430000000080", 0x1080, NULL, NULL},
    {"20430000000041", 0x1080, NULL, NULL},
    {"20010000001F1122", 0, "20190000001F1082", NULL},
    {"20030000002001", 0, "201B000000201083", NULL},
    {"2009000000000F", 0x1080, NULL, NULL},
    {"208410", 0, "2087100000010F0200000100", NULL},
    {"208411", 0, "2086110000000000", NULL},

    /* Wrong readings that it names: a count of zero is no count; a byte behind the address is data, not a space number; a mask of zero
       keeps every bit. */
    {"20410000000000", 0x1080, NULL, NULL},
    {"200100000000FD", 0, NULL, "FD"},
    {"2009000000000055", 0, NULL, ""},

    /* The order of the rejections. */
    {"00", 0x1042, NULL, NULL},
    {"2144", 0x1042, NULL, NULL},
    {"2004", 0x1041, NULL, NULL},
    {"2050", 0x1041, NULL, NULL},
    {"2082", 0x1041, NULL, NULL},
    {"20A9", 0x1041, NULL, NULL},
    {"2041", 0x1080, NULL, NULL},
    {"204000000000FD", 0x1080, NULL, NULL},
    {"204100000000", 0x1080, NULL, NULL},
    {"2041000000000102", 0x1080, NULL, NULL},

    /* Reads: a space by byte 6, the last byte of a space, an unknown space, an address below. */
    {"204000000000FD01", 0, "205000000000FD00", NULL},
    {"2040000001001040", 0, "2050000001001000000000000000000000000000000000", NULL},
    {"2040000000FF1001", 0, "2058000000FF101082", NULL},
    {"2040000001101001", 0, "205800000110101082", NULL},
    {"2040000000001101", 0, "205800000000111081", NULL},
    {"2041FFFFFFFF40", 0, "2059FFFFFFFF1082", NULL},
    {"20420000002F7F", 0x1080, NULL, NULL},
    {"20420000002FC0", 0, "20520000002F00", NULL},

    /* Writes: to the last byte, past it, by byte 6, to an unknown and to a read-only space (before the address). */
    {"20010000000011", 0, NULL, "11"},
    {"200000000000FD1122", 0, NULL, "1122"},
    {"200000000000FD", 0x1080, NULL, NULL},
    {"200100000000", 0x1080, NULL, NULL},
    {"2000000001001099", 0, NULL, "00000000000000000000000000000000 00000000000000000000000000000000 99"},
    {"20000000000011AA", 0, "201800000000111081", NULL},
    {"200000000010FFAA", 0, "201800000010FF1083", NULL},
    {"2001FFFFFFFF11", 0, "2019FFFFFFFF1082", NULL},

    /* Masked writes: bits of the mask only; half a pair; a read-only space; past the end. */
    {"2009000000000FFF", 0, NULL, "0F"},
    {"2009000000000F5AF0A5", 0, NULL, "0AA0"},
    {"200900000000", 0x1080, NULL, NULL},
    {"200B0000000000FF", 0, "201B000000001083", NULL},
    {"20090000001FFFFFFFFF", 0, "20190000001F1082", NULL},
    {"2008000000FF10FFFF", 0, "2018000000FF101082", NULL},

    /* Options, space information, lock, update complete. */
    {"2080", 0, "2082E000F2FF10", NULL},
    {"208000", 0x1080, NULL, NULL},
    {"2084FD", 0, "2087FD0000001F00", NULL},
    {"2084FF", 0, "2087FF0000000F01", NULL},
    {"2084", 0x1080, NULL, NULL},
    {"2084FD00", 0x1080, NULL, NULL},
    {"2088050101010203", 0, "208A050101010203", NULL},
    {"20880501010102", 0x1080, NULL, NULL},
    {"20A8", 0, NULL, ""},
    {"20A800", 0x1080, NULL, NULL},
};

/* What an accepted write changes, as document 01 has it: the first byte's index in memory, and how many there are. */
struct range {
    size_t at;
    size_t len;
};

static struct range written_range(const struct bujorelm_space *spaces, size_t count, const uint8_t *datagram, size_t len)
{
    const size_t form = datagram[1] & 3u;
    const uint8_t number = form == 0 ? datagram[6] : (uint8_t)(0xFC + form);
    const size_t rest = len - (form == 0 ? 7 : 6);
    const uint32_t address =
        (uint32_t)datagram[2] << 24 | (uint32_t)datagram[3] << 16 | (uint32_t)datagram[4] << 8 | (uint32_t)datagram[5];
    struct range range = {SIZE_MAX, (datagram[1] & 8) != 0 ? rest / 2 : rest};

    for (size_t i = 0; i < count; i++) {
        if (spaces[i].number == number) {
            range.at = spaces[i].offset + (size_t)(address - spaces[i].lowest);
        }
    }
    return range;
}

/* Checks an answer against its case, however the datagram came to the board. */
static void check_case(const struct datagram_case *c, const struct board *b, struct bujorelm_result answer)
{
    uint8_t expected[80];
    uint8_t memory[DEMONSTRATION_MEMORY_SIZE] = {0};
    size_t len = 0;

    if (c->rejected != 0) {
        CHECK_CASE(is_answer(answer, BUJORELM_REJECTED, 0, 0, c->rejected, 0), c->datagram);
    } else if (c->reply == NULL) {
        const size_t sent = from_hex(c->datagram, expected);

        if (sent == 2) {
            CHECK_CASE(is_update_complete(answer), c->datagram);
        } else {
            const struct range range = written_range(demonstration_spaces, DEMONSTRATION_SPACES, expected, sent);

            CHECK_CASE(is_written(answer, range.at, range.len), c->datagram);
        }
    } else {
        len = from_hex(c->reply, expected);
        CHECK_CASE(is_answer(answer, BUJORELM_REPLIED, 0, 0x80, 0, len), c->datagram);
        CHECK_CASE(memcmp(b->reply.bytes, expected, len) == 0, c->datagram);
    }
    CHECK_CASE(is_untouched(b->reply.bytes, len, b->reply.len), c->datagram);
    if (c->memory != NULL) {
        from_hex(c->memory, memory);
    }
    CHECK_CASE(memcmp(b->memory.bytes, memory, sizeof memory) == 0, c->datagram);
    CHECK_CASE(memcmp(b->flash.bytes, demonstration_flash, sizeof demonstration_flash) == 0, c->datagram);
}

/* Sends a datagram in frames that the library cuts, and returns the answer to the last of them. */
static struct bujorelm_result feed_cut(struct board *b, const uint8_t *datagram, size_t len, uint16_t source)
{
    struct bujorelm_frame frames[BUJORELM_SENT_MAX];
    const size_t count = bujorelm_cut(datagram, len, source, b->node.description.alias, frames);
    struct bujorelm_result answer = {.kind = BUJORELM_IGNORED};

    CHECK(count != 0);
    for (size_t i = 0; i < count; i++) {
        answer = feed(b, frames[i].header, frames[i].bytes, frames[i].len);
        if (i + 1 < count) {
            CHECK(is_answer(answer, BUJORELM_JOINED, 0, 0, 0, 0));
            CHECK(is_untouched(b->reply.bytes, 0, b->reply.len));
        }
    }
    return answer;
}

static void test_datagrams(void)
{
    for (size_t i = 0; i < sizeof datagram_cases / sizeof datagram_cases[0]; i++) {
        const struct datagram_case *const c = &datagram_cases[i];
        struct board b;
        uint8_t bytes[80];
        const size_t len = from_hex(c->datagram, bytes);
        struct guarded datagram = guarded_new(len, false);

        memcpy(datagram.bytes, bytes, len);
        board_demonstration(&b);
        check_case(c, &b, hand_over(&b, datagram.bytes, len));
        board_free(&b);
        guarded_free(&datagram);

        board_demonstration(&b);
        check_case(c, &b, feed_cut(&b, bytes, len, 0x123));
        CHECK_CASE(nothing_unfinished(&b.node), c->datagram);
        board_free(&b);
    }
}

/* The longest commands, which a line of a table would not hold. */
static void test_longest(void)
{
    struct board b;
    struct draft d = draft_demonstration();
    uint8_t datagram[80];
    struct bujorelm_result answer;

    /* 64 bytes written and read back, by byte 6: 72 bytes is the longest datagram. */
    d.count = 1;
    d.spaces[0] = (struct bujorelm_space){
        .number = 0x20, .read_only = false, .in_flash = false, .lowest = 0xFFFF0000u, .highest = 0xFFFFFFFFu, .offset = 0};
    board_new(&b, &d, 0, BUJORELM_STORE_MAX, BUJORELM_REPLY_MIN);
    from_hex("2000 FFFFFFC0 20", datagram);
    for (size_t i = 0; i < 65; i++) {
        datagram[7 + i] = (uint8_t)(i + 1);
    }
    answer = feed_cut(&b, datagram, 71, 0x123);
    CHECK(is_written(answer, BUJORELM_STORE_MAX - 64, 64));
    CHECK(memcmp(b.memory.bytes + BUJORELM_STORE_MAX - 64, datagram + 7, 64) == 0);
    answer = hand_over(&b, datagram, 72);
    CHECK(is_answer(answer, BUJORELM_REJECTED, 0, 0, 0x1080, 0));
    from_hex("2040 FFFFFFC0 20 40", datagram);
    answer = feed_cut(&b, datagram, 8, 0x123);
    CHECK(is_answer(answer, BUJORELM_REPLIED, 0, 0x80, 0, 71));
    CHECK(memcmp(b.reply.bytes, "\x20\x50\xFF\xFF\xFF\xC0\x20", 7) == 0);
    CHECK(memcmp(b.reply.bytes + 7, b.memory.bytes + BUJORELM_STORE_MAX - 64, 64) == 0);
    CHECK(is_untouched(b.reply.bytes, 71, 72));

    /* Any number of bytes may be handed over whole. */
    for (size_t len = 73; len <= 80; len++) {
        struct guarded whole = guarded_new(len, false);

        memset(whole.bytes, 0x20, len);
        answer = hand_over(&b, whole.bytes, len);
        CHECK(is_answer(answer, BUJORELM_REJECTED, 0, 0, 0x1080, 0));
        guarded_free(&whole);
    }
    board_free(&b);
}

/* A write of `len` bytes, plain or masked, with the space in byte 6. Returns the datagram's length. */
static size_t make_write(uint8_t *datagram, bool masked, uint8_t number, uint32_t address, size_t len)
{
    random_bytes(datagram, BUJORELM_DATAGRAM_MAX);
    datagram[0] = 0x20;
    datagram[1] = masked ? 0x08 : 0x00;
    datagram[2] = (uint8_t)(address >> 24);
    datagram[3] = (uint8_t)(address >> 16);
    datagram[4] = (uint8_t)(address >> 8);
    datagram[5] = (uint8_t)address;
    datagram[6] = number;
    return 7 + (masked ? 2 * len : len);
}

/* Writes to a space, and checks which bytes it says that it changed, that they hold what was written, and that no other byte changed. */
static void check_write(struct board *b, bool masked, const struct bujorelm_space *space, uint32_t address, size_t len, bool whole)
{
    const size_t at = space->offset + (size_t)(address - space->lowest);
    uint8_t datagram[BUJORELM_DATAGRAM_MAX];
    const size_t sent = make_write(datagram, masked, space->number, address, len);
    uint8_t *const before = malloc(b->memory.len);
    struct bujorelm_result answer;

    if (before == NULL) {
        give_up("malloc");
    }
    random_bytes(b->memory.bytes + at, len);
    memcpy(before, b->memory.bytes, b->memory.len);
    answer = whole ? hand_over(b, datagram, sent) : feed_cut(b, datagram, sent, 0x123);
    CHECK(is_written(answer, at, len));
    CHECK(is_same_outside(b->memory.bytes, before, b->memory.len, at, len));
    for (size_t i = 0; i < len; i++) {
        const uint8_t mask = masked ? datagram[7 + 2 * i] : 0xFF;
        const uint8_t data = masked ? datagram[8 + 2 * i] : datagram[7 + i];

        CHECK(b->memory.bytes[at + i] == ((before[at + i] & (uint8_t)~mask) | (data & mask)));
    }
    CHECK(is_untouched(b->reply.bytes, 0, b->reply.len));
    free(before);
}

/* Which bytes a write changes: every length at the first and at the last address that it fits, plain and masked, in spaces that overlap. */
static void test_changed(void)
{
    struct draft d = draft_demonstration();
    uint8_t datagram[BUJORELM_DATAGRAM_MAX];
    uint8_t before[200];
    struct board b;

    /* Spaces over each other, one inside another, one of a single byte, and one at the end of memory with the greatest addresses. */
    d.count = 6;
    d.spaces[0] = (struct bujorelm_space){.number = 0x20, .lowest = 0, .highest = 99, .offset = 0};
    d.spaces[1] = (struct bujorelm_space){.number = 0xFD, .lowest = 1000, .highest = 1079, .offset = 50};
    d.spaces[2] = (struct bujorelm_space){.number = 0x21, .lowest = 5, .highest = 68, .offset = 60};
    d.spaces[3] = (struct bujorelm_space){.number = 0x00, .lowest = 0, .highest = 199, .offset = 0};
    d.spaces[4] = (struct bujorelm_space){.number = 0x22, .lowest = 77, .highest = 77, .offset = 199};
    d.spaces[5] = (struct bujorelm_space){.number = 0xFE, .lowest = 0xFFFFFFFFu - 99, .highest = 0xFFFFFFFFu, .offset = 100};
    board_new(&b, &d, 0, sizeof before, BUJORELM_REPLY_MIN);
    random_bytes(b.memory.bytes, b.memory.len);
    for (size_t i = 0; i < d.count; i++) {
        const struct bujorelm_space *const s = &d.spaces[i];
        const size_t size = (size_t)(s->highest - s->lowest) + 1;

        for (size_t len = 1; len <= size && len <= 64; len++) {
            for (int masked = 0; masked < (len <= 32 ? 2 : 1); masked++) {
                const uint32_t last = s->highest - (uint32_t)(len - 1);

                check_write(&b, masked != 0, s, s->lowest, len, true);
                check_write(&b, masked != 0, s, s->lowest, len, false);
                check_write(&b, masked != 0, s, last, len, true);
                check_write(&b, masked != 0, s, last, len, false);
                /* A byte further it does not fit: then it fails, and nothing changes. */
                memcpy(before, b.memory.bytes, sizeof before);
                if (s->highest != 0xFFFFFFFFu) {
                    const size_t sent = make_write(datagram, masked != 0, s->number, last + 1, len);

                    CHECK(is_answer(feed_cut(&b, datagram, sent, 0x123), BUJORELM_REPLIED, 0, 0x80, 0, 9));
                    CHECK(memcmp(b.memory.bytes, before, sizeof before) == 0);
                    memset(b.reply.bytes, UNTOUCHED, b.reply.len);
                }
            }
        }
    }
    /* What is written may be what was there. */
    memset(b.memory.bytes, 0x5E, b.memory.len);
    memset(before, 0x5E, sizeof before);
    CHECK(is_written(feed_hex(&b, SINGLE, 1, "2001000003E85E5E"), 50, 2));
    CHECK(is_written(feed_hex(&b, SINGLE, 1, "2009000003E800FF"), 50, 1));
    CHECK(memcmp(b.memory.bytes, before, sizeof before) == 0);
    /* Update Complete, from a tool that wrote and from one that did not, changes nothing. */
    CHECK(is_update_complete(feed_hex(&b, SINGLE, 1, "20A8")) && is_update_complete(feed_hex(&b, SINGLE, 2, "20A8")));
    CHECK(is_update_complete(hand_over(&b, (const uint8_t *)"\x20\xA8", 2)));
    CHECK(memcmp(b.memory.bytes, before, sizeof before) == 0);
    board_free(&b);

    /* The greatest index in memory. */
    d.count = 1;
    d.spaces[0] = (struct bujorelm_space){.number = 0x20, .lowest = 3, .highest = 3 + 0xFFFF, .offset = 0};
    board_new(&b, &d, 0, BUJORELM_STORE_MAX, BUJORELM_REPLY_MIN);
    for (size_t len = 1; len <= 64; len++) {
        check_write(&b, false, &d.spaces[0], 3 + 0x10000 - (uint32_t)len, len, len % 2 == 0);
        check_write(&b, len <= 32, &d.spaces[0], 3 + 0x8000, len, len % 2 == 0);
    }
    board_free(&b);
}

/* Whether a result has these bytes, which is how the library sees it. */
static bool has_bytes(struct bujorelm_result result, const char *hex)
{
    uint8_t expected[20];

    return from_hex(hex, expected) == 20 && memcmp(&result, expected, 20) == 0;
}

static void test_result_bytes(void)
{
    static const char *const cases[][2] = {
        {"2000 00000CC1 20 0102030405", "05000000 0000 00 00 BE0C0000 05000000 00 01 FF 00"},
        {"2000 00010002 20 01", "05000000 0000 00 00 FFFF0000 01000000 00 01 FF 00"},
        {"20A8", "07000000 0000 00 00 00000000 00000000 00 01 FF 00"},
        {"2080", "06000000 0000 00 80 00000000 00000000 07 02 FF 00"},
        {"2040 00000003 20 40", "06000000 0000 00 80 00000000 00000000 47 0A FF 00"},
        {"2044", "04000000 4110 00 00 00000000 00000000 00 01 FF 00"},
    };
    struct draft d = draft_demonstration();
    uint8_t datagram[BUJORELM_DATAGRAM_MAX];
    struct board b;

    d.count = 1;
    d.spaces[0] = (struct bujorelm_space){.number = 0x20, .lowest = 3, .highest = 3 + 0xFFFF, .offset = 0};
    for (size_t i = 0; i < sizeof cases / sizeof cases[0]; i++) {
        const size_t len = from_hex(cases[i][0], datagram);

        board_new(&b, &d, 0, BUJORELM_STORE_MAX, BUJORELM_REPLY_MIN);
        CHECK_CASE(has_bytes(feed_cut(&b, datagram, len, 0x123), cases[i][1]), cases[i][0]);
        board_free(&b);
    }
    board_new(&b, &d, 0, BUJORELM_STORE_MAX, BUJORELM_REPLY_MIN);
    CHECK(has_bytes(feed_hex(&b, LAST, 0x123, ""), "03000000 4020 00 00 00000000 00000000 00 01 FF 00"));
    CHECK(has_bytes(feed_hex(&b, FIRST, 0x123, ""), "02000000 0000 00 00 00000000 00000000 00 00 FF 00"));
    CHECK(has_bytes(feed_hex(&b, FIRST, 0x123, ""), "03000000 4020 00 00 00000000 00000000 00 01 FF 00"));
    CHECK(has_bytes(feed_hex(&b, MIDDLE, 0x123, "00"), "02000000 0000 00 00 00000000 00000000 00 00 FF 00"));
    CHECK(has_bytes(feed_hex(&b, LAST, 0x123, ""), "02000000 0000 00 00 00000000 00000000 00 00 FF 00"));
    CHECK(has_bytes(feed(&b, 0, NULL, 0), "01000000 0000 00 00 00000000 00000000 00 00 FF 00"));
    CHECK(has_bytes(call_tick(&b), "02000000 0000 00 00 00000000 00000000 00 00 FF 00"));
    b.node.reception.places[7].held = 1;
    b.node.reception.places[7].len = 73;
    CHECK(has_bytes(feed(&b, 0, NULL, 0), "00000000 0000 07 00 00000000 00000000 00 00 FF 00"));
    CHECK(has_bytes(call_tick(&b), "00000000 0000 07 00 00000000 00000000 00 00 FF 00"));
    b.node.memory_len = 0;
    CHECK(has_bytes(feed(&b, 0, NULL, 0), "00000000 0000 03 00 00000000 00000000 00 00 00 00"));
    b.node.memory_len = BUJORELM_STORE_MAX;
    board_free(&b);
}

/* The lock memory: taken over zero only, released by a zero ID whoever sends, and of no effect on reads and writes. */
static void test_lock(void)
{
    static const char *const steps[][2] = {
        {"2088000000000000", "208A000000000000"}, {"2088050101010203", "208A050101010203"}, {"2088050101010204", "208A050101010203"},
        {"2088000000000000", "208A000000000000"}, {"2088050101010204", "208A050101010204"},
    };
    struct board b;
    uint8_t expected[8];

    board_demonstration(&b);
    for (size_t i = 0; i < sizeof steps / sizeof steps[0]; i++) {
        const struct bujorelm_result answer = feed_hex(&b, SINGLE, 0x123 + (uint32_t)i, steps[i][0]);

        from_hex(steps[i][1], expected);
        CHECK_CASE(is_answer(answer, BUJORELM_REPLIED, 0, 0x80, 0, 8), steps[i][0]);
        CHECK_CASE(memcmp(b.reply.bytes, expected, 8) == 0, steps[i][0]);
        CHECK_CASE(memcmp(b.node.registers.lock, expected + 2, 6) == 0, steps[i][0]);
    }
    CHECK(is_written(feed_hex(&b, SINGLE, 0x777, "20010000000042"), 0, 1));
    CHECK(b.memory.bytes[0] == 0x42);
    CHECK(memcmp(b.node.registers.lock, expected + 2, 6) == 0);
    board_free(&b);
}

/* 0xFD, 0xFE and 0xFF are known where they are left out. */
static void test_left_out(void)
{
    static const char *const cases[][2] = {
        {"20410000000001", "2059000000001082"}, {"20420000000001", "205A000000001082"},     {"20430000000001", "205B000000001082"},
        {"20010000000001", "2019000000001082"}, {"20030000000001", "201B000000001083"},     {"2084FD", "2086FD0000000000"},
        {"2080", "2082E00000FFFD"},             {"2040000000001001", "205800000000101081"},
    };
    struct board b;
    struct draft none;

    memset(&none, 0, sizeof none);
    none.alias = 1;
    for (size_t i = 0; i < sizeof cases / sizeof cases[0]; i++) {
        uint8_t expected[16];
        const size_t len = from_hex(cases[i][1], expected);
        struct bujorelm_result answer;

        board_new(&b, &none, 0, 0, BUJORELM_REPLY_MIN);
        answer = feed_hex(&b, SINGLE, 0xFFF, cases[i][0]);
        CHECK_CASE(is_answer(answer, BUJORELM_REPLIED, 0, 0x80, 0, len), cases[i][0]);
        CHECK_CASE(memcmp(b.reply.bytes, expected, len) == 0, cases[i][0]);
        board_free(&b);
    }
}

/* ---- The caller's errors ---- */

/* A board that is refused: both calls say so, with the same position, and nothing changes. `datagrams` is false for B7, which the call for a
   datagram lacks. */
static void check_refused_at(struct board *b, uint8_t error, uint8_t position, bool datagrams, const char *word)
{
    /* Would be a write, the opening of a datagram, and frames that are joined or swallowed. */
    static const uint8_t write[] = {0x20, 0x01, 0, 0, 0, 0, 0x77};
    const struct bujorelm_node before = b->node;
    uint8_t *const memory = malloc(b->memory.len + 1);

    if (memory == NULL) {
        give_up("malloc");
    }
    memcpy(memory, b->memory.bytes, b->memory.len);
    CHECK_CASE(is_error_at(feed(b, header_of(SINGLE, 0x22B, 0x123), write, sizeof write), error, position), word);
    CHECK_CASE(is_error_at(feed(b, header_of(FIRST, 0x22B, 0x124), write, sizeof write), error, position), word);
    CHECK_CASE(is_error_at(feed(b, header_of(MIDDLE, 0x22B, 0x123), write, 1), error, position), word);
    CHECK_CASE(is_error_at(feed(b, header_of(LAST, 0x22B, 0x124), NULL, 0), error, position), word);
    CHECK_CASE(is_error_at(feed(b, 0, NULL, 0), error, position), word);
    if (datagrams) {
        CHECK_CASE(is_error_at(hand_over(b, write, sizeof write), error, position), word);
    }
    CHECK_CASE(same_places(&b->node.reception, &before.reception), word);
    CHECK_CASE(memcmp(b->node.registers.lock, before.registers.lock, 6) == 0, word);
    CHECK_CASE(memcmp(b->node.pool, before.pool, sizeof before.pool) == 0, word);
    CHECK_CASE(memcmp(b->memory.bytes, memory, b->memory.len) == 0, word);
    CHECK_CASE(is_untouched(b->reply.bytes, 0, b->reply.len), word);
    free(memory);
}

static void check_refused(struct board *b, uint8_t error, bool datagrams, const char *word)
{
    check_refused_at(b, error, NO_POSITION, datagrams, word);
}

static void check_draft_refused_at(const struct draft *d, size_t flash_len, size_t memory_len, size_t reply_len, uint8_t error,
                                   uint8_t position, const char *word)
{
    struct board b;

    board_new(&b, d, flash_len, memory_len, reply_len);
    /* The state is bad as well: B7 comes after all the others. No byte of it may change, however old some of it is. */
    for (size_t i = 0; i < BUJORELM_PLACES; i++) {
        b.node.reception.places[i] = (struct bujorelm_place){.held = (uint8_t)(i == 4 ? 0 : 0xAA + i),
                                                             .len = (uint8_t)(70 + i),
                                                             .source = 5,
                                                             .tick = (uint16_t)(b.tick - 1000 * i),
                                                             .swallowing = (uint8_t)(i % 3),
                                                             .unused = 0xFF};
    }
    b.node.registers.lock[2] = 9;
    check_refused_at(&b, error, position, true, word);
    board_free(&b);
}

static void check_draft_refused(const struct draft *d, size_t flash_len, size_t memory_len, size_t reply_len, uint8_t error,
                                const char *word)
{
    check_draft_refused_at(d, flash_len, memory_len, reply_len, error, NO_POSITION, word);
}

static void check_accepted(const struct draft *d, size_t flash_len, size_t memory_len, const char *word)
{
    struct board b;

    board_new(&b, d, flash_len, memory_len, BUJORELM_REPLY_MIN);
    CHECK_CASE(is_answer(bujorelm_node_check(&b.node), BUJORELM_IGNORED, 0, 0, 0, 0), word);
    CHECK_CASE(is_answer(feed(&b, 0, NULL, 0), BUJORELM_IGNORED, 0, 0, 0, 0), word);
    board_free(&b);
}

static void test_call_errors(void)
{
    const struct draft good = draft_demonstration();
    struct draft d;

    check_accepted(&good, 16, 48, "the demonstration board");

    d = good;
    d.count = 17;
    check_draft_refused(&d, 16, 48, 72, 11, "17 spaces");
    d.count = SIZE_MAX;
    check_draft_refused(&d, 16, 48, 72, 11, "more spaces than can be");
    d.count = SIZE_MAX / 16 + 1;
    check_draft_refused(&d, 16, 48, 72, 11, "so many spaces that 16 times their number wraps to 0");
    d.count = SIZE_MAX / 16 + 1 + 4;
    check_draft_refused(&d, 16, 48, 72, 11, "so many spaces that 16 times their number wraps to 64");
    d = good;
    check_draft_refused(&d, 65537, 48, 72, 13, "flash of 65,537 bytes");
    check_draft_refused(&d, 16, 65537, 72, 12, "memory of 65,537 bytes");
    check_accepted(&d, 65536, 65536, "65,536 bytes of both");
    d.alias = 0;
    check_draft_refused(&d, 16, 48, 72, 14, "alias 0");
    d.alias = 4096;
    check_draft_refused(&d, 16, 48, 72, 14, "alias 4,096");
    d.alias = 0xFFFF;
    check_draft_refused(&d, 16, 48, 72, 14, "alias 65,535");
    d.alias = 4095;
    check_accepted(&d, 16, 48, "alias 4,095");
    d.alias = 1;
    check_accepted(&d, 16, 48, "alias 1");

    d = good;
    d.spaces[1].lowest = 0x30;
    check_draft_refused_at(&d, 16, 48, 72, 2, 1, "lowest above highest");
    d.spaces[1].lowest = 0x2F;
    d.spaces[1].offset = 47;
    check_accepted(&d, 16, 48, "a space of one byte at the end of memory");
    d.spaces[1].offset = 48;
    check_draft_refused_at(&d, 16, 48, 72, 3, 1, "a space of one byte past the end of memory");
    d = good;
    check_draft_refused_at(&d, 16, 47, 72, 3, 1, "memory a byte short");
    check_draft_refused_at(&d, 15, 48, 72, 3, 2, "flash a byte short");
    d.spaces[0].offset = UINT32_MAX;
    check_draft_refused_at(&d, 16, 48, 72, 3, 0, "the greatest offset");
    d.spaces[0].highest = UINT32_MAX;
    check_draft_refused_at(&d, 16, 48, 72, 3, 0, "the greatest offset of the greatest space");

    d = good;
    d.spaces[2].read_only = false;
    check_draft_refused_at(&d, 16, 48, 72, 4, 2, "writable in flash");
    d.spaces[2].in_flash = false;
    check_draft_refused_at(&d, 16, 48, 72, 4, 2, "0xFF writable in memory");
    d.spaces[2].read_only = true;
    check_accepted(&d, 16, 48, "0xFF read-only in memory");
    d = good;
    d.spaces[3].in_flash = true;
    d.spaces[3].offset = 0;
    check_draft_refused_at(&d, 16, 48, 72, 4, 3, "another space writable in flash");

    d = good;
    d.spaces[3].number = 0xFD;
    check_draft_refused_at(&d, 16, 48, 72, 5, 3, "a number twice");
    d.count = 3;
    check_accepted(&d, 16, 48, "the second of them not described");
    d = good;
    for (size_t i = 0; i < 16; i++) {
        d.spaces[i] = good.spaces[0];
        d.spaces[i].number = (uint8_t)i;
    }
    d.count = 16;
    check_accepted(&d, 16, 48, "16 spaces");
    d.spaces[15].number = 0;
    check_draft_refused_at(&d, 16, 48, 72, 5, 15, "the sixteenth as the first");

    /* The first that applies: the limits before all; one space after the other; within a space B2, B3, B4, B5; then B6. */
    d = good;
    d.spaces[1].number = 0xFD;
    d.spaces[1].in_flash = true;
    d.spaces[1].offset = 1000;
    d.spaces[1].lowest = 0x30;
    d.spaces[3].lowest = 0x110;
    d.alias = 0;
    check_draft_refused(&d, 16, 48, 71, 14, "B14 first");
    d.alias = 1;
    check_draft_refused_at(&d, 16, 48, 71, 2, 1, "then B2");
    d.spaces[1].lowest = 0;
    check_draft_refused_at(&d, 16, 48, 71, 3, 1, "then B3");
    d.spaces[1].highest = 0;
    d.spaces[1].offset = 0;
    check_draft_refused_at(&d, 16, 48, 71, 4, 1, "then B4");
    d.spaces[1].in_flash = false;
    check_draft_refused_at(&d, 16, 48, 71, 5, 1, "then B5, before the last space's B2");
    d.spaces[1].number = 0xFE;
    check_draft_refused_at(&d, 16, 48, 71, 2, 3, "then the last space's B2");
    d.spaces[3].lowest = 0x100;
    check_draft_refused(&d, 16, 48, 71, 6, "then B6");
    check_draft_refused(&d, 16, 48, 1, 6, "B6 of one byte");
    check_draft_refused(&d, 16, 48, 0, 6, "B6 of none");
}

/* Boards that break several limits at once: the first of them in the order spaces, memory, flash, alias, whatever the spaces and the reply
   buffer are. */
static void test_limits_together(void)
{
    for (unsigned broken = 0; broken < 16; broken++) {
        const uint8_t error = broken & 1 ? 11 : broken & 2 ? 12 : broken & 4 ? 13 : 14;
        struct draft d = draft_demonstration();
        char word[64];

        snprintf(word, sizeof word, "limits 0x%X", broken);
        d.count = broken & 1 ? 17 : d.count;
        d.alias = broken & 8 ? 0 : d.alias;
        for (unsigned bad_spaces = 0; bad_spaces < 2; bad_spaces++) {
            const size_t memory_len = broken & 2 ? 65537 : 48;
            const size_t flash_len = broken & 4 ? 65537 : 16;

            if (broken != 0) {
                check_draft_refused(&d, flash_len, memory_len, 72, error, word);
                check_draft_refused(&d, flash_len, memory_len, 71, error, word);
            } else if (bad_spaces != 0) {
                check_draft_refused_at(&d, flash_len, memory_len, 71, 2, 0, word);
            } else {
                check_accepted(&d, flash_len, memory_len, word);
            }
            for (size_t i = 0; i < 4; i++) {
                d.spaces[i].lowest = UINT32_MAX;
            }
        }
    }
}

/* Spoils a space, so that it is refused with an error; with B5 by the number of the space before it. */
static void spoil(struct draft *d, size_t position, uint8_t error)
{
    struct bujorelm_space *const s = &d->spaces[position];

    switch (error) {
    case 2:
        s->lowest = 1;
        s->highest = 0;
        break;
    case 3:
        s->offset = 48;
        break;
    case 4:
        s->in_flash = true;
        break;
    default:
        s->number = d->spaces[position - 1].number;
        break;
    }
}

/* Sixteen good spaces of one byte each. */
static struct draft draft_of_sixteen(void)
{
    struct draft d = draft_demonstration();

    d.count = 16;
    for (size_t i = 0; i < 16; i++) {
        d.spaces[i] = (struct bujorelm_space){.number = (uint8_t)(0x40 + i), .offset = (uint32_t)i};
    }
    return d;
}

/* Every space of sixteen refused by each of B2 to B5, alone and with all spaces behind it: the first bad one's number and position are given.
   B5 has no position 0, since no space is earlier. */
static void test_positions(void)
{
    const struct draft good = draft_of_sixteen();

    check_accepted(&good, 16, 48, "16 spaces");
    for (uint8_t error = 2; error <= 5; error++) {
        for (uint8_t position = error == 5; position < 16; position++) {
            struct draft d = good;
            char word[64];

            snprintf(word, sizeof word, "B%u at %u", error, position);
            spoil(&d, position, error);
            check_draft_refused_at(&d, 16, 48, 72, error, position, word);
            for (size_t i = position + 1u; i < 16; i++) {
                spoil(&d, i, (uint8_t)(2 + (i + error) % 3));
            }
            check_draft_refused_at(&d, 16, 48, 71, error, position, word);
        }
    }
}

static void test_bad_states(void)
{
    struct board b;

    board_demonstration(&b);
    b.node.reception.places[7] = (struct bujorelm_place){.held = 1, .len = 73, .source = 1};
    check_refused(&b, BUJORELM_ERROR_B7_BAD_RECEPTION_STATE, false, "73 bytes");
    CHECK(is_error(bujorelm_node_check(&b.node), BUJORELM_ERROR_B7_BAD_RECEPTION_STATE));
    b.node.reception.places[7] = (struct bujorelm_place){.held = 1, .len = 255, .source = 1};
    check_refused(&b, BUJORELM_ERROR_B7_BAD_RECEPTION_STATE, false, "255 bytes");
    b.node.reception.places[7] = (struct bujorelm_place){.held = 1, .len = 0, .source = 4096};
    check_refused(&b, BUJORELM_ERROR_B7_BAD_RECEPTION_STATE, false, "source 4,096");
    b.node.reception.places[7] = (struct bujorelm_place){.held = 1, .len = 72, .source = 4095};
    CHECK(bujorelm_node_check(&b.node).kind == BUJORELM_IGNORED);
    b.node.reception.places[0] = (struct bujorelm_place){.held = 1, .len = 3, .source = 4095};
    check_refused(&b, BUJORELM_ERROR_B7_BAD_RECEPTION_STATE, false, "one source twice");
    /* A place that holds nothing is not looked at. */
    b.node.reception.places[0] = (struct bujorelm_place){.held = 0, .len = 200, .source = 0xFFFF};
    CHECK(bujorelm_node_check(&b.node).kind == BUJORELM_IGNORED);
    /* A whole datagram asks nothing of the state. */
    b.node.reception.places[7].len = 80;
    CHECK(is_update_complete(hand_over(&b, (const uint8_t *)"\x20\xA8", 2)));
    board_free(&b);
}

/* A state that B7 refuses, in every call that is lent it, and one that it does not. */
static void check_bad_state(struct board *b, const char *word)
{
    const struct bujorelm_reception before = b->node.reception;

    check_refused(b, BUJORELM_ERROR_B7_BAD_RECEPTION_STATE, false, word);
    CHECK_CASE(is_error(bujorelm_node_check(&b->node), BUJORELM_ERROR_B7_BAD_RECEPTION_STATE), word);
    CHECK_CASE(is_error(call_tick(b), BUJORELM_ERROR_B7_BAD_RECEPTION_STATE), word);
    CHECK_CASE(same_places(&b->node.reception, &before), word);
}

static void check_good_state(struct board *b, const char *word)
{
    const struct bujorelm_reception before = b->node.reception;

    CHECK_CASE(bujorelm_node_check(&b->node).kind == BUJORELM_IGNORED, word);
    CHECK_CASE(is_joined(call_tick(b)) && same_places(&b->node.reception, &before), word);
}

/* Of a place whose source is being swallowed B7 asks for the source, as of any other, and not for a length. */
static void test_bad_swallowed_states(void)
{
    static const uint8_t lens[] = {0, 1, 72, 73, 128, 255};
    struct bujorelm_place *places;
    struct board b;

    board_demonstration(&b);
    places = b.node.reception.places;
    for (size_t i = 0; i < sizeof lens; i++) {
        places[7] = (struct bujorelm_place){.held = 1, .len = lens[i], .source = 4095, .tick = b.tick, .swallowing = 1};
        check_good_state(&b, "a length that means nothing");
        places[7].swallowing = 0;
        if (lens[i] > 72) {
            check_bad_state(&b, "a length that means something");
        } else {
            check_good_state(&b, "a length of at most 72");
        }
        places[7].swallowing = 0x80;
        places[7].source = 4096;
        check_bad_state(&b, "source 4,096, being swallowed");
        places[7].source = 0xFFFF;
        check_bad_state(&b, "source 65,535, being swallowed");
    }
    /* One source twice, being swallowed in none of the two places, in one of them, or in both. */
    memset(&b.node.reception, 0, sizeof b.node.reception);
    for (unsigned sort = 0; sort < 4; sort++) {
        places[2] = (struct bujorelm_place){.held = 1, .source = 77, .tick = b.tick, .swallowing = sort & 1};
        places[6] = (struct bujorelm_place){.held = 1, .source = 77, .tick = b.tick, .swallowing = (uint8_t)(sort & 2)};
        check_bad_state(&b, "one source twice");
        places[6].source = 78;
        check_good_state(&b, "two sources");
    }
    board_free(&b);
}

/* ---- Bytes that say yes or no, and bytes that mean nothing ---- */

/* Sets a byte of a space by its index, since the one at index 3 has no name. */
static void set_byte(struct draft *d, size_t space, size_t index, uint8_t byte)
{
    memcpy((uint8_t *)&d->spaces[space] + index, &byte, 1);
}

enum { READ_ONLY_BYTE = 1, IN_FLASH_BYTE = 2, MEANINGLESS_BYTE = 3 };

/* What a board answers to a read of one byte, a write of 0x99 and a question for the flags, of space 0x10 at its lowest address. */
static void check_space(const struct draft *d, bool read_only, uint8_t content, const char *word)
{
    uint8_t read[] = {0x20, 0x50, 0, 0, 1, 0, 0x10, content};
    uint8_t fails[] = {0x20, 0x18, 0, 0, 1, 0, 0x10, 0x10, 0x83};
    uint8_t information[] = {0x20, 0x87, 0x10, 0, 0, 1, 0x0F, read_only ? 3 : 2, 0, 0, 1, 0};
    struct board b;

    board_new(&b, d, 48, 48, BUJORELM_REPLY_MIN);
    memset(b.flash.bytes, 0xF1, 48);
    memset(b.memory.bytes, 0x3E, 48);
    CHECK_CASE(is_answer(feed_hex(&b, SINGLE, 1, "2040000001001001"), BUJORELM_REPLIED, 0, 0x80, 0, sizeof read), word);
    CHECK_CASE(memcmp(b.reply.bytes, read, sizeof read) == 0, word);
    CHECK_CASE(is_answer(feed_hex(&b, SINGLE, 1, "208410"), BUJORELM_REPLIED, 0, 0x80, 0, sizeof information), word);
    CHECK_CASE(memcmp(b.reply.bytes, information, sizeof information) == 0, word);
    if (read_only) {
        CHECK_CASE(is_answer(feed_hex(&b, SINGLE, 1, "2000000001001099"), BUJORELM_REPLIED, 0, 0x80, 0, sizeof fails), word);
        CHECK_CASE(memcmp(b.reply.bytes, fails, sizeof fails) == 0, word);
        CHECK_CASE(b.memory.bytes[32] == 0x3E, word);
    } else {
        CHECK_CASE(is_written(feed_hex(&b, SINGLE, 1, "2000000001001099"), 32, 1), word);
        CHECK_CASE(b.memory.bytes[32] == 0x99, word);
    }
    board_free(&b);
}

/* Every byte of the table that says yes or no, with every value, and the byte that means nothing. */
static void test_table_bytes(void)
{
    for (unsigned byte = 0; byte <= 0xFF; byte++) {
        const uint8_t other = (uint8_t)(byte ^ 0xA5);
        struct draft d = draft_demonstration();
        char word[64];

        snprintf(word, sizeof word, "byte 0x%02X", byte);
        /* In memory, read-only or not. */
        set_byte(&d, 3, READ_ONLY_BYTE, (uint8_t)byte);
        set_byte(&d, 3, MEANINGLESS_BYTE, other);
        check_space(&d, byte != 0, 0x3E, word);
        /* Read-only, in flash or not. */
        set_byte(&d, 3, READ_ONLY_BYTE, 0xAA);
        set_byte(&d, 3, IN_FLASH_BYTE, (uint8_t)byte);
        check_space(&d, true, byte != 0 ? 0xF1 : 0x3E, word);
        /* The end that B3 looks for is that of flash or of memory by the same byte. */
        check_draft_refused_at(&d, 48, 47, 72, 3, 1, word);
        if (byte != 0) {
            check_draft_refused_at(&d, 47, 48, 72, 3, 3, word);
        } else {
            check_accepted(&d, 47, 48, word);
        }
        /* B4, by both. */
        set_byte(&d, 3, READ_ONLY_BYTE, (uint8_t)byte);
        set_byte(&d, 3, IN_FLASH_BYTE, 0xAA);
        if (byte != 0) {
            check_accepted(&d, 48, 48, word);
        } else {
            check_draft_refused_at(&d, 48, 48, 72, 4, 3, word);
        }
        set_byte(&d, 3, READ_ONLY_BYTE, 0);
        set_byte(&d, 3, IN_FLASH_BYTE, (uint8_t)byte);
        if (byte != 0) {
            check_draft_refused_at(&d, 48, 48, 72, 4, 3, word);
        } else {
            check_space(&d, false, 0x3E, word);
        }
        set_byte(&d, 3, IN_FLASH_BYTE, 0);
        set_byte(&d, 2, READ_ONLY_BYTE, (uint8_t)byte);
        set_byte(&d, 2, IN_FLASH_BYTE, 0);
        if (byte != 0) {
            check_accepted(&d, 48, 48, word);
        } else {
            check_draft_refused_at(&d, 48, 48, 72, 4, 2, word);
        }
        /* The byte that means nothing, alone. */
        d = draft_demonstration();
        for (size_t i = 0; i < d.count; i++) {
            set_byte(&d, i, MEANINGLESS_BYTE, (uint8_t)byte);
        }
        check_space(&d, false, 0x3E, word);
    }
}

/* A table of any size in bytes: those behind the last whole space are no space, and the seventeenth space is B11. */
static void test_table_sizes(void)
{
    struct bujorelm_space spaces[18];
    struct bujorelm_registers registers = {{0}};
    uint8_t memory[1] = {0x5E};
    uint8_t reply[BUJORELM_REPLY_MIN];
    struct bujorelm_result answer;
    static const size_t too_large[] = {
        288, 4096, 65536 + 64, ((size_t)1 << 32) + 64, ((size_t)1 << 36) + 64, SIZE_MAX / 2 + 1, SIZE_MAX - 15, SIZE_MAX,
    };
    struct guarded none = guarded_new(0, false);

    memset(spaces, 0, sizeof spaces);
    for (size_t i = 0; i < 18; i++) {
        spaces[i].number = (uint8_t)(0x40 + i);
    }
    for (size_t size = 0; size <= sizeof spaces; size++) {
        /* The table ends at a guard where its address is then one that a C compiler wants for a space. */
        struct guarded table = guarded_new(size, size % 4 != 0);
        const struct bujorelm_space *const at = (const struct bujorelm_space *)(const void *)table.bytes;

        memcpy(table.bytes, spaces, size);
        for (uint8_t number = 0x40; number < 0x52; number++) {
            const uint8_t question[] = {0x20, 0x84, number};

            bujorelm_handle_datagram(1, 0, at, size, NULL, 0, memory, 1, &registers, question, 3, reply, sizeof reply, lent_result());
            answer = given_result();
            if (size / 16 > 16) {
                CHECK(is_error(answer, BUJORELM_ERROR_B11_TOO_MANY_SPACES));
            } else {
                CHECK(is_answer(answer, BUJORELM_REPLIED, 0, 0x80, 0, 8));
                CHECK(reply[1] == (number - 0x40u < size / 16 ? 0x87 : 0x86));
            }
        }
        guarded_free(&table);
    }
    /* Sizes that no table has, over a page that cannot be touched. */
    for (size_t i = 0; i < sizeof too_large / sizeof too_large[0]; i++) {
        bujorelm_handle_datagram(1, 0, (const struct bujorelm_space *)(const void *)none.bytes, too_large[i], NULL, 0, memory, 1, &registers,
                                 NULL, 0, reply, sizeof reply, lent_result());
        CHECK(is_error(given_result(), BUJORELM_ERROR_B11_TOO_MANY_SPACES));
    }
    guarded_free(&none);

    CHECK(bujorelm_spaces_size(0) == 0 && bujorelm_spaces_size(1) == 16 && bujorelm_spaces_size(16) == 256);
    CHECK(bujorelm_spaces_size(17) == 272 && bujorelm_spaces_size(18) == 272 && bujorelm_spaces_size(SIZE_MAX) == 272);
    CHECK(bujorelm_spaces_size(SIZE_MAX / 16) == 272 && bujorelm_spaces_size(SIZE_MAX / 16 + 1) == 272);
    CHECK(bujorelm_spaces_size(SIZE_MAX / 16 + 2) == 272 && bujorelm_spaces_size(SIZE_MAX / 2 + 5) == 272);
}

/* What changes no place: an ignored frame, a datagram of one frame from a third tool, and a lone tick. Each place keeps every byte. */
static void check_bytes_stay(struct board *b)
{
    const struct bujorelm_reception before = b->node.reception;

    CHECK(bujorelm_node_check(&b->node).kind == BUJORELM_IGNORED);
    CHECK(feed(b, header_of(LAST, 0x22C, 0x123), NULL, 0).kind == BUJORELM_IGNORED);
    CHECK(is_update_complete(feed_hex(b, SINGLE, 0x777, "20A8")));
    CHECK(is_joined(call_tick(b)));
    CHECK(same_places(&b->node.reception, &before));
}

/* Two datagrams in places that are held or not by this byte. */
static void check_held_byte(uint8_t held)
{
    struct board b;
    struct bujorelm_place *places;
    struct bujorelm_reception before;

    board_demonstration(&b);
    places = b.node.reception.places;
    places[2] = (struct bujorelm_place){.held = held, .len = 2, .source = 0x123, .tick = b.tick, .unused = 0xAA};
    places[5] = (struct bujorelm_place){.held = held, .len = 72, .source = 0xFFF, .tick = b.tick, .unused = held};
    memcpy(b.node.pool + 144, "\x20\xA8", 2);
    before = b.node.reception;
    check_bytes_stay(&b);
    if (held == 0) {
        CHECK(is_refusal(feed_hex(&b, LAST, 0x123, ""), 0x2040));
        CHECK(is_refusal(feed_hex(&b, MIDDLE, 0xFFF, "00"), 0x2040));
        CHECK(same_places(&b.node.reception, &before));
    } else {
        /* The one is finished and its place all zero; the other is not touched, and then its source is being swallowed. */
        CHECK(is_update_complete(feed_hex(&b, LAST, 0x123, "")));
        before.places[2] = free_place;
        CHECK(same_places(&b.node.reception, &before));
        CHECK(is_refusal(feed_hex(&b, MIDDLE, 0xFFF, "00"), 0x2000));
        before.places[5] = swallowed_place(0xFFF, b.tick);
        CHECK(same_places(&b.node.reception, &before));
    }
    board_free(&b);
}

/* B7 by the same byte. */
static void check_held_byte_refused(uint8_t held)
{
    struct board b;
    struct bujorelm_place *places;

    board_demonstration(&b);
    places = b.node.reception.places;
    places[1] = (struct bujorelm_place){.held = held, .len = 73, .source = 1};
    places[2] = (struct bujorelm_place){.held = held, .len = 0, .source = 0x1000};
    if (held == 0) {
        CHECK(bujorelm_node_check(&b.node).kind == BUJORELM_IGNORED);
    } else {
        check_refused(&b, BUJORELM_ERROR_B7_BAD_RECEPTION_STATE, false, "73 bytes and source 4,096");
        places[1].held = 0;
        check_refused(&b, BUJORELM_ERROR_B7_BAD_RECEPTION_STATE, false, "source 4,096");
        places[1].held = held;
        places[2].held = 0;
        check_refused(&b, BUJORELM_ERROR_B7_BAD_RECEPTION_STATE, false, "73 bytes");
    }
    board_free(&b);
}

/* Appended to, a place has canonical bytes; opened too, over whatever a free place held. */
static void check_bytes_anew(uint8_t byte)
{
    struct board b;
    struct bujorelm_place *places;
    struct bujorelm_reception before;

    board_demonstration(&b);
    places = b.node.reception.places;
    places[0] =
        (struct bujorelm_place){.held = 0, .len = byte, .source = 0xFFFF, .tick = b.tick, .swallowing = byte, .unused = (uint8_t)~byte};
    places[1] = (struct bujorelm_place){.held = 3, .len = 0, .source = 0x456, .tick = b.tick, .unused = byte};
    before = b.node.reception;
    CHECK(is_joined(feed_hex(&b, MIDDLE, 0x456, "2041")));
    CHECK(follows_on(&before, &b.node.reception, b.tick) && is_place(&b.node, 1, holding_place(0x456, b.tick, 2)));
    for (uint32_t source = 1; source <= 7; source++) {
        before = b.node.reception;
        CHECK(is_joined(feed_hex(&b, FIRST, source, "20")));
        CHECK(follows_on(&before, &b.node.reception, b.tick) && !same_places(&before, &b.node.reception));
    }
    for (size_t i = 0; i < BUJORELM_PLACES; i++) {
        CHECK(places[i].held == 1 && places[i].tick == b.tick && places[i].swallowing == 0 && is_canonical(&places[i]));
    }
    board_free(&b);
}

/* Too old, in places that are held or not by this byte: then they are all zero, and the others keep every byte, those of a free one too. */
static void check_old_bytes(uint8_t held)
{
    struct board b;
    struct bujorelm_place *places;
    struct bujorelm_reception before;

    board_demonstration(&b);
    places = b.node.reception.places;
    for (size_t i = 0; i < BUJORELM_PLACES; i++) {
        places[i] = holding_place((uint16_t)(1 + i), (uint16_t)(b.tick + 1), 1);
    }
    places[3] = (struct bujorelm_place){.held = held, .len = 5, .source = 0x321, .tick = b.tick, .unused = 0x99};
    places[4] = (struct bujorelm_place){.held = held, .len = 99, .source = 0x322, .tick = b.tick, .swallowing = 0x40, .unused = 0x99};
    places[6] = (struct bujorelm_place){.held = 0, .len = held, .source = 0xFFFF, .tick = b.tick, .swallowing = held, .unused = held};
    before = b.node.reception;
    b.tick = (uint16_t)(b.tick + 3001);
    CHECK(is_joined(call_tick(&b)));
    if (held != 0) {
        before.places[3] = free_place;
        before.places[4] = free_place;
    }
    CHECK(same_places(&b.node.reception, &before));
    board_free(&b);
}

/* A frame of 0x456, two bytes of whose datagram have come or which is being swallowed, by this byte: what comes of it and of its place. */
static struct bujorelm_result feed_by_byte(uint8_t swallowing, uint32_t top, const char *hex, struct bujorelm_place *after)
{
    struct board b;
    struct bujorelm_result answer;

    board_demonstration(&b);
    b.tick = 0x1234;
    b.node.reception.places[4] =
        (struct bujorelm_place){.held = 3, .len = 2, .source = 0x456, .tick = b.tick, .swallowing = swallowing, .unused = 0x77};
    memcpy(b.node.pool + 288, "\x20\xA8", 2);
    check_bytes_stay(&b);
    answer = feed_hex(&b, top, 0x456, hex);
    *after = b.node.reception.places[4];
    b.node.reception.places[4] = free_place;
    CHECK(is_zero(&b.node.reception, sizeof b.node.reception));
    board_free(&b);
    return answer;
}

/* Every byte but 0 says that the source is being swallowed. */
static void check_swallowing_byte(uint8_t swallowing)
{
    const struct bujorelm_place swallowed = swallowed_place(0x456, 0x1234);
    const struct bujorelm_place opened = holding_place(0x456, 0x1234, 1);
    const struct bujorelm_place joined = holding_place(0x456, 0x1234, 3);
    struct bujorelm_place after;

    CHECK(is_joined(feed_by_byte(swallowing, MIDDLE, "41", &after)));
    CHECK(memcmp(&after, swallowing == 0 ? &joined : &swallowed, sizeof after) == 0);
    if (swallowing == 0) {
        CHECK(is_update_complete(feed_by_byte(swallowing, LAST, "", &after)) && is_zero(&after, sizeof after));
        CHECK(is_refusal(feed_by_byte(swallowing, MIDDLE, "", &after), 0x2040) && memcmp(&after, &swallowed, sizeof after) == 0);
        CHECK(is_refusal(feed_by_byte(swallowing, SINGLE, "20A8", &after), 0x2040) && memcmp(&after, &swallowed, sizeof after) == 0);
        CHECK(is_refusal(feed_by_byte(swallowing, FIRST, "20", &after), 0x2040) && memcmp(&after, &swallowed, sizeof after) == 0);
    } else {
        CHECK(is_joined(feed_by_byte(swallowing, LAST, "", &after)) && is_zero(&after, sizeof after));
        CHECK(is_joined(feed_by_byte(swallowing, MIDDLE, "", &after)) && memcmp(&after, &swallowed, sizeof after) == 0);
        CHECK(is_update_complete(feed_by_byte(swallowing, SINGLE, "20A8", &after)) && is_zero(&after, sizeof after));
        CHECK(is_joined(feed_by_byte(swallowing, FIRST, "20", &after)) && memcmp(&after, &opened, sizeof after) == 0);
    }
}

/* In a free place it says nothing. */
static void check_swallowing_byte_free(uint8_t swallowing)
{
    struct board b;
    struct bujorelm_reception before;

    board_demonstration(&b);
    b.node.reception.places[0] = (struct bujorelm_place){.source = 0x456, .tick = b.tick, .swallowing = swallowing, .unused = swallowing};
    before = b.node.reception;
    check_bytes_stay(&b);
    CHECK(is_refusal(feed_hex(&b, MIDDLE, 0x456, "00"), 0x2040) && is_refusal(feed_hex(&b, LAST, 0x456, ""), 0x2040));
    CHECK(is_update_complete(feed_hex(&b, SINGLE, 0x456, "20A8")) && same_places(&b.node.reception, &before));
    board_free(&b);
}

/* Every byte but 0 says that a place is held, and that its source is being swallowed; what means nothing may be anything, and stays as long as the
   place does not change. */
static void test_place_bytes(void)
{
    for (unsigned byte = 0; byte <= 0xFF; byte++) {
        check_held_byte((uint8_t)byte);
        check_held_byte_refused((uint8_t)byte);
        check_bytes_anew((uint8_t)byte);
        check_old_bytes((uint8_t)byte);
        check_swallowing_byte((uint8_t)byte);
        check_swallowing_byte_free((uint8_t)byte);
    }
}

/* ---- Joining ---- */

static void test_transport_refusals(void)
{
    struct board b;

    board_demonstration(&b);
    /* Strays: each gets its own refusal. */
    CHECK(is_refusal(feed_hex(&b, MIDDLE, 0x123, "20"), 0x2040));
    CHECK(is_refusal(feed_hex(&b, LAST, 0x123, "20"), 0x2040));
    CHECK(is_refusal(feed_hex(&b, LAST, 0x123, ""), 0x2040));
    CHECK(is_refusal(feed_hex(&b, MIDDLE, 0x123, ""), 0x2040));
    CHECK(nothing_unfinished(&b.node));

    /* A First over an unfinished one breaks it, and so does a Single. What is left of it is swallowed, and what comes behind its Last is
       stray again. */
    CHECK(is_joined(feed_hex(&b, FIRST, 0x123, "200100000000")));
    CHECK(is_refusal(feed_hex(&b, FIRST, 0x123, "200100000000"), 0x2040));
    CHECK(!nothing_unfinished(&b.node));
    CHECK(is_joined(feed_hex(&b, LAST, 0x123, "55")));
    CHECK(nothing_unfinished(&b.node));
    CHECK(is_refusal(feed_hex(&b, LAST, 0x123, "55"), 0x2040));
    CHECK(is_joined(feed_hex(&b, FIRST, 0x123, "")));
    CHECK(!nothing_unfinished(&b.node));
    CHECK(is_refusal(feed_hex(&b, SINGLE, 0x123, "20A8"), 0x2040));
    CHECK(!nothing_unfinished(&b.node));
    CHECK(is_update_complete(feed_hex(&b, SINGLE, 0x123, "20A8")));
    CHECK(nothing_unfinished(&b.node));

    /* An empty Middle breaks it; an empty Last does not. */
    CHECK(is_joined(feed_hex(&b, FIRST, 0x123, "20A8")));
    CHECK(is_refusal(feed_hex(&b, MIDDLE, 0x123, ""), 0x2040));
    CHECK(is_joined(feed_hex(&b, LAST, 0x123, "")));
    CHECK(is_joined(feed_hex(&b, FIRST, 0x123, "20A8")));
    CHECK(is_update_complete(feed_hex(&b, LAST, 0x123, "")));
    CHECK(is_joined(feed_hex(&b, FIRST, 0x123, "")));
    CHECK(is_answer(feed_hex(&b, LAST, 0x123, ""), BUJORELM_REJECTED, 0, 0, 0x1080, 0));

    /* 72 bytes may be joined and no more; an empty Middle is tested before the total. Of these only a Last frees the place. */
    for (int middle = 0; middle < 3; middle++) {
        CHECK(is_joined(feed_hex(&b, FIRST, 0x123, "2040000000000000")));
        for (int i = 0; i < 8; i++) {
            CHECK(is_joined(feed_hex(&b, MIDDLE, 0x123, "0000000000000000")));
        }
        switch (middle) {
        case 0:
            CHECK(is_refusal(feed_hex(&b, LAST, 0x123, "00"), 0x2000));
            break;
        case 1:
            CHECK(is_refusal(feed_hex(&b, MIDDLE, 0x123, "00"), 0x2000));
            break;
        default:
            CHECK(is_refusal(feed_hex(&b, MIDDLE, 0x123, ""), 0x2040));
            break;
        }
        CHECK(places_held(&b.node) == (middle == 0 ? 0 : 1));
    }
    CHECK(is_joined(feed_hex(&b, LAST, 0x123, "00")) && nothing_unfinished(&b.node));

    /* Eight sources, and a ninth; a Single needs no place; freed room is used again, and that of a source that is being swallowed is not free. */
    for (uint32_t source = 1; source <= 8; source++) {
        CHECK(is_joined(feed_hex(&b, FIRST, source, "20")));
    }
    CHECK(is_refusal(feed_hex(&b, FIRST, 9, "20"), 0x2020));
    CHECK(is_refusal(feed_hex(&b, LAST, 9, "A8"), 0x2040));
    CHECK(is_update_complete(feed_hex(&b, SINGLE, 9, "20A8")));
    CHECK(is_refusal(feed_hex(&b, FIRST, 5, "20"), 0x2040));
    CHECK(is_refusal(feed_hex(&b, FIRST, 9, "20"), 0x2020));
    CHECK(is_joined(feed_hex(&b, LAST, 5, "A8")));
    CHECK(is_joined(feed_hex(&b, FIRST, 9, "20")));
    CHECK(is_refusal(feed_hex(&b, FIRST, 5, "20"), 0x2020));
    for (uint32_t source = 9; source >= 1; source--) {
        if (source != 5) {
            CHECK(is_update_complete(feed_hex(&b, LAST, source, "A8")));
        }
    }
    CHECK(nothing_unfinished(&b.node));
    CHECK(is_untouched(b.reply.bytes, 0, b.reply.len));
    for (size_t i = 0; i < b.memory.len; i++) {
        CHECK(b.memory.bytes[i] == 0);
    }
    board_free(&b);
}

/* Frames that are not for the board, and data of any length. */
static void test_ignored(void)
{
    struct board b;
    uint8_t data[80];

    board_demonstration(&b);
    memset(data, 0, sizeof data);
    data[0] = 0x20;
    data[1] = 0xA8;
    CHECK(is_joined(feed_hex(&b, FIRST, 0x123, "2041")));
    for (uint32_t top = 0; top < 0x100; top++) {
        const struct bujorelm_reception before = b.node.reception;
        const struct bujorelm_result answer = feed(&b, header_of(top, 0x22B, 0x456), data, 2);

        switch (top) {
        case SINGLE:
            CHECK(is_update_complete(answer));
            break;
        case FIRST:
            CHECK(is_joined(answer));
            break;
        case MIDDLE:
            CHECK(is_joined(answer));
            break;
        case LAST:
            CHECK(is_answer(answer, BUJORELM_REJECTED, 0, 0, 0x1080, 0));
            break;
        default:
            CHECK(is_answer(answer, BUJORELM_IGNORED, 0, 0, 0, 0));
            CHECK(same_places(&before, &b.node.reception));
            break;
        }
    }
    /* Another destination; the board as source; a Received OK and a Rejected to the board. */
    for (uint32_t top = SINGLE; top <= LAST; top++) {
        CHECK(feed(&b, header_of(top, 0x22A, 0x456), data, 2).kind == BUJORELM_IGNORED);
        CHECK(feed(&b, header_of(top, 0, 0x456), data, 2).kind == BUJORELM_IGNORED);
        CHECK(feed(&b, header_of(top, 0x22B, 0x22B), data, 2).kind == BUJORELM_IGNORED);
    }
    CHECK(feed(&b, 0x19A28456u, (const uint8_t *)"\x02\x2B\x00", 3).kind == BUJORELM_IGNORED);
    CHECK(feed(&b, 0x19A48456u, (const uint8_t *)"\x02\x2B\x10\x80", 4).kind == BUJORELM_IGNORED);

    for (size_t len = 0; len <= sizeof data; len++) {
        const struct bujorelm_result answer = feed(&b, header_of(SINGLE, 0x22B, 0x456), data, len);

        if (len > 8) {
            CHECK(is_answer(answer, BUJORELM_IGNORED, 0, 0, 0, 0));
            CHECK(feed(&b, header_of(MIDDLE, 0x22B, 0x123), data, len).kind == BUJORELM_IGNORED);
        } else if (len == 2) {
            CHECK(is_update_complete(answer));
        } else {
            CHECK(is_answer(answer, BUJORELM_REJECTED, 0, 0, 0x1080, 0));
        }
    }
    /* None of it touched the datagram that was begun. */
    CHECK(b.node.reception.places[0].held == 1 && b.node.reception.places[0].len == 2 && b.node.reception.places[0].source == 0x123);
    CHECK(feed_hex(&b, LAST, 0x123, "0000000001").kind == BUJORELM_REPLIED);
    board_free(&b);
}

/* ---- Ticks ---- */

/* The ways in which a tick reaches a datagram that another frame does not concern. */
enum way { LONE_TICK, NO_DATAGRAM_FRAME, OWN_FRAME_IGNORED, OWN_FRAME_TOO_LONG, ANOTHER_FINISHES, ANOTHER_IS_REFUSED, WAYS };

static void bring_tick(struct board *b, enum way way, uint32_t source)
{
    static const uint8_t data[9] = {0x20, 0xA8};
    const uint32_t another = source ^ 0xF00;

    switch (way) {
    case LONE_TICK:
        CHECK(is_joined(call_tick(b)));
        break;
    case NO_DATAGRAM_FRAME:
        CHECK(is_answer(call_frame(b, 0, NULL, 0), BUJORELM_IGNORED, 0, 0, 0, 0));
        break;
    case OWN_FRAME_IGNORED:
        CHECK(is_answer(call_frame(b, header_of(MIDDLE, 0x22C, source), data, 2), BUJORELM_IGNORED, 0, 0, 0, 0));
        break;
    case OWN_FRAME_TOO_LONG:
        CHECK(is_answer(call_frame(b, header_of(MIDDLE, 0x22B, source), data, 9), BUJORELM_IGNORED, 0, 0, 0, 0));
        break;
    case ANOTHER_FINISHES:
        CHECK(is_update_complete(call_frame(b, header_of(SINGLE, 0x22B, another), data, 2)));
        break;
    default:
        CHECK(is_refusal(call_frame(b, header_of(LAST, 0x22B, another), data, 2), 0x2040));
        break;
    }
}

/* A datagram that is begun at a tick, and what has become of it at another: it is there with all its bytes, or its place is all zero. */
static void check_kept(struct board *b, uint16_t begun, uint16_t now, enum way way, bool kept)
{
    const uint32_t source = 0x123;
    struct bujorelm_reception before;
    uint8_t pool[BUJORELM_POOL_SIZE];
    char word[64];

    snprintf(word, sizeof word, "from %u to %u, way %d", begun, now, (int)way);
    memset(&b->node.reception, 0, sizeof b->node.reception);
    b->tick = begun;
    CHECK_CASE(is_joined(call_frame(b, header_of(FIRST, 0x22B, source), (const uint8_t *)"\x20", 1)), word);
    CHECK_CASE(places_held(&b->node) == 1, word);
    before = b->node.reception;
    memcpy(pool, b->node.pool, sizeof pool);
    b->tick = now;
    bring_tick(b, way, source);
    if (!kept) {
        memset(&before, 0, sizeof before);
    }
    CHECK_CASE(same_places(&b->node.reception, &before), word);
    CHECK_CASE(memcmp(b->node.pool, pool, sizeof pool) == 0, word);
}

/* Exactly 3,000 ticks stay and 3,001 are dropped, in every way in which a tick may come, and across 65,535 as anywhere else. */
static void test_ages(void)
{
    static const uint16_t begun[] = {0, 1, 2999, 3000, 3001, 32767, 32768, 60000, 62534, 62535, 62536, 62537, 64000, 65534, 65535};
    static const uint16_t ages[] = {0, 1, 2, 2999, 3000, 3001, 3002, 6000, 32767, 32768, 61999, 62000, 64999, 65000, 65534, 65535};
    static const struct {
        uint16_t begun;
        uint16_t now;
        bool kept;
    } written_out[] = {
        {0, 3000, true},      {0, 3001, false},     {0, 65535, false}, {1, 0, false},       {3000, 0, false},
        {62535, 65535, true}, {62535, 0, false},    {62536, 0, true},  {62536, 1, false},   {64000, 1463, true},
        {64000, 1464, true},  {64000, 1465, false}, {65535, 0, true},  {65535, 2999, true}, {65535, 3000, false},
    };
    struct board b;

    board_demonstration(&b);
    for (enum way way = LONE_TICK; way < WAYS; way++) {
        for (size_t i = 0; i < sizeof begun / sizeof begun[0]; i++) {
            for (size_t j = 0; j < sizeof ages / sizeof ages[0]; j++) {
                check_kept(&b, begun[i], (uint16_t)((begun[i] + ages[j]) % 65536), way, ages[j] <= 3000);
            }
        }
        for (size_t i = 0; i < sizeof written_out / sizeof written_out[0]; i++) {
            check_kept(&b, written_out[i].begun, written_out[i].now, way, written_out[i].kept);
        }
    }
    board_free(&b);
}

/* Every age, or each so many, from some ticks on; and the last age that stays and the first that does not, from every tick on. */
static void test_every_age(unsigned step)
{
    static const uint16_t begun[] = {0, 40000, 65535};
    struct board b;

    board_demonstration(&b);
    for (size_t i = 0; i < sizeof begun / sizeof begun[0]; i++) {
        for (unsigned age = 0; age <= 65535; age += step) {
            check_kept(&b, begun[i], (uint16_t)((begun[i] + age) % 65536), LONE_TICK, age <= 3000);
            check_kept(&b, begun[i], (uint16_t)((begun[i] + age) % 65536), NO_DATAGRAM_FRAME, age <= 3000);
        }
    }
    for (unsigned tick = 0; tick <= 65535; tick += step) {
        check_kept(&b, (uint16_t)tick, (uint16_t)((tick + 3000) % 65536), LONE_TICK, true);
        check_kept(&b, (uint16_t)tick, (uint16_t)((tick + 3001) % 65536), NO_DATAGRAM_FRAME, false);
    }
    board_free(&b);
}

/* A board at a tick of its own, to which 0x123 has sent the first byte of Update Complete; then so many ticks have passed. */
static void board_begun(struct board *b, uint16_t age)
{
    board_demonstration(b);
    CHECK(is_joined(feed_hex(b, FIRST, 0x123, "20")));
    b->tick = (uint16_t)(b->tick + age);
}

/* What becomes of the next frame of a source whose datagram is 3,000 ticks old, and where it is dropped before the frame is looked at. A frame that
   is refused does not renew the tick of the place that is kept. */
static void test_next_frame(void)
{
    for (int late = 0; late < 2; late++) {
        const uint16_t age = late ? 3001 : 3000;
        struct board b;

        board_begun(&b, age);
        CHECK(late ? is_joined(feed_hex(&b, FIRST, 0x123, "2041")) : is_refusal(feed_hex(&b, FIRST, 0x123, "2041"), 0x2040));
        CHECK(is_place(&b.node, 0, late ? holding_place(0x123, b.tick, 2) : swallowed_place(0x123, (uint16_t)(b.tick - age))));
        board_free(&b);

        board_begun(&b, age);
        CHECK(late ? is_update_complete(feed_hex(&b, SINGLE, 0x123, "20A8")) : is_refusal(feed_hex(&b, SINGLE, 0x123, "20A8"), 0x2040));
        CHECK(is_place(&b.node, 0, late ? free_place : swallowed_place(0x123, (uint16_t)(b.tick - age))));
        board_free(&b);

        board_begun(&b, age);
        CHECK(late ? is_refusal(feed_hex(&b, LAST, 0x123, "A8"), 0x2040) : is_update_complete(feed_hex(&b, LAST, 0x123, "A8")));
        CHECK(nothing_unfinished(&b.node));
        board_free(&b);

        /* A Middle, and then the First that opens anew what was dropped. */
        board_begun(&b, age);
        CHECK(late ? is_refusal(feed_hex(&b, MIDDLE, 0x123, "A8"), 0x2040) : is_joined(feed_hex(&b, MIDDLE, 0x123, "A8")));
        CHECK(places_held(&b.node) == (late ? 0 : 1));
        CHECK(!late || is_joined(feed_hex(&b, FIRST, 0x123, "20A8")));
        CHECK(is_update_complete(feed_hex(&b, LAST, 0x123, "")));
        board_free(&b);

        board_begun(&b, age);
        CHECK(is_refusal(feed_hex(&b, MIDDLE, 0x123, ""), 0x2040));
        CHECK(is_place(&b.node, 0, late ? free_place : swallowed_place(0x123, (uint16_t)(b.tick - age))));
        board_free(&b);
    }
}

/* An accepted frame renews its source's tick, and no other frame does. */
static void test_renewal(void)
{
    struct bujorelm_place *place;
    struct board b;

    /* A First, a Middle after 3,000 ticks and one after 3,000 more, and the Last after as many. */
    board_begun(&b, 3000);
    place = &b.node.reception.places[0];
    CHECK(place->tick == (uint16_t)(b.tick - 3000));
    for (int i = 0; i < 30; i++) {
        CHECK(is_joined(feed_hex(&b, MIDDLE, 0x123, i == 0 ? "A8" : "00")) && place->tick == b.tick && is_canonical(place));
        b.tick = (uint16_t)(b.tick + 3000);
    }
    CHECK(is_answer(feed_hex(&b, LAST, 0x123, ""), BUJORELM_REJECTED, 0, 0, 0x1080, 0) && nothing_unfinished(&b.node));
    board_free(&b);

    /* What comes of any other sort 3,000 ticks after the First leaves it too old a tick later. */
    for (enum way way = LONE_TICK; way < WAYS; way++) {
        board_begun(&b, 3000);
        bring_tick(&b, way, 0x123);
        CHECK(places_held(&b.node) == 1 && b.node.reception.places[0].tick == (uint16_t)(b.tick - 3000));
        b.tick++;
        CHECK(is_refusal(feed_hex(&b, LAST, 0x123, "A8"), 0x2040));
        board_free(&b);
    }
    /* So do frames that begin, go on with and end another's datagram. */
    board_begun(&b, 2000);
    CHECK(is_joined(feed_hex(&b, FIRST, 0x456, "20")));
    b.tick = (uint16_t)(b.tick + 500);
    CHECK(is_joined(feed_hex(&b, MIDDLE, 0x456, "A8")));
    b.tick = (uint16_t)(b.tick + 500);
    CHECK(b.node.reception.places[0].tick == (uint16_t)(b.tick - 3000) && b.node.reception.places[1].tick == (uint16_t)(b.tick - 500));
    CHECK(is_update_complete(feed_hex(&b, LAST, 0x456, "")) && places_held(&b.node) == 1);
    b.tick++;
    CHECK(is_joined(call_tick(&b)) && nothing_unfinished(&b.node));
    board_free(&b);
}

/* Eight tools that begin a datagram and leave, ten ticks after each other. */
static void board_abandoned(struct board *b)
{
    board_demonstration(b);
    for (uint32_t source = 1; source <= 8; source++) {
        CHECK(is_joined(feed_hex(b, FIRST, source, "20")));
        b->tick = (uint16_t)(b->tick + 10);
    }
    b->tick = (uint16_t)(b->tick - 80);
    CHECK(places_held(&b->node) == 8);
}

/* They lock a ninth out as long as the first of them is not too old, and no longer. */
static void test_abandoned(void)
{
    struct bujorelm_reception before;
    struct board b;

    for (size_t too_old = 0; too_old <= 8; too_old++) {
        board_abandoned(&b);
        b.tick = (uint16_t)(b.tick + 2991 + 10 * too_old);
        before = b.node.reception;
        CHECK(too_old == 0 ? is_refusal(feed_hex(&b, FIRST, 9, "20"), 0x2020) : is_joined(feed_hex(&b, FIRST, 9, "20")));
        CHECK(follows_on(&before, &b.node.reception, b.tick));
        CHECK(places_held(&b.node) == (too_old == 0 ? 8 : 9 - too_old));
        /* A refusal has renewed nothing: 10 ticks later the first of them is gone. */
        b.tick = (uint16_t)(b.tick + 10);
        CHECK(is_joined(call_tick(&b)));
        CHECK(places_held(&b.node) == (too_old == 0 ? 7 : too_old == 8 ? 1 : 8 - too_old));
        board_free(&b);
    }
    /* 3,000 ticks after the First of them all, and 3,001. */
    for (uint16_t age = 3000; age <= 3001; age++) {
        board_abandoned(&b);
        for (size_t i = 0; i < BUJORELM_PLACES; i++) {
            b.node.reception.places[i].tick = b.tick;
        }
        before = b.node.reception;
        b.tick = (uint16_t)(b.tick + age);
        if (age == 3000) {
            CHECK(is_refusal(feed_hex(&b, FIRST, 9, "20"), 0x2020) && same_places(&b.node.reception, &before));
            CHECK(is_update_complete(feed_hex(&b, LAST, 8, "A8")) && places_held(&b.node) == 7);
        } else {
            CHECK(is_joined(feed_hex(&b, FIRST, 9, "20")) && places_held(&b.node) == 1);
            CHECK(is_refusal(feed_hex(&b, LAST, 8, "A8"), 0x2040) && is_update_complete(feed_hex(&b, LAST, 9, "A8")));
        }
        board_free(&b);
    }
    /* At a lone tick all eight are free at once. */
    board_abandoned(&b);
    b.tick = (uint16_t)(b.tick + 3071);
    CHECK(is_joined(call_tick(&b)) && is_zero(&b.node.reception, sizeof b.node.reception));
    board_free(&b);
}

/* A board with eight places that are too old, of three datagrams and of five sources that are being swallowed. It is
   good but for one error. */
static void check_drops_nothing(uint8_t error, uint8_t position, const char *word)
{
    struct draft d = draft_of_sixteen();
    struct board b;

    if (error >= 2 && error <= 5) {
        spoil(&d, position, error);
    }
    d.alias = error == 14 ? 0 : d.alias;
    board_new(&b, &d, error == 13 ? 65537 : 16, error == 12 ? 65537 : 48, error == 6 ? 71 : 72);
    for (size_t i = 0; i < BUJORELM_PLACES; i++) {
        b.node.reception.places[i] = (struct bujorelm_place){.held = (uint8_t)(1 + i),
                                                             .len = 9,
                                                             .source = (uint16_t)(0x120 + i),
                                                             .tick = (uint16_t)(b.tick + 1 + 8000 * i),
                                                             .swallowing = (uint8_t)(i < 3 ? 0 : i),
                                                             .unused = 8};
    }
    b.node.description.count = error == 11 ? 17 : d.count;
    check_refused_at(&b, error, position, true, word);
    /* A lone tick asks nothing of the board but its state, and drops them all. */
    CHECK_CASE(is_joined(call_tick(&b)) && is_zero(&b.node.reception, sizeof b.node.reception), word);
    board_free(&b);
}

static void test_refused_calls_drop_nothing(void)
{
    static const uint8_t errors[] = {11, 12, 13, 14, 6};

    for (size_t i = 0; i < sizeof errors; i++) {
        check_drops_nothing(errors[i], NO_POSITION, "eight that are too old");
    }
    for (uint8_t error = 2; error <= 5; error++) {
        check_drops_nothing(error, 1, "eight that are too old");
        check_drops_nothing(error, 15, "eight that are too old");
    }
}

/* The three faults of a state that B7 finds: at every tick, also where what is wrong is too old and would be gone. */
static void test_ticks_of_bad_states(unsigned step)
{
    static const struct bujorelm_place bad[][2] = {
        {{.held = 1, .len = 73, .source = 1, .tick = 0x8000, .unused = 2}, {.held = 0, .len = 80, .source = 5, .swallowing = 6}},
        {{.held = 2, .len = 72, .source = 4096, .tick = 0x8000, .unused = 4}, {.held = 1, .len = 72, .source = 4095}},
        {{.held = 3, .len = 0, .source = 77, .tick = 0x8000, .unused = 6}, {.held = 9, .len = 1, .source = 77, .tick = 0x7000}},
        {{.held = 4, .len = 0, .source = 4096, .tick = 0x8000, .swallowing = 7, .unused = 8}, {.held = 1, .len = 90, .swallowing = 1}},
        {{.held = 5, .len = 99, .source = 77, .tick = 0x8000, .swallowing = 9}, {.held = 1, .len = 1, .source = 77, .tick = 0x7000}},
        {{.held = 6, .source = 77, .tick = 0x8000, .swallowing = 1}, {.held = 1, .source = 77, .tick = 0x7000, .swallowing = 1}},
    };

    for (size_t i = 0; i < sizeof bad / sizeof bad[0]; i++) {
        struct bujorelm_reception before;
        struct board b;

        board_demonstration(&b);
        memset(&before, 0, sizeof before);
        before.places[6] = bad[i][0];
        before.places[1] = bad[i][1];
        b.node.reception = before;
        for (unsigned tick = 0; tick <= 65535; tick += step) {
            b.tick = (uint16_t)tick;
            CHECK(is_error(call_tick(&b), BUJORELM_ERROR_B7_BAD_RECEPTION_STATE));
            CHECK(same_places(&b.node.reception, &before));
            CHECK(is_error(call_frame(&b, 0, NULL, 0), BUJORELM_ERROR_B7_BAD_RECEPTION_STATE));
            CHECK(same_places(&b.node.reception, &before));
        }
        check_refused(&b, BUJORELM_ERROR_B7_BAD_RECEPTION_STATE, false, "a bad state");
        board_free(&b);
    }
}

/* Whatever tick stands in a free place, it plays no part, at any tick that comes; a First that opens the place writes its own over it. */
static void test_ticks_of_free_places(unsigned step)
{
    struct bujorelm_reception before;
    struct board b;

    board_demonstration(&b);
    for (unsigned tick = 0; tick <= 65535; tick += step) {
        const struct bujorelm_place opened = {.held = 1, .len = 1, .source = 0x123, .tick = (uint16_t)(tick * 40503u)};

        memset(&before, 0, sizeof before);
        b.tick = opened.tick;
        CHECK(is_joined(handle_tick(&before, (uint16_t)tick)) && is_zero(&before, sizeof before));
        for (size_t i = 0; i < BUJORELM_PLACES; i++) {
            before.places[i] = (struct bujorelm_place){
                .len = (uint8_t)tick, .source = (uint16_t)~tick, .tick = (uint16_t)(tick + 3000 * i), .swallowing = (uint8_t)i, .unused = 0xFF};
        }
        b.node.reception = before;
        CHECK(is_joined(call_tick(&b)) && same_places(&b.node.reception, &before));
        CHECK(call_frame(&b, 0, NULL, 0).kind == BUJORELM_IGNORED && same_places(&b.node.reception, &before));
        CHECK(is_joined(call_frame(&b, header_of(FIRST, 0x22B, 0x123), (const uint8_t *)"\x20", 1)) && places_held(&b.node) == 1);
        for (size_t i = 0; i < BUJORELM_PLACES; i++) {
            if (b.node.reception.places[i].held != 0) {
                before.places[i] = opened;
            }
        }
        CHECK(same_places(&b.node.reception, &before));
    }
    board_free(&b);
}

/* The bytes of the places: the tick least significant byte first behind the source, then zeros, in the place that a frame changes and in no
   other. */
static void test_tick_bytes(void)
{
    uint8_t expected[64] = {0};
    struct board b;

    board_demonstration(&b);
    memset(&b.node.reception, 0, sizeof b.node.reception);
    b.tick = 0x1234;
    CHECK(is_joined(feed_hex(&b, FIRST, 0xABC, "2041")));
    memcpy(expected, "\x01\x02\xBC\x0A\x34\x12\x00\x00", 8);
    CHECK(memcmp(&b.node.reception, expected, 64) == 0);
    b.tick = 0x12FF;
    CHECK(is_joined(feed_hex(&b, FIRST, 0x001, "")));
    memcpy(expected + 8, "\x01\x00\x01\x00\xFF\x12\x00\x00", 8);
    CHECK(memcmp(&b.node.reception, expected, 64) == 0);
    /* What means nothing is kept until the place changes. */
    b.node.reception.places[0].unused = 0x55;
    b.node.reception.places[1].unused = 0x88;
    expected[15] = 0x88;
    b.tick = 0x1300;
    CHECK(is_joined(feed_hex(&b, MIDDLE, 0xABC, "000000")));
    memcpy(expected, "\x01\x05\xBC\x0A\x00\x13\x00\x00", 8);
    CHECK(memcmp(&b.node.reception, expected, 64) == 0);
    /* The one is dropped and the other finished: both places are all zero. */
    b.tick = 0x12FF + 3001;
    CHECK(is_joined(call_tick(&b)));
    memset(expected + 8, 0, 8);
    CHECK(memcmp(&b.node.reception, expected, 64) == 0);
    b.tick = 0x1300 + 3000;
    CHECK(feed_hex(&b, LAST, 0xABC, "01").kind == BUJORELM_REJECTED);
    CHECK(is_zero(&b.node.reception, sizeof b.node.reception));
    board_free(&b);
}

/* ---- What is swallowed behind a broken datagram ---- */

/* The place of 0x123 on the boards of these tests. */
#define OWN 2u

/* A board to which 0x123 has sent so many bytes of a datagram, ten ticks ago at last. Beside its place others are held, for a datagram and for a
   source that is being swallowed, and free, all with bytes that no call has given them. */
static void board_unfinished(struct board *b, size_t len)
{
    struct bujorelm_place *const places = b->node.reception.places;

    board_demonstration(b);
    random_bytes(b->node.pool, sizeof b->node.pool);
    places[0] = (struct bujorelm_place){.held = 9, .len = 72, .source = 1, .tick = b->tick, .unused = 0xAA};
    places[1] = (struct bujorelm_place){.held = 1, .len = 255, .source = 2, .tick = b->tick, .swallowing = 0xC3, .unused = 0x3C};
    places[OWN] = holding_place(0x123, (uint16_t)(b->tick - 10), len);
    places[3] = (struct bujorelm_place){.len = 99, .source = 0x123, .tick = 7, .swallowing = 5, .unused = 6};
    places[7] = (struct bujorelm_place){.held = 0xFF, .len = 0, .source = 4095, .tick = b->tick, .swallowing = 0xFF, .unused = 0xFF};
}

/* A frame of 0x123. Afterwards its place has just these bytes, no other place has changed in any byte, and of the pool nothing but what a First has
   opened the place with. */
static struct bujorelm_result step(struct board *b, uint32_t top, size_t len, struct bujorelm_place after)
{
    static const uint8_t data[8] = {0x20, 0xA8, 0x5A, 0xA5, 1, 2, 3, 4};
    struct bujorelm_node expected = b->node;
    const struct bujorelm_result answer = feed(b, header_of(top, 0x22B, 0x123), data, len);

    expected.reception.places[OWN] = after;
    if (top == FIRST && after.held != 0 && after.swallowing == 0) {
        memcpy(expected.pool + 72 * OWN, data, len);
    }
    CHECK(same_node(&b->node, &expected));
    CHECK(is_untouched(b->reply.bytes, 0, b->reply.len) && is_zero(b->memory.bytes, b->memory.len));
    return answer;
}

/* Frames of a source that has no place: each is refused, and nothing is kept for it. */
static void check_strays(struct board *b)
{
    for (size_t len = 0; len <= 8; len++) {
        CHECK(is_refusal(step(b, MIDDLE, len, free_place), 0x2040));
        CHECK(is_refusal(step(b, LAST, len, free_place), 0x2040));
    }
}

/* The refused frame leaves its source to be swallowed, with the tick of the last accepted one. */
static void check_breach(size_t held, uint32_t top, size_t len, uint16_t code)
{
    struct board b;

    board_unfinished(&b, held);
    CHECK(is_refusal(step(&b, top, len, swallowed_place(0x123, (uint16_t)(b.tick - 10))), code));
    CHECK(is_joined(step(&b, MIDDLE, len, swallowed_place(0x123, b.tick))));
    CHECK(is_joined(step(&b, LAST, len, free_place)));
    CHECK(is_refusal(step(&b, LAST, len, free_place), 0x2040));
    board_free(&b);
}

/* A Last that is refused frees the place. */
static void check_refused_last(size_t held, size_t len)
{
    struct board b;

    board_unfinished(&b, held);
    CHECK(is_refusal(step(&b, LAST, len, free_place), 0x2000));
    check_strays(&b);
    board_free(&b);
}

/* Every refusal of a source with a datagram unfinished, whatever has come of it: a Single, a First, an empty Middle, a Middle past 72 bytes; and a
   Last past them. */
static void test_breaches(void)
{
    for (size_t held = 0; held <= 72; held++) {
        check_breach(held, MIDDLE, 0, 0x2040);
        for (size_t len = 0; len <= 8; len++) {
            check_breach(held, SINGLE, len, 0x2040);
            check_breach(held, FIRST, len, 0x2040);
            if (held + len > 72) {
                check_breach(held, MIDDLE, len, 0x2000);
                check_refused_last(held, len);
            }
        }
    }
}

/* A board on which 0x123 is being swallowed. */
static void board_swallowing(struct board *b)
{
    board_unfinished(b, 8);
    CHECK(is_refusal(step(b, FIRST, 8, swallowed_place(0x123, (uint16_t)(b->tick - 10))), 0x2040));
}

/* Middles of every length, empty ones too and far more than 72 bytes in all, renew the tick and do nothing else. A Last of any length frees the
   place, and what comes behind it is stray. */
static void test_swallowed_frames(void)
{
    for (size_t last = 0; last <= 8; last++) {
        struct board b;

        board_swallowing(&b);
        for (size_t i = 0; i < 90; i++) {
            CHECK(is_joined(step(&b, MIDDLE, i % 9, swallowed_place(0x123, b.tick))));
            /* Two at each tick, so that every second one changes nothing at all. */
            b.tick = (uint16_t)(b.tick + i % 2);
        }
        CHECK(is_joined(step(&b, LAST, last, free_place)));
        check_strays(&b);
        board_free(&b);
    }
}

/* A Single of any length is a datagram and frees the place, and a First of any length opens one in it: then the source is not being swallowed. */
static void test_swallowing_ends(void)
{
    for (size_t len = 0; len <= 8; len++) {
        struct bujorelm_result answer;
        struct board b;

        board_swallowing(&b);
        answer = step(&b, SINGLE, len, free_place);
        CHECK(len == 2 ? is_update_complete(answer) : is_answer(answer, BUJORELM_REJECTED, 0, 0, 0x1080, 0));
        check_strays(&b);
        board_free(&b);

        board_swallowing(&b);
        CHECK(is_joined(step(&b, FIRST, len, holding_place(0x123, b.tick, len))));
        CHECK(is_refusal(step(&b, FIRST, len, swallowed_place(0x123, b.tick)), 0x2040));
        CHECK(is_joined(step(&b, FIRST, len, holding_place(0x123, b.tick, len))));
        CHECK(is_refusal(step(&b, MIDDLE, 0, swallowed_place(0x123, b.tick)), 0x2040));
        CHECK(is_joined(step(&b, FIRST, len, holding_place(0x123, b.tick, len))));
        answer = step(&b, LAST, 0, free_place);
        CHECK(len == 2 ? is_update_complete(answer) : is_answer(answer, BUJORELM_REJECTED, 0, 0, 0x1080, 0));
        check_strays(&b);
        board_free(&b);
    }
}

/* The sources 1 to 8, each in its place, of which the first so many are being swallowed. */
static void board_full(struct board *b, size_t swallowed)
{
    board_demonstration(b);
    random_bytes(b->node.pool, sizeof b->node.pool);
    for (uint32_t source = 1; source <= 8; source++) {
        CHECK(is_joined(feed_hex(b, FIRST, source, "20")));
    }
    for (uint32_t source = 1; source <= swallowed; source++) {
        CHECK(is_refusal(feed_hex(b, MIDDLE, source, ""), 0x2040));
    }
    for (size_t i = 0; i < BUJORELM_PLACES; i++) {
        const uint16_t source = (uint16_t)(1 + i);

        CHECK(is_place(&b->node, i, i < swallowed ? swallowed_place(source, b->tick) : holding_place(source, b->tick, 1)));
    }
}

/* A ninth source gets no place while all eight are taken, however many of them by sources that are being swallowed: one of these frees its place by
   a Last or a Single, and for its own First there is always room. */
static void test_swallowed_places_are_taken(void)
{
    for (size_t swallowed = 0; swallowed <= 8; swallowed++) {
        struct bujorelm_node before;
        struct board b;

        board_full(&b, swallowed);
        before = b.node;
        CHECK(is_refusal(feed_hex(&b, FIRST, 9, "20"), 0x2020) && same_node(&b.node, &before));
        CHECK(is_refusal(feed_hex(&b, MIDDLE, 9, "A8"), 0x2040) && same_node(&b.node, &before));
        CHECK(is_refusal(feed_hex(&b, LAST, 9, "A8"), 0x2040) && same_node(&b.node, &before));
        CHECK(is_update_complete(feed_hex(&b, SINGLE, 9, "20A8")) && same_node(&b.node, &before));
        for (uint32_t source = 1; source <= swallowed; source++) {
            const bool by_last = source % 2 == 1;

            CHECK(by_last ? is_joined(feed_hex(&b, LAST, source, "A8")) : is_update_complete(feed_hex(&b, SINGLE, source, "20A8")));
            CHECK(is_place(&b.node, source - 1, free_place) && places_held(&b.node) == 7);
            CHECK(is_joined(feed_hex(&b, FIRST, 0x100 + source, "20")));
            CHECK(is_place(&b.node, source - 1, holding_place((uint16_t)(0x100 + source), b.tick, 1)));
            CHECK(is_refusal(feed_hex(&b, FIRST, source, "20"), 0x2020));
        }
        board_free(&b);
    }
}

/* With all eight places taken: the First opens a datagram in the very place that its source has, and its bytes alone go to the pool. */
static void test_reopening(void)
{
    for (size_t swallowed = 1; swallowed <= 8; swallowed++) {
        for (uint32_t source = 1; source <= swallowed; source++) {
            const size_t len = (swallowed + source) % 9;
            uint8_t data[8];
            struct bujorelm_node expected;
            struct board b;

            board_full(&b, swallowed);
            b.tick++;
            random_bytes(data, sizeof data);
            expected = b.node;
            expected.reception.places[source - 1] = holding_place((uint16_t)source, b.tick, len);
            memcpy(expected.pool + 72 * (source - 1), data, len);
            CHECK(is_joined(feed(&b, header_of(FIRST, 0x22B, source), data, len)) && same_node(&b.node, &expected));
            CHECK(is_refusal(feed_hex(&b, FIRST, 9, "20"), 0x2020) && same_node(&b.node, &expected));
            board_free(&b);
        }
    }
}

/* A place that says already what the frame makes of it keeps every byte: a Middle that is swallowed at the tick that the place has, where no length
   stands in it. At another tick, or over a length, it gets all bytes anew. */
static void check_unchanged_place(uint8_t byte)
{
    const uint8_t other = byte == 0xFF ? 9 : (uint8_t)~byte;
    const struct bujorelm_place odd = {.held = byte, .source = 0x123, .tick = 0x1234, .swallowing = other, .unused = 0x55};
    struct bujorelm_place *own;
    struct board b;

    board_swallowing(&b);
    for (size_t i = 0; i < BUJORELM_PLACES; i++) {
        b.node.reception.places[i].tick = 0x1234;
    }
    b.tick = 0x1234;
    own = &b.node.reception.places[OWN];
    *own = odd;
    for (size_t len = 0; len <= 8; len++) {
        CHECK(is_joined(step(&b, MIDDLE, len, odd)));
    }
    CHECK(is_joined(step(&b, LAST, 1, free_place)));
    *own = odd;
    own->len = byte;
    CHECK(is_joined(step(&b, MIDDLE, byte % 9, swallowed_place(0x123, 0x1234))));
    *own = odd;
    b.tick = (uint16_t)(0x1234 + byte);
    CHECK(is_joined(step(&b, MIDDLE, byte % 9, swallowed_place(0x123, b.tick))));
    board_free(&b);
}

static void test_unchanged_place(void)
{
    /* Written out, with what it has a tick later. */
    static const uint8_t stays[8] = {7, 0, 0x23, 0x01, 0x34, 0x12, 9, 0xEE};
    static const uint8_t anew[8] = {1, 0, 0x23, 0x01, 0x35, 0x12, 1, 0};
    struct board b;

    for (unsigned byte = 1; byte <= 0xFF; byte++) {
        check_unchanged_place((uint8_t)byte);
    }
    board_demonstration(&b);
    b.tick = 0x1234;
    memcpy(&b.node.reception.places[5], stays, 8);
    CHECK(is_joined(feed_hex(&b, MIDDLE, 0x123, "11")) && memcmp(&b.node.reception.places[5], stays, 8) == 0);
    b.tick = 0x1235;
    CHECK(is_joined(feed_hex(&b, MIDDLE, 0x123, "11")) && memcmp(&b.node.reception.places[5], anew, 8) == 0);
    board_free(&b);
}

/* Frames that are ignored change nothing of a source that is being swallowed, and do not end it. */
static void test_ignored_while_swallowing(void)
{
    static const uint8_t data[20] = {0x20, 0xA8};
    struct bujorelm_node before;
    struct board b;

    board_swallowing(&b);
    b.node.reception.places[OWN].held = 7;
    b.node.reception.places[OWN].unused = 0x55;
    before = b.node;
    for (uint32_t top = 0; top < 0x100; top++) {
        const bool is_datagram = top >= SINGLE && top <= LAST;
        /* To the board, or where that would not be ignored to another; and with too many bytes. */
        const uint32_t destination = is_datagram ? 0x22A : 0x22B;

        CHECK(is_answer(feed(&b, header_of(top, destination, 0x123), data, top % 9), BUJORELM_IGNORED, 0, 0, 0, 0));
        CHECK(is_answer(feed(&b, header_of(top, 0x22B, 0x123), data, 9 + top % 12), BUJORELM_IGNORED, 0, 0, 0, 0));
        CHECK(is_answer(feed(&b, header_of(top, 0x22B, 0x22B), data, 2), BUJORELM_IGNORED, 0, 0, 0, 0));
        CHECK(same_node(&b.node, &before));
    }
    CHECK(feed(&b, 0x19A28123u, (const uint8_t *)"\x02\x2B\x00", 3).kind == BUJORELM_IGNORED && same_node(&b.node, &before));
    CHECK(feed(&b, 0x19A48123u, (const uint8_t *)"\x02\x2B\x20\x40", 4).kind == BUJORELM_IGNORED && same_node(&b.node, &before));
    CHECK(is_joined(step(&b, LAST, 8, free_place)));
    board_free(&b);
}

/* The bytes of the places, all written out, from the First on to the Last behind a broken datagram, and behind one that is opened in the same
   place. */
static void test_swallowing_bytes(void)
{
    uint8_t expected[64] = {0};
    struct board b;

    board_demonstration(&b);
    b.tick = 0x1234;
    CHECK(is_joined(feed_hex(&b, FIRST, 0xABC, "2041")));
    memcpy(expected, "\x01\x02\xBC\x0A\x34\x12\x00\x00", 8);
    CHECK(memcmp(&b.node.reception, expected, 64) == 0);
    b.tick = 0x1256;
    CHECK(is_refusal(feed_hex(&b, SINGLE, 0xABC, "20A8"), 0x2040));
    memcpy(expected, "\x01\x00\xBC\x0A\x34\x12\x01\x00", 8);
    CHECK(memcmp(&b.node.reception, expected, 64) == 0);
    b.tick = 0x1278;
    CHECK(is_joined(feed_hex(&b, MIDDLE, 0xABC, "0102030405060708")));
    memcpy(expected, "\x01\x00\xBC\x0A\x78\x12\x01\x00", 8);
    CHECK(memcmp(&b.node.reception, expected, 64) == 0);
    /* Another tool's frame changes its own place alone. */
    CHECK(is_joined(feed_hex(&b, FIRST, 0x001, "20")));
    memcpy(expected + 8, "\x01\x01\x01\x00\x78\x12\x00\x00", 8);
    b.tick = 0x129A;
    CHECK(is_joined(feed_hex(&b, FIRST, 0xABC, "204100")));
    memcpy(expected, "\x01\x03\xBC\x0A\x9A\x12\x00\x00", 8);
    CHECK(memcmp(&b.node.reception, expected, 64) == 0);
    CHECK(is_refusal(feed_hex(&b, MIDDLE, 0xABC, ""), 0x2040));
    memcpy(expected, "\x01\x00\xBC\x0A\x9A\x12\x01\x00", 8);
    CHECK(memcmp(&b.node.reception, expected, 64) == 0);
    CHECK(is_joined(feed_hex(&b, LAST, 0xABC, "")));
    memset(expected, 0, 8);
    CHECK(memcmp(&b.node.reception, expected, 64) == 0);
    board_free(&b);
}

/* ---- The age of what is swallowed ---- */

/* When the frames came that leave 0x123 to be swallowed: a First, a First that is refused, and a Middle that is swallowed, or none. */
struct broken {
    uint16_t begun;
    uint16_t refused;
    bool has_middle;
    uint16_t middle;
};

static uint16_t last_accepted(const struct broken *c)
{
    return c->has_middle ? c->middle : c->begun;
}

static void play_broken(struct board *b, const struct broken *c)
{
    memset(&b->node.reception, 0, sizeof b->node.reception);
    b->tick = c->begun;
    CHECK(is_joined(call_frame(b, header_of(FIRST, 0x22B, 0x123), (const uint8_t *)"\x20", 1)));
    b->tick = c->refused;
    CHECK(is_refusal(call_frame(b, header_of(FIRST, 0x22B, 0x123), (const uint8_t *)"\x20", 1), 0x2040));
    CHECK(is_place(&b->node, 0, swallowed_place(0x123, c->begun)));
    if (c->has_middle) {
        b->tick = c->middle;
        CHECK(is_joined(call_frame(b, header_of(MIDDLE, 0x22B, 0x123), (const uint8_t *)"\x20", 1)));
        CHECK(is_place(&b->node, 0, swallowed_place(0x123, c->middle)));
    }
}

/* What has become of the place so many ticks after the last accepted frame: it is as it was, or all zero. */
static void check_swallowed_age(struct board *b, const struct broken *c, unsigned age, enum way way)
{
    struct bujorelm_node before;
    char word[96];

    snprintf(word, sizeof word, "First %u, refused %u, Middle %u, %u ticks later, way %d", c->begun, c->refused, c->middle, age, (int)way);
    play_broken(b, c);
    before = b->node;
    b->tick = (uint16_t)((last_accepted(c) + age) % 65536);
    bring_tick(b, way, 0x123);
    if (age > 3000) {
        before.reception.places[0] = free_place;
    }
    CHECK_CASE(same_node(&b->node, &before), word);
}

/* From the last accepted frame exactly 3,000 ticks stay and 3,001 do not, in every way in which a tick may come and across 65,535: a refused frame
   has not renewed it, and a swallowed Middle has. */
static void test_swallowed_ages(void)
{
    static const uint16_t begun[] = {0, 1, 32768, 60000, 62535, 62536, 62537, 64000, 65534, 65535};
    static const uint16_t refused[] = {0, 1, 2999, 3000};
    static const unsigned ages[] = {0, 1, 2999, 3000, 3001, 3002, 6000, 32768, 61999, 65535};
    struct board b;

    board_demonstration(&b);
    for (size_t n = 0; n < WAYS * (sizeof begun / sizeof begun[0]) * (sizeof refused / sizeof refused[0]); n++) {
        const enum way way = (enum way)(n % WAYS);
        const uint16_t first = begun[n / WAYS % (sizeof begun / sizeof begun[0])];
        const uint16_t later = refused[n / WAYS / (sizeof begun / sizeof begun[0])];
        const uint16_t second = (uint16_t)((first + later) % 65536);
        const struct broken without = {.begun = first, .refused = second};
        /* The Middle as late as it may be. */
        const struct broken with = {.begun = first, .refused = second, .has_middle = true, .middle = (uint16_t)((first + 3000) % 65536)};

        for (size_t i = 0; i < sizeof ages / sizeof ages[0]; i++) {
            if (ages[i] >= later) {
                check_swallowed_age(&b, &without, ages[i], way);
            }
            check_swallowed_age(&b, &with, ages[i], way);
        }
    }
    board_free(&b);
}

/* Every age, or each so many; and the last age that stays and the first that does not, from every tick on. */
static void test_every_swallowed_age(unsigned step)
{
    const struct broken some = {.begun = 40000, .refused = 40000};
    struct board b;

    board_demonstration(&b);
    for (unsigned age = 0; age <= 65535; age += step) {
        check_swallowed_age(&b, &some, age, LONE_TICK);
        check_swallowed_age(&b, &some, age, NO_DATAGRAM_FRAME);
    }
    for (unsigned tick = 0; tick <= 65535; tick += step) {
        const uint16_t later = (uint16_t)((tick + 2000) % 65536);
        const struct broken without = {.begun = (uint16_t)tick, .refused = later};
        const struct broken with = {.begun = (uint16_t)tick, .refused = later, .has_middle = true, .middle = later};

        check_swallowed_age(&b, &without, 3000, LONE_TICK);
        check_swallowed_age(&b, &without, 3001, NO_DATAGRAM_FRAME);
        check_swallowed_age(&b, &with, 3000, NO_DATAGRAM_FRAME);
        check_swallowed_age(&b, &with, 3001, LONE_TICK);
    }
    board_free(&b);
}

/* A board on which 0x123 is being swallowed in the third place, the two before that free, since so many ticks. The frame that was refused came as
   late as it could. */
static void board_long_swallowing(struct board *b, uint16_t age)
{
    board_demonstration(b);
    CHECK(is_joined(feed_hex(b, FIRST, 1, "20")) && is_joined(feed_hex(b, FIRST, 2, "20")) && is_joined(feed_hex(b, FIRST, 0x123, "20")));
    CHECK(is_update_complete(feed_hex(b, LAST, 1, "A8")) && is_update_complete(feed_hex(b, LAST, 2, "A8")));
    b->tick = (uint16_t)(b->tick + 3000);
    CHECK(is_refusal(feed_hex(b, FIRST, 0x123, "20"), 0x2040));
    CHECK(is_place(&b->node, OWN, swallowed_place(0x123, (uint16_t)(b->tick - 3000))) && places_held(&b->node) == 1);
    b->tick = (uint16_t)(b->tick - 3000 + age);
}

/* What becomes of the next frame of a source whose last accepted frame is 3,000 ticks back, and where its place is freed before the frame is looked
   at: then a Middle or Last is stray, and a First opens the first place that is free. */
static void test_next_swallowed_frame(void)
{
    for (int late = 0; late < 2; late++) {
        const uint16_t age = late ? 3001 : 3000;
        struct board b;

        board_long_swallowing(&b, age);
        CHECK(late ? is_refusal(feed_hex(&b, MIDDLE, 0x123, "A8"), 0x2040) : is_joined(feed_hex(&b, MIDDLE, 0x123, "A8")));
        CHECK(is_place(&b.node, OWN, late ? free_place : swallowed_place(0x123, b.tick)) && places_held(&b.node) == (late ? 0 : 1));
        board_free(&b);

        board_long_swallowing(&b, age);
        CHECK(late ? is_refusal(feed_hex(&b, MIDDLE, 0x123, ""), 0x2040) : is_joined(feed_hex(&b, MIDDLE, 0x123, "")));
        CHECK(is_place(&b.node, OWN, late ? free_place : swallowed_place(0x123, b.tick)) && places_held(&b.node) == (late ? 0 : 1));
        board_free(&b);

        board_long_swallowing(&b, age);
        CHECK(late ? is_refusal(feed_hex(&b, LAST, 0x123, "A8"), 0x2040) : is_joined(feed_hex(&b, LAST, 0x123, "A8")));
        CHECK(is_zero(&b.node.reception, sizeof b.node.reception));
        board_free(&b);

        board_long_swallowing(&b, age);
        CHECK(is_update_complete(feed_hex(&b, SINGLE, 0x123, "20A8")) && is_zero(&b.node.reception, sizeof b.node.reception));
        board_free(&b);

        board_long_swallowing(&b, age);
        CHECK(is_joined(feed_hex(&b, FIRST, 0x123, "20")) && places_held(&b.node) == 1);
        CHECK(is_place(&b.node, late ? 0 : OWN, holding_place(0x123, b.tick, 1)));
        CHECK(is_update_complete(feed_hex(&b, LAST, 0x123, "A8")) && nothing_unfinished(&b.node));
        board_free(&b);
    }
}

/* Each Middle that is swallowed renews the tick, 3,000 ticks behind the one before it, and round 65,536 more than once. */
static void test_swallowed_renewal(void)
{
    struct board b;

    board_long_swallowing(&b, 3000);
    for (size_t i = 0; i < 60; i++) {
        CHECK(is_joined(feed_hex(&b, MIDDLE, 0x123, i % 2 == 0 ? "" : "0102030405060708")));
        CHECK(is_place(&b.node, OWN, swallowed_place(0x123, b.tick)) && places_held(&b.node) == 1);
        b.tick = (uint16_t)(b.tick + 3000);
    }
    CHECK(is_joined(call_tick(&b)) && places_held(&b.node) == 1);
    b.tick++;
    CHECK(is_refusal(feed_hex(&b, MIDDLE, 0x123, ""), 0x2040) && nothing_unfinished(&b.node));
    board_free(&b);
}

/* Eight tools that are being swallowed and leave: a ninth is locked out until the first of them is too old, and no longer. */
static void test_abandoned_while_swallowing(void)
{
    for (uint16_t age = 3000; age <= 3001; age++) {
        struct board b;

        board_full(&b, 8);
        b.tick = (uint16_t)(b.tick + age);
        CHECK(age == 3000 ? is_refusal(feed_hex(&b, FIRST, 9, "20"), 0x2020) : is_joined(feed_hex(&b, FIRST, 9, "20")));
        CHECK(places_held(&b.node) == (age == 3000 ? 8 : 1));
        board_free(&b);

        board_full(&b, 8);
        b.tick = (uint16_t)(b.tick + age);
        CHECK(is_joined(call_tick(&b)) && places_held(&b.node) == (age == 3000 ? 8 : 0));
        board_free(&b);
    }
}

/* ---- One rejection for one broken datagram ---- */

/* How many of these frames are refused. What is answered to the last of them is stored. */
static size_t refusals_of(struct board *b, const struct bujorelm_frame *frames, size_t count, struct bujorelm_result *last)
{
    size_t refusals = 0;

    for (size_t i = 0; i < count; i++) {
        *last = feed(b, frames[i].header, frames[i].bytes, frames[i].len);
        CHECK(last->kind == BUJORELM_TRANSPORT_REFUSAL || is_joined(*last) || i + 1 == count);
        refusals += last->kind == BUJORELM_TRANSPORT_REFUSAL;
    }
    return refusals;
}

/* A tool whose Last is lost sends its write once more from the beginning: that is rejected once, at the First, and the rest of it swallowed. Then it
   is sent for the third time, and done. */
static void test_lost_last(void)
{
    struct bujorelm_frame frames[BUJORELM_SENT_MAX];
    uint8_t datagram[BUJORELM_DATAGRAM_MAX];

    for (size_t len = 2; len <= 48; len++) {
        const size_t sent = make_write(datagram, false, 0xFE, 0, len);
        const size_t count = bujorelm_cut(datagram, sent, 0x123, 0x22B, frames);
        struct bujorelm_result last;
        struct board b;

        board_demonstration(&b);
        CHECK(count > 1 && refusals_of(&b, frames, count - 1, &last) == 0);
        CHECK(refusals_of(&b, frames, 1, &last) == 1 && is_refusal(last, 0x2040));
        CHECK(refusals_of(&b, frames + 1, count - 1, &last) == 0 && is_joined(last) && nothing_unfinished(&b.node));
        CHECK(is_zero(b.memory.bytes, b.memory.len));
        CHECK(refusals_of(&b, frames, count, &last) == 0 && is_written(last, 0, len));
        CHECK(memcmp(b.memory.bytes, datagram + 7, len) == 0 && nothing_unfinished(&b.node));
        board_free(&b);
    }
}

/* A datagram that is too long is rejected once, however long it is: at the Middle that takes it past 72 bytes, or at the Last. */
static void test_too_long(void)
{
    for (size_t len = 73; len <= 200; len++) {
        const size_t count = (len + 7) / 8;
        size_t refusals = 0;
        struct board b;

        board_demonstration(&b);
        for (size_t i = 0; i < count; i++) {
            static const uint8_t data[8] = {0x20};
            const uint32_t top = i == 0 ? FIRST : i + 1 == count ? LAST : MIDDLE;
            const struct bujorelm_result answer = feed(&b, header_of(top, 0x22B, 0x123), data, i + 1 == count ? len - 8 * i : 8);

            refusals += !is_joined(answer);
            CHECK(is_joined(answer) || (i == 9 && is_refusal(answer, 0x2000)));
        }
        CHECK(refusals == 1 && nothing_unfinished(&b.node) && is_update_complete(feed_hex(&b, SINGLE, 0x123, "20A8")));
        board_free(&b);
    }
}

/* Two tools whose frames come by turns: the one is being swallowed while the other's datagram is joined and done, and then the other way round; and
   both at once. */
static void test_two_tools_swallowed(void)
{
    struct board b;

    board_demonstration(&b);
    CHECK(is_joined(feed_hex(&b, FIRST, 0x123, "2001000000000102")));
    CHECK(is_joined(feed_hex(&b, FIRST, 0x456, "200100000008A1A2")));
    CHECK(is_refusal(feed_hex(&b, FIRST, 0x123, "2001000000000102"), 0x2040));
    CHECK(is_joined(feed_hex(&b, MIDDLE, 0x456, "A3")));
    CHECK(is_joined(feed_hex(&b, MIDDLE, 0x123, "03")));
    CHECK(is_written(feed_hex(&b, LAST, 0x456, "A4"), 8, 4));
    CHECK(is_place(&b.node, 0, swallowed_place(0x123, b.tick)) && places_held(&b.node) == 1);
    /* The other tool again, in the place that it has freed. */
    CHECK(is_joined(feed_hex(&b, FIRST, 0x456, "200100000010B1B2")));
    CHECK(is_joined(feed_hex(&b, LAST, 0x123, "04")));
    CHECK(is_refusal(feed_hex(&b, SINGLE, 0x456, "20A8"), 0x2040));
    CHECK(is_joined(feed_hex(&b, FIRST, 0x123, "2001000000000102")));
    CHECK(is_joined(feed_hex(&b, MIDDLE, 0x456, "B3")));
    CHECK(is_written(feed_hex(&b, LAST, 0x123, "0304"), 0, 4));
    CHECK(is_joined(feed_hex(&b, LAST, 0x456, "B4")) && nothing_unfinished(&b.node));
    CHECK(memcmp(b.memory.bytes, "\1\2\3\4\0\0\0\0\xA1\xA2\xA3\xA4\0\0\0\0\0\0\0\0", 20) == 0);
    /* Both are being swallowed; the one's Last does not free the other's place. */
    CHECK(is_joined(feed_hex(&b, FIRST, 0x123, "20")) && is_joined(feed_hex(&b, FIRST, 0x456, "20")));
    CHECK(is_refusal(feed_hex(&b, MIDDLE, 0x456, ""), 0x2040) && is_refusal(feed_hex(&b, MIDDLE, 0x123, ""), 0x2040));
    CHECK(is_joined(feed_hex(&b, LAST, 0x456, "A8")));
    CHECK(is_place(&b.node, 0, swallowed_place(0x123, b.tick)) && is_place(&b.node, 1, free_place));
    CHECK(is_refusal(feed_hex(&b, LAST, 0x456, "A8"), 0x2040) && is_joined(feed_hex(&b, LAST, 0x123, "A8")));
    CHECK(nothing_unfinished(&b.node));
    board_free(&b);
}

/* ---- Cutting and transport replies ---- */

static void test_cutting(void)
{
    struct bujorelm_frame frames[BUJORELM_SENT_MAX];
    const uint8_t *const bytes = (const uint8_t *)frames;

    for (size_t len = 0; len <= 80; len++) {
        struct guarded datagram = guarded_new(len, false);
        size_t count;

        for (size_t i = 0; i < len; i++) {
            datagram.bytes[i] = (uint8_t)(i + 1);
        }
        memset(frames, UNTOUCHED, sizeof frames);
        count = bujorelm_cut(datagram.bytes, len, 0x22B, 0x123, frames);
        CHECK(count == (len > 72 ? 0 : len == 0 ? 1 : (len + 7) / 8));
        for (size_t i = 0; i < count; i++) {
            const struct bujorelm_frame *const f = &frames[i];
            const uint32_t top = len <= 8 ? SINGLE : i == 0 ? FIRST : i + 1 == count ? LAST : MIDDLE;
            const size_t data = len - 8 * i < 8 ? len - 8 * i : 8;
            uint8_t expected[8] = {0};

            memcpy(expected, datagram.bytes + 8 * i, data);
            CHECK(f->header == header_of(top, 0x123, 0x22B) && f->len == data && memcmp(f->bytes, expected, 8) == 0);
        }
        /* Where B9 refuses it, that is all of them. */
        CHECK(is_untouched(bytes, 16 * count, sizeof frames));
        guarded_free(&datagram);
    }
    /* B9: an alias over 4,095. Zero is none of its business. */
    CHECK(bujorelm_cut((const uint8_t *)"x", 1, 4095, 4095, frames) == 1);
    CHECK(bujorelm_cut((const uint8_t *)"x", 1, 0, 0, frames) == 1);
    memset(frames, UNTOUCHED, sizeof frames);
    CHECK(bujorelm_cut((const uint8_t *)"x", 1, 4096, 1, frames) == 0);
    CHECK(bujorelm_cut((const uint8_t *)"x", 1, 1, 4096, frames) == 0);
    CHECK(bujorelm_cut((const uint8_t *)"x", 1, 0xFFFF, 0xFFFF, frames) == 0);
    CHECK(is_untouched(bytes, 0, sizeof frames));
}

static void test_transport_replies(void)
{
    struct bujorelm_frame f[BUJORELM_SENT_MAX];
    const uint8_t *const bytes = (const uint8_t *)f;

    memset(f, UNTOUCHED, sizeof f);
    CHECK(bujorelm_received_ok(0x22B, 0xF23, 0x80, f) == 1 && f[0].header == 0x19A2822Bu && f[0].len == 3);
    CHECK(memcmp(f[0].bytes, "\x0F\x23\x80\0\0\0\0", 8) == 0 && is_untouched(bytes, 16, sizeof f));
    memset(f, UNTOUCHED, sizeof f);
    CHECK(bujorelm_rejected(0x22B, 0xF23, 0x2040, f) == 1 && f[0].header == 0x19A4822Bu && f[0].len == 4);
    CHECK(memcmp(f[0].bytes, "\x0F\x23\x20\x40\0\0\0", 8) == 0 && is_untouched(bytes, 16, sizeof f));
    CHECK(bujorelm_received_ok(4095, 4095, 0, f) == 1 && f[0].header == 0x19A28FFFu);
    CHECK(bujorelm_rejected(0, 0, 0, f) == 1 && f[0].header == 0x19A48000u);
    memset(f, UNTOUCHED, sizeof f);
    CHECK(bujorelm_received_ok(4096, 1, 0, f) == 0 && bujorelm_received_ok(1, 4096, 0, f) == 0);
    CHECK(bujorelm_rejected(4096, 1, 0x1080, f) == 0 && bujorelm_rejected(1, 4096, 0x1080, f) == 0);
    CHECK(bujorelm_rejected(0xFFFF, 0xFFFF, 0x1080, f) == 0);
    CHECK(is_untouched(bytes, 0, sizeof f));
}

/* ---- GridConnect ---- */

static void test_lines(void)
{
    static const char *const bad[] = {
        "",
        ";",
        ":",
        "?",
        ":X1A22B123N",
        ":X1A22B123N2;",
        ":X1A22B123N20",
        ":X1A22B123N20; ",
        " :X1A22B123N20;",
        ":X1A22B123N20;\r",
        ":X1a22B123N20;",
        ":X1A22B123N2a;",
        ":x1A22B123N20;",
        ":X1A22B123n20;",
        ":S1A22B123N20;",
        ":X1A22B12N20;",
        ":X01A22B123N20;",
        ":X1A22B123R20;",
        ":X1A22B123N2G;",
        ":X1A22B123N 20;",
        ":X1A22B123N001122334455667788;",
        ":X1A22B123N20;:X1A22B123N20;",
        ":X1A22B12/N20;",
        ":X1A22B12:N20;",
        ":X1A22B12@N20;",
    };
    struct bujorelm_frame frame = {.header = 0x1234ABCDu, .len = 0, .bytes = {0x00, 0x9F, 0xA0, 0xFF, 0x10, 0x01, 0xEE, 0x7B}};
    static const char digits[] = "009FA0FF1001EE7B";

    for (size_t i = 0; i < sizeof bad / sizeof bad[0]; i++) {
        const size_t len = strlen(bad[i]);
        struct guarded line = guarded_new(len, false);
        struct bujorelm_parsed p;

        memcpy(line.bytes, bad[i], len);
        p = parse_line(line.bytes, len);
        CHECK_CASE(!p.good && p.frame.header == 0 && p.frame.len == 0, bad[i]);
        guarded_free(&line);
    }

    for (uint32_t len = 0; len <= 8; len++) {
        char expected[32];
        const size_t printed = 13 + 2 * (size_t)len;
        struct bujorelm_parsed p;

        frame.len = len;
        snprintf(expected, sizeof expected, ":X1234ABCDN%.*s;\n", 2 * (int)len, digits);
        /* It fits to the byte, with bytes before it left alone. */
        for (size_t at = 0; at < 3; at++) {
            struct guarded out = guarded_new(at + printed, false);

            memset(out.bytes, UNTOUCHED, out.len);
            CHECK_CASE(print_frame(frame, out.bytes, out.len, at) == at + printed, expected);
            CHECK_CASE(is_untouched(out.bytes, 0, at) && memcmp(out.bytes + at, expected, printed) == 0, expected);
            /* A byte short, it is not printed. */
            memset(out.bytes, UNTOUCHED, out.len);
            CHECK_CASE(print_frame(frame, out.bytes, out.len, at + 1) == at + 1, expected);
            CHECK_CASE(print_frame(frame, out.bytes, out.len - 1, at) == at, expected);
            CHECK_CASE(print_frame(frame, out.bytes, out.len, out.len) == out.len, expected);
            CHECK_CASE(print_frame(frame, out.bytes, out.len, out.len + 1) == out.len + 1, expected);
            CHECK_CASE(print_frame(frame, out.bytes, out.len, SIZE_MAX) == SIZE_MAX, expected);
            CHECK_CASE(is_untouched(out.bytes, 0, out.len), expected);
            guarded_free(&out);
        }
        /* And is read back, without its newline. */
        p = parse_line((const uint8_t *)expected, printed - 1);
        CHECK_CASE(p.good && p.frame.header == frame.header && p.frame.len == len, expected);
        CHECK_CASE(memcmp(p.frame.bytes, frame.bytes, len) == 0, expected);
        CHECK_CASE(!parse_line((const uint8_t *)expected, printed).good, expected);
    }
    /* Frames that have no line. */
    for (uint32_t len = 9; len <= 600; len++) {
        uint8_t out[64];

        memset(out, UNTOUCHED, sizeof out);
        frame.len = len;
        CHECK(print_frame(frame, out, sizeof out, 5) == 5 && is_untouched(out, 0, sizeof out));
        /* Lengths whose low bits alone would do. */
        frame.len = len << 16;
        CHECK(print_frame(frame, out, sizeof out, 5) == 5 && is_untouched(out, 0, sizeof out));
        frame.len = UINT32_MAX - len;
        CHECK(print_frame(frame, out, sizeof out, 5) == 5 && is_untouched(out, 0, sizeof out));
    }
    /* Every header of eight digits is read. */
    CHECK(parse_line((const uint8_t *)":XFFFFFFFFN;", 12).frame.header == 0xFFFFFFFFu);
}

/* A frame's line is the one that printf prints, and stands for the frame. */
static void check_digits(const struct bujorelm_frame *frame)
{
    char expected[32];
    uint8_t out[32];
    struct bujorelm_parsed p;
    int len = snprintf(expected, sizeof expected, ":X%08lXN", (unsigned long)frame->header);

    for (uint32_t i = 0; i < frame->len; i++) {
        len += snprintf(expected + len, sizeof expected - (size_t)len, "%02X", frame->bytes[i]);
    }
    len += snprintf(expected + len, sizeof expected - (size_t)len, ";\n");
    CHECK_CASE(print_frame(*frame, out, sizeof out, 0) == (size_t)len && memcmp(out, expected, (size_t)len) == 0, expected);
    p = parse_line(out, (size_t)len - 1);
    CHECK_CASE(p.good && p.frame.header == frame->header && p.frame.len == frame->len, expected);
    CHECK_CASE(memcmp(p.frame.bytes, frame->bytes, frame->len) == 0, expected);
}

/* Every digit at every place, of headers and of data bytes. */
static void test_digits(void)
{
    static const char digits[] = "0123456789ABCDEF";
    const char line[] = ":X1A22B123N2001000000FFABCD;";
    struct bujorelm_frame frame = {.header = 0, .len = 0, .bytes = {0}};

    for (unsigned shift = 0; shift <= 24; shift += 4) {
        for (uint32_t pair = 0; pair <= 0xFF; pair++) {
            frame.header = pair << shift;
            check_digits(&frame);
            frame.header = ~frame.header;
            check_digits(&frame);
        }
    }
    for (frame.len = 1; frame.len <= 8; frame.len++) {
        for (uint32_t at = 0; at < frame.len; at++) {
            for (unsigned byte = 0; byte <= 0xFF; byte++) {
                memset(frame.bytes, 0x5A, sizeof frame.bytes);
                frame.bytes[at] = (uint8_t)byte;
                check_digits(&frame);
            }
        }
    }
    /* Any other byte in the place of a digit is none. */
    for (size_t at = 2; at < sizeof line - 2; at++) {
        for (unsigned byte = 0; at != 10 && byte <= 0xFF; byte++) {
            uint8_t text[sizeof line - 1];

            memcpy(text, line, sizeof text);
            text[at] = (uint8_t)byte;
            CHECK(parse_line(text, sizeof text).good == (byte != 0 && strchr(digits, (int)byte) != NULL));
        }
    }
}

/* ---- The line splitter ---- */

static bool same_parsed(const struct bujorelm_parsed *a, const struct bujorelm_parsed *b)
{
    return a->good == b->good && memcmp(&a->frame, &b->frame, sizeof a->frame) == 0;
}

/* The lines of an input, found here: what stands before each newline, and what is left behind the last of them. */
struct lines {
    struct bujorelm_parsed parsed[64];
    size_t count;
};

static void lines_add(struct lines *lines, struct bujorelm_parsed parsed)
{
    if (lines->count == sizeof lines->parsed / sizeof lines->parsed[0]) {
        fputs("too many lines\n", stderr);
        exit(EXIT_FAILURE);
    }
    lines->parsed[lines->count++] = parsed;
}

static struct lines lines_of(const uint8_t *text, size_t len)
{
    struct lines lines = {.count = 0};
    size_t begun = 0;

    for (size_t i = 0; i < len; i++) {
        if (text[i] == '\n') {
            lines_add(&lines, parse_line(text + begun, i - begun));
            begun = i + 1;
        }
    }
    if (begun != len) {
        lines_add(&lines, parse_line(text + begun, len - begun));
    }
    return lines;
}

static bool same_lines(const struct lines *a, const struct lines *b)
{
    for (size_t i = 0; i < a->count && i < b->count; i++) {
        if (!same_parsed(&a->parsed[i], &b->parsed[i])) {
            return false;
        }
    }
    return a->count == b->count;
}

/* Reads a chunk, which ends at a guard, and checks each step by itself. */
static void split_chunk(struct lines *lines, struct bujorelm_carry *carry, const struct guarded *room, const uint8_t *text, size_t len)
{
    const uint8_t *const chunk = memcpy(room->bytes + room->len - len, text, len);
    size_t at = 0;

    while (at < len) {
        const struct line_step step = next_line(chunk, len, at, *carry);
        const uint8_t *const newline = memchr(chunk + at, '\n', len - at);

        CHECK(step.line.complete == (newline != NULL));
        CHECK(step.at == (newline == NULL ? len : (size_t)(newline - chunk) + 1));
        if (step.line.complete) {
            CHECK(is_zero(&step.carry, sizeof step.carry));
            lines_add(lines, step.line.parsed);
        } else {
            CHECK(!step.line.parsed.good && is_zero(&step.line.parsed.frame, sizeof step.line.parsed.frame));
        }
        if (step.at <= at) {
            CHECK(step.at > at);
            return;
        }
        *carry = step.carry;
        at = step.at;
    }
}

/* An input in up to three chunks. */
static struct lines split(const struct guarded *room, const uint8_t *text, size_t first, size_t second, size_t len)
{
    struct lines lines = {.count = 0};
    struct bujorelm_carry carry;
    struct line_step last;

    memset(&carry, 0, sizeof carry);
    split_chunk(&lines, &carry, room, text, first);
    split_chunk(&lines, &carry, room, text + first, second - first);
    split_chunk(&lines, &carry, room, text + second, len - second);
    last = last_line(carry);
    CHECK(is_zero(&last.carry, sizeof last.carry));
    if (last.line.complete) {
        lines_add(&lines, last.line.parsed);
    } else {
        CHECK(!last.line.parsed.good && is_zero(&last.line.parsed.frame, sizeof last.line.parsed.frame));
    }
    return lines;
}

/* How an input is cut into chunks plays no part: every cut in two and in three. */
static void test_cuts(void)
{
    static const char *const texts[] = {
        "",
        "\n",
        "\n\n:",
        ":X1A22B123N200100000002ABCD;\n:X1A22B456N20410000000202;\n\n:X1D22B123N5A;",
        ":X1A22B123N0011223344556677;\n:X1A22B123N0011223344556677;;\n:X1A22B123N0011223344556677; \n:X1A22B123N;\r\n:XFFFFFFFFN;",
        "xxxxxxxxxxxxxxxxxxxxxxxxxxxxxxxxxxxxxxxxxxxxxxxxxxxxxxxxxxxxxxxxxxxxxx:X1A22B123N20;\n:X1A22B123N20;\n:X1A22B123N20;\n?",
        ":X1A22B123N0011223344556677;:X1A22B123N0011223344556677;\n:x\n\n\n:X00000000N00;\n",
    };

    for (size_t i = 0; i < sizeof texts / sizeof texts[0]; i++) {
        const uint8_t *const text = (const uint8_t *)texts[i];
        const size_t len = strlen(texts[i]);
        const struct lines expected = lines_of(text, len);
        struct guarded room = guarded_new(len, false);

        for (size_t first = 0; first <= len; first++) {
            for (size_t second = first; second <= len; second++) {
                const struct lines lines = split(&room, text, first, second, len);

                CHECK_CASE(same_lines(&lines, &expected), texts[i]);
            }
        }
        guarded_free(&room);
    }
}

/* A carry of any bytes is the beginning of a line; with a `len` over 29 it is one of 29 bytes, which is too long to be good. */
static void test_carries(void)
{
    static const char line_text[] = ":X1A22B123N0011223344556677;";
    uint8_t chunk[64];
    const size_t froms[] = {0, 1, 5, 12, 28, 29, 30, 31, SIZE_MAX / 2, SIZE_MAX - 1, SIZE_MAX};

    for (unsigned turn = 0; turn < 4 * 256; turn++) {
        struct bujorelm_carry carry;
        struct line_step step;
        const size_t len = turn % 256;
        const size_t begun = len < 29 ? len : 29;

        random_bytes(carry.text, sizeof carry.text);
        random_bytes(carry.unused, sizeof carry.unused);
        if (turn >= 256) {
            /* Text that would be good if its length were another. */
            memcpy(carry.text, line_text, 28);
        }
        carry.len = (uint8_t)len;
        memset(chunk, 'x', sizeof chunk);
        memcpy(chunk, line_text + (begun < 28 ? begun : 0), begun < 28 ? 28 - begun : 0);
        chunk[30] = '\n';
        if (turn >= 512 && begun <= 28) {
            /* The rest of the line, so that it is good for a `len` up to 28. */
            chunk[28 - begun] = '\n';
        }
        for (size_t i = 0; i < sizeof froms / sizeof froms[0]; i++) {
            const size_t from = froms[i] < 31 ? froms[i] : 31;
            uint8_t joined[29 + 64];
            size_t end = from;
            struct bujorelm_parsed expected;

            while (end < 31 && chunk[end] != '\n') {
                end++;
            }
            memcpy(joined, carry.text, begun);
            memcpy(joined + begun, chunk + from, end - from);
            expected = parse_line(joined, begun + end - from);
            step = next_line(chunk, 31, froms[i], carry);
            CHECK(step.line.complete == (end < 31) && step.at == (end < 31 ? end + 1 : 31));
            if (step.line.complete) {
                CHECK(same_parsed(&step.line.parsed, &expected) && is_zero(&step.carry, sizeof step.carry));
            } else {
                CHECK(!step.line.parsed.good && step.carry.len == begun && memcmp(step.carry.text, carry.text, begun) == 0);
            }
        }
        step = last_line(carry);
        CHECK(step.line.complete == (len != 0) && is_zero(&step.carry, sizeof step.carry));
        if (step.line.complete) {
            const struct bujorelm_parsed expected = parse_line(carry.text, begun);

            CHECK(same_parsed(&step.line.parsed, &expected));
        }
    }
}

/* Lines and steps as bytes: where each of their parts lies, as the library has it. */
static void test_line_bytes(void)
{
    static const char text[] = ":X1234ABCDN0102;\n:X5";
    static const uint8_t line[24] = {1, 0, 0, 0, 1, 0, 0, 0, 0xCD, 0xAB, 0x34, 0x12, 2, 0, 0, 0, 1, 2};
    struct bujorelm_carry *const carry = room_for(32);
    struct bujorelm_line *const found = room_for(24);
    struct bujorelm_parsed *const parsed = room_for(20);

    memset(carry, 0, 32);
    CHECK(bujorelm_next_line((const uint8_t *)text, sizeof text - 1, 0, carry, found) == 17);
    CHECK(memcmp(found, line, 24) == 0 && is_zero(carry, 32));
    CHECK(bujorelm_next_line((const uint8_t *)text, sizeof text - 1, 17, carry, found) == 20);
    CHECK(is_zero(found, 24) && memcmp(carry, "\003:X5", 4) == 0 && is_zero((const uint8_t *)carry + 4, 28));
    memset(found, UNTOUCHED, 24);
    bujorelm_last_line(carry, found);
    CHECK(((const uint8_t *)found)[0] == 1 && is_zero((const uint8_t *)found + 1, 23) && is_zero(carry, 32));
    memset(found, UNTOUCHED, 24);
    bujorelm_last_line(carry, found);
    CHECK(is_zero(found, 24) && is_zero(carry, 32));
    /* A line by itself is what stands behind the first four bytes of that. */
    bujorelm_parse_line((const uint8_t *)text, 16, parsed);
    CHECK(memcmp(parsed, line + 4, 20) == 0);
    bujorelm_parse_line((const uint8_t *)text, 15, parsed);
    CHECK(is_zero(parsed, 20));
}

/* ---- The inline functions ---- */

struct frame_sink {
    struct bujorelm_frame frames[16];
    size_t count;
    size_t room;
};

static bool keep_frame(void *context, const struct bujorelm_frame *frame)
{
    struct frame_sink *const sink = context;

    if (sink->count == sink->room) {
        return false;
    }
    sink->frames[sink->count++] = *frame;
    return true;
}

static void test_inline_functions(void)
{
    static const uint8_t read_40[] = {0x20, 0x42, 0, 0, 0, 0, 0x30};
    struct board b;
    struct frame_sink sink = {.count = 0, .room = 16};
    struct bujorelm_result answer;

    board_demonstration(&b);
    CHECK(bujorelm_source_of(0x1A22B123u) == 0x123 && bujorelm_source_of(0xFFFFFFFFu) == 0xFFF);

    /* A reply of 54 bytes: the transport reply, and a First, five Middles and a Last. */
    CHECK(bujorelm_node_receive(&b.node, 0, header_of(SINGLE, 0x22B, 0x123), read_40, sizeof read_40, keep_frame, &sink, &answer));
    CHECK(is_answer(answer, BUJORELM_REPLIED, 0, 0x80, 0, 54));
    CHECK(sink.count == 8 && sink.frames[0].header == 0x19A2822Bu);
    for (size_t i = 1; i < sink.count; i++) {
        const uint32_t top = i == 1 ? FIRST : i + 1 == sink.count ? LAST : MIDDLE;

        CHECK(sink.frames[i].header == header_of(top, 0x123, 0x22B) && sink.frames[i].len == (i == 7 ? 6 : 8));
    }

    /* A sender with too little room is not offered the rest; the answer may be left out. */
    for (size_t room = 0; room < 8; room++) {
        sink.count = 0;
        sink.room = room;
        CHECK(!bujorelm_node_receive(&b.node, 0, header_of(SINGLE, 0x22B, 0x123), read_40, sizeof read_40, keep_frame, &sink, NULL));
        CHECK(sink.count == room);
    }
    /* A Rejected of either sort; and what is not answered. */
    sink.count = 0;
    sink.room = 16;
    CHECK(bujorelm_node_receive(&b.node, 0, header_of(LAST, 0x22B, 0x123), NULL, 0, keep_frame, &sink, NULL));
    CHECK(sink.count == 1 && sink.frames[0].header == 0x19A4822Bu && memcmp(sink.frames[0].bytes, "\x01\x23\x20\x40", 4) == 0);
    CHECK(bujorelm_node_receive(&b.node, 0, header_of(SINGLE, 0x22B, 0x123), NULL, 0, keep_frame, &sink, NULL));
    CHECK(sink.count == 2 && memcmp(sink.frames[1].bytes, "\x01\x23\x10\x80", 4) == 0);
    CHECK(bujorelm_node_receive(&b.node, 0, header_of(FIRST, 0x22B, 0x123), read_40, 7, keep_frame, &sink, &answer));
    CHECK(sink.count == 2 && answer.kind == BUJORELM_JOINED);
    CHECK(bujorelm_node_receive(&b.node, 0, header_of(SINGLE, 0x22C, 0x123), read_40, 7, keep_frame, &sink, &answer));
    CHECK(sink.count == 2 && answer.kind == BUJORELM_IGNORED);
    b.node.description.alias = 0;
    CHECK(bujorelm_node_receive(&b.node, 0, header_of(SINGLE, 0x22B, 0x123), read_40, 7, keep_frame, &sink, &answer));
    CHECK(sink.count == 2 && is_error(answer, BUJORELM_ERROR_B14_ALIAS_OUT_OF_RANGE));
    b.node.description.alias = 0x22B;
    /* The calls for a node leave their answer in it, and touch no more of it than the library's own do. */
    memset(b.node.reply, UNTOUCHED, sizeof b.node.reply);
    memset(b.node.frames, UNTOUCHED, sizeof b.node.frames);
    CHECK(bujorelm_node_check(&b.node).kind == BUJORELM_IGNORED);
    answer = bujorelm_node_handle_datagram(&b.node, (const uint8_t *)"\x20\x80", 2);
    CHECK(is_answer(answer, BUJORELM_REPLIED, 0, 0x80, 0, 7) && memcmp(b.node.reply, "\x20\x82\xE0\x00\xF2\xFF\x10", 7) == 0);
    CHECK(is_untouched(b.node.reply, 7, sizeof b.node.reply));
    CHECK(is_untouched((const uint8_t *)b.node.frames, 0, sizeof b.node.frames));
    answer = bujorelm_node_handle_frame(&b.node, 0, header_of(SINGLE, 0x22B, 0x124), (const uint8_t *)"\x20\x80", 2);
    CHECK(is_answer(answer, BUJORELM_REPLIED, 0, 0x80, 0, 7) && answer.frame_count == 2);
    CHECK(b.node.frames[0].header == 0x19A2822Bu && b.node.frames[1].header == 0x1A12422Bu);
    CHECK(is_untouched((const uint8_t *)b.node.frames, 32, sizeof b.node.frames));
    /* No frame needs no sender. */
    CHECK(bujorelm_send_frames(NULL, 0, keep_frame, &sink) && sink.count == 2);
    board_free(&b);
}

/* A lone tick for a node, and a check of it, which drops nothing by any tick. */
static void test_node_tick(void)
{
    for (unsigned tick = 0; tick <= 65535; tick += 101) {
        struct bujorelm_node before;
        struct board b;

        board_begun(&b, 0);
        b.node.reception.places[0].tick = (uint16_t)tick;
        memset(b.node.reply, UNTOUCHED, sizeof b.node.reply);
        memset(b.node.frames, UNTOUCHED, sizeof b.node.frames);
        before = b.node;
        CHECK(is_answer(bujorelm_node_check(&b.node), BUJORELM_IGNORED, 0, 0, 0, 0) && same_node(&b.node, &before));
        CHECK(is_joined(bujorelm_node_tick(&b.node, (uint16_t)(tick + 3000))) && same_node(&b.node, &before));
        memset(&before.reception, 0, sizeof before.reception);
        CHECK(is_joined(bujorelm_node_tick(&b.node, (uint16_t)(tick + 3001))) && same_node(&b.node, &before));
        b.node.reception.places[2].held = 1;
        b.node.reception.places[2].len = 73;
        before = b.node;
        CHECK(is_error(bujorelm_node_tick(&b.node, (uint16_t)tick), BUJORELM_ERROR_B7_BAD_RECEPTION_STATE));
        CHECK(same_node(&b.node, &before));
        CHECK(is_error(bujorelm_node_check(&b.node), BUJORELM_ERROR_B7_BAD_RECEPTION_STATE));
        CHECK(same_node(&b.node, &before));
        CHECK(is_untouched(b.node.reply, 0, sizeof b.node.reply));
        CHECK(is_untouched((const uint8_t *)b.node.frames, 0, sizeof b.node.frames));
        board_free(&b);
    }
}

/* A fresh node, whatever lay there before. */
static void test_node_start(void)
{
    static const uint8_t zeros[BUJORELM_POOL_SIZE];
    uint8_t memory[DEMONSTRATION_MEMORY_SIZE] = {0};
    struct bujorelm_node node;

    memset(&node, UNTOUCHED, sizeof node);
    bujorelm_node_start(&node, &demonstration_description, demonstration_flash, sizeof demonstration_flash, memory, sizeof memory);
    CHECK(memcmp(&node.registers, zeros, sizeof node.registers) == 0 && memcmp(&node.reception, zeros, sizeof node.reception) == 0);
    CHECK(memcmp(node.pool, zeros, sizeof node.pool) == 0);
    CHECK(is_untouched(node.reply, 0, sizeof node.reply) && is_untouched((const uint8_t *)node.frames, 0, sizeof node.frames));
    CHECK(node.description.alias == 0x22B && node.description.write_lengths == 0xF2 && node.description.count == 4);
    CHECK(node.description.spaces == demonstration_spaces && node.flash == demonstration_flash && node.memory == memory);
    CHECK(node.flash_len == 16 && node.memory_len == 48 && bujorelm_node_check(&node).kind == BUJORELM_IGNORED);
}

/* The numbers of a result, as the types that a switch takes. */
static void test_accessors(void)
{
    for (unsigned number = 0; number <= 14; number++) {
        struct bujorelm_result result = {.kind = number, .error = (uint8_t)number, .code = (uint16_t)(0x1080 + number)};

        CHECK(bujorelm_kind_of(result) == (enum bujorelm_kind)number);
        CHECK(bujorelm_error_of(result) == (enum bujorelm_error)number);
        CHECK(bujorelm_code_of(result) == (enum bujorelm_code)(0x1080 + number));
    }
}

/* The position of a refused space: stored where there is one, and nothing else taken for one. */
static void test_position_of(void)
{
    for (unsigned kind = 0; kind <= BUJORELM_UPDATE_COMPLETE; kind++) {
        for (unsigned error = 0; error <= 0xFF; error++) {
            for (unsigned position = 0; position <= 0xFF; position++) {
                const struct bujorelm_result result = {
                    .kind = kind, .error = (uint8_t)error, .position = (uint8_t)position};
                const bool brings_one = kind == 0 && error >= 2 && error <= 5 && position < 16;
                size_t stored = 77;

                CHECK(bujorelm_position_of(result, &stored) == brings_one);
                CHECK(stored == (brings_one ? position : 77));
            }
        }
    }
}

/* The sentence of a result; nothing is written behind its zero byte, and that is within the size. */
static bool says(uint8_t kind, uint8_t error, uint8_t position, const char *sentence)
{
    const struct bujorelm_result result = {.kind = kind, .error = error, .position = position};
    char text[BUJORELM_SENTENCE_SIZE + 1];

    memset(text, UNTOUCHED, sizeof text);
    if (bujorelm_sentence_of(result, text) != text || strcmp(text, sentence) != 0) {
        fprintf(stderr, "got \"%s\"\n", text);
        return false;
    }
    return strlen(text) < BUJORELM_SENTENCE_SIZE && is_untouched((const uint8_t *)text, strlen(text) + 1, sizeof text);
}

static void test_sentences(void)
{
    static const struct {
        uint8_t error;
        const char *nowhere;
        const char *behind;
    } cases[] = {
        {11, "B11: the description has more than 16 spaces", NULL},
        {12, "B12: memory has more than 65,536 bytes", NULL},
        {13, "B13: flash has more than 65,536 bytes", NULL},
        {14, "B14: the alias is not 1 to 4,095", NULL},
        {2, "B2: a space has its lowest address above its highest", "has its lowest address above its highest"},
        {3, "B3: a space reaches past the end of its memory or flash", "reaches past the end of its memory or flash"},
        {4, "B4: a space has to be read-only, since it lies in flash or is 0xFF",
         "has to be read-only, since it lies in flash or is 0xFF"},
        {5, "B5: a space has the number of an earlier space", "has the number of an earlier space"},
        {6, "B6: the reply buffer has fewer than 72 bytes", NULL},
        {7, "B7: the reception state holds what no call has left there", NULL},
        /* Numbers that no call gives today. */
        {0, "B0: a mistake that this header does not know", NULL},
        {1, "B1: a mistake that this header does not know", NULL},
        {10, "B10: a mistake that this header does not know", NULL},
        {255, "B255: a mistake that this header does not know", NULL},
    };

    for (size_t i = 0; i < sizeof cases / sizeof cases[0]; i++) {
        CHECK_CASE(says(0, cases[i].error, NO_POSITION, cases[i].nowhere), cases[i].nowhere);
        for (uint8_t position = 0; position < 16; position++) {
            char sentence[200];

            snprintf(sentence, sizeof sentence, "B%u: space %u, counted from 0, %s", cases[i].error, position,
                     cases[i].behind != NULL ? cases[i].behind : "");
            /* A position is named for B2 to B5 alone. */
            CHECK_CASE(says(0, cases[i].error, position, cases[i].behind != NULL ? sentence : cases[i].nowhere), sentence);
        }
    }
    for (uint8_t kind = 1; kind <= BUJORELM_UPDATE_COMPLETE; kind++) {
        CHECK(says(kind, 3, 0, "the call was not refused"));
    }
}

/* The archive's version, and which versions fit which. */
static void test_version(void)
{
    CHECK(bujorelm_version() == BUJORELM_VERSION && bujorelm_version_fits());
    CHECK(bujorelm_versions_fit(0x00020000u, 0x00020000u) && bujorelm_versions_fit(0x00020000u, 0x0002FFFFu));
    CHECK(bujorelm_versions_fit(0x00020003u, 0x00020003u) && bujorelm_versions_fit(0x00020003u, 0x0002FFFFu));
    CHECK(!bujorelm_versions_fit(0x00020000u, 0x00030000u) && !bujorelm_versions_fit(0x00020000u, 0x0001FFFFu));
    CHECK(!bujorelm_versions_fit(0x00020003u, 0x00020002u) && !bujorelm_versions_fit(0x00020003u, 0x00030003u));
    CHECK(!bujorelm_versions_fit(0x00020003u, 0x00030002u) && !bujorelm_versions_fit(0x00020000u, 0));
    CHECK(!bujorelm_versions_fit(0xFFFFFFFFu, 0) && bujorelm_versions_fit(0xFFFF0000u, 0xFFFFFFFFu));
}

/* ---- Pseudo-random calls ---- */

/* A book of one source, as document 01, C-14 and C-15 describe it: what that source's frames and the times of all calls say is unfinished, or that
   the source is being swallowed. Times count on past 65,535. */
struct book {
    bool held;
    bool swallowed;
    uint64_t last;
    size_t len;
    uint8_t bytes[72];
};

#define SOURCES 12u

static const uint16_t aliases[SOURCES] = {0, 1, 2, 3, 0x22B, 0x123, 0x456, 0x7FF, 0x800, 0xABC, 0xFFE, 0xFFF};

/* A byte that says yes or no: yes by any of its 255 values. */
static uint8_t random_flag(bool yes)
{
    return yes ? (uint8_t)(1 + random_below(0xFF)) : 0;
}

static struct draft random_draft(size_t *flash_len, size_t *memory_len)
{
    static const uint8_t numbers[] = {0xFD, 0xFE, 0xFF, 0x00, 0x10, 0x20, 0xFC, 0xFB};
    struct draft d;

    memset(&d, 0, sizeof d);
    *flash_len = 1 + random_below(200);
    *memory_len = 1 + random_below(200);
    d.alias = aliases[1 + random_below(SOURCES - 1)];
    d.write_lengths = (uint8_t)random_number();
    d.count = random_below(6);
    for (size_t i = 0; i < d.count; i++) {
        struct bujorelm_space *const s = &d.spaces[i];
        size_t store;
        uint32_t size;

        s->number = numbers[random_below(24) == 0 ? 0 : i];
        s->in_flash = random_flag(random_below(3) == 0);
        s->read_only = random_flag(s->in_flash != 0 || s->number == 0xFF || random_below(4) == 0);
        set_byte(&d, i, MEANINGLESS_BYTE, (uint8_t)random_number());
        store = s->in_flash != 0 ? *flash_len : *memory_len;
        s->offset = random_below((uint32_t)store);
        size = 1 + random_below((uint32_t)(store - s->offset));
        if (random_below(30) == 0) {
            size = (uint32_t)(store - s->offset) + 1 - random_below(2);
        }
        switch (random_below(4)) {
        case 0:
            s->lowest = 0xFFFFFFFFu - size;
            break;
        case 1:
            s->lowest = random_below(300);
            break;
        default:
            s->lowest = 0;
            break;
        }
        s->highest = s->lowest + size - 1;
    }
    return d;
}

/* A datagram that is often a command with a likely address, sometimes cut short or with a byte changed. */
static size_t random_datagram(const struct draft *d, uint8_t *bytes)
{
    static const uint8_t commands[] = {0x00, 0x01, 0x02, 0x03, 0x08, 0x09, 0x0A, 0x0B, 0x40, 0x41, 0x42,
                                       0x43, 0x80, 0x84, 0x88, 0xA8, 0xA8, 0x44, 0x60, 0x50, 0xA9};
    const uint8_t drawn = commands[random_below(sizeof commands)];
    const struct bujorelm_space *const s = &d->spaces[random_below((uint32_t)d->count + 1) % BUJORELM_SPACES_MAX];
    /* Often in the form that names this space. */
    const uint8_t form = s->number >= 0xFD && random_below(4) != 0 ? (uint8_t)(s->number - 0xFC) : 0;
    const uint8_t command = drawn < 0x44 && random_below(4) != 0 ? (uint8_t)((drawn & 0xFC) | form) : drawn;
    /* Inside, or up to two bytes outside. Each random number has a statement of its own, so that every compiler draws them in one order. */
    const uint32_t inside = random_below(s->highest - s->lowest + 3);
    const uint32_t below = random_below(2);
    const uint32_t address = s->lowest + inside - below;
    uint32_t changed;
    size_t len = 2;

    random_bytes(bytes, 72);
    bytes[0] = 0x20;
    bytes[1] = command;
    if (command < 0x44) {
        bytes[2] = (uint8_t)(address >> 24);
        bytes[3] = (uint8_t)(address >> 16);
        bytes[4] = (uint8_t)(address >> 8);
        bytes[5] = (uint8_t)address;
        len = 6;
        if ((command & 3) == 0) {
            bytes[6] = s->number;
            len = 7;
        }
        if (command >= 0x40) {
            len += 1;
        } else {
            const size_t most = command >= 8 ? 32 : 64;
            const size_t left = address >= s->lowest && address <= s->highest ? (size_t)(s->highest - address) + 1 : 1;
            /* Of any length, or short enough for the space; every second of those in one frame, if it can be. */
            const uint32_t sort = random_below(4);
            const size_t bound = sort == 0 ? most : sort == 1 ? 2 : left;
            const size_t count = sort == 0 ? random_below((uint32_t)most + 1) : 1 + random_below((uint32_t)(bound < most ? bound : most));

            len += command >= 8 ? 2 * count : count;
        }
    } else if (command == 0x84) {
        bytes[2] = s->number;
        len = 3;
    } else if (command == 0x88) {
        if (random_below(2) == 0) {
            memset(bytes + 2, 0, 6);
        }
        len = 8;
    }
    switch (random_below(12)) {
    case 0:
        len = random_below(73);
        break;
    case 1:
        changed = random_below(8);
        bytes[changed] = (uint8_t)random_number();
        break;
    default:
        break;
    }
    return len > 72 ? 72 : len;
}

/* A random frame to the board from one of the sources: often the next of a datagram that this source is sending. */
struct sender {
    uint8_t bytes[80];
    size_t len;
    size_t sent;
};

static size_t random_frame(const struct draft *d, struct sender *sender, uint32_t source, uint32_t *header, uint8_t *data)
{
    size_t len;
    size_t left;
    bool begins;

    if (sender->sent >= sender->len) {
        sender->len = random_datagram(d, sender->bytes);
        sender->sent = 0;
        if (random_below(16) == 0) {
            /* Too long to be joined. */
            sender->len = 73 + random_below(8);
        }
    }
    left = sender->len - sender->sent;
    begins = sender->sent == 0;
    len = left < 8 ? left : 8;
    if (random_below(8) == 0) {
        len = random_below((uint32_t)len + 1);
    }
    memcpy(data, sender->bytes + sender->sent, len);
    *header = header_of(begins ? (len == left ? SINGLE : FIRST) : (len == left ? LAST : MIDDLE), d->alias, source);
    sender->sent = len == left ? sender->len : sender->sent + len;
    switch (random_below(40)) {
    case 0: /* a lost frame */
    case 1:
        *header = header_of(SINGLE + random_below(4), d->alias, source);
        break;
    case 2:
        *header = random_below(4) + SINGLE;
        *header = header_of(*header, aliases[random_below(SOURCES)], source);
        break;
    case 3:
        *header = random_number();
        break;
    case 4:
        len = random_below(20);
        random_bytes(data, len);
        break;
    case 5:
        *header |= 0x20000000u << random_below(3);
        break;
    default:
        break;
    }
    return len;
}

struct expected {
    enum bujorelm_kind kind;
    uint16_t code;
    bool finished;
    /* The source was being swallowed. */
    bool swallowed;
    size_t len;
    uint8_t bytes[80];
};

static bool is_ignored(uint16_t alias, uint32_t header, size_t len)
{
    const uint32_t top = header >> 24;

    return len > 8 || top < SINGLE || top > LAST || (header >> 12 & 0xFFF) != alias || (header & 0xFFF) == alias;
}

static struct expected refused_with(uint16_t code)
{
    return (struct expected){.kind = BUJORELM_TRANSPORT_REFUSAL, .code = code};
}

static struct expected finished_with(const uint8_t *bytes, size_t len)
{
    struct expected e = {.kind = BUJORELM_JOINED, .finished = true, .len = len};

    memcpy(e.bytes, bytes, len);
    return e;
}

/* Puts the data behind what the book holds. */
static void book_append(struct book *book, uint64_t time, const uint8_t *data, size_t len)
{
    memcpy(book->bytes + book->len, data, len);
    book->last = time;
    book->len += len;
}

/* The datagram is broken: its book is blank behind a Last, and else has only that the source is being swallowed. */
static struct expected book_break(struct book *book, uint32_t top, uint16_t code)
{
    book->held = top != LAST;
    book->swallowed = true;
    return refused_with(code);
}

/* A frame while the book is blank. `others` is how many of the other sources have a place. */
static struct expected blank_step(struct book *book, uint64_t time, size_t others, uint32_t top, const uint8_t *data, size_t len)
{
    if (top == SINGLE) {
        return finished_with(data, len);
    }
    if (top != FIRST || others >= 8) {
        return refused_with(top == FIRST ? 0x2020 : 0x2040);
    }
    *book = (struct book){.held = true};
    book_append(book, time, data, len);
    return (struct expected){.kind = BUJORELM_JOINED};
}

/* A frame while the book holds bytes. */
static struct expected holding_step(struct book *book, uint64_t time, uint32_t top, const uint8_t *data, size_t len)
{
    if (top == SINGLE || top == FIRST || (top == MIDDLE && len == 0)) {
        return book_break(book, top, 0x2040);
    }
    if (book->len + len > 72) {
        return book_break(book, top, 0x2000);
    }
    book_append(book, time, data, len);
    book->held = top == MIDDLE;
    return top == MIDDLE ? (struct expected){.kind = BUJORELM_JOINED} : finished_with(book->bytes, book->len);
}

/* A frame of a source that is being swallowed. */
static struct expected swallowed_step(struct book *book, uint64_t time, size_t others, uint32_t top, const uint8_t *data, size_t len)
{
    struct expected e = {.kind = BUJORELM_JOINED};

    if (top == SINGLE || top == FIRST) {
        book->held = false;
        e = blank_step(book, time, others, top, data, len);
    } else {
        book->held = top == MIDDLE;
        book->last = time;
    }
    e.swallowed = true;
    return e;
}

/* What the books say of a frame that is not ignored. */
static struct expected book_step(struct book *book, uint64_t time, size_t others, uint32_t top, const uint8_t *data, size_t len)
{
    if (!book->held) {
        return blank_step(book, time, others, top, data, len);
    }
    return book->swallowed ? swallowed_step(book, time, others, top, data, len) : holding_step(book, time, top, data, len);
}

/* What a place keeps for its source is what the book holds: bytes, or only that the source is being swallowed. */
static bool place_has(const struct bujorelm_node *node, size_t index, const struct book *book)
{
    const struct bujorelm_place *const p = &node->reception.places[index];

    if (!book->held || p->tick != (uint16_t)book->last || (p->swallowing != 0) != book->swallowed) {
        return false;
    }
    return book->swallowed || (p->len == book->len && memcmp(node->pool + 72 * index, book->bytes, book->len) == 0);
}

/* The same of the state. */
static bool state_has(const struct bujorelm_node *node, uint16_t source, const struct book *book)
{
    size_t found = 0;

    for (size_t i = 0; i < BUJORELM_PLACES; i++) {
        const struct bujorelm_place *const p = &node->reception.places[i];

        if (p->held != 0 && p->source == source) {
            found++;
            if (!place_has(node, i, book)) {
                return false;
            }
        }
    }
    return found == (book->held ? 1 : 0);
}

/* How often a source that was being swallowed was dropped for its age, and how often each sort of frame came from one. */
static unsigned long swallowed_drops;
static unsigned long swallowed_seen[4];

/* Every book hears the time of every call: what is too old is dropped. Returns how many were. */
static size_t books_hear(struct book *books, uint64_t time)
{
    size_t dropped = 0;

    for (size_t i = 0; i < SOURCES; i++) {
        if (books[i].held && time - books[i].last > 3000) {
            swallowed_drops += books[i].swallowed;
            books[i].held = false;
            dropped++;
        }
    }
    return dropped;
}

/* How many ticks pass before a call, always fewer than 62,000. Some sessions go so fast that nothing grows old, and some so slowly that most
   does. */
static uint32_t random_ticks(uint32_t pace)
{
    static const uint16_t some[] = {0, 1, 1500, 2999, 3000, 3001, 3002, 6000, 32768, 58999, 61998, 61999};

    switch (pace) {
    case 0:
        return 0;
    case 1:
        return random_below(60);
    case 2:
        return random_below(600);
    default:
        return random_below(4) != 0 ? random_below(400) : some[random_below(sizeof some / sizeof some[0])];
    }
}

/* How often a place was freed for its age: before a frame, and at a lone tick. */
static unsigned long drops_at_frames;
static unsigned long drops_at_ticks;

/* How often each answer came, so that random frames that stopped short of one would show. */
static unsigned long kinds_seen[BUJORELM_UPDATE_COMPLETE + 1];
static unsigned long codes_seen[9];
static const uint16_t codes[9] = {0x1041, 0x1042, 0x1080, 0x1081, 0x1082, 0x1083, 0x2000, 0x2020, 0x2040};

static void see(struct bujorelm_result answer, const uint8_t *reply)
{
    uint16_t code = answer.code;

    if (answer.kind > BUJORELM_UPDATE_COMPLETE) {
        return;
    }
    kinds_seen[answer.kind]++;
    /* The codes of failure replies are their last two bytes. */
    if (answer.kind == BUJORELM_REPLIED && (reply[1] & 0xBC) == 0x18) {
        code = (uint16_t)(reply[answer.reply_len - 2] << 8 | reply[answer.reply_len - 1]);
    }
    for (size_t i = 0; i < 9; i++) {
        if (codes[i] == code) {
            codes_seen[i]++;
        }
    }
}

/* Other bytes in the places that say the same. */
static void random_places(struct bujorelm_reception *reception)
{
    for (size_t i = 0; i < BUJORELM_PLACES; i++) {
        struct bujorelm_place *const p = &reception->places[i];

        if (random_below(4) == 0) {
            p->held = random_flag(p->held != 0);
            p->unused = (uint8_t)random_number();
            p->swallowing = p->held == 0 ? (uint8_t)random_number() : random_flag(p->swallowing != 0);
            if (p->held == 0) {
                p->source = (uint16_t)random_number();
                p->tick = (uint16_t)random_number();
            }
            if (p->held == 0 || (p->swallowing != 0 && random_below(2) == 0)) {
                p->len = (uint8_t)random_number();
            }
        }
    }
}

/* A lone tick: the places are those of the books, and nothing else of the node has changed. */
static void random_tick(struct board *b, struct book *books, uint64_t time)
{
    struct bujorelm_node expected = b->node;

    b->tick = (uint16_t)time;
    expected.reception = kept_at(&b->node.reception, b->tick);
    drops_at_ticks += books_hear(books, time);
    CHECK(is_joined(call_tick(b)) && same_node(&b->node, &expected));
    for (size_t i = 0; i < SOURCES; i++) {
        CHECK(state_has(&b->node, aliases[i], &books[i]));
    }
}

static void random_session(unsigned long frames)
{
    size_t flash_len;
    size_t memory_len;
    const struct draft d = random_draft(&flash_len, &memory_len);
    const size_t reply_len = random_below(20) == 0 ? random_below(72) : 72 + random_below(3);
    const uint32_t pace = random_below(4);
    uint64_t time = random_number();
    struct board b;
    struct book books[SOURCES];
    struct sender senders[SOURCES];
    struct guarded payload;
    uint8_t flash[256];
    uint8_t memory[256];
    uint8_t lock[6];
    struct bujorelm_result refused;

    memset(books, 0, sizeof books);
    memset(senders, 0, sizeof senders);
    board_new(&b, &d, flash_len, memory_len, reply_len);
    payload = guarded_new(8, false);
    random_bytes(b.flash.bytes, flash_len);
    random_bytes(b.memory.bytes, memory_len);
    random_bytes(b.node.pool, sizeof b.node.pool);
    memcpy(flash, b.flash.bytes, flash_len);
    memcpy(memory, b.memory.bytes, memory_len);
    memcpy(lock, b.node.registers.lock, 6);
    refused = bujorelm_node_check(&b.node);
    if (refused.kind != BUJORELM_REFUSED && reply_len < 72) {
        refused = (struct bujorelm_result){.kind = BUJORELM_REFUSED,
                                           .error = BUJORELM_ERROR_B6_REPLY_BUFFER_TOO_SHORT,
                                           .position = NO_POSITION};
    }

    for (unsigned long n = 0; n < frames; n++) {
        size_t who = random_below(SOURCES);
        uint8_t data[24];
        uint32_t header;
        const size_t len = random_frame(&d, &senders[who], aliases[who], &header, data);
        struct bujorelm_node before;
        struct bujorelm_result answer;
        struct expected e;
        size_t others = 0;
        size_t written = 0;

        random_places(&b.node.reception);
        if (random_below(8) == 0) {
            time += random_ticks(pace);
            random_tick(&b, books, time);
        }
        time += random_ticks(pace);
        b.tick = (uint16_t)time;
        before = b.node;
        memset(b.reply.bytes, UNTOUCHED, reply_len);
        if (len <= 8) {
            memcpy(payload.bytes + 8 - len, data, len);
        }
        answer = call_frame(&b, header, len <= 8 ? payload.bytes + 8 - len : data, len);
        see(answer, b.reply.bytes);

        CHECK(memcmp(b.flash.bytes, flash, flash_len) == 0);
        if (refused.kind == BUJORELM_REFUSED) {
            CHECK(is_error_at(answer, refused.error, refused.position));
            CHECK(same_places(&b.node.reception, &before.reception));
            CHECK(memcmp(b.node.pool, before.pool, sizeof before.pool) == 0);
        } else {
            /* A random header may name a source that is none of ours: then no book is its own. */
            struct book stranger = {.held = false};
            struct book *book = &stranger;

            CHECK(follows_on(&before.reception, &b.node.reception, b.tick));
            drops_at_frames += books_hear(books, time);
            for (size_t i = 0; i < SOURCES; i++) {
                if (aliases[i] == (header & 0xFFF)) {
                    book = &books[i];
                } else if (books[i].held) {
                    others++;
                }
            }
            e = (struct expected){.kind = BUJORELM_IGNORED};
            if (!is_ignored(d.alias, header, len)) {
                e = book_step(book, time, others, header >> 24, data, len);
                swallowed_seen[(header >> 24) - SINGLE] += e.swallowed;
            }
            CHECK(!stranger.held);
            if (!e.finished) {
                CHECK(is_answer(answer, e.kind, 0, 0, e.kind == BUJORELM_TRANSPORT_REFUSAL ? e.code : 0, 0));
            } else {
                /* The datagram that the book finishes, handed over whole, gives the same answer, reply, memory and lock. */
                struct bujorelm_registers held;
                uint8_t reply[80];
                uint8_t old[256];
                struct bujorelm_result whole;

                memcpy(held.lock, lock, 6);
                memcpy(old, memory, memory_len);
                memset(reply, UNTOUCHED, sizeof reply);
                bujorelm_handle_datagram(d.alias, d.write_lengths, d.spaces, bujorelm_spaces_size(d.count), flash, flash_len, memory,
                                         memory_len, &held, e.bytes, e.len, reply, reply_len, lent_result());
                whole = given_result();
                CHECK(same_result(answer, whole) && whole.frame_count == 0);
                CHECK(answer.kind >= BUJORELM_REJECTED && answer.kind <= BUJORELM_UPDATE_COMPLETE);
                written = answer.reply_len;
                CHECK(written <= 72 && memcmp(reply, b.reply.bytes, reply_len) == 0);
                CHECK((answer.kind == BUJORELM_REPLIED) == (written != 0));
                /* Only a write changes memory, where it says so and nowhere else; only a lock command changes the lock. */
                if (answer.kind == BUJORELM_WRITTEN) {
                    const struct range range = written_range(d.spaces, d.count, e.bytes, e.len);

                    CHECK(e.bytes[1] <= 0x0B && is_written(answer, range.at, range.len));
                    CHECK(range.len >= 1 && range.len <= BUJORELM_CHANGED_MAX && range.at + range.len <= memory_len);
                    CHECK(is_same_outside(memory, old, memory_len, answer.changed_at, answer.changed_len));
                } else {
                    CHECK(memcmp(memory, old, memory_len) == 0 && answer.changed_at == 0 && answer.changed_len == 0);
                }
                CHECK((answer.kind == BUJORELM_UPDATE_COMPLETE) == (e.len == 2 && memcmp(e.bytes, "\x20\xA8", 2) == 0));
                if (answer.kind != BUJORELM_REPLIED || e.bytes[1] != 0x88) {
                    CHECK(memcmp(held.lock, lock, 6) == 0);
                }
                memcpy(lock, held.lock, 6);
            }
            for (size_t i = 0; i < SOURCES; i++) {
                CHECK(state_has(&b.node, aliases[i], &books[i]));
            }
            if (e.kind == BUJORELM_IGNORED) {
                const struct bujorelm_reception kept = kept_at(&before.reception, b.tick);

                CHECK(same_places(&b.node.reception, &kept));
            }
            /* What is ignored, refused or swallowed does not touch the pool; a First that opens a place does. */
            if (e.kind != BUJORELM_JOINED || (e.swallowed && header >> 24 != FIRST)) {
                CHECK(memcmp(b.node.pool, before.pool, sizeof before.pool) == 0);
            }
        }
        CHECK(memcmp(b.memory.bytes, memory, memory_len) == 0);
        CHECK(memcmp(b.node.registers.lock, lock, 6) == 0);
        CHECK(is_untouched(b.reply.bytes, written, reply_len));
    }
    guarded_free(&payload);
    board_free(&b);
}

int main(int argc, char **argv)
{
    const unsigned long frames = argc > 1 ? strtoul(argv[1], NULL, 10) : 100000;
    /* With few random frames, of the tests that go through all ticks or ages only a part is made. */
    const unsigned step = frames < 100000 ? 257 : 1;

    test_layout();
    test_empty_buffers();
    test_const_overlap();
    test_session();
    test_datagrams();
    test_longest();
    test_changed();
    test_result_bytes();
    test_lock();
    test_left_out();
    test_call_errors();
    test_limits_together();
    test_positions();
    test_bad_states();
    test_bad_swallowed_states();
    test_table_bytes();
    test_table_sizes();
    test_place_bytes();
    test_transport_refusals();
    test_ignored();
    test_ages();
    test_every_age(step);
    test_next_frame();
    test_renewal();
    test_abandoned();
    test_refused_calls_drop_nothing();
    test_ticks_of_bad_states(step);
    test_ticks_of_free_places(step);
    test_tick_bytes();
    test_breaches();
    test_swallowed_frames();
    test_swallowing_ends();
    test_swallowed_places_are_taken();
    test_reopening();
    test_unchanged_place();
    test_ignored_while_swallowing();
    test_swallowing_bytes();
    test_swallowed_ages();
    test_every_swallowed_age(step);
    test_next_swallowed_frame();
    test_swallowed_renewal();
    test_abandoned_while_swallowing();
    test_lost_last();
    test_too_long();
    test_two_tools_swallowed();
    test_cutting();
    test_transport_replies();
    test_lines();
    test_digits();
    test_cuts();
    test_carries();
    test_line_bytes();
    test_inline_functions();
    test_node_tick();
    test_node_start();
    test_accessors();
    test_position_of();
    test_sentences();
    test_version();
    for (unsigned long done = 0; done < frames; done += 500) {
        random_session(500);
    }
    if (frames >= 20000) {
        for (size_t i = 0; i <= BUJORELM_UPDATE_COMPLETE; i++) {
            CHECK(kinds_seen[i] >= 100);
        }
        for (size_t i = 0; i < 9; i++) {
            CHECK(codes_seen[i] >= 10);
        }
        CHECK(drops_at_frames >= 100 && drops_at_ticks >= 100 && swallowed_drops >= 20);
        for (size_t i = 0; i < 4; i++) {
            CHECK(swallowed_seen[i] >= 50);
        }
    }
    return check_result("library");
}
