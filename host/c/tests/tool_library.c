/*
 * Tests of the tool's half through its C interface: every bound of the writer and the order of its refusals, the bytes of each command, Received
 * OK and Rejected, what the board makes of the commands and what the readers make of its answers, the joining of frames, and pseudo-random calls.
 * The forms of a reply, one by one, are in tests/tool_replies.c, and what changes single bits is in tests/tool_changes.c.
 *
 * Usage: tool_library [how many pseudo-random calls of each sort]
 */
#define _DEFAULT_SOURCE

#include "demonstration.h"
#include "tool_check.h"

#define BOARD 0x22Bu
#define TOOL 0x456u

/* ---- Requests ---- */

enum sort { READ, WRITE, MASKED, OPTIONS, INFORMATION, LOCK, UPDATE_COMPLETE, SORTS };

/* A request for any of the functions that compose: a read has a count, and write, masked write and lock have bytes. */
struct request {
    enum sort sort;
    uint8_t space;
    uint32_t address;
    size_t count;
    const uint8_t *bytes;
    size_t len;
};

static struct bujorelm_composed compose(const struct request *r, uint8_t *buffer, size_t len)
{
    struct bujorelm_composed *const composed = lent_composed();

    switch (r->sort) {
    case READ:
        bujorelm_compose_read(r->space, r->address, r->count, buffer, len, composed);
        break;
    case WRITE:
        bujorelm_compose_write(r->space, r->address, r->bytes, r->len, buffer, len, composed);
        break;
    case MASKED:
        bujorelm_compose_masked_write(r->space, r->address, r->bytes, r->len, buffer, len, composed);
        break;
    case OPTIONS:
        bujorelm_compose_options(buffer, len, composed);
        break;
    case INFORMATION:
        bujorelm_compose_information(r->space, buffer, len, composed);
        break;
    case LOCK:
        bujorelm_compose_lock(r->bytes, r->len, buffer, len, composed);
        break;
    case UPDATE_COMPLETE:
    case SORTS:
    default:
        bujorelm_compose_update_complete(buffer, len, composed);
        break;
    }
    return given_composed();
}

/* Whether W1 refuses the request, by its words in document 02 and not by the library. */
static bool is_out_of_range(const struct request *r)
{
    switch (r->sort) {
    case READ:
        return r->count < 1 || r->count > 64;
    case WRITE:
        return r->len < 1 || r->len > 64;
    case MASKED:
        return r->len < 2 || r->len > 64 || r->len % 2 == 1;
    case LOCK:
        return r->len != 6;
    default:
        return false;
    }
}

/* The bytes of a command, made here and not by the library. */
static size_t bytes_of(const struct request *r, uint8_t *bytes)
{
    static const uint8_t commands[SORTS] = {0x40, 0x00, 0x08, 0x80, 0x84, 0x88, 0xA8};
    const uint8_t form = r->space < 0xFD ? 0 : (uint8_t)(r->space - 0xFC);
    size_t len = 0;

    bytes[len++] = 0x20;
    bytes[len++] = commands[r->sort];
    if (r->sort == READ || r->sort == WRITE || r->sort == MASKED) {
        bytes[1] = (uint8_t)(bytes[1] + form);
        bytes[len++] = (uint8_t)(r->address >> 24);
        bytes[len++] = (uint8_t)(r->address >> 16);
        bytes[len++] = (uint8_t)(r->address >> 8);
        bytes[len++] = (uint8_t)r->address;
    }
    if (r->sort == INFORMATION || (len == 6 && form == 0)) {
        bytes[len++] = r->space;
    }
    if (r->sort == READ) {
        bytes[len++] = (uint8_t)r->count;
    }
    if (r->sort == WRITE || r->sort == MASKED || r->sort == LOCK) {
        memcpy(bytes + len, r->bytes, r->len);
        len += r->len;
    }
    return len;
}

/* A buffer of one length between pages that cannot be touched: the right refusal, W1 before W2, or the right bytes; and not one more. */
static void check_in(const struct request *r, size_t buffer_len, bool at_start)
{
    struct guarded buffer = guarded_new(buffer_len, at_start);
    uint8_t wanted[80];
    struct bujorelm_composed composed;
    size_t len = 0;

    memset(buffer.bytes, UNTOUCHED, buffer_len);
    composed = compose(r, buffer.bytes, buffer_len);
    if (is_out_of_range(r)) {
        CHECK(composed.refusal == BUJORELM_REFUSAL_W1 && composed.len == 0);
    } else if (buffer_len < 72) {
        CHECK(composed.refusal == BUJORELM_REFUSAL_W2 && composed.len == 0);
    } else {
        len = bytes_of(r, wanted);
        CHECK(composed.refusal == BUJORELM_REFUSAL_NONE && composed.len == len && len >= 2 && len <= 71);
        CHECK(memcmp(buffer.bytes, wanted, len) == 0);
    }
    CHECK(is_untouched(buffer.bytes, len, buffer_len));
    guarded_free(&buffer);
}

/* The same for buffers of every length that may matter, with what is lent between guards too. */
static void check_request(struct request r)
{
    static const size_t lens[] = {0, 1, 2, 8, 70, 71, 72, 73, 200};
    const uint8_t *const bytes = r.bytes;

    for (size_t i = 0; i < 2 * (sizeof lens / sizeof lens[0]); i++) {
        struct guarded lent = guarded_new(r.len, i % 2 == 0);

        if (bytes != NULL) {
            memcpy(lent.bytes, bytes, r.len);
        }
        guarded_read_only(&lent);
        r.bytes = bytes == NULL ? NULL : lent.bytes;
        check_in(&r, lens[i / 2], i % 2 == 0);
        guarded_free(&lent);
    }
}

/* ---- The writer ---- */

/* Each command for the six spaces that matter, in hex as a reader of the standard would write it. */
static void test_command_bytes(void)
{
    static const struct {
        enum sort sort;
        uint8_t space;
        const char *hex;
    } cases[] = {
        {READ, 0x00, "20 40 12345678 00 40"},        {READ, 0x10, "20 40 12345678 10 40"},
        {READ, 0xFC, "20 40 12345678 FC 40"},        {READ, 0xFD, "20 41 12345678 40"},
        {READ, 0xFE, "20 42 12345678 40"},           {READ, 0xFF, "20 43 12345678 40"},
        {WRITE, 0x00, "20 00 12345678 00 0FA5"},     {WRITE, 0x10, "20 00 12345678 10 0FA5"},
        {WRITE, 0xFC, "20 00 12345678 FC 0FA5"},     {WRITE, 0xFD, "20 01 12345678 0FA5"},
        {WRITE, 0xFE, "20 02 12345678 0FA5"},        {WRITE, 0xFF, "20 03 12345678 0FA5"},
        {MASKED, 0x00, "20 08 12345678 00 0FA5"},    {MASKED, 0x10, "20 08 12345678 10 0FA5"},
        {MASKED, 0xFC, "20 08 12345678 FC 0FA5"},    {MASKED, 0xFD, "20 09 12345678 0FA5"},
        {MASKED, 0xFE, "20 0A 12345678 0FA5"},       {MASKED, 0xFF, "20 0B 12345678 0FA5"},
        {INFORMATION, 0x00, "20 84 00"},             {INFORMATION, 0x10, "20 84 10"},
        {INFORMATION, 0xFC, "20 84 FC"},             {INFORMATION, 0xFD, "20 84 FD"},
        {INFORMATION, 0xFE, "20 84 FE"},             {INFORMATION, 0xFF, "20 84 FF"},
        {OPTIONS, 0, "20 80"},                       {UPDATE_COMPLETE, 0, "20 A8"},
    };
    static const uint8_t pair[] = {0x0F, 0xA5};

    for (size_t i = 0; i < sizeof cases / sizeof cases[0]; i++) {
        const struct request r = {cases[i].sort, cases[i].space, 0x12345678, 64, pair, 2};
        uint8_t wanted[80];
        uint8_t got[80];
        const size_t len = from_hex(cases[i].hex, wanted);
        const struct bujorelm_composed composed = compose(&r, got, sizeof got);

        CHECK_CASE(composed.refusal == BUJORELM_REFUSAL_NONE && composed.len == len && memcmp(got, wanted, len) == 0, cases[i].hex);
        check_request(r);
    }
}

static void test_lock_bytes(void)
{
    static const uint8_t id[] = {0x05, 0x01, 0x01, 0x01, 0x18, 0xAB};
    static const uint8_t nobody[6] = {0};
    static const uint8_t wanted[] = {0x20, 0x88, 0x05, 0x01, 0x01, 0x01, 0x18, 0xAB};
    uint8_t got[72];

    bujorelm_compose_lock(id, 6, got, sizeof got, lent_composed());
    CHECK(given_composed().len == 8 && memcmp(got, wanted, 8) == 0);
    check_request((struct request){.sort = LOCK, .bytes = id, .len = 6});
    check_request((struct request){.sort = LOCK, .bytes = nobody, .len = 6});
}

/* A count is a number and not its low byte. */
static void test_counts(void)
{
    static const size_t wide[] = {65,    127,   128,         129,          192,           255,         256,         257,      319, 320,
                                  65537, 65600, 0x100000001, 0x1000000FF1, SIZE_MAX - 63, SIZE_MAX - 1, (SIZE_MAX >> 1) + 2, SIZE_MAX};

    for (size_t count = 0; count <= 64; count++) {
        check_request((struct request){.sort = READ, .space = 0xFD, .address = 0, .count = count});
        check_request((struct request){.sort = READ, .space = 0x10, .address = UINT32_MAX, .count = count});
    }
    for (size_t i = 0; i < sizeof wide / sizeof wide[0]; i++) {
        check_request((struct request){.sort = READ, .space = 0xFD, .address = 7, .count = wide[i]});
    }
}

/* Data, pairs and IDs of every length from none up, those over 64 among them. */
static void test_lengths(void)
{
    static const size_t long_ones[] = {127, 128, 255, 256, 257, 258, 262, 320, 576, 4096};
    uint8_t bytes[4096];

    random_bytes(bytes, sizeof bytes);
    for (enum sort sort = WRITE; sort <= LOCK; sort++) {
        if (sort != WRITE && sort != MASKED && sort != LOCK) {
            continue;
        }
        check_request((struct request){.sort = sort, .space = 0xFE, .bytes = NULL, .len = 0});
        for (size_t len = 0; len <= 73; len++) {
            check_request((struct request){.sort = sort, .space = 0xFE, .address = 0x01020304, .bytes = bytes, .len = len});
            check_request((struct request){.sort = sort, .space = 0x00, .address = 0xFFFFFFFF, .bytes = bytes, .len = len});
        }
        for (size_t i = 0; i < sizeof long_ones / sizeof long_ones[0]; i++) {
            check_request((struct request){.sort = sort, .space = 0xFE, .bytes = bytes, .len = long_ones[i]});
        }
    }
}

/* No buffer at all is a short one. */
static void test_no_buffer(void)
{
    static const uint8_t six[6] = {1, 2, 3, 4, 5, 6};

    for (enum sort sort = READ; sort < SORTS; sort++) {
        struct request r = {.sort = sort, .space = 1, .count = 1, .bytes = six, .len = 6};

        CHECK(compose(&r, NULL, 0).refusal == BUJORELM_REFUSAL_W2);
        r = (struct request){.sort = sort, .space = 1, .count = 0, .bytes = NULL, .len = 0};
        CHECK(compose(&r, NULL, 0).refusal == (is_out_of_range(&r) ? BUJORELM_REFUSAL_W1 : BUJORELM_REFUSAL_W2));
    }
}

static void test_every_space(void)
{
    static const uint8_t pair[] = {0xFF, 0x00};

    for (unsigned space = 0; space < 256; space++) {
        for (enum sort sort = READ; sort <= INFORMATION; sort++) {
            check_in(&(struct request){sort, (uint8_t)space, space << 24 | space, 1 + space % 64, pair, 2}, 72, space % 2 == 0);
        }
    }
}

static void random_requests(unsigned long count)
{
    uint8_t bytes[80];

    for (unsigned long i = 0; i < count; i++) {
        random_bytes(bytes, sizeof bytes);
        check_in(&(struct request){.sort = (enum sort)random_below(SORTS),
                                   .space = (uint8_t)random_number(),
                                   .address = random_number(),
                                   .count = random_below(80),
                                   .bytes = bytes,
                                   .len = random_below(3) == 0 ? 6 : random_below(80)},
                 65 + random_below(20), random_below(2) == 0);
    }
}

/* ---- Received OK and Rejected ---- */

static void test_received_ok(void)
{
    struct bujorelm_acknowledged read = read_received_ok(NULL, 0);
    uint8_t content[300] = {0};

    CHECK(read.refusal == BUJORELM_REFUSAL_NONE && !read.pending && read.timeout == 0);
    for (unsigned flags = 0; flags < 256; flags++) {
        struct guarded one = guarded_new(1, flags % 2 == 0);

        one.bytes[0] = (uint8_t)flags;
        guarded_read_only(&one);
        read = read_received_ok(one.bytes, 1);
        CHECK(read.refusal == BUJORELM_REFUSAL_NONE && read.pending == (flags >= 0x80) && read.timeout == flags % 16);
        content[0] = (uint8_t)flags;
        read = read_received_ok(content, 2);
        CHECK(read.refusal == BUJORELM_REFUSAL_W3 && !read.pending && read.timeout == 0);
        guarded_free(&one);
    }
    for (size_t len = 2; len <= sizeof content; len++) {
        read = read_received_ok(content, len);
        CHECK(read.refusal == BUJORELM_REFUSAL_W3 && !read.pending && read.timeout == 0);
    }
}

static void test_rejected(void)
{
    const struct bujorelm_rejection nothing = read_rejected(NULL, 0);
    uint8_t bytes[300];

    CHECK(nothing.refusal == BUJORELM_REFUSAL_NONE && nothing.code == 0 && same_bytes(nothing.further, at(0, 0)));
    random_bytes(bytes, sizeof bytes);
    for (size_t len = 0; len <= sizeof bytes; len++) {
        struct guarded content = guarded_new(len, len % 2 == 0);
        const unsigned high = len > 0 ? bytes[0] : 0;
        const unsigned low = len > 1 ? bytes[1] : 0;
        struct bujorelm_rejection read;

        memcpy(content.bytes, bytes, len);
        guarded_read_only(&content);
        read = read_rejected(content.bytes, len);
        if (len <= 66) {
            CHECK(read.refusal == BUJORELM_REFUSAL_NONE && read.code == (high << 8 | low));
            CHECK(same_bytes(read.further, len > 2 ? at(2, len - 2) : at(len, 0)));
        } else {
            CHECK(read.refusal == BUJORELM_REFUSAL_W3 && read.code == 0 && same_bytes(read.further, none));
        }
        guarded_free(&content);
    }
}

/* ---- The two halves meet ---- */

struct meeting {
    struct bujorelm_node node;
    uint8_t memory[DEMONSTRATION_MEMORY_SIZE];
    uint8_t command[72];
};

static void meeting_start(struct meeting *m)
{
    memset(m, 0, sizeof *m);
    bujorelm_node_start(&m->node, &demonstration_description, demonstration_flash, sizeof demonstration_flash, m->memory, sizeof m->memory);
}

/* What the board makes of a request. */
static struct bujorelm_result ask(struct meeting *m, struct request r)
{
    const struct bujorelm_composed composed = compose(&r, m->command, sizeof m->command);

    CHECK(composed.refusal == BUJORELM_REFUSAL_NONE);
    return bujorelm_node_handle_datagram(&m->node, m->command, composed.len);
}

/* What the reader makes of what the board replies to a request. */
static struct bujorelm_reply reply_to(struct meeting *m, struct request r)
{
    const struct bujorelm_result result = ask(m, r);

    CHECK(result.kind == BUJORELM_REPLIED && result.flags == 0x80);
    return read_reply(m->node.reply, result.reply_len);
}

static void test_meeting(void)
{
    static const uint8_t written[] = {0xAB, 0xCD, 0xEF};
    static const uint8_t pairs[] = {0xF0, 0x55, 0x00, 0xFF};
    struct meeting m;
    struct bujorelm_result result;
    struct bujorelm_reply reply;

    meeting_start(&m);
    result = ask(&m, (struct request){.sort = WRITE, .space = 0x10, .address = 0x102, .bytes = written, .len = 3});
    CHECK(result.kind == BUJORELM_WRITTEN && result.changed_at == 34 && result.changed_len == 3);
    result = ask(&m, (struct request){.sort = MASKED, .space = 0x10, .address = 0x102, .bytes = pairs, .len = 4});
    CHECK(result.kind == BUJORELM_WRITTEN && result.changed_at == 34 && result.changed_len == 2);
    reply = reply_to(&m, (struct request){.sort = READ, .space = 0x10, .address = 0x101, .count = 64});
    CHECK(reply.kind == BUJORELM_REPLY_READ && reply.space == 0x10 && reply.address == 0x101 && reply.form == BUJORELM_FORM_BYTE_6);
    CHECK(same_bytes(reply.bytes, at(7, 15)) && memcmp(m.node.reply + 7, "\0\x5B\xCD\xEF\0", 5) == 0);
    reply = reply_to(&m, (struct request){.sort = READ, .space = 0xFF, .address = 0, .count = 6});
    CHECK(reply.kind == BUJORELM_REPLY_READ && reply.form == BUJORELM_FORM_FF && same_bytes(reply.bytes, at(6, 6)));
    CHECK(memcmp(m.node.reply + 6, "<cdi/>", 6) == 0);
    reply = reply_to(&m, (struct request){.sort = READ, .space = 0x11, .address = 9, .count = 1});
    CHECK(reply.kind == BUJORELM_REPLY_READ_FAILURE && reply.code == 0x1081 && reply.space == 0x11 && reply.address == 9 && !reply.bytes.given);
    reply = reply_to(&m, (struct request){.sort = READ, .space = 0xFD, .address = 0x20, .count = 1});
    CHECK(reply.kind == BUJORELM_REPLY_READ_FAILURE && reply.code == 0x1082 && reply.space == 0xFD && reply.address == 0x20);
    reply = reply_to(&m, (struct request){.sort = WRITE, .space = 0xFF, .address = 1, .bytes = written, .len = 1});
    CHECK(reply.kind == BUJORELM_REPLY_WRITE_FAILURE && reply.code == 0x1083 && reply.space == 0xFF && reply.address == 1 && !reply.bytes.given);
    reply = reply_to(&m, (struct request){.sort = MASKED, .space = 0xFE, .address = 47, .bytes = pairs, .len = 4});
    CHECK(reply.kind == BUJORELM_REPLY_WRITE_FAILURE && reply.code == 0x1082 && reply.space == 0xFE && reply.address == 47);
    CHECK(ask(&m, (struct request){.sort = UPDATE_COMPLETE}).kind == BUJORELM_UPDATE_COMPLETE);
}

static void test_meeting_about_the_board(void)
{
    static const uint8_t mine[] = {5, 1, 1, 1, 0x18, 0xAB};
    static const uint8_t theirs[] = {5, 1, 1, 1, 0x18, 0xAC};
    static const uint8_t nobody[6] = {0};
    struct meeting m;
    struct bujorelm_reply reply;

    meeting_start(&m);
    reply = reply_to(&m, (struct request){.sort = OPTIONS});
    CHECK(reply.kind == BUJORELM_REPLY_OPTIONS && reply.options.commands == 0xE000 && reply.options.write_lengths == 0xF2 &&
          reply.options.highest_space == 0xFF && reply.options.has_lowest_space && reply.options.lowest_space == 0x10 && !reply.bytes.given);
    reply = reply_to(&m, (struct request){.sort = INFORMATION, .space = 0x10});
    CHECK(reply.kind == BUJORELM_REPLY_INFORMATION && reply.space == 0x10 && reply.information.present && reply.information.flags == 2 &&
          reply.information.highest_address == 0x10F && reply.information.has_lowest_address && reply.information.lowest_address == 0x100);
    reply = reply_to(&m, (struct request){.sort = INFORMATION, .space = 0xFF});
    CHECK(reply.space == 0xFF && reply.information.present && reply.information.flags == BUJORELM_INFORMATION_READ_ONLY &&
          !reply.information.has_lowest_address && !reply.bytes.given);
    reply = reply_to(&m, (struct request){.sort = INFORMATION, .space = 0x11});
    CHECK(reply.space == 0x11 && !reply.information.present && reply.information.highest_address == 0 && reply.information.flags == 0);
    for (size_t i = 0; i < 3; i++) {
        static const uint8_t *const asked[] = {mine, theirs, nobody};
        static const uint8_t *const held[] = {mine, mine, nobody};

        reply = reply_to(&m, (struct request){.sort = LOCK, .bytes = asked[i], .len = 6});
        CHECK(reply.kind == BUJORELM_REPLY_LOCK && same_bytes(reply.bytes, at(2, 6)) && memcmp(m.node.reply + 2, held[i], 6) == 0);
    }
}

/* No command of the writer is rejected by the board, and whatever it replies is read. */
static void random_meetings(unsigned long count)
{
    struct meeting m;
    uint8_t bytes[64];

    meeting_start(&m);
    for (unsigned long i = 0; i < count; i++) {
        static const uint8_t spaces[] = {0x00, 0x10, 0x11, 0xFC, 0xFD, 0xFE, 0xFF};
        const enum sort sort = (enum sort)random_below(SORTS);
        const size_t len = sort == LOCK ? 6 : sort == MASKED ? 2 + 2 * random_below(32) : 1 + random_below(64);
        const struct request r = {sort, spaces[random_below(sizeof spaces)], random_below(0x120), 1 + random_below(64), bytes, len};
        struct bujorelm_result result;
        struct bujorelm_reply reply;

        random_bytes(bytes, sizeof bytes);
        result = ask(&m, r);
        CHECK(result.kind == BUJORELM_WRITTEN || result.kind == BUJORELM_UPDATE_COMPLETE || result.kind == BUJORELM_REPLIED);
        reply = read_reply(m.node.reply, result.reply_len);
        CHECK((reply.kind != BUJORELM_REPLY_NONE) == (result.kind == BUJORELM_REPLIED));
        if (reply.kind != BUJORELM_REPLY_NONE && (sort == READ || sort == WRITE || sort == MASKED)) {
            CHECK(reply.space == r.space && reply.address == r.address && (reply.kind <= BUJORELM_REPLY_READ_FAILURE) == (sort == READ));
        }
    }
}

/* ---- Joining ---- */

/* What a tool lends, each part between pages that cannot be touched. */
struct lent {
    struct guarded pool;
    struct guarded reception;
};

static void lent_new(struct lent *l, bool at_start)
{
    l->pool = guarded_new(BUJORELM_POOL_SIZE, at_start);
    l->reception = guarded_new(sizeof(struct bujorelm_reception), at_start);
    memset(l->pool.bytes, UNTOUCHED, l->pool.len);
    memset(l->reception.bytes, 0, l->reception.len);
}

static void lent_free(struct lent *l)
{
    guarded_free(&l->pool);
    guarded_free(&l->reception);
}

static struct bujorelm_joined join(const struct lent *l, uint32_t header, const uint8_t *data, size_t len)
{
    return join_frame(TOOL, l->pool.bytes, (struct bujorelm_reception *)(void *)l->reception.bytes, header, data, len);
}

static bool is_joined(struct bujorelm_joined j, enum bujorelm_joined_kind kind, uint16_t code)
{
    return j.kind == kind && j.code == code && (kind == BUJORELM_JOINED_IN_POOL || (j.start == 0 && j.end == 0));
}

/* A datagram of every length, cut and joined again. */
static void test_join(void)
{
    struct bujorelm_frame frames[BUJORELM_SENT_MAX];
    uint8_t datagram[72];
    struct lent l;

    random_bytes(datagram, sizeof datagram);
    for (size_t len = 0; len <= sizeof datagram; len++) {
        const size_t count = bujorelm_cut(len == 0 ? NULL : datagram, len, BOARD, TOOL, frames);
        struct bujorelm_joined joined;

        lent_new(&l, len % 2 == 0);
        CHECK(count == (len <= 8 ? 1 : (len + 7) / 8));
        for (size_t i = 0; i + 1 < count; i++) {
            CHECK(is_joined(join(&l, frames[i].header, frames[i].bytes, frames[i].len), BUJORELM_JOINED_PART, 0));
        }
        joined = join(&l, frames[count - 1].header, len == 0 ? NULL : frames[count - 1].bytes, frames[count - 1].len);
        if (count == 1) {
            CHECK(is_joined(joined, BUJORELM_JOINED_IN_FRAME, 0) && frames[0].len == len && is_untouched(l.pool.bytes, 0, l.pool.len));
        } else {
            CHECK(is_joined(joined, BUJORELM_JOINED_IN_POOL, 0) && joined.end <= BUJORELM_POOL_SIZE && joined.end - joined.start == len);
            CHECK(memcmp(l.pool.bytes + joined.start, datagram, len) == 0);
        }
        lent_free(&l);
    }
}

static void test_join_refusals(void)
{
    static const uint8_t eight[8] = {1, 2, 3, 4, 5, 6, 7, 8};
    struct lent l;

    lent_new(&l, true);
    /* Not for this tool: another destination, its own alias as source, another message, a header over 29 bits, a frame over 8 bytes. */
    CHECK(is_joined(join(&l, 0x1A45722B, eight, 8), BUJORELM_JOINED_IGNORED, 0));
    CHECK(is_joined(join(&l, 0x1A456456, eight, 8), BUJORELM_JOINED_IGNORED, 0));
    CHECK(is_joined(join(&l, 0x19A2822B, eight, 3), BUJORELM_JOINED_IGNORED, 0));
    CHECK(is_joined(join(&l, 0x3A45622B, eight, 8), BUJORELM_JOINED_IGNORED, 0));
    CHECK(is_joined(join(&l, 0x1A45622B, (const uint8_t *)"123456789", 9), BUJORELM_JOINED_IGNORED, 0));
    /* Out of order: a Middle and a Last without a First, a second First, an empty Middle. */
    CHECK(is_joined(join(&l, 0x1C45622B, eight, 8), BUJORELM_JOINED_REFUSED, 0x2040));
    CHECK(is_joined(join(&l, 0x1D45622B, eight, 8), BUJORELM_JOINED_REFUSED, 0x2040));
    CHECK(is_joined(join(&l, 0x1B45622B, eight, 8), BUJORELM_JOINED_PART, 0));
    CHECK(is_joined(join(&l, 0x1B45622B, eight, 8), BUJORELM_JOINED_REFUSED, 0x2040));
    CHECK(is_joined(join(&l, 0x1B45622B, eight, 8), BUJORELM_JOINED_PART, 0));
    CHECK(is_joined(join(&l, 0x1C45622B, NULL, 0), BUJORELM_JOINED_REFUSED, 0x2040));
    /* Too long: 72 bytes, and a Middle behind them. The Last that is swallowed then frees the place. */
    CHECK(is_joined(join(&l, 0x1B45622B, eight, 8), BUJORELM_JOINED_PART, 0));
    for (size_t i = 0; i < 8; i++) {
        CHECK(is_joined(join(&l, 0x1C45622B, eight, 8), BUJORELM_JOINED_PART, 0));
    }
    CHECK(is_joined(join(&l, 0x1C45622B, eight, 1), BUJORELM_JOINED_REFUSED, 0x2000));
    CHECK(is_joined(join(&l, 0x1D45622B, eight, 8), BUJORELM_JOINED_PART, 0));
    /* Eight boards at once, and a ninth; a board that is being swallowed keeps its place. */
    for (uint32_t board = 1; board <= 8; board++) {
        CHECK(is_joined(join(&l, 0x1B456000 | board, eight, 8), BUJORELM_JOINED_PART, 0));
    }
    CHECK(is_joined(join(&l, 0x1B456009, eight, 8), BUJORELM_JOINED_REFUSED, 0x2020));
    CHECK(is_joined(join(&l, 0x1B456008, eight, 8), BUJORELM_JOINED_REFUSED, 0x2040));
    CHECK(is_joined(join(&l, 0x1B456009, eight, 8), BUJORELM_JOINED_REFUSED, 0x2020));
    CHECK(is_joined(join(&l, 0x1B456008, eight, 8), BUJORELM_JOINED_PART, 0));
    CHECK(is_joined(join(&l, 0x1A45600A, eight, 8), BUJORELM_JOINED_IN_FRAME, 0));
    for (uint32_t board = 1; board <= 8; board++) {
        const struct bujorelm_joined joined = join(&l, 0x1D456000 | board, eight, (size_t)board - 1);

        CHECK(is_joined(joined, BUJORELM_JOINED_IN_POOL, 0) && joined.end - joined.start == 7 + board && joined.start % 72 == 0);
    }
    lent_free(&l);
}

/* A frame of the board 0x22B, which has the first place. Afterwards that has just these bytes, and nothing else has changed. */
static struct bujorelm_joined join_step(const struct lent *l, uint32_t top, size_t len, const char *after)
{
    static const uint8_t data[8] = {1, 2, 3, 4, 5, 6, 7, 8};
    uint8_t pool[BUJORELM_POOL_SIZE];
    uint8_t places[sizeof(struct bujorelm_reception)];
    struct bujorelm_joined joined;

    memcpy(pool, l->pool.bytes, sizeof pool);
    memcpy(places, l->reception.bytes, sizeof places);
    CHECK(from_hex(after, places) == 8);
    joined = join(l, top << 24 | TOOL << 12 | BOARD, data, len);
    CHECK_CASE(memcmp(l->reception.bytes, places, sizeof places) == 0, after);
    CHECK_CASE(memcmp(l->pool.bytes, pool, sizeof pool) == 0, after);
    return joined;
}

static const char swallowed[] = "01 00 2B02 0000 01 00";
static const char nothing_kept[] = "00 00 0000 0000 00 00";

/* What is left of a broken datagram: its frames are parts, for which nothing is sent, up to the Last, which frees the place. */
static void check_swallowed(const struct lent *l)
{
    for (size_t len = 0; len <= 8; len++) {
        CHECK(is_joined(join_step(l, 0x1C, len, swallowed), BUJORELM_JOINED_PART, 0));
    }
    CHECK(is_joined(join_step(l, 0x1D, 5, nothing_kept), BUJORELM_JOINED_PART, 0));
    CHECK(is_joined(join_step(l, 0x1C, 5, nothing_kept), BUJORELM_JOINED_REFUSED, 0x2040));
    CHECK(is_joined(join_step(l, 0x1D, 5, nothing_kept), BUJORELM_JOINED_REFUSED, 0x2040));
}

/* A reply datagram that breaks is refused once, whatever breaks it and however many frames are behind. A refused Last leaves nothing to swallow. */
static void test_join_broken(void)
{
    static const struct {
        uint32_t top;
        size_t len;
        uint16_t code;
    } breaches[] = {{0x1A, 8, 0x2040}, {0x1B, 8, 0x2040}, {0x1C, 0, 0x2040}, {0x1C, 8, 0x2000}, {0x1D, 8, 0x2000}};
    static const uint8_t eight[8] = {8, 7, 6, 5, 4, 3, 2, 1};

    for (size_t i = 0; i < sizeof breaches / sizeof breaches[0]; i++) {
        const bool is_last = breaches[i].top == 0x1D;
        struct lent l;

        lent_new(&l, i % 2 == 0);
        CHECK(is_joined(join(&l, 0x1B45622B, eight, 8), BUJORELM_JOINED_PART, 0));
        for (size_t n = 0; n < 8; n++) {
            CHECK(is_joined(join(&l, 0x1C45622B, eight, 8), BUJORELM_JOINED_PART, 0));
        }
        CHECK(is_joined(join_step(&l, breaches[i].top, breaches[i].len, is_last ? nothing_kept : swallowed), BUJORELM_JOINED_REFUSED,
                        breaches[i].code));
        if (!is_last) {
            check_swallowed(&l);
        }
        lent_free(&l);
    }
}

/* The board sends it again: in a First, which opens a datagram in the board's own place, or in a Single. */
static void test_join_repeated(void)
{
    static const uint8_t eight[8] = {8, 7, 6, 5, 4, 3, 2, 1};
    struct bujorelm_joined joined;
    struct lent l;

    lent_new(&l, true);
    CHECK(is_joined(join(&l, 0x1B45622B, eight, 8), BUJORELM_JOINED_PART, 0));
    CHECK(is_joined(join_step(&l, 0x1B, 8, swallowed), BUJORELM_JOINED_REFUSED, 0x2040));
    CHECK(is_joined(join_step(&l, 0x1A, 8, nothing_kept), BUJORELM_JOINED_IN_FRAME, 0));
    CHECK(is_joined(join(&l, 0x1B45622B, eight, 8), BUJORELM_JOINED_PART, 0));
    CHECK(is_joined(join_step(&l, 0x1C, 0, swallowed), BUJORELM_JOINED_REFUSED, 0x2040));
    CHECK(is_joined(join(&l, 0x1B45622B, eight + 2, 6), BUJORELM_JOINED_PART, 0));
    CHECK(memcmp(l.reception.bytes, "\x01\x06\x2B\x02\0\0\0\0", 8) == 0);
    joined = join(&l, 0x1D45622B, eight, 8);
    CHECK(is_joined(joined, BUJORELM_JOINED_IN_POOL, 0) && joined.start == 0 && joined.end == 14);
    CHECK(memcmp(l.pool.bytes, eight + 2, 6) == 0 && memcmp(l.pool.bytes + 6, eight, 8) == 0);
    lent_free(&l);
}

/* A First opens a datagram in the place that its board has, also where an earlier one is free; and no length is asked of a board that is being
   swallowed. */
static void test_join_own_place(void)
{
    static const uint8_t eight[8] = {8, 7, 6, 5, 4, 3, 2, 1};
    struct bujorelm_place *places;
    struct lent l;

    lent_new(&l, false);
    places = ((struct bujorelm_reception *)(void *)l.reception.bytes)->places;
    places[5] = (struct bujorelm_place){.held = 1, .len = 255, .source = BOARD, .swallowing = 0x80};
    CHECK(is_joined(join(&l, 0x1A45622C, eight, 8), BUJORELM_JOINED_IN_FRAME, 0) && places[5].len == 255);
    CHECK(is_joined(join(&l, 0x1C45622B, eight, 8), BUJORELM_JOINED_PART, 0));
    CHECK(memcmp(&places[5], "\x01\x00\x2B\x02\0\0\x01\0", 8) == 0 && places[0].held == 0);
    CHECK(is_joined(join(&l, 0x1B45622B, eight, 3), BUJORELM_JOINED_PART, 0));
    CHECK(memcmp(&places[5], "\x01\x03\x2B\x02\0\0\0\0", 8) == 0 && places[0].held == 0);
    CHECK(is_untouched(l.pool.bytes, 0, 360) && memcmp(l.pool.bytes + 360, eight, 3) == 0 && is_untouched(l.pool.bytes, 363, 576));
    lent_free(&l);
}

/* A state that no call has left is found, and nothing of it changes. */
static void test_join_bad_state(void)
{
    static const uint8_t eight[8] = {0};
    static const struct bujorelm_place bad[] = {{.held = 1, .len = 73, .source = 5},
                                                {.held = 1, .len = 8, .source = 0x1000},
                                                {.held = 1, .len = 8, .source = 0x123},
                                                {.held = 1, .source = 0x1000, .swallowing = 1},
                                                {.held = 1, .source = 0x123, .swallowing = 1}};

    for (size_t i = 0; i < sizeof bad / sizeof bad[0]; i++) {
        struct bujorelm_reception before;
        struct lent l;

        memset(&before, 0, sizeof before);
        before.places[2] = bad[i];
        before.places[6] = (struct bujorelm_place){.held = 1, .len = 9, .source = 0x123};
        lent_new(&l, i % 2 == 0);
        memcpy(l.reception.bytes, &before, sizeof before);
        CHECK(is_joined(join(&l, 0x1D456123, eight, 8), BUJORELM_JOINED_BAD_STATE, 0));
        CHECK(memcmp(l.reception.bytes, &before, sizeof before) == 0 && is_untouched(l.pool.bytes, 0, l.pool.len));
        lent_free(&l);
    }
}

/* The kind of joining that goes with what a board makes of the same frame. */
static enum bujorelm_joined_kind kind_for(struct bujorelm_result result, uint32_t header)
{
    switch (result.kind) {
    case BUJORELM_IGNORED:
        return BUJORELM_JOINED_IGNORED;
    case BUJORELM_JOINED:
        return BUJORELM_JOINED_PART;
    case BUJORELM_TRANSPORT_REFUSAL:
        return BUJORELM_JOINED_REFUSED;
    default:
        return header >> 24 == 0x1A ? BUJORELM_JOINED_IN_FRAME : BUJORELM_JOINED_IN_POOL;
    }
}

/* A tool joins as a board does: a board with the tool's alias is fed the same frames, with the tick 0 that every frame has for a tool. */
static void random_joins(unsigned long count)
{
    static struct bujorelm_node board;
    struct bujorelm_description description = {.alias = TOOL};
    struct lent l;

    lent_new(&l, false);
    bujorelm_node_start(&board, &description, NULL, 0, NULL, 0);
    memcpy(board.pool, l.pool.bytes, sizeof board.pool);
    for (unsigned long i = 0; i < count; i++) {
        const uint32_t top = random_below(30) == 0 ? 0x19 + random_below(8) : 0x1A + random_below(4);
        const uint32_t header = top << 24 | (random_below(30) == 0 ? random_below(0x1000) : TOOL) << 12 | (1 + random_below(10));
        struct guarded data = guarded_new(random_below(30) == 0 ? random_below(12) : 1 + random_below(8), i % 2 == 0);
        struct bujorelm_joined joined;
        struct bujorelm_result result;

        random_bytes(data.bytes, data.len);
        guarded_read_only(&data);
        result = bujorelm_node_handle_frame(&board, 0, header, data.bytes, data.len);
        joined = join(&l, header, data.bytes, data.len);
        CHECK(is_joined(joined, kind_for(result, header), result.kind == BUJORELM_TRANSPORT_REFUSAL ? result.code : 0));
        CHECK(memcmp(&board.reception, l.reception.bytes, l.reception.len) == 0 && memcmp(board.pool, l.pool.bytes, l.pool.len) == 0);
        guarded_free(&data);
    }
    lent_free(&l);
}

/* ---- Version ---- */

static void test_version(void)
{
    CHECK(bujorelm_tool_version() == 0x00030000 && BUJORELM_TOOL_VERSION == 0x00030000 && bujorelm_tool_version_fits());
    CHECK(BUJORELM_COMMAND_MIN == 72 && BUJORELM_PAIRS_MIN == 64 && BUJORELM_RECEIVED_OK_MAX == 1 && BUJORELM_REJECTED_MAX == 66);
}

int main(int argc, char **argv)
{
    const unsigned long count = argc > 1 ? strtoul(argv[1], NULL, 10) : 50000;

    test_version();
    test_command_bytes();
    test_lock_bytes();
    test_counts();
    test_lengths();
    test_no_buffer();
    test_every_space();
    random_requests(count);
    test_received_ok();
    test_rejected();
    test_meeting();
    test_meeting_about_the_board();
    random_meetings(count);
    test_join();
    test_join_refusals();
    test_join_broken();
    test_join_repeated();
    test_join_own_place();
    test_join_bad_state();
    random_joins(count);
    return check_result("tool_library");
}
