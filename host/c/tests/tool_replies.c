/*
 * Tests of the reader of reply datagrams through its C interface: each form with and without what may be missing, one byte too few and one too
 * many, texts that are missing, empty, without their zero and with two, what is no reply, and pseudo-random datagrams.
 *
 * Usage: tool_replies [how many pseudo-random datagrams]
 */
#define _DEFAULT_SOURCE

#include "tool_check.h"

static const struct bujorelm_reply no_reply = {.kind = BUJORELM_REPLY_NONE};

static void check_reply(const char *hex, struct bujorelm_reply wanted)
{
    uint8_t datagram[80];
    const size_t len = from_hex(hex, datagram);
    const struct bujorelm_reply got = read_reply(datagram, len);

    CHECK_CASE(same_reply(&got, &wanted), hex);
}

/* ---- Reads and writes ---- */

/* A reply with an address, which is 0x89ABCDEF throughout. */
static struct bujorelm_reply about_place(enum bujorelm_reply_kind kind, enum bujorelm_form form, uint8_t space, uint16_t code,
                                         struct bujorelm_bytes bytes)
{
    return (struct bujorelm_reply){.kind = kind, .address = 0x89ABCDEF, .code = code, .space = space, .form = (uint8_t)form, .bytes = bytes};
}

static void test_read(void)
{
    const enum bujorelm_reply_kind kind = BUJORELM_REPLY_READ;

    check_reply("20 50 89ABCDEF 00 AA", about_place(kind, BUJORELM_FORM_BYTE_6, 0x00, 0, at(7, 1)));
    check_reply("20 50 89ABCDEF 10 AABB", about_place(kind, BUJORELM_FORM_BYTE_6, 0x10, 0, at(7, 2)));
    /* 0xFD by byte 6 is the same space in another form. */
    check_reply("20 50 89ABCDEF FD AA", about_place(kind, BUJORELM_FORM_BYTE_6, 0xFD, 0, at(7, 1)));
    check_reply("20 51 89ABCDEF AA", about_place(kind, BUJORELM_FORM_FD, 0xFD, 0, at(6, 1)));
    check_reply("20 52 89ABCDEF AABBCC", about_place(kind, BUJORELM_FORM_FE, 0xFE, 0, at(6, 3)));
    check_reply("20 53 89ABCDEF 00", about_place(kind, BUJORELM_FORM_FF, 0xFF, 0, at(6, 1)));
    /* Without data, and shorter still. */
    check_reply("20 50 89ABCDEF 10", no_reply);
    check_reply("20 50 89ABCDEF", no_reply);
    check_reply("20 51 89ABCDEF", no_reply);
    check_reply("20 53 89ABCD", no_reply);
    check_reply("20 53", no_reply);
}

static void test_written(void)
{
    const enum bujorelm_reply_kind kind = BUJORELM_REPLY_WRITTEN;

    check_reply("20 10 89ABCDEF 00", about_place(kind, BUJORELM_FORM_BYTE_6, 0x00, 0, none));
    check_reply("20 10 89ABCDEF FF", about_place(kind, BUJORELM_FORM_BYTE_6, 0xFF, 0, none));
    check_reply("20 11 89ABCDEF", about_place(kind, BUJORELM_FORM_FD, 0xFD, 0, none));
    check_reply("20 12 89ABCDEF", about_place(kind, BUJORELM_FORM_FE, 0xFE, 0, none));
    check_reply("20 13 89ABCDEF", about_place(kind, BUJORELM_FORM_FF, 0xFF, 0, none));
    /* A byte behind it, or one that is missing. */
    check_reply("20 10 89ABCDEF 00 00", no_reply);
    check_reply("20 10 89ABCDEF", no_reply);
    check_reply("20 11 89ABCDEF 00", no_reply);
    check_reply("20 11 89ABCD", no_reply);
}

/* What stands behind the first digit of the command: 5 for the failure of a read, 1 for that of a write. */
static const struct {
    const char *rest;
    bool good;
    enum bujorelm_form form;
    uint8_t space;
    uint16_t code;
    struct bujorelm_bytes message;
} failures[] = {
    {"8 89ABCDEF 00 1081", true, BUJORELM_FORM_BYTE_6, 0x00, 0x1081, {false, 0, 0}},
    {"8 89ABCDEF 10 0000", true, BUJORELM_FORM_BYTE_6, 0x10, 0x0000, {false, 0, 0}},
    {"8 89ABCDEF 10 1082 00", true, BUJORELM_FORM_BYTE_6, 0x10, 0x1082, {true, 9, 0}},
    {"8 89ABCDEF 10 1082 4100", true, BUJORELM_FORM_BYTE_6, 0x10, 0x1082, {true, 9, 1}},
    {"9 89ABCDEF 1082", true, BUJORELM_FORM_FD, 0xFD, 0x1082, {false, 0, 0}},
    {"A 89ABCDEF FFFF", true, BUJORELM_FORM_FE, 0xFE, 0xFFFF, {false, 0, 0}},
    {"B 89ABCDEF 1083", true, BUJORELM_FORM_FF, 0xFF, 0x1083, {false, 0, 0}},
    {"9 89ABCDEF 1082 00", true, BUJORELM_FORM_FD, 0xFD, 0x1082, {true, 8, 0}},
    {"9 89ABCDEF 1082 6F66660A00", true, BUJORELM_FORM_FD, 0xFD, 0x1082, {true, 8, 4}},
    /* A text without its zero, with two, with one in front of it. */
    {"9 89ABCDEF 1082 41", false, BUJORELM_FORM_FD, 0, 0, {false, 0, 0}},
    {"9 89ABCDEF 1082 410000", false, BUJORELM_FORM_FD, 0, 0, {false, 0, 0}},
    {"9 89ABCDEF 1082 004100", false, BUJORELM_FORM_FD, 0, 0, {false, 0, 0}},
    {"9 89ABCDEF 1082 0000", false, BUJORELM_FORM_FD, 0, 0, {false, 0, 0}},
    /* Half a code, or none. Where the space is byte 6, the last of these has a space and half a code. */
    {"9 89ABCDEF 10", false, BUJORELM_FORM_FD, 0, 0, {false, 0, 0}},
    {"9 89ABCDEF", false, BUJORELM_FORM_FD, 0, 0, {false, 0, 0}},
    {"8 89ABCDEF 10 10", false, BUJORELM_FORM_BYTE_6, 0, 0, {false, 0, 0}},
};

static void test_failures(enum bujorelm_reply_kind kind, int digit)
{
    for (size_t i = 0; i < sizeof failures / sizeof failures[0]; i++) {
        const struct bujorelm_reply wanted =
            about_place(kind, failures[i].form, failures[i].space, failures[i].code, failures[i].message);
        char hex[64];

        (void)snprintf(hex, sizeof hex, "20 %d%s", digit, failures[i].rest);
        check_reply(hex, failures[i].good ? wanted : no_reply);
    }
}

/* ---- The board and its spaces ---- */

static struct bujorelm_reply options(bool has_lowest, uint8_t lowest, struct bujorelm_bytes name)
{
    return (struct bujorelm_reply){
        .kind = BUJORELM_REPLY_OPTIONS,
        .options = {.commands = 0xE012, .write_lengths = 0xF2, .highest_space = 0xFF, .has_lowest_space = has_lowest, .lowest_space = lowest},
        .bytes = name};
}

static void test_options(void)
{
    check_reply("20 82 E012 F2 FF", options(false, 0, none));
    check_reply("20 82 E012 F2 FF 00", options(true, 0, none));
    check_reply("20 82 E012 F2 FF 10", options(true, 0x10, none));
    check_reply("20 82 E012 F2 FF 10 00", options(true, 0x10, at(7, 0)));
    check_reply("20 82 E012 F2 FF 00 00", options(true, 0, at(7, 0)));
    check_reply("20 82 E012 F2 FF 10 41420A00", options(true, 0x10, at(7, 3)));
    /* A name right behind byte 5 is none: its first letter is the lowest space. */
    check_reply("20 82 E012 F2 FF 424300", options(true, 0x42, at(7, 1)));
    check_reply("20 82 E012 F2 FF 4200", options(true, 0x42, at(7, 0)));
    check_reply("20 82 E012 F2 FF 004200", options(true, 0, at(7, 1)));
    check_reply("20 82 E012 F2", no_reply);
    check_reply("20 82 E012", no_reply);
    check_reply("20 82", no_reply);
    check_reply("20 82 E012 F2 FF 10 41", no_reply);
    check_reply("20 82 E012 F2 FF 10 410000", no_reply);
    check_reply("20 82 E012 F2 FF 10 0000", no_reply);
}

/* What stands behind the command, which is 0x87 for a space that is there and 0x86 for one that is not. */
static const struct {
    const char *rest;
    bool good;
    uint8_t space;
    uint8_t flags;
    uint32_t lowest;
    struct bujorelm_bytes description;
} informations[] = {
    {"10 12345678 00", true, 0x10, 0x00, 0, {false, 0, 0}},
    {"00 12345678 01", true, 0x00, 0x01, 0, {false, 0, 0}},
    {"10 12345678 FD", true, 0x10, 0xFD, 0, {false, 0, 0}},
    {"10 12345678 02 00000000", true, 0x10, 0x02, 0, {false, 0, 0}},
    {"10 12345678 03 89ABCDEF", true, 0x10, 0x03, 0x89ABCDEF, {false, 0, 0}},
    {"FF 12345678 FF 00000100", true, 0xFF, 0xFF, 0x100, {false, 0, 0}},
    {"10 12345678 00 00", true, 0x10, 0x00, 0, {true, 8, 0}},
    {"10 12345678 01 434449 00", true, 0x10, 0x01, 0, {true, 8, 3}},
    {"10 12345678 02 00000100 00", true, 0x10, 0x02, 0x100, {true, 12, 0}},
    {"10 12345678 02 00000100 4100", true, 0x10, 0x02, 0x100, {true, 12, 1}},
    /* Without bit 1 of the flags there is no address: four bytes are a description, if they have the form of one. */
    {"10 12345678 01 41424300", true, 0x10, 0x01, 0, {true, 8, 3}},
    {"10 12345678 00 00000100", false, 0, 0, 0, {false, 0, 0}},
    /* With bit 1 there are four bytes of address, whatever they look like, and a description is only behind them. */
    {"10 12345678 02 41424300", true, 0x10, 0x02, 0x41424300, {false, 0, 0}},
    {"10 12345678 02", false, 0, 0, 0, {false, 0, 0}},
    {"10 12345678 02 000001", false, 0, 0, 0, {false, 0, 0}},
    {"10 12345678 02 4100", false, 0, 0, 0, {false, 0, 0}},
    {"10 12345678 02 00000100 41", false, 0, 0, 0, {false, 0, 0}},
    {"10 12345678 02 00000100 410000", false, 0, 0, 0, {false, 0, 0}},
    {"10 12345678", false, 0, 0, 0, {false, 0, 0}},
    {"10 123456", false, 0, 0, 0, {false, 0, 0}},
    {"", false, 0, 0, 0, {false, 0, 0}},
};

static void test_information(bool present)
{
    for (size_t i = 0; i < sizeof informations / sizeof informations[0]; i++) {
        const struct bujorelm_reply wanted = {.kind = BUJORELM_REPLY_INFORMATION,
                                              .space = informations[i].space,
                                              .information = {.highest_address = 0x12345678,
                                                              .lowest_address = informations[i].lowest,
                                                              .flags = informations[i].flags,
                                                              .present = present,
                                                              .has_lowest_address = (informations[i].flags & 0x02) != 0},
                                              .bytes = informations[i].description};
        char hex[64];

        (void)snprintf(hex, sizeof hex, "20 %s %s", present ? "87" : "86", informations[i].rest);
        check_reply(hex, informations[i].good ? wanted : no_reply);
    }
}

static void test_lock(void)
{
    const struct bujorelm_reply wanted = {.kind = BUJORELM_REPLY_LOCK, .bytes = {.given = true, .start = 2, .len = 6}};

    check_reply("20 8A 000000000000", wanted);
    check_reply("20 8A 0501010118AB", wanted);
    check_reply("20 8A 0501010118", no_reply);
    check_reply("20 8A 0501010118AB00", no_reply);
    check_reply("20 8A", no_reply);
}

/* ---- Lengths ---- */

/* A reply whose data or text, with its zero, begins at `head` and has so many bytes: none is no data, and no text. */
static void check_length(uint8_t command, size_t head, size_t most, bool text, size_t len)
{
    uint8_t datagram[80] = {0x20, command};
    struct bujorelm_reply got;

    memset(datagram + head, 'x', len);
    if (text && len != 0) {
        datagram[head + len - 1] = 0;
    }
    got = read_reply(datagram, head + len);
    if (len >= 1 && len <= most) {
        CHECK(got.kind != BUJORELM_REPLY_NONE && same_bytes(got.bytes, at(head, text ? len - 1 : len)));
    } else if (len == 0 && text) {
        CHECK(got.kind != BUJORELM_REPLY_NONE && same_bytes(got.bytes, none));
    } else {
        CHECK(same_reply(&got, &no_reply));
    }
}

/* Data up to 64 bytes and texts up to their longest, and over that: 63 bytes in a failure, and else as many as a datagram has left. */
static void test_lengths(void)
{
    for (size_t len = 0; len <= 71; len++) {
        check_length(0x50, 7, 64, false, len);
        check_length(0x51, 6, 64, false, len);
        check_length(0x52, 6, 64, false, len);
        check_length(0x53, 6, 64, false, len);
        check_length(0x58, 9, 63, true, len);
        check_length(0x59, 8, 63, true, len);
        check_length(0x18, 9, 63, true, len);
        check_length(0x1B, 8, 63, true, len);
        check_length(0x82, 7, 65, true, len);
        check_length(0x86, 8, 64, true, len);
        check_length(0x87, 8, 64, true, len);
    }
}

/* A good reply is none with any other byte 0. */
static void check_byte_0(const char *hex)
{
    uint8_t datagram[80];
    const size_t len = from_hex(hex, datagram);

    for (unsigned byte = 0; byte < 256; byte++) {
        struct bujorelm_reply got;

        datagram[0] = (uint8_t)byte;
        got = read_reply(datagram, len);
        CHECK_CASE(byte == 0x20 ? got.kind != BUJORELM_REPLY_NONE : same_reply(&got, &no_reply), hex);
    }
}

/* No command but those of the replies has a reply's form, whatever its length. */
static void check_command(uint8_t command)
{
    const uint8_t no_form = command & 0xF4; /* without the bits for a failure and for the space */
    const bool known = no_form == 0x10 || no_form == 0x50 || command == 0x82 || command == 0x86 || command == 0x87 || command == 0x8A;
    const uint8_t datagram[80] = {0x20, command};

    for (size_t len = 0; len <= sizeof datagram && !known; len++) {
        const struct bujorelm_reply got = read_reply(datagram, len);

        CHECK(same_reply(&got, &no_reply));
    }
}

/* Options with a name that has its zero at index `zero`. */
static bool is_read_with_zero(size_t zero, size_t len)
{
    uint8_t datagram[300];

    memset(datagram, 'x', sizeof datagram);
    from_hex("20 82 E000 F2 FF 10", datagram);
    datagram[zero] = 0;
    return read_reply(datagram, len).kind != BUJORELM_REPLY_NONE;
}

static void test_no_reply(void)
{
    const struct bujorelm_reply nothing = reply_in(NULL, 0);

    CHECK(same_reply(&nothing, &no_reply));
    check_reply("20", no_reply);
    check_byte_0("20 51 00000000 01");
    check_byte_0("20 59 00000000 1082");
    check_byte_0("20 11 00000000");
    check_byte_0("20 19 00000000 1082");
    check_byte_0("20 82 E000 F2 FF 10");
    check_byte_0("20 86 11 00000000 00");
    check_byte_0("20 87 10 0000010F 00");
    check_byte_0("20 8A 0501010118AB");
    for (unsigned command = 0; command < 256; command++) {
        check_command((uint8_t)command);
    }
    /* Over 72 bytes, with a name that ends there or before. */
    for (size_t len = 72; len <= 300; len++) {
        CHECK(is_read_with_zero(len - 1, len) == (len == 72));
        CHECK(is_read_with_zero(71, len) == (len == 72));
    }
}

/* ---- Pseudo-random datagrams, read here by the standard's tables ---- */

/* A text that fills the rest of a datagram: none, or one whose last byte is its only zero. False where it is neither. */
static bool text_at(const uint8_t *datagram, size_t len, size_t start, size_t most, struct bujorelm_bytes *text)
{
    *text = none;
    if (len == start) {
        return true;
    }
    if (len < start || len - start > most || memchr(datagram + start, 0, len - start) != datagram + len - 1) {
        return false;
    }
    *text = at(start, len - start - 1);
    return true;
}

static uint32_t number_at(const uint8_t *bytes)
{
    return (uint32_t)bytes[0] << 24 | (uint32_t)bytes[1] << 16 | (uint32_t)bytes[2] << 8 | bytes[3];
}

/* The fields of a reply with an address; false where they are not there. */
static bool place_fields(const uint8_t *d, size_t len, struct bujorelm_reply *r)
{
    const uint8_t form = d[1] & 3;
    const size_t head = form == 0 ? 7 : 6;
    const bool is_read = (d[1] & 0x40) != 0;

    if (len < head) {
        return false;
    }
    r->address = number_at(d + 2);
    r->form = form;
    r->space = form == 0 ? d[6] : (uint8_t)(0xFC + form);
    if ((d[1] & 0x08) != 0) {
        r->kind = is_read ? BUJORELM_REPLY_READ_FAILURE : BUJORELM_REPLY_WRITE_FAILURE;
        r->code = (uint16_t)(len < head + 2 ? 0 : d[head] << 8 | d[head + 1]);
        return text_at(d, len, head + 2, 63, &r->bytes);
    }
    r->kind = is_read ? BUJORELM_REPLY_READ : BUJORELM_REPLY_WRITTEN;
    r->bytes = is_read ? at(head, len - head) : none;
    return is_read ? len > head && len - head <= 64 : len == head;
}

/* The same of one without. */
static bool other_fields(const uint8_t *d, size_t len, struct bujorelm_reply *r)
{
    if (d[1] == 0x8A) {
        r->kind = BUJORELM_REPLY_LOCK;
        r->bytes = at(2, 6);
        return len == 8;
    }
    if (d[1] == 0x82 && len >= 6) {
        r->kind = BUJORELM_REPLY_OPTIONS;
        r->options = (struct bujorelm_options){(uint16_t)(d[2] << 8 | d[3]), d[4], d[5], len > 6, len > 6 ? d[6] : 0};
        return len == 6 || text_at(d, len, 7, 72, &r->bytes);
    }
    if ((d[1] == 0x86 || d[1] == 0x87) && len >= 8) {
        const bool given = (d[7] & 2) != 0;

        r->kind = BUJORELM_REPLY_INFORMATION;
        r->space = d[2];
        r->information = (struct bujorelm_information){number_at(d + 3), given && len >= 12 ? number_at(d + 8) : 0, d[7], d[1] == 0x87, given};
        return text_at(d, len, given ? 12 : 8, 72, &r->bytes);
    }
    return false;
}

static struct bujorelm_reply expected_reply(const uint8_t *d, size_t len)
{
    const bool has_place = len >= 2 && ((d[1] & 0xF4) == 0x10 || (d[1] & 0xF4) == 0x50);
    struct bujorelm_reply r = no_reply;

    if (len < 2 || len > 72 || d[0] != 0x20 || !(has_place ? place_fields(d, len, &r) : other_fields(d, len, &r))) {
        return no_reply;
    }
    return r;
}

/* A datagram that is often a reply, or nearly one. Returns its length. */
static size_t random_datagram(uint8_t *datagram)
{
    static const uint8_t commands[] = {0x50, 0x51, 0x52, 0x53, 0x58, 0x59, 0x5A, 0x5B, 0x10, 0x11, 0x12,
                                       0x13, 0x18, 0x19, 0x1A, 0x1B, 0x82, 0x86, 0x87, 0x8A, 0x54};
    const size_t len = random_below(4) == 0 ? random_below(80) : 6 + random_below(9);

    random_bytes(datagram, 80);
    datagram[0] = random_below(50) == 0 ? 0x21 : 0x20;
    datagram[1] = random_below(20) == 0 ? datagram[1] : commands[random_below(sizeof commands)];
    if (len > 0 && random_below(2) == 0) {
        datagram[len - 1] = 0;
    }
    return len;
}

static void random_replies(unsigned long count)
{
    unsigned long seen[BUJORELM_REPLY_LOCK + 1] = {0};

    for (unsigned long i = 0; i < count; i++) {
        uint8_t datagram[80];
        const size_t len = random_datagram(datagram);
        const struct bujorelm_reply wanted = expected_reply(datagram, len);
        const struct bujorelm_reply got = read_reply(datagram, len);

        CHECK(same_reply(&got, &wanted));
        seen[wanted.kind]++;
    }
    for (size_t kind = 0; kind < sizeof seen / sizeof seen[0] && count >= 20000; kind++) {
        CHECK(seen[kind] >= 20);
    }
}

int main(int argc, char **argv)
{
    const unsigned long count = argc > 1 ? strtoul(argv[1], NULL, 10) : 50000;

    test_read();
    test_written();
    test_failures(BUJORELM_REPLY_READ_FAILURE, 5);
    test_failures(BUJORELM_REPLY_WRITE_FAILURE, 1);
    test_options();
    test_information(true);
    test_information(false);
    test_lock();
    test_lengths();
    test_no_reply();
    random_replies(count);
    return check_result("tool_replies");
}
