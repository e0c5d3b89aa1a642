/* What a board answers, in plain words. What may be missing in an answer has words of its own: they are never those of a zero or of an empty
   text. */
#include "tool_explain.h"

#include <stdio.h>
#include <string.h>

#define ROW 16u

static bool is_printable(uint8_t byte)
{
    return byte >= 0x20 && byte <= 0x7E;
}

/* ---- Bytes and texts ---- */

static void print_hex(const uint8_t *bytes, size_t len)
{
    for (size_t i = 0; i < len; i++) {
        printf(" %02X", bytes[i]);
    }
}

/* A row of at most 16 bytes of memory: the address of the first, all in hex, and as text, with a dot for what cannot be printed. */
static void print_row(uint32_t address, const uint8_t *bytes, size_t len)
{
    printf("  %08lX ", (unsigned long)address);
    print_hex(bytes, len);
    printf("%*s  ", (int)(3 * (ROW - len)), "");
    for (size_t i = 0; i < len; i++) {
        putchar(is_printable(bytes[i]) ? bytes[i] : '.');
    }
    putchar('\n');
}

static void print_memory(uint32_t address, const uint8_t *bytes, size_t len)
{
    for (size_t at = 0; at < len; at += ROW) {
        print_row(address + (uint32_t)at, bytes + at, len - at < ROW ? len - at : ROW);
    }
}

/* A text between quotes. What cannot be printed is given in hex, so that no board can send a terminal its control characters. */
static void print_quoted(const uint8_t *text, size_t len)
{
    putchar('"');
    for (size_t i = 0; i < len; i++) {
        if (!is_printable(text[i])) {
            printf("\\x%02X", text[i]);
        } else {
            printf(text[i] == '"' || text[i] == '\\' ? "\\%c" : "%c", text[i]);
        }
    }
    putchar('"');
}

/* A text that may be missing, and is then not empty. */
static void print_text(const char *name, const uint8_t *datagram, struct bujorelm_bytes text)
{
    if (!text.given) {
        printf("  no %s\n", name);
    } else if (text.len == 0) {
        printf("  an empty %s\n", name);
    } else {
        printf("  the %s ", name);
        print_quoted(datagram + text.start, text.len);
        putchar('\n');
    }
}

/* ---- Codes ---- */

static const struct {
    enum bujorelm_code code;
    const char *meaning;
} meanings[] = {
    {BUJORELM_CODE_UNKNOWN_COMMAND, "the board does not know this command"},
    {BUJORELM_CODE_UNKNOWN_DATAGRAM_TYPE, "the board does not know this type of datagram"},
    {BUJORELM_CODE_INVALID_ARGUMENTS, "invalid arguments"},
    {BUJORELM_CODE_UNKNOWN_SPACE, "the board has no such space"},
    {BUJORELM_CODE_OUT_OF_BOUNDS, "the address is outside the space"},
    {BUJORELM_CODE_READ_ONLY, "the space is read-only"},
    {BUJORELM_CODE_TEMPORARY, "the datagram could not be taken"},
    {BUJORELM_CODE_BUFFER_UNAVAILABLE, "the board has no buffer free"},
    {BUJORELM_CODE_OUT_OF_ORDER, "frames that do not follow on each other"},
};

/* The meaning of a code, where it has one here, and what follows for whoever sent the command: the top four bits say that of every code. */
static void print_code(uint16_t code)
{
    const unsigned sort = code & 0xF000u;

    printf("0x%04X", code);
    for (size_t i = 0; i < sizeof meanings / sizeof meanings[0]; i++) {
        if (meanings[i].code == code) {
            printf(", %s", meanings[i].meaning);
        }
    }
    if (sort == 0x1000) {
        fputs(" (permanent error: not to be repeated)", stdout);
    } else if (sort == 0x2000) {
        fputs(" (temporary error: may be repeated)", stdout);
    } else {
        fputs(" (an error that is neither permanent nor temporary)", stdout);
    }
}

/* ---- Transport replies ---- */

static bool explain_received_ok(const struct answer *answer)
{
    struct bujorelm_acknowledged read;

    bujorelm_read_received_ok(answer->bytes, answer->len, &read);
    if (read.refusal != BUJORELM_REFUSAL_NONE) {
        printf("W3: a Received OK of more than %u byte:", BUJORELM_RECEIVED_OK_MAX);
        print_hex(answer->bytes, answer->len);
        putchar('\n');
        return false;
    }
    if (!read.pending) {
        puts("Received OK: done, no reply follows");
    } else if (read.timeout == 0) {
        puts("Received OK: a reply follows");
    } else {
        printf("Received OK: a reply follows within %lu seconds\n", 1ul << read.timeout);
    }
    return true;
}

static bool explain_rejected(const struct answer *answer)
{
    struct bujorelm_rejection read;

    bujorelm_read_rejected(answer->bytes, answer->len, &read);
    if (read.refusal != BUJORELM_REFUSAL_NONE) {
        printf("W3: a Rejected of more than %u bytes:", BUJORELM_REJECTED_MAX);
        print_hex(answer->bytes, answer->len);
        putchar('\n');
        return false;
    }
    fputs("Rejected: ", stdout);
    print_code(read.code);
    putchar('\n');
    if (read.further.len != 0) {
        fputs("  behind the code:", stdout);
        print_hex(answer->bytes + read.further.start, read.further.len);
        putchar('\n');
    }
    return false;
}

/* ---- Reply datagrams ---- */

static void explain_failure(const char *what, const uint8_t *datagram, const struct bujorelm_reply *reply)
{
    printf("The %s address 0x%08lX of space 0x%02X failed: ", what, (unsigned long)reply->address, reply->space);
    print_code(reply->code);
    putchar('\n');
    print_text("message", datagram, reply->bytes);
}

/* The commands that a board says it has, by their bits; the other bits are reserved and ignored. */
static void print_commands(uint16_t bits)
{
    static const struct {
        uint16_t bit;
        const char *name;
    } commands[] = {
        {0x8000, "masked writes"},         {0x4000, "unaligned reads"},       {0x2000, "unaligned writes"},
        {0x0800, "reads from space 0xFC"}, {0x0400, "reads from space 0xFB"}, {0x0200, "writes to space 0xFB"},
    };
    const char *before = ": ";

    printf("  commands 0x%04X", bits);
    for (size_t i = 0; i < sizeof commands / sizeof commands[0]; i++) {
        if ((bits & commands[i].bit) != 0) {
            printf("%s%s", before, commands[i].name);
            before = ", ";
        }
    }
    putchar('\n');
}

static void explain_options(const uint8_t *datagram, const struct bujorelm_reply *reply)
{
    const struct bujorelm_options *const options = &reply->options;

    puts("The options of the board:");
    print_commands(options->commands);
    printf("  Write Lengths 0x%02X\n  highest space 0x%02X\n", options->write_lengths, options->highest_space);
    if (options->has_lowest_space) {
        printf("  lowest space 0x%02X\n", options->lowest_space);
    } else {
        puts("  no lowest space given");
    }
    print_text("name", datagram, reply->bytes);
}

static void explain_information(const uint8_t *datagram, const struct bujorelm_reply *reply)
{
    const struct bujorelm_information *const information = &reply->information;
    const bool read_only = (information->flags & BUJORELM_INFORMATION_READ_ONLY) != 0;

    printf("Space 0x%02X is %s:\n  highest address 0x%08lX\n", reply->space, information->present ? "there" : "not there",
           (unsigned long)information->highest_address);
    if (information->has_lowest_address) {
        printf("  lowest address 0x%08lX\n", (unsigned long)information->lowest_address);
    } else {
        puts("  no lowest address given, which means 0");
    }
    printf("  flags 0x%02X: %s\n", information->flags, read_only ? "read-only" : "writable");
    print_text("description", datagram, reply->bytes);
}

/* Who holds the lock. Nobody is well for who asked for the zero ID, which releases, and for who did not ask. */
static bool explain_lock(const uint8_t *holder, const uint8_t *id)
{
    static const uint8_t nobody[6] = {0};
    const bool held = memcmp(holder, nobody, sizeof nobody) != 0;
    const bool as_asked = id != NULL && memcmp(holder, id, sizeof nobody) == 0;

    if (held) {
        printf("The lock is held by %s%02X.%02X.%02X.%02X.%02X.%02X\n", as_asked ? "you, " : id != NULL ? "another, " : "", holder[0],
               holder[1], holder[2], holder[3], holder[4], holder[5]);
    } else {
        puts("Nobody holds the lock");
    }
    return id == NULL || as_asked;
}

static bool explain_datagram(const struct answer *answer, const uint8_t *id)
{
    struct bujorelm_reply reply;
    unsigned long address;

    bujorelm_read_reply(answer->bytes, answer->len, &reply);
    address = reply.address;
    switch (reply.kind) {
    case BUJORELM_REPLY_READ:
        printf("%zu byte%s from address 0x%08lX of space 0x%02X:\n", (size_t)reply.bytes.len, reply.bytes.len == 1 ? "" : "s", address,
               reply.space);
        print_memory(reply.address, answer->bytes + reply.bytes.start, reply.bytes.len);
        return true;
    case BUJORELM_REPLY_READ_FAILURE:
        explain_failure("read from", answer->bytes, &reply);
        return false;
    case BUJORELM_REPLY_WRITTEN:
        printf("The write to address 0x%08lX of space 0x%02X is done\n", address, reply.space);
        return true;
    case BUJORELM_REPLY_WRITE_FAILURE:
        explain_failure("write to", answer->bytes, &reply);
        return false;
    case BUJORELM_REPLY_OPTIONS:
        explain_options(answer->bytes, &reply);
        return true;
    case BUJORELM_REPLY_INFORMATION:
        explain_information(answer->bytes, &reply);
        return true;
    case BUJORELM_REPLY_LOCK:
        return explain_lock(answer->bytes + reply.bytes.start, id);
    case BUJORELM_REPLY_NONE:
    default:
        printf("W3: a datagram of %zu bytes in no form of a reply:", answer->len);
        print_hex(answer->bytes, answer->len);
        putchar('\n');
        return false;
    }
}

static bool explain_kind(const struct answer *answer, const uint8_t *id)
{
    switch (answer->kind) {
    case ANSWER_RECEIVED_OK:
        return explain_received_ok(answer);
    case ANSWER_REJECTED:
        return explain_rejected(answer);
    case ANSWER_DATAGRAM:
        return explain_datagram(answer, id);
    case ANSWER_OUT_OF_ORDER:
        fputs("A frame of a reply is out of order: ", stdout);
        print_code(answer->code);
        putchar('\n');
        return false;
    case ANSWER_NONE:
    default:
        return true;
    }
}

bool explain(const struct answer *answer, const uint8_t *id)
{
    const bool well = explain_kind(answer, id);

    /* Whoever reads this need not wait for the next answer. An error of the output is found at the end. */
    (void)fflush(stdout);
    return well;
}
