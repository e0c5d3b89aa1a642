/* The commands of the bench tool: numbers and IDs read from words, and the library's writer called for each command. */
#include "tool_words.h"

#include <ctype.h>
#include <errno.h>
#include <stdarg.h>
#include <stdio.h>
#include <stdlib.h>
#include <string.h>

void complain(const struct words *words, const char *format, ...)
{
    va_list values;

    fputs("tool: ", stderr);
    if (words->line != 0) {
        fprintf(stderr, "line %lu: ", words->line);
    }
    va_start(values, format);
    vfprintf(stderr, format, values);
    va_end(values);
    fputc('\n', stderr);
}

/* ---- Numbers and IDs ---- */

bool read_number(const struct words *words, const char *name, const char *word, uint64_t least, uint64_t most, uint64_t *value)
{
    const bool hex = word[0] == '0' && (word[1] == 'x' || word[1] == 'X');
    const char *const digits = hex ? word + 2 : word;
    unsigned long long number;

    if (digits[0] == '\0' || digits[strspn(digits, hex ? "0123456789ABCDEFabcdef" : "0123456789")] != '\0') {
        complain(words, "%s is a number, in decimal or as 0x.., and not '%s'", name, word);
        return false;
    }
    errno = 0;
    number = strtoull(digits, NULL, hex ? 16 : 10);
    if (errno != 0 || number < least || number > most) {
        complain(words, "%s is %llu to %llu, and not %s", name, (unsigned long long)least, (unsigned long long)most, word);
        return false;
    }
    *value = number;
    return true;
}

/* Reads the words from index `first` on as bytes. There is room for as many as there may be words. */
static bool read_bytes(const struct words *words, size_t first, const char *name, uint8_t *bytes)
{
    for (size_t i = first; i < words->count; i++) {
        uint64_t value;

        if (!read_number(words, name, words->word[i], 0, 0xFF, &value)) {
            return false;
        }
        bytes[i - first] = (uint8_t)value;
    }
    return true;
}

/* Reads pairs of hex digits, with a dot between each two pairs or with none at all. How many there should be is left to the library. */
static bool read_id(const struct words *words, const char *word, uint8_t *bytes, size_t *len)
{
    const size_t step = strchr(word, '.') == NULL ? 2 : 3;
    const size_t ended = strlen(word) + step - 2; /* as if a dot were behind the last pair too */
    bool right = ended % step == 0 && ended / step <= WORDS_MAX;

    for (size_t at = 0; right && at < ended; at += step) {
        const char pair[] = {word[at], word[at + 1], '\0'};

        right = isxdigit((unsigned char)pair[0]) && isxdigit((unsigned char)pair[1]) &&
                (step == 2 || at + step == ended || word[at + 2] == '.');
        bytes[at / step] = (uint8_t)strtoul(pair, NULL, 16);
    }
    if (!right) {
        complain(words, "ID is six bytes in hex digits, as 05.01.01.01.18.AB or 0501010118AB, and not '%s'", word);
        return false;
    }
    *len = ended / step;
    return true;
}

/* The space and the address of a read or a write. */
static bool read_place(const struct words *words, struct command *command)
{
    uint64_t space;
    uint64_t address;

    if (!read_number(words, "SPACE", words->word[1], 0, 0xFF, &space) ||
        !read_number(words, "ADDRESS", words->word[2], 0, 0xFFFFFFFF, &address)) {
        return false;
    }
    command->space = (uint8_t)space;
    command->address = (uint32_t)address;
    return true;
}

/* ---- Commands ---- */

/* What came of writing the command. `rule` is the one that W1 stands for, and `given` is how many there are; a command without a count or a
   length knows no W1. */
static bool is_composed(const struct words *words, struct command *command, const struct bujorelm_composed *composed, const char *rule,
                        size_t given)
{
    command->len = composed->len;
    switch (composed->refusal) {
    case BUJORELM_REFUSAL_NONE:
        return true;
    case BUJORELM_REFUSAL_W1:
        complain(words, "W1: %s, not %zu", rule, given);
        return false;
    case BUJORELM_REFUSAL_W2:
    case BUJORELM_REFUSAL_W3:
    default:
        complain(words, "W%d: the buffer for the command is too short", (int)composed->refusal);
        return false;
    }
}

static bool compose_read(const struct words *words, struct command *command)
{
    struct bujorelm_composed composed;
    uint64_t count;

    if (!read_place(words, command) || !read_number(words, "COUNT", words->word[3], 0, SIZE_MAX, &count)) {
        return false;
    }
    bujorelm_compose_read(command->space, command->address, count, command->datagram, sizeof command->datagram, &composed);
    return is_composed(words, command, &composed, "a read asks for 1 to 64 bytes", (size_t)count);
}

static bool compose_write(const struct words *words, struct command *command)
{
    const size_t count = words->count - 3;
    uint8_t bytes[WORDS_MAX];
    struct bujorelm_composed composed;

    if (!read_place(words, command) || !read_bytes(words, 3, "BYTE", bytes)) {
        return false;
    }
    bujorelm_compose_write(command->space, command->address, bytes, count, command->datagram, sizeof command->datagram, &composed);
    return is_composed(words, command, &composed, "a write has 1 to 64 bytes", count);
}

static bool compose_masked_write(const struct words *words, struct command *command)
{
    const size_t count = words->count - 3;
    uint8_t pairs[WORDS_MAX];
    struct bujorelm_composed composed;

    if (!read_place(words, command) || !read_bytes(words, 3, "MASK or DATA", pairs)) {
        return false;
    }
    bujorelm_compose_masked_write(command->space, command->address, pairs, count, command->datagram, sizeof command->datagram, &composed);
    if (composed.refusal == BUJORELM_REFUSAL_W1 && count % 2 == 1) {
        complain(words, "W1: a mask without its data");
        return false;
    }
    return is_composed(words, command, &composed, "a masked write has 1 to 32 pairs of a mask and its data", count / 2);
}

static bool compose_information(const struct words *words, struct command *command)
{
    struct bujorelm_composed composed;
    uint64_t space;

    if (!read_number(words, "SPACE", words->word[1], 0, 0xFF, &space)) {
        return false;
    }
    command->space = (uint8_t)space;
    bujorelm_compose_information(command->space, command->datagram, sizeof command->datagram, &composed);
    return is_composed(words, command, &composed, "", 0);
}

static bool compose_options(const struct words *words, struct command *command)
{
    struct bujorelm_composed composed;

    bujorelm_compose_options(command->datagram, sizeof command->datagram, &composed);
    return is_composed(words, command, &composed, "", 0);
}

static bool compose_lock(const struct words *words, struct command *command)
{
    uint8_t id[WORDS_MAX];
    struct bujorelm_composed composed;
    size_t len;

    if (!read_id(words, words->word[1], id, &len)) {
        return false;
    }
    bujorelm_compose_lock(id, len, command->datagram, sizeof command->datagram, &composed);
    if (!is_composed(words, command, &composed, "an ID has 6 bytes", len)) {
        return false;
    }
    memcpy(command->id, id, sizeof command->id);
    return true;
}

/* The ID of the fresh command is all zero, which is the one that releases. */
static bool compose_release(const struct words *words, struct command *command)
{
    struct bujorelm_composed composed;

    bujorelm_compose_lock(command->id, sizeof command->id, command->datagram, sizeof command->datagram, &composed);
    return is_composed(words, command, &composed, "", 0);
}

static bool compose_update_complete(const struct words *words, struct command *command)
{
    struct bujorelm_composed composed;

    bujorelm_compose_update_complete(command->datagram, sizeof command->datagram, &composed);
    return is_composed(words, command, &composed, "", 0);
}

/* The commands: what stands behind the name, and how many words that are. */
static const struct {
    const char *name;
    const char *behind;
    size_t least;
    size_t most;
    enum command_kind kind;
    bool (*compose)(const struct words *words, struct command *command);
} commands[] = {
    {"read", "SPACE ADDRESS COUNT", 3, 3, COMMAND_READ, compose_read},
    {"write", "SPACE ADDRESS BYTE..", 2, WORDS_MAX, COMMAND_WRITE, compose_write},
    {"mask", "SPACE ADDRESS MASK DATA [MASK DATA]..", 2, WORDS_MAX, COMMAND_WRITE, compose_masked_write},
    {"info", "SPACE", 1, 1, COMMAND_INFORMATION, compose_information},
    {"options", "no words", 0, 0, COMMAND_OPTIONS, compose_options},
    {"lock", "ID", 1, 1, COMMAND_LOCK, compose_lock},
    {"release", "no words", 0, 0, COMMAND_LOCK, compose_release},
    {"done", "no words", 0, 0, COMMAND_UPDATE_COMPLETE, compose_update_complete},
};

bool read_command(const struct words *words, struct command *command)
{
    const size_t behind = words->count - 1;

    memset(command, 0, sizeof *command);
    if (words->count > WORDS_MAX) {
        complain(words, "a command has %u words at most", WORDS_MAX);
        return false;
    }
    for (size_t i = 0; i < sizeof commands / sizeof commands[0]; i++) {
        if (strcmp(words->word[0], commands[i].name) != 0) {
            continue;
        }
        if (behind < commands[i].least || behind > commands[i].most) {
            complain(words, "behind '%s' stands: %s", commands[i].name, commands[i].behind);
            return false;
        }
        command->kind = commands[i].kind;
        return commands[i].compose(words, command);
    }
    complain(words, "there is no command '%s'; tool --help names all", words->word[0]);
    return false;
}

/* ---- Which answer belongs to which command ---- */

bool is_reply_to(const struct command *command, const struct bujorelm_reply *reply)
{
    const bool at_place = reply->space == command->space && reply->address == command->address;

    switch (reply->kind) {
    case BUJORELM_REPLY_READ:
    case BUJORELM_REPLY_READ_FAILURE:
        return command->kind == COMMAND_READ && at_place;
    case BUJORELM_REPLY_WRITTEN:
    case BUJORELM_REPLY_WRITE_FAILURE:
        return command->kind == COMMAND_WRITE && at_place;
    case BUJORELM_REPLY_OPTIONS:
        return command->kind == COMMAND_OPTIONS;
    case BUJORELM_REPLY_INFORMATION:
        return command->kind == COMMAND_INFORMATION && reply->space == command->space;
    case BUJORELM_REPLY_LOCK:
        return command->kind == COMMAND_LOCK;
    case BUJORELM_REPLY_NONE:
    default:
        return false;
    }
}

bool needs_reply(const struct command *command)
{
    return command->kind != COMMAND_WRITE && command->kind != COMMAND_UPDATE_COMPLETE;
}
