/*
 * A bench tool: asks a board for what its words say, and explains what the board answers. tool --help says how it is used.
 *
 * Commands, frames and answers are the library's: here are only words, lines and a connection. tool_words.c reads commands, tool_frames.c puts
 * answers together, tool_explain.c says them in plain words, and tool_bus.c speaks to a board behind a TCP port.
 */
#define _POSIX_C_SOURCE 200809L

#include "tool_bus.h"
#include "tool_explain.h"
#include "tool_words.h"

#include <errno.h>
#include <stdio.h>
#include <stdlib.h>
#include <string.h>
#include <unistd.h>

#define BLANKS " \t\r\n"

static const char help[] =
    "usage: tool [OPTION].. [COMMAND]    a command to a board; without one each line of standard input is a command\n"
    "       tool [OPTION].. explain      says in plain words what a board answers on standard input\n"
    "       tool --help\n"
    "\n"
    "commands:\n"
    "  read SPACE ADDRESS COUNT          reads 1 to 64 bytes\n"
    "  write SPACE ADDRESS BYTE..        writes 1 to 64 bytes\n"
    "  mask SPACE ADDRESS MASK DATA..    writes 1 to 32 bytes of data, of each only the bits that are 1 in its mask\n"
    "  info SPACE                        asks what a space is\n"
    "  options                           asks what the board can do\n"
    "  lock ID                           locks the board for the node ID, as 05.01.01.01.18.AB or 0501010118AB\n"
    "  release                           releases the lock, whoever holds it\n"
    "  done                              Update Complete: tells the board that all is written\n"
    "\n"
    "Numbers are decimal, or hex behind 0x. Lines that are blank or begin with # are passed over.\n"
    "\n"
    "options:\n"
    "  --board ALIAS                     the board's alias (0x22B)\n"
    "  --alias ALIAS                     the tool's own alias (0x456)\n"
    "  --connect [HOST:]PORT             sends to this TCP port (HOST is 127.0.0.1), and explains what the board answers;\n"
    "                                    without it the frames are printed as GridConnect lines\n"
    "  --timeout SECONDS                 how long an answer is waited for, unless the board asks for another time (3)\n"
    "\n"
    "exit status, of several commands the greatest:\n"
    "  0  all is well\n"
    "  1  the board rejected a command, a read or a write failed, another holds the lock, a reply that is needed was not announced,\n"
    "     or an answer is in no form of a reply (W3)\n"
    "  2  wrong words, or a count or a length out of range (W1): nothing is sent for that command\n"
    "  3  no connection, no answer in time (then no further command is sent), no whole answer to explain, or an input or output that fails\n";

struct settings {
    uint16_t board;
    uint16_t alias;
    unsigned timeout;
    /* Empty where nothing is connected to. */
    char host[256];
    char port[8];
};

/* ---- Options ---- */

static bool set_connection(const struct words *option, struct settings *settings)
{
    const char *const word = option->word[1];
    const char *const colon = strrchr(word, ':');
    const char *const host = colon == NULL ? "127.0.0.1" : word;
    const size_t len = colon == NULL ? strlen(host) : (size_t)(colon - word);
    uint64_t port;

    if (!read_number(option, "PORT", colon == NULL ? word : colon + 1, 1, 65535, &port)) {
        return false;
    }
    if (len == 0 || len >= sizeof settings->host) {
        complain(option, "HOST is 1 to %zu characters, and not %zu", sizeof settings->host - 1, len);
        return false;
    }
    memcpy(settings->host, host, len);
    settings->host[len] = '\0';
    (void)snprintf(settings->port, sizeof settings->port, "%u", (unsigned)port);
    return true;
}

/* An option with its value, which are two words. */
static bool set_option(const struct words *option, struct settings *settings)
{
    const char *const name = option->word[0];
    uint64_t value = 0;

    if (option->count < 2) {
        complain(option, "%s stands without a value, or is no option; tool --help names all", name);
        return false;
    }
    if (strcmp(name, "--connect") == 0) {
        return set_connection(option, settings);
    }
    if (strcmp(name, "--board") == 0 || strcmp(name, "--alias") == 0) {
        const bool right = read_number(option, name, option->word[1], 1, BUJORELM_ALIAS_MAX, &value);

        *(strcmp(name, "--board") == 0 ? &settings->board : &settings->alias) = (uint16_t)value;
        return right;
    }
    if (strcmp(name, "--timeout") == 0) {
        const bool right = read_number(option, name, option->word[1], 1, 86400, &value);

        settings->timeout = (unsigned)value;
        return right;
    }
    complain(option, "there is no option %s; tool --help names all", name);
    return false;
}

/* Reads the options in front of the command, and leaves the command. */
static bool set_options(struct words *words, struct settings *settings)
{
    while (words->count != 0 && strncmp(words->word[0], "--", 2) == 0) {
        if (!set_option(words, settings)) {
            return false;
        }
        words->word += 2;
        words->count -= 2;
    }
    if (settings->board == settings->alias) {
        complain(words, "the tool's alias and the board's are both 0x%03X", settings->alias);
        return false;
    }
    return true;
}

/* ---- Commands ---- */

/* Prints the frames of a command. They are on their way before the next command is read. */
static enum status print_command(const struct settings *settings, const struct command *command)
{
    struct bujorelm_frame frames[BUJORELM_SENT_MAX];
    uint8_t text[LINES_MAX];
    const size_t count = bujorelm_cut(command->datagram, command->len, settings->alias, settings->board, frames);

    (void)fwrite(text, 1, print_frames(frames, count, text), stdout);
    (void)fflush(stdout);
    return STATUS_WELL;
}

/* A command to the bus or, where that is NULL, to standard output. */
static enum status run_command(const struct settings *settings, struct bus *bus, const struct command *command)
{
    return bus == NULL ? print_command(settings, command) : bus_ask(bus, command);
}

/* Cuts a line into words; false where there are too many. */
static bool split_line(char *line, struct words *words)
{
    words->count = 0;
    for (char *word = strtok(line, BLANKS); word != NULL; word = strtok(NULL, BLANKS)) {
        if (words->count == WORDS_MAX) {
            complain(words, "a command has %u words at most", WORDS_MAX);
            return false;
        }
        words->word[words->count++] = word;
    }
    return true;
}

/* A line of standard input, which may have any bytes. */
static enum status run_line(const struct settings *settings, struct bus *bus, char *line, size_t len, unsigned long number)
{
    static char *word[WORDS_MAX];
    struct words words = {.line = number, .word = word};
    struct command command;

    if (strlen(line) != len) {
        complain(&words, "a zero byte in a command");
        return STATUS_WRONG_WORDS;
    }
    if (!split_line(line, &words)) {
        return STATUS_WRONG_WORDS;
    }
    if (words.count == 0 || words.word[0][0] == '#') {
        return STATUS_WELL;
    }
    return read_command(&words, &command) ? run_command(settings, bus, &command) : STATUS_WRONG_WORDS;
}

/* The next line of standard input; -1 at its end. */
static ssize_t next_line(struct bus *bus, char **line, size_t *size)
{
    if (bus != NULL) {
        bus_wait_for_input(bus);
    }
    return getline(line, size, stdin);
}

/* All lines of standard input. Behind a command without an answer no other is sent, since a late answer would be taken for the next one's. */
static enum status run_lines(const struct settings *settings, struct bus *bus)
{
    enum status status = STATUS_WELL;
    char *line = NULL;
    size_t size = 0;
    ssize_t len;

    /* Nothing is read ahead, so that what is left of the input can be waited for. */
    (void)setvbuf(stdin, NULL, _IONBF, 0);
    for (unsigned long number = 1; status != STATUS_NO_ANSWER && (len = next_line(bus, &line, &size)) >= 0; number++) {
        const enum status one = run_line(settings, bus, line, (size_t)len, number);

        status = one > status ? one : status;
    }
    free(line);
    if (ferror(stdin)) {
        perror("tool: standard input");
        return STATUS_NO_ANSWER;
    }
    return status;
}

/* The command that the words are, or the lines of standard input where there are none. Nobody is connected to for wrong words. */
static enum status run(const struct settings *settings, const struct words *words)
{
    static struct bus bus;
    struct bus *const used = settings->host[0] == '\0' ? NULL : &bus;
    const bool lines = words->count == 0;
    struct command command;
    enum status status;

    if (!lines && !read_command(words, &command)) {
        return STATUS_WRONG_WORDS;
    }
    bus.timeout = settings->timeout;
    bus.listener.board = settings->board;
    bus.listener.alias = settings->alias;
    if (used != NULL && !bus_open(used, settings->host, settings->port)) {
        return STATUS_NO_ANSWER;
    }
    status = lines ? run_lines(settings, used) : run_command(settings, used, &command);
    if (used != NULL) {
        bus_close(used);
    }
    return status;
}

/* ---- Explaining ---- */

/* What has been explained so far. */
struct explaining {
    struct listener listener;
    unsigned long lines;
    unsigned long answers;
    /* Received OK has announced a reply that has not come. */
    bool awaited;
    enum status status;
};

static void explain_line(struct explaining *explaining, const struct bujorelm_parsed *line)
{
    struct bujorelm_acknowledged ok;
    struct answer answer;

    explaining->lines++;
    if (!line->good) {
        fprintf(stderr, "tool: line %lu is no frame\n", explaining->lines);
        return;
    }
    answer = listener_take(&explaining->listener, &line->frame);
    if (answer.kind == ANSWER_NONE) {
        return;
    }
    explaining->answers++;
    if (!explain(&answer, NULL)) {
        explaining->status = STATUS_FAILED;
    }
    bujorelm_read_received_ok(answer.bytes, answer.len, &ok);
    explaining->awaited = answer.kind == ANSWER_RECEIVED_OK && ok.pending;
}

static void explain_block(struct explaining *explaining, struct bujorelm_carry *carry, const uint8_t *block, size_t len)
{
    struct bujorelm_line line;
    uint64_t at = 0;

    while (at < len) {
        at = bujorelm_next_line(block, len, at, carry, &line);
        if (line.complete) {
            explain_line(explaining, &line.parsed);
        }
    }
}

/* The end of the input. Nothing to explain is no answer, and neither is half of one. */
static enum status explain_end(struct explaining *explaining, struct bujorelm_carry *carry)
{
    const struct listener *const listener = &explaining->listener;
    struct bujorelm_line line;

    bujorelm_last_line(carry, &line);
    if (line.complete) {
        explain_line(explaining, &line.parsed);
    }
    if (explaining->awaited || listener_is_waiting(listener)) {
        fputs("tool: the input ends before the end of an answer\n", stderr);
        return STATUS_NO_ANSWER;
    }
    if (explaining->answers == 0) {
        fprintf(stderr, "tool: no answer from board 0x%03X to tool 0x%03X\n", listener->board, listener->alias);
        return STATUS_NO_ANSWER;
    }
    return explaining->status;
}

static enum status explain_input(const struct settings *settings)
{
    static struct explaining explaining;
    struct bujorelm_carry carry = {.len = 0};
    uint8_t block[BLOCK_SIZE];
    ssize_t count;

    explaining.listener.board = settings->board;
    explaining.listener.alias = settings->alias;
    while ((count = read(STDIN_FILENO, block, sizeof block)) > 0 || (count < 0 && errno == EINTR)) {
        explain_block(&explaining, &carry, block, count < 0 ? 0 : (size_t)count);
    }
    if (count < 0) {
        perror("tool: standard input");
        return STATUS_NO_ANSWER;
    }
    return explain_end(&explaining, &carry);
}

/* ---- The command line ---- */

static bool asks_for_help(const struct words *words)
{
    for (size_t i = 0; i < words->count; i++) {
        if (strcmp(words->word[i], "--help") == 0) {
            return true;
        }
    }
    return false;
}

static enum status start(struct words *words)
{
    struct settings settings = {.board = 0x22B, .alias = 0x456, .timeout = 3};

    if (asks_for_help(words)) {
        fputs(help, stdout);
        return STATUS_WELL;
    }
    if (!set_options(words, &settings)) {
        return STATUS_WRONG_WORDS;
    }
    if (words->count == 0 || strcmp(words->word[0], "explain") != 0) {
        return run(&settings, words);
    }
    if (words->count > 1 || settings.host[0] != '\0') {
        complain(words, "'explain' reads standard input: no word stands behind it, and no --connect before it");
        return STATUS_WRONG_WORDS;
    }
    return explain_input(&settings);
}

int main(int argc, char **argv)
{
    struct words words = {.count = argc > 1 ? (size_t)argc - 1 : 0, .word = argv + 1};
    enum status status;

    if (!bujorelm_version_fits() || !bujorelm_tool_version_fits()) {
        fputs("tool: an archive is of another version than its header\n", stderr);
        return STATUS_NO_ANSWER;
    }
    status = start(&words);
    if (fflush(stdout) != 0 || ferror(stdout)) {
        perror("tool: standard output");
        return STATUS_NO_ANSWER;
    }
    return (int)status;
}
