/* The commands of the bench tool: the words of the command line or of a line of standard input, and the datagram that they ask for. */
#ifndef BUJORELM_TOOL_WORDS_H
#define BUJORELM_TOOL_WORDS_H

#include "bujorelm_tool.h"

/* The most words of a command. Far more than a good one has, so that it is the library that says what is wrong with one that is too long. */
#define WORDS_MAX 1024u

#define ID_SIZE 6u

/* What a board may answer to a command: a masked write is answered as a write is, and a release as a lock is. */
enum command_kind { COMMAND_READ, COMMAND_WRITE, COMMAND_OPTIONS, COMMAND_INFORMATION, COMMAND_LOCK, COMMAND_UPDATE_COMPLETE };

/* Words, and the line of standard input that they are from; 0 where they are from the command line. */
struct words {
    unsigned long line;
    size_t count;
    char **word;
};

/* A command as its datagram, with what tells its answer from others: the place of a read or a write, the space of an information, the ID of a
   lock. */
struct command {
    enum command_kind kind;
    uint8_t space;
    uint32_t address;
    uint8_t id[ID_SIZE];
    uint8_t datagram[BUJORELM_COMMAND_MIN];
    size_t len;
};

/* Says on standard error what is wrong with the words. */
void complain(const struct words *words, const char *format, ...);

/* Reads a number from `least` to `most`, in decimal digits or behind 0x in hex digits. Of any other word it says, by the name of what it should
   be, what is wrong; nothing is cut to its range. */
bool read_number(const struct words *words, const char *name, const char *word, uint64_t least, uint64_t most, uint64_t *value);

/* Makes the command that the words ask for, one word at least. Where there is none it says why, W1 and W2 among the reasons. */
bool read_command(const struct words *words, struct command *command);

/* Whether a reply is one to the command. One that a board sends late, to an earlier command, is not taken for its answer. */
bool is_reply_to(const struct command *command, const struct bujorelm_reply *reply);

/* Whether a command is answered by a reply datagram, and not by Received OK alone. */
bool needs_reply(const struct command *command);

#endif
