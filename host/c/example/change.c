/*
 * A tool that changes single bits: change SPACE ADDRESS BEFORE AFTER
 *
 * BEFORE and AFTER are bytes from the address on, two hex digits for each: what the board has there, and what it is to have. The masked writes that
 * take the one to the other go to standard output as GridConnect lines; all else is said on standard error.
 */
#include "bujorelm_tool.h"

#include <stdio.h>
#include <stdlib.h>
#include <string.h>

#define BOARD 0x22B
#define TOOL 0x456

struct image {
    uint8_t bytes[BUJORELM_STORE_MAX];
    size_t len;
};

/* A change has 1 to 32 pairs, so that its command is never refused. */
static void send_masked_write(uint8_t space, uint32_t address, const uint8_t *pairs, uint64_t count)
{
    uint8_t command[BUJORELM_COMMAND_MIN];
    uint8_t line[BUJORELM_PRINTED_MAX];
    struct bujorelm_frame frames[BUJORELM_SENT_MAX];
    struct bujorelm_composed composed;
    uint64_t made;

    bujorelm_compose_masked_write(space, address, pairs, 2 * count, command, sizeof command, &composed);
    made = bujorelm_cut(command, composed.len, TOOL, BOARD, frames);
    for (uint64_t i = 0; i < made; i++) {
        fwrite(line, 1, (size_t)bujorelm_print_frame(&frames[i], line, sizeof line, 0), stdout);
    }
}

/* Sends the masked writes that take one image to the other, and returns the exit status. */
static int send_changes(uint8_t space, uint32_t address, const struct image *before, const struct image *after)
{
    uint8_t pairs[BUJORELM_PAIRS_MIN];
    struct bujorelm_change change;

    bujorelm_next_change(before->bytes, before->len, after->bytes, after->len, 0, pairs, sizeof pairs, &change);
    if (change.refusal != BUJORELM_CHANGE_NOT_REFUSED) {
        fprintf(stderr, "refused: images of %zu and %zu bytes, and %zu bytes for the pairs\n", before->len, after->len, sizeof pairs);
        return 2;
    }
    if (!change.given) {
        fprintf(stderr, "nothing differs, and nothing is sent\n");
    }
    while (change.given) {
        const uint64_t next = change.start + change.count;

        send_masked_write(space, address + (uint32_t)change.start, pairs, change.count);
        bujorelm_next_change(before->bytes, before->len, after->bytes, after->len, next, pairs, sizeof pairs, &change);
    }
    return 0;
}

static bool read_image(const char *digits, struct image *image)
{
    image->len = strlen(digits) / 2;
    if (strspn(digits, "0123456789ABCDEFabcdef") != 2 * image->len || image->len > sizeof image->bytes) {
        return false;
    }
    for (size_t i = 0; i < image->len; i++) {
        const char pair[] = {digits[2 * i], digits[2 * i + 1], '\0'};

        image->bytes[i] = (uint8_t)strtoul(pair, NULL, 16);
    }
    return true;
}

/* A number in decimal digits, or in hex digits behind 0x. */
static bool read_number(const char *word, unsigned long most, unsigned long *number)
{
    char *end;

    *number = strtoul(word, &end, strncmp(word, "0x", 2) == 0 ? 16 : 10);
    return word[0] >= '0' && word[0] <= '9' && *end == '\0' && *number <= most;
}

int main(int argc, char **argv)
{
    static struct image before;
    static struct image after;
    unsigned long space;
    unsigned long address;

    if (!bujorelm_version_fits() || !bujorelm_tool_version_fits()) {
        fprintf(stderr, "an archive is of another version than its header\n");
        return 1;
    }
    if (argc != 5 || !read_number(argv[1], 0xFF, &space) || !read_number(argv[2], 0xFFFFFFFF, &address) || !read_image(argv[3], &before) ||
        !read_image(argv[4], &after) || after.len > 0x100000000u - address) {
        fprintf(stderr, "usage: change SPACE ADDRESS BEFORE AFTER, the last two in hex digits, and all of it within 32 bits of address\n");
        return 2;
    }
    return send_changes((uint8_t)space, (uint32_t)address, &before, &after);
}
