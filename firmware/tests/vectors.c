/*
 * The vectors of the paper: whole datagrams, each on a fresh demonstration board, and boards that are refused. It reads
 * and prints what the program crates/demo_vectors reads and prints; there the lines are explained.
 */
#include "demonstration.h"
#include "machine.h"

#define FILL 0xEEu
#define ROW_MAX 288u
#define BOARD_HEAD 9u

static struct {
    uint8_t bytes[ROW_MAX];
    size_t len;
    uint8_t high;
    bool half;
    /* What its first sign says of the line. */
    char sort;
} row;

/* The board for the next datagram. */
static size_t spaces_described = DEMONSTRATION_SPACES;
static bool lock_is_held;

/* What waits to be written: a trap to qemu for each byte would take most of the time. */
static char text[512];
static size_t text_len;

static void flush(void)
{
    machine_write((const uint8_t *)text, text_len);
    text_len = 0;
}

static void put(char c)
{
    text[text_len++] = c;
    if (text_len == sizeof text) {
        flush();
    }
}

static void say(const char *words)
{
    while (*words != '\0') {
        put(*words++);
    }
}

static void say_byte(uint8_t byte)
{
    put("0123456789ABCDEF"[byte >> 4]);
    put("0123456789ABCDEF"[byte & 15]);
}

static void say_bytes(const uint8_t *bytes, size_t len)
{
    for (size_t i = 0; i < len; i++) {
        say_byte(bytes[i]);
    }
}

static void say_decimal(uint32_t number)
{
    char tens = '0';

    while (number >= 10) {
        number -= 10;
        tens++;
    }
    if (tens != '0') {
        put(tens);
    }
    put((char)('0' + number));
}

static void say_refusal(struct bujorelm_result result)
{
    size_t position;

    say("refused by B");
    say_decimal(result.error);
    if (bujorelm_position_of(result, &position)) {
        say(" of space ");
        say_decimal((uint32_t)position);
    }
}

/* The answer to a datagram, and whether the buffer behind the reply is as it was. */
static void say_answer(struct bujorelm_result result, const uint8_t *reply, size_t reply_size)
{
    switch (bujorelm_kind_of(result)) {
    case BUJORELM_REFUSED:
        say_refusal(result);
        return;
    case BUJORELM_REJECTED:
        say("Rejected ");
        say_byte((uint8_t)(result.code >> 8));
        say_byte((uint8_t)result.code);
        break;
    case BUJORELM_REPLIED:
        say("Received OK 80, reply ");
        say_bytes(reply, result.reply_len);
        break;
    case BUJORELM_WRITTEN:
    case BUJORELM_UPDATE_COMPLETE:
        say("Received OK 00");
        break;
    case BUJORELM_IGNORED:
    case BUJORELM_JOINED:
    case BUJORELM_TRANSPORT_REFUSAL:
    default:
        say("A KIND THAT CANNOT BE");
    }
    for (size_t i = result.reply_len; i < reply_size; i++) {
        if (reply[i] != FILL) {
            say(" BUFFER CHANGED PAST THE REPLY");
            return;
        }
    }
}

static void run_datagram(void)
{
    static const struct bujorelm_registers held = {{0x05, 0x01, 0x01, 0x01, 0x22, 0x00}};
    static const struct bujorelm_registers all_zero;
    struct bujorelm_registers registers = lock_is_held ? held : all_zero;
    uint8_t memory[DEMONSTRATION_MEMORY_SIZE];
    uint8_t reply[80];
    struct bujorelm_result result;

    for (size_t i = 0; i < sizeof memory; i++) {
        memory[i] = 0;
    }
    for (size_t i = 0; i < sizeof reply; i++) {
        reply[i] = FILL;
    }
    bujorelm_handle_datagram(demonstration_description.alias, demonstration_description.write_lengths, demonstration_spaces,
                             bujorelm_spaces_size(spaces_described), demonstration_flash, sizeof demonstration_flash, memory,
                             sizeof memory, &registers, row.bytes, row.len, reply, sizeof reply, &result);
    say_bytes(row.bytes, row.len);
    say(": ");
    say_answer(result, reply, sizeof reply);
    for (size_t i = 0; i < sizeof memory; i++) {
        if (memory[i] != 0) {
            say(", memory ");
            say_byte((uint8_t)i);
            put('=');
            say_byte(memory[i]);
        }
    }
    say(", lock ");
    say_bytes(registers.lock, sizeof registers.lock);
    put('\n');
}

static uint32_t three_bytes(size_t at)
{
    return (uint32_t)row.bytes[at] << 16 | (uint32_t)row.bytes[at + 1] << 8 | row.bytes[at + 2];
}

/* The error of a board, by an empty datagram: it is rejected, whatever the board is, so that neither flash nor memory
   nor the reply buffer is looked at, and they need not be there. */
static void run_board(void)
{
    const size_t head = row.len < BOARD_HEAD ? row.len : BOARD_HEAD;
    const size_t table = row.len - head;
    struct bujorelm_registers registers = {{0}};
    struct bujorelm_result result;
    uint8_t byte = 0;

    bujorelm_handle_datagram((uint16_t)(row.bytes[0] << 8 | row.bytes[1]), 0xF2, (const struct bujorelm_space *)(const void *)(row.bytes + head),
                             table, &byte, three_bytes(5), &byte, three_bytes(2), &registers, NULL, 0, &byte, row.bytes[8], &result);
    say_bytes(row.bytes, head);
    say(" and a table of ");
    say_byte((uint8_t)(table >> 8));
    say_byte((uint8_t)table);
    say(" bytes: ");
    if (result.kind == BUJORELM_REFUSED) {
        say_refusal(result);
    } else {
        say("not refused");
    }
    put('\n');
}

static uint8_t value_of(char digit)
{
    return (uint8_t)(digit < 'A' ? digit - '0' : digit - 'A' + 10);
}

static void set_board(char word)
{
    if (word == 'L' || word == 'U') {
        lock_is_held = word == 'L';
    } else {
        spaces_described = value_of(word);
    }
}

static void end_row(void)
{
    if (row.sort == '\0') {
        run_datagram();
    } else if (row.sort == '!') {
        run_board();
    }
    for (size_t i = 0; i < sizeof row.bytes; i++) {
        row.bytes[i] = 0;
    }
    row.len = 0;
    row.half = false;
    row.sort = '\0';
}

static void take_digit(char c)
{
    if (row.half && row.len < ROW_MAX) {
        row.bytes[row.len++] = (uint8_t)(row.high << 4 | value_of(c));
    }
    row.high = value_of(c);
    row.half = !row.half;
}

static void take(char c)
{
    if (row.sort == '#') {
        put(c);
    }
    if (c == '\n') {
        end_row();
    } else if (row.sort == '#') {
        return;
    } else if (row.sort == '@') {
        set_board(c);
    } else if (c == '#' || c == '@' || c == '!') {
        if (c == '#') {
            put(c);
        }
        row.sort = c;
    } else if (c != ' ') {
        take_digit(c);
    }
}

int main(void)
{
    static uint8_t chunk[256];
    size_t len;

    if (!bujorelm_version_fits()) {
        return 1;
    }
    while ((len = machine_read(chunk, sizeof chunk)) > 0) {
        for (size_t i = 0; i < len; i++) {
            take((char)chunk[i]);
        }
    }
    flush();
    return 0;
}
