/*
 * The library on this processor against the same library on another: random boards, frames, ticks, datagrams, lines and
 * damaged states, all from one seed. After every call every byte that was lent, and every result, goes into a checksum,
 * which is printed after each batch. The same source is an image for an emulated processor and a program for a PC; what
 * the two print must be the same, byte for byte.
 *
 * Input: numbers in decimal digits, with a blank or a newline behind each: the seed, the batches, and where a third one
 * is not 0, the call at which a difference is planted: one bit of its result is turned over.
 *
 * Built with MEASURE_STACK it prints, behind the checksums, the most stack that each call took, with its arguments.
 *
 * No expression takes two numbers from the seed unless C says which comes first: compilers differ.
 */
#include "bujorelm.h"
#include "machine.h"

#define CALLS_IN_BATCH 5000u
#define MEMORY_MAX 192u
#define FLASH_MAX 160u
#define TEXT_MAX 96u

/* ---- Numbers from the seed ---- */

static uint32_t seed;

/* Marsaglia's xorshift: shifts alone, so that it costs a Cortex-M0 nothing. */
static uint32_t random_word(void)
{
    seed ^= seed << 13;
    seed ^= seed >> 17;
    seed ^= seed << 5;
    return seed;
}

/* 0 to limit - 1, for a limit up to 65,536. */
static uint32_t below(uint32_t limit)
{
    return ((random_word() >> 16) * limit) >> 16;
}

static bool one_in(uint32_t n)
{
    return below(n) == 0;
}

/* A number with one bit set, without a shift of 64 bits. */
static uint64_t one_bit(uint32_t n)
{
    return n < 32 ? 1u << n : (uint64_t)(1u << (n - 32)) << 32;
}

static uint8_t random_byte(void)
{
    return (uint8_t)(random_word() >> 24);
}

/* ---- What is lent ---- */

/* Everything at an odd address that may be at one, so that a processor that cannot read a word there would stop. */
static struct {
    struct bujorelm_result result;
    struct bujorelm_parsed parsed;
    struct bujorelm_line line;
    struct bujorelm_frame frames[BUJORELM_SENT_MAX];
    struct bujorelm_space spaces[BUJORELM_SPACES_MAX + 1];
    struct bujorelm_carry carry;
    uint8_t odd;
    uint8_t flash[FLASH_MAX];
    uint8_t memory[MEMORY_MAX];
    uint8_t pool[BUJORELM_POOL_SIZE];
    uint8_t reply[BUJORELM_REPLY_MIN + 8];
    uint8_t payload[12];
    uint8_t datagram[BUJORELM_DATAGRAM_MAX + 4];
    uint8_t text[TEXT_MAX];
    struct bujorelm_registers registers;
    struct bujorelm_reception reception;
    /* Up to here by whole words. */
    uint8_t end[8];
} lent;

static struct {
    uint16_t alias;
    uint8_t write_lengths;
    size_t spaces;
    uint64_t spaces_size;
    uint64_t flash_len;
    uint64_t memory_len;
    uint64_t reply_len;
    uint16_t tick;
} board;

/* What a call is handed beside that, and the number that it returns. */
static struct {
    uint32_t header;
    uint64_t len;
    uint64_t from;
    uint16_t board;
    uint16_t tool;
    uint16_t code;
    struct bujorelm_frame *frame;
    uint64_t returned;
} call;

/* ---- The calls, each in a function of its own ---- */

static void handle_frame(void)
{
    bujorelm_handle_frame(board.alias, board.write_lengths, lent.spaces, board.spaces_size, lent.flash, board.flash_len, lent.memory,
                          board.memory_len, &lent.registers, lent.pool, &lent.reception, board.tick, call.header, lent.payload, call.len,
                          lent.reply, board.reply_len, lent.frames, &lent.result);
}

static void handle_tick(void)
{
    bujorelm_handle_tick(&lent.reception, board.tick, &lent.result);
}

static void handle_datagram(void)
{
    bujorelm_handle_datagram(board.alias, board.write_lengths, lent.spaces, board.spaces_size, lent.flash, board.flash_len, lent.memory,
                             board.memory_len, &lent.registers, lent.datagram, call.len, lent.reply, board.reply_len, &lent.result);
}

static void cut(void)
{
    call.returned = bujorelm_cut(lent.datagram, call.len, call.board, call.tool, lent.frames);
}

static void received_ok(void)
{
    call.returned = bujorelm_received_ok(call.board, call.tool, (uint8_t)call.code, lent.frames);
}

static void rejected(void)
{
    call.returned = bujorelm_rejected(call.board, call.tool, call.code, lent.frames);
}

static void print_frame(void)
{
    call.returned = bujorelm_print_frame(call.frame, lent.text, call.len, call.from);
}

static void parse_line(void)
{
    bujorelm_parse_line(lent.text, call.len, &lent.parsed);
}

static void next_line(void)
{
    call.returned = bujorelm_next_line(lent.text, call.len, call.from, &lent.carry, &lent.line);
}

static void last_line(void)
{
    bujorelm_last_line(&lent.carry, &lent.line);
}

static const struct {
    void (*function)(void);
    const char *name;
} operations[] = {
    {handle_frame, "bujorelm_handle_frame"}, {handle_tick, "bujorelm_handle_tick"},   {handle_datagram, "bujorelm_handle_datagram"},
    {cut, "bujorelm_cut"},                   {received_ok, "bujorelm_received_ok"},   {rejected, "bujorelm_rejected"},
    {print_frame, "bujorelm_print_frame"},   {parse_line, "bujorelm_parse_line"},     {next_line, "bujorelm_next_line"},
    {last_line, "bujorelm_last_line"},
};
enum { HANDLE_FRAME, HANDLE_TICK, HANDLE_DATAGRAM, CUT, RECEIVED_OK, REJECTED, PRINT_FRAME, PARSE_LINE, NEXT_LINE, LAST_LINE, OPERATIONS };

static uint32_t checksum;
static uint32_t calls;
static uint32_t planted;

#ifdef MEASURE_STACK
/* The most stack that each call took. */
static uint32_t most_stack[OPERATIONS];
#endif

static void mix(uint32_t word)
{
    checksum = ((checksum << 5) | (checksum >> 27)) ^ word;
    checksum += checksum << 3;
}

/* Makes a call. Then every byte that is lent, and the number that it returned, goes into the checksum. */
static void run(size_t operation)
{
    const uint32_t *const words = (const uint32_t *)(const void *)&lent;
    void (*volatile const function)(void) = operations[operation].function;

    call.returned = 0;
#ifdef MEASURE_STACK
    const uint32_t used = machine_stack_of(function);

    most_stack[operation] = used > most_stack[operation] ? used : most_stack[operation];
#else
    function();
#endif
    calls++;
    if (calls == planted) {
        lent.result.code ^= 0x0010u;
    }
    mix((uint32_t)call.returned);
    mix((uint32_t)(call.returned >> 32));
    for (size_t i = 0; i < sizeof lent / 4; i++) {
        mix(words[i]);
    }
}

/* ---- Boards ---- */

static uint8_t space_number(void)
{
    static const uint8_t usual[] = {0xFD, 0xFE, 0xFF, 0xFB, 0xFC, 0x10, 0x50, 0x90};

    return one_in(4) ? random_byte() : usual[below(sizeof usual)];
}

/* A number that is often near a limit, and sometimes anything. */
static uint32_t near(uint32_t limit)
{
    switch (below(8)) {
    case 0:
        return limit;
    case 1:
        return limit - 1;
    case 2:
        return limit + 1;
    case 3:
        return random_word();
    default:
        return below(limit + 1);
    }
}

/* A space that is good unless chance will have it otherwise. */
static void make_space(struct bujorelm_space *space)
{
    const uint32_t store = (uint32_t)((space->in_flash = one_in(3) ? random_byte() : 0) != 0 ? board.flash_len : board.memory_len);

    space->number = space_number();
    space->read_only = (uint8_t)(space->in_flash != 0 || space->number == 0xFF || one_in(3) ? 1 + below(255) : 0);
    ((uint8_t *)space)[3] = random_byte();
    space->offset = store == 0 ? 0 : below(store);
    space->lowest = one_in(2) ? 0 : one_in(8) ? 0xFFFFFF00u : below(300);
    space->highest = space->lowest + (store <= space->offset ? 0 : below(store - space->offset));
    if (one_in(300)) {
        space->highest = near(space->lowest);
    }
    if (one_in(300)) {
        space->offset = near(store);
    }
    if (one_in(300)) {
        space->read_only = 0;
    }
}

/* Whether an earlier space has the number of this one. */
static bool is_used(size_t count)
{
    for (size_t i = 0; i < count; i++) {
        if (lent.spaces[i].number == lent.spaces[count].number) {
            return true;
        }
    }
    return false;
}

static void make_board(void)
{
    const size_t count = one_in(60) ? 17 : one_in(6) ? 16 : below(8);

    board.alias = (uint16_t)(one_in(100) ? random_word() : 1 + below(4095));
    board.write_lengths = random_byte();
    board.flash_len = below(FLASH_MAX + 1);
    board.memory_len = below(MEMORY_MAX + 1);
    board.reply_len = one_in(60) ? below(BUJORELM_REPLY_MIN) : BUJORELM_REPLY_MIN + below(9);
    for (size_t i = 0; i < count; i++) {
        make_space(&lent.spaces[i]);
        if (!one_in(100) && i < BUJORELM_SPACES_MAX && is_used(i)) {
            lent.spaces[i].number = (uint8_t)(i + 0x30);
        }
    }
    board.spaces = count;
    board.spaces_size = 16 * count + (one_in(10) ? below(16) : 0);
    for (size_t i = 0; i < sizeof lent.flash; i++) {
        lent.flash[i] = random_byte();
    }
    /* Lengths past 32 bits are refused without a look at any byte. */
    if (one_in(80)) {
        board.memory_len += (uint64_t)(1 + below(3)) << 32;
    }
    if (one_in(80)) {
        board.flash_len += one_bit(16 + below(48));
    }
    if (one_in(200)) {
        board.spaces_size += one_bit(32 + below(32));
    }
    board.tick = (uint16_t)random_word();
}

/* ---- States ---- */

static uint16_t tool_alias(void)
{
    return (uint16_t)(one_in(50) ? below(65536) : 0x700 + below(16));
}

/* Any bytes, most of them such as a call could have left. */
static void damage_reception(void)
{
    const bool is_full = one_in(3);

    for (size_t i = 0; i < BUJORELM_PLACES; i++) {
        struct bujorelm_place *const place = &lent.reception.places[i];

        place->held = (uint8_t)(is_full ? 1 : one_in(3) ? 0 : one_in(3) ? random_byte() : 1);
        place->len = (uint8_t)(one_in(40) ? random_byte() : below(73));
        place->source = one_in(30) ? (uint16_t)random_word() : (uint16_t)(0x700 + i);
        place->tick = (uint16_t)(one_in(8) ? random_word() : board.tick - below(3100));
        place->swallowing = (uint8_t)(one_in(4) ? random_byte() : 0);
        place->unused = (uint8_t)(one_in(2) ? random_byte() : 0);
    }
}

static void clear_reception(void)
{
    uint8_t *const bytes = (uint8_t *)&lent.reception;

    for (size_t i = 0; i < sizeof lent.reception; i++) {
        bytes[i] = 0;
    }
}

/* ---- Datagrams ---- */

/* A command for one of the board's spaces, near the edges of that space, or any bytes. */
static size_t make_datagram(uint8_t *d, size_t room)
{
    static const uint8_t commands[] = {0x00, 0x08, 0x40, 0x40, 0x80, 0x84, 0x88, 0xA8};
    const size_t count = board.spaces;
    const struct bujorelm_space *const space = &lent.spaces[below(count == 0 ? 1 : (uint32_t)count)];
    const uint32_t address = one_in(5) ? near(space->highest) : space->lowest + below((space->highest - space->lowest + 1) & 0xFFFFu);
    uint8_t command = commands[below(sizeof commands)];
    size_t len = 2;

    if (one_in(25)) {
        len = below((uint32_t)room + 1);
        for (size_t i = 0; i < len; i++) {
            d[i] = random_byte();
        }
        return len;
    }
    if (command < 0x80) {
        const uint8_t form = (uint8_t)(one_in(10) ? below(4) : space->number < 0xFD || one_in(2) ? 0u : space->number - 0xFCu);

        d[2] = (uint8_t)(address >> 24);
        d[3] = (uint8_t)(address >> 16);
        d[4] = (uint8_t)(address >> 8);
        d[5] = (uint8_t)address;
        len = 6;
        if (form == 0) {
            d[len++] = space->number;
        }
        if (command == 0x40) {
            d[len++] = (uint8_t)(one_in(8) ? random_byte() : below(66));
        } else {
            const size_t bytes = one_in(4) ? below((uint32_t)(room - len) + 1) : one_in(10) ? below(9) : 2 * (1 + below(4));

            for (size_t i = 0; i < bytes; i++) {
                d[len++] = random_byte();
            }
        }
        command = (uint8_t)(command + form);
    } else if (command == 0x84) {
        d[len++] = space->number;
    } else if (command == 0x88) {
        for (size_t i = 0; i < 6; i++) {
            d[len++] = (uint8_t)below(3);
        }
    }
    d[0] = one_in(60) ? random_byte() : 0x20;
    d[1] = one_in(60) ? random_byte() : command;
    return one_in(40) && len > 0 ? len - 1 : len;
}

/* ---- Chance decides which calls ---- */

static void send_frame(uint32_t header, size_t len)
{
    call.header = header;
    call.len = len;
    run(HANDLE_FRAME);
}

/* The frames of a datagram, of which some are lost, doubled or spoilt; now and then the rest of them does not come. */
static void send_datagram(void)
{
    const uint32_t aliases = (uint32_t)board.alias << 12 | tool_alias();
    const size_t len = make_datagram(lent.datagram, BUJORELM_DATAGRAM_MAX + 4);
    size_t at = 0;

    do {
        const size_t most = one_in(12) ? below(9) : 8;
        const size_t part = len - at < most ? len - at : most;
        const bool is_last = at + part == len;
        uint32_t header = (len <= 8 ? 0x1A000000u : at == 0 ? 0x1B000000u : is_last ? 0x1D000000u : 0x1C000000u) | aliases;

        for (size_t i = 0; i < part; i++) {
            lent.payload[i] = lent.datagram[at + i];
        }
        at += part;
        if (one_in(30)) {
            header ^= 1u << below(32);
        }
        board.tick = (uint16_t)(board.tick + below(one_in(60) ? 4000 : 4));
        if (!one_in(30)) {
            send_frame(header, part);
        }
        if (one_in(40)) {
            send_frame(header, below(13));
        }
        if (one_in(10)) {
            return;
        }
    } while (at < len);
}

static void hand_datagram(void)
{
    call.len = make_datagram(lent.datagram, BUJORELM_DATAGRAM_MAX + 4);
    run(HANDLE_DATAGRAM);
}

static void bring_tick(void)
{
    board.tick = (uint16_t)(board.tick + below(3500));
    run(HANDLE_TICK);
}

static void make_frames(void)
{
    call.board = (uint16_t)(one_in(20) ? random_word() : below(4096));
    call.tool = (uint16_t)(one_in(20) ? random_word() : below(4096));
    call.code = (uint16_t)random_word();
    call.len = below(BUJORELM_DATAGRAM_MAX + 3);
    run(CUT + below(3));
}

/* Frames as text, printed by the library and spoilt here and there, read back whole and out of chunks. */
static void read_and_print(void)
{
    uint64_t end;
    uint64_t middle;

    call.from = 0;
    for (size_t i = 0; i < 4; i++) {
        call.frame = &lent.frames[below(BUJORELM_SENT_MAX)];
        call.frame->header = random_word() >> below(4);
        call.frame->len = one_in(30) ? random_word() : below(9);
        call.len = one_in(8) ? below(TEXT_MAX + 1) : TEXT_MAX;
        run(PRINT_FRAME);
        call.from = call.returned;
    }
    end = call.from;
    if (end > 0 && one_in(2)) {
        const uint8_t byte = one_in(2) ? '\n' : random_byte();

        lent.text[below((uint32_t)end)] = byte;
    }
    call.len = end > BUJORELM_LINE_MAX && !one_in(8) ? BUJORELM_LINE_MAX - below(4) : end;
    run(PARSE_LINE);
    if (one_in(20)) {
        const uint8_t byte = random_byte();

        lent.carry.len = random_byte();
        lent.carry.text[below(29)] = byte;
    }
    middle = below((uint32_t)end + 1);
    call.from = one_in(20) ? below(TEXT_MAX + 20) : 0;
    for (size_t i = 0; i < 8 && call.from < end; i++) {
        call.len = call.from < middle ? middle : end;
        run(NEXT_LINE);
        call.from = call.returned;
    }
    if (one_in(3)) {
        run(LAST_LINE);
    }
}

static void batch(void)
{
    const uint32_t end = calls + CALLS_IN_BATCH;

    while (calls < end) {
        switch (below(40)) {
        case 0:
            make_board();
            clear_reception();
            break;
        case 1:
            damage_reception();
            break;
        case 2:
            clear_reception();
            break;
        case 3:
        case 4:
            bring_tick();
            break;
        case 5:
        case 6:
            make_frames();
            break;
        case 7:
            read_and_print();
            break;
        case 8:
        case 9:
        case 10:
        case 11:
        case 12:
            hand_datagram();
            break;
        default:
            send_datagram();
        }
    }
}

/* ---- Input and output ---- */

static uint32_t read_number(void)
{
    uint32_t number = 0;
    uint8_t c = 0;

    while (machine_read(&c, 1) == 1 && c >= '0' && c <= '9') {
        number = 10 * number + (uint32_t)(c - '0');
    }
    return number;
}

int main(void)
{
    uint32_t batches;

    if (!bujorelm_version_fits()) {
        return 1;
    }
    seed = read_number() | 1u;
    batches = read_number();
    planted = read_number();
    make_board();
    for (uint32_t i = 0; i < batches; i++) {
        batch();
        machine_say_number(calls);
        machine_say(" ");
        machine_say_hex(checksum);
        machine_say("\n");
    }
#ifdef MEASURE_STACK
    for (size_t i = 0; i < OPERATIONS; i++) {
        machine_say(operations[i].name);
        machine_say(": ");
        machine_say_number(most_stack[i]);
        machine_say("\n");
    }
#endif
    return 0;
}
