/*
 * The instructions that calls take: the library's and those of a plain board in C that does the same, on the same
 * processor. For each row the steps of the machine's count are printed that REPEATS calls take, with what the loop
 * itself takes; figures.py makes instructions out of them. Where the two boards answer differently the image ends with
 * status 1.
 */
#include "demonstration.h"
#include "machine.h"
#include "plain.h"

#define REPEATS 1000u
#define WIDE_MEMORY 256u
#define FRAMES_OF_64 9u

/* All that a board has. */
struct board {
    const struct bujorelm_space *spaces;
    size_t count;
    size_t memory_len;
    uint8_t memory[WIDE_MEMORY];
    uint8_t pool[BUJORELM_POOL_SIZE];
    struct bujorelm_registers registers;
    struct bujorelm_reception reception;
};

static struct board board;

/* What a call gives. */
struct given {
    struct bujorelm_result result;
    uint8_t reply[BUJORELM_REPLY_MIN];
    struct bujorelm_frame frames[BUJORELM_SENT_MAX];
    uint32_t count;
};

static struct given given;

/* What a call is handed. */
static uint32_t header;
static uint8_t payload[8];
static size_t payload_len;
static uint8_t datagram[72];
static size_t datagram_len;

/* Before each call the reception state is set to this one. */
static struct bujorelm_reception state;

static struct bujorelm_space many[16];

static void library_frame(void)
{
    bujorelm_handle_frame(0x22B, 0xF2, board.spaces, 16 * board.count, demonstration_flash, sizeof demonstration_flash, board.memory,
                          board.memory_len, &board.registers, board.pool, &board.reception, 100, header, payload, payload_len, given.reply,
                          sizeof given.reply, given.frames, &given.result);
}

static void plain_frame(void)
{
    plain_handle_frame(0x22B, 0xF2, board.spaces, board.count, demonstration_flash, sizeof demonstration_flash, board.memory,
                       board.memory_len, board.pool, board.reception.places, 100, header, payload, payload_len, given.reply,
                       sizeof given.reply, given.frames, &given.result);
}

static void library_tick(void)
{
    bujorelm_handle_tick(&board.reception, 100, &given.result);
}

static void plain_lone_tick(void)
{
    plain_tick(board.reception.places, 100, &given.result);
}

static void library_cut(void)
{
    given.count = (uint32_t)bujorelm_cut(datagram, datagram_len, 0x22B, 0x123, given.frames);
}

static void plain_cut_it(void)
{
    given.count = (uint32_t)plain_cut(datagram, datagram_len, 0x22B, 0x123, given.frames);
}

static void nothing(void)
{
}

static void copy(void *to, const void *from, size_t len)
{
    for (size_t i = 0; i < len; i++) {
        ((uint8_t *)to)[i] = ((const uint8_t *)from)[i];
    }
}

static bool same(const void *a, const void *b, size_t len)
{
    for (size_t i = 0; i < len; i++) {
        if (((const uint8_t *)a)[i] != ((const uint8_t *)b)[i]) {
            return false;
        }
    }
    return true;
}

static void clear(void *what, size_t len)
{
    for (size_t i = 0; i < len; i++) {
        ((uint8_t *)what)[i] = 0;
    }
}

/* The steps that the calls take. A volatile pointer keeps any compiler from taking the call into the loop. */
static uint32_t steps_of(void (*call)(void))
{
    void (*volatile const function)(void) = call;
    uint32_t from;

    machine_count_start();
    from = machine_count();
    for (uint32_t i = 0; i < REPEATS; i++) {
        board.reception = state;
        function();
    }
    return machine_count() - from;
}

/* One row: both calls from the same state, with the same answer. */
static void row(const char *name, void (*library)(void), void (*plain)(void))
{
    static struct given by_library;
    static struct board before;
    static struct board after;
    uint32_t steps;

    copy(&before, &board, sizeof board);
    clear(&given, sizeof given);
    steps = steps_of(library);
    machine_say(name);
    machine_say(": ");
    machine_say_number(steps);
    copy(&by_library, &given, sizeof given);
    copy(&after, &board, sizeof board);
    copy(&board, &before, sizeof board);
    clear(&given, sizeof given);
    steps = steps_of(plain);
    machine_say(" ");
    machine_say_number(steps);
    steps = steps_of(nothing);
    machine_say(" ");
    machine_say_number(steps);
    machine_say("\n");
    copy(&board.reception, &after.reception, sizeof after.reception);
    if (!same(&given, &by_library, sizeof given) || !same(board.memory, after.memory, sizeof board.memory)) {
        machine_say("the plain board answers differently\n");
        machine_leave(1);
    }
    clear(&board.reception, sizeof board.reception);
}

static void start(const struct bujorelm_space *spaces, size_t count, size_t memory_len)
{
    clear(&board, sizeof board);
    clear(&state, sizeof state);
    board.spaces = spaces;
    board.count = count;
    board.memory_len = memory_len;
}

static void frame(uint32_t with_header, const uint8_t *bytes, size_t len)
{
    header = with_header;
    payload_len = len;
    copy(payload, bytes, len);
}

static void row_of(const char *name, uint32_t with_header, const uint8_t *bytes, size_t len)
{
    frame(with_header, bytes, len);
    row(name, library_frame, plain_frame);
}

/* A write of 64 bytes, frame by frame: each from the state that the ones before it leave. */
static void rows_of_nine(void)
{
    static char name[] = "write of 64 bytes, frame 0 of nine";
    size_t at = 0;

    datagram_len = 70;
    copy(datagram, (const uint8_t[]){0x20, 0x01, 0, 0, 0, 0}, 6);
    for (size_t i = 6; i < datagram_len; i++) {
        datagram[i] = (uint8_t)(3 * i);
    }
    for (size_t i = 0; i < FRAMES_OF_64; i++) {
        const size_t len = datagram_len - at < 8 ? datagram_len - at : 8;

        name[25] = (char)('1' + i);
        frame((i == 0 ? 0x1B22B456u : i == FRAMES_OF_64 - 1 ? 0x1D22B456u : 0x1C22B456u), datagram + at, len);
        row(name, library_frame, plain_frame);
        board.reception = state;
        library_frame();
        state = board.reception;
        at += len;
    }
    clear(&state, sizeof state);
}

static void hold_all(void)
{
    for (size_t i = 0; i < BUJORELM_PLACES; i++) {
        state.places[i] = (struct bujorelm_place){.held = 1, .len = 8, .source = (uint16_t)(0x700 + i), .tick = 90};
    }
}

/* 16 spaces, of which the last is asked for. */
static void describe_many(void)
{
    for (size_t i = 0; i < 16; i++) {
        many[i] = (struct bujorelm_space){.number = (uint8_t)(0x20 + i), .highest = 63, .offset = (uint32_t)(4 * i)};
    }
    many[15].number = 0xFD;
}

int main(void)
{
    static const struct bujorelm_space wide[] = {{.number = 0xFD, .lowest = 0, .highest = WIDE_MEMORY - 1, .offset = 0}};
    static const uint8_t read_2[] = {0x20, 0x41, 0, 0, 0, 2, 2};
    static const uint8_t read_64[] = {0x20, 0x41, 0, 0, 0, 0, 64};
    static const uint8_t write_2[] = {0x20, 0x01, 0, 0, 0, 2, 0xAB, 0xCD};
    static const uint8_t unknown[] = {0x20, 0x44};

    if (!bujorelm_version_fits()) {
        return 1;
    }
    machine_say("step: ");
    machine_say_number(machine_count_step());
    machine_say(" thousandths, ");
    machine_say_number(REPEATS);
    machine_say(" calls\n");
    machine_say("struct bujorelm_node: ");
    machine_say_number(sizeof(struct bujorelm_node));
    machine_say("\n");

    start(demonstration_spaces, DEMONSTRATION_SPACES, DEMONSTRATION_MEMORY_SIZE);
    row_of("ignored frame", 0x1A300123u, read_2, 2);
    row_of("read of 2 bytes", 0x1A22B456u, read_2, sizeof read_2);
    row_of("write of 2 bytes", 0x1A22B456u, write_2, sizeof write_2);
    row_of("rejected datagram", 0x1A22B456u, unknown, sizeof unknown);
    row("lone tick, nothing unfinished", library_tick, plain_lone_tick);
    hold_all();
    row("lone tick, eight unfinished", library_tick, plain_lone_tick);

    start(wide, 1, WIDE_MEMORY);
    rows_of_nine();
    row_of("read of 64 bytes", 0x1A22B456u, read_64, sizeof read_64);
    for (size_t i = 0; i < 70; i++) {
        datagram[i] = (uint8_t)i;
    }
    row("cut of 70 bytes", library_cut, plain_cut_it);

    describe_many();
    start(many, 16, WIDE_MEMORY);
    hold_all();
    row_of("16 spaces, eight unfinished: ignored frame", 0x1A300123u, read_2, 2);
    row_of("16 spaces, eight unfinished: read of 64 bytes", 0x1A22B456u, read_64, sizeof read_64);
    return 0;
}
