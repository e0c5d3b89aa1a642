/*
 * A reference host: the demonstration board of document 01 behind GridConnect lines.
 *
 *   host                              reads lines from standard input and writes the board's answers to standard output
 *   host --port N                     serves lines on TCP port N of the loopback, N = 0 for any free one; the port is printed first
 *   host --port N --send-buffer B     asks the system to keep no more than B bytes for a tool itself (SO_SNDBUF)
 *
 * A line ends with a newline; the last of an input may lack it. A line that is no frame is answered by `?`. A tool that puts no newline
 * behind its frames, or a carriage return before it, is not understood: document 01 has it so.
 *
 * On TCP every tool that is connected is on one bus with the board: a frame from one of them is seen by all others, and the board's
 * answers are seen by all, in one order. What is no frame with a 29-bit header is not on the bus: a `?` goes to the tool that sent the
 * line and to nobody else, and a frame with a longer header goes to nobody.
 *
 * A tool that has ended its input is sent what waits for it, which has the answers to all of its own frames, and is then closed. It is
 * off the bus: no frame that comes after its end is relayed to it.
 *
 * Nobody is waited for without a bound: there are CONNECTIONS_MAX tools at most, no more than OUTPUT_MAX bytes wait for one, and none is
 * waited for longer than WAIT_MAX.
 *
 * A tick is a millisecond of the system's monotonic clock (CLOCK_MONOTONIC), of whose count the board is given the low 16 bits: a datagram of
 * which nothing has come for more than 3 seconds is dropped. A frame's tick is that of the moment at which the board is given the frame, and
 * while no frame comes the board is given a lone tick once a second.
 *
 * Where the library refuses the board, a sentence on standard error says why, and at the start the program ends: the demonstration board is a
 * good one, and another that is put in its place may not be.
 */
#define _POSIX_C_SOURCE 200809L

#include "demonstration.h"

#include <arpa/inet.h>
#include <errno.h>
#include <fcntl.h>
#include <netinet/in.h>
#include <netinet/tcp.h>
#include <poll.h>
#include <signal.h>
#include <stdio.h>
#include <stdlib.h>
#include <string.h>
#include <sys/socket.h>
#include <time.h>
#include <unistd.h>

/* How much is read at once. */
#define BLOCK_SIZE 4096

/* A tool that takes nothing is dropped when this much waits for it: a bus does not wait for a listener either. */
#define OUTPUT_MAX (1024u * 1024u)

/* While this much waits for a tool, its own lines are left unread, so that it is not dropped for asking faster than it listens. */
#define OUTPUT_BUSY (64u * 1024u)

/* How long a tool is waited for, in milliseconds: one that has something to take and takes nothing for so long is dropped, and so is one
   that has not taken everything so long after the end of its input. */
#define WAIT_MAX 5000

/* The most that the system may be asked to keep for a tool. */
#define SEND_BUFFER_MAX (1024L * 1024L)

/* The greatest header of a frame on the bus: 29 bits. */
#define HEADER_MAX 0x1FFFFFFFu

/* The most tools at once. A connection over it is closed as soon as it is taken. */
#define CONNECTIONS_MAX 64u

/* How long no new tool is taken after the system had no descriptor for one, in milliseconds. */
#define ACCEPT_PAUSE 100

/* After how many milliseconds without a frame the board is given a lone tick. */
#define TICK_PAUSE 1000

/* After how many milliseconds without any tick all that was unfinished is dropped by one of that time: above BUJORELM_AGE_MAX, and below
   BUJORELM_TICKS_BOUND. */
#define TICK_GAP 30000

/* ---- Failures and the clock ---- */

static void fail(const char *what)
{
    fprintf(stderr, "host: %s: %s\n", what, strerror(errno));
    exit(EXIT_FAILURE);
}

/* Milliseconds on a clock that nobody sets. */
static int64_t now(void)
{
    struct timespec t;

    if (clock_gettime(CLOCK_MONOTONIC, &t) != 0) {
        fail("clock");
    }
    return (int64_t)t.tv_sec * 1000 + t.tv_nsec / 1000000;
}

/* ---- Lines ---- */

typedef void (*take_line_function)(void *context, const struct bujorelm_parsed *line);

/* Calls `take` with each line that the block completes; what is left is kept in the carry. */
static void lines_feed(struct bujorelm_carry *carry, const uint8_t *block, size_t len, take_line_function take, void *context)
{
    struct bujorelm_line line;
    uint64_t at = 0;

    while (at < len) {
        at = bujorelm_next_line(block, len, at, carry, &line);
        if (line.complete) {
            take(context, &line.parsed);
        }
    }
}

/* The end of the input: its last line may lack the newline. */
static void lines_end(struct bujorelm_carry *carry, take_line_function take, void *context)
{
    struct bujorelm_line line;

    bujorelm_last_line(carry, &line);
    if (line.complete) {
        take(context, &line.parsed);
    }
}

/* ---- The board ---- */

struct board {
    struct bujorelm_node node;
    uint8_t memory[DEMONSTRATION_MEMORY_SIZE];
    /* When it was last given a tick, or was started. */
    int64_t last;
};

/* Whether the library refuses what it is handed; the sentence says what is wrong with the board. */
static bool is_refused(struct bujorelm_result result)
{
    char sentence[BUJORELM_SENTENCE_SIZE];

    if (result.kind != BUJORELM_REFUSED) {
        return false;
    }
    fprintf(stderr, "host: %s\n", bujorelm_sentence_of(result, sentence));
    return true;
}

/* A fresh board. One that the library refuses would answer nobody, so the program ends. */
static void board_start(struct board *board)
{
    memset(board->memory, 0, sizeof board->memory);
    bujorelm_node_start(&board->node, &demonstration_description, demonstration_flash, sizeof demonstration_flash, board->memory,
                        sizeof board->memory);
    board->last = now();
    if (is_refused(bujorelm_node_check(&board->node))) {
        exit(EXIT_FAILURE);
    }
}

/* A lone tick. */
static void board_tick(struct board *board, int64_t time)
{
    (void)is_refused(bujorelm_node_tick(&board->node, (uint16_t)time));
}

/* The tick that the board is given now. The host may have been kept from giving one for so long that 16 bits do not tell how long: it was
   stopped, or nobody took its output. Then a lone tick of a time in between goes first. By that one all that was unfinished is too old. */
static uint16_t board_now(struct board *board)
{
    const int64_t time = now();

    if (time - board->last > TICK_GAP) {
        board_tick(board, board->last + TICK_GAP);
    }
    board->last = time;
    return (uint16_t)time;
}

/* To be called each time that input has been waited for: gives the board a lone tick where no frame has brought one for TICK_PAUSE. */
static void board_waited(struct board *board)
{
    if (now() - board->last >= TICK_PAUSE) {
        board_tick(board, board_now(board));
    }
}

/* A frame for the board, from its arrival until the frames that answer it are handed to `send`. */
static void board_receive(struct board *board, const struct bujorelm_frame *frame, bujorelm_send_function send, void *context)
{
    const uint16_t tick = board_now(board);
    struct bujorelm_result result;

    (void)bujorelm_node_receive(&board->node, tick, frame->header, frame->bytes, frame->len, send, context, &result);
    (void)is_refused(result);
}

/* ---- Descriptors ---- */

/* Waits until a descriptor is ready, for so many milliseconds at most; with -1, for ever. Returns whether it is. */
static bool wait_for(int fd, short events, int timeout)
{
    struct pollfd p = {.fd = fd, .events = events};
    int ready;

    while ((ready = poll(&p, 1, timeout)) < 0) {
        if (errno != EINTR) {
            fail("poll");
        }
    }
    return ready != 0;
}

static bool would_block(int error)
{
    return error == EAGAIN || error == EWOULDBLOCK;
}

/* ---- Standard input to standard output ---- */

/* Answers that are not written yet. */
struct pipe_host {
    struct board board;
    struct bujorelm_carry carry;
    size_t len;
    uint8_t out[8192];
};

static void pipe_flush(struct pipe_host *host)
{
    size_t done = 0;

    while (done < host->len) {
        const ssize_t count = write(STDOUT_FILENO, host->out + done, host->len - done);

        if (count >= 0) {
            done += (size_t)count;
        } else if (would_block(errno)) {
            (void)wait_for(STDOUT_FILENO, POLLOUT, -1);
        } else if (errno != EINTR) {
            fail("standard output");
        }
    }
    host->len = 0;
}

static void pipe_room(struct pipe_host *host)
{
    if (sizeof host->out - host->len < BUJORELM_PRINTED_MAX) {
        pipe_flush(host);
    }
}

static bool pipe_send(void *context, const struct bujorelm_frame *frame)
{
    struct pipe_host *const host = context;

    pipe_room(host);
    host->len = bujorelm_print_frame(frame, host->out, sizeof host->out, host->len);
    return true;
}

static void pipe_line(void *context, const struct bujorelm_parsed *line)
{
    struct pipe_host *const host = context;

    if (line->good) {
        board_receive(&host->board, &line->frame, pipe_send, host);
    } else {
        pipe_room(host);
        memcpy(host->out + host->len, "?\n", 2);
        host->len += 2;
    }
}

/* Reads a block. Returns false at the end of the input. */
static bool pipe_read(struct pipe_host *host)
{
    uint8_t block[BLOCK_SIZE];
    const ssize_t count = read(STDIN_FILENO, block, sizeof block);

    if (count > 0) {
        lines_feed(&host->carry, block, (size_t)count, pipe_line, host);
        pipe_flush(host);
    } else if (count == 0) {
        lines_end(&host->carry, pipe_line, host);
        pipe_flush(host);
    } else if (errno != EINTR && !would_block(errno)) {
        fail("standard input");
    }
    return count != 0;
}

static int run_pipe(void)
{
    static struct pipe_host host;

    board_start(&host.board);
    for (;;) {
        if (wait_for(STDIN_FILENO, POLLIN, TICK_PAUSE) && !pipe_read(&host)) {
            return EXIT_SUCCESS;
        }
        board_waited(&host.board);
    }
}

/* ---- TCP ---- */

/* A connected tool. What waits for it is `out` from `sent` up to `len`. */
struct tool {
    int fd;
    /* Since when it is waited for: when something began to wait for it, or when it last took some of that. After the end of its input that
       no longer counts: then it is the time of the end. */
    int64_t since;
    /* Its input has ended: it is dropped once it has been sent what waits for it. */
    bool ended;
    /* It is closed and taken out of the list before the next poll. */
    bool dropped;
    struct bujorelm_carry carry;
    uint8_t *out;
    size_t sent;
    size_t len;
    size_t size;
};

struct hub {
    struct board board;
    int listener;
    bool accept_paused;
    /* What the system is asked to keep for a tool, or 0 for what it likes. */
    int send_buffer;
    size_t count;
    struct tool tools[CONNECTIONS_MAX];
    /* The listener is polled too. */
    struct pollfd polled[CONNECTIONS_MAX + 1];
};

/* A line on its way to the hub, with the index of the tool that sent it. */
struct arrival {
    struct hub *hub;
    size_t from;
};

static bool set_nonblocking(int fd)
{
    const int flags = fcntl(fd, F_GETFL);

    return flags >= 0 && fcntl(fd, F_SETFL, flags | O_NONBLOCK) == 0;
}

static size_t tool_waiting(const struct tool *tool)
{
    return tool->len - tool->sent;
}

static void tool_drop(struct tool *tool, const char *why)
{
    tool->dropped = true;
    fprintf(stderr, "host: a connection is closed: %s\n", why);
}

/* Sends what the tool takes now. */
static void tool_flush(struct tool *tool)
{
    while (!tool->dropped && tool_waiting(tool) != 0) {
        const ssize_t count = send(tool->fd, tool->out + tool->sent, tool_waiting(tool), MSG_NOSIGNAL);

        if (count >= 0) {
            tool->sent += (size_t)count;
            if (!tool->ended) {
                tool->since = now();
            }
        } else if (would_block(errno)) {
            return;
        } else if (errno != EINTR) {
            tool->dropped = true;
        }
    }
    tool->sent = 0;
    tool->len = 0;
    if (tool->ended) {
        tool->dropped = true;
    }
}

/* Drops a tool that has been waited for too long. */
static void tool_time(struct tool *tool, int64_t time)
{
    if (!tool->dropped && tool_waiting(tool) != 0 && time - tool->since >= WAIT_MAX) {
        tool_drop(tool, tool->ended ? "it has not taken the answers since its input ended" : "it takes nothing");
    }
}

/* Puts bytes behind what waits for the tool. One that lets too much wait is dropped; one that has ended gets no more than the answers to
   what it sent. */
static void tool_append(struct tool *tool, const uint8_t *bytes, size_t len)
{
    if (tool->dropped || tool->ended) {
        return;
    }
    if (tool_waiting(tool) == 0) {
        tool->since = now();
    }
    if (tool->size - tool->len < len && tool->sent != 0) {
        memmove(tool->out, tool->out + tool->sent, tool_waiting(tool));
        tool->len -= tool->sent;
        tool->sent = 0;
    }
    if (OUTPUT_MAX - tool->len < len) {
        tool_drop(tool, "too much waits for it");
        return;
    }
    if (tool->size - tool->len < len) {
        const size_t doubled = tool->size == 0 ? BLOCK_SIZE : 2 * tool->size;
        const size_t size = doubled < OUTPUT_MAX ? doubled : OUTPUT_MAX;
        uint8_t *const out = realloc(tool->out, size);

        if (out == NULL) {
            tool_drop(tool, "there is no memory for what waits for it");
            return;
        }
        tool->out = out;
        tool->size = size;
    }
    memcpy(tool->out + tool->len, bytes, len);
    tool->len += len;
}

/* A frame to every tool but one; with `but` at the number of tools, to every one. */
static void hub_relay(struct hub *hub, const struct bujorelm_frame *frame, size_t but)
{
    uint8_t text[BUJORELM_PRINTED_MAX];
    const size_t len = bujorelm_print_frame(frame, text, sizeof text, 0);

    for (size_t i = 0; i < hub->count; i++) {
        if (i != but) {
            tool_append(&hub->tools[i], text, len);
        }
    }
}

static bool hub_send(void *context, const struct bujorelm_frame *frame)
{
    struct hub *const hub = context;

    hub_relay(hub, frame, hub->count);
    return true;
}

static void hub_line(void *context, const struct bujorelm_parsed *line)
{
    const struct arrival *const arrival = context;
    struct hub *const hub = arrival->hub;

    if (line->good) {
        if (line->frame.header <= HEADER_MAX) {
            hub_relay(hub, &line->frame, arrival->from);
        }
        board_receive(&hub->board, &line->frame, hub_send, hub);
    } else {
        tool_append(&hub->tools[arrival->from], (const uint8_t *)"?\n", 2);
    }
}

/* Reads a block from a tool: one only, so that a busy tool does not keep the others waiting. */
static void hub_read(struct hub *hub, size_t from)
{
    struct tool *const tool = &hub->tools[from];
    struct arrival arrival = {.hub = hub, .from = from};
    uint8_t block[BLOCK_SIZE];
    const ssize_t count = recv(tool->fd, block, sizeof block, 0);

    if (count > 0) {
        lines_feed(&tool->carry, block, (size_t)count, hub_line, &arrival);
    } else if (count == 0) {
        lines_end(&tool->carry, hub_line, &arrival);
        tool->ended = true;
        tool->since = now();
    } else if (errno != EINTR && !would_block(errno)) {
        tool->dropped = true;
    }
}

static void hub_accept(struct hub *hub)
{
    const int one = 1;
    const int fd = accept(hub->listener, NULL, NULL);

    if (fd < 0) {
        /* A tool that has gone again is none; without a descriptor for it the listener would be ready again at once. */
        if (errno == EMFILE || errno == ENFILE || errno == ENOBUFS || errno == ENOMEM) {
            hub->accept_paused = true;
        }
        return;
    }
    if (hub->count == CONNECTIONS_MAX) {
        fprintf(stderr, "host: a connection is closed: there are %u already\n", CONNECTIONS_MAX);
        close(fd);
        return;
    }
    if (!set_nonblocking(fd)) {
        close(fd);
        return;
    }
    /* A frame is short and somebody waits for it. Without this it is only later. */
    (void)setsockopt(fd, IPPROTO_TCP, TCP_NODELAY, &one, sizeof one);
    if (hub->send_buffer != 0) {
        (void)setsockopt(fd, SOL_SOCKET, SO_SNDBUF, &hub->send_buffer, sizeof hub->send_buffer);
    }
    hub->tools[hub->count++] = (struct tool){.fd = fd};
}

/* Takes the dropped tools out of the list; the others keep their order. */
static void hub_sweep(struct hub *hub)
{
    size_t kept = 0;

    for (size_t i = 0; i < hub->count; i++) {
        if (hub->tools[i].dropped) {
            close(hub->tools[i].fd);
            free(hub->tools[i].out);
        } else {
            hub->tools[kept++] = hub->tools[i];
        }
    }
    hub->count = kept;
}

static int hub_listen(uint16_t port)
{
    const int one = 1;
    struct sockaddr_in address;
    socklen_t len = sizeof address;
    const int fd = socket(AF_INET, SOCK_STREAM, 0);

    if (fd < 0 || !set_nonblocking(fd)) {
        fail("socket");
    }
    (void)setsockopt(fd, SOL_SOCKET, SO_REUSEADDR, &one, sizeof one);
    memset(&address, 0, sizeof address);
    address.sin_family = AF_INET;
    address.sin_port = htons(port);
    address.sin_addr.s_addr = htonl(INADDR_LOOPBACK);
    if (bind(fd, (const struct sockaddr *)&address, sizeof address) != 0) {
        fail("bind");
    }
    if (listen(fd, 64) != 0) {
        fail("listen");
    }
    if (getsockname(fd, (struct sockaddr *)&address, &len) != 0) {
        fail("getsockname");
    }
    printf("%u\n", (unsigned)ntohs(address.sin_port));
    if (fflush(stdout) != 0) {
        fail("standard output");
    }
    return fd;
}

/* How long the next poll may take, in milliseconds: until the first tool has been waited for too long, or a lone tick is due. */
static int hub_timeout(const struct hub *hub)
{
    const int64_t time = now();
    int64_t timeout = hub->accept_paused ? ACCEPT_PAUSE : TICK_PAUSE;

    for (size_t i = 0; i < hub->count; i++) {
        const struct tool *const tool = &hub->tools[i];
        const int64_t left = tool->since + WAIT_MAX - time;

        if (tool_waiting(tool) != 0 && left < timeout) {
            timeout = left < 0 ? 0 : left;
        }
    }
    return (int)timeout;
}

static void hub_poll(struct hub *hub)
{
    hub->polled[0] = (struct pollfd){.fd = hub->accept_paused ? -1 : hub->listener, .events = POLLIN};
    for (size_t i = 0; i < hub->count; i++) {
        const struct tool *const tool = &hub->tools[i];
        short events = 0;

        if (!tool->ended && tool_waiting(tool) < OUTPUT_BUSY) {
            events |= POLLIN;
        }
        if (tool_waiting(tool) != 0) {
            events |= POLLOUT;
        }
        hub->polled[i + 1] = (struct pollfd){.fd = tool->fd, .events = events};
    }
    while (poll(hub->polled, (nfds_t)(hub->count + 1), hub_timeout(hub)) < 0) {
        if (errno != EINTR) {
            fail("poll");
        }
    }
    hub->accept_paused = false;
}

/* Takes in what the last poll found at a tool. */
static void hub_serve(struct hub *hub, size_t i)
{
    struct tool *const tool = &hub->tools[i];
    const struct pollfd *const polled = &hub->polled[i + 1];

    if (tool->dropped) {
        return;
    }
    if ((polled->revents & (POLLERR | POLLNVAL)) != 0) {
        tool->dropped = true;
    } else if ((polled->events & POLLIN) != 0 && (polled->revents & (POLLIN | POLLHUP)) != 0) {
        hub_read(hub, i);
    } else if ((polled->revents & POLLHUP) != 0) {
        /* Gone in both directions: nobody takes what waits. */
        tool->dropped = true;
    }
}

/* Does not return. */
static void run_hub(uint16_t port, int send_buffer)
{
    static struct hub hub;

    board_start(&hub.board);
    hub.send_buffer = send_buffer;
    hub.listener = hub_listen(port);
    for (;;) {
        int64_t time;

        hub_poll(&hub);
        for (size_t i = 0; i < hub.count; i++) {
            hub_serve(&hub, i);
        }
        board_waited(&hub.board);
        time = now();
        for (size_t i = 0; i < hub.count; i++) {
            tool_flush(&hub.tools[i]);
            tool_time(&hub.tools[i], time);
        }
        hub_sweep(&hub);
        if (hub.polled[0].revents != 0) {
            hub_accept(&hub);
        }
    }
}

/* ---- The command line ---- */

static int usage(void)
{
    fputs("usage: host [--port N [--send-buffer BYTES]]\n"
          "A tick is a millisecond of the monotonic clock: a datagram of which nothing comes for more than 3 seconds is dropped.\n",
          stderr);
    return 2;
}

/* A number of decimal digits alone, at most `most`; -1 for anything else. */
static long number(const char *word, long most)
{
    char *end;
    long value;

    if (word[0] < '0' || word[0] > '9') {
        return -1;
    }
    errno = 0;
    value = strtol(word, &end, 10);
    return errno != 0 || *end != '\0' || value > most ? -1 : value;
}

int main(int argc, char **argv)
{
    long port;
    long send_buffer = 0;

    /* Output to somebody who has gone is an error of that write, not the end of the program. */
    if (signal(SIGPIPE, SIG_IGN) == SIG_ERR) {
        fail("signal");
    }
    if (!bujorelm_version_fits()) {
        fputs("host: libbujorelm.a is of another version than bujorelm.h\n", stderr);
        return EXIT_FAILURE;
    }
    if (argc == 1) {
        return run_pipe();
    }
    if ((argc != 3 && argc != 5) || strcmp(argv[1], "--port") != 0) {
        return usage();
    }
    port = number(argv[2], 65535);
    if (argc == 5) {
        send_buffer = strcmp(argv[3], "--send-buffer") == 0 ? number(argv[4], SEND_BUFFER_MAX) : -1;
    }
    if (port < 0 || send_buffer < 0) {
        return usage();
    }
    run_hub((uint16_t)port, (int)send_buffer);
    return EXIT_FAILURE;
}
