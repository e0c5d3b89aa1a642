/* The bench tool on a bus of GridConnect lines behind a TCP port. */
#define _POSIX_C_SOURCE 200809L

#include "tool_bus.h"
#include "tool_explain.h"

#include <errno.h>
#include <netdb.h>
#include <netinet/in.h>
#include <netinet/tcp.h>
#include <poll.h>
#include <stdio.h>
#include <string.h>
#include <sys/socket.h>
#include <sys/time.h>
#include <time.h>
#include <unistd.h>

/* How long the other end is given at the end to take what was sent, and how long at most is listened for what came before a command, in
   milliseconds. */
#define CLOSING 200
#define PASSING_OVER 200

/* Milliseconds on a clock that nobody sets. */
static int64_t now(void)
{
    struct timespec t = {0, 0};

    (void)clock_gettime(CLOCK_MONOTONIC, &t);
    return (int64_t)t.tv_sec * 1000 + t.tv_nsec / 1000000;
}

/* ---- The connection ---- */

/* A connection to one of the addresses of a host; -1 where there is none. The time that a socket may take to send is on Linux also the one
   that it may take to connect. */
static int connect_to(const struct addrinfo *address, unsigned timeout)
{
    const struct timeval time = {.tv_sec = (time_t)timeout};
    const int one = 1;
    const int fd = socket(address->ai_family, address->ai_socktype, address->ai_protocol);

    if (fd < 0) {
        return -1;
    }
    /* A frame is short and somebody waits for it. */
    (void)setsockopt(fd, IPPROTO_TCP, TCP_NODELAY, &one, sizeof one);
    if (setsockopt(fd, SOL_SOCKET, SO_SNDTIMEO, &time, sizeof time) == 0 && connect(fd, address->ai_addr, address->ai_addrlen) == 0) {
        return fd;
    }
    if (errno == EINPROGRESS) {
        errno = ETIMEDOUT;
    }
    (void)close(fd);
    return -1;
}

bool bus_open(struct bus *bus, const char *host, const char *port)
{
    const struct addrinfo hints = {.ai_family = AF_UNSPEC, .ai_socktype = SOCK_STREAM};
    struct addrinfo *addresses = NULL;
    const int unknown = getaddrinfo(host, port, &hints, &addresses);
    int error = 0;

    bus->fd = -1;
    for (const struct addrinfo *a = unknown == 0 ? addresses : NULL; a != NULL && bus->fd < 0; a = a->ai_next) {
        bus->fd = connect_to(a, bus->timeout);
        error = errno;
    }
    if (unknown == 0) {
        freeaddrinfo(addresses);
    }
    if (bus->fd < 0) {
        fprintf(stderr, "tool: no connection to %s, port %s: %s\n", host, port, unknown != 0 ? gai_strerror(unknown) : strerror(error));
    }
    return bus->fd >= 0;
}

/* Sends frames as lines. Where that fails, the connection has ended. */
static void send_frames(struct bus *bus, const struct bujorelm_frame *frames, size_t count)
{
    uint8_t text[LINES_MAX];
    const size_t len = print_frames(frames, count, text);
    size_t sent = 0;

    while (sent < len && !bus->ended) {
        const ssize_t now_sent = send(bus->fd, text + sent, len - sent, MSG_NOSIGNAL);

        if (now_sent >= 0) {
            sent += (size_t)now_sent;
        } else if (errno != EINTR) {
            bus->ended = true;
        }
    }
}

/* Whether something has come, or comes until the deadline. One that is over is over, however much comes. */
static bool comes_until(const struct bus *bus, int64_t deadline)
{
    struct pollfd polled = {.fd = bus->fd, .events = POLLIN};
    int ready;

    do {
        const int64_t left = deadline - now();

        ready = left < 0 ? 0 : poll(&polled, 1, (int)left);
    } while (ready < 0 && errno == EINTR);
    return ready > 0;
}

/* Reads the next block; false where none comes until the deadline or at all. */
static bool receive(struct bus *bus, int64_t deadline)
{
    ssize_t count;

    if (bus->ended || !comes_until(bus, deadline)) {
        return false;
    }
    do {
        count = recv(bus->fd, bus->block, sizeof bus->block, 0);
    } while (count < 0 && errno == EINTR);
    bus->ended = count <= 0;
    bus->at = 0;
    bus->len = bus->ended ? 0 : (size_t)count;
    return !bus->ended;
}

void bus_close(struct bus *bus)
{
    const int64_t deadline = now() + CLOSING;

    /* What is closed with something unread is reset, and then what was sent last may be lost: so the rest is read first. */
    (void)shutdown(bus->fd, SHUT_WR);
    while (receive(bus, deadline)) {
    }
    (void)close(bus->fd);
}

/* ---- Answers ---- */

/* Finds the next frame in the block; lines that are none are passed over. */
static bool next_in_block(struct bus *bus)
{
    struct bujorelm_line line;

    while (bus->at < bus->len) {
        bus->at = bujorelm_next_line(bus->block, bus->len, bus->at, &bus->carry, &line);
        if (line.complete && line.parsed.good) {
            bus->frame = line.parsed.frame;
            return true;
        }
    }
    return false;
}

static bool next_frame(struct bus *bus, int64_t deadline)
{
    while (!next_in_block(bus)) {
        if (!receive(bus, deadline)) {
            return false;
        }
    }
    return true;
}

/* What the datagram transport asks of whoever receives a datagram: Received OK for a reply, and Rejected for what is none or out of order. */
static void acknowledge(struct bus *bus, const struct answer *answer)
{
    const uint16_t from = bus->listener.alias;
    const uint16_t to = bus->listener.board;
    struct bujorelm_frame frames[BUJORELM_SENT_MAX];
    struct bujorelm_reply reply;

    bujorelm_read_reply(answer->bytes, answer->len, &reply);
    if (answer->kind == ANSWER_OUT_OF_ORDER) {
        send_frames(bus, frames, bujorelm_rejected(from, to, answer->code, frames));
    } else if (answer->kind == ANSWER_DATAGRAM && reply.kind == BUJORELM_REPLY_NONE) {
        send_frames(bus, frames, bujorelm_rejected(from, to, BUJORELM_CODE_INVALID_ARGUMENTS, frames));
    } else if (answer->kind == ANSWER_DATAGRAM) {
        send_frames(bus, frames, bujorelm_received_ok(from, to, BUJORELM_FLAGS_NONE, frames));
    }
}

/* The next answer of the board; ANSWER_NONE where none comes until the deadline. */
static struct answer next_answer(struct bus *bus, int64_t deadline)
{
    struct answer answer = {.kind = ANSWER_NONE};

    while (answer.kind == ANSWER_NONE && next_frame(bus, deadline)) {
        answer = listener_take(&bus->listener, &bus->frame);
    }
    acknowledge(bus, &answer);
    return answer;
}

/* Takes in all that has come so far. None of it answers a command that is sent only later. */
static void pass_over(struct bus *bus)
{
    const int64_t limit = now() + PASSING_OVER;

    do {
        (void)next_answer(bus, now());
    } while ((bus->at < bus->len || comes_until(bus, now())) && !bus->ended && now() < limit);
}

void bus_wait_for_input(struct bus *bus)
{
    struct pollfd polled[] = {{.fd = STDIN_FILENO, .events = POLLIN}, {.fd = -1, .events = POLLIN}};

    while (polled[0].revents == 0) {
        polled[1].fd = bus->ended ? -1 : bus->fd;
        if (poll(polled, 2, -1) < 0 && errno != EINTR) {
            return;
        }
        if (polled[1].revents != 0) {
            pass_over(bus);
        }
    }
}

/* How long an answer is waited for, and until when; 0 seconds where none is. */
struct waiting {
    unsigned seconds;
    int64_t deadline;
};

static struct waiting wait_from_now(unsigned seconds)
{
    return (struct waiting){.seconds = seconds, .deadline = now() + 1000 * (int64_t)seconds};
}

/* Explains an answer to a command. Where a further one is announced it is waited for anew, as long as the board says if it says so. */
static enum status take_answer(const struct bus *bus, const struct command *command, const struct answer *answer, struct waiting *waiting)
{
    const bool well = explain(answer, command->kind == COMMAND_LOCK ? command->id : NULL);
    const bool received = answer->kind == ANSWER_RECEIVED_OK;
    struct bujorelm_acknowledged ok;

    bujorelm_read_received_ok(answer->bytes, answer->len, &ok);
    if (answer->kind == ANSWER_OUT_OF_ORDER) {
        /* The board was told, and may send it again. */
        return STATUS_FAILED;
    }
    if (received && ok.pending) {
        *waiting = wait_from_now(ok.timeout == 0 ? bus->timeout : 1u << ok.timeout);
        return STATUS_WELL;
    }
    waiting->seconds = 0;
    if (received && well && needs_reply(command)) {
        fputs("tool: this command is answered by a reply, and the board announces none\n", stderr);
        return STATUS_FAILED;
    }
    return well ? STATUS_WELL : STATUS_FAILED;
}

/* Whether an answer is to this command and not to another. Received OK and Rejected do not say to which, and what is W3 is said in any case. */
static bool is_to(const struct command *command, const struct answer *answer)
{
    struct bujorelm_reply reply;

    bujorelm_read_reply(answer->bytes, answer->len, &reply);
    if (answer->kind != ANSWER_DATAGRAM || reply.kind == BUJORELM_REPLY_NONE || is_reply_to(command, &reply)) {
        return true;
    }
    fputs("tool: a reply to another command is passed over\n", stderr);
    return false;
}

static enum status no_answer(const struct bus *bus, unsigned seconds)
{
    if (bus->ended) {
        fprintf(stderr, "tool: no answer from board 0x%03X: the connection has ended\n", bus->listener.board);
    } else {
        fprintf(stderr, "tool: no answer from board 0x%03X within %u second%s\n", bus->listener.board, seconds, seconds == 1 ? "" : "s");
    }
    return STATUS_NO_ANSWER;
}

enum status bus_ask(struct bus *bus, const struct command *command)
{
    struct bujorelm_frame frames[BUJORELM_SENT_MAX];
    const size_t count = bujorelm_cut(command->datagram, command->len, bus->listener.alias, bus->listener.board, frames);
    enum status status = STATUS_WELL;
    struct waiting waiting;

    pass_over(bus);
    send_frames(bus, frames, count);
    waiting = wait_from_now(bus->timeout);
    while (waiting.seconds != 0) {
        const struct answer answer = next_answer(bus, waiting.deadline);

        if (answer.kind == ANSWER_NONE) {
            return no_answer(bus, waiting.seconds);
        }
        if (is_to(command, &answer)) {
            status = take_answer(bus, command, &answer, &waiting);
        }
    }
    return status;
}
