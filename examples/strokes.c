/* Prints the strokes of standard input, as the program strokes does: pen, x0, y0, x1, y1 a line, or E, number, byte counted from 1; and each
 * reply (of OA, OP, OW, OH, OE) as soon as it is made.
 *
 *     tools/build vutaroi
 *     gcc -Wall -Wextra -O2 -Iinclude examples/strokes.c target/staticlib/libvutaroi.a -o strokes
 *     ./strokes < drawing.hpgl
 *
 * The lines of what a read gave are written before the next read, so that a live stream is answered as it comes. A read or a write that fails
 * is told on standard error, and the status is 1; one that a signal interrupted is tried again, and one that has to wait is waited for.
 */
#define _POSIX_C_SOURCE 200809L
#include <errno.h>
#include <inttypes.h>
#include <poll.h>
#include <stdio.h>
#include <unistd.h>

#include "vutaroi.h"

enum { BLOCK = 65536, ROOM = 4096, LINE = 128, TEXT = 65536 };

static vutaroi_machine machine;
static uint8_t block[BLOCK];
static vutaroi_stroke strokes[ROOM];
static char text[TEXT];
static size_t used;

/* Whether a call that failed is to be tried again; one that has to wait waits here. */
static int again(int file, short event)
{
    struct pollfd ready = {file, event, 0};

    if (errno == EINTR)
        return 1;
    if (errno != EAGAIN && errno != EWOULDBLOCK)
        return 0;
    return poll(&ready, 1, -1) >= 0 || errno == EINTR;
}

static ssize_t read_block(void)
{
    ssize_t got;

    do
        got = read(STDIN_FILENO, block, BLOCK);
    while (got < 0 && again(STDIN_FILENO, POLLIN));
    return got;
}

/* Writes out what is gathered; 0 where a write failed. */
static int flush(void)
{
    size_t done = 0;

    while (done < used) {
        ssize_t put = write(STDOUT_FILENO, text + done, used - done);
        if (put > 0)
            done += (size_t)put;
        else if (put == 0 || !again(STDOUT_FILENO, POLLOUT))
            return 0;
    }
    used = 0;
    return 1;
}

/* The lines of the first strokes, and of a refusal on the byte `place`, where number is one; 0 where a write failed. */
static int print(uint64_t stored, int number, uint64_t place)
{
    for (uint64_t i = 0; i < stored; i++) {
        const vutaroi_stroke *s = strokes + i;
        if (TEXT - used < LINE && !flush())
            return 0;
        used += (size_t)snprintf(text + used, LINE, "%" PRId64 " %" PRId64 " %" PRId64 " %" PRId64 " %" PRId64 "\n", s->pen, s->x0, s->y0, s->x1, s->y1);
    }
    if (number == VUTAROI_NONE || number == VUTAROI_FULL || number == VUTAROI_BUSY)
        return 1;
    if (TEXT - used < LINE && !flush())
        return 0;
    used += (size_t)snprintf(text + used, LINE, "E %d %" PRIu64 "\n", number, place);
    return 1;
}

/* What a call that stopped for good says, and the status to end with. */
static int damaged(int number)
{
    fprintf(stderr, "strokes: the machine is damaged (%d)\n", number);
    return 2;
}

static int unwritten(void)
{
    perror("strokes: standard output");
    return 1;
}

/* The reply that waits, if one does, written out at once: 0, or the status to end with. */
static int print_reply(void)
{
    uint64_t length;
    uint8_t number;

    if (TEXT - used < LINE && !flush())
        return unwritten();
    number = vutaroi_fetch(&machine, VUTAROI_NUMBERS, (uint8_t *)text + used, VUTAROI_REPLY, &length, 1);
    if (number != 0)
        return damaged(number);
    used += (size_t)length;
    if (length > 0 && !flush())
        return unwritten();
    return 0;
}

/* The lines of the first bytes of the block, which come after as many as `before`: 0, or the status to end with. */
static int print_block(size_t count, uint64_t before)
{
    size_t at = 0;
    uint8_t number;
    int status;

    do {
        uint64_t answer[2];
        number = vutaroi_feed(&machine, VUTAROI_NUMBERS, block + at, count - at, vutaroi_records(strokes), ROOM * VUTAROI_RECORD, answer, 2);
        if (number == VUTAROI_NO_MACHINE || number == VUTAROI_SHORT)
            return damaged(number);
        at += answer[0];
        if (!print(answer[1], number, before + at))
            return unwritten();
        status = print_reply();
        if (status != 0)
            return status;
    } while (number != 0);
    return flush() ? 0 : unwritten();
}

int main(void)
{
    uint64_t before = 0; /* bytes of the blocks before */
    ssize_t got;
    int status;

    vutaroi_fresh(-10000, -7000, 10000, 7000, &machine, VUTAROI_NUMBERS);
    while ((got = read_block()) > 0) {
        status = print_block((size_t)got, before);
        if (status != 0)
            return status;
        before += (uint64_t)got;
    }
    if (got < 0) {
        perror("strokes: standard input");
        return 1;
    }
    return 0;
}
