/* Answers a package on a pipe: it reads bytes as they come, paints, and sends each reply (of OA, OP, OW, OH, OE) back at once, so that a package
 * which asks where the carriage is and waits gets its line. Here a stroke is painted by printing it on standard error: pen, x0, y0, x1, y1; and a
 * refused byte is told there: E, number.
 *
 *     tools/build vutaroi
 *     gcc -Wall -Wextra -O2 -Iinclude examples/package.c target/staticlib/libvutaroi.a -o package
 *     mkfifo to from && ./package < to > from
 *
 * A read or a write that fails is told on standard error, and the status is 1.
 */
#define _POSIX_C_SOURCE 200809L
#include <errno.h>
#include <inttypes.h>
#include <stdio.h>
#include <unistd.h>

#include "vutaroi.h"

enum { BLOCK = 4096, ROOM = 256 };

static vutaroi_machine machine;

/* What comes next, as soon as some of it is there. */
static ssize_t read_some(uint8_t *block)
{
    ssize_t got;

    do
        got = read(STDIN_FILENO, block, BLOCK);
    while (got < 0 && errno == EINTR);
    return got;
}

static void paint(const int64_t *stroke)
{
    fprintf(stderr, "%" PRId64 " %" PRId64 " %" PRId64 " %" PRId64 " %" PRId64 "\n", stroke[0], stroke[1], stroke[2], stroke[3], stroke[4]);
}

/* Sends the reply that waits, if one does; 0 where that failed. */
static int send_reply(void)
{
    uint8_t reply[VUTAROI_REPLY];
    uint64_t length;

    if (vutaroi_fetch(&machine, VUTAROI_NUMBERS, reply, sizeof reply, &length, 1) != 0)
        return 0;
    return fwrite(reply, 1, (size_t)length, stdout) == length && fflush(stdout) == 0;
}

/* Paints what some bytes ask for. Where a reply stops the call, it goes on after those that were taken; 0 where it could not go on. */
static int paint_bytes(const uint8_t *bytes, size_t count)
{
    int64_t records[ROOM * VUTAROI_RECORD];
    uint64_t answer[2];
    uint8_t number;

    do {
        number = vutaroi_feed(&machine, VUTAROI_NUMBERS, bytes, count, records, ROOM * VUTAROI_RECORD, answer, 2);
        if (number == VUTAROI_NO_MACHINE || number == VUTAROI_SHORT)
            return 0;
        for (uint64_t i = 0; i < answer[1]; i++)
            paint(records + i * VUTAROI_RECORD);
        if (number != 0 && number != VUTAROI_BUSY && number != VUTAROI_FULL)
            fprintf(stderr, "E %d\n", number);
        if (!send_reply())
            return 0;
        bytes += answer[0];
        count -= (size_t)answer[0];
    } while (number != 0);
    return 1;
}

int main(void)
{
    uint8_t block[BLOCK];
    ssize_t got;

    vutaroi_fresh(-10000, -7000, 10000, 7000, &machine, VUTAROI_NUMBERS);
    while ((got = read_some(block)) > 0) {
        if (!paint_bytes(block, (size_t)got)) {
            perror("package");
            return 1;
        }
    }
    if (got < 0) {
        perror("package: standard input");
        return 1;
    }
    return 0;
}
