/* Laid under a program with LD_PRELOAD: some of its reads of standard input and of its writes to standard output fail, or move fewer bytes.
 *
 *   cc -shared -fPIC -O1 -o faults.so tests/faults.c
 *   FAULT_CALLS=read,write FAULT_EVERY=3 FAULT_KIND=EINTR LD_PRELOAD=./faults.so target/bin/strokes < drawing.hpgl
 *
 * FAULT_EVERY=k strikes the k-th, the 2k-th, .. of these calls. FAULT_KIND is EINTR, EAGAIN, EIO or ENOSPC: the call fails with it and moves
 * nothing; or short: it moves at most 7 bytes. At the end as many faults as there were are told in the file that FAULT_TOLD names.
 */
#define _GNU_SOURCE
#include <errno.h>
#include <fcntl.h>
#include <stdio.h>
#include <stdlib.h>
#include <string.h>
#include <sys/syscall.h>
#include <unistd.h>

enum { FEW = 7 };

static long calls, faults;

static int error_of(const char *kind)
{
    if (strcmp(kind, "EINTR") == 0)
        return EINTR;
    if (strcmp(kind, "EAGAIN") == 0)
        return EAGAIN;
    if (strcmp(kind, "EIO") == 0)
        return EIO;
    if (strcmp(kind, "ENOSPC") == 0)
        return ENOSPC;
    return 0;
}

/* Whether this call is struck. */
static int struck(const char *call)
{
    const char *which = getenv("FAULT_CALLS"), *every = getenv("FAULT_EVERY");

    if (which == NULL || every == NULL || strstr(which, call) == NULL)
        return 0;
    calls++;
    if (calls % atol(every) != 0)
        return 0;
    faults++;
    return 1;
}

/* The count that is moved instead, or -1 with errno set. */
static ssize_t less(size_t count)
{
    int error = error_of(getenv("FAULT_KIND"));

    if (error != 0) {
        errno = error;
        return -1;
    }
    return count < FEW ? (ssize_t)count : FEW;
}

ssize_t read(int file, void *block, size_t count)
{
    ssize_t most = (ssize_t)count;

    if (file == STDIN_FILENO && struck("read"))
        most = less(count);
    return most < 0 ? -1 : syscall(SYS_read, file, block, (size_t)most);
}

ssize_t write(int file, const void *text, size_t count)
{
    ssize_t most = (ssize_t)count;

    if (file == STDOUT_FILENO && struck("write"))
        most = less(count);
    return most < 0 ? -1 : syscall(SYS_write, file, text, (size_t)most);
}

__attribute__((destructor)) static void told(void)
{
    const char *name = getenv("FAULT_TOLD");
    int file = name == NULL ? -1 : open(name, O_WRONLY | O_CREAT | O_TRUNC, 0666);

    if (file >= 0)
        dprintf(file, "%ld\n", faults);
}
