/* An HP-GL machine for painting rink lines: bytes in, strokes and replies out. Link with libvutaroi.a, which `tools/build vutaroi` proves and writes.
 *
 * Who owns what. The caller owns every list and lends it for the length of a call; the library keeps nothing between calls, allocates nothing
 * and starts no thread. A list is a pointer and a count of its elements. A machine is a vutaroi_machine, lent with the count VUTAROI_NUMBERS:
 * vutaroi_fresh writes it first, and each later call reads and writes it anew.
 *
 * What is proved. Each call, handed any lists of any length, ends, touches no other memory, and answers what the project's definitions say: its
 * number, the machine, each number of each list (crates/vutaroi/specs/Calls.antt has one definition for each call, crates/vutaroi/src/lib.rt the
 * contracts). A machine is tested before it is used. It begins with a row of five numbers: the version of the form, a sum of all that follows,
 * 0, 0, 0; what follows has to be what the library writes of a machine that its calls can use. Otherwise the number is 40. A list that is too
 * short, or a machine lent with another count than VUTAROI_NUMBERS, gives 41, and that is looked at first. After 40 or 41 nothing was written.
 * Each machine that a call leaves passes. One that passes is safe: its strokes lie within its own limits and have a pen of 1 to 8. The sum tells
 * every change of one number and every exchange of two; it is no protection against someone who means to deceive.
 *
 * What the caller owes, since nothing can test it:
 *   - no two lists of a call overlap, and none changes during the call;
 *   - each count is that of its list. A pointer is never null, not even with a count of 0.
 *
 * Threads. Two machines may be used in two threads at the same time; one machine in one call at a time.
 *
 * Stack. A call needs at most VUTAROI_STACK bytes, and calls nothing of the caller's.
 *
 * On disk. A machine may be copied, and kept as its VUTAROI_NUMBERS numbers of 64 bits, in the order and with the byte order of the processor
 * that wrote them. A library that writes another form has another version in the first number, and answers 40 to this one.
 *
 * Numbers. Each call answers one of enum vutaroi_number, 0 for none; vutaroi_draw answers one of enum vutaroi_drawn, 40 or 41.
 */
#ifndef VUTAROI_H
#define VUTAROI_H

#include <stddef.h>
#include <stdint.h>

#ifdef __cplusplus
extern "C" {
#endif

/* The version of the library that this file belongs to: 10000 * major + 100 * minor + patch. vutaroi_version answers that of the library linked. */
#define VUTAROI_VERSION 100

/* The version of a machine's form, which is its first number. */
#define VUTAROI_FORM 5

/* The numbers of a machine, and of a record, which is a vutaroi_stroke. */
#define VUTAROI_NUMBERS 650
#define VUTAROI_RECORD 5

/* The bytes of the longest reply. */
#define VUTAROI_REPLY 37

/* The bytes of stack that a call needs. */
#define VUTAROI_STACK 65536

/* Why a byte or a call was refused, by the numbers of documents 01 and 02; 40 and 41 are of this library alone. */
enum vutaroi_number {
    VUTAROI_NONE = 0,        /* not refused */
    VUTAROI_UNKNOWN = 1,     /* unknown byte or name, number with no instruction, not known in polygon mode */
    VUTAROI_COUNT = 2,       /* count of numbers */
    VUTAROI_RANGE = 3,       /* number or setting out of range */
    VUTAROI_LOCATION = 6,    /* location out of range */
    VUTAROI_POLYGON = 7,     /* too many polygon bytes */
    VUTAROI_LIMITS = 10,     /* bad hard limits */
    VUTAROI_PITCH = 11,      /* unknown pitch code; of the drive, which has no call here */
    VUTAROI_DRIVE = 12,      /* stroke out of the range of the drive; likewise */
    VUTAROI_BUSY = 20,       /* take while a segment or a reply waits; feed and plot: a reply waits, fetch it, and hand on the bytes after those taken */
    VUTAROI_FULL = 21,       /* no record was free: hand on the bytes after those taken, and a free list */
    VUTAROI_BUFFER = 31,     /* buffer shorter than the reply, which still waits */
    VUTAROI_UNWRITABLE = 32, /* a stroke to be written has a pen other than 1 to 8, or an end out of range */
    VUTAROI_OUTPUT = 33,     /* output too short for the text */
    VUTAROI_NO_MACHINE = 40, /* no machine */
    VUTAROI_SHORT = 41       /* a list is too short */
};

/* What vutaroi_draw answers: no segment waits; one was worked off and nothing of it shows; one was worked off, and `stroke` has it. */
enum vutaroi_drawn { VUTAROI_IDLE = 0, VUTAROI_HIDDEN = 1, VUTAROI_STROKE = 2 };

/* A machine. Only the calls write it. */
typedef struct vutaroi_machine {
    int64_t numbers[VUTAROI_NUMBERS];
} vutaroi_machine;

/* A record by names. That of a refusal, which vutaroi_plot stores, has no pen: pen is 0, x0 the number and y0 the place of the byte. */
typedef struct vutaroi_stroke {
    int64_t pen;
    int64_t x0;
    int64_t y0;
    int64_t x1;
    int64_t y1;
} vutaroi_stroke;

/* A stroke is just its five numbers: this does not compile where one had gaps. */
typedef char vutaroi_stroke_has_no_gaps[sizeof(vutaroi_stroke) == VUTAROI_RECORD * sizeof(int64_t) ? 1 : -1];

/* A list of strokes as the list of numbers that the calls are lent: VUTAROI_RECORD for each. */
static inline int64_t *vutaroi_records(vutaroi_stroke *strokes)
{
    return (int64_t *)(void *)strokes;
}

/* 10000 * major + 100 * minor + patch. */
uint32_t vutaroi_version(void);

/* Writes a machine with these hard limits, whatever stood there. Each limit is -32768 to 32767, left < right, bottom < top; others give 10 and a
 * machine with the limits 0, 0, 1, 1. 0, 10 or 41. */
uint8_t vutaroi_fresh(int64_t left, int64_t bottom, int64_t right, int64_t top, vutaroi_machine *machine, size_t machine_count);

/* Takes one byte. While a segment or a reply waits: 20, and the machine stays. */
uint8_t vutaroi_take(vutaroi_machine *machine, size_t machine_count, uint8_t byte);

/* Works off one waiting segment. Where it answers VUTAROI_STROKE, the first five numbers of `stroke` are the stroke; else `stroke` stays.
 * `stroke` has at least VUTAROI_RECORD numbers. */
uint8_t vutaroi_draw(vutaroi_machine *machine, size_t machine_count, int64_t *stroke, size_t stroke_count);

/* Stores x, y, pen, down (1 or 0) and the polygon's bytes in `seen`, which has at least 5 numbers. It changes nothing else. 0, 40 or 41. */
uint8_t vutaroi_look(const vutaroi_machine *machine, size_t machine_count, int64_t *seen, size_t seen_count);

/* Writes the reply that waits, that of OA, OP, OW, OH or OE, into `out` from its first byte on; then none waits. A reply is whole numbers with
 * commas, closed by the bytes 13 and 10, and the bytes of `out` after it stay. VUTAROI_REPLY bytes hold any. With no reply waiting nothing is
 * written. If `out` is shorter than the reply: 31, nothing is written, and the reply still waits. answer[0] is how many bytes were written, 0 with
 * 31; `answer` has at least 1 number, and is not written with 40 or 41. 0, 31, 40 or 41. */
uint8_t vutaroi_fetch(vutaroi_machine *machine, size_t machine_count, uint8_t *out, size_t out_count, uint64_t *answer, size_t answer_count);

/* Feeds bytes: while a segment waits, draws it into the next record, or stops with 21 if none is free; when idle, takes the next byte. Stops after
 * a byte that is refused, which counts as taken, with its number; before a byte that a waiting reply refuses, which does not count, with 20; else
 * with 0 once all bytes are taken and no segment waits. A reply may wait then too.
 * answer[0] is how many bytes were taken, answer[1] how many records were stored; `answer` has at least 2 numbers, and is not written with 40 or
 * 41. The other numbers of `records` stay. */
uint8_t vutaroi_feed(vutaroi_machine *machine, size_t machine_count, const uint8_t *bytes, size_t bytes_count, int64_t *records, size_t records_count, uint64_t *answer, size_t answer_count);

/* As vutaroi_feed, but a refused byte is stored as a record among the strokes, and the bytes after it are taken: 0, number, place of the byte
 * among `bytes`, counted from 1, 0, 0. (No stroke has pen 0.) A byte waits for a free record too, since it may be refused; without one: 21.
 * It too stops before a byte that a waiting reply refuses, with 20: that one is neither stored nor taken. */
uint8_t vutaroi_plot(vutaroi_machine *machine, size_t machine_count, const uint8_t *bytes, size_t bytes_count, int64_t *records, size_t records_count, uint64_t *answer, size_t answer_count);

/* Writes strokes as HP-GL from the start of `out` on: `numbers` has five for each, pen (1 to 8), x0, y0, x1, y1 (each -32768 to 32767); those that are
 * left after the last whole five count for nothing. answer[0] is how many bytes were written; the bytes of `out` after them stay. Fed to a fresh machine
 * whose hard limits contain all ends, they give just these strokes. It has no machine. 0; 32 where a stroke has another pen or end; 33 where `out` is too
 * short: 3 bytes and at most 36 for each stroke will do; 41 where `answer` is empty. After 32 and 33 answer[0] is 0 and `out` as it was. */
uint8_t vutaroi_write(const int64_t *numbers, size_t numbers_count, uint8_t *out, size_t out_count, uint64_t *answer, size_t answer_count);

#ifdef __cplusplus
}
#endif

#endif
