/* Damages machines in seven ways and hands them to every call: only 40, 41 or strokes within the machine's own hard limits may come, and nothing may
 * be written after a refusal. A machine is taken for one before it is damaged, and afterwards only where its sum was mended. The count of machines is
 * the argument; the status is 0 if all went well. tests/boundary compiles and runs it.
 */
#include <inttypes.h>
#include <stdio.h>
#include <stdlib.h>
#include <string.h>

#include "vutaroi.h"

enum { HEADER = 5, REST = VUTAROI_NUMBERS - HEADER, RECORDS = 64, WAYS = 7 };

static const char *const ways[WAYS] = {"a bit", "an odd number", "zeros", "random numbers", "a short list", "an exchange", "three odd numbers, half with a mended sum"};

/* Where the hard limits stand: after the header and the three rows of the reader. */
enum { LIMITS = HEADER + 15 };

static const char *const drawings[] = {
    "IN;SP1;PA0,0;PD100,50;PU;", "SP2;SC0,100,0,100;PA50,50;CI20;", "SP3;PM0;PD10,10,20,20;PM2;EP;", "SP4;IW-100,-100,100,100;EA500,500;", "SP5;RO90;PA100,100;ER300,300;",
    "SP6;PM;PD1,1,2,2,3,3;PM1;PD5,5;", "SP7;CI100,5", "IP-1000,-1000,1000,1000;SC-5,5,-5,5;SP8;PD3,3;CI1;", "LBhello", "SP1;PD5", "P", "SP1;PA10,10;XX5,5",
    "SP1;PU100,0;PD;AA0,0,90,30;", "SP2;RO90;PD;AR-50,20,-300,.5;", "SP3;SC0,9,0,9;PD;AA1,1,7,1",
    "PA3,-4;OA;", "RO90;OW;", "XX;OE;", "PM0;OP", "OH;PU5,5;",
};

/* Numbers at the edges of what a state may hold. */
static const int64_t odd[] = {-1, 0, 1, 2, 3, 5, 40, 112, 113, 255, 256, 720, 721, 1024, 1025, 32767, 32768, -32768, 1000000, 1000001, -1000001, 2000000000000001, INT32_MAX, INT64_MAX, INT64_MIN};

static struct {
    long refused, too_short, went_on, strokes, replies, kept, wrong, written;
} seen;

static uint64_t seed = 88172645463325252ULL;

static uint64_t any(uint64_t below) {
    seed ^= seed << 13;
    seed ^= seed >> 7;
    seed ^= seed << 17;
    return seed % below;
}

static int64_t any_odd(void) { return odd[any(sizeof odd / sizeof *odd)]; }

/* A machine that was fed up to four drawings, some of them cut short, some with no record free. */
static vutaroi_machine made(void) {
    vutaroi_machine m;
    vutaroi_fresh(-10000, -7000, 10000, 7000, &m, VUTAROI_NUMBERS);
    for (uint64_t k = any(4) + 1; k > 0; k--) {
        const char *d = drawings[any(sizeof drawings / sizeof *drawings)];
        size_t cut = any(3) ? strlen(d) : any(strlen(d) + 1), at = 0;
        while (at < cut) {
            int64_t records[8 * VUTAROI_RECORD];
            uint64_t answer[2];
            size_t room = any(2) * 8 * VUTAROI_RECORD;
            uint8_t number = vutaroi_feed(&m, VUTAROI_NUMBERS, (const uint8_t *)d + at, cut - at, records, room, answer, 2);
            at += answer[0];
            if (number == VUTAROI_FULL || number == VUTAROI_BUSY) break;
        }
    }
    return m;
}

static void mend(vutaroi_machine *m) {
    uint64_t sum = 0;
    for (uint64_t i = 0; i < REST; i++) sum += (i + 1) * (uint64_t)m->numbers[HEADER + i];
    m->numbers[1] = (int64_t)sum;
}

/* Damages a machine in one way, and answers the count to lend it with. */
static size_t damage(vutaroi_machine *m, int way) {
    uint64_t i = any(VUTAROI_NUMBERS), j = any(VUTAROI_NUMBERS);
    int64_t kept = m->numbers[i];
    switch (way) {
    case 0: m->numbers[i] = (int64_t)((uint64_t)kept ^ (uint64_t)1 << any(64)); break;
    case 1: m->numbers[i] = any_odd(); break;
    case 2: memset(m, 0, sizeof *m); break;
    case 3:
        for (int k = 0; k < VUTAROI_NUMBERS; k++) m->numbers[k] = (int64_t)any(UINT64_MAX);
        break;
    case 4: return any(VUTAROI_NUMBERS);
    case 5:
        m->numbers[i] = m->numbers[j];
        m->numbers[j] = kept;
        break;
    default:
        for (int k = 0; k < 3; k++) {
            uint64_t place = HEADER + any(REST);
            m->numbers[place] = any_odd();
        }
        if (any(2)) mend(m);
    }
    return VUTAROI_NUMBERS;
}

/* Whether a call refused the machine, which then has to be as it was. */
static int refused(uint8_t number, const vutaroi_machine *before, const vutaroi_machine *after) {
    if (number != VUTAROI_NO_MACHINE && number != VUTAROI_SHORT) {
        seen.went_on++;
        return 0;
    }
    if (memcmp(before, after, sizeof *before) != 0) seen.written++;
    if (number == VUTAROI_NO_MACHINE) seen.refused++;
    else seen.too_short++;
    return 1;
}

static void check_stroke(const vutaroi_machine *m, const int64_t *stroke) {
    const int64_t *limits = m->numbers + LIMITS;
    int good = 1 <= stroke[0] && stroke[0] <= 8;
    for (int i = 1; i < VUTAROI_RECORD; i += 2)
        good = good && limits[0] <= stroke[i] && stroke[i] <= limits[2] && limits[1] <= stroke[i + 1] && stroke[i + 1] <= limits[3];
    seen.strokes++;
    if (!good) seen.wrong++;
}

/* The calls that take many bytes. */
static void check_bytes(const vutaroi_machine *m, size_t count, const char *bytes, int plot) {
    vutaroi_machine after = *m;
    int64_t records[RECORDS * VUTAROI_RECORD];
    uint64_t answer[2] = {9, 9};
    uint8_t number = (plot ? vutaroi_plot : vutaroi_feed)(&after, count, (const uint8_t *)bytes, strlen(bytes), records, RECORDS * VUTAROI_RECORD, answer, 2);
    if (refused(number, m, &after)) {
        if (answer[0] != 9 || answer[1] != 9) seen.written++;
        return;
    }
    for (uint64_t i = 0; i < answer[1]; i++)
        if (records[VUTAROI_RECORD * i] != 0) check_stroke(m, records + VUTAROI_RECORD * i);
}

/* A fetch writes no more than it answers, a reply or nothing, and with 31 nothing. */
static void check_fetch(const vutaroi_machine *m, size_t count) {
    vutaroi_machine after = *m;
    uint8_t out[VUTAROI_REPLY + 1];
    size_t room = any(VUTAROI_REPLY + 2), same = 0;
    uint64_t answer = 99;
    memset(out, 'x', sizeof out);
    uint8_t number = vutaroi_fetch(&after, count, out, room, &answer, 1);
    while (same < sizeof out && out[sizeof out - 1 - same] == 'x') same++;
    if (refused(number, m, &after)) {
        if (answer != 99 || same != sizeof out) seen.written++;
        return;
    }
    if (number != 0 && number != VUTAROI_BUFFER) seen.wrong++;
    if (number == VUTAROI_BUFFER && (answer != 0 || memcmp(m, &after, sizeof after) != 0)) seen.wrong++;
    if (answer > room || answer > VUTAROI_REPLY || same != sizeof out - answer) seen.wrong++;
    if (answer > 0 && (answer < 3 || out[answer - 2] != 13 || out[answer - 1] != 10)) seen.wrong++;
    if (answer > 0) seen.replies++;
    if (number == VUTAROI_BUFFER) seen.kept++;
}

/* Lists that are too short for what a call answers: 41, whatever the machine is. */
static void check_short(const vutaroi_machine *m, size_t count) {
    vutaroi_machine after = *m;
    int64_t five[5], records[VUTAROI_RECORD];
    uint8_t out[VUTAROI_REPLY];
    uint64_t answer[2];
    if (vutaroi_draw(&after, count, five, any(5)) != VUTAROI_SHORT) seen.wrong++;
    if (vutaroi_look(&after, count, five, any(5)) != VUTAROI_SHORT) seen.wrong++;
    if (vutaroi_fetch(&after, count, out, VUTAROI_REPLY, answer, 0) != VUTAROI_SHORT) seen.wrong++;
    if (vutaroi_feed(&after, count, (const uint8_t *)"x", 1, records, VUTAROI_RECORD, answer, any(2)) != VUTAROI_SHORT) seen.wrong++;
    if (vutaroi_plot(&after, count, (const uint8_t *)"x", 1, records, VUTAROI_RECORD, answer, any(2)) != VUTAROI_SHORT) seen.wrong++;
    if (memcmp(m, &after, sizeof after) != 0) seen.written++;
}

/* Every call on one machine; whether it was taken for one. */
static int check(const vutaroi_machine *m, size_t count) {
    int64_t five[5];
    vutaroi_machine after = *m;
    int taken = !refused(vutaroi_look(&after, count, five, 5), m, &after);
    refused(vutaroi_take(&after, count, (uint8_t)any(256)), m, &after);
    after = *m;
    uint8_t kind = vutaroi_draw(&after, count, five, 5);
    if (!refused(kind, m, &after) && kind == VUTAROI_STROKE) check_stroke(m, five);
    check_fetch(m, count);
    check_bytes(m, count, "SP1;PD0,0,5,5;", 0);
    check_bytes(m, count, "@;PA1,1;PD9,9;CI5;", 1);
    check_short(m, count);
    return taken;
}

/* Whether look takes it for a machine. */
static int stands(const vutaroi_machine *m) {
    int64_t five[5];
    return vutaroi_look(m, VUTAROI_NUMBERS, five, 5) == 0;
}

int main(int argc, char **argv) {
    long machines = argc > 1 ? atol(argv[1]) : 200000, tried[WAYS] = {0}, taken[WAYS] = {0};
    if (vutaroi_version() != VUTAROI_VERSION) seen.wrong++;
    for (long k = 0; k < machines; k++) {
        int way = (int)any(WAYS);
        vutaroi_machine good = made(), m = good;
        if (!stands(&good) || good.numbers[0] != VUTAROI_FORM) seen.wrong++;
        check_fetch(&good, VUTAROI_NUMBERS);
        size_t count = damage(&m, way);
        if (count == VUTAROI_NUMBERS && memcmp(&m, &good, sizeof m) == 0) continue;
        tried[way]++;
        taken[way] += check(&m, count);
    }
    /* only a mended sum may make another machine, and without one nothing was tried of strokes and replies */
    for (int way = 0; way < WAYS - 1; way++) seen.wrong += taken[way];
    if (taken[WAYS - 1] == 0 || seen.strokes == 0 || seen.replies == 0 || seen.kept == 0) seen.wrong++;
    for (int way = 0; way < WAYS; way++) printf("%8ld damaged by %s: %ld taken for machines\n", tried[way], ways[way], taken[way]);
    printf("%ld calls refused with 40, %ld with 41; %ld went on; %ld strokes; %ld replies, %ld too long; %ld wrong; %ld wrote after a refusal\n", seen.refused, seen.too_short, seen.went_on, seen.strokes, seen.replies, seen.kept, seen.wrong, seen.written);
    return seen.wrong != 0 || seen.written != 0;
}
