/* Calls the board's functions as firmware does, through include/logfringe.h and the archive alone, and compares every number and every byte.
 *
 *     board_test CASES
 *
 * Each buffer lies between two forbidden pages, most of them right before one, so that a read or write outside of what was lent ends the
 * program; the image is write-protected during each call; and whatever of the pages was not lent must be as it was.
 *
 * CASES, which board_cases of oracle/compare writes, is a row of 32-bit words, lowest byte first:
 *
 *     1 M N RUNS, then for each run  PLACE COUNT WORD..         an image: the words that are not zero
 *     2 EDITS, then for each edit    PLACE WORD                 a case: the image recorded last, with some words changed;
 *       NUMBER LOOKUPS                                          what the full check answers;
 *       then for each lookup         KEY (4) NUMBER VALUE (4)   the key high word first, all 64-bit words low half first
 *     0                                                         the end
 */
#define _GNU_SOURCE
#include "logfringe.h"

#include <stdbool.h>
#include <stdio.h>
#include <stdlib.h>
#include <string.h>
#include <sys/mman.h>
#include <ucontext.h>
#include <unistd.h>

enum { CHECK_STACK = 48 * 1024, LOOKUP_STACK = 512, PAINT = 0xc3 };

static unsigned long images, checks, lookups, refusals;

static void fail(const char *what) {
    fprintf(stderr, "board_test: image %lu, check %lu, lookup %lu: %s\n", images, checks, lookups, what);
    exit(1);
}

static void expect(bool fine, const char *what) {
    if (!fine) {
        fail(what);
    }
}

/* ---- memory between two forbidden pages */

typedef struct {
    uint8_t *first;
    size_t size;
    uint8_t *copy; /* what it held before the call */
} Room;

static Room room_for(size_t bytes) {
    size_t page = (size_t)sysconf(_SC_PAGESIZE);
    size_t size = (bytes + page - 1) / page * page;
    uint8_t *all = mmap(NULL, size + 2 * page, PROT_NONE, MAP_PRIVATE | MAP_ANONYMOUS, -1, 0);
    if (all == MAP_FAILED || mprotect(all + page, size, PROT_READ | PROT_WRITE) != 0) {
        fail("no memory");
    }
    return (Room){all + page, size, malloc(size)};
}

static void room_fill(Room *room) {
    for (size_t i = 0; i < room->size; i++) {
        room->first[i] = (uint8_t)(i * 7 + 0x55);
    }
    memcpy(room->copy, room->first, room->size);
}

/* A buffer that ends at the forbidden page behind, or so many bytes before it. */
static uint8_t *room_end(Room *room, size_t bytes, size_t before) {
    return room->first + room->size - bytes - before;
}

static bool room_same(const Room *room) {
    return memcmp(room->first, room->copy, room->size) == 0;
}

static void room_protect(const Room *room, int protection) {
    expect(mprotect(room->first, room->size, protection) == 0, "mprotect");
}

/* ---- the calls, on a stack of their own */

typedef struct {
    const uint8_t *img;
    size_t img_len;
    uint32_t m, n;
    uint64_t high, low;
    uint8_t *buffer; /* the output, or the scratch */
    size_t buffer_len;
    bool check;
    uint32_t number;
    uint8_t *top; /* where the stack stood at the call */
} Call;

static Room stack;
static ucontext_t here, there;
static Call *current;
static size_t most_lookup, most_check;

static void __attribute__((noinline)) run_current(void) {
    Call *c = current;
    c->top = __builtin_frame_address(0);
    if (c->check) {
        c->number = logfringe_check(c->img, c->img_len, c->m, c->n, c->buffer, c->buffer_len);
    } else {
        c->number = logfringe_get(c->img, c->img_len, c->m, c->n, c->high, c->low, c->buffer, c->buffer_len);
    }
}

/* Makes the call and measures its stack, which ends at a forbidden page; this counts our own frame as well. */
static uint32_t call_on_stack(Call *c) {
    memset(stack.first, PAINT, stack.size);
    current = c;
    getcontext(&there);
    there.uc_stack.ss_sp = stack.first;
    there.uc_stack.ss_size = stack.size;
    there.uc_link = &here;
    makecontext(&there, run_current, 0);
    swapcontext(&here, &there);
    const uint8_t *low = stack.first;
    while (low < c->top && *low == PAINT) {
        low++;
    }
    size_t used = (size_t)(c->top - low);
    size_t *most = c->check ? &most_check : &most_lookup;
    *most = used > *most ? used : *most;
    return c->number;
}

/* ---- one call compared */

static Room image_room, buffer_room;

static void put_wide(uint8_t *to, uint64_t wide) {
    for (int i = 0; i < 8; i++) {
        to[i] = (uint8_t)(wide >> (8 * i));
    }
}

/* Makes a call with a buffer of so many bytes, before so many others, and compares what it leaves: `expected` is the first `count` bytes of
   the buffer afterwards unless the number is 1. */
static void call(Call c, size_t buffer_len, size_t before, uint32_t number, const uint8_t *expected, size_t count) {
    room_fill(&buffer_room);
    c.buffer = room_end(&buffer_room, buffer_len, before);
    c.buffer_len = buffer_len;
    expect(call_on_stack(&c) == number, "another number");
    if (number != LOGFRINGE_SHAPE) {
        memcpy(buffer_room.copy + (c.buffer - buffer_room.first), expected, count);
    } else {
        refusals++;
    }
    expect(room_same(&buffer_room), "other bytes in the output or scratch");
}

static const uint8_t zeros[4 * 4096];

/* A lookup with an output that just fits and ends at the page, with longer ones, at odd addresses too, and with short ones. */
static void look(Call c, uint32_t number, const uint8_t *value, bool thorough) {
    static const size_t more[] = {0, 1, 3, 7, 24, 4000};
    c.check = false;
    lookups++;
    for (size_t i = 0; i < (thorough ? sizeof more / sizeof *more : 2); i++) {
        call(c, LOGFRINGE_VALUE_BYTES + more[i], 0, number, value, LOGFRINGE_VALUE_BYTES);
        call(c, LOGFRINGE_VALUE_BYTES, more[i], number, value, LOGFRINGE_VALUE_BYTES);
    }
    for (size_t length = thorough ? 0 : 15; length < LOGFRINGE_VALUE_BYTES; length++) {
        call(c, length, 0, LOGFRINGE_SHAPE, NULL, 0);
    }
}

/* A check with a scratch that just fits, with longer ones, and with short ones. */
static void check(Call c, uint32_t number) {
    static const size_t more[] = {0, 1, 3, 6, 4000};
    size_t fits = LOGFRINGE_SCRATCH_BYTES(c.m);
    c.check = true;
    checks++;
    for (size_t i = 0; i < sizeof more / sizeof *more; i++) {
        call(c, fits + more[i], 0, number, zeros, fits);
        call(c, fits, more[i], number, zeros, fits);
    }
    for (size_t less = 1; less <= 4; less++) {
        call(c, fits - less, 0, LOGFRINGE_SHAPE, NULL, 0);
    }
    call(c, 0, 0, LOGFRINGE_SHAPE, NULL, 0);
}

/* Both calls refuse by shape, and touch nothing. */
static void misshapen(const uint8_t *img, size_t img_len, uint32_t m, uint32_t n) {
    Call c = {.img = img, .img_len = img_len, .m = m, .n = n, .high = 0, .low = 1};
    call(c, LOGFRINGE_VALUE_BYTES, 0, LOGFRINGE_SHAPE, NULL, 0);
    c.check = true;
    call(c, LOGFRINGE_SCRATCH_BYTES(4096), 0, LOGFRINGE_SHAPE, NULL, 0);
    call(c, LOGFRINGE_SCRATCH_BYTES(4097), 0, LOGFRINGE_SHAPE, NULL, 0);
}

/* ---- images */

/* Places an image, so many bytes before the forbidden page, and write-protects it. */
static Call place_image(const uint8_t *bytes, uint32_t m, uint32_t n, size_t before) {
    size_t length = LOGFRINGE_IMAGE_BYTES(m, n);
    room_protect(&image_room, PROT_READ | PROT_WRITE);
    uint8_t *img = room_end(&image_room, length, before);
    memcpy(img, bytes, length);
    room_protect(&image_room, PROT_READ);
    return (Call){.img = img, .img_len = length, .m = m, .n = n};
}

static void wrong_lengths(Call c) {
    const uint8_t *end = c.img + c.img_len;
    static const int other[] = {-48, -16, -4, -3, -2, -1, 1, 2, 3, 4, 16, 48};
    for (size_t i = 0; i < sizeof other / sizeof *other; i++) {
        size_t length = c.img_len + (size_t)(ptrdiff_t)other[i];
        misshapen(end - length, length, c.m, c.n);
    }
    for (size_t length = 0; length < 20; length++) {
        misshapen(end - length, length, c.m, c.n);
    }
    misshapen(c.img, c.img_len, c.m + 1, c.n);
    misshapen(c.img, c.img_len, c.m, c.n + 1);
    misshapen(c.img, c.img_len, c.n, c.m);
}

/* M and N out of limits, with an image as long as the formula says, in 64 bits and in 32. */
static void out_of_limits(void) {
    static const uint32_t pairs[][2] = {
        {0, 0},          {0, 2},          {1, 0},          {1, 1},          {4, 7},
        {4, 8193},       {4096, 8191},    {4097, 8192},    {4097, 8194},    {4096, 8193},
        {0x80000000, 0}, {0x80000000, 2}, {1, 0x80000001}, {1, 0xffffffff}, {0xffffffff, 0xffffffff},
        {0xffffffff, 8}, {0x80000001, 2}, {0x08000000, 0}, {0x08000001, 2}, {2, 0x20000004}};
    for (size_t i = 0; i < sizeof pairs / sizeof *pairs; i++) {
        uint32_t m = pairs[i][0], n = pairs[i][1];
        size_t full = LOGFRINGE_IMAGE_BYTES(m, n), cut = (uint32_t)(48 + 48 * n + 32 * m);
        if (full <= image_room.size) {
            misshapen(room_end(&image_room, full, 0), full, m, n);
        }
        if (cut <= image_room.size) {
            misshapen(room_end(&image_room, cut, 0), cut, m, n);
        }
    }
}

/* A buffer of length 0 may be null. */
static void nulls(const uint8_t *img, uint32_t m, uint32_t n) {
    size_t length = LOGFRINGE_IMAGE_BYTES(m, n);
    uint8_t out[16] = {7}, same[16] = {7};
    misshapen(NULL, 0, m, n);
    misshapen(NULL, 0, 0, 0);
    expect(logfringe_get(img, length, m, n, 0, 0, NULL, 0) == LOGFRINGE_SHAPE, "null output");
    expect(logfringe_check(img, length, m, n, NULL, 0) == LOGFRINGE_SHAPE, "null scratch");
    expect(logfringe_get(NULL, 0, m, n, 0, 0, NULL, 0) == LOGFRINGE_SHAPE, "null image and output");
    expect(logfringe_check(NULL, 0, m, n, NULL, 0) == LOGFRINGE_SHAPE, "null image and scratch");
    expect(logfringe_get(NULL, 0, m, n, 0, 0, out, 16) == LOGFRINGE_SHAPE, "null image");
    expect(memcmp(out, same, 16) == 0, "null image: output");
}

/* The largest image, just started: bumps and heads 1, all else 0. */
static void largest(void) {
    const uint32_t m = 4096, n = 8192;
    uint8_t *bytes = calloc(1, LOGFRINGE_IMAGE_BYTES(m, n));
    images++;
    bytes[24] = bytes[28] = bytes[48 * (size_t)n + 40] = bytes[48 * (size_t)n + 44] = 1;
    Call c = place_image(bytes, m, n, 0);
    check(c, LOGFRINGE_OK);
    look(c, LOGFRINGE_ABSENT, zeros, true);
    wrong_lengths(c);
    free(bytes);
}

/* ---- the recorded cases */

static const uint8_t *at, *end;

static uint32_t word(void) {
    expect(end - at >= 4, "cases end early");
    uint32_t w = at[0] | (uint32_t)at[1] << 8 | (uint32_t)at[2] << 16 | (uint32_t)at[3] << 24;
    at += 4;
    return w;
}

static uint64_t wide(void) {
    uint64_t low = word();
    return (uint64_t)word() << 32 | low;
}

static void put_word(uint8_t *bytes, size_t place, uint32_t w) {
    for (int i = 0; i < 4; i++) {
        bytes[4 * place + (size_t)i] = (uint8_t)(w >> (8 * i));
    }
}

static uint8_t good[LOGFRINGE_IMAGE_BYTES(4096, 8192)], bent[sizeof good];
static uint32_t m, n;

static void recorded_image(void) {
    images++;
    m = word();
    n = word();
    memset(good, 0, LOGFRINGE_IMAGE_BYTES(m, n));
    for (uint32_t runs = word(); runs > 0; runs--) {
        size_t place = word();
        for (uint32_t count = word(); count > 0; count--) {
            put_word(good, place++, word());
        }
    }
    Call c = place_image(good, m, n, 0);
    wrong_lengths(c);
    nulls(c.img, m, n);
}

static void recorded_case(void) {
    size_t length = LOGFRINGE_IMAGE_BYTES(m, n);
    memcpy(bent, good, length);
    uint32_t edits = word();
    for (uint32_t i = 0; i < edits; i++) {
        size_t place = word();
        put_word(bent, place, word());
    }
    /* the image ends at the page, or stands at an odd address */
    Call c = place_image(bent, m, n, checks % 3 == 0 ? 0 : checks % 8);
    check(c, word());
    for (uint32_t count = word(); count > 0; count--) {
        uint8_t value[16];
        c.high = wide();
        c.low = wide();
        uint32_t number = word();
        put_wide(value, wide());
        put_wide(value + 8, wide());
        look(c, number, value, count % 16 == 0);
    }
    expect(memcmp(c.img, bent, length) == 0, "the image was changed");
}

static void read_cases(const char *path) {
    FILE *file = fopen(path, "rb");
    static uint8_t bytes[1 << 20];
    expect(file != NULL, "no cases");
    at = bytes;
    end = bytes + fread(bytes, 1, sizeof bytes, file);
    fclose(file);
}

int main(int argc, char **argv) {
    expect(argc == 2, "usage: board_test CASES");
    read_cases(argv[1]);
    image_room = room_for(LOGFRINGE_IMAGE_BYTES(4097, 8194) + 64);
    buffer_room = room_for(LOGFRINGE_SCRATCH_BYTES(4097) + 4096);
    stack = room_for(CHECK_STACK + 4096);
    for (uint32_t kind = word(); kind != 0; kind = word()) {
        expect(kind <= 2, "cases of another form");
        (kind == 1 ? recorded_image : recorded_case)();
    }
    out_of_limits();
    largest();
    printf("board_test: %lu images, %lu checks, %lu lookups, %lu refusals by shape: every number and byte as expected\n", images, checks,
           lookups, refusals);
    printf("board_test: stack: lookup at most %zu bytes, check at most %zu\n", most_lookup, most_check);
    expect(most_lookup <= LOOKUP_STACK && most_check <= CHECK_STACK, "more stack than logfringe.h says");
    return 0;
}
