/*
 * Measures what a call takes of the stack. Reads texts from standard input, each as its length
 * (4 bytes, low byte first) and its bytes, and calls optlines_tidy() with each number of a pass
 * and in each mode over each text, in a thread whose stack is painted: full of one byte. How far
 * down the paint is gone is what the call took, with its arguments. optlines_tidy_large() is called
 * with all passes in one mode over each text. A function that writes a known number of bytes is
 * measured first. Writes the header's figure, that measure, how many texts there were, and for each
 * pass, and for the calls of optlines_tidy_large(), the most bytes and the text that took them,
 * counted from 0:
 *
 *     figure BYTES
 *     known BYTES MEASURED
 *     texts COUNT
 *     pass PASS BYTES TEXT
 *     large BYTES TEXT
 *
 * Status 2 where something cannot be had. A call that takes all of the stack ends in a signal.
 */
#define _GNU_SOURCE
#include "optlines.h"
#include <pthread.h>
#include <stdio.h>
#include <stdlib.h>
#include <string.h>
#include <sys/mman.h>
#include <unistd.h>

enum { STACK = 1 << 20, STRIDE = 4096, PAINT = 0x5A, KNOWN = 65536 };
enum { PASSES = 7, MODES = 4, LARGE = PASSES, PROBE, LONGEST = OPTLINES_LARGE_TEXT + 1 };

static uint8_t *stack; /* its lowest byte */
static uint8_t paint[STRIDE];
static struct optlines_work work;
static struct optlines_large large_work;

struct call {
    size_t pass, mode;
    const uint8_t *text;
    size_t length;
    uint8_t *low; /* the lowest byte that was written */
    size_t used;
};

static void fail(const char *what)
{
    fprintf(stderr, "tests/stack: %s\n", what);
    exit(2);
}

__attribute__((noinline)) static void probe(void)
{
    uint8_t room[KNOWN];
    volatile uint8_t *to = room;
    for (size_t i = 0; i < KNOWN; i++)
        to[i] = 1;
}

/* Runs in the thread. Nothing but the call goes further down than this frame by more than a bit. */
static void *measure(void *given)
{
    struct call *c = given;
    uint8_t *top = __builtin_frame_address(0), *low = stack;
    if (c->pass == PROBE)
        probe();
    else if (c->pass == LARGE)
        optlines_tidy_large(&large_work, 0, c->mode, OPTLINES_OM, c->text, c->length);
    else
        optlines_tidy(&work, c->pass, c->mode, c->text, c->length);
    while (low + STRIDE < top && memcmp(low, paint, STRIDE) == 0)
        low += STRIDE;
    while (low < top && *low == PAINT)
        low++;
    c->low = low;
    c->used = (size_t)(top - low);
    return NULL;
}

/* A page that cannot be written, and the stack above it. */
static void map(void)
{
    size_t page = (size_t)sysconf(_SC_PAGESIZE);
    uint8_t *pages = mmap(NULL, page + STACK, PROT_READ | PROT_WRITE,
        MAP_PRIVATE | MAP_ANONYMOUS, -1, 0);
    if (pages == MAP_FAILED || mprotect(pages, page, PROT_NONE) != 0)
        fail("no memory");
    stack = pages + page;
    memset(stack, PAINT, STACK);
    memset(paint, PAINT, sizeof paint);
}

/* Makes a call in a thread of its own, and paints over what was written. */
static size_t taken(struct call c)
{
    pthread_attr_t attributes;
    pthread_t thread;
    if (pthread_attr_init(&attributes) != 0 || pthread_attr_setstack(&attributes, stack, STACK) != 0
        || pthread_create(&thread, &attributes, measure, &c) != 0
        || pthread_join(thread, NULL) != 0 || pthread_attr_destroy(&attributes) != 0)
        fail("no thread");
    memset(c.low, PAINT, (size_t)(stack + STACK - c.low));
    return c.used;
}

/* Reads a text: its length, or -1 at the end. */
static long next(uint8_t *text)
{
    uint8_t head[4];
    size_t got = fread(head, 1, sizeof head, stdin), length;
    if (got == 0 && feof(stdin))
        return -1;
    length = head[0] | (size_t)head[1] << 8 | (size_t)head[2] << 16 | (size_t)head[3] << 24;
    if (got != sizeof head || length > LONGEST || fread(text, 1, length, stdin) != length)
        fail("a text is cut, or too long");
    return (long)length;
}

/* The most that each pass took, and LARGE, and which text took it. */
static size_t most[LARGE + 1], where[LARGE + 1];

static void note(struct call c, size_t text)
{
    size_t used = taken(c);
    if (used > most[c.pass]) {
        most[c.pass] = used;
        where[c.pass] = text;
    }
}

int main(void)
{
    static uint8_t text[LONGEST];
    size_t count = 0;
    map();
    printf("figure %d\n", OPTLINES_STACK);
    printf("known %d %zu\n", KNOWN, taken((struct call) { PROBE, 0, NULL, 0, NULL, 0 }));
    for (long length = next(text); length >= 0; length = next(text), count++) {
        for (size_t call = 0; call < PASSES * MODES; call++)
            note((struct call) { call / MODES, call % MODES, text, (size_t)length, NULL, 0 }, count);
        note((struct call) { LARGE, count % MODES, text, (size_t)length, NULL, 0 }, count);
    }
    printf("texts %zu\n", count);
    for (size_t pass = 0; pass < PASSES; pass++)
        printf("pass %zu %zu %zu\n", pass, most[pass], where[pass]);
    printf("large %zu %zu\n", most[LARGE], where[LARGE]);
    return fflush(stdout) == 0 ? 0 : 2;
}
