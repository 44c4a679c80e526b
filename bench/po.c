/* Times the strings of a listing as a PO file: bench/po builds and runs it.
 *
 * For each size a listing with as many different literals as lines is written as a PO file and the
 * file is read back, with an index of so many numbers. Seconds of processor time. Status 1 where
 * an answer is not 0 or memory is short.
 */
#include "optpo.h"
#include <stdio.h>
#include <stdlib.h>
#include <time.h>

enum { INDEX = 65536, LINE = 40 };

static double now(void)
{
    struct timespec t;
    clock_gettime(CLOCK_PROCESS_CPUTIME_ID, &t);
    return (double)t.tv_sec + (double)t.tv_nsec * 1e-9;
}

/* Fills a text with lines of one literal each, and returns how many. */
static size_t fill(uint8_t *text, size_t most, size_t *length)
{
    size_t count = 0;
    *length = 0;
    while (*length + LINE < most)
        *length += (size_t)sprintf((char *)text + *length, "r1 = say(\"literal %zu\");\n", count++);
    return count;
}

static int measure(size_t size, size_t *index)
{
    static const uint8_t name[] = "f";
    size_t room = 8 * size + 4096, length, file, given, place;
    uint8_t *text = malloc(size), *po = malloc(room), *back = malloc(room);
    if (!text || !po || !back)
        return 1;
    size_t count = fill(text, size, &length);
    double start = now();
    uint8_t wrote = optpo_write(name, 1, text, length, index, INDEX, po, room, &file, &place);
    double written = now();
    uint8_t read = optpo_read(po, file, index, INDEX, back, room, &given, &place);
    double end = now();
    printf("%8zu bytes, %6zu literals: written %.4f s, read %.4f s\n", length, count,
        written - start, end - written);
    free(text);
    free(po);
    free(back);
    return wrote != 0 || read != 0;
}

int main(void)
{
    static const size_t sizes[] = { 16384, 131072, 921600 };
    size_t *index = calloc(INDEX, sizeof *index);
    int status = !index;
    for (size_t k = 0; !status && k < sizeof sizes / sizeof *sizes; k++)
        status = measure(sizes[k], index);
    free(index);
    return status;
}
