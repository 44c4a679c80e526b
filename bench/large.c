/* Times a call of the functions for larger texts: bench/large builds and runs it.
 *
 *   large PASS MODE SECONDS <TEXT >RESULT
 *
 * The text and one empty line go through all passes (0) or one, in turns, until SECONDS are spent,
 * once at least. Standard error gets the number of the text's answer, and the least processor time
 * of a call for the text and for the empty line, in nanoseconds.
 */
#include "optlines.h"
#include <stdio.h>
#include <stdlib.h>
#include <string.h>
#include <time.h>

static struct optlines_large work;
static uint8_t text[OPTLINES_LARGE_TEXT + 1], result[2 * OPTLINES_LARGE_TEXT];

static double now(void)
{
    struct timespec t;
    clock_gettime(CLOCK_PROCESS_CPUTIME_ID, &t);
    return (double)t.tv_sec + (double)t.tv_nsec * 1e-9;
}

/* Seconds of a call. */
static double call(size_t pass, size_t mode, const uint8_t *t, size_t length, uint8_t *number)
{
    double start = now();
    *number = optlines_tidy_large(&work, pass, mode, OPTLINES_OM, t, length);
    return now() - start;
}

int main(int count, char **words)
{
    if (count != 4)
        return 2;
    size_t pass = strtoul(words[1], NULL, 10), mode = strtoul(words[2], NULL, 10);
    double seconds = strtod(words[3], NULL), start = now(), least = 1e9, least_empty = 1e9;
    size_t length = fread(text, 1, sizeof text, stdin), written;
    uint8_t number, other;
    do {
        double took = call(pass, mode, text, length, &number);
        least = took < least ? took : least;
        written = number == OPTLINES_DONE ? work.length : 0;
        memcpy(result, work.out, written);
        took = call(pass, mode, (const uint8_t *)"\n", 1, &other);
        least_empty = took < least_empty ? took : least_empty;
    } while (now() - start < seconds);
    fprintf(stderr, "%d %.0f %.0f\n", number, least * 1e9, least_empty * 1e9);
    return fwrite(result, 1, written, stdout) == written ? 0 : 2;
}
