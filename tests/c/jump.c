/*
 * From a line of a tidy text back to the raw lines behind it, with both libraries: what
 * optlines_tidy() wrote is read by what optrecords.h declares, and turned into the other form it is
 * what optlines_tidy_large() wrote. Reads a listing from standard input and tries each pass in each
 * mode over it. Says what fails; status 1 where something does.
 */
#include "optlines.h"
#include "optrecords.h"
#include <stdio.h>
#include <string.h>

#ifdef __cplusplus
#define LANGUAGE "tests/c++"
#else
#define LANGUAGE "tests/c"
#endif

static struct optlines_work work;
static struct optlines_large large;
static uint8_t text[OPTLINES_TEXT + 1], turned[OPTLINES_LARGE_RECORD * OPTLINES_LINES];
static size_t room[OPTLINES_LINES];
static int calls, failures;

static void fail(const char *what, size_t line)
{
    printf(LANGUAGE ": jump: %s: %zu\n", what, line);
    failures++;
}

/* Every record says to the reader what it says to the inline functions. */
static void read_records(const uint8_t *file, size_t size)
{
    size_t count, place, line;
    if (optrecords_check(file, size, &count, &place) != OPTRECORDS_DONE || count != work.records)
        fail("no record file", place);
    for (size_t i = 0; i < work.records; i++)
        if (optrecords_record(file, size, i, &line) != optlines_fate(file, i)
            || (optlines_fate(file, i) != OPTLINES_GONE && line != optlines_line(file, i)))
            fail("another record", i);
}

/* The raw lines behind each tidy line, and behind the line that stands for gone. */
static void jump(const uint8_t *file, size_t size)
{
    size_t count, place, found = 0, gone = 0;
    for (size_t n = 0; n < OPTLINES_LINES; n++) {
        if (optrecords_lines(file, size, n, room, OPTLINES_LINES, &count, &place)
            != OPTRECORDS_DONE)
            fail("no lines", n);
        for (size_t k = 0; k < count; k++)
            if (optlines_line(file, room[k]) != n)
                fail("another line", n);
        found += count;
    }
    for (size_t i = 0; i < work.records; i++)
        gone += optlines_fate(file, i) == OPTLINES_GONE;
    if (found + gone != work.records)
        fail("lines that are neither found nor gone", found);
    if (optrecords_lines(file, size, OPTLINES_NO_LINE, room, 0, &count, &place) != OPTRECORDS_DONE
        || count != 0)
        fail("lines behind the one that stands for gone", count);
}

/* The call for larger texts gives the same result, and the same records in either form. */
static void same_by_larger(size_t pass, size_t mode, size_t length)
{
    size_t size = OPTLINES_RECORD * work.records, count, place;
    for (size_t form = OPTLINES_OL; form <= OPTLINES_OM; form++) {
        const uint8_t *records = form == OPTLINES_OL ? work.orig : turned;
        calls++;
        if (optlines_tidy_large(&large, pass, mode, form, text, length) != OPTLINES_DONE)
            fail("refused, as a larger text", large.place);
        if (large.length != work.length || memcmp(large.out, work.out, work.length) != 0)
            fail("another result, as a larger text", large.length);
        if (form == OPTLINES_OM
            && optrecords_to_om(work.orig, size, turned, sizeof turned, &count, &place)
                != OPTRECORDS_DONE)
            fail("not turned", place);
        if (large.records != work.records
            || memcmp(large.orig, records, optlines_record_size(form) * work.records) != 0)
            fail("other records, as a larger text", large.records);
    }
}

int main(void)
{
    size_t length = fread(text, 1, sizeof text, stdin);
    if (ferror(stdin))
        return 2;
    for (size_t call = 0; call < 28; call++) {
        calls++;
        if (optlines_tidy(&work, call / 4, call % 4, text, length) != OPTLINES_DONE)
            fail("refused", work.place);
        read_records(work.orig, OPTLINES_RECORD * work.records);
        jump(work.orig, OPTLINES_RECORD * work.records);
        same_by_larger(call / 4, call % 4, length);
    }
    printf(LANGUAGE ": jump: %d calls, %d failures\n", calls, failures);
    return failures != 0;
}
