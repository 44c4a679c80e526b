/*
 * Calls what optrecords.h declares, from C and from C++: this file is both. Both forms, every
 * number with its place, the order of the checks, the edges of the form OL, and every lent byte
 * after each call. Says what fails; status 1 where something does.
 */
#include "optrecords.h"
#include <stdio.h>
#include <string.h>

#ifdef __cplusplus
#define LANGUAGE "tests/c++"
#else
#define LANGUAGE "tests/c"
#endif

enum { FILLED = 0xA5, OLD = 28, NEW = 44, SPARE = 8 };

static const uint8_t old_file[] =
    "OL\0\0\0\0\0OL\1\0\2\1\0OL\2\0\1\1\0OL\3\0\3\377\377";
static const uint8_t new_file[] =
    "OM\0\0\0\0\0\0\0\0\0OM\1\0\0\0\2\1\0\0\0OM\2\0\0\0\1\1\0\0\0OM\3\0\0\0\3\377\377\377\377";

static uint8_t changed[NEW], out[NEW + SPARE];
static size_t room[2 + SPARE];
static int calls, failures;

static void fail(const char *name, int number, size_t count, size_t place)
{
    printf(LANGUAGE ": optrecords: %s: %d %zu %zu\n", name, number, count, place);
    failures++;
}

static int all(const void *from, size_t size, uint8_t b)
{
    const uint8_t *s = (const uint8_t *)from;
    size_t i = 0;
    while (i < size && s[i] == b)
        i++;
    return i == size;
}

/* A file with one byte changed. */
static const uint8_t *with(const uint8_t *file, size_t length, size_t at, uint8_t b)
{
    memcpy(changed, file, length);
    changed[at] = b;
    return changed;
}

static void check_is(const char *name, const uint8_t *file, size_t length,
    int number, size_t count, size_t place)
{
    size_t c = 99, p = 99;
    int n = optrecords_check(file, length, &c, &p);
    calls++;
    if (n != number || c != count || p != place)
        fail(name, n, c, p);
}

typedef uint8_t turning(
    const uint8_t *, size_t, uint8_t *, size_t, size_t *, size_t *);

/* `wanted` is the file that is to stand in `out`, null for a refusal. */
static void turn_is(const char *name, turning *turn, const uint8_t *file, size_t length,
    size_t lent, int number, size_t place, const uint8_t *wanted, size_t count)
{
    size_t c = 99, p = 99;
    memset(out, FILLED, sizeof out);
    int n = turn(file, length, out, lent, &c, &p);
    calls++;
    if (n != number || c != count || p != place)
        fail(name, n, c, p);
    if ((count && memcmp(out, wanted, count) != 0) || !all(out + count, sizeof out - count, FILLED))
        fail(name, -1, c, p);
}

static void lines_are(const char *name, const uint8_t *file, size_t length, size_t asked,
    size_t lent, int number, size_t count, size_t place)
{
    size_t c = 99, p = 99;
    memset(room, FILLED, sizeof room);
    int n = optrecords_lines(file, length, asked, room, lent, &c, &p);
    calls++;
    if (n != number || c != count || p != place)
        fail(name, n, c, p);
    if (!all(room + count, sizeof room - count * sizeof *room, FILLED))
        fail(name, -1, c, p);
    if (count == 2 && (room[0] != 1 || room[1] != 2))
        fail(name, -2, room[0], room[1]);
}

static void checks(void)
{
    check_is("old", old_file, OLD, OPTRECORDS_DONE, 4, 0);
    check_is("new", new_file, NEW, OPTRECORDS_DONE, 4, 0);
    check_is("empty", NULL, 0, OPTRECORDS_DONE, 0, 0);
    check_is("cut", old_file, OLD - 1, OPTRECORDS_CUT, 0, 3);
    check_is("cut before its mark", new_file, 1, OPTRECORDS_CUT, 0, 0);
    check_is("mark", with(old_file, OLD, 8, 'M'), OLD, OPTRECORDS_WRONG_MARK, 0, 1);
    check_is("order", with(new_file, NEW, 13, 2), NEW, OPTRECORDS_OUT_OF_ORDER, 0, 1);
    check_is("fate", with(old_file, OLD, 11, 4), OLD, OPTRECORDS_UNKNOWN_FATE, 0, 1);
    check_is("gone without its number", with(old_file, OLD, 27, 0), OLD, OPTRECORDS_DISAGREE, 0, 3);
    check_is("gone without its number", with(new_file, NEW, 43, 0), NEW, OPTRECORDS_DISAGREE, 0, 3);
    check_is("number without its fate", with(new_file, NEW, 39, 2), NEW, OPTRECORDS_DISAGREE, 0, 3);
}

static void records(void)
{
    static const size_t lines[] = {0, 1, 1, OPTRECORDS_OM_GONE, OPTRECORDS_OM_GONE};
    static const uint8_t fates[] = {OPTRECORDS_EQUAL, OPTRECORDS_INSIDE, OPTRECORDS_CHANGED,
        OPTRECORDS_GONE, OPTRECORDS_GONE};
    for (size_t i = 0; i < 5; i++) {
        size_t line = 99;
        uint8_t fate = optrecords_record(new_file, NEW, i, &line);
        calls++;
        if (fate != fates[i] || line != lines[i])
            fail("record", fate, i, line);
        fate = optrecords_record(old_file, OLD, i, &line);
        calls++;
        if (fate != fates[i] || line != (i < 3 ? lines[i] : OPTRECORDS_OL_GONE))
            fail("record of OL", fate, i, line);
    }
}

static void turns(void)
{
    turn_is("to OM", optrecords_to_om, old_file, OLD, NEW, OPTRECORDS_DONE, 0, new_file, NEW);
    turn_is("to OL", optrecords_to_ol, new_file, NEW, NEW, OPTRECORDS_DONE, 0, old_file, OLD);
    turn_is("OL to OL", optrecords_to_ol, old_file, OLD, OLD, OPTRECORDS_DONE, 0, old_file, OLD);
    turn_is("nothing", optrecords_to_om, NULL, 0, 0, OPTRECORDS_DONE, 0, NULL, 0);
    turn_is("short", optrecords_to_om, old_file, OLD, NEW - 1, OPTRECORDS_SHORT, NEW, NULL, 0);
    turn_is("short", optrecords_to_ol, new_file, NEW, OLD - 1, OPTRECORDS_SHORT, OLD, NULL, 0);
    (void)with(new_file, NEW, 18, 0xFF);
    changed[19] = 0xFF;
    turn_is("65,535", optrecords_to_ol, changed, NEW, 0, OPTRECORDS_UNFIT, 1, NULL, 0);
    turn_is("65,535 into OM", optrecords_to_om, changed, NEW, NEW, OPTRECORDS_DONE, 0, changed, NEW);
    changed[39] = 2;
    turn_is("5 before 6", optrecords_to_ol, changed, NEW, NEW, OPTRECORDS_DISAGREE, 3, NULL, 0);
}

static void lines(void)
{
    lines_are("lines", old_file, OLD, 1, 2, OPTRECORDS_DONE, 2, 0);
    lines_are("lines", new_file, NEW, 1, 2, OPTRECORDS_DONE, 2, 0);
    lines_are("room", old_file, OLD, 1, 1, OPTRECORDS_NO_ROOM, 0, 2);
    lines_are("no such line", old_file, OLD, 9, 0, OPTRECORDS_DONE, 0, 0);
    lines_are("gone", old_file, OLD, OPTRECORDS_OL_GONE, 2, OPTRECORDS_DONE, 0, 0);
    lines_are("gone", new_file, NEW, OPTRECORDS_OM_GONE, 2, OPTRECORDS_DONE, 0, 0);
    lines_are("5 before 6", with(old_file, OLD, 27, 0), OLD, 1, 1, OPTRECORDS_DISAGREE, 0, 3);
}

int main(void)
{
    checks();
    records();
    turns();
    lines();
    printf(LANGUAGE ": optrecords: %d calls, %d failures\n", calls, failures);
    return failures ? 1 : 0;
}
