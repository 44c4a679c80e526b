/*
 * Calls the functions for larger texts, from C and from C++: this file is both. Every number with
 * its place, the order of the checks, each limit and each buffer's size from both sides, both forms
 * of records, each pass and mode, optlines_tidy_large(), and every lent byte after each call. Says
 * what fails; status 1 where something does.
 */
#include "optlines.h"
#include <stdio.h>
#include <stdlib.h>
#include <string.h>

#ifdef __cplusplus
#define LANGUAGE "tests/c++"
#else
#define LANGUAGE "tests/c"
#endif

enum { SPARE = 8, BUFFERS = 18, ALL_EXACT = -1, FILLED = 0xA5, ROOM = 2 * OPTLINES_LARGE_TEXT };
enum { FORMS = 2, MODES = 4, PASSES = 7, PLENTY = OPTLINES_LARGE_RECORDS };

/* The work buffers in the order of the arguments: elements as stated, bytes of one. */
static const size_t stated[BUFFERS] = { OPTLINES_LARGE_BYTES, OPTLINES_LARGE_BYTES,
    OPTLINES_LARGE_BYTES, OPTLINES_LARGE_BYTES, OPTLINES_LARGE_BYTES, OPTLINES_LARGE_PLACES,
    OPTLINES_LARGE_PLACES, OPTLINES_LARGE_LINES, OPTLINES_LARGE_BLOCKS, OPTLINES_LARGE_NOTES,
    OPTLINES_LARGE_NOTES, OPTLINES_LARGE_NOTES, OPTLINES_LARGE_LINES, OPTLINES_LARGE_LINES,
    OPTLINES_LARGE_PLACES, OPTLINES_LARGE_PLACES, OPTLINES_LARGE_OWNERS, OPTLINES_LARGE_LINES };
static const size_t unit[BUFFERS] = { 1, 1, 1, 1, 1, 1, 1, 1, 4, 4, 4, 4, 8, 8, 8, 8, 8, 8 };

/* What is lent, each with some room before it and behind what is stated. */
static uint8_t *lent[BUFFERS], out_room[SPARE + ROOM + SPARE], orig_room[SPARE + PLENTY + SPARE];
static uint8_t *const out = out_room + SPARE, *const orig = orig_room + SPARE;

/* A text and the result and the records that it should have. */
static uint8_t text[OPTLINES_LARGE_TEXT + 1], result[ROOM], records[PLENTY];

struct call {
    size_t pass, mode, form; /* pass 0: all of them */
    const uint8_t *text;
    size_t text_length;
    int shorter; /* 0, or which work buffer, from 1, is one element short; ALL_EXACT: none is longer */
    size_t room, records; /* how much of the result buffer and of the record buffer is lent */
};

struct answer {
    uint8_t number;
    size_t length, place;
};

static int calls, failures;

static void fail(const char *name, const char *what)
{
    printf(LANGUAGE ": larger texts: %s: %s\n", name, what);
    failures++;
}

static int all(const void *from, size_t size, uint8_t b)
{
    const uint8_t *s = (const uint8_t *)from;
    return size == 0 || (s[0] == b && memcmp(s, s + 1, size - 1) == 0);
}

static int have_room(void)
{
    for (int i = 0; i < BUFFERS; i++) {
        uint8_t *room = (uint8_t *)malloc((SPARE + stated[i] + SPARE) * unit[i]);
        if (room == NULL)
            return 0;
        lent[i] = room + SPARE * unit[i];
    }
    return 1;
}

static void fill(void)
{
    for (int i = 0; i < BUFFERS; i++)
        memset(lent[i] - SPARE * unit[i], FILLED, (SPARE + stated[i] + SPARE) * unit[i]);
    memset(out_room, FILLED, sizeof out_room);
    memset(orig_room, FILLED, sizeof orig_room);
}

static size_t size_of(int i, int shorter)
{
    return i + 1 == shorter ? stated[i] - 1 : shorter == ALL_EXACT ? stated[i] : stated[i] + SPARE;
}

static struct answer ask(struct call q)
{
    struct answer r = { 254, 1, 1 };
    size_t n[BUFFERS];
    for (int i = 0; i < BUFFERS; i++)
        n[i] = size_of(i, q.shorter);
#define BYTES(i) lent[i], n[i]
#define WORDS(i) (uint32_t *)lent[i], n[i]
#define SIZES(i) (size_t *)lent[i], n[i]
#define LENT q.text, q.text_length, BYTES(0), BYTES(1), BYTES(2), BYTES(3), BYTES(4), BYTES(5), \
    BYTES(6), BYTES(7), WORDS(8), WORDS(9), WORDS(10), WORDS(11), SIZES(12), SIZES(13), SIZES(14), \
    SIZES(15), SIZES(16), SIZES(17), out, q.room, orig, q.records, &r.length, &r.place
    if (q.pass == 0)
        r.number = optlines_optimize_large(q.mode, q.form, LENT);
    else
        r.number = optlines_run_pass_large(q.pass, q.mode, q.form, LENT);
    calls++;
    return r;
}

static int has_run(uint8_t number)
{
    return number == OPTLINES_DONE || number == OPTLINES_SHORT_RESULT
        || number == OPTLINES_SHORT_RECORDS;
}

/* Whether each work buffer is as it should be: 0 as far as stated where the passes ran. */
static int work_is(int ran)
{
    for (int i = 0; i < BUFFERS; i++) {
        size_t zeros = ran ? stated[i] * unit[i] : 0;
        size_t rest = (stated[i] + SPARE) * unit[i] - zeros;
        size_t before = SPARE * unit[i];
        if (!all(lent[i] - before, before, FILLED) || !all(lent[i], zeros, 0)
            || !all(lent[i] + zeros, rest, FILLED))
            return 0;
    }
    return 1;
}

/* Writes that line i of a text has a fate and a line of the result. */
static void tell(size_t form, size_t i, size_t fate, size_t line)
{
    if (form == OPTLINES_OL) {
        uint8_t ol[] = { 'O', 'L', (uint8_t)i, (uint8_t)(i >> 8), (uint8_t)fate, (uint8_t)line,
            (uint8_t)(line >> 8) };
        memcpy(records + 7 * i, ol, 7);
    } else {
        uint8_t om[] = { 'O', 'M', (uint8_t)i, (uint8_t)(i >> 8), (uint8_t)(i >> 16),
            (uint8_t)(i >> 24), (uint8_t)fate, (uint8_t)line, (uint8_t)(line >> 8),
            (uint8_t)(line >> 16), (uint8_t)(line >> 24) };
        memcpy(records + 11 * i, om, 11);
    }
}

/*
 * Writes the records of lines from line i of a text and line `from` of its result on. They are said
 * by the fate of each line and its line, a digit or `-` for none, as in "00 3- 11".
 */
static void tell_said(size_t form, const char *said, size_t i, size_t from)
{
    size_t none = form == OPTLINES_OL ? 65535 : 4294967295u;
    for (; *said != 0; said += said[2] == 0 ? 2 : 3, i++)
        tell(form, i, (size_t)(said[0] - '0'),
            said[1] == '-' ? none : from + (size_t)(said[1] - '0'));
}

/* Writes that so many lines are kept with equal bytes. */
static void tell_kept(size_t form, size_t lines)
{
    for (size_t i = 0; i < lines; i++)
        tell(form, i, OPTLINES_EQUAL, i);
}

static void expect(const char *name, struct call q, struct answer want)
{
    size_t width = q.form == OPTLINES_OL ? 7 : 11;
    size_t told = want.number == OPTLINES_DONE ? width * optlines_lines(q.text, q.text_length) : 0;
    fill();
    struct answer got = ask(q);
    if (got.number != want.number)
        fail(name, "another number");
    if (got.length != want.length)
        fail(name, "another length");
    if (got.place != want.place)
        fail(name, "another place");
    if (memcmp(out, result, want.length) != 0)
        fail(name, "another result");
    if (!all(out_room, SPARE, FILLED) || !all(out + want.length, ROOM + SPARE - want.length, FILLED))
        fail(name, "the result buffer is changed beside the result");
    if (memcmp(orig, records, told) != 0)
        fail(name, "other records");
    if (!all(orig_room, SPARE, FILLED) || !all(orig + told, PLENTY + SPARE - told, FILLED))
        fail(name, "the record buffer is changed beside the records");
    if (!work_is(has_run(want.number)))
        fail(name, "a work buffer is not as it should be");
}

/* All passes over a text, in buffers that are long enough. */
static struct call whole(size_t form, const void *given, size_t text_length)
{
    struct call q = { 0, OPTLINES_PLAIN, form, (const uint8_t *)given, text_length, 0, ROOM, PLENTY };
    return q;
}

/* The records have been written to `records`, and the result to `result`. */
static void done(const char *name, struct call q, size_t length)
{
    struct answer want = { OPTLINES_DONE, length, 0 };
    expect(name, q, want);
}

static void refused(const char *name, struct call q, uint8_t number, size_t place)
{
    struct answer want = { number, 0, place };
    expect(name, q, want);
}

static void becomes(const char *name, struct call q, const char *tidy, const char *said)
{
    memcpy(result, tidy, strlen(tidy));
    tell_said(q.form, said, 0, 0);
    done(name, q, strlen(tidy));
}

static const char sample[]
    = "function f(a) {\n  let r0, r1, r2;\n  r0 = a;\n  r1 = g(r0);\n  return r1;\n}\n";
static const char tidy[] = "function f(a) {\n  let r1 = g(a);\n  return r1;\n}\n";
static const char origins[] = "00 3- 21 11 02 03";
enum { SAMPLE = sizeof sample - 1, TIDY = sizeof tidy - 1, SAMPLE_LINES = 6, TIDY_LINES = 4 };

/* What each pass gives by itself, and all of them, in every mode. */
static const char *const listings[PASSES][3] = {
    { sample, tidy, origins },
    { "let t1;\nt1 = 5;\nuse(t2);\n", "let t1;\nuse(t2);\n", "00 3- 01" },
    { "r0 = a;\nr1 = r0;\nr2 = r1;\nuse(r2);\n", "r0 = a;\nr1 = r0;\nuse(r1);\n", "00 01 22 12" },
    { "phi1 = 2;\nphi2 = a;\nuse(phi2);\n", "phi2 = a;\nuse(phi2);\n", "3- 00 01" },
    { "r3 = greet;\nr4 = 1;\nr3 = r3(r4);\nuse(r3);\n", "use(greet(1));\n", "20 20 20 10" },
    { "let r007, r1, r2;\nuse(r7, r1);\n", "let r7, r1;\nuse(r7, r1);\n", "10 01" },
    { "var x;\n  let r0;\n}\n  r0 = 1;\n", "var x;\n}\n  let r0 = 1;\n", "00 3- 01 12" },
};

/* A sum of strings with a call in it, and a template over two lines, above a store and a call. */
static const char over[]
    = "r1 = \"a\" + f() + \"b\";\n  let r0;\nx = `{\n}`;\n  r0 = f();\n  use(r0);\n";
static const char *const by_mode[MODES][2] = {
    { "  let r0;\nx = `{\n}`;\n  r0 = f();\n  use(r0);\n", "3- 00 01 02 03 04" },
    { over, "00 01 02 03 04 05" },
    { "x = `{\n}`;\n  use(f());\n", "3- 3- 00 01 22 12" },
    { "r1 = \"a\" + f() + \"b\";\nx = `{\n}`;\n  use(f());\n", "00 3- 01 02 23 13" },
};

static void results(void)
{
    for (size_t k = 0; k < FORMS * MODES; k++) {
        struct call q = whole(k % FORMS, over, strlen(over));
        q.mode = k / FORMS;
        becomes("a sum and a template", q, by_mode[q.mode][0], by_mode[q.mode][1]);
        for (q.pass = 0; q.pass < PASSES; q.pass++) {
            const char *const *listing = listings[q.pass];
            q.text = (const uint8_t *)listing[0];
            q.text_length = strlen(listing[0]);
            becomes("a small text", q, listing[1], listing[2]);
        }
    }
    becomes("an empty text", whole(OPTLINES_OM, "", 0), "", "");
    becomes("a last line without LF", whole(OPTLINES_OM, "a\r\n\nb", 5), "a\n\nb", "00 01 02");
    becomes("each line goes", whole(OPTLINES_OL, "let r0;\n", 8), "\n", "3-");
}

/* Any form but 0 is OM. */
static void forms(void)
{
    static const size_t numbers[] = { 2, 3, 255, 256, (size_t)1 << 32, (size_t)-1 };
    for (size_t k = 0; k < sizeof numbers / sizeof *numbers; k++) {
        struct call q = whole(numbers[k], sample, SAMPLE);
        becomes("another number for the form OM", q, tidy, origins);
        q.pass = 5;
        q.records = 11 * SAMPLE_LINES - 1;
        refused("11 bytes a line in OM", q, OPTLINES_SHORT_RECORDS, 11 * SAMPLE_LINES);
    }
}

/* As many bytes as may be, and one more, by each pass and in each form. */
static void bytes(void)
{
    memset(text, 'x', sizeof text);
    memset(result, 'x', OPTLINES_LARGE_TEXT);
    for (size_t k = 0; k < FORMS * PASSES; k++) {
        struct call q = whole(k % FORMS, text, OPTLINES_LARGE_TEXT);
        q.pass = k / FORMS;
        tell_kept(q.form, 1);
        done("1,048,576 bytes", q, OPTLINES_LARGE_TEXT);
        q.text_length++;
        refused("1,048,577 bytes", q, OPTLINES_TOO_LONG, OPTLINES_LARGE_TEXT);
    }
}

/* So many empty lines: all are kept, and the result lacks the last LF. */
static void lines_kept(const char *name, struct call q, size_t lines)
{
    memset(result, '\n', lines);
    tell_kept(q.form, lines);
    q.text_length = lines;
    done(name, q, lines - 1);
}

static void lines_refused(const char *name, struct call q, size_t lines, uint8_t number, size_t place)
{
    q.text_length = lines;
    refused(name, q, number, place);
}

/* As many lines as may be, and one more, by each pass and in each form, with room to spare or none. */
static void lines(void)
{
    const size_t most = OPTLINES_LARGE_LINES, most_ol = OPTLINES_OL_LINES;
    memset(text, '\n', most + 1);
    for (size_t pass = 0; pass < PASSES; pass++) {
        struct call ol = whole(OPTLINES_OL, text, 0), om = whole(OPTLINES_OM, text, 0);
        ol.pass = om.pass = pass;
        lines_kept("65,535 lines, OL", ol, most_ol);
        lines_kept("65,535 lines, OM", om, most_ol);
        lines_refused("65,536 lines, OL", ol, most_ol + 1, OPTLINES_WIDE_LINES, most_ol);
        lines_kept("65,536 lines, OM", om, most_ol + 1);
        lines_refused("100,000 lines, OL", ol, most, OPTLINES_WIDE_LINES, most_ol);
        lines_kept("100,000 lines, OM", om, most);
        lines_refused("100,001 lines, OL", ol, most + 1, OPTLINES_TOO_MANY_LINES, most);
        lines_refused("100,001 lines, OM", om, most + 1, OPTLINES_TOO_MANY_LINES, most);
        ol.room = om.room = ol.records = om.records = 0;
        lines_refused("13 before 7 and 8", ol, most_ol + 1, OPTLINES_WIDE_LINES, most_ol);
        lines_refused("5 before 7 and 8", om, most + 1, OPTLINES_TOO_MANY_LINES, most);
    }
    text[most_ol] = 'a';
    lines_refused("a last line without LF counts", whole(OPTLINES_OL, text, 0), most_ol + 1,
        OPTLINES_WIDE_LINES, most_ol);
}

/* Each size as stated, and one less, in each form. */
static void sizes(void)
{
    for (size_t form = 0; form < FORMS; form++) {
        struct call q = whole(form, sample, SAMPLE);
        size_t need = (form == OPTLINES_OL ? 7 : 11) * SAMPLE_LINES;
        q.shorter = ALL_EXACT;
        q.room = TIDY;
        q.records = need;
        becomes("each buffer is just as long as stated", q, tidy, origins);
        q.room = TIDY - 1;
        refused("a result buffer one byte short", q, OPTLINES_SHORT_RESULT, TIDY);
        q.records = 0;
        refused("7 before 8", q, OPTLINES_SHORT_RESULT, TIDY);
        q.room = TIDY;
        refused("no record buffer", q, OPTLINES_SHORT_RECORDS, need);
        q.records = need - 1;
        for (q.pass = 0; q.pass < PASSES; q.pass++) {
            q.room = ROOM;
            refused("a record buffer one byte short", q, OPTLINES_SHORT_RECORDS, need);
        }
        for (q.shorter = 1; q.shorter <= BUFFERS; q.shorter++)
            for (q.pass = 0; q.pass < PASSES; q.pass += 6)
                refused("a work buffer one element short", q, OPTLINES_SHORT_WORK, 0);
    }
}

/* The record buffer of as many lines as may be, and one byte less. */
static void record_sizes(void)
{
    struct call ol = whole(OPTLINES_OL, text, 0), om = whole(OPTLINES_OM, text, 0);
    memset(text, '\n', OPTLINES_LARGE_LINES);
    ol.records = 458745; /* 7 * 65,535 */
    om.records = 1100000; /* 11 * 100,000 */
    lines_kept("records of 65,535 lines, OL", ol, OPTLINES_OL_LINES);
    lines_kept("records of 100,000 lines, OM", om, OPTLINES_LARGE_LINES);
    ol.records--;
    om.records--;
    lines_refused("one byte short, OL", ol, OPTLINES_OL_LINES, OPTLINES_SHORT_RECORDS, 458745);
    lines_refused("one byte short, OM", om, OPTLINES_LARGE_LINES, OPTLINES_SHORT_RECORDS, 1100000);
}

/* The sample over and over: each is tidied as the first, with both line numbers shifted. */
static void repeated(const char *name, size_t form, size_t mode, size_t times)
{
    struct call q = whole(form, text, times * SAMPLE);
    q.mode = mode;
    for (size_t i = 0; i < times; i++) {
        memcpy(text + i * SAMPLE, sample, SAMPLE);
        memcpy(result + i * TIDY, tidy, TIDY);
        tell_said(form, origins, i * SAMPLE_LINES, i * TIDY_LINES);
    }
    done(name, q, times * TIDY);
    q.room = times * TIDY - 1;
    refused("a long result, one byte short", q, OPTLINES_SHORT_RESULT, times * TIDY);
}

static void long_texts(void)
{
    const size_t most = OPTLINES_LARGE_TEXT / SAMPLE, most_ol = OPTLINES_OL_LINES / SAMPLE_LINES;
    for (size_t mode = 0; mode < MODES; mode++) {
        repeated("the sample, until the text is full", OPTLINES_OM, mode, most);
        repeated("the sample, until the lines are full", OPTLINES_OL, mode, most_ol);
    }
    refused("the sample once more in OL", whole(OPTLINES_OL, text, most * SAMPLE),
        OPTLINES_WIDE_LINES, OPTLINES_OL_LINES);
}

static void order(void)
{
    const size_t most = OPTLINES_LARGE_LINES, most_ol = OPTLINES_OL_LINES;
    const size_t crowd = OPTLINES_BRACKETS + 1;
    struct call q = whole(OPTLINES_OL, text, OPTLINES_LARGE_TEXT + 1);
    memset(text, 0xFF, sizeof text);
    q.pass = 7;
    q.mode = 4;
    q.shorter = 1;
    q.room = q.records = 0;
    refused("1 first of all", q, OPTLINES_BAD_PASS, 0);
    q.pass = (size_t)-1;
    refused("the largest pass", q, OPTLINES_BAD_PASS, 0);
    for (q.pass = 0; q.pass < PASSES; q.pass += 6) {
        q.mode = 4;
        refused("12 before 2", q, OPTLINES_BAD_MODE, 0);
        q.mode = (size_t)-1;
        refused("the largest mode", q, OPTLINES_BAD_MODE, 0);
        q.mode = OPTLINES_STRICT_JOINED;
        q.text_length = OPTLINES_LARGE_TEXT + 1;
        refused("2 before 3", q, OPTLINES_TOO_LONG, OPTLINES_LARGE_TEXT);
        q.text_length = OPTLINES_LARGE_TEXT;
        refused("3 before 4", q, OPTLINES_SHORT_WORK, 0);
    }
    q.shorter = 0;
    memset(text, '\n', most + 1);
    memset(text + most + 1, '[', crowd);
    for (size_t form = 0; form < FORMS; form++) {
        q = whole(form, text, most + 1 + crowd + 1);
        q.room = q.records = 0;
        refused("4 before 5", q, OPTLINES_NOT_UTF8, most + 1 + crowd);
        q.text_length--;
        refused("5 before 13 and 6", q, OPTLINES_TOO_MANY_LINES, most);
        q.text += most - most_ol;
        q.text_length -= most - most_ol;
        if (form == OPTLINES_OL)
            refused("13 before 6", q, OPTLINES_WIDE_LINES, most_ol);
        else
            refused("6 in a line beyond those of OL", q, OPTLINES_CROWDED, most_ol + 1);
        q.text += 2;
        q.text_length -= 2;
        refused("6 before 7 and 8, in the last line of OL", q, OPTLINES_CROWDED, most_ol - 1);
    }
}

static void damaged(void)
{
    static const char *const ends[] = { "\xE2\x82\n", "\xE2\x82", "\xC0\x80", "\xED\xA0\x80" };
    static const uint8_t numbers[]
        = { OPTLINES_NOT_UTF8, OPTLINES_CUT, OPTLINES_OVERLONG, OPTLINES_OUTSIDE };
    for (int k = 0; k < 4; k++) {
        size_t length = strlen(ends[k]), place = OPTLINES_LARGE_TEXT - length;
        memset(text, '\n', place);
        memcpy(text + place, ends[k], length);
        refused("a bad last character", whole(OPTLINES_OL, text, OPTLINES_LARGE_TEXT), numbers[k], place);
    }
}

/* Null pointers where the length is 0. */
static void nulls(void)
{
    struct answer r = { 254, 1, 1 };
#define NONE NULL, 0, NULL, 0, NULL, 0, NULL, 0, NULL, 0, NULL, 0
#define NOTHING NONE, NONE, NONE, NULL, 0, NULL, 0, NULL, 0, &r.length, &r.place
    r.number = optlines_optimize_large(OPTLINES_PLAIN, OPTLINES_OM, NOTHING);
    if (r.number != OPTLINES_SHORT_WORK || r.length != 0 || r.place != 0)
        fail("nothing lent", "another answer");
    r.length = r.place = 1;
    r.number = optlines_run_pass_large(0, OPTLINES_PLAIN, OPTLINES_OL, NOTHING);
    if (r.number != OPTLINES_BAD_PASS || r.length != 0 || r.place != 0)
        fail("pass 0", "another answer");
    calls += 2;
    struct call q = whole(OPTLINES_OL, NULL, 0);
    q.room = q.records = 0;
    done("no text", q, 0);
}

static struct optlines_large work;

/* Whether all that a call of optlines_tidy_large() writes is as it should be. */
static void tidies(const char *name, struct call q, struct answer want, size_t count)
{
    size_t told = optlines_record_size(q.form) * count;
    uint8_t after = want.number == OPTLINES_DONE ? 0 : FILLED;
    size_t outs = offsetof(struct optlines_large, out);
    memset(&work, FILLED, sizeof work);
    calls++;
    if (optlines_tidy_large(&work, q.pass, q.mode, q.form, q.text, q.text_length) != want.number)
        fail(name, "another number");
    if (work.length != want.length || work.place != want.place || work.records != count)
        fail(name, "another length, place or number of records");
    if (memcmp(work.out, result, want.length) != 0 || memcmp(work.orig, records, told) != 0)
        fail(name, "another result or other records");
    if (!all(work.out + want.length, sizeof work.out - want.length, FILLED)
        || !all(work.orig + told, sizeof work.orig - told, FILLED))
        fail(name, "something is changed beyond the result or the records");
    if (want.number != OPTLINES_DONE && !all(&work, outs, FILLED))
        fail(name, "a work buffer is changed");
    if (!all(work.bytes, sizeof work.bytes, after) || !all(work.flags, sizeof work.flags, after)
        || !all(work.line_flags, sizeof work.line_flags, after)
        || !all(work.blocks, sizeof work.blocks, after) || !all(work.notes, sizeof work.notes, after)
        || !all(work.lines, sizeof work.lines, after) || !all(work.places, sizeof work.places, after)
        || !all(work.owners, sizeof work.owners, after)
        || !all(work.table, sizeof work.table, after))
        fail(name, "a work buffer is not as it should be");
}

static void in_one_struct(void)
{
    struct answer fine = { OPTLINES_DONE, TIDY, 0 }, overlap = { OPTLINES_OVERLAP, 0, 0 };
    struct answer long_text = { OPTLINES_TOO_LONG, 0, OPTLINES_LARGE_TEXT };
    struct answer wide = { OPTLINES_WIDE_LINES, 0, OPTLINES_OL_LINES };
    struct answer full = { OPTLINES_DONE, OPTLINES_LARGE_LINES - 1, 0 };
    if (sizeof work != 28544392)
        fail("the struct", "another size than the header says");
    memcpy(result, tidy, TIDY);
    for (size_t form = 0; form < FORMS; form++) {
        tell_said(form, origins, 0, 0);
        tidies("the sample in one struct", whole(form, sample, SAMPLE), fine, SAMPLE_LINES);
        for (size_t i = 0; i < SAMPLE_LINES; i++) {
            size_t line = origins[3 * i + 1] == '-'
                ? (form == OPTLINES_OL ? OPTLINES_NO_LINE : OPTLINES_LARGE_NO_LINE)
                : (size_t)(origins[3 * i + 1] - '0');
            if (optlines_fate_in(form, work.orig, i) != origins[3 * i] - '0'
                || optlines_line_in(form, work.orig, i) != line)
                fail("a record that is read", "another fate or line");
        }
        for (int k = 0; k < 3; k++) {
            const uint8_t *inside[] = { work.out, work.orig, (const uint8_t *)work.table };
            tidies("a text in the struct", whole(form, inside[k], 7), overlap, 0);
        }
    }
    struct call one = whole(OPTLINES_OL, listings[6][0], strlen(listings[6][0]));
    struct answer bound = { OPTLINES_DONE, strlen(listings[6][1]), 0 };
    one.pass = 6;
    memcpy(result, listings[6][1], bound.length);
    tell_said(OPTLINES_OL, listings[6][2], 0, 0);
    tidies("one pass in one struct", one, bound, 4);
    memset(text, '\n', sizeof text);
    tidies("a text that is too long, in one struct", whole(OPTLINES_OM, text, sizeof text), long_text, 0);
    tidies("too many lines for OL, in one struct", whole(OPTLINES_OL, text, OPTLINES_LARGE_LINES), wide, 0);
    memset(result, '\n', OPTLINES_LARGE_LINES);
    tell_kept(OPTLINES_OM, OPTLINES_LARGE_LINES);
    tidies("as many lines as may be, in one struct", whole(OPTLINES_OM, text, OPTLINES_LARGE_LINES), full,
        OPTLINES_LARGE_LINES);
}

int main(void)
{
    if (!have_room())
        return 2;
    results();
    forms();
    bytes();
    lines();
    sizes();
    record_sizes();
    long_texts();
    order();
    damaged();
    nulls();
    in_one_struct();
    printf(LANGUAGE ": larger texts: %d calls, %d failures\n", calls, failures);
    return failures != 0;
}
