/*
 * Calls the library from C: every number with its place, the order of the checks, the limits from
 * both sides, the passes, the modes, the records, and every lent byte after each call. Says what fails;
 * status 1 where something does.
 */
#include "optlines.h"
#include <stdio.h>
#include <string.h>

enum { SPARE = 8, ALL_EXACT = -1, FILLED = 0xA5, ROOM = 2 * OPTLINES_TEXT };
static const uint32_t FILLED_BLOCK = 0xA5A5A5A5;

/* What is lent, each with some room behind what is stated. */
static uint8_t work[5][OPTLINES_BYTES + SPARE], out[ROOM + SPARE], orig[OPTLINES_RECORDS + SPARE];
static uint32_t blocks[OPTLINES_BLOCKS + SPARE];

struct call {
    size_t pass; /* 0: all of them */
    const uint8_t *text;
    size_t text_length;
    int shorter; /* 0, or which work buffer, from 1, is one element short; ALL_EXACT: each is just as long as stated */
    size_t room;
    size_t mode;
    size_t records; /* how much of the record buffer is lent */
};

struct answer {
    uint8_t number;
    size_t length, place;
};

static int calls, failures;

static void fail(const char *name, const char *what)
{
    printf("tests/c: %s: %s\n", name, what);
    failures++;
}

static void fill(void)
{
    memset(work, FILLED, sizeof work);
    memset(out, FILLED, sizeof out);
    memset(orig, FILLED, sizeof orig);
    for (size_t i = 0; i < OPTLINES_BLOCKS + SPARE; i++)
        blocks[i] = FILLED_BLOCK;
}

static size_t lent(int which, int shorter)
{
    size_t stated = which == 6 ? OPTLINES_BLOCKS : OPTLINES_BYTES;
    return which == shorter ? stated - 1 : shorter == ALL_EXACT ? stated : stated + SPARE;
}

static struct answer ask(struct call q)
{
    struct answer r = { 255, 1, 1 };
    size_t n[7];
    for (int i = 1; i < 7; i++)
        n[i] = lent(i, q.shorter);
    if (q.pass == 0)
        r.number = optlines_optimize(q.mode, q.text, q.text_length, work[0], n[1], work[1], n[2], work[2], n[3],
            work[3], n[4], work[4], n[5], blocks, n[6], out, q.room, orig, q.records, &r.length, &r.place);
    else
        r.number = optlines_run_pass(q.pass, q.mode, q.text, q.text_length, work[0], n[1], work[1], n[2], work[2], n[3],
            work[3], n[4], work[4], n[5], blocks, n[6], out, q.room, orig, q.records, &r.length, &r.place);
    calls++;
    return r;
}

static int all(const uint8_t *s, size_t from, size_t to, uint8_t b)
{
    while (from < to && s[from] == b)
        from++;
    return from >= to;
}

/* Whether the work buffers are as they should be: zeros as far as stated where the passes ran. */
static int work_is(int ran)
{
    size_t zeros = ran ? OPTLINES_BYTES : 0, zero_blocks = ran ? OPTLINES_BLOCKS : 0;
    for (int i = 0; i < 5; i++)
        if (!all(work[i], 0, zeros, 0) || !all(work[i], zeros, sizeof work[i], FILLED))
            return 0;
    for (size_t i = 0; i < OPTLINES_BLOCKS + SPARE; i++)
        if (blocks[i] != (i < zero_blocks ? 0 : FILLED_BLOCK))
            return 0;
    return 1;
}

/* Each line is kept, with equal bytes. */
static const char *const KEPT = NULL;

/*
 * Whether the record buffer is as it should be. The records are said by the fate of each line and
 * its line of the result, a digit or `-` for none, as in "00 3- 11", or as KEPT.
 */
static int records_are(const char *said, size_t lines)
{
    if (said && strlen(said) + (lines != 0) != 3 * lines)
        return 0;
    for (size_t i = 0; i < lines; i++) {
        size_t fate = said ? said[3 * i] - '0' : OPTLINES_EQUAL;
        size_t line = !said ? i : said[3 * i + 1] == '-' ? 65535 : (size_t)(said[3 * i + 1] - '0');
        uint8_t record[] = { 'O', 'L', i % 256, i / 256, fate, line % 256, line / 256 };
        if (memcmp(orig + 7 * i, record, 7) != 0)
            return 0;
    }
    return all(orig, 7 * lines, sizeof orig, FILLED);
}

static int has_run(uint8_t number)
{
    return number == OPTLINES_DONE || number == OPTLINES_SHORT_RESULT || number == OPTLINES_SHORT_RECORDS;
}

static void expect(const char *name, struct call q, struct answer want, const char *result, const char *records)
{
    size_t lines = want.number == OPTLINES_DONE ? optlines_lines(q.text, q.text_length) : 0;
    fill();
    struct answer got = ask(q);
    if (got.number != want.number)
        fail(name, "another number");
    if (got.length != want.length)
        fail(name, "another length");
    if (got.place != want.place)
        fail(name, "another place");
    if (got.length > ROOM || (result && memcmp(out, result, want.length) != 0))
        fail(name, "another result");
    else if (!all(out, got.length, sizeof out, FILLED))
        fail(name, "the result buffer is changed beyond the length");
    if (!records_are(records, lines))
        fail(name, "the record buffer is not as it should be");
    if (!work_is(has_run(got.number)))
        fail(name, "a work buffer is not as it should be");
}

/* All passes over a text, in buffers that are long enough. */
static struct call whole(const char *text, size_t text_length)
{
    return (struct call) { 0, (const uint8_t *)text, text_length, 0, ROOM, OPTLINES_PLAIN, OPTLINES_RECORDS };
}

static struct call text_in(size_t mode, size_t pass, const char *text)
{
    struct call q = whole(text, strlen(text));
    q.pass = pass;
    q.mode = mode;
    return q;
}

static struct call text_of(size_t pass, const char *text)
{
    return text_in(OPTLINES_PLAIN, pass, text);
}

static void done(const char *name, struct call q, const char *result, size_t length, const char *records)
{
    expect(name, q, (struct answer) { OPTLINES_DONE, length, 0 }, result, records);
}

static void becomes_in(const char *name, size_t mode, size_t pass, const char *text, const char *result, const char *records)
{
    done(name, text_in(mode, pass, text), result, strlen(result), records);
}

static void becomes(const char *name, size_t pass, const char *text, const char *result, const char *records)
{
    becomes_in(name, OPTLINES_PLAIN, pass, text, result, records);
}

static void refused(const char *name, struct call q, uint8_t number, size_t place)
{
    expect(name, q, (struct answer) { number, 0, place }, NULL, "");
}

static const char sample[] = "function f(a) {\n  let r0, r1, r2;\n  r0 = a;\n  r1 = g(r0);\n  return r1;\n}\n";
static const char tidy[] = "function f(a) {\n  let r1 = g(a);\n  return r1;\n}\n";
static const char origins[] = "00 3- 21 11 02 03";

/* Texts at a limit and one beyond it. */
static char full[OPTLINES_TEXT + 1], many[OPTLINES_LINES + 1], crowd[OPTLINES_BRACKETS + 4];

static void results(void)
{
    becomes("the sample", 0, sample, tidy, origins);
    becomes("an empty text", 0, "", "", "");
    becomes("a text that ends in two LF", 0, "a\n\n", "a\n", KEPT);
    becomes("pass 1", 1, "let t1;\nt1 = 5;\nuse(t2);\n", "let t1;\nuse(t2);\n", "00 3- 01");
    becomes("pass 2", 2, "r0 = a;\nr1 = r0;\nr2 = r1;\nuse(r2);\n", "r0 = a;\nr1 = r0;\nuse(r1);\n", "00 01 22 12");
    becomes("pass 3", 3, "phi1 = 2;\nphi2 = a;\nuse(phi2);\n", "phi2 = a;\nuse(phi2);\n", "3- 00 01");
    becomes("pass 4", 4, "r3 = greet;\nr4 = 1;\nr3 = r3(r4);\nuse(r3);\n", "use(greet(1));\n", "20 20 20 10");
    becomes("pass 5", 5, "let r007, r1, r2;\nuse(r7, r1);\n", "let r7, r1;\nuse(r7, r1);\n", "10 01");
    becomes("pass 6", 6, "var x;\n  let r0;\n}\n  r0 = 1;\n", "var x;\n}\n  let r0 = 1;\n", "00 3- 01 12");
}

/* Stores of nothing that is read: a sum of strings with a call in it, and a string with // in it. */
static const char temps[] = "let t0, t1;\nt0 = \"a\" + f() + \"b\";\nt1 = \"http://x\";\n";
static const char registers[] = "r0 = \"a\" + f() + \"b\";\nr1 = \"http://x\";\n";
static const char phis[] = "phi0 = \"a\" + f() + \"b\";\nphi1 = [\"http://x\"];\n";

/* A template over two lines, with braces in it, above a store and a call; with the sum of strings above it. */
static const char over[] = "  let r0;\nx = `{\n}`;\n  r0 = f();\n  use(r0);\n";
static const char all_over[] = "r1 = \"a\" + f() + \"b\";\n  let r0;\nx = `{\n}`;\n  r0 = f();\n  use(r0);\n";

static void joined_modes(void)
{
    static const char called[] = "  let r0;\nx = `{\n}`;\n  use(f());\n", bound[] = "x = `{\n}`;\n  let r0 = f();\n  use(r0);\n";
    becomes_in("pass 4, plain", OPTLINES_PLAIN, 4, over, over, KEPT);
    becomes_in("pass 4, strict", OPTLINES_STRICT, 4, over, over, KEPT);
    becomes_in("pass 4, joined", OPTLINES_JOINED, 4, over, called, "00 01 02 23 13");
    becomes_in("pass 4, both", OPTLINES_STRICT_JOINED, 4, over, called, "00 01 02 23 13");
    becomes_in("pass 6, plain", OPTLINES_PLAIN, 6, over, over, KEPT);
    becomes_in("pass 6, strict", OPTLINES_STRICT, 6, over, over, KEPT);
    becomes_in("pass 6, joined", OPTLINES_JOINED, 6, over, bound, "3- 00 01 12 03");
    becomes_in("pass 6, both", OPTLINES_STRICT_JOINED, 6, over, bound, "3- 00 01 12 03");
    becomes_in("a sum and a template, plain", OPTLINES_PLAIN, 0, all_over, over, "3- 00 01 02 03 04");
    becomes_in("a sum and a template, strict", OPTLINES_STRICT, 0, all_over, all_over, KEPT);
    becomes_in("a sum and a template, joined", OPTLINES_JOINED, 0, all_over, "x = `{\n}`;\n  use(f());\n", "3- 3- 00 01 22 12");
    becomes_in("a sum and a template, both", OPTLINES_STRICT_JOINED, 0, all_over, "r1 = \"a\" + f() + \"b\";\nx = `{\n}`;\n  use(f());\n",
        "00 3- 01 02 23 13");
}

static void modes(void)
{
    becomes_in("pass 1, plain", OPTLINES_PLAIN, 1, temps, "let t0, t1;\nt1 = \"http://x\";\n", "00 3- 01");
    becomes_in("pass 1, strict", OPTLINES_STRICT, 1, temps, "let t0, t1;\nt0 = \"a\" + f() + \"b\";\n", "00 01 3-");
    becomes_in("pass 2, plain", OPTLINES_PLAIN, 2, registers, "r1 = \"http://x\";\n", "3- 00");
    becomes_in("pass 2, strict", OPTLINES_STRICT, 2, registers, "r0 = \"a\" + f() + \"b\";\n", "00 3-");
    becomes_in("pass 3, plain", OPTLINES_PLAIN, 3, phis, "[\"http://x\"];\n", "3- 10");
    becomes_in("pass 3, strict", OPTLINES_STRICT, 3, phis, "\"a\" + f() + \"b\";\n", "10 3-");
    becomes_in("all passes, plain", OPTLINES_PLAIN, 0, registers, "r1 = \"http://x\";\n", "3- 00");
    becomes_in("all passes, strict", OPTLINES_STRICT, 0, registers, "r0 = \"a\" + f() + \"b\";\n", "00 3-");
    for (size_t mode = OPTLINES_PLAIN; mode <= OPTLINES_STRICT_JOINED; mode++)
        becomes_in("the sample, in each mode", mode, 0, sample, tidy, origins);
    for (size_t pass = 4; pass <= 6; pass++)
        becomes_in("a pass that judges no value", OPTLINES_STRICT, pass, registers, registers, KEPT);
}

static void limits(void)
{
    struct call q = whole(full, OPTLINES_TEXT);
    memset(full, 'x', sizeof full);
    done("16,384 bytes", q, full, OPTLINES_TEXT, KEPT);
    q.text_length = OPTLINES_TEXT + 1;
    refused("16,385 bytes", q, OPTLINES_TOO_LONG, OPTLINES_TEXT);

    memset(many, '\n', sizeof many);
    q = whole(many, OPTLINES_LINES);
    done("1,024 lines", q, many, OPTLINES_LINES - 1, KEPT);
    q.shorter = ALL_EXACT;
    done("1,024 lines, buffers of just the stated sizes", q, many, OPTLINES_LINES - 1, KEPT);
    q.records--;
    refused("1,024 lines, a record buffer one byte short", q, OPTLINES_SHORT_RECORDS, OPTLINES_RECORDS);
    q.text_length = OPTLINES_LINES + 1;
    refused("1,025 lines", q, OPTLINES_TOO_MANY_LINES, OPTLINES_LINES);

    memset(crowd, '[', sizeof crowd);
    memcpy(crowd, "a\n", 2);
    q = whole(crowd, 2 + OPTLINES_BRACKETS);
    done("64 brackets", q, crowd, 2 + OPTLINES_BRACKETS, KEPT);
    q.text_length++;
    refused("65 brackets", q, OPTLINES_CROWDED, 1);

    q = text_of(0, sample);
    q.room = strlen(tidy);
    done("a result buffer of just the length", q, tidy, strlen(tidy), origins);
    q.room--;
    refused("a result buffer one byte short", q, OPTLINES_SHORT_RESULT, strlen(tidy));
}

/* A record buffer of just the length, one byte short and of no bytes, for each entry and mode. */
static void short_records(const char *name, const char *text, size_t lines, const char *result, const char *records)
{
    for (size_t mode = OPTLINES_PLAIN; mode <= OPTLINES_STRICT_JOINED; mode++) {
        struct call q = text_in(mode, 0, text);
        q.records = 7 * lines;
        done(name, q, result, strlen(result), records);
        for (q.pass = 0; q.pass <= 6; q.pass++) {
            q.records = 7 * lines - 1;
            refused(name, q, OPTLINES_SHORT_RECORDS, 7 * lines);
            q.records = 0;
            refused(name, q, OPTLINES_SHORT_RECORDS, 7 * lines);
        }
    }
}

static void records(void)
{
    static const char globals[] = "__runtime.DeclareGlobals(1);\nuse(a);\n";
    struct call q = text_of(0, sample);
    short_records("the sample's records", sample, 6, tidy, origins);
    short_records("a last line without LF", "a\nb", 2, "a\nb", KEPT);
    short_records("empty lines", "\n\n", 2, "\n", KEPT);
    short_records("one line", "\n", 1, "\n", KEPT);
    short_records("a line that is removed has a record", globals, 2, "use(a);\n", "3- 00");
    short_records("each line goes", "let r0;\n", 1, "\n", "3-");
    short_records("CR before LF, and at the end", "a\r\nb\r", 2, "a\nb\r", KEPT);
    becomes("one pass removes no line before it", 5, globals, globals, KEPT);
    becomes("the line that took a value goes", 0, "r0 = x;\nphi1 = r0;\n", "\n", "3- 3-");
    becomes("a dead phi that stays as a statement", 0, "r0 = x;\nphi1 = f(r0);\n", "f(x);\n", "20 10");
    becomes("a line that took a value in and has equal bytes", 4, "r1 = r1;\nuse(r1);\n", "use(r1);\n", "20 00");

    q.room = strlen(tidy) - 1;
    q.records = 0;
    refused("7 before 8", q, OPTLINES_SHORT_RESULT, strlen(tidy));
    q.room++;
    refused("8 after 7", q, OPTLINES_SHORT_RECORDS, 42);
    q = whole("", 0);
    q.records = 0;
    done("a text of no lines, a record buffer of no bytes", q, "", 0, "");
}

static void order(void)
{
    struct call q = { 7, (const uint8_t *)full, OPTLINES_TEXT + 1, 1, 0, 4, 0 };
    refused("pass 7", text_of(7, sample), OPTLINES_BAD_PASS, 0);
    refused("the largest number as a pass", text_of((size_t)-1, sample), OPTLINES_BAD_PASS, 0);
    refused("mode 4", text_in(4, 0, sample), OPTLINES_BAD_MODE, 0);
    refused("mode 4 of one pass", text_in(4, 1, sample), OPTLINES_BAD_MODE, 0);
    refused("the largest number as a mode", text_in((size_t)-1, 6, sample), OPTLINES_BAD_MODE, 0);
    memset(full, 0xFF, sizeof full);
    refused("1 before 12, 2 and 3", q, OPTLINES_BAD_PASS, 0);
    q.pass = 0;
    refused("12 first of all", q, OPTLINES_BAD_MODE, 0);
    q.pass = 6;
    refused("12 before 2 and 3", q, OPTLINES_BAD_MODE, 0);
    q.mode = OPTLINES_STRICT;
    q.pass = 0;
    refused("2 before 3 and 4", q, OPTLINES_TOO_LONG, OPTLINES_TEXT);
    q.pass = 6;
    refused("2 from the pass entry", q, OPTLINES_TOO_LONG, OPTLINES_TEXT);
    q.text_length = 3;
    for (q.shorter = 1; q.shorter < 7; q.shorter++)
        refused("3 before 4", q, OPTLINES_SHORT_WORK, 0);
    memset(full, '\n', OPTLINES_LINES + 1);
    memset(full + OPTLINES_LINES + 1, '[', OPTLINES_BRACKETS + 1);
    q = (struct call) { 0, (const uint8_t *)full, OPTLINES_LINES + OPTLINES_BRACKETS + 3, 0, 0, OPTLINES_PLAIN, 0 };
    refused("4 before 5", q, OPTLINES_NOT_UTF8, OPTLINES_LINES + OPTLINES_BRACKETS + 2);
    q.text_length--;
    refused("5 before 6", q, OPTLINES_TOO_MANY_LINES, OPTLINES_LINES);
    q.text += 1 + OPTLINES_LINES - 7;
    q.text_length -= 1 + OPTLINES_LINES - 7;
    refused("6 before 7 and 8", q, OPTLINES_CROWDED, 7);
    refused("a byte that cannot go on", text_of(0, "ab\xE2\x82\n"), OPTLINES_NOT_UTF8, 2);
    refused("a character that is cut", text_of(0, "ab\xE2\x82"), OPTLINES_CUT, 2);
    refused("an overlong form", text_of(0, "ab\xC0\x80"), OPTLINES_OVERLONG, 2);
    refused("a surrogate", text_of(0, "ab\xED\xA0\x80"), OPTLINES_OUTSIDE, 2);
}

static void answered(const char *name, struct answer r, uint8_t number)
{
    calls++;
    if (r.number != number || r.length != 0 || r.place != 0)
        fail(name, "another answer");
}

/* Null pointers where the length is 0. */
static void nulls(void)
{
    struct answer r = { 255, 1, 1 };
    struct call q = text_of(0, sample);
    q.room = 0;
    refused("no result buffer", q, OPTLINES_SHORT_RESULT, strlen(tidy));
    done("no text", (struct call) { 0, NULL, 0, 0, 0, OPTLINES_PLAIN, 0 }, "", 0, "");
#define NOTHING NULL, 0, NULL, 0, NULL, 0, NULL, 0, NULL, 0, NULL, 0, NULL, 0, NULL, 0, NULL, 0, &r.length, &r.place
    r.number = optlines_optimize(OPTLINES_PLAIN, NOTHING);
    answered("nothing lent", r, OPTLINES_SHORT_WORK);
    r.number = optlines_optimize(OPTLINES_STRICT_JOINED, NOTHING);
    answered("nothing lent, mode 3", r, OPTLINES_SHORT_WORK);
    r.number = optlines_optimize(4, NOTHING);
    answered("nothing lent, mode 4", r, OPTLINES_BAD_MODE);
    r.number = optlines_run_pass(0, 2, NOTHING);
    answered("pass 0", r, OPTLINES_BAD_PASS);
#undef NOTHING
    size_t n = OPTLINES_BYTES;
    r.number = optlines_optimize(OPTLINES_PLAIN, NULL, 0, work[0], n, work[1], n, work[2], n, work[3], n, work[4], n,
        blocks, OPTLINES_BLOCKS, NULL, 0, NULL, 0, &r.length, &r.place);
    answered("work buffers alone", r, OPTLINES_DONE);
}

int main(void)
{
    results();
    modes();
    joined_modes();
    limits();
    records();
    order();
    nulls();
    printf("tests/c: %d calls, %d failures\n", calls, failures);
    return failures != 0;
}
