/*
 * Calls optlines_tidy(), from C and from C++: this file is both. Each pass, each mode, every number
 * that it answers, the records, texts that overlap its buffers, every byte of the struct after each
 * call, and two threads at once. Says what fails; status 1 where something does.
 */
#include "optlines.h"
#include <pthread.h>
#include <stdio.h>
#include <string.h>

enum { FILLED = 0xA5, ROUNDS = 200 };

#ifdef __cplusplus
#define LANGUAGE "tests/c++"
#else
#define LANGUAGE "tests/c"
#endif

static struct optlines_work work, before;
static int calls, failures;

static void fail(const char *name, const char *what)
{
    printf(LANGUAGE ": optlines_tidy: %s: %s\n", name, what);
    failures++;
}

static int all(const void *from, size_t size, uint8_t b)
{
    const uint8_t *s = (const uint8_t *)from;
    size_t i = 0;
    while (i < size && s[i] == b)
        i++;
    return i == size;
}

static int work_is(int ran)
{
    return all(work.bytes, sizeof work.bytes, ran ? 0 : FILLED)
        && all(work.blocks, sizeof work.blocks, ran ? 0 : FILLED);
}

/* Whether the records are those that are said, by the fate of each line and its line of the result,
   a digit or `-` for none, as in "00 3- 11". */
static int records_are(const char *said)
{
    size_t lines = (strlen(said) + 1) / 3;
    for (size_t i = 0; i < lines; i++) {
        size_t line = said[3 * i + 1] == '-' ? OPTLINES_NO_LINE : (size_t)(said[3 * i + 1] - '0');
        const uint8_t *record = work.orig + OPTLINES_RECORD * i;
        if (record[0] != 'O' || record[1] != 'L' || record[2] != i || record[3] != 0
            || optlines_fate(work.orig, i) != said[3 * i] - '0'
            || optlines_line(work.orig, i) != line)
            return 0;
    }
    size_t size = OPTLINES_RECORD * lines;
    return work.records == lines && all(work.orig + size, sizeof work.orig - size, FILLED);
}

static void expect_in(const char *name, size_t mode, size_t pass, const void *text,
    size_t text_length, uint8_t number, size_t place, const char *result, const char *records)
{
    size_t length = strlen(result);
    memset(&work, FILLED, sizeof work);
    calls++;
    if (optlines_tidy(&work, pass, mode, (const uint8_t *)text, text_length) != number)
        fail(name, "another number");
    if (work.length != length || work.place != place)
        fail(name, "another length or place");
    else if (memcmp(work.out, result, length) != 0)
        fail(name, "another result");
    else if (!all(work.out + length, sizeof work.out - length, FILLED))
        fail(name, "the result buffer is changed beyond the length");
    if (!records_are(records))
        fail(name, "other records");
    if (!work_is(number == OPTLINES_DONE))
        fail(name, "a work buffer is not as it should be");
}

static void refused(const char *name, size_t pass, const void *text, size_t text_length,
    uint8_t number, size_t place)
{
    expect_in(name, OPTLINES_PLAIN, pass, text, text_length, number, place, "", "");
}

static void becomes_in(const char *name, size_t mode, size_t pass, const char *text,
    const char *result, const char *records)
{
    expect_in(name, mode, pass, text, strlen(text), OPTLINES_DONE, 0, result, records);
}

static void becomes(const char *name, size_t pass, const char *text, const char *result,
    const char *records)
{
    becomes_in(name, OPTLINES_PLAIN, pass, text, result, records);
}

static const char sample[]
    = "function f(a) {\n  let r0, r1, r2;\n  r0 = a;\n  r1 = g(r0);\n  return r1;\n}\n";
static const char tidy[] = "function f(a) {\n  let r1 = g(a);\n  return r1;\n}\n";

static void results(void)
{
    becomes("all passes", 0, sample, tidy, "00 3- 21 11 02 03");
    becomes("an empty text", 0, "", "", "");
    expect_in("no text", OPTLINES_PLAIN, 0, NULL, 0, OPTLINES_DONE, 0, "", "");
    becomes("pass 1", 1, "let t1;\nt1 = 5;\nuse(t2);\n", "let t1;\nuse(t2);\n", "00 3- 01");
    becomes("pass 2", 2, "r0 = a;\nr1 = r0;\nuse(r1);\n", "r0 = a;\nuse(r0);\n", "00 21 11");
    becomes("pass 3", 3, "phi1 = 2;\nphi2 = a;\nuse(phi2);\n", "phi2 = a;\nuse(phi2);\n",
        "3- 00 01");
    becomes("pass 4", 4, "r3 = greet;\nr4 = 1;\nr3 = r3(r4);\nuse(r3);\n", "use(greet(1));\n",
        "20 20 20 10");
    becomes("pass 5", 5, "let r007, r1, r2;\nuse(r7, r1);\n", "let r7, r1;\nuse(r7, r1);\n",
        "10 01");
    becomes("pass 6", 6, "var x;\n  let r0;\n}\n  r0 = 1;\n", "var x;\n}\n  let r0 = 1;\n",
        "00 3- 01 12");
    becomes("a last line without LF", 0, "a\n\nb", "a\n\nb", "00 01 02");
}

static void modes(void)
{
    static const char text[] = "r0 = \"a\" + f() + \"b\";\nr1 = \"http://x\";\n";
    static const char plain[] = "r1 = \"http://x\";\n", strict[] = "r0 = \"a\" + f() + \"b\";\n";
    static const char over[] = "x = `{\n}`;\nr0 = f();\nuse(r0);\n", called[] = "x = `{\n}`;\nuse(f());\n";
    size_t length = strlen(text);
    becomes_in("plain", OPTLINES_PLAIN, 0, text, plain, "3- 00");
    becomes_in("strict", OPTLINES_STRICT, 0, text, strict, "00 3-");
    becomes_in("pass 2, plain", OPTLINES_PLAIN, 2, text, plain, "3- 00");
    becomes_in("pass 2, strict", OPTLINES_STRICT, 2, text, strict, "00 3-");
    becomes_in("joined", OPTLINES_JOINED, 0, text, plain, "3- 00");
    becomes_in("both", OPTLINES_STRICT_JOINED, 0, text, strict, "00 3-");
    becomes_in("pass 4, plain", OPTLINES_PLAIN, 4, over, over, "00 01 02 03");
    becomes_in("pass 4, joined", OPTLINES_JOINED, 4, over, called, "00 01 22 12");
    expect_in("mode 4", 4, 0, text, length, OPTLINES_BAD_MODE, 0, "", "");
    expect_in("mode 4 of a pass", 4, 2, text, length, OPTLINES_BAD_MODE, 0, "", "");
    expect_in("the largest mode", (size_t)-1, 0, text, length, OPTLINES_BAD_MODE, 0, "", "");
    expect_in("pass 7 in mode 4", 4, 7, text, length, OPTLINES_BAD_PASS, 0, "", "");
    expect_in("a byte that is not UTF-8, in mode 4", 4, 0, "\xFF", 1, OPTLINES_BAD_MODE, 0, "", "");
}

static void refusals(void)
{
    static char text[OPTLINES_TEXT + 1];
    refused("pass 7", 7, sample, strlen(sample), OPTLINES_BAD_PASS, 0);
    refused("the largest pass", (size_t)-1, sample, strlen(sample), OPTLINES_BAD_PASS, 0);
    memset(text, 'x', sizeof text);
    refused("16,385 bytes", 0, text, sizeof text, OPTLINES_TOO_LONG, OPTLINES_TEXT);
    refused("a byte that cannot go on", 0, "ab\xE2\x82\n", 5, OPTLINES_NOT_UTF8, 2);
    refused("a character that is cut", 0, "ab\xE2\x82", 4, OPTLINES_CUT, 2);
    refused("an overlong form", 0, "ab\xC0\x80", 4, OPTLINES_OVERLONG, 2);
    refused("a surrogate", 0, "ab\xED\xA0\x80", 5, OPTLINES_OUTSIDE, 2);
    memset(text, '\n', OPTLINES_LINES + 1);
    refused("1,025 lines", 6, text, OPTLINES_LINES + 1, OPTLINES_TOO_MANY_LINES, OPTLINES_LINES);
    memset(text, '[', OPTLINES_BRACKETS + 1);
    refused("65 brackets", 0, text, OPTLINES_BRACKETS + 1, OPTLINES_CROWDED, 0);
}

/* The most bytes and the most lines: none is refused for want of room. */
static void longest(void)
{
    static char text[OPTLINES_TEXT];
    size_t lines = OPTLINES_LINES;
    memset(text, 'x', sizeof text);
    memset(&work, FILLED, sizeof work);
    calls++;
    if (optlines_tidy(&work, 0, OPTLINES_PLAIN, (const uint8_t *)text, sizeof text) != OPTLINES_DONE
        || work.length != sizeof text || work.place != 0 || !all(work.out, sizeof text, 'x'))
        fail("16,384 bytes", "another answer");
    memset(text, '\n', lines);
    calls++;
    if (optlines_tidy(&work, 0, OPTLINES_PLAIN, (const uint8_t *)text, lines) != OPTLINES_DONE
        || work.length != lines - 1 || work.records != lines
        || optlines_fate(work.orig, lines - 1) != OPTLINES_EQUAL
        || optlines_line(work.orig, lines - 1) != lines - 1)
        fail("1,024 lines", "another answer");
}

/* A text at an address that a call must refuse, or not, before it follows any pointer. */
static void at(const char *name, uintptr_t address, size_t text_length, int overlaps)
{
    uint8_t number;
    memset(&work, FILLED, sizeof work);
    memcpy(&before, &work, sizeof work);
    before.length = before.records = before.place = 0;
    calls++;
    number = optlines_tidy(&work, 7, 4, (const uint8_t *)address, text_length);
    if (number != (overlaps ? OPTLINES_OVERLAP : OPTLINES_BAD_PASS))
        fail(name, "another number");
    if (memcmp(&before, &work, sizeof work) != 0)
        fail(name, "something is changed");
}

static void overlaps(void)
{
    uintptr_t from = (uintptr_t)&work, to = from + sizeof work;
    at("a text in the result buffer", (uintptr_t)work.out, 10, 1);
    at("a text in the record buffer", (uintptr_t)work.orig, 7, 1);
    at("a text in a work buffer", (uintptr_t)work.bytes[2], 1, 1);
    at("a text at the struct's first byte", from, 1, 1);
    at("a text at the struct's last byte", to - 1, 1, 1);
    at("a text that reaches into the struct", from - 10, 11, 1);
    at("a text around the struct", from - 1, sizeof work + 2, 1);
    at("a text just before the struct", from - 10, 10, 0);
    at("a text just after the struct", to, 10, 0);
    at("an empty text in the struct", from, 0, 0);
    at("a text far below", 4096, 10, 0);
}

/* Calls over and over in a struct of its own; how many answers were others than wanted. */
struct thread {
    struct optlines_work work;
    const char *text, *result;
    size_t others;
};

static void *repeat(void *given)
{
    struct thread *t = (struct thread *)given;
    for (int i = 0; i < ROUNDS; i++) {
        uint8_t number = optlines_tidy(
            &t->work, 0, OPTLINES_PLAIN, (const uint8_t *)t->text, strlen(t->text));
        if (number != OPTLINES_DONE || t->work.length != strlen(t->result)
            || memcmp(t->work.out, t->result, t->work.length) != 0)
            t->others++;
    }
    return NULL;
}

static void threads(void)
{
    static struct thread one, two;
    pthread_t first, second;
    one.text = sample;
    one.result = tidy;
    two.text = "r3 = greet;\nr4 = 1;\nr3 = r3(r4);\nuse(r3);\n";
    two.result = "use(greet(1));\n";
    if (pthread_create(&first, NULL, repeat, &one) != 0) {
        fail("two threads", "no thread");
        return;
    }
    if (pthread_create(&second, NULL, repeat, &two) != 0)
        fail("two threads", "no second thread");
    else
        pthread_join(second, NULL);
    pthread_join(first, NULL);
    calls += 2 * ROUNDS;
    if (one.others + two.others != 0)
        fail("two threads", "another answer");
}

int main(void)
{
    results();
    modes();
    refusals();
    longest();
    overlaps();
    threads();
    printf(LANGUAGE ": optlines_tidy: %d calls, %d failures\n", calls, failures);
    return failures != 0;
}
