/* Calls optpo_write and optpo_read: each answer, every byte of what is lent, with and without an index. */
#include "optpo.h"
#include <stdio.h>
#include <stdlib.h>
#include <string.h>

enum { ROOM = 1 << 16, SLOTS = 64, KEPT = 0xA5 };

static int failed;
static uint8_t out[ROOM];
static size_t slots[SLOTS];
static size_t length, place;

static void expect(int held, const char *what)
{
    if (held)
        return;
    fprintf(stderr, "po.c: %s\n", what);
    failed = 1;
}

/* How many bytes from a place on are not as they were before the call. */
static size_t changed(size_t from)
{
    size_t n = 0, i;
    for (i = from; i < ROOM; i++)
        n += out[i] != KEPT;
    return n;
}

/* Whether all numbers of the index are this one. */
static int all(size_t n, size_t number)
{
    size_t i;
    for (i = 0; i < n; i++)
        if (slots[i] != number)
            return 0;
    return 1;
}

static void fill(void)
{
    size_t i;
    memset(out, KEPT, sizeof out);
    for (i = 0; i < SLOTS; i++)
        slots[i] = 7;
    length = place = 99;
}

static uint8_t write_in(const char *name, const char *text, size_t index, size_t room)
{
    fill();
    return optpo_write((const uint8_t *)name, strlen(name), (const uint8_t *)text, strlen(text),
        index ? slots : NULL, index, out, room, &length, &place);
}

static uint8_t read_in(const char *file, size_t n, size_t index, size_t room)
{
    fill();
    return optpo_read((const uint8_t *)file, n, index ? slots : NULL, index, out, room, &length, &place);
}

static const char listing[] = "say(\"hello\"); // \"no\"\nr1 = 'it\\'s'; x(\"hello\", \"\");\ny('a\tb');\n";

static const char file[] = "msgid \"\"\nmsgstr \"\"\n\"Content-Type: text/plain; charset=UTF-8\\n\"\n"
    "\n#: f.txt:1\nmsgid \"hello\"\nmsgstr \"\"\n\n#: f.txt:2\nmsgid \"it's\"\nmsgstr \"\"\n"
    "\n#: f.txt:3\nmsgid \"a\\tb\"\nmsgstr \"\"\n";

static const char given[] = "\5\0\0\0\0\0\0\0hello\0\0\0\0\0\0\0\0\4\0\0\0\0\0\0\0it's\0\0\0\0\0\0\0\0"
    "\3\0\0\0\0\0\0\0a\tb\0\0\0\0\0\0\0\0";

static void writes(size_t index)
{
    size_t n = sizeof file - 1;
    expect(write_in("f.txt", listing, index, ROOM) == OPTPO_DONE, "the listing is written");
    expect(length == n && place == 0 && memcmp(out, file, n) == 0, "the file, to the byte");
    expect(changed(n) == 0 && all(index, 0), "what follows it is as it was, and the index is 0");
    expect(write_in("f.txt", listing, index, n - 1) == OPTPO_SHORT, "a byte too few");
    expect(length == 0 && place == n && changed(0) == 0 && all(index, 0), "the length needed");
    expect(write_in("f.txt", listing, index, n) == OPTPO_DONE && length == n, "just enough");
}

static void refused(const char *name, const char *text, uint8_t number, size_t at, size_t index)
{
    expect(write_in(name, text, index, ROOM) == number && length == 0 && place == at, text);
    expect(changed(0) == 0 && all(index, 7), "a refusal leaves all as it was");
}

static void refuses(size_t index)
{
    refused("", listing, OPTPO_BAD_NAME, 0, index);
    refused("a b", listing, OPTPO_BAD_NAME, 1, index);
    refused("a\xE3\x80\x80", listing, OPTPO_BAD_NAME, 1, index);
    refused("f", "ab\xFF", OPTPO_NOT_UTF8, 2, index);
    refused("f", "x = \"a\\q\";", OPTPO_OTHER_ESCAPE, 6, index);
    refused("f", "x = \"a\n\"\\q\"", OPTPO_OPEN, 4, index);
}

static void reads(size_t index)
{
    size_t n = sizeof given - 1;
    expect(read_in(file, sizeof file - 1, index, ROOM) == OPTPO_DONE, "the file is read");
    expect(length == n && place == 0 && memcmp(out, given, n) == 0, "what it gives");
    expect(changed(n) == 0 && all(index, 0), "what follows is as it was, and the index is 0");
    expect(read_in(file, sizeof file - 1, index, n - 1) == OPTPO_SHORT && place == n, "too short");
    expect(length == 0 && changed(0) == 0 && all(index, 0), "nothing is given then");
    expect(read_in(file, sizeof file - 2, index, ROOM) == OPTPO_BAD_LINE && place == 14, "no LF");
    expect(length == 0 && changed(0) == 0 && all(index, 0), "nor of a line that is not of the form");
    expect(read_in("", 0, index, ROOM) == OPTPO_BAD_LINE && place == 0, "the empty file");
}

/* Listings of literals that are often the same, at random: with an index of any length the answer is as without. */
static void agrees(unsigned seed)
{
    static uint8_t plain[ROOM];
    static const char *const some[] = {
        "\"a\"", "'a'", "\"b\\n\"", "\"\"", "'\"'", "\"\\\"\"", "/a\"b/", "`\"`", "\n", " "
    };
    char text[512] = "";
    size_t k, m, n, index;
    uint8_t number;
    srand(seed);
    for (k = 0; k < 40; k++) {
        strcat(text, some[(size_t)rand() % (sizeof some / sizeof *some)]);
        strcat(text, rand() % 3 ? "," : "c");
    }
    number = write_in("f", text, 0, ROOM);
    n = length, m = place;
    memcpy(plain, out, ROOM);
    index = (size_t)rand() % SLOTS + 1;
    expect(write_in("f", text, index, ROOM) == number && length == n && place == m, "the same answer");
    expect(memcmp(plain, out, ROOM) == 0, "the same file");
    if (number == OPTPO_DONE)
        expect(read_in((const char *)plain, n, index, ROOM) == OPTPO_DONE, "it is read");
}

int main(void)
{
    static const size_t rooms[] = { 0, 1, 2, 5, SLOTS };
    size_t i;
    unsigned seed;
    for (i = 0; i < sizeof rooms / sizeof *rooms; i++) {
        writes(rooms[i]);
        refuses(rooms[i]);
        reads(rooms[i]);
    }
    for (seed = 1; seed <= 20000; seed++)
        agrees(seed);
    if (!failed)
        puts("tests/c/po.c: all passed");
    return failed;
}
