/*
 * Calls the library with whatever libFuzzer makes, and looks at the answer and at every lent byte (include/optlines.h): the first pair of functions, or,
 * compiled with -DLARGE, the second. Where a text is within the limits of the first pair, the second must give what the first does.
 *
 * Of an input the first bytes choose the entry, the mode, the form and the lengths, the others, over and over, are the text. Every buffer that is
 * lent ends at a page that cannot be read or written, so that a step beyond its end ends the run; the text's pages cannot be written.
 */
#define _GNU_SOURCE
#include <optlines.h>
#include <stdio.h>
#include <stdlib.h>
#include <string.h>
#include <sys/mman.h>
#include <unistd.h>

/* A kind of work buffer: elements as stated, the bytes of one. */
struct kind {
    size_t stated, unit;
};

#ifdef LARGE
enum { MOST = OPTLINES_LARGE_TEXT, MOST_LINES = OPTLINES_LARGE_LINES, MOST_RECORDS = OPTLINES_LARGE_RECORDS, WORK = 18 };
#define BYTES { OPTLINES_LARGE_BYTES, 1 }
#define NOTES { OPTLINES_LARGE_NOTES, sizeof(uint32_t) }
#define LINES { OPTLINES_LARGE_LINES, sizeof(size_t) }
#define PLACES { OPTLINES_LARGE_PLACES, sizeof(size_t) }
static const struct kind kinds[WORK] = { BYTES, BYTES, BYTES, BYTES, BYTES, { OPTLINES_LARGE_PLACES, 1 }, { OPTLINES_LARGE_PLACES, 1 },
    { OPTLINES_LARGE_LINES, 1 }, { OPTLINES_LARGE_BLOCKS, sizeof(uint32_t) }, NOTES, NOTES, NOTES, LINES, LINES, PLACES, PLACES,
    { OPTLINES_LARGE_OWNERS, sizeof(size_t) }, LINES };
#else
enum { MOST = OPTLINES_TEXT, MOST_LINES = OPTLINES_LINES, MOST_RECORDS = OPTLINES_RECORDS, WORK = 6 };
#define BYTES { OPTLINES_BYTES, 1 }
static const struct kind kinds[WORK] = { BYTES, BYTES, BYTES, BYTES, BYTES, { OPTLINES_BLOCKS, sizeof(uint32_t) } };
#endif

enum { MORE = 3, ROOM = 2 * MOST, LONGEST = MOST + 64 };
/* The bytes of an input before the text. */
enum { PASS, MODE, SHORTER, ROOM_OF, ROOM_TIMES, RECORDS_OF, FORM, TIMES, HEAD };
/* What RECORDS_OF says of the record buffer: room for all texts, just enough, one byte less; else so many times 33 bytes. */
enum { ALL_RECORDS = 255, JUST_RECORDS = 254, LESS_RECORDS = 253, SOME_RECORDS = 33 };
/* Passes and modes that are asked for: those that there are, and some that there are not. */
enum { PASSES = 9, MODES = 6, FORMS = 2 };
/* What TIMES says of the text: just as long as may be, and longer; else how often the input's stands in it, by the square. */
enum { FULL = 254, TOO_FULL = 255 };

/* A lent buffer: as many bytes, at the end of its pages. */
struct lent {
    uint8_t *pages, *from;
    size_t pages_size, size;
};

static struct lent work[WORK], out, orig, text;

/* What was chosen of this input. */
static size_t pass, mode, form, shorter, lines;

static void fail(const char *what)
{
    fprintf(stderr, "fuzz: %s\n", what);
    abort();
}

static void map(struct lent *l, size_t most)
{
    size_t page = (size_t)sysconf(_SC_PAGESIZE);
    l->pages_size = (most + page - 1) / page * page;
    l->pages = mmap(NULL, l->pages_size + page, PROT_READ | PROT_WRITE, MAP_PRIVATE | MAP_ANONYMOUS, -1, 0);
    if (l->pages == MAP_FAILED || mprotect(l->pages + l->pages_size, page, PROT_NONE) != 0)
        fail("no memory");
}

static void lend(struct lent *l, size_t size, uint8_t fill)
{
    l->size = size;
    l->from = l->pages + l->pages_size - size;
    memset(l->pages, fill, l->pages_size);
}

static void is_filled(const uint8_t *from, const uint8_t *to, uint8_t fill, const char *what)
{
    if (from < to && (*from != fill || memcmp(from, from + 1, (size_t)(to - from) - 1) != 0))
        fail(what);
}

static uint8_t call(size_t *length, size_t *place)
{
#define AS(type, k) (type *)(void *)work[k].from, work[k].size / sizeof(type)
#define FIVE text.from, text.size, AS(uint8_t, 0), AS(uint8_t, 1), AS(uint8_t, 2), AS(uint8_t, 3), AS(uint8_t, 4)
#define LAST out.from, out.size, orig.from, orig.size, length, place
#ifdef LARGE
#define LENT FIVE, AS(uint8_t, 5), AS(uint8_t, 6), AS(uint8_t, 7), AS(uint32_t, 8), AS(uint32_t, 9), AS(uint32_t, 10), AS(uint32_t, 11), \
    AS(size_t, 12), AS(size_t, 13), AS(size_t, 14), AS(size_t, 15), AS(size_t, 16), AS(size_t, 17), LAST
    return pass == 0 ? optlines_optimize_large(mode, form, LENT) : optlines_run_pass_large(pass, mode, form, LENT);
#else
#define LENT FIVE, AS(uint32_t, 5), LAST
    return pass == 0 ? optlines_optimize(mode, LENT) : optlines_run_pass(pass, mode, LENT);
#endif
}

/* The line of the text that a record says. */
static size_t own_line(const uint8_t *record)
{
    size_t low = record[2] | (size_t)record[3] << 8;
    return form == OPTLINES_OL ? low : low | (size_t)record[4] << 16 | (size_t)record[5] << 24;
}

/* The records of a text: one for each line, those that are kept in order, and no line beyond them. */
static void look_at_records(void)
{
    size_t kept = 0, furthest = 0, gone = form == OPTLINES_OL ? OPTLINES_NO_LINE : OPTLINES_LARGE_NO_LINE;
    for (size_t i = 0; i < lines; i++) {
        const uint8_t *record = orig.from + optlines_record_size(form) * i;
        size_t line = optlines_line_in(form, orig.from, i);
        uint8_t fate = optlines_fate_in(form, orig.from, i);
        if (record[0] != 'O' || record[1] != (form == OPTLINES_OL ? 'L' : 'M') || own_line(record) != i || fate > OPTLINES_GONE)
            fail("no record");
        if ((fate == OPTLINES_GONE) != (line == gone))
            fail("a fate and a line that disagree");
        if (fate <= OPTLINES_CHANGED && line != kept++)
            fail("a kept line out of order");
        if (fate == OPTLINES_INSIDE && line >= furthest)
            furthest = line + 1;
    }
    if (furthest > kept)
        fail("a value in a line that is not there");
}

/* Every lent byte after an answer. */
static void look(uint8_t number, size_t length, uint8_t fill)
{
    int ran = number == OPTLINES_DONE || number == OPTLINES_SHORT_RESULT || number == OPTLINES_SHORT_RECORDS;
    size_t told = number == OPTLINES_DONE ? optlines_record_size(form) * lines : 0;
    for (int k = 0; k < WORK; k++) {
        const uint8_t *end = work[k].from + work[k].size, *used = ran ? work[k].from + kinds[k].stated * kinds[k].unit : work[k].from;
        is_filled(work[k].pages, work[k].from, fill, "written before a work buffer");
        is_filled(work[k].from, used, 0, "a work buffer is not 0");
        is_filled(used, end, fill, "a work buffer is changed");
    }
    is_filled(out.pages, out.from, fill, "written before the result buffer");
    is_filled(out.from + length, out.from + out.size, fill, "the result buffer is changed behind the result");
    is_filled(orig.pages, orig.from, fill, "written before the record buffer");
    if (told > 0)
        look_at_records();
    is_filled(orig.from + told, orig.from + orig.size, fill, "the record buffer is changed behind the records");
}

/* The answer is one of the table. */
static void judge(uint8_t number, size_t length, size_t place)
{
    enum { LAST_BYTE = MOST - 1, OL_LINES = OPTLINES_OL_LINES };
    size_t need = optlines_record_size(form) * lines;
    const size_t least[14] = {0, 0, MOST, 0, 0, MOST_LINES, 0, out.size + 1, need, 0, 0, 0, 0, OL_LINES};
    const size_t most[14] = {0, 0, MOST, 0, LAST_BYTE, MOST_LINES, MOST_LINES - 1, ROOM, need, LAST_BYTE, LAST_BYTE, LAST_BYTE, 0, OL_LINES};
    if (number > OPTLINES_WIDE_LINES || place < least[number] || place > most[number])
        fail("no answer of the table");
    if ((number == OPTLINES_DONE && need > orig.size) || (number == OPTLINES_SHORT_RECORDS && need <= orig.size))
        fail("the record buffer is misjudged");
    if (length > out.size || length > 2 * text.size || (number != OPTLINES_DONE && length != 0))
        fail("a length that cannot be");
    if ((number == OPTLINES_BAD_PASS) != (pass > 6))
        fail("the pass is misjudged");
    if (pass > 6)
        return;
    if ((number == OPTLINES_BAD_MODE) != (mode > OPTLINES_STRICT_JOINED))
        fail("the mode is misjudged");
    if (mode > OPTLINES_STRICT_JOINED)
        return;
    if ((number == OPTLINES_TOO_LONG) != (text.size > MOST))
        fail("the length of the text is misjudged");
    if (text.size <= MOST && (number == OPTLINES_SHORT_WORK) != (shorter > 0 && shorter <= WORK))
        fail("the length of a work buffer is misjudged");
}

/* The lines of a text that is not refused before they are counted. */
static void judge_lines(uint8_t number)
{
    int counted = number == OPTLINES_DONE || (number >= OPTLINES_TOO_MANY_LINES && number <= OPTLINES_SHORT_RECORDS)
        || number == OPTLINES_WIDE_LINES;
    int wide = form == OPTLINES_OL && lines > OPTLINES_OL_LINES;
    if (counted && (number == OPTLINES_TOO_MANY_LINES) != (lines > MOST_LINES))
        fail("the lines are misjudged");
    if (counted && lines <= MOST_LINES && (number == OPTLINES_WIDE_LINES) != wide)
        fail("the lines of the form are misjudged");
}

/* How much of the record buffer is lent. */
static size_t record_room(uint8_t said)
{
    size_t need = optlines_record_size(form) * lines;
    if (need > MOST_RECORDS || said == ALL_RECORDS)
        return MOST_RECORDS;
    if (said >= LESS_RECORDS)
        return said == LESS_RECORDS && need > 0 ? need - 1 : need;
    return (size_t)said * SOME_RECORDS % (MOST_RECORDS + 1);
}

/* One call in buffers full of one byte. */
static uint8_t turn(const uint8_t *head, uint8_t fill, size_t *length, size_t *place)
{
    for (size_t k = 0; k < WORK; k++) {
        size_t elements = kinds[k].stated + (shorter == k + 1 ? (size_t)-1 : shorter % (MORE + 1));
        lend(&work[k], elements * kinds[k].unit, fill);
    }
    lend(&out, head[ROOM_OF] == 255 ? ROOM : (size_t)head[ROOM_OF] * head[ROOM_TIMES] % (ROOM + 1), fill);
    lend(&orig, record_room(head[RECORDS_OF]), fill);
    *length = *place = 12345;
    uint8_t number = call(length, place);
    judge(number, *length, *place);
    judge_lines(number);
    look(number, *length, fill);
    return number;
}

#ifdef LARGE
/* What the first pair says of a text that it takes, or of damage in it. */
static void same_as_first(uint8_t number, size_t length, size_t place)
{
    static struct optlines_work first;
    int damaged = number == OPTLINES_NOT_UTF8 || number == OPTLINES_CROWDED || (number >= OPTLINES_CUT && number <= OPTLINES_OUTSIDE);
    if (text.size > OPTLINES_TEXT || lines > OPTLINES_LINES || !(damaged || number == OPTLINES_DONE))
        return;
    if (optlines_tidy(&first, pass, mode, text.from, text.size) != number || first.length != length || first.place != place
        || memcmp(first.out, out.from, length) != 0)
        fail("the first pair says something else");
    for (size_t i = 0; i < first.records; i++) {
        size_t line = optlines_line(first.orig, i), own = optlines_line_in(form, orig.from, i);
        uint8_t fate = optlines_fate(first.orig, i);
        if (fate != optlines_fate_in(form, orig.from, i) || (fate != OPTLINES_GONE && line != own))
            fail("the first pair tells other records");
    }
}
#endif

/* How long the text of an input is: that of the input so many times over, as often as it fits; or just as long as a text may be, or longer. */
static size_t text_size(size_t length, size_t times)
{
    if (length == 0 || times == FULL)
        return length == 0 ? 0 : MOST;
    if (times == TOO_FULL || length > LONGEST)
        return LONGEST;
    return length * (1 + times * times) <= MOST ? length * (1 + times * times) : length > MOST ? length : MOST / length * length;
}

static void take_text(const uint8_t *data, size_t length, size_t times)
{
    mprotect(text.pages, text.pages_size, PROT_READ | PROT_WRITE);
    lend(&text, text_size(length, times), 0);
    for (size_t at = 0; at < text.size; at += length)
        memcpy(text.from + at, data, text.size - at < length ? text.size - at : length);
    mprotect(text.pages, text.pages_size, PROT_READ);
    lines = optlines_lines(text.from, text.size);
}

int LLVMFuzzerTestOneInput(const uint8_t *data, size_t size)
{
    static uint8_t first[ROOM], first_orig[MOST_RECORDS];
    size_t length, place, length2, place2;
    if (size < HEAD)
        return 0;
    if (text.pages == NULL) {
        for (int k = 0; k < WORK; k++)
            map(&work[k], (kinds[k].stated + MORE) * kinds[k].unit);
        map(&out, ROOM);
        map(&orig, MOST_RECORDS);
        map(&text, LONGEST);
    }
    pass = data[PASS] % PASSES;
    mode = data[MODE] % MODES;
    shorter = data[SHORTER];
#ifdef LARGE
    form = data[FORM] % FORMS;
#endif
    take_text(data + HEAD, size - HEAD, data[TIMES]);
    uint8_t number = turn(data, 0xA5, &length, &place);
    size_t told = number == OPTLINES_DONE ? optlines_record_size(form) * lines : 0;
    memcpy(first, out.from, length);
    memcpy(first_orig, orig.from, told);
    uint8_t number2 = turn(data, 0x3C, &length2, &place2);
    if (number != number2 || length != length2 || place != place2 || memcmp(first, out.from, length) != 0
        || memcmp(first_orig, orig.from, told) != 0)
        fail("what stood in the buffers changes the answer");
#ifdef LARGE
    same_as_first(number, length, place);
#endif
    return 0;
}
