/*
 * optlines.h - tidy register listings
 *
 * NAME
 *     optlines_tidy - run all passes, or one, in buffers that are kept together
 *     optlines_optimize, optlines_run_pass - the same in buffers that are lent one by one
 *     optlines_tidy_large - the same as optlines_tidy for larger texts
 *     optlines_optimize_large, optlines_run_pass_large - and in buffers that are lent one by one
 *     optlines_lines, optlines_fate, optlines_line - the lines of a text, what a record says
 *     optlines_record_size, optlines_fate_in, optlines_line_in - the same for records of any form
 *
 * LINKING
 *     The library is for x86-64 Linux. Installed (`make lib`, `make install`):
 *
 *         cc program.c $(pkg-config --cflags --libs optlines)
 *
 *     From the repository, where `tools/built capi` has written the archive:
 *
 *         cc program.c -Iinclude target/staticlib/libcapi.a
 *
 * DESCRIPTION
 *     All passes: the lines that declare globals to the runtime go, the six passes run in their
 *     order, and the tidy text is written to the result buffer. Beside it the origins are written
 *     to the record buffer: where each line of the text went. One pass runs alone, and no line goes
 *     before it:
 *
 *         1  prune_dead_temps      4  rebuild_calls
 *         2  optimize_once         5  prune_decls
 *         3  prune_dead_phis       6  bind_declarators
 *
 *     optlines_tidy() takes the number of a pass, or 0 for all passes, and works in a struct
 *     optlines_work, which has every buffer in it. optlines_optimize() runs all passes and
 *     optlines_run_pass() one, in buffers of the caller's own.
 *
 *     The mode says how passes 1, 2 and 3 judge a value, and how passes 4 and 6 read the lines
 *     around a statement; pass 5 does the same in each.
 *
 *         0 OPTLINES_PLAIN   as the original: "a" + f() + "b" counts as one string, and a store of
 *                            it goes, with its call, where nothing reads it; each line is read by
 *                            itself
 *         1 OPTLINES_STRICT  a value in quotes is a string only where its opening quote is closed
 *                            by its last character; what stands in quotes is no comment
 *         2 OPTLINES_JOINED  a template in backticks and a block comment may run over lines: the
 *                            braces in them open and close no block
 *         3 OPTLINES_STRICT_JOINED  both
 *
 *     None of them allocates, keeps anything between calls, or reads or writes memory other than
 *     what is lent to it and its stack.
 *
 * STACK AND THREADS
 *     A thread needs OPTLINES_STACK bytes of stack left when it calls. Every call that was measured
 *     took less, with a margin (tests/stack); nothing proves it. The stacks that Linux gives to
 *     threads by default have room for it, smaller ones may not.
 *
 *     Any number of threads may call at once, each with a struct, or with lent buffers, of its own.
 *     They may share a text that none of them writes.
 *
 * RECORDS
 *     The records of a text are a record file of the form OL, which include/optrecords.h reads. A
 *     record has OPTLINES_RECORD bytes, and there is one for each line of the text, in order:
 *
 *         bytes   what
 *         0, 1    the mark, `O` and `L`
 *         2, 3    the line of the text, low byte first
 *         4       its fate
 *         5, 6    the line of the result, low byte first
 *
 *         fate                 the line of the text                 the line of the result
 *         0 OPTLINES_EQUAL     is kept with equal bytes             the one that it stands as
 *         1 OPTLINES_CHANGED   is kept with other bytes             the one that it stands as
 *         2 OPTLINES_INSIDE    has its value in another line        the one that finally holds it
 *         3 OPTLINES_GONE      is gone                              OPTLINES_NO_LINE, 65,535
 *
 *     Lines count from 0: those of the text before any removal, without LF and without a CR just
 *     before it; those of the result before they are joined. Every line of the result is the line
 *     of just one record of the fates 0 and 1, and may be that of any number of the fate 2. Where
 *     the line that took a value goes too, the fate is 3. Kept with equal bytes or with others is
 *     told by the text and the result alone, not by what the passes did on the way.
 *
 *     A text has a line for each LF, and one more where something stands behind the last LF:
 *     optlines_lines() counts them. A text of no bytes has no lines and no records.
 *     optlines_fate() and optlines_line() read what record i of a record buffer says.
 *
 * ONE STRUCT FOR ALL BUFFERS
 *     A struct optlines_work is some 263 KiB: keep it static or allocate it. It needs no setup,
 *     what stands in it before a call does not matter, and it may be used again and again. After a
 *     call the result is in work->out, of the length work->length, the records are in work->orig,
 *     work->records of them, and the place of a refusal is in work->place. A refusal has the length
 *     0 and no records. The buffers are as long as stated and lie apart, so that nothing can be
 *     lent too short or twice: OPTLINES_SHORT_WORK, OPTLINES_SHORT_RESULT and
 *     OPTLINES_SHORT_RECORDS do not occur.
 *
 *     The text must lie outside *work, since the buffers are written while it is read; it is the
 *     caller's fault where it does not. Then optlines_tidy() answers OPTLINES_OVERLAP and writes
 *     nothing but work->length, work->records and work->place, which are 0. So to run a pass over a
 *     result, copy the result first.
 *
 * BUFFERS LENT ONE BY ONE
 *     Every buffer is a pointer and then its length, counted in elements.
 *
 *         text    the listing, only read: any bytes
 *         a to e  work buffers of bytes, each of at least OPTLINES_BYTES
 *         u       a work buffer of 32-bit numbers, of at least OPTLINES_BLOCKS
 *         out     the result buffer. No result is longer than twice its text, so 2 * text_length is
 *                 always enough
 *         orig    the record buffer, of OPTLINES_RECORD bytes for each line of the text;
 *                 OPTLINES_RECORDS, 7,168, are always enough
 *         length  where the length of the result is stored
 *         place   where the place of a refusal is stored
 *
 *     What stands in a work buffer, in the result buffer or in the record buffer before a call does
 *     not matter.
 *
 *     The caller sees to the following, and nothing checks it. Each pointer points to as many
 *     elements as its length says, and is aligned for them. None of a to e, u, out, orig, length
 *     and place overlaps any other thing that is lent: where out is a, for one, the answer is
 *     OPTLINES_DONE and the result is lost. A pointer whose length is 0 is not followed, and may be
 *     null. length and place are always followed.
 *
 * RETURN VALUE
 *     A number, with a length and a place stored. For a refusal the length is 0.
 *
 *         number                     when, checked in this order           place
 *         0 OPTLINES_DONE            result and records are written        0
 *         1 OPTLINES_BAD_PASS        pass is not 1 to 6 (optlines_tidy:    0
 *                                    not 0 to 6; optlines_optimize: never)
 *        12 OPTLINES_BAD_MODE        mode is not 0 to 3                    0
 *         2 OPTLINES_TOO_LONG        text is longer than 16,384 bytes      16384
 *         3 OPTLINES_SHORT_WORK      a to e or u is shorter than stated    0
 *         4 OPTLINES_NOT_UTF8        text is not UTF-8 (RFC 3629), and     first byte of the first
 *                                    none of 9, 10 and 11 says why         bad sequence, from 0
 *         9 OPTLINES_CUT             text ends within a character          that character, as for 4
 *        10 OPTLINES_OVERLONG        text has an overlong form             as for 4
 *        11 OPTLINES_OUTSIDE         text has a surrogate, or a value      as for 4
 *                                    above U+10FFFF
 *         5 OPTLINES_TOO_MANY_LINES  more than 1,024 lines                 1024
 *         6 OPTLINES_CROWDED         a line with more than 64 bytes '['    that line, from 0
 *         7 OPTLINES_SHORT_RESULT    out is shorter than the result        the length it needs
 *         8 OPTLINES_SHORT_RECORDS   orig is shorter than OPTLINES_RECORD  the length it needs
 *                                    bytes for each line of the text
 *
 *         255 OPTLINES_OVERLAP       text lies in *work (optlines_tidy     0
 *                                    alone, which checks it first of all)
 *
 *     So a text that is too long and not UTF-8 gets 2, and one whose result and records both lack
 *     room gets 7. The length is that of the result; the records take OPTLINES_RECORD bytes for
 *     each line of the text, and lines that go have one too. The numbers 4, 9, 10 and 11 exclude
 *     one another: they tell of the first bad sequence. A well-formed text that was cut anywhere
 *     gets none of 4, 10 and 11; so after 9 the whole text is to be asked for again, and after the
 *     others it is damaged, or in another encoding. Nothing else is refused. A later release may
 *     have more numbers, so treat every number but 0 as a refusal.
 *
 * LARGER TEXTS
 *     optlines_tidy_large(), optlines_optimize_large() and optlines_run_pass_large() take texts of
 *     up to OPTLINES_LARGE_TEXT bytes and OPTLINES_LARGE_LINES lines, and write records in the form
 *     that the caller asks for. To a text that the others take they give the same result.
 *
 *         0 OPTLINES_OL   the form above, with 2 bytes for each line
 *         1 OPTLINES_OM   the mark `O` and `M`, and 4 bytes for each line, low byte first
 *
 *     Any number but 0 asks for OM. There a record has OPTLINES_LARGE_RECORD bytes: the line of the
 *     text stands in bytes 2 to 5, the fate in byte 6 and the line of the result in bytes 7 to 10.
 *     It is OPTLINES_LARGE_NO_LINE, 4,294,967,295, for a gone line. optlines_record_size() says how
 *     long a record of a form is, optlines_fate_in() and optlines_line_in() what record i says.
 *     include/optrecords.h reads files of either form.
 *
 *     The numbers are those above, with these in their places:
 *
 *         number                     when                                  place
 *         2 OPTLINES_TOO_LONG        text is longer than 1,048,576 bytes   1048576
 *         3 OPTLINES_SHORT_WORK      one of the eighteen work buffers is   0
 *                                    shorter than stated
 *         5 OPTLINES_TOO_MANY_LINES  more than 100,000 lines               100000
 *        13 OPTLINES_WIDE_LINES      the form is OL, and text has more     65535
 *                                    than OPTLINES_OL_LINES lines
 *         8 OPTLINES_SHORT_RECORDS   orig is shorter than 7 bytes for      the length it needs
 *                                    each line in OL, 11 in OM
 *
 *     13 is checked after 5 and before 6, and never answered for OM. It counts all lines of the
 *     text, also those that go.
 *
 *     A struct optlines_large has all buffers in it, 28,544,392 bytes: keep it static or
 *     allocate it, and do not put it on a stack. What is said above of a struct optlines_work holds
 *     for it. Lent one by one there are eighteen work buffers:
 *
 *         buffers       elements of     at least                 bytes of each
 *         a to e        uint8_t         OPTLINES_LARGE_BYTES     2,097,153
 *         f, g          uint8_t         OPTLINES_LARGE_PLACES      262,143
 *         h             uint8_t         OPTLINES_LARGE_LINES       100,000
 *         u             uint32_t        OPTLINES_LARGE_BLOCKS    4,194,304
 *         v, w, x       uint32_t        OPTLINES_LARGE_NOTES       800,000
 *         p, q          size_t          OPTLINES_LARGE_LINES       800,000
 *         r, t          size_t          OPTLINES_LARGE_PLACES    2,097,144
 *         own           size_t          OPTLINES_LARGE_OWNERS    1,048,568
 *         table         size_t          OPTLINES_LARGE_LINES       800,000
 *
 *     out is as above; for orig OPTLINES_LARGE_RECORDS bytes, 1,100,000, are always enough. A call
 *     writes to the stated part of each work buffer, whatever the length of the text: where the
 *     others take a text, they are faster.
 *
 * MEMORY AFTER A CALL
 *         number   out, orig                                  each work buffer
 *         0        the result, the records, and behind each   0 as far as its stated size, the
 *                  what stood there before                    rest as before
 *         7, 8     as before                                  the same as after 0
 *         others   as before                                  as before
 *
 * WHAT IS PROVED
 *     The answer and every lent byte of optlines_optimize, optlines_run_pass,
 *     optlines_optimize_large and optlines_run_pass_large, as above, for all arguments that meet
 *     what is said under BUFFERS LENT ONE BY ONE: the contracts of crate capi (docs/CONTRACTS.md).
 *     This file, and with it each inline function, is not part of the proof; tests/bindings calls
 *     what it declares, from C and C++.
 *
 * EXAMPLE
 *     #include <optlines.h>
 *     #include <stdio.h>
 *
 *     static struct optlines_work work;
 *     static uint8_t text[OPTLINES_TEXT + 1];
 *
 *     int main(void)
 *     {
 *         size_t length = fread(text, 1, sizeof text, stdin);
 *         if (ferror(stdin))
 *             return 2;
 *
 *         uint8_t number = optlines_tidy(&work, 0, OPTLINES_PLAIN, text, length);
 *         if (number != OPTLINES_DONE) {
 *             fprintf(stderr, "refused %d %zu\n", number, work.place);
 *             return 1;
 *         }
 *         size_t written = fwrite(work.out, 1, work.length, stdout);
 *         return written == work.length && fflush(stdout) == 0 ? 0 : 2;
 *     }
 *
 * EXAMPLE WITH LENT BUFFERS
 *     #include <optlines.h>
 *     #include <stdio.h>
 *
 *     static uint8_t text[OPTLINES_TEXT + 1], bytes[5][OPTLINES_BYTES], out[2 * OPTLINES_TEXT];
 *     static uint8_t orig[OPTLINES_RECORDS];
 *     static uint32_t blocks[OPTLINES_BLOCKS];
 *
 *     int main(void)
 *     {
 *         size_t text_length = fread(text, 1, sizeof text, stdin), length, place;
 *         if (ferror(stdin))
 *             return 2;
 *
 *         uint8_t number = optlines_optimize(OPTLINES_PLAIN, text, text_length,
 *             bytes[0], OPTLINES_BYTES, bytes[1], OPTLINES_BYTES, bytes[2], OPTLINES_BYTES,
 *             bytes[3], OPTLINES_BYTES, bytes[4], OPTLINES_BYTES, blocks, OPTLINES_BLOCKS,
 *             out, sizeof out, orig, sizeof orig, &length, &place);
 *         if (number != OPTLINES_DONE) {
 *             fprintf(stderr, "refused %d %zu\n", number, place);
 *             return 1;
 *         }
 *         return fwrite(out, 1, length, stdout) == length && fflush(stdout) == 0 ? 0 : 2;
 *     }
 *
 * EXAMPLE WITH RECORDS
 *     #include <optlines.h>
 *     #include <stdio.h>
 *
 *     static struct optlines_work work;
 *     static uint8_t text[OPTLINES_TEXT + 1];
 *
 *     int main(void)
 *     {
 *         size_t length = fread(text, 1, sizeof text, stdin);
 *         if (ferror(stdin))
 *             return 2;
 *
 *         if (optlines_tidy(&work, 0, OPTLINES_PLAIN, text, length) != OPTLINES_DONE)
 *             return 1;
 *         for (size_t i = 0; i < work.records; i++)
 *             if (optlines_fate(work.orig, i) == OPTLINES_GONE)
 *                 printf("line %zu is gone\n", i);
 *             else
 *                 printf("line %zu is in line %zu\n", i, optlines_line(work.orig, i));
 *         return fflush(stdout) == 0 ? 0 : 2;
 *     }
 *
 * EXAMPLE WITH A LARGER TEXT
 *     #include <optlines.h>
 *     #include <stdio.h>
 *     #include <stdlib.h>
 *
 *     static uint8_t text[OPTLINES_LARGE_TEXT + 1];
 *
 *     int main(void)
 *     {
 *         struct optlines_large *work = malloc(sizeof *work);
 *         size_t length = fread(text, 1, sizeof text, stdin);
 *         if (work == NULL || ferror(stdin))
 *             return 2;
 *
 *         uint8_t number = optlines_tidy_large(work, 0, OPTLINES_PLAIN, OPTLINES_OM, text, length);
 *         if (number != OPTLINES_DONE) {
 *             fprintf(stderr, "refused %d %zu\n", number, work->place);
 *             return 1;
 *         }
 *         size_t written = fwrite(work->out, 1, work->length, stdout);
 *         return written == work->length && fflush(stdout) == 0 ? 0 : 2;
 *     }
 */
#ifndef OPTLINES_H
#define OPTLINES_H

#include <stddef.h>
#include <stdint.h>

#ifdef __cplusplus
extern "C" {
#endif

/* The stated sizes of the work buffers: bytes of each of a to e, numbers of u. */
#define OPTLINES_BYTES 32769
#define OPTLINES_BLOCKS 16384

/* The limits: bytes of a text, lines of a text, bytes '[' of a line. */
#define OPTLINES_TEXT 16384
#define OPTLINES_LINES 1024
#define OPTLINES_BRACKETS 64

/* The bytes of a record, bytes of records that are always enough, and the line of a gone line. */
#define OPTLINES_RECORD 7
#define OPTLINES_RECORDS 7168
#define OPTLINES_NO_LINE 65535

/* For larger texts: the limits, and the lines that the form OL has numbers for. */
#define OPTLINES_LARGE_TEXT 1048576
#define OPTLINES_LARGE_LINES 100000
#define OPTLINES_OL_LINES 65535

/* Their work buffers: bytes of each of a to e, numbers of u, of v, w and x, of own, and elements of
   f, g, r and t. h, p, q and table have an element for each line. */
#define OPTLINES_LARGE_BYTES 2097153
#define OPTLINES_LARGE_BLOCKS 1048576
#define OPTLINES_LARGE_NOTES 200000
#define OPTLINES_LARGE_OWNERS 131071
#define OPTLINES_LARGE_PLACES 262143

/* The forms of records, and of OM what OPTLINES_RECORD, _RECORDS and _NO_LINE are of OL. */
#define OPTLINES_OL 0
#define OPTLINES_OM 1
#define OPTLINES_LARGE_RECORD 11
#define OPTLINES_LARGE_RECORDS 1100000
#define OPTLINES_LARGE_NO_LINE 4294967295

/* The modes. */
#define OPTLINES_PLAIN 0
#define OPTLINES_STRICT 1
#define OPTLINES_JOINED 2
#define OPTLINES_STRICT_JOINED 3

/* Bytes of stack that are enough for a call. */
#define OPTLINES_STACK 139264

/* The numbers that are returned. */
enum {
    OPTLINES_DONE = 0,
    OPTLINES_BAD_PASS = 1,
    OPTLINES_TOO_LONG = 2,
    OPTLINES_SHORT_WORK = 3,
    OPTLINES_NOT_UTF8 = 4,
    OPTLINES_TOO_MANY_LINES = 5,
    OPTLINES_CROWDED = 6,
    OPTLINES_SHORT_RESULT = 7,
    OPTLINES_SHORT_RECORDS = 8,
    OPTLINES_CUT = 9,
    OPTLINES_OVERLONG = 10,
    OPTLINES_OUTSIDE = 11,
    OPTLINES_BAD_MODE = 12,
    OPTLINES_WIDE_LINES = 13,
    OPTLINES_OVERLAP = 255
};

/* The fates. */
enum {
    OPTLINES_EQUAL = 0,
    OPTLINES_CHANGED = 1,
    OPTLINES_INSIDE = 2,
    OPTLINES_GONE = 3
};

uint8_t optlines_optimize(
    size_t mode,
    const uint8_t *text, size_t text_length,
    uint8_t *a, size_t a_length,
    uint8_t *b, size_t b_length,
    uint8_t *c, size_t c_length,
    uint8_t *d, size_t d_length,
    uint8_t *e, size_t e_length,
    uint32_t *u, size_t u_length,
    uint8_t *out, size_t out_length,
    uint8_t *orig, size_t orig_length,
    size_t *length, size_t *place);

uint8_t optlines_run_pass(
    size_t pass, size_t mode,
    const uint8_t *text, size_t text_length,
    uint8_t *a, size_t a_length,
    uint8_t *b, size_t b_length,
    uint8_t *c, size_t c_length,
    uint8_t *d, size_t d_length,
    uint8_t *e, size_t e_length,
    uint32_t *u, size_t u_length,
    uint8_t *out, size_t out_length,
    uint8_t *orig, size_t orig_length,
    size_t *length, size_t *place);

uint8_t optlines_optimize_large(
    size_t mode, size_t form,
    const uint8_t *text, size_t text_length,
    uint8_t *a, size_t a_length,
    uint8_t *b, size_t b_length,
    uint8_t *c, size_t c_length,
    uint8_t *d, size_t d_length,
    uint8_t *e, size_t e_length,
    uint8_t *f, size_t f_length,
    uint8_t *g, size_t g_length,
    uint8_t *h, size_t h_length,
    uint32_t *u, size_t u_length,
    uint32_t *v, size_t v_length,
    uint32_t *w, size_t w_length,
    uint32_t *x, size_t x_length,
    size_t *p, size_t p_length,
    size_t *q, size_t q_length,
    size_t *r, size_t r_length,
    size_t *t, size_t t_length,
    size_t *own, size_t own_length,
    size_t *table, size_t table_length,
    uint8_t *out, size_t out_length,
    uint8_t *orig, size_t orig_length,
    size_t *length, size_t *place);

uint8_t optlines_run_pass_large(
    size_t pass, size_t mode, size_t form,
    const uint8_t *text, size_t text_length,
    uint8_t *a, size_t a_length,
    uint8_t *b, size_t b_length,
    uint8_t *c, size_t c_length,
    uint8_t *d, size_t d_length,
    uint8_t *e, size_t e_length,
    uint8_t *f, size_t f_length,
    uint8_t *g, size_t g_length,
    uint8_t *h, size_t h_length,
    uint32_t *u, size_t u_length,
    uint32_t *v, size_t v_length,
    uint32_t *w, size_t w_length,
    uint32_t *x, size_t x_length,
    size_t *p, size_t p_length,
    size_t *q, size_t q_length,
    size_t *r, size_t r_length,
    size_t *t, size_t t_length,
    size_t *own, size_t own_length,
    size_t *table, size_t table_length,
    uint8_t *out, size_t out_length,
    uint8_t *orig, size_t orig_length,
    size_t *length, size_t *place);

/* All that a call of optlines_tidy() writes. */
struct optlines_work {
    uint8_t bytes[5][OPTLINES_BYTES];
    uint32_t blocks[OPTLINES_BLOCKS];
    uint8_t out[2 * OPTLINES_TEXT];
    uint8_t orig[OPTLINES_RECORDS];
    size_t length;
    size_t records;
    size_t place;
};

/* All that a call of optlines_tidy_large() writes. */
struct optlines_large {
    uint8_t bytes[5][OPTLINES_LARGE_BYTES];
    uint8_t flags[2][OPTLINES_LARGE_PLACES];
    uint8_t line_flags[OPTLINES_LARGE_LINES];
    uint32_t blocks[OPTLINES_LARGE_BLOCKS];
    uint32_t notes[3][OPTLINES_LARGE_NOTES];
    size_t lines[2][OPTLINES_LARGE_LINES];
    size_t places[2][OPTLINES_LARGE_PLACES];
    size_t owners[OPTLINES_LARGE_OWNERS];
    size_t table[OPTLINES_LARGE_LINES];
    uint8_t out[2 * OPTLINES_LARGE_TEXT];
    uint8_t orig[OPTLINES_LARGE_RECORDS];
    size_t length;
    size_t records;
    size_t place;
};

/* How many lines a text has. */
static inline size_t optlines_lines(const uint8_t *text, size_t text_length)
{
    size_t lines = 0;
    for (size_t i = 0; i < text_length; i++)
        lines += text[i] == '\n' || i + 1 == text_length;
    return lines;
}

/* The fate that record i of a record buffer tells. */
static inline uint8_t optlines_fate(const uint8_t *orig, size_t i)
{
    return orig[OPTLINES_RECORD * i + 4];
}

/* The line of the result that record i of a record buffer tells. */
static inline size_t optlines_line(const uint8_t *orig, size_t i)
{
    const uint8_t *line = orig + OPTLINES_RECORD * i + 5;
    return line[0] | (size_t)line[1] << 8;
}

/* The bytes of a record of a form. */
static inline size_t optlines_record_size(size_t form)
{
    return form == OPTLINES_OL ? OPTLINES_RECORD : OPTLINES_LARGE_RECORD;
}

/* The fate that record i of a record buffer of a form tells. */
static inline uint8_t optlines_fate_in(size_t form, const uint8_t *orig, size_t i)
{
    return orig[optlines_record_size(form) * i + (form == OPTLINES_OL ? 4 : 6)];
}

/* The line of the result that record i of a record buffer of a form tells. */
static inline size_t optlines_line_in(size_t form, const uint8_t *orig, size_t i)
{
    const uint8_t *line = orig + OPTLINES_LARGE_RECORD * i + 7;
    if (form == OPTLINES_OL)
        return optlines_line(orig, i);
    return line[0] | (size_t)line[1] << 8 | (size_t)line[2] << 16 | (size_t)line[3] << 24;
}

/* Whether a text and so many bytes of work have one in common. */
static inline int optlines_common(
    const void *work, size_t size, const uint8_t *text, size_t text_length)
{
    uintptr_t from = (uintptr_t)work, at = (uintptr_t)text;
    if (text_length == 0)
        return 0;
    return at < from ? from - at < text_length : at - from < size;
}

/* Whether a text and *work have a byte in common. */
static inline int optlines_overlap(
    const struct optlines_work *work, const uint8_t *text, size_t text_length)
{
    return optlines_common(work, sizeof *work, text, text_length);
}

static inline uint8_t optlines_tidy(
    struct optlines_work *work, size_t pass, size_t mode, const uint8_t *text, size_t text_length)
{
    uint8_t (*w)[OPTLINES_BYTES] = work->bytes, number;
    size_t n = OPTLINES_BYTES;
    work->length = work->records = work->place = 0;
    if (optlines_overlap(work, text, text_length))
        return OPTLINES_OVERLAP;
    if (pass == 0)
        number = optlines_optimize(mode, text, text_length,
            w[0], n, w[1], n, w[2], n, w[3], n, w[4], n, work->blocks, OPTLINES_BLOCKS,
            work->out, sizeof work->out, work->orig, sizeof work->orig,
            &work->length, &work->place);
    else
        number = optlines_run_pass(pass, mode, text, text_length,
            w[0], n, w[1], n, w[2], n, w[3], n, w[4], n, work->blocks, OPTLINES_BLOCKS,
            work->out, sizeof work->out, work->orig, sizeof work->orig,
            &work->length, &work->place);
    if (number == OPTLINES_DONE)
        work->records = optlines_lines(text, text_length);
    return number;
}

static inline uint8_t optlines_tidy_large(
    struct optlines_large *w, size_t pass, size_t mode, size_t form,
    const uint8_t *text, size_t text_length)
{
    const size_t n = OPTLINES_LARGE_BYTES, places = OPTLINES_LARGE_PLACES;
    const size_t lines = OPTLINES_LARGE_LINES, notes = OPTLINES_LARGE_NOTES;
    uint8_t number;
    w->length = w->records = w->place = 0;
    if (optlines_common(w, sizeof *w, text, text_length))
        return OPTLINES_OVERLAP;
    if (pass == 0)
        number = optlines_optimize_large(mode, form, text, text_length,
            w->bytes[0], n, w->bytes[1], n, w->bytes[2], n, w->bytes[3], n, w->bytes[4], n,
            w->flags[0], places, w->flags[1], places, w->line_flags, lines,
            w->blocks, OPTLINES_LARGE_BLOCKS,
            w->notes[0], notes, w->notes[1], notes, w->notes[2], notes,
            w->lines[0], lines, w->lines[1], lines, w->places[0], places, w->places[1], places,
            w->owners, OPTLINES_LARGE_OWNERS, w->table, lines,
            w->out, sizeof w->out, w->orig, sizeof w->orig, &w->length, &w->place);
    else
        number = optlines_run_pass_large(pass, mode, form, text, text_length,
            w->bytes[0], n, w->bytes[1], n, w->bytes[2], n, w->bytes[3], n, w->bytes[4], n,
            w->flags[0], places, w->flags[1], places, w->line_flags, lines,
            w->blocks, OPTLINES_LARGE_BLOCKS,
            w->notes[0], notes, w->notes[1], notes, w->notes[2], notes,
            w->lines[0], lines, w->lines[1], lines, w->places[0], places, w->places[1], places,
            w->owners, OPTLINES_LARGE_OWNERS, w->table, lines,
            w->out, sizeof w->out, w->orig, sizeof w->orig, &w->length, &w->place);
    if (number == OPTLINES_DONE)
        w->records = optlines_lines(text, text_length);
    return number;
}

#ifdef __cplusplus
}
#endif

#endif
