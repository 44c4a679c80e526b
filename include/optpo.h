/*
 * optpo.h - the strings of a listing as a PO file, and back
 *
 * NAME
 *     optpo_write - write the literals of a listing as a PO file
 *     optpo_read - read such a file, with its translations
 *
 * LINKING
 *     The library is for x86-64 Linux. From a checkout:
 *
 *         tools/built pocapi
 *         cc program.c -Iinclude target/staticlib/libpocapi.a
 *
 * DESCRIPTION
 *     optpo_write() finds the literals between " or ' in a listing, where strip_lexical finds them,
 *     and writes each distinct one that is not empty as an entry of a PO file, in order of first
 *     appearance. Its reference is name, a colon and the line, from 1. optpo(1) shows the form.
 *
 *     optpo_read() takes files of just this form, with each msgstr empty or filled. For each entry
 *     it gives the literal and then its translation, as they are meant, without escapes. Each
 *     stands behind its length in 8 bytes, low byte first.
 *
 *     Neither has a limit. Neither allocates, keeps anything between calls, or reads or writes
 *     memory other than what is lent to it and its stack. Any number of threads may call at once.
 *
 * THE INDEX
 *     index is room for numbers, of any length. It changes no answer, and what stands in it before
 *     a call does not matter. With two numbers for each distinct literal the time grows with the
 *     text; with fewer, or none, it grows with the square of the number of literals.
 *
 * THE CALLER
 *     The caller sees to the following, and nothing checks it. Each pointer points to as many
 *     elements as its length says, and is aligned for them. None of index, out, length and place
 *     overlaps any other thing that is lent. A pointer whose length is 0 is not followed, and may
 *     be null. length and place are always followed.
 *
 * RETURN VALUE
 *     A number, with a length and a place stored. For a refusal the length is 0.
 *
 *         number                   when, checked in this order          place
 *         0 OPTPO_DONE             the output is written                0
 *         1 OPTPO_BAD_NAME         name is empty, is not UTF-8 or       first such byte, from 0
 *                                  holds white space
 *         2 OPTPO_NOT_UTF8         the listing is not UTF-8             first byte of the first bad
 *                                                                       sequence, from 0
 *         3 OPTPO_OTHER_ESCAPE     a literal has an escape other than   its backslash, from 0
 *                                  \n, \t, \", \' and \\
 *         4 OPTPO_OPEN             a literal is not closed on its line  its quote, from 0
 *         5 OPTPO_SHORT            out is too short                     the length needed
 *         6 OPTPO_BAD_LINE         a line of the file is missing, or    that line, from 0
 *                                  is not of this form
 *
 *     Of 3 and 4 the smaller place comes first. optpo_write() answers 0 to 5, and a length that no
 *     number of 64 bits holds is told as the largest one. optpo_read() answers 0, 6 or 5, and 6
 *     comes before 5. A later release may have more numbers, so treat every number but 0 as a
 *     refusal.
 *
 * MEMORY AFTER A CALL
 *     out has the output at its front after 0, and is as it was after a refusal. index is all 0
 *     after 0 and 5, and after 6; after 1 to 4 it is as it was.
 */
#ifndef OPTPO_H
#define OPTPO_H

#include <stddef.h>
#include <stdint.h>

#ifdef __cplusplus
extern "C" {
#endif

enum {
    OPTPO_DONE = 0,
    OPTPO_BAD_NAME = 1,
    OPTPO_NOT_UTF8 = 2,
    OPTPO_OTHER_ESCAPE = 3,
    OPTPO_OPEN = 4,
    OPTPO_SHORT = 5,
    OPTPO_BAD_LINE = 6
};

uint8_t optpo_write(
    const uint8_t *name, size_t name_length,
    const uint8_t *text, size_t text_length,
    size_t *index, size_t index_length,
    uint8_t *out, size_t out_length,
    size_t *length, size_t *place);

uint8_t optpo_read(
    const uint8_t *file, size_t file_length,
    size_t *index, size_t index_length,
    uint8_t *out, size_t out_length,
    size_t *length, size_t *place);

#ifdef __cplusplus
}
#endif

#endif
