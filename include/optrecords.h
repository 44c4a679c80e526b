/*
 * optrecords.h - read origin records, and turn them from one form into the other
 *
 * NAME
 *     optrecords_check - check a record file
 *     optrecords_record - what one record says
 *     optrecords_lines - the raw lines behind a tidy line
 *     optrecords_to_ol, optrecords_to_om - the same records in the form OL, in the form OM
 *
 * LINKING
 *     The library is for x86-64 Linux. `make records` proves it and writes the archive and the
 *     shared library:
 *
 *         cc program.c -Iinclude target/staticlib/librecordcapi.a
 *
 * DESCRIPTION
 *     A record file has one record for each line of a raw listing, in order: the mark, the raw line
 *     from 0, a byte of fate, the tidy line from 0. Numbers are low byte first. A file has one of
 *     two forms:
 *
 *         form  mark  bytes for a line  bytes for a record  tidy line of a gone line
 *         OL    OL    2                 7                   65,535
 *         OM    OM    4                 11                  4,294,967,295
 *
 *     The fates are OPTRECORDS_EQUAL, kept with equal bytes; OPTRECORDS_CHANGED, kept with other
 *     bytes; OPTRECORDS_INSIDE, its value taken into another line; OPTRECORDS_GONE.
 *
 *     Every function takes a file of either form. The second byte of the file tells which: `M` is
 *     OM, anything else OL.
 *
 *     None of them allocates, keeps anything between calls, or reads or writes memory other than
 *     what is lent to it and its stack. Any number of threads may call at once.
 *
 * LENT MEMORY
 *     Every buffer is a pointer and then its length, counted in elements.
 *
 *         file    the record file, only read: any bytes
 *         i       the record that is asked for, from 0: any number
 *         n       the tidy line that is asked for, from 0: any number
 *         room    where the raw lines are written, ascending
 *         out     where the file in the other form is written. 2 * file_length is always enough
 *         count   where is stored how much there is: records, lines, bytes; 0 for a refusal
 *         place   where the place of a refusal is stored; 0 where there is none
 *         line    where the tidy line is stored
 *
 *     The caller sees to the following, and nothing checks it. Each pointer points to as many
 *     elements as its length says, and is aligned for them. None of room, out, count, place and
 *     line overlaps any other thing that is lent. A pointer whose length is 0 is not followed, and
 *     may be null. count, place and line are always followed.
 *
 * RETURN VALUE
 *     optrecords_record() returns a fate. It checks nothing: of a file that optrecords_check()
 *     takes it gives what the record says, and past its last record OPTRECORDS_GONE. The others
 *     return a number:
 *
 *         number                     when                                       place
 *         0 OPTRECORDS_DONE          it is done                                 0
 *         1 OPTRECORDS_CUT           the file ends within a record              that record
 *         2 OPTRECORDS_WRONG_MARK    a record has another mark                  that record
 *         3 OPTRECORDS_OUT_OF_ORDER  its raw line is not its own number         that record
 *         4 OPTRECORDS_UNKNOWN_FATE  its fate is above 3                        that record
 *         5 OPTRECORDS_DISAGREE      just one of fate and tidy line says gone   that record
 *
 *         6 OPTRECORDS_NO_ROOM       (lines) room is too short                  lines needed
 *         6 OPTRECORDS_UNFIT         (to_ol) a line does not fit into 2 bytes,  that record
 *                                    or a tidy line that is not gone is 65,535
 *         7 OPTRECORDS_SHORT         (to_ol, to_om) out is too short            bytes needed
 *
 *     Records count from 0. Of 1 to 5 the first record in the file that is wrong wins, then the
 *     lower number; 6 comes after them, over the whole file, and 7 after 6. Nothing else is
 *     refused.
 *
 * MEMORY AFTER A CALL
 *     After 0 the lines stand at the front of room, or the file at the front of out, and behind
 *     them what stood there before. After a refusal all of room or out is as before.
 *
 * WHAT IS PROVED
 *     The answer and every lent byte, as above, for all arguments that meet what is said under
 *     LENT MEMORY: the contracts of crate recordcapi (docs/CONTRACTS.md). What is turned from one
 *     form into the other and back has equal bytes; a file OL that is taken always turns into OM.
 *     This file is not part of the proof; tests/records calls what it declares.
 *
 * EXAMPLE
 *     #include <optrecords.h>
 *     #include <stdio.h>
 *
 *     static uint8_t file[458752], out[720896];
 *
 *     int main(void)
 *     {
 *         size_t count, place, length = fread(file, 1, sizeof file, stdin);
 *         if (ferror(stdin) || !feof(stdin))
 *             return 2;
 *
 *         uint8_t number = optrecords_to_om(file, length, out, sizeof out, &count, &place);
 *         if (number != OPTRECORDS_DONE) {
 *             fprintf(stderr, "refused %d %zu\n", number, place);
 *             return 1;
 *         }
 *         return fwrite(out, 1, count, stdout) == count && fflush(stdout) == 0 ? 0 : 2;
 *     }
 */
#ifndef OPTRECORDS_H
#define OPTRECORDS_H

#include <stddef.h>
#include <stdint.h>

#ifdef __cplusplus
extern "C" {
#endif

/* The bytes of a record, and the tidy line of a line that is gone, in each form. */
#define OPTRECORDS_OL_SIZE 7
#define OPTRECORDS_OM_SIZE 11
#define OPTRECORDS_OL_GONE 65535
#define OPTRECORDS_OM_GONE 4294967295

/* The fates. */
enum {
    OPTRECORDS_EQUAL = 0,
    OPTRECORDS_CHANGED = 1,
    OPTRECORDS_INSIDE = 2,
    OPTRECORDS_GONE = 3
};

/* The numbers that are returned. */
enum {
    OPTRECORDS_DONE = 0,
    OPTRECORDS_CUT = 1,
    OPTRECORDS_WRONG_MARK = 2,
    OPTRECORDS_OUT_OF_ORDER = 3,
    OPTRECORDS_UNKNOWN_FATE = 4,
    OPTRECORDS_DISAGREE = 5,
    OPTRECORDS_NO_ROOM = 6,
    OPTRECORDS_UNFIT = 6,
    OPTRECORDS_SHORT = 7
};

uint8_t optrecords_check(
    const uint8_t *file, size_t file_length,
    size_t *count, size_t *place);

uint8_t optrecords_record(
    const uint8_t *file, size_t file_length, size_t i,
    size_t *line);

uint8_t optrecords_lines(
    const uint8_t *file, size_t file_length, size_t n,
    size_t *room, size_t room_length,
    size_t *count, size_t *place);

uint8_t optrecords_to_ol(
    const uint8_t *file, size_t file_length,
    uint8_t *out, size_t out_length,
    size_t *count, size_t *place);

uint8_t optrecords_to_om(
    const uint8_t *file, size_t file_length,
    uint8_t *out, size_t out_length,
    size_t *count, size_t *place);

#ifdef __cplusplus
}
#endif

#endif
