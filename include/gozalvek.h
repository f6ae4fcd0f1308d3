/* The day's account of one power plant, for C and C++.
 *
 * `rt lib` in crates/exports proves the two functions below and writes
 * crates/exports/out/libexports.a, to link on x86-64.
 *
 * Both keep nothing between calls and may run on several threads at once. Each
 * slice is a pointer and the number of its elements. A pointer is never null,
 * also where that number is 0. What is written overlaps no other argument. A
 * slice that is too short gets what it has room for; a longer one keeps the
 * rest. Nothing has to be cleared before.
 *
 * gozalvek_calls keeps a journal list of the longest length on the stack,
 * whatever `places` is: a thread that calls it needs 4 MB of stack. Some
 * systems give new threads less.
 */
#ifndef GOZALVEK_H
#define GOZALVEK_H

#include <stddef.h>
#include <stdint.h>

/* Numbers of a call, of its answer, of a posting. */
#define GOZALVEK_CALL 8
#define GOZALVEK_ANSWER 4
#define GOZALVEK_POSTING 4

/* Kinds of call; another number is refused with 10, as a void of hour 0, after
 * 9 and 12. */
#define GOZALVEK_TAKE 1
#define GOZALVEK_RELEASE 2
#define GOZALVEK_MOVE 3
#define GOZALVEK_SETTLE 4
#define GOZALVEK_RESTATE 5
#define GOZALVEK_VOID 6

/* 192 commitments, 24 hour marks, 192 energies. */
#define GOZALVEK_HELD 408

/* Five amounts for each of 24 hours and 8 units. */
#define GOZALVEK_AMOUNTS 960

/* The longest journal list. */
#define GOZALVEK_PLACES 100040

/* Bytes that have room for every statement. */
#define GOZALVEK_STATEMENT 32256

#ifdef __cplusplus
extern "C" {
#endif

/* Carries out a list of calls, one after the other, on the empty book and an
 * empty journal, under one day sheet.
 *
 * Given:
 *   sheet     the text of the day sheet, from its first byte on; what follows
 *             its line `end=sheet` is not looked at
 *   places    the length of the journal list; above 100,040 it is 100,040
 *   calls     eight numbers for each call:
 *               0 kind
 *               1 hour    1 to 24 (take, release, move, void)
 *               2 unit    1 to 8 (take, release; for a move, the one that gives)
 *               3 to      1 to 8 (move: the unit that gets)
 *               4 kwh     hub kWh (take, release, move)
 *               5 begin   first byte of the call's part of `text` (settle,
 *               6 end     restate) and the byte after its last; what lies past
 *                         the text is cut off, and an end that is not after the
 *                         begin leaves nothing
 *               7 start   where the hour record starts in that part
 *             Numbers that a kind does not use may be anything, and so may
 *             those after the last whole eight. A number out of its range is
 *             no fault of the list: the call gets its refusal.
 *   text      the text that the hour records lie in
 *
 * As many calls are carried out as there are whole eights in `calls` and whole
 * fours in `answers`. A refused call changes nothing, and the next one follows.
 *
 * Written where the sheet is read (the function then gives 0):
 *   answers   four numbers for each call:
 *               0 the refusal's number, or 0 where the call is accepted
 *               1 for the numbers 1 to 4 the line, counted from 1 at the
 *                 record's start, or 0 for the text's size or a start past its
 *                 end; otherwise 0
 *               2 how many postings were appended, or 0
 *               3 settle and restate: the place after the record in the call's
 *                 part of the text, or `start` where refused; otherwise 0
 *   held      192 commitments in hub kWh, at 8 x (hour - 1) + (unit - 1);
 *             24 hour marks, at 192 + (hour - 1): 0 open, 1 settled;
 *             192 energies in grains of 0.1 Wh, at 216 + 8 x (hour - 1) +
 *             (unit - 1)
 *   amounts   960 amounts in Rial, at 5 x (8 x (hour - 1) + (unit - 1)) +
 *             (item - 1)
 *   postings  four numbers for each place of the journal list: hour, unit,
 *             item, amount in Rial; all 0 for the places after the count
 *   *line     0
 *   *count    the number of postings
 *
 * Where the sheet is refused, the function gives the refusal's number, 1 to 4;
 * *line is its line (0 for the text's size), *count is 0, no call is carried
 * out, and answers, held, amounts and postings stay as they were.
 */
uint64_t gozalvek_calls(const uint8_t *sheet, size_t sheet_length,
                        uint64_t places,
                        const uint64_t *calls, size_t calls_length,
                        const uint8_t *text, size_t text_length,
                        uint64_t *answers, size_t answers_length,
                        uint64_t *held, size_t held_length,
                        int64_t *amounts, size_t amounts_length,
                        int64_t *postings, size_t postings_length,
                        uint64_t *line, uint64_t *count);

/* Writes the statement of a day into `out`, from its start: what the program
 * `statement` prints for a file of these bytes. `text` is the day sheet and
 * then takes and hour records in any mixture. On a refusal, the line
 * `refused=` and the number is all that is written. Gives how many bytes are
 * written; there is no byte 0 after them.
 */
size_t gozalvek_statement(const uint8_t *text, size_t text_length,
                          uint8_t *out, size_t out_length);

#ifdef __cplusplus
}
#endif

#endif
