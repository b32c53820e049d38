/*
 * Kazhuvendi: a proved planner for commercial waste rounds.
 *
 * The functions of the static library libkazhuvendi.a. None of them allocates,
 * keeps a pointer, or reads or writes outside the buffers that it is lent.
 *
 * A buffer is lent as a pointer and the number of its elements. Each pointer
 * must be valid for that many elements and aligned for them; where the number
 * is 0 nothing is read or written through it. A buffer that is written must
 * not overlap another one of the same call.
 *
 * Each function writes all six numbers of `out`, which is the answer:
 *
 *   out[0]      0, or the number of the refusal
 *   out[1]      after a refusal: the place
 *   out[1..5]   else: what the function says of them
 *
 * What is not named is 0. `out` is not one of the lent buffers: a refusal
 * changes none of those.
 *
 * Refusals of these functions, and what the place then is:
 *
 *    1   the bytes are no whole words, or there are fewer than 7 words;
 *        place: the whole words given
 *    2   a word has the wrong kind, or a bit that has no name is not zero;
 *        place: the index of that word, from 0
 *    3   word 0 gives more than 240 stops, or no tip; place: 0
 *    4   the words are not as many as word 0 asks for;
 *        place: the words given
 *    5   a value is outside its range; place: the index of its word, from 0
 *    6   the plan has more than 4,096 words; place: 4,096
 *    7   a word of the plan is none, may not stand there or has a number
 *        outside; place: its index, from 0. Or the plan ends inside a vehicle;
 *        place: the plan's length
 *    8   a stop is met again; place: the index of that word. Or a stop is
 *        missing at the end; place: the plan's length
 *    9   a vehicle has too many kg at once, too many kg a day or too many
 *        stops a day; place: the index of the stop's word
 *   10   a vehicle comes back with load; place: the index of that word
 *   11   a visit starts after its closing, or a vehicle comes back after the
 *        depot's; place: the index of that word
 *   12   a vehicle's second rest, a rest that starts too late, or a vehicle
 *        that has not rested and comes back after the rest window; place: the
 *        index of that word
 *   13   the neighbours asked for are not 1 to 50; place: their number
 *   14   a lent buffer is too short; place: the words needed, which are one
 *        for each 4 bytes that are read, or 5 for each stop that is planned,
 *        or 13 + 7n + n * n for a text of n stops
 *   15   the plan has no such vehicle; place: the number asked for
 *   17   a text is not of the Solomon form; place: the first byte of the wrong
 *        field, from 0. Or a field is missing; place: the line feed that ends
 *        its line, or the text's length. Or a line is missing; place: the
 *        text's length
 *   18   a number of a text that is used is outside its limits, a stop is past
 *        240, or a due date is before its ready time; place: the first byte of
 *        that number, from 0
 *
 * Where several apply the first of this order is given: 1; word 0: 2, 3;
 * then 4; each later word of the day in turn: 2, 5; then 6; each word of the
 * plan in turn: 7 to 12, rising; the plan's end: 7, 8; then 13, 14, 15.
 * Reading bytes gives 1 and 14 alone, in this order. Bringing in a text gives
 * 17 or 18, whichever has the earlier byte, at one byte 17; then 14; and no
 * other.
 */
#ifndef KAZHUVENDI_H
#define KAZHUVENDI_H

#include <stddef.h>
#include <stdint.h>

#ifdef __cplusplus
extern "C" {
#endif

/*
 * Reads n bytes as 32-bit words, low byte first, into the first n / 4 words of
 * a buffer of `room` words. The words behind them stay as they were. No day is
 * judged.
 *
 *   out[1]   the words written
 */
void kz_read_words(const uint8_t *bytes, size_t n, uint32_t *words, size_t room, uint64_t out[6]);

/*
 * Judges a day file of n words.
 *
 *   out[1]   the stops, 0 to 240
 *   out[2]   the tips, 1 to 15
 */
void kz_judge(const uint32_t *day, size_t n, uint64_t out[6]);

/*
 * Judges a day of n words and checks a plan of it of m words.
 *
 *   out[1]   the distance, the sum over the legs driven
 *   out[2]   the vehicles
 *   out[3]   the stops served
 */
void kz_check(const uint32_t *day, size_t n, const uint32_t *plan, size_t m, uint64_t out[6]);

/*
 * Checks as kz_check, then finds the vehicle of this number, counted from 1:
 * its words, A to E, are plan[start] to plan[start + length - 1].
 *
 *   out[1]   the start
 *   out[2]   the length
 */
void kz_vehicle(const uint32_t *day, size_t n, const uint32_t *plan, size_t m, uint64_t number,
                uint64_t out[6]);

/*
 * Checks a plan of m words to its end, then one of l words, and says whether
 * their vehicles, in order, visit the same stops in order. Tips and rests do
 * not count. To each place of a refusal of the second plan m is added.
 *
 *   out[1]   1 if they do, 0 if not
 */
void kz_same_rounds(const uint32_t *day, size_t n, const uint32_t *first, size_t m,
                    const uint32_t *second, size_t l, uint64_t out[6]);

/*
 * Judges a day of n words and writes its greedy plan into the beginning of a
 * buffer of `room` words, of which it needs 5 for each stop of the day. From
 * the plan's end to there the buffer is then zero; beyond it stays as it was.
 * Of equally near stops that fit a vehicle chooses the one that closes first.
 *
 *   out[1]   the distance, the sum over the legs driven
 *   out[2]   the trials made: 0
 *   out[3]   1 if the plan is settled, 0 if not: 0
 *   out[4]   the stops left out
 *   out[5]   the words of the plan
 */
void kz_build(const uint32_t *day, size_t n, uint32_t *plan, size_t room, uint64_t out[6]);

/*
 * Judges a day of n words, builds its greedy plan and makes it shorter by
 * trials, of which it makes `budget` at most: stops are moved beside one of
 * their k nearest neighbours or change places with it, tips are removed and
 * replaced. A trial is kept where the plan is then lawful and its distance
 * lower. The plan is written into the beginning of a buffer of `room` words, of
 * which it needs 5 for each stop of the day. From the plan's end to there the
 * buffer is then zero; beyond it stays as it was. The working buffer of
 * `work_room` words needs as many; what it holds then has no meaning.
 *
 *   out[1]   the distance, the sum over the legs driven
 *   out[2]   the trials made
 *   out[3]   1 if all trials of the plan were made and none kept, 0 if the
 *            budget was used up before
 *   out[4]   the stops left out
 *   out[5]   the words of the plan
 */
void kz_plan(const uint32_t *day, size_t n, uint64_t k, uint64_t budget, uint32_t *plan,
             size_t room, uint32_t *work, size_t work_room, uint64_t out[6]);

/*
 * As kz_plan, with growing neighbour sets: trials begin with the 5 nearest
 * neighbours of each stop. Where none of them is kept, those with the 10, the
 * 25 and the 50 nearest follow, which have the earlier ones again; a trial that
 * is kept returns to the 5 nearest. One budget covers all. out[3] is 1 if all
 * trials of the plan were made with each of the four, and none kept.
 */
void kz_plan_growing(const uint32_t *day, size_t n, uint64_t budget, uint32_t *plan, size_t room,
                     uint32_t *work, size_t work_room, uint64_t out[6]);

/*
 * Brings in an instance of the Solomon text form, n bytes: writes the words of
 * its day into the beginning of a buffer of `room` words, of which it needs
 * 13 + 7 * stops + stops * stops, 59,293 for 240 stops. The words behind them
 * stay as they were. kz_judge accepts the day.
 *
 * The form: a line with a name; VEHICLE; a line of column names; vehicle number
 * and capacity; CUSTOMER; a line of column names; then a line for the depot and
 * one for each stop, numbered 0, 1, 2 and on: number, abscissa, ordinate,
 * demand, ready time, due date, service time. Spaces, tabs and carriage returns
 * separate fields, line feeds end lines, blank lines are skipped, and a number
 * is one or more decimal digits.
 *
 * Limits: capacity 1 to 100,000; coordinates 0 to 1,000; demand 0 to 100,000;
 * times 0 to 1,440, due no sooner than ready; service 0 to 240; 240 stops. The
 * vehicle number and the depot's demand and service may be of any size.
 *
 *   out[1]   the words written
 */
void kz_import_solomon(const uint8_t *text, size_t n, uint32_t *words, size_t room,
                       uint64_t out[6]);

#ifdef __cplusplus
}
#endif

#endif
