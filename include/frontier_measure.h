/* Calls for measurements of the library itself, for C99, C++11 and later. A program that chooses variants needs none of
 * them: frontier.h has the calls for that. They may change or go in any minor version (docs/INTERFACE.md). What
 * frontier.h says of every call holds of these too. */
#ifndef FRONTIER_MEASURE_H
#define FRONTIER_MEASURE_H

#include "frontier.h"

#ifdef __cplusplus
extern "C" {
#endif

/* frontier_solve by the first form of the search, which needs much longer for most problems. The pointers, the answer
 * and what the buffers hold afterwards are those of frontier_solve:
 *
 *   pointer  valid for                         null  may overlap
 *   problem  problem_len bytes, read           no    nothing
 *   costs    costs_len numbers, written        no    nothing
 *   choices  choices_len bytes, written        no    nothing
 *   work     work_len numbers, written         no    nothing
 *   place    one number, written               no    nothing
 *   count    one number, written               no    nothing
 */
uint8_t frontier_solve_by_passes(const uint8_t *problem, size_t problem_len, uint32_t *costs, size_t costs_len,
                                 uint8_t *choices, size_t choices_len, uint32_t *work, size_t work_len, uint32_t *place,
                                 uint32_t *count);

/* frontier_solve, and what its search took. The answer and what the buffers hold afterwards are those of
 * frontier_solve, and that is proved. Of the measures nothing is:
 *
 *   measures[0]       which form of the search answered: 1 or 2, and 0 where the problem was refused before a search
 *   measures[1]       how many plans of the second form were made
 *   measures[2]       how many of them failed their test, so that nothing was searched by them
 *   measures[3]       how many passes were made by the others
 *   measures[4]       how many partial choices these opened
 *   measures[5 to 7]  0
 *
 *   pointer   valid for                         null  may overlap
 *   problem   problem_len bytes, read           no    nothing
 *   costs     costs_len numbers, written        no    nothing
 *   choices   choices_len bytes, written        no    nothing
 *   work      work_len numbers, written         no    nothing
 *   place     one number, written               no    nothing
 *   count     one number, written               no    nothing
 *   measures  eight numbers, written            no    nothing
 */
uint8_t frontier_solve_measured(const uint8_t *problem, size_t problem_len, uint32_t *costs, size_t costs_len,
                                uint8_t *choices, size_t choices_len, uint32_t *work, size_t work_len, uint32_t *place,
                                uint32_t *count, uint64_t measures[8]);

#ifdef __cplusplus
}
#endif

#endif
