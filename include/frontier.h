/* The variant chooser's version, limits, numbers of refusal and calls, for C99, C++11 and later. Link libfrontier.a; it
 * needs nothing but the C library. There are nine calls: frontier_solve lists the frontier of a problem; frontier_cut
 * lists it by way of two halves of the problem; frontier_bound bounds what a partial choice leads to; frontier_points
 * lists the frontier into point records; frontier_to_text writes a problem as WCSP text, which other solvers read;
 * frontier_from_text makes a problem of such a text; frontier_canonical writes the canonical form of a problem, with a
 * key, by which equal problems are found; frontier_solve_cached lists the frontier as frontier_solve does, and keeps
 * answers in a store, from which it takes them when a problem comes again; frontier_batch lists the frontiers of up to
 * 16 problems. What a later version may change is in docs/INTERFACE.md; calls for measurements are in
 * frontier_measure.h.
 *
 * A problem is a string of bytes. Numbers in it are unsigned and little-endian, at any address, with nothing between
 * them. It is made of records, each of which starts with a mark of two letters:
 *
 *   HD  n (1 byte), p (1 byte), r (2 bytes), then p ceilings of 4 bytes
 *   DO  the domain size d (1 byte)
 *   CF  an objective (1 byte), the arity (1 byte), the scope (1 byte a variable), then the table of 4-byte costs
 *
 * One HD, n DO, r CF, and no byte more. There are n variables (modules), numbered from 0; the DO records give the
 * number d of values (variants) of each, in the variables' order, and its values are 0 to d - 1. There are p
 * objectives, numbered from 0. A CF record charges its objective for the values of the variables in its scope, which
 * stand in any order, none twice. Its table has an entry for each combination of their values, so as many as the
 * product of their domain sizes, and one if the scope is empty. The variable that is written last in the scope runs
 * fastest: with scope (u, v) the entry for values a of u and b of v has the index a * (domain size of v) + b, whether u
 * is below v or above.
 *
 * The cost of a choice (a value for each variable) in an objective is the sum of the entries that its values select in
 * that objective's records. A ceiling is the greatest cost that is allowed, and an entry of 4294967295 is forbidden
 * under every ceiling: a choice is allowed if every cost is at most its objective's ceiling, and none of the entries
 * that its values select, in whatever objective, is forbidden. One choice beats another if it costs at most as much in
 * every objective and less in some. The frontier is the set of cost vectors of the allowed choices that no allowed
 * choice beats.
 *
 * A refusal gives a number and a place: the first byte of the record concerned (2 to 10, and 14 for the first
 * linked record), the first leftover byte (11), else 0. Number 0 says that nothing is refused. Of several faults one is
 * told: number 1 before all others, then what reading the bytes in their order meets first, then the rest. */
#ifndef FRONTIER_H
#define FRONTIER_H

#include <stddef.h>
#include <stdint.h>

/* The version of this header, and in one number: 1002003 is 1.2.3. frontier_version gives that of the library. */
#define FRONTIER_VERSION_MAJOR 3
#define FRONTIER_VERSION_MINOR 1
#define FRONTIER_VERSION_PATCH 0
#define FRONTIER_VERSION (FRONTIER_VERSION_MAJOR * 1000000 + FRONTIER_VERSION_MINOR * 1000 + FRONTIER_VERSION_PATCH)

/* limits of a problem */
#define FRONTIER_MAX_BYTES 60000
#define FRONTIER_MAX_VARIABLES 24
#define FRONTIER_MAX_OBJECTIVES 4
#define FRONTIER_MAX_TABLES 256
#define FRONTIER_MAX_DOMAIN 8
#define FRONTIER_MAX_ARITY 3

/* the most points of a list, and the least length of a work buffer, in 32-bit numbers */
#define FRONTIER_MAX_POINTS 64
#define FRONTIER_LEAST_WORK 8192

/* the bytes of a slot, each of which keeps an answer, and the most slots of a store that count */
#define FRONTIER_SLOT_BYTES 63000
#define FRONTIER_MAX_SLOTS 32

/* the most problems of a batch, the bytes before each of them there, and how many numbers of the result list it has */
#define FRONTIER_MAX_BATCH 16
#define FRONTIER_FRAME_BYTES 6
#define FRONTIER_RESULT_LEN 3

/* lengths of buffers that do for every problem, in elements, each named after the parameter that it is handed to */
#define FRONTIER_COSTS_LEN (FRONTIER_MAX_POINTS * FRONTIER_MAX_OBJECTIVES)
#define FRONTIER_CHOICES_LEN (FRONTIER_MAX_POINTS * FRONTIER_MAX_VARIABLES)
#define FRONTIER_POINTS_LEN FRONTIER_MAX_POINTS
#define FRONTIER_WORK_LEN FRONTIER_LEAST_WORK
#define FRONTIER_TEXT_LEN 255000 /* a text has at most 17 bytes for 4 of the problem's */
#define FRONTIER_BATCH_COSTS_LEN (FRONTIER_MAX_BATCH * FRONTIER_COSTS_LEN)
#define FRONTIER_BATCH_CHOICES_LEN (FRONTIER_MAX_BATCH * FRONTIER_CHOICES_LEN)
#define FRONTIER_BATCH_RESULTS_LEN (FRONTIER_MAX_BATCH * FRONTIER_RESULT_LEN)

/* what a call returns: 0, or the number of a refusal */
#define FRONTIER_ACCEPTED 0
#define FRONTIER_REFUSED_OVERSIZE 1   /* more than 60,000 bytes */
#define FRONTIER_REFUSED_CUT_SHORT 2  /* the bytes end inside the record that is due; also empty input */
#define FRONTIER_REFUSED_STRAY_MARK 3 /* the two bytes due are another mark */
#define FRONTIER_REFUSED_VARIABLES 4  /* n outside 1 to 24 */
#define FRONTIER_REFUSED_OBJECTIVES 5 /* p outside 1 to 4 */
#define FRONTIER_REFUSED_TABLES 6     /* r above 256 */
#define FRONTIER_REFUSED_DOMAIN 7     /* d outside 1 to 8 */
#define FRONTIER_REFUSED_OWNER 8      /* objective number p or more */
#define FRONTIER_REFUSED_ARITY 9      /* above 3 */
#define FRONTIER_REFUSED_SCOPE 10     /* a variable n or more, or named twice in one scope */
#define FRONTIER_REFUSED_LEFTOVER 11  /* bytes after the last record */
#define FRONTIER_REFUSED_WORK 12      /* work buffer under 8,192 numbers */
#define FRONTIER_REFUSED_SIDES 13     /* side list not n long, or a byte in it other than 0 and 1 */
#define FRONTIER_REFUSED_LINKED 14    /* a record's scope has both sides */
#define FRONTIER_REFUSED_FULL 15      /* more points than room; in the cut call also a half's frontier above 64 */
#define FRONTIER_REFUSED_PREFIX 16    /* prefix longer than n, or a value not in its domain */
#define FRONTIER_REFUSED_TEXT 17      /* not WCSP text, a false largest domain, an undeclared variable or value */
#define FRONTIER_REFUSED_DIALECT 18   /* what the other form cannot have, as the two calls with text say */
#define FRONTIER_REFUSED_OUTPUT 19    /* the buffer is shorter than the text, problem or form that it is for */
#define FRONTIER_REFUSED_STORE 20     /* store under one slot, 63,000 bytes */
#define FRONTIER_REFUSED_BATCH 21     /* a batch with wrong framing, of more than 16 problems, or without an area */

/* The word for what a call returned, in letters and spaces; "unknown" for a number that this version does not name. The
 * string is constant and not null. */
static inline const char *frontier_word(uint8_t number) {
    static const char *const words[] = {
        "accepted", "oversize", "cut short", "stray mark", "variables", "objectives", "tables", "domain", "owner",
        "arity", "scope", "leftover", "work", "sides", "linked", "full", "prefix", "text", "dialect", "output",
        "store", "batch",
    };
    return number < sizeof words / sizeof words[0] ? words[number] : "unknown";
}

/* What holds of every call: it may be given any bytes, since it checks them itself. The comment of a call has a line
 * for each pointer: how many elements it must be valid for, whether it may be null, and what else that is handed in it
 * may overlap. None may be null, not even with length 0; then nothing is read or written through it. Pointers are
 * aligned as their types ask. A call writes nothing but what its comment names, allocates nothing, and keeps nothing
 * from one call to the next, so calls may run side by side in several threads, also on the same problem, each with
 * buffers of its own. The same input always gives the same answer. */
#ifdef __cplusplus
extern "C" {
#endif

/* The version of the library that is linked, as one number like FRONTIER_VERSION. It has all that this header declares
 * if its major version is the header's and it is not older: if frontier_version() / 1000000 == FRONTIER_VERSION_MAJOR
 * and frontier_version() >= FRONTIER_VERSION. */
uint32_t frontier_version(void);

/* Lists the frontier of a problem into the buffers that it is lent.
 *
 *   pointer  valid for                         null  may overlap
 *   problem  problem_len bytes, read           no    nothing
 *   costs    costs_len numbers, written        no    nothing
 *   choices  choices_len bytes, written        no    nothing
 *   work     work_len numbers, written         no    nothing
 *   place    one number, written               no    nothing
 *   count    one number, written               no    nothing
 *
 * A listed point is a cost vector and an allowed choice that has it. The points stand in rising order of their vectors,
 * objective 0 compared first, then 1, and so on. Each vector stands once, however many allowed choices have it, with
 * the earliest of them: the one with the smallest value of variable 0, among those the smallest of variable 1, and so
 * on.
 *
 * costs is for the vectors: cost k of point i becomes costs[i * p + k]. choices is for the choices: the value of
 * variable v in point i becomes choices[i * n + v]. Lengths are in elements. Room, the number of points that fit, is
 * the least of costs_len / p, choices_len / n (both rounded down) and FRONTIER_MAX_POINTS, so FRONTIER_COSTS_LEN and
 * FRONTIER_CHOICES_LEN do for every problem. Room 0 is allowed. It suffices where no choice is allowed: such a problem
 * is accepted, with 0 points.
 *
 * work is memory for the search: at least FRONTIER_LEAST_WORK numbers, whatever the problem. With more the search may
 * be quicker; all of it is cleared. Nothing in the answer depends on what the three buffers held before.
 *
 * The number of refusal is the result: 0 for none, 1 to 11 for the problem, then FRONTIER_REFUSED_WORK if work is too
 * short, then FRONTIER_REFUSED_FULL if the frontier has more points than room. *place becomes the place of the refusal,
 * and 0 without one; *count becomes the number of points listed, and 0 after a refusal. Both are always written,
 * whatever they held. What the buffers hold afterwards:
 *
 *   result                 costs and choices                                                           work
 *   FRONTIER_ACCEPTED      the first *count * p costs and *count * n choices are the points,           all 0
 *                          the rest is unchanged
 *   FRONTIER_REFUSED_FULL  unchanged                                                                   all 0
 *   another number         unchanged                                                                   unchanged
 *
 * The time it takes can grow with the number of choices, which is the product of the domain sizes, and the call cannot
 * be interrupted. A program with a time limit runs it in a process of its own. */
uint8_t frontier_solve(const uint8_t *problem, size_t problem_len, uint32_t *costs, size_t costs_len, uint8_t *choices,
                       size_t choices_len, uint32_t *work, size_t work_len, uint32_t *place, uint32_t *count);

/* Lists the frontier of a problem that falls into two halves, into the buffers that it is lent: the points that
 * frontier_solve lists, by way of the halves' own frontiers.
 *
 *   pointer  valid for                         null  may overlap
 *   problem  problem_len bytes, read           no    sides
 *   sides    sides_len bytes, read             no    problem
 *   costs    costs_len numbers, written        no    nothing
 *   choices  choices_len bytes, written        no    nothing
 *   work     work_len numbers, written         no    nothing
 *   place    one number, written               no    nothing
 *   count    one number, written               no    nothing
 *   first    one number, written               no    nothing
 *   second   one number, written               no    nothing
 *
 * The side list has a side for each variable, one byte each: sides[v] is the side of variable v, 0 or 1, and sides_len
 * is n. A record is linked if its scope has variables of both sides; there must be none. Half 0 has the variables of
 * side 0, the records whose scope lies there, and all records of arity 0. Half 1 has the other variables and the other
 * records. Each half is a problem of its own, under all the ceilings, and its frontier may have at most
 * FRONTIER_MAX_POINTS points. A half may be without variables: then it has one choice, which in half 1 costs 0 in
 * every objective and in half 0 what the records of arity 0 charge.
 *
 * The points are those that frontier_solve lists, in the same order and with the same choices, whichever side is 0.
 * They are made from the sums of one vector of each half's frontier, over all pairs. A sum is listed, once, if it is at
 * most the ceilings and no other such sum beats it; the choice with it is the earliest that a pair with this sum
 * gives, where a pair gives each variable the value that its half's listed choice has for it. Exchanging the sides
 * may change the half sizes, and whether a half has too many points, because the records of arity 0 then go with the
 * other variables.
 *
 * costs, choices, their room and work are as in frontier_solve, and nothing in the answer depends on what they held
 * before.
 *
 * The number of refusal is the result: 0 for none, 1 to 11 for the problem, then FRONTIER_REFUSED_WORK if work is too
 * short, then FRONTIER_REFUSED_SIDES if sides_len is not n or a side is neither 0 nor 1, then FRONTIER_REFUSED_LINKED
 * if a record is linked, then FRONTIER_REFUSED_FULL if the frontier of a half has more than FRONTIER_MAX_POINTS points,
 * or that of the problem more points than room; how many sums there are on the way does not count. *place becomes the
 * place of the refusal, with FRONTIER_REFUSED_LINKED the first byte of the first linked record, and 0 without a
 * refusal. *count becomes the number of points listed, *first and *second become the half sizes: how many points the
 * frontiers of half 0 and of half 1 have. After a refusal these three are 0. All four are always written, whatever they
 * held. What the buffers hold afterwards:
 *
 *   result                 costs and choices                                                           work
 *   FRONTIER_ACCEPTED      the first *count * p costs and *count * n choices are the points,           all 0
 *                          the rest is unchanged
 *   FRONTIER_REFUSED_FULL  unchanged                                                                   all 0
 *   another number         unchanged                                                                   unchanged
 *
 * The time it takes can grow with the number of choices of each half, and like frontier_solve it cannot be
 * interrupted. */
uint8_t frontier_cut(const uint8_t *problem, size_t problem_len, const uint8_t *sides, size_t sides_len,
                     uint32_t *costs, size_t costs_len, uint8_t *choices, size_t choices_len, uint32_t *work,
                     size_t work_len, uint32_t *place, uint32_t *count, uint32_t *first, uint32_t *second);

/* Bounds from below what any completion of a partial choice costs.
 *
 *   pointer  valid for                         null  may overlap
 *   problem  problem_len bytes, read           no    prefix
 *   prefix   prefix_len bytes, read            no    problem
 *   least    four numbers, written             no    nothing
 *   place    one number, written               no    nothing
 *
 * The prefix has the values of variables 0, 1, and so on, one byte each; the variables after it are free. With length 0
 * all are free, with length n none is, and then the bound is the cost itself.
 *
 * least[k] becomes the sum, over the records of objective k, of the least table entry that agrees with the prefix:
 * below 2^40, and 0 for k from p on. Ceilings play no part, and a forbidden entry counts as the number that it is. The
 * number of refusal is the result: 0 for none, 1 to 11 for the problem, or FRONTIER_REFUSED_PREFIX for the prefix,
 * which is looked at last. *place becomes the place of the refusal, and 0 without one. All four numbers of least and
 * *place are always written, whatever they held; after a refusal least is all 0. */
uint8_t frontier_bound(const uint8_t *problem, size_t problem_len, const uint8_t *prefix, size_t prefix_len,
                       uint64_t least[FRONTIER_MAX_OBJECTIVES], uint32_t *place);

/* A point record: costs[k] is the cost in objective k, and 0 for k from p on; choice[v] is the value of variable v, and
 * 0 for v from n on. It has 40 bytes and no padding. */
struct frontier_point {
    uint32_t costs[FRONTIER_MAX_OBJECTIVES];
    uint8_t choice[FRONTIER_MAX_VARIABLES];
};

/* Lists the frontier of a problem into the point records that it is lent: the points that frontier_solve lists, in the
 * same order.
 *
 *   pointer  valid for                         null  may overlap
 *   problem  problem_len bytes, read           no    nothing
 *   points   points_len records, written       no    nothing
 *   work     work_len numbers, written         no    nothing
 *   place    one number, written               no    nothing
 *   count    one number, written               no    nothing
 *
 * Room, the number of points that fit, is the smaller of points_len and FRONTIER_MAX_POINTS, so FRONTIER_POINTS_LEN
 * records do for every problem. Room 0 is allowed, and suffices where no choice is allowed. work is as in
 * frontier_solve. Nothing in the answer depends on what the records and work held before.
 *
 * The number of refusal is the result: 0 for none, 1 to 11 for the problem, then FRONTIER_REFUSED_WORK if work is too
 * short, then FRONTIER_REFUSED_FULL if the frontier has more points than room. *place becomes the place of the refusal,
 * and 0 without one; *count becomes the number of points listed, and 0 after a refusal. Both are always written,
 * whatever they held. What the records and work hold afterwards:
 *
 *   result                 points                                                                      work
 *   FRONTIER_ACCEPTED      the first *count records are the points, every field of them written,       all 0
 *                          the rest is unchanged
 *   FRONTIER_REFUSED_FULL  unchanged                                                                   all 0
 *   another number         unchanged                                                                   unchanged
 *
 * It takes as long as frontier_solve, and cannot be interrupted either. */
uint8_t frontier_points(const uint8_t *problem, size_t problem_len, struct frontier_point *points, size_t points_len,
                        uint32_t *work, size_t work_len, uint32_t *place, uint32_t *count);

/* Writes a problem with one objective as WCSP text, the format of toulbar2, into the buffer that it is lent.
 *
 *   pointer  valid for                         null  may overlap
 *   problem  problem_len bytes, read           no    nothing
 *   text     text_len bytes, written           no    nothing
 *   place    one number, written               no    nothing
 *   count    one number, written               no    nothing
 *
 * The first line of the text is P, n, the largest domain size, r and the upper bound, which is one above the ceiling;
 * the second is the domain sizes. Then each cost record follows, in their order. Its head is a line with the arity, the
 * scope as the record names it, the default cost 0, and how many entries of the table are not 0; each of these has a
 * line in the table's order: the value of each variable of the scope, and the entry. A record of arity 0 is one line:
 * 0, its entry, 0. A forbidden entry is written as the upper bound. Numbers are decimal without leading zeros, one
 * space stands between two of a line, a line feed (10) ends each line, and there is no other byte, so none of value 0
 * at the end. In a text what costs as much as the upper bound or more is not allowed; so the same choices are allowed
 * by the text and by the problem, and each of them costs the same.
 *
 * A text has at most FRONTIER_TEXT_LEN bytes, which so do for every problem. Nothing in the answer depends on what the
 * buffer held before.
 *
 * The number of refusal is the result: 0 for none, 1 to 11 for the problem, then FRONTIER_REFUSED_DIALECT if p is above
 * 1 or the ceiling is 4294967295, which has no upper bound above it, then FRONTIER_REFUSED_OUTPUT if text_len is less
 * than the text has bytes. *place becomes the place of the refusal, 0 with the last two and without one; *count becomes
 * how many bytes the text has, and 0 after a refusal. Both are always written, whatever they held. What the buffer
 * holds afterwards:
 *
 *   result                 text
 *   FRONTIER_ACCEPTED      the first *count bytes are the text, the rest is unchanged
 *   another number         unchanged */
uint8_t frontier_to_text(const uint8_t *problem, size_t problem_len, uint8_t *text, size_t text_len, uint32_t *place,
                         uint32_t *count);

/* Makes a problem with one objective of WCSP text, the format of toulbar2, in the buffer that it is lent.
 *
 *   pointer  valid for                         null  may overlap
 *   text     text_len bytes, read              no    nothing
 *   problem  problem_len bytes, written        no    nothing
 *   place    one number, written               no    nothing
 *   count    one number, written               no    nothing
 *
 * A text is made of words with white space (bytes 9 to 13, and 32) between them, of any length and in any layout. The
 * first word is a name. All others are decimal numbers, of any length, with zeros in front or none, and with or without
 * a sign; -0 is 0. They are the number of variables, the largest domain size, the number of functions and the upper
 * bound; the domain size of each variable; and each function: its arity, its scope, its default cost, the number of its
 * tuples, and for each tuple the value of each variable of the scope, and a cost. Behind the last function nothing
 * follows. A function of arity 0 has no tuples.
 *
 * The problem has one objective, whose ceiling is one below the upper bound. Each function becomes a cost record, in
 * their order and with its scope as the function names it. An entry is the cost of its tuple, or the default where none
 * is given, as the text has it, also where it is the upper bound or more. Every choice costs by the problem what it
 * costs by the text, and the same choices are allowed. The text that frontier_to_text writes is read as its problem, to
 * the byte but for forbidden entries: these are read as the upper bound, which is above the ceiling.
 *
 * A problem has at most FRONTIER_MAX_BYTES bytes, which so do for every text. Nothing in the answer depends on what the
 * buffer held before.
 *
 * The number of refusal is the result: 0 for none, else the first of these that holds, wherever in the text:
 *
 *   FRONTIER_REFUSED_TEXT     the text is not in the format: a word is missing, is no number or stands behind the last
 *                             function; the largest domain size is not the one that is stated; a variable or a value is
 *                             not declared; a number of variables or functions, the largest domain size, a variable or
 *                             a value is negative; or a function of arity 0 has tuples
 *   FRONTIER_REFUSED_DIALECT  an arity, domain size, cost, upper bound or number of tuples is negative; a cost or the
 *                             upper bound is above 4294967295; the upper bound is 0; a tuple is given twice in its
 *                             function, or a variable in its scope; or the problem would be outside a limit, that of
 *                             its bytes included
 *   FRONTIER_REFUSED_OUTPUT   problem_len is less than the problem has bytes
 *
 * But what stands behind the first negative arity, domain size, cost, upper bound or number of tuples is not read, so
 * that nothing there is told. *place becomes 0; *count becomes how many bytes the problem has, and 0 after a refusal.
 * Both are always written, whatever they held. What the buffer holds afterwards:
 *
 *   result                 problem
 *   FRONTIER_ACCEPTED      the first *count bytes are the problem, the rest is unchanged
 *   another number         unchanged
 *
 * The time it takes grows with the length of the text, also where it is refused. The call takes at most about 600 KB of
 * stack, and that much only for a text with more than FRONTIER_MAX_VARIABLES variables. */
uint8_t frontier_from_text(const uint8_t *text, size_t text_len, uint8_t *problem, size_t problem_len, uint32_t *place,
                           uint32_t *count);

/* Writes the canonical form of a problem into the buffer that it is lent, and tells a key of it.
 *
 *   pointer  valid for                         null  may overlap
 *   problem  problem_len bytes, read           no    nothing
 *   form     form_len bytes, written           no    nothing
 *   place    one number, written               no    nothing
 *   count    one number, written               no    nothing
 *   key      one number, written               no    nothing
 *
 * The form is a problem too: the same HD and DO records, then each CF record with its scope in rising order and its
 * table turned to fit, so that it charges every choice what it did; and these records in rising order of their bytes.
 * That is the order of a dictionary: of two records the first byte in which they differ decides, from the mark on over
 * objective, arity and scope to the entries as they stand, with the lowest byte first. Records that are there twice
 * stay so: nothing is left out, and no tables are added up.
 *
 * So problems that differ in nothing but the order of their CF records and the layout of scopes and tables have the
 * same form, the form of a form is itself, and a problem has the frontier of its form. The key is the 64-bit FNV-1a of
 * the form's bytes: from 14695981039346656037 on, for each byte an exclusive or with it and then a product with
 * 1099511628211 modulo 2^64. Equal forms have equal keys. Different forms seldom have the same key, but it can happen,
 * and can be brought about: a program for which that matters compares the forms.
 *
 * The form has exactly problem_len bytes, so FRONTIER_MAX_BYTES do for every problem. Nothing in the answer depends on
 * what the buffer held before.
 *
 * The number of refusal is the result: 0 for none, 1 to 11 for the problem, then FRONTIER_REFUSED_OUTPUT if form_len is
 * less than problem_len. *place becomes the place of the refusal, 0 with the last and without one; *count becomes how
 * many bytes the form has, and *key its key; after a refusal both are 0. All three are always written, whatever they
 * held. What the buffer holds afterwards:
 *
 *   result                 form
 *   FRONTIER_ACCEPTED      the first *count bytes are the form, the rest is unchanged
 *   another number         unchanged
 *
 * The call takes about 61 KB of stack. */
uint8_t frontier_canonical(const uint8_t *problem, size_t problem_len, uint8_t *form, size_t form_len, uint32_t *place,
                           uint32_t *count, uint64_t *key);

/* Lists the frontier of a problem as frontier_solve does, and keeps answers in the store that it is lent: a problem
 * that comes again, in whatever layout, has its answer from there, in a part of the time.
 *
 *   pointer  valid for                         null  may overlap
 *   problem  problem_len bytes, read           no    nothing
 *   costs    costs_len numbers, written        no    nothing
 *   choices  choices_len bytes, written        no    nothing
 *   work     work_len numbers, written         no    nothing
 *   store    store_len bytes, written          no    nothing
 *   place    one number, written               no    nothing
 *   count    one number, written               no    nothing
 *   hit      one byte, written                 no    nothing
 *
 * A store begins cleared: all its bytes are 0. From then on it is lent to this call alone, always with the same length,
 * and nobody else writes to it. It has store_len / FRONTIER_SLOT_BYTES slots, rounded down, of which at most
 * FRONTIER_MAX_SLOTS count; what lies behind them is not touched. A slot keeps a problem, in its canonical form, and
 * its answer. If all are taken, the problem that was stored first of them gives way.
 *
 * Then any run of calls answers as frontier_solve would, with the same numbers, places, counts and points and the same
 * work memory, whatever the problems and the buffers are; FRONTIER_REFUSED_FULL is told by the room of this call, and
 * not of the one that stored the answer. *hit becomes 1 if the canonical form of the problem is that of one of the last
 * problems stored, as many as there are slots, and else 0. It tells so also with FRONTIER_REFUSED_FULL; after any other
 * refusal it is 0.
 *
 * A problem that is answered and was no hit is stored. So is one that is refused only because this call has too little
 * room, and one without an allowed choice. One whose frontier has more than FRONTIER_MAX_POINTS points is not, and
 * neither is one that is refused otherwise. A hit stores nothing, and leaves the order in which problems give way as it
 * was.
 *
 * The bytes of a store may be kept, in a file for example, and lent again later; they are the same in all versions with
 * the same major number, to the byte as docs/REFERENCE.md, section 15, has them. With another major number a store is to
 * be cleared first, since it would give the answers of the old version. A store that did not begin cleared, or that
 * something else was written to, does no harm: nothing is read or written outside of what is lent. But what it holds is
 * taken for answers, which may then be wrong.
 *
 * The number of refusal is the result: 0 for none, 1 to 11 for the problem, then FRONTIER_REFUSED_WORK if work is too
 * short, then FRONTIER_REFUSED_STORE if store_len is less than FRONTIER_SLOT_BYTES, then FRONTIER_REFUSED_FULL if the
 * frontier has more points than room. *place becomes the place of the refusal, and 0 without one; *count becomes the
 * number of points listed, and 0 after a refusal. All three are always written, whatever they held. What the buffers
 * hold afterwards:
 *
 *   result                 costs and choices                                      work       store
 *   FRONTIER_ACCEPTED      the first *count * p costs and *count * n choices are  all 0      unchanged after a hit,
 *                          the points, the rest is unchanged                                 else with the problem
 *   FRONTIER_REFUSED_FULL  unchanged                                              all 0      the same, but unchanged if
 *                                                                                            there are too many points
 *   another number         unchanged                                              unchanged  unchanged
 *
 * The call takes about 125 KB of stack. Without a hit it takes as long as frontier_solve, which can be long. */
uint8_t frontier_solve_cached(const uint8_t *problem, size_t problem_len, uint32_t *costs, size_t costs_len,
                              uint8_t *choices, size_t choices_len, uint32_t *work, size_t work_len, uint8_t *store,
                              size_t store_len, uint32_t *place, uint32_t *count, uint8_t *hit);

/* Lists the frontiers of up to FRONTIER_MAX_BATCH problems, each into its areas of the buffers that it is lent: what
 * calls of frontier_solve in turn would do there.
 *
 *   pointer  valid for                         null  may overlap
 *   batch    batch_len bytes, read             no    nothing
 *   costs    costs_len numbers, written        no    nothing
 *   choices  choices_len bytes, written        no    nothing
 *   results  results_len numbers, written      no    nothing
 *   work     work_len numbers, written         no    nothing
 *   place    one number, written               no    nothing
 *   count    one number, written               no    nothing
 *
 * A batch is made of frames, one after the other, and no byte more. A frame is the mark BP, the length of its problem
 * (4 bytes), and the problem. It may hold any bytes, and none: whether they are a problem is for its own call to tell.
 * Without a byte a batch has no problems.
 *
 * Problem k, numbered from 0, has these areas:
 *
 *   costs    FRONTIER_COSTS_LEN numbers from costs[FRONTIER_COSTS_LEN * k] on
 *   choices  FRONTIER_CHOICES_LEN bytes from choices[FRONTIER_CHOICES_LEN * k] on
 *   results  FRONTIER_RESULT_LEN numbers from results[FRONTIER_RESULT_LEN * k] on
 *
 * frontier_solve is called for each problem in turn, with its areas of costs and choices and all of work, as the call
 * before left it. What it returns, its place, inside the problem, and its count become the three numbers of the
 * problem's results. A problem that is refused, with 1 to 11 or FRONTIER_REFUSED_FULL, so has its number and place
 * there, and the others are answered all the same. Every area has room for FRONTIER_MAX_POINTS points. Nothing in the
 * answer depends on what the four buffers held before.
 *
 * The number of refusal of the whole call is the result, and is told before any problem is looked at: 0 for none;
 * FRONTIER_REFUSED_BATCH if the frames do not make up the batch, if there are more than FRONTIER_MAX_BATCH, or if a
 * buffer lacks an area of some problem, or a part of it; then FRONTIER_REFUSED_WORK if work_len is less than
 * FRONTIER_LEAST_WORK, also where there are no problems. *place becomes 0; *count becomes the number of problems, and 0
 * after a refusal. Both are always written, whatever they held. What the buffers hold afterwards:
 *
 *   result                 costs, choices and results                                                  work
 *   FRONTIER_ACCEPTED      the areas of *count problems are as their calls left them,                  see below
 *                          behind them all is unchanged
 *   another number         unchanged                                                                   unchanged
 *
 * After FRONTIER_ACCEPTED work is all 0 if the number of some problem is 0 or FRONTIER_REFUSED_FULL, and else
 * unchanged.
 *
 * It takes as long as its problems take one after the other, and cannot be interrupted either. */
uint8_t frontier_batch(const uint8_t *batch, size_t batch_len, uint32_t *costs, size_t costs_len, uint8_t *choices,
                       size_t choices_len, uint32_t *results, size_t results_len, uint32_t *work, size_t work_len,
                       uint32_t *place, uint32_t *count);

#ifdef __cplusplus
}
#endif

#endif
