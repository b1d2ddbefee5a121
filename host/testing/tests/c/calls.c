/* Calls the static library as a C or C++ program would; tests/header compiles it and reads what it prints. */
#include "frontier.h"
#include "frontier.h" /* a second time, which must do no harm */

#include <inttypes.h>
#include <stdio.h>
#include <string.h>

/* Two variables of two values, one objective with ceiling 9, one table over both variables. */
static const uint8_t problem[] = {
    'H', 'D', 2, 1, 1, 0, 9, 0, 0, 0,
    'D', 'O', 2, 'D', 'O', 2,
    'C', 'F', 0, 2, 0, 1, 7, 0, 0, 0, 5, 0, 0, 0, 3, 1, 0, 0, 4, 0, 0, 0,
};

/* Two variables of two values, two objectives with ceilings 9; each variable has tables 0,1 and 1,0. */
static const uint8_t pair[] = {
    'H', 'D', 2, 2, 4, 0, 9, 0, 0, 0, 9, 0, 0, 0,
    'D', 'O', 2, 'D', 'O', 2,
    'C', 'F', 0, 1, 0, 0, 0, 0, 0, 1, 0, 0, 0,
    'C', 'F', 1, 1, 0, 1, 0, 0, 0, 0, 0, 0, 0,
    'C', 'F', 0, 1, 1, 0, 0, 0, 0, 1, 0, 0, 0,
    'C', 'F', 1, 1, 1, 1, 0, 0, 0, 0, 0, 0, 0,
};

/* Two variables of two and three values, one objective with ceiling 9; a table over variables 1 and 0, and for every
 * choice 1, 256 and 1 again. */
static const uint8_t turned[] = {
    'H', 'D', 2, 1, 4, 0, 9, 0, 0, 0,
    'D', 'O', 2, 'D', 'O', 3,
    'C', 'F', 0, 2, 1, 0, 4, 0, 0, 0, 1, 0, 0, 0, 3, 0, 0, 0, 5, 0, 0, 0, 2, 0, 0, 0, 0, 0, 0, 0,
    'C', 'F', 0, 0, 1, 0, 0, 0,
    'C', 'F', 0, 0, 0, 1, 0, 0,
    'C', 'F', 0, 0, 1, 0, 0, 0,
};

/* Prints number, place and count, how many work numbers are not zero, and of each point costs and choices. */
static void print_list(size_t problem_len, size_t room, size_t work_len) {
    static uint32_t costs[FRONTIER_MAX_POINTS * 2], work[FRONTIER_LEAST_WORK];
    static uint8_t choices[FRONTIER_MAX_POINTS * 2];
    uint32_t place = 9, count = 9, kept = 0;
    for (size_t i = 0; i < FRONTIER_LEAST_WORK; i++)
        work[i] = 9;
    uint8_t number = frontier_solve(pair, problem_len, costs, 2 * room, choices, 2 * room, work, work_len,
                                    &place, &count);
    for (size_t i = 0; i < FRONTIER_LEAST_WORK; i++)
        kept += work[i] != 0;
    printf("%u %" PRIu32 " %" PRIu32 " %" PRIu32, (unsigned)number, place, count, kept);
    for (uint32_t i = 0; i < count; i++)
        printf(" %" PRIu32 " %" PRIu32 ":%u%u", costs[2 * i], costs[2 * i + 1], choices[2 * i], choices[2 * i + 1]);
    printf("\n");
}

/* Prints number, place, count, both half sizes, how many work numbers are not zero, and of each point costs and
 * choices. The problem must be Pair, or be refused. */
static void print_cut(const uint8_t *bytes, size_t bytes_len, const uint8_t *sides, size_t sides_len, size_t room) {
    static uint32_t costs[FRONTIER_MAX_POINTS * 2], work[FRONTIER_LEAST_WORK];
    static uint8_t choices[FRONTIER_MAX_POINTS * 2];
    uint32_t place = 9, count = 9, first = 9, second = 9, kept = 0;
    for (size_t i = 0; i < FRONTIER_LEAST_WORK; i++)
        work[i] = 9;
    uint8_t number = frontier_cut(bytes, bytes_len, sides, sides_len, costs, 2 * room, choices, 2 * room, work,
                                  FRONTIER_LEAST_WORK, &place, &count, &first, &second);
    for (size_t i = 0; i < FRONTIER_LEAST_WORK; i++)
        kept += work[i] != 0;
    printf("%u %" PRIu32 " %" PRIu32 " %" PRIu32 " %" PRIu32 " %" PRIu32, (unsigned)number, place, count, first,
           second, kept);
    for (uint32_t i = 0; i < count; i++)
        printf(" %" PRIu32 " %" PRIu32 ":%u%u", costs[2 * i], costs[2 * i + 1], choices[2 * i], choices[2 * i + 1]);
    printf("\n");
}

static void print_bound(size_t problem_len, const uint8_t *prefix, size_t prefix_len) {
    uint64_t least[FRONTIER_MAX_OBJECTIVES] = {9, 9, 9, 9};
    uint32_t place = 9;
    uint8_t number = frontier_bound(problem, problem_len, prefix, prefix_len, least, &place);
    printf("%u %" PRIu32, (unsigned)number, place);
    for (int k = 0; k < FRONTIER_MAX_OBJECTIVES; k++)
        printf(" %" PRIu64, least[k]);
    printf("\n");
}

/* Prints number, place and count, how many work numbers are not zero, how many bytes past the points have changed, and
 * of each point all costs, both choices and the last one, which Pair does not use. */
static void print_points(size_t problem_len, size_t points_len, size_t work_len) {
    static struct frontier_point points[FRONTIER_MAX_POINTS];
    static uint32_t work[FRONTIER_LEAST_WORK];
    uint32_t place = 9, count = 9, kept = 0, changed = 0;
    memset(points, 9, sizeof points);
    for (size_t i = 0; i < FRONTIER_LEAST_WORK; i++)
        work[i] = 9;
    uint8_t number = frontier_points(pair, problem_len, points, points_len, work, work_len, &place, &count);
    for (size_t i = 0; i < FRONTIER_LEAST_WORK; i++)
        kept += work[i] != 0;
    for (size_t i = count * sizeof points[0]; i < sizeof points; i++)
        changed += ((const uint8_t *)points)[i] != 9;
    printf("%u %" PRIu32 " %" PRIu32 " %" PRIu32 " %" PRIu32, (unsigned)number, place, count, kept, changed);
    for (uint32_t i = 0; i < count; i++) {
        const uint32_t *costs = points[i].costs;
        const uint8_t *choice = points[i].choice;
        printf(" %" PRIu32 " %" PRIu32 " %" PRIu32 " %" PRIu32, costs[0], costs[1], costs[2], costs[3]);
        printf(":%u%u%u", choice[0], choice[1], choice[FRONTIER_MAX_VARIABLES - 1]);
    }
    printf("\n");
}

/* Prints number, place and count, how many bytes past the text have changed, and the text. */
static void print_text(const uint8_t *bytes, size_t bytes_len, size_t text_len) {
    static uint8_t text[FRONTIER_TEXT_LEN];
    uint32_t place = 9, count = 9, changed = 0;
    memset(text, 9, sizeof text);
    uint8_t number = frontier_to_text(bytes, bytes_len, text, text_len, &place, &count);
    for (size_t i = count; i < sizeof text; i++)
        changed += text[i] != 9;
    printf("%u %" PRIu32 " %" PRIu32 " %" PRIu32 "\n%.*s", (unsigned)number, place, count, changed, (int)count,
           (const char *)text);
}

/* Prints number, place and count, how many bytes past the problem have changed, and whether it is the first above. */
static void print_read(const char *text, size_t problem_len) {
    static uint8_t bytes[FRONTIER_MAX_BYTES];
    uint32_t place = 9, count = 9, changed = 0;
    memset(bytes, 9, sizeof bytes);
    uint8_t number = frontier_from_text((const uint8_t *)text, strlen(text), bytes, problem_len, &place, &count);
    for (size_t i = count; i < sizeof bytes; i++)
        changed += bytes[i] != 9;
    int same = count == sizeof problem && !memcmp(bytes, problem, sizeof problem);
    printf("%u %" PRIu32 " %" PRIu32 " %" PRIu32 " %d\n", (unsigned)number, place, count, changed, same);
}

/* Prints number, place, count and key, how many bytes past the form have changed, and its CF records in hex. The
 * problem must have two variables, or be refused. */
static void print_form(const uint8_t *bytes, size_t bytes_len, size_t form_len) {
    static uint8_t form[FRONTIER_MAX_BYTES];
    uint32_t place = 9, count = 9, changed = 0;
    uint64_t key = 9;
    memset(form, 9, sizeof form);
    uint8_t number = frontier_canonical(bytes, bytes_len, form, form_len, &place, &count, &key);
    for (size_t i = count; i < sizeof form; i++)
        changed += form[i] != 9;
    printf("%u %" PRIu32 " %" PRIu32 " %016" PRIx64 " %" PRIu32, (unsigned)number, place, count, key, changed);
    for (size_t i = 12 + 4 * (size_t)bytes[3]; i < count; i++)
        printf("%s%02x", form[i] == 'C' ? " " : "", form[i]);
    printf("\n");
}

/* Prints number, place, count and hit, how many work numbers are not zero, how many bytes of the store have changed,
 * and the points. The store is the same from call to call. */
static void print_cached(const uint8_t *bytes, size_t bytes_len, size_t room, size_t work_len, size_t store_len) {
    static uint32_t costs[FRONTIER_COSTS_LEN], work[FRONTIER_LEAST_WORK];
    static uint8_t choices[FRONTIER_CHOICES_LEN], store[2 * FRONTIER_SLOT_BYTES], before[2 * FRONTIER_SLOT_BYTES];
    uint32_t place = 9, count = 9, kept = 0, changed = 0;
    uint8_t hit = 9;
    for (size_t i = 0; i < FRONTIER_LEAST_WORK; i++)
        work[i] = 9;
    memcpy(before, store, sizeof store);
    uint8_t number = frontier_solve_cached(bytes, bytes_len, costs, 2 * room, choices, 2 * room, work, work_len, store,
                                           store_len, &place, &count, &hit);
    for (size_t i = 0; i < FRONTIER_LEAST_WORK; i++)
        kept += work[i] != 0;
    for (size_t i = 0; i < sizeof store; i++)
        changed += store[i] != before[i];
    printf("%u %" PRIu32 " %" PRIu32 " %u %" PRIu32 " %" PRIu32, (unsigned)number, place, count, (unsigned)hit, kept,
           changed);
    for (uint32_t i = 0; i < count; i++)
        printf(" %" PRIu32 " %" PRIu32 ":%u%u", costs[2 * i], costs[2 * i + 1], choices[2 * i], choices[2 * i + 1]);
    printf("\n");
}

/* Adds a frame with this problem, and this length in its head, to a batch; how many bytes the batch then has. */
static size_t add_frame(uint8_t *batch, size_t batch_len, const uint8_t *bytes, size_t bytes_len, uint32_t length) {
    uint8_t *head = batch + batch_len;
    memcpy(head, "BP", 2);
    for (int i = 0; i < 4; i++)
        head[2 + i] = (uint8_t)(length >> 8 * i);
    memcpy(head + FRONTIER_FRAME_BYTES, bytes, bytes_len);
    return batch_len + FRONTIER_FRAME_BYTES + bytes_len;
}

/* Prints number, place and count, how many work numbers are not zero, how many elements behind the areas of the batch
 * have changed, and of each problem its results and points. Problems must be Pair, or be refused. */
static void print_batch(const uint8_t *batch, size_t batch_len, size_t areas, size_t results_len, size_t work_len) {
    static uint32_t costs[FRONTIER_BATCH_COSTS_LEN], results[FRONTIER_BATCH_RESULTS_LEN], work[FRONTIER_WORK_LEN];
    static uint8_t choices[FRONTIER_BATCH_CHOICES_LEN];
    uint32_t place = 9, count = 9, kept = 0, changed = 0;
    memset(costs, 9, sizeof costs);
    memset(results, 9, sizeof results);
    memset(choices, 9, sizeof choices);
    memset(work, 9, sizeof work);
    uint8_t number = frontier_batch(batch, batch_len, costs, areas * FRONTIER_COSTS_LEN, choices,
                                    areas * FRONTIER_CHOICES_LEN, results, results_len, work, work_len, &place, &count);
    for (size_t i = 0; i < FRONTIER_WORK_LEN; i++)
        kept += work[i] != 0;
    for (size_t i = count * FRONTIER_COSTS_LEN; i < FRONTIER_BATCH_COSTS_LEN; i++)
        changed += costs[i] != 0x09090909;
    for (size_t i = count * FRONTIER_CHOICES_LEN; i < FRONTIER_BATCH_CHOICES_LEN; i++)
        changed += choices[i] != 9;
    for (size_t i = count * FRONTIER_RESULT_LEN; i < FRONTIER_BATCH_RESULTS_LEN; i++)
        changed += results[i] != 0x09090909;
    printf("%u %" PRIu32 " %" PRIu32 " %" PRIu32 " %" PRIu32, (unsigned)number, place, count, kept, changed);
    for (uint32_t k = 0; k < count; k++) {
        const uint32_t *result = results + FRONTIER_RESULT_LEN * k, *cost = costs + FRONTIER_COSTS_LEN * k;
        const uint8_t *choice = choices + FRONTIER_CHOICES_LEN * k;
        printf(" | %" PRIu32 " %" PRIu32 " %" PRIu32, result[0], result[1], result[2]);
        for (uint32_t i = 0; i < result[2]; i++)
            printf(" %" PRIu32 " %" PRIu32 ":%u%u", cost[2 * i], cost[2 * i + 1], choice[2 * i], choice[2 * i + 1]);
    }
    printf("\n");
}

/* No problem; three of which one is refused; one that is refused; an area of results that is not whole; a byte too many
 * and one too few; too little work memory; and a length of more than is left. */
static void print_batches(void) {
    static uint8_t batch[4 * (FRONTIER_FRAME_BYTES + sizeof pair)];
    size_t one = add_frame(batch, 0, pair, sizeof pair, sizeof pair);
    size_t two = add_frame(batch, one, pair, sizeof pair - 1, sizeof pair - 1);
    size_t three = add_frame(batch, two, pair, sizeof pair, sizeof pair);
    print_batch(batch, 0, 0, 0, FRONTIER_WORK_LEN);
    print_batch(batch, three, 3, 3 * FRONTIER_RESULT_LEN, FRONTIER_WORK_LEN);
    print_batch(batch + one, two - one, FRONTIER_MAX_BATCH, FRONTIER_BATCH_RESULTS_LEN, FRONTIER_WORK_LEN);
    print_batch(batch, three, 3, 3 * FRONTIER_RESULT_LEN - 1, FRONTIER_WORK_LEN);
    print_batch(batch, three + 1, FRONTIER_MAX_BATCH, FRONTIER_BATCH_RESULTS_LEN, FRONTIER_WORK_LEN);
    print_batch(batch, three - 1, FRONTIER_MAX_BATCH, FRONTIER_BATCH_RESULTS_LEN, FRONTIER_WORK_LEN - 1);
    print_batch(batch, three, 3, 3 * FRONTIER_RESULT_LEN, FRONTIER_WORK_LEN - 1);
    add_frame(batch, two, pair, sizeof pair, UINT32_MAX);
    print_batch(batch, three, 3, 3 * FRONTIER_RESULT_LEN, FRONTIER_WORK_LEN);
}

int main(void) {
    print_list(sizeof pair, FRONTIER_MAX_POINTS, FRONTIER_LEAST_WORK);
    print_list(sizeof pair, 2, FRONTIER_LEAST_WORK);
    print_list(sizeof pair, 3, FRONTIER_LEAST_WORK - 1);
    print_list(sizeof pair - 1, 3, FRONTIER_LEAST_WORK);
    static const uint8_t sides[] = {0, 1, 0}, one_side[] = {1, 1}, bad_sides[] = {0, 2};
    print_cut(pair, sizeof pair, sides, 2, 3);
    print_cut(pair, sizeof pair, one_side, 2, FRONTIER_MAX_POINTS);
    print_cut(pair, sizeof pair, sides, 2, 2);
    print_cut(pair, sizeof pair, sides, 3, 3);
    print_cut(pair, sizeof pair, bad_sides, 2, 3);
    print_cut(problem, sizeof problem, sides, 2, 3);
    print_cut(pair, sizeof pair - 1, bad_sides, 2, 3);
    static const uint8_t prefix[] = {1, 0, 0};
    for (size_t length = 0; length <= sizeof prefix; length++)
        print_bound(sizeof problem, prefix, length);
    print_bound(sizeof problem - 1, prefix, 0);
    printf("%u %u\n", (unsigned)sizeof(struct frontier_point), (unsigned)offsetof(struct frontier_point, choice));
    print_points(sizeof pair, 4, FRONTIER_LEAST_WORK);
    print_points(sizeof pair, 2, FRONTIER_LEAST_WORK);
    print_points(sizeof pair, 3, FRONTIER_LEAST_WORK - 1);
    print_points(sizeof pair - 1, 3, FRONTIER_LEAST_WORK);
    print_text(problem, sizeof problem, FRONTIER_TEXT_LEN);
    print_text(problem, sizeof problem, 50);
    print_text(problem, sizeof problem - 1, FRONTIER_TEXT_LEN);
    print_text(pair, sizeof pair, 0);
    static const char read[] = "same 2 2 1 10  2 2\r\n2 0 1 +007 3  1 1 4  0 1 5  1 0 259";
    print_read(read, FRONTIER_MAX_BYTES);
    print_read(read, sizeof problem);
    print_read(read, sizeof problem - 1);
    print_read("same 2 2 1 10  2 2  2 0 1 7 -1", FRONTIER_MAX_BYTES);
    print_read("same 2 2 1 10  2", 0);
    print_form(turned, sizeof turned, FRONTIER_MAX_BYTES);
    print_form(turned, sizeof turned, sizeof turned);
    print_form(turned, sizeof turned, sizeof turned - 1);
    print_form(turned, sizeof turned - 1, 0);
    print_form(pair, sizeof pair, sizeof pair);
    print_cached(pair, sizeof pair, 2, FRONTIER_LEAST_WORK, 2 * FRONTIER_SLOT_BYTES);
    print_cached(pair, sizeof pair, 2, FRONTIER_LEAST_WORK, 2 * FRONTIER_SLOT_BYTES);
    print_cached(pair, sizeof pair, 3, FRONTIER_LEAST_WORK, 2 * FRONTIER_SLOT_BYTES);
    print_cached(pair, sizeof pair, 3, FRONTIER_LEAST_WORK, FRONTIER_SLOT_BYTES - 1);
    print_cached(pair, sizeof pair, 3, FRONTIER_LEAST_WORK - 1, FRONTIER_SLOT_BYTES - 1);
    print_cached(pair, sizeof pair - 1, 3, FRONTIER_LEAST_WORK - 1, 0);
    print_batches();
    return 0;
}
