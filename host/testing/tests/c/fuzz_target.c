/* The calls as libFuzzer runs them; see .ci/libfuzzer. The library is not instrumented, so what guides the fuzzer is what
 * the calls tell: number, place and count go into counters of its own, and an input that reaches a new one is kept. */
#define _GNU_SOURCE
#include "frontier.h"

#include <stdlib.h>
#include <string.h>
#include <sys/mman.h>

#define PAGE 4096
#define PLACES 2048
#define NUMBERS 22

/* A counter for each number with each place (by 8 bytes), and for each count. */
__attribute__((used, section("__libfuzzer_extra_counters"))) static uint8_t reached[NUMBERS * PLACES + 65];

/* Memory that ends at a page which may not be touched. */
static uint8_t *end_of(size_t most) {
    size_t length = (most + PAGE - 1) / PAGE * PAGE;
    uint8_t *start = mmap(NULL, length + PAGE, PROT_READ | PROT_WRITE, MAP_PRIVATE | MAP_ANONYMOUS, -1, 0);
    if (start == MAP_FAILED || mprotect(start + length, PAGE, PROT_NONE))
        abort();
    return start + length;
}

static uint8_t *problem_end, *costs_end, *choices_end, *work_end, *text_end, *read_end, *store_end, *batch_end,
    *results_end;

/* Whether an accepted problem has so few complete choices that it may be searched. */
static int is_small(const uint8_t *problem) {
    size_t choices = 1, domain = 6 + 4 * (size_t)problem[3] + 2;
    for (size_t v = 0; v < problem[2] && choices <= 1000; v++)
        choices *= problem[domain + 3 * v];
    return choices <= 1000;
}

static void note(uint8_t number, uint32_t place, uint32_t count) {
    if (number >= NUMBERS || count > 64)
        abort();
    reached[number * PLACES + place / 8 % PLACES] = 1;
    reached[NUMBERS * PLACES + count] = 1;
}

/* A call must clear the work buffer after 0 and 15, and leave it alone after any other number. */
static void check_work(uint8_t number, const uint32_t *work, size_t work_len, uint32_t junk) {
    uint32_t due = number == 0 || number == FRONTIER_REFUSED_FULL ? 0 : junk;
    for (size_t i = 0; i < work_len; i++)
        if (work[i] != due)
            abort();
}

/* What is lent for an input: the problem, n and p, and the work buffer with junk. */
struct lent {
    const uint8_t *problem;
    size_t size, n, p, work_len;
};

/* The plain call, or with sides the cut call, with room for so many points and no element more; the count. */
static uint32_t list(const struct lent *lent, const uint8_t *sides, size_t room) {
    size_t costs_len = room * lent->p, choices_len = room * lent->n;
    uint32_t *costs = (uint32_t *)costs_end - costs_len, *work = (uint32_t *)work_end - lent->work_len;
    uint8_t *choices = choices_end - choices_len, number;
    uint32_t place, count, first, second, junk = sides ? 0x5c5c5c5c : 0xa5a5a5a5;
    for (size_t i = 0; i < lent->work_len; i++)
        work[i] = junk;
    if (sides)
        number = frontier_cut(lent->problem, lent->size, sides, lent->n, costs, costs_len, choices, choices_len, work,
                              lent->work_len, &place, &count, &first, &second);
    else
        number = frontier_solve(lent->problem, lent->size, costs, costs_len, choices, choices_len, work, lent->work_len,
                                &place, &count);
    note(number, place, count);
    check_work(number, work, lent->work_len, junk);
    return count;
}

/* Both calls, with room for all points, for exactly as many as there are, and for one less. */
static void list_all(const struct lent *lent) {
    uint8_t sides[FRONTIER_MAX_VARIABLES];
    for (size_t v = 0; v < sizeof sides; v++)
        sides[v] = lent->size % 2 && v * 2 >= lent->n; /* every second input has all variables on one side */
    uint32_t count = list(lent, NULL, FRONTIER_MAX_POINTS);
    if (list(lent, NULL, count) != count || (count && list(lent, NULL, count - 1)))
        abort();
    uint32_t cut = list(lent, sides, FRONTIER_MAX_POINTS);
    if (list(lent, sides, cut) != cut || (cut && cut != count))
        abort();
}

/* A call that makes one form of a problem of another. */
typedef uint8_t converting(const uint8_t *form, size_t form_len, uint8_t *made, size_t made_len, uint32_t *place,
                           uint32_t *count);

/* Such a call with so many bytes, which end there, and no byte more; the count. */
static uint32_t convert(converting *call, const uint8_t *form, size_t form_len, uint8_t *end, size_t made_len) {
    uint8_t *made = end - made_len;
    uint32_t place, count;
    memset(made, 0xa5, made_len);
    uint8_t number = call(form, form_len, made, made_len, &place, &count);
    note(number, place, 0);
    if (count > made_len || (number && count))
        abort();
    for (size_t i = count; i < made_len; i++)
        if (made[i] != 0xa5)
            abort();
    return count;
}

/* Such a call with as many bytes as there may be made, with as many as are, and with one less; the count. */
static uint32_t convert_all(converting *call, const uint8_t *form, size_t form_len, uint8_t *end, size_t most) {
    uint32_t count = convert(call, form, form_len, end, most);
    if (count && convert(call, form, form_len, end, count - 1))
        abort();
    if (convert(call, form, form_len, end, count) != count)
        abort();
    return count;
}

/* The text of an input that is a problem, read back, is a problem of the same length and with the same text. It differs
 * in forbidden entries alone, whose bytes are all 255 and which have become the upper bound. */
static void text_back(const struct lent *lent, uint32_t count) {
    static uint8_t text[FRONTIER_TEXT_LEN];
    size_t back = convert(frontier_from_text, text_end - count, count, read_end, lent->size);
    if (back != lent->size)
        abort();
    const uint8_t *read = read_end - back;
    for (size_t i = 0; i < back; i++)
        if (read[i] != lent->problem[i] && lent->problem[i] != 255)
            abort();
    memcpy(text, text_end - count, count);
    if (convert(frontier_to_text, read, back, text_end, count) != count)
        abort();
    if (memcmp(text_end - count, text, count))
        abort();
}

/* Both converting calls: the input as a problem, the text of it read back, and the input as a text. */
static void text_all(const struct lent *lent) {
    size_t most = lent->size * FRONTIER_TEXT_LEN / FRONTIER_MAX_BYTES;
    if (most > FRONTIER_TEXT_LEN)
        most = FRONTIER_TEXT_LEN;
    uint32_t count = convert_all(frontier_to_text, lent->problem, lent->size, text_end, most);
    if (count)
        text_back(lent, count);
    convert_all(frontier_from_text, lent->problem, lent->size, read_end, FRONTIER_MAX_BYTES);
}

/* The canonical call with so many bytes, which end there, and no byte more; the count. */
static uint32_t form_in(const uint8_t *problem, size_t size, uint8_t *end, size_t form_len, uint64_t *key) {
    uint8_t *form = end - form_len;
    uint32_t place, count;
    memset(form, 0xa5, form_len);
    uint8_t number = frontier_canonical(problem, size, form, form_len, &place, &count, key);
    note(number, place, 0);
    if (number ? count || *key : count != size)
        abort();
    for (size_t i = count; i < form_len; i++)
        if (form[i] != 0xa5)
            abort();
    return count;
}

/* The canonical call with as many bytes as are needed, with one more and with one less; the form is its own form. */
static void form_all(const struct lent *lent) {
    uint64_t key, other;
    uint32_t count = form_in(lent->problem, lent->size, text_end, lent->size + 1, &key);
    if (form_in(lent->problem, lent->size, text_end, count, &other) != count || other != key)
        abort();
    if (!count)
        return;
    if (form_in(text_end - count, count, read_end, count, &other) != count || other != key)
        abort();
    if (memcmp(text_end - count, read_end - count, count))
        abort();
    if (form_in(lent->problem, lent->size, text_end, count - 1, &other))
        abort();
}

/* The cached call on a store of so many bytes, which end there, with room for so many points; the count. */
static uint32_t cached_in(const struct lent *lent, size_t room, size_t store_len, uint8_t *hit) {
    size_t costs_len = room * lent->p, choices_len = room * lent->n;
    uint32_t *costs = (uint32_t *)costs_end - costs_len, *work = (uint32_t *)work_end - lent->work_len;
    uint8_t *choices = choices_end - choices_len;
    uint32_t place, count;
    for (size_t i = 0; i < lent->work_len; i++)
        work[i] = 0x3e3e3e3e;
    uint8_t number = frontier_solve_cached(lent->problem, lent->size, costs, costs_len, choices, choices_len, work,
                                           lent->work_len, store_end - store_len, store_len, &place, &count, hit);
    note(number, place, count);
    check_work(number, work, lent->work_len, 0x3e3e3e3e);
    if (*hit > 1 || (*hit && number && number != FRONTIER_REFUSED_FULL))
        abort();
    return count;
}

/* The cached call on a cleared store of one slot, again on what it has stored, with a byte too few, and on a store full
 * of the input's own bytes. */
static void cached_all(const struct lent *lent) {
    uint8_t hit, again;
    size_t one = FRONTIER_SLOT_BYTES;
    memset(store_end - one, 0, one);
    uint32_t count = cached_in(lent, FRONTIER_MAX_POINTS, one, &hit);
    if (hit || cached_in(lent, FRONTIER_MAX_POINTS, one, &again) != count || (count && !again))
        abort();
    if (cached_in(lent, FRONTIER_MAX_POINTS, one - 1, &hit) || hit)
        abort();
    uint8_t *store = store_end - one - 100;
    for (size_t i = 0; i < one + 100; i++)
        store[i] = lent->size ? lent->problem[i % lent->size] : 0xa5;
    cached_in(lent, lent->size % 65, one + 100, &hit);
}

/* The problems of the batch that is made of an input. */
#define FRAMES 3

/* The batch call with areas for so many problems, but for one element of one of three buffers, and with so much work
 * memory. It leaves everything as it was if it refuses. The number. */
static uint8_t batch_in(const uint8_t *batch, size_t batch_len, size_t areas, int lacking, size_t work_len) {
    size_t costs_len = areas * FRONTIER_COSTS_LEN - (lacking == 1);
    size_t choices_len = areas * FRONTIER_CHOICES_LEN - (lacking == 2);
    size_t results_len = areas * FRONTIER_RESULT_LEN - (lacking == 3);
    uint32_t *costs = (uint32_t *)costs_end - costs_len, *results = (uint32_t *)results_end - results_len;
    uint8_t *choices = choices_end - choices_len;
    uint32_t *work = (uint32_t *)work_end - work_len, place, count;
    memset(costs, 0xa5, 4 * costs_len);
    memset(choices, 0xa5, choices_len);
    memset(results, 0xa5, 4 * results_len);
    memset(work, 0xa5, 4 * work_len);
    uint8_t number = frontier_batch(batch, batch_len, costs, costs_len, choices, choices_len, results, results_len,
                                    work, work_len, &place, &count);
    note(number, place, count);
    if (place || (number && count))
        abort();
    for (size_t i = 0; number && i < 4 * costs_len; i++)
        if (((uint8_t *)costs)[i] != 0xa5)
            abort();
    for (size_t i = 0; number && i < choices_len; i++)
        if (choices[i] != 0xa5)
            abort();
    for (size_t i = 0; number && i < results_len; i++)
        if (results[i] != 0xa5a5a5a5)
            abort();
    if (number)
        check_work(number, work, work_len, 0xa5a5a5a5);
    return number;
}

/* Puts a frame there; where the next one goes. */
static uint8_t *put_frame(uint8_t *at, const uint8_t *problem, size_t size) {
    memcpy(at, "BP", 2);
    for (int i = 0; i < 4; i++)
        at[2 + i] = (uint8_t)(size >> 8 * i);
    memcpy(at + FRONTIER_FRAME_BYTES, problem, size);
    return at + FRONTIER_FRAME_BYTES + size;
}

/* After a batch call the areas of problem k are those of a plain call of the input on such areas. */
static void check_areas(const struct lent *lent, size_t k) {
    static uint32_t costs[FRONTIER_COSTS_LEN], work[FRONTIER_LEAST_WORK];
    static uint8_t choices[FRONTIER_CHOICES_LEN];
    uint32_t place, count;
    memset(costs, 0xa5, sizeof costs);
    memset(choices, 0xa5, sizeof choices);
    uint8_t number = frontier_solve(lent->problem, lent->size, costs, FRONTIER_COSTS_LEN, choices, FRONTIER_CHOICES_LEN,
                                    work, lent->work_len, &place, &count);
    const uint32_t *result = (uint32_t *)results_end - (FRAMES - k) * FRONTIER_RESULT_LEN;
    if (result[0] != number || result[1] != place || result[2] != count)
        abort();
    if (memcmp((uint32_t *)costs_end - (FRAMES - k) * FRONTIER_COSTS_LEN, costs, sizeof costs))
        abort();
    if (memcmp(choices_end - (FRAMES - k) * FRONTIER_CHOICES_LEN, choices, sizeof choices))
        abort();
}

/* The batch call on the input between itself and no bytes, with all areas, and with an element, an area or a byte too
 * few; and on the input as a batch, of which no problem is searched. */
static void batch_all(const struct lent *lent) {
    size_t length = FRAMES * FRONTIER_FRAME_BYTES + 2 * lent->size;
    uint8_t *batch = batch_end - length, *at = put_frame(batch, lent->problem, lent->size);
    at = put_frame(at, lent->problem, 0);
    put_frame(at, lent->problem, lent->size);
    uint8_t due = lent->work_len < FRONTIER_LEAST_WORK ? FRONTIER_REFUSED_WORK : 0;
    for (int lacking = 1; lacking <= 3; lacking++)
        if (batch_in(batch, length, FRAMES, lacking, lent->work_len) != FRONTIER_REFUSED_BATCH)
            abort();
    if (batch_in(batch, length, FRAMES - 1, 0, lent->work_len) != FRONTIER_REFUSED_BATCH)
        abort();
    if (batch_in(batch, length - 1, FRAMES, 0, lent->work_len) != FRONTIER_REFUSED_BATCH)
        abort();
    if (batch_in(batch, length, FRAMES, 0, lent->work_len) != due)
        abort();
    const uint32_t *empty = (uint32_t *)results_end - 2 * FRONTIER_RESULT_LEN;
    if (!due && (empty[0] != FRONTIER_REFUSED_CUT_SHORT || empty[1] || empty[2]))
        abort();
    for (size_t k = 0; !due && k < FRAMES; k += 2)
        check_areas(lent, k);
    batch_in(lent->problem, lent->size, FRAMES, 0, FRONTIER_LEAST_WORK - 1);
}

int LLVMFuzzerTestOneInput(const uint8_t *data, size_t size) {
    if (size > FRONTIER_MAX_BYTES + 8)
        return 0;
    if (!problem_end) {
        problem_end = end_of(FRONTIER_MAX_BYTES + 8);
        costs_end = end_of(4 * FRAMES * FRONTIER_COSTS_LEN);
        choices_end = end_of(FRAMES * FRONTIER_CHOICES_LEN);
        results_end = end_of(4 * FRAMES * FRONTIER_RESULT_LEN);
        batch_end = end_of(FRAMES * (FRONTIER_FRAME_BYTES + FRONTIER_MAX_BYTES + 8));
        work_end = end_of(4 * FRONTIER_LEAST_WORK);
        text_end = end_of(FRONTIER_TEXT_LEN);
        read_end = end_of(FRONTIER_MAX_BYTES);
        store_end = end_of(FRONTIER_SLOT_BYTES + 100);
    }
    uint8_t *problem = problem_end - size;
    memcpy(problem, data, size);
    uint64_t least[FRONTIER_MAX_OBJECTIVES];
    uint32_t place;
    uint8_t number = frontier_bound(problem, size, problem, size < 3 ? size : 3, least, &place);
    note(number, place, 0);
    struct lent lent = {problem, size, FRONTIER_MAX_VARIABLES, FRONTIER_MAX_OBJECTIVES, FRONTIER_LEAST_WORK};
    if (number == 0 || number == FRONTIER_REFUSED_PREFIX) {
        lent.n = problem[2];
        lent.p = problem[3];
        lent.work_len -= !is_small(problem); /* too short, so that a large problem is not searched */
    }
    list_all(&lent);
    text_all(&lent);
    form_all(&lent);
    cached_all(&lent);
    batch_all(&lent);
    if (memcmp(problem, data, size))
        abort();
    return 0;
}
