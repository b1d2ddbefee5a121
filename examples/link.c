/* Lists the frontier of a problem file by the static library, as a compiler would that links it.
 *
 *   cc -Iinclude examples/link.c target/staticlib/libfrontier.a -o link && ./link examples/firmware.bin
 */
#include "frontier.h"

#include <inttypes.h>
#include <stdio.h>

/* The library allocates nothing: a caller lends all memory. These buffers do for every problem, and may be lent again and
 * again without being cleared. One byte more than a problem may have lets the library see that a file is too long. */
static uint8_t problem[FRONTIER_MAX_BYTES + 1];
static uint32_t costs[FRONTIER_COSTS_LEN];
static uint8_t choices[FRONTIER_CHOICES_LEN];
static uint32_t work[FRONTIER_WORK_LEN];

/* Returns 0 if the library has all that the header declares, or prints what is wrong and returns 2. */
static int check_version(void) {
    uint32_t version = frontier_version();
    if (version / 1000000 == FRONTIER_VERSION_MAJOR && version >= FRONTIER_VERSION)
        return 0;
    fprintf(stderr, "link: the library has version %u.%u.%u, and the header %d.%d.%d; take both from one version\n",
            (unsigned)(version / 1000000), (unsigned)(version / 1000 % 1000), (unsigned)(version % 1000),
            FRONTIER_VERSION_MAJOR, FRONTIER_VERSION_MINOR, FRONTIER_VERSION_PATCH);
    return 2;
}

/* Reads the file into problem. Returns 0 and sets *length, or prints what is wrong and returns 2. */
static int read_problem(const char *path, size_t *length) {
    FILE *file = fopen(path, "rb");
    if (!file) {
        fprintf(stderr, "link: %s cannot be opened; name a problem file\n", path);
        return 2;
    }
    *length = fread(problem, 1, sizeof problem, file);
    int failed = ferror(file);
    fclose(file);
    if (failed)
        fprintf(stderr, "link: %s cannot be read; name a problem file\n", path);
    return failed ? 2 : 0;
}

/* Prints the points: costs before the colon, the choice behind it. An accepted problem has n and p at bytes 2 and 3. */
static void print_points(uint32_t count) {
    size_t variables = problem[2], objectives = problem[3];
    for (size_t i = 0; i < count; i++) {
        for (size_t k = 0; k < objectives; k++)
            printf("%" PRIu32 " ", costs[i * objectives + k]);
        printf(":");
        for (size_t v = 0; v < variables; v++)
            printf(" %u", (unsigned)choices[i * variables + v]);
        printf("\n");
    }
}

int main(int argc, char **argv) {
    if (argc != 2) {
        fprintf(stderr, "usage: link FILE\n");
        return 2;
    }
    size_t length = 0;
    if (check_version() || read_problem(argv[1], &length))
        return 2;
    uint32_t place, count;
    uint8_t number = frontier_solve(problem, length, costs, FRONTIER_COSTS_LEN, choices, FRONTIER_CHOICES_LEN, work,
                                    FRONTIER_WORK_LEN, &place, &count);
    if (number != FRONTIER_ACCEPTED) {
        fprintf(stderr, "link: %s is refused with number %u (%s) at byte %" PRIu32 "\n", argv[1], (unsigned)number,
                frontier_word(number), place);
        return 1;
    }
    print_points(count);
    return 0;
}
