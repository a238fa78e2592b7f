/*
 * Document 01's worked run from C, whole, as an example to copy. In the repository's folder:
 *
 *     gcc -std=c99 -I include rust/compare/tests/c/worked_run.c target/staticlib/libtiming_c.a -o worked_run
 */
#include <inttypes.h>
#include <stdio.h>
#include <stdlib.h>

#include "timing.h"

static const uint8_t sheet[] = {
    2, 0, 4, 2,          /* two nodes: node 0 is an input, node 1 begins at X */
    1, 0,                /* one module */
    6, 0, 1, 0, 1, 3, 0, /* NAND, no parameter, onto node 1, of nodes 0 and 1, delay 3 */
    2, 0,                /* two events */
    0, 0, 0, 0, 0, 0,    /* at tick 0 node 0 is 0 */
    5, 0, 0, 0, 0, 1,    /* at tick 5 it is 1 */
    2, 0, 0, 1           /* two watched nodes: 0 and 1 */
};

/* A number of four bytes, the low one first: a record's tick, and its end six bytes later. */
static uint32_t number_at(const uint8_t *bytes)
{
    return bytes[0] | (uint32_t)bytes[1] << 8 | (uint32_t)bytes[2] << 16 | (uint32_t)bytes[3] << 24;
}

static void print_record(const uint8_t *record)
{
    printf("%" PRIu32 " %d %c %" PRIu32 "\n", number_at(record), record[4], "01XZ"[record[5]],
           number_at(record + 6));
}

/* The answer's sentence, in a line. */
static void print_sentence(FILE *file, const uint32_t answer[3])
{
    uint8_t text[TIMING_LONGEST_SENTENCE];
    uint32_t described[3];

    timing_describe(answer[0], answer[1], answer[2], text, sizeof text, described);
    fprintf(file, "%.*s\n", (int)described[2], (const char *)text);
}

int main(void)
{
    uint8_t listing[100 * TIMING_RECORD_SIZE];
    uint32_t answer[3];

    timing_run(sheet, sizeof sheet, 12, listing, sizeof listing, answer);
    if (answer[0] != TIMING_FINISHED) {
        print_sentence(stderr, answer);
        return EXIT_FAILURE;
    }
    print_sentence(stdout, answer);
    for (uint32_t i = 0; i < answer[2]; i++)
        print_record(listing + i * TIMING_RECORD_SIZE);
    return EXIT_SUCCESS;
}
