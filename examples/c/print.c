/*
 * What became of a run, printed: the answer's sentence, and the records of the listing.
 */
#include "print.h"

#include <inttypes.h>
#include <stdio.h>

#include "timing.h"

/* A number of four bytes, the low one first: a record's tick, and its end six bytes later. */
static uint32_t number_at(const uint8_t *bytes)
{
    return bytes[0] | (uint32_t)bytes[1] << 8 | (uint32_t)bytes[2] << 16 | (uint32_t)bytes[3] << 24;
}

static void print_record(const uint8_t *record)
{
    printf("%" PRIu32 " %d %c %" PRIu32 "\n", number_at(record), record[4], "01XZ"[record[5]],
           number_at(record + 6));
}

/* The answer's sentence, in a line. */
static void print_sentence(FILE *file, const uint32_t answer[3])
{
    uint8_t text[TIMING_LONGEST_SENTENCE];
    uint32_t described[3];

    timing_describe(answer[0], answer[1], answer[2], text, sizeof text, described);
    fprintf(file, "%.*s\n", (int)described[2], (const char *)text);
}

int print_run(const uint32_t answer[3], const uint8_t *listing)
{
    if (answer[0] != TIMING_FINISHED) {
        print_sentence(stderr, answer);
        return STATUS_REFUSED;
    }
    print_sentence(stdout, answer);
    for (size_t i = 0; i < answer[2]; i++)
        print_record(listing + i * TIMING_RECORD_SIZE);
    /* What was printed may wait in a buffer until now. */
    if (fflush(stdout) != 0 || ferror(stdout)) {
        fprintf(stderr, "standard output did not take the whole text\n");
        return STATUS_FAILED;
    }
    return STATUS_FINISHED;
}
