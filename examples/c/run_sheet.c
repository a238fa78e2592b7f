/*
 * Runs the sheet that a file holds, whatever room its listing needs:
 *
 *     run_sheet SHEET HORIZON [EDITION]
 *
 * The edition is 1 where none is given. The exit status is 0 if the run has finished, 1 if it was refused, and
 * 2 after wrong use or where there is no file, memory or output. Document 01's worked run, whose sheet stands
 * after four bytes of the horizon there:
 *
 *     tail -c +5 crates/simulate/stdin | target/c/run_sheet /dev/stdin 12
 */
#include <errno.h>
#include <stdbool.h>
#include <stdio.h>
#include <stdlib.h>
#include <string.h>

#include "print.h"
#include "timing.h"

/* The records that a listing has room for at first. */
#define FIRST_ROOM 6000

typedef void run_type(const uint8_t *, size_t, uint32_t, uint8_t *, size_t, uint32_t *);

/* One byte more than the longest sheet has: a longer file is refused by then, whatever its other bytes are. */
static uint8_t sheet[TIMING_LONGEST_SHEET_2 + 1];

static int failed(const char *what, const char *why)
{
    fprintf(stderr, "run_sheet: %s: %s\n", what, why);
    return STATUS_FAILED;
}

/* The call for sheets of an edition, or NULL. */
static run_type *call_of(const char *edition)
{
    if (strcmp(edition, "1") == 0)
        return timing_run;
    if (strcmp(edition, "2") == 0)
        return timing_run_2;
    return NULL;
}

/* Whether a text is a number of 32 bits in decimal digits alone: strtoull takes spaces and signs as well. */
static bool read_number(const char *text, uint32_t *number)
{
    unsigned long long read;

    if (*text == '\0' || text[strspn(text, "0123456789")] != '\0')
        return false;
    errno = 0;
    read = strtoull(text, NULL, 10);
    *number = (uint32_t)read;
    return errno == 0 && read <= UINT32_MAX;
}

/* Whether the sheet could be read. */
static bool read_sheet(const char *name, size_t *length)
{
    FILE *file = fopen(name, "rb");
    bool is_read = false;

    if (file != NULL) {
        *length = fread(sheet, 1, sizeof sheet, file);
        is_read = !ferror(file);
    }
    if (!is_read)
        failed(name, strerror(errno));
    if (file != NULL)
        fclose(file);
    return is_read;
}

/*
 * Runs the sheet into a listing that is to be freed, or NULL where there is no memory for it. While a listing
 * has no room for all records the run is made again with twice the room. One for each node that may be watched
 * and each tick is room enough for any run.
 */
static uint8_t *run(run_type *call, size_t length, uint32_t horizon, uint32_t answer[3])
{
    const size_t longest = (size_t)TIMING_MOST_WATCHED * horizon;
    size_t room = FIRST_ROOM;

    for (;;) {
        size_t bytes = room * TIMING_RECORD_SIZE;
        uint8_t *listing = malloc(bytes);

        if (listing == NULL)
            return NULL;
        call(sheet, length, horizon, listing, bytes, answer);
        if (answer[0] != TIMING_NO_ROOM || room >= longest)
            return listing;
        free(listing);
        room = room < longest / 2 ? 2 * room : longest;
    }
}

int main(int argc, char **argv)
{
    run_type *call;
    uint32_t horizon, answer[3];
    size_t length;
    uint8_t *listing;
    int status;

    if (argc != 3 && argc != 4) {
        fprintf(stderr, "usage: run_sheet SHEET HORIZON [EDITION]\n");
        return STATUS_FAILED;
    }
    if (!read_number(argv[2], &horizon))
        return failed(argv[2], "the horizon is a number of ticks, below 2 to the power 32");
    call = call_of(argc == 4 ? argv[3] : "1");
    if (call == NULL)
        return failed(argv[3], "the edition is 1 or 2");
    if (!read_sheet(argv[1], &length))
        return STATUS_FAILED;
    listing = run(call, length, horizon, answer);
    if (listing == NULL)
        return failed("the listing", strerror(errno));
    status = print_run(answer, listing);
    free(listing);
    return status;
}
