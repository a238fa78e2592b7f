/*
 * One call, over the sheet at standard input if it takes one, for the tests: prints the answer's
 * three words in a line and, for each buffer that is lent, every byte of it in hexadecimal in a line more.
 *
 *     calls check
 *     calls check_strict
 *     calls run HORIZON BYTES
 *     calls pulses HORIZON WIDTH LISTING_BYTES REPORT_BYTES
 *     calls convert_1_to_2 BYTES
 *     calls convert_2_to_1 BYTES
 *     calls load SEED N BYTES
 *     calls describe NUMBER PLACE COUNT BYTES
 *
 * Over a sheet of the second edition the first four are check_2, check_strict_2, run_2 and pulses_2, and a load
 * is load_2. A call that changes the sheet fails.
 */
#include <inttypes.h>
#include <stdio.h>
#include <stdlib.h>
#include <string.h>

#include "timing.h"

/* A byte that the buffer is filled with, so that one that is written shows. */
#define UNTOUCHED 0xA5

/* The entry points' types, written once more: the header's must be these. */
typedef void check_type(const uint8_t *, size_t, uint32_t *);
typedef void run_type(const uint8_t *, size_t, uint32_t, uint8_t *, size_t, uint32_t *);
typedef void pulses_type(const uint8_t *, size_t, uint32_t, uint32_t, uint8_t *, size_t, uint8_t *, size_t,
                         uint32_t *);
typedef void convert_type(const uint8_t *, size_t, uint8_t *, size_t, uint32_t *);
typedef void load_type(const uint8_t *, size_t, uint32_t, uint32_t, uint8_t *, size_t, uint32_t *);

static const struct {
    const char *name;
    check_type *call;
} checks[] = {
    {"check", timing_check},
    {"check_strict", timing_check_strict},
    {"check_2", timing_check_2},
    {"check_strict_2", timing_check_strict_2}
};

static const struct {
    const char *name;
    run_type *call;
} runs[] = {
    {"run", timing_run},
    {"run_2", timing_run_2}
};

static const struct {
    const char *name;
    pulses_type *call;
} reports[] = {
    {"pulses", timing_pulses},
    {"pulses_2", timing_pulses_2}
};

static const struct {
    const char *name;
    convert_type *call;
} conversions[] = {
    {"convert_1_to_2", timing_convert_1_to_2},
    {"convert_2_to_1", timing_convert_2_to_1}
};

static const struct {
    const char *name;
    load_type *call;
} loads[] = {
    {"load", timing_load},
    {"load_2", timing_load_2}
};

static void (*const describe_call)(uint32_t, uint32_t, uint32_t, uint8_t *, size_t, uint32_t *) = timing_describe;

static uint8_t sheet[2 * TIMING_LONGEST_SHEET_2];
static uint8_t given[sizeof sheet]; /* as it was */
static uint8_t lent[60000];
static uint8_t report[60000];

static void print_answer(const uint32_t answer[3])
{
    printf("%" PRIu32 " %" PRIu32 " %" PRIu32 "\n", answer[0], answer[1], answer[2]);
}

static void print_bytes(const uint8_t *buffer, size_t bytes)
{
    for (size_t i = 0; i < bytes; i++)
        printf("%02X", buffer[i]);
    printf("\n");
}

static void check(check_type *call, size_t length)
{
    uint32_t answer[3] = {UINT32_MAX, UINT32_MAX, UINT32_MAX};

    call(sheet, length, answer);
    print_answer(answer);
}

static void run(run_type *call, size_t length, uint32_t horizon, size_t bytes)
{
    uint32_t answer[3] = {UINT32_MAX, UINT32_MAX, UINT32_MAX};

    memset(lent, UNTOUCHED, sizeof lent);
    call(sheet, length, horizon, lent, bytes, answer);
    print_answer(answer);
    print_bytes(lent, bytes);
}

static void pulses(pulses_type *call, size_t length, const uint32_t words[2], size_t bytes, size_t report_bytes)
{
    uint32_t answer[3] = {UINT32_MAX, UINT32_MAX, UINT32_MAX};

    memset(lent, UNTOUCHED, sizeof lent);
    memset(report, UNTOUCHED, sizeof report);
    call(sheet, length, words[0], words[1], lent, bytes, report, report_bytes, answer);
    print_answer(answer);
    print_bytes(lent, bytes);
    print_bytes(report, report_bytes);
}

static void convert(convert_type *call, size_t length, size_t bytes)
{
    uint32_t answer[3] = {UINT32_MAX, UINT32_MAX, UINT32_MAX};

    memset(lent, UNTOUCHED, sizeof lent);
    call(sheet, length, lent, bytes, answer);
    print_answer(answer);
    print_bytes(lent, bytes);
}

static void load(load_type *call, size_t length, const uint32_t words[2], size_t bytes)
{
    uint32_t answer[3] = {UINT32_MAX, UINT32_MAX, UINT32_MAX};

    memset(lent, UNTOUCHED, sizeof lent);
    call(sheet, length, words[0], words[1], lent, bytes, answer);
    print_answer(answer);
    print_bytes(lent, bytes);
}

static void describe(const uint32_t words[3], size_t bytes)
{
    uint32_t answer[3] = {UINT32_MAX, UINT32_MAX, UINT32_MAX};

    memset(lent, UNTOUCHED, sizeof lent);
    describe_call(words[0], words[1], words[2], lent, bytes, answer);
    print_answer(answer);
    print_bytes(lent, bytes);
}

static uint32_t word(const char *digits)
{
    return (uint32_t)strtoul(digits, NULL, 10);
}

/* Whether the call that is asked for was made. */
static int is_made(int argc, char **argv, size_t length)
{
    for (size_t i = 0; i < sizeof checks / sizeof *checks; i++) {
        if (argc == 2 && strcmp(argv[1], checks[i].name) == 0) {
            check(checks[i].call, length);
            return 1;
        }
    }
    for (size_t i = 0; i < sizeof runs / sizeof *runs; i++) {
        if (argc == 4 && strcmp(argv[1], runs[i].name) == 0) {
            size_t bytes = strtoul(argv[3], NULL, 10);

            if (bytes <= sizeof lent) {
                run(runs[i].call, length, word(argv[2]), bytes);
                return 1;
            }
        }
    }
    for (size_t i = 0; i < sizeof reports / sizeof *reports; i++) {
        if (argc == 6 && strcmp(argv[1], reports[i].name) == 0) {
            const uint32_t words[2] = {word(argv[2]), word(argv[3])};
            size_t bytes = strtoul(argv[4], NULL, 10), report_bytes = strtoul(argv[5], NULL, 10);

            if (bytes <= sizeof lent && report_bytes <= sizeof report) {
                pulses(reports[i].call, length, words, bytes, report_bytes);
                return 1;
            }
        }
    }
    for (size_t i = 0; i < sizeof conversions / sizeof *conversions; i++) {
        if (argc == 3 && strcmp(argv[1], conversions[i].name) == 0) {
            size_t bytes = strtoul(argv[2], NULL, 10);

            if (bytes <= sizeof lent) {
                convert(conversions[i].call, length, bytes);
                return 1;
            }
        }
    }
    for (size_t i = 0; i < sizeof loads / sizeof *loads; i++) {
        if (argc == 5 && strcmp(argv[1], loads[i].name) == 0) {
            const uint32_t words[2] = {word(argv[2]), word(argv[3])};
            size_t bytes = strtoul(argv[4], NULL, 10);

            if (bytes <= sizeof lent) {
                load(loads[i].call, length, words, bytes);
                return 1;
            }
        }
    }
    if (argc == 6 && strcmp(argv[1], "describe") == 0) {
        const uint32_t words[3] = {word(argv[2]), word(argv[3]), word(argv[4])};
        size_t bytes = strtoul(argv[5], NULL, 10);

        if (bytes <= sizeof lent) {
            describe(words, bytes);
            return 1;
        }
    }
    return 0;
}

int main(int argc, char **argv)
{
    size_t length = fread(sheet, 1, sizeof sheet, stdin);

    memcpy(given, sheet, sizeof sheet);
    if (!is_made(argc, argv, length)) {
        fprintf(stderr, "usage: calls CHECK | calls RUN HORIZON BYTES |"
                        " calls PULSES HORIZON WIDTH LISTING_BYTES REPORT_BYTES | calls CONVERSION BYTES |"
                        " calls LOAD SEED N BYTES | calls describe NUMBER PLACE COUNT BYTES\n");
        return EXIT_FAILURE;
    }
    return memcmp(sheet, given, sizeof sheet) == 0 ? EXIT_SUCCESS : EXIT_FAILURE;
}
