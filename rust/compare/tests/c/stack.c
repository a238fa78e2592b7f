/*
 * The bytes of stack that a call uses, over the sheet at standard input if it takes one, below the
 * frame that makes it: the call is made in a thread whose stack is filled with one byte beforehand,
 * and the lowest byte that has changed is looked for afterwards.
 *
 *     stack check
 *     stack check_strict
 *     stack run HORIZON
 *     stack pulses HORIZON WIDTH
 *     stack convert_1_to_2
 *     stack convert_2_to_1
 *     stack load SEED N
 *     stack describe NUMBER PLACE COUNT
 *
 * Over a sheet of the second edition the first four are check_2, check_strict_2, run_2 and pulses_2, and a load
 * is load_2.
 */
#define _POSIX_C_SOURCE 200809L

#include <pthread.h>
#include <stdio.h>
#include <stdlib.h>
#include <string.h>

#include "timing.h"

#define STACK ((size_t)1 << 20)
#define PAGE 4096
#define UNTOUCHED 0xA5
#define MOST_TICKS 2000 /* a run to a horizon up to this one finds room, so that a report is made */

static uint8_t sheet[2 * TIMING_LONGEST_SHEET_2];
static size_t length;
static const char *call;
static uint32_t words[3]; /* the call's numbers */
static uint8_t listing[(size_t)TIMING_MOST_WATCHED * MOST_TICKS * TIMING_RECORD_SIZE];
static uint8_t report[60000];
static uint8_t output[2 * TIMING_LONGEST_SHEET_2];
static uint8_t text[TIMING_LONGEST_SENTENCE];
static uint32_t answer[3];
static ptrdiff_t used;

static const uint8_t *lowest_touched(const uint8_t *stack)
{
    while (*stack == UNTOUCHED)
        stack++;
    return stack;
}

/* Makes the call on this stack. It is looked at before the thread ends and gives it back. */
static void *call_on(void *stack)
{
    const uint8_t *frame = __builtin_frame_address(0);

    if (strcmp(call, "check") == 0)
        timing_check(sheet, length, answer);
    else if (strcmp(call, "check_strict") == 0)
        timing_check_strict(sheet, length, answer);
    else if (strcmp(call, "check_2") == 0)
        timing_check_2(sheet, length, answer);
    else if (strcmp(call, "check_strict_2") == 0)
        timing_check_strict_2(sheet, length, answer);
    else if (strcmp(call, "run") == 0)
        timing_run(sheet, length, words[0], listing, sizeof listing, answer);
    else if (strcmp(call, "run_2") == 0)
        timing_run_2(sheet, length, words[0], listing, sizeof listing, answer);
    else if (strcmp(call, "pulses") == 0)
        timing_pulses(sheet, length, words[0], words[1], listing, sizeof listing, report, sizeof report, answer);
    else if (strcmp(call, "pulses_2") == 0)
        timing_pulses_2(sheet, length, words[0], words[1], listing, sizeof listing, report, sizeof report, answer);
    else if (strcmp(call, "convert_1_to_2") == 0)
        timing_convert_1_to_2(sheet, length, output, sizeof output, answer);
    else if (strcmp(call, "convert_2_to_1") == 0)
        timing_convert_2_to_1(sheet, length, output, sizeof output, answer);
    else if (strcmp(call, "load") == 0)
        timing_load(sheet, length, words[0], words[1], output, sizeof output, answer);
    else if (strcmp(call, "load_2") == 0)
        timing_load_2(sheet, length, words[0], words[1], output, sizeof output, answer);
    else
        timing_describe(words[0], words[1], words[2], text, sizeof text, answer);
    used = frame - lowest_touched(stack);
    return NULL;
}

/* 0 where the thread has run. */
static int run_thread(void *stack)
{
    pthread_attr_t attributes;
    pthread_t thread;

    if (pthread_attr_init(&attributes) != 0 || pthread_attr_setstack(&attributes, stack, STACK) != 0)
        return -1;
    if (pthread_create(&thread, &attributes, call_on, stack) != 0)
        return -1;
    return pthread_join(thread, NULL);
}

int main(int argc, char **argv)
{
    void *stack;

    if (argc < 2 || argc > 5)
        return EXIT_FAILURE;
    call = argv[1];
    for (int i = 2; i < argc; i++)
        words[i - 2] = (uint32_t)strtoul(argv[i], NULL, 10);
    length = fread(sheet, 1, sizeof sheet, stdin);
    if (posix_memalign(&stack, PAGE, STACK) != 0)
        return EXIT_FAILURE;
    memset(stack, UNTOUCHED, STACK);
    if (run_thread(stack) != 0)
        return EXIT_FAILURE;
    printf("%td\n", used);
    return EXIT_SUCCESS;
}
