/*
 * What became of a run, printed, for the programs of this folder.
 */
#ifndef PRINT_H
#define PRINT_H

#include <stdint.h>

/* A program's exit status. */
enum status {
    STATUS_FINISHED = 0,
    STATUS_REFUSED = 1,
    STATUS_FAILED = 2 /* wrong use, or no file, memory or output */
};

/*
 * Prints the run's sentence and its records, if it has finished, to standard output, and otherwise the
 * sentence alone to standard error. Gives the exit status.
 */
int print_run(const uint32_t answer[3], const uint8_t *listing);

#endif
