/*
 * Timing networks: checks a sheet, runs it to a horizon, reports pulses that are too short for a coil,
 * converts the sheet to the other edition, loads it with a drive that is drawn from a seed, and says in words
 * what a call answers.
 *
 * Link libtiming_c.a, which is compiled for x86-64 Linux. It asks for memcpy and memset alone.
 * What a sheet is, and every word used here, is in document 01; how to begin, in README.md.
 */
#ifndef TIMING_H
#define TIMING_H

#include <stddef.h>
#include <stdint.h>

#ifdef __cplusplus
extern "C" {
#endif

/*
 * answer[0], the number. A call answers TIMING_FINISHED, or the first refusal that the sheet, read
 * front to back, or the run, the report, the conversion or the load meets. A strict check gives 0 and 2 to 18
 * but 9, a check these but 15, a run 0 to 20 but 9 and 15, a report of pulses what a run gives, 24 and 25, a
 * conversion what a check gives and 23, to the first edition 22 as well, a load what a check gives, 23 and 26,
 * describing 0 and 21. No call gives 9 any more.
 */
enum timing_number {
    /* the sheet is accepted, the run has reached its horizon, or report, sheet or text is written */
    TIMING_FINISHED = 0,

    /* Before reading; the place is 0. */
    TIMING_HORIZON_OUTSIDE = 1, /* horizon 0 or above 1,000,000 */

    /* The place is a byte of the sheet, counted from 0: the first of the count or record. */
    TIMING_ENDS_INSIDE = 2,           /* the bytes end inside a count or record */
    TIMING_OUTSIDE_RANGE = 3,         /* a count outside its range */
    TIMING_BYTE_ABOVE = 4,            /* a node: byte above 4 */
    TIMING_KIND_ABOVE = 5,            /* a module: kind above the edition's greatest */
    TIMING_PARAMETER_NOT_ALLOWED = 6, /* a module: parameter not allowed */
    TIMING_WRONG_WIRING = 7,          /* a module: output or used input is no node, or unused input not 0 */
    TIMING_DELAY_ABOVE = 8,           /* a module: delay above 10,000 */
    TIMING_ALREADY_DRIVEN = 9,        /* not given: several modules may drive a node (document 02, W-209) */

    /* After the modules; the place is the least such node. One that several modules drive is driven. */
    TIMING_DRIVEN_OR_NOT = 10, /* a driven node with byte 4, or an undriven node with 0 to 3 */

    /* The place is the event's first byte. */
    TIMING_TICK_ABOVE = 11,       /* an event: tick above 999,999 */
    TIMING_NOT_AN_INPUT = 12,     /* an event: not an input of the sheet */
    TIMING_VALUE_ABOVE = 13,      /* an event: value above 3 */
    TIMING_NOT_ABOVE_BEFORE = 14, /* an event: not above the one before, by tick and then by node */

    /* After the drive, in a strict check alone; the place is the least such node. */
    TIMING_NO_FIRST_EVENT = 15, /* an input without an event at tick 0 */

    /* The place is the watched node's byte. */
    TIMING_WRONG_WATCHED = 16, /* a watched node: no such node, or not above the one before */

    /* After the watched nodes. */
    TIMING_LEFT_OVER = 17, /* bytes left over; the place is the first of them */
    TIMING_ON_LOOP = 18,   /* a zero-delay loop; the place is the least node on any such loop */

    /* While running; the place is the tick. */
    TIMING_NO_ROOM = 19, /* the listing's buffer cannot take all records of this tick: lend more */
    TIMING_CROWDED = 20, /* more than 4,096 changes are pending after this tick */

    /* While describing; the place is the length needed. */
    TIMING_TEXT_SHORT = 21, /* the text's buffer is shorter than the sentence */

    /* While converting to the first edition; the place is the first byte of the first such record. */
    TIMING_KIND_NOT_IN_FIRST = 22, /* a module: kind above 9, which the first edition lacks */

    /* While converting or loading; the place is the length needed. */
    TIMING_OUTPUT_SHORT = 23, /* the output's buffer is shorter than the sheet to be written */

    /* Reporting pulses, before reading and next after the horizon; the place is 0. */
    TIMING_WIDTH_OUTSIDE = 24, /* width 0 or above 10,000 */

    /* Reporting pulses, after the run; the place is the count of pulses to report. */
    TIMING_REPORT_SHORT = 25, /* the report's buffer cannot take all pulses: lend more */

    /* While loading, after the sheet's check and before 23; the place is 0. */
    TIMING_DRAWN_TOO_MANY = 26 /* the inputs and n together above 1,024, or n above 0 and no input */
};

/* The values of a cell, as they stand in a listing. */
enum timing_value {
    TIMING_LOW = 0,
    TIMING_HIGH = 1,
    TIMING_UNKNOWN = 2, /* undefined, printed X */
    TIMING_NONE = 3     /* no value, printed Z */
};

/*
 * A record of a listing: tick (4 bytes), node (1 byte), value (1 byte), end (4 bytes), numbers with the low
 * byte first. The node has the value from the tick on, up to the end.
 */
#define TIMING_RECORD_SIZE 10

/*
 * A pulse of a report: start tick (4 bytes), node (1 byte), length in ticks (4 bytes), numbers with the low
 * byte first.
 */
#define TIMING_PULSE_SIZE 9

/* Limits. The counts of a sheet's nodes, modules, events and watched nodes: */
#define TIMING_LEAST_NODES 1
#define TIMING_MOST_NODES 256
#define TIMING_MOST_MODULES 256
#define TIMING_MOST_EVENTS 1024
#define TIMING_MOST_WATCHED 256
/* the byte of a node that is an input, and the greatest value of a cell: */
#define TIMING_INPUT_BYTE 4
#define TIMING_LAST_VALUE 3
/* a module's delay, an event's tick, a run's horizon, the width that pulses are shorter than: */
#define TIMING_LONGEST_DELAY 10000
#define TIMING_LAST_TICK 999999
#define TIMING_GREATEST_HORIZON 1000000
#define TIMING_GREATEST_WIDTH 10000
/* the changes that may be pending after a tick: */
#define TIMING_PENDING_LIMIT 4096
/* bytes of the longest accepted sheet, whose sections are all full, in the first edition and in the second: */
#define TIMING_LONGEST_SHEET 8456
#define TIMING_LONGEST_SHEET_2 8712
/* bytes that no sentence passes: */
#define TIMING_LONGEST_SENTENCE 200

/*
 * All calls:
 *
 * answer[0] is the number, answer[1] the place (0 where the number is 0) and answer[2] the count: of
 * records written, of the pulses of a report, of the bytes of a converted or loaded sheet, or of the bytes of
 * a sentence. All three are written by every call.
 *
 * Nothing is asked of the sheet's bytes, of numbers and of lengths; listing, report, output, text and answer
 * may hold anything before. Of the memory:
 * - No pointer is null, also where its length is 0: then nothing is read or written through it, and
 *   any other address will do. answer is aligned for its type.
 * - sheet has as many bytes as length says, listing, output and text as many as bytes says, report as many
 *   as report_bytes says, answer three words. Before the call returns nobody else writes to the sheet, or
 *   reads or writes the other areas.
 * - The areas of a call do not overlap: no sheet is converted or loaded in its place, and no report stands in
 *   its listing. The calls are proved, and compiled, for areas of their own: what is written over another area
 *   would change what they take for unchanged.
 *
 * None keeps anything between calls or touches other memory than the lent areas and the stack, so
 * all may be called from several threads at once. Every call ends.
 */

/*
 * The bytes of stack that a call uses below its caller's frame, whatever it is given: measured (214.7,
 * 234.6 and 3.1 KiB) and rounded up, the first two to 16 KiB. A thread needs some for itself besides.
 * A strict check uses no more than a check is said to, and the second edition's calls use no more than the
 * first's are said to. A conversion and a load use no more than a check is said to, and a report of pulses no
 * more than a run is said to.
 */
#define TIMING_CHECK_STACK 229376
#define TIMING_RUN_STACK 245760
#define TIMING_DESCRIBE_STACK 4096

/*
 * A sheet has one of two editions. In the first a module's record has 7 bytes and its kind is 0 to 9. In the
 * second it has 8 bytes, the third input standing before the delay, and its kind is 0 to 15: 10 to 14 are
 * AND, OR, XOR, NAND and NOR of three inputs, 15 is a multiplexer (document 02, W-205). A check, a strict
 * check, a run, a report of pulses and a load have a call of the same name with _2 at its end, which takes a
 * sheet of the second edition; what is said of the first edition's holds of it.
 */

/* Checks the sheet without running it. The count is always 0. A run refuses the same sheets. */
void timing_check(const uint8_t *sheet, size_t length, uint32_t answer[3]);
void timing_check_2(const uint8_t *sheet, size_t length, uint32_t answer[3]);

/*
 * Checks the sheet and that each of its inputs has an event at tick 0. Its answer is that of timing_check, or
 * TIMING_NO_FIRST_EVENT where one has none and nothing else is refused up to the end of the drive.
 */
void timing_check_strict(const uint8_t *sheet, size_t length, uint32_t answer[3]);
void timing_check_strict_2(const uint8_t *sheet, size_t length, uint32_t answer[3]);

/*
 * Runs the sheet to the horizon and writes the records to the front of the listing, rising by tick
 * and then by node: each watched node's value at tick 0, and from then on its changes below the
 * horizon. A record's end is the tick of the node's next record. An input is TIMING_UNKNOWN until its
 * first event. A node that several modules drive has what they contribute, joined: TIMING_NONE yields to the
 * other, equal values stay, anything else is TIMING_UNKNOWN. Each contributes the node's initial value until
 * its own delay has passed. A buffer takes bytes / TIMING_RECORD_SIZE records, rounded down.
 *
 * Finished: the records are all there are, and each node's last one ends at the horizon. Refusals 1 to
 * 18: none is written. TIMING_NO_ROOM: those of all earlier ticks, each node's last one ending at this
 * tick. TIMING_CROWDED: those and this tick's, each node's last one ending at the tick after; changes are
 * pending for each module, whether or not its node shows them. The buffer keeps every byte past the last
 * record as it was.
 */
void timing_run(const uint8_t *sheet, size_t length, uint32_t horizon, uint8_t *listing, size_t bytes,
                uint32_t answer[3]);
void timing_run_2(const uint8_t *sheet, size_t length, uint32_t horizon, uint8_t *listing, size_t bytes,
                  uint32_t answer[3]);

/*
 * Runs the sheet to the horizon over the listing, as timing_run does, and writes each pulse of a watched node
 * that is shorter than the width to the front of the report, rising by start tick and then by node. A pulse is
 * a value, be it TIMING_UNKNOWN or TIMING_NONE, that the node changes to after tick 0 and changes from below
 * the horizon, and its length is the ticks in between: it is a record of the listing whose tick is not 0 and
 * whose end is below the horizon. One that is just as long as the width is not reported, so the width 1
 * reports none. A report takes report_bytes / TIMING_PULSE_SIZE pulses, rounded down.
 *
 * Finished: the report has every such pulse and no other, the count is theirs, and the bytes past the last are
 * as they were. The listing holds what a finished run leaves; the count of its records is not answered.
 * Refused: the report is as it was. In this order: TIMING_HORIZON_OUTSIDE; TIMING_WIDTH_OUTSIDE, with a count
 * of 0, the listing being as it was; what the run refuses, with its place and count, the listing holding what
 * that run leaves; TIMING_REPORT_SHORT, where the place is the count of pulses to report, the count is that of
 * the records, and the listing holds all of them.
 */
void timing_pulses(const uint8_t *sheet, size_t length, uint32_t horizon, uint32_t width, uint8_t *listing,
                   size_t bytes, uint8_t *report, size_t report_bytes, uint32_t answer[3]);
void timing_pulses_2(const uint8_t *sheet, size_t length, uint32_t horizon, uint32_t width, uint8_t *listing,
                     size_t bytes, uint8_t *report, size_t report_bytes, uint32_t answer[3]);

/*
 * Converts the sheet to the other edition and writes it to the front of the output. timing_convert_1_to_2
 * takes a sheet of the first edition, and each module's record gains a third input of 0; timing_convert_2_to_1
 * takes one of the second, and each loses it. All other bytes stay in their order. There and back gives the
 * same bytes, and both sheets run to the same answer and listing at every horizon and buffer length.
 *
 * Finished: the converted sheet stands first in the output, the count is its length, which is at most
 * TIMING_LONGEST_SHEET_2, and the bytes past it are as they were. Refused: the output is as it was, and the
 * count is 0. In this order: what the check of the sheet's own edition refuses; TIMING_KIND_NOT_IN_FIRST, to
 * the first edition alone, the place being a byte of the given sheet; TIMING_OUTPUT_SHORT, where an output of
 * just the length needed is enough.
 */
void timing_convert_1_to_2(const uint8_t *sheet, size_t length, uint8_t *output, size_t bytes,
                           uint32_t answer[3]);
void timing_convert_2_to_1(const uint8_t *sheet, size_t length, uint8_t *output, size_t bytes,
                           uint32_t answer[3]);

/*
 * Loads the sheet with a drive that is drawn from the seed, in place of its own, and writes it to the front of
 * the output. All bytes but the drive's stay in their order, and a strict check accepts the sheet. Sheets of
 * either edition with the same inputs get the same drive from one seed and n.
 *
 * A draw first adds 2654435769 to a state of 32 bits, modulo 2 to the power 32; its result is the state's
 * upper 16 bits exclusive-or the lower 16. The state starts as the seed. Each input, rising, has an event at
 * tick 0, and n events follow, each at a later tick than the one before, all of TIMING_LOW or TIMING_HIGH. The
 * value of an input's event is a draw modulo 2. For each of the n events there are three draws: the tick
 * grows, from 0 on, by 1 plus the first modulo 64; the second, modulo the count of inputs, is the position of
 * its input among them, counted from 0; the third, modulo 2, is its value.
 *
 * Finished: the loaded sheet stands first in the output, the count is its length, which is at most
 * TIMING_LONGEST_SHEET, TIMING_LONGEST_SHEET_2 in the second edition, and the bytes past it are as they were.
 * Refused: the output is as it was, and the count is 0. In this order: what the check of the sheet's own
 * edition refuses, also of the drive that would be replaced; TIMING_DRAWN_TOO_MANY; TIMING_OUTPUT_SHORT, where
 * an output of just the length needed is enough.
 */
void timing_load(const uint8_t *sheet, size_t length, uint32_t seed, uint32_t n, uint8_t *output,
                 size_t bytes, uint32_t answer[3]);
void timing_load_2(const uint8_t *sheet, size_t length, uint32_t seed, uint32_t n, uint8_t *output,
                   size_t bytes, uint32_t answer[3]);

/*
 * Describes an answer, given by its three words, as a sentence in plain words: what is wrong, the place
 * and what it counts, the count of records. Number 0 is a finished call, whose place is not looked at;
 * a number without a phrase is written as itself. Two different answers never have the same text. The
 * sentence has no line's end and no byte 0 at its end.
 *
 * Finished: the sentence stands first in the text, the count is its length, and the bytes past it are
 * as they were. TIMING_TEXT_SHORT: the text is as it was, and the count is 0.
 */
void timing_describe(uint32_t number, uint32_t place, uint32_t count, uint8_t *text, size_t bytes,
                     uint32_t answer[3]);

#ifdef __cplusplus
}
#endif

#endif
