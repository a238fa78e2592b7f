/*
 * Document 01's worked run: the sheet stands in the source, and the listing has room enough.
 */
#include "print.h"
#include "timing.h"

static const uint8_t sheet[] = {
    2, 0, 4, 2,          /* two nodes: node 0 is an input, node 1 begins at X */
    1, 0,                /* one module */
    6, 0, 1, 0, 1, 3, 0, /* NAND, no parameter, onto node 1, of nodes 0 and 1, delay 3 */
    2, 0,                /* two events */
    0, 0, 0, 0, 0, 0,    /* at tick 0 node 0 is 0 */
    5, 0, 0, 0, 0, 1,    /* at tick 5 it is 1 */
    2, 0, 0, 1           /* two watched nodes: 0 and 1 */
};

int main(void)
{
    uint8_t listing[100 * TIMING_RECORD_SIZE];
    uint32_t answer[3];

    timing_run(sheet, sizeof sheet, 12, listing, sizeof listing, answer);
    return print_run(answer, listing);
}
