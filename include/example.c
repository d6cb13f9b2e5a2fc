/* Plays a list of turns on a small plan, and then the sweeps. From the repository's folder:
 *
 *     bash tools/build library && cc -Iinclude include/example.c target/staticlib/libtinshrew.a -o target/example
 *     target/example
 *
 * It prints
 *
 *     2 kitchens, 3 slots, 2 rules, 6 dishes
 *     status 1, 17 changing turns, 2 lists, 1 polls, empty slot 0
 *     1 3 1
 *     3 sweeps, the last in buffer 2
 *     1 3 1
 */
#include <stdio.h>

#include "tinshrew.h"

/* Of version 1, so that each slot has one list cell. One of version 2 would have two, the higher half first. */
static const uint8_t plan[] = {
    0x01,                                                                               /* version */
    0x00, 0x03, 0x02, 0x03, 0x02,                                                       /* head */
    0x00, 0x0A, 0x01, 0x02, 0x00, 0x0B, 0x01, 0x2C, 0x00, 0x0C, 0x03, 0x84,             /* slot 1 */
    0x00, 0x0A, 0x02, 0x02, 0x00, 0x15, 0x01, 0xF4, 0x00, 0x16, 0x03, 0x20,             /* slot 2 */
    0x00, 0x0A, 0x02, 0x02, 0x00, 0x1F, 0x00, 0x64, 0x00, 0x20, 0xFF, 0xFF,             /* slot 3 */
    0x00, 0x05, 0x01, 0x02, 0x01, 0x04, 0xB0,                                           /* sodium rule */
    0x00, 0x07, 0x01, 0x03, 0x00, 0x00, 0x01, 0x00, 0x02,                               /* table */
};

static const uint8_t turns[] = {
    1, 9, 1, 10, 2, 1, 2, 9, 2, 9, 2, 10, 1, 2, 1, 9, 0, 1,
    0, 2, 0, 12, 1, 0, 2, 0, 1, 11, 2, 11, 0, 1, 0, 2,
};

static uint16_t work[TINSHREW_WORK_CELLS];
static uint16_t lists[TINSHREW_LIST_CELLS];
static uint16_t first[TINSHREW_LIST_CELLS];
static uint16_t second[TINSHREW_LIST_CELLS];

/* Whether the call that wrote `out` was declined; if so, number and place are printed. */
static int declined(const size_t *out) {
    if (out[0] != 0) {
        printf("declined %zu %zu\n", out[0], out[1]);
    }
    return out[0] != 0;
}

static void print_cells(const uint16_t *cells, size_t count) {
    for (size_t s = 0; s < count; s++) {
        printf(s == 0 ? "%u" : " %u", (unsigned)cells[s]);
    }
    printf("\n");
}

int main(void) {
    if (tinshrew_version() != TINSHREW_VERSION) {
        printf("the library has version %zu, this program was made for %d\n", tinshrew_version(), TINSHREW_VERSION);
        return 1;
    }

    size_t figures[TINSHREW_CHECK_OUT];
    tinshrew_check_plan(plan, sizeof plan, figures);
    if (declined(figures)) {
        return 1;
    }
    printf("%zu kitchens, %zu slots, %zu rules, %zu dishes\n", figures[1], figures[2], figures[3], figures[4]);

    size_t report[TINSHREW_RUN_OUT];
    tinshrew_run_turns(plan, sizeof plan, turns, sizeof turns, work, TINSHREW_WORK_CELLS, lists, TINSHREW_LIST_CELLS, report);
    if (declined(report)) {
        return 1;
    }
    printf("status %zu, %zu changing turns, %zu lists, %zu polls, empty slot %zu\n",
           report[1], report[2], report[3], report[4], report[5]);
    print_cells(lists, figures[2]);

    size_t sweeps[TINSHREW_SWEEPS_OUT];
    tinshrew_run_sweeps(plan, sizeof plan, first, TINSHREW_LIST_CELLS, second, TINSHREW_LIST_CELLS, sweeps);
    if (declined(sweeps)) {
        return 1;
    }
    size_t last[TINSHREW_LAST_SWEEP_OUT];
    tinshrew_last_sweep(first, TINSHREW_LIST_CELLS, second, TINSHREW_LIST_CELLS, sweeps[1], figures[2], last);
    printf("%zu sweeps, the last in buffer %zu\n", sweeps[1], last[1]);
    print_cells(last[1] == 1 ? first : second, last[2]);
    return 0;
}
