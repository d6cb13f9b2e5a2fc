/* Tinshrew: strikes dishes from the lists of a plan, between kitchens.
 *
 * Five calls, for x86-64 Linux, and two that say which library is linked. For C from C99 on, and for C++. Link
 * target/staticlib/libtinshrew.a, which `bash tools/build library` writes.
 *
 *   tinshrew_check_plan   checks a plan
 *   tinshrew_run_turns    plays a list of turns on a plan
 *   tinshrew_run_round    plays rounds on a plan until it is closed
 *   tinshrew_run_sweeps   gives the lists of the closed plan by a slower method, which can be followed on paper
 *   tinshrew_last_sweep   tells where the last sweep stands
 *   tinshrew_version      the version of the linked library's interface
 *   tinshrew_cells        how many cells of a buffer the linked library needs
 *
 * docs/FORMAT.md has the bytes of a plan and of a turn list, what each turn does, the round and the sweeps. A plan of
 * version 1 has up to 16 dishes in a slot, one of version 2 up to 32; both are taken by every call. A sodium rule allows a
 * pair exactly if both figures are recorded (65,535 is "not recorded") and their sum is at most the rule's limit. A set
 * rule, of version 2, acts so on every two of its two to eight slots.
 *
 * Every call ends, whatever the bytes are. The library allocates nothing and keeps nothing between calls, so
 * calls may run at the same time, if none writes a buffer of another. It calls nothing of its caller's, and of other
 * libraries memset alone. It has no unwind information: what walks the stack by it, as a profiler or a signal handler may,
 * does not get past the library's frames. tinshrew_run_sweeps takes less than 62 KiB of stack, every other call less than
 * 1.5 KiB.
 *
 * Each buffer is a pointer and the number of its cells. No pointer is null, not even one to no cells: of an empty list
 * pass the address of any byte and the length 0. In C++ the data() of an empty vector may be null; tinshrew_bytes takes
 * care of that. A buffer that is written (one that is not const) overlaps no other buffer of the call.
 *
 * How each of the five calls answers: it writes every cell of `out`, and returns nothing. out[0] is 0 where the call did
 * its work. Otherwise the call is declined: out[0] is the decline's number, out[1] its place, and the cells behind are 0.
 * A declined call changes no lent cell except those of `out`.
 */
#ifndef TINSHREW_H
#define TINSHREW_H

#include <stddef.h>
#include <stdint.h>

#ifdef __cplusplus
extern "C" {
#endif

/* The version of this interface, not of a plan. It goes up with each change of a signature, of a number or of what a call
 * needs. Where tinshrew_version() gives another number, the linked library goes with another header: make no other call.
 * A new call leaves it as it is: a program that makes that call does not link with a library that lacks it.
 */
#define TINSHREW_VERSION 2

/* How many cells of 16 bits a buffer has at least, whatever the plan: of work, and of lists (each of the two of the
 * sweeps too).
 */
#define TINSHREW_WORK_CELLS 30720
#define TINSHREW_LIST_CELLS 64

/* How many bytes a turn list has at most. */
#define TINSHREW_TURN_BYTES 65536

/* How many cells `out` has: for the plan check, for each of the two runs, for the sweeps, and for the last sweep. */
#define TINSHREW_CHECK_OUT 5
#define TINSHREW_RUN_OUT 6
#define TINSHREW_SWEEPS_OUT 2
#define TINSHREW_LAST_SWEEP_OUT 3

/* The kinds of buffers, as tinshrew_cells is asked for them. */
enum {
    TINSHREW_WORK = 1,
    TINSHREW_LISTS = 2
};

/* The status of a run. */
enum {
    TINSHREW_OPEN = 0,   /* the plan is not closed yet */
    TINSHREW_CLOSED = 1, /* closed, and every slot has a dish left */
    TINSHREW_BARE = 2    /* closed, and some slot's list is empty */
};

/* Why a call is declined, and the place that goes with it. A section starts at its first length byte, whether that is
 * there or not: where a section is missing, the place is the plan's length. The plan check never gives 9 to 12, a round
 * run never 11 or 12, and the sweeps never 9, 11 or 12. tinshrew_last_sweep is never declined.
 *
 * Where several apply, the first in this order is given: 9, 10, 11; 1 for an empty plan; 2; the sections in turn; 8; 12.
 * In each section 1 comes first, then
 *   head  3, 4
 *   slot  3 (length under 2), 4 (its own count), 4 (more than 512 dishes with it), 3, 5, 6
 *   rule  3 (length under 3), 7 (kind), 5 (its first two slots); then
 *           table or sodium rule  3, 7 (bits)
 *           set rule  3 (length under 6), 4 (number of further slots), 3, 5 (a further slot)
 *         and last 4 (more than 128 different pairs of slots with its own)
 */
enum {
    TINSHREW_TRUNCATED = 1,      /* plan empty (place 0), or a section or its length is cut off (section start) */
    TINSHREW_BAD_VERSION = 2,    /* version byte is neither 1 nor 2 (0) */
    TINSHREW_BAD_LENGTH = 3,     /* a section's length is not the one its content calls for (section start) */
    TINSHREW_BAD_COUNT = 4,      /* kitchens, slots, rules, dishes, further slots or pairs out of range (section start) */
    TINSHREW_BAD_NUMBER = 5,     /* kitchen or slot number out of range, or slots of a rule not ascending (section start) */
    TINSHREW_REPEATED_CODE = 6,  /* a code stands twice in a slot (section start) */
    TINSHREW_BAD_RULE = 7,       /* unknown kind, or a table bit at or past the second slot's count (section start) */
    TINSHREW_TRAILING_BYTES = 8, /* bytes after the last section (first such byte) */
    TINSHREW_SHORT_WORK = 9,     /* fewer than TINSHREW_WORK_CELLS work cells (0) */
    TINSHREW_SHORT_LISTS = 10,   /* fewer than TINSHREW_LIST_CELLS cells in a list buffer (0) */
    TINSHREW_BAD_TURN_LIST = 11, /* turn list of odd length or over TINSHREW_TURN_BYTES (0) */
    TINSHREW_BAD_TURN = 12       /* a turn that is not allowed (number of the first such turn, from 0) */
};

/* The version of the linked library's interface. This call stays as it is in all versions. */
size_t tinshrew_version(void);

/* How many cells of a buffer the linked library needs: TINSHREW_WORK_CELLS for TINSHREW_WORK, TINSHREW_LIST_CELLS for
 * TINSHREW_LISTS, and 0 for a number that no buffer has. This call stays as it is in all versions, too.
 */
size_t tinshrew_cells(size_t buffer);

/* A pointer to bytes that may be passed for a plan or a turn list: never null, also where there are no bytes. */
static inline const uint8_t *tinshrew_bytes(const uint8_t *bytes) {
    static const uint8_t none = 0;
    return bytes == NULL ? &none : bytes;
}

/* Checks a plan. On success
 *   out[0]  0
 *   out[1]  number of kitchens, 1 to 8
 *   out[2]  number of slots, 1 to 32
 *   out[3]  number of rules, 0 to 128
 *   out[4]  number of dishes in all slots together, 0 to 512
 */
void tinshrew_check_plan(const uint8_t *plan, size_t plan_len, size_t out[TINSHREW_CHECK_OUT]);

/* Plays the turns of a list, two bytes each: the actor and the deed. On success
 *   out[0]  0
 *   out[1]  status: TINSHREW_OPEN, TINSHREW_CLOSED or TINSHREW_BARE
 *   out[2]  turns that changed something
 *   out[3]  list messages sent, each send once
 *   out[4]  polls sent, each poll turn once
 *   out[5]  lowest slot, from 1, with an empty list, whatever the status; 0 if none
 * and
 *   lists  holds the listed dishes of each slot, a bit for each: lowest bit of a cell for the first of its dishes, 1 where
 *          it is still listed. Of slot s, with n slots in the plan,
 *            plan of version 1: lists[s - 1]; cells from n on keep what they had
 *            plan of version 2: lists[2 * s - 2] for dishes 17 to 32 and lists[2 * s - 1] for dishes 1 to 16; cells from
 *                               2 * n on keep what they had
 *   work   what it held before plays no part. Its first TINSHREW_WORK_CELLS cells are 0 afterwards, the rest keep what
 *          they had.
 */
void tinshrew_run_turns(const uint8_t *plan, size_t plan_len, const uint8_t *turns, size_t turns_len,
                        uint16_t *work, size_t work_len, uint16_t *lists, size_t lists_len,
                        size_t out[TINSHREW_RUN_OUT]);

/* Plays rounds until the plan is closed: on success the status is never TINSHREW_OPEN. Everything else is as in
 * tinshrew_run_turns.
 */
void tinshrew_run_round(const uint8_t *plan, size_t plan_len,
                        uint16_t *work, size_t work_len, uint16_t *lists, size_t lists_len,
                        size_t out[TINSHREW_RUN_OUT]);

/* Sweeps the lists of a plan until nothing more is struck. `first` starts with every dish listed. Each sweep reads one
 * buffer and writes the other: it keeps each dish that was listed and has, against every slot that its own shares a rule
 * with, a support that was listed. The first sweep that strikes nothing is the last. On success
 *   out[0]  0
 *   out[1]  number of sweeps, the last one too: from 1 to one more than the plan has dishes
 * and
 *   first, second  hold lists as in tinshrew_run_turns, those of the closed plan. After an odd number of sweeps the last
 *                  one stands in `second`, else in `first`; since it strikes nothing, both hold the same lists. Later
 *                  cells keep what they had, and what the others held before plays no part.
 */
void tinshrew_run_sweeps(const uint8_t *plan, size_t plan_len,
                         uint16_t *first, size_t first_len, uint16_t *second, size_t second_len,
                         size_t out[TINSHREW_SWEEPS_OUT]);

/* Tells where the last of so many sweeps stands, whatever the buffers and the numbers are.
 *   sweeps  number of sweeps, as tinshrew_run_sweeps gives it
 *   count   how many cells are asked for: for all lists the number of slots, and twice that for a plan of version 2
 *   out[0]  0
 *   out[1]  2 for `second`, where the number of sweeps is odd; 1 for `first`, where it is even, 0 too
 *   out[2]  how many cells are the answer, from the start of that buffer: `count`, or 0 where it has fewer
 */
void tinshrew_last_sweep(const uint16_t *first, size_t first_len, const uint16_t *second, size_t second_len,
                         size_t sweeps, size_t count, size_t out[TINSHREW_LAST_SWEEP_OUT]);

#ifdef __cplusplus
}
#endif

#endif
