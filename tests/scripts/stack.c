/* How much stack each call takes on the largest plan of either version. Prints a line for each, and fails where it is more than
 * README.md says. */
#include <stdio.h>
#include <stdlib.h>
#include <string.h>
#include <ucontext.h>

#include "tinshrew.h"

enum { ROOM = 1 << 20, PAINT = 0xA5, KITCHENS = 8, RULES = 128, TURN_BYTES = 65536 };

/* The slots of a plan and the dishes of each, 512 together: in version 1 as many slots as there may be, in version 2 as many
 * dishes in a slot. */
typedef struct {
    unsigned version, slots, dishes;
} Shape;

static const Shape shapes[] = {{1, 32, 16}, {2, 16, 32}};

static uint8_t plan[65536];
static size_t plan_len;
static uint8_t turns[TURN_BYTES];
static uint16_t work[TINSHREW_WORK_CELLS];
static uint16_t lists[TINSHREW_LIST_CELLS];
static uint16_t other_lists[TINSHREW_LIST_CELLS];
static size_t out[TINSHREW_RUN_OUT];

static void put(unsigned byte) {
    plan[plan_len++] = (uint8_t)byte;
}

static void put_wide(unsigned number) {
    put(number >> 8);
    put(number & 255);
}

/* A table over a slot and the next one, which allows a dish only those after it. */
static void put_table(Shape shape, unsigned first) {
    put_wide(3 + 2 * shape.version * shape.dishes);
    put(first);
    put(first + 1);
    put(0);
    for (unsigned d = 0; d < shape.dishes; d++) {
        uint32_t row = (uint32_t)0xFFFFFFFE << d;
        if (shape.version == 2) {
            put_wide(row >> 16);
        }
        put_wide(row & 0xFFFF);
    }
}

/* A set rule over a slot and the next seven, which allows every two dishes. */
static void put_set(unsigned first) {
    put_wide(12);
    put(first);
    put(first + 1);
    put(2);
    put_wide(65535);
    put(6);
    for (unsigned s = 2; s < 8; s++) {
        put(first + s);
    }
}

/* As many kitchens, dishes and rules as there may be. By the tables dishes are struck one after the other until no list has
 * one. In version 2 every other rule is a set rule. */
static void make_plan(Shape shape) {
    plan_len = 0;
    put(shape.version);
    put_wide(3);
    put(KITCHENS);
    put(shape.slots);
    put(RULES);
    for (unsigned s = 0; s < shape.slots; s++) {
        put_wide(2 + 4 * shape.dishes);
        put(1 + s % KITCHENS);
        put(shape.dishes);
        for (unsigned d = 0; d < shape.dishes; d++) {
            put_wide(d);
            put_wide(0);
        }
    }
    for (unsigned r = 0; r < RULES; r++) {
        if (shape.version == 2 && r % 2 == 1) {
            put_set(1 + r % (shape.slots - 7));
        } else {
            put_table(shape, 1 + r % (shape.slots - 1));
        }
    }
}

/* The turns of a round, over and over. */
static void make_turns(void) {
    size_t at = 0;
    while (at < TURN_BYTES) {
        for (unsigned k = 1; k <= KITCHENS; k++) {
            for (unsigned deed = 0; deed <= 11 && at < TURN_BYTES; deed++) {
                if (deed <= KITCHENS ? deed != k : deed >= 9) {
                    turns[at++] = (uint8_t)k;
                    turns[at++] = (uint8_t)deed;
                }
            }
        }
    }
}

static void check_plan(void) {
    tinshrew_check_plan(plan, plan_len, out);
}

static void run_turns(void) {
    tinshrew_run_turns(plan, plan_len, turns, sizeof turns, work, TINSHREW_WORK_CELLS, lists, TINSHREW_LIST_CELLS, out);
}

static void run_round(void) {
    tinshrew_run_round(plan, plan_len, work, TINSHREW_WORK_CELLS, lists, TINSHREW_LIST_CELLS, out);
}

static void run_sweeps(void) {
    tinshrew_run_sweeps(plan, plan_len, lists, TINSHREW_LIST_CELLS, other_lists, TINSHREW_LIST_CELLS, out);
}

static void last_sweep(void) {
    tinshrew_last_sweep(lists, TINSHREW_LIST_CELLS, other_lists, TINSHREW_LIST_CELLS, 1, TINSHREW_LIST_CELLS, out);
}

/* Runs a call on a painted stack of its own and gives the bytes that were written over. The few that entering and leaving
 * take are counted too. */
static size_t taken(void (*call)(void)) {
    static uint8_t stack[ROOM];
    ucontext_t here, there;
    memset(stack, PAINT, ROOM);
    if (getcontext(&there) != 0) {
        perror("stack");
        exit(1);
    }
    there.uc_stack.ss_sp = stack;
    there.uc_stack.ss_size = ROOM;
    there.uc_link = &here;
    makecontext(&there, call, 0);
    if (swapcontext(&here, &there) != 0) {
        perror("stack");
        exit(1);
    }
    size_t unused = 0;
    while (unused < ROOM && stack[unused] == PAINT) {
        unused++;
    }
    return ROOM - unused;
}

static void show(const char *name, void (*call)(void), size_t most) {
    size_t bytes = taken(call);
    if (out[0] != 0) {
        printf("%s was declined with %zu at %zu\n", name, out[0], out[1]);
        exit(1);
    }
    printf("%s: %zu bytes\n", name, bytes);
    if (bytes >= most) {
        printf("that is not less than %zu\n", most);
        exit(1);
    }
}

int main(void) {
    make_turns();
    for (size_t i = 0; i < sizeof shapes / sizeof *shapes; i++) {
        make_plan(shapes[i]);
        printf("a plan of version %u\n", shapes[i].version);
        show("tinshrew_check_plan", check_plan, 1536);
        show("tinshrew_run_turns", run_turns, 1536);
        show("tinshrew_run_round", run_round, 1536);
        show("tinshrew_run_sweeps", run_sweeps, 62 * 1024);
        show("tinshrew_last_sweep", last_sweep, 1536);
    }
    return 0;
}
