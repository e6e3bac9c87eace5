/* stack.c: how much stack a call of each entry takes on a day of 63 offices, with hard and with soft windows, arguments included. The entry runs on
 * a stack of its own that was filled with a mark before, and the deepest byte that lost the mark counts. It prints 'ENTRY HARD SOFT', a line an entry;
 * size.sh builds and runs it. */
#include "planner.h"
#include <stdio.h>
#include <string.h>
#include <ucontext.h>

enum { PLACES = 64, LISTS = 16, VANS = 16, LIMIT = 3, STACK = 1 << 20, MARK = 0xA5 };

static unsigned char stack[STACK];
static ucontext_t caller, callee;
static uint8_t refusal;

static uint8_t flags[PLACES];
static int32_t demand[PLACES];
static double service[PLACES], ready[PLACES], due[PLACES], penalty[PLACES], distances[PLACES * PLACES];
static struct planner_van van;
static uint16_t visits[PLACES], lengths[LISTS];
static size_t offices, lists;
static uint32_t ids[LISTS], van_ids[VANS];
static size_t van_depots[VANS];
static int32_t capacities[VANS];
static uint8_t van_flags[VANS];
static double prices[LISTS], costs[VANS], fixed_costs[VANS], unlimited[VANS], earliest[VANS], latest[VANS], durations[VANS];

#define DAY                                                                                                                       \
    PLACES, flags, PLACES, demand, PLACES, service, PLACES, ready, PLACES, due, PLACES, penalty, PLACES, distances, PLACES * PLACES, \
        NULL, 0
#define FLEET                                                                                                               \
    van_ids, VANS, van_depots, VANS, capacities, VANS, costs, VANS, fixed_costs, VANS, van_flags, VANS, unlimited, VANS,    \
        unlimited, VANS, earliest, VANS, latest, VANS, durations, VANS
#define ALL_LISTS visits, offices, lengths, lists

/* Each entry with places for its answers; the first list is asked for. */
static uint8_t settled, passes, taken, symmetric;
static uint32_t moves;
static size_t remaining, position, depots;
static double distance, duration, lateness, cost, start, scale, least, fixed;

static void table(void) { refusal = planner_table(DAY, van, &scale, &least, &symmetric, &fixed, &depots); }
static void refusal_of(void) { refusal = planner_refusal(DAY, van, ALL_LISTS, 0); }
static void route_distance(void) { refusal = planner_route_distance(DAY, van, ALL_LISTS, 0, &distance); }
static void route_feasible(void) { refusal = planner_route_feasible(DAY, van, ALL_LISTS, 0, &passes); }
static void route_eval(void) { refusal = planner_route_eval(DAY, van, ALL_LISTS, 0, &passes, &distance, &duration, &lateness, &cost); }
static void schedule(void) {
    refusal = planner_schedule(DAY, van, ALL_LISTS, 0, &passes, &distance, &duration, &lateness, &cost, &taken, &position, &start);
}
static void two_opt(void) { refusal = planner_two_opt_improve(DAY, van, ALL_LISTS, 0, LIMIT, &settled, &moves, &distance); }
static void or_opt(void) { refusal = planner_or_opt_improve(DAY, van, ALL_LISTS, 0, LIMIT, &settled, &moves, &distance); }
static void three_opt(void) { refusal = planner_three_opt_improve(DAY, van, ALL_LISTS, 0, LIMIT, &settled, &moves, &distance); }
static void relocate(void) { refusal = planner_relocate_improve(DAY, van, ALL_LISTS, LIMIT, 1, &settled, &moves, &remaining); }
static void exchange(void) { refusal = planner_exchange_improve(DAY, van, ALL_LISTS, LIMIT, &settled, &moves, &remaining); }
static void refusal_of_lists(void) { refusal = planner_refusal_of_lists(DAY, van, ALL_LISTS); }
static void refusal_of_fleet(void) { refusal = planner_refusal_of_fleet(DAY, FLEET, ALL_LISTS, ids, lists, prices, lists); }
static void cross_depot(void) {
    refusal = planner_cross_depot_improve(DAY, FLEET, ALL_LISTS, ids, lists, prices, lists, LIMIT, &settled, &moves, &remaining);
}
static void nothing(void) {}

static const struct row {
    const char *name;
    void (*entry)(void);
    size_t depots, lists;
} rows[] = {
    {"planner_table", table, 1, 1},
    {"planner_refusal", refusal_of, 1, 1},
    {"planner_route_distance", route_distance, 1, 1},
    {"planner_route_feasible", route_feasible, 1, 1},
    {"planner_route_eval", route_eval, 1, 1},
    {"planner_schedule", schedule, 1, 1},
    {"planner_two_opt_improve", two_opt, 1, 1},
    {"planner_or_opt_improve", or_opt, 1, 1},
    {"planner_three_opt_improve", three_opt, 1, 1},
    {"planner_relocate_improve", relocate, 1, LISTS},
    {"planner_exchange_improve", exchange, 1, LISTS},
    {"planner_refusal_of_lists", refusal_of_lists, 1, LISTS},
    {"planner_refusal_of_fleet", refusal_of_fleet, 2, LISTS},
    {"planner_cross_depot_improve", cross_depot, 2, LISTS},
};

/* Places in no order with whole distances, and windows: soft ones that close one after another, or hard ones that stay open. */
static void make_day(size_t leading, int soft) {
    for (size_t from = 0; from < PLACES; from++) {
        flags[from] = from < leading ? 1 : soft ? 6 : 2;
        demand[from] = from >= leading;
        service[from] = 1;
        due[from] = soft ? 50.0 * (double)from : 1e6;
        penalty[from] = 2;
        for (size_t to = 0; to < PLACES; to++) {
            long gap = (long)(from * 37 % 64) - (long)(to * 37 % 64);
            distances[from * PLACES + to] = (double)(gap * gap % 101 + (from != to));
        }
    }
}

/* A van with a break, and the offices dealt out to the lists. */
static void make_lists(size_t leading, size_t count) {
    van = (struct planner_van){.capacity = PLACES, .flags = 4, .latest = 1000, .duration = 5};
    offices = PLACES - leading;
    lists = count;
    for (size_t k = 0; k < offices; k++) visits[k] = (uint16_t)(k + leading);
    for (size_t r = 0; r < count; r++) lengths[r] = (uint16_t)(offices / count + (r < offices % count));
}

/* A van with a break for each list, from the depots in turn. */
static void make_fleet(size_t leading) {
    for (size_t k = 0; k < VANS; k++) {
        van_ids[k] = ids[k] = (uint32_t)k;
        van_depots[k] = k % leading;
        capacities[k] = PLACES;
        van_flags[k] = 4;
        costs[k] = 1;
        latest[k] = 1000;
        durations[k] = 5;
        prices[k] = 1000;
    }
}

static size_t depth(void (*entry)(void)) {
    memset(stack, MARK, sizeof stack);
    getcontext(&callee);
    callee.uc_stack.ss_sp = stack;
    callee.uc_stack.ss_size = sizeof stack;
    callee.uc_link = &caller;
    makecontext(&callee, entry, 0);
    swapcontext(&caller, &callee);
    size_t kept = 0;
    while (kept < sizeof stack && stack[kept] == MARK) kept++;
    return sizeof stack - kept;
}

/* The second of two equal calls counts: with the first comes the loader's own work. */
static size_t depth_of(const struct row *row, int soft) {
    size_t deepest = 0;
    for (int call = 0; call < 2; call++) {
        make_day(row->depots, soft);
        make_lists(row->depots, row->lists);
        make_fleet(row->depots);
        deepest = depth(row->entry) - depth(nothing);
    }
    return deepest;
}

int main(void) {
    for (size_t k = 0; k < sizeof rows / sizeof rows[0]; k++) {
        size_t hard = depth_of(&rows[k], 0);
        uint8_t refused = refusal;
        size_t soft = depth_of(&rows[k], 1);
        if (refused != 0 || refusal != 0) {
            fprintf(stderr, "%s refused %d and %d\n", rows[k].name, refused, refusal);
            return 1;
        }
        printf("%s %zu %zu\n", rows[k].name, hard, soft);
    }
    return 0;
}
