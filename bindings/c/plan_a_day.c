/* Plans five places on a line by each engine and prints what comes of it (../rust/examples/plan_a_day.rs is the same in Rust). */
#include "planner.h"
#include <stdio.h>

enum { PLACES = 5, LIMIT = 1000 };

/* The columns of a day: one unit of demand at each place, no service time, no windows. */
static uint8_t flags[PLACES];
static const int32_t demand[PLACES] = {1, 1, 1, 1, 1};
static const double zeros[PLACES];
static double distances[PLACES * PLACES];

/* What every function takes first. */
#define DAY                                                                                           \
    PLACES, flags, PLACES, demand, PLACES, zeros, PLACES, zeros, PLACES, zeros, PLACES, zeros, PLACES, \
        distances, PLACES * PLACES, NULL, 0

/* Puts the places on a line; the first of them are depots. */
static void place(const double positions[PLACES], int depots) {
    for (int from = 0; from < PLACES; from++) {
        flags[from] = from < depots;
        for (int to = 0; to < PLACES; to++) {
            double gap = positions[to] - positions[from];
            distances[from * PLACES + to] = gap < 0 ? -gap : gap;
        }
    }
}

static struct planner_van van_of(int32_t capacity) {
    return (struct planner_van){.id = 0, .capacity = capacity, .cost_per_distance = 1};
}

/* The lists that aren't empty, as 1 2 and 3. */
static void print_lists(const uint16_t *visits, const uint16_t *lengths, size_t count) {
    const char *between = "";
    for (size_t list = 0; list < count; list++) {
        for (size_t k = 0; k < lengths[list]; k++) {
            printf("%s%d", between, *visits++);
            between = " ";
        }
        between = " and ";
    }
}

static void print_distance(const uint16_t *visits, uint16_t count) {
    double distance = 0;
    uint8_t refusal = planner_route_distance(DAY, van_of(4), visits, count, &count, 1, 0, &distance);
    printf("distance of ");
    print_lists(visits, &count, 1);
    if (refusal != 0) printf(": refused %d\n", refusal);
    else printf(": %g\n", distance);
}

typedef uint8_t within(PLANNER_DAY, struct planner_van, PLANNER_CHANGED_LIST, uint32_t, uint8_t *, uint32_t *, double *);

static void plan_within(const char *name, within *engine, uint16_t *visits, uint16_t count) {
    uint8_t settled = 0;
    uint32_t moves = 0;
    double distance = 0;
    printf("%s of ", name);
    print_lists(visits, &count, 1);
    printf(": ");
    uint8_t refusal = engine(DAY, van_of(4), visits, count, &count, 1, 0, LIMIT, &settled, &moves, &distance);
    if (refusal != 0) {
        printf("refused %d\n", refusal);
        return;
    }
    print_lists(visits, &count, 1);
    printf(", distance %g, moves %u, %s\n", distance, (unsigned)moves, settled ? "settled" : "stopped");
}

static void print_rearranged(uint8_t refusal, const uint16_t *visits, const uint16_t *lengths, uint8_t settled, uint32_t moves,
                             size_t remaining) {
    if (refusal != 0) {
        printf("refused %d\n", refusal);
        return;
    }
    print_lists(visits, lengths, remaining);
    printf(", lists %zu, moves %u, %s\n", remaining, (unsigned)moves, settled ? "settled" : "stopped");
}

static void plan_relocate(void) {
    uint16_t visits[] = {1, 3, 2}, lengths[] = {2, 1};
    uint8_t settled = 0;
    uint32_t moves = 0;
    size_t remaining = 0;
    printf("relocate of 1 3 and 2, capacity 4: ");
    uint8_t refusal = planner_relocate_improve(DAY, van_of(4), visits, 3, lengths, 2, LIMIT, 1, &settled, &moves, &remaining);
    print_rearranged(refusal, visits, lengths, settled, moves, remaining);
}

static void plan_exchange(void) {
    uint16_t visits[] = {3, 1, 2, 4}, lengths[] = {2, 2};
    uint8_t settled = 0;
    uint32_t moves = 0;
    size_t remaining = 0;
    printf("tail exchange of 3 1 and 2 4, capacity 2: ");
    uint8_t refusal = planner_exchange_improve(DAY, van_of(2), visits, 4, lengths, 2, LIMIT, &settled, &moves, &remaining);
    print_rearranged(refusal, visits, lengths, settled, moves, remaining);
}

/* Two vans from depots at 0 and 100; the list of the first also has the place at 90. */
static void plan_cross_depot(void) {
    const uint32_t van_ids[] = {7, 8};
    const size_t depots[] = {0, 1};
    const int32_t capacities[] = {10, 10};
    const double costs[] = {1, 1}, none[] = {0, 0}, prices[] = {180, 10};
    const uint8_t van_flags[] = {0, 0};
    uint16_t visits[] = {2, 3, 4}, lengths[] = {2, 1};
    uint32_t ids[] = {7, 8}, moves = 0;
    uint8_t settled = 0;
    size_t remaining = 0;
    place((const double[]){0, 100, 5, 90, 95}, 2);
    printf("cross-depot of 2 3 and 4, depots at 0 and 100: ");
    uint8_t refusal = planner_cross_depot_improve(DAY, van_ids, 2, depots, 2, capacities, 2, costs, 2, none, 2, van_flags, 2, none, 2,
                                                  none, 2, none, 2, none, 2, none, 2, visits, 3, lengths, 2, ids, 2, prices, 2, LIMIT,
                                                  &settled, &moves, &remaining);
    print_rearranged(refusal, visits, lengths, settled, moves, remaining);
}

int main(void) {
    const double line[PLACES] = {0, 10, 20, 30, 40};
    place(line, 1);
    print_distance((uint16_t[]){2, 1, 3}, 3);
    plan_within("2-opt", planner_two_opt_improve, (uint16_t[]){2, 1, 3}, 3);
    plan_within("Or-opt", planner_or_opt_improve, (uint16_t[]){3, 1, 2}, 3);
    plan_within("3-opt", planner_three_opt_improve, (uint16_t[]){1, 3, 2, 4}, 4);
    plan_relocate();
    plan_exchange();
    plan_cross_depot();
    place(line, 1);
    plan_within("2-opt", planner_two_opt_improve, (uint16_t[]){2, 1, 2}, 3);
    return 0;
}
