/*
 * The route planner's static library (rt lib in crates/planner_c: crates/planner_c/out/libplanner_c.a), System V C ABI, x86-64.
 *
 * Every function may be called with any numbers, lists and tables. A table is a pointer and the count of its entries; it
 * has to be readable (and, where not const, writable) over that count, and aligned. The result is 0, or the number of the
 * refusal in document 01; where it refuses, nothing is written. Answers go out through the last pointers.
 *
 * The day, by location 0 to l - 1 (l is 1 to 64). A number is plain if its sign bit is clear and it is finite and at most
 * 2^40. A value whose flag is off is never read.
 *   flags      bit 0 depot (the depots lead; with none flagged, location 0), bit 1 window, bit 2 lateness penalty
 *   demand     0 to 1,000,000
 *   service    time at the stop, plain
 *   ready, due the window, plain, ready at most due
 *   penalty    cost of one unit of lateness, plain: a window with a penalty is soft
 *   distances  l times l, row = from, plain
 *   times      the same, or no entry at all, and then the distances serve
 *
 * The lists lie one after another in visits; lengths has their lengths: at most 16 lists of at most 63 visits. Each visit
 * is a location that is no depot, and no location is visited twice. list is the number of the list asked for, from 0.
 *
 * A fleet is lent as columns, one for each field of a van: at most 16 vans, or none. Each list has the id of its van, the
 * first of the fleet with that id, else the fleet's first, and its price at the start.
 *
 * Refusals, the least number that applies; with a fleet 11 comes before 6, then 6 of every van, then 7 of every van:
 *   1 l is 0 or over 64                       7 a van's capacity, costs, limits, break or flags
 *   2 a table's length is wrong for l         8 the lists' number or lengths, or the list asked for
 *   3 a distance or time isn't plain          9 a visit is no location, or a depot
 *   4 demand, service, penalty or flags      10 a location is visited twice
 *   5 a window                               11 over 16 vans, or the length of a column of the fleet, of ids or of prices
 *   6 a van's depot is no depot location     12 a price at the start isn't plain
 */
#ifndef PLANNER_H
#define PLANNER_H

#include <stddef.h>
#include <stdint.h>

#ifdef __cplusplus
extern "C" {
#endif

/* A van, passed by value. */
struct planner_van {
    uint32_t id;
    size_t depot;               /* a depot location, where its lists start and end */
    int32_t capacity;           /* 0 to 2,000,000,000 */
    double cost_per_distance;   /* plain, and 0 or at least 2^-20 */
    double fixed_cost;          /* plain */
    uint8_t flags;              /* bit 0 max_distance, bit 1 max_duration, bit 2 break */
    double max_distance;        /* of one list, the way back included */
    double max_duration;        /* latest return, on the clock that starts at 0 */
    double earliest;            /* the break starts here at the earliest, */
    double latest;              /* here at the latest (at least earliest), */
    double duration;            /* and takes this long */
};

/* The columns and tables of a day, in the order in which every function takes them. */
#define PLANNER_DAY                             \
    size_t l,                                   \
    const uint8_t *flags, size_t flags_count,   \
    const int32_t *demand, size_t demand_count, \
    const double *service, size_t service_count, \
    const double *ready, size_t ready_count,    \
    const double *due, size_t due_count,        \
    const double *penalty, size_t penalty_count, \
    const double *distances, size_t distances_count, \
    const double *times, size_t times_count

/* The lists, only read, and the number of the list asked for. */
#define PLANNER_LIST                            \
    const uint16_t *visits, size_t visits_count, \
    const uint16_t *lengths, size_t lengths_count, \
    size_t list

/* The number of the first refusal of a call that asks for a list, 0 where there is none. */
uint8_t planner_refusal(PLANNER_DAY, struct planner_van van, PLANNER_LIST);

/* The same of a call that takes all lists and asks for none. */
uint8_t planner_refusal_of_lists(PLANNER_DAY, struct planner_van van, const uint16_t *visits, size_t visits_count,
                                 const uint16_t *lengths, size_t lengths_count);

/* The columns of a fleet, an entry a van: the fields of struct planner_van. */
#define PLANNER_FLEET                           \
    const uint32_t *van_ids, size_t van_ids_count, \
    const size_t *depots, size_t depots_count,  \
    const int32_t *capacities, size_t capacities_count, \
    const double *distance_costs, size_t distance_costs_count, \
    const double *fixed_costs, size_t fixed_costs_count, \
    const uint8_t *van_flags, size_t van_flags_count, \
    const double *max_distances, size_t max_distances_count, \
    const double *max_durations, size_t max_durations_count, \
    const double *earliest, size_t earliest_count, \
    const double *latest, size_t latest_count,  \
    const double *durations, size_t durations_count

/* The same of a call that takes all lists and a fleet; ids and prices have an entry a list. */
uint8_t planner_refusal_of_fleet(PLANNER_DAY, PLANNER_FLEET, const uint16_t *visits, size_t visits_count,
                                 const uint16_t *lengths, size_t lengths_count, const uint32_t *ids, size_t ids_count,
                                 const double *prices, size_t prices_count);

/* The list's distance: from the van's depot through its visits and back; 0 for an empty list. Limits and windows don't matter. */
uint8_t planner_route_distance(PLANNER_DAY, struct planner_van van, PLANNER_LIST, double *distance);

/* Whether the list keeps every hard window, the van's limits and its break: 1 or 0. Capacity is not tested. */
uint8_t planner_route_feasible(PLANNER_DAY, struct planner_van van, PLANNER_LIST, uint8_t *passes);

/* Whether the list passes, as above, and if so what it comes to: distance, return to the depot, time late at soft windows
 * and what that costs. Where passes is 0 the four numbers are left as they were. An empty list's distance is the depot's
 * distance from itself. */
uint8_t planner_route_eval(PLANNER_DAY, struct planner_van van, PLANNER_LIST, uint8_t *passes, double *distance,
                           double *duration, double *lateness, double *lateness_cost);

/* The list's clock with the van's break; its limits are not applied. found is 1 where the hard windows are kept and the
 * break is placed or left out, and else 0, with the rest left as it was. taken is 1 where the break is taken: before the
 * service of the visit at position (from 0) of the list, from start on; where it is 0, position and start are left. For a
 * van without a break it is the clock with no break to take, and taken is 0. */
uint8_t planner_schedule(PLANNER_DAY, struct planner_van van, PLANNER_LIST, uint8_t *found, double *distance,
                         double *duration, double *lateness, double *lateness_cost, uint8_t *taken, size_t *position,
                         double *start);

/* The lists, of which the one asked for is changed in place; every other list and the lengths stay as they were. */
#define PLANNER_CHANGED_LIST                    \
    uint16_t *visits, size_t visits_count,      \
    const uint16_t *lengths, size_t lengths_count, \
    size_t list

/* 2-opt, Or-opt and 3-opt of the list asked for, by at most limit moves. settled is 1 where no permitted move gains any
 * more, and 0 where the limit was used up and another move would gain; moves says how many were made, and distance is that
 * of the list handed back. With a soft window anywhere on the day the same moves are searched over distance plus lateness
 * cost. */
uint8_t planner_two_opt_improve(PLANNER_DAY, struct planner_van van, PLANNER_CHANGED_LIST, uint32_t limit,
                                uint8_t *settled, uint32_t *moves, double *distance);
uint8_t planner_or_opt_improve(PLANNER_DAY, struct planner_van van, PLANNER_CHANGED_LIST, uint32_t limit,
                               uint8_t *settled, uint32_t *moves, double *distance);
uint8_t planner_three_opt_improve(PLANNER_DAY, struct planner_van van, PLANNER_CHANGED_LIST, uint32_t limit,
                                  uint8_t *settled, uint32_t *moves, double *distance);

/* All lists, changed in place with their lengths. */
#define PLANNER_ALL_LISTS                       \
    uint16_t *visits, size_t visits_count,      \
    uint16_t *lengths, size_t lengths_count

/* Relocate and tail exchange between all lists, by at most limit moves; settled and moves as above. With two lists or more
 * the empty ones are dropped at the end: the others keep their order, remaining says how many they are, and behind them
 * lengths has 0. pruning, 1 as in the Rust or 0, changes how long relocate takes and nothing else. */
uint8_t planner_relocate_improve(PLANNER_DAY, struct planner_van van, PLANNER_ALL_LISTS, uint32_t limit, uint8_t pruning,
                                 uint8_t *settled, uint32_t *moves, size_t *remaining);
uint8_t planner_exchange_improve(PLANNER_DAY, struct planner_van van, PLANNER_ALL_LISTS, uint32_t limit,
                                 uint8_t *settled, uint32_t *moves, size_t *remaining);

/* Relocations, swaps and tail exchanges between all lists, each under its own van, by at most limit moves; settled, moves
 * and remaining as above. ids says the id of each list's van and is changed in place with the lists: after a run it has that
 * of the van found for each list, and behind the lists that remain 0. prices has what each list costs at the start. Fewer
 * than two lists, or lists with no fleet, stay as they are, and so do their ids. */
uint8_t planner_cross_depot_improve(PLANNER_DAY, PLANNER_FLEET, PLANNER_ALL_LISTS, uint32_t *ids, size_t ids_count,
                                    const double *prices, size_t prices_count, uint32_t limit, uint8_t *settled,
                                    uint32_t *moves, size_t *remaining);

/* What is worked out of day and van before the first move: the largest distance, the least gain that counts (1e-12 times
 * that), whether each distance equals its mirror (1 or 0), the van's fixed cost in distance, and the number of depots.
 * Refusals 1 to 7. */
uint8_t planner_table(PLANNER_DAY, struct planner_van van, double *scale, double *floor, uint8_t *symmetric,
                      double *fixed, size_t *depots);

#ifdef __cplusplus
}
#endif

#endif
