/* The five calls from C: the printed request of the rules, its sizes, its plan, the plan run from outside, requests of
 * methods 3, 4 and 5, saved distances converted, and refusals. */
#include <inttypes.h>
#include <stdio.h>
#include <stdlib.h>

#include "vukstaja.h"

/* What a run is lent. */
struct buffers {
    size_t cells_length, log_length, distances_length, parents_length, route_length;
    int64_t *cells, *distances, *parents, *route;
    uint64_t *log;
};

/* The names of what a call tells, at the places that the header has for them; at the others an answer has 0. */
typedef const char *const names[8];

#define TOLD_BY_EVERY_CALL \
    [VUKSTAJA_NUMBER] = "number", [VUKSTAJA_HAS_PLACE] = "has_place", [VUKSTAJA_PLACE] = "place"

static names of_run = {TOLD_BY_EVERY_CALL, [VUKSTAJA_ROUNDS] = "rounds", [VUKSTAJA_LOG_LENGTH] = "log_length",
                       [VUKSTAJA_VERDICT] = "verdict"};
static names of_run_plan = {TOLD_BY_EVERY_CALL, [VUKSTAJA_ROUNDS] = "rounds", [VUKSTAJA_LOG_LENGTH] = "log_length"};
static names of_write_plan = {TOLD_BY_EVERY_CALL, [VUKSTAJA_PLAN_LENGTH] = "plan_length"};
static names of_sizes = {TOLD_BY_EVERY_CALL, [VUKSTAJA_CELLS] = "cells", [VUKSTAJA_LOG] = "log",
                         [VUKSTAJA_DISTANCES] = "distances", [VUKSTAJA_PARENTS] = "parents", [VUKSTAJA_ROUTE] = "route"};
static names of_convert = {TOLD_BY_EVERY_CALL};

/* All eight numbers, each after its name if it has one: a name at a wrong place is seen even where the numbers are alike. */
static void print_answer(const char *call, names told, const vukstaja_answer answer)
{
    printf("%s:", call);
    for (int i = 0; i < 8; i++) {
        if (told[i] == NULL)
            printf(" %" PRIu64, answer[i]);
        else
            printf(" %s=%" PRIu64, told[i], answer[i]);
    }
    printf("\n");
}

/* As many zeros of eight bytes each, and one more: of none, calloc may make a null pointer. */
static void *zeros(size_t count)
{
    void *made = calloc(count + 1, 8);
    if (made == NULL) {
        fprintf(stderr, "no memory for %zu numbers\n", count);
        exit(1);
    }
    return made;
}

/* Buffers of the lengths that a header asks for. */
static struct buffers made_for(uint64_t header)
{
    vukstaja_answer sizes;
    vukstaja_sizes(&header, 1, &sizes);
    print_answer("sizes", of_sizes, sizes);
    if (sizes[VUKSTAJA_NUMBER] != 0)
        exit(1);
    return (struct buffers){
        .cells_length = sizes[VUKSTAJA_CELLS],
        .log_length = sizes[VUKSTAJA_LOG],
        .distances_length = sizes[VUKSTAJA_DISTANCES],
        .parents_length = sizes[VUKSTAJA_PARENTS],
        .route_length = sizes[VUKSTAJA_ROUTE],
        .cells = zeros(sizes[VUKSTAJA_CELLS]),
        .log = zeros(sizes[VUKSTAJA_LOG]),
        .distances = zeros(sizes[VUKSTAJA_DISTANCES]),
        .parents = zeros(sizes[VUKSTAJA_PARENTS]),
        .route = zeros(sizes[VUKSTAJA_ROUTE]),
    };
}

static void give_back(struct buffers *lent)
{
    free(lent->cells);
    free(lent->log);
    free(lent->distances);
    free(lent->parents);
    free(lent->route);
}

static void run(const uint64_t *request, size_t length, struct buffers *lent, vukstaja_answer *answer)
{
    vukstaja_run(request, length, lent->cells, lent->cells_length, lent->log, lent->log_length,
                 lent->distances, lent->distances_length, lent->parents, lent->parents_length,
                 lent->route, lent->route_length, answer);
}

/* The edges' numbers, the last edge first; the rest of the route is -1. */
static void print_route(const struct buffers *lent)
{
    printf("route");
    for (size_t k = 0; k < lent->route_length && lent->route[k] != -1; k++)
        printf(" %" PRId64, lent->route[k]);
    printf("\n");
}

static void run_request(const uint64_t *request, size_t length)
{
    struct buffers lent = made_for(request[0]);
    vukstaja_answer answer;
    run(request, length, &lent, &answer);
    print_answer("run", of_run, answer);
    for (size_t v = 0; v < lent.distances_length; v++)
        printf("%zu %" PRId64 " %" PRId64 "\n", v, lent.distances[v], lent.parents[v]);
    if (lent.route_length > 0)
        print_route(&lent);
    give_back(&lent);
}

/* A request of method 4: distances by rows, and no parents. */
static void run_table(const uint64_t *request, size_t length, size_t vertices)
{
    struct buffers lent = made_for(request[0]);
    vukstaja_answer answer;
    run(request, length, &lent, &answer);
    print_answer("run", of_run, answer);
    for (size_t i = 0; i < vertices; i++) {
        printf("from %zu:", i);
        for (size_t j = 0; j < vertices; j++)
            printf(" %" PRId64, lent.distances[i * vertices + j]);
        printf("\n");
    }
    give_back(&lent);
}

/* The plan's own cells hold the edge of the printed request: from 0, to 1, weight -5. */
static void run_written_plan(void)
{
    const uint64_t header[] = {0x1000020000100000};
    struct buffers lent = made_for(header[0]);
    uint64_t *plan = zeros(lent.log_length);
    vukstaja_answer answer;
    vukstaja_write_plan(header, 1, plan, lent.log_length, &answer);
    print_answer("write_plan", of_write_plan, answer);
    lent.cells[1] = 1;
    lent.cells[2] = -5;
    vukstaja_run_plan(plan, answer[VUKSTAJA_PLAN_LENGTH], lent.cells, lent.cells_length,
                      lent.log, lent.log_length, &answer);
    print_answer("run_plan", of_run_plan, answer);
    printf("distance of 1: %" PRId64 "\n", lent.cells[4]);
    free(plan);
    give_back(&lent);
}

/* What the call leaves: distances that it refuses stay as they were. */
static void convert(const char *call, int64_t *saved, size_t length)
{
    vukstaja_answer answer;
    vukstaja_convert(saved, length, &answer);
    print_answer(call, of_convert, answer);
    printf("saved:");
    for (size_t v = 0; v < length; v++)
        printf(" %" PRId64, saved[v]);
    printf("\n");
}

/* Twice: converted distances have no longer the old mark of an unreached vertex, 2^38. */
static void convert_saved(void)
{
    int64_t saved[] = {0, -5, 31000000, -31000000, 274877906944};
    int64_t too_far[] = {0, 31000001, -31000001};
    convert("convert", saved, 5);
    convert("convert again", saved, 5);
    convert("a saved distance of 31,000,001", too_far, 3);
}

static void be_refused(void)
{
    uint64_t request[] = {0x1000010000100000, 0x0000000005F5E101};
    const uint64_t unknown[] = {0x0000010000000000};
    struct buffers lent = made_for(request[0]);
    vukstaja_answer answer;
    run(request, 2, &lent, &answer);
    print_answer("a weight of 100,000,001", of_run, answer);
    request[1] = 0x0001000000000000;
    run(request, 2, &lent, &answer);
    print_answer("an edge to vertex 1 of 1", of_run, answer);
    lent.log_length -= 1;
    run(request, 2, &lent, &answer);
    print_answer("a log one word short", of_run, answer);
    vukstaja_sizes(unknown, 1, &answer);
    print_answer("sizes of method 0", of_sizes, answer);
    give_back(&lent);
}

static void be_refused_unsorted(void)
{
    const uint64_t request[] = {0x3000020000200000, 0x0001000000000000, 0x0000000000000000};
    struct buffers lent = made_for(request[0]);
    vukstaja_answer answer;
    run(request, 3, &lent, &answer);
    print_answer("an edge to vertex 0 after one to vertex 1", of_run, answer);
    give_back(&lent);
}

/* Edges from 1 to 2 and back lose 1. */
static void be_refused_circle(void)
{
    const uint64_t request[] = {0x1000030000200002, 0x0102000000000000, 0x02010000FFFFFFFF};
    struct buffers lent = made_for(request[0]);
    vukstaja_answer answer;
    run(request, 3, &lent, &answer);
    print_answer("a loss circle that vertex 2 reaches", of_run, answer);
    give_back(&lent);
}

/* The same edges: in method 4 it does not matter that vertex 0 does not reach the circle. */
static void be_refused_table(void)
{
    uint64_t request[] = {0x4000030000200000, 0x0102000000000000, 0x02010000FFFFFFFF};
    struct buffers lent = made_for(request[0]);
    vukstaja_answer answer;
    run(request, 3, &lent, &answer);
    print_answer("a loss circle anywhere", of_run, answer);
    lent.distances_length -= 1;
    run(request, 3, &lent, &answer);
    print_answer("a table one place short", of_run, answer);
    request[0] |= 1;
    run(request, 3, &lent, &answer);
    print_answer("a source of 1 in method 4", of_run, answer);
    give_back(&lent);
}

static void be_refused_destination(void)
{
    const uint64_t request[] = {0x5000020000100000, 0x0001000000000000, 2};
    struct buffers lent = made_for(request[0]);
    vukstaja_answer answer;
    run(request, 3, &lent, &answer);
    print_answer("a route to vertex 2 of 2", of_run, answer);
    give_back(&lent);
}

int main(void)
{
    const uint64_t printed[] = {0x1000020000100000, 0x00010000FFFFFFFB};
    const uint64_t sorted[] = {0x3000030000300000, 0x0001000000000007, 0x02010000FFFFFFFC, 0x0002000000000009};
    const uint64_t tabled[] = {0x4000030000300000, 0x0001000000000007, 0x02010000FFFFFFFC, 0x0002000000000009};
    const uint64_t routed[] = {0x5000040000400000, 0x0203000000000001, 0x0002000000000009,
                               0x02010000FFFFFFFC, 0x0001000000000007, 1};
    run_request(printed, 2);
    run_written_plan();
    run_request(sorted, 4);
    run_table(tabled, 4, 3);
    run_request(routed, 6);
    convert_saved();
    be_refused();
    be_refused_unsorted();
    be_refused_circle();
    be_refused_table();
    be_refused_destination();
    return 0;
}
