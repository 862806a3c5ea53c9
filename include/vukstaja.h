/* The engine's five calls, for C: proved in Rattle (crates/exports), linked from libexports.a. docs/CALLING.md says it in full.
 *
 * What is asked of the caller, since C can't show it: no pointer is null, even where its length is 0; each is aligned for its
 * element type; each buffer has at least as many elements as its length says; no two buffers overlap; and until the call
 * returns nobody else writes any of them (the log and the cells are read back during a run). Nothing is asked of what the
 * buffers hold. */
#ifndef VUKSTAJA_H
#define VUKSTAJA_H

#include <stddef.h>
#include <stdint.h>

/* The places of an answer's eight numbers. */
enum {
    VUKSTAJA_NUMBER = 0,      /* 0: done; 12: a loss circle, after a run; else the refusal's number */
    VUKSTAJA_HAS_PLACE = 1,   /* 1 where there is a place (refusals 9, 10, 11, 13, 14 and 15), else 0 */
    VUKSTAJA_PLACE = 2,       /* the place, else 0 */
    VUKSTAJA_ROUNDS = 3,      /* of a run: the greatest depth of its words */
    VUKSTAJA_LOG_LENGTH = 4,  /* of a run */
    VUKSTAJA_VERDICT = 5,     /* of a request's run */
    VUKSTAJA_PLAN_LENGTH = 3, /* of a written plan */
    VUKSTAJA_CELLS = 3,       /* of the sizes: cells */
    VUKSTAJA_LOG = 4,         /* words of the log, which are enough for the plan too */
    VUKSTAJA_DISTANCES = 5,   /* places of distances: n, in method 4 n * n */
    VUKSTAJA_PARENTS = 6,     /* places of parents: n, in method 4 none */
    VUKSTAJA_ROUTE = 7        /* places of the route, 0 in every method but 5 */
};

typedef uint64_t vukstaja_answer[8];

#ifdef __cplusplus
extern "C" {
#endif

/* Runs a request. With 0 cells, log, distances and parents are the run's; with 12 only cells and log; else nothing is changed.
 * The route is looked at in method 5 only, and is the run's with 0: the edges' numbers, the last edge first, then -1.
 * In method 4 the distances are a table of n rows, distances[i * n + j] that of vertex j from vertex i, and 12 is the answer to
 * a loss circle anywhere. It has no parents: their buffer is not looked at, may have any length, 0 too, and stays as it is; its
 * pointer must not be null even so. */
void vukstaja_run(const uint64_t *request, size_t request_length,
                  int64_t *cells, size_t cells_length,
                  uint64_t *log, size_t log_length,
                  int64_t *distances, size_t distances_length,
                  int64_t *parents, size_t parents_length,
                  int64_t *route, size_t route_length,
                  vukstaja_answer *answer);

/* Runs a plan that somebody else wrote, on the lent cells. With 0 cells and log are the run's; else nothing is changed. */
void vukstaja_run_plan(const uint64_t *plan, size_t plan_length,
                       int64_t *cells, size_t cells_length,
                       uint64_t *log, size_t log_length,
                       vukstaja_answer *answer);

/* Writes the plan of a header, whose first word alone is looked at. With 0 the plan is written; else nothing is changed. */
void vukstaja_write_plan(const uint64_t *header, size_t header_length,
                         uint64_t *plan, size_t plan_length,
                         vukstaja_answer *answer);

/* Tells the lengths of the buffers that a header, whose first word alone is looked at, asks for; with any number but 0, nothing. */
void vukstaja_sizes(const uint64_t *header, size_t header_length,
                    vukstaja_answer *answer);

/* Converts, in place, distances that were saved before prices came in hundredths. If every word is 2^38, the old mark of an
 * unreached vertex, or from -31,000,000 to 31,000,000, then 2^38 becomes 2^39 - 1 and every other word a hundredfold; else the
 * answer is 11 with the lowest place of a word that is neither, and nothing is changed. No words at all are converted with 0.
 * Convert saved distances once: words without the mark may pass a second time, and would be a hundredfold again. */
void vukstaja_convert(int64_t *saved, size_t saved_length,
                      vukstaja_answer *answer);

#ifdef __cplusplus
}
#endif

#endif
