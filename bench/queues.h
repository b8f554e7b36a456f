/* Making queues, filing one into an empty shelf, listing one. */
#ifndef BENCH_QUEUES_H
#define BENCH_QUEUES_H

#include "fields.h"

struct queue {
    uint8_t octets[MOST_OCTETS];
    size_t n;
    uint64_t records;
    uint64_t kept; /* as worked out here, of an empty shelf */
};

/* A queue of as many records as fit, but at most `most`, each with a small field. They go round the 64 slots; their reference times are
   mixed, so that some are kept and some are passed. Another `seed` gives other times. */
void make_queue(struct queue *q, uint64_t most, unsigned seed);

/* Jobs about a queue: make a shelf empty and file the queue into it; list the queue. Both compare the counts. */
uint64_t file_into_empty(void *queue);
uint64_t list_queue(void *queue);

#endif
