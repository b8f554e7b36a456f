/* Cutting a message. */
#ifndef BENCH_MESSAGES_H
#define BENCH_MESSAGES_H

#include "fields.h"

/* A job about a message: cut it by skogmund_message. Compares how many fields there are. */
uint64_t cut_message(void *message);

#endif
