/* What the trials share: the value of each row, which tests/bindings reckons the same way, and how a wrong answer is told. */
#ifndef TRIALS_H
#define TRIALS_H

#include "h5swmr.h"

#include <inttypes.h>
#include <stdio.h>
#include <stdlib.h>

static inline int64_t value_of(uint64_t row)
{
    return (int64_t)(row * 2654435761u % 1000003) - 500000;
}

static int failed;

/* Tells an answer that is not the one that is wanted. */
static inline void want(const char *what, uint64_t seen, uint64_t wanted)
{
    if (seen != wanted) {
        printf("%s: %" PRIu64 ", wanted %" PRIu64 "\n", what, seen, wanted);
        failed = 1;
    }
}

/* Tells a call that came to another code than the one that is wanted. */
static inline h5w_told want_code(const char *what, h5w_told told, uint32_t wanted)
{
    if (told.code != wanted) {
        printf("%s: code %" PRIu32 " (%s, detail %" PRIu32 ", count %" PRIu64 "), wanted %" PRIu32 "\n", what, told.code, h5swmr_text(told), told.detail, told.count, wanted);
        failed = 1;
    }
    return told;
}

#endif
