/* What the tests of the header share: a claim that is fixed when it is compiled, and what a call must answer and leave. */
#ifndef EXPECT_H
#define EXPECT_H

#include "campaign.h"

#include <stdio.h>
#include <string.h>

#ifdef __cplusplus
#define FIXED(claim) static_assert(claim, #claim)
#else
#define FIXED(claim) _Static_assert(claim, #claim)
#endif

static int faults = 0;

static inline void expect(const char *what, uint32_t answer, uint32_t kind, uint32_t refusal, uint32_t place)
{
    if (answer == kind * 16777216u + refusal * 65536u + place
        && campaign_kind_of(answer) == kind && campaign_refusal_of(answer) == refusal
        && campaign_place_of(answer) == place)
        return;
    fprintf(stderr, "header: %s: answer %lu\n", what, (unsigned long) answer);
    faults++;
}

static inline void expect_bytes(const char *what, const void *found, const void *wanted, size_t length)
{
    if (length == 0 || memcmp(found, wanted, length) == 0)
        return;
    fprintf(stderr, "header: %s: other bytes\n", what);
    faults++;
}

#endif
