/*
 * What the tests of the interface for C share: checks, records and lists, and a connection with
 * guard bytes around all that a call writes.
 */
#ifndef BENCH_H
#define BENCH_H

#include <stdio.h>
#include <stdlib.h>
#include <string.h>

#include "menhotrac.h"

enum {
    GUARD = 32,
    FILLER = 0xa5,
    FULL = MENHOTRAC_MIN_CACHE,
    BLOCK = 5
};

#define COUNT(array) (sizeof(array) / sizeof *(array))
#define LIST(suites) {(suites), COUNT(suites)}
#define CHECK(holds) check((holds), #holds, __FILE__, __LINE__)

static unsigned long checks;
static const char *running = "start";

static inline void check(int holds, const char *what, const char *file, int line)
{
    checks++;
    if (!holds) {
        fprintf(stderr, "%s:%d: %s: %s is wrong\n", file, line, running, what);
        exit(EXIT_FAILURE);
    }
}

/* ---- Records, blocks and lists ---- */

static const menhotrac_connection fresh = {.state = MENHOTRAC_STATE_CLOSED_UNLOCKED};
static const menhotrac_connection greeted = {
    .state = MENHOTRAC_STATE_WAIT_FOR_HELLO, .handled = 1, .h = 1
};
static const menhotrac_connection greeted_at_limit = {
    .state = MENHOTRAC_STATE_WAIT_FOR_HELLO, .handled = UINT32_MAX, .h = 1
};
static const menhotrac_connection both_run = {
    .state = MENHOTRAC_STATE_WAIT_FOR_RA, .handled = 9, .prover = 7, .verifier = 8, .dat = 2
};
static const menhotrac_connection expired = {
    .state = MENHOTRAC_STATE_WAIT_FOR_DAT_AND_RA_VERIFIER, .handled = 9, .h = 9
};
static const menhotrac_connection expired_at_limit = {
    .state = MENHOTRAC_STATE_WAIT_FOR_DAT_AND_RA_VERIFIER, .handled = UINT32_MAX, .h = 9
};
static const menhotrac_connection ready = {
    .state = MENHOTRAC_STATE_ESTABLISHED, .handled = 9, .dat = 2, .ra = 4
};
static const menhotrac_connection ready_at_limit = {
    .state = MENHOTRAC_STATE_ESTABLISHED, .handled = UINT32_MAX, .dat = 2, .ra = 4
};
static const menhotrac_connection ready_without_ra = {
    .state = MENHOTRAC_STATE_ESTABLISHED, .handled = 9, .dat = 2
};
static const menhotrac_connection waiting = {
    .state = MENHOTRAC_STATE_WAIT_FOR_ACK, .awaiting_ack = 1, .next_send_bit = 1, .cached_len = 3,
    .handled = 9, .dat = 2, .ra = 4, .ack = 9
};
static const menhotrac_connection locked = {
    .state = MENHOTRAC_STATE_CLOSED_LOCKED, .handled = 9
};

static const menhotrac_connection *const records[] = {
    &fresh, &greeted, &greeted_at_limit, &both_run, &expired, &expired_at_limit, &ready,
    &ready_at_limit, &ready_without_ra, &waiting, &locked
};

static const uint8_t block[BLOCK] = {10, 20, 30, 40, 50};
static const uint32_t suite_1[] = {1};
static const uint32_t suite_2[] = {2};
static const uint32_t suite_3[] = {3};
static const uint32_t suites_3_7[] = {3, 7};
static const uint32_t suites_7_3[] = {7, 3};
static const uint32_t sixteen[] = {2, 3, 4, 5, 6, 7, 8, 9, 10, 11, 12, 13, 14, 15, 16, 1};
static const uint32_t seventeen[] = {1, 1, 1, 1, 1, 1, 1, 1, 1, 1, 1, 1, 1, 1, 1, 1, 1};

/* Margins that are refused. */
static const uint32_t large_margins[] = {MENHOTRAC_MAX_MARGIN + 1, UINT32_MAX};

/* The boot run's token, with a verdict and a margin. */
#define TOKEN(number, verdict_given, margin_given) \
    {.code = (number), .verdict = (verdict_given), .margin = (margin_given), \
     .expiry = 1060, .now = 1000}
#define HELLO(verdict_given) TOKEN(MENHOTRAC_EVENT_SC_HELLO, (verdict_given), 0)

/* ---- A connection with all that a call writes ---- */

/* There is no padding. */
struct bench {
    uint8_t before[GUARD];
    menhotrac_connection connection;
    uint8_t between[GUARD];
    uint8_t cache[FULL];
    uint8_t beside[GUARD];
    menhotrac_actions actions;
    uint8_t after[GUARD];
};

static inline void set_up(struct bench *bench, const menhotrac_connection *connection)
{
    memset(bench, FILLER, sizeof *bench);
    bench->connection = *connection;
}

static inline uint32_t step(struct bench *bench, const menhotrac_call *call)
{
    return menhotrac_call_step(&bench->connection, call, bench->cache, FULL, &bench->actions);
}

/* Whether guards and cache are those of `expected`, except for what a sent block changes. */
static inline int kept_around(const struct bench *bench, const struct bench *expected, size_t sent)
{
    struct bench merged = *expected;

    merged.connection = bench->connection;
    merged.actions = bench->actions;
    memcpy(merged.cache, bench->cache, sent);
    return memcmp(&merged, bench, sizeof merged) == 0;
}

#endif
