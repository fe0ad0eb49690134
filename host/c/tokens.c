/*
 * Tokens at the interface for C under test: the worked cases of document 01 for the seconds left,
 * with and without a margin, asked alone and as the length of DAT, and the hellos that open.
 */
#include "bench.h"

/* ---- Hello and DAT ---- */

/* What a good token orders at the hello and at its return, and what a bad one orders. */
static const menhotrac_actions opening = {
    .prover = MENHOTRAC_DRIVER_START, .verifier = MENHOTRAC_DRIVER_START,
    .h = MENHOTRAC_TIMER_CANCEL, .hp = MENHOTRAC_TIMER_START, .hv = MENHOTRAC_TIMER_START,
    .dat = MENHOTRAC_TIMER_START, .verifier_suite = 7, .prover_suite = 3
};
static const menhotrac_actions returning = {
    .verifier = MENHOTRAC_DRIVER_START, .h = MENHOTRAC_TIMER_CANCEL, .hv = MENHOTRAC_TIMER_START,
    .dat = MENHOTRAC_TIMER_START
};
static const menhotrac_actions locking = {
    .message = MENHOTRAC_MESSAGE_CLOSE, .h = MENHOTRAC_TIMER_CANCEL
};

/* The call leads to a state and orders, with these seconds of DAT; with 0 it locks. */
static void check_token(const menhotrac_connection *connection, const menhotrac_call *call,
                        uint32_t state, const menhotrac_actions *orders, uint32_t seconds)
{
    menhotrac_actions expected = seconds > 0 ? *orders : locking;
    struct bench bench;
    struct bench before;

    expected.dat_seconds = seconds;
    set_up(&bench, connection);
    before = bench;
    CHECK(step(&bench, call) == MENHOTRAC_HANDLED);
    CHECK(bench.connection.state == (seconds > 0 ? state : MENHOTRAC_STATE_CLOSED_LOCKED));
    CHECK(bench.connection.handled == connection->handled + 1);
    CHECK(memcmp(&bench.actions, &expected, sizeof expected) == 0);
    CHECK(kept_around(&bench, &before, 0));
}

static void check_hello(menhotrac_event event, menhotrac_list our_provers, uint32_t seconds)
{
    menhotrac_call call = {
        .event = event, .our_verifiers = LIST(suites_7_3), .peer_provers = LIST(suites_3_7),
        .peer_verifiers = LIST(suite_3), .our_provers = our_provers
    };

    call.event.code = MENHOTRAC_EVENT_SC_HELLO;
    check_token(&greeted, &call, MENHOTRAC_STATE_WAIT_FOR_RA, &opening, seconds);
}

static void check_dat(menhotrac_event event, uint32_t seconds)
{
    menhotrac_call call = {.event = event};

    call.event.code = MENHOTRAC_EVENT_SC_DAT;
    check_token(&expired, &call, MENHOTRAC_STATE_WAIT_FOR_RA_VERIFIER, &returning, seconds);
}

/* Whether a hello opens the connection. */
static void test_hellos(void)
{
    static const struct {
        const char *name;
        uint32_t seconds; /* of DAT, 0 where the hello locks */
        menhotrac_event event;
        menhotrac_list our_provers;
    } cases[] = {
        {"the boot run's hello", 60, HELLO(MENHOTRAC_VERDICT_YES), LIST(suites_3_7)},
        {"verdict no", 0, HELLO(MENHOTRAC_VERDICT_NO), LIST(suites_3_7)},
        {"16 suites", 60, HELLO(MENHOTRAC_VERDICT_YES), LIST(sixteen)},
        {"no suite in common", 0, HELLO(MENHOTRAC_VERDICT_YES), LIST(suite_2)},
    };
    size_t i;

    for (i = 0; i < COUNT(cases); i++) {
        running = cases[i].name;
        check_hello(cases[i].event, cases[i].our_provers, cases[i].seconds);
    }
}

/* ---- Seconds left ---- */

struct time_case {
    const char *name;
    int64_t expiry;
    int64_t now;
    uint32_t margin;
    int64_t left;
};

static const struct time_case times[] = {
    {"case 11", 1000, 1000, 0, 0},
    {"one second left", 1001, 1000, 0, 1},
    {"the boot run's token", 1060, 1000, 0, 60},
    {"a second late", 1000, 1001, 0, -1},
    {"across zero", 30, -30, 0, 60},
    {"a day less a second", 87399, 1000, 0, 86399},
    {"a day", 87400, 1000, 0, 86400},
    {"a day and a second", 87401, 1000, 0, 86400},
    {"late by a day less a second", 1000, 87399, 0, -86399},
    {"late by a day", 1000, 87400, 0, -86400},
    {"late by a day and a second", 1000, 87401, 0, -86400},
    {"margin 1", 1060, 1000, 1, 59},
    {"margin 59, one second left", 1060, 1000, 59, 1},
    {"margin 60, no second left", 1060, 1000, 60, 0},
    {"margin 299, no second left", 1299, 1000, 299, 0},
    {"margin 299, one second left", 1300, 1000, 299, 1},
    {"margin 300, no second left", 1300, 1000, 300, 0},
    {"margin 300, one second left", 1301, 1000, 300, 1},
    {"margin 300, across zero", 300, -60, 300, 60},
    {"margin 300, a day less a second", 87699, 1000, 300, 86399},
    {"margin 300, a day", 87700, 1000, 300, 86400},
    {"margin 300, a day and a second", 87701, 1000, 300, 86400},
    {"margin 300, late by a day less a second", 1000, 87099, 300, -86399},
    {"margin 300, late by a day", 1000, 87100, 300, -86400},
    {"margin 300, late by a day and a second", 1000, 87101, 300, -86400},
};

/* Seconds left, asked alone. */
static void check_asked(const struct time_case *given, uint32_t refusal)
{
    int64_t guarded[3]; /* the seconds between two guards */
    int64_t expected[3];

    memset(guarded, FILLER, sizeof guarded);
    memset(expected, FILLER, sizeof expected);
    expected[1] = given->left;
    CHECK(menhotrac_seconds_left(given->expiry, given->now, given->margin, &guarded[1])
          == refusal);
    CHECK(memcmp(guarded, expected, sizeof guarded) == 0);
}

/* The seconds left, asked alone, at a hello and at a token's return; a verdict of no locks. */
static void check_time(const struct time_case *given)
{
    menhotrac_event event = {
        .verdict = MENHOTRAC_VERDICT_YES, .margin = given->margin,
        .expiry = given->expiry, .now = given->now
    };
    menhotrac_list our_provers = LIST(suites_3_7);
    uint32_t seconds = given->left > 0 ? (uint32_t)given->left : 0;

    running = given->name;
    check_asked(given, MENHOTRAC_HANDLED);
    check_hello(event, our_provers, seconds);
    check_dat(event, seconds);
    event.verdict = MENHOTRAC_VERDICT_NO;
    check_hello(event, our_provers, 0);
    check_dat(event, 0);
}

/* Case 12 and its neighbours: nothing wraps at either end of 64 bits. */
static void check_ends(uint32_t margin)
{
    const int64_t early = margin;
    const struct time_case ends[] = {
        {"case 12", INT64_MAX, INT64_MIN, margin, 86400},
        {"case 12, swapped", INT64_MIN, INT64_MAX, margin, -86400},
        {"both largest", INT64_MAX, INT64_MAX, margin, -early},
        {"both smallest", INT64_MIN, INT64_MIN, margin, -early},
        {"one second left of the largest", INT64_MAX, INT64_MAX - early - 1, margin, 1},
        {"one second left, the smallest now", INT64_MIN + early + 1, INT64_MIN, margin, 1},
        {"as much as 64 bits hold", INT64_MAX, -early, margin, 86400},
        {"one more than 64 bits hold", INT64_MAX, -early - 1, margin, 86400},
        {"as little as 64 bits hold", INT64_MIN + early, 0, margin, -86400},
        {"one less than 64 bits hold", INT64_MIN + early, 1, margin, -86400},
        {"less than 64 bits hold by the margin", INT64_MIN, 0, margin, -86400},
    };
    size_t i;

    for (i = 0; i < COUNT(ends); i++)
        check_time(&ends[i]);
}

static void test_times(void)
{
    static const uint32_t taken[] = {0, 1, 299, 300};
    size_t i;

    for (i = 0; i < COUNT(times); i++)
        check_time(&times[i]);
    for (i = 0; i < COUNT(taken); i++)
        check_ends(taken[i]);
}

/* Asked alone with a margin above 300: refused, and 0 is written. */
static void test_times_refused(void)
{
    static const int64_t at[] = {INT64_MIN, -1000, 0, 1000, INT64_MAX};
    size_t i;
    size_t j;
    size_t k;

    running = "seconds left with a margin above 300";
    for (i = 0; i < COUNT(at); i++) {
        for (j = 0; j < COUNT(at); j++) {
            for (k = 0; k < COUNT(large_margins); k++) {
                const struct time_case given = {running, at[i], at[j], large_margins[k], 0};

                check_asked(&given, MENHOTRAC_REFUSED_MARGIN_TOO_LARGE);
            }
        }
    }
}

int main(void)
{
    test_hellos();
    test_times();
    test_times_refused();
    printf("tokens: %lu checks passed\n", checks);
    return EXIT_SUCCESS;
}
