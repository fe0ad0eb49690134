/*
 * The step at the interface for C under test: every refusal, the worked cases of document 01 for
 * suites, its limits, and a block that is sent and repeated. Guard bytes lie around everything that
 * a call may write.
 */
#include "bench.h"

static const uint8_t too_long[MENHOTRAC_MAX_PAYLOAD + 1];

/* ---- Refused and ignored calls ---- */

typedef uint32_t entry(menhotrac_connection *connection, const menhotrac_call *call,
                       uint8_t *cache, size_t cache_len, menhotrac_actions *actions);

/* The archive without the tests of menhotrac_call_step. */
static uint32_t bare_step(menhotrac_connection *connection, const menhotrac_call *call,
                          uint8_t *cache, size_t cache_len, menhotrac_actions *actions)
{
    return menhotrac_step(connection, call->event, call->payload, call->payload_len,
                          cache, cache_len, actions,
                          call->our_verifiers.suites, call->our_verifiers.len,
                          call->peer_provers.suites, call->peer_provers.len,
                          call->peer_verifiers.suites, call->peer_verifiers.len,
                          call->our_provers.suites, call->our_provers.len);
}

static entry *const entries[] = {bare_step, menhotrac_call_step};

struct unchanged_case {
    const char *name;
    uint32_t answer;
    const menhotrac_connection *connection;
    size_t cache_len;
    menhotrac_call call;
};

static const struct unchanged_case refused[] = {
    {"code 24", 1, &ready, FULL, {.event = {.code = 24}}},
    {"the largest code", 1, &ready, FULL, {.event = {.code = UINT32_MAX}}},
    {"code 24, locked", 1, &locked, FULL, {.event = {.code = 24}}},
    {"a timer above 2", 2, &both_run, FULL,
     {.event = {.code = MENHOTRAC_EVENT_HANDSHAKE_TIMEOUT, .tag = 7, .timer = 3}}},
    {"DATA with bit 2", 3, &ready, FULL, {.event = {.code = MENHOTRAC_EVENT_SC_DATA, .bit = 2}}},
    {"ACK with bit 2", 3, &waiting, FULL, {.event = {.code = MENHOTRAC_EVENT_SC_ACK, .bit = 2}}},
    {"cache of 4,095 bytes", 5, &ready, FULL - 1,
     {.event = {.code = MENHOTRAC_EVENT_UPPER_SEND_DATA}, .payload = block, .payload_len = BLOCK}},
    {"cache of 0 bytes", 5, &locked, 0, {.event = {.code = MENHOTRAC_EVENT_UPPER_CLOSE}}},
    {"17 of our verifiers", 6, &greeted, FULL,
     {.event = HELLO(MENHOTRAC_VERDICT_YES), .our_verifiers = LIST(seventeen)}},
    {"17 of the peer's provers", 6, &greeted, FULL,
     {.event = HELLO(MENHOTRAC_VERDICT_YES), .peer_provers = LIST(seventeen)}},
    {"17 of the peer's verifiers", 6, &locked, FULL,
     {.event = HELLO(MENHOTRAC_VERDICT_YES), .peer_verifiers = LIST(seventeen)}},
    {"17 of our provers", 6, &greeted, FULL,
     {.event = HELLO(MENHOTRAC_VERDICT_YES), .our_provers = LIST(seventeen)}},
    {"a record that is not well formed", 7, &ready_without_ra, FULL,
     {.event = {.code = MENHOTRAC_EVENT_UPPER_CLOSE}}},
    {"the largest number", 8, &ready_at_limit, FULL,
     {.event = {.code = MENHOTRAC_EVENT_UPPER_SEND_DATA}, .payload = block, .payload_len = BLOCK}},
    {"hello with verdict 2", 41, &greeted, FULL, {.event = HELLO(2)}},
    {"token with the largest verdict", 41, &expired, FULL,
     {.event = TOKEN(MENHOTRAC_EVENT_SC_DAT, UINT32_MAX, 0)}},
    {"verdict 2, locked", 41, &locked, FULL, {.event = HELLO(2)}},
};

static const struct unchanged_case lowest[] = {
    {"code 24 and short cache", 1, &ready, FULL - 1, {.event = {.code = 24}}},
    {"bit 2 and payload of 4,097 bytes", 3, &ready, FULL,
     {.event = {.code = MENHOTRAC_EVENT_SC_DATA, .bit = 2},
      .payload = too_long, .payload_len = sizeof too_long}},
    {"payload of 4,097 bytes and short cache", 4, &ready, FULL - 1,
     {.event = {.code = MENHOTRAC_EVENT_UPPER_SEND_DATA},
      .payload = too_long, .payload_len = sizeof too_long}},
    {"short cache and 17 entries", 5, &greeted, FULL - 1,
     {.event = HELLO(MENHOTRAC_VERDICT_YES), .our_provers = LIST(seventeen)}},
    {"17 entries and verdict 2", 6, &greeted, FULL,
     {.event = HELLO(2), .our_provers = LIST(seventeen)}},
    {"not well formed and verdict 2", 7, &ready_without_ra, FULL, {.event = HELLO(2)}},
    {"the largest number and verdict 2", 8, &greeted_at_limit, FULL, {.event = HELLO(2)}},
    {"the largest number, ignored, and verdict 2", 41, &ready_at_limit, FULL, {.event = HELLO(2)}},
};

static const struct unchanged_case ignored[] = {
    {"locked", 100, &locked, FULL, {.event = {.code = MENHOTRAC_EVENT_UPPER_CLOSE}}},
    {"the largest number", 100, &ready_at_limit, FULL,
     {.event = {.code = MENHOTRAC_EVENT_UPPER_START_HANDSHAKE}}},
    {"a report with another tag", 100, &both_run, FULL,
     {.event = {.code = MENHOTRAC_EVENT_RA_PROVER_OK, .tag = 8}}},
    {"a timeout with tag 0", 100, &ready, FULL,
     {.event = {.code = MENHOTRAC_EVENT_ACK_TIMEOUT, .tag = 0}}},
    {"a second block", 100, &waiting, FULL,
     {.event = {.code = MENHOTRAC_EVENT_UPPER_SEND_DATA}, .payload = block, .payload_len = BLOCK}},
    {"DATA with the other bit", 100, &ready, FULL,
     {.event = {.code = MENHOTRAC_EVENT_SC_DATA, .bit = 1},
      .payload = block, .payload_len = BLOCK}},
    {"verdict 2 where none is carried", 100, &locked, FULL,
     {.event = {.code = MENHOTRAC_EVENT_SC_RE_RA, .verdict = 2}}},
    {"hello with margin 300", 100, &ready, FULL,
     {.event = TOKEN(MENHOTRAC_EVENT_SC_HELLO, MENHOTRAC_VERDICT_YES, 300)}},
    {"token with margin 300, locked", 100, &locked, FULL,
     {.event = TOKEN(MENHOTRAC_EVENT_SC_DAT, MENHOTRAC_VERDICT_YES, 300)}},
};

/* The answers where the margin is above 300, whatever the verdict is. */
static const struct unchanged_case margins[] = {
    {"hello", 9, &greeted, FULL, {.event = {.code = MENHOTRAC_EVENT_SC_HELLO}}},
    {"token", 9, &expired, FULL, {.event = {.code = MENHOTRAC_EVENT_SC_DAT}}},
    {"hello, ignored", 9, &ready, FULL, {.event = {.code = MENHOTRAC_EVENT_SC_HELLO}}},
    {"token, ignored", 9, &ready, FULL, {.event = {.code = MENHOTRAC_EVENT_SC_DAT}}},
    {"hello, locked", 9, &locked, FULL, {.event = {.code = MENHOTRAC_EVENT_SC_HELLO}}},
    {"token, locked", 9, &locked, FULL, {.event = {.code = MENHOTRAC_EVENT_SC_DAT}}},
    {"code 24", 1, &ready, FULL, {.event = {.code = 24}}},
    {"a timer above 2", 2, &both_run, FULL,
     {.event = {.code = MENHOTRAC_EVENT_HANDSHAKE_TIMEOUT, .timer = 3}}},
    {"DATA with bit 2", 3, &ready, FULL, {.event = {.code = MENHOTRAC_EVENT_SC_DATA, .bit = 2}}},
    {"payload of 4,097 bytes", 4, &ready, FULL,
     {.event = {.code = MENHOTRAC_EVENT_UPPER_SEND_DATA},
      .payload = too_long, .payload_len = sizeof too_long}},
    {"hello and short cache", 5, &greeted, FULL - 1,
     {.event = {.code = MENHOTRAC_EVENT_SC_HELLO}}},
    {"token and short cache", 5, &expired, FULL - 1, {.event = {.code = MENHOTRAC_EVENT_SC_DAT}}},
    {"hello and 17 entries", 6, &greeted, FULL,
     {.event = {.code = MENHOTRAC_EVENT_SC_HELLO}, .our_provers = LIST(seventeen)}},
    {"hello and a record that is not well formed", 7, &ready_without_ra, FULL,
     {.event = {.code = MENHOTRAC_EVENT_SC_HELLO}}},
    {"token and a record that is not well formed", 7, &ready_without_ra, FULL,
     {.event = {.code = MENHOTRAC_EVENT_SC_DAT}}},
    {"hello and the largest number", 8, &greeted_at_limit, FULL,
     {.event = {.code = MENHOTRAC_EVENT_SC_HELLO}}},
    {"token and the largest number", 8, &expired_at_limit, FULL,
     {.event = {.code = MENHOTRAC_EVENT_SC_DAT}}},
    {"hello and the largest number, ignored", 9, &ready_at_limit, FULL,
     {.event = {.code = MENHOTRAC_EVENT_SC_HELLO}}},
    {"token and the largest number, ignored", 9, &ready_at_limit, FULL,
     {.event = {.code = MENHOTRAC_EVENT_SC_DAT}}},
};

/* Record, cache and guards as they were, and all actions 0. */
static void check_unchanged(const struct unchanged_case *given, entry *call)
{
    struct bench bench;
    struct bench expected;

    running = given->name;
    set_up(&bench, given->connection);
    expected = bench;
    memset(&expected.actions, 0, sizeof expected.actions);
    CHECK(call(&bench.connection, &given->call, bench.cache, given->cache_len, &bench.actions)
          == given->answer);
    CHECK(memcmp(&bench, &expected, sizeof bench) == 0);
}

static void test_unchanged(const struct unchanged_case *cases, size_t count)
{
    size_t i;
    size_t j;

    for (i = 0; i < count; i++) {
        for (j = 0; j < COUNT(entries); j++)
            check_unchanged(&cases[i], entries[j]);
    }
}

static void test_margins(void)
{
    size_t i;
    size_t j;
    uint32_t verdict;

    for (i = 0; i < COUNT(margins); i++) {
        for (j = 0; j < COUNT(large_margins); j++) {
            for (verdict = MENHOTRAC_VERDICT_NO; verdict <= 2; verdict++) {
                struct unchanged_case given = margins[i];

                given.call.event.margin = large_margins[j];
                given.call.event.verdict = verdict;
                test_unchanged(&given, 1);
            }
        }
    }
}

/* The event does the same with the largest margin as with none. */
static void check_margin_not_read(uint32_t code, uint32_t tag, const menhotrac_connection *record)
{
    menhotrac_call call = {
        .event = {.code = code, .tag = tag}, .payload = block, .payload_len = BLOCK
    };
    struct bench bench;
    struct bench expected;
    uint32_t answer;

    set_up(&bench, record);
    set_up(&expected, record);
    answer = step(&expected, &call);
    call.event.margin = UINT32_MAX;
    CHECK(step(&bench, &call) == answer);
    CHECK(memcmp(&bench, &expected, sizeof bench) == 0);
}

/* With tags of which each is live in one of the records. */
static void test_margin_not_read(void)
{
    static const uint32_t tags[] = {1, 2, 4, 7, 8, 9};
    uint32_t code;
    size_t i;
    size_t j;

    running = "a margin that is not carried";
    for (code = 0; code <= MENHOTRAC_EVENT_ACK_TIMEOUT; code++) {
        if (code == MENHOTRAC_EVENT_SC_HELLO || code == MENHOTRAC_EVENT_SC_DAT)
            continue;
        for (i = 0; i < COUNT(records); i++) {
            for (j = 0; j < COUNT(tags); j++)
                check_margin_not_read(code, tags[j], records[i]);
        }
    }
}

/* Every event that carries a payload refuses 4,097 bytes, also where it would be ignored. */
static void test_payload_too_long(void)
{
    static const uint32_t codes[] = {
        MENHOTRAC_EVENT_UPPER_SEND_DATA, MENHOTRAC_EVENT_RA_VERIFIER_MSG,
        MENHOTRAC_EVENT_RA_PROVER_MSG, MENHOTRAC_EVENT_SC_RA_PROVER,
        MENHOTRAC_EVENT_SC_RA_VERIFIER, MENHOTRAC_EVENT_SC_DATA
    };
    struct unchanged_case given = {
        "payload of 4,097 bytes", MENHOTRAC_REFUSED_PAYLOAD_TOO_LONG, &ready, FULL,
        {.payload = too_long, .payload_len = sizeof too_long}
    };
    size_t i;

    for (i = 0; i < COUNT(codes); i++) {
        given.call.event.code = codes[i];
        test_unchanged(&given, 1);
    }
}

/* Empty slices may be NULL; a cache that is empty is too short. */
static void test_empty_slices(void)
{
    struct bench bench;
    menhotrac_call call = MENHOTRAC_ZERO;
    size_t i;

    running = "NULL with length 0";
    for (i = 0; i < COUNT(entries); i++) {
        set_up(&bench, &fresh);
        call.event.code = MENHOTRAC_EVENT_UPPER_START_HANDSHAKE;
        CHECK(entries[i](&bench.connection, &call, NULL, 0, &bench.actions)
              == MENHOTRAC_REFUSED_CACHE_TOO_SHORT);
        CHECK(entries[i](&bench.connection, &call, bench.cache, FULL, &bench.actions)
              == MENHOTRAC_HANDLED);
        set_up(&bench, &ready);
        call.event.code = MENHOTRAC_EVENT_UPPER_SEND_DATA;
        CHECK(entries[i](&bench.connection, &call, bench.cache, FULL, &bench.actions)
              == MENHOTRAC_HANDLED);
        set_up(&bench, &greeted);
        call.event.code = MENHOTRAC_EVENT_SC_HELLO;
        CHECK(entries[i](&bench.connection, &call, bench.cache, FULL, &bench.actions)
              == MENHOTRAC_HANDLED);
        CHECK(bench.connection.state == MENHOTRAC_STATE_CLOSED_LOCKED);
    }
}

/* ---- Record and suites ---- */

static void test_fresh(void)
{
    struct bench bench;
    struct bench expected;

    running = "a new connection";
    set_up(&bench, &waiting);
    set_up(&expected, &fresh);
    menhotrac_fresh(&bench.connection);
    CHECK(memcmp(&bench, &expected, sizeof bench) == 0);
}

struct choice_case {
    const char *name;
    uint32_t refusal;
    menhotrac_list our_verifiers;
    menhotrac_list peer_provers;
    menhotrac_list peer_verifiers;
    menhotrac_list our_provers;
    menhotrac_choice chosen;
};

static const uint32_t suite_0[] = {0};
static const uint32_t repeats[] = {5, 5, 3, 3, 4};
static const uint32_t others[] = {4, 4, 3};

static const struct choice_case choices[] = {
    {"the boot run's suites", 0, LIST(suites_7_3), LIST(suites_3_7), LIST(suite_3),
     LIST(suites_3_7), {1, 7, 1, 3}},
    {"nothing in common", 0, LIST(suite_1), LIST(suite_2), LIST(suite_2), LIST(suite_1),
     {0, 0, 0, 0}},
    {"a verifier alone", 0, LIST(suite_1), LIST(suite_1), LIST(suite_1), LIST(suite_2),
     {1, 1, 0, 0}},
    {"a prover alone", 0, LIST(suite_1), LIST(suite_2), LIST(suite_1), LIST(suite_1),
     {0, 0, 1, 1}},
    {"repeats", 0, LIST(repeats), LIST(others), LIST(others), LIST(repeats), {1, 3, 1, 4}},
    {"suite 0 found", 0, LIST(suite_0), LIST(suite_0), LIST(suite_0), LIST(suite_1),
     {1, 0, 0, 0}},
    {"empty lists", 0, {NULL, 0}, {NULL, 0}, {NULL, 0}, {NULL, 0}, {0, 0, 0, 0}},
    {"16 entries, the last in common", 0, LIST(sixteen), LIST(suite_1), LIST(suite_1),
     LIST(sixteen), {1, 1, 1, 1}},
    {"17 of our verifiers", 6, LIST(seventeen), LIST(suite_1), LIST(suite_1), LIST(suite_1),
     {0, 0, 0, 0}},
    {"17 of the peer's provers", 6, LIST(suite_1), LIST(seventeen), LIST(suite_1), LIST(suite_1),
     {0, 0, 0, 0}},
    {"17 of the peer's verifiers", 6, LIST(suite_1), LIST(suite_1), LIST(seventeen), LIST(suite_1),
     {0, 0, 0, 0}},
    {"17 of our provers", 6, LIST(suite_1), LIST(suite_1), LIST(suite_1), LIST(seventeen),
     {0, 0, 0, 0}},
};

static void test_choices(void)
{
    menhotrac_choice guarded[3]; /* the choice between two guards */
    menhotrac_choice expected[3];
    size_t i;

    for (i = 0; i < COUNT(choices); i++) {
        const struct choice_case *given = &choices[i];

        running = given->name;
        memset(guarded, FILLER, sizeof guarded);
        memset(expected, FILLER, sizeof expected);
        expected[1] = given->chosen;
        CHECK(menhotrac_choose_suites(given->our_verifiers.suites, given->our_verifiers.len,
                                      given->peer_provers.suites, given->peer_provers.len,
                                      given->peer_verifiers.suites, given->peer_verifiers.len,
                                      given->our_provers.suites, given->our_provers.len,
                                      &guarded[1]) == given->refusal);
        CHECK(memcmp(guarded, expected, sizeof guarded) == 0);
    }
}

/* ---- Handled calls ---- */

/* A block of 0 and of 4,096 bytes is taken; the cache keeps its bytes after the block. */
static void check_sent(const char *name, const uint8_t *payload, size_t len)
{
    struct bench bench;
    struct bench before;
    menhotrac_call call = {
        .event = {.code = MENHOTRAC_EVENT_UPPER_SEND_DATA}, .payload = payload, .payload_len = len
    };
    const uint8_t *part;
    size_t part_len;

    running = name;
    set_up(&bench, &ready);
    before = bench;
    CHECK(step(&bench, &call) == MENHOTRAC_HANDLED);
    CHECK(bench.connection.cached_len == len);
    CHECK(kept_around(&bench, &before, len));
    part = menhotrac_part(&bench.actions, payload, len, bench.cache, FULL, &part_len);
    CHECK(part == bench.cache && part_len == len);
    CHECK(memcmp(bench.cache, payload, len) == 0);
}

/* Whether the actions send `block` with a bit, from the cache. */
static int sends_block(const struct bench *bench, uint32_t bit)
{
    size_t len;
    const uint8_t *part = menhotrac_part(&bench->actions, NULL, 0, bench->cache, FULL, &len);

    return bench->actions.message == MENHOTRAC_MESSAGE_DATA && bench->actions.bit == bit
        && bench->actions.ack == MENHOTRAC_TIMER_START
        && len == BLOCK && memcmp(part, block, BLOCK) == 0;
}

static void test_repeat(void)
{
    struct bench bench;
    uint8_t lent[BLOCK];
    menhotrac_call sending = {
        .event = {.code = MENHOTRAC_EVENT_UPPER_SEND_DATA}, .payload = lent, .payload_len = BLOCK
    };
    menhotrac_call timeout = {.event = {.code = MENHOTRAC_EVENT_ACK_TIMEOUT}};
    menhotrac_call acknowledgement = {.event = {.code = MENHOTRAC_EVENT_SC_ACK, .bit = 0}};

    running = "a block, repeated and acknowledged";
    memcpy(lent, block, BLOCK);
    set_up(&bench, &ready);
    CHECK(step(&bench, &sending) == MENHOTRAC_HANDLED);
    CHECK(sends_block(&bench, 0));
    memset(lent, 0, sizeof lent); /* the host's buffer again: the repeat comes from the cache */
    timeout.event.tag = bench.connection.handled;
    CHECK(step(&bench, &timeout) == MENHOTRAC_HANDLED);
    CHECK(sends_block(&bench, 0));
    CHECK(step(&bench, &timeout) == MENHOTRAC_IGNORED); /* ACK has a new tag */
    timeout.event.tag = bench.connection.handled;
    CHECK(step(&bench, &timeout) == MENHOTRAC_HANDLED);
    CHECK(sends_block(&bench, 0));
    CHECK(step(&bench, &acknowledgement) == MENHOTRAC_HANDLED);
    CHECK(bench.connection.state == MENHOTRAC_STATE_ESTABLISHED);
    CHECK(bench.actions.ack == MENHOTRAC_TIMER_CANCEL);
    memcpy(lent, block, BLOCK);
    CHECK(step(&bench, &sending) == MENHOTRAC_HANDLED);
    CHECK(sends_block(&bench, 1));
}

/* The event's payload is the part. `orders` are the actions but for the part. */
static void check_passed_on(const menhotrac_connection *connection, const menhotrac_event *event,
                            menhotrac_actions orders)
{
    struct bench bench;
    struct bench before;
    menhotrac_call call = {.event = *event, .payload = block, .payload_len = BLOCK};
    size_t len;

    orders.payload_slice = MENHOTRAC_SLICE_EVENT;
    orders.payload_len = BLOCK;
    set_up(&bench, connection);
    before = bench;
    CHECK(step(&bench, &call) == MENHOTRAC_HANDLED);
    CHECK(memcmp(&bench.actions, &orders, sizeof orders) == 0);
    CHECK(menhotrac_part(&bench.actions, block, BLOCK, bench.cache, FULL, &len) == block);
    CHECK(len == BLOCK);
    CHECK(kept_around(&bench, &before, 0));
}

static void test_passed_on(void)
{
    static const struct {
        const char *name;
        const menhotrac_connection *connection;
        menhotrac_event event;
        menhotrac_actions orders;
    } cases[] = {
        {"a message of our verifier", &both_run,
         {.code = MENHOTRAC_EVENT_RA_VERIFIER_MSG, .tag = 8},
         {.message = MENHOTRAC_MESSAGE_RA_VERIFIER}},
        {"a message of our prover", &both_run, {.code = MENHOTRAC_EVENT_RA_PROVER_MSG, .tag = 7},
         {.message = MENHOTRAC_MESSAGE_RA_PROVER}},
        {"a message of the peer's prover", &both_run, {.code = MENHOTRAC_EVENT_SC_RA_PROVER},
         {.verifier = MENHOTRAC_DRIVER_FORWARD}},
        {"a message of the peer's verifier", &both_run, {.code = MENHOTRAC_EVENT_SC_RA_VERIFIER},
         {.prover = MENHOTRAC_DRIVER_FORWARD}},
        {"a block of the peer", &ready, {.code = MENHOTRAC_EVENT_SC_DATA},
         {.message = MENHOTRAC_MESSAGE_ACK, .deliver = 1}},
    };
    size_t i;

    for (i = 0; i < COUNT(cases); i++) {
        running = cases[i].name;
        check_passed_on(cases[i].connection, &cases[i].event, cases[i].orders);
    }
}

/* The part stays within the slice that the actions name, whatever their numbers are. */
static void test_parts(void)
{
    static const struct {
        const char *name;
        uint32_t slice;
        uint32_t len;
        size_t part_len;
    } cases[] = {
        {"the whole payload", MENHOTRAC_SLICE_EVENT, BLOCK, BLOCK},
        {"a payload that is too short", MENHOTRAC_SLICE_EVENT, BLOCK + 1, 0},
        {"the largest length", MENHOTRAC_SLICE_CACHE, UINT32_MAX, 0},
        {"the whole cache", MENHOTRAC_SLICE_CACHE, FULL, FULL},
        {"a cache that is too short", MENHOTRAC_SLICE_CACHE, FULL + 1, 0},
        {"no slice", MENHOTRAC_SLICE_NONE, 1, 0},
        {"an unknown slice", 3, 1, 0},
    };
    static const uint8_t cache[FULL];
    size_t i;

    for (i = 0; i < COUNT(cases); i++) {
        menhotrac_actions actions = {
            .payload_slice = cases[i].slice, .payload_len = cases[i].len
        };
        size_t len;
        const uint8_t *part = menhotrac_part(&actions, block, BLOCK, cache, FULL, &len);

        running = cases[i].name;
        CHECK(len == cases[i].part_len);
        CHECK(part == (cases[i].slice == MENHOTRAC_SLICE_CACHE ? cache : block));
    }
}

static void test_names(void)
{
    running = "names";
    CHECK(strcmp(menhotrac_state_name(MENHOTRAC_STATE_CLOSED_LOCKED), "CLOSED_LOCKED") == 0);
    CHECK(strcmp(menhotrac_state_name(10), "unknown") == 0);
    CHECK(strcmp(menhotrac_message_name(MENHOTRAC_MESSAGE_ACK), "ACK") == 0);
    CHECK(strcmp(menhotrac_message_name(10), "unknown") == 0);
    CHECK(strcmp(menhotrac_answer_name(MENHOTRAC_REFUSED_WRONG_BIT), "wrong bit") == 0);
    CHECK(strcmp(menhotrac_answer_name(MENHOTRAC_REFUSED_NUMBER_EXHAUSTED),
                 "number of handled events exhausted") == 0);
    CHECK(strcmp(menhotrac_answer_name(MENHOTRAC_REFUSED_MARGIN_TOO_LARGE),
                 "margin too large") == 0);
    CHECK(strcmp(menhotrac_answer_name(10), "unknown") == 0);
    CHECK(strcmp(menhotrac_answer_name(20), "unknown") == 0);
    CHECK(strcmp(menhotrac_answer_name(MENHOTRAC_REFUSED_ENDS_TOO_SOON),
                 "message ends too soon") == 0);
    CHECK(strcmp(menhotrac_answer_name(MENHOTRAC_REFUSED_TOO_MANY_SUITES), "too many suites") == 0);
    CHECK(strcmp(menhotrac_answer_name(26), "unknown") == 0);
    CHECK(strcmp(menhotrac_answer_name(40), "unknown") == 0);
    CHECK(strcmp(menhotrac_answer_name(MENHOTRAC_REFUSED_WRONG_VERDICT), "wrong verdict") == 0);
    CHECK(strcmp(menhotrac_answer_name(MENHOTRAC_REFUSED_OVERLAP),
                 "written memory overlaps") == 0);
    CHECK(strcmp(menhotrac_answer_name(44), "unknown") == 0);
    CHECK(strcmp(menhotrac_answer_name(MENHOTRAC_IGNORED), "ignored") == 0);
    CHECK(strcmp(menhotrac_answer_name(UINT32_MAX), "unknown") == 0);
}

int main(void)
{
    static const uint8_t full_block[MENHOTRAC_MAX_PAYLOAD] = {1, 2, 3};

    test_unchanged(refused, COUNT(refused));
    test_unchanged(lowest, COUNT(lowest));
    test_unchanged(ignored, COUNT(ignored));
    test_margins();
    test_margin_not_read();
    test_payload_too_long();
    test_empty_slices();
    test_fresh();
    test_choices();
    check_sent("block of 0 bytes", block, 0);
    check_sent("block of 5 bytes", block, BLOCK);
    check_sent("block of 4,096 bytes", full_block, sizeof full_block);
    test_repeat();
    test_passed_on();
    test_parts();
    test_names();
    printf("step: %lu checks passed\n", checks);
    return EXIT_SUCCESS;
}
