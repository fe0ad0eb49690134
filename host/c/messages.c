/*
 * Messages of the peer at the interface for C under test: what is read of each and where it lies,
 * every refusal of the reader, and that a message received does what the event that it is does.
 */
#include "bench.h"

#define BYTES(...) (const uint8_t[]){__VA_ARGS__}, sizeof((const uint8_t[]){__VA_ARGS__})

/* ---- Messages that are read ---- */

/* Two lists between guards. */
struct lists {
    uint32_t before[GUARD];
    uint32_t provers[MENHOTRAC_MAX_SUITES];
    uint32_t between[GUARD];
    uint32_t verifiers[MENHOTRAC_MAX_SUITES];
    uint32_t after[GUARD];
};

typedef menhotrac_message reader(const uint8_t *bytes, size_t bytes_len, uint32_t *provers,
                                 uint32_t *verifiers);

/* The archive without the tests of menhotrac_call_read. */
static menhotrac_message bare_read(const uint8_t *bytes, size_t bytes_len, uint32_t *provers,
                                   uint32_t *verifiers)
{
    return menhotrac_read(bytes, bytes_len, provers, verifiers);
}

static menhotrac_message tested_read(const uint8_t *bytes, size_t bytes_len, uint32_t *provers,
                                     uint32_t *verifiers)
{
    return menhotrac_call_read(bytes, bytes_len, provers, verifiers);
}

static reader *const readers[] = {bare_read, tested_read};

struct message_case {
    const char *name;
    const uint8_t *bytes;
    size_t bytes_len;
    menhotrac_message message;
    menhotrac_list provers;
    menhotrac_list verifiers;
};

static const uint32_t large[] = {0, 128, UINT32_MAX};
static const uint32_t sixteen_fives[] = {5, 5, 5, 5, 5, 5, 5, 5, 5, 5, 5, 5, 5, 5, 5, 5};

static const struct message_case messages[] = {
    {"HELLO", BYTES(0x0a, 14, 0x0a, 5, 1, 2, 3, 4, 5, 0x12, 2, 3, 7, 0x1a, 1, 3),
     {.number = 1, .provers = 2, .verifiers = 1, .place = 4, .size = 5},
     LIST(suites_3_7), LIST(suite_3)},
    {"HELLO, fields in another order", BYTES(0x0a, 9, 0x1a, 1, 3, 0x0a, 1, 9, 0x12, 1, 1),
     {.number = 1, .provers = 1, .verifiers = 1, .place = 7, .size = 1},
     LIST(suite_1), LIST(suite_3)},
    {"HELLO with large suites", BYTES(0x0a, 10, 0x12, 8, 0, 0x80, 1, 0xff, 0xff, 0xff, 0xff, 0x0f),
     {.number = 1, .provers = 3}, LIST(large), {NULL, 0}},
    {"HELLO with 16 suites",
     BYTES(0x0a, 18, 0x1a, 16, 5, 5, 5, 5, 5, 5, 5, 5, 5, 5, 5, 5, 5, 5, 5, 5),
     {.number = 1, .verifiers = 16}, {NULL, 0}, LIST(sixteen_fives)},
    {"bare HELLO", BYTES(0x0a, 0), {.number = 1}, {NULL, 0}, {NULL, 0}},
    {"HELLO with an empty token", BYTES(0x0a, 2, 0x0a, 0), {.number = 1, .place = 4},
     {NULL, 0}, {NULL, 0}},
    {"CLOSE", BYTES(0x12, 0), {.number = 2}, {NULL, 0}, {NULL, 0}},
    {"DAT_EXPIRED", BYTES(0x1a, 0), {.number = 3}, {NULL, 0}, {NULL, 0}},
    {"DAT", BYTES(0x22, 3, 0x0a, 1, 9), {.number = 4, .place = 4, .size = 1}, {NULL, 0}, {NULL, 0}},
    {"RE_RA", BYTES(0x2a, 0), {.number = 5}, {NULL, 0}, {NULL, 0}},
    {"RA_PROVER", BYTES(0x32, 4, 0x0a, 2, 8, 9), {.number = 6, .place = 4, .size = 2},
     {NULL, 0}, {NULL, 0}},
    {"RA_VERIFIER", BYTES(0x3a, 4, 0x0a, 2, 8, 9), {.number = 7, .place = 4, .size = 2},
     {NULL, 0}, {NULL, 0}},
    {"DATA without a bit", BYTES(0x42, 3, 0x0a, 1, 9), {.number = 8, .place = 4, .size = 1},
     {NULL, 0}, {NULL, 0}},
    {"DATA with bit 0", BYTES(0x42, 5, 0x0a, 1, 9, 0x10, 0), {.number = 8, .place = 4, .size = 1},
     {NULL, 0}, {NULL, 0}},
    {"DATA with bit 1", BYTES(0x42, 5, 0x10, 1, 0x0a, 1, 9),
     {.number = 8, .bit = 1, .place = 6, .size = 1}, {NULL, 0}, {NULL, 0}},
    {"ACK with bit 0", BYTES(0x4a, 2, 0x08, 0), {.number = 9}, {NULL, 0}, {NULL, 0}},
    {"ACK with bit 1", BYTES(0x4a, 2, 0x08, 1), {.number = 9, .bit = 1}, {NULL, 0}, {NULL, 0}},
};

static const struct message_case unreadable[] = {
    {"a HELLO that is cut", BYTES(0x0a, 14, 0x0a, 5, 1, 2), {.refusal = 21}, {NULL, 0}, {NULL, 0}},
    {"a key alone", BYTES(0x12), {.refusal = 21}, {NULL, 0}, {NULL, 0}},
    {"a payload past the end", BYTES(0x42, 3, 0x0a, 2, 9), {.refusal = 21}, {NULL, 0}, {NULL, 0}},
    {"no bytes", NULL, 0, {.refusal = 22}, {NULL, 0}, {NULL, 0}},
    {"two messages", BYTES(0x12, 0, 0x12, 0), {.refusal = 22}, {NULL, 0}, {NULL, 0}},
    {"message 10", BYTES(0x52, 0), {.refusal = 22}, {NULL, 0}, {NULL, 0}},
    {"two bits", BYTES(0x4a, 4, 0x08, 1, 0x08, 1), {.refusal = 22}, {NULL, 0}, {NULL, 0}},
    {"a HELLO and a byte after its lists", BYTES(0x0a, 6, 0x12, 1, 3, 0x1a, 1, 3, 0),
     {.refusal = 22}, {NULL, 0}, {NULL, 0}},
    {"a number as message", BYTES(0x08, 0), {.refusal = 23}, {NULL, 0}, {NULL, 0}},
    {"a HELLO with a list that is not packed", BYTES(0x0a, 2, 0x10, 3), {.refusal = 23},
     {NULL, 0}, {NULL, 0}},
    {"bit 2", BYTES(0x4a, 2, 0x08, 2), {.refusal = 24}, {NULL, 0}, {NULL, 0}},
    {"a suite above 32 bits", BYTES(0x0a, 7, 0x12, 5, 0xff, 0xff, 0xff, 0xff, 0x1f),
     {.refusal = 24}, {NULL, 0}, {NULL, 0}},
    {"a key of eleven bytes",
     BYTES(0x92, 0x80, 0x80, 0x80, 0x80, 0x80, 0x80, 0x80, 0x80, 0x80, 0, 0), {.refusal = 24},
     {NULL, 0}, {NULL, 0}},
    {"17 suites", BYTES(0x0a, 19, 0x12, 17, 1, 1, 1, 1, 1, 1, 1, 1, 1, 1, 1, 1, 1, 1, 1, 1, 1),
     {.refusal = 25}, {NULL, 0}, {NULL, 0}},
    {"17 suites after a good list",
     BYTES(0x0a, 22, 0x12, 1, 1, 0x1a, 17, 1, 1, 1, 1, 1, 1, 1, 1, 1, 1, 1, 1, 1, 1, 1, 1, 1),
     {.refusal = 25}, {NULL, 0}, {NULL, 0}},
};

/* Field by field, since there is padding. */
static int same_message(const menhotrac_message *a, const menhotrac_message *b)
{
    return a->refusal == b->refusal && a->number == b->number && a->bit == b->bit
        && a->provers == b->provers && a->verifiers == b->verifiers
        && a->place == b->place && a->size == b->size;
}

/* The suites, and then zeros. */
static void fill(uint32_t *list, const menhotrac_list *suites)
{
    memset(list, 0, MENHOTRAC_MAX_SUITES * sizeof *list);
    if (suites->len > 0)
        memcpy(list, suites->suites, suites->len * sizeof *list);
}

/* A HELLO alone writes the lists. */
static void check_read(const struct message_case *given, reader *read)
{
    struct lists lists;
    struct lists expected;
    menhotrac_message message;

    running = given->name;
    memset(&lists, FILLER, sizeof lists);
    expected = lists;
    if (given->message.number == MENHOTRAC_MESSAGE_HELLO) {
        fill(expected.provers, &given->provers);
        fill(expected.verifiers, &given->verifiers);
    }
    message = read(given->bytes, given->bytes_len, lists.provers, lists.verifiers);
    CHECK(same_message(&message, &given->message));
    CHECK(memcmp(&lists, &expected, sizeof lists) == 0);
}

static void test_read(const struct message_case *cases, size_t count)
{
    size_t i;
    size_t j;

    for (i = 0; i < count; i++) {
        for (j = 0; j < COUNT(readers); j++)
            check_read(&cases[i], readers[j]);
    }
}

/* ---- Messages that are received ---- */

typedef menhotrac_receipt receiver(menhotrac_connection *connection,
                                   const menhotrac_arrival *arrival, uint8_t *cache,
                                   size_t cache_len, menhotrac_actions *actions);

/* The archive without the tests of menhotrac_call_receive. */
static menhotrac_receipt bare_receive(menhotrac_connection *connection,
                                      const menhotrac_arrival *arrival, uint8_t *cache,
                                      size_t cache_len, menhotrac_actions *actions)
{
    return menhotrac_receive(connection, arrival->bytes, arrival->bytes_len, arrival->token, cache,
                             cache_len, actions,
                             arrival->our_verifiers.suites, arrival->our_verifiers.len,
                             arrival->our_provers.suites, arrival->our_provers.len);
}

static receiver *const receivers[] = {bare_receive, menhotrac_call_receive};

static const menhotrac_token tokens[] = {
    {.verdict = MENHOTRAC_VERDICT_YES, .expiry = 1060, .now = 1000},
    {.verdict = MENHOTRAC_VERDICT_YES, .expiry = 1000, .now = 1000},
    {.verdict = MENHOTRAC_VERDICT_NO, .expiry = 1060, .now = 1000},
    {.verdict = 2, .expiry = 1060, .now = 1000},
    {.verdict = MENHOTRAC_VERDICT_YES, .margin = 59, .expiry = 1060, .now = 1000},
    {.verdict = MENHOTRAC_VERDICT_YES, .margin = 300, .expiry = 1060, .now = 1000},
    {.verdict = MENHOTRAC_VERDICT_YES, .margin = 301, .expiry = 1060, .now = 1000},
    {.verdict = 2, .margin = UINT32_MAX, .expiry = 1060, .now = 1000},
};

/* The codes of the messages 1 to 9. */
static const uint32_t codes[] = {
    UINT32_MAX, MENHOTRAC_EVENT_SC_HELLO, MENHOTRAC_EVENT_SC_CLOSE, MENHOTRAC_EVENT_SC_DAT_EXPIRED,
    MENHOTRAC_EVENT_SC_DAT, MENHOTRAC_EVENT_SC_RE_RA, MENHOTRAC_EVENT_SC_RA_PROVER,
    MENHOTRAC_EVENT_SC_RA_VERIFIER, MENHOTRAC_EVENT_SC_DATA, MENHOTRAC_EVENT_SC_ACK
};

static menhotrac_arrival arrival_of(const struct message_case *given, const menhotrac_token *token)
{
    menhotrac_arrival arrival = {
        .bytes = given->bytes, .bytes_len = given->bytes_len, .token = *token,
        .our_verifiers = LIST(suites_7_3), .our_provers = LIST(suites_3_7)
    };

    return arrival;
}

/* The call that the message is. */
static menhotrac_call call_of(const struct message_case *given, const menhotrac_token *token)
{
    menhotrac_call call = {
        .event = {
            .code = codes[given->message.number], .bit = given->message.bit,
            .verdict = token->verdict, .margin = token->margin, .expiry = token->expiry,
            .now = token->now
        },
        .payload = given->bytes + given->message.place,
        .payload_len = given->message.size,
        .our_verifiers = LIST(suites_7_3),
        .peer_provers = given->provers,
        .peer_verifiers = given->verifiers,
        .our_provers = LIST(suites_3_7)
    };

    return call;
}

/* The message does to a record what its event does, and the part lies in the bytes. */
static void check_as_event(const struct message_case *given, const menhotrac_token *token,
                           const menhotrac_connection *record, receiver *receive)
{
    menhotrac_arrival arrival = arrival_of(given, token);
    menhotrac_call call = call_of(given, token);
    struct bench received;
    struct bench stepped;
    menhotrac_receipt receipt;
    const uint8_t *part;
    size_t len;

    set_up(&received, record);
    set_up(&stepped, record);
    receipt = receive(&received.connection, &arrival, received.cache, FULL, &received.actions);
    CHECK(receipt.answer == step(&stepped, &call));
    CHECK(receipt.place == given->message.place);
    CHECK(memcmp(&received, &stepped, sizeof received) == 0);
    part = menhotrac_part(&received.actions, given->bytes + receipt.place,
                          given->bytes_len - receipt.place, received.cache, FULL, &len);
    CHECK(len == received.actions.payload_len);
    CHECK(len == 0 || (part == call.payload && len == call.payload_len));
}

static void test_as_events(void)
{
    size_t i;
    size_t record;
    size_t token;

    for (i = 0; i < COUNT(messages); i++) {
        running = messages[i].name;
        for (record = 0; record < COUNT(records); record++) {
            for (token = 0; token < COUNT(tokens); token++) {
                check_as_event(&messages[i], &tokens[token], records[record], receivers[0]);
                check_as_event(&messages[i], &tokens[token], records[record], receivers[1]);
            }
        }
    }
}

/* ---- Refusals of messages ---- */

/* The answer, with all left as it was and all actions 0. */
static void check_unchanged(const menhotrac_arrival *arrival, const menhotrac_connection *record,
                            size_t cache_len, uint32_t answer, size_t place)
{
    size_t i;

    for (i = 0; i < COUNT(receivers); i++) {
        struct bench bench;
        struct bench expected;
        menhotrac_receipt receipt;

        set_up(&bench, record);
        expected = bench;
        memset(&expected.actions, 0, sizeof expected.actions);
        receipt = receivers[i](&bench.connection, arrival, bench.cache, cache_len, &bench.actions);
        CHECK(receipt.answer == answer);
        CHECK(receipt.place == place);
        CHECK(memcmp(&bench, &expected, sizeof bench) == 0);
    }
}

/* What is no message reaches no step: the reader's refusal is given, whatever else is wrong. */
static void test_unreadable(void)
{
    size_t i;
    size_t record;
    size_t token;

    for (i = 0; i < COUNT(unreadable); i++) {
        running = unreadable[i].name;
        for (record = 0; record < COUNT(records); record++) {
            for (token = 0; token < COUNT(tokens); token++) {
                menhotrac_arrival arrival = arrival_of(&unreadable[i], &tokens[token]);
                uint32_t refusal = unreadable[i].message.refusal;

                check_unchanged(&arrival, records[record], FULL, refusal, 0);
                check_unchanged(&arrival, records[record], 0, refusal, 0);
            }
        }
    }
}

/* A HELLO with each fault that the step finds, and with two of them. */
static void test_refused_hellos(void)
{
    menhotrac_arrival hello = arrival_of(&messages[0], &tokens[0]);
    menhotrac_arrival changed = hello;
    menhotrac_list long_list = LIST(seventeen);

    running = "HELLO and a short cache";
    check_unchanged(&hello, &greeted, FULL - 1, MENHOTRAC_REFUSED_CACHE_TOO_SHORT, 4);
    check_unchanged(&hello, &greeted, 0, MENHOTRAC_REFUSED_CACHE_TOO_SHORT, 4);
    running = "HELLO and 17 of our verifiers";
    changed.our_verifiers = long_list;
    check_unchanged(&changed, &greeted, FULL, MENHOTRAC_REFUSED_LIST_TOO_LONG, 4);
    running = "HELLO and 17 of our provers";
    changed = hello;
    changed.our_provers = long_list;
    check_unchanged(&changed, &greeted, FULL, MENHOTRAC_REFUSED_LIST_TOO_LONG, 4);
    running = "HELLO and a record that is not well formed";
    check_unchanged(&hello, &ready_without_ra, FULL, MENHOTRAC_REFUSED_NOT_WELL_FORMED, 4);
    running = "HELLO and the largest number";
    check_unchanged(&hello, &greeted_at_limit, FULL, MENHOTRAC_REFUSED_NUMBER_EXHAUSTED, 4);
    running = "HELLO and verdict 2";
    changed = hello;
    changed.token.verdict = 2;
    check_unchanged(&changed, &greeted, FULL, MENHOTRAC_REFUSED_WRONG_VERDICT, 4);
    check_unchanged(&changed, &locked, FULL, MENHOTRAC_REFUSED_WRONG_VERDICT, 4);
    check_unchanged(&changed, &greeted_at_limit, FULL, MENHOTRAC_REFUSED_NUMBER_EXHAUSTED, 4);
    changed.our_provers = long_list;
    check_unchanged(&changed, &greeted, FULL, MENHOTRAC_REFUSED_LIST_TOO_LONG, 4);
}

/* A margin above 300, alone and beside a fault of a lower number. */
static void check_margin(const struct message_case *given, uint32_t margin, uint32_t verdict)
{
    static const struct {
        const menhotrac_connection *record;
        size_t cache_len;
        uint32_t answer;
    } cases[] = {
        {&greeted, FULL, MENHOTRAC_REFUSED_MARGIN_TOO_LARGE},
        {&expired, FULL, MENHOTRAC_REFUSED_MARGIN_TOO_LARGE},
        {&ready_at_limit, FULL, MENHOTRAC_REFUSED_MARGIN_TOO_LARGE},
        {&locked, FULL, MENHOTRAC_REFUSED_MARGIN_TOO_LARGE},
        {&greeted, FULL - 1, MENHOTRAC_REFUSED_CACHE_TOO_SHORT},
        {&ready_without_ra, FULL, MENHOTRAC_REFUSED_NOT_WELL_FORMED},
    };
    const menhotrac_token token = {
        .verdict = verdict, .margin = margin, .expiry = 1060, .now = 1000
    };
    const menhotrac_arrival arrival = arrival_of(given, &token);
    const menhotrac_connection *at_limit =
        given->message.number == MENHOTRAC_MESSAGE_HELLO ? &greeted_at_limit : &expired_at_limit;
    size_t i;

    for (i = 0; i < COUNT(cases); i++)
        check_unchanged(&arrival, cases[i].record, cases[i].cache_len, cases[i].answer,
                        given->message.place);
    check_unchanged(&arrival, at_limit, FULL, MENHOTRAC_REFUSED_NUMBER_EXHAUSTED,
                    given->message.place);
}

/* Each HELLO and each DAT. */
static void test_margins(void)
{
    size_t i;
    size_t j;
    uint32_t verdict;

    for (i = 0; i < COUNT(messages); i++) {
        uint32_t number = messages[i].message.number;

        running = messages[i].name;
        if (number != MENHOTRAC_MESSAGE_HELLO && number != MENHOTRAC_MESSAGE_DAT)
            continue;
        for (j = 0; j < COUNT(large_margins); j++) {
            for (verdict = MENHOTRAC_VERDICT_NO; verdict <= 2; verdict++)
                check_margin(&messages[i], large_margins[j], verdict);
        }
    }
}

/* The largest payload is taken and one more byte is not; a token may be longer. */
static void test_long_parts(void)
{
    /* Key and length of the message, then of its part: of 4,096 bytes and of 4,097. */
    static uint8_t longest[6 + MENHOTRAC_MAX_PAYLOAD] = {0x42, 0x83, 0x20, 0x0a, 0x80, 0x20};
    static uint8_t too_long[6 + MENHOTRAC_MAX_PAYLOAD + 1] = {0x42, 0x84, 0x20, 0x0a, 0x81, 0x20};
    menhotrac_arrival arrival = {.bytes = longest, .bytes_len = sizeof longest, .token = tokens[0]};
    struct bench bench;
    menhotrac_receipt receipt;

    running = "payload of 4,096 bytes";
    set_up(&bench, &ready);
    receipt = menhotrac_call_receive(&bench.connection, &arrival, bench.cache, FULL,
                                     &bench.actions);
    CHECK(receipt.answer == MENHOTRAC_HANDLED && receipt.place == 6);
    CHECK(bench.actions.deliver && bench.actions.payload_len == MENHOTRAC_MAX_PAYLOAD);
    running = "payload of 4,097 bytes";
    arrival.bytes = too_long;
    arrival.bytes_len = sizeof too_long;
    check_unchanged(&arrival, &ready, FULL, MENHOTRAC_REFUSED_PAYLOAD_TOO_LONG, 6);
    check_unchanged(&arrival, &locked, FULL - 1, MENHOTRAC_REFUSED_PAYLOAD_TOO_LONG, 6);
    running = "token of 4,097 bytes";
    too_long[0] = 0x22;
    set_up(&bench, &expired);
    receipt = menhotrac_call_receive(&bench.connection, &arrival, bench.cache, FULL,
                                     &bench.actions);
    CHECK(receipt.answer == MENHOTRAC_HANDLED && receipt.place == 6);
    CHECK(bench.connection.state == MENHOTRAC_STATE_WAIT_FOR_RA_VERIFIER);
}

int main(void)
{
    test_read(messages, COUNT(messages));
    test_read(unreadable, COUNT(unreadable));
    test_as_events();
    test_unreadable();
    test_refused_hellos();
    test_margins();
    test_long_parts();
    printf("messages: %lu checks passed\n", checks);
    return EXIT_SUCCESS;
}
