/*
 * The calls that test pointers, under test: each memory that is lent is once NULL, and lies once
 * beside every memory that the call writes and once in it.
 */
#include "bench.h"

enum {
    SPACING = 16384,
    STRETCH = SPACING * (MENHOTRAC_LENT_COUNT + 1),
    BYTES = 8,
    SUITES = 4
};

/* DATA with bit 0. */
static const uint8_t data[BYTES] = {0x42, 6, 0x0a, 4, 10, 20, 30, 40};

/* The memory of a call in one stretch, so that any two of its pieces can be made to overlap. */
struct stretch {
    uint8_t *bytes;
    void *at[MENHOTRAC_LENT_COUNT];
};

/* A call under test. Of its pieces the first ones are written; one of size 0 is not lent. */
struct lending {
    const char *name;
    size_t count;
    size_t written;
    size_t sizes[MENHOTRAC_LENT_COUNT];
    int has_actions;
    void (*write)(const struct stretch *stretch, const size_t *sizes);
    uint32_t (*call)(const struct stretch *stretch);
};

static void put(const struct stretch *stretch, size_t which, const void *bytes, size_t size)
{
    if (stretch->at[which] != NULL)
        memcpy(stretch->at[which], bytes, size);
}

static menhotrac_list list_at(const struct stretch *stretch, const size_t *sizes, size_t which)
{
    menhotrac_list list = {stretch->at[which], sizes[which] / sizeof(uint32_t)};

    return list;
}

/* ---- The three calls ---- */

/* The event is one that reads neither payload nor lists. */
static void write_call(const struct stretch *stretch, const size_t *sizes)
{
    menhotrac_call call = {
        .event = {.code = MENHOTRAC_EVENT_UPPER_START_HANDSHAKE},
        .payload = stretch->at[MENHOTRAC_LENT_PAYLOAD],
        .payload_len = sizes[MENHOTRAC_LENT_PAYLOAD],
        .our_verifiers = list_at(stretch, sizes, MENHOTRAC_LENT_OUR_VERIFIERS),
        .peer_provers = list_at(stretch, sizes, MENHOTRAC_LENT_PEER_PROVERS),
        .peer_verifiers = list_at(stretch, sizes, MENHOTRAC_LENT_PEER_VERIFIERS),
        .our_provers = list_at(stretch, sizes, MENHOTRAC_LENT_OUR_PROVERS)
    };

    put(stretch, MENHOTRAC_LENT_CONNECTION, &fresh, sizeof fresh);
    put(stretch, MENHOTRAC_LENT_CALL, &call, sizeof call);
}

static uint32_t call_step(const struct stretch *stretch)
{
    return menhotrac_call_step(stretch->at[MENHOTRAC_LENT_CONNECTION],
                               stretch->at[MENHOTRAC_LENT_CALL],
                               stretch->at[MENHOTRAC_LENT_CACHE], FULL,
                               stretch->at[MENHOTRAC_LENT_ACTIONS]);
}

static void write_arrival(const struct stretch *stretch, const size_t *sizes)
{
    menhotrac_arrival arrival = {
        .bytes = stretch->at[MENHOTRAC_LENT_PAYLOAD],
        .bytes_len = sizes[MENHOTRAC_LENT_PAYLOAD],
        .our_verifiers = list_at(stretch, sizes, MENHOTRAC_LENT_OUR_VERIFIERS),
        .our_provers = list_at(stretch, sizes, MENHOTRAC_LENT_OUR_PROVERS)
    };

    put(stretch, MENHOTRAC_LENT_CONNECTION, &ready, sizeof ready);
    put(stretch, MENHOTRAC_LENT_PAYLOAD, data, sizeof data);
    put(stretch, MENHOTRAC_LENT_CALL, &arrival, sizeof arrival);
}

/* The place is told just where the bytes are read. */
static uint32_t call_receive(const struct stretch *stretch)
{
    menhotrac_receipt receipt = menhotrac_call_receive(stretch->at[MENHOTRAC_LENT_CONNECTION],
                                                       stretch->at[MENHOTRAC_LENT_CALL],
                                                       stretch->at[MENHOTRAC_LENT_CACHE], FULL,
                                                       stretch->at[MENHOTRAC_LENT_ACTIONS]);

    CHECK(receipt.place == (receipt.answer == MENHOTRAC_HANDLED ? 4 : 0));
    return receipt.answer;
}

static void write_bytes(const struct stretch *stretch, const size_t *sizes)
{
    put(stretch, MENHOTRAC_READ_LENT_BYTES, data, sizes[MENHOTRAC_READ_LENT_BYTES]);
}

/* All else is told just where the bytes are read. */
static uint32_t call_read(const struct stretch *stretch)
{
    menhotrac_message message = menhotrac_call_read(stretch->at[MENHOTRAC_READ_LENT_BYTES], BYTES,
                                                    stretch->at[MENHOTRAC_READ_LENT_PROVERS],
                                                    stretch->at[MENHOTRAC_READ_LENT_VERIFIERS]);
    int read = message.refusal == 0;

    CHECK(message.number == (read ? MENHOTRAC_MESSAGE_DATA : MENHOTRAC_MESSAGE_NONE));
    CHECK(message.place == (read ? 4 : 0) && message.size == (read ? 4 : 0));
    CHECK(message.bit == 0 && message.provers == 0 && message.verifiers == 0);
    return message.refusal;
}

static const struct lending lendings[] = {
    {"menhotrac_call_step", MENHOTRAC_LENT_COUNT, MENHOTRAC_LENT_WRITTEN,
     {[MENHOTRAC_LENT_ACTIONS] = sizeof(menhotrac_actions),
      [MENHOTRAC_LENT_CONNECTION] = sizeof(menhotrac_connection),
      [MENHOTRAC_LENT_CACHE] = FULL,
      [MENHOTRAC_LENT_CALL] = sizeof(menhotrac_call),
      [MENHOTRAC_LENT_PAYLOAD] = BYTES,
      [MENHOTRAC_LENT_OUR_VERIFIERS] = SUITES * sizeof(uint32_t),
      [MENHOTRAC_LENT_PEER_PROVERS] = SUITES * sizeof(uint32_t),
      [MENHOTRAC_LENT_PEER_VERIFIERS] = SUITES * sizeof(uint32_t),
      [MENHOTRAC_LENT_OUR_PROVERS] = SUITES * sizeof(uint32_t)},
     1, write_call, call_step},
    {"menhotrac_call_receive", MENHOTRAC_LENT_COUNT, MENHOTRAC_LENT_WRITTEN,
     {[MENHOTRAC_LENT_ACTIONS] = sizeof(menhotrac_actions),
      [MENHOTRAC_LENT_CONNECTION] = sizeof(menhotrac_connection),
      [MENHOTRAC_LENT_CACHE] = FULL,
      [MENHOTRAC_LENT_CALL] = sizeof(menhotrac_arrival),
      [MENHOTRAC_LENT_PAYLOAD] = BYTES,
      [MENHOTRAC_LENT_OUR_VERIFIERS] = SUITES * sizeof(uint32_t),
      [MENHOTRAC_LENT_OUR_PROVERS] = SUITES * sizeof(uint32_t)},
     1, write_arrival, call_receive},
    {"menhotrac_call_read", MENHOTRAC_READ_LENT_COUNT, MENHOTRAC_READ_LENT_WRITTEN,
     {[MENHOTRAC_READ_LENT_PROVERS] = MENHOTRAC_MAX_SUITES * sizeof(uint32_t),
      [MENHOTRAC_READ_LENT_VERIFIERS] = MENHOTRAC_MAX_SUITES * sizeof(uint32_t),
      [MENHOTRAC_READ_LENT_BYTES] = BYTES},
     0, write_bytes, call_read},
};

/* ---- NULL and overlap ---- */

static void lay_out(struct stretch *stretch)
{
    size_t i;

    for (i = 0; i < MENHOTRAC_LENT_COUNT; i++)
        stretch->at[i] = stretch->bytes + (i + 1) * SPACING;
}

static void write_all(const struct lending *lending, const struct stretch *stretch)
{
    memset(stretch->bytes, FILLER, STRETCH);
    lending->write(stretch, lending->sizes);
}

static void check_taken(const struct lending *lending, const struct stretch *stretch)
{
    write_all(lending, stretch);
    CHECK(lending->call(stretch) == MENHOTRAC_HANDLED);
}

/* Nothing of the stretch is written, except for the actions where they may be. */
static void check_refused(const struct lending *lending, const struct stretch *stretch,
                          uint32_t refusal, int actions_written)
{
    uint8_t *expected = malloc(STRETCH);
    const uint8_t *actions = stretch->at[MENHOTRAC_LENT_ACTIONS];

    CHECK(expected != NULL);
    write_all(lending, stretch);
    memcpy(expected, stretch->bytes, STRETCH);
    if (lending->has_actions && actions_written)
        memset(expected + (actions - stretch->bytes), 0, lending->sizes[MENHOTRAC_LENT_ACTIONS]);
    CHECK(lending->call(stretch) == refusal);
    CHECK(memcmp(expected, stretch->bytes, STRETCH) == 0);
    free(expected);
}

static void test_null(const struct lending *lending, struct stretch *stretch)
{
    size_t i;

    for (i = 0; i < lending->count; i++) {
        lay_out(stretch);
        stretch->at[i] = NULL;
        if (lending->sizes[i] != 0)
            check_refused(lending, stretch, MENHOTRAC_REFUSED_NULL, i != MENHOTRAC_LENT_ACTIONS);
    }
}

/* Each piece just beside one that is written is taken, and 8 bytes nearer it is refused. */
static void check_beside(const struct lending *lending, struct stretch *stretch, size_t written,
                         size_t other)
{
    size_t size = lending->sizes[other];
    int actions_written = written != MENHOTRAC_LENT_ACTIONS && other != MENHOTRAC_LENT_ACTIONS;
    uint8_t *start;
    uint8_t *end;

    lay_out(stretch);
    start = stretch->at[written];
    end = start + lending->sizes[written];
    stretch->at[other] = end;
    check_taken(lending, stretch);
    stretch->at[other] = end - 8;
    check_refused(lending, stretch, MENHOTRAC_REFUSED_OVERLAP, actions_written);
    stretch->at[other] = start - size;
    check_taken(lending, stretch);
    stretch->at[other] = start - size + 8;
    check_refused(lending, stretch, MENHOTRAC_REFUSED_OVERLAP, actions_written);
}

static void test_overlap(const struct lending *lending, struct stretch *stretch)
{
    size_t written;
    size_t other;

    for (written = 0; written < lending->written; written++) {
        for (other = 0; other < lending->count; other++) {
            if (other != written && lending->sizes[other] != 0)
                check_beside(lending, stretch, written, other);
        }
    }
}

static void test_lendings(void)
{
    struct stretch stretch;
    size_t i;

    stretch.bytes = malloc(STRETCH);
    CHECK(stretch.bytes != NULL);
    for (i = 0; i < COUNT(lendings); i++) {
        running = lendings[i].name;
        lay_out(&stretch);
        check_taken(&lendings[i], &stretch);
        test_null(&lendings[i], &stretch);
        test_overlap(&lendings[i], &stretch);
    }
    free(stretch.bytes);
}

/* ---- Limits ---- */

/* Single bytes, empty slices and lengths that no memory has. */
static void test_limits_of_step(void)
{
    struct bench bench;
    menhotrac_call call = {.event = {.code = MENHOTRAC_EVENT_UPPER_CLOSE}};

    running = "limits of an overlap, step";
    set_up(&bench, &locked);
    call.payload = bench.cache + FULL - 1;
    call.payload_len = 1;
    CHECK(step(&bench, &call) == MENHOTRAC_REFUSED_OVERLAP);
    call.payload_len = 0;
    CHECK(step(&bench, &call) == MENHOTRAC_IGNORED);
    call.payload = bench.before;
    call.payload_len = SIZE_MAX;
    CHECK(step(&bench, &call) == MENHOTRAC_REFUSED_OVERLAP);
    call.payload_len = 0;
    call.our_provers.suites = (const uint32_t *)(const void *)bench.before;
    call.our_provers.len = SIZE_MAX / sizeof(uint32_t) + 2; /* 4 bytes, if they wrapped */
    CHECK(step(&bench, &call) == MENHOTRAC_REFUSED_OVERLAP);
}

static uint32_t receive(struct bench *bench, const menhotrac_arrival *arrival)
{
    return menhotrac_call_receive(&bench->connection, arrival, bench->cache, FULL, &bench->actions)
        .answer;
}

static void test_limits_of_receive(void)
{
    struct bench bench;
    menhotrac_arrival arrival = MENHOTRAC_ZERO;

    running = "limits of an overlap, receive";
    set_up(&bench, &locked);
    arrival.bytes = bench.cache + FULL - 1;
    arrival.bytes_len = 1;
    CHECK(receive(&bench, &arrival) == MENHOTRAC_REFUSED_OVERLAP);
    arrival.bytes_len = 0;
    CHECK(receive(&bench, &arrival) == MENHOTRAC_REFUSED_UNEXPECTED_FIELD);
    arrival.bytes = bench.before;
    arrival.bytes_len = SIZE_MAX;
    CHECK(receive(&bench, &arrival) == MENHOTRAC_REFUSED_OVERLAP);
    arrival.bytes = data;
    arrival.bytes_len = sizeof data;
    CHECK(receive(&bench, &arrival) == MENHOTRAC_IGNORED);
    arrival.our_verifiers.suites = (const uint32_t *)(const void *)bench.before;
    arrival.our_verifiers.len = SIZE_MAX / sizeof(uint32_t) + 2; /* 4 bytes, if they wrapped */
    CHECK(receive(&bench, &arrival) == MENHOTRAC_REFUSED_OVERLAP);
}

/* Memory that is only read may overlap: one list for all, as where both ends have the same. */
static void test_shared_list(void)
{
    static const uint8_t hello[] = {0x0a, 6, 0x12, 1, 1, 0x1a, 1, 1};
    struct bench bench;
    menhotrac_call call = {
        .event = HELLO(MENHOTRAC_VERDICT_YES), .our_verifiers = LIST(suite_1),
        .peer_provers = LIST(suite_1), .peer_verifiers = LIST(suite_1), .our_provers = LIST(suite_1)
    };
    menhotrac_arrival arrival = {
        .bytes = hello, .bytes_len = sizeof hello,
        .token = {.verdict = MENHOTRAC_VERDICT_YES, .expiry = 1060, .now = 1000},
        .our_verifiers = LIST(suite_1), .our_provers = LIST(suite_1)
    };

    running = "one list for all";
    set_up(&bench, &greeted);
    CHECK(step(&bench, &call) == MENHOTRAC_HANDLED);
    CHECK(bench.connection.state == MENHOTRAC_STATE_WAIT_FOR_RA);
    set_up(&bench, &greeted);
    CHECK(receive(&bench, &arrival) == MENHOTRAC_HANDLED);
    CHECK(bench.connection.state == MENHOTRAC_STATE_WAIT_FOR_RA);
}

int main(void)
{
    test_lendings();
    test_limits_of_step();
    test_limits_of_receive();
    test_shared_list();
    printf("memory lent: %lu checks passed\n", checks);
    return EXIT_SUCCESS;
}
