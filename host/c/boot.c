/*
 * The boot run of document 01 through the archive: after each call a line with the state and the
 * number of handled events.
 *
 * The part before the run is the beginning of a host: what it keeps for a connection, one call for
 * everything that happens, and the actions carried out after it. Channel, application, drivers and
 * timers are buffers and tags here; the comments say what a host does in their place.
 */
#include <inttypes.h>
#include <stdio.h>
#include <stdlib.h>
#include <string.h>

#include "menhotrac.h"

#define LIST(suites) {(suites), sizeof(suites) / sizeof *(suites)}

/* The bytes last put somewhere. */
struct buffer {
    uint8_t bytes[MENHOTRAC_MAX_PAYLOAD];
    size_t len;
};

/* One of our attestation drivers. */
struct driver {
    uint32_t tag; /* of its latest start, 0 when it is stopped */
    uint32_t suite;
    struct buffer inbox;
};

/* The secure channel to the peer. */
struct channel {
    uint32_t message;
    uint32_t bit;
    struct buffer payload;
};

/* What the host keeps for one connection. */
struct host {
    menhotrac_connection connection;
    uint8_t cache[MENHOTRAC_MIN_CACHE];
    struct channel channel;
    struct buffer application;
    struct driver prover;
    struct driver verifier;
    uint32_t h; /* the tags of the timers, 0 when off */
    uint32_t hp;
    uint32_t hv;
    uint32_t dat;
    uint32_t ra;
    uint32_t ack;
    uint32_t dat_seconds;
};

static void put(struct buffer *buffer, const uint8_t *bytes, size_t len)
{
    if (len > 0)
        memcpy(buffer->bytes, bytes, len);
    buffer->len = len;
}

static void send_message(struct channel *channel, const menhotrac_actions *actions,
                         const uint8_t *part, size_t len)
{
    channel->message = actions->message;
    switch (actions->message) {
    case MENHOTRAC_MESSAGE_RA_PROVER:
    case MENHOTRAC_MESSAGE_RA_VERIFIER:
        put(&channel->payload, part, len);
        break;
    case MENHOTRAC_MESSAGE_DATA:
        put(&channel->payload, part, len);
        channel->bit = actions->bit;
        break;
    case MENHOTRAC_MESSAGE_ACK:
        channel->bit = actions->bit;
        break;
    default:
        /* A host writes its token and its suite lists into a HELLO, and its token into a DAT. */
        break;
    }
}

static void order_driver(struct driver *driver, uint32_t order, uint32_t tag,
                         const uint8_t *part, size_t len)
{
    switch (order) {
    case MENHOTRAC_DRIVER_START:
        /* A host ends a run in progress and starts one with this suite, whose reports carry tag. */
        driver->tag = tag;
        break;
    case MENHOTRAC_DRIVER_STOP:
        /* A host ends the run. A report that is already on its way will be ignored. */
        driver->tag = 0;
        break;
    case MENHOTRAC_DRIVER_FORWARD:
        put(&driver->inbox, part, len);
        break;
    default:
        break;
    }
}

static void order_timer(uint32_t *timer, uint32_t order, uint32_t tag)
{
    if (order == MENHOTRAC_TIMER_START)
        *timer = tag; /* A host sets the timer, anew if it runs. Its timeout will carry the tag. */
    if (order == MENHOTRAC_TIMER_CANCEL)
        *timer = 0; /* A host ends the timer. A timeout on its way will be ignored. */
}

/* A call that starts both drivers opens the connection. Their later starts use these suites too. */
static void keep_suites(struct host *host, const menhotrac_actions *actions)
{
    if (actions->prover == MENHOTRAC_DRIVER_START && actions->verifier == MENHOTRAC_DRIVER_START) {
        host->prover.suite = actions->prover_suite;
        host->verifier.suite = actions->verifier_suite;
    }
}

static void carry_out(struct host *host, const menhotrac_call *call,
                      const menhotrac_actions *actions)
{
    uint32_t tag = host->connection.handled; /* of everything that this call starts */
    size_t len;
    const uint8_t *part = menhotrac_part(actions, call->payload, call->payload_len,
                                         host->cache, sizeof host->cache, &len);

    if (actions->message != MENHOTRAC_MESSAGE_NONE)
        send_message(&host->channel, actions, part, len);
    if (actions->deliver)
        put(&host->application, part, len);
    if (actions->dat == MENHOTRAC_TIMER_START)
        host->dat_seconds = actions->dat_seconds;
    keep_suites(host, actions);
    order_driver(&host->prover, actions->prover, tag, part, len);
    order_driver(&host->verifier, actions->verifier, tag, part, len);
    order_timer(&host->h, actions->h, tag);
    order_timer(&host->hp, actions->hp, tag);
    order_timer(&host->hv, actions->hv, tag);
    order_timer(&host->dat, actions->dat, tag);
    order_timer(&host->ra, actions->ra, tag);
    order_timer(&host->ack, actions->ack, tag);
}

/* One call, and what it orders; an ignored call orders nothing. */
static void happens(struct host *host, const menhotrac_call *call)
{
    menhotrac_actions actions;
    uint32_t answer = menhotrac_call_step(&host->connection, call, host->cache, sizeof host->cache,
                                          &actions);

    if (menhotrac_refused(answer)) {
        fprintf(stderr, "boot: event %" PRIu32 " is refused with %" PRIu32 ": %s\n",
                call->event.code, answer, menhotrac_answer_name(answer));
        exit(EXIT_FAILURE);
    }
    carry_out(host, call, &actions);
    printf("%" PRIu32 " %" PRIu32 "\n", host->connection.state, host->connection.handled);
}

static void plain(struct host *host, uint32_t code)
{
    menhotrac_call call = {.event = {.code = code}};

    happens(host, &call);
}

static void report(struct host *host, uint32_t code, uint32_t tag)
{
    menhotrac_call call = {.event = {.code = code, .tag = tag}};

    happens(host, &call);
}

static void hello(struct host *host, int64_t expiry, int64_t now)
{
    static const uint32_t our_verifiers[] = {7, 3};
    static const uint32_t peer_provers[] = {3, 7};
    static const uint32_t peer_verifiers[] = {3};
    static const uint32_t our_provers[] = {3, 7};
    menhotrac_call call = {
        .event = {
            .code = MENHOTRAC_EVENT_SC_HELLO,
            .verdict = MENHOTRAC_VERDICT_YES,
            .margin = 0, /* A host may let tokens count as spent up to 300 seconds early. */
            .expiry = expiry,
            .now = now
        },
        .our_verifiers = LIST(our_verifiers),
        .peer_provers = LIST(peer_provers),
        .peer_verifiers = LIST(peer_verifiers),
        .our_provers = LIST(our_provers)
    };

    happens(host, &call);
}

static void send_block(struct host *host, const uint8_t *block, size_t len)
{
    menhotrac_call call = {
        .event = {.code = MENHOTRAC_EVENT_UPPER_SEND_DATA},
        .payload = block,
        .payload_len = len
    };

    happens(host, &call);
}

static void acknowledge(struct host *host, uint32_t bit)
{
    menhotrac_call call = {.event = {.code = MENHOTRAC_EVENT_SC_ACK, .bit = bit}};

    happens(host, &call);
}

int main(void)
{
    static struct host host; /* zeros, with the cache */
    static const uint8_t block[] = {1, 2, 3, 4, 5};
    uint32_t greeting;
    uint32_t first_run;

    menhotrac_fresh(&host.connection);
    plain(&host, MENHOTRAC_EVENT_UPPER_START_HANDSHAKE);
    greeting = host.h;
    hello(&host, 1060, 1000);
    first_run = host.prover.tag;
    report(&host, MENHOTRAC_EVENT_RA_PROVER_OK, first_run);
    /* A tag from before the verifier's start: ignored. */
    report(&host, MENHOTRAC_EVENT_RA_VERIFIER_OK, greeting);
    report(&host, MENHOTRAC_EVENT_RA_VERIFIER_OK, host.verifier.tag);
    send_block(&host, block, sizeof block);
    plain(&host, MENHOTRAC_EVENT_SC_RE_RA);
    /* A late report of the prover's first run: ignored. */
    report(&host, MENHOTRAC_EVENT_RA_PROVER_OK, first_run);
    acknowledge(&host, host.channel.bit);
    report(&host, MENHOTRAC_EVENT_RA_PROVER_OK, host.prover.tag);
    return EXIT_SUCCESS;
}
