/*
 * The boot run of document 01 with the peer's messages as bytes: how a host checks a token and
 * receives. After each call it prints a line with the state and the number of handled events.
 *
 * Of the actions only the drivers' starts are carried out; boot.c shows the rest.
 */
#include <inttypes.h>
#include <stdio.h>
#include <stdlib.h>
#include <string.h>

#include "menhotrac.h"

#define LIST(suites) {(suites), sizeof(suites) / sizeof *(suites)}

/* The one token that this host accepts. */
static const uint8_t good_token[] = {'t', 'o', 'k', 'e', 'n'};

/* HELLO with that token, suites 3 and 7 of the peer's prover and suite 3 of its verifier. */
static const uint8_t hello[] = {
    0x0a, 14, 0x0a, 5, 't', 'o', 'k', 'e', 'n', 0x12, 2, 3, 7, 0x1a, 1, 3
};
static const uint8_t re_ra[] = {0x2a, 0};
static const uint8_t ack[] = {0x4a, 2, 0x08, 0}; /* with bit 0 */

static const uint32_t our_verifiers[] = {7, 3};
static const uint32_t our_provers[] = {3, 7};

/* What the host keeps for one connection. */
struct host {
    menhotrac_connection connection;
    uint8_t cache[MENHOTRAC_MIN_CACHE];
    uint32_t prover; /* the tags of the drivers' latest starts */
    uint32_t verifier;
};

/*
 * `payload` is what a step was lent, or the bytes of a message from the receipt's place on: the
 * part of the actions lies there or in the cache.
 */
static void carry_out(struct host *host, const menhotrac_actions *actions, const uint8_t *payload,
                      size_t payload_len)
{
    size_t len;
    const uint8_t *part = menhotrac_part(actions, payload, payload_len, host->cache,
                                         sizeof host->cache, &len);

    (void)part; /* A host sends these bytes, or gives them to a driver or to the application. */
    if (actions->prover == MENHOTRAC_DRIVER_START)
        host->prover = host->connection.handled;
    if (actions->verifier == MENHOTRAC_DRIVER_START)
        host->verifier = host->connection.handled;
    printf("%" PRIu32 " %" PRIu32 "\n", host->connection.state, host->connection.handled);
}

static void stop_if_refused(uint32_t answer)
{
    if (menhotrac_refused(answer)) {
        fprintf(stderr, "receive: refused with %" PRIu32 ": %s\n", answer,
                menhotrac_answer_name(answer));
        exit(EXIT_FAILURE);
    }
}

/*
 * A host checks the signature, and takes the expiry from the token and the time from its clock. It
 * may let tokens count as spent up to 300 seconds early, with a margin.
 */
static menhotrac_token check_token(const uint8_t *token, size_t len)
{
    menhotrac_token found = {
        .verdict = MENHOTRAC_VERDICT_NO, .margin = 0, .expiry = 1060, .now = 1000
    };

    if (len == sizeof good_token && memcmp(token, good_token, len) == 0)
        found.verdict = MENHOTRAC_VERDICT_YES;
    return found;
}

/* What the step needs to know of a token; that of other messages is not read. */
static menhotrac_token token_in(const uint8_t *bytes, size_t len)
{
    menhotrac_token none = MENHOTRAC_ZERO;
    uint32_t provers[MENHOTRAC_MAX_SUITES];
    uint32_t verifiers[MENHOTRAC_MAX_SUITES];
    menhotrac_message message = menhotrac_call_read(bytes, len, provers, verifiers);

    if (message.number == MENHOTRAC_MESSAGE_HELLO || message.number == MENHOTRAC_MESSAGE_DAT)
        return check_token(bytes + message.place, message.size);
    return none;
}

/* One whole message has come. A host may end the connection with SC_ERROR where it is refused. */
static void arrives(struct host *host, const uint8_t *bytes, size_t len)
{
    menhotrac_arrival arrival = {
        .bytes = bytes,
        .bytes_len = len,
        .token = token_in(bytes, len),
        .our_verifiers = LIST(our_verifiers),
        .our_provers = LIST(our_provers)
    };
    menhotrac_actions actions;
    menhotrac_receipt receipt = menhotrac_call_receive(&host->connection, &arrival, host->cache,
                                                       sizeof host->cache, &actions);

    stop_if_refused(receipt.answer);
    carry_out(host, &actions, bytes + receipt.place, len - receipt.place);
}

/* Anything else that happens. */
static void happens(struct host *host, const menhotrac_call *call)
{
    menhotrac_actions actions;

    stop_if_refused(menhotrac_call_step(&host->connection, call, host->cache, sizeof host->cache,
                                        &actions));
    carry_out(host, &actions, call->payload, call->payload_len);
}

static void report(struct host *host, uint32_t code, uint32_t tag)
{
    menhotrac_call call = {.event = {.code = code, .tag = tag}};

    happens(host, &call);
}

int main(void)
{
    static struct host host; /* zeros, with the cache */
    static const uint8_t block[] = {1, 2, 3, 4, 5};
    menhotrac_call start = {.event = {.code = MENHOTRAC_EVENT_UPPER_START_HANDSHAKE}};
    menhotrac_call send = {
        .event = {.code = MENHOTRAC_EVENT_UPPER_SEND_DATA},
        .payload = block,
        .payload_len = sizeof block
    };
    uint32_t first_run;

    menhotrac_fresh(&host.connection);
    happens(&host, &start);
    arrives(&host, hello, sizeof hello);
    first_run = host.prover;
    report(&host, MENHOTRAC_EVENT_RA_PROVER_OK, first_run);
    /* A tag from before the verifier's start: ignored. */
    report(&host, MENHOTRAC_EVENT_RA_VERIFIER_OK, host.verifier - 1);
    report(&host, MENHOTRAC_EVENT_RA_VERIFIER_OK, host.verifier);
    happens(&host, &send);
    arrives(&host, re_ra, sizeof re_ra);
    /* A late report of the prover's first run: ignored. */
    report(&host, MENHOTRAC_EVENT_RA_PROVER_OK, first_run);
    arrives(&host, ack, sizeof ack);
    report(&host, MENHOTRAC_EVENT_RA_PROVER_OK, host.prover);
    return EXIT_SUCCESS;
}
