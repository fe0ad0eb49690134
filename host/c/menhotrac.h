/*
 * Menhotrac: the proved state machine of an IDSCP2 connection, for hosts in C and C++.
 *
 * The host runs sockets, TLS, timers, attestation drivers and the check of a token's signature.
 * For everything that happens it makes one call, and then carries out the actions that the call
 * wrote. "Document 01" in comments is the paper "Precise rules and scope of the connection build",
 * as its change requests amend it.
 *
 * Building a host, at the root of the repository:
 *
 *     tools/archive
 *     cc -std=c11 -O2 -I host/c -o my_host my_host.c target/staticlib/libcapi.a
 *
 * boot.c beside this header is a small host; receive.c shows how one receives messages.
 *
 * MEMORY
 *
 * - The host owns record, cache, payload, bytes, suite lists and actions, and lends them for one
 *   call. The library keeps nothing after a call. It allocates nothing and has no variables of its
 *   own.
 * - Every connection has a record and a cache of its own, the cache of at least 4,096 bytes. The
 *   host keeps both as the last call left them and writes neither.
 * - What a call writes (record, cache, actions; the lists of menhotrac_read) must not overlap
 *   anything else lent to that call.
 * - Any numbers may be given. A pointer must be valid for its length, which counts elements. An
 *   empty slice may be NULL with length 0.
 * - Calls for different connections may run at the same time; those for one connection may not.
 *
 * ANSWERS
 *
 * A call is handled, ignored or refused. An ignored or refused call leaves record and cache as
 * they were and sets all actions to 0 (for 42 and 43 see menhotrac_call_step). Faults are looked
 * for at every call, in this order, and the first one is given: 42 and 43, in the calls that test
 * pointers; 21 to 25, where bytes are read; 1 to 9; 41. After a refusal the host may go on, or end
 * the connection with SC_ERROR or UPPER_CLOSE; one that gets 7 or 8 is refused these too, so the
 * host drops it.
 *
 * MESSAGES OF THE PEER
 *
 * The bytes of one whole message go to menhotrac_call_receive, which reads them and steps with the
 * event that the message is. A HELLO or DAT carries a token, and the step needs the host's verdict
 * on it: menhotrac_call_read says which message the bytes are and where the token lies, the host
 * checks it, and then gives the same bytes to menhotrac_call_receive. A host with a reader of its
 * own makes the events SC_HELLO to SC_ACK itself and calls menhotrac_call_step.
 *
 * TOKENS
 *
 * The seconds left of a token are expiry minus now minus margin, worked out exactly and then
 * clamped to -86,400 to 86,400: with a margin the token counts as spent before its expiry. A token
 * is good if the host's verdict is YES and at least one second is left; DAT then runs for the
 * seconds left. A HELLO or DAT with a bad token locks the connection, unless it is ignored.
 *
 * TAGS
 *
 * A start of a driver or a timer gets a tag: `handled` of the record as it was after the call that
 * ordered the start. The host keeps it, and puts it into every report of that driver and into the
 * timeout of that timer. A report or timeout with the tag of an earlier start is ignored, so the
 * host need not prevent late ones. HP has the prover's tag and HV the verifier's. A new record
 * counts from 0 again: late reports of an earlier connection must not reach it.
 *
 * BARE METAL
 *
 * The header needs only the headers of a freestanding compiler. The archive is code for the x86-64
 * System V ABI and uses what that ABI allows: the SSE registers, which the loader has to enable,
 * and the 128 bytes below the stack pointer (the red zone). Interrupts have to be off during a
 * call, or their handlers have to run on another stack and to preserve the SSE registers.
 */
#ifndef MENHOTRAC_H
#define MENHOTRAC_H

#include <stddef.h>
#include <stdint.h>

/* The archive's calling convention, also where the compiler's own is another (as for UEFI). */
#if defined(__GNUC__) && defined(__x86_64__)
#define MENHOTRAC_ABI __attribute__((sysv_abi))
#else
#define MENHOTRAC_ABI
#endif

/*
 * Initialises any struct of this header to zeros. A host that gives values initialises by naming
 * fields: requests to come may add some.
 */
#ifdef __cplusplus
#define MENHOTRAC_ZERO {}
#else
#define MENHOTRAC_ZERO {0}
#endif

#ifdef __cplusplus
extern "C" {
#endif

/* ---- Numbers ---- */

enum menhotrac_limit {
    MENHOTRAC_MAX_PAYLOAD = 4096, /* bytes of a payload */
    MENHOTRAC_MIN_CACHE = 4096,   /* bytes of a cache */
    MENHOTRAC_MAX_SUITES = 16,    /* entries of a suite list */
    MENHOTRAC_MAX_MARGIN = 300    /* seconds of a token's margin */
};

enum menhotrac_state {
    MENHOTRAC_STATE_CLOSED_UNLOCKED = 0,
    MENHOTRAC_STATE_WAIT_FOR_HELLO = 1,
    MENHOTRAC_STATE_WAIT_FOR_RA = 2,
    MENHOTRAC_STATE_WAIT_FOR_RA_PROVER = 3,
    MENHOTRAC_STATE_WAIT_FOR_RA_VERIFIER = 4,
    MENHOTRAC_STATE_WAIT_FOR_DAT_AND_RA = 5,
    MENHOTRAC_STATE_WAIT_FOR_DAT_AND_RA_VERIFIER = 6,
    MENHOTRAC_STATE_ESTABLISHED = 7,
    MENHOTRAC_STATE_WAIT_FOR_ACK = 8,
    MENHOTRAC_STATE_CLOSED_LOCKED = 9 /* for good: all events are ignored */
};

/*
 * What happened, with what the event carries. What it does not carry is not read.
 * UPPER is a request of the application, RA a report of one of our drivers, SC a message or an
 * error of the secure channel.
 */
enum menhotrac_event_code {
    MENHOTRAC_EVENT_UPPER_START_HANDSHAKE = 0,
    MENHOTRAC_EVENT_UPPER_CLOSE = 1,
    MENHOTRAC_EVENT_UPPER_SEND_DATA = 2,    /* payload */
    MENHOTRAC_EVENT_UPPER_RE_RA = 3,
    MENHOTRAC_EVENT_RA_VERIFIER_OK = 4,     /* tag */
    MENHOTRAC_EVENT_RA_VERIFIER_FAILED = 5, /* tag */
    MENHOTRAC_EVENT_RA_VERIFIER_MSG = 6,    /* tag; payload */
    MENHOTRAC_EVENT_RA_PROVER_OK = 7,       /* tag */
    MENHOTRAC_EVENT_RA_PROVER_FAILED = 8,   /* tag */
    MENHOTRAC_EVENT_RA_PROVER_MSG = 9,      /* tag; payload */
    MENHOTRAC_EVENT_SC_ERROR = 10,
    MENHOTRAC_EVENT_SC_HELLO = 11,          /* verdict, margin, expiry, now; the four suite lists */
    MENHOTRAC_EVENT_SC_CLOSE = 12,
    MENHOTRAC_EVENT_SC_DAT = 13,            /* verdict, margin, expiry, now */
    MENHOTRAC_EVENT_SC_DAT_EXPIRED = 14,
    MENHOTRAC_EVENT_SC_RA_PROVER = 15,      /* payload: from the peer's prover to our verifier */
    MENHOTRAC_EVENT_SC_RA_VERIFIER = 16,    /* payload: from the peer's verifier to our prover */
    MENHOTRAC_EVENT_SC_RE_RA = 17,
    MENHOTRAC_EVENT_SC_DATA = 18,           /* bit; payload */
    MENHOTRAC_EVENT_SC_ACK = 19,            /* bit */
    MENHOTRAC_EVENT_HANDSHAKE_TIMEOUT = 20, /* tag, timer */
    MENHOTRAC_EVENT_DAT_TIMEOUT = 21,       /* tag */
    MENHOTRAC_EVENT_RA_TIMEOUT = 22,        /* tag */
    MENHOTRAC_EVENT_ACK_TIMEOUT = 23        /* tag */
};

/* The timer that ran out in a HANDSHAKE_TIMEOUT. */
enum menhotrac_handshake_timer {
    MENHOTRAC_HANDSHAKE_TIMER_H = 0,
    MENHOTRAC_HANDSHAKE_TIMER_HP = 1,
    MENHOTRAC_HANDSHAKE_TIMER_HV = 2
};

/* The host's verdict on a token, apart from its expiry. */
enum menhotrac_verdict {
    MENHOTRAC_VERDICT_NO = 0,
    MENHOTRAC_VERDICT_YES = 1
};

/* The message to send, with what it holds; also the number of one received. */
enum menhotrac_message_number {
    MENHOTRAC_MESSAGE_NONE = 0,
    MENHOTRAC_MESSAGE_HELLO = 1,       /* our token and our suite lists, which the host has */
    MENHOTRAC_MESSAGE_CLOSE = 2,       /* nothing */
    MENHOTRAC_MESSAGE_DAT_EXPIRED = 3, /* nothing */
    MENHOTRAC_MESSAGE_DAT = 4,         /* our token, renewed by the host */
    MENHOTRAC_MESSAGE_RE_RA = 5,       /* nothing */
    MENHOTRAC_MESSAGE_RA_PROVER = 6,   /* the payload part */
    MENHOTRAC_MESSAGE_RA_VERIFIER = 7, /* the payload part */
    MENHOTRAC_MESSAGE_DATA = 8,        /* the payload part and the bit */
    MENHOTRAC_MESSAGE_ACK = 9          /* the bit; the payload part is for the application alone */
};

enum menhotrac_driver_order {
    MENHOTRAC_DRIVER_NONE = 0,
    MENHOTRAC_DRIVER_START = 1,  /* start it with its suite and a new tag; a run before it ends */
    MENHOTRAC_DRIVER_STOP = 2,   /* end its run; one that reported OK or FAILED gets no stop */
    MENHOTRAC_DRIVER_FORWARD = 3 /* pass the payload part on to it */
};

enum menhotrac_timer_order {
    MENHOTRAC_TIMER_NONE = 0,
    MENHOTRAC_TIMER_START = 1, /* start it with a new tag, anew if it runs */
    MENHOTRAC_TIMER_CANCEL = 2 /* end it; it may have run out already */
};

/* The slice that the payload part is a part of. */
enum menhotrac_slice {
    MENHOTRAC_SLICE_NONE = 0,
    MENHOTRAC_SLICE_EVENT = 1, /* the payload of the event or of the message received */
    MENHOTRAC_SLICE_CACHE = 2
};

enum menhotrac_answer {
    MENHOTRAC_HANDLED = 0,
    MENHOTRAC_REFUSED_UNKNOWN_CODE = 1,      /* event code above 23 */
    MENHOTRAC_REFUSED_UNKNOWN_TIMER = 2,     /* HANDSHAKE_TIMEOUT with a timer above 2 */
    MENHOTRAC_REFUSED_WRONG_BIT = 3,         /* SC_DATA or SC_ACK with a bit above 1 */
    MENHOTRAC_REFUSED_PAYLOAD_TOO_LONG = 4,  /* an event that carries more than 4,096 bytes */
    MENHOTRAC_REFUSED_CACHE_TOO_SHORT = 5,   /* a cache of less than 4,096 bytes, at any event */
    MENHOTRAC_REFUSED_LIST_TOO_LONG = 6,     /* SC_HELLO with a list of more than 16 entries */
    MENHOTRAC_REFUSED_NOT_WELL_FORMED = 7,   /* a record that no call leaves: not well formed */
    MENHOTRAC_REFUSED_NUMBER_EXHAUSTED = 8,  /* would be handled, but `handled` is the largest */
    MENHOTRAC_REFUSED_MARGIN_TOO_LARGE = 9,  /* SC_HELLO or SC_DAT with a margin above 300 */
    MENHOTRAC_REFUSED_ENDS_TOO_SOON = 21,    /* bytes that end within a number or a part */
    MENHOTRAC_REFUSED_UNEXPECTED_FIELD = 22, /* not just one message; a field unknown or again */
    MENHOTRAC_REFUSED_WRONG_WIRE_TYPE = 23,  /* a field that has not its own wire type */
    MENHOTRAC_REFUSED_NUMBER_TOO_LARGE = 24, /* above ten bytes or 32 bits; a bit above 1 */
    MENHOTRAC_REFUSED_TOO_MANY_SUITES = 25,  /* HELLO with a list of more than 16 entries */
    MENHOTRAC_REFUSED_WRONG_VERDICT = 41,    /* SC_HELLO or SC_DAT with a verdict above 1 */
    MENHOTRAC_REFUSED_NULL = 42,             /* menhotrac_call_...: NULL where memory is needed */
    MENHOTRAC_REFUSED_OVERLAP = 43,          /* menhotrac_call_...: written memory overlaps */
    MENHOTRAC_IGNORED = 100
};

/* ---- Structs that are lent ---- */

/* The record of a connection. A host reads `state` and `handled`, and writes nothing. */
typedef struct menhotrac_connection {
    uint32_t state;         /* enum menhotrac_state */
    uint32_t awaiting_ack;  /* 1 while a block waits for its acknowledgement */
    uint32_t next_send_bit;
    uint32_t expected_bit;
    uint32_t cached_len;    /* the length of the block that waits */
    uint32_t handled;       /* the number of handled events, and the tag of what the last started */
    uint32_t h;             /* tags, 0 while off: the timer H, */
    uint32_t prover;        /* our prover and its timer HP, */
    uint32_t verifier;      /* our verifier and its timer HV, */
    uint32_t dat;           /* and the timers DAT, */
    uint32_t ra;            /* RA */
    uint32_t ack;           /* and ACK */
} menhotrac_connection;

/* An event. Only the fields that its code carries are read. */
typedef struct menhotrac_event {
    uint32_t code;    /* enum menhotrac_event_code */
    uint32_t tag;
    uint32_t timer;   /* enum menhotrac_handshake_timer */
    uint32_t bit;
    uint32_t verdict; /* enum menhotrac_verdict */
    uint32_t margin;  /* how many seconds before its expiry the token counts as spent, 0 to 300 */
    int64_t expiry;   /* when the token runs out, and the time now: in seconds of one clock */
    int64_t now;
} menhotrac_event;

/*
 * What the host is to do: document 01's order sheet. The slots are independent. They are carried
 * out before the next call for this connection, since that call may change the cache.
 */
typedef struct menhotrac_actions {
    uint32_t message;        /* enum menhotrac_message_number: send it to the peer */
    uint32_t prover;         /* enum menhotrac_driver_order, to our prover */
    uint32_t verifier;       /* and to our verifier */
    uint32_t h;              /* enum menhotrac_timer_order, to each timer */
    uint32_t hp;
    uint32_t hv;
    uint32_t dat;
    uint32_t ra;
    uint32_t ack;
    uint32_t dat_seconds;    /* how long DAT runs, where it starts; the host sets the others' */
    uint32_t bit;            /* the bit of a DATA or ACK */
    uint32_t deliver;        /* 1: give the payload part to the application */
    uint32_t verifier_suite; /* the suites, given once: where one call starts both drivers. The */
    uint32_t prover_suite;   /* host keeps them for later starts. Suite 0 is a suite like others. */
    uint32_t payload_slice;  /* enum menhotrac_slice; menhotrac_part gives the part */
    uint32_t payload_len;
} menhotrac_actions;

/* The suite choice, asked alone. A suite is 0 where it was not found or the choice was refused. */
typedef struct menhotrac_choice {
    uint32_t verifier_found; /* 1 yes, 0 no */
    uint32_t verifier;
    uint32_t prover_found;
    uint32_t prover;
} menhotrac_choice;

/* A message as numbers. Where the bytes are refused, all but the refusal is 0. */
typedef struct menhotrac_message {
    uint32_t refusal; /* 0, or 21 to 25; of menhotrac_call_read also 42 and 43 */
    uint32_t number;  /* enum menhotrac_message_number */
    uint32_t bit;     /* of a DATA or ACK, else 0 */
    size_t provers;   /* how many suites of each list of a HELLO, at most 16, else 0 */
    size_t verifiers;
    size_t place;     /* where the token or payload lies in the bytes; 0 where there is none */
    size_t size;      /* and how many bytes it has */
} menhotrac_message;

/* What the host says of the token in a HELLO or DAT. It is not read for other messages. */
typedef struct menhotrac_token {
    uint32_t verdict; /* enum menhotrac_verdict */
    uint32_t margin;  /* how many seconds before its expiry the token counts as spent, 0 to 300 */
    int64_t expiry;   /* when the token runs out, and the time now: in seconds of one clock */
    int64_t now;
} menhotrac_token;

/* The answer to the bytes of a message. */
typedef struct menhotrac_receipt {
    uint32_t answer; /* enum menhotrac_answer */
    size_t place;    /* where the token or payload lies in the bytes; 0 where there is none, */
                     /* and where the bytes are refused with 21 to 25 */
} menhotrac_receipt;

/* ---- Layout: a compiler that lays the structs out differently refuses the header ---- */

#if defined(__cplusplus)
#define MENHOTRAC_CHECK(name, holds) static_assert(holds, "layout of menhotrac_" #name)
#elif defined(__STDC_VERSION__) && __STDC_VERSION__ >= 201112L
#define MENHOTRAC_CHECK(name, holds) _Static_assert(holds, "layout of menhotrac_" #name)
#else
#define MENHOTRAC_CHECK(name, holds) typedef char menhotrac_layout_of_##name[(holds) ? 1 : -1]
#endif

/* An alignment is an offset after one byte: C99 has no other word for it. */
#define MENHOTRAC_TYPE(type, size, alignment) \
    struct menhotrac_aligned_##type { char byte; menhotrac_##type value; }; \
    MENHOTRAC_CHECK(alignment_of_##type, \
                    offsetof(struct menhotrac_aligned_##type, value) == (alignment)); \
    MENHOTRAC_CHECK(size_of_##type, sizeof(menhotrac_##type) == (size))

#define MENHOTRAC_AT(type, field, offset, size) \
    MENHOTRAC_CHECK(type##_##field, offsetof(menhotrac_##type, field) == (offset) \
                    && sizeof(((menhotrac_##type *)0)->field) == (size))

MENHOTRAC_CHECK(slice, sizeof(size_t) == 8 && sizeof(void *) == 8);

MENHOTRAC_TYPE(connection, 48, 4);
MENHOTRAC_AT(connection, state, 0, 4);
MENHOTRAC_AT(connection, awaiting_ack, 4, 4);
MENHOTRAC_AT(connection, next_send_bit, 8, 4);
MENHOTRAC_AT(connection, expected_bit, 12, 4);
MENHOTRAC_AT(connection, cached_len, 16, 4);
MENHOTRAC_AT(connection, handled, 20, 4);
MENHOTRAC_AT(connection, h, 24, 4);
MENHOTRAC_AT(connection, prover, 28, 4);
MENHOTRAC_AT(connection, verifier, 32, 4);
MENHOTRAC_AT(connection, dat, 36, 4);
MENHOTRAC_AT(connection, ra, 40, 4);
MENHOTRAC_AT(connection, ack, 44, 4);

MENHOTRAC_TYPE(event, 40, 8);
MENHOTRAC_AT(event, code, 0, 4);
MENHOTRAC_AT(event, tag, 4, 4);
MENHOTRAC_AT(event, timer, 8, 4);
MENHOTRAC_AT(event, bit, 12, 4);
MENHOTRAC_AT(event, verdict, 16, 4);
MENHOTRAC_AT(event, margin, 20, 4);
MENHOTRAC_AT(event, expiry, 24, 8);
MENHOTRAC_AT(event, now, 32, 8);

MENHOTRAC_TYPE(actions, 64, 4);
MENHOTRAC_AT(actions, message, 0, 4);
MENHOTRAC_AT(actions, prover, 4, 4);
MENHOTRAC_AT(actions, verifier, 8, 4);
MENHOTRAC_AT(actions, h, 12, 4);
MENHOTRAC_AT(actions, hp, 16, 4);
MENHOTRAC_AT(actions, hv, 20, 4);
MENHOTRAC_AT(actions, dat, 24, 4);
MENHOTRAC_AT(actions, ra, 28, 4);
MENHOTRAC_AT(actions, ack, 32, 4);
MENHOTRAC_AT(actions, dat_seconds, 36, 4);
MENHOTRAC_AT(actions, bit, 40, 4);
MENHOTRAC_AT(actions, deliver, 44, 4);
MENHOTRAC_AT(actions, verifier_suite, 48, 4);
MENHOTRAC_AT(actions, prover_suite, 52, 4);
MENHOTRAC_AT(actions, payload_slice, 56, 4);
MENHOTRAC_AT(actions, payload_len, 60, 4);

MENHOTRAC_TYPE(choice, 16, 4);
MENHOTRAC_AT(choice, verifier_found, 0, 4);
MENHOTRAC_AT(choice, verifier, 4, 4);
MENHOTRAC_AT(choice, prover_found, 8, 4);
MENHOTRAC_AT(choice, prover, 12, 4);

MENHOTRAC_TYPE(message, 48, 8);
MENHOTRAC_AT(message, refusal, 0, 4);
MENHOTRAC_AT(message, number, 4, 4);
MENHOTRAC_AT(message, bit, 8, 4);
MENHOTRAC_AT(message, provers, 16, 8);
MENHOTRAC_AT(message, verifiers, 24, 8);
MENHOTRAC_AT(message, place, 32, 8);
MENHOTRAC_AT(message, size, 40, 8);

MENHOTRAC_TYPE(token, 24, 8);
MENHOTRAC_AT(token, verdict, 0, 4);
MENHOTRAC_AT(token, margin, 4, 4);
MENHOTRAC_AT(token, expiry, 8, 8);
MENHOTRAC_AT(token, now, 16, 8);

MENHOTRAC_TYPE(receipt, 16, 8);
MENHOTRAC_AT(receipt, answer, 0, 4);
MENHOTRAC_AT(receipt, place, 8, 8);

#undef MENHOTRAC_AT
#undef MENHOTRAC_TYPE
#undef MENHOTRAC_CHECK

/* ---- Functions of the archive ---- */

/* Makes the record of a new connection. The pointer is not tested. */
MENHOTRAC_ABI void menhotrac_fresh(menhotrac_connection *connection);

/*
 * One step. It changes the record and writes the actions; a handled UPPER_SEND_DATA also writes
 * the first bytes of the cache. It returns an enum menhotrac_answer. Pointers are not tested:
 * menhotrac_call_step does that.
 */
MENHOTRAC_ABI uint32_t menhotrac_step(menhotrac_connection *connection, menhotrac_event event,
                                      const uint8_t *payload, size_t payload_len,
                                      uint8_t *cache, size_t cache_len,
                                      menhotrac_actions *actions,
                                      const uint32_t *our_verifiers, size_t our_verifiers_len,
                                      const uint32_t *peer_provers, size_t peer_provers_len,
                                      const uint32_t *peer_verifiers, size_t peer_verifiers_len,
                                      const uint32_t *our_provers, size_t our_provers_len);

/*
 * The seconds left of a token, asked alone. It returns 0, or 9
 * (MENHOTRAC_REFUSED_MARGIN_TOO_LARGE), and writes the seconds; those are 0 where it refuses. The
 * pointer is not tested.
 */
MENHOTRAC_ABI uint32_t menhotrac_seconds_left(int64_t expiry, int64_t now, uint32_t margin,
                                              int64_t *seconds);

/*
 * The suite choice, asked alone. It returns 0, or 6 (MENHOTRAC_REFUSED_LIST_TOO_LONG), and writes
 * the suites that the lists have in common; the verifier's order decides. Pointers are not tested.
 */
MENHOTRAC_ABI uint32_t menhotrac_choose_suites(
    const uint32_t *our_verifiers, size_t our_verifiers_len,
    const uint32_t *peer_provers, size_t peer_provers_len,
    const uint32_t *peer_verifiers, size_t peer_verifiers_len,
    const uint32_t *our_provers, size_t our_provers_len,
    menhotrac_choice *chosen);

/*
 * Reads one message, which has to be all of the bytes. The suites of a HELLO are written to the two
 * lists, with zeros behind them; for any other message, and for bytes that are refused, both keep
 * their entries. Pointers are not tested: menhotrac_call_read does that.
 */
MENHOTRAC_ABI menhotrac_message menhotrac_read(const uint8_t *bytes, size_t bytes_len,
                                               uint32_t provers[MENHOTRAC_MAX_SUITES],
                                               uint32_t verifiers[MENHOTRAC_MAX_SUITES]);

/*
 * The event that a message is, by its number and bit, with what the host says of the token. A
 * number that is no message's gives a code that menhotrac_step refuses with 1.
 */
MENHOTRAC_ABI menhotrac_event menhotrac_event_of(uint32_t number, uint32_t bit,
                                                 menhotrac_token token);

/*
 * Reads one message, and then does what menhotrac_step does with the event that the message is: its
 * token or payload is the payload, and the peer's lists are those of the HELLO. Our lists are read
 * for a HELLO alone. Pointers are not tested: menhotrac_call_receive does that.
 */
static inline menhotrac_receipt menhotrac_receive(
    menhotrac_connection *connection, const uint8_t *bytes, size_t bytes_len,
    menhotrac_token token, uint8_t *cache, size_t cache_len, menhotrac_actions *actions,
    const uint32_t *our_verifiers, size_t our_verifiers_len,
    const uint32_t *our_provers, size_t our_provers_len)
{
    menhotrac_actions nothing = MENHOTRAC_ZERO;
    menhotrac_receipt receipt = MENHOTRAC_ZERO;
    uint32_t provers[MENHOTRAC_MAX_SUITES];
    uint32_t verifiers[MENHOTRAC_MAX_SUITES];
    menhotrac_message message = menhotrac_read(bytes, bytes_len, provers, verifiers);

    if (message.refusal != MENHOTRAC_HANDLED) {
        *actions = nothing;
        receipt.answer = message.refusal;
        return receipt;
    }
    receipt.place = message.place;
    receipt.answer = menhotrac_step(connection,
                                    menhotrac_event_of(message.number, message.bit, token),
                                    bytes + message.place, message.size, cache, cache_len, actions,
                                    our_verifiers, our_verifiers_len, provers, message.provers,
                                    verifiers, message.verifiers, our_provers, our_provers_len);
    return receipt;
}

/* ---- A step with its pointers tested ---- */

/* A suite list. */
typedef struct menhotrac_list {
    const uint32_t *suites;
    size_t len;
} menhotrac_list;

/*
 * An event with what is lent with it. Initialise it, with MENHOTRAC_ZERO or by naming fields: what
 * is left out lends nothing.
 */
typedef struct menhotrac_call {
    menhotrac_event event;
    const uint8_t *payload;
    size_t payload_len;
    menhotrac_list our_verifiers;
    menhotrac_list peer_provers;
    menhotrac_list peer_verifiers;
    menhotrac_list our_provers;
} menhotrac_call;

/*
 * What menhotrac_call_step and menhotrac_call_receive test: first what a step writes, then what it
 * only reads.
 */
enum menhotrac_lent {
    MENHOTRAC_LENT_ACTIONS,
    MENHOTRAC_LENT_CONNECTION,
    MENHOTRAC_LENT_CACHE,
    MENHOTRAC_LENT_CALL,
    MENHOTRAC_LENT_PAYLOAD,
    MENHOTRAC_LENT_OUR_VERIFIERS,
    MENHOTRAC_LENT_PEER_PROVERS,
    MENHOTRAC_LENT_PEER_VERIFIERS,
    MENHOTRAC_LENT_OUR_PROVERS,
    MENHOTRAC_LENT_COUNT,
    MENHOTRAC_LENT_WRITTEN = MENHOTRAC_LENT_CALL
};

typedef struct menhotrac_memory {
    const void *start;
    size_t size;
} menhotrac_memory;

static inline menhotrac_memory menhotrac_memory_of(const void *start, size_t count, size_t element)
{
    menhotrac_memory memory;

    memory.start = start;
    memory.size = count <= SIZE_MAX / element ? count * element : SIZE_MAX;
    return memory;
}

static inline menhotrac_memory menhotrac_memory_of_list(const menhotrac_list *list)
{
    return menhotrac_memory_of(list->suites, list->len, sizeof *list->suites);
}

/*
 * Where a call is NULL, nothing of it is lent. What the step writes is not const here: a compiler
 * would take a host's actions for read before they are set.
 */
static inline void menhotrac_lend(menhotrac_memory *lent, menhotrac_connection *connection,
                                  const menhotrac_call *call, uint8_t *cache, size_t cache_len,
                                  menhotrac_actions *actions)
{
    const menhotrac_call nothing = MENHOTRAC_ZERO;
    const menhotrac_call *given = call != NULL ? call : &nothing;

    lent[MENHOTRAC_LENT_ACTIONS] = menhotrac_memory_of(actions, 1, sizeof *actions);
    lent[MENHOTRAC_LENT_CONNECTION] = menhotrac_memory_of(connection, 1, sizeof *connection);
    lent[MENHOTRAC_LENT_CACHE] = menhotrac_memory_of(cache, cache_len, 1);
    lent[MENHOTRAC_LENT_CALL] = menhotrac_memory_of(call, 1, sizeof *call);
    lent[MENHOTRAC_LENT_PAYLOAD] = menhotrac_memory_of(given->payload, given->payload_len, 1);
    lent[MENHOTRAC_LENT_OUR_VERIFIERS] = menhotrac_memory_of_list(&given->our_verifiers);
    lent[MENHOTRAC_LENT_PEER_PROVERS] = menhotrac_memory_of_list(&given->peer_provers);
    lent[MENHOTRAC_LENT_PEER_VERIFIERS] = menhotrac_memory_of_list(&given->peer_verifiers);
    lent[MENHOTRAC_LENT_OUR_PROVERS] = menhotrac_memory_of_list(&given->our_provers);
}

/* By differences of addresses, since a sum may exceed the largest address. */
static inline int menhotrac_overlap(menhotrac_memory a, menhotrac_memory b)
{
    uintptr_t at = (uintptr_t)a.start;
    uintptr_t bt = (uintptr_t)b.start;

    if (a.start == NULL || b.start == NULL || a.size == 0 || b.size == 0)
        return 0;
    return at <= bt ? bt - at < a.size : at - bt < b.size;
}

/* Whether one of the memories lent overlaps another of them. */
static inline int menhotrac_overlaps(const menhotrac_memory *lent, size_t count, size_t one)
{
    size_t i;

    for (i = 0; i < count; i++) {
        if (i != one && menhotrac_overlap(lent[one], lent[i]))
            return 1;
    }
    return 0;
}

/* The refusal of what is lent, 0 for none. The first `written` memories are written. */
static inline uint32_t menhotrac_lent_refusal(const menhotrac_memory *lent, size_t count,
                                              size_t written)
{
    size_t i;

    for (i = 0; i < count; i++) {
        if (lent[i].start == NULL && lent[i].size != 0)
            return MENHOTRAC_REFUSED_NULL;
    }
    for (i = 0; i < written; i++) {
        if (menhotrac_overlaps(lent, count, i))
            return MENHOTRAC_REFUSED_OVERLAP;
    }
    return MENHOTRAC_HANDLED;
}

/* Sets the actions of a call so refused to 0, unless they are NULL or overlap. */
static inline void menhotrac_order_nothing(const menhotrac_memory *lent, menhotrac_actions *actions)
{
    const menhotrac_actions none = MENHOTRAC_ZERO;

    if (actions != NULL
        && !menhotrac_overlaps(lent, MENHOTRAC_LENT_COUNT, MENHOTRAC_LENT_ACTIONS))
        *actions = none;
}

/*
 * menhotrac_step with its pointers tested. It refuses with 42 a record, call or actions that are
 * NULL and a NULL slice whose length is not 0, and with 43 a record, actions or cache that overlap
 * anything else lent, the call included. Record and cache are then not written, and the actions
 * are set to 0 unless they are NULL or overlap.
 */
static inline uint32_t menhotrac_call_step(menhotrac_connection *connection,
                                           const menhotrac_call *call,
                                           uint8_t *cache, size_t cache_len,
                                           menhotrac_actions *actions)
{
    menhotrac_memory lent[MENHOTRAC_LENT_COUNT];
    uint32_t refusal;

    menhotrac_lend(lent, connection, call, cache, cache_len, actions);
    refusal = menhotrac_lent_refusal(lent, MENHOTRAC_LENT_COUNT, MENHOTRAC_LENT_WRITTEN);
    if (refusal == MENHOTRAC_HANDLED)
        return menhotrac_step(connection, call->event, call->payload, call->payload_len,
                              cache, cache_len, actions,
                              call->our_verifiers.suites, call->our_verifiers.len,
                              call->peer_provers.suites, call->peer_provers.len,
                              call->peer_verifiers.suites, call->peer_verifiers.len,
                              call->our_provers.suites, call->our_provers.len);
    menhotrac_order_nothing(lent, actions);
    return refusal;
}

/* ---- Messages, with the pointers tested ---- */

/* What menhotrac_call_read tests: first what is written. */
enum menhotrac_read_lent {
    MENHOTRAC_READ_LENT_PROVERS,
    MENHOTRAC_READ_LENT_VERIFIERS,
    MENHOTRAC_READ_LENT_BYTES,
    MENHOTRAC_READ_LENT_COUNT,
    MENHOTRAC_READ_LENT_WRITTEN = MENHOTRAC_READ_LENT_BYTES
};

/*
 * menhotrac_read with its pointers tested. It refuses with 42 a list that is NULL and NULL bytes
 * whose length is not 0, and with 43 a list that overlaps the other or the bytes. The lists are
 * then not written.
 */
static inline menhotrac_message menhotrac_call_read(const uint8_t *bytes, size_t bytes_len,
                                                    uint32_t provers[MENHOTRAC_MAX_SUITES],
                                                    uint32_t verifiers[MENHOTRAC_MAX_SUITES])
{
    menhotrac_message refused = MENHOTRAC_ZERO;
    menhotrac_memory lent[MENHOTRAC_READ_LENT_COUNT];

    lent[MENHOTRAC_READ_LENT_PROVERS] =
        menhotrac_memory_of(provers, MENHOTRAC_MAX_SUITES, sizeof *provers);
    lent[MENHOTRAC_READ_LENT_VERIFIERS] =
        menhotrac_memory_of(verifiers, MENHOTRAC_MAX_SUITES, sizeof *verifiers);
    lent[MENHOTRAC_READ_LENT_BYTES] = menhotrac_memory_of(bytes, bytes_len, 1);
    refused.refusal = menhotrac_lent_refusal(lent, MENHOTRAC_READ_LENT_COUNT,
                                             MENHOTRAC_READ_LENT_WRITTEN);
    if (refused.refusal == MENHOTRAC_HANDLED)
        return menhotrac_read(bytes, bytes_len, provers, verifiers);
    return refused;
}

/*
 * The bytes of a message with what is lent with them. Initialise it, with MENHOTRAC_ZERO or by
 * naming fields: a token that is left out is one that the host does not accept.
 */
typedef struct menhotrac_arrival {
    const uint8_t *bytes;
    size_t bytes_len;
    menhotrac_token token;
    menhotrac_list our_verifiers;
    menhotrac_list our_provers;
} menhotrac_arrival;

/*
 * As menhotrac_lend, with the arrival in the place of the call and its bytes in that of the
 * payload. No list of the peer is lent.
 */
static inline void menhotrac_lend_arrival(menhotrac_memory *lent, menhotrac_connection *connection,
                                          const menhotrac_arrival *arrival, uint8_t *cache,
                                          size_t cache_len, menhotrac_actions *actions)
{
    menhotrac_call call = MENHOTRAC_ZERO;

    if (arrival != NULL) {
        call.payload = arrival->bytes;
        call.payload_len = arrival->bytes_len;
        call.our_verifiers = arrival->our_verifiers;
        call.our_provers = arrival->our_provers;
    }
    menhotrac_lend(lent, connection, &call, cache, cache_len, actions);
    lent[MENHOTRAC_LENT_CALL] = menhotrac_memory_of(arrival, 1, sizeof *arrival);
}

/*
 * menhotrac_receive with its pointers tested: refusals 42 and 43 as those of menhotrac_call_step,
 * with the arrival in the place of the call. The receipt's place is then 0.
 */
static inline menhotrac_receipt menhotrac_call_receive(menhotrac_connection *connection,
                                                       const menhotrac_arrival *arrival,
                                                       uint8_t *cache, size_t cache_len,
                                                       menhotrac_actions *actions)
{
    menhotrac_receipt refused = MENHOTRAC_ZERO;
    menhotrac_memory lent[MENHOTRAC_LENT_COUNT];

    menhotrac_lend_arrival(lent, connection, arrival, cache, cache_len, actions);
    refused.answer = menhotrac_lent_refusal(lent, MENHOTRAC_LENT_COUNT, MENHOTRAC_LENT_WRITTEN);
    if (refused.answer == MENHOTRAC_HANDLED)
        return menhotrac_receive(connection, arrival->bytes, arrival->bytes_len, arrival->token,
                                 cache, cache_len, actions,
                                 arrival->our_verifiers.suites, arrival->our_verifiers.len,
                                 arrival->our_provers.suites, arrival->our_provers.len);
    menhotrac_order_nothing(lent, actions);
    return refused;
}

/* ---- Answers and parts ---- */

/* Whether an answer is a refusal. */
static inline int menhotrac_refused(uint32_t answer)
{
    return answer != MENHOTRAC_HANDLED && answer != MENHOTRAC_IGNORED;
}

/*
 * The payload part that actions name: where it starts, and in `len` its length. It lies in the
 * payload lent to the step or in the cache as the step left it, and is no copy. A slice shorter
 * than the actions say gives an empty part. Where the length is 0, the pointer may be NULL. After
 * menhotrac_receive pass bytes + place and bytes_len - place as the payload.
 */
static inline const uint8_t *menhotrac_part(const menhotrac_actions *actions,
                                            const uint8_t *payload, size_t payload_len,
                                            const uint8_t *cache, size_t cache_len, size_t *len)
{
    int of_cache = actions->payload_slice == MENHOTRAC_SLICE_CACHE;
    int of_event = actions->payload_slice == MENHOTRAC_SLICE_EVENT;
    size_t slice_len = of_cache ? cache_len : of_event ? payload_len : 0;

    *len = actions->payload_len <= slice_len ? actions->payload_len : 0;
    return of_cache ? cache : payload;
}

/* ---- Names for logs ---- */

static inline const char *menhotrac_name(const char *const *names, size_t count, uint32_t number)
{
    return number < count ? names[number] : "unknown";
}

static inline const char *menhotrac_state_name(uint32_t state)
{
    static const char *const names[] = {
        "CLOSED_UNLOCKED", "WAIT_FOR_HELLO", "WAIT_FOR_RA", "WAIT_FOR_RA_PROVER",
        "WAIT_FOR_RA_VERIFIER", "WAIT_FOR_DAT_AND_RA", "WAIT_FOR_DAT_AND_RA_VERIFIER",
        "ESTABLISHED", "WAIT_FOR_ACK", "CLOSED_LOCKED"
    };

    return menhotrac_name(names, sizeof names / sizeof *names, state);
}

static inline const char *menhotrac_message_name(uint32_t message)
{
    static const char *const names[] = {
        "none", "HELLO", "CLOSE", "DAT_EXPIRED", "DAT", "RE_RA", "RA_PROVER", "RA_VERIFIER",
        "DATA", "ACK"
    };

    return menhotrac_name(names, sizeof names / sizeof *names, message);
}

static inline const char *menhotrac_answer_name(uint32_t answer)
{
    static const char *const step[] = {
        "handled", "unknown event code", "unknown handshake timer", "wrong bit",
        "payload too long", "cache too short", "suite list too long", "record not well formed",
        "number of handled events exhausted", "margin too large"
    };
    static const char *const reader[] = {
        "message ends too soon", "unexpected field", "wrong wire type", "number too large",
        "too many suites"
    };
    static const char *const host[] = {"wrong verdict", "NULL lent", "written memory overlaps"};

    if (answer == MENHOTRAC_IGNORED)
        return "ignored";
    if (answer >= MENHOTRAC_REFUSED_WRONG_VERDICT)
        return menhotrac_name(host, sizeof host / sizeof *host,
                              answer - MENHOTRAC_REFUSED_WRONG_VERDICT);
    if (answer >= MENHOTRAC_REFUSED_ENDS_TOO_SOON)
        return menhotrac_name(reader, sizeof reader / sizeof *reader,
                              answer - MENHOTRAC_REFUSED_ENDS_TOO_SOON);
    return menhotrac_name(step, sizeof step / sizeof *step, answer);
}

#ifdef __cplusplus
}
#endif

#endif
