/*
 * An NTPv5 time unit (draft-mlichvar-ntp-ntpv5-07, and -01 beside it) for a main loop in C: a client of up to sixteen servers, a
 * responder with interleaved mode, and reference-ID filters that show when a controller follows its own clock. Link with libntp5.a.
 *
 * TARGET: x86-64 Linux, the one target of the Rattle kit's compiler. The proofs are of the source, and the kit's prover also
 * runs on Arm; an archive for another processor needs the kit's back end for it. What linker and caller meet:
 *   - it needs memcpy, memmove and memset and nothing else; it is position-independent and has no data that are written;
 *   - it uses the SSE registers and the red zone below the stack pointer: call it neither from an interrupt handler that
 *     does not save the SSE registers nor on a stack whose red zone something else writes to, as a kernel's;
 *   - it has no unwind tables: a debugger or an exception does not get past a call; none of its calls throws or longjmps;
 *   - a call takes at most 12 KiB of stack (docs/PERFORMANCE.md has each call's).
 *
 * The library keeps nothing between calls, allocates nothing and calls nothing of the caller's. All state lies in buffers
 * that the caller owns and lends for the time of one call: a pointer and the number of octets behind it, or, for a table, of
 * 64-bit numbers.
 *
 * What the caller answers for, in every call:
 *   - a pointer points to as many octets as its length says, a table's to as many 64-bit numbers, aligned as uint64_t is;
 *     NULL is allowed with length 0 only;
 *   - the buffers of one call do not overlap;
 *   - a buffer that a call writes is in no other call at that time (there are no locks).
 * Any contents of a buffer are safe: what is wrong is refused.
 *
 * A refusal is a number from 1 to 13. It changes no buffer, and the other numbers of the answer are 0 (ntp5_replay still says
 * which record it was); that is proved of every call (docs/CLAIMS.md, "Refusals"), as is that the number is one of those that
 * its comment below names. Where several apply, the first in this order is given:
 *   6, 7, 1, 2, 3, then 4 and 5 field by field, 13, 9, 10, 8, 11, 12.
 * docs/RULES.md has every rule of the calls, numbered.
 *
 * EDITIONS. Two editions of the draft are spoken: 7, that of March 2023 (draft-mlichvar-ntp-ntpv5-07), and 1, that of December
 * 2020 (draft-mlichvar-ntp-ntpv5-01). Opening an association, answering a request, and reading and writing a header name one; any
 * other number is refused with 6. A table may hold associations of both. A datagram does not say its edition: the caller knows
 * it of each server and of each client. In edition 1
 *   - the header has a timescale offset, four bits each for timescale and stratum and eight for the flags; flag 0x4 says
 *     interleaved, in edition 7 it is 0x2;
 *   - a poll is the header alone, and every field is unknown: none of a response is used, none of a request is answered;
 *   - so no filter comes. A loop through such a server is not seen: its loop verdict stays incomplete, and publishing it is
 *     refused with 7. Time is measured as in edition 7. Whether it may be followed is the caller's decision.
 *
 * COOKIES ARE NEVER USED TWICE. The caller draws every client cookie and every server cookie at random and never gives one
 * a second time. The library refuses only the repeats that it can see, and with an older cookie given again a late
 * duplicate of an old datagram can pass as an answer.
 *
 * Timestamps have 32 fraction bits and are taken modulo 2^64; 0 means unknown. Root delay and dispersion have 28.
 */
#ifndef NTP5_H
#define NTP5_H

#include <stdbool.h>
#include <stddef.h>
#include <stdint.h>

/*
 * The interface's version. The first number changes where a caller has to change, the second where something was added; the
 * README lists what changed.
 */
#define NTP5_VERSION_MAJOR 4
#define NTP5_VERSION_MINOR 1
#define NTP5_VERSION_PATCH 0
#define NTP5_VERSION "4.1.0"

#ifdef __cplusplus
extern "C" {
#endif

/* Refusal numbers. */
enum {
    NTP5_OK = 0,
    NTP5_BAD_LENGTH = 1,      /* a datagram's length is not 48 to 1280 or not a multiple of 4 */
    NTP5_BAD_VERSION = 2,     /* the version is not 5 */
    NTP5_BAD_MODE = 3,        /* the mode is not the one wanted */
    NTP5_BAD_FIELD = 4,       /* a field's length is below 4, or its end lies past the datagram */
    NTP5_BAD_PADDING = 5,     /* an octet after a field, up to the next multiple of 4, is not 0 */
    NTP5_BAD_ARGUMENT = 6,    /* an argument, or a number kept in a table or store, is out of range, or a size is wrong */
    NTP5_BAD_STATE = 7,       /* not open, or open already; no send to report; a selected filter not complete */
    NTP5_BAD_COOKIE = 8,      /* a cookie is 0 or was used before */
    NTP5_NOT_ASKED = 9,       /* nothing is outstanding, or the client cookie is another one */
    NTP5_NOT_INTERLEAVED = 10,/* an interleaved response to a request that sent no server cookie */
    NTP5_NO_ROOM = 11,        /* the output is shorter than what is to be written */
    NTP5_NOT_STORED = 12,     /* the server cookie is not in the store, or its time was reported already */
    NTP5_AFTER_MAC = 13       /* a field stands after the first MAC (type 0xF502); a MAC may only be the last field */
};

/*
 * Judgements of an accepted response, the first that applies, and of a measurement: 0 or 5. Only a usable one has an offset and
 * a delay; else both are 0.
 */
enum {
    NTP5_USABLE = 0,
    NTP5_UNSYNCHRONIZED = 1,  /* its leap is 3 */
    NTP5_BAD_STRATUM = 2,     /* its stratum is not 1 to 15 */
    NTP5_OTHER_TIMESCALE = 3, /* its timescale (if interleaved, also that of the response before) is not the association's */
    NTP5_TIME_UNKNOWN = 4,    /* a timestamp that the measurement needs is 0 */
    NTP5_HALF_ERA = 5         /* T2 - T1, T3 - T4, T4 - T1 or T3 - T2 is 2^31 s, half an era: it has no sign */
};

/* What became of an accepted response's filter chunk. */
enum {
    NTP5_CHUNK_TAKEN = 1,
    NTP5_CHUNK_ABSENT = 2,    /* no filter response, or edition 1: measured, the filter stays as it was */
    NTP5_CHUNK_OTHER_SIZE = 3 /* not the size that was asked: measured, the filter stays as it was */
};

/* Loop verdicts. */
enum {
    NTP5_VERDICT_INCOMPLETE = 1, /* some filter octets were not received since opening, in edition 1 none: nothing can be said */
    NTP5_VERDICT_LOOP = 2,       /* all ten positions of the ID are set: the server follows that ID */
    NTP5_VERDICT_CLEAR = 3       /* not all are set, as of the last pass: see ntp5_loop_verdict on its age */
};

/* What stood at a place of a trace. From 2 on it is what is wrong with the record there. */
enum {
    NTP5_TRACE_END = 0,
    NTP5_TRACE_CALL = 1,       /* a record, and its call was made; the call may have been refused */
    NTP5_TRACE_BAD_MARK = 2,   /* it does not begin with 0x4E 0x35 */
    NTP5_TRACE_BAD_KIND = 3,   /* its kind is not 1 to 5, or a poll's mode is not 0 or 1 */
    NTP5_TRACE_BAD_LENGTH = 4, /* its data length is not that of its kind */
    NTP5_TRACE_CUT = 5         /* the trace ends within it */
};

/* Kinds of a trace's records. */
enum {
    NTP5_KIND_OPEN = 1,
    NTP5_KIND_POLL = 2,
    NTP5_KIND_SENT = 3,
    NTP5_KIND_RECEIVE = 4,
    NTP5_KIND_CLOSE = 5
};

/* Modes, associations and sizes in octets. */
enum {
    NTP5_REQUEST = 3,
    NTP5_RESPONSE = 4,
    NTP5_ASSOCIATIONS = 16,
    NTP5_TABLE_AT_MOST = 16384, /* octets: uint64_t table[NTP5_TABLE_AT_MOST / sizeof(uint64_t)] has room for any version's */
    NTP5_STORE_RECORD = 16,     /* a store is 1 to 64 of these */
    NTP5_HEADER_OCTETS = 48,
    NTP5_DATAGRAM_AT_MOST = 1280,
    NTP5_FILTER_OCTETS = 512,
    NTP5_ID_OCTETS = 15,
    NTP5_INFORMATION_OCTETS = 4,
    NTP5_TRACE_HEAD = 14        /* a trace's record without its data */
};

/* How many octets were written to the start of the output. */
typedef struct {
    uint8_t refusal;
    uint16_t length;
} ntp5_written;

/* offset: by how much the server's clock is ahead; delay: the time spent on the way. Both with 32 fraction bits. */
typedef struct {
    uint8_t refusal;
    uint8_t judgement;
    uint8_t chunk;
    int64_t offset;
    uint64_t delay;
} ntp5_received;

/* Offset and delay as above, of four timestamps: judgement 0, or 5 and zeros. */
typedef struct {
    uint8_t judgement;
    int64_t offset;
    uint64_t delay;
} ntp5_measurement;

typedef struct {
    uint8_t refusal;
    uint8_t verdict;
} ntp5_verdict;

/* How many of a filter's 4096 positions are set. */
typedef struct {
    uint8_t refusal;
    uint16_t weight;
} ntp5_weight;

/*
 * What a server says of its clock, and a header's fields; the version is not among them: it is always 5. Edition 1 has room for
 * a timescale and a stratum up to 15 and for flags up to 255, and writing more is refused with 6.
 *   flags               0x1 unknown leap; interleaved is 0x4 in edition 1 and 0x2 in edition 7; other bits are kept
 *   timescale_offset    only edition 1 sends it; in edition 7 it is read as 0 and not looked at when writing. What it means is the
 *                       timescale's: in 0 (UTC) and 1 (TAI) TAI - UTC in seconds; in 2 (UT1) UT1 - UTC, and in 3 (leap-smeared
 *                       UTC) the offset between the smeared time and UTC, both in units of 2^-15 s; -32768, that is 0x8000, if
 *                       it is unknown. The library passes it on and measures without it.
 */
typedef struct {
    uint8_t leap, stratum;
    int8_t poll, precision;
    uint8_t timescale, era;
    int16_t timescale_offset;
    uint16_t flags;
    uint32_t root_delay, root_dispersion;
} ntp5_server;

typedef struct {
    uint8_t leap, mode, stratum;
    int8_t poll, precision;
    uint8_t timescale, era;
    int16_t timescale_offset;
    uint16_t flags;
    uint32_t root_delay, root_dispersion;
    uint64_t server_cookie, client_cookie, receive, transmit;
} ntp5_header;

typedef struct {
    uint8_t refusal;
    ntp5_header header;
} ntp5_read;

/*
 * What stood at a place of a trace, and what the record's call gave: `refusal` for every kind, `length` of a poll, and
 * `judgement`, `chunk`, `offset` and `delay` of a receive, each as that call gives it; 0 where the kind has no such number.
 * Where no call was made, everything but `state` and `next` is 0.
 */
typedef struct {
    uint8_t state; /* 0 the end, 1 a call was made, 2 wrong mark, 3 wrong kind, 4 wrong data length, 5 cut */
    uint8_t kind, association;
    size_t next; /* where the next record begins; if no call was made, `at` */
    uint8_t refusal, judgement, chunk;
    uint16_t length;
    int64_t offset;
    uint64_t delay;
} ntp5_replayed;

/*
 * THE CLIENT TABLE
 *
 * Sixteen associations, one for each server, in one table of exactly ntp5_table_words() numbers of 64 bits. The caller owns
 * it, clears it before anything else, and then leaves its numbers to these calls. It is declared as uint64_t, since octets
 * that are cast may not be aligned, and `table_len` counts numbers, not octets. The caller names the association, 0 to 15, on
 * every call, and for a received datagram finds it by the datagram's source address.
 *
 * Every call refuses with 6 a table of another size, an association above 15, and an association whose numbers in the table
 * are out of range, which can come about only if something else wrote there; clearing checks the size alone.
 */

/* The size of a table in 64-bit numbers, as `table_len` counts them: the same at every call; in this version 1296, 10368 octets. */
size_t ntp5_table_words(void);

/* Closes all sixteen associations. Refuses: 6. */
uint8_t ntp5_clear(uint64_t *table, size_t table_len);

/*
 * Opens an association for a server of this edition, 1 or 7, and this timescale, with an empty filter that will be asked for in
 * chunks of 16, 32, 64, 128, 256 or 512 octets. In edition 1 none is asked for, and one of these sizes is named all the same.
 * Refuses: 6 (also another edition, in edition 1 a timescale above 15, and another chunk size), 7 if it is open already.
 */
uint8_t ntp5_open(uint64_t *table, size_t table_len, uint8_t association, uint8_t edition, uint8_t timescale, uint16_t chunk);

/* Closes an association and forgets all of it. Refuses: 6, 7 if it is not open. */
uint8_t ntp5_close(uint64_t *table, size_t table_len, uint8_t association);

/*
 * Writes the next request to `out`: in edition 7 84 octets and the chunk size, in edition 1 48. It becomes the outstanding
 * request, and an older one is dropped: its answer will be refused with 9. `client_cookie` is one never used before, `poll` the
 * poll exponent that is sent, `interleaved` whether an interleaved answer is wanted.
 * A poll that replaces a request without an answer counts it as missed; an accepted response and opening set the count back.
 * With four or more missed, server cookie 0 is sent though an interleaved answer is wanted: the server answers in basic mode
 * with a fresh cookie, and the poll after that answer asks for an interleaved one again. The count, at most 8, is in no
 * answer: it shows in the server cookie of the request, octets 16 to 23.
 * Refuses: 6, 7 if not open, 8 for cookie 0 or that of the last request, 11.
 */
ntp5_written ntp5_poll(uint64_t *table, size_t table_len, uint8_t association, uint64_t client_cookie, int8_t poll,
                       bool interleaved, uint8_t *out, size_t out_len);

/*
 * Reports T1, the time at which the outstanding request left, once and before its answer is received.
 * Refuses: 6 (also T1 of 0), 7 if not open, if nothing is outstanding or if T1 was reported already.
 */
uint8_t ntp5_sent(uint64_t *table, size_t table_len, uint8_t association, uint64_t t1);

/*
 * Takes a datagram that came from the association's server at T4, and reads it in the association's edition. `datagram` is only
 * read. If it is accepted, the request is used up, so that a second copy is refused with 9; the filter chunk is taken, whatever
 * the judgement (in edition 1 it is always absent), and the exchange is measured if it is usable. AN INTERLEAVED RESPONSE
 * MEASURES THE EXCHANGE BEFORE IT: what the clock was corrected by since then is not in its offset; and after a step of the clock
 * poll without interleaved until a response was accepted.
 * A buffer to receive into has room for more than NTP5_DATAGRAM_AT_MOST octets, so that a longer
 * datagram is refused and not cut to a right length; the same holds for ntp5_answer.
 * Refuses: 6 (also T4 of 0), 7 if not open, 1 to 5, 13, 9 if it does not answer the outstanding request, 10.
 */
ntp5_received ntp5_receive(uint64_t *table, size_t table_len, uint8_t association, const uint8_t *datagram,
                           size_t datagram_len, uint64_t t4);

/*
 * Whether the association's server follows, itself or through others, the controller with this ID of 15 octets: ask it with
 * the own ID. A filter can say loop for an ID that was never added, but never clear for one that was. Of a server of edition 1
 * nothing can be said: incomplete. Only reads.
 *
 * A VERDICT HAS AN AGE. A filter comes in chunks of c octets, 512/c of them in a pass, and once complete it stays complete:
 * each chunk is as it was served when it was last taken. A server that begins to follow this ID is still "clear" until the
 * chunks with the ID's positions have been asked again, up to 512/c taken chunks later, and one that no longer does is still
 * "loop" until the first of them comes again. So:
 *   - after a change of sources, here or there, a clear counts once 512/c chunks that were polled after it were taken;
 *   - c is chosen at opening by how fast a loop must be seen: 512/c polls of 84 + c octets, from 32 polls of 100 octets with
 *     c = 16 to one of 596 with c = 512;
 *   - the verdict is asked again after every taken chunk, not once; where none comes any more it stays as it is and grows old.
 * Refuses: 6 (also an ID of another size), 7 if not open.
 */
ntp5_verdict ntp5_loop_verdict(const uint64_t *table, size_t table_len, uint8_t association, const uint8_t *id,
                               size_t id_len);

/*
 * Writes the filter that this controller serves to its own clients, 512 octets: the union of the filters of the associations
 * whose bit 2^association is set in `selected` (those that the clock follows) and the own ID. With nothing selected it is the
 * own ID alone. Only `out` changes; the answer's length is 512.
 * What is written has the age of the selected filters (see ntp5_loop_verdict), and the clients that are served from it see no
 * more than it holds: publish again after every taken chunk of a selected association and at every change of the selection.
 * In a loop through several controllers each one adds up to a pass of its own, and the time until it publishes again.
 * Refuses: 6 (also an ID of another size), 7 if a selected one is not open or its filter is not complete, as one of edition 1
 * never is, 11.
 */
ntp5_written ntp5_publish(const uint64_t *table, size_t table_len, uint16_t selected, const uint8_t *id, size_t id_len,
                          uint8_t *out, size_t out_len);

/*
 * TRACES
 *
 * A trace is any number of records, one after the other with nothing between them: calls on a client table in the order in
 * which they were made. The caller owns it, and it is only read. A record is 14 octets and its data, in network order:
 *   mark            2 octets, 0x4E 0x35
 *   kind            1 octet: 1 open, 2 poll, 3 sent, 4 receive, 5 close
 *   association     1 octet; one above 15 is a call like another, and is refused with 6
 *   data length     2 octets: 4 for open, 10 for poll, 0 for sent and close, any for receive
 *   time            8 octets: T1 for sent, T4 for receive; not looked at in the others
 *   data            open: edition and timescale, 1 octet each, chunk size, 2
 *                   poll: client cookie, 8 octets, poll exponent, signed, and mode, 1 octet each; mode 0 is basic, 1 interleaved
 *                   receive: the datagram
 */

/*
 * Makes the call of the record that begins `at` octets into the trace: it does to `table` and `out` what the call itself does,
 * and gives what that gives, with state 1. `out` is lent to a poll as it is: 1280 octets are room for any; a record of another
 * kind leaves it as it was. A replay begins on a cleared table with `at` 0, and the answer's `next` is the next call's `at`.
 * It is over at state 0, the end, which is any `at` from `trace_len` on, and at a wrong record, states 2 to 5: no call is made,
 * nothing changes, and what follows in the trace has no meaning. Where a record has several faults, the first of these is told:
 * fewer than 14 octets are left (5), mark (2), kind (3), data length (4), data past the trace's end (5), a poll's mode (3).
 * Refuses what the record's call refuses, also with 6 at every record for a table of another size. A refused call is a call
 * that was made: state, kind, association and next are told, the numbers after `refusal` are 0, and the replay goes on.
 */
ntp5_replayed ntp5_replay(uint64_t *table, size_t table_len, const uint8_t *trace, size_t trace_len, size_t at,
                          uint8_t *out, size_t out_len);

/*
 * THE RESPONDER
 *
 * A store keeps the transmit times of past answers for interleaved mode: 1 to 64 records of 16 octets. The caller owns it,
 * clears it before anything else, and then leaves its octets to these calls. Every call refuses with 6 a store of another
 * size and, but for clearing, one with a gap, a used cookie 0 or a cookie held twice.
 */

/* Empties the store. Refuses: 6. */
uint8_t ntp5_store_clear(uint8_t *store, size_t store_len);

/*
 * Reports the time at which the answer that carried this server cookie left. It is sent in one later interleaved answer.
 * Refuses: 6 (also a time of 0), 12 if the cookie is not in the store (it may have left a full one) or has its time.
 */
uint8_t ntp5_report(uint8_t *store, size_t store_len, uint64_t server_cookie, uint64_t time);

/*
 * Writes the answer to a request to `out`: as many octets as the request has. Only `store` and `out` change.
 *   edition         of the draft, 1 or 7, in which the request is read and the answer written: that of the client
 *   receive_time    when the request came
 *   estimate        when the answer will leave, as well as that is known
 *   fresh_cookie    a server cookie never used before; looked at only if the request wants an interleaved answer, and
 *                   then the answer carries it and ntp5_report is called with it once the answer has left
 *   server          what the server says of its clock; the edition's flag for interleaved is set by the call and not taken from
 *                   `server.flags`, and `server.timescale_offset` is sent in edition 1 only
 *   filter          what ntp5_publish wrote, 512 octets, also in edition 1, which sends none of it
 *   information     the data of the server information field, 4 octets, also in edition 1: version 5 alone is 00 10 00 00
 * An answer is interleaved if the request wants that and its server cookie is in the store with a reported time; that record
 * then leaves the store, so that a saved time is sent once only. In edition 1 the answer is the header and, if the request has
 * fields, one padding field in their place.
 * Refuses: 6 (also another edition, a leap above 3, in edition 1 a timescale or stratum above 15 or flags above 255, a filter or
 * information of another size, a time of 0), 1 to 5, 13, 8 if a fresh cookie is needed and is 0 or in the store, 11.
 */
ntp5_written ntp5_answer(uint8_t *store, size_t store_len, uint8_t edition, const uint8_t *request, size_t request_len,
                         uint64_t receive_time, uint64_t estimate, uint64_t fresh_cookie, ntp5_server server,
                         const uint8_t *filter, size_t filter_len, const uint8_t *information, size_t information_len,
                         uint8_t *out, size_t out_len);

/*
 * SINGLE DATAGRAMS
 */

/*
 * Reads the header of a datagram in this edition, 1 or 7; the fields after it are not looked at. In a refusal all is 0.
 * Refuses: 6 for another edition, 1, 2, 3.
 */
ntp5_read ntp5_header_read(uint8_t edition, const uint8_t *datagram, size_t datagram_len, uint8_t wanted_mode);

/*
 * Writes a header in this edition, 1 or 7, to the first 48 octets of `out`. Refuses: 6 for another edition, a leap above 3, a mode
 * other than 3 and 4, in edition 1 also a timescale or stratum above 15 or flags above 255; 11.
 */
uint8_t ntp5_header_write(uint8_t edition, ntp5_header header, uint8_t *out, size_t out_len);

/* Whether a datagram's header and fields are sound, in either edition. A MAC is not verified. Only reads. Refuses: 1 to 5, 13. */
uint8_t ntp5_sound(const uint8_t *datagram, size_t datagram_len, uint8_t wanted_mode);

/*
 * FILTERS
 *
 * 512 octets that the caller owns; a fresh one is zeros. Each call refuses with 6 a filter or an ID of another size, and
 * has no other refusal.
 */

/* Adds an ID of 15 octets. Only `filter` changes. */
uint8_t ntp5_filter_add(uint8_t *filter, size_t filter_len, const uint8_t *id, size_t id_len);

/* Adds to `into` what is set in `other`. */
uint8_t ntp5_filter_union(uint8_t *into, size_t into_len, const uint8_t *other, size_t other_len);

ntp5_weight ntp5_filter_weight(const uint8_t *filter, size_t filter_len);

/*
 * MEASUREMENT
 *
 * T1: the request left the client, T2: it came to the server, T3: the answer left the server, T4: it came to the client. The
 * four differences are the right ones across an era's end, as long as the clocks are less than 2^31 s (68 years) apart. Where
 * one of the four is exactly 2^31 s, half an era, it has no sign: the judgement is 5, and offset and delay are 0.
 * Any numbers are taken, 0 too, and nothing is refused.
 *
 * offset: by how much the server's clock is ahead, ((T2 - T1) + (T3 - T4)) / 2, rounded toward minus infinity; from
 * -(2^63 - 1) to 2^63 - 1. delay: the time spent on the way, the size of (T4 - T1) - (T3 - T2); at most 2^64 - 2.
 */
ntp5_measurement ntp5_measure(uint64_t t1, uint64_t t2, uint64_t t3, uint64_t t4);

#ifdef __cplusplus
}
#endif

#endif
