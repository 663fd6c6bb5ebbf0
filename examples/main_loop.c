/*
 * A main loop on libntp5.a with two simulated controllers, left and right, that poll each other. There are no sockets: a
 * datagram goes from one buffer to the other, and the clocks are numbers. udp.c is the same over sockets.
 *
 * First each controller follows nobody, so that both verdicts are clear. For a while answers are lost, and interleaved mode
 * comes back by itself. The left one polls a third too, "old", from a rack that speaks edition 1 of the draft: it gives the time,
 * but no filter. Then left and right take each other as their source and publish the filter that says so. Once the new filter
 * has gone round, each finds its own ID in the other's filter: a loop.
 *
 * Prints what happens, and ends with 1 at the first thing that is not as expected.
 */
#include "controller.h"

/* A millisecond of a timestamp, which has 32 fraction bits. */
#define MS UINT64_C(4294967)
#define INTERVAL (64000 * MS) /* from poll to poll, 2^6 s */

enum {
    OLD_EDITION = 1, /* of the draft, that of December 2020 */
    OLD = 1          /* the association for the server that speaks it */
};

typedef struct {
    controller own;
    uint8_t association; /* by which its clients know it */
    uint64_t ahead;      /* how far this clock is ahead of the true time, in timestamp units */
    uint64_t cookie;     /* the last cookie, see new_cookie */
} simulated;

/* The true time that the simulation has come to. Not 0, which would mean unknown. */
static uint64_t now = UINT64_C(0xE9000000) << 32;

static uint64_t clock_of(const simulated *s)
{
    return now + s->ahead;
}

/*
 * A cookie is never used twice, neither as a client cookie nor as a server cookie. A controller takes it from its random
 * number generator; here a count stands for it so that every run prints the same.
 */
static uint64_t new_cookie(simulated *s)
{
    s->cookie += UINT64_C(0x9E3779B97F4A7C15);
    return s->cookie;
}

/*
 * The server's part: a request came, its answer goes out. The time at which the answer really left is known only
 * afterwards. It is reported, and a later interleaved answer carries it in the place of an estimate.
 */
static size_t serve(simulated *server, const uint8_t *request, size_t request_len, uint8_t *out, size_t out_len)
{
    uint64_t came = clock_of(server);
    uint64_t fresh = new_cookie(server);
    ntp5_written w = answer(&server->own, request, request_len, came, came + MS / 2, 0, fresh, out, out_len);
    if (w.refusal != NTP5_OK) {
        printf("%s: refuses a request: %u\n", server->own.name, w.refusal);
        return 0;
    }
    now += MS; /* it took longer than was thought */
    ACCEPTED(ntp5_report(server->own.store, sizeof server->own.store, fresh, clock_of(server)));
    return w.length;
}

/* The client's part: a request goes out, and 1 ms later the server has it. In edition 1 it is the header alone. */
static size_t send_request(simulated *client, const simulated *server, uint8_t *request, size_t room)
{
    uint64_t *table = client->own.table;
    size_t size = ntp5_table_words();
    ntp5_written w = ntp5_poll(table, size, server->association, new_cookie(client), 6, true, request, room);
    ACCEPTED(w.refusal);
    EXPECT(w.length == (server->own.edition == OLD_EDITION ? NTP5_HEADER_OCTETS : 84 + CHUNK));
    ACCEPTED(ntp5_sent(table, size, server->association, clock_of(client)));
    now += MS;
    return w.length;
}

/* The client's part: the server's answer is here 1 ms after it left. In edition 1 no chunk comes with it. */
static ntp5_received take_answer(simulated *client, const simulated *server, const uint8_t *response, size_t response_len)
{
    uint64_t *table = client->own.table;
    size_t size = ntp5_table_words();
    uint8_t from = server->association;
    now += MS;
    ntp5_received r = ntp5_receive(table, size, from, response, response_len, clock_of(client));
    ACCEPTED(r.refusal);
    EXPECT(r.judgement == NTP5_USABLE);
    EXPECT(r.chunk == (server->own.edition == OLD_EDITION ? NTP5_CHUNK_ABSENT : NTP5_CHUNK_TAKEN));
    /* The network may deliver a datagram twice. The request is used up, so that the second copy is refused. */
    EXPECT(ntp5_receive(table, size, from, response, response_len, clock_of(client)).refusal == NTP5_NOT_ASKED);
    return r;
}

/* One exchange. */
static ntp5_received ask(simulated *client, simulated *server)
{
    uint8_t request[NTP5_DATAGRAM_AT_MOST];
    uint8_t response[NTP5_DATAGRAM_AT_MOST];
    size_t n = send_request(client, server, request, sizeof request);
    EXPECT(serve(server, request, n, response, sizeof response) == n);
    return take_answer(client, server, response, n);
}

/* Out and back take 1 ms each, and an interleaved measurement is exact. */
static bool exact(const simulated *client, const simulated *server, ntp5_received r)
{
    return r.offset == (int64_t)(server->ahead - client->ahead) && r.delay == 2 * MS;
}

/* What an answer says; and whoever this controller serves has to see its chunk. */
static void note(simulated *client, const simulated *server, ntp5_received r)
{
    printf("%s is ahead by %.3f ms, delay %.3f ms\n", server->own.name, (double)r.offset / (double)MS,
           (double)r.delay / (double)MS);
    chunk_taken(&client->own);
}

/*
 * Polls a full pass, until every chunk of the server's filter has come, and looks at the verdict after each poll: `before` as
 * long as one chunk is still to come, `after` with the last.
 */
static void ask_for_filter(simulated *client, simulated *server, uint8_t before, uint8_t after)
{
    for (int i = 1; i <= PASS; i++) {
        ntp5_received r = ask(client, server);
        EXPECT(i == 1 || exact(client, server, r)); /* from the second answer on they are interleaved */
        printf("%s: poll %d of %d: ", client->own.name, i, PASS);
        note(client, server, r);
        EXPECT(look_for_loop(&client->own) == (i < PASS ? before : after));
        now += INTERVAL;
    }
}

/* The server cookie of a request, which wants interleaved mode as each one here does. */
static uint64_t server_cookie(const uint8_t *request, size_t request_len)
{
    ntp5_read r = ntp5_header_read(EDITION, request, request_len, NTP5_REQUEST);
    ACCEPTED(r.refusal);
    EXPECT((r.header.flags & INTERLEAVED) != 0);
    return r.header.server_cookie;
}

/*
 * Answers are lost. A poll counts the request that it replaces as missed, and with four missed polls it no longer sends the
 * server cookie that the client has, which the server may have forgotten, but 0. The answer to that is basic and brings a new
 * one, and the exchange after it is interleaved again. The caller polls on and has nothing to do for it.
 */
static void lose_answers(simulated *client, simulated *server)
{
    uint8_t request[NTP5_DATAGRAM_AT_MOST];
    uint8_t response[NTP5_DATAGRAM_AT_MOST];
    size_t n;
    for (int i = 1; i <= 4; i++) {
        n = send_request(client, server, request, sizeof request);
        EXPECT(server_cookie(request, n) != 0);
        EXPECT(serve(server, request, n, response, sizeof response) == n);
        printf("%s: the answer to poll %d is lost\n", client->own.name, i);
        now += INTERVAL;
    }
    n = send_request(client, server, request, sizeof request);
    EXPECT(server_cookie(request, n) == 0);
    EXPECT(serve(server, request, n, response, sizeof response) == n);
    ntp5_received r = take_answer(client, server, response, n);
    EXPECT(!exact(client, server, r));
    printf("%s: poll 5, with server cookie 0: ", client->own.name);
    note(client, server, r);
    now += INTERVAL;
    r = ask(client, server);
    EXPECT(exact(client, server, r));
    printf("%s: poll 6, interleaved again: ", client->own.name);
    note(client, server, r);
    now += INTERVAL;
}

/*
 * A mixed rack: the client's table has a server of edition 1 beside that of edition 7. Its time is measured like any other's,
 * interleaved too. But no filter comes, so that nothing is known of whom it follows and nothing of it can be published: whether
 * to follow it all the same is the caller's decision. A loop is seen only through servers of edition 7. The timescale offset,
 * which that edition has, is read from the header.
 */
static void ask_old_rack(simulated *client, simulated *server)
{
    uint8_t request[NTP5_DATAGRAM_AT_MOST];
    uint8_t response[NTP5_DATAGRAM_AT_MOST];
    size_t size = ntp5_table_words();
    ACCEPTED(ntp5_open(client->own.table, size, OLD, OLD_EDITION, 0, CHUNK)); /* a chunk size is named, though none is asked for */
    for (int i = 1; i <= PASS; i++) {
        size_t n = send_request(client, server, request, sizeof request);
        EXPECT(serve(server, request, n, response, sizeof response) == n);
        ntp5_read reading = ntp5_header_read(OLD_EDITION, response, n, NTP5_RESPONSE);
        ACCEPTED(reading.refusal);
        EXPECT(reading.header.timescale_offset == TAI_UTC);
        ntp5_received r = take_answer(client, server, response, n);
        EXPECT(i == 1 || exact(client, server, r)); /* from the second answer on they are interleaved */
        printf("%s: poll %d in edition 1, no chunk, TAI - UTC is %d s: ", client->own.name, i, reading.header.timescale_offset);
        note(client, server, r);
        now += INTERVAL;
    }
    EXPECT(verdict_on(&client->own, OLD, server->own.name) == NTP5_VERDICT_INCOMPLETE);
    ntp5_written w = ntp5_publish(client->own.table, size, 1u << OLD, client->own.id, sizeof client->own.id, client->own.filter,
                                  sizeof client->own.filter);
    EXPECT(w.refusal == NTP5_BAD_STATE);
    printf("%s: a filter with %s in it is not published: %u\n", client->own.name, server->own.name, w.refusal);
}

static simulated left = {.own.name = "left",
                         .own.other = "right",
                         .own.edition = EDITION,
                         .association = SOURCE,
                         .own.id = {0x3A, 0x91, 0x07, 0xC4, 0x5E, 0xF2, 0x18, 0xB6, 0x6D, 0x80, 0x2B, 0xE5, 0x49, 0x73, 0xDA},
                         .ahead = 0,
                         .cookie = 1};
static simulated right = {.own.name = "right",
                          .own.other = "left",
                          .own.edition = EDITION,
                          .association = SOURCE,
                          .own.id = {0x84, 0x2F, 0xD9, 0x13, 0xA7, 0x60, 0xCB, 0x35, 0x9E, 0x51, 0xF8, 0x0C, 0xB2, 0x46, 0x7D},
                          .ahead = 5 * MS,
                          .cookie = 2};
static simulated old = {.own.name = "old",
                        .own.edition = OLD_EDITION,
                        .association = OLD,
                        .own.id = {0x1D, 0xC8, 0x52, 0xEE, 0x07, 0x93, 0x6A, 0xB1, 0x4F, 0x20, 0xD5, 0x78, 0x3C, 0x86, 0x09},
                        .ahead = 3 * MS,
                        .cookie = 3};

/* Before the whole filter has come nothing is known, and an incomplete filter is never published. */
static void ask_for_first_filters(void)
{
    EXPECT(look_for_loop(&left.own) == NTP5_VERDICT_INCOMPLETE);
    EXPECT(ntp5_publish(left.own.table, ntp5_table_words(), 1u << SOURCE, left.own.id, sizeof left.own.id, left.own.filter,
                        sizeof left.own.filter).refusal == NTP5_BAD_STATE);
    ask_for_filter(&left, &right, NTP5_VERDICT_INCOMPLETE, NTP5_VERDICT_CLEAR);
    ask_for_filter(&right, &left, NTP5_VERDICT_INCOMPLETE, NTP5_VERDICT_CLEAR);
}

int main(void)
{
    start(&left.own);
    start(&right.own);
    start(&old.own);
    ask_for_first_filters();
    lose_answers(&left, &right);
    ask_old_rack(&left, &old);

    /* Each believes that the other is a good source. */
    follow(&left.own, 1u << SOURCE);
    follow(&right.own, 1u << SOURCE);

    /*
     * A verdict has an age: it says what the server served during the last pass, chunk by chunk. Each follows the other now,
     * and both verdicts are still clear until the chunks that hold the own ID's positions have come again. These IDs have
     * positions in every chunk, so that the loop is seen with the last poll of the pass and not before. What a caller does
     * about it: after a change of sources it polls a full pass before it trusts a clear, and it chooses the chunk size by how
     * many polls a loop may stay unseen.
     */
    EXPECT(look_for_loop(&left.own) == NTP5_VERDICT_CLEAR);
    EXPECT(look_for_loop(&right.own) == NTP5_VERDICT_CLEAR);
    ask_for_filter(&left, &right, NTP5_VERDICT_CLEAR, NTP5_VERDICT_LOOP);
    ask_for_filter(&right, &left, NTP5_VERDICT_CLEAR, NTP5_VERDICT_LOOP);
    EXPECT(verdict_on(&left.own, OLD, old.own.name) == NTP5_VERDICT_INCOMPLETE);

    /* A source whose clock died may be half an era off, 2^31 s: is it ahead or behind? Such a measurement steers no clock. */
    uint64_t half_era = (uint64_t)1 << 63;
    EXPECT(ntp5_measure(MS, MS + half_era, MS + half_era, MS).judgement == NTP5_HALF_ERA);

    /*
     * What a controller does about a loop: it no longer follows that source, publishes without it, and goes on polling it. Here
     * the left one yields, and the right one sees it with the first new chunk, since one position of its ID that is not set is
     * enough. Later, when a verdict is clear again, a controller waits a random number of polls before it follows that source.
     */
    follow(&left.own, 0);
    EXPECT(look_for_loop(&right.own) == NTP5_VERDICT_LOOP);
    ask_for_filter(&right, &left, NTP5_VERDICT_CLEAR, NTP5_VERDICT_CLEAR);
    return 0;
}
