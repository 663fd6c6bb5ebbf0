/* The calls that tools/stack.c looks at, and the inputs that it tries them on. */
#ifndef STACK_INPUTS_H
#define STACK_INPUTS_H

#include "ntp5.h"
#include <stdio.h>
#include <stdlib.h>
#include <string.h>

enum { RECORDS = 64, WHOLE = 5 /* the input whose chunk is the whole filter */ };

static uint64_t table[NTP5_TABLE_AT_MOST / sizeof(uint64_t)];
static uint8_t store[RECORDS * NTP5_STORE_RECORD];
static uint8_t datagram[NTP5_DATAGRAM_AT_MOST], out[NTP5_DATAGRAM_AT_MOST];
static uint8_t record[NTP5_TRACE_HEAD + NTP5_DATAGRAM_AT_MOST]; /* a trace of one */
static uint8_t filter[NTP5_FILTER_OCTETS], other[NTP5_FILTER_OCTETS], id[NTP5_ID_OCTETS], information[NTP5_INFORMATION_OCTETS];
static size_t size;                  /* of the table, in numbers */
static size_t length, record_length; /* of the datagram and of the record, in octets */
static uint8_t edition = 7, association;
static uint16_t chunk, selected;
static uint64_t cookie;            /* the last one; the next is one more */
static unsigned refusal, expected; /* what the call answered, and what its input asks */

static void call_table_words(void) { refusal = ntp5_table_words() != size; }
static void call_clear(void) { refusal = ntp5_clear(table, size); }
static void call_open(void) { refusal = ntp5_open(table, size, association, edition, 0, chunk); }
static void call_close(void) { refusal = ntp5_close(table, size, association); }
static void call_sent(void) { refusal = ntp5_sent(table, size, association, 1); }
static void call_receive(void) { refusal = ntp5_receive(table, size, association, datagram, length, 9).refusal; }
static void call_loop_verdict(void) { refusal = ntp5_loop_verdict(table, size, association, id, sizeof id).refusal; }
static void call_publish(void) { refusal = ntp5_publish(table, size, selected, id, sizeof id, out, sizeof out).refusal; }
static void call_store_clear(void) { refusal = ntp5_store_clear(store, sizeof store); }
static void call_report(void) { refusal = ntp5_report(store, sizeof store, cookie, 7); }
static void call_header_read(void) { refusal = ntp5_header_read(edition, datagram, length, NTP5_REQUEST).refusal; }
static void call_sound(void) { refusal = ntp5_sound(datagram, length, NTP5_REQUEST); }
static void call_filter_add(void) { refusal = ntp5_filter_add(filter, sizeof filter, id, sizeof id); }
static void call_filter_union(void) { refusal = ntp5_filter_union(filter, sizeof filter, other, sizeof other); }
static void call_filter_weight(void) { refusal = ntp5_filter_weight(filter, sizeof filter).refusal; }
static void call_measure(void) { refusal = ntp5_measure(1, 2, 3, 4).judgement; }

static void call_poll(void)
{
    ntp5_written w = ntp5_poll(table, size, association, ++cookie, 6, true, datagram, sizeof datagram);
    length = w.length;
    refusal = w.refusal;
}

static void call_answer(void)
{
    ntp5_server server = {.stratum = 1, .poll = 6, .precision = -20};
    refusal = ntp5_answer(store, sizeof store, edition, datagram, length, 5, 6, ++cookie, server, filter, sizeof filter,
                          information, sizeof information, out, sizeof out).refusal;
}

/* A record that is wrong, which none is to be, has made no call: it counts as refused. */
static void call_replay(void)
{
    ntp5_replayed r = ntp5_replay(table, size, record, record_length, 0, out, sizeof out);
    refusal = r.state == NTP5_TRACE_CALL ? r.refusal : UINT8_MAX;
}

/* A request that wants an interleaved answer, and has the oldest cookie of a full store. */
static void call_header_write(void)
{
    ntp5_header h = {.mode = NTP5_REQUEST, .flags = edition == 1 ? 0x4 : 0x2, .server_cookie = cookie - RECORDS + 1};
    refusal = ntp5_header_write(edition, h, datagram, sizeof datagram);
}

/*
 * THE INPUTS. Each function makes its input number n, from 0 on, in `edition`, and gives the input's name, or NULL if there is
 * none.
 */

static void stop(const char *why, size_t number)
{
    printf("stack: an input is not made: %s %zu\n", why, number);
    exit(1);
}

/* A call that makes an input, and has to be accepted. */
static void make(void (*call)(void))
{
    call();
    if (refusal != NTP5_OK)
        stop("a call is refused with", refusal);
}

static const char *any(size_t n)
{
    return n == 0 ? "any" : NULL;
}

static const char *closed(size_t n)
{
    static const char *const names[] = {"chunks of 16 octets", "chunks of 32 octets", "chunks of 64 octets", "chunks of 128 octets",
                                        "chunks of 256 octets", "chunks of 512 octets"};
    if (n > WHOLE)
        return NULL;
    chunk = (uint16_t)(16u << n);
    association = 0;
    make(call_clear);
    return names[n];
}

static const char *opened(size_t n)
{
    const char *name = closed(n);
    if (name != NULL)
        make(call_open);
    return name;
}

static const char *polled(size_t n)
{
    const char *name = opened(n);
    if (name != NULL)
        make(call_poll);
    return name;
}

/* An exchange whose answer is not taken yet. */
static void make_response(void)
{
    make(call_poll);
    make(call_sent);
    make(call_answer);
    memcpy(datagram, out, length);
}

/* Sixteen associations whose filters are complete, as none is in edition 1. */
static const char *complete(size_t n)
{
    static const char *const names[] = {"none selected", "one selected", "all sixteen selected", NULL};
    if (edition == 1)
        return NULL;
    selected = n == 0 ? 0 : n == 1 ? 1 : 0xFFFF;
    closed(WHOLE);
    make(call_store_clear);
    for (association = 0; association < NTP5_ASSOCIATIONS; association++) {
        make(call_open);
        make_response();
        make(call_receive);
    }
    association = NTP5_ASSOCIATIONS - 1;
    return names[n];
}

static const char *complete_filter(size_t n)
{
    return n == 0 && complete(0) != NULL ? "a complete filter" : NULL;
}

/* The chains of fields: how many, and the kinds (see put) of the first, of those in the middle, and of the last two. */
static const struct {
    const char *name;
    size_t fields;
    char kinds[5];
    uint8_t refusal;
} chains[] = {
    {"308 fields", 308, "ffff", NTP5_OK},
    {"308 fields, the last a filter response", 308, "fffr", NTP5_OK},
    {"308 fields, the last a MAC", 308, "fffm", NTP5_OK},
    {"308 fields, one after a MAC", 308, "ffmf", NTP5_AFTER_MAC},
    {"308 fields, 307 after a MAC", 308, "mfff", NTP5_AFTER_MAC},
    {"308 fields, the last of length 3", 308, "fff3", NTP5_BAD_FIELD},
    {"307 fields, the last with wrong padding", 307, "fffx", NTP5_BAD_PADDING},
    {"307 fields, the last of length 5", 307, "fff5", NTP5_OK},
    {"307 fields, the last of length 6", 307, "fff6", NTP5_OK},
    {"307 fields, the last of length 7", 307, "fff7", NTP5_OK},
    {"154 fields of length 5", 154, "5555", NTP5_OK},
    {"154 fields of length 6", 154, "6666", NTP5_OK},
    {"154 fields of length 7", 154, "7777", NTP5_OK},
};
enum { CHAINS = sizeof chains / sizeof chains[0] };

/*
 * Puts a field at a place of the datagram and gives the place after it. f: without data, m: a MAC, r: a filter response, 5 to 7: of
 * that length, x: of length 5 with wrong padding, 3: of that length, which is wrong.
 */
static size_t put(size_t at, char kind)
{
    uint8_t type = kind == 'm' ? 2 : kind == 'r' ? 4 : 1;
    uint8_t n = kind == 'x' ? 5 : kind <= '7' ? (uint8_t)(kind - '0') : 4;
    uint8_t field[8] = {0xF5, type, 0, n, 0, 0, 0, kind == 'x'};
    size_t padded = n > 4 ? 8 : 4;
    memcpy(datagram + at, field, padded);
    return at + padded;
}

/* Chain number n after the header that is there: the longest datagram. */
static const char *make_chain(size_t n)
{
    size_t at = NTP5_HEADER_OCTETS, last = chains[n].fields - 1;
    for (size_t i = 0; i <= last; i++)
        at = put(at, chains[n].kinds[i == 0 ? 0 : i < last - 1 ? 1 : i < last ? 2 : 3]);
    if (at != sizeof datagram)
        stop("a chain ends at octet", at);
    length = at;
    expected = chains[n].refusal;
    return chains[n].name;
}

static const char *requests(size_t n)
{
    if (n >= CHAINS)
        return NULL;
    make(call_header_write);
    return make_chain(n);
}

static const char *header_alone(size_t n)
{
    make(call_header_write);
    length = NTP5_HEADER_OCTETS;
    return any(n);
}

/* A full store whose times are all reported, but for the newest. */
static const char *stored(size_t n)
{
    make(call_store_clear);
    header_alone(0);
    for (int i = 0; i < RECORDS; i++) {
        if (i > 0)
            make(call_report);
        make(call_answer);
    }
    return n == 0 ? "64 records" : NULL;
}

/* Requests that such a store has the time for; the last one is a poll. */
static const char *answerable(size_t n)
{
    stored(0);
    if (n < CHAINS)
        return requests(n);
    polled(WHOLE);
    return n == CHAINS ? "a poll" : NULL;
}

/* Responses to the outstanding request; the last two are the library's own, one of them interleaved. */
static const char *responses(size_t n)
{
    opened(WHOLE);
    make(call_store_clear);
    make_response();
    if (n < CHAINS)
        return make_chain(n);
    if (n == CHAINS)
        return "a basic answer";
    make(call_report);
    make(call_receive);
    make_response();
    return n == CHAINS + 1 ? "an interleaved answer" : NULL;
}

/* A record of this kind and data for association 0; its time is not 0, as sent and receive need it. */
static void make_record(uint8_t kind, const void *data, size_t data_length)
{
    uint8_t high = (uint8_t)(data_length >> 8), low = (uint8_t)data_length;
    uint8_t head[NTP5_TRACE_HEAD] = {0x4E, 0x35, kind, 0, high, low, [NTP5_TRACE_HEAD - 1] = 9};
    memcpy(record, head, sizeof head);
    memcpy(record + sizeof head, data, data_length);
    record_length = sizeof head + data_length;
}

/* The records of the other kinds. Each is made where its call is accepted. */
static const char *other_record(size_t n)
{
    const uint8_t opening[4] = {edition, 0, 2, 0}, polling[10] = {0xFF, 1, 2, 3, 4, 5, 6, 7, 6, 1};
    switch (n) {
    case 0:
        closed(WHOLE);
        make_record(NTP5_KIND_OPEN, opening, sizeof opening);
        return "an open";
    case 1:
        opened(WHOLE);
        make_record(NTP5_KIND_POLL, polling, sizeof polling);
        return "a poll";
    case 2:
        polled(WHOLE);
        make_record(NTP5_KIND_SENT, "", 0);
        return "a sent";
    case 3:
        opened(WHOLE);
        make_record(NTP5_KIND_CLOSE, "", 0);
        return "a close";
    default:
        return NULL;
    }
}

/* Receives of the responses above, and then the other records. */
static const char *recorded(size_t n)
{
    const char *name = responses(n);
    if (name == NULL)
        return other_record(n - CHAINS - 2);
    make_record(NTP5_KIND_RECEIVE, datagram, length);
    return name;
}

#endif
