/*
 * What the examples have in common: the buffers that the controllers of main_loop.c and udp.c lend to the library, what they do at
 * start, as a server and about loops; and, for replay.c too, the checks, the size of a table and the verdicts in words. A check
 * that fails ends the process with 1 and a message that names the line.
 */
#ifndef CONTROLLER_H
#define CONTROLLER_H

#include <stdio.h>
#include <stdlib.h>

#include "ntp5.h"

enum {
    EDITION = 7,                       /* of the draft, that both controllers speak */
    INTERLEAVED = 0x2,                 /* the header's flag in that edition */
    TAI_UTC = 37,                      /* seconds; only edition 1 sends it */
    SOURCE = 0,                        /* the association for the other controller; a real client has up to sixteen */
    CHUNK = 128,                       /* filter octets in each answer */
    PASS = NTP5_FILTER_OCTETS / CHUNK, /* polls in which every chunk of the other's filter comes once */
    TABLE = NTP5_TABLE_AT_MOST / sizeof(uint64_t),
    STORE = 8 * NTP5_STORE_RECORD
};

typedef struct {
    const char *name;
    const char *other;                   /* the controller that it polls */
    uint8_t edition;                     /* of the draft, in which it serves */
    uint8_t id[NTP5_ID_OCTETS];          /* drawn at random once, at start */
    uint64_t table[TABLE];               /* as a client; only the first ntp5_table_words() numbers are lent */
    uint8_t store[STORE];                /* as a server: transmit times of its answers */
    uint8_t filter[NTP5_FILTER_OCTETS];  /* as a server: what it publishes of whom it follows */
    uint16_t selected;                   /* the associations that its clock follows, a bit for each */
} controller;

static inline _Noreturn void stop(const char *file, int line, const char *why, const char *what)
{
    printf("%s:%d: %s: %s\n", file, line, why, what);
    exit(1);
}

static inline void accepted(const char *file, int line, const char *what, unsigned refusal)
{
    char why[32];
    if (refusal == NTP5_OK)
        return;
    snprintf(why, sizeof why, "refused with %u", refusal);
    stop(file, line, why, what);
}

#define EXPECT(what) ((what) ? (void)0 : stop(__FILE__, __LINE__, "not as expected", #what))
#define ACCEPTED(refusal) accepted(__FILE__, __LINE__, #refusal, (refusal)) /* the refusal of a call that has to be accepted */

/* What the controller serves to its own clients from now on: the filters of the selected sources, and its own ID. */
static inline void publish(controller *c)
{
    ntp5_written w =
        ntp5_publish(c->table, ntp5_table_words(), c->selected, c->id, sizeof c->id, c->filter, sizeof c->filter);
    ACCEPTED(w.refusal);
    EXPECT(w.length == NTP5_FILTER_OCTETS);
    ntp5_weight set = ntp5_filter_weight(c->filter, sizeof c->filter);
    ACCEPTED(set.refusal);
    printf("%s: follows %s, its filter has %u positions set\n", c->name, c->selected == 0 ? "nobody" : c->other, set.weight);
}

/* The clock follows these associations from now on, and the controller's clients have to see it. */
static inline void follow(controller *c, uint16_t selected)
{
    c->selected = selected;
    publish(c);
}

/* A chunk of the source's filter was taken. Whoever is served by a clock that follows the source has to see that too. */
static inline void chunk_taken(controller *c)
{
    if (c->selected != 0)
        publish(c);
}

/* What a controller does at start: nothing is saved, its one source is open, and its filter has its own ID alone. */
static inline void start(controller *c)
{
    size_t size = ntp5_table_words();
    EXPECT(size <= TABLE);
    ACCEPTED(ntp5_clear(c->table, size));
    ACCEPTED(ntp5_store_clear(c->store, sizeof c->store));
    ACCEPTED(ntp5_open(c->table, size, SOURCE, EDITION, 0, CHUNK));
    follow(c, 0);
}

static inline const char *verdict_word(uint8_t verdict)
{
    static const char *const words[] = {"?", "incomplete", "loop", "clear"};
    return words[verdict];
}

/* Whether a server follows this controller, as far as the chunks say that have come. */
static inline uint8_t verdict_on(const controller *c, uint8_t association, const char *name)
{
    ntp5_verdict v = ntp5_loop_verdict(c->table, ntp5_table_words(), association, c->id, sizeof c->id);
    ACCEPTED(v.refusal);
    printf("%s: verdict on %s: %s\n", c->name, name, verdict_word(v.verdict));
    return v.verdict;
}

static inline uint8_t look_for_loop(const controller *c)
{
    return verdict_on(c, SOURCE, c->other);
}

/* The answer to a request that came at `came`, from a synchronized clock of stratum 2. */
static inline ntp5_written answer(controller *c, const uint8_t *request, size_t request_len, uint64_t came, uint64_t estimate,
                                  uint8_t era, uint64_t fresh, uint8_t *out, size_t out_len)
{
    static const uint8_t information[NTP5_INFORMATION_OCTETS] = {0x00, 0x10, 0x00, 0x00};
    ntp5_server server = {.stratum = 2, .poll = 6, .precision = -20, .era = era, .timescale_offset = TAI_UTC};
    return ntp5_answer(c->store, sizeof c->store, c->edition, request, request_len, came, estimate, fresh, server, c->filter,
                       sizeof c->filter, information, sizeof information, out, out_len);
}

#endif
