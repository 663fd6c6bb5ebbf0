/*
 * Replays a trace on libntp5.a: what a firmware's test bench starts from. A trace holds a client's calls as they were once made, a
 * record for each, and the bench steps through it in memory, one record a call. include/ntp5.h has the form of a record.
 *
 * usage: replay TRACE [ID]
 *
 * Prints a line for each record. After the last one it asks of each association that is still open whether its server follows the
 * controller with this ID, which is 30 hexadecimal digits; without it the ID is that of examples/rack.trace's controller.
 * Ends with 0 if the whole trace was replayed, with 1 if a record is wrong or the file can't be read, and with 2 for wrong usage.
 */
#include <string.h>

#include "controller.h"

enum {
    PIECE = 65536,      /* octets that are read from the file at a time */
    FILTER_OFFSET = 84, /* where a poll of edition 7 says from which octet on it asks for the filter: two octets */
    DIGITS = 2 * NTP5_ID_OCTETS
};

typedef struct {
    uint8_t *octets;
    size_t length;
} trace;

/* Room for one piece more. */
static bool grow(trace *t)
{
    uint8_t *larger = realloc(t->octets, t->length + PIECE);
    if (larger == NULL)
        return false;
    t->octets = larger;
    return true;
}

/* Reads a file whole: ntp5_replay looks at the trace where it lies and keeps nothing of it. Where that fails, the reason is told. */
static bool read_trace(const char *name, trace *t)
{
    bool whole = false;
    FILE *file = fopen(name, "rb");
    if (file != NULL) {
        size_t piece = PIECE;
        while (piece == PIECE && grow(t)) {
            piece = fread(t->octets + t->length, 1, PIECE, file);
            t->length += piece;
        }
        whole = feof(file) != 0;
    }
    if (!whole)
        perror(name);
    if (file != NULL)
        fclose(file);
    return whole;
}

static bool read_id(const char *digits, uint8_t *id)
{
    if (strlen(digits) != DIGITS || strspn(digits, "0123456789abcdefABCDEF") != DIGITS)
        return false;
    for (size_t i = 0; i < NTP5_ID_OCTETS; i++) {
        char octet[] = {digits[2 * i], digits[2 * i + 1], '\0'};
        id[i] = (uint8_t)strtoul(octet, NULL, 16);
    }
    return true;
}

/*
 * What a record's call gave. `out` has the request that a poll wrote, and here a bench would look for what its own unit sends. In
 * edition 1 a request is the header alone and asks for no filter.
 */
static void tell(size_t number, const ntp5_replayed *r, const uint8_t *out)
{
    static const char *const kinds[] = {"?", "open", "poll", "sent", "receive", "close"};
    printf("%zu %s, association %u: refusal %u", number, kinds[r->kind], r->association, r->refusal);
    if (r->refusal == NTP5_OK && r->kind == NTP5_KIND_POLL && r->length > NTP5_HEADER_OCTETS)
        printf(", filter offset %u", (unsigned)out[FILTER_OFFSET] << 8 | out[FILTER_OFFSET + 1]);
    if (r->refusal == NTP5_OK && r->kind == NTP5_KIND_RECEIVE)
        printf(", judgement %u, chunk %u", r->judgement, r->chunk);
    printf("\n");
}

/*
 * Makes the calls of a trace on a cleared table, from the first record on, and tells each. A call that is refused is part of the
 * trace, and the replay goes on. A wrong record ends it: where the record after it begins is not known. Whether there was none.
 */
static bool replay(const trace *t, uint64_t *table)
{
    static const char *const faults[] = {"", "", "wrong mark", "wrong kind", "wrong data length", "cut"};
    uint8_t out[NTP5_DATAGRAM_AT_MOST]; /* room for any request */
    size_t size = ntp5_table_words(), number = 1;
    EXPECT(size <= TABLE);
    ACCEPTED(ntp5_clear(table, size));
    ntp5_replayed r = ntp5_replay(table, size, t->octets, t->length, 0, out, sizeof out);
    while (r.state == NTP5_TRACE_CALL) {
        tell(number, &r, out);
        r = ntp5_replay(table, size, t->octets, t->length, r.next, out, sizeof out);
        number++;
    }
    if (r.state != NTP5_TRACE_END)
        printf("record %zu: %s\n", number, faults[r.state]);
    return r.state == NTP5_TRACE_END;
}

/* The verdicts at the trace's end. A closed association has none: it is refused with 7. */
static void tell_verdicts(const uint64_t *table, const uint8_t *id)
{
    for (uint8_t association = 0; association < NTP5_ASSOCIATIONS; association++) {
        ntp5_verdict v = ntp5_loop_verdict(table, ntp5_table_words(), association, id, NTP5_ID_OCTETS);
        if (v.refusal == NTP5_BAD_STATE)
            continue;
        ACCEPTED(v.refusal);
        printf("association %u: %s\n", association, verdict_word(v.verdict));
    }
}

int main(int count, char **words)
{
    static uint64_t table[TABLE];
    uint8_t id[NTP5_ID_OCTETS] = {0x01, 0x02, 0x03, 0x04, 0x05, 0x06, 0x07, 0x08, 0x09, 0x0A, 0x0B, 0x0C, 0x0D, 0x0E, 0x0F};
    trace t = {NULL, 0};
    if (count < 2 || count > 3 || (count == 3 && !read_id(words[2], id))) {
        fprintf(stderr, "usage: replay TRACE [ID]    an ID is %d hexadecimal digits\n", DIGITS);
        return 2;
    }
    bool whole = read_trace(words[1], &t) && replay(&t, table);
    if (whole)
        tell_verdicts(table, id);
    free(t.octets);
    return whole ? 0 : 1;
}
