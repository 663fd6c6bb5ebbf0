/*
 * How much stack each call of the library takes, its arguments and return address included, and whether that is within a limit. A
 * signal handler makes the call on a painted stack of its own, where nothing else writes below the handler; the octets whose paint
 * is gone are counted, less those of a handler that calls nothing.
 *
 * Each call is tried on several inputs, in both editions, and the deepest counts. Prints `call octets limit input`, and ends with 1
 * if a call is above its limit or far below it, or if it was refused otherwise than its input asks: then it has not gone where it
 * should.
 */
#define _XOPEN_SOURCE 700
#include <signal.h>

#include "stack_inputs.h"

enum {
    STACK = 1 << 18,
    PAINT = 0xA5,
    PROMISED = 12 * 1024, /* the stack that the README asks of a caller */
    SMALL = 64            /* the limit of a call that takes next to nothing */
};

static unsigned char stack[STACK];

/* A limit is about a fifth above what the call takes; docs/PERFORMANCE.md has both. */
static const struct row {
    const char *name;
    void (*call)(void);
    const char *(*input)(size_t n);
    size_t limit;
} rows[] = {
    {"ntp5_table_words", call_table_words, any, SMALL},
    {"ntp5_clear", call_clear, any, SMALL},
    {"ntp5_open", call_open, closed, 1080},
    {"ntp5_close", call_close, opened, 1080},
    {"ntp5_poll", call_poll, opened, 1190},
    {"ntp5_sent", call_sent, polled, 1080},
    {"ntp5_receive", call_receive, responses, 1370},
    {"ntp5_loop_verdict", call_loop_verdict, complete_filter, 440},
    {"ntp5_publish", call_publish, complete, 1560},
    {"ntp5_replay", call_replay, recorded, 1640},
    {"ntp5_store_clear", call_store_clear, any, SMALL},
    {"ntp5_report", call_report, stored, 80},
    {"ntp5_answer", call_answer, answerable, 480},
    {"ntp5_header_read", call_header_read, header_alone, 200},
    {"ntp5_header_write", call_header_write, any, 290},
    {"ntp5_sound", call_sound, requests, SMALL},
    {"ntp5_filter_add", call_filter_add, any, 92},
    {"ntp5_filter_union", call_filter_union, any, SMALL},
    {"ntp5_filter_weight", call_filter_weight, any, SMALL},
    {"ntp5_measure", call_measure, any, SMALL},
};

static void nothing(void) { }

static void (*handled)(void); /* the call that the handler makes */

static void handle(int number)
{
    (void)number;
    handled();
}

/* The octets of the painted stack that a handler with this call writes to. */
static size_t written(void (*call)(void))
{
    size_t clean = 0;
    memset(stack, PAINT, sizeof stack);
    handled = call;
    raise(SIGUSR1);
    while (clean < sizeof stack && stack[clean] == PAINT)
        clean++;
    return sizeof stack - clean;
}

/* The deepest of a call's inputs so far. */
struct depth {
    size_t octets;
    uint8_t edition;
    const char *input;
};

/* Looks at a call's inputs in `edition`. Whether it was refused otherwise than one of them asks. */
static bool go_deeper(const struct row *r, struct depth *most)
{
    size_t none = written(nothing);
    for (size_t n = 0;; n++) {
        expected = NTP5_OK;
        const char *name = r->input(n);
        if (name == NULL)
            return false;
        size_t octets = written(r->call) - none;
        if (refusal != expected) {
            printf("stack: %s, %s: refused with %u, and not with %u\n", r->name, name, refusal, expected);
            return true;
        }
        if (octets > most->octets)
            *most = (struct depth){octets, edition, name};
    }
}

/* The deepest that a call goes; 0 octets if it was refused otherwise than an input asks. */
static struct depth deepest(const struct row *r)
{
    static const uint8_t editions[] = {7, 1};
    struct depth most = {0, 0, ""};
    for (size_t i = 0; i < sizeof editions; i++) {
        edition = editions[i];
        if (go_deeper(r, &most))
            return (struct depth){0, edition, ""};
    }
    return most;
}

/* What is wrong with a call that takes so many octets, or with its limit; NULL if nothing is. */
static const char *fault(size_t octets, size_t limit)
{
    if (octets == 0)
        return "was not looked at";
    if (octets > limit)
        return "is above its limit";
    if (octets < limit / 2 && limit > SMALL)
        return "is far below its limit: that is too high, or the inputs no longer go deep";
    return limit > PROMISED ? "has a limit above what the README promises" : NULL;
}

int main(void)
{
    stack_t own = {.ss_sp = stack, .ss_size = sizeof stack};
    struct sigaction action = {.sa_handler = handle, .sa_flags = SA_ONSTACK};
    size_t calls = sizeof rows / sizeof rows[0], most = 0;
    bool wrong = false;
    size = ntp5_table_words();
    if (sigaltstack(&own, NULL) != 0 || sigaction(SIGUSR1, &action, NULL) != 0) {
        printf("stack: no stack of its own for a signal handler\n");
        return 1;
    }
    for (size_t i = 0; i < calls; i++) {
        struct depth d = deepest(&rows[i]);
        printf("%-18s %6zu %6zu  %s%s\n", rows[i].name, d.octets, rows[i].limit, d.edition == 1 ? "edition 1, " : "", d.input);
        const char *why = fault(d.octets, rows[i].limit);
        if (why != NULL) {
            printf("stack: %s %s\n", rows[i].name, why);
            wrong = true;
        }
        most = d.octets > most ? d.octets : most;
    }
    if (!wrong)
        printf("stack: %zu calls, the deepest %zu octets, each below its limit\n", calls, most);
    return wrong;
}
