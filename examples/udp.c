/*
 * Two controllers, left and right, over UDP sockets on loopback: two processes, each a client and a responder in one main loop.
 * main_loop.c is the same without sockets.
 *
 * Each polls the other until five answers were interleaved. Then each takes the other as its source. The verdicts stay clear
 * until the new filters have come, chunk by chunk, and then each finds the loop. On the way each gets a datagram from a stranger,
 * one that is cut short, and one that comes twice.
 *
 * Prints what happens, and ends with 1 at the first thing that is not as expected, or after 20 seconds.
 */
#define _DEFAULT_SOURCE /* for SO_TIMESTAMPNS */
#include <poll.h>
#include <sys/wait.h>
#include <unistd.h>

#include "system.h"

enum {
    EXCHANGES = 5,        /* interleaved ones, in each direction, at least */
    ANSWER_WITHIN = 1000, /* ms; after that a datagram counts as lost */
    END_WITHIN = 20000    /* ms, for all */
};
#define MS 4294967.296    /* a millisecond of a timestamp */
#define NEAR (50 * MS)    /* both processes read the same clock, so that offset and delay are small */

typedef struct {
    controller own;
    int asking, serving;              /* sockets: the client's, the responder's */
    int pair;                         /* a socket to the other process, see meet */
    struct sockaddr_in address;       /* where this one serves */
    struct sockaddr_in source;        /* where the other serves: association SOURCE's address */
    bool answered;                    /* the last request was */
    unsigned taken, interleaved;      /* answers accepted, and those of them that were interleaved */
    ntp5_received best;               /* the interleaved one with the least delay */
    unsigned given;                   /* answers to others */
    unsigned strange, cut, late;      /* datagrams from a stranger, cut short, and that no request waits for */
    unsigned kernel_times, all_times; /* times of arrival: the kernel's, and all */
    unsigned met, other_met;          /* points that this process and the other have come to, see meet */
} endpoint;

static int64_t deadline;

/* A datagram from one of the own sockets. */
static bool take_own(endpoint *e, int from, datagram *d)
{
    if (!take(from, d))
        return false;
    e->all_times++;
    e->kernel_times += d->kernel_time;
    return true;
}

/* Faults of a network, played: the answer's octets from another address, and an answer that lost its end. */
static void send_bad_copies(int from, const uint8_t *octets, size_t length, const struct sockaddr_in *to)
{
    struct sockaddr_in address;
    int stranger = open_socket(&address);
    send_to(stranger, octets, length, to);
    SYSTEM(close(stranger) == 0);
    send_to(from, octets, length - 4, to);
}

/* The responder's part: a request came, and its answer goes back. To the first answer the network's faults are added. */
static void serve(endpoint *e)
{
    datagram d;
    uint8_t out[NTP5_DATAGRAM_AT_MOST];
    if (!take_own(e, e->serving, &d))
        return;
    uint64_t fresh = new_cookie();
    ntp5_written w = answer(&e->own, d.octets, d.length, timestamp(d.came), timestamp(clock_at(CLOCK_REALTIME)), era_of(d.came),
                            fresh, out, sizeof out);
    if (w.refusal != NTP5_OK) {
        printf("%s: refuses a request of %zu octets: %u\n", e->own.name, d.length, w.refusal);
        return;
    }
    bool first = e->given++ == 0;
    if (first)
        send_bad_copies(e->serving, out, w.length, &d.sender);
    /* Read before sending: on loopback the datagram arrives within that call, and a time read after it would be too late. */
    uint64_t sent = timestamp(clock_at(CLOCK_REALTIME));
    send_to(e->serving, out, w.length, &d.sender);
    uint8_t refusal = ntp5_report(e->own.store, sizeof e->own.store, fresh, sent);
    /* 12 says that the request wanted no interleaved answer, so that no later one needs the time. */
    if (refusal != NTP5_NOT_STORED)
        ACCEPTED(refusal);
    if (first)
        send_to(e->serving, out, w.length, &d.sender);
}

/* An answer was accepted. A process that had to wait makes the delay longer: the answer with the least delay is the best. */
static void note(endpoint *e, ntp5_received r, bool interleaved)
{
    EXPECT(r.judgement == NTP5_USABLE);
    EXPECT(r.chunk == NTP5_CHUNK_TAKEN);
    e->answered = true;
    e->taken++;
    if (interleaved) {
        if (e->interleaved == 0 || r.delay < e->best.delay)
            e->best = r;
        e->interleaved++;
    }
    printf("%s: answer %u, %s: %s is ahead by %.3f ms, delay %.3f ms\n", e->own.name, e->taken,
           interleaved ? "interleaved" : "basic", e->own.other, (double)r.offset / MS, (double)r.delay / MS);
    chunk_taken(&e->own);
}

/* The client's part: a datagram came. Its sender's address says which association it is for; a client of more has a list. */
static void hear(endpoint *e)
{
    datagram d;
    if (!take_own(e, e->asking, &d))
        return;
    if (d.sender.sin_addr.s_addr != e->source.sin_addr.s_addr || d.sender.sin_port != e->source.sin_port) {
        e->strange++;
        printf("%s: drops %zu octets from a stranger, port %u\n", e->own.name, d.length, ntohs(d.sender.sin_port));
        return;
    }
    ntp5_received r = ntp5_receive(e->own.table, ntp5_table_words(), SOURCE, d.octets, d.length, timestamp(d.came));
    if (r.refusal != NTP5_OK) {
        bool late = r.refusal == NTP5_NOT_ASKED;
        e->late += late;
        e->cut += r.refusal == NTP5_BAD_FIELD;
        printf("%s: refuses %zu octets from %s: %u, %s\n", e->own.name, d.length, e->own.other, r.refusal,
               late ? "no request waits for them" : "and the request still waits");
        return;
    }
    ntp5_read reading = ntp5_header_read(EDITION, d.octets, d.length, NTP5_RESPONSE);
    ACCEPTED(reading.refusal);
    note(e, r, (reading.header.flags & INTERLEAVED) != 0);
}

/* One turn of the main loop: waits for what comes next, until `until` at most, and deals with it. */
static void turn(endpoint *e, int64_t until)
{
    struct pollfd on[] = {{e->asking, POLLIN, 0}, {e->serving, POLLIN, 0}, {e->pair, POLLIN, 0}};
    int64_t rest = until - milliseconds();
    SYSTEM(poll(on, 3, rest > 0 ? (int)rest : 0) >= 0 || errno == EINTR);
    EXPECT(milliseconds() < deadline);
    if (on[0].revents != 0)
        hear(e);
    if (on[1].revents != 0)
        serve(e);
    if (on[2].revents != 0) {
        bool other_process_is_there = recv(e->pair, &(char){0}, 1, 0) == 1;
        EXPECT(other_process_is_there);
        e->other_met++;
    }
}

/* One exchange. What was lost is asked for again, with a new cookie. A real client lets 2^6 s pass from poll to poll. */
static void ask(endpoint *e)
{
    uint8_t out[NTP5_DATAGRAM_AT_MOST];
    e->answered = false;
    while (!e->answered) {
        ntp5_written w = ntp5_poll(e->own.table, ntp5_table_words(), SOURCE, new_cookie(), 6, true, out, sizeof out);
        ACCEPTED(w.refusal);
        uint64_t t1 = timestamp(clock_at(CLOCK_REALTIME));
        send_to(e->asking, out, w.length, &e->source);
        ACCEPTED(ntp5_sent(e->own.table, ntp5_table_words(), SOURCE, t1));
        int64_t until = milliseconds() + ANSWER_WITHIN;
        while (!e->answered && milliseconds() < until)
            turn(e, until);
    }
}

/*
 * Serves until the other process has come to the same point. A rack has no such signal. It is here so that each process knows when
 * the other began to follow it: the verdict says that only later.
 */
static void meet(endpoint *e)
{
    e->met++;
    SYSTEM(send(e->pair, "", 1, MSG_NOSIGNAL) == 1);
    while (e->other_met < e->met)
        turn(e, deadline);
}

/* The first answer is basic. Each later one is interleaved: it carries the time at which the one before it left. */
static void measure(endpoint *e)
{
    while (e->interleaved < EXCHANGES || e->taken < PASS)
        ask(e);
    printf("%s: %u of %u times of arrival are the kernel's, the others were read after receiving\n", e->own.name,
           e->kernel_times, e->all_times);
    EXPECT((double)e->best.delay < NEAR);
    EXPECT((double)e->best.offset < NEAR && (double)e->best.offset > -NEAR);
    EXPECT(e->strange >= 1 && e->cut >= 1 && e->late >= 1);
}

/* All that one process does. */
static void run(endpoint *e)
{
    draw(e->own.id, sizeof e->own.id);
    start(&e->own);
    measure(e);
    EXPECT(look_for_loop(&e->own) == NTP5_VERDICT_CLEAR);
    meet(e);
    follow(&e->own, 1u << SOURCE);
    meet(e);
    /*
     * The other follows us now, but all chunks that we have of its filter are older: still clear. The loop is seen once the chunks
     * with our ID's positions have come again, at the latest with the last poll of a full pass. main_loop.c says what that means
     * for a caller.
     */
    uint8_t verdict = look_for_loop(&e->own);
    EXPECT(verdict == NTP5_VERDICT_CLEAR);
    for (int i = 1; i <= PASS; i++) {
        ask(e);
        printf("%s: that was poll %d of %d since %s follows it\n", e->own.name, i, PASS, e->own.other);
        verdict = look_for_loop(&e->own);
    }
    EXPECT(verdict == NTP5_VERDICT_LOOP);
    meet(e); /* until then the other may ask */
}

static void open_sockets(endpoint *e, int pair)
{
    struct sockaddr_in any;
    e->asking = open_socket(&any);
    e->serving = open_socket(&e->address);
    e->pair = pair;
}

static void close_sockets(const endpoint *e)
{
    SYSTEM(close(e->asking) == 0 && close(e->serving) == 0 && close(e->pair) == 0);
}

int main(void)
{
    static endpoint left = {.own.name = "left", .own.other = "right", .own.edition = EDITION};
    static endpoint right = {.own.name = "right", .own.other = "left", .own.edition = EDITION};
    int pair[2], status;
    setvbuf(stdout, NULL, _IOLBF, 0); /* both processes print whole lines */
    deadline = milliseconds() + END_WITHIN;
    SYSTEM(socketpair(AF_UNIX, SOCK_STREAM, 0, pair) == 0);
    open_sockets(&left, pair[0]);
    open_sockets(&right, pair[1]);
    left.source = right.address;
    right.source = left.address;
    pid_t child = fork();
    SYSTEM(child >= 0);
    close_sockets(child == 0 ? &left : &right);
    run(child == 0 ? &right : &left);
    if (child == 0)
        return 0;
    SYSTEM(waitpid(child, &status, 0) == child);
    EXPECT(WIFEXITED(status) && WEXITSTATUS(status) == 0);
    printf("both found the loop\n");
    return 0;
}
