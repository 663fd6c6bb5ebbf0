/*
 * What udp.c has from the operating system, here Linux: clocks, random numbers, and UDP datagrams with their time of arrival. A
 * controller's firmware has its own in its place.
 */
#ifndef SYSTEM_H
#define SYSTEM_H

#include <arpa/inet.h>
#include <errno.h>
#include <netinet/in.h>
#include <string.h>
#include <sys/random.h>
#include <sys/socket.h>
#include <time.h>

#include "controller.h"

#define SYSTEM(what) ((what) ? (void)0 : stop(__FILE__, __LINE__, strerror(errno), #what)) /* a system call that has to succeed */
#define SECONDS_1900_TO_1970 INT64_C(2208988800)

typedef struct {
    /*
     * Room for one octet more than the longest datagram has. One that is longer then has a wrong length and is refused; without
     * that octet it would be cut to a right length.
     */
    uint8_t octets[NTP5_DATAGRAM_AT_MOST + 1];
    size_t length;
    struct sockaddr_in sender;
    struct timespec came;
    bool kernel_time; /* `came` is the kernel's; else the clock was read after receiving */
} datagram;

static inline struct timespec clock_at(clockid_t clock)
{
    struct timespec t;
    SYSTEM(clock_gettime(clock, &t) == 0);
    return t;
}

/* For waiting: milliseconds of a clock that nobody sets. */
static inline int64_t milliseconds(void)
{
    struct timespec t = clock_at(CLOCK_MONOTONIC);
    return (int64_t)t.tv_sec * 1000 + t.tv_nsec / 1000000;
}

/* Seconds since 1900 and 32 fraction bits. The shift drops what is above 2^32 seconds, the era. */
static inline uint64_t timestamp(struct timespec t)
{
    return (uint64_t)(t.tv_sec + SECONDS_1900_TO_1970) << 32 | ((uint64_t)t.tv_nsec << 32) / 1000000000;
}

static inline uint8_t era_of(struct timespec t)
{
    return (uint8_t)((t.tv_sec + SECONDS_1900_TO_1970) >> 32);
}

/* After boot this waits until the kernel's generator has its seed. */
static inline void draw(void *octets, size_t size)
{
    SYSTEM(getrandom(octets, size, 0) == (ssize_t)size);
}

/* A cookie is never used twice: 64 random bits do not come again in a controller's life. 0 is none. */
static inline uint64_t new_cookie(void)
{
    uint64_t cookie = 0;
    while (cookie == 0)
        draw(&cookie, sizeof cookie);
    return cookie;
}

/* A socket on loopback, on a port that the system chooses. */
static inline int open_socket(struct sockaddr_in *address)
{
    int opened = socket(AF_INET, SOCK_DGRAM, 0);
    socklen_t size = sizeof *address;
    SYSTEM(opened >= 0);
    *address = (struct sockaddr_in){.sin_family = AF_INET, .sin_addr.s_addr = htonl(INADDR_LOOPBACK)};
    SYSTEM(bind(opened, (struct sockaddr *)address, sizeof *address) == 0);
    SYSTEM(getsockname(opened, (struct sockaddr *)address, &size) == 0);
#ifdef SO_TIMESTAMPNS
    /* Asks for the kernel's receive times. Where that is refused they do not come, and `take` sees it. */
    (void)setsockopt(opened, SOL_SOCKET, SO_TIMESTAMPNS, &(int){1}, sizeof(int));
#endif
    return opened;
}

static inline void send_to(int from, const uint8_t *octets, size_t length, const struct sockaddr_in *to)
{
    SYSTEM(sendto(from, octets, length, 0, (const struct sockaddr *)to, sizeof *to) == (ssize_t)length);
}

/* The kernel's time of arrival, if the message has one. */
static inline bool kernel_time(struct msghdr *message, struct timespec *came)
{
#ifdef SO_TIMESTAMPNS
    for (struct cmsghdr *c = CMSG_FIRSTHDR(message); c != NULL; c = CMSG_NXTHDR(message, c))
        if (c->cmsg_level == SOL_SOCKET && c->cmsg_type == SO_TIMESTAMPNS) {
            memcpy(came, CMSG_DATA(c), sizeof *came);
            return true;
        }
#endif
    return false;
}

/* Takes one datagram from a socket, if there is one. It never waits. */
static inline bool take(int from, datagram *d)
{
    _Alignas(struct cmsghdr) char control[CMSG_SPACE(sizeof d->came)];
    struct iovec into = {d->octets, sizeof d->octets};
    struct msghdr message = {.msg_name = &d->sender,
                             .msg_namelen = sizeof d->sender,
                             .msg_iov = &into,
                             .msg_iovlen = 1,
                             .msg_control = control,
                             .msg_controllen = sizeof control};
    ssize_t length = recvmsg(from, &message, MSG_DONTWAIT);
    if (length < 0) {
        SYSTEM(errno == EAGAIN || errno == EINTR);
        return false;
    }
    d->came = clock_at(CLOCK_REALTIME);
    d->kernel_time = kernel_time(&message, &d->came);
    d->length = (size_t)length;
    return true;
}

#endif
