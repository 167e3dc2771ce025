/* Clients for bench/connections.py: pingpong PORT CLIENTS SECONDS DEPTH SIZE REQUEST
 * Each client sends DEPTH requests, waits for DEPTH replies of SIZE bytes, and sends again. Prints the number of clients that were served, the
 * replies per second, the median and the 99th percentile of the time of a round in microseconds, and the number of replies. */
#include <arpa/inet.h>
#include <errno.h>
#include <netinet/tcp.h>
#include <stdio.h>
#include <stdlib.h>
#include <string.h>
#include <sys/epoll.h>
#include <sys/socket.h>
#include <time.h>
#include <unistd.h>

#define TIMES 4000000

struct client {
    int fd;
    size_t sent, received;
    double since;
    long rounds;
};

static double times[TIMES];
static char *request;
static size_t request_size, reply_size;

static double now(void)
{
    struct timespec t;
    clock_gettime(CLOCK_MONOTONIC, &t);
    return (double)t.tv_sec + (double)t.tv_nsec * 1e-9;
}

static int compare(const void *a, const void *b)
{
    double x = *(const double *)a, y = *(const double *)b;
    return (x > y) - (x < y);
}

/* Sends what the socket accepts. Returns 0 if the connection is broken. */
static int fill(struct client *c)
{
    while (c->sent < request_size) {
        ssize_t n = send(c->fd, request + c->sent, request_size - c->sent, MSG_NOSIGNAL | MSG_DONTWAIT);
        if (n < 0)
            return errno == EAGAIN;
        c->sent += (size_t)n;
    }
    return 1;
}

int main(int count, char **words)
{
    if (count != 7)
        return 2;
    int port = atoi(words[1]), clients = atoi(words[2]), depth = atoi(words[4]);
    double seconds = atof(words[3]), began, end;
    struct sockaddr_in at = {.sin_family = AF_INET, .sin_port = htons((unsigned short)port), .sin_addr.s_addr = htonl(INADDR_LOOPBACK)};
    struct client *all = calloc((size_t)clients, sizeof *all);
    struct epoll_event events[256];
    static char bytes[1 << 16];
    long replies = 0, taken = 0, served = 0;
    int loop = epoll_create1(0), one = 1;
    size_t single = strlen(words[6]);
    request_size = single * (size_t)depth;
    reply_size = (size_t)atol(words[5]) * (size_t)depth;
    request = malloc(request_size);
    for (int i = 0; i < depth; i++)
        memcpy(request + single * (size_t)i, words[6], single);
    for (int i = 0; i < clients; i++) {
        struct epoll_event wanted = {.events = EPOLLIN | EPOLLOUT | EPOLLET, .data.u32 = (unsigned)i};
        all[i].fd = socket(AF_INET, SOCK_STREAM, 0);
        if (connect(all[i].fd, (struct sockaddr *)&at, sizeof at)) {
            perror("connect");
            return 1;
        }
        setsockopt(all[i].fd, IPPROTO_TCP, TCP_NODELAY, &one, sizeof one);
        epoll_ctl(loop, EPOLL_CTL_ADD, all[i].fd, &wanted);
    }
    began = now();
    end = began + seconds;
    for (int i = 0; i < clients; i++) {
        all[i].since = now();
        fill(&all[i]);
    }
    while (now() < end) {
        int ready = epoll_wait(loop, events, 256, 100);
        for (int i = 0; i < ready; i++) {
            struct client *c = &all[events[i].data.u32];
            ssize_t n = 0;
            if (!fill(c))
                return 1;
            while ((n = recv(c->fd, bytes, sizeof bytes, MSG_DONTWAIT)) > 0) {
                c->received += (size_t)n;
                if (c->received < reply_size)
                    continue;
                if (taken < TIMES)
                    times[taken++] = now() - c->since;
                replies += depth;
                c->rounds++;
                c->received -= reply_size;
                c->sent = 0;
                c->since = now();
                if (!fill(c))
                    return 1;
            }
            if (n == 0 || errno != EAGAIN) {
                fprintf(stderr, "a connection is closed\n");
                return 1;
            }
        }
    }
    for (int i = 0; i < clients; i++)
        served += all[i].rounds > 0;
    qsort(times, (size_t)taken, sizeof *times, compare);
    printf("%ld %f %f %f %ld\n", served, (double)replies / (now() - began), taken ? times[taken / 2] * 1e6 : 0,
           taken ? times[taken * 99 / 100] * 1e6 : 0, replies);
    return 0;
}
