/* A load program for a server of NULL calls, and a plain server that echoes replies.
 *
 *   load ask ADDRESS PORT CONNECTIONS INFLIGHT CALLS   makes so many calls at each connection, in one thread with poll;
 *                                                      prints "calls seconds calls_a_second"
 *   load echo PORT CONNECTIONS                         answers each call of 44 bytes by 28 bytes, one thread a connection
 */
#include <arpa/inet.h>
#include <errno.h>
#include <netinet/in.h>
#include <netinet/tcp.h>
#include <poll.h>
#include <pthread.h>
#include <stdint.h>
#include <stdio.h>
#include <stdlib.h>
#include <string.h>
#include <sys/socket.h>
#include <time.h>
#include <unistd.h>

enum { CALL = 44, REPLY = 28, MOST = 64, TAKE = 4096 };

static void die(const char *what) {
    perror(what);
    exit(1);
}

static void put_word(unsigned char *at, uint32_t word) {
    at[0] = word >> 24;
    at[1] = word >> 16;
    at[2] = word >> 8;
    at[3] = word;
}

static uint32_t get_word(const unsigned char *at) {
    return (uint32_t)at[0] << 24 | (uint32_t)at[1] << 16 | (uint32_t)at[2] << 8 | at[3];
}

static void fill_call(unsigned char *call, uint32_t xid) {
    memset(call, 0, CALL);
    put_word(call, 0x80000000u | 40);
    put_word(call + 4, xid);
    put_word(call + 12, 2);
    put_word(call + 16, 100003);
    put_word(call + 20, 3);
}

static void no_delay(int fd) {
    int one = 1;
    if (setsockopt(fd, IPPROTO_TCP, TCP_NODELAY, &one, sizeof one) != 0) die("TCP_NODELAY");
}

static double now(void) {
    struct timespec t;
    clock_gettime(CLOCK_MONOTONIC, &t);
    return t.tv_sec + t.tv_nsec / 1e9;
}

static void write_all(int fd, const unsigned char *part, size_t len) {
    while (len > 0) {
        ssize_t n = write(fd, part, len);
        if (n < 0 && errno == EINTR) continue;
        if (n <= 0) die("write");
        part += n;
        len -= n;
    }
}

/* What one connection of the load program has sent and seen, and the bytes of an unfinished reply. */
struct client {
    int fd;
    uint32_t sent;
    uint32_t seen;
    size_t have;
    unsigned char reply[REPLY];
};

static void send_calls(struct client *c, uint32_t count) {
    unsigned char calls[CALL * MOST];
    for (uint32_t k = 0; k < count; k++) fill_call(calls + CALL * k, c->sent + k);
    write_all(c->fd, calls, (size_t)CALL * count);
    c->sent += count;
}

static void check_reply(struct client *c) {
    if (get_word(c->reply) != (0x80000000u | 24) || get_word(c->reply + 4) != c->seen || get_word(c->reply + 8) != 1
        || get_word(c->reply + 24) != 0) {
        fprintf(stderr, "a wrong reply to call %u\n", c->seen);
        exit(1);
    }
}

/* Reads once, and tells how many replies became whole. */
static uint32_t take_replies(struct client *c) {
    unsigned char room[TAKE];
    ssize_t n = read(c->fd, room, sizeof room);
    if (n <= 0) die("read");
    uint32_t whole = 0;
    for (ssize_t k = 0; k < n; k++) {
        c->reply[c->have++] = room[k];
        if (c->have == REPLY) {
            check_reply(c);
            c->have = 0;
            c->seen++;
            whole++;
        }
    }
    return whole;
}

static int connect_to(const char *address, int port) {
    struct sockaddr_in to = {.sin_family = AF_INET, .sin_port = htons(port)};
    if (inet_pton(AF_INET, address, &to.sin_addr) != 1) die("address");
    for (int tries = 0; tries < 500; tries++) {
        int fd = socket(AF_INET, SOCK_STREAM, 0);
        if (fd < 0) die("socket");
        if (connect(fd, (struct sockaddr *)&to, sizeof to) == 0) return fd;
        close(fd);
        usleep(10000);
    }
    die("connect");
    return -1;
}

static void ask(const char *address, int port, int connections, uint32_t in_flight, uint32_t calls) {
    struct client clients[MOST];
    struct pollfd polls[MOST];
    for (int k = 0; k < connections; k++) {
        memset(&clients[k], 0, sizeof clients[k]);
        clients[k].fd = connect_to(address, port);
        no_delay(clients[k].fd);
        polls[k].fd = clients[k].fd;
        polls[k].events = POLLIN;
    }
    double start = now();
    for (int k = 0; k < connections; k++) send_calls(&clients[k], in_flight < calls ? in_flight : calls);
    int left = connections;
    while (left > 0) {
        /* with one connection a blocking read is the wait */
        if (connections > 1 && poll(polls, connections, -1) < 0) die("poll");
        for (int k = 0; k < connections; k++) {
            struct client *c = &clients[k];
            if (polls[k].fd < 0 || (connections > 1 && !(polls[k].revents & (POLLIN | POLLHUP)))) continue;
            uint32_t whole = take_replies(c);
            uint32_t more = calls - c->sent;
            if (whole < more) more = whole;
            if (more > 0) send_calls(c, more);
            if (c->seen == calls) {
                polls[k].fd = -1;
                left--;
            }
        }
    }
    double seconds = now() - start;
    for (int k = 0; k < connections; k++) close(clients[k].fd);
    double all = (double)calls * connections;
    printf("%.0f %.3f %.0f\n", all, seconds, all / seconds);
}

static void *echo_one(void *arg) {
    int fd = (int)(intptr_t)arg;
    unsigned char room[TAKE], replies[TAKE];
    size_t have = 0;
    for (;;) {
        ssize_t n = read(fd, room + have, sizeof room - have);
        if (n <= 0) break;
        have += n;
        size_t whole = have / CALL;
        for (size_t k = 0; k < whole; k++) {
            unsigned char *reply = replies + REPLY * k;
            memset(reply, 0, REPLY);
            put_word(reply, 0x80000000u | 24);
            memcpy(reply + 4, room + CALL * k + 4, 4);
            put_word(reply + 8, 1);
            write_all(fd, reply, REPLY);
        }
        have -= whole * CALL;
        memmove(room, room + whole * CALL, have);
    }
    close(fd);
    return NULL;
}

static void echo(int port, int connections) {
    struct sockaddr_in at = {.sin_family = AF_INET, .sin_port = htons(port), .sin_addr.s_addr = htonl(INADDR_LOOPBACK)};
    int listener = socket(AF_INET, SOCK_STREAM, 0), one = 1;
    setsockopt(listener, SOL_SOCKET, SO_REUSEADDR, &one, sizeof one);
    if (bind(listener, (struct sockaddr *)&at, sizeof at) != 0) die("bind");
    if (listen(listener, 128) != 0) die("listen");
    pthread_t threads[MOST];
    for (int k = 0; k < connections; k++) {
        int fd = accept(listener, NULL, NULL);
        if (fd < 0) die("accept");
        no_delay(fd);
        if (pthread_create(&threads[k], NULL, echo_one, (void *)(intptr_t)fd) != 0) die("thread");
    }
    for (int k = 0; k < connections; k++) pthread_join(threads[k], NULL);
}

int main(int argc, char **argv) {
    if (argc == 7 && strcmp(argv[1], "ask") == 0) {
        int connections = atoi(argv[4]), in_flight = atoi(argv[5]);
        if (connections < 1 || connections > MOST || in_flight < 1 || in_flight > MOST) {
            fprintf(stderr, "1 to %d connections and calls in flight\n", MOST);
            return 2;
        }
        ask(argv[2], atoi(argv[3]), connections, in_flight, strtoul(argv[6], NULL, 10));
        return 0;
    }
    if (argc == 4 && strcmp(argv[1], "echo") == 0 && atoi(argv[3]) >= 1 && atoi(argv[3]) <= MOST) {
        echo(atoi(argv[2]), atoi(argv[3]));
        return 0;
    }
    fprintf(stderr, "usage: load ask ADDRESS PORT CONNECTIONS INFLIGHT CALLS | load echo PORT CONNECTIONS\n");
    return 2;
}
