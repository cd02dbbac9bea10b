// Clients of a server in a closed loop, and a server that answers fixed bytes to compare with.
//
//   serve_client ask PORT WHAT CLIENTS SECONDS [A_SECOND]   clients that each send a request when they have the last reply;
//                                                          with A_SECOND each sends so many a second
//   serve_client echo PORT BYTES                           a thread for each connection: answers each line with BYTES bytes
//
// WHAT is points, edits (poses), or windows as large as a tile. Of `tiles` each client has 2,048 of its own about the page's origin, and asks for one
// after the other, so that they are painted anew; of `ahead` too, with eight more requests on their way; of `common` all clients have the same 2,048.
// Of `same` there are 64 in all, of which each client asks for eight in turn; `shared` are these 64, each client asks for all; `beside` is as `same`,
// away from the page's first tiles.
//
// `ask` prints a line: requests a second, the times that half and 99 of 100 requests do not exceed, in microseconds, and how many were answered.
#define _GNU_SOURCE
#include <arpa/inet.h>
#include <netinet/tcp.h>
#include <pthread.h>
#include <stdint.h>
#include <stdio.h>
#include <stdlib.h>
#include <string.h>
#include <sys/socket.h>
#include <time.h>
#include <unistd.h>

enum { MOST_CLIENTS = 64, MOST_TIMES = 1 << 24, ROOM = 1 << 18, HEAD = 1 << 12, AHEAD = 8 };

typedef struct {
    pthread_t thread;
    int number, port;
    const char *what;
    double seconds, pace;
    uint32_t *times;
    size_t count;
} Client;

static double now(void) {
    struct timespec time;
    clock_gettime(CLOCK_MONOTONIC, &time);
    return time.tv_sec + time.tv_nsec / 1e9;
}

static void stop(const char *why) {
    perror(why);
    exit(1);
}

static void send_all(int fd, const char *bytes, size_t length) {
    while (length > 0) {
        ssize_t sent = write(fd, bytes, length);
        if (sent <= 0) stop("write");
        bytes += sent;
        length -= sent;
    }
}

static struct sockaddr_in address_of(int port) {
    struct sockaddr_in address = {.sin_family = AF_INET, .sin_port = htons(port)};
    address.sin_addr.s_addr = htonl(INADDR_LOOPBACK);
    return address;
}

static int connect_to(int port) {
    struct sockaddr_in address = address_of(port);
    int fd = socket(AF_INET, SOCK_STREAM, 0), on = 1;
    if (fd < 0 || connect(fd, (struct sockaddr *)&address, sizeof address) != 0) stop("connect");
    setsockopt(fd, IPPROTO_TCP, TCP_NODELAY, &on, sizeof on);
    return fd;
}

// Reads one reply, its line and its body, and nothing of a reply behind it: one with a body is longer than HEAD.
static void read_reply(int fd, char *room) {
    size_t have = 0, want = 0;
    while (want == 0 || have < want) {
        ssize_t got = read(fd, room + have, (want == 0 ? HEAD : want) - have);
        if (got <= 0) stop("read");
        have += got;
        char *end = want == 0 ? memchr(room, '\n', have) : NULL;
        if (end != NULL) {
            char *body = memmem(room, end - room, "\"body\":", 7);
            want = end + 1 - room + (body == NULL ? 0 : strtoul(body + 7, NULL, 10));
            if (memmem(room, end - room, "\"ok\":false", 10) != NULL) stop("a refusal");
        }
    }
}

// A window with the sides of a tile.
static int window_at(char *line, long x, long y) {
    return sprintf(line, "{\"verb\":\"patch\",\"x\":%ld,\"y\":%ld,\"w\":256,\"h\":256}\n", x, y);
}

// The n-th of a client's 2,048 windows.
static int one_of_many(char *line, long n, long client) {
    return window_at(line, n % 2 * 256 - n / 2 % 32 - client % 8 * 32, -(n / 64 % 32) - client / 8 * 32);
}

static int request_of(const Client *client, size_t n, char *line) {
    if (strcmp(client->what, "points") == 0) return sprintf(line, "{\"verb\":\"point\",\"x\":%zu,\"y\":%zu}\n", n % 211, n % 199);
    if (strcmp(client->what, "tiles") == 0 || strcmp(client->what, "ahead") == 0) return one_of_many(line, n, client->number);
    if (strcmp(client->what, "common") == 0) return one_of_many(line, n, 0);
    if (strcmp(client->what, "same") == 0) return window_at(line, n % 2 * 256 - n / 2 % 4, -(client->number % 8));
    if (strcmp(client->what, "shared") == 0) {
        long place = (n + client->number * 7) % 64;
        return window_at(line, place % 2 * 256 - place / 2 % 4, -(place / 8));
    }
    if (strcmp(client->what, "beside") == 0) return window_at(line, 256 + n % 8 * 256, 256 + client->number % 8 * 256);
    return sprintf(line, "{\"verb\":\"pose\",\"id\":%d,\"pose\":{\"dx\":%zu}}\n", 1 + client->number % 10, n % 200);
}

static void *run_client(void *argument) {
    Client *client = argument;
    char line[128], *room = malloc(ROOM);
    int fd = connect_to(client->port);
    double end = now() + client->seconds, next = now() + client->number * 0.0007;
    for (size_t n = 0; strcmp(client->what, "ahead") == 0 && n < AHEAD; n++) send_all(fd, line, request_of(client, n, line));
    for (size_t n = 0; client->count < MOST_TIMES / MOST_CLIENTS; n++) {
        if (client->pace > 0) {
            double wait = next - now();
            if (wait > 0) usleep(wait * 1e6);
            next += 1 / client->pace;
        }
        int length = request_of(client, n, line);
        double begin = now();
        if (begin >= end) break;
        send_all(fd, line, length);
        read_reply(fd, room);
        client->times[client->count++] = (now() - begin) * 1e9;
    }
    close(fd);
    free(room);
    return NULL;
}

static int rising(const void *a, const void *b) {
    uint32_t x = *(const uint32_t *)a, y = *(const uint32_t *)b;
    return x < y ? -1 : x > y;
}

static void ask(int port, const char *what, int clients, double seconds, double pace) {
    static Client all[MOST_CLIENTS];
    uint32_t *times = malloc(sizeof *times * MOST_TIMES);
    double begin = now(), ended;
    for (int n = 0; n < clients; n++) {
        uint32_t *own = times + (size_t)n * (MOST_TIMES / MOST_CLIENTS);
        all[n] = (Client){.number = n, .port = port, .what = what, .seconds = seconds, .pace = pace, .times = own};
        if (pthread_create(&all[n].thread, NULL, run_client, &all[n]) != 0) stop("thread");
    }
    size_t count = 0;
    for (int n = 0; n < clients; n++) {
        pthread_join(all[n].thread, NULL);
        memmove(times + count, all[n].times, sizeof *times * all[n].count);
        count += all[n].count;
    }
    ended = now();
    if (count == 0) stop("no reply");
    qsort(times, count, sizeof *times, rising);
    printf("%.0f %.1f %.1f %zu\n", count / (ended - begin), times[count / 2] / 1e3, times[count - 1 - count / 100] / 1e3, count);
}

typedef struct {
    int fd;
    size_t bytes;
} Guest;

static void *run_echo(void *argument) {
    Guest guest = *(Guest *)argument;
    free(argument);
    char room[4096], *reply = malloc(guest.bytes + 64);
    int line = sprintf(reply, "{\"body\":%zu,\"ok\":true,\"version\":1}\n", guest.bytes);
    memset(reply + line, 'x', guest.bytes);
    for (ssize_t got; (got = read(guest.fd, room, sizeof room)) > 0;)
        if (room[got - 1] == '\n') send_all(guest.fd, reply, line + guest.bytes);
    close(guest.fd);
    free(reply);
    return NULL;
}

static void echo(int port, size_t bytes) {
    struct sockaddr_in address = address_of(port);
    int listener = socket(AF_INET, SOCK_STREAM, 0), on = 1;
    setsockopt(listener, SOL_SOCKET, SO_REUSEADDR, &on, sizeof on);
    if (bind(listener, (struct sockaddr *)&address, sizeof address) != 0 || listen(listener, 128) != 0) stop("bind");
    puts("listening");
    fflush(stdout);
    for (int fd; (fd = accept(listener, NULL, NULL)) >= 0;) {
        pthread_t thread;
        Guest *guest = malloc(sizeof *guest);
        *guest = (Guest){fd, bytes};
        setsockopt(fd, IPPROTO_TCP, TCP_NODELAY, &on, sizeof on);
        if (pthread_create(&thread, NULL, run_echo, guest) != 0) stop("thread");
        pthread_detach(thread);
    }
}

int main(int count, char **words) {
    if (count >= 6 && strcmp(words[1], "ask") == 0) {
        ask(atoi(words[2]), words[3], atoi(words[4]), atof(words[5]), count > 6 ? atof(words[6]) : 0);
        return 0;
    }
    if (count == 4 && strcmp(words[1], "echo") == 0) {
        echo(atoi(words[2]), strtoul(words[3], NULL, 10));
        return 1;
    }
    fputs("usage: serve_client ask PORT points|edits|tiles|ahead|common|same|shared|beside CLIENTS SECONDS [A_SECOND] | echo PORT BYTES\n", stderr);
    return 2;
}
