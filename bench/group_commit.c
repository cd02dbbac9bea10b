// Durable edits by plain C that groups its commits: what a kept document is compared with.
//
//   group_commit FILE WRITERS SECONDS
//
// Each writer puts a line of 110 bytes behind one lock, and waits until it is durable. One of those that wait takes all lines so far and writes
// them with no lock held: the gate of the batch before, which makes that count, and the new batch behind a closed gate, then one fdatasync. So a line is
// durable by the second sync after it was put in, and each sync serves all who wait.
//
// It prints a line: edits a second, and the times that half and 99 of 100 edits do not exceed, in microseconds.
#define _GNU_SOURCE
#include <fcntl.h>
#include <pthread.h>
#include <stdint.h>
#include <stdio.h>
#include <stdlib.h>
#include <string.h>
#include <time.h>
#include <unistd.h>

enum { LINE = 110, ROOM = 1 << 22, MOST_WRITERS = 64, MOST_TIMES = 1 << 18 };

typedef struct {
    char *bytes;
    size_t length;
    long version;
} Batch;

typedef struct {
    pthread_t thread;
    uint32_t *times;
    size_t count;
} Writer;

// Behind `desk`: the lines that no one has taken yet, and the newest version.
static pthread_mutex_t desk = PTHREAD_MUTEX_INITIALIZER;
static Batch pending;

// Behind `slot`: how many versions are durable, and whether someone writes.
static pthread_mutex_t slot = PTHREAD_MUTEX_INITIALIZER;
static pthread_cond_t word = PTHREAD_COND_INITIALIZER;
static long durable;
static int is_busy;

// Of the one who writes: the batch behind the closed gate, and where that is.
static Batch staged;
static off_t end;
static int fd;
static volatile int is_over;

static void stop(const char *why) {
    perror(why);
    exit(1);
}

static double now(void) {
    struct timespec time;
    clock_gettime(CLOCK_MONOTONIC, &time);
    return time.tv_sec + time.tv_nsec / 1e9;
}

static void put(const char *bytes, size_t length, off_t at) {
    if (pwrite(fd, bytes, length, at) != (ssize_t)length) stop("pwrite");
}

// Puts a line in, and gives its version.
static long edit(void) {
    pthread_mutex_lock(&desk);
    if (pending.length + LINE + 1 > ROOM) stop("no room");
    char *line = pending.bytes + pending.length;
    memset(line, 'x', LINE);
    line[0] = ' ', line[LINE - 1] = '\n';
    pending.length += LINE;
    long version = ++pending.version;
    pthread_mutex_unlock(&desk);
    return version;
}

// Writes what was put in, and gives how many versions are durable then.
static long turn(void) {
    pthread_mutex_lock(&desk);
    Batch batch = pending;
    pending = (Batch){staged.bytes, 0, batch.version};
    pthread_mutex_unlock(&desk);
    if (staged.length) put(" ", 1, end);
    end += staged.length;
    if (batch.length) {
        batch.bytes[batch.length] = '\n';
        put(batch.bytes + 1, batch.length, end + 1);
    }
    if (fdatasync(fd) != 0) stop("fdatasync");
    long kept = staged.version;
    staged = batch;
    return kept;
}

// Waits until a version is durable. One thread at a time turns for all.
static void settle(long version) {
    pthread_mutex_lock(&slot);
    while (durable < version) {
        if (is_busy) {
            pthread_cond_wait(&word, &slot);
            continue;
        }
        is_busy = 1;
        pthread_mutex_unlock(&slot);
        long kept = turn();
        pthread_mutex_lock(&slot);
        is_busy = 0;
        durable = kept;
        pthread_cond_broadcast(&word);
    }
    pthread_mutex_unlock(&slot);
}

static void *run(void *argument) {
    Writer *writer = argument;
    while (!is_over && writer->count < MOST_TIMES) {
        double begin = now();
        settle(edit());
        writer->times[writer->count++] = (now() - begin) * 1e9;
    }
    return NULL;
}

static int rising(const void *a, const void *b) {
    uint32_t x = *(const uint32_t *)a, y = *(const uint32_t *)b;
    return x < y ? -1 : x > y;
}

static void measure(int writers, double seconds) {
    static Writer all[MOST_WRITERS];
    uint32_t *times = malloc(sizeof *times * MOST_TIMES * writers);
    double begin = now();
    for (int n = 0; n < writers; n++) {
        all[n].times = times + (size_t)n * MOST_TIMES;
        if (pthread_create(&all[n].thread, NULL, run, &all[n]) != 0) stop("thread");
    }
    usleep(seconds * 1e6);
    is_over = 1;
    size_t count = 0;
    for (int n = 0; n < writers; n++) {
        pthread_join(all[n].thread, NULL);
        memmove(times + count, all[n].times, sizeof *times * all[n].count);
        count += all[n].count;
    }
    double passed = now() - begin;
    if (count == 0) stop("no edit");
    qsort(times, count, sizeof *times, rising);
    printf("%.0f %.1f %.1f\n", count / passed, times[count / 2] / 1e3, times[count - 1 - count / 100] / 1e3);
}

int main(int count, char **words) {
    if (count != 4 || atoi(words[2]) < 1 || atoi(words[2]) > MOST_WRITERS) {
        fputs("usage: group_commit FILE WRITERS SECONDS\n", stderr);
        return 2;
    }
    fd = open(words[1], O_RDWR | O_CREAT | O_TRUNC, 0644);
    if (fd < 0) stop(words[1]);
    put("\n", 1, 0);
    fsync(fd);
    pending.bytes = malloc(ROOM), staged.bytes = malloc(ROOM);
    measure(atoi(words[2]), atof(words[3]));
    return 0;
}
