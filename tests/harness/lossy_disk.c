/* Preloaded before a program: stands between it and the files under the folder that DISK_FOLDER names, as a disk that loses at a kill what was
   not synced, and that may fail. Built and used by lossy_disk.py.

   What the program writes to such a file is held back until the file is synced, and comes into the file then. Of each write a part may come at
   once, by chance: nothing of it, a slice or all. So a kill (kill -9) leaves what a cut of the power may leave: all that was synced, and any part of
   what was not. The program itself reads what it has written (by pread), as from the memory of a system.

   DISK_SEED       begins the chances
   DISK_WAIT       how many microseconds a sync takes
   DISK_SYNCS      kept: what is synced is in the file when the sync returns (so where this is not set)
                   late: a sync of a journal returns at once, and what it covers comes into the file DISK_LATE milliseconds later
                   none: a sync of a journal does nothing; what is written comes into the file DISK_LATE milliseconds later
   DISK_FAILS      the call of this number fails by the error DISK_ERROR, and so do DISK_TIMES - 1 calls after it. A sync that fails drops what
                   it should have synced, as a system may. Where the error is that the disk is full, the first write that fails is done by half
   DISK_KILLS      the process is killed before the call of this number
   DISK_TOLD       a file that is made when a call fails or kills

   Counted from 1 are calls that make, rename or remove something in the folder, and that write, cut or sync one of its files; a sync of a
   folder is counted too. */
#include "disk.h"
#include <signal.h>
#include <time.h>

enum { KEPT, LATE, NONE, MOST_FILES = 64 };

/* A write, or a cut where there are no bytes. */
typedef struct Held {
    struct Held *next;
    int file; /* the place in `files` */
    off_t at;
    size_t length;
    char *bytes;
    double due; /* when it comes into the file by itself, or 0 */
} Held;

typedef struct {
    dev_t device;
    ino_t number;
    int fd, syncs;
} File;

static Held *first, **last = &first;
static File files[MOST_FILES];
static int file_count, is_flushing, syncs;
static unsigned seed;
static long calls, fails, times, kills, error, wait_time, late;

static ssize_t (*real_pread)(int, void *, size_t, off_t);
static int (*real_sync)(int);

static double now(void) {
    struct timespec time;
    clock_gettime(CLOCK_MONOTONIC, &time);
    return time.tv_sec + time.tv_nsec / 1e9;
}

__attribute__((constructor)) static void begin(void) {
    const char *how = getenv("DISK_SYNCS"), *name = getenv("DISK_FOLDER");
    find_real_calls();
    real_pread = dlsym(RTLD_NEXT, "pread64");
    real_sync = dlsym(RTLD_NEXT, "fdatasync");
    syncs = how && strcmp(how, "late") == 0 ? LATE : how && strcmp(how, "none") == 0 ? NONE : KEPT;
    if (name && realpath(name, folder)) folder_length = strlen(folder);
    seed = number_of("DISK_SEED", 1);
    fails = number_of("DISK_FAILS", 0);
    times = number_of("DISK_TIMES", 1);
    error = number_of("DISK_ERROR", EIO);
    kills = number_of("DISK_KILLS", 0);
    wait_time = number_of("DISK_WAIT", 0);
    late = number_of("DISK_LATE", 20);
}

/* -- which calls count ------------------------------------------------------------------------------------------------ */

static int is_inside(const char *path) {
    return folder_length && strncmp(path, folder, folder_length) == 0 && (path[folder_length] == '/' || path[folder_length] == 0);
}

/* Whether an open file is a file (or, where that is asked, a folder) inside. */
static int is_ours(int fd, int or_folder) {
    struct stat about;
    char path[PATH_MAX];
    if (!folder_length || fstat(fd, &about) != 0 || !(S_ISREG(about.st_mode) || (or_folder && S_ISDIR(about.st_mode)))) return 0;
    return about.st_nlink > 0 && is_inside(path_of(fd, path)); /* a file without a name is lost at a kill, whatever was synced */
}

static int is_journal(int fd) {
    char path[PATH_MAX];
    return strstr(path_of(fd, path), "/journal.jsonl") != NULL;
}

static void tell(void) {
    const char *name = getenv("DISK_TOLD");
    int fd = name ? real_open(name, O_WRONLY | O_CREAT, 0600) : -1;
    if (fd >= 0) close(fd);
}

/* Counts a call under the lock; whether it fails. */
static int is_failing(void) {
    calls++;
    if (kills && calls == kills) {
        tell();
        kill(getpid(), SIGKILL);
    }
    if (!fails || calls < fails || calls >= fails + times) return 0;
    tell();
    return 1;
}

static int refuse(void) {
    pthread_mutex_unlock(&lock);
    errno = error;
    return -1;
}

/* -- what is held back ------------------------------------------------------------------------------------------------ */

static int place_of(int fd) {
    struct stat about;
    fstat(fd, &about);
    for (int n = 0; n < file_count; n++)
        if (files[n].device == about.st_dev && files[n].number == about.st_ino) return n;
    if (file_count == MOST_FILES) abort();
    files[file_count] = (File){about.st_dev, about.st_ino, fcntl(fd, F_DUPFD_CLOEXEC, 100), is_journal(fd) ? syncs : KEPT};
    return file_count++;
}

static void put_all(int fd, const char *bytes, size_t length, off_t at) {
    while (length > 0) {
        ssize_t put = real_pwrite(fd, bytes, length, at);
        if (put <= 0) return;
        bytes += put, length -= put, at += put;
    }
}

static void apply(const Held *held) {
    if (held->bytes) put_all(files[held->file].fd, held->bytes, held->length, held->at);
    else if (real_cut(files[held->file].fd, held->at) != 0) return;
}

/* Brings into its file, or drops, each held call that the test names. */
static void release(int (*is_meant)(const Held *, double), double what, int is_dropped) {
    Held **link = &first;
    while (*link) {
        Held *held = *link;
        if (!is_meant(held, what)) {
            link = &held->next;
            continue;
        }
        if (!is_dropped) apply(held);
        *link = held->next;
        free(held->bytes);
        free(held);
    }
    last = link;
}

static int is_of_file(const Held *held, double file) {
    return held->file == file && held->due == 0;
}

static int is_due(const Held *held, double time) {
    return held->due > 0 && held->due <= time;
}

static void *flush(void *nothing) {
    for (;;) {
        usleep(1000);
        pthread_mutex_lock(&lock);
        release(is_due, now(), 0);
        pthread_mutex_unlock(&lock);
    }
    return nothing;
}

static void need_flushing(void) {
    pthread_t thread;
    if (is_flushing) return;
    is_flushing = 1;
    if (pthread_create(&thread, NULL, flush, NULL) != 0) abort();
}

/* A part of a write comes at once, by chance. */
static void put_some(int fd, const char *bytes, size_t length, off_t at) {
    unsigned chance = rand_r(&seed) % 8;
    size_t begin = 0, end = length;
    if (chance < 4 || length == 0) return;
    if (chance > 5) begin = rand_r(&seed) % length, end = begin + rand_r(&seed) % (length - begin + 1);
    put_all(fd, bytes + begin, end - begin, at + begin);
}

static void hold(int fd, const char *bytes, size_t length, off_t at) {
    Held *held = malloc(sizeof *held);
    int file = place_of(fd), has_due = files[file].syncs == NONE;
    *held = (Held){NULL, file, at, length, bytes ? malloc(length + 1) : NULL, has_due ? now() + late / 1e3 : 0};
    if (bytes) {
        memcpy(held->bytes, bytes, length);
        put_some(fd, bytes, length, at);
    }
    *last = held;
    last = &held->next;
    if (has_due) need_flushing();
}

static void be_late(int file) {
    for (Held *held = first; held; held = held->next)
        if (is_of_file(held, file)) held->due = now() + late / 1e3;
    need_flushing();
}

/* -- calls of files --------------------------------------------------------------------------------------------------- */

static ssize_t write_at(int fd, const void *bytes, size_t length, off_t at) {
    pthread_mutex_lock(&lock);
    if (is_failing()) {
        if (error != ENOSPC || calls != fails || length < 2) return refuse();
        length /= 2;
    }
    hold(fd, bytes, length, at);
    pthread_mutex_unlock(&lock);
    return length;
}

ssize_t pwrite64(int fd, const void *bytes, size_t length, off_t at) {
    return is_ours(fd, 0) ? write_at(fd, bytes, length, at) : real_pwrite(fd, bytes, length, at);
}

ssize_t write(int fd, const void *bytes, size_t length) {
    if (!is_ours(fd, 0)) return real_write(fd, bytes, length);
    off_t at = lseek(fd, 0, SEEK_CUR);
    ssize_t put = write_at(fd, bytes, length, at);
    if (put > 0) lseek(fd, at + put, SEEK_SET);
    return put;
}

int ftruncate64(int fd, off_t length) {
    if (!is_ours(fd, 0)) return real_cut(fd, length);
    pthread_mutex_lock(&lock);
    if (is_failing()) return refuse();
    hold(fd, NULL, 0, length);
    pthread_mutex_unlock(&lock);
    return 0;
}

int fdatasync(int fd) {
    if (!is_ours(fd, 1)) return real_sync(fd);
    if (wait_time) usleep(wait_time);
    pthread_mutex_lock(&lock);
    int fault = is_failing();
    if (is_ours(fd, 0)) {
        int file = place_of(fd);
        if (fault || files[file].syncs == KEPT) release(is_of_file, file, fault);
        else if (files[file].syncs == LATE) be_late(file);
    }
    if (fault) return refuse();
    pthread_mutex_unlock(&lock);
    return 0;
}

int fsync(int fd) {
    return fdatasync(fd);
}

/* -- reading ---------------------------------------------------------------------------------------------------------- */

/* Puts what is held of a file over what was read of it from a place on, where the file itself has so many bytes; gives how many it has then. */
static off_t put_held(int file, char *bytes, off_t at, off_t end, off_t size) {
    for (const Held *held = first; held; held = held->next) {
        if (held->file != file) continue;
        if (!held->bytes) {
            if (held->at < end) memset(bytes + (held->at > at ? held->at - at : 0), 0, end - (held->at > at ? held->at : at));
            size = held->at;
            continue;
        }
        off_t from = held->at > at ? held->at : at, to = held->at + (off_t)held->length;
        if (to > size) size = to;
        if (to > end) to = end;
        if (from < to) memcpy(bytes + (from - at), held->bytes + (from - held->at), to - from);
    }
    return size;
}

ssize_t pread64(int fd, void *bytes, size_t length, off_t at) {
    struct stat about;
    int file = -1;
    if (!is_ours(fd, 0) || fstat(fd, &about) != 0) return real_pread(fd, bytes, length, at);
    pthread_mutex_lock(&lock);
    for (int n = 0; n < file_count; n++)
        if (files[n].device == about.st_dev && files[n].number == about.st_ino) file = n;
    ssize_t got = real_pread(fd, bytes, length, at);
    if (file >= 0 && got >= 0 && fstat(fd, &about) == 0) {
        memset((char *)bytes + got, 0, length - got);
        off_t left = put_held(file, bytes, at, at + (off_t)length, about.st_size) - at;
        got = left < 0 ? 0 : left < (off_t)length ? left : (off_t)length;
    }
    pthread_mutex_unlock(&lock);
    return got;
}

ssize_t pread(int fd, void *bytes, size_t length, off_t at) {
    return pread64(fd, bytes, length, at);
}

/* -- calls of folders ------------------------------------------------------------------------------------------------- */

/* Counts a call on something inside; whether it fails. */
static int fails_at(const char *path) {
    if (!is_inside(path)) return 0;
    pthread_mutex_lock(&lock);
    if (is_failing()) {
        refuse();
        return 1;
    }
    pthread_mutex_unlock(&lock);
    return 0;
}

static int open_file(const char *path, int flags, mode_t mode) {
    if (flags & O_CREAT && fails_at(path)) return -1;
    return real_open(path, flags, mode);
}

int mkdir(const char *path, mode_t mode) {
    int (*real)(const char *, mode_t) = dlsym(RTLD_NEXT, "mkdir");
    return fails_at(path) ? -1 : real(path, mode);
}

int rename(const char *from, const char *to) {
    int (*real)(const char *, const char *) = dlsym(RTLD_NEXT, "rename");
    return fails_at(to) ? -1 : real(from, to);
}

int unlink(const char *path) {
    int (*real)(const char *) = dlsym(RTLD_NEXT, "unlink");
    return fails_at(path) ? -1 : real(path);
}
