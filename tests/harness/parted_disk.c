/* Preloaded before a program: keeps apart what a system shows of the files under the folder that DISK_FOLDER names, which are the files themselves,
   and what its disk has, which are copies under the folder that DISK_COPY names.

   What is written comes to the disk at once, page by page, and a page that is written to again comes there whole. But what is written to journals
   between the sync before the one of number DISK_FAILS and that one does not come there, and this sync fails: its pages count as written then, as
   Linux counts them, and are shown on. Counted from 1 are the syncs of journals by this process; with 0 none fails. A new name comes to the disk
   at a sync of its folder. So a reboot is: the copies take the place of the files. */
#include "disk.h"

enum { PAGE = 4096, MOST_NAMES = 16 };

typedef struct {
    char from[PATH_MAX], to[PATH_MAX];
} Name;

static char copy[PATH_MAX];
static long fails, syncs;
static Name names[MOST_NAMES];
static int name_count;

static int (*real_sync)(int);
static int (*real_data_sync)(int);
static int (*real_rename)(const char *, const char *);

__attribute__((constructor)) static void begin(void) {
    const char *shown = getenv("DISK_FOLDER"), *kept = getenv("DISK_COPY");
    find_real_calls();
    real_sync = dlsym(RTLD_NEXT, "fsync");
    real_data_sync = dlsym(RTLD_NEXT, "fdatasync");
    real_rename = dlsym(RTLD_NEXT, "rename");
    if (shown && kept && realpath(shown, folder) && realpath(kept, copy)) folder_length = strlen(folder);
    fails = number_of("DISK_FAILS", 0);
}

/* The path of the copy of what stands at a path, or NULL where that is not in the folder. */
static char *copy_of(const char *path, char into[PATH_MAX]) {
    if (!folder_length || strncmp(path, folder, folder_length) != 0 || path[folder_length] != '/') return NULL;
    return snprintf(into, PATH_MAX, "%s%s", copy, path + folder_length) < PATH_MAX ? into : NULL;
}

static int is_journal(const char *path) {
    return strstr(path, "/journal.jsonl") != NULL;
}

/* Whether what is written to this file now is what the next sync of it fails to keep. */
static int is_held(const char *path) {
    return fails && syncs == fails - 1 && is_journal(path);
}

/* Brings the pages of a file from one place to another to the disk. */
static void bring(const char *path, const char *kept, off_t at, off_t end) {
    char page[PAGE];
    int from = real_open(path, O_RDONLY | O_CLOEXEC), to = real_open(kept, O_WRONLY | O_CREAT | O_CLOEXEC, 0600);
    for (at -= at % PAGE; from >= 0 && to >= 0 && at < end; at += PAGE) {
        ssize_t length = pread(from, page, PAGE, at);
        if (length <= 0 || real_pwrite(to, page, length, at) != length) break;
    }
    if (from >= 0) close(from);
    if (to >= 0) close(to);
}

static void note_write(int fd, off_t at, ssize_t length) {
    char path[PATH_MAX], kept[PATH_MAX];
    if (length <= 0 || !copy_of(path_of(fd, path), kept)) return;
    pthread_mutex_lock(&lock);
    if (!is_held(path)) bring(path, kept, at, at + length);
    pthread_mutex_unlock(&lock);
}

ssize_t pwrite64(int fd, const void *bytes, size_t length, off_t at) {
    ssize_t done = real_pwrite(fd, bytes, length, at);
    note_write(fd, at, done);
    return done;
}

ssize_t write(int fd, const void *bytes, size_t length) {
    ssize_t done = real_write(fd, bytes, length);
    if (done > 0 && folder_length) note_write(fd, lseek(fd, 0, SEEK_CUR) - done, done);
    return done;
}

int ftruncate64(int fd, off_t length) {
    char path[PATH_MAX], kept[PATH_MAX];
    int done = real_cut(fd, length);
    if (done != 0 || !copy_of(path_of(fd, path), kept)) return done;
    pthread_mutex_lock(&lock);
    if (!is_held(path) && truncate(kept, length) != 0) done = -1;
    pthread_mutex_unlock(&lock);
    return done;
}

/* The names that were given come to the disk. */
static void bring_names(void) {
    for (int n = 0; n < name_count; n++)
        if (real_rename(names[n].from, names[n].to) != 0) abort();
    name_count = 0;
}

/* A sync of a file or a folder of ours; whether it fails. */
static int fails_at(int fd) {
    struct stat about;
    char path[PATH_MAX], kept[PATH_MAX];
    if (!copy_of(path_of(fd, path), kept) || fstat(fd, &about) != 0) return 0;
    pthread_mutex_lock(&lock);
    int is_failing = S_ISREG(about.st_mode) && is_journal(path) && ++syncs == fails;
    if (S_ISDIR(about.st_mode)) bring_names();
    pthread_mutex_unlock(&lock);
    if (is_failing) errno = EIO;
    return is_failing;
}

int fsync(int fd) {
    return fails_at(fd) ? -1 : real_sync(fd);
}

int fdatasync(int fd) {
    return fails_at(fd) ? -1 : real_data_sync(fd);
}

static int open_file(const char *path, int flags, mode_t mode) {
    char kept[PATH_MAX];
    int fd = real_open(path, flags, mode);
    if (fd < 0 || !(flags & O_CREAT) || !copy_of(path, kept)) return fd;
    int made = real_open(kept, O_WRONLY | O_CREAT | O_CLOEXEC | (flags & O_TRUNC), mode);
    if (made >= 0) close(made);
    return fd;
}

int mkdir(const char *path, mode_t mode) {
    char kept[PATH_MAX];
    int (*real)(const char *, mode_t) = dlsym(RTLD_NEXT, "mkdir");
    int done = real(path, mode);
    if (done == 0 && copy_of(path, kept)) done = real(kept, mode);
    return done;
}

int rename(const char *from, const char *to) {
    int done = real_rename(from, to);
    pthread_mutex_lock(&lock);
    if (done == 0 && name_count < MOST_NAMES && copy_of(from, names[name_count].from) && copy_of(to, names[name_count].to)) name_count++;
    pthread_mutex_unlock(&lock);
    return done;
}

int unlink(const char *path) {
    char kept[PATH_MAX];
    int (*real)(const char *) = dlsym(RTLD_NEXT, "unlink");
    int done = real(path);
    if (done == 0 && copy_of(path, kept)) real(kept);
    return done;
}
