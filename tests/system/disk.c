// Loaded into a program (LD_PRELOAD), stands between it and the two files of a database: DISK names the database's file in
// whatever folder, and the log beside it is DISK-wal. A change of a file is a write, a truncation or a sync.
//
// COUNTS names a file in which the changes and the syncs that went through are counted, of the database's file and of the log:
// four numbers of eight bytes.
// STOPS is `file`, `log` or `both`, and BEHIND how many changes of it go through. At the next one it stops: that and each call
// behind it fails, and changes nothing. Where KILLS is set the process is killed at it instead.
// KEEPS: at each sync what was changed in the file is copied into PATH.synced beside it, which begins as a copy. So that is what a
// power cut leaves of the file.
// MARK: the first write to the log that has these bytes in it fails, and no other.
#define _GNU_SOURCE
#include <dlfcn.h>
#include <errno.h>
#include <fcntl.h>
#include <limits.h>
#include <signal.h>
#include <stdarg.h>
#include <stdint.h>
#include <stdio.h>
#include <stdlib.h>
#include <string.h>
#include <sys/mman.h>
#include <sys/stat.h>
#include <unistd.h>

enum { DATABASE, LOG, FILES, UNWATCHED = -1, MOST_DESCRIPTORS = 4096 };

static struct {
    uint64_t changes[FILES], syncs[FILES];
} none, *counts = &none;
// Of each descriptor the file that it has open, counted from 1.
static char file_of[MOST_DESCRIPTORS];
static char name[FILES][NAME_MAX + 1], path[FILES][PATH_MAX];
static int stops[FILES], is_stopped, kills, keeps;
static uint64_t behind;
// What was changed since the last sync.
static off_t dirty_from[FILES] = {INT64_MAX, INT64_MAX}, dirty_to[FILES];
static const char *mark;

static int (*real_open)(const char *, int, ...);
static int (*real_close)(int);
static ssize_t (*real_pread)(int, void *, size_t, off_t);
static ssize_t (*real_pwrite)(int, const void *, size_t, off_t);
static int (*real_ftruncate)(int, off_t);
static int (*real_fsync)(int), (*real_fdatasync)(int);
static int (*real_statx)(int, const char *, int, unsigned, struct statx *);

static void map_counts(const char *counted) {
    int file = counted ? real_open(counted, O_RDWR | O_CLOEXEC) : -1;
    if (file < 0)
        return;
    void *mapped = mmap(NULL, sizeof *counts, PROT_READ | PROT_WRITE, MAP_SHARED, file, 0);
    if (mapped == MAP_FAILED)
        abort();
    counts = mapped;
    real_close(file);
}

static void find_calls(void) {
    *(void **)&real_open = dlsym(RTLD_NEXT, "open");
    *(void **)&real_close = dlsym(RTLD_NEXT, "close");
    *(void **)&real_pread = dlsym(RTLD_NEXT, "pread");
    *(void **)&real_pwrite = dlsym(RTLD_NEXT, "pwrite");
    *(void **)&real_ftruncate = dlsym(RTLD_NEXT, "ftruncate");
    *(void **)&real_fsync = dlsym(RTLD_NEXT, "fsync");
    *(void **)&real_fdatasync = dlsym(RTLD_NEXT, "fdatasync");
    *(void **)&real_statx = dlsym(RTLD_NEXT, "statx");
}

__attribute__((constructor)) static void begin(void) {
    find_calls();
    const char *disk = getenv("DISK"), *stopping = getenv("STOPS"), *number = getenv("BEHIND");
    if (!disk)
        abort();
    snprintf(name[DATABASE], sizeof name[DATABASE], "%s", disk);
    snprintf(name[LOG], sizeof name[LOG], "%s-wal", disk);
    if (stopping) {
        stops[DATABASE] = strcmp(stopping, "log") != 0;
        stops[LOG] = strcmp(stopping, "file") != 0;
    }
    behind = number ? strtoull(number, NULL, 10) : 0;
    kills = getenv("KILLS") != NULL;
    keeps = getenv("KEEPS") != NULL;
    mark = getenv("MARK");
    map_counts(getenv("COUNTS"));
}

static int watched(int descriptor) {
    return descriptor >= 0 && descriptor < MOST_DESCRIPTORS ? file_of[descriptor] - 1 : UNWATCHED;
}

static int refuse(void) {
    errno = EIO;
    return -1;
}

static int is_refused(int file) {
    return file != UNWATCHED && stops[file] && is_stopped;
}

static uint64_t changes_of_stopping(void) {
    return stops[DATABASE] * counts->changes[DATABASE] + stops[LOG] * counts->changes[LOG];
}

static int is_change_refused(int file) {
    if (file != UNWATCHED && stops[file] && changes_of_stopping() == behind) {
        if (kills)
            kill(getpid(), SIGKILL);
        is_stopped = 1;
    }
    return is_refused(file);
}

static void count_change(int file, int went_through) {
    if (file != UNWATCHED && went_through)
        counts->changes[file]++;
}

static void note_dirty(int file, off_t from, off_t to) {
    if (from < dirty_from[file])
        dirty_from[file] = from;
    if (to > dirty_to[file])
        dirty_to[file] = to;
}

static off_t length_of(int descriptor) {
    struct stat told;
    if (fstat(descriptor, &told) != 0)
        abort();
    return told.st_size;
}

static void copy_synced(int descriptor, int file) {
    static char buffer[1 << 16], synced[PATH_MAX + 8];
    snprintf(synced, sizeof synced, "%s.synced", path[file]);
    int copy = real_open(synced, O_WRONLY | O_CREAT | O_CLOEXEC, 0600);
    for (off_t at = dirty_from[file]; at < dirty_to[file];) {
        size_t left = dirty_to[file] - at;
        ssize_t length = real_pread(descriptor, buffer, left < sizeof buffer ? left : sizeof buffer, at);
        if (length <= 0)
            break;
        if (real_pwrite(copy, buffer, length, at) != length)
            abort();
        at += length;
    }
    if (copy < 0 || real_ftruncate(copy, length_of(descriptor)) != 0)
        abort();
    real_close(copy);
    dirty_from[file] = INT64_MAX;
    dirty_to[file] = 0;
}

static int sync_by(int (*real_sync)(int), int descriptor) {
    int file = watched(descriptor);
    if (is_change_refused(file))
        return refuse();
    int told = real_sync(descriptor);
    count_change(file, told == 0);
    if (file != UNWATCHED && told == 0) {
        counts->syncs[file]++;
        if (keeps)
            copy_synced(descriptor, file);
    }
    return told;
}

int open(const char *opened, int flags, ...) {
    va_list more;
    va_start(more, flags);
    mode_t mode = flags & (O_CREAT | O_TMPFILE) ? va_arg(more, mode_t) : 0;
    va_end(more);
    // Another library may begin before this one.
    if (!real_open)
        find_calls();
    int descriptor = real_open(opened, flags, mode);
    const char *slash = strrchr(opened, '/'), *last = slash ? slash + 1 : opened;
    if (descriptor < 0 || descriptor >= MOST_DESCRIPTORS)
        return descriptor;
    for (int file = DATABASE; file < FILES; file++)
        if (strcmp(last, name[file]) == 0) {
            file_of[descriptor] = file + 1;
            snprintf(path[file], sizeof path[file], "%s", opened);
        }
    return descriptor;
}

int close(int descriptor) {
    if (watched(descriptor) != UNWATCHED)
        file_of[descriptor] = 0;
    return real_close(descriptor);
}

ssize_t pread(int descriptor, void *bytes, size_t length, off_t at) {
    return is_refused(watched(descriptor)) ? refuse() : real_pread(descriptor, bytes, length, at);
}

ssize_t pwrite(int descriptor, const void *bytes, size_t length, off_t at) {
    int file = watched(descriptor);
    if (is_change_refused(file))
        return refuse();
    if (file == LOG && mark && memmem(bytes, length, mark, strlen(mark))) {
        mark = NULL;
        return refuse();
    }
    ssize_t told = real_pwrite(descriptor, bytes, length, at);
    count_change(file, told >= 0);
    if (file != UNWATCHED && told > 0)
        note_dirty(file, at, at + told);
    return told;
}

int ftruncate(int descriptor, off_t length) {
    int file = watched(descriptor);
    if (is_change_refused(file))
        return refuse();
    off_t before = file == UNWATCHED ? 0 : length_of(descriptor);
    int told = real_ftruncate(descriptor, length);
    count_change(file, told == 0);
    if (file != UNWATCHED && told == 0)
        note_dirty(file, length < before ? length : before, length < before ? before : length);
    return told;
}

int fsync(int descriptor) {
    return sync_by(real_fsync, descriptor);
}

int fdatasync(int descriptor) {
    return sync_by(real_fdatasync, descriptor);
}

int statx(int folder, const char *asked, int flags, unsigned mask, struct statx *told) {
    return *asked == '\0' && is_refused(watched(folder)) ? refuse() : real_statx(folder, asked, flags, mask, told);
}
