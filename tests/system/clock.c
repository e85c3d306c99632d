// Loaded into a program (LD_PRELOAD), tells it the time of day that a file has: CLOCK names the file, whose eight bytes are the
// seconds since 1970. Whoever writes the file sets the clock of a program that runs. Other clocks go on as they do.
#define _GNU_SOURCE
#include <fcntl.h>
#include <stdint.h>
#include <stdlib.h>
#include <sys/mman.h>
#include <sys/syscall.h>
#include <time.h>
#include <unistd.h>

static const volatile int64_t *seconds;

__attribute__((constructor)) static void map_clock(void) {
    const char *path = getenv("CLOCK");
    int file = path ? open(path, O_RDONLY | O_CLOEXEC) : -1;
    void *mapped = file < 0 ? MAP_FAILED : mmap(NULL, sizeof *seconds, PROT_READ, MAP_SHARED, file, 0);
    if (mapped == MAP_FAILED)
        abort();
    close(file);
    seconds = mapped;
}

// A program that checks itself may ask before the file is mapped.
int clock_gettime(clockid_t clock, struct timespec *now) {
    if (clock != CLOCK_REALTIME || !seconds)
        return (int)syscall(SYS_clock_gettime, clock, now);
    now->tv_sec = *seconds;
    now->tv_nsec = 0;
    return 0;
}

time_t time(time_t *told) {
    struct timespec now;
    clock_gettime(CLOCK_REALTIME, &now);
    if (told)
        *told = now.tv_sec;
    return now.tv_sec;
}
