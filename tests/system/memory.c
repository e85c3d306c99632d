// Loaded into a program (LD_PRELOAD), refuses it requests for memory. MEMORY names a file of three numbers of eight bytes: how
// many requests were made, which of them is refused, counted from 1, and, if it is not 0, behind how many more each time another
// is. Whoever writes the file while the program runs has one refused that comes then. Without MEMORY the variables REFUSED and
// EVERY have the second and the third number.
#include <errno.h>
#include <fcntl.h>
#include <stdint.h>
#include <stdlib.h>
#include <sys/mman.h>
#include <unistd.h>

extern void *__libc_malloc(size_t size);
extern void *__libc_calloc(size_t count, size_t size);
extern void *__libc_realloc(void *old, size_t size);
extern void *__libc_memalign(size_t alignment, size_t size);

typedef struct {
    uint64_t requests, refused, every;
} Numbers;

static Numbers own;
static volatile Numbers *numbers = &own;

static uint64_t number(const char *name) {
    const char *text = getenv(name);
    return text ? strtoull(text, NULL, 10) : 0;
}

__attribute__((constructor)) static void map_numbers(void) {
    const char *path = getenv("MEMORY");
    if (!path) {
        own = (Numbers){0, number("REFUSED"), number("EVERY")};
        return;
    }
    int file = open(path, O_RDWR | O_CLOEXEC);
    void *mapped = file < 0 ? MAP_FAILED : mmap(NULL, sizeof own, PROT_READ | PROT_WRITE, MAP_SHARED, file, 0);
    if (mapped == MAP_FAILED)
        abort();
    close(file);
    numbers = mapped;
}

static int is_refused(void) {
    uint64_t request = ++numbers->requests, refused = numbers->refused, every = numbers->every;
    return request == refused || (every && request > refused && (request - refused) % every == 0);
}

void *malloc(size_t size) {
    return is_refused() ? NULL : __libc_malloc(size);
}

void *calloc(size_t count, size_t size) {
    return is_refused() ? NULL : __libc_calloc(count, size);
}

void *realloc(void *old, size_t size) {
    return is_refused() ? NULL : __libc_realloc(old, size);
}

void *aligned_alloc(size_t alignment, size_t size) {
    return is_refused() ? NULL : __libc_memalign(alignment, size);
}

int posix_memalign(void **out, size_t alignment, size_t size) {
    *out = is_refused() ? NULL : __libc_memalign(alignment, size);
    return *out ? 0 : ENOMEM;
}
