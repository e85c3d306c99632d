// Loaded into a program (LD_PRELOAD), cuts and breaks the connection that it took last. SOCKETS names a file that is one `struct
// sockets`. Whoever runs the program sets the first four numbers, and reads the others, which count what the program asks of the
// connection until it shuts down its side or closes it. What it asks behind that is done as it is asked. Before a connection is closed
// of which a call failed, what is left to read is read: else the system would take back what was written and has not arrived.
#define _GNU_SOURCE
#include <dlfcn.h>
#include <errno.h>
#include <fcntl.h>
#include <netinet/in.h>
#include <netinet/tcp.h>
#include <stdint.h>
#include <stdlib.h>
#include <sys/mman.h>
#include <sys/socket.h>

enum failing { NONE, READS, WRITES, FULL_WRITES };

static volatile struct sockets {
    int64_t most_given;   // so many bytes a read gives at most, or 0 for any number
    int64_t most_taken;   // so many a write takes
    int64_t failing;      // the kind of calls that fail; full writes take nothing and tell no fault
    int64_t first;        // the number of the first of its kind that fails, from 0 on, as each behind it does
    int64_t reads;        // calls
    int64_t writes;
    int64_t given;        // bytes that reads gave
    int64_t taken;        // bytes that writes took
    int64_t reads_behind; // reads behind the last write
    int64_t failed;       // calls that failed here
    int64_t calls_behind; // calls behind the first of those
    int64_t parted;       // whether it shut down its side
} *sockets;

static int connection = -1;

static ssize_t (*real_recv)(int, void *, size_t, int);
static ssize_t (*real_send)(int, const void *, size_t, int);
static int (*real_accept4)(int, struct sockaddr *, socklen_t *, int);
static int (*real_shutdown)(int, int);
static int (*real_close)(int);

__attribute__((constructor)) static void map_sockets(void) {
    real_recv = (ssize_t (*)(int, void *, size_t, int))dlsym(RTLD_NEXT, "recv");
    real_send = (ssize_t (*)(int, const void *, size_t, int))dlsym(RTLD_NEXT, "send");
    real_accept4 = (int (*)(int, struct sockaddr *, socklen_t *, int))dlsym(RTLD_NEXT, "accept4");
    real_shutdown = (int (*)(int, int))dlsym(RTLD_NEXT, "shutdown");
    real_close = (int (*)(int))dlsym(RTLD_NEXT, "close");
    const char *path = getenv("SOCKETS");
    int file = path ? open(path, O_RDWR | O_CLOEXEC) : -1;
    void *mapped = file < 0 ? MAP_FAILED : mmap(NULL, sizeof *sockets, PROT_READ | PROT_WRITE, MAP_SHARED, file, 0);
    if (mapped == MAP_FAILED)
        abort();
    sockets = mapped;
}

static int next_fails(enum failing kind, int64_t number) {
    if (sockets->failed)
        sockets->calls_behind++;
    if (sockets->failing != kind || number < sockets->first)
        return 0;
    sockets->failed++;
    return 1;
}

static size_t cut(size_t length, int64_t most) {
    return most && length > (size_t)most ? (size_t)most : length;
}

// Pieces of writes are gathered, which is faster, until the program reads or ends the connection.
static void send_rest(int socket) {
    int on = 1;
    setsockopt(socket, IPPROTO_TCP, TCP_NODELAY, &on, sizeof on);
}

int accept4(int listener, struct sockaddr *address, socklen_t *length, int flags) {
    int taken = real_accept4(listener, address, length, flags);
    if (taken >= 0) {
        connection = taken;
        sockets->reads = sockets->writes = sockets->given = sockets->taken = 0;
        sockets->reads_behind = sockets->failed = sockets->calls_behind = sockets->parted = 0;
    }
    return taken;
}

ssize_t recv(int socket, void *buffer, size_t length, int flags) {
    if (socket != connection)
        return real_recv(socket, buffer, length, flags);
    sockets->reads_behind++;
    if (next_fails(READS, sockets->reads++)) {
        errno = ECONNRESET;
        return -1;
    }
    if (sockets->most_taken)
        send_rest(socket);
    ssize_t given = real_recv(socket, buffer, cut(length, sockets->most_given), flags);
    if (given > 0)
        sockets->given += given;
    return given;
}

ssize_t send(int socket, const void *buffer, size_t length, int flags) {
    if (socket != connection)
        return real_send(socket, buffer, length, flags);
    sockets->reads_behind = 0;
    enum failing kind = sockets->failing == FULL_WRITES ? FULL_WRITES : WRITES;
    if (next_fails(kind, sockets->writes++)) {
        errno = EPIPE;
        return kind == FULL_WRITES ? 0 : -1;
    }
    int gathers = sockets->most_taken ? MSG_MORE : 0;
    ssize_t taken = real_send(socket, buffer, cut(length, sockets->most_taken), flags | gathers);
    if (taken > 0)
        sockets->taken += taken;
    return taken;
}

int shutdown(int socket, int how) {
    if (socket == connection) {
        sockets->parted = 1;
        connection = -1;
    }
    return real_shutdown(socket, how);
}

int close(int file) {
    char left[4096];
    if (file == connection && sockets->failed)
        while (real_recv(file, left, sizeof left, MSG_DONTWAIT) > 0)
            ;
    if (file == connection)
        connection = -1;
    return real_close(file);
}
