/* A server of HTTP on many connections at once, on one thread, beside which `serve` is measured.
 *
 *   serve-in-c fixed
 *   serve-in-c each|groups FILE FIND_ACCOUNT SET_NEXT_JOB ADD_JOB ADD_DOCUMENT
 *
 * Serves connections on 127.0.0.1, each as far as it goes, by epoll. Of a message it reads the head and as many bytes as its
 * Content-Length says, keeps them until all have come, and answers each message with the same 72 bytes. Prints `listening`
 * and its port, a free one, once clients can connect.
 *
 *   fixed   does no more: what a server on one thread can do at most
 *   each    puts of each Print-Job the rows that `serve` puts into FILE, which `ipp-room` made, by the stock SQLite library
 *           and the four texts, in a transaction of its own, and answers once that is committed
 *   groups  so too, but in one transaction all Print-Jobs that came in one turn of its loop, at most 64, and alone one
 *           whose body has more than 256 KiB
 *
 * A message of another operation is answered without the file. Nothing else is judged; an account that is not open ends it.
 */
#include "print-job.h"
#include <arpa/inet.h>
#include <netinet/in.h>
#include <netinet/tcp.h>
#include <string.h>
#include <sys/epoll.h>
#include <sys/socket.h>
#include <unistd.h>

enum { ROOM = 1 << 16, MOST_EVENTS = 64, LARGE = 1 << 18, PRINT_JOB = 2 };

/* A connection, and the bytes that came: of the next message, how long its head is and all of it, once the head is there. */
struct peer {
    int fd, is_waiting;
    size_t got, head, whole, room;
    char *bytes;
};

static const char answer[] =
    "HTTP/1.1 200 OK\r\nContent-Type: application/ipp\r\nContent-Length: 72\r\n\r\n"
    "\1\1\0\0\0\0\0\1\1"
    "\107\0\22attributes-charset\0\5utf-8"
    "\110\0\33attributes-natural-language\0\2en\3";

static int is_writing, is_grouping, waiters;
/* Those whose Print-Jobs are in the transaction that is open, in order, and those who are answered behind them. */
static struct peer *waiting[MOST_EVENTS];

/* That an answer did not go shows when the connection is read. */
static void reply(struct peer *peer) {
    send(peer->fd, answer, sizeof answer - 1, MSG_NOSIGNAL);
}

/* Commits what is written, and answers those who wait for it. */
static void finish(void) {
    if (waiters > 0) run(commit);
    for (int w = 0; w < waiters; w++) {
        waiting[w]->is_waiting = 0;
        reply(waiting[w]);
    }
    waiters = 0;
}

/* Where the data of a message of IPP begins, behind its end tag (RFC 8010 section 3.1). */
static size_t data_at(const unsigned char *body, size_t length) {
    size_t at = 8;
    while (at < length && body[at] != 3)
        if (body[at++] >= 0x10)
            for (int part = 0; part < 2 && at + 2 <= length; part++) at += 2 + 256 * body[at] + body[at + 1];
    return at < length ? at + 1 : length;
}

/* Does what a whole message asks, and answers it or has it wait. */
static void take(struct peer *peer) {
    static const char path[] = "POST /ipp/print/";
    const unsigned char *body = (unsigned char *)peer->bytes + peer->head;
    size_t length = peer->whole - peer->head;
    int prints = is_writing && length >= 8 && body[2] == 0 && body[3] == PRINT_JOB
        && memcmp(peer->bytes, path, sizeof path - 1) == 0;
    int is_alone = prints && (!is_grouping || length > LARGE);
    if (!prints && !peer->is_waiting) {
        reply(peer);
        return;
    }
    if (is_alone || waiters == MOST_EVENTS) finish();
    if (waiters == 0) run(begin);
    if (prints) {
        char *account = peer->bytes + sizeof path - 1;
        account[strcspn(account, "/?# \r")] = 0;
        size_t at = data_at(body, length);
        write_rows(account, next_job(account), (const char *)body + at, length - at);
    }
    waiting[waiters++] = peer;
    peer->is_waiting = 1;
    if (is_alone) finish();
}

/* Whether a message is whole. Makes room for one whose head is there. */
static int is_whole(struct peer *peer) {
    if (peer->whole == 0) {
        char *end = memmem(peer->bytes, peer->got, "\r\n\r\n", 4);
        if (end == NULL) return 0;
        peer->head = (size_t)(end + 4 - peer->bytes);
        char *length = memmem(peer->bytes, peer->head, "Content-Length: ", 16);
        peer->whole = peer->head + (length == NULL ? 0 : strtoul(length + 16, NULL, 10));
        if (peer->whole > peer->room) peer->bytes = realloc(peer->bytes, peer->room = peer->whole);
        if (peer->bytes == NULL) exit(1);
    }
    return peer->got >= peer->whole;
}

/* Reads once and takes what is whole. Answers whether the connection goes on. */
static int serve(struct peer *peer) {
    if (peer->got == peer->room) return 0;
    ssize_t more = recv(peer->fd, peer->bytes + peer->got, peer->room - peer->got, 0);
    if (more <= 0) return 0;
    peer->got += (size_t)more;
    while (is_whole(peer)) {
        take(peer);
        peer->got -= peer->whole;
        memmove(peer->bytes, peer->bytes + peer->whole, peer->got);
        peer->whole = 0;
    }
    return 1;
}

static void admit(int queue, int listener) {
    int one = 1, fd = accept(listener, NULL, NULL);
    if (fd < 0) return;
    setsockopt(fd, IPPROTO_TCP, TCP_NODELAY, &one, sizeof one);
    struct peer *peer = calloc(1, sizeof *peer);
    if (peer == NULL || (peer->bytes = malloc(ROOM)) == NULL) exit(1);
    peer->fd = fd;
    peer->room = ROOM;
    struct epoll_event event = {.events = EPOLLIN, .data.ptr = peer};
    if (epoll_ctl(queue, EPOLL_CTL_ADD, fd, &event) != 0) exit(1);
}

int main(int count, char **words) {
    is_grouping = count > 1 && strcmp(words[1], "groups") == 0;
    is_writing = is_grouping || (count > 1 && strcmp(words[1], "each") == 0);
    if (count != (is_writing ? 7 : 2)) return 2;
    if (is_writing) open_file(words[2], words + 3);
    struct sockaddr_in address = {.sin_family = AF_INET, .sin_addr.s_addr = htonl(INADDR_LOOPBACK)};
    socklen_t size = sizeof address;
    int listener = socket(AF_INET, SOCK_STREAM, 0), queue = epoll_create1(0);
    if (bind(listener, (struct sockaddr *)&address, size) != 0 || listen(listener, 1024) != 0
        || getsockname(listener, (struct sockaddr *)&address, &size) != 0) {
        perror("bind");
        return 1;
    }
    struct epoll_event event = {.events = EPOLLIN, .data.ptr = NULL};
    if (queue < 0 || epoll_ctl(queue, EPOLL_CTL_ADD, listener, &event) != 0) return 1;
    printf("listening %d\n", ntohs(address.sin_port));
    fflush(stdout);
    for (;;) {
        struct epoll_event events[MOST_EVENTS];
        int told = epoll_wait(queue, events, MOST_EVENTS, -1);
        for (int e = 0; e < told; e++) {
            struct peer *peer = events[e].data.ptr;
            if (peer == NULL) {
                admit(queue, listener);
            } else if (!serve(peer)) {
                close(peer->fd);
                free(peer->bytes);
                free(peer);
            }
        }
        finish();
    }
}
