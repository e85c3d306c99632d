/* Loads a server of HTTP on this machine over many connections at once, and prints how fast it answers.
 *
 *   serve-load PORT CONNECTIONS MESSAGES SECONDS FILE
 *
 * Sends so many messages over so many connections, on each the next once the one before it was answered, and none once the
 * seconds are over. FILE has messages as they are sent, each behind a line with its length; they are sent in turn, each on
 * the connection that is free first. A connection that an answer ends is made anew, in the time of the next message. Prints
 * how many were answered, messages a second, and of the seconds that one took the median, the slowest of a hundred and the
 * slowest. It ends with status 1 where an answer is another than `200 OK` with a message of IPP whose status is 0x0000 or
 * 0x0001, or where none comes for ten seconds.
 */
#include <arpa/inet.h>
#include <errno.h>
#include <netinet/in.h>
#include <netinet/tcp.h>
#include <stdio.h>
#include <stdlib.h>
#include <string.h>
#include <strings.h>
#include <sys/epoll.h>
#include <sys/socket.h>
#include <time.h>
#include <unistd.h>

enum { PIECE = 1 << 16, MOST_EVENTS = 256, MOST_SILENCE = 10000 };

/* A connection, the message that it is about, and the answer as far as it came. */
struct peer {
    int fd, is_open;
    const char *text;
    size_t length, sent, got, whole, body, room;
    char *answer;
    double begun;
};

static int port, queue;
static char *texts, *next;
static size_t size;
static double *took;
static long messages, begun, done;

static void fail(const char *why) {
    perror(why);
    exit(1);
}

static double now(void) {
    struct timespec t;
    clock_gettime(CLOCK_MONOTONIC, &t);
    return (double)t.tv_sec + (double)t.tv_nsec / 1e9;
}

static int compare(const void *a, const void *b) {
    double x = *(const double *)a, y = *(const double *)b;
    return (x > y) - (x < y);
}

/* The file's bytes. */
static char *read_file(const char *path, size_t *length) {
    FILE *file = fopen(path, "rb");
    if (file == NULL || fseek(file, 0, SEEK_END) != 0) fail(path);
    *length = (size_t)ftell(file);
    rewind(file);
    char *bytes = malloc(*length + 1);
    if (bytes == NULL || fread(bytes, 1, *length, file) != *length) fail(path);
    bytes[*length] = 0;
    fclose(file);
    return bytes;
}

static void open_peer(struct peer *peer) {
    struct sockaddr_in address = {.sin_family = AF_INET, .sin_port = htons((unsigned short)port)};
    address.sin_addr.s_addr = htonl(INADDR_LOOPBACK);
    int one = 1;
    peer->fd = socket(AF_INET, SOCK_STREAM, 0);
    if (peer->fd < 0 || connect(peer->fd, (struct sockaddr *)&address, sizeof address) != 0) fail("connect");
    setsockopt(peer->fd, IPPROTO_TCP, TCP_NODELAY, &one, sizeof one);
    struct epoll_event event = {.events = EPOLLIN, .data.ptr = peer};
    if (epoll_ctl(queue, EPOLL_CTL_ADD, peer->fd, &event) != 0) fail("epoll_ctl");
    peer->is_open = 1;
}

static void close_peer(struct peer *peer) {
    close(peer->fd);
    peer->is_open = 0;
}

static void wait_for(struct peer *peer, unsigned events) {
    struct epoll_event event = {.events = events, .data.ptr = peer};
    if (epoll_ctl(queue, EPOLL_CTL_MOD, peer->fd, &event) != 0) fail("epoll_ctl");
}

/* Sends as much as the system takes. */
static void send_rest(struct peer *peer) {
    size_t before = peer->sent;
    while (peer->sent < peer->length) {
        ssize_t more = send(peer->fd, peer->text + peer->sent, peer->length - peer->sent, MSG_NOSIGNAL | MSG_DONTWAIT);
        if (more < 0 && errno == EAGAIN) {
            if (before == 0) wait_for(peer, EPOLLIN | EPOLLOUT);
            return;
        }
        if (more <= 0) fail("send");
        peer->sent += (size_t)more;
    }
    if (before > 0) wait_for(peer, EPOLLIN);
}

/* Begins the next message, and answers whether there is one. */
static int begin(struct peer *peer, double end) {
    double time = now();
    if (begun == messages || time >= end) return 0;
    begun++;
    if (next == texts + size) next = texts;
    char *text = NULL;
    peer->length = strtoul(next, &text, 10);
    peer->text = text + 1;
    next = text + 1 + peer->length;
    peer->sent = peer->got = peer->whole = 0;
    peer->begun = time;
    if (!peer->is_open) open_peer(peer);
    send_rest(peer);
    return 1;
}

/* The value of the field of this name in lower case, or nothing. */
static const char *field(const char *head, const char *name) {
    size_t length = strlen(name);
    for (const char *line = strstr(head, "\r\n"); line != NULL; line = strstr(line + 2, "\r\n"))
        if (strncasecmp(line + 2, name, length) == 0) return line + 2 + length;
    return NULL;
}

/* Looks at the head, once it is there. */
static void read_head(struct peer *peer) {
    peer->answer[peer->got] = 0;
    char *end = strstr(peer->answer, "\r\n\r\n");
    if (end == NULL) return;
    const char *length = field(peer->answer, "content-length: ");
    if (strncmp(peer->answer, "HTTP/1.1 200 ", 13) != 0 || length == NULL) {
        fprintf(stderr, "another answer: %.40s\n", peer->answer);
        exit(1);
    }
    peer->body = (size_t)(end + 4 - peer->answer);
    peer->whole = peer->body + strtoul(length, NULL, 10);
}

/* Reads what there is, and answers whether the answer is whole. */
static int receive(struct peer *peer) {
    if (peer->room - peer->got < PIECE) {
        peer->room = peer->room * 2 + PIECE;
        peer->answer = realloc(peer->answer, peer->room + 1);
        if (peer->answer == NULL) fail("memory");
    }
    ssize_t more = recv(peer->fd, peer->answer + peer->got, peer->room - peer->got, MSG_DONTWAIT);
    if (more < 0 && errno == EAGAIN) return 0;
    if (more <= 0) fail("recv");
    peer->got += (size_t)more;
    if (peer->whole == 0) read_head(peer);
    if (peer->whole == 0 || peer->got < peer->whole) return 0;
    if (peer->got != peer->whole || peer->answer[peer->body + 2] != 0 || peer->answer[peer->body + 3] > 1) {
        fprintf(stderr, "another status: %02x%02x\n", peer->answer[peer->body + 2], peer->answer[peer->body + 3]);
        exit(1);
    }
    return 1;
}

/* Serves one event of a peer, and answers whether it goes on. */
static int serve(struct peer *peer, unsigned events, double end) {
    if (events & EPOLLOUT) send_rest(peer);
    if (!(events & ~(unsigned)EPOLLOUT) || !receive(peer)) return 1;
    took[done++] = now() - peer->begun;
    const char *connection = field(peer->answer, "connection: ");
    if (connection != NULL && strncasecmp(connection, "close", 5) == 0) close_peer(peer);
    return begin(peer, end);
}

int main(int count, char **words) {
    if (count != 6) return 2;
    port = atoi(words[1]);
    long connections = atol(words[2]), active = 0;
    messages = atol(words[3]);
    double start = now(), end = start + atof(words[4]);
    next = texts = read_file(words[5], &size);
    took = calloc((size_t)messages + 1, sizeof *took);
    struct peer *peers = calloc((size_t)connections, sizeof *peers);
    queue = epoll_create1(0);
    if (took == NULL || peers == NULL || queue < 0) fail("memory");
    for (long c = 0; c < connections; c++) open_peer(&peers[c]);
    start = now();
    for (long c = 0; c < connections; c++) active += begin(&peers[c], end);
    while (active > 0) {
        struct epoll_event events[MOST_EVENTS];
        int told = epoll_wait(queue, events, MOST_EVENTS, MOST_SILENCE);
        if (told == 0) exit((fprintf(stderr, "no answer for ten seconds\n"), 1));
        for (int e = 0; e < told; e++)
            if (!serve(events[e].data.ptr, events[e].events, end)) active--;
    }
    double all = now() - start;
    if (done == 0) return 1;
    qsort(took, (size_t)done, sizeof *took, compare);
    printf("%ld %.0f %.6f %.6f %.6f\n", done, (double)done / all, took[done / 2], took[done - 1 - done / 100], took[done - 1]);
    return 0;
}
