/* Loads a server of HTTP on this machine, and prints how fast it answers.
 *
 *   http-load PORT CONNECTIONS MESSAGES FILE
 *
 * Sends so many messages on so many connections one after another, each once the one before it was answered. FILE has
 * messages as they are sent, each behind a line with its length; they are sent in turn. Prints messages a second, and of
 * the seconds that one took the median, the slowest of a hundred and the slowest. It ends with status 1 where an answer
 * is another than `200 OK` with a message of IPP whose status is 0x0000 or 0x0001.
 */
#include <arpa/inet.h>
#include <netinet/in.h>
#include <netinet/tcp.h>
#include <stdio.h>
#include <stdlib.h>
#include <string.h>
#include <sys/socket.h>
#include <time.h>
#include <unistd.h>

enum { MOST_ANSWER = 1 << 22 };

static char answer[MOST_ANSWER];

static void fail(const char *why) {
    perror(why);
    exit(1);
}

static double now(void) {
    struct timespec t;
    clock_gettime(CLOCK_MONOTONIC, &t);
    return (double)t.tv_sec + (double)t.tv_nsec / 1e9;
}

static int compare(const void *a, const void *b) {
    double x = *(const double *)a, y = *(const double *)b;
    return (x > y) - (x < y);
}

static int connect_to(int port) {
    struct sockaddr_in address = {.sin_family = AF_INET, .sin_port = htons((unsigned short)port)};
    address.sin_addr.s_addr = htonl(INADDR_LOOPBACK);
    int one = 1, fd = socket(AF_INET, SOCK_STREAM, 0);
    if (fd < 0 || connect(fd, (struct sockaddr *)&address, sizeof address) != 0) fail("connect");
    setsockopt(fd, IPPROTO_TCP, TCP_NODELAY, &one, sizeof one);
    return fd;
}

static void send_all(int fd, const char *bytes, size_t size) {
    while (size > 0) {
        ssize_t sent = send(fd, bytes, size, MSG_NOSIGNAL);
        if (sent <= 0) fail("send");
        bytes += sent;
        size -= (size_t)sent;
    }
}

/* Reads one answer whole. */
static void receive(int fd) {
    size_t got = 0, whole = 0;
    char *body = NULL;
    while (whole == 0 || got < whole) {
        if (got == MOST_ANSWER) exit(1);
        ssize_t more = recv(fd, answer + got, MOST_ANSWER - got, 0);
        if (more <= 0) fail("recv");
        got += (size_t)more;
        if (whole == 0) {
            char *end = memmem(answer, got, "\r\n\r\n", 4);
            if (end == NULL) continue;
            char *length = memmem(answer, got, "Content-Length: ", 16);
            if (memcmp(answer, "HTTP/1.1 200 OK\r\n", 17) != 0 || length == NULL) exit(1);
            body = end + 4;
            whole = (size_t)(body - answer) + strtoul(length + 16, NULL, 10);
        }
    }
    if (body[2] != 0 || body[3] > 1) exit(1);
}

/* The file's bytes. */
static char *read_file(const char *path, size_t *size) {
    FILE *file = fopen(path, "rb");
    if (file == NULL || fseek(file, 0, SEEK_END) != 0) fail(path);
    *size = (size_t)ftell(file);
    rewind(file);
    char *bytes = malloc(*size + 1);
    if (bytes == NULL || fread(bytes, 1, *size, file) != *size) fail(path);
    bytes[*size] = 0;
    fclose(file);
    return bytes;
}

int main(int count, char **words) {
    if (count != 5) return 2;
    int port = atoi(words[1]);
    long connections = atol(words[2]), messages = atol(words[3]), done = 0;
    size_t size = 0;
    char *texts = read_file(words[4], &size), *next = texts;
    double *took = calloc((size_t)messages, sizeof *took);
    if (took == NULL) fail("memory");
    double begun = now();
    for (long c = 0; c < connections; c++) {
        int fd = connect_to(port);
        for (; done < messages * (c + 1) / connections; done++) {
            if (next == texts + size) next = texts;
            char *text = NULL;
            size_t length = strtoul(next, &text, 10);
            next = text + 1 + length;
            double before = now();
            send_all(fd, text + 1, length);
            receive(fd);
            took[done] = now() - before;
        }
        close(fd);
    }
    double all = now() - begun;
    qsort(took, (size_t)messages, sizeof *took, compare);
    printf("%.0f %.6f %.6f %.6f\n", (double)messages / all, took[messages / 2], took[messages - 1 - messages / 100], took[messages - 1]);
    return 0;
}
