/* A server of HTTP that answers each message with the same 72 bytes: what a server can do at most.
 *
 *   fixed-answers PORT
 *
 * Serves connections on 127.0.0.1 one after another. Of a message it reads the head and as many bytes as its
 * Content-Length says.
 */
#include <arpa/inet.h>
#include <netinet/in.h>
#include <netinet/tcp.h>
#include <stdio.h>
#include <stdlib.h>
#include <string.h>
#include <sys/socket.h>
#include <unistd.h>

enum { ROOM = 1 << 16 };

static const char answer[] =
    "HTTP/1.1 200 OK\r\nContent-Type: application/ipp\r\nContent-Length: 72\r\n\r\n"
    "\1\1\0\0\0\0\0\1\1"
    "\107\0\22attributes-charset\0\5utf-8"
    "\110\0\33attributes-natural-language\0\2en\3";

/* Serves one connection to its end. */
static void serve(int fd) {
    static char buffer[ROOM];
    size_t got = 0;
    for (;;) {
        char *end = memmem(buffer, got, "\r\n\r\n", 4);
        if (end != NULL) {
            char *length = memmem(buffer, got, "Content-Length: ", 16);
            size_t head = (size_t)(end + 4 - buffer);
            size_t left = length == NULL ? 0 : strtoul(length + 16, NULL, 10);
            size_t here = got - head < left ? got - head : left;
            memmove(buffer, end + 4 + here, got - head - here);
            got -= head + here;
            for (left -= here; left > 0;) {
                ssize_t more = recv(fd, buffer, left < ROOM ? left : ROOM, 0);
                if (more <= 0) return;
                left -= (size_t)more;
            }
            if (send(fd, answer, sizeof answer - 1, MSG_NOSIGNAL) <= 0) return;
            continue;
        }
        if (got == ROOM) return;
        ssize_t more = recv(fd, buffer + got, ROOM - got, 0);
        if (more <= 0) return;
        got += (size_t)more;
    }
}

int main(int count, char **words) {
    if (count != 2) return 2;
    struct sockaddr_in address = {.sin_family = AF_INET, .sin_port = htons((unsigned short)atoi(words[1]))};
    address.sin_addr.s_addr = htonl(INADDR_LOOPBACK);
    int one = 1, listener = socket(AF_INET, SOCK_STREAM, 0);
    setsockopt(listener, SOL_SOCKET, SO_REUSEADDR, &one, sizeof one);
    if (bind(listener, (struct sockaddr *)&address, sizeof address) != 0 || listen(listener, 128) != 0) {
        perror("bind");
        return 1;
    }
    puts("listening");
    fflush(stdout);
    for (;;) {
        int fd = accept(listener, NULL, NULL);
        if (fd < 0) return 1;
        setsockopt(fd, IPPROTO_TCP, TCP_NODELAY, &one, sizeof one);
        serve(fd);
        close(fd);
    }
}
