// server FILE
// server FILE listen
//
// Reads HTTP requests at standard input, and answers the n-th with the n-th response of FILE, which lies in memory. Of a request it looks
// for the end of its head and for its Content-Length. Each response is one write, before the next request is looked at.
//
// Told to listen, it does so at a free port of this machine, which it prints, takes one connection after the other, and closes each behind
// its 64th response.
#define _GNU_SOURCE
#include <arpa/inet.h>
#include <netinet/in.h>
#include <netinet/tcp.h>
#include <string.h>
#include <strings.h>
#include <sys/socket.h>
#include <unistd.h>

#include "records.h"

enum { A_CONNECTION = 64 };

static size_t body_length(const char *head, const char *end) {
    for (const char *line = head; line < end; line++) {
        if (!strncasecmp(line, "Content-Length:", 15))
            return strtoul(line + 15, NULL, 10);
        line = memchr(line, '\n', end - line);
        if (!line)
            break;
    }
    return 0;
}

// Answers the requests of a connection from this record on, and gives how many it answered, at most so many.
static size_t serve(int in, int out, const struct record *from, size_t most) {
    static char held[1 << 20];
    size_t count = 0, answered = 0;
    for (;;) {
        char *end;
        while (answered < most && (end = memmem(held, count, "\r\n\r\n", 4))) {
            size_t whole = end + 4 - held + body_length(held, end);
            if (count < whole)
                break;
            const struct record *one = from + answered++;
            for (size_t sent = 0; sent < one->response_length;) {
                ssize_t some = write(out, one->response + sent, one->response_length - sent);
                if (some <= 0)
                    return answered;
                sent += some;
            }
            memmove(held, held + whole, count - whole);
            count -= whole;
        }
        ssize_t some = answered < most ? read(in, held + count, sizeof held - count) : 0;
        if (some <= 0)
            return answered;
        count += some;
    }
}

static int listen_somewhere(void) {
    int listener = socket(AF_INET, SOCK_STREAM, 0);
    struct sockaddr_in at = {.sin_family = AF_INET, .sin_addr.s_addr = htonl(INADDR_LOOPBACK)};
    socklen_t size = sizeof at;
    if (bind(listener, (struct sockaddr *)&at, size) || listen(listener, 1) || getsockname(listener, (struct sockaddr *)&at, &size))
        return -1;
    printf("%d\n", ntohs(at.sin_port));
    fflush(stdout);
    return listener;
}

int main(int argc, char **argv) {
    if (argc != 2 && argc != 3)
        return 2;
    struct records all = read_records(argv[1]);
    if (argc == 2) {
        serve(0, 1, all.at, all.count);
        return 0;
    }
    int listener = listen_somewhere(), one = 1;
    if (listener < 0)
        return 1;
    for (size_t answered = 0; answered < all.count;) {
        int taken = accept(listener, NULL, NULL);
        if (taken < 0)
            return 1;
        setsockopt(taken, IPPROTO_TCP, TCP_NODELAY, &one, sizeof one);
        answered += serve(taken, taken, all.at + answered, all.count - answered < A_CONNECTION ? all.count - answered : A_CONNECTION);
        close(taken);
    }
}
