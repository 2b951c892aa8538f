// client FILE FIRST DEPTH PROGRAM WORD..
// client FILE FIRST DEPTH :PORT
//
// Starts the program with one TCP connection of this machine as its standard input and output, or connects to that port of this machine,
// and sends the requests of FILE. The first FIRST of them go one at a time and are not timed; the others go DEPTH at a time, which are sent
// together once the responses to those before have come. Each response has to be, byte for byte, the one of FILE. Prints the seconds that
// the others took.
//
// At a port each connection ends behind its 64th response, and the next one is made; DEPTH is 1 or 64. There the numbers of entries are not
// compared, since others add entries too.
//
// FILE is a row of records: the length of a request, a space, the length of its response, a line feed, and the bytes of both.
#define _GNU_SOURCE
#include <arpa/inet.h>
#include <ctype.h>
#include <netinet/in.h>
#include <netinet/tcp.h>
#include <stdio.h>
#include <stdlib.h>
#include <string.h>
#include <sys/socket.h>
#include <sys/wait.h>
#include <time.h>
#include <unistd.h>

#include "records.h"

enum { A_CONNECTION = 64 };

static void fail(const char *what) {
    perror(what);
    exit(1);
}

static void hurry(int peer) {
    int one = 1;
    setsockopt(peer, IPPROTO_TCP, TCP_NODELAY, &one, sizeof one);
}

static int connect_to_port(in_port_t port) {
    int peer = socket(AF_INET, SOCK_STREAM, 0);
    struct sockaddr_in at = {.sin_family = AF_INET, .sin_port = port, .sin_addr.s_addr = htonl(INADDR_LOOPBACK)};
    if (connect(peer, (struct sockaddr *)&at, sizeof at))
        fail("connect");
    hurry(peer);
    return peer;
}

static int connect_to(char **words) {
    int listener = socket(AF_INET, SOCK_STREAM, 0);
    struct sockaddr_in at = {.sin_family = AF_INET, .sin_addr.s_addr = htonl(INADDR_LOOPBACK)};
    socklen_t size = sizeof at;
    if (bind(listener, (struct sockaddr *)&at, size) || listen(listener, 1) || getsockname(listener, (struct sockaddr *)&at, &size))
        fail("listen");
    int peer = connect_to_port(at.sin_port);
    int taken = accept(listener, NULL, NULL);
    close(listener);
    hurry(taken);
    if (fork() == 0) {
        close(peer);
        dup2(taken, 0);
        dup2(taken, 1);
        close(taken);
        execvp(words[0], words);
        fail(words[0]);
    }
    close(taken);
    return peer;
}

static void send_all(int peer, const char *bytes, size_t count) {
    while (count) {
        ssize_t sent = write(peer, bytes, count);
        if (sent <= 0)
            fail("write");
        bytes += sent, count -= sent;
    }
}

// Sends these records together, and gives how many bytes their responses have.
static size_t send_some(int peer, const struct record *from, size_t count) {
    static char out[1 << 20];
    size_t sent = 0, wanted = 0;
    for (size_t n = 0; n < count; n++) {
        if (sent + from[n].request_length > sizeof out)
            fail("too many at a time");
        memcpy(out + sent, from[n].request, from[n].request_length);
        sent += from[n].request_length, wanted += from[n].response_length;
    }
    send_all(peer, out, sent);
    return wanted;
}

static void refuse(const char *got, size_t length, const struct record *one) {
    fprintf(stderr, "another response:\n%.*s\nto:\n%.*s\n", (int)length, got, (int)one->request_length, one->request);
    exit(1);
}

// Sends these records together, and takes their responses.
static void exchange(int peer, const struct record *from, size_t count) {
    static char in[1 << 22];
    size_t wanted = send_some(peer, from, count), got = 0;
    if (wanted > sizeof in)
        fail("too many at a time");
    while (got < wanted) {
        ssize_t some = read(peer, in + got, wanted - got);
        if (some <= 0)
            fail("read");
        got += some;
    }
    size_t at = 0;
    for (size_t n = 0; n < count; n++) {
        if (memcmp(in + at, from[n].response, from[n].response_length))
            refuse(in + at, from[n].response_length, from + n);
        at += from[n].response_length;
    }
}

// How many bytes the response has with which these bytes begin, or 0 where not all of it is there.
static size_t whole(const char *bytes, size_t count) {
    const char *end = memmem(bytes, count, "\r\n\r\n", 4);
    const char *length = end ? memmem(bytes, end - bytes, "Content-Length: ", 16) : NULL;
    if (!length)
        return 0;
    size_t size = end + 4 - bytes + strtoul(length + 16, NULL, 10);
    return size <= count ? size : 0;
}

struct piece {
    const char *at;
    size_t length;
};

static int is_same(struct piece one, struct piece other) {
    return one.length == other.length && !memcmp(one.at, other.at, one.length);
}

// What stands before this text and behind it; all of it and nothing where it is not there.
static struct piece before(struct piece all, const char *text) {
    const char *found = memmem(all.at, all.length, text, strlen(text));
    return found ? (struct piece){all.at, found - all.at} : all;
}

static struct piece behind(struct piece all, const char *text) {
    size_t front = before(all, text).length;
    front += front < all.length ? strlen(text) : 0;
    return (struct piece){all.at + front, all.length - front};
}

static struct piece without_digits(struct piece all) {
    while (all.length && isdigit((unsigned char)*all.at))
        all.at++, all.length--;
    return all;
}

// Whether a response is the one that is wanted, but for the number of its entry, and so for its length.
static int is_alike(struct piece got, struct piece wanted) {
    const char *end = "\r\n\r\n", *entry = "\"entry\":";
    if (!is_same(before(got, "\r"), before(wanted, "\r")))
        return 0;
    got = behind(got, end), wanted = behind(wanted, end);
    if (!is_same(before(got, entry), before(wanted, entry)))
        return 0;
    return is_same(without_digits(behind(got, entry)), without_digits(behind(wanted, entry)));
}

// The same at a port, where responses may have other lengths than those that are wanted.
static void exchange_alike(int peer, const struct record *from, size_t count) {
    static char in[1 << 22];
    size_t got = 0, at = 0, size;
    send_some(peer, from, count);
    for (size_t n = 0; n < count; n++) {
        while (!(size = whole(in + at, got - at))) {
            ssize_t some = got < sizeof in ? read(peer, in + got, sizeof in - got) : -1;
            if (some <= 0)
                fail("read");
            got += some;
        }
        if (!is_alike((struct piece){in + at, size}, (struct piece){from[n].response, from[n].response_length}))
            refuse(in + at, size, from + n);
        at += size;
    }
}

int main(int argc, char **argv) {
    if (argc < 5)
        return 2;
    struct records all = read_records(argv[1]);
    size_t first = atol(argv[2]), depth = atol(argv[3]);
    in_port_t port = argv[4][0] == ':' ? htons(atoi(argv[4] + 1)) : 0;
    int peer = port ? connect_to_port(port) : connect_to(argv + 4);
    struct timespec begun = {0}, ended;
    for (size_t n = 0, some; n < all.count; n += some) {
        some = n < first ? 1 : all.count - n < depth ? all.count - n : depth;
        if (n == first)
            clock_gettime(CLOCK_MONOTONIC, &begun);
        if (port && n && n % A_CONNECTION == 0) {
            close(peer);
            peer = connect_to_port(port);
        }
        (port ? exchange_alike : exchange)(peer, all.at + n, some);
    }
    clock_gettime(CLOCK_MONOTONIC, &ended);
    shutdown(peer, SHUT_WR);
    if (!port)
        wait(NULL);
    printf("%.6f\n", ended.tv_sec - begun.tv_sec + (ended.tv_nsec - begun.tv_nsec) / 1e9);
}
