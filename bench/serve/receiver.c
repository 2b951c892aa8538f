// receiver
//
// Listens at a free port of this machine, which it prints, and answers each frame that comes over any of its connections with a receipt of it.
// It keeps nothing.
#include <arpa/inet.h>
#include <netinet/in.h>
#include <netinet/tcp.h>
#include <signal.h>
#include <stdio.h>
#include <sys/socket.h>
#include <unistd.h>

static int skip(FILE *in, size_t count) {
    static char some[1 << 16];
    while (count) {
        size_t got = fread(some, 1, count < sizeof some ? count : sizeof some, in);
        if (!got)
            return 0;
        count -= got;
    }
    return 1;
}

static void answer(int peer) {
    FILE *in = fdopen(peer, "r");
    char name[33];
    unsigned long k;
    size_t length;
    int one = 1;
    setsockopt(peer, IPPROTO_TCP, TCP_NODELAY, &one, sizeof one);
    while (fscanf(in, "FRAME %32s %lu %zu", name, &k, &length) == 3 && fgetc(in) == '\n' && skip(in, length))
        dprintf(peer, "RECEIPT %s %lu\n", name, k);
}

int main(void) {
    int listener = socket(AF_INET, SOCK_STREAM, 0);
    struct sockaddr_in at = {.sin_family = AF_INET, .sin_addr.s_addr = htonl(INADDR_LOOPBACK)};
    socklen_t size = sizeof at;
    if (bind(listener, (struct sockaddr *)&at, size) || listen(listener, 16) || getsockname(listener, (struct sockaddr *)&at, &size))
        return 1;
    signal(SIGCHLD, SIG_IGN);
    printf("%d\n", ntohs(at.sin_port));
    fflush(stdout);
    for (;;) {
        int peer = accept(listener, NULL, NULL);
        if (peer < 0)
            return 1;
        if (fork() == 0) {
            close(listener);
            answer(peer);
            return 0;
        }
        close(peer);
    }
}
