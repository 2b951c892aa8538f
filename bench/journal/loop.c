/* Keeps records as the log does: the record behind its gate, a sync, the gate, a sync. */
#include <fcntl.h>
#include <stdlib.h>
#include <string.h>
#include <unistd.h>

int main(int count, char **words) {
    if (count != 4) return 2;
    long records = atol(words[2]), length = atol(words[3]);
    int log = open(words[1], O_RDWR | O_CREAT | O_EXCL, 0644);
    char *framed = calloc(length + 5, 1), open_gate = 1;
    if (log < 0 || !framed) return 1;
    memset(framed + 4, 'x', length);
    off_t gate = 64;
    if (pwrite(log, "", 1, gate) != 1 || fdatasync(log)) return 1;
    for (long k = 0; k < records; k++) {
        if (pwrite(log, framed, length + 5, gate + 1) != length + 5 || fdatasync(log)) return 1;
        if (pwrite(log, &open_gate, 1, gate) != 1 || fdatasync(log)) return 1;
        gate += length + 5;
    }
    return 0;
}
