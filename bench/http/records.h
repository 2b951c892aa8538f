// Requests with their responses, as they lie in a file.
#include <stddef.h>
#include <stdio.h>
#include <stdlib.h>

struct record {
    char *request, *response;
    size_t request_length, response_length;
};

struct records {
    struct record *at;
    size_t count;
};

static struct records read_records(const char *path) {
    struct records all = {NULL, 0};
    struct record one;
    FILE *file = fopen(path, "rb");
    if (!file) {
        perror(path);
        exit(1);
    }
    while (fscanf(file, "%zu %zu", &one.request_length, &one.response_length) == 2) {
        fgetc(file);
        one.request = malloc(one.request_length + one.response_length);
        one.response = one.request + one.request_length;
        if (fread(one.request, 1, one.request_length + one.response_length, file) != one.request_length + one.response_length)
            exit(1);
        if (!(all.count & (all.count - 1)))
            all.at = realloc(all.at, (all.count ? 2 * all.count : 1) * sizeof one);
        all.at[all.count++] = one;
    }
    fclose(file);
    return all;
}
