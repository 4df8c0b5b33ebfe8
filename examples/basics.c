#include "basics.h"

#include <errno.h>
#include <stdio.h>
#include <stdlib.h>
#include <string.h>

static void no_memory(void) {
    fputs("no memory left\n", stderr);
    exit(EXIT_FAILURE);
}

static int complain(const char *path) {
    fprintf(stderr, "%s: %s\n", path, strerror(errno));
    return 0;
}

void *allocated(size_t count, size_t size) {
    void *row = calloc(count == 0 ? 1 : count, size);
    if (row == NULL)
        no_memory();
    return row;
}

void *grown(void *row, size_t count, size_t size) {
    const size_t wanted = count == 0 ? 1 : 2 * count;
    void *longer;
    if ((count & (count - 1)) != 0)
        return row;
    if (wanted > SIZE_MAX / 2 / size)
        no_memory();
    longer = realloc(row, wanted * size);
    if (longer == NULL)
        no_memory();
    return longer;
}

char *bytes_of_file(const char *path, size_t *len) {
    FILE *file = fopen(path, "rb");
    char *bytes = NULL;
    int byte, broken;
    if (file == NULL) {
        complain(path);
        return NULL;
    }
    *len = 0;
    while ((byte = getc(file)) != EOF) {
        bytes = grown(bytes, *len, 1);
        bytes[(*len)++] = (char)byte;
    }
    bytes = grown(bytes, *len, 1);
    bytes[*len] = 0;
    broken = ferror(file);
    if (fclose(file) != 0 || broken) {
        complain(path);
        free(bytes);
        return NULL;
    }
    return bytes;
}

int bytes_to_file(const char *path, const void *bytes, size_t len) {
    FILE *file = fopen(path, "wb");
    size_t written;
    if (file == NULL)
        return complain(path);
    written = fwrite(bytes, 1, len, file);
    /* what was held back until now may still fail to reach the disk */
    if (fclose(file) != 0 || written != len)
        return complain(path);
    return 1;
}

int output_is_out(void) {
    if (fflush(stdout) != 0 || ferror(stdout))
        return complain("standard output");
    return 1;
}

int read_whole(const char *word, uint32_t *number) {
    uint64_t value = 0;
    const char *digit = word;
    for (; *digit >= '0' && *digit <= '9' && value <= UINT32_MAX; digit++)
        value = 10 * value + (uint64_t)(*digit - '0');
    *number = (uint32_t)value;
    return digit != word && *digit == 0 && value <= UINT32_MAX;
}
