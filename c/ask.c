/* ask FILE COMMAND..: answers commands over a file with one JSON value per line, as `jpq FILE -c COMMAND..` does. */
#include <errno.h>
#include <jpq.h>
#include <stdio.h>
#include <stdlib.h>
#include <string.h>

static uint8_t *read_all(const char *name, size_t *length) {
    FILE *file = fopen(name, "rb");
    if (!file || fseek(file, 0, SEEK_END) != 0) return NULL;
    *length = (size_t)ftell(file);
    rewind(file);
    uint8_t *bytes = malloc(*length + 1);
    if (bytes && fread(bytes, 1, *length, file) != *length) return NULL;
    fclose(file);
    return bytes;
}

int main(int count, char **words) {
    size_t length, got;
    uint8_t *bytes = count > 1 ? read_all(words[1], &length) : NULL;
    if (count < 2) return fprintf(stderr, "usage: ask FILE COMMAND..\n"), 2;
    if (!bytes) return fprintf(stderr, "ask: %s: %s\n", words[1], strerror(errno)), 3;
    jpq log = JPQ_INIT;
    uint32_t status = jpq_open(bytes, length, JPQ_LINES, JPQ_MOST, &log);
    free(bytes); /* the handle has its own copy */
    for (int i = 2; i < count && status == JPQ_DONE; i++) {
        uint8_t room[4096];
        status = jpq_ask(&log, (const uint8_t *)words[i], strlen(words[i]));
        while ((got = jpq_read(&log, room, sizeof room)) > 0) fwrite(room, 1, got, stdout);
    }
    jpq_close(&log);
    if (status != JPQ_DONE) fprintf(stderr, "ask: %s\n", jpq_message(status));
    return (int)status;
}
