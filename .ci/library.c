/* asks COLLECTION SCRIPT FRAMING LINES [THREADS]: opens a collection, runs a script over it by LINES lines in each call, and writes
 * what they answer. Where LINES is 0 jpq_run runs the whole script, and where it is below 0 it runs the first -LINES lines and
 * jpq_ask the others. It ends with the first status that is not 0. With THREADS that many threads do so, each with a handle of its
 * own and a stack of a megabyte, and all have to read the same. Nothing here calls malloc, so that each growth is the library's. */
#define _GNU_SOURCE
#include <fcntl.h>
#include <jpq.h>
#include <pthread.h>
#include <stdlib.h>
#include <string.h>
#include <unistd.h>

enum { MOST = 1 << 22, THREADS = 4, STACK = 1 << 20 };
static uint8_t collection[MOST], script[MOST];
static size_t collection_length, script_length;
static uint32_t framing;
static long lines;

static size_t load(const char *name, uint8_t *room) {
    int file = open(name, O_RDONLY);
    size_t length = 0;
    ssize_t got;
    while (file >= 0 && (got = read(file, room + length, MOST - length)) > 0) length += (size_t)got;
    close(file);
    return length;
}

/* Reads the answer by pieces of a size that changes, and writes it or adds it to the sum. */
static void take(jpq *handle, uint64_t *sum) {
    uint8_t room[1 << 12];
    size_t size = 1, got, left = jpq_left(handle);
    while ((got = jpq_read(handle, room, size)) > 0) {
        if (got > size || jpq_left(handle) != (left -= got)) _exit(90);
        if (!sum) {
            if (write(1, room, got) != (ssize_t)got) _exit(91);
        } else {
            for (size_t i = 0; i < got; i++) *sum = *sum * 1099511628211u + room[i];
        }
        size = size * 3 % sizeof room + 1;
    }
    if (left != 0 || jpq_left(handle) != 0) _exit(92);
}

/* Where the next lines of the script end, from a place on. */
static size_t lines_end(size_t at, long count) {
    for (long n = 0; n < count && at < script_length; n++) {
        const uint8_t *feed = memchr(script + at, '\n', script_length - at);
        at = feed ? (size_t)(feed - script) + 1 : script_length;
    }
    return at;
}

/* Runs the first lines of the script by jpq_run, and the others over the handle that it leaves. */
static uint32_t run_and_ask(jpq *handle, uint64_t *sum) {
    size_t end = lines == 0 ? script_length : lines_end(0, -lines);
    uint32_t status = jpq_run(collection, collection_length, framing, JPQ_MOST, script, end, handle);
    /* The collection is there after the statuses that say so, and is not after the others. */
    if ((status == JPQ_DONE && !handle->is_open) || (status > JPQ_DONE && status < JPQ_SCRIPT && handle->is_open)) _exit(99);
    take(handle, sum);
    if (status != JPQ_DONE || end == script_length) return status;
    status = jpq_ask(handle, script + end, script_length - end);
    take(handle, sum);
    return status;
}

static uint32_t run(uint64_t *sum) {
    jpq handle = JPQ_INIT;
    memset(handle.spare, 0x5A, sizeof handle.spare);
    uint64_t spare[2];
    memcpy(spare, handle.spare, sizeof spare);
    uint32_t status;
    if (lines <= 0) {
        status = run_and_ask(&handle, sum);
    } else {
        status = jpq_open(collection, collection_length, framing, JPQ_MOST, &handle);
        for (size_t at = 0; at < script_length && status == JPQ_DONE;) {
            size_t end = lines_end(at, lines);
            status = jpq_ask(&handle, script + at, end - at);
            take(&handle, sum);
            at = end;
        }
    }
    if ((handle.at != NULL) != handle.is_open && handle.is_open) _exit(93);
    jpq_close(&handle);
    jpq_close(&handle);
    if (handle.is_open || memcmp(spare, handle.spare, sizeof spare) != 0) _exit(94);
    if (jpq_ask(&handle, script, script_length) != JPQ_SHUT || jpq_left(&handle) != 0) _exit(95);
    return status;
}

static uint64_t sums[THREADS];
static void *run_thread(void *number) {
    return (void *)(uintptr_t)run(&sums[(uintptr_t)number]);
}

int main(int count, char **words) {
    if (count < 5) return 96;
    collection_length = load(words[1], collection);
    script_length = load(words[2], script);
    framing = (uint32_t)atoi(words[3]);
    lines = atol(words[4]);
    if (count == 5) return (int)run(NULL);
    pthread_t threads[THREADS];
    pthread_attr_t small;
    if (pthread_attr_init(&small) || pthread_attr_setstacksize(&small, STACK)) return 97;
    for (uintptr_t i = 0; i < THREADS; i++)
        if (pthread_create(&threads[i], &small, run_thread, (void *)i)) return 97;
    for (uintptr_t i = 0; i < THREADS; i++) {
        void *status;
        pthread_join(threads[i], &status);
        if (status || sums[i] != sums[0] || sums[i] == 0) return 98;
    }
    return 0;
}
