/* Preloaded before a built program, refuses one of its growths: of all its calls of malloc, calloc and realloc, counted
   together, the one whose number is REFUSE, and none where that is 0; with NEXT also the one after it. On the descriptor
   TOLD it writes `refused` at that call, `asked again` where the call after it asks for the same memory or less of it, and
   where REFUSE is 0 how many calls there were when the program ends. */
#define _GNU_SOURCE
#include <dlfcn.h>
#include <errno.h>
#include <stdio.h>
#include <stdlib.h>
#include <string.h>
#include <unistd.h>

static void *(*real_malloc)(size_t), *(*real_calloc)(size_t, size_t), *(*real_realloc)(void *, size_t);
static long growths, refused;
static int told = -1, next;
static void *refused_old;
static size_t refused_size;

static void find(void) {
    if (real_realloc) return;
    real_malloc = dlsym(RTLD_NEXT, "malloc");
    real_calloc = dlsym(RTLD_NEXT, "calloc");
    real_realloc = dlsym(RTLD_NEXT, "realloc");
}

static void tell(const char *line) {
    if (write(told, line, strlen(line)) < 0) _exit(99);
}

/* What the loader of programs asks for before this is not counted: `told` is below 0 until then. */
__attribute__((constructor)) static void start(void) {
    find();
    refused = atol(getenv("REFUSE"));
    next = getenv("NEXT") != NULL;
    told = atoi(getenv("TOLD"));
}

__attribute__((destructor)) static void stop(void) {
    char line[32];
    if (refused) return;
    snprintf(line, sizeof line, "%ld\n", growths);
    tell(line);
}

static int refuses(void *old, size_t size) {
    find();
    if (told < 0) return 0;
    growths += 1;
    if (refused && growths == refused) {
        refused_old = old;
        refused_size = size;
        tell("refused\n");
    } else if (refused && growths == refused + 1) {
        if (old == refused_old && size <= refused_size) tell("asked again\n");
        if (!next) return 0;
    } else {
        return 0;
    }
    errno = ENOMEM;
    return 1;
}

void *malloc(size_t size) { return refuses(NULL, size) ? NULL : real_malloc(size); }
void *calloc(size_t count, size_t size) { return refuses(NULL, count * size) ? NULL : real_calloc(count, size); }
void *realloc(void *old, size_t size) { return refuses(old, size) ? NULL : real_realloc(old, size); }
