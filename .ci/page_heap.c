/* Tries the heap of the page: two hundred thousand random calls over 64 MiB of memory, each block filled with bytes of its
 * own, which have to be there as it is resized and freed. Then all is freed, and half of the memory has to be had again in
 * blocks of half a MiB: small blocks stay where they lie, so that one block of it is not to be had. */
#define _DEFAULT_SOURCE
#include <stdint.h>
#include <stdio.h>
#include <stdlib.h>
#include <string.h>
#include <sys/mman.h>

struct tried {
    uint64_t ok;
    uint8_t *p;
};
struct tried rattle_alloc(uint64_t n, uint64_t align);
struct tried rattle_realloc(uint8_t *p, uint64_t kept, uint64_t n, uint64_t align);
void rattle_dealloc(uint8_t *p);

enum { PAGE = 65536, PAGES = 1024, BLOCKS = 400, CALLS = 200000 };
static uint8_t *memory;
static uint64_t held = 2;

/* The heap's addresses are those of the memory, as it counts from the beginning of a module's: so that lies at 0 for it. */
unsigned long long base(void) { return (uint64_t)memory + 1000; }
unsigned long long pages_held(void) { return (uint64_t)memory / PAGE + held; }
int grow(unsigned long long pages) {
    if (pages > PAGES - held) return 0;
    held += pages;
    return 1;
}

static struct {
    uint8_t *p;
    uint64_t n;
    uint8_t fill;
} blocks[BLOCKS];
static uint64_t seed = 88172645463325252u, refused;

static uint64_t below(uint64_t n) {
    seed ^= seed << 13, seed ^= seed >> 7, seed ^= seed << 17;
    return seed % n;
}

static uint64_t some_size(void) {
    switch (below(8)) {
    case 0: return below(20);
    case 1: return below(3) ? below(20000) : below(9000000);
    case 2: return 1000 + below(60);
    default: return below(2500);
    }
}

static void stop(const char *what) {
    printf("heap: NOT AS STATED: %s\n", what);
    exit(1);
}

static void expect(int at, uint64_t n) {
    for (uint64_t i = 0; i < n; i += n > 4096 && i > 64 && i + 200 < n ? 97 : 1)
        if (blocks[at].p[i] != blocks[at].fill) stop("bytes of a block changed");
}

static void hold(int at, struct tried got, uint64_t n) {
    int is_outside = got.p < memory || got.p + n > memory + PAGE * held;
    if ((uint64_t)got.p % 16 || is_outside) stop("a block is not aligned, or lies outside");
    blocks[at].p = got.p, blocks[at].n = n, blocks[at].fill = (uint8_t)below(256);
    memset(got.p, blocks[at].fill, n);
}

static void turn(int at) {
    uint64_t n = some_size();
    if (!blocks[at].p) {
        struct tried got = rattle_alloc(n, 16);
        if (got.ok & 1) hold(at, got, n);
        else refused++;
        return;
    }
    expect(at, blocks[at].n);
    if (below(2)) {
        rattle_dealloc(blocks[at].p);
        blocks[at].p = 0;
        return;
    }
    struct tried got = rattle_realloc(blocks[at].p, blocks[at].n, n, 16);
    if (!(got.ok & 1)) {
        refused++;
        expect(at, blocks[at].n);
        return;
    }
    blocks[at].p = got.p;
    expect(at, n < blocks[at].n ? n : blocks[at].n);
    hold(at, got, n);
}

int main(void) {
    uint8_t *room = mmap(0, (PAGES + 1ull) * PAGE, PROT_READ | PROT_WRITE, MAP_PRIVATE | MAP_ANONYMOUS, -1, 0);
    if (room == MAP_FAILED) stop("no memory");
    memory = (uint8_t *)(((uint64_t)room + PAGE - 1) / PAGE * PAGE);
    for (int call = 0; call < CALLS; call++) turn((int)below(BLOCKS));
    for (int at = 0; at < BLOCKS; at++)
        if (blocks[at].p) expect(at, blocks[at].n), rattle_dealloc(blocks[at].p);
    for (int at = 0; at < PAGES / 16; at++)
        if (!(rattle_alloc(PAGE * 8ull, 16).ok & 1)) stop("what was freed is not had again");
    if (!refused) stop("no call was refused");
    printf("page: %d calls of the heap, %llu refused\n", CALLS, (unsigned long long)refused);
    return 0;
}
