/* Measures the stack that calls need, on plans that need much of it, in both versions of the file. Each call runs on a thread
 * whose stack is painted before: `depth` is how far down the paint is gone (the stack that the call needs), `touched` how many
 * bytes of it are gone. The plain form clears its working arrays on the stack, so that its `touched` on a plan of one node is
 * what it clears, and little more. */
#define _GNU_SOURCE
#include "simmerroof.h"

#include <inttypes.h>
#include <pthread.h>
#include <stdio.h>
#include <stdlib.h>
#include <string.h>
#include <sys/mman.h>

enum { STACK = 32 << 20, OUT = 1 << 17, PAINT = 0xA5 };

static uint8_t file[1 << 16], out[OUT];
static size_t length;
static int version;
static struct simmerroof_work *work;
static uint64_t answer[4];

static void put(const void *bytes, size_t n) { memcpy(file + length, bytes, n), length += n; }
static void byte(int b) { put(&(uint8_t){(uint8_t)b}, 1); }
static void half(int n) { byte(n & 255), byte(n >> 8); }
/* a count of 64 or 128 in version 1, of 512 in version 2 */
static void wide(int n) { version == 1 ? byte(n) : half(n); }
static void column(int q, int n) { byte(0), half(q), half(n); }

/* One table of w columns, without keys. */
static void catalogue(int w) {
    length = 0;
    put("CPL", 3), half(version), byte(1), wide(w);
    for (int i = 1; i <= w; i++)
        half(i);
    if (version == 2)
        byte(0);
}
/* All columns, with as many filters in version 2. */
static void scan(int filters) {
    byte(11), byte(0), half(1), byte(0);
    if (version == 2)
        byte(filters);
    for (int i = 0; version == 2 && i < filters; i++)
        column(1, 1);
}
static void filter(int not) {
    byte(2);
    for (int i = 0; i < not; i++)
        byte(3);
    column(1, 1);
}
static void limit(void) { byte(4), put("\0\0\0\0\3\0\0\0", 8); }
static void sort(void) { byte(3), byte(1), byte(0), column(1, 2); }

static void one_node(void) { catalogue(3), scan(0); }
static void twenty(void) {
    catalogue(3);
    for (int i = 0; i < 6; i++)
        filter(1), sort(), limit();
    byte(9), scan(0);
}
static void broad(void) {
    catalogue(version == 1 ? 64 : 512);
    for (int i = 0; i < 6; i++)
        filter(1), sort(), limit();
    byte(9), scan(16);
}
static void deep_plan(void) {
    catalogue(3);
    for (int i = 0; i < 255; i++)
        i % 2 ? limit() : filter(0);
    scan(0);
}
static void deep_joins(void) {
    catalogue(0);
    for (int i = 0; i < 127; i++)
        byte(10), byte(0), byte(0), byte(0);
    for (int i = 0; i < 128; i++)
        byte(12), byte(1), wide(0);
}
static void deep_expression(void) { catalogue(3), filter(4095), scan(0); }
static void deepest(void) {
    catalogue(3);
    for (int i = 0; i < 254; i++)
        limit();
    byte(1), wide(1), byte(12), half(0), half(9);
    for (int i = 0; i < 4090; i++)
        byte(3);
    column(1, 1), scan(0);
}

static const struct { const char *name; void (*make)(void); } plans[] = {
    {"1 node", one_node},         {"20 nodes", twenty},
    {"20 nodes, broad", broad},   {"256 nodes", deep_plan},
    {"127 joins", deep_joins},    {"4,096 tags deep", deep_expression},
    {"both deep", deepest},
};

static void *plain(void *_) {
    simmerroof_prune_all(SIMMERROOF_HOUSE, 0, file, length, out, OUT, answer);
    return _;
}
static void *lent(void *_) {
    simmerroof_prune_all_with(SIMMERROOF_HOUSE, 0, file, length, out, OUT, work, answer);
    return _;
}
static void *check(void *_) {
    simmerroof_check(file, length, answer);
    return _;
}
static void *list(void *_) {
    simmerroof_list_plan(file, length, out, OUT, answer);
    return _;
}
/* the thread's own need */
static void *nothing(void *_) { return _; }

static const struct { const char *name; void *(*call)(void *); } forms[] = {
    {"plain form", plain}, {"lent form", lent}, {"check", check}, {"list", list},
};

static void measure(uint8_t *stack, void *(*call)(void *), size_t *depth, size_t *touched) {
    pthread_attr_t how;
    pthread_t thread;
    memset(stack, PAINT, STACK);
    pthread_attr_init(&how);
    if (pthread_attr_setstack(&how, stack, STACK) || pthread_create(&thread, &how, call, NULL))
        exit(2);
    pthread_join(thread, NULL);
    pthread_attr_destroy(&how);
    size_t low = 0;
    while (low < STACK && stack[low] == PAINT)
        low++;
    *depth = STACK - low, *touched = 0;
    for (size_t i = low; i < STACK; i++)
        *touched += stack[i] != PAINT;
}

int main(void) {
    uint8_t *stack = mmap(NULL, STACK, PROT_READ | PROT_WRITE, MAP_PRIVATE | MAP_ANONYMOUS | MAP_STACK, -1, 0);
    size_t bare, none, depth, touched;
    if (stack == MAP_FAILED || !(work = malloc(sizeof *work)))
        return 2;
    measure(stack, nothing, &bare, &none);
    printf("working arrays of the lent form: %zu bytes\n", sizeof *work);
    printf("%-12s%-18s", "", "");
    for (size_t f = 0; f < sizeof forms / sizeof *forms; f++)
        printf("%14s depth %11s", forms[f].name, "touched");
    printf("\n");
    for (version = 1; version <= 2; version++)
        for (size_t p = 0; p < sizeof plans / sizeof *plans; p++) {
            plans[p].make();
            printf("version %d   %-18s", version, plans[p].name);
            for (size_t f = 0; f < sizeof forms / sizeof *forms; f++) {
                measure(stack, forms[f].call, &depth, &touched);
                if (answer[0])
                    printf("   refused, code %" PRIu64, answer[0]);
                else
                    printf("%20zu%12zu", depth - bare, touched - none);
            }
            printf("\n");
        }
    return 0;
}
