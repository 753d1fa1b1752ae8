/* What the benchmarks share: the calls of the crate `probe`, the tables of random tokens, plain passes over books and tables, and the clock. */
#include <stdint.h>
#include <stdio.h>
#include <stdlib.h>
#include <string.h>
#include <time.h>

#define TABLES(entry, byte) \
    entry *parent, size_t parent_len, byte *label, size_t label_len, entry *token, size_t token_len, entry *first, size_t first_len, \
        entry *next, size_t next_len, entry *shift, size_t shift_len
#define READ TABLES(const uint16_t, const uint8_t)

/* What a call answers: kind 0 is a refusal, with its number and value; the other kinds are in crates/probe/specs/Numbers.antt. */
typedef struct {
    size_t kind, numbers[4];
} told;

told probe_read(const uint8_t *book, size_t book_len);
told probe_fit(const uint8_t *book, size_t book_len, const uint8_t *image, size_t image_len, size_t number, size_t end);
told probe_merge(const uint8_t *first, size_t first_len, const uint8_t *second, size_t second_len, uint8_t *out, size_t out_len);
told probe_build(const uint8_t *book, size_t book_len, TABLES(uint16_t, uint8_t));
told probe_test(READ, size_t count);
told probe_start(size_t *state, size_t state_len, size_t n, size_t shortest, size_t nodes);
told probe_carry_on(size_t *state, size_t state_len, READ);
told probe_supply(size_t *state, size_t state_len, READ, uint8_t byte);
told probe_packet(size_t *state, size_t state_len, READ, const uint8_t *bytes, size_t bytes_len);

/* The most entries of a table and bytes of a packet, how many numbers a state has, and which of them counts the bytes spared. */
enum { ENTRIES = 16385, PACKET = 64, NUMBERS = 26, SPARED = 8 };
static uint8_t book[20000];
static size_t book_len;
static uint16_t parent[ENTRIES], token[ENTRIES], first[ENTRIES], next[ENTRIES], shift[ENTRIES];
static uint8_t label[ENTRIES];
static size_t nodes;
static volatile uint64_t sink;

#define LENT parent, ENTRIES, label, ENTRIES, token, ENTRIES, first, ENTRIES, next, ENTRIES, shift, ENTRIES

/* What a benchmark need not use. */
#define SHARED __attribute__((unused)) static

static uint8_t kind_of(size_t size) { return size <= 64 ? size : size == 128 ? 65 : size == 256 ? 66 : size == 512 ? 67 : 68; }

/* `count` tokens of `size` bytes, random, so that they are different and share few endings. */
SHARED void make_book(size_t count, size_t size) {
    book_len = 0;
    for (size_t i = 0; i < count; i++) {
        book[book_len++] = kind_of(size);
        for (size_t j = 0; j < size; j++) book[book_len++] = rand() >> 7;
    }
    book[book_len++] = 0;
}

SHARED void build_tables(void) {
    told r = probe_build(book, book_len, LENT);
    nodes = r.numbers[0];
    if (r.kind != 1) {
        fprintf(stderr, "the book was refused\n");
        exit(1);
    }
}

SHARED void test_tables(void) {
    sink = probe_test(LENT, nodes).kind;
    if (sink != 1) {
        fprintf(stderr, "the built tables were refused\n");
        exit(1);
    }
}

/* Plain passes over the bytes of a book and over tables. Aligned, since where a short loop lies can make it a third slower. */
__attribute__((noinline, aligned(64))) SHARED void pass_bytes(const uint8_t *bytes, size_t length) {
    uint64_t sum = 0;
    for (size_t i = 0; i < length; i++) sum = sum * 31 + bytes[i];
    sink = sum;
}

__attribute__((noinline, aligned(64))) SHARED void pass_tables(void) {
    uint64_t sum = 0;
    for (size_t v = 0; v < nodes; v++) sum = sum * 31 + parent[v] + label[v] + token[v] + first[v] + next[v] + shift[v];
    sink = sum;
}

static double now(void) {
    struct timespec t;
    clock_gettime(CLOCK_MONOTONIC, &t);
    return t.tv_sec + t.tv_nsec * 1e-9;
}

/* The least time of each run, in ten turns, since other work on the machine slows some; short runs are timed many at once. */
static void least_of(void (*const runs[])(void), double *best, size_t count, size_t times) {
    for (size_t i = 0; i < count; i++) best[i] = 1e9;
    for (size_t turn = 0; turn < 10 * count; turn++) {
        size_t i = turn % count;
        double end = now() + 0.03;
        do {
            double from = now();
            for (size_t j = 0; j < times; j++) runs[i]();
            double took = (now() - from) / times;
            if (took < best[i]) best[i] = took;
        } while (now() < end);
    }
}

/* The same, over tables: the fewer nodes, the shorter are the runs. */
SHARED void least(void (*const runs[])(void), double *best, size_t count) {
    least_of(runs, best, count, nodes < 2000 ? 1 + 20000 / (nodes + 10) : 1);
}
