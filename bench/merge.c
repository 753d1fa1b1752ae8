/* Times merging two books and reading both, beside a plain pass over the bytes of both, in one run. */
#include "common.h"

static uint8_t north[sizeof book], south[sizeof book], out[sizeof book];
static size_t north_len, south_len;

/* Two books of `count` tokens of `size` bytes, of which `common` are in both, so that the merged one is `book`. */
static void make_pair(size_t count, size_t size, size_t common) {
    make_book(2 * count - common, size);
    north_len = count * (1 + size) + 1;
    memcpy(north, book, north_len);
    north[north_len - 1] = 0;
    size_t from = (count - common) * (1 + size);
    south_len = book_len - from;
    memcpy(south, book + from, south_len);
}

static void expect(told r, size_t number) {
    sink = r.numbers[0];
    if (r.kind == 1 && sink == number) return;
    fprintf(stderr, "a call answered %zu %zu %zu\n", r.kind, r.numbers[0], r.numbers[1]);
    exit(1);
}

static size_t tokens;

static void pass_both(void) {
    pass_bytes(north, north_len);
    pass_bytes(south, south_len);
}

static void read_both(void) {
    expect(probe_read(north, north_len), tokens);
    expect(probe_read(south, south_len), tokens);
}

static void merge(void) { expect(probe_merge(north, north_len, south, south_len, out, sizeof out), book_len); }

int main(void) {
    static const size_t cases[][3] = {{128, 64, 0}, {192, 8, 128}, {16, 512, 0}, {192, 7, 128}};
    static void (*const runs[])(void) = {pass_both, read_both, merge};
    printf("%-12s %7s %7s %18s %18s\n", "each book", "common", "merged", "read both/pass", "merge/pass");
    for (size_t i = 0; i < sizeof cases / sizeof *cases; i++) {
        double took[3];
        tokens = cases[i][0];
        make_pair(tokens, cases[i][1], cases[i][2]);
        merge();
        if (memcmp(out, book, book_len)) {
            fprintf(stderr, "another book was merged\n");
            return 1;
        }
        least_of(runs, took, 3, 20);
        printf("%4zu x %-5zu %7zu %7zu %9.3f us %5.2f %9.3f us %5.2f\n", tokens, cases[i][1], cases[i][2], book_len, took[1] * 1e6,
               took[1] / took[0], took[2] * 1e6, took[2] / took[0]);
    }
    return 0;
}
