/* Times reading a book, building its tables and testing them, beside a plain pass over the same data, and laying its last token over the
   longest image, beside reading and comparing, in one run. */
#include "common.h"

static void pass_book(void) { pass_bytes(book, book_len); }

/* 256 tokens of 64 bytes that differ in their last two bytes alone and have four hashes between them, so that all but four are compared
   with each one before, up to there: the costliest book to read that was found. */
static void make_alike(void) {
    size_t made = 0;
    book_len = 0;
    for (unsigned y = 0; y < 256; y++)
        for (unsigned x = 0; x < 256 && made < 256; x++) {
            if ((37 * y + x) % 1024 > 3) continue;
            book[book_len++] = 64;
            memset(book + book_len, 'a', 62);
            book_len += 62;
            book[book_len++] = x;
            book[book_len++] = y;
            made++;
        }
    book[book_len++] = 0;
}

/* `count` tokens of `size` bytes, all FFh but for the one at a place, which counts up from 0. The two costliest books to find the shifts of
   that were found are such: of 16 x 1,024 bytes with the place 0, each token without its last bytes is walked down almost to its first,
   however many it lacks; of 256 x 64 bytes with the place 62, each passes 255 siblings on its way. */
static void make_runs(size_t count, size_t size, size_t place) {
    book_len = 0;
    for (size_t i = 0; i < count; i++) {
        book[book_len++] = kind_of(size);
        memset(book + book_len, 255, size);
        book[book_len + place] = i;
        book_len += size;
    }
    book[book_len++] = 0;
}

static void read_book(void) { sink = probe_read(book, book_len).numbers[0]; }

/* The last token of the book, at the image's end, where it fits; and its bytes, compared plainly from the right. */
static uint8_t image[16777216];
static size_t last, last_size;

static void fit_last(void) { sink = probe_fit(book, book_len, image, sizeof image, last, sizeof image).kind; }

static void compare_last(void) {
    const uint8_t *body = book + book_len - 1 - last_size, *under = image + sizeof image - last_size;
    size_t k = last_size;
    while (k != 0 && body[k - 1] == under[k - 1]) k--;
    sink = k;
}

static void lay_last(size_t count, size_t size) {
    memcpy(image + sizeof image - size, book + book_len - 1 - size, size);
    last = count;
    last_size = size;
    fit_last();
    if (sink != 1) {
        fprintf(stderr, "the token does not fit\n");
        exit(1);
    }
}

static void row(size_t count, size_t size, const char *kind) {
    static void (*const runs[])(void) = {pass_book, read_book, build_tables, pass_tables, test_tables, fit_last, compare_last};
    double took[7];
    build_tables();
    lay_last(count, size);
    least(runs, took, 7);
    printf("%4zu x %-5zu%-6s %7zu %9.3f us %5.2f %9.3f us %7.2f %9.3f us %5.2f %9.3f us %5.2f\n", count, size, kind, nodes, took[1] * 1e6,
           took[1] / took[0], took[2] * 1e6, took[2] / took[0], took[4] * 1e6, took[4] / took[3], took[5] * 1e6,
           took[5] / (took[1] + took[6]));
}

int main(void) {
    static const size_t cases[][2] = {{256, 64}, {16, 1024}, {256, 8}, {256, 7}, {1, 5}};
    printf("%-18s %7s %18s %20s %18s %18s\n", "book", "nodes", "read/pass", "build/pass", "test/pass", "fit/read+cmp");
    for (size_t i = 0; i < sizeof cases / sizeof *cases; i++) {
        make_book(cases[i][0], cases[i][1]);
        row(cases[i][0], cases[i][1], "");
    }
    make_alike();
    row(256, 64, "alike");
    make_runs(16, 1024, 0);
    row(16, 1024, "runs");
    make_runs(256, 64, 62);
    row(256, 64, "forks");
    return 0;
}
