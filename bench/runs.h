/* Images of runs with books of padded tokens, and files with books cut out of them. */
#include "images.h"

static size_t image_len = N; /* of the image at hand */

/* Tokens of `size` bytes, the first `random` of them random, and zeros behind. */
static void add_padded(size_t count, size_t size, size_t random) {
    while (count--) {
        book[book_len++] = kind_of(size);
        for (size_t i = 0; i < size; i++) book[book_len++] = i < random ? some() : 0;
    }
}

/* Pages of 4 KiB: 40% zeros, 20% FFh, and records of 24 random bytes and 40 zeros in the rest. */
static void padded_image(void) {
    for (size_t page = 0; page < N; page += 4096) {
        uint32_t kind = some() % 5;
        memset(image + page, kind == 2 ? 0xff : 0, 4096);
        if (kind < 3) continue;
        for (uint8_t *p = image + page; p < image + page + 4096; p += 64)
            for (int i = 0; i < 24; i++) p[i] = some();
    }
}

/* A book of padded tokens, planted in such an image. */
static void padded_row(const char *book_name, const size_t sizes[3][3], row_of *row) {
    book_len = 0;
    for (size_t k = 0; k < 3 && sizes[k][0]; k++) add_padded(sizes[k][0], sizes[k][1], sizes[k][2]);
    book[book_len++] = 0;
    padded_image();
    plant();
    row("padded", book_name);
}

/* 64 bytes 00h and 64 FFh in turn, and two tokens of 64 bytes that end in two of either: no run leads far. */
static void turns_row(row_of *row) {
    book_len = 0;
    for (int k = 0; k < 2; k++) {
        add_padded(1, 64, 62);
        memset(book + book_len - 2, k ? 0xff : 0, 2);
    }
    book[book_len++] = 0;
    for (size_t i = 0; i < N; i++) image[i] = i / 64 % 2 ? 0xff : 0;
    plant();
    row("turns", "2 x 64");
}

/* The padded images, one of short runs in turn, and one of a single run. */
static void run_rows(row_of *row) {
    static const struct {
        const char *name;
        size_t sizes[3][3];
    } cases[] = {{"16 to 1024", {{16, 16, 8}, {8, 128, 16}, {4, 1024, 16}}},
                 {"8 to 512", {{16, 8, 4}, {8, 64, 16}, {8, 512, 16}}},
                 {"4 and 64", {{16, 4, 4}, {32, 64, 16}}},
                 {"4 and 1024", {{8, 4, 4}, {8, 1024, 16}}},
                 {"zeros", {{1, 8, 0}, {8, 1024, 16}}}};
    image = malloc(N);
    for (size_t i = 0; i < sizeof cases / sizeof *cases; i++) padded_row(cases[i].name, cases[i].sizes, row);
    turns_row(row);
    run_row("1 and 1024", 1024, row);
    free(image);
}

/* Whether the book has this body already, or for a card number its reverse. */
static int has_body(const uint8_t *body, size_t size) {
    uint8_t reverse[64];
    put_turned(reverse, body, size);
    for (size_t at = 0; at < book_len; at += 1 + book[at]) {
        if (book[at] != size) continue;
        if (!memcmp(book + at + 1, body, size) || (is_card(size) && !memcmp(book + at + 1, reverse, size))) return 1;
    }
    return 0;
}

/* `count` tokens of `least` to `most` bytes, cut out of the image at random places. */
static void cut_row(const char *image_name, const char *book_name, size_t count, size_t least, size_t most, row_of *row) {
    book_len = 0;
    while (count) {
        size_t size = least + some() % (most - least + 1);
        const uint8_t *body = image + some() % (image_len - size);
        if (has_body(body, size)) continue;
        book[book_len++] = size;
        memcpy(book + book_len, body, size), book_len += size;
        count--;
    }
    book[book_len++] = 0;
    row(image_name, book_name);
}

/* A file as the image, as far as it fits, with books cut out of it. */
static void file_rows(const char *name, const char *path, row_of *row) {
    FILE *file = fopen(path, "rb");
    image = malloc(N);
    image_len = file ? fread(image, 1, N, file) : 0;
    if (image_len < 65536) {
        fprintf(stderr, "%s: no image\n", path);
        exit(1);
    }
    fclose(file);
    cut_row(name, "256 x 8", 256, 8, 8, row);
    cut_row(name, "150 x 4-64", 150, 4, 64, row);
    free(image);
    image_len = N;
}

/* "c" and "d" in turn, and the tokens "b" and "b" before 1,023 of them, ending with either: each round goes down all of them, so that
 * 64 KiB are swept and not 16 MiB. */
static void twos_row(row_of *row) {
    image = malloc(N);
    book_len = 0;
    book[book_len++] = 1, book[book_len++] = 'b';
    for (int k = 0; k < 2; k++) {
        book[book_len++] = kind_of(1024), book[book_len++] = 'b';
        for (size_t i = 0; i < 1023; i++) book[book_len++] = 'c' + (i + k) % 2;
    }
    book[book_len++] = 0;
    for (size_t i = 0; i < N; i++) image[i] = 'c' + i % 2;
    row("twos", "1 and 1024");
    free(image);
}
