/* The images of 16 MiB that are swept, each with its book. They are made from one seed, so every benchmark has the same ones, each time. */
#include "common.h"

enum { N = 1 << 24 };
static uint8_t *image;
static uint64_t seed;

static uint32_t some(void) {
    seed ^= seed << 13, seed ^= seed >> 7, seed ^= seed << 17;
    return seed >> 16;
}

static void add_tokens(size_t count, size_t size) {
    while (count--) {
        book[book_len++] = kind_of(size);
        for (size_t i = 0; i < size; i++) book[book_len++] = some();
    }
}

static void mixed_tokens(void) {
    static const size_t sizes[] = {4, 7, 8, 10, 16, 64, 128};
    for (size_t k = 0; k < sizeof sizes / sizeof *sizes; k++) add_tokens(4, sizes[k]);
}

/* Tokens of 8, 16, 32 and 64 bytes, each an ending of the longer ones: the same eight bytes over and over. */
static void nested_tokens(void) {
    add_tokens(1, 8);
    for (size_t size = 16; size <= 64; size *= 2) {
        book[book_len++] = kind_of(size);
        for (size_t i = 0; i < size; i++) book[book_len++] = book[1 + i % 8];
    }
}

static void random_image(void) {
    for (size_t i = 0; i < N; i++) image[i] = some();
}

/* Records of 64 bytes with a counter, a name, a price and padding; erased and cleared pages of 4 KiB between them. */
static void memory_image(void) {
    for (size_t page = 0; page < N; page += 4096) {
        uint32_t kind = some() % 8;
        memset(image + page, kind == 1 ? 0xff : 0, 4096);
        if (kind < 2) continue;
        for (uint8_t *p = image + page; p < image + page + 4096; p += 64) {
            p[0] = some(), p[1] = some() % 4;
            for (int i = 0; i < 8; i++) p[4 + i] = 'A' + some() % 26;
            p[16] = some(), p[17] = some() % 8, p[24] = some() % 100;
            for (int i = 0; i < 4; i++) p[32 + i] = some();
            if (some() % 4 == 0) memset(p + 40, 0xff, 24);
        }
    }
}

/* Card numbers stand in an image in book order or reversed. */
static int is_card(size_t size) { return size == 4 || size == 7 || size == 10; }

static void put_turned(uint8_t *to, const uint8_t *body, size_t size) {
    for (size_t i = 0; i < size; i++) to[i] = body[size - 1 - i];
}

/* Each token is put into the image four times, a card number in two of them reversed. */
static void plant(void) {
    for (size_t at = 0; book[at];) {
        size_t size = book[at] <= 64 ? book[at] : (size_t)128 << (book[at] - 65);
        for (int k = 0; k < 4; k++) {
            uint8_t *to = image + some() % (N - 1024);
            if (is_card(size) && k % 2) put_turned(to, book + at + 1, size);
            else memcpy(to, book + at + 1, size);
        }
        at += 1 + size;
    }
}

/* The same eight bytes over and over: at every eighth place the token of eight bytes ends, and with it each longer one that does not begin
 * left of the image, so that from place 64 on all four end there. */
static void nested_image(void) {
    for (size_t i = 0; i < N; i++) image[i] = book[1 + i % 8];
}

/* What is done with an image and its book once they are made. */
typedef void row_of(const char *image_name, const char *book_name);

/* `count` tokens of `size` bytes; for none, the mixed ones. */
static void random_row(const char *image_name, void (*make_image)(void), const char *book_name, size_t count, size_t size, row_of *row) {
    book_len = 0;
    if (count) add_tokens(count, size);
    else mixed_tokens();
    book[book_len++] = 0;
    make_image();
    plant();
    row(image_name, book_name);
}

static void random_rows(const char *image_name, void (*make_image)(void), row_of *row) {
    static const struct {
        const char *name;
        size_t count, size;
    } cases[] = {{"1 x 32", 1, 32},   {"16 x 16", 16, 16},   {"16 x 1024", 16, 1024},
                 {"256 x 8", 256, 8}, {"256 x 64", 256, 64}, {"mixed", 0, 0}};
    for (size_t i = 0; i < sizeof cases / sizeof *cases; i++)
        random_row(image_name, make_image, cases[i].name, cases[i].count, cases[i].size, row);
}

static void nested_row(row_of *row) {
    book_len = 0;
    nested_tokens();
    book[book_len++] = 0;
    nested_image();
    row("eighths", "8 to 64");
}

/* "a" throughout, and the tokens "b" and "b" before a run of it: nearly all bytes looked at are remembered, closing bytes too. */
static void run_row(const char *book_name, size_t size, row_of *row) {
    book_len = 0;
    book[book_len++] = 1, book[book_len++] = 'b';
    book[book_len++] = kind_of(size), book[book_len++] = 'b';
    memset(book + book_len, 'a', size - 1), book_len += size - 1;
    book[book_len++] = 0;
    memset(image, 'a', N);
    row("run", book_name);
}

static void each_image(row_of *row) {
    seed = 88172645463325252u;
    image = malloc(N);
    random_rows("random", random_image, row);
    random_rows("memory", memory_image, row);
    nested_row(row);
    run_row("1 and 64", 64, row);
    random_row("random", random_image, "256 x 7", 256, 7, row);
    random_row("memory", memory_image, "256 x 7", 256, 7, row);
    free(image);
}
