/* Sweeps an image for the tokens of a revocation book, through the two calls of lonnatchi.h, and prints what the program `sweep` prints.
 *
 *   gateway [BOOK IMAGE]      without names: book.bin and image.bin
 *
 * Exit code 1: the book or the image is refused; 2: a file can't be read, or there is no memory. */
#include "../include/lonnatchi.h"
#include <errno.h>
#include <stdio.h>
#include <stdlib.h>
#include <string.h>

/* 1 + the most body bytes a book can have: tables of this length are never too short. */
enum { ENTRIES = 16385 };

/* More than any image may have; what is longer is refused whatever it holds. */
enum { MOST = 16777217 };

static uint16_t parent[ENTRIES], token[ENTRIES], first_child[ENTRIES], next_sibling[ENTRIES], shift[ENTRIES];
static uint8_t label[ENTRIES];

static void stop(const char *what, const char *why) {
    fprintf(stderr, "gateway: %s: %s\n", what, why);
    exit(2);
}

/* The file's bytes, up to MOST of them. */
static uint8_t *content(const char *name, size_t *len) {
    FILE *file = fopen(name, "rb");
    uint8_t *bytes = malloc(MOST);
    if (!file) stop(name, strerror(errno));
    if (!bytes) stop(name, "no memory");
    *len = fread(bytes, 1, MOST, file);
    if (ferror(file)) stop(name, strerror(errno));
    fclose(file);
    return bytes;
}

static const char *words(uint64_t refusal) {
    static const char *const known[] = {
        [1] = "the book runs out in the record at this place, or before its closing 00h",
        [2] = "the kind at this place is above 44h",
        [3] = "there are bytes after the book's closing 00h",
        [4] = "the token of the record at this place is an earlier one again, or one of 4, 7 or 10 bytes reversed",
        [5] = "with the record at this place the book has more than 256 tokens, or 16,384 body bytes with those of reverses",
        [6] = "there is no token in the book",
        [7] = "the tables must have this many entries",
        [8] = "the image may have this many bytes at most",
        [12] = "there are this many hits, more than the buffers hold",
    };
    return refusal < sizeof known / sizeof *known && known[refusal] ? known[refusal] : "unknown";
}

/* The line of a refusal goes to the output, as it does in `sweep`; what it means goes beside it. */
static int refuse(uint64_t refusal, uint64_t value) {
    printf("refused %llu %llu\n", (unsigned long long)refusal, (unsigned long long)value);
    fprintf(stderr, "gateway: refused: %s: %llu\n", words(refusal), (unsigned long long)value);
    return 1;
}

/* The greatest token number in built tables is the number of tokens. */
static unsigned tokens_in(uint64_t nodes) {
    unsigned most = 0;
    for (uint64_t v = 0; v < nodes; v++)
        if (token[v] > most) most = token[v];
    return most;
}

/* Sweeps with room for so many hits. Refusal 12 tells how many there are; then once more, with room for all. */
static lonnatchi_swept sweep(const uint8_t *book, size_t book_len, const uint8_t *image, size_t image_len, uint32_t **ends,
                             uint32_t **tokens, size_t room) {
    *ends = malloc(room * sizeof **ends);
    *tokens = malloc(room * sizeof **tokens);
    if (!*ends || !*tokens) stop("hits", "no memory");
    lonnatchi_swept swept = lonnatchi_sweep(book, book_len, image, image_len, parent, ENTRIES, label, ENTRIES, token, ENTRIES, first_child,
                                            ENTRIES, next_sibling, ENTRIES, shift, ENTRIES, *ends, room, *tokens, room);
    if (swept.refusal != 12) return swept;
    free(*ends), free(*tokens);
    return sweep(book, book_len, image, image_len, ends, tokens, swept.value);
}

int main(int many, char **names) {
    if (many != 1 && many != 3) stop("usage", "gateway [BOOK IMAGE]");
    size_t book_len, image_len;
    uint8_t *book = content(many == 3 ? names[1] : "book.bin", &book_len);
    uint8_t *image = content(many == 3 ? names[2] : "image.bin", &image_len);
    lonnatchi_built built = lonnatchi_build(book, book_len, parent, ENTRIES, label, ENTRIES, token, ENTRIES, first_child, ENTRIES,
                                            next_sibling, ENTRIES, shift, ENTRIES);
    if (built.refusal) return refuse(built.refusal, built.value);
    uint32_t *ends, *tokens;
    lonnatchi_swept swept = sweep(book, book_len, image, image_len, &ends, &tokens, 1000);
    if (swept.refusal) return refuse(swept.refusal, swept.value);
    printf("image %zu tokens %u\n", image_len, tokens_in(built.nodes));
    for (uint64_t i = 0; i < swept.hits; i++) printf("hit %lu %lu\n", (unsigned long)ends[i], (unsigned long)tokens[i]);
    printf("end %llu %llu %llu\n", (unsigned long long)swept.hits, (unsigned long long)swept.fetched, (unsigned long long)swept.spared);
    free(ends), free(tokens), free(book), free(image);
    if (fflush(stdout) || ferror(stdout)) stop("output", strerror(errno));
    return 0;
}
