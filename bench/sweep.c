/* Times the whole-image sweep on 16 MiB, and on the first 64 KiB of the same images, beside the same method by hand in C and beside an
   Aho-Corasick automaton, in one run. Building the tables is part of each call. */
#include "../include/lonnatchi.h"
#include "byhand.h"
#include "runs.h"

enum { ROOM = 1 << 24 };

#ifdef CORASICK
uint64_t corasick_sweep(const uint8_t *book, size_t book_len, const uint8_t *image, size_t n, uint32_t *ends, uint32_t *tokens,
                        size_t room);
#else
#define corasick_sweep(...) 0
#endif

static uint32_t ends[ROOM], tokens[ROOM];
static size_t bytes, length; /* how many bytes of each image are swept, and of the one at hand, which may be smaller */
static lonnatchi_swept swept;
static byhand_found byhand;
static uint64_t corasick;

static void proved(void) { swept = lonnatchi_sweep(book, book_len, image, length, LENT, ends, ROOM, tokens, ROOM); }

static void hand(void) { byhand = byhand_sweep(book, image, length, ends, tokens, ROOM); }

static void automaton(void) { corasick = corasick_sweep(book, book_len, image, length, ends, tokens, ROOM); }

/* The least times of the three, run in turns. */
static void least_three(double best[3]) {
    void (*const runs[])(void) = {proved, hand, automaton};
    double end = now() + 2;
    best[0] = best[1] = best[2] = 1e9;
    do {
        for (int i = 0; i < 3; i++) {
            double from = now();
            runs[i]();
            double took = now() - from;
            if (took < best[i]) best[i] = took;
        }
    } while (now() < end);
}

/* The hits in the buffers, in their order, as one number. */
static uint64_t noted(uint64_t hits) {
    uint64_t sum = hits;
    for (size_t i = 0; i < hits && i < ROOM; i++) sum = (sum * 31 + ends[i]) * 31 + tokens[i];
    return sum;
}

/* The buffers hold no hit. */
static void forget(uint64_t hits) {
    size_t n = hits < ROOM ? hits : ROOM;
    memset(ends, 0, n * sizeof *ends), memset(tokens, 0, n * sizeof *tokens);
}

/* The three find the same hits in the same order, the first two for as many bytes fetched and spared; the automaton may be missing. */
static int agree(void) {
    proved();
    uint64_t wanted = noted(swept.hits);
    forget(swept.hits);
    hand();
    if (swept.refusal || noted(byhand.hits) != wanted || swept.fetched != byhand.fetched || swept.spared != byhand.spared) return 0;
#ifdef CORASICK
    forget(swept.hits);
    automaton();
    if (noted(corasick) != wanted) return 0;
#endif
    return 1;
}

static void row(const char *image_name, const char *book_name) {
    double best[3];
    length = image_len < bytes ? image_len : bytes;
    least_three(best);
    if (!agree()) {
        fprintf(stderr, "%s, %s: the three do not agree\n", image_name, book_name);
        exit(1);
    }
    printf("%-9s %-10s %8zu %8.1f%% %6.1f%% %8.3f ms %8.3f ms %8.3f ms %8.2f %10.2f\n", image_name, book_name, (size_t)swept.hits,
           100.0 * swept.fetched / length, 100.0 * swept.spared / (swept.fetched + swept.spared), best[0] * 1e3, best[1] * 1e3,
           best[2] * 1e3, best[1] / best[0], best[2] / best[0]);
}

static const char *base_name(const char *path) {
    const char *slash = strrchr(path, '/');
    return slash ? slash + 1 : path;
}

static void table(size_t most, char **files) {
    bytes = most;
    printf("the first %zu bytes of each image; fetched: of them; spared: of the bytes looked at\n", bytes);
    printf("%-9s %-10s %8s %9s %7s %11s %11s %11s %8s %10s\n", "image", "book", "hits", "fetched", "spared", "proved", "by hand",
           "automaton", "by hand/", "automaton/");
    each_image(row);
    run_rows(row);
    for (; *files; files++) file_rows(base_name(*files), *files, row);
}

/* Its arguments are the paths of files, which are swept as images too. */
int main(int count, char **arguments) {
    table(N, arguments + 1);
    table(1 << 16, arguments + 1);
    twos_row(row);
    return 0;
}
