/* Counts, for packets of four sizes, how many of the bytes that are sent are used, and how many packets it takes. */
#include "images.h"

/* Each call tests the tables, so only the first part of each image is swept. */
enum { PART = 1 << 16, SIZES = 4 };
static const size_t sizes[SIZES] = {8, 16, 32, PACKET};

/* What a sweep sent, used and spared, and its hits: how many, and all of them in their order as one number. */
typedef struct {
    size_t packets, sent, used, spared, hits;
    uint64_t noted;
} tally;

static void need(int holds, const char *what) {
    if (holds) return;
    fprintf(stderr, "%s\n", what);
    exit(1);
}

static told send_byte(size_t *state, size_t place, tally *t) {
    t->packets++, t->sent++, t->used++;
    return probe_supply(state, NUMBERS, LENT, image[place]);
}

/* The bytes from the wanted place down, fewer where the image begins. */
static told send_packet(size_t *state, size_t place, size_t size, tally *t) {
    uint8_t packet[PACKET];
    size_t count = place + 1 < size ? place + 1 : size;
    for (size_t k = 0; k < count; k++) packet[k] = image[place - k];
    told r = probe_packet(state, NUMBERS, LENT, packet, count);
    t->packets++, t->sent += count, t->used += r.numbers[3];
    return r;
}

static told note_hit(size_t *state, told hit, tally *t) {
    t->hits++;
    t->noted = (t->noted * 31 + hit.numbers[0]) * 31 + hit.numbers[1];
    return probe_carry_on(state, NUMBERS, LENT);
}

/* By packets of this size; by single bytes for 1. */
static tally sweep(size_t size) {
    tally t = {0};
    size_t state[NUMBERS], shortest = probe_read(book, book_len).numbers[2];
    probe_start(state, NUMBERS, PART, shortest, nodes);
    told r = probe_carry_on(state, NUMBERS, LENT);
    while (r.kind == 1 || r.kind == 2) {
        if (r.kind == 2) r = note_hit(state, r, &t);
        else if (size == 1) r = send_byte(state, r.numbers[0], &t);
        else r = send_packet(state, r.numbers[0], size, &t);
    }
    need(r.kind == 3, "a sweep was refused");
    t.spared = state[SPARED];
    return t;
}

static int alike(tally a, tally b) { return a.used == b.used && a.spared == b.spared && a.hits == b.hits && a.noted == b.noted; }

static void row(const char *image_name, const char *book_name) {
    build_tables();
    tally singly = sweep(1);
    printf("%-8s %-10s %8zu %8zu %6.1f%%", image_name, book_name, singly.hits, singly.used, 100.0 * singly.used / PART);
    for (size_t i = 0; i < SIZES; i++) {
        tally t = sweep(sizes[i]);
        need(alike(t, singly), "a sweep by packets used or spared other bytes, or found other hits, than one by single bytes");
        printf(" %7zu %5.1f%%", t.packets, 100.0 * t.used / t.sent);
    }
    printf("\n");
}

int main(void) {
    printf("the first %d bytes of each image; for packets of 8 to 64 bytes, how many are sent, and the bytes used of those sent\n", PART);
    printf("%-8s %-10s %8s %16s", "image", "book", "hits", "fetched");
    for (size_t i = 0; i < SIZES; i++) printf(" %14zu", sizes[i]);
    printf("\n");
    each_image(row);
    return 0;
}
