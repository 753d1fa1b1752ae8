/* Compares the gateway's two calls with a plain reading of the papers, on random, damaged and largest inputs: answers, tables, hit
 * buffers and the bytes around them. It knows nothing of the proved code; only lonnatchi.h. Fails at the first difference. */
#include "../include/lonnatchi.h"
#include <stdio.h>
#include <stdlib.h>
#include <string.h>

enum { TABLES = 6, ENTRIES = 16385, GUARD = 64, BOOK = 20000, LIMIT = 16777216 };

static uint64_t seed = 0x9e3779b97f4a7c15u;
static uint32_t some(void) {
    seed ^= seed << 13, seed ^= seed >> 7, seed ^= seed << 17;
    return seed >> 16;
}
static size_t below(size_t n) { return n ? some() % n : 0; }

/* Lent memory with guard bytes on both sides, and what it held before the call. */
typedef struct {
    uint8_t *all, *before;
    size_t width, len;
} lent;

static void *data(lent *m) { return m->all + GUARD; }

static lent lend(size_t width, size_t len) {
    size_t whole = 2 * GUARD + width * len;
    lent m = {malloc(whole), malloc(whole), width, len};
    for (size_t i = 0; i < whole; i++) m.all[i] = some();
    memcpy(m.before, m.all, whole);
    return m;
}

static void give_back(lent *m) { free(m->all), free(m->before); }

static uint64_t entry(const lent *m, const uint8_t *from, size_t i) {
    uint64_t x = 0;
    memcpy(&x, from + GUARD + m->width * i, m->width);
    return x;
}

static unsigned long cases, calls;

static void fail(const char *what, uint64_t is, uint64_t wanted) {
    fprintf(stderr, "case %lu: %s is %llu, wanted %llu\n", cases, what, (unsigned long long)is, (unsigned long long)wanted);
    exit(1);
}

static void same(const char *what, uint64_t is, uint64_t wanted) {
    if (is != wanted) fail(what, is, wanted);
}

/* The first `n` entries are `wanted`; all else is as it was, the guards too. */
static void holds(const char *what, const lent *m, const uint32_t *wanted, size_t n) {
    for (size_t i = 0; i < n; i++) same(what, entry(m, m->all, i), wanted[i]);
    size_t from = GUARD + m->width * n, whole = 2 * GUARD + m->width * m->len;
    if (memcmp(m->all, m->before, GUARD)) fail(what, 0, 1);
    if (memcmp(m->all + from, m->before + from, whole - from)) fail(what, 2, 3);
}

/* A word of a token: its bytes in one of the orders in which they stand in an image. */
typedef struct {
    const uint8_t *bytes;
    size_t size, token;
} word;

/* The book: its refusal, or its tokens and their words. */
static struct {
    size_t refusal, value, many, words, total, shortest, longest;
    word word[512];
    uint8_t reversed[257][10];
} told;

static int refuse(size_t number, size_t value) {
    told.refusal = number, told.value = value;
    return 0;
}

/* The words of a token: its bytes and, of 4, 7 or 10, its bytes reversed, for which room is given, if they differ; how many there are. */
static size_t words_of(const uint8_t *body, size_t size, size_t token, uint8_t *reversed, word words[2]) {
    words[0] = (word){body, size, token}, words[1] = (word){reversed, size, token};
    if (size != 4 && size != 7 && size != 10) return 1;
    for (size_t i = 0; i < size; i++) reversed[i] = body[size - 1 - i];
    return memcmp(body, reversed, size) ? 2 : 1;
}

static int read_book(const uint8_t *book, size_t len) {
    told.refusal = told.value = told.many = told.words = told.total = told.longest = 0, told.shortest = 1024;
    for (size_t at = 0;;) {
        if (at >= len) return refuse(1, len);
        size_t kind = book[at], size = kind <= 64 ? kind : kind <= 68 ? (size_t)128 << (kind - 65) : 0;
        if (kind > 68) return refuse(2, at);
        if (!kind) {
            if (at + 1 < len) return refuse(3, at + 1);
            return told.many ? 1 : refuse(6, 0);
        }
        if (at + 1 + size > len) return refuse(1, at);
        word own[2];
        size_t words = words_of(book + at + 1, size, told.many + 1, told.reversed[told.many], own);
        if (told.many == 256 || told.total + words * size > 16384) return refuse(5, at);
        for (size_t w = 0; w < told.words; w++)
            if (told.word[w].size == size && !memcmp(told.word[w].bytes, book + at + 1, size)) return refuse(4, at);
        for (size_t w = 0; w < words; w++) told.word[told.words++] = own[w];
        told.many++, told.total += words * size;
        if (size < told.shortest) told.shortest = size;
        if (size > told.longest) told.longest = size;
        at += 1 + size;
    }
}

/* Rule 5: a word, moved s to the right, agrees with byte x that k others lie right of. */
static int agrees(const word *w, size_t s, size_t k, uint8_t x) {
    return w->size <= k + s || w->bytes[w->size - 1 - (k + s)] == x;
}

/* The smallest shift at which some word agrees with the bytes before `end`, from the one that k others lie right of to the one that d - 1
 * do; the shortest word's length where there is none. */
static size_t least_shift(const uint8_t *end, size_t k, size_t d) {
    for (size_t s = 1; s < told.shortest; s++)
        for (const word *w = told.word; w < told.word + told.words; w++) {
            size_t i = k;
            while (i < d && agrees(w, s, i, end[-1 - (ptrdiff_t)i])) i++;
            if (i == d) return s;
        }
    return told.shortest;
}

/* The tables: a node for each different ending as it first occurs; links by searching all nodes, shifts by trying all of them. */
static uint32_t table[TABLES][ENTRIES];
static size_t nodes;

static size_t child(size_t node, uint8_t x) {
    for (size_t v = node + 1; v < nodes; v++)
        if (table[0][v] == node && table[1][v] == x) return v;
    return 0;
}

/* The node's ending is its labels up to the root, from left to right. */
static size_t node_shift(size_t node) {
    uint8_t ending[1024];
    size_t d = 0;
    for (; node; node = table[0][node]) ending[d++] = table[1][node];
    return least_shift(ending + d, 0, d);
}

static void build(void) {
    memset(table, 0, sizeof table);
    nodes = 1;
    for (const word *w = told.word; w < told.word + told.words; w++) {
        size_t node = 0;
        for (size_t k = w->size; k-- > 0;) {
            size_t v = child(node, w->bytes[k]);
            if (!v) v = nodes++, table[0][v] = node, table[1][v] = w->bytes[k];
            node = v;
        }
        table[2][node] = w->token;
    }
    for (size_t v = 1; v < nodes; v++) {
        if (!table[3][table[0][v]]) table[3][table[0][v]] = v;
        for (size_t w = v + 1; w < nodes && !table[4][v]; w++)
            if (table[0][w] == table[0][v]) table[4][v] = w;
    }
    for (size_t v = 0; v < nodes; v++) table[5][v] = node_shift(v);
}

/* The hits by comparing each word at each end, the longer word first. */
static uint32_t *hit_end, *hit_token;
static size_t hits, hit_room;

static void hit(size_t end, size_t number) {
    if (hits == hit_room) {
        hit_room = 2 * hit_room + 64;
        hit_end = realloc(hit_end, hit_room * sizeof *hit_end), hit_token = realloc(hit_token, hit_room * sizeof *hit_token);
    }
    hit_end[hits] = end, hit_token[hits++] = number;
}

static void search(const uint8_t *image, size_t n) {
    const word *order[512];
    for (size_t w = 0; w < told.words; w++) {
        size_t i = w;
        for (; i && order[i - 1]->size < told.word[w].size; i--) order[i] = order[i - 1];
        order[i] = &told.word[w];
    }
    hits = 0;
    for (size_t end = 1; end <= n; end++)
        for (size_t i = 0; i < told.words; i++) {
            const word *w = order[i];
            if (w->size <= end && !memcmp(image + end - w->size, w->bytes, w->size)) hit(end, w->token);
        }
}

/* Rule 5, where d bytes before `end` match, and the one left of them closed the round or nothing did. */
static size_t shift(const uint8_t *end, size_t d, int closed) {
    size_t node = least_shift(end, 0, d), byte = closed ? least_shift(end, d, d + 1) : 1;
    return node > byte ? node : byte;
}

/* The d bytes before `end` are an ending of a word that has at least `more` bytes in front of it. */
static int ending(const uint8_t *end, size_t d, size_t more) {
    for (const word *w = told.word; w < told.word + told.words; w++)
        if (w->size >= d + more && !memcmp(w->bytes + w->size - d, end - d, d)) return 1;
    return 0;
}

/* How many bytes the reading rules fetch, and how many they take from stretches instead. */
typedef struct {
    uint64_t fetched, spared;
} bill;

static bill billed(const uint8_t *image, size_t n) {
    size_t left[8], right[8], used = 0, b = told.shortest;
    bill all = {0, 0};
    while (b <= n) {
        size_t d = 0, k = 0;
        int closed = 0;
        while (!closed && d < b && ending(image + b, d, 1)) {
            size_t at = b - 1 - d, known = 0;
            for (size_t i = 0; i < used; i++) known |= left[i] <= at && at < right[i];
            all.fetched += !known, all.spared += known;
            if (ending(image + b, d + 1, 0)) d++;
            else closed = 1;
        }
        size_t from = b - d, edge = from, to = b + shift(image + b, d, closed);
        for (size_t i = 0; i < used; i++) {
            if (left[i] >= from) continue;
            if (right[i] > edge) edge = right[i];
            if (4 * (to - right[i]) <= right[i] - left[i]) left[k] = left[i], right[k++] = right[i];
        }
        if (4 * (to - b) <= b - edge) left[k] = edge, right[k++] = b;
        used = k, b = to;
    }
    return all;
}

/* Lends tables and buffers of these lengths to both calls, and compares. What the plain reading says of the book and the image stands. */
static void compare(const uint8_t *book, size_t book_len, const uint8_t *image, size_t n, const size_t lens[TABLES],
                    size_t ends_len, size_t tokens_len, bill wanted) {
    static const size_t widths[TABLES] = {2, 1, 2, 2, 2, 2};
    static const char *const names[TABLES] = {"parent", "label", "token", "first child", "next sibling", "shift"};
    lent t[TABLES], u[TABLES], ends = lend(4, ends_len), tokens = lend(4, tokens_len);
    size_t shortest = lens[0], number = told.refusal, value = told.value, room = ends_len < tokens_len ? ends_len : tokens_len;
    for (int i = 0; i < TABLES; i++) {
        t[i] = lend(widths[i], lens[i]), u[i] = lend(widths[i], lens[i]);
        if (lens[i] < shortest) shortest = lens[i];
    }
    if (!number && shortest < 1 + told.total) number = 7, value = 1 + told.total;
    lonnatchi_built made = lonnatchi_build(book, book_len, data(&t[0]), lens[0], data(&t[1]), lens[1], data(&t[2]), lens[2],
                                           data(&t[3]), lens[3], data(&t[4]), lens[4], data(&t[5]), lens[5]);
    same("build's refusal", made.refusal, number), same("build's value", made.value, value);
    same("nodes", made.nodes, number ? 0 : nodes), same("shortest", made.shortest, number ? 0 : told.shortest);
    same("longest", made.longest, number ? 0 : told.longest);
    for (int i = 0; i < TABLES; i++) holds(names[i], &t[i], table[i], number ? 0 : nodes);
    if (!number && n > LIMIT) number = 8, value = LIMIT;
    size_t built = number ? 0 : nodes, noted = number ? 0 : hits < room ? hits : room;
    if (!number && hits > room) number = 12, value = hits;
    lonnatchi_swept r = lonnatchi_sweep(book, book_len, image, n, data(&u[0]), lens[0], data(&u[1]), lens[1], data(&u[2]), lens[2],
                                        data(&u[3]), lens[3], data(&u[4]), lens[4], data(&u[5]), lens[5], data(&ends), ends_len,
                                        data(&tokens), tokens_len);
    same("sweep's refusal", r.refusal, number), same("sweep's value", r.value, value);
    same("hits", r.hits, number ? 0 : hits), same("fetched", r.fetched, number ? 0 : wanted.fetched);
    same("spared", r.spared, number ? 0 : wanted.spared);
    for (int i = 0; i < TABLES; i++) holds(names[i], &u[i], table[i], built);
    holds("ends", &ends, hit_end, noted), holds("tokens", &tokens, hit_token, noted);
    for (int i = 0; i < TABLES; i++) give_back(&t[i]), give_back(&u[i]);
    give_back(&ends), give_back(&tokens);
    calls++;
}

/* Reads, builds and searches plainly; the numbers of bytes fetched and spared. */
static bill plainly(const uint8_t *book, size_t book_len, const uint8_t *image, size_t n) {
    static const bill none;
    nodes = hits = 0;
    cases++;
    if (!read_book(book, book_len)) return none;
    build(), search(image, n < LIMIT ? n : LIMIT);
    return n <= LIMIT ? billed(image, n) : none;
}

/* Compares with hit buffers of every length from none to one more than enough, where hits are few; of some lengths, where they are many. */
static void check(const uint8_t *book, size_t book_len, const uint8_t *image, size_t n, const size_t lens[TABLES]) {
    bill wanted = plainly(book, book_len, image, n);
    size_t most = hits < 8 ? hits + 1 : 0;
    for (size_t i = 0; i <= most; i++)
        for (size_t k = 0; k <= most; k++)
            if (most) compare(book, book_len, image, n, lens, i, k, wanted);
    for (size_t i = 0; i < 3 && !most; i++) compare(book, book_len, image, n, lens, below(hits + 2), i ? hits + 1 : below(hits + 2), wanted);
    if (!most) compare(book, book_len, image, n, lens, hits, hits, wanted);
}

static uint8_t book[BOOK], *image;
static size_t book_len;

static void add(const uint8_t *body, size_t size) {
    book[book_len++] = size <= 64 ? size : size == 128 ? 65 : size == 256 ? 66 : size == 512 ? 67 : 68;
    memcpy(book + book_len, body, size);
    book_len += size;
}

static void add_random(size_t count, size_t size, uint32_t letters) {
    uint8_t body[1024];
    while (count--) {
        for (size_t i = 0; i < size; i++) body[i] = letters ? 'a' + below(letters) : some();
        add(body, size);
    }
}

static void turn(uint8_t *bytes, size_t n) {
    for (size_t i = 0; i < n / 2; i++) {
        uint8_t x = bytes[i];
        bytes[i] = bytes[n - 1 - i], bytes[n - 1 - i] = x;
    }
}

/* One token more, the book's first reversed, which has this size. */
static void add_first_turned(size_t size) {
    uint8_t body[64];
    memcpy(body, book + 1, size);
    turn(body, size);
    add(body, size);
}

/* A token, or its bytes reversed, at a place of the image. */
static void plant(const uint8_t *body, size_t size, size_t at) {
    memcpy(image + at, body, size);
    if (below(2)) turn(image + at, size);
}

/* A small book over few letters, some of its bodies an ending of another one's reverse; how many bytes its bodies have. */
static size_t random_book(uint32_t letters) {
    static const size_t sizes[] = {1, 1, 2, 2, 3, 3, 4, 4, 4, 5, 6, 7, 7, 8, 10, 10, 12, 16, 30, 64, 128};
    uint8_t body[128];
    size_t size = 0, own = 0;
    book_len = 0;
    for (size_t many = 1 + below(6); many; many--) {
        if (size && size <= 64 && !below(5)) {
            size = below(3) ? 1 + below(size) : size;
            turn(body, size);
        } else {
            size_t same_letter = below(3);
            size = sizes[below(sizeof sizes / sizeof *sizes)];
            for (size_t i = 0; i < size; i++) body[i] = same_letter ? 'a' + below(letters) : 'a';
            if (!below(4)) body[0] = 'b';
        }
        add(body, size);
        own += size;
    }
    book[book_len++] = 0;
    return own;
}

/* A small book, an image with its tokens in it; now and then a damaged book, or tables too short, some with room for the bodies alone. */
static void random_case(void) {
    uint32_t letters = 1 + below(3);
    size_t lens[TABLES], n = below(2) ? below(40) : below(400), own = random_book(letters);
    for (size_t i = 0; i < n; i++) image[i] = 'a' + below(letters);
    for (size_t k = below(4), at = 0; k && at < book_len; k--) {
        size_t size = book[at] <= 64 ? book[at] : 128;
        if (size && size <= n) plant(book + at + 1, size, below(n - size + 1));
        at += 1 + size;
    }
    if (!below(4)) book_len = below(book_len + 1);
    if (!below(4) && book_len) book[below(book_len)] = below(3) ? below(70) : some();
    if (!below(8)) book[book_len++] = some();
    for (int i = 0; i < TABLES; i++) lens[i] = below(6) ? 700 + below(100) : below(4) ? below(600) : 1 + own;
    check(book, book_len, image, n, lens);
}

/* A book of endings of one body, in any order. */
static void nested_book(const uint8_t body[64]) {
    uint64_t taken = 0;
    book_len = 0;
    for (size_t many = 2 + below(9); many; many--) {
        size_t size = 1 + below(below(2) ? 10 : 64);
        if (taken >> (size - 1) & 1) continue;
        taken |= (uint64_t)1 << (size - 1);
        add(body + 64 - size, size);
    }
    book[book_len++] = 0;
}

/* An image of endings of that body, of which some are reversed or spoilt; its length. */
static size_t nested_image(const uint8_t body[64], uint32_t letters) {
    size_t n = 0, least = 20 + below(120);
    while (n < least) {
        size_t size = 1 + below(64);
        plant(body + 64 - size, size, n);
        n += size;
        if (!below(3)) image[n - 1 - below(size)] = 'a' + below(letters + 1);
    }
    return n;
}

/* Tokens inside tokens, and hit buffers that end within the hits of one end: the shorter one has every small length, and some others. */
static void nested_case(void) {
    static const size_t lens[TABLES] = {700, 700, 700, 700, 700, 700};
    uint8_t body[64];
    uint32_t letters = 1 + below(3);
    for (size_t i = 0; i < sizeof body; i++) body[i] = 'a' + below(letters);
    nested_book(body);
    size_t n = nested_image(body, letters);
    bill wanted = plainly(book, book_len, image, n);
    for (size_t room = 0; room <= hits + 1; room += room < 30 ? 1 : 1 + below(hits / 8 + 1)) {
        compare(book, book_len, image, n, lens, room, hits + below(2), wanted);
        compare(book, book_len, image, n, lens, room + below(2), room, wanted);
    }
}

/* The letters of a case of runs: 00h or 'a' for the first. */
static uint8_t run_letter(uint32_t letters, int zeros) {
    uint8_t k = below(letters);
    return k || !zeros ? 'a' + k : 0;
}

/* A body of some letters between two runs, each of one byte and maybe empty; now and then none but long ones. */
static size_t padded_body(uint8_t body[1024], uint32_t letters, int zeros, int large) {
    static const size_t sizes[] = {1, 4, 7, 8, 8, 10, 16, 16, 24, 40, 64, 64, 128, 512, 1024};
    size_t size = sizes[large ? 12 + below(3) : below(below(8) ? 12 : 15)], front = below(size + 1);
    size_t behind = below(3) ? below(size - front + 1) : size - front;
    for (size_t i = 0; i < size; i++) body[i] = run_letter(letters, zeros);
    memset(body, run_letter(2, zeros), front), memset(body + size - behind, run_letter(2, zeros), behind);
    return size;
}

static size_t size_at(size_t at) { return book[at] <= 64 ? book[at] : (size_t)128 << (book[at] - 65); }

/* Runs of one byte, with tokens and some letters between them; its length. */
static size_t run_image(uint32_t letters, int zeros) {
    size_t n = 0, least = below(8) ? 100 + below(500) : 2000;
    while (n < least) {
        size_t at = 0, run = below(3) ? below(40) : below(1200), few = below(6);
        memset(image + n, run_letter(2, zeros), run), n += run;
        for (; few; few--) image[n++] = run_letter(letters, zeros);
        for (size_t k = below(4); k && book[at]; k--) at += 1 + size_at(at);
        if (below(2)) plant(book + at + 1, size_at(at), n), n += size_at(at);
    }
    return n;
}

/* Tokens padded on either side or both, in an image of runs. */
static void run_case(void) {
    static const size_t lens[TABLES] = {4200, 4200, 4200, 4200, 4200, 4200};
    uint8_t body[1024];
    uint32_t letters = 2 + below(2);
    int zeros = below(2), large = !below(8);
    book_len = 0;
    for (size_t many = 1 + below(4); many; many--) add(body, padded_body(body, letters, zeros, large));
    book[book_len++] = 0;
    check(book, book_len, image, run_image(letters, zeros), lens);
}

/* An accepted book, with each table in turn an entry too short, and none. */
static void short_cases(void) {
    size_t lens[TABLES], n = 40;
    bill wanted;
    do {
        random_book(2);
        for (size_t i = 0; i < n; i++) image[i] = 'a' + below(2);
        wanted = plainly(book, book_len, image, n);
    } while (told.refusal);
    for (int i = 0; i <= TABLES; i++) {
        for (int k = 0; k < TABLES; k++) lens[k] = 1 + told.total - (k == i);
        compare(book, book_len, image, n, lens, hits, hits, wanted);
    }
}

static void full(size_t n) {
    static const size_t lens[TABLES] = {ENTRIES, ENTRIES, ENTRIES, ENTRIES, ENTRIES, ENTRIES};
    check(book, book_len, image, n, lens);
}

/* A token of each length there is, all of one letter, so that as many as can end at one place. */
static void every_length(int falling) {
    uint8_t body[1024];
    memset(body, 'a', sizeof body);
    book_len = 0;
    for (size_t i = 0; i < 68; i++) {
        size_t k = falling ? 68 - i : i + 1;
        add(body, k <= 64 ? k : (size_t)64 << (k - 64));
    }
    book[book_len++] = 0;
    memset(image, 'a', 1100);
    full(1100);
}

/* A book of tokens of one byte over and over, but for the one at a place, which counts up. */
static void all_but_one(size_t count, size_t size, size_t place) {
    uint8_t body[1024];
    book_len = 0;
    for (size_t i = 0; i < count; i++) {
        memset(body, 255, size);
        body[place] = i;
        add(body, size);
    }
    book[book_len++] = 0;
}

/* 20,000 random bytes with the book's first token, of this size, in either order. */
static void random_image(size_t size) {
    for (size_t i = 0; i < 20000; i++) image[i] = some();
    for (size_t at = 5000; at < 20000; at += 5000) plant(book + 1, size, at);
}

/* More bytes spared than 32 bits count: "b", and "b" before 1,023 times "a", in an image of "a" alone. The round at boundary b looks at b
 * bytes, or at 1,024 if b is more, so the bytes fetched and spared are known in all. */
static void billions(size_t n) {
    static uint16_t t[TABLES - 1][ENTRIES];
    static uint8_t labels[ENTRIES], body[1024];
    static uint32_t none[2];
    memset(body, 'a', sizeof body), body[0] = 'b';
    book_len = 0;
    add(body, 1), add(body, sizeof body);
    book[book_len++] = 0;
    memset(image, 'a', n);
    lonnatchi_swept r = lonnatchi_sweep(book, book_len, image, n, t[0], ENTRIES, labels, ENTRIES, t[1], ENTRIES, t[2], ENTRIES, t[3], ENTRIES,
                                        t[4], ENTRIES, none, 0, none + 1, 0);
    same("refusal", r.refusal, 0), same("hits", r.hits, 0), same("looks", r.fetched + r.spared, 1024 * (uint64_t)n - 1023 * 512);
    same("spared past 32 bits", r.spared >> 32, 1);
}

static void largest_books(void) {
    /* The largest books, one token more, and 256 and 257 tokens; the last one is the first reversed, and 5 comes before 4. */
    static const size_t many[] = {16, 17, 256, 257, 256, 256, 257, 256}, size[] = {1024, 1024, 8, 8, 64, 7, 7, 7};
    for (int i = 0; i < 8; i++) {
        book_len = 0;
        add_random(many[i], size[i], 0);
        if (i == 7) add_first_turned(7);
        book[book_len++] = 0;
        random_image(size[i]);
        full(20000);
    }
    /* As many bytes of words as there may be, by a last token that reads the same backwards; and more, by one that does not. */
    for (int i = 0; i < 2; i++) {
        book_len = 0;
        add_random(51, 10, 0), add_random(15, 1024, 0), add((const uint8_t *)(i ? "abbc" : "abba"), 4);
        book[book_len++] = 0;
        random_image(10);
        full(20000);
    }
    /* Tokens that, without their last bytes, are found far down the tree, or behind many siblings. */
    all_but_one(16, 1024, 0), random_image(1024), full(20000);
    all_but_one(256, 64, 62), random_image(64), full(20000);
}

int main(void) {
    image = malloc(LIMIT + 1);
    for (int i = 0; i < 4000; i++) random_case();
    for (int i = 0; i < 300; i++) nested_case();
    for (int i = 0; i < 400; i++) run_case();
    for (int i = 0; i < 100; i++) short_cases();
    every_length(0), every_length(1);
    largest_books();
    /* The largest image, and one byte more: first of one letter, then random. */
    for (int i = 0; i < 2; i++) {
        book_len = 0;
        if (i) add_random(3, 8, 0);
        else add((const uint8_t *)"abaaaaaaaaaa", 12);
        book[book_len++] = 0;
        for (size_t k = 0; k <= LIMIT; k++) image[k] = i ? some() : 'a';
        full(LIMIT), full(LIMIT + 1);
    }
    billions(4400000);
    printf("gateway: %lu books and images, %lu calls of each function agree with the plain reading\n", cases, calls);
    return 0;
}
