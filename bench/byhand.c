#include "byhand.h"
#include <string.h>

enum { NODES = 16385, DEPTHS = 64, LENGTHS = 68, TOKENS = 256, WORDS = 2 * TOKENS, CARD = 10, LONGEST = 1024, NEAR = 8 };

static const uint8_t *last[WORDS]; /* the last byte of each word */
static size_t size[WORDS], many;
static uint16_t number[WORDS]; /* of the token whose word it is */
static uint8_t turned[TOKENS][CARD]; /* the reverses of card numbers */
static uint8_t label[NODES];
static uint16_t parent[NODES], token[NODES], first[NODES], next[NODES], shift[NODES];
static size_t nodes;
static uint16_t whole[NODES]; /* of each node the least shift at which a whole shortened word is its ending, or that of a node above */
static uint16_t kids[256], skip[256], pairs[65536], by_byte[DEPTHS * 256];

static size_t body_length(uint8_t kind) { return kind <= 64 ? kind : (size_t)128 << (kind - 65); }

static int is_card(size_t length) { return length == 4 || length == 7 || length == CARD; }

static void add_word(const uint8_t *word, size_t length, size_t t) {
    last[many] = word + length - 1;
    size[many] = length;
    number[many++] = t;
}

/* A card number's bytes reversed, if they then differ. */
static void add_turned(const uint8_t *body, size_t length, size_t t) {
    uint8_t *word = turned[t - 1];
    for (size_t i = 0; i < length; i++) word[i] = body[length - 1 - i];
    if (memcmp(word, body, length)) add_word(word, length, t);
}

/* Where the words of the tokens stand, and the shortest one's length. */
static size_t read_book(const uint8_t *book) {
    size_t shortest = 1024, length, t = 0;
    many = 0;
    for (size_t at = 0; book[at]; at += 1 + length) {
        length = body_length(book[at]);
        add_word(book + at + 1, length, ++t);
        if (is_card(length)) add_turned(book + at + 1, length, t);
        if (length < shortest) shortest = length;
    }
    return shortest;
}

static void build(void) {
    nodes = 1;
    parent[0] = token[0] = first[0] = next[0] = 0;
    for (size_t w = 0; w < many; w++) {
        size_t node = 0;
        for (size_t k = 0; k < size[w]; k++) {
            uint8_t x = *(last[w] - k);
            size_t at = first[node], before = 0;
            while (at && label[at] != x) before = at, at = next[at];
            if (!at) {
                at = nodes++;
                parent[at] = node;
                label[at] = x;
                token[at] = first[at] = next[at] = 0;
                if (before) next[before] = at;
                else first[node] = at;
            }
            node = at;
        }
        token[node] = number[w];
    }
    memset(kids, 0, sizeof kids);
    for (size_t at = first[0]; at; at = next[at]) kids[label[at]] = at;
}

static void lower(uint16_t *least, size_t s) {
    if (s < *least) *least = s;
}

/* Walks a word without its last s bytes from its right end down the tree: all of it agrees with the nodes met, and if it is walked to its
 * left end, with those below the last one too. */
static void walk_shortened(size_t w, size_t s) {
    const uint8_t *end = last[w] - s;
    size_t length = size[w] - s, node = kids[*end], k = 0;
    while (node) {
        lower(&shift[node], s);
        if (++k == length) {
            lower(&whole[node], s);
            return;
        }
        node = first[node];
        while (node && label[node] != *(end - k)) node = next[node];
    }
}

/* Rule 5's node shifts: of each node the smallest s at which a word, moved s to the right, agrees with its ending. */
static void fill_shifts(size_t shortest) {
    for (size_t v = 0; v < nodes; v++) shift[v] = whole[v] = shortest;
    shift[0] = 1;
    for (size_t w = 0; w < many; w++)
        for (size_t s = 1; s < shortest; s++) walk_shortened(w, s);
    for (size_t v = 1; v < nodes; v++) {
        lower(&whole[v], whole[parent[v]]);
        lower(&shift[v], whole[v]);
    }
}

/* The same for the byte x left of d matched ones alone. */
static size_t byte_shift(size_t shortest, size_t d, uint8_t x) {
    size_t best = shortest;
    for (size_t w = 0; w < many && best > 1; w++)
        for (size_t s = 1; s < best; s++)
            if (size[w] <= d + s || *(last[w] - d - s) == x) best = s;
    return best;
}

/* Where the shortest word lies right of the closing byte when moved by one, the byte shift is 1. */
static size_t shift_of(size_t shortest, size_t node, size_t d, int closed, uint8_t x) {
    size_t by = shift[node], other;
    if (!closed || shortest <= d + 1) return by;
    if (d >= DEPTHS) {
        other = byte_shift(shortest, d, x);
    } else {
        other = by_byte[256 * d + x];
        if (!other) other = by_byte[256 * d + x] = byte_shift(shortest, d, x);
    }
    return other > by ? other : by;
}

/* The run of equal bytes that a round ended with, from `from` up to `till`; of its byte as many powers as are known, x, xx and so on, and
 * whether the tree has no more. */
typedef struct {
    size_t from, till, known;
    int ended;
    uint8_t byte;
} runs;

/* The node of each power, how many tokens are powers as long as it or shorter, and these tokens. */
static uint16_t power[LONGEST + 1], upto[LONGEST + 1], power_tokens[LENGTHS];

/* Where equal bytes that end at b begin, at most `enough` of them; no place is looked at twice. */
static size_t run_begin(const runs *run, const uint8_t *image, size_t b, size_t enough) {
    uint8_t x = image[b - 1];
    size_t i = b - 1;
    for (; run->till < i && b - i < enough; i--)
        if (image[i - 1] != x) return i;
    return i == run->till && i && image[i - 1] == x ? run->from : i;
}

static size_t child(size_t node, uint8_t x) {
    size_t at = first[node];
    while (at && label[at] != x) at = next[at];
    return at;
}

static void raise_powers(runs *run, size_t most) {
    while (run->known < most && !run->ended) {
        size_t at = child(power[run->known], run->byte), met = upto[run->known];
        run->ended = !at;
        if (!at) return;
        if (token[at]) power_tokens[met++] = token[at];
        power[++run->known] = at, upto[run->known] = met;
    }
}

/* The run that ends at boundary b, if there seems to be one, with the powers that it leads to. */
static void follow(runs *run, const uint8_t *image, size_t b) {
    uint8_t x = image[b - 1];
    if (b < NEAR || image[b - NEAR] != x || image[b - 2] != x) return;
    if (x != run->byte) run->byte = x, run->known = 0, run->ended = 0;
    run->from = run_begin(run, image, b, run->ended ? run->known + 1 : b);
    run->till = b;
    raise_powers(run, b - run->from < LONGEST ? b - run->from : LONGEST);
}

/* Where a round is: its node and depth, the tokens met, and whether the byte x closed it, which no child has. */
typedef struct {
    size_t node, depth, count;
    int closed;
    uint8_t x;
    uint16_t met[LENGTHS];
} way;

static void meet(way *w, size_t node) {
    w->node = node;
    if (token[node]) w->met[w->count++] = token[node];
}

/* To the power of the run that ends at b. */
static void go_along(way *w, const runs *run, size_t b) {
    size_t length = b - run->from;
    w->depth = run->known < length ? run->known : length;
    w->node = power[w->depth];
    w->count = upto[w->depth];
    memcpy(w->met, power_tokens, w->count * sizeof *w->met);
    w->x = run->byte;
    w->closed = run->ended && w->depth < length && first[w->node];
}

/* To the root's child. */
static void start(way *w, uint8_t x) {
    w->count = w->depth = 0;
    w->x = x;
    w->closed = !kids[x];
    if (w->closed) {
        w->node = 0;
        return;
    }
    w->depth = 1;
    meet(w, kids[x]);
}

static void go_down(way *w, const runs *run, const uint8_t *image, size_t b) {
    if (run->till == b) go_along(w, run, b);
    else start(w, image[b - 1]);
    while (!w->closed && first[w->node] && w->depth != b) {
        w->x = image[b - 1 - w->depth];
        size_t at = child(w->node, w->x);
        w->closed = !at;
        if (!at) return;
        w->depth++;
        meet(w, at);
    }
}

/* Notes the tokens that a round met on its way down, the last and longest first; how many hits there are then. */
static uint64_t note(uint64_t hits, const uint16_t *met, size_t count, uint32_t end, uint32_t *ends, uint32_t *tokens, size_t room) {
    while (count--) {
        if (hits < room) ends[hits] = end, tokens[hits] = met[count];
        hits++;
    }
    return hits;
}

/* Rounds that end at their first or second byte, where nothing is remembered and their shift is known; the boundary then. */
static size_t skim(const uint8_t *image, size_t n, size_t b, size_t shortest, uint64_t *fetched) {
    while (b <= n) {
        const uint8_t *p = image + b - 1;
        size_t by = skip[*p];
        if (by) {
            int full = shortest < 256 && b + 3 * shortest <= n &&
                       by + (size_t)skip[p[shortest]] + skip[p[2 * shortest]] + skip[p[3 * shortest]] == 4 * shortest;
            *fetched += full ? 4 : 1;
            b += full ? 4 * shortest : by;
        } else if (b > 1 && (by = pairs[256 * p[-1] + *p])) {
            *fetched += 2;
            b += by;
        } else {
            break;
        }
    }
    return b;
}

/* The stretches that are remembered. */
typedef struct {
    struct {
        size_t left, right;
    } kept[5];
    size_t used;
} stretches;

/* A round looked at the places from `low` up to b, matched those from `from` on, and shifts by `by`: how many of them were remembered; and
 * what is remembered then. */
static size_t remember(stretches *s, size_t low, size_t from, size_t b, size_t by) {
    size_t edge = from, known = 0, k = 0;
    for (size_t i = 0; i < s->used; i++) {
        size_t left = s->kept[i].left, right = s->kept[i].right, seen = left > low ? left : low;
        if (right > seen) known += right - seen;
        if (left >= from) continue;
        if (right > edge) edge = right;
        if (4 * (b + by - right) <= right - left) s->kept[k++] = s->kept[i];
    }
    if (4 * by <= b - edge) s->kept[k].left = edge, s->kept[k++].right = b;
    s->used = k;
    return known;
}

static void forget_all(void) {
    memset(skip, 0, sizeof skip);
    memset(pairs, 0, sizeof pairs);
    memset(by_byte, 0, sizeof by_byte);
    power[0] = upto[0] = 0;
}

byhand_found byhand_sweep(const uint8_t *book, const uint8_t *image, size_t n, uint32_t *ends, uint32_t *tokens, size_t room) {
    way w;
    runs run = {0, 0, 0, 0, 0};
    stretches memory = {.used = 0};
    size_t shortest = read_book(book), b = shortest;
    int again = 0; /* the last round went down more bytes than it shifted by */
    byhand_found found = {0, 0, 0};
    build();
    fill_shifts(shortest);
    forget_all();
    while (b <= n) {
        if (again) follow(&run, image, b);
        go_down(&w, &run, image, b);
        found.hits = note(found.hits, w.met, w.count, b, ends, tokens, room);
        size_t by = shift_of(shortest, w.node, w.depth, w.closed, w.x), from = b - w.depth, low = from - w.closed;
        if (!w.depth && w.closed) skip[w.x] = by;
        if (w.depth == 1 && w.closed && !w.count) pairs[256 * w.x + image[b - 1]] = by;
        found.fetched += b - low;
        if (memory.used || w.depth >= 4 * by) {
            size_t known = remember(&memory, low, from, b, by);
            found.fetched -= known, found.spared += known;
        }
        again = by < w.depth;
        b += by;
        if (!memory.used) b = skim(image, n, b, shortest, &found.fetched);
    }
    return found;
}
