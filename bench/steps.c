/* Times one step of a sweep by single bytes, and one by a packet, beside a plain pass over as many nodes, in one run. */
#include "common.h"

/* Tokens of one size, so that S is the size, and the nodes 1 to `size` are the first token's. */
enum { IMAGE = 1 << 24 };
static size_t size;
static uint8_t stray_first, stray_last;

/* A byte that leads to no child of the node. */
static uint8_t stray(size_t node) {
    for (int byte = 0; byte < 256; byte++) {
        size_t at = first[node];
        while (at != 0 && label[at] != byte) at = next[at];
        if (at == 0) return byte;
    }
    fprintf(stderr, "node %zu has a child for each byte\n", node);
    exit(1);
}

/* A step asks for a place (kind 1) from `low` on, and below `high`. */
static void asked(told r, size_t low, size_t high) {
    sink = r.numbers[0];
    if (r.kind == 1 && sink >= low && sink < high) return;
    fprintf(stderr, "a step answered %zu %zu\n", r.kind, r.numbers[0]);
    exit(1);
}

/* The numbers of a state (crates/probe/specs/States.antt): at the start, with a byte due there, and with one due at a token's last. */
enum { NODE = 4, DEPTH, DUE };
static size_t fresh[NUMBERS], due_first[NUMBERS], due_last[NUMBERS];

static void make_states(void) {
    probe_start(fresh, NUMBERS, IMAGE, size, nodes);
    memcpy(due_first, fresh, sizeof fresh);
    due_first[DUE] = 1;
    memcpy(due_last, due_first, sizeof fresh);
    due_last[NODE] = due_last[DEPTH] = size - 1;
}

/* One step with a byte that is due; the call lays the next state over the one it is lent. */
static told supplied(const size_t *from, uint8_t byte) {
    size_t state[NUMBERS];
    memcpy(state, from, sizeof state);
    return probe_supply(state, NUMBERS, LENT, byte);
}

/* The first token's bytes from its last one on, as many as a packet has room for and one of them still wanted after it. */
static uint8_t packet[PACKET];
static size_t packet_len;

static void make_packet(void) {
    packet_len = size - 1 < PACKET ? size - 1 : PACKET;
    memcpy(packet, label + 1, packet_len);
}

/* A state as large as the proved one, and what a step hands back. */
typedef struct {
    size_t numbers[8], stretches[5][3], supplied, spared;
    uint8_t due;
} state;
typedef struct {
    state next;
    size_t answer[3];
} stepped;

/* The least that a call by value can do: it is handed a state, passes over the nodes, and hands the state back. */
__attribute__((noinline)) static stepped bare(state s, READ, uint8_t byte) {
    stepped r = {.next = s};
    uint64_t sum = byte + parent_len + label_len + token_len + first_len + next_len + shift_len;
    for (size_t v = 0; v < s.numbers[0]; v++) sum = sum * 31 + parent[v] + label[v] + token[v] + first[v] + next[v] + shift[v];
    r.next.numbers[5] += 1;
    r.answer[0] = sum;
    return r;
}

static void bare_call(void) {
    state s = {.numbers = {nodes, IMAGE, size, size}};
    stepped r = bare(s, LENT, 0);
    sink = r.answer[0] + r.next.numbers[5];
}

/* The first step looks at the place before the boundary. */
static void look(void) {
    size_t state[NUMBERS];
    memcpy(state, fresh, sizeof state);
    asked(probe_carry_on(state, NUMBERS, LENT), size - 1, size);
}

/* The first byte matches: on to a child, and a look at the place before. */
static void match(void) { asked(supplied(due_first, label[1]), size - 2, size - 1); }

/* The packet's bytes match, and are all used: on down the token, and a look at the place before. */
static void match_packet(void) {
    size_t state[NUMBERS];
    memcpy(state, due_first, sizeof state);
    told r = probe_packet(state, NUMBERS, LENT, packet, packet_len);
    asked(r, size - 1 - packet_len, size - packet_len);
    if (r.numbers[3] == packet_len) return;
    fprintf(stderr, "of %zu bytes %zu were used\n", packet_len, r.numbers[3]);
    exit(1);
}

/* The first byte matches no token: the round ends, rule 5 goes over all tokens, and the next round looks. */
static void miss(void) { asked(supplied(due_first, stray_first), size, 2 * size); }

/* The same at the last byte of a token. */
static void late(void) { asked(supplied(due_last, stray_last), size, 2 * size); }

static void prepare(size_t count) {
    make_book(count, size);
    build_tables();
    make_states();
    make_packet();
    stray_first = stray(0);
    stray_last = stray(size - 1);
}

enum { PASS, MATCH = 4, STEPS = 7, BY_PACKET = STEPS, RUNS };
static void (*const runs[RUNS])(void) = {pass_tables, bare_call, test_tables, look, match, miss, late, match_packet};

/* Last, how many times as much the packet's bytes cost singly. */
static void row(size_t count) {
    double took[RUNS];
    least(runs, took, RUNS);
    printf("%4zu x %-5zu %7zu %9.3f us", count, size, nodes, took[PASS] * 1e6);
    for (size_t j = 1; j < STEPS; j++) printf(" %9.3f us %4.1f", took[j] * 1e6, took[j] / took[PASS]);
    printf(" %7zu %9.3f us %4.2f %13.1f\n", packet_len, took[BY_PACKET] * 1e6, took[BY_PACKET] / took[MATCH],
           packet_len * took[MATCH] / took[BY_PACKET]);
}

int main(void) {
    static const size_t cases[][2] = {{1, 5}, {16, 64}, {128, 8}, {16, 1024}, {256, 64}};
    printf("%-12s %7s %12s %17s %17s %17s %17s %17s %17s %7s %17s %13s\n", "book", "nodes", "pass", "bare call/pass", "test/pass",
           "look/pass", "match/pass", "miss/pass", "late miss/pass", "bytes", "packet/match", "singly/packet");
    for (size_t i = 0; i < sizeof cases / sizeof *cases; i++) {
        size = cases[i][1];
        prepare(cases[i][0]);
        row(cases[i][0]);
    }
    return 0;
}
