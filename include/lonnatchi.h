/* The two calls of the gateway: building the tables of a revocation book, and sweeping a whole image for its tokens.
 *
 * Both answer for all bytes and lengths. What C must see to, since no proof covers the caller:
 *  - no pointer is NULL, also where its length is 0;
 *  - each pointer has as many entries as its length says, and is aligned as its type asks;
 *  - the tables and hit buffers do not overlap each other, the book or the image;
 *  - no other thread changes them during the call.
 * lonnatchi_sweep needs about 200 KB of stack, lonnatchi_build about 35 KB.
 *
 * Parameters, each with its length beside it, counted in entries and not in bytes:
 *   book                                        the revocation book's bytes, its closing 00h included; read only
 *   image                                       the machine's memory; read only
 *   parent, label, token, first_child,          the six tables, one entry a node. 1 + the book's body bytes, those of reverses
 *   next_sibling, shift                         included, are enough, and 16,385 for any book; the lengths may differ
 *   ends, tokens                                the hit buffers; any lengths, also 0, and they may differ
 *
 * A token of 4, 7 or 10 bytes is a card number: it occurs in book order or reversed, and both orders count toward the body bytes, one that
 * reads the same backwards once.
 *
 * A refusal is a number with a value; 0 means none, with value 0. On a refusal the numbers after the value are 0.
 *
 *   1  the book runs out before 00h            place of the unfinished record, or the book's length if a kind byte is missing
 *   2  a kind above 44h                        its place
 *   3  bytes after 00h                         place of the first
 *   4  a body equal to an earlier one, or to   its record's place
 *      the reverse of an earlier card number
 *   5  token 257, or over 16,384 body bytes    its record's place
 *   6  no token                                0
 *   7  a table shorter than 1 + body bytes     that number
 *   8  an image over 16,777,216 bytes          that limit
 *  12  more hits than the shorter buffer holds number of all hits
 *
 * The first cause in this order is answered (at a record: 1 for a missing kind, 2, 1 for a short body, 5, 4). Other numbers do not come
 * from these calls.
 */
#ifndef LONNATCHI_H
#define LONNATCHI_H

#include <stddef.h>
#include <stdint.h>

#ifdef __cplusplus
extern "C" {
#endif

/* The number of nodes, and the shortest and the longest token's length. */
typedef struct {
    uint64_t refusal, value, nodes, shortest, longest;
} lonnatchi_built;

/* Builds the six tables of the book, one entry a node: its parent, its label, the token that ends there in one of its orders (0: none),
 * its first child and its next sibling (0: none), and its shift. That is how far the sweep may move on when it has matched the node's
 * bytes: the least number of places, at least 1, after which some token, in one of its orders, agrees with all of these bytes that it lies
 * over; it is the shortest token's length at most. Entries behind the last node stay as they are; so does every entry on a refusal (1 to
 * 7). */
lonnatchi_built lonnatchi_build(const uint8_t *book, size_t book_len, uint16_t *parent, size_t parent_len, uint8_t *label,
                                size_t label_len, uint16_t *token, size_t token_len, uint16_t *first_child, size_t first_child_len,
                                uint16_t *next_sibling, size_t next_sibling_len, uint16_t *shift, size_t shift_len);

/* The numbers of hits, of bytes fetched, and of bytes spared: those that the sweep looked at and took from what it remembers, instead of
 * fetching them again. */
typedef struct {
    uint64_t refusal, value, hits, fetched, spared;
} lonnatchi_swept;

/* Finds every token of the book in the image, card numbers in either order. Hit i ends before image byte ends[i], and is token number
 * tokens[i], from 1; ends rise, and at one end the longest token comes first. Up to refusal 8 nothing is written. Else the tables are
 * built, and the buffers hold the hits from the front, after refusal 12 as many as the shorter one has entries; what is behind them stays
 * as it is. */
lonnatchi_swept lonnatchi_sweep(const uint8_t *book, size_t book_len, const uint8_t *image, size_t image_len, uint16_t *parent,
                                size_t parent_len, uint8_t *label, size_t label_len, uint16_t *token, size_t token_len,
                                uint16_t *first_child, size_t first_child_len, uint16_t *next_sibling, size_t next_sibling_len,
                                uint16_t *shift, size_t shift_len, uint32_t *ends, size_t ends_len, uint32_t *tokens, size_t tokens_len);

#ifdef __cplusplus
}
#endif

#endif
